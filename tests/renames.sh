#!/usr/bin/env bash
# Another database is renamed over the file at a random moment of a run, as programs do that save by writing anew. The database that has
# the name in the end is the other one, whole, as it was or as the run has changed it where it was opened by the run; never the old
# one's pages in it. The run has a file open before it is replaced: one that opens the other file from the start plays back the journal
# beside it, as SQLite does.
#
#     tests/renames.sh [TRIALS [SEED]]
#
# TRIALS is how many trials each command has, 15 where it is not given. PROGRAM names another program.
set -u
. "$(dirname "$0")/common.sh"
begin 'renames'
trials=${1:-15}
seed=${2:-7}

. "$top/tests/others.sh"
needs sqlcipher

write_database 3 "$k1" "$scratch/file" 300
write_database 3 "$k1" "$scratch/other" 250
echo "INSERT INTO log VALUES(77);" | sql 3 "$k1" "$scratch/other"
dump 3 "$k1" "$scratch/other" > "$scratch/dump"
leave_hot 3 "$k1" "$scratch/file" "$scratch/hot"
printf '%s\n' "$k1" "$k2" > "$scratch/keys"

has_open() { # has_open PROCESS FILE
    local open
    for open in /proc/"$1"/fd/*; do
        [ ! "$open" -ef "$2" ] || return 0
    done
    return 1
}

trial() { # trial NAME NUMBER HOT LONGEST WORDS..
    local name=$1 number=$2 hot=$3 longest=$4 folder=$scratch/$1-$2 run status key
    shift 4
    mkdir "$folder"
    cp "$scratch/other" "$folder/other"
    if [ "$hot" = hot ]; then cp "$scratch/hot" "$folder/file"; cp "$scratch/hot-journal" "$folder/file-journal"; else cp "$scratch/file" "$folder/file"; fi
    RANDOM=$((seed + number))
    "$program" "$folder/file" "$@" < "$scratch/keys" > "$folder/lines" 2> "$folder/errors" &
    run=$!
    sleep "$(seconds $((RANDOM % longest)))"
    until has_open "$run" "$folder/file" || ! kill -0 "$run" 2> /dev/null; do :; done
    mv "$folder/other" "$folder/file"
    wait "$run"
    status=$?
    grep -q 'the file was replaced' "$folder/errors" && echo seen >> "$scratch/seen-$name"
    # The file that has the name, without what is left beside it, which was another's.
    cp "$folder/file" "$folder/left"
    key=$(which_key 3 "$folder/left")
    if [ -z "$key" ] || [ "$(check 3 "$key" "$folder/left")" != ok ] || ! dump 3 "$key" "$folder/left" | sed 's/PRAGMA user_version.*//' | cmp -s - "$scratch/dump"; then
        say "$name: trial $number: LOST: status $status, $(head -n 1 "$folder/errors")"
    fi
    # It was changed by the run only where the run has said so.
    cmp -s "$folder/left" "$scratch/other" || [ "$status" -eq 0 ] || say "$name: trial $number: it was changed, with status $status"
    rm -rf "$folder"
}

trials_of() { # trials_of NAME HOT WORDS..
    local name=$1 hot=$2 number longest file=$scratch/file
    shift 2
    [ "$hot" = cold ] || file=$scratch/hot
    longest=$(duration "$file" "$scratch/keys" "$@")
    for number in $(seq "$trials"); do trial "$name" "$number" "$hot" "$longest" "$@"; done
    echo "renames: $name: $trials trials, $(cat "$scratch/seen-$name" 2> /dev/null | wc -l) of them refused"
}

trials_of rekey cold rekey 3 3 &
trials_of migrate cold migrate 3 3 &
trials_of stamp cold stamp 3 user-version 9 &
trials_of recover hot recover 3 &
wait
cat "$scratch"/seen-* > /dev/null 2>&1 || say "no run met a rename"
finish "$((trials * 4)) trials of seed $seed"
