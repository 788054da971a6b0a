#!/usr/bin/env bash
# Two runs of the program at one file, the second begun at a random moment of the first. Whatever they answer, the file is whole
# afterwards: after `recover` the program verifies it under one of the keys that were given, and the product finds it sound with
# the rows of the start. A run that meets the other ends with status 4 and says so. Of two runs of `make` at most one says that it
# made the file.
#
#     tests/two_runs.sh [TRIALS [SEED]]
#
# TRIALS is how many trials each pair of commands has, 10 where it is not given. PROGRAM names another program.
set -u
. "$(dirname "$0")/common.sh"
begin 'two runs'
trials=${1:-10}
seed=${2:-7}

. "$top/tests/others.sh"
needs sqlcipher

write_database 3 "$k1" "$scratch/file" 300
dump 3 "$k1" "$scratch/file" > "$scratch/dump"

# What a run is given: key lines, or of `play` a file with its script.
# shellcheck disable=SC2086
given() { case $1 in /*) cat "$1" ;; *) printf '%s\n' $1 ;; esac; }

run() { # run FOLDER NUMBER KEYS WORDS..: the status goes to a file
    local folder=$1 number=$2 keys=$3
    shift 3
    given "$keys" | "$program" "$folder/file" "$@" > "$folder/lines-$number" 2> "$folder/errors-$number"
    echo $? > "$folder/status-$number"
}

# The file after both have ended.
settle() { # settle NAME FOLDER
    local name=$1 folder=$2 key
    cp "$folder/file" "$folder/left" && { [ ! -e "$folder/file-journal" ] || cp "$folder/file-journal" "$folder/left-journal"; }
    "$program" "$folder/file" recover 3 > /dev/null 2>&1 < /dev/null || say "$name: not recovered"
    key=$(which_key 3 "$folder/file")
    if [ -z "$key" ]; then
        say "$name: LOST: it verifies under no key"
    elif [ "$(check 3 "$key" "$folder/file")" != ok ] || ! dump 3 "$key" "$folder/file" | cmp -s - "$scratch/dump"; then
        say "$name: LOST: the product does not find it sound"
    elif ! dump 3 "$key" "$folder/left" | cmp -s - "$scratch/dump"; then
        say "$name: LOST: without recover the product reads other rows"
    fi
}

meets() { # meets NAME FOLDER: whether one of the two runs has met the other, which ends it before it prints a line
    local number found=1
    for number in 1 2; do
        grep -q 'another run of sqlcipher-tool has the file' "$2/errors-$number" || continue
        found=0
        grep -qx 4 "$2/status-$number" && [ ! -s "$2/lines-$number" ] ||
            say "$1: run $number met the other, ended with $(cat "$2/status-$number") and printed $(head -n 1 "$2/lines-$number")"
    done
    return "$found"
}

pair() { # pair NAME HOT KEYS WORDS KEYS WORDS: so many trials
    local name=$1 hot=$2 trial folder=$scratch/$1 refused=0 delay longest file=$scratch/file
    mkdir "$folder"
    [ "$hot" = no ] || file=$scratch/hot
    given "$3" > "$folder/keys"
    # shellcheck disable=SC2086
    longest=$(duration "$file" "$folder/keys" $4)
    RANDOM=$seed
    for trial in $(seq "$trials"); do
        rm -rf "$folder/trial" && mkdir "$folder/trial"
        cp "$file" "$folder/trial/file"
        [ "$hot" = no ] || cp "$file-journal" "$folder/trial/file-journal"
        delay=$(seconds $((RANDOM % longest)))
        # shellcheck disable=SC2086
        { run "$folder/trial" 1 "$3" $4 & }
        sleep "$delay"
        # shellcheck disable=SC2086
        run "$folder/trial" 2 "$5" $6
        wait
        settle "$name, trial $trial after $delay s" "$folder/trial"
        ! meets "$name, trial $trial after $delay s" "$folder/trial" || refused=$((refused + 1))
    done
    echo "$name $refused" >> "$scratch/refused"
}

makes() { # two runs of `make` with two keys
    local trial folder=$scratch/makes refused=0 done_by key made_in
    mkdir "$folder" "$folder/timed"
    made_in=$(date +%s%N)
    run "$folder/timed" 1 "$k1" make 3 300
    made_in=$((($(date +%s%N) - made_in) / 1000000 + 10))
    RANDOM=$seed
    for trial in $(seq "$trials"); do
        rm -rf "$folder/trial" && mkdir "$folder/trial"
        { run "$folder/trial" 1 "$k1" make 3 300 & }
        sleep "$(seconds $((RANDOM % made_in)))"
        run "$folder/trial" 2 "$k2" make 3 300
        wait
        done_by=$(grep -lx 0 "$folder/trial/status-1" "$folder/trial/status-2" | wc -l)
        [ "$done_by" -eq 1 ] || say "make, make: trial $trial: $done_by of the two say that they made it"
        key=$k1
        grep -qx 0 "$folder/trial/status-1" || key=$k2
        printf '%s\n' "$key" | "$program" "$folder/trial/file" verify 3 > /dev/null 2>&1 || say "make, make: trial $trial: LOST: it is not under the key of the run that made it"
        [ ! -e "$folder/trial/file-migrated" ] || say "make, make: trial $trial: a new file is left"
        ! meets "make, make: trial $trial" "$folder/trial" || refused=$((refused + 1))
    done
    echo "makes $refused" >> "$scratch/refused"
}

leave_hot 3 "$k1" "$scratch/file" "$scratch/hot"

# Scripts of two commits, of which neither changes a row: each seals every page, the second one under another key.
script() { # script FILE KEY
    printf '%s\n' "open 0 3 $k1" 'share 0' 'reserve 0' "rekey 0 3 $k1" 'commit 0' 'share 0' 'reserve 0' "rekey 0 3 $2" 'commit 0' > "$1"
}
script "$scratch/to-k2" "$k2"
script "$scratch/to-k3" "$k3"

pair rekey-rekey no "$k1 $k2" 'rekey 3 3' "$k1 $k3" 'rekey 3 3' &
pair rekey-verify no "$k1 $k2" 'rekey 3 3' "$k1" 'verify 3' &
pair rekey-salvage no "$k1 $k2" 'rekey 3 3' "$k1" 'salvage 3' &
pair rekey-recover no "$k1 $k2" 'rekey 3 3' "$k1" 'recover 3' &
pair rekey-migrate no "$k1 $k2" 'rekey 3 3' "$k1 $k3" 'migrate 3 3' &
wait
pair migrate-migrate no "$k1 $k2" 'migrate 3 3' "$k1 $k3" 'migrate 3 3' &
pair migrate-rekey no "$k1 $k2" 'migrate 3 3' "$k1 $k3" 'rekey 3 3' &
pair stamp-stamp no "$k1" 'stamp 3 application-id 0' "$k1" 'stamp 3 application-id 0' &
pair recover-recover yes "$k1" 'recover 3' "$k1" 'recover 3' &
makes &
wait
pair play-play no "$scratch/to-k2" 'play 3' "$scratch/to-k3" 'play 3' &
pair play-verify no "$scratch/to-k2" 'play 3' "$k1" 'verify 3' &
pair play-rekey no "$scratch/to-k2" 'play 3' "$k1 $k3" 'rekey 3 3' &
pair rekey-play no "$k1 $k2" 'rekey 3 3' "$scratch/to-k3" 'play 3' &
wait

met=$(awk '{ sum += $2 } END { print sum + 0 }' "$scratch/refused")
# A trial in which the two never meet shows nothing.
[ "$met" -gt 0 ] || say "no second run met the first"
finish "$((trials * 14)) trials of seed $seed, in $met of them one run met the other"
