#!/usr/bin/env bash
# `agree` on plain files with indexes of every kind, and on files whose indexes were damaged in 19 ways (tests/reference/oracle/index_files.py):
# as they are, beside hot journals, and migrated to versions 1 to 4. Lines and status are those of the reference, and an index that is said to
# differ is one that SQLite and the product blame (tests/reference/oracle/check_indexes.py). Databases of `make` agree.
#
#     tests/agree.sh
#
# PROGRAM names another program, JOBS another number of runs side by side. Needs Python's `cryptography`.
set -u
. "$(dirname "$0")/common.sh"
begin 'agree'
jobs=${JOBS:-4}
oracle=$top/tests/reference/oracle

if ! has_reference; then
    leave_out "agree, since Python's cryptography is missing"
    finish
fi
has sqlcipher || leave_out "the product beside it, since sqlcipher is missing"

# What has to be found wrong: a program that finds each index as it should be, and one that leaves out what it found of the first.
stand_in() { # stand_in NAME LINES: of a shell, what it does for `agree`
    printf '#!/bin/sh\n[ "$2" = agree ] || exec "%s" "$@"\n%s\n' "$program" "$2" > "$scratch/$1"
    chmod 755 "$scratch/$1"
}
stand_in pleased 'echo "ok: 2 indexes, 600 entries, 0 not checked"'
stand_in short "\"$program\" \"\$@\" > \"\$1.lines\"; status=\$?; sed 1d \"\$1.lines\"; rm \"\$1.lines\"; exit \"\$status\""

mkdir "$scratch/files"
python3 "$oracle/index_files.py" "$scratch/files" > "$scratch/made" 2>&1 || { cat "$scratch/made"; say "the files are not made"; finish; }

check() { # check PROGRAM FILES FOLDER: the last line goes to FOLDER.lines
    mkdir "$3" && python3 "$oracle/check_indexes.py" "$1" "$2" "$3" $(product 3) > "$3.lines" 2>&1
}

# The files are dealt out, each part with the list of what was done to them.
number=0
for file in "$scratch"/files/*.db; do
    part=$scratch/part-$((number % jobs))
    [ -d "$part" ] || { mkdir "$part" && cp "$scratch/files/damage.tsv" "$part/"; }
    ln "$file" "$part/"
    number=$((number + 1))
done
started=()
for ((part = 0; part < jobs; part++)); do
    check "$program" "$scratch/part-$part" "$scratch/run-$part" &
    started+=("$!")
done
for ((part = 0; part < jobs; part++)); do
    wait "${started[part]}" || { grep -v 'files=' "$scratch/run-$part.lines" | head -n 20; say "a run fails"; }
done
told() { total "$1" "$scratch"/run-*.lines; }
[ "$(told files)" -eq "$number" ] && [ "$number" -ge 150 ] || say "$(told files) of $number files are looked at"
for kind in agree differ 'beside SQLite'; do
    [ "$(told "$kind")" -ge 100 ] || say "only $(told "$kind") are '$kind'"
done
echo "agree: $(told files) files, $(told runs) runs: $(told agree) agree and $(told differ) differ; $(told 'beside SQLite') beside SQLite and" \
    "$(told 'beside the product') beside the product; $(told wrong) wrong"

mkdir "$scratch/few"
cp "$scratch/files/damage.tsv" "$scratch/files/d_text_entry_removed.db" "$scratch/few/"
for stand_in in pleased short; do
    check "$scratch/$stand_in" "$scratch/few" "$scratch/$stand_in-run"
    grep -qE '(^|[[:space:]])wrong=[1-9]' "$scratch/$stand_in-run.lines" || say "a program that is $stand_in is not found wrong"
done

# ---- what `make` makes

printf '%s\n' "x'000102030405060708090a0b0c0d0e0f101112131415161718191a1b1c1d1e1f'" > "$scratch/key"
made=0
for profile in 1 2 3 4 $sizes plain:512 plain:1024 plain:2048 plain:4096 plain:8192 plain:16384 plain:32768 plain:65536; do
    for rows in 0 1 2000; do
        rm -f "$scratch/made.db"
        "$program" "$scratch/made.db" make "$profile" "$rows" < "$scratch/key" > "$scratch/lines" 2>&1 || say "make $profile $rows fails"
        found=$("$program" "$scratch/made.db" agree "$profile" < "$scratch/key" 2> /dev/null) || say "agree $profile of $rows made rows ends with $?"
        # The index of a table without rowids is none of the schema: it is the table itself.
        [ "$found" = "ok: 1 indexes, $rows entries, 0 not checked" ] || say "agree $profile of $rows made rows: '$found'"
        made=$((made + 1))
    done
done

finish "$made made files"
