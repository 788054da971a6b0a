#!/usr/bin/env bash
# Each command on hostile files of versions 1 to 4: bytes of plain pages, of headers and of cells that are others, pages in each other's
# place, trees that point anywhere, most of them sealed under the right key; files that were cut or are too long; journals, whole and
# damaged; an unfinished new file beside them; a wrong key. No command may crash, hang or want more than 32 MiB. Each has to print what the
# reference prints, or another defect of the same part, and to leave what the reference leaves: never `ok` or a line of something done
# where there is a defect, the file as it was after a refusal, and after a change the same rows under the new key
# (tests/reference/oracle/hostile_files.py).
#
#     tests/hostile_files.sh [SEED [COUNT [FIRST]]]        1,000 files from number 0 on, where nothing else is said
#
# PROGRAM names another program, JOBS another number of runs side by side. A file that a command is wrong on is told by its seed and
# number; `tests/reference/oracle/hostile_files.py make SEED NUMBER FOLDER` writes it. Needs Python's `cryptography`.
set -u
. "$(dirname "$0")/common.sh"
begin 'hostile files'
seed=${1:-7} count=${2:-1000} first=${3:-0} jobs=${JOBS:-4}
files=$top/tests/reference/oracle/hostile_files.py

if ! has_reference; then
    leave_out "hostile files, since Python's cryptography is missing"
    finish
fi

part() { # part PROGRAM NAME FIRST COUNT: its lines go to a file
    mkdir "$scratch/$2" && python3 "$files" "$1" "$scratch/$2" "$seed" "$3" "$4" > "$scratch/$2.lines" 2>&1
}

# What has to be found wrong: a program that does nothing, and one that works and then changes a byte of the file.
printf '#!/bin/sh\n' > "$scratch/idle"
printf '#!/bin/sh\n"%s" "$@"\nstatus=$?\nprintf x | dd of=file bs=1 seek=9 conv=notrunc status=none\nexit "$status"\n' "$program" > "$scratch/spoils"
chmod 755 "$scratch/idle" "$scratch/spoils"
for stand_in in idle spoils; do
    part "$scratch/$stand_in" "by-$stand_in" 0 4
    found=$(total wrong "$scratch/by-$stand_in.lines")
    [ "$found" -ge 41 ] || say "of 44 runs of a program that $stand_in only $found are found wrong"
done

started=()
for ((part = 0; part < jobs; part++)); do
    from=$((count * part / jobs)) to=$((count * (part + 1) / jobs))
    part "$program" "part-$part" $((first + from)) $((to - from)) &
    started+=("$!")
done
for ((part = 0; part < jobs; part++)); do
    wait "${started[part]}" || { grep -v 'files=' "$scratch/part-$part.lines" | head -n 20; say "part $part failed"; }
done

told() { total "$1" "$scratch"/part-*.lines; }
[ "$(told files)" -eq "$count" ] || say "$(told files) of $count files were tried"
for kind in refused changed 'played back'; do [ "$(told "$kind")" -gt 0 ] || say "no file was $kind"; done
echo "hostile files: seed $seed, $(told files) files, $(told journals) with a journal, of which $(told 'played back') play back; $(told runs) runs:" \
    "$(told 'sound or done') read and sound, $(told changed) changed, $(told refused) refused ($(told 'another defect of the same part') for another" \
    "defect of the same part); $(told wrong) wrong"
finish
