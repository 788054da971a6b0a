#!/usr/bin/env bash
# Stops the built program at each of its writing calls of the system, and then lets it run to its end: it must leave the
# files that a run without a stop leaves, which are other ones than before. Without words it does so for `recover` on three journals that the product left.
#
#     tests/stops.sh [FILE WORDS.. < KEYS]
#
# FILE and the files beside it (FILE-journal, FILE-migrated) stay as they are; copies of them are worked on. The words are
# those of a command that may be run again and then makes the same files, as `recover` is. PROGRAM names another program.
set -u
. "$(dirname "$0")/common.sh"
begin 'stops'
if ! can_trace; then
    leave_out "stops, since strace is missing or cannot trace"
    finish
fi

if [ $# -eq 0 ]; then
    find_files || finish
    for name in v3-raw-hot-grow v4-raw-hot-grow v3-raw-cold-persist; do
        grep -q "^$name" "$table" || continue
        "$top/tests/stops.sh" "$files/$name.db" recover "${name:1:1}" < /dev/null || say "the stops on $name"
    done
    finish
fi
if [ $# -eq 1 ]; then
    echo "stops: the words of a command are missing"
    exit 1
fi
file=$(readlink -f "$1")
shift
cat > "$scratch/keys"

place() { # place FOLDER: the files as they were
    mkdir "$scratch/$1" && cp "$file" "$scratch/$1/file" || exit 1
    for beside in journal migrated; do
        [ ! -e "$file-$beside" ] || cp "$file-$beside" "$scratch/$1/file-$beside" || exit 1
    done
}

place whole
(cd "$scratch/whole" && traced "$scratch/calls" file "$@" < "$scratch/keys" > "$scratch/lines")
status=$?
if [ "$status" -ne 0 ]; then
    echo "stops: without a stop the program ends with $status"
    exit 1
fi

place before
! diff -r "$scratch/before" "$scratch/whole" > /dev/null || { echo "stops: without a stop the program changes nothing"; exit 1; }
list_stops "$scratch/calls" > "$scratch/stops"

stopped=0
differ=0
while read -r name number; do
    place stopped
    { (cd "$scratch/stopped" && stopped_at "$name" "$number" file "$@" < "$scratch/keys" > /dev/null) } 2> /dev/null
    killed=$?
    (cd "$scratch/stopped" && "$program" file "$@" < "$scratch/keys" > /dev/null)
    status=$?
    stopped=$((stopped + 1))
    if [ "$killed" -ne 137 ] || [ "$status" -ne 0 ] || ! diff -r "$scratch/whole" "$scratch/stopped" > /dev/null; then
        differ=$((differ + 1))
        echo "stops: $name $number: stopped with $killed, then ended with $status, or the files differ"
    fi
    rm -rf "$scratch/stopped"
done < "$scratch/stops"

echo "stops: $stopped stops of $*, $differ that differ"
[ "$stopped" -gt 0 ] && [ "$differ" -eq 0 ]
