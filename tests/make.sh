#!/usr/bin/env bash
# `make` for the four versions, each size of pages and several numbers of rows: the product opens the file by the key, finds it sound and reads the rows
# that the rule says; the program's own verify and export agree with the reference in tests/reference. Then the built program is
# stopped at each writing call of the system of a `make 4 7`: there is no file, or the whole one.
#
#     tests/make.sh
#
# PROGRAM names another program, SQLCIPHER4 the product built for version 4.
set -u
. "$(dirname "$0")/common.sh"
begin 'make'
oracle=$top/tests/reference/oracle/sqlcipher_oracle.py

reference=
if has_reference; then reference=1; else leave_out "the reference's reading of made files, since Python's cryptography is missing"; fi

key="x'000102030405060708090a0b0c0d0e0f101112131415161718191a1b1c1d1e1f'"
printf '%s\n' "$key" > "$scratch/key"

# The rows as the rule has them, in SQL, so that the product compares them with its own.
rule() { # rule ROWS: what differs, a count for each table
    cat <<SQL
PRAGMA integrity_check;
WITH RECURSIVE n(i) AS (SELECT 1 WHERE $1 > 0 UNION ALL SELECT i + 1 FROM n WHERE i < $1),
    wanted(id, name, size) AS (SELECT i, printf('item-%010d', i), i % 10 * 500 FROM n)
SELECT count(*) FROM (SELECT * FROM (SELECT id, name, size FROM items EXCEPT SELECT * FROM wanted)
    UNION ALL SELECT * FROM (SELECT * FROM wanted EXCEPT SELECT id, name, length(data) FROM items));
WITH RECURSIVE n(i) AS (SELECT 1 WHERE $1 > 0 UNION ALL SELECT i + 1 FROM n WHERE i < $1)
SELECT count(*) FROM (SELECT * FROM (SELECT code, item FROM codes EXCEPT SELECT printf('c%010d', i), i FROM n)
    UNION ALL SELECT * FROM (SELECT printf('c%010d', i), i FROM n EXCEPT SELECT code, item FROM codes));
SELECT count(*) FROM names;
SQL
}

by_reference() { # by_reference VERSION ROWS FILE LINE
    local version=$1 rows=$2 file=$3 line=$4
    printf '%s\n' "$key" | python3 "$oracle" "$scratch/other.db" make "$version" "$rows" > "$scratch/line"
    rm -f "$scratch/other.db"
    [ "$line" = "$(cat "$scratch/line")" ] || say "$version $rows: the line is $line, and the reference's $(cat "$scratch/line")"
    for words in verify export; do
        "$program" "$file" "$words" "$version" < "$scratch/key" > "$scratch/found" || say "$version $rows: $words ends with $?"
        python3 "$oracle" "$file" "$words" "$version" < "$scratch/key" | cmp -s - "$scratch/found" || say "$version $rows: $words is not the reference's"
    done
}

made() { # made VERSION ROWS
    local version=$1 rows=$2 file=$scratch/$1-$2.db line
    line=$("$program" "$file" make "$version" "$rows" < "$scratch/key") || say "$version $rows: ended with $?"
    "$program" "$file" verify "$version" < "$scratch/key" > /dev/null || say "$version $rows: verify ends with $?"
    [ -z "$reference" ] || by_reference "$version" "$rows" "$file" "$line"
    [ "$version" = 1 ] || "$program" "$file" tags "$version" < "$scratch/key" > /dev/null || say "$version $rows: a tag does not hold"
    [ "$("$program" "$file" make "$version" "$rows" < "$scratch/key")" = "file is there" ] || say "$version $rows: a file that is there is not refused"
    if [ -n "$(product "$version")" ]; then
        { echo ".output /dev/null"; opening "$version" "$key"; echo ".output stdout"; rule "$rows"; } | "$(product "$version")" -batch "$file" > "$scratch/found" 2>&1
        [ "$(tr '\n' ' ' < "$scratch/found")" = "ok 0 0 $rows " ] || say "$version $rows: the product answers $(tr '\n' ' ' < "$scratch/found")"
    fi
}

# An unfinished new file is no hindrance. A whole one that a stop has kept from its name is refused, and moved away by hand.
make_way() { # make_way FOLDER
    local left=$1/file-migrated
    [ -s "$left" ] && [ -n "$(head -c 1024 "$left" | tr -d '\0')" ] || return 0
    (cd "$1" && "$program" file make 4 7 < "$scratch/key" > /dev/null 2> "$scratch/errors")
    [ $? -eq 4 ] && grep -q 'file-migrated: this file is in the way' "$scratch/errors" || say "a whole new file is not refused"
    rm "$left"
}

stops() { # a stop at each writing call of `make 4 7`
    local name number stopped=0 none=0 twice=0 line
    mkdir "$scratch/whole"
    (cd "$scratch/whole" && traced "$scratch/calls" file make 4 7 < "$scratch/key" > /dev/null) || { say "the program fails under strace"; return; }
    list_stops "$scratch/calls" > "$scratch/stops"
    line=$("$program" "$scratch/whole/file" verify 4 < "$scratch/key")
    while read -r name number; do
        rm -rf "$scratch/stopped" && mkdir "$scratch/stopped"
        { (cd "$scratch/stopped" && stopped_at "$name" "$number" file make 4 7 < "$scratch/key" > /dev/null) } 2> /dev/null
        [ $? -eq 137 ] || say "$name $number: not stopped"
        if [ ! -e "$scratch/stopped/file" ]; then
            none=$((none + 1))
            make_way "$scratch/stopped"
            (cd "$scratch/stopped" && "$program" file make 4 7 < "$scratch/key" > /dev/null 2>&1) || say "$name $number: not made after it"
        fi
        [ "$("$program" "$scratch/stopped/file" verify 4 < "$scratch/key")" = "$line" ] || say "$name $number: the file is not whole"
        # A stop between the two names of the whole file leaves both, and the next command that wants the other one takes it away.
        if [ "$scratch/stopped/file" -ef "$scratch/stopped/file-migrated" ]; then
            cat "$scratch/key" "$scratch/key" | "$program" "$scratch/stopped/file" migrate 4 4 > /dev/null 2>&1 || say "$name $number: a second name stands in the way"
            twice=$((twice + 1))
        fi
        [ "$(ls "$scratch/stopped")" = file ] || say "$name $number: something else is left: $(ls "$scratch/stopped")"
        stopped=$((stopped + 1))
    done < "$scratch/stops"
    [ "$none" -gt 0 ] && [ "$none" -lt "$stopped" ] || say "$none of $stopped stops leave no file"
    [ "$twice" -eq 1 ] || say "$twice stops leave two names"
    echo "make: $stopped stops, $none leave no file and the others the whole one"
}

# No clause says what the device of random bytes gives, nor that its bytes are those that a page is sealed with: the salt is the first 16 bytes that
# were read of it, and each page has an IV of its own of the others.
draws() { # draws PROFILE SIZE RESERVE
    (cd "$scratch" && rm -f drawn && strace -f -qq -xx -s 10000000 -P /dev/urandom -e trace=read,readv,pread64 -o calls "$program" drawn make "$1" 70 < key > lines) ||
        { say "make $1 70 fails under strace"; return; }
    python3 - "$scratch/calls" "$scratch/drawn" "$2" "$3" <<'PY' || say "make $1 70: the random bytes are not those of the device"
import re, sys
calls, file, size, reserve = sys.argv[1], open(sys.argv[2], "rb").read(), int(sys.argv[3]), int(sys.argv[4])
drawn = b"".join(bytes.fromhex(text.replace("\\x", "")) for text in re.findall(r'"((?:\\x[0-9a-f]{2})+)"[^"]*= [1-9]', open(calls).read()))
places = [0] + sorted(drawn.find(file[at + size - reserve : at + size - reserve + 16], 16) for at in range(0, len(file), size))
wrong = [place for place, after in zip(places, places[1:]) if after - place < 16]
print(f"make: {len(places) - 1} pages of {size} bytes, {len(drawn)} random bytes were read")
sys.exit(file[:16] != drawn[:16] or wrong != [])
PY
}

for version in 1 2 3 4 $sizes; do
    [ -n "$(product "$version")" ] || leave_out "the product's reading of made files of version $version, since it is missing"
    for rows in 0 1 7 70 1000; do made "$version" "$rows"; done
done
if can_trace; then
    stops
    draws 3 1024 48
    draws 4 4096 80
else
    leave_out "the stops of make, and its random bytes, since strace is missing or cannot trace"
fi

finish
