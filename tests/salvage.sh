#!/usr/bin/env bash
# `salvage` on the files of the product, of versions 1 to 4 and of each size of pages, as they are and damaged at random: pages of zeros,
# turned bits, a tail that is cut, page 1 or the schema destroyed, pages in each other's place. What is printed is to the byte what the
# reference says, no row is missing that SQLite finds on pages that are as they were, nothing is written where there is no hot journal, and
# a hot one is played back first (tests/reference/oracle/check_salvages.py). Then the worked rows; rows of a whole file beside `export`;
# what is printed while the file is replaced or cut; and the memory that it takes for a large file.
#
#     tests/salvage.sh [SEED [DAMAGES]]        5 damages of each file, where nothing else is said
#
# PROGRAM names another program, SQLCIPHER4 the product built for version 4, PRODUCT_FILES the folder that tests/product_files.sh made, JOBS
# another number of runs side by side, ROWS of the large file (44,000, which are 110 MiB). Needs Python's `cryptography`, for the product's files.
set -u
. "$(dirname "$0")/common.sh"
begin 'salvage'
seed=${1:-7} damages=${2:-5} jobs=${JOBS:-4}
oracle=$top/tests/reference/oracle

key="x'000102030405060708090a0b0c0d0e0f101112131415161718191a1b1c1d1e1f'"
printf '%s\n' "$key" > "$scratch/key"
asked() { "$program" "$scratch/$1" "${@:2}" < "$scratch/key" 2> "$scratch/errors"; }      # asked FILE WORDS..

# ---- the worked rows: of the database without rows, whole and with a bit of a page turned

schema="row 1 1 'table' 'items' 'items' 2 'CREATE TABLE items(id INTEGER PRIMARY KEY, name TEXT, data BLOB, size INTEGER)'
row 1 2 'index' 'items_name' 'items' 3 'CREATE INDEX items_name ON items(name)'
row 1 3 'table' 'codes' 'codes' 4 'CREATE TABLE codes(code TEXT PRIMARY KEY, item INTEGER) WITHOUT ROWID'
row 1 4 'view' 'names' 'names' 0 'CREATE VIEW names AS SELECT name FROM items'"
rows=0

row() { # row STATUS OUTPUT FILE [VERSION [KEY]]
    local found
    found=$(printf '%s\n' "${5:-$key}" | "$program" "$scratch/$3" salvage "${4:-4}" 2> "$scratch/errors"; echo "$?")
    rows=$((rows + 1))
    [ "$found" = "$2"$'\n'"$1" ] || say "$3: wanted $2 with $1, found $found"
}

asked none make 4 0 > /dev/null || say "make 4 0 fails: $(cat "$scratch/errors")"
row 0 "$schema"$'\nsalvaged: 4 rows, 0 lost, 0 refused pages' none
cp "$scratch/none" "$scratch/turned" && turn_bit "$scratch/turned" 12224
row 0 "$schema"$'\npage 3: tag refused\nsalvaged: 4 rows, 0 lost, 1 refused pages' turned
cp "$scratch/none" "$scratch/first" && turn_bit "$scratch/first" 4032
row 0 $'page 1: tag refused\nsalvaged: 0 rows, 0 lost, 1 refused pages' first
row 3 'key refused' none 4 "x'$(printf 'f%.0s' {1..64})'"
asked one make 1 0 > /dev/null || say "make 1 0 fails: $(cat "$scratch/errors")"
row 0 "$schema"$'\nsalvaged: 4 rows, 0 lost, 0 refused pages' one 1
# Of page 1 the salt is enough, and of it nothing can be spared.
cp "$scratch/none" "$scratch/salt" && dd if=/dev/zero of="$scratch/salt" bs=16 seek=1 count=255 conv=notrunc status=none
row 0 $'page 1: tag refused\nsalvaged: 0 rows, 0 lost, 1 refused pages' salt
cp "$scratch/none" "$scratch/unsalted" && turn_bit "$scratch/unsalted" 3
row 3 'key refused' unsalted
head -c 4095 "$scratch/none" > "$scratch/short"
row 2 'file is short: 4095 bytes' short
: > "$scratch/empty"
row 2 'file is empty' empty
row 2 'file is empty' absent
cp "$scratch/none" "$scratch/large" && truncate -s $(((262144 + 1) * 4096)) "$scratch/large"
row 2 'file is too large: 262145 pages' large
rm -f "$scratch/large"
echo "salvage: $rows worked rows"

# ---- files of the product

# What has to be found wrong: a program that does nothing, one that stops at the first refused page, one that leaves out a row, one that
# prints a row of a refused page as lost, one that writes.
stand_in() { # stand_in NAME LINES: of a shell, what it does for `salvage`
    printf '#!/bin/sh\n%s\n' "$2" > "$scratch/$1"
    chmod 755 "$scratch/$1"
}
kept() { echo "\"$program\" \"\$@\" > lines; status=\$?; $1; rm lines; exit \"\$status\""; }      # kept COMMAND: the program, its lines by this
stand_in idle 'exit 0'
stand_in stops "$(kept 'awk "{ print } /tag refused/ { exit }" lines')"
stand_in short "$(kept 'awk "!/^row/ || seen++" lines')"
stand_in lost "$(kept 'sed "s/^page \([0-9]*\): tag refused/lost \1 1/" lines')"
stand_in writes "touch \"\$1\"; exec \"$program\" \"\$@\""

if ! has_reference; then
    leave_out "the product's files and damaged ones, since Python's cryptography is missing"
elif find_files; then
    started=()
    for ((part = 0; part < jobs; part++)); do
        mkdir "$scratch/part-$part"
        python3 "$oracle/check_salvages.py" "$program" "$files" "$table" "$scratch/part-$part" "$seed" "$part" "$jobs" "$damages" \
            > "$scratch/part-$part.lines" 2>&1 &
        started+=("$!")
    done
    for ((part = 0; part < jobs; part++)); do
        wait "${started[part]}" || { grep -v 'files=' "$scratch/part-$part.lines" | head -n 20; say "part $part failed"; }
    done
    told() { total "$1" "$scratch"/part-*.lines; }
    [ "$(told files)" -eq "$(($(wc -l < "$table") - 1))" ] || say "not all files are looked at"
    for count in 'files that SQLite sees' 'played back' rows 'rows lost' 'leaves damaged' 'rows elsewhere'; do
        [ "$(told "$count")" -gt 0 ] || say "there are no $count"
    done
    echo "salvage: seed $seed, $(told files) files of the product, $(told 'files that SQLite sees') of them read by SQLite; $(told runs) runs," \
        "$(told refused) refused, $(told 'played back') with a journal that plays back; beside SQLite $(told rows) rows on sound pages," \
        "$(told 'rows lost') lost with their overflow pages, $(told 'leaves damaged') leaves damaged, $(told 'rows elsewhere') rows on pages of no table;" \
        "$(told wrong) wrong"
    { head -n 1 "$table"; grep -m 1 -P '^v3-raw-plain\.db\t' "$table"; } > "$scratch/one.tsv"
    for stand_in in idle stops short lost writes; do
        mkdir "$scratch/by-$stand_in"
        (cd "$scratch/by-$stand_in" && python3 "$oracle/check_salvages.py" "$scratch/$stand_in" "$files" "$scratch/one.tsv" . 7 0 1 6 > "$scratch/lines" 2>&1)
        grep -qE '(^|[[:space:]])wrong=[1-9]' "$scratch/lines" || say "a program that is $stand_in is not found wrong: $(tail -n 1 "$scratch/lines")"
    done
fi

# ---- a whole file beside `export`, and the memory that a large one takes

measured() { # measured FILE TEXT WORDS..: the most memory that the program has had, in KiB
    python3 - "$program" "$scratch/$1" "$scratch/key" "$scratch/$2" "${@:3}" <<'PY'
import resource, subprocess, sys
program, file, key, text, *words = sys.argv[1:]
with open(key, "rb") as given, open(text, "wb") as out:
    subprocess.run([program, file, *words], stdin=given, stdout=out, stderr=subprocess.DEVNULL, check=True)
print(resource.getrusage(resource.RUSAGE_CHILDREN).ru_maxrss)
PY
}

beside_export() { # beside_export VERSION ROWS: prints the memory that a small file took and a large one
    local version=$1 small large last size
    asked few make "$version" 30 > /dev/null && asked many make "$version" "$2" > /dev/null || { say "make $version $2 fails"; return; }
    small=$(measured few text salvage "$version") || say "salvage $version of 30 rows fails"
    large=$(measured many text salvage "$version") || say "salvage $version of $2 rows fails"
    asked many export "$version" | grep '^row ' > "$scratch/exported"
    # The table's leaves stand in the file in the order of its rows, behind page 1, which has the schema.
    grep '^row ' "$scratch/text" | sed -E '1,4d; s/^row [0-9]+ /row /' | cmp -s - "$scratch/exported" ||
        say "version $version: other rows than those of export"
    last=$(tail -n 1 "$scratch/text")
    [ "$last" = "salvaged: $(($2 + 4)) rows, 0 lost, 0 refused pages" ] || say "version $version: the last line is $last"
    size=$(($(stat -c %s "$scratch/many") >> 20))
    [ "$large" -le $((small + 4096)) ] || say "version $version: a small file takes $small KiB, and one of $size MiB $large KiB"
    echo "salvage: version $version, $size MiB, $2 rows as export prints them; $large KiB of memory, and $small KiB for 30 rows"
    rm -f "$scratch/few" "$scratch/many" "$scratch/text" "$scratch/exported"
}
beside_export 3 "${ROWS:-44000}"
beside_export 4 "${ROWS:-44000}"
beside_export 1 1000
beside_export 4:65536 3000

# ---- while others are at the file: its lines wait in a full pipe, and it is changed then

asked kept make 4 600 > /dev/null || say "make 4 600 fails"
head -c 32768000 /dev/zero >> "$scratch/kept"
asked kept salvage 4 > "$scratch/wanted" || say "salvage beside pages of zeros fails"
last=$(tail -n 1 "$scratch/wanted")
[ "$last" = "salvaged: 604 rows, 0 lost, 8000 refused pages" ] || say "the last line is $last"
asked none salvage 4 > "$scratch/others"

meanwhile() { # meanwhile CHANGE: prints the status; the lines are in `found`, standard error in `errors`
    local first run
    rm -f "$scratch"/changing* "$scratch/lines" && mkfifo "$scratch/lines"
    cp "$scratch/kept" "$scratch/changing" && cp "$scratch/none" "$scratch/changing-new"
    "$program" "$scratch/changing" salvage 4 < "$scratch/key" > "$scratch/lines" 2> "$scratch/errors" &
    run=$!
    exec 3< "$scratch/lines"
    IFS= read -r first <&3
    eval "$1"
    { printf '%s\n' "$first"; cat <&3; } > "$scratch/found"
    exec 3<&-
    wait "$run"
    echo $?
}
begins() { head -c "$(stat -c %s "$scratch/found")" "$scratch/wanted" | cmp -s - "$scratch/found"; }

[ "$(meanwhile :)" = 0 ] && cmp -s "$scratch/found" "$scratch/wanted" || say "its lines are others where they wait"
status=$(meanwhile 'mv "$scratch/changing-new" "$scratch/changing"')
[ "$status" = 0 ] && cmp -s "$scratch/found" "$scratch/wanted" || { [ "$status" = 4 ] && begins; } ||
    say "replaced meanwhile: status $status, and $(wc -l < "$scratch/found") lines, $(head -n 1 "$scratch/errors")"
asked changing salvage 4 | cmp -s - "$scratch/others" && cmp -s "$scratch/changing" "$scratch/none" || say "the file that took its place has changed"
status=$(meanwhile 'truncate -s 40960 "$scratch/changing"')
[ "$status" = 4 ] && begins && grep -qE 'the file was cut while it was read|another program wrote' "$scratch/errors" ||
    say "cut meanwhile: status $status, $(head -n 1 "$scratch/errors")"
status=$(meanwhile 'touch "$scratch/changing"')
[ "$status" = 4 ] && begins && grep -q 'another program wrote to the file meanwhile' "$scratch/errors" ||
    say "written to meanwhile: status $status, $(head -n 1 "$scratch/errors")"

finish
