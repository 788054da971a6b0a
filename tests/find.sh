#!/usr/bin/env bash
# `find` on the files of the product, of versions 1 to 4 and of each size of pages: of every table, for each rowid of a small one and for
# ranges, it prints the rows of `export` with these rowids, and what the reference says (tests/reference/oracle/check_finds.py). Then on
# hostile files whose schema can be read: the rows of the range where the pages that lead to them are sound, else a defect of that tree with
# some of these rows before it, and the file is left as it was (tests/reference/oracle/hostile_files.py). Last, on made files of each profile, how
# many reads of the file one row takes.
#
#     tests/find.sh [SEED [COUNT [FIRST]]]        600 hostile files from number 0 on, where nothing else is said
#
# PROGRAM names another program, SQLCIPHER4 the product built for version 4, PRODUCT_FILES the folder that tests/product_files.sh made, JOBS
# another number of runs side by side. Needs Python's `cryptography`.
set -u
. "$(dirname "$0")/common.sh"
begin 'find'
seed=${1:-7} count=${2:-600} first=${3:-0} jobs=${JOBS:-4}
oracle=$top/tests/reference/oracle

if ! has_reference; then
    leave_out "find, since Python's cryptography is missing"
    finish
fi

side_by_side() { # side_by_side NAME FUNCTION: FUNCTION FOLDER NUMBER for each of the jobs, its lines in NAME-NUMBER.lines
    local name=$1 number started=()
    for ((number = 0; number < jobs; number++)); do
        mkdir "$scratch/$name-$number" && "$2" "$scratch/$name-$number" "$number" > "$scratch/$name-$number.lines" 2>&1 &
        started+=("$!")
    done
    for ((number = 0; number < jobs; number++)); do
        wait "${started[number]}" || { grep -v 'files=' "$scratch/$name-$number.lines" | head -n 20; say "a run of $name failed"; }
    done
}

# What has to be found wrong: a `find` that does nothing, one that prints the whole table, and one that leaves out a row.
stand_in() { # stand_in NAME LINES: of a shell, what it does for `find`
    printf '#!/bin/sh\n[ "$2" = find ] || exec "%s" "$@"\n%s\n' "$program" "$2" > "$scratch/$1"
    chmod 755 "$scratch/$1"
}
stand_in idle 'exit 0'
stand_in whole "exec \"$program\" \"\$1\" \"\$2\" \"\$3\" \"\$4\" -9223372036854775808 9223372036854775807"
stand_in short "\"$program\" \"\$@\" > lines; status=\$?; sed 1d lines; rm lines; exit \"\$status\""

is_wrong() { grep -qE '(^|[[:space:]])wrong=[1-9]' "$scratch/lines" || say "a program that is $1 is not found wrong on $2: $(tail -n 1 "$scratch/lines")"; }

# ---- files of the product

look_at_product() { python3 "$oracle/check_finds.py" "$program" "$files" "$table" "$1" "$seed" "$2" "$jobs"; }

if find_files; then
    side_by_side product look_at_product
    told() { total "$1" "$scratch"/product-*.lines; }
    [ "$(told files)" -eq "$(($(wc -l < "$table") - 1))" ] && [ "$(told tables)" -gt 0 ] && [ "$(told 'refused files')" -gt 0 ] ||
        say "not all files are looked at"
    echo "find: $(told files) files of the product, $(told 'refused files') of them refused as export does; $(told tables) tables, $(told runs) runs," \
        "$(told rows) rows; $(told wrong) wrong"
    { head -n 1 "$table"; grep -m 1 -P '^v3-raw-plain\.db\t' "$table"; } > "$scratch/one.tsv"
    for stand_in in idle whole short; do
        mkdir "$scratch/$stand_in-product"
        (cd "$scratch/$stand_in-product" && python3 "$oracle/check_finds.py" "$scratch/$stand_in" "$files" "$scratch/one.tsv" . > "$scratch/lines" 2>&1)
        is_wrong "$stand_in" "a file of the product"
    done
fi

# ---- hostile files

look_at_hostile() {
    local from=$((count * $2 / jobs)) to=$((count * ($2 + 1) / jobs))
    python3 "$oracle/hostile_files.py" finds "$program" "$1" "$seed" $((first + from)) $((to - from))
}
side_by_side hostile look_at_hostile
told() { total "$1" "$scratch"/hostile-*.lines; }
[ "$(told files)" -eq "$count" ] || say "$(told files) of $count hostile files were tried"
for kind in 'done' 'done beside a defect' refused 'rows before a refusal' 'no such table'; do
    [ "$(told "$kind")" -gt 0 ] || [ "$count" -lt 100 ] || say "no run is '$kind'"
done
echo "find: seed $seed, $(told files) hostile files, $(told 'looked into') with a schema that can be read; $(told runs) runs: $(told 'done') done," \
    "$(told 'done beside a defect') done beside a defect of the tree, $(told refused) refused ($(told 'rows before a refusal') with rows before it)," \
    "$(told 'no such table') without such a table; $(told 'another answer') otherwise than the reference answers; $(told wrong) wrong"
for stand_in in idle whole short; do
    mkdir "$scratch/$stand_in-hostile"
    python3 "$oracle/hostile_files.py" finds "$scratch/$stand_in" "$scratch/$stand_in-hostile" 7 0 8 > "$scratch/lines" 2>&1
    is_wrong "$stand_in" "hostile files"
done

# ---- how much of a file is read

printf '%s\n' "x'000102030405060708090a0b0c0d0e0f101112131415161718191a1b1c1d1e1f'" > "$scratch/key"
count_reads() { # count_reads LAST WORDS..: how often the file `made` is read, in `found`; LAST is the last line that is printed
    local last=$1
    shift
    (cd "$scratch" && strace -f -qq -P made -o calls -e trace=read,pread64,readv,preadv,preadv2 "$program" made "$@" < key > lines 2> errors) ||
        say "$* ends with $?"
    [ "$(tail -n 1 "$scratch/lines")" = "$last" ] || say "$*: the last line is '$(tail -n 1 "$scratch/lines")'"
    found=$(wc -l < "$scratch/calls")
}
# A made file is found in as it stands, whatever its pages. The schema is one page and a row of the root; then a path of at most 20 pages, and the
# overflow pages of the row: its data have at most 4,500 bytes, and the rest of it less than 40.
reads_of() { # reads_of PROFILE RESERVE: what one row takes of a made file of 3,000 rows, in `shown`
    local profile=$1 reserve=$2 opened most size rowid length rows
    rm -f "$scratch/made"
    "$program" "$scratch/made" make "$profile" 3000 < "$scratch/key" > "$scratch/lines" 2>&1 || say "make $profile 3000 fails"
    count_reads "sqlite version 3045000" header "$profile"
    opened=$found shown=
    size=$(sed -n 's/^page size //p' "$scratch/lines")
    while read -r rowid length rows; do
        count_reads "found: $rows rows" find "$profile" items "$rowid" "$rowid"
        most=$((opened + 2 + 20 + (length + size - reserve - 5) / (size - reserve - 4)))
        [ "$found" -gt "$opened" ] && [ "$found" -le "$most" ] || say "$profile: for rowid $rowid the file is read $found times, and $most are the most"
        shown="$shown $found"
    done <<< $'10 0 1\n1009 4540 1\n2999 4540 1\n3001 0 0\n-1 0 0'
    echo "find: one row of a made $profile of $(($(stat -c %s "$scratch/made") / size)) pages takes$shown reads, where the header takes $opened"
}
if can_trace; then
    reads_of 1 16
    for profile in 2 3; do reads_of "$profile" 48; done
    for profile in 4 $sizes; do reads_of "$profile" 80; done
    for size in 512 1024 2048 4096 8192 16384 32768 65536; do reads_of "plain:$size" 0; done
else
    leave_out "how much find reads, since strace is missing or cannot trace"
fi

finish
