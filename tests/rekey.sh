#!/usr/bin/env bash
# `rekey` on files that the product itself makes, of versions 1 to 4 and of each size of pages: the product then opens them by the new key, finds them
# sound and dumps the same rows, and the old key is refused. Then the built program is stopped at each writing call of the
# system of a `rekey` of some 150 pages: what is left is recovered by the program, and on a copy by the product, to the old
# file by the old key or to the new one by the new key.
#
#     tests/rekey.sh
#
# PROGRAM names another program, SQLCIPHER4 the product built for version 4, PRODUCT_FILES the folder that tests/product_files.sh made.
set -u
. "$(dirname "$0")/common.sh"
begin 'rekey'
k1="x'ffffffffffffffffffffffffffffffffffffffffffffffffffffffffffffffff'"
k2="x'0f1e2d3c4b5a69788796a5b4c3d2e1f00f1e2d3c4b5a69788796a5b4c3d2e1f0'"

verified() { printf '%s\n' "$2" | "$program" "$3" verify "$1" 2> /dev/null; }      # verified VERSION KEY FILE

# ---- files of the product

# A copy of the file, and of its journal, is rekeyed. Where `verify` finds the file sound, it is rekeyed, else `rekey` ends as `verify` does.
rekey_file() { # rekey_file NAME VERSION OLD NEW
    local name=$1 version=$2 old=$3 new=$4 file copy=$scratch/copy.db read=$scratch/read.db kept=$scratch/kept.db line pages size status wanted
    for file in "$copy" "$read" "$kept"; do
        rm -f "$file" "$file-journal"
        cp "$files/$name.db" "$file"
        [ ! -e "$files/$name.db-journal" ] || cp "$files/$name.db-journal" "$file-journal"
    done
    line=$(verified "$version" "$old" "$read")
    wanted=$?
    printf '%s\n' "$old" "$new" | "$program" "$copy" rekey "$version" "$version" > "$scratch/line" 2> /dev/null
    status=$?
    if [ "$wanted" -ne 0 ]; then
        [ "$status" -eq "$wanted" ] || say "$name: verify ends with $wanted, and rekey with $status"
        cmp -s "$copy" "$read" || say "$name: rekey was refused, and the file is another one"
        echo refused >> "$scratch/ends"
        return
    fi
    pages=$(printf '%s\n' "$new" | "$program" "$copy" header "$version" | awk '/^pages/ { print $2 }')
    [ "$status" -eq 0 ] && [ "$(cat "$scratch/line")" = "rekeyed: $pages pages" ] || say "$name: ended with $status and $(cat "$scratch/line")"
    [ ! -e "$copy-journal" ] || say "$name: a journal is left"
    [ "$(verified "$version" "$new" "$copy")" = "$line" ] || say "$name: by the new key verify says another line"
    # Version 1 has no tags, and what a file has behind its count of pages is not sealed anew.
    size=$(printf '%s\n' "$new" | "$program" "$copy" header "$version" | awk '/^page size/ { print $3 }')
    [ "$version" = 1 ] || [ "$(stat -c %s "$copy")" -ne $((pages * size)) ] ||
        [ "$(printf '%s\n' "$new" | "$program" "$copy" tags "$version")" = "tags hold: $pages pages" ] || say "$name: a page is not sealed under the new key"
    printf '%s\n' "$old" | "$program" "$copy" header "$version" > /dev/null 2>&1
    [ $? -eq 3 ] || say "$name: the old key is not refused"
    # Of the old file, the product lays the journal back itself.
    dump "$version" "$old" "$kept" > "$scratch/old"
    dump "$version" "$new" "$copy" | cmp -s - "$scratch/old" || say "$name: by the new key the product dumps other rows"
    [ "$(check "$version" "$new" "$copy")" = ok ] || say "$name: the product does not find the new file sound"
    echo rekeyed >> "$scratch/ends"
}

rekey_files() {
    local name version old new
    while IFS=$'\t' read -r name version _; do
        [ "$name" != file ] || continue
        name=${name%.db}
        [ -f "$files/$name.db" ] && [ -f "$files/$name.key" ] || { say "$name is not made"; continue; }
        [ -n "$(product "$version")" ] || continue
        old=$(cat "$files/$name.key")
        # A raw key in place of a raw key, and a passphrase in place of a passphrase.
        case $old in
            [xX]\'*) new=$k2 ;;
            *) new="n'w pässwörd" ;;
        esac
        rekey_file "$name" "$version" "$old" "$new"
    done < "$table"
    echo "rekey: $(grep -c rekeyed "$scratch/ends") files are rekeyed, and $(grep -c refused "$scratch/ends") are refused as verify does"
    grep -q rekeyed "$scratch/ends" || say "no file is rekeyed"
}

# ---- stops

rows() {
    cat <<'SQL'
CREATE TABLE items(id INTEGER PRIMARY KEY, name TEXT, value);
CREATE INDEX items_name ON items(name);
CREATE TABLE dropped(value);
BEGIN;
WITH RECURSIVE n(i) AS (SELECT 1 UNION ALL SELECT i + 1 FROM n WHERE i < ROWS)
INSERT INTO items SELECT i, 'item ' || (i * 7919 % 1000), zeroblob(i % 900) FROM n;
INSERT INTO dropped SELECT zeroblob(500) FROM items WHERE id <= 20;
COMMIT;
DROP TABLE dropped;
SQL
}

# What a stop left, under the old key or the new one; prints which.
which_key() { # which_key VERSION FILE LINE: as the program verifies it
    if [ "$(verified "$1" "$k1" "$2")" = "$3" ]; then echo old; elif [ "$(verified "$1" "$k2" "$2")" = "$3" ]; then echo new; else echo none; fi
}

stops() { # stops VERSION: a stop at each writing call of a rekey
    local version=$1 folder=$scratch/stops-$1 count=370 name number line found key stopped=0 old=0
    mkdir "$folder" "$folder/whole"
    case $version in
        4) count=1300 ;;
        4:*) count=240 ;;
    esac
    rows | sed "s/ROWS/$count/" | sql "$version" "$k1" "$folder/file"
    line=$(verified "$version" "$k1" "$folder/file") || { say "version $version: the product makes no such file"; return; }
    dump "$version" "$k1" "$folder/file" > "$folder/dump"
    printf '%s\n' "$k1" "$k2" > "$folder/keys"
    cp "$folder/file" "$folder/whole/file"
    (cd "$folder/whole" && traced "$folder/calls" file rekey "$version" "$version" < "$folder/keys" > "$folder/said") || { say "version $version: the program fails under strace"; return; }
    list_stops "$folder/calls" > "$folder/stops"
    while read -r name number; do
        rm -rf "$folder/stopped" "$folder/copy"
        mkdir "$folder/stopped" && cp "$folder/file" "$folder/stopped/file" || return
        { (cd "$folder/stopped" && stopped_at "$name" "$number" file rekey "$version" "$version" < "$folder/keys" > /dev/null) } 2> /dev/null
        found=$?
        [ "$found" -eq 137 ] || say "version $version: $name $number: ended with $found"
        cp -r "$folder/stopped" "$folder/copy"
        # The program recovers it.
        "$program" "$folder/stopped/file" recover "$version" > /dev/null < /dev/null || say "version $version: $name $number: not recovered"
        found=$(which_key "$version" "$folder/stopped/file" "$line")
        [ ! -e "$folder/stopped/file-journal" ] || say "version $version: $name $number: a journal is left"
        # So does the product, to the same file.
        case $found in
            old) key=$k1 old=$((old + 1)) ;;
            new) key=$k2 ;;
            none) say "version $version: $name $number: neither the old file nor the new one"; key=$k1 ;;
        esac
        [ "$(check "$version" "$key" "$folder/copy/file")" = ok ] || say "version $version: $name $number: the product does not find it sound"
        dump "$version" "$key" "$folder/copy/file" | cmp -s - "$folder/dump" || say "version $version: $name $number: the product reads other rows"
        stopped=$((stopped + 1))
    done < "$folder/stops"
    [ "$stopped" -gt 0 ] || say "version $version: no stop"
    [ "$old" -gt 0 ] && [ "$old" -lt "$stopped" ] || say "version $version: $old of $stopped stops leave the old file"
    echo "rekey: version $version, $(sed 's/rekeyed: //' "$folder/said"): $stopped stops, $old leave the old file and the others the new one"
}

! find_files || rekey_files
if can_trace; then
    for version in 1 2 3 4 4:1024; do
        if [ -n "$(product "$version")" ]; then stops "$version" & else leave_out "the stops of rekey on version $version, since its product is missing"; fi
    done
    wait
else
    leave_out "the stops of rekey, since strace is missing or cannot trace"
fi

finish
