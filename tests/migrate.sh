#!/usr/bin/env bash
# `migrate` on files that the product itself makes, of versions 1 to 4 and of each size of pages, to each of the four versions and to
# version 4 with pages of 1,024 and of 65,536 bytes: the product of that version then
# opens the new file by the new key, finds it sound and dumps the same rows, the program exports the same text, and the old key is
# refused. Then the built program is stopped at each writing call of the system of a `migrate 3 4`, a `migrate 4 1` and a `migrate 4:65536 4:1024` of some 100
# pages with a hot journal beside them: what is left is the old content by the old key and version or the new by the new, to the program
# and on a copy to the product.
#
#     tests/migrate.sh
#
# PROGRAM names another program, SQLCIPHER4 the product built for version 4, PRODUCT_FILES the folder that tests/product_files.sh made.
set -u
. "$(dirname "$0")/common.sh"
begin 'migrate'
k1="x'ffffffffffffffffffffffffffffffffffffffffffffffffffffffffffffffff'"
k2="x'0f1e2d3c4b5a69788796a5b4c3d2e1f00f1e2d3c4b5a69788796a5b4c3d2e1f0'"

place() { # place FROM TO: the file and its journal
    rm -f "$2" "$2-journal" "$2-migrated"
    cp "$1" "$2"
    [ ! -e "$1-journal" ] || cp "$1-journal" "$2-journal"
}

# ---- files of the product

# A copy of the file, and of its journal, is migrated. Where `export` serves the file, it is migrated, else `migrate` ends as `export` does.
migrate_file() { # migrate_file NAME VERSION OLD NEW_VERSION NEW
    local name=$1 version=$2 old=$3 later=$4 new=$5 folder=$scratch/to-$4 status pages size
    local copy=$folder/copy.db text=$folder/$1.text
    place "$files/$name.db" "$copy"
    printf '%s\n' "$old" "$new" | "$program" "$copy" migrate "$version" "$later" > "$folder/line" 2> /dev/null
    status=$?
    if [ "$(cat "$scratch/$name.status")" -ne 0 ]; then
        [ "$status" -eq "$(cat "$scratch/$name.status")" ] || say "$name to $later: export ends with $(cat "$scratch/$name.status"), and migrate with $status"
        cmp -s "$copy" "$scratch/$name.db" || say "$name to $later: migrate was refused, and the file is another one"
        echo refused >> "$folder/ends"
        return
    fi
    pages=$(asked "$new" "$copy" header "$later" | awk '/^pages/ { print $2 }')
    size=$(asked "$new" "$copy" header "$later" | awk '/^page size/ { print $3 }')
    [ "$status" -eq 0 ] && [ "$(cat "$folder/line")" = "migrated: $pages pages" ] || say "$name to $later: ended with $status and $(cat "$folder/line")"
    [ "$(stat -c %s "$copy")" -eq $((pages * size)) ] || say "$name to $later: the file is not its pages"
    [ "$(ls "$folder"/copy.db*)" = "$copy" ] || say "$name to $later: another file is left: $(ls "$folder"/copy.db*)"
    asked "$new" "$copy" export "$later" | cmp -s - "$scratch/$name.text" || say "$name to $later: another text is exported"
    asked "$new" "$copy" verify "$later" | grep -q '^ok: .* 0 free pages, 0 unused pages$' || say "$name to $later: verify does not find it whole"
    [ "$later" = 1 ] || [ "$(asked "$new" "$copy" tags "$later")" = "tags hold: $pages pages" ] || say "$name to $later: a tag does not hold"
    # The new file may be shorter than a page of the old version.
    ! asked "$old" "$copy" header "$version" > /dev/null || say "$name to $later: the old key is not refused"
    [ "$(check "$later" "$new" "$copy")" = ok ] || say "$name to $later: the product does not find it sound"
    dump "$later" "$new" "$copy" | cmp -s - "$scratch/$name.dump" || say "$name to $later: the product dumps other rows"
    echo migrated >> "$folder/ends"
}

migrate_files() { # migrate_files NEW_VERSION
    local name version new old
    mkdir "$scratch/to-$1"
    while read -r name version; do
        old=$(cat "$files/$name.key")
        # A raw key in place of a raw key, and a passphrase in place of a passphrase.
        case $old in
            [xX]\'*) new=$k2 ;;
            *) new="n'w pässwörd" ;;
        esac
        migrate_file "$name" "$version" "$old" "$1" "$new"
    done < "$scratch/names"
    echo "migrate: $(grep -c migrated "$scratch/to-$1/ends") files are migrated to version $1, and $(grep -c refused "$scratch/to-$1/ends") are refused as export does"
    grep -q migrated "$scratch/to-$1/ends" || say "no file is migrated to version $1"
}

# What each file has before: its text, its dump, and its bytes after a recovery.
look_at_files() {
    local name version old
    while IFS=$'\t' read -r name version _; do
        [ "$name" != file ] || continue
        name=${name%.db}
        [ -f "$files/$name.db" ] && [ -f "$files/$name.key" ] || { say "$name is not made"; continue; }
        [ -n "$(product "$version")" ] || continue
        echo "$name $version" >> "$scratch/names"
        old=$(cat "$files/$name.key")
        place "$files/$name.db" "$scratch/$name.db"
        # The product lays the journal back itself.
        dump "$version" "$old" "$scratch/$name.db" > "$scratch/$name.dump"
        place "$files/$name.db" "$scratch/$name.db"
        asked "$old" "$scratch/$name.db" export "$version" > "$scratch/$name.text"
        echo $? > "$scratch/$name.status"
    done < "$table"
}

# ---- stops

rows() {
    cat <<'SQL'
CREATE TABLE items(id INTEGER PRIMARY KEY, name TEXT, value);
CREATE INDEX items_name ON items(name);
CREATE TABLE codes(code TEXT PRIMARY KEY, item) WITHOUT ROWID;
CREATE VIEW names AS SELECT name FROM items;
BEGIN;
WITH RECURSIVE n(i) AS (SELECT 1 UNION ALL SELECT i + 1 FROM n WHERE i < ROWS)
INSERT INTO items SELECT i, 'item ' || (i * 7919 % 1000), zeroblob(i % 900) FROM n;
INSERT INTO codes SELECT name || id, id FROM items WHERE id % 3 = 0;
COMMIT;
SQL
}

# A change that the product has not ended: the journal is hot, and some changed pages stand in the file.
hot() { # hot VERSION FILE ROWS: FILE and FILE-journal
    rows | sed "s/ROWS/$3/" | sql "$1" "$k1" "$2.first"
    printf '%s\n' "PRAGMA cache_size = 5;" "BEGIN;" "UPDATE items SET value = randomblob(200), name = name || '+';" \
        ".system cp $2.first $2" ".system cp $2.first-journal $2-journal" "ROLLBACK;" | sql "$1" "$k1" "$2.first"
    rm -f "$2.first" "$2.first-journal"
}

# An unfinished new file is no hindrance. A whole one that a stop has kept from its place is refused, and moved away by hand.
make_way() { # make_way FOLDER VERSION NEW_VERSION
    local left=$1/stopped/file-migrated
    [ -s "$left" ] && [ -n "$(head -c 1024 "$left" | tr -d '\0')" ] || return 0
    (cd "$1/stopped" && "$program" file migrate "$2" "$3" < "$1/keys" > /dev/null 2> "$1/errors")
    [ $? -eq 4 ] && grep -q 'file-migrated: this file is in the way' "$1/errors" || say "version $2: a whole new file is not refused"
    rm "$left"
}

stops() { # stops VERSION NEW_VERSION ROWS: a stop at each writing call of a migrate
    local version=$1 later=$2 folder=$scratch/stops-$1 name number found by key stopped=0 old=0
    mkdir "$folder" "$folder/whole"
    hot "$version" "$folder/file" "$3"
    place "$folder/file" "$folder/read"
    [ -e "$folder/file-journal" ] || say "version $version: the product leaves no journal"
    cp "$folder/file" "$folder/torn"
    asked "$k1" "$folder/torn" export "$version" > "$folder/torn.text"
    asked "$k1" "$folder/read" export "$version" > "$folder/text" || { say "version $version: the product makes no such file"; return; }
    cmp -s "$folder/text" "$folder/torn.text" && say "version $version: the journal has nothing to lay back"
    dump "$version" "$k1" "$folder/read" > "$folder/dump"
    printf '%s\n' "$k1" "$k2" > "$folder/keys"
    place "$folder/file" "$folder/whole/file"
    (cd "$folder/whole" && traced "$folder/calls" file migrate "$version" "$later" < "$folder/keys" > "$folder/said") || { say "version $version: the program fails under strace"; return; }
    list_stops "$folder/calls" > "$folder/stops"
    while read -r name number; do
        rm -rf "$folder/stopped" "$folder/copy"
        mkdir "$folder/stopped"
        place "$folder/file" "$folder/stopped/file"
        { (cd "$folder/stopped" && stopped_at "$name" "$number" file migrate "$version" "$later" < "$folder/keys" > /dev/null) } 2> /dev/null
        found=$?
        [ "$found" -eq 137 ] || say "version $version: $name $number: ended with $found"
        cp -r "$folder/stopped" "$folder/copy"
        # The program: the old content by the old key and version, or the new by the new.
        if asked "$k1" "$folder/stopped/file" export "$version" | cmp -s - "$folder/text"; then
            by=$version key=$k1 old=$((old + 1))
            make_way "$folder" "$version" "$later"
            (cd "$folder/stopped" && "$program" file migrate "$version" "$later" < "$folder/keys" > /dev/null 2>&1) || say "version $version: $name $number: not migrated after it"
        elif asked "$k2" "$folder/stopped/file" export "$later" | cmp -s - "$folder/text"; then
            by=$later key=$k2
            [ "$(ls "$folder/stopped")" = file ] || say "version $version: $name $number: beside the new file is left: $(ls "$folder/stopped")"
        else
            say "version $version: $name $number: neither the old content nor the new one"
            continue
        fi
        # So does the product, which plays the journal back itself.
        [ "$(check "$by" "$key" "$folder/copy/file")" = ok ] || say "version $version: $name $number: the product does not find it sound"
        dump "$by" "$key" "$folder/copy/file" | cmp -s - "$folder/dump" || say "version $version: $name $number: the product reads other rows"
        stopped=$((stopped + 1))
    done < "$folder/stops"
    [ "$old" -gt 0 ] && [ "$old" -lt "$stopped" ] || say "version $version: $old of $stopped stops leave the old file"
    echo "migrate: version $version to $later, $(sed 's/migrated: //' "$folder/said"): $stopped stops, $old leave the old file and the others the new one"
}

if find_files; then
    look_at_files
    for version in 1 2 3 4 4:1024 4:65536; do
        if [ -n "$(product "$version")" ]; then migrate_files "$version" & else leave_out "migrations to version $version, since its product is missing"; fi
    done
    wait
fi
if ! can_trace; then
    leave_out "the stops of migrate, since strace is missing or cannot trace"
elif [ -z "$four" ]; then
    leave_out "the stops of migrate, since the product of version 4 is missing"
else
    stops 3 4 480 &
    stops 4 1 900 &
    stops 4:65536 4:1024 900 &
    wait
fi

finish
