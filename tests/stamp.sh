#!/usr/bin/env bash
# `stamp` on files that the product itself makes, of versions 1 to 4 and of each size of pages: the product then reads the new numbers, finds the file
# sound, and dumps the same rows. Then the built program is stopped at each writing call of the system of a `stamp`: what is
# left is recovered by the program, and on a copy by the product, to the old number or the new one, and is sound to both.
#
#     tests/stamp.sh
#
# PROGRAM names another program, SQLCIPHER4 the product built for version 4.
set -u
. "$(dirname "$0")/common.sh"
begin 'stamp'
key=old
printf '%s\n' "$key" > "$scratch/key"

numbers() { echo "PRAGMA user_version; PRAGMA application_id; PRAGMA integrity_check;" | sql "$1" "$key" "$2" | tr '\n' ' '; }

fields() { "$program" "$2" header "$1" < "$scratch/key"; }

rows() {
    cat <<'SQL'
CREATE TABLE items(id INTEGER PRIMARY KEY, name TEXT, value);
CREATE INDEX items_name ON items(name);
BEGIN;
WITH RECURSIVE n(i) AS (SELECT 1 UNION ALL SELECT i + 1 FROM n WHERE i < 400)
INSERT INTO items SELECT i, 'item ' || (i * 7919 % 1000), zeroblob(i % 900) FROM n;
COMMIT;
PRAGMA user_version = 3;
SQL
}

stops() { # stops VERSION FILE: a stop at each writing call of a stamp
    local version=$1 file=$2 name number killed old new found stopped=0
    rm -rf "$scratch/whole" && mkdir "$scratch/whole" && cp "$file" "$scratch/whole/file" || return 1
    old=$(fields "$version" "$file")
    (cd "$scratch/whole" && traced "$scratch/calls" file stamp "$version" user-version 7 < "$scratch/key" > /dev/null) || { say "version $version: the program fails under strace"; return; }
    new=$(fields "$version" "$scratch/whole/file")
    list_stops "$scratch/calls" > "$scratch/stops"
    while read -r name number; do
        rm -rf "$scratch/stopped" "$scratch/copy"
        mkdir "$scratch/stopped" && cp "$file" "$scratch/stopped/file" || return 1
        { (cd "$scratch/stopped" && stopped_at "$name" "$number" file stamp "$version" user-version 7 \
            < "$scratch/key" > /dev/null) } 2> /dev/null
        killed=$?
        [ "$killed" -eq 137 ] || say "version $version: $name $number: ended with $killed"
        cp -r "$scratch/stopped" "$scratch/copy"
        # The program recovers it.
        "$program" "$scratch/stopped/file" recover "$version" > /dev/null < /dev/null || say "version $version: $name $number: not recovered"
        "$program" "$scratch/stopped/file" verify "$version" < "$scratch/key" > "$scratch/lines" || say "version $version: $name $number: $(head -n 1 "$scratch/lines")"
        found=$(fields "$version" "$scratch/stopped/file")
        [ "$found" = "$old" ] || [ "$found" = "$new" ] || say "version $version: $name $number: neither the old header nor the new one"
        [ ! -e "$scratch/stopped/file-journal" ] || say "version $version: $name $number: a journal is left"
        # So does the product.
        case $(numbers "$version" "$scratch/copy/file") in
            "3 0 ok " | "7 0 ok ") ;;
            *) say "version $version: $name $number: the product reads $(numbers "$version" "$scratch/copy/file")" ;;
        esac
        stopped=$((stopped + 1))
    done < "$scratch/stops"
    [ "$stopped" -gt 0 ] || say "version $version: no stop"
    echo "stamp: version $version: $stopped stops"
}

for version in 1 2 3 4 $sizes; do
    if [ -z "$(product "$version")" ]; then
        leave_out "stamp on files of version $version, since its product is missing"
        continue
    fi
    file=$scratch/version-$version.db
    rows | sql "$version" "$key" "$file" > /dev/null
    cp "$file" "$scratch/before.db"
    [ "$(numbers "$version" "$file")" = "3 0 ok " ] || { say "version $version: the product makes no such file"; continue; }
    dump "$version" "$key" "$file" > "$scratch/dump"
    for words in "user-version 7" "application-id 4294967295"; do
        # shellcheck disable=SC2086
        [ "$("$program" "$file" stamp "$version" $words < "$scratch/key")" = stamped ] || say "version $version: $words is not stamped"
    done
    found=$(numbers "$version" "$file")
    [ "$found" = "7 -1 ok " ] || say "version $version: the product reads $found"
    dump "$version" "$key" "$file" | cmp -s - "$scratch/dump" || say "version $version: the rows are not the same"
    # All pages but the first are stored as before.
    page=$(fields "$version" "$file" | awk '/^page size/ { print $3 }')
    cmp -s <(tail -c +$((page + 1)) "$file") <(tail -c +$((page + 1)) "$scratch/before.db") || say "version $version: another page was changed"
    ! can_trace || stops "$version" "$scratch/before.db"
done
can_trace || leave_out "the stops of stamp, since strace is missing or cannot trace"

finish
