#!/usr/bin/env bash
# Plain SQLite files. Those that Python's `sqlite3` writes at each size of pages (UTF-8 and UTF-16, WITHOUT ROWID, virtual tables, overflow,
# freelists, journals that a stop of SQLite left, WAL mode, auto-vacuum, reserved bytes): every command prints and leaves what the reference says,
# with standard input closed. Each is migrated to each version and size, where the product reads it with the same dump, and back to a plain file, which
# SQLite finds sound with the same dump as before. Then the built program is stopped at each writing call of the system of `migrate plain:1024 4` and
# of `migrate 4 plain:1024`, on the files of `make P 7` and on files of some 60 pages with a hot journal beside them: what is left is the old content
# or the new one, to the program and on a copy to SQLite or the product. No byte of standard input is read and no random byte is drawn where
# none is asked for. Programs of SQLite that hold the file are met as for an encrypted one.
#
#     tests/plain.sh [SIZE..]
#
# With sizes only files with such pages are looked at. PROGRAM names another program, SQLCIPHER4 the product built for version 4.
set -u
. "$(dirname "$0")/common.sh"
begin 'plain'
check=$top/tests/reference/oracle/check_plain.py

k1="x'ffffffffffffffffffffffffffffffffffffffffffffffffffffffffffffffff'"
printf '%s\n' "$k1" > "$scratch/key"

# A plain file is read by the product without a key, so that one program writes both dumps; SQLite itself reads it where it is the last word.
sql() { # sql PROFILE FILE: runs the SQL of standard input in the product of this version
    case $1 in
        plain:*) "${four:-sqlcipher}" -batch "$2" 2> /dev/null ;;
        *) { echo ".output /dev/null"; opening "$1" "$k1"; echo ".output stdout"; cat; } | "$(product "$1")" -batch "$2" 2> /dev/null ;;
    esac
}

dump() { printf 'PRAGMA integrity_check;\n.dump\n' | sql "$1" "$2"; }      # dump PROFILE FILE: `ok`, and the rows

by_sqlite() { # by_sqlite FILE: `ok`, and every row that SQLite reads, with what the header keeps
    python3 - "$1" <<'PY'
import sqlite3
import sys
db = sqlite3.connect(sys.argv[1])
for word in ("integrity_check", "encoding", "user_version", "application_id"):
    print(db.execute(f"PRAGMA {word}").fetchall())
db.text_factory = bytes
print(*db.execute("SELECT rowid, type, name, tbl_name, rootpage > 0, sql FROM sqlite_schema ORDER BY rowid"), sep="\n")
for (name,) in db.execute("SELECT name FROM sqlite_schema WHERE type = 'table' ORDER BY rowid").fetchall():
    quoted = '"%s"' % name.decode().replace('"', '""')
    try:
        rows = db.execute(f"SELECT rowid, * FROM {quoted} ORDER BY rowid").fetchall()
    except sqlite3.OperationalError:
        rows = db.execute(f"SELECT * FROM {quoted}").fetchall()
    print(name, *map(repr, rows), sep="\n")
PY
}

asked() { "$program" "$@" 2> /dev/null < "$scratch/key"; }      # asked FILE WORDS..: what the program prints

place() { # place FROM TO: the file and its journal
    rm -f "$2" "$2-journal" "$2-migrated"
    cp "$1" "$2"
    [ ! -e "$1-journal" ] || cp "$1-journal" "$2-journal"
}

# ---- each command beside the reference

beside_reference() {
    local status=0
    python3 "$check" compare "$program" "$scratch/files" > "$scratch/compared" || status=$?
    sed 's/^/plain: /' "$scratch/compared"
    [ "$status" -eq 0 ] || say "some answers are not the reference's"
}

# What the comparison has to find wrong: a program that does nothing, one that changes a byte of the file, and one that reads a key line.
stand_ins() {
    local name
    mkdir "$scratch/few"
    cp "$scratch"/files/delete-"$1".db "$scratch"/files/hot-"$1".db* "$scratch/few"
    grep -E "^(delete|hot)-$1	" "$scratch/files/table.tsv" > "$scratch/few/table.tsv"
    printf '#!/bin/sh\n' > "$scratch/idle"
    printf '#!/bin/sh\n"%s" "$@" 0<&0 || exit\nprintf x | dd of=file bs=1 seek=70 conv=notrunc status=none\n' "$program" > "$scratch/spoils"
    printf '#!/bin/sh\nread -r line || exit 6\nexec "%s" "$@"\n' "$program" > "$scratch/asks"
    chmod 755 "$scratch/idle" "$scratch/spoils" "$scratch/asks"
    for name in idle spoils asks; do
        python3 "$check" compare "$scratch/$name" "$scratch/few" > "$scratch/found" && say "a program that $name is not found wrong"
    done
}

# ---- to each version, and back

migrate_one() { # migrate_one NAME WORD PROFILE: a copy of the file is encrypted, and decrypted again
    local name=$1 word=$2 later=$3 copy=$scratch/to-$3/$1.db pages size
    place "$scratch/files/$name.db" "$copy"
    "$program" "$copy" migrate "$word" "$later" < "$scratch/key" > "$copy.line" 2> "$copy.errors" || say "$name to $later: $(cat "$copy.line" "$copy.errors")"
    pages=$(asked "$copy" header "$later" | awk '/^pages/ { print $2 }')
    size=$(asked "$copy" header "$later" | awk '/^page size/ { print $3 }')
    [ "$(cat "$copy.line")" = "migrated: $pages pages" ] && [ "$(stat -c %s "$copy")" -eq $((pages * size)) ] ||
        say "$name to $later: $(cat "$copy.line"), and it has $pages"
    grep -q 'taken as a raw key' "$copy.errors" || say "$name to $later: what the key was taken as is not said"
    grep -q 'but not from the device' "$copy.errors" || say "$name to $later: that the device may keep the old rows is not said"
    ! grep -q 'holds every row in the clear' "$copy.errors" || say "$name to $later: it is said to be in the clear"
    ! head -c 15 "$copy" | grep -q 'SQLite format 3' || say "$name to $later: it is still plain"
    asked "$copy" export "$later" | cmp -s - "$scratch/texts/$name" || say "$name to $later: another text is exported"
    asked "$copy" verify "$later" | grep -q '^ok: .* 0 free pages, 0 unused pages$' || say "$name to $later: verify does not find it whole"
    [ -z "$(product "$later")" ] || dump "$later" "$copy" | cmp -s - "$scratch/dumps/$name" || say "$name to $later: the product dumps other rows"
    "$program" "$copy" migrate "$later" "$word" < "$scratch/key" > "$copy.line" 2> "$copy.errors" || say "$name from $later: $(cat "$copy.line" "$copy.errors")"
    [ "$(grep -c 'holds every row in the clear' "$copy.errors")" -eq 1 ] || say "$name from $later: it is not said once to be in the clear"
    [ "$(grep -vc 'lock on the file is not held' "$copy.errors")" -eq 1 ] || say "$name from $later: $(cat "$copy.errors")"
    asked "$copy" export "$word" | cmp -s - "$scratch/texts/$name" || say "$name from $later: another text is exported"
    asked "$copy" verify "$word" | grep -q '^ok: .* 0 free pages, 0 unused pages$' || say "$name from $later: verify does not find it whole"
    by_sqlite "$copy" | cmp -s - "$scratch/rows/$name" || say "$name from $later: SQLite reads other rows"
    [ -z "$(find "$scratch/to-$later" -name "$name.db-*")" ] || say "$name to $later: a file is left beside it"
    rm -f "$copy" "$copy".*
    echo migrated >> "$scratch/to-$later/ends"
}

migrate_all() { # migrate_all PROFILE
    local name word kind
    mkdir "$scratch/to-$1"
    while IFS=$'\t' read -r name word kind; do
        [ "$kind" != served ] || migrate_one "$name" "$word" "$1"
    done < "$scratch/files/table.tsv"
    echo "plain: $(wc -l < "$scratch/to-$1/ends") files to $1 and back"
}

# Of each file that is served: its text by the program, its dump by the product and its rows by SQLite, its journal played back by each.
look_at_files() {
    local name word kind
    mkdir "$scratch/texts" "$scratch/dumps" "$scratch/rows"
    while IFS=$'\t' read -r name word kind; do
        [ "$kind" = served ] || continue
        place "$scratch/files/$name.db" "$scratch/file"
        asked "$scratch/file" export "$word" > "$scratch/texts/$name" || say "$name: export fails"
        place "$scratch/files/$name.db" "$scratch/file"
        dump "$word" "$scratch/file" > "$scratch/dumps/$name"
        place "$scratch/files/$name.db" "$scratch/file"
        by_sqlite "$scratch/file" > "$scratch/rows/$name"
        [ "$(head -n 1 "$scratch/rows/$name")" = "[('ok',)]" ] || say "$name: SQLite does not find it sound"
    done < "$scratch/files/table.tsv"
}

# ---- stops

# A file of some 60 pages, and one like it with a hot journal: a transaction that SQLite or the product has not ended.
rows="CREATE TABLE items(id INTEGER PRIMARY KEY, name TEXT, value);
CREATE INDEX items_name ON items(name);
CREATE TABLE codes(code TEXT PRIMARY KEY, item) WITHOUT ROWID;
BEGIN;
WITH RECURSIVE n(i) AS (SELECT 1 UNION ALL SELECT i + 1 FROM n WHERE i < COUNT)
INSERT INTO items SELECT i, 'item ' || (i * 7919 % 1000), zeroblob(i * 37 % 900) FROM n;
INSERT INTO codes SELECT name || id, id FROM items WHERE id % 3 = 0;
COMMIT;"

hot() { # hot PROFILE FILE ROWS: FILE and FILE-journal
    { case $1 in plain:*) echo "PRAGMA page_size = ${1#plain:};" ;; esac; echo "${rows/COUNT/$3}"; } | sql "$1" "$2.first"
    printf '%s\n' "PRAGMA cache_size = 5;" "BEGIN;" "UPDATE items SET value = randomblob(200), name = name || '+';" \
        ".system cp $2.first $2" ".system cp $2.first-journal $2-journal" "ROLLBACK;" | sql "$1" "$2.first"
    rm -f "$2.first" "$2.first-journal"
}

# An unfinished new file is no hindrance. A whole one that a stop has kept from its place is refused, and moved away by hand.
make_way() { # make_way FOLDER NAME OLD NEW
    local left=$1/stopped/file-migrated
    [ -s "$left" ] && [ -n "$(head -c 512 "$left" | tr -d '\0')" ] || return 0
    (cd "$1/stopped" && "$program" file migrate "$3" "$4" < "$scratch/key" > /dev/null 2> "$1/errors")
    [ $? -eq 4 ] && grep -q 'file-migrated: this file is in the way' "$1/errors" || say "$2: a whole new file is not refused"
    rm "$left"
}

stops() { # stops NAME OLD NEW: a stop at each writing call of a migrate of the file $scratch/NAME
    local case=$1 before=$2 later=$3 folder=$scratch/stops-$1 name number now stopped=0 old=0
    mkdir "$folder" "$folder/whole"
    place "$scratch/$case" "$folder/read"
    asked "$folder/read" export "$before" > "$folder/text" || { say "$case: export fails"; return; }
    place "$scratch/$case" "$folder/read"
    dump "$before" "$folder/read" > "$folder/dump"
    [ "$(head -n 1 "$folder/dump")" = ok ] || say "$case: the product does not find it sound"
    place "$scratch/$case" "$folder/whole/file"
    (cd "$folder/whole" && traced "$folder/calls" file migrate "$before" "$later" < "$scratch/key" > "$folder/said" 2> /dev/null) ||
        { say "$case: the program fails under strace"; return; }
    list_stops "$folder/calls" > "$folder/stops"
    while read -r name number; do
        rm -rf "$folder/stopped" "$folder/copy"
        mkdir "$folder/stopped"
        place "$scratch/$case" "$folder/stopped/file"
        { (cd "$folder/stopped" && stopped_at "$name" "$number" file migrate "$before" "$later" < "$scratch/key" > /dev/null) } 2> "$folder/told"
        [ $? -eq 137 ] || say "$case: $name $number: not stopped"
        # That rows are in the clear is said before the first of them is written.
        if [[ $later == plain:* ]] && head -c 4096 "$folder/stopped/file-migrated" 2> /dev/null | tr -d '\0' | grep -q .; then
            grep -q 'in the clear' "$folder/told" || say "$case: $name $number: rows are written in the clear, and it was not said"
        fi
        cp -r "$folder/stopped" "$folder/copy"
        if asked "$folder/stopped/file" export "$before" | cmp -s - "$folder/text"; then
            now=$before old=$((old + 1))
            make_way "$folder" "$case: $name $number" "$before" "$later"
            (cd "$folder/stopped" && "$program" file migrate "$before" "$later" < "$scratch/key" > /dev/null 2>&1) || say "$case: $name $number: not migrated after it"
        elif asked "$folder/stopped/file" export "$later" | cmp -s - "$folder/text"; then
            now=$later
            [ "$(ls "$folder/stopped")" = file ] || say "$case: $name $number: beside the new file is left: $(ls "$folder/stopped")"
        else
            say "$case: $name $number: neither the old content nor the new one"
            continue
        fi
        # So does the product, and SQLite of a plain file, which plays the journal back itself.
        dump "$now" "$folder/copy/file" | cmp -s - "$folder/dump" || say "$case: $name $number: the product reads other rows"
        stopped=$((stopped + 1))
    done < "$folder/stops"
    [ "$old" -gt 0 ] && [ "$old" -lt "$stopped" ] || say "$case: $old of $stopped stops leave the old file"
    echo "plain: $before to $later, $case, $(sed 's/migrated: //' "$folder/said"): $stopped stops, $old leave the old file and the others the new one"
}

# ---- nothing is read of standard input, and nothing is drawn

untaken() { # untaken WORDS..: a run of the program that neither reads standard input nor opens the random bytes
    place "$scratch/made" "$scratch/quiet"
    [ "$1" != make ] || rm "$scratch/quiet"
    strace -f -qq -y -o "$scratch/calls" -e trace=read,readv,pread64,open,openat,getrandom "$program" "$scratch/quiet" "$@" \
        < "$scratch/key" > "$scratch/line" 2> "$scratch/errors"
    ! grep -E '(read|readv|pread64)\(0<' "$scratch/calls" || say "$*: standard input is read"
    ! grep -E '/dev/u?random' "$scratch/calls" || say "$*: random bytes are drawn"
    [ "$(grep -c getrandom "$scratch/calls")" -eq "$(cat "$scratch/getrandoms" 2> /dev/null || echo 0)" ] || say "$*: getrandom is called"
    echo "$*" >> "$scratch/untaken"
}

taken_and_drawn() {
    strace -f -qq -o "$scratch/calls" -e trace=getrandom "$program" --version > /dev/null
    grep -c getrandom "$scratch/calls" > "$scratch/getrandoms"
    untaken make plain:1024 3
    while read -r words; do
        # shellcheck disable=SC2086
        untaken $words
    done < <(commands plain:1024 plain:4096 check part recovery change)
    untaken tags plain:1024
    untaken find plain:1024 Items 1 9
    untaken rekey plain:1024 4
    untaken rekey plain:1024 plain:1024
    # One line is read of two words of which one is plain, and the other line stays.
    place "$scratch/made" "$scratch/quiet"
    printf '%s\nleft\n' "$k1" > "$scratch/two"
    [ "$({ "$program" "$scratch/quiet" migrate plain:1024 4 > /dev/null 2>&1; cat; } < "$scratch/two")" = left ] || say "migrate plain:1024 4 takes more than a line"
    [ "$({ "$program" "$scratch/quiet" migrate 4 plain:1024 > /dev/null 2>&1; cat; } < "$scratch/two")" = left ] || say "migrate 4 plain:1024 takes more than a line"
    # Only the salt and the reserves of a new encrypted file are drawn.
    strace -f -qq -y -o "$scratch/calls" -e trace=open,openat "$program" "$scratch/quiet" migrate plain:1024 4 < "$scratch/key" > /dev/null 2>&1
    grep -q '/dev/urandom' "$scratch/calls" || say "migrate plain:1024 4 draws nothing"
    strace -f -qq -y -o "$scratch/calls" -e trace=open,openat "$program" "$scratch/quiet" migrate 4 plain:1024 < "$scratch/key" > /dev/null 2>&1
    ! grep -q '/dev/urandom' "$scratch/calls" || say "migrate 4 plain:1024 draws random bytes"
    echo "plain: $(wc -l < "$scratch/untaken") runs take nothing and draw nothing"
}

# ---- beside programs of SQLite

beside() { # beside STATUS SQL.. -- WORDS..: the words, while a program of SQLite has carried out the statements
    local wanted=$1 statements=() found
    shift
    while [ "$1" != -- ]; do statements+=("$1"); shift; done
    shift
    place "$scratch/made" "$scratch/held"
    rm -f "$scratch/held-wal" "$scratch/held-shm"
    python3 - "$scratch/held" "$program" "${#statements[@]}" "${statements[@]}" "$@" > "$scratch/found" <<'PY'
import sqlite3
import subprocess
import sys
path, program, count = sys.argv[1:4]
count = int(count)
db = sqlite3.connect(path, isolation_level=None)
for statement in sys.argv[4:4 + count]:
    db.execute(statement).fetchone()
done = subprocess.run([program, path, *sys.argv[4 + count:]], stdin=subprocess.DEVNULL, capture_output=True, text=True)
print(done.returncode, done.stdout.strip(), done.stderr.strip())
PY
    found=$(cat "$scratch/found")
    [ "${found%% *}" = "$wanted" ] || say "beside ${statements[*]}: $* answers $found, and $wanted is wanted"
    if [ "$wanted" -eq 4 ] && ! grep -q 'another program has the file open' "$scratch/found" && ! grep -q 'write-ahead log holds newer pages' "$scratch/found"; then
        say "beside ${statements[*]}: $*: $found"
    fi
    echo "$*" >> "$scratch/beside"
}

beside_programs() {
    local words
    for words in "verify plain:1024" "recover plain:1024" "stamp plain:1024 user-version 3" "migrate plain:1024 plain:4096" "salvage plain:1024"; do
        # shellcheck disable=SC2086
        {
            beside 4 "BEGIN IMMEDIATE" -- $words
            beside 4 "BEGIN EXCLUSIVE" -- $words
            beside 4 "BEGIN IMMEDIATE" "UPDATE items SET name = 'x'" -- $words
            beside 4 "PRAGMA journal_mode = WAL" "UPDATE items SET name = 'x'" -- $words
            beside 0 "SELECT count(*) FROM items" -- $words
        }
    done
    # In WAL mode a program holds a lock as long as it has the file open, though it has emptied its log.
    beside 4 "PRAGMA journal_mode = WAL" "SELECT count(*) FROM items" "PRAGMA wal_checkpoint(TRUNCATE)" -- verify plain:1024
    beside 4 "SELECT count(*) FROM items" "BEGIN" "SELECT count(*) FROM items" -- verify plain:1024
    echo "plain: $(wc -l < "$scratch/beside") runs beside a program of SQLite"
}

# ----

if ! has python3 || ! has_reference; then
    leave_out "plain files, since Python's cryptography is missing"
    finish
fi
mkdir "$scratch/files"
python3 "$check" make "$scratch/files" "$@" || { echo "plain: the files are not made"; exit 1; }
beside_reference &
stand_ins "${1:-1024}"
look_at_files
for version in 1 2 3 4 $sizes; do
    [ -n "$(product "$version")" ] || leave_out "the product's reading of encrypted files of version $version, since it is missing"
    while [ "$(jobs -rp | wc -l)" -ge 4 ]; do wait -n; done
    migrate_all "$version" &
done
wait

"$program" "$scratch/made" make plain:1024 7 < /dev/null > /dev/null || say "make plain:1024 7 fails"
if ! can_trace; then
    leave_out "stops, and what is taken and drawn, since strace is missing or cannot trace"
elif [ -z "$four" ]; then
    leave_out "stops, since the product of version 4 is missing"
else
    taken_and_drawn
    cp "$scratch/made" "$scratch/plain-7"
    asked "$scratch/four-7" make 4 7 > /dev/null || say "make 4 7 fails"
    hot plain:1024 "$scratch/plain-hot" 100
    hot 4 "$scratch/four-hot" 450
    [ -e "$scratch/plain-hot-journal" ] && [ -e "$scratch/four-hot-journal" ] || say "the product leaves no journal"
    stops plain-7 plain:1024 4 &
    stops four-7 4 plain:1024 &
    stops plain-hot plain:1024 4 &
    stops four-hot 4 plain:1024 &
    wait
fi
beside_programs

finish
