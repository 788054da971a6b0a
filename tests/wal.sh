#!/usr/bin/env bash
# A write-ahead log beside the file. Where it has a byte every command but `probe` refuses, says what to do and changes nothing, and the
# product then reads all rows, those of the log among them. An empty one does not stand in the way.
set -u
. "$(dirname "$0")/common.sh"
begin 'wal'
. "$top/tests/others.sh"
needs sqlcipher

rows=0

write_database 3 "$k1" "$scratch/file" 60
printf '%s\n' "$k1" "$k2" > "$scratch/keys"
# A log with newer pages, as a copy has it that was made while the database was open.
cp "$scratch/file" "$scratch/open"
printf '%s\n' "PRAGMA journal_mode = WAL; PRAGMA wal_autocheckpoint = 0; INSERT INTO log VALUES(1); UPDATE items SET name = 'new';" \
    ".system cp $scratch/open $scratch/live; cp $scratch/open-wal $scratch/live-wal" | sql 3 "$k1" "$scratch/open" > /dev/null
[ -s "$scratch/live-wal" ] || { echo "wal: the product leaves no log"; exit 1; }
# The same log beside a file whose header does not speak of one, as where an older copy was put back.
cp "$scratch/file" "$scratch/older" && cp "$scratch/live-wal" "$scratch/older-wal"

for name in live older; do
    file=$scratch/$name
    cp "$file" "$file.kept" && cp "$file-wal" "$file.kept-wal"
    while read -r words; do
        rows=$((rows + 1))
        # shellcheck disable=SC2086
        "$program" "$file" $words < "$scratch/keys" > "$scratch/lines" 2> "$scratch/errors"
        status=$?
        [ "$status" -eq 4 ] && [ ! -s "$scratch/lines" ] || say "$name: $words: ended with $status and '$(cat "$scratch/lines")'"
        grep -q "$name-wal: this write-ahead log holds newer pages" "$scratch/errors" && grep -q 'open and close the database with the program that wrote it' "$scratch/errors" ||
            say "$name: $words: says $(cat "$scratch/errors")"
        cmp -s "$file" "$file.kept" && cmp -s "$file-wal" "$file.kept-wal" || say "$name: $words: the files have changed"
    done < <(commands 3 4 check part recovery change making script)
    rows=$((rows + 1))
    [ "$("$program" "$file" probe < "$scratch/keys" 2> "$scratch/errors")" = "profile 3" ] || say "$name: probe does not answer"
    grep -q 'this write-ahead log holds newer pages of the database; every other command refuses it' "$scratch/errors" || say "$name: probe does not speak of the log"
done
[ "$(echo 'SELECT count(*) FROM log;' | sql 3 "$k1" "$scratch/live")" = 1 ] && [ "$(check 3 "$k1" "$scratch/live")" = ok ] || say "LOST: the product does not read the rows of the log"

# An empty log.
rows=$((rows + 1))
cp "$scratch/file" "$scratch/empty" && : > "$scratch/empty-wal"
printf '%s\n' "$k1" | "$program" "$scratch/empty" verify 3 2> "$scratch/errors" | grep -q '^ok:' && ! grep -qv 'lock on the file is not held' "$scratch/errors" || say "an empty log stands in the way"

finish "$rows rows"
