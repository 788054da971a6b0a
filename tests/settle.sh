#!/usr/bin/env bash
# `settle` on files in WAL mode with their logs, by the product, of each profile and each age (tests/reference/oracle/log_pairs.py): behind it there is
# no log, the program's `verify`, `export`, `rekey` and `migrate` serve the file without the setting, and print what they say of the pair under it; the
# product finds it sound, in `journal_mode` delete, and dumps the rows that it dumps of a copy of the pair which it has closed itself. Once more it
# changes nothing. Of a file with auto-vacuum the map pages are free then, and the product finds none (`auto_vacuum` 0). A log of another file is refused
# before anything is written; beside a program that has the file open the status is 4. Then it is stopped at each writing call of the system, and each call of the system fails once: what is left the product reads
# with the same rows, and `settle` again goes to its end.
#
#     tests/settle.sh
#
# EVERY=N takes each N-th pair, STRIDE=1 each write of a frame in place of each 16th. PROGRAM names another program, SQLCIPHER4 the product built for
# version 4. Needs Python's `cryptography`, and strace for the stops and the faults.
set -u
. "$(dirname "$0")/common.sh"
begin 'settle'
every=${EVERY:-1}
stride=${STRIDE:-16}
pairs=$top/tests/reference/oracle/log_pairs.py
export SQLCIPHER4=$four

needs sqlcipher sqlite3 python3
if ! has_reference; then
    leave_out "all of it, since Python's cryptography is missing"
    finish
fi
[ -n "$four" ] || leave_out "files of version 4, since its product is missing"
python3 "$pairs" make "$scratch/pairs" > "$scratch/made" 2>&1 || { cat "$scratch/made"; say "the pairs are not made"; finish; }

raw="x'000102030405060708090a0b0c0d0e0f101112131415161718191a1b1c1d1e1f'"
new="x'ffffffffffffffffffffffffffffffffffffffffffffffffffffffffffffffff'"
key_of() { if [ "$1" = 2 ]; then echo "the log's key"; else echo "$raw"; fi; }
given() { case $1 in plain:*) ;; *) printf '%s\n' "$2" ;; esac; }     # given PROFILE KEY: its key line; a plain file has none

told() { given "$1" "$key" | "$program" "$scratch/now/file" "${@:2}" 2> "$scratch/errors"; }     # told PROFILE WORDS..: what it prints of the files in `now`
place() { rm -rf "$scratch/now" && cp -r "$1" "$scratch/now" || exit 1; }     # place FOLDER: a copy of a pair, in `now`
rows() { printf '.dump\n' | sql "$1" "$key" "$2"; }
looks() { printf 'PRAGMA integrity_check; PRAGMA journal_mode; PRAGMA auto_vacuum;\n' | sql "$1" "$key" "$2" | tr '\n' ' '; }
seen() { (cd "$1" && stat -c '%n %s %y' -- * && md5sum -- *); }       # seen FOLDER: its files, when they were written and what they hold
left() { (cd "$scratch/now" && echo ./*); }

# How many frames of a log are committed: those of its own salts up to the last one that ends a commit.
committed() {
    [ -s "$1" ] || { echo 0; return; }
    python3 - "$1" <<'PYTHON'
import sys
log = open(sys.argv[1], "rb").read()
size, count, frames = 24 + int.from_bytes(log[8:12], "big"), 0, 0
for at in range(32, len(log) - size + 1, size):
    if log[at + 8:at + 16] != log[16:24]:
        break
    frames += 1
    if log[at + 4:at + 8] != bytes(4):
        count = frames
print(count)
PYTHON
}

# How many map pages a settled file had, for the reserve of its pages (Database File Format, section 1.8).
maps_of() { # maps_of FILE WORD
    python3 - "$1" "$2" <<'PYTHON'
import os, sys
path, word = sys.argv[1:]
version, _, size = word.partition(":")
size = int(size or (4096 if version == "4" else 1024))
usable = size - {"1": 16, "2": 48, "3": 48, "4": 80, "plain": 0}[version]
count = os.path.getsize(path) // size
print((count - 2) // (usable // 5 + 1) + 1 if count >= 2 else 0)
PYTHON
}

# ---- each pair
settled=0 refused=0 number=0 vacuumed=0
while IFS=$'\t' read -r name word special; do
    number=$((number + 1))
    [ $((number % every)) -eq 0 ] || continue
    pair=$scratch/pairs/$name key=$(key_of "$word")
    place "$pair"
    told "$word" verify "$word:wal" > "$scratch/verified"
    status=$?
    # What is refused as a pair is refused alike, before anything is written. (So is a file of version 1 behind the product's VACUUM: its key is
    # refused, without a log too.)
    if [ "$status" -ne 0 ]; then
        seen "$scratch/now" > "$scratch/before"
        told "$word" settle "$word" > "$scratch/lines"
        ended=$?
        [ "$ended" -eq "$status" ] && cmp -s "$scratch/lines" "$scratch/verified" || say "$name: ends with $ended and '$(cat "$scratch/lines" "$scratch/errors")'"
        seen "$scratch/now" | cmp -s - "$scratch/before" || say "$name: refused, and the files have changed"
        refused=$((refused + 1))
        continue
    fi
    # The product's copy is closed by it, out of WAL mode.
    cp -r "$pair" "$scratch/theirs"
    echo "PRAGMA journal_mode = DELETE;" | sql "$word" "$key" "$scratch/theirs/file" > /dev/null
    rows "$word" "$scratch/theirs/file" > "$scratch/dump"
    rm -rf "$scratch/theirs"
    told "$word" export "$word:wal" > "$scratch/exported"
    told "$word" settle "$word" > "$scratch/lines"
    status=$?
    # Map pages are no longer unused, but free.
    maps=0
    [ "${special#auto-vacuum}" = "$special" ] || maps=$(maps_of "$scratch/now/file" "$word")
    awk -v maps="$maps" '/^ok: / { $6 += maps; $9 -= maps } { print }' "$scratch/verified" > "$scratch/sound"
    vacuumed=$((vacuumed + (maps > 0)))
    wanted="settled: $(committed "$pair/file-wal") log frames, $maps map pages"
    [ "$status" -eq 0 ] && [ "$(cat "$scratch/lines")" = "$wanted" ] || say "$name: ends with $status and '$(cat "$scratch/lines" "$scratch/errors")', wanted '$wanted'"
    # Of pages that were not committed standard error says so, of frames from before the log was begun anew it says nothing.
    case $name in
        *-uncommitted) grep -q ' frames behind its last commit were not laid' "$scratch/errors" || say "$name: standard error has '$(cat "$scratch/errors")'" ;;
        *-commits | *-restarted*) ! grep -q 'behind its last commit' "$scratch/errors" || say "$name: standard error has '$(cat "$scratch/errors")'" ;;
    esac
    [ "$(left)" = ./file ] || say "$name: left are $(left)"
    told "$word" verify "$word" | cmp -s - "$scratch/sound" || say "$name: verify says another thing: $(told "$word" verify "$word")"
    told "$word" export "$word" | cmp -s - "$scratch/exported" || say "$name: export prints other rows"
    cp "$scratch/now/file" "$scratch/settled"
    rows "$word" "$scratch/settled" | cmp -s - "$scratch/dump" || say "$name: the product dumps other rows"
    [ "$(looks "$word" "$scratch/settled")" = "ok delete 0 " ] || say "$name: the product says $(looks "$word" "$scratch/settled")"
    # Once more: nothing is to be done, and nothing is written.
    seen "$scratch/now" > "$scratch/before"
    [ "$(told "$word" settle "$word")" = "settled: 0 log frames, 0 map pages" ] || say "$name: once more: $(cat "$scratch/errors")"
    seen "$scratch/now" | cmp -s - "$scratch/before" || say "$name: once more, and the file has changed"
    # The changes that a file in WAL mode is refused for.
    case $word in
        plain:*) ;;
        *)
            cp "$scratch/now/file" "$scratch/rekeyed"
            printf '%s\n' "$key" "$new" | "$program" "$scratch/rekeyed" rekey "$word" "$word" > /dev/null 2> "$scratch/errors" || say "$name: rekey: $(cat "$scratch/errors")"
            key=$new rows "$word" "$scratch/rekeyed" | cmp -s - "$scratch/dump" || say "$name: the product dumps other rows of the re-keyed file" ;;
    esac
    { given "$word" "$key"; echo "$new"; } | "$program" "$scratch/now/file" migrate "$word" 3 > /dev/null 2> "$scratch/errors" || say "$name: migrate: $(cat "$scratch/errors")"
    key=$new rows 3 "$scratch/now/file" | cmp -s - "$scratch/dump" || say "$name: the product dumps other rows of the migrated file"
    settled=$((settled + 1))
done < "$scratch/pairs/pairs.tsv"
[ "$settled" -gt 0 ] || say "no pair is settled"
[ "$vacuumed" -gt 0 ] || [ "$every" -gt 1 ] || say "no file with auto-vacuum is settled"
echo "settle: $settled pairs settled, $vacuumed of them with map pages, $refused refused"

# ---- many map pages: more than a trunk takes, beside an old freelist, and more trunks than pages that stand in memory; one page of a tree on a map page
made_with_maps() { # made_with_maps SIZE ROWS BYTES: a plain file with auto-vacuum and a freelist, in `now`
    rm -rf "$scratch/now" && mkdir "$scratch/now"
    printf '%s\n' "PRAGMA page_size = $1; PRAGMA auto_vacuum = 2; CREATE TABLE t(a INTEGER PRIMARY KEY, b); CREATE TABLE u(x);" \
        "WITH RECURSIVE n(i) AS (SELECT 1 UNION ALL SELECT i + 1 FROM n WHERE i < $2) INSERT INTO t SELECT i, randomblob($3) FROM n;" \
        "INSERT INTO u SELECT randomblob(3000) FROM t LIMIT 40; DROP TABLE u;" | sqlite3 -batch "$scratch/now/file" > /dev/null
}
key=''
while read -r size rows bytes; do
    made_with_maps "$size" "$rows" "$bytes"
    rows plain:"$size" "$scratch/now/file" > "$scratch/dump"
    free=$(sqlite3 "$scratch/now/file" 'PRAGMA freelist_count')
    told plain:"$size" settle plain:"$size" > "$scratch/lines"
    maps=$(maps_of "$scratch/now/file" plain:"$size")
    [ "$(cat "$scratch/lines")" = "settled: 0 log frames, $maps map pages" ] || say "$size, $rows rows: '$(cat "$scratch/lines" "$scratch/errors")', wanted $maps map pages"
    [ "$(looks plain:"$size" "$scratch/now/file")" = "ok delete 0 " ] || say "$size, $rows rows: the product says $(looks plain:"$size" "$scratch/now/file")"
    [ "$(sqlite3 "$scratch/now/file" 'PRAGMA freelist_count')" -eq $((free + maps)) ] || say "$size, $rows rows: free are $(sqlite3 "$scratch/now/file" 'PRAGMA freelist_count'), wanted $free and $maps"
    rows plain:"$size" "$scratch/now/file" | cmp -s - "$scratch/dump" || say "LOST: $size, $rows rows: the product dumps other rows"
    # Its new free pages are used, and it stays sound.
    echo "INSERT INTO t(b) SELECT randomblob(3000) FROM t LIMIT 500; PRAGMA integrity_check;" | sqlite3 "$scratch/now/file" | grep -qx ok || say "$size, $rows rows: behind new rows the product finds it unsound"
done <<'FILES'
512 40 20
512 30000 400
1024 9000 900
4096 20000 3000
65536 4000 9000
FILES
# A part of the database on a map page is a page that is used twice: refused before anything is written.
made_with_maps 1024 400 400
python3 - "$scratch/now/file" <<'PYTHON'
import sys
with open(sys.argv[1], "r+b") as file:
    file.seek(32)
    trunk = int.from_bytes(file.read(4), "big")
    file.seek((trunk - 1) * 1024 + 8)
    file.write((2).to_bytes(4, "big"))      # a leaf of the freelist is page 2, the first map page
PYTHON
seen "$scratch/now" > "$scratch/before"
told plain:1024 settle plain:1024 > "$scratch/lines"
status=$?
[ "$status" -eq 2 ] && [ "$(cat "$scratch/lines")" = "page 2: page twice" ] || say "a map page on the freelist: $status, '$(cat "$scratch/lines" "$scratch/errors")'"
seen "$scratch/now" | cmp -s - "$scratch/before" || say "a map page on the freelist: refused, and the file has changed"

# ---- a log of another file: under another key, of another page size or version, of a plain file
strange=0
while read -r file word log; do
    key=$(key_of "$word")
    [ -d "$scratch/pairs/$file" ] && [ -d "$scratch/pairs/$log" ] || continue
    place "$scratch/pairs/$file"
    cp "$scratch/pairs/$log/file-wal" "$scratch/now/file-wal"
    seen "$scratch/now" > "$scratch/before"
    told "$word" settle "$word" > "$scratch/lines"
    status=$?
    case $status in
        2 | 3) ;;
        *) say "$file with the log of $log ends with $status and '$(cat "$scratch/lines" "$scratch/errors")'" ;;
    esac
    [ -s "$scratch/errors" ] || say "$file with the log of $log: nothing is said of it"
    seen "$scratch/now" | cmp -s - "$scratch/before" || say "$file with the log of $log: refused, and the files have changed"
    strange=$((strange + 1))
done <<'PAIRS'
3-commits 3 2-commits
2-commits 2 3-commits
3-cut 3 1-commits
4-1024-commits 4:1024 3-commits
4-commits 4 plain-4096-commits
4-commits 4 3-commits
plain-1024-commits plain:1024 3-commits
plain-4096-cut plain:4096 4-grown
PAIRS
# One that has every page of its file, under the same key: by its tags it holds, and it is told by its salt alone.
key=$raw
place "$scratch/pairs/3-commits"
printf '%s\n' 'PRAGMA journal_mode = WAL; PRAGMA wal_autocheckpoint = 0; CREATE TABLE others(x); INSERT INTO others VALUES(1);' \
    ".system cp $scratch/other-wal $scratch/now/file-wal" | sql 3 "$key" "$scratch/other" > /dev/null
seen "$scratch/now" > "$scratch/before"
told 3 verify 3:wal > /dev/null || say "the other file's log holds no whole file: $(cat "$scratch/errors")"
told 3 settle 3 > "$scratch/lines"
status=$?
[ "$status" -eq 2 ] && [ "$(cat "$scratch/lines")" = "log is another file's" ] || say "a whole log of another file ends with $status and '$(cat "$scratch/lines" "$scratch/errors")'"
seen "$scratch/now" | cmp -s - "$scratch/before" || say "a whole log of another file is refused, and the files have changed"
grep -q 'FILE opens by its own salt' "$scratch/errors" || say "of a whole log of another file standard error has '$(cat "$scratch/errors")'"
strange=$((strange + 1))
[ "$strange" -gt 0 ] || say "no log of another file is tried"
echo "settle: $strange logs of other files refused, and nothing was written"

# ---- page 1 of the file torn, as a laying that was stopped may leave it: the log has that page, so `settle` goes to its end
torn=0
while read -r name word; do
    pair=$scratch/pairs/$name key=$(key_of "$word")
    [ -d "$pair" ] || continue
    place "$pair"
    rows "$word" "$scratch/now/file" > "$scratch/dump"
    for bytes in 16 700; do
        place "$pair"
        python3 - "$scratch/now/file" "$bytes" <<'PYTHON'
import sys
with open(sys.argv[1], "r+b") as file:
    file.write(b"\xaa" * int(sys.argv[2]))
PYTHON
        told "$word" settle "$word" > "$scratch/lines" || say "$name: with $bytes bytes of page 1 torn: '$(cat "$scratch/lines" "$scratch/errors")'"
        case $word in
            plain:*) ;;
            *) grep -q 'page 1 of FILE did not open by itself' "$scratch/errors" || say "$name: with page 1 torn standard error has '$(cat "$scratch/errors")'" ;;
        esac
        rows "$word" "$scratch/now/file" | cmp -s - "$scratch/dump" || say "LOST: $name: with $bytes bytes of page 1 torn the product dumps other rows"
        torn=$((torn + 1))
    done
done <<'PAIRS'
3-first 3
3-grown 3
4-first 4
plain-512-first plain:512
PAIRS
[ "$torn" -gt 0 ] || say "no page 1 is torn"

# ---- a log without a commit that holds: to the product it has nothing. It is removed, and standard error says so
key=$raw
place "$scratch/pairs/3-commits"
turn_bit "$scratch/now/file-wal" 20
told 3 settle 3 > "$scratch/lines"
[ "$(cat "$scratch/lines")" = "settled: 0 log frames, 0 map pages" ] && grep -q 'no commit in it holds' "$scratch/errors" ||
    say "a log with a damaged header: '$(cat "$scratch/lines" "$scratch/errors")'"
[ "$(left)" = ./file ] || say "a log with a damaged header: left are $(left)"

# ---- a log that was cut: within a frame behind its last whole commit, before the salts of a frame and behind them; at a frame's end; at a commit's end,
# where it is whole; and a whole one with a part of a frame from before it was begun anew, as a limit on its size leaves it. What it has behind its last
# commit standard error names, and of a whole one it says nothing. The lines and the rows are those of the product, which says nothing of it.
cut_to() { # cut_to LOG HOW: the log is cut within the last commit of its own; prints how many frames of its own are committed then, and how many are not
    python3 - "$1" "$2" <<'PYTHON'
import sys
path, how = sys.argv[1:]
log = open(path, "rb").read()
size, own = 24 + int.from_bytes(log[8:12], "big"), 0
while 32 + (own + 1) * size <= len(log) and log[32 + own * size + 8:32 + own * size + 16] == log[16:24]:
    own += 1
ends = [k + 1 for k in range(own) if log[32 + k * size + 4:32 + k * size + 8] != bytes(4)]
last, before = ends[-1], ends[-2]
kept = {"whole": len(log), "page": 32 + last * size - 7, "salts": 32 + (last - 1) * size + 16, "head": 32 + (last - 1) * size + 9,
        "frame": 32 + (last - 1) * size, "commit": 32 + before * size, "older": 32 + before * size}[how]
log = log[:kept]
if how == "older":      # two frames and a part of one whose salts are others
    log += (bytes(8) + bytes(byte ^ 255 for byte in log[16:24]) + bytes(size - 16)) * 2 + bytes(8) + b"\xaa" * 100
open(path, "wb").write(log)
committed = last if how == "whole" else before
print(committed, max(0, (kept - 32) // size - committed))
PYTHON
}
cut=0
while read -r name word; do
    pair=$scratch/pairs/$name key=$(key_of "$word")
    [ -d "$pair" ] || continue
    for how in whole page salts head frame commit older; do
        place "$pair"
        read -r frames more < <(cut_to "$scratch/now/file-wal" "$how")
        [ -n "$frames" ] || { say "$name: the log is not cut: $how"; continue; }
        cp -r "$scratch/now" "$scratch/theirs"
        rows "$word" "$scratch/theirs/file" > "$scratch/dump"
        rm -rf "$scratch/theirs"
        told "$word" settle "$word" > "$scratch/lines"
        status=$?
        wanted="settled: $frames log frames, 0 map pages"
        [ "$status" -eq 0 ] && [ "$(cat "$scratch/lines")" = "$wanted" ] || say "$name: $how: ends with $status and '$(cat "$scratch/lines" "$scratch/errors")', wanted '$wanted'"
        rows "$word" "$scratch/now/file" | cmp -s - "$scratch/dump" || say "$name: $how: the product dumps other rows"
        case $how in
            page | salts | head) wanted='it ended within a frame' ;;
            frame) wanted="$more frames behind its last commit were not laid" ;;
            *) wanted='' ;;
        esac
        if [ -n "$wanted" ] && [ "$how$more" != frame0 ]; then
            grep -q "file-wal: $wanted" "$scratch/errors" || say "$name: $how: standard error has '$(cat "$scratch/errors")', wanted '$wanted'"
        elif grep -q 'it ended within a frame\|behind its last commit' "$scratch/errors"; then
            say "$name: $how: standard error has '$(cat "$scratch/errors")'"
        fi
        cut=$((cut + 1))
    done
done <<'PAIRS'
3-commits 3
2-commits 2
4-commits 4
plain-1024-commits plain:1024
PAIRS
[ "$cut" -gt 0 ] || say "no log is cut"
echo "settle: $cut logs cut or whole, each told as it is"

# ---- a hot journal beside the two: it is played back first, and then the log is read, as the product does
pair=$scratch/pairs/plain-4096-restarted
place "$pair"
cp -r "$pair" "$scratch/hot"
# The journal has page 1, and Main's page 1 is spoilt behind the bytes that tell the product what file it is.
python3 - "$scratch/hot/file" <<'PYTHON'
import struct, sys
path, size = sys.argv[1], 4096
with open(path, "r+b") as file:
    page = file.read(size)
    pages = file.seek(0, 2) // size
    file.seek(100)
    file.write(b"\xaa" * (size - 100))
checksum = (7 + sum(page[at] for at in range(size - 200, 0, -200))) % 2**32
with open(path + "-journal", "wb") as journal:
    journal.write((bytes.fromhex("d9d505f920a163d7") + struct.pack(">5I", 1, 7, pages, 512, size)).ljust(512, b"\0"))
    journal.write(struct.pack(">I", 1) + page + struct.pack(">I", checksum))
PYTHON
key=''
rows plain:4096 "$scratch/now/file" > "$scratch/dump"
place "$scratch/hot"
rows plain:4096 "$scratch/now/file" | cmp -s - "$scratch/dump" || say "beside a hot journal the product reads other rows"
place "$scratch/hot"
told plain:4096 settle plain:4096 > "$scratch/lines" || say "beside a hot journal: $(cat "$scratch/lines" "$scratch/errors")"
grep -q '1 pages were played back from it' "$scratch/errors" || say "beside a hot journal standard error has '$(cat "$scratch/errors")'"
[ "$(left)" = ./file ] || say "beside a hot journal: left are $(left)"
rows plain:4096 "$scratch/now/file" | cmp -s - "$scratch/dump" || say "LOST: beside a hot journal: the product dumps other rows"

# ---- beside a program that has the file open
place "$scratch/pairs/3-commits"
key=$raw
mkfifo "$scratch/pipe"
{ opening 3 "$key"; echo "SELECT count(*) FROM items;"; cat "$scratch/pipe"; } | sqlcipher -batch "$scratch/now/file" > "$scratch/open" 2>&1 &
holder=$!
exec 9> "$scratch/pipe"
for _ in $(seq 1 100); do [ -s "$scratch/open" ] && break; sleep 0.1; done
seen "$scratch/now" > "$scratch/before"
told 3 settle 3 > "$scratch/lines"
status=$?
[ "$status" -eq 4 ] && [ ! -s "$scratch/lines" ] && grep -q 'another program has the file open' "$scratch/errors" || say "beside a connection that is idle: $status, $(cat "$scratch/lines" "$scratch/errors")"
seen "$scratch/now" | cmp -s - "$scratch/before" || say "beside a connection that is idle the files have changed"
exec 9>&-
wait "$holder"

# ---- stops and faults
if ! can_trace; then
    leave_out "stops and faults, since strace is missing or cannot trace"
    finish "$settled pairs"
fi
stopped=0 failed=0

is_same() { # is_same WORD WHAT: the product reads the same rows of a copy, and `settle` again goes to its end
    cp -r "$scratch/now" "$scratch/theirs"
    rows "$1" "$scratch/theirs/file" | cmp -s - "$scratch/dump" || say "LOST: $2: the product dumps other rows"
    rm -rf "$scratch/theirs"
    told "$1" settle "$1" > "$scratch/lines" || say "$2: then settle ends with '$(cat "$scratch/lines" "$scratch/errors")'"
    [ "$(left)" = ./file ] || say "$2: left are $(left)"
    told "$1" export "$1" | cmp -s - "$scratch/exported" || say "LOST: $2: export prints other rows"
    [ "$(looks "$1" "$scratch/now/file")" = "ok delete 0 " ] || say "$2: the product says $(looks "$1" "$scratch/now/file")"
}

while read -r name word; do
    pair=$scratch/pairs/$name key=$(key_of "$word")
    [ -d "$pair" ] || continue
    place "$pair"
    rows "$word" "$scratch/now/file" > "$scratch/dump"
    place "$pair"
    told "$word" export "$word:wal" > "$scratch/exported"
    given "$word" "$key" > "$scratch/line"
    (cd "$scratch/now" && traced "$scratch/calls" file settle "$word" < "$scratch/line" > /dev/null 2> "$scratch/errors") || { say "$name: the program fails under strace"; continue; }
    # Of the writes, one for each frame, the first and the last ones and each STRIDEth.
    list_stops "$scratch/calls" > "$scratch/all"
    awk -v stride="$stride" 'NR == FNR { last[$1] = $2; next } $2 <= 2 || $2 > last[$1] - 9 || $2 % stride == 0' "$scratch/all" "$scratch/all" > "$scratch/stops"
    while read -r call number; do
        what="$name: $call $number"
        place "$pair"
        { (cd "$scratch/now" && stopped_at "$call" "$number" file settle "$word" < "$scratch/line" > /dev/null) } 2> /dev/null
        killed=$?
        [ "$killed" -eq 137 ] || say "$what: ended with $killed"
        is_same "$word" "$what: stopped"
        stopped=$((stopped + 1))
        place "$pair"
        (cd "$scratch/now" && strace -f -qq -o /dev/null -e trace="$call" -e inject="$call:error=EIO:when=$number" "$program" file settle "$word" \
            < "$scratch/line" > "$scratch/lines" 2> "$scratch/errors")
        status=$?
        case $status in
            # What standard error can't take is lost.
            0) [ "$call" = write ] || say "$what: fails, and the program is done" ;;
            4 | 5) grep -q 'Input/output error' "$scratch/errors" || say "$what: fails, and standard error has '$(cat "$scratch/errors")'" ;;
            *) say "$what: fails, and the program ends with $status and '$(cat "$scratch/lines" "$scratch/errors")'" ;;
        esac
        is_same "$word" "$what: failed"
        failed=$((failed + 1))
    done < "$scratch/stops"
done <<'PAIRS'
3-commits 3
3-cut 3
3-restarted 3
3-closed 3
4-first 4
plain-512-first plain:512
3-full 3
4-1024-incremental 4:1024
plain-512-full-dropped plain:512
PAIRS
[ "$stopped" -gt 0 ] || say "no stop"
finish "$settled pairs, $strange logs of other files, $torn torn pages, $cut logs cut, $stopped stops and $failed faults"
