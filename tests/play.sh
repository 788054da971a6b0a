#!/usr/bin/env bash
# `play`: sessions that share one file under SQLite's lock states, step by step. Worked scripts; the script of SQLite's document on locking,
# with the locks beside each step; lines that are no step, and files and journals that are refused; scripts at random beside the machine of
# tests/session_machine.py over the reference's files, of every profile (tests/reference/oracle/check_plays.py); every step from each state
# that this machine has within eight steps; 100,000 lines in bounded memory; a stop at each writing call of a script of two commits and a
# rekey, and of one with a commit of 75 pages, which leaves the file of the steps answered so far; and scripts beside as many processes of
# the product (play_beside_product.py).
#
#     tests/play.sh [SEED [COUNT]]        200 scripts at random, and as many beside the product, where nothing else is said
#
# PROGRAM names another program, SQLCIPHER4 the product built for version 4, JOBS another number of runs side by side, DEPTH another depth
# (`all` for every state there is). Needs Python's `cryptography`.
set -u
. "$(dirname "$0")/common.sh"
begin 'play'
seed=${1:-7} count=${2:-200} jobs=${JOBS:-4}
check=$top/tests/reference/oracle/check_plays.py
k0="x'000102030405060708090a0b0c0d0e0f101112131415161718191a1b1c1d1e1f'"
k1="x'$(printf 'f%.0s' {1..64})'"
rows=0

if ! has_reference; then
    leave_out "play, since Python's cryptography is missing"
    finish
fi

s0="${k0%\'}a0a1a2a3a4a5a6a7a8a9aaabacadaeaf'" s1="${k0%\'}a0a1a2a3a4a5a6a7a8a9aaabacadaeae'"
h0=000aff,00112233445566778899aabbccddeeff
keyed() { sed -e "s/K0/$k0/g" -e "s/K1/$k1/g" -e "s/S0/$s0/g" -e "s/S1/$s1/g" -e "s/H0/$h0/g"; }
letters() { printf "%$1s" '' | tr ' ' "${2:-k}"; }      # letters COUNT [LETTER]

# ---- worked scripts: K0 and K1 stand for their key lines, S0 and S1 for K0 with two salts, H0 for a passphrase in hex with a salt, a comma for a line feed

row() { # row STATUS ANSWERS FILE PROFILE SCRIPT
    local found status
    rm -f "$scratch/file" "$scratch/file-journal"
    [ ! -e "$scratch/$3" ] || cp "$scratch/$3" "$scratch/file"
    [ ! -e "$scratch/$3-journal" ] || cp "$scratch/$3-journal" "$scratch/file-journal"
    found=$(printf '%s' "$5" | sed 's/, \?/\n/g' | keyed | "$program" "$scratch/file" play $4 2> "$scratch/errors" | paste -sd ','; exit "${PIPESTATUS[3]}")
    status=$?
    rows=$((rows + 1))
    [ "$found" = "${2//, /,}" ] && [ "$status" -eq "$1" ] || say "$3, play $4, ${5:0:80}: wanted $2 with $1, found ${found:0:300} with $status"
}

kept() { cmp -s "$scratch/file" "$scratch/$1" || say "$1: the file has changed"; }      # kept FILE: after a row

printf '%s\n' "$k0" > "$scratch/key"
"$program" "$scratch/none" make 4 0 < "$scratch/key" > /dev/null 2>&1 || say "make 4 0 fails"
readers='open 0 4 K0, open 1 4 K0, share 0, share 1, read 0 2 0, reserve 0, reserve 1, change 0 3 7 7, read 1 3 7, read 0 3 7, commit 0, share 2, release 1,
share 1, commit 0, share 1, read 1 3 7'
readers=${readers//$'\n'/ }
row 0 'done, done, done, done, byte 13, done, busy, done, byte 0, byte 7, busy, misuse, done, busy, done, done, byte 7' none 4 "$readers"
rekeys='open 0 4 K0, open 1 4 K0, share 0, reserve 0, rekey 0 4 K1, commit 0, share 1, open 1 4 K1, share 1, change 1 2 7 1'
row 0 'done, done, done, done, done, done, key refused, done, done, misuse' none 4 "$rekeys"
row 2 'done, line 2: no step' none 4 'open 0 4 K0, walk 0'
row 2 'done, line 2: too long' none 4 "open 0 4 K0, $(letters 1101)"

# The words, and what comes before the first line is read.
row 1 usage none '' 'stop'
row 1 usage none 5 'stop'
row 1 usage none '4 4' 'stop'
row 1 usage none plain:1000 'stop'
row 0 '' none 4 ''
row 0 done none 4 stop
row 0 done none 4 $'stop\n'
row 2 'line 1: no step' none 4 $'\n'
row 2 'line 1: no step' none 4 "K0, stop"
row 2 'done, line 2: no step' none 4 $'stop\n\nstop\n'

# Forms. A number has one to ten digits; KEY is a key line, and the rest of the line.
for line in 'share' 'share ' 'share 16' 'share 0 0' ' share 0' 'share 0 ' 'share  0' $'share\t0' $'share 0\r' 'Share 0' 'share +0' 'share 00000000000' \
    'share 4294967296' 'share -1' 'read 0 1' 'read 0 1 4016' 'read 0 4294967296 0' 'read 0 1 0 0' 'change 0 2 100' 'change 0 2 4016 1' 'change 0 2 100 256' \
    'change 0 2 100 1 1' 'stop 0' 'stop ' 'open 0' 'open 0 4' 'open 0 4 ' 'open 0 5 k' 'open 16 4 k' 'open 0  4 k' 'open 0 plain:4096 ' 'open 0 plain:4096 k' \
    "open 0 4 x'$(letters 96 0)'" "open 0 4 $(letters 1025)" "rekey 0 4" "rekey 0 4 $(letters 1025)" "$(letters 1100)" 'walk 0' 'lock 0' '#' \
    'open 0 4 S0' 'rekey 0 4 S0' 'open 0 4:plain-header=32 K0' 'rekey 0 4:plain-header=32 k' 'open 0 4:plain-header=32 H0' 'open 0 4:plain-header=32:key=hex S0' \
    'open 0 4:plain-header=32:key=hex 000aff' 'rekey 0 4:plain-header=32:key=hex H00' 'open 0 4:key=hex H0' 'open 0 4:key=hex K0' 'open 0 4:key=hex k' \
    'rekey 0 4:key=hex 000' 'open 0 4:key=hex 00 ' 'open 0 4:key=hex ' 'open 0 4:plain-header=0 S0' 'open 0 1:plain-header=32 S0' 'open 0 4:key=text K0'; do
    row 2 'done, line 2: no step' none 4 "stop, $line"
done
row 2 'done, line 2: too long' none 4 "stop, $(letters 1101)"
row 2 'done, line 2: too long' none 4 "stop, open 0 4 $(letters 1092)"
row 2 'line 1: too long' none 4 "$(letters 5000)"
row 0 'done, done, done, done' none 4 "open 0 4 $(letters 1024), open 0000000015 4  k, open 1 4 k k, open 2 4 x'$(letters 95 0)'"
row 0 'misuse, misuse, misuse, misuse, misuse' none 4 'share 0, read 15 4294967295 4015, change 0 0 0 255, commit 1, release 0'
row 0 'misuse, misuse, misuse, done, done' none 4 'open 0 3 K0, open 0 plain:4096, open 0 4:1024 K0, open 0 4:4096 K0, share 0'
row 0 'done, done, misuse, byte 83, byte 0, misuse, misuse, done, misuse, misuse, done, done, byte 1' none 4 \
    "open 0 4 K0, share 0, read 0 0 0, read 0 1 0, read 0 4 4015, read 0 5 0, change 0 2 100 1, reserve 0, change 0 1 99 1, change 0 5 0 1, \
change 0 1 100 1, change 0 4 4015 1, read 0 4 4015"
kept none
# A change may be made, a key changed and dropped again; a session that is closed has neither.
row 0 'done, done, done, done, done, done, done, done, byte 13, done, done, done, byte 13' none 4 \
    'open 0 4 K0, share 0, reserve 0, change 0 2 0 9, rekey 0 4 K1, release 0, share 0, reserve 0, read 0 2 0, commit 0, open 1 4 K0, share 1, read 1 2 0'
kept none
row 0 'done, done, done, done, done, misuse, done, done, byte 13' none 4 \
    'open 0 4 K0, share 0, reserve 0, change 0 2 0 9, stop, share 0, open 0 4 K0, share 0, read 0 2 0'
kept none

# A plain header: the salt comes with the key, of one session another than of the file, and files with a header and without are of another layout. A
# passphrase in hex may come in the place of a raw key.
keyed <<< S0 > "$scratch/salted"
"$program" "$scratch/headed" make 4:plain-header=32 0 < "$scratch/salted" > /dev/null 2>&1 || say "make 4:plain-header=32 0 fails"
row 0 'misuse, misuse, misuse, done, done, done' none 4 \
    'open 0 4:plain-header=32 S0, open 0 4:plain-header=32:key=hex H0, share 0, open 0 4:rounds=2:key=hex 000aff, open 0 4 K0, share 0'
row 0 'misuse, misuse, done, done, key refused, key refused, done, done' headed 4:plain-header=32 \
    "open 0 4 K0, open 0 4:rounds=2:key=hex 000aff, open 0 4:plain-header=32 S1, open 1 4:plain-header=48 S0, share 0, share 1, open 0 4:plain-header=32 S0, \
share 0"
kept headed
row 0 'done, done, byte 83, misuse, done, misuse, done, done, done, done, byte 7, done, key refused, done, done, byte 83, byte 7' headed 4:plain-header=32 \
    "open 0 4:plain-header=32 S0, share 0, read 0 1 0, change 0 1 0 83, reserve 0, change 0 1 31 1, change 0 3 7 7, \
rekey 0 4:plain-header=48:rounds=2:key=hex H0, commit 0, share 0, read 0 3 7, open 1 4:plain-header=32 S0, share 1, \
open 2 4:plain-header=48:rounds=2:key=hex H0, share 2, read 2 1 0, read 2 3 7"

# Files that do not open, each by its line, and a session may try again.
: > "$scratch/empty"
head -c 4095 "$scratch/none" > "$scratch/short"
head -c 8192 "$scratch/none" > "$scratch/cut"
row 0 'done, file is empty, misuse, done' empty 4 'open 0 4 K0, share 0, read 0 1 0, release 0'
row 0 'done, file is empty' absent 4 'open 0 4 K0, share 0'
row 0 'done, file is short: 4095 bytes' short 4 'open 0 4 K0, share 0'
row 0 'done, file is short: 8192 bytes' cut 4 'open 0 4 K0, share 0'
row 0 'done, key refused, done, done' none 4 'open 0 4 K1, share 0, open 0 4 K0, share 0'
row 0 'done, key refused' none plain:4096 'open 0 plain:4096, share 0'

# Journals come before the first line: one that is refused is left, one that is hot is laid back.
python3 "$check" make "$scratch/hot" 3 5 hot > "$scratch/places" || say "no file with a hot journal is made"
read -r page at < "$scratch/places"
for kind in other super; do
    python3 "$check" make "$scratch/$kind" 3 5 "$kind" > /dev/null || say "no file with a journal ($kind) is made"
    [ "$kind" = other ] && line='journal page size 2048' || line='journal names a super-journal'
    row 2 "$line" "$kind" 3 'open 0 3 K0, walk 0'
    kept "$kind"
    cmp -s "$scratch/file-journal" "$scratch/$kind-journal" || say "$kind: the journal has changed"
done
row 0 'done, done, byte 100' hot 3 "open 0 3 K0, share 0, read 0 $page $at"
[ ! -e "$scratch/file-journal" ] || say "hot: the journal is left"
row 2 'line 1: no step' hot 3 'walk 0'
[ ! -e "$scratch/file-journal" ] || say "hot: the journal is left before a line that is no step"
python3 "$check" make "$scratch/sound" 3 5 > /dev/null && kept sound
echo "play: $rows worked scripts"

# ---- SQLite's document on locking, with the locks of the sessions 0 to 3 after each step: U unlocked, S shared, R reserved, P pending

cat > "$scratch/locking" <<'TABLE'
open 0 3 K0        | done    | U---
open 1 3 K0        | done    | UU--
open 2 3 K0        | done    | UUU-
open 3 3 K0        | done    | UUUU  UNLOCKED: no lock is held; the file may be neither read nor written
read 0 2 60        | misuse  | UUUU
share 0            | done    | SUUU  SHARED: the file may be read, not written; any number of sessions may have it at once
share 1            | done    | SSUU
change 1 2 60 1    | misuse  | SSUU
reserve 1          | done    | SRUU  RESERVED: it plans to write, and only reads so far; beside it others are shared
reserve 0          | busy    | SRUU  one session at a time has it
change 1 2 60 1    | done    | SRUU  what it changes it keeps to itself
share 2            | done    | SRSU  new readers may come while one is reserved
reserve 2          | busy    | SRSU
commit 1           | busy    | SPSU  PENDING: it waits until all shared locks are cleared, for an exclusive one
share 3            | busy    | SPSU  and no new one is let in, so that it does not starve
change 1 2 60 2    | misuse  | SPSU
reserve 0          | busy    | SPSU
release 0          | done    | UPSU  the readers that there were go on, and end
share 0            | busy    | UPSU
read 2 2 60        | byte 79 | UPSU
commit 1           | busy    | UPSU
release 2          | done    | UPUU
share 2            | busy    | UPUU  the last reader is gone: still none is let in
commit 1           | done    | UUUU  EXCLUSIVE, from the first page that is written to the end of this step: no other session meets it
share 0            | done    | SUUU
read 0 2 60        | byte 1  | SUUU
share 3            | done    | SUUS
reserve 3          | done    | SUUR
release 3          | done    | SUUU  a writer that gives up lets the next one go
reserve 0          | done    | RUUU
change 0 2 60 3    | done    | RUUU
share 1            | done    | RSUU
commit 0           | busy    | PSUU
release 0          | done    | USUU  as does one that is pending
share 2            | done    | USSU
read 2 2 60        | byte 1  | USSU
read 1 2 60        | byte 1  | USSU
stop               | done    | ----  the process ends: every lock is gone
TABLE
mkdir "$scratch/tables"
byte=$(printf '%s\n' "open 0 3 $k0" 'share 0' 'read 0 2 60' > "$scratch/script"; cp "$scratch/sound" "$scratch/file"
    "$program" "$scratch/file" play 3 < "$scratch/script" 2> /dev/null | tail -n 1)
sed -i "s/byte 79 /$(printf '%-8s' "$byte")/" "$scratch/locking"
python3 "$check" table "$program" "$scratch/tables" 3 "$scratch/sound" "$scratch/locking" > "$scratch/lines" ||
    { cat "$scratch/lines"; say "the document's script"; }
echo "play: the document's script, $(grep -c '|' "$scratch/locking") steps with their locks"

# ---- beside the machine

side_by_side() { # side_by_side NAME FUNCTION: FUNCTION FOLDER NUMBER for each of the jobs, its lines in NAME-NUMBER.lines
    local name=$1 number started=()
    for ((number = 0; number < jobs; number++)); do
        mkdir "$scratch/$name-$number" && "$2" "$scratch/$name-$number" "$number" > "$scratch/$name-$number.lines" 2>&1 &
        started+=("$!")
    done
    for ((number = 0; number < jobs; number++)); do
        wait "${started[number]}" || { grep -v '^scripts=' "$scratch/$name-$number.lines" | head -n 20; say "$name"; }
    done
}
told() { total "$2" "$scratch/$1"-*.lines; }      # told NAME COUNT

share_of() { # share_of COUNT NUMBER: where the part of this job begins, and how many are in it
    local from=$(($1 * $2 / jobs))
    echo "$from $(($1 * ($2 + 1) / jobs - from))"
}

# shellcheck disable=SC2046
at_random() { python3 "$check" random "$program" "$1" "$seed" $(share_of "$count" "$2"); }
side_by_side random at_random
[ "$(told random scripts)" -eq "$count" ] || say "$(told random scripts) of $count scripts were driven"
for kind in commits rekeys busy misuse 'key refused' 'refused pages' 'other refusals' 'played back' cold; do
    [ "$(told random "$kind")" -gt 0 ] || [ "$count" -lt 100 ] || say "no script has $kind"
done
echo "play: seed $seed, $(told random scripts) scripts beside the machine, $(told random lines) lines: $(told random commits) commits," \
    "$(told random rekeys) of another key; answers $(told random busy) busy, $(told random misuse) misuse, $(told random 'key refused') refused keys," \
    "$(told random 'refused pages') refused pages; $(told random wrong) wrong"

nearly_steps() { python3 "$check" forms "$program" "$1" "$seed$2" $((count * 2 / jobs + 1)); }
side_by_side forms nearly_steps
for kind in 'no step' 'too long' 'all steps'; do
    [ "$(told forms "$kind")" -gt 0 ] || [ "$count" -lt 100 ] || say "no line is '$kind'"
done
echo "play: $(told forms scripts) scripts with lines that are nearly steps: $(told forms 'no step') end at no step, $(told forms 'too long') at a line" \
    "too long; $(told forms wrong) wrong"

mkdir "$scratch/orders"
python3 "$check" orders "$program" "$scratch/orders" "${DEPTH:-8}" > "$scratch/orders-0.lines" 2>&1 || { head "$scratch/orders-0.lines"; say "all orders"; }
echo "play: every step from each state within ${DEPTH:-8} steps: $(told orders lines) lines in $(told orders scripts) scripts; $(told orders wrong) wrong"

# What has to be found wrong: a program that does nothing, one that is never busy, one that leaves out an answer, one that keeps the file as it was.
stand_in() { # stand_in NAME LINES: of a shell, what it does
    printf '#!/bin/sh\n%s\n' "$2" > "$scratch/$1"
    chmod 755 "$scratch/$1"
}
stand_in idle 'exit 0'
stand_in brave "\"$program\" \"\$@\" > \"\$1.lines\"; status=\$?; sed 's/busy/done/' \"\$1.lines\"; rm \"\$1.lines\"; exit \"\$status\""
stand_in short "\"$program\" \"\$@\" > \"\$1.lines\"; status=\$?; sed '\$d' \"\$1.lines\"; rm \"\$1.lines\"; exit \"\$status\""
stand_in keeps "cp \"\$1\" \"\$1.kept\"; \"$program\" \"\$@\"; status=\$?; mv \"\$1.kept\" \"\$1\"; exit \"\$status\""
is_wrong() { # is_wrong NAME HOW WORDS..: a stand-in, on what it has to be found wrong
    rm -rf "$scratch/wrongs" && mkdir "$scratch/wrongs"
    python3 "$check" "$2" "$scratch/$1" "$scratch/wrongs" "${@:3}" > "$scratch/lines" 2>&1
    grep -qE '(^|[[:space:]])wrong=[1-9]' "$scratch/lines" || say "a program that is $1 is not found wrong by $2: $(tail -n 1 "$scratch/lines")"
}
for name in idle brave short keeps; do is_wrong "$name" random "$seed" 0 11; done
for name in idle short; do is_wrong "$name" forms "$seed" 11; done
is_wrong brave orders 6

# ---- 100,000 lines

# One line of opening, blocks of eight lines, of which the fifth ends a session's changes, and stops up to the number.
blocks() { # blocks LINES END: the script, and what it is answered, in `long` and `answers`; END is release or commit
    awk -v lines="$1" -v end="$2" -v key="$k0" -v page="$page" -v at="$at" -v script="$scratch/long" -v answers="$scratch/answers" '
        BEGIN {
            place = " 5 " page " " at
            split("share 5|reserve 5|change" place " 7|read" place "|" end " 5|share 5|read" place "|release 5", steps, "|")
            split("done|done|done|byte 7|done|done|byte " (end == "commit" ? 7 : 100) "|done", told, "|")
            print "open 5 3 " key > script; print "done" > answers
            for (made = 1; made + 8 <= lines; made += 8) for (i = 1; i <= 8; i++) { print steps[i] > script; print told[i] > answers }
            for (; made < lines; made++) { print "stop" > script; print "done" > answers }
        }'
}

long() { # long LIMIT: runs the script `long` within so many KiB of address space; prints the most memory that it had
    rm -f "$scratch/file-journal" && cp "$scratch/sound" "$scratch/file"
    python3 - "$1" "$program" "$scratch/file" "$scratch/long" "$scratch/found" <<'PY'
import resource, subprocess, sys
limit, program, file, script, found = sys.argv[1:]
bound = int(limit) * 1024
with open(script, "rb") as given, open(found, "wb") as out:
    done = subprocess.run([program, file, "play", "3"], stdin=given, stdout=out, stderr=subprocess.DEVNULL,
                          preexec_fn=lambda: resource.setrlimit(resource.RLIMIT_AS, (bound, bound)))
print(resource.getrusage(resource.RUSAGE_CHILDREN).ru_maxrss)
sys.exit(min(done.returncode % 256, 255))
PY
}

blocks 100 commit
limit=1024
until resident=$(long "$limit") || [ "$limit" -gt 2000000 ]; do limit=$((limit + (limit < 16384 ? 128 : limit / 8))); done
cmp -s "$scratch/found" "$scratch/answers" || say "100 lines: another answer"
bounded() { # bounded LINES END: a script in as much memory as 100 lines of commits take
    local most
    blocks "$1" "$2"
    [ "$(wc -l < "$scratch/answers")" -eq "$1" ] || say "the script has no $1 lines"
    most=$(long $((limit + 128))) || say "$1 lines with $2: ended with $? within $((limit + 128)) KiB of address space"
    cmp -s "$scratch/found" "$scratch/answers" || say "$1 lines with $2: another answer, $(cmp "$scratch/found" "$scratch/answers" 2>&1 | head -n 1)"
    [ "$most" -le $((resident + resident / 16 + 128)) ] || say "100 lines take $resident KiB, and $1 lines with $2 $most KiB"
    echo "play: $1 lines with $2 within $((limit + 128)) KiB of address space; $most KiB of memory, and $resident KiB for 100 lines"
}
bounded 16000 commit
bounded 100000 release
cmp -s "$scratch/file" "$scratch/sound" || say "100,000 lines without a commit: the file has changed"
for line in 'stop' '' "$(letters 1101)"; do
    printf '%s\n' "$line" | cat "$scratch/long" - > "$scratch/longer"
    echo 'more than 100000 lines' | cat "$scratch/answers" - > "$scratch/wanted"
    "$program" "$scratch/file" play 3 < "$scratch/longer" > "$scratch/found" 2> /dev/null
    [ $? -eq 2 ] && cmp -s "$scratch/found" "$scratch/wanted" || say "line 100,001: ends with $(tail -n 1 "$scratch/found")"
done
# The last line may lack its line feed.
truncate -s -1 "$scratch/long"
"$program" "$scratch/file" play 3 < "$scratch/long" 2> /dev/null | cmp -s - "$scratch/answers" || say "100,000 lines without the last line feed: another answer"

# ---- line by line, and streams that fail

talk() { # talk FILE PROFILE SCRIPT ANSWERS: each line is given once the one before it is answered
    local line wanted answer number=0 run
    rm -f "$scratch/file-journal" "$scratch/in" "$scratch/out"
    cp "$scratch/$1" "$scratch/file" && mkfifo "$scratch/in" "$scratch/out"
    "$program" "$scratch/file" play "$2" < "$scratch/in" > "$scratch/out" 2> /dev/null &
    run=$!
    exec 4> "$scratch/in" 5< "$scratch/out"
    while IFS= read -r line <&6 && IFS= read -r wanted <&7; do
        number=$((number + 1))
        printf '%s\n' "$line" >&4
        IFS= read -r -t 20 answer <&5 || answer="nothing in 20 seconds"
        [ "$answer" = "$wanted" ] || { say "line by line: line $number is answered $answer, and $wanted is wanted"; break; }
        case $line in
            change*) cmp -s "$scratch/file" "$scratch/$1" || say "line by line: a change is in the file before it is committed" ;;
            commit*) [ "$answer" != busy ] && cmp -s "$scratch/file" "$scratch/$1" && say "line by line: a commit is answered and the file is the old one" ;;
        esac
    done 6< <(sed 's/, */\n/g' <<< "$3" | keyed) 7< <(sed 's/, */\n/g' <<< "$4")
    exec 4>&- 5<&-
    wait "$run" || say "line by line: ends with $?"
}
talk sound 3 "open 0 3 K0, open 1 3 K0, share 1, share 0, reserve 0, change 0 $page $at 5, commit 0, release 1, commit 0, share 1, read 1 $page $at" \
    'done, done, done, done, done, done, busy, done, done, done, byte 5'

cp "$scratch/sound" "$scratch/file"
printf '%s\n' "open 0 3 $k0" 'share 0' > "$scratch/script"
"$program" "$scratch/file" play 3 < "$scratch/script" > /dev/full 2> /dev/null
[ $? -eq 5 ] || say "a full output: ends with another status than 5"
"$program" "$scratch/file" play 3 < "$scratch" > "$scratch/found" 2> /dev/null
[ $? -eq 6 ] && [ ! -s "$scratch/found" ] || say "an input that fails: ends with another status than 6"
cmp -s "$scratch/file" "$scratch/sound" || say "streams that fail: the file has changed"

# ---- stops

stops() { # stops NAME PROFILE SCRIPT [PRODUCT OPENING]: a stop at each writing call of the script on the file $scratch/NAME
    local folder=$scratch/stops-$1-${2/:/-} name number
    mkdir "$folder" "$folder/whole" && cp "$scratch/$1" "$folder/before" && cp "$scratch/$1" "$folder/whole/file" || return
    sed 's/, */\n/g' <<< "$3" | keyed > "$folder/script"
    (cd "$folder/whole" && traced "$folder/calls" file play "$2" < "$folder/script" > "$folder/answers" 2> /dev/null) ||
        { say "$1: the program fails under strace"; return; }
    list_stops "$folder/calls" > "$folder/stops"
    while read -r name number; do
        mkdir "$folder/stop-$name-$number" && cp "$folder/before" "$folder/stop-$name-$number/file"
        { (cd "$folder/stop-$name-$number" && stopped_at "$name" "$number" file play "$2" < "$folder/script" > answers) } 2> /dev/null
        [ $? -eq 137 ] || say "$1: $name $number: not stopped"
    done < "$folder/stops"
    python3 "$check" stops "$program" "$folder" "$2" "$folder/script" "${@:4}" > "$folder/lines" 2>&1 ||
        { head -n 20 "$folder/lines"; say "stops of $1, profile $2"; }
    [ "$(total stops "$folder/lines")" -eq "$(wc -l < "$folder/stops")" ] && [ -s "$folder/stops" ] || say "stops of $1: not all are looked at"
    echo "play: profile $2, $1: $(tail -n 1 "$folder/lines" | tr '\t' ' ')"
}

# Two commits, of which the first waits for a reader, and a rekey with a change.
two_and_rekey() { # two_and_rekey PROFILE PAGE AT PAGE AT
    local key0=" K0" key1=" K1"
    case $1 in plain:*) key0='' key1='' ;; esac
    echo "open 0 $1$key0, open 1 $1$key0, share 0, share 1, reserve 0, change 0 $2 $3 7, commit 0, release 1, commit 0, share 1, reserve 1, change 1 $2 $3 8,
change 1 $4 $5 9, commit 1, share 0, reserve 0, change 0 $4 $5 10, rekey 0 $1$key1, commit 0, open 1 $1$key1, share 1, read 1 $4 $5" | paste -sd ' '
}

if ! can_trace; then
    leave_out "stops, and what is drawn, since strace is missing or cannot trace"
else
    stops none 4 "$rekeys"
    for profile in 1 2 3 4 plain:1024; do
        python3 "$check" make "$scratch/rows-${profile/:/-}" "$profile" 6 > "$scratch/places"
        opening=
        case $profile in
            1 | 2) opening=$(opening "$profile" "$k0" | tail -n 1) ;;
        esac
        [ -n "$(product "$profile")" ] || leave_out "the product's reading of what stops leave of version $profile, since it is missing"
        used=$(product "$profile")
        case $profile in plain:*) used=$(product 3) ;; esac
        # shellcheck disable=SC2046
        script=$(two_and_rekey "$profile" $(sed -n 2p "$scratch/places") $(sed -n 5p "$scratch/places"))
        stops "rows-${profile/:/-}" "$profile" "$script" "$used" "$opening" &
        while [ "$(jobs -rp | wc -l)" -ge "$jobs" ]; do wait -n; done
    done
    # A commit of more pages than stand in memory: three of each four, so that pages whose old bytes are kept ahead stay as they are.
    python3 "$check" make "$scratch/many" 3 100 > "$scratch/places"
    script="open 0 3 K0, share 0, reserve 0$(awk 'NR % 4 { printf ", change 0 %s %s 9", $1, $2 }' "$scratch/places"), commit 0"
    stops many 3 "$script" "$(product 3)" &
    wait
    # A plain file is sealed without a draw.
    cp "$scratch/rows-plain-1024" "$scratch/file"
    strace -f -qq -o "$scratch/calls" -e trace=open,openat "$program" "$scratch/file" play plain:1024 \
        < "$scratch/stops-rows-plain-1024-plain-1024/script" > "$scratch/found" 2> /dev/null || say "play plain:1024 ends with $? under strace"
    ! grep -q '/dev/u\?random' "$scratch/calls" || say "play plain:1024 draws random bytes"
fi

# ---- beside the product

versions=
for version in 3 4; do
    [ -n "$(product "$version")" ] || { leave_out "scripts beside the product of version $version, since it is missing"; continue; }
    versions="$versions $version"
done
for version in $versions; do
    half=$((count / $(wc -w <<< "$versions")))
    name=beside-$version
    # shellcheck disable=SC2046
    beside() { python3 "$top/tests/play_beside_product.py" "$program" "$(product "$version")" "$1" "$version" "$seed" $(share_of "$half" "$2"); }
    side_by_side "$name" beside
    [ "$(told "$name" scripts)" -eq "$half" ] || say "$(told "$name" scripts) of $half scripts were driven beside the product"
    for kind in locked 'rows read' commits rekeys 'refused keys' stops; do
        [ "$(told "$name" "$kind")" -gt 0 ] || [ "$count" -lt 100 ] || say "beside the product of version $version: no '$kind'"
    done
    echo "play: version $version, $(told "$name" scripts) scripts beside the product: $(told "$name" lines) lines, $(told "$name" locked) times busy and" \
        "locked, $(told "$name" 'rows read') rows read, $(told "$name" commits) commits, $(told "$name" rekeys) rekeys; $(told "$name" wrong) wrong"
done

finish
