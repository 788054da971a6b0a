#!/usr/bin/env bash
# The system calls of each command on a file, call by call, against the tables of docs/CRASH_MODEL.md: a sync that is left out,
# or another order, is refused. tests/calls/rows.tsv says what each row of these tables is in calls, and quotes the row, so that
# neither can change alone; tests/calls/compare.py compares, spoils each list of calls in every way that matters, and wants each
# spoilt one refused. Then the program itself is kept from each of its syncs in turn, and each such run has to be refused.
#
#     tests/calls.sh
#
# PROGRAM names another program. Only calls that matter to the disk are looked at; that a file is opened to be read, looked up
# or locked is not. Needs strace and Python 3.
set -u
. "$(dirname "$0")/common.sh"
begin 'calls'
compare=$top/tests/calls/compare.py
runs=0

if ! has python3 || ! can_trace; then
    leave_out "the calls of the system, since strace is missing or cannot trace, or Python 3 is missing"
    finish
fi

k0="x'000102030405060708090a0b0c0d0e0f101112131415161718191a1b1c1d1e1f'"
k1="x'ffffffffffffffffffffffffffffffffffffffffffffffffffffffffffffffff'"
salted="${k0%\'}a0a1a2a3a4a5a6a7a8a9aaabacadaeaf'"       # under a plain header the salt comes with the key
printf '%s\n' "$k0" "$k1" > "$scratch/keys"
printf '%s\n' "$salted" "$k1" > "$scratch/from_header"
printf '%s\n' "$k0" "$salted" > "$scratch/to_header"
keys=$scratch/keys
looked_at=open,openat,creat,read,pread64,readv,preadv,preadv2,write,pwrite64,writev,pwritev,pwritev2,truncate,ftruncate,fallocate
looked_at+=,fsync,fdatasync,sync,syncfs,sync_file_range,unlink,unlinkat,rename,renameat,renameat2,link,linkat,symlink,symlinkat
looked_at+=,copy_file_range,sendfile,splice,mknod,mknodat,mkdir,mkdirat

place() { # place FILE: a folder of its own for a run, with this file and those beside it, none for `nothing`
    rm -rf "$scratch/run"
    mkdir "$scratch/run" || exit 1
    [ "$1" != nothing ] || return 0
    cp "$scratch/$1" "$scratch/run/file" || exit 1
    for beside in journal migrated wal shm; do
        [ ! -e "$scratch/$1-$beside" ] || cp "$scratch/$1-$beside" "$scratch/run/file-$beside" || exit 1
    done
}

listed() { # listed OPTIONS.. -- WORDS..: runs the program in the folder, with its calls in the file `calls`
    local options=()
    while [ "$1" != -- ]; do options+=("$1"); shift; done
    shift
    local input=$keys
    [ "$1" != play ] || input=$scratch/script
    (cd "$scratch/run" && strace -f -qq -y -x -s 16 -o "$scratch/calls" -e trace="$looked_at" "${options[@]}" "$program" file "$@" \
        < "$input" > "$scratch/said" 2> "$scratch/errors")
}

script() { # script OPENING CHANGES..: what `play` is given: one commit, and what is read before it and after it
    printf '%s\n' "open 0 $1" 'share 0' 'read 0 2 100' 'reserve 0' "${@:2}" 'commit 0' 'share 0' 'read 0 2 100' > "$scratch/script"
}

run() { # run NAME FILE STATE P P2 WORDS..: NAME is a run of compare.py
    local name=$1 file=$2 state=$3 version=$4 written=$5 found
    shift 5
    place "$file"
    runs=$((runs + 1))
    listed -- "$@" || say "$* on $file: ended with $?: $(head -n 1 "$scratch/said")"
    if found=$("$compare" "$name" "$scratch/run" "$version" "$written" "$state" < "$scratch/calls"); then
        echo "calls: $* on $file: $found"
    else
        say "$* on $file: $found"
    fi
}

kept_from_syncs() { # kept_from_syncs NAME FILE P P2 WORDS..: each sync in turn is answered without being made; `started` is the state, where it is not `none`
    local name=$1 file=$2 version=$3 written=$4 number found count
    shift 4
    place "$file"
    listed -- "$@" || say "$* on $file: ended with $?"
    count=$(grep -c 'fsync(' "$scratch/calls")
    for number in $(seq 1 "$count"); do
        place "$file"
        listed -e inject=fsync:retval=0:when="$number" -- "$@" || say "$* on $file without sync $number: ended with $?"
        found=$("$compare" refuse "$name" "$scratch/run" "$version" "$written" "${started:-none}" < "$scratch/calls") || say "$* on $file without sync $number: $found"
    done
    [ "$count" -ge 3 ] || say "$* on $file: only $count syncs"
    echo "calls: $* on $file: kept from each of its $count syncs in turn, and refused each time"
}

found=$("$compare" tables) || { echo "calls: $found"; exit 1; }
echo "calls: $found"

# ---- files: of less than 64 pages, which are a batch, and of more, beside a hot journal that has to be laid back and cut, and beside a cold one
made() { "$program" "$scratch/$1" make "$2" "$3" < "$keys" > /dev/null 2>&1 || { echo "calls: make $2 $3 fails"; exit 1; }; }
made small 3 18
made large 3 60
made four 4 60
made flat plain:1024 60
keys=$scratch/from_header
made headed 4:plain-header=32 60
keys=$scratch/keys
cp "$scratch/large" "$scratch/hot"
hot=$(stop_rekey "$scratch/hot" "$scratch/keys")
[ "${hot:-0}" -gt 0 ] && [ -e "$scratch/hot-journal" ] || say "a rekey that is stopped leaves no journal"
head -c 3000 /dev/zero >> "$scratch/hot"
cp "$scratch/small" "$scratch/cold" && head -c 600 /dev/zero > "$scratch/cold-journal"
cp "$scratch/small" "$scratch/left" && head -c 2048 /dev/zero > "$scratch/left-migrated"
[ "$(stat -c %s "$scratch/small")" -le 65536 ] && [ "$(stat -c %s "$scratch/large")" -gt 131072 ] || say "the files have other sizes"

# ---- commands that read
while read -r words; do
    # shellcheck disable=SC2086
    run read large none 3 3 $words
    # shellcheck disable=SC2086
    run read hot "hot=$hot" 3 3 $words
done < <(commands 3 3 check part)
run read four none 4 4 verify 4
run read four none 4 4 find 4 items -5 60
run read four none 4 4 salvage 4
run probe large none 3 3 probe
while read -r words; do
    # shellcheck disable=SC2086
    run read flat none plain:1024 plain:1024 $words
done < <(commands plain:1024 plain:1024 check part)

# ---- recoveries
run recover small none 3 3 recover 3
run recover cold cold 3 3 recover 3
run recover flat none plain:1024 plain:1024 recover plain:1024
run recover hot "hot=$hot" 3 3 recover 3

# ---- commands that change the file
run stamp small none 3 3 stamp 3 user-version 7
run commit small none 3 3 stamp 3 user-version 7
run stamp cold cold 3 3 stamp 3 application-id 7
run stamp hot "hot=$hot" 3 3 stamp 3 application-id 7
# The pairs of a file and its log are the product's: one with a commit of several frames, whose Main is longer than the database or not.
if has sqlcipher; then
    pair() { # pair NAME STATEMENTS: in WAL mode, with its FILE-wal and FILE-shm, copied while the product has it open
        cp "$scratch/small" "$scratch/work"
        echo "PRAGMA journal_mode = WAL; PRAGMA wal_autocheckpoint = 0; $2
.system cp $scratch/work $scratch/$1; cp $scratch/work-wal $scratch/$1-wal; cp $scratch/work-shm $scratch/$1-shm" | sql 3 "$k0" "$scratch/work" > /dev/null
        [ -s "$scratch/$1-wal" ] || say "the product leaves no log of $1"
    }
    frames() { "$compare" frames "$scratch/$1-wal"; }
    pair live 'CREATE TABLE more(x); INSERT INTO more VALUES(1);'
    pair cut 'PRAGMA wal_checkpoint; DELETE FROM items; VACUUM;'
    cp "$scratch/live" "$scratch/bare" && cp "$scratch/live-wal" "$scratch/bare-wal"
    cp "$scratch/live" "$scratch/void" && head -c 32 "$scratch/live-wal" > "$scratch/void-wal"
    cp "$scratch/live" "$scratch/alone"
    run settle live "log,laid=$(frames live),index,marked" 3 3 settle 3
    run settle bare "log,laid=$(frames live),marked" 3 3 settle 3
    run settle cut "log,laid=$(frames cut),shorter,index,marked" 3 3 settle 3
    run settle void "log,marked" 3 3 settle 3
    run settle alone marked 3 3 settle 3
    run settle small none 3 3 settle 3
    echo 'PRAGMA auto_vacuum = 2; VACUUM;' | { cp "$scratch/small" "$scratch/vacuum"; sql 3 "$k0" "$scratch/vacuum"; } > /dev/null
    run settle vacuum vacuumed 3 3 settle 3
    started="log,laid=$(frames live),index,marked"
    kept_from_syncs settle live 3 3 settle 3
    started=none
else
    leave_out "the calls of settle, since sqlcipher is missing"
fi
run rekey small none 3 3 rekey 3 3
run commit small none 3 3 rekey 3 3
run rekey large none 3 3 rekey 3 3
run rekey hot "hot=$hot" 3 3 rekey 3 3
run rekey four none 4 4 rekey 4 4
run migrate small none 3 4 migrate 3 4
run migrate four none 4 3 migrate 4 3
run migrate hot "hot=$hot" 3 4 migrate 3 4
run migrate left left 3 3 migrate 3 3
run make nothing none 3 3 make 3 40
run make nothing none 4 4 make 4 0
# Of plain files the same, and nothing is drawn for one that is written.
run stamp flat none plain:1024 plain:1024 stamp plain:1024 user-version 7
run commit flat none plain:1024 plain:1024 stamp plain:1024 user-version 7
run migrate flat none plain:1024 4 migrate plain:1024 4
run migrate four none 4 plain:1024 migrate 4 plain:1024
run migrate hot "hot=$hot" 3 plain:4096 migrate 3 plain:4096
run migrate flat none plain:1024 plain:4096 migrate plain:1024 plain:4096
run make nothing none plain:1024 plain:1024 make plain:1024 40
# For a new file under a plain header no salt is drawn. A rekey gives a file such a header, or takes it away.
keys=$scratch/from_header
run make nothing none 4:plain-header=32 4:plain-header=32 make 4:plain-header=32 40
run stamp headed none 4:plain-header=32 4:plain-header=32 stamp 4:plain-header=32 user-version 7
run rekey headed none 4:plain-header=32 4 rekey 4:plain-header=32 4
run migrate headed none 4:plain-header=32 3 migrate 4:plain-header=32 3
keys=$scratch/to_header
run rekey four none 4 4:plain-header=32 rekey 4 4:plain-header=32
run migrate small none 3 4:plain-header=32 migrate 3 4:plain-header=32
kept_from_syncs rekey four 4 4:plain-header=32 rekey 4 4:plain-header=32
keys=$scratch/keys
# A script of one commit: of two pages, and under a new key of all.
changes=('change 0 2 100 7' 'change 0 3 100 7' 'change 0 2 101 7')
script "3 $k0" "${changes[@]}"
run play small none 3 3 play 3
run play hot "hot=$hot" 3 3 play 3
script "3 $k0" "${changes[@]}" "rekey 0 3 $k1"
run play small none 3 3 play 3
script plain:1024 "${changes[@]}"
run play flat none plain:1024 plain:1024 play plain:1024
# The same of all pages but the first, more than stand in memory: their old bytes are kept ahead, as those of a rekey are.
mapfile -t many < <(for ((page = 2; page <= $(stat -c %s "$scratch/large") / 1024; page++)); do echo "change 0 $page 100 7"; done)
script "3 $k0" "${many[@]}"
run play_ahead large none 3 3 play 3
run play_ahead hot "hot=$hot" 3 3 play 3
script "3 $k0" "${changes[@]}" "rekey 0 3 $k1"
run play_ahead large none 3 3 play 3

# ---- the program itself, kept from a sync
kept_from_syncs stamp small 3 3 stamp 3 user-version 7
kept_from_syncs rekey small 3 3 rekey 3 3
kept_from_syncs migrate small 3 4 migrate 3 4
kept_from_syncs make nothing 3 3 make 3 5
kept_from_syncs stamp flat plain:1024 plain:1024 stamp plain:1024 user-version 7
kept_from_syncs migrate small 3 plain:1024 migrate 3 plain:1024
script "3 $k0" "${changes[@]}"
kept_from_syncs play small 3 3 play 3

finish "$runs runs"
