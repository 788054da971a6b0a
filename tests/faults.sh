#!/usr/bin/env bash
# One call of the system failing, or one request of memory refused, each alone, under `rekey 3 3`, `migrate 3 4`, `migrate 3 plain:1024`, `stamp`,
# the recovery of a hot journal, and a script of `play` of two commits and a rekey, on a file of some 80 pages: a read, write, cut, sync, open,
# look-up, removal or rename of the three files and their folder, of the random bytes, of standard input and output, with EIO and with ENOSPC.
# The status is that of what failed, standard error has the system's words, and where the files may be others says what to run. What is left
# recovers to the old content under the old key or to the new one, to the program and, of a copy, to the product; and from the old one the
# command then goes to its end. What a script leaves has every commit that was answered, and one more at most.
#
#     tests/faults.sh
#
# STRIDE=1 tries every call and every request; else each STRIDEth (8) of those that come once for each page and of the requests, and each of the
# others; of the script fewer. PROGRAM names another program, SQLCIPHER4 the product built for version 4. Needs strace, for the product's
# reading sqlcipher, and for the requests of memory a C compiler.
set -u
. "$(dirname "$0")/common.sh"
begin 'faults'
stride=${STRIDE:-8}
sparse=$((stride * 3 - 2))      # a script's calls are more than those of all others, since its lines are read byte by byte

k1="x'000102030405060708090a0b0c0d0e0f101112131415161718191a1b1c1d1e1f'"
k2="x'ffffffffffffffffffffffffffffffffffffffffffffffffffffffffffffffff'"
printf '%s\n' "$k1" "$k2" > "$scratch/keys"
# Each commit changes a byte of a value that goes on at this page, and the last one seals every page under the other key.
place='9 500'
printf '%s\n' "open 0 3 $k1" 'share 0' 'reserve 0' "change 0 $place 1" 'commit 0' 'share 0' 'reserve 0' "change 0 $place 2" 'commit 0' \
    'share 0' 'reserve 0' "change 0 $place 3" "rekey 0 3 $k2" 'commit 0' > "$scratch/script"

count() { echo "$1" >> "$scratch/ends"; }

# ---- the files: the old one, with a hot journal beside it for the recovery, and what is in it

dump() { printf 'PRAGMA integrity_check;\n.dump\n' | sql "$1" "$2" "$3"; }                 # dump VERSION KEY FILE: `ok`, and the rows
key_after() { [ "$1" = 3 ] && echo "$k2" || echo "$k1"; }                 # key_after COMMITS: that of the file after so many of the script

"$program" "$scratch/plain" make 3 30 < "$scratch/keys" > /dev/null 2>&1 || { echo "faults: make fails"; exit 1; }
[ "$(stat -c %s "$scratch/plain")" -ge 61440 ] && [ "$(stat -c %s "$scratch/plain")" -le 102400 ] || { echo "faults: the file has not 60 to 100 pages"; exit 1; }
asked "$k1" "$scratch/plain" export 3 > "$scratch/text" || { echo "faults: export fails"; exit 1; }
if has sqlcipher; then
    dump 3 "$k1" "$scratch/plain" > "$scratch/dump"
    [ "$(head -n 1 "$scratch/dump")" = ok ] || { echo "faults: the product does not find the file sound"; exit 1; }
fi

# What is in the file after each commit of the script.
for commits in 0 1 2 3; do
    cp "$scratch/plain" "$scratch/played"
    awk -v commits="$commits" 'seen < commits; /^commit/ { seen++ }' "$scratch/script" | "$program" "$scratch/played" play 3 > /dev/null 2>&1
    asked "$(key_after $commits)" "$scratch/played" export 3 > "$scratch/text-$commits" || say "the file is not sound after $commits commits"
    ! has sqlcipher || dump 3 "$(key_after $commits)" "$scratch/played" > "$scratch/dump-$commits"
done
[ "$(md5sum "$scratch"/text-[0-3] | cut -c1-32 | sort -u | wc -l)" -eq 4 ] || say "a commit of the script changes no row"
! has sqlcipher || [ "$(head -qn 1 "$scratch"/dump-[0-3] | grep -cx ok)" -eq 4 ] || say "the product does not find the file sound after each commit"

place() { # place FILE FOLDER: the file and its journal in a folder of their own
    rm -rf "$2"
    mkdir "$2" && cp "$scratch/$1" "$2/file" || exit 1
    [ ! -e "$scratch/$1-journal" ] || cp "$scratch/$1-journal" "$2/file-journal"
}

# ---- what a fault left

content() { # content FOLDER: `old`, `new` or `none`, as the program reads it once it is recovered; a `stamp` and a recovery keep the key
    local commits
    "$program" "$1/file" recover 3 > /dev/null 2>&1 < /dev/null || { echo none; return; }
    if [ "$later" = played ]; then      # of a script how many commits it has
        for commits in 0 1 2 3; do
            ! asked "$(key_after $commits)" "$1/file" export 3 | cmp -s - "$scratch/text-$commits" || { echo "$commits"; return; }
        done
        echo none
    elif asked "$k1" "$1/file" export 3 | cmp -s - "$scratch/text"; then
        echo old
    elif asked "$k2" "$1/file" export "$later" | cmp -s - "$scratch/text"; then
        echo new
    elif [ "$later" = stamped ] && asked "$k1" "$1/file" export 3 | sed '1s/user-version 7 /user-version 0 /' | cmp -s - "$scratch/text"; then
        echo new
    else
        echo none
    fi
}

product_reads() { # product_reads FOLDER CONTENT: the product opens the copy, finds it sound and dumps the same rows
    local version=3 key=$k1 rows=$scratch/dump
    case $2-$later in new-stamped) ;; new-*) version=$later key=$k2 ;; [0-3]-*) key=$(key_after "$2") rows=$scratch/dump-$2 ;; esac
    [ -n "$(product "$version")" ] || return 0
    dump "$version" "$key" "$1/file" | cmp -s - "$rows"
}

# judge CASE STATUS WANTED: the run of $folder/run, with `said` and `errors` beside it, ended with STATUS; WANTED is the status of such a fault.
judge() {
    local case=$1 status=$2 wanted=$3 now by answered
    if [ "$status" -eq 0 ]; then
        # A call that the command can do without: then it was done, all of it.
        cmp -s "$folder/said" "$folder/whole.said" || say "$case: status 0, and the lines are $(head -n 1 "$folder/said")"
    else
        [ "$status" -eq "$wanted" ] || say "$case: ended with $status, and $wanted is wanted: $(head -n 1 "$folder/errors")"
        case ${words[0]} in
            # Rows go out as they are read, and answers as they are given: what is printed is how the whole text begins.
            export | agree | find | salvage | play)
                head -c "$(stat -c %s "$folder/said")" "$folder/whole.said" | cmp -s - "$folder/said" || say "$case: what is printed is no beginning of the text" ;;
            *) [ "$status" -eq 5 ] || [ ! -s "$folder/said" ] || say "$case: status $status, and $(head -n 1 "$folder/said") is printed" ;;
        esac
        case $status in
            8) grep -q 'memory ran out' "$folder/errors" ;;
            *) grep -q "(os error $number)" "$folder/errors" ;;
        esac || say "$case: standard error has not the system's words: $(head -n 1 "$folder/errors")"
    fi
    # Where the file is another one standard error says what to do.
    if [ "$status" -ne 0 ] && [ "$later" != recovered ] && ! cmp -s "$folder/run/file" "$scratch/$file"; then
        grep -qE 'recover|what was committed stays' "$folder/errors" || say "$case: standard error does not say to recover, or what stays"
        count told
    fi
    [ "$status" -eq 0 ] || [ ! -e "$folder/run/file-migrated" ] || grep -q 'file-migrated' "$folder/errors" || say "$case: standard error does not name file-migrated"
    rm -rf "$folder/copy" && cp -r "$folder/run" "$folder/copy"
    now=$(content "$folder/run")
    by=$now
    if [ "$later" = played ] && [ "$now" != none ]; then
        answered=$(head -n "$(wc -l < "$folder/said")" "$scratch/script" | grep -c '^commit')
        [ "$now" -eq "$answered" ] || [ "$now" -eq $((answered + 1)) ] || say "$case: $answered commits are answered, and the file has $now"
        [ "$now" -gt 0 ] && now=new || now=old
    fi
    case $now in
        none) say "$case: neither the old content nor the new one"; return ;;
        new) [ "$later" != recovered ] || say "$case: a recovery leaves another file" ;;
        old) [ "$status" -ne 0 ] || [ "$later" = recovered ] || say "$case: status 0, and the old content" ;;
    esac
    product_reads "$folder/copy" "$by" || say "$case: the product does not read what is left, which is the $now content"
    if [ "$now" = old ]; then
        (cd "$folder/run" && "$program" file "${words[@]}" < "$input" > /dev/null 2> "$folder/errors") || say "$case: given again, it fails: $(head -n 1 "$folder/errors")"
    fi
    count "$now"
}

# What `judge` has to find wrong, and one case that it has to let pass.
tried_on() { # tried_on WHAT STATUS ERRORS: prints what is found wrong with a run that ended so
    local folder=$scratch/judged later=4 file=plain number=5 words=(rekey 3 3) input=$scratch/keys
    rm -rf "$folder"
    mkdir "$folder"
    place plain "$folder/run"
    : > "$folder/said"
    echo "rekeyed: 79 pages" > "$folder/whole.said"
    echo "$3" > "$folder/errors"
    if [ "$1" = "a lost commit" ]; then
        later=played words=(play 3) input=$scratch/script
        printf 'done\n%.0s' {1..5} | tee "$folder/whole.said" > "$folder/said"
    fi
    [ "$1" != "a lost page" ] || dd if=/dev/zero of="$folder/run/file" bs=1024 seek=4 count=1 conv=notrunc status=none
    (say() { echo "$*"; }; count() { :; }; judge "$1" "$2" 4)
}
[ -z "$(tried_on 'a plain fault' 4 'file: read: (os error 5)')" ] || say "a plain fault is judged wrong: $(tried_on 'a plain fault' 4 'file: read: (os error 5)')"
[ -n "$(tried_on 'another status' 2 'file: read: (os error 5)')" ] || say "another status is not found"
[ -n "$(tried_on 'no words' 4 'file: read')" ] || say "the want of the system's words is not found"
[ -n "$(tried_on 'a done line that is missing' 0 '')" ] || say "status 0 with nothing done is not found"
[ -n "$(tried_on 'a lost page' 4 'file: write: (os error 5), run recover')" ] || say "a lost page is not found"
[[ "$(tried_on 'a lost commit' 4 'file: read: (os error 5)')" = *'1 commits are answered, and the file has 0' ]] || say "a lost commit is not found"

# ---- one call failing

# The calls of a run that touch what it works on: CLASS NAME NUMBER, numbered among those of its name as strace counts them, of $1.
list_calls() {
    sed -E 's/^[0-9]+ +//' "$1" | awk -v folder="$2" '
        { name = $0; sub(/\(.*/, "", name); seen[name]++; path = ""; fd = "" }
        /^[a-z0-9]+\([0-9]+</ { fd = $0; sub(/^[a-z0-9]+\(/, "", fd); path = fd; sub(/<.*/, "", fd); sub(/^[0-9]+</, "", path); sub(/>.*/, "", path) }
        fd == "" && split($0, piece, "\"") > 1 { path = piece[2]; if (path !~ /^\//) path = folder "/" path }
        path == folder || index(path, folder "/") == 1 { print "disk", name, seen[name]; next }
        path == "/dev/urandom" || path == "/dev/random" { print "entropy", name, seen[name]; next }
        fd == "0" && name ~ /^read/ { print "input", name, seen[name]; next }
        fd == "1" && name ~ /^write/ { print "output", name, seen[name] }'
}

# Of the calls of one class and name that are more than 20, each STRIDEth.
thinned() {
    awk -v stride="$stride" '
        { line[NR] = $0; key[NR] = $1 $2; many[$1 $2]++ }
        END { for (i = 1; i <= NR; i++) { turn = at[key[i]]++; if (many[key[i]] <= 20 || turn % stride == 0) print line[i] } }'
}

called=open,openat,creat,read,pread64,write,pwrite64,ftruncate,fsync,fdatasync,unlink,unlinkat,rename,renameat,renameat2,link,linkat
called+=,stat,lstat,fstat,statx,newfstatat,readlink,readlinkat,fchmod,fchown,flock

failing() { # failing NAME FILE LATER WORDS..: each call of this command failing alone, in a process of its own
    local name=$1 file=$2 later=$3 folder=$scratch/$1 words class call turn error number status wanted input=$scratch/keys
    shift 3
    words=("$@")
    [ "$1" != play ] || input=$scratch/script
    mkdir "$folder"
    place "$file" "$folder/run"
    (cd "$folder/run" && strace -f -qq -y -o "$folder/calls" -e trace="$called" "$program" file "$@" < "$input" > "$folder/whole.said" 2> /dev/null) ||
        { say "$name: the program fails under strace"; return; }
    list_calls "$folder/calls" "$folder/run" > "$folder/all"
    thinned < "$folder/all" > "$folder/chosen"
    [ "$(grep -c '^disk' "$folder/all")" -gt 20 ] || say "$name: only $(grep -c '^disk' "$folder/all") calls of the disk"
    for error in EIO ENOSPC; do
        number=5
        [ "$error" = EIO ] || number=28
        while read -r class call turn; do
            place "$file" "$folder/run"
            (cd "$folder/run" && strace -f -qq -y -o "$folder/failed" -e trace="$call" -e inject="$call:error=$error:when=$turn" \
                "$program" file "${words[@]}" < "$input" > "$folder/said" 2> "$folder/errors")
            status=$?
            # How often the system's table of locks is read is another number in each run, so what failed is asked of the run itself.
            grep INJECTED "$folder/failed" > "$folder/injected" || { echo "$call $turn" >> "$folder/missed"; continue; }
            class=$(list_calls "$folder/injected" "$folder/run")
            case ${class%% *} in disk) wanted=4 ;; entropy) wanted=7 ;; input) wanted=6 ;; output) wanted=5 ;; *) wanted=0 ;; esac
            judge "$name: $call $turn with $error" "$status" "$wanted"
            echo "$call $turn" >> "$folder/tried"
        done < "$folder/chosen"
    done
    [ ! -e "$folder/missed" ] || [ "$(($(wc -l < "$folder/missed") * 20))" -le "$(($(wc -l < "$folder/tried") * 2))" ] ||
        say "$name: of the calls that should fail $(wc -l < "$folder/missed") were not made: $(head -n 3 "$folder/missed" | paste -sd ',')"
    echo "faults: $name, $(head -n 1 "$folder/whole.said"): $(wc -l < "$folder/tried") of $((2 * $(wc -l < "$folder/all"))) faults tried" >> "$scratch/lines"
}

# ---- one request of memory refused

refused() { # refused NAME FILE LATER WORDS..
    local name=$1 file=$2 later=$3 folder=$scratch/memory-$1 words turn status number=12 step=$stride total without=0 done=0 input=$scratch/keys
    shift 3
    words=("$@")
    [ "$1" != play ] || input=$scratch/script
    mkdir "$folder"
    place "$file" "$folder/run"
    (cd "$folder/run" && REFUSE=0 REFUSE_COUNT="$folder/requests" LD_PRELOAD=$scratch/refuse.so "$program" file "$@" < "$input" > "$folder/whole.said" 2> /dev/null) ||
        { say "$name: the program fails beside refuse.so"; return; }
    total=$(cat "$folder/requests")
    [ "$total" -gt 5 ] || say "$name: the program asks for memory only $total times, or not by the C library"
    [ "$total" -gt 60 ] || step=1
    for ((turn = 1; turn <= total; turn += turn < 20 ? 1 : step)); do
        place "$file" "$folder/run"
        (cd "$folder/run" && REFUSE=$turn LD_PRELOAD=$scratch/refuse.so "$program" file "${words[@]}" < "$input" > "$folder/said" 2> "$folder/errors")
        status=$?
        [ "$status" -ne 0 ] || without=$((without + 1))
        done=$((done + 1))
        # Where memory is refused the file is as it was; a recovery asks for none after its first write.
        [ "$status" -eq 0 ] || { cmp -s "$folder/run/file" "$scratch/$file" && { [ ! -e "$scratch/$file-journal" ] || cmp -s "$folder/run/file-journal" "$scratch/$file-journal"; }; } ||
            [ "$later" != recovered ] || say "$name: request $turn refused: the recovery had begun"
        judge "$name: request $turn refused" "$status" 8
    done
    # One request at the start is for something that a run can do without.
    [ "$without" -le 2 ] || say "$name: $without requests are refused with status 0"
    echo "faults: $name: $done of $total requests of memory refused, one at a time" >> "$scratch/lines"
}

# ---- all of them, side by side

later_version=4
[ -n "$(product 4)" ] || later_version=2
has sqlcipher || leave_out "that the product reads what a fault left, since sqlcipher is missing"
[ "$later_version" = 4 ] || ! has sqlcipher || leave_out "what a fault of migrate 3 4 left, since the product of version 4 is missing; migrate 3 2 is tried"

if can_trace; then
    cp "$scratch/plain" "$scratch/hot"
    stop_rekey "$scratch/hot" "$scratch/keys" > /dev/null
    # The recovery has to cut the file too.
    [ -e "$scratch/hot-journal" ] && head -c 5000 /dev/zero >> "$scratch/hot" || say "a stopped rekey leaves no journal"
    failing rekey plain 3 rekey 3 3 &
    failing migrate plain "$later_version" migrate 3 "$later_version" &
    failing decrypt plain plain:1024 migrate 3 plain:1024 &
    failing stamp plain stamped stamp 3 user-version 7 &
    failing recover hot recovered recover 3 &
    stride=$sparse failing play plain played play 3 &
    wait
else
    leave_out "calls that fail, since strace is missing or cannot trace"
fi
if ${CC:-cc} -shared -fPIC -O1 -o "$scratch/refuse.so" "$top/tests/faults/refuse.c" 2> "$scratch/compiled"; then
    refused "rekey 3 3" plain 3 rekey 3 3 &
    refused "migrate 3 $later_version" plain "$later_version" migrate 3 "$later_version" &
    refused "export 3" plain recovered export 3 &
    refused "agree 3" plain recovered agree 3 &
    refused "find 3" plain recovered find 3 items 7 30 &
    refused "salvage 3" plain recovered salvage 3 &
    stride=$sparse refused "play 3" plain played play 3 &
    [ ! -e "$scratch/hot-journal" ] || refused "recover 3" hot recovered recover 3 &
    wait
else
    leave_out "requests of memory that are refused, since there is no C compiler"
fi

cat "$scratch/lines" 2> /dev/null
ends() { grep -cx "$1" "$scratch/ends"; }
[ "$(ends old)" -gt 0 ] && [ "$(ends new)" -gt 0 ] && [ "$(ends told)" -gt 0 ] || say "no fault leaves the old content, or the new one"
finish "$(($(ends old) + $(ends new))) faults, $(ends old) leave the old content and $(ends new) the new one"
