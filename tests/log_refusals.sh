#!/usr/bin/env bash
# What the setting `:wal` refuses, and what stands in its way: commands that change a file, and `play`, by their words alone; words that are nearly such
# words; a journal beside that would be played back; no file, and one of no byte, beside a log; a log that is a folder, a link, a pipe or may not be
# read; and a program that has the file open. Nothing is changed each time. Logs that are refused for what is in them are those of hostile_logs.sh.
#
#     tests/log_refusals.sh
set -u
. "$(dirname "$0")/common.sh"
begin 'log refusals'
. "$top/tests/others.sh"
needs sqlcipher

printf '%s\n' "$k1" "$k2" > "$scratch/keys"
runs=0

# A pair whose log has newer rows than Main: `base` and `base-wal`.
write_database 3 "$k1" "$scratch/first" 30
printf '%s\n' "PRAGMA journal_mode = WAL; PRAGMA wal_autocheckpoint = 0; INSERT INTO log VALUES(1); UPDATE items SET name = 'new';" \
    ".system cp $scratch/first $scratch/base; cp $scratch/first-wal $scratch/base-wal" | sql 3 "$k1" "$scratch/first" > /dev/null
[ -s "$scratch/base-wal" ] || { echo "log refusals: the product leaves no log"; exit 1; }

lay() { # lay NAME: a folder with a copy of the pair, as `file`
    box=$scratch/$1
    mkdir "$box" && cp "$scratch/base" "$box/file" && cp "$scratch/base-wal" "$box/file-wal"
}

names() { (cd "$1" && find . -printf '%p %y %i %s %T@ %C@ %l\n' | grep -v '^\. ' | sort); }      # names FOLDER: all that a change would be seen by

# tried NAME STATUS LINE ERRORS WORDS..: a run on the file of `box`, what it has to print (`-` for anything), a pattern of what it has to say (or `-`)
tried() {
    local name=$1 wanted=$2 line=$3 errors=$4 status before
    shift 4
    runs=$((runs + 1))
    before=$(names "$box")
    timeout 60 "$program" "$box/file" "$@" < "$scratch/keys" > "$scratch/lines" 2> "$scratch/errors"
    status=$?
    [ "$status" -eq "$wanted" ] || say "$name: $*: ended with $status and '$(head -n 3 "$scratch/lines")', $(cat "$scratch/errors")"
    [ "$line" = - ] || [ "$(cat "$scratch/lines")" = "$line" ] || say "$name: $*: prints '$(head -n 3 "$scratch/lines")'"
    [ "$errors" = - ] || grep -q -- "$errors" "$scratch/errors" || say "$name: $*: says '$(cat "$scratch/errors")'"
    [ "$(names "$box")" = "$before" ] || say "$name: $*: a file has changed, or one appeared"
}

# ---- by the words alone

only='a file with its log is only read'
lay changing
mkdir "$scratch/missing"
for box in "$scratch/changing" "$scratch/missing"; do
    for profile in 3 4:1024 plain:1024 4:key=hex:plain-header=32; do
        while read -r words; do
            # shellcheck disable=SC2086
            tried "$(basename "$box")" 2 "$only" - $words
        done < <(commands "$profile:wal" 4 recovery change making script)
    done
    tried 'the second word' 2 "$only" - rekey 3 3:wal
    tried 'the second word' 2 "$only" - migrate 3 4:wal
    tried 'both words' 2 "$only" - migrate plain:512:wal plain:512:wal
    tried 'another number' 2 "$only" - stamp 3:wal application-id 0
    for words in 'verify 3:wal:wal' 'verify wal' 'verify :wal' 'verify 3:WAL' 'verify 3:wa' 'verify 3:wall' 'verify 3wal' 'verify 3:' 'verify 3:wal:' \
        'verify 3::wal' 'verify 3:wal:wal' 'verify plain:wal' 'verify 5:wal' 'verify 4:4095:wal' 'probe 3:wal' 'probe:wal' 'find 3:wal items 7' \
        'play 3:WAL' 'play wal' 'recover 3:wal:wal' 'rekey 3:wal' 'migrate 3 :wal' 'make 3:wal' 'verify 4:wal:plain-header=0' 'verify 1:wal:plain-header=32' \
        'verify 4:plain-header=32:wal:plain-header=32' 'verify 4:key=hex:wal:key=hex' 'verify 4:wal:key=text' 'verify plain:1024:wal:plain-header=32'; do
        # shellcheck disable=SC2086
        tried "$(basename "$box")" 1 usage - $words
    done
    tried "$(basename "$box")" 2 'profile has no tags' - tags plain:1024:wal
    tried "$(basename "$box")" 2 'profile has no tags' - tags 1:wal
    # (the key lines are no hex, and have no salt)
    tried "$(basename "$box")" 2 'key without salt' 'does not hold its salt' verify 3:plain-header=32:wal
    tried "$(basename "$box")" 2 'key is not hex' 'two a byte, and nothing else' export 3:wal:key=hex
done

# No file is opened and no key line is read then.
if can_trace; then
    box=$scratch/changing
    for words in 'recover 3:wal' 'rekey 3:wal 3' 'play 3:wal' 'make 4:wal 1'; do
        # shellcheck disable=SC2086
        strace -f -qq -o "$scratch/calls" -e trace=open,openat,stat,lstat,newfstatat,statx,read "$program" "$box/file" $words < "$scratch/keys" > /dev/null 2>&1
        looks=$(grep -E -e "\"$box/file(-wal|-journal)?\"" -e '^[0-9]* *read\(0,' "$scratch/calls")
        [ -z "$looks" ] || say "$words: it looks at the file or reads a key: $looks"
    done
else
    leave_out "what a refused command reads, since strace is missing"
fi

# ---- the same file without the setting, and a word for it that is longer

lay named
tried 'no setting' 4 '' 'this write-ahead log holds newer pages' verify 3
tried 'probe' 0 'profile 3' 'holds newer pages' probe
tried 'a longer word' 2 - - verify 4:4096:wal
cp "$scratch/lines" "$scratch/four"
tried 'the shorter one' 2 - - verify 4:wal
cmp -s "$scratch/lines" "$scratch/four" || say "4:4096:wal is not 4:wal"
tried 'another layout' 3 'key refused' - verify 4:1024:wal

# The log of another file under the same key, which holds all its pages: they are read, and standard error says whose they may be. SQLCipher goes by the
# salt of FILE, and refuses the key.
tried 'its own log' 0 - - verify 3:wal
! grep -q 'salt' "$scratch/errors" || say "its own log: says '$(cat "$scratch/errors")'"
lay other-log
write_database 3 "$k1" "$scratch/another" 20
printf '%s\n' "PRAGMA journal_mode = WAL; PRAGMA wal_autocheckpoint = 0; VACUUM;" ".system cp $scratch/another-wal $box/file-wal" | sql 3 "$k1" "$scratch/another" > /dev/null
tried "another file's log" 0 - "page 1 was read from FILE-wal, and its salt is not FILE's" verify 3:wal

# ---- a journal beside

hot='file-journal: this journal is to be played back first'
read_all() { # read_all NAME STATUS ERRORS: each command that only reads
    local words
    while read -r words; do
        # shellcheck disable=SC2086
        tried "$1" "$2" "$([ "$2" = 0 ] && echo - || true)" "$3" $words
    done < <(commands 3:wal 3 check part)
}
lay hot
write_database 3 "$k1" "$scratch/before" 30
leave_hot 3 "$k1" "$scratch/before" "$scratch/rolled"
[ -s "$scratch/rolled-journal" ] || { echo "log refusals: the product leaves no journal"; exit 1; }
cp "$scratch/rolled-journal" "$box/file-journal"
read_all hot 4 "$hot"
rm "$box/file-wal"
read_all 'hot, without a log' 4 "$hot"
for cold in zeros empty; do
    lay "$cold"
    : > "$box/file-journal"
    [ "$cold" = empty ] || head -c 2000 /dev/zero > "$box/file-journal"
    read_all "a journal of $cold" 0 -
done
lay folder-journal
mkdir "$box/file-journal"
tried 'a folder for a journal' 4 '' 'file-journal' verify 3:wal

# ---- no file, and what is no log

rm -r "$scratch/missing"
lay missing
rm "$box/file"
read_all_missing() {
    local words
    while read -r words; do
        # shellcheck disable=SC2086
        tried "$1" 2 'file is empty' "$2" $words
    done < <(commands 3:wal 3 check part)
}
read_all_missing 'no file' 'there is no such file'
: > "$box/file"
read_all_missing 'a file of no byte' -

lay link
mv "$box/file-wal" "$box/other" && ln -s other "$box/file-wal"
"$program" "$scratch/named/file" export 3:wal < "$scratch/keys" > "$scratch/export" 2> /dev/null || say "the pair is not exported"
grep -q "'new'" "$scratch/export" || say "the rows of the log are not exported"
tried 'a link to the log' 4 '' 'file-wal: open: it is no regular file' export 3:wal
ln -sfn nowhere "$box/file-wal"
tried 'a link to nothing' 4 '' 'file-wal: open: it is no regular file' header 3:wal
lay folder
rm "$box/file-wal" && mkdir "$box/file-wal"
tried 'a folder' 4 '' file-wal verify 3:wal
lay pipe
rm "$box/file-wal" && mkfifo "$box/file-wal"
tried 'a pipe' 4 '' file-wal verify 3:wal
lay unreadable
chmod 000 "$box/file-wal"
if [ "$(id -u)" -ne 0 ]; then
    tried 'a log that may not be read' 4 '' file-wal verify 3:wal
elif has setpriv && chmod 755 "$scratch" "$box" && cp "$program" "$scratch/program" && chmod 755 "$scratch/program"; then
    bare=$program
    printf '#!/bin/sh\nexec setpriv --reuid=65534 --regid=65534 --clear-groups "%s" "$@"\n' "$scratch/program" > "$scratch/nobody"
    chmod 755 "$scratch/nobody"
    program=$scratch/nobody
    tried 'a log that may not be read' 4 '' file-wal verify 3:wal
    chmod 444 "$box/file-wal" "$box/file" && chmod 555 "$box"
    tried 'files and a folder that may only be read' 0 "$(cat "$scratch/export")" - export 3:wal
    program=$bare
else
    leave_out "a log that may not be read, since all of this runs as root"
fi

# A second name of the file leads to the log beside the first one.
lay second
mkdir "$box/elsewhere" && mv "$box/file" "$box/file-wal" "$box/elsewhere" && ln -s elsewhere/file "$box/file"
tried 'a link to the file' 0 "$(cat "$scratch/export")" - export 3:wal

# ---- nothing is opened for writing, made, synced or removed

changing=open,openat,creat,pwrite64,writev,pwritev,ftruncate,truncate,fsync,fdatasync,unlink,unlinkat,rename,renameat,renameat2
changing=$changing,link,linkat,symlink,symlinkat,mkdir,mkdirat,chmod,fchmod,fchmodat,utimensat
if can_trace; then
    lay traced
    while read -r words; do
        runs=$((runs + 1))
        # shellcheck disable=SC2086
        strace -f -qq -o "$scratch/calls" -e trace=$changing "$program" "$box/file" $words < "$scratch/keys" > "$scratch/lines" 2>&1 || say "traced: $words fails"
        looks=$(grep -E "$box" "$scratch/calls" | grep -vE 'openat?\(.*O_RDONLY' ; grep -E 'sync\(|write' "$scratch/calls")
        [ -z "$looks" ] || say "$words: $(head -n 3 <<< "$looks")"
    done < <(commands 3:wal 3 check part)
else
    leave_out "what a report opens, since strace is missing"
fi

# ---- a call of the system that fails, and a request of memory that is refused

# part_of CASE STATUS WANTED WORDS: a run that ended so, its text a part of `export`, its words on standard error
part_of() {
    runs=$((runs + 1))
    head -c "$(stat -c %s "$scratch/lines")" "$scratch/export" | cmp -s - "$scratch/lines" || say "$1: what is printed is no beginning of the text"
    if [ "$2" -eq 0 ]; then
        cmp -s "$scratch/lines" "$scratch/export" || say "$1: status 0, and a part is printed"
    else
        [ "$2" -eq "$3" ] && grep -q "$4" "$scratch/errors" || say "$1: ended with $2: $(head -n 2 "$scratch/errors")"
        echo "$3" >> "$scratch/ends"
    fi
    [ "$(names "$box")" = "$kept" ] || say "$1: a file has changed, or one appeared"
}

lay faults
kept=$(names "$box")
: > "$scratch/ends"
if can_trace; then
    called=open,openat,pread64,fstat,stat,lstat,statx,newfstatat,readlink
    strace -f -qq -y -o "$scratch/calls" -e trace=$called "$program" "$box/file" export 3:wal < "$scratch/keys" > /dev/null 2>&1
    # Those of FILE and what is beside it: the first ones of each name, and then each so many.
    sed -E 's/^[0-9]+ +//' "$scratch/calls" | awk -F'(' -v box="$box" -v stride="${STRIDE:-8}" \
        '{ seen[$1]++ } index($0, box) { at = met[$1]++; if (at < 6 || at % stride == 0) print $1, seen[$1] }' > "$scratch/chosen"
    [ "$(wc -l < "$scratch/chosen")" -gt 15 ] || say "only $(wc -l < "$scratch/chosen") calls are of the files"
    while read -r name turn; do
        strace -f -qq -o "$scratch/failed" -e trace="$name" -e inject="$name:error=EIO:when=$turn" "$program" "$box/file" export 3:wal \
            < "$scratch/keys" > "$scratch/lines" 2> "$scratch/errors"
        status=$?
        # (how often the table of locks is read is another number in each run)
        ! grep -q INJECTED "$scratch/failed" || part_of "$name $turn fails" "$status" 4 '(os error 5)'
    done < "$scratch/chosen"
    grep -q 4 "$scratch/ends" || say "no call failed"
else
    leave_out "calls that fail, since strace is missing"
fi
if ${CC:-cc} -shared -fPIC -O1 -o "$scratch/refuse.so" "$top/tests/faults/refuse.c" 2> /dev/null; then
    REFUSE=0 REFUSE_COUNT="$scratch/requests" LD_PRELOAD=$scratch/refuse.so "$program" "$box/file" export 3:wal < "$scratch/keys" > "$scratch/lines" 2> "$scratch/errors"
    requests=$(cat "$scratch/requests" 2> /dev/null || echo 0)
    [ "$requests" -gt 5 ] || say "the program asks for memory only $requests times, or not by the C library"
    for ((turn = 1; turn <= requests; turn += turn < 30 ? 1 : ${STRIDE:-8})); do
        REFUSE=$turn LD_PRELOAD=$scratch/refuse.so "$program" "$box/file" export 3:wal < "$scratch/keys" > "$scratch/lines" 2> "$scratch/errors"
        part_of "request $turn refused" $? 8 'memory ran out'
    done
    ! [ "$requests" -gt 5 ] || grep -q 8 "$scratch/ends" || say "no request was refused"
else
    leave_out "requests of memory that are refused, since there is no C compiler"
fi

# ---- what a clean close leaves, and the rows of the log

lay closed
echo 'SELECT count(*) FROM log;' | sql 3 "$k1" "$box/file" > /dev/null
[ ! -e "$box/file-wal" ] || say "the product leaves its log when it closes"
tried 'closed' 0 "$(cat "$scratch/export")" - export 3:wal
tried 'closed, without the setting' 2 'WAL mode' - export 3

# What has to be found wrong: a program that does nothing, and one that touches the log.
printf '#!/bin/sh\n' > "$scratch/idle"
printf '#!/bin/sh\n"%s" "$@"\nstatus=$?\ntouch "$1-wal"\nexit "$status"\n' "$program" > "$scratch/touches"
chmod 755 "$scratch/idle" "$scratch/touches"
lay judged
for stand_in in idle touches; do
    found=$(say() { echo "$*"; }; program=$scratch/$stand_in; tried judged 2 "$only" - stamp 3:wal user-version 9)
    [ -n "$found" ] || say "a program that $stand_in is not found wrong"
done

finish "$runs runs"
