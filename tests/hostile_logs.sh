#!/usr/bin/env bash
# Each command that only reads, with the setting `:wal`, on sound files of versions 1, 3 and 4 and plain ones beside hostile logs: each field of the
# header, the first and the last frame another, with right checksums and without; logs that are cut, of another version, page size or file, that name
# too many pages or some that nobody wrote, or are no logs; and a million frames of one page. No command may crash, hang or want more than 32 MiB.
# It prints how the log is refused, or what the reference says of the file that the two open to, on standard error lines of plain words, and changes
# no file (tests/reference/oracle/hostile_logs.py).
#
#     tests/hostile_logs.sh
#
# STRIDE=1 takes each pair in place of each fourth. PROGRAM names another program, SQLCIPHER4 the product built for version 4, JOBS another number of runs
# side by side, FRAMES another number than a million. Needs Python's `cryptography`.
set -u
. "$(dirname "$0")/common.sh"
begin 'hostile logs'
jobs=${JOBS:-4}
oracle=$top/tests/reference/oracle
export STRIDE=${STRIDE:-4} SQLCIPHER4=$four

needs sqlcipher python3
if ! has_reference; then
    leave_out "hostile logs, since Python's cryptography is missing"
    finish
fi
[ -n "$four" ] || leave_out "files of version 4, since its product is missing"
# Where there is no room for a million frames, fewer are tried.
[ "$(df -Pk "$scratch" | awk 'NR == 2 { print $4 }')" -ge 1500000 ] || export FRAMES=${FRAMES:-100000}

python3 "$oracle/log_pairs.py" make "$scratch/pairs" 1 3 4 plain:512 plain:1024 > "$scratch/made" 2>&1 || { cat "$scratch/made"; say "the pairs are not made"; finish; }

part() { # part PROGRAM NAME: its lines go to a file
    mkdir "$scratch/$2" && python3 "$oracle/hostile_logs.py" "$1" "$scratch/pairs" "$scratch/$2" > "$scratch/$2.lines" 2>&1
}

# What has to be found wrong: a program that does nothing, and one that takes the log away.
printf '#!/bin/sh\n' > "$scratch/idle"
printf '#!/bin/sh\n"%s" "$@"\nstatus=$?\nrm -f file-wal\nexit "$status"\n' "$program" > "$scratch/removes"
chmod 755 "$scratch/idle" "$scratch/removes"
for stand_in in idle removes; do
    STRIDE=800 FRAMES=10 part "$scratch/$stand_in" "by-$stand_in"
    [ "$(total wrong "$scratch/by-$stand_in.lines")" -gt 0 ] || say "a program that $stand_in is not found wrong"
done

started=()
for ((part = 0; part < jobs; part++)); do
    PART=$part/$jobs part "$program" "part-$part" &
    started+=("$!")
done
for ((part = 0; part < jobs; part++)); do
    wait "${started[part]}" || { grep -v 'pairs=' "$scratch/part-$part.lines" | head -n 20; say "part $part failed"; }
done

told() { total "$1" "$scratch"/part-*.lines; }
for kind in 'logs refused' 'opened' 'done' 'refused'; do [ "$(told "$kind")" -gt 0 ] || say "no pair was '$kind'"; done
[ "$(told 'long logs')" -eq 2 ] || say "the long logs were not tried"
echo "hostile logs: $(told pairs) pairs, $(told 'logs refused') whose log is refused and $(told opened) that open to another file than Main, and" \
    "$(told 'long logs') with long logs; $(told runs) runs: $(told 'done') done, $(told refused) refused; $(told wrong) wrong"
finish "$(told pairs) pairs"
