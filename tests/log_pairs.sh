#!/usr/bin/env bash
# Files in WAL mode, read with their logs by the setting `:wal`. The product makes them, of each profile: logs of every age (several commits, one not
# committed, laid, begun anew with old frames behind, grown, cut by VACUUM, of no byte), copied while the product had the file open or left by a process
# that was killed; files that were closed and are marked without a log; and both kinds of auto-vacuum. A part of them is looked at with torn logs, turned
# bits and the other byte order of checksums too (tests/reference/oracle/log_pairs.py). The model of a pair is the product's file, byte for byte. What
# each command says that only reads is what the reference says of that file, and what the command says without the setting of the product's file out of
# WAL mode; the rows are those of the product's dump. No file of a pair changes, and none appears.
#
#     tests/log_pairs.sh
#
# STRIDE=1 takes each variant of a log in place of each eighth, EVERY=N each N-th pair. PROGRAM names another program, SQLCIPHER4 the product built for
# version 4, JOBS another number of runs side by side. Needs Python's `cryptography`.
set -u
. "$(dirname "$0")/common.sh"
begin 'log pairs'
jobs=${JOBS:-4}
pairs=$top/tests/reference/oracle/log_pairs.py
export STRIDE=${STRIDE:-8} SQLCIPHER4=$four

needs sqlcipher python3
if ! has_reference; then
    leave_out "log pairs, since Python's cryptography is missing"
    finish
fi
[ -n "$four" ] || leave_out "files of version 4, since its product is missing"

python3 "$pairs" make "$scratch/pairs" > "$scratch/made" 2>&1 || { cat "$scratch/made"; say "the pairs are not made"; finish; }

started=()
for ((part = 0; part < jobs; part++)); do
    PART=$part/$jobs python3 "$pairs" check "$scratch/pairs" "$program" > "$scratch/part-$part.lines" 2>&1 &
    started+=("$!")
done
for ((part = 0; part < jobs; part++)); do
    wait "${started[part]}" || { grep -v 'pairs=' "$scratch/part-$part.lines" | head -n 20; say "part $part fails"; }
done
told() { total "$1" "$scratch"/part-*.lines; }

[ -n "${EVERY:-}" ] || [ "$(told pairs)" -ge "$(total pairs "$scratch/made")" ] || say "only $(told pairs) pairs are looked at"
for kind in variants auto-vacuum done refused "beside the product's file" "rows beside the product's" 'not as Main alone'; do
    [ "$(told "$kind")" -gt 0 ] || say "no pair is '$kind'"
done
# A model that goes without a rule is wrong of some pairs.
rules=
for rule in salts checksums commits order cut log; do
    [ "$(told "without $rule")" -gt 0 ] || say "no pair tells a model without $rule from the product"
    rules="$rules, without $rule of $(told "without $rule")"
done
echo "log pairs: $(told pairs) pairs, $(told variants) of them with another log than the product left, $(told auto-vacuum) with auto-vacuum: $(told runs) runs," \
    "$(told done) done and $(told refused) refused, $(told "beside the product's file") beside the product's file, $(told "rows beside the product's") rows beside" \
    "its dump; $(told 'not as Main alone') read otherwise than without the log; a model is wrong${rules/, / }"

# What has to be found wrong: a program that does nothing, one that reads the file without its log, one that touches the log, and one that leaves a file.
stand_in() { # stand_in NAME LINES: of a shell
    printf '#!/bin/sh\n%s\n' "$2" > "$scratch/$1"
    chmod 755 "$scratch/$1"
}
stand_in idle ''
stand_in alone "file=\$1; shift; copy=\$(mktemp -d) && cp \"\$file\" \"\$copy/file\"; \"$program\" \"\$copy/file\" \"\$@\"; status=\$?; rm -r \"\$copy\"; exit \"\$status\""
stand_in touches "\"$program\" \"\$@\"; status=\$?; touch \"\$1-wal\" 2> /dev/null; exit \"\$status\""
stand_in leaves "\"$program\" \"\$@\"; status=\$?; : > \"\$1-shn\"; exit \"\$status\""
mkdir "$scratch/few"
cp -r "$scratch/pairs/3-restarted-more" "$scratch/few/" && grep '^3-restarted-more	' "$scratch/pairs/pairs.tsv" > "$scratch/few/pairs.tsv"
for stand_in in idle alone touches leaves; do
    EVERY='' python3 "$pairs" check "$scratch/few" "$scratch/$stand_in" > "$scratch/$stand_in.lines" 2>&1
    [ "$(total wrong "$scratch/$stand_in.lines")" -gt 0 ] || say "a program that $stand_in is not found wrong"
done

finish "$(told pairs) pairs"
