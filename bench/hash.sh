#!/bin/sh
# Times SHA-512 of four messages of 4,096 bytes at once, and SHA-1 of eight, beside the kit's `sha2` and `sha1`, one message after another, in one
# run: bench/hash.sh [TRIES]
# Needs rt and awk.
set -eu
cd "$(dirname "$0")/.."
bench/build_loops
echo "the least of ${1:-2000} tries that alternate"
crates/bench_loops/out/bench_loops hash "${1:-2000}" | awk '
    NR == 1 && $1 != "true" { print "the digests differ"; exit 1 }
    NR == 2 { printf "four messages of 4,096 bytes: %.1f us one after another, %.1f us at once: %.2f times as fast\n", $1 / 1000, $2 / 1000, $1 / $2 }
    NR == 3 { printf "eight messages with SHA-1: %.1f us one after another, %.1f us at once: %.2f times as fast\n", $1 / 1000, $2 / 1000, $1 / $2 }'
