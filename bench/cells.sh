#!/bin/sh
# Times the cells of a full leaf page of a table, rows of 20 bytes: a page tested whole, its cells read after that, and its
# steps read one by one as a walk does; beside them, in the same run, a plain copy of the page's bytes: bench/cells.sh
# Needs rt and python3.
set -eu
cd "$(dirname "$0")/.."
bench/build_loops
exec python3 - <<'PYTHON'
import os, resource, subprocess, time

CELLS = 40_000_000  # that a run reads
RUNS = 5
SIZES = (1008, 4016, 65536)

# Processor time of a command, in seconds.
def seconds(command):
    def used():
        usage = resource.getrusage(resource.RUSAGE_CHILDREN)
        return usage.ru_utime + usage.ru_stime
    before = used()
    subprocess.run(command, stdout=subprocess.DEVNULL, check=True)
    return used() - before

def cells_of(size):
    return (size - 8) // 25

# Cells a second. The time for no page at all, which is that of the start, is taken away.
def ours(way, size):
    times = CELLS // cells_of(size)
    command = ["crates/bench_loops/out/bench_loops", "cell", way, str(size)]
    return times * cells_of(size) / (seconds([*command, str(times)]) - seconds([*command, "0"]))

# Cells a second of a loop that copies the page's bytes.
def copied(size):
    page, times = bytearray(os.urandom(size)), CELLS // cells_of(size) // 10
    start = time.process_time()
    for _ in range(times):
        bytes(page)
    return times * cells_of(size) / (time.process_time() - start)

ways = ("test", "cells", "steps")
best = {}
for _ in range(RUNS):
    for size in SIZES:
        for way in ways:
            best[size, way] = max(best.get((size, way), 0), ours(way, size))
        best[size, "copy"] = max(best.get((size, "copy"), 0), copied(size))

print(f"millions of cells a second, the best of {RUNS}")
print(" usable  cells     test    cells    steps  copy in Python")
for size in SIZES:
    line = "".join(f"{best[size, way] / 1e6:9.1f}" for way in ways)
    print(f"{size:7} {cells_of(size):6}{line}{best[size, 'copy'] / 1e6:16.1f}")
PYTHON
