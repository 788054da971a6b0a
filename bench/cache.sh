#!/bin/sh
# Times look-ups that find their page and pages that come in for the least recently used one, in a page cache of 64 and of 2,000
# frames, and beside it, in the same run, the same keys in the kit's `LruCache` alone: bench/cache.sh
# Needs rt and python3.
set -eu
cd "$(dirname "$0")/.."
bench/build_loops
exec python3 - <<'PYTHON'
import resource, subprocess

TIMES = {"hits": 4_000_000, "evictions": 1_000_000}
RUNS = 5

# Processor time of the program, in seconds.
def seconds(what, frames, times):
    def used():
        usage = resource.getrusage(resource.RUSAGE_CHILDREN)
        return usage.ru_utime + usage.ru_stime
    before = used()
    subprocess.run(["crates/bench_loops/out/bench_loops", "cache", what, str(frames), str(times)], stdout=subprocess.DEVNULL, check=True)
    return used() - before

# How many a second. The time for none, which is that of the start and of making the cache, is taken away.
def rate(what, kind, frames):
    return TIMES[kind] / (seconds(what, frames, TIMES[kind]) - seconds(what, frames, 0))

cells = [(kind, frames) for kind in TIMES for frames in (64, 2_000)]

# The runs of one cell lie apart, so that a busy moment spoils one of them at most.
best = {}
for _ in range(RUNS):
    for kind, frames in cells:
        for what in (kind, "lru_" + kind):
            best[what, frames] = max(best.get((what, frames), 0), rate(what, kind, frames))

print(f"millions a second, the best of {RUNS}")
print("           frames  page cache  lru alone  ratio")
for kind, frames in cells:
    ours, peer = best[kind, frames] / 1e6, best["lru_" + kind, frames] / 1e6
    print(f"{kind:9} {frames:7,}  {ours:10.2f}  {peer:9.2f}  {ours / peer:5.2f}")
PYTHON
