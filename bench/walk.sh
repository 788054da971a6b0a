#!/bin/sh
# Times the cursor over a table of 1,000,000 small rows that SQLite wrote, its pages in memory: entries a second; beside it,
# in the same run, a plain copy of the pages' bytes, and a query of SQLite over the same rows: bench/walk.sh
# Needs rt and python3 with its sqlite3.
set -eu
cd "$(dirname "$0")/.."
bench/build_loops
exec python3 - <<'PYTHON'
import os, resource, sqlite3, subprocess, tempfile, time

ROWS = 1_000_000
TIMES = 10  # walks of a run
RUNS = 5
SIZES = (1024, 4096, 65536)

# Processor time of a command, in seconds.
def seconds(command):
    def used():
        usage = resource.getrusage(resource.RUSAGE_CHILDREN)
        return usage.ru_utime + usage.ru_stime
    before = used()
    subprocess.run(command, stdout=subprocess.DEVNULL, check=True)
    return used() - before

def make(path, size):
    database = sqlite3.connect(path)
    database.execute(f"PRAGMA page_size = {size}")
    database.execute("CREATE TABLE t(a, b)")
    database.executemany("INSERT INTO t VALUES(?, ?)", ((i, f"row {i:09}") for i in range(ROWS)))
    database.commit()
    database.close()

# Entries a second. The time without a walk, which is that of the start and of reading the file, is taken away.
def ours(path, size, *way):
    command = ["crates/bench_loops/out/bench_loops", "walk", path, str(size), "2"]
    return TIMES * ROWS / (seconds([*command, str(TIMES), *way]) - seconds([*command, "0", *way]))

def sqlite_rate(path):
    database = sqlite3.connect(path)
    start = time.process_time()
    database.execute("SELECT count(*), sum(length(a) + length(b)) FROM t").fetchall()
    return ROWS / (time.process_time() - start)

best = {}
with tempfile.TemporaryDirectory() as folder:
    paths = {size: os.path.join(folder, f"{size}.db") for size in SIZES}
    for size, path in paths.items():
        make(path, size)
    for _ in range(RUNS):
        for size, path in paths.items():
            rates = {"cursor": ours(path, size), "copy": ours(path, size, "copy"), "sqlite": sqlite_rate(path)}
            for way, rate in rates.items():
                best[size, way] = max(best.get((size, way), 0), rate)

print(f"millions of entries a second, the best of {RUNS}")
print("  page   cursor     copy  a query of SQLite")
for size in SIZES:
    print(f"{size:6}" + "".join(f"{best[size, way] / 1e6:9.1f}" for way in ("cursor", "copy", "sqlite")))
PYTHON
