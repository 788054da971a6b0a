#!/usr/bin/env bash
# Times the decoding of records of ten columns, every value of each, beside SQLite (Python's sqlite3 module, one query over
# the same columns of as many rows in memory): bench/records.sh
# Needs rt and python3.
set -eu
cd "$(dirname "$0")/.."
bench/build_loops
exec python3 - <<'PYTHON'
import resource, sqlite3, subprocess, time

ROWS = 1_000  # that stay in the processor's cache
TIMES = 2_000
RUNS = 5

# Processor time of a command, in seconds.
def seconds(rows, times):
    def used():
        usage = resource.getrusage(resource.RUSAGE_CHILDREN)
        return usage.ru_utime + usage.ru_stime
    before = used()
    subprocess.run(["crates/bench_loops/out/bench_loops", "record", str(rows), str(times)], stdout=subprocess.DEVNULL, check=True)
    return used() - before

# The time for no pass at all, which is that of the start, is taken away.
def ours():
    return ROWS * TIMES / (seconds(ROWS, TIMES) - seconds(ROWS, 0))

names = [f"c{column}" for column in range(10)]
database = sqlite3.connect(":memory:")
database.execute(f"create table t ({', '.join(names)})")
row = (None, 0, 7, -30_000, 8_000_000, 1 << 40, 3.141592653589793, "item-0000000010",
       "a text of forty bytes, not one more, so.", bytes([9] * 64))
rows = [(row[0], number, *row[2:]) for number in range(ROWS)]
database.executemany(f"insert into t values ({', '.join('?' * 10)})", rows)
query = f"select {', '.join(f'max({name})' for name in names)} from t"

def sqlite():
    before = time.process_time()
    for _ in range(TIMES // 20):
        database.execute(query).fetchall()
    return ROWS * (TIMES // 20) / (time.process_time() - before)

best = {"ours": 0, "sqlite": 0}
for _ in range(RUNS):
    best["ours"] = max(best["ours"], ours())
    best["sqlite"] = max(best["sqlite"], sqlite())
print(f"records of ten columns a second, the best of {RUNS}")
print(f"here {best['ours']:,.0f}, SQLite {sqlite3.sqlite_version} {best['sqlite']:,.0f}, ratio {best['ours'] / best['sqlite']:.2f}")
PYTHON
