#!/bin/sh
# Times the loader: 1,000,000 small rows in order, rows of 2,000 bytes, and entries of an index, into memory, with their records made
# before; beside it, in the same run, SQLite on the same rows, in memory and without a journal: an INSERT of each by Python's
# executemany from a generator, less its time where it inserts none; INSERT INTO t SELECT, which copies the records of a table; and CREATE INDEX.
# bench/load.sh needs rt and python3 with its sqlite3.
set -eu
cd "$(dirname "$0")/.."
bench/build_loops
exec python3 - <<'PYTHON'
import resource, sqlite3, subprocess, time

RUNS = 5
TIMES = 10  # loads of a run, beside the first
SIZES = (1024, 4096, 65536)
FIRST = 100_000_000
TREES = {  # the family, how many entries, and of how many bytes a text
    "small rows": ("table", 1_000_000, 13),
    "rows of 2,000 bytes": ("table", 50_000, 2_000),
    "index entries": ("index", 1_000_000, 13),
}

# Processor time of a command, in seconds, and what it printed.
def seconds(command):
    def used():
        usage = resource.getrusage(resource.RUSAGE_CHILDREN)
        return usage.ru_utime + usage.ru_stime
    before = used()
    said = subprocess.run(command, stdout=subprocess.PIPE, check=True, text=True).stdout
    return used() - before, said

# The bytes of an entry: a header of three or four, a number of four and the text.
def length(text):
    return (3 if text < 58 else 4) + 4 + text

# The times of the first load, which is walked to its end, and of so many more; and how many pages it has.
def ours(size, family, entries, text):
    command = ["crates/bench_loops/out/bench_loops", "load", family, str(size), str(entries), str(text)]
    first, said = seconds([*command, "0"])
    given, all_bytes, pages = map(int, said.split())
    assert (given, all_bytes) == (entries, entries * length(text)), said
    return {"first": first, "loads": seconds([*command, str(TIMES)])[0]}, pages

def rows(entries, text):
    filling = "x" * (text - 13)
    return ((number, f"row {number}{filling}") for number in range(FIRST, FIRST + entries))

def timed(call, *words):
    start = time.process_time()
    call(*words)
    return time.process_time() - start

def memory(size):
    database = sqlite3.connect(":memory:", isolation_level=None)
    database.execute(f"PRAGMA page_size = {size}")
    database.execute("PRAGMA journal_mode = OFF")
    database.execute("PRAGMA synchronous = OFF")
    return database

# The times of the INSERTs, of the same where they insert nothing, and of the statement over a whole table.
def sqlite_times(size, family, entries, text):
    database = memory(size)
    database.execute("CREATE TABLE s(a, b)")
    if family == "table":
        database.execute("CREATE TABLE t(a, b)")
        database.execute("CREATE TABLE u(a, b)")
        whole = "INSERT INTO u SELECT * FROM s"
    else:
        database.execute("CREATE TABLE t(b, a, PRIMARY KEY(b, a)) WITHOUT ROWID")
        whole = "CREATE INDEX i ON s(b)"
    database.execute("BEGIN")
    database.executemany("INSERT INTO s VALUES(?, ?)", rows(entries, text))
    found = {
        "none": timed(database.executemany, "INSERT INTO t(a, b) SELECT ?1, ?2 WHERE 0", rows(entries, text)),
        "each": timed(database.executemany, "INSERT INTO t(a, b) VALUES(?, ?)", rows(entries, text)),
        "whole": timed(database.execute, whole),
    }
    database.execute("COMMIT")
    database.close()
    return found

best, pages = {}, {}
for _ in range(RUNS):
    for name, tree in TREES.items():
        for size in SIZES:
            found, pages[name, size] = ours(size, *tree)
            for way, taken in {**found, **sqlite_times(size, *tree)}.items():
                best[name, size, way] = min(best.get((name, size, way), taken), taken)

print(f"entries a second, by the least of {RUNS} times, beside SQLite {sqlite3.sqlite_version}")
print(f"{'':20}  page     pages        here      INSERT  whole table")
for name, (_, entries, _) in TREES.items():
    for size in SIZES:
        taken = {way: best[name, size, way] for way in ("first", "loads", "none", "each", "whole")}
        rates = (TIMES * entries / (taken["loads"] - taken["first"]), entries / (taken["each"] - taken["none"]), entries / taken["whole"])
        print(f"{name:20}{size:6}{pages[name, size]:10,}" + "".join(f"{rate:12,.0f}" for rate in rates))
PYTHON
