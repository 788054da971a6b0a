#!/usr/bin/env bash
# Times `settle P`, the check of the pair included, of files of versions 3 and 4 beside a log of about 100 MiB, as the product leaves them when it is
# killed, beside the product's `wal_checkpoint(TRUNCATE)` of the same pair, which looks at no page, and beside its `integrity_check` and that. Both then
# hold the same rows. `verify P:wal` is the check alone. Times are the best of several runs, one after another in turn, of the processor and by the
# clock. Wanted was at most 1.5 of the processor time of `wal_checkpoint(TRUNCATE)`. Needs python3 and the product `sqlcipher`; version 4
# is left out where its product is not there: SQLCIPHER4, `sqlcipher4` or out/product/sqlcipher4. PROGRAM names another program, ROWS and RUNS other
# counts, BENCH_FOLDER another disk.
set -eu
cd "$(dirname "$0")/.."
command -v python3 > /dev/null || { echo "settle.sh: python3 is missing" >&2; exit 1; }
command -v sqlcipher > /dev/null || { echo "settle.sh: the product sqlcipher is missing" >&2; exit 1; }
[ -n "${PROGRAM:-}" ] || tools/build.sh
exec python3 - <<'PYTHON'
import os, resource, shutil, subprocess, tempfile, time

RUNS = int(os.environ.get("RUNS", "5"))
ROWS = int(os.environ.get("ROWS", "90000"))
KEY = "x''000102030405060708090a0b0c0d0e0f101112131415161718191a1b1c1d1e1f''"
LINE = (KEY.replace("''", "'") + "\n").encode()
TOOL = os.environ.get("PROGRAM") or "out/sqlcipher-tool"

# All rows are in the log, in commits of a thousandth of them.
MAKE = f"""PRAGMA key = '{KEY}';
PRAGMA journal_mode = WAL;
PRAGMA synchronous = OFF;
PRAGMA cache_size = -200000;
PRAGMA wal_autocheckpoint = 0;
CREATE TABLE t(id INTEGER PRIMARY KEY, name TEXT, body BLOB);
CREATE INDEX t_name ON t(name);
BEGIN;
WITH RECURSIVE n(i) AS (SELECT 1 UNION ALL SELECT i + 1 FROM n WHERE i < {ROWS})
INSERT INTO t SELECT i, 'name ' || (i * 7919 % 1000003), randomblob(i * 31 % 1500 + 200) FROM n;
COMMIT;
UPDATE t SET name = 'other' WHERE id % 1000 = 0;
.system kill -9 $PPID
"""
LAY = f"PRAGMA key = '{KEY}';\nPRAGMA wal_checkpoint(TRUNCATE);\n"
CHECK_AND_LAY = f"PRAGMA key = '{KEY}';\nPRAGMA integrity_check;\nPRAGMA wal_checkpoint(TRUNCATE);\n"
COUNT = f"PRAGMA key = '{KEY}';\nSELECT count(*), sum(length(body)), sum(name = 'other') FROM t;\nPRAGMA integrity_check;\n"

def once(command, text):
    """(processor time, time by the clock) of a command, in seconds, and what it prints."""
    def used():
        usage = resource.getrusage(resource.RUSAGE_CHILDREN)
        return usage.ru_utime + usage.ru_stime
    before, start = used(), time.perf_counter()
    done = subprocess.run(command, input=text, capture_output=True, check=True)
    return (used() - before, time.perf_counter() - start), done.stdout

def product_of(version):
    if version == "3":
        return "sqlcipher"
    return os.environ.get("SQLCIPHER4") or shutil.which("sqlcipher4") or (
        "out/product/sqlcipher4" if os.path.exists("out/product/sqlcipher4") else None)

def measure(version, product, folder):
    pair = os.path.join(folder, f"{version}.db")
    subprocess.run([product, "-batch", pair], input=MAKE.encode(), capture_output=True)
    size = os.path.getsize(pair + "-wal")
    best = {}
    for _ in range(RUNS):
        counts = set()
        for way, command, text in (
                ("check", [TOOL, "FILE", "verify", version + ":wal"], LINE), ("settle", [TOOL, "FILE", "settle", version], LINE),
                ("product", [product, "-batch", "FILE"], LAY.encode()), ("both", [product, "-batch", "FILE"], CHECK_AND_LAY.encode())):
            path = os.path.join(folder, way + ".db")
            for end in ("", "-wal"):
                shutil.copyfile(pair + end, path + end)
            os.sync()
            times, said = once([path if word == "FILE" else word for word in command], text)
            assert way != "settle" or said.startswith(b"settled: "), said
            best[way] = min(best.get(way, times), times)
            counts.add(subprocess.run([product, "-batch", path], input=COUNT.encode(), check=True, capture_output=True).stdout)
            for left in os.listdir(folder):
                if left.startswith(way):
                    os.remove(os.path.join(folder, left))
        assert len(counts) == 1 and b"ok" in counts.pop()
    (used, clock), (their_used, their_clock), check, both = best["settle"], best["product"], best["check"][0], best["both"][0]
    print(f"version {version}, a log of {size / 2**20:.0f} MiB: settle {used:.2f} s of the processor, {clock:.2f} s by the clock; "
          f"wal_checkpoint(TRUNCATE) {their_used:.2f} s and {their_clock:.2f} s: {used / their_used:.2f} and {clock / their_clock:.2f} of its time; "
          f"with integrity_check {both:.2f} s of the processor: {used / both:.2f}; verify {version}:wal alone {check:.2f} s")

with tempfile.TemporaryDirectory(dir=os.environ.get("BENCH_FOLDER")) as folder:
    for version in ("3", "4"):
        product = product_of(version)
        if product:
            measure(version, product, folder)
        else:
            print(f"version {version} is left out: its product is missing")
PYTHON
