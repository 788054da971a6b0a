#!/usr/bin/env bash
# Times `export P:wal` and `verify P:wal` of files of about 100 MiB of versions 3 and 4 beside a log of 4 MiB, as the product leaves them when it is
# killed, beside `export P` and `verify P` of an ordinary file of the same content: a copy that the product has opened and taken out of WAL mode. The
# answers are compared first. Times are the best of several runs, one after another in turn, of the processor and by the clock. Wanted is at most 1.2
# of the processor time. Needs python3 and the product `sqlcipher`; version 4 is left out where its product is not there: SQLCIPHER4, `sqlcipher4` or
# out/product/sqlcipher4. PROGRAM names another program, ROWS and RUNS other counts.
set -eu
cd "$(dirname "$0")/.."
command -v python3 > /dev/null || { echo "log.sh: python3 is missing" >&2; exit 1; }
command -v sqlcipher > /dev/null || { echo "log.sh: the product sqlcipher is missing" >&2; exit 1; }
[ -n "${PROGRAM:-}" ] || tools/build.sh
exec python3 - <<'PYTHON'
import os, resource, shutil, subprocess, tempfile, time

RUNS = int(os.environ.get("RUNS", "5"))
ROWS = int(os.environ.get("ROWS", "90000"))
KEY = "x''000102030405060708090a0b0c0d0e0f101112131415161718191a1b1c1d1e1f''"
LINE = (KEY.replace("''", "'") + "\n").encode()
TOOL = os.environ.get("PROGRAM") or "out/sqlcipher-tool"
CHANGED = {"3": 2800, "4": 1 << 10}      # rows, by which the log has 4 MiB of pages of 1,024 and of 4,096 bytes

MAKE = f"""PRAGMA key = '{KEY}';
PRAGMA journal_mode = WAL;
PRAGMA synchronous = OFF;
PRAGMA cache_size = -200000;
CREATE TABLE t(id INTEGER PRIMARY KEY, name TEXT, body BLOB);
CREATE INDEX t_name ON t(name);
BEGIN;
WITH RECURSIVE n(i) AS (SELECT 1 UNION ALL SELECT i + 1 FROM n WHERE i < {ROWS})
INSERT INTO t SELECT i, 'name ' || (i * 7919 % 1000003), randomblob(i * 31 % 1500 + 200) FROM n;
COMMIT;
PRAGMA wal_checkpoint(TRUNCATE);
PRAGMA wal_autocheckpoint = 0;
"""
# Rows far from each other, so that each has pages of its own.
CHANGE = "UPDATE t SET body = zeroblob(length(body)) WHERE id % {every} = 0 AND id < {every} * {count};\n.system kill -9 $PPID\n"
SETTLE = f"PRAGMA key = '{KEY}';\nPRAGMA journal_mode = DELETE;\nSELECT count(*) FROM t;\n"

def once(command):
    """(processor time, time by the clock) of a command, in seconds, and what it prints."""
    def used():
        usage = resource.getrusage(resource.RUSAGE_CHILDREN)
        return usage.ru_utime + usage.ru_stime
    before, start = used(), time.perf_counter()
    done = subprocess.run(command, input=LINE, capture_output=True, check=True)
    return (used() - before, time.perf_counter() - start), done.stdout

def product_of(version):
    if version == "3":
        return "sqlcipher"
    return os.environ.get("SQLCIPHER4") or shutil.which("sqlcipher4") or (
        "out/product/sqlcipher4" if os.path.exists("out/product/sqlcipher4") else None)

def measure(version, product, folder):
    pair, ordinary = (os.path.join(folder, f"{version}-{name}.db") for name in ("pair", "ordinary"))
    every = max(1, ROWS // CHANGED[version])
    subprocess.run([product, "-batch", pair], input=(MAKE + CHANGE.format(every=every, count=CHANGED[version])).encode(), capture_output=True)
    for end in ("", "-wal"):
        shutil.copyfile(pair + end, ordinary + end)
    subprocess.run([product, "-batch", ordinary], input=SETTLE.encode(), check=True, capture_output=True)
    assert not os.path.exists(ordinary + "-wal")
    size, log = (os.path.getsize(path) / 2 ** 20 for path in (ordinary, pair + "-wal"))
    for name in ("export", "verify"):
        commands = {"pair": [TOOL, pair, name, f"{version}:wal"], "ordinary": [TOOL, ordinary, name, version]}
        best, said = {}, {}
        for _ in range(RUNS):
            for which, command in commands.items():
                times, said[which] = once(command)
                best[which] = tuple(map(min, best.get(which, times), times))
            assert said["pair"] == said["ordinary"], name
        (a, b), (c, d) = best["pair"], best["ordinary"]
        print(f"`{name} {version}:wal` of {size:.0f} MiB with a log of {log:.1f} MiB: {a:.2f} s of the processor and {b:.2f} by the clock, "
              f"`{name} {version}` of an ordinary file {c:.2f} and {d:.2f}; ratio {a / c:.2f} and {b / d:.2f}", flush=True)
    for path in (pair, pair + "-wal", ordinary):
        os.remove(path)

with tempfile.TemporaryDirectory(dir=os.environ.get("TMPDIR")) as folder:
    for version in ("3", "4"):
        product = product_of(version)
        if product:
            measure(version, product, folder)
        else:
            print("version 4 is left out: its product is not there")
PYTHON
