#!/usr/bin/env bash
# Times `find` of one row of a table of a million rows, in files of about 110 MiB of versions 3 and 4 under a raw key, beside the product's
# `SELECT * FROM t WHERE rowid = N` on the same file, which opens it and reads the schema too; and counts how often each reads the file,
# beside the bound: a tree's path has at most 20 pages. The rows are compared first. Times are the best of several runs, each for another
# row, one after another in turn, of the processor and by the clock. Needs python3 and the product `sqlcipher`, for the counts strace;
# version 4 is left out where its product is not there: SQLCIPHER4, `sqlcipher4` or out/product/sqlcipher4. PROGRAM names another program.
set -eu
cd "$(dirname "$0")/.."
command -v python3 > /dev/null || { echo "find.sh: python3 is missing" >&2; exit 1; }
command -v sqlcipher > /dev/null || { echo "find.sh: the product sqlcipher is missing" >&2; exit 1; }
[ -n "${PROGRAM:-}" ] || tools/build.sh
exec python3 - <<'PYTHON'
import os, random, resource, shutil, subprocess, tempfile, time

RUNS = 40
ROWS = int(os.environ.get("ROWS", "1000000"))
KEY = "x''000102030405060708090a0b0c0d0e0f101112131415161718191a1b1c1d1e1f''"
LINE = (KEY.replace("''", "'") + "\n").encode()
TOOL = os.environ.get("PROGRAM") or "out/sqlcipher-tool"
PATH = 20   # pages of a tree's path at most

MAKE = f"""PRAGMA key = '{KEY}';
PRAGMA journal_mode = OFF;
PRAGMA synchronous = OFF;
PRAGMA cache_size = -200000;
CREATE TABLE t(id INTEGER PRIMARY KEY, name TEXT, body BLOB);
BEGIN;
WITH RECURSIVE n(i) AS (SELECT 1 UNION ALL SELECT i + 1 FROM n WHERE i < {ROWS})
INSERT INTO t SELECT i, 'name ' || (i * 7919 % 1000003), randomblob(84) FROM n;
COMMIT;
"""
LINES = "'row ' || id || ' null ''' || name || ''' x''' || lower(hex(body)) || ''''"

def query(columns, rowid):
    return f"PRAGMA key = '{KEY}';\nSELECT {columns} FROM t WHERE rowid = {rowid};\n".encode()

def once(command, line):
    """(processor time, time by the clock) of a command, in seconds, and what it prints."""
    def used():
        usage = resource.getrusage(resource.RUSAGE_CHILDREN)
        return usage.ru_utime + usage.ru_stime
    before, start = used(), time.perf_counter()
    done = subprocess.run(command, input=line, capture_output=True, check=True)
    return (used() - before, time.perf_counter() - start), done.stdout

def reads(command, line, path):
    """How often the file is read, none where strace is missing."""
    with tempfile.NamedTemporaryFile() as calls:
        words = ["strace", "-f", "-qq", "-P", path, "-e", "trace=read,pread64,readv,preadv,preadv2", "-o", calls.name]
        try:
            subprocess.run(words + command, input=line, capture_output=True, check=True)
        except (OSError, subprocess.CalledProcessError):
            return None
        return sum(b" = -1 " not in call for call in calls)

def product_of(version):
    if version == "3":
        return "sqlcipher"
    return os.environ.get("SQLCIPHER4") or shutil.which("sqlcipher4") or (
        "out/product/sqlcipher4" if os.path.exists("out/product/sqlcipher4") else None)

with tempfile.TemporaryDirectory() as folder:
    for version in ("3", "4"):
        product = product_of(version)
        if product is None:
            print(f"version {version} is left out: its product is not there")
            continue
        path = os.path.join(folder, f"{version}.db")
        subprocess.run([product, "-batch", path], input=MAKE.encode(), check=True, stdout=subprocess.DEVNULL)
        size = os.path.getsize(path) / 2 ** 20
        drawn = random.Random(version)
        rowids = [1, ROWS] + [drawn.randint(1, ROWS) for _ in range(RUNS - 2)]
        best = {}
        for rowid in rowids:
            found = [TOOL, path, "find", version, "t", str(rowid), str(rowid)]
            for name, command, line in (("find", found, LINE), ("product", [product, "-batch", path], query("*", rowid)),
                                        ("header", [TOOL, path, "header", version], LINE)):
                spent, said = once(command, line)
                best[name] = tuple(map(min, best.get(name, spent), spent))
                if name == "find":
                    wanted = once([product, "-batch", path], query(LINES, rowid))[1].splitlines()[-1] + b"\nfound: 1 rows\n"
                    assert said == wanted, (rowid, said, wanted)
        milli = {name: tuple(1000 * it for it in spent) for name, spent in best.items()}
        ratio = tuple(a / b for a, b in zip(best["find"], best["product"]))
        print(f"version {version}, {size:.0f} MiB, {ROWS} rows: find {milli['find'][0]:.1f} ms of the processor and {milli['find'][1]:.1f} ms by the clock, "
              f"the product {milli['product'][0]:.1f} and {milli['product'][1]:.1f} ms, ratio {ratio[0]:.2f} and {ratio[1]:.2f}")
        print(f"  of it the keys, the header and the start {milli['header'][0]:.1f} and {milli['header'][1]:.1f} ms")
        header = reads([TOOL, path, "header", version], LINE, path)
        if header is None:
            print("  how often the file is read is left out: strace is missing or cannot trace")
            continue
        # Beside the path: the schema, which is one page, and the kind of the root.
        most = max(reads([TOOL, path, "find", version, "t", str(rowid), str(rowid)], LINE, path) for rowid in rowids[:8])
        theirs = max(reads([product, "-batch", path], query("*", rowid), path) for rowid in rowids[:8])
        assert most <= header + 2 + PATH, most
        print(f"  the file is read {most} times at most, by `header` {header} times, so {most - header} times for schema and row, where "
              f"{2 + PATH} is the bound; by the product {theirs} times")
PYTHON
