#!/usr/bin/env bash
# Times `agree` of a table of a million rows of some 60 bytes with three indexes, in files of versions 3 and 4 under a raw key, beside the product's `PRAGMA
# integrity_check` of the same file, which also compares values and order; and the least address space in which it ends. The answers are compared
# first. Times are the best of several runs, one after another in turn, of the processor and by the clock. Needs python3 and the product
# `sqlcipher`; version 4 is left out where its product is not there: SQLCIPHER4, `sqlcipher4` or out/product/sqlcipher4. PROGRAM names another
# program, ROWS and RUNS other counts.
set -eu
cd "$(dirname "$0")/.."
command -v python3 > /dev/null || { echo "agree.sh: python3 is missing" >&2; exit 1; }
command -v sqlcipher > /dev/null || { echo "agree.sh: the product sqlcipher is missing" >&2; exit 1; }
[ -n "${PROGRAM:-}" ] || tools/build.sh
exec python3 - <<'PYTHON'
import os, resource, shutil, subprocess, tempfile, time

RUNS = int(os.environ.get("RUNS", "3"))
ROWS = int(os.environ.get("ROWS", "1000000"))
KEY = "x''000102030405060708090a0b0c0d0e0f101112131415161718191a1b1c1d1e1f''"
LINE = (KEY.replace("''", "'") + "\n").encode()
TOOL = os.environ.get("PROGRAM") or "out/sqlcipher-tool"

MAKE = f"""PRAGMA key = '{KEY}';
PRAGMA journal_mode = OFF;
PRAGMA synchronous = OFF;
PRAGMA cache_size = -200000;
CREATE TABLE t(id INTEGER PRIMARY KEY, a TEXT, b INTEGER, c REAL, d BLOB);
BEGIN;
WITH RECURSIVE n(i) AS (SELECT 1 UNION ALL SELECT i + 1 FROM n WHERE i < {ROWS})
INSERT INTO t SELECT i, 'name ' || (i * 7919 % 1000003), i * 37 % 1009, i * 0.5, randomblob(20) FROM n;
CREATE INDEX t_a ON t(a);
CREATE INDEX t_b ON t(b, a);
CREATE INDEX t_c ON t(c DESC);
COMMIT;
"""
CHECK = f"PRAGMA key = '{KEY}';\nPRAGMA integrity_check;\n".encode()

def once(command, line):
    """(processor time, time by the clock) of a command, in seconds, and what it prints."""
    def used():
        usage = resource.getrusage(resource.RUSAGE_CHILDREN)
        return usage.ru_utime + usage.ru_stime
    before, start = used(), time.perf_counter()
    done = subprocess.run(command, input=line, capture_output=True, check=True)
    return (used() - before, time.perf_counter() - start), done.stdout

def least_space(command, line):
    """The least address space, in KiB, in which it ends with 0, by halves."""
    low, high = 1024, 1 << 17
    while high - low > 256:
        middle = (low + high) // 2
        ends = subprocess.run(["bash", "-c", f'ulimit -v {middle}; exec "$@"', "bash", *command], input=line, capture_output=True).returncode
        low, high = (low, middle) if ends == 0 else (middle, high)
    return high

def product_of(version):
    if version == "3":
        return "sqlcipher"
    return os.environ.get("SQLCIPHER4") or shutil.which("sqlcipher4") or (
        "out/product/sqlcipher4" if os.path.exists("out/product/sqlcipher4") else None)

def measure(version, product, folder):
    path = os.path.join(folder, f"v{version}.db")
    subprocess.run([product, "-batch", path], input=MAKE.encode(), capture_output=True, check=True)
    commands = {"agree": [TOOL, path, "agree", version], "verify": [TOOL, path, "verify", version], "product": [product, "-batch", path]}
    best = {}
    for _ in range(RUNS):
        for name, command in commands.items():
            times, text = once(command, CHECK if name == "product" else LINE)
            if name == "agree":
                assert text == f"ok: 3 indexes, {3 * ROWS} entries, 0 not checked\n".encode(), text
            if name == "product":
                assert text.endswith(b"ok\n"), text
            best[name] = min(best.get(name, times), times)
    mine, theirs = best["agree"], best["product"]
    size = os.path.getsize(path) / 2 ** 20
    print(f"version {version}, {size:.0f} MiB, {ROWS} rows, 3 indexes: agree {mine[0]:.2f} s of the processor and {mine[1]:.2f} by the clock, verify {best['verify'][0]:.2f}, "
          f"integrity_check {theirs[0]:.2f} and {theirs[1]:.2f}; ratio {mine[0] / theirs[0]:.2f} and {mine[1] / theirs[1]:.2f}; "
          f"least address space {least_space(commands['agree'], LINE) / 1024:.1f} MiB", flush=True)

with tempfile.TemporaryDirectory(dir=os.environ.get("TMPDIR")) as folder:
    for version in ("3", "4"):
        product = product_of(version)
        if product:
            measure(version, product, folder)
        else:
            print("version 4 is left out: its product is not there")
PYTHON
