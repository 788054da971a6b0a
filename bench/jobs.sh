#!/usr/bin/env bash
# Times `verify`, `export`, `salvage`, `rekey` and `migrate` on files of about 110 MiB of versions 3 and 4 beside what the product has for each,
# and prints one table of one run: processor time and time by the clock, the best of RUNS, and their ratios. Each run that changes a file has
# a fresh copy of it. Needs python3 and the product `sqlcipher`; version 4 is left out where its product is not there: SQLCIPHER4,
# `sqlcipher4` or out/product/sqlcipher4.
set -eu
cd "$(dirname "$0")/.."
command -v python3 > /dev/null || { echo "jobs.sh: python3 is missing" >&2; exit 1; }
command -v sqlcipher > /dev/null || { echo "jobs.sh: the product sqlcipher is missing" >&2; exit 1; }
tools/build.sh
exec python3 - <<'PYTHON'
import os, resource, shutil, subprocess, tempfile, time

RUNS = int(os.environ.get("RUNS", "5"))
ROWS = 95_000
OLD = "x''000102030405060708090a0b0c0d0e0f101112131415161718191a1b1c1d1e1f''"
NEW = "x''ffffffffffffffffffffffffffffffffffffffffffffffffffffffffffffffff''"
LINE = (OLD.replace("''", "'") + "\n").encode()
LINES = LINE + (NEW.replace("''", "'") + "\n").encode()
TOOL = "out/sqlcipher-tool"
PRODUCTS = {"3": "sqlcipher", "4": os.environ.get("SQLCIPHER4") or shutil.which("sqlcipher4") or (
    "out/product/sqlcipher4" if os.path.exists("out/product/sqlcipher4") else None)}
MAKE = f"""PRAGMA key = '{OLD}';
PRAGMA journal_mode = OFF;
PRAGMA synchronous = OFF;
PRAGMA cache_size = -200000;
CREATE TABLE t(id INTEGER PRIMARY KEY, name TEXT, body BLOB);
CREATE INDEX t_name ON t(name);
BEGIN;
WITH RECURSIVE n(i) AS (SELECT 1 UNION ALL SELECT i + 1 FROM n WHERE i < {ROWS})
INSERT INTO t SELECT i, 'name ' || (i * 7919 % 1000003), randomblob(i * 31 % 1500 + 200) FROM n;
COMMIT;
"""

def used():
    usage = resource.getrusage(resource.RUSAGE_CHILDREN)
    return usage.ru_utime + usage.ru_stime

# Processor time and time by the clock of a command, in seconds.
def once(command, line, out):
    with open(out, "wb") as text:
        before, start = used(), time.perf_counter()
        subprocess.run(command, input=line, stdout=text, check=True)
        return used() - before, time.perf_counter() - start

# What each command is beside: its words, its key lines, and the statements of the product behind the key.
def jobs(version, new):
    return (
        ("verify", [version], LINE, "PRAGMA integrity_check;\n"),
        ("export", [version], LINE, ".dump\n"),
        ("salvage", [version], LINE, ".dump\n"),
        ("rekey", [version, version], LINES, f"PRAGMA rekey = '{NEW}';\n"),
        ("migrate", [version, version], LINES, f"ATTACH '{new}' AS new KEY '{NEW}';\nSELECT sqlcipher_export('new');\nDETACH new;\n"),
    )

def time_job(folder, path, version, job):
    name, words, lines, statements = job
    copy, new, text = (os.path.join(folder, part) for part in ("copy.db", "new.db", "text"))
    product = PRODUCTS[version]
    best = {}
    # One after another in each round, so that a busy moment of the machine does not fall on one alone.
    for _ in range(RUNS):
        for who, command, line in (
            ("here", [TOOL, copy, name, *words], lines),
            ("product", [product, "-batch", copy], (f"PRAGMA key = '{OLD}';\n" + statements).encode()),
        ):
            shutil.copyfile(path, copy)
            if os.path.exists(new):
                os.remove(new)
            found = once(command, line, text)
            best[who] = tuple(map(min, best.get(who, found), found))
    (a, b), (c, d) = best["here"], best["product"]
    what = statements.split(";")[-3 if name == "migrate" else 0].split("'")[0].split("(")[0].split("=")[0].strip().removeprefix("SELECT ")
    print(f"| `{name} {' '.join(words)}` | {a:.2f} and {b:.2f} s | `{what}` {c:.2f} and {d:.2f} s | {a / c:.2f} and {b / d:.2f} |", flush=True)

with tempfile.TemporaryDirectory() as folder:
    print("| what | here, by the processor and by the clock | the product | ratios |\n|---|---|---|---|")
    for version, product in PRODUCTS.items():
        if product is None:
            print(f"version {version} is left out: its product is not there")
            continue
        path = os.path.join(folder, "file.db")
        subprocess.run([product, "-batch", path], input=MAKE.encode(), check=True, stdout=subprocess.DEVNULL)
        for job in jobs(version, os.path.join(folder, "new.db")):
            time_job(folder, path, version, job)
        os.remove(path)
PYTHON
