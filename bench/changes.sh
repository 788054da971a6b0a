#!/usr/bin/env bash
# Times one transaction that changes 20,000 pages over 64 frames, for versions 3 and 4; beside it, in the same run, the product's UPDATE
# of as many rows, of which each has a page of its own, with as many pages in its cache and with those that it takes by itself. Both sync
# their journals. Needs rt, python3 and sqlcipher; a version whose product is missing is left out: bench/changes.sh [PRODUCT4]
# PRODUCT4 is SQLCIPHER4, `sqlcipher4` or out/product/sqlcipher4 where it is not given.
set -eu
cd "$(dirname "$0")/.."
command -v python3 > /dev/null || { echo "changes.sh: python3 is missing" >&2; exit 1; }
bench/build_loops
product4=${1:-${SQLCIPHER4:-$(command -v sqlcipher4 || echo "$PWD/out/product/sqlcipher4")}}
exec python3 - "$PWD/crates/bench_loops/out/bench_loops" sqlcipher "$product4" <<'PYTHON'
import os, shutil, subprocess, sys, tempfile, time

program, products = sys.argv[1], {"3": sys.argv[2], "4": sys.argv[3]}
KEY = "PRAGMA key = \"x'" + bytes(range(32)).hex() + "'\";\n"
PAGES = 20_000
RUNS = 5
BODY = {"3": 700, "4": 3000}

def make(product, path, version):
    text = KEY + f"""PRAGMA cache_size = -200000;
CREATE TABLE t(id INTEGER PRIMARY KEY, tag INTEGER, body BLOB);
BEGIN;
WITH RECURSIVE n(i) AS (SELECT 1 UNION ALL SELECT i + 1 FROM n WHERE i < {PAGES})
INSERT INTO t SELECT i, 100, randomblob({BODY[version]}) FROM n;
COMMIT;
"""
    subprocess.run([product, "-batch", path], input=text.encode(), check=True, capture_output=True)

def seconds(command, text, folder):
    start = time.perf_counter()
    out = subprocess.run(command, input=text.encode(), cwd=folder, capture_output=True, check=True).stdout
    return time.perf_counter() - start, out

for version, product in products.items():
    if not shutil.which(product):
        print(f"version {version}: left out, since {product} is missing")
        continue
    with tempfile.TemporaryDirectory() as folder:
        made, path = os.path.join(folder, "made.db"), os.path.join(folder, "changed.db")
        make(product, made, version)
        update = KEY + "{}UPDATE t SET tag = tag + 1;\nSELECT count(*) FROM t WHERE tag = 101;\n"
        jobs = {
            "program": ([program, "pager", "changed.db", version, "change", str(PAGES)], ""),
            "product": ([product, "-batch", "changed.db"], update.format("PRAGMA cache_size = 64;\n")),
            "product's own cache": ([product, "-batch", "changed.db"], update.format("")),
        }
        # The runs of one job lie apart, so that a busy moment spoils one of them at most.
        best = {}
        for _ in range(RUNS):
            for job, (command, text) in jobs.items():
                shutil.copyfile(made, path)
                os.sync()
                spent, out = seconds(command, text, folder)
                if out.split()[-1:] != [str(PAGES).encode()]:
                    sys.exit(f"changes.sh: {job} of version {version} printed {out!r}, not {PAGES}")
                best[job] = min(best.get(job, spent), spent)
        print(f"version {version}, {os.path.getsize(made) / 2**20:.0f} MiB, {PAGES:,} pages changed")
        for job, spent in best.items():
            print(f"  {job:20} {PAGES / spent:10,.0f} pages/s  {spent:6.2f} s   the transaction takes {best['program'] / spent:.2f} of it")
PYTHON
