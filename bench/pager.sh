#!/usr/bin/env bash
# Times pages that a pager reads from a file of 113 MiB and opens, and pages that it holds, for versions 3 and 4; beside them, in the
# same run, the product's full scan of the table in that file: bench/pager.sh [PRODUCT4]
# PRODUCT4 is what tests/reference/build_sqlcipher4.sh built; without it that script builds it. Needs rt, python3 and sqlcipher.
# A version whose product is missing is left out. The files are in the system's cache, so no time is that of a device.
set -eu
cd "$(dirname "$0")/.."
command -v python3 > /dev/null || { echo "pager.sh: python3 is missing" >&2; exit 1; }
bench/build_loops
folder=$(mktemp -d)
trap 'rm -rf "$folder"' EXIT
product4=${1:-}
if [ -z "$product4" ]; then
    tests/reference/build_sqlcipher4.sh "$folder/product" > /dev/null 2>&1 || true
    product4=$folder/product/sqlcipher4
fi
python3 - "$folder" sqlcipher "$product4" <<'PYTHON'
import os, shutil, subprocess, sys, time

folder, products = sys.argv[1], {"3": sys.argv[2], "4": sys.argv[3]}
KEY = "PRAGMA key = \"x'" + bytes(range(32)).hex() + "'\";\n"
MAKE = KEY + """PRAGMA cache_size = -200000;
CREATE TABLE t(id INTEGER PRIMARY KEY, name TEXT, body BLOB);
CREATE INDEX t_name ON t(name);
BEGIN;
WITH RECURSIVE n(i) AS (SELECT 1 UNION ALL SELECT i + 1 FROM n WHERE i < 95000)
INSERT INTO t SELECT i, 'name ' || (i * 7919 % 1000003), randomblob(i * 31 % 1500 + 200) FROM n;
COMMIT;
"""
SCAN = KEY + "SELECT count(*), max(substr(body, -1)), max(name) FROM t;\n"
RUNS = 7
HELD = 100_000

def seconds(command, text=""):
    start = time.perf_counter()
    out = subprocess.run(command, input=text.encode(), capture_output=True, check=True).stdout
    return time.perf_counter() - start, out

for version, product in products.items():
    if not shutil.which(product):
        print(f"version {version}: left out, since {product} is missing")
        continue
    path = os.path.join(folder, f"big{version}.db")
    seconds([product, "-batch", path], MAKE)
    size = 1024 if version == "3" else 4096
    pages = os.path.getsize(path) // size
    jobs = {
        "scan": (["crates/bench_loops/out/bench_loops", "pager", path, version, "scan", "1"], "", str(pages)),
        "held": (["crates/bench_loops/out/bench_loops", "pager", path, version, "held", str(HELD)], "", str(64 * HELD)),
        "none": (["crates/bench_loops/out/bench_loops", "pager", path, version, "held", "0"], "", "0"),
        "product": ([product, "-batch", path], SCAN, None),
    }
    # The runs of one job lie apart, so that a busy moment spoils one of them at most.
    best = {}
    for _ in range(RUNS):
        for job, (command, text, wanted) in jobs.items():
            spent, out = seconds(command, text)
            if wanted is not None and out.strip() != wanted.encode():
                sys.exit(f"pager.sh: {job} of version {version} printed {out!r}, not {wanted}")
            best[job] = min(best.get(job, spent), spent)
    mib = os.path.getsize(path) / 2**20
    print(f"version {version}, {mib:.0f} MiB, {pages:,} pages of {size} bytes")
    print(f"  read and opened   {pages / best['scan']:12,.0f} pages/s  {best['scan']:6.2f} s")
    print(f"  held              {64 * HELD / (best['held'] - best['none']):12,.0f} pages/s")
    print(f"  product's scan    {pages / best['product']:12,.0f} pages/s  {best['product']:6.2f} s   the pager takes {best['scan'] / best['product']:.2f} of it")
PYTHON
