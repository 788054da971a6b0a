#!/usr/bin/env bash
# Times `rekey` on files of about 113 MiB of versions 3 and 4, the latter also with pages of 1,024 and 65,536 bytes, beside `PRAGMA rekey`
# of the product that made them, in one run; beside
# these the same file's `verify`, which opens each page once, and its `tags`, which only hashes. Each run has a fresh copy of the file.
# Times are of the processor and by the clock, since a rekey also waits for the disk. Last a file of 1 GiB of version 3 is rekeyed within
# LIMIT bytes of address space; LARGE=0 leaves it out.
# Needs python3 and the product `sqlcipher`; version 4 is left out where its product is not there: SQLCIPHER4, `sqlcipher4` or
# out/product/sqlcipher4.
set -eu
cd "$(dirname "$0")/.."
command -v python3 > /dev/null || { echo "rekey.sh: python3 is missing" >&2; exit 1; }
command -v sqlcipher > /dev/null || { echo "rekey.sh: the product sqlcipher is missing" >&2; exit 1; }
tools/build.sh
exec python3 - <<'PYTHON'
import os, resource, shutil, subprocess, tempfile, time

RUNS = 5
ROWS = 95_000
LARGE_ROWS = 855_000
LIMIT = 6 * 2 ** 20
OLD = "x''000102030405060708090a0b0c0d0e0f101112131415161718191a1b1c1d1e1f''"
NEW = "x''ffffffffffffffffffffffffffffffffffffffffffffffffffffffffffffffff''"
LINE = (OLD.replace("''", "'") + "\n").encode()
LINES = LINE + (NEW.replace("''", "'") + "\n").encode()
TOOL = "out/sqlcipher-tool"

# Processor time and time by the clock of a command, in seconds.
def once(command, line, limit=None):
    def used():
        usage = resource.getrusage(resource.RUSAGE_CHILDREN)
        return usage.ru_utime + usage.ru_stime
    before, start = used(), time.perf_counter()
    within = limit and (lambda: resource.setrlimit(resource.RLIMIT_AS, (limit, limit)))
    subprocess.run(command, input=line, stdout=subprocess.DEVNULL, check=True, preexec_fn=within)
    return used() - before, time.perf_counter() - start

def sized(version):
    """The statement that gives version 4 another page size."""
    return f"PRAGMA cipher_page_size = {version[2:]};\n" if ":" in version else ""

def make(product, path, rows, size=""):
    statements = MAKE.replace("ROWS", str(rows)).replace("SIZE\n", size)
    subprocess.run([product, "-batch", path], input=statements.encode(), check=True, stdout=subprocess.DEVNULL)

MAKE = f"""PRAGMA key = '{OLD}';
SIZE
PRAGMA journal_mode = OFF;
PRAGMA synchronous = OFF;
PRAGMA cache_size = -200000;
CREATE TABLE t(id INTEGER PRIMARY KEY, name TEXT, body BLOB);
CREATE INDEX t_name ON t(name);
BEGIN;
WITH RECURSIVE n(i) AS (SELECT 1 UNION ALL SELECT i + 1 FROM n WHERE i < ROWS)
INSERT INTO t SELECT i, 'name ' || (i * 7919 % 1000003), randomblob(i * 31 % 1500 + 200) FROM n;
COMMIT;
"""
REKEY = f"PRAGMA key = '{OLD}';\nSIZE\nPRAGMA rekey = '{NEW}';\n"
COUNT = f"PRAGMA key = '{NEW}';\nSIZE\nSELECT count(*) FROM t;\n"

def product_of(version):
    if version == "3":
        return "sqlcipher"
    return os.environ.get("SQLCIPHER4") or shutil.which("sqlcipher4") or (
        "out/product/sqlcipher4" if os.path.exists("out/product/sqlcipher4") else None)

with tempfile.TemporaryDirectory() as folder:
    for version in ("3", "4", "4:1024", "4:65536"):
        product = product_of(version)
        if product is None:
            print(f"version {version} is left out: its product is not there")
            continue
        path, copy = os.path.join(folder, f"{version}.db"), os.path.join(folder, "copy.db")
        make(product, path, ROWS, sized(version))
        size = os.path.getsize(path) / 2 ** 20
        best = {}
        # One after another in each round, so that a busy moment of the machine does not fall on one alone.
        for _ in range(RUNS):
            for name, command, line in (
                ("rekey", [TOOL, copy, "rekey", version, version], LINES),
                ("PRAGMA rekey", [product, "-batch", copy], REKEY.replace("SIZE\n", sized(version)).encode()),
                ("verify", [TOOL, path, "verify", version], LINE),
                ("tags", [TOOL, path, "tags", version], LINE),
            ):
                shutil.copyfile(path, copy)
                found = once(command, line)
                best[name] = tuple(map(min, best.get(name, found), found))
                if "rekey" in name:
                    said = subprocess.run([product, "-batch", copy], input=COUNT.replace("SIZE\n", sized(version)).encode(), check=True, capture_output=True).stdout
                    assert said.split()[-1] == str(ROWS).encode(), said
        ours, peer = best["rekey"], best["PRAGMA rekey"]
        print(f"version {version}, {size:.0f} MiB: rekey {ours[0]:.3f} s of the processor and {ours[1]:.3f} s by the clock, "
              f"PRAGMA rekey {peer[0]:.3f} s and {peer[1]:.3f} s, ratios {ours[0] / peer[0]:.2f} and {ours[1] / peer[1]:.2f}")
        print(f"  verify {best['verify'][0]:.3f} s, tags {best['tags'][0]:.3f} s of the processor")
        os.remove(path)
        os.remove(copy)
    if os.environ.get("LARGE") != "0":
        path = os.path.join(folder, "large.db")
        make(product_of("3"), path, LARGE_ROWS)
        size = os.path.getsize(path) / 2 ** 20
        used, spent = once([TOOL, path, "rekey", "3", "3"], LINES, LIMIT)
        print(f"version 3, {size:.0f} MiB: rekey {used:.1f} s of the processor and {spent:.1f} s by the clock, within {LIMIT // 2 ** 20} MiB of address space")
PYTHON
