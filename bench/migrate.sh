#!/usr/bin/env bash
# Times `migrate` of files of about 113 MiB from version 3 to 3, from 4 to 4, from 3 to 4 and from 1 to 4, under a new key, beside
# `sqlcipher_export` of the product into an attached file, in one run; beside these the same file's `verify`, which opens each page once.
# The product of version 4 that is built here reads no older version, so beside 3 to 4 and 1 to 4 stands its export of the same rows from 4
# to 4. Each run has a fresh copy of the file. Times are of the processor and by the clock. Last a file of 1 GiB of version 3 is migrated within LIMIT bytes of
# address space; LARGE=0 leaves it out.
# Needs python3, the product `sqlcipher` and that of version 4: SQLCIPHER4, `sqlcipher4` or out/product/sqlcipher4.
set -eu
cd "$(dirname "$0")/.."
command -v python3 > /dev/null || { echo "migrate.sh: python3 is missing" >&2; exit 1; }
command -v sqlcipher > /dev/null || { echo "migrate.sh: the product sqlcipher is missing" >&2; exit 1; }
tools/build.sh
exec python3 - <<'PYTHON'
import os, resource, shutil, subprocess, sys, tempfile, time

RUNS = int(os.environ.get("RUNS", "5"))
ROWS = 95_000
LARGE_ROWS = 800_000
LIMIT = 6 * 2 ** 20
OLD = "x''000102030405060708090a0b0c0d0e0f101112131415161718191a1b1c1d1e1f''"
NEW = "x''ffffffffffffffffffffffffffffffffffffffffffffffffffffffffffffffff''"
LINE = (OLD.replace("''", "'") + "\n").encode()
LINES = LINE + (NEW.replace("''", "'") + "\n").encode()
TOOL = "out/sqlcipher-tool"
FOUR = os.environ.get("SQLCIPHER4") or shutil.which("sqlcipher4") or (
    "out/product/sqlcipher4" if os.path.exists("out/product/sqlcipher4") else None)
if FOUR is None:
    sys.exit("migrate.sh: the product of version 4 is missing")

OPENING = {1: "PRAGMA cipher_use_hmac = OFF;\nPRAGMA kdf_iter = 4000;\n", 3: "", 4: ""}
ROWS_SQL = """PRAGMA journal_mode = OFF;
PRAGMA synchronous = OFF;
PRAGMA cache_size = -200000;
CREATE TABLE t(id INTEGER PRIMARY KEY, name TEXT, body BLOB);
CREATE INDEX t_name ON t(name);
BEGIN;
WITH RECURSIVE n(i) AS (SELECT 1 UNION ALL SELECT i + 1 FROM n WHERE i < ROWS)
INSERT INTO t SELECT i, 'name ' || (i * 7919 % 1000003), randomblob(i * 31 % 1500 + 200) FROM n;
COMMIT;
"""

# Processor time and time by the clock of a command, in seconds.
def once(command, line, limit=None):
    def used():
        usage = resource.getrusage(resource.RUSAGE_CHILDREN)
        return usage.ru_utime + usage.ru_stime
    before, start = used(), time.perf_counter()
    within = limit and (lambda: resource.setrlimit(resource.RLIMIT_AS, (limit, limit)))
    subprocess.run(command, input=line, stdout=subprocess.DEVNULL, check=True, preexec_fn=within)
    return used() - before, time.perf_counter() - start

def make(version, path, rows):
    text = f"PRAGMA key = '{OLD}';\n" + OPENING[version] + ROWS_SQL.replace("ROWS", str(rows))
    subprocess.run([product(version), "-batch", path], input=text.encode(), check=True, stdout=subprocess.DEVNULL)

def exporting(path):
    return (f"PRAGMA key = '{OLD}';\nATTACH '{path}' AS new KEY '{NEW}';\nSELECT sqlcipher_export('new');\nDETACH new;\n").encode()

def product(version):
    return FOUR if version == 4 else "sqlcipher"

def counted(version, path):
    text = f"PRAGMA key = '{NEW}';\nSELECT count(*) FROM t;\n".encode()
    return subprocess.run([product(version), "-batch", path], input=text, check=True, capture_output=True).stdout.split()[-1]

with tempfile.TemporaryDirectory() as folder:
    copy, new = os.path.join(folder, "copy.db"), os.path.join(folder, "new.db")
    files = {version: os.path.join(folder, f"{version}.db") for version in (1, 3, 4)}
    for version, path in files.items():
        make(version, path, ROWS)
    for old, later in ((3, 3), (4, 4), (3, 4), (1, 4)):
        path = files[old]
        size = os.path.getsize(path) / 2 ** 20
        best = {}
        # One after another in each round, so that a busy moment of the machine does not fall on one alone.
        for _ in range(RUNS):
            for name, command, line, left in (
                ("migrate", [TOOL, copy, "migrate", str(old), str(later)], LINES, copy),
                ("export", [product(later), "-batch", files[later]], exporting(new), new),
                ("verify", [TOOL, path, "verify", str(old)], LINE, None),
            ):
                shutil.copyfile(path, copy)
                if os.path.exists(new):
                    os.remove(new)
                found = once(command, line)
                best[name] = tuple(map(min, best.get(name, found), found))
                if left:
                    assert counted(later, left) == str(ROWS).encode(), counted(later, left)
                    best[name + " size"] = os.path.getsize(left) / 2 ** 20
        ours, peer = best["migrate"], best["export"]
        print(f"version {old} to {later}, {size:.0f} MiB: migrate {ours[0]:.3f} s of the processor and {ours[1]:.3f} s by the clock, "
              f"sqlcipher_export {peer[0]:.3f} s and {peer[1]:.3f} s, ratios {ours[0] / peer[0]:.2f} and {ours[1] / peer[1]:.2f}")
        print(f"  the new file: {best['migrate size']:.0f} MiB, of sqlcipher_export {best['export size']:.0f} MiB; verify {best['verify'][0]:.3f} s of the processor")
    for path in files.values():
        os.remove(path)
    if os.environ.get("LARGE") != "0":
        path = os.path.join(folder, "large.db")
        make(3, path, LARGE_ROWS)
        size = os.path.getsize(path) / 2 ** 20
        used, spent = once([TOOL, path, "migrate", "3", "4"], LINES, LIMIT)
        print(f"version 3 to 4, {size:.0f} MiB: migrate {used:.1f} s of the processor and {spent:.1f} s by the clock, within {LIMIT // 2 ** 20} MiB of address space")
PYTHON
