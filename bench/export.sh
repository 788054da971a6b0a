#!/usr/bin/env bash
# Times `export` to a file on files of about 113 MiB of versions 3 and 4 beside `.dump` to a file by the product that made them,
# in one run; beside these the same file's `verify`, which reads it once, and `tags`, which only hashes. `export` reads it twice,
# so what it takes beyond twice the time of `verify` is that of the text. Times are of the processor, since others may be at work.
# Needs python3 and the product `sqlcipher`; version 4 is left out where its product is not there: SQLCIPHER4, `sqlcipher4` or
# out/product/sqlcipher4.
set -eu
cd "$(dirname "$0")/.."
command -v python3 > /dev/null || { echo "export.sh: python3 is missing" >&2; exit 1; }
command -v sqlcipher > /dev/null || { echo "export.sh: the product sqlcipher is missing" >&2; exit 1; }
tools/build.sh
exec python3 - <<'PYTHON'
import os, resource, shutil, subprocess, tempfile

RUNS = 5
ROWS = 95_000
KEY = "x''000102030405060708090a0b0c0d0e0f101112131415161718191a1b1c1d1e1f''"
LINE = (KEY.replace("''", "'") + "\n").encode()
TOOL = "out/sqlcipher-tool"

# Processor time of a command, in seconds.
def once(command, line, path):
    def used():
        usage = resource.getrusage(resource.RUSAGE_CHILDREN)
        return usage.ru_utime + usage.ru_stime
    before = used()
    with open(path, "wb") as out:
        subprocess.run(command, input=line, stdout=out, check=True)
    return used() - before

MAKE = f"""PRAGMA key = '{KEY}';
PRAGMA cache_size = -200000;
CREATE TABLE t(id INTEGER PRIMARY KEY, name TEXT, body BLOB);
CREATE INDEX t_name ON t(name);
BEGIN;
WITH RECURSIVE n(i) AS (SELECT 1 UNION ALL SELECT i + 1 FROM n WHERE i < {ROWS})
INSERT INTO t SELECT i, 'name ' || (i * 7919 % 1000003), randomblob(i * 31 % 1500 + 200) FROM n;
COMMIT;
"""
DUMP = f"PRAGMA key = '{KEY}';\n.dump\n"

def product_of(version):
    if version == 3:
        return "sqlcipher"
    return os.environ.get("SQLCIPHER4") or shutil.which("sqlcipher4") or (
        "out/product/sqlcipher4" if os.path.exists("out/product/sqlcipher4") else None)

with tempfile.TemporaryDirectory() as folder:
    text, said = os.path.join(folder, "text"), os.path.join(folder, "said")
    for version in (3, 4):
        product = product_of(version)
        if product is None:
            print(f"version {version} is left out: its product is not there")
            continue
        path = os.path.join(folder, f"{version}.db")
        subprocess.run([product, "-batch", path], input=MAKE.encode(), check=True, stdout=subprocess.DEVNULL)
        size = os.path.getsize(path) / 2 ** 20
        best = {}
        # One after another in each round, so that a busy moment of the machine does not fall on one alone.
        for _ in range(RUNS):
            for name, command, line, out in (
                ("export", [TOOL, path, "export", str(version)], LINE, text),
                (".dump", [product, "-batch", path], DUMP.encode(), said),
                ("tags", [TOOL, path, "tags", str(version)], LINE, os.devnull),
                ("verify", [TOOL, path, "verify", str(version)], LINE, os.devnull),
            ):
                spent = once(command, line, out)
                best[name] = min(best.get(name, spent), spent)
        with open(text, "rb") as lines:
            rows = sum(line.startswith((b"row ", b"entry ")) for line in lines)
        assert rows == 2 * ROWS, rows
        written = os.path.getsize(text) / 2 ** 20
        print(f"version {version}, {size:.0f} MiB, text of {written:.0f} MiB: export {best['export']:.3f} s, .dump {best['.dump']:.3f} s, "
              f"ratio {best['export'] / best['.dump']:.2f}")
        print(f"  verify {best['verify']:.3f} s, tags {best['tags']:.3f} s")
PYTHON
