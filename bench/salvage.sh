#!/usr/bin/env bash
# Times `salvage` to a file on files of about 113 MiB of versions 3 and 4 beside `export` of the same file, which reads it twice and checks
# the whole, and beside `.dump` by the product that made them; beside these `tags`, which only hashes. Then the same file with every
# twentieth page overwritten and page 1 destroyed, of which the other two print nothing. Times are of the processor, since others may be
# at work. The rows are compared with those of `export` first. Needs python3 and the product `sqlcipher`; version 4 is left out where its
# product is not there: SQLCIPHER4, `sqlcipher4` or out/product/sqlcipher4. PROGRAM names another program.
set -eu
cd "$(dirname "$0")/.."
command -v python3 > /dev/null || { echo "salvage.sh: python3 is missing" >&2; exit 1; }
command -v sqlcipher > /dev/null || { echo "salvage.sh: the product sqlcipher is missing" >&2; exit 1; }
[ -n "${PROGRAM:-}" ] || tools/build.sh
exec python3 - <<'PYTHON'
import os, resource, shutil, subprocess, tempfile

RUNS = int(os.environ.get("RUNS", "5"))
ROWS = int(os.environ.get("ROWS", "95000"))
KEY = "x''000102030405060708090a0b0c0d0e0f101112131415161718191a1b1c1d1e1f''"
LINE = (KEY.replace("''", "'") + "\n").encode()
TOOL = os.environ.get("PROGRAM") or "out/sqlcipher-tool"
PAGE = {3: 1024, 4: 4096}

# Processor time of a command, in seconds.
def once(command, line, path):
    def used():
        usage = resource.getrusage(resource.RUSAGE_CHILDREN)
        return usage.ru_utime + usage.ru_stime
    before = used()
    with open(path, "wb") as out:
        subprocess.run(command, input=line, stdout=out, stderr=subprocess.DEVNULL, check=True)
    return used() - before

MAKE = f"""PRAGMA key = '{KEY}';
PRAGMA cache_size = -200000;
CREATE TABLE t(id INTEGER PRIMARY KEY, name TEXT, body BLOB);
CREATE INDEX t_name ON t(name);
BEGIN;
WITH RECURSIVE n(i) AS (SELECT 1 UNION ALL SELECT i + 1 FROM n WHERE i < {ROWS})
INSERT INTO t SELECT i, 'name ' || (i * 7919 % 1000003), randomblob(i * 31 % 1500 + 200) FROM n;
COMMIT;
"""
DUMP = f"PRAGMA key = '{KEY}';\n.dump\n"

def product_of(version):
    if version == 3:
        return "sqlcipher"
    return os.environ.get("SQLCIPHER4") or shutil.which("sqlcipher4") or (
        "out/product/sqlcipher4" if os.path.exists("out/product/sqlcipher4") else None)

def rows_of(path, skipped):
    """The rows of a text, by their rowids; `skipped` words stand between `row` and the rowid."""
    with open(path, "rb") as lines:
        split = (line.split(b" ", 1 + skipped) for line in lines if line.startswith(b"row "))
        return sorted(words[-1] for words in split if not skipped or words[1] != b"1")

def damage(path, size):
    """Page 1 but for its salt, and each twentieth page: how many of these there are."""
    with open(path, "r+b") as file:
        pages = os.path.getsize(path) // size
        for n in [1] + list(range(20, pages + 1, 20)):
            file.seek((n - 1) * size + 16)
            file.write(os.urandom(size - 16))
    return 1 + pages // 20

with tempfile.TemporaryDirectory() as folder:
    text, said = os.path.join(folder, "text"), os.path.join(folder, "said")
    for version in (3, 4):
        product = product_of(version)
        if product is None:
            print(f"version {version} is left out: its product is not there")
            continue
        path = os.path.join(folder, f"{version}.db")
        subprocess.run([product, "-batch", path], input=MAKE.encode(), check=True, stdout=subprocess.DEVNULL)
        size = os.path.getsize(path) / 2 ** 20
        def salvage(): return [TOOL, path, "salvage", str(version)]
        once(salvage(), LINE, text)
        once([TOOL, path, "export", str(version)], LINE, said)
        assert rows_of(text, 1) == rows_of(said, 0), "other rows than those of export"
        best = {}
        # One after another in each round, so that a busy moment of the machine does not fall on one alone.
        for _ in range(RUNS):
            for name, command, line, out in (
                ("salvage", salvage(), LINE, text),
                ("export", [TOOL, path, "export", str(version)], LINE, said),
                (".dump", [product, "-batch", path], DUMP.encode(), said),
                ("tags", [TOOL, path, "tags", str(version)], LINE, os.devnull),
            ):
                spent = once(command, line, out)
                best[name] = min(best.get(name, spent), spent)
        written = os.path.getsize(text) / 2 ** 20
        print(f"version {version}, {size:.0f} MiB, text of {written:.0f} MiB: salvage {best['salvage']:.3f} s, export {best['export']:.3f} s, "
              f"ratio {best['salvage'] / best['export']:.2f}")
        print(f"  .dump {best['.dump']:.3f} s, ratio {best['salvage'] / best['.dump']:.2f}; tags {best['tags']:.3f} s")
        refused = damage(path, PAGE[version])
        spent = min(once(salvage(), LINE, text) for _ in range(RUNS))
        with open(text, "rb") as lines:
            last = lines.readlines()[-1].decode().strip()
        assert last.endswith(f"{refused} refused pages"), last
        print(f"  with page 1 and each twentieth page overwritten {spent:.3f} s: {last}")
PYTHON
