#!/usr/bin/env bash
# Times `verify` on files of about 113 MiB of versions 3 and 4, the latter also with pages of 1,024 and 65,536 bytes, beside `PRAGMA
# integrity_check` of the product that made them, in one run; beside these the same file's `tags`, which only hashes, and the keys alone,
# so that the shares of hashing, and of deciphering and walking, can be told. Needs python3 and the product `sqlcipher`; version 4 is left
# out where its product is not there: SQLCIPHER4, `sqlcipher4` or out/product/sqlcipher4. Last a file of 1 GiB of version 3 is verified
# within LIMIT bytes of address space; LARGE=0 leaves it out.
set -eu
cd "$(dirname "$0")/.."
command -v python3 > /dev/null || { echo "verify.sh: python3 is missing" >&2; exit 1; }
command -v sqlcipher > /dev/null || { echo "verify.sh: the product sqlcipher is missing" >&2; exit 1; }
tools/build.sh
exec python3 - <<'PYTHON'
import os, resource, shutil, subprocess, tempfile, time

RUNS = 5
ROWS = 95_000
LARGE_ROWS = 855_000
LIMIT = 6 * 2 ** 20
KEY = "x''000102030405060708090a0b0c0d0e0f101112131415161718191a1b1c1d1e1f''"
LINE = (KEY.replace("''", "'") + "\n").encode()
TOOL = "out/sqlcipher-tool"

def least(command, line):
    best = None
    for _ in range(RUNS):
        start = time.perf_counter()
        done = subprocess.run(command, input=line, capture_output=True, check=True)
        spent = time.perf_counter() - start
        best = spent if best is None else min(best, spent)
    return best, done.stdout.decode()

def within(limit, command, line):
    """What a run prints within so many bytes of address space."""
    limited = subprocess.run(command, input=line, capture_output=True, check=True,
                             preexec_fn=lambda: resource.setrlimit(resource.RLIMIT_AS, (limit, limit)))
    return limited.stdout.decode()

def sized(version):
    """The statement that gives version 4 another page size."""
    return f"PRAGMA cipher_page_size = {version[2:]};\n" if ":" in version else ""

def make(product, path, rows, size=""):
    statements = MAKE.replace("ROWS", str(rows)).replace("SIZE\n", size)
    subprocess.run([product, "-batch", path], input=statements.encode(), check=True, stdout=subprocess.DEVNULL)

MAKE = f"""PRAGMA key = '{KEY}';
SIZE
PRAGMA journal_mode = OFF;
PRAGMA synchronous = OFF;
PRAGMA cache_size = -200000;
CREATE TABLE t(id INTEGER PRIMARY KEY, name TEXT, body BLOB);
CREATE INDEX t_name ON t(name);
BEGIN;
WITH RECURSIVE n(i) AS (SELECT 1 UNION ALL SELECT i + 1 FROM n WHERE i < ROWS)
INSERT INTO t SELECT i, 'name ' || (i * 7919 % 1000003), randomblob(i * 31 % 1500 + 200) FROM n;
COMMIT;
"""
CHECK = f"PRAGMA key = '{KEY}';\nSIZE\nPRAGMA integrity_check;\n"

def product_of(version):
    if version == "3":
        return "sqlcipher"
    return os.environ.get("SQLCIPHER4") or shutil.which("sqlcipher4") or (
        "out/product/sqlcipher4" if os.path.exists("out/product/sqlcipher4") else None)

with tempfile.TemporaryDirectory() as folder:
    for version in ("3", "4", "4:1024", "4:65536"):
        product = product_of(version)
        if product is None:
            print(f"version {version} is left out: its product is not there")
            continue
        path = os.path.join(folder, f"{version}.db")
        make(product, path, ROWS, sized(version))
        size = os.path.getsize(path) / 2 ** 20
        peer, said = least([product, "-batch", path], CHECK.replace("SIZE\n", sized(version)).encode())
        assert said.split()[-1] == "ok", said
        verify, said = least([TOOL, path, "verify", version], LINE)
        tags, _ = least([TOOL, path, "tags", version], LINE)
        keys, _ = least([TOOL, path, "header", version], LINE)
        print(said.strip())
        print(f"version {version}, {size:.0f} MiB: verify {verify:.3f} s, PRAGMA integrity_check {peer:.3f} s, ratio {verify / peer:.2f}")
        print(f"  of it the keys and the start {keys:.3f} s, hashing {tags - keys:.3f} s, deciphering and walking {verify - tags:.3f} s")
    if os.environ.get("LARGE") != "0":
        path = os.path.join(folder, "large.db")
        make("sqlcipher", path, LARGE_ROWS)
        size = os.path.getsize(path) / 2 ** 20
        start = time.perf_counter()
        said = within(LIMIT, [TOOL, path, "verify", "3"], LINE)
        spent = time.perf_counter() - start
        print(said.strip())
        print(f"version 3, {size:.0f} MiB: verify {spent:.1f} s, within {LIMIT // 2 ** 20} MiB of address space")
PYTHON
