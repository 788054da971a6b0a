#!/usr/bin/env bash
# Times `play` beside the product on files of versions 3 and 4 whose rows lie on pages of their own, under a raw key: 1,000 commits of one page
# beside 1,000 transactions of one row with `synchronous = FULL`, of one connection; 20,000 changed pages in one commit beside one UPDATE of as
# many rows; and the reading of 100,000 pages at random, in one share, beside as many SELECTs of one row in one transaction. What is answered
# is compared first. Times are the best of several runs, one after another in turn, of the processor and by the clock; a script has at most
# 100,000 lines, and so has two reads less. Needs python3 with `cryptography` and the product `sqlcipher`; version 4 is left out where its
# product is not there: SQLCIPHER4, `sqlcipher4` or out/product/sqlcipher4. PROGRAM names another program, PAGES and RUNS other numbers.
set -eu
cd "$(dirname "$0")/.."
command -v python3 > /dev/null || { echo "play.sh: python3 is missing" >&2; exit 1; }
python3 -c 'import cryptography' 2> /dev/null || { echo "play.sh: Python's cryptography is missing" >&2; exit 1; }
command -v sqlcipher > /dev/null || { echo "play.sh: the product sqlcipher is missing" >&2; exit 1; }
[ -n "${PROGRAM:-}" ] || tools/build.sh
export PYTHONDONTWRITEBYTECODE=1
exec python3 - <<'PYTHON'
import os, random, resource, shutil, subprocess, sys, tempfile, time

sys.path.insert(0, "tests/reference/oracle")
import sqlcipher_formats as formats

RUNS = int(os.environ.get("RUNS", "3"))
PAGES = int(os.environ.get("PAGES", "20000"))
COMMITS, READS = 1_000, 99_998
KEY = "x'000102030405060708090a0b0c0d0e0f101112131415161718191a1b1c1d1e1f'"
TOOL = os.environ.get("PROGRAM") or "out/sqlcipher-tool"
BODY = {"3": 700, "4": 3000}

def product_of(version):
    if version == "3":
        return "sqlcipher"
    return os.environ.get("SQLCIPHER4") or shutil.which("sqlcipher4") or (
        "out/product/sqlcipher4" if os.path.exists("out/product/sqlcipher4") else None)

def sql(lines):
    return "\n".join([f'PRAGMA key = "{KEY}";', "PRAGMA synchronous = FULL;", *lines, ""]).encode()

def make(product, path, version):
    subprocess.run([product, "-batch", path], check=True, capture_output=True, input=sql([
        "PRAGMA cache_size = -200000;", "CREATE TABLE t(id INTEGER PRIMARY KEY, tag INTEGER, body BLOB);", "BEGIN;",
        f"WITH RECURSIVE n(i) AS (SELECT 1 UNION ALL SELECT i + 1 FROM n WHERE i < {PAGES})",
        f"INSERT INTO t SELECT i, 100, randomblob({BODY[version]}) FROM n;", "COMMIT;"]))

def places(path, version):
    """Of each row the page and the place of its number."""
    main = formats.read_file(path)
    db = formats.Database(main, formats.Codec(formats.PROFILES[version], KEY.encode(), main[:16]))
    found = {}
    for n in range(2, db.count + 1):
        page = db.codec.open_page(n, db.stored(n))
        if page[0] == formats.TABLE_LEAF and formats.be(page, 3, 2) == 1:
            at = formats.be(page, 8, 2)
            cell = formats.read_cell(page, at, formats.TABLE_LEAF)
            found[cell.rowid] = n, page.index(cell.local, at) + cell.local[0]
    assert len(found) == PAGES, len(found)
    return found

def once(command, text):
    """(processor time, time by the clock) of a command, in seconds, and what it prints."""
    def used():
        usage = resource.getrusage(resource.RUSAGE_CHILDREN)
        return usage.ru_utime + usage.ru_stime
    before, start = used(), time.perf_counter()
    done = subprocess.run(command, input=text, capture_output=True)
    assert done.returncode == 0, (command, done.returncode, done.stdout[-200:], done.stderr[-200:])
    return (used() - before, time.perf_counter() - start), done.stdout

def numbers(text):
    """The numbers that were read, whatever stands around them."""
    return [int(line.split()[-1]) for line in text.decode().splitlines() if line.split()[-1:] and line.split()[-1].isdigit()]

with tempfile.TemporaryDirectory() as folder:
    for version in ("3", "4"):
        product = product_of(version)
        if product is None:
            print(f"version {version} is left out: its product is not there")
            continue
        made, path = os.path.join(folder, f"{version}.db"), os.path.join(folder, "file.db")
        make(product, made, version)
        at = places(made, version)
        drawn = random.Random(version)
        some = [drawn.randint(1, PAGES) for _ in range(COMMITS)]
        read = [drawn.randint(1, PAGES) for _ in range(READS)]
        opened = [f"open 0 {version} {KEY}"]
        # Each job: the lines of `play`, the product's statements, and what is said of it.
        jobs = {
            f"{COMMITS:,} commits of one page": (
                opened + [line for i in some for line in ("share 0", "reserve 0", f"change 0 {at[i][0]} {at[i][1]} {2 + i % 90}", "commit 0")],
                [f"UPDATE t SET tag = {2 + i % 90} WHERE id = {i};" for i in some]),
            f"{PAGES:,} changed pages in one commit": (
                opened + ["share 0", "reserve 0", *(f"change 0 {n} {place} 7" for n, place in at.values()), "commit 0"],
                ["UPDATE t SET tag = 7;"]),
            f"{READS:,} pages read": (
                opened + ["share 0", *(f"read 0 {at[i][0]} {at[i][1]}" for i in read)],
                ["BEGIN;", *(f"SELECT tag FROM t WHERE id = {i};" for i in read), "COMMIT;"]),
        }
        print(f"version {version}, {os.path.getsize(made) / 2 ** 20:.0f} MiB, {PAGES:,} rows on pages of their own")
        for job, (lines, statements) in jobs.items():
            commands = {"play": ([TOOL, path, "play", version], ("\n".join(lines) + "\n").encode()),
                        "product": ([product, "-batch", path], sql(statements))}
            best, left = {}, {}
            for _ in range(RUNS):
                for name, (command, text) in commands.items():
                    shutil.copyfile(made, path)
                    os.sync()
                    spent, said = once(command, text)
                    best[name] = tuple(map(min, best.get(name, spent), spent))
                    rows = once([product, "-batch", path], sql(["SELECT tag FROM t ORDER BY id;"]))[1]
                    left[name] = numbers(said) if "read" in job else None, numbers(rows)
                    if name == "play":
                        wrong = [line for line in said.decode().splitlines() if line != "done" and not line.startswith("byte ")]
                        assert not wrong and said.count(b"\n") == len(lines), (job, wrong[:3])
            assert left["play"] == left["product"], job
            ratio = [a / b for a, b in zip(best["play"], best["product"])]
            print(f"  {job}: {best['play'][0]:.2f} s of the processor and {best['play'][1]:.2f} s by the clock, the product "
                  f"{best['product'][0]:.2f} and {best['product'][1]:.2f} s, ratio {ratio[0]:.2f} and {ratio[1]:.2f}")
PYTHON
