#!/usr/bin/env bash
# Times `migrate plain:4096 plain:4096` of a plain file of about 113 MiB beside SQLite's `VACUUM INTO` of it, and `verify plain:4096` beside
# `PRAGMA integrity_check`, in one run, by the processor and by the clock, the best of RUNS (3) each. There is no cipher in either, so this
# shows the pager, the walk and the loader alone. `migrate` checks the whole first, syncs the new file and puts it in the old one's place;
# `VACUUM INTO` does none of these. Each migrate has a fresh copy of the file; SQLite reads the new file afterwards.
# Needs python3 and sqlite3 (SQLite's shell). PROGRAM names another program, ROWS another number of rows (95,000).
set -eu
cd "$(dirname "$0")/.."
command -v python3 > /dev/null || { echo "plain.sh: python3 is missing" >&2; exit 1; }
command -v sqlite3 > /dev/null || { echo "plain.sh: sqlite3 is missing" >&2; exit 1; }
[ -n "${PROGRAM:-}" ] || tools/build.sh
exec python3 - <<'PYTHON'
import os, resource, shutil, subprocess, tempfile, time

RUNS = int(os.environ.get("RUNS", "3"))
ROWS = int(os.environ.get("ROWS", "95000"))
TOOL = os.environ.get("PROGRAM", "out/sqlcipher-tool")
SQLITE = "sqlite3"
MAKE = f"""PRAGMA page_size = 4096;
PRAGMA journal_mode = OFF;
PRAGMA synchronous = OFF;
PRAGMA cache_size = -200000;
CREATE TABLE t(id INTEGER PRIMARY KEY, name TEXT, body BLOB);
CREATE INDEX t_name ON t(name);
BEGIN;
WITH RECURSIVE n(i) AS (SELECT 1 UNION ALL SELECT i + 1 FROM n WHERE i < {ROWS})
INSERT INTO t SELECT i, 'name ' || (i * 7919 % 1000003), randomblob(i * 31 % 1500 + 200) FROM n;
COMMIT;
"""

# Processor time and time by the clock of a command, in seconds.
def once(command):
    def used():
        usage = resource.getrusage(resource.RUSAGE_CHILDREN)
        return usage.ru_utime + usage.ru_stime
    before, start = used(), time.perf_counter()
    subprocess.run(command, stdin=subprocess.DEVNULL, stdout=subprocess.DEVNULL, check=True)
    return used() - before, time.perf_counter() - start

def asked(path, statement):
    return subprocess.run([SQLITE, "-batch", path, statement], check=True, capture_output=True, text=True).stdout.strip()

with tempfile.TemporaryDirectory() as folder:
    path, copy, new = (os.path.join(folder, name) for name in ("plain.db", "copy.db", "new.db"))
    subprocess.run([SQLITE, "-batch", path], input=MAKE.encode(), check=True, stdout=subprocess.DEVNULL)
    size = os.path.getsize(path) / 2 ** 20
    best, left = {}, {}
    # One after another in each round, so that a busy moment of the machine does not fall on one alone.
    for _ in range(RUNS):
        for name, command, made in (
            ("migrate plain:4096 plain:4096", [TOOL, copy, "migrate", "plain:4096", "plain:4096"], copy),
            ("VACUUM INTO", [SQLITE, "-batch", path, f"VACUUM INTO '{new}'"], new),
            ("verify plain:4096", [TOOL, path, "verify", "plain:4096"], None),
            ("PRAGMA integrity_check", [SQLITE, "-batch", path, "PRAGMA integrity_check"], None),
        ):
            shutil.copyfile(path, copy)
            if os.path.exists(new):
                os.remove(new)
            found = once(command)
            best[name] = tuple(map(min, best.get(name, found), found))
            if made:
                assert asked(made, "SELECT count(*) FROM t") == str(ROWS)
                left[name] = os.path.getsize(made) / 2 ** 20
    assert asked(copy, "PRAGMA integrity_check") == "ok"
    for ours, peer in (("migrate plain:4096 plain:4096", "VACUUM INTO"), ("verify plain:4096", "PRAGMA integrity_check")):
        here, there = best[ours], best[peer]
        print(f"{ours} on {size:.0f} MiB: {here[0]:.3f} s of the processor and {here[1]:.3f} s by the clock, "
              f"{peer} {there[0]:.3f} s and {there[1]:.3f} s, ratios {here[0] / there[0]:.2f} and {here[1] / there[1]:.2f}")
        if ours in left:
            print(f"  the new file: {left[ours]:.0f} MiB, of {peer} {left[peer]:.0f} MiB")
PYTHON
