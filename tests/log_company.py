#!/usr/bin/env python3
"""Another program comes in between while a file in WAL mode is read with its log: a run is stopped behind a read, and goes on when that has acted.

    tests/log_company.py [STRIDE [SEED]]

The other program commits, or commits and closes, which lays the log and removes it; it begins the log anew, or cuts it, removes it, or puts another in its
place. Each is tried at every STRIDE-th read (20 where it is not given), with SQLite's lock held by the launcher and without it. A report has to be
that of before or that of afterwards, or to end with status 4; what the other program committed is there. PROGRAM names another program.
"""
import contextlib
import io
import os
import shutil
import subprocess
import sys
import tempfile

import company
from company import OLD, RANDOM, Run, calls_of, count, counts, given, product, run, shows_locks

STRIDE = int(sys.argv[1]) if len(sys.argv) > 1 else 20
REPORTS = (["export", "3:wal"], ["find", "3:wal", "t", "1", "40"], ["verify", "3:wal"], ["salvage", "3:wal"])
WAL = "PRAGMA journal_mode = WAL; PRAGMA wal_autocheckpoint = 0; "
CHANGE = "BEGIN; UPDATE t SET b = 'later'; DELETE FROM t WHERE id > 30; COMMIT; "
DIES = "\n.system kill -9 $PPID\n"
wrong = []


def say(*what):
    wrong.append(what)
    print("log company:", *what, flush=True)


def put_pair(box, base):
    """FILE and its log, and nothing else beside them."""
    for end in ("", "-journal", "-migrated", "-wal", "-shm"):
        if os.path.lexists(os.path.join(box, "f.db" + end)):
            os.remove(os.path.join(box, "f.db" + end))
    for end in ("", "-wal"):
        shutil.copy(base + end, os.path.join(box, "f.db" + end))


def commits(path, _base):
    product(path, OLD, WAL + CHANGE + DIES)


def closes(path, _base):
    product(path, OLD, WAL + CHANGE)


def begins_anew(path, _base):
    product(path, OLD, WAL + "PRAGMA wal_checkpoint(RESTART); " + CHANGE + DIES)


def cuts(path, _base):
    os.truncate(path + "-wal", os.path.getsize(path + "-wal") // 2)


def removes(path, _base):
    os.remove(path + "-wal")


def replaces(path, base):
    shutil.copy(base + "-wal.older", path + "-new")
    os.rename(path + "-new", path + "-wal")


def writes_over(path, base):
    """The older log is written over this one, in its file."""
    with open(base + "-wal.older", "rb") as older, open(path + "-wal", "r+b") as log:
        log.write(older.read())
        log.truncate()


ACTS = (commits, closes, begins_anew, cuts, removes, replaces, writes_over)
BY_THE_PRODUCT = (commits, closes, begins_anew)
# What is said of files that another program has changed.
SAID = ("another program wrote to the file", "the file was replaced", "the file was cut while it was read")


def left_of(path):
    return [os.path.exists(path + end) for end in ("-wal", "-journal", "-migrated")]


def tried(box, base, words):
    """One report, each act behind some of its reads."""
    path = os.path.join(box, "f.db")
    put_pair(box, base)
    states = {None: run(False, path, words, given(OLD))[1]}
    for act in ACTS:
        put_pair(box, base)
        act(path, base)
        states[act] = run(False, path, words, given(OLD))[1]
    for is_held in (True, False):
        reads = [call for call in calls_of(box, is_held, base, words, given(OLD)) if call[0] == "pread64" and f"<{path}" in call[2]]
        for act in ACTS:
            for call in reads[RANDOM.randrange(min(STRIDE, len(reads)))::STRIDE]:
                within(box, base, words, is_held, call, act, (states[None], states[act]))


def within(box, base, words, is_held, call, act, states):
    """The act within a run, behind this read."""
    path, kind = os.path.join(box, "f.db"), f"{act.__name__}, {'held' if is_held else 'not held'}"
    put_pair(box, base)
    stopped = Run(box, is_held, path, words, given(OLD), call[0], call[1])
    if stopped.stopped is None:
        stopped.go_on()
        count("not stopped")
        return
    act(path, base)
    there = left_of(path)
    status, out, errors = stopped.go_on()
    count(kind)
    count(f"ended with {status}")
    if status == 4:
        if not any(each in errors for each in SAID):
            say(kind, words[0], call, "status 4:", errors)
        if out.endswith("end\n") or "found:" in out or out.startswith("ok:"):
            say(kind, words[0], call, "status 4 with a last line")
    elif status or out not in states:
        say(kind, words[0], call, "status", status, errors, out[-80:])
    if left_of(path) != there:
        say(kind, words[0], call, "a file appeared or is gone")
    said = product(path, OLD, "SELECT count(*) FROM t; PRAGMA integrity_check;") if act in BY_THE_PRODUCT else "30 ok"
    if said.split() != ["30", "ok"]:
        say("LOST", kind, words[0], call, said)


def idle(box, base):
    """An app that has the file open and does nothing: with the lock it is read beside it, without it the app is named."""
    path = os.path.join(box, "f.db")
    put_pair(box, base)
    app = subprocess.Popen(["sqlcipher", "-batch", path], stdin=subprocess.PIPE, stdout=subprocess.PIPE, stderr=subprocess.STDOUT, text=True)
    app.stdin.write(f'PRAGMA key = "{OLD}";\n{WAL}{CHANGE}SELECT count(*) FROM t;\n.print begun\n')
    app.stdin.flush()
    while "begun" not in app.stdout.readline():
        pass
    for words in REPORTS:
        status, out, errors = run(True, path, words, given(OLD))
        count("beside an idle app, held")
        if status or "later" not in out and words[0] not in ("verify",):
            say("idle, held:", words, status, errors, out[-80:])
        status, out, errors = run(False, path, words, given(OLD))
        count("beside an idle app, not held")
        if status != 4 or out or f"another program has the file open (process {app.pid})" not in errors:
            say("idle, not held:", words, status, errors, out[-80:])
    app.stdin.write("INSERT INTO app VALUES(2);\n")
    app.stdin.close()
    app.wait()
    if product(path, OLD, "SELECT count(*) FROM app;").split() != ["1"]:
        say("idle: LOST: the app's row is not there")


def found_wrong(box, base):
    """A program that ends with 0 where it has to end with 4 is found wrong."""
    known, counted, path = len(wrong), dict(counts), os.path.join(box, "blind")
    with open(path, "w") as script:
        script.write(f'#!/bin/sh\n"{company.PROGRAM}" "$@"\nexit 0\n')
    os.chmod(path, 0o755)
    program, company.PROGRAM = company.PROGRAM, path
    put_pair(box, base)
    reads = [call for call in calls_of(box, False, base, REPORTS[0], given(OLD)) if call[0] == "pread64" and "f.db" in call[2]]
    put_pair(box, base)
    states = [run(False, os.path.join(box, "f.db"), REPORTS[0], given(OLD))[1]] * 2
    with contextlib.redirect_stdout(io.StringIO()):
        within(box, base, REPORTS[0], False, reads[len(reads) // 2], commits, states)
    company.PROGRAM = program
    is_found = len(wrong) > known
    del wrong[known:]
    counts.clear()
    counts.update(counted)
    if not is_found:
        say("a program that ends with 0 each time is not found wrong")


def main():
    for name in ("sqlcipher", "strace", "perl"):
        if not shutil.which(name):
            print(f"left out: all of it, since {name} is missing")
            return 77
    box = tempfile.mkdtemp()
    try:
        if not shows_locks(os.path.join(box, "locked")):
            print("left out: all of it, since /proc/locks has nothing")
            return 77
        base, first = os.path.join(box, "base.db"), os.path.join(box, "first.db")
        product(first, OLD, WAL + "CREATE TABLE t(id INTEGER PRIMARY KEY, b BLOB); CREATE TABLE app(x); "
                "WITH RECURSIVE n(i) AS (SELECT 1 UNION ALL SELECT i + 1 FROM n WHERE i < 40) INSERT INTO t SELECT i, randomblob(300) FROM n; "
                "PRAGMA wal_checkpoint(TRUNCATE); UPDATE t SET b = 'older' WHERE id < 20;"
                f"\n.system cp {first}-wal {base}-wal.older\nUPDATE t SET b = 'newer ' || id; UPDATE t SET b = randomblob(299) WHERE id % 2 = 0;"
                f"\n.system cp {first} {base}; cp {first}-wal {base}-wal{DIES}")
        put_pair(box, base)
        if run(False, os.path.join(box, "f.db"), ["find", "3:wal", "t", "1", "1"], given(OLD))[1] != "row 1 null 'newer 1'\nfound: 1 rows\n":
            say("the pair is not read")
        company.put = put_pair     # `calls_of` lays them too
        for words in REPORTS:
            tried(box, base, words)
        idle(box, base)
        if not counts.get("ended with 4"):
            say("no report ended with 4")
        found_wrong(box, base)
    finally:
        shutil.rmtree(box)
    for what in sorted(counts):
        print(f"log company: {what}: {counts[what]}")
    trials = sum(number for what, number in counts.items() if not what.startswith(("ended", "not stopped")))
    print(f"log company: {trials} trials, {len(wrong)} wrong")
    return 1 if wrong else 0


if __name__ == "__main__":
    sys.exit(main())
