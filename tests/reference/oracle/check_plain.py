#!/usr/bin/env python3
"""Plain files of SQLite: makes them, and compares what the program says of each with the reference and with SQLite.

    check_plain.py make FOLDER [SIZE..]       makes the files, NAME.db each with what lies beside it, and table.tsv; with pages of these sizes alone
    check_plain.py compare PROGRAM FOLDER     runs each command on a copy of each, and compares its status, its lines and the files that it leaves

The files are written by Python's `sqlite3` at each size of pages. A line of table.tsv is NAME, PROFILE and KIND, parted by tabs; of a file
that `export` serves KIND is `served`, else it is what `header` answers of it. Each wrong answer is a line of standard output; the last line
has the counts, and the status is 1 where one is wrong.
"""
import collections
import contextlib
import io
import os
import shutil
import sqlite3
import subprocess
import sys
import tempfile

import commands
import sqlcipher_oracle
from sqlcipher_formats import Database, Refused, be, open_codec, profile_of, read_file, recovered
from sqlcipher_oracle import blank_plain

SIZES = tuple(512 << i for i in range(8))
BESIDE = ("-journal", "-wal", "-shm", "-migrated")
ROWS = 120

# Payloads of every length around the places where they overflow, freed pages, an index of two columns, rows without rowids, negative rowids, a column
# that was added later, a name that would end a line, a view and a trigger.
CONTENT = """
CREATE TABLE items(id INTEGER PRIMARY KEY, name TEXT, data BLOB, size REAL);
CREATE INDEX items_name ON items(name, id DESC);
CREATE TABLE codes(code TEXT PRIMARY KEY, item) WITHOUT ROWID;
CREATE UNIQUE INDEX codes_item ON codes(item);
CREATE TABLE gone(data);
CREATE TABLE "two
lines"(v, w COLLATE NOCASE);
CREATE TABLE big(data);
CREATE VIEW names AS SELECT name FROM items;
CREATE TRIGGER counted AFTER DELETE ON items BEGIN DELETE FROM codes WHERE item = old.id; END;
WITH RECURSIVE n(i) AS (SELECT 1 UNION ALL SELECT i + 1 FROM n WHERE i < {rows})
INSERT INTO items SELECT i * 7 - 300, 'näme ' || (i * 7919 % 101), zeroblob(i * 37 % 1400), i / 3.0 FROM n;
INSERT INTO codes SELECT 'code-' || id, id FROM items WHERE id % 3 = 0;
INSERT INTO "two
lines" VALUES(NULL, 'a'), (9223372036854775807, x'00ff'), (-9223372036854775808, 0.5), (1, ''), (0, 'B');
INSERT INTO big VALUES(zeroblob({size} * 2)), (zeroblob({size})), (zeroblob(5000));
INSERT INTO gone SELECT zeroblob({size} / 2) FROM items LIMIT 12;
ALTER TABLE codes ADD COLUMN later DEFAULT 'x';
INSERT INTO codes VALUES('late', -1, NULL);
DELETE FROM items WHERE id % 5 = 0;
DROP TABLE gone;
PRAGMA user_version = 77;
PRAGMA application_id = -5;
"""

# Tables of modules, where this build of SQLite has them.
MODULES = (
    "CREATE VIRTUAL TABLE words USING fts5(body); INSERT INTO words SELECT name || ' and more' FROM items; DELETE FROM words WHERE rowid < 9;",
    "CREATE VIRTUAL TABLE notes USING fts4(body); INSERT INTO notes SELECT name FROM items;",
    "CREATE VIRTUAL TABLE boxes USING rtree(id, a, b); INSERT INTO boxes SELECT id, id, id + 2 FROM items;",
)

# Settings before the first table.
SETTINGS = {
    "delete": "", "le": "PRAGMA encoding = 'UTF-16le';", "be": "PRAGMA encoding = 'UTF-16be';", "persist": "PRAGMA journal_mode = PERSIST;",
    "truncate": "PRAGMA journal_mode = TRUNCATE;", "wal": "PRAGMA journal_mode = WAL;", "full": "PRAGMA auto_vacuum = FULL;",
    "incremental": "PRAGMA auto_vacuum = INCREMENTAL;",
}


# ------------------------------------------------------------------ files

def opened(path):
    return sqlite3.connect(path, isolation_level=None)


def fill(db, size, rows=ROWS):
    db.executescript("BEGIN;" + CONTENT.format(rows=rows, size=size) + "COMMIT;")
    for statements in MODULES:
        try:
            db.executescript(statements)
        except sqlite3.OperationalError as error:
            if "no such module" not in str(error):
                raise


def copy(path, to, beside):
    shutil.copy(path, to)
    for end in beside:
        shutil.copy(path + end, to + end)


def make_set(path, kind, size):
    """A file of one of the settings, closed."""
    db = opened(path)
    db.executescript(f"PRAGMA page_size = {size}; {SETTINGS[kind]}")
    fill(db, size)
    db.close()


def make_empty(path, size):
    """An empty database: a file of one page."""
    db = opened(path)
    db.executescript(f"PRAGMA page_size = {size}; CREATE TABLE t(a); DROP TABLE t; VACUUM;")
    db.close()


def make_reserved(path, size):
    """Twelve bytes of each page are reserved, as some builds of SQLite do; the blank page is made by hand, and SQLite keeps them."""
    with open(path, "wb") as out:
        out.write(blank_plain(size, 12))
    db = opened(path)
    fill(db, size)
    db.close()


def make_hot(path, size, change):
    """The files in the midst of a transaction, some changed pages of which were written."""
    first = path + ".first"
    make_set(first, "delete", size)
    db = opened(first)
    for statement in ("PRAGMA cache_size = 3", "PRAGMA cache_spill = 3", "BEGIN", *change.split(";")):
        db.execute(statement)
    copy(first, path, ("-journal",))
    db.execute("ROLLBACK")
    db.close()
    os.remove(first)


CHANGED = "UPDATE items SET data = zeroblob(length(data)), name = name || '+'; DELETE FROM big; UPDATE codes SET later = code || code;"
GROWN = "INSERT INTO big SELECT zeroblob({size} * 2) FROM items LIMIT 6; UPDATE items SET size = id;"


def make_live(path, size):
    """In WAL mode, with rows in the log alone."""
    first = path + ".first"
    make_set(first, "wal", size)
    db = opened(first)
    db.executescript("PRAGMA wal_autocheckpoint = 0; UPDATE items SET name = 'in the log';")
    copy(first, path, ("-wal", "-shm"))
    db.close()
    os.remove(first)


def make(folder, *sizes):
    table = []

    def add(name, size, kind="served"):
        table.append(f"{name}\tplain:{size}\t{kind}\n")
        return os.path.join(folder, name + ".db")

    for size in map(int, sizes or SIZES):
        for kind in ("delete", "le", "be", "persist", "truncate"):
            make_set(add(f"{kind}-{size}", size), kind, size)
        for kind in ("full", "incremental"):
            make_set(add(f"{kind}-{size}", size, "auto-vacuum"), kind, size)
        make_set(add(f"wal-{size}", size, "WAL mode"), "wal", size)
        make_live(add(f"live-{size}", size, "WAL mode"), size)
        make_reserved(add(f"reserved-{size}", size, "header fault at 20: 12"), size)
        make_empty(add(f"empty-{size}", size), size)
        make_hot(add(f"hot-{size}", size), size, CHANGED)
        make_hot(add(f"grown-{size}", size), size, GROWN.format(size=size))
    open(add("nothing", 4096, "file is empty"), "wb").close()
    with open(os.path.join(folder, "table.tsv"), "w") as out:
        out.writelines(table)


# ------------------------------------------------------------------ what is compared

def reference(path, words):
    """(status, text) of the reference; `recover` and `stamp` change the file."""
    out = io.StringIO()
    with contextlib.redirect_stdout(out):
        status = sqlcipher_oracle.main([path, *words])
    return status, out.getvalue()


def files_in(folder):
    return {name: read_file(os.path.join(folder, name)) for name in sorted(os.listdir(folder))}


class Check:
    def __init__(self, program, folder):
        self.program, self.folder, self.counts = program, folder, collections.Counter()

    def say(self, name, text):
        self.counts["wrong"] += 1
        print(f"{name}: {text}", flush=True)

    def lay(self, scratch, name, place):
        """A new folder with the file, and what lies beside it."""
        there = os.path.join(scratch, place)
        shutil.rmtree(there, ignore_errors=True)
        os.mkdir(there)
        for end in ("", *BESIDE):
            path = os.path.join(self.folder, name + ".db" + end)
            if os.path.exists(path):
                shutil.copy(path, os.path.join(there, "file" + end))
        return there

    def run(self, place, words):
        # Standard input is closed: a plain file takes no key line.
        done = subprocess.run(["sh", "-c", 'exec "$0" file "$@" <&-', self.program, *words], cwd=place, capture_output=True)
        return done.returncode, done.stdout.decode(errors="replace"), done.stderr.decode(errors="replace")

    def wanted(self, scratch, name, words):
        """(status, text, files) that the reference gives. Every command recovers first, but in its own way: the reference in memory."""
        place = self.lay(scratch, name, "reference")
        path = os.path.join(place, "file")
        status, text = reference(path, words)
        profile = profile_of(words[1])
        if words[0] not in ("recover", "stamp", "tags") and os.path.exists(path + "-journal") and read_file(path):
            with contextlib.suppress(Refused):
                main = recovered(path, profile.page_size)[1]
                with open(path, "wb") as out:
                    out.write(main)
                os.remove(path + "-journal")
        return status, text, files_in(place)

    def compare(self, scratch, name, words, is_log):
        place = self.lay(scratch, name, "program")
        before = files_in(place)
        status, text, errors = self.run(place, words)
        self.counts["runs"] += 1
        if is_log:      # newer pages stand in the log
            if (status, text) != (4, "") or "write-ahead log" not in errors or files_in(place) != before:
                self.say(name, f"{words}: {status}, {text!r:.200} beside a log")
            return
        wanted = self.wanted(scratch, name, words)
        if (status, text) != wanted[:2]:
            self.say(name, f"{words}: {status} and {text!r:.300}, and the reference has {wanted[0]} and {wanted[1]!r:.300}")
        if files_in(place) != wanted[2]:
            self.say(name, f"{words}: other files are left: {sorted(files_in(place))}")
        self.counts["refused" if status else "done"] += 1

    def beside_sqlite(self, scratch, name, word):
        """SQLite finds the file sound, and has as many rows in each table as the program finds. It plays the journal back itself."""
        own, place = self.lay(scratch, name, "sqlite"), self.lay(scratch, name, "program")
        db = opened(os.path.join(own, "file"))
        if db.execute("PRAGMA integrity_check").fetchall() != [("ok",)]:
            self.say(name, "SQLite does not find it sound")
        db.text_factory = bytes
        tables = [row[0] for row in db.execute("SELECT name FROM sqlite_schema WHERE type = 'table' AND rootpage > 0 ORDER BY rowid")]
        for table in tables:
            quoted = table.decode().replace('"', '""')
            try:
                count = db.execute(f'SELECT count(rowid) FROM "{quoted}"').fetchone()[0]
            except sqlite3.OperationalError:    # WITHOUT ROWID
                continue
            status, text, _ = self.run(place, ["find", word, table.decode(), str(-1 << 63), str((1 << 63) - 1)])
            if db.execute("PRAGMA encoding").fetchone()[0] != b"UTF-8":
                if (status, text) != (2, "no such table\n"):
                    self.say(name, f"find of {table!r} in UTF-16: {status}, {text!r:.200}")
            elif status or not text.endswith(f"\nfound: {count} rows\n") and text != f"found: {count} rows\n":
                self.say(name, f"find of {table!r}: {status}, {text[-100:]!r}, and SQLite has {count} rows")
            self.counts["tables"] += 1
        db.close()

    def check(self, scratch, name, word, kind):
        is_log = kind == "WAL mode" and name.startswith("live")
        for command in commands.COMMANDS:
            if command.words == command.name + " P" and command.kind not in ("settling", "script"):
                self.compare(scratch, name, [command.name, word], is_log and command.name != "tags")
        self.compare(scratch, name, ["stamp", word, "user-version", "4294967295"], is_log)
        self.compare(scratch, name, ["stamp", word, "application-id", "0"], is_log)
        for table, low, high in (("items", "-299", "5"), ("big", "2", "2"), ("none", "1", "1"), ("codes", "1", "1")):
            self.compare(scratch, name, ["find", word, table, low, high], is_log)
        for other in {f"plain:{SIZES[0]}", f"plain:{SIZES[-1]}"} - {word}:
            self.compare(scratch, name, ["header", other], is_log)
        if kind == "served":
            self.beside_sqlite(scratch, name, word)
        elif not is_log:
            status, text, _ = self.run(self.lay(scratch, name, "program"), ["header", word])
            if (status, text) != (2, kind + "\n"):
                self.say(name, f"header: {status}, {text!r}, and {kind} is wanted")


def check_journals(check):
    """Whether the files that are to be hot are: their journal plays, and without it the file is another one."""
    with open(os.path.join(check.folder, "table.tsv")) as table:
        for line in table:
            name, word, _ = line.rstrip("\n").split("\t")
            path = os.path.join(check.folder, name + ".db")
            if name.startswith(("hot", "grown")):
                answer, main = recovered(path, profile_of(word).page_size)
                if not answer.startswith("played: ") or main == read_file(path):
                    check.say(name, f"its journal has nothing to play back: {answer}")
            elif name.startswith(("persist", "truncate")) and recovered(path, profile_of(word).page_size)[0] != "cold":
                if not os.path.exists(path + "-journal"):
                    check.say(name, "no journal is left beside it")


def compare(program, folder):
    check = Check(program, folder)
    check_journals(check)
    with open(os.path.join(folder, "table.tsv")) as table, tempfile.TemporaryDirectory() as scratch:
        for line in table:
            name, word, kind = line.rstrip("\n").split("\t")
            check.check(scratch, name, word, kind)
            check.counts["files"] += 1
    counts = check.counts
    print(f"{counts['files']} files, {counts['runs']} runs beside the reference, {counts['done']} done and {counts['refused']} refused, "
          f"{counts['tables']} tables beside SQLite; {counts['wrong']} wrong")
    return 1 if counts["wrong"] else 0


if __name__ == "__main__":
    if sys.argv[1] == "make":
        make(*sys.argv[2:])
    else:
        sys.exit(compare(*sys.argv[2:]))
