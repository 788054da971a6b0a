#!/usr/bin/env python3
"""Files in WAL mode and their logs, made by the product: copied while it has them open, or left by a process that was killed.

    log_pairs.py make FOLDER [PROFILE..]    makes them, a folder NAME each, with `file`, `file-wal` and `file-shm`, and FOLDER/pairs.tsv
    log_pairs.py check FOLDER [PROGRAM]     looks at each pair and at what may become of it (`variants` of sqlcipher_log.py)

Of a pair, copied, the product makes one file when it opens and closes it: that has to be the model's, byte for byte, and not that of a model that goes
without one of its rules. Each command of PROGRAM that only reads, with `:wal`, has to print what the reference says of that file with its marks
cleared, and what the same command without the setting says of the product's file in `journal_mode = DELETE`; the rows of `export` have to be those
of the product's dump; and no file of the pair may change, nor one appear beside it.

The product is `sqlcipher`, for version 4 the one that SQLCIPHER4 names; where it names none its files are left out. In the environment PART=N/M takes
each M-th pair from the N-th on, EVERY=N each N-th pair, STRIDE=N each N-th variant, and HANGS stands for the 60 seconds that a run may take. Each wrong
answer is a line of standard output. The last line is tab-separated `name=count` words for tests/log_pairs.sh to add up.
"""
import collections
import hashlib
import io
import os
import shutil
import sqlite3
import subprocess
import sys
import tempfile

TOP = os.path.join(os.path.dirname(os.path.abspath(__file__)), "..", "..", "..")
sys.path[:0] = [os.path.join(TOP, "tools")]
import export_to_sql
from commands import COMMANDS
from sqlcipher_formats import (
    Codec, Database, Refused, export_lines, find_lines, header_text, profile_of, read_file, tag_lines, verify_lines, write_file)
from sqlcipher_indexes import agree_lines
from sqlcipher_log import RULES, opened, variants
from sqlcipher_salvage import salvage_lines

RAW = "x'000102030405060708090a0b0c0d0e0f101112131415161718191a1b1c1d1e1f'"
PLAIN_SIZES = [512 << i for i in range(8)]
PROFILES = ["1", "2", "3", "4", *(f"4:{size}" for size in (1024, 2048, 8192, 16384, 32768, 65536)), *(f"plain:{size}" for size in PLAIN_SIZES)]
AUTO_VACUUM = ["2", "3", "4", "4:1024", "plain:512", "plain:4096"]
# Of these ages each variant is looked at too.
VARIED = ("commits", "uncommitted", "restarted", "cut", "full")


def key_of(word):
    return "the log's key" if word == "2" else RAW


def product_of(word):
    return os.environ.get("SQLCIPHER4", "") if word[0] == "4" else "sqlcipher"


def opening(word):
    """The statements with which the product opens a file of this profile."""
    if word.startswith("plain"):
        return f"PRAGMA page_size = {word[6:]};\n"
    text = "PRAGMA key = '%s';\n" % key_of(word).replace("'", "''")
    if word in ("1", "2"):
        text += "PRAGMA kdf_iter = 4000;\n"
    if word == "1":
        text += "PRAGMA cipher_use_hmac = OFF;\n"
    return text + (f"PRAGMA cipher_page_size = {word[2:]};\n" if word.startswith("4:") else "")


def product(word, path, statements):
    """What the product prints of these statements on the file."""
    text = f".output /dev/null\n{opening(word)}.output stdout\n{statements}"
    done = subprocess.run([product_of(word), "-batch", path], input=text, capture_output=True, text=True, errors="replace", timeout=120)
    return done.stdout + done.stderr


# ------------------------------------------------------------------ making

def rows(count, first):
    return ("INSERT INTO items WITH RECURSIVE n(i) AS (SELECT {0} UNION ALL SELECT i + 1 FROM n WHERE i < {0} + {1} - 1) "
            "SELECT i, 'item ' || (i * 7919 % 1000), zeroblob(i * 37 % 900) FROM n;\n").format(first, count)


TABLES = ("CREATE TABLE items(id INTEGER PRIMARY KEY, name TEXT, value);\nCREATE INDEX items_name ON items(name);\n"
          "CREATE TABLE codes(code TEXT PRIMARY KEY, item) WITHOUT ROWID;\n")
SETTINGS = "PRAGMA journal_mode = WAL; PRAGMA wal_autocheckpoint = 0; PRAGMA synchronous = OFF;\n"
CODES = "INSERT OR REPLACE INTO codes SELECT name || id, id FROM items WHERE id % 3 = 0;\n"
# (age, statements, what is special); a copy is made behind each.
AGES = (
    ("first", SETTINGS + TABLES + rows(20, 1), "several commits, Main of one page"),
    ("commits", rows(150, 100) + "UPDATE items SET name = 'x' || id WHERE id % 3 = 0; DELETE FROM items WHERE id BETWEEN 120 AND 160;\n" + CODES,
     "several commits, pages more than once"),
    ("uncommitted", "PRAGMA cache_size = 5; BEGIN;\n" + rows(300, 1000), "pages of an open transaction behind the last commit"),
    ("laid", "ROLLBACK; PRAGMA cache_size = 2000; PRAGMA wal_checkpoint(PASSIVE);\n", "laid by the product, the log still there"),
    ("restarted", "UPDATE items SET name = 'after the restart' WHERE id = 7;\n", "begun anew with one commit, old frames behind"),
    ("restarted-more", "BEGIN;\n" + rows(40, 5000) + "COMMIT;\n", "begun anew, two commits, old frames behind"),
    ("truncated", "PRAGMA wal_checkpoint(TRUNCATE);\n", "a log of no byte"),
    ("grown", rows(200, 7000), "pages behind Main's end"),
    ("cut", "DELETE FROM items WHERE id > 90; VACUUM;\n", "fewer pages after VACUUM"),
    ("cut-grown", rows(30, 9000), "fewer pages after VACUUM, then more"),
    ("emptied", "DROP TABLE codes; DROP TABLE items; VACUUM;\n", "all dropped, then VACUUM"),
)
FULL = (
    ("first", rows(700, 1) + "DELETE FROM items WHERE id BETWEEN 300 AND 500;\n", "rows deleted"),
    ("", CODES + "PRAGMA incremental_vacuum(5); DROP INDEX items_name;\n", "an index dropped"),
)


def make(folder, words=PROFILES):
    """The pairs of these profiles, where their product is there."""
    os.makedirs(folder, exist_ok=True)
    folder, table = os.path.abspath(folder), []
    with tempfile.TemporaryDirectory() as work:
        path = os.path.join(work, "file")

        def keep(name):
            place = os.path.join(folder, name)
            return f".system mkdir {place} && cp {work}/file* {place}\n"

        def run(word, stem, ages, ending, before=""):
            for left in os.listdir(work):
                os.remove(os.path.join(work, left))
            script = before
            for age, statements, special in ages:
                script += statements + keep(stem + age)
                table.append((stem + age, word, special))
            product(word, path, script + ending)

        for word in filter(product_of, words):
            stem = word.replace(":", "-") + "-"
            run(word, stem, AGES, TABLES + rows(20, 1) + ".system kill -9 $PPID\n")
            # What the killed process leaves, with its FILE-shm.
            shutil.copytree(work, os.path.join(folder, stem + "killed"))
            table.append((stem + "killed", word, "the process was killed"))
            # A clean close leaves the mark and no log.
            place = os.path.join(folder, stem + "closed")
            shutil.copytree(os.path.join(folder, stem + "commits"), place)
            product(word, os.path.join(place, "file"), "SELECT count(*) FROM items;\n")
            table.append((stem + "closed", word, "closed, marked, no log"))
        for word in filter(product_of, set(words) & set(AUTO_VACUUM)):
            for mode, name in ((1, "full"), (2, "incremental")):
                ages = [(age and name or name + "-dropped", statements, f"auto-vacuum {mode}, {special}") for age, statements, special in FULL]
                run(word, word.replace(":", "-") + "-", ages, "", f"PRAGMA auto_vacuum = {mode};\n" + SETTINGS + TABLES)
    with open(os.path.join(folder, "pairs.tsv"), "w", encoding="utf-8") as out:
        out.writelines("\t".join(row) + "\n" for row in table)
    print(f"pairs={len(table)}")


# ------------------------------------------------------------------ what the product and the reference make of them

def pairs_of(folder):
    """(number, name, profile, what is special) of this part of the pairs."""
    part, parts = map(int, os.environ.get("PART", "0/1").split("/"))
    with open(os.path.join(folder, "pairs.tsv"), encoding="utf-8") as table:
        listed = [(number, *line.rstrip("\n").split("\t")) for number, line in enumerate(table)]
    return listed[::int(os.environ.get("EVERY") or 1)][part::parts]


def lay_pair(path, main, log):
    write_file(path, main)
    if log is not None:
        write_file(path + "-wal", log)


def passed(file, word):
    """(the file with the marks of WAL mode and of auto-vacuum gone, which the reference refuses, its codec). Its map pages then belong to nothing.
    Under another key it is as it was."""
    profile = profile_of(word)
    codec, stored = Codec(profile, key_of(word).encode(), file[:16]), file[:profile.page_size]
    if len(stored) < profile.page_size or not codec.key_fits(stored):
        return file, codec
    first = bytearray(codec.open_page(1, stored))
    first[18:20] = (1 if mark == 2 else mark for mark in first[18:20])
    first[52:56] = bytes(4)
    return codec.seal_page(1, bytes(first), bytes(profile.reserve)) + file[profile.page_size:], codec


def by_reference(main, codec, words):
    """(status, lines) that the reference has for a reading command, as it prints them."""
    lines = []
    try:
        name, status = words[0], 0
        if name == "tags":
            lines, status = tag_lines(main, codec)
        elif name == "header":
            lines = header_text(Database(main, codec)).splitlines()
        elif name == "verify":
            lines, status = verify_lines(Database(main, codec))
        elif name == "export":
            lines = list(export_lines(Database(main, codec)))
        elif name == "agree":
            lines, status = agree_lines(Database(main, codec))
        elif name == "salvage":
            lines = list(salvage_lines(main, codec))
        else:
            for line in find_lines(Database(main, codec), words[2].encode(), *map(int, words[3:])):
                lines.append(line)
    except Refused as refusal:
        lines, status = lines + [str(refusal)], refusal.code
    return status, "".join(f"{line}\n" for line in lines).encode()


def content(sql):
    """The rows of the tables that this SQL makes, as SQLite reads them."""
    db = sqlite3.connect(":memory:")
    db.executescript(sql)
    found = {"schema": db.execute("SELECT type, name, tbl_name, sql FROM sqlite_master ORDER BY type, name").fetchall()}
    for kind, name, _, _ in found["schema"]:
        if kind == "table":
            found[name] = db.execute(f"SELECT * FROM {name} ORDER BY 1").fetchall()
    return found


def seen(folder):
    """Every name of a folder, and all that a write to a file, or one beside it, would change."""
    found = {}
    for name in sorted(os.listdir(folder)):
        path = os.path.join(folder, name)
        stat = os.stat(path)
        with open(path, "rb") as file:
            digest = hashlib.file_digest(file, "sha256").hexdigest()
        found[name] = (stat.st_ino, stat.st_size, stat.st_mode, stat.st_mtime_ns, stat.st_ctime_ns, digest)
    return found


class Check:
    """The trials of one part of the pairs: what was counted, and what was wrong."""

    def __init__(self, folder, program):
        self.folder, self.program = folder, program
        self.stride, self.limit = int(os.environ.get("STRIDE") or 1), int(os.environ.get("HANGS") or 60)
        self.counts = collections.Counter()

    def say(self, what):
        self.counts["wrong"] += 1
        print(f"{self.what}: {what}", flush=True)

    def run(self, path, word, words):
        self.counts["runs"] += 1
        done = subprocess.run([self.program, path, *words], input=key_of(word).encode() + b"\n", capture_output=True, timeout=self.limit)
        return done.returncode, done.stdout

    def check_pair(self, number, name, word, special):
        place = os.path.join(self.folder, name)
        main, log = read_file(os.path.join(place, "file")), read_file(os.path.join(place, "file-wal"))
        is_varied = name.removeprefix(word.replace(":", "-") + "-") in VARIED
        for at, (variant, main, log) in enumerate(variants(main, log) if is_varied else [("as made", main, log)]):
            if at and (number + at) % self.stride:
                continue
            self.what = f"{name}, {variant}"
            with tempfile.TemporaryDirectory() as folder:
                pair = os.path.join(folder, "pair")
                os.mkdir(pair)
                for path in ("pair/file", "settled", "delete"):
                    lay_pair(os.path.join(folder, path), main, log)
                if at == 0 and os.path.exists(os.path.join(place, "file-shm")):
                    shutil.copy(os.path.join(place, "file-shm"), pair)
                settled = self.settle(folder, word, main, log)
                if self.program:
                    self.compare(folder, word, special.startswith("auto-vacuum"), settled)
                    if at == 0 and self.alone(pair, word) != self.exported:
                        self.counts["not as Main alone"] += 1
            self.counts["pairs"] += 1
            self.counts["variants"] += at > 0
            self.counts["auto-vacuum"] += special.startswith("auto-vacuum")

    def settle(self, folder, word, main, log):
        """The file that the product makes of the pair, beside that of the model; its rows are kept in `dump`."""
        path = os.path.join(folder, "settled")
        said = product(word, path, "PRAGMA integrity_check;\n.dump\n")
        self.dump = said.partition("\n")[2]
        settled = read_file(path)
        if not said.startswith("ok\n"):
            self.say(f"the product does not find it sound: {said[:100]!r}")
        if os.path.exists(path + "-wal"):
            self.say("the product leaves the log")
        if settled != opened(main, log):
            self.say("the product's file is not the model's")
        for rule in RULES:
            self.counts[f"without {rule}"] += settled != opened(main, log, rule)
        return settled

    def compare(self, folder, word, is_vacuumed, settled):
        """Each command that only reads, beside the reference and beside itself on the product's file in another mode."""
        pair, other = os.path.join(folder, "pair"), os.path.join(folder, "delete")
        if not is_vacuumed:     # without the setting such a file is refused
            product(word, other, "PRAGMA journal_mode = DELETE;\nSELECT count(*) FROM sqlite_master;\n")
        file, codec = passed(settled, word)
        before = seen(pair)
        for command in COMMANDS:
            if command.kind not in ("check", "part") or word.startswith("plain") and command.plain == "no":
                continue
            words, without = ([to if it == "P" else it for it in command.words.split()] for to in (f"{word}:wal", word))
            found = self.run(os.path.join(pair, "file"), word, words)
            wanted = by_reference(file, codec, words)
            self.counts["refused" if found[0] else "done"] += 1
            if found != wanted:
                self.say(f"{command.name}: {found[0]}, {found[1][-200:]!r}, and the reference has {wanted[0]}, {wanted[1][-200:]!r}")
            # Its header has another change counter.
            if command.name != "header" and not is_vacuumed:
                self.counts["beside the product's file"] += 1
                if found != self.run(other, word, without):
                    self.say(f"{command.name}: {found[0]}, {found[1][-200:]!r}, and another answer without the setting on the product's file")
            if command.name == "export":
                self.exported = found
        if seen(pair) != before:
            self.say("a file has changed, or one appeared")
        if self.exported[0] == 0:
            self.compare_rows(self.exported[1])

    def compare_rows(self, text):
        out = io.BytesIO()
        try:
            export_to_sql.turn(io.BytesIO(text), out, [])
        except export_to_sql.Refused as refused:
            return self.say(f"no SQL: {refused}")
        ours, theirs = content(out.getvalue().decode()), content(self.dump)
        self.counts["rows beside the product's"] += sum(map(len, theirs.values()))
        if ours != theirs:
            self.say("the rows are not those of the product's dump")

    def alone(self, pair, word):
        """`export` of the file without its log."""
        with tempfile.TemporaryDirectory() as folder:
            shutil.copy(os.path.join(pair, "file"), folder)
            return self.run(os.path.join(folder, "file"), word, ["export", f"{word}:wal"])


def check(folder, program=None):
    trial = Check(folder, program and os.path.abspath(program))
    for row in pairs_of(folder):
        trial.check_pair(*row)
    print("\t".join(f"{name}={count}" for name, count in sorted(trial.counts.items())))
    sys.exit(1 if trial.counts["wrong"] else 0)


def main(words):
    if len(words) > 1 and words[0] == "make":
        make(words[1], words[2:] or PROFILES)
    elif len(words) in (2, 3) and words[0] == "check":
        check(*words[1:])
    else:
        print(__doc__, file=sys.stderr)
        sys.exit(1)


if __name__ == "__main__":
    main(sys.argv[1:])
