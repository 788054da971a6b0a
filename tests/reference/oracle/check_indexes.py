#!/usr/bin/env python3
"""Runs `agree` on the files of index_files.py, and compares it with the reference, with SQLite and with the product.

    check_indexes.py PROGRAM FILES FOLDER [PRODUCT]

A plain file is looked at as it is, beside a journal that is hot, and as it is migrated to versions 1 to 4, whose entries are the same. The lines
and the status have to be those of the reference, and the file has to stay, or become what its journal makes of it. An index that is said to
differ has to be one that `PRAGMA integrity_check` blames, of SQLite on the plain file, of PRODUCT on that of version 3. Where these blame another,
the damage has to be one of values, order or twins, which `agree` does not look at.

Each wrong answer is a line of standard output. The last line is tab-separated `name=count` words for tests/agree.sh to add up.
"""
import collections
import os
import re
import shutil
import sqlite3
import subprocess
import sys

from sqlcipher_formats import Codec, Database, profile_of, read_file, recovered
from sqlcipher_indexes import agree_lines

KEY = b"x'000102030405060708090a0b0c0d0e0f101112131415161718191a1b1c1d1e1f'"
# What is done to an index or its table without a change of which rows have entries.
VALUES_ALONE = {"entry_changed", "entry_other_case", "row_changed", "rowids_exchanged", "out_of_order", "twin_row"}
BLAMES = re.compile(r"row -?\d+ missing from index (.*)$|wrong # of entries in index (.*)$|non-unique entry in index (.*)$"
                    r"|row -?\d+ values differ from index (.*)$|rowid not at end-of-record for row -?\d+ of index (.*)$")


def word_of(path):
    size = int.from_bytes(read_file(path)[16:18], "big")
    return f"plain:{65536 if size == 1 else size}"


def blamed(messages):
    """The indexes that integrity_check names, or none where it can't read the file."""
    found = set()
    for message in messages:
        if message.lower().startswith("error"):
            return None
        match = BLAMES.match(message)
        found |= {next(filter(None, match.groups()))} if match else set()
    return found


def by_sqlite(path):
    db = sqlite3.connect(path)
    try:
        return blamed([str(row[0]) for row in db.execute("PRAGMA integrity_check(100000)")])
    except sqlite3.Error:
        return None
    finally:
        db.close()


def by_product(product, path):
    text = f'PRAGMA key = "{KEY.decode()}";\nPRAGMA integrity_check(100000);\n'
    done = subprocess.run([product, "-batch", path], input=text, capture_output=True, text=True, errors="replace")
    return blamed((done.stdout + done.stderr).splitlines())


def make_hot(path):
    """Has a transaction that is not ended, whose journal and changed pages stand beside and in the file."""
    first = path + ".first"
    shutil.copy(path, first)
    db = sqlite3.connect(first, isolation_level=None)
    db.execute("PRAGMA cache_size = 5")
    db.execute("BEGIN")
    db.execute("CREATE TABLE added(x)")
    db.executemany("INSERT INTO added VALUES(?)", [(bytes(3000),) for _ in range(40)])
    shutil.copy(first, path)
    shutil.copy(first + "-journal", path + "-journal")
    db.execute("ROLLBACK")
    db.close()
    os.remove(first)


class Check:
    def __init__(self, program, files, folder, product):
        self.program, self.files, self.folder, self.product = program, files, folder, product
        self.counts = collections.Counter()
        with open(os.path.join(files, "damage.tsv"), encoding="utf-8") as table:
            self.damage = {name: kind for name, kind, _ in (line.rstrip("\n").split("\t") for line in table)}

    def say(self, name, what):
        self.counts["wrong"] += 1
        print(f"{name}: {what}", flush=True)

    def run(self, path, *words):
        done = subprocess.run([self.program, path, *words], input=KEY + b"\n", capture_output=True)
        return done.returncode, done.stdout.decode(errors="replace")

    def compare(self, name, path, word, left=None):
        """Runs `agree` beside the reference on the same bytes, and gives the indexes that are said to differ."""
        data = left or read_file(path)
        lines, status = agree_lines(Database(data, Codec(profile_of(word), KEY, data[:16])))
        got = self.run(path, "agree", word)
        self.counts["runs"] += 1
        self.counts["differ" if status else "agree"] += 1
        if got != (status, "".join(f"{line}\n" for line in lines)):
            self.say(name, f"agree {word}: {got!r:.300}, and {status} is wanted with {lines!r:.300}")
        if read_file(path) != data or os.path.exists(path + "-journal"):
            self.say(name, f"agree {word} leaves other files")
        return {re.match(r"index '(.*?)': \d", line)[1] for line in lines if re.match(r"index '.*?': \d", line)}

    def beside(self, name, ours, theirs, who):
        if theirs is None:
            self.counts["not read by " + who] += 1
            return
        self.counts["beside " + who] += 1
        theirs = {it.encode().decode("latin-1") for it in theirs}
        if not ours <= theirs:
            self.say(name, f"{sorted(ours - theirs)} differ, and {who} blames {sorted(theirs)}")
        if theirs - ours and self.damage.get(name) not in VALUES_ALONE:
            self.say(name, f"{who} blames {sorted(theirs)}, and {sorted(ours)} alone differ")

    def check(self, name):
        source, path = os.path.join(self.files, name), os.path.join(self.folder, "file")
        shutil.copy(source, path)
        word = word_of(path)
        self.beside(name, self.compare(name, path, word), by_sqlite(path), "SQLite")
        make_hot(path)
        # (SQLite keeps no old bytes of free pages, so what is recovered need not be the file of before)
        self.compare(f"{name}, hot", path, word, recovered(path, profile_of(word).page_size)[1])
        for other in ("1", "2", "3", "4"):
            shutil.copy(source, path)
            status, text = self.run(path, "migrate", word, other)
            if status:
                self.say(name, f"migrate {word} {other}: {status}, {text!r:.200}")
                continue
            ours = self.compare(f"{name} as {other}", path, other)
            if other == "3" and self.product:
                self.beside(name, ours, by_product(self.product, path), "the product")
        os.remove(path)


def main(program, files, folder, product=None):
    check = Check(os.path.abspath(program), files, folder, product)
    for name in sorted(os.listdir(files)):
        if name.endswith(".db"):
            check.check(name)
            check.counts["files"] += 1
    counts = check.counts
    names = ("files", "runs", "agree", "differ", "beside SQLite", "beside the product", "not read by SQLite", "not read by the product", "wrong")
    print("\t".join(f"{name}={counts[name]}" for name in names))
    sys.exit(1 if counts["wrong"] else 0)


if __name__ == "__main__":
    main(*sys.argv[1:])
