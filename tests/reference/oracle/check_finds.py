#!/usr/bin/env python3
"""Runs `find` on the files that make_real_files.sh made, and compares it with the program's own `export` and with the reference.

    check_finds.py PROGRAM FILES TABLE FOLDER [SEED [PART [PARTS]]]

Every table is asked for each of its rowids, if it has few, else for some, and for ranges: all, none, the negative ones, some. What is
printed has to be the rows of `export` with these rowids and their number, and what the reference says. A name that is no table with
rowids has to be refused, and a file that `export` refuses too. Afterwards the file is as the reference recovers it.

Each wrong answer is a line of standard output. The last line is tab-separated `name=count` words for tests/find.sh to add up.
"""
import collections
import csv
import os
import random
import re
import shutil
import subprocess
import sys

import sqlcipher_formats as formats

LEAST, MOST = -2 ** 63, 2 ** 63 - 1
SMALL = 24              # rows of a table that is asked for each
MANY = 12               # tables of a file that are asked for all ranges; the others for one
DERIVED = 4             # names of each kind that a file under a passphrase is asked for, since each run derives its key
UTF_16 = (2, 3)         # encodings in which no name is that of a word


def read_table(path):
    with open(path, encoding="utf-8", newline="") as source:
        return [(row[0], row[1]) for row in csv.reader(source, delimiter="\t", quoting=csv.QUOTE_NONE)][1:]


def said(text):
    """The bytes of a text as `export` prints it."""
    return re.sub(rb"\\x([0-9a-f]{2})", lambda it: bytes([int(it[1], 16)]), text.encode())


def exported(text):
    """({name: [(rowid, line)]} of the tables with rowids, the other names, the encoding) of what `export` printed."""
    tables, others, rows = {}, set(), None
    for line in text.splitlines():
        if line.startswith("row "):
            rows.append((int(line.split(" ", 2)[1]), line))
        elif line.startswith("schema "):
            kind, name, tree = re.match(r"schema -?\d+ ('[^']*'|\w+) ('[^']*'|\w+) (?:'[^']*'|\w+) (\w+) ", line).groups()
            name, rows = said(name[1:-1]), []
            if tree == "table" and kind == "'table'" and name not in tables:
                tables[name] = rows
            else:
                others.add(name)
    encoding = int(re.search(r" encoding (\d+) ", text)[1])
    return tables, others - set(tables), encoding


def ranges(rowids, rng, few):
    """Pairs of rowids to ask for."""
    yield LEAST, MOST
    if few:
        if rowids:
            yield (rng.choice(rowids),) * 2
        return
    yield from ((5, 4), (MOST, LEAST), (LEAST, LEAST), (MOST, MOST), (LEAST, -1), (0, 0), (-7, 7))
    for rowid in rowids if len(rowids) <= SMALL else [rowids[0], *rng.sample(rowids, min(6, len(rowids))), rowids[-1]]:
        yield rowid, rowid
        yield max(rowid - 1, LEAST), max(rowid - 1, LEAST)
    for _ in range(4 if rowids else 0):
        low, high = sorted(rng.choices(rowids, k=2))
        yield low, high
        yield low, min(low + 3, MOST)
        yield max(high - 2, LEAST), MOST
        yield LEAST, low


class File:
    """A copy of a file of the product, as the program and the reference read it."""

    def __init__(self, program, files, folder, name, word):
        self.program, self.name, self.word, self.path = program, name, word, os.path.join(folder, "file")
        for tail in ("", "-journal"):
            if os.path.exists(self.path + tail):
                os.remove(self.path + tail)
            if os.path.exists(os.path.join(files, name + tail)):
                shutil.copyfile(os.path.join(files, name + tail), self.path + tail)
        with open(os.path.join(files, name[:-3] + ".key"), "rb") as source:
            self.keys = source.read()
        self.passphrase = not formats.hex_form(self.keys.split(b"\n")[0], 64)
        profile = formats.PROFILES[word]
        try:
            self.main = formats.recovered(self.path, profile.page_size)[1]
        except formats.Refused:
            self.main = formats.read_file(self.path)
        self.profile, self.counts = profile, collections.Counter(files=1)

    def run(self, *words):
        done = subprocess.run([self.program, self.path, words[0], self.word, *words[1:]], input=self.keys, capture_output=True, timeout=300)
        return done.returncode, done.stdout

    def reference(self, find):
        """The reference's answer, which needs no derived key anew."""
        lines, status = [], 0
        try:
            if not hasattr(self, "codec"):
                self.main, self.codec = formats.open_codec(self.path, self.profile, formats.split_keys(self.keys, 1))
            name, low, high = find
            for line in formats.find_lines(formats.Database(self.main, self.codec), name, low, high):
                lines.append(line)
        except formats.Refused as refusal:
            lines.append(str(refusal))
            status = refusal.code
        return status, "".join(f"{line}\n" for line in lines).encode()

    def ask(self, name, low, high, wanted):
        """Runs `find`, whose answer has to be this one, and that of the reference too."""
        status, text = self.run("find", name, str(low), str(high))
        self.counts["runs"] += 1
        self.counts["rows"] += text.count(b"\n") - 1
        reference = self.reference((name, low, high))
        for of, answer in (("export", wanted), ("the reference", reference)):
            if (status, text) != answer:
                self.counts["wrong"] += 1
                print(f"{self.name}: find {self.word} {name.decode(errors='replace')} {low} {high} ends with {status} and {text!r:.200}; "
                      f"by {of} it is {answer[0]} and {answer[1]!r:.200}", flush=True)

    def ask_all(self, seed):
        rng = random.Random(f"{seed} {self.name}")
        fresh = self.reference((b"sqlite_master", LEAST, MOST))     # before the program recovers the file
        status, text = self.run("export")
        if status:
            self.counts["refused files"] += 1
            self.ask(b"items", LEAST, MOST, (status, text))
            return
        tables, others, encoding = exported(text.decode())
        if fresh != (2, b"no such table\n"):
            self.counts["wrong"] += 1
            print(f"{self.name}: the reference answers {fresh!r:.200}")
        refused = 2, b"no such table\n"
        if encoding in UTF_16:
            others, tables = {name.decode("utf-16-le" if encoding == 2 else "utf-16-be").encode() for name in others}, {}
        most = DERIVED if self.passphrase else None
        for name in sorted((others | {b"", b"none"} | {name.swapcase() for name in sorted(tables)[:2]}) - set(tables))[:most]:
            self.ask(name, LEAST, MOST, refused)
        for number, (name, rows) in enumerate(sorted(tables.items())[:most]):
            self.counts["tables"] += 1
            for low, high in dict.fromkeys(ranges([rowid for rowid, _ in rows], rng, self.passphrase or number >= MANY)):
                found = [line for rowid, line in rows if low <= rowid <= high]
                self.ask(name, low, high, (0, "".join(f"{line}\n" for line in (*found, f"found: {len(found)} rows")).encode()))

    def look_at_file(self):
        """The file is as it was, once a journal is laid back; a journal that is refused is still there."""
        if formats.read_file(self.path) != self.main:
            self.counts["wrong"] += 1
            print(f"{self.name}: the file is not as it was")


def main(program, files, table, folder, seed="7", part="0", parts="1"):
    counts = collections.Counter()
    for name, word in read_table(table)[int(part)::int(parts)]:
        file = File(os.path.abspath(program), files, folder, name, word)
        file.ask_all(seed)
        file.look_at_file()
        counts += file.counts
    print("\t".join(f"{name}={counts[name]}" for name in ("files", "refused files", "tables", "runs", "rows", "wrong")))
    return 1 if counts["wrong"] else 0


if __name__ == "__main__":
    if not 5 <= len(sys.argv) <= 8:
        sys.exit(__doc__)
    sys.exit(main(*sys.argv[1:]))
