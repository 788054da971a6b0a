#!/usr/bin/env python3
"""Runs `salvage` on the files that make_real_files.sh made, as they are and damaged at random, and compares it with the reference and
with SQLite.

    check_salvages.py PROGRAM FILES TABLE FOLDER [SEED [PART [PARTS [DAMAGES]]]]

Each file is tried as it is and after DAMAGES damages (5 where it is not said), each with its journal beside it or laid back before. The
text has to be the reference's, to the byte, and what is left the file, its journal laid back; where there is no journal, nothing is written.

SQLite looks at the whole file, decrypted: which rows each table has, and on which pages each of them lies. After a damage the leaves that
are as they were have to give these rows in their order, with these values: all whose overflow pages are as they were, and the others as
lost; a leaf that is another has to be refused. Version 1 can't tell a page that is another, so there the rows alone have to be there.

Each wrong answer is a line of standard output. The last line is tab-separated `name=count` words for tests/salvage.sh to add up.
"""
import collections
import os
import random
import re
import sqlite3
import struct
import subprocess
import sys

import sqlcipher_formats as formats
from check_finds import read_table
from sqlcipher_salvage import salvage_lines

HOWS = ("zeros", "zeros", "bits", "bits", "cut", "first", "salt", "schema", "inner", "exchanged", "half", "longer", "overflow")
VALUE = re.compile(r" (null|-?[0-9]+|f'[0-9a-f]{16}'|x'[0-9a-f]*'|'[^']*')")
ESCAPE = re.compile(rb"\\x([0-9a-f]{2})")
ROWID_NAMES = ("rowid", "_rowid_", "oid")


class Remembering(formats.Codec):
    """A codec that opens each stored page once."""

    def __init__(self, *words):
        super().__init__(*words)
        self.held, self.opened = {}, {}

    def tag_holds(self, n, stored):
        if (n, stored) not in self.held:
            self.held[n, stored] = super().tag_holds(n, stored)
        return self.held[n, stored]

    def open_page(self, n, stored):
        if (n, stored) not in self.opened:
            self.opened[n, stored] = super().open_page(n, stored)
        return self.opened[n, stored]


# ------------------------------------------------------------------ what SQLite sees

def quoted(name):
    return '"' + name.replace('"', '""') + '"'


def same(stored, shown, rowid, is_alias):
    """Whether a value of a salvage is the one that SQLite shows."""
    kind, value = shown
    if is_alias:
        return stored == "null" and value == rowid
    if stored == "null":
        return value is None
    if stored[0] == "'":
        return kind == "text" and ESCAPE.sub(lambda it: bytes([int(it[1], 16)]), stored[1:-1].encode()) == value
    if stored[0] == "x":
        return kind == "blob" and bytes.fromhex(stored[2:-1]) == value
    if stored[0] == "f":
        return kind == "real" and bytes.fromhex(stored[2:-1]) == struct.pack(">d", value)
    return value == int(stored) and kind in ("integer", "real")       # a whole number in a column of floats is kept as an integer


class Row:
    """A row of a table, and the overflow pages that it needs."""

    def __init__(self, table, rowid, values):
        self.table, self.rowid, self.values, self.links = table, rowid, values, []

    def is_shown(self, line, leaf):
        head = f"row {leaf} {self.rowid}"
        stored = VALUE.findall(line[len(head):])
        return (line.startswith(head) and "".join(f" {text}" for text in stored) == line[len(head):] and len(stored) <= len(self.values)
                and all(same(text, shown, self.rowid, at == self.table.alias) for at, (text, shown) in enumerate(zip(stored, self.values))))


class Table:
    def __init__(self, db, name):
        columns = db.execute(f"PRAGMA table_info({quoted(name)})").fetchall()
        names = [column[1] for column in columns]
        free = [word for word in ROWID_NAMES if word not in map(str.lower, names)]
        keys = [column for column in columns if column[5]]
        self.alias = keys[0][0] if len(keys) == 1 and keys[0][2].upper() == "INTEGER" else None
        asked = "".join(f", typeof({it}), CASE typeof({it}) WHEN 'text' THEN CAST({it} AS BLOB) ELSE {it} END" for it in map(quoted, names))
        self.rows = []
        for rowid, *rest in db.execute(f"SELECT {free[0]}{asked} FROM {quoted(name)} NOT INDEXED ORDER BY {free[0]}"):
            self.rows.append(Row(self, rowid, list(zip(rest[::2], rest[1::2]))))


class Seen:
    """The rows of each leaf of a table of a plain file, and the pages of its trees, as SQLite finds them."""

    def __init__(self, path):
        db = sqlite3.connect(f"file:{path}?immutable=1", uri=True)
        self.leaves, self.pages = {}, collections.defaultdict(list)
        places = collections.defaultdict(list)
        for name, place, page, kind, cells in db.execute("SELECT name, path, pageno, pagetype, ncell FROM dbstat"):
            self.pages["schema" if name in ("sqlite_master", "sqlite_schema") else kind].append(page)
            # '/1c2/000/' is a page, '/1c2/000/003+000001' the second overflow page of its fourth cell
            *steps, link = re.split("[/+]", place[1:]) if "+" in place else [*place.strip("/").split("/"), "-1"]
            path = tuple(int(step, 16) for step in steps if step)
            places[name].append((path, int(link, 16), page, kind, cells))
        names = [name for name, in db.execute("SELECT name FROM sqlite_master WHERE type = 'table' AND rootpage > 0")]
        for name in ["sqlite_master", *names]:
            found = places.get(name) or places["sqlite_schema"]
            try:
                db.execute(f"SELECT {ROWID_NAMES[0]} FROM {quoted(name)} LIMIT 0")
            except sqlite3.Error:
                continue        # WITHOUT ROWID
            self.place(Table(db, name).rows, found)
        db.close()

    def place(self, rows, found):
        """Gives the rows of a table, in order of their rowids, to the leaves of its tree, in order."""
        links = collections.defaultdict(list)
        for path, link, page, kind, _ in found:
            if kind == "overflow":
                links[path].append((link, page))
        at = 0
        for path, _, page, kind, cells in sorted(found):
            if kind == "leaf":
                self.leaves[page] = rows[at:at + cells]
                for index, row in enumerate(self.leaves[page]):
                    row.links = [number for _, number in sorted(links[path + (index,)])]
                at += cells
        if at != len(rows):
            raise AssertionError(f"SQLite counts {at} cells of {len(rows)} rows")


# ------------------------------------------------------------------ a file, whole and damaged

class File:
    """A file of the product; `main` and `journal` are what lies in the folder, of which the reference recovers `recovered`."""

    def __init__(self, program, files, folder, name, word):
        self.program, self.name, self.word, self.folder, self.path = program, name, word, folder, os.path.join(folder, "file")
        self.main, self.journal = (formats.read_file(os.path.join(files, name + tail)) for tail in ("", "-journal"))
        with open(os.path.join(files, name[:-3] + ".key"), "rb") as source:
            self.keys = source.read()
        self.profile, self.counts, self.codecs = formats.PROFILES[word], collections.Counter(files=1), {}
        self.whole, self.seen = None, None
        try:
            self.whole = formats.whole_main(formats.recover(self.main, self.journal, self.profile.page_size)[1], self.profile)
        except formats.Refused:
            return
        self.look()

    def codec(self, salt):
        if salt not in self.codecs:
            self.codecs[salt] = Remembering(self.profile, formats.split_keys(self.keys, 1)[0], salt)
        return self.codecs[salt]

    def look(self):
        """What SQLite sees of the file, none where the key is another or SQLite doesn't read it."""
        codec = self.codec(self.whole[:16])
        if not codec.key_fits(self.whole[:self.profile.page_size]):
            return
        plain = os.path.join(self.folder, "plain")
        formats.write_file(plain, formats.decrypt(self.whole, codec)[0])
        try:
            self.seen = Seen(plain)
        except sqlite3.Error as error:
            print(f"{self.name}: SQLite says: {error}")
        os.remove(plain)

    def reference(self, main, journal):
        """(status, text, main and journal afterwards)"""
        try:
            line, recovered = formats.recover(main, journal, self.profile.page_size)
        except formats.Refused as refusal:
            return refusal.code, f"{refusal}\n".encode(), (main, journal)
        left = recovered, journal if line == "nothing" else None
        try:
            lines = list(salvage_lines(formats.whole_main(recovered, self.profile), self.codec(recovered[:16])))
            return 0, "".join(f"{line}\n" for line in lines).encode(), left
        except formats.Refused as refusal:
            return refusal.code, f"{refusal}\n".encode(), left

    def stand(self):
        """All that a write would change: the names of the folder, and of each file its bytes and its time."""
        return sorted((it.name, it.stat().st_mtime_ns, it.stat().st_ino, formats.read_file(it.path)) for it in os.scandir(self.folder)), \
            os.stat(self.folder).st_mtime_ns

    def wrong(self, how, what):
        self.counts["wrong"] += 1
        print(f"{self.name}, {how}: {what}", flush=True)

    def run(self, how, main, journal):
        for tail, data in (("", main), ("-journal", journal)):
            if data is not None:
                formats.write_file(self.path + tail, data)
            elif os.path.exists(self.path + tail):
                os.remove(self.path + tail)
        before = self.stand()
        done = subprocess.run([self.program, self.path, "salvage", self.word], input=self.keys, capture_output=True, timeout=300)
        status, text, left = self.reference(main, journal)
        self.counts["runs"] += 1
        self.counts["refused"] += status != 0
        self.counts["played back"] += left[0] != main
        if (done.returncode, done.stdout) != (status, text):
            found, wanted = done.stdout.splitlines(), text.splitlines()
            at = next((at for at, pair in enumerate(zip(found, wanted)) if pair[0] != pair[1]), min(len(found), len(wanted)))
            self.wrong(how, f"salvage {self.word} ends with {done.returncode} and line {at + 1} of {len(found)} is {found[at:at + 1]!r:.200}; "
                       f"by the reference with {status}, and line {at + 1} of {len(wanted)} is {wanted[at:at + 1]!r:.200}")
        if journal is None and self.stand() != before:
            self.wrong(how, "something was written")
        if tuple(formats.read_file(self.path + tail) for tail in ("", "-journal")) != left:
            self.wrong(how, "the files are not left as they are recovered")
        if status == 0:
            self.look_at_rows(how, done.stdout.decode(errors="replace").splitlines(), left[0])

    def is_kept(self, n, main):
        """Whether page n is in the file and has the bytes that its tag covers as they were. Of page 1 the salt is not covered."""
        at, end = (n - 1) * self.profile.page_size, self.profile.usable + 16 + self.profile.tag_len
        return len(main) >= n * self.profile.page_size and main[at + 16 * (n == 1):at + end] == self.whole[at + 16 * (n == 1):at + end]

    def look_at_rows(self, how, lines, main):
        """Beside SQLite: each row whose pages are as they were is there."""
        if self.seen is None or main[:16] != self.whole[:16]:
            return
        texts = collections.defaultdict(list)
        for line in lines:
            if found := re.match("(?:row|lost|page) ([0-9]+)", line):
                texts[int(found[1])].append(line)
        for leaf, rows in self.seen.leaves.items():
            if not self.is_kept(leaf, main):
                self.counts["leaves damaged"] += 1
                wanted = [f"page {leaf}: tag refused"] * (leaf * self.profile.page_size <= len(main))
                if self.profile.tag_len and texts[leaf] != wanted:
                    self.wrong(how, f"page {leaf}, which is damaged, gives {texts[leaf][:3]!r:.200}")
            elif len(texts[leaf]) != len(rows):
                self.wrong(how, f"page {leaf} gives {len(texts[leaf])} lines, and has {len(rows)} rows")
            else:
                for row, text in zip(rows, texts[leaf]):
                    kept = all(self.is_kept(n, main) for n in row.links)
                    self.counts["rows" if kept else "rows lost"] += 1
                    if kept and not row.is_shown(text, leaf):
                        self.wrong(how, f"{text!r:.200} of the row {row.rowid} with {row.values!r:.200}")
                    if not kept and self.profile.tag_len and text != f"lost {leaf} {row.rowid}":
                        self.wrong(how, f"{text!r:.200} of the row {row.rowid}, whose overflow pages are damaged")
        self.counts["rows elsewhere"] += sum(line.startswith("row ") for n, found in texts.items() if n not in self.seen.leaves for line in found)

    # -- damages

    def damaged(self, how, rng, main):
        size, main = self.profile.page_size, bytearray(main)
        count = max(1, len(main) // size)
        some = rng.sample(range(count), max(1, count * rng.choice((1, 5, 20)) // 100))
        pages = {"zeros": some, "half": range(count // 2, count) if rng.random() < 0.5 else range(1, count // 2), "salt": [0]}.get(how, [])
        if how in ("schema", "inner", "overflow") and self.seen:
            found = self.seen.pages["schema" if how == "schema" else "internal" if how == "inner" else "overflow"]
            pages = [n - 1 for n in (found if how != "overflow" else rng.sample(found, (len(found) + 9) // 10))]
        for n in pages:
            keep = 16 * (n == 0 and how != "salt")
            main[n * size + keep:(n + 1) * size] = rng.choice((bytes(size), rng.randbytes(size)))[keep:len(main[n * size:(n + 1) * size])]
        if how == "first":
            main[16:size] = rng.choice((bytes(size - 16), rng.randbytes(size - 16)))
        elif how == "bits":
            for _ in range(rng.choice((1, 3, 12))):
                at = rng.randrange(min(16, len(main) - 1), len(main))
                main[at] ^= 1 << rng.randrange(8)
        elif how == "cut":
            del main[rng.choice((rng.randrange(len(main)), rng.randrange(1, count + 1) * size)):]
        elif how == "exchanged" and count > 2:
            i, j = (it * size for it in rng.sample(range(1, count), 2))
            main[i:i + size], main[j:j + size] = main[j:j + size], main[i:i + size]
        elif how == "longer":
            main += rng.choice((rng.randbytes(rng.randrange(3 * size)), main[size:2 * size]))
        return bytes(main)

    def try_all(self, seed, damages):
        rng = random.Random(f"{seed} salvage {self.name}")
        self.run("whole", self.main, self.journal)
        if not self.main:
            return
        for _ in range(damages):
            how = rng.choice(HOWS)
            beside = self.whole is None or self.journal is not None and rng.random() < 0.4
            main, journal = (self.main, self.journal) if beside else (self.whole, None)
            if how != "cut" and rng.random() < 0.3:
                main = self.damaged(rng.choice(HOWS[:4]), rng, main) or main
            self.run(how, self.damaged(how, rng, main), journal)


def main(program, files, table, folder, seed="7", part="0", parts="1", damages="5"):
    counts = collections.Counter()
    for name, word in read_table(table)[int(part)::int(parts)]:
        file = File(os.path.abspath(program), files, os.path.abspath(folder), name, word)
        file.try_all(seed, int(damages))
        counts += file.counts
        counts["files that SQLite sees"] += file.seen is not None
    print("\t".join(f"{name}={counts[name]}" for name in (
        "files", "files that SQLite sees", "runs", "refused", "played back", "rows", "rows lost", "leaves damaged", "rows elsewhere", "wrong")))
    return 1 if counts["wrong"] else 0


if __name__ == "__main__":
    if not 5 <= len(sys.argv) <= 9:
        sys.exit(__doc__)
    sys.exit(main(*sys.argv[1:]))
