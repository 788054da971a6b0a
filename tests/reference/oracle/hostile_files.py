#!/usr/bin/env python3
"""Hostile files: damaged ones, most of them sealed under the right key, some plain, with journals and left-overs beside them.

    hostile_files.py PROGRAM FOLDER SEED FIRST COUNT     makes the files FIRST to FIRST + COUNT - 1 of a seed, runs each command
                                                         on a copy of each, and compares what it says and leaves
    hostile_files.py finds PROGRAM FOLDER SEED FIRST COUNT     the same files, but many runs of `find` alone on each whose schema can be
                                                               read, over ranges of its tables' rowids
    hostile_files.py make SEED NUMBER FOLDER             writes one of them, as `file` with `keys` and what lies beside it

For each command the reference says which lines may be printed and what the files are afterwards. Where a part of a file has several
defects, each of them is a right answer (`Parts` of hostile_pages.py). A refused change leaves the file as it was, once a hot journal
is played back. A change that was done is read back by the reference: the same rows, and every page under the new key.

Each wrong answer is a line of standard output. The last line is tab-separated `name=count` words for tests/hostile_files.sh to add up.
"""
import collections
import os
import random
import shlex
import signal
import sqlite3
import subprocess
import sys
import tempfile

import commands
from hostile_pages import KEY, SALT, Maker, Parts
from sqlcipher_formats import (
    JOURNAL_MAGIC, JOURNAL_MARK, PLAIN, PROFILES, WORDS, Codec, Database, Refused, be, draw_source, export_lines, find_lines, header_text,
    journal_checksum, journal_sector, journal_segments, probe_line, recover, tag_lines, verify_lines, whole_main)
from sqlcipher_indexes import agree_lines
from sqlcipher_oracle import blank_plain, make_plain
from sqlcipher_salvage import salvage_lines

NEW_KEY = b"x'ffffffffffffffffffffffffffffffffffffffffffffffffffffffffffffffff'"
WRONG_KEY = b"x'" + b"5a" * 32 + b"'"
NUMBER = 3735928559     # the user version that is set
MEMORY = os.environ.get("MEMORY", "32768")      # KiB of address space for a run; a program that `rt try` compiled needs `unlimited`
SECONDS = 10            # of the processor for a run
HANGS = 120             # seconds by the clock for all runs on one file
EDGES = (0, 1, 2, 3, 127, 128, 255, 256, 2 ** 15, 2 ** 16 - 1, 2 ** 24, 2 ** 31 - 1, 2 ** 31, 2 ** 32 - 1)
# A file of version 4 with pages of another size once in a while: it has few pages, or takes long to make.
PROFILE_WORDS = tuple("1234") * 4 + tuple(word for word in PROFILES if ":" in word)
PLAIN_SHARE = 0.15      # of the files, and of the profiles that one is migrated to
COMMANDS = tuple(command.name for command in commands.COMMANDS if command.kind not in ("making", "settling", "script"))
FINDS = 8               # runs of `find` on a file, where they are tried alone
LEAST, MOST = -2 ** 63, 2 ** 63 - 1


# ------------------------------------------------------------------ sound files

SHAPES = (
    # tables with freed pages, an index of two columns, and payloads of every length around the places where they overflow
    """CREATE TABLE a(id INTEGER PRIMARY KEY, t TEXT, b BLOB); CREATE INDEX a_t ON a(t, id); CREATE TABLE gone(b);
       WITH RECURSIVE n(i) AS (SELECT 1 UNION ALL SELECT i + 1 FROM n WHERE i < 60)
       INSERT INTO a SELECT i, 'row ' || (i * 7919 % 97), zeroblob(i * 37 % 1400) FROM n;
       INSERT INTO gone SELECT zeroblob(900) FROM a WHERE id < 25; DROP TABLE gone; DELETE FROM a WHERE id % 5 = 0;""",
    # short rows, many to a page, and negative rowids
    """CREATE TABLE s(id INTEGER PRIMARY KEY, v); CREATE TABLE w(k PRIMARY KEY, v) WITHOUT ROWID;
       WITH RECURSIVE n(i) AS (SELECT -400 UNION ALL SELECT i + 1 FROM n WHERE i < 100)
       INSERT INTO s SELECT i * 3, i * 1.5 FROM n; INSERT INTO w SELECT id, v FROM s WHERE id % 4 = 0;""",
    # many objects, so that the schema has pages of its own
    "".join(f"CREATE TABLE t{i}(a, b TEXT DEFAULT '{'d' * (i * 11 % 90)}'); INSERT INTO t{i} VALUES({i}, x'{'0f' * i}');" for i in range(14))
    + "CREATE VIEW v AS SELECT a FROM t1; CREATE TRIGGER g AFTER INSERT ON t1 BEGIN DELETE FROM t2; END;",
    # long overflow chains, and every kind of value
    """CREATE TABLE big(a, b, c, d); CREATE INDEX big_b ON big(b);
       INSERT INTO big VALUES(1, zeroblob(9000), NULL, 0.5), (-1, 'text', x'00ff', 9e99), (9223372036854775807, zeroblob(20000), '', -0.0),
       (127, 128, 32768, 8388608), (2147483648, 140737488355328, 0, 1);""",
)


def sound_files(profile):
    """Plain pages of files that SQLite wrote, of the profile's layout; each a list of pages of the usable size."""
    files = [make_plain(count, profile) for count in (0, 2, 15)]
    for statements in SHAPES:
        with tempfile.TemporaryDirectory() as folder:
            path = os.path.join(folder, "plain.db")
            with open(path, "wb") as out:
                out.write(blank_plain(profile.page_size, profile.reserve))
            db = sqlite3.connect(path, isolation_level=None)
            db.executescript("PRAGMA journal_mode = OFF; PRAGMA synchronous = OFF; BEGIN;" + statements + "COMMIT;")
            db.close()
            with open(path, "rb") as source:
                files.append(source.read())
    size = profile.page_size
    return [[file[at:at + profile.usable] for at in range(0, len(file), size)] for file in files]


# ------------------------------------------------------------------ hostile files

class Hostile:
    """One file, and what lies beside it: `main`, `journal` and `fresh` are bytes or none. `find` has the words of that command."""

    def __init__(self, seed, number, sound):
        self.name = f"{seed} {number}"
        self.rng = random.Random(self.name)
        rng = self.rng
        self.word = rng.choice(PROFILE_WORDS)
        self.other = rng.choice(PROFILE_WORDS)
        # Plain words are drawn apart, so that the other files of a seed stay what they are.
        apart = random.Random(f"{self.name} plain")
        if apart.random() < PLAIN_SHARE:
            self.word = apart.choice(tuple(PLAIN))
        if apart.random() < PLAIN_SHARE:
            self.other = apart.choice(tuple(PLAIN))
        self.profile = WORDS[self.word]
        self.codec = Codec(self.profile, KEY, SALT)
        self.draw = draw_source(seed=rng.randrange(2 ** 32))
        self.kinds = []
        if rng.random() < 0.3:
            self.kinds.append("tree")
            self.main = Maker(rng, self.profile).file(self.codec, self.draw)
        else:
            pages = [bytearray(page) for page in rng.choice(sound[self.profile.page_size, self.profile.reserve])]
            for _ in range(rng.choice((0, 1, 1, 1, 2, 4))):
                self.spoil_plain(pages)
            self.main = b"".join(self.seal(n + 1, page) for n, page in enumerate(pages))
        self.journal = self.make_journal() if rng.random() < 0.35 else None
        for _ in range(rng.choice((0, 0, 0, 0, 0, 0, 1, 1, 2))):
            self.spoil_stored()
        self.fresh = bytes(rng.choice((0, 1, 1024, 5000))) if rng.random() < 0.1 else None
        self.key = WRONG_KEY if rng.random() < 0.03 else KEY
        if self.profile.is_plain:       # of it no line is read, so the first is that of the new key
            self.key = NEW_KEY
        self.kinds = sorted(set(self.kinds)) or ["sound"]

    def seal(self, n, plain):
        return self.codec.seal_page(n, bytes(plain), self.draw(self.profile.reserve))

    # -- plain pages, sealed afterwards

    def spoil_plain(self, pages):
        how = self.rng.choice(("byte", "byte", "head", "head", "field", "number", "number", "pointer", "pointer", "swap", "copy", "blank"))
        self.kinds.append(how)
        getattr(self, "plain_" + how)(pages)

    def edge(self, limit):
        rng = self.rng
        return rng.choice((rng.choice(EDGES), rng.randrange(limit + 2), limit, limit + 1))

    def plain_byte(self, pages):
        page = self.rng.choice(pages)
        for _ in range(self.rng.choice((1, 1, 2, 8))):
            page[self.rng.randrange(len(page))] = self.rng.randrange(256)

    def plain_head(self, pages):
        """A byte of the head of a tree's page, or of a trunk or a link."""
        n = self.rng.randrange(len(pages))
        at = self.rng.randrange(12) + (100 if n == 0 else 0)
        pages[n][at] = self.rng.choice((0, 1, 2, 5, 10, 13, 255, self.rng.randrange(256)))

    def plain_field(self, pages):
        """A field of the database's header."""
        at, size = self.rng.choice(((16, 2), (18, 1), (19, 1), (20, 1), (21, 1), (22, 1), (23, 1)) + tuple((at, 4) for at in range(24, 100, 4)))
        pages[0][at:at + size] = (self.edge(len(pages)) % 256 ** size).to_bytes(size, "big")

    def plain_number(self, pages):
        """Four bytes that may be a page's number, as of a child, a link or a root, become another number."""
        page = self.rng.choice(pages)
        places = [at for at in range(len(page) - 3) if 2 <= be(page, at) <= len(pages)]
        if places:
            at = self.rng.choice(places)
            page[at:at + 4] = self.edge(len(pages)).to_bytes(4, "big")

    def plain_pointer(self, pages):
        """Two cells of a page in each other's place, or a cell anywhere."""
        n = self.rng.randrange(len(pages))
        page, base = pages[n], 100 if n == 0 else 0
        start = base + (12 if page[base] in (2, 5) else 8)
        count = min(be(page, base + 3, 2), (len(page) - start) // 2)
        if count > 1 and self.rng.random() < 0.6:
            i, j = (start + 2 * it for it in self.rng.sample(range(count), 2))
            page[i:i + 2], page[j:j + 2] = page[j:j + 2], page[i:i + 2]
        elif count:
            at = start + 2 * self.rng.randrange(count)
            page[at:at + 2] = self.rng.randrange(2 ** self.rng.choice((8, 10, 12, 16))).to_bytes(2, "big")

    def plain_swap(self, pages):
        if len(pages) > 2:
            i, j = self.rng.sample(range(1, len(pages)), 2)
            pages[i], pages[j] = pages[j], pages[i]

    def plain_copy(self, pages):
        if len(pages) > 1:
            pages[self.rng.randrange(1, len(pages))] = bytearray(self.rng.choice(pages[1:]))

    def plain_blank(self, pages):
        n = self.rng.randrange(len(pages))
        pages[n][:] = bytes(len(pages[n]))

    # -- stored bytes, which no seal covers afterwards

    def spoil_stored(self):
        how = self.rng.choice(("flip", "flip", "exchange", "zeros", "cut", "cut", "longer", "longer", "other"))
        self.kinds.append(how)
        size, main, rng = self.profile.page_size, bytearray(self.main), self.rng
        count = len(main) // size
        if how == "flip":
            main[rng.randrange(len(main))] ^= 1 << rng.randrange(8)
        elif how == "exchange" and count > 2:
            i, j = (it * size for it in rng.sample(range(count), 2))
            main[i:i + size], main[j:j + size] = main[j:j + size], main[i:i + size]
        elif how == "zeros":
            at = rng.randrange(max(1, count)) * size
            main[at:at + size] = bytes(size)
        elif how == "cut":
            at = rng.choice((rng.randrange(len(main)), rng.randrange(max(1, count)) * size))
            del main[max(0, at + rng.choice((-1, 0, 0, 1))):]
        elif how == "longer":
            main += rng.choice((bytes(1), bytes(size), rng.randbytes(size), main[:size], rng.randbytes(rng.randrange(3 * size))))
        elif how == "other" and rng.random() < 0.3:
            main = bytearray(rng.choice((b"SQLite format 3\0" + main[16:], rng.randbytes(2 * size), b"x")))
        self.main = bytes(main) or b"\0"

    # -- journals

    def make_journal(self):
        """A journal of the file as it is, and then a file that was changed since. Most are hot and whole, many are damaged."""
        rng, size = self.rng, self.profile.page_size
        self.kinds.append("journal")
        count = len(self.main) // size
        sector = rng.choice((512, 512, 512, 512, 1024, 4096, 32, 65536))
        initial = count if rng.random() < 0.85 else rng.choice((0, 1, count - 1, count + 1, count + 3))
        numbers = rng.sample(range(1, count + 1), rng.randint(1, count))
        if rng.random() < 0.1:
            numbers.append(rng.choice((0, count + 1, count + 2, numbers[0])))
        journal = bytearray()
        parts = rng.choice((1, 1, 1, 2, 3))
        for part in range(parts):
            given = numbers[part::parts]
            nonce = rng.randrange(2 ** 32)
            said = len(given) if rng.random() < 0.8 else rng.choice((0, 2 ** 32 - 1, 2 ** 32 - 1, len(given) + 1, max(0, len(given) - 1), 2 ** 31))
            journal += bytes(-len(journal) % sector)
            header = JOURNAL_MAGIC + b"".join(it.to_bytes(4, "big") for it in (said, nonce, initial, sector, size))
            if sector == 512 and rng.random() < 0.5:
                header += JOURNAL_MARK
            journal += header.ljust(sector, b"\0")[:max(sector, len(header) if sector < 28 else sector)]
            for number in given:
                image = self.main[(number - 1) * size:number * size].ljust(size, b"\0") if number else bytes(size)
                journal += number.to_bytes(4, "big") + image + journal_checksum(nonce, image).to_bytes(4, "big")
        self.change_main(numbers, count)
        if rng.random() < 0.5:
            self.kinds.append("spoilt journal")
            journal = self.spoil_journal(journal, sector)
        return bytes(journal)

    def change_main(self, numbers, count):
        """What a stopped transaction may have left: some of the recorded pages are others, and the file may be longer."""
        size, main = self.profile.page_size, bytearray(self.main)
        for number in numbers:
            if 1 <= number <= count and self.rng.random() < 0.6:
                at = (number - 1) * size
                other = Codec(self.profile, NEW_KEY, SALT)
                page = other.seal_page(number, self.rng.randbytes(self.profile.usable), self.draw(self.profile.reserve))
                main[at:at + size] = self.rng.choice((page, bytes(size), main[-size:]))
        if self.rng.random() < 0.3:
            main += self.rng.randbytes(self.rng.choice((1, size, 2 * size + 7)))
        self.main = bytes(main)

    def spoil_journal(self, journal, sector):
        rng = self.rng
        how = rng.choice(("flip", "flip", "head", "cut", "cut", "longer", "closed", "empty", "super", "zeros", "any"))
        if how == "flip":
            for _ in range(rng.choice((1, 1, 3))):
                journal[rng.randrange(len(journal))] ^= 1 << rng.randrange(8)
        elif how == "head":
            at = rng.choice((8, 12, 16, 20, 24))
            journal[at:at + 4] = rng.choice((self.edge(40), 512, 1024, 4096)).to_bytes(4, "big")
        elif how == "cut":
            del journal[rng.choice((rng.randrange(len(journal)), rng.randrange(30), sector)):]
        elif how == "longer":
            journal += rng.randbytes(rng.choice((1, 4, 512, 2000)))
        elif how == "closed":
            journal[0] = 0
        elif how == "empty":
            del journal[:]
        elif how == "super":
            name = b"other-mj1234"
            journal += (1).to_bytes(4, "big") + name + len(name).to_bytes(4, "big") + (sum(name) & 0xFFFFFFFF).to_bytes(4, "big") + JOURNAL_MAGIC
        elif how == "zeros":
            at = rng.randrange(len(journal))
            journal[at:at + 600] = bytes(len(journal[at:at + 600]))
        else:
            journal = bytearray(rng.randbytes(rng.choice((1, 27, 28, 600))))
        return journal

    def is_small(self):
        """Whether no record of the journal asks for a file of many pages, which would only take time."""
        if self.journal is None or not self.main:
            return True
        sector, size = journal_sector(self.main, self.journal), self.profile.page_size
        if not sector or be(self.journal, 24) != size:
            return True
        initial = be(self.journal, 16)
        segments = journal_segments(self.journal, sector, size)
        return all(number > initial or number < 4000 for _, _, _, records in segments for number, _ in records)

    def write(self, folder):
        for name, data in (("file", self.main), ("file-journal", self.journal), ("file-migrated", self.fresh)):
            if data is not None:
                with open(os.path.join(folder, name), "wb") as out:
                    out.write(data)


def hostile(seed, number, sound):
    """The file of this number: the first of its tries that is small enough."""
    for turn in range(50):
        found = Hostile(seed, f"{number} {turn}" if turn else number, sound)
        if found.is_small():
            return found
    raise AssertionError("no small file")


# ------------------------------------------------------------------ what may be answered

class Answers:
    """What each command may say of a file, and what it may leave: `wrong(command, status, text, files)` says what is wrong, or none."""

    def __init__(self, file):
        self.file, self.word, self.profile = file, file.word, file.profile
        try:
            self.line, self.recovered = recover(file.main, file.journal, self.profile.page_size)
            self.refusal = None
        except Refused as refusal:
            self.line, self.recovered, self.refusal = None, file.main, refusal
        self.journal = file.journal if self.refusal or self.line == "nothing" else None
        self.codec = Codec(self.profile, file.key, self.recovered[:16])
        self.shared, self.searched = {}, None
        self.finds = self.choose_finds()
        self.file.find = next(self.finds)

    def database(self):
        return Parts(whole_main(self.recovered, self.profile), self.codec)

    def allowed(self, command):
        """(status, [texts that may be printed, the reference's first]) of a command that reads or refuses; status 0 where it may be done."""
        if command not in self.shared:
            try:
                self.shared[command] = getattr(self, "allowed_" + command)()
            except Refused as refusal:
                self.shared[command] = refusal.code, [f"{refusal}\n"]
        return self.shared[command]

    def ready(self):
        """What comes before each command's own look: the recovery, and that there is a page."""
        if self.refusal:
            raise self.refusal
        return whole_main(self.recovered, self.profile)

    def allowed_tags(self):
        if not self.profile.tag_len:
            raise Refused("profile has no tags")
        lines, status = tag_lines(self.ready(), self.codec)
        return status, ["".join(f"{line}\n" for line in lines)]

    def allowed_header(self):
        self.ready()
        return 0, [header_text(self.database())]

    def allowed_verify(self):
        self.ready()
        lines = self.database().answers()
        try:
            first = " | ".join(verify_lines(Database(self.recovered, self.codec))[0])
        except Refused as refusal:
            first = str(refusal)
        return self.with_first(first, lines, "ok: ")

    def allowed_export(self):
        self.ready()
        database = self.database()
        try:
            text = "".join(f"{line}\n" for line in export_lines(Database(self.recovered, self.codec)))
            return 0, [text]
        except Refused as refusal:
            return self.with_first(str(refusal), database.walk_answers(), "ok: ")

    def allowed_agree(self):
        self.ready()
        database = self.database()
        try:
            lines, status = agree_lines(Database(self.recovered, self.codec))
            return status, ["".join(f"{line}\n" for line in lines)]
        except Refused as refusal:
            return self.with_first(str(refusal), database.walk_answers(), "ok: ")

    @staticmethod
    def with_first(first, lines, done):
        if first not in lines:
            raise AssertionError(f"the reference answers '{first}', which is none of {lines}")
        texts = [first] + [line for line in lines if line != first]
        return (0 if first.startswith(done) else 2), [line.replace(" | ", "\n") + "\n" for line in texts]

    def choose_finds(self):
        """(name, low, high) again and again: mostly of a table that the schema has, about rowids that are there."""
        rng, tables, names = random.Random(f"{self.file.name} find"), [], ["none", "T", "a_t", "v"]
        try:
            database = self.database()
            for _, values, root in database.schema_part()[0]:
                name = values[1][1].decode(errors="replace") if values[1][0] == "text" else ""
                if name.isascii() and name.isprintable():
                    names.append(name)
                    entries, defects = database.tree(root, (5, 13)) if root and values[0] == ("text", b"table") else ([], [root])
                    tables += [(name, [rowid for _, rowid, _ in entries])] if entries or not defects else []
        except Refused:
            pass
        while True:
            name, rowids = rng.choice(tables) if tables and rng.random() < 0.9 else (rng.choice(names), [])
            one, other = rng.choice(rowids or [-1, 0, 1, 5, MOST]), rng.choice(rowids or [7])
            low, high = rng.choice(((one, one), (one, one), (one, other), (one, other), (min(one, other), max(one, other)), (LEAST, MOST),
                                    (LEAST, one), (one, MOST), (one, one - 1), (one + 1, one + 2), (one - 2, one - 1)))
            yield name, min(max(low, LEAST), MOST), min(max(high, LEAST), MOST)

    def allowed_find(self):
        return self.found(self.file.find)

    def found(self, find):
        """What the reference answers to these words of `find`: it walks to the first defect on its way, and prints the rows before it."""
        self.ready()
        name, low, high = find
        lines, database, status = [], Database(self.recovered, self.codec), 0
        try:
            for line in find_lines(database, name.encode(), low, high):
                lines.append(line)
        except Refused as refusal:
            lines.append(str(refusal))
            status = refusal.code
        text = "".join(f"{line}\n" for line in lines)
        wrong = self.wrong_find(find, status, text)
        if wrong:
            raise AssertionError(f"the reference answers {text!r:.300} to {find}: {wrong}")
        return status, [text]

    def wrong_find(self, find, status, text):
        """What is wrong with an answer to these words of `find`, or none. Any defect of the schema may be said, then any of the tree."""
        try:
            return self.find_answers(find).wrong(status, text)
        except Refused as refusal:
            return None if (status, text) == (refusal.code, f"{refusal}\n") else f"status {refusal.code} is wanted with '{refusal}'"

    def find_answers(self, find):
        self.ready()
        self.searched = self.searched or self.database()
        name, low, high = find
        return self.searched.find_answers(name.encode(), low, high)

    def allowed_salvage(self):
        return 0, ["".join(f"{line}\n" for line in salvage_lines(self.ready(), self.codec))]

    def allowed_probe(self):
        if self.file.journal is not None:
            raise Refused("journal is there")
        return 0, [probe_line(self.file.main, self.file.key) + "\n"]

    def allowed_recover(self):
        if self.refusal:
            raise self.refusal
        return 0, [self.line + "\n"]

    def allowed_stamp(self):
        status, texts = self.allowed("header")
        return (status, texts) if status else (0, ["stamped\n"])

    def allowed_rekey(self):
        if self.profile.is_plain:
            raise Refused("layout differs")
        self.ready()
        if self.allowed("verify")[0] == 0:
            return 0, [f"rekeyed: {self.database().count} pages\n"]
        return 2, [f"{line}\n" for line in self.database().rekey_answers()]

    def allowed_migrate(self):
        status, texts = self.allowed("export")
        return (status, texts) if status else (0, None)

    # -- what is left

    def wrong(self, command, status, text, left):
        """`left` has the bytes of the three files, none where there is no file."""
        if status >= 128:
            return f"it crashed or was stopped: {status}"
        wanted, texts = self.allowed(command)
        if command == "find":
            wrong = self.wrong_find(self.file.find, status, text)
            if wrong:
                return wrong
        elif status != wanted:
            return f"status {status}, and {wanted} is wanted with {(texts or ['migrated'])[0]!r:.200}"
        elif texts is not None and text not in texts:
            return f"none of {texts!r:.600} is printed"
        if wanted == 0 and command in ("stamp", "rekey", "migrate"):
            return self.wrong_change(command, text, left)
        keeps_all = command == "probe" or command == "tags" and not self.profile.tag_len or command == "rekey" and self.profile.is_plain
        return self.wrong_left(left, *((self.file.main, self.file.journal) if keeps_all else (self.recovered, self.journal)))

    def wrong_left(self, left, main, journal):
        if left == (main, journal, self.file.fresh):
            return None
        return "the files are not left as they were: " + ", ".join(
            name for name, is_left, was in zip(("file", "journal", "migrated"), left, (main, journal, self.file.fresh)) if is_left != was)

    def wrong_change(self, command, text, left):
        main, journal, fresh = left
        if journal is not None or fresh != (None if command == "migrate" else self.file.fresh):
            return "a journal or a second file is left"
        try:
            return getattr(self, "wrong_" + command)(main, text)
        except Refused as refusal:
            return f"the reference refuses the new file: {refusal}"

    def wrong_stamp(self, main, _text):
        size, old = self.profile.page_size, self.database()
        new = Database(main, self.codec)
        if main[size:old.count * size] != self.recovered[size:old.count * size] or main[:16] != self.recovered[:16]:
            return "another page than the first was changed"
        before, after = old.codec.open_page(1, old.stored(1)), new.codec.open_page(1, new.stored(1))
        change = (old.header.change + 1) % 2 ** 32
        wanted = bytearray(before)
        for at, value in ((24, change), (28, old.count), (60, NUMBER), (92, change)):
            wanted[at:at + 4] = value.to_bytes(4, "big")
        return None if bytes(wanted) == after else "page 1 is not the old one with the number"

    def wrong_rekey(self, main, _text):
        codec, old = Codec(self.profile, NEW_KEY, main[:16]), self.database()
        new = Parts(main, codec)
        lines = old.answers()
        if main[:16] != self.recovered[:16] or new.count != old.count or new.answers() != lines:
            return f"the new file is another one: {new.answers()!r:.300}"
        for n in range(1, old.count + 1):
            wanted = bytes(old.usable) if n in old.leaves else old.plain(n)
            if not new.tag(n) or new.plain(n) != wanted:
                return f"page {n} is another one"
        return None

    def wrong_migrate(self, main, text):
        other = WORDS[self.file.other]
        if text != f"migrated: {len(main) // other.page_size} pages\n" or len(main) % other.page_size:
            return f"{text!r} of a file of {len(main)} bytes"
        new = Database(main, Codec(other, NEW_KEY, main[:16]))
        if "".join(f"{line}\n" for line in export_lines(new)) != self.allowed("export")[1][0]:
            return "the new file has other rows"
        lines, status = verify_lines(Database(main, new.codec))
        return None if status == 0 and lines[0].endswith(" 0 free pages, 0 unused pages") else f"of the new file is said: {lines}"


# ------------------------------------------------------------------ runs

def words_of(command, file):
    rest = {"probe": [], "stamp": [file.word, "user-version", str(NUMBER)], "rekey": [file.word, file.word], "migrate": [file.word, file.other],
            "find": find_words(file, file.find)}
    return [command] + rest.get(command, [file.word])


def find_words(file, find):
    return [file.word, *map(str, find)]


def lay(folder, name, file):
    """A new folder of this name with the file, and the keys beside it."""
    place = os.path.join(folder, name)
    os.makedirs(place, exist_ok=True)
    for old in os.listdir(place):
        os.remove(os.path.join(place, old))
    file.write(place)
    with open(os.path.join(folder, "keys"), "wb") as keys:
        keys.write(file.key + b"\n" + NEW_KEY + b"\n")
    return place


def statuses_of(program, runs):
    """The status of each run, or what is wrong with all of them. A run is (folder, words, where its text goes)."""
    script = [f"ulimit -v {MEMORY}; ulimit -t {SECONDS}; ulimit -c 0"]
    for place, words, text in runs:
        script.append(f'cd {place} && {{ "$0" file {shlex.join(words)} < ../keys > ../{text}.text 2> ../{text}.errors; echo $?; cd ..; }}')
    started = subprocess.Popen(["sh", "-c", "\n".join(script), program], stdout=subprocess.PIPE, start_new_session=True)
    try:
        statuses = started.communicate(timeout=HANGS)[0].split()
    except subprocess.TimeoutExpired:
        os.killpg(started.pid, signal.SIGKILL)
        started.wait()
        return f"a command takes more than {HANGS} seconds"
    if len(statuses) != len(runs):
        return f"{len(statuses)} commands of {len(runs)} ended"
    return list(map(int, statuses))


def run_all(program, folder, file):
    """{command: (status, text, files left)}, or what is wrong with all of them. Each runs in a folder of its own."""
    statuses = statuses_of(program, [(lay(folder, command, file), words_of(command, file), command) for command in COMMANDS])
    if isinstance(statuses, str):
        return statuses
    return {command: (status, text_of(folder, command), left_in(folder, command)) for command, status in zip(COMMANDS, statuses)}


def run_finds(program, folder, file, finds):
    """([(status, text)] of these runs of `find` after one another, files left), or what is wrong with all of them."""
    place = lay(folder, "find", file)
    statuses = statuses_of(program, [(place, ["find", *find_words(file, find)], f"find-{number}") for number, find in enumerate(finds)])
    if isinstance(statuses, str):
        return statuses
    return [(status, text_of(folder, f"find-{number}")) for number, status in enumerate(statuses)], left_in(folder, "find")


def read_or_none(path):
    try:
        with open(path, "rb") as source:
            return source.read()
    except FileNotFoundError:
        return None


def text_of(folder, name):
    return read_or_none(os.path.join(folder, name + ".text")).decode(errors="replace")


def left_in(folder, name):
    return tuple(read_or_none(os.path.join(folder, name, file)) for file in ("file", "file-journal", "file-migrated"))


def say(text):
    print(text, flush=True)


def sound_of_layouts():
    layouts = {(it.page_size, it.reserve): it for it in WORDS.values()}
    return {layout: sound_files(profile) for layout, profile in layouts.items()}


def run(program, folder, seed, first, count):
    sound = sound_of_layouts()
    counts = collections.Counter()
    for number in range(first, first + count):
        file = hostile(seed, number, sound)
        answers = Answers(file)
        found = run_all(program, folder, file)
        counts["files"] += 1
        counts["journals"] += file.journal is not None
        counts["played back"] += bool(answers.line and answers.line.startswith("played"))
        if isinstance(found, str):
            counts["wrong"] += 1
            say(f"file {number} of seed {seed} ({', '.join(file.kinds)}): {found}")
            continue
        for command, (status, text, left) in found.items():
            counts["runs"] += 1
            wrong = answers.wrong(command, status, text, left)
            if wrong:
                counts["wrong"] += 1
                say(f"file {number} of seed {seed} ({', '.join(file.kinds)}), {' '.join(words_of(command, file))}: "
                    f"{text!r:.200} with status {status}: {wrong}")
            elif status == 0:
                counts["changed" if command in ("stamp", "rekey", "migrate") else "sound or done"] += 1
            else:
                counts["refused"] += 1
                counts["another defect of the same part"] += text != answers.allowed(command)[1][0]
    end(counts, ("files", "journals", "played back", "runs", "sound or done", "changed", "refused", "another defect of the same part", "wrong"))


def finds(program, folder, seed, first, count):
    """Many runs of `find` on each file whose schema can be read, and whose key fits."""
    sound = sound_of_layouts()
    counts = collections.Counter()
    for number in range(first, first + count):
        file = hostile(seed, number, sound)
        answers = Answers(file)
        counts["files"] += 1
        try:
            answers.ready()
            if answers.database().schema_part()[1]:
                continue
        except Refused:
            continue
        counts["looked into"] += 1
        asked = [find for find, _ in zip(answers.finds, range(FINDS))]
        found = run_finds(program, folder, file, asked)
        label = f"file {number} of seed {seed} ({', '.join(file.kinds)})"
        if isinstance(found, str):
            counts["wrong"] += 1
            say(f"{label}: {found}")
            continue
        answered, left = found
        wrong = answers.wrong_left(left, answers.recovered, answers.journal)
        if wrong:
            counts["wrong"] += 1
            say(f"{label}: {wrong}")
        for find, (status, text) in zip(asked, answered):
            wrong = answers.wrong_find(find, status, text)
            counts["runs"] += 1
            if wrong:
                counts["wrong"] += 1
                say(f"{label}, find {' '.join(find_words(file, find))}: {text!r:.200} with status {status}: {wrong}")
                continue
            has_defect = bool(answers.find_answers(find).refusals)
            counts["done beside a defect" if status == 0 and has_defect else "done" if status == 0 else
                   "no such table" if text == "no such table\n" else "refused"] += 1
            counts["rows before a refusal"] += status == 2 and text.count("\n") > 1
            counts["another answer"] += (status, [text]) != answers.found(find)
    end(counts, ("files", "looked into", "runs", "done", "done beside a defect", "refused", "rows before a refusal", "no such table",
                 "another answer", "wrong"))


def end(counts, names):
    say("\t".join(f"{name}={counts[name]}" for name in names))
    sys.exit(1 if counts["wrong"] else 0)


def make(seed, number, folder):
    file = hostile(seed, number, sound_of_layouts())
    os.makedirs(folder, exist_ok=True)
    file.write(folder)
    with open(os.path.join(folder, "keys"), "wb") as keys:
        keys.write(file.key + b"\n" + NEW_KEY + b"\n")
    answers = Answers(file)
    say(f"version {file.word}, migrated to {file.other}: {', '.join(file.kinds)}")
    for command in COMMANDS:
        status, texts = answers.allowed(command)
        say(f"{' '.join(words_of(command, file))}: {status} {texts!r:.400}")


if __name__ == "__main__":
    if len(sys.argv) == 5 and sys.argv[1] == "make":
        make(sys.argv[2], int(sys.argv[3]), sys.argv[4])
    elif len(sys.argv) in (6, 7) and (len(sys.argv) == 6 or sys.argv[1] == "finds"):
        program, folder, seed, first, count = sys.argv[-5:]
        (run if len(sys.argv) == 6 else finds)(os.path.abspath(program), os.path.abspath(folder), seed, int(first), int(count))
    else:
        sys.exit(__doc__)
