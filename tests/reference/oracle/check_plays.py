#!/usr/bin/env python3
"""Drives scripts by `play` and beside the machine of tests/session_machine.py, over files of the reference: the answers line by line, and
the file afterwards.

    check_plays.py random PROGRAM FOLDER SEED FIRST COUNT      scripts at random, of every profile: damaged pages, journals, wrong keys
    check_plays.py orders PROGRAM FOLDER [DEPTH]               every step from each state that the machine's walk has within DEPTH
    check_plays.py forms PROGRAM FOLDER SEED COUNT             lines that are nearly steps
    check_plays.py table PROGRAM FOLDER PROFILE FILE TABLE     a table of lines and answers, each with the locks after it
    check_plays.py make FILE PROFILE ROWS [KIND]               a file of that many rows, each on a page of its own; KIND is a journal beside it
    check_plays.py stops PROGRAM FOLDER PROFILE SCRIPT [PRODUCT [OPENING]]     what stops of that script left

The draws of a commit are free, so a page that it sealed is compared as it opens; every other page is as it was stored.
Each wrong answer is a line of standard output. The last line is tab-separated `name=count` words for tests/play.sh to add up.
"""
import collections
import functools
import itertools
import os
import random
import re
import shutil
import sqlite3
import subprocess
import sys
import tempfile
from typing import NamedTuple

TOP = os.path.dirname(os.path.dirname(os.path.dirname(os.path.dirname(os.path.abspath(__file__)))))
sys.path[:0] = [os.path.join(TOP, "tests"), os.path.dirname(os.path.abspath(__file__))]
import session_machine as machine
import sqlcipher_formats as formats
from sqlcipher_oracle import blank_plain

K0 = b"x'000102030405060708090a0b0c0d0e0f101112131415161718191a1b1c1d1e1f'"
K1 = b"x'" + b"f" * 64 + b"'"
SALT = bytes(range(64, 80))
LONGEST, MOST_LINES, SESSIONS = 1100, 100000, 16
LETTERS = {machine.CLOSED: "-", machine.UNLOCKED: "U", machine.SHARED: "S", machine.RESERVED: "R", machine.PENDING: "P"}


# ------------------------------------------------------------------ pages, by the reference

class Access(NamedTuple):
    word: str
    key: bytes      # none for a plain profile

    @property
    def profile(self):
        return formats.WORDS[self.word]


@functools.lru_cache(maxsize=256)
def database(file, access):
    return formats.Database(*open_main(file, access))


def open_main(file, access):
    return formats.whole_main(file, access.profile), codec_of(access, bytes(file[:16]))


@functools.lru_cache(maxsize=1024)
def codec_of(access, salt):
    return formats.Codec(access.profile, access.key, salt)


class FilePages:
    """Pages of stored files, for the machine."""

    def __init__(self, word):
        self.profile = formats.WORDS[word]
        self.usable = self.profile.usable

    def fits(self, access):
        layout = access.profile.page_size, access.profile.reserve
        return layout == (self.profile.page_size, self.profile.reserve) and (access.key is None) == access.profile.is_plain

    def count(self, file, access):
        try:
            return database(file, access).count
        except formats.Refused as refusal:
            raise machine.Refused(str(refusal)) from None

    def page(self, file, access, n):
        db = database(file, access)
        stored = db.stored(n)
        return db.codec.open_page(n, stored) if db.codec.tag_holds(n, stored) else None

    def sealed(self, file, access, pages):
        codec, size, new = codec_of(access, bytes(file[:16])), self.profile.page_size, bytearray(file)
        for n, plain in pages.items():
            new[(n - 1) * size:n * size] = codec.seal_page(n, plain, bytes(self.profile.reserve))
        return bytes(new)


# ------------------------------------------------------------------ the forms of a line

def number_of(word, most):
    return int(word) if re.fullmatch(rb"[0-9]{1,10}", word) and int(word) <= most else None


def access_of(text):
    """Profile and key of what stands at the end of a line, or none."""
    word, space, key = text.partition(b" ")
    word = word.decode("latin-1")
    if word not in formats.WORDS:
        return None
    if formats.WORDS[word].is_plain:
        return None if space else Access(word, None)
    return Access(word, key) if 1 <= len(key) <= 1024 and not formats.hex_form(key, 96) else None


def step_of(line, usable):
    """(session, step, byte that is printed of a page) of a line, or none where it has none of the forms."""
    if line == b"stop":
        return 0, ("stop",), None
    name, *words = line.split(b" ", 2)
    if name in (b"open", b"rekey"):
        number, access = number_of(words[0], SESSIONS - 1) if words else None, access_of(words[1]) if len(words) == 2 else None
        return None if number is None or access is None else (number, (name.decode(), access), None)
    most = {b"share": (), b"reserve": (), b"commit": (), b"release": (), b"read": (2 ** 32 - 1, usable - 1),
            b"change": (2 ** 32 - 1, usable - 1, 255)}.get(name)
    words = line.split(b" ")[1:]
    if most is None or len(words) != len(most) + 1:
        return None
    number, *values = [number_of(word, top) for word, top in zip(words, (SESSIONS - 1, *most))]
    if number is None or None in values:
        return None
    return (number, ("read", values[0]), values[1]) if name == b"read" else (number, (name.decode(), *values), None)


def line_of(number, step, at=None):
    """The line of a step."""
    name, *values = step
    if name == "stop":
        return b"stop"
    if name in ("open", "rekey"):
        return b" ".join([name.encode(), b"%d" % number, values[0].word.encode(), *([] if values[0].key is None else [values[0].key])])
    return " ".join(map(str, [name, number, *values, *([at] if name == "read" else [])])).encode()


def lines_of(script):
    """The lines of a script, without their line feeds. What is no line is refused where it stands."""
    at = 0
    for number in itertools.count(1):
        if at == len(script):
            return
        if number > MOST_LINES:
            raise formats.Refused(f"more than {MOST_LINES} lines")
        line = script[at:at + LONGEST + 1].partition(b"\n")[0]
        if len(line) > LONGEST:
            raise formats.Refused(f"line {number}: too long")
        yield line
        at += len(line) + 1 if at + len(line) < len(script) else len(line)


class Played:
    """What a script does to a file by the machine: the answers, the state after each, the pages that a commit sealed."""

    def __init__(self, word, file):
        self.machine = machine.Machine(FilePages(word))
        self.state = machine.State(file, (machine.Session(),) * SESSIONS)
        self.answers, self.states, self.status = [], [self.state], 0
        self.sealed, self.access, self.commits = set(), None, [(file, set(), None)]

    def take(self, number, step, at=None):
        me, machine_ = self.state.sessions[number], self.machine
        answer, new = machine_.step(self.state, number, *step)
        if step[0] == "commit" and answer == machine.DONE:
            self.access = new.sessions[number].access
            pages = range(1, machine_.pages.count(new.file, self.access) + 1) if me.renewed else [n for n, _ in me.changes]
            self.sealed = self.sealed | set(pages)
            self.commits.append((new.file, self.sealed, self.access))
        self.state = new
        self.states.append(new)
        self.answers.append(f"byte {answer[at]}" if isinstance(answer, bytes) else answer)
        return self.answers[-1]

    def script(self, script):
        """Takes the whole script."""
        try:
            for number, line in enumerate(lines_of(script), 1):
                found = step_of(line, self.machine.pages.usable)
                if found is None:
                    raise formats.Refused(f"line {number}: no step")
                self.take(*found)
        except formats.Refused as refusal:
            self.answers.append(str(refusal))
            self.status = refusal.code
        return self

    def locks(self, state=None):
        return "".join(LETTERS[it.lock] for it in (state or self.state).sessions)


def difference(found, file, sealed, access, size, drawn=True):
    """What is wrong about a file of which these pages were sealed by a commit, beside the machine's; else nothing."""
    if len(found) != len(file):
        return f"it has {len(found)} bytes, and {len(file)} are wanted"
    ivs = collections.Counter()
    for n in range(1, -(-len(file) // size) + 1):
        ours, theirs = file[(n - 1) * size:n * size], found[(n - 1) * size:n * size]
        if n not in sealed:
            if ours != theirs:
                return f"page {n} is not stored as it was"
            continue
        codec = codec_of(access, bytes(file[:16]))
        if n == 1 and theirs[:16] != file[:16]:
            return "the salt is another one"
        if not codec.tag_holds(n, theirs):
            return f"page {n} is refused"
        if codec.open_page(n, theirs) != codec.open_page(n, ours):
            return f"page {n} opens to other bytes"
        if not access.profile.is_plain:
            ivs[theirs[codec.profile.usable:codec.profile.usable + 16]] += 1
    if drawn and (bytes(16) in ivs or any(many > 1 for many in ivs.values())):
        return "two pages have one draw"
    return None


# ------------------------------------------------------------------ files

@functools.lru_cache(maxsize=None)
def rows_plain(word, rows):
    """A plain file of a table `t` whose rows lie on pages of their own, with a number of one byte each, 100 at first; and of each row the
    page and the place of this byte."""
    profile = formats.WORDS[word]
    with tempfile.TemporaryDirectory() as folder:
        path = os.path.join(folder, "plain.db")
        formats.write_file(path, blank_plain(profile.page_size, profile.reserve))
        db = sqlite3.connect(path, isolation_level=None)
        db.execute("BEGIN")
        db.execute("CREATE TABLE t(id INTEGER PRIMARY KEY, tag INTEGER, body BLOB)")
        for i in range(1, rows + 1):
            db.execute("INSERT INTO t VALUES(?, 100, ?)", (i, random.Random(i).randbytes(profile.usable * 2 // 3)))
        db.execute("COMMIT")
        db.close()
        plain = formats.read_file(path)
    places = []
    for n in range(2, len(plain) // profile.page_size + 1):
        page = plain[(n - 1) * profile.page_size:][:profile.usable]
        if page[0] == formats.TABLE_LEAF and formats.be(page, 3, 2):
            cell = formats.be(page, 8, 2)
            body = formats.read_cell(page, cell, formats.TABLE_LEAF)
            places.append((body.rowid, n, page.index(body.local, cell) + body.local[0]))
    return plain, tuple((n, at) for _, n, at in sorted(places))


def rows_file(word, rows, key=K0):
    """Such a file as it is stored, and the places of its numbers."""
    plain, places = rows_plain(word, rows)
    return formats.encrypt(plain, codec_of(Access(word, key), SALT), random.Random(rows).randbytes), places


def journal_of(main, numbers, size, rng):
    """A hot journal of these pages as they stand in a file."""
    head = formats.JOURNAL_MAGIC + b"".join(it.to_bytes(4, "big") for it in (len(numbers), 9, len(main) // size, 512, size))
    text = head + bytes(512 - len(head))
    for n in numbers:
        image = main[(n - 1) * size:n * size]
        text += n.to_bytes(4, "big") + image + formats.journal_checksum(9, image).to_bytes(4, "big")
    return text


def lay(path, main, journal=None):
    formats.write_file(path, main)
    if journal is not None:
        formats.write_file(path + "-journal", journal)
    elif os.path.exists(path + "-journal"):
        os.remove(path + "-journal")


# ------------------------------------------------------------------ the program beside the machine

class Trial:
    def __init__(self, program, folder):
        self.program, self.path, self.counts = os.path.abspath(program), os.path.join(folder, "file"), collections.Counter(wrong=0)

    def wrong(self, text):
        self.counts["wrong"] += 1
        print(text, flush=True)

    def run(self, word, script):
        done = subprocess.run([self.program, self.path, "play", word], input=script, capture_output=True, timeout=600)
        return done.returncode, done.stdout

    def compare(self, name, word, script, status, answers):
        """Runs a script, which has to end so and to answer this."""
        ended, text = self.run(word, script)
        self.counts["scripts"] += 1
        self.counts["lines"] += len(answers)
        found = text.decode("latin-1").split("\n")
        if found.pop() or found != answers or ended != status:
            at = next((at for at, (one, other) in enumerate(zip(found, answers)) if one != other), min(len(found), len(answers)))
            line = script.split(b"\n")[at] if at <= script.count(b"\n") else b""
            self.wrong(f"{name}, profile {word}: ends with {ended}, and {status} is wanted; {len(found)} answers of {len(answers)}; line {at + 1}, "
                       f"{line[:60]!r}, is answered {found[at:at + 1]}, and {answers[at:at + 1]} is wanted")
            return False
        return True

    def look(self, name, word, played):
        """The file afterwards is the machine's, and no journal is left."""
        problem = difference(formats.read_file(self.path), played.state.file, played.sealed, played.access, formats.WORDS[word].page_size)
        if problem is None and os.path.exists(self.path + "-journal"):
            problem = "a journal is left"
        if problem:
            self.wrong(f"{name}, profile {word}: the file: {problem}")

    def end(self, *names):
        print("\t".join(f"{name}={self.counts[name]}" for name in ("scripts", "lines", *names, "wrong")))
        return 1 if self.counts["wrong"] else 0


# ------------------------------------------------------------------ scripts at random

# Each profile with keys to open it by: raw ones, and a passphrase where its key is soon derived.
PROFILES = ["1", "2", "3", "3", "4", "4", "4:1024", "4:65536", "plain:512", "plain:4096", "plain:65536"]
WEIGHTS = {
    machine.CLOSED: {"open": 9, "share": 1},
    machine.UNLOCKED: {"share": 12, "open": 2, "release": 1, "read": 1},
    machine.SHARED: {"read": 4, "reserve": 5, "release": 3, "share": 1, "commit": 1, "change": 1},
    machine.RESERVED: {"change": 9, "read": 4, "commit": 4, "rekey": 3, "release": 1, "reserve": 1},
    machine.PENDING: {"commit": 5, "read": 3, "release": 1, "change": 1, "rekey": 1},
}


class Writer:
    """Writes one script at random, step by step as the machine answers."""

    def __init__(self, rng, word, played, pages):
        self.rng, self.word, self.played, self.pages = rng, word, played, pages
        self.numbers = rng.sample(range(SESSIONS), rng.choice((1, 2, 3, 3, 4, 6, 16)))
        self.keys = [K0, K1] + ([b"a pass phrase", b" "] if word in ("1", "2") else [])
        self.words = {"2": ["2", "2", "2", "3"], "3": ["3", "3", "3", "2", "4"], "4": ["4", "4", "4", "4:4096", "4:1024", "1"]}.get(word, [word] * 5 + ["4"])
        self.right = Access(word, None if formats.WORDS[word].is_plain else K0)
        self.changed = []       # the last places that were changed, which others look at

    def access(self):
        right = self.played.access or self.right
        if self.rng.random() < 0.7:
            return right
        word = self.rng.choice(self.words)
        return Access(word, None if formats.WORDS[word].is_plain else self.rng.choice(self.keys))

    def step(self):
        rng, usable = self.rng, self.played.machine.pages.usable
        if rng.random() < 0.004:
            return 0, ("stop",), None
        number = rng.choice(self.numbers)
        weights = WEIGHTS[self.played.state.sessions[number].lock]
        name = rng.choices(list(weights), weights.values())[0] if rng.random() < 0.95 else rng.choice(list(WEIGHTS[machine.RESERVED]))
        n = rng.randint(1, self.pages) if rng.random() < 0.95 else rng.choice((0, self.pages + 1, 2 ** 32 - 1))
        at = rng.choice((0, 99, 100, usable - 1, rng.randrange(usable)))
        if name == "open":
            return number, (name, self.access()), None
        if name == "rekey":
            return number, (name, self.access() if rng.random() < 0.4 or self.right.key is None else self.right._replace(key=rng.choice(self.keys))), None
        if name == "change":
            self.changed = self.changed[-3:] + [(n, at if at >= 100 or rng.random() < 0.3 else rng.randrange(100, usable))]
            return number, (name, *self.changed[-1], rng.randrange(256)), None
        if name == "read":
            n, at = rng.choice(self.changed) if self.changed and rng.random() < 0.7 else (n, at)
            return number, (name, n), at
        return number, (name,), None


def damaged(rng, word, main, profile):
    """The file with something wrong, or as it is."""
    size, count, how = profile.page_size, len(main) // profile.page_size, rng.random()
    if how < 0.5:
        return main
    if how < 0.8 and not profile.is_plain:      # a page that is not accepted; rarely the first
        n = rng.randint(1 if rng.random() < 0.1 else 2, count)
        at = (n - 1) * size + rng.randrange(16, profile.usable)
        return main[:at] + bytes([main[at] ^ 1]) + main[at + 1:]
    if how < 0.9:                               # bytes behind its count of pages
        return main + rng.randbytes(rng.choice((1, size, size + 7)))
    if how < 0.93:
        return main[:rng.choice((0, 1, 100, size - 1, size, 2 * size + 5))]
    # A header that is refused, or one that says nothing of the size.
    codec = codec_of(Access(word, None if profile.is_plain else K0), bytes(main[:16]))
    page = bytearray(codec.open_page(1, main[:size]))
    at, value = rng.choice(((16, 3), (18, 2), (19, 2), (19, 7), (20, 9), (21, 65), (23, 31), (47, 5), (55, 1), (59, 4), (28, 9), (28, 0), (27, 9), (92, 1)))
    page[at] = value
    return codec.seal_page(1, bytes(page), rng.randbytes(profile.reserve)) + main[size:]


def random_trials(program, folder, seed, first, count):
    trial = Trial(program, folder)
    for number in range(int(first), int(first) + int(count)):
        rng = random.Random(f"{seed} {number}")
        word = PROFILES[number % len(PROFILES)]
        profile = formats.WORDS[word]
        main, _ = rows_file(word, rng.choice((1, 2, 5, 9)), None if profile.is_plain else K0)
        main = damaged(rng, word, main, profile)
        journal, now = None, main
        if main and rng.random() < 0.25 and len(main) % profile.page_size == 0:
            numbers = sorted(rng.sample(range(1, len(main) // profile.page_size + 1), rng.randint(1, len(main) // profile.page_size)))
            journal, now = journal_of(main, numbers, profile.page_size, rng), bytearray(main)
            for n in numbers:
                now[(n - 1) * profile.page_size:n * profile.page_size] = rng.randbytes(profile.page_size)
            if rng.random() < 0.2:
                journal = b"\0" + journal[1:]
            trial.counts["played back" if journal[0] else "cold"] += 1
        lay(trial.path, bytes(now), journal)
        played = Played(word, formats.recovered(trial.path, profile.page_size)[1])
        writer = Writer(rng, word, played, max(1, len(main) // profile.page_size))
        script = []
        for _ in range(rng.choice((30, 100, 250))):
            found = writer.step()
            played.take(*found)
            script.append(line_of(found[0], found[1], found[2]))
        text = b"\n".join(script) + (b"\n" if rng.random() < 0.8 else b"")
        trial.compare(f"script {number}", word, text, 0, played.answers)
        trial.look(f"script {number}", word, played)
        trial.counts["commits"] += len(played.commits) - 1
        trial.counts["rekeys"] += sum(it[2] is not None and it[2] != (played.commits[at][2] or writer.right) for at, it in enumerate(played.commits[1:]))
        for kind in (machine.BUSY, machine.MISUSE, "key refused"):
            trial.counts[kind] += played.answers.count(kind)
        trial.counts["refused pages"] += sum(answer.endswith("tag refused") for answer in played.answers)
        trial.counts["other refusals"] += sum(answer.startswith(("file", "header", "WAL", "auto")) for answer in played.answers)
    return trial.end("commits", "rekeys", machine.BUSY, machine.MISUSE, "key refused", "refused pages", "other refusals", "played back", "cold")


# ------------------------------------------------------------------ all orders

def orders(program, folder, depth="8"):
    """The walk of the machine, as scripts on files of two pages."""
    trial, word = Trial(program, folder), "3"
    accesses = {"A": Access(word, K0), "B": Access(word, K1), "C": Access("4", K0)}
    main, _ = rows_file(word, 0)
    size = formats.WORDS[word].page_size
    assert len(main) == 2 * size
    places = {}
    for n in (1, 2):        # a byte of each page that no cell takes
        plain = FilePages(word).page(main, accesses["A"], n)
        places[n] = plain.index(bytes(64), machine.HEADER + 40) + 8
    other = FilePages(word).page(main, accesses["A"], 2)
    mixed = main[:size] + codec_of(accesses["B"], SALT).seal_page(2, other, random.Random(1).randbytes(48))
    for name, small, file in (("sound", machine.SOUND, main), ("damaged", machine.DAMAGED, mixed)):
        tour = machine.tour(machine.Machine(machine.SmallPages()), small, int(depth) if depth != "all" else None)
        while True:
            part = list(itertools.islice(tour, MOST_LINES))
            if not part:
                break
            lay(trial.path, file)
            lines, answers = [], []
            for number, step, answer, _ in part:
                if step[0] == "change" and step[2] > machine.HEADER:       # behind the page, which is no line of a script
                    continue
                words = [accesses[it] if it in accesses else it for it in real(step, places, word)]
                lines.append(line_of(number, (step[0], *words), places.get(step[-1], 0)))
                answers.append(f"byte {answer[machine.HEADER]}" if isinstance(answer, bytes) else answer)
            trial.compare(f"all orders, {name}", word, b"\n".join(lines), 0, answers)
            file = formats.read_file(trial.path)
            for n, (key, plain) in enumerate(part[-1][3].file, 1):
                page = FilePages(word).page(file, accesses[part[-1][3].file[0][0]], n) if name == "sound" or n == 1 else None
                if page is not None and page[places[n]] != plain[machine.HEADER] or name == "sound" and page is None:
                    trial.wrong(f"all orders, {name}: page {n} is another one afterwards")
    return trial.end()


def real(step, places, word):
    """The words of a step of the walk, on the file's own places."""
    if step[0] != "change":
        return step[1:]
    n, at, byte = step[1:]
    usable = formats.WORDS[word].usable
    return n, places[n] if n in places and at == machine.HEADER else at, byte


# ------------------------------------------------------------------ lines that are nearly steps

def nearly(rng, usable):
    """A line, changed at a place or two."""
    words = [b"open", b"share", b"read", b"reserve", b"change", b"rekey", b"commit", b"release", b"stop"]
    line = line_of(rng.randrange(16), rng.choice([("open", Access("3", K0)), ("rekey", Access("3", K1)), ("share",), ("read", 2), ("reserve",),
                   ("change", 2, rng.randrange(usable), rng.randrange(256)), ("commit",), ("release",), ("stop",)]), rng.randrange(usable))
    for _ in range(rng.choice((0, 1, 1, 2))):
        at = rng.randrange(len(line) + 1)
        how = rng.randrange(8)
        if how == 0:
            line = line[:at] + rng.choice((b" ", b"  ", b"\t", b"\r", b"\0", b"+", b"-", b"0", b"9", b"\xff")) + line[at:]
        elif how == 1:
            line = line[:at] + line[at + 1:]
        elif how == 2:
            line = line[:at]
        elif how == 3:
            parts = line.split(b" ")
            place = rng.randrange(len(parts))
            parts[place] = rng.choice((b"16", b"15", b"0", b"255", b"256", b"%d" % usable, b"%d" % (usable - 1), b"4294967295", b"4294967296", b"0000000003",
                                       b"00000000003", b"", b"plain:1024", b"4", b"2", b"4:4096", b"4:512", *words))
            line = b" ".join(parts)
        elif how == 4:
            line = line + rng.choice((b" ", b" x", b"\r"))
        elif how == 5:
            line = line.upper()
        elif how == 6:
            line = line + b"k" * rng.choice((1, 1024 - 67, 1025 - 67, LONGEST - len(line), LONGEST + 1 - len(line), LONGEST + 1))
        else:
            parts = line.split(b" ", 3)
            line = b" ".join(parts[:3] + [rng.choice((b"x'" + b"0" * 96 + b"'", b"x'" + b"0" * 95 + b"'", b"k" * 1024, b"k" * 1025, b"", b" ", b"k k"))])
    return line.replace(b"\n", b"")


def forms(program, folder, seed, count):
    trial = Trial(program, folder)
    rng = random.Random(int(seed))
    main, _ = rows_file("2", 3)
    for number in range(int(count)):
        lay(trial.path, main)
        lines = [line_of(0, ("open", Access("2", K0))), b"share 0", b"reserve 0"]
        lines += [nearly(rng, formats.WORDS["2"].usable) for _ in range(rng.choice((1, 3, 8)))]
        script = b"\n".join(lines) + (b"\n" if rng.random() < 0.5 else b"")
        played = Played("2", main).script(script)
        trial.compare(f"lines {number}", "2", script, played.status, played.answers)
        trial.look(f"lines {number}", "2", played)
        trial.counts["no step"] += played.answers[-1].endswith("no step")
        trial.counts["too long"] += played.answers[-1].endswith("too long")
        trial.counts["all steps"] += played.status == 0
    return trial.end("no step", "too long", "all steps")


# ------------------------------------------------------------------ tables, files, stops

def table(program, folder, word, file, path):
    """Each line of the table is a step, its answer, and the locks after it of the first sessions, parted by `|`. The rest of a line after
    the locks is for its reader."""
    trial, rows = Trial(program, folder), []
    for row in open(path, encoding="utf-8"):
        if row.strip() and not row.startswith("#"):
            line, answer, locks = (it.strip() for it in row.split("|", 2))
            rows.append((line.replace("K0", K0.decode()).replace("K1", K1.decode()).encode(), answer, locks.split(" ")[0]))
    main = formats.read_file(file)
    lay(trial.path, main)
    played = Played(word, main)
    for at, (line, answer, locks) in enumerate(rows, 1):
        found = played.take(*step_of(line, played.machine.pages.usable))
        if found != answer or locks and not (played.locks() + " ").startswith(locks):
            trial.wrong(f"{path}: line {at}, {line[:40]!r}: the machine answers {found} and has the locks {played.locks()[:len(locks)]}")
    trial.compare(path, word, b"\n".join(line for line, _, _ in rows), 0, [answer for _, answer, _ in rows])
    trial.look(path, word, played)
    return trial.end()


def make(file, word, rows, kind="sound"):
    """Prints a line for each row: its page and the place of its number."""
    main, places = rows_file(word, int(rows), None if formats.WORDS[word].is_plain else K0)
    size = formats.WORDS[word].page_size
    if kind == "hot":       # of which two pages are changed, with a journal that has them as they were
        journal, now = journal_of(main, [2, 3], size, random.Random(1)), bytearray(main)
        now[size:3 * size] = random.Random(2).randbytes(2 * size)
        lay(file, bytes(now), journal)
    elif kind == "other":   # a journal of pages of another size
        lay(file, main, journal_of(main, [2], size, random.Random(1))[:24] + (2 * size).to_bytes(4, "big") + bytes(600))
    elif kind == "super":   # one that names another journal
        name = b"/another-mj"
        end = bytes(4) + name + len(name).to_bytes(4, "big") + sum(name).to_bytes(4, "big") + formats.JOURNAL_MAGIC
        lay(file, main, journal_of(main, [2], size, random.Random(1)) + end)
    else:
        lay(file, main)
    for n, at in places:
        print(n, at)
    return 0


def stops(program, folder, word, script, product="", opening=""):
    """Looks at each folder FOLDER/stop-*: `file`, perhaps `file-journal`, and `answers`, what was printed before the stop. The file is the
    committed one of the lines answered, or, where the next line is a commit, the one after it. The product reads the same."""
    trial, size = Trial(program, folder), formats.WORDS[word].page_size
    text = formats.read_file(script)
    start, lines = formats.read_file(os.path.join(folder, "before")), text.splitlines()
    whole = Played(word, start).script(text)
    ends = collections.Counter()
    for stop in sorted(it for it in os.listdir(folder) if it.startswith("stop-")):
        path = os.path.join(folder, stop, "file")
        answers = (formats.read_file(os.path.join(folder, stop, "answers")) or b"").decode().splitlines()
        trial.counts["stops"] += 1
        if answers != whole.answers[:len(answers)]:
            trial.wrong(f"{stop}: answers {answers[-1:]} as line {len(answers)}")
        had_journal = os.path.exists(path + "-journal")
        try:
            line, main = formats.recovered(path, size)
        except formats.Refused as refusal:
            trial.wrong(f"{stop}: not recovered: {refusal}")
            continue
        trial.counts["hot"] += line.startswith("played")
        # How many commits are done by the lines that were answered, and by one more.
        after = [sum(line.startswith(b"commit") and answer == machine.DONE for line, answer in zip(lines[:k], whole.answers))
                 for k in (len(answers), len(answers) + 1)]
        problems = {at: difference(main, *whole.commits[at], size) for at in sorted(set(after))}
        found = next((at for at, problem in problems.items() if problem is None), None)
        if found is None:
            trial.wrong(f"{stop}: after {len(answers)} answers the file is neither: {problems}")
            continue
        ends[found] += 1
        access = whole.commits[found][2] or Access(word, None if formats.WORDS[word].is_plain else K0)
        copy = os.path.join(folder, "copy")
        for tail in ("", "-journal"):
            if os.path.exists(copy + tail):
                os.remove(copy + tail)
            if os.path.exists(path + tail):
                shutil.copyfile(path + tail, copy + tail)
        if product:
            told = told_by(product, copy, opening, access)
            wanted = told_by_reference(main, access)
            if told != wanted:
                trial.wrong(f"{stop}: the product reads {told}, and {wanted} is there")
            lay(copy, formats.read_file(path), formats.read_file(path + "-journal"))
        # Played again, the journal is laid back first, and a commit goes on from there.
        again = Played(word, main).script(b"\n".join([line_of(3, ("open", access)), b"share 3", b"read 3 2 60", b"reserve 3", b"change 3 2 60 9",
                                                      b"commit 3", b"share 3", b"read 3 2 60"]))
        trial.path = copy
        done = trial.compare(f"{stop}, played again", word, b"\n".join([line_of(3, ("open", access)), b"share 3", b"read 3 2 60", b"reserve 3",
                             b"change 3 2 60 9", b"commit 3", b"share 3", b"read 3 2 60"]), 0, again.answers)
        if done:
            trial.look(f"{stop}, played again", word, again)
        trial.counts["with a journal"] += had_journal
    for at in range(len(whole.commits)):
        trial.counts[f"after {at} commits"] = ends[at]
        if not ends[at]:
            trial.wrong(f"no stop leaves the file after {at} commits")
    return trial.end("stops", "with a journal", "hot", *(f"after {at} commits" for at in range(len(whole.commits))))


def told_by(product, path, opening, access):
    """The numbers of the rows, as the product reads them, where it finds the file sound."""
    lines = "" if access.key is None else f"PRAGMA key = \"{access.key.decode()}\";\n"
    done = subprocess.run([product, "-batch", path], input=f"{lines}{opening}\nPRAGMA integrity_check;\nSELECT tag FROM t ORDER BY id;\n".encode(),
                          capture_output=True)
    return (done.stdout + done.stderr).decode("latin-1").split()


def told_by_reference(main, access):
    db = formats.Database(main, codec_of(access, bytes(main[:16])))
    rows = [entry for entry in db.walk(db.table_root(b"t"))]
    return ["ok"] + [str(entry.values[1][1]) for entry in rows]


def main(name, *words):
    return {"random": random_trials, "orders": orders, "forms": forms, "table": table, "make": make, "stops": stops}[name](*words)


if __name__ == "__main__":
    if len(sys.argv) < 4:
        sys.exit(__doc__)
    sys.exit(main(*sys.argv[1:]))
