#!/usr/bin/env python3
"""Hostile logs beside sound files, and each command that only reads on each pair, with the setting `:wal`.

    hostile_logs.py PROGRAM PAIRS FOLDER       PAIRS is a folder that log_pairs.py has made of the profiles of `WORDS`

Each field of a log's header, and of its first and its last frame, becomes another, with its checksums made right and as they are; the log is cut at many
places; it is another file's, of another page size or version, names more pages than the files have or than are read, or is no log at all. What is to be
printed is a refusal of the log by the model of sqlcipher_log.py, or what the reference says of the file that the pair opens to, or another defect of the
same part (`Answers` of hostile_files.py). No file of the pair may change, and standard error has lines of plain words.

In the environment PART=N/M takes each M-th pair from the N-th on, STRIDE=N each N-th, MEMORY and HANGS stand for the bounds of hostile_files.py,
FRAMES for the million frames of a log that has one page again and again. Each wrong answer is a line of standard output. The last line is tab-separated
`name=count` words for tests/hostile_logs.sh to add up.
"""
import collections
import os
import random
import re
import struct
import sys
from types import SimpleNamespace

import hostile_files
from hostile_files import Answers, statuses_of, text_of
from log_pairs import key_of, lay_pair, passed, seen
from sqlcipher_formats import be, profile_of, read_file, write_file
from sqlcipher_log import FRAME, HEAD, VERSION, frames_of, opened, read_log, resummed, sums

WORDS = ("1", "3", "4", "plain:512", "plain:1024")
COMMANDS = ("tags", "header", "verify", "export", "agree", "find", "salvage")
LONG = ("verify", "find")       # of a log that takes long to read
MOST_PAGES = 1 << 20
FIND = ("items", 7, 9)
FIELDS = {"magic": 0, "version": 4, "page size": 8, "sequence": 12, "salt": 16, "other salt": 20, "sum": 24, "other sum": 28}
FRAME_FIELDS = {"page": 0, "pages": 4, "salt": 8, "other salt": 12, "sum": 16, "other sum": 20, "bytes": 24}


# ------------------------------------------------------------------ the logs

def with_field(log, at, value):
    return log[:at] + value.to_bytes(4, "big") + log[at + 4:]


def with_fields(log, pages):
    """Each field of the header, the first and the last committed frame is another."""
    found = read_log(log)
    last = found.frames[found.committed - 1][2] - FRAME
    places = [("header's " + name, at) for name, at in FIELDS.items()]
    places += [(f"{which} frame's {name}", start + at) for which, start in (("first", HEAD), ("last", last)) for name, at in FRAME_FIELDS.items()]
    for name, at in places:
        was = be(log, at)
        values = {was ^ 1, was ^ 1 << 31, 0, 2 ** 32 - 1}
        if name.endswith(("page", "pages")):
            values |= {1, pages - 1, pages + 1, MOST_PAGES, MOST_PAGES + 1}
        if name.endswith("page size"):
            values |= {256, 512, 2048, 65536, 131072, 1000}
        for value in sorted(values - {was}):
            changed = with_field(log, at, value)
            yield f"{name} is {value}", changed
            yield f"{name} is {value}, with its checksums", resummed(changed)


def cuts(log, rng):
    step = FRAME + read_log(log).size
    borders = [HEAD + k * step for k in range(len(log) // step + 1)]
    near = [at + by for at in rng.sample(borders, min(8, len(borders))) for by in (-1, 0, 1, 7, 8, 23, 24, 25)]
    places = {1, 2, 4, 23, 24, 31, 32, 33, 55, 56, *near, *(rng.randrange(len(log)) for _ in range(12))}
    for at in sorted(it for it in places if 0 <= it < len(log)):
        yield f"cut at {at}", log[:at]


def built(main, log, size, rng):
    """Logs that no program leaves."""
    file = opened(main, log)
    pages = len(file) // size
    page = lambda n, of=size: file[(n - 1) * of:n * of]
    some = bytes(rng.randrange(256) for _ in range(size))
    if 2 * size <= 65536 and len(file) >= 2 * size:
        yield "pages of twice the size", frames_of([(1, pages // 2, page(1, 2 * size))], 2 * size)
    if size > 512:
        yield "pages of half the size", frames_of([(1, 2 * pages, page(1, size // 2))], size // 2)
        yield "pages of half the size, none committed", frames_of([(1, 0, page(1, size // 2))], size // 2)
    for version in (0, VERSION - 1, VERSION + 1, 2 ** 32 - 1):
        yield f"version {version}", frames_of([(1, pages, page(1))], size, version=version)
    for count in (pages + 1, pages + 1000, MOST_PAGES, MOST_PAGES + 1, 2 ** 31, 2 ** 32 - 1):
        yield f"{count} pages, of which the last are missing", frames_of([(1, count, page(1))], size)
    yield "a gap that nobody wrote", frames_of([(1, 0, page(1)), (pages + 9, pages + 9, page(2))], size)
    yield "pages above the last commit's count", frames_of([(pages + 3, 0, some), (2 ** 31, 0, some), (2 ** 32 - 1, 0, some), (1, pages, page(1))], size)
    yield "fewer pages than the database has", frames_of([(1, max(1, pages // 2), page(1))], size)
    yield "one page", frames_of([(1, 1, page(1))], size)
    yield "page 1 of random bytes", frames_of([(1, pages, some)], size)
    yield "page 1 of zeros", frames_of([(1, pages, bytes(size))], size)
    yield "page 2 of random bytes", frames_of([(2, pages, some)], size)
    yield "pages in each other's place", frames_of([(2, 0, page(3)), (3, pages, page(2))], size)
    yield "every page, the highest byte first", frames_of([(n, pages if n == pages else 0, page(n)) for n in range(1, pages + 1)], size, is_big=True)
    yield "each frame a commit", frames_of([(n % pages + 1, pages, page(n % pages + 1)) for n in range(3 * pages)], size, salts=bytes(8))
    yield "zeros", bytes(5000)
    yield "random bytes", bytes(rng.randrange(256) for _ in range(5000))
    yield "the header and random bytes", log[:HEAD] + some * 3
    yield "the file itself", main
    yield "text", b"this is no log\n" * 40


def hostile(place, others, rng):
    """(what was done, Main, log) of hostile pairs of one that the product made."""
    main, log = read_file(os.path.join(place, "file")), read_file(os.path.join(place, "file-wal"))
    size = read_log(log).size
    yield "as made", main, log
    for what, changed in (*with_fields(log, len(opened(main, log)) // size), *cuts(log, rng), *built(main, log, size, rng)):
        yield what, main, changed
    for name, other in others:
        yield f"the log of {name}", main, other
        yield f"the log of {name}, beside the file that the pair opens to", opened(main, log), other
    for length in (0, 1, 16, size - 1, size + 7):
        yield f"a file of {length} bytes", opened(main, log)[:length], log
    yield "a part of a page behind the file", main + bytes(7), log
    yield "pages behind the file", main + opened(main, log) + bytes(3 * size), log


def refusal_of(main, log, size):
    """The line with which the log is refused, or none."""
    found = read_log(log)
    if not main or not found.size:
        return None
    if found.version != VERSION:
        return f"log version {found.version}"
    if not found.committed:
        return None
    if found.size != size:
        return f"log page size {found.size}"
    if found.pages > MOST_PAGES:
        return "log is too large"
    reached = max([len(main)] + [number * size for number, _, _ in found.frames[:found.committed] if number <= found.pages])
    return f"log is short: {found.pages} pages" if reached < found.pages * size else None


# ------------------------------------------------------------------ the trials

class Trial:
    def __init__(self, program, folder):
        self.program, self.folder, self.counts = program, folder, collections.Counter()

    def say(self, what):
        self.counts["wrong"] += 1
        print(f"{self.what}: {what}", flush=True)

    def run(self, word, main, log, names=COMMANDS):
        """Each of these commands on the pair, which stays: {command: (status, text)}, or none."""
        place = os.path.join(self.folder, "pair")
        os.makedirs(place, exist_ok=True)
        for name in os.listdir(place):
            os.remove(os.path.join(place, name))
        lay_pair(os.path.join(place, "file"), main, log)
        write_file(os.path.join(self.folder, "keys"), key_of(word).encode() + b"\n")
        before = seen(place)
        words = {name: [name, f"{word}:wal", *(map(str, FIND) if name == "find" else ())] for name in names}
        statuses = statuses_of(self.program, [(place, words[name], name) for name in names])
        if isinstance(statuses, str):
            return self.say(statuses)
        if seen(place) != before:
            self.say("a file has changed, or one appeared")
        return {name: (status, text_of(self.folder, name)) for name, status in zip(names, statuses)}

    def check(self, what, word, main, log):
        self.what, profile = f"{word}, {what}", profile_of(word)
        found = self.run(word, main, log)
        if found is None:
            return
        self.counts["pairs"] += 1
        refusal = refusal_of(main, log, profile.page_size)
        self.counts["logs refused"] += refusal is not None
        answers = None
        if refusal is None:
            self.counts["opened"] += bool(main) and opened(main, log) != main
            file, _ = passed(opened(main, log), word)
            answers = Answers(SimpleNamespace(
                name=self.what, word=word, other=word, profile=profile, key=key_of(word).encode(), main=file, journal=None, fresh=None))
        for command, (status, text) in found.items():
            self.counts["runs"] += 1
            self.counts["done" if status == 0 else "refused"] += 1
            wrong = self.wrong(answers, refusal, command, status, text, profile)
            if wrong:
                self.say(f"{command}: {text!r:.200} with status {status}: {wrong}")
            said = read_file(os.path.join(self.folder, command + ".errors")).decode(errors="replace")
            if not all(re.fullmatch(r"sqlcipher-tool: \w[^\0-\x1f\x7f]*", line) for line in said.splitlines()):
                self.say(f"{command}: standard error has {said!r:.200}")

    @staticmethod
    def wrong(answers, refusal, command, status, text, profile):
        if status >= 128:
            return "it crashed or was stopped"
        if command == "tags" and not profile.tag_len:
            return None if (status, text) == (2, "profile has no tags\n") else "it has no tags"
        if refusal:
            return None if (status, text) == (2, refusal + "\n") else f"'{refusal}' is wanted"
        if command == "find":
            return answers.wrong_find(FIND, status, text)
        wanted, texts = answers.allowed(command)
        if status != wanted:
            return f"status {wanted} is wanted with {texts[0]!r:.200}"
        return None if text in texts else f"none of {texts!r:.400} is printed"

    # -- logs that are too long for the model

    def check_far(self, main, log, word):
        """A frame of page 2^20, and as many pages: what is in use is as it was, and the table of pages has its full length."""
        size = profile_of(word).page_size
        file = opened(main, log)
        self.check_long("the most pages", word, file, frames_of([(MOST_PAGES, MOST_PAGES, bytes(size))], size), file)

    def check_many(self, main, log, word, count):
        """So many frames of one page: the last one counts."""
        size = profile_of(word).page_size
        file = opened(main, log)
        start, pages, step = frames_of([(2, 0, bytes(size))], size), len(file) // size, FRAME + size
        log = bytearray(HEAD + count * step)
        log[:len(start)] = start
        state, head, salts = struct.unpack(">2I", start[HEAD + 16:HEAD + 24]), struct.pack(">2I", 2, 0), start[16:24]
        # The checksum over a page of zeros is a linear map of the one before it.
        one, other = sums(bytes(size), (1, 0), False), sums(bytes(size), (0, 1), False)
        for at in range(HEAD + step, HEAD + (count - 1) * step, step):
            first, second = sums(head, state, False)
            state = (first * one[0] + second * other[0]) & 0xFFFFFFFF, (first * one[1] + second * other[1]) & 0xFFFFFFFF
            log[at:at + FRAME] = head + salts + struct.pack(">2I", *state)
        head, page = struct.pack(">2I", 2, pages), file[size:2 * size]
        state = sums(page, sums(head, state, False), False)
        log[-step:] = head + salts + struct.pack(">2I", *state) + page
        self.check_long(f"{count} frames of one page", word, file, log, file)

    def check_long(self, what, word, main, log, same):
        """The pair has the pages in use of this file."""
        self.what = f"{word}, {what}"
        # It takes seconds of the processor, and more by the clock beside other trials.
        hostile_files.HANGS *= 6
        found, wanted = self.run(word, main, log, LONG), self.run(word, same, None, LONG)
        hostile_files.HANGS //= 6
        if found is None or wanted is None:
            return
        self.counts["long logs"] += 1
        for command in LONG:
            if found[command] != wanted[command] or wanted[command][0]:
                self.say(f"{command}: {found[command]!r:.200}, and {wanted[command]!r:.200} is wanted")


def main(program, pairs, folder):
    part, parts = map(int, os.environ.get("PART", "0/1").split("/"))
    stride = int(os.environ.get("STRIDE") or 1)
    hostile_files.HANGS = int(os.environ.get("HANGS") or hostile_files.HANGS)
    trial = Trial(os.path.abspath(program), os.path.abspath(folder))
    names = {word: word.replace(":", "-") for word in WORDS}
    there = [word for word in WORDS if os.path.isdir(os.path.join(pairs, names[word] + "-first"))]
    number = 0
    for word in there:
        rng = random.Random(word)
        others = [(f"profile {other}", read_file(os.path.join(pairs, names[other] + "-first", "file-wal"))) for other in there if other != word]
        full = read_file(os.path.join(pairs, names[word] + "-full", "file-wal"))    # of another file under the same key, page 1 too
        others += [("another file", full)] if full else []
        for age in ("first", "restarted-more"):
            for what, main, log in hostile(os.path.join(pairs, f"{names[word]}-{age}"), others, rng):
                number += 1
                if number % stride == 0 and number // stride % parts == part:
                    trial.check(f"{age}, {what}", word, main, log)
    if part == 0 and "plain:512" in there:
        place = os.path.join(pairs, "plain-512-restarted-more")
        pair = read_file(os.path.join(place, "file")), read_file(os.path.join(place, "file-wal"))
        trial.check_far(*pair, "plain:512")
        trial.check_many(*pair, "plain:512", int(os.environ.get("FRAMES") or 1000000))
    print("\t".join(f"{name}={count}" for name, count in sorted(trial.counts.items())))
    sys.exit(1 if trial.counts["wrong"] else 0)


if __name__ == "__main__":
    if len(sys.argv) != 4:
        sys.exit(__doc__)
    main(*sys.argv[1:])
