#!/usr/bin/env python3
"""Logs of SQLite's WAL mode (Database File Format, section 4), and what a file reads as together with its log.

    log_model.py describe LOG             what the log holds
    log_model.py lay DB LOG OUT           the file that the pair reads as
    log_model.py turn LOG OUT             the same log with checksums of the other byte order
    log_model.py small FOLDER             small pairs by hand: hostile ones too, each NAME.db and NAME.wal
    log_model.py lines FOLDER             what is to be said of each line of FOLDER/cases (crates/log_tests)
    log_model.py product FOLDER           compares with the product each pair of FOLDER/product.tsv

Written from the public format alone. `product` needs sqlcipher; SQLCIPHER4 names the build of version 4.
"""
import hashlib
import os
import shutil
import struct
import subprocess
import sys
import tempfile
from dataclasses import dataclass, field

MAGIC = 0x377f0682
VERSION = 3007000
HEAD, FRAME = 32, 24
MOST = 1 << 19


def sums(data, state, big):
    """The running checksum: two numbers of 32 bits over pairs of words."""
    words = struct.unpack((">" if big else "<") + "%dI" % (len(data) // 4), data)
    a, b = state
    for i in range(0, len(words), 2):
        a = (a + words[i] + b) & 0xffffffff
        b = (b + words[i + 1] + a) & 0xffffffff
    return a, b


@dataclass
class Log:
    """`kind` is `dead` (no header of a log), `other` (another version of the format) or `head`."""
    kind: str
    size: int = 0
    version: int = 0
    big: bool = False
    salts: bytes = b""
    frames: list = field(default_factory=list)     # (page, offset of the page) of each frame up to the last commit
    valid: int = 0                                 # how many frames hold
    pages: int = 0                                 # the database's size in pages after the last commit


def read_log(log):
    if len(log) < HEAD:
        return Log("dead")
    magic, version, size, _begun = struct.unpack(">4I", log[:16])
    if magic & ~1 != MAGIC or size & (size - 1) or not 512 <= size <= 65536:
        return Log("dead")
    big = bool(magic & 1)
    state = sums(log[:24], (0, 0), big)
    if struct.pack(">2I", *state) != log[24:32]:
        return Log("dead")
    found = Log("head" if version == VERSION else "other", size, version, big, log[16:24])
    frames, at = [], HEAD
    while at + FRAME + size <= len(log):
        head = log[at:at + FRAME]
        page, pages = struct.unpack(">2I", head[:8])
        if head[8:16] != found.salts or page == 0:
            break
        state = sums(log[at + FRAME:at + FRAME + size], sums(head[:8], state, big), big)
        if struct.pack(">2I", *state) != head[16:24]:
            break
        frames.append((page, at + FRAME))
        if pages:
            found.frames, found.pages = list(frames), pages
        at += FRAME + size
    found.valid = len(frames)
    return found


def laid(main, log, found):
    """Main with the committed pages over it, in order, and cut to the size after the last commit. Where it is shorter nothing is put."""
    file = bytearray(main)
    for page, at in found.frames:
        if page > found.pages:
            continue
        start = (page - 1) * found.size
        if len(file) < start + found.size:
            file.extend(bytes(start + found.size - len(file)))
        file[start:start + found.size] = log[at:at + found.size]
    return bytes(file[:found.pages * found.size])


def with_zeros(file, found):
    """The product fills up with zeros what nobody has written."""
    return file + bytes(found.pages * found.size - len(file))


# ------------------------------------------------------------------ what is to be said

def digest(file):
    return hashlib.sha1(file).hexdigest()


def viewed(main, log, size, most=MOST):
    if main is None:
        return "none"
    found = None if log is None or not main else read_log(log)
    if found is None or found.kind == "dead":
        return "main %d %s" % (len(main), digest(main))
    if found.kind == "other":
        return "version %d" % found.version
    if not found.frames:
        return "main %d %s" % (len(main), digest(main))
    if found.size != size:
        return "page size %d" % found.size
    if found.pages > most:
        return "too large %d" % found.pages
    file = laid(main, log, found)
    if len(file) < found.pages * size:
        return "short %d" % found.pages
    return "main %d %s" % (len(file), digest(file))


def settled(main, log, size):
    if not main or log is None:
        return "nothing"
    found = read_log(log)
    if found.kind == "other":
        return "version %d" % found.version
    if found.kind == "dead" or not found.frames:
        return "empty %d %s" % (len(main), digest(main))
    if found.size != size:
        return "page size %d" % found.size
    file = laid(main, log, found)
    return "laid %d %d %s" % (len(found.frames), len(file), digest(file))


def calls(found, length):
    """How many calls it takes to lay a log: lengths and syncs of both files and of the folder; both lengths and the header; each whole frame up to the
    first that does not hold; each committed one again, with a write where it is of a page of the database; Main cut and synced, the log removed, the
    folder synced."""
    step = FRAME + found.size
    looked = min(found.valid + 1, (length - HEAD) // step)
    written = sum(page <= found.pages for page, _ in found.frames)
    return 5 + 3 + looked + len(found.frames) + written + 4


def cases(folder):
    """Each line of the list with the pairs that it stands for: NAME SIZE KIND and two numbers."""
    for line in open(os.path.join(folder, "cases")):
        name, size, kind, first, second = line.split()
        size, first, second = int(size), int(first), int(second)
        main, log = (open(os.path.join(folder, name + end), "rb").read() for end in (".db", ".wal"))
        if kind == "whole":
            yield "%s" % name, main, log, size
        elif kind == "flips":
            for at in range(first, second):
                turned = bytearray(log)
                turned[at] ^= 1
                yield "%s, byte %d turned" % (name, at), main, bytes(turned), size
        elif kind == "cuts":
            for end in range(0, len(log) + 1, first):
                yield "%s, cut to %d" % (name, end), main, log[:end], size
        elif kind == "shorter":
            yield "%s, Main cut to %d" % (name, first), main[:first], log, size
        elif kind == "alone":
            yield "%s, no log" % name, main, None, size
        elif kind == "lost":
            yield "%s, no Main" % name, None, log, size
        elif kind == "stops":
            # three images at each call of `calls`
            yield "%s: stopped %d times, 0 wrong" % (name, 3 * calls(read_log(log), len(log))), None, None, None
        elif kind == "shrinks":
            # the look reads the header and each frame, the index each committed frame, and then the pages are read
            found = read_log(log)
            said = "log cut" if first < 1 + found.valid + len(found.frames) else "opened, then a fault"
            yield "%s, no log behind %d reads: %s" % (name, first, said), None, None, None
        else:
            raise ValueError(kind)


def lines(folder):
    for name, main, log, size in cases(folder):
        print(name if size is None else "%s: %s; %s" % (name, viewed(main, log, size), settled(main, log, size)))


# ------------------------------------------------------------------ small pairs by hand

def made(size, frames, big=False, version=VERSION, salts=b"saltsalt", behind=b""):
    """A log of these frames, (page, pages after the commit or 0, the page's bytes), with checksums that hold."""
    head = struct.pack(">4I", MAGIC | big, version, size, 0) + salts
    state = sums(head, (0, 0), big)
    log = head + struct.pack(">2I", *state)
    for page, pages, image in frames:
        numbers = struct.pack(">2I", page, pages)
        state = sums(image, sums(numbers, state, big), big)
        log += numbers + salts + struct.pack(">2I", *state) + image
    return log + behind


def turned(log):
    """The log with its checksums made anew in the other byte order."""
    found = read_log(log)
    frames, at = [], HEAD
    for _ in range(found.valid):
        frames.append((*struct.unpack(">2I", log[at:at + 8]), log[at + FRAME:at + FRAME + found.size]))
        at += FRAME + found.size
    return made(found.size, frames, not found.big, found.version, found.salts, log[at:])


def small(folder):
    def page(fill, size=512):
        return bytes((fill + i) & 255 for i in range(size))

    def keep(name, main, log):
        for end, data in ((".db", main), (".wal", log)):
            with open(os.path.join(folder, name + end), "wb") as file:
                file.write(data)

    main = page(1) + page(2) + page(3)
    two = [(2, 0, page(20)), (4, 4, page(40)), (2, 4, page(22)), (3, 0, page(33))]
    keep("two", main, made(512, two))
    keep("turned", main, made(512, two, big=True))
    keep("again", main, made(512, [(2, 0, page(n)) for n in range(119)] + [(2, 3, page(200))]))
    keep("passed", main, made(512, [(9, 0, page(90)), (1, 0, page(10)), (3, 2, page(30))]))
    keep("hole", main, made(512, [(6, 6, page(60))]))
    keep("short", main, made(512, [(4, 9, page(40))]))
    keep("large", main, made(512, [(1, 0xffffffff, page(10))]))
    keep("zero", main, made(512, [(2, 3, page(20)), (0, 3, page(99)), (1, 3, page(10))]))
    keep("version", main, made(512, two, version=VERSION + 1))
    keep("pages", main, made(1024, [(1, 2, page(7, 1024))]))
    keep("other", main, made(512, two)[:32] + made(512, two, salts=b"pepperpe")[32:])
    keep("behind", main, made(512, two[:2], behind=bytes(1500)))
    keep("empty", b"", made(512, two))


# ------------------------------------------------------------------ the product

def check(folder):
    """Each pair as the product leaves it when it has closed it: byte for byte the file of the model."""
    bad = count = 0
    for line in open(os.path.join(folder, "product.tsv")):
        name, profile, size, key = line.rstrip("\n").split("\t")
        main, log = (open(os.path.join(folder, name + end), "rb").read() for end in (".db", ".wal"))
        room = tempfile.mkdtemp()
        try:
            db = os.path.join(room, "db")
            for end, data in (("", main), ("-wal", log)):
                with open(db + end, "wb") as file:
                    file.write(data)
            text = "" if profile == "plain" else "PRAGMA key='%s';\n" % key
            text += "PRAGMA cipher_use_hmac=OFF;\n" if profile == "1" else ""
            text += "PRAGMA kdf_iter=4000;\n" if profile in ("1", "2") else ""
            text += "" if profile == "plain" else "PRAGMA cipher_page_size=%s;\n" % size
            program = os.environ.get("SQLCIPHER4", "sqlcipher4") if profile == "4" else "sqlcipher"
            said = subprocess.run([program, "-batch", db], input=text + "PRAGMA integrity_check;\nPRAGMA wal_checkpoint(TRUNCATE);\n",
                                  capture_output=True, text=True, timeout=60).stdout
            left = open(db, "rb").read()
            found = read_log(log)
            wanted = with_zeros(laid(main, log, found), found) if found.frames else main
            same = left == wanted and "ok" in said.split("\n")
            count += 1
            bad += not same
            print(name, "same" if same else "DIFFERS", said.split("\n")[0], len(left))
        finally:
            shutil.rmtree(room)
    print("%d pairs, %d differ" % (count, bad))
    return bad


def main(words):
    if len(words) == 2 and words[0] == "describe":
        found = read_log(open(words[1], "rb").read())
        print(found.kind, "page size", found.size, "high first" if found.big else "low first", "valid frames", found.valid,
              "committed", len(found.frames), "pages", found.pages)
    elif len(words) == 4 and words[0] == "lay":
        file, log = (open(n, "rb").read() for n in words[1:3])
        found = read_log(log)
        with open(words[3], "wb") as out:
            out.write(with_zeros(laid(file, log, found), found) if found.frames else file)
    elif len(words) == 3 and words[0] == "turn":
        with open(words[2], "wb") as out:
            out.write(turned(open(words[1], "rb").read()))
    elif len(words) == 2 and words[0] in ("small", "lines"):
        (small if words[0] == "small" else lines)(words[1])
    elif len(words) == 2 and words[0] == "product":
        return 1 if check(words[1]) else 0
    else:
        print(__doc__, file=sys.stderr)
        return 1
    return 0


if __name__ == "__main__":
    sys.exit(main(sys.argv[1:]))
