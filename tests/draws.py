#!/usr/bin/env python3
"""The random bytes in a file are those that the system gave: strace sees each read of the device, and the salt of a new file and the IV and the
filling of each of its pages, which a commit seals, are the bytes that were read, none of them twice. For a file with a plain header no salt is drawn.

    tests/draws.py

PROGRAM names another program."""
import os, shutil, subprocess, sys, tempfile

TOP = os.path.dirname(os.path.dirname(os.path.abspath(__file__)))
PROGRAM = os.path.abspath(os.environ.get("PROGRAM", os.path.join(TOP, "out", "sqlcipher-tool")))
OLD, NEW = (f"x'{digit * 64}'" for digit in "0a")
SALTED, NEWER = (f"x'{digit * 96}'" for digit in "0a")      # for a file with a plain header, the salt last
# page size, reserve and length of the tag, by version (SQLCipher's design: the IV stands before the tag, in the reserve)
LAYOUTS = {"2": (1024, 48, 20), "3": (1024, 48, 20), "4": (4096, 80, 64), "1": (1024, 16, 0)}


def drawn_by(folder, words, keys):
    """The bytes that a run read of the device."""
    log = os.path.join(folder, "calls")
    done = subprocess.run(["strace", "-f", "-qq", "-P", "/dev/urandom", "-xx", "-s", "1000000", "-o", log, "-e", "trace=read", PROGRAM, os.path.join(folder, "file"), *words],
                          input="".join(key + "\n" for key in keys).encode(), capture_output=True)
    pieces = [line.split('"')[1] for line in open(log) if '"' in line]
    return done.returncode, bytes.fromhex("".join(pieces).replace("\\x", ""))


def main():
    if not shutil.which("strace"):
        print("left out: all of it, since strace is missing")
        return 77
    wrong = pages = 0
    headed = "4:plain-header=32"
    for version, words, keys in (("3", ["make", "3", "40"], [OLD]), ("4", ["make", "4", "40"], [OLD]), ("1", ["make", "1", "40"], [OLD]),
                                 ("3", ["rekey", "3", "3"], [OLD, NEW]), ("4", ["migrate", "3", "4"], [OLD, NEW]), ("2", ["migrate", "3", "2"], [OLD, NEW]),
                                 ("4", ["make", headed, "40"], [SALTED]), ("4", ["migrate", "3", headed], [OLD, SALTED]),
                                 ("4", ["rekey", headed, "4:plain-header=48"], [SALTED, NEWER]),
                                 ("4", ["rekey", headed, "4"], [SALTED, NEW]), ("4", ["rekey", "4", headed], [OLD, NEWER])):
        folder = tempfile.mkdtemp()
        file = os.path.join(folder, "file")
        if words[0] != "make":
            subprocess.run([PROGRAM, file, "make", words[1], "40"], input=(keys[0] + "\n").encode(), capture_output=True)
        status, drawn = drawn_by(folder, words, keys)
        data = open(file, "rb").read()
        size, reserve, tag = LAYOUTS[version]
        at = 0
        if words[0] != "rekey" and headed not in words:
            at = 16
            if data[:16] != drawn[:16]:
                wrong += 1
                print(f"draws: {words}: the salt was not drawn")
        # Each page's part of what was drawn, whatever the order in which they were sealed.
        parts = [drawn[start:start + reserve] for start in range(at, len(drawn), reserve)]
        for page in range(len(data) // size):
            held = data[(page + 1) * size - reserve:(page + 1) * size]
            found = [part for part in parts if part[:16] == held[:16] and part[16 + tag:] == held[16 + tag:]]
            pages += 1
            if len(found) != 1:
                wrong += 1
                print(f"draws: {words}: page {page + 1}: its random bytes were drawn {len(found)} times")
            else:
                parts.remove(found[0])
        if status or parts or len(set(parts)) != len(parts):
            wrong += 1
            print(f"draws: {words}: status {status}, {len(parts)} parts of what was drawn are in no page")
        shutil.rmtree(folder)
    print(f"draws: {pages} pages, {wrong} wrong")
    return 1 if wrong or not pages else 0


sys.exit(main())
