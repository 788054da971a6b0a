"""The log of SQLite's WAL mode ("Database File Format", section 4), and what a file and its log open to.

A log is 32 bytes of header, and frames of 24 bytes and a page. A frame is valid where its salts are the header's, its page is not 0 and the checksum,
which runs from the header through every frame, holds. Frames count up to the last valid one that ends a commit; of each page the last one counts.
Written from the public format alone.
"""
import functools
import struct
from dataclasses import dataclass, field

MAGIC = 0x377F0682      # one more where the words of the checksums have the highest byte first
VERSION = 3007000
HEAD, FRAME = 32, 24
# Each rule that `read_log` and `opened` go by, and can go without: then they are wrong, which the trials have to find.
RULES = {
    "salts": "frames of other salts count",
    "checksums": "frames whose checksum does not hold count",
    "commits": "frames behind the last commit count",
    "order": "of each page the first frame counts",
    "cut": "the file is not cut to the pages of the last commit",
    "log": "no frame counts",
}


def sums(data, state, is_big):
    """The running checksum: two numbers of 32 bits over pairs of words."""
    words = struct.unpack((">" if is_big else "<") + f"{len(data) // 4}I", data)
    first, second = state
    for i in range(0, len(words), 2):
        first = (first + words[i] + second) & 0xFFFFFFFF
        second = (second + words[i + 1] + first) & 0xFFFFFFFF
    return first, second


@dataclass
class Log:
    """What a log holds. Without a right header nothing counts, and `size` is 0."""
    size: int = 0
    version: int = 0
    is_big: bool = False
    salts: bytes = b""
    frames: list = field(default_factory=list)      # (page, pages after its commit or 0, offset of its bytes), the valid ones
    committed: int = 0                              # how many of them count
    pages: int = 0                                  # the pages of the database after the last commit


def read_log(log, without=None):
    return read_frames(log, without if without in ("salts", "checksums") else None)


@functools.lru_cache(maxsize=4)
def read_frames(log, without):
    if len(log) < HEAD:
        return Log()
    magic, version, size = struct.unpack(">3I", log[:12])
    if magic & ~1 != MAGIC or size & (size - 1) or not 512 <= size <= 65536:
        return Log()
    is_big = bool(magic & 1)
    state = sums(log[:24], (0, 0), is_big)
    if struct.pack(">2I", *state) != log[24:32]:
        return Log()
    found = Log(size, version, is_big, log[16:24])
    if version != VERSION:
        return found
    for at in range(HEAD, len(log) - FRAME - size + 1, FRAME + size):
        head, page = log[at:at + FRAME], log[at + FRAME:at + FRAME + size]
        number, pages = struct.unpack(">2I", head[:8])
        state = sums(page, sums(head[:8], state, is_big), is_big)
        if number == 0 or without != "salts" and head[8:16] != found.salts:
            break
        if without != "checksums" and struct.pack(">2I", *state) != head[16:24]:
            break
        found.frames.append((number, pages, at + FRAME))
        if pages:
            found.committed, found.pages = len(found.frames), pages
    return found


def opened(main, log, without=None):
    """The file that the pair opens to."""
    found = read_log(log or b"", without)
    count = len(found.frames) if without == "commits" else found.committed
    if not main or not found.pages or without == "log":
        return main
    file, size = bytearray(main), found.size
    frames = found.frames[:count]
    for number, _, at in reversed(frames) if without == "order" else frames:
        if number <= found.pages or without == "cut":
            start = (number - 1) * size
            file.extend(bytes(max(0, start + size - len(file))))
            file[start:start + size] = log[at:at + size]
    end = found.pages * size
    file.extend(bytes(max(0, end - len(file))))
    return bytes(file) if without == "cut" else bytes(file[:end])


def resummed(log, is_big=None):
    """The log with its checksums made anew, as far as the frames have the header's salts; in the byte order asked for, or its own."""
    out, size = bytearray(log), struct.unpack(">I", log[8:12])[0]
    is_big = bool(log[3] & 1) if is_big is None else is_big
    out[3] = out[3] & 0xFE | is_big
    state = sums(bytes(out[:24]), (0, 0), is_big)
    out[24:32] = struct.pack(">2I", *state)
    if not 512 <= size <= 65536 or size % 8:
        return bytes(out)
    for at in range(HEAD, len(out) - FRAME - size + 1, FRAME + size):
        if out[at + 8:at + 16] != out[16:24]:
            break
        state = sums(bytes(out[at + FRAME:at + FRAME + size]), sums(bytes(out[at:at + 8]), state, is_big), is_big)
        out[at + 16:at + 24] = struct.pack(">2I", *state)
    return bytes(out)


def turned(data, at, bit=1):
    """The bytes with one of them another."""
    out = bytearray(data)
    out[at] ^= bit
    return bytes(out)


def frames_of(frames, size, salts=b"saltsalt", is_big=False, version=VERSION):
    """A log of these frames (page, pages after the commit or 0, bytes), its checksums right."""
    parts = [struct.pack(">4I", MAGIC, version, size, 0) + salts + bytes(8)]
    parts += [struct.pack(">2I", number, pages) + salts + bytes(8) + page for number, pages, page in frames]
    return resummed(b"".join(parts), is_big)


def variants(main, log):
    """The pair, and what may become of it: (what was done, Main, the log)."""
    yield "as made", main, log
    found = read_log(log or b"")
    if not found.committed:
        return
    for what, changed in variants_of(log, found):
        yield what, main, changed
    # What a checkpoint that was stopped leaves.
    half = bytearray(opened(main, log))
    for number in range(2, len(main) // found.size + 1, 2):
        half[(number - 1) * found.size:number * found.size] = main[(number - 1) * found.size:number * found.size]
    yield "a part laid in Main", bytes(half), log


def variants_of(log, found):
    step = FRAME + found.size
    last = found.frames[found.committed - 1][2] - FRAME
    end = last + step
    middle = found.frames[found.committed // 2][2] - FRAME
    yield "torn in the last committed page", log[:end - 1]
    yield "torn in the head of the last committed frame", log[:last + 7]
    yield "cut behind the last commit", log[:end]
    yield "cut before the frame that ends the last commit", log[:last]
    yield "cut within the header", log[:31]
    yield "the header alone", log[:32]
    yield "a bit of the last committed page", turned(log, end - found.size // 2)
    yield "a bit of a checksum in the middle", turned(log, middle + 19, 128)
    yield "a bit of a page number in the middle", turned(log, middle + 3)
    yield "a bit of a salt of the last committed frame", turned(log, last + 11)
    yield "a bit of the salts of the header", turned(log, 17)
    yield "a bit of the magic", turned(log, 1)
    yield "the other byte order", resummed(log, not found.is_big)
    yield "zeros behind", log + bytes(3 * step)
    yield "a part of a frame behind", log + log[HEAD:HEAD + 100]
