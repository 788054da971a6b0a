#!/usr/bin/env python3
"""Compares the system calls of a run with the tables of docs/CRASH_MODEL.md, call by call.

    compare.py tables                     whether rows.tsv has each row of these tables, word for word and in order
    compare.py RUN FOLDER P P2 STATE      reads what strace wrote from standard input. RUN is a name of `RUNS` below, FOLDER the
                                          folder of the run, whose database is `file` of version P, P2 the version that is
                                          written, and STATE what is true at the start, joined by commas: `hot=N` a hot journal
                                          of N pages, `cold` a cold one, `left` an unfinished Fresh, `log`, `laid=N` a log
                                          and its N committed frames, and the other words of rows.tsv
    compare.py refuse RUN ..              the same, and the run has to be refused
    compare.py frames LOG                 how many frames of a log that was never begun anew are laid

Only calls that matter to the disk are looked at: that a file is made or cut by an open, each read, write, cut, sync, removal
and rename of the three files, syncs of their folder, draws of random bytes, and standard output. That a file is opened,
looked up, locked or given a mode is passed over, and so are reads that no row names, once the first syncs are done.

A run that agrees is then spoilt in each way that may matter, and has to be refused each time: a call left out that writes,
syncs or changes a name, and two neighbours of these in the other order where one is a sync or a change of names.
"""
import collections
import os
import re
import sys

HERE = os.path.dirname(os.path.abspath(__file__))
MODEL = os.path.join(HERE, "..", "..", "docs", "CRASH_MODEL.md")
RECOVERY, COMMIT, STAMP, SETTLE, REKEY, MIGRATE = (
    f"A {it}, call by call" for it in ("recovery", "commit", "`stamp`", "`settle`", "`rekey`", "`migrate`"))
# A run is the rows of a table, without so many at its head, and then calls of its own, among which the rows of another may stand:
# all, or `|` without so many at its head `|` and so many at its end.
RUNS = {
    "read": (RECOVERY, 0, "read:Main+ (output read:Main*)+"),
    "probe": (None, 0, "read:Main+ output"),
    "recover": (RECOVERY, 0, "output"),
    "commit": (COMMIT, 0, ""),
    "stamp": (STAMP, 0, ""),
    "settle": (SETTLE, 0, ""),
    "rekey": (REKEY, 0, ""),
    "migrate": (MIGRATE, 0, ""),
    "make": (MIGRATE, 2, ""),
    "play": (RECOVERY, 0, f"read:Main* (output read:Main*)+ draw? {{{COMMIT}}} (output read:Main*)+"),
    "play_ahead": (RECOVERY, 0, f"read:Main* (output read:Main*)+ {{{REKEY}|2|1}} (output read:Main*)+"),
}
HEADED = "4:plain-header=32"
LAYOUTS = {"1": (1024, 16), "2": (1024, 48), "3": (1024, 48), "4": (4096, 80), HEADED: (4096, 80), "plain:1024": (1024, 0), "plain:4096": (4096, 0)}     # page size and reserve
NEW_SALT = "the draw of 16 bytes, the new salt"
ACTS = ("create", "write", "cut", "sync", "remove", "rename")
ORDERING = ("create", "cut", "sync", "remove", "rename")


class Wrong(Exception):
    pass


# ------------------------------------------------------------------ tables

def rows_here():
    """{table: [(row, calls)]} of rows.tsv."""
    tables = {}
    with open(os.path.join(HERE, "rows.tsv"), encoding="utf-8") as lines:
        for line in lines:
            if not line.startswith("#"):
                table, row, calls = line.rstrip("\n").split("\t")
                tables.setdefault(table, []).append((row, calls))
    return tables


def rows_of_model():
    """{heading: [first cell of each row]} of docs/CRASH_MODEL.md."""
    tables, heading = {}, ""
    with open(MODEL, encoding="utf-8") as lines:
        for line in lines:
            if line.startswith("## "):
                heading = line[3:].strip()
            elif line.startswith("| ") and not line.startswith("| calls |"):
                tables.setdefault(heading, []).append(line[2:].split(" | ")[0].strip())
    return tables


def compare_tables():
    model, here = rows_of_model(), rows_here()
    for table in model:
        if table.endswith("call by call") and table not in here:
            raise Wrong(f"'{table}' of docs/CRASH_MODEL.md is not in tests/calls/rows.tsv")
    for table, rows in here.items():
        said, ours = model.get(table, []), [row for row, _ in rows]
        for number in range(max(len(said), len(ours))):
            of_model, of_ours = (it[number] if number < len(it) else "no row" for it in (said, ours))
            if of_model != of_ours:
                raise Wrong(f"'{table}', row {number + 1}: docs/CRASH_MODEL.md has '{of_model}', tests/calls/rows.tsv '{of_ours}'")
    print(f"{sum(map(len, here.values()))} rows of {len(here)} tables are those of docs/CRASH_MODEL.md")


def rows_named(tables, named):
    """The rows of `{TABLE}`, or of `{TABLE|HEAD|END}` without so many at its head and at its end."""
    name, head, end = (named[1:-1].split("|") + ["0", "0"])[:3]
    return tables[name][int(head):len(tables[name]) - int(end)]


def undrawn(calls):
    """The calls of a row without its draws."""
    for draws in ("(draw read:Main*)* ", "draw? ", "draw "):
        calls = calls.replace(draws, "")
    if "draw" in calls:
        raise Wrong(f"a draw is left in '{calls}'")
    return calls


def expression(calls, tables, state):
    """A regular expression over calls that each end in a space. Before each call there may be reads that only look; reads are
    taken as they come (`*+`, `++`), so that a list of calls that does not agree is refused in a short time."""
    tokens = re.findall(r"\{[^}]*\}|(?:hot|cold|left|log|laid|shorter|index|marked|vacuumed)\(|[()*+?]|[\w:@]+", calls)

    def item():
        token = tokens.pop(0)
        if token.endswith("("):
            inner = sequence()
            tokens.pop(0)
            body = inner if token == "(" or token[:-1] in state else ""
        elif token.startswith("{"):
            body = "".join(expression(row_calls, tables, state) for _, row_calls in rows_named(tables, token))
        elif token.startswith("read:"):
            body = rf"(?:read:(?!{token[5:]} )\w+ )*+{token} "
        else:
            body = rf"(?:read:\w+ )*+{re.escape(token)} "
        repeat = tokens.pop(0) if tokens and tokens[0] in "*+?" else ""
        return f"(?:{body}){repeat}" + ("+" if repeat and token.startswith("read:") else "")

    def sequence():
        found = ""
        while tokens and tokens[0] != ")":
            found += item()
        return found

    return sequence()


# ------------------------------------------------------------------ calls

Call = collections.namedtuple("Call", "act name at size head")      # the act, the whole name, and of a write its place and first bytes
LINE = re.compile(r"(?:\d+ +)?(\w+)\((.*)\) += (-?\d+)(.*)$")
WRITES = ("write", "pwrite64", "writev", "pwritev", "pwritev2")
READS = ("read", "pread64", "readv", "preadv", "preadv2")


def plain_bytes(text):
    """The bytes of a string as strace prints it with -x."""
    pieces = re.findall(r"\\x([0-9a-f]{2})|\\(.)|(.)", text)
    escapes = {"n": "\n", "t": "\t", "r": "\r", "v": "\v", "f": "\f"}
    return bytes(int(hexed, 16) if hexed else ord(escapes.get(escaped, escaped) or char) for hexed, escaped, char in pieces)


class Reader:
    def __init__(self, folder, page_size, new_page_size):
        self.folder, self.page_size = folder, page_size
        self.sizes = {"Main": page_size, "Fresh": new_page_size}
        self.roles = {f"{folder}/file": "Main", f"{folder}/file-journal": "Journal", f"{folder}/file-migrated": "Fresh",
                      f"{folder}/file-wal": "Log", f"{folder}/file-shm": "Index", folder: "folder"}
        self.segment = self.records = 0     # where the journal's last segment begins, and its number of records
        self.linked = None                  # the roles of a link whose first name was not removed yet

    def role(self, words):
        """The role of the first path in these words: of a descriptor as strace -y prints it, or in quotes."""
        number = re.match(r"\d+<([^>]*)>", words)
        name = re.match(r'(?:AT_FDCWD<[^>]*>, )?"([^"]*)"', words)
        return self.role_at(number[1] if number else name[1]) if number or name else None

    def role_at(self, path):
        """Another file of the folder is a stranger, which may be looked at, and read, but is no part of a table."""
        path = os.path.normpath(os.path.join(self.folder, path))
        return self.roles.get(path, "stranger" if path.startswith(self.folder + "/") else None)

    def calls(self, lines):
        for line in lines:
            found = LINE.match(line.rstrip("\n"))
            if not found or "(INJECTED)" in found[4]:
                continue
            name, words, result = found[1], found[2], int(found[3])
            call = self.call(name, words, result)
            if call:
                yield call

    def call(self, name, words, result):
        role = self.role(words)
        if name in WRITES and re.match(r"1[<,]", words):
            return Call("output", "output", 0, result, b"")
        if name in READS and re.match(r"\d+</dev/u?random>", words):
            return Call("draw", "draw", 0, result, b"")
        if role is None or role == "stranger" and name in READS:
            return None
        if result < 0:
            return None if name in ("openat", "open") or name in READS or role == "Index" else Call("failed", f"failed:{name}:{role}", 0, 0, b"")
        if name in ("openat", "open", "creat"):
            made = "O_CREAT" in words or name == "creat"
            if "O_TRUNC" in words or name == "creat" or made and "O_EXCL" not in words:
                return Call("other", f"open:{role}:over", 0, 0, b"")
            return Call("create", f"create:{role}", 0, 0, b"") if made else None
        if name in READS:
            at = int(words.rsplit(", ", 1)[1]) if name.startswith("p") else 0
            return Call("read", f"read:{role}", at, result, b"")
        if name in WRITES:
            return self.write(name, words, result, role)
        if name in ("ftruncate", "truncate"):
            return Call("cut", f"cut:{role}", int(words.rsplit(", ", 1)[1]), 0, b"")
        if name == "fsync":
            return Call("sync", f"sync:{role}", 0, 0, b"")
        # A link whose first name is removed next is a rename, over nothing.
        if name in ("link", "linkat"):
            self.linked = role, self.role_at(re.findall(r'"([^"]*)"', words)[-1])
            return None
        if name in ("unlink", "unlinkat"):
            linked, self.linked = self.linked, None
            if linked and linked[0] == role:
                return Call("rename", f"rename:{role}:{linked[1]}", 0, 0, b"")
            return Call("remove", f"remove:{role}", 0, 0, b"")
        if name in ("rename", "renameat", "renameat2"):
            other = self.role_at(re.findall(r'"([^"]*)"', words)[-1])
            return Call("rename", f"rename:{role}:{other}", 0, 0, b"")
        return Call("other", f"{name}:{role}", 0, 0, b"")

    def write(self, name, words, result, role):
        found = re.match(r'\d+<[^>]*>, "((?:[^"\\]|\\.)*)"(?:\.\.\.)?, (\d+), (\d+)$', words)
        if name != "pwrite64" or not found or int(found[2]) != result:
            return Call("write", f"{name}:{role}", 0, result, b"")
        head, size, at = plain_bytes(found[1]), int(found[2]), int(found[3])
        if role == "Journal":
            kind = self.piece(at, size, head)
        elif size != self.sizes.get(role) or at % size:
            kind = ":odd"
        else:
            kind = ":first" if role == "Fresh" and at == 0 else ""
        return Call("write", f"write:{role}{kind}", at, size, head)

    def piece(self, at, size, head):
        """What a write of the journal is: a byte of a gate, the rest of a header, or a record, each in its place."""
        following = -(-(self.segment + 512 + self.records * (self.page_size + 8)) // 512) * 512
        if size == 1 and head == b"\0" and at == 0:
            self.segment = self.records = 0
            return ":00@first"
        if size == 1 and head == b"\0" and at == following:
            self.segment, self.records = at, 0
            return ":00@next"
        if size == 1 and head == b"\xd9" and at == self.segment:
            return ":d9"
        if size == 511 and at == self.segment + 1 and head.startswith(bytes.fromhex("d505f920a1")):
            return ":header"
        if size == self.page_size + 8 and at == self.segment + 512 + self.records * size:
            self.records += 1
            return ":record"
        return ":odd"


# ------------------------------------------------------------------ a run

class Run:
    def __init__(self, name, read_version, written_version, state):
        self.name, self.tables = name, rows_here()
        words = [] if state == "none" else state.split(",")
        self.played = sum(int(it.split("=")[1]) for it in words if it.startswith(("hot=", "laid=")))
        self.state = {it.split("=")[0] for it in words}
        self.page_size = LAYOUTS[read_version][0]
        self.new_page_size, self.reserve = LAYOUTS[written_version]
        table, without, more = RUNS[name]
        self.rows = (self.tables[table] if table else [])[without:]
        for part in re.split(r"(\{[^}]*\})", more):
            self.rows += rows_named(self.tables, part) if part.startswith("{") else [("what the command does itself", part)] if part else []
        self.salt = 0 if written_version == HEADED or not self.reserve else 16
        if not self.reserve:        # of a plain file nothing is drawn
            self.rows = [(row, undrawn(calls)) for row, calls in self.rows if calls != "draw"]
        elif not self.salt:         # under a plain header the key line has the salt
            self.rows = [(row, calls) for row, calls in self.rows if row != NEW_SALT]
        pieces = [expression(calls, self.tables, self.state) for _, calls in self.rows]
        pieces[-1] += r"(?:read:\w+ )*"
        self.prefixes = [re.compile("".join(pieces[:count])) for count in range(len(pieces) + 1)]

    def check(self, calls):
        """Raises `Wrong` unless the calls are those of the rows, and their numbers agree."""
        text = "".join(f"{call.name} " for call in calls)
        if not self.prefixes[-1].fullmatch(text):
            raise Wrong(self.first_difference(calls, text))
        self.check_barrier(calls)
        self.check_pages(calls)
        self.check_draws(calls)

    def first_difference(self, calls, text):
        row, end = 0, 0
        for count, prefix in enumerate(self.prefixes):
            found = prefix.match(text)
            if found and found.end() >= end:
                row, end = count, found.end()
        place = text[:end].count(" ")
        after = ", ".join(call.name for call in calls[max(0, place - 2):place]) or "the start"
        wanted = self.rows[row][0] if row < len(self.rows) else "the end"
        return f"after {after}, call {place + 1} is {calls[place].name if place < len(calls) else 'none'}, where the next row is '{wanted}'"

    def check_barrier(self, calls):
        """Nothing is read of the files before they and their folder are synced."""
        names = [call.name for call in calls]
        if self.name not in ("probe", "make", "commit") and "read" in {call.act for call in calls[:names.index("sync:folder")]}:
            raise Wrong("a file is read before the first sync of the folder")

    def check_pages(self, calls):
        """Each page of Main that a transaction writes was read, recorded and guarded before, once; each page of Fresh is written once."""
        recorded, opened, guarded, written, fresh, laid, within, looked = [], [], [], [], [], 0, False, set()
        for call in calls:
            number = call.at // self.page_size + 1
            if call.name == "create:Journal":
                within = True
            elif call.name == "read:Main" and call.size == self.page_size:
                looked.add(number)
            elif call.name == "write:Journal:record":
                recorded.append(int.from_bytes(call.head[:4], "big"))
                if recorded[-1] not in looked:
                    raise Wrong(f"the record of page {recorded[-1]} is written without a read of that page before it")
                looked = set()
            elif call.name == "write:Journal:d9":
                opened = recorded[:]
            elif call.name == "sync:Journal":
                guarded = opened[:]
            elif call.name == "write:Main" and within:
                if number not in guarded:
                    raise Wrong(f"page {number} is written, and no record of it is behind an open gate")
                written.append(number)
            elif call.name == "write:Main":
                laid += 1
            elif call.name.startswith("write:Fresh"):
                fresh.append(call.at // self.new_page_size + 1)
        if sorted(written) != sorted(guarded) or len(set(recorded)) != len(recorded):
            raise Wrong(f"{len(recorded)} pages are recorded, and {len(written)} written")
        if laid != self.played:
            raise Wrong(f"{laid} pages are laid, and the journal and the log have {self.played}")
        if sorted(fresh) != list(range(1, len(fresh) + 1)):
            raise Wrong("a page of the new file is written twice, or not at all")
        if self.name in ("migrate", "make") and len(fresh) != self.pages:
            raise Wrong(f"{len(fresh)} pages of the new file are written, and it has {self.pages}")
        self.sealed = len(written) + len(fresh)

    def check_draws(self, calls):
        drawn = sum(call.size for call in calls if call.act == "draw")
        wanted = self.sealed * self.reserve + self.salt * (self.name in ("migrate", "make"))
        if self.name != "commit" and drawn != wanted:
            raise Wrong(f"{drawn} bytes are drawn for {self.sealed} pages, and not {wanted}")

    def spoilt(self, calls):
        """(what was done, calls) for each way to spoil a run."""
        for at, call in enumerate(calls):
            if call.act in ACTS:
                yield f"without call {at + 1}, {call.name}", calls[:at] + calls[at + 1:]
            more = calls[at + 1] if at + 1 < len(calls) else None
            if more and {call.act, more.act} <= set(ACTS) and call.name != more.name and (call.act in ORDERING or more.act in ORDERING):
                yield f"with calls {at + 1} and {at + 2}, {call.name} and {more.name}, in the other order", calls[:at] + [more, call] + calls[at + 2:]


def calls_of(run, folder, lines):
    calls = list(Reader(folder, run.page_size, run.new_page_size).calls(lines))
    if run.name == "commit":
        names = [call.name for call in calls]
        calls = [call for call in calls[names.index("create:Journal"):names.index("output")] if call.act != "draw"]
    return calls


def compare(name, folder, read_version, written_version, state):
    run = Run(name, read_version, written_version, state)
    run.pages = os.path.getsize(os.path.join(folder, "file")) // run.new_page_size
    calls = calls_of(run, folder, sys.stdin)
    run.check(calls)
    refused = 0
    for what, spoilt in run.spoilt(calls):
        try:
            run.check(spoilt)
        except Wrong:
            refused += 1
            continue
        raise Wrong(f"the same calls {what}, are not refused")
    syncs = sum(call.act == "sync" for call in calls)
    return f"{len(calls)} calls as the table says, {syncs} syncs among them; spoilt {refused} times, and refused each time"


def frames_laid(path):
    """The committed frames of the pages that the last commit leaves."""
    with open(path, "rb") as file:
        log = file.read()
    numbers, committed, end = [], 0, 0
    size = 24 + int.from_bytes(log[8:12], "big")
    for at in range(32, len(log) - size + 1, size):
        number, pages = (int.from_bytes(log[at + i:at + i + 4], "big") for i in (0, 4))
        if log[at + 8:at + 16] != log[16:24]:
            break
        numbers.append(number)
        if pages:
            committed, end = len(numbers), pages
    return sum(number <= end for number in numbers[:committed])


def main(words):
    if words == ["tables"]:
        compare_tables()
    elif len(words) == 2 and words[0] == "frames":
        print(frames_laid(words[1]))
    elif len(words) == 5 and words[0] in RUNS:
        print(compare(*words))
    elif len(words) == 6 and words[0] == "refuse" and words[1] in RUNS:
        try:
            compare(*words[1:])
        except Wrong as wrong:
            print(f"refused: {wrong}")
            return
        raise Wrong("the run agrees, and should have been refused")
    else:
        sys.exit(__doc__)


if __name__ == "__main__":
    try:
        main(sys.argv[1:])
    except Wrong as wrong:
        print(wrong)
        sys.exit(1)
