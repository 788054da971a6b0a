#!/usr/bin/env python3
"""Turns the text of `sqlcipher-tool FILE salvage P` into SQL that makes a plain database of the rows that came out.

    sqlcipher-tool FILE salvage P < KEYFILE | salvage_to_sql.py [--encoding E] | sqlite3 -bail NEWFILE

The text has rows by page, and no page says to which table it belongs. Where rows of the schema came out, their tables are made, and the
rows of a page go, all of them,

1. into the table whose root is this page;
2. else into the one table whose statement they fit: by the count of columns, by what the affinity of each column leaves as it is, and
   by NOT NULL and the rowid. A table with as many columns as the longest row comes before one with more;
3. where they fit several, into the one whose rows do not overlap theirs: no two pages of a table have rowids between each other's;
4. else into the table of the page before or behind, where the rowids go on.

A table whose root has rows has no others, and where page 1 has rows it has the whole schema. Where rows of the schema may be lost, rows of a
table that is not known can fit another one: standard error says so, and rows that overlap those of the only table which they fit are left
over then.

What fits none or several still, and rows that their table refuses (a rowid that it has already, a value that has to be unique), go into the table

    lost_and_found(page, rowid, c0, c1, ..)

or lost_and_found_0 and so on, where the schema has one of that name. No row is left out. Indexes, views and triggers come last, then
virtual tables, as `.dump` keeps them. Standard error says what was put where, what could not be placed, and what the salvage itself has lost.
The status is 0 where every row has its table, 1 where some are in lost_and_found or were lost, and 2 where the text is no salvage
or is cut short; then the SQL doesn't end with COMMIT, and nothing of it is kept.

E is the text encoding of the salvaged file, `utf-8`, `utf-16le` or `utf-16be`; without it that of the first row of the schema is taken, or
`utf-8`. Rows are held in memory, twice. Deleted rows may be among them: a file keeps what it has not written over.
"""
import argparse
import bisect
import collections
import os
import re
import sqlite3
import struct
import sys

from export_to_sql import LONGEST_VALUE, ROWID_NAMES, Float, Refused, Text, Writer, quoted, read_values

ROW = re.compile(rb"row ([0-9]+) (-?[0-9]+)")
LOST = re.compile(rb"lost ([0-9]+) (-?[0-9]+)")
REFUSED = re.compile(rb"page ([0-9]+): tag refused")
BAD_CELL = re.compile(rb"page ([0-9]+): bad cell ([0-9]+)")
LAST = re.compile(rb"salvaged: ([0-9]+) rows, ([0-9]+) lost, ([0-9]+) refused pages")
CODECS = {"utf-8": ("UTF-8", "utf-8"), "utf-16le": ("UTF-16le", "utf-16-le"), "utf-16be": ("UTF-16be", "utf-16-be")}
KINDS = ("table", "index", "view", "trigger")
PLACE = "lost_and_found"
MOST_VALUES = 1900      # of a row in one row of lost_and_found: SQLite's tables have at most 2,000 columns


def counted(number, name):
    return f"{number} {name}" if number == 1 else f"{number} {name}s"


class Leaf:
    """The rows of one page, which are of one table. `low` and `high` are its rowids' bounds, those of lost rows among them."""

    def __init__(self, page):
        self.page, self.rows, self.low, self.high = page, [], None, None

    def meet(self, rowid):
        self.low = rowid if self.low is None else min(self.low, rowid)
        self.high = rowid if self.high is None else max(self.high, rowid)

    def longest(self):
        return max(len(values) for _, values in self.rows)


# ------------------------------------------------------------------ the text of a salvage

def read_salvage(lines):
    """The leaves that have rows, by page, and how many rows were lost, pages refused, and leaves left out for a bad cell."""
    leaves, counts, number = {}, collections.Counter(rows=0, lost=0, refused=0, bad=0), 0
    ended = False
    for line in lines:
        number += 1
        if ended or not line.endswith(b"\n"):
            raise Refused(f"line {number}: not a line of a salvage")
        line = line[:-1]
        if head := ROW.match(line):
            values, end = read_values(line, head.end())
            if end != len(line):
                raise Refused(f"line {number}: not a line of a salvage")
            leaf = leaves.setdefault(int(head[1]), Leaf(int(head[1])))
            leaf.rows.append((int(head[2]), values))
            leaf.meet(int(head[2]))
            counts["rows"] += 1
        elif lost := LOST.fullmatch(line):
            leaves.setdefault(int(lost[1]), Leaf(int(lost[1]))).meet(int(lost[2]))
            counts["lost"] += 1
        elif REFUSED.fullmatch(line):
            counts["refused"] += 1
        elif BAD_CELL.fullmatch(line):
            counts["bad"] += 1
        elif last := LAST.fullmatch(line):
            if [int(field) for field in last.groups()] != [counts["rows"], counts["lost"], counts["refused"]]:
                raise Refused(f"line {number}: its counts are not those of the lines")
            ended = True
        else:
            raise Refused(f"line {number}: not a line of a salvage")
    if not ended:
        raise Refused("the text is cut short")
    return {page: leaf for page, leaf in sorted(leaves.items()) if leaf.rows}, counts


class Item:
    """A row of the schema, in the form that the statements of an export have."""

    def __init__(self, kind, name, table, root, sql):
        self.type, self.name, self.table, self.root, self.sql = kind, name, table, root, sql

    def __str__(self):
        return f"{self.type} {self.name}"

    def is_virtual(self):
        return self.sql is not None and self.sql.upper().startswith("CREATE VIRTUAL TABLE")


def schema_item(values, codec):
    """The object that a row stands for where it has the form of a row of the schema, else none."""
    if len(values) != 5 or not all(isinstance(value, Text) for value in values[:3]):
        return None
    if not (values[3] is None or type(values[3]) is int) or not (values[4] is None or isinstance(values[4], Text)):
        return None
    try:
        kind, name, table = (value.decode(codec) for value in values[:3])
        sql = None if values[4] is None else values[4].decode(codec)
    except UnicodeDecodeError:
        return None
    if kind not in KINDS or (sql is not None and not sql.upper().startswith("CREATE ")):
        return None
    return Item(kind, name, table, values[3] or 0, sql)


def encoding_of(leaves):
    """The text encoding by which a row has the form of a row of the schema."""
    for leaf in leaves.values():
        for _, values in leaf.rows:
            for encoding, (_, codec) in CODECS.items():
                if schema_item(values, codec):
                    return encoding
    return "utf-8"


# ------------------------------------------------------------------ tables

def affinity(declared):
    """SQLite's rules ("Datatypes In SQLite", section 3.1)."""
    declared = declared.upper()
    for words, name in ((("INT",), "integer"), (("CHAR", "CLOB", "TEXT"), "text"), (("BLOB",), "blob"),
                        (("REAL", "FLOA", "DOUB"), "real")):
        if any(word in declared for word in words):
            return name
    return "numeric" if declared else "blob"


def is_numeric(value, codec):
    """Whether a text is surely a number to SQLite: a short decimal one."""
    try:
        text = value.decode(codec).strip(" \t\n\v\f\r")
        return len(text) <= 15 and re.fullmatch(r"[-+]?([0-9]+\.?[0-9]*|\.[0-9]+)", text) is not None
    except UnicodeDecodeError:
        return False


def is_kept(kind, value, codec):
    """Whether a column of this affinity may have such a stored value."""
    if value is None or type(value) is bytes or kind == "blob":
        return True
    if kind == "text":
        return isinstance(value, Text)
    if isinstance(value, Float) and kind != "real":
        # a float that is a whole number would have become an integer
        number = struct.unpack(">d", value)[0]
        return not (abs(number) < 2 ** 47 and number == int(number))
    return not (isinstance(value, Text) and is_numeric(value, codec))


class Spans:
    """Ranges of rowids, those that overlap joined."""

    def __init__(self):
        self.lows, self.highs = [], []

    def between(self, low, high):
        """The places of the ranges that overlap this one."""
        return bisect.bisect_left(self.highs, low), bisect.bisect_right(self.lows, high)

    def overlap(self, low, high):
        first, end = self.between(low, high)
        return first < end

    def add(self, low, high):
        first, end = self.between(low, high)
        low, high = min([low, *self.lows[first:end]]), max([high, *self.highs[first:end]])
        self.lows[first:end], self.highs[first:end] = [low], [high]


class Table:
    """A table that the model has, and what was placed in it."""

    def __init__(self, model, item, codec):
        self.item, self.name, self.codec = item, item.name, codec
        columns = model.execute(f"PRAGMA table_xinfo({quoted(item.name)})").fetchall()
        keys = [column for column in columns if column[5]]
        own = [index for index in model.execute(f"PRAGMA index_list({quoted(item.name)})") if index[3] == "pk"]
        # columns that a record has no value of are virtual ones
        self.columns = [column for column in columns if column[6] != 2]
        is_strict = any(row[5] for row in model.execute(f"PRAGMA table_list({quoted(item.name)})"))
        self.kinds = [affinity("" if is_strict and column[2].upper() == "ANY" else column[2]) for column in self.columns]
        self.computed = {column[1] for column in columns if column[6] == 3}
        self.alias = keys[0][1] if len(keys) == 1 and not own else None
        names = {column[1].lower() for column in columns}
        self.rowid = self.alias or next((name for name in ROWID_NAMES if name not in names), None)
        self.wants = "its columns take all names of the rowid" if self.rowid is None else None
        if self.rowid and not self.alias:
            try:
                model.execute(f"SELECT {self.rowid} FROM {quoted(item.name)}")
            except sqlite3.Error:
                self.rowid, self.wants = None, "its rows stand in an index, of which a salvage takes none"
        # `crossed` has the pages whose rowids lie among those of others
        self.placed, self.bounds, self.spans, self.crossed, self.is_one_page = 0, {}, Spans(), [], False

    def fits(self, values):
        if self.rowid is None or not 0 < len(values) <= len(self.columns):
            return False
        for column, kind, value in zip(self.columns, self.kinds, values):
            if column[1] == self.alias:
                if value is not None:
                    return False
            elif (value is None and column[3]) or not is_kept(kind, value, self.codec):
                return False
        # a column that a row has no value for was added later: it is no part of the key, and may be NULL or has a default
        return all(not column[5] and (column[4] is not None or not column[3]) for column in self.columns[len(values):])

    def fits_all(self, leaf):
        return all(self.fits(values) for _, values in leaf.rows)

    def goes_on(self, leaf, page):
        """Whether the rows of this page are the table's, and go on with those of the leaf, or end before them."""
        low, high = self.bounds.get(page, (leaf.low, leaf.high))
        return high < leaf.low if page < leaf.page else leaf.high < low

    def insert(self, rowid, values, writer):
        names, texts = [self.rowid], [str(rowid)]
        for column, value in zip(self.columns, values):
            if column[1] not in self.computed and column[1] != self.alias:
                names.append(column[1])
                texts.append(writer.value_sql(value, self.item))
        return f"INSERT INTO {quoted(self.name)}({','.join(map(quoted, names))}) VALUES({','.join(texts)});"


class Placing:
    """Puts the rows where they belong, and says so."""

    def __init__(self, out, encoding, tell):
        name, codec = CODECS[encoding]
        self.writer = Writer(out, {})
        self.writer.codec = codec
        self.model, self.tell = self.writer.model, tell
        self.known, self.tables, self.roots, self.own, self.later, self.virtual = {}, {}, {}, {}, [], []
        self.left = []          # (page, rowid, values, why)
        self.is_sure = True     # no table is missing
        self.writer.put(f"PRAGMA encoding = '{name}';", "PRAGMA foreign_keys = OFF;", "PRAGMA ignore_check_constraints = ON;", "BEGIN;")
        self.model.execute("PRAGMA ignore_check_constraints = ON")

    def leave(self, page, rows, why):
        self.left += [(page, rowid, values, why) for rowid, values in rows]

    # -------------------------------------------------------------- the schema

    def read_schema(self, leaves, is_whole):
        """Takes the rows of the schema, makes the tables, and answers the other leaves. `is_whole` says that nothing of the file was lost."""
        rows, others = [], []
        for page, leaf in leaves.items():
            items = [schema_item(values, self.writer.codec) for _, values in leaf.rows]
            if page == 1 or (1 not in leaves and all(items)):
                rows += [(rowid, page, values, item) for (rowid, values), item in zip(leaf.rows, items)]
            else:
                others.append(leaf)
        for rowid, page, values, item in sorted(rows, key=lambda row: row[:2]):
            why = self.meet(item, (page, rowid, values)) if item else "that the schema can't have"
            if why:
                self.leave(page, [(rowid, values)], why)
        self.is_sure = is_whole or 1 in leaves
        if rows:
            self.tell(f"{pages_text(sorted({row[1] for row in rows}))}: {counted(len(rows), 'row')} of the schema")
        return others

    def meet(self, item, row):
        """Makes a table, or keeps the object for later; answers why it can't be made."""
        key = (item.type, item.name.lower())
        if key in self.known:
            first = self.known[key]
            return None if (first.root, first.sql) == (item.root, item.sql) else f"of the schema, on another {item}"
        self.known[key] = item
        if item.type != "table":
            self.later.append((item, row))
        elif not item.root or item.is_virtual():
            if not item.is_virtual():
                return f"of the schema, on {item}: it has no root and is no virtual table"
            self.virtual.append(item)
        elif item.name.lower().startswith("sqlite_"):
            self.own[item.root] = item
        else:
            try:
                self.writer.put(self.writer.statement(item))
                table = Table(self.model, item, self.writer.codec)
            except Refused as refusal:
                self.own[item.root] = item
                return f"of the schema: {refusal}"
            self.tables[item.name.lower()] = table
            self.roots[item.root] = table
        return None

    # -------------------------------------------------------------- rows

    def place_all(self, leaves):
        waiting = []
        for leaf in leaves:
            table, own = self.roots.get(leaf.page), self.own.get(leaf.page)
            if table and table.fits_all(leaf):
                self.fill(table, leaf)
                table.is_one_page = True
            elif own and own.name.lower() == "sqlite_sequence" and all(is_sequence(values) for _, values in leaf.rows):
                self.writer.rows_later.setdefault("sqlite_sequence", []).extend(leaf.rows)
            elif own:
                made = "SQLite makes anew" if own.name.lower().startswith("sqlite_") else "was not made"
                self.leave(leaf.page, leaf.rows, f"of {own.name}, which {made}")
            else:
                waiting.append(leaf)
        several = []
        for leaf in waiting:
            fitting = [table for table in self.tables.values() if table.fits_all(leaf)]
            even = [table for table in fitting if len(table.columns) == leaf.longest()]
            fitting = even or fitting
            free = [table for table in fitting if not table.is_one_page]
            if len(free) == 1 and (self.is_sure or not free[0].spans.overlap(leaf.low, leaf.high)):
                self.fill(free[0], leaf)
            elif len(free) == 1:
                self.leave(leaf.page, leaf.rows, f"that fit {free[0].name}, among whose rowids theirs lie")
            elif free:
                several.append((leaf, free))
            elif fitting:
                whole = ", ".join(table.name for table in fitting)
                self.leave(leaf.page, leaf.rows, f"that fit {whole}, whose rows stand elsewhere on one page")
            else:
                self.leave(leaf.page, leaf.rows, "for which no table fits")
        for leaf, fitting in self.settle(several):
            self.leave(leaf.page, leaf.rows, "for which several tables fit: " + ", ".join(table.name for table in fitting))

    def settle(self, several):
        """Places the leaves that fit several tables, as far as what is placed by then says into which; answers the others."""
        before = None
        while several and len(several) != before:
            before = len(several)
            several = self.settle_once(several, lambda leaf, table: True)
            for turn in (1, -1):        # forward over pages that follow each other, then back
                several = self.settle_once(several[::turn], lambda leaf, table: any(table.goes_on(leaf, leaf.page + step) for step in (-1, 1)))[::turn]
        return several

    def settle_once(self, several, is_near):
        kept = []
        for leaf, fitting in several:
            fitting = [table for table in fitting if not table.spans.overlap(leaf.low, leaf.high)] or fitting
            near = [table for table in fitting if is_near(leaf, table)]
            if len(near) == 1:
                self.fill(near[0], leaf)
            else:
                kept.append((leaf, fitting))
        return kept

    def fill(self, table, leaf):
        if table.spans.overlap(leaf.low, leaf.high):
            table.crossed.append(leaf.page)
        table.bounds[leaf.page] = leaf.low, leaf.high
        table.spans.add(leaf.low, leaf.high)
        for rowid, values in leaf.rows:
            try:
                sql = table.insert(rowid, values, self.writer)
                self.model.execute(sql)
            except (sqlite3.Error, Refused) as error:
                self.leave(leaf.page, [(rowid, values)], f"that {table.name} refuses: {error}")
                continue
            self.writer.put(sql)
            table.placed += 1

    # -------------------------------------------------------------- the end

    def put_later(self):
        for kind in ("index", "view", "trigger"):
            for item, (page, rowid, values) in self.later:
                if item.type != kind or item.sql is None:       # an index without a statement comes with its table
                    continue
                try:
                    self.writer.put(self.writer.statement(item))
                except Refused as refusal:
                    self.leave(page, [(rowid, values)], f"of the schema: {refusal}")

    def put_left(self):
        taken = {name for _, name in self.known}
        place = next(name for name in (PLACE, *(f"{PLACE}_{number}" for number in range(len(taken) + 1))) if name not in taken)
        rows = [(page, rowid, values[at:at + MOST_VALUES]) for page, rowid, values, _ in self.left
                for at in range(0, max(1, len(values)), MOST_VALUES)]
        if not rows:
            return
        # `rowid` is the salvaged one: a name of a column hides the table's own
        names = ["page", "rowid"] + [f"c{index}" for index in range(max(len(values) for _, _, values in rows))]
        self.writer.put(f"CREATE TABLE {place}({', '.join(map(quoted, names))});")
        for page, rowid, values in rows:
            texts = [str(page), str(rowid)] + [self.left_value(value, page, rowid) for value in values]
            self.writer.put(f"INSERT INTO {place}({','.join(map(quoted, names[:len(texts)]))}) VALUES({','.join(texts)});")
        self.tell(f"{place}: {counted(len(self.left), 'row')}")
        if len(rows) != len(self.left):
            self.tell(f"{place}: rows of more than {MOST_VALUES} values are there in pieces")

    def left_value(self, value, page, rowid):
        try:
            return self.writer.value_sql(value, f"row {page} {rowid}")
        except Refused:
            if len(value) > LONGEST_VALUE:
                raise
            # a text that is none in this encoding is kept as its bytes
            return f"x'{value.hex()}'"

    def put_virtual(self):
        if self.virtual:
            self.writer.put("PRAGMA writable_schema = ON;")
            for item in self.virtual:
                self.writer.put_virtual(item)
                self.tell(f"{item}: a virtual table; what its tables have lost it does not know")
            self.writer.put("PRAGMA writable_schema = OFF;")

    def end(self):
        self.put_later()
        if "sqlite_sequence" in self.writer.rows_later:
            self.tell(f"table sqlite_sequence: {counted(len(self.writer.rows_later['sqlite_sequence']), 'row')}, of 1 page")
        self.writer.fill_sequence()
        self.put_left()
        self.put_virtual()
        for table in self.tables.values():
            told = f"{counted(table.placed, 'row')}, of {counted(len(table.bounds), 'page')}" if table.bounds else table.wants or "no row was placed"
            if table.crossed:
                told += f"; {pages_text(table.crossed)}: the rowids lie among those of other pages, so some rows are deleted ones or are there twice"
            self.tell(f"{table.item}: {told}")
        reasons = collections.defaultdict(list)
        for page, _, _, why in sorted(self.left, key=lambda row: row[0]):
            reasons[why].append(page)
        for why, pages in reasons.items():
            self.tell(f"{pages_text(pages)}: {counted(len(pages), 'row')} {why}")
        self.writer.put("COMMIT;")


def is_sequence(values):
    return len(values) == 2 and isinstance(values[0], Text) and type(values[1]) is int


def pages_text(pages):
    """Which pages these are; their numbers ascend."""
    number, first, last = len(set(pages)), pages[0], pages[-1]
    if first == last:
        return f"page {first}"
    return f"pages {first} to {last}" if number == last - first + 1 else f"{number} pages from {first} to {last}"


def turn(lines, out, encoding=None, tell=lambda text: None):
    """Writes the SQL of a salvage whose lines these are, and answers whether every row has its table."""
    leaves, counts = read_salvage(lines)
    is_whole = not (counts["lost"] or counts["refused"] or counts["bad"])
    placing = Placing(out, encoding or encoding_of(leaves), tell)
    others = placing.read_schema(leaves, is_whole)
    if placing.tables and not placing.is_sure:
        tell("rows of the schema may be lost: what is of a table that is not known may stand in another one that it fits")
    placing.place_all(others)
    placing.end()
    for name, thing, what in (("lost", "row", "lost"), ("refused", "page", "refused"), ("bad", "page", "left out for a bad cell")):
        if counts[name]:
            tell(f"in the salvage {counted(counts[name], thing)} {'was' if counts[name] == 1 else 'were'} {what}")
    return is_whole and not placing.left


def main(words):
    parser = argparse.ArgumentParser(description=__doc__, formatter_class=argparse.RawDescriptionHelpFormatter)
    parser.add_argument("--encoding", choices=sorted(CODECS), help="the text encoding of the salvaged file")
    args = parser.parse_args(words)
    try:
        whole = turn(sys.stdin.buffer, sys.stdout.buffer, args.encoding, lambda text: print(f"salvage_to_sql: {text}", file=sys.stderr))
        sys.stdout.buffer.flush()
    except BrokenPipeError:
        os.dup2(os.open(os.devnull, os.O_WRONLY), sys.stdout.fileno())
        return 2
    except Refused as refusal:
        sys.stdout.buffer.flush()
        print(f"salvage_to_sql: {refusal}", file=sys.stderr)
        return 2
    return 0 if whole else 1


if __name__ == "__main__":
    sys.exit(main(sys.argv[1:]))
