#!/usr/bin/env python3
"""Turns the text of `sqlcipher-tool FILE export P` into SQL that makes a plain database of the same rows.

    sqlcipher-tool FILE export P < KEYFILE | export_to_sql.py [--skip NAME].. | sqlite3 -bail NEWFILE

Tables and their rows come first, then indexes, views and triggers, so that none of these acts on a row. All of it is one
transaction, which ends only after the text's last line: of a text that is cut short nothing is kept.

What is kept: every row of every table with its rowid, each value with its type, floats to the bit, texts and strings of bytes
to the byte; the text encoding, user version and application id. Virtual tables are kept as `.dump` keeps them: the statement
goes into the schema as a row, and the tables behind it are tables like others. Generated columns and the entries of indexes are
computed anew. `sqlite_sequence` and the statistics of ANALYZE are filled as they were.

What can't be turned is refused by name, with status 2 and one line on standard error: a text that is no export, a statement
that SQLite doesn't take, rows whose rowid has no name left, a record with more values than its table has columns, a text of
UTF-16 of odd length, a value too long for a statement, and tables of SQLite's own that this SQLite doesn't make.
`--skip NAME` leaves the table, index, view or trigger of that name out, a table with its rows, indexes and triggers. A view of
it stays, and fails where it is read.
"""
import argparse
import os
import re
import sqlite3
import struct
import sys
from decimal import Decimal

VALUE = re.compile(rb" (?:(null)|(-?[0-9]+)|f'([0-9a-f]{16})'|x'((?:[0-9a-f]{2})*)'"
                   rb"|'((?:[ -&(-\[\]-~]|\\x[0-9a-f]{2})*)')")
DATABASE = re.compile(rb"database cookie (\d+) format (\d+) cache (\d+) encoding (\d+) user-version (\d+)"
                      rb" application-id (\d+) sqlite (\d+)")
SCHEMA = re.compile(rb"schema (-?[0-9]+)")
ROW = re.compile(rb"row (-?[0-9]+)|entry")
KIND = re.compile(rb" (table|index|none)")
ESCAPE = re.compile(rb"\\x([0-9a-f]{2})")
ENCODINGS = {0: ("UTF-8", "utf-8"), 1: ("UTF-8", "utf-8"), 2: ("UTF-16le", "utf-16-le"), 3: ("UTF-16be", "utf-16-be")}
LONGEST_VALUE = 400_000_000     # twice as many digits have to stand in a statement of at most 10^9 bytes
TOKEN = re.compile(r"""'(?:[^']|'')*'|"(?:[^"]|"")*"|`(?:[^`]|``)*`|\[[^\]]*\]|--[^\n]*|/\*.*?\*/""", re.DOTALL)
ROWID_NAMES = ("rowid", "_rowid_", "oid")
FILLED_LAST = ("sqlite_sequence", "sqlite_stat1", "sqlite_stat2", "sqlite_stat3", "sqlite_stat4")


class Refused(Exception):
    pass


class Text(bytes):
    """The stored bytes of a text, beside plain `bytes` for a string of bytes."""


class Float(bytes):
    """The eight stored bytes of a float."""


# ------------------------------------------------------------------ the text of an export

def read_values(line, at):
    """The values from `at` to the end of the line, or to what is none, and where that is."""
    values = []
    while found := VALUE.match(line, at):
        null, integer, real, blob, text = found.groups()
        if null is not None:
            values.append(None)
        elif integer is not None:
            values.append(int(integer))
        elif real is not None:
            values.append(Float.fromhex(real.decode()))
        elif blob is not None:
            values.append(bytes.fromhex(blob.decode()))
        else:
            values.append(Text(ESCAPE.sub(lambda byte: bytes.fromhex(byte[1].decode()), text)))
        at = found.end()
    return values, at


class Item:
    """A row of the schema: an object of the database."""

    def __init__(self, rowid, columns, tree, codec):
        self.rowid, self.tree = rowid, tree
        self.type, self.name, self.table, self.sql = (self.decoded(column, codec) for column in columns)
        if self.type is None or self.name is None or self.table is None:
            raise Refused(f"schema row {rowid}: it has no type or no name")

    def decoded(self, value, codec):
        if value is None:
            return None
        if not isinstance(value, Text):
            raise Refused(f"schema row {self.rowid}: a column is no text")
        try:
            return value.decode(codec)
        except UnicodeDecodeError:
            raise Refused(f"schema row {self.rowid}: a text is not Unicode") from None

    def __str__(self):
        return f"{self.type} {self.name}"


def read_schema_row(line, number, codec):
    head = SCHEMA.match(line)
    front, at = read_values(line, head.end())
    kind = KIND.match(line, at)
    behind, end = read_values(line, kind.end()) if kind else ([], -1)
    if end != len(line) or len(front) != 3 or len(behind) != 1:
        raise Refused(f"line {number}: not a line of an export")
    return Item(int(head[1]), front + behind, kind[1].decode(), codec)


# ------------------------------------------------------------------ SQL

def quoted(name):
    return '"' + name.replace('"', '""') + '"'


def literal(text):
    return "'" + text.replace("'", "''") + "'"


def is_printable(text):
    return all(char >= " " and char != "\x7f" for char in text)


def float_sql(data):
    """An expression of exactly this float: a literal where its decimal form is short, so that no reader rounds it."""
    value = struct.unpack(">d", data)[0]
    if value != value:
        return "NULL"       # as SQLite reads it
    if value in (float("inf"), float("-inf")):
        return "9e999" if value > 0 else "-9e999"
    exact = Decimal(value)
    sign, digits, exponent = exact.as_tuple()
    if len(digits) <= 15 and -15 <= exponent <= 0:
        return f"{exact:f}" if exponent else f"{exact:f}.0"
    # An odd whole number of at most 53 bits, then products with powers of two, each of them exact.
    mantissa, bottom = abs(value).as_integer_ratio()
    scale = 1 - bottom.bit_length()
    while mantissa % 2 == 0:
        mantissa, scale = mantissa // 2, scale + 1
    terms = f"{mantissa}.0"
    while scale > 0:
        step = min(scale, 50)
        terms += f"*{1 << step}.0"
        scale -= step
    while scale < 0:
        step = min(-scale, 50)
        terms += f"/{1 << step}.0"
        scale += step
    return f"{'-' if sign else ''}({terms})"


class Writer:
    """Writes the SQL of one export."""

    def __init__(self, out, skipped):
        self.out, self.skipped = out, skipped
        self.codec = "utf-8"
        self.model = sqlite3.connect(":memory:", isolation_level=None)
        self.later = []         # indexes, views and triggers
        self.virtual = []
        self.rows_later = {}    # rows of tables that SQLite makes itself
        self.item = self.insert = None

    def put(self, *lines):
        for line in lines:
            self.out.write(line.encode("utf-8") + b"\n")

    def begin(self, line, number):
        found = DATABASE.fullmatch(line)
        if not found:
            raise Refused(f"line {number}: not the first line of an export")
        fields = [int(field) for field in found.groups()]
        if fields[3] not in ENCODINGS:
            raise Refused(f"text encoding {fields[3]}")
        encoding, self.codec = ENCODINGS[fields[3]]
        self.put(f"PRAGMA encoding = '{encoding}';", "PRAGMA foreign_keys = OFF;",
                 "PRAGMA ignore_check_constraints = ON;", "BEGIN;")
        for name, value in (("user_version", fields[4]), ("application_id", fields[5])):
            self.put(f"PRAGMA {name} = {value - (value >> 31 << 32)};")

    # -------------------------------------------------------------- the schema

    def statement(self, item):
        """The statement of an object, which the model takes as one that makes this object."""
        if item.sql is None:
            raise Refused(f"{item}: it has no statement")
        if any("\r" in token[0] and token[0][0] not in "-/" for token in TOKEN.finditer(item.sql)):
            raise Refused(f"{item}: a carriage return in a text of its statement")
        sql = item.sql.replace("\r\n", "\n")      # as the program `sqlite3` reads lines
        if not is_printable(re.sub("[\n\t]", "", sql)) or not is_printable(item.name):
            raise Refused(f"{item}: a control character in its statement")
        if any(sqlite3.complete_statement(sql[:line_end.start()]) for line_end in re.finditer("\n", sql)):
            raise Refused(f"{item}: more than one statement")
        if not sql.upper().startswith("CREATE "):
            raise Refused(f"{item}: its statement makes something else")
        try:
            self.model.execute(sql)
        except (sqlite3.Error, sqlite3.Warning) as error:
            raise Refused(f"{item}: {error}") from None
        if not self.has(item.type, item.name):
            raise Refused(f"{item}: its statement makes something else")
        return sql + ("\n;" if "--" in sql.rsplit("\n", 1)[-1] else ";")

    def has(self, kind, name):
        return bool(self.model.execute("SELECT 1 FROM sqlite_master WHERE type = ? AND name = ?", (kind, name)).fetchall())

    def begin_item(self, item):
        self.item = item
        self.insert = self.no_rows if item.tree == "none" else self.pass_over
        if item.name in self.skipped or item.table in self.skipped:
            self.skipped[item.name] = True
            self.insert = self.pass_over
        elif item.type in ("index", "view", "trigger"):
            if item.sql is not None:        # an index without a statement comes with its table
                self.later.append(item)
        elif item.type != "table":
            raise Refused(f"{item}: no kind of object that is known")
        elif item.tree == "none":
            self.virtual.append(item)
        elif item.name.lower() in FILLED_LAST:
            rows = self.rows_later.setdefault(item.name.lower(), [])
            self.insert = lambda rowid, values: rows.append((rowid, values))
        elif item.name.lower().startswith("sqlite_"):
            raise Refused(f"{item}: a table of SQLite's own")
        else:
            self.put(self.statement(item))
            self.insert = Rows(self, item).insert

    def no_rows(self, _rowid, _values):
        raise Refused(f"{self.item}: an entry of an object that has no tree")

    def pass_over(self, rowid, values):
        pass

    # -------------------------------------------------------------- values

    def value_sql(self, value, where):
        if value is None:
            return "NULL"
        if isinstance(value, int):
            return str(value)
        if isinstance(value, Float):
            return float_sql(value)
        if len(value) > LONGEST_VALUE:
            raise Refused(f"{where}: a value too long for a statement")
        if not isinstance(value, Text):
            return f"x'{value.hex()}'"
        try:
            text = value.decode(self.codec)
            if is_printable(text) and not text.startswith("\ufeff"):
                return literal(text)
        except UnicodeDecodeError:
            pass
        if self.codec != "utf-8" and len(value) % 2:
            raise Refused(f"{where}: a text of UTF-16 of odd length")
        return f"CAST(x'{value.hex()}' AS TEXT)"

    # -------------------------------------------------------------- the end

    def end(self):
        self.fill_sequence()
        self.fill_statistics()
        for kind in ("index", "view", "trigger"):
            for item in self.later:
                if item.type == kind:
                    self.put(self.statement(item))
        if self.virtual:
            self.put("PRAGMA writable_schema = ON;")
            for item in self.virtual:
                self.put_virtual(item)
            self.put("PRAGMA writable_schema = OFF;")
        for name, found in self.skipped.items():
            if not found:
                raise Refused(f"{name}: there is nothing of this name to skip")
        self.put("COMMIT;")

    def put_virtual(self, item):
        """A virtual table as `.dump` has it: its statement becomes a row of the schema."""
        if item.sql is None or not item.sql.upper().startswith("CREATE VIRTUAL TABLE"):
            raise Refused(f"{item}: it has no tree and is no virtual table")
        values = [self.value_sql(Text(text.encode(self.codec)), item) for text in (item.name, item.table, item.sql)]
        self.put("INSERT INTO sqlite_master(type, name, tbl_name, rootpage, sql)"
                 f" VALUES('table', {values[0]}, {values[1]}, 0, {values[2]});")

    def fill_sequence(self):
        rows = self.rows_later.pop("sqlite_sequence", None)
        if rows is None:
            return
        if not self.has("table", "sqlite_sequence"):
            # No table that counts is left, but the counts are: one is made for a moment.
            self.put('CREATE TABLE "a table that counts"(a INTEGER PRIMARY KEY AUTOINCREMENT);',
                     'DROP TABLE "a table that counts";')
        self.put("DELETE FROM sqlite_sequence;")
        self.fill("sqlite_sequence", ("name", "seq"), rows)

    def fill_statistics(self):
        if not self.rows_later:
            return
        self.put("ANALYZE sqlite_master;")
        self.model.execute("ANALYZE sqlite_master")
        for name, rows in self.rows_later.items():
            columns = [row[1] for row in self.model.execute(f"PRAGMA table_info({name})")]
            if not columns:
                raise Refused(f"table {name}: this SQLite doesn't make it")
            self.put(f"DELETE FROM {name};")
            self.fill(name, columns, rows)

    def fill(self, name, columns, rows):
        for rowid, values in rows:
            if rowid is None or len(values) > len(columns):
                raise Refused(f"table {name}: a row that it can't have")
            names = ", ".join(("rowid",) + tuple(columns[:len(values)]))
            texts = ", ".join([str(rowid)] + [self.value_sql(value, f"table {name}") for value in values])
            self.put(f"INSERT INTO {name}({names}) VALUES({texts});")


class Rows:
    """Writes the rows of one table that the model has."""

    def __init__(self, writer, item):
        self.writer, self.item = writer, item
        columns = writer.model.execute(f"PRAGMA table_xinfo({quoted(item.name)})").fetchall()
        keys = [column[1] for column in columns if column[5]]
        own = [index[1] for index in writer.model.execute(f"PRAGMA index_list({quoted(item.name)})") if index[3] == "pk"]
        names = {column[1].lower() for column in columns}
        computed = {column[1] for column in columns if column[6] == 3}
        self.defaults = {column[1]: column[4] for column in columns}
        self.has_rowid = item.tree == "table"
        self.alias = self.rowid = None
        if self.has_rowid:
            # VIRTUAL columns (2) have no value in a record, and STORED ones (3) are computed anew.
            stored = [column[1] for column in columns if column[6] != 2]
            self.alias = keys[0] if len(keys) == 1 and not own else None
            self.rowid = self.alias or next((name for name in ROWID_NAMES if name not in names), None)
            if self.rowid is None:
                raise Refused(f"{item}: its columns take all names of the rowid")
            if not self.alias and not self.has_column(self.rowid):
                raise Refused(f"{item}: its tree is another than its statement says")
        else:
            # The index of the primary key has all columns, in the order of the record.
            order = writer.model.execute(f"PRAGMA index_xinfo({quoted(own[0])})").fetchall() if own else []
            stored = [entry[2] for entry in order]
            if not order or any(entry[1] < 0 for entry in order):
                raise Refused(f"{item}: its tree is another than its statement says")
        self.stored = [(name, name in computed) for name in stored]
        self.heads = {}

    def has_column(self, name):
        try:
            self.writer.model.execute(f"SELECT {name} FROM {quoted(self.item.name)}")
            return True
        except sqlite3.Error:
            return False

    def insert(self, rowid, values):
        where = str(self.item) if rowid is None else f"{self.item}, row {rowid}"
        if self.has_rowid != (rowid is not None):
            raise Refused(f"{where}: an entry of another kind of tree")
        texts = [str(rowid)] if self.has_rowid else []
        for (name, computed), value in zip(self.stored, values):
            if not computed and name != self.alias:
                texts.append(self.writer.value_sql(value, where))
        self.writer.put(f"{self.head(len(values), where)}{','.join(texts)});")

    def head(self, count, where):
        """The statement's start for a record of so many values: with fewer than columns, the others have their defaults."""
        if count not in self.heads:
            if not 0 < count <= len(self.stored):
                raise Refused(f"{where}: more values than columns, or none")
            for name, _ in self.stored[count:]:
                default = (self.defaults[name] or "").upper()
                if default.startswith(("(", "CURRENT_")):
                    raise Refused(f"{where}: no value for {name}, whose default is not a constant")
            names = [self.rowid] if self.has_rowid else []
            names += [name for name, computed in self.stored[:count] if not computed and name != self.alias]
            self.heads[count] = f"INSERT INTO {quoted(self.item.name)}({','.join(map(quoted, names))}) VALUES("
        return self.heads[count]


def turn(lines, out, skip=()):
    """Writes the SQL of an export whose lines these are."""
    writer = Writer(out, dict.fromkeys(skip, False))
    number, ended = 0, False
    for line in lines:
        number += 1
        if ended or not line.endswith(b"\n"):
            raise Refused(f"line {number}: not a line of an export")
        line = line[:-1]
        if number == 1:
            writer.begin(line, number)
        elif line == b"end":
            ended = True
        elif line.startswith(b"schema "):
            writer.begin_item(read_schema_row(line, number, writer.codec))
        else:
            head = ROW.match(line)
            values, end = read_values(line, head.end()) if head and writer.insert else ([], -1)
            if end != len(line):
                raise Refused(f"line {number}: not a line of an export")
            writer.insert(int(head[1]) if head[1] else None, values)
    if not ended:
        raise Refused("the text is cut short")
    writer.end()


def main(words):
    parser = argparse.ArgumentParser(description=__doc__, formatter_class=argparse.RawDescriptionHelpFormatter)
    parser.add_argument("--skip", metavar="NAME", action="append",
        default=[], help="leave this table, index, view or trigger out")
    args = parser.parse_args(words)
    try:
        turn(sys.stdin.buffer, sys.stdout.buffer, args.skip)
        sys.stdout.buffer.flush()
    except BrokenPipeError:
        os.dup2(os.open(os.devnull, os.O_WRONLY), sys.stdout.fileno())
        return 2
    except Refused as refusal:
        sys.stdout.buffer.flush()
        print(f"export_to_sql: {refusal}", file=sys.stderr)
        return 2
    return 0


if __name__ == "__main__":
    sys.exit(main(sys.argv[1:]))
