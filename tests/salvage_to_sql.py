#!/usr/bin/env python3
"""Tries tools/salvage_to_sql.py: on texts by hand, what it places, what it leaves over, what it says, and what it refuses; and on databases
that the reference in tests/reference salvages, whole and damaged: every row is in the table that it was in, or in lost_and_found, and none
is missing. The SQL of the second part is read by the program `sqlite3`.

Without Python's `cryptography` or without `sqlite3` the second part is left out; the status is then 77.
"""
import collections
import importlib.util
import io
import os
import random
import shutil
import sqlite3
import struct
import subprocess
import sys
import tempfile

TOP = os.path.dirname(os.path.dirname(os.path.abspath(__file__)))
sys.path[:0] = [os.path.join(TOP, "tools"), os.path.join(TOP, "tests", "reference", "oracle")]
import salvage_to_sql

SCHEMA = """\
row 1 1 'table' 'items' 'items' 2 'CREATE TABLE items(id INTEGER PRIMARY KEY, name TEXT, data BLOB, size INTEGER)'
row 1 2 'index' 'items_name' 'items' 3 'CREATE INDEX items_name ON items(name)'
row 1 3 'table' 'codes' 'codes' 4 'CREATE TABLE codes(code TEXT PRIMARY KEY, item INTEGER) WITHOUT ROWID'
row 1 4 'view' 'names' 'names' 0 'CREATE VIEW names AS SELECT name FROM items'
row 1 5 'table' 'notes' 'notes' 9 'CREATE TABLE notes(a, b TEXT)'
"""
ROWS = """\
page 2: tag refused
row 5 1 null 'item-1' x'0001' 2
row 5 2 null 'a\\x27b' x'' 0
row 6 3 null null x'00' 1
row 9 1 7 'n'
row 9 2 f'3ff8000000000000' 'm'
row 11 3 null 'm' x'' 'q'
lost 11 4
row 12 1 null 'again' x'' 0
row 14 5 1 2
page 13: bad cell 2
"""
failures, left_out, tried = [], [], 0


def expect(name, found, wanted):
    global tried
    tried += 1
    if found != wanted:
        failures.append(name)
        print(f"salvage_to_sql: {name}: found\n  {found}\nwanted\n  {wanted}")


def last(text):
    """A text with the last line that its lines have to have."""
    words = [line.split(" ", 1)[0] for line in text.splitlines()]
    refused = sum(line.endswith(": tag refused") for line in text.splitlines())
    return text + f"salvaged: {words.count('row')} rows, {words.count('lost')} lost, {refused} refused pages\n"


def schema(*tables):
    """The rows of a schema on page 1: (name, root, statement) of each table."""
    return "".join(f"row 1 {rowid} 'table' '{name}' '{name}' {root} '{sql}'\n" for rowid, (name, root, sql) in enumerate(tables, 1))


def turned(text, encoding=None):
    """Whether every row has its table, the database that the SQL makes, and what was said."""
    out, said = io.BytesIO(), []
    whole = salvage_to_sql.turn(io.BytesIO(text.encode()), out, encoding, said.append)
    db = sqlite3.connect(":memory:", isolation_level=None)
    db.executescript(out.getvalue().decode())
    return whole, db, said


def refusal(text):
    try:
        salvage_to_sql.turn(io.BytesIO(text.encode()), io.BytesIO())
    except salvage_to_sql.Refused as refused:
        return str(refused)
    return None


# ------------------------------------------------------------------ by hand

def rows_are_placed():
    whole, db, said = turned(last(SCHEMA + ROWS))
    expect("not whole", whole, False)
    # a rowid that is there already, a text in a column of numbers that is none, an integer in a column of texts
    expect("items", db.execute("SELECT * FROM items").fetchall(),
           [(1, "item-1", b"\0\1", 2), (2, "a'b", b"", 0), (3, None, b"\0", 1)])
    expect("notes", db.execute("SELECT rowid, * FROM notes").fetchall(), [(1, 7, "n"), (2, 1.5, "m")])
    expect("left over", db.execute("SELECT * FROM lost_and_found ORDER BY page").fetchall(),
           [(11, 3, None, "m", b"", "q"), (12, 1, None, "again", b"", 0), (14, 5, 1, 2, None, None)])
    expect("objects", [row[0] for row in db.execute("SELECT name FROM sqlite_master WHERE sql IS NOT NULL ORDER BY name")],
           ["codes", "items", "items_name", "lost_and_found", "names", "notes"])
    expect("said", said, [
        "page 1: 5 rows of the schema",
        "lost_and_found: 3 rows",
        "table items: 3 rows, of 4 pages; pages 11 to 12: the rowids lie among those of other pages, so some rows are deleted ones or are there twice",
        "table codes: its rows stand in an index, of which a salvage takes none",
        "table notes: 2 rows, of 1 page",
        "pages 11 to 12: 2 rows that items refuses: UNIQUE constraint failed: items.id",
        "page 14: 1 row for which no table fits",
        "in the salvage 1 row was lost", "in the salvage 1 page was refused", "in the salvage 1 page was left out for a bad cell"])


def whole_files_are_whole():
    whole, db, _ = turned(last(SCHEMA + "row 2 1 null 'a' null 1\n"))
    expect("whole", (whole, db.execute("SELECT * FROM items").fetchall()), (True, [(1, "a", None, 1)]))
    whole, db, said = turned(last(""))
    expect("no row", (whole, db.execute("SELECT * FROM sqlite_master").fetchall(), said), (True, [], []))


def a_schema_that_is_lost_leaves_all_over():
    whole, db, _ = turned(last("row 5 -1 null x'00'\nrow 6 2 3\nrow 6 3\n"))
    expect("no schema", (whole, db.execute("SELECT * FROM lost_and_found").fetchall()),
           (False, [(5, -1, None, b"\0"), (6, 2, 3, None), (6, 3, None, None)]))


def tables_of_one_form_are_told_apart():
    """By their roots, by rowids that would lie between each other's, and by pages that go on."""
    two = schema(("a", 2, "CREATE TABLE a(id INTEGER PRIMARY KEY, v TEXT)"), ("b", 3, "CREATE TABLE b(id INTEGER PRIMARY KEY, v)"))
    lone = "row 6 50 null 7\nrow 6 60 null 8\n"                            # an integer, so of b
    whole, db, said = turned(last(two + "row 5 55 null 't'\n" + lone))
    expect("between each other's", (whole, db.execute("SELECT * FROM a").fetchall(), db.execute("SELECT * FROM b").fetchall()),
           (True, [(55, "t")], [(50, 7), (60, 8)]))
    whole, db, said = turned(last(two + lone + "row 7 61 null 't'\nrow 8 70 null 'u'\nrow 10 71 null 'v'\n"))
    expect("the rowids go on", (whole, db.execute("SELECT * FROM b").fetchall(), db.execute("SELECT * FROM lost_and_found").fetchall()),
           (False, [(50, 7), (60, 8), (61, "t"), (70, "u")], [(10, 71, None, "v")]))
    expect("said of both", said[-1], "page 10: 1 row for which several tables fit: a, b")
    _, db, _ = turned(last(two + "row 4 1 null 's'\nrow 5 3 null 't'\n" + lone))
    expect("backwards", db.execute("SELECT * FROM b").fetchall(), [(1, "s"), (3, "t"), (50, 7), (60, 8)])
    whole, db, said = turned(last(two + "row 3 1 null 'one'\nrow 5 2 null 't'\nrow 6 1 null x'00'\n"))
    expect("a root with rows has them all", (db.execute("SELECT * FROM a").fetchall(), db.execute("SELECT * FROM b").fetchall()),
           ([(1, b"\0"), (2, "t")], [(1, "one")]))
    one = schema(("b", 3, "CREATE TABLE b(id INTEGER PRIMARY KEY, v)"))
    whole, db, said = turned(last(one + "row 3 1 null 'one'\nrow 5 2 null 't'\n"))
    expect("deleted rows", (whole, db.execute("SELECT * FROM lost_and_found").fetchall(), said[-1]),
           (False, [(5, 2, None, "t")], "page 5: 1 row that fit b, whose rows stand elsewhere on one page"))


def columns_decide():
    three = schema(("short", 2, "CREATE TABLE short(a TEXT, b INT)"), ("long", 3, "CREATE TABLE long(a TEXT, b INT, c DEFAULT 5)"),
                   ("real", 4, "CREATE TABLE real(a REAL, b NOT NULL, c, d NOT NULL)"))
    whole, db, _ = turned(last(three + "row 6 1 'x' 2\nrow 7 1 'x' 2\nrow 7 2 'y' 3 4\nrow 8 1 1 2 3 4\nrow 8 2 f'3fe0000000000000' x'' null '5'\n"))
    expect("as many columns", (whole, db.execute("SELECT * FROM short").fetchall(), db.execute("SELECT * FROM long").fetchall(),
           db.execute("SELECT * FROM real").fetchall()), (True, [("x", 2)], [("x", 2, 5), ("y", 3, 4)], [(1.0, 2, 3, 4), (0.5, b"", None, "5")]))
    for name, row in (("a number that would be an integer", "'x' f'4008000000000000'"), ("a text that would be a number", "'x' '12'"),
                      ("an integer that would be a text", "1 2"), ("NULL in a column that has none", "f'3fe0000000000000' null 1 1"), ("no value", ""),
                      ("too many", "1 1 1 1 1")):
        whole, db, _ = turned(last(three + f"row 6 1 {row}".rstrip() + "\n"))
        expect(name, (whole, db.execute("SELECT count(*) FROM lost_and_found").fetchone()), (False, (1,)))
    whole, db, _ = turned(last(three + "row 6 1 'x' f'3ff8000000000000'\nrow 6 2 null 'words'\n"))
    expect("values that stay", (whole, db.execute("SELECT * FROM short").fetchall()), (True, [("x", 1.5), (None, "words")]))


def the_schema_is_taken():
    old = "row 7 1 'table' 'old' 'old' 2 'CREATE TABLE old(x)'\n"
    whole, db, said = turned(last(schema(("t", 3, "CREATE TABLE t(x)")) + old + "row 8 1 9\n"))
    expect("page 1 has the whole schema", (whole, [row[0] for row in db.execute("SELECT name FROM sqlite_master")], db.execute("SELECT * FROM t").fetchall(),
           db.execute("SELECT page, rowid, c1 FROM lost_and_found").fetchall()), (False, ["t", "lost_and_found"], [(9,)], [(7, 1, "old")]))
    whole, db, said = turned(last("page 1: tag refused\n" + old + "row 8 1 9\n" + old.replace("row 7", "row 9")))
    expect("page 1 is lost, and a page is there twice", (whole, db.execute("SELECT * FROM old").fetchall(), said[0]),
           (False, [(9,)], "2 pages from 7 to 9: 2 rows of the schema"))
    expect("said of a schema that may not be whole", said[1],
           "rows of the schema may be lost: what is of a table that is not known may stand in another one that it fits")
    whole, db, said = turned(last("page 1: tag refused\n" + old + "row 8 1 9\nrow 9 1 8\n"))
    expect("of an unknown table, it may be", (db.execute("SELECT * FROM old").fetchall(), db.execute("SELECT * FROM lost_and_found").fetchall()),
           ([(9,)], [(9, 1, 8)]))
    other = old.replace("(x)", "(x, y)")
    whole, db, said = turned(last("page 1: tag refused\n" + old + other.replace("row 7", "row 9")))
    expect("two of one name", (db.execute("SELECT page, rowid, c1, c4 FROM lost_and_found").fetchall(), said[-2]),
           ([(9, 1, "old", "CREATE TABLE old(x, y)")], "page 9: 1 row of the schema, on another table old"))
    odd = schema(("t", 3, "CREATE TABLE t("), ("lost_and_found", 4, "CREATE TABLE lost_and_found(x)"), ("u", 0, "CREATE TABLE u(x)"))
    whole, db, said = turned(last(odd + "row 3 1 5\nrow 4 1 6\nrow 1 9 'no' 1\n"))
    expect("statements that can't be", (whole, db.execute("SELECT * FROM lost_and_found").fetchall(), [
        row[:3] for row in db.execute("SELECT * FROM lost_and_found_0 ORDER BY page, rowid")]),
        (False, [(6,)], [(1, 1, "table"), (1, 3, "table"), (1, 9, "no"), (3, 1, 5)]))
    expect("said of them", said[-4:], [
        "page 1: 1 row of the schema: table t: incomplete input", "page 1: 1 row of the schema, on table u: it has no root and is no virtual table",
        "page 1: 1 row that the schema can't have", "page 3: 1 row of t, which was not made"])
    trigger = "row 1 6 'trigger' 'tr' 'notes' 0 'CREATE TRIGGER tr AFTER INSERT ON notes BEGIN SELECT 1; END'\n"
    more = SCHEMA.replace("items(name)", "items(nothing)") + trigger
    whole, db, said = turned(last(more))
    made = db.execute("SELECT type, name FROM sqlite_master WHERE type IN ('index', 'trigger') AND sql > ''").fetchall()
    expect("an index that can't be", (whole, made, db.execute("SELECT c1 FROM lost_and_found").fetchall()),
           (False, [("trigger", "tr")], [("items_name",)]))
    counting = schema(("t", 3, "CREATE TABLE t(id INTEGER PRIMARY KEY AUTOINCREMENT, x)"), ("sqlite_sequence", 4, "CREATE TABLE sqlite_sequence(name,seq)"))
    whole, db, _ = turned(last(counting + "row 3 5 null 1\nrow 4 1 't' 77\n"))
    expect("a table that counts", (whole, db.execute("SELECT rowid, * FROM sqlite_sequence").fetchall()), (True, [(1, "t", 77)]))
    virtual = "row 1 1 'table' 'v' 'v' 0 'CREATE VIRTUAL TABLE v USING rtree(id, a, b)'\n"
    whole, db, _ = turned(last(virtual + "row 9 1 1\n"))
    expect("a virtual table", (whole, [row[0] for row in db.execute("SELECT name FROM sqlite_master ORDER BY name")]), (False, ["lost_and_found", "v"]))


def values_are_kept():
    wide = "row 5 1 " + " ".join(map(str, range(2500))) + "\nrow 5 2 f'8000000000000000' f'7ff0000000000000' '\\x00\\x0a\\xff' x'00' -9223372036854775808\n"
    whole, db, said = turned(last(wide))
    pieces = db.execute("SELECT page, rowid, c0, c599, c600, c1899 FROM lost_and_found").fetchall()
    expect("a row in pieces", pieces[:2], [(5, 1, 0, 599, 600, 1899), (5, 1, 1900, 2499, None, None)])
    expect("said of pieces", said[:2], ["lost_and_found: 2 rows", "lost_and_found: rows of more than 1900 values are there in pieces"])
    found = db.execute("SELECT c0, c1, CAST(c2 AS BLOB), typeof(c2), c3, c4 FROM lost_and_found").fetchall()[2]
    expect("values left over", (struct.pack(">d", found[0]).hex(), *found[1:]), ("8000000000000000", float("inf"), b"\0\n\xff", "text", b"\0", -2 ** 63))
    utf_16 = "".join(f"\\x{byte:02x}" for byte in "é".encode("utf-16-le"))
    word = "".join(f"{letter}\\x00" for letter in "table")
    statement = "".join(f"{letter}\\x00" for letter in "CREATE TABLE t(x)")
    whole, db, _ = turned(last(f"row 1 1 '{word}' 't\\x00' 't\\x00' 2 '{statement}'\nrow 5 1 '{utf_16}'\nrow 5 2 'odd'\n"))
    expect("UTF-16 is seen", (whole, db.execute("PRAGMA encoding").fetchone(), db.execute("SELECT x FROM t").fetchall(),
                              db.execute("SELECT c0 FROM lost_and_found").fetchall()), (False, ("UTF-16le",), [("é",)], [(b"odd",)]))
    _, db, _ = turned(last(f"row 5 1 '{utf_16}'\n"), "utf-16le")
    expect("UTF-16 is told", db.execute("SELECT c0 FROM lost_and_found").fetchall(), [("é",)])


def other_texts_are_refused():
    expect("cut short", refusal(SCHEMA), "the text is cut short")
    expect("counts", refusal(SCHEMA + "salvaged: 13 rows, 1 lost, 1 refused pages\n"), "line 6: its counts are not those of the lines")
    for line in ("entry 1", "row 1", "row 1 x", "row 1 1 'a", "row 1 1  2", "lost 1", "lost 1 1 1", "page 1: page twice", "key refused", "", "end"):
        expect(f"another line: {line}", refusal(last(SCHEMA + line + "\n")), "line 6: not a line of a salvage")
    expect("behind the end", refusal(last("") + "row 1 1\n"), "line 2: not a line of a salvage")
    expect("half a line", refusal("row 1 1 2"), "line 1: not a line of a salvage")


# ------------------------------------------------------------------ by the reference

def rows_of(db):
    """{table: {rowid: its values}} of the tables with rowids, floats by their bits."""
    found = {}
    for name, in db.execute("SELECT name FROM sqlite_master WHERE type = 'table' AND rootpage > 0 AND name NOT LIKE 'sqlite_%'").fetchall():
        columns = [column[1].lower() for column in db.execute(f"PRAGMA table_info({salvage_to_sql.quoted(name)})")]
        rowid = next(word for word in ("rowid", "_rowid_", "oid") if word not in columns or name == salvage_to_sql.PLACE)
        if name == salvage_to_sql.PLACE:
            found[name] = collections.Counter(row[:2] for row in db.execute(f"SELECT * FROM {name}"))
            continue
        try:
            rows = db.execute(f"SELECT {rowid}, * FROM {salvage_to_sql.quoted(name)}").fetchall()
        except sqlite3.Error:
            continue        # WITHOUT ROWID
        found[name] = {row[0]: [struct.pack(">d", value) if isinstance(value, float) else value for value in row[1:]] for row in rows}
    return found


def opened(path):
    db = sqlite3.connect(path)
    db.text_factory = lambda data: data.decode("utf-8", "surrogateescape")
    return db


def compare(name, text, path, source):
    """Of the rows of a salvage, each is in the new database once; its tables have only rows of the old ones, where the whole schema came out,
    or it is said that it may not have. How many have their table."""
    out, said = io.BytesIO(), []
    whole = salvage_to_sql.turn(io.BytesIO(text), out, None, said.append)
    if os.path.exists(path):
        os.remove(path)
    done = subprocess.run(["sqlite3", "-bail", path], input=out.getvalue(), capture_output=True)
    expect(f"{name}: SQL", (done.returncode, done.stderr.decode()), (0, ""))
    db = opened(path)
    found = rows_of(db)
    left = found.pop(salvage_to_sql.PLACE, collections.Counter())
    placed = sum(map(len, found.values()))
    sequence = sum(int(line.split(": ")[1].split(" ")[0]) for line in said if line.startswith("table sqlite_sequence: "))
    objects = sum(int(line.rsplit(": ", 1)[1].split(" ")[0]) for line in said if line.endswith(("row of the schema", "rows of the schema")))
    rows = sum(line.startswith(b"row ") for line in text.splitlines())
    unmade = sum(int(line.split(": ", 1)[1].split(" ")[0]) for line in said if " of the schema: " in line or " of the schema, " in line)
    expect(f"{name}: rows", (placed + sum(left.values()) + sequence + objects - unmade, whole and sum(left.values()) > 0), (rows, False))
    strangers = [(table, rowid) for table, rows in found.items() for rowid, row in rows.items() if source.get(table, {}).get(rowid) != row]
    if not any("may be lost" in line for line in said):
        expect(f"{name}: rows in their own table", strangers[:5], [])
    db.close()
    return placed


def by_reference(folder):
    try:
        from sqlcipher_formats import PROFILES, Codec, draw_source, encrypt
        from sqlcipher_oracle import blank_plain
        from sqlcipher_salvage import salvage_lines
    except ImportError:
        left_out.append("the reference's databases, since Python's cryptography is missing")
        return
    spec = importlib.util.spec_from_file_location("export_trials", os.path.join(TOP, "tests", "export_to_sql.py"))
    trials = importlib.util.module_from_spec(spec)
    spec.loader.exec_module(trials)
    for word, encoding in (("4", 1), ("3", 2), ("2", 1), ("3", 3)):
        profile = PROFILES[word]
        path, back = os.path.join(folder, "plain.db"), os.path.join(folder, "back.db")
        with open(path, "wb") as out:
            out.write(blank_plain(profile.page_size, profile.reserve, encoding))
        db = sqlite3.connect(path, isolation_level=None)
        db.executescript(trials.SQL)
        trials.fill_kinds(db, int(word))
        db.close()
        db = opened(path)
        source = rows_of(db)
        db.close()
        with open(path, "rb") as file:
            plain = file.read()
        os.remove(path)
        draw = draw_source(1, False)
        codec = Codec(profile, b"x'" + b"0123456789abcdef" * 4 + b"'", draw(16))
        main = encrypt(plain, codec, draw)
        rng = random.Random(word + str(encoding))
        size, count = profile.page_size, len(main) // profile.page_size
        for turn in range(6):
            damaged = bytearray(main)
            for n in rng.sample(range(count), turn * count // 12):
                damaged[n * size + 16 * (n == 0):(n + 1) * size] = bytes(size - 16 * (n == 0))
            text = "".join(f"{line}\n" for line in salvage_lines(bytes(damaged), codec)).encode()
            placed = compare(f"version {word}, encoding {encoding}, damage {turn}", text, back, source)
            if turn == 0:
                total = sum(map(len, source.values()))
                expect(f"version {word}, encoding {encoding}: most of {total} rows have their table, and {placed} are", placed * 10 > total * 9, True)


def main():
    rows_are_placed()
    whole_files_are_whole()
    a_schema_that_is_lost_leaves_all_over()
    tables_of_one_form_are_told_apart()
    columns_decide()
    the_schema_is_taken()
    values_are_kept()
    other_texts_are_refused()
    if shutil.which("sqlite3"):
        with tempfile.TemporaryDirectory() as folder:
            by_reference(folder)
    else:
        left_out.append("what sqlite3 makes of the SQL, since it is missing")
    print(f"salvage_to_sql: {tried} tried, {len(failures)} failed")
    if left_out and not failures:
        print("left out: " + "; ".join(left_out))
        return 77
    return 1 if failures else 0


if __name__ == "__main__":
    sys.exit(main())
