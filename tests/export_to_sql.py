#!/usr/bin/env python3
"""Tries tools/export_to_sql.py: on texts by hand, on databases that the reference in tests/reference exports, and on what it
refuses. The SQL is read by the program `sqlite3`, and what it makes is compared with the database itself, value by value.

Without Python's `cryptography` the reference's part is left out, without the program `sqlite3` what it reads; the status is then 77.
"""
import io
import os
import random
import shutil
import sqlite3
import struct
import subprocess
import sys
import tempfile

TOP = os.path.dirname(os.path.dirname(os.path.abspath(__file__)))
sys.path[:0] = [os.path.join(TOP, "tools"), os.path.join(TOP, "tests", "reference", "oracle")]
import export_to_sql

FIRST = "database cookie 1 format 4 cache 0 encoding {} user-version {} application-id {} sqlite 3045000\n"
SHOWN = set(range(0x20, 0x7F)) - {0x27, 0x5C}
OBJECTS = "SELECT name FROM sqlite_master WHERE name NOT LIKE 'sqlite%' ORDER BY name"
failures = []
left_out = []
tried = 0


def expect(name, found, wanted):
    global tried
    tried += 1
    if found != wanted:
        failures.append(name)
        print(f"export_to_sql: {name}: found\n  {found}\nwanted\n  {wanted}")


def turned(text, *skip):
    out = io.BytesIO()
    export_to_sql.turn(io.BytesIO(text), out, skip)
    return out.getvalue()


def made(sql, path):
    """Makes a database of this SQL, as the README says."""
    if os.path.exists(path):
        os.remove(path)
    done = subprocess.run(["sqlite3", "-bail", path], input=sql, capture_output=True)
    return done.returncode, done.stderr.decode()


def exact(value):
    return struct.pack(">d", value).hex() if isinstance(value, float) else repr(value)


def content(path):
    """The objects of a database, and the rows of its tables: rowids, types, and the bytes of texts and strings of bytes."""
    db = sqlite3.connect(path)
    found = {"schema": db.execute("SELECT type, name, tbl_name, sql FROM sqlite_master ORDER BY type, name").fetchall()}
    for field in ("user_version", "application_id", "encoding"):
        found[field] = db.execute(f"PRAGMA {field}").fetchone()
    for kind, name, _, sql in found["schema"]:
        if kind == "table":
            table = export_to_sql.quoted(name)
            columns = [column[1] for column in db.execute(f"PRAGMA table_xinfo({table})") if column[6] != 1]
            terms = [] if "WITHOUT ROWID" in sql.upper() else ["rowid"]
            for column in map(export_to_sql.quoted, columns):
                kinds = f"typeof({column})"
                terms += [kinds, f"CASE WHEN {kinds} IN ('text', 'blob') THEN hex(CAST({column} AS BLOB)) ELSE {column} END"]
            rows = db.execute(f"SELECT {', '.join(terms)} FROM {table}").fetchall()
            found[name] = sorted(tuple(map(exact, row)) for row in rows)
    db.close()
    return found


def checked(path):
    db = sqlite3.connect(path)
    found = db.execute("PRAGMA integrity_check").fetchall()
    db.close()
    return found


# ------------------------------------------------------------------ by hand

def shown(data):
    return "'" + "".join(chr(b) if b in SHOWN else f"\\x{b:02x}" for b in data) + "'"


HAND = FIRST.format(1, 4294967291,
    7) + r"""schema 1 'table' 'items' 'items' table 'CREATE TABLE items(id INTEGER PRIMARY KEY, name TEXT, v, r REAL DEFAULT 2.5)'
row -5 null 'a\x27b' x'00ff' 3
row 7 null '\xc3\xa9\x0a\x00z' f'3fb999999999999a' null
row 9223372036854775807 null null -9223372036854775808
schema 2 'index' 'items_name' 'items' index 'CREATE INDEX items_name ON items(name)'
entry null 9223372036854775807
entry 'a\x27b' -5
entry '\xc3\xa9\x0a\x00z' 7
schema 3 'table' 'codes' 'codes' index 'CREATE TABLE codes(v, code TEXT PRIMARY KEY) WITHOUT ROWID'
entry 'k' f'8000000000000000'
schema 4 'view' 'names' 'names' none 'CREATE VIEW names AS SELECT name FROM items'
schema 6 'table' 'bare' 'bare' table 'CREATE TABLE bare(a)'
row 3 f'7ff0000000000000'
row 4 f'0000000000000001'
row 6 f'ffefffffffffffff'
schema 9 'table' 'sqlite_sequence' 'sqlite_sequence' table 'CREATE TABLE sqlite_sequence(name,seq)'
row 2 'gone' 5
end
"""


def by_hand(folder):
    path = os.path.join(folder, "hand.db")
    expect("by hand", made(turned(HAND.encode()), path), (0, ""))
    for query, wanted in (
            ("SELECT id, name, v, r FROM items ORDER BY id",
             [(-5, b"a'b", b"\0\xff", 3.0), (7, b"\xc3\xa9\n\0z", 0.1, None), (2 ** 63 - 1, None, -2 ** 63, 2.5)]),
            ("SELECT typeof(name), typeof(v), typeof(r) FROM items WHERE id = -5", [(b"text", b"blob", b"real")]),
            ("SELECT code, v FROM codes", [(b"k", -0.0)]),
            ("SELECT rowid, a FROM bare", [(3, float("inf")), (4, 5e-324), (6, -1.7976931348623157e308)]),
            ("SELECT rowid, name, seq FROM sqlite_sequence", [(2, b"gone", 5)]),
            (OBJECTS, [(b"bare",), (b"codes",), (b"items",), (b"items_name",), (b"names",)]),
            ("PRAGMA user_version", [(-5,)]),
            ("PRAGMA application_id", [(7,)])):
        expect(query, asked(path, query), wanted)
    expect("skip", made(turned(HAND.encode(), "items", "names"), path), (0, ""))
    expect("what is left", asked(path, OBJECTS), [(b"bare",), (b"codes",)])


def asked(path, query):
    db = sqlite3.connect(path)
    db.text_factory = bytes
    found = db.execute(query).fetchall()
    db.close()
    return found


def schema_row(sql, name="t", tree="table", kind="table"):
    return f"schema 1 '{kind}' '{name}' '{name}' {tree} {shown(sql.encode())}\n"


TABLE = schema_row("CREATE TABLE t(a, b)")
OTHER_LINE = "line 3: not a line of an export"
OTHER_TREE = "table t: its tree is another than its statement says"
UTF_16 = "".join(shown(text.encode("utf-16-le")) + end for text, end in (
    ("table", " "), ("t", " "), ("t", " table "), ("CREATE TABLE t(a)", "\n")))
# What stands behind the first line, and why it is refused.
REFUSALS = (
    ("", "the text is cut short"),
    (TABLE + "row 1 null null\n", "the text is cut short"),
    (TABLE + "row 1 null nu", OTHER_LINE),
    ("end\nend\n", OTHER_LINE),
    ("row 1 null\nend\n", "line 2: not a line of an export"),
    (TABLE + "row 1  null\nend\n", OTHER_LINE),
    (TABLE + "row 1 x'FF'\nend\n", OTHER_LINE),
    (TABLE + "row 1 '\\x4'\nend\n", OTHER_LINE),
    ("schema 1 'table' null 't' none null\nend\n", "schema row 1: it has no type or no name"),
    ("schema 1 'table' 't' 't' table 5\nend\n", "schema row 1: a column is no text"),
    ("schema 1 'table' '\\xff' 't' table null\nend\n", "schema row 1: a text is not Unicode"),
    ("schema 1 'table' 't' 't' table null\nend\n", "table t: it has no statement"),
    (schema_row("CREATE TABLE t(a);\n.shell true") + "end\n", "table t: more than one statement"),
    (schema_row("CREATE TABLE u(a)") + "end\n", "table t: its statement makes something else"),
    (schema_row("VACUUM INTO 'other.db'") + "end\n", "table t: its statement makes something else"),
    (schema_row("CREATE TABLE t(") + "end\n", "table t: incomplete input"),
    (schema_row("CREATE TABLE t(a DEFAULT '\r\n')") + "end\n", "table t: a carriage return in a text of its statement"),
    (schema_row("CREATE TABLE t(a) /* \7 */") + "end\n", "table t: a control character in its statement"),
    (schema_row("CREATE TABLE sqlite_x(a)", "sqlite_x") + "end\n", "table sqlite_x: a table of SQLite's own"),
    (schema_row("CREATE TABLE sqlite_stat2(a)", "sqlite_stat2") + "row 1 'a'\nend\n",
     "table sqlite_stat2: this SQLite doesn't make it"),
    (schema_row("CREATE TABLE t(rowid, _rowid_, OID)") + "end\n", "table t: its columns take all names of the rowid"),
    (TABLE + "row 1 1 2 3\nend\n", "table t, row 1: more values than columns, or none"),
    (schema_row("CREATE TABLE t(a, b DEFAULT CURRENT_TIME)") + "row 1 1\nend\n",
     "table t, row 1: no value for b, whose default is not a constant"),
    (TABLE + "entry 1 2\nend\n", "table t: an entry of another kind of tree"),
    (schema_row("CREATE TABLE t(a PRIMARY KEY)", tree="index") + "end\n", OTHER_TREE),
    (schema_row("CREATE TABLE t(a PRIMARY KEY) WITHOUT ROWID") + "end\n", OTHER_TREE),
    (schema_row("CREATE VIEW v AS SELECT 1", "v", "none", "view") + "row 1 1\nend\n",
     "view v: an entry of an object that has no tree"),
    (schema_row("CREATE TABLE t(a)", tree="none") + "end\n", "table t: it has no tree and is no virtual table"),
    (schema_row("CREATE THING t", kind="thing") + "end\n", "thing t: no kind of object that is known"),
    (TABLE + schema_row("CREATE INDEX i ON t(a COLLATE klingon)", "i", "index", "index") + "end\n",
     "index i: no such collation sequence: klingon"),
)


def refusal(text, *skip):
    try:
        turned(text.encode(), *skip)
        return "nothing refused"
    except export_to_sql.Refused as refused:
        return str(refused)


def refusals():
    for text, wanted in REFUSALS:
        expect(f"refusal: {wanted}", refusal(FIRST.format(1, 0, 0) + text), wanted)
    two = refusal(FIRST.format(1, 0, 0) + schema_row("CREATE TABLE t(a); DROP TABLE t") + "end\n")
    expect("refusal of two statements", two.split(":")[0], "table t")
    expect("refusal of no export", refusal("hello\nend\n"), "line 1: not the first line of an export")
    expect("refusal of an encoding", refusal(FIRST.format(4, 0, 0) + "end\n"), "text encoding 4")
    expect("refusal of a text", refusal(FIRST.format(2, 0, 0) + "schema 1 " + UTF_16 + "row 1 'abc'\nend\n"),
           "table t, row 1: a text of UTF-16 of odd length")
    expect("refusal to skip", refusal(HAND, "nobody"), "nobody: there is nothing of this name to skip")


# ------------------------------------------------------------------ by the reference

SQL = """
CREATE TABLE kinds(id INTEGER PRIMARY KEY, label TEXT, value);
CREATE TABLE typed(i INTEGER, r REAL, t TEXT, b BLOB, n NUMERIC);
INSERT INTO typed VALUES(1, 1, 1, 1, 1), ('2', '2', 2, '2', '2'), (3.0, 3, 3.5, 3.5, 3.5), (NULL, NULL, NULL, NULL, NULL),
 ('abc', 'abc', x'61', x'61', 'abc'), (1e20, 1e20, 1e20, 1e20, 1e20);
CREATE TABLE people(id INTEGER PRIMARY KEY AUTOINCREMENT, name TEXT UNIQUE NOT NULL, age INTEGER, note BLOB);
CREATE INDEX people_age ON people(age DESC, name COLLATE NOCASE);
CREATE INDEX people_length ON people(length(note), upper(name));
CREATE INDEX people_old ON people(name) WHERE age > 50;
INSERT INTO people(name, age, note) WITH RECURSIVE n(i) AS (SELECT 1 UNION ALL SELECT i + 1 FROM n WHERE i < 300)
 SELECT 'person ' || i, i * 37 % 90, zeroblob(i * 53 % 2500) FROM n;
DELETE FROM people WHERE id % 4 = 0 OR id > 280;
CREATE TABLE pairs(a TEXT, b INTEGER, c BLOB, d REAL, PRIMARY KEY(b DESC, a)) WITHOUT ROWID;
INSERT INTO pairs WITH RECURSIVE n(i) AS (SELECT 1 UNION ALL SELECT i + 1 FROM n WHERE i < 150)
 SELECT 'pair ' || i, i % 11, zeroblob(i * 29 % 1300), i / 8.0 FROM n;
CREATE TABLE descending(id INTEGER PRIMARY KEY DESC, x);
INSERT INTO descending(rowid, id, x) VALUES(5, 1, 'a'), (-3, 2, 'b');
CREATE TABLE late(a INTEGER, b TEXT);
INSERT INTO late VALUES(1, 'short'), (2, 'another');
ALTER TABLE late ADD COLUMN c DEFAULT 'added';
ALTER TABLE late ADD COLUMN d REAL NOT NULL DEFAULT -2.5;
INSERT INTO late VALUES(3, 'whole', 'c', 1);
CREATE TABLE late_keys(k TEXT PRIMARY KEY, v) WITHOUT ROWID;
INSERT INTO late_keys VALUES('a', 1);
ALTER TABLE late_keys ADD COLUMN w DEFAULT x'0102';
INSERT INTO late_keys VALUES('b', 2, 3);
CREATE TABLE computed(a INTEGER, b AS (a * 2), c TEXT AS (a || '!') STORED, d);
INSERT INTO computed(a, d) VALUES(1, 'x'), (2, 'y');
CREATE TABLE computed_keys(a, b AS (a + 1) STORED, c AS (a), k TEXT PRIMARY KEY, d) WITHOUT ROWID;
INSERT INTO computed_keys(a, k, d) VALUES(1, 'k', 'd'), (2, 'l', 'e');
CREATE TABLE strict_one(a INTEGER, b TEXT, c ANY, d REAL) STRICT;
INSERT INTO strict_one VALUES(1, 'x', '007', 3), (NULL, NULL, 7.0, NULL);
CREATE TABLE "two ""words"", a select"(rowid, "a b", "it's");
INSERT INTO "two ""words"", a select"(_rowid_, rowid, "a b", "it's") VALUES(77, 1, 2, 3);
CREATE TABLE checked(a CHECK(a > 0), b REFERENCES nobody(x));
PRAGMA ignore_check_constraints = ON;
INSERT INTO checked VALUES(-1, 'no parent');
CREATE VIEW grown AS SELECT name FROM people WHERE age > 17;
CREATE TABLE log(line TEXT);
CREATE TRIGGER people_gone AFTER INSERT ON people
BEGIN
 INSERT INTO log VALUES('new -- ' || new.name);
END;
CREATE TABLE gone(id INTEGER PRIMARY KEY AUTOINCREMENT);
CREATE VIRTUAL TABLE notes USING fts4(title, body);
INSERT INTO notes(title, body) VALUES('first', 'the quick brown fox'), ('second', 'jumps over the lazy dog');
CREATE VIRTUAL TABLE places USING rtree(id, x0, x1);
INSERT INTO places VALUES(1, 0.0, 1.0), (2, -5.5, 5.5);
ANALYZE;
PRAGMA user_version = -42;
PRAGMA application_id = 1234567890;
"""
EDGES = (
    0, 1, -1, 127, -129, 2 ** 31, -2 ** 63, 2 ** 63 - 1,
    0.0, -0.0, 0.1, 1.5, -2.25, 1e15, 1e16, 123456789012345.6, 1e22, 1e23, 5e-324, 2.2250738585072014e-308,
    1.7976931348623157e308, float("inf"), float("-inf"),
    "", "plain", "it's \"quoted\" \\", "Gr\u00fc\u00dfe \U0001f5dd", "\t\n\r\x00\x1f\x7f", "\ufeffmark",
    b"", b"\x00\xff", bytes(range(256)),
)


def fill_kinds(db, seed):
    """Values at the edges of their kinds, floats of any bits, and texts of any bytes."""
    rows = random.Random(seed)
    for value in EDGES:
        db.execute("INSERT INTO kinds(label, value) VALUES('edge', ?)", (value,))
    for _ in range(400):
        value = struct.unpack(">d", rows.randbytes(8))[0]
        db.execute("INSERT INTO kinds(id, value) VALUES(?, ?)",
            (rows.getrandbits(62) - 2 ** 61, value if value == value else None))
        text = rows.randbytes(rows.randrange(0, 12) * 2)
        db.execute(f"INSERT INTO kinds(label, value) VALUES('any', CAST(x'{text.hex()}' AS TEXT))")


def by_reference(folder):
    try:
        from sqlcipher_formats import PROFILES, Codec, Database, draw_source, encrypt, export_lines
        from sqlcipher_oracle import blank_plain
    except ImportError:
        left_out.append("the reference's databases, since Python's cryptography is missing")
        return
    for word, encoding in (("4", 1), ("3", 2), ("1", 3)):
        profile = PROFILES[word]
        path, back = os.path.join(folder, f"plain-{word}.db"), os.path.join(folder, f"back-{word}.db")
        with open(path, "wb") as out:
            out.write(blank_plain(profile.page_size, profile.reserve, encoding))
        db = sqlite3.connect(path, isolation_level=None)
        db.executescript(SQL)
        db.execute("DROP TABLE gone")
        fill_kinds(db, int(word))
        db.close()
        with open(path, "rb") as file:
            plain = file.read()
        draw = draw_source(1, False)
        codec = Codec(profile, b"x'" + b"0123456789abcdef" * 4 + b"'", draw(16))
        lines = export_lines(Database(encrypt(plain, codec, draw), codec))
        text = "".join(line + "\n" for line in lines).encode()
        expect(f"profile {word}: SQL", made(turned(text), back), (0, ""))
        wanted, found = content(path), content(back)
        for name in sorted(set(wanted) | set(found)):
            expect(f"profile {word}, encoding {encoding}: {name}", found.get(name), wanted.get(name))
        expect(f"profile {word}: integrity", checked(back), checked(path))


def main():
    refusals()
    if shutil.which("sqlite3"):
        with tempfile.TemporaryDirectory() as folder:
            by_hand(folder)
            by_reference(folder)
    else:
        left_out.append("what sqlite3 makes of the SQL, since it is missing")
    print(f"export_to_sql: {tried} tried, {len(failures)} failed")
    if left_out and not failures:
        print("left out: " + "; ".join(left_out))
        return 77
    return 1 if failures else 0


if __name__ == "__main__":
    sys.exit(main())
