#!/usr/bin/env python3
"""Makes plain files with indexes of all kinds, and damaged ones:  index_files.py FOLDER

An index is edited as rows of a WITHOUT ROWID table that is declared over its root; a table is edited while its indexes are out of the
schema. So each tree stays well formed, and what is wrong is the agreement alone. `damage.tsv` says what was done to which index."""
import os
import random
import sqlite3
import sys

import sqlcipher_formats as formats

rand = random.Random(7)
LETTERS = "abcdefghij"


def word(n):
    return f"{LETTERS[n * 7 % 10]}{n * 2654435761 % 100003:06d}"


def fresh(path, page=1024, more=()):
    if os.path.exists(path):
        os.remove(path)
    db = sqlite3.connect(path, isolation_level=None)
    db.execute(f"PRAGMA page_size={page}")
    db.execute("PRAGMA auto_vacuum=0")
    for line in more:
        db.execute(line)
    return db


def fill(db, count=300, table="t"):
    db.execute("BEGIN")
    db.executemany(f"INSERT INTO {table}(id,a,b,c,d) VALUES(?,?,?,?,?)",
                   [(n, word(n), n * 37 % 101, n * 0.5, bytes([n % 256]) * (n % 40)) for n in range(1, count + 1)])
    db.execute("COMMIT")


T = "CREATE TABLE t(id INTEGER PRIMARY KEY, a TEXT, b INTEGER, c REAL, d BLOB)"

# name, (page size, pragmas), statements; `FILL` fills t
SOUND = [
    ("text", 1024, [T, "FILL", "CREATE INDEX i ON t(a)"]),
    ("two_columns", 1024, [T, "CREATE INDEX i ON t(b, a)", "FILL"]),
    ("unique", 1024, [T, "FILL", "CREATE UNIQUE INDEX i ON t(a)"]),
    ("descending", 1024, [T, "FILL", "CREATE INDEX i ON t(b DESC, a)"]),
    ("nocase_column", 1024, ["CREATE TABLE t(id INTEGER PRIMARY KEY, a TEXT COLLATE NOCASE, b, c, d)", "FILL", "UPDATE t SET a=upper(a) WHERE id%3=0", "CREATE INDEX i ON t(a)"]),
    ("nocase_index", 1024, [T, "FILL", "UPDATE t SET a=upper(a) WHERE id%3=0", "CREATE INDEX i ON t(a COLLATE NOCASE)"]),
    ("rtrim", 1024, [T, "FILL", "UPDATE t SET a=a||'  ' WHERE id%3=0", "CREATE INDEX i ON t(a COLLATE RTRIM DESC)"]),
    ("auto_unique", 1024, ["CREATE TABLE t(id INTEGER PRIMARY KEY, a TEXT UNIQUE, b, c, d)", "FILL"]),
    ("auto_primary", 1024, ["CREATE TABLE t(id, a TEXT PRIMARY KEY, b, c, d)", "FILL"]),
    ("auto_three", 1024, ["CREATE TABLE t(id INT PRIMARY KEY, a TEXT UNIQUE, b, c REAL, d, UNIQUE(a), UNIQUE(b, a) CONSTRAINT x UNIQUE (c, id))", "FILL"]),
    ("partial", 1024, [T, "FILL", "CREATE INDEX i ON t(a) WHERE b > 50"]),
    ("partial_small", 1024, [T, "FILL", "CREATE INDEX i ON t(a)/* x */where b > 50"]),
    ("expression", 1024, [T, "FILL", "CREATE INDEX i ON t(b + 1)", "CREATE INDEX j ON t(lower(a), b)"]),
    ("without_rowid", 1024, ["CREATE TABLE t(id INTEGER, a TEXT PRIMARY KEY, b, c, d) WITHOUT ROWID", "FILL", "CREATE INDEX i ON t(b)"]),
    ("alias_in_index", 1024, [T, "FILL", "CREATE INDEX i ON t(b, id)"]),
    ("real", 1024, [T, "FILL", "CREATE INDEX i ON t(c)", "INSERT INTO t(id,c) VALUES(900, 7),(901,-3),(902,0.25),(903,9e18),(904,-0.0)"]),
    ("added_column", 1024, [T, "FILL", "ALTER TABLE t ADD COLUMN e TEXT", "CREATE INDEX i ON t(e, a)", "INSERT INTO t(id,e) VALUES(900,'x')"]),
    ("added_default", 1024, [T, "FILL", "ALTER TABLE t ADD COLUMN e INTEGER DEFAULT 7", "CREATE INDEX i ON t(e, a)", "INSERT INTO t(id,e) VALUES(900,8)"]),
    ("generated_virtual", 1024, ["CREATE TABLE t(id INTEGER PRIMARY KEY, a TEXT, b, c, d, e AS (b + 1))", "FILL", "CREATE INDEX i ON t(e)", "CREATE INDEX j ON t(a)"]),
    ("generated_stored", 1024, ["CREATE TABLE t(id INTEGER PRIMARY KEY, a TEXT, b, c, d, e GENERATED ALWAYS AS (b + 1) STORED)", "FILL", "CREATE INDEX i ON t(e)"]),
    ("nulls", 1024, [T, "FILL", "UPDATE t SET a=NULL WHERE id%2", "CREATE UNIQUE INDEX i ON t(a)"]),
    ("overflow", 1024, [T, "FILL", "UPDATE t SET a=a||hex(zeroblob(id*5))", "CREATE INDEX i ON t(a)", "CREATE INDEX j ON t(d)"]),
    ("negative", 1024, [T, "INSERT INTO t(id,a) VALUES(-9223372036854775808,'x'),(-5,'y'),(0,'z'),(9223372036854775807,'w')", "FILL", "CREATE INDEX i ON t(a)"]),
    ("sparse", 1024, [T, "SPARSE", "CREATE INDEX i ON t(a)", "CREATE INDEX j ON t(b)"]),
    ("empty", 1024, [T, "CREATE INDEX i ON t(a)", "CREATE UNIQUE INDEX j ON t(b)"]),
    ("quotes", 1024, ['CREATE TABLE "t(x"(id INTEGER PRIMARY KEY, "a)" TEXT, [b,c] INT)', "INSERT INTO \"t(x\" VALUES(1,'a',2),(2,'b',3)", 'CREATE INDEX "i where (" ON "t(x"("a)" , [b,c])', "CREATE INDEX `p``q` ON \"t(x\"([b,c])"]),
    ("comments", 1024, [T, "FILL", "CREATE INDEX i /* ( */ ON -- where (\n t(a /* ) */, b) -- end\n;", "CREATE INDEX j ON t(a) -- where"]),
    ("words", 1024, ['CREATE TABLE t(id INTEGER PRIMARY KEY, a TEXT, b, c, d, "where" INT, key TEXT)', "FILL", "UPDATE t SET key=a", 'CREATE INDEX i ON t("where", key)']),
    ("utf16", 1024, ["PRAGMA encoding='UTF-16le'", T, "FILL", "CREATE INDEX i ON t(a)", "CREATE INDEX j ON t(b) WHERE a > 'e'"]),
    ("page_512", 512, [T, "FILL", "CREATE INDEX i ON t(a)"]),
    ("page_65536", 65536, [T, "FILL", "CREATE INDEX i ON t(a)"]),
    ("many", 4096, [T, "FILL 20000", "CREATE INDEX i ON t(a)", "CREATE INDEX j ON t(b, c)", "CREATE INDEX k ON t(d)"]),
    ("worked", 1024, [T, "CREATE INDEX i ON t(a)", "CREATE INDEX j ON t(b)", "FILL 1000", "WORK"]),
    ("vacuumed", 1024, [T, "FILL", "CREATE INDEX i ON t(a)", "DELETE FROM t WHERE id%5=0", "VACUUM"]),
    ("autoincrement", 1024, ["CREATE TABLE t(id INTEGER PRIMARY KEY AUTOINCREMENT, a TEXT, b INTEGER, c REAL, d BLOB)", "FILL", "CREATE INDEX i ON t(a)"]),
    ("strict", 1024, ["CREATE TABLE t(id INTEGER PRIMARY KEY, a TEXT, b INTEGER, c REAL, d BLOB) STRICT", "FILL", "CREATE INDEX i ON t(c)"]),
    ("mixed", 1024, ["CREATE TABLE t(id INTEGER PRIMARY KEY, a, b, c, d)", "FILL", "UPDATE t SET a=b WHERE id%3=0", "UPDATE t SET a=c WHERE id%3=1", "UPDATE t SET a=NULL WHERE id%7=0", "UPDATE t SET a=d WHERE id%11=0", "CREATE INDEX i ON t(a)"]),
    ("analyzed", 1024, [T, "FILL", "CREATE INDEX i ON t(a)", "ANALYZE"]),
    ("renamed", 1024, [T, "FILL", "CREATE INDEX i ON t(a)", "ALTER TABLE t RENAME TO u", "ALTER TABLE u RENAME COLUMN a TO q"]),
    ("old_descending", 1024, ["CREATE TABLE t(id INTEGER PRIMARY KEY DESC, a, b, c, d)", "FILL", "CREATE INDEX i ON t(a)"]),
    ("fulltext", 1024, ["CREATE VIRTUAL TABLE f USING fts4(x)", "INSERT INTO f VALUES('one two'),('three')", T, "FILL", "CREATE INDEX i ON t(a)"]),
    ("default_now", 1024, [T, "CREATE TABLE s(x TEXT DEFAULT (upper('a,b')) CHECK (x <> 'z, (' ), y INTEGER REFERENCES t(id) ON DELETE CASCADE, PRIMARY KEY (y DESC))", "FILL", "INSERT INTO s(y) SELECT id FROM t", "CREATE INDEX i ON s(x, y)"]),
]


def run(db, statement):
    if statement.startswith("FILL"):
        fill(db, int(statement[4:] or 300))
    elif statement == "SPARSE":
        db.executemany("INSERT INTO t(id,a,b) VALUES(?,?,?)", [(rand.randrange(-2**63, 2**63), word(n), n) for n in range(400)])
    elif statement == "WORK":
        for n in range(1500):
            db.execute("DELETE FROM t WHERE id=?", (rand.randrange(1, 1001),))
            db.execute("UPDATE t SET a=?, b=? WHERE id=?", (word(rand.randrange(10**6)), rand.randrange(100), rand.randrange(1, 1001)))
            db.execute("INSERT OR IGNORE INTO t(id,a,b) VALUES(?,?,?)", (rand.randrange(1, 3000), word(n), n))
    else:
        db.execute(statement)


# ------------------------------------------------------------------ damage

def schema_of(db):
    return list(db.execute("SELECT rowid, * FROM sqlite_master"))


class Edit:
    """A file whose schema is changed for an edit and then put back."""

    def __init__(self, path):
        self.path = path
        db = sqlite3.connect(path, isolation_level=None)
        self.rows = schema_of(db)
        db.close()

    def schema(self, rows):
        db = sqlite3.connect(self.path, isolation_level=None)
        db.execute("PRAGMA writable_schema=ON")
        db.execute("BEGIN")
        db.execute("DELETE FROM sqlite_master")
        db.executemany("INSERT INTO sqlite_master(rowid,type,name,tbl_name,rootpage,sql) VALUES(?,?,?,?,?,?)", rows)
        cookie = db.execute("PRAGMA schema_version").fetchone()[0]
        db.execute(f"PRAGMA schema_version={cookie + 1}")
        db.execute("COMMIT")
        db.close()

    def under(self, rows, statements):
        """The statements, under this schema; then the schema of before."""
        self.schema(rows)
        db = sqlite3.connect(self.path, isolation_level=None)
        for statement in statements:
            db.execute(*statement if isinstance(statement, tuple) else (statement,))
        db.close()
        self.schema(self.rows)

    def table(self, statements):
        """Statements on tables while no index is in the schema. The texts lose UNIQUE and PRIMARY KEYs that have an index."""
        rows = [row for row in self.rows if row[1] != "index"]
        rows = [row[:5] + (row[5].replace(" UNIQUE", ""),) for row in rows]
        self.under(rows, statements)

    def index(self, name, columns, statements, order=""):
        """Statements on the table `x` whose rows are the entries of this index: columns k0, k1 .. and the rowid r."""
        root = next(row[4] for row in self.rows if row[2] == name)
        keys = order or ", ".join([f"k{n}" for n in range(columns)] + ["r"])
        names = ", ".join([f"k{n}" for n in range(columns)] + ["r"])
        self.under([(1, "table", "x", "x", root, f"CREATE TABLE x({names}, PRIMARY KEY ({keys})) WITHOUT ROWID")], statements)


BASES = {
    "d_text": (1024, [T, "FILL", "CREATE INDEX i ON t(a)", "CREATE INDEX j ON t(b)"], "i", 1, ""),
    "d_unique": (1024, [T, "FILL", "CREATE UNIQUE INDEX i ON t(a)", "CREATE INDEX j ON t(b)"], "i", 1, ""),
    "d_two": (4096, [T, "FILL", "CREATE INDEX i ON t(b, a)", "CREATE INDEX j ON t(b)"], "i", 2, ""),
    "d_auto": (1024, ["CREATE TABLE t(id INTEGER PRIMARY KEY, a TEXT UNIQUE, b INTEGER, c REAL, d BLOB)", "FILL", "CREATE INDEX j ON t(b)"], "sqlite_autoindex_t_1", 1, ""),
    "d_desc": (512, [T, "FILL", "CREATE INDEX i ON t(a DESC)", "CREATE INDEX j ON t(b)"], "i", 1, "k0 DESC, r"),
    "d_nocase": (1024, [T, "FILL", "UPDATE t SET a=upper(a) WHERE id%3=0", "CREATE INDEX i ON t(a COLLATE NOCASE)", "CREATE INDEX j ON t(b)"], "i", 1, "k0 COLLATE NOCASE, r"),
}
# kind: (on the index or on the table, statements)
DAMAGE = {
    "entry_removed": ("index", ["DELETE FROM x WHERE r=150"]),
    "entries_removed": ("index", ["DELETE FROM x WHERE r%10=3"]),
    "entry_of_no_row": ("index", ["INSERT INTO x SELECT {keys}, 5000 FROM x WHERE r=150"]),
    "entry_again_elsewhere": ("index", ["INSERT INTO x SELECT {other}, 150 FROM x WHERE r=151"]),
    "entry_changed": ("index", ["UPDATE x SET k0=k0||'!' WHERE r=150"]),
    "entry_other_case": ("index", ["UPDATE x SET k0=upper(k0) WHERE r=152"]),
    "rowid_to_no_row": ("index", ["UPDATE x SET r=5000 WHERE r=150"]),
    "rowid_to_other_row": ("index", ["UPDATE x SET r=151 WHERE r=150"]),
    "rowids_exchanged": ("index", ["UPDATE x SET r=-1 WHERE r=150", "UPDATE x SET r=150 WHERE r=151", "UPDATE x SET r=151 WHERE r=-1"]),
    "rowid_no_integer": ("index", ["UPDATE x SET r='150' WHERE r=150"]),
    "all_entries_removed": ("index", ["DELETE FROM x"]),
    "row_removed": ("table", ["DELETE FROM t WHERE id=150"]),
    "rows_removed": ("table", ["DELETE FROM t WHERE id BETWEEN 100 AND 200"]),
    "row_added": ("table", ["INSERT INTO t(id,a,b) VALUES(5000,'zz',7)"]),
    "row_changed": ("table", ["UPDATE t SET a=a||'!' WHERE id=150"]),
    "row_moved": ("table", ["UPDATE t SET id=5000 WHERE id=150"]),
    "twin_row": ("both", ["INSERT INTO t(id,a,b) SELECT 5000, a, b FROM t WHERE id=150"], ["INSERT INTO x SELECT {keys}, 5000 FROM x WHERE r=150"]),
    "out_of_order": ("disorder", []),
    "entry_exactly_twice": ("twice", []),
}


def damage(path, kind, base):
    page, statements, name, columns, order = BASES[base]
    db = fresh(path, page)
    for statement in statements:
        run(db, statement)
    db.close()
    keys = ", ".join(f"k{n}" for n in range(columns))
    other = ", ".join(f"k{n}" if n else "k0||'?'" for n in range(columns))
    edit = Edit(path)
    words = DAMAGE[kind]
    put = lambda lines: [line.format(keys=keys, other=other) for line in lines]
    if words[0] == "index":
        edit.index(name, columns, put(words[1]), order)
    elif words[0] == "table":
        edit.table(words[1])
    elif words[0] == "both":
        edit.table(words[1])
        edit.index(name, columns, put(words[2]), order)
        # (each other index gets its entry too)
        edit.index("j", 1, ["INSERT INTO x SELECT k0, 5000 FROM x WHERE r=150"])
    elif words[0] == "disorder":
        # two neighbours change places: their values and rowids, under an order that does not look at them
        db = sqlite3.connect(path)
        column = "a" if columns == 1 else "b"
        rows = list(db.execute(f"SELECT id FROM t ORDER BY {column} LIMIT 2 OFFSET 100"))
        db.close()
        first, second = rows[0][0], rows[1][0]
        swap_cells(path, edit, name, first, second)
    elif words[0] == "twice":
        db = sqlite3.connect(path)
        column = "a" if columns == 1 else "b"
        rows = list(db.execute(f"SELECT id FROM t ORDER BY {column} LIMIT 2 OFFSET 100"))
        db.close()
        swap_cells(path, edit, name, rows[0][0], rows[1][0], copy=True)
    return name


def swap_cells(path, edit, name, first, second, copy=False):
    """Exchanges the pointers of two cells of one leaf of an index, or has both point to the first."""
    with open(path, "rb") as file:
        data = bytearray(file.read())
    page = int.from_bytes(data[16:18], "big")
    page = 65536 if page == 1 else page
    root = next(row[4] for row in edit.rows if row[2] == name)
    stack = [root]
    while stack:
        n = stack.pop()
        plain = bytes(data[(n - 1) * page:n * page])
        kind, cells, right = formats.read_tree_page(plain, n, None)
        if kind == formats.INDEX_INTERIOR:
            stack += [cell.left for cell in cells] + [right]
            continue
        rowids = [formats.read_record(cell.local)[-1][1] for cell in cells]
        pairs = [(k, k + 1) for k in range(len(rowids) - 1)]
        if not pairs or (not copy and first not in rowids):
            continue
        k = rowids.index(first) if first in rowids else 0
        k = min(k, len(rowids) - 2)
        at = (n - 1) * page + 8 + 2 * k
        a, b = bytes(data[at:at + 2]), bytes(data[at + 2:at + 4])
        data[at:at + 2], data[at + 2:at + 4] = (a, a) if copy else (b, a)
        with open(path, "wb") as file:
            file.write(data)
        return
    raise ValueError(path)


def main():
    folder = sys.argv[1]
    os.makedirs(folder, exist_ok=True)
    for name, page, statements in SOUND:
        db = fresh(os.path.join(folder, f"s_{name}.db"), page)
        for statement in statements:
            run(db, statement)
        db.close()
    with open(os.path.join(folder, "damage.tsv"), "w", encoding="utf-8") as out:
        for base in BASES:
            for kind in DAMAGE:
                if (base, kind) in (("d_unique", "entry_other_case"), ("d_two", "entry_other_case"), ("d_desc", "entry_other_case"), ("d_auto", "entry_other_case")):
                    continue
                path = os.path.join(folder, f"{base}_{kind}.db")
                try:
                    name = damage(path, kind, base)
                except (sqlite3.Error, ValueError) as error:
                    print(f"{base} {kind}: {error}", file=sys.stderr)
                    if os.path.exists(path):
                        os.remove(path)
                    continue
                out.write(f"{os.path.basename(path)}\t{kind}\t{name}\n")
    print(len(SOUND), "sound")


if __name__ == "__main__":
    main()
