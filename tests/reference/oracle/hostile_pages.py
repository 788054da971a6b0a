"""Files whose pages are hostile and sealed under the right key, and what a command that checks may answer.

Trees point anywhere, chains meet, freelists loop, some tags are turned (`Maker`). For each file the lines that may be printed are
those of the earliest part that has a defect: each defect of that part is one, whatever comes before it there (`Parts`).
`hostile_files.py` runs the program on such files.
"""
from dataclasses import dataclass, field

from sqlcipher_formats import (
    PATH_LIMIT, TABLE_INTERIOR, TABLE_LEAF, Database, Entry, Refused, be, children_between, entry_line, local_len, read_record,
    read_tree_page)
from sqlcipher_oracle import blank_plain

KEY = b"x'000102030405060708090a0b0c0d0e0f101112131415161718191a1b1c1d1e1f'"
SALT = bytes(range(16))
KINDS = (13, 13, 13, 5, 10, 10, 2, "trunk", "link", "link", "zeros", "any")


# ------------------------------------------------------------------ making pages

def varint(value):
    value &= (1 << 64) - 1
    if value >> 56:
        head, low = value >> 8, value & 0xFF
        return bytes((head >> (7 * i) & 0x7F) | 0x80 for i in range(7, -1, -1)) + bytes([low])
    pieces = [value & 0x7F]
    while value >> 7:
        value >>= 7
        pieces.append(value & 0x7F | 0x80)
    return bytes(reversed(pieces))


def record(values):
    types, body = [], b""
    for value in values:
        if value is None:
            types.append(0)
        elif isinstance(value, int):
            types.append(4)
            body += (value & 0xFFFFFFFF).to_bytes(4, "big")
        else:
            types.append(12 + 2 * len(value) + 1)
            body += value
    header = b"".join(map(varint, types))
    return varint(len(header) + 1) + header + body


class Maker:
    def __init__(self, rng, profile):
        self.rng, self.profile, self.usable = rng, profile, profile.usable
        self.count = rng.choice((4, 6, 10, 24))
        self.rowid = 0
        # what each page is, so that most numbers lead to a page of the right kind
        self.kinds = [None] + [rng.choice((13, 5)) if n == 1 else rng.choice(KINDS) for n in range(1, self.count + 1)]

    def number(self, *kinds):
        """A page number: mostly that of a page of these kinds, at times any of the file, or none."""
        chance = self.rng.random()
        if chance < 0.03:
            return self.rng.choice((0, 1, self.count + 1, 2 ** 31, 2 ** 32 - 1))
        fitting = [n for n in range(2, self.count + 1) if self.kinds[n] in kinds]
        if fitting and chance < 0.92:
            return self.rng.choice(fitting)
        return self.rng.randint(2, self.count)

    def payload(self, schema):
        rng = self.rng
        if rng.random() < 0.02:
            return rng.randbytes(rng.randint(0, 40))
        if schema:
            root = rng.choice((0, None) + 4 * (self.number(13, 5, 10, 2),)) if rng.random() < 0.97 else b"x"
            return record([b"table", b"t", b"t", root, b"CREATE"][:5 if rng.random() < 0.95 else 4])
        return record([rng.randbytes(rng.choice((0, 5, 30, 300, 1500)))])

    def cell(self, kind, schema):
        rng = self.rng
        self.rowid += rng.choice((1, 1, 1, 2, 7, 0, -3)) if rng.random() < 0.2 else 1
        key = varint(self.rowid)
        if kind == 5:
            return self.number(13, 5).to_bytes(4, "big") + key
        payload = self.payload(schema)
        table = kind == 13
        head = (b"" if kind in (10, 13) else self.number(10, 2).to_bytes(4, "big")) + varint(len(payload)) + (key if table else b"")
        size = local_len(table, self.usable, len(payload))
        more = self.number("link").to_bytes(4, "big") if size < len(payload) else b""
        return head + payload[:size] + more

    def tree_page(self, n, kind):
        rng, base = self.rng, 100 if n == 1 else 0
        plain = bytearray(self.usable)
        interior = kind in (2, 5)
        array = base + (12 if interior else 8)
        cells, end = [], self.usable
        for _ in range(rng.choice((0, 1, 1, 2, 3, 5))):
            cell = self.cell(kind, n == 1)
            if end - len(cell) < array + 2 * (len(cells) + 1):
                break
            end -= len(cell)
            plain[end:end + len(cell)] = cell
            cells.append(end)
        plain[base] = kind if rng.random() > 0.03 else rng.randrange(256)
        plain[base + 3:base + 5] = (len(cells) if rng.random() > 0.02 else rng.randrange(600)).to_bytes(2, "big")
        if interior:
            plain[base + 8:base + 12] = self.number(*((13, 5) if kind == 5 else (10, 2))).to_bytes(4, "big")
        for i, at in enumerate(cells):
            at = at if rng.random() > 0.02 else rng.randrange(self.usable)
            plain[array + 2 * i:array + 2 * i + 2] = at.to_bytes(2, "big")
        return plain

    def trunk(self):
        rng, plain = self.rng, bytearray(self.usable)
        leaves = [self.number("zeros", "any") for _ in range(rng.choice((0, 0, 1, 1, 2)))]
        many = len(leaves) if rng.random() > 0.05 else rng.choice((self.usable // 4 - 2, self.usable // 4 - 1, 2 ** 32 - 1))
        plain[0:4] = (rng.choice((0, 0, 0, self.number("trunk")))).to_bytes(4, "big")
        plain[4:8] = many.to_bytes(4, "big")
        for i, leaf in enumerate(leaves):
            plain[8 + 4 * i:12 + 4 * i] = leaf.to_bytes(4, "big")
        return plain

    def link(self):
        return bytearray(self.number("link").to_bytes(4, "big") if self.rng.random() < 0.3 else bytes(4)) + bytearray(
            self.rng.randbytes(self.usable - 4))

    def file(self, codec, draw):
        rng, pages = self.rng, []
        for n in range(1, self.count + 1):
            kind = self.kinds[n]
            if kind == "trunk":
                plain = self.trunk()
            elif kind == "link":
                plain = self.link()
            elif kind == "zeros":
                plain = bytearray(self.usable)
            elif kind == "any":
                plain = bytearray(rng.randbytes(self.usable))
            else:
                plain = self.tree_page(n, kind)
            pages.append(plain)
        first = blank_plain(self.profile.page_size, self.profile.reserve)
        pages[0][:100] = first[:100]
        pages[0][28:32] = self.count.to_bytes(4, "big")
        if rng.random() < 0.4 and "trunk" in self.kinds:
            trunk = self.number("trunk")
            pages[0][32:36] = trunk.to_bytes(4, "big")
            listed = be(pages[trunk - 1], 4) if 0 < trunk <= self.count else 0
            pages[0][36:40] = (1 + min(listed, 9) if rng.random() < 0.8 else rng.choice((0, 2, 3))).to_bytes(4, "big")
        stored = [codec.seal_page(n + 1, bytes(plain), draw(self.profile.reserve)) for n, plain in enumerate(pages)]
        if self.profile.tag_len and rng.random() < 0.1:
            n = rng.randrange(1, self.count)
            at = self.profile.usable + 16
            stored[n] = stored[n][:at] + bytes([stored[n][at] ^ 1]) + stored[n][at + 1:]
        return b"".join(stored)


# ------------------------------------------------------------------ all defects of a part

class Parts(Database):
    """The defects of each part, all of them: a walk goes on behind a defect wherever the page can be read."""

    def __init__(self, main, codec):
        super().__init__(main, codec)
        self.searched = {}

    def tag(self, n):
        return self.codec.tag_holds(n, self.stored(n))

    def plain(self, n):
        return self.codec.open_page(n, self.stored(n))

    def free_part(self):
        try:
            self.freelist()
            return []
        except Refused as refusal:
            return [str(refusal)]       # a walk of the freelist stops where it meets a trunk that can't be read

    def chain(self, cell, page, found):
        """The payload, or none where its chain has a defect."""
        pieces, missing, holder, following = [cell.local], cell.length - len(cell.local), page, cell.first
        while missing > 0:
            if following == 0 and holder != page:
                found.append(f"page {holder}: chain short")
                return None
            if not self.in_range(following):
                found.append(f"page {holder}: child out of range")
                return None
            holder = following
            if holder in self.seen:
                found.append(f"page {holder}: page twice")
                return None
            self.seen.add(holder)
            if not self.tag(holder):
                found.append(f"page {holder}: tag refused")
                return None
            plain = self.plain(holder)
            following = be(plain, 0)
            pieces.append(plain[4:4 + missing])
            missing -= len(pieces[-1])
        if holder != page and following:
            found.append(f"page {holder}: chain long")
            return None
        return b"".join(pieces)

    def tree(self, root, family):
        """(entries as (page, rowid, payload), defects) of a tree."""
        entries, found, keys = [], [], [float("-inf")]     # the last of `keys` is the highest rowid so far

        def visit(n, family, depth):
            if n in self.seen:
                found.append(f"page {n}: page twice")
                return
            self.seen.add(n)
            if depth > 20:
                found.append(f"page {n}: too deep")
                return
            if not self.tag(n):
                found.append(f"page {n}: tag refused")
                return
            try:
                kind, cells, right = read_tree_page(self.plain(n), n, family)
            except Refused as refusal:
                found.append(str(refusal))
                return
            family = (2, 10) if kind in (2, 10) else (5, 13)
            for cell in cells + [None] * (kind in (2, 5)):
                if kind in (2, 5):
                    child = cell.left if cell else right
                    if self.in_range(child):
                        visit(child, family, depth + 1)
                    else:
                        found.append(f"page {n}: child out of range")
                    if cell and kind == 5:
                        keys.append(max(keys[-1], cell.rowid))
                        found.extend(f"page {at}: rowid order" for at, rowid, _ in entries if rowid is not None and rowid > cell.rowid)
                if cell and kind != 5:
                    if kind == 13:
                        if cell.rowid <= keys[-1]:
                            found.append(f"page {n}: rowid order")
                    payload = self.chain(cell, n, found)
                    if payload is not None:
                        if kind == 13:
                            keys.append(max(keys[-1], cell.rowid))
                        entries.append((n, cell.rowid, payload))

        visit(root, family, 1)
        for n, _, payload in entries:
            if read_record(payload) is None:
                found.append(f"page {n}: record fault")
        return entries, found

    def answers(self):
        """The lines that `verify` may print."""
        found = self.free_part()
        if found:
            return found
        bad = self.tags_part()
        return [" | ".join(bad)] if bad else self.trees_part()

    def walk_answers(self):
        """The lines that `export` and `migrate` may print of a file with a defect: they look at the pages in use alone."""
        return self.free_part() or self.trees_part()

    def rekey_answers(self):
        """The lines that `rekey` may print of a file with a defect: it walks first, and then looks at the pages that nothing uses."""
        walked = self.walk_answers()
        return walked if not walked[0].startswith("ok: ") else self.tags_part()

    def tags_part(self):
        return [f"page {n}: tag refused" for n in range(1, self.count + 1) if n not in self.leaves and not self.tag(n)]

    def schema_part(self):
        """(rows as (rowid, values, root), defects) of the schema. The root is 0 where there is no tree."""
        entries, found = self.tree(1, (5, 13))
        rows = []
        for _, rowid, payload in entries:
            values = read_record(payload)
            if values is None:
                continue
            if len(values) < 5 or values[3][0] not in ("int", "null"):
                found.append(f"schema row {rowid}")
                continue
            root = values[3][1] or 0
            if root and not self.in_range(root):
                found.append(f"root fault in row {rowid}")
            else:
                rows.append((rowid, values, root))
        return rows, found

    def trees_part(self):
        rows, found = self.schema_part()
        roots = [root for _, _, root in rows if root]
        entries = len(rows)
        for root in roots:
            if found:
                break
            more, found = self.tree(root, None)
            entries += len(more)
        if found:
            return found
        return [f"ok: {len(roots) + 1} trees, {entries} entries, {self.free} free pages, {self.count - len(self.seen)} unused pages"]

    def find_answers(self, name, low, high):
        """What `find` may answer. It looks at the schema, and then at one tree: its table's root is looked for in order of rowid."""
        if name not in self.searched:
            self.searched[name] = self.search(name)
        found = self.searched[name]
        return found.answers(low, high) if isinstance(found, Unfolded) else Finds([found] if isinstance(found, str) else found)

    def search(self, name):
        """The table of this name, or the refusals one of which has to be said."""
        self.seen = set()
        rows, found = self.schema_part()
        if found:
            return found
        for _, values, root in rows:
            if root and values[:2] == [("text", b"table"), ("text", name)]:
                if not self.tag(root):
                    return f"page {root}: tag refused"
                if self.plain(root)[0] not in (2, 5, 10, 13):
                    return f"page {root}: bad kind"
                if self.plain(root)[0] in (5, 13):
                    return Unfolded(self, root)
        return "no such table"


@dataclass
class Finds:
    """What `find` may answer: one of these refusals, with these rows before it, or else what it prints where it is done."""
    refusals: list
    done: str = None
    rows: set = field(default_factory=set)

    def wrong(self, status, text):
        """What is wrong with an answer, or none."""
        if status == 0:
            return None if self.done is not None and text == self.done else f"{self.done!r:.300} is to be printed, or one of {self.refusals!r:.300}"
        *rows, last = text.splitlines() or [""]
        if status != 2 or not text.endswith("\n") or last not in self.refusals:
            return f"status {status}, and 2 is wanted with one of {self.refusals!r:.300}, or 0 with {self.done!r:.300}"
        others = [row for row in rows if row not in self.rows]
        return f"before the refusal stands {others[0]!r:.200}, which is no row of the range" if others else None


class Unfolded:
    """The pages of a table's tree on every path from its root, behind a page that is met twice too. Each page is read once."""
    MANY = 20000        # rows; a tree in circles has more than can be listed

    def __init__(self, parts, root):
        met = parts.seen.copy()     # pages of the schema
        self.entries, self.found = parts.tree(root, (5, 13))
        self.parts, self.root = parts, root
        self.pages, self.listed, self.defects = {}, {}, set()
        layer, links = {root}, {}
        for depth in range(1, PATH_LIMIT + 2):
            if depth > PATH_LIMIT:
                self.defects.update(f"page {n}: too deep" for n in layer)
                break
            for n in layer:
                if n not in links:
                    links[n] = self.look_at(n)
            layer = {child for n in layer for child in self.children(n) if parts.in_range(child)}
        self.defects.update(f"page {n}: page twice" for n in self.met_twice(links) | met & {root, *links, *(it for to in links.values() for it in to)})

    def children(self, n):
        kind, cells, right = self.pages[n] or (None, [], 0)
        return [cell.left for cell in cells] + [right] if kind == TABLE_INTERIOR else []

    def look_at(self, n):
        """The pages to which page n leads, its children and those of its chains. Its defects, rows and cells are kept."""
        parts, self.pages[n] = self.parts, None
        if not parts.tag(n):
            self.defects.add(f"page {n}: tag refused")
            return []
        try:
            kind, cells, right = read_tree_page(parts.plain(n), n, (5, 13))
        except Refused as refusal:
            self.defects.add(str(refusal))
            return []
        if kind == TABLE_INTERIOR:
            self.pages[n] = kind, cells, right
            children = self.children(n)
            if not all(map(parts.in_range, children)):
                self.defects.add(f"page {n}: child out of range")
            return list(filter(parts.in_range, children))
        links, rows = [], []
        for cell in cells:
            chain, entry = self.row(cell, n)
            links += chain
            rows.append((cell.rowid, entry))
        self.pages[n] = kind, rows, 0
        return links

    def row(self, cell, n):
        """(pages of its chain, its entry), no entry where its chain or its record has a defect."""
        parts, holder, following, pieces, met = self.parts, n, cell.first, [cell.local], []
        missing = cell.length - len(cell.local)
        for number in range(-(-missing // (parts.usable - 4))):
            if following == 0 and number:
                self.defects.add(f"page {holder}: chain short")
                return met, None
            if not parts.in_range(following):
                self.defects.add(f"page {holder}: child out of range")
                return met, None
            holder = following
            if holder in met:       # a chain in a circle never ends
                self.defects.add(f"page {holder}: page twice")
                return met, None
            met.append(holder)
            if not parts.tag(holder):
                self.defects.add(f"page {holder}: tag refused")
                return met, None
            following = be(parts.plain(holder), 0)
            pieces.append(parts.plain(holder)[4:])
        if met and following:
            self.defects.add(f"page {holder}: chain long")
            return met, None
        payload = b"".join(pieces)[:cell.length]
        values = read_record(payload)
        if values is None:
            self.defects.add(f"page {n}: record fault")
            return met, None
        return met, Entry(n, cell.rowid, payload, values)

    def met_twice(self, links):
        """The pages to which two links lead, or one from a page that is met twice itself."""
        counts = {self.root: 1}
        for to in links.values():
            for n in to:
                counts[n] = counts.get(n, 0) + 1
        twice = {n for n, count in counts.items() if count > 1}
        waiting = list(twice)
        while waiting:
            for n in links.get(waiting.pop(), ()):
                if n not in twice:
                    twice.add(n)
                    waiting.append(n)
        return twice

    def answers(self, low, high):
        """What `find` may answer for this table: its rows where the pages that lead to them are sound, and where the tree has a defect
        also one of its defects, with some rows of the range before it."""
        done = self.done(low, high)
        if self.found:
            return Finds(self.found + sorted(self.defects - set(self.found)), done, self.lines(low, high))
        rows = [Entry(n, rowid, payload, read_record(payload)) for n, rowid, payload in self.entries if low <= rowid <= high]
        if self.defects or done != "".join(f"{entry_line(row)}\n" for row in rows) + f"found: {len(rows)} rows\n":
            raise AssertionError(f"of a sound tree the reference finds {self.defects} and {done!r:.300}")
        return Finds([], done)

    def done(self, low, high):
        """What `find` prints where it is done, none where it may not be."""
        self.listed = {}
        rows = self.reached(self.root, low, high, 1) if low <= high else []
        return None if rows is None else "".join(f"{row}\n" for row in rows) + f"found: {len(rows)} rows\n"

    def reached(self, n, low, high, depth):
        """The lines of the rows that page n leads to, or none where a page, chain or record on the way is not sound."""
        if depth > PATH_LIMIT or not self.parts.in_range(n) or self.pages[n] is None:
            return None
        kind, cells, right = self.pages[n]
        if kind == TABLE_LEAF:
            entries = [entry for rowid, entry in cells if low <= rowid <= high]
            return None if None in entries else list(map(entry_line, entries))
        if (n, depth) not in self.listed:
            found = []
            for child in children_between(cells, right, low, high):
                more = self.reached(child, low, high, depth + 1)
                if more is None or len(found) + len(more) > self.MANY:
                    found = None
                    break
                found += more
            self.listed[n, depth] = found
        return self.listed[n, depth]

    def lines(self, low, high):
        return {entry_line(entry) for page in self.pages.values() if page and page[0] == TABLE_LEAF
                for rowid, entry in page[1] if entry and low <= rowid <= high}
