"""The rows of a damaged file, page by page: what `salvage` prints.

Every whole page by the file's length is looked at by itself. Nothing is asked of the schema, the freelist or the header, so it doesn't
matter what became of them; of page 1 only its first 16 bytes, the salt, are needed.
"""
from sqlcipher_formats import LARGEST_FILE, TABLE_LEAF, KeyRefused, Refused, be, read_record, read_tree_page, value_text


class Pages:
    """The whole pages of a recovered file, each accepted or not, whatever is on them."""

    def __init__(self, main, codec):
        self.main, self.codec, self.size = main, codec, codec.profile.page_size
        self.count = len(main) // self.size
        if self.count * self.size > LARGEST_FILE:
            raise Refused(f"file is too large: {self.count} pages")
        self.accepted = {n for n in range(1, self.count + 1) if codec.tag_holds(n, self.stored(n))}
        self.opened = {}
        if not self.accepted:       # without tags each page is
            raise KeyRefused()

    def stored(self, n):
        return self.main[(n - 1) * self.size:n * self.size]

    def plain(self, n):
        if n not in self.opened:
            self.opened[n] = self.codec.open_page(n, self.stored(n))
        return self.opened[n]

    def payload(self, cell):
        """The whole payload of a cell, or none. What its last page names as the next one is not looked at."""
        each = self.codec.profile.usable - 4
        missing = cell.length - len(cell.local)
        needed = -(-missing // each)
        if needed > self.count:
            return None
        pieces, following = [cell.local], cell.first
        for _ in range(needed):
            if not 2 <= following <= self.count or following not in self.accepted:
                return None
            plain = self.plain(following)
            pieces.append(plain[4:])
            following = be(plain, 0)
        return b"".join(pieces)[:cell.length]

    def lines_of(self, n):
        if n not in self.accepted:
            yield f"page {n}: tag refused"
            return
        if self.plain(n)[100 if n == 1 else 0] != TABLE_LEAF:
            return
        try:
            cells = read_tree_page(self.plain(n), n, (TABLE_LEAF,))[1]
        except Refused as bad_cell:
            yield str(bad_cell)
            return
        for cell in cells:
            payload = self.payload(cell)
            values = None if payload is None else read_record(payload)
            if values is None:
                yield f"lost {n} {cell.rowid}"
            else:
                yield " ".join([f"row {n} {cell.rowid}"] + [value_text(*value) for value in values])


def salvage_lines(main, codec):
    """The lines of `salvage`, the last one with their counts. Main has a page."""
    pages, counts = Pages(main, codec), {"row": 0, "lost": 0, "page": 0}
    for n in range(1, pages.count + 1):
        for line in pages.lines_of(n):
            word = line.split(" ", 1)[0]
            counts[word] += word != "page" or n not in pages.accepted
            yield line
    yield f"salvaged: {counts['row']} rows, {counts['lost']} lost, {counts['page']} refused pages"
