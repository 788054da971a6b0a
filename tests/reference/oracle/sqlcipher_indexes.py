"""Whether each index of a database agrees with its table, by rowids: the lines of `agree`.

What a CREATE INDEX says is read by tokens, as SQLite's own tokenizer makes them: the list is the first pair of parentheses, and the index is
partial where anything but `;` stands behind it. An index is looked at where its list names columns alone, with COLLATE, ASC and DESC.
"""
from sqlcipher_formats import value_text

LETTERS = frozenset(b"abcdefghijklmnopqrstuvwxyzABCDEFGHIJKLMNOPQRSTUVWXYZ0123456789_$") | frozenset(range(128, 256))
CLOSERS = {b"'": b"'", b'"': b'"', b"`": b"`", b"[": b"]"}


def quoted_end(text, at):
    """Where the quoted name or string that begins here ends, or none where it does not. A quote that stands twice is a part of it."""
    opener = text[at:at + 1]
    closer = CLOSERS[opener]
    at = text.find(closer, at + 1)
    while at >= 0 and opener != b"[" and text[at + 1:at + 2] == closer:
        at = text.find(closer, at + 2)
    return None if at < 0 else at + 1


def tokens(text):
    """The tokens of a text up to its first NUL, without blanks and comments; none where a quote is not closed."""
    text, found, at = text.split(b"\0")[0], [], 0
    while at < len(text):
        if text[at:at + 1] in CLOSERS:
            end = quoted_end(text, at)
            if end is None:
                return None
        elif text.startswith(b"--", at):
            at = text.find(b"\n", at)
            if at < 0:
                break
            continue
        elif text.startswith(b"/*", at):
            at = text.find(b"*/", at + 2)
            if at < 0:
                break
            at += 2
            continue
        elif text[at] in b" \t\n\v\f\r":
            at += 1
            continue
        else:
            end = at + 1
            while text[at] in LETTERS and end < len(text) and text[end] in LETTERS:
                end += 1
        found.append(text[at:end])
        at = end
    return found


def is_name(token):
    return token[:1] in CLOSERS or token[0] in LETTERS and not token[:1].isdigit()


def is_column(part):
    """NAME [COLLATE NAME] [ASC or DESC]"""
    if not part or not is_name(part[0]):
        return False
    rest = part[1:]
    if len(rest) > 1 and rest[0].upper() == b"COLLATE" and is_name(rest[1]):
        rest = rest[2:]
    return [it.upper() for it in rest] in ([], [b"ASC"], [b"DESC"])


def lists_columns(text):
    """Whether the text of an index is a list of columns, and the index is not partial."""
    found = tokens(text)
    if found is None or b"(" not in found or b")" not in found:
        return False
    begin, end = found.index(b"("), found.index(b")")
    parts, part = [], []
    for token in found[begin + 1:end]:
        if token == b",":
            parts, part = parts + [part], []
        else:
            part.append(token)
    return all(map(is_column, parts + [part])) and all(token == b";" for token in found[end + 1:])


def why_unchecked(values, tree, tables):
    """Why the index of these columns and this (has it rowids, its entries) is not compared, or none."""
    if tree is None or tree[0]:
        return "no tree of an index"
    table = tables.get(values[2])
    if table is None:
        return "no table"
    if not table[0]:
        return "table without rowids"
    return None if values[4][0] == "null" or values[4][0] == "text" and lists_columns(values[4][1]) else "partial or not read"


def differences(rows, entries):
    """(how many, what, the least rowid or none) of each kind of difference."""
    owned = {row.rowid for row in rows}
    owners = [entry.values[-1][1] if entry.values and entry.values[-1][0] == "int" else None for entry in entries]
    known = [rowid for rowid in owners if rowid in owned]
    missing, strangers = owned - set(known), [rowid for rowid in owners if rowid is not None and rowid not in owned]
    return [
        (len(missing), "rows missing", min(missing, default=None)),
        (len(strangers), "entries of no row", min(strangers, default=None)),
        (owners.count(None), "entries without a rowid", None),
        (len(known) - len(set(known)), "entries beyond one a row", None),
    ]


def agree_lines(db):
    """(lines, status) of `agree`. A defect is raised as a refusal, as `export` does."""
    db.freelist()
    rows, trees = db.census()
    tables = {}
    for (_, values, _), tree in zip(rows, trees):
        if tree and values[0] == ("text", b"table") and values[1][0] == "text":
            tables.setdefault(values[1], tree)
    lines, checked, counted, unchecked, differing = [], 0, 0, 0, 0
    for (_, values, _), tree in zip(rows, trees):
        if values[0] != ("text", b"index"):
            continue
        head = f"index {value_text(*values[1])}: "
        why = why_unchecked(values, tree, tables)
        if why:
            lines.append(f"{head}not checked: {why}")
            unchecked += 1
            continue
        found = [it for it in differences(tables[values[2]][1], tree[1]) if it[0]]
        lines += [f"{head}{count} {what}" + (f", least rowid {least}" if least is not None else "") for count, what, least in found]
        checked, counted, differing = checked + 1, counted + len(tree[1]), differing + bool(found)
    if differing:
        return lines + [f"indexes differ: {differing} of {checked}"], 2
    return lines + [f"ok: {checked} indexes, {counted} entries, {unchecked} not checked"], 0
