#!/usr/bin/env bash
# Every name that the documents give in backquotes is there: each file and folder, each clause at a function of its name, each function,
# law and definition as a word of the sources, and each crate in the map and the tables; each command of the help wherever commands are
# listed; and each line that an edit quotes stands in its file once. Each law in proofs/ is named by a proof, a function or a document. It
# proves nothing and runs no program.
#
#     tests/documents.sh
#
# A name in docs/PROOFS.md is looked for in the crate of its section first. Needs Python.
set -u
top=$(cd "$(dirname "$0")/.." && pwd) || exit 1
command -v python3 > /dev/null || { echo "left out: names in the documents, since python3 is missing"; exit 77; }
cd "$top" && exec python3 - <<'PYTHON'
import collections
import glob
import os
import re
import sys

DOCUMENTS = ["README.md", "CONTRIBUTING.md", "bench/README.md", "crates/README.md", "tests/reference/README.md"] + sorted(glob.glob("docs/*.md"))
# Words in backquotes that name no thing of this repository: other programs and their settings, words of the formats, of traces and of tools.
ELSEWHERE = set("""
    strace sqlite3 cryptography hashlib cat ulimit flock inf rt sqlite sha1 sha2 hex itoa lru thiserror LruCache Drop executemany
    sqlcipher_export sqlcipher4 cipher_page_size kdf_iter cipher_hmac_algorithm cipher_kdf_algorithm cipher_use_hmac cipher_plaintext_header_size cipher_hmac_pgno hexkey
    hashlib.pbkdf2_hmac journal_size_limit FILE P N KEY
""".split())
wrong = []
looked = 0


def read(path):
    with open(path, encoding="utf-8") as file:
        return file.read()


def blocks(text):
    """The text without fenced blocks, with line numbers kept."""
    return re.sub(r"^```.*?^```", lambda found: "\n" * found.group().count("\n"), text, flags=re.M | re.S)


def clauses_of(path):
    """The clauses of each function of a source file: name -> names of its clauses."""
    found = collections.defaultdict(set)
    function = None
    for line in read(path).split("\n"):
        head = re.match(r"\s*(?:pub(?:\(\w+\))? )?(?:ghost )?(?:const )?fn (\w+)", line)
        if head:
            function = head.group(1)
            found[function] |= set()
        elif function:
            clause = re.match(r"\s*(?:ensures\*?|requires) (\w+) \{", line)
            if clause:
                found[function].add(clause.group(1))
    return found


def fields_of(path):
    """The fields of each record of a definition file."""
    found = collections.defaultdict(set)
    record = None
    for line in read(path).split("\n"):
        head = re.match(r"(?:pub )?record (?:pub )?(\w+)", line)
        if head:
            record = head.group(1)
        elif re.match(r"\S", line):
            record = None
        elif record:
            field = re.match(r"\s+(?:pub )?(\w+) :", line)
            if field:
                found[record].add(field.group(1))
    return found


crates = {}
for line in read("crates.txt").split("\n"):
    named = re.match(r"(\w+)[^:#]*:", line)
    if named:
        crates[named.group(1)] = f"crates/{named.group(1)}"

clauses = collections.defaultdict(lambda: collections.defaultdict(set))     # crate -> function -> clauses
words = collections.defaultdict(set)                                       # crate -> words of its sources
everywhere = set()
files = []
for folder, below, names in os.walk("."):
    below[:] = [name for name in below if name not in (".git", "out")]
    files += [os.path.join(folder, name)[2:] for name in names]
for path in files:
    if path.startswith(("docs/", "README", "CHANGELOG", "CONTRIBUTING")) or path.endswith((".md", ".db")):
        continue
    try:
        text = read(path)
    except UnicodeDecodeError:
        continue
    here = set(re.findall(r"\w+", text))
    everywhere |= here
    parts = path.split("/")
    if parts[0] == "crates" and len(parts) > 2:
        words[parts[1]] |= here | {os.path.splitext(parts[-1])[0]}
        everywhere.add(os.path.splitext(parts[-1])[0])
        table = clauses_of(path) if path.endswith(".rt") else fields_of(path) if path.endswith(".antt") else {}
        for function, names in table.items():
            clauses[parts[1]][function] |= names
            clauses[""][function] |= names
folders = {os.path.dirname(path) for path in files}
folders |= {"/".join(folder.split("/")[:n]) for folder in list(folders) for n in range(1, folder.count("/") + 1)}


def is_path(name):
    return not name.startswith("./--") and re.fullmatch(r"\.{0,2}[\w./*-]+", name) and (
        re.search(r"\.(rt|antt|sh|py|md|tsv|txt|1|edit)$", name) or name.endswith("/") or name.startswith(("./", "crates/", "tests/", "docs/", "tools/", "bench/")))


def has_file(name, crate):
    name = name.removeprefix("./").rstrip("/")
    if "*" in name:
        return bool(glob.glob(name))
    if name.startswith("out/") or name == "out":        # what a build leaves
        return True
    if crate and name.split("/")[0] in ("src", "specs", "proofs", "must-fail", "edits"):
        return os.path.exists(f"crates/{crate}/{name}")
    return any(path == name or path.endswith("/" + name) for path in files) or any(path == name or path.endswith("/" + name) for path in folders)


def check_clause(parts, crate):
    """`function: clause, clause`, also `Type::function: clause` and `Type: function: clause`; gives what is not there."""
    *owners, listed = parts
    function = owners[-1].split("::")[-1]
    names = [name.strip() for name in listed.split(",")]
    for place in ([crate] if crate else []) + [""]:
        table = clauses[place]
        if function in table:
            return [f"{function}: {name}" for name in names if name not in table[function]]
    return [f"no function {function}"]


def check(name, crate, strict):
    if is_path(name):
        return [] if has_file(name, crate) else [f"no file {name}"]
    parts = name.split(": ")
    if len(parts) > 1 and all(re.fullmatch(r"[A-Za-z_]\w*(::\w+)*", part) for part in parts[:-1]) and re.fullmatch(r"[a-z_]\w*(, [a-z_]\w*)*", parts[-1]):
        if parts[0] in PRINTED or name == "function: clause":
            return []
        return check_clause(parts, crate)
    if re.fullmatch(r"[A-Za-z_]\w*(, [A-Za-z_]\w*)*", name) or re.fullmatch(r"[A-Za-z_]\w*((::|\.)\w+)+", name):
        missing = []
        for word in re.findall(r"\w+", name):
            # A list of clauses, and a name in the row of a crate, has to stand in the crate itself.
            known = words[crate] if crate and (strict or "," in name) else everywhere
            if word not in known and word not in ELSEWHERE and word not in crates and name not in ELSEWHERE:
                missing.append(f"no word {word}" + (f" in {crate}" if known is not everywhere else ""))
        return missing
    return []


PRINTED = {"page", "ok", "played", "made", "rekeyed", "migrated", "stamped"}       # first words of printed lines, as `page 2: page twice`

for document in DOCUMENTS:
    if not os.path.exists(document):
        wrong.append(f"{document} is not there")
        continue
    crate = ""
    text = blocks(read(document))
    for number, line in enumerate(text.split("\n"), 1):
        heading = re.match(r"#+ (.*)", line)
        if heading:
            crate = heading.group(1) if document.endswith("PROOFS.md") and heading.group(1) in crates else ""
        for name in re.findall(r"(?<!`)`([^`]+)`(?!`)", line):
            looked += 1
            # In a table a row of a crate names its clauses in its last column.
            row = re.match(r"\| `?(\w+)`?", line)
            strict = bool(row) and row.group(1) in crates and document == "docs/PROOFS.md"
            own = row.group(1) if strict else crate
            wrong += [f"{document}:{number}: {what}" for what in check(name, own, strict)]
    for target in re.findall(r"\]\(([^)#:]+)(?:#[^)]*)?\)", text):
        looked += 1
        if not os.path.exists(os.path.join(os.path.dirname(document), target)):
            wrong.append(f"{document}: a link to {target}, which is not there")

# Each crate has its row in docs/PROOFS.md, in the map and in crates/README.md, and its section or its place in docs/PROOFS.md.
for document, test in (("docs/PROOFS.md", r"`{}`"), ("docs/ARCHITECTURE.md", r"`{}`"), ("crates/README.md", r"`{}`")):
    text = read(document) if os.path.exists(document) else ""
    wrong += [f"{document}: the crate {name} is not in it" for name in crates if not re.search(test.format(name), text)]
if os.path.exists("docs/PROOFS.md"):
    headings = set(re.findall(r"^### (\w+)$", read("docs/PROOFS.md"), flags=re.M))
    wrong += [f"docs/PROOFS.md: no section on {name}" for name in crates if name not in headings and not name.endswith(("bench_loops", "command_runs", "_tests"))]

# Each command of the help has its row in the README, its paragraph in the manual page, what is said of its words, its completion, its place in the
# script that asks for keys, and its row for the scripts of tests/; and none of these has a command that the help does not have.
def commands_of_help():
    listed = re.search(r"^commands$(.*?)^$", read("crates/sqlcipher_cli/src/help.rt"), flags=re.M | re.S)
    return set(re.findall(r"^  ([a-z]+)\b", listed.group(1), flags=re.M))


COMMANDS_IN = {
    "README.md": r"^\| `FILE ([a-z]+)\b",
    "docs/sqlcipher-tool.1": r"^\.(?:TP|TQ)\n\.BI? \"?([a-z]+)\b",
    "crates/sqlcipher_cli/src/commands.rt": r"^ +\"([a-z]+)\" =>",
    "tools/sqlcipher-tool.bash-completion": r"(?<=compgen -W ')([a-z ]+) --help(?=')",
    "tools/sqlcipher-tool-ask": r"^        ([a-z |]+)\) (?:\[ |false)",
    "tests/commands.tsv": r"^([a-z]+)\t(?!words)",
    "tools/hold_lock.pl": r"qw\(([a-z ]+)\)",
}
LEFT_OUT = {"tools/hold_lock.pl": {"probe", "make"}}      # these are run without a lock
helped = commands_of_help()
for place, form in COMMANDS_IN.items():
    found = set(re.findall(r"[a-z]+", " ".join(re.findall(form, read(place), flags=re.M))))
    looked += len(found)
    wrong += [f"{place}: the command {name} of the help is not in it" for name in sorted(helped - found - LEFT_OUT.get(place, set()))]
    wrong += [f"{place}: {name} is no command of the help" for name in sorted(found - helped)]


def quotes(path):
    """What an edit quotes that does not stand once in the file that it names, as the pairs before it leave it."""
    file, old, texts, missing, pairs = None, None, {}, [], 0
    for line in read(path).split("\n"):
        if line.startswith("file: "):
            file = os.path.join(os.path.dirname(os.path.dirname(path)), line[6:].strip())
        elif line.startswith("old: "):
            old = line[5:]
        elif line.startswith("new:") and file and old:
            if file not in texts:
                texts[file] = read(file) if os.path.isfile(file) else ""
            if texts[file].count(old) != 1:
                missing.append(f"{path}: {old.strip()} stands {texts[file].count(old)} times in {file}")
            texts[file] = texts[file].replace(old, line[4:].removeprefix(" "))
            old, pairs = None, pairs + 1
    return missing if pairs else [f"{path} changes nothing"]


for path in sorted(glob.glob("crates/*/must-fail/*") + glob.glob("crates/*/edits/*")):
    looked += 1
    wrong += quotes(path)
    named = path.split("/")[1]
    if named not in crates or not path.endswith(".edit") or os.path.isdir(f"crates/{named}/must-fail") and os.path.isdir(f"crates/{named}/edits"):
        wrong.append(f"{path}: an edit is a file NAME.edit in must-fail/ or edits/ of a crate, which has one of them")


def laws(path):
    """The laws of a file of proofs: a name with its statement, and below it what it is."""
    lines = read(path).split("\n")
    for at, line in enumerate(lines):
        head = re.match(r"(?:  )?(?:abbrev |opaque )?(?:pub )?([a-z][^\s:(){}]*) :(?: |$)", line)
        if head and any(re.match(rf"(?:  )?{re.escape(head.group(1))}(?=[\s{{]).*=", later) for later in lines[at + 1 : at + 30]):
            yield head.group(1)


# A worked example is there to be read. What answers the prover's own questions has the names that it asks for.
ANSWERS = ("Answers.antt", "Invariants.antt", "Proof.antt", "Uses.antt")
proofs = [path for path in glob.glob("crates/*/proofs/**/*.antt", recursive=True) if not path.endswith(ANSWERS)]
sources = glob.glob("crates/*/*/**/*.antt", recursive=True) + glob.glob("crates/*/src/**/*.rt", recursive=True) + DOCUMENTS
named = collections.Counter(word for path in sources for word in re.findall(r"[^\s(){},;\[\]λ.`:\"]+", re.sub(r"--.*", "", read(path))))
lawful, idle = 0, []
for path in proofs:
    for law in laws(path):
        lawful += 1
        if named[law] <= 2 and not path.endswith(("Examples.antt", "Vectors.antt")):
            idle.append(f"{path}: nothing names {law}")

for line in wrong + idle:
    print("documents: " + line)
print(f"documents: {lawful} laws, {len(idle)} that nothing names")
print(f"documents: {looked} names, {len(wrong)} that are not there")
wrong += idle
sys.exit(1 if wrong else 0)
PYTHON
