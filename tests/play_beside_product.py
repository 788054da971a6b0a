#!/usr/bin/env python3
"""Drives a script twice, on copies of one file: by `play`, and by as many processes of the product as it has sessions, each held open on a
pipe. Where the product answers `database is locked`, `play` has to answer `busy`, where it says that the file is encrypted `key refused`,
and the rows that are read are the same. tests/play.sh calls it.

    play_beside_product.py PROGRAM PRODUCT FOLDER VERSION SEED FIRST COUNT

Each row of the file lies on a page of its own and has a number of one byte, whose page and place the reference tells.

| `play` | the product |
|---|---|
| `open` | a new process, `PRAGMA key` |
| `share`, `read` | `BEGIN`, `SELECT` of that row |
| `share`, `reserve` | `BEGIN IMMEDIATE` |
| `reserve` | an `UPDATE` of no row |
| `change` | `UPDATE` of the row's number |
| `commit`, `release` | `COMMIT`, `ROLLBACK` |
| `share`, `reserve`, `rekey`, `commit` | `PRAGMA rekey`, which is a transaction of its own |
| `stop` | all processes are killed |

The two differ by design, and the scripts keep to what both have:

- An `UPDATE` is not one byte: the product also counts its commits, in bytes 24 to 27 and 92 to 95 of page 1, and puts its version behind
  them, in 96 to 99; `play` never changes these. All other bytes of all plain pages are the same at the end.
- The product commits a transaction without a change beside readers; `play` waits for them. No script commits without a change.
- The product goes on with an `UPDATE` after a commit that was locked; `play` has no change in PENDING. No script changes anything there.
- `PRAGMA rekey` says nothing where it is locked, and leaves its process with keys of which neither serves: whether it was done is looked
  up in the file, and such a process is ended and begun anew. So where readers keep a `rekey` from its commit, what follows is `release`.

Each wrong answer is a line of standard output. The last line is tab-separated `name=count` words for tests/play.sh to add up.
"""
import os
import random
import select
import subprocess
import sys

TOP = os.path.dirname(os.path.dirname(os.path.abspath(__file__)))
sys.path.insert(0, os.path.join(TOP, "tests", "reference", "oracle"))
import check_plays
import session_machine as machine
import sqlcipher_formats as formats
from check_plays import K0, K1, Access, Played, Trial, line_of

SESSIONS, ROWS = 3, 6
LOCKED, REFUSED = "locked", "refused"
WAIT = 60       # seconds for an answer of the product


class Session:
    """A process of the product."""

    def __init__(self, product, path, key):
        self.process = subprocess.Popen([product, "-batch", path], stdin=subprocess.PIPE, stdout=subprocess.PIPE, stderr=subprocess.STDOUT, bufsize=0)
        self.key, self.asked, self.left = key, 0, b""
        self.ask(f'PRAGMA key = "{key.decode()}";')

    def ask(self, sql):
        """What it answers: LOCKED, REFUSED, or what it prints."""
        self.asked += 1
        mark = b"-- %d\n" % self.asked
        self.process.stdin.write(f"{sql}\n.print -- {self.asked}\n".encode())
        while not self.left.endswith(mark):
            if not select.select([self.process.stdout], [], [], WAIT)[0]:
                raise RuntimeError(f"the product says nothing to {sql}")
            more = os.read(self.process.stdout.fileno(), 65536)
            if not more:
                raise RuntimeError(f"the product ended at {sql}: {self.left!r}")
            self.left += more
        said, self.left = self.left[:-len(mark)].decode().strip(), b""
        if "database is locked" in said:
            return LOCKED
        return REFUSED if "file is encrypted" in said else said

    def end(self, kill=False):
        if kill:
            self.process.kill()
        self.process.stdin.close()
        self.process.wait()
        self.process.stdout.close()


class Product:
    """The sessions of the product on one file."""

    def __init__(self, product, path, version):
        self.product, self.path, self.version, self.sessions = product, path, version, {}

    def open(self, number, key):
        if number in self.sessions:
            self.sessions[number].end()
        self.sessions[number] = Session(self.product, self.path, key)

    def ask(self, number, sql):
        return self.sessions[number].ask(sql)

    def begin(self, number, sql):
        """A statement that begins a transaction; where it does not, the process is as before."""
        answer = self.ask(number, sql)
        if answer in (LOCKED, REFUSED):
            self.ask(number, "ROLLBACK;")
        if answer == REFUSED:
            self.open(number, self.sessions[number].key)
        return answer

    def rekey(self, number, key):
        """`PRAGMA rekey`; whether the file has that key then."""
        self.ask(number, f'PRAGMA rekey = "{key.decode()}";')
        main = formats.read_file(self.path)
        profile = formats.PROFILES[self.version]
        if not formats.Codec(profile, key, main[:16]).key_fits(main[:profile.page_size]):
            return LOCKED
        self.sessions[number].key = key
        return ""

    def stop(self):
        for session in self.sessions.values():
            session.end(kill=True)
        self.sessions = {}

    def close(self):
        for session in self.sessions.values():
            session.end()
        self.sessions = {}


class Script:
    """One script at random. An act is a function of the product, with the lines of `play` that stand beside it and what the two have to
    have in common."""

    def __init__(self, rng, version, main, places):
        self.rng, self.version, self.places = rng, version, places
        self.played = Played(version, main)
        self.keys, self.rekeying = {}, set()
        self.right, self.wrong_key = K0, K1     # the file's key, and the other one
        self.lines, self.acts = [], []

    def lock(self, number):
        return self.played.state.sessions[number].lock

    def line(self, number, *step, at=None):
        self.lines.append(line_of(number, step, at))
        return self.played.take(number, step, at)

    def act(self, name, *words):
        """Adds an act, whose lines are those since the last one."""
        begin = self.acts[-1][3] if self.acts else 0
        self.acts.append((name, words, begin, len(self.lines)))

    def share(self, number, row):
        n, at = self.places[row]
        if self.line(number, "share") == machine.DONE:
            self.line(number, "read", n, at=at)
        self.act("share", number, row)

    def take(self, number):
        if self.line(number, "share") == machine.DONE and self.line(number, "reserve") == machine.BUSY:
            self.line(number, "release")
        self.act("take", number)

    def rekey(self, number):
        key = self.wrong_key
        answer = self.line(number, "share")
        if answer == machine.DONE:
            answer = self.line(number, "reserve")
            if answer == machine.BUSY:
                self.line(number, "release")
            else:
                self.line(number, "rekey", Access(self.version, key))
                answer = self.line(number, "commit")
        if answer == machine.DONE:
            self.keys[number], self.right, self.wrong_key = key, key, self.right
        elif self.lock(number) == machine.PENDING:
            self.rekeying.add(number)
        self.act("rekey", number, key)

    def step(self):
        rng, number = self.rng, self.rng.randrange(SESSIONS)
        row, lock, chance = rng.randrange(ROWS), self.lock(number), self.rng.random()
        n, at = self.places[row]
        if rng.random() < 0.01:
            self.line(0, "stop")
            self.rekeying.clear()
            self.act("stop")
        elif lock == machine.CLOSED or lock == machine.UNLOCKED and (chance < 0.05 or self.keys[number] != self.right and chance < 0.5):
            self.keys[number] = self.right if rng.random() < 0.85 else self.wrong_key
            self.line(number, "open", Access(self.version, self.keys[number]))
            self.act("open", number, self.keys[number])
        elif lock == machine.UNLOCKED:
            if chance < 0.7 or self.keys[number] != self.right:
                self.share(number, row)
            elif chance < 0.9:
                self.take(number)
            else:
                self.rekey(number)
        elif chance < 0.25 and number not in self.rekeying:
            self.line(number, "read", n, at=at)
            self.act("read", number, row)
        elif lock == machine.SHARED and chance < 0.65:
            self.line(number, "reserve")
            self.act("reserve", number)
        elif lock == machine.RESERVED and (chance < 0.65 or not self.played.state.sessions[number].changes):
            value = rng.randrange(2, 128)
            self.line(number, "change", n, at, value)
            self.act("change", number, row, value)
        elif lock in machine.WRITING and chance < 0.93 and number not in self.rekeying:
            self.line(number, "commit")
            self.act("commit", number)
        else:
            self.line(number, "release")
            self.act("release", number, number in self.rekeying)
            self.rekeying.discard(number)


def drive(product, act, words):
    """One act by the product: LOCKED, REFUSED, or what it prints."""
    number = words[0] if words else None
    if act == "stop":
        return product.stop()
    if act == "open":
        return product.open(number, words[1])
    if act == "rekey":
        return product.rekey(number, words[1])
    if act == "release" and words[1]:
        return product.open(number, product.sessions[number].key)
    if act == "share":
        return product.begin(number, f"BEGIN; SELECT tag FROM t WHERE id = {words[1] + 1};")
    if act == "take":
        return product.begin(number, "BEGIN IMMEDIATE;")
    return product.ask(number, {
        "read": lambda: f"SELECT tag FROM t WHERE id = {words[1] + 1};",
        "reserve": lambda: "UPDATE t SET tag = tag WHERE 0;",
        "change": lambda: f"UPDATE t SET tag = {words[2]} WHERE id = {words[1] + 1};",
        "commit": lambda: "COMMIT;",
        "release": lambda: "ROLLBACK;",
    }[act]())


def meant(answers):
    """What the answers of `play` to the lines of an act are in the product's words."""
    for answer in answers:
        if answer == machine.BUSY:
            return LOCKED
        if answer == "key refused":
            return REFUSED
        if answer.startswith("byte "):
            return answer[5:]
        if answer != machine.DONE:
            return answer
    return ""


def one_script(trial, rng, product_program, folder, version, name):
    main, places = check_plays.rows_file(version, ROWS)
    script = Script(rng, version, main, places)
    for _ in range(rng.choice((20, 60, 120))):
        script.step()
    check_plays.lay(trial.path, main)
    status, text = trial.run(version, b"\n".join(script.lines))
    answers = text.decode().splitlines()
    trial.counts["scripts"] += 1
    trial.counts["lines"] += len(answers)
    if status != 0 or len(answers) != len(script.lines):
        trial.wrong(f"{name}: ends with {status}, {len(answers)} answers of {len(script.lines)}")
        return
    path = os.path.join(folder, "product.db")
    check_plays.lay(path, main)
    product = Product(product_program, path, version)
    try:
        for act, words, begin, end in script.acts:
            found, wanted = drive(product, act, words) or "", meant(answers[begin:end])
            if found == LOCKED and act == "rekey" and "commit" not in script.lines[end - 1].decode():
                product.open(words[0], product.sessions[words[0]].key)
            if found != wanted:
                trial.wrong(f"{name}: {act} {words}: the product answers {found or 'nothing'}, and play {answers[begin:end]} "
                            f"to {[line.decode() for line in script.lines[begin:end]]}")
                return
            trial.counts["locked"] += found == LOCKED
            trial.counts["refused keys"] += found == REFUSED
            trial.counts["rows read"] += found.isdigit()
            trial.counts["commits"] += act == "commit" and found == ""
            trial.counts["rekeys"] += act == "rekey" and found == ""
            trial.counts["stops"] += act == "stop"
        product.close()
        compare_files(trial, product_program, path, version, script.right, name)
    finally:
        product.stop()


def compare_files(trial, product_program, path, version, key, name):
    """The product reads the same rows of both files and finds both sound, and their pages are the same but for what counts commits."""
    read = []
    for file in (path, trial.path):
        session = Session(product_program, file, key)
        read.append((session.ask("PRAGMA integrity_check;"), session.ask("SELECT tag FROM t ORDER BY id;").split()))
        session.end()
    if read[0] != read[1] or read[0][0] != "ok":
        trial.wrong(f"{name}: at the end the product reads {read[0]} of its file and {read[1]} of that of play")
        return
    pages, access = [], Access(version, key)
    for file in (path, trial.path):
        db = formats.Database(*check_plays.open_main(formats.read_file(file), access))
        pages.append([bytearray(db.page(n)) for n in range(1, db.count + 1)])
        for at in (*range(24, 28), *range(92, 100)):
            pages[-1][0][at] = 0
    if pages[0] != pages[1]:
        differ = [(n, at) for n, (one, other) in enumerate(zip(*pages), 1) for at in range(len(one)) if one[at] != other[at]]
        trial.wrong(f"{name}: at the end {len(differ)} bytes differ, first of page and place {differ[:5]}")


def main(program, product, folder, version, seed, first, count):
    trial = Trial(program, folder)
    for number in range(int(first), int(first) + int(count)):
        name = f"script {number} beside version {version}"
        try:
            one_script(trial, random.Random(f"{seed} {version} {number}"), product, folder, version, name)
        except RuntimeError as error:
            trial.wrong(f"{name}: {error}")
    return trial.end("locked", "rows read", "commits", "rekeys", "refused keys", "stops")


if __name__ == "__main__":
    if len(sys.argv) != 8:
        sys.exit(__doc__)
    sys.exit(main(*sys.argv[1:]))
