#!/usr/bin/env python3
"""Another program comes in between: a run is stopped behind a certain call of the system, something happens to its files, and it goes on.

    tests/company.py [STRIDE [SEED]]

Each kind of trial is made at every STRIDE-th call of each command (12 where it is not given), with SQLite's lock held by the launcher and
without it. With the lock nothing may be lost. Without it nothing may be lost but where an app comes between the look before a write and the
note behind it; how many of those trials lose the file is printed, and it is the figure of the README's limits. PROGRAM names another program.
"""
import fcntl, os, random, re, shutil, signal, subprocess, sys, tempfile, time

TOP = os.path.dirname(os.path.dirname(os.path.abspath(__file__)))
PROGRAM = os.path.abspath(os.environ.get("PROGRAM", os.path.join(TOP, "out", "sqlcipher-tool")))
LAUNCH = os.path.join(TOP, "tools", "launch.sh")
STRIDE = int(sys.argv[1]) if len(sys.argv) > 1 else 12
RANDOM = random.Random(int(sys.argv[2]) if len(sys.argv) > 2 else 7)
OLD, NEW, OTHER = (f"x'{digit * 64}'" for digit in "0af")
NOT_HELD = "SQLite's lock on the file is not held"
CALLS = "pread64,pwrite64,fsync,ftruncate,unlink,rename,link"

wrong, counts = [], {}


def say(*what):
    wrong.append(what)
    print("company:", *what, flush=True)


def count(what):
    counts[what] = counts.get(what, 0) + 1


def product(path, key, text, wait=0, words=()):
    """What the product's shell prints of this SQL on the file."""
    text = f'PRAGMA key = "{key}";\n.timeout {wait}\n{text}\n'
    done = subprocess.run([*words, "sqlcipher", "-batch", path], input=text, capture_output=True, text=True, errors="replace")
    return done.stdout + done.stderr


def start(is_held, *words):
    return ([LAUNCH] if is_held else []) + [PROGRAM, *words]


def given(*keys):
    return "".join(key + "\n" for key in keys).encode()


def run(is_held, path, words, data, **more):
    done = subprocess.run(start(is_held, path, *words), input=data, capture_output=True, timeout=120, **more)
    return done.returncode, done.stdout.decode(), done.stderr.decode("utf-8", "replace")


class Run:
    """A run that is stopped behind the call NAME with this number, where it comes to it."""

    def __init__(self, box, is_held, path, words, data, name, number):
        self.log = os.path.join(box, "calls")
        open(self.log, "w").close()
        with open(os.path.join(box, "given"), "wb") as keys:
            keys.write(data)
        self.out, self.errors = open(os.path.join(box, "out"), "w+"), open(os.path.join(box, "errors"), "w+")
        self.process = subprocess.Popen(
            ["strace", "-f", "-qq", "-y", "-o", self.log, "-e", f"trace={name}", "-e", f"inject={name}:signal=SIGSTOP:when={number}"] + start(is_held, path, *words),
            stdin=open(keys.name), stdout=self.out, stderr=self.errors)
        self.stopped = None
        while self.process.poll() is None and self.stopped is None:
            found = re.search(r"^(\d+) +--- stopped by SIGSTOP", open(self.log).read(), re.M)
            self.stopped = int(found[1]) if found else None
            time.sleep(0.005)

    def is_within(self, path):
        """Whether it was stopped between the look before a write to FILE and the note behind it: behind the write, or behind the read of what
        the write goes over, which there is while a journal stands. (How often the table of locks is read is another number in each run.)"""
        lines = [line for line in open(self.log, errors="replace") if "(" in line]
        if self.stopped is None or not lines or f"<{path}>" not in lines[-1]:
            return False
        return re.search(r" (pwrite64|ftruncate)\(", lines[-1]) is not None or " pread64(" in lines[-1] and os.path.exists(path + "-journal")

    def go_on(self):
        if self.stopped is not None:
            os.kill(self.stopped, signal.SIGCONT)
        status = self.process.wait(120)
        self.out.seek(0), self.errors.seek(0)
        return status, self.out.read(), self.errors.read()


def calls_of(box, is_held, base, words, data):
    """The calls of a run, its launcher among it, each as (name, its number among those of its name, its text)."""
    path, log = os.path.join(box, "f.db"), os.path.join(box, "calls")
    put(box, base)
    with open(os.path.join(box, "given"), "wb") as keys:
        keys.write(data)
    subprocess.run(["strace", "-f", "-qq", "-y", "-o", log, "-e", f"trace={CALLS}", *start(is_held, path, *words)], stdin=open(keys.name), capture_output=True)
    seen, calls = {}, []
    for line in open(log, errors="replace"):
        found = re.match(r"(\d+) +(\w+)\((.*)", line)
        if found:
            # (strace numbers the calls of each process, and the launcher starts others before it becomes the program)
            seen[found[1], found[2]] = seen.get((found[1], found[2]), 0) + 1
            calls.append((found[2], seen[found[1], found[2]], found[3]))
    return calls


def put(box, base):
    """FILE is the base, and nothing is beside it."""
    for end in ("", "-journal", "-migrated", "-wal", "-shm"):
        if os.path.lexists(os.path.join(box, "f.db" + end)):
            os.remove(os.path.join(box, "f.db" + end))
    if base:
        shutil.copy(base, os.path.join(box, "f.db"))


def is_whole(path, rows):
    """Whether one of the keys opens the file, as the product settles it, sound and with all rows; by `recover` and by the product alone."""
    for by_tool in (True, False):
        copy = path + ".copy"
        for end in ("", "-journal"):
            if os.path.exists(copy + end):
                os.remove(copy + end)
            if os.path.exists(path + end):
                shutil.copy(path + end, copy + end)
        if by_tool:
            run(False, copy, ["recover", "3"], b"")
        found = [product(copy, key, "PRAGMA integrity_check; SELECT count(*) FROM t; SELECT count(*) FROM app;").split() for key in (OLD, NEW)]
        if not any(len(each) == 3 and each[:2] == ["ok", "40"] and int(each[2]) >= rows for each in found):
            return False
    return True


def places(calls, path, stride):
    """Every so many of the calls on FILE, on what is beside it and on its folder, and the last five."""
    chosen = [call for call in calls if os.path.dirname(path) in call[2]]
    picked = chosen[RANDOM.randrange(stride)::stride]
    return picked + [call for call in chosen[-5:] if call not in picked]


DIES = "PRAGMA cache_size = 5; BEGIN; UPDATE t SET b = randomblob(299); COMMIT;"


def app_dies(path):
    """An app begins a transaction that spills, and is killed at one of its syncs."""
    inject = f"inject=fdatasync,fsync:error=EIO:signal=SIGKILL:when={RANDOM.choice((1, 2, 3))}"
    return product(path, OLD, DIES, words=["strace", "-f", "-q", "-o", os.devnull, "-e", "trace=fdatasync,fsync", "-e", inject])


def dies(box, base, name, words, data, stride):
    """What an app that dies leaves is not played over the new pages, nor into the new file."""
    path = os.path.join(box, "f.db")
    for is_held in (True, False):
        calls = calls_of(box, is_held, base, words, data)
        for call in places(calls, path, stride):
            put(box, base)
            stopped = Run(box, is_held, path, words, data, call[0], call[1])
            if stopped.stopped is None:
                count("not stopped")
                stopped.go_on()
                continue
            said, is_within = app_dies(path), stopped.is_within(path)
            status, _, errors = stopped.go_on()
            kind = f"dies, {name}, {'held' if is_held else 'not held'}, {'between look and write' if is_within else 'elsewhere'}"
            count(kind)
            # (behind the rename of `migrate` the file is under the new key)
            if is_held and "locked" not in said and not (name == "migrate" and "encrypted" in said):
                say(kind, call, "the app was not kept out:", said.strip()[-80:])
            if not is_whole(path, 0):
                count(kind + ": lost")
                if is_held or not is_within:
                    say("LOST", kind, call, f"status {status}", errors.strip()[-120:])


def replaced(box, base, other, name, words, data):
    """Another file takes the name: it is never changed by the run, nor by the next opening."""
    path = os.path.join(box, "f.db")
    for is_held in (True, False):
        calls = calls_of(box, is_held, base, words, data)
        for call in places(calls, path, STRIDE):
            put(box, base)
            stopped = Run(box, is_held, path, words, data, call[0], call[1])
            shutil.copy(other, path + ".new")
            os.rename(path + ".new", path)
            status, _, errors = stopped.go_on()
            kind = f"replaced, {name}, {'held' if is_held else 'not held'}"
            count(kind)
            said = product(path, OTHER, "SELECT a FROM o;")
            if "precious" not in said:
                say("LOST", kind, call, f"status {status}", errors.strip()[-120:])


def cut(box, base):
    """FILE is cut within its last sync: that is said."""
    path, words, data = os.path.join(box, "f.db"), ["rekey", "3", "3"], given(OLD, NEW)
    for is_held in (True, False):
        syncs = [call for call in calls_of(box, is_held, base, words, data) if call[0] == "fsync" and f"<{path}>" in call[2]]
        put(box, base)
        stopped = Run(box, is_held, path, words, data, "fsync", syncs[-1][1])
        os.truncate(path, os.path.getsize(path) // 2)
        status, _, errors = stopped.go_on()
        count("cut")
        if status != 4 or "another program wrote to the file" not in errors:
            say("cut within the last sync: status", status, errors)


def make_meets_a_file(box):
    """A file that came between the look of `make` and its last step stays."""
    path, words, data = os.path.join(box, "f.db"), ["make", "3", "20"], given(OLD)
    for call in calls_of(box, False, None, words, data)[-6:]:
        put(box, None)
        stopped = Run(box, False, path, words, data, call[0], call[1])
        is_made = os.path.exists(path)
        if not is_made:
            open(path, "w").write("precious")
        status, out, errors = stopped.go_on()
        count("a file before make")
        if not is_made and (open(path, "rb").read() != b"precious" or status != 4 or out):
            say("make over a file: LOST", call, status, out, errors)
        if os.path.exists(path + "-migrated"):
            say("make over a file:", call, "a new file is left")
    # Its link is a second name for a moment. What a stop there leaves is settled by the next command that wants the name.
    put(box, None)
    subprocess.run(["strace", "-f", "-qq", "-o", os.devnull, "-e", "trace=unlink", "-e", "inject=unlink:error=EIO:signal=KILL:when=1", *start(False, path, *words)], input=data, capture_output=True)
    if not os.path.samefile(path, path + "-migrated"):
        say("make: a stop before its last step left other names")
    for is_held, what in ((False, ["verify", "3"]), (True, ["migrate", "3", "3"])):
        status, out, errors = run(is_held, path, what, given(OLD, OLD))
        if status or os.path.exists(path + "-migrated") and what[0] == "migrate":
            say("make: beside a second name", what, status, errors)
    count("a stop of make between two names")


def reports(box, base):
    """A report is of one state: without the lock it ends with 4 where an app commits meanwhile, and then has no last line. With it the app waits."""
    path = os.path.join(box, "f.db")
    act = "BEGIN; UPDATE t SET b = 'later'; DELETE FROM t WHERE id > 30; COMMIT;"
    for words in (["export", "3"], ["find", "3", "t", "1", "40"], ["verify", "3"], ["salvage", "3"]):
        put(box, base)
        before = run(False, path, words, given(OLD))[1]
        product(path, OLD, act)
        states = before, run(False, path, words, given(OLD))[1]
        for is_held in (True, False):
            reads = [call for call in calls_of(box, is_held, base, words, given(OLD)) if call[0] == "pread64" and f"<{path}>" in call[2]]
            for call in reads[RANDOM.randrange(STRIDE)::STRIDE] + reads[-1:]:
                put(box, base)
                stopped = Run(box, is_held, path, words, given(OLD), call[0], call[1])
                said = product(path, OLD, act) if stopped.stopped else ""
                status, out, errors = stopped.go_on()
                kind = f"report, {words[0]}, {'held' if is_held else 'not held'}"
                count(kind)
                if is_held and (status != 0 or out != before or "locked" not in said):
                    say(kind, call, "status", status, errors, said)
                if not is_held and not (status == 0 and out in states) and not (status == 4 and not out.endswith("end\n") and "found:" not in out and "another program" in errors):
                    say(kind, call, "status", status, errors, out[-80:])
                if "Error" in product(path, OLD, "PRAGMA integrity_check;"):
                    say(kind, call, "the app's file is not sound")


def waits(box, base):
    """An app that waits with a busy timeout comes in behind the run, and what it commits is there."""
    path = os.path.join(box, "f.db")
    for words, data in ((["stamp", "3", "user-version", "9"], given(OLD)), (["verify", "3"], given(OLD)), (["rekey", "3", "3"], given(OLD, OLD))):
        reads = [call for call in calls_of(box, True, base, words, data) if call[0] == "pread64" and f"<{path}>" in call[2]]
        put(box, base)
        stopped = Run(box, True, path, words, data, *reads[0][:2])
        app = subprocess.Popen(["sqlcipher", "-batch", path], stdin=subprocess.PIPE, stdout=subprocess.PIPE, stderr=subprocess.STDOUT, text=True)
        app.stdin.write(f'PRAGMA key = "{OLD}";\n.timeout 60000\nINSERT INTO app VALUES(5);\nSELECT count(*) FROM app;\n')
        app.stdin.close()
        time.sleep(0.3)
        if app.poll() is not None:
            say("waits", words, "the app did not wait:", app.stdout.read())
        status, _, errors = stopped.go_on()
        said = app.stdout.read()
        app.wait()
        count("an app waits")
        if status or said.split() != ["1"] or not is_whole(path, 1):
            say("waits", words, "status", status, errors, "the app:", said)


def held_whole(box, base):
    """The lock is taken before the program starts, and nothing gives it back before its end; the program sees it, and takes no look at the table."""
    path = os.path.join(box, "f.db")
    script = f"open 0 3 {OLD}\nshare 0\nreserve 0\nrekey 0 3 {NEW}\ncommit 0\n".encode()
    for words, data in ((["verify", "3"], given(OLD)), (["export", "3"], given(OLD)), (["recover", "3"], b""), (["stamp", "3", "user-version", "9"], given(OLD)),
                        (["rekey", "3", "3"], given(OLD, NEW)), (["migrate", "3", "3"], given(OLD, NEW)), (["play", "3"], script)):
        put(box, base)
        log = os.path.join(box, "calls")
        done = subprocess.run(["strace", "-f", "-qq", "-o", log, "-e", "trace=fcntl,close,dup2,dup3,execve,openat", *start(True, path, *words)], input=data, capture_output=True)
        lines = open(log, errors="replace").read().splitlines()
        began = max(number for number, line in enumerate(lines) if f'execve("{PROGRAM}"' in line)
        taken = [re.search(r"fcntl\((\d+), F_OFD_SETLK, \{l_type=F_(RD|WR)LCK.*l_start=(\d+), l_len=(\d+)\}\) = 0", line) for line in lines[:began]]
        taken = [found for found in taken if found][-1]
        first, length = (1 << 30, 512) if taken[2] == "WR" else ((1 << 30) + 2, 510)
        kind = "WR" if words[0] not in ("verify", "export") else "RD"
        if (taken[2], int(taken[3]), int(taken[4])) != (kind, first, length):
            say("held", words, "it is not the lock of this command:", taken[0])
        given_back = [line for line in lines[began:] if "F_UNLCK" in line or re.search(rf"(close|dup2|dup3)\((\d+, )?{taken[1]}[,)]", line)]
        if done.returncode or given_back or any("/proc/locks" in line for line in lines[began:]) or NOT_HELD in done.stderr.decode():
            say("held", words, done.returncode, given_back, done.stderr.decode())
        count("held from start to end")


def not_believed(box, base):
    """Only what the system shows is believed, and what is not held is said once."""
    path = os.path.join(box, "f.db")
    put(box, base)
    opened = os.open(path, os.O_RDWR)
    os.set_inheritable(opened, True)
    for word in ("", "0", "9999", "x", "-1", str(opened)):
        status, _, errors = run(False, path, ["verify", "3"], given(OLD), env=dict(os.environ, SQLCIPHER_TOOL_LOCK=word), close_fds=False)
        count("a lock that is not there")
        if status or errors.count(NOT_HELD) != 1:
            say("not believed:", repr(word), status, errors)
    os.close(opened)
    for words, data, wanted in ((["verify", "3"], given(OLD), 1), (["rekey", "3", "3"], given(OLD, OLD), 1), (["probe"], given(OLD), 0), (["tags", "5"], b"", 0)):
        for is_held in (False, True):
            errors = run(is_held, path, words, data)[2]
            count("what is said")
            if errors.count(NOT_HELD) != (0 if is_held else wanted):
                say("said", words, is_held, errors)
    # Without perl the program starts all the same.
    bare = os.path.join(box, "bin")
    os.makedirs(bare, exist_ok=True)
    for name in ("sh", "dirname"):
        if not os.path.exists(os.path.join(bare, name)):
            os.symlink(shutil.which(name), os.path.join(bare, name))
    status, _, errors = run(True, path, ["verify", "3"], given(OLD), env=dict(os.environ, PATH=bare))
    if status or errors.count(NOT_HELD) != 1:
        say("without perl:", status, errors)
    # Another file has the name before the program opens it.
    put(box, base)
    log = os.path.join(box, "calls")
    stopped = Run(box, True, path, ["rekey", "3", "3"], given(OLD, NEW), "fcntl", 12)
    os.rename(shutil.copy(base, path + ".new"), path)
    status, out, errors = stopped.go_on()
    count("replaced before it is opened")
    if stopped.stopped and (status, out) != (4, "") and "rekeyed" not in out:
        say("replaced before it is opened:", status, out, errors)


def waited_for(box, base):
    """Others have the lock: the launcher waits for two seconds, then the program says who, with status 4; killed meanwhile it leaves nothing."""
    path = os.path.join(box, "f.db")
    put(box, base)
    before = open(path, "rb").read()
    for act, words, wanted in (("BEGIN IMMEDIATE;", ["rekey", "3", "3"], 4), ("BEGIN; SELECT count(*) FROM t;", ["stamp", "3", "user-version", "9"], 4),
                               ("BEGIN EXCLUSIVE;", ["verify", "3"], 4), ("BEGIN; SELECT count(*) FROM t;", ["verify", "3"], 0), ("BEGIN IMMEDIATE;", ["verify", "3"], 0)):
        app = subprocess.Popen(["sqlcipher", "-batch", path], stdin=subprocess.PIPE, stdout=subprocess.PIPE, stderr=subprocess.STDOUT, text=True)
        app.stdin.write(f'PRAGMA key = "{OLD}";\n{act}\n.print begun\n')
        app.stdin.flush()
        while "begun" not in app.stdout.readline():
            pass
        began = time.time()
        status, out, errors = run(True, path, words, given(OLD, NEW))
        took = time.time() - began
        count("beside an app that holds a lock")
        if status != wanted or wanted == 4 and (out or f"another program has the file open (process {app.pid})" not in errors or took < 1.9):
            say("beside an app:", act, words, status, errors, f"{took:.1f} s")
        waiting = subprocess.Popen(start(True, path, *words), stdin=subprocess.DEVNULL, stdout=subprocess.DEVNULL, stderr=subprocess.DEVNULL)
        time.sleep(0.4)
        waiting.kill()
        waiting.wait()
        app.stdin.write("ROLLBACK;\n")
        app.stdin.close()
        app.wait()
        if open(path, "rb").read() != before or os.path.exists(path + "-journal"):
            say("beside an app:", act, words, "the file was changed")
    if "locked" in product(path, OLD, "BEGIN EXCLUSIVE; ROLLBACK;"):
        say("a launcher that was killed still has the lock")
    # Two runs at once: one waits for the other.
    stopped = Run(box, True, path, ["rekey", "3", "3"], given(OLD, OLD), "fsync", 3)
    status, out, errors = run(True, path, ["stamp", "3", "user-version", "9"], given(OLD))
    if status != 4 or out or "another" not in errors:
        say("two runs: the second ended with", status, errors)
    if stopped.go_on()[0] or run(True, path, ["stamp", "3", "user-version", "9"], given(OLD))[0] or not is_whole(path, 0):
        say("two runs: the first is not done")
    count("two runs")
    # An app in WAL mode is connected: its pages are in the log.
    put(box, base)
    app = subprocess.Popen(["sqlcipher", "-batch", path], stdin=subprocess.PIPE, stdout=subprocess.PIPE, stderr=subprocess.STDOUT, text=True)
    app.stdin.write(f'PRAGMA key = "{OLD}";\nPRAGMA journal_mode = wal;\nINSERT INTO app VALUES(1);\n.print begun\n')
    app.stdin.flush()
    while "begun" not in app.stdout.readline():
        pass
    before = open(path, "rb").read()
    for words in (["verify", "3"], ["recover", "3"], ["rekey", "3", "3"]):
        status, out, errors = run(True, path, words, given(OLD, NEW))
        count("beside an app in WAL mode")
        if status != 4 or out or open(path, "rb").read() != before:
            say("WAL:", words, status, out, errors)
    app.stdin.write("INSERT INTO app VALUES(2);\nPRAGMA journal_mode = delete;\n")
    app.stdin.close()
    app.wait()
    if not is_whole(path, 2):
        say("WAL: the app's rows are not there")


def starts(box, base):
    """What the lock costs at a start."""
    path = os.path.join(box, "f.db")
    put(box, base)
    took = []
    for is_held in (False, True):
        began = time.time()
        for _ in range(20):
            subprocess.run(([LAUNCH] if is_held else []) + ["/bin/true", path, "verify"])
        took.append((time.time() - began) / 20 * 1000)
    return f"{took[1] - took[0]:.0f} ms a start"


def shows_locks(path):
    """Whether the system's table shows a lock that is taken here; it may be empty while nobody has one."""
    with open(path, "w") as locked, open("/proc/locks") as locks:
        fcntl.lockf(locked, fcntl.LOCK_EX)
        return bool(locks.read())


def main():
    for name in ("sqlcipher", "strace", "perl"):
        if not shutil.which(name):
            print(f"left out: all of it, since {name} is missing")
            return 77
    box = tempfile.mkdtemp()
    try:
        if not shows_locks(os.path.join(box, "locked")):
            print("left out: all of it, since /proc/locks has nothing")
            return 77
        base, other = os.path.join(box, "base.db"), os.path.join(box, "other.db")
        product(base, OLD, "CREATE TABLE t(id INTEGER PRIMARY KEY, b BLOB); CREATE TABLE app(x); "
                "WITH RECURSIVE n(i) AS (SELECT 1 UNION ALL SELECT i + 1 FROM n WHERE i < 40) INSERT INTO t SELECT i, randomblob(300) FROM n;")
        product(other, OTHER, "CREATE TABLE o(a); INSERT INTO o VALUES('precious');")
        rekeys = f"open 0 3 {OLD}\nshare 0\nreserve 0\nrekey 0 3 {NEW}\ncommit 0\nshare 0\nreserve 0\nrekey 0 3 {OLD}\ncommit 0\n".encode()
        held_whole(box, base)
        not_believed(box, base)
        waited_for(box, base)
        waits(box, base)
        cut(box, base)
        make_meets_a_file(box)
        reports(box, base)
        replaced(box, base, other, "rekey", ["rekey", "3", "3"], given(OLD, NEW))
        replaced(box, base, other, "stamp", ["stamp", "3", "user-version", "9"], given(OLD))
        dies(box, base, "rekey", ["rekey", "3", "3"], given(OLD, NEW), STRIDE)
        dies(box, base, "migrate", ["migrate", "3", "3"], given(OLD, NEW), STRIDE)
        dies(box, base, "play", ["play", "3"], rekeys, 3 * STRIDE)
        cost = starts(box, base)
    finally:
        shutil.rmtree(box)
    for what, times in sorted(counts.items()):
        print(f"company: {what}: {times}")
    lost = sum(times for what, times in counts.items() if what.endswith("between look and write: lost"))
    made = sum(times for what, times in counts.items() if "not held" in what and what.endswith("between look and write"))
    print(f"company: the lock costs {cost}")
    print(f"company: {sum(times for what, times in counts.items() if not what.endswith('lost'))} trials, {len(wrong)} wrong; "
          f"between a look and a write, without the lock, {lost} of {made} lost")
    return 1 if wrong else 0


if __name__ == "__main__":
    sys.exit(main())
