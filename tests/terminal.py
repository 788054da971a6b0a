#!/usr/bin/env python3
"""What one is asked at a terminal, on a pseudo-terminal: which key the program awaits, and how tools/sqlcipher-tool-ask takes keys, of which it
shows no byte, a new one twice. Each row has the words, what is typed behind which words on the terminal, and how it ends. Then tools/install.sh:
what it installs runs from there, and nothing is asked where standard input is no terminal.

    tests/terminal.py

PROGRAM names another program than the one that is built here.
"""
import os
import pty
import select
import subprocess
import sys
import tempfile
import time

TOP = os.path.dirname(os.path.dirname(os.path.abspath(__file__)))
PROGRAM = os.path.abspath(os.environ.get("PROGRAM") or subprocess.check_output([os.path.join(TOP, "tools", "program.sh")], text=True).strip())
LIMIT = 60      # seconds that a run may take
OLD = "x'000102030405060708090a0b0c0d0e0f101112131415161718191a1b1c1d1e1f'"
NEW = "x'ffffffffffffffffffffffffffffffffffffffffffffffffffffffffffffffff'"
OTHER = "x'eeeeeeeeeeeeeeeeeeeeeeeeeeeeeeeeeeeeeeeeeeeeeeeeeeeeeeeeeeeeeeee'"
tried = 0
wrong = []


def read_until(terminal, shown, wanted, since):
    """Reads the terminal until it has shown this, or to its end where nothing is wanted."""
    end = time.monotonic() + LIMIT
    while wanted is None or wanted not in shown[since:]:
        ready, _, _ = select.select([terminal], [], [], max(0, end - time.monotonic()))
        if not ready:
            raise TimeoutError(f"{wanted!r} was not shown")
        try:
            piece = os.read(terminal, 4096)
        except OSError:
            piece = b""
        if not piece:
            if wanted is None:
                return shown
            raise TimeoutError(f"{wanted!r} was not shown to the end")
        shown += piece.decode().replace("\r", "")
    return shown


def at_terminal(command, folder, typed):
    """Runs the command at a terminal of its own; gives its status and what the terminal showed."""
    child, terminal = pty.fork()
    if child == 0:
        os.chdir(folder)
        os.execvp("bash", ["bash", "-c", command])
    shown = ""
    try:
        for wanted, line in typed:
            shown = read_until(terminal, shown, wanted, len(shown))
            time.sleep(0.1)
            os.write(terminal, line.encode() + b"\n")
        shown = read_until(terminal, shown, None, 0)
    except TimeoutError as late:
        shown += f"({late})"
        os.kill(child, 9)
    status = os.waitstatus_to_exitcode(os.waitpid(child, 0)[1])
    os.close(terminal)
    return status, shown


def row(name, command, folder, typed, status, has, lacks=()):
    """One run: its status, what the terminal shows and what it does not."""
    global tried
    tried += 1
    found, shown = at_terminal(command, folder, typed)
    missing = [text for text in has if text not in shown]
    too_many = [text for text in lacks if text in shown]
    if found != status or missing or too_many:
        wrong.append(f"{name}: ended with {found} and not {status}, lacks {missing}, shows {too_many}:\n{shown}")


def try_program(folder):
    key = "sqlcipher-tool: type the key of the file"
    new = "sqlcipher-tool: type the new key"
    row("a key", f"{PROGRAM} file.db verify 4", folder, [(key, OLD)], 0, ["ok: "], [new])
    row("probe", f"{PROGRAM} file.db probe", folder, [(key, OLD)], 0, ["profile 4"], [new])
    row("two keys", f"{PROGRAM} file.db rekey 4 4", folder, [(key, OLD), (new, OLD)], 0, ["rekeyed: "])
    row("a new file", f"{PROGRAM} made.db make 4 1", folder, [(new, OLD)], 0, ["made: 1 row"], [key])
    row("encryption", f"{PROGRAM} plain.db migrate plain:4096 4", folder, [(new, OLD)], 0, ["migrated: "], [key])
    row("decryption", f"{PROGRAM} plain.db migrate 4 plain:4096", folder, [(key, OLD)], 0, ["migrated: "], [new])
    row("a script", f"{PROGRAM} file.db play 4", folder, [("sqlcipher-tool: type the script", "stop"), ("done", "\x04")], 0, ["done"], [key, new])
    for words in ("recover 4", "header plain:4096"):
        row(words, f"{PROGRAM} {'file' if words[0] == 'r' else 'plain'}.db {words}", folder, [], 0, [], ["type"])
    row("no command", f"{PROGRAM} file.db verify", folder, [], 1, ["usage"], ["type"])
    row("a pipe", f"cat key | {PROGRAM} file.db verify 4", folder, [], 0, ["ok: "], ["type"])
    row("a file", f"{PROGRAM} file.db verify 4 < key", folder, [], 0, ["ok: "], ["type"])


def try_asking(folder):
    tool = f"PROGRAM={PROGRAM} {TOP}/tools/sqlcipher-tool-ask"
    key, new, again = "key of file.db: ", "new key: ", "the same once more: "
    shows_none = [OLD, NEW, OTHER, "type"]
    row("asks for a key", f"{tool} file.db verify 4", folder, [(key, OLD)], 0, ["ok: "], shows_none + [again])
    row("answers into a file", f"{tool} file.db verify 4 > lines && cat lines", folder, [(key, OLD)], 0, ["ok: "], shows_none)
    row("a wrong key", f"{tool} file.db verify 4", folder, [(key, NEW)], 3, ["key refused"], shows_none)
    row("two new keys that differ", f"{tool} file.db rekey 4 4", folder, [(key, OLD), (new, NEW), (again, OTHER)], 1,
        ["the two are not the same; nothing was done"], shows_none + ["rekeyed"])
    row("the old key still fits", f"{tool} file.db verify 4", folder, [(key, OLD)], 0, ["ok: "], shows_none)
    row("two new keys that are the same", f"{tool} file.db rekey 4 4", folder, [(key, OLD), (new, NEW), (again, NEW)], 0, ["rekeyed: "], shows_none)
    row("the new key fits", f"{tool} file.db migrate 4 3", folder, [(key, NEW), (new, OLD), (again, OLD)], 0, ["migrated: "], shows_none)
    row("a new file's key", f"{tool} asked.db make 4 1", folder, [("key of the new file: ", NEW), (again, NEW)], 0, ["made: 1 row"], shows_none)
    row("to plain", f"{tool} asked.db migrate 4 plain:4096", folder, [("key of asked.db: ", NEW)], 0, ["migrated: "], shows_none + [again])
    row("from plain", f"{tool} asked.db migrate plain:4096 4", folder, [(new, OLD), (again, OLD)], 0, ["migrated: "], shows_none + ["key of asked.db"])
    row("no key line", f"{tool} asked.db recover 4", folder, [], 0, ["nothing"], ["key"])
    row("a missing word", f"{tool} file.db verify", folder, [], 1, ["usage"], [key])
    row("no key is typed", f"{tool} file.db verify 3", folder, [(key, "\x04")], 1, ["no key was given; nothing was done"], shows_none)
    row("help", f"{tool} --help", folder, [], 0, ["commands"], [key])
    row("a script", f"echo stop | {tool} file.db play 3", folder, [], 0, ["done"], [key])


def try_installed(folder):
    """Each command that tools/install.sh installs, in a folder of its own, without the repository's on the path."""
    prefix = os.path.join(folder, "prefix")
    subprocess.run([os.path.join(TOP, "tools", "install.sh"), prefix], check=True, env=dict(os.environ, PROGRAM=PROGRAM))
    path = f"unset PROGRAM; PATH={prefix}/bin:$PATH"
    row("installed: asks", f"{path}; sqlcipher-tool-ask file.db verify 3", folder, [("key of file.db: ", OLD)], 0, ["ok: "], [OLD])
    row("installed: export", f"{path}; sqlcipher-tool file.db export 3 < key | sqlcipher-tool-export-to-sql | tail -n 1", folder, [], 0, ["COMMIT"])
    row("installed: salvage", f"{path}; sqlcipher-tool file.db salvage 3 < key | sqlcipher-tool-salvage-to-sql | grep COMMIT", folder, [], 0, ["COMMIT"])
    row("installed: completion", f". {prefix}/share/bash-completion/completions/sqlcipher-tool-ask; COMP_WORDS=(sqlcipher-tool f mig) COMP_CWORD=2; "
        "_sqlcipher_tool; echo \"${COMPREPLY[@]}\"", folder, [], 0, ["migrate"])
    row("installed: completion of settings", f". {prefix}/share/bash-completion/completions/sqlcipher-tool; COMP_WORDS=(sqlcipher-tool f tags 4:rounds=1:h) "
        "COMP_CWORD=3; _sqlcipher_tool; echo \"${COMPREPLY[@]}\"", folder, [], 0, ["4:rounds=1:hmac=sha256"])
    for name in ("man/man1/sqlcipher-tool.1", "doc/sqlcipher-tool/README.md", "doc/sqlcipher-tool/docs/DAMAGED_FILES.md", "doc/sqlcipher-tool/docs/FORMATS.md"):
        if not os.path.isfile(os.path.join(prefix, "share", name)):
            wrong.append(f"installed: share/{name} is not there")


def make(folder, name, profile):
    with open(os.path.join(folder, "key"), encoding="utf-8") as key:
        subprocess.run([PROGRAM, os.path.join(folder, name), "make", profile, "3"], stdin=key, check=True, capture_output=True)


def main():
    if not os.access(PROGRAM, os.X_OK):
        print(f"{PROGRAM} is not built: ./sqlcipher-tool --version builds it")
        return 1
    with tempfile.TemporaryDirectory() as folder:
        with open(os.path.join(folder, "key"), "w", encoding="utf-8") as key:
            key.write(OLD + "\n")
        make(folder, "file.db", "4")
        make(folder, "plain.db", "plain:4096")
        try_program(folder)
        try_asking(folder)
        try_installed(folder)
    for line in wrong:
        print("terminal: " + line)
    print(f"terminal: {tried} runs, {len(wrong)} wrong")
    return 1 if wrong else 0


if __name__ == "__main__":
    sys.exit(main())
