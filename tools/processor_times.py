#!/usr/bin/env python3
"""Runs a command and says how much processor time the prover took in it, crate by crate.

    tools/processor_times.py .ci/run

Each second it looks at the prover's processes in /proc. A crate is proved once (proof), once more with its tests where it has
tests, and once more as the base of its must-fail edits, which are counted together with it (edits). What a process takes
within the last second of its life is not seen; the line `all` is exact, and has the tests and the comparisons too.
The table goes to standard error, or to the file that the variable TIMES names, as rows of docs/GATE.md.
"""
import os
import resource
import subprocess
import sys
import threading
import time

TICKS = os.sysconf("SC_CLK_TCK")
KINDS = ("proof", "tests", "edits")
# All processes of the command have this in their environment, and no others.
MARK = f"PROCESSOR_TIMES={os.getpid()}"


def crate_and_kind(number):
    """The crate that this process works on and why, or None where it is no process of the prover's."""
    with open(f"/proc/{number}/cmdline", "rb") as file:
        words = file.read().decode(errors="replace").split("\0")
    if os.path.basename(words[0]) != "rattle" or "--crate-name" not in words:
        return None
    with open(f"/proc/{number}/environ", "rb") as file:
        if MARK not in file.read().decode(errors="replace").split("\0"):
            return None
    crate = words[words.index("--crate-name") + 1]
    if os.path.basename(os.readlink(f"/proc/{number}/cwd")).startswith("rt-edit-"):
        return crate, "edits"
    return crate, "tests" if "--test" in words else "proof"


def seconds_of(number):
    """When the process began, and the processor time that it took, its own threads' alone."""
    with open(f"/proc/{number}/stat", encoding="utf-8", errors="replace") as file:
        fields = file.read().rpartition(")")[2].split()
    return fields[19], (int(fields[11]) + int(fields[12])) / TICKS


def look(seen):
    """Notes the time of each process of the prover's that is there."""
    for number in filter(str.isdigit, os.listdir("/proc")):
        try:
            known = crate_and_kind(number)
            if known:
                began, seconds = seconds_of(number)
                seen[number, began] = known, seconds
        except (OSError, IndexError, ValueError):
            # (it has ended meanwhile, or is another's)
            continue


def watch(seen, ended):
    while not ended.wait(1):
        look(seen)


def order(crate, names):
    return names.index(crate) if crate in names else len(names)


def rows(seen, names):
    """A line a crate, in the order of crates.txt: minutes of processor time for each kind, and in all."""
    spent = {}
    for (crate, kind), seconds in seen.values():
        spent.setdefault(crate, dict.fromkeys(KINDS, 0.0))[kind] += seconds
    minutes = lambda seconds: f"{seconds / 60:.1f}" if seconds else ""
    for crate in sorted(spent, key=lambda it: order(it, names)):
        of = spent[crate]
        yield f"| `{crate}` | {' | '.join(minutes(of[kind]) for kind in KINDS)} | {minutes(sum(of.values()))} |"
    sums = [sum(of[kind] for of in spent.values()) for kind in KINDS]
    yield f"| the prover in all | {' | '.join(map(minutes, sums))} | {minutes(sum(sums))} |"


def main(words):
    if not words:
        print(__doc__, file=sys.stderr)
        return 2
    top = os.path.dirname(os.path.dirname(os.path.realpath(__file__)))
    with open(f"{top}/crates.txt", encoding="utf-8") as file:
        names = [line.split(":")[0].split()[0] for line in file if line[:1].isalpha()]
    seen, ended, began = {}, threading.Event(), time.monotonic()
    watcher = threading.Thread(target=watch, args=(seen, ended), daemon=True)
    watcher.start()
    name, _, value = MARK.partition("=")
    status = subprocess.call(words, env={**os.environ, name: value})
    ended.set()
    watcher.join()
    used = resource.getrusage(resource.RUSAGE_CHILDREN)
    lines = ["| crate | proof | tests | edits | in all |", "|---|---|---|---|---|", *rows(seen, names)]
    lines.append(f"| all, with tests and comparisons | | | | {(used.ru_utime + used.ru_stime) / 60:.1f} |")
    lines.append(f"| by the clock, {os.cpu_count()} processors | | | | {(time.monotonic() - began) / 60:.1f} |")
    text = "\n".join(lines) + "\n"
    if os.environ.get("TIMES"):
        with open(os.environ["TIMES"], "w", encoding="utf-8") as file:
            file.write(text)
    else:
        print(text, end="", file=sys.stderr)
    return status if status >= 0 else 128 - status


if __name__ == "__main__":
    sys.exit(main(sys.argv[1:]))
