#!/bin/sh
# Times AES-256-CBC on texts of 976, 1,008 and 4,016 bytes, and beside it, in the same run, decryption by tables, and
# OpenSSL without and with the processor's AES instructions: bench/cbc.sh
# Needs rt and python3; without openssl, its columns are left out.
set -eu
cd "$(dirname "$0")/.."
bench/build_loops
python3 - <<'PYTHON'
import os, resource, shutil, subprocess

BYTES = 60_000_000  # that a run encrypts or decrypts: a hundred times what the start costs, and more
RUNS = 7
SIZES = (976, 1008, 4016)

# Processor time of a command, in seconds.
def seconds(command):
    def used():
        usage = resource.getrusage(resource.RUSAGE_CHILDREN)
        return usage.ru_utime + usage.ru_stime
    before = used()
    subprocess.run(command, stdout=subprocess.DEVNULL, check=True)
    return used() - before

# MB/s, the start of the program included.
def ours(direction, size, tables=False):
    times = BYTES // size
    counts = [times * (direction == "encrypt"), times * (direction == "decrypt" and not tables), times * tables]
    return size * times / seconds(["crates/bench_loops/out/bench_loops", "cbc", str(size), *map(str, counts)]) / 1e6

def openssl(direction, size, aes_instructions):
    environment = dict(os.environ)
    if not aes_instructions:
        environment["OPENSSL_ia32cap"] = "~0x200000200000000"
    command = ["openssl", "speed", "-seconds", "1", "-evp", "aes-256-cbc", "-bytes", str(size)]
    if direction == "decrypt":
        command.append("-decrypt")
    out = subprocess.run(command, capture_output=True, text=True, check=True, env=environment).stdout
    return float(out.split()[-1].rstrip("k")) / 1e3

cells = [(direction, size) for size in SIZES for direction in ("encrypt", "decrypt")]
peers = {
    "ours": ours,
    "tables": lambda *cell: ours(*cell, tables=True) if cell[0] == "decrypt" else None,
    "openssl without AES": lambda *cell: openssl(*cell, False),
    "openssl with AES": lambda *cell: openssl(*cell, True),
}
if shutil.which("openssl") is None:
    print("openssl is missing, so it does not stand beside")
    peers = {name: peers[name] for name in ("ours", "tables")}

# The runs of one cell lie apart, so that a busy moment spoils one of them at most.
best = {}
for _ in range(RUNS):
    for cell in cells:
        for name, measure in peers.items():
            speed = measure(*cell)
            if speed is not None:
                best[cell, name] = max(best.get((cell, name), 0), speed)

print(f"MB/s, the best of {RUNS}")
print("          bytes  " + "  ".join(name + ("" if name == "ours" else "  ratio") for name in peers))
for cell in cells:
    line = f"{cell[0]:8} {cell[1]:6}"
    for name in peers:
        speed = best.get((cell, name))
        line += "  " + (f"{speed:{len(name)}.0f}" if speed else " " * len(name))
        if name != "ours":
            line += "  " + (f"{best[cell, 'ours'] / speed:5.2f}" if speed else " " * 5)
    print(line)
PYTHON
