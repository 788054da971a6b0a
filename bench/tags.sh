#!/usr/bin/env bash
# Times `tags 4` on a file of 100 MiB beside the plain SHA-512 of as many bytes, the derivation of each profile's keys, and
# pages opened and sealed; beside them, in the same run, their peers: openssl, and Python's hashlib for the derivations.
# Needs rt and python3; without openssl, its line is left out. Each time is that of a whole run, its start of about a
# millisecond among it.
set -eu
cd "$(dirname "$0")/.."
command -v python3 > /dev/null || { echo "tags.sh: python3 is missing" >&2; exit 1; }
tools/build.sh
bench/build_loops
exec python3 - <<'PYTHON'
import hashlib, hmac, os, shutil, subprocess, tempfile, time

PAGES = 25_600  # 100 MiB
RUNS = 7
KEY = bytes(range(32))
LINE = b"x'" + KEY.hex().encode() + b"'\n"

def make(path):
    salt = bytes(range(16))
    mac = hashlib.pbkdf2_hmac("sha512", KEY, bytes(b ^ 0x3A for b in salt), 2, 32)
    body = os.urandom(4032)
    with open(path, "wb") as out:
        for n in range(1, PAGES + 1):
            covered = body if n > 1 else body[16:]
            tag = hmac.digest(mac, covered + n.to_bytes(4, "little"), "sha512")
            out.write((salt if n == 1 else b"") + covered + tag)

# The least time of a command, in seconds on the clock.
def least(command, line=b""):
    best = None
    for _ in range(RUNS):
        start = time.perf_counter()
        subprocess.run(command, input=line, stdout=subprocess.DEVNULL, check=True)
        spent = time.perf_counter() - start
        best = spent if best is None else min(best, spent)
    return best

def timed(work):
    start = time.perf_counter()
    work()
    return time.perf_counter() - start

# Bytes a second.
def openssl(name, size, decrypts=False, has_aes=True):
    environment = dict(os.environ) if has_aes else dict(os.environ, OPENSSL_ia32cap="~0x200000200000000")
    command = ["openssl", "speed", "-seconds", "1", "-evp", name, "-bytes", str(size)] + (["-decrypt"] if decrypts else [])
    out = subprocess.run(command, capture_output=True, text=True, check=True, env=environment).stdout
    return float(out.split()[-1].rstrip("k")) * 1000

with tempfile.TemporaryDirectory() as folder:
    path = os.path.join(folder, "file.db")
    make(path)
    small = os.path.join(folder, "small.db")
    with open(path, "rb") as source, open(small, "wb") as out:
        out.write(source.read(4096))
    tags = least(["./out/sqlcipher-tool", path, "tags", "4"], LINE)
    hashed = least(["crates/bench_loops/out/bench_loops", "page", "hash", str(PAGES)])
    mib = PAGES * 4096 / 2**20
    print(f"tags 4, 100 MiB            {mib / tags:7.0f} MiB/s   {hashed / tags:5.2f} of the plain hash")
    print(f"SHA-512 of the kit         {mib / hashed:7.0f} MiB/s")
    if shutil.which("openssl"):
        peer = max(openssl("sha512", 4096) for _ in range(3)) / 2**20
        print(f"openssl, SHA-512           {peer:7.0f} MiB/s")
    if os.path.exists("/usr/bin/time"):
        memory = [subprocess.run(["/usr/bin/time", "-f", "%M", "./out/sqlcipher-tool", file, "tags", "4"], input=LINE,
                                 stdout=subprocess.DEVNULL, stderr=subprocess.PIPE, check=True).stderr.decode().strip()
                  for file in (small, path)]
        print(f"memory of tags 4           {memory[0]} KiB for 4 KiB, {memory[1]} KiB for 100 MiB")

# The keys of a passphrase, the two rounds for the key of the tags among them.
for word, name, rounds in (("1", "sha1", 4_000), ("2", "sha1", 4_000), ("3", "sha1", 64_000), ("4", "sha512", 256_000)):
    times = max(1, 512_000 // rounds // 2)
    derive = least(["crates/bench_loops/out/bench_loops", "page", "derive", word, str(times)]) / times
    peer = min(timed(lambda: hashlib.pbkdf2_hmac(name, b"password", bytes(16), rounds, 32)) for _ in range(RUNS))
    print(f"keys of profile {word}        {derive * 1000:9.2f} ms    {derive / peer:5.2f} of the time of hashlib.pbkdf2_hmac")

# Pages opened and sealed, beside the two primitives that openssl would spend on them.
for word, size, covered, name in (("3", 976, 996, "sha1"), ("4", 4016, 4036, "sha512")):
    for verb in ("open", "seal"):
        times = 80_000_000 // size
        spent = least(["crates/bench_loops/out/bench_loops", "page", verb, word, str(times)]) / times
        line = f"{verb} pages of profile {word}  {1 / spent:9.0f} pages/s"
        if shutil.which("openssl"):
            for has_aes in (False, True):
                two = size / openssl("aes-256-cbc", size, verb == "open", has_aes) + covered / openssl(name, covered)
                line += f"   {two / spent:5.2f} of openssl {'with' if has_aes else 'without'} AES"
        print(line)
PYTHON
