#!/usr/bin/env bash
# Times the playback of a journal of 100 MiB beside `cat` of the same bytes to a synced file: best of five of each, in turn.
# The journal has one segment, with each page of a database of version 4 once. No key is needed.
set -eu
top=$(cd "$(dirname "$0")/.." && pwd)
"$top/tools/build.sh" || { echo "bench: the program is not built"; exit 1; }
command -v python3 > /dev/null || { echo "bench: python3 is missing"; exit 1; }
folder=$(mktemp -d "${BENCH_FOLDER:-$top/out}/recover.XXXXXX")
trap 'rm -rf "$folder"' EXIT
python3 - "$folder" <<'PY'
import os, struct, sys
folder, size, pages = sys.argv[1], 4096, 25600
with open(folder + "/main", "wb") as main, open(folder + "/journal", "wb") as journal:
    header = bytes.fromhex("d9d505f920a163d7") + struct.pack(">5I", pages, 7, pages, 512, size)
    journal.write(header.ljust(512, b"\0"))
    for page in range(1, pages + 1):
        image = os.urandom(size)
        checksum = (7 + sum(image[at] for at in range(size - 200, 0, -200))) % 2**32
        journal.write(struct.pack(">I", page) + image + struct.pack(">I", checksum))
        main.write(bytes(size))
PY
now() { date +%s%N; }
best_play=0
best_copy=0
for _ in 1 2 3 4 5; do
    cp "$folder/main" "$folder/db"
    cp "$folder/journal" "$folder/db-journal"
    sync
    begin=$(now)
    "$top/out/sqlcipher-tool" "$folder/db" recover 4 > "$folder/said"
    play=$(($(now) - begin))
    [ "$(cat "$folder/said")" = "played: 25600" ] || { echo "bench: $(cat "$folder/said")"; exit 1; }
    rm -f "$folder/copy"
    begin=$(now)
    cat "$folder/journal" > "$folder/copy" && sync "$folder/copy"
    copy=$(($(now) - begin))
    [ "$best_play" -ne 0 ] && [ "$best_play" -lt "$play" ] || best_play=$play
    [ "$best_copy" -ne 0 ] && [ "$best_copy" -lt "$copy" ] || best_copy=$copy
done
echo "playback of 100 MiB: $((best_play / 1000000)) ms; cat to a synced file: $((best_copy / 1000000)) ms"
awk -v a="$best_play" -v b="$best_copy" 'BEGIN { printf "playback takes %.2f of the time of cat\n", a / b }'
