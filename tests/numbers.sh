#!/usr/bin/env bash
# A number of fixed width in a format goes by `byteorder`: no source of a library or of the program reads or writes one by calls of the
# standard library (from_be_bytes and its like), or by hand, with shifts by whole bytes or products of 256. The sources below may, each for
# the reason beside it; one that no longer does so has to leave the list.
#
#     tests/numbers.sh
#
# Test crates and measurements may do it their own way, since what they expect comes from outside. It proves nothing and runs no program.
set -u
top=$(cd "$(dirname "$0")/.." && pwd) || exit 1
scratch=$(mktemp -d) || exit 1
trap 'rm -rf "$scratch"' EXIT

# PATH: why its numbers are no fields of a format.
may='
aes_block/src/columns.rt: the words of a state
aes_block/src/lookup.rt: the bytes of a word, as indices of a table
aes_lanes/src/blocks.rt: the halves of a block
aes_lanes/src/keys.rt: the words of a round key
cbc_mode/src/block.rt: the halves of a block
db_format/src/varint.rt: a varint, whose width is in its bytes
db_maker/src/rows.rt: the bytes of a made row, by its number
hash_lanes/src/message.rt: the length and the digest of a message, in a hash
hash_lanes/src/sha1_message.rt: the length and the digest of a message, in a hash
hash_lanes/src/sha1_words.rt: the words of a message, in a hash
hash_lanes/src/words.rt: the words of a message, in a hash
hmac_core/src/key_derivation.rt: the number of a block of PBKDF2
system_calls/src/found.rt: the number of a device, as the kernel packs it
'
calls='(from|to)_(be|le|ne)_bytes\('
shifts='(<<|>>)=? *(8|16|24|32|40|48|56)([^0-9]|$)'
products='([*/]=? *(256|65_?536|16_?777_?216|0x1_?00|0x1_?00_?00|0x1_?00_?00_?00)|%=? *(256|0x1_?00))([^0-9a-f_]|$)'

# by_another_way FOLDER: PATH:LINE:TEXT of each such place in the crates of the folder, but for clauses and comments.
by_another_way() {
    (cd "$1" && find . -path '*/src/*.rt' ! -path '*/out/*' ! -path './*_tests/*' ! -path './command_runs/*' ! -path './bench_loops/*' -printf '%P\n' | sort \
        | xargs grep -nHE "$calls|$shifts|$products" | grep -vE ':[0-9]+: *(//|ensures|requires|ghost)|≡')
}

# What it looks for is found in each of these lines, and in no line of the second file.
mkdir -p "$scratch/planted/src" "$scratch/sound/src" && cat > "$scratch/planted/src/a.rt" <<'LINES'
    u32::from_be_bytes([bytes[0], bytes[1], bytes[2], bytes[3]])
    out[..4].copy_from_slice(&n.to_le_bytes());
    u32::from(bytes[16]) << 8 | u32::from(bytes[17])
    [(n >> 24) as u8, (n >> 16) as u8]
    [(n / 256) as u8, (n % 256) as u8]
    u32::from(bytes[0]) * 65_536 + u32::from(bytes[1])
LINES
cat > "$scratch/sound/src/a.rt" <<'LINES'
    ensures { result ≡ to_be_bytes w32 (n % 256) }
    // n % 256
    BigEndian::read_u32(&bytes[at..])
    let most = 65536;
    let half = n / 2560;
    (start % 65536) as u16
LINES
found=$(by_another_way "$scratch" | grep -c '^planted/')
[ "$found" -eq 6 ] && ! by_another_way "$scratch" | grep -q '^sound/' || { echo "numbers: of 6 planted lines $found were found, or a sound one was"; exit 1; }

by_another_way "$top/crates" > "$scratch/found"
printf '%s' "$may" | sed -n 's/: .*//p' > "$scratch/may"
wrong=0
while IFS= read -r line; do
    grep -qxF -- "${line%%:*}" "$scratch/may" || { echo "numbers: crates/$line"; wrong=$((wrong + 1)); }
done < "$scratch/found"
while IFS= read -r path; do
    grep -q "^$path:" "$scratch/found" || { echo "numbers: crates/$path is in the list and has no such number"; wrong=$((wrong + 1)); }
done < "$scratch/may"
# Who names byteorder or number_fields calls it, and the other way round.
while IFS=: read -r crate below; do
    for library in byteorder number_fields; do
        case " $below " in *" $library "*) named=1 ;; *) named=0 ;; esac
        used=0
        ! grep -qE "^ *(pub )?use $library::" "$top/crates/$crate"/src/*.rt || used=1
        [ "$named" -eq "$used" ] || { echo "numbers: $crate and $library: crates.txt says $named, the sources $used"; wrong=$((wrong + 1)); }
    done
done < <(grep -E '^[a-z_0-9]+:' "$top/crates.txt")
echo "numbers: ${wrong} fields that go by another way than byteorder, in $(cut -d: -f1 "$scratch/found" | sort -u | wc -l) sources with numbers of other kinds"
[ "$wrong" -eq 0 ]
