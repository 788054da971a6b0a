#!/usr/bin/env bash
# Compares the program with the independent reference in tests/reference: the printed lines and the status have to be the
# same. The files are those that the reference makes and those that the product `sqlcipher` makes, its version 4 among them.
# The reference is tried on known answers first, and the product's files have to be those of tests/reference/real_files.tsv.
# Of each sound file of the product, its own dump is compared with that of the plain database that tools/export_to_sql.py and
# `sqlite3` make of the program's export.
#
#     tests/real_files.sh
#
# PROGRAM names another program, SQLCIPHER4 the product built for version 4, PRODUCT_FILES the folder that tests/product_files.sh made.
set -u
. "$(dirname "$0")/common.sh"
begin 'real files'
oracle=$top/tests/reference/oracle/sqlcipher_oracle.py
compared=0

k0="x'000102030405060708090a0b0c0d0e0f101112131415161718191a1b1c1d1e1f'"
k1="x'ffffffffffffffffffffffffffffffffffffffffffffffffffffffffffffffff'"

fail() { echo "real files: $*"; exit 1; }

make() { # make FILE KEY PROFILE ROWS
    printf '%s\n' "$2" | python3 "$oracle" "$1" make "$3" "$4" --seed 7 > /dev/null
}

compare() { # compare FILE KEY WORDS..: the same lines and the same status
    local file=$1 key=$2
    shift 2
    printf '%s\n' "$key" > "$scratch/key"
    compare_with "$file" "$scratch/key" "$@"
}

compare_with() { # compare_with FILE KEYFILE WORDS..
    local file=$1 key=$2
    shift 2
    python3 "$oracle" "$file" "$@" < "$key" > "$scratch/expected" 2> /dev/null
    local expected=$?
    "$program" "$file" "$@" < "$key" > "$scratch/found" 2> /dev/null
    local found=$?
    compared=$((compared + 1))
    if [ "$expected" -ne "$found" ] || ! cmp -s "$scratch/expected" "$scratch/found"; then
        say "$(basename "$file") $*: the reference ends with $expected and prints"
        head -n 5 "$scratch/expected"
        echo "the program ends with $found and prints"
        head -n 5 "$scratch/found"
    fi
}

pages() { echo $(($(stat -c %s "$1") / 4096)); }

# A file with a journal: besides the lines, the files that the program leaves have to be those that the reference recovers.
# Each works on copies.
compare_recovered() { # compare_recovered FILE KEYFILE COMMAND PROFILE
    local file=$1 key=$2 copy
    shift 2
    rm -rf "$scratch/asked" "$scratch/wanted" "$scratch/left"
    for copy in asked wanted left; do
        mkdir "$scratch/$copy" && cp "$file" "$scratch/$copy/file" && cp "$file-journal" "$scratch/$copy/file-journal" || exit 1
    done
    python3 "$oracle" "$scratch/asked/file" "$@" < "$key" > "$scratch/expected" 2> /dev/null
    local expected=$?
    # The words `tags 1` are refused before any file is looked at.
    [ "$*" = "tags 1" ] || python3 "$oracle" "$scratch/wanted/file" recover "$2" > /dev/null 2>&1
    "$program" "$scratch/left/file" "$@" < "$key" > "$scratch/found" 2> /dev/null
    local found=$?
    compared=$((compared + 1))
    if [ "$expected" -ne "$found" ] || ! cmp -s "$scratch/expected" "$scratch/found" || ! diff -rq "$scratch/wanted" "$scratch/left"; then
        say "$(basename "$file") $*: the reference ends with $expected and prints"
        head -n 5 "$scratch/expected"
        echo "the program ends with $found and prints"
        head -n 5 "$scratch/found"
    fi
}

dump() { # dump PROGRAM FILE STATEMENTS: the lines of its dump, sorted, since objects stand in another order
    printf '%s\n' ".output /dev/null" "$3" ".output stdout" ".dump" | "$1" -batch "$2" | sort
}

# What the product dumps of a sound file, and of the plain database that SQLite makes of the program's export, has the same lines.
compare_dump() { # compare_dump FILE KEYFILE PROFILE
    local file=$1 key=$2 profile=$3 product
    "$program" "$file" export "$profile" < "$key" > "$scratch/text" 2> /dev/null || return 0
    product=$(product "$profile")
    rm -f "$scratch/plain.db"
    compared=$((compared + 1))
    if ! "$top/tools/export_to_sql.py" < "$scratch/text" | sqlite3 -bail "$scratch/plain.db" ||
        ! dump "$product" "$file" "$(opening "$profile" "$(cat "$key")")" > "$scratch/expected" ||
        ! dump "$product" "$scratch/plain.db" "" > "$scratch/found" || ! cmp -s "$scratch/expected" "$scratch/found"; then
        say "$(basename "$file"): the dump of what export and export_to_sql.py give is another one than the product's"
        diff "$scratch/expected" "$scratch/found" | cut -c 1-200 | head -n 10
    fi
}

# ---- files that the reference makes

reference_files() {
    local sound damaged all swapped longer first unfit file profile key words at n len
    # A file of SQLCipher 4 with tables, indexes and overflow chains.
    sound=$scratch/sound.db
    make "$sound" "$k0" 4 400
    [ "$(pages "$sound")" -ge 200 ] || { echo "real files: the file has only $(pages "$sound") pages"; exit 1; }
    compare "$sound" "$k0" tags 4
    compare "$sound" "$k0" verify 4
    compare "$sound" "$k0" export 4
    compare "$sound" "${k0^^}" tags 4
    compare "$sound" "$k1" tags 4

    # Pages that are damaged in the ciphertext, the IV, the tag and the first byte, the last page among them.
    damaged=$scratch/damaged.db
    cp "$sound" "$damaged"
    for at in 5000 $((4096 * 9 + 4020)) $((4096 * 10 + 4032)) $((4096 * 57 + 4095)) $((4096 * 100)) $(($(stat -c %s "$sound") - 1)); do
        turn_bit "$damaged" "$at"
    done
    compare "$damaged" "$k0" tags 4
    compare "$damaged" "$k0" verify 4
    compare "$damaged" "$k0" export 4

    # Every page but the first.
    all=$scratch/all.db
    cp "$sound" "$all"
    for n in $(seq 1 $(($(pages "$sound") - 1))); do
        turn_bit "$all" $((4096 * n + 77))
    done
    compare "$all" "$k0" tags 4
    compare "$all" "$k0" verify 4
    compare "$all" "$k0" export 4

    # Two pages in each other's place, bytes past the last page, and page 1 alone.
    swapped=$scratch/swapped.db
    cp "$sound" "$swapped"
    dd if="$sound" of="$swapped" bs=4096 skip=20 seek=30 count=1 conv=notrunc status=none
    dd if="$sound" of="$swapped" bs=4096 skip=30 seek=20 count=1 conv=notrunc status=none
    compare "$swapped" "$k0" tags 4
    compare "$swapped" "$k0" verify 4
    compare "$swapped" "$k0" export 4
    longer=$scratch/longer.db
    cp "$sound" "$longer"
    head -c 4000 /dev/zero >> "$longer"
    compare "$longer" "$k0" tags 4
    first=$scratch/first.db
    head -c 4096 "$sound" > "$first"
    compare "$first" "$k0" tags 4

    # Page 1 damaged: the key does not fit.
    unfit=$scratch/unfit.db
    cp "$sound" "$unfit"
    turn_bit "$unfit" 3000
    compare "$unfit" "$k0" tags 4

    # Each profile under a raw key and a passphrase, with the command for the header and the search for the profile.
    for profile in 1 2 3 4 $sizes; do
        for key in "$k0" "it's a pässwörd"; do
            file=$scratch/profile-$profile.db
            make "$file" "$key" "$profile" 40
            while read -r words; do
                # shellcheck disable=SC2086
                compare "$file" "$key" $words
            done < <(commands "$profile" "$profile" check search)
        done
        compare "$file" "$k1" header "$profile"
    done

    # The largest pages under the words of the others, and `4:4096` for `4`.
    for words in "tags 4" "header 4:32768" "verify 4:1024"; do
        # shellcheck disable=SC2086
        compare "$scratch/profile-4:65536.db" "$key" $words
    done
    compare "$sound" "$k0" verify 4:4096

    # Lengths: nothing, one byte, and beside a page.
    for len in 0 1 1023 1024 4095 4096 4097; do
        head -c "$len" "$sound" > "$scratch/cut.db"
        compare "$scratch/cut.db" "$k0" tags 4
        compare "$scratch/cut.db" "$k0" tags 4:1024
        compare "$scratch/cut.db" "$k0" header 4
        compare "$scratch/cut.db" "$k0" verify 4
        compare "$scratch/cut.db" "$k0" export 4
        compare "$scratch/cut.db" "$k0" probe
    done
}

# ---- files that the product makes

product_files() {
    local name profile journal file key words
    # The files, their journals and all that the reference reads in them are those of the table.
    python3 "$top/tests/reference/oracle/check_files.py" compare "$files" "$table" > "$scratch/compared" || {
        cat "$scratch/compared"
        fail "the product's files are not those of the table"
    }
    while IFS=$'\t' read -r name profile _ _ journal _; do
        [ "$name" != file ] || continue
        file=$files/$name
        key=${file%.db}.key
        [ -f "$file" ] && [ -f "$key" ] || fail "$name or its key is not made"
        # The reference has no words with settings, by which the program finds this one.
        if [ "$name" = v3-raw-page-4096.db ]; then
            compared=$((compared + 1))
            [ "$("$program" "$file" probe < "$key" 2> /dev/null)" = "profile 3:4096" ] || say "$name probe: $("$program" "$file" probe < "$key" 2>&1)"
        else
            compare_with "$file" "$key" probe
        fi
        if [ "$journal" != none ]; then
            [ -f "$file-journal" ] || fail "$name has no journal"
            # shellcheck disable=SC2086
            while read -r words; do compare_recovered "$file" "$key" $words; done < <(commands "$profile" "$profile" recovery check)
        else
            # shellcheck disable=SC2086
            while read -r words; do compare_with "$file" "$key" $words; done < <(commands "$profile" "$profile" check)
        fi
    done < "$table"
}

# A copy of each is dumped, since the product writes to some.
product_dumps() {
    local name profile journal
    while IFS=$'\t' read -r name profile _ _ journal _; do
        [ "$name" != file ] && [ "$journal" = none ] || continue
        cp "$files/$name" "$scratch/dumped.db"
        compare_dump "$scratch/dumped.db" "$files/${name%.db}.key" "$profile"
    done < "$table"
}

if has_reference; then
    python3 "$top/tests/reference/oracle/check_rows.py" > "$scratch/rows" || {
        grep -v '^note' "$scratch/rows"
        fail "the reference fails its known answers"
    }
    reference_files
    ! find_files || product_files
else
    leave_out "comparisons with the reference, since Python's cryptography is missing"
    find_files
fi
if [ ! -s "$table" ]; then
    :   # Why there are no files of the product is said already.
elif has sqlite3; then
    product_dumps
else
    leave_out "dumps, since sqlite3 is missing"
fi

finish "$compared comparisons"
