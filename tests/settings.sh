#!/usr/bin/env bash
# Files with settings of their own, which the product makes: every pair of hashes, no tags, other rounds and other pages, a plain header whose salt comes
# with the key, and passphrases of any bytes. Each command that reads serves them, under the settings in another order too; after `stamp`, `rekey`,
# `migrate`, `make` and a script that re-keys the product opens the file, finds it sound and dumps the same rows. A key line without a salt, or with one
# too many, and one that is not hex are refused; of a plain header a bit that is turned in the magic is, and no tag covers what stands behind it. With
# their logs such files are read and settled, and the product's journal is played back. A `rekey` and a `migrate` of a file without a plain header, of
# one with it, and from one to the other are stopped at each of their writing calls: what is left is the old content under the old word and key, or under
# the new.
#
#     tests/settings.sh
#
# The product is a build of sqlcipher 3.4.1 to which the settings of version 4 were added (tests/reference/build_settings_product.sh);
# SETTINGS_PRODUCT names one that stands. PROGRAM names another program.
set -u
. "$(dirname "$0")/common.sh"
begin 'settings'
needs sqlcipher
passphrase='a passphrase'
raw="x'000102030405060708090a0b0c0d0e0f101112131415161718191a1b1c1d1e1f'"
wrong="x'eeeeeeeeeeeeeeeeeeeeeeeeeeeeeeeeeeeeeeeeeeeeeeeeeeeeeeeeeeeeeeee'"
new="x'0f1e2d3c4b5a69788796a5b4c3d2e1f00f1e2d3c4b5a69788796a5b4c3d2e1f0'"
salt=a0a1a2a3a4a5a6a7a8a9aaabacadaeaf
new_salt=00112233445566778899AABBCCDDEEFF

built=${SETTINGS_PRODUCT:-$top/out/product/sqlcipher_settings}
[ -x "$built" ] || "$top/tests/reference/build_settings_product.sh" "$(dirname "$built")" > "$scratch/build" 2>&1
[ -x "$built" ] || { leave_out "all of it, since the product with settings can't be built here"; finish; }

# The words, and for each one another with the same size and reserve, and what `probe` finds, where it finds the file. A passphrase is given where
# the rounds are few, else a raw key, to which they don't matter. Under `key=hex` the last column is the passphrase: with a line feed, with a zero at
# either end, with bytes above 127 that are UTF-8 or are not, of one byte, and one that would be a raw key's digits.
words() {
    cat <<'WORDS'
1:4096 1:4096:rounds=3 1:4096
1:rounds=7 1 none
2:2048 3:2048 none
3:4096 3:4096:rounds=1 3:4096
3:4096:rounds=1 3:4096 none
3:rounds=100 2 none
3:2048:hmac=off 3:2048:hmac=off:rounds=9 none
3:kdf=sha256:rounds=30:hmac=sha256 3 none
4:rounds=4000:hmac=sha1 4:rounds=1:hmac=sha256 4:rounds=4000:hmac=sha1
4:rounds=30:hmac=off 4:hmac=off:kdf=sha1:rounds=2 none
4:1024:rounds=64000:hmac=sha1:kdf=sha1 3 3
4:65536:rounds=30:hmac=off:kdf=sha256 4:65536:hmac=off:rounds=4 none
4:plain-header=32 4:plain-header=96 salt
3:plain-header=16 2:plain-header=32:rounds=7:key=hex salt
1:hmac=sha1:plain-header=96 3:plain-header=96:hmac=sha256 salt
4:1024:hmac=sha256:plain-header=96 4:1024:hmac=sha1:plain-header=80 salt
4:8192:rounds=30:plain-header=32:key=hex 4:8192:plain-header=32:rounds=30:key=hex salt 610A62
3:4096:plain-header=32:rounds=5:hmac=sha256:kdf=sha256:key=hex 3:4096:plain-header=16 salt 00ff8000
4:rounds=9:plain-header=16:key=hex 4:kdf=sha256:rounds=3:plain-header=64:key=hex salt 0a
4:65536:plain-header=48:rounds=2:hmac=sha1:key=hex 4:65536:plain-header=16:hmac=sha256 salt c3a4c3
4:rounds=30:key=hex 4:rounds=5 none 0d0a00
3:rounds=9:hmac=off:key=hex 3:rounds=4:hmac=off none FFfe80
2:rounds=1:key=hex 3:key=hex:rounds=3 none 30303031
1:2048:rounds=7:key=hex 1:2048 none c3a40a
WORDS
    for hmac in sha1 sha256 sha512; do
        for kdf in sha1 sha256 sha512; do
            echo "4:rounds=30:kdf=$kdf:hmac=$hmac 4:kdf=sha256:rounds=5:hmac=$hmac none"
        done
    done
}

# settings_of WORD: VERSION SIZE ROUNDS KDF HMAC HEADER FORM, what the word says and else the version's; FORM is that of the key line
settings_of() {
    local part version=${1%%:*} size rounds kdf hmac header=0 form=text
    case $version in
        1) size=1024 rounds=4000 kdf=sha1 hmac=off ;;
        2) size=1024 rounds=4000 kdf=sha1 hmac=sha1 ;;
        3) size=1024 rounds=64000 kdf=sha1 hmac=sha1 ;;
        4) size=4096 rounds=256000 kdf=sha512 hmac=sha512 ;;
    esac
    for part in ${1//:/ }; do
        case $part in
            rounds=*) rounds=${part#*=} ;;
            kdf=*) kdf=${part#*=} ;;
            hmac=*) hmac=${part#*=} ;;
            plain-header=*) header=${part#*=} ;;
            key=hex) form=hex ;;
            ?) ;;
            *) size=$part ;;
        esac
    done
    echo "$version $size $rounds $kdf $hmac $header $form"
}

# opened WORD KEY: the statements with which the product opens a file, every setting named
opened() {
    local version size rounds kdf hmac header form
    read -r version size rounds kdf hmac header form <<< "$(settings_of "$1")"
    case $form in
        hex) echo "PRAGMA hexkey = '${2%,*}';" ;;
        *) printf "PRAGMA key = '%s';\n" "$(quoted "$2")" ;;
    esac
    echo "PRAGMA cipher_page_size = $size; PRAGMA kdf_iter = $rounds; PRAGMA cipher_kdf_algorithm = PBKDF2_HMAC_${kdf^^};"
    if [ "$hmac" = off ]; then echo "PRAGMA cipher_use_hmac = OFF;"; else echo "PRAGMA cipher_hmac_algorithm = HMAC_${hmac^^};"; fi
    [ "$header" = 0 ] || echo "PRAGMA cipher_plaintext_header_size = $header;"
    case $header$form in 0*) ;; *hex) echo "PRAGMA cipher_salt = \"x'${2#*,}'\";" ;; esac
}

line_of() { # line_of WORD KEY HEX SALT: the key line of this word, of a raw key or a passphrase where it has no other form
    local version size rounds kdf hmac header form
    read -r version size rounds kdf hmac header form <<< "$(settings_of "$1")"
    case $form-$header in
        text-0) echo "$2" ;;
        hex-0) echo "$3" ;;
        text-*) echo "${2%\'}$4'" ;;
        *) echo "$3,$4" ;;
    esac
}

key_of() { # key_of WORD: the key line of its file, in `old`
    local version size rounds kdf hmac header form
    read -r version size rounds kdf hmac header form <<< "$(settings_of "$1")"
    if [ "$rounds" -le 100 ] && [ "$header" = 0 ]; then old=$passphrase; else old=$raw; fi
    old=$(line_of "$1" "$old" "$(words | awk -v word="$1" '$1 == word { print $4 }')" "$salt")
}

new_of() { line_of "$1" "$new" 00C3A40aff "$new_salt"; }       # new_of WORD: a new key line for it, with another salt

unheaded() { sed -E 's/:plain-header=[0-9]+//' <<< "$1"; }     # unheaded WORD: the same without a plain header

asks() { # asks WORD KEY FILE: runs the SQL of standard input in the product
    { echo ".output /dev/null"; opened "$1" "$2"; echo ".output stdout"; cat; } | "$built" -batch "$3" 2> /dev/null
}

rows() {
    cat <<'SQL'
CREATE TABLE items(id INTEGER PRIMARY KEY, name TEXT, data BLOB, size INTEGER);
CREATE INDEX items_name ON items(name);
CREATE TABLE pairs(a TEXT, b INTEGER, c BLOB, PRIMARY KEY(b DESC, a)) WITHOUT ROWID;
BEGIN;
WITH RECURSIVE n(i) AS (SELECT 1 UNION ALL SELECT i + 1 FROM n WHERE i < 120)
INSERT INTO items SELECT i, 'item ' || (i * 7919 % 1000), zeroblob(i * 53 % 2500), i * 37 FROM n;
WITH RECURSIVE n(i) AS (SELECT 1 UNION ALL SELECT i + 1 FROM n WHERE i < 60)
INSERT INTO pairs SELECT 'pair ' || i, i % 11, zeroblob(i * 29 % 700) FROM n;
COMMIT;
SQL
}

turned() { # turned WORD: the same settings in the other order
    local part other=''
    for part in $(tr : '\n' <<< "${1#*:}" | tac); do other=$other:$part; done
    echo "${1%%:*}$other"
}

is_sound() { # is_sound WORD KEY FILE DUMP WHAT: the product finds it sound, and dumps these rows
    [ "$(echo 'PRAGMA integrity_check;' | asks "$1" "$2" "$3")" = ok ] || say "$5: the product does not find it sound"
    echo .dump | asks "$1" "$2" "$3" | cmp -s - "$4" || say "$5: the product dumps other rows"
}

answers() { # answers STATUS PATTERN KEY FILE WORDS..: how a command ends, and what its last line is
    local status=$1 pattern=$2 key=$3 found
    shift 3
    found=$(printf '%s\n' "$key" | "$program" "$@" 2> /dev/null; echo "status $?")
    [ "${found##*status }" = "$status" ] || say "${*:2}: ended with ${found##*status }"
    grep -qE "$pattern" <<< "$found" || say "${*:2}: printed other lines"
}

read_file() { # read_file WORD FILE FOUND
    local word=$1 file=$2 other
    other=$(line_of "$word" "$wrong" eeee "$salt")
    answers 0 '^page size' "$old" "$file" header "$word"
    answers 0 '^ok: ' "$old" "$file" verify "$word"
    answers 0 '^ok: ' "$old" "$file" verify "$(turned "$word")"
    answers 0 '^ok: ' "$old" "$file" agree "$word"
    answers 0 '^found: 20 rows' "$old" "$file" find "$word" items 1 20
    answers 0 'rows' "$old" "$file" salvage "$word"
    answers 0 '^nothing' '' "$file" recover "$word"
    answers 3 'key refused' "$other" "$file" verify "$word"
    case $(settings_of "$word") in
        *' off '*) answers 2 '^profile has no tags' "$old" "$file" tags "$word" ;;
        *) answers 0 '^tags hold' "$old" "$file" tags "$word" ;;
    esac
    # What a passphrase opens is sought below.
    [ "$old" = "$passphrase" ] && return
    case $word in *:key=hex*) return ;; esac
    case $3 in
        salt) answers 2 '^key with salt$' "$old" "$file" probe ;;
        none) answers 3 '^key refused' "$old" "$file" probe ;;
        *) answers 0 "^profile $3\$" "$old" "$file" probe ;;
    esac
}

keep_text() { # keep_text WORD FILE TEXT: what `export` prints of the file, to its last line
    asked "$old" "$2" export "$1" > "$3"
    [ "$(tail -n 1 "$3")" = end ] || say "export $1: it does not come to its end"
}

turn_copy() { # turn_copy FILE BYTE: a copy, FILE-turned, of which the lowest bit of this byte is turned
    cp "$1" "$1-turned"
    turn_bit "$1-turned" "$2"
}

refuse_lines() { # refuse_lines WORD FILE: lines of another form, which are refused as such
    local word=$1 file=$2 version size rounds kdf hmac header form line
    read -r version size rounds kdf hmac header form <<< "$(settings_of "$word")"
    if [ "$form" = hex ]; then
        for line in "${old}0" "$old " 'no digits' "$raw"; do
            answers 2 '^key is not hex$' "$line" "$file" verify "$word"
        done
    fi
    [ "$header" != 0 ] || return
    if [ "$form" = hex ]; then
        answers 2 '^key without salt$' "${old%,*}" "$file" verify "$word"
        answers 2 '^key is not hex$' "$old" "$file" verify "$(unheaded "$word")"
        answers 3 '^key refused$' "${old%,*},$new_salt" "$file" verify "$word"
    else
        answers 2 '^key without salt$' "${old:0:66}'" "$file" verify "$word"
        answers 2 '^key without salt$' "$passphrase" "$file" salvage "$word"
        answers 2 '^key with salt$' "$old" "$file" verify "$(unheaded "$word")"
        answers 3 '^key refused$' "${old:0:66}$new_salt'" "$file" verify "$word"
    fi
    # The file has its magic in the clear: under a word without a header no key fits it.
    answers 3 '^key refused$' "$raw" "$file" verify "$(unheaded "${word/:key=hex/}")"
}

# A plain header: its magic tells whether the key fits; the rest of it no tag covers, so of its change counter nothing is noticed, as the product
# notices nothing, and of its size in pages what a size is checked for. Behind it the tag covers each byte.
turn_header() { # turn_header WORD FILE DUMP
    local word=$1 file=$2 turned=$2-turned byte version size rounds kdf hmac header form
    read -r version size rounds kdf hmac header form <<< "$(settings_of "$word")"
    [ "$header" != 0 ] || return
    for byte in 0 15 "$header"; do
        turn_copy "$file" "$byte"
        answers 3 '^key refused$' "$old" "$turned" verify "$word"
    done
    [ "$header" -gt 16 ] || return
    asked "$old" "$file" tags "$word" > "$scratch/tags"
    keep_text "$word" "$file" "$scratch/text"
    turn_copy "$file" $((header - 1))
    asked "$old" "$turned" tags "$word" | cmp -s - "$scratch/tags" || say "tags $word: byte $((header - 1)) is covered by a tag"
    for byte in 24 27; do
        turn_copy "$file" "$byte"
        answers 0 '^ok: ' "$old" "$turned" verify "$word"
        asked "$old" "$turned" export "$word" | cmp -s - "$scratch/text" || say "export $word: byte $byte is turned, and the rows are others"
        is_sound "$word" "$old" "$turned" "$3" "$word with byte $byte turned"
    done
    turn_copy "$file" 28
    answers 2 "^file is too large: $(((1 << 24) + $(stat -c %s "$file") / size)) pages\$" "$old" "$turned" verify "$word"
    turn_copy "$file" 30
    answers 2 "^file is short: $(stat -c %s "$file") bytes\$" "$old" "$turned" verify "$word"
    asked "$old" "$turned" tags "$word" | cmp -s - "$scratch/tags" || say "tags $word: byte 30 is covered by a tag"
    # One page more or one fewer: the file ends too soon, or a page of a tree is not in it.
    turn_copy "$file" 31
    answers 2 '^(file is short|.* fault|.*page)' "$old" "$turned" verify "$word"
}

re_head() { # re_head WORD FILE DUMP: from a plain header to none and back, in the file and by a new one. Without one the file takes up the salt
    local word=$1 copy=$2 dump=$3 bare=3:2048:rounds=3 other line
    case $word in *:plain-header=*) ;; *) return ;; esac
    other=$(unheaded "$word")
    line=$(new_of "$other")
    answers 0 '^rekeyed' "$old"$'\n'"$line" "$copy" rekey "$word" "$other"
    [ "$(head -c 16 "$copy" | od -An -tx1 | tr -d " \n")" = "$salt" ] || say "rekey $word $other: the file does not begin with the salt of its old key line"
    is_sound "$other" "$line" "$copy" "$dump" "rekey $word $other"
    answers 0 '^rekeyed' "$line"$'\n'"$old" "$copy" rekey "$other" "$word"
    is_sound "$word" "$old" "$copy" "$dump" "rekey $other $word"
    answers 0 '^migrated' "$old"$'\n'"$new" "$copy" migrate "$word" "$bare"
    is_sound "$bare" "$new" "$copy" "$dump" "migrate $word $bare"
    answers 0 '^migrated' "$new"$'\n'"$old" "$copy" migrate "$bare" "$word"
    is_sound "$word" "$old" "$copy" "$dump" "migrate $bare $word"
}

play_rekey() { # play_rekey WORD OTHER FILE DUMP: a session under another key is refused, and one re-keys the file
    local word=$1 other=$2 copy=$3 dump=$4 found
    case $word in *:plain-header=* | *:key=hex*) ;; *) return ;; esac
    found=$(printf '%s\n' "open 1 $word $(new_of "$word")" 'share 1' "open 0 $word $old" 'share 0' 'reserve 0' "rekey 0 $other $(new_of "$other")" 'commit 0' |
        "$program" "$copy" play "$word" 2> /dev/null | tr '\n' ' ')
    [ "$found" = 'done key refused done done done done done ' ] || say "play $word: answers $found"
    is_sound "$other" "$(new_of "$other")" "$copy" "$dump" "play $word, rekey $other"
}

change_file() { # change_file WORD OTHER FILE DUMP
    local word=$1 other=$2 file=$3 dump=$4 copy=$3-copy line
    local size=$(cut -d ' ' -f 2 <<< "$(settings_of "$word")")
    line=$(new_of "$other")
    cp "$file" "$copy"
    answers 0 '^stamped' "$old" "$copy" stamp "$word" user-version 9
    [ "$(echo 'PRAGMA user_version;' | asks "$word" "$old" "$copy")" = 9 ] || say "stamp $word: the product reads another number"
    is_sound "$word" "$old" "$copy" "$dump" "stamp $word"
    answers 0 '^rekeyed' "$old"$'\n'"$line" "$copy" rekey "$word" "$other"
    is_sound "$other" "$line" "$copy" "$dump" "rekey $word $other"
    answers 0 '^rekeyed' "$line"$'\n'"$old" "$copy" rekey "$other" "$word"
    is_sound "$word" "$old" "$copy" "$dump" "rekey $other $word"
    answers 2 '^layout differs' "$old"$'\n'"$line" "$copy" rekey "$word" "$([ "$size" = 8192 ] && echo 4 || echo 4:8192)"
    answers 0 '^migrated' "$old" "$copy" migrate "$word" plain:4096
    [ "$(echo .dump | sqlcipher -batch "$copy" 2> /dev/null)" = "$(cat "$dump")" ] || say "migrate $word plain:4096: other rows"
    answers 0 '^migrated' "$old" "$copy" migrate plain:4096 "$word"
    is_sound "$word" "$old" "$copy" "$dump" "migrate plain:4096 $word"
    re_head "$word" "$copy" "$dump"
    play_rekey "$word" "$other" "$copy" "$dump"
    rm -f "$copy"
    line=$(new_of "$word")
    answers 0 '^made: 40 rows' "$line" "$copy" make "$word" 40
    [ "$(echo 'PRAGMA integrity_check; SELECT count(*) FROM items;' | asks "$word" "$line" "$copy" | tr '\n' ' ')" = 'ok 40 ' ] || say "make $word: the product finds something else"
    answers 0 '^ok: ' "$line" "$copy" verify "$word"
}

logged() { # logged WORD FILE: in WAL mode, with a log beside it, it is read under the setting `wal`, and `settle` lays the log
    local word=$1 file=$2 folder=$scratch/logged
    rm -rf "$folder" && mkdir "$folder"
    cp "$file" "$folder/now.db"
    { echo 'PRAGMA journal_mode = WAL; DELETE FROM pairs;'; echo ".shell cp $folder/now.db $folder/file.db; cp $folder/now.db-wal $folder/file.db-wal"; } | asks "$word" "$old" "$folder/now.db" > /dev/null
    [ -s "$folder/file.db-wal" ] || { leave_out "the log of $word, since the product made none"; return; }
    echo .dump | asks "$word" "$old" "$folder/now.db" > "$folder/dump"
    answers 0 '^ok: ' "$old" "$folder/file.db" verify "$word:wal"
    keep_text "$word:wal" "$folder/file.db" "$folder/text"
    answers 3 '^key refused$' "$(line_of "$word" "$wrong" eeee "$salt")" "$folder/file.db" verify "$word:wal"
    answers 2 'is only read' "$old" "$folder/file.db" stamp "${word%%:*}:wal:${word#*:}" user-version 1
    answers 0 '^settled: [1-9]' "$old" "$folder/file.db" settle "$word"
    asked "$old" "$folder/file.db" export "$word" | cmp -s - "$folder/text" || say "settle $word: the rows are not those that were read with the log"
    [ "$(echo 'SELECT count(*) FROM pairs;' | asks "$word" "$old" "$folder/file.db")" = 0 ] || say "settle $word: the product finds rows that the log has removed"
    is_sound "$word" "$old" "$folder/file.db" "$folder/dump" "settle $word"
}

interrupted() { # interrupted WORD FILE: the journal that the product has beside it in the midst of a transaction is played back
    local word=$1 file=$2 folder=$scratch/interrupted
    rm -rf "$folder" && mkdir "$folder"
    cp "$file" "$folder/now.db"
    keep_text "$word" "$file" "$folder/text"
    { echo 'PRAGMA cache_size = 1; BEGIN; UPDATE items SET data = zeroblob(2000);'; echo ".shell cp $folder/now.db $folder/file.db; cp $folder/now.db-journal $folder/file.db-journal"; } | asks "$word" "$old" "$folder/now.db" > /dev/null
    ! cmp -s "$folder/file.db" "$file" || say "$word: the product wrote no page before its commit"
    answers 0 '^played: [1-9]' '' "$folder/file.db" recover "$word"
    asked "$old" "$folder/file.db" export "$word" | cmp -s - "$folder/text" || say "recover $word: the rows are not those from before the transaction"
}

stops() { # stops FILE TEXT NAME WORD OTHER: a stop at each writing call
    local file=$1 text=$2 command=$3 word=$4 other=$5 name number stopped=0 copy=$scratch/stopped/file found line
    line=$(new_of "$other")
    rm -rf "$scratch/stopped" && mkdir "$scratch/stopped"
    cp "$file" "$copy"
    printf '%s\n' "$old" "$line" | traced "$scratch/calls" "$copy" "$command" "$word" "$other" > /dev/null 2>&1 || say "$command $word $other: it fails under strace"
    list_stops "$scratch/calls" > "$scratch/stops"
    while read -r name number; do
        rm -rf "$scratch/stopped" && mkdir "$scratch/stopped" && cp "$file" "$copy"
        { printf '%s\n' "$old" "$line" | stopped_at "$name" "$number" "$copy" "$command" "$word" "$other" > /dev/null 2>&1; } 2> /dev/null
        stopped=$((stopped + 1))
        asked '' "$copy" recover "$word" > /dev/null
        found=none
        if asked "$old" "$copy" export "$word" | cmp -s - "$text"; then found=old; elif asked "$line" "$copy" export "$other" | cmp -s - "$text"; then found=new; fi
        [ "$found" != none ] || say "$command $word $other: stopped at $name $number, and neither the old nor the new is there"
    done < "$scratch/stops"
    echo "$stopped" >> "$scratch/stopped-at"
}

files=0
while read -r word other found _; do
    key_of "$word"
    file=$scratch/${word//[:=]/-}.db
    rows | asks "$word" "$old" "$file" > /dev/null
    echo .dump | asks "$word" "$old" "$file" > "$scratch/dump"
    grep -q INSERT "$scratch/dump" || { say "$word: the product made no file"; continue; }
    files=$((files + 1))
    read_file "$word" "$file" "$found"
    refuse_lines "$word" "$file"
    turn_header "$word" "$file" "$scratch/dump"
    change_file "$word" "$other" "$file" "$scratch/dump"
done < <(words)

sha256=4:rounds=30:kdf=sha256:hmac=sha256
headed=4:65536:plain-header=48:rounds=2:hmac=sha1:key=hex
for word in "$sha256" 4:plain-header=32 "$headed" 4:rounds=30:key=hex; do
    key_of "$word"
    logged "$word" "$scratch/${word//[:=]/-}.db"
done
for word in 4:plain-header=32 4:1024:hmac=sha256:plain-header=96 4:rounds=30:key=hex; do
    key_of "$word"
    interrupted "$word" "$scratch/${word//[:=]/-}.db"
done
if can_trace; then
    for words in "rekey 3:4096:rounds=1 3:4096" "migrate $sha256 3:2048:hmac=off" "rekey $headed 4:65536:plain-header=16:hmac=sha256" "migrate $headed 4:plain-header=32" \
        "rekey $headed 4:65536:hmac=sha1:rounds=2" "rekey $sha256 $sha256:plain-header=32"; do
        read -r command word other <<< "$words"
        file=$scratch/${word//[:=]/-}.db
        key_of "$word"
        keep_text "$word" "$file" "$scratch/text"
        stops "$file" "$scratch/text" "$command" "$word" "$other"
    done
else
    leave_out "the stops, since strace is missing or may not trace"
fi

# Files that version 3 itself wrote, with pages of 4,096 bytes and one round: to a raw key the rounds don't matter.
while read -r key found; do
    rm -f "$scratch/one.db"
    { echo "PRAGMA key = '$(quoted "$key")'; PRAGMA kdf_iter = 1; PRAGMA cipher_page_size = 4096;"; rows; } | sqlcipher -batch "$scratch/one.db" > /dev/null 2>&1
    answers 0 '^ok: ' "$key" "$scratch/one.db" verify 3:4096:rounds=1
    answers 0 "^profile $found\$" "$key" "$scratch/one.db" probe
done <<< "$raw 3:4096
passphrase 3:4096:rounds=1"
rows | asks 4:rounds=1 passphrase "$scratch/none.db" > /dev/null
answers 3 'key refused' passphrase "$scratch/none.db" probe

finish "$files files, $(awk '{ sum += $1 } END { print sum + 0 }' "$scratch/stopped-at" 2> /dev/null) stops"
