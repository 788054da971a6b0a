#!/usr/bin/env bash
# What the program does at its edge: standard streams that are closed or full, files of every kind and place, files that
# change under it, words that are no text. Each row has the status, the lines of standard output and a piece of standard
# error, worked out by hand from the README. Rows on permissions are run as nobody where this runs as root.
set -u
. "$(dirname "$0")/common.sh"
begin 'edges'
oracle=$top/tests/reference/oracle/sqlcipher_oracle.py
rows=0

cp "$program" "$scratch/tool" && chmod 755 "$scratch" "$scratch/tool" || exit 1
mkdir "$scratch/work" && cd "$scratch/work" || exit 1
tool=$scratch/tool

k0="x'000102030405060708090a0b0c0d0e0f101112131415161718191a1b1c1d1e1f'"
printf '%s\n' "$k0" > key
printf 'old\n' > passphrase
"$tool" file.db make 4 40 < key > made || exit 1
pages=$(($(stat -c %s file.db) / 4096))
hold="tags hold: $pages pages"

row() { # row STATUS OUTPUT ERRORS COMMAND: ERRORS has a piece of each line on standard error, a line each, and is empty where there is no line
    local status=$1 output=$2 errors=$3 command=$4 found
    (eval "$command") > "$scratch/output" 2> "$scratch/errors"
    found=$?
    rows=$((rows + 1))
    [ -s "$scratch/errors" ] || : > "$scratch/errors"
    # The system's table of locks may miss one for a moment while others come and go. That is said, and no row but those that ask for it is on that.
    case $errors in *"could not be looked for"*) ;; *) sed -i '/other programs could not be looked for/d' "$scratch/errors" ;; esac
    # The program is called without its launcher, so no lock is held; tests/company.py looks when that is said.
    sed -i '/lock on the file is not held/d' "$scratch/errors"
    if [ "$found" -ne "$status" ] || [ "$(cat "$scratch/output")" != "$output" ] || ! says "$errors"; then
        say "$command: wanted $status, '$output' and '$errors'"
        echo "found $found, '$(head -c 300 "$scratch/output")' and"
        cat "$scratch/errors"
    fi
}

says() { # as many lines of the program as there are pieces, each with its piece; no line for no piece
    local line piece
    [ "$(wc -l < "$scratch/errors")" -eq "$(printf '%s' "${1:+$1$'\n'}" | wc -l)" ] || return 1
    while IFS= read -r line <&3 && IFS= read -r piece <&4; do
        case $line in "sqlcipher-tool: "*"$piece"*) ;; *) return 1 ;; esac
    done 3< "$scratch/errors" 4<<< "$1"
}

kept() { # kept NAME..: the file and the folder are as they were
    rows=$((rows + 1))
    if ! cmp -s file.db "$scratch/file.db" || [ "$(LC_ALL=C ls -A)" != "$listing" ]; then
        say "the files have changed"
        ls -lA
    fi
}

cp file.db "$scratch/file.db"
listing=$(LC_ALL=C ls -A)

# Standard streams that are closed, in each combination. The status is that of the stream that fails first.
row 0 "$hold" '' '"$tool" file.db tags 4 < key'
row 6 '' 'standard input: read: Bad file descriptor' '"$tool" file.db tags 4 <&-'
row 5 '' 'standard output: write: Bad file descriptor' '"$tool" file.db tags 4 < key >&-'
row 0 "$hold" '' '"$tool" file.db tags 4 < key 2>&-'
row 6 '' 'standard input: read: Bad file descriptor' '"$tool" file.db tags 4 <&- >&-'
row 6 '' '' '"$tool" file.db tags 4 <&- 2>&-'
row 5 '' '' '"$tool" file.db tags 4 < key >&- 2>&-'
row 6 '' '' '"$tool" file.db tags 4 <&- >&- 2>&-'
row 5 '' 'standard output: write: Bad file descriptor' '"$tool" >&-'
row 5 '' 'standard output: write: Bad file descriptor' '"$tool" --help >&-'
if can_trace; then
    for closed in '0<&-' '1>&-' '2>&-' '0<&- 1>&-' '0<&- 2>&-' '1>&- 2>&-' '0<&- 1>&- 2>&-'; do
        # shellcheck disable=SC2016
        strace -o "$scratch/calls" bash -c 'eval "exec $3"; exec "$1" "$2" tags 4' - "$tool" "$PWD/file.db" "$closed" \
            < key > /dev/null 2>&1
        rows=$((rows + 1))
        ! grep -q '^openat.*file\.db.* = [012]$' "$scratch/calls" || say "with $closed a file has the number of a standard stream"
    done
else
    leave_out "the numbers of files beside closed streams, since strace is missing or cannot trace"
fi
kept

# Streams that fail.
row 5 '' 'standard output: write: No space left on device' '"$tool" file.db tags 4 < key > /dev/full'
row 5 '' 'standard output: write: No space left on device' '"$tool" --help > /dev/full'
row 6 '' 'standard input: read: Is a directory' '"$tool" file.db tags 4 < .'
row 0 "$hold" '' '"$tool" file.db tags 4 < key 2> /dev/full'
row 0 "$hold" '' 'cat key | "$tool" file.db tags 4'
row 0 "$hold" '' '"$tool" file.db tags 4 < key | cat'
row 5 '' 'standard output: write: Broken pipe' 'set -o pipefail; { sleep 0.3; "$tool" file.db tags 4 < key; } | :'
kept

# Words.
usage='--help lists the commands'
row 1 usage "$usage" '"$tool"'
row 1 usage '`5` is no version' '"$tool" file.db tags 5 < key'
row 1 usage "$usage" '"$tool" $'"'\\xff.db'"' tags 4 < key'
row 1 usage "$usage" '"$tool" file.db $'"'t\\xffgs'"' 4 < key'
row 1 usage 'unknown command `chek`; --help lists' '"$tool" file.db chek 4 < key'
row 1 usage 'unknown command `?[31mred`; --help' '"$tool" file.db $'"'\e[31mred'"' < key'
row 1 usage '`verify` takes the version that wrote the file, 1, 2, 3 or 4, which `probe` finds' '"$tool" file.db verify < key'
row 1 usage '`verify` takes a version and nothing else' '"$tool" file.db verify 4 4 < key'
row 1 usage '`v4` is no version: there are 1, 2, 3 and 4, each with settings behind colons, and `probe` finds that of a file' '"$tool" file.db verify v4 < key'
row 1 usage '`4:512` is no version: `512`: the pages of encrypted files have 1024, 2048, 4096,' '"$tool" file.db tags 4:512 < key'
row 1 usage '`4:` is no version: ``: the pages of encrypted files have' '"$tool" file.db rekey 4 4: < key'
for word in plain plain: plain:256 plain:131072 plain:04096 plain:4k 'plain 4096'; do
    row 1 usage "the pages of plain files have 512, 1024, 2048," "\"\$tool\" file.db verify '$word' < key"
done
row 1 usage '`Plain:4096` is no version: there are' '"$tool" file.db migrate 4 Plain:4096 < key'
row 1 usage '`verify` takes the version that wrote the file, 1, 2, 3 or 4, which `probe` finds, or of a plain file plain:SIZE' '"$tool" file.db verify < key'
while IFS='|' read -r word part what; do
    row 1 usage "\`$word\` is no version: \`$part\`: $what" "\"\$tool\" file.db verify '$word' < key"
done <<'PARTS'
4:hmac=sha2|hmac=sha2|hmac=sha1, hmac=sha256, hmac=sha512 or hmac=off
4:1024:kdf=off|kdf=off|kdf=sha1, kdf=sha256 or kdf=sha512
3:rounds=0|rounds=0|rounds=1 to rounds=2147483647
3:rounds=2147483648:kdf=x|rounds=2147483648|rounds=1 to rounds=2147483647
3:4096:4096|4096|it is given twice
4:rounds=1:wal:rounds=1|rounds=1|it is given twice
4:04096|04096|the pages of encrypted files have
plain:4096:rounds=1|rounds=1|a plain file has no setting but the size of its pages and `wal`
4:plain-header=0|plain-header=0|plain-header=16, 32, 48, 64, 80 or 96, for pages with tags: version 1 and hmac=off have none
4:plain-header=20|plain-header=20|plain-header=16, 32, 48, 64, 80 or 96, for pages with tags: version 1 and hmac=off have none
4:plain-header=112|plain-header=112|plain-header=16, 32, 48, 64, 80 or 96, for pages with tags: version 1 and hmac=off have none
4:plain-header=032|plain-header=032|plain-header=16, 32, 48, 64, 80 or 96, for pages with tags: version 1 and hmac=off have none
4:plain-header=off|plain-header=off|plain-header=16, 32, 48, 64, 80 or 96, for pages with tags: version 1 and hmac=off have none
4:plain-header|plain-header|plain-header=16, 32, 48, 64, 80 or 96, for pages with tags: version 1 and hmac=off have none
1:plain-header=32|plain-header=32|plain-header=16, 32, 48, 64, 80 or 96, for pages with tags: version 1 and hmac=off have none
1:4096:plain-header=96:key=hex|plain-header=96|plain-header=16, 32, 48, 64, 80 or 96, for pages with tags: version 1 and hmac=off have none
3:hmac=off:plain-header=32|plain-header=32|plain-header=16, 32, 48, 64, 80 or 96, for pages with tags: version 1 and hmac=off have none
4:plain-header=16:rounds=9:hmac=off|plain-header=16|plain-header=16, 32, 48, 64, 80 or 96, for pages with tags: version 1 and hmac=off have none
4:plain-header=32:rounds=9:plain-header=16|plain-header=16|it is given twice
4:key=text|key=text|key=hex, where the key line is the passphrase in hex digits
4:key=HEX|key=HEX|key=hex, where the key line is the passphrase in hex digits
3:rounds=9:key=|key=|key=hex, where the key line is the passphrase in hex digits
4:key|key|key=hex, where the key line is the passphrase in hex digits
4:key=hex:wal:key=hex|key=hex|it is given twice
plain:4096:plain-header=32|plain-header=32|a plain file has no setting but the size of its pages and `wal`
plain:4096:key=hex|key=hex|a plain file has no setting but the size of its pages and `wal`
4:pages=1024|pages=1024|a setting is the size of a page, rounds=N, kdf=HASH, hmac=HASH, hmac=off, plain-header=N, key=hex or wal,
4:WAL|WAL|a file is read with its log under the setting `wal`
PARTS
row 1 usage '`make` takes a version, and how many rows' '"$tool" new.db make 4:8192 many < key'
row 1 usage '`5` is no version' '"$tool" file.db rekey 4 5 < key'
row 1 usage '`0` is no version' '"$tool" file.db stamp 0 user-version 7 < key'
row 1 usage '`stamp` takes a version, `user-version` or `application-id`' '"$tool" file.db stamp 4 user_version 7 < key'
row 1 usage '`migrate` takes two versions' '"$tool" file.db migrate 4 < key'
row 1 usage '`make` takes a version, and how many rows' '"$tool" new.db make 4 many < key'
find_words='`find` takes a version, the name of a table, and'
for words in '4' '4 items' '4 items 1' '4 items 1 2 3' '4 "" 1' '4 items "" 1' '4 items 1 ""' '4 items - 1' '4 items +1 2' '4 items --1 2' '4 items 1- 2' \
    '4 items 1.0 2' '4 items 1e3 2' '4 items 0x1 2' '4 items "1 " 2' '4 items " 1" 2' '4 items 1 "2 "' '4 items 1 1,000' '4 items one 2' '4 items 1 １' '4 items −1 1' \
    '4 items 9223372036854775808 9223372036854775808' '4 items 1 9223372036854775808' '4 items -9223372036854775809 1' '4 items 1 9999999999999999999' \
    '4 items 00000000000000000001 1' '4 items 1 -00000000000000000001' '4 items 1 $'"'1\n'"; do
    row 1 usage "$find_words" "\"\$tool\" file.db find $words < key"
done
row 1 usage '`find` takes a version, the name of a table, and' '"$tool" file.db find < key'
row 1 usage '`5` is no version' '"$tool" file.db find 5 items 1 1 < key'
row 1 usage '`items` is no version' '"$tool" file.db find items 1 1 < key'
row 1 usage "$usage" '"$tool" file.db find 4 $'"'\xff'"' 1 1 < key'
row 1 usage 'unknown command `Find`' '"$tool" file.db Find 4 items 1 1 < key'
row 1 usage '`probe` takes no further word' '"$tool" file.db probe 4 < key'
row 0 'sqlcipher-tool 0.1.0' '' '"$tool" --version'
"$tool" --help > "$scratch/help" 2> "$scratch/errors"
for asked in '-h' 'help' 'file.db --help'; do
    row 0 "$(cat "$scratch/help")" '' "\"\$tool\" $asked"
done
row 2 'profile has no tags' '' '"$tool" file.db tags 1 <&-'

# Rows by rowid. In every tenth row of `file.db` the string of bytes is empty.
ten="row 10 null 'item-0000000010' x'' 0"
for words in '10 10' '0000000000000000010 010'; do
    row 0 "$ten"$'\n''found: 1 rows' '' "\"\$tool\" file.db find 4 items $words < key"
done
for words in '10 -0' '-0 0' '5 4' '41 9223372036854775807' '-9223372036854775808 0' '-9223372036854775808 -9223372036854775808' \
    '9223372036854775807 9223372036854775807' '9223372036854775807 -9223372036854775808'; do
    row 0 'found: 0 rows' '' "\"\$tool\" file.db find 4 items $words < key"
done
row 0 'found: 40 rows' '' '"$tool" file.db find 4 items -9223372036854775808 9223372036854775807 < key | tail -n 1'
row 0 '' '' '"$tool" file.db find 4 items -9223372036854775808 9223372036854775807 < key > found; "$tool" file.db export 4 < key > exported; grep "^row " exported | cmp - <(sed "\$d" found)'
row 5 '' 'standard output: write: No space left on device' '"$tool" file.db find 4 items 1 9 < key > /dev/full'
row 3 'key refused' 'does not fit under version 4' 'echo other | "$tool" file.db find 4 none 1 1'
row 2 'key missing' 'before the key line: this command takes one' '"$tool" file.db find 4 none 1 1 < /dev/null'
row 2 'file is empty' 'absent.db: there is no such file' '"$tool" absent.db find 4 items 1 1 < key'
# A name that is an index, a table WITHOUT ROWID, a view, of another case, or nothing of the schema.
no_table='the schema has no table of this name'
for name in item 'items ' ' items' '"items"' "'items'" main.items sqlite_master sqlite_schema '' "it's" ïtems table; do
    row 2 'no such table' "$no_table" "\"\$tool\" file.db find 4 $(printf %q "$name") 1 1 < key"
done
other_case='is a table of almost this name: a name is compared byte for byte'
while IFS='|' read -r name says; do
    row 2 'no such table' "$says" "\"\$tool\" file.db find 4 $name 1 1 < key"
done << END
Items|\`items\` $other_case
ITEMS|\`items\` $other_case
Codes|\`codes\` $other_case
codes|\`codes\` is a table WITHOUT ROWID: its rows have no rowids; use \`export\`
items_name|\`items_name\` is an index: its entries have no rowids of their own; use \`export\`
Items_Name|\`items_name\` is an index
names|\`names\` is a view: it has no rows of its own
NAMES|\`names\` is a view
END
rm -f found exported
kept

# Rows of a damaged file. The last line stands on standard error too, since the output may be a file.
counts='salvaged: 44 rows, 0 lost, 0 refused pages'
told='; rows that were deleted may be among them'
row 0 "$counts" "$counts$told" '"$tool" file.db salvage 4 < key | tail -n 1'
row 0 "$counts" "$counts$told" '"$tool" file.db salvage 4:4096 < key | tail -n 1'
row 0 '' "$counts$told" '"$tool" file.db export 4 < key > exported; "$tool" file.db salvage 4 < key > found; grep "^row " exported | cmp - <(sed -E "1,4d; \$d; s/^row [0-9]+ /row /" found)'
row 1 usage '`salvage` takes the version that wrote the file, 1, 2, 3 or 4, which `probe` finds' '"$tool" file.db salvage < key'
row 1 usage '`salvage` takes a version and nothing else' '"$tool" file.db salvage 4 items < key'
row 1 usage '`salvage` takes a version and nothing else' '"$tool" file.db salvage 4 4 < key'
row 1 usage '`5` is no version' '"$tool" file.db salvage 5 < key'
row 1 usage '`4:512` is no version' '"$tool" file.db salvage 4:512 < key'
row 1 usage 'unknown command `Salvage`' '"$tool" file.db Salvage 4 < key'
row 5 '' 'standard output: write: No space left on device' '"$tool" file.db salvage 4 < key > /dev/full'
row 5 '' 'standard output: write: Bad file descriptor' '"$tool" file.db salvage 4 < key >&-'
row 6 '' 'standard input: read: Bad file descriptor' '"$tool" file.db salvage 4 <&-'
row 2 'key missing' 'before the key line: this command takes one' '"$tool" file.db salvage 4 < /dev/null'
row 2 'key with salt' 'give the first 64 digits alone' 'sed "s/1f/&&&&&&&&&&&&&&&&&/" key | "$tool" file.db salvage 4'
no_page='the key opens no page of the file under version'
row 3 'key refused' "$no_page 4" 'echo other | "$tool" file.db salvage 4'
row 3 'key refused' "$no_page 3" '"$tool" file.db salvage 3 < key'
row 3 'key refused' 'ends in a carriage return' 'printf "%s\r\n" "$k0" | "$tool" file.db salvage 4'
row 2 'file is empty' 'absent.db: there is no such file' '"$tool" absent.db salvage 4 < key'
# Page 1 is damaged, but for the salt, and then the salt. What refuses it speaks of `salvage`.
cp file.db broken.db && dd if=/dev/zero of=broken.db bs=16 seek=1 count=255 conv=notrunc status=none
row 3 'key refused' 'Where the first page is damaged, `salvage 4`' '"$tool" broken.db verify 4 < key'
row 0 'page 1: tag refused' "salvaged: 40 rows, 0 lost, 1 refused pages$told" '"$tool" broken.db salvage 4 < key > found; head -n 1 found'
row 0 '' '' 'grep "^row " exported | cmp - <(sed -E "1d; \$d; s/^row [0-9]+ /row /" found)'
row 4 '' $'broken.db: another run of sqlcipher-tool has the file\nbroken.db: it was not touched' 'flock broken.db "$tool" broken.db salvage 4 < key'
turn_bit broken.db 0
row 3 'key refused' "$no_page 4" '"$tool" broken.db salvage 4 < key'
rm -f found exported broken.db
kept

# Scripts of sessions: what standard error says where one ends early, and what of it stays.
no_step='a step is `open S PROFILE KEY`, `share S`, `read S N AT`'
unchanged='no line of the script has changed the file'
stays='what was committed stays in the file'
row 1 usage '`play` takes the version that wrote the file, 1, 2, 3 or 4, which `probe` finds' '"$tool" file.db play < key'
row 1 usage '`play` takes a version and nothing else' '"$tool" file.db play 4 4 < key'
row 1 usage '`5` is no version' '"$tool" file.db play 5 < key'
row 1 usage 'unknown command `Play`' '"$tool" file.db Play 4 < key'
row 0 '' '' '"$tool" file.db play 4 < /dev/null'
row 0 'done' '' 'echo stop | "$tool" file.db play 4'
row 0 'done' '' 'printf stop | "$tool" file.db play 4'
row 2 'line 1: no step' "line 1 of the script is no step: $no_step"$'\n'"$unchanged" '"$tool" file.db play 4 < key'
row 2 'line 1: too long' "line 1 of the script is longer than 1,100 bytes: $no_step"$'\n'"$unchanged" 'head -c 1101 /dev/zero | "$tool" file.db play 4'
row 2 'more than 100000 lines' "the script goes on after its first 100,000 lines"$'\n'"$unchanged" 'yes stop | "$tool" file.db play 4 | tail -n 1; exit "${PIPESTATUS[1]}"'
row 6 '' $'standard input: read: Is a directory\n'"$unchanged" '"$tool" file.db play 4 < .'
row 6 '' $'standard input: read: Bad file descriptor\n'"$unchanged" '"$tool" file.db play 4 <&-'
row 5 '' $'standard output: write: No space left on device\n'"$unchanged" 'echo stop | "$tool" file.db play 4 > /dev/full'
row 5 '' $'standard output: write: Bad file descriptor\n'"$unchanged" 'echo stop | "$tool" file.db play 4 >&-'
row 4 '' $'file.db: another run of sqlcipher-tool has the file\nfile.db: it was not touched' 'echo stop | flock file.db "$tool" file.db play 4'
row 0 $'done\nfile is empty' 'absent.db: there is no such file' 'printf "open 0 4 %s\nshare 0\n" "$k0" | "$tool" absent.db play 4'
row 0 $'done\nkey refused' 'an answer of the script is `key refused`: the key or the profile that its session was opened with does not fit' \
    'printf "open 0 4 wrong\nshare 0\n" | "$tool" file.db play 4'
row 0 $'done\nkey refused' 'an answer of the script is `key refused`' 'printf "open 0 plain:4096\nshare 0\n" | "$tool" file.db play plain:4096'
kept
cp file.db played.db
printf 'open 0 4 %s\nshare 0\nreserve 0\nchange 0 2 4000 7\ncommit 0\nwalk 0\n' "$k0" > script
row 2 $'done\ndone\ndone\ndone\ndone\nline 6: no step' "line 6 of the script is no step: $no_step"$'\n'"$stays" '"$tool" played.db play 4 < script'
row 1 '' '' 'cmp -s file.db played.db'
rm -f played.db script
kept

# Where the file lies.
mkdir real linked
cp file.db real/app.db
ln -s ../real/app.db linked/app.db
ln -s linked/app.db twice.db
ln -s real folder
ln -s nowhere.db dangling.db
ln -s loop.db loop.db
for path in "$PWD/real/app.db" ./real/app.db real/../real/app.db linked/app.db twice.db folder/app.db; do
    row 0 "$hold" '' "\"\$tool\" $path tags 4 < key"
done
row 0 "$hold" '' 'cd linked && "$tool" app.db tags 4 < ../key'
touch real/app.db-journal
row 2 'journal is there' 'on a copy of both' '"$tool" linked/app.db probe < key'
for path in real/app.db linked/app.db twice.db folder/app.db; do
    touch real/app.db-journal
    row 0 'cold' 'app.db-journal: it had nothing to play back, and it was removed' "\"\$tool\" $path recover 4"
    row 1 '' '' '[ -e real/app.db-journal ]'
done
row 0 'nothing' '' '"$tool" linked/app.db recover 4'
touch linked/app.db-journal
row 0 "$hold" '' '"$tool" linked/app.db tags 4 < key'
row 4 '' 'dangling.db: resolve: No such file' '"$tool" dangling.db tags 4 < key'
row 4 '' 'loop.db: resolve: Too many levels of symbolic links' '"$tool" loop.db tags 4 < key'
row 2 'key missing' 'before the key line: this command takes one' '"$tool" loop.db tags 4 < /dev/null'
row 1 usage "$usage" '"$tool" loop.db'
row 2 'file is empty' 'absent.db: there is no such file' '"$tool" absent.db tags 4 < key'
row 0 'nothing' 'absent.db: there is no such file' '"$tool" absent.db recover 4'
row 2 'file is empty' 'new?line?.db: there is no such file' '"$tool" $'"'new\\nline\\e.db'"' tags 4 < key'
row 4 '' 'none: open: No such file or directory' '"$tool" none/absent.db tags 4 < key'
row 2 'file is empty' 'none/absent.db: there is no such file' '"$tool" none/absent.db probe < key'
row 4 '' 'file.db/app.db: resolve: Not a directory' '"$tool" file.db/app.db tags 4 < key'
: > empty.db
row 2 'file is empty' '' '"$tool" empty.db tags 4 < key'
long=$(printf 'n%.0s' {1..250})
row 4 '' "$long-journal: look up: File name too long" "\"\$tool\" $long tags 4 < key"
row 4 '' 'resolve: File name too long' "\"\$tool\" $long$long tags 4 < key"
row 4 '' 'resolve: File name too long' "\"\$tool\" \$(printf 'a/%.0s' {1..3000}) tags 4 < key"
cp file.db "${long:0:243}"
row 0 "$hold" '' "\"\$tool\" ${long:0:243} tags 4 < key"

# What is no regular file is not opened: to open a pipe would wait for ever.
mkfifo pipe.db
mkdir folder.db
cp file.db piped.db && mkfifo piped.db-journal
cp file.db beside.db && mkdir beside.db-journal
cp file.db led.db && ln -s nowhere led.db-journal
none='open: it is no regular file'
for path in pipe.db folder.db . /dev/null /dev/full; do
    row 4 '' "$none" "timeout 20 \"\$tool\" $path tags 4 < key"
    row 4 '' "$none" "timeout 20 \"\$tool\" $path probe < key"
done
for path in piped.db beside.db led.db; do
    row 4 '' "$path-journal: $none" "timeout 20 \"\$tool\" $path tags 4 < key"
    row 4 '' "$path-journal: $none" "timeout 20 \"\$tool\" $path probe < key"
done

# Permissions, which do not bind a privileged user.
as_nobody=
[ "$(id -u)" -ne 0 ] || as_nobody='setpriv --reuid=65534 --regid=65534 --clear-groups'
if [ -z "$as_nobody" ] || $as_nobody "$tool" --version > /dev/null; then
    mkdir open closed hidden
    cp file.db open/app.db && cp file.db closed/app.db && cp file.db hidden/app.db
    cp file.db unreadable.db && chmod 000 unreadable.db
    chmod 555 open && chmod 644 closed && chmod 711 hidden
    row 0 "$hold" '' "$as_nobody \"\$tool\" open/app.db tags 4 < key"
    row 0 "$hold" '' "cd open && $as_nobody \"\$tool\" app.db tags 4 < ../key"
    row 4 '' 'hidden: open: Permission denied' "$as_nobody \"\$tool\" hidden/app.db tags 4 < key"
    row 0 'profile 4' '' "$as_nobody \"\$tool\" hidden/app.db probe < key"
    row 4 '' 'closed/app.db: resolve: Permission denied' "$as_nobody \"\$tool\" closed/app.db tags 4 < key"
    row 4 '' 'unreadable.db: open: Permission denied' "$as_nobody \"\$tool\" unreadable.db tags 4 < key"
    # A file that may not be written gets no journal, which would bar it to those who only read.
    mkdir shut && cp file.db shut/app.db && chmod 444 shut/app.db && chmod 777 shut
    untouched=$'shut/app.db: open: Permission denied\nshut/app.db: it was not touched'
    row 4 '' "$untouched" "$as_nobody \"\$tool\" shut/app.db stamp 4 user-version 7 < key"
    row 4 '' "$untouched" "cat key key | $as_nobody \"\$tool\" shut/app.db rekey 4 4"
    row 0 "$hold" '' "$as_nobody \"\$tool\" shut/app.db tags 4 < key"
    row 1 '' '' '[ -e shut/app.db-journal ]'
    chmod 755 open closed hidden
else
    leave_out "rows on permissions, since setpriv is missing"
fi

# A file that is cut or removed while its lines wait in a full pipe. A page of zeros has no tag that holds.
mkfifo lines
waiting() { # waiting CHANGE: the status where the change comes after the first line
    { head -c 4096 file.db; head -c 32768000 /dev/zero; } > changing.db
    "$tool" changing.db tags 4 < key > lines &
    local tool_id=$! first
    exec 3< lines
    read -r first <&3
    eval "$1"
    cat <&3 > rest
    exec 3<&-
    wait "$tool_id"
}
row 4 '' 'changing.db: read: the file was cut while it was read' "waiting 'truncate -s 40960 changing.db'"
row 2 '' '`verify` looks at those that are' "waiting 'rm changing.db'"
row 0 'page 8001: tag refused' '' 'tail -n 1 rest'
row 4 '' $'another program wrote to the file meanwhile\nchanging.db: it was not touched' "waiting 'touch changing.db'"

# Long work shows how far it is where standard error is a terminal, and only there. To decrypt 1,000 MiB takes more than a second.
if has script; then
    "$tool" long.db make 1 0 < key > lines.txt 2> /dev/null && truncate -s 1048576000 long.db
    shown() { # shown WORDS: whether they stood on the terminal, and the line was taken away at the end
        script -qec '"$tool" long.db salvage 1 < key > lines.txt' terminal > /dev/null
        grep -qaF -- "$1" terminal && [ "$(tr -d '\r\n' < terminal | grep -aoF $'\e[K' | wc -l)" -ge 2 ]
    }
    export tool
    row 0 '' '' "shown 'MiB read; the file has 1000 MiB'"
    cp file.db long.db && truncate -s 629145600 long.db
    row 0 '' '`verify` looks at those that are' '"$tool" long.db tags 4 < key > lines.txt; [ $? -eq 2 ]'
    rm -f long.db lines.txt terminal
else
    leave_out "rows on a terminal, since script is missing"
fi

# Why the key is refused. No byte of the key is printed.
digits=${k0:2:64}
refused='key refused'
row 3 "$refused" 'does not fit under version 4: `probe` finds the version and the size of its pages. The README'"'"'s section "When the key is refused"' \
    'echo other | "$tool" file.db tags 4'
row 3 "$refused" 'the key fits under no version' 'echo other | "$tool" file.db probe'
row 3 "$refused" 'The first line is the old key' '(echo other; cat key) | "$tool" file.db rekey 4 4'
row 3 "$refused" 'a raw key is written x' "echo $digits | \"\$tool\" file.db tags 4"
row 3 "$refused" 'ends in a carriage return' 'printf "%s\r\n" "$k0" | "$tool" file.db tags 4'
row 3 "$refused" 'ends in a space' 'printf "%s \n" "$k0" | "$tool" file.db tags 4'
row 3 "$refused" 'begins and ends with a quote' 'printf "\"%s\"\n" "$k0" | "$tool" file.db tags 4'
row 3 "$refused" 'begins and ends with a quote' "echo \"'old'\" | \"\$tool\" file.db tags 4"
row 3 "$refused" 'under version 3' '"$tool" file.db header 3 < key'
row 3 "$refused" 'under version 4:1024: its settings are those that the program that wrote it gives to the product; `probe` tries the versions'"'"' own' '"$tool" file.db header 4:1024 < key'
{ printf 'SQLite format 3\0\0\0'; tail -c +19 file.db; } > plain.db
printf '\0' | dd of=plain.db bs=1 seek=20 conv=notrunc status=none
no_size='but names no size of pages that SQLite has: it is damaged, or SQLCipher wrote it with its first 16 bytes alone in the clear: then give 4:plain-header=16'
row 3 "$refused" "$no_size" '"$tool" plain.db tags 4 < key'
row 3 "$refused" "$no_size" "echo $digits | \"\$tool\" plain.db probe"
row 3 "$refused" 'does not fit under version 4' '{ printf "SQLite format 3\1"; tail -c +17 file.db; } > other.db; "$tool" other.db tags 4 < key'
rows=$((rows + 1))
for line in "$digits" "old carriage" 'quoted secret"'; do
    printf '%s\n' "$line" | "$tool" file.db tags 4 2>&1 > /dev/null | grep -qF -- "$line" && say "a key is shown: $line"
done

keep_64='so give the first 64 digits alone, as x'"'..'; where its first bytes are in the clear, as under :plain-header=32, it does not, and the line is right"
row 2 'key with salt' "$keep_64" "echo \"x'$digits${digits:0:32}'\" | \"\$tool\" file.db tags 4"

# Plain files: what an encrypted file, another size, a mode, reserved bytes and a missing key line are told by, and what the lines say.
unencrypted='the file begins with `SQLite format 3`: it is not encrypted. Give plain:1024 in the place of the version, and no key; `migrate plain:1024 4` encrypts it'
magic='the file does not begin with `SQLite format 3`, as every plain file does: it is encrypted, and `probe` finds the version by its key'
clear='sqlite.db: the new file holds every row in the clear; the old encrypted pages will be gone from this name, but not from the device'
raw='the new key was taken as a raw key'
pass='the new key was taken as a passphrase'
left_clear="the old file's rows in the clear are gone from this name, but not from the device"
row 0 'made: 40 rows, 90000 data bytes' '' '"$tool" sqlite.db make plain:1024 40 <&-'
cp sqlite.db kept.db
plain_pages=$(($(stat -c %s sqlite.db) / 1024))
while read -r words; do
    row 3 "$refused" "$unencrypted" "cat key key | \"\$tool\" sqlite.db $words"
done < <(commands 4 3 check part search change; commands 2 plain:1024 check change; commands 4:1024 3 check)
row 3 "$refused" 'it is not encrypted' '"$tool" sqlite.db verify 1 < key'
# (`salvage` takes each page by itself)
while read -r words; do
    row 3 "$refused" "$magic" "\"\$tool\" file.db $words <&-"
done < <(commands plain:4096 plain:512 check part change | grep -v '^salvage'; commands plain:512 plain:1024 check)
row 3 "$refused" "$magic" '"$tool" file.db migrate plain:4096 4 < key'
row 2 'profile has no tags' 'a plain file has no tags: `verify` checks its structure' '"$tool" sqlite.db tags plain:1024 <&-'
for words in 'plain:1024 4' '4 plain:1024' 'plain:1024 plain:1024' 'plain:1024 plain:512'; do
    row 2 'layout differs' 'a plain file has no key to change: `migrate` with the same words' "\"\$tool\" sqlite.db rekey $words <&-"
done
row 2 'header fault at 16: 1024' 'the pages of this file have 1024 bytes: give plain:1024' '"$tool" sqlite.db header plain:4096 <&-'
row 2 'header fault at 16: 1024' 'the pages of this file have 1024 bytes: give plain:1024' '"$tool" sqlite.db migrate plain:512 4 < key'
row 2 'file is short: 1024 bytes' 'the pages of this file have 1024 bytes: give plain:1024' 'head -c 1024 sqlite.db > short.db; "$tool" short.db verify plain:65536 <&-'
row 2 'file is short: 1024 bytes' 'it was cut' '"$tool" short.db verify plain:1024 <&-'
row 2 'key missing' 'from a plain file one is taken, the new key' '"$tool" sqlite.db migrate plain:1024 4 < /dev/null'
row 2 'key missing' 'to a plain file one is taken, the old key' '"$tool" file.db migrate 4 plain:1024 < /dev/null'
row 2 'key missing' 'this command takes one' '"$tool" file.db probe < /dev/null'
row 6 '' 'standard input: read: Bad file descriptor' '"$tool" sqlite.db migrate plain:1024 4 <&-'
row 0 'stamped' '' '"$tool" sqlite.db stamp plain:1024 user-version 0 <&-'
row 0 'found: 40 rows' '' '"$tool" sqlite.db find plain:1024 items 1 40 <&- | tail -n 1'
row 2 'no such table' "\`items\` $other_case" '"$tool" sqlite.db find plain:1024 Items 1 1 <&-'
row 2 'no such table' '`names` is a view' '"$tool" sqlite.db find plain:1024 names 1 1 <&-'
row 0 "$counts" "$counts$told" '"$tool" sqlite.db salvage plain:1024 <&- | tail -n 1'
row 0 'nothing' '' '"$tool" sqlite.db recover plain:1024 <&-'
row 2 'file is there' '`make` takes a new name' '"$tool" sqlite.db make plain:1024 1 <&-'
row 0 '' "$raw"$'\n'"$left_clear" '"$tool" sqlite.db migrate plain:1024 4 < key > lines.txt'
row 0 "$hold" '' '"$tool" sqlite.db tags 4 < key'
row 0 '' "$clear" '"$tool" sqlite.db migrate 4 plain:1024 < key > lines.txt'
row 0 '' "$clear" '"$tool" sqlite.db migrate plain:1024 4 < key > lines.txt 2> lines.txt; "$tool" sqlite.db migrate 4 plain:1024 < key > lines.txt'
row 0 "migrated: $plain_pages pages" '' '"$tool" sqlite.db migrate plain:1024 plain:1024 <&-'
row 0 '' "$raw"$'\n'"$left_clear"$'\nversion 1 has no tags' '"$tool" sqlite.db migrate plain:1024 1 < key > lines.txt'
row 0 '' "$clear" '"$tool" sqlite.db migrate 1 plain:1024 < key > lines.txt'
row 0 '' "$pass"$'\nof the new key: the key line ends in a space\n'"$left_clear"$'\nthe input goes on after the last key line' \
    'printf "old \n%s\n" "$k0" | "$tool" sqlite.db migrate plain:1024 3 > lines.txt'
# What is refused before it is written is not said to be in the clear.
cp file.db sqlite.db
row 3 "$refused" 'does not fit under version 4' 'echo other | "$tool" sqlite.db migrate 4 plain:1024'
row 4 '' $'sqlite.db: another run of sqlcipher-tool has the file\nsqlite.db: it was not touched' 'flock sqlite.db "$tool" sqlite.db migrate 4 plain:1024 < key'
row 5 '' "$clear"$'\nstandard output: write: No space left on device\nthe old one or the new one: `recover 4`, then `verify 4` and `verify plain:1024`, each with its own key' \
    '"$tool" sqlite.db migrate 4 plain:1024 < key > /dev/full'
row 0 '' '' 'cmp <("$tool" kept.db export plain:1024) <("$tool" sqlite.db export plain:1024)'
# A field of the header, put by hand.
field() { # field OFFSET BYTES WORDS: the words on a copy with these bytes there
    cp kept.db field.db
    # shellcheck disable=SC2059
    printf "$2" | dd of=field.db bs=1 seek="$1" conv=notrunc status=none
    # shellcheck disable=SC2086
    "$tool" field.db $3 <&-
}
row 2 'header fault at 20: 12' 'its pages have 12 reserved bytes: where SQLCipher wrote it with its first bytes in the clear' 'field 20 "\\014" "verify plain:1024"'
row 2 'header fault at 20: 80' '(`cipher_plaintext_header_size`), give 4:plain-header=32, and the key with its salt, x'"'"' and 96 hex digits and '"'"'; where SQLite wrote it, `sqlite3 FILE .dump | sqlite3 NEW`' 'field 20 "\\120" "header plain:1024"'
row 3 "$refused" 'the file begins with `SQLite format 3`, and its pages have 80 reserved bytes: where SQLCipher wrote it' 'field 20 "\\120" "header plain:1024" > lines.txt 2>&1; "$tool" field.db verify 4 < key'
row 2 'header fault at 16: 1' 'give plain:65536' 'field 16 "\\0\\1" "verify plain:1024"'
row 2 'header fault at 16: 1000' 'its header names no size of pages that SQLite has: the file is damaged' 'field 16 "\\3\\350" "verify plain:1024"'
row 2 'header fault at 21: 65' '' 'field 21 A "verify plain:1024"'
row 2 'WAL mode' $'`export plain:1024:wal` reads the file as it is\n`sqlite3 FILE \'PRAGMA journal_mode = DELETE\'`; of a copy, FILE-wal has to lie beside it\n`settle plain:1024` lays FILE-wal into the file, where it is there' 'field 18 "\\2\\2" "export plain:1024"'
row 0 "$counts" "$counts$told" 'field 18 "\\2\\2" "salvage plain:1024" | tail -n 1'
row 2 'auto-vacuum' $'`export plain:1024:wal` reads a file with auto-vacuum as it is\n`sqlite3 FILE \'PRAGMA auto_vacuum = 0; VACUUM\'`\n`settle plain:1024` lays FILE-wal into the file, where it is there' 'field 52 "\\0\\0\\0\\3" "migrate plain:1024 plain:4096"'
row 3 "$refused" "$magic" 'field 0 s "verify plain:1024"'
row 4 '' $'this write-ahead log holds newer pages of the database\n`verify plain:1024:wal` reads the file with its log\n`settle plain:1024` lays FILE-wal into the file, where it is there\nPRAGMA journal_mode = DELETE\'` takes the log into the file; a log that is another\nit was not touched' \
    'cp kept.db logged.db; echo > logged.db-wal; "$tool" logged.db verify plain:1024 <&-'
rm -f sqlite.db kept.db field.db short.db logged.db logged.db-wal

# A plain header: the salt comes with the key. A passphrase in hex: the line has no other form. A refusal by words or key line needs no file.
other_pages='the pages of these two versions differ: `migrate` writes the database anew'
salt=a0a1a2a3a4a5a6a7a8a9aaabacadaeaf
salted="x'$digits$salt'"
printf '%s\n' "$salted" > salted
unsalted='does not hold its salt: the key line is x'"'"' and 96 hex digits and '"'"', the raw key and the salt behind it, or under :key=hex'
not_hex='under :key=hex the key line is the passphrase in hex digits, two a byte, and nothing else: 616263 is abc'
row 0 'made: 1 rows, 500 data bytes' 'the new key was taken as a raw key with its salt, which the file does not hold: keep the line' '"$tool" headed.db make 4:plain-header=32 1 < salted'
row 0 'made: 1 rows, 500 data bytes' 'the new key was taken as a passphrase in hex digits' 'echo 6f6c64 | "$tool" hex.db make 4:rounds=9:key=hex 1'
row 0 'made: 1 rows, 500 data bytes' 'the new key was taken as a passphrase in hex digits, with its salt, which the file does not hold: keep the line' \
    'rm headed.db; echo "6f6c64,$salt" | "$tool" headed.db make 4:rounds=9:plain-header=32:key=hex 1'
# The same file under a raw key. A key line that has one form alone is not asked what else it may have been meant as.
row 0 '' 'the new key was taken as a raw key with its salt, which the file does not hold: keep the line' '(echo "6f6c64,$salt"; cat salted) | "$tool" headed.db rekey 4:rounds=9:plain-header=32:key=hex 4:plain-header=32 > lines.txt'
row 0 '' 'the new key was taken as a passphrase in hex digits' '(echo 6f6c64; echo "$digits") | "$tool" hex.db rekey 4:rounds=9:key=hex 4:rounds=9:key=hex > lines.txt'
# Two lines that are the same are two keys where one of them is in hex.
row 0 '' "$pass"$'\nof the new key: the key line is 64 hex digits' '(echo "$digits"; echo "$digits") | "$tool" hex.db rekey 4:rounds=9:key=hex 4:rounds=9 > lines.txt'
row 0 '' "$raw" '(echo "$digits"; cat key) | "$tool" hex.db rekey 4:rounds=9 4 > lines.txt'
row 0 '' "$pass"$'\nof the new key: the key line is 64 hex digits' '(cat key; echo "$digits") | "$tool" hex.db rekey 4 4:rounds=9 > lines.txt'
for name in headed.db absent.db; do
    while IFS='|' read -r status line says words keys; do
        row "$status" "$line" "$says" "printf '%b' \"$keys\" | \"\$tool\" $name $words"
    done << END
2|key without salt|$unsalted|verify 4:plain-header=32|$k0\n
2|key without salt|$unsalted|header 4:plain-header=16|old\n
2|key without salt|$unsalted|salvage 4:plain-header=96|$salted \n
2|key without salt|$unsalted|find 4:key=hex:plain-header=32 items 1 1|6f6c64\n
2|key without salt|$unsalted|export 4:plain-header=32:wal|$k0\n
2|key without salt|$unsalted|settle 4:plain-header=32|$k0\n
2|key without salt|$unsalted|stamp 4:plain-header=32 user-version 7|$k0\n
2|key without salt|$unsalted|rekey 4:plain-header=32 4:plain-header=48|$k0\n$salted\n
2|key without salt|$unsalted|rekey 4:plain-header=32 4:plain-header=48|$salted\n$k0\n
2|key without salt|$unsalted|migrate 4 4:plain-header=32|$k0\n$k0\n
2|key without salt|$unsalted|migrate plain:4096 4:plain-header=32|$k0\n
2|key with salt|$keep_64|verify 4|$salted\n
2|key with salt|$keep_64|probe|$salted\n
2|key with salt|$keep_64|settle 4|$salted\n
2|key with salt|$keep_64|migrate 4:plain-header=32 4|$salted\n$salted\n
2|key is not hex|$not_hex|verify 4:key=hex|old\n
2|key is not hex|$not_hex|agree 4:key=hex|6f6c6\n
2|key is not hex|$not_hex|tags 4:key=hex|6f 6c 64\n
2|key is not hex|$not_hex|tags 4:key=hex|6f6c64\r\n
2|key is not hex|$not_hex|verify 4:key=hex|$k0\n
2|key is not hex|$not_hex|verify 4:key=hex|6f6c64,$salt\n
2|key is not hex|$not_hex|verify 4:key=hex:plain-header=32|$salted\n
2|key is not hex|$not_hex|verify 4:key=hex:plain-header=32|,$salt\n
2|key is not hex|$not_hex|verify 4:key=hex:plain-header=32|6f6c64,${salt:2}\n
2|key is not hex|$not_hex|rekey 4 4:key=hex|$k0\nold\n
2|key is not hex|$not_hex|migrate plain:4096 4:key=hex|old\n
2|key empty|a key line is empty|verify 4:key=hex|\n
2|key missing|before the key line: this command takes one|verify 4:plain-header=32|
2|layout differs|$other_pages|rekey 3 4:1024:plain-header=32|
2|layout differs|$other_pages|rekey 4:plain-header=32:rounds=9 4:hmac=sha1:key=hex|
2|key missing|this command takes two, the old key and the new one|rekey 4 4:plain-header=32|
2|key without salt|$unsalted|rekey 4 4:plain-header=32|$k0\n$k0\n
2|key with salt|$keep_64|rekey 4:plain-header=32 4|$salted\n$salted\n
2|layout differs|a plain file has no key to change|rekey 4:plain-header=32 plain:4096|
END
    row 2 'key without salt' "$unsalted" "\"\$tool\" new-$name make 4:plain-header=32 1 < key"
    row 2 'key is not hex' "$not_hex" "echo old | \"\$tool\" new-$name make 4:key=hex 1"
    row 2 'key too long' 'at most 1,024 bytes' "head -c 1025 < <(yes 61 | tr -d '\\n') | \"\$tool\" $name verify 4:key=hex"
    row 1 '' '' "[ -e new-$name ]"
done
row 0 'made: 1 rows, 500 data bytes' 'the new key was taken as a passphrase in hex digits' 'rm hex.db; head -c 1024 < <(yes 61 | tr -d "\n") | "$tool" hex.db make 4:rounds=1:key=hex 1'
# What a refused key may come of, where the word is of a file with a plain header and where it should be.
not_clear='the key, its salt or a setting is not the file'"'"'s, or the file does not begin with `SQLite format 3`: then its first bytes are not in the clear, or they are damaged'
headed='its pages have 80 reserved bytes: where SQLCipher wrote it with its first bytes in the clear (`cipher_plaintext_header_size`), give 4:plain-header=32'
row 2 'header fault at 20: 80' "$headed" '"$tool" headed.db verify plain:4096 <&-'
row 3 "$refused" "the file begins with \`SQLite format 3\`, and $headed" '"$tool" headed.db verify 4 < key'
row 3 "$refused" "the file begins with \`SQLite format 3\`, and $headed" '"$tool" headed.db probe < key'
row 3 "$refused" "$not_clear" '"$tool" headed.db verify 4:plain-header=48 < salted'
row 3 "$refused" "$not_clear" 'tr 1 2 < salted | "$tool" headed.db salvage 4:plain-header=32'
row 3 "$refused" "$not_clear" '"$tool" file.db verify 4:plain-header=32 < salted'
row 3 "$refused" "$not_clear" 'printf s | dd of=headed.db conv=notrunc status=none; "$tool" headed.db verify 4:plain-header=32 < salted'
rm -f headed.db hex.db salted

# A new key that may have been meant otherwise. The old key is not spoken of.
other="x'ffffffffffffffffffffffffffffffffffffffffffffffffffffffffffffffff'"
printf '%s\n' "$k0" "$other" > keys
cp file.db rekeyed.db
row 2 'key missing' 'this command takes two, the old key and the new one' '"$tool" rekeyed.db rekey 4 4 < key'
row 2 'key missing' 'this command takes two, the old key and the new one' '"$tool" rekeyed.db migrate 4 3 < key'
row 2 'key missing' 'the file of the first key has no line feed at its end' '(head -c 67 key; head -c 67 key) | "$tool" rekeyed.db rekey 4 4'
row 2 'key empty' 'a key line is empty' 'echo | "$tool" rekeyed.db tags 4'
row 2 'key too long' 'at most 1,024 bytes' 'head -c 1025 /dev/zero | "$tool" rekeyed.db tags 4'
row 2 'layout differs' "$other_pages" '"$tool" rekeyed.db rekey 4 3 < keys'
row 2 'layout differs' "$other_pages" '"$tool" rekeyed.db rekey 4 4:8192 < keys'
row 2 'file is there' '`make` takes a new name' '"$tool" rekeyed.db make 4 1 < key'
row 0 "rekeyed: $pages pages" "$raw" '"$tool" rekeyed.db rekey 4 4 < keys'
row 0 "rekeyed: $pages pages" "$pass"$'\nof the new key: the key line ends in a carriage return' \
    'printf "%s\n%s\r\n" "$other" "$k0" | "$tool" rekeyed.db rekey 4 4'
row 0 '' "$pass"$'\nof the new key: the key line is 64 hex digits' \
    'cp file.db migrated.db; printf "%s\n%s\n" "$k0" "$digits" | "$tool" migrated.db migrate 4 2 > lines.txt'
row 0 'made: 1 rows, 500 data bytes' "$pass"$'\nof the new key: the key line ends in a space' 'echo "old " | "$tool" made.db make 2 1'
set_key() { # set_key LINE: printf's text of the new key's line; the file is made anew under it
    rm -f new.db
    # shellcheck disable=SC2059
    printf "$1" | "$tool" new.db make 3 1 > lines.txt
}
row 0 '' "$pass"$'\nof the new key: the key line begins with a space' 'set_key " old\n"'
row 0 '' "$pass"$'\nof the new key: the key line has a tab' 'set_key "o\tld\n"'
row 0 '' "$pass"$'\nof the new key: the key line begins with a byte-order mark' 'set_key "\357\273\277old\n"'
row 0 '' "$pass"$'\nof the new key: the key line has a control byte' 'set_key "o\000ld\n"'
row 0 '' "$pass"$'\nof the new key: the key line begins as a raw key does' "set_key \"x'\${digits:1}'\\n\""
row 0 '' "$pass"$'\nof the new key: the key line is a statement' "set_key \"PRAGMA key = 'old';\\n\""
row 0 '' "$pass"$'\nthe input goes on after the last key line' 'set_key "old\na note\n"'
row 0 '' "$pass" 'set_key "old"'
row 0 '' "$pass"$'\nthe input goes on after the last key line' 'rm new.db; printf "old\n\n" > notes; "$tool" new.db make 3 1 < notes > lines.txt'
# What follows in a file is left to the next program.
row 0 'a note' '' 'rm new.db; printf "old\na note\n" > notes; { "$tool" new.db make 3 1 > lines.txt 2> lines.txt; cat; } < notes'
row 0 "rekeyed: $pages pages" "$raw"$'\nthe new key is the old one' 'cp file.db same.db; (cat key; tr abcdef ABCDEF < key) | "$tool" same.db rekey 4 4'
row 0 '' "$raw"$'\nversion 1 has no tags' 'cp file.db same.db; cat key key | "$tool" same.db migrate 4 1 > lines.txt'

# The output fails after the work, or the disk in its midst: the file is one of two, and the lines say so.
full='standard output: write: No space left on device'
cp file.db ended.db
row 5 '' "$full"$'\n''under the old key or under the new one' '"$tool" ended.db rekey 4 4 < keys > /dev/full'
row 0 "$hold" '' 'tail -n 1 keys | "$tool" ended.db tags 4'
row 5 '' "$full"$'\n''with the old number or with the new one' 'tail -n 1 keys | "$tool" ended.db stamp 4 user-version 7 > /dev/full'
row 5 '' "$full"$'\n''there is no file, or the whole one' '"$tool" filled.db make 4 1 < key > /dev/full'
row 5 '' "$full" '"$tool" ended.db rekey 4 4 < keys > /dev/full'
if can_trace; then
    cp file.db partly.db
    row 4 '' $'partly.db-migrated: write: No space left\npartly.db: it was not touched' \
        'strace -f -qq -o /dev/null -e trace=pwrite64 -e inject=pwrite64:error=ENOSPC:when=3 "$tool" partly.db migrate 4 4 < keys'
    row 0 '' '' 'cmp partly.db file.db && [ ! -e partly.db-migrated ]'
    row 4 '' $'partly.db-migrated: rename: Operation not permitted\nunder the old key or under the new one' \
        'strace -f -qq -o /dev/null -e trace=rename,renameat,renameat2 -e inject=rename,renameat,renameat2:error=EPERM "$tool" partly.db migrate 4 4 < keys'
    row 0 '' '' 'cmp partly.db file.db && [ ! -e partly.db-migrated ]'
    row 0 "migrated: $pages pages" "$raw" '"$tool" partly.db migrate 4 4 < keys'
    row 1 '' '' '[ -e partly.db-migrated ]'
    # Without random bytes no page is written, and the journal of the old ones is left.
    cp file.db drawn.db
    row 7 '' $'/dev/urandom: open: Input/output error\ndrawn.db: it was not touched\ndrawn.db-journal: it was not begun to be used; `recover 4` removes it' \
        'strace -f -qq -o /dev/null -P /dev/urandom -e trace=open,openat -e inject=open,openat:error=EIO "$tool" drawn.db rekey 4 4 < keys'
    row 0 "played: $pages" "drawn.db-journal: $pages pages were played back from it into the file, and it was removed" '"$tool" drawn.db recover 4'
    row 0 '' '' 'cmp drawn.db file.db'
else
    leave_out "a call that fails in the midst of a migration or a rekey, since strace is missing or cannot trace"
fi

# What has the name of the new file is removed only where it is an unfinished one. Three commands speak of it.
cp file.db moved.db
echo precious > moved.db-migrated
row 4 '' $'moved.db-migrated: this file is in the way\nmove away what is there\nmoved.db: it was not touched' '"$tool" moved.db migrate 4 4 < keys'
row 4 '' $'fresh.db-migrated: this file is in the way\nmove away what is there\nfresh.db: it was not touched' \
    'cp file.db fresh.db-migrated; "$tool" fresh.db make 4 1 < key'
row 0 'precious' '' 'cat moved.db-migrated'
left='moved.db-migrated: it is there, and `migrate` and `make` refuse'
row 0 'nothing' "$left" '"$tool" moved.db recover 4'
row 0 'profile 4' "$left" '"$tool" moved.db probe < key'
row 0 '' "$left" '"$tool" moved.db verify 4 < key > lines.txt'
row 0 "$hold" '' '"$tool" moved.db tags 4 < key'
head -c 9000 /dev/zero > moved.db-migrated
row 0 'nothing' 'moved.db-migrated: an unfinished new file, or a second name of the file, and no part of the database; it may be removed' '"$tool" moved.db recover 4'
row 0 "migrated: $pages pages" "$raw" '"$tool" moved.db migrate 4 4 < keys'

# Who else has the file, and where nobody could be looked for.
cp file.db shared.db
row 4 '' $'shared.db: another run of sqlcipher-tool has the file\nshared.db: it was not touched' 'flock shared.db "$tool" shared.db tags 4 < key'
row 4 '' $'shared.db: another run of sqlcipher-tool has the file\nshared.db: it was not touched' 'flock shared.db "$tool" shared.db probe < key'
if unshare -m true 2> /dev/null; then
    nobody_seen='other programs could not be looked for'
    row 0 "$hold" "$nobody_seen" 'unshare -m sh -c '"'"'mount --bind /dev/null /proc/locks && "$0" shared.db tags 4 < key'"'"' "$tool"'
    row 0 "$hold" "$nobody_seen" 'unshare -m sh -c '"'"'mount -t tmpfs none /proc && "$0" shared.db tags 4 < key'"'"' "$tool"'
    row 0 'stamped' "$nobody_seen" 'unshare -m sh -c '"'"'mount -t tmpfs none /proc && "$0" shared.db stamp 4 user-version 7 < key'"'"' "$tool"'
else
    leave_out "rows without /proc, since unshare -m is not allowed"
fi

# Version 4 with pages of other sizes: probe names the size, and each command goes by it.
"$tool" sized.db make 4:65536 7 < key > made 2> "$scratch/errors" || exit 1
row 0 'profile 4:65536' '' '"$tool" sized.db probe < key'
row 3 "$refused" 'and the size of its pages' '"$tool" sized.db tags 4 < key'
row 0 'tags hold: 4 pages' '' '"$tool" sized.db tags 4:65536 < key'
row 0 'stamped' '' '"$tool" sized.db stamp 4:65536 user-version 7 < key'
row 0 'found: 0 rows' '' '"$tool" sized.db find 4:65536 items 8 9223372036854775807 < key'
row 0 'found: 7 rows' '' '"$tool" sized.db find 4:65536 items 1 7 < key | tail -n 1'
row 0 'salvaged: 11 rows, 0 lost, 0 refused pages' "$told" '"$tool" sized.db salvage 4:65536 < key | tail -n 1'
row 0 'rekeyed: 4 pages' "$raw" '"$tool" sized.db rekey 4:65536 4:65536 < keys'
row 0 '' "$raw" 'tac keys | "$tool" sized.db migrate 4:65536 4:1024 > lines.txt'
row 0 'profile 4:1024' '' '"$tool" sized.db probe < key'
row 0 'profile 4' '' '"$tool" file.db probe < key'
row 0 "$hold" '' '"$tool" file.db tags 4:4096 < key'

# A hot journal of pages of another size: the line says which version has them. Bytes 24 to 27 are the size.
hot_journal() { # hot_journal SIZE: beside a copy of the file, its size in hex
    cp file.db hot.db
    { printf '\xd9\xd5\x05\xf9\x20\xa1\x63\xd7\0\0\0\0\0\0\0\1\0\0\0\4\0\0\2\0'; printf "\\x${1:0:2}\\x${1:2:2}\\x${1:4:2}\\x${1:6:2}"; head -c 484 /dev/zero; } > hot.db-journal
}
hot_journal 00000400
row 2 'journal page size 1024' 'give 3, 2, 1 or 4:1024' '"$tool" hot.db recover 4'
row 2 'journal page size 1024' 'give 3, 2, 1 or 4:1024' '"$tool" hot.db tags 4:8192 < key'
row 2 'journal page size 1024' 'give 3, 2, 1 or 4:1024' '"$tool" hot.db salvage 4 < key'
row 0 'played: 0' 'it had nothing to play back' '"$tool" hot.db recover 4:1024'
hot_journal 00001000
row 2 'journal page size 4096' 'another size: give 4, or another version with this size, as 3:4096;' '"$tool" hot.db recover 3'
hot_journal 00010000
row 2 'journal page size 65536' 'give 4:65536' '"$tool" hot.db recover 4'
hot_journal 00000200
row 2 'journal page size 512' 'no version has such pages' '"$tool" hot.db recover 4'
row 2 'journal page size 512' 'another size: give plain:512; nothing was written' '"$tool" hot.db recover plain:4096'
row 2 'journal page size 512' 'another size: give plain:512; nothing was written' 'printf "SQLite format 3\0" | dd of=hot.db conv=notrunc status=none; "$tool" hot.db recover 4'
hot_journal 00000600
row 2 'journal page size 1536' 'and no file has such pages' '"$tool" hot.db verify plain:1024'
rm -f hot.db hot.db-journal

# A file that was cut.
head -c 10000 file.db > cut.db
row 2 'file is short: 10000 bytes' 'it was cut' '"$tool" cut.db verify 4 < key'
row 0 "row 1 1 'table' 'items'" "$told" '"$tool" cut.db salvage 4 < key | head -n 1 | cut -c -23'

# A table of any name: it is compared byte for byte, as it is stored.
if has_reference; then
    python3 "$oracle" file.db decrypt 4 named < key > made
    python3 - <<'PY'
import sqlite3
db = sqlite3.connect("named")
for number, name in enumerate(("it's \"so\"", "tàble ☃ ẞ", "-x", "", "Table", "5", "two\nlines", "a" * 900)):
    db.execute('CREATE TABLE "%s"(v)' % name.replace('"', '""'))
    db.execute('INSERT INTO "%s"(rowid, v) VALUES(?, ?)' % name.replace('"', '""'), (-number, name[:4]))
db.execute("CREATE TABLE altered(v)")
db.execute("INSERT INTO altered(rowid, v) VALUES(-9223372036854775808, 'least'), (9223372036854775807, 'most')")
db.execute("ALTER TABLE altered ADD COLUMN w DEFAULT 7")
db.execute("CREATE INDEX other ON altered(v)")
db.execute("CREATE TRIGGER ALTERED AFTER INSERT ON altered BEGIN SELECT 1; END")
db.commit()
PY
    python3 "$oracle" named.db encrypt 4 named < key
    row 0 $'row 0 \'it\\x27s\'\nfound: 1 rows' '' '"$tool" named.db find 4 "it'"'"'s \"so\"" 0 0 < key'
    row 0 $'row -1 \'t\\xc3\\xa0bl\'\nfound: 1 rows' '' '"$tool" named.db find 4 "tàble ☃ ẞ" -1 -1 < key'
    row 2 'no such table' "$no_table" '"$tool" named.db find 4 "tàble ☃ ß" -1 -1 < key'
    row 2 'no such table' "$no_table" '"$tool" named.db find 4 $'"'ta\\xcc\\x80ble ☃ ẞ'"' -1 -1 < key'
    row 0 $'row -2 \'-x\'\nfound: 1 rows' '' '"$tool" named.db find 4 -x -2 -2 < key'
    row 0 $'row -3 \'\'\nfound: 1 rows' '' '"$tool" named.db find 4 "" -3 -3 < key'
    row 0 $'row -4 \'Tabl\'\nfound: 1 rows' '' '"$tool" named.db find 4 Table -9 9 < key'
    row 2 'no such table' '`Table` is a table of almost this name' '"$tool" named.db find 4 table -9 9 < key'
    row 0 $'row -5 \'5\'\nfound: 1 rows' '' '"$tool" named.db find 4 5 -5 -5 < key'
    row 0 $'row -6 \'two\\x0a\'\nfound: 1 rows' '' '"$tool" named.db find 4 $'"'two\\nlines'"' -6 -6 < key'
    row 0 $'row -7 \'aaaa\'\nfound: 1 rows' '' '"$tool" named.db find 4 "$(printf "a%.0s" {1..900})" -7 -7 < key'
    row 2 'no such table' "$no_table" '"$tool" named.db find 4 "$(printf "a%.0s" {1..899})" -7 -7 < key'
    # A column that was added later is not in the rows from before.
    row 0 $'row -9223372036854775808 \'least\'\nfound: 1 rows' '' '"$tool" named.db find 4 altered -9223372036854775808 -9223372036854775808 < key'
    row 0 $'row 9223372036854775807 \'most\'\nfound: 1 rows' '' '"$tool" named.db find 4 altered -9223372036854775807 9223372036854775807 < key'
    row 2 'no such table' '`other` is an index' '"$tool" named.db find 4 other 1 1 < key'
    # A name that would end the line, and a table and a trigger whose names differ by case.
    row 2 'no such table' '`two?lines` is a table of almost this name' '"$tool" named.db find 4 $'"'TWO\\nLINES'"' 1 1 < key'
    row 2 'no such table' $'`altered` is a table of almost this name\n`ALTERED` is a trigger: it has no rows' '"$tool" named.db find 4 ALTERED 1 1 < key'
else
    leave_out "tables of any name, since Python's cryptography is missing"
fi

# A write-ahead log is kept.
if has_reference; then
    python3 "$oracle" file.db decrypt 4 decrypted < key > made
    printf '\2\2' | dd of=decrypted bs=1 seek=18 conv=notrunc status=none
    python3 "$oracle" wal.db encrypt 4 decrypted < key
    row 2 'WAL mode' $'`header 4:wal` reads a file in WAL mode or with auto-vacuum\nPRAGMA cipher_compatibility = 4; PRAGMA journal_mode = DELETE; PRAGMA auto_vacuum = 0; VACUUM;\n`settle 4` lays FILE-wal into the file, where it is there' '"$tool" wal.db header 4 < key'
    row 0 "$counts" "$counts$told" '"$tool" wal.db salvage 4 < key | tail -n 1'
else
    leave_out "a file in WAL mode, since Python's cryptography is missing"
fi

finish "$rows rows"
