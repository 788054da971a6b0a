# What the trials with others at the file share: databases of the product, and what is left of them. It is sourced after common.sh, with
# `scratch` set, a folder.

k1="x'ffffffffffffffffffffffffffffffffffffffffffffffffffffffffffffffff'"
k2="x'0f1e2d3c4b5a69788796a5b4c3d2e1f00f1e2d3c4b5a69788796a5b4c3d2e1f0'"
k3="x'00112233445566778899aabbccddeeff00112233445566778899aabbccddeeff'"

which_key() { # which_key VERSION FILE: the key of this file under which `verify` finds it sound, or nothing
    local key
    for key in "$k1" "$k2" "$k3"; do
        printf '%s\n' "$key" | "$program" "$2" verify "$1" > /dev/null 2>&1 || continue
        printf '%s' "$key"
        return
    done
}

write_database() { # write_database VERSION KEY FILE ROWS: some 3 KiB a row, in three trees
    sed "s/ROWS/$4/" <<'SQL' | sql "$1" "$2" "$3"
CREATE TABLE items(id INTEGER PRIMARY KEY, name TEXT, value);
CREATE INDEX items_name ON items(name);
CREATE TABLE log(id INTEGER PRIMARY KEY);
BEGIN;
WITH RECURSIVE n(i) AS (SELECT 1 UNION ALL SELECT i + 1 FROM n WHERE i < ROWS)
INSERT INTO items SELECT i, 'item ' || (i * 7919 % 1000), zeroblob(2000 + i % 1900) FROM n;
COMMIT;
SQL
}

# A change that the product has not ended: the journal is hot, and some changed pages stand in the file.
leave_hot() { # leave_hot VERSION KEY FILE NEW: NEW and NEW-journal, whose rows are those of FILE
    cp "$3" "$4.first"
    printf '%s\n' "PRAGMA cache_size = 5;" "BEGIN;" "UPDATE items SET value = randomblob(2000), name = name || '+';" \
        ".system cp $4.first $4" ".system cp $4.first-journal $4-journal" "ROLLBACK;" | sql "$1" "$2" "$4.first"
    rm -f "$4.first" "$4.first-journal"
}

duration() { # duration FILE KEYS WORDS..: how long a run on a copy of the file takes, in milliseconds, and a little more
    local file=$1 keys=$2 begin
    shift 2
    local copy=$scratch/timed-$BASHPID
    cp "$file" "$copy" && { [ ! -e "$file-journal" ] || cp "$file-journal" "$copy-journal"; }
    begin=$(date +%s%N)
    "$program" "$copy" "$@" < "$keys" > /dev/null 2>&1
    echo $((($(date +%s%N) - begin) / 1000000 + 10))
    rm -f "$copy" "$copy-journal"
}

seconds() { printf '%d.%03d' $(($1 / 1000)) $(($1 % 1000)); }      # seconds MILLISECONDS
