#!/bin/bash
# Makes small databases in WAL mode beside their logs, as `crates/log_tests/data` keeps them, by the product itself: each pair is copied
# while its connection is open, or is left by one that is killed. Then the hostile pairs by hand, the list of cases, and what is to
# be said of each.
#
#   make_log_pairs.sh FOLDER      needs sqlcipher 3.4.1; SQLCIPHER4 names the build of version 4, or its pair is left out
#
# FOLDER/NAME.db and NAME.wal, `product.tsv` (name, profile, page size, key), `cases`, and FOLDER/../stdout.
set -eu
[ $# -eq 1 ] || { echo "usage: make_log_pairs.sh FOLDER" >&2; exit 1; }
here=$(cd "$(dirname "$0")" && pwd)
mkdir -p "$1"; out=$(cd "$1" && pwd)
: > "$out/product.tsv"; : > "$out/cases"
key='beside its log'
work=$(mktemp -d); trap 'rm -rf "$work"' EXIT
product() { case $1 in 4) "${SQLCIPHER4:-false}" -batch "$2" ;; *) sqlcipher -batch "$2" ;; esac }
settings() { # settings PROFILE SIZE: the statements that open a file of this profile
    [ "$1" != plain ] || { echo "PRAGMA page_size=$2;"; return; }
    echo "PRAGMA key='$key';"
    [ "$1" != 1 ] || echo "PRAGMA cipher_use_hmac=OFF;"
    [ "$1" -gt 2 ] || echo "PRAGMA kdf_iter=4000;"
    echo "PRAGMA cipher_page_size=$2;"
}
keep() { echo ".system cp db $out/$1.db; cp db-wal $out/$1.wal"; }
row() { printf '%s\t%s\t%s\t%s\n' "$1" "$2" "$3" "$key" >> "$out/product.tsv"; echo "$1 $3 whole 0 0" >> "$out/cases"; }
# rows N FROM BYTES: N rows of so many bytes
rows() { echo "WITH RECURSIVE c(i) AS (SELECT $2 UNION ALL SELECT i+1 FROM c WHERE i < $2 + $1 - 1) INSERT INTO t SELECT i, randomblob($3) FROM c;"; }
begin() { echo "PRAGMA journal_mode=WAL; PRAGMA wal_autocheckpoint=0; PRAGMA synchronous=OFF; CREATE TABLE t(a INTEGER PRIMARY KEY, b BLOB);"; }

aged() { # aged PROFILE SIZE BYTES: a log at several ages, with rows of so many bytes
    local p=$1 s=$2 b=$3 n=$1-$2
    rm -rf "$work/db"* && cd "$work"
    {
        settings "$p" "$s"; begin; rows 4 1 "$b"; rows 6 10 "$b"
        keep "$n-commits"
        echo "PRAGMA cache_size=1; BEGIN;"; rows 40 100 "$b"
        keep "$n-open"
        echo "ROLLBACK; PRAGMA cache_size=2000; PRAGMA wal_checkpoint(PASSIVE); UPDATE t SET b=randomblob($b) WHERE a=2;"
        keep "$n-restarted"
        echo "DELETE FROM t WHERE a > 3; VACUUM;"
        keep "$n-cut"
        rows 9 200 "$b"
        keep "$n-grown"
        echo "PRAGMA wal_checkpoint(TRUNCATE);"
        keep "$n-truncated"
        rows 5 300 "$b"
        echo ".system kill -9 \$PPID"
    } | product "$p" db > "$work/said" 2>&1 || true
    cp db "$out/$n-killed.db"; cp db-wal "$out/$n-killed.wal"
    for age in commits open restarted cut grown truncated killed; do row "$n-$age" "$p" "$s"; done
}
single() { # single PROFILE SIZE BYTES: one age of a profile
    local p=$1 s=$2 b=$3 n=$1-$2
    rm -rf "$work/db"* && cd "$work"
    { settings "$p" "$s"; begin; rows 3 1 "$b"; echo "UPDATE t SET b=randomblob($b) WHERE a=2;"; keep "$n"; } | product "$p" db > "$work/said" 2>&1
    row "$n" "$p" "$s"
}
aged plain 512 150
aged 3 1024 300
single 2 1024 300
single 1 1024 300
[ ! -x "${SQLCIPHER4:-/nonexistent}" ] || single 4 4096 900
rm -rf "$work/db"* && cd "$work"
{ settings plain 1024; echo "PRAGMA auto_vacuum=1;"; begin; rows 9 1 300; echo "DELETE FROM t WHERE a < 5;"; keep plain-1024-vacuum; } | product plain db > "$work/said" 2>&1
row plain-1024-vacuum plain 1024

"$here/oracle/log_model.py" small "$out"
"$here/oracle/log_model.py" turn "$out/plain-512-commits.wal" "$out/plain-512-turned.wal"
cp "$out/plain-512-commits.db" "$out/plain-512-turned.db"
row plain-512-turned plain 512
for name in two turned again passed hole short large zero version pages other behind empty; do echo "$name 512 whole 0 0" >> "$out/cases"; done
cat >> "$out/cases" <<'CASES'
two 512 flips 0 64
two 512 flips 560 600
two 512 flips 1104 1128
two 512 cuts 67 0
two 512 shorter 512 0
two 512 shorter 100 0
two 512 alone 0 0
two 512 lost 0 0
two 512 stops 40 0
passed 512 stops 40 0
two 512 shrinks 6 0
two 512 shrinks 8 0
CASES
"$here/oracle/log_model.py" lines "$out" > "$out/../stdout"
wc -l < "$out/../stdout"
