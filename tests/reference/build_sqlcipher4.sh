#!/bin/sh
# Builds the product with the settings of SQLCipher 4, from Debian's source package of sqlcipher 3.4.1.
#
#   build_sqlcipher4.sh FOLDER        leaves FOLDER/sqlcipher4, about a minute
#
# It ends with 3 where that cannot be done here, since a tool is missing or the sources cannot be had.
#
# SQLCipher 4 keeps the file format of 3 but for its defaults: HMAC-SHA-512 in place of HMAC-SHA-1, PBKDF2 with
# HMAC-SHA-512 and 256,000 rounds, and pages of 4,096 bytes (SQLCipher API, "cipher_compatibility"). The build changes
# just these in the sources, so its files are those of version 4, written by SQLite's own pager and OpenSSL. The product's
# name of that build stays 3.4.1. Needs apt-get with Debian's packages, gcc, make, tclsh and libssl-dev.
set -eu
[ $# -eq 1 ] || { echo "usage: build_sqlcipher4.sh FOLDER" >&2; exit 1; }
mkdir -p "$1"
home=$(cd "$1" && pwd)
[ -x "$home/sqlcipher4" ] && exit 0
for tool in apt-get gcc make tclsh python3; do
    command -v "$tool" > /dev/null || { echo "$tool is missing" >&2; exit 3; }
done
echo '#include <openssl/evp.h>' | gcc -E -o /dev/null - 2> /dev/null || { echo "libssl-dev is missing" >&2; exit 3; }
cd "$home"
rm -rf source
mkdir -p source lists/partial
list=$(ls /etc/apt/sources.list.d/debian.sources /etc/apt/sources.list 2> /dev/null | head -n 1)
case $list in
    *.sources) sed 's/^Types: deb$/Types: deb-src/' "$list" > source.sources; from=$home/source.sources ;;
    *) sed -n 's/^deb /deb-src /p' "$list" > source.list; from=$home/source.list ;;
esac
apt() { timeout 300 apt-get -qq -o Acquire::http::Timeout=20 -o Acquire::Retries=1 -o Dir::Etc::sourcelist="$from" -o Dir::Etc::sourceparts=/dev/null -o Dir::State::lists="$home/lists" "$@"; }
{ apt update && cd source && apt source --download-only sqlcipher; } > "$home/sources.log" 2>&1 || {
    tail -n 3 "$home/sources.log" >&2
    echo "the sources of sqlcipher cannot be had" >&2
    exit 3
}
tar xf sqlcipher_*.orig.tar.gz
(cd sqlcipher-*/ && tar xf ../sqlcipher_*.debian.tar.*)
cd "$home"
cd source/sqlcipher-*/
while read -r patch; do patch -p1 -s < "debian/patches/$patch"; done < debian/patches/series
once() { # once FILE TEXT NEW: the change, which must find its place
    grep -qF "$2" "$1" || { echo "no '$2' in $1" >&2; exit 1; }
    python3 - "$@" <<'PY'
import sys
name, old, new = sys.argv[1:]
text = open(name).read()
open(name, "w").write(text.replace(old, new))
PY
}
once src/crypto_openssl.c 'EVP_sha1()' 'EVP_sha512()'
once src/crypto_openssl.c 'PKCS5_PBKDF2_HMAC_SHA1((const char *)pass, pass_sz, salt, salt_sz, workfactor, key_sz, key)' \
    'PKCS5_PBKDF2_HMAC((const char *)pass, pass_sz, salt, salt_sz, workfactor, EVP_sha512(), key_sz, key)'
once src/crypto.h 'PBKDF2_ITER 64000' 'PBKDF2_ITER 256000'
once src/crypto_impl.c 'default_page_size = 1024' 'default_page_size = 4096'
./configure --quiet --disable-tcl > configure.log 2>&1
make sqlite3.c > make.log 2>&1 || { tail -n 20 make.log >&2; exit 1; }
gcc -O2 -w -I. -o "$home/sqlcipher4" src/shell.c sqlite3.c -DSQLITE_HAS_CODEC -DSQLCIPHER_CRYPTO_OPENSSL \
    -DSQLITE_TEMP_STORE=2 -DSQLITE_THREADSAFE=1 -DSQLITE_SECURE_DELETE -DSQLITE_ENABLE_COLUMN_METADATA \
    -DSQLITE_ENABLE_FTS3 -DSQLITE_ENABLE_RTREE=1 -D_HAVE_SQLITE_CONFIG_H -DUSE_PREAD64=1 -D_GNU_SOURCE -lcrypto -lpthread -ldl
cd "$home" && rm -rf source lists source.sources source.list sources.log
echo "SELECT 1;" | ./sqlcipher4 -batch :memory: > /dev/null
