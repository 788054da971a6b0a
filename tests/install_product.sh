#!/usr/bin/env bash
# Installs the product `sqlcipher`, `strace`, and what builds the product's version 4, from Debian's packages, where they
# are missing, this is run as root and there is apt-get. It says what could not be installed. Without a network it gives up soon.
set -u
missing=()
want() { command -v "$1" > /dev/null || missing+=("$2"); }
want sqlcipher sqlcipher
want strace strace
want gcc gcc
want make make
want tclsh tcl
[ -e /usr/include/openssl/evp.h ] || missing+=(libssl-dev)
[ ${#missing[@]} -gt 0 ] || exit 0
if [ "$(id -u)" -eq 0 ] && command -v apt-get > /dev/null; then
    apt() { timeout "$limit" apt-get -qq -o Acquire::http::Timeout=20 -o Acquire::Retries=1 "$@" > /dev/null 2>&1; }
    limit=180
    if apt update --error-on=any; then limit=900; else limit=60; fi
    for package in "${missing[@]}"; do
        apt install -y "$package" || echo "$package could not be installed"
    done
else
    echo "not installed: ${missing[*]}"
fi
