#!/usr/bin/env bash
# Tries the edits of crates/CRATE/edits/, which the gate leaves out: the prover must refuse each.
#
#     tools/try_edits.sh [CRATE..]        all crates that have such a folder, where none is named
#
# rt tries edits of the folder must-fail/ alone. So a crate is copied, with those below it, into a folder that is removed, where its edits
# stand under that name; what was proved here before, rt takes over. The status is 1 where an edit was not refused.
set -u
top=$(cd "$(dirname "$(readlink -f "$0")")/.." && pwd) || exit 1
room=$(mktemp -d) || exit 1
trap 'rm -rf "$room"' EXIT

copy() { # copy CRATE BELOW..: their sources, the edits of the first, and their lines of the list
    local name part
    for name; do
        mkdir -p "$room/crates/$name"
        for part in src specs proofs; do
            [ ! -d "$top/crates/$name/$part" ] || cp -r "$top/crates/$name/$part" "$room/crates/$name/"
        done
        grep "^$name:" "$top/crates.txt" >> "$room/crates.txt"
    done
    cp -r "$top/crates/$1/edits" "$room/crates/$1/must-fail"
}

try() { # try CRATE
    local known
    [ -d "$top/crates/$1/edits" ] || { echo "try_edits: crates/$1/edits is not there"; return 1; }
    known=$(awk -F: -v wanted="$1" -f "$top/tools/below.awk" "$top/crates.txt" | tail -n 1)
    rm -rf "$room/crates" "$room/crates.txt"
    # shellcheck disable=SC2086
    copy $known && cp "$top/HANDLES" "$room/" && (cd "$room" && rt must-fail "$1")
}

[ $# -gt 0 ] || {
    cd "$top/crates" || exit 1
    # shellcheck disable=SC2046
    set -- $(ls -d ./*/edits | sed 's|^./||; s|/edits$||')
}
status=0
for crate; do
    try "$crate" || status=1
done
exit "$status"
