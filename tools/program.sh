#!/usr/bin/env bash
# Prints the path of the program that `./sqlcipher-tool` runs: the one that tools/build.sh built of the sources as they are; else the one that is
# kept in dist/, where it was built of them; else it is built first. The status is 1 where that fails.
set -u
top=$(cd "$(dirname "$(readlink -f "$0")")/.." && pwd) || exit 1
. "$top/tools/made.sh"
sources=$(sum_of_sources) || exit 1

# Once for each kept program: not at each run.
say_how_proved() {
    [ "$(cat "$top/out/told" 2> /dev/null)" != "$sources" ] || return
    mkdir -p "$top/out" && echo "$sources" > "$top/out/told" &&
        echo "sqlcipher-tool: this program was built of these sources and is kept in dist/; tools/build.sh proves it here, and builds it for this processor" >&2
}

if is_made "$top/out" "$sources"; then
    echo "$top/out/sqlcipher-tool"
elif is_made "$top/dist" "$sources"; then
    say_how_proved
    echo "$top/dist/sqlcipher-tool"
else
    "$top/tools/build.sh" >&2 && echo "$top/out/sqlcipher-tool"
fi
