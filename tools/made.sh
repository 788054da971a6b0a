# Which sources a program was built of. It is sourced, with `top` set, the folder of the repository.
#
# A folder that has a program, `sqlcipher-tool`, has a file `made-from` beside it: a line `sources`, `program` and `kit` each, with the checksum
# of the sources, that of the program, and what `rt version` prints. Times of files decide nothing.

# The checksum of all that the program is built of: the list of the crates, and each file of those that it stands on.
sum_of_sources() {
    local crates crate part
    local -a folders=()
    crates=$(awk -F: -v wanted=sqlcipher_cli -f "$top/tools/below.awk" "$top/crates.txt" | cut -d ' ' -f 1) && [ -n "$crates" ] || return
    for crate in $crates; do
        for part in src specs proofs; do
            [ ! -d "$top/crates/$crate/$part" ] || folders+=("crates/$crate/$part")
        done
    done
    (
        set -o pipefail
        cd "$top" && { printf 'crates.txt\0' && find "${folders[@]}" -type f -print0 | LC_ALL=C sort -z; } | xargs -0 sha256sum | sha256sum | cut -c 1-64
    )
}

sum_of() { sha256sum < "$1" | cut -c 1-64; }      # sum_of FILE

noted() { sed -n "s/^$2 //p" "$1/made-from" 2> /dev/null; }      # noted FOLDER WORD

is_made() { # is_made FOLDER SOURCES: the folder has a whole program that was built of the sources with this checksum
    [ -n "$2" ] && [ -x "$1/sqlcipher-tool" ] && [ "$(noted "$1" sources)" = "$2" ] && [ "$(noted "$1" program)" = "$(sum_of "$1/sqlcipher-tool")" ]
}

make_from() { # make_from PROGRAM FOLDER SOURCES: puts the program there, and says what it was built of
    mkdir -p "$2" && rm -f "$2/made-from" && cp "$1" "$2/sqlcipher-tool.new" && mv "$2/sqlcipher-tool.new" "$2/sqlcipher-tool" &&
        printf 'sources %s\nprogram %s\nkit %s\n' "$3" "$(sum_of "$2/sqlcipher-tool")" "$(rt version)" > "$2/made-from"
}
