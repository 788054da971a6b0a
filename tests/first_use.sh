#!/usr/bin/env bash
# What `./sqlcipher-tool` runs: a program that was built of the sources as they are, one that tools/build.sh left before the one in dist/, and
# no other: where there is none it begins a build. The sources are copied for it, and a stand-in for rt says that a build was begun. The program
# of this repository is looked at beside these sources, whatever it was built of.
#
#     tests/first_use.sh
#
# PROGRAM names another program.
set -u
. "$(dirname "$0")/common.sh"
begin 'first use'

copy=$scratch/copy
rows=0
mkdir -p "$copy/crates/journal_tests/src" "$scratch/bin"
cp -r "$top/crates.txt" "$top/sqlcipher-tool" "$top/tools" "$copy/"
for crate in $(awk -F: -v wanted=sqlcipher_cli -f "$top/tools/below.awk" "$top/crates.txt" | cut -d ' ' -f 1); do
    mkdir -p "$copy/crates/$crate"
    for part in src specs proofs; do
        [ ! -d "$top/crates/$crate/$part" ] || cp -r "$top/crates/$crate/$part" "$copy/crates/$crate/"
    done
done
cat > "$scratch/bin/rt" <<'RT'
#!/bin/sh
[ "$1" != version ] || { echo 'a stand-in'; exit; }
echo "$*" >> "$ASKED"
exit 1
RT
chmod +x "$scratch/bin/rt"
export ASKED=$scratch/asked PATH=$scratch/bin:$PATH

keep() { # keep PROGRAM FOLDER: as what was built of the copied sources as they are
    (
        top=$copy
        . "$copy/tools/made.sh"
        make_from "$1" "$copy/$2" "$(sum_of_sources)"
    ) || say "$2 cannot be made"
}

run() { # run: `./sqlcipher-tool --version` in the copy; what it prints in `said` and `complained`, how it ends in `status`
    rm -f "$ASKED"
    "$copy/sqlcipher-tool" --version > "$scratch/said" 2> "$scratch/complained"
    status=$?
    rows=$((rows + 1))
}

runs() { # runs WHAT WANTED: it prints this, and no build is begun
    run
    [ "$status" -eq 0 ] && [ "$(cat "$scratch/said")" = "$2" ] && [ ! -e "$ASKED" ] || say "$1: it ends with $status and prints '$(cat "$scratch/said")'"
}

builds() { # builds WHAT: nothing is run, a build is begun, and where that fails the status is 125
    run
    [ "$status" -eq 125 ] && [ ! -s "$scratch/said" ] && [ -s "$ASKED" ] || say "$1: it ends with $status and prints '$(cat "$scratch/said")'"
}

changed() { # changed WHAT COMMAND..: where this is done to the copy a build is begun, and where it is undone the program runs again
    local what=$1
    shift
    cp -a "$copy" "$scratch/before"
    (cd "$copy" && "$@") || say "$what cannot be done"
    builds "$what"
    rm -rf "$copy" && mv "$scratch/before" "$copy"
    runs "$what, undone" "$version"
}

append() { # append FILE: a line more, and the time of the file as it was
    touch -r "$1" "$scratch/time" && echo >> "$1" && touch -r "$scratch/time" "$1"
}

turn_byte() { # turn_byte FILE: a byte in its middle is another one
    python3 -c 'import sys; f = open(sys.argv[1], "r+b"); b = f.read(); f.seek(len(b) // 2); f.write(bytes([b[len(b) // 2] ^ 1]))' "$1"
}

source=crates/edge_model/src/role.rt
version=$("$program" --version)
printf '#!/bin/sh\necho built\n' > "$scratch/built" && chmod +x "$scratch/built"

builds 'no program at all'
keep "$program" dist
runs 'a kept program' "$version"
[ "$(wc -l < "$scratch/complained")" -eq 1 ] && grep -q 'tools/build.sh' "$scratch/complained" || say 'how its proof is had is not said in a line'
runs 'the same again' "$version"
[ ! -s "$scratch/complained" ] || say 'how its proof is had is said twice'
changed 'a changed source' append "$source"
changed 'a source less' rm "$source"
changed 'a source more' cp "$source" crates/edge_model/src/other.rt
changed 'a source of another name' mv "$source" crates/edge_model/src/other.rt
changed 'a changed lemma' append crates/edge_model/proofs/Ranges.antt
changed 'a changed list of crates' append crates.txt
changed 'a kept program with another byte' turn_byte dist/sqlcipher-tool
changed 'half a kept program' truncate -s 100000 dist/sqlcipher-tool
changed 'no word on what it was built of' rm dist/made-from
changed 'an empty word on that' truncate -s 0 dist/made-from
echo > "$copy/crates/journal_tests/src/lib.rt"
runs 'a changed test' "$version"
keep "$scratch/built" out
runs 'a built program beside the kept one' built
append "$copy/$source"
builds 'a source changed after both'
keep "$program" dist
runs 'a built program of other sources' "$version"
finish "$rows runs"
