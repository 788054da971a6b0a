#!/usr/bin/env bash
# Proves the crates that the program stands on, as many side by side as there are processors and memory for, and builds it:
# out/sqlcipher-tool, for the processor at hand. What is proved is kept in each crate's out/, and a next build begins there, also in
# another checkout on this machine.
#
#     tools/build.sh            builds the program, where there is none of these sources
#     tools/build.sh libraries  proves the libraries alone
#     tools/build.sh dist       proves and tests all by `rt ci`, and keeps the program that it builds, which is the same on each machine, in dist/
#
# rt keeps other runs of rt out of a crate and of all crates below it until it ends, so that two crates over one base wait for
# each other. So each crate is proved in a room of its own: a small repository of that crate and those below it, whose files are hard
# links to those of this one. From there rt itself takes it over into this one, as from another checkout, and so knows it here.
set -u
top=$(cd "$(dirname "$(readlink -f "$0")")/.." && pwd) || exit 1
. "$top/tools/made.sh"
rooms=$top/out/rooms
logs=$rooms/logs
program=sqlcipher_cli

say() { echo "sqlcipher-tool: $*" >&2; }

# A line a crate, the longest chain first: how many functions and clauses are proved, one crate after another, from it up to the program, since
# time goes by these more than by lines; the crate; and all that it stands on.
plan() {
    local crate below
    awk -F: -v wanted="$program" -f "$top/tools/below.awk" "$top/crates.txt" | while read -r crate below; do
        echo "$(cat $(find "$top/crates/$crate/src" -name '*.rt') | grep -cE '\bfn |ensures') $crate $below"
    done | awk '
        { count_of[NR] = $1; crate[NR] = $2; sub(/^[^ ]* [^ ]* ?/, ""); below[NR] = $0 }
        END {
            for (i = NR; i > 0; i--) {
                chain = count_of[i] + above[crate[i]]
                print chain, crate[i], below[i]
                count = split(below[i], names, " ")
                for (j = 1; j <= count; j++) if (above[names[j]] < chain) above[names[j]] = chain
            }
        }' | sort -rn
}

# How many crates are proved side by side: one a processor, where each has 4 GB.
side_by_side() {
    local processors memory
    processors=$(nproc)
    memory=$(awk '/^MemAvailable:/ { print int($2 / 4000000) }' /proc/meminfo)
    [ "$memory" -ge 1 ] || memory=1
    [ "$processors" -lt "$memory" ] && echo "$processors" || echo "$memory"
}

# Whether rt keeps its work beside the kit, from where it takes libraries over. It can't where that folder is another user's.
keeps_work() { [ -O "$(dirname "$(dirname "$(rt doc)")")/rattle-kept/work" ]; }

# What is proved in a crate's room, in whole or part, goes into the crate's own out/.
bring_back() { # bring_back CRATE
    local part out=$top/crates/$1/out
    for part in incremental rlib; do
        [ -d "$rooms/$1/crates/$1/out/$part" ] || continue
        mkdir -p "$out" && rm -rf "${out:?}/$part" && mv "$rooms/$1/crates/$1/out/$part" "$out/"
    done
    rm -rf "${rooms:?}/$1"
}

# prove JOBS CRATE BELOW..: proves a library in its room, by so many processes.
prove() {
    local jobs=$1 crate=$2 room=$rooms/$2 name part status
    shift
    for name; do
        for part in src specs proofs out/rlib out/incremental; do
            [ -d "$top/crates/$name/$part" ] || continue
            [ "$part" != out/incremental ] || [ "$name" = "$crate" ] || continue
            mkdir -p "$(dirname "$room/crates/$name/$part")"
            cp -rl "$top/crates/$name/$part" "$room/crates/$name/$part"
        done
        grep "^$name:" "$top/crates.txt" >> "$room/crates.txt"
    done
    (cd "$room/crates/$crate" && rt lib --jobs "$jobs")
    status=$?
    if [ "$status" -eq 0 ] && keeps_work; then
        (cd "$top/crates/$crate" && rt lib --jobs "$jobs") && rm -rf "$room"
    else
        bring_back "$crate"
        return "$status"
    fi
}

# build JOBS: proves the program over the libraries and builds it. It is run once by this command, without words, and answers `usage`.
build() {
    rm -f "$top/crates/$program/out/$program"
    (cd "$top/crates/$program" && rt run --cpu "$cpu" --jobs "$1" < /dev/null)
    [ -x "$top/crates/$program/out/$program" ]
}

# A crate with the longest chain of all that are not proved is what the others wait for: it is proved by as many processes as there are
# processors, up to four, one whose chain is nearly as long by two, and each other one by one, where these leave a processor idle.
start() { # start LONGEST CHAIN CRATE BELOW..
    local longest=$1 chain=$2 crate=$3 jobs=1
    shift 2
    if [ "$chain" -ge "$longest" ]; then
        jobs=$(side_by_side)
        [ "$jobs" -le 4 ] || jobs=4
    elif [ $((5 * chain)) -ge $((4 * longest)) ]; then
        jobs=2
    fi
    {
        [ "$jobs" -gt 1 ] || renice -n 10 -p "$BASHPID" > /dev/null 2>&1
        if [ "$crate" = "$program" ]; then build "$jobs"; else prove "$jobs" "$@"; fi > "$logs/$crate" 2>&1
        echo $? > "$logs/$crate.status"
    } 9>&- &
}

# Starts each crate where those below it are proved, the longest chain first, and says how far it is. The status is 1 where one failed.
prove_all() { # prove_all LAST: up to this crate
    local -A state=() stands=() chains=() since=()
    local -a names=()
    local chain crate below name longest running done=0 failed=0 most
    while read -r chain crate below; do
        [ "$crate" != "$program" ] || [ "$1" = "$program" ] || continue
        names+=("$crate")
        stands[$crate]=$below chains[$crate]=$chain state[$crate]=waiting
    done < <(plan)
    most=$(side_by_side)
    while :; do
        running=0 longest=0
        for crate in "${names[@]}"; do
            case ${state[$crate]} in
                running) running=$((running + 1)) ;;
                waiting) ;;
                *) continue ;;
            esac
            [ "$longest" -gt 0 ] || longest=${chains[$crate]}
        done
        for crate in "${names[@]}"; do
            [ "$running" -lt "$most" ] && [ "$failed" -eq 0 ] || break
            [ "${state[$crate]}" = waiting ] || continue
            for name in ${stands[$crate]}; do [ "${state[$name]}" = proved ] || continue 2; done
            # shellcheck disable=SC2086
            start "$longest" "${chains[$crate]}" "$crate" ${stands[$crate]}
            state[$crate]=running since[$crate]=$SECONDS running=$((running + 1))
        done
        [ "$running" -gt 0 ] || break
        wait -n
        for crate in "${names[@]}"; do
            [ "${state[$crate]}" = running ] && [ -s "$logs/$crate.status" ] || continue
            if [ "$(cat "$logs/$crate.status")" = 0 ]; then
                state[$crate]=proved done=$((done + 1))
                say "proved $done of ${#names[@]}: $crate, in $((SECONDS - since[$crate])) s"
            else
                state[$crate]=failed failed=1
                cat "$logs/$crate" >&2
                say "$crate is not proved"
            fi
        done
    done
    [ "$failed" -eq 0 ]
}

build_program() { # builds out/sqlcipher-tool of the sources with this checksum
    local sources=$1
    cpu=x86-64-v2
    ! grep -qw avx2 /proc/cpuinfo || cpu=x86-64-v3
    say "building for $cpu; a first build proves every crate (docs/GATE.md has the time)"
    prove_all "$program" || return
    [ "$(sum_of_sources)" = "$sources" ] || { say "the sources changed while they were built"; return 1; }
    make_from "$top/crates/$program/out/$program" "$top/out" "$sources"
}

keep_program() { # keeps what the gate builds, of the sources with this checksum, in dist/
    (cd "$top" && rt ci) || return
    [ "$(sum_of_sources)" = "$1" ] || { say "the sources changed while they were built"; return 1; }
    make_from "$top/crates/$program/out/$program" "$top/dist" "$1"
}

for command in rt flock; do
    command -v "$command" > /dev/null || { say "the command $command is not on the path"; exit 1; }
done
mkdir -p "$top/out"
exec 9> "$top/out/build.lock"
flock 9 || exit 1
sources=$(sum_of_sources) || exit 1
case ${1:-} in
    '') ! is_made "$top/out" "$sources" || exit 0 ;;
    libraries | dist) ;;
    *) say "tools/build.sh knows no $1"; exit 1 ;;
esac
leave() { # what a build that was killed has left is kept too
    local room
    for room in "$rooms"/*/crates; do
        [ ! -d "$room" ] || bring_back "$(basename "$(dirname "$room")")"
    done
    rm -rf "$rooms"
}
leave
mkdir -p "$logs"
trap leave EXIT
case ${1:-} in
    libraries) prove_all libraries ;;
    dist) keep_program "$sources" ;;
    *) build_program "$sources" ;;
esac || { say "the build failed"; exit 1; }
