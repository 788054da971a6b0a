#!/usr/bin/env bash
# Runs all scripts of the list below over the built program, four at a time, and says how each ended and how long it took.
#
#     tests/all.sh [NAME..]
#
# With names only these run. A script ends with 0 where all is as it should be, and with 77 where it left something out: then its last line
# says what and why. Every other status is a failure, and its output is shown. The last line of all is `N done, M left out: NAMES`, or with
# `K failed: NAMES` behind it. The status is 1 where one failed, and where something was left out unless LEAVE_OUT=1.
#
# PROGRAM names another program, PRODUCT_FILES a folder that tests/product_files.sh made, JOBS another number of scripts at a time, LIMIT the
# seconds that one script may take.

# The scripts, each with its words; those that take longest stand first. A script here is run over `$PROGRAM`, reads nothing from standard
# input, writes to a folder of its own alone, and takes the product's files from $PRODUCT_FILES (tests/common.sh: begin, find_files).
scripts='
migrate.sh
rekey.sh
calls.sh
faults.sh
stops.sh
make.sh
real_files.sh
plain.sh
play.sh
company.py
stamp.sh
hostile_files.sh
log_pairs.sh
settle.sh
hostile_logs.sh
find.sh
agree.sh
salvage.sh
log_company.py
two_runs.sh
first_use.sh
beside_an_app.sh
settings.sh
renames.sh
edges.sh
log_refusals.sh
wal.sh
export_to_sql.py
salvage_to_sql.py
draws.py
session_machine.py
terminal.py
documents.sh
numbers.sh
'
# What the others of this folder are: this script, what scripts share and call, what makes the product's files, and what .ci/run runs before.
not_run='all.sh common.sh others.sh install_product.sh product_files.sh lent_page.sh play_beside_product.py'

set -u
. "$(dirname "$0")/common.sh"
folder=$(mktemp -d) || exit 1
trap stop_all EXIT
every=$scripts
[ $# -eq 0 ] || scripts=$(for name; do grep -E "^$name( |\$)" <<< "$every" || echo "$name"; done)

# No script is forgotten: each file of the folder is in one of the two lists, and each of the list is there.
check_list() {
    local name wrong=0
    for name in $(printf '%s\n' "$scripts" | awk '{ print $1 }'); do
        [ -x "$top/tests/$name" ] || { echo "all: tests/$name is not there"; wrong=1; }
    done
    for name in "$top"/tests/*.sh "$top"/tests/*.py; do
        [ -e "$name" ] || continue
        name=$(basename "$name")
        printf '%s\n' $every $not_run | grep -qxF -- "$name" || { echo "all: tests/$name is in no list of tests/all.sh"; wrong=1; }
    done
    return "$wrong"
}

limited() { # limited NAME WORDS..: the script, ended where it takes too long
    local name=$1 status
    shift
    timeout "${LIMIT:-1800}" "$top/tests/$name" "$@" > "$folder/$name.log" 2>&1 < /dev/null &
    echo $! > "$folder/$name.running"
    wait $!
    status=$?
    rm -f "$folder/$name.running"
    return "$status"
}

stop_all() { # what still runs is ended too, with all that it started
    local running
    for running in "$folder"/*.running; do
        [ ! -s "$running" ] || kill "$(cat "$running")" 2> /dev/null
    done
    rm -rf "$folder"
}

# run_one NAME WORDS..: its output and its status go to files, and a line of how it ended and how long it took to the terminal.
run_one() {
    local name=$1 status said took TIMEFORMAT='%0R s, %0U + %0S s of processors'
    shift
    { time limited "$name" "$@"; } 2> "$folder/$name.time"
    status=$?
    took=$(tail -n 1 "$folder/$name.time")
    echo "$status" > "$folder/$name.status"
    said=$(tail -n 1 "$folder/$name.log")
    [ "$status" -ne 124 ] || said="it took more than ${LIMIT:-1800} seconds"
    case $status in
        0) echo "$name: done ($took): $said" ;;
        77) echo "$name: $said ($took)" ;;
        *) echo "$name: failed with $status ($took): $said" ;;
    esac
}

names() { # names STATUS..: the scripts that ended so
    local name
    for name in product_files.sh $(printf '%s\n' "$scripts" | awk '{ print $1 }'); do
        [ ! -e "$folder/$name.status" ] || ! grep -qxE "$1" "$folder/$name.status" || echo "$name"
    done
}

joined() { names "$1" | paste -sd ' ' | sed 's/ /, /g'; }

check_list || exit 1
export PROGRAM=$program
[ -x "$PROGRAM" ] || { echo "all: the program is not built"; exit 1; }
if [ -z "${PRODUCT_FILES:-}" ]; then
    export PRODUCT_FILES=$folder/product
    run_one product_files.sh "$PRODUCT_FILES"
fi
[ ! -x "$top/out/product/sqlcipher4" ] || export SQLCIPHER4=${SQLCIPHER4:-$top/out/product/sqlcipher4}

while read -r name words; do
    [ -n "$name" ] || continue
    while [ "$(jobs -rp | wc -l)" -ge "${JOBS:-4}" ]; do wait -n; done
    # shellcheck disable=SC2086
    run_one "$name" $words &
done <<< "$scripts"
wait

failed=$(names '[^0].*' | grep -vxFf <(names 77))
for name in $failed; do
    echo "---- $name"
    cat "$folder/$name.log"
done
left=$(names 77 | wc -l)
line="$(names 0 | wc -l) done, $left left out"
[ "$left" -eq 0 ] || line="$line: $(joined 77)"
if [ -n "$failed" ]; then
    echo "$line, $(wc -l <<< "$failed") failed: $(paste -sd ' ' <<< "$failed" | sed 's/ /, /g')"
    exit 1
fi
[ "$left" -eq 0 ] || [ "${LEAVE_OUT:-}" = 1 ] || echo "something was left out; LEAVE_OUT=1 allows that"
echo "$line"
[ "$left" -eq 0 ] || [ "${LEAVE_OUT:-}" = 1 ]
