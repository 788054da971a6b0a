# What the scripts of this folder share: how one begins, says what is wrong and what it left out, and ends; the commands; the product; stops at
# calls of the system. A script sources it first, and so has `top`, the folder of the repository, and `program`, and then begins:
#
#     . "$(dirname "$0")/common.sh"
#     begin 'two runs'
#     ..
#     finish "$trials trials"

top=$(cd "$(dirname "${BASH_SOURCE[0]}")/.." && pwd) || exit 1
program=${PROGRAM:-$("$top/tools/program.sh")}

# In memory where there is room: no script looks at what a disk keeps, and the syncs of a busy disk would take most of the time.
if [ -z "${TMPDIR:-}" ] && [ -w /dev/shm ] && [ "$(df -Pk /dev/shm | awk 'NR == 2 { print $4 }')" -gt 2000000 ]; then
    export TMPDIR=/dev/shm
fi

begin() { # begin NAME: the name that the script's lines have, and its own folder, `scratch`, which goes when it ends
    named=$1
    scratch=$(mktemp -d) && scratch=$(readlink -f "$scratch") || exit 1
    trap 'chmod -R u+rwx "$scratch" 2> /dev/null; rm -rf "$scratch"' EXIT
    export LC_ALL=C.UTF-8 HOME=$scratch PYTHONDONTWRITEBYTECODE=1
    [ -x "$program" ] || { echo "$program is not built: ./sqlcipher-tool --version builds it"; exit 1; }
}

say() { echo "$named: $*"; echo wrong >> "$scratch/wrong"; }      # say WHAT is wrong; also in what runs side by side

wrongs() { # how often something was wrong
    if [ -e "$scratch/wrong" ]; then wc -l < "$scratch/wrong"; else echo 0; fi
}

# A script goes on where it has to leave something out, and says what and why in its last line.
leave_out() { echo "$*" >> "$scratch/left-out"; }      # leave_out WHAT, since WHY

finish() { # finish [DONE]: the end, and a line of what was done: 1 where something is wrong, 77 where something was left out, else 0
    echo "$named: ${1:+$1, }$(wrongs) wrong"
    [ "$(wrongs)" -eq 0 ] || exit 1
    [ -e "$scratch/left-out" ] || exit 0
    echo "left out: $(paste -sd ';' "$scratch/left-out" | sed 's/;/; /g')"
    exit 77
}

needs() { # needs PROGRAM..: without them all of the script is left out
    local needed
    for needed; do
        has "$needed" || { leave_out "all of it, since $needed is missing"; finish; }
    done
}

has() { command -v "$1" > /dev/null; }

has_reference() { python3 -c 'import cryptography' 2> /dev/null; }      # the reference in tests/reference can be run

four=${SQLCIPHER4:-$(command -v sqlcipher4 || true)}
[ -n "$four" ] || { [ ! -x "$top/out/product/sqlcipher4" ] || four=$top/out/product/sqlcipher4; }

product() { # product PROFILE: the product that writes this version, or nothing
    case $1 in
        4*) echo "$four" ;;
        *) ! has sqlcipher || echo sqlcipher ;;
    esac
}

# The product's files, in `files`, with their table in `table`: those that tests/all.sh made, else they are made here, in a minute.
find_files() {
    local status=0
    files=${PRODUCT_FILES:-$scratch/product}
    table=$files/table.tsv
    if [ -z "${PRODUCT_FILES:-}" ]; then
        "$top/tests/product_files.sh" "$files" > "$scratch/made" 2>&1 || status=$?
        [ "$status" -eq 0 ] || [ "$status" -eq 77 ] || { cat "$scratch/made"; exit 1; }
    fi
    [ ! -e "$files/left-out" ] || cat "$files/left-out" >> "$scratch/left-out"
    [ -s "$table" ]
}

# Version 4 with pages of other sizes than its own.
sizes='4:1024 4:2048 4:8192 4:16384 4:32768 4:65536'

# The words of the commands of tests/commands.tsv, a line each: P is the file's profile there, Q that of a new file. Those of a kind, where kinds are
# named: `check` reads the whole file or its header, `part` some rows, `search` looks for the profile; `recovery`, `settling`, `change`, `making` and
# `script` may write. The last column says whether plain files have it.
commands() { # commands P Q [KIND..]
    local profile=$1 new=$2
    shift 2
    awk -F'\t' -v profile="$profile" -v new="$new" -v kinds=" $* " '
        NR == 1 || profile ~ /^plain/ && $4 == "no" || kinds != "  " && !index(kinds, " " $3 " ") { next }
        {
            count = split($2, word, " ")
            for (i = 1; i <= count; i++) printf "%s%s", word[i] == "P" ? profile : word[i] == "Q" ? new : word[i], i < count ? " " : "\n"
        }' "$top/tests/commands.tsv"
}

quoted() { printf '%s' "$1" | sed "s/'/''/g"; }

opening() { # opening PROFILE KEY: the statements with which the product opens a file; a plain one it opens by itself
    case $1 in plain:*) return ;; esac
    printf "PRAGMA key = '%s';\n" "$(quoted "$2")"
    case $1 in
        1) echo "PRAGMA cipher_use_hmac = OFF; PRAGMA kdf_iter = 4000;" ;;
        2) echo "PRAGMA kdf_iter = 4000;" ;;
        4:*) echo "PRAGMA cipher_page_size = ${1#4:};" ;;
    esac
}

sql() { # sql PROFILE KEY FILE: runs the SQL of standard input in the product
    { echo ".output /dev/null"; opening "$1" "$2"; echo ".output stdout"; cat; } | "$(product "$1")" -batch "$3" 2> /dev/null
}

check() { echo "PRAGMA integrity_check;" | sql "$1" "$2" "$3"; }      # check PROFILE KEY FILE
dump() { echo ".dump" | sql "$1" "$2" "$3"; }                        # dump PROFILE KEY FILE

asked() { printf '%s\n' "$1" | "$program" "${@:2}" 2> /dev/null; }    # asked KEY FILE WORDS..: what the program prints

total() { # total NAME FILES..: the sum of the counts NAME=N in these files
    local name=$1
    shift
    awk -F'\t' -v name="$name" '{ for (i = 1; i <= NF; i++) if (index($i, name "=") == 1) sum += substr($i, length(name) + 2) } END { print sum + 0 }' "$@"
}

# turn_bit FILE BYTE: the lowest bit of this byte is turned. So a byte that is drawn at random changes too, where one written over it may be the same.
turn_bit() {
    local byte
    byte=$(od -An -tu1 -j "$2" -N 1 "$1") || return
    # shellcheck disable=SC2059
    printf "\\x$(printf %02x $((byte ^ 1)))" | dd of="$1" bs=1 seek="$2" conv=notrunc status=none
}

# The calls that change a file or a folder, or sync one. An open counts where it may make a file.
writing=openat,open,creat,write,pwrite64,writev,pwritev,ftruncate,fsync,fdatasync,unlink,unlinkat,rename,renameat,renameat2,link,linkat

can_trace() { strace -qq -o /dev/null true 2> /dev/null; }

traced() { # traced CALLS WORDS..: runs the program, and writes its calls into a file
    local calls=$1
    shift
    strace -f -qq -o "$calls" -e trace="$writing" "$program" "$@"
}

list_stops() { # list_stops CALLS: NAME NUMBER for each call that writes, numbered among those of its name, as strace counts them
    sed -E 's/^[0-9]+ +//' "$1" | awk -F'(' '
        { seen[$1]++ }
        $1 ~ /^open/ && !/O_CREAT/ { next }
        /^[a-z]/ { print $1, seen[$1] }'
}

stopped_at() { # stopped_at NAME NUMBER WORDS..: this call is not made, and the program is killed there, which gives status 137
    local name=$1 number=$2
    shift 2
    strace -f -qq -o /dev/null -e trace="$name" -e inject="$name:error=EIO:signal=KILL:when=$number" "$program" "$@"
}

stop_rekey() { # stop_rekey FILE KEYS: a `rekey 3 3` killed at its tenth write of a page; prints how many pages its hot journal has
    local copy=$1-rekeyed calls=$1-calls place
    cp "$1" "$copy" && strace -f -qq -y -o "$calls" -e trace=pwrite64 "$program" "$copy" rekey 3 3 < "$2" > /dev/null 2>&1 || return
    place=$(awk -v main="<$(readlink -f "$copy")>" '
        { number++ }
        index($0, main) && ++pages == 10 { print number, records; exit }
        /, 1032, [0-9]+\) += 1032/ { records++ }' "$calls")
    { stopped_at pwrite64 "${place% *}" "$1" rekey 3 3 < "$2" > /dev/null 2>&1; } 2> /dev/null
    rm -f "$copy" "$calls"
    echo "${place#* }"
}
