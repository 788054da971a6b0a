#!/usr/bin/env bash
# Makes the product's files and their table, for the scripts that compare with them.
#
#     tests/product_files.sh FOLDER
#
# FOLDER gets the files of tests/reference/make_real_files.sh, each NAME.db with its key line in NAME.key, and table.tsv, which has the
# lines of tests/reference/real_files.tsv for those that can be made here. The product, and what its version 4 is built from, is installed
# first where that can be done. It ends with 77 where it leaves some files out; its last line says which and why, as does FOLDER/left-out.
set -u
top=$(cd "$(dirname "$0")/.." && pwd) || exit 1
[ $# -eq 1 ] || { echo "product_files: FOLDER is missing"; exit 1; }
mkdir -p "$1" && folder=$(cd "$1" && pwd) || exit 1
rm -f "$folder/left-out" "$folder/table.tsv"

leave_out() { echo "$*" >> "$folder/left-out"; }

four() { # four: the product built for version 4, nothing where it can't be built here
    [ -z "${SQLCIPHER4:-}" ] || { echo "$SQLCIPHER4"; return; }
    command -v sqlcipher4 && return
    "$top/tests/reference/build_sqlcipher4.sh" "$top/out/product" >&2
    case $? in
        0) echo "$top/out/product/sqlcipher4" ;;
        3) ;;
        *) return 1 ;;
    esac
}

make_files() {
    SQLCIPHER4=$(four) || { echo "product_files: the product of version 4 is not built"; exit 1; }
    export SQLCIPHER4
    sh "$top/tests/reference/make_real_files.sh" "$folder" || { echo "product_files: the product's files are not made"; exit 1; }
    cp "$top/tests/reference/real_files.tsv" "$folder/table.tsv"
    if [ -z "$SQLCIPHER4" ]; then
        leave_out "the product's files of version 4, since its product can't be built here"
        keep_rows '$2 !~ /^4/'
    fi
    if ! command -v strace > /dev/null; then
        leave_out "the product's files that a stop at a system call leaves, since strace is missing"
        keep_rows 'NR == FNR { made[$1]; next } FNR == 1 || $1 in made' "$folder/manifest.tsv"
    fi
}

keep_rows() { # keep_rows TEST [FILE]: of the table
    awk -F'\t' "$1" ${2+"$2"} "$folder/table.tsv" > "$folder/rows" && mv "$folder/rows" "$folder/table.tsv"
}

"$top/tests/install_product.sh"
if command -v sqlcipher > /dev/null; then
    make_files
else
    leave_out "the product's files, since sqlcipher is missing and can't be installed"
fi
[ -e "$folder/left-out" ] || exit 0
echo "left out: $(paste -sd ';' "$folder/left-out" | sed 's/;/; /g')"
exit 77
