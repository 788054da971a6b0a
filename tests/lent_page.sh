#!/usr/bin/env bash
# A page that a pager lent can't be kept across its next call: a program that does so does not compile. The same program with the
# two pages one after the other does, so what is refused is the loan. It needs rt.
set -u
top=$(cd "$(dirname "$0")/.." && pwd)
folder=$(mktemp -d)
trap 'rm -rf "$folder"' EXIT
tar -C "$top" --exclude=out -cf - crates | tar -C "$folder" -xf -
cp "$top/crates.txt" "$top/HANDLES" "$folder/"
# A crate over the pager with this program alone: rt compiles a library where it has a test.
cd "$folder/crates/pager_tests" && rm -rf src proofs specs && mkdir src || exit 1

compiles() { # compiles BODY: whether a function of this body, which is not proved, compiles
    cat > src/lib.rt <<PROGRAM
//! Two pages of a pager.
#![tactic(auto)]

use edge_model::{Disk, Entropy};
use pager::Pager;

pub fn two<D: Disk, E: Entropy>(pager: &mut Pager<'_, D, E>) -> bool {
    $1
}

#[test]
fn none() {}
PROGRAM
    rt try --test > said 2>&1
}

if ! compiles 'let first = pager.page(1).is_ok(); let second = pager.page(2).is_ok(); first && second'; then
    cat said
    echo "lent_page.sh: two pages, one after the other, do not compile"
    exit 1
fi
if compiles 'let first = pager.page(1); let second = pager.page(2).is_ok(); first.is_ok() && second'; then
    echo "lent_page.sh: a lent page is kept across the next call"
    exit 1
fi
if ! grep -q 'borrow' said; then
    cat said
    echo "lent_page.sh: refused, but not for the loan"
    exit 1
fi
echo "a lent page is not kept across the next call"
