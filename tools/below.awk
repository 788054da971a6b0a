# The crates of this repository that a crate stands on, from crates.txt.
#
#     awk -F: -v wanted=CRATE -f tools/below.awk crates.txt
#
# It prints a line for each, lowest first, and the last one for the crate itself: the name, and the names of all that it stands on.
/^[a-z]/ { named[$1] = $2 }

function add(name, other) {
    if (index(below[name] " ", " " other " ") == 0) below[name] = below[name] " " other
}

function visit(name, parts, count, i, more, n, j) {
    if (!(name in named) || name in below) return
    below[name] = ""
    count = split(named[name], parts, " ")
    for (i = 1; i <= count; i++) {
        if (!(parts[i] in named)) continue
        visit(parts[i])
        n = split(below[parts[i]], more, " ")
        for (j = 1; j <= n; j++) add(name, more[j])
        add(name, parts[i])
    }
    print name below[name]
}

END { visit(wanted) }
