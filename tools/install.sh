#!/usr/bin/env bash
# Installs the program behind its launcher, its manual page, the scripts that ask for keys and make SQL of its texts, completion for bash,
# and the documents that its messages speak of.
#
#     tools/install.sh [PREFIX]
#
# PREFIX is ~/.local where it is not given. PROGRAM names another program than the one that is built here.
set -eu
top=$(cd "$(dirname "$0")/.." && pwd)
prefix=${1:-$HOME/.local}
program=${PROGRAM:-$("$top/tools/program.sh")}
[ -n "$program" ] || exit 1
# What is called takes SQLite's lock on the file first, and the program holds it.
libexec=$prefix/libexec/sqlcipher-tool
install -D -m 755 "$program" "$libexec/sqlcipher-tool"
install -m 755 "$top/tools/launch.sh" "$libexec/launch.sh"
install -m 644 "$top/tools/hold_lock.pl" "$libexec/hold_lock.pl"
install -D -m 755 /dev/stdin "$prefix/bin/sqlcipher-tool" <<'LAUNCHER'
#!/bin/sh
libexec=$(dirname "$(readlink -f "$0")")/../libexec/sqlcipher-tool
exec "$libexec/launch.sh" "$libexec/sqlcipher-tool" "$@"
LAUNCHER
install -D -m 644 "$top/docs/sqlcipher-tool.1" "$prefix/share/man/man1/sqlcipher-tool.1"

for document in README.md docs/DAMAGED_FILES.md docs/FORMATS.md; do
    install -D -m 644 "$top/$document" "$prefix/share/doc/sqlcipher-tool/$document"
done
install -D -m 755 "$top/tools/sqlcipher-tool-ask" "$prefix/bin/sqlcipher-tool-ask"
for text in export salvage; do
    install -D -m 755 "$top/tools/${text}_to_sql.py" "$prefix/share/sqlcipher-tool/${text}_to_sql.py"
    ln -sfn "../share/sqlcipher-tool/${text}_to_sql.py" "$prefix/bin/sqlcipher-tool-$text-to-sql"
done
completions=$prefix/share/bash-completion/completions
install -D -m 644 "$top/tools/sqlcipher-tool.bash-completion" "$completions/sqlcipher-tool"
ln -sfn sqlcipher-tool "$completions/sqlcipher-tool-ask"
