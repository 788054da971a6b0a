#!/usr/bin/env bash
# Makes a Debian package of the program, with all that tools/install.sh installs: sqlcipher-tool_VERSION_amd64.deb.
#
#     tools/deb.sh [FOLDER]
#
# It lies in FOLDER, or at the top of the repository where none is given. It needs dpkg-deb. PROGRAM names another program, and MAINTAINER who
# answers for the package.
set -eu
top=$(cd "$(dirname "$(readlink -f "$0")")/.." && pwd)
to=$(cd "${1:-$top}" && pwd)
room=$(mktemp -d)
trap 'rm -rf "$room"' EXIT
umask 022
chmod 755 "$room"
"$top/tools/install.sh" "$room/usr"
gzip -9n "$room/usr/share/man/man1/sqlcipher-tool.1"
version=$("$room/usr/bin/sqlcipher-tool" --version | awk '{ print $2 }')
mkdir "$room/DEBIAN"
cat > "$room/DEBIAN/control" <<CONTROL
Package: sqlcipher-tool
Version: $version
Architecture: amd64
Maintainer: ${MAINTAINER:-nobody <nobody@localhost>}
Installed-Size: $(du -sk "$room/usr" | cut -f 1)
Depends: libc6 (>= 2.34), libgcc-s1
Recommends: python3, sqlite3
Section: database
Priority: optional
Description: check, recover, re-key and convert SQLCipher and SQLite files
 Checks database files of SQLCipher 1 to 4 and plain SQLite files, encrypts and
 decrypts them, changes their key, exports their rows, and takes rows out of
 damaged ones. After a stop at any moment, recovery gives the old database or
 the finished new one.
CONTROL
dpkg-deb --build --root-owner-group "$room" "$to/sqlcipher-tool_${version}_amd64.deb" > /dev/null
echo "$to/sqlcipher-tool_${version}_amd64.deb"
