#!/bin/sh
# Starts the program with SQLite's lock on FILE, where there is perl (hold_lock.pl beside this script); else without it.
#
#     tools/launch.sh PROGRAM WORDS..
#
# A standard stream that is closed gets what fails as it would, so that nothing that is opened on the way has its number.
{ true 3<&0; } 2> /dev/null || exec 0> /dev/null
{ true 3>&1; } 2> /dev/null || exec 1< /dev/null
{ true 3>&2; } 2> /dev/null || exec 2< /dev/null
lock=$(dirname "$0")/hold_lock.pl
# (perl would say what it thinks of the locale)
! command -v perl > /dev/null || PERL_BADLANG=0 exec perl "$lock" "$@"
exec "$@"
