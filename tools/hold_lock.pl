#!/usr/bin/perl
# Takes SQLite's lock on FILE and becomes the program, which holds it to its end.
#
#     perl tools/hold_lock.pl PROGRAM FILE COMMAND WORDS..
#
# SQLite locks bytes of the file itself (fcntl): the pending byte at 2^30, the reserved one behind it, and 510 shared ones. The lock that
# is taken here belongs to the open file and not to the process (Linux, F_OFD_SETLK): it conflicts with SQLite's as another process's
# would, lasts through exec, and is not lost when the program closes another descriptor of the file. A command that only reads takes it
# shared where there is no journal and no log, so that others go on reading; every other one takes all of it. Under the setting `:wal` it is
# always shared: the log is read and no journal is played back, and a program that has the file open in WAL mode holds it shared itself. FILE
# is opened for reading alone then, which is enough for a shared lock. Where others have the lock for two seconds, or it can't be had, the
# program starts without it. SQLCIPHER_TOOL_LOCK says which: the number of the open file, or `refused`. The program believes the number only
# where /proc shows the lock on the file that it has open itself. No module is used, so that perl alone is enough.
use strict;

# Linux on x86-64: the calls of fcntl, its kinds of locks, two errors; SQLite's bytes; and two seconds.
sub F_DUPFD () { 0 }
sub F_SETFD () { 2 }
sub F_OFD_SETLK () { 37 }
sub F_RDLCK () { 0 }
sub F_WRLCK () { 1 }
sub F_UNLCK () { 2 }
sub EAGAIN () { 11 }
sub EACCES () { 13 }
sub PENDING () { 1 << 30 }
sub SHARED () { (1 << 30) + 2 }
sub TURNS () { 40 }
sub TURN () { 0.05 }

my %reads = map { $_ => 1 } qw(tags header verify export agree find salvage);
my %changes = map { $_ => 1 } qw(recover settle stamp rekey migrate play);

my ($program, @words) = @ARGV;
my ($file, $command) = @words;
my $with_log = @words > 2 && $words[2] =~ /:wal\z/;
delete $ENV{SQLCIPHER_TOOL_LOCK};

sub become_program {
    exec { $program } $program, @words or print STDERR "sqlcipher-tool: $program: $!\n";
    exit 125;
}

# Whether it is done. It is not where others have the bytes; where the system refuses, the program goes on without a lock.
sub lock_bytes {
    my ($handle, $kind, $first, $count) = @_;
    my $lock = pack 's s x4 q q l x4', $kind, 0, $first, $count, 0;
    return 1 if fcntl $handle, F_OFD_SETLK, $lock;
    become_program() unless $! == EAGAIN || $! == EACCES;
    return 0;
}

sub unlock { lock_bytes($_[0], F_UNLCK, PENDING, 512) }

# A writer that waits for readers to go holds the pending byte, and no new reader passes it: so neither does this one, and no reader
# this one, where it waits for all of the lock.
sub take {
    my ($handle, $is_shared) = @_;
    return lock_bytes($handle, F_WRLCK, PENDING, 2) && lock_bytes($handle, F_WRLCK, PENDING, 512) unless $is_shared;
    unlock($handle);
    return 0 unless lock_bytes($handle, F_RDLCK, PENDING, 1);
    my $done = lock_bytes($handle, F_RDLCK, SHARED, 510);
    lock_bytes($handle, F_UNLCK, PENDING, 1);
    return $done;
}

# Whether a shared lock will do: nothing beside the file would be played back. The links of FILE are followed.
sub is_reading {
    my ($handle) = @_;
    return 0 unless $reads{$command};
    return 1 if $with_log;
    my $path = readlink '/proc/self/fd/' . fileno $handle;
    return defined $path && !-e "$path-journal" && !-s "$path-wal";
}

# (a command that changes is refused under the setting before it opens the file)
become_program() unless @words > 1 && ($reads{$command} || $changes{$command} && !$with_log) && -f $file;
my $opened;
!$with_log && open($opened, '+<', $file) || $reads{$command} && open($opened, '<', $file) || become_program();
# (a number above those of the standard streams, which may be closed, and one that is kept open by exec)
my $number = fcntl($opened, F_DUPFD, 10) || become_program();
open(my $handle, $with_log ? '<&=' : '+<&=', $number) || become_program();
fcntl($handle, F_SETFD, 0) || become_program();
close $opened;

for my $turn (1 .. TURNS) {
    # A journal that came before the lock was had makes it one for the exclusive lock.
    my $is_shared = is_reading($handle);
    if (take($handle, $is_shared) && (!$is_shared || is_reading($handle))) {
        $ENV{SQLCIPHER_TOOL_LOCK} = $number;
        become_program();
    }
    select undef, undef, undef, TURN;
}
unlock($handle);
$ENV{SQLCIPHER_TOOL_LOCK} = 'refused';
become_program();
