# Connects to a Redis server, or to an HTTP server, neither by TLS, and becomes the program, or where frames are expanded its
# child does. The program asks the server on its standard input and output. lib/cckcc/server.sh runs it as `perl connect.pl
# LOCALE SECONDS EXPANDS PROGRAM COMMAND WORD..`, where LOCALE is `=` and the caller's LC_ALL, or empty where that is not set,
# SECONDS the time that nothing may come or be sent, EXPANDS whether frames of zstd are expanded, and the words are those of
# the program's command.
#
# Standard input begins with eight lines: the scheme, the host or the path of a socket, the port, the database or what the
# path of a name begins with, the user, the password or token, the number in the names at the server and the most bytes of a
# value. The program has them, with the paths of its other streams, in a file that its option `--address` names: no secret is
# in an argument or in the environment. Its answer is written to standard output, and its messages to stream 3.
#
# It ends with status 1 where it can't connect, and by SIGALRM where it takes too long to find the server. It reads no
# module: `warnings` alone takes longer than all that it does.

my ($locale, $seconds, $expands, $program, $command, @words) = @ARGV;
if ($locale eq '') { delete $ENV{LC_ALL} } else { $ENV{LC_ALL} = substr $locale, 1 }
my @lines = map { my $line = <STDIN>; chomp $line; $line } 1 .. 8;
my ($scheme, $host, $port) = @lines;
my $most = $lines[7];
my $unix = $scheme eq 'redis+unix';

# No stream closes where the program begins.
$^F = 255;

# The structures that Linux has for the addresses of the server.
sub addresses {
    if ($unix) { return length $host < 108 ? pack 'S a108', 1, $host : () }
    return if $port > 65535;
    my (undef, undef, undef, undef, @all) = gethostbyname $host;
    return map { pack 'S n a4 x8', 2, $port, $_ } @all;
}

# A socket that is connected. A read or a write of it fails after the time (SO_RCVTIMEO, SO_SNDTIMEO).
sub connected {
    for my $to (addresses()) {
        socket my $server, $unix ? 1 : 2, 1, 0 or next;
        my $time = pack 'l! l!', $seconds, 0;
        setsockopt $server, 1, 20, $time and setsockopt $server, 1, 21, $time and connect $server, $to and return $server;
    }
    exit 1;
}

# The bytes of a frame, or nothing where they are not so many. A pipe that has room takes what is written at once.
sub expanded {
    my ($size, $frame) = @_;
    return '' if $size > $most;
    pipe my $input, my $to or return '';
    pipe my $from, my $output or return '';
    my $zstd = fork // return '';
    if (!$zstd) {
        open STDIN, '<&', $input and open STDOUT, '>&', $output or exit 127;
        close $_ for $input, $to, $from, $output;
        exec 'zstd', '-dcq' or exit 127;
    }
    close $input;
    close $output;
    my $bytes = '';
    while (length $bytes <= $size) {
        my ($ready, $room) = ('', '');
        vec($ready, fileno $from, 1) = 1;
        if ($frame eq '') { close $to } else { vec($room, fileno $to, 1) = 1 }
        select $ready, $room, undef, undef;
        if ($frame ne '' and vec $room, fileno $to, 1) {
            substr $frame, 0, (syswrite $to, $frame, 4096 or length $frame), '';
        }
        if (vec $ready, fileno $from, 1) { sysread $from, $bytes, $size + 1 - length $bytes, length $bytes or last }
    }
    close $to;
    close $from;
    waitpid $zstd, 0;
    return $? == 0 && length $bytes == $size ? $bytes : '';
}

# Returns in a child, which is to become the program, the pipe to which it writes frames and that of the replies. The parent
# replies until the child ends, and ends with its status.
sub expander {
    pipe my $frames, my $to or return;
    pipe my $from, my $expanded or return;
    my $child = fork // return;
    if (!$child) {
        close $frames;
        close $expanded;
        return ($to, $from);
    }
    close $to;
    close $from;
    $SIG{PIPE} = 'IGNORE';
    while (defined(my $line = <$frames>)) {
        last if $line !~ /^expand ([0-9]+) ([0-9]+)$/;
        my $size = $1;
        last if read($frames, my $frame, $2) != $2;
        my $bytes = expanded($size, $frame);
        my $reply = $bytes eq '' ? "-\n" : length($bytes) . "\n$bytes";
        while (length $reply) { substr $reply, 0, (syswrite $expanded, $reply or last), '' }
    }
    waitpid $child, 0;
    exit $? >> 8;
}

alarm $seconds;
my $server = connected();
alarm 0;
my ($to, $from) = $expands ? expander() : ();
open my $answer, '>&', STDOUT or exit 1;
pipe my $address, my $written or exit 1;
syswrite $written, join '', map { "$_\n" } @lines, map { $_ ? '/dev/fd/' . fileno $_ : '' } $answer, $to, $from;
close $written;
open STDIN, '<&', $server and open STDOUT, '>&', $server and open STDERR, '>&', 3 or exit 1;
close $server;
exec $program $program, $command, '--address=/dev/fd/' . fileno $address, @words or exit 1;
