#!/bin/sh
# Times builds of lua's 34 files at -O2 -g with all hits: from a directory, from a Redis server on loopback by
# entries and by texts, from an HTTP server on loopback by entries, and by gcc alone, and says what the Redis server takes
# for them. A round has each build, those of hits three times; ROUNDS, 3 by default, is their number, and the least time
# of each counts. Needs gcc, make, Python 3, Debian's redis-server, redis-tools, nginx and curl, and Debian's package
# archive. FILES are patterns of the C files, by default all.
set -eu
top=$(cd "$(dirname "$0")/.." && pwd)
. "$top/tests/real/common.sh"
. "$top/tests/real/team.sh"
. "$top/tests/real/times.sh"
[ -n "${CCK_SOURCES-}" ] || download lua5.4
unset CCK_LOG
HOME=$room/home
export HOME
start_server
trap 'stop_servers; rm -rf "$room"' EXIT
start_http
files=${FILES:-*.c}
for checkout in one two; do unpack lua5.4 $checkout; done
directory=$CCK_STORE
server=redis://127.0.0.1:$port/$database
http=http://127.0.0.1:$http_port

# Enters the checkout $1.
enter() {
    cd "$room/$1/src"
    CCK_BASEDIR=$room/$1
    export CCK_BASEDIR
    flags=$(flags_of "$1")
}

enter one
sleep 0.1
# The compiler's programs are hashed once on a machine.
CCK_STORE=$server cckcc gcc $flags -c lzio.c -o lzio.o
empty
CCK_STORE=$server timed 'the server, empty' 'cckcc gcc'
CCK_STORE=$http timed 'the HTTP server, empty' 'cckcc gcc'
CCK_STORE=$directory timed 'a directory, empty' 'cckcc gcc'
entries=$(count_of entry)
echo "$(count_of object) objects and $entries entries take $(($(info used_memory_dataset))) bytes of the server"
for kind in object entry; do
    ask_server --scan --pattern "cck:5:$kind:*" | while read -r name; do ask_server STRLEN "$name"; done |
        awk -v kind=$kind '{ sum += $1 } END { printf "%s: %d values, %d bytes, %d on average\n", kind, NR, sum, sum / NR }'
done
for round in $(seq "${ROUNDS:-3}"); do
    enter one
    CCK_STORE=$server timed 'gcc' gcc
    for again in 1 2 3; do
        enter one
        CCK_STORE=$directory timed 'all hits, a directory' 'cckcc gcc'
        CCK_STORE=$server timed 'all hits, the server' 'cckcc gcc'
        CCK_STORE=$http timed 'all hits, the HTTP server' 'cckcc gcc'
        # Without the entries of this checkout its objects are found by their texts.
        enter two
        ask_server --scan --pattern 'cck:5:entry:*' | xargs redis-cli -p "$port" -n "$database" DEL >/dev/null
        CCK_STORE=$server timed 'all hits by their texts' 'cckcc gcc'
        enter one
        ask_server --scan --pattern 'cck:5:entry:*' | xargs redis-cli -p "$port" -n "$database" DEL >/dev/null
        CCK_STORE=$server timed 'all hits by their texts' 'cckcc gcc'
        make -s -f "$top/tests/real/objects.mk" clean
    done
done
print_times gcc
