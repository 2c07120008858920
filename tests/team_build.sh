#!/bin/sh
# Builds lua in three directories by one store on a Redis server, and compares every object and every
# dependency file byte for byte with the plain compiler's of its directory. One checkout fills the store and
# the others use it, and two builds run at once. The server is killed, comes back empty, evicts, is full, is
# slow and cuts its replies; a user may only read; values are damaged. Nothing may fail, and no object may be
# wrong. Run by hand; needs gcc, make, Python 3, Debian's redis-server and redis-tools, and
# Debian's package archive. The server runs on a port of loopback, and is stopped at the end. DAMAGES is
# the number of damaged values, 1000 by default. The last line is 'all passed'.
set -eu
top=$(cd "$(dirname "$0")/.." && pwd)
. "$top/tests/real/common.sh"
. "$top/tests/real/team.sh"
for program in redis-server redis-cli; do
    command -v $program >/dev/null || { echo "needs $program"; exit 1; }
done
[ -n "${CCK_SOURCES-}" ] || download lua5.4
start_server
trap 'stop_servers; rm -rf "$room"' EXIT

for checkout in one two three few; do unpack lua5.4 $checkout; done
# The steps with faults are on some files, so that there can be many of them.
(cd "$room/few/src" && for file in *.c; do
    case $file in
    lapi.c|lcode.c|ldo.c|lgc.c|lopcodes.c|lparser.c|lstring.c|ltable.c|lvm.c|lzio.c) ;;
    *) rm "$file" ;;
    esac
done)
sleep 0.1
all=$(ls "$room"/one/src/*.c | wc -l)
some=$(ls "$room"/few/src/*.c | wc -l)

# A store that one checkout fills.
for checkout in one two three few; do plain $checkout; done
built 'an empty store' one 0 "$all"
built 'another checkout' two "$all" 0
built 'a third one' three "$all" 0
built 'the first one again' one "$all" 0
built 'another machine' one "$all" 0 home=elsewhere
built 'the third one again' three "$all" 0
echo "the server has $(count_of object) objects and $(count_of entry) entries"
[ "$(count_of object)" = "$all" ] || fault 'checkouts do not share objects'
[ "$(count_of entry)" = $((3 * all)) ] || fault 'a checkout has no entries'

# Dependency files.
empty
depends=1
for checkout in one two; do plain $checkout; done
built 'dependency files, an empty store' one 0 "$all"
built 'dependency files, another checkout' two "$all" 0
built 'dependency files, the same again' two "$all" 0
built 'dependency files, another machine' one "$all" 0 home=elsewhere2
depends=
for checkout in one two; do plain $checkout; done

# Debug information has the directory if no option maps it, so nothing can be shared.
empty
mapped=
plain one
plain two
built 'with -g, directories not mapped' one 0 "$all"
built 'the same in another checkout' two 0 "$all"
built 'the same again' two "$all" 0
mapped=1
plain one
plain two

# What two checkouts share, in which BASE is the checkout and UP the directory above it.
empty
mkdir -p "$room/up/common"
echo 'int in_common;' >"$room/up/common/common.h"
for checkout in a b; do
    mkdir -p "$room/up/$checkout/src" "$room/up/$checkout/other" "$room/up/$checkout/include"
    echo 'static const char *where = __FILE__;' >"$room/up/$checkout/include/h.h"
    echo "#define TOP \"$room/up/$checkout\"" >"$room/up/$checkout/include/top.h"
    cat >"$room/up/$checkout/src/x.c" <<'C'
#include <stddef.h>
#ifdef H
#include "h.h"
#endif
#ifdef T
#include "top.h"
char top[sizeof TOP];
#endif
#ifdef N
char name[sizeof NAME];
#endif
#ifdef C
#include "common.h"
#endif
#ifdef B
const char *file(void) { return __builtin_FILE(); }
#endif
int f(int a) { int unused; return a << 3; }
C
    cp "$room/up/$checkout/src/x.c" "$room/up/$checkout/other/x.c"
done
sleep 0.1
map=-ffile-prefix-map=BASE=.
shared yes 'no debug information' -c x.c
shared no '-g' -g -c x.c
shared yes '-g0' -g0 -c x.c
shared yes '-g and the directory mapped' -g $map -c x.c
shared yes 'messages' -g $map -Wall -DH -I../include -c x.c
shared yes '-g and the directory mapped for debug information' -g3 -fdebug-prefix-map=BASE=/w -c x.c
shared no '-g and the directory mapped for macros alone' -g -fmacro-prefix-map=BASE=. -c x.c
shared no 'the directory mapped with a slash' -g -ffile-prefix-map=BASE/=w/ -c x.c
shared no 'another prefix mapped too' -g $map -fdebug-prefix-map=UP=/u -c x.c
shared no 'another prefix mapped alone' -g -fdebug-prefix-map=UP=/u -c x.c
shared no 'the directory mapped to itself' -g -ffile-prefix-map=BASE=BASE -c x.c
shared yes 'a header of a relative directory' -g $map -DH -DB -I../include -c x.c
shared no 'a header of an absolute directory' -g $map -DH -IBASE/include -c x.c
shared no 'an absolute directory for system headers' -DH -isystem BASE/include -c x.c
shared no 'an absolute input' -g $map -c BASE/src/x.c
shared no 'an absolute input, no debug information' -DB -c BASE/src/x.c
shared no 'a macro that has the directory' -DN '-DNAME="BASE"' -c x.c
shared no 'a header that has the directory' -DT -I../include -c x.c
shared yes 'a header beside the checkouts' -g $map -DC -I../../common -c x.c
shared no 'the same by its absolute path' -g -DC -IUP/common -c x.c
shared no 'a sanitizer' -fsanitize=undefined -g $map -c x.c
shared no 'compressed debug information' -g -gz $map -c x.c
shared yes 'a dependency file' -g $map -DH -I../include -c x.c -MD -MP -MT x.o -MF x.d
shared yes 'a dependency file by its absolute path' -g $map -c x.c -MD -MT x.o -MF BASE/src/x.d
shared no 'a target by its absolute path' -g $map -c x.c -MD -MQ BASE/src/x.o -MF x.d
shared no 'another directory of the checkout' -g $map -DD=1 -c x.c second=other

# A directory before the server.
CCK_DIR=$room/directory
export CCK_DIR
empty
built 'a directory before an empty server' few 0 "$some"
rm -rf "$CCK_DIR"
built 'an empty directory' few "$some" 0
stop_server
built 'the directory without the server' few "$some" 0
unset CCK_DIR
start_server

# Two builds at once.
empty
: >"$room/log_one"
: >"$room/log_two"
build one >/dev/null 2>&1 &
first=$!
build two >/dev/null 2>&1 &
second=$!
wait $first || fault 'two builds at once: the first one failed'
wait $second || fault 'two builds at once: the second one failed'
compared 'two builds at once' one
compared 'two builds at once' two

# A server that goes away.
empty
: >"$room/log_one"
(
    while [ "$(grep -c '^cckcc: recorded' "$room/log_one")" -lt $((all / 3)) ]; do sleep 0.05; done
    kill -9 "$(cat "$room/server.pid")"
) &
killer=$!
built 'the server is killed in mid-build' one - -
wait $killer || fault 'the server was not killed'
wait_for_end
built 'no server' few 0 "$some"
start_server
built 'the server is back, and empty' few 0 "$some"
built 'and after that' few "$some" 0

# A server with too little memory.
empty
limit_memory 2300000 allkeys-lru
built 'a server that evicts' one - -
built 'the same again' one - -
echo "the server evicted $(info evicted_keys) values"
[ "$(info evicted_keys)" -gt 0 ] || fault 'nothing was evicted'
empty
limit_memory 50000 noeviction
built 'a full server' few - -
limit_memory 0 noeviction

# A server that is slow, and one that cuts its replies.
empty
built 'before the server is slow' few 0 "$some"
ask_server CLIENT PAUSE 4000 ALL >/dev/null
CCK_TIMEOUT=1 built 'a server that pauses' few - -
sleep 4
rm -f "$room"/home*/.cache/cck/down-*
for way in 'sleep 0.1' 'sleep 3' 'cut 10' 'cut 3000' 'garble 200'; do
    start_proxy $way
    CCK_TIMEOUT=1 port=$proxy_port built "a server by way of a proxy: $way" few - -
    stop_proxy
    rm -f "$room"/home*/.cache/cck/down-*
done
case $hits in
0) ;;
*) fault 'a hit from garbled values' ;;
esac
built 'the server itself' few "$some" 0

# Users.
empty
user=nobody:read@ built 'no such user, and a default user that may all' few 0 "$some"
[ "$(ask_server DBSIZE)$(redis-cli -p "$port" -n 0 DBSIZE)" = 00 ] || fault 'no such user: has written'
ask_server ACL SETUSER admin on '>admin' '~*' +@all >/dev/null
ask_server ACL SETUSER default off >/dev/null
admin=1
ask_server ACL SETUSER reader on '>read' '~cck:*' +get +select >/dev/null
ask_server ACL SETUSER writer on '>write' '~cck:*' +get +setex +select >/dev/null
user=reader:read@ built 'a user that may read, an empty store' few 0 "$some"
[ "$(count_of object)$(count_of entry)" = 00 ] || fault 'a user that may only read has written'
user=writer:write@ built 'a user that may write' few 0 "$some"
user=reader:read@ built 'a user that may read' few "$some" 0
user=reader:wrong@ built 'a wrong password' few 0 "$some"
user=nobody:read@ built 'no such user' few 0 "$some"
built 'no user' few 0 "$some"
ask_server ACL SETUSER default on >/dev/null
admin=

# Values that are damaged by hand.
python3 "$top/tests/real/team.py" damage "$port" "$room/damage" || fault 'damaged values'
finish
