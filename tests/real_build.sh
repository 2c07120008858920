#!/bin/sh
# Builds zlib and lua by `cckcc gcc` and by gcc alone, and compares every object and every dependency file
# byte for byte: with an empty store, with all hits, after the time of one header changed, and after its
# contents changed. Run by hand; needs gcc, make and Debian's package archive. Its last line is 'all passed'.
set -eu
top=$(cd "$(dirname "$0")/.." && pwd)
. "$top/tests/real/common.sh"
[ -n "${CCK_SOURCES-}" ] || download zlib lua5.4
flags='-O2 -g -Wall -DLUA_COMPAT_5_3 -DLUA_USE_POSIX'
# The options for dependency files, in which make replaces $*, and how many are made for an object.
dependencies=
written=0
jobs=${JOBS:-4}

# Compiles every C file of the working directory by the compiler $1.
build() {
    make -s -f "$top/tests/real/objects.mk" clean
    : >"$CCK_LOG"
    make -s -j "$jobs" -f "$top/tests/real/objects.mk" CC="$1" CFLAGS="$flags $dependencies" 2>"$room/stderr"
}

# The objects and the dependency files of the working directory.
made() { find . -maxdepth 1 -name '*.[od]'; }

# Compares the objects and the dependency files of the working directory with those in $1, for the step $2.
compare() {
    for file in $(made); do
        cmp -s "$file" "$1/$file" || fault "$name: $2: $file differs"
    done
    [ "$(made | wc -l)" = "$(ls "$1"/*.[od] | wc -l)" ] || fault "$name: $2: other files"
}

# Keeps the plain compiler's objects, dependency files and messages in $1.
plain() {
    build gcc
    mkdir -p "$1"
    cp $(made) "$1"
    [ "$(ls "$1"/*.d 2>/dev/null | wc -l)" = $(($(ls ./*.c | wc -l) * written)) ] || fault "$name: no dependency files"
    sort "$room/stderr" >"$1/messages"
}

# Builds by the wrapper, for the step $2, and compares with the plain objects in $1. Then there are
# $3 hits and $4 misses.
cached() {
    build 'cckcc gcc'
    compare "$1" "$2"
    sort "$room/stderr" | cmp -s - "$1/messages" || fault "$name: $2: other messages"
    hits=$(logged hit)
    misses=$(logged 'recorded ')
    echo "$name: $2: $hits hits, $misses misses"
    [ "$hits" = "$3" ] || fault "$name: $2: not $3 hits"
    [ "$misses" = "$4" ] || fault "$name: $2: not $4 misses"
}

# Tries the package in the working directory, whose header $1 is touched and changed.
try() {
    files=$(ls ./*.c | wc -l)
    plain "$room/plain_$name"
    cached "$room/plain_$name" cold 0 "$files"
    cached "$room/plain_$name" 'all hits' "$files" 0
    touch "$1"
    cached "$room/plain_$name" "time of $1" "$files" 0
    for source in *.c; do
        gcc $flags -M "$source" | grep -q "[ /]$1" && echo "$source"
    done >"$room/includers"
    sed -i '$s/$/\nextern int cck_changed_header;/' "$1"
    plain "$room/changed_$name"
    affected=$(wc -l <"$room/includers")
    cached "$room/changed_$name" "contents of $1" $((files - affected)) "$affected"
    sed -n 's/^cckcc: recorded .* //p' "$CCK_LOG" | sort | cmp -s - "$room/includers" ||
        fault "$name: the files that missed are not those that include $1"
}

name=lua
unpack lua5.4 lua
(cd "$room/lua/src" && try lopcodes.h && [ $faults -eq 0 ]) || faults=$((faults + 1))
name=zlib
unpack zlib zlib
(cd "$room/zlib" && try zutil.h && [ $faults -eq 0 ]) || faults=$((faults + 1))

# Unpacks the package $2 for the builds of the name $1 in an empty store, with these options for dependency
# files, and tries it in its directory $3, whose header $4 is changed.
try_dependencies() {
    name=$1 package=$2 place=$3 header=$4 written=1
    shift 4
    dependencies=$*
    rm -rf "$CCK_STORE" "${room:?}/$package"
    unpack "$package" "$package"
    (cd "$room/$package/$place" && try "$header" && [ $faults -eq 0 ]) || faults=$((faults + 1))
    dependencies= written=0
}
try_dependencies 'lua with -MD' lua5.4 src lopcodes.h -MD -MP -MF '$*.d'
try_dependencies 'lua with -MMD' lua5.4 src lopcodes.h -MMD
try_dependencies 'zlib with -MMD' zlib . zutil.h -MMD -MQ '$*.lo' -MT '$*.d' '-MF$*.d'

# Builds zlib in the directory $1 by its own configure and make, by the compiler $2.
configured() {
    unpack zlib "$1"
    : >"$CCK_LOG"
    (cd "$room/$1" && CC="$2" ./configure >"$room/configure_$1" 2>&1 && make -j "$jobs" >/dev/null 2>&1)
}

# The directory is part of debug information and of keys, so each build is in the same one.
name='zlib by configure'
configured whole gcc
mv "$room/whole" "$room/whole_plain"
mv "$room/configure_whole" "$room/configure_plain"
for step in cold 'all hits'; do
    configured whole 'cckcc gcc'
    # It prints the name of the compiler.
    sed 's/ cckcc gcc\.$/ gcc./' "$room/configure_whole" | cmp -s - "$room/configure_plain" ||
        fault "$name: $step: configure differs"
    (cd "$room/whole" && find . -name '*.o' -o -name '*.lo' -o -name '*.a') | while read -r file; do
        case $file in
        *.a) continue ;; # An archive has times.
        esac
        cmp -s "$room/whole/$file" "$room/whole_plain/$file" || echo "$file"
    done >"$room/differing"
    [ ! -s "$room/differing" ] || fault "$name: $step: $(wc -l <"$room/differing") objects differ"
    echo "$name: $step: $(logged hit) hits, $(logged 'recorded ') misses, $(logged passed) passed on"
done
finish
