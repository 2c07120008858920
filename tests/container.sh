#!/bin/sh
# A store that another machine made, as in a new container or a runner of continuous integration: container.sh [DEBIAN]. A
# project is compiled in a Debian made by debootstrap, and its store is restored in copies of that Debian, in which each file has
# another inode and another time. What an image compiles, and what it does not, is compared with the plain compiler's. DEBIAN is a
# directory with a Debian that has gcc 12, in place of a new one; it is only read. The program is CCK_PROGRAM, by default the one
# that was proved and built here. Needs root, gcc, debootstrap and the network: MIRROR names Debian's mirror. The last line is
# `container: N passed, M failed`.
top=$(cd "$(dirname "$0")/.." && pwd)
program=${CCK_PROGRAM:-$top/crates/cck_cache/out/cck_cache}
mirror=${MIRROR:-http://deb.debian.org/debian}
room=$(mktemp -d)
trap 'umount "$room/first/proc" "$room/second/proc" 2>/dev/null; rm -rf --one-file-system "$room"' EXIT
passed=0 failed=0
check() {
    if [ "$2" = "$3" ]; then passed=$((passed + 1)); else
        failed=$((failed + 1))
        printf 'FAILED: %s\nwanted: %s\nfound:  %s\n' "$1" "$3" "$2"
    fi
}

debian=${1-}
if [ -z "$debian" ]; then
    debian=$room/debian
    debootstrap --variant=minbase --include=gcc-12,gcc,libc6-dev bookworm "$debian" "$mirror" >"$room/said" 2>&1 || {
        tail -n 3 "$room/said"
        exit 2
    }
fi

# What runs in an image: it compiles each source by the wrapper and by gcc, and prints what the wrapper did, and which outputs
# differ. The project is written anew, as by a checkout.
cat >"$room/build.sh" <<'END'
cd /
export HOME=/root LC_ALL=C CCK_PROGRAM=/cck/cck_cache CCK_LOG=/root/log
mkdir -p /root/project/include
cd /root/project
echo '#define ONE 1' >include/one.h
printf '#include <stdio.h>\n#include "one.h"\nint one(void) { return ONE; }\n' >a.c
printf '#include <string.h>\nint f(const char *s) { int unused; return (int)strlen(s); }\n' >b.c
printf 'int kind =\n#ifdef MARK\n1\n#else\n0\n#endif\n;\n' >c.c
sleep 0.1
: >"$CCK_LOG"
for source in a b c; do
    /cck/bin/cckcc gcc -O2 -g -Wall -Iinclude -MD -c $source.c 2>$source.said
    for file in $source.o $source.d $source.said; do mv $file got.$file; done
    gcc -O2 -g -Wall -Iinclude -MD -c $source.c 2>$source.said
    for file in $source.o $source.d $source.said; do cmp -s $file got.$file || echo "$file differs"; done
done
sed -n 's/^cckcc: \(hit\|recorded\|passed on ([a-z]*)\|refused-[a-z-]*\|error\).*/\1/p' "$CCK_LOG" | paste -sd ,
END

# Makes the image $1, a copy of the Debian with the wrapper.
make_image() {
    cp -a "$debian" "$room/$1" && mkdir -p "$room/$1/cck" && cp -r "$top/bin" "$top/lib" "$program" "$room/build.sh" "$room/$1/cck" &&
        mv "$room/$1/cck/${program##*/}" "$room/$1/cck/cck_cache" 2>/dev/null
    [ -x "$room/$1/cck/cck_cache" ] && mount -t proc proc "$room/$1/proc" || exit 2
}
store=root/.cache/cck
# Restores the store of the image $1 in the image $2, as an archive does. The list of the compiler's programs is then newer than
# all that the image has: its time is not what keeps it from counting.
restore() {
    rm -rf "$room/$2/$store"
    tar -C "$room/$1/root" -cf - .cache | tar -C "$room/$2/root" -xf -
    sleep 0.1
    touch "$room/$2/$store"/compilers/*
}
build() {
    image=$1
    shift
    chroot "$room/$image" env -i PATH=/usr/bin:/bin "$@" sh /cck/build.sh 2>&1
}
list() { cat "$room/$1/$store"/compilers/gcc-*; }

make_image first
check 'an empty store' "$(build first)" recorded,recorded,recorded
check 'the same machine' "$(build first)" hit,hit,hit
check 'the list has the status of the compiler' "$(list first | grep -c "^/usr/bin/x86_64-linux-gnu-gcc-12 $(
    stat -c '%d %i' "$room/first/usr/bin/x86_64-linux-gnu-gcc-12") ")" 1

make_image second
restore first second
check 'a machine with the same packages' "$(build second)" hit,hit,hit
check 'once more' "$(build second)" hit,hit,hit
check 'its list takes the place of the other' "$(list second | grep -c "^/usr/bin/x86_64-linux-gnu-gcc-12 $(
    stat -c '%d %i' "$room/second/usr/bin/x86_64-linux-gnu-gcc-12") ")" 1
restore second first
check 'back' "$(build first)" hit,hit,hit
restore first second
check 'by times' "$(build second CCK_COMPILER_CHECK=mtime)" recorded,recorded,recorded
check 'by times, once more' "$(build second CCK_COMPILER_CHECK=mtime)" hit,hit,hit

# A file of specs beside the compiler's programs, or above them: the compiler reads it, and its calls are passed on.
for place in x86_64-linux-gnu/12 x86_64-linux-gnu; do
    specs=$room/second/usr/lib/gcc/$place/specs
    printf '*cc1_options:\n+ -DMARK\n' >"$specs"
    restore first second
    check "a file of specs in $place" "$(build second)" 'passed on (compiler),passed on (compiler),passed on (compiler)'
    cmp -s "$room/first/root/project/c.o" "$room/second/root/project/c.o" && same=same || same=other
    check "it changes an object, in $place" "$same" other
    rm "$specs"
done

# Another library, another program: a byte more changes nothing but the digest.
for file in lib/x86_64-linux-gnu/libc.so.6 usr/lib/gcc/x86_64-linux-gnu/12/cc1 usr/bin/x86_64-linux-gnu-as; do
    cp "$room/second/$file" "$room/kept"
    printf x >>"$room/second/$file"
    restore first second
    check "another $file" "$(build second)" recorded,recorded,recorded
    cp "$room/kept" "$room/second/$file"
    check "the first $file again" "$(build second)" hit,hit,hit
done

# A library that is loaded into each program.
cp -L "$room/second/lib/x86_64-linux-gnu/libz.so.1" "$room/second/lib/other.so"
echo /lib/other.so >"$room/second/etc/ld.so.preload"
restore first second
check 'a library of /etc/ld.so.preload' "$(build second)" recorded,recorded,recorded
rm "$room/second/etc/ld.so.preload"
check 'none again' "$(build second)" hit,hit,hit
echo "container: $passed passed, $failed failed"
[ "$failed" -eq 0 ]
