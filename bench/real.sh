#!/bin/sh
# Times builds of a project's files at -O2 -g: by gcc, by gcc with its preprocessor beside it, which each cache runs that
# makes keys of preprocessed text, by the wrapper and by ccache in direct mode, with an empty store and with all hits, and
# what one hit takes. PROJECT is lua, the default, zstd, freetype, libxml2,
# mbedtls, libuv, jemalloc or, in C++, re2. JOBS is the number of jobs, 1 by default, and ROUNDS the number of rounds, 3 by
# default: a round has each build once, with all hits three times, and the least time of each counts. Needs gcc,
# make, Python 3 and Debian's package archive; ccache for its lines, and strace and valgrind for theirs.
set -eu
top=$(cd "$(dirname "$0")/.." && pwd)
. "$top/tests/real/common.sh"
. "$top/tests/real/times.sh"
PROJECT=${PROJECT:-lua}
flags='-O2 -g -Wall'
files='*.c'
case $PROJECT in
lua) package=lua5.4 directory=src flags="$flags -DLUA_COMPAT_5_3 -DLUA_USE_POSIX" ;;
zstd)
    package=libzstd directory=lib flags="$flags -I. -Icommon -DXXH_NAMESPACE=ZSTD_ -DZSTD_DISABLE_ASM"
    files='common/*.c compress/*.c decompress/*.c dictBuilder/*.c'
    ;;
freetype)
    package=freetype directory=. flags="$flags -Iinclude -DFT2_BUILD_LIBRARY"
    files='src/base/*.c src/cff/*.c src/psaux/*.c src/sfnt/*.c src/truetype/*.c src/type1/*.c'
    ;;
libxml2) package=libxml2 directory=. flags="$flags -DHAVE_CONFIG_H -D_REENTRANT -I. -Iinclude" ;;
mbedtls) package=mbedtls directory=library flags="$flags -I../include" ;;
libuv)
    package=libuv1 directory=. flags="$flags -Iinclude -Isrc -D_GNU_SOURCE"
    files='src/*.c'
    for name in async core dl epoll fs getaddrinfo getnameinfo linux-core linux-inotify linux-syscalls loop loop-watcher \
        pipe poll process procfs-exepath proctitle random-devurandom random-getrandom random-sysctl-linux signal stream \
        tcp thread tty udp; do
        files="$files src/unix/$name.c"
    done
    ;;
jemalloc)
    package=jemalloc directory=. flags="$flags -Iinclude -D_GNU_SOURCE -D_REENTRANT"
    # (zone.c is for another system)
    files='src/[!z]*.c'
    ;;
re2) package=re2 directory=. flags="$flags -I. -pthread" files='re2/*.cc util/rune.cc util/strutil.cc' ;;
*)
    echo "bench/real.sh: no project $PROJECT" >&2
    exit 2
    ;;
esac
[ -n "${CCK_SOURCES-}" ] || download "$package"
unset CCK_LOG
CCACHE_DIR=$room/ccache
export CCACHE_DIR
unpack "$package" project
cd "$room/project/$directory"
case $PROJECT in
libxml2) ./configure --without-python --without-lzma --without-zlib >"$room/configured" 2>&1 ;;
jemalloc)
    ./configure >"$room/configured" 2>&1
    # (its makefile makes this one, of the objects of a build)
    true >include/jemalloc/internal/private_namespace.h
    ;;
esac
with_ccache=
if command -v ccache >/dev/null; then with_ccache=1; fi

cat >"$room/preprocessing" <<'END'
#!/bin/sh
(
    is_output=
    for word do
        shift
        case $is_output$word in
        1*) is_output= ;;
        -o) is_output=1 ;;
        *) set -- "$@" "$word" ;;
        esac
    done
    exec gcc -E "$@" >/dev/null 2>&1
) &
gcc "$@"
status=$?
wait
exit $status
END
chmod +x "$room/preprocessing"

for round in $(seq "${ROUNDS:-3}"); do
    timed 'gcc' gcc
    timed 'gcc, gcc -E beside it' "$room/preprocessing"
    rm -rf "$CCK_STORE" "$CCACHE_DIR"
    timed 'cckcc, empty store' 'cckcc gcc'
    [ -z "$with_ccache" ] || timed 'ccache, empty store' 'ccache gcc'
    for again in 1 2 3; do
        timed 'cckcc, all hits' 'cckcc gcc'
        [ -z "$with_ccache" ] || timed 'ccache, all hits' 'ccache gcc'
        timed 'make alone' true
    done
done
echo "$PROJECT: $(ls $files | wc -l) files, ${JOBS:-1} jobs"
print_times gcc
"$CCK_PROGRAM" stats "$CCK_STORE"

# One hit on the largest file and on the smallest one.
export flags
python3 "$top/bench/lib/one_hit.py" $(ls -S $files | sed -n '1p;$p')
