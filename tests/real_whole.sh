#!/bin/sh
# Builds whole projects by a compiler as it is and by way of cckcc: with an empty store, once more, after an edit of a
# header that most files include, and after all sources were touched. Every object, archive, library, program and
# dependency file of a build is compared with the plain compiler's, and so are the messages and the status of each call.
# What the first build recorded hits in the second, and what the third recorded in the last. Where there is ccache, its
# hits in a second build are counted too.
# COMPILER is gcc or clang, by default gcc; C++ is compiled by g++ or clang++. The words are the names of projects, by
# default all: in C musl with debug information, OpenSSL, FFmpeg and Linux in small configurations, and GNU sed, of which
# headers of the system include headers; in C++ range-v3, by CMake and Ninja, yaml-cpp, by CMake and make, Aspell, by a
# configure script and make, and libsigc++, by Meson. KEEP names a directory for logs. Run by hand; needs the compiler,
# make, perl, flex, bison, bc, the headers of libelf, CMake, Ninja, Meson and Debian's package archive. Its last line is
# 'all passed'.
set -eu
top=$(cd "$(dirname "$0")/.." && pwd)
. "$top/tests/real/common.sh"
[ $# -gt 0 ] || set -- musl openssl ffmpeg linux sed range-v3 yaml-cpp aspell libsigc++-3.0
[ -n "${CCK_SOURCES-}" ] || download "$@"
jobs=${JOBS:-4}
cc=${COMPILER:-gcc}
case $cc in
gcc) cxx=g++ ;;
clang) cxx=clang++ ;;
*) echo "COMPILER is neither gcc nor clang: $cc" && exit 1 ;;
esac
# What builds leave in objects of the time and of the machine.
export KBUILD_BUILD_TIMESTAMP='Mon Jan 1 00:00:00 UTC 2024' KBUILD_BUILD_USER=nobody KBUILD_BUILD_HOST=nowhere
export SOURCE_DATE_EPOCH=1704067200
export CCACHE_DIR="$room/ccache" CALLS="$room/calls" CACHE=
unset CCACHE_DISABLE CCACHE_CONFIGPATH

# Makes a compiler of the name $1, since OpenSSL writes the name of its compiler into an object. It runs the one of the
# path by way of CACHE, and keeps the status and the messages of a call under a digest of its words.
make_compiler() {
    cat >"$room/bin/$1" <<END
#!/bin/sh
call=\$(printf '%s\n' "\$PWD" "\$0" "\$@" | md5sum)
call=\$CALLS/\${call%% *}
\$CACHE $(command -v "$1") "\$@" 2>"\$call.\$\$"
status=\$?
cat "\$call.\$\$" >&2
{ echo \$status; cat "\$call.\$\$"; } >"\$call"
rm "\$call.\$\$"
exit \$status
END
    chmod +x "$room/bin/$1"
}

# Configures the project $1, whose sources are the working directory, to be built in `tree`.
configure() {
    tree=$room/$1
    case $1 in
    musl) ./configure --enable-debug CC="$cc" ;;
    openssl) ./Configure linux-x86_64 CC="$cc" ;;
    ffmpeg)
        ./configure --cc="$cc" --disable-x86asm --disable-doc --disable-autodetect --disable-everything \
            --enable-decoder=h264,aac --enable-demuxer=mov --enable-muxer=null --enable-protocol=file
        ;;
    linux)
        tree=$room/tree
        make O="$tree" CC="$cc" tinyconfig
        sed -i 's/^# CONFIG_64BIT is not set/CONFIG_64BIT=y/' "$tree/.config"
        cp "$tree/.config" "$room/config"
        ;;
    sed) ./configure --disable-nls CC="$cc" ;;
    range-v3)
        tree=$room/tree
        CC=$cc CXX=$cxx cmake -G Ninja -B "$tree" -DRANGES_ENABLE_WERROR=OFF -DRANGE_V3_DOCS=OFF -DRANGE_V3_PERF=OFF
        ;;
    yaml-cpp)
        tree=$room/tree
        CC=$cc CXX=$cxx cmake -G 'Unix Makefiles' -B "$tree" -DYAML_CPP_BUILD_TESTS=OFF
        ;;
    aspell) ./configure --disable-static --disable-nls --disable-curses CC="$cc" CXX="$cxx" ;;
    libsigc++-3.0)
        tree=$room/tree
        CC=$cc CXX=$cxx meson setup -Dbuild-documentation=false "$tree"
        ;;
    esac >"$room/configured" 2>&1 || fault "$1: configure: $(tail -n 1 "$room/configured")"
}

# Runs ninja in `tree`, from nothing. The dependency files stay.
run_ninja() {
    ninja -C "$tree" -t clean && ninja -C "$tree" -d keepdepfile -j "$jobs" "$@"
}

# Builds the project $1 anew, by way of the cache $2.
build() {
    rm -rf "$CALLS"
    mkdir "$CALLS"
    : >"$CCK_LOG"
    CACHE=$2
    case $1 in
    musl | ffmpeg | sed | aspell) make -s clean && make -s -j "$jobs" ;;
    openssl)
        # (each of the two goals runs make once more, so one comes after the other)
        make -s clean && make -s -j "$jobs" build_libs && make -s -j "$jobs" build_programs
        ;;
    linux)
        rm -rf "$tree"
        mkdir "$tree"
        cp "$room/config" "$tree/.config"
        make -s O="$tree" CC="$cc" olddefconfig && make -s -j "$jobs" O="$tree" CC="$cc" vmlinux
        ;;
    range-v3) run_ninja example/all test/action/all test/utility/all ;;
    yaml-cpp) make -s -C "$tree" clean && make -s -j "$jobs" -C "$tree" ;;
    libsigc++-3.0) run_ninja ;;
    esac >"$room/built" 2>&1 || fault "$1: $(tail -n 1 "$room/built")"
    CACHE=
}

# A header of the project $1 that most of its files include.
header() {
    case $1 in
    musl) echo include/features.h ;;
    openssl) echo include/openssl/e_os2.h ;;
    ffmpeg) echo libavutil/attributes.h ;;
    linux) echo include/linux/types.h ;;
    sed) echo config.h ;;
    range-v3) echo include/range/v3/range_fwd.hpp ;;
    yaml-cpp) echo include/yaml-cpp/dll.h ;;
    aspell) echo common/string.hpp ;;
    libsigc++-3.0) echo sigc++/trackable.h ;;
    esac
}

# Appends to the header $1 something that each object has.
edit() {
    cat >>"$1" <<'END'
#if !defined edited && !defined __ASSEMBLER__
#define edited edited
static const char edited[] __attribute__((used)) = "edited";
#endif
END
}

# Touches all sources in the working directory.
touch_all() {
    find . -type f \( -name '*.[chS]' -o -name '*.cc' -o -name '*.cpp' -o -name '*.hpp' \) -exec touch {} +
}

# A line for each file that a build makes: its digest and its path.
made() {
    (
        cd "$tree"
        find . -type f \( -name '*.o' -o -name '*.lo' -o -name '*.a' -o -name '*.so' -o -name '*.so.[0-9]*' \
            -o -name '*.d' -o -name '*.Plo' -o -name '*.Po' -o -name '*.o.cmd' -o -perm -u+x \) \
            ! -path './.tmp_*' ! -path '*/meson-private/*' ! -path '*/CMakeFiles/[0-9]*' -exec sha256sum {} +
    ) | sort -k 2
}

# A line for each call of the compiler: its name, and a digest of its status and messages.
said() {
    (cd "$CALLS" && sha256sum ./*) | awk '{ print $2, $1 }' | sort
}

# Keeps what the build by the plain compiler made of the project $1.
keep_plain() {
    made >"$room/$1.plain"
    said >"$room/$1.plain_said"
}

# How often each word begins a line of the log.
counts() {
    sed -n 's/^cckcc: \(passed on ([^)]*)\|refused-[a-z-]*\|not recorded\|recorded\|hit\|error\).*/\1/p' "$CCK_LOG" |
        sort | uniq -c | sed 's/^ *//' | paste -s -d , | sed 's/,/, /g'
}

# Compares what the wrapper's build, which is called $2, made of the project $1. Its calls have to hit `expected` times,
# unless that is empty.
compare() {
    made >"$room/$1.$2"
    said >"$room/$1.$2_said"
    [ -z "${KEEP-}" ] || cp "$CCK_LOG" "$KEEP/$1.$cc.$2.log"
    others=$(diff "$room/$1.plain" "$room/$1.$2" | grep '^[<>]') || :
    [ -z "$others" ] || fault "$1: $2: others: $(echo "$others" | head -n 1)"
    # (some calls have the number of a process in a path)
    join "$room/$1.plain_said" "$room/$1.$2_said" >"$room/said"
    others=$(awk '$2 != $3' "$room/said")
    [ -z "$others" ] || fault "$1: $2: other messages of a call: $(echo "$others" | head -n 1)"
    [ "${expected:-$(logged hit)}" = "$(logged hit)" ] || fault "$1: $2: $(logged hit) hits, and not $expected"
    expected=$(($(logged hit) + $(logged recorded)))
    echo "$1: $cc: $2: $(wc -l <"$room/$1.$2") files and $(wc -l <"$room/said") calls compared: $(counts)"
}

# Builds the project $1 twice by ccache, and prints its counts of the second build.
count_ccache() {
    build "$1" ccache
    ccache --zero-stats >/dev/null
    build "$1" ccache
    echo "$1: $cc: ccache: $(ccache --print-stats | awk '$2 > 0 && $1 !~ /time|_kib|files_in/ { print $2, $1 }' |
        paste -s -d , | sed 's/,/, /g')"
}

mkdir "$room/bin"
make_compiler "$cc"
make_compiler "$cxx"
PATH=$room/bin:$PATH
mkdir "$CALLS"
for project; do
    unpack "$project" "$project"
    cd "$room/$project"
    configure "$project"
    build "$project" ''
    keep_plain "$project"
    expected=
    build "$project" cckcc
    compare "$project" empty
    build "$project" cckcc
    compare "$project" hits
    ! command -v ccache >/dev/null || count_ccache "$project"
    edit "$(header "$project")"
    build "$project" ''
    keep_plain "$project"
    expected=
    build "$project" cckcc
    compare "$project" edited
    touch_all
    build "$project" cckcc
    compare "$project" touched
    cd "$room"
    rm -rf "$room/$project" "$tree" "$CCK_STORE" "$CCACHE_DIR"
done
finish
