#!/bin/sh
# Each known way in which a compiler cache may give a wrong object or a wrong dependency file, as a case: what
# the wrapper did, and whether its object and its dependency file are the plain compiler's. Where ccache is
# installed, the same with it. Run by hand; needs gcc. Its last line is 'all passed'.
set -u
top=$(cd "$(dirname "$0")/.." && pwd)
. "$top/tests/real/common.sh"
mkdir "$room/work"
cd "$room/work" || exit 1
CCACHE_DIR=$room/ccache
export CCACHE_DIR
with_ccache=
if command -v ccache >/dev/null; then with_ccache=1; fi

# Waits until a file that is written now is older than a look-up after this.
settle() { sleep 0.05; }

# compile NAME COMPILER.. ARG..: compiles to the object NAME.o, and moves the dependency file x.d, if there is
# one, to NAME.d. Both are in the room.
compile() {
    made=$room/$1
    shift
    rm -f "$made.o" "$made.d" "$room/x.d"
    "$@" -o "$made.o"
    [ ! -e "$room/x.d" ] || mv "$room/x.d" "$made.d"
}

# Whether the files $1.o and $1.d in the room are those of the plain compiler, or are missing as there:
# `same` or `differs`.
compared() {
    for suffix in o d; do
        [ -e "$room/plain.$suffix" ] || [ -e "$room/$1.$suffix" ] || continue
        cmp -s "$room/$1.$suffix" "$room/plain.$suffix" || { echo differs; return; }
    done
    echo same
}

# check LABEL WANTED VERDICT ARG..: compiles by gcc, by the wrapper and by ccache. The wrapper must
# do WANTED, a pattern of the log's last line. VERDICT is `same`.
check() {
    label=$1 wanted=$2 verdict=$3
    shift 3
    : >"$CCK_LOG"
    compile plain gcc "$@"
    compile cached cckcc gcc "$@"
    did=$(sed -n '$s/^cckcc: //p' "$CCK_LOG" | cut -c 1-40)
    object=$(compared cached)
    other=
    if [ -n "$with_ccache" ]; then
        compile ccached ccache gcc "$@" 2>/dev/null
        other="; ccache: $(compared ccached)"
    fi
    case $did in
    hit*) short=hit ;;
    'recorded '*) short=recorded ;;
    *) short=$did ;;
    esac
    echo "$label: $short, $object$other"
    case $did in
    $wanted) ;;
    *) fault "$label: did '$did' and not '$wanted'" ;;
    esac
    [ "$object" = "$verdict" ] || fault "$label: the object or the dependency file: $object"
}

# check_files LABEL ARG..: the files that gcc makes with these arguments in an empty directory, and those of
# the wrapper, when it misses and when it hits.
check_files() {
    label=$1
    shift
    for step in plain recorded hit; do
        rm -rf "$room/made" "${room:?}/$step"
        mkdir -p "$room/made/a.b" "$room/made/.deps"
        : >"$CCK_LOG"
        case $step in
        plain) (cd "$room/made" && gcc "$@") ;;
        *)
            (cd "$room/made" && cckcc gcc "$@")
            grep -q "^cckcc: $step " "$CCK_LOG" || fault "$label: not $step"
            ;;
        esac
        mv "$room/made" "$room/$step"
        diff -r "$room/plain" "$room/$step" >/dev/null || fault "$label: other files where it is $step"
    done
    echo "$label: $(cd "$room/hit" && find . -type f | sort | tr '\n' ' ')"
}

# check_call LABEL WANTED ARG..: the status, the output, the messages and the files of gcc with these arguments in
# a copy of the directory `call`, and those of the wrapper, twice. The second time it must do WANTED, a pattern of
# the log's last line.
check_call() {
    label=$1 wanted=$2
    shift 2
    for step in plain once again; do
        rm -rf "$room/made" "${room:?}/$step"
        cp -a "$room/call" "$room/made"
        settle
        : >"$CCK_LOG"
        wrapper=cckcc
        [ $step != plain ] || wrapper=
        (
            cd "$room/made" && $wrapper gcc "$@" >"$room/$step.out" 2>"$room/$step.err"
            echo $? >>"$room/$step.out"
        )
        mv "$room/made" "$room/$step"
        for kind in out err; do
            cmp -s "$room/plain.$kind" "$room/$step.$kind" || fault "$label: another status, output or message"
        done
        diff -r --no-dereference "$room/plain" "$room/$step" >/dev/null || fault "$label: other files"
    done
    did=$(sed -n 's/^cckcc: //p' "$CCK_LOG" | tail -1 | cut -c 1-40)
    case $did in
    $wanted) echo "$label: $(tail -1 "$room/plain.out"), $did" ;;
    *) fault "$label: did '$did' and not '$wanted'" ;;
    esac
}

# The search path.
mkdir a b
echo 'int v = 1;' >b/h.h
echo '#include "h.h"' >x.c
settle
check 'a header of a search path' 'recorded *' same -c x.c -Ia -Ib
check 'the same again' 'hit *' same -c x.c -Ia -Ib
echo 'int v = 2;' >a/h.h
settle
check 'a new header earlier in the search path' 'recorded *' same -c x.c -Ia -Ib
rm a/h.h
check 'it is removed' 'hit *' same -c x.c -Ia -Ib
echo 'int v = 3;' >h.h
settle
check 'a new header beside the input' 'recorded *' same -c x.c -Ia -Ib
rm h.h
check 'it is removed' 'hit *' same -c x.c -Ia -Ib
mkdir n
echo 'int w = 1;' >b/w.h
echo '#include <w.h>' >w.c
settle
check 'a search path with a missing directory' 'recorded *' same -c w.c -Imissing -Ib
check 'the same again' 'hit *' same -c w.c -Imissing -Ib
mkdir missing
echo 'int w = 2;' >missing/w.h
settle
check 'the directory appears' 'recorded *' same -c w.c -Imissing -Ib

# A header that was included before, and one more place to look for it.
mkdir s
echo '#include "g.h"' >s/one.h
printf '#ifndef G\n#define G\nint g = 1;\n#endif\n' >b/g.h
printf '#include <g.h>\n#include "s/one.h"\n' >g.c
settle
check 'a header that is included twice' 'recorded *' same -c g.c -Ib
check 'the same again' 'hit *' same -c g.c -Ib
echo 'int more = 1;' >s/g.h
settle
check 'a new header where the second include looks first' 'recorded *' same -c g.c -Ib

# Dependency files.
depends="-MD -MP -MT x.o -MF $room/x.d"
mkdir -p d1 d2
echo 'int d = 1;' >d2/d.h
# Of another second than its copy, which gcc might take it for.
touch -d 2001-01-01 d2/d.h
echo '#include "d.h"' >depends.c
settle
check 'a dependency file' 'recorded *' same -c depends.c -Id1 -Id2 $depends
check 'the same again' 'hit *' same -c depends.c -Id1 -Id2 $depends
cp d2/d.h d1/d.h
settle
check 'the same header earlier in the search path' 'recorded *' same -c depends.c -Id1 -Id2 $depends
check 'the same again' 'hit *' same -c depends.c -Id1 -Id2 $depends
rm d1/d.h
check 'it is removed, and the other takes its place' 'hit *' same -c depends.c -Id1 -Id2 $depends
check 'the same again' 'hit *' same -c depends.c -Id1 -Id2 $depends
echo '#include "more.h"' >>d2/d.h
: >d2/more.h
settle
check 'the header includes an empty one' 'recorded *' same -c depends.c -Id1 -Id2 $depends
check 'the same again' 'hit *' same -c depends.c -Id1 -Id2 $depends
mv d2/more.h d1/more.h
check 'the empty one is in another directory' 'recorded *' same -c depends.c -Id1 -Id2 $depends
check 'the same again' 'hit *' same -c depends.c -Id1 -Id2 $depends
check 'without system headers' 'recorded *' same -c depends.c -Id1 -Id2 -MMD -MQ 'a$b' -MT x.o "-MF$room/x.d"
check 'the same again' 'hit *' same -c depends.c -Id1 -Id2 -MMD -MQ 'a$b' -MT x.o "-MF$room/x.d"
check 'an imacros file' 'recorded *' same -c depends.c -Id1 -Id2 -imacros b/h.h $depends
check 'no dependency file' 'recorded *' same -c depends.c -Id1 -Id2
check 'a dependency file again' 'hit *' same -c depends.c -Id1 -Id2 $depends
for file in "$CCK_STORE"/objects/*/*; do printf x | dd of="$file" bs=1 seek=300 conv=notrunc 2>/dev/null; done
check 'a damaged object with its dependencies' 'recorded *' same -c depends.c -Id1 -Id2 $depends
check 'the same again' 'hit *' same -c depends.c -Id1 -Id2 $depends
check 'a dependency file that is a device' 'passed on (output)*' same -c depends.c -Id1 -Id2 -MD -MF /dev/null
ln -s "$room/linked.d" linked.d
check 'a dependency file that is a link' 'passed on (output)*' same -c depends.c -Id1 -Id2 -MD -MF linked.d
check '-MM' 'passed on (dependencies)*' same -c depends.c -Id1 -Id2 -MM
check '-MG' 'passed on (dependencies)*' same -c depends.c -Id1 -Id2 -MG -MM
check 'a long option for dependencies' 'passed on (dependencies)*' same -c depends.c -Id1 -Id2 \
    --write-dependencies -MT x.o -MF "$room/x.d"
echo 'int marked;' >marked.h
printf '#include "marked.h"\nint w;\n' >marked.c
cp marked.c marked.first
settle
check 'a header' 'recorded *' same -c marked.c $depends
printf '# 1 "marked.h" 1\nint marked;\n# 2 "marked.c" 2\nint w;\n' >marked.c
settle
check 'its text and its line markers in the input' 'recorded *' same -c marked.c $depends
mv marked.first marked.c
settle
check 'the first input again' 'hit *' same -c marked.c $depends
rm -f "$room/plain.d" "$room/cached.d" "$room/ccached.d"
work=$room/work
check_files 'a point in the directory' -MD -I"$work/d2" -I"$work/d1" -c "$work/depends.c" -o a.b/foo
check_files 'two points' -MD -I"$work/d2" -I"$work/d1" -c "$work/depends.c" -o foo.bar.o
check_files 'a point at the start' -MD -I"$work/d2" -I"$work/d1" -c "$work/depends.c" -oa.b/.foo
check_files 'no point' -MD -I"$work/d2" -I"$work/d1" -c "$work/depends.c" -o foo
check_files 'no output' -MMD -I"$work/d2" -I"$work/d1" -c "$work/depends.c"
cp depends.c depends.two.c
settle
check_files 'no output, two points' -MD -I"$work/d2" -I"$work/d1" -c "$work/depends.two.c"
check_files 'special characters' -MD -MP -I"$work/d2" -I"$work/d1" -c "$work/depends.c" -o 'a b$#:.o'
check_files 'both options' -MD -MMD -MFone -I"$work/d2" -I"$work/d1" -c "$work/depends.c" -o foo.o
check_files 'as automake' -MT foo.o -MD -MP -MF .deps/foo.Tpo -I"$work/d2" -I"$work/d1" -c -o foo.o "$work/depends.c"
check_files 'as CMake' -I"$work/d2" -I"$work/d1" -MD -MT a.b/foo.c.o -MF a.b/foo.c.o.d -o a.b/foo.c.o -c "$work/depends.c"
check_files 'by the preprocessor' -Wp,-MMD,.deps/.foo.d -MP -I"$work/d2" -I"$work/d1" -c -o a.b/foo.o "$work/depends.c"
check_files 'by the preprocessor, a target' -Wp,-MD,foo.d -MT x/foo -I"$work/d2" -I"$work/d1" -c -o a.b/foo.o "$work/depends.c"
check_files 'a directory with the name of an option' -MD -I"$work/d2" -I -MF -I"$work/d1" -c "$work/depends.c" -o foo.o

# A header that is not read, since one with its size, its time and its contents was read.
printf '#pragma once\nstatic int n = 1;\n' >d1/once.h
cp -p d1/once.h d2/once.h
printf '#include "d1/once.h"\n#include "d2/once.h"\nint f(void) { return n; }\n' >once.c
settle
check 'two equal headers of one time with #pragma once' 'refused-other-file *' same -c once.c
printf '#pragma once\nint g(void) { return 2; }\n' >d2/once.h
settle
check 'the second one changed' 'recorded *' same -c once.c

# Tests for the existence of a header.
printf '#if __has_include("opt.h")\nint v = 2;\n#else\nint v = 1;\n#endif\n' >y.c
settle
check '__has_include' 'recorded *' same -c y.c
: >opt.h
settle
check 'the header appears' 'recorded *' same -c y.c
printf '#if __has_include("opt2.h")\nint z = 2;\n#else\nint z = 1;\n#endif\n' >b/z.h
echo '#include "z.h"' >z.c
settle
check '__has_include in a header' 'recorded *' same -c z.c -Ib

# The assembler.
echo 'asm(".incbin \"data\"");' >i.c
echo one >data
settle
check '.incbin' 'refused-*' same -c i.c
echo two >data
check 'its data changed' 'refused-*' same -c i.c
echo 'asm(".include \"i.inc\"");' >j.c
echo '.long 1' >i.inc
settle
check '.include' 'refused-assembler-include *' same -c j.c
echo '.long 2' >i.inc
check 'its file changed' 'refused-assembler-include *' same -c j.c
echo 'asm(".inc" "bin \"data\"");' >k.c
settle
check '.incbin in two strings' 'refused-assembler-include *' same -c k.c
printf 'asm(".inc"\n\n\n\n\n\n\n\n\n\n\n\n"bin \\"data\\"");\n' >k2.c
settle
check '.incbin in two strings, a line marker between them' 'refused-assembler-include *' same -c k2.c
echo 'asm(".INCBIN \"data\"");' >k3.c
settle
check '.INCBIN' 'refused-assembler-include *' same -c k3.c
echo 'asm(".\x69ncbin \"data\"");' >k4.c
settle
check '.incbin with an escape by number' 'refused-assembler-include *' same -c k4.c
echo three >data
settle
check 'its data changed' 'refused-assembler-include *' same -c k4.c
printf 'void k5(void) { asm(".inc{bin|bin} \\"data\\"" :: "i"(1)); }\n' >k5.c
settle
check '.incbin by the alternatives of dialects' 'refused-assembler-include *' same -c k5.c
printf 'asm(".ascii \\".include\\"");\n' >k6.c
settle
check '.include in a text of the assembler' 'recorded *' same -c k6.c
check 'the same once more' 'hit *' same -c k6.c

# Options, variables, links, times.
echo 'int p = 1;' >p.h
echo 'int q;' >q.c
settle
check '-include' 'recorded *' same -c q.c -include p.h
echo 'int p = 2;' >p.h
settle
check 'its file changed' 'recorded *' same -c q.c -include p.h
echo 'int g = 1;' >pch.h
gcc pch.h -o pch.h.gch
echo 'int g = 2;' >pch.h
echo '#include "pch.h"' >u.c
settle
check 'an old precompiled header beside its header' 'refused-earlier-path *' same -c u.c
rm pch.h.gch
settle
check 'the precompiled header is removed' 'recorded *' same -c u.c
gcc -x c-header p.h -o pch.h.gch
check 'a precompiled header appears' 'refused-earlier-path *' same -c u.c
rm pch.h.gch
echo '#include <w.h>' >cpath.c
settle
CPATH=b
export CPATH
check 'CPATH' 'recorded *' same -c cpath.c
CPATH=missing
check 'CPATH is another one' 'recorded *' same -c cpath.c
CPATH=b
check 'CPATH is the first one again' 'hit *' same -c cpath.c
unset CPATH
mkdir -p other/dir
ln -s other/dir l
echo 'int m = 1;' >other/m.h
echo 'int m = 1;' >m.h
echo '#include "l/../m.h"' >m.c
settle
check 'a path through a link and ..' 'refused-named-file *' same -c m.c
echo 'int m = 2;' >other/m.h
check 'the file behind it changed' 'refused-named-file *' same -c m.c
echo 'int o = 1;' >other/n.h
echo 'int n = 1;' >n.h
echo '#include "n.h"' >n.c
echo '#include "l/../n.h"' >>n.c
settle
check 'the same path after the file that it seems to be' 'refused-named-file *' same -c n.c
echo 'char *d = __DATE__;' >d.c
settle
check '__DATE__' 'refused-time-macro *' same -c d.c
echo 'char *t = __TIME__;' >t.c
settle
check '__TIME__' 'passed on*' same -c t.c
echo '#line 1 "gram.y"' >gen.c
echo 'int e;' >>gen.c
settle
check '#line of no file' 'refused-named-file *' same -c gen.c
check '-march=native' 'recorded*' same -c x.c -Ib -march=native
check '-mcpu=native' 'passed on (native)*' same -c x.c -Ib -mcpu=native
check '-Wp,' 'passed on (preprocessor-option)*' same -c x.c -Ib -Wp,-DX
check '-Wp,-MD, and -MF' 'passed on (dependencies)*' same -c x.c -Ib -Wp,-MD,x.d -MF y.d
check '-Wp,-MD, with another option' 'passed on (preprocessor-option)*' same -c x.c -Ib -Wp,-MD,x.d,-DX
check '-Wa,' 'passed on (assembler-option)*' same -c x.c -Ib -Wa,-L
check '-Wa, of the table' 'recorded*' same -c x.c -Ib -Wa,--noexecstack
echo '-Ib' >options
check '@file' 'passed on (response-file)*' same -c x.c @options
check '-x of C' 'recorded*' same -x c -c x.c -Ib
check '-x of another language' 'passed on (mode)*' same -x c++ -c x.c -Ib
: >empty.c
check '-x and its value in one word' 'passed on (mode)*' same -xassembler-with-cpp -c empty.c

# Arguments: what the table of options does not know is passed on.
mkdir -p "$room/call/a" "$room/call/directory.o"
echo 'int f(void) { int unused; return VALUE; }' >"$room/call/x.c"
echo 'int VALUE;' >"$room/call/y.c"
echo '#define VALUE 1' >"$room/call/a/value.h"
echo '-DVALUE=2' >"$room/call/@defs"
echo '-DVALUE=2' >"$room/call/defs"
printf 'value.h other.h\n' >"$room/call/a/header.gcc"
ln -s nowhere.o "$room/call/link.o"
ln -s x.c "$room/call/link.c"
cp "$room/call/a/value.h" "$room/call/value.h"
# Another time: gcc may pass over a copy of the same one.
touch -d '1 day ago' "$room/call/a/value.h"
lines='-DVALUE=1
'
check_call 'known options' 'hit *' -O2 -g -Wall -Wextra -fPIC -std=gnu11 -pipe -DVALUE=1 -c x.c -o x.o
check_call 'values in the next argument' 'hit *' -D VALUE -I a -include value.h -U OTHER -o x.o -c x.c
check_call 'values in the same argument' 'hit *' -DVALUE=3 -Ia -includevalue.h -UOTHER -ox.o -c x.c
check_call 'the value of an option is an option' 'hit *' -MD -MT -o -DVALUE=1 -c x.c
check_call '-MF with the name of an option' 'hit *' -MD -MF -c -DVALUE=1 -c x.c
check_call 'a parameter' 'hit *' --param=max-inline-insns-auto=10 --param max-unroll-times=2 -DVALUE=1 -c x.c
check_call 'quotes and spaces' 'hit *' '-DOTHER="a '"'"'b"' '-DVALUE=1 /* $x `y` \\ */' -c x.c
check_call 'colours' 'hit *' -Wall -fdiagnostics-color=always -DVALUE=1 -c x.c
check_call 'an unknown option -f' 'passed on (unknown-option)*' -fno-such-option -DVALUE=1 -c x.c
check_call 'an unknown option -m' 'passed on (unknown-option)*' -mno-such-option -DVALUE=1 -c x.c
check_call 'an unknown long option' 'passed on (unknown-option)*' --no-such-option -DVALUE=1 -c x.c
check_call 'an unknown option -W' 'passed on (unknown-option)*' -Wsuch-option -DVALUE=1 -c x.c
check_call 'a long name of an option' 'passed on (unknown-option)*' --include value.h -c x.c
check_call 'a long name of an option, with a value' 'passed on (unknown-option)*' --include=value.h -c x.c
check_call '--' 'passed on (unknown-option)*' -DVALUE=1 -c -- x.c
check_call 'standard input' 'passed on (mode)*' -c -
check_call '-remap' 'passed on (preprocessor-option)*' -remap -Ia -include value.h -c x.c
check_call '-I-' 'passed on (preprocessor-option)*' -Ia -I- -DVALUE=1 -c x.c
check_call '--sysroot' 'hit *' --sysroot=a -DVALUE=1 -c x.c
check_call '--sysroot and its value' 'passed on (preprocessor-option)*' --sysroot a -DVALUE=1 -c x.c
check_call '-print-file-name' 'passed on (mode)*' -print-file-name=cc1 -DVALUE=1 -c x.c
check_call '-print-search-dirs' 'passed on (mode)*' -DVALUE=1 -c x.c -print-search-dirs
check_call '--version' 'passed on (mode)*' --version -c x.c
check_call 'a response file' 'passed on (response-file)*' @defs -c x.c
check_call 'a response file as a value' 'passed on (response-file)*' -D @defs -c x.c
check_call 'a missing response file as a value' 'passed on (response-file)*' -DVALUE=1 -I @missing -c x.c
check_call 'a line feed in an argument' 'passed on (control-character)*' "$lines" -c x.c
check_call 'an empty argument' 'passed on (empty-argument)*' -DVALUE=1 '' -c x.c
check_call 'an empty output' 'passed on (empty-argument)*' -DVALUE=1 -c x.c -o ''
check_call 'a value that is missing' 'passed on (missing-value)*' -DVALUE=1 -c x.c -o
check_call 'two inputs' 'passed on (inputs)*' -DVALUE=1 -c x.c y.c
check_call 'another input' 'passed on (inputs)*' -DVALUE=1 -c x.c defs
check_call 'two outputs' 'passed on (outputs)*' -DVALUE=1 -c x.c -o x.o -o y.o
check_call 'two dependency files' 'passed on (dependencies)*' -DVALUE=1 -c x.c -MD -MF x.d -MF y.d
check_call 'a dependency file of none' 'passed on (dependencies)*' -DVALUE=1 -c x.c -MF x.d
check_call 'dependencies on standard output' 'passed on (output)*' -DVALUE=1 -c x.c -MD -MF -
check_call 'the output is the input' 'passed on (output)*' -DVALUE=1 -c x.c -o x.c
cmp -s "$room/call/x.c" "$room/again/x.c" || fault 'the source is gone'
check_call 'the output is the input of a link' 'passed on (output)*' -DVALUE=1 -c link.c -o ./x.c
check_call 'the dependency file is the input' 'passed on (output)*' -DVALUE=1 -c x.c -MD -MF ./x.c
check_call 'the output is a directory' 'passed on (output)*' -DVALUE=1 -c x.c -o directory.o
check_call 'the output is a link' 'passed on (output)*' -DVALUE=1 -c x.c -o link.o
check_call 'the output is a device' 'passed on (output)*' -DVALUE=1 -c x.c -o /dev/null
check_call 'no input' 'passed on (no-input)*' -DVALUE=1 -c
check_call 'no -c' 'passed on (no-c)*' -DVALUE=1 x.c
check_call 'an input that is missing' 'passed on (*' -DVALUE=1 -c missing.c

# A compiler that appears earlier in PATH.
mkdir earlier
PATH=$PWD/earlier:$PATH
settle
check 'the compiler of PATH' 'recorded *' same -c x.c -Ib -O1
check 'the same again' 'hit *' same -c x.c -Ib -O1
printf '#!/bin/sh\nexec %s -Dv=w "$@"\n' "$(command -v gcc)" >earlier/gcc
chmod +x earlier/gcc
hash -r
check 'another compiler earlier in PATH' 'passed on (compiler)*' same -c x.c -Ib -O1
rm earlier/gcc
hash -r
check 'it is removed' 'hit *' same -c x.c -Ib -O1

# The directory and the way in which the input is written.
mkdir n1 n2
echo 'int v = 1;' >n1/r.h
echo 'int v = 2;' >n2/r.h
echo '#include <r.h>' >abs.c
echo 'int f(int a) { return a; }' >dbg.c
echo 'char *f = __FILE__;' >f.c
settle
cd n1
check 'an absolute input and -I. in one directory' 'recorded *' same -c "$room/work/abs.c" -I.
check 'debug information in one directory' 'recorded *' same -g -c "$room/work/dbg.c"
cd ../n2
check 'an absolute input and -I. in another one' 'recorded *' same -c "$room/work/abs.c" -I.
check 'debug information in another one' 'recorded *' same -g -c "$room/work/dbg.c"
cd ..
check '__FILE__' 'recorded *' same -c f.c
check '__FILE__ of an absolute input' 'recorded *' same -c "$room/work/f.c"

# Messages.
echo 'int f(void) { int unused; return 0; }' >warn.c
settle
cckcc gcc -Wall -c warn.c -o warn.o 2>"$room/first"
cckcc gcc -Wall -c warn.c -o warn.o 2>"$room/second"
case $(tail -1 "$CCK_LOG") in
'cckcc: hit '*) ;;
*) fault 'messages: no hit' ;;
esac
cmp -s "$room/first" "$room/second" || fault 'messages: others on a hit'
[ -s "$room/second" ] || fault 'messages: none on a hit'
echo "messages: $(wc -l <"$room/second") lines on a hit"

# A damaged store.
echo 'int r;' >r.c
settle
check 'a file that is recorded' 'recorded *' same -c r.c
for file in "$CCK_STORE"/entries/*/*; do printf x | dd of="$file" bs=1 seek=90 conv=notrunc 2>/dev/null; done
check 'damaged entries' 'recorded *' same -c r.c
for file in "$CCK_STORE"/entries/*/*; do : >"$file"; done
check 'empty entries' 'recorded *' same -c r.c
for file in "$CCK_STORE"/objects/*/*; do printf x | dd of="$file" bs=1 seek=300 conv=notrunc 2>/dev/null; done
check 'damaged objects' 'recorded *' same -c r.c
for file in "$CCK_STORE"/objects/*/*; do : >"$file"; done
check 'empty objects' 'recorded *' same -c r.c
echo 'another store' >"$CCK_STORE/VERSION"
check 'a store of another version' 'passed on (error*' same -c r.c
finish
