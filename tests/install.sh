#!/bin/sh
# Installs into an empty directory, and compares what is there with the list below: paths, kinds and modes. Then a
# compilation by the installed link `gcc` is recorded and found again, the options of the wrapper are tried, and
# --uninstall leaves nothing. Needs gcc and the program (CCK_PROGRAM, by default the one that was proved and built here),
# which stands for all three. LIBRARY names a libcck.a that was proved and built: with it the example in C is built by
# pkg-config and run; without it an empty archive stands for it. The last line is `install: N passed, M failed`.
top=$(cd "$(dirname "$0")/.." && pwd)
program=${CCK_PROGRAM:-$top/crates/cck_cache/out/cck_cache}
room=$(mktemp -d)
trap 'rm -rf "$room"' EXIT
passed=0 failed=0
check() {
    if [ "$2" = "$3" ]; then passed=$((passed + 1)); else
        failed=$((failed + 1))
        printf 'FAILED: %s\nwanted: %s\nfound:  %s\n' "$1" "$3" "$2"
    fi
}
mkdir "$room/built"
for name in cck_run cck_explain cck_cache; do cp "$program" "$room/built/$name"; done
if [ -n "${LIBRARY:-}" ]; then cp "$LIBRARY" "$room/built/libcck.a"; else ar rcs "$room/built/libcck.a"; fi
installed() { (cd "$1" && find . ! -type d -printf '%y %m %P\n' | sort -k 3); }
wanted() {
    for name in cck cck_cache cck_explain cckcc; do echo "f 755 bin/$name"; done
    echo 'f 644 include/cck.h'
    for name in client command config miss programs rare recheck server size text; do echo "f 644 lib/cckcc/$name.sh"; done
    for name in assembler.awk connect.pl judge.awk sources.awk; do echo "f 644 lib/cckcc/$name"; done
    echo 'f 644 lib/libcck.a'
    echo 'f 644 lib/pkgconfig/cck.pc'
    for name in c++ cc g++ gcc; do echo "l 777 libexec/cckcc/$name"; done
    echo 'f 644 share/bash-completion/completions/cckcc'
    for name in CHANGELOG.md LICENSE NOTICE README.md; do echo "f 644 share/doc/cck/$name"; done
    for page in "$top"/docs/*.md; do echo "f 644 share/doc/cck/docs/${page##*/}"; done
    for page in cck cck_cache cck_explain cckcc; do echo "f 644 share/man/man1/$page.1"; done
    echo 'f 644 share/zsh/site-functions/_cckcc'
}
"$top/install" --prefix "$room/a b" --built "$room/built" >/dev/null
check 'the files' "$(installed "$room/a b")" "$(wanted | sort -k 3)"
"$top/install" --prefix /opt/cck --destdir "$room/package" --built "$room/built" >/dev/null
check 'the files of a package' "$(installed "$room/package/opt/cck")" "$(wanted | sort -k 3)"
check 'the prefix of a package' "$(sed -n 1p "$room/package/opt/cck/lib/pkgconfig/cck.pc")" 'prefix=/opt/cck'
if command -v pkg-config >/dev/null; then
    export PKG_CONFIG_PATH="$room/package/opt/cck/lib/pkgconfig"
    check 'the flags of the library' "$(echo $(pkg-config --cflags --libs cck))" '-I/opt/cck/include -L/opt/cck/lib -lcck'
    check 'its version' "$(pkg-config --modversion cck)" "$("$program" --version | sed 's/.* //')"
    PKG_CONFIG_PATH="$room/a b/lib/pkgconfig"
    printf '#include <cck.h>\nint main(void) { return CCK_DONE; }\n' >"$room/main.c"
    eval "gcc $(pkg-config --cflags cck) $room/main.c -o $room/main $(pkg-config --libs cck)"
    "$room/main"
    check 'a program with the library' $? 0
    if [ -n "${LIBRARY:-}" ]; then
        eval "gcc $(pkg-config --cflags cck) $top/examples/c/example.c -o $room/main $(pkg-config --libs cck)"
        check 'the example' "$("$room/main")" "$(cat "$top/examples/c/stdout")"
    fi
fi

mkdir "$room/project"
cd "$room/project" || exit 2
echo 'int v;' >x.c
echo 'class C;' >y.cc
sleep 0.1
unset CCK_PROGRAM CCK_BASEDIR CCK_DISABLE CCK_RECHECK
compiler=$(command -v gcc) plain=$PATH
PATH="$room/a b/libexec/cckcc:$room/a b/bin:$PATH" CCK_STORE=$room/store CCK_LOG=$room/log
XDG_CONFIG_HOME=$room/configuration
export PATH CCK_STORE CCK_LOG XDG_CONFIG_HOME
gcc -c x.c
gcc -c x.c
check 'a hit by the link' "$(sed -n 's/^cckcc: \([a-z]*\).*/\1/p' "$room/log" | tr '\n' ' ')" 'look why recorded hit '
(export CCK_STORE="$room/plusplus" CCK_LOG="$room/plusplus.log"; g++ -c y.cc; c++ -c y.cc)
check 'calls by the links for C++' "$(sed -n 's/^cckcc: recorded .* //p' "$room/plusplus.log" | tr '\n' ' ')" 'y.cc y.cc '
for first in "$room/a b/libexec/cckcc" "$room/package/opt/cck/libexec/cckcc"; do
    (export PATH="$first:$plain" CCK_STORE="$room/beside" CCK_LOG="$room/beside.log"; gcc -c x.c)
done
check 'the program beside the wrapper' "$(sed -n 's/^cckcc: \([a-z]*\).*/\1/p' "$room/beside.log" | tr '\n' ' ')" 'look why recorded hit '
check 'the compiler by the link' "$(gcc -dumpversion)" "$("$compiler" -dumpversion)"
check 'the statistics' "$(cckcc --show-stats | sed 's/  */ /g; /^since/d; /^size/s/.* of/size of/')" "store $CCK_STORE
hits 1 of 2 (50.0 %)
 hit 1
misses 1
 recorded 1
passed on 1
 mode 1
size of 5.0 GB
 entries 1
 objects 1"
check 'the statistics as JSON' "$(cckcc --show-stats --json | python3 -c 'import json, sys
found = json.load(sys.stdin)
print(found["objects"]["files"], found["limit"], found["counts"]["hit"])')" '1 5000000000 1'
check 'no limit as JSON' "$(CCK_MAXSIZE=0 cckcc -s --json | grep -o '"limit": null')" '"limit": null'
cckcc --zero-stats
check 'no statistics' "$(cckcc -s | sed -n 's/  */ /g; /^[hmp]/p')" 'hits 0 of 0
misses 0
passed on 0'
check 'since when' "$(cckcc -s | grep -c "^since  *$(date -r "$CCK_STORE/zeroed" '+%Y-%m-%d %H:%M')$")" 1
check 'a store within its limit' "$(cckcc --cleanup | sed 's/,.*//')" 'removed 0 files'
check 'a store without a limit' "$(CCK_MAXSIZE=0 cckcc -c | sed 's/,.*//')" 'removed 0 files'
cckcc --max-size 100 >/dev/null 2>&1
check 'a store beyond its limit' "$(cckcc --cleanup)" 'removed 2 files, 0 bytes left'
rm -r "$room/configuration"
gcc -c x.c
check 'an empty store' "$(cckcc --clear)" 'removed 2 files, 0 bytes left'
check 'the version' "$(cckcc --version)" "$("$program" --version)"
mkdir -p "$room/configuration/cck"
echo "CCK_STORE = $room/other store" >"$room/configuration/cck/config"
gcc -c x.c
(unset CCK_STORE; gcc -c x.c; gcc -c x.c)
check 'a hit with a configuration file' "$(CCK_STORE=$room/other\ store cckcc -s | grep '^hits' | sed 's/  */ /')" 'hits 1 of 2 (50.0 %)'
rm -r "$room/configuration"
cckcc --unknown 2>/dev/null
check 'an unknown option' $? 2
cckcc -C -z 2>/dev/null
check 'an option after one that stands alone' $? 2
cckcc -c x.c 2>/dev/null
check 'arguments without a compiler' $? 2
cckcc no-such-compiler -c x.c 2>/dev/null
check 'no such compiler' $? 127
for option in --version --show-stats --cleanup --clear; do
    CCK_PROGRAM=/nowhere cckcc $option 2>/dev/null
    check "no program, $option" $? 127
done
for words in 'prune st --max-size x' 'look st --compiler a --driver b --directory / -- -c x.c' \
    'look st --driver gcc --directory / --address f -- -c x.c' 'look st --directory / -- -c x.c' \
    'unpack st --name n --out o --packed p --server keep'; do
    cck_cache $words >/dev/null 2>&1
    check "wrong words, $words" $? 2
done
XDG_CONFIG_HOME=/dev/null/none cckcc --max-size 1G 2>/dev/null
check 'no place for the configuration' $? 1
PATH="$room/a b/libexec/cckcc" /bin/sh "$room/a b/libexec/cckcc/gcc" -c x.c 2>/dev/null
check 'no other compiler' $? 127
other=$room/package/opt/cck/libexec/cckcc
check 'two wrappers' "$(PATH="$other:$PATH" timeout 10 gcc -dumpversion)" "$("$compiler" -dumpversion)"
check 'two wrappers, by a path' "$(timeout 10 "$other/gcc" -dumpversion)" "$("$compiler" -dumpversion)"

for prefix in "$room/a b" "$room/package/opt/cck"; do
    "$top/install" --prefix "$prefix" --built "$room/built" --uninstall
    check "nothing is left of $prefix" "$(find "$prefix" 2>/dev/null)" ''
done
"$top/install" --prefix relative 2>/dev/null
check 'a relative prefix' $? 2
rm "$room/built/cck_run"
check 'a missing program' "$("$top/install" --prefix "$room/none" --built "$room/built" 2>&1)" \
    "install: there is no $room/built/cck_run"
check 'nothing is installed without it' "$(find "$room/none" 2>/dev/null)" ''
echo "install: $passed passed, $failed failed"
[ "$failed" -eq 0 ]
