#!/bin/sh
# Compares the keys that the program prints with those that tests/reference computes by the
# definition, on what gcc prints of a C file with a dozen system headers, on bytes that are no text,
# on nothing and on 256 MB. Run by hand; needs gcc and python3. Its last line is
# `real_input: N passed, M failed`.
set -eu
top=$(cd "$(dirname "$0")/.." && pwd)
printf '' | "$top/cck" key abcd c >/dev/null 2>&1 # proves and builds the program where it is stale
cck="$top/crates/cck_run/out/cck_run"
room=$(mktemp -d)
trap 'rm -r "$room"' EXIT

cat >"$room/main.c" <<'END'
#include <assert.h>
#include <ctype.h>
#include <errno.h>
#include <limits.h>
#include <locale.h>
#include <math.h>
#include <pthread.h>
#include <signal.h>
#include <stdio.h>
#include <stdlib.h>
#include <string.h>
#include <time.h>
int main(void) { puts(__DATE__); return 0; }
END
gcc -E -O2 -Wall -DNDEBUG "$room/main.c" -o "$room/main.i"
head -c 1000000 /dev/urandom >"$room/bytes"
: >"$room/nothing"
head -c 268435456 /dev/urandom >"$room/large"
compiler=$(sha256sum "$(command -v gcc)" | cut -d ' ' -f 1)

passed=0
compare() {
    file=$1
    shift
    ours=$("$cck" key "$@" <"$file")
    theirs=$(cd "$top/tests" && python3 -m reference key "$@" <"$file")
    echo "$ours $(basename "$file") ($(wc -c <"$file") bytes)"
    if [ "$ours" != "$theirs" ]; then
        echo "the definition gives $theirs"
        echo "real_input: $passed passed, 1 failed"
        exit 1
    fi
    passed=$((passed + 1))
}
compare "$room/main.i" "$compiler" c -O2 -Wall -DNDEBUG
compare "$room/main.i" "$compiler" c++ -O2 -Wall -DNDEBUG
compare "$room/bytes" "$compiler" cPreprocessed
compare "$room/nothing" "$compiler" objc++ ''
compare "$room/large" "$compiler" hip -O2
echo "real_input: $passed passed, 0 failed"
