#!/bin/sh
# Lets each request for memory fail in turn in the program of vectors (`rt run` in its directory proves and
# builds it): fail_malloc.sh FILE [on], where FILE is one of crates/cck_vectors/data/. Once, or with all
# later requests too where `on` is given. A run has to end with status 2, for lack of memory, with no
# difference printed, or to print what the program prints with all its memory. The last line counts the
# runs. It needs a C compiler and the GNU C library.
set -eu
top=$(cd "$(dirname "$0")/.." && pwd)
folder=$top/crates/cck_vectors
program=$folder/out/cck_vectors
file=$1
how=${2:-once}
[ -x "$program" ] || { echo "$program is not built: rt run in $folder builds it" >&2; exit 1; }
room=$(mktemp -d)
trap 'rm -r "$room"' EXIT
${CC:-cc} -O2 -shared -fPIC -o "$room/fail.so" "$top/tests/fail_malloc.c"

run() {
    (cd "$folder/data" && env "$@" LD_PRELOAD="$room/fail.so" FAIL_COUNT="$room/count" "$program" "$file")
}
all=$(run FAIL_AT=0)
requests=$(cat "$room/count")
n=1
short=0
while [ "$n" -le "$requests" ]; do
    status=0
    if [ "$how" = on ]; then
        text=$(run FAIL_AT="$n" FAIL_ON=1 2>/dev/null) || status=$?
    else
        text=$(run FAIL_AT="$n" 2>/dev/null) || status=$?
    fi
    expected=$all
    case $status in
    0) ;;
    2)
        expected=
        short=$((short + 1))
        text=$(echo "$text" | sed '/: [0-9]* results, 0 differences$/d')
        ;;
    *) expected="a run that ends" ;;
    esac
    [ "$text" = "$expected" ] || { echo "$file: request $n refused, $how: status $status: $text"; exit 1; }
    n=$((n + 1))
done
echo "$file: $requests requests failed in turn, $how; $short runs ended out of memory, and the others printed all"
echo "fail_malloc: $requests passed, 0 failed"
