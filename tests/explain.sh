#!/bin/sh
# Shows `cck_explain` on real input: three pairs of compilations that share no key, two texts that
# differ in one byte 5 MiB in, keys with base directories, the calls of scripts, the line markers of a
# text of gcc, the entry of a run, a pipe, and a full device. explain.py joins each listing's parts again
# and compares their digest with the printed key, and compares the other listings with the reference.
# The last case is of wrong words. Prints some lines for each case.
#
#     tests/explain.sh [PROGRAM]
#
# PROGRAM is crates/cck_explain/out/cck_explain, which `rt run` in its crate makes. Needs gcc and Python 3.
set -e
top=$(cd "$(dirname "$0")/.." && pwd)
program=$(readlink -f "${1:-$top/crates/cck_explain/out/cck_explain}")
folder=$(mktemp -d)
trap 'rm -rf "$folder"' EXIT
cd "$folder"

# Lists both texts, and prints the first part in which they differ.
compare() {
    python3 "$top/tests/explain.py" join first.txt
    python3 "$top/tests/explain.py" join second.txt
    diff first.txt second.txt > difference || true
    grep '^[<>]' difference | head -n "$1" | cut -c1-150
}

cat > main.c <<'C'
#include <assert.h>
#include <ctype.h>
#include <errno.h>
#include <limits.h>
#include <locale.h>
#include <math.h>
#include <setjmp.h>
#include <signal.h>
#include <stdint.h>
#include <stdio.h>
#include <stdlib.h>
#include <string.h>
#include <time.h>
int main(void) { return LEVEL; }
C
echo '== another -D'
gcc -E -DLEVEL=1 main.c | "$program" key --full abcd c -DLEVEL=1 > first.txt
gcc -E -DLEVEL=2 main.c | "$program" key --full abcd c -DLEVEL=2 > second.txt
compare 4

echo '== another working directory'
mkdir one two
echo 'int x;' | tee one/a.c > two/a.c
(cd one && gcc -E -g a.c) > one.i
(cd two && gcc -E -g a.c) > two.i
"$program" key abcd c -g < one.i > first.txt
"$program" key abcd c -g < two.i > second.txt
compare 2 | sed "s,$folder,/tmp/F,g"
"$program" key --basedir "$folder/one" abcd c -g < one.i | tail -n 3 | sed "s,$folder,/tmp/F,g"
"$program" key --basedir "$folder/one" abcd c -g < one.i | tail -n 1 > first.txt
"$program" key --basedir "$folder/two" abcd c -g < two.i | tail -n 1 | cmp - first.txt

echo '== a header with __DATE__'
echo 'const char *built = __DATE__;' > stamp.h
echo '#include "stamp.h"' > stamped.c
SOURCE_DATE_EPOCH=0 gcc -E stamped.c | "$program" key abcd c > first.txt
SOURCE_DATE_EPOCH=86400 gcc -E stamped.c | "$program" key abcd c > second.txt
compare 2
cat > day.txt <<'S'
file /w/stamped.c 1 1 #include "stamp.h"\n
file /w/stamp.h 1 1 const char *built = __DATE__;\n
compile 1000000000 stamped.c
compile 86401000000000 stamped.c
S
"$program" script < day.txt

echo '== one byte, 5 MiB in'
python3 - <<'P'
text = bytearray(b"int number = 1234567890;\n" * 300000)
open("first.i", "wb").write(text)
text[5 << 20] ^= 1
open("second.i", "wb").write(text)
P
"$program" key --full abcd c < first.i > first.txt
"$program" key --full abcd c < second.i > second.txt
compare 2
"$program" key abcd c < first.i > first.txt
"$program" key abcd c < second.i > second.txt
diff first.txt second.txt | grep '^[<>]' | head -n 2

echo '== base directories'
python3 "$top/tests/explain.py" keys "$program"

echo '== scripts'
python3 "$top/tests/explain.py" scripts "$program"

echo '== line markers'
gcc -E -g -DLEVEL=1 main.c > main.i
"$program" markers main.c "$PWD" < main.i > listing
python3 "$top/tests/explain.py" markers main.c "$PWD" main.i listing
head -n 7 listing | sed "s,$folder,/tmp/F,g"
{ cat main.i; printf '  __asm__(" .incbin \\"f\\"");\n'; } > incbin.i
"$program" markers main.c "$PWD" < incbin.i > listing
python3 "$top/tests/explain.py" markers main.c "$PWD" incbin.i listing
tail -n 1 listing
{ cat main.i; printf '# 1 no name, no end'; } > malformed.i
"$program" markers main.c "$PWD" < malformed.i > listing
python3 "$top/tests/explain.py" markers main.c "$PWD" malformed.i listing
tail -n 1 listing

echo '== the entry of a run'
python3 "$top/tests/explain.py" entries "$program"

echo '== through a pipe'
cat first.i | "$program" key --full abcd c | cmp - "$(: > listing; "$program" key --full abcd c < first.i > listing; echo listing)"
echo 'the same'

echo '== into a full device'
status=0
"$program" key --full abcd c < first.i > /dev/full || status=$?
echo "status $status"
[ "$status" = 1 ]
status=0
"$program" markers main.c "$PWD" < main.i > /dev/full || status=$?
echo "status $status"
[ "$status" = 1 ]
echo '== wrong words'
status=0
"$program" key abcd nothing < first.i > listing 2> errors || status=$?
echo "status $status, $(wc -c < listing) bytes to standard output"
[ "$status" = 2 ]
