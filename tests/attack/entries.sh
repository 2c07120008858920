#!/bin/sh
# Attacks the readers of entries: builds the program of tests/attack/entries and passes it the texts
# that tests/attack/entries.py makes, which compares what it says with the reference.
#
#     tests/attack/entries.sh [--seed S] [--count N] [--from K] [--jobs J] [--alone M]
#
# N texts are made, in blocks of 10000, from the block K on, by J processes. A difference is printed
# with its text, in hexadecimal digits. M more are made of 1000 entries by the program itself, which
# counts those on which its two readers differ, and those that are not written as they were read. The
# program is made in the directory that CCK_ATTACK names, by default a new one below /tmp, and is kept
# where that directory has it already.
set -e
here=$(cd "$(dirname "$0")" && pwd)
program=$("$here/program.sh" "${CCK_ATTACK:-$(mktemp -d)}")
exec python3 "$here/entries.py" "$@" "$program"
