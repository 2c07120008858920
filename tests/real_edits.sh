#!/bin/sh
# Builds zlib again and again by `cckcc gcc`, with random edits between the builds, and compares every
# object and every dependency file byte for byte with the plain compiler's. Run by hand; needs gcc, make,
# Python 3 and Debian's package archive. BUILDS is the number of builds, SEED the seed. Its last line is
# 'all passed'.
set -eu
top=$(cd "$(dirname "$0")/.." && pwd)
. "$top/tests/real/common.sh"
[ -n "${CCK_SOURCES-}" ] || download zlib
unpack zlib zlib
cd "$room/zlib"
MAKEFILE=$top/tests/real/objects.mk python3 "$top/tests/real/edits.py"
