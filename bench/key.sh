#!/bin/sh
# Times `cck key` on 64 MiB beside sha256sum and openssl on the same file, and on 11 bytes beside
# /bin/true, and counts the instructions of each by callgrind, those of the first three on 4 MiB.
# Prints two tables; the times are processor time.
#
#     bench/key.sh [DIRECTORY]
#
# All is made in DIRECTORY, by default a new one below /tmp. Compare times within one run. Needs Python 3,
# openssl, valgrind and GNU time as /usr/bin/time.
set -e
here=$(cd "$(dirname "$0")" && pwd)
top=$(cd "$here/.." && pwd)
folder=${1:-$(mktemp -d)}
mkdir -p "$folder"
printf '' | "$top/cck" key abcd c > /dev/null 2>&1 # proves and builds the program where it is stale
exec python3 "$here/lib/key.py" "$top/crates/cck_run/out/cck_run" "$folder"
