#!/bin/sh
# Times `cck run` over an input that includes 100 headers of 4 KiB: N hits, and N misses, for N of 100
# and 1000, beside hashing the same headers N times by the hash function of the program, and counts
# the instructions of 10 of each by callgrind. Prints a table.
#
#     bench/runs.sh [DIRECTORY]
#
# All is made in DIRECTORY, by default a new one below /tmp: a copy of the crate and the program that
# hashes. Times are processor time: compare them within one run. Needs Python 3, valgrind and GNU time
# as /usr/bin/time.
set -e
here=$(cd "$(dirname "$0")" && pwd)
top=$(cd "$here/.." && pwd)
folder=${1:-$(mktemp -d)}
. "$here/lib/program.sh"

printf 'x' | "$top/cck" key abcd c > /dev/null 2>&1 # proves and builds the program where it is stale
build_program hashing cck_digest 'cck_digest anyhow'
exec python3 "$here/lib/runs.py" "$top/crates/cck_run/out/cck_run" "$program" "$folder"
