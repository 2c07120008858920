#!/bin/sh
# Times awkward texts, each beside a harmless one of its size and at smaller sizes too, and prints
# tables: through `cck key`, `cck run`, the marks of bench/markers and the readers of entries. Memory
# is the greatest resident set of the process, time its processor time, the lesser of two runs.
#
#     bench/awkward.sh [DIRECTORY]
#
# All is made in DIRECTORY, by default a new one below /tmp; what is built there is kept. Compare times
# within one run. Needs Python 3 and GNU time as /usr/bin/time.
set -e
here=$(cd "$(dirname "$0")" && pwd)
top=$(cd "$here/.." && pwd)
folder=${1:-$(mktemp -d)}
. "$here/lib/program.sh"

printf '' | "$top/cck" key abcd c > /dev/null 2>&1 # proves and builds the program where it is stale
entries=$("$top/tests/attack/program.sh" "$folder/entries")
markers=$folder/work/crates/markers_bench/out/markers_bench
[ -x "$markers" ] || build_program markers 'cck_digest cck_path cck_files cck_include' 'cck_include memchr'
exec python3 "$here/lib/awkward.py" "$top/crates/cck_run/out/cck_run" "$markers" "$entries" "$folder"
