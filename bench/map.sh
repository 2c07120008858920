#!/bin/sh
# Times inserting 10000, 40000 and 100000 different paths into a PathMap, in rising, falling and
# random order, and compare_paths at paths of 4 KB that differ nowhere, in the last byte or in the
# second, beside a test whether their bytes are the same, and prints two tables.
#
#     bench/map.sh [DIRECTORY]
#
# All is made in DIRECTORY, by default a new one below /tmp: a copy of the crates and the program.
# Compare times within one run.
set -e
here=$(cd "$(dirname "$0")" && pwd)
top=$(cd "$here/.." && pwd)
folder=${1:-$(mktemp -d)}
. "$here/lib/program.sh"

build_program map 'cck_digest cck_path' 'cck_digest cck_path anyhow'

echo 'paths   order    nanoseconds an insert  ratio   (best of 5)'
"$program" |
    awk '
        $1 == "insert" && NF == 4 {
            each = $4 / $3
            if (!unit) unit = each
            printf "%-7d %-7s %22.0f  %5.2f\n", $3, $2, each, each / unit
            next
        }
        $1 == "compare" && NF == 4 {
            if (!compared++) print "\ndiffers  nanoseconds  bytes  ratio   (a comparison, best of 1001 rounds of 64)"
            printf "%-8s %11.0f  %5.0f  %5.2f\n", $2, $3 / 64, $4 / 64, $3 / $4
            next
        }
        { print; exit 1 }'
