#!/bin/sh
# Times Markers over texts of 64 MB, beside one search of the kit's memchr for each line's end in the
# same bytes, and prints a table. The texts are system headers as gcc -E leaves them, one with a
# marker at every other line, and four of short lines: line feeds alone, lines of `#`, lines of `_`,
# and lines of `# 1 2 3 4`.
#
#     bench/markers.sh [DIRECTORY]
#
# All is made in DIRECTORY, by default a new one below /tmp: the texts, a copy of the crate and the
# program. Compare times within one run.
set -e
here=$(cd "$(dirname "$0")" && pwd)
top=$(cd "$here/.." && pwd)
folder=${1:-$(mktemp -d)}
. "$here/lib/program.sh"
. "$here/lib/headers.sh"
. "$here/lib/dense.sh"
. "$here/lib/short_lines.sh"

build_program markers 'cck_digest cck_path cck_files cck_include' 'cck_include memchr'

echo 'text         markers  line ends  ratio   (milliseconds, best of 11)'
for text in headers dense feeds hashes underscores digits; do
    "$program" < "$folder/$text.i" |
        awk -v text="$text" '{
            printf "%-12s %7.1f  %9.1f  %5.2f   (%d bytes, %d names, %d other marks, %d lines)\n",
                text, $2 / 1000, $3 / 1000, $2 / $3, $1, $4, $5, $6
        }'
done
