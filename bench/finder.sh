#!/bin/sh
# Times TimeMacroFinder over two texts of 64 MB, in pieces of 131072 bytes, beside searches of the
# kit's memchr over the same bytes, and prints a table. The texts are system headers as gcc -E
# leaves them, and names with many underscores, among them beginnings of the macros.
#
#     bench/finder.sh [DIRECTORY]
#
# All is made in DIRECTORY, by default a new one below /tmp: the texts, a copy of the crates and the
# program. Compare times within one run.
set -e
here=$(cd "$(dirname "$0")" && pwd)
top=$(cd "$here/.." && pwd)
folder=${1:-$(mktemp -d)}
. "$here/lib/program.sh"
. "$here/lib/headers.sh"

if [ ! -s "$folder/words.i" ]; then
    yes '__attribute__ ((__nothrow__, __leaf__)) ________ __TIME_ __DATE_ __TIMEOUT__ _T_I_M_E_' |
        head -c $size > "$folder/words.i"
fi

build_program finder cck_digest 'cck_digest memchr'

echo 'text          finder  one macro  ratio  each __  ratio   (milliseconds, best of 11)'
for text in headers words; do
    "$program" < "$folder/$text.i" |
        awk -v text="$text" '{
            if ($5 != "false") { print text ": a macro was found, so not all was searched"; exit 1 }
            printf "%-12s %7.1f  %9.1f  %5.2f  %7.1f  %5.2f   (%d bytes, %d times __)\n",
                text, $2 / 1000, $3 / 1000, $2 / $3, $4 / 1000, $2 / $4, $1, $6
        }'
done
