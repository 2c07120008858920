#!/bin/sh
# Times calls of the static library of crates/cck_c from C, beside the same calls from a program in
# Rattle that times the call alone, and prints a table: the key of 64 MB of system headers, as gcc -E
# leaves them, a TimeMacroFinder over them in pieces of 131072 bytes, strip_basedirs with a base
# directory that occurs and with one that does not, and strip_basedirs_from_arg of 100 arguments with
# one base directory, 1000 times, and with 1000, 10 times. From C what remains is written to a buffer,
# where strip_basedirs allocates it. The two programs run in turn, eleven times each, each first in every
# other round, and the least time of each counts. Then it prints how many instructions each call takes, by
# callgrind, on the first 4 MB of the text.
#
#     bench/c.sh [DIRECTORY]
#
# All is made in DIRECTORY, by default a new one below /tmp: the text, the library, a copy of the crates
# and the programs. Compare times within one run.
set -e
here=$(cd "$(dirname "$0")" && pwd)
top=$(cd "$here/.." && pwd)
folder=${1:-$(mktemp -d)}
. "$here/lib/program.sh"
. "$here/lib/headers.sh"

"$top/examples/archive.sh" "$folder"
${CC:-cc} -std=c99 -O2 -Wall -Wextra -Werror -I"$top/crates/cck_c/include" "$here/c/calls.c" \
    "$folder/libcck.a" -o "$folder/calls"
build_program c 'cck_digest cck_path cck_strip cck_files cck_util' \
    'cck_util anyhow'

: > "$folder/rounds"
for round in 1 2 3 4 5 6 7 8 9 10 11; do
    for turn in 1 2; do
        if [ $(((round + turn) % 2)) -eq 0 ]; then
            "$program" < "$folder/headers.i" | sed 's/^/rattle /' >> "$folder/rounds"
        else
            "$folder/calls" < "$folder/headers.i" | sed 's/^/c /' >> "$folder/rounds"
        fi
    done
done

printf '%-20s %14s %14s %6s   (milliseconds, best of 11)\n' call 'from C' 'from Rattle' ratio
awk '
    {
        if (!(($1, $2) in least) || $3 < least[$1, $2]) least[$1, $2] = $3
        if (($2 in result) && result[$2] != $4) { print $2 ": the results differ"; exit 1 }
        result[$2] = $4
        if (!($2 in seen)) { seen[$2] = 1; names[++count] = $2 }
    }
    END {
        for (i = 1; i <= count; i++) {
            name = names[i]
            printf "%-20s %14.3f %14.3f %6.3f\n", name, least["c", name] / 1e6, least["rattle", name] / 1e6,
                least["c", name] / least["rattle", name]
        }
    }' "$folder/rounds"

head -c 4194304 "$folder/headers.i" > "$folder/four.i"

# Prints how many instructions the call $2 takes in the program $1.
instructions_of() {
    with=$(instructions "$1" "$2" < "$folder/four.i")
    without=$(instructions "$1" nothing < "$folder/four.i")
    echo $((with - without))
}

printf '\n%-20s %14s %14s %6s   (million instructions)\n' call 'from C' 'from Rattle' ratio
for name in key finder strip_some strip_none arguments_1 arguments_1000; do
    echo "$name $(instructions_of "$folder/calls" "$name") $(instructions_of "$program" "$name")" |
        awk '{ printf "%-20s %14.3f %14.3f %6.3f\n", $1, $2 / 1e6, $3 / 1e6, $2 / $3 }'
done
