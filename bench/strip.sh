#!/bin/sh
# Times strip_basedirs over two texts of 64 MB, all system headers as gcc -E leaves them and one
# translation unit as users have it, beside one copy of the text and one search of it, and prints a
# table for each. One of the base directories is /usr/include/linux/ (sparse) or /usr/include/
# (dense), or none is in the text (absent). They share a beginning of some bytes, or only their
# first byte (others). Beside it texts of `/` alone with a base directory of 32768 times `/`, texts of
# `a ` again and again with 1 and 30 base directories of `a ` again and again and then `b` (spaced), of which
# the instructions a byte may not depend on the size, and strip_basedirs_from_arg on 100 arguments with 1000
# base directories. Where valgrind is there, the instructions of each on 4 MB of the text are counted in runs
# of their own.
#
#     bench/strip.sh [DIRECTORY]
#
# All is made in DIRECTORY, by default a new one below /tmp: the texts, a copy of the crates and the
# program. Compare times within one run.
set -e
here=$(cd "$(dirname "$0")" && pwd)
top=$(cd "$here/.." && pwd)
folder=${1:-$(mktemp -d)}
. "$here/lib/program.sh"
. "$here/lib/headers.sh"
. "$here/lib/unit.sh"

build_program strip 'cck_digest cck_strip' 'cck_strip memchr anyhow'

# Measures the text of this name, and prints its table.
measure() {
    "$program" < "$folder/$1.i" > "$folder/times"
    : > "$folder/counts"
    if command -v valgrind > /dev/null; then
        head -c 4194304 "$folder/$1.i" > "$folder/part.i"
        for name in $(cut -d ' ' -f 1 "$folder/times"); do
            made=$("$program" "$name" < "$folder/part.i")
            echo "$made $(instructions "$program" "$name" < "$folder/part.i")" >> "$folder/counts"
        done
    fi
    echo "$1.i: a / once in $((size / $(tr -dc / < "$folder/$1.i" | wc -c))) bytes"
    print_table
}

print_table() {
    echo 'base directories    milliseconds  / copy  / search  instructions a byte   (least of 66)'
    awk '
        FNR == NR { if ($1 == "nothing") none = $4; else counts[$1] = ($4 - none) / $2; next }
        { time[$1] = $2; size[$1] = $3; rest[$1] = $4; names[++count] = $1 }
        END {
            for (i = 2; i <= count; i++) {
                name = names[i]
                printf "%-18s  %12.3f  %6.3f  %8.3f  %19s   (%d bytes, of which %d remain)\n",
                    name, time[name] / 1e6, time[name] / time["copy"], time[name] / time["search"],
                    name in counts ? sprintf("%.2f", counts[name]) : "-", size[name], rest[name]
            }
        }' "$folder/counts" "$folder/times"
}

measure headers
measure unit
