#!/bin/sh
# Times process_preprocessed_file over two texts of 64 MB, system headers as gcc -E leaves them and
# one with a marker at every other line, and over four of 40000 markers each: of different names in
# rising and in falling order, and of 500 names in turn, which begin alike or share their last bytes.
# Beside it Markers and one search of the kit's memchr for each line's end in the same bytes. All files
# that they name are in memory, and each is recorded once. It prints a table for each text. Instructions
# and allocations are those of the first 4 MB.
#
#     bench/walk.sh [DIRECTORY]
#
# All is made in DIRECTORY, by default a new one below /tmp: the texts, a copy of the crates and the
# program. Compare times within one run.
set -e
here=$(cd "$(dirname "$0")" && pwd)
top=$(cd "$here/.." && pwd)
folder=${1:-$(mktemp -d)}
. "$here/lib/program.sh"
. "$here/lib/headers.sh"
. "$here/lib/dense.sh"
names() {
    seq "$@" | awk '{ printf "# 1 \"h%05d.h\"\n", $1 }'
}
names 0 39999 > "$folder/rising.i"
names 39999 -1 0 > "$folder/falling.i"
in_turn() {
    awk -v begin="$1" -v end="$2" 'BEGIN {
        for (i = 0; i < 40000; i++) printf "# 1 \"%s%03d%s\" 1\n", begin, i % 500, end
    }'
}
in_turn aaaa_detail/d .hpp > "$folder/begin_alike.i"
in_turn d /aaaa_detail.hpp > "$folder/end_alike.i"

build_program walk 'cck_digest cck_path cck_strip cck_files cck_util cck_include cck_entry cck_compiler cck_hasher' \
    'cck_digest cck_path cck_files cck_include cck_hasher memchr jiff anyhow'
for text in headers dense rising falling begin_alike end_alike; do
    head -c 4194304 "$folder/$text.i" > "$folder/part.i"
    echo "$text.i"
    print_measures "$folder/$text.i" "$folder/part.i"
done
