#!/bin/sh
# Tests the static library of crates/cck_c from C, C++ and Rust. Run by hand: c.sh, or c.sh DIRECTORY,
# where DIRECTORY has libcck.a; without it the library is proved and built first. It needs gcc, clang,
# g++, rustc, valgrind and Python 3.
#
# Warnings are errors everywhere. The examples are built and run. tests/c/calls.c makes the calls of
# the vector files, and repeats each with each of its requests for memory failing in turn: built by gcc
# and clang, alone and with the sanitizers of addresses and of undefined behaviour, and by gcc under
# valgrind. The sanitizers see what the caller does, and valgrind the library too.
set -eu
top=$(cd "$(dirname "$0")/.." && pwd)
work=$(mktemp -d)
trap 'rm -r "$work"' EXIT
python3 "$top/tests/c/signatures.py"
folder=${1:-$work}
[ $# -gt 0 ] || "$top/examples/archive.sh" "$work"

warnings="-std=c99 -pedantic -Wall -Wextra -Wshadow -Wconversion -Werror"
wrap="-Wl,--wrap=malloc -Wl,--wrap=realloc"
valgrind="valgrind -q --error-exitcode=9 --leak-check=full --errors-for-leak-kinds=all"

# The examples, and the header alone in C++.
for cc in gcc clang; do
    CC=$cc RUN=$valgrind "$top/examples/c/build.sh" "$folder" >"$work/$cc.txt"
    CC=$cc CFLAGS="-g -fsanitize=address,undefined -fno-sanitize-recover=all" \
        "$top/examples/c/build.sh" "$folder" >"$work/sanitized.txt"
    cmp "$work/$cc.txt" "$work/sanitized.txt"
    cmp "$work/$cc.txt" "$top/examples/c/stdout"
done
# What the runtime of Rust keeps to the end is no leak of the library.
RUN="valgrind -q --error-exitcode=9 --leak-check=full" "$top/examples/rust/build.sh" "$folder" >"$work/rust.txt"
cmp "$work/rust.txt" "$top/examples/rust/stdout"
printf '#include "cck.h"\nint main() { cck_finder finder; cck_finder_start(&finder); return finder.length; }\n' \
    >"$work/header.cc"
g++ -std=c++17 -pedantic -Wall -Wextra -Werror -I"$top/crates/cck_c/include" "$work/header.cc" \
    "$folder/libcck.a" -o "$work/header"
"$work/header"
echo "examples in C, C++ and Rust: as expected"

# The vector files.
for cc in gcc clang; do
    for options in -O2 "-g -O1 -fsanitize=address,undefined -fno-sanitize-recover=all"; do
        # The options are words.
        # shellcheck disable=SC2086
        $cc $warnings $options $wrap -I"$top/crates/cck_c/include" "$top/tests/c/calls.c" \
            "$folder/libcck.a" -o "$work/calls"
        echo "$cc $options:"
        python3 "$top/tests/c/vectors.py" "$work/calls"
    done
done
gcc $warnings -g -O1 $wrap -I"$top/crates/cck_c/include" "$top/tests/c/calls.c" "$folder/libcck.a" \
    -o "$work/calls"
echo "gcc, under valgrind:"
# shellcheck disable=SC2086
python3 "$top/tests/c/vectors.py" $valgrind "$work/calls"
