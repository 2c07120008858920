#!/bin/sh
# Builds and runs the example: build.sh [DIRECTORY], where DIRECTORY has libcck.a; without it, the archive is
# proved and built first. CC is the compiler, and CFLAGS more of its options.
set -eu
here=$(cd "$(dirname "$0")" && pwd)
top=$here/../..
work=$(mktemp -d)
trap 'rm -r "$work"' EXIT
[ $# -gt 0 ] || "$top/examples/archive.sh" "$work"
${CC:-cc} -std=c99 -pedantic -Wall -Wextra -Werror -O2 ${CFLAGS:-} -I"$top/crates/cck_c/include" \
    "$here/example.c" "${1:-$work}/libcck.a" -o "$work/example"
${RUN:-} "$work/example"
