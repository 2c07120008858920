#!/bin/sh
# Proves and builds the static library of crates/cck_c, and writes it to DIRECTORY/libcck.a together with
# the kit's malloc, realloc and free for it: archive.sh DIRECTORY. Callers link this one file.
set -eu
folder=$(cd "$1" && pwd)
top=$(cd "$(dirname "$0")/.." && pwd)
kit=$(dirname "$(rt doc)")
(cd "$top/crates/cck_c" && rt lib >"$folder/rt.log" 2>&1) || { cat "$folder/rt.log" >&2; exit 1; }
parts=$(mktemp -d)
trap 'rm -r "$parts"' EXIT
(cd "$parts" && ar x "$top/crates/cck_c/out/libcck_c.a" && ar x "$kit/c/liblibc_c.a")
rm -f "$folder/libcck.a"
ar rcs "$folder/libcck.a" "$parts"/*.o
