#!/bin/sh
# Builds and runs the example: build.sh [DIRECTORY], where DIRECTORY has libcck.a; without it, the archive is
# proved and built first. It needs rustc, and no crate.
set -eu
here=$(cd "$(dirname "$0")" && pwd)
work=$(mktemp -d)
trap 'rm -r "$work"' EXIT
[ $# -gt 0 ] || "$here/../archive.sh" "$work"
${RUSTC:-rustc} --edition 2024 -D warnings -O "$here/main.rs" -L "native=${1:-$work}" -l static=cck \
    -o "$work/example"
${RUN:-} "$work/example"
