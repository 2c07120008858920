#!/bin/sh
# Compares the files that a walk records with those that grep finds in the line markers of what gcc
# prints of a C file with a dozen system headers. Run by hand; needs gcc. Its last line is
# `real_walk: N passed, M failed`, of files.
set -eu
top=$(cd "$(dirname "$0")/.." && pwd)
room=$(mktemp -d)
trap 'rm -r "$room"' EXIT

for name in assert ctype errno limits locale math pthread signal stdio stdlib string time; do
    echo "#include <$name.h>"
done >"$room/main.c"
(cd "$room" && gcc -E main.c -o main.i)

mkdir -p "$room/work/crates/walk_test/src"
for crate in cck_digest cck_path cck_strip cck_files cck_util cck_include cck_entry cck_compiler \
    cck_hasher; do
    cp -r "$top/crates/$crate" "$room/work/crates/"
    grep "^$crate:" "$top/crates.txt" >>"$room/work/crates.txt"
done
echo 'walk_test: cck_digest cck_path cck_files cck_include cck_hasher jiff anyhow' \
    >>"$room/work/crates.txt"
cp "$top/tests/walk/main.rt.in" "$room/work/crates/walk_test/src/main.rt"
cp "$top/HANDLES" "$room/work/"
if ! (cd "$room/work/crates/walk_test" && rt run </dev/null >"$room/build.log" 2>&1); then
    tail -20 "$room/build.log" >&2
    exit 1
fi

# Relative names are seen from /w, where the input is main.c.
grep '^# ' "$room/main.i" | sed 's/^[^"]*"\([^"]*\)".*/\1/' | grep -v '^<' | grep -v '^main.c$' |
    sed 's,^\([^/]\),/w/\1,' | sort -u >"$room/expected"
"$room/work/crates/walk_test/out/walk_test" <"$room/main.i" | sort >"$room/found"
if ! diff "$room/expected" "$room/found"; then
    echo 'other files'
    exit 1
fi
echo "real_walk: $(wc -l <"$room/found") passed, 0 failed"
