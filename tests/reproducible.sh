#!/bin/sh
# Builds the Debian package of two copies of this checkout, in directories of two lengths, and compares the packages and each of
# their files: reproducible.sh. The copies have what was proved here (crates/*/out), and compile and link the programs and the
# library again. Needs the prover and dpkg-dev. The last line is `reproducible: N passed, M failed`.
top=$(cd "$(dirname "$0")/.." && pwd)
room=$(mktemp -d)
trap 'rm -rf "$room"' EXIT
passed=0 failed=0
check() {
    if [ "$2" = "$3" ]; then passed=$((passed + 1)); else
        failed=$((failed + 1))
        printf 'FAILED: %s\nwanted: %s\nfound:  %s\n' "$1" "$3" "$2"
    fi
}

# Builds the package of a copy in the directory $1. What the programs are linked from stays in no copy.
build() {
    mkdir -p "$1" "$1-built" "$1-out"
    cp -a "$top/." "$1"
    for crate in cck_run cck_explain cck_cache; do
        rm -f "$1/crates/$crate/out/$crate" "$1/crates/$crate/out/$crate".*
        (cd "$1/crates/$crate" && rt run -- --version) >"$room/said" 2>&1 &&
            cp "$1/crates/$crate/out/$crate" "$1-built" || { cat "$room/said"; exit 2; }
    done
    rm -f "$1"/crates/cck_c/out/*.a "$1"/crates/cck_c/out/*.o
    "$1/examples/archive.sh" "$1-built" || exit 2
    "$1/packaging/deb" --built "$1-built" --out "$1-out" >/dev/null || exit 2
    dpkg-deb -R "$1-out"/*.deb "$1-files"
}
sums() { (cd "$1" && find . -type f -exec sha256sum {} + | sort -k 2); }

build "$room/one"
build "$room/another/directory/of/a/longer/path"
mv "$room/another/directory/of/a/longer/path-files" "$room/two-files"
mv "$room/another/directory/of/a/longer/path-out" "$room/two-out"
check 'the files of the package' "$(sums "$room/two-files")" "$(sums "$room/one-files")"
check 'their modes and times' "$(cd "$room/two-files" && find . -printf '%p %m %T@\n' | sort)" \
    "$(cd "$room/one-files" && find . -printf '%p %m %T@\n' | sort)"
check 'the package' "$(sums "$room/two-out")" "$(sums "$room/one-out")"
for name in cck cck_explain cck_cache; do
    check "the provenance has the sum of $name" \
        "$(sed -n "s|  usr/bin/$name\$||p" "$room/one-files/usr/share/doc/cck/cck-provenance")" \
        "$(sha256sum <"$room/one-files/usr/bin/$name" | cut -c 1-64)"
done
echo "reproducible: $passed passed, $failed failed"
[ "$failed" -eq 0 ]
