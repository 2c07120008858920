#!/bin/sh
# Tries the edits of tests/edits/, of the crates that are named or of all, as the gate tries those of
# must-fail/: in a copy of the working tree each of these crates has them in place of its own, and
# the prover has to reject each. Run by hand: edits.sh [CRATE..]. First tests/edits_apply.py checks
# whether each edit, of must-fail/ too, applies. The crates below a crate are proved from nothing, so
# a crate takes minutes. A line for each edit says whether it is rejected, and the last line counts
# them.
set -eu
cd "$(dirname "$0")/.."
[ $# -gt 0 ] || set -- $(ls tests/edits)
for crate in "$@"; do
    [ -d "tests/edits/$crate" ] || { echo "no edits in tests/edits/$crate" >&2; exit 1; }
done

python3 tests/edits_apply.py || exit 1

failed=0
room=$(mktemp -d)
trap 'rm -r "$room"' EXIT
git ls-files -co --exclude-standard crates crates.txt HANDLES | while IFS= read -r file; do
    [ -f "$file" ] || continue
    mkdir -p "$room/$(dirname "$file")"
    cp "$file" "$room/$file"
done
tried=0
refused=0
for crate in "$@"; do
    rm -rf "$room/crates/$crate/must-fail"
    cp -r "tests/edits/$crate" "$room/crates/$crate/must-fail"
    # That an edit is rejected tells something only where the crate is proved without it.
    if ! (cd "$room/crates/$crate" && rt check) >"$room/said" 2>&1; then
        tail -20 "$room/said"
        echo "$crate: not proved without its edits"
        exit 1
    fi
    if (cd "$room" && rt must-fail "$crate") >"$room/said" 2>&1; then
        sed -n 's/^rt: must-fail \(.*: refused\).*/\1/p' "$room/said"
    else
        cat "$room/said"
        failed=1
    fi
    tried=$((tried + $(ls "tests/edits/$crate" | wc -l)))
    refused=$((refused + $(grep -c '^rt: must-fail .*: refused' "$room/said" || true)))
done
echo "edits: $refused passed, $((tried - refused)) failed"
[ "$failed" -eq 0 ] && [ "$tried" -eq "$refused" ]
