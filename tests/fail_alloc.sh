#!/bin/sh
# Lets one request for memory fail in each run of the program of vectors: the first one, then the second
# one, and so on. A run has to end with status 2, for lack of memory, with no difference printed, or
# to print what the program prints with all its memory. Run by hand:
# fail_alloc.sh FILE [RUNS [FIRST]], where FILE is one of crates/cck_vectors/data/ and FIRST the first
# request that fails. A run builds the program, so there are 5 where no number is given.
set -eu
cd "$(dirname "$0")/../crates/cck_vectors"
file=data/$1
runs=${2:-5}
first=${3:-1}
log=$(mktemp)
trap 'rm "$log"' EXIT

all=$(rt try -- "$file" 2>"$log") || { cat "$log"; exit 1; }
n=$first
short=0
while [ "$n" -lt $((first + runs)) ]; do
    text=$(rt try --fail-alloc "$n" -- "$file" 2>"$log") || true
    expected=$all
    case $(sed -n 's/^run=ended status=\([0-9]*\) .*/\1/p' "$log") in
    2)
        expected=
        short=$((short + 1))
        text=$(echo "$text" | sed '/: [0-9]* results, 0 differences$/d')
        ;;
    0) ;;
    *) expected='a run that ends' ;;
    esac
    [ "$text" = "$expected" ] || { echo "$1: allocation $n failed: $text"; cat "$log"; exit 1; }
    n=$((n + 1))
done
echo "$1: $runs runs from allocation $first on, $short of them ended out of memory"
echo "fail_alloc: $runs passed, 0 failed"
