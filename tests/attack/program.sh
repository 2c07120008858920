#!/bin/sh
# Builds the program of tests/attack/entries, proved, and prints its path. It is made in a directory,
# with a copy of the crates that it uses, and is kept where that directory has it already.
#
#     tests/attack/program.sh DIRECTORY
set -e
here=$(cd "$(dirname "$0")" && pwd)
top=$(cd "$here/../.." && pwd)
work=$1/work
program=$work/crates/entries_attack/out/entries_attack
crates='cck_digest cck_path cck_strip cck_files cck_util cck_include cck_entry'

if [ ! -x "$program" ]; then
    rm -rf "$work"
    mkdir -p "$work/crates/entries_attack/src"
    for crate in $crates; do
        cp -rp "$top/crates/$crate" "$work/crates/"
        grep "^$crate:" "$top/crates.txt" >> "$work/crates.txt"
    done
    echo 'entries_attack: cck_entry jiff anyhow' >> "$work/crates.txt"
    cp "$here/entries/main.rt.in" "$work/crates/entries_attack/src/main.rt"
    cp "$top/HANDLES" "$work/"
    if ! (cd "$work/crates/entries_attack" && rt run < /dev/null > "$work/build.log" 2>&1); then
        tail -20 "$work/build.log" >&2
        exit 1
    fi
fi
echo "$program"
