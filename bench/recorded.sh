#!/bin/sh
# Times recorded_digest of 1000 files of 100 to 4096 bytes, with a search for macros of time and
# without one, beside hashing the bytes of the same files, and prints a table.
#
#     bench/recorded.sh [DIRECTORY]
#
# All is made in DIRECTORY, by default a new one below /tmp: a copy of the crates and the program.
# Compare times within one run.
set -e
here=$(cd "$(dirname "$0")" && pwd)
top=$(cd "$here/.." && pwd)
folder=${1:-$(mktemp -d)}
. "$here/lib/program.sh"

build_program recorded 'cck_digest cck_path cck_files cck_include' \
    'cck_digest cck_path cck_files cck_include jiff anyhow'
print_measures /dev/null /dev/null
