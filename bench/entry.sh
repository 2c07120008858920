#!/bin/sh
# Times reading an entry of 100 results of 100 includes each, as a map and as a view of the bytes,
# and looking up in it the result whose includes all match: where it comes last, after 99 whose last
# include has changed, and where it comes first. All is set beside hashing the bytes of the 100 headers
# of 4 KiB once; Digest::file of each and a view of one result with one include are measured too.
#
#     bench/entry.sh [DIRECTORY]
#
# All is made in DIRECTORY, by default a new one below /tmp: a copy of the crates and the program.
# Compare times within one run.
set -e
here=$(cd "$(dirname "$0")" && pwd)
top=$(cd "$here/.." && pwd)
folder=${1:-$(mktemp -d)}
. "$here/lib/program.sh"

build_program entry 'cck_digest cck_path cck_files cck_include cck_entry' \
    'cck_digest cck_path cck_files cck_entry jiff anyhow'
print_measures /dev/null /dev/null
