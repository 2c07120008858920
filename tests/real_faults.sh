#!/bin/sh
# Kills recordings and the parts of calls, damages stores, changes files between two steps and while they are read, makes four
# builds at once, fills devices, sets times and clocks, and uses several file systems: no look-up may give a wrong object or a
# wrong dependency file, and no call may end in another way than the compiler's. It also tests what `prune` removes. Run by
# hand, as root for devices and users; needs gcc and Python 3, and faketime for clocks. KILLS and DAMAGES are the numbers of
# tries, SEED is the seed. Its last line is 'all passed'.
set -u
top=$(cd "$(dirname "$0")/.." && pwd)
. "$top/tests/real/common.sh"
mkdir "$room/work"
cd "$room/work" || exit 1
for part in faults outages damages; do
    mkdir "$part"
    (cd "$part" && python3 "$top/tests/real/$part.py") >"$part.log" 2>&1 || fault "$part"
    grep -v '^all passed$' "$part.log"
done
finish
