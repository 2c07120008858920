#!/bin/sh
# Times `cck run` over scripts of 10000 and of 100000 lines `var` or `file`, each of a name of its
# own, in rising, falling and random order, and counts instructions by valgrind's callgrind. What
# an empty script costs is taken off.
#
#     bench/script_lines.sh [PROGRAM]
#
# PROGRAM is the one to run, by default that of the repository. Needs Python 3 and valgrind.
cd "$(dirname "$0")/.." || exit 1
[ $# -gt 0 ] || printf 'x' | ./cck key abcd c > /dev/null || exit 1
exec python3 - "${1:-crates/cck_run/out/cck_run}" <<'PYTHON'
import random, re, resource, subprocess, sys

RUN = [sys.argv[1], "run"]
COUNT = ["valgrind", "--tool=callgrind", "--callgrind-out-file=/dev/null"]
LINES = {"var": b"var NAME_%06d value\n", "file": b"file /w/include/header_%06d.h 1 1 int x;\\n\n"}
ORDERS = {
    "rising": lambda numbers: numbers,
    "falling": lambda numbers: numbers[::-1],
    "random": lambda numbers: random.Random(1).sample(numbers, len(numbers)),
}


def seconds(text):
    """The processor time of a run."""
    before = resource.getrusage(resource.RUSAGE_CHILDREN)
    subprocess.run(RUN, input=text, check=True)
    after = resource.getrusage(resource.RUSAGE_CHILDREN)
    return after.ru_utime + after.ru_stime - before.ru_utime - before.ru_stime


def instructions(text):
    done = subprocess.run(COUNT + RUN, input=text, stderr=subprocess.PIPE, check=True)
    return int(re.search(rb"Collected : (\d+)", done.stderr).group(1))


def cost(text):
    return min(seconds(text) for _ in range(5)), instructions(text)


empty = cost(b"")
print("line  order    lines   microseconds a line  instructions a line  (best of 5)")
for kind, line in LINES.items():
    for order, ordered in ORDERS.items():
        for count in (10000, 100000):
            taken, counted = cost(b"".join(line % n for n in ordered(range(count))))
            print(f"{kind:<5} {order:<8} {count:<6}  {(taken - empty[0]) / count * 1e6:19.2f}"
                  f"  {(counted - empty[1]) / count:19.0f}", flush=True)
PYTHON
