#!/usr/bin/env python3
"""A look-up that finds the last of 1, 10 and 16 entry files of a preprocessor key: milliseconds, the least of 50 runs, and
instructions, if valgrind is there. All results include the same 200 headers, of which one has other contents in each.
Needs gcc and the program (CCK_PROGRAM, by default the one that was proved and built here)."""
import os
import re
import shutil
import subprocess
import sys
import tempfile
import time

sys.path.insert(0, os.path.join(os.path.dirname(os.path.abspath(__file__)), "..", "tests", "real"))
from calls import PAUSE, PROGRAM, WRAPPER, need_program  # noqa: E402

HEADERS = 200
NUMBERS = (1, 10, 16)
CALL = ["gcc", "-O1", "-c", "x.c", "-o", "x.o"]


def write(place, name, text):
    with open(f"{place}/{name}", "w", encoding="ascii") as file:
        file.write(text)


def compile_state(place, variables, state):
    """Compiles the input with the header of a state, by the wrapper. Returns the last line of the log."""
    os.unlink(f"{place}/h{HEADERS - 1}.h")
    write(place, f"h{HEADERS - 1}.h", f"extern int last{state};\n")
    time.sleep(PAUSE)
    subprocess.run([WRAPPER, *CALL], cwd=place, env=variables, check=True)
    with open(variables["CCK_LOG"], encoding="utf-8") as file:
        return file.read().splitlines()[-1]


def measure(place, variables):
    """The milliseconds and the millions of instructions of one look-up, which hits."""
    words = [PROGRAM, "look", variables["CCK_STORE"], "--driver=gcc", f"--directory={place}", "--", *CALL[1:]]
    least = 1e9
    for _ in range(50):
        begun = time.perf_counter()
        done = subprocess.run(words, cwd=place, env=variables, check=False, stdout=subprocess.PIPE)
        least = min(least, time.perf_counter() - begun)
        if not done.stdout.startswith(b"hit"):
            sys.exit(f"no hit: {done.stdout.decode()}")
    if not shutil.which("valgrind"):
        return least * 1e3, 0.0
    with open(f"{variables['CCK_STORE']}/compilers/{os.listdir(variables['CCK_STORE'] + '/compilers')[0]}", encoding="utf-8") as file:
        words[3] = "--compiler=" + file.read().splitlines()[-1]
    said = subprocess.run(["valgrind", "--tool=callgrind", "--callgrind-out-file=/dev/null", *words], cwd=place, env=variables,
                          check=False, stdout=subprocess.DEVNULL, stderr=subprocess.PIPE).stderr.decode()
    return least * 1e3, int(re.search(r"Collected : (\d+)", said)[1]) / 1e6


def main():
    need_program()
    with tempfile.TemporaryDirectory() as room:
        place = f"{room}/project"
        os.makedirs(place)
        variables = dict(os.environ, CCK_PROGRAM=PROGRAM, CCK_STORE=f"{room}/store", CCK_LOG=f"{room}/log", LC_ALL="C")
        for number in range(HEADERS):
            write(place, f"h{number}.h", f"extern int h{number}(int);\n" * 100)
        write(place, "x.c", "".join(f'#include "h{number}.h"\n' for number in range(HEADERS)))
        first = None
        for state in range(max(NUMBERS)):
            said = compile_state(place, variables, state)
            if " recorded " not in said:
                sys.exit(f"not recorded: {said}")
            if state + 1 in NUMBERS:
                spent, instructions = measure(place, variables)
                first = first or (spent, instructions)
                line = f"{state + 1:3} entry files {spent:8.2f} ms ({spent / first[0]:.2f})"
                print(line + (f" {instructions:8.2f} million instructions ({instructions / first[1]:.2f})" if instructions else ""))


if __name__ == "__main__":
    main()
