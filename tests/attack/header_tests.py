#!/usr/bin/env python3
"""Tests the rules for tests of headers with random sources: conditions of odd tokens, macros, comments and splices,
with one file that appears, goes or becomes a directory between two calls of the wrapper. The last line is
`header_tests: N passed, M failed`: so many second calls were compared with gcc. One fails whose object, dependency
file, messages or status are not gcc's; the case is reduced, and printed as a script of a shell. Where nothing was
compared the status is 1 too.

Only a case of which gcc succeeds, and prints another text after the change, comes to the wrapper. Each case has its own
source of random numbers, from the seed and its number. Run by hand; needs gcc and the program (CCK_PROGRAM, by default
the one that was proved and built here)."""
import argparse
import collections
import concurrent.futures
import os
import shlex
import shutil
import subprocess
import sys
import tempfile
import time

sys.path.insert(0, os.path.join(os.path.dirname(os.path.dirname(os.path.abspath(__file__))), "real"))
from calls import PAUSE, PROGRAM, WRAPPER, need_program, remove  # noqa: E402
from header_cases import Generator  # noqa: E402

BLOCK = 50
SHRINK_SECONDS = 120
COUNTS = ("failing", "equal", "differing", "refused", "miss", "hit")
OUTPUTS = ("status", "output", "messages", "object", "dependency file")


class Room:
    """A directory with the files of a case, and a store."""

    def __init__(self, top):
        self.tree, self.store = top + "/w", top + "/store"
        self.variables = {"PATH": os.environ["PATH"], "HOME": top, "TMPDIR": top, "LC_ALL": "C.UTF-8",
                          "CCK_STORE": self.store, "CCK_PROGRAM": PROGRAM}
        # A program that was built with checks reads this one.
        self.variables.update({name: os.environ[name] for name in ("ASAN_OPTIONS",) if name in os.environ})

    def write(self, case):
        """Writes the files of the first state."""
        shutil.rmtree(self.tree, ignore_errors=True)
        for path, contents in sorted(case.files.items()):
            place = f"{self.tree}/{path}"
            os.makedirs(place if contents is None else os.path.dirname(place), exist_ok=True)
            if contents is not None:
                with open(place, "wb") as file:
                    file.write(contents)

    def change(self, case):
        place = f"{self.tree}/{case.path}"
        remove(place)
        os.makedirs(place if case.change == "directory" else os.path.dirname(place), exist_ok=True)
        if case.change == "file":
            open(place, "wb").close()
        elif case.change == "precompiled":
            self.call([], case, ["-x", "c-header", "/dev/null", "-o", case.path])

    def call(self, before, case, after):
        """What a call does: its status, what it prints, and its outputs."""
        for name in ("x.o", "x.d"):
            remove(f"{self.tree}/{name}")
        words = [*before, "gcc", *(word for option in case.options for word in option), *after]
        done = subprocess.run(words, cwd=self.tree, env=self.variables, stdin=subprocess.DEVNULL, capture_output=True,
                              check=False)
        return done.returncode, done.stdout, done.stderr, *(self.contents(name) for name in ("x.o", "x.d"))

    def contents(self, name):
        if not os.path.exists(f"{self.tree}/{name}"):
            return None
        with open(f"{self.tree}/{name}", "rb") as file:
            return file.read()

    def counted(self):
        """The store's counts."""
        place = self.store + "/counts"
        return {name: os.path.getsize(f"{place}/{name}") for name in os.listdir(place)} if os.path.isdir(place) else {}

    def cached(self, case):
        """What the wrapper does, and what it counts."""
        before, done = self.counted(), self.call([WRAPPER], case, ["-c", "x.c"])
        return done, {name for name, size in self.counted().items() if size != before.get(name)}

    def judge(self, case):
        """What comes of a case: the names of its counts, and what is not gcc's after the change."""
        self.write(case)
        first = self.call([], case, ["-E", "x.c"])
        if first[0] != 0:
            return ["failing"], []
        self.change(case)
        if self.call([], case, ["-E", "x.c"]) == first:
            return ["equal"], []
        for kind in ("entries", "objects"):
            remove(f"{self.store}/{kind}")
        self.write(case)
        time.sleep(PAUSE)
        if "recorded" not in self.cached(case)[1]:
            return ["differing", "refused"], []
        self.change(case)
        time.sleep(PAUSE)
        got, counted = self.cached(case)
        wanted = self.call([], case, ["-c", "x.c"])
        wrong = [name for name, one, other in zip(OUTPUTS, got, wanted) if one != other]
        return ["differing", "compared", "hit" if "hit" in counted else "miss"], wrong


def shrink(room, case):
    """The smallest case that this finds within some time, of which an output is not gcc's."""
    end, changed = time.time() + SHRINK_SECONDS, True
    while changed:
        changed = False
        for without in removals(case):
            smaller = without(case)
            if smaller != case and time.time() < end and room.judge(smaller)[1]:
                case, changed = smaller, True
    return case


def removals(case):
    """Functions that leave out an option, a file, or some lines of a file, from its end to its beginning."""
    for option in case.options[1:]:
        yield lambda now, option=option: now._replace(options=[other for other in now.options if other != option])
    for path, contents in case.files.items():
        if path != "x.c":
            yield lambda now, path=path: now._replace(files={
                other: now.files[other] for other in now.files if other != path})
        for length in (8, 4, 2, 1):
            for at in range(len((contents or b"").splitlines()) - 1, -1, -length):
                yield lambda now, cut=(path, max(0, at - length + 1), length): without_lines(now, *cut)


def without_lines(case, path, at, length):
    """A case without these lines of a file, if it has the file."""
    if case.files.get(path) is None:
        return case
    lines = case.files[path].splitlines(keepends=True)
    return case._replace(files={**case.files, path: b"".join(lines[:at] + lines[at + length:])})


def script(case, wrong):
    """The lines of a script of a shell, which is run in an empty directory."""
    yield "mkdir w; cd w"
    for path, contents in sorted(case.files.items()):
        if contents is None:
            yield f"mkdir -p {path}"
        else:
            text = "".join(chr(byte) if 32 <= byte < 127 and byte not in b"'\\%" else f"\\{byte:03o}"
                           for byte in contents)
            yield f"mkdir -p $(dirname {path}); printf '{text}' >{path}"
    words = "gcc " + shlex.join(word for option in case.options for word in option)
    yield f"sleep 0.1; cckcc {words} -c x.c"
    yield {"goes": f"rm -r {case.path}", "directory": f"rm -rf {case.path}; mkdir -p {case.path}",
           "file": f"mkdir -p $(dirname {case.path}); true >{case.path}",
           "precompiled": f"{words} -x c-header /dev/null -o {case.path}"}[case.change]
    yield f"sleep 0.1; cckcc {words} -c x.c; mv x.o cached.o; {words} -c x.c; cmp x.o cached.o  # {', '.join(wrong)}"


def run_block(job):
    """The counts of a block of cases, and the lines of its failures."""
    seed, block, count = job
    counts, lines = collections.Counter(), []
    top = os.path.realpath(tempfile.mkdtemp(prefix="cck-"))
    try:
        room = Room(top)
        for number in range(block * BLOCK, min(count, (block + 1) * BLOCK)):
            case = Generator(f"{seed}.{number}").case()
            names, wrong = room.judge(case)
            counts.update(["made", *names, *(["failed"] if wrong else [])])
            if wrong:
                lines.append(f"FAILED: case {seed}.{number}: a {names[-1]}: {', '.join(wrong)}")
                lines += ["    " + line for line in script(shrink(room, case), wrong)]
    finally:
        shutil.rmtree(top, ignore_errors=True)
    return counts, lines


def main():
    parser = argparse.ArgumentParser(description=__doc__)
    parser.add_argument("--seed", default="1", help="what decides the cases")
    parser.add_argument("--count", type=int, default=5000, help="how many cases are made")
    parser.add_argument("--jobs", type=int, default=1, help="cases side by side")
    options = parser.parse_args()
    need_program()
    start, counts = time.time(), collections.Counter()
    jobs = [(options.seed, block, options.count) for block in range(-(-options.count // BLOCK))]
    with concurrent.futures.ProcessPoolExecutor(options.jobs) as pool:
        for found, lines in pool.map(run_block, jobs):
            counts.update(found)
            print("".join(line + "\n" for line in lines), end="", flush=True)
    print(f"{counts['made']} cases in {time.time() - start:.0f} seconds: " + ", ".join(
        f"{name} {counts[name]}" for name in COUNTS))
    print(f"header_tests: {counts['compared'] - counts['failed']} passed, {counts['failed']} failed")
    sys.exit(1 if counts["failed"] or not counts["compared"] else 0)


if __name__ == "__main__":
    main()
