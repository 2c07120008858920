#!/usr/bin/env python3
"""Changes of a file at each point of a call: at each system call that names one of the paths of a case, by whichever
process, the change is made at that call, once. `strace` stops the process there. The call is one that records, or one
that finds an object: this one has to make what the plain compiler makes of the files before the change or after it. What
the next two calls make, with the change and without it, has to be what the plain compiler makes then. The cases are in
`real/races.txt`. Run by hand; needs gcc, strace and the program (CCK_PROGRAM, by default the one that was proved and
built here). The last line is `real_races: N passed, M failed`."""
import argparse
import concurrent.futures
import os
import re
import shutil
import signal
import subprocess
import sys
import tempfile
import time

HERE = os.path.dirname(os.path.abspath(__file__))
sys.path.insert(0, os.path.join(HERE, "real"))
from calls import DIGESTS, PAUSE, PROGRAM, WRAPPER, need_program  # noqa: E402

# The line of strace that says that a process is stopped.
STOPPED = re.compile(rb"^(\d+) +--- stopped by SIGSTOP ---$", re.M)


class Case:
    """A project, a call, the paths at which the points are, and a change with what takes it back."""

    def __init__(self, name):
        self.name, self.files, self.call, self.paths, self.change, self.undo = name, [], [], [], [], []
        # The path of the compiler, where it is one of the project; and whether the call before the change is recorded.
        self.compiler, self.is_recorded = None, True


def cases_of(path):
    """The cases of a file: lines of a word and its arguments; a line `case` begins one."""
    cases = []
    with open(path, encoding="ascii") as file:
        for line in file:
            word, *rest = line.split(None, 1)[:2] if line.strip() and not line.startswith("#") else [""]
            rest = rest[0].rstrip("\n") if rest else ""
            if word == "case":
                cases.append(Case(rest))
            elif word in ("file", "link", "copy"):
                cases[-1].files.append((word, *rest.split(None, 1)))
            elif word == "compiler":
                cases[-1].compiler = rest
            elif word == "refused":
                cases[-1].is_recorded = False
            elif word in ("call", "paths"):
                setattr(cases[-1], word, rest.split())
            elif word in ("change", "undo"):
                getattr(cases[-1], word).append(rest.split(None, 2))
            elif word:
                sys.exit(f"{path}: {line}")
    return cases


class Room:
    """A directory with the project of a case, and a store."""

    def __init__(self, case, pause):
        self.case, self.pause, self.room = case, pause, tempfile.mkdtemp(prefix="cck-races-")
        self.place, self.log = f"{self.room}/project", f"{self.room}/log"
        self.variables = dict(os.environ, CCK_PROGRAM=PROGRAM, CCK_STORE=f"{self.room}/store", CCK_LOG=self.log, LC_ALL="C")
        os.makedirs(f"{self.room}/store")
        self.compiler = f"{self.place}/{case.compiler}" if case.compiler else "gcc"
        if not case.compiler:
            os.symlink(DIGESTS, f"{self.room}/store/compilers")
        for word, path, text in case.files:
            self.make("write" if word == "file" else word, path, text)
        time.sleep(pause)

    def make(self, word, path, text=""):
        """Makes a change: `write` a file where it is, `replace` what is at a path by a new file, `link` it, `copy` another
        file to it, `move` it to another path, or `remove` it."""
        path = f"{self.place}/{path}"
        os.makedirs(os.path.dirname(path), exist_ok=True)
        if word == "write":
            with open(path, "w", encoding="ascii") as file:
                file.write(text.replace("\\n", "\n"))
        elif word == "replace":
            with open(path + ".new", "w", encoding="ascii") as file:
                file.write(text.replace("\\n", "\n"))
            os.rename(path + ".new", path)
        elif word == "link":
            os.symlink(text, path + ".new")
            os.rename(path + ".new", path)
        elif word == "copy":
            shutil.copy(text, path)
        elif word == "move":
            os.rename(path, f"{self.place}/{text}")
        elif word == "remove":
            os.unlink(path)
        else:
            sys.exit(f"no change is called {word}")

    def made(self, done):
        """The status of a call, what it printed, and its object and dependency file, which are removed."""
        found = [done.returncode, done.stdout, done.stderr]
        for name in ("o", "d"):
            try:
                with open(f"{self.place}/{name}", "rb") as file:
                    found.append(file.read())
                os.unlink(f"{self.place}/{name}")
            except FileNotFoundError:
                found.append(None)
        return found

    def run(self, *front):
        """What a call makes."""
        words = [*front, self.compiler, "-MD", "-MF", "d", *self.case.call, "-o", "o"]
        how = {"cwd": self.place, "env": self.variables, "capture_output": True, "check": False}
        return self.made(subprocess.run(words, **how))

    def run_stopped(self, point):
        """What a call makes in which the change is made at the system call of this number, and how many there were. Where times
        have whole seconds the call begins with one, so that the change comes in the same second."""
        if self.pause >= 1:
            time.sleep(1 - time.time() % 1)
        trace = f"{self.room}/trace"
        paths = [word for path in self.case.paths for word in ("-P", f"{self.place}/{path}")]
        front = ["strace", "-f", "-o", trace, *paths, "-e", "trace=%file", "-e", "inject=%file:signal=SIGSTOP:when=1+", WRAPPER]
        words = [*front, self.compiler, "-MD", "-MF", "d", *self.case.call, "-o", "o"]
        with open(f"{self.room}/out", "wb") as out, open(f"{self.room}/err", "wb") as err:
            ran = subprocess.Popen(words, cwd=self.place, env=self.variables, stdout=out, stderr=err)
        seen = stops = 0
        while ran.poll() is None:
            time.sleep(0.001)
            if not os.path.exists(trace):
                continue
            with open(trace, "rb") as file:
                file.seek(seen)
                text = file.read()
            text = text[: text.rfind(b"\n") + 1]
            seen += len(text)
            for stopped in STOPPED.findall(text):
                stops += 1
                if stops == point:
                    for change in self.case.change:
                        self.make(*change)
                os.kill(int(stopped), signal.SIGCONT)
        os.unlink(trace)
        with open(f"{self.room}/out", "rb") as out, open(f"{self.room}/err", "rb") as err:
            texts = out.read(), b"".join(line for line in err if not line.startswith(b"strace: "))
        return self.made(subprocess.CompletedProcess(words, ran.returncode, *texts)), stops

    def has_logged(self, word):
        """Whether the log has a line of this kind."""
        with open(self.log, encoding="utf-8") as file:
            return any(line.split()[1].rstrip(":") == word for line in file)


def try_point(case, finds, point, pause):
    """What is wrong with the change at a point, if anything, and whether there is such a point. After a pause a file that
    was written is older than a look-up."""
    room = Room(case, pause)
    try:
        before = room.run()
        if finds:
            room.run(WRAPPER)
            if not room.has_logged("recorded"):
                return "the call is not recorded", False
        got, stops = room.run_stopped(point)
        if stops < point:
            return None, False
        after = room.run()
        # A call that records makes what the compiler makes of files that change meanwhile.
        if finds and got not in (before, after):
            return "the call itself", True
        time.sleep(pause)
        if room.run(WRAPPER) != after:
            return "the next call", True
        for change in case.undo:
            room.make(*change)
        time.sleep(pause)
        if room.run(WRAPPER) != room.run():
            return "the call after it was taken back", True
        return None, True
    finally:
        shutil.rmtree(room.room)


def try_all(case, finds, pause):
    """The points of a case, and what is wrong at which."""
    wrong, point = [], 0
    while True:
        why, is_one = try_point(case, finds, point + 1, pause)
        point += is_one
        if why:
            wrong.append((point, why))
        if not is_one:
            return case.name, finds, point, wrong


def main():
    reader = argparse.ArgumentParser(description=__doc__)
    reader.add_argument("names", nargs="*", help="the cases, by default all")
    reader.add_argument("--jobs", type=int, default=len(os.sched_getaffinity(0)))
    reader.add_argument("--pause", type=float, default=PAUSE, help="seconds after which files count as old: more than one where "
                        "TMPDIR is on a file system whose times have whole seconds")
    given = reader.parse_args()
    need_program()
    if not shutil.which("strace"):
        sys.exit("no program strace")
    cases = [case for case in cases_of(f"{HERE}/real/races.txt") if not given.names or case.name in given.names]
    passed = failed = 0
    with concurrent.futures.ThreadPoolExecutor(given.jobs) as pool:
        tries = [pool.submit(try_all, case, finds, given.pause) for case in cases
                 for finds in ((False, True) if case.is_recorded else (False,))]
        for done in tries:
            name, finds, points, wrong = done.result()
            how = "found" if finds else "recorded"
            for point, why in wrong:
                print(f"{name}, {how}, point {point}: {why}")
            if not points and not wrong:
                print(f"{name}, {how}: no point")
            failed += len(wrong) or not points
            passed += points - len(wrong) if points else 0
            print(f"{name}, {how}: {points} points", file=sys.stderr)
    print(f"real_races: {passed} passed, {failed} failed")
    return failed > 0


if __name__ == "__main__":
    sys.exit(main())
