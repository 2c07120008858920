#!/usr/bin/env python3
"""Random projects, and random changes between calls: each call by the plain compiler and by the wrapper, compared in
all outputs (status, what is printed, files with their modes). A difference is shrunk to the smallest list of steps
and printed as a script of a shell. Run by hand; needs gcc and the program (CCK_PROGRAM, by default the one that was
proved and built here). The last line is `real_random: N passed, M failed`.

With --planted programs with an error stand before the program, and each has to be found: the last line is
`all found`."""
import argparse
import collections
import concurrent.futures
import json
import os
import subprocess
import sys
import tempfile
import time
import types

sys.path.insert(0, os.path.join(os.path.dirname(os.path.abspath(__file__)), "real"))
from calls import PROGRAM, need_program  # noqa: E402
from history import Fresh, Shrink, play, script  # noqa: E402
from projects import CALLS, Project  # noqa: E402

COUNTS = ("hit", "miss", "passed", "refused", "other", "unstable")
# Programs that stand before the program, each with an error, by what it is.
PLANTED = {
    "a directory is left out of the list that `record` reads": """
        if [ "$1" = record ]; then
            for word; do
                case $word in
                --search=*) sed -i '/^#include <[.][.][.]> search starts here:/{n;d;}' "${word#--search=}" ;;
                esac
            done
        fi""",
    "the options -O are left out of the arguments": """
        for word; do
            shift
            case $word in
            -O*) ;;
            *) set -- "$@" "$word" ;;
            esac
        done""",
    "a file that changed while the call ran is recorded": """
        for word; do
            shift
            case $word in
            --since=*) word=${word#--since=}; set -- "$@" "--since=$((${word%.*} + 300)).${word#*.}" ;;
            *) set -- "$@" "$word" ;;
            esac
        done""",
}


def arguments():
    parser = argparse.ArgumentParser(description=__doc__)
    parser.add_argument("--seed", default="1", help="what decides the projects")
    parser.add_argument("--steps", type=int, default=1000, help="how many calls are made")
    parser.add_argument("--compiler", default="gcc")
    parser.add_argument("--jobs", type=int, default=1, help="projects side by side")
    parser.add_argument("--keep", metavar="DIRECTORY", help="write the history of each failure to a file there; where it "
                        "has a file `stop`, no further project begins")
    parser.add_argument("--replay", metavar="FILE", help="play the history of a file")
    parser.add_argument("--shrink-seconds", type=float, default=60, help="the time to shrink one failure")
    parser.add_argument("--plain", action="store_true", help="no project has a theme")
    parser.add_argument("--planted", action="store_true", help="look for planted errors instead, each in so many calls")
    return parser.parse_args()


def played(options, name, steps, project):
    """Plays a project up to its first difference: the counts, and the lines of a report."""
    counts, failure = collections.Counter(), None
    with Fresh() as room:
        for place, judged in play(steps, options.compiler, room):
            project.failed = judged.wanted.status != 0
            counts[judged.verdict] += 1
            counts["unstable"] += not judged.is_stable
            counts.update([f"{project.about} call", f"{project.about} {judged.verdict}"])
            counts["differing" if judged.differing else "equal"] += 1
            if judged.differing:
                failure = place, judged
                break
    if not failure:
        return counts, []
    return counts, report(options, name, project.history[:failure[0] + 1], failure[1])


def report(options, name, history, judged):
    """The lines of a report, and a file of the history if that is wished."""
    shrunk = Shrink(history, judged, options.compiler, options.shrink_seconds)
    differing = ", ".join(judged.differing)
    lines = [f"FAILED: project {name}, step {len(history)}: a {judged.verdict}: {differing} differs"]
    if not shrunk.holds:
        lines.append("# not seen again")
    lines += ["    " + line for line in script(shrunk.history, shrunk.judged, options.compiler)]
    if options.keep:
        os.makedirs(options.keep, exist_ok=True)
        path = os.path.join(options.keep, f"{name}.json")
        with open(path, "w", encoding="utf-8") as file:
            json.dump({"compiler": options.compiler, "history": shrunk.history, "whole": history}, file)
        lines.append(f"    # {path}")
    return lines


def project(options, name):
    """Plays a random project, unless the run is to end."""
    made = Project(name, options.plain)
    is_over = options.keep and os.path.exists(options.keep + "/stop")
    return played(options, name, [] if is_over else made.steps(), made)


def replay(options):
    """Plays the history of a file."""
    with open(options.replay, encoding="utf-8") as file:
        read = json.load(file)
    options.compiler = read["compiler"]
    return played(options, "replay", read["history"], types.SimpleNamespace(history=read["history"], about="replay"))


def play_all(options):
    """Plays random projects, some side by side, and gives what came of each."""
    names = [f"{options.seed}.{number}" for number in range(-(-options.steps // CALLS))]
    with concurrent.futures.ProcessPoolExecutor(options.jobs) as pool:
        waiting = [pool.submit(project, options, name) for name in names]
        for done in concurrent.futures.as_completed(waiting):
            yield done.result()


def shows(path, program):
    """Whether a program shows a difference in the history of a file."""
    return subprocess.run([sys.executable, os.path.abspath(__file__), "--replay", path, "--shrink-seconds", "0"],
                          env={**os.environ, "CCK_PROGRAM": program}, capture_output=True, check=False).returncode != 0


def find(options, program, directory):
    """Plays random projects with a program that has an error, and prints the first difference that the program without
    the error does not have. It returns whether there is one."""
    words = ["--plain", "--keep", directory] + [word for name in ("seed", "steps", "jobs", "compiler") for word in (
        f"--{name}", str(getattr(options, name)))] + ["--shrink-seconds", str(options.shrink_seconds)]
    run = subprocess.Popen([sys.executable, os.path.abspath(__file__), *words], env={**os.environ, "CCK_PROGRAM": program},
                           stdout=subprocess.PIPE, text=True)
    is_found, lines = False, []
    for line in run.stdout:
        lines = [line] if line.startswith("FAILED") else lines + [line]
        path = line.strip()[2:]
        if path.startswith(directory) and shows(path, program) and not shows(path, PROGRAM):
            print("".join(lines), end="")
            is_found = True
            break
    open(directory + "/stop", "wb").close()
    run.communicate()
    return is_found


def find_planted(options):
    """Looks for each planted error, and returns how many were not found."""
    missing = 0
    for what, text in PLANTED.items():
        with tempfile.TemporaryDirectory(prefix="cck-") as directory:
            program = directory + "/cck_cache"
            with open(program, "w", encoding="utf-8") as file:
                file.write(f'#!/bin/sh{text}\nexec "{PROGRAM}" "$@"\n')
            os.chmod(program, 0o755)
            start = time.time()
            is_found = find(options, program, directory)
        missing += not is_found
        print(f"{'found' if is_found else 'FAILED: not found'}: {what} ({time.time() - start:.0f} seconds)", flush=True)
    return missing


def main():
    options = arguments()
    need_program()
    if options.planted:
        missing = find_planted(options)
        print(f"{missing} not found" if missing else "all found")
        sys.exit(1 if missing else 0)
    start, counts = time.time(), collections.Counter()
    for found, lines in [replay(options)] if options.replay else play_all(options):
        counts += found
        if lines:
            print("\n".join(lines), flush=True)
    calls = counts["equal"] + counts["differing"]
    print(f"{calls} calls in {time.time() - start:.0f} seconds: " + ", ".join(
        f"{name} {counts[name]}" for name in COUNTS))
    print("hits of calls by what a project is about: " + ", ".join(
        f"{name[:-5]} {counts[name[:-4] + 'hit']} of {counts[name]}" for name in sorted(counts) if name.endswith(" call")))
    if 4 * counts["hit"] < calls and calls >= 200:
        print("fewer than a quarter of the calls were hits: this run tests little")
    print(f"real_random: {counts['equal']} passed, {counts['differing']} failed")
    sys.exit(1 if counts["differing"] else 0)


if __name__ == "__main__":
    main()
