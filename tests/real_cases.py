#!/usr/bin/env python3
"""A table of calls, tests/real/cases.txt: what the wrapper does in each, and that all its outputs (status, what is
printed, files with their modes) are the plain compiler's. Where ccache is installed its outputs are compared too,
and reported. A case that is known to escape is reported too, and does not fail. Run by hand; needs gcc and the program
(CCK_PROGRAM, by default the one that was proved and built here). With --compiler g++ or clang++ all inputs are in C++, and the
outputs alone are compared: the verdicts of the table are those of gcc. With --compiler clang the cases of
tests/real/clang.txt come before them, whose verdicts are clang's. The last line is
`real_cases: N passed, M failed`."""
import argparse
import concurrent.futures
import os
import shutil
import subprocess
import sys
import tempfile
import time

sys.path.insert(0, os.path.join(os.path.dirname(os.path.abspath(__file__)), "real"))
from calls import PAUSE, TOP, WRAPPER, Room, difference, need_program, remove  # noqa: E402
from projects import unescape  # noqa: E402

TABLE, CLANG_TABLE = TOP + "/tests/real/cases.txt", TOP + "/tests/real/clang.txt"
COMPILER, CLANG = "gcc", "clang"
VERDICTS = ("hit", "miss", "passed", "refused", "escapes")


def cases(table):
    """The cases of a table: name, files, call, change, call again, and the verdicts that are right."""
    texts, found = {}, []
    with open(table, encoding="utf-8") as file:
        for line in file:
            line = line.rstrip("\n")
            if line.startswith("let "):
                name, text = line[4:].split(" = ", 1)
                texts["{" + name + "}"] = text
            elif line and line[0] != "#":
                for name, text in texts.items():
                    line = line.replace(name, text)
                fields = ["" if field == "-" else field.strip() for field in line.split(" | ")]
                if len(fields) != 6 or fields[0] in [case[0] for case in found]:
                    sys.exit(f"{table}: no case, or a name that there is: {line}")
                found.append(fields)
    return found


def plusplus(compiler):
    """The compiler for C++ of these words, which end in the name of a compiler."""
    if compiler.endswith("++"):
        return compiler
    return compiler + "++" if compiler.endswith(CLANG) else compiler.removesuffix(COMPILER) + "g++"


def do(items, place, variables):
    """Does what the items of a field say, in a directory."""
    for item in filter(None, items.split(" ++ ")):
        name, is_file, contents = (unescape(part) for part in item.partition(": "))
        if name.startswith("! "):
            subprocess.run(["sh", "-c", unescape(item[2:])], cwd=place, env=variables, check=True, capture_output=True)
        elif not is_file and " -> " in name:
            name, to = name.split(" -> ")
            remove(f"{place}/{name}")
            os.makedirs(os.path.dirname(f"{place}/{name}"), exist_ok=True)
            os.symlink(to, f"{place}/{name}")
        elif not is_file and name.endswith("/"):
            os.makedirs(f"{place}/{name}", exist_ok=True)
        else:
            name = name if is_file else name.rstrip(":")
            os.makedirs(os.path.dirname(f"{place}/{name}"), exist_ok=True)
            with open(f"{place}/{name}", "w", encoding="utf-8") as file:
                file.write(contents + "\n" if contents else "")


class Case:
    """One case in a room: what was not right of its calls."""

    def __init__(self, room, fields, is_judged, compiler, tools, with_ccache):
        _, files, self.line, change, again, right = fields
        self.room, self.wrong, self.verdicts, self.with_ccache, self.others = room, [], [], with_ccache, []
        self.escapes, self.compiler, self.is_judged = False, compiler, is_judged
        self.variables = {**room.variables, **tools, "CC": compiler, "CACHED": f"{WRAPPER} {compiler}"}
        second, _, last = right.rpartition(", ")
        self.act(files)
        self.call("first", None)
        if not change and not again:
            self.call("second", last)
            return
        self.call("second", second)
        self.act(change)
        self.line = again or self.line
        self.call("last", last)

    def act(self, items):
        place = self.room.root + "/w"
        os.makedirs(place, exist_ok=True)
        try:
            do(items, place, self.variables)
        except (OSError, subprocess.CalledProcessError) as error:
            self.wrong.append(f"not done: {error}")
        time.sleep(PAUSE)

    def words(self, compiler):
        """The call by a compiler, as a line of a shell."""
        line = unescape(self.line)
        if "$CXX" in line:
            return ["sh", "-c", line.replace("$CXX", plusplus(compiler))]
        return ["sh", "-c", line.replace("$CC", compiler) if "$CC" in line else f"{compiler} {line}"]

    def call(self, name, right):
        """Makes a call by the plain compiler and by the wrapper, and keeps what was not right."""
        judged = self.room.judge((self.words(self.compiler), "w", {}, 0o022), self.words(f"{WRAPPER} {self.compiler}"))
        self.verdicts.append(judged.verdict)
        if right == "escapes":
            self.escapes = bool(judged.differing)
        elif judged.differing:
            self.wrong.append(f"{name} ({judged.verdict}): {', '.join(judged.differing)}")
        elif right and self.is_judged and judged.verdict not in right.split("/"):
            self.wrong.append(f"{name} is {judged.verdict}, not {right}")
        if self.with_ccache:
            other = self.room.run(self.words(f"ccache {self.compiler}"), "w", {}, 0o022)
            self.others = difference(judged.wanted, other)


def build(directory):
    """The programs that cases use, by the variables that name them."""
    sources = TOP + "/tests/real/"
    subprocess.run([COMPILER, "-O1", "-o", directory + "/stub", sources + "stub.c"], check=True)
    subprocess.run([COMPILER, "-O1", "-shared", "-fPIC", "-o", directory + "/whole.so", sources + "whole.c", "-ldl"],
                   check=True)
    return {"STUB": directory + "/stub", "WHOLE": directory + "/whole.so"}


def run(case, is_judged, compiler, tools, with_ccache):
    """Runs a case in a room of its own."""
    directory = tempfile.mkdtemp(prefix="cck-")
    try:
        return Case(Room(directory), case, is_judged, compiler, tools, with_ccache)
    finally:
        shutil.rmtree(directory, ignore_errors=True)


def arguments():
    parser = argparse.ArgumentParser(description=__doc__)
    parser.add_argument("names", nargs="*", help="parts of the names of cases, by default all")
    parser.add_argument("--compiler", default=COMPILER)
    parser.add_argument("--jobs", type=int, default=1, help="cases side by side")
    return parser.parse_args()


def main():
    options = arguments()
    need_program()
    tables = [(TABLE, options.compiler == COMPILER)]
    if options.compiler == CLANG:
        tables.insert(0, (CLANG_TABLE, True))
    chosen = [(case, is_judged) for table, is_judged in tables for case in cases(table)
              if not options.names or any(part in case[0] for part in options.names)]
    for case, _ in chosen:
        if not set(case[5].replace(", ", "/").split("/")) <= set(VERDICTS):
            sys.exit(f"{TABLE}: no verdict: {case[5]}")
    with_ccache = shutil.which("ccache")
    failed = others = escaped = hits = 0
    with tempfile.TemporaryDirectory(prefix="cck-") as directory, concurrent.futures.ThreadPoolExecutor(
            options.jobs) as pool:
        tools = build(directory)
        for (case, _), done in zip(chosen, pool.map(
                lambda chosen: run(*chosen, options.compiler, tools, with_ccache), chosen)):
            failed += bool(done.wrong)
            others += bool(done.others)
            escaped += done.escapes
            hits += done.verdicts.count("hit")
            said = f"FAILED: {case[0]}: {'; '.join(done.wrong)}"
            said = said if done.wrong else f"{case[0]}: {', '.join(done.verdicts)}{' (escapes)' * done.escapes}"
            print(said + (f" [ccache: {', '.join(done.others)}]" if done.others else ""), flush=True)
    if with_ccache:
        print(f"ccache: {others} with another output than {options.compiler}'s")
    if escaped:
        print(f"known to escape: {escaped}")
    print(f"hits: {hits}")
    print(f"real_cases: {len(chosen) - failed - escaped} passed, {failed} failed")
    sys.exit(1 if failed else 0)


if __name__ == "__main__":
    main()
