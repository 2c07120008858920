#!/usr/bin/env python3
"""Builds of a project whose files change between states, as branches are switched: what the wrapper finds by one of the
entry files of a preprocessor key. Each object and dependency file is compared with the plain compiler's. Run by hand;
needs gcc and the program (CCK_PROGRAM, by default the one that was proved and built here). The last line is
`real_states: N passed, M failed`."""
import argparse
import collections
import concurrent.futures
import os
import shutil
import subprocess
import sys
import tempfile
import time

sys.path.insert(0, os.path.join(os.path.dirname(os.path.abspath(__file__)), "real"))
from calls import PAUSE, PROGRAM, WRAPPER, need_program  # noqa: E402

HEADERS, SOURCES = 6, 8
# The most entry files of a preprocessor key (crates/cck_cache_files/src/entry_names.rt).
ENTRY_FILES = 16


class Project:
    """A project of generated files. All of a room have one store."""

    def __init__(self, room, name="project"):
        self.room, self.place, self.log = room, f"{room}/{name}", f"{room}/log"
        self.store, self.options = f"{room}/store", []
        self.variables = dict(os.environ, CCK_PROGRAM=PROGRAM, CCK_STORE=self.store, CCK_LOG=self.log, LC_ALL="C")
        os.makedirs(self.place)

    def share(self):
        """Has the calls share objects with those of another project."""
        self.variables["CCK_BASEDIR"] = self.place
        self.options = [f"-ffile-prefix-map={self.place}=."]

    def write(self, name, text):
        """A new file in the place of this name, unless it has this text."""
        path = f"{self.place}/{name}"
        if os.path.exists(path):
            with open(path, encoding="ascii") as file:
                if file.read() == text:
                    return
            os.unlink(path)
        with open(path, "w", encoding="ascii") as file:
            file.write(text)

    def switch(self, state):
        """The files of a state: one header, and one source, differ from those of each other state."""
        for number in range(HEADERS):
            value = state if number == 0 else 0
            self.write(f"h{number}.h", f"#pragma once\nstatic inline int h{number}(void) {{ return {value}; }}\n")
        for number in range(SOURCES):
            names = [0, number % HEADERS] if number < SOURCES // 2 else [number % (HEADERS - 1) + 1]
            text = "".join(f'#include "h{name}.h"\n' for name in names)
            calls = " + ".join(f"h{name}()" for name in names)
            more = f" + {state}" if number == SOURCES - 1 else ""
            # The macro is of a header of the system: a line marker of this file says so.
            text += "#include <stddef.h>\nvoid *p = NULL;\n"
            self.write(f"s{number}.c", f"{text}int s{number}(void) {{ return {calls}{more}; }}\n")
        time.sleep(PAUSE)

    def compile(self, compiler, number, suffix):
        """Compiles a source, and returns what was made and printed."""
        words = [*compiler, "-O1", "-g", *self.options, "-MD", "-MT", "o", "-MF", f"s{number}.d{suffix}", "-c", f"s{number}.c", "-o", f"s{number}.o{suffix}"]
        done = subprocess.run(words, cwd=self.place, env=self.variables, capture_output=True, check=False)
        made = []
        for name in (f"s{number}.o{suffix}", f"s{number}.d{suffix}"):
            with open(f"{self.place}/{name}", "rb") as file:
                made.append(file.read())
            os.unlink(f"{self.place}/{name}")
        return done.returncode, done.stdout, done.stderr, made

    def build(self):
        """Builds all sources by both compilers. Returns whether all is the same."""
        return all(self.compile([WRAPPER, "gcc"], number, "") == self.compile(["gcc"], number, "2") for number in range(SOURCES))

    def logged(self):
        """How many calls the log has of each kind, which is then emptied."""
        if not os.path.exists(self.log):
            return collections.Counter()
        with open(self.log, encoding="utf-8") as file:
            words = collections.Counter(line.split()[1].rstrip(":") for line in file)
        os.unlink(self.log)
        return words

    def entry_files(self):
        """How many entry files there are of each preprocessor key."""
        names = [name for _, _, files in os.walk(f"{self.store}/entries") for name in files]
        return collections.Counter(name.split(".")[0] for name in names)


def two_branches(project):
    """Two states in turn, ten times each: after the second time nothing is compiled."""
    for turn in range(20):
        project.switch(turn % 2)
        same, words = project.build(), project.logged()
        if not same:
            return f"turn {turn}: another output"
        if turn >= 2 and words["hit"] != SOURCES:
            return f"turn {turn}: {dict(words)}"
    return None


def many_states(project):
    """More states than a key has entry files: the files are right, no key has more, and the last states are found."""
    for state in range(ENTRY_FILES + 4):
        project.switch(state)
        if not project.build():
            return f"state {state}: another output"
    project.logged()
    most = max(project.entry_files().values())
    if most != ENTRY_FILES:
        return f"a key has {most} entry files"
    for state in range(ENTRY_FILES + 3, ENTRY_FILES - 2, -1):
        project.switch(state)
        if not project.build():
            return f"state {state} again: another output"
    words = project.logged()
    # The first of these is in the last of the places.
    return None if words["hit"] == 5 * SOURCES else f"the last states: {dict(words)}"


def at_once(project):
    """Recordings of one key at once: each object is right, and the next call is a hit."""
    project.switch(0)
    with concurrent.futures.ThreadPoolExecutor(64) as pool:
        made = list(pool.map(lambda suffix: project.compile([WRAPPER, "gcc"], 0, f"x{suffix}")[0], range(64)))
    project.logged()
    if any(made):
        return f"status {made}"
    same, words = project.build(), project.logged()
    if not same or words["hit"] < 1:
        return f"afterwards: {same}, {dict(words)}"
    most = max(project.entry_files().values())
    return None if most <= 2 else f"a key has {most} entry files"


def removed(project):
    """An entry file that is not there, or is damaged, keeps no other one from being found, and is written anew."""
    for state in (0, 1, 2):
        project.switch(state)
        project.build()
    project.logged()
    for directory, _, names in os.walk(f"{project.store}/entries"):
        for name in names:
            if name.endswith(".1"):
                with open(f"{directory}/{name}", "wb") as file:
                    file.write(b"damaged")
            elif "." not in name and f"{name}.1" in names:
                os.unlink(f"{directory}/{name}")
    project.switch(2)
    same, words = project.build(), project.logged()
    if not same or words["hit"] != SOURCES:
        return f"the third state: {same}, {dict(words)}"
    for state in (0, 1, 0, 1):
        project.switch(state)
        if not project.build():
            return f"state {state}: another output"
    words = project.logged()
    changed = SOURCES // 2  # those that include the header: once where the file is damaged, and not where it is gone
    return None if words["hit"] == 4 * SOURCES - changed else f"the others: {dict(words)}"


def two_checkouts(project):
    """Two directories with one store: what is compiled in one is found by its text in the other, unless a comment differs."""
    other = Project(project.room, "other")
    for state in (0, 1):
        for one in (project, other):
            one.share()
            one.switch(state)
            if not one.build():
                return f"state {state}: another output"
            words = one.logged()
            if one is other and words["hit"] != SOURCES:
                return f"state {state}: {dict(words)}"
    other.write("h0.h", "#pragma once\n/* text */\nstatic inline int h0(void) { return 1; }\n")
    time.sleep(PAUSE)
    same, words = other.build(), other.logged()
    # The object of a source that includes the header is another one, since lines may differ.
    return None if same and words["recorded"] == SOURCES // 2 else f"a comment: {same}, {dict(words)}"


def definitions(project):
    """A macro that no file uses, of several values: each object is found by its text, and then by its entry."""
    project.switch(0)
    if not project.build():
        return "another output"
    project.logged()
    for value in range(3):
        project.options = [f"-DNONE={value}"]
        for turn in ("first", "second"):
            same, words = project.build(), project.logged()
            if not same or words["hit"] != SOURCES or (words["look"] != 0) != (turn == "first"):
                return f"value {value}, {turn} build: {same}, {dict(words)}"
    return None


def one_text(project):
    """A call that is compiled is preprocessed once, also where the input was recorded with other arguments or in another
    directory, and a call that is found by its text once too. Each text is judged by one `awk`."""
    tools, runs = f"{project.room}/tools", f"{project.room}/runs"
    os.mkdir(tools)
    with open(f"{tools}/awk", "w", encoding="ascii") as file:
        file.write(f'#!/bin/sh\necho >>{runs}\nexec {shutil.which("awk")} "$@"\n')
    os.chmod(f"{tools}/awk", 0o755)
    project.variables["PATH"] = f"{tools}:{project.variables['PATH']}"
    other = Project(project.room, "other/project")
    other.variables = project.variables
    for each in (project, other):
        each.switch(0)
    for each, options, kind in ((project, [], "recorded"), (project, ["-O2"], "recorded"), (other, [], "recorded"),
                                (project, ["-DNONE"], "hit"), (project, [], "hit"), (other, ["-O2"], "recorded")):
        each.options = options
        with open(runs, "w", encoding="ascii"):
            pass
        same, words = each.build(), each.logged()
        wanted = SOURCES if words["look"] else 0
        made = os.path.getsize(runs)
        if not same or words[kind] != SOURCES or made != wanted:
            return f"{each.place} with {options}: {same}, {dict(words)}, {made} texts"
    # After a change of a header too, where there is a base directory and the change is of no other directory.
    project.share()
    for state in range(3):
        project.switch(state)
        with open(runs, "w", encoding="ascii"):
            pass
        same, words = project.build(), project.logged()
        if not same or words["recorded"] == 0 or os.path.getsize(runs) != words["recorded"]:
            return f"state {state}: {same}, {dict(words)}, {os.path.getsize(runs)} texts"
    return None


TESTS = (two_branches, many_states, at_once, removed, two_checkouts, definitions, one_text)


def main():
    parser = argparse.ArgumentParser(description=__doc__)
    parser.add_argument("names", nargs="*", help="the tests that are run, by default all: " + ", ".join(test.__name__ for test in TESTS))
    names = parser.parse_args().names
    need_program()
    failed = passed = 0
    for test in TESTS:
        if names and test.__name__ not in names:
            continue
        room = tempfile.mkdtemp()
        try:
            said = test(Project(room))
        finally:
            shutil.rmtree(room, ignore_errors=True)
        if said:
            print(f"FAILED: {test.__name__}: {said}")
        failed, passed = failed + bool(said), passed + (not said)
    print(f"real_states: {passed} passed, {failed} failed")
    return bool(failed)


if __name__ == "__main__":
    sys.exit(main())
