#!/usr/bin/env python3
"""Checks the tables of options, in crates/cck_cache_options/src/gcc.rt and clang.rt, by themselves and by the compilers that
are installed. Run by hand: options.py [--missing]. Needs gcc, g++ and clang; the tables were made for gcc 12 and clang 14 on
x86-64.

- Each line has a name, a form and a class that the program knows, and no two have one name and form. A line
  that is spelled wrongly has no row in the program, so that its option is unknown there.
- An option whose value may be joined to its name is not the beginning of another option: each longer option
  that the compiler prints has a row of its own. Otherwise the program would read it as the shorter one with a value. Of
  clang, `-W` is not the beginning of others: each is an option of warnings.
- The compiler accepts each option without a value that a cached call may have, for a source in C, for one in C++ and, if it
  is gcc, for assembler code.
- With each option that the preprocessor is given, with some values, the warning of a time macro by which the wrapper
  knows one (-Wdate-time) is on one line, if the compiler accepts the option; and the class of options with which it is not is
  of no other option.
- gcc refuses `-Wno-` before an option that is none of warnings (-Wa, -Wl, -Wp,), so that it is not read as that option.

With --missing it prints the options that the tables do not have: calls with them are passed on. The last line is
`options: N passed, M failed`, of rows.
"""

import collections
import os
import re
import subprocess
import sys
import tempfile

TOP = os.path.join(os.path.dirname(os.path.abspath(__file__)), "..")
TABLES = os.path.join(TOP, "crates", "cck_cache_options", "src")
LISTS = (
    "common", "c", "c++", "objc", "objc++", "d", "fortran", "go", "ada", "lto", "target", "optimizers", "params",
    "warnings",
)
# Options that gcc takes and prints in no list, and those that clang prints and takes as clang-cl alone.
HIDDEN = ("-I-",)
CLANG_CL = ("-MTd", "-openmp", "-openmp-", "-openmp:experimental")
# The classes of options that the preprocessor is given, and that of options that it is not given for its warnings.
PREPROCESSED = ("text", "definition", "code", "message", "directory", "language")
SILENCING = "compiler-message"
# Values that are tried with each option that has one.
VALUES = ("0", "1", "20", "x", "always", "none")
# The suffixes of sources in C, of those in C++ and of assembler code, with a small source of each, and one with a time macro.
SOURCE, TIMED = "int small;\n", "const char *time = __TIME__;\n"
SUFFIXES = {".c": (SOURCE, TIMED), ".cc": (SOURCE, TIMED), ".S": (".data\n", ".ascii __TIME__\n")}
# A compiler: its name, its table and the table's name, how it warns of a time macro, the suffixes of its inputs, and the options
# with a joined value that are not looked at as beginnings of others.
Compiler = collections.namedtuple("Compiler", "name file table warning suffixes whole")
GCC = Compiler("gcc", "gcc.rt", "GCC", "might prevent reproducible builds", list(SUFFIXES), ())
CLANG = Compiler("clang", "clang.rt", "CLANG", "time macro is not reproducible", [".c", ".cc"], ("-W",))
# What is no option of warnings, after -W.
NO_WARNINGS = ("a,-L", "l,-x", "p,-w", "p,-MD,small.d")


def text_of(name):
    with open(os.path.join(TABLES, name), encoding="utf-8") as file:
        return file.read()


def table(compiler):
    literal = re.search(compiler.table + r': &\[u8\] = b"\\\n(.*)";', text_of(compiler.file), re.S).group(1)
    lines = literal.split("\\n\\\n")
    assert lines.pop() == "", "the last line has no end"
    return lines


def rows_of(lines, faults):
    words = set(re.findall(r'(?:is|matches!)\(name, b"([a-z-]+)"\)', text_of("table.rt")))
    forms = {"alone", "joined", "separate", "either", "equals"}
    classes = words - forms
    rows = []
    for line in lines:
        fields = line.split(" ")
        if len(fields) != 3 or not fields[0].startswith("-") or fields[1] not in forms or fields[2] not in classes:
            faults.append(f"no row: {line!r}")
        elif (fields[0], fields[1]) in ((name, form) for name, form, _ in rows):
            faults.append(f"two rows: {line!r}")
        else:
            rows.append(tuple(fields))
    return rows


def printed(compiler):
    if compiler is CLANG:
        done = subprocess.run(["clang", "--autocomplete=-"], capture_output=True, text=True)
        return {line.split("\t")[0] for line in done.stdout.splitlines()} - set(CLANG_CL)
    names = set(HIDDEN)
    for name in LISTS:
        for kind in ("", "joined,", "separate,", "undocumented,"):
            done = subprocess.run(["gcc", f"--help={kind}{name}"], capture_output=True, text=True)
            names.update(re.split(r"[<\[]", word)[0] for word in re.findall(r"^  (-\S+)", done.stdout, re.M))
    return names


def is_passed(row):
    return row[2].startswith("passed-")


def longer(compiler, rows, names):
    own = {name for name, _, _ in rows} | {name + "=" for name, form, _ in rows if form == "equals"}
    begun = [name for name, form, _ in rows if form in ("joined", "either")]
    for row in rows:
        name, form, _ = row
        if form in ("joined", "either") and not is_passed(row) and name not in compiler.whole:
            for other in sorted(names - own):
                is_own = other.split("=")[0] in own or any(other.startswith(one) and len(one) > len(name) for one in begun)
                if other.startswith(name) and other != name and not is_own:
                    yield f"{other} would be {name} with a value"


def refused(compiler, rows, suffix):
    with tempfile.TemporaryDirectory() as room:
        path = os.path.join(room, "small" + suffix)
        with open(path, "w", encoding="utf-8") as file:
            file.write(SUFFIXES[suffix][0])
        for row in rows:
            if row[1] == "alone" and not is_passed(row) and not row[0].startswith("-M"):
                done = subprocess.run(
                    [compiler.name, row[0], "-c", path, "-o", os.path.join(room, "small.o")], capture_output=True
                )
                if done.returncode != 0:
                    yield f"{compiler.name} refuses {row[0]} for *{suffix}"


def shows_warning(compiler, words, path):
    """Whether the preprocessor prints the warning of a time macro on one line, by the call of the wrapper. None where
    it refuses these words."""
    call = [compiler.name, *words, path, "-Wdate-time", "-Wsystem-headers", "-Wno-error", "-E", "-o", os.devnull]
    done = subprocess.run(call, capture_output=True, text=True, errors="replace", env={**os.environ, "LC_ALL": "C"})
    return None if done.returncode else compiler.warning in done.stderr


def has_markers(compiler, words, path):
    """Whether the preprocessor writes line markers."""
    done = subprocess.run([compiler.name, *words, path, "-E"], capture_output=True, text=True, errors="replace")
    return any(line.startswith("# ") for line in done.stdout.splitlines())


def words_of(row):
    """The words of an option, with each value that is tried."""
    name, form, _ = row
    if form == "alone":
        return [[name]]
    if form == "separate":
        return [[name, value] for value in VALUES]
    return [[name + ("=" if form == "equals" else "") + value] for value in VALUES]


def silenced(compiler, rows, suffix):
    with tempfile.TemporaryDirectory() as room:
        path = os.path.join(room, "time" + suffix)
        with open(path, "w", encoding="utf-8") as file:
            file.write(SUFFIXES[suffix][1])
        for row in rows:
            if row[2] in PREPROCESSED + (SILENCING,):
                hiding = [words for words in words_of(row) if shows_warning(compiler, words, path) is False]
                if row[2] != SILENCING:
                    yield from (f"{compiler.name}: the warning of a time macro is not on one line with {' '.join(words)} for "
                                f"*{suffix}" for words in hiding)
                elif suffix == ".c" and not hiding and all(has_markers(compiler, words, path) for words in words_of(row)):
                    yield (f"{compiler.name}: the warning of a time macro and the line markers are as they have to be with "
                           f"{row[0]}")


def negated():
    with tempfile.TemporaryDirectory() as room:
        with open(os.path.join(room, "small.c"), "w", encoding="utf-8") as file:
            file.write(SOURCE)
        for ending in NO_WARNINGS:
            done = subprocess.run(["gcc", "-Wno-" + ending, "-c", "small.c"], capture_output=True, cwd=room)
            if done.returncode == 0:
                yield f"gcc accepts -Wno-{ending}"


def check(compiler, faults):
    """Checks the table of a compiler. Returns the number of its rows."""
    lines = table(compiler)
    rows = rows_of(lines, faults)
    names = printed(compiler)
    if len(names) < 1000:
        faults.append(f"{compiler.name} prints only {len(names)} options")
    faults += longer(compiler, rows, names)
    for suffix in compiler.suffixes:
        faults += refused(compiler, rows, suffix)
        faults += silenced(compiler, rows, suffix)
    known = {name for name, _, _ in rows}
    missing = sorted(name for name in names if name.rstrip("=") not in known and name.split("=")[0] not in known)
    if "--missing" in sys.argv[1:]:
        print("\n".join(missing))
    print(f"{len(rows)} rows of {len(lines)} lines, {len(names)} options of {compiler.name}, {len(missing)} without a row")
    return len(rows)


def main():
    faults = []
    count = sum(check(compiler, faults) for compiler in (GCC, CLANG))
    faults += negated()
    for fault in faults:
        print(f"FAILED: {fault}")
    print(f"options: {max(0, count - len(faults))} passed, {len(faults)} failed")
    return 1 if faults else 0


if __name__ == "__main__":
    sys.exit(main())
