#!/usr/bin/env python3
"""Checks the table of variables, tests/real/variables.txt: what gcc, its assembler and their libraries, and clang, read of the
environment, and how the cache of real files treats it. Run by hand: environment.py [--print]. Needs gcc, clang, and objdump
and readelf of binutils; the table was made for gcc 12, clang 14 and glibc 2.36 on x86-64.

- Each variable that a program asks for has a line. The names are those that calls of gcc and clang ask for by `getenv`, which
  a library logs (tests/real/getenv.c); those that the code of gcc, cc1, the assembler and their libraries gives to `getenv`;
  and those of the section "Environment Variables" of gcc's manual.
- The names with `key` are exactly those of the lists of crates/cck_util/src/variables.rt and of
  crates/cck_cache/src/environment.rt but for two lists of the latter: PASSED has exactly the names with `passed`,
  and SEARCHED exactly those with `programs`, which lib/cckcc/miss.sh has in the context for which it keeps the paths of
  the compiler's programs.
- No variable with `none` changes an output of some calls, whatever of some values it has.

With --print it prints who asks for which name. The last line is `all passed`."""
import concurrent.futures
import os
import re
import subprocess
import sys
import tempfile

sys.path.insert(0, os.path.join(os.path.dirname(os.path.abspath(__file__)), "real"))
from calls import TOP, WRAPPER, Room, difference  # noqa: E402

TABLE = TOP + "/tests/real/variables.txt"
LISTS = [TOP + "/crates/cck_util/src/variables.rt", TOP + "/crates/cck_cache/src/environment.rt"]
SCRIPTS = [WRAPPER, TOP + "/lib/cckcc/miss.sh"]
LIBRARY = TOP + "/tests/real/getenv.c"
TREATMENTS = ("key", "passed", "programs", "directory", "none")
# What "Environment Variables Affecting GCC" of gcc 12's manual has.
MANUAL = """LANG LC_CTYPE LC_MESSAGES LC_ALL TMPDIR GCC_COMPARE_DEBUG GCC_EXEC_PREFIX COMPILER_PATH LIBRARY_PATH CPATH
    C_INCLUDE_PATH CPLUS_INCLUDE_PATH OBJC_INCLUDE_PATH DEPENDENCIES_OUTPUT SUNPRO_DEPENDENCIES SOURCE_DATE_EPOCH
    GCC_EXTRA_DIAGNOSTIC_OUTPUT GCC_COLORS GCC_URLS TERM_URLS COLUMNS""".split()
FILES = {
    "x.c": '#include <stdio.h>\n#include "h.h"\nint f(int a) { int unused; return printf("%d", h(a)); }\n',
    "h.h": "static int h(int a) { return a / 3; }\n",
    "wrong.c": '#include <stdio.h>\nint f(void) {\treturn prinf("a"; }\n',
    "missing.c": '#include "missing.h"\n',
    "latin.c": 'char *s = "\\u00e9";\n',
    "asm.c": 'asm(".globl l\\nl: .long 1");\nint v = 1;\n',
    "threads.c": "int f(int *a) {\n    int s = 0;\n#pragma omp parallel for reduction(+:s)\n"
                 "    for (int i = 0; i < 9; i++)\n        s += a[i];\n    return s;\n}\n",
}
# Calls that the cache keeps, and some that show what the driver reads.
CALLS = """-c x.c | -O2 -g -Wall -Wextra -c x.c | -E x.c | -S x.c | -MD -MP -c x.c | -pipe -c x.c | -c wrong.c | -c missing.c
    | -Wall -fdiagnostics-color=always -fdiagnostics-urls=always -c x.c | -Wall -fdiagnostics-color=auto -c x.c
    | -fexec-charset=latin1 -c latin.c | -c asm.c | -fopenmp -O1 -c threads.c | -g3 -fsanitize=undefined -c x.c
    | -Ia -isystem b -idirafter c -include h.h -c x.c""".split("|")
# Their names are only looked at: by what they link or print, others of the driver's variables are asked for.
FURTHER = """-c missing-input.c | -v -c x.c | --help | -print-prog-name=as | -print-search-dirs | -flto -c x.c
    | -fcompare-debug -c x.c | -DT=__DATE__ -include h.h -c latin.c | -shared -fPIC x.c | --version""".split("|")
# Calls of clang.
CLANG_CALLS = """-c x.c | -O2 -g -Wall -Wextra -MD -c x.c | -E x.c | -c wrong.c | -c missing.c | -c missing-input.c
    | -Wall -fdiagnostics-color=always -c x.c | -Ia -isystem b -c x.c | -x c++ -g -c x.c | -fno-such-option -c x.c
    | -v -c x.c | --help | -print-search-dirs | -flto -c x.c | -c asm.c | --version""".split("|")
VALUES = ("", "1", "-g", "/nowhere", "@root")


def lines_of(path):
    with open(path, encoding="utf-8") as file:
        return file.read().split("\n")


def table(faults):
    """The treatment of each name of the table."""
    found = {}
    for line in lines_of(TABLE):
        fields = line.split(" ", 2)
        if not line or line[0] == "#":
            continue
        if len(fields) < 3 or fields[1] not in TREATMENTS or fields[0] in found:
            faults.append(f"{TABLE}: no line, or a name that there is: {line}")
        else:
            found[fields[0]] = fields[1]
    return found


def text_at(data, segments, address):
    """The text that a program has at an address, up to its first byte 0."""
    for start, place, size in segments:
        if start <= address < start + size:
            return data[place + address - start:][:80].split(b"\0", 1)[0].decode("latin-1")
    return None


def given_to_getenv(path):
    """The names that the code of a program gives to `getenv`, by the instruction that puts an address in place before."""
    with open(path, "rb") as file:
        data = file.read()
    headers = subprocess.run(["readelf", "-lW", path], capture_output=True, text=True, check=True).stdout
    rows = [line.split() for line in headers.split("\n") if line.split()[:1] == ["LOAD"]]
    segments = [(int(row[2], 16), int(row[1], 16), int(row[4], 16)) for row in rows]
    code = subprocess.Popen(["objdump", "-d", "--no-show-raw-insn", path], stdout=subprocess.PIPE, text=True)
    found, address = set(), None
    for line in code.stdout:
        if "di" in line and re.search(r",%[re]di\b", line):
            put = re.search(r"lea .*# ([0-9a-f]+)|mov +\$0x([0-9a-f]+),", line)
            address = int(put.group(1) or put.group(2), 16) if put else None
        elif "getenv" in line and address is not None and re.search(r"(call|jmp) .*getenv", line):
            found.add(text_at(data, segments, address))
    code.wait()
    return {name for name in found if name and re.fullmatch("[A-Za-z_][A-Za-z0-9_]*", name)}


def programs():
    """The compiler, cc1, the assembler and their libraries."""
    def asked(name):
        return subprocess.run(["gcc", "-print-prog-name=" + name], capture_output=True, text=True,
                              check=True).stdout.strip()
    found = [os.path.realpath(subprocess.run(["sh", "-c", f"command -v {name}"], capture_output=True, text=True,
                                             check=True).stdout.strip()) for name in ("gcc", asked("cc1"), asked("as"))]
    for program in list(found):
        printed = subprocess.run(["ldd", program], capture_output=True, text=True, check=False).stdout
        found += [os.path.realpath(path) for path in re.findall(r"(?:=> |^\s)(/\S+) \(", printed, re.M)]
    return sorted(set(found))


def build(place):
    """The files of the calls in a directory, and the library that logs names beside it."""
    for name, text in FILES.items():
        with open(f"{place}/{name}", "w", encoding="utf-8") as file:
            file.write(text)
    for name in "abc":
        os.makedirs(f"{place}/{name}")
    library = os.path.dirname(place) + "/getenv.so"
    subprocess.run(["gcc", "-shared", "-fPIC", "-O1", "-o", library, LIBRARY, "-ldl"], check=True)
    return library


def asked_in_calls(room, library):
    """Who asks for a name in the calls, by the name."""
    log, found = room.top + "/asked", {}
    calls = [f"gcc {call}" for call in CALLS + FURTHER] + [f"clang {call}" for call in CLANG_CALLS]
    for call in calls:
        room.run(call.split(), ".", {"LD_PRELOAD": library, "CCK_GETENV_LOG": log}, 0o022)
    for line in lines_of(log):
        who, _, name = line.partition(" ")
        if name and name != "CCK_GETENV_LOG":
            found.setdefault(name, set()).add(who)
    return found


def asked(room, library):
    """Who asks for a name, by the name."""
    found = asked_in_calls(room, library)
    with concurrent.futures.ThreadPoolExecutor(2) as pool:
        paths = programs()
        for path, names in zip(paths, pool.map(given_to_getenv, paths)):
            for name in names:
                found.setdefault(name, set()).add(path)
    for name in MANUAL:
        found.setdefault(name, set()).add("the manual")
    return found


def compare(what, wanted, got):
    """The names that are in one of two sets."""
    return [f"{name} is `{what}` in the table, and not in the code" for name in sorted(wanted - got)] + [
        f"{name} is `{what}` in the code, and not in the table" for name in sorted(got - wanted)]


def in_code(treated):
    """What the table has otherwise than the code."""
    got = {"key": set(), "passed": set(), "programs": set(), "directory": {"PWD"}}
    lines = [line for path in LISTS for line in lines_of(path)]
    for name, part in re.findall(r"const (\w+): \[&(?:str|\[u8\]); \d+\] = \[(.*?)\];", "\n".join(lines), re.S):
        what = {"PASSED": "passed", "SEARCHED": "programs"}.get(name, "key")
        got[what] |= set(re.findall(r'"(\w+)"', part))
    # A call with such a variable has no key.
    got["key"] -= got["passed"]
    context, faults = set(), []
    for path in SCRIPTS:
        script = "\n".join(line for line in lines_of(path) if not line.lstrip().startswith("#"))
        for line in re.findall(r"^cck_context=.*", script, re.M):
            context |= set(re.findall(r"\$\{?([A-Z][A-Z0-9_]*)", line))
        if '--directory="$PWD"' not in script:
            faults.append(f"{path} does not give PWD as the directory")
    faults += compare("programs", got["programs"], context)
    for what, names in got.items():
        faults += compare(what, {name for name in treated if treated[name] == what}, names)
    return faults


def changed_by(room, names):
    """The outputs that a variable with `none` changes."""
    calls = [call.split() for call in CALLS]
    plain = [room.run(["gcc", *call], ".", {}, 0o022) for call in calls]
    for name in names:
        for value in VALUES:
            for call, wanted in zip(calls, plain):
                got = room.run(["gcc", *call], ".", {name: value.replace("@root", room.root)}, 0o022)
                if difference(wanted, got):
                    yield f"{name}={value} changes {', '.join(difference(wanted, got))} of gcc {' '.join(call)}"


def changed(names, jobs=3):
    """The outputs that variables with `none` change, some rooms at once."""
    def part(names):
        with tempfile.TemporaryDirectory(prefix="cck-") as directory:
            room = Room(directory)
            build(room.root)
            return list(changed_by(room, names))
    with concurrent.futures.ThreadPoolExecutor(jobs) as pool:
        return [fault for found in pool.map(part, [names[start::jobs] for start in range(jobs)]) for fault in found]


def main():
    faults = []
    treated = table(faults)
    with tempfile.TemporaryDirectory(prefix="cck-") as directory:
        room = Room(directory)
        names = asked(room, build(room.root))
    if "--print" in sys.argv[1:]:
        for name in sorted(names):
            print(f"{name}: {treated.get(name, 'no line')}: {', '.join(sorted(names[name]))}")
    faults += [f"{name} has no line: {', '.join(sorted(names[name]))}" for name in sorted(set(names) - set(treated))]
    faults += in_code(treated)
    faults += changed([name for name in treated if treated[name] == "none"])
    print(f"{len(names)} names are asked for, {len(treated)} in the table")
    for fault in faults:
        print(f"FAILED: {fault}")
    print(f"{len(faults)} failed" if faults else "all passed")
    return 1 if faults else 0


if __name__ == "__main__":
    sys.exit(main())
