#!/usr/bin/env python3
"""The configuration file of cckcc: what the wrapper prints and does with a file, variables and words. A program that
prints its words and some variables stands for cck_cache, so that the commands show what they ask it for. Needs gcc, and
strace for the last case. The last line is `config: N passed, M failed`."""
import collections
import os
import pathlib
import re
import shutil
import subprocess
import sys
import tempfile

TOP = pathlib.Path(__file__).resolve().parent.parent
# `@` is the directory of a case, `%` is `@`, FILE the configuration file. A file of `None` is missing.
FILE = "@/home/.config/cck/config"
STAND_IN = """#!/bin/sh
echo "$*" >> "$HOME/called"
case $1 in
look) echo 'passed mode' ;;
*) echo "$*" "size=${CCK_MAXSIZE-none}" "read=${CCK_READ-none}" "store=${CCK_STORE-none}" ;;
esac
"""
# `after` is what the file has after the words, if this is not what it had. `digests` are the directories of digests of compilers
# that the program was given.
Case = collections.namedtuple("Case", "name file variables words status output messages after digests", defaults=[None, None])
SHOW, CALL, COMPILE = "cckcc --show-config", "cckcc --verify", "cckcc gcc -c x.c"
NO_SIZE = "size=none read=none store=none"

# Of --show-config the wanted lines are some of those that are printed.
SHOWN = [
    ("no file", None, {}, ["(default) CCK_STORE = @/home/.cache/cck", "(default) CCK_MAXSIZE = 5G", "(default) CCK_TTL = 2592000",
                           "(environment) CCK_PROGRAM = @/cck_cache", "(default) CCK_DISABLE = "]),
    ("an empty file", "", {}, ["(default) CCK_TIMEOUT = 2"]),
    ("a line", "CCK_STORE = /s\n", {}, [f"({FILE}:1) CCK_STORE = /s"]),
    ("blanks and comments", "# CCK_TTL = 1\n\n \t# x\n\tCCK_TTL\t=\t7 \t\nCCK_DIR=/d\n", {},
     [f"({FILE}:4) CCK_TTL = 7", f"({FILE}:5) CCK_DIR = /d"]),
    ("no line feed at the end", "CCK_TTL = 1\nCCK_DIR = /d", {}, [f"({FILE}:2) CCK_DIR = /d"]),
    ("the last line of a name", "CCK_TTL = 1\nCCK_TTL = 2\n", {}, [f"({FILE}:2) CCK_TTL = 2"]),
    ("the environment", "CCK_TTL = 1\nCCK_TTL = 2\n", {"CCK_TTL": "3"}, ["(environment) CCK_TTL = 3"]),
    ("an empty variable", "CCK_BASEDIR = /b\n", {"CCK_BASEDIR": ""}, ["(environment) CCK_BASEDIR = "]),
    ("an empty value", "CCK_LOG =\n", {}, [f"({FILE}:1) CCK_LOG = "]),
    ("a value is not evaluated", "CCK_LOG = $(touch evil)`touch evil`;touch evil\nCCK_BASEDIR = ~/a b\\n\"$HOME\" # c = '\n", {},
     [f"({FILE}:1) CCK_LOG = $(touch evil)`touch evil`;touch evil", f"({FILE}:2) CCK_BASEDIR = ~/a b\\n\"$HOME\" # c = '"]),
    ("a place of files without a slash", "CCK_TTL = 1\n", {"XDG_CONFIG_HOME": "home/.config"}, [f"({FILE}:1) CCK_TTL = 1"]),
    ("another place of files", "x\n", {"XDG_CONFIG_HOME": "@/other"}, ["(@/other/cck/config:1) CCK_TTL = 9"]),
    ("a place of stores", None, {"XDG_CACHE_HOME": "@/cache"}, ["(default) CCK_STORE = @/cache/cck"]),
    ("a place of stores without a slash", None, {"XDG_CACHE_HOME": "cache"}, ["(default) CCK_STORE = @/home/.cache/cck"]),
    ("the variables of servers", "CCK_SECRET_FILE = /f\nCCK_CACERT = /a\nCCK_CERT = /c\nCCK_KEY = /k\nCCK_REMOTE_MODE = read\n"
     "CCK_REMOTE_MAX = 7\nCCK_SIGN_KEY = /s\nCCK_VERIFY_KEY = /v\nCCK_COMPRESS = zstd\n", {},
     [f"({FILE}:{line}) CCK_{end}" for line, end in enumerate(
         ("SECRET_FILE = /f", "CACERT = /a", "CERT = /c", "KEY = /k", "REMOTE_MODE = read", "REMOTE_MAX = 7", "SIGN_KEY = /s",
          "VERIFY_KEY = /v", "COMPRESS = zstd"), 1)]),
    ("how a compiler counts", "CCK_COMPILER_CHECK = mtime\n", {}, [f"({FILE}:1) CCK_COMPILER_CHECK = mtime"]),
    ("its default", None, {}, ["(default) CCK_COMPILER_CHECK = content"]),
    ("their defaults", None, {}, ["(default) CCK_REMOTE_MODE = write", "(default) CCK_REMOTE_MAX = 100000000",
                                  "(default) CCK_SECRET_FILE = ", "(default) CCK_SIGN_KEY = ", "(default) CCK_COMPRESS = "]),
]
# Addresses of a server with `%` for each `@`, and how they are shown: without the password, which is or begins with PW.
ADDRESSES = [
    ("redis://u:PW%h:1/2", "redis://u:***%h:1/2"),
    ("redis://:PW%h", "redis://:***%h"),
    ("rediss://u:PW:a//PW%b%h/0", "rediss://u:***%h/0"),
    ("rediss://s://s:PW%h", "rediss://s:***%h"),
    ("rediss://redis:PW%redis:1", "rediss://redis:***%redis:1"),
    ("redis+unix://u:PW%/a%b:c?db=1", "redis+unix://u:***%/a%b:c?db=1"),
    ("redis+unix:///a:b%c/d", "redis+unix:///a:b%c/d"),
    ("https://u:PW%h:1/p", "https://u:***%h:1/p"),
    ("http://u:PW/PW%h", "http://u:***%h"),
    ("none://u:PW%h", "none://u:***%h"),
    ("u:PW%h", "u:***%h"),
    ("redis:u:PW%h", "redis:***%h"),
    ("redis://u%h:1", "redis://u%h:1"),
    ("http://h:1/", "http://h:1/"),
]
# How the compiler counts, and the directory of its digest: none by times.
CHECKS = [
    ("by contents", None, {}, ["@/home/.cache/cck"]),
    ("by contents, in the store", None, {"CCK_COMPILER_CHECK": "content", "CCK_STORE": "@/s"}, ["@/s"]),
    ("by times", None, {"CCK_COMPILER_CHECK": "mtime"}, []),
    ("by times, in the file", "CCK_COMPILER_CHECK = mtime\n", {}, []),
    ("the environment before the file", "CCK_COMPILER_CHECK = mtime\n", {"CCK_COMPILER_CHECK": "content"}, ["@/home/.cache/cck"]),
    ("another value", None, {"CCK_COMPILER_CHECK": "size"}, ["@/home/.cache/cck"]),
    ("by times, in a locale", None, {"LANG": "de_DE.UTF-8"}, []),
    ("by times, with a language of messages", None, {"LANG": "C.UTF-8", "LANGUAGE": "de"}, []),
    ("by times, with characters of a locale", None, {"LANG": "C", "LC_CTYPE": "en_US.UTF-8"}, []),
    ("by contents, in UTF-8", None, {"LANG": "C.UTF-8"}, ["@/home/.cache/cck"]),
    ("by contents, in a locale with a server", None, {"LC_ALL": "de_DE.UTF-8", "CCK_STORE": "redis://h", "CCK_DIR": "@/d"}, ["@/d"]),
    ("by times, with a server", None, {"CCK_COMPILER_CHECK": "mtime", "CCK_STORE": "redis://h", "CCK_DIR": "@/d"}, ["@/d"]),
]
# What is wrong with a file, and in which line.
WRONG = [
    ("no equals sign", "CCK_TTL = 1\n\nCCK_DIR /d\n", "3: no '='"),
    ("an unknown name", "CCK_MAX_SIZE = 1G\n", "1: no such variable: CCK_MAX_SIZE"),
    ("a variable that is none of the cache", "PATH = /evil\n", "1: no such variable: PATH"),
    ("no name", "# x\n= 1\n", "2: no name before '='"),
    ("a name with a blank", "CCK_TTL x = 1\n", "1: no name before '='"),
    ("a name that would be evaluated", "CCK_TTL$(touch evil) = 1\n", "1: no name before '='"),
    ("a password", "CCK_STORE redis://u:PW=%h\n", "1: no name before '='"),
    ("a password without an equals sign", "CCK_STORE redis://u:PW%h\n", "1: no '='"),
    ("export", "export CCK_TTL=1\n", "1: no name before '='"),
    ("a limit that is no size", "CCK_MAXSIZE = 10GB\n", "1: CCK_MAXSIZE is not a size, as 20G or 500Mi"),
    ("a store below a home directory", "CCK_STORE = ~/s\n", "1: CCK_STORE is neither an absolute path nor an address"),
    ("a relative store with a colon", "CCK_STORE = a/b:c\n", "1: CCK_STORE is neither an absolute path nor an address"),
    ("a relative directory", "CCK_DIR = s\n", "1: CCK_DIR is not an absolute path"),
]
# What a file has before and after `--max-size`, and the size.
SIZES = [
    ("no file", None, "5G", "CCK_MAXSIZE = 5G\n"),
    ("an empty file", "", "20Gi", "CCK_MAXSIZE = 20Gi\n"),
    ("no line", "# x\nCCK_TTL = 1", "0", "# x\nCCK_TTL = 1\nCCK_MAXSIZE = 0\n"),
    ("a line", "CCK_TTL = 1\n\tCCK_MAXSIZE=1G\n\n#CCK_MAXSIZE = 2\n", "700M",
     "CCK_TTL = 1\nCCK_MAXSIZE = 700M\n\n#CCK_MAXSIZE = 2\n"),
    ("two lines", "CCK_MAXSIZE = 1\nCCK_LOG = CCK_MAXSIZE = 3\nCCK_MAXSIZE = 2\n", "1000000k",
     "CCK_MAXSIZE = 1000000k\nCCK_LOG = CCK_MAXSIZE = 3\nCCK_MAXSIZE = 1000000k\n"),
]
NO_SIZES = ["5X", "G", "5GB", "-1", "1.5G", "5G/e", "1000000000000000000", "1000000T"]


def size_cases():
    """Those of --max-size."""
    for name, file, size, after in SIZES:
        for words in (f"cckcc --max-size {size}", f"cckcc -M {size}", f"cckcc --max-size={size}"):
            yield Case(f"{name}, {words}", file, {}, words, 0, f"CCK_MAXSIZE = {size} in {FILE}\n", "", after)
    for size in NO_SIZES:
        yield Case(f"no size, {size}", "CCK_MAXSIZE = 1\n", {}, f"cckcc --max-size={size}", 2, "", f"cckcc: not a size: {size} (a number, and k, M, G, T, Ki, Mi, Gi, Ti or nothing after it, as 20G)\n")
    yield Case("a size and the environment", "", {"CCK_MAXSIZE": "1M"}, "cckcc -M 5G", 0, f"CCK_MAXSIZE = 5G in {FILE}\n",
               "cckcc: CCK_MAXSIZE of the environment counts more: 1M\n", "CCK_MAXSIZE = 5G\n")
    yield Case("a size and a wrong file", "x\n", {}, "cckcc -M 5G", 2, "", f"cckcc: {FILE}:1: no '='\n")


def cases():
    """All cases. After a wrong file a command has status 2, and a compilation goes to the compiler."""
    for name, file, variables, lines in SHOWN:
        yield Case(name, file, variables, SHOW, 0, lines, "")
    for address, shown in ADDRESSES:
        yield Case(f"the address {address}", None, {"CCK_STORE": address}, SHOW, 0, [f"(environment) CCK_STORE = {shown}"], "")
        yield Case(f"the line {address}", f"CCK_STORE = {address}\n", {}, SHOW, 0, [f"({FILE}:1) CCK_STORE = {shown}"], "")
    for name, file, message in WRONG:
        for words in (CALL, SHOW, "cckcc"):
            yield Case(f"{name}, {words}", file, {}, words, 2, "", f"cckcc: {FILE}:{message}\n")
        for words in (COMPILE, "gcc -c x.c"):
            yield Case(f"{name}, {words}", file, {}, words, 0, "", f"cckcc: {FILE}:{message}\n")
    yield from size_cases()
    yield Case("the size and the reading", "CCK_MAXSIZE = 1G\nCCK_READ = 1\nCCK_STORE = /s\n", {}, CALL, 0,
               "verify /s size=1G read=1 store=none\n", "")
    yield Case("they are in the environment", "CCK_MAXSIZE = 1G\n", {"CCK_MAXSIZE": "2G"}, CALL, 0,
               "verify @/home/.cache/cck size=2G read=none store=none\n", "")
    yield Case("the store", "CCK_STORE = @/a b\n", {}, "cckcc --clear", 0, f"clear @/a b {NO_SIZE}\n", "")
    yield Case("the directory beside a server", "CCK_STORE = redis://h\nCCK_DIR = /d\n", {}, CALL, 0,
               f"verify /d {NO_SIZE}\n", "")
    yield Case("a compilation", "CCK_STORE = @/s\nCCK_LOG = @/log\n", {}, COMPILE, 0, "", "")
    for name, file, variables, digests in CHECKS:
        yield Case(f"the compiler {name}", file, variables, COMPILE, 0, "", "", None, digests)
    yield Case("the program", "CCK_PROGRAM = /bin/echo\nCCK_STORE = /s\n", {"CCK_PROGRAM": None}, CALL, 0,
               "verify /s\n", "")


def judge(case, room):
    """What differs from what a case wants, in a directory of its own."""
    def placed(text):
        return text.replace("@", str(room)).replace("%", "@")
    (room / "home/.config/cck").mkdir(parents=True)
    (room / "other/cck").mkdir(parents=True)
    (room / "other/cck/config").write_text("CCK_TTL = 9\n")
    (room / "x.c").write_text("int v;\n")
    (room / "cck_cache").write_text(STAND_IN)
    (room / "cck_cache").chmod(0o755)
    (room / "gcc").symlink_to(TOP / "bin/cckcc")
    if case.file is not None:
        pathlib.Path(placed(FILE)).write_text(placed(case.file))
    path = (f"{room}:" if case.words.startswith("gcc") else "") + f"{TOP}/bin:{os.environ['PATH']}"
    variables = {"PATH": path, "HOME": f"{room}/home", "CCK_PROGRAM": "@/cck_cache", **case.variables}
    variables = {name: placed(value) for name, value in variables.items() if value is not None}
    done = subprocess.run(case.words.split(), cwd=room, env=variables, capture_output=True, text=True, check=False)
    if done.returncode != case.status or done.stderr != placed(case.messages):
        yield f"status {done.returncode}, {done.stderr!r}"
    if isinstance(case.output, list):
        yield from (f"no line {placed(line)!r}" for line in case.output if placed(line) not in done.stdout.split("\n"))
    elif done.stdout != placed(case.output):
        yield f"printed {done.stdout!r}"
    if "PW" in done.stdout:
        yield "a password is shown"
    file = pathlib.Path(placed(FILE))
    has = file.read_text() if file.exists() else None
    wanted = case.after if case.after is not None else case.file
    if has != (wanted and placed(wanted)):
        yield f"the file has {has!r}"
    if list(file.parent.iterdir()) != [file] * file.exists():
        yield "another file beside it"
    if (room / "evil").exists():
        yield "a value was evaluated"
    if " -c " in case.words and not (room / "x.o").exists():
        yield "no object"
    if "config:" in case.messages and (room / "home/called").exists():
        yield "the program was called"
    if case.digests is not None:
        asked = re.findall(r" --digests=(\S*)", (room / "home/called").read_text())
        if asked != [placed(path) for path in case.digests]:
            yield f"digests in {asked}"
    if "CCK_LOG" in (case.file or "") and case.words == COMPILE and not (room / "log").exists():
        yield "no log"


def processes(room, file):
    """The system calls that start a process or a program in a call that is passed on, with a file or without one."""
    home = room / "home" / str(len(file))
    (home / ".config/cck").mkdir(parents=True)
    if file:
        (home / ".config/cck/config").write_text(file)
    variables = {"PATH": os.environ["PATH"], "HOME": str(home), "CCK_DISABLE": "1"}
    subprocess.run(["strace", "-f", "-o", room / "calls", "-e", "trace=clone,clone3,fork,vfork,execve",
                    TOP / "bin/cckcc", "true"], env=variables, check=True)
    return len(re.findall(r"\d (?:clone|fork|vfork|execve)", (room / "calls").read_text()))


def main():
    passed, failed = 0, 0
    for case in cases():
        with tempfile.TemporaryDirectory() as room:
            faults = list(judge(case, pathlib.Path(room)))
        passed, failed = passed + (not faults), failed + bool(faults)
        print("".join(f"FAILED: {case.name}: {fault}\n" for fault in faults), end="")
    with tempfile.TemporaryDirectory() as room:
        place = pathlib.Path(room)
        (place / "cck").mkdir()
        (place / "cck/config").symlink_to("../own")
        (place / "own").touch(0o600)
        subprocess.run([TOP / "bin/cckcc", "-M", "1G"], env={"PATH": os.environ["PATH"], "XDG_CONFIG_HOME": room}, check=True,
                       stdout=subprocess.DEVNULL)
        is_kept = (place / "cck/config").is_symlink() and (place / "own").stat().st_mode & 0o777 == 0o600
        is_kept = is_kept and (place / "own").read_text() == "CCK_MAXSIZE = 1G\n"
    passed, failed = passed + is_kept, failed + (not is_kept)
    if not is_kept:
        print("FAILED: a link in the place of the file")
    if shutil.which("strace"):
        with tempfile.TemporaryDirectory() as room:
            found = [processes(pathlib.Path(room), file) for file in ("", "CCK_TTL = 1\n# x\nCCK_MAXSIZE = 1G\n")]
        passed, failed = passed + (found[0] == found[1]), failed + (found[0] != found[1])
        if found[0] != found[1]:
            print(f"FAILED: the file is read by other processes: {found}")
    print(f"config: {passed} passed, {failed} failed")
    sys.exit(failed != 0)


if __name__ == "__main__":
    main()
