#!/usr/bin/env python3
"""The limit of a store: CCK_MAXSIZE, the commands `clear` and `stats`, and the time of last use. Many calls are made at
once at a small limit, with `prune` beside them: each object has to be the plain compiler's, and no share of the store
may have more than its part, but for what was recorded last. Run by hand; needs gcc and the program (CCK_PROGRAM, by
default the one that was proved and built here). FILES is the number of these calls. The last line is
`real_limit: N passed, M failed`."""
import concurrent.futures
import os
import subprocess
import sys
import tempfile
import threading
import time

TOP = os.path.dirname(os.path.dirname(os.path.abspath(__file__)))
PROGRAM = os.environ.get("CCK_PROGRAM", TOP + "/crates/cck_cache/out/cck_cache")
WRAPPER = TOP + "/bin/cckcc"
DEFAULT = 5000000000
SHARES = 256
FILES, JOBS = int(os.environ.get("FILES", "200")), 8
LIMIT = FILES * 3000
DAY = 24 * 3600
# Values of CCK_MAXSIZE, None if it is not set, and the limit that `stats` prints.
LIMITS = [
    (None, DEFAULT), ("", DEFAULT), ("0", "none"), ("0k", "none"), ("00", "none"), ("7", 7), ("007", 7),
    ("2k", 2 * 10 ** 3), ("3M", 3 * 10 ** 6), ("4G", 4 * 10 ** 9), ("5T", 5 * 10 ** 12),
    ("2Ki", 2 << 10), ("3Mi", 3 << 20), ("4Gi", 4 << 30), ("5Ti", 5 << 40),
    ("18446744073709551615", 2 ** 64 - 1), ("18446744073709551616", DEFAULT), ("16777216Ti", DEFAULT),
    ("G", DEFAULT), ("5K", DEFAULT), ("5 G", DEFAULT), ("5GB", DEFAULT), ("5ki", DEFAULT), ("5i", DEFAULT),
    ("+5", DEFAULT), ("-5", DEFAULT), ("1.5G", DEFAULT), (" 5", DEFAULT), ("5\u00e9", DEFAULT), (b"5\xff", DEFAULT),
]
outcomes = []


def check(label, is_right, said=""):
    """Notes whether a case is as it has to be."""
    outcomes.append(is_right)
    if not is_right:
        print(f"FAILED: {label} {said}")


def run(words, **variables):
    """What a command does, with these variables beside those of the test. None stands for one that is not set."""
    known = {name: value for name, value in {**os.environ, "CCK_PROGRAM": PROGRAM, **variables}.items()
             if value is not None}
    return subprocess.run(words, capture_output=True, check=False, env=known)


def compile_(source, out, store, limit):
    """A call of the wrapper."""
    return run([WRAPPER, "gcc", "-c", source, "-o", out], CCK_STORE=store, CCK_MAXSIZE=limit, CCK_LOG=store + ".log")


def contents(path):
    with open(path, "rb") as file:
        return file.read()


def stored(store):
    """The paths and the sizes of the entry files and object files of a store, in a list for each share."""
    shares = {}
    for kind in ("entries", "objects"):
        for directory, _, names in os.walk(f"{store}/{kind}"):
            for name in names:
                path = os.path.join(directory, name)
                shares.setdefault(os.path.basename(directory), []).append((path, os.path.getsize(path)))
    return shares


def size_of(shares):
    return sum(size for files in shares.values() for _, size in files)


def stats(store, limit=None):
    """The lines that `stats` prints, as words."""
    return [line.split() for line in run([PROGRAM, "stats", store], CCK_MAXSIZE=limit).stdout.decode().splitlines()]


def prune_beside(store, done):
    """Prunes a store again and again until a build is done."""
    while not done.wait(0.05):
        said = run([PROGRAM, "prune", store, "--max-size", str(LIMIT)])
        if said.returncode != 0 or not said.stdout.startswith(b"removed "):
            check("prune beside a build", False, said.stdout)


def limited(store):
    """A build at a small limit. All outputs have to be the plain compiler's."""
    with open("s.h", "w", encoding="ascii") as file:
        file.write("static int s = 1;\n")
    for i in range(FILES):
        with open(f"s{i}.c", "w", encoding="ascii") as file:
            file.write(f"#include \"s.h\"\nint f{i}(void) {{ return {i} + s; }}\n")
    time.sleep(0.05)
    compile_("s0.c", "s0.o", store, "0")  # The compiler is known from here on.
    done = threading.Event()
    beside = threading.Thread(target=prune_beside, args=(store, done))
    beside.start()
    with concurrent.futures.ThreadPoolExecutor(JOBS) as pool:
        made = list(pool.map(lambda i: compile_(f"s{i}.c", f"s{i}.o", store, f"{LIMIT // 1000}k"), range(FILES)))
        done.set()
        list(pool.map(lambda i: run(["gcc", "-c", f"s{i}.c", "-o", f"p{i}.o"]), range(FILES)))
    beside.join()
    wrong = [i for i, call in enumerate(made) if call.returncode != 0 or call.stdout or call.stderr
             or contents(f"s{i}.o") != contents(f"p{i}.o")]
    check("objects of a build at a small limit", not wrong, wrong)
    shares = stored(store)
    part = LIMIT // SHARES
    over = {share: files for share, files in shares.items() if sum(size for _, size in files) > part}
    # A share with more than its part has what was recorded last alone: a file, or an entry and its object.
    right = [len(files) == 1 or [path.split("/")[-3] for path, _ in files] == ["entries", "objects"]
             for files in over.values()]
    check("shares with more than their part", all(right), over)
    last = sum(size for files in over.values() for _, size in files)
    left, number = size_of(shares), sum(len(files) for files in shares.values())
    recorded = contents(store + ".log").count(b"cckcc: recorded")
    check("size of the store", left <= 1.1 * LIMIT + last, f"{left} of {LIMIT}")
    check("some files were removed", recorded == FILES and number < 2 * FILES, f"{recorded} {number}")
    print(f"{recorded} recordings at the limit {LIMIT}: {number} files of {left} bytes are left, {last} of them in"
          f" {len(over)} shares with more than their part")


def shown(store):
    """The lines `size` and `limit` of `stats`."""
    said = dict(words for words in stats(store) if len(words) == 2)
    check("stats: size", said.get("size") == str(size_of(stored(store))), said)
    for value, limit in LIMITS:
        said = dict(words for words in stats(store, value) if len(words) == 2)
        check(f"CCK_MAXSIZE={value!r}", said.get("limit") == str(limit), said)


def cleared(store):
    """What `clear` removes."""
    before = [words for words in stats(store) if words[0] == "count"]
    for kind in ("entries", "objects"):  # as after a loss of power
        os.makedirs(f"{store}/{kind}/ab", exist_ok=True)
        open(f"{store}/{kind}/ab/ab", "wb").close()
    number = sum(len(files) for files in stored(store).values())
    said = run([PROGRAM, "clear", store]).stdout.decode()
    check("clear", said == f"removed {number} files, 0 bytes left\n" and not stored(store), said)
    after = [words for words in stats(store) if words[0] == "count"]
    check("clear leaves the counts", before and before == after, after)
    check("clear leaves the compilers", os.listdir(store + "/compilers") and os.path.exists(store + "/VERSION"))


def touched(store):
    """When a hit sets the times of its two files."""
    compile_("s1.c", "s1.o", store, None)
    paths = [path for files in stored(store).values() for path, _ in files]
    check("one recording", len(paths) == 2, paths)
    before_hits = contents(store + ".log").count(b"cckcc: hit")
    now = time.time()
    for label, age, is_set in (("two days", 2 * DAY, True), ("an hour", 3600, False), ("23 hours", DAY - 3600, False),
                               ("25 hours", DAY + 3600, True), ("an hour ahead", -3600, False)):
        for path in paths:
            os.utime(path, (now - age, now - age))
        before = [os.stat(path).st_mtime for path in paths]
        compile_("s1.c", "s1.o", store, None)
        after = [os.stat(path).st_mtime for path in paths]
        is_now = all(now - 1 <= moment <= time.time() + 1 for moment in after)
        check(f"time after {label}", is_now if is_set else before == after, after)
    hits = contents(store + ".log").count(b"cckcc: hit") - before_hits
    check("hits", hits == 5, hits)


def touched_place(store):
    """A hit by the second entry file of a key sets the time of that one, and not of the first."""
    for state in (1, 2):
        with open("t.h", "w", encoding="ascii") as file:
            file.write(f"static int t = {state};\n")
        with open("t.c", "w", encoding="ascii") as file:
            file.write('#include "t.h"\nint g(void) { return t; }\n')
        time.sleep(0.05)
        compile_("t.c", "t.o", store, None)
    paths = [path for files in stored(store).values() for path, _ in files if "/entries/" in path]
    check("two entry files of a key", sorted(path.endswith(".1") for path in paths) == [False, True], paths)
    now = time.time()
    for path in paths:
        os.utime(path, (now - 2 * DAY, now - 2 * DAY))
    compile_("t.c", "t.o", store, None)
    is_now = {path.endswith(".1"): os.stat(path).st_mtime >= now - 1 for path in paths}
    check("the time of the entry file that was found", is_now == {True: True, False: False}, is_now)


def limited_place(store):
    """The entry file that is written at the second place of a key stays, however small the limit is, and counts: another
    file that fits alone goes. What another process is writing stays, and what a killed one left an hour ago goes."""
    others = []
    for state in (1, 2):
        for path in [path for files in stored(store).values() for path, _ in files if "/entries/" in path]:
            for name, age in ((".new1", 2 * 3600), (".new2", 60)):
                with open(path + name, "wb") as file:
                    file.write(b"x")
                os.utime(path + name, (time.time() - age, time.time() - age))
            others.append(os.path.join(os.path.dirname(path), os.path.basename(path)[:2] + "0" * 62))
            with open(others[0], "wb") as file:
                file.write(b"x")
        with open("u.h", "w", encoding="ascii") as file:
            file.write(f"static int u = {state};\n")
        with open("u.c", "w", encoding="ascii") as file:
            file.write('#include "u.h"\nint h(void) { return u; }\n')
        time.sleep(0.05)
        compile_("u.c", "u.o", store, str(SHARES))
    paths = [path for files in stored(store).values() for path, _ in files if "/entries/" in path]
    check("the entry file at the second place", any(path.endswith(".1") for path in paths), paths)
    written = [path.rsplit(".", 1)[1] for path in paths if ".new" in path]
    check("what is being written", written == ["new2"], written)
    check("a file that fits alone", others and not os.path.exists(others[0]))
    compile_("u.c", "u.o", store, str(SHARES))
    check("a hit by it", contents(store + ".log").count(b"cckcc: hit") == 1)


def main():
    if not os.path.exists(PROGRAM):
        sys.exit(f"{PROGRAM}: not there")
    with tempfile.TemporaryDirectory() as room:
        os.chdir(room)
        store = room + "/store"
        limited(store)
        shown(store)
        cleared(store)
        touched(store)
        touched_place(room + "/places")
        limited_place(room + "/small")
        os.chdir("/")
    print(f"real_limit: {outcomes.count(True)} passed, {outcomes.count(False)} failed")
    sys.exit(0 if all(outcomes) else 1)


if __name__ == "__main__":
    main()
