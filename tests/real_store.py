#!/usr/bin/env python3
"""A store of OBJECTS object files of BYTES bytes each (default 2000 of 200000; 100000 make 20 GB), made by
docs/FORMATS.md: a hit among them, and what `stats`, `verify` and `prune` print and leave. Some are damaged: `verify` has to
remove exactly these. `prune` has to remove what was used longest ago, share by share. Prints the time of each. Run by
hand; needs gcc, room in TMPDIR and the program (CCK_PROGRAM, by default the one that was proved and built here). The last
line is `real_store: N passed, M failed`."""
import hashlib
import os
import random
import struct
import subprocess
import sys
import tempfile
import time

TOP = os.path.dirname(os.path.dirname(os.path.abspath(__file__)))
PROGRAM = os.environ.get("CCK_PROGRAM", TOP + "/crates/cck_cache/out/cck_cache")
WRAPPER = TOP + "/bin/cckcc"
OBJECTS, BYTES = int(os.environ.get("OBJECTS", "2000")), int(os.environ.get("BYTES", "200000"))
DAMAGED = max(OBJECTS // 100, 1)
KIND, SUM, NAME = b"cck object 4\n", 32, 64
SHARES, LIMITLESS = 256, "0"
outcomes = []


def check(label, is_right, said=""):
    """Notes whether a case is as it has to be."""
    outcomes.append(is_right)
    if not is_right:
        print(f"FAILED: {label} {said}")


def run(words, **variables):
    """What a command prints, and the seconds that it took."""
    start = time.monotonic()
    done = subprocess.run(words, capture_output=True, text=True, check=False,
                          env={**os.environ, "CCK_PROGRAM": PROGRAM, "CCK_MAXSIZE": LIMITLESS, **variables})
    return done.stdout + done.stderr, time.monotonic() - start


def framed(data):
    """A frame: the bytes after their length."""
    return struct.pack("<Q", len(data)) + data


def sums(words, after):
    """The four sums of the checksum `fletcher_4` of some words, with this number of words after them."""
    totals = [0] * 4
    for at, word in enumerate(words):
        weight, left = 1, after + len(words) - at
        for i in range(4):
            totals[i] += word * weight
            # The weight in the next sum: 1, n, n (n + 1) / 2, ...
            weight = weight * (left + i) // (i + 1)
    return totals


def words_of(data):
    """The words of four bytes of which bytes are made, after which zeros come up to a whole one."""
    data += bytes(-len(data) % 4)
    return struct.unpack(f"<{len(data) // 4}I", data)


class ObjectFiles:
    """Object files of one size, which differ in their names alone: the sums are those of all else, and of the name."""

    def __init__(self, rng):
        self.head = struct.pack("<Q", NAME)
        self.tail = framed(rng.randbytes(BYTES)) + framed(b"") * 2
        rest = words_of(self.tail)
        self.after = len(rest)
        self.fixed = [a + b for a, b in zip(sums(words_of(self.head), NAME // 4 + self.after), sums(rest, 0))]

    def of(self, name):
        """The object file of a name."""
        own = sums(words_of(name), self.after)
        total = struct.pack("<4Q", *((a + b) % 2 ** 64 for a, b in zip(self.fixed, own)))
        return KIND + total + self.head + name + self.tail


def write_objects(store, rng):
    """Writes the object files, each used a second after the one before. Returns their paths."""
    files, paths, now = ObjectFiles(rng), [], time.time()
    for i in range(OBJECTS):
        name = hashlib.sha256(b"%d" % i).hexdigest()
        path = f"{store}/objects/{name[:2]}/{name}"
        os.makedirs(os.path.dirname(path), exist_ok=True)
        with open(path, "wb") as file:
            file.write(files.of(name.encode()))
        os.utime(path, (now - 2 * OBJECTS + i, now - 2 * OBJECTS + i))
        paths.append(path)
    return paths


def compile_(store, log, **variables):
    """The last line of the log after a call of the wrapper, and the seconds that it took."""
    _, seconds = run([WRAPPER, "gcc", "-O2", "-c", "x.c"], CCK_STORE=store, CCK_LOG=log, **variables)
    with open(log, encoding="utf-8") as file:
        return file.read().splitlines()[-1], seconds


def stored(store):
    """The paths of the object files of a store."""
    return [f"{at}/{name}" for at, _, names in os.walk(store + "/objects") for name in names]


def size_of(paths):
    return sum(os.path.getsize(path) for path in paths)


def verify(store, paths, rng):
    """Damages some files: exactly these are removed. Returns the others."""
    damaged = set(rng.sample(paths, DAMAGED))
    for path in damaged:
        with open(path, "r+b") as file:
            file.seek(rng.randrange(os.path.getsize(path)))
            byte = file.read(1)[0]
            file.seek(-1, os.SEEK_CUR)
            file.write(bytes([byte ^ 1 << rng.randrange(8)]))
    said, seconds = run([PROGRAM, "verify", store])
    gone = {path for path in paths if not os.path.exists(path)}
    check("verify", gone == damaged, f"{len(gone ^ damaged)} differ: {said[-300:]}")
    print(f"verify: {seconds:.1f} s for {size_of(set(paths) - gone) / 1e9:.2f} GB")
    return [path for path in paths if path not in gone]


def prune(store, paths):
    """Removes half: in each share what was used longest ago."""
    limit = size_of(paths) // 2
    _, seconds = run([PROGRAM, "prune", store, "--max-size", str(limit)])
    left = {path for path in paths if os.path.exists(path)}
    print(f"prune: {seconds:.1f} s, {len(left)} of {len(paths)} left")
    shares = {}
    for path in paths:
        shares.setdefault(path.split("/")[-2], []).append(path in left)
    check("prune: what was used last is left", all(kept == sorted(kept) for kept in shares.values()))
    check("prune: the limit", size_of(left) <= limit)
    check("prune: not more than a file a share is missing",
          size_of(left) >= limit - SHARES * (BYTES + 1000), f"{size_of(left)} of {limit}")


def compare(room, rng):
    """All steps, in a directory."""
    store, log = room + "/store", room + "/log"
    with open("x.c", "w", encoding="ascii") as file:
        file.write("#include <stdio.h>\nint f(void) { return puts(\"x\"); }\n")
    time.sleep(0.1)
    compile_(store, log)
    before = min(compile_(store, log)[1] for _ in range(20))
    start = time.monotonic()
    paths = write_objects(store, rng)
    print(f"{len(paths)} objects of {BYTES} bytes: written in {time.monotonic() - start:.0f} s")
    calls = [compile_(store, log) for _ in range(20)]
    check("hits", all(line.startswith("cckcc: hit ") for line, _ in calls), calls[0])
    print(f"a hit: {1000 * min(call[1] for call in calls):.2f} ms, in the empty store {1000 * before:.2f} ms")
    said, seconds = run([PROGRAM, "stats", store])
    check("stats", f"objects {OBJECTS + 1} {size_of(stored(store))}\n" in said, said)
    print(f"stats: {seconds:.2f} s")
    prune(store, verify(store, paths, rng))
    line, _ = compile_(store, log)
    check("a hit after all", line.startswith("cckcc: hit "), line)


def main():
    if not os.path.exists(PROGRAM):
        sys.exit(f"{PROGRAM}: not there")
    with tempfile.TemporaryDirectory() as room:
        os.chdir(room)
        compare(room, random.Random(7))
        os.chdir("/")
    print(f"real_store: {outcomes.count(True)} passed, {outcomes.count(False)} failed")
    sys.exit(0 if all(outcomes) else 1)


if __name__ == "__main__":
    main()
