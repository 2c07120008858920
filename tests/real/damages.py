"""Damages each kind of file of a store, sets times and clocks, and changes files on several file systems: each call has to end
as the plain compiler's. Run by tests/real_faults.sh, in an empty directory. The words name the parts that run; without words
all run."""
import collections
import os
import shutil
import subprocess
import time

from outcomes import (PROGRAM, ROOM, STORE, Device, Outcome, call, chance, check, compare, contents, run, settle, variables,
                      words_of, write)


def stored():
    """The files of the store, but for counts."""
    return sorted(f"{at}/{name}" for at, _, names in os.walk(STORE) for name in names if not at.endswith("/counts"))


def damage(kept):
    """Damages one file, or two by an exchange. Returns the way, and the paths."""
    kinds = collections.defaultdict(list)
    for path in kept:
        kinds[path[len(STORE) + 1:].split("/")[0]].append(path)
    path = chance.choice(kinds[chance.choice(["entries", "objects", *kinds])])
    data, way, paths = bytearray(kept[path]), chance.choice(["flip", "cut", "extend", "swap", "zero", "none"]), [path]
    at = chance.randrange(len(data) + 1)
    if way == "flip" and at < len(data):
        data[at] ^= 1 << chance.randrange(8)
    elif way == "cut":
        del data[at:]
    elif way == "extend":
        data += bytes(chance.randrange(256) if chance.random() < 0.5 else 0 for _ in range(chance.randrange(1, 40)))
    elif way == "zero":
        size = chance.choice([1, 8, 512, 4096])
        data[at:at + size] = bytes(len(data[at:at + size]))
    elif way == "swap":
        paths.append(chance.choice(list(kept)))
        data = kept[paths[1]]
        with open(paths[1], "wb") as file:
            file.write(kept[path])
    with open(path, "wb") as file:
        file.write(data)
    if way == "none":
        os.unlink(path)
    return way, paths


def repair(kept, paths):
    """Writes these files of the store as they were, or all."""
    for path in set(stored()) - set(kept) if paths is None else ():
        os.unlink(path)
    for path in kept if paths is None else paths:
        os.makedirs(os.path.dirname(path), exist_ok=True)
        with open(path, "wb") as file:
            file.write(kept[path])


def look(words):
    """The first line that a look-up by the programs of the store prints, and what it writes."""
    done = call([PROGRAM, "look", STORE, "--driver=gcc", f"--digests={STORE}", f"--directory={ROOM}", "--", *words[1:]])
    return done.output.partition(b"\n")[0].decode(), Outcome(done.status, b"", done.messages, done.files)


def damaged(times):
    """Look-ups, and some calls of the wrapper, where one file of the store is damaged: an entry file, an object file, a
    list of programs, a digest, a mark of an input, `VERSION` or `empty.h`."""
    shutil.rmtree(STORE, ignore_errors=True)
    write("d.h", "#define D 1\n")
    texts = ['#include "d.h"\nint d = D;\n', "int d;\n", "#ifdef N\nint d = N;\n#else\nint d = 2;\n#endif\n",
             "int f(void) { int d; }\n"]
    calls, owners = [], {}
    for number, text in enumerate(texts):
        write(f"d{number}.c", text)
        calls += [words_of(f"d{number}.c"), [*words_of(f"d{number}.c"), "-DN=3"]]
    settle()
    for words in calls:
        before = set(stored())
        compare("recording", words)
        owners.update((path, words) for path in stored() if path not in before)
    plain = {tuple(words): call(words) for words in calls}
    kept, counts = {path: contents(path) for path in stored()}, collections.Counter()
    for number in range(times):
        way, paths = damage(kept)
        for words in [owners[path] for path in paths] if number % 50 else [owners[paths[0]]]:
            said, got = look(words) if number % 50 else ("call", call(["cckcc", *words]))
            counts[said.split(" ")[0] or "error"] += 1
            is_right = got == plain[tuple(words)] if said == "call" or said.startswith("hit") else not got.files
            check(f"damage, {way}", is_right, f"{paths} {words} {said} {got}")
        repair(kept, None if number % 50 == 0 else paths)
        if number % 1000 == 999:
            print(f"damaged, {number + 1}:", dict(counts), flush=True)


def replaced(name, how):
    """Puts another file of the same size and time of modification in a file's place. Returns whether its inode is the same."""
    before, text = os.stat(name), contents(name).replace(b"1", b"3").replace(b"2", b"1").replace(b"3", b"2")
    for _ in range(200):
        if how == "inode":
            os.unlink(name)
        with open(name if how == "inode" else name + ".other", "wb") as file:
            file.write(text)
        if how != "inode":
            os.replace(name + ".other", name)
        os.utime(name, ns=(before.st_atime_ns, before.st_mtime_ns))
        after = os.stat(name)
        if how != "inode" or after.st_ino == before.st_ino:
            break
    check("the same size and time", (after.st_size, after.st_mtime_ns) == (before.st_size, before.st_mtime_ns))
    return after.st_ino == before.st_ino


def times(place="times"):
    """Sources with times in the future, files that are replaced with size and time kept, and clocks of the calls that are
    wrong (faketime)."""
    os.makedirs(place, exist_ok=True)
    write(place + "/t.h", "#define T 1\n")
    write(place + "/t.c", '#include "t.h"\nint t = T + 12;\n')
    settle()
    words, found = words_of("t.c"), collections.Counter()
    found[compare("a recording", words, place)] += 1
    for name in ("t.h", "t.c"):
        for how in ("inode", "rename"):
            is_same = replaced(f"{place}/{name}", how)
            found[how, is_same, compare(f"{name} replaced by {how}", words, place)] += 1
    future = time.time() + 3600
    os.utime(place + "/t.h", (future, future))
    found["future", compare("a header in the future", words, place)] += 1
    write(place + "/t.h", "#define T 7\n")
    os.utime(place + "/t.h", (future, future))
    found["future", compare("another one in the future", words, place)] += 1
    library = "/usr/lib/x86_64-linux-gnu/faketime/libfaketime.so.1"
    if os.path.exists(library):
        for moment in ("2001-01-01", "2039-01-01"):
            offset = int(time.mktime(time.strptime(moment, "%Y-%m-%d"))) - int(time.time())
            clock = {"LD_PRELOAD": library, "FAKETIME": f"{offset:+d}"}
            for number in (8, 9):
                write(place + "/t.h", f"#define T {number}\n")
                settle()
                found["clock", compare(f"the clock at {moment}", words, place, **clock)] += 1
                subprocess.run(["touch", place + "/t.h"], env=variables(**clock), check=True)
                found["edit", compare(f"an edit at {moment}", words, place)] += 1
    print(f"times in {place}:", dict(found), flush=True)


def systems():
    """Sources and a store on tmpfs, on an overlay, below a bind mount, and on a file system with times of a second."""
    with Device("memory", "size=8m") as place:
        times(place)
        compare("a store on tmpfs", words_of("times/t.c"), CCK_STORE=place + "/store")
        compare("a store on tmpfs", words_of("times/t.c"), CCK_STORE=place + "/store")
    for name in ("lower/early", "lower/late", "upper", "work", "merged"):
        os.makedirs(name, exist_ok=True)
    write("lower/late/v.h", "#define V 2\n")
    write("lower/v.c", "#include <v.h>\nint v = V;\n")
    shutil.copytree(STORE, "lower/store")
    layers = f"lowerdir={ROOM}/lower,upperdir={ROOM}/upper,workdir={ROOM}/work"
    mount = ["mount", "-t", "overlay", "overlay", "-o", layers, "merged"]
    words, more = ["gcc", "-Iearly", "-Ilate", "-MD", "-c", "v.c", "-o", "o.o"], {"CCK_STORE": ROOM + "/merged/store"}
    found = collections.Counter()
    for step in ("new", "the same", "copied up", "a lower directory that changed"):
        if step == "a lower directory that changed":
            write("lower/early/v.h", "#define V 5\n")
        subprocess.run(mount, check=True)
        if step == "copied up":
            replaced("merged/late/v.h", "write")
        settle()
        found[step, compare(f"an overlay, {step}", words, "merged", **more)] += 1
        subprocess.run(["umount", "merged"], check=True)
    print("an overlay:", dict(found), flush=True)
    os.makedirs("bound", exist_ok=True)
    subprocess.run(["mount", "--bind", "lower", "bound"], check=True)
    compare("a bind mount", words, "bound")
    subprocess.run(["umount", "bound"], check=True)


if __name__ == "__main__":
    run({"damaged": lambda: damaged(int(os.environ.get("DAMAGES", "1000"))), "times": times, "systems": systems})
