"""Kills recordings, damages stores, changes files between two steps and while they are read, makes four builds at
once and fills a device: never a wrong object or a wrong dependency file. It also tests what `prune` removes. Run by
tests/real_faults.sh, in an empty directory, with the program's path in CCK_PROGRAM and the wrapper in
PATH."""
import os
import random
import shutil
import subprocess
import sys
import time

PROGRAM = os.environ["CCK_PROGRAM"]
ROOM = os.getcwd()
STORE = ROOM + "/store"
SEED, BUILDS = int(os.environ.get("SEED", "1")), 4
chance = random.Random(SEED)
faults = []


def text_of(words, **rest):
    """The standard output of a command."""
    return subprocess.run(words, capture_output=True, text=True, check=False, **rest).stdout


def programs():
    """The paths of gcc's programs, with colons between them."""
    driver = shutil.which("gcc")
    compiler = text_of(["gcc", "-print-prog-name=cc1"]).strip()
    assembler = shutil.which(text_of(["gcc", "-print-prog-name=as"]).strip())
    return ":".join([driver, compiler, assembler])


CALL = ["--compiler", programs(), "--directory", ROOM]


def settle():
    """Waits until a file that is written now is older than a look-up after this."""
    time.sleep(0.05)


def write(name, text):
    with open(name, "w", encoding="ascii") as file:
        file.write(text)


def contents(name):
    with open(name, "rb") as file:
        return file.read()


def words_of(source):
    """The words of a compilation that writes a dependency file, without those that name what it writes."""
    return ["-c", source, "-MD", "-MT", "o.o"]


def made(name):
    """The contents of an object and of the dependency file beside it, if they are there."""
    return [contents(path) if os.path.exists(path) else None for path in (name + ".o", name + ".d")]


def look(source, store=STORE):
    """The words of the first line that a look-up prints, and the object and the dependency file that it writes."""
    for name in ("got.o", "got.d"):
        if os.path.exists(name):
            os.unlink(name)
    said = text_of([PROGRAM, "look", store, *CALL, "--", *words_of(source), "-MF", "got.d", "-o", "got.o"])
    return said.partition("\n")[0].split(), made("got")


def preprocess(source):
    with open("search", "wb") as search:
        subprocess.run(["gcc", "-c", source, "-E", "-v", "-o", "text"], stderr=search, check=False,
                       env={**os.environ, "LC_ALL": "C"})


def compile_(source, name="o"):
    """Compiles to an object and a dependency file of this name."""
    with open("messages", "wb") as messages:
        subprocess.run(["gcc", *words_of(source), "-MF", name + ".d", "-o", name + ".o", "-Xassembler", "--MD",
                        "-Xassembler", "assembled"], stderr=messages, check=False)


def start_record(source, missed, store=STORE, **variables):
    """Begins to record what was compiled after this look-up, with more variables of the environment."""
    return subprocess.Popen(
        [PROGRAM, "record", store, "--since", missed[2], "--preprocessor-key", missed[1], "--compiled", "o.o",
         "--dependencies", "o.d", "--assembled", "assembled", "--search", "search", "--messages", "messages", *CALL,
         "--", *words_of(source), "-MF", "o.d", "-o", "o.o"],
        stdin=open("text", "rb"), stdout=subprocess.PIPE, stderr=subprocess.DEVNULL, text=True,
        env={**os.environ, **variables})


def record(source, missed, store=STORE, **variables):
    process = start_record(source, missed, store, **variables)
    return process.communicate()[0].strip()


def is_right(source, found, got):
    """Whether a look-up missed, or wrote the plain compiler's object and dependency file."""
    if not found or found[0] != "hit":
        return True
    compile_(source, "plain")
    return got == made("plain")


def killed(times):
    """Recordings that are killed at random moments."""
    counts = {"hit": 0, "miss": 0, "wrong": 0, "other": 0, "left": 0}
    write("k.c", "#include <stdio.h>\n#include <stdlib.h>\nint v = 1;\n")
    settle()
    preprocess("k.c")
    compile_("k.c")
    begun = time.time()
    missed, _ = look("k.c")
    record("k.c", missed)
    whole = time.time() - begun
    for _ in range(times):
        shutil.rmtree(STORE, ignore_errors=True)
        missed, _ = look("k.c")
        process = start_record("k.c", missed)
        time.sleep(chance.random() * whole)
        process.kill()
        process.communicate()
        counts["left"] += sum(".new" in name for _, _, names in os.walk(STORE) for name in names)
        found, got = look("k.c")
        kind = found[0] if found and found[0] in ("hit", "miss") else "other"
        counts[kind] += 1
        if not is_right("k.c", found, got):
            counts["wrong"] += 1
    print("killed recordings:", counts)
    if counts["wrong"] or counts["other"] or not counts["hit"] or not counts["miss"]:
        faults.append("killed recordings")


def stored(store=STORE):
    return sorted(os.path.join(at, name) for kind in ("entries", "objects")
                  for at, _, names in os.walk(f"{store}/{kind}") for name in names)


def damage(path, others):
    """Damages a file of the store in one of some ways. Returns the way."""
    data = bytearray(contents(path))
    way = chance.choice(["byte", "cut", "grow", "empty", "zeros", "swap", "front", "other"])
    if way == "byte" and data:
        data[chance.randrange(len(data))] ^= 1 << chance.randrange(8)
    elif way == "cut":
        del data[chance.randrange(len(data) + 1):]
    elif way == "grow":
        data += bytes(chance.randrange(256) for _ in range(chance.randrange(1, 40)))
    elif way == "empty":
        data.clear()
    elif way == "zeros" and data:
        at = chance.randrange(len(data))
        data[at:at + 512] = bytes(len(data[at:at + 512]))
    elif way == "swap":
        data = bytearray(contents(chance.choice(others)))
    elif way == "front":
        del data[:chance.randrange(1, 100)]
    else:
        data = bytearray(b"int main(void) { return 0; }\n")
    with open(path, "wb") as file:
        file.write(data)
    return way


def damaged(times):
    """Look-ups in a store with a damaged file."""
    counts = {"hit": 0, "miss": 0, "wrong": 0, "other": 0}
    shutil.rmtree(STORE, ignore_errors=True)
    sources = []
    for number in range(4):
        write(f"d{number}.c", f"#include <stddef.h>\nint d{number} = {number};\n")
        sources.append(f"d{number}.c")
    settle()
    for source in sources:
        missed, _ = look(source)
        preprocess(source)
        compile_(source)
        record(source, missed)
    plain = {}
    for source in sources:
        compile_(source, "plain")
        plain[source] = made("plain")
    kept = {path: contents(path) for path in stored()}
    for _ in range(times):
        damage(chance.choice(sorted(kept)), sorted(kept))
        for source in sources:
            found, got = look(source)
            kind = found[0] if found and found[0] in ("hit", "miss") else "other"
            counts[kind] += 1
            if kind == "hit" and got != plain[source]:
                counts["wrong"] += 1
        for path, data in kept.items():
            with open(path, "wb") as file:
                file.write(data)
    print("damaged stores:", counts)
    if counts["wrong"] or counts["other"] or not counts["hit"] or not counts["miss"]:
        faults.append("damaged stores")


def swapped():
    """A header, or the input, that changes between two steps of a miss."""
    steps = ["before the text", "before the compilation", "before the recording"]
    ways = ["written", "moved over", "time set back", "link turned"]
    for way in ways:
        for step in steps:
            shutil.rmtree(STORE, ignore_errors=True)
            write("s1.h", "int v = 1;\n")
            write("s2.h", "int v = 2;\n")
            if os.path.lexists("s.h"):
                os.unlink("s.h")
            if way == "link turned":
                os.symlink("s1.h", "s.h")
            else:
                shutil.copy2("s1.h", "s.h")
            write("s.c", '#include "s.h"\n')
            settle()

            def change():
                if way == "written":
                    write("s.h", "int v = 2;\n")
                elif way == "moved over":
                    os.rename("s2.h", "s.h")
                elif way == "time set back":
                    before = os.stat("s.h")
                    write("s.h", "int v = 2;\n")
                    os.utime("s.h", ns=(before.st_atime_ns, before.st_mtime_ns))
                else:
                    os.unlink("s.h")
                    os.symlink("s2.h", "s.h")

            missed, _ = look("s.c")
            for place, action in enumerate([preprocess, compile_]):
                if step == steps[place]:
                    change()
                action("s.c")
            if step == steps[2]:
                change()
            said = record("s.c", missed)
            found, got = look("s.c")
            right = is_right("s.c", found, got)
            print(f"header {way} {step}: {said.split()[0] if said else 'error'},",
                  f"then {found[0] if found else 'error'}, {'right' if right else 'WRONG'}")
            if not right:
                faults.append(f"header {way} {step}")
    shutil.rmtree(STORE, ignore_errors=True)
    write("i.c", "int v = 1;\n")
    settle()
    missed, _ = look("i.c")
    preprocess("i.c")
    compile_("i.c")
    write("i.c", "int v = 2;\n")
    said = record("i.c", missed)
    found, got = look("i.c")
    print(f"input written before the recording: {said}, then {found[0]}")
    if not said.startswith("refused") or not is_right("i.c", found, got):
        faults.append("input written before the recording")


def rewritten():
    """A header, or the input, that is rewritten after its recording, with its size and its time of modification kept."""
    for name in ("r.h", "r.c"):
        shutil.rmtree(STORE, ignore_errors=True)
        write("r.h", "int v = 1;\n")
        write("r.c", '#include "r.h"\nint r = 1;\n')
        settle()
        missed, _ = look("r.c")
        preprocess("r.c")
        compile_("r.c")
        said = record("r.c", missed)
        before, first = os.stat(name), look("r.c")[0]
        write(name, contents(name).replace(b"1", b"2").decode())
        os.utime(name, ns=(before.st_atime_ns, before.st_mtime_ns))
        after, second = os.stat(name), look("r.c")[0]
        kept = (before.st_size, before.st_mtime_ns) == (after.st_size, after.st_mtime_ns)
        print(f"{name} rewritten, size and time kept: {said.split()[0]}, {first[0]}, then {second[0]}")
        if not kept or (first[0], second[0]) != ("hit", "miss"):
            faults.append(f"{name} rewritten")


def swapped_while_read():
    """The input, or a header, that changes while a recording reads it, its length the same."""
    library = ROOM + "/swap.so"
    subprocess.run(["gcc", "-shared", "-fPIC", "-O2", "-o", library, os.path.dirname(__file__) + "/swap.c", "-ldl"],
                   check=True)
    for name in ("w.c", "w.h"):
        for how in ("move", "write"):
            for before in ("open", "read", "end"):
                shutil.rmtree(STORE, ignore_errors=True)
                write("w.h", "int v = 1;\n")
                write("w.c", '#include "w.h"\nint w = 1;\n')
                changed = contents(name).replace(b"1", b"2")
                write("with", changed.decode())
                settle()
                missed, _ = look("w.c")
                preprocess("w.c")
                compile_("w.c")
                said = record("w.c", missed, LD_PRELOAD=library, SWAP_PATH=f"{ROOM}/{name}", SWAP_WITH=ROOM + "/with",
                              SWAP_HOW=how, SWAP_BEFORE=before)
                found, got = look("w.c")
                right = is_right("w.c", found, got) and contents(name) == changed and said.startswith("refused")
                print(f"{name}, {how} before the {before}: {said}, then {found[0] if found else 'error'},",
                      "right" if right else "WRONG")
                if not right:
                    faults.append(f"{name} that changes before the {before}")


def at_once(number):
    """Four builds at once that share a store, and the keys."""
    shutil.rmtree(STORE, ignore_errors=True)
    names = []
    for place in range(number):
        write(f"b{place}.c", f"#include <stdio.h>\nint b{place} = {place};\n")
        names.append(f"b{place}")
    settle()
    environment = {**os.environ, "CCK_STORE": STORE}
    wrong = 0
    for _ in range(2):
        running = [subprocess.Popen(["cckcc", "gcc", *words_of(f"{name}.c"), "-o", f"{name}.{build}.o"], env=environment)
                   for name in names for build in range(BUILDS)]
        for process in running:
            process.wait()
        for name in names:
            compile_(f"{name}.c", "plain")
            wrong += sum(made(f"{name}.{build}") != made("plain") for build in range(BUILDS))
    print(f"{BUILDS} builds at once: {2 * BUILDS * number} objects, {wrong} wrong")
    if wrong:
        faults.append("builds at once")


def full():
    """A store on a full device."""
    os.makedirs("device", exist_ok=True)
    if subprocess.run(["mount", "-t", "tmpfs", "-o", "size=96k", "tmpfs", "device"], check=False,
                      stderr=subprocess.DEVNULL).returncode:
        print("full device: not tried, a device could not be mounted")
        return
    store = ROOM + "/device/store"
    try:
        write("f.c", "#include <stdio.h>\nchar f[60000] = {1};\n")
        settle()
        missed, _ = look("f.c", store)
        preprocess("f.c")
        compile_("f.c")
        with open("device/fill", "wb") as file:
            file.write(bytes(48 * 1024))
        said = record("f.c", missed, store)
        found, got = look("f.c", store)
        right = is_right("f.c", found, got)
        left = sum(".new" in name for _, _, names in os.walk(store) for name in names)
        print(f"full device: {said}, then {found[0]}, {'right' if right else 'WRONG'}, {left} files left")
        if not right or found[0] == "hit":
            faults.append("full device")
    finally:
        subprocess.run(["umount", "device"], check=False)


def unmade():
    """A store that can't be made, or of which a directory can't: the wrapper compiles."""
    write("u.c", "int u;\n")
    settle()
    os.makedirs("partly")
    write("partly/inputs", "")
    for store in ("/proc/cck", ROOM + "/u.c/store", ROOM + "/partly"):
        if os.path.exists("u.o"):
            os.unlink("u.o")
        variables = {**os.environ, "CCK_STORE": store, "CCK_BASEDIR": ROOM}
        got = subprocess.run(["cckcc", "gcc", "-c", "u.c"], env=variables, check=False, capture_output=True)
        if got.returncode or got.stderr or not os.path.exists("u.o"):
            faults.append(f"a store that can't be made: {store}")


def pruned():
    """What `prune` removes: what was used longest ago, and what killed recordings left an hour ago."""
    store = ROOM + "/a.new/store"  # the directories above have any names
    sources = [f"p{number}.c" for number in range(3)]
    for source in sources:
        write(source, f"int {source[:2]} = 1;\n")
    settle()
    begun = time.time()
    for age, source in enumerate(sources):
        before = set(stored(store))
        missed, _ = look(source, store)
        preprocess(source)
        compile_(source)
        record(source, missed, store)
        for path in set(stored(store)) - before:
            os.utime(path, (begun, begun - 7200 - 60 * age))

    def prune(most):
        return text_of([PROGRAM, "prune", store, "--max-size", str(most)]).strip()

    kept = stored(store)
    whole = sum(os.path.getsize(path) for path in kept)
    if prune(whole) != f"removed 0 files, {whole} bytes left" or stored(store) != kept:
        faults.append("prune of a store that fits")
    for name, age in (("old.new1", 7200), ("young.new2", 60)):
        path = os.path.join(os.path.dirname(kept[0]), name)
        write(path, "x")
        os.utime(path, (begun, begun - age))
    prune(whole + 2)
    if [os.path.basename(path) for path in stored(store) if ".new" in os.path.basename(path)] != ["young.new2"]:
        faults.append("prune of what killed recordings left")
    prune(whole // 2)
    left = sum(os.path.getsize(path) for path in stored(store))
    found = [look(source, store)[0][0] for source in sources]
    print(f"pruned to {left} of {whole} bytes: {found}")
    if left > whole // 2 or found != ["hit", "miss", "miss"]:
        faults.append("prune to half")


killed(int(os.environ.get("KILLS", "300")))
damaged(int(os.environ.get("DAMAGES", "1000")))
swapped()
rewritten()
swapped_while_read()
at_once(15)
full()
unmade()
pruned()
if faults:
    print("FAILED:", ", ".join(faults))
    sys.exit(1)
print("all passed")
