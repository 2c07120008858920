#!/usr/bin/env python3
"""The commands `inspect` and `verify` of cck_cache, and the options of cckcc that call them. What `inspect` prints of each
file of a store is compared with what this script reads of it, by docs/FORMATS.md and the reference. Files are damaged, each
in another way, beside sound ones: `verify` has to remove exactly the damaged ones. Run by hand; needs gcc and the program
(CCK_PROGRAM, by default the one that was proved and built here). The last line is `store_files: N passed, M failed`."""
import os
import pathlib
import random
import subprocess
import sys
import tempfile
import time

from explain import entry_lines, escaped, time_words
from reference.times import NANOS

TOP = pathlib.Path(__file__).resolve().parent.parent
PROGRAM = os.environ.get("CCK_PROGRAM", str(TOP / "crates/cck_cache/out/cck_cache"))
WRAPPER = str(TOP / "bin/cckcc")
KINDS = {"entries": b"cck entry 4\n", "objects": b"cck object 4\n"}
NOBODY = 65534
# A file is recorded only if it was written before the call, by the file system's clock.
PAUSE = 0.1
outcomes = []


def check(label, is_right, said=""):
    """Notes whether a case is as it has to be."""
    outcomes.append(is_right)
    if not is_right:
        print(f"FAILED: {label} {said}")


def run(words, **options):
    """What a command does."""
    return subprocess.run([str(word) for word in words], capture_output=True, check=False, **options)


def fletcher(data):
    """The checksum `fletcher_4` of bytes."""
    a = b = c = d = 0
    data += bytes(-len(data) % 4)
    for at in range(0, len(data), 4):
        a = (a + int.from_bytes(data[at:at + 4], "little")) % 2 ** 64
        b, c, d = (b + a) % 2 ** 64, (c + b + a) % 2 ** 64, (d + c + b + a) % 2 ** 64
    return b"".join(total.to_bytes(8, "little") for total in (a, b, c, d))


def framed(data):
    """A frame: the bytes after their length."""
    return len(data).to_bytes(8, "little") + data


def frames(data):
    """The frames of which these bytes are made."""
    while data:
        length = int.from_bytes(data[:8], "little")
        assert 8 + length <= len(data)
        yield data[8:8 + length]
        data = data[8 + length:]


def parts_of(kind, data):
    """The frames of a stored file."""
    assert data.startswith(kind)
    data = data[len(kind):]
    assert data[:32] == fletcher(data[32:])
    return list(frames(data[32:]))


def status_line(part):
    """The line of a status."""
    device, inode = (int.from_bytes(part[at:at + 8], "little") for at in (7, 15))
    times = [int.from_bytes(part[at:at + 8], "little", signed=True) * NANOS
             + int.from_bytes(part[at + 8:at + 12], "little") for at in (23, 35)]
    return b"status %s %d %d %s %s\n" % (escaped(part[47:]), device, inode, *map(time_words, times))


def test_line(part):
    """The line of a test of a path."""
    word, rest = part.split(b" ", 1)
    if word == b"searched":
        return b"searched %d %s\n" % (int.from_bytes(rest[:8], "little"), escaped(rest[8:]))
    if word == b"real":
        length = int.from_bytes(rest[:8], "little")
        return b"real %s %s\n" % (escaped(rest[8 + length:]), escaped(rest[8:8 + length]))
    assert word in (b"absent", b"file", b"directory", b"plain")
    return word + b" " + escaped(rest) + b"\n"


def listing(path):
    """What `inspect` has to print of a file."""
    kind = KINDS[path.parts[-3]]
    parts = parts_of(kind, path.read_bytes())
    lines = b"path " + bytes(path) + b"\n"
    if path.parts[-3] == "objects":
        name, made, messages, dependencies = parts
        return lines + b"name %s\nobject %d\nmessages %s\ndependencies %s\n" % (
            escaped(name), len(made), escaped(messages), escaped(dependencies))
    key, entry, *others = parts
    lines += b"preprocessor_key " + escaped(key) + b"\n" + entry_lines(entry)
    return lines + b"".join(status_line(part) if part.startswith(b"status ") else test_line(part) for part in others)


def fill(room, store):
    """Makes a store with entries and objects of several kinds."""
    (room / "i").mkdir()
    (room / "i/a.h").write_text("#pragma once\nstatic int a;\n")
    (room / 'i/b"\t.h').write_text("int b;\n")
    (room / "i/c.h").write_text("int c;\n")
    sources = {
        "p.c": "int p;\n",
        "a.c": '#include "i/a.h"\nint x(void) { return 1; }\n',
        "w.c": "#include <stdio.h>\n#include <a.h>\nint y(void) { int unused; return x(); }\n",
        "m.c": "#include <b\"\t.h>\nint z;\n",
        "t.c": '#if __has_include("i/a.h")\n#endif\n#include "i/c.h"\nint t;\n',
        "d.c": '#include "i/../i/c.h"\nint d;\n',
    }
    for name, text in sources.items():
        (room / name).write_text(text)
    time.sleep(PAUSE)
    for name in sources:
        for more in ([], ["-MD"], ["-g", "-O2", "-MMD", "-MF", "d"]):
            run([WRAPPER, "gcc", "-Wall", "-Ii", *more, "-c", name], cwd=room)
    (room / "i/a.h").write_text("#pragma once\nstatic int a, c;\n")
    time.sleep(PAUSE)
    run([WRAPPER, "gcc", "-Wall", "-Ii", "-c", "a.c"], cwd=room)
    return sorted(path for kind in KINDS for path in (store / kind).rglob("*") if path.is_file())


def compare_listings(store, files):
    """Compares what is printed of each file."""
    for path in files:
        done = run([WRAPPER, "--inspect", path])
        check(f"inspect {path.parts[-3]}", (done.returncode, done.stdout) == (0, listing(path)), done)
    for path in files:
        kind, name = path.parts[-3], path.name
        key = name.split(".")[0]
        wanted = [listing(path) for path in files if path.parts[-3] == kind and path.name.split(".")[0] == key]
        done = run([WRAPPER, "-i", key])
        check("inspect KEY", done.returncode == 0 and sorted(wanted) == sorted(
            b"path " + part for part in done.stdout.split(b"path ")[1:]), done)
    words = {line.split(b" ")[0] for path in files for line in listing(path).splitlines()}
    check("inspect, each kind of test", words >= {b"absent", b"file", b"directory", b"searched", b"plain", b"real"}, words)
    check("inspect, both kinds", {path.parts[-3] for path in files} == set(KINDS))
    check("inspect, several entry files of a key", any("." in path.name for path in files))
    for words, status in ([["0" * 64], 1], [["/none"], 1], [[str(TOP / "README.md")], 1], [[], 2], [["a", "b"], 2]):
        done = run([WRAPPER, "--inspect", *words])
        check(f"inspect {words}", done.returncode == status and not done.stdout and done.stderr, done)


def with_frames(path, change):
    """The bytes of a file whose frames are changed, with the checksum that they have then."""
    kind = KINDS[path.parts[-3]]
    data = b"".join(map(framed, change(parts_of(kind, path.read_bytes()))))
    return kind + fletcher(data) + data


def damages(path, rng):
    """Ways to damage a file: for each its name, the path at which the damaged file is, and its bytes."""
    data = path.read_bytes()
    at = rng.randrange(len(data))
    yield "a bit", path, data[:at] + bytes([data[at] ^ 1 << rng.randrange(8)]) + data[at + 1:]
    yield "cut", path, data[:at]
    yield "empty", path, b""
    yield "one more byte", path, data + b"\0"
    yield "another version", path, data.replace(b" 4\n", b" 3\n", 1)
    yield "another directory", path.parent.parent / "zz" / path.name, data
    name = path.name[:-1] + ("0" if path.name[-1] != "0" else "1")
    yield "another name", path.with_name(name), data
    yield "another key", path, with_frames(path, lambda parts: [parts[0][::-1], *parts[1:]])
    if path.parts[-3] == "entries":
        for place in ("16", "01", "0", "", "1.1"):
            yield f"place {place!r}", path.with_name(path.name.split(".")[0] + "." + place), data
        yield "another entry", path, with_frames(path, lambda parts: [parts[0], parts[1] + b"\0", *parts[2:]])
        yield "no entry", path, with_frames(path, lambda parts: [parts[0], b"", *parts[2:]])
        yield "a test before a status", path, with_frames(path, lambda parts: [*parts[:2], b"file /a", *parts[2:]])
        yield "an unknown test", path, with_frames(path, lambda parts: [*parts, b"link /a"])
    else:
        yield "a frame more", path, with_frames(path, lambda parts: [*parts, b""])
        yield "a frame less", path, with_frames(path, lambda parts: parts[:-1])


def verified(store, damaged, files, label):
    """Tests a store in which these files are damaged and those are sound."""
    done = run([WRAPPER, "--verify"])
    lines = done.stdout.decode().splitlines()
    wanted = [f"damaged {path}" for path in damaged]
    last = f"verified {len(files) + len(damaged)} files, removed {len(damaged)}"
    check(label, (done.returncode, sorted(lines[:-1]), lines[-1:]) == (0, sorted(wanted), [last]), done)
    left = {path for kind in KINDS for path in (store / kind).rglob("*") if path.is_file()}
    check(f"{label}: what is left", left == set(files), left ^ set(files))


def compare_damages(store, files):
    """Damages each file in each way, and has all tested."""
    rng = random.Random(1)
    verified(store, [], files, "verify, all sound")
    held = {path: path.read_bytes() for path in files}
    for path in files:
        for name, place, data in damages(path, rng):
            place.parent.mkdir(exist_ok=True)
            place.write_bytes(data)
            verified(store, [place], [other for other in files if other != place], f"verify, {path.parts[-3]}: {name}")
            path.write_bytes(held[path])
    new = files[0].with_name(files[0].name + ".new1")
    new.write_bytes(b"x")
    done = run([WRAPPER, "-v"])
    check("verify, a file that is being written", done.returncode == 0 and new.exists()
          and done.stdout == b"verified %d files, removed 0\n" % len(files), done)
    new.unlink()


def compare_unread(room, files):
    """A file that can't be read is left, as is a damaged one that can't be removed."""
    if os.getuid() != 0:
        print("store_files: files that can't be read are tried by root alone")
        return
    for path in [room, *room.rglob("*")]:
        if not path.is_symlink():
            path.chmod(0o755 if path.is_dir() else 0o644)
    files[0].chmod(0)
    files[1].write_bytes(b"x")
    done = run([PROGRAM, "verify", room / "store"], user=NOBODY, group=NOBODY, extra_groups=[])
    wanted = [b"damaged %s" % bytes(files[1]), b"unread %s" % bytes(files[0])]
    *lines, last, error = done.stdout.splitlines()
    check("verify, by another user", done.returncode == 1 and sorted(lines) == wanted
          and last == b"verified %d files, removed 0" % len(files) and error.startswith(b"error: 2 files "), done)


def pass_over(store, files):
    """A file among the directories of the store, and a link, are no files of the store."""
    stray, link = store / "entries/stray", files[0].with_name("0" * 64)
    stray.write_bytes(b"x")
    link.symlink_to(files[0])
    done = run([PROGRAM, "verify", store])
    wanted = b"verified %d files, removed 0\n" % len(files)
    check("verify, a stray file and a link", (done.returncode, done.stdout) == (0, wanted), done)
    done = run([PROGRAM, "stats", store])
    numbers = [b"%s %d " % (kind.encode(), sum(path.parts[-3] == kind for path in files)) for kind in KINDS]
    check("stats, a stray file and a link", done.returncode == 0 and all(number in done.stdout for number in numbers), done)
    check("what is passed over is left", stray.exists() and link.is_symlink())
    stray.unlink()
    link.unlink()


def tell_damages(room, store):
    """What a look-up that misses tells of damaged files, in the log, and what is counted."""
    log = room / "damages.log"
    os.environ.update(CCK_STORE=str(store), CCK_LOG=str(log))

    def told(label, wanted, verdict="recorded"):
        """Calls, and tests what is told after the key and the time, and what the call is found to be."""
        log.write_text("")
        done = run([WRAPPER, "gcc", "-MD", "-c", "l.c"], cwd=room)
        lines = [line.split(" ") for line in log.read_text().splitlines()]
        found = [line[5:-1] for line in lines if line[1:3] == ["look:", "miss"]]
        check(f"told, {label}", (done.returncode, found, lines[-1][1]) == (0, wanted, verdict), (found, lines))
        return [line[4] for line in lines if line[1] == "why" and line[3] == "damaged"]

    (room / "l.c").write_text('#include "l.h"\nint l = L;\n')
    for state in (1, 2):
        (room / "l.h").write_text(f"#define L {state}\n")
        time.sleep(PAUSE)
        told(f"nothing is damaged, {state}", [[]])
    first, second = sorted((path for path in (store / "entries").rglob("*") if path.is_file()), key=lambda path: path.name)
    held = first.read_bytes(), second.read_bytes()
    found = max((path for path in (store / "objects").rglob("*") if path.is_file()), key=lambda path: path.stat().st_mtime_ns)
    second.write_bytes(b"x")
    told("the second entry file", [["damaged", str(second)]])
    first.write_bytes(b"x")
    second.write_bytes(b"x")
    causes = told("two entry files", [["damaged", str(first)]])
    check("told, why there is no hit", causes == [str(first), str(second)], causes)
    first.write_bytes(held[0])
    second.write_bytes(held[1])
    found.write_bytes(b"x")
    told("the object", [["object", found.name, "damaged", str(found)]])
    found.write_bytes(with_frames(found, lambda parts: [*parts[:3], b""]))
    told("an object without the dependencies", [["object", found.name]])
    check("told, the dependency file", (room / "l.d").read_text().endswith(" l.h\n"))
    told("nothing", [], "hit")
    for path in (first, second):
        path.unlink()
    told("the entry files are gone", [[]], "hit")
    check("a recording of an entry alone is not counted", (store / "counts/recorded").stat().st_size == 6)
    names = [line.split()[1] for line in run([PROGRAM, "stats", store]).stdout.splitlines() if line.startswith(b"count ")]
    check("stats, the order of the counts", len(names) > 2 and names == sorted(names), names)
    check("damaged files of a store are none of a server", not list((store / "counts").glob("server-*")))
    del os.environ["CCK_LOG"]


# Words that are wrong together, or one of them, and what is said of them.
WRONG_WORDS = [
    (["unpack", "store", "--name=a", "--out=b", "--packed=c", "--server=only"], b"--packed without --server"),
    (["unpack", "store", "--name=a", "--out=b", "--packed=c", "--verify-key=k"], b"--verify-key come with --server"),
    (["unpack", "store", "--name=a", "--out=b", "--packed=c", "--address=k"], b"--verify-key come with --server"),
    (["seal", "entry", "a", "--expanded=x"], b"is a number of bytes"),
    (["prune", "store", "--max-size=-1"], b"is a number of bytes"),
]


def refuse_words(room):
    """Words that the program refuses, before it does anything."""
    for words, text in WRONG_WORDS:
        done = run([PROGRAM, *words], cwd=room, input=b"")
        check(f"refused: {words}", done.returncode == 2 and not done.stdout and text in done.stderr, done)


def damage_digest(room, store):
    """Exchanges the file of a compiler's digest for that of another name: the next call makes it anew."""
    path, = (store / "digests").iterdir()
    kept = path.read_bytes()
    check("a digest has its name", kept[:64].isalnum() and kept[64:] == b" " + path.name.encode(), kept)
    path.write_bytes(b"0" * 64 + b" " + b"1" * 64)
    done = run([WRAPPER, "gcc", "-Wall", "-Ii", "-c", "p.c"], cwd=room)
    check("a digest of another name is not read", done.returncode == 0 and path.read_bytes() == kept, done)


def main():
    with tempfile.TemporaryDirectory() as room:
        room = pathlib.Path(room)
        store = room / "store"
        os.environ.update(CCK_STORE=str(store), CCK_PROGRAM=PROGRAM, XDG_CONFIG_HOME=str(room / "none"))
        files = fill(room, store)
        compare_listings(store, files)
        compare_damages(store, files)
        pass_over(store, files)
        refuse_words(room)
        tell_damages(room, room / "told")
        os.environ["CCK_STORE"] = str(store)
        compare_unread(room, files)
        damage_digest(room, store)
    failed = outcomes.count(False)
    print(f"store_files: {outcomes.count(True)} passed, {failed} failed")
    return 1 if failed else 0


if __name__ == "__main__":
    sys.exit(main())
