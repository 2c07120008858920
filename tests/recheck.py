#!/usr/bin/env python3
"""CCK_DISABLE and CCK_RECHECK: calls of the wrapper with these variables, beside those of the plain compiler. For a hit that
is wrong the object file of the store is changed by hand, with its checksum, or a script stands for the program.
Needs gcc and the program (CCK_PROGRAM, by default the one that was proved and built here). The last line is
`recheck: N passed, M failed`."""
import os
import pathlib
import pty
import shutil
import subprocess
import sys
import tempfile
import time

TOP = pathlib.Path(__file__).resolve().parent.parent
sys.path.insert(0, str(TOP / "tests/real"))
from calls import PROGRAM, need_program  # noqa: E402

FILES = {
    "x.c": '#include "h.h"\nint f(int a) { int unused; return H + a; }\n',
    "h.h": "#define H 1\n",
    "wrong.c": "int f(void) { return ; x\n",
    "main.c": "int main(void) { return 0; }\n",
    "two words.c": "int w;\n",
}
CALLS = ["-c x.c", "-Wall -MMD -O1 -c x.c -o sub/y.o", "-Wall -MD -MF z.d -c x.c", "-c wrong.c", "main.c -o main", "-E x.c",
         "--version", "-c missing.c", "-Wall -fdiagnostics-color=always -c x.c"]
# A field of an object file, the words for it, and those of the call.
FIELDS = [(1, "object", "-c x.c"), (2, "messages", "-Wall -c x.c"), (3, "dependencies", "-MMD -c x.c"),
          (1, "object", "-MMD -c x.c -o sub/y.o")]
LIAR = """#!/bin/sh
case $1:$2 in
look:"$CCK_STORE") echo lie > wrong.o; echo 'hit NAME wrong.c' ;;
*) exec %s "$@" ;;
esac
"""


class Room:
    """A directory with the files of the calls, a store and a log."""

    def __init__(self, place):
        self.place = pathlib.Path(place)
        (self.place / "sub").mkdir()
        for name, text in FILES.items():
            (self.place / name).write_text(text)
        time.sleep(0.02)
        self.variables = {"PATH": f"{TOP}/bin:{os.environ['PATH']}", "HOME": place, "TERM": "xterm", "CCK_PROGRAM": PROGRAM,
                          "CCK_STORE": f"{place}/store", "CCK_LOG": f"{place}/log"}

    def run(self, words, **variables):
        """The status, what is printed, and the files of a call."""
        done = subprocess.run(words, cwd=self.place, env={**self.variables, **variables}, capture_output=True, check=False)
        return done.returncode, done.stdout, done.stderr, self.files()

    def files(self):
        """The files that the calls make, and their contents."""
        found = [path for path in self.place.rglob("*") if path.is_file() and not path.is_symlink()
                 and self.place / "store" not in path.parents]
        return {str(path.relative_to(self.place)): path.read_bytes() for path in found
                if path.name != "log" and path.name not in FILES}

    def clean(self):
        """Removes these files."""
        for name in self.files():
            (self.place / name).unlink()
        (self.place / "log").unlink(missing_ok=True)

    def logged(self):
        """The first words of the lines of the log."""
        log = self.place / "log"
        return [line.split(" ")[1].rstrip(":") for line in log.read_text().split("\n")[:-1]] if log.exists() else []

    def count(self, name):
        """How often something was counted."""
        path = self.place / "store/counts" / name
        return path.stat().st_size if path.exists() else 0


def checksum(data):
    """fletcher_4, the checksum of an object file."""
    sums = [0, 0, 0, 0]
    for at in range(0, len(data), 4):
        add = int.from_bytes(data[at:at + 4].ljust(4, b"\0"), "little")
        for index in range(4):
            add = sums[index] = (sums[index] + add) % 2**64
    return b"".join(value.to_bytes(8, "little") for value in sums)


def forge(store, field):
    """Appends a byte to this field of the one object file of a store, and returns what the field is then."""
    (path,) = [path for path in (store / "objects").rglob("*") if path.is_file()]
    line, rest = path.read_bytes().split(b"\n", 1)
    frames, rest = [], rest[32:]
    while rest:
        length = int.from_bytes(rest[:8], "little")
        frames.append(rest[8:8 + length])
        rest = rest[8 + length:]
    frames[field] += b"!"
    body = b"".join(len(frame).to_bytes(8, "little") + frame for frame in frames)
    path.write_bytes(line + b"\n" + checksum(body) + body)
    return frames[field]


def without_cache(room):
    """With CCK_DISABLE each call is the compiler's, and nothing is asked or written."""
    (room.place / "links").mkdir()
    (room.place / "links/gcc").symlink_to(TOP / "bin/cckcc")
    link = {"PATH": f"{room.place}/links:{room.variables['PATH']}"}
    for call in CALLS:
        wanted = room.run(["gcc", *call.split()])
        room.clean()
        for name, words, more in (("cckcc", ["cckcc", "gcc"], {}), ("link", ["gcc"], link)):
            got = room.run([*words, *call.split()], CCK_DISABLE="1", CCK_RECHECK="1", **more)
            yield f"off, {name}: {call}", got == wanted and not room.logged() and not (room.place / "store").exists()
            room.clean()
    room.run(["cckcc", "gcc", "-c", "x.c"], CCK_DISABLE="0", CCK_RECHECK="")
    yield "0 and nothing do not count", room.logged()[-1:] == ["recorded"] and not room.count("recheck")


def right_hits(room):
    """A call is the compiler's, whether it is a miss, a hit or passed on. A hit is counted as compared."""
    hits = 0
    for call in [*(call.split() for call in CALLS), ["-c", "two words.c"], ["-MMD", "-c", "two words.c", "-o", "it's $x.o"]]:
        wanted = room.run(["gcc", *call])
        room.clean()
        for _ in range(2):
            yield f"recheck: {call}", room.run(["cckcc", "gcc", *call], CCK_RECHECK="1") == wanted
            hits += room.logged()[-1:] == ["hit"]
            room.clean()
    yield "each hit is compared", hits == room.count("recheck") == room.count("hit") == 6
    yield "none differs", room.count("recheck-differs") == 0


def by_link(room):
    """A link to the wrapper, by either kind, is a compiler's name: the hit by it is compared."""
    wanted = room.run(["gcc", "-Wall", "-c", "x.c"])
    room.clean()
    shutil.copytree(TOP / "bin", room.place / "bin")
    shutil.copytree(TOP / "lib", room.place / "lib")
    (room.place / "bin/gcc").hardlink_to(room.place / "bin/cckcc")
    (room.place / "bin/cc").symlink_to("cckcc")
    for number, name in enumerate(("gcc", "cc")):
        for _ in range(2):
            _, *got = room.run([f"{room.place}/bin/{name}", "-Wall", "-c", "x.c"], CCK_RECHECK="1",
                               PATH=f"{room.place}/bin:{os.environ['PATH']}")
            yield f"recheck by a link {name}", got[:2] == list(wanted[1:3]) and got[2]["x.o"] == wanted[3]["x.o"]
            (room.place / "x.o").unlink()
        yield f"a hit by the link {name} is compared", room.count("recheck") == number + 1


def in_terminal(room):
    """The hit of a call in a terminal is compared too: the messages are coloured."""
    for variable in ("0", "1"):
        leader, follower = pty.openpty()
        subprocess.run(["cckcc", "gcc", "-Wall", "-c", "x.c"], cwd=room.place, stderr=follower, check=True,
                       env={**room.variables, "CCK_RECHECK": variable})
        os.close(follower)
        shown = b""
        try:
            while part := os.read(leader, 65536):
                shown += part
        except OSError:
            pass
        os.close(leader)
        yield f"a terminal, {variable}", b"\x1b[" in shown and b"unused" in shown
    yield "the hit in a terminal is compared", room.count("recheck") == 1 and room.count("hit") == 1


def wrong_hits(room):
    """Where a part of an object file was changed, the call has the compiler's files, and those of the hit beside them."""
    for field, word, call in FIELDS:
        subprocess.run(["rm", "-rf", room.place / "store"], check=True)
        wanted = room.run(["gcc", *call.split()])
        room.clean()
        room.run(["cckcc", "gcc", *call.split()])
        forged = forge(room.place / "store", field)
        room.clean()
        yield f"the hit is wrong: {word}", room.run(["cckcc", "gcc", *call.split()]) != wanted and room.logged() == ["hit"]
        room.clean()
        status, output, messages, files = room.run(["cckcc", "gcc", *call.split()], CCK_RECHECK="1")
        out = call.split()[-1].replace(".c", ".o")
        kept = {"object": out + ".cached", "messages": out + ".cached-messages", "dependencies": "x.d.cached"}[word]
        said = messages.decode().split("\n")[-2]
        yield f"it is found: {word}", (status, output) == (1, wanted[1]) and said.startswith(f"cckcc: recheck: {word} differ, ")
        yield f"the compiler's files: {word}", all(files.get(name) == data for name, data in wanted[3].items())
        yield f"what is kept: {word}", files.get(kept) == forged and out + ".cached" in files
        yield f"it is counted and in the log: {word}", room.count("recheck-differs") == 1 and room.logged()[-1] == "recheck"
        room.clean()


def wrong_status(room):
    """A compilation that fails is no hit."""
    liar = room.place / "liar"
    liar.write_text(LIAR % PROGRAM)
    liar.chmod(0o755)
    room.run(["cckcc", "gcc", "-c", "main.c"])
    yield "a lie is a hit", room.run(["cckcc", "gcc", "-c", "wrong.c"], CCK_PROGRAM=str(liar))[0] == 0
    status, _, messages, _ = room.run(["cckcc", "gcc", "-c", "wrong.c"], CCK_PROGRAM=str(liar), CCK_RECHECK="1")
    yield "a failed compilation", status == 1 and b"\ncckcc: recheck: status-1 messages object differ, " in messages


def main():
    need_program()
    passed, failed = 0, 0
    for part in (without_cache, right_hits, by_link, in_terminal, wrong_hits, wrong_status):
        with tempfile.TemporaryDirectory() as place:
            for name, is_right in part(Room(place)):
                passed, failed = passed + bool(is_right), failed + (not is_right)
                if not is_right:
                    print(f"FAILED: {name}")
    print(f"recheck: {passed} passed, {failed} failed")
    sys.exit(failed != 0)


if __name__ == "__main__":
    main()
