#!/usr/bin/env python3
"""A directory that two users share: each has hits by what the other recorded, and no output has another mode than the
compiler's. Run by hand as root, since it runs calls as users. Needs gcc and the program (CCK_PROGRAM, by default the one
that was proved and built here). The last line is `shared: N passed, M failed`."""
import os
import pathlib
import shutil
import stat
import subprocess
import sys
import tempfile

TOP = pathlib.Path(__file__).resolve().parent.parent
sys.path.insert(0, str(TOP / "tests/real"))
from calls import PROGRAM, need_program  # noqa: E402

# Two users and a group: none of these numbers has a name.
FIRST, SECOND, GROUP = 65501, 65502, 65500
SOURCES = {"x.c": "int x = 1;\n", "y.c": "int y = 2;\n", "z.c": "int z = 3;\n"}


class Room:
    """A directory with sources, the wrapper, the program, a store and a directory of each user."""

    def __init__(self, place, mode, owner=0, group=GROUP):
        self.place = pathlib.Path(place)
        self.place.chmod(0o755)
        for name, text in SOURCES.items():
            (self.place / name).write_text(text)
        for name in ("bin", "lib"):
            shutil.copytree(TOP / name, self.place / name)
        shutil.copy(PROGRAM, self.place / "bin/cck_cache")
        (self.place / "bin/cck_cache").chmod(0o755)
        for user in (FIRST, SECOND):
            home = self.place / str(user)
            home.mkdir()
            os.chown(home, user, user)
        self.store = self.place / "store"
        self.store.mkdir()
        os.chown(self.store, owner, group)
        self.store.chmod(mode)

    def call(self, user, source, groups=(GROUP,), umask=0o022, compiler="gcc", held=False, **variables):
        """The first word of the last line of the log of a call by a user, if its object is the compiler's and has the mode of
        the umask; otherwise what is wrong. One that is held is there before, as a file of root that the user may not write."""
        home = self.place / str(user)
        env = {"PATH": f"{self.place}/bin:{os.environ['PATH']}", "HOME": str(home), "CCK_STORE": str(self.store),
               "CCK_LOG": str(home / "log"), **variables}
        how = {"cwd": self.place, "env": env, "user": user, "group": user, "extra_groups": list(groups), "umask": umask,
               "capture_output": True, "check": False}
        made, plain = home / "made.o", home / "plain.o"
        for path in (made, plain, home / "log"):
            path.unlink(missing_ok=True)
        for path in (made, plain) if held else ():
            path.write_bytes(b"held")
            path.chmod(0o444)
        done = subprocess.run(["cckcc", compiler, "-c", source, "-o", made], **how)
        subprocess.run([compiler, "-c", source, "-o", plain], **how)
        if done.returncode or done.stderr or done.stdout:
            return f"status {done.returncode}, {done.stderr}"
        if not plain.exists():
            return "an object where the compiler makes none"
        if made.read_bytes() != plain.read_bytes() or made.stat().st_mode != plain.stat().st_mode:
            return "another object or mode"
        return (home / "log").read_text().splitlines()[-1].split()[1]

    def count(self, name):
        """How often something was counted."""
        path = self.store / "counts" / name
        return path.stat().st_size if path.exists() else 0

    def wrong_modes(self, bits):
        """The directories of the store, and the counts, that lack one of these bits."""
        found = [path for path in self.store.rglob("*") if path.is_dir() or path.parent.name == "counts"]
        return [str(path) for path in found if stat.S_IMODE(path.stat().st_mode) & bits != bits]


def in_turn(room, **how):
    """Each user records a source, and then has a hit by the other's."""
    first = [room.call(FIRST, "x.c", **how), room.call(SECOND, "x.c", **how)]
    second = [room.call(SECOND, "y.c", **how), room.call(FIRST, "y.c", **how)]
    third = [room.call(FIRST, "z.c", **how), room.call(SECOND, "z.c", **how)]
    return first + second + third


WANTED = ["recorded", "hit"] * 3


def by_group(place):
    """The directory has the set-group-ID bit, and its group may write."""
    for umask in (0o022, 0o077):
        room = Room(tempfile.mkdtemp(dir=place), 0o2775)
        yield f"by the group, umask {umask:o}", in_turn(room, umask=umask) == WANTED
        yield f"counts by the group, umask {umask:o}", (room.count("recorded"), room.count("hit")) == (3, 3)
        yield f"modes by the group, umask {umask:o}", not room.wrong_modes(0o020)


def by_umask(place):
    """CCK_UMASK, where all may write."""
    room = Room(tempfile.mkdtemp(dir=place), 0o777)
    yield "by CCK_UMASK", in_turn(room, groups=(), CCK_UMASK="000") == WANTED
    yield "counts by CCK_UMASK", (room.count("recorded"), room.count("hit")) == (3, 3)
    yield "modes by CCK_UMASK", not room.wrong_modes(0o002)
    room = Room(tempfile.mkdtemp(dir=place), 0o775)
    made = room.call(FIRST, "x.c", CCK_UMASK="7"), {stat.S_IMODE(path.stat().st_mode) for path in room.store.glob("objects/*/*")}
    yield "objects by CCK_UMASK", made == ("recorded", {0o660})


def alone(place):
    """A directory of one user: the other has hits alone, and its group gets no right to write."""
    for mode in (0o755, 0o2755):
        room = Room(tempfile.mkdtemp(dir=place), mode, FIRST)
        yield f"a directory of one, {mode:o}", room.call(FIRST, "x.c") == "recorded" and room.call(SECOND, "x.c") == "hit"
        yield f"the other can't record, {mode:o}", room.call(SECOND, "y.c") not in ("recorded", "hit")
        yield f"its own hits, {mode:o}", room.call(FIRST, "x.c") == "hit"
        yield f"its modes, {mode:o}", not any(path.stat().st_mode & 0o022 for path in room.store.rglob("*"))


def unreadable(place):
    """What a user may not read is no hit for that user, though it is as it was recorded."""
    for label, name, mode, text, variables in (
            ("a header of its owner", "h.h", 0o600, '#include "h.h"\n', {}),
            ("a header of its group", "h.h", 0o640, '#include "h.h"\n', {}),
            ("a header for which a source tests", "h.h", 0o600, '#if __has_include("h.h")\nint u;\n#endif\n', {}),
            ("a directory of the search list", "d", 0o700, "#include <g.h>\n", {"CPATH": "d:g"})):
        room = Room(tempfile.mkdtemp(dir=place), 0o755, FIRST)
        for directory in ("d", "g"):
            (room.place / directory).mkdir()
        for path, contents in (("u.c", text), ("h.h", "int h;\n"), ("g/g.h", "int g;\n")):
            (room.place / path).write_text(contents)
        os.chown(room.place / name, FIRST, FIRST)
        (room.place / name).chmod(mode)
        yield f"{label}, recorded", room.call(FIRST, "u.c", **variables) == "recorded"
        yield f"{label}, found again", room.call(FIRST, "u.c", **variables) == "hit"
        said = room.call(SECOND, "u.c", groups=(), **variables)
        yield f"{label}, by another user: {said}", said != "hit" and not said.startswith("an")


def unwritable(place):
    """clang makes no object in the place of one that the user may not write, so there is no hit."""
    room = Room(tempfile.mkdtemp(dir=place), 0o755, FIRST)
    if not shutil.which("clang"):
        return
    for wanted in ("recorded", "hit"):
        yield f"clang, {wanted}", room.call(FIRST, "x.c", compiler="clang") == wanted
    said = room.call(FIRST, "x.c", compiler="clang", held=True)
    yield f"clang, an object that the user may not write: {said}", said.startswith("status 1")


def executable(place):
    """A compiler earlier in PATH that its group alone may execute is not passed over."""
    room = Room(tempfile.mkdtemp(dir=place), 0o755, FIRST)
    (room.place / "p").mkdir()
    path = {"PATH": f"{room.place}/bin:{room.place}/p:{os.environ['PATH']}"}
    for wanted in ("recorded", "hit"):
        yield f"no compiler of a group, {wanted}", room.call(FIRST, "x.c", **path) == wanted
    compiler = room.place / "p/gcc"
    compiler.write_text('#!/bin/sh\nexec /usr/bin/gcc -Dx=y "$@"\n')
    os.chown(compiler, 0, GROUP)
    compiler.chmod(0o750)
    said = room.call(FIRST, "x.c", **path)
    yield f"a compiler of a group: {said}", said == "passed"


def main():
    need_program()
    if os.geteuid():
        sys.exit("shared: needs root")
    passed, failed = 0, 0
    with tempfile.TemporaryDirectory() as place:
        os.chmod(place, 0o755)
        for part in (by_group, by_umask, alone, unreadable, unwritable, executable):
            for name, is_right in part(place):
                passed, failed = passed + bool(is_right), failed + (not is_right)
                if not is_right:
                    print(f"FAILED: {name}")
    print(f"shared: {passed} passed, {failed} failed")
    sys.exit(failed != 0)


if __name__ == "__main__":
    main()
