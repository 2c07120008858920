"""Calls by the plain compiler and by the wrapper in one place, and what differs, for tests/real/outages.py and
tests/real/damages.py. The program's path is in CCK_PROGRAM, the wrapper in PATH."""
import collections
import os
import random
import re
import shutil
import stat
import subprocess
import sys
import time

PROGRAM = os.environ["CCK_PROGRAM"]
ROOM = os.getcwd()
STORE, LOG, SCRATCH = ROOM + "/store", ROOM + "/log", ROOM + "/tmp"
chance = random.Random(int(os.environ.get("SEED", "1")))
faults = []
# The names of the compiler's temporary files, which differ from call to call.
TEMPORARY = re.compile(rb"/cc[A-Za-z0-9]{6}(?![A-Za-z0-9])")
Outcome = collections.namedtuple("Outcome", "status output messages files")


def check(label, is_right, said=""):
    """Notes a fault."""
    if not is_right:
        print(f"FAILED: {label} {said}", flush=True)
        faults.append(label)


def write(name, text):
    with open(name, "w", encoding="ascii") as file:
        file.write(text)


def contents(name):
    with open(name, "rb") as file:
        return file.read()


def settle():
    """Waits until a file that is written now is older than a look-up after this."""
    time.sleep(0.05)


def variables(**more):
    return {**os.environ, "CCK_STORE": STORE, "CCK_LOG": LOG, "TMPDIR": SCRATCH, **more}


def made(place="."):
    """The mode and the bytes of each output that is there."""
    paths = [f"{place}/{name}" for name in ("o.o", "o.d")]
    return [(stat.S_IMODE(os.stat(path).st_mode), contents(path)) for path in paths if os.path.exists(path)]


def call(words, place=".", user=None, **more):
    """What a call of a compiler does, with these variables, where no output was before."""
    for name in ("o.o", "o.d"):
        if os.path.exists(f"{place}/{name}"):
            os.unlink(f"{place}/{name}")
    done = subprocess.run(words, cwd=place, env=variables(**more), capture_output=True, check=False, user=user, group=user)
    return Outcome(done.returncode, done.stdout, TEMPORARY.sub(b"/ccXXXXXX", done.stderr), made(place))


def words_of(source):
    return ["gcc", "-Wall", "-MD", "-c", source, "-o", "o.o"]


def compare(label, words, place=".", **how):
    """Has the compiler and the wrapper make the same call. Returns the first word of the last line of the log."""
    write(LOG, "")
    wanted, got = call(words, place, **how), call(["cckcc", *words], place, **how)
    differing = [name for name in Outcome._fields if getattr(wanted, name) != getattr(got, name)]
    check(label, not differing, f"{differing} {wanted.status} {got.status} {got.messages[:200]}")
    lines = contents(LOG).decode().splitlines()
    return lines[-1].split()[1] if lines else "nothing"


class Device:
    """A device of this size, with these options, that is mounted at a directory of the room."""

    def __init__(self, name, options):
        self.place, self.options = f"{ROOM}/{name}", options

    def __enter__(self):
        os.makedirs(self.place, exist_ok=True)
        subprocess.run(["mount", "-t", "tmpfs", "-o", self.options, "tmpfs", self.place], check=True)
        os.chmod(self.place, 0o1777)
        return self.place

    def __exit__(self, *_):
        subprocess.run(["umount", self.place], check=True)


def forget():
    """Removes what was recorded."""
    for kind in ("entries", "objects", "inputs"):
        shutil.rmtree(f"{STORE}/{kind}", ignore_errors=True)


def run(parts):
    """Runs the parts that the words name, or all."""
    os.makedirs(SCRATCH, exist_ok=True)
    for name in sys.argv[1:] or parts:
        parts[name]()
    if faults:
        print("FAILED:", ", ".join(sorted(set(faults))))
        sys.exit(1)
    print("all passed")
