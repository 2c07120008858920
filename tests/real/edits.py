"""Builds with random edits between them: each object and each dependency file is the plain compiler's.
Run by tests/real_edits.sh, in the directory of the sources, with the wrapper in PATH."""
import collections
import glob
import os
import random
import shutil
import subprocess
import sys

BUILDS = int(os.environ.get("BUILDS", "200"))
SEED = int(os.environ.get("SEED", "1"))
JOBS = os.environ.get("JOBS", "4")
MAKEFILE = os.environ["MAKEFILE"]
LOG = os.environ["CCK_LOG"]
FLAGS = ["-O1", "-g", "-Iearlier"]
chance = random.Random(SEED)

sources = sorted(glob.glob("*.c"))
headers = sorted(glob.glob("*.h"))
original = {name: open(name, "rb").read() for name in sources + headers}
flags = list(FLAGS)
states = []
edits = collections.Counter()
made = dependencies = 0


def write(name, contents):
    with open(name, "wb") as file:
        file.write(contents)


def read(name):
    with open(name, "rb") as file:
        return file.read()


def any_file():
    return chance.choice(sources + headers)


def append():
    """A declaration at the end of a file."""
    name = any_file()
    write(name, read(name) + b"\nextern int cck_%d;\n" % chance.randrange(5))


def define():
    """A macro at the start of a file, which its lines move down for."""
    name = any_file()
    write(name, b"#define CCK_%d %d\n" % (chance.randrange(5), chance.randrange(5)) + read(name))


def replace():
    """Another character in a place that no compiler may see as an error: a comment's."""
    name = any_file()
    text = read(name)
    place = text.find(b"/*")
    if place >= 0:
        write(name, text[:place + 2] + b" %d" % chance.randrange(100) + text[place + 2:])


def restore():
    """The contents that a file had at first."""
    name = any_file()
    write(name, original[name])


def restore_all():
    """The contents that all files had at first."""
    for name, contents in original.items():
        write(name, contents)


def touch():
    """Another time of modification, now or in the past."""
    name = any_file()
    moment = chance.choice([None, (1000000000 + chance.randrange(10**6),) * 2])
    os.utime(name, moment)


def keep_times():
    """Other contents and the same time of modification, as `cp -p` leaves them."""
    name = any_file()
    status = os.stat(name)
    write(name, read(name) + b"\nextern int kept_%d;\n" % chance.randrange(5))
    os.utime(name, ns=(status.st_atime_ns, status.st_mtime_ns))


def put_earlier():
    """A header of the same name in a directory that is searched first."""
    name = chance.choice(headers)
    os.makedirs("earlier", exist_ok=True)
    write("earlier/" + name, read(name) + b"\nextern int earlier_%d;\n" % chance.randrange(5))


def remove_earlier():
    """That directory's headers are gone, or all of it."""
    names = glob.glob("earlier/*.h")
    if names and chance.randrange(2):
        os.unlink(chance.choice(names))
    else:
        shutil.rmtree("earlier", ignore_errors=True)


def rename():
    """A file takes the place of another name, and comes back by a copy."""
    name = any_file()
    os.rename(name, name + ".old")
    shutil.copyfile(name + ".old", name)
    os.unlink(name + ".old")


def link():
    """A symbolic link in the place of a header."""
    name = chance.choice(headers)
    os.makedirs("linked", exist_ok=True)
    write("linked/" + name, read(name))
    os.unlink(name)
    os.symlink("linked/" + name, name)


def unlink():
    """Regular files in the place of all links."""
    for name in headers:
        if os.path.islink(name):
            contents = read(name)
            os.unlink(name)
            write(name, contents)


def switch():
    """One of up to five states that the files had, as `git switch` leaves them: what differs is a new file."""
    now = {name: read(name) for name in original}
    if len(states) < 5:
        states.append(now)
    for name, contents in chance.choice(states).items():
        if contents != now[name]:
            os.unlink(name)
            write(name, contents)


def change_flags():
    """Another macro or optimization on the command line, or dependency files."""
    flags[:] = FLAGS + chance.choice([[], [], ["-DCCK_FLAG=%d" % chance.randrange(3)], ["-O0"]])
    flags.extend(chance.choice([[], ["-MD", "-MP"], ["-MMD"]]))


EDITS = [append, append, define, replace, restore, restore, touch, keep_times, put_earlier,
         remove_earlier, rename, link, unlink, change_flags, restore_all, switch, switch, switch]


def make(compiler):
    """Builds all objects by this compiler, and returns them and the dependency files by their names."""
    words = ["make", "-s", "-k", "-f", MAKEFILE, "-j", JOBS, "CC=" + compiler, "CFLAGS=" + " ".join(flags)]
    subprocess.run(["make", "-s", "-f", MAKEFILE, "clean"], check=True)
    done = subprocess.run(words, capture_output=True, check=False)
    return {name: read(name) for name in glob.glob("*.[od]")}, sorted(done.stderr.split(b"\n"))


def without_make(lines):
    """The messages without those of make, which name its own process."""
    return [line for line in lines if not line.startswith(b"make")]


differing = 0
for build in range(BUILDS):
    for _ in range(chance.randrange(4)):
        edit = chance.choice(EDITS)
        edits[edit.__name__] += 1
        edit()
    cached, said = make("cckcc gcc")
    plain, expected = make("gcc")
    made += sum(name.endswith(".o") for name in plain)
    dependencies += sum(name.endswith(".d") for name in plain)
    names = [name for name in sorted(set(cached) | set(plain)) if cached.get(name) != plain.get(name)]
    if without_make(said) != without_make(expected):
        names.append("the messages")
    for name in names:
        print(f"FAILED: build {build} of seed {SEED}: {name} differs")
    differing += len(names)
with open(LOG, encoding="utf-8", errors="replace") as file:
    words = collections.Counter(" ".join(line.split()[1:3]).split(" ")[0] for line in file)
print(f"{BUILDS} builds, {made} objects, {dependencies} dependency files, {sum(edits.values())} edits: {dict(sorted(edits.items()))}")
print("the log:", dict(sorted(words.items())))
if differing:
    print(f"{differing} failed")
    sys.exit(1)
print("all passed")
