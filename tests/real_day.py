#!/usr/bin/env python3
"""A day of work on real projects, each of another build system: commits as developers make them, touched files, other
flags and switches between two branches, and a build of all after each. A state is built from nothing by the plain
compiler and by the wrapper, at one path, and all is compared: each file that a build makes, and of each call of the
compiler the status, the output and the messages. A difference counts if a second plain build agrees with the first. The
first states are also built by ccache, for its hits. Run by hand; needs gcc, git, make, CMake, Ninja, ccache, the program
(CCK_PROGRAM, by default the one that was proved and built here), and Debian's package archive, or CCK_SOURCES, which
names a directory with the archives. The last line is `real_day: N passed, M failed`."""
import argparse
import collections
import glob
import os
import re
import shutil
import subprocess
import sys
import tempfile
import time

sys.path.insert(0, os.path.join(os.path.dirname(os.path.abspath(__file__)), "real"))
from calls import PROGRAM, WRAPPER, Tree, changes, need_program, put_back  # noqa: E402
from commits import STEPS, Checkout, read  # noqa: E402

# The patterns of the files that are edited; and what is run once, after a change of the flags, and to build. The directory
# is `build`; TREE, FLAGS, JOBS are variables, and EARLY is an option for the first directory of the search path.
Project = collections.namedtuple("Project", "sources configure flags build")
CMAKE = 'cmake -DCMAKE_BUILD_TYPE=Plain "$TREE"'
CMAKE_FLAGS = 'cmake -DCMAKE_C_FLAGS="$EARLY $FLAGS" -DCMAKE_CXX_FLAGS="$EARLY $FLAGS" .'
NINJA = 'ninja -k 0 -j "$JOBS" -d keepdepfile'
PROJECTS = {
    "giflib": Project(["*.[ch]"], ":", ":", 'make -k -C "$TREE" -j "$JOBS" CC=gcc CFLAGS="$EARLY -std=gnu99 -fPIC -Wall '
                      '$FLAGS" libgif.so libgif.a libutil.so libutil.a giftool'),
    "libevent": Project(["*.[ch]", "include/*/*.h"], '"$TREE/configure" CC=gcc --disable-openssl --disable-static '
                        '--disable-samples --disable-libevent-regress', ":",
                        'make -k -j "$JOBS" DEFS="$EARLY -DHAVE_CONFIG_H" CFLAGS="$FLAGS -Wall"'),
    "libyaml": Project(["src/*.[ch]", "include/*.h", "tests/*.c"], CMAKE + " -G Ninja", CMAKE_FLAGS, NINJA),
    # (it calls ccache itself if it finds it)
    "libjsoncpp": Project(["src/lib_json/*.cpp", "src/lib_json/*.h", "include/json/*.h"], CMAKE + " -G Ninja "
                          "-DCCACHE_EXECUTABLE=OFF -DJSONCPP_WITH_TESTS=OFF -DBUILD_OBJECT_LIBS=OFF", CMAKE_FLAGS, NINJA),
    "snappy": Project(["snappy.*", "snappy-[cis]*"], CMAKE + " -DSNAPPY_BUILD_TESTS=OFF -DSNAPPY_BUILD_BENCHMARKS=OFF",
                      CMAKE_FLAGS, 'make -k -j "$JOBS"'),
}
# What a build writes of its times.
TIMES = re.compile(r"\.ninja_(log|deps)$|\.log$|CMakeFiles/Progress/|CMakeFiles/.*progress")
# Keeps each call of a compiler with what it prints.
LAUNCHER = r"""#!/bin/sh
place=$DAY_CALLS/$$
printf '%s\n' "$PWD" "${0##*/}" "$@" >"$place.words"
CCK_LOG=$place.log CCACHE_STATSLOG=$place.log $DAY_CACHE @compiler "$@" >"$place.output" 2>"$place.messages"
status=$?
echo $status >"$place.status"
[ ! -s "$place.output" ] || cat "$place.output"
[ ! -s "$place.messages" ] || cat "$place.messages" >&2
exit $status
"""
# The compiler of each name with --clang.
CLANG = {"gcc": "clang", "cc": "clang", "g++": "clang++", "c++": "clang++"}
CACHES = {"plain": "", "cached": WRAPPER, "ccache": "ccache"}
# What ccache's counters say of a call.
COUNTERS = {"direct_cache_hit": "hit", "preprocessed_cache_hit": "hit", "cache_miss": "miss"}
Built = collections.namedtuple("Built", "status files calls labels")


def label(lines):
    """What a cache did in a call, by the lines of its log: cckcc's, or ccache's counters."""
    found = "no log"
    for line in lines:
        if passed := re.match(r"cckcc: passed on \((.*?)\)", line):
            found = f"passed on: {passed[1]}"
        elif known := re.match(r"cckcc: (hit|recorded|not recorded|refused-[\w-]+|error)", line):
            found = known[1]
    if lines and lines[0].startswith("#"):
        found = next((COUNTERS[name] for name in COUNTERS if name in lines[1:]), " ".join(sorted(set(lines[1:]))))
    return found


class Work:
    """A project in a room: its tree, its directory for builds, and what each call of a compiler did."""

    def __init__(self, room, name, options):
        self.room, self.project, self.options = room, PROJECTS[name], options
        for path in ("top/build", "top/tree", "bin", "calls", "tmp", "home"):
            os.makedirs(f"{room}/{path}")
        tree = room + "/top/tree"
        self.made = Tree(room + "/top")
        self.checkout = Checkout(tree, room + "/git", self.project.sources, f"{options.seed} {name}")
        for compiler in CLANG:
            with open(f"{room}/bin/{compiler}", "w", encoding="utf-8") as file:
                file.write(LAUNCHER.replace("@compiler", shutil.which(CLANG[compiler] if options.clang else compiler)))
            os.chmod(f"{room}/bin/{compiler}", 0o755)
        self.variables = {"PATH": f"{room}/bin:{os.environ['PATH']}", "HOME": room + "/home", "TMPDIR": room + "/tmp",
                          "LC_ALL": "C", "CCK_PROGRAM": PROGRAM, "CCK_STORE": room + "/store", "CCACHE_DIR": room + "/ccache",
                          "TREE": tree, "EARLY": f"-I{tree}/early", "JOBS": str(options.jobs), "DAY_CALLS": room + "/calls"}

    def run(self, command, cache="plain"):
        """Runs a command of the shell in the directory for builds, and returns its status."""
        variables = {**self.variables, "FLAGS": self.checkout.flags, "DAY_CACHE": CACHES[cache]}
        with open(self.room + "/printed", "wb") as file:
            return subprocess.run(["sh", "-c", command], cwd=self.room + "/top/build", env=variables, stdout=file,
                                  stderr=subprocess.STDOUT, stdin=subprocess.DEVNULL, check=False).returncode

    def start(self, archive):
        """Unpacks and configures the sources, and returns whether that succeeds."""
        subprocess.run(["tar", "-xf", archive, "-C", self.checkout.tree, "--strip-components", "1"], check=True)
        self.checkout.start()
        return self.run(self.project.configure) == 0 and self.run(self.project.flags) == 0

    def build(self, cache):
        """Builds all, returns what came of it, and puts the tree back."""
        shutil.rmtree(self.room + "/calls")
        os.mkdir(self.room + "/calls")
        before = self.made.read()
        status = self.run(self.project.build, cache)
        after = self.made.read()
        files = {path: node for path, node in changes(before, after).items() if not TIMES.search(path)}
        self.made.forget(put_back(self.room + "/top", before, after))
        calls, labels = {}, {}
        for path in glob.glob(self.room + "/calls/*.words"):
            words, place = read(path).decode(), path[:-len("words")]
            calls.setdefault(words, []).append(tuple(read(place + kind) for kind in ("status", "output", "messages")))
            labels[words] = label(read(place + "log").decode().splitlines())
        return Built(status, files, {words: sorted(outputs) for words, outputs in calls.items()}, labels)


class Day:
    """The builds of one project, and what was counted."""

    def __init__(self, work, name):
        self.work, self.name, self.options, self.chance = work, name, work.options, work.checkout.chance
        self.failed = self.broken = self.builds = self.calls = 0
        self.files, self.both, self.labels = collections.Counter(), collections.Counter(), collections.Counter()

    def steps(self):
        """From one to three steps."""
        done = []
        while len(done) < self.chance.choice([1, 1, 2, 3]):
            what = self.chance.choices(list(STEPS), list(STEPS.values()))[0](self.work.checkout)
            done += [what] if what else []
        self.work.run(self.work.project.flags)
        return done

    def differing(self, one, other):
        """The files and the calls that differ."""
        names = [path for path in one.files.keys() | other.files.keys() if one.files.get(path) != other.files.get(path)]
        return set(names) | {words for words in one.calls.keys() | other.calls.keys()
                             if one.calls.get(words) != other.calls.get(words)}

    def save(self, name, built):
        """Keeps both of what differs, for --keep."""
        for cache, one in built.items():
            what = one.files[name][2] if one.files.get(name) else repr(one.calls.get(name))
            what = what if isinstance(what, bytes) else str(what).encode()
            with open(f"{self.work.room}/differing-{self.builds}-{os.path.basename(name.split()[-1])}-{cache}", "wb") as file:
                file.write(what)

    def compare(self, done):
        """Builds a state by both, in a random order, and compares. Returns whether it can be built."""
        built = {cache: self.work.build(cache) for cache in self.chance.sample(["plain", "cached"], 2)}
        plain, cached = built["plain"], built["cached"]
        wrong = self.differing(plain, cached)
        if wrong:
            wrong -= self.differing(plain, self.work.build("plain"))
        for name in sorted(wrong):
            self.save(name, built)
            print(f"FAILED: {self.name}: build {self.builds + 1} ({'; '.join(done)}): {' '.join(name.split())}: "
                  f"{cached.labels.get(name, 'a file')}", flush=True)
        if self.builds < self.options.ccache:
            beside = self.work.build("ccache").labels
            self.both.update((kind, beside.get(words, "none")) for words, kind in cached.labels.items())
        self.count(done, plain, cached, len(wrong))
        return plain.status == 0

    def count(self, done, plain, cached, wrong):
        """Counts a build, and prints a line of it."""
        self.builds, self.failed, self.broken = self.builds + 1, self.failed + wrong, self.broken + (plain.status != 0)
        self.files.update(os.path.splitext(path)[1] or "none" for path in plain.files)
        self.calls += len(plain.calls)
        self.labels.update(cached.labels.values())
        kinds = ", ".join(f"{kind} {number}" for kind, number in collections.Counter(cached.labels.values()).most_common())
        print(f"{self.name} {self.builds}: {'; '.join(done)}: {len(plain.files)} files, {wrong} differ; {kinds}"
              f"{'; broken' if plain.status else ''}", flush=True)

    def play(self):
        """Builds the first state, and others with steps between them. One that can't be built is given up."""
        end = time.time() + 60 * self.options.minutes
        if not self.compare(["first build"]):
            self.fail("built")
            return
        while self.builds < self.options.builds and time.time() < end:
            self.work.checkout.keep(self.compare(self.steps()))

    def fail(self, what):
        self.failed += 1
        print(f"FAILED: {self.name} can't be {what}: {read(self.work.room + '/printed').decode()[-500:]}")

    def report(self):
        """Prints the counts, those of the program's statistics, and what ccache did in the same calls."""
        kinds = ", ".join(f"{kind} {number}" for kind, number in self.files.most_common())
        print(f"{self.name}: {self.builds} builds, {self.broken} broken; {sum(self.files.values())} files ({kinds}) and "
              f"{self.calls} calls, {self.failed} differ")
        stats = subprocess.run([PROGRAM, "stats", self.work.room + "/store"], capture_output=True, check=False).stdout.decode()
        print("  all builds: " + ", ".join(line[6:] for line in stats.splitlines() if line.startswith("count ")))
        print(f"  of {min(self.builds, self.options.ccache)} builds by both caches:")
        for (kind, beside), number in sorted(self.both.items()):
            print(f"    {kind}, by ccache {beside}: {number}")


def archive_of(name, room):
    """The archive of a package's sources, which is downloaded unless CCK_SOURCES has it."""
    place = os.environ.get("CCK_SOURCES") or room
    if place == room:
        subprocess.run(["apt-get", "source", "--download-only", name], cwd=room, capture_output=True, check=False)
    found = sorted(glob.glob(f"{place}/{name}_*.orig.tar.?z"))
    return found[0] if found else sys.exit(f"no sources of {name}")


def main():
    parser = argparse.ArgumentParser(description=__doc__)
    parser.add_argument("names", nargs="*", metavar="NAME", help="projects, by default all: " + ", ".join(PROJECTS))
    parser.add_argument("--builds", type=int, default=50, help="builds of each project")
    parser.add_argument("--ccache", type=int, default=10, help="how many of the first ones are also made by ccache")
    parser.add_argument("--clang", action="store_true", help="build by clang, not by gcc")
    parser.add_argument("--seed", default="1", help="what decides the steps")
    parser.add_argument("--jobs", type=int, default=2, help="compilers at once")
    parser.add_argument("--keep", metavar="DIRECTORY", help="keep all of a project that has a difference there")
    parser.add_argument("--minutes", type=float, default=1e9, help="after these no further build of a project begins")
    options = parser.parse_args()
    need_program()
    passed = failed = 0
    for name in options.names or PROJECTS:
        with tempfile.TemporaryDirectory(prefix="cck-day-") as room:
            work = Work(room, name, options)
            day = Day(work, name)
            if work.start(archive_of(name, room)):
                day.play()
                day.report()
            else:
                day.fail("configured")
            if day.failed and options.keep:
                shutil.copytree(room, f"{options.keep}/{name}", symlinks=True)
            passed, failed = passed + sum(day.files.values()) + day.calls - day.failed, failed + day.failed
    print(f"real_day: {passed} passed, {failed} failed")
    sys.exit(1 if failed else 0)


if __name__ == "__main__":
    main()
