"""What one hit takes, for each of the files that are named: by the wrapper, by ccache if it is there, and by gcc. The
milliseconds are the least of 100 runs, one after the other in each round; the instructions are those that callgrind counts in
all processes, but of the wrapper in its program alone: under callgrind it does not find the programs of the compiler, so
they are given to it. The system calls and processes are those that strace counts. bench/real.sh runs it after a build by both
caches; the variable `flags` has the compiler's options."""
import os
import re
import shutil
import subprocess
import sys
import tempfile
import time

FLAGS = os.environ["flags"].split()


def run(words):
    """What a command writes to standard error."""
    return subprocess.run(words, stdout=subprocess.DEVNULL, stderr=subprocess.PIPE, check=False).stderr.decode()


def milliseconds(words):
    """The time of a command."""
    begun = time.perf_counter()
    run(words)
    return (time.perf_counter() - begun) * 1e3


def instructions(words):
    """The instructions of a command and of the processes that it starts, in millions."""
    counts = re.findall(r"Collected : (\d+)", run(["valgrind", "--tool=callgrind", "--trace-children=yes",
                                                   "--callgrind-out-file=/dev/null", *words]))
    return sum(map(int, counts)) / 1e6


def look(words):
    """The program's call for a hit of the wrapper."""
    lists = os.path.join(os.environ["CCK_STORE"], "compilers")
    with open(os.path.join(lists, os.listdir(lists)[0]), encoding="utf-8") as file:
        # The eighth line has the programs (docs/FORMATS.md).
        programs = file.read().splitlines()[7]
    store = os.environ["CCK_STORE"]
    return [os.environ["CCK_PROGRAM"], "look", store, f"--compiler={programs}", f"--digests={store}",
            f"--directory={os.getcwd()}", "--", *words[2:]]


def system_calls(words):
    """The system calls of a command and of the processes that it starts, and how many processes these are."""
    with tempfile.TemporaryDirectory() as room:
        run(["strace", "-ff", "-o", room + "/calls", *words])
        traces = [open(os.path.join(room, name), encoding="latin-1").read() for name in os.listdir(room)]
    return sum(len(re.findall(r"(?m)^\w+\(", trace)) for trace in traces), len(traces)


def main():
    for name in sys.argv[1:]:
        words = [*FLAGS, "-c", name, "-o", os.path.splitext(name)[0] + ".o"]
        commands = {"cckcc gcc": ["cckcc", "gcc", *words], "ccache gcc": ["ccache", "gcc", *words], "gcc": ["gcc", *words],
                    "a process: true": ["true"], "a shell: sh -c :": ["sh", "-c", ":"]}
        if not shutil.which("ccache"):
            del commands["ccache gcc"]
        least = {label: 1e9 for label in commands}
        for turn in range(100):
            for label, command in commands.items():
                if label != "gcc" or turn < 3:
                    least[label] = min(least[label], milliseconds(command))
        print(name)
        for label, command in commands.items():
            line = f"    {label:20} {least[label]:9.2f} ms"
            if label.endswith(" gcc"):
                if shutil.which("valgrind"):
                    line += f" {instructions(look(command) if command[0] == 'cckcc' else command):9.2f} million instructions"
                if shutil.which("strace"):
                    line += " {:6} system calls, {} processes".format(*system_calls(command))
            print(line)


main()
