#!/usr/bin/env python3
"""The processor time of a hit with 40, 400 and 4000 arguments, by the wrapper and by ccache if it is there.
Run by hand; needs gcc and the program (CCK_PROGRAM, by default the one that was proved and built here)."""
import os
import resource
import shutil
import subprocess
import tempfile
import time

TOP = os.path.dirname(os.path.dirname(os.path.abspath(__file__)))
WRAPPER = TOP + "/bin/cckcc"
ROUNDS = 15


def spent():
    """The processor time of all programs that ended, in seconds."""
    used = resource.getrusage(resource.RUSAGE_CHILDREN)
    return used.ru_utime + used.ru_stime


def hit(words, place, variables):
    """The processor time of a hit, in milliseconds: the mean of some rounds, after the call that fills the store."""
    for _ in range(2):
        subprocess.run(words, cwd=place, env=variables, check=True)
    before = spent()
    for _ in range(ROUNDS):
        subprocess.run(words, cwd=place, env=variables, check=True)
    return (spent() - before) / ROUNDS * 1000


def main():
    with tempfile.TemporaryDirectory(prefix="cck-") as place:
        with open(place + "/x.c", "w", encoding="ascii") as file:
            file.write("int v;\n")
        time.sleep(0.05)
        variables = {"CCK_PROGRAM": TOP + "/crates/cck_cache/out/cck_cache", **os.environ, "CCK_STORE": place + "/store",
                     "CCACHE_DIR": place + "/ccache"}
        for count in (40, 400, 4000):
            words = ["gcc", *(f"-DN{number}=1" for number in range(count)), "-c", "x.c"]
            ours = hit([WRAPPER, *words], place, variables)
            line = f"{count} arguments: {ours:.1f} ms, {ours / count * 1000:.1f} us an argument"
            if shutil.which("ccache"):
                other = hit(["ccache", *words], place, variables)
                line += f"; ccache {other:.1f} ms, ratio {ours / other:.2f}"
            print(line)


if __name__ == "__main__":
    main()
