"""Makes scripts of many calls and prints what hits and misses cost: see bench/runs.sh."""
import sys

from counting import instructions, memory, seconds, written

SIZE = 4096
HEADERS = [(b"int value_%03d(int first, int second);\n" % i).ljust(SIZE - 1, b"x") + b"y" for i in range(100)]
ROUNDS = 5


def script(calls, word):
    """A script of one call that misses, and of this many more."""
    yield b"file /w/a.c 1 1 " + b"".join(b'#include "h%d.h"\\n' % i for i in range(100)) + b"\n"
    for i, text in enumerate(HEADERS):
        yield b"file /w/h%d.h 1 1 " % i + text.replace(b"\n", b"\\n") + b"\n"
    yield b"compile 5000000000 a.c\n"
    for _ in range(calls):
        yield word + b" 6000000000 a.c\n"


def returned(run, path):
    """The first words of the results to a script that was run."""
    seconds(run, path)
    with open(path + ".out", "rb") as printed:
        return [line.split()[0] for line in printed]


def main(program, hashing, folder):
    """Prints a row for each word and number of calls."""
    run = [program, "run"]
    texts = written(folder, "headers", HEADERS)
    none = written(folder, "none", script(0, b""))
    unit = instructions([hashing, "10"], texts) - instructions([hashing, "0"], texts)
    print(f"calls       calls a second  x hashing  millions each  x hashing    MiB   (best of {ROUNDS})")
    for word, name in ((b"compile", b"hit"), (b"recache", b"miss")):
        count = instructions(run, written(folder, "ten", script(10, word))) - instructions(run, none)
        for calls in (100, 1000):
            path = written(folder, "many", script(calls, word))
            assert returned(run, path) == [b"miss"] + [name] * calls
            rounds = [
                [seconds(*words) for words in ((run, path), (run, none), ([hashing, str(calls)], texts))]
                for _ in range(ROUNDS)
            ]
            many, beginning, beside = map(min, zip(*rounds))
            taken = many - beginning
            print(
                f"{calls:4} {name.decode():6} {calls / taken:15.0f} {taken / beside:10.2f}"
                f" {count / 1e7:14.2f} {count / unit:10.3f} {memory(run, path):6.1f}",
                flush=True,
            )


if __name__ == "__main__":
    main(*sys.argv[1:])
