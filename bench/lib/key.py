"""Prints what a key of a long and of a short text costs: see bench/key.sh."""
import os
import sys

from counting import instructions, memory, times, written

MIB = 2**20


def table(what, runs, rounds, timed, counted):
    """Prints the least times of some interleaved rounds on a file, and the instructions on another."""
    least = dict.fromkeys(runs, (1e9, 1e9))
    for _ in range(rounds):
        for name, words in runs.items():
            least[name] = min(least[name], times(words, timed), key=sum)
    counts = {name: instructions(words, counted) for name, words in runs.items()}
    first = next(iter(runs))
    unit = sum(least[first])
    print(f"{what:24} processor ms  of the system  ratio  million instructions  ratio    MiB   (best of {rounds})")
    for name, words in runs.items():
        print(
            f"{name:24} {sum(least[name]) * 1000:12.3f} {least[name][1] * 1000:14.3f}"
            f" {sum(least[name]) / unit:6.2f} {counts[name] / 1e6:21.3f}"
            f" {counts[name] / counts[first]:6.2f} {memory(words, timed):6.1f}",
            flush=True,
        )


def main(program, folder):
    """Prints both tables."""
    key = [program, "key", "abcd", "c"]
    runs = {"sha256sum": ["sha256sum"], "openssl dgst -sha256": ["openssl", "dgst", "-sha256"], "cck key": key}
    long = written(folder, "long", [os.urandom(64 * MIB)])
    part = written(folder, "part", [os.urandom(4 * MIB)])
    table("64 MiB", runs, 15, long, part)
    print()
    short = written(folder, "short", [b"int main();"])
    table("11 bytes", {"/bin/true": ["/bin/true"], "cck key": key}, 1001, short, short)


if __name__ == "__main__":
    main(*sys.argv[1:])
