"""The command `compare`: a program and the reference on random and damaged scripts and on keys."""
import argparse
import collections
import random
import subprocess
import sys

from .cases import escape
from .scripts import ScriptMaker, damaged_script, key_words
from .streams import result_any_words

SECONDS = 60


def results_of(program, words, data):
    """What a program prints for these words and this input, and its exit status."""
    done = subprocess.run([program, *words], input=data, stdout=subprocess.PIPE, timeout=SECONDS, check=False)
    return done.stdout, done.returncode


def expected_of(words, data):
    """What the reference prints for these words and this input, and its exit status."""
    return result_any_words(words, lambda: data)


def differs(program, words, data):
    """Whether the two print something else, or end with another status."""
    return results_of(program, words, data) != expected_of(words, data)


def smaller(parts, is_kept):
    """As many of the parts left out as can be, in runs and one at a time, so that `is_kept` holds."""
    size = max(len(parts) // 2, 1)
    while True:
        at = 0
        while at < len(parts):
            fewer = parts[:at] + parts[at + size :]
            if is_kept(fewer):
                parts = fewer
            else:
                at += size
        if size == 1:
            return parts
        size //= 2


def smallest_script(program, script):
    """The script with lines, words and again lines left out, while the two still differ."""

    def still(lines):
        return differs(program, [b"run"], b"\n".join(lines))

    lines = smaller(script.split(b"\n"), still)
    for at, line in enumerate(lines):
        before, behind = lines[:at], lines[at + 1 :]
        words = smaller(line.split(b" "), lambda some: still(before + [b" ".join(some)] + behind))
        lines[at] = b" ".join(words)
    return b"\n".join(smaller(lines, still))


def report(program, words, data):
    """Prints what the two print. The input is printed as it is."""
    ours, theirs = expected_of(words, data), results_of(program, words, data)
    sys.stdout.write("words: " + " ".join(escape(word) for word in words) + "\ninput:\n")
    sys.stdout.flush()
    sys.stdout.buffer.write(data + b"\n")
    sys.stdout.buffer.flush()
    sys.stdout.write(f"  reference {ours[1]} {escape(ours[0])}\n")
    sys.stdout.write(f"  program   {theirs[1]} {escape(theirs[0])}\n\n")


def count_results(counts, printed):
    """Counts the lines that were printed by their first word, errors by their number."""
    for line in printed.split(b"\n")[:-1]:
        words = line.split(b" ")
        name = b" ".join(words[:2]) if words[0] == b"error" else words[0]
        counts[name.decode("ascii", "replace")] += 1


def compare_scripts(program, scripts):
    """Compares scripts, given by their names; returns how many differ, and what was returned how often."""
    different, counts = 0, collections.Counter()
    for name, script in scripts:
        expected = expected_of([b"run"], script)
        count_results(counts, expected[0])
        if results_of(program, [b"run"], script) != expected:
            different += 1
            sys.stdout.write(f"{name}:\n")
            report(program, [b"run"], smallest_script(program, script))
    return different, counts


def random_scripts(numbers, seed):
    """Random scripts of these numbers, with their names."""
    for number in numbers:
        yield f"script {number}", ScriptMaker(random.Random(f"{seed} {number}")).script()


def damaged_scripts(numbers, seed):
    """Damaged scripts of these numbers, with their names."""
    for number in numbers:
        yield f"damaged script {number}", damaged_script(random.Random(f"{seed} damaged {number}"))


def compare_keys(program, numbers, seed):
    """Compares calls for a key; returns how many differ."""
    different = 0
    for number in numbers:
        words, text = key_words(random.Random(f"{seed} key {number}"))
        if differs(program, words, text):
            different += 1
            report(program, words, text)
    return different


def print_counts(kind, numbers, different, counts):
    """Prints how many were compared, how many differ, and what was returned how often."""
    sys.stdout.write(f"{len(numbers)} {kind}, {different} differences\n")
    if counts:
        results = ", ".join(f"{counts[name]} {name}" for name in sorted(counts))
        sys.stdout.write(f"  results: {results}\n")


def compare(words):
    """`compare [--scripts N] [--damaged N] [--keys N] [--seed S] [--from K] PROGRAM`."""
    parser = argparse.ArgumentParser(prog="compare")
    parser.add_argument("--scripts", type=int, default=2000)
    parser.add_argument("--damaged", type=int, default=2000)
    parser.add_argument("--keys", type=int, default=300)
    parser.add_argument("--seed", type=int, default=1)
    parser.add_argument("--from", type=int, default=0, dest="first")
    parser.add_argument("program")
    chosen = parser.parse_args(words)
    passed = failed = 0
    for kind, count, make in [
        ("scripts", chosen.scripts, random_scripts),
        ("damaged scripts", chosen.damaged, damaged_scripts),
    ]:
        numbers = range(chosen.first, chosen.first + count)
        different, counts = compare_scripts(chosen.program, make(numbers, chosen.seed))
        print_counts(kind, numbers, different, counts)
        passed += count - different
        failed += different
    numbers = range(chosen.first, chosen.first + chosen.keys)
    different = compare_keys(chosen.program, numbers, chosen.seed)
    print_counts("keys", numbers, different, {})
    passed += chosen.keys - different
    failed += different
    sys.stdout.write(f"compare: {passed} passed, {failed} failed\n")
    return 1 if failed else 0
