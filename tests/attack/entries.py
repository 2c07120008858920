"""Attacks the readers of entries by many damaged texts: see tests/attack/entries.sh.

Texts come in blocks of 10000. Each block has its own source of random numbers, from the seed and its
number, so that a run can be resumed at any block and shared among processes.
"""
import argparse
import collections
import multiprocessing
import random
import subprocess
import sys
import time
from pathlib import Path

sys.path.insert(0, str(Path(__file__).resolve().parent.parent))

from reference.entry import (  # noqa: E402
    Include,
    Reader,
    entry_bytes,
    include_bytes,
    include_count,
    read_entry,
    result_bytes,
)
from reference.errors import Refused  # noqa: E402
from reference.preprocessor_key import ENTRY_FORMAT  # noqa: E402
from reference.times import NANOS  # noqa: E402

BLOCK = 10000
OF_ONE_ENTRY = 40
ENTRIES_ALONE = 1000
SECONDS = 300

BOUNDARIES = [2**8, 2**16, 2**31, 2**32, 2**63, 2**64]
NUMBERS = sorted({0, 1} | {edge + step for edge in BOUNDARIES for step in (-1, 0, 1)})
LENGTHS = [0, 1, 2, 3, 7, 8, 9, 63, 64, 65, 128] * 8 + [255, 256, 257]
GREAT_LENGTHS = [65535, 65536, 65537]
NOT_UTF8 = [
    b"\xff", b"\x80", b"\xc0\x80", b"\xc2", b"\xe0\x9f\xbf", b"\xed\xa0\x80", b"\xf0\x8f\xbf\xbf",
    b"\xf4\x90\x80\x80", b"\xf5\x80\x80\x80", b"\xe2\x82", b"\xf0\x9f\x98",
]  # fmt: skip
UTF8 = [
    b"\x00", b"\x7f", b"\xc2\x80", b"\xdf\xbf", b"\xe0\xa0\x80", b"\xed\x9f\xbf", b"\xee\x80\x80",
    b"\xef\xbf\xbf", b"\xf0\x90\x80\x80", b"\xf4\x8f\xbf\xbf",
]  # fmt: skip
SECONDS_OF_TIMES = [0, 1, -1, 2**31, 2**32, 2**63 - 1, -(2**63)]
NANOSECONDS = [0, 1, NANOS - 1]
BAD_NANOSECONDS = [NANOS, NANOS + 1, 2**31, 2**32 - 1]
MARKS = [0, 1, 2, 255]


class Places(Reader):
    """A reader that keeps where the numbers, the times and all other parts of a text begin."""

    def __init__(self, data, whole):
        super().__init__(data)
        self.whole, self.numbers, self.times, self.parts = whole, [], [], []

    def at(self):
        """The place of the reader in the text."""
        return self.whole - len(self.data)

    def number(self):
        self.numbers.append(self.at())
        return super().number()

    def text(self):
        self.parts.append(self.at())
        return super().text()

    def utf8(self):
        return self.text()

    def time(self):
        self.times.append(self.at())
        return super().time()


def places_of(text):
    """The places of the text of an entry."""
    places = Places(text[1:], len(text))
    for _ in range(places.number()):
        places.text()
        places.includes()
    places.parts.append(len(text))
    return places


class TextMaker:
    """Makes the texts of one block."""

    def __init__(self, source):
        self.random = source
        self.results = []
        self.text = b""
        self.places = None

    def chance(self, probability):
        """Whether what has this probability is so."""
        return self.random.random() < probability

    def any_bytes(self, count):
        """`count` bytes, or one byte as often."""
        if self.chance(0.5):
            return self.random.randbytes(count)
        return bytes([self.random.randrange(256)]) * count

    def length(self):
        """The length of a key, a path or a digest."""
        return self.random.choice(GREAT_LENGTHS if self.chance(0.0005) else LENGTHS)

    def utf8(self):
        """A text in UTF-8, mostly, of letters and of what is at a boundary."""
        parts = [b"a" * self.length()]
        while self.chance(0.4):
            parts.append(self.random.choice(UTF8))
        if self.chance(0.02):
            parts.append(self.random.choice(NOT_UTF8))
        self.random.shuffle(parts)
        return b"".join(parts)

    def time(self):
        """A time that is kept, or none."""
        if self.chance(0.4):
            return None
        return self.random.choice(SECONDS_OF_TIMES) * NANOS + self.random.choice(NANOSECONDS)

    def include(self):
        """An include."""
        path, digest = self.any_bytes(self.length()), self.utf8()
        return Include(path, digest, self.random.choice(NUMBERS[:-2]), self.time(), self.time())

    def count(self):
        """How many results or includes; now and then at a boundary."""
        if self.chance(0.001):
            return self.random.choice([100, 101, 255, 256, 257])
        return self.random.choice([0, 1, 1, 2, 2, 3])

    def next_entry(self):
        """Takes another entry; a key that is no UTF-8 may be among its keys."""
        keys = {self.utf8() + b"%d" % turn for turn in range(self.count())}
        entry = {key: [self.include() for _ in range(self.count())] for key in keys}
        self.results = [result_bytes(key, entry[key]) for key in sorted(entry)]
        self.text = entry_bytes(entry)
        self.places = places_of(self.text)

    def flipped(self, text):
        """One byte other."""
        if not text:
            return text
        at = self.random.randrange(len(text))
        byte = text[at] ^ (1 << self.random.randrange(8)) if self.chance(0.5) else self.random.randrange(256)
        return text[:at] + bytes([byte]) + text[at + 1 :]

    def cut(self, text):
        """A beginning, an end, or what is left without a part in the middle."""
        at, behind = sorted(self.random.randrange(len(text) + 1) for _ in range(2))
        return self.random.choice([text[:at], text[at:], text[:at] + text[behind:]])

    def doubled(self, text):
        """A part twice in a row, or the whole."""
        begin, end = sorted(self.random.choices(self.places.parts, k=2))
        if self.chance(0.3):
            begin, end = sorted(self.random.randrange(len(text) + 1) for _ in range(2))
        return text[:end] + text[begin:end] + text[end:]

    def joined(self, text):
        """The text with another beginning, end or a few bytes more."""
        more = self.random.choice([self.text, self.text[1:], self.any_bytes(1), self.any_bytes(8)])
        return text + more if self.chance(0.7) else more + text

    def numbered(self, text):
        """A length, a count or a size at a boundary, near what it was, or near what is left."""
        at = self.random.choice(self.places.numbers)
        was = int.from_bytes(text[at : at + 8], "little")
        near = [was - 1, was + 1, len(text) - at, len(text) - at - 8, len(text) - at - 7, len(text)]
        near += [(len(text) - at - 8) // 16, (len(text) - at - 8) // 16 + 1, (len(text) - at - 8) // 26]
        number = self.random.choice(NUMBERS + near + near)
        return text[:at] + (number % 2**64).to_bytes(8, "little") + text[at + 8 :]

    def timed(self, text):
        """A time with another mark or with other nanoseconds."""
        if not self.places.times:
            return self.numbered(text)
        at = self.random.choice(self.places.times)
        if self.chance(0.5):
            return text[:at] + bytes([self.random.choice(MARKS)]) + text[at + 1 :]
        nanoseconds = self.random.choice(NANOSECONDS + BAD_NANOSECONDS).to_bytes(4, "little")
        return text[: at + 9] + nanoseconds + text[at + 13 :]

    def reordered(self, _):
        """Results with the right count, in another order, some twice, some left out."""
        count = self.random.randrange(len(self.results) + 2)
        results = self.random.choices(self.results, k=count) if self.results else []
        if self.chance(0.5):
            results = sorted(set(results), key=lambda result: result[8:])
        return ENTRY_FORMAT + len(results).to_bytes(8, "little") + b"".join(results)

    def counted(self, _):
        """Results whose includes are doubled, with the right counts."""
        include = include_bytes(self.include())
        count = self.random.randrange(4)
        key = self.utf8()
        head = len(key).to_bytes(8, "little") + key + count.to_bytes(8, "little")
        return ENTRY_FORMAT + (1).to_bytes(8, "little") + head + include * count

    def next_text(self):
        """The next text: that of the entry, with some damages."""
        if self.chance(0.02):
            return self.text
        first = [self.flipped, self.cut, self.doubled, self.joined, self.numbered, self.timed]
        text = self.random.choice(first + [self.flipped, self.numbered, self.reordered, self.counted])(self.text)
        while self.chance(0.15):
            text = self.random.choice([self.flipped, self.cut, self.joined])(text)
        return text

    def texts(self):
        """All texts of the block."""
        for number in range(BLOCK):
            if number % OF_ONE_ENTRY == 0:
                self.next_entry()
            yield self.next_text()


def number_bytes(*numbers):
    """Numbers of 8 bytes each."""
    return b"".join(number.to_bytes(8, "little") for number in numbers)


def verdict_of(text):
    """What the program writes for a text, by the reference."""
    try:
        entry = read_entry(text)
    except Refused as error:
        says = bytes([1, text[0]]) if error.name == "UnknownFormat" else b"\2\0"
        return says + says + bytes(4) + bytes(32)
    is_same = entry_bytes(entry) == text
    is_found = any(not includes for includes in entry.values())
    counts = len(entry), include_count(entry)
    return bytes([0, 0, 0, 0, is_same, 1, is_found, 0]) + number_bytes(*counts, *counts)


def run_block(job):
    """The results of a block, how often each, and the texts that differ, with both verdicts."""
    program, seed, block = job
    texts = list(TextMaker(random.Random(f"{seed} {block}")).texts())
    data = b"".join(len(text).to_bytes(4, "little") + text for text in texts)
    done = subprocess.run([program], input=data, stdout=subprocess.PIPE, timeout=SECONDS, check=False)
    written = done.stdout
    counts, different = collections.Counter(), []
    for number, text in enumerate(texts):
        verdict, expected = written[40 * number : 40 * number + 40], verdict_of(text)
        counts[("entry", "other format", "damaged")[expected[0]]] += 1
        if text != b"" and expected[0] == 0 and not expected[4]:
            different.append((number, text, b"the reference writes it otherwise", expected))
        if verdict != expected:
            different.append((number, text, verdict, expected))
    if done.returncode != 0 or len(written) != 40 * len(texts):
        different.append((len(texts), b"", b"status %d, %d bytes" % (done.returncode, len(written)), b""))
    return block, sum(map(len, texts)), counts, different


def run_alone(job):
    """Texts that the program damages and judges by itself: how many are entries, how many are not, and on how many of
    them its readers differ."""
    program, seed, number, count = job
    maker = TextMaker(random.Random(f"{seed} alone {number}"))
    maker.next_entry()
    data = len(maker.text).to_bytes(4, "little") + maker.text
    words = [program, str(count), str(maker.random.getrandbits(60) + 1)]
    done = subprocess.run(words, input=data, stdout=subprocess.PIPE, check=False)
    if done.returncode != 0:
        return 0, 0, count
    return tuple(map(int, done.stdout.split()))


def judge_alone(chosen):
    """Has the program judge so many texts by itself, of some entries, and returns on how many its readers differ."""
    count = -(-chosen.alone // ENTRIES_ALONE)
    with multiprocessing.Pool(chosen.jobs) as pool:
        jobs = ((chosen.program, chosen.seed, number, count) for number in range(ENTRIES_ALONE if count else 0))
        totals = [sum(column) for column in zip((0, 0, 0), *pool.imap_unordered(run_alone, jobs))]
    print("by itself: {} entries, {} damaged, {} differ".format(*totals))
    return totals[2]


def main():
    """Runs the blocks and prints what differs, the counts and the rate."""
    parser = argparse.ArgumentParser(prog="entries.sh")
    parser.add_argument("--seed", type=int, default=1)
    parser.add_argument("--count", type=int, default=1000000, help="texts, in blocks of 10000")
    parser.add_argument("--from", type=int, default=0, dest="first", help="the first block")
    parser.add_argument("--jobs", type=int, default=2)
    parser.add_argument("--alone", type=int, default=0, help="texts that the program damages and judges by itself")
    parser.add_argument("program")
    chosen = parser.parse_args()
    blocks = range(chosen.first, chosen.first - (-chosen.count // BLOCK))
    counts, size, differences, start = collections.Counter(), 0, 0, time.monotonic()
    with multiprocessing.Pool(chosen.jobs) as pool:
        jobs = ((chosen.program, chosen.seed, block) for block in blocks)
        for block, length, some, different in pool.imap(run_block, jobs):
            counts.update(some)
            size += length
            differences += len(different)
            for number, text, verdict, expected in different:
                print(f"seed {chosen.seed} block {block} text {number}: {text.hex()}")
                print(f"  program   {verdict.hex()}\n  reference {expected.hex()}", flush=True)
            if (block + 1) % 100 == 0:
                print(f"behind block {block}: {sum(counts.values())} texts", file=sys.stderr, flush=True)
    seconds = time.monotonic() - start
    total = sum(counts.values())
    print(f"seed {chosen.seed}, blocks {blocks.start} to {blocks.stop - 1}: {total} texts, {size} bytes")
    print("results: " + ", ".join(f"{counts[name]} {name}" for name in sorted(counts)))
    print(f"{total / seconds:.0f} texts a second")
    differences += judge_alone(chosen)
    print(f"entries: {total + chosen.alone - differences} passed, {differences} failed")
    return 1 if differences else 0


if __name__ == "__main__":
    sys.exit(main())
