"""Makes awkward texts and prints what they cost: see bench/awkward.sh."""
import itertools
import os
import resource
import subprocess
import sys

MIB = 2**20
SIZES = [4 * MIB, 16 * MIB, 64 * MIB]
COUNTS = [25000, 50000, 100000]
NAMES = 100000
ROUNDS = 2
COPIES = 20

HARMLESS = b"int total(int a, int b) { return (a + b) / 2 - a * b; }\n"
INPUT = b"file /w/a.c 1 1 "
CALL = b"compile 5000000000 a.c\n"


def marker(number):
    """A line marker of one of many names, which are in order as their numbers are."""
    return b'# 1 "h%05d.h"\n' % number


TEXTS = {
    "harmless": lambda: HARMLESS,
    "line feeds": lambda: b"\n" * 64,
    "#": lambda: b"#" * 64,
    "_": lambda: b"_" * 64,
    "line feed and #": lambda: b"\n#" * 64,
    "markers of one name": lambda: marker(0),
    "markers, names rising": lambda: b"".join(map(marker, range(NAMES))),
    "markers, names falling": lambda: b"".join(map(marker, reversed(range(NAMES)))),
}


def fill(file, unit, size):
    """Writes a unit again and again, up to `size` bytes."""
    while size > 0:
        file.write(unit[:size])
        size -= len(unit)


def header_lines(numbers):
    """A line of the script for each header of these numbers."""
    return (b"file /w/h%05d.h 1 1 int y;\n" % number for number in numbers)


def text_script(file, name, size):
    """A script of about `size` bytes: the headers that the text names, an input of it, and a call."""
    unit = TEXTS[name]()
    headers = NAMES if "names" in name else 1
    file.write(b"basedir /w/\n")
    file.writelines(header_lines(range(headers)))
    file.write(INPUT)
    fill(file, unit.replace(b"\n", b"\\n"), max(size - file.tell() - len(CALL) - 1, 0) // 2 * 2)
    file.write(b"\n" + CALL)


def raw_text(file, name, size):
    """The text alone."""
    fill(file, TEXTS[name](), size)


def lines_of(count, line):
    """`count` lines, and a call of a small input."""
    return itertools.chain((line % number for number in range(count)), [INPUT + b"int x;\n", CALL])


def one_line(count, begin, unit):
    """A line of this many bytes, and a call of a small input."""
    return [INPUT + b"int x;\n", begin, unit * (count // len(unit)), b"\n", CALL]


def included(count):
    """`count` headers and an input that names each, and two calls, of which the second one is a hit."""
    text = b"".join(map(marker, range(count))).replace(b"\n", b"\\n")
    return itertools.chain(header_lines(range(count)), [INPUT + text + b"\n", CALL, CALL])


def of_size(size):
    """A script of `size` bytes with one input of harmless lines."""
    return [INPUT, HARMLESS.replace(b"\n", b"\\n") * (size // (len(HARMLESS) + 1)), b"\n", CALL]


def length_prefixed(data):
    """Bytes after their length."""
    return len(data).to_bytes(8, "little") + data


def entry(results, includes, path):
    """The text of an entry of `results` results of `includes` includes each, of paths of one length."""
    tail = length_prefixed(b"0" * 64) + bytes(8) + bytes(2)
    parts = [b"\2" + results.to_bytes(8, "little")]
    for number in range(results):
        parts += [length_prefixed(b"%064d" % number), includes.to_bytes(8, "little")]
        parts += [length_prefixed(b"%0*d" % (path, turn)) + tail for turn in range(includes)]
    return b"".join(parts)


def processor_time():
    """The processor time of all children that have ended, in seconds."""
    usage = resource.getrusage(resource.RUSAGE_CHILDREN)
    return usage.ru_utime + usage.ru_stime


def cost(words, path):
    """The least processor time of some runs, in seconds, the greatest memory in bytes, and the output."""
    best, most = 1e9, 0
    for _ in range(ROUNDS):
        before = processor_time()
        with open(path, "rb") as text:
            done = subprocess.run(
                ["/usr/bin/time", "-f", "%M", *words], stdin=text, capture_output=True, check=False
            )
        best = min(best, processor_time() - before)
        most = max(most, int(done.stderr.split()[-1]) * 1024)
    return best, most, done.stdout


def result_of(printed):
    """The column for what the last printed line says without keys, which is left out where it is nothing."""
    last = printed.split(b"\n")[-2:-1] or [b""]
    result = b" ".join(word for word in last[0].split() if len(word) < 20).decode("ascii", "replace")
    return f" {result} |" if result else ""


def row(name, size, measured, beside):
    """Prints a row: the cost, beside that of the harmless text, and the memory beside the input."""
    seconds, memory, printed = measured
    print(
        f"| {name} | {size / MIB:.2f} | {seconds * 1000:.0f} | {seconds / beside:.1f} | {memory / MIB:.1f} "
        f"| {memory / size:.1f} |{result_of(printed)}",
        flush=True,
    )


def head(what, columns=()):
    """Prints the head of a table, with further columns."""
    names = ["text", "MiB", "milliseconds", "beside harmless", "memory, MiB", "beside the input", *columns]
    print(f"\n{what}\n\n| {' | '.join(names)} |\n{'|---' * len(names)}|")


def texts_table(what, words, path, make, columns=()):
    """The cost of each text at each size."""
    head(what, columns)
    for size in SIZES:
        beside = 0
        for name in TEXTS:
            with open(path, "wb") as file:
                make(file, name, size)
            measured = cost(words, path)
            beside = beside or measured[0]
            row(name, os.path.getsize(path), measured, beside)


def scripts_table(what, words, path):
    """The cost of scripts of many lines, of long lines and of many includes."""
    head(what, ["result"])
    cases = [("%d variables" % n, lines_of(n, b"var V%06d 1\n")) for n in COUNTS]
    cases += [("%d files" % n, lines_of(n, b"file /w/f%06d.h 1 1 x\n")) for n in COUNTS]
    cases += [("%d folders" % n, lines_of(n, b"dir /w/d%06d\n")) for n in COUNTS]
    for size in [MIB, 4 * MIB, 16 * MIB]:
        cases += [
            ("comment of one line", one_line(size, b"#", b"a")),
            ("value of a variable", one_line(size, b"var A ", b"a")),
            ("escapes in a value", one_line(size, b"var A ", b"\\x61")),
            ("one argument", one_line(size, b"compile 4 a.c ", b"a")),
            ("arguments of a byte", one_line(size, b"compile 4 a.c", b" a")),
            ("no known word", one_line(size, b"", b"a")),
        ]
    cases += [("%d includes in a result" % n, included(n)) for n in (2500, 5000, 10000, 100000)]
    for name, parts in cases:
        with open(path, "wb") as file:
            file.writelines(parts)
        size = os.path.getsize(path)
        measured = cost(words, path)
        with open(path, "wb") as file:
            file.writelines(of_size(size))
        row(name, size, measured, cost(words, path)[0])


def empty_includes(count):
    """The text of an entry with a result of `count` includes, which take as few bytes as can be."""
    return b"\2" + (1).to_bytes(8, "little") + bytes(8) + count.to_bytes(8, "little") + bytes(26 * count)


def empty_results(count):
    """The text of an entry with `count` results without includes, of keys of eight bytes."""
    results = (length_prefixed(b"%08d" % number) + bytes(8) for number in range(count))
    return b"\2" + count.to_bytes(8, "little") + b"".join(results)


def one_include(size):
    """The text of an entry with one include, whose path is so long that the text has `size` bytes."""
    return entry(1, 1, size - len(entry(1, 1, 1)) + 1)


def entries_table(what, words, path):
    """The cost of entries, each read by both readers, written and looked up, some often over."""
    head(what)
    shapes = [(1, n) for n in (2500, 5000, 10000)] + [(n, 99) for n in (25, 50, 101)]
    cases = [(f"{n} results of {m} includes, {COPIES} times", entry(n, m, 40), COPIES) for n, m in shapes]
    for count in COUNTS + [10 * COUNTS[-1]]:
        cases += [
            (f"{count} includes of 26 bytes", empty_includes(count), 1),
            (f"{count} results of 24 bytes", empty_results(count), 1),
        ]
    for name, text, copies in cases:
        costs = []
        for data in (one_include(len(text)), text):
            with open(path, "wb") as file:
                for _ in range(copies):
                    file.write(len(data).to_bytes(4, "little") + data)
            costs.append((*cost(words, path)[:2], b""))
        row(name, os.path.getsize(path), costs[1], costs[0][0])


def marks_table(what, program, path):
    """The time of all marks of each text, beside one search for each line's end."""
    print(f"\n{what}\n\n| text | MiB | milliseconds | beside harmless | beside line ends | marks |")
    print("|---|---|---|---|---|---|")
    for size in SIZES:
        beside = 0
        for name in TEXTS:
            with open(path, "wb") as file:
                raw_text(file, name, size)
            with open(path, "rb") as text:
                done = subprocess.run([program], stdin=text, stdout=subprocess.PIPE, check=True)
            length, marks, ends, names, others, _ = map(int, done.stdout.split())
            beside = beside or max(marks, 1)
            print(
                f"| {name} | {length / MIB:.2f} | {marks / 1000:.1f} | {marks / beside:.2f} "
                f"| {marks / max(ends, 1):.2f} | {names + others} |",
                flush=True,
            )


def main(program, markers, entries, folder):
    """Prints all tables."""
    path = os.path.join(folder, "text")
    texts_table("`cck key abcd c` on the text:", [program, "key", "abcd", "c"], path, raw_text)
    run = [program, "run"]
    texts_table("`cck run` on a script whose input is the text:", run, path, text_script, ["result"])
    scripts_table("`cck run` on other scripts:", run, path)
    entries_table("The readers of entries:", [entries], path)
    marks_table("The marks of the text:", markers, path)


if __name__ == "__main__":
    main(*sys.argv[1:])
