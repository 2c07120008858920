"""Compares what the functions of cck.h return with the vector files: vectors.py [WORD..] PROGRAM, where
PROGRAM is tests/c/calls.c, built, and the words before it, if any, run it (as valgrind).

Each call of a vector file that one of the functions can make is made, over what the file's lines
give. What it has to return is the file's own expected result.
"""
import pathlib
import subprocess
import sys

TESTS = pathlib.Path(__file__).resolve().parent.parent
sys.path.insert(0, str(TESTS))

from reference.cases import Made, expected_of, statements_of  # noqa: E402
from reference.subjects import files, values, walks  # noqa: E402

DATA = TESTS.parent / "crates/cck_vectors/data"

DONE, LANGUAGE, FORMAT, ENTRY, UNCHANGED = 0, 3, 5, 6, 7

# The 64 bytes of a key that is not written, as the program fills them.
UNWRITTEN = b"\xa5" * 64

MACROS = ("time", "date", "timestamp")


def items(texts):
    """A list as a field."""
    return "".join(text.hex() + "," for text in texts)


def key_line(given, language, text):
    """The line for the key of what was given."""
    assembler = [] if given.assembler is None else [given.assembler]
    return "\t".join([
        "key", given.compiler.hex(), language.hex(), items(given.arguments), items(given.extra_hashes),
        items(part for pair in given.variables for part in pair), items(given.basedirs),
        items(assembler), str(int(given.plusplus)), text.hex(),
    ])  # fmt: skip


def of_key(subject, text, expected):
    """`key TEXT`."""
    yield key_line(subject.given, subject.given.language, text), f"{DONE} {expected.hex()}"


def of_language(subject, name, expected):
    """`language_of NAME`: a key, or none if there is no such language."""
    if expected.startswith(b"error"):
        yield key_line(subject.given, name, b""), f"{LANGUAGE} {UNWRITTEN.hex()}"


def of_strip(call):
    """`strip TEXT` and `strip_argument TEXT`."""

    def lines(subject, text, expected):
        if expected == b"kept":
            wanted = f"{UNCHANGED}"
        else:
            wanted = f"{DONE} {expected.removeprefix(b'cut ').hex()}"
        yield f"{call}\t{items(subject.given.basedirs)}\t{text.hex()}", wanted

    return lines


def flags(expected):
    """The flags of a finder, from the names of the macros that were found."""
    found = expected.decode().split("+")
    return "".join(str(int(macro in found)) for macro in MACROS)


def of_pieces(subject, text, expected):
    """`find_in_pieces` and `find_resumed`."""
    yield f"find\t{items(subject.pieces)}", flags(expected)


def of_one_piece(subject, text, expected):
    """`find_in_reader TEXT`."""
    yield f"find\t{items([text])}", flags(expected)


def of_cuts(subject, text, expected):
    """`find_at_each_cut TEXT`: the text in two pieces, however it is cut."""
    for at in range(len(text) + 1):
        yield f"find\t{items([text[:at], text[at:]])}", flags(expected)


def of_entry(subject, data, expected):
    """`read_entry BYTES`: its counts, and a line for each result and each include."""
    if expected.startswith(b"error UnknownFormat"):
        wanted = f"{FORMAT}"
    elif expected == b"error Deserialization":
        wanted = f"{ENTRY}"
    else:
        wanted = f"{DONE} {expected.hex()}"
    yield f"entry\t{data.hex()}", wanted


def of_prefixes(subject, data, expected):
    """`read_each_prefix BYTES`: each beginning that isn't empty."""
    if expected == b"each is damaged":
        for end in range(1, len(data)):
            yield f"entry\t{data[:end].hex()}", f"{ENTRY}"


def marks_field(expected):
    """Marks as a field: of each its kind, whether it is of a system header, and its name."""
    field = ""
    for line in expected.split(b"\n"):
        word, _, name = line.partition(b" ")
        if line == b"refusal":
            field += "10,"
        elif line == b"malformed":
            field += "20,"
        elif word in (b"name", b"system"):
            field += f"0{int(word == b'system')}{name.hex()},"
        else:
            # A name may have line feeds in it.
            field = field[:-1] + (b"\n" + line).hex() + ","
    return field


def of_marks(subject, text, expected):
    """`marks TEXT`."""
    yield f"marks\t{text.hex()}", marks_field(expected) if expected else ""


CALLS = {
    "values": (values, {
        "key": of_key,
        "language_of": of_language,
        "strip": of_strip("strip_text"),
        "strip_argument": of_strip("strip_argument"),
        "find_in_pieces": of_pieces,
        "find_resumed": of_pieces,
        "find_in_reader": of_one_piece,
        "find_at_each_cut": of_cuts,
    }),
    "files": (files, {"read_entry": of_entry, "read_each_prefix": of_prefixes}),
    "walks": (walks, {"marks": of_marks}),
}  # fmt: skip


def lines_of(path, subject, calls):
    """The lines for the calls of a file: each with its result, and the line of the file."""
    made = Made()
    for statement in statements_of(path.read_bytes()):
        name, rest = statement.name, statement.rest
        if name == "case":
            made.begin()
            subject.begin()
        elif not made.give(name, rest) and not subject.give(name, rest) and name in calls:
            for line, wanted in calls[name](subject, made.text(rest), expected_of(statement)):
                yield line, wanted, f"{path.name}:{statement.line}: {name}"


def main(words):
    """Makes all calls by one run of the program, and returns the exit status."""
    cases = [
        case
        for folder, (module, calls) in CALLS.items()
        for path in sorted((DATA / folder).glob("*.txt"))
        for case in lines_of(path, module.Subject(), calls)
    ]
    lines = "".join(line + "\n" for line, _, _ in cases).encode()
    run = subprocess.run(words, input=lines, stdout=subprocess.PIPE, stderr=subprocess.PIPE)
    got = run.stdout.decode().splitlines()
    counted = {}
    differences = 0
    for at, (line, wanted, place) in enumerate(cases):
        counted[line.split("\t")[0]] = counted.get(line.split("\t")[0], 0) + 1
        result = got[at] if at < len(got) else "no result"
        if result.strip() != wanted.strip():
            differences += 1
            if differences <= 10:
                print(f"{place}\n  expected {wanted}\n  got      {result}")
    sys.stdout.write(run.stderr.decode())
    counts = ", ".join(f"{name} {count}" for name, count in sorted(counted.items()))
    print(f"{len(cases)} calls ({counts}), {differences} differences, status {run.returncode}")
    return 0 if differences == 0 and run.returncode == 0 and cases else 1


if __name__ == "__main__":
    sys.exit(main(sys.argv[1:]))
