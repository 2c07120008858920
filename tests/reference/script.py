"""The script of `cck run`: its lines, and what they say."""
import dataclasses

from .errors import Refused
from .files import FILE, FOLDER, MapFiles, Node
from .texts import unescape

LEAST_TIME = -(2**63)
GREATEST_TIME = 2**63 - 1
GREATEST_ZONE = 86399
GREATEST_NUMBER = 2**64 - 1
EXECUTABLE = b"/usr/bin/cc"
WORKING_DIRECTORY = b"/w"
DIGITS = b"0123456789"


class Wrong(Exception):
    """A line of a script is wrong."""


class WrongLine(Exception):
    """`wrong_line`: a script has a wrong line; the number of the first one."""

    def __init__(self, number):
        super().__init__(number)
        self.number = number


@dataclasses.dataclass
class Line:
    """`Line`: what a line says: its first word, and the values of the others."""

    word: bytes
    values: list


def undone(text):
    """The bytes that a word or a TEXT means."""
    try:
        return unescape(text)
    except Refused:
        raise Wrong from None


def next_word(rest):
    """`next_word`: the first word of what is left of a line, undone, and what is left after it.

    Nothing is left (None) where the line ends with the word.
    """
    if rest is None:
        raise Wrong
    word, space, behind = rest.partition(b" ")
    if word == b"":
        raise Wrong
    return undone(word), behind if space else None


def words(rest):
    """`words`: the words of what is left of a line, undone."""
    found = []
    while rest is not None:
        word, rest = next_word(rest)
        found.append(word)
    return found


def last_text(rest):
    """`last_text`: the TEXT at the end of a line, undone; empty where the line ended earlier."""
    return b"" if rest is None else undone(rest)


def words_and_text(rest, count):
    """`count` words of what is left of a line, and the TEXT after them."""
    found = []
    for _ in range(count):
        word, rest = next_word(rest)
        found.append(word)
    return found + [last_text(rest)]


def number(text, least, greatest):
    """The number that a text writes in decimal, within these bounds."""
    digits = text[1:] if text.startswith(b"-") else text
    if digits == b"" or any(digit not in DIGITS for digit in digits):
        raise Wrong
    value = -int(digits) if text.startswith(b"-") else int(digits)
    if not least <= value <= greatest:
        raise Wrong
    return value


def time(text):
    """A time: whole nanoseconds since 1970."""
    return number(text, LEAST_TIME, GREATEST_TIME)


def time_or_none(text):
    """A time, or `-` alone for none."""
    return None if text == b"-" else time(text)


def exactly(rest, count):
    """The words of what is left of a line, of which there are `count`."""
    found = words(rest)
    if len(found) != count:
        raise Wrong
    return found


def read_zone(rest):
    """`zone S`."""
    return [number(exactly(rest, 1)[0], -GREATEST_ZONE, GREATEST_ZONE)]


def read_basedir(rest):
    """`basedir TEXT`."""
    return words_and_text(rest, 0)


def read_store(rest):
    """`store forget N` and `store fail N`."""
    word, count = exactly(rest, 2)
    if word not in {b"forget", b"fail"}:
        raise Wrong
    return [word, number(count, 1, GREATEST_NUMBER)]


def read_file(rest):
    """`file PATH MODIFIED CHANGED TEXT`."""
    path, modified, changed, text = words_and_text(rest, 3)
    return [path, time_or_none(modified), time_or_none(changed), text]


def read_path(rest):
    """`dir PATH` and `gone PATH`."""
    return exactly(rest, 1)


def read_var(rest):
    """`var NAME TEXT`."""
    return words_and_text(rest, 1)


def read_clear(rest):
    """`clear`."""
    return exactly(rest, 0)


def read_call(rest):
    """`compile MOMENT INPUT [ARG..]` and `recache MOMENT INPUT [ARG..]`."""
    found = words(rest)
    if len(found) < 2:
        raise Wrong
    return [time(found[0]), found[1], found[2:]]


READERS = {
    b"zone": read_zone,
    b"basedir": read_basedir,
    b"store": read_store,
    b"file": read_file,
    b"dir": read_path,
    b"gone": read_path,
    b"var": read_var,
    b"clear": read_clear,
    b"compile": read_call,
    b"recache": read_call,
}


def read_line(text):
    """`read`: what a line says, or None for a line that is skipped."""
    if text == b"" or text.startswith(b"#"):
        return None
    word, rest = next_word(text)
    if word not in READERS:
        raise Wrong
    return Line(word, READERS[word](rest))


def text_lines(text):
    """The lines of a script; its last line may lack the LF."""
    lines = text.split(b"\n")
    return lines[:-1] if lines[-1] == b"" else lines


def parse(text):
    """`commands_of`: what the lines of a script say, in order."""
    said = []
    for place, line_text in enumerate(text_lines(text), 1):
        try:
            line = read_line(line_text)
        except Wrong:
            raise WrongLine(place) from None
        if line is not None:
            said.append(line)
    return said


def zone_of(lines):
    """`zone_of`: the offset that the last line `zone` says, or 0."""
    zones = [line.values[0] for line in lines if line.word == b"zone"]
    return zones[-1] if zones else 0


def basedirs_of(lines):
    """`basedirs_of`: the base directories of the whole script."""
    return [line.values[0] for line in lines if line.word == b"basedir"]


def armed_of(lines, kind):
    """`forget_of` and `fail_of`: the number that the last such line `store` says, or 0."""
    numbers = [line.values[1] for line in lines if line.word == b"store" and line.values[0] == kind]
    return numbers[-1] if numbers else 0


def first_files():
    """The files before any line: the executable alone."""
    files = MapFiles()
    files.put(EXECUTABLE, Node(FILE, b"cc", 0, 0))
    return files


def with_variable(variables, name, value):
    """`variables` after a line `var`: a new name comes last, a known one keeps its place."""
    if any(known == name for known, _ in variables):
        return [(known, value if known == name else old) for known, old in variables]
    return variables + [(name, value)]


class Surroundings:
    """The files and variables as the lines leave them that were followed."""

    def __init__(self):
        self.files = first_files()
        self.variables = []

    def follow(self, line):
        """One line more."""
        if line.word == b"file":
            path, modified, changed, text = line.values
            self.files.put(path, Node(FILE, text, modified, changed))
        elif line.word == b"dir":
            self.files.put(line.values[0], Node(FOLDER))
        elif line.word == b"gone":
            self.files.remove(line.values[0])
        elif line.word == b"var":
            self.variables = with_variable(self.variables, *line.values)
        elif line.word == b"clear":
            self.variables = []
