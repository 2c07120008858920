"""Vector files: how they are read, judged and written. docs/TESTING.md has their form.

A line's name and rest are `str` whose characters are bytes (0 to 255). A library of cases has a
module in `subjects`, with a class `Subject`: see `subjects/values.py` for a small one.
"""
import dataclasses

from .errors import Refused
from .texts import unescape


class WrongLine(Exception):
    """A line of a vector file can't be read."""


# ---- the parts of a line


def undo(rest):
    """The bytes that an escaped text means."""
    try:
        return unescape(rest.encode("latin-1"))
    except Refused:
        raise WrongLine from None


def list_of(rest):
    """The words of a list, with spaces between them. `""` is the empty word."""
    return [b"" if word == '""' else undo(word) for word in rest.split(" ") if word]


def variables_of(rest):
    """The variables of a list, each as `NAME=VALUE`."""
    return [pair_of(word) for word in rest.split(" ") if word]


def pair_of(word):
    """The name and the value of `NAME=VALUE`."""
    name, equals, value = word.partition("=")
    if not equals:
        raise WrongLine
    return undo(name), undo(value)


def number_of(text):
    """A number in decimal."""
    digits = text[1:] if text.startswith("-") else text
    if not digits.isascii() or not digits.isdecimal():
        raise WrongLine
    return int(text)


def time_of(text):
    """A time in nanoseconds, or None for `-`."""
    return None if text == "-" else number_of(text)


def byte_of(digits):
    """The byte of two hexadecimal digits, as bytes."""
    try:
        data = bytes.fromhex(digits)
    except ValueError:
        raise WrongLine from None
    if len(data) != 1:
        raise WrongLine
    return data


def cut_words(rest, count):
    """`count` words of a line's rest, and the text after them, none of it undone."""
    parts = rest.split(" ", count)
    if len(parts) < count:
        raise WrongLine
    return parts if len(parts) > count else parts + [""]


# ---- the parts of a result


def escape(data):
    """Bytes as a vector file writes them."""
    return "".join(map(escaped_byte, data))


def escaped_byte(byte):
    """A byte as a vector file writes it."""
    if byte == 10:
        return "\\n"
    if byte == 92:
        return "\\\\"
    if 0x20 <= byte <= 0x7E:
        return chr(byte)
    return f"\\x{byte:02x}"


def flag(value):
    """`true` or `false`."""
    return b"true" if value else b"false"


def number(value):
    """A number in decimal."""
    return b"%d" % value


def numbers(values):
    """Numbers with a space between them."""
    return b" ".join(map(number, values))


def found(value):
    """`none`, or `some` and bytes."""
    return b"none" if value is None else b"some " + value


def cut(before, after):
    """`kept` where nothing was cut, or `cut` and what remains."""
    return b"kept" if before == after else b"cut " + after


def order(value):
    """How two values are ordered, from -1, 0 or 1."""
    return {-1: b"Less", 0: b"Equal", 1: b"Greater"}[value]


def moment(time):
    """A time in seconds and nanoseconds, or `-` for none."""
    return b"-" if time is None else b"%ds+%dns" % divmod(time, 1000000000)


def error_text(error):
    """An error that is a result."""
    return b"error " + error.debug().encode()


# ---- the bytes that lines make


class Made:
    """The bytes that the lines before a call make. Words are methods that take a line's rest."""

    WORDS = ("hex", "repeat", "put", "cut", "save", "use", "append")

    def __init__(self):
        self.made = b""
        self.saved = {}

    def begin(self):
        """Forgets what was made, and keeps what was saved."""
        self.made = b""

    def text(self, rest):
        """The bytes of a call: those that were made, and after them those of the line's rest."""
        return self.made + undo(rest)

    def give(self, word, rest):
        """Does what a line says, and returns whether it knows the line's word."""
        if word not in self.WORDS:
            return False
        getattr(self, word)(rest)
        return True

    def hex(self, rest):
        """`hex 01 0a ..`: these bytes more."""
        self.made += b"".join(byte_of(digits) for digits in rest.split(" ") if digits)

    def repeat(self, rest):
        """`repeat N TEXT`: the text N times more."""
        count, text = cut_words(rest, 1)
        self.made += number_of(count) * undo(text)

    def put(self, rest):
        """`put AT HH`: another byte at a place."""
        place, digits = cut_words(rest, 1)
        at = number_of(place)
        if not 0 <= at < len(self.made):
            raise WrongLine
        self.made = self.made[:at] + byte_of(digits) + self.made[at + 1 :]

    def cut(self, rest):
        """`cut N`: N bytes at most."""
        self.made = self.made[: number_of(rest)]

    def save(self, rest):
        """`save NAME`: keeps the bytes under this name."""
        self.saved[rest] = self.made

    def use(self, rest):
        """`use NAME`: the bytes that were kept under this name, in place of those that were made."""
        self.made = b""
        self.append(rest)

    def append(self, rest):
        """`append NAME`: the bytes that were kept under this name, after those that were made."""
        if rest not in self.saved:
            raise WrongLine
        self.made += self.saved[rest]


# ---- what an adapter is


class BaseSubject:
    """What an adapter has, as the class `Subject` of its module.

    `CALLS` is a dict from the names of calls to functions of the adapter, the line's rest and the
    `Made` bytes; `made.text(rest)` are the bytes of the call. A function returns the result's bytes
    before escapes. It raises `Refused` for an error that is a result, and `WrongLine` for a line
    that can't be read.
    """

    CALLS = {}

    def begin(self):
        """Forgets all that was given: a case begins."""

    def give(self, word, rest):
        """Takes what a line gives, and returns whether the adapter knows the line's word."""
        return False

    def call(self, name, rest, made):
        """The result of the call of this name, as bytes before escapes."""
        if name not in self.CALLS:
            raise WrongLine
        return self.CALLS[name](self, rest, made)


# ---- a file


@dataclasses.dataclass
class Statement:
    """A line that gives or asks for something, and the `=>` lines directly below it."""

    line: int
    name: str
    rest: str
    expected: list


@dataclasses.dataclass
class Outcome:
    """What came of a line: a result, with what was expected (None where nothing was), or a fault."""

    statement: Statement
    case: str
    result: bytes | None
    expected: bytes | None
    fault: str | None

    def agrees(self):
        """Whether the result is the expected one."""
        return self.fault is None and self.result == self.expected


def statements_of(data):
    """The statements of a vector file, in order. A line `=>` without one has the name `=>`."""
    statements = []
    last = None
    for line, text in enumerate(data.decode("latin-1").split("\n"), 1):
        name, _, rest = text.partition(" ")
        if name == "=>" and last is not None:
            last.expected.append(rest)
            continue
        last = None
        if text != "" and not text.startswith("#"):
            statement = Statement(line, name, rest, [])
            statements.append(statement)
            last = None if name == "=>" else statement
    return statements


def expected_of(statement):
    """The bytes of the expected result, or None where no line says one."""
    if not statement.expected:
        return None
    return b"\n".join(undo(text) for text in statement.expected)


def result_of(statement, subject, made):
    """The result of a statement that is a call, or None where it gives something."""
    if made.give(statement.name, statement.rest) or subject.give(statement.name, statement.rest):
        if statement.expected:
            raise WrongLine
        return None
    try:
        result = subject.call(statement.name, statement.rest, made)
    except Refused as error:
        return error_text(error)
    if result is None:
        raise WrongLine
    return result


def outcome_of(statement, case, subject, made):
    """What comes of a statement, or None where it gives something."""
    try:
        if statement.name == "=>":
            raise WrongLine
        result = result_of(statement, subject, made)
        if result is None:
            return None
        expected = expected_of(statement)
    except WrongLine:
        return Outcome(statement, case, None, None, "the line can't be read")
    fault = "the call has no expected result" if expected is None else None
    return Outcome(statement, case, result, expected, fault)


def outcomes_of(data, subject):
    """What comes of each call of a vector file, and of each line that can't be read, in order."""
    made = Made()
    case = ""
    for statement in statements_of(data):
        if statement.name == "case":
            case = statement.rest
            made.begin()
            subject.begin()
            continue
        outcome = outcome_of(statement, case, subject, made)
        if outcome is not None:
            yield outcome


def report_of(file, outcome):
    """The lines that are printed of an outcome that doesn't agree."""
    statement = outcome.statement
    place = f"{file}:{statement.line}: {outcome.case}: "
    if outcome.fault is not None:
        return place + outcome.fault + "\n"
    expected, got = escape(outcome.expected), escape(outcome.result)
    return place + f"another result\n  expected {expected}\n  got      {got}\n"


def result_lines(result):
    """The `=>` lines that write a result."""
    return [result_line(escape(line)) for line in result.split(b"\n")]


def result_line(text):
    """A line `=>`, where a space at its end is an escape."""
    if text.endswith(" "):
        text = text[:-1] + "\\x20"
    return "=> " + text if text else "=>"


def rewritten(data, subject):
    """The file with the results of the reference in place of the expected ones."""
    lines = data.decode("latin-1").split("\n")
    changed = [outcome for outcome in outcomes_of(data, subject) if not outcome.agrees()]
    for outcome in reversed(changed):
        if outcome.result is not None:
            at = outcome.statement.line
            lines[at : at + len(outcome.statement.expected)] = result_lines(outcome.result)
    return "\n".join(lines).encode("latin-1")
