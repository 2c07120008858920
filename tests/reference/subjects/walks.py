"""The calls of `file_cases`: line markers and walks."""
import itertools

from ..cases import (
    BaseSubject,
    WrongLine,
    cut_words,
    error_text,
    flag,
    found,
    list_of,
    number,
    number_of,
    undo,
)
from ..digests import digest_text
from ..errors import Refused, is_fault
from ..given import Given, World
from ..markers import marks, read_marker
from ..paths import components
from ..walk import Context, process_line, walk

ERROR_TEXTS = {"Memory": b"out of memory", "Marker": b"a line marker is malformed"}
LOW_64 = 2**64 - 1


# ---- texts by a rule


def next_state(state):
    """The next number of the generator."""
    state ^= state << 13 & LOW_64
    state ^= state >> 7
    return state ^ state << 17 & LOW_64


def all_texts(pieces, count):
    """Each text of this number of pieces; the first piece changes with each text."""
    for chosen in itertools.product(pieces, repeat=count):
        yield b"".join(reversed(chosen))


def some_texts(pieces, count, state):
    """`count` texts of up to 23 pieces, which a generator of numbers chooses."""
    for _ in range(count):
        text = b""
        for _ in range(state % 24):
            state = next_state(state)
            text += pieces[(state >> 20) % len(pieces)]
        state = next_state(state)
        yield text


def beginnings(text):
    """Each beginning of a text, from the empty one to the whole."""
    return (text[:length] for length in range(len(text) + 1))


# ---- results


def mark_text(text, mark):
    """A line of the marks of a text."""
    if mark.kind == "Malformed":
        return b"malformed"
    if mark.kind == "Refused":
        return b"refusal"
    return (b"system " if mark.is_system else b"name ") + text[mark.begin : mark.end]


def marks_text(text):
    """The marks of a text, one in each line."""
    return b"\n".join(mark_text(text, mark) for mark in marks(text))


def line_text(text):
    """What a line marker says, with its places."""
    marker = read_marker(text, 0)
    if marker.kind == "Malformed":
        return b"malformed"
    if marker.kind == "Unnamed":
        return b"unnamed %d" % marker.end
    word = b"system" if marker.is_system else b"name"
    return b"%s %d %d %s" % (word, marker.begin, marker.end, text[marker.begin : marker.end])


def digest_of(results):
    """The hex digest of all results, each with a line feed after it."""
    return digest_text(b"".join(result + b"\n" for result in results))


def action_text(action):
    """What is to be done after a line marker, with its numbers."""
    word, *places = action
    return " ".join([word, *(str(place).lower() for place in places)]).encode()


# ---- calls


def call_marks(subject, rest, made):
    """`marks TEXT`: the marks of a text, one in each line."""
    return marks_text(made.text(rest))


def call_digest_of_marks(subject, rest, made):
    """`digest_of_marks TEXT`: the digest of what `marks` returns."""
    return digest_text(marks_text(made.text(rest)))


def call_read_line(subject, rest, made):
    """`read_line TEXT`: what the text says as a line marker."""
    return line_text(made.text(rest))


def call_marks_of_texts(subject, rest, made):
    """`marks_of_texts`: the digest of the marks of each text."""
    return digest_of(map(marks_text, subject.texts))


def call_lines_of_texts(subject, rest, made):
    """`lines_of_texts`: the digest of what each text says as a line marker."""
    return digest_of(map(line_text, subject.texts))


def call_walk(subject, rest, made):
    """`walk TEXT`: the files that are recorded of a text."""
    return subject.walk_text(made.text(rest))


def call_walks_of_texts(subject, rest, made):
    """`walks_of_texts`: the digest of what is recorded of each text."""
    return digest_of(map(subject.walk_or_error, subject.texts))


def call_line(subject, rest, made):
    """`line START HASH_START TEXT`: what the line marker at a place does."""
    start, hash_start, text = cut_words(rest, 2)
    text, start, hash_start = undo(text), number_of(start), number_of(hash_start)
    if not 0 <= hash_start <= start < len(text):
        raise WrongLine
    return action_text(process_line(subject.context(), subject.records, text, start, hash_start))


def call_records(subject, rest, made):
    """`records`: how many files `line` recorded."""
    return number(len(subject.records))


def call_record(subject, rest, made):
    """`record PATH`: the digest that `line` recorded of the file at a path."""
    _, digest = subject.records.get(components(made.text(rest)), (None, None))
    return found(digest)


def call_is_armed(subject, rest, made):
    """`is_armed`: whether one more call on files is a fault."""
    try:
        subject.world.files.metadata(b"/")
    except Refused as error:
        return flag(is_fault(error))
    return flag(False)


def call_error_text(subject, rest, made):
    """`error_text NAME`: what an error of a walk prints."""
    if rest not in ERROR_TEXTS:
        raise WrongLine
    return ERROR_TEXTS[rest]


class Subject(BaseSubject):
    """What lines gave, the texts that they made, and what `line` recorded."""

    CALLS = {
        "marks": call_marks,
        "digest_of_marks": call_digest_of_marks,
        "read_line": call_read_line,
        "marks_of_texts": call_marks_of_texts,
        "lines_of_texts": call_lines_of_texts,
        "walk": call_walk,
        "walks_of_texts": call_walks_of_texts,
        "line": call_line,
        "records": call_records,
        "record": call_record,
        "is_armed": call_is_armed,
        "error_text": call_error_text,
    }

    def __init__(self):
        self.given = Given()
        self.world = World()
        self.begin()

    def begin(self):
        """Forgets all that was given and recorded."""
        self.given.begin()
        self.world.begin()
        self.input = b""
        self.cwd = b""
        self.pieces = []
        self.texts = []
        self.records = {}

    def give(self, word, rest):
        """Takes what a line gives."""
        if word in ("input", "cwd"):
            setattr(self, word, undo(rest))
        elif word == "pieces":
            self.pieces, self.texts = list_of(rest), []
        elif word == "all_texts":
            self.texts = list(all_texts(self.pieces, number_of(rest)))
        elif word == "some_texts":
            count, state = cut_words(rest, 1)
            self.texts = list(some_texts(self.pieces, number_of(count), number_of(state)))
        elif word == "beginnings":
            self.texts = list(beginnings(undo(rest)))
        else:
            return self.world.give(word, rest) or self.given.give(word, rest)
        return True

    def context(self):
        """What a walk is made over."""
        setting = self.world.setting(self.given.variables)
        return Context(self.world.files, self.input, self.cwd, setting)

    def walk_text(self, text):
        """What a walk returns: `refused`, or `accepted` and a line for each recorded file."""
        files = walk(self.context(), text)
        if files is None:
            return b"refused"
        return b"\n".join([b"accepted"] + [path + b" " + digest for path, digest in files])

    def walk_or_error(self, text):
        """What a walk returns, where an error is a result too."""
        try:
            return self.walk_text(text)
        except Refused as error:
            return error_text(error)
