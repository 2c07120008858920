"""The grammar of preprocessed text: its line markers and what they name."""
import dataclasses
import re

LEAST_LEFT = 7
UNDERSCORES = b"_" * 10
INCLUSIONS = (b'.incbin"', b'.incbin "', b'.incbin \\"')
DIGITS = b"0123456789"
# Where another thing than a single byte can begin: where a line starts, or at a `.`.
PLACE = re.compile(rb"(?<=\n)|\.")


@dataclasses.dataclass
class Marker:
    """What a line marker says, with places in the text.

    `kind` is `Unnamed`, and `end` the place of the line's end; or `Named`, and `text[begin:end]` is
    the name; or `Malformed`.
    """

    kind: str
    begin: int = 0
    end: int = 0
    is_system: bool = False


def is_line_start(text, at):
    """Whether a line starts at a place."""
    return at == 0 or text[at - 1 : at] == b"\n"


def is_marker(text, at):
    """`is_marker`: a line marker begins here, if a line starts here."""
    if text.startswith(b"# ", at):
        return text[at + 2 : at + 3] != b"" and text[at + 2] in DIGITS
    return text.startswith((b"#pragma GCC pch_preprocess", b"#line "), at)


def is_hidden(text, at):
    """`is_hidden`: ten underscores, which hide the line that they begin."""
    return text.startswith(UNDERSCORES, at)


def is_inclusion(text, at):
    """`is_inclusion`: `.incbin` and a quote, with nothing, a space, or a space and `\\` between."""
    return text.startswith(INCLUSIONS, at)


def place_of(text, byte, start):
    """The place of the first such byte from a place on, or the text's end."""
    place = text.find(byte, start)
    return len(text) if place < 0 else place


def next_place(text, at):
    """The next place after this one where another thing than a single byte can begin."""
    found = PLACE.search(text, at + 1)
    return len(text) if found is None else found.start()


def read_marker(text, start):
    """`Unnamed`, `Named` or malformed: what the line marker at a place says."""
    quote = place_of(text, b'"', start)
    line_end = place_of(text, b"\n", start)
    if line_end < quote:
        return Marker("Unnamed", end=line_end)
    if quote + 1 >= len(text):
        return Marker("Malformed")
    end = place_of(text, b'"', quote + 1)
    return Marker("Named", quote + 1, end, is_system(text, end))


def is_system(text, end):
    """`is_system`: a `3` is between the closing quote and the line's end."""
    return b"3" in text[end + 1 : place_of(text, b"\n", end)]


def marks(text):
    """`Marks`: each named marker in order, up to `Refused` or a malformed marker, which is the last."""
    at = 0
    while len(text) - at >= LEAST_LEFT:
        starts = is_line_start(text, at)
        if starts and is_marker(text, at):
            marker = read_marker(text, at)
            if marker.kind != "Unnamed":
                yield marker
            if marker.kind == "Malformed":
                return
            at = marker.end
        elif starts and is_hidden(text, at):
            at = place_of(text, b"\n", at) + 1
        elif is_inclusion(text, at):
            yield Marker("Refused")
            return
        else:
            at = next_place(text, at)
