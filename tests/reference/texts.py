"""Byte texts: escapes, prefixes, durations, lengths, text that is no UTF-8, and variables."""
from .errors import Refused

LETTER_VALUES = {
    b"n": b"\n",
    b"r": b"\r",
    b"t": b"\t",
    b"'": b"'",
    b'"': b'"',
    b"\\": b"\\",
}
HEX_DIGITS = b"0123456789abcdefABCDEF"


def unescape(text):
    """`unescaped`: the bytes that a text means; an error for the first fault in it."""
    found = []
    at = 0
    while True:
        backslash = text.find(b"\\", at)
        if backslash < 0:
            return b"".join(found) + text[at:]
        value, behind = escape_at(text, backslash + 1)
        found += [text[at:backslash], value]
        at = behind


def escape_at(text, at):
    """What the escape denotes whose `\\` is directly before a place, and the place after it."""
    if text[at : at + 1] == b"x":
        return hex_value(text[at + 1 : at + 3]), at + 3
    return letter_value(text[at : at + 1]), at + 1


def letter_value(letter):
    """`letter_value`: the byte that a letter after `\\` means."""
    if letter == b"":
        raise Refused("IncompleteEscape")
    if letter not in LETTER_VALUES:
        raise Refused("InvalidEscape")
    return LETTER_VALUES[letter]


def hex_value(digits):
    """`hex_value`: the byte that the digits after `\\x` mean."""
    if len(digits) < 2:
        raise Refused("IncompleteHex")
    if digits[0] not in HEX_DIGITS or digits[1] not in HEX_DIGITS:
        raise Refused("InvalidHex")
    return bytes([int(digits, 16)])


def starts_with(text, prefix):
    """Whether a text begins with a prefix."""
    return text.startswith(prefix)


def split_prefix(text, prefix):
    """What follows the prefix in a text that begins with it, else None."""
    if not starts_with(text, prefix):
        return None
    return text[len(prefix) :]


def seconds_text(nanoseconds):
    """`seconds_text`: a duration in print: whole seconds, `.`, three digits of milliseconds, ` s`."""
    milliseconds = nanoseconds // 1000000
    return b"%d.%03d s" % (milliseconds // 1000, milliseconds % 1000)


def prefixed_bytes(data):
    """`prefixed_bytes`: the length in 4 bytes, the highest first, and the bytes (4294967295 at most)."""
    return len(data).to_bytes(4, "big") + data


def lossy(data):
    """`lossy`: bytes as text, with U+FFFD for each part that is no UTF-8."""
    return data.decode(errors="replace").encode()


def is_utf8(data):
    """Whether bytes are UTF-8."""
    try:
        data.decode()
    except UnicodeDecodeError:
        return False
    return True


def lower_ascii(text):
    """A text with its ASCII letters in lower case."""
    return text.lower()


def first_value(variables, name):
    """`first_value`: the value of the first variable of this name, else None."""
    for variable, value in variables:
        if variable == name:
            return value
    return None
