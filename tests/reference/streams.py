"""The commands `key` and `run`: the program over the standard streams."""
import os
import sys

from .program import USAGE, result_words
from .texts import is_utf8


def result_any_words(words, read):
    """What is printed for any words, and the exit status; `read` returns the input's bytes."""
    if not all(is_utf8(word) for word in words):
        return USAGE, 2
    return result_words(words, read)


def main(words):
    """Prints what is printed for the program's words, and returns the exit status."""
    printed, status = result_any_words([os.fsencode(word) for word in words], sys.stdin.buffer.read)
    sys.stdout.buffer.write(printed)
    sys.stdout.buffer.flush()
    return status
