"""What the libraries print of their errors. An error is named as Rust's `Debug` prints it.

No document has these texts: they are those of the sources.
"""

FILE_TEXTS = {
    "NotFound": "there is no such file",
    "OtherKind": "the file is of another kind",
    "Fault": "a call on a file failed",
    "Memory": "out of memory",
}
UTIL_TEXTS = {
    "Memory": "out of memory",
    "Read": "a read failed",
    "TooDeep": "a directory is nested too deep",
    "TooLong": "too many bytes for a length of four bytes",
    "Write": "a write failed",
    "IncompleteEscape": "the text ends within an escape",
    "InvalidEscape": "there is no such escape",
    "IncompleteHex": "the text ends within the digits of an escape",
    "InvalidHex": "a digit of an escape is not hexadecimal",
}
ENTRY_TEXTS = {
    "Deserialization": "a preprocessor cache entry is damaged",
    "Memory": "out of memory",
}


def inner_of(name):
    """The name between the parentheses of a name."""
    return name.partition("(")[2][:-1]


def text_of_util_error(name):
    """What is printed of a `UtilError`."""
    if name.startswith("File("):
        return "a file can't be read: " + FILE_TEXTS[inner_of(name)]
    return UTIL_TEXTS[name]


def text_of_entry_error(name):
    """What is printed of an `Error` of entries."""
    if name.startswith("UnknownFormat("):
        return f"Unknown preprocessor cache entry format {int(inner_of(name)):x}"
    return text_of_util_error(inner_of(name)) if name.startswith("Io(") else ENTRY_TEXTS[name]
