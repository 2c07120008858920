"""The small preprocessor of a script."""
from .errors import Refused, is_fault
from .files import call_files, read_contents
from .paths import join_path
from .recorded import DATE_MACRO, TIME_MACRO, TIMESTAMP_MACRO
from .times import local_day, local_second

INCLUDE = b'#include "'


def number_text(number):
    """A number in decimal."""
    return b"%d" % number


def stamp_text(modified, zone):
    """What `__TIMESTAMP__` becomes in a file with this time of modification."""
    return b"?" if modified is None else number_text(local_second(modified, zone))


def expanded(text, moment, modified, zone):
    """`expanded`: a text with the three macros replaced, from left to right and without overlap."""
    values = {
        DATE_MACRO: number_text(local_day(moment, zone)),
        TIME_MACRO: number_text(local_second(moment, zone)),
        TIMESTAMP_MACRO: stamp_text(modified, zone),
    }
    printed = []
    at = 0
    while at < len(text):
        macro = next((macro for macro in values if text.startswith(macro, at)), None)
        printed.append(text[at : at + 1] if macro is None else values[macro])
        at += 1 if macro is None else len(macro)
    return b"".join(printed)


def include_name(line):
    """`include_name`: the name in a line `#include "NAME"`, or None for any other line."""
    if not line.startswith(INCLUDE) or not line.endswith(b'"'):
        return None
    name = line[len(INCLUDE) : -1]
    if name == b"" or b'"' in name:
        return None
    return name


def marker(number, path, behind):
    """`marker`: a line marker with its LF; after the name are these bytes."""
    return b"# " + number_text(number) + b' "' + path + b'"' + behind + b"\n"


def lines_of(text):
    """The lines of a text, each without its LF, and whether it has one."""
    parts = text.split(b"\n")
    lines = [(part, True) for part in parts[:-1]]
    return lines + [(parts[-1], False)] if parts[-1] != b"" else lines


def included(files, path, moment, zone):
    """The expanded contents of an included file, with an LF at their end if they are not empty."""
    text = expanded_file(files, path, moment, zone)
    return text + b"\n" if text != b"" and not text.endswith(b"\n") else text


def expanded_file(files, path, moment, zone):
    """The expanded contents of a regular file."""
    contents = read_contents(files, path)
    modified = call_files(files.metadata, path).modified
    return expanded(contents, moment, modified, zone)


def printed(files, path, cwd, moment, zone):
    """`printed`: the text that is printed for the input at a path, with errors as those of files."""
    contents = read_contents(files, path)
    modified = call_files(files.metadata, path).modified
    text = marker(1, path, b"")
    for number, (line, has_end) in enumerate(lines_of(contents), 1):
        name = include_name(line)
        if name is None:
            text += expanded(line, moment, modified, zone) + (b"\n" if has_end else b"")
        else:
            below = join_path(cwd, name)
            text += marker(1, below, b" 1") + included(files, below, moment, zone)
            text += marker(number + 1, path, b" 2")
    return text


def print_input(files, path, cwd, moment, zone):
    """The printed text; the error `Failed` where there is none, `Fault` where a call on files failed."""
    try:
        return printed(files, path, cwd, moment, zone)
    except Refused as error:
        raise Refused("Fault" if is_fault(error) else "Failed") from None


class MiniCompiler:
    """`mini_compiler`: the compiler of a script, which knows the zone of the run."""

    version = None
    plusplus = False
    assembler_digest = None

    def __init__(self, zone):
        self.zone = zone

    def prints(self, files, executable, arguments, cwd, variables, moment):
        """What its preprocessor prints."""
        return print_input(files, join_path(cwd, arguments.input), cwd, moment, self.zone)
