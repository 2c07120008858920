"""The walk over a preprocessed text: whether the files that it names can be recorded.

Records are a dict from the components of a path to the path and its recorded digest.
"""
import dataclasses

from .errors import Refused
from .files import FILE, FOLDER
from .markers import marks, read_marker
from .paths import components, join_path, normalize_path, same_path
from .recorded import recorded_digest

PASSED_OVER = "passed over"
RECORDED = "recorded"
REFUSED = "refused"


@dataclasses.dataclass
class Context:
    """`context_in`: what a caller passes: files, the input, the working directory, the setting."""

    files: object
    input_file: bytes
    cwd: bytes
    setting: object


def is_looked_for(name, is_system, config):
    """`is_looked_for`: the name is not empty, not in `<` and `>`, and of no header that is skipped."""
    if name == b"":
        return False
    if len(name) >= 2 and name.startswith(b"<") and name.endswith(b">"):
        return False
    return not (is_system and config.skip_system_headers)


def is_good_time(time, moment):
    """A time is not known, or is before the call time."""
    return time is None or time < moment


def judgement_at(context, path):
    """`judgement_at`: `Folder`, the recorded digest of the regular file, or None, with which the text is refused."""
    try:
        metadata = context.files.metadata(path)
        if metadata.kind == FOLDER:
            return FOLDER
        if metadata.kind != FILE:
            return None
        moment = context.setting.moment
        if not is_good_time(metadata.modified, moment) or not is_good_time(metadata.changed, moment):
            return None
        return recorded_digest(context.files, path, context.setting)
    except Refused:
        return None


def outcome(context, records, name, is_system):
    """`outcome`: whether a name is passed over, recorded (in `records`) or refused."""
    if not is_looked_for(name, is_system, context.setting.config):
        return PASSED_OVER
    path = normalize_path(join_path(context.cwd, name))
    if components(path) in records or same_path(path, context.input_file):
        return PASSED_OVER
    standing = judgement_at(context, path)
    if standing == FOLDER:
        return PASSED_OVER
    if standing is None:
        return REFUSED
    records[components(path)] = (path, standing)
    return RECORDED


def walk(context, text):
    """`decided`: the paths with their recorded digests in path order, or None where the text is refused.

    A malformed marker before that is an error.
    """
    records = {}
    for mark in marks(text):
        if mark.kind == "Malformed":
            raise Refused("Marker")
        if mark.kind == "Refused":
            return None
        if outcome(context, records, text[mark.begin : mark.end], mark.is_system) == REFUSED:
            return None
    return [records[path] for path in sorted(records)]


def process_line(context, records, text, start, hash_start):
    """`IsLineResult`: the action for one line marker from `start` on, with its numbers.

    `("Continue", a, b)` or `("Break", a, b, goes_on)`; the scan goes on at `a`.
    """
    marker = read_marker(text, start)
    if marker.kind == "Malformed":
        raise Refused("Marker")
    if marker.kind == "Unnamed":
        return ("Break", marker.end, hash_start, True)
    name = text[marker.begin : marker.end]
    if name == b"":
        return ("Break", marker.end, marker.begin, True)
    if outcome(context, records, name, marker.is_system) == REFUSED:
        return ("Break", marker.end, marker.begin, False)
    return ("Continue", marker.end, marker.end)
