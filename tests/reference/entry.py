"""Entries: results by their keys, each with the files that were included for it, and their bytes.

An entry is a dict from keys to lists of `Include`. Keys and digests are UTF-8, paths any bytes.
"""
import dataclasses

from .digests import frame
from .errors import Refused
from .files import FILE, call_files
from .paths import components
from .preprocessor_key import ENTRY_FORMAT
from .recorded import digest_with_metadata
from .texts import is_utf8
from .times import NANOS, nanoseconds_of, seconds_of

GREATEST_RESULTS = 100
GREATEST_INCLUDES = 10000


@dataclasses.dataclass
class Include:
    """`Include`: the path, recorded digest and size of a file, and the times that were kept."""

    path: bytes
    digest: bytes
    size: int
    modified: int | None = None
    changed: int | None = None


def time_bytes(time):
    """`time_bytes` and `moment_bytes`: a time that is there or not."""
    if time is None:
        return b"\0"
    return (
        b"\1"
        + seconds_of(time).to_bytes(8, "little", signed=True)
        + nanoseconds_of(time).to_bytes(4, "little")
    )


def include_bytes(include):
    """`include_bytes`: the bytes of one include."""
    return (
        frame(include.path)
        + frame(include.digest)
        + include.size.to_bytes(8, "little")
        + time_bytes(include.modified)
        + time_bytes(include.changed)
    )


def result_bytes(key, includes):
    """`result_bytes`: the bytes of one result."""
    count = len(includes).to_bytes(8, "little")
    return frame(key) + count + b"".join(map(include_bytes, includes))


def entry_bytes(entry):
    """`entry_bytes`: the one text of an entry."""
    count = len(entry).to_bytes(8, "little")
    return ENTRY_FORMAT + count + b"".join(result_bytes(key, entry[key]) for key in sorted(entry))


class Reader:
    """What is left of the bytes of an entry."""

    def __init__(self, data):
        self.data = data

    def take(self, count):
        """The first `count` bytes that are left; damaged where fewer are left."""
        if count > len(self.data):
            raise Refused("Deserialization")
        taken, self.data = self.data[:count], self.data[count:]
        return taken

    def number(self):
        """A number of 8 bytes."""
        return int.from_bytes(self.take(8), "little")

    def text(self):
        """Bytes after their length."""
        return self.take(self.number())

    def utf8(self):
        """Bytes after their length, damaged where they are no UTF-8."""
        text = self.text()
        if not is_utf8(text):
            raise Refused("Deserialization")
        return text

    def time(self):
        """A time that is there or not."""
        mark = self.take(1)
        if mark == b"\0":
            return None
        if mark != b"\1":
            raise Refused("Deserialization")
        seconds = int.from_bytes(self.take(8), "little", signed=True)
        nanoseconds = int.from_bytes(self.take(4), "little")
        if nanoseconds >= NANOS:
            raise Refused("Deserialization")
        return seconds * NANOS + nanoseconds

    def include(self):
        """One include."""
        return Include(self.text(), self.utf8(), self.number(), self.time(), self.time())

    def includes(self):
        """Includes after their count."""
        includes = []
        for _ in range(self.number()):
            includes.append(self.include())
        return includes


def read_entry(data):
    """`Reads`: the entry whose text the bytes are; no bytes are the entry without results."""
    if data == b"":
        return {}
    if data[:1] != ENTRY_FORMAT:
        raise Refused("UnknownFormat", data[0])
    reader = Reader(data[1:])
    entry = {}
    for _ in range(reader.number()):
        key = reader.utf8()
        if entry and key <= max(entry):
            raise Refused("Deserialization")
        entry[key] = reader.includes()
    if reader.data != b"":
        raise Refused("Deserialization")
    return entry


def include_count(entry):
    """`include_count`: how many includes all results have together."""
    return sum(len(includes) for includes in entry.values())


def is_before(time, moment):
    """`is_before`: a time is known and before the call time."""
    return time is not None and time < moment


def include_of(files, path, digest, moment):
    """`include_of`: what is recorded of a file: both times if both are before the call time, else none."""
    try:
        metadata = call_files(files.metadata, path)
    except Refused as error:
        raise Refused("Io", error) from None
    include = Include(path, digest, metadata.length)
    if is_before(metadata.modified, moment) and is_before(metadata.changed, moment):
        include.modified = metadata.modified
        include.changed = metadata.changed
    return include


def gathered(files, moment, named):
    """`gathered`: what is recorded of several files, each given by its digest and its path."""
    return [include_of(files, path, digest, moment) for digest, path in named]


def added(entry, key, includes):
    """`added`: the entry with one more result, emptied before if it is full (`is_over`)."""
    if len(entry) > GREATEST_RESULTS:
        entry = {}
    if include_count(entry) + len(includes) > GREATEST_INCLUDES:
        entry = {}
    return {**entry, key: includes}


def add_result(entry, files, moment, key, named):
    """The entry with a result, whose includes are gathered first; an error leaves the entry as it was."""
    return added(entry, key, gathered(files, moment, named))


def times_agree(include, metadata, config):
    """`times_agree`: both recorded times are the file's, or that of the modification alone is."""
    if include.modified is None:
        return False
    if include.changed is None:
        return include.modified == metadata.modified
    both = (include.modified, include.changed) == (metadata.modified, metadata.changed)
    return config.use_ctime_for_stat and both


def times_accept(include, metadata, config):
    """`times_accept`: the times say that the file is the same, where the options let them."""
    return config.file_stat_matches and times_agree(include, metadata, config)


class Known:
    """`KnownFiles`: what one look-up found, so that no file is asked or read twice. Faults aren't kept."""

    def __init__(self):
        self.metadata = {}
        self.digests = {}

    def metadata_at(self, files, path):
        """The metadata of what is at a path."""
        place = components(path)
        if place not in self.metadata:
            self.metadata[place] = files.metadata(path)
        return self.metadata[place]

    def digest_at(self, files, path, setting):
        """The recorded digest of the file at a path whose metadata are known, or None."""
        place = components(path)
        if place not in self.digests:
            metadata = self.metadata[place]
            self.digests[place] = digest_with_metadata(files, path, metadata, setting)
        return self.digests[place]


def matches(files, include, setting, known):
    """`matches`: what is at the path is the file that was included. What can't be read isn't."""
    try:
        metadata = known.metadata_at(files, include.path)
        if metadata.kind != FILE or metadata.length != include.size:
            return False
        if times_accept(include, metadata, setting.config):
            return True
        return known.digest_at(files, include.path, setting) == include.digest
    except Refused:
        return False


def all_match(files, includes, setting, known):
    """`includes_match`: whether all includes match."""
    return all(matches(files, include, setting, known) for include in includes)


def find(entry, files, setting):
    """`found_in`: the greatest key whose includes all match, or None."""
    known = Known()
    for key in sorted(entry, reverse=True):
        if all_match(files, entry[key], setting, known):
            return key
    return None
