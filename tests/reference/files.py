"""Files: a map from paths to what is there, the calls on it, and the digests of what is there.

Paths are equal by components. Links are followed in the map: a linked path has what its target had.
Calls can be armed, so that they are faults.
"""
import copy
import dataclasses

from .armed import ArmedCalls
from .digests import delimiter, digest_text
from .errors import Refused, other_kind
from .paths import components, is_name, join_path, normalize_path
from .texts import lossy

FILE = "File"
FOLDER = "Folder"
OTHER = "Other"
GREATEST_LEVEL = 100
BUFFER_SIZE = 131072


@dataclasses.dataclass
class Node:
    """`FileNode`: the kind, a regular file's contents, and the times of modification and change."""

    kind: str
    contents: bytes = b""
    modified: int | None = None
    changed: int | None = None


@dataclasses.dataclass
class Metadata:
    """The kind of what is at a path, its length (0 for what is no regular file) and its times."""

    kind: str
    length: int
    modified: int | None
    changed: int | None


class MapFiles:
    """`FileState`: a `FileMap`, and which calls are faults."""

    def __init__(self):
        self.places = {}
        self.armed = ArmedCalls()

    def put(self, path, node):
        """`with_place`: the node is at the path, whose canonical path is its normalised path."""
        self.places[components(path)] = (node, normalize_path(path))

    def link(self, path, target):
        """`linked`: the path gets the node and the canonical path of the target, or neither."""
        place = self.places.get(components(target))
        self.remove(path)
        if place is not None:
            self.places[components(path)] = place

    def remove(self, path):
        """`without_place`: nothing is at this path; what is below it stays."""
        self.places.pop(components(path), None)

    def fail_at(self, n):
        """The nth of the following calls is a fault, counted from 1, and that one alone; 0 disarms."""
        self.armed.one = n

    def fail_after(self, n):
        """The nth of the following calls and all after it are faults, counted from 1; 0 disarms."""
        self.armed.onward = n

    def copy(self):
        """The same map, and the same calls armed and counted."""
        other = MapFiles()
        other.places = dict(self.places)
        other.armed = copy.copy(self.armed)
        return other

    def call_or_fault(self):
        """`IsAfterCall`: counts one call; an error where it is armed."""
        if self.armed.begin():
            raise Refused("Fault")

    def place_at(self, path):
        """What is at a path, and its canonical path; an error where nothing is."""
        place = self.places.get(components(path))
        if place is None:
            raise Refused("NotFound")
        return place

    def metadata(self, path):
        """`metadata_at`, as one call on files."""
        self.call_or_fault()
        node, _ = self.place_at(path)
        return Metadata(node.kind, len(node.contents), node.modified, node.changed)

    def read_at(self, path, offset, size):
        """`IsRead`, as one call on files: at most `size` bytes of the contents from an offset on."""
        self.call_or_fault()
        node, _ = self.place_at(path)
        if node.kind != FILE:
            raise Refused("OtherKind")
        return node.contents[offset : offset + size]

    def read_dir(self, path):
        """`IsListing`, as one call on files: the last names of a directory's direct children."""
        self.call_or_fault()
        node, _ = self.place_at(path)
        if node.kind != FOLDER:
            raise Refused("OtherKind")
        folder = components(path)
        children = [p for p in self.places if len(p) > 0 and p[:-1] == folder and is_name(p[-1])]
        return [child[-1][1] for child in children]

    def exists(self, path):
        """`exists_at`, as one call on files: whether something is there; false at a fault."""
        return not self.armed.begin() and components(path) in self.places

    def canonical(self, path):
        """`canonical_at`, as one call on files: the canonical path of what is there."""
        self.call_or_fault()
        _, canonical = self.place_at(path)
        return canonical


def call_files(call, *arguments):
    """What a call on files returns, with its error as a `UtilError`."""
    try:
        return call(*arguments)
    except Refused as error:
        raise Refused("File", error) from None


def kind_at(files, path):
    """The kind of what is at a path; an error where nothing is."""
    return call_files(files.metadata, path).kind


def read_contents(files, path):
    """`contents_at`: the contents of the regular file at a path, read in pieces to their end."""
    return read_pieces(files, path)


def read_pieces(files, path):
    """The bytes of a regular file, read until a read gives none."""
    contents = b""
    while True:
        piece = call_files(files.read_at, path, len(contents), BUFFER_SIZE)
        if piece == b"":
            return contents
        contents += piece


def sorted_names(files, path):
    """`child_names`: the last names of a directory's direct children, in order."""
    return sorted(call_files(files.read_dir, path))


def folder_material(files, path, relative, level):
    """The key material of what is `reached` from a directory: a delimiter and the contents of each file.

    `relative` is the directory's path relative to the one that was given, which has level 1.
    """
    if level > GREATEST_LEVEL:
        raise Refused("TooDeep")
    material = b""
    for name in sorted_names(files, path):
        below = join_path(path, name)
        text = join_path(relative, name)
        kind = kind_at(files, below)
        if kind == FOLDER:
            material += folder_material(files, below, text, level + 1)
        elif kind == FILE:
            material += delimiter(lossy(text)) + read_pieces(files, below)
        else:
            raise other_kind()
    return material


def digest_material(files, path):
    """`digest_material`: the bytes whose hex digest is that of what is at a path."""
    kind = kind_at(files, path)
    if kind == FILE:
        return read_pieces(files, path)
    if kind == FOLDER:
        return folder_material(files, path, b"", 1)
    raise other_kind()


def text_at(files, path):
    """`text_at`: the hex digest of what is at a path, a regular file or a directory."""
    return digest_text(digest_material(files, path))


def hash_all(files, paths):
    """`texts`: the hex digests of several paths in order; the error of the first that has none."""
    return [text_at(files, path) for path in paths]
