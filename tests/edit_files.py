"""Edits as files: those of the gate, crates/CRATE/must-fail/, and those that are tried by hand, tests/edits/CRATE/.

An edit has a line `file:` with a source file of its crate, and pairs of lines `old:` and `new:`. Each pair replaces
the only occurrence of a text in what the earlier pairs made of that file."""
import pathlib
import re

TREE = pathlib.Path(__file__).resolve().parent.parent
IMPL = re.compile(r"impl(?:<.*?>)? (?:(\w+)(?:<(\w\w+).*>)? for )?(?:&|\w+::)*(\w+)")
FUNCTION = re.compile(r"( *)(?:[\w()\"]+ )*?fn (\w+)")
NEXT_ITEM = re.compile(r"///|//|#\[|pub |fn |ghost |const |type |impl|trait |struct |enum |mod |use ")


class DoesNotApply(Exception):
    """An edit doesn't apply to the sources of its crate. Its text says why."""


def gate_edits(crate="*"):
    """The edits of the gate, of this crate or of all."""
    return sorted(TREE.glob(f"crates/{crate}/must-fail/*.edit"))


def hand_edits(crate="*"):
    """The edits that are tried by hand, of this crate or of all."""
    return sorted(TREE.glob(f"tests/edits/{crate}/*.edit"))


def crate_of(edit):
    """The crate that an edit changes."""
    return edit.parent.parent.name if edit.parent.name == "must-fail" else edit.parent.name


def pairs_of(edit):
    """The file, the old text and the new text of each pair of an edit."""
    path = old = ""
    for line in edit.read_text().split("\n"):
        key, _, text = line.partition(":")
        text = text.removeprefix(" ")
        if key == "file":
            path = text.strip()
        elif key == "old":
            old = text
        elif key == "new":
            yield path, old, text


def source(folder, path):
    """The text of a source file of a crate in this folder."""
    try:
        return (folder / path).read_text()
    except OSError as error:
        raise DoesNotApply(f"there is no file {path}") from error


def place_of(old, text, path):
    """Where an old text begins in the text of its file."""
    if not old or text.count(old) != 1:
        raise DoesNotApply(f"an old text is {text.count(old) if old else 0} times in {path}")
    return text.index(old)


def functions_of(path, text):
    """For each function of a source file a pattern for the name that a check gives it, and where it begins and ends."""
    module = "::".join(path.removeprefix("src/").removesuffix(".rt").split("/")) + "::"
    module = "" if module in ("lib::", "main::") else module
    owner, name, indent, first, start = "", None, "", 0, 0
    for line in text.split("\n"):
        if name and line.startswith(indent) and NEXT_ITEM.match(line, len(indent)):
            yield name, first, start - 1
            name = None
        if line.startswith(("impl", "trait ", "pub trait ")):
            head = IMPL.match(line)
            owner = r"\w*".join(filter(None, (head[3], head[1], head[2]))) if head else r"\w+"
            # A check names a type's own methods by the module of the type, whichever module their impl is in.
            owner = (r"(?:\w+::)*" if head and not head[1] else module) + owner + "::"
        elif line == "}":
            owner = ""
        if (head := FUNCTION.match(line)) and name is None:
            indent, first = head[1], start
            name = rf"\w+::{owner if owner and indent else module}{head[2]}(?:::.*)?"
        end = start + len(line)
        if name and line == indent + "}":
            yield name, first, end
            name = None
        start = end + 1
    if name:
        yield name, first, start - 1


def function_at(path, text, place):
    """The function with this place of a source file, as `functions_of` yields it, or nothing outside functions."""
    return next((it for it in functions_of(path, text) if it[1] <= place <= it[2]), None)


def apply(edit, texts, folder):
    """Applies an edit to these texts of files of a crate in this folder. Returns patterns of the functions that it
    changes, None among them for text outside functions."""
    changed, functions = dict(texts), set()
    for path, old, new in pairs_of(edit):
        text = changed[path] if path in changed else source(folder, path)
        place = place_of(old, text, path)
        found = function_at(path, text, place)
        functions.add(found and found[0])
        changed[path] = text.replace(old, new)
    if not functions:
        raise DoesNotApply("it has no pair of an old and a new text")
    texts.update(changed)
    return functions


def uses():
    """The libraries that each crate of the repository lists in crates.txt."""
    found = {}
    for line in (TREE / "crates.txt").read_text().split("\n"):
        name, _, words = line.partition("#")[0].partition(":")
        if name.split():
            found[name.split()[0]] = words.split()
    return found
