"""Counts the definitions that the trusted statement reaches, and lists those of them that no example and no
witness names or reaches: `python3 tests/reach.py`. It exits with 1 if there are such definitions.

The statement has three parts. The first is `Headline` of c_cache_keys. The second is `StoreLaws` of cck_util.
The third is the contract of `run_calls` in c_cache_keys: the definitions of specs/ that its clauses name.

The lines of a definition are its own lines in its file, from its signature to its last equation, field or
constructor. Blank lines and lines that are only a comment do not count, nor do `use` and `module` lines. A
definition that Rattle writes for a type of a source file has no lines here.

The script reads names alone, so what is reached by an example is computed there only as far as the example's
proof computes it."""
import collections
import pathlib
import re
import sys

CRATES = pathlib.Path(__file__).resolve().parent.parent / "crates"
HEADLINE = ("c_cache_keys", "Laws", "Headline")
STORE_LAWS = ("cck_util", "Store", "StoreLaws")
CONTRACT = ("c_cache_keys", "calls.rt", "run_calls")
USE = re.compile(r"^\s*(?:ghost |pub )?use Rattle\.(\w+)\.specs\.([\w.]+?)(?:\.\{(.*)\}| as (\w+))?;?$", re.MULTILINE)
START = re.compile(r"( *)(?:(?:abbrev|unfoldable|opaque) )?(?:pub )?(?:(record|data) )?([^\s:(){}]*)(.*)")
OTHER_LINES = ("module ", "use ", "pub use ", "mod ", "pub mod ")
WORD = re.compile(r"(?:(\w+)\.)?([A-Za-z_][\w-]*)")


def imports(text):
    """What a file names in its `use` lines, by the names that it gives them: definitions, and pages."""
    names, pages = {}, {}
    for crate, page, items, alias in USE.findall(text):
        if alias or not items:
            pages[alias or page.split(".")[-1]] = (crate, page)
        for item in items.split(","):
            first, _, last = item.strip().partition(" as ")
            names[last or first] = (crate, page, first)
    return names, pages


def definitions():
    """The lines of each definition in specs/, those of the modules around it, what its file names, and the type of
    each constructor."""
    found, constructors = {}, {}
    for path in sorted(CRATES.glob("*/specs/**/*.antt")):
        crate, _, *rest = path.relative_to(CRATES).with_suffix("").parts
        page, text = ".".join(rest), path.read_text()
        named, modules, current, indent, kind = imports(text), [], None, 0, None
        for line in text.split("\n"):
            code = line.split("--")[0].rstrip()
            if not code:
                continue
            space, new_kind, name, tail = START.fullmatch(code).groups()
            if code.lstrip().startswith(OTHER_LINES):
                modules = [(at, module) for at, module in modules if at < len(space)] + [(len(space), code)]
                current = None
                continue
            is_signature = tail.startswith(" :")
            if (new_kind or is_signature) and (not current or len(space) <= indent):
                current, indent, kind = (crate, page, name), len(space), new_kind
                around = [module for at, module in modules if at < indent]
                found[current] = ([], around, named)
            elif current and kind == "data" and is_signature:
                constructors[crate, page, name] = current
            if current:
                found[current][0].append(code)
    return found, constructors


def named_in(text, page, names, pages, found, constructors):
    """The definitions that a text names."""
    keys = set()
    for before, word in WORD.findall(text):
        if before in pages:
            keys.add((*pages[before], word))
        else:
            keys |= {names.get(name, (*page, name)) for name in (before, word)}
    return {constructors.get(key, key) for key in keys} & found.keys()


def clauses(text, function):
    """The `requires` and `ensures` clauses of a function of a source file."""
    text = text[text.index(f"fn {function}<"):]
    return text[: text.index("\n{\n")]


def reached(uses, start):
    """These definitions and all that they reach."""
    seen, left = set(start), list(start)
    while left:
        for key in uses[left.pop()] - seen:
            seen.add(key)
            left.append(key)
    return seen


def main():
    found, constructors = definitions()
    uses = collections.defaultdict(set)
    for key, (lines, around, named) in found.items():
        uses[key] = named_in("\n".join(around + lines), key[:2], *named, found, constructors) - {key}
    crate, file, function = CONTRACT
    text = (CRATES / crate / "src" / file).read_text()
    uses[CONTRACT] = named_in(clauses(text, function), ("", ""), *imports(text), found, constructors)
    tried = set()
    for path in [*CRATES.glob("*/proofs/**/*Examples.antt"), *CRATES.glob("*/proofs/Witness.antt")]:
        names, _ = imports(path.read_text())
        tried |= {constructors.get(key, key) for key in names.values()} & found.keys()
    tried = reached(uses, tried)
    print(f"{len(found)} definitions")
    statement = set()
    for start in [(HEADLINE,), (HEADLINE, STORE_LAWS, CONTRACT)]:
        statement = reached(uses, start) & found.keys()
        lines = sum(len(found[key][0]) for key in statement)
        named = ", ".join(key[2] for key in start)
        print(f"{named}: {len(statement)} definitions, {lines} lines, {len(statement & tried)} tried")
    untried = sorted(statement - tried)
    for key in untried:
        print("not tried:", "/".join(key))
    print(f"reach: {len(statement & tried)} passed, {len(untried)} failed")
    return 1 if untried else 0


if __name__ == "__main__":
    sys.exit(main())
