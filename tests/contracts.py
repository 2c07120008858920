"""Prints the contracts of the public functions from the sources: `python3 tests/contracts.py [CRATE..]`.

Without a name it prints all crates, in the order of crates.txt. For each module it prints the functions that are
declared `pub`, some of which only their own crate calls: the signature, the first sentence of the docstring, and the
clauses. Of a public trait it prints all calls, and the ghost members of which their clauses are made. A method of an
implementation of a trait is printed if it has clauses of its own. Macros write no function here. docs/READING.md says
how a clause is read."""
import pathlib
import re
import sys

TREE = pathlib.Path(__file__).resolve().parent.parent
ITEM = re.compile(
    r"^ *(?:(?P<block>(?P<is_pub>pub )?trait|impl)\b(?P<head>[^{;]*)\{"
    r"|(?P<pub>pub )?(?:const |extern \"C\" )*fn (?P<name>\w+)"
    r"|ghost (?P<ghost>\w+): (?=\{))", re.MULTILINE)
BRACES = re.compile(r"//[^\n]*|\"(?:[^\"\\]|\\.)*\"|'(?:[^'\\\n]|\\.)'|[{}]", re.DOTALL)
CLAUSE = re.compile(r"\s*((?:requires|ensures|ghost)\b[^{;]*)\{")
SIGNATURE_END = re.compile(r"\s*(?:\b(?:requires|ensures|ghost)\b|;(?! \d+\])|\{)")
SENTENCE_END = re.compile(r"[.:](?= [A-Z`\[]|$)")


def closing(text, at):
    """The place after the brace that closes the one at this place. Those in comments and strings do not count."""
    depth = 0
    for found in BRACES.finditer(text, at):
        depth += {"{": 1, "}": -1}.get(found[0], 0)
        if depth == 0:
            return found.end()
    raise SystemExit(f"no brace closes that of {text[at:at + 60]!r}")


def in_one_line(text):
    """Code without its comments and line ends."""
    return " ".join(re.sub(r"//[^\n]*", "", text).split())


def owner_of(found, text):
    """What a block is: the trait, or the type and the trait that it implements, if any, and where it ends."""
    head = re.sub(r"^<[^{]*?> ", "", in_one_line(found["head"]))
    trait, _, of = head.rpartition(" for ")
    name = re.match(r"(?:\w+::)*(\w+)", of)
    return {"end": closing(text, found.end() - 1), "name": name[1] if name else of, "trait": re.sub("<.*", "", trait),
            "is_trait": found["block"] != "impl", "is_public_trait": bool(found["is_pub"])}


def first_sentence(text, at):
    """The first sentence of the comment before this place."""
    lines = []
    for line in reversed(text[:at].rstrip("\n").split("\n")):
        if line.strip().startswith("//"):
            lines.insert(0, line.strip().lstrip("/").strip())
        elif not line.strip().startswith("#["):
            break
    paragraph = " ".join(lines[:lines.index("")] if "" in lines else lines)
    end = SENTENCE_END.search(paragraph)
    return paragraph[:end.end()] if end else paragraph


def clauses_after(text, at):
    """The clauses of the function whose signature ends at this place."""
    found = CLAUSE.match(text, at)
    while found:
        at = closing(text, found.end() - 1)
        yield in_one_line(text[found.start(1):at])
        found = CLAUSE.match(text, at)


def module_items(text):
    """For each item of a module that is printed its head, a sentence and its clauses; a ghost member has None."""
    owner = None
    for found in ITEM.finditer(text):
        owner = owner if owner and found.start() < owner["end"] else None
        prefix, is_public_trait = (f"{owner['name']}::", owner["is_public_trait"]) if owner else ("", False)
        if found["block"]:
            owner = owner_of(found, text)
        elif found["ghost"] and is_public_trait:
            value = in_one_line(text[found.end():closing(text, found.end())])
            yield f"ghost {prefix}{found['ghost']}: {value}", first_sentence(text, found.start()), None
        elif found["name"]:
            end = SIGNATURE_END.search(text, found.end()).start()
            clauses = list(clauses_after(text, end))
            if found["pub"] or is_public_trait or owner and owner["trait"] and clauses:
                signature = re.sub(r"(?<=\() |,? (?=\))", "", in_one_line(text[found.end():end]))
                of = f"  (of {owner['trait']})" if owner and owner["trait"] else ""
                yield f"fn {prefix}{found['name']}{signature}{of}", first_sentence(text, found.start()), clauses


def print_crate(name):
    """Prints the crate's contracts, and returns how many functions it has, and how many of these have no clause."""
    source, counts = TREE / "crates" / name / "src", [0, 0]
    print(f"\n# {name}")
    for path in sorted(source.rglob("*.rt")):
        for place, (head, sentence, clauses) in enumerate(module_items(path.read_text())):
            if place == 0:
                print(f"\n## {name}::{'::'.join(path.relative_to(source).with_suffix('').parts)}")
            others = ["no clause"] if clauses == [] else clauses or []
            print("\n" + "\n    ".join(filter(None, [head, sentence, *others])))
            counts = [counts[0] + (clauses is not None), counts[1] + (clauses == [])]
    return counts


if __name__ == "__main__":
    listed = re.findall(r"^(\w+)(?: staticlib)?:", (TREE / "crates.txt").read_text(), re.MULTILINE)
    unknown = sorted(set(sys.argv[1:]) - set(listed))
    if unknown:
        raise SystemExit(f"crates.txt has no {', '.join(unknown)}")
    counts = [print_crate(name) for name in listed if name in sys.argv[1:] or not sys.argv[1:]]
    functions, without = map(sum, zip(*counts))
    print(f"\n{functions} functions, {without} of them without a clause")
