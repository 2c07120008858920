"""Compares crates/cck_c/include/cck.h with the exports of crates/cck_c: the names of the functions and
the number of their parameters, the names and order of the fields of structs, and the values of the
statuses and kinds. Types are not compared. It prints each difference, and then
how many names it compared.
"""
import pathlib
import re
import sys

# An export with its parameters, and a struct that crosses with its fields.
EXPORT = re.compile(r'extern "C" fn (\w+)(?:<[^>]*>)?\((.*?)\)[^()]*?\n?\s*(?:->|ensures)', re.S)
STRUCT = re.compile(
    r"#\[repr\(C\)\]\s*(?:#\[[^\]]*\]\s*)*pub struct (\w+)[^{]*\{(.*?)\n\}", re.S
)

CRATE = pathlib.Path(__file__).resolve().parent.parent.parent / "crates" / "cck_c"


def parts(text):
    """The parts of a list that commas outside of brackets separate."""
    found, depth, last = [], 0, ""
    for character in text:
        depth += (character in "([<{") - (character in ")]>}")
        if character == "," and depth == 0:
            found.append(last.strip())
            last = ""
        else:
            last += character
    return [part for part in [*found, last.strip()] if part]


def is_slice(kind):
    """Whether a Rattle type is a slice, which is a pointer and a length in C."""
    return re.match(r"&('\w+ )?(mut )?\[[^;]*\]$", kind) is not None


def width(kind):
    """How many parameters of C one of this type is."""
    return 0 if kind == "Global" else 2 if is_slice(kind) else 1


def snake(name):
    """A type's name as C has it. The crate has a C before a name that a crate below has: `CMark`."""
    name = re.sub(r"^C(?=[A-Z])", "", name)
    return "cck" + re.sub(r"[A-Z]", lambda letter: "_" + letter[0].lower(), name)


def without_comments(text, start):
    """The text without the comments of a line."""
    return re.sub(start + r".*", "", text)


def of_crate():
    """The functions, structs and constants of the crate."""
    functions, structs, constants = {}, {}, {}
    for path in sorted((CRATE / "src").glob("*.rt")):
        text = without_comments(path.read_text(), "//")
        for name, given in EXPORT.findall(text):
            functions[name] = sum(width(one.split(": ", 1)[1]) for one in parts(given))
        for name, body in STRUCT.findall(text):
            fields = [one.removeprefix("pub ").split(": ", 1) for one in parts(body)]
            structs[snake(name)] = [
                part for field, kind in fields
                for part in ([field, field + "_length"] if is_slice(kind) else [field])
            ]  # fmt: skip
        for name, value in re.findall(r"const (\w+): (?:i32|u8) = (\d+);", text):
            constants["CCK_" + name] = int(value)
    return functions, structs, constants


def field_name(line):
    """The name of the field that a line of a struct of C declares."""
    return re.sub(r"\[.*\]", "", line.split()[-1].lstrip("*"))


def of_header():
    """The same of the header."""
    text = re.sub(r"/\*.*?\*/", "", (CRATE / "include" / "cck.h").read_text(), flags=re.S)
    functions = {
        name: len(parts(given))
        for name, given in re.findall(r"^\w+ (cck_\w+)\(([^;]*)\);", text, re.M)
    }
    structs = {
        name: [field_name(line) for line in body.split(";") if line.strip()]
        for name, body in re.findall(r"struct (cck_\w+) \{(.*?)\};", text, re.S)
    }
    constants = {name: int(value) for name, value in re.findall(r"(CCK_\w+) = (\d+)", text)}
    return functions, structs, constants


def main():
    """Compares both, and returns the exit status."""
    kinds = ("function", "struct", "constant")
    passed = failed = 0
    for kind, crate, header in zip(kinds, of_crate(), of_header()):
        if not crate:
            failed += 1
            print(f"no {kind} in the crate")
        for name in sorted(crate.keys() | header.keys()):
            if crate.get(name) == header.get(name):
                passed += 1
            else:
                failed += 1
                print(f"{kind} {name}: {crate.get(name)} in the crate, {header.get(name)} in cck.h")
    print(f"signatures: {passed} passed, {failed} failed")
    return 1 if failed else 0


if __name__ == "__main__":
    sys.exit(main())
