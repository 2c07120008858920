"""Checks without the prover that each edit applies, of the gate and of tests/edits/: `python3 tests/edits_apply.py`.

Each old text has to be in its file once, pair after pair. What a new text names has to be there after the edit: a
local in the changed function, a function or a type in the file, a field or a method in a source of the repository.
A method of std that edits alone call is in OF_STD. What an edit says outside functions is not looked at. It prints
what is wrong, and ends with status 1 if anything is. The last line is `edits_apply: N passed, M failed`."""
import re

from edit_files import (DoesNotApply, TREE, crate_of, functions_of, gate_edits, hand_edits, pairs_of, place_of, source,
                        uses)

WORD = re.compile(r"(?<![\w'])[A-Za-z_]\w*")
TEXT = re.compile(r'"(?:[^"\\]|\\.)*"|\'(?:[^\'\\]|\\[^\']+)\'|//.*')
KEYWORDS = set("_ as b break const continue else enum false fn for if impl in let loop match mod move mut pub ref"
               " return self Self static struct super trait true type unsafe use where while crate dyn".split())
# What every file has of std, and methods of std that edits alone call.
OF_STD = set("bool char f64 i8 i16 i32 i64 isize str u8 u16 u32 u64 u128 usize Box Clone Copy Drop Eq Err None Ok"
             " Option Ord PartialEq Result Some String Vec std core alloc"
             " first_key_value is_char_boundary is_le leading_zeros reverse sort_unstable_by split_last wrapping_abs".split())
BINDING = re.compile(r"\bconst (\w+)|\bfn (\w+)\(([^()]*)\)|\blet (.*?) ?=[^=]"
                     r"|\bfor (.*?) in\b|\|([\w\s,&():]*)\|(?!\|)")
CLAUSE = re.compile(r"\b(?:ensures|requires)\b[^{]*\{(?:[^{}]|\{[^{}]*\})*\}")
USE = re.compile(r"^(?:pub )?use .*?;|\b(?:fn|const) \w+", re.M | re.S)


def changed_by(edit, folder):
    """The files that an edit changes: for each its text afterwards, and this with zero bytes for what is new."""
    files = {}
    for path, old, new in pairs_of(edit):
        text, kept = files.get(path) or (source(folder, path),) * 2
        start = place_of(old, text, path)
        end = start + len(old)
        files[path] = text[:start] + new + text[end:], kept[:start] + "\0" * len(new) + kept[end:]
    if not files:
        raise DoesNotApply("it has no pair of an old and a new text")
    if all(text == source(folder, path) for path, (text, _) in files.items()):
        raise DoesNotApply("it changes nothing")
    return files


def pattern_before(code, arrow):
    """The pattern of the arm whose arrow is at this place of the code."""
    depth, at = 0, arrow
    while at > 0:
        letter, after = code[at - 1], code[at:arrow].strip()
        is_end = letter in ",;{([" or letter == "}" and after and not after.startswith("if ")
        if depth == 0 and is_end:
            break
        depth += (letter in ")]}") - (letter in "([{")
        at -= 1
    return code[at:arrow].split(" if ")[0]


def bound_in(code):
    """The names that the code binds or defines."""
    code = " ".join(code.split())
    parts = [part for found in BINDING.finditer(code) for part in found.groups() if part]
    parts += [pattern_before(code, arrow.start()) for arrow in re.finditer("=>", code)]
    return {name for part in parts for name in WORD.findall(part)}


def is_member(before):
    """Whether a word is a field, a method or the end of a path, by the code before it."""
    return re.search(r"(?<!\.)\.$|::$", before) is not None


def locals_in(code):
    """The words of a function that may be locals."""
    return {word[0] for word in WORD.finditer(code) if not is_member(code[max(0, word.start() - 2):word.start()])}


def blank(text):
    """As many spaces."""
    return " " * len(text)


def missing_names(path, text, kept, libraries, members):
    """What the new texts in a changed file name and is gone."""
    runs = [(run.start(), run.end()) for run in re.finditer("\0+", kept)]
    code = CLAUSE.sub(lambda found: blank(found[0]), TEXT.sub(lambda found: blank(found[0]), text))
    kept = code
    for start, end in runs:
        kept = kept[:start] + blank(kept[start:end]) + kept[end:]
    in_file, outside = set(WORD.findall(kept)), set(WORD.findall(" ".join(USE.findall(kept))))
    known = KEYWORDS | OF_STD | bound_in(" ; ".join(code[start:end] for start, end in runs))
    functions = list(functions_of(path, text))
    for word in [word for start, end in runs for word in WORD.finditer(code, start, end)]:
        name, before = word[0], code[max(0, word.start() - 40):word.start()].rstrip()
        after = code[word.end():word.end() + 40].lstrip()
        function = next((it for it in functions if it[1] <= word.start() <= it[2]), None)
        if not function or name in known or re.match("!(?!=)", after):
            continue
        if is_member(before) or re.match(":(?!:)", after):
            is_there = name in members
        elif name[0].isupper() or after.startswith(("(", "::")):
            is_there = name in in_file or name in libraries
        else:
            is_there = name in outside or name in locals_in(kept[function[1]:function[2]])
        if not is_there:
            yield name


def faults_of(edit, uses_of, members):
    """What keeps an edit from applying, and what it names that is gone."""
    crate = crate_of(edit)
    try:
        files = changed_by(edit, TREE / "crates" / crate)
    except DoesNotApply as fault:
        return [f"does not apply: {fault}"]
    libraries = uses_of.get(crate, [])
    missing = [name for path, both in files.items() if path.startswith("src/")
               for name in missing_names(path, *both, libraries, members)]
    return [f"names {name}, which is gone" for name in dict.fromkeys(missing)]


def main():
    uses_of, edits = uses(), gate_edits() + hand_edits()
    members = {word for file in TREE.glob("crates/*/src/**/*.rt") for word in WORD.findall(file.read_text())}
    failed = 0
    for edit in edits:
        faults = faults_of(edit, uses_of, members)
        failed += bool(faults)
        for fault in faults:
            print(f"{edit.relative_to(TREE)} {fault}")
    print(f"edits_apply: {len(edits) - failed} passed, {failed} failed")
    raise SystemExit(bool(failed))


if __name__ == "__main__":
    main()
