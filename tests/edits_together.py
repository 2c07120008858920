"""Tries many edits of tests/edits/ at once: `python3 tests/edits_together.py [CRATE..]`, or CRATE/EDIT for one.

In a copy of the working tree it applies in each round as many edits of a crate as it can, at most one to a
function, and runs `rt check --allow-holes` there. For each edit it prints whether the function that it changes
is rejected, proved or undecided, and the line of the check that says so. The contracts of the functions that it
calls hold there, changed or not. What is rejected only for a name that the edit took away, or before the prover is
asked, is undecided. What is proved, or waits for another changed function, is tried once more by itself, and is proved
only if the whole crate is. An edit of text outside functions has a round of its own. The crates below are proved once:
`--built TREE` copies the directories crates/*/out of another checkout with the same sources, and `--room DIRECTORY`
keeps the copy for the next run."""
import argparse
import contextlib
import pathlib
import re
import shutil
import subprocess
import tempfile

from edit_files import DoesNotApply, TREE, apply, crate_of, hand_edits, uses

STATUS = re.compile(r"(?:fn|impl|trait|struct|enum) (\S+): (.*)")
# What a line says of a function that is proved but for what it calls.
WAITS = re.compile(r"no holes|proved|no proof: it calls|not proved; it (?:calls|waits)|depends on a hole"
                   r"|no proof: the borrow checker's part in its proof is not made yet: a call of")
# What a line says of a function that the prover was not asked about.
NOT_TRIED = re.compile(r"could not tell|the borrow checker")
# What an error says of a line of a proof by hand that names what an edit took away.
GONE = re.compile(r"has no field|is not in scope|has no `|was not admitted")


def next_round(edits, folder):
    """As many of these edits as can be applied together, with the functions of each, and the texts that they make."""
    texts, chosen, taken = {}, {}, set()
    for edit in edits:
        tried = dict(texts)
        try:
            functions = apply(edit, tried, folder)
        except DoesNotApply:
            continue
        if taken & functions or (None in functions and chosen):
            continue
        texts, chosen[edit] = tried, functions
        taken |= functions
        if None in functions:
            break
    return chosen, texts


def check(room, crate, texts, flags):
    """What a check of a crate prints with these texts in place of its own, and its exit status."""
    folder = room / "crates" / crate
    own = {path: (folder / path).read_text() for path in texts}
    try:
        for path, text in texts.items():
            (folder / path).write_text(text)
        ran = subprocess.run(["rt", "check", *flags], cwd=folder, text=True, errors="replace",
                             stdout=subprocess.PIPE, stderr=subprocess.STDOUT)
    finally:
        for path, text in own.items():
            (folder / path).write_text(text)
    return ran.stdout, ran.returncode


def judged(name, status, said):
    """What a line of a check says of one function or type."""
    if WAITS.match(status):
        return "proved", ""
    if NOT_TRIED.search(status):
        return "undecided", status
    if "it stands on" not in status and status != "not proved":
        return "rejected", status
    # Its proof is by hand. If only the proof of another function is refused, it waits for that one.
    path = name.split("::", 1)[1].replace("::", "/")
    # Functions that call one another have one proof, in a directory whose name begins with `+`.
    module, slash, own = path.rpartition("/")
    folder = rf"{re.escape(module + slash)}(?:{re.escape(own)}|\+\w+)"
    faults = re.findall(rf"^(?:\./)?proofs/{folder}/.*: error: .*(?:\n  .*)*$", said, re.M)
    # What is long in a message is in indented lines of its own.
    faults = [fault.replace("\n ", "") for fault in faults]
    if not faults and "it stands on" in status and path.replace("/", ".") not in status:
        return "proved", ""
    of_meaning = [fault for fault in faults if not GONE.search(fault)]
    # What names a clause is shown before what names an invariant.
    of_meaning.sort(key=lambda fault: "-clause-" not in fault)
    is_rejected = of_meaning or not faults and status != "not proved"
    return "rejected" if is_rejected else "undecided", (of_meaning or faults or [status])[0]


def verdict(functions, said):
    """What a check says of these functions, or of all functions and types if None is among them, with its name."""
    lines = [(found[1], found[2]) for found in map(STATUS.fullmatch, said.split("\n")) if found]
    found = [(name, *judged(name, status, said)) for name, status in lines
             if None in functions or any(re.fullmatch(one, name) for one in functions)]
    for kind in ("rejected", "undecided"):
        for name, one, line in found:
            if one == kind:
                return kind, f"{name}: {line}"
    return ("proved", "") if found else ("undecided", "the check has no line for its function")


def try_alone(room, crate, edit):
    """The verdict on an edit by itself: it is proved only if the whole crate is."""
    said, status = check(room, crate, next_round([edit], room / "crates" / crate)[1], ["--allow-holes"])
    found, line = verdict({None}, said)
    if found == "proved" and status != 0:
        return "undecided", f"status {status}"
    return found, line


def try_together(room, crate, edits):
    """Yields each of these edits with its verdict, and what the check said of it."""
    folder, left = room / "crates" / crate, []
    for edit in edits:
        try:
            apply(edit, {}, folder)
            left.append(edit)
        except DoesNotApply as fault:
            yield edit, "undecided", f"it does not apply: {fault}"
    most = len(left)
    while left:
        chosen, texts = next_round(left[:most], folder)
        said, _ = check(room, crate, texts, ["--allow-holes"])
        if not re.search(r"^holes=", said, re.M):
            # The check ended before the prover: a part of the round is tried by itself.
            if len(chosen) == 1:
                fault = re.search(r"^.*\berror\b.*$", said, re.M)
                yield left.pop(left.index(*chosen)), "undecided", fault[0] if fault else said[-200:]
            most = max(1, len(chosen) // 2)
            continue
        most = len(left)
        for edit, functions in chosen.items():
            left.remove(edit)
            found, line = verdict(functions, said)
            yield edit, *(try_alone(room, crate, edit) if found == "proved" else (found, line))


def below(crate):
    """A crate and all crates of the repository that it stands on."""
    uses_of, found, left = uses(), set(), [crate]
    while left:
        name = left.pop()
        if name in uses_of and name not in found:
            found.add(name)
            left += uses_of[name]
    return found


def copy_tree(room, crate, built):
    """Copies the sources into the room, and what earlier checks left of a crate and of those below it."""
    listed = subprocess.run(["git", "ls-files", "-co", "--exclude-standard", "crates", "crates.txt", "HANDLES"],
                            cwd=TREE, text=True, check=True, stdout=subprocess.PIPE)
    for path in filter(lambda path: (TREE / path).is_file(), listed.stdout.split("\n")):
        (room / path).parent.mkdir(parents=True, exist_ok=True)
        shutil.copy2(TREE / path, room / path)
    for name in below(crate):
        left, kept = built / "crates" / name / "out", room / "crates" / name / "out"
        if left.is_dir() and not kept.exists():
            shutil.copytree(left, kept, symlinks=True)


def run(room, edits, built):
    """Tries these edits, and prints what comes of each. Returns whether all are rejected."""
    counts = dict.fromkeys(("rejected", "proved", "undecided"), 0)
    for crate in dict.fromkeys(map(crate_of, edits)):
        own = [edit for edit in edits if crate_of(edit) == crate]
        copy_tree(room, crate, built)
        said, status = check(room, crate, {}, [])
        if status != 0:
            print(said[-2000:], f"{crate}: not proved without its edits", sep="\n", flush=True)
            counts["undecided"] += len(own)
            continue
        for edit, found, line in try_together(room, crate, own):
            counts[found] += 1
            print(f"{crate}/{edit.stem}: {found}{line and ': '}{line[:300]}", flush=True)
    print(*(f"{count} {found}" for found, count in counts.items()), sep=", ")
    return counts["rejected"] == len(edits)


def named(names, edits_in):
    """The edits of these names, each CRATE or CRATE/EDIT, of those that a crate has."""
    found = []
    for name in names:
        crate, _, edit = name.partition("/")
        own = [one for one in edits_in(crate) if not edit or one.stem == edit.removesuffix(".edit")]
        if not own:
            raise SystemExit(f"no edit is named {name}")
        found += own
    return list(dict.fromkeys(found))


def main(what, edits_in):
    """Tries those of the edits of each crate that the command line names. `what` is what its help says."""
    parser = argparse.ArgumentParser(description=what, formatter_class=argparse.RawDescriptionHelpFormatter)
    parser.add_argument("names", nargs="*", metavar="CRATE or CRATE/EDIT")
    parser.add_argument("--room", type=pathlib.Path, help="the copy, kept for the next run")
    parser.add_argument("--built", type=pathlib.Path, default=TREE, help="the checkout whose crates/*/out are copied")
    given = parser.parse_args()
    edits = named(given.names or map(crate_of, edits_in()), edits_in)
    with contextlib.ExitStack() as kept:
        room = given.room or pathlib.Path(kept.enter_context(tempfile.TemporaryDirectory()))
        room.mkdir(parents=True, exist_ok=True)
        done = run(room.resolve(), edits, given.built)
    raise SystemExit(not done)


if __name__ == "__main__":
    main(__doc__, hand_edits)
