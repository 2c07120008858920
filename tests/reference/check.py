"""The commands `check` and `write` over the vector files of the repository."""
import importlib
import pathlib
import sys

from .cases import outcomes_of, report_of, rewritten

TOP = pathlib.Path(__file__).resolve().parents[2]

DATA = TOP / "crates/cck_vectors/data"

# The folders of vector files. The module of `subjects` of the same name makes their calls.
FOLDERS = ["values", "files", "walks", "calls", "scripts"]


def data_files(folder):
    """The vector files of a folder, in order."""
    return sorted((DATA / folder).glob("*.txt"))


def module_of(name):
    """The adapter of this name, or None where there is none."""
    if not (pathlib.Path(__file__).parent / "subjects" / f"{name}.py").exists():
        return None
    return importlib.import_module(f"{__package__}.subjects.{name}")


def vector_files():
    """Each vector file of the repository, with its adapter or None."""
    return [(file, module_of(name)) for name in FOLDERS for file in data_files(name)]


def name_of(file):
    """How a file is named in what is printed."""
    return file.relative_to(TOP).as_posix()


def chosen_files(words):
    """The vector files whose names end with one of these words, or all where there are no words. Ends the program where a
    word is the end of no name."""
    files = vector_files()
    for word in words:
        if not any(name_of(file).endswith(word) for file, _ in files):
            sys.exit(f"reference: no vector file has a name that ends with {word}")
    return [pair for pair in files if not words or name_of(pair[0]).endswith(tuple(words))]


def check_file(file, module):
    """What is printed of a file, how many results are the expected ones, and how many are not."""
    if module is None:
        return f"{name_of(file)}: not checked, since there is no adapter\n", 0, 1
    outcomes = list(outcomes_of(file.read_bytes(), module.Subject()))
    results = sum(outcome.result is not None for outcome in outcomes)
    different = [outcome for outcome in outcomes if not outcome.agrees()]
    printed = "".join(report_of(name_of(file), outcome) for outcome in different)
    printed += f"{name_of(file)}: {results} results, {len(different)} differences\n"
    equal = sum(outcome.result is not None and outcome.agrees() for outcome in outcomes)
    return printed, equal, len(different)


def check(words):
    """`check [FILE..]`: compares each expected result with that of the reference."""
    passed = failed = 0
    for file, module in chosen_files(words):
        printed, equal, different = check_file(file, module)
        sys.stdout.write(printed)
        passed += equal
        failed += different
    sys.stdout.write(f"reference: {passed} passed, {failed} failed\n")
    return 1 if failed else 0


def vector_names():
    """The names of the vector files, in order."""
    return [name_of(file) for file, _ in vector_files()]


def agrees(name):
    """Whether all results of the vector file of this name are the expected ones."""
    file = TOP / name
    module = module_of(file.parent.name)
    outcomes = outcomes_of(file.read_bytes(), module.Subject())
    return all(outcome.agrees() for outcome in outcomes)


def write(words):
    """`write [FILE..]`: puts the results of the reference in place of the expected ones."""
    status = 0
    for file, module in chosen_files(words):
        if module is None:
            sys.stdout.write(f"{name_of(file)}: not written, since there is no adapter\n")
            status = 1
            continue
        data = file.read_bytes()
        new = rewritten(data, module.Subject())
        if new != data:
            file.write_bytes(new)
            sys.stdout.write(f"{name_of(file)}: written\n")
    return status
