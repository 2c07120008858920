"""The command `mutate`: which changes of the reference does no vector file notice?

Each change is tried in a process of its own. A process that fails or hangs has noticed it. A change
in a function is tried on the vector files that call the function: first on the one that noticed the
change before it, and then on quick files before slow ones.
"""
import argparse
import functools
import importlib
import importlib.abc
import importlib.util
import json
import os
import pathlib
import random
import resource
import signal
import sys
import tempfile
import time

from .changes import MODULES, all_changes, changed_tree

EQUAL = pathlib.Path(__file__).parent / "equal.txt"
MEMORY = 2 << 30
LEAST_SECONDS = 10
# The exit status of a process that noticed its change by its first file; by the next file one more.
NOTICED = 3


class ChangedModule(importlib.abc.MetaPathFinder, importlib.abc.Loader):
    """Imports one module of the reference from a changed tree."""

    def __init__(self, change):
        self.name = f"{__package__}.{change.module}"
        self.code = compile(changed_tree(change), f"{change.module}.py", "exec")

    def find_spec(self, fullname, path, target=None):
        """The module that was changed."""
        return importlib.util.spec_from_loader(fullname, self) if fullname == self.name else None

    def exec_module(self, module):
        """Runs the changed text."""
        exec(self.code, module.__dict__)


def judge(change, files):
    """The exit status of a process that checks these vector files: 0 where all results agree."""
    sys.meta_path.insert(0, ChangedModule(change))
    check = importlib.import_module(f"{__package__}.check")
    for at, file in enumerate(files):
        if not check.agrees(file):
            return NOTICED + at
    return 0


def start(work, seconds):
    """Starts a process whose exit status is what `work` returns; returns its number."""
    process = os.fork()
    if process != 0:
        return process
    status = 2
    try:
        signal.alarm(seconds)
        resource.setrlimit(resource.RLIMIT_AS, (MEMORY, MEMORY))
        nothing = os.open(os.devnull, os.O_RDWR)
        for stream in (0, 1, 2):
            os.dup2(nothing, stream)
        status = work()
    finally:
        os._exit(status)


# ---- which functions a vector file calls


def check_without_change(notes):
    """Checks each vector file, and writes to a file how long it took and what it calls."""
    check = importlib.import_module(f"{__package__}.check")
    table = {}
    for file in check.vector_names():
        begin = time.monotonic()
        called = set()
        sys.settrace(lambda frame, event, argument: called.add(frame.f_code))
        agrees = check.agrees(file)
        sys.settrace(None)
        if not agrees:
            return 1
        names = sorted({name_of_code(code) for code in called})
        table[file] = (time.monotonic() - begin, names)
    notes.write_text(json.dumps(table))
    return 0


def name_of_code(code):
    """A function as a change names it: its module, and its name with those that it is in."""
    name = code.co_qualname.replace(".<locals>", "")
    parts = [part for part in name.split(".") if not part.startswith("<")]
    return ".".join([pathlib.Path(code.co_filename).stem] + parts)


def called_by_files():
    """How long each vector file takes and what it calls, quick ones first; None where one fails."""
    with tempfile.TemporaryDirectory() as folder:
        notes = pathlib.Path(folder) / "notes"
        _, status = os.waitpid(start(lambda: check_without_change(notes), 3600), 0)
        if status != 0:
            return None
        table = json.loads(notes.read_text())
    return sorted((seconds, file, set(names)) for file, (seconds, names) in table.items())


def is_function(change):
    """Whether a change is in a function, and not in what is done when its module is imported."""
    name = change.function.split(".")[-1]
    return change.function != "module" and not name[0].isupper()


def files_of(change, called):
    """The vector files that may notice a change, and how many seconds they may take."""
    name = f"{change.module}.{change.function}"
    chosen = [row for row in called if not is_function(change) or name in row[2]]
    return [file for _, file, _ in chosen], LEAST_SECONDS + int(sum(row[0] for row in chosen))


# ---- the changes, one after another


def survivors_of(changes, jobs, called):
    """The number of changes that no vector file notices, each printed when it is known."""
    running, latest, survived = {}, {}, 0
    for number in range(len(changes) + 1):
        while running and (len(running) >= jobs or number == len(changes)):
            process, status = os.wait()
            change, files = running.pop(process)
            code = os.waitstatus_to_exitcode(status)
            if code >= NOTICED:
                latest[change.module] = latest[change.module, change.function] = files[code - NOTICED]
            if code == 0:
                survived += 1
                place = f"{change.module}.py:{change.line}: {change.function}: "
                sys.stdout.write(f"{place}{change.before} -> {change.after}\n")
                sys.stdout.flush()
        if number < len(changes):
            change = changes[number]
            files, seconds = files_of(change, called)
            first = latest.get((change.module, change.function), latest.get(change.module))
            files.sort(key=lambda file: file != first)
            running[start(functools.partial(judge, change, files), seconds)] = change, files
    return survived


def equal_changes():
    """The names of the changes that are listed as equal in meaning."""
    lines = EQUAL.read_text(encoding="utf-8").split("\n") if EQUAL.exists() else []
    return {line for line in lines if line and not line.startswith(("#", "    "))}


def chosen_changes(changes, count, seed):
    """`count` of the changes, by a seed, in their order; 0 is for all."""
    if count == 0 or count >= len(changes):
        return changes
    places = sorted(random.Random(seed).sample(range(len(changes)), count))
    return [changes[place] for place in places]


def mutate(words):
    """`mutate [--count N] [--seed S] [--jobs J] [MODULE..]`."""
    parser = argparse.ArgumentParser(prog="mutate")
    parser.add_argument("--count", type=int, default=500)
    parser.add_argument("--seed", type=int, default=1)
    parser.add_argument("--jobs", type=int, default=os.cpu_count() or 1)
    parser.add_argument("modules", nargs="*")
    chosen = parser.parse_args(words)
    called = called_by_files()
    if called is None:
        sys.stdout.write("check fails without a change\n")
        return 1
    every = all_changes(chosen.modules or MODULES)
    changes = chosen_changes(every, chosen.count, chosen.seed)
    equal = equal_changes()
    tried = [change for change in changes if change.name() not in equal]
    survived = survivors_of(tried, chosen.jobs, called)
    return summary(every, changes, tried, survived, equal, chosen.modules)


def summary(every, changes, tried, survived, equal, modules):
    """Prints the counts, and the lines of `equal.txt` that name no change; returns the status."""
    if not modules:
        for name in sorted(equal - {change.name() for change in every}):
            sys.stdout.write(f"equal.txt: no such change: {name}\n")
    skipped = len(changes) - len(tried)
    noticed = len(tried) - survived
    counts = f"{noticed} noticed, {skipped} equal in meaning, {survived} survived"
    sys.stdout.write(f"{len(changes)} of {len(every)} changes: {counts}\n")
    sys.stdout.write(f"mutate: {noticed} passed, {survived} failed\n")
    return 1 if survived else 0
