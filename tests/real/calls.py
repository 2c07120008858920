"""Calls by the plain compiler and by the wrapper in one directory, with the tree put back after each, and what
differs in their outputs: the status, what is printed, and the files that a call makes, changes or removes."""
import atexit
import collections
import os
import re
import resource
import shutil
import stat
import subprocess
import sys
import tempfile
import time

from server import Server

TOP = os.path.dirname(os.path.dirname(os.path.dirname(os.path.abspath(__file__))))
WRAPPER = os.environ.get("CCK_WRAPPER", TOP + "/bin/cckcc")
PROGRAM = os.environ.get("CCK_PROGRAM", TOP + "/crates/cck_cache/out/cck_cache")
# The digests of compilers, which the stores of all rooms have in common: one takes longer than a call.
DIGESTS = tempfile.mkdtemp(prefix="cck-digests-")
atexit.register(shutil.rmtree, DIGESTS, ignore_errors=True)
# The names of the compiler's temporary files, which differ from call to call.
TEMPORARY = re.compile(rb"/cc[A-Za-z0-9]{6}(?![A-Za-z0-9])")
# After this time a file that was written is older than a look-up.
PAUSE = 0.012

Node = collections.namedtuple("Node", "kind mode contents moment")
Outcome = collections.namedtuple("Outcome", "status output messages files")
Judged = collections.namedtuple("Judged", "verdict differing is_stable wanted got")


def need_program():
    """Ends where there is no program, since then the wrapper passes each call on."""
    if not os.access(PROGRAM, os.X_OK):
        sys.exit(f"no program {PROGRAM}: CCK_PROGRAM names it")


def node_at(path):
    """What is at a path: its kind, its mode, its contents (those of a link are its target), and a file's time."""
    status = os.lstat(path)
    mode = stat.S_IMODE(status.st_mode)
    if stat.S_ISLNK(status.st_mode):
        return Node("link", mode, os.fsencode(os.readlink(path)), 0)
    if stat.S_ISDIR(status.st_mode):
        return Node("directory", mode, b"", 0)
    if not stat.S_ISREG(status.st_mode):
        return Node("other", mode, b"", 0)
    with open(path, "rb") as file:
        return Node("file", mode, file.read(), status.st_mtime_ns)


class Tree:
    """What is at each path below a directory, by the path from there. A file whose status did not change is not read
    again."""

    def __init__(self, root):
        self.root, self.known = root, {}

    def read(self):
        found, known, waiting = {}, {}, [self.root]
        while waiting:
            for entry in os.scandir(waiting.pop()):
                status = entry.stat(follow_symlinks=False)
                state = (status.st_mode, status.st_ino, status.st_size, status.st_mtime_ns, status.st_ctime_ns)
                before = self.known.get(entry.path)
                if not before or before[0] != state:
                    before = state, node_at(entry.path)
                known[entry.path] = before
                found[entry.path[len(self.root) + 1:]] = before[1]
                if before[1].kind == "directory":
                    waiting.append(entry.path)
        self.known = known
        return found

    def forget(self, paths):
        for path in paths:
            self.known.pop(f"{self.root}/{path}", None)


def remove(path):
    """Removes what is at a path, if there is something."""
    if os.path.isdir(path) and not os.path.islink(path):
        shutil.rmtree(path)
    elif os.path.lexists(path):
        os.unlink(path)


def put_back(root, before, after):
    """Makes the tree what it was, from what it is, and leaves alone what did not change. It returns the paths at which
    something changed."""
    changed = {path for path in before.keys() | after.keys() if before.get(path) != after.get(path)}
    before = {path: node for path, node in before.items() if path in changed or node.kind == "directory"}
    after = {path: node for path, node in after.items() if path in changed or node.kind == "directory"}
    for path in sorted(after):
        if path not in before or (before[path].kind, before[path].kind == "link" and before[path].contents) != (
                after[path].kind, after[path].kind == "link" and after[path].contents):
            remove(f"{root}/{path}")
    for path, node in sorted(before.items()):
        place, left = f"{root}/{path}", after.get(path)
        is_there = os.path.lexists(place)
        if node.kind == "directory":
            os.makedirs(place, exist_ok=True)
        elif node.kind == "link" and not is_there:
            os.symlink(node.contents, place)
        elif node.kind == "file" and (not is_there or left[2:] != node[2:]):
            with open(place, "wb") as file:
                file.write(node.contents)
            os.utime(place, ns=(node.moment, node.moment))
        if node.kind in ("file", "directory") and (not is_there or left.mode != node.mode):
            os.chmod(place, node.mode)
    return changed


def changes(before, after):
    """What is at each path that a call made, changed or removed: kind, mode and contents, or None."""
    return {path: after[path][:3] if path in after else None for path in sorted(before.keys() | after.keys())
            if before.get(path) is not after.get(path)
            and (before[path][:3] if path in before else None) != (after[path][:3] if path in after else None)}


def difference(one, other):
    """The names of the outputs that differ."""
    names = [name for name in ("status", "output", "messages") if getattr(one, name) != getattr(other, name)]
    return names + [f"file {path}" for path in sorted(set(one.files) | set(other.files))
                    if one.files.get(path) != other.files.get(path)]


def limit():
    """Limits a process: headers that include each other again and again would take all memory."""
    resource.setrlimit(resource.RLIMIT_CPU, (20, 20))
    resource.setrlimit(resource.RLIMIT_AS, (3 << 30, 3 << 30))


class Room:
    """A directory with a tree of files, a store and a log. A call is (words, directory, variables, umask): the words
    of the plain compiler, to which the wrapper is put in front. A second checkout is a room with another tree and the
    same store."""

    def __init__(self, directory, tree="tree", server=None):
        self.top = os.path.realpath(directory)
        self.root, self.log = f"{self.top}/{tree}", self.top + "/log"
        self.second, self.server = None, server or Server(self.top)
        for name in (tree, "tmp", "home", "late", "store"):
            os.makedirs(f"{self.top}/{name}", exist_ok=True)
        if not os.path.lexists(f"{self.top}/store/digests"):
            os.symlink(DIGESTS, f"{self.top}/store/digests")
        self.tree, self.known = Tree(self.root), {}
        self.variables = {"PATH": os.environ["PATH"], "HOME": self.top + "/home", "TMPDIR": self.top + "/tmp",
                          "CCK_STORE": self.top + "/store", "CCK_LOG": self.log, "CCK_PROGRAM": PROGRAM,
                          "CCACHE_DIR": self.top + "/ccache"}
        # All calls read all files, or compare each hit with the compiler, if that is wished.
        wished = [name for name in ("CCK_READ", "CCK_RECHECK") if name in os.environ]
        self.variables.update({name: os.environ[name] for name in wished})

    def checkouts(self, step):
        """The rooms in which a step is done: the first one and the second one if there is one, or one of them."""
        rooms = [self, self.second]
        return [room for room in (rooms if step.get("in") is None else rooms[step["in"]:][:1]) if room]

    def add_checkout(self):
        self.second = self.second or Room(self.top, "second", self.server)

    def around(self, place, variables):
        """The variables of a process, in which `@server` is the address of the server."""
        variables = {**self.variables, "PWD": place, **variables}
        if variables["CCK_STORE"] == "@server":
            variables["CCK_STORE"] = self.server.start()
        return variables

    def run(self, words, directory, variables, umask, is_known=False):
        """Makes a call, puts the tree back, and returns the outcome. One that is known, of the same call in the same
        tree, is not made again if that is wished."""
        before = self.tree.read()
        call = str((words, directory, variables, umask))
        if is_known and call in self.known and self.known[call][0] == before:
            return self.known[call][1]
        place = os.path.join(self.root, directory)
        done = subprocess.run(words, cwd=place, env=self.around(place, variables), umask=umask,
                              capture_output=True, stdin=subprocess.DEVNULL, check=False, preexec_fn=limit)
        after = self.tree.read()
        self.tree.forget(put_back(self.root, before, after))
        outcome = Outcome(done.returncode, TEMPORARY.sub(b"/ccTEMP", done.stdout),
                          TEMPORARY.sub(b"/ccTEMP", done.stderr), changes(before, after))
        self.known[call] = before, outcome
        return outcome

    def run_cached(self, plain, cached, late=None):
        """The outcome of the wrapper, and its verdict: the first word of the log's last line of an outcome. What is late,
        a path and a text, is written when the recording begins, and is no part of the outcome."""
        open(self.log, "wb").close()
        words, directory, variables, umask = cached, *plain[1:]
        if late:
            late = (*late[:2], self.names_of(late[0]))
            variables = {**variables, "CCK_PROGRAM": self.late(*late[:2])}
        return without(self.run(words, directory, variables, umask), late), self.verdict()

    def late(self, path, text):
        """A program that writes a file before it records."""
        with open(self.top + "/late/text", "w", encoding="utf-8") as file:
            file.write(text)
        program = self.top + "/late/cck_cache"
        with open(program, "w", encoding="utf-8") as file:
            # It is written after the compilation, and not where a directory is at the path.
            file.write(f'#!/bin/sh\ncase $* in\n'
                       f'record*--compiled=*) [ -d "{self.root}/{path}" ] || cp "{self.top}/late/text" "{self.root}/{path}" ;;\n'
                       f'esac\nexec "{PROGRAM}" "$@"\n')
        os.chmod(program, 0o755)
        return program

    def verdict(self):
        """hit, miss, passed or refused, as the log says it, or `other`. What was recorded is a miss, and what was not
        recorded since the compiler failed is refused too."""
        verdict = "other"
        with open(self.log, encoding="utf-8", errors="replace") as file:
            for line in file:
                word = (line.split() + ["", ""])[1]
                if word in ("hit", "passed"):
                    verdict = word
                elif word == "recorded":
                    verdict = "miss"
                elif word.startswith("refused-") or word in ("not", "error:"):
                    verdict = "refused"
        return verdict

    def names_of(self, path):
        """The paths in the tree of the file at a path, to which links may lead."""
        real = os.path.realpath(f"{self.root}/{path}")
        found = {os.path.relpath(real, self.root)}
        if os.path.exists(real):
            node = os.lstat(real)
            for at, _, names in os.walk(self.root):
                found |= {os.path.relpath(f"{at}/{name}", self.root) for name in names
                          if os.path.samestat(node, os.lstat(f"{at}/{name}"))}
        return found

    def judge(self, plain, cached, waits=True, late=None):
        """Makes a call by the plain compiler and by the wrapper, the latter first if it does not wait. A difference
        counts if two further plain calls, each in another second, agree with the first one, or if it is that of a hit:
        what shows the time is never found again, but within the second."""
        if late:
            late = (*late, self.names_of(late[0]))
        if waits:
            wanted = self.run(*plain, is_known=True)
            time.sleep(PAUSE)
            got, verdict = self.run_cached(plain, cached, late)
        else:
            got, verdict = self.run_cached(plain, cached, late)
            wanted = self.run(*plain, is_known=True)
        wanted = without(wanted, late)
        differing, is_stable = difference(wanted, got), True
        if differing:
            calls = [without(self.run(*plain), late)]
            differing = difference(calls[0], got)
        for _ in range(2 if differing else 0):
            time.sleep(1 - time.time() % 1)
            calls.append(without(self.run(*plain), late))
        if differing:
            is_stable = not any(difference(calls[0], other) for other in calls[1:])
            if not is_stable and (verdict != "hit" or not all(difference(other, got) for other in calls)):
                differing = []
        # With -pipe a compiler whose assembler fails ends before or after it wrote a file, with one status or another.
        if differing and verdict != "hit" and wanted.status and "-pipe" in plain[0]:
            differing, is_stable = [], False
        return Judged(verdict, differing, is_stable, wanted, got)


def without(outcome, late):
    """An outcome without the file that is written late."""
    return outcome._replace(files={path: node for path, node in outcome.files.items() if not late or path not in late[2]})
