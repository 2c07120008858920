"""Commits as developers make them, in a checkout of git: a file of sources is edited, or added, renamed and removed again;
commits are reversed, files touched, branches switched, and other flags taken."""
import glob
import os
import random
import re
import subprocess

FLAGS = ["-O0", "-O0", "-O1", "-O2", "-g -O0", "-g -O1", "-O1 -DX", "-O0 -DX=2", "-Wextra -O0"]


def read(path):
    if not os.path.exists(path):
        return b""
    with open(path, "rb") as file:
        return file.read()


class Checkout:
    """A tree of files. The patterns name those that are edited; the directory of git is outside the tree."""

    def __init__(self, tree, directory, patterns, seed):
        self.tree, self.patterns, self.chance = tree, patterns, random.Random(seed)
        self.number, self.flags, self.good = 0, FLAGS[0], None
        self.variables = {**os.environ, "GIT_CONFIG_NOSYSTEM": "1", "GIT_CONFIG_GLOBAL": "/dev/null", "GIT_DIR": directory,
                          "GIT_WORK_TREE": tree}
        self.variables.update({f"GIT_{who}_{what}": "day" for who in ("AUTHOR", "COMMITTER") for what in ("NAME", "EMAIL")})

    def start(self):
        """The first commit, at which two branches begin."""
        os.mkdir(self.tree + "/early")
        self.write("early/README", "Headers that are found first.\n")
        self.git("init", "-q", "-b", "one")
        self.commit("The sources")
        self.git("branch", "two")
        self.good = dict.fromkeys(("one", "two"), self.git("rev-parse", "HEAD")), self.flags

    def git(self, *words):
        """Runs git, and returns what it prints, or None if it fails."""
        done = subprocess.run(["git", *words], cwd=self.tree, env=self.variables, capture_output=True, check=False)
        return done.stdout.decode().strip() if done.returncode == 0 else None

    def commit(self, what):
        self.git("add", "-A", "-f")
        return what if self.git("commit", "-q", "-m", what) is not None else None

    def branch(self):
        return self.git("symbolic-ref", "--short", "HEAD")

    def keep(self, is_good):
        """Keeps that a state can be built, or goes back to one of this branch that could."""
        heads, flags = self.good
        if is_good:
            self.good = {**heads, self.branch(): self.git("rev-parse", "HEAD")}, self.flags
        else:
            self.git("reset", "-q", "--hard", heads[self.branch()])
            self.flags = flags

    def text(self, path):
        return read(f"{self.tree}/{path}").decode("utf-8", "surrogateescape")

    def write(self, path, text):
        with open(f"{self.tree}/{path}", "w", encoding="utf-8", errors="surrogateescape", newline="") as file:
            file.write(text)

    def files(self, wanted=""):
        """The sources and headers whose path has a pattern, in an order."""
        found = {path for pattern in self.patterns + ["early/*"] for path in glob.glob(pattern, root_dir=self.tree)}
        return sorted(path for path in found if re.search(wanted, path) and not path.endswith("README"))

    def change(self, pattern, new):
        """Changes one place of a random file that a pattern finds. `new` has the text of the match."""
        self.number += 1
        paths = self.files()
        for path in self.chance.sample(paths, len(paths)):
            text = self.text(path)
            places = list(re.finditer(pattern, text, re.M))
            if places:
                place = self.chance.choice(places)
                self.write(path, text[:place.start()] + new(place) + text[place.end():])
                return path
        return None


# The steps between builds. Each returns what it did, or None.

def comment(tree):
    path = tree.change(r"/\* |// ", lambda place: f"{place[0]}{tree.number} ")
    return path and tree.commit(f"Comment of {path}")


def macro(tree):
    path = tree.change(r"^([ \t]*#[ \t]*define[ \t]+\w+[ \t]+)(\d+)$", lambda place: f"{place[1]}{int(place[2]) + 1}")
    return path and tree.commit(f"Macro of {path}")


def definition(tree):
    path = tree.change(r"^#[ \t]*include\b.*\n", lambda place: f"{place[0]}#define DAY_{tree.number} {tree.number}\n")
    return path and tree.commit(f"New macro in {path}")


def body(tree):
    path = tree.change(r"\)[ \t]*(const )?\n?\{[ \t]*\n",
                       lambda place: f"{place[0]}{{ static volatile int day; day = {tree.number}; }}\n")
    return path and tree.commit(f"Function of {path}")


def header(tree):
    """A new header beside a file that includes it."""
    name = f"day_{tree.number + 1}.h"
    path = tree.change(r"^#[ \t]*include\b.*\n", lambda place: f'{place[0]}#include "{name}"\n')
    if path:
        guard = f"DAY_{tree.number}_H"
        tree.write(os.path.join(os.path.dirname(path), name),
                   f"#ifndef {guard}\n#define {guard} 1\n/* text */\nenum {{ day_{tree.number} = {tree.number} }};\n#endif\n")
    return path and tree.commit(f"Header {name} for {path}")


def earlier(tree):
    """A header that is found before one of that name, which it includes."""
    path = tree.chance.choice(tree.files())
    names = re.findall(r"^#[ \t]*include[ \t]*[<\"]([\w.]+)[>\"]", tree.text(path), re.M)
    if not names:
        return None
    name = tree.chance.choice(names)
    tree.number += 1
    tree.write(f"early/{name}", f"/* text */\n#include_next <{name}>\n#define DAY_{tree.number} {tree.number}\n")
    return tree.commit(f"Earlier {name}")


def rename(tree):
    """Another name for a new header, in all files, or none again."""
    paths = tree.files(r"day_\d+\.h$")
    if not paths:
        return None
    path, tree.number = tree.chance.choice(paths), tree.number + 1
    old, new = os.path.basename(path), f"day_{tree.number}.h" if tree.chance.random() < 0.5 else None
    for other in tree.files():
        text = tree.text(other)
        if f'"{old}"' in text:
            tree.write(other, text.replace(f'#include "{old}"\n', f'#include "{new}"\n' if new else ""))
    if new:
        os.rename(f"{tree.tree}/{path}", f"{tree.tree}/{os.path.dirname(path)}/{new}")
    else:
        os.unlink(f"{tree.tree}/{path}")
    return tree.commit(f"{old} is {new}" if new else f"No {old}")


def remove_earlier(tree):
    paths = tree.files("^early/")
    if paths:
        os.unlink(f"{tree.tree}/{tree.chance.choice(paths)}")
    return tree.commit("No earlier header") if paths else None


def revert(tree):
    """The reverse of one of the last commits, if it can be applied."""
    commits = tree.git("log", "-12", "--format=%H").split()[:-1]
    if not commits:
        return None
    if tree.git("revert", "--no-edit", tree.chance.choice(commits)) is None:
        tree.git("revert", "--abort")
        return None
    return tree.git("log", "-1", "--format=%s")


def touch(tree):
    paths = tree.chance.sample(tree.files(), 3)
    for path in paths:
        os.utime(f"{tree.tree}/{path}")
    return "touch " + " ".join(paths)


def flag(tree):
    tree.flags = tree.chance.choice([flags for flags in FLAGS if flags != tree.flags])
    return f"flags {tree.flags}"


def switch(tree):
    other = "two" if tree.branch() == "one" else "one"
    return f"branch {other}" if tree.git("checkout", "-q", other) is not None else None


STEPS = {comment: 3, macro: 2, definition: 1, body: 4, header: 3, earlier: 2, rename: 2, remove_earlier: 1, revert: 3, touch: 2,
         flag: 3, switch: 3}
