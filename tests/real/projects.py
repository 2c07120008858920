"""Random projects: files made of snippets, calls made of options, and changes between the calls. A history is a list
of steps, each a dictionary of JSON: something done to the tree, or a call. `@root` is the top of the tree."""
import os
import random
import re

from tables import OPTIONS, SNIPPETS, VARIABLES
from themes import THEMES, Plain

CALLS = 25
HEADERS = ["h.h", "g.h", "k.h", "c/d.h"]
PLACES = ["work/a", "work/a", "work/b", "work/b", "work/a/c", "work/inc", "work/src", "work", "other"]
SPELLINGS = ["{}"] * 6 + ["{}/", "./{}", "{}//", "{}/.", "a/../{}", "../work/{}", "@root/work/{}", "@root/work//{}/"]
ODD_DIRECTORIES = ["missing", "missing/", "./missing/x", "data", "linked", "linked/", "linked", "linked/..", "linked/../b",
                   "a/../linked", ".", "./", "", "../other", "-", "@words", "a/c/..", "@root/" + "work/../" * 9 + "work/linked"]
OUTPUTS = [[]] * 2 + [["-o", "out/x.o"]] * 10 + [["-oout/x.o"]] * 3 + [["-o", "../out/x.o"]] * 4 + [["-o", "x.o"]] * 2
ODD_OUTPUTS = [["-o", "x.c"], ["-o", "./x.c"], ["-o", "a"], ["-o", "out/link.o"], ["-o", "/dev/null"], ["-o", ""],
               ["-o", "missing/x.o"], ["-o", "out/x.o", "-o", "out/z.o"], ["-o"], ["-o", "out/old.o"], ["-o", "data"],
               ["-o", "linked.c"], ["-o", "x"], ["-o", "@root/out/x.o"], ["-o", "a b.o"], ["-o", "out/.x"], ["-o", "-"]]
INPUTS = [["x.c"]] * 14 + [["src/y.c"]] * 3 + [
    ["./x.c"], ["@root/work/x.c"], ["../work/x.c"], ["src/../x.c"], ["linked.c"]]
ODD_INPUTS = [["x.c", "src/y.c"], ["--", "x.c"], ["-x", "c", "x.c"], ["missing.c"], ["a"], [], ["x.c", "x.c"], ["-"],
              ["copy.i"], ["-xc", "a/h.h"], [""], ["x.c", "-x", "none"]]
MODES = [["-c"]] * 30 + [["-S"], ["-E"], [], ["-fsyntax-only"], ["-c", "-c"], ["-c", "-E"]]
SEARCHING = ["-I", "-iquote", "-isystem", "-idirafter"]
DEPENDENCIES = ["work/out/x.d", "work/x.d", "work/out/y.d"]
TEXTS = "#define TEXT_(x) #x\n#define TEXT(x) TEXT_(x)\n#define PASTE_(a, b) a##b\n#define PASTE(a, b) PASTE_(a, b)"


def unescape(text):
    """A text with its escapes for a line feed, a tab, a bar and a backslash; another backslash stands for itself."""
    for escape, meant in (("\\\\", "\0"), ("\\n", "\n"), ("\\t", "\t"), ("\\|", "|"), ("\0", "\\")):
        text = text.replace(escape, meant)
    return text


def rows(table):
    """The weights of a table's lines, and the rest of each line."""
    lines = [line.strip().split(" ", 1) for line in table.strip().split("\n")]
    return [line[1] for line in lines], [float(line[0]) for line in lines]


SNIPPET_ROWS, OPTION_ROWS, VARIABLE_ROWS = rows(SNIPPETS), rows(OPTIONS), rows(VARIABLES)
# What most compilers refuse, or what the wrapper may pass on: mostly for one call.
ODD_OPTIONS = {row for row, weight in zip(*OPTION_ROWS) if weight <= 1.5}
# What a cache may refuse to record: a project has snippets of few of these kinds.
KINDS = ("__TI|__DATE|__TIMES|T@m", "__has_|E@m", "asm", "dep")


class Project:
    """Makes a random history: first the files, and then calls with changes between them."""

    def __init__(self, seed, is_plain=False):
        self.chance = random.Random(seed)
        self.history, self.past, self.calls, self.number, self.recent = [], {}, [], 0, None
        few = re.compile("|".join(kind for kind in KINDS if not self.is_rare(0.4)) or "$^")
        # Which snippets are not chosen: at the start mostly none of those kinds, so that there is something to find again.
        self.without = re.compile("|".join(KINDS)) if self.is_rare(0.8) else few
        # What is at each path, as the step that put it there.
        self.tree = {}
        self.call = None
        # How likely the last change of the call is undone after it, and what is written while the next call is recorded.
        self.undone, self.pending = 0, None
        # What the project is about; and the one checkout that is changed, or None where all are.
        themes = {Plain: 1} if is_plain else THEMES
        self.theme, self.only = self.pick(list(themes), list(themes.values()))(self), None
        self.start()
        self.theme.start()
        self.without = few
        # Whether the compiler failed in the last call, as the player says; and what was so when it last did not.
        self.failed, self.good = False, None

    @property
    def about(self):
        """The name of the theme, in lower case."""
        return type(self.theme).__name__.lower()

    def steps(self):
        """The steps, one after the other. What makes the compiler fail is mostly undone after a call or more."""
        given = 0
        for _ in range(CALLS):
            self.add_call()
            yield from self.history[given:]
            given = len(self.history)
            if self.pending:
                self.do(self.pending)
                self.pending = None
                continue
            if not self.failed:
                self.good = dict(self.call), dict(self.tree), given
            elif self.good is None:
                self.write("work/x.c", 1, 3)
                self.call["options"] = [option for option in self.call["options"] if option[0][:2] == "-I"]
            elif self.is_rare(0.75):
                self.undo()
            if self.is_rare(self.undone):
                self.call = dict(self.good[0] if self.good else self.calls[0])
            self.undone = 0
            for _ in range(self.pick([0, 1, 1, 1, 2])):
                if self.about != "plain" and self.is_rare(0.6):
                    self.theme.change()
                else:
                    getattr(self, self.pick(*self.CHANGES))()

    def undo(self):
        """Makes the call and the tree what they were when the compiler last did not fail."""
        call, tree, place = self.good
        self.call = dict(call)
        steps = [step for step in self.history[place:] if step["do"] != "call"]
        paths = {step["path"] for step in steps} | {step["to"] for step in steps if step["do"] in ("rename", "exchange")}
        # A directory that was removed or moved is made again with what it had.
        gone = {step["path"] for step in steps if step["do"] in ("remove", "rename", "exchange", "link")} - {"link"}
        paths |= {path for path in tree if any(path.startswith(other + "/") for other in gone)}
        for path in sorted(paths):
            if path not in tree or tree[path]["do"] == "directory" and path in gone:
                self.do({"do": "remove", "path": path})
            if path in tree:
                self.do({**tree[path], "path": path})

    def pick(self, things, weights=None):
        return self.chance.choices(things, weights)[0]

    def is_rare(self, chance):
        return self.chance.random() < chance

    def do(self, step):
        """Adds a step and keeps what is at its path."""
        self.history.append(step if self.only is None else {**step, "in": self.only})
        path = step["path"]
        self.recent = path
        if path in self.tree:
            self.past.setdefault(path, []).append(self.tree[path])
        if step["do"] == "remove":
            self.tree.pop(path, None)
        elif step["do"] in ("rename", "exchange"):
            self.moves(path, step["to"], step["do"] == "exchange")
        elif step["do"] == "hard" and step["to"] in self.tree:
            self.tree[path] = {**self.tree[step["to"]], "path": path}
        elif step["do"] in ("write", "link", "directory"):
            self.tree[path] = step

    def moves(self, path, to, exchanges):
        """Keeps that a path and all below it have another name, and the other way round if two are exchanged."""
        moved = {}
        for one, step in self.tree.items():
            for old, new in ((path, to), (to, path if exchanges else None)):
                if one == old or one.startswith(old + "/"):
                    one = new and new + one[len(old):]
                    break
            if one:
                moved[one] = {**step, "path": one}
        self.tree = moved

    # The files.

    def headers(self):
        return sorted(path for path in self.tree if path.endswith(".h"))

    def files(self):
        return sorted(path for path, step in self.tree.items() if step["do"] == "write" and path[-2:] in (".c", ".h"))

    def includable(self, path, text):
        """The headers that a snippet of a file may name: the later ones of the list, or others of its own name, so that
        few compilations fail."""
        headers = self.headers()
        name = next((name for name in HEADERS if path.endswith("/" + name)), None)
        if "_next" in text:
            return [name] if any(other.endswith(f"/{name}") for other in headers if other != path) else []
        later = HEADERS[HEADERS.index(name) + 1:] if name else HEADERS
        return [other for other in later if any(header.endswith("/" + other) for header in headers)]

    def snippet(self, path, start=""):
        """A snippet for the file at a path, which starts so."""
        while True:
            place, text = self.pick(*SNIPPET_ROWS).split(" ", 1)
            names = self.includable(path, text)
            if (place in ("any", "h" if path.endswith(".h") else "c") and text.startswith(start)
                    and (names or "@h" not in text) and not self.without.search(text)):
                break
        self.number += 1
        parts = {"@n": self.number, "@k": self.chance.randrange(10), "@m": self.chance.randrange(3),
                 "@h": self.pick(names or [""])}
        text = unescape(text)
        for part, value in parts.items():
            text = text.replace(part, str(value))
        return text

    def write(self, path, least=1, most=4):
        snippets = [TEXTS] if path.endswith(".c") else []
        if path.endswith(".c"):
            snippets += [self.snippet(path, "#include") for _ in range(self.pick([0, 1, 1, 2]))]
        snippets += [self.snippet(path) for _ in range(self.chance.randint(least, most))]
        guard = "G_" + "".join(c if c.isalnum() else "_" for c in path)
        if path.endswith(".c") or self.is_rare(0.15):
            guard = ""
        self.do({"do": "write", "path": path, "snippets": snippets, "guard": guard})

    def start(self):
        if self.theme.checkouts > 1:
            self.do({"do": "checkout", "path": "."})
        for name in ("work/src", "work/out", "out", "other", "work/a", "work/b"):
            self.do({"do": "directory", "path": name})
        self.do({"do": "link", "path": "link", "to": "work"})
        for path, to in (("work/linked", "a"), ("work/linked.c", "x.c"), ("work/out/link.o", "x.o")):
            self.do({"do": "link", "path": path, "to": to})
        for name, text in (("data", "one"), ("@defs", "M1=1"), ("@words", "-DM2=2 -Ib"), ("words", "a"), ("out/old.o", "old")):
            self.do({"do": "write", "path": "work/" + name, "snippets": [text], "guard": ""})
        for _ in range(self.chance.randint(1, 6)):
            self.write(self.pick(PLACES) + "/" + self.pick(HEADERS), 0, 3)
        self.write("work/x.c", 2, 6)
        if self.is_rare(0.4):
            self.write("work/src/y.c", 1, 4)
        for path in DEPENDENCIES:
            if self.is_rare(0.1):
                self.do({"do": "write", "path": path, "snippets": ["old"], "guard": ""})
                self.do({"do": "mode", "path": path, "mode": self.pick([0o600, 0o444, 0o755])})
        tops = {path[:-len(name) - 1] for path in self.headers() for name in HEADERS if path.endswith("/" + name)}
        options = [["-I" + self.spelled(os.path.relpath(top, "work"))] for top in sorted(tops)]
        if self.is_rare(0.3):
            options.append(["-I" + self.pick(["linked", "linked/", "./linked", "b/../linked", "a", "linked/../b"])])
        self.chance.shuffle(options)
        self.call = {"mode": ["-c"], "output": self.pick(OUTPUTS), "input": ["x.c"], "options": options,
                     "variables": {"CCK_BASEDIR": "@root"} if self.is_rare(0.25) else {}, "directory": "work", "umask": 0o022}
        for _ in range(self.chance.randint(1, 7)):
            self.add_option(is_usual=True)

    def spelled(self, directory):
        spelling = self.pick(SPELLINGS) if self.is_rare(0.6) else "{}"
        # A compilation with the path of the base directory is not shared.
        return directory if "@root" in spelling and self.theme.checkouts > 1 else spelling.format(directory)

    # The call.

    def add_call(self):
        call = self.call
        options = [list(option) for option in call["options"]]
        groups = options + [call["mode"], call["output"], call["input"]]
        self.history.append({"do": "call", "words": [group for group in groups if group], "umask": call["umask"],
                             "variables": dict(call["variables"]), "directory": call["directory"],
                             "waits": not self.is_rare(0.12), **({"late": self.pending} if self.pending else {}),
                             **({"in": self.chance.randrange(2)} if self.theme.checkouts > 1 else {})})
        self.calls.append({**call, "options": options, "variables": dict(call["variables"])})

    def option(self, is_usual):
        row = self.pick(*OPTION_ROWS)
        while is_usual and row in ODD_OPTIONS:
            row = self.pick(*OPTION_ROWS)
        form, *rest = row.split(" ")
        self.undone = 0.9 if row in ODD_OPTIONS else 0.2
        if form == "words":
            return rest
        if form == "alone":
            return [self.pick(rest)]
        name, *values = rest
        value = self.pick(values)
        if value == "@d":
            place = self.pick(["a", "b", "a/c", "inc", "src", "../other"])
            value = self.pick(ODD_DIRECTORIES) if self.is_rare(0.25) else self.spelled(place)
        elif value == "@f":
            value = os.path.relpath(self.pick(self.headers() or ["work/h.h"]), "work")
        if form == "separate" or (form == "either" and self.is_rare(0.4)) or not value:
            return [name, value]
        return [name + value]

    def add_option(self, is_usual=False):
        options = self.call["options"] = list(self.call["options"])
        options.insert(self.chance.randint(0, len(options)), self.option(is_usual))

    def drop_option(self):
        self.call["options"] = list(self.call["options"])
        if self.call["options"]:
            self.call["options"].pop(self.chance.randrange(len(self.call["options"])))

    def leave_out_option(self):
        """An option is left out, mostly for one call."""
        self.drop_option()
        self.undone = 0.9

    def change_option(self):
        self.drop_option()
        self.add_option()

    def respell(self):
        """Another spelling of a directory of the search list."""
        options = self.call["options"] = list(self.call["options"])
        places = [place for place, option in enumerate(options) if option[0][:2] in ("-I", "-i") and len(option) == 1]
        if places:
            place = self.pick(places)
            options[place] = ["-I" + self.spelled(self.pick(["a", "b", "inc"]))]

    def change_output(self):
        self.undone = 0.5
        self.call["output"] = self.pick(ODD_OUTPUTS if self.is_rare(0.3) else OUTPUTS)

    def change_input(self):
        self.undone = 0.5
        self.call["input"] = self.pick(ODD_INPUTS if self.is_rare(0.15) else INPUTS)
        if self.call["input"] == ["src/y.c"] and "work/src/y.c" not in self.tree:
            self.call["input"] = ["x.c"]
        self.call["mode"] = self.pick(MODES)

    def change_variable(self):
        self.undone = 0.8
        name, *values = self.pick(*VARIABLE_ROWS).split(" ")
        self.call["variables"] = dict(self.call["variables"])
        if self.call["variables"] and self.is_rare(0.6):
            self.call["variables"].pop(self.pick(sorted(self.call["variables"])))
        else:
            self.call["variables"][name] = self.pick(values).replace("''", "").replace("|", " ")

    def change_directory(self):
        self.undone = 0.5
        self.call["directory"], self.call["input"] = self.pick([
            ("work", ["x.c"]), ("work", ["x.c"]), ("link", ["x.c"]), ("work/src", ["../x.c"]),
            ("other", ["../work/x.c"])])
        self.call["umask"] = self.pick([0o022] * 4 + [0o077, 0o002])

    def call_again(self):
        """A call that was made before, mostly the first one, which is made of what is usual."""
        self.call = dict(self.calls[0] if self.is_rare(0.5) else self.pick(self.calls))

    # The tree.

    def rewrite(self, path, snippets, **more):
        self.do({**self.tree[path], "path": path, "snippets": snippets, **more})

    def edit(self):
        """A snippet more, less, or another one."""
        path = self.pick(self.files() or ["work/x.c"])
        if path not in self.tree:
            return self.write(path)
        snippets = list(self.tree[path]["snippets"])
        place = self.chance.randint(path.endswith(".c"), len(snippets))
        how = self.chance.randrange(3)
        if how and place < len(snippets):
            snippets.pop(place)
        if how < 2:
            snippets.insert(place, self.snippet(path))
        return self.rewrite(path, snippets)

    def vary(self, edits, **more):
        """One snippet of a file with a small change of its text, if there is one that it fits."""
        path = self.pick(self.files() or ["work/x.c"])
        snippets = list(self.tree.get(path, {}).get("snippets", []))
        edit = self.pick(edits)
        fitting = [place for place, text in enumerate(snippets) if text != TEXTS and edit[0] in text]
        if fitting:
            place = self.pick(fitting)
            snippets[place] = snippets[place].replace(*edit, 1)
            self.rewrite(path, snippets, **more)

    def space(self):
        self.vary([(" = ", "  =  "), (" {", "   {"), ("return ", "return    "), ("    ", "\t"), ("; ", ";   "),
                   ("/ i", "/  i")])

    def comment(self):
        self.vary([("    /* fall through */\n", ""), ("/* fall through */", "/* falls */"), (" = ", " = /* set */ "),
                   (";\n", "; // more\n"), ("case 2", "/* fall through */ case 2")])

    def same_size(self):
        """Other contents of the same size, mostly with the time of modification kept."""
        self.vary([("1", "2"), ("2", "3"), ("4", "5"), ("7", "8"), ("int", "INT")], keeps=self.is_rare(0.7))

    def touch(self):
        seconds = self.pick([None, None, 1000000000 + self.chance.randrange(10**6), 4000000000])
        self.do({"do": "touch", "path": self.pick(sorted(self.tree)), "seconds": seconds})

    def searched(self):
        """The directories of the call's search list, as paths of the tree, the first ones more often than once."""
        found = []
        for option in self.call["options"]:
            name = next((name for name in SEARCHING if option[0].startswith(name)), None)
            value = name and (option[1] if len(option) > 1 else option[0][len(name):])
            if value:
                found.append(os.path.normpath(value[6:] if value.startswith("@root/") else f"work/{value}"))
        return [path for path in found[:1] * 3 + found[:2] * 2 + found if path.split("/")[0] in ("work", "other")]

    def appear(self):
        """A header, mostly of a name that there is, in another directory, mostly one of the search list before it."""
        names = [name for name in HEADERS if any(path.endswith("/" + name) for path in self.headers())]
        earlier = [f"{place}/{name}" for place in self.searched() for name in names if f"{place}/{name}" not in self.tree]
        if earlier and self.is_rare(0.75):
            self.write(self.pick(earlier), 0, 3)
        else:
            self.write(self.pick(PLACES + ["work/missing", "work/c"]) + "/" + self.pick(names * 2 + HEADERS), 0, 3)

    def copied(self):
        """A copy of a header in another directory, with the same time or not."""
        if self.headers():
            path = self.pick(self.headers())
            if self.tree[path]["do"] == "write":
                to = self.pick(PLACES) + "/" + os.path.basename(path)
                self.do({**self.tree[path], "path": to, "keeps": self.is_rare(0.5)})

    def twin(self):
        """A header that is read once and a copy of it with the same time, both of which the input includes."""
        headers, step = [path for path in self.headers() if self.tree[path]["do"] == "write"], self.tree.get("work/x.c")
        to = self.pick(PLACES) + "/" + self.pick(HEADERS)
        path = self.pick([path for path in headers if path != to] or [""])
        if not path or not step or step["do"] != "write":
            return
        snippets = ["#pragma once"] + [text for text in self.tree[path]["snippets"] if "once" not in text]
        for place in (path, to):
            self.do({**self.tree[path], "path": place, "snippets": snippets, "guard": "", "keeps": False})
            self.do({"do": "touch", "path": place, "seconds": 1000000000})
        self.rewrite("work/x.c", step["snippets"] + [f'#include "{os.path.relpath(place, "work")}"' for place in (path, to)])

    def alike(self):
        """A header of one directory, and another one of its name, size and times in another directory, to which the search
        list or a link may turn later."""
        headers = [path for path in self.headers() if self.tree[path]["do"] == "write" and path.startswith(("work/a/", "work/b/"))]
        path = self.pick(headers or [""])
        if not path:
            return
        to = path.replace("work/a/", "work/b/") if path.startswith("work/a/") else path.replace("work/b/", "work/a/")
        self.number += 1
        for place, digit in ((path, 1), (to, 2)):
            snippets = self.tree[path]["snippets"]
            self.do({**self.tree[path], "path": place, "keeps": False, "snippets": snippets[:len(snippets) - (place == to)] + [
                f"__attribute__((used)) static int alike{self.number} = {digit};"]})
        self.do({"do": "alike", "path": path, "to": to})
        self.call["options"] = [["-Ilinked"]] * self.is_rare(0.5) + list(self.call["options"])

    def turn(self):
        """The link to a directory leads to the other one."""
        is_first = self.tree.get("work/linked", {}).get("to") == "a"
        self.do({"do": "link", "path": "work/linked", "to": "b" if is_first else "a"})

    def remove(self):
        self.undone = 0.5
        others = ["work/a", "work/b", "work/linked", "work/missing"]
        self.do({"do": "remove", "path": self.pick(self.headers() * 3 + others)})

    def rename(self):
        self.undone = 0.5
        if self.headers():
            path = self.pick(self.headers())
            self.do({"do": "rename", "path": path, "to": self.pick(PLACES) + "/" + self.pick(HEADERS)})

    def link(self):
        """A link in the place of a file or a directory, or one that has another target."""
        others = ["work/linked", "work/linked", "work/b", "work/missing", "work/a/c", "work/x.c"]
        path = self.pick(self.headers() + others)
        to = self.pick(["b", "a", "../other", "nowhere", "@root/work/a", "a/c"] + [
            os.path.relpath(other, os.path.dirname(path)) for other in self.headers()])
        self.do({"do": "link", "path": path, "to": to})

    def exchange(self):
        """Two directories or two headers change places."""
        self.undone = 0.5
        pairs = [("work/a", "work/b"), ("work/a", "work/b"), ("work/inc", "work/a"), ("work/src", "work/inc")]
        headers = self.headers()
        pairs += [(one, other) for one in headers for other in headers if one < other]
        path, to = self.pick(pairs)
        self.do({"do": "exchange", "path": path, "to": to})

    def linked(self):
        """A directory is moved, and a link comes in its place, to it or to another one."""
        path = self.pick(["work/a", "work/b", "work/a/c", "work/inc"])
        if any(other.startswith(path + "/") for other in self.tree):
            self.number += 1
            to = f"work/moved{self.number}"
            self.do({"do": "rename", "path": path, "to": to})
            to = self.pick([to, to, "work/b", "other"])
            self.do({"do": "link", "path": path, "to": "@root/" + to})

    def again(self):
        """A directory or a file that is removed and made again."""
        self.do({"do": "again", "path": self.pick(["work/a", "work/b", "work/inc", "work/out", "work/x.c"] + self.headers())})

    def hard(self):
        """Another name of a file."""
        path = self.pick(["work/out/x.o", *DEPENDENCIES] + self.headers())
        self.do({"do": "hard", "path": path, "to": self.pick(["work/x.c", "work/out/old.o", "work/data"] + self.headers())})

    def late(self):
        """A change of the input so that the call is recorded, and a header, mostly one that the input includes, that is
        written while it is."""
        step = self.tree.get("work/x.c")
        # With a server a recording begins before the compiler does.
        if not step or step["do"] != "write" or self.theme.checkouts > 1:
            return
        self.rewrite("work/x.c", step["snippets"] + [self.snippet("work/x.c", "int")])
        text = "".join(step["snippets"])
        headers = [path for path in self.headers() if self.tree[path]["do"] == "write"]
        path = self.pick([path for path in headers if any(
            f"{mark}{name}" in text for mark in '"<' for name in HEADERS if path.endswith("/" + name))] * 3 + headers or [""])
        if path:
            snippets = self.tree[path]["snippets"] + [self.snippet(path, "int")]
            self.pending = {**self.tree[path], "path": path, "snippets": snippets, "keeps": False}

    def directory(self):
        self.undone = 0.5
        others = ["work/missing", "work/data", "work/a/h.h", "work/inc"]
        self.do({"do": "directory", "path": self.pick(self.headers() + others)})

    def mode(self):
        path = self.pick(["work/out/old.o", "work/x.c", *DEPENDENCIES] + self.headers())
        self.do({"do": "mode", "path": path, "mode": self.pick([0o600, 0o444, 0o755, 0o644])})

    def data(self):
        path = self.pick(["work/data", "work/data", "work/@defs", "work/@words", "work/words", "work/missing", "work/copy.i",
                          "work/out/x.o", *DEPENDENCIES])
        texts = {"@defs": ["M1=2", "M0"], "@words": ["-DM2=3", "-O1"], "words": ["a", "b", "M1=3"]}
        text = texts.get(path[5:], ["one", "two", "int copied;"])
        self.do({"do": "write", "path": path, "snippets": [self.pick(text)], "guard": ""})

    def back(self):
        """What was at a path before, mostly at the one that was changed last."""
        if self.past:
            path = self.recent if self.recent in self.past and self.is_rare(0.7) else self.pick(sorted(self.past))
            self.do({**self.pick(self.past[path]), "path": path})

    def nothing(self):
        pass

    CHANGES = rows("""
        20 nothing
        16 back
        9 call_again
        8 edit
        5 space
        5 comment
        4 same_size
        6 touch
        12 appear
        2 copied
        3 twin
        4 alike
        4 turn
        4 remove
        2 rename
        4 link
        2 directory
        2 exchange
        2 linked
        3 again
        1 hard
        5 late
        3 data
        1.5 mode
        4 add_option
        3 drop_option
        9 leave_out_option
        3 change_option
        3 respell
        2 change_output
        3 change_input
        4 change_variable
        2 change_directory""")
