"""What a part of the random projects is about: files, options and changes in turn that a wrong hit of one kind needs. The
`start` of a theme is called after the project has its files, and `change` between calls."""
import os

# Texts with one place for more blanks: the preprocessor prints one text for both, and only columns differ.
BODIES = ["int c@n(int a) {@s return a << @k; }", "int c@n;@s int d@n = @k;", "int c@n(int *a, int i) {@s return a[i] / i; }",
          "int c@n(void) {@s int unused = @k; return 0; }", "int c@n(unsigned a, int b) {@s return a < b; }",
          "long c@n(int a, long b) { return @s(a + @k) * b; }"]
CONDITIONS = ['__has_include("t.h")', "__has_include(<t.h>)", "__has_include_next(<t.h>)", '__has_include_next("t.h")',
              '__has_include("c/t.h")', "__has_include(<c/t.h>)", '! __has_include("t.h")', '__has_include("../b/t.h")',
              '__has_include(<t.h>) && __has_include("c/t.h")', 'defined M0 || __has_include("t.h")',
              "0 /* ( */ || __has_include(<t.h>)", 'LEVEL > 4 || __has_include("t.h")',
              "(LEVEL >= 7 && 1) || (!defined(M0) && __has_include(<t.h>)) // t", 'TEST_HAS_INCLUDE("t.h")',
              "SAME(__has_include(<t.h>))", "LEVEL < 4 && SAME(1) && TEST_HAS_INCLUDE(<c/t.h>)"]
# The macros of these conditions. `t` is one too, so that a test in an argument looks for another header.
MACROS = ("#undef TEST_HAS_INCLUDE\n#define TEST_HAS_INCLUDE __has_include\n#undef SAME\n#define SAME(x) x\n"
          "#undef t\n#define t other\n")
TESTED = ["work/a/other.h", "work/a/t.h", "work/b/t.h", "work/inc/t.h", "work/src/t.h", "work/t.h", "work/a/c/t.h"]
# Options with which columns show.
SHOWING = [[["-g"]], [["-g"], ["-O2"]], [["-g3"], ["-Og"]], [["-fsanitize=undefined"]], [["-Wall", "-Wextra"]]]
BOTH = [["-Ia"], ["-Ib"]]


class Theme:
    """What themes have in common."""
    checkouts = 1

    def __init__(self, project):
        self.project, self.path = project, None

    def start(self):
        pass

    def change(self):
        pass

    def put(self, path, *snippets):
        self.project.do({"do": "write", "path": path, "snippets": list(snippets), "guard": ""})

    def include(self, *lines):
        """Lines of the input after its macros."""
        snippets = self.project.tree["work/x.c"]["snippets"]
        self.project.rewrite("work/x.c", snippets[:1] + list(lines) + snippets[1:])

    def give(self, options, first=()):
        """Options of the call, in any order, and those that come first in theirs."""
        options = self.project.call["options"] + options
        self.project.chance.shuffle(options)
        self.project.call["options"] = list(first) + options

    def value(self, name, value):
        """A variable of the call from now on, or none."""
        variables = self.project.call["variables"] = dict(self.project.call["variables"])
        variables.pop(name, None)
        if value is not None:
            variables[name] = value

    def columns(self):
        """A test for a header, whose branches differ in columns alone."""
        project = self.project
        project.number += 1
        body = project.pick(BODIES).replace("@n", str(project.number)).replace("@k", str(project.chance.randrange(1, 10)))
        line = f"#line {1000 + 20 * project.number}"
        condition = project.pick(CONDITIONS)
        macros = MACROS if "SAME" in condition or "TEST" in condition else ""
        return (f"{macros}#if {condition}\n{line}\n{body.replace('@s', '   ')}\n#else\n{line}\n{body.replace('@s', '')}\n"
                f"#endif\n{line}9")

    def tested(self):
        """The header of a test comes or goes, mostly the one that did so before."""
        project = self.project
        if not self.path or project.is_rare(0.3):
            self.path = project.pick(TESTED)
        if self.path in project.tree:
            project.do({"do": "remove", "path": self.path})
        elif project.is_rare(0.85):
            self.put(self.path, project.pick(["", "int unread;"]))
        elif project.is_rare(0.5):
            project.do({"do": "directory", "path": self.path})
        else:
            project.do({"do": "link", "path": self.path, "to": project.pick(["@root/work/data", "nowhere"])})


class Plain(Theme):
    """None: a project of tables alone."""


class Columns(Theme):
    """Tests for headers in a header, whose branches have one preprocessed text."""

    def start(self):
        project = self.project
        path = project.pick(["work/a", "work/a", "work/b", "work/src", "work"]) + "/m.h"
        self.put(path, *[self.columns() for _ in range(project.pick([1, 1, 2]))])
        is_found = path.startswith(("work/a/", "work/b/"))
        self.include(project.pick(["#include <m.h>", '#include "m.h"']) if is_found else f'#include "{path[5:]}"')
        self.give(self.showing(), project.pick([BOTH, BOTH[::-1], BOTH + [["-isystem", "inc"]], [["-Ilinked"]] + BOTH]))

    def showing(self):
        return [[word] for words in self.project.pick(SHOWING) for word in words]

    def change(self):
        if self.project.is_rare(0.1):
            self.project.turn()
        else:
            self.tested()


class Base(Columns):
    """The same below a base directory, in two checkouts that share a store."""
    checkouts = 2

    def start(self):
        super().start()
        base = self.project.pick(["@root", "@root/work"])
        self.give([[self.project.pick(["-ffile-prefix-map=", "-fdebug-prefix-map="]) + base + "=."]])
        self.value("CCK_BASEDIR", base)
        # The store of both is a directory or a server.
        if self.project.is_rare(0.4):
            self.value("CCK_STORE", "@server")

    def showing(self):
        return [[word] for word in self.project.pick([["-g"], ["-g", "-O2"], ["-g3"], ["-g", "-Wall", "-Wextra"]])]

    def change(self):
        """A change in both checkouts or in one of them."""
        self.project.only = self.project.pick([None, 0, 1])
        super().change()
        self.project.only = None


class Variables(Theme):
    """Directories of headers that variables name."""
    VALUES = ["a", "a", "b", "b", "missing", "", None, None, "a:b", "b:a", "missing:b", ":a", "./b/", "linked"]

    def start(self):
        project = self.project
        texts = [self.columns(), "int v;"]
        for place in ("a", "b", "inc"):
            own = [] if project.is_rare(0.4) else [f"const char *from = \"{place}\";"]
            self.put(f"work/{place}/v.h", *texts, *own)
        self.include("#include <v.h>")
        project.call["options"] = [option for option in project.call["options"] if option[0][:2] not in ("-I", "-i")]
        self.give([[word] for words in project.pick(SHOWING) for word in words] + [["-Isrc"], ["-Iother"]][:project.pick([0, 1, 2])])
        self.give([], [["-idirafter", "inc"]])

    def change(self):
        project = self.project
        how = project.chance.random()
        if how < 0.7:
            self.value(project.pick(["CPATH", "C_INCLUDE_PATH"]), project.pick(self.VALUES))
        elif how < 0.8:
            self.tested()
        elif "work/missing" in project.tree:
            project.tree.pop("work/missing/v.h", None)
            project.do({"do": "remove", "path": "work/missing"})
        else:
            project.do({"do": "directory", "path": "work/missing"})
            self.put("work/missing/v.h", "int missing;")


class Missing(Theme):
    """Directories of the search list that come and go, with a warning of those that are missing."""
    PLACES = ["work/gone", "work/gone", "work/gone/c", "work/b/gone", "work/words"]

    def start(self):
        project = self.project
        options = [["-Wmissing-include-dirs"]]
        for path in project.chance.sample(sorted(set(self.PLACES)), project.pick([1, 1, 2])):
            options.append([project.pick(["-I", "-I", "-I", "-isystem", "-iquote", "-idirafter"]),
                            project.spelled(os.path.relpath(path, "work"))])
        if project.is_rare(0.3):
            self.value(project.pick(["CPATH", "C_INCLUDE_PATH"]), "gone")
        self.give(options)

    def change(self):
        project = self.project
        path = self.path = self.path if self.path and project.is_rare(0.6) else project.pick(self.PLACES)
        if path in project.tree and project.is_rare(0.7):
            for other in [other for other in project.tree if other.startswith(path + "/")]:
                project.tree.pop(other)
            project.do({"do": "remove", "path": path})
        elif project.is_rare(0.7):
            project.do({"do": "remove", "path": path})
            project.do({"do": "directory", "path": path})
        elif project.is_rare(0.5):
            self.put(path, "a file")
        else:
            project.do({"do": "link", "path": path, "to": project.pick(["a", "nowhere", "@root/work/b", "data"])})


class Copies(Theme):
    """Equal headers that are read once, by several spellings."""
    PLACES = ["work/a/o.h", "work/b/o.h", "work/inc/o.h"]
    SPELLINGS = ["{}"] * 3 + ["src/../{}", "./{}", "b/../{}", "@root/work/{}", "../work/{}", "@root/link/{}"]

    def start(self):
        project = self.project
        self.paths = project.chance.sample(self.PLACES, project.pick([2, 2, 3]))
        project.number += 1
        # The assembler's line shows how often a file was read.
        self.snippets = [f"int o{project.number};", 'asm(".pushsection .data\\n\\t.long 1\\n\\t.popsection");']
        self.is_once = project.is_rare(0.6)
        if self.is_once:
            self.snippets.insert(0, project.pick(["#pragma once"] * 3 + ['_Pragma("once")']))
        for path in self.paths:
            self.put(path, *self.snippets)
        word = "include" if self.is_once and project.is_rare(0.8) else "import"
        self.include(*[f'#{word} "{self.spelled(path)}"' for path in self.paths for _ in range(project.pick([1, 1, 2]))])
        if project.is_rare(0.5):
            self.include(f"#{word} <o.h>")
            self.give([], project.pick([BOTH, BOTH[::-1], [["-Ilinked"], ["-Iinc"]] + BOTH]))

    def spelled(self, path):
        name = path[5:]
        if name == "a/o.h" and self.project.is_rare(0.4):
            return self.project.pick(["linked/o.h", "b/../linked/o.h"])
        return self.project.pick(self.SPELLINGS).format(name)

    def change(self):
        project = self.project
        path, to = project.chance.sample(self.paths, 2)
        how = project.pick(["alike", "touch", "other", "same", "hard", "link", "turn"], [3, 3, 4, 4, 2, 1, 1])
        if how == "alike":
            project.do({"do": "alike", "path": path, "to": to})
        elif how == "touch":
            project.do({"do": "touch", "path": path, "seconds": 1000000000 + project.chance.randrange(3)})
        elif how in ("other", "same"):
            snippets = self.snippets if how == "same" else self.snippets[:-1] + [self.snippets[-1].replace("long 1", "long 2")]
            project.do({"do": "remove", "path": path})
            self.put(path, *snippets)
        elif how == "hard":
            project.do({"do": "hard", "path": path, "to": to})
        elif how == "link":
            project.do({"do": "link", "path": path, "to": "@root/" + to})
        else:
            project.turn()


class Readings(Theme):
    """Conditions that the compiler may read in another way than its preprocessor, and names between `<` and `>`."""
    BEFORE = ["int abs(int);", "int abs(int);", '#pragma GCC target("avx2")', '#pragma GCC optimize("O2")',
              '_Pragma("GCC target(\\"avx2\\")")', "#include <immintrin.h>", "#include <stdlib.h>", "int __builtin_abs(int);",
              '__attribute__((target("avx2"))) int attributed(void) { return 0; }']
    CONDITIONS = ["__has_builtin(abs)", "! __has_builtin(abs)", "ASKS(abs)", "! ASKS(abs)", "ASKS(__builtin_abs)",
                  "! __has_builtin(__builtin_abs)", "__has_builtin(__builtin_ia32_pabsb256)", "JOIN(__has_b, uiltin)(abs)",
                  "__has_\\\nbuiltin(labs)", "defined __AVX2__", "! defined __AVX2__", "defined __OPTIMIZE__",
                  "SAME(\\\n__LINE__) % 2", "! (SAME(\\\n__LINE__) % 2)"]
    PLACES = ["work/a/r.h", "work/b/r.h", "work/r.h", "work/<d>/r.h", "work/<r.h>", "work/b/k/r.h", "work/a/<r.h", "work/a/k"]
    INCLUDES = ['#include "r.h"', "#include <r.h>", "#include <r.h>", '#include "<d>/r.h"', '#include "<r.h>"',
                "#include <k/r.h>", '#include "<r.h"', '#line 1 "r.h"', '#line 1 "<r.h>"']

    def start(self):
        project = self.project
        for path in project.chance.sample(self.PLACES, 4):
            self.content(path)
        lines = ["#define ASKS(x) __has_builtin(x)", "#define SAME(x) x", "#define JOIN(a, b) a ## b"] + project.chance.sample(self.BEFORE, project.pick([0, 1, 1, 2]))
        for _ in range(project.pick([1, 2])):
            lines.append(f"#if {project.pick(self.CONDITIONS)}\n{project.pick(self.INCLUDES)}\n#endif")
        project.number += 1
        self.include(*lines, f"int c{project.number}(void) {{ int unused; return 0; }}")
        way = project.pick(["-I", "-I", "-isystem"])
        self.give([["-Wall"], project.pick([["-MMD"], ["-MD"], ["-w"]])], [[way, "a"], [way, "b"]])

    def content(self, path):
        self.project.number += 1
        self.put(path, f"static int r{self.project.number} = {self.project.number};")

    def change(self):
        project = self.project
        if not self.path or project.is_rare(0.4):
            self.path = project.pick(self.PLACES)
        if self.path in project.tree and project.is_rare(0.5):
            project.do({"do": "remove", "path": self.path})
        else:
            self.content(self.path)


class Beside(Theme):
    """Headers of one name in quotes and in brackets, which come and go beside the files that include them; the header that no
    directive includes; tests by macros and in groups of a condition."""
    PLACES = ["work/p.h", "work/a/p.h", "work/a/k/p.h", "work/b/k/p.h", "work/k/p.h", "work/a/q.h", "work/b/q.h", "work/k/q.h"]
    IMPLICIT = ["work/a/stdc-predef.h", "work/b/stdc-predef.h", "work/stdc-predef.h", "work/b/k/stdc-predef.h"]
    INCLUDES = ['#include "p.h"', "#include <p.h>", "#include NAME", '#include "k/o.h"', "#include <k/o.h>", '#include "./p.h"',
                '#include_next "p.h"', '#include "../work/p.h"', '#import "p.h"']
    NAMES = ["<p.h>", '"p.h"', '"k/../p.h"']
    TESTS = ["Q_HAS_INCLUDE(<q.h>)", 'Q_HAS_INCLUDE("q.h")', '(defined(__has_include) && __has_include("k/q.h"))',
             "(0 || (defined __has_include && (__has_include(<k/q.h>))))", "(! Q_HAS_INCLUDE(<q.h>))", "JOIN(__has, _include)(<q.h>)",
             "JOIN(__, has_include)(<q.h>)", "CALL((__has_include(<q.h>)))"]

    def start(self):
        project = self.project
        self.content("work/b/p.h")
        self.put("work/b/k/o.h", project.pick(['#include "p.h"', "#include <p.h>", "#include NAME"]))
        lines = [f"#define NAME {project.pick(self.NAMES)}", "#define JOIN(a, b) a ## b", "#define CALL(x) x"]
        lines += project.pick([["#define Q_HAS_INCLUDE __has_include"], ["#define Q_HAS_INCLUDE __has_include_next"],
                               ["#ifndef Q_HAS_INCLUDE", "#define Q_HAS_INCLUDE(x) 0", "#endif"]], [3, 1, 1])
        lines += [project.pick(self.INCLUDES) for _ in range(project.pick([1, 2, 3]))]
        if project.is_rare(0.5):
            project.number += 1
            lines.append(f"#if {project.pick(self.TESTS)}\nint c{project.number};\n#endif")
        self.include(*lines)
        directories = project.pick([BOTH, BOTH[::-1], [["-iquote", "a"], ["-Ib"]], [["-Ia"], ["-idirafter", "b"]], [["-I."], ["-Ib"]]])
        self.give([["-w"]], directories + project.pick([[], [["-isysroot", "none"]]]))

    def content(self, path):
        self.project.number += 1
        name = f"G{path.count('/')}_{self.project.number}"
        self.put(path, f"#ifndef {name}\n#define {name}\nint r{self.project.number};\n#endif")

    def change(self):
        project = self.project
        if not self.path or project.is_rare(0.4):
            self.path = project.pick(self.IMPLICIT if project.is_rare(0.2) else self.PLACES)
        if self.path in project.tree and project.is_rare(0.6):
            project.do({"do": "remove", "path": self.path})
        else:
            self.content(self.path)


class Systems(Theme):
    """Headers that the project includes and that headers of the system include too, while directories become links."""
    INCLUDES = ['#include "{}inc/p.h"', '#include "{}inc/p.h"', '#include "{}a/p.h"', "#include <p.h>", '#include "p.h"',
                "#include <c/p.h>", "#include <s.h>", "#include <s.h>", '#include "{}inc/s.h"']
    PLACES = ["work/inc/p.h", "work/a/p.h", "work/b/p.h", "work/inc/s.h", "work/a/s.h", "work/b/s.h", "work/a/c/p.h"]
    WAYS = ["-I", "-isystem", "-isystem", "-idirafter"]

    def start(self):
        project = self.project
        for path in self.PLACES[:1] + project.chance.sample(self.PLACES[1:], 3):
            self.content(path)
        # Only the name of a header that is absolute, or has `..`, may be longer than its real path.
        top = project.pick(["@root/work/", "@root/work/", "", "../work/"])
        includes = self.INCLUDES[:1] + ["#include <s.h>"] + project.chance.sample(self.INCLUDES, project.pick([0, 0, 1, 2]))
        self.include(*[include.format(top) for include in includes])
        directories = [top + name for name in ("inc", "inc", "a", "b")[project.pick([0, 1]):]]
        project.chance.shuffle(directories)
        self.give([["-Wall"], project.pick([["-MD"], ["-MMD"], ["-g"]])],
                  [[project.pick(self.WAYS), directory] for directory in directories])

    def content(self, path):
        project = self.project
        project.number += 1
        lines = [f"extern int r{project.number};"]
        if path.endswith("s.h"):
            lines += [project.pick(["#include <p.h>", "#include <p.h>", '#include "p.h"', "#include <c/p.h>", "#include_next <s.h>"])]
            lines[:0] = ["#pragma GCC system_header"] * project.pick([0, 1])
        elif project.is_rare(0.3):
            lines.append("#include_next <p.h>")
        self.put(path, *lines)

    def change(self):
        project = self.project
        path = project.pick(self.PLACES)
        how = project.pick(["content", "remove", "directory", "turn"], [4, 2, 4, 1])
        if how == "content":
            self.content(path)
        elif how == "remove" and path in project.tree:
            project.do({"do": "remove", "path": path})
        elif how == "directory":
            path = project.pick(["work/inc", "work/inc", "work/a"])
            if any(other.startswith(path + "/") for other in project.tree):
                project.number += 1
                project.do({"do": "rename", "path": path, "to": f"work/{project.number}"})
                project.do({"do": "link", "path": path, "to": project.pick(["", "@root/work/"]) + str(project.number)})
        else:
            project.turn()


class Assembler(Theme):
    """Assembler code that is preprocessed: includes, comments like directives, and what the assembler reads by itself."""
    LINES = [".long VALUE", ".long VALUE", ".long 1 /* a\ncomment */ + 2", "# it's a comment", "# it's /* a comment", ".byte 1 // more",
             '.ascii "a # /* b"', "#ifdef VALUE\n.byte 3\n#endif", "#if VALUE > 1\n.byte 1\n#else\n.byte 2\n#endif",
             "#define JOIN(a, b) a##b\n.long JOIN(1,+)2", "#ifndef __ASSEMBLER__\n#error\n#endif", "f@n:\tret", ".long __LINE__",
             ".ascii __FILE__", ".long __COUNTER__", "#line 40", "#undef VALUE\n#define VALUE 5", "# pragma",
             "#if VALUE == 2\n.byte 8\n#endif", ".ascii __BASE_FILE__", ".macro m@n\n.byte 4\n.endm\nm@n"]
    ODD = ['# 1 "s.h"', '# 7 "x.S" 2', '# 1 "t.h" 1', '#line 9 "s.h"', '.warning "one"', "#warning one", '.incbin "data"', '.include "t.s"',
           '.include "x.S"', '.file "y.c"', '.file "x.S"', ".ascii __DATE__", '#if __has_include("t.h")\n.byte 9\n#endif',
           "# __has_include", '.print "one"', ".altmacro", "#define H #\nH include \"t.h\"", ".err", "it's",
           "#pragma once", '#import "t.h"']
    INCLUDES = ['#include "s.h"', "#include <s.h>", "#include <t.h>", '#include "t.h"', "#define NAME <t.h>\n#include NAME", '#include "a/t.h"']
    PLACES = ["work/a/s.h", "work/b/s.h", "work/s.h", "work/a/t.h", "work/b/t.h", "work/t.h", "work/t.s", "work/b/x.S"]

    def start(self):
        project = self.project
        for path in set(project.chance.sample(self.PLACES, 4) + ["work/b/s.h", "work/a/t.h"]):
            self.content(path)
        self.put("work/x.S", *self.lines(3), *project.chance.sample(self.INCLUDES, 2), *self.lines(2))
        project.call["input"] = [project.pick(["x.S", "x.S", "./x.S", "@root/work/x.S"])]
        self.give([["-DVALUE=2"]] + project.pick([[], [["-g"]], [["-MD"]], [["-MMD"], ["-g"]]]), project.pick([BOTH, BOTH[::-1]]))

    def lines(self, most):
        lines = []
        for _ in range(self.project.chance.randint(1, most)):
            self.project.number += 1
            pool = self.ODD if self.project.is_rare(0.06) else self.LINES
            lines.append(self.project.pick(pool).replace("@n", str(self.project.number)))
        return lines

    def content(self, path):
        more = [self.project.pick(self.INCLUDES[2:4])] if path.endswith("s.h") and self.project.is_rare(0.4) else []
        self.put(path, *self.lines(3), *more)

    def change(self):
        project = self.project
        how = project.pick(["line", "header", "value", "turn"], [3, 4, 1, 1])
        if how == "line":
            snippets = list(project.tree["work/x.S"]["snippets"])
            place = project.chance.randrange(len(snippets))
            self.put("work/x.S", *snippets[:place], *self.lines(1), *snippets[place + project.pick([0, 1]):])
        elif how == "header":
            path = project.pick(self.PLACES)
            if path in project.tree and project.is_rare(0.4):
                project.do({"do": "remove", "path": path})
            else:
                self.content(path)
        elif how == "value":
            project.call["options"] = [option for option in project.call["options"] if not option[0].startswith("-DVALUE")]
            self.give([["-DVALUE=" + project.pick(["1", "2", "3"])]])
        else:
            project.turn()


# How often a project has a theme.
THEMES = {Plain: 10, Columns: 2.5, Variables: 1.5, Missing: 1, Base: 1.5, Copies: 1.5, Readings: 1.5, Beside: 2,
          Systems: 1.5, Assembler: 2}
