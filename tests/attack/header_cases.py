"""Random cases of tests for headers: tables of odd tokens, and what generates sources, options and a change of them."""
import collections
import random
import re

Case = collections.namedtuple("Case", "files options path change")
# The directories and the names of what tests ask for.
PLACES = ["", "", "a/", "a/", "b/", "b/", "a/d/"]
NAMES = ["g.h", "g.h", "k.h", "k.h", "d/g.h", "h.h", "1.h", "g", "\u00e9.h", "g.h.gch", "k.h.gch"]
# Options of calls.
OPTIONS = [option.split(" ") for option in ("-std=c89", "-std=gnu89", "-std=c99", "-std=c11", "-std=c2x", "-std=gnu2x",
    "-trigraphs", "-fopenmp", "-fopenmp", "-w", "-Wall", "-Wundef", "-Wtrigraphs", "-g", "-MMD", "-ffreestanding",
    "-undef", "-fno-extended-identifiers", "-ftrack-macro-expansion=0", "-include h.h", "-imacros h.h", "-iquote b",
    "-isystem b", "-idirafter b", "-DA=1", "-DE=", "-DO=F(", "-DC=)", "-DF(x)=x", "-Dg=k", "-DW=||", "-DK=0",
    "-DD=defined", "-DN=<g.h>", "-DP(x,y)=x##y")]
# What stands for the name of a test.
WORDS = ["__has_include"] * 8 + ["X_HAS_INCLUDE"] * 3 + ["x_has_include", "__has_include_next", "$HAS_INCLUDE", "I",
    "P(__has_, include)", "Q(_, _has_include)", "P(__h, as_include)", "__has_\\\ninclude", "\u00e9__has_include"]
# Macros, by what follows `#define`: those that most cases have, and all.
USUAL = ["F(x) x", "g k", "k g", "X_HAS_INCLUDE __has_include", "A 1"]
MACROS = USUAL + ["F(x) (x)", "G(s, x) x", "Z(x)", "V(...) __VA_ARGS__", "H(x) 1", "P(x, y) x##y", "P(x, y) x %:%: y",
    "Q(x, y) P(x, y)", "S(x) #x", "O F(", "C )", "L (", "E", "K 0", "W ||", "h k", "y F", "U F(0 ||", "N <g.h>",
    "N \"g.h\"", "T __has_include(<g.h>)", "T 1", "I __has_include", "J F", "D defined", "J X_HAS_INCLUDE",
    "X_HAS_INCLUDE __has_include_next", "X_HAS_INCLUDE(x) 0", "X_HAS_INCLUDE(x) F(0",
    "X_HAS_INCLUDE(x) __has_include(x)", "X_HAS_INCLUDE(...)", "X_HAS_INCLUDE 1 /* c */", "X_HAS_INCLUDE",
    "X_HAS_INCLUDE F", "x_has_include X_HAS_INCLUDE", "x_has_include __has_include // c", "$HAS_INCLUDE __has_include",
    "__has_include(x) 1", "__has_include_next __has_include", "\u00e9__has_include F", "\u00e9defined 0 ||",
    "$defined(x) x", "if(x) x", "elif(x) x", "ifdef 0 ||", "ifndef F(", "include k", "define(x) x", "undef 0 ||",
    "else F(", "R \"(\"", "u8 k"]
# Operands of tests that gcc or the rules read in another way.
ODD_NAMES = ["<g", "\"g.h", "<g.h>>", "<a/*>", "<*/>", "<a\"b>", "<)>", "< g.h >", "L \"g.h\"", "S(g.h)", "<\\>",
    "<g??/>", "<a|b>"]
# Operators, beginnings of directives, and what is between tokens.
OPERATORS = ["||"] * 6 + ["&&"] * 6 + ["|", "&", "^", "==", "!=", "<", ">", "+", "-", "%", "<<", "|| !", "&& !", ",",
    "W"]
STARTS = ["#"] * 16 + [" # ", "#\t", "%:", "??=", "/**/#", "#/**/", "/*\n*/#", "#\\\n", "#\f", "\v#", "/* #if 1 */ #"]
GAPS = [" "] * 30 + ["", "\t", "  ", "\f", "\v", "/**/", " /* ) */ ", " /* \" */ ", " /* ' */ ", "\\\n", "\\ \n",
    " /*\n*/ ", " /*/*/ ", "/*\n#if 1 /* */", "/* *\\\n/ ", " E "]
# Lines that are no conditions.
LINES = ["/*", "*/", "// c \\", "\"/*\";", "'*/' + 1;", "char s{n}[] = R\"(", ")\";", "F(", ")", "/* #if */", "??/",
    "\u00e9#", "/**/", "_Pragma(\"once\")", "#pragma push_macro(\"g\")",
    "#pragma pop_macro(\"g\")", "#pragma push_macro(\"X_HAS_INCLUDE\")", "#pragma pop_macro(\"X_HAS_INCLUDE\")",
    "#line 9 \"d/x.c\"", "#pragma once", "#pragma GCC poison __has_include", "# 1 \"b/g.h\" 1", "#ident \"c\"",
    "#assert a(b)", "#pragma GCC system_header", "#include_next <h.h>", "#undef g", "#undef X_HAS_INCLUDE",
    "S(__has_include(<g.h>))", "int S{n} = sizeof S(*/ /* #);", "\\", "", "#", "#define \\", "#if 1 /*"]
# A function with a pragma of OpenMP that asks for a header, how the pragma is made, and the test.
PRAGMA = """#include <sys/cdefs.h>
#define MAKE(x) MAKE_(x)
#define MAKE_(x) M##x
#define M0 barrier
#define M1 taskyield
#define PASTE(x, y) PASTE_(x, y)
#define PASTE_(x, y) x##y
#define NCLUDE nclude
#define GMA gma
void f(void) {{
{}
}}
"""
PRAGMAS = ["_Pragma(\"omp {}\")", "__glibc_macro_warning1(omp {})", "PASTE(_Pra, GMA)(\"omp {}\")"]
NAMERS = ["MAKE(__has_include(<k.h>))", "MAKE(PASTE(__has_i, NCLUDE)(<k.h>))"]
# Conditions made of others, and the smallest ones.
FORMS = ["{0} {op} {1}", "({0} {op} {1})"] * 4 + ["({0})", "!{0}", "!({0}) {op} {1}", "defined(g) {op} {0}"] * 2 + [
    "F({0})", "G(0, {0})", "G(\")\", {0})", "V({0})", "O {0} C", "O {0})", "F({0} C", "L {0})", "Z({0}) {1}",
    "A {op} {0}", "U {0})", "U {0} C", "{0} {op} F({1})", "y ({0})", "J ({0})", "if({0})", "elif({0})", "ifdef {0}",
    "ifndef {0})", "else {0})", "E {0}", "{0} ? {1} : {2}", "H({0}) {op} {1}", "V({0} {op} {1})", "F(G(0, {0}))",
    "\u00e9defined {0}", "$defined({0})", "undef {0}", "F(/*\n#if 1 || */ {0})", "F( /*\n#elif /**/ {0})", "{0} E",
    "X_HAS_INCLUDE(<x>) {op} {0})", "K {op} {0} W {1}", "A ? {0} : {1}"]
ATOMS = ["0", "1", "0x1u", "A", "K", "defined A", "defined(g)", "defined __has_include", "defined(X_HAS_INCLUDE)",
    "')'", "'\"'", "'/*'", "L'\\''", "4 //* */ 2\n", "D A", "T", "defined X_HAS_INCLUDE", "(1)", "X_HAS_INCLUDE",
    "__has_attribute(unused)"]


def name_of(macro):
    """The name of a macro, from its definition."""
    return re.match(r"[\w$]+", macro)[0]


# The names that mean something else where no macro has them.
MACRO_NAMES = {name_of(macro) for macro in MACROS} - {"__has_include", "__has_include_next", "g", "k", "h", "R", "u8",
    "include"}


class Generator:
    """Generates one case: the files of its first state by their paths (None is a directory), the options of its calls,
    and what happens at one path."""

    def __init__(self, seed):
        self.random, self.number = random.Random(seed), 0
        # The names for which tests ask, and lines that include something.
        self.names, self.includes = NAMES[:1], []
        # Most cases have few odd tokens, so that gcc understands them.
        self.odd = self.one([0, 0.02, 0.1, 0.3])
        usual = [macro for macro in USUAL if self.chance(0.4)]
        self.macros = self.random.sample(MACROS, self.one([0, 2, 4, 8])) + usual
        self.defined = {name_of(macro) for macro in self.macros}

    def one(self, texts):
        return self.random.choice(texts)

    def chance(self, probability):
        return self.random.random() < probability

    def known(self, texts):
        """One of the texts, all of whose macros are defined."""
        if self.chance(0.01):
            return self.one(texts)
        return self.one([text for text in texts
                         if MACRO_NAMES.intersection(re.findall(r"[\w$]+", text)) <= self.defined])

    def gap(self):
        return self.known(GAPS) if self.chance(self.odd) else " "

    def name(self):
        """The operand of a test."""
        if self.chance(self.odd / 4):
            return self.known(ODD_NAMES)
        self.names.append(self.one(NAMES))
        before = self.one(["./", "../w/", "b/../", "a//", "d/", "d/../"]) if self.chance(self.odd) else ""
        return self.known([f"<{before}{self.names[-1]}>", f"\"{before}{self.names[-1]}\"", "N"])

    def test(self):
        return "".join([self.known(WORDS), self.gap().strip(" "), "(", self.gap().strip(" "), self.name(), ")"])

    def condition(self, depth):
        """A condition, mostly one that gcc understands."""
        if depth == 0 or self.chance(0.3):
            return self.test() if self.chance(0.7) else self.known(ATOMS)
        inner = [self.condition(depth - 1) for _ in range(3)]
        operator = self.known(OPERATORS) if self.chance(self.odd) else self.one(["||", "&&"])
        form = self.known(FORMS).replace("{op}", operator)
        return "".join(self.gap() if byte == " " else byte for byte in form).format(*inner)

    def directive(self, words):
        return (self.one(STARTS) if self.chance(self.odd) else "#") + words

    def line(self):
        """A line that is no condition."""
        if self.chance(self.odd):
            return self.known(LINES).replace("{n}", str(self.number))
        macros = [self.directive(f"define{self.gap()}{macro}") for macro in self.macros[:2]]
        return self.one([*macros, *self.includes, "int t;"])

    def block(self, depth):
        """Lines that show that they are read, and conditions with more of them."""
        self.number += 1
        lines = [f"int v{self.number};"]
        for _ in range(self.one([1, 1, 2])):
            if depth == 0 or self.chance(0.3):
                lines.append(self.line())
                continue
            lines += [self.directive(f"if{self.gap()}{self.condition(2)}"), *self.block(depth - 1)]
            if self.chance(0.3):
                lines += [self.directive(f"elif{self.gap()}{self.condition(1)}"), *self.block(0)]
            if self.chance(0.5):
                lines += [self.directive(self.one(["else", "else // c", "else __has_include"])), *self.block(0)]
            lines.append(self.directive(self.one(["endif", "endif /* c */", "endif __has_include"])))
        return lines

    def text(self, macros, depth):
        """A source: macros, a block, and now and then an error."""
        lines = [f"#define {macro}" for macro in macros] + self.block(depth)
        text = self.one(["\n", "\n", "\n", "\n", "\r\n"]).join(lines) + self.one(["\n", "\n", "\n", "", "\\\n"])
        while self.chance(self.odd):
            at = self.random.randrange(len(text) + 1)
            odd = self.one([self.known(LINES), self.gap(), self.one("()\"'/*?<>#\\\n\r|&$"), self.test()])
            text = text[:at] + odd + text[at + self.one([0, 0, 1, 3]):]
        return text.encode()

    def case(self):
        """The files of the first state, the options, and the change. A few cases have a pragma of OpenMP."""
        place = self.one(["", "a/", "b/"])
        header = self.text(self.one([[], self.macros]), 1) if self.chance(0.4) else b""
        self.includes = ["#include \"h.h\"", "#include \"h.h\"", "#include <h.h>" if place else "#include \"./h.h\""]
        files = {"a": None, "b": None, "d": None, place + "h.h": header, "x.c": self.text(self.macros, 2)}
        options = [["-fmax-include-depth=6"], ["-Ib"], ["-Ia"]] + self.random.sample(OPTIONS, self.one([0, 1, 1, 2, 3]))
        if self.chance(0.03):
            pragma = self.one(PRAGMAS).format(self.one(NAMERS))
            files["x.c"], self.names = PRAGMA.format(pragma).encode() + files["x.c"], ["k.h"]
            options.append(["-fopenmp"])
        path = self.one(PLACES) + self.one(self.names)
        if self.chance(0.3):
            files.setdefault(path, b"")
        change = self.one(["goes", "goes", "directory"] if path in files else ["file"] * 12 + ["precompiled"])
        return Case(files, options, path, change)
