"""Random and damaged scripts of `cck run` and random calls of `cck key`, from a seed.

A script has few paths and few contents, so that the same things come again in other orders.
"""
from .cases import escape
from .key import INCLUDE_PATHS, LANGUAGES, OBJECT_VARIABLES

SECOND = 1000000000
DAY = 86400 * SECOND
LEAST = -(2**63)
GREATEST = 2**63 - 1

INPUTS = [
    b"a.c", b"a.c", b"a.c", b"b.c", b"a.i", b"sub/c.c", b"../w/a.c", b"./a.c", b"/w/a.c",
    b"/w//a.c",
]  # fmt: skip
ODD_INPUTS = [
    b"none.c", b"dir", b"a\n.c", b'q"3\n.c', b".i", b"a.i.c", b"-", b"\xff.c", b"<a>.c", b"h.h",
    b"a c",
]  # fmt: skip
HEADERS = [
    b"h.h", b"h.h", b"g.h", b"./h.h", b"sub/h.h", b"../w/h.h", b"/w/h.h", b"/w/../w/h.h",
    b"/w/./g.h",
]  # fmt: skip
ODD_HEADERS = [
    b"none.h", b"dir", b"<h.h>", b"a.c", b"\xff.h", b"h\\.h", b"../../h.h", b"g 3.h", b"..", b"/",
    b".",
]  # fmt: skip
MACROS = [b"__DATE__", b"__TIME__", b"__TIMESTAMP__"]
NEAR_MACROS = [
    b"__DATE_", b"_DATE__", b"__TIME__STAMP__", b"__DATE__TIME__", b"__TIMESTAMP____DATE__",
]  # fmt: skip
BASEDIRS = [
    b"/w/", b"/w", b"/w/sub/", b"/w/su", b"/", b"", b"w", b"/usr/bin", b'# 1 "/w', b"/w/h.h",
]  # fmt: skip
SWITCHES = [
    b"false", b"OFF", b"Off", b"0", b"FALSE", b"fAlSe", b"no", b"1", b"", b"00", b"off ", b"true",
]  # fmt: skip
EXTRA_FILES = [
    b"/w/h.h", b"/w/h.h", b"/w/h.h:/w/g.h", b"/w/g.h", b"/w", b"/w/sub", b"/none", b"", b":",
    b"h.h", b"/usr/bin/cc",
]  # fmt: skip
VALUES = [b"1", b"2", b"", b"/s", b"a=b", b"\xff", b"10"]
ARGUMENTS = [
    b"-O2", b"-I/w/sub", b"-I/w", b"-DX=/w/h.h", b"/w/", b"-ffile-prefix-map=/w=.", b"/Ic:/w",
    b"\xff", b"=", b"-",
]  # fmt: skip

WRONG_LINES = [
    b"zone 86400", b"zone +1", b"zone", b"zone -", b"zone 1 2", b"zone ", b"zone -86400",
    b"zone 1.0", b"zone --1", b"store fail 0", b"store fail -0",
    b"store forget 18446744073709551616", b"store keep 1", b"store fail", b"store fail 1 ",
    b"store", b"store forget -1", b"file /w/x 1", b"file /w/x", b"file", b"file /w/x 1 + x",
    b"file /w/x 9223372036854775808 1 x", b"file /w/x 1 -9223372036854775809 x", b"file  1 1 x",
    b"file /w/x -- 1 x", b"dir", b"dir /w/a b", b"dir /w/a ", b"gone", b"gone ", b"gone /w/a  ",
    b"clear x", b"clear ", b"compile - a.c", b"compile 5", b"compile 5 ",
    b"compile 9223372036854775808 a.c", b" compile 5 a.c", b"compile  5 a.c", b"compile 5 a.c ",
    b"compile 5 a.c -O2  -g", b"compile x a.c", b"recache", b"recache - a.c", b"var", b"var ",
    b"x", b"\\x23 x", b"\\q", b"Compile 5 a.c", b"compile\t5 a.c", b"\r", b" ", b" #",
    b"basedir \\q", b"basedir \\x0", b"file /w/x 1 1 \\xg0", b"compile 5 a\\", b"var A \\",
    b"zone 1\r", b"compiler 5 a.c", b"\xff", b"basedir\t/w",
]  # fmt: skip
ODD_LINES = [
    b"store fail 18446744073709551615", b"store forget 018446744073709551615", b"zone -0",
    b"zone \\x30", b"#", b"", b"zone 00000000000000000000000000000000000000000000000000000000001",
    b"\\x63lear", b"compile 5 \\x2d", b"# zone x", b"file /w/h.h \\x2d -  ", b"var A  b",
    b"basedir", b"basedir ", b"var N", b"var \\x00 \\xff", b"file /w/h.h - 1", b"\\x64ir /w/dir",
    b"store \\x66ail 3", b"file /usr/bin/cc 1 1 other", b"gone /usr/bin/cc", b"dir /w", b"#\xff",
    b"file /w 1 1 x", b"compile -5 a.c", b"compile -9223372036854775808 a.c",
    b"compile 9223372036854775807 a.c", b"var SCCACHE_DIRECT", b"file /w/h.h 1 1 ",
    b"basedir /w/ ", b"compile 5 a.c \\x20", b"file \\'h\\' 1 1 x",
]  # fmt: skip

COMPILERS = [b"abcd", b"", b"efgh", "\u00e9".encode(), b"a" * 64, b"13"]
ODD_LANGUAGES = [b"C", b"cxx", b"", b"c ", b"Cxx", b"hip\n"]
TEXTS = [b"", b"hello world", b"/w/a", b'# 1 "/w/a.c"\n', b"\xff\x00\n", b"x" * 200000]
KEY_ARGUMENTS = [b"", b"a", b"-O2", b"-I/w", "\u00e9".encode(), b"=", b"a b", b"key", b"run"]


ODD_LINES_OF_FILES = [
    b"# 1", b"#line", b'.incbin "f"', b'x .incbin \\"f\\"', b"_" * 10 + b' # 1 "none"', b"_" * 9,
    b'# 1 ""', b'# 1 "<x>"', b'#pragma GCC pch_preprocess "h.h"', b'#include ""', b"#include <h.h>",
    b'#include "a"b"', b"# x", b'"',
]  # fmt: skip


class ScriptMaker:
    """Makes one script, with a source of random numbers."""

    def __init__(self, random):
        self.random = random
        self.headers = [self.one(HEADERS + ODD_HEADERS[:3]) for _ in range(2)] + [b"h.h"]
        self.inputs = [self.one(INPUTS) for _ in range(2)]
        if self.chance(0.15):
            self.inputs.append(self.one(ODD_INPUTS))
        if self.chance(0.15):
            self.headers.append(self.one(ODD_HEADERS))
        self.offset = self.one([0, 0, 0, 3600, -3600, 86399, -86399, 1, -1])
        self.times = [self.any_time() for _ in range(3)] + [1 * SECOND, 2 * SECOND]
        self.now = max(self.times) + 1 if max(self.times) < GREATEST else 3 * SECOND
        self.contents = [self.content() for _ in range(3)]

    def one(self, choices):
        """One of several values."""
        return self.random.choice(choices)

    def chance(self, probability):
        """Whether what has this probability is so."""
        return self.random.random() < probability

    def any_time(self):
        """A time, often one at a boundary of a day or second of the zone."""
        day = self.random.randrange(-1, 3) * DAY - self.offset * SECOND
        second = self.random.randrange(-3, 9) * SECOND
        choices = [day, second, second + SECOND // 2, LEAST, GREATEST, 0, -1]
        time = self.one(choices[:3] * 6 + choices[3:]) + self.random.randrange(-1, 2)
        return min(max(time, LEAST), GREATEST)

    def word(self, data):
        """Bytes as a word of the script, in one of several ways."""
        text = escape(data).replace(" ", "\\x20")
        if text.startswith("#"):
            text = "\\x23" + text[1:]
        if self.chance(0.05) and data:
            text = "".join(f"\\x{byte:02X}" for byte in data)
        return text.encode("ascii") or b"\\x2e"

    def text(self, data):
        """Bytes as a TEXT of the script."""
        if self.chance(0.1):
            return data.replace(b"\\", b"\\\\").replace(b"\n", b"\\n")
        return escape(data).encode("ascii")

    def line_of_file(self):
        """A line of an input or a header."""
        name = self.one(self.headers)
        include = b'#include "' + name + b'"'
        plain = [b"int x;", b"int y;", b"", b"// " + name, b"\xff\x00"]
        quoted = b'"' + name + b'"'
        marked = [b"# 1 " + quoted, b"# 7 " + quoted + b" 3", b"#line 3", b"#line 4 " + quoted]
        odd = [include + b" ", b" " + include, b'# 1 "' + name, b"#1 " + quoted] + ODD_LINES_OF_FILES
        kind = self.random.random()
        if kind < 0.45:
            return include
        if kind < 0.7:
            return self.one(plain)
        if kind < 0.85:
            return self.one(MACROS + MACROS + NEAR_MACROS)
        if kind < 0.92:
            return self.one(marked)
        return self.one(odd)

    def content(self):
        """The contents of a file."""
        lines = [self.line_of_file() for _ in range(self.one([0, 1, 1, 1, 2, 2, 3]))]
        end = b"\n" if lines and self.chance(0.8) else b""
        return b"\n".join(lines) + end

    def input_content(self):
        """The contents of an input: most name a header."""
        kind = self.random.random()
        if kind < 0.03:
            return self.content() + self.one([b"#line 7", b"# 12345", b'# 1234"', b"# 1 h.h"])
        if kind < 0.88:
            include = b'#include "' + self.one(self.headers) + b'"\n'
            return include + self.one([b"", b"int x;\n", self.content()])
        return self.content()

    def file_time(self):
        """A time of a file in a line: mostly before the time of the next call."""
        kind = self.random.random()
        if kind < 0.06:
            return b"-"
        if kind < 0.12:
            return b"%d" % (self.now + self.one([0, -1, 1]))
        return b"%d" % self.one([time for time in self.times if time < self.now] or [LEAST])

    def path(self, name):
        """The path of a name as a line writes it: as it is seen from /w, in one of several ways."""
        whole = name if name.startswith(b"/") else b"/w/" + name
        if self.chance(0.1):
            whole = whole.replace(b"/./", b"/").replace(b"/w/../w/", b"/w/")
        return self.word(whole)

    def header_line(self, name):
        """A header with other contents, or with those that it may have had."""
        content = self.one(self.contents) if self.chance(0.8) else self.content()
        times = self.file_time() + b" " + self.file_time()
        return b"file " + self.path(name) + b" " + times + b" " + self.text(content)

    def input_line(self, name):
        """An input."""
        times = self.file_time() + b" " + self.file_time()
        return b"file " + self.path(name) + b" " + times + b" " + self.text(self.input_content())

    def variable_line(self):
        """A variable, of those that count or another one."""
        kind = self.random.random()
        if kind < 0.2:
            name, value = b"SCCACHE_DIRECT", self.one(SWITCHES)
        elif kind < 0.35:
            name, value = b"SCCACHE_EXTRAFILES", self.one(EXTRA_FILES)
        elif kind < 0.55:
            name, value = b"SOURCE_DATE_EPOCH", self.one(VALUES)
        else:
            names = sorted(OBJECT_VARIABLES | INCLUDE_PATHS | {b"HOME", b"cpath", b"SDKROOT2"})
            name, value = self.one(names), self.one(VALUES)
        return b"var " + self.word(name) + b" " + self.text(value)

    def call_line(self):
        """A call; its time is mostly that of the call before or later."""
        kind = self.random.random()
        if kind < 0.1:
            self.now = self.any_time()
        elif kind < 0.5 and self.now < GREATEST:
            self.now = min(self.now + self.one([1, SECOND // 2, SECOND, DAY]), GREATEST)
        words = [b"recache" if self.chance(0.1) else b"compile", b"%d" % self.now]
        words.append(self.word(self.one(self.inputs)))
        if self.chance(0.15):
            words += [self.word(self.one(ARGUMENTS)) for _ in range(self.one([1, 2]))]
        return b" ".join(words)

    def repeated_calls(self, lines):
        """The last call of these lines once more, or another one."""
        calls = [line for line in lines if line.startswith((b"compile", b"recache"))]
        if calls and self.chance(0.6):
            return calls[-1]
        return self.call_line()

    def change_line(self):
        """A line that changes files or variables."""
        kind = self.random.random()
        if kind < 0.5:
            return self.header_line(self.one(self.headers))
        if kind < 0.6:
            return self.input_line(self.one(self.inputs))
        if kind < 0.86:
            return self.variable_line()
        if kind < 0.94:
            return b"clear"
        word = self.one([b"gone ", b"dir "])
        return word + self.path(self.one(self.headers + self.inputs))

    def global_lines(self):
        """Lines that hold for the whole run."""
        lines = [b"zone %d" % self.offset] if self.offset != 0 or self.chance(0.1) else []
        if self.chance(0.35):
            lines += [b"basedir " + self.text(self.one(BASEDIRS)) for _ in range(self.one([1, 1, 2, 3]))]
        if self.chance(0.3):
            lines.append(b"store " + self.one([b"forget ", b"fail "]) + b"%d" % self.random.randrange(1, 8))
        if self.chance(0.1):
            lines.append(b"store " + self.one([b"forget ", b"fail "]) + b"%d" % self.random.randrange(1, 8))
        return lines

    def lines(self):
        """The lines of a script, none of them wrong."""
        lines = [self.input_line(name) for name in self.inputs if self.chance(0.95)]
        lines += [self.header_line(name) for name in self.headers if self.chance(0.95)]
        for _ in range(self.random.randrange(2, 14)):
            if self.chance(0.5):
                lines.append(self.repeated_calls(lines))
            else:
                lines.append(self.change_line())
        for line in self.global_lines():
            lines.insert(self.one([0, 0, self.random.randrange(len(lines) + 1)]), line)
        return lines

    def script(self):
        """A script; one of ten has a wrong line, and some have a line that is odd and right."""
        lines = self.lines()
        if self.chance(0.15):
            lines.insert(self.random.randrange(len(lines) + 1), self.one(ODD_LINES))
        if self.chance(0.09):
            for _ in range(self.one([1, 1, 2])):
                lines.insert(self.random.randrange(len(lines) + 1), self.one(WRONG_LINES))
        script = b"\n".join(lines) + self.one([b"\n", b"\n", b"\n", b"", b"\n\n"])
        return self.damaged(script) if self.chance(0.02) else script

    def damaged(self, script):
        """A script with one byte more, less or other."""
        at = self.random.randrange(len(script) + 1)
        before, behind = script[:at], script[at + 1 :]
        byte = bytes([self.one(b" \n\\-0#x\xff")])
        return self.one([before + byte + script[at:], before + behind, before + byte + behind])


class Damages:
    """Changes scripts, given by their lines, in places that a source of random numbers chooses."""

    def __init__(self, random):
        self.random = random

    def place(self, parts):
        """A place in a list or in bytes that has at least one part."""
        return self.random.randrange(len(parts))

    def flipped(self, lines):
        """A bit of a byte other, which may be a line's end."""
        script = bytearray(b"\n".join(lines))
        if script:
            script[self.place(script)] ^= 1 << self.random.randrange(8)
        return bytes(script).split(b"\n")

    def put(self, lines):
        """A byte more, or another byte, of those that mean something in a script."""
        script = b"\n".join(lines)
        at = self.random.randrange(len(script) + 1)
        byte = self.random.choice([b" ", b"\n", b"\\", b"\\x", b"-", b"0", b"9", b"#", b'"', b"/", b"\xff", b"\x00"])
        return (script[:at] + byte + script[at + self.random.randrange(2) :]).split(b"\n")

    def cut(self, lines):
        """A line without its end, its beginning or a middle."""
        at = self.place(lines)
        begin, end = sorted(self.random.randrange(len(lines[at]) + 1) for _ in range(2))
        line = lines[at]
        pieces = [line[:begin], line[begin:], line[:begin] + line[end:]]
        return lines[:at] + [self.random.choice(pieces)] + lines[at + 1 :]

    def left_out(self, lines):
        """A line less."""
        at = self.place(lines)
        return lines[:at] + lines[at + 1 :] or [b""]

    def joined(self, lines):
        """Two lines as one, at times with a blank or an escaped line's end between them."""
        at = self.place(lines)
        between = self.random.choice([b"", b" ", b"\\n", b"\r"])
        return lines[:at] + [between.join(lines[at : at + 2])] + lines[at + 2 :]

    def doubled(self, lines):
        """A line once more, after itself or elsewhere, or a part of a line twice."""
        at, to = self.place(lines), self.place(lines)
        if self.random.random() < 0.7:
            return lines[:to] + [lines[at]] + lines[to:]
        begin, end = sorted(self.random.randrange(len(lines[at]) + 1) for _ in range(2))
        return lines[:at] + [lines[at][:end] + lines[at][begin:]] + lines[at + 1 :]

    def swapped(self, lines):
        """Two lines in each other's place."""
        lines, at, to = list(lines), self.place(lines), self.place(lines)
        lines[at], lines[to] = lines[to], lines[at]
        return lines

    def other_word(self, lines):
        """A word in place of another one, of the same script or a number at a boundary."""
        at = self.place(lines)
        words = lines[at].split(b" ")
        edge = self.random.choice([2**8, 2**16, 2**31, 2**32, 2**63, 2**64]) + self.random.randrange(-2, 2)
        number = b"%d" % self.random.choice([edge, -edge])
        other = self.random.choice(lines).split(b" ")
        words[self.place(words)] = self.random.choice([number, other[self.place(other)]])
        return lines[:at] + [b" ".join(words)] + lines[at + 1 :]

    def any(self, lines):
        """One damage of any kind."""
        kinds = [self.flipped, self.put, self.cut, self.left_out, self.joined, self.doubled]
        return self.random.choice(kinds + [self.swapped, self.other_word])(lines)


def damaged_script(random):
    """A script without a wrong line, after one to four damages."""
    maker, damages = ScriptMaker(random), Damages(random)
    lines = maker.lines() + [b""]
    for _ in range(random.choice([1, 1, 1, 2, 3, 4])):
        lines = damages.any(lines)
    return b"\n".join(lines)


def key_words(random):
    """The words of a call `cck key`, most of them right, and the text that it reads."""
    languages = [name for _, name, _ in LANGUAGES]
    language = random.choice(languages if random.random() < 0.9 else ODD_LANGUAGES)
    arguments = [random.choice(KEY_ARGUMENTS) for _ in range(random.randrange(4))]
    words = [b"key", random.choice(COMPILERS), language] + arguments
    kind = random.random()
    if kind < 0.04:
        words = words[: random.randrange(3)]
    elif kind < 0.06:
        words = random.choice([[b"run", b"x"], [b"Key", b"a", b"c"], [b"key", b"\xff", b"c"], [b""]])
    return words, random.choice(TEXTS)
