"""The calls of the script cases of `cck_vectors`: scripts, the small preprocessor, the program as a function."""
import copy

from ..cases import BaseSubject, WrongLine, cut_words, flag, list_of, moment, number_of, undo
from ..calls import run_calls
from ..digests import digest_text
from ..errors import Refused
from ..failures import first_pair, own_calls, runs_of
from ..files import FILE, FOLDER
from ..given import World
from ..mini import MiniCompiler, print_input
from ..paths import join_path
from ..program import result_line, result_words, arguments_of, armed_by, conditions_of
from ..script import Surroundings, WrongLine as WrongScript
from ..script import armed_of, basedirs_of, parse, zone_of
from ..store import MapStore
from ..texts import is_utf8
from .calls import store_text

REFUSED = b"cck: refused\n"
KINDS = ("Interrupted", "BrokenPipe", "UnexpectedEof", "OutOfMemory")
MANY = 2**63
CALL_WORDS = {b"compile": b"cached", b"recache": b"recache"}


class Failed(Exception):
    """A read or a write failed."""


class Failures:
    """Which calls of one kind fail: some pass, then some fail, and all others pass."""

    def __init__(self, passing=0, failing=0):
        self.passing = passing
        self.failing = failing
        self.has_failed = False

    def call(self):
        """Counts one call; an error where it fails."""
        if self.passing > 0:
            self.passing -= 1
        elif self.failing > 0:
            self.failing -= 1
            self.has_failed = True
            raise Failed


class Streams:
    """The reader and the writer of a run, and how they fail."""

    WORDS = ("reader", "writer", "flush", "written")

    def __init__(self):
        self.begin()

    def begin(self):
        """All reads and writes pass."""
        self.read_step = self.write_step = MANY
        self.reads, self.writes, self.flushes = Failures(), Failures(), Failures()
        self.before = b""

    def give(self, word, rest):
        """Takes what a line gives, and returns whether it knows the line's word."""
        if word not in self.WORDS:
            return False
        getattr(self, word)(rest)
        return True

    def reader(self, rest):
        """`reader STEP PASSING KIND`."""
        step, passing, kind = cut_words(rest, 2)
        if kind not in KINDS:
            raise WrongLine
        self.read_step, self.reads = number_of(step), Failures(number_of(passing), MANY)

    def writer(self, rest):
        """`writer STEP PASSING FAILING`."""
        step, passing, failing = cut_words(rest, 2)
        self.write_step = number_of(step)
        self.writes = Failures(number_of(passing), number_of(failing))

    def flush(self, rest):
        """`flush FAILING`."""
        self.flushes = Failures(0, number_of(rest))

    def written(self, rest):
        """`written TEXT`: what the writer holds before the run."""
        self.before = undo(rest)


class Run:
    """A run of the program over streams."""

    def __init__(self, streams, text):
        self.streams = streams
        self.left = text
        self.written = streams.before
        self.reads, self.writes = copy.copy(streams.reads), copy.copy(streams.writes)
        self.flushes = copy.copy(streams.flushes)
        self.is_flushed = True

    def read(self):
        """All that the reader has, up to a read of no bytes."""
        text = b""
        while True:
            self.reads.call()
            piece, self.left = self.left[: self.streams.read_step], self.left[self.streams.read_step :]
            if piece == b"":
                return text
            text += piece

    def write(self, data):
        """One write, of which the number of bytes is returned."""
        self.writes.call()
        piece = data[: self.streams.write_step]
        if piece == b"":
            raise Failed
        self.written += piece
        self.is_flushed = False
        return len(piece)

    def print(self, data):
        """Writes all, and flushes."""
        while data != b"":
            data = data[self.write(data) :]
        self.flushes.call()
        self.is_flushed = True

    def refuse(self):
        """Tries once to say that something failed, and returns the status of that."""
        try:
            self.print(REFUSED)
        except Failed:
            pass
        return 1

    def run(self, words):
        """What is written for these words, and the status."""
        return self.result(self.end(words))

    def end(self, words):
        """Writes what there is to write for these words, and returns the status."""
        try:
            printed, status = result_words(words, self.read)
            self.print(printed)
        except Failed:
            return self.refuse()
        return status

    def result(self, status):
        """What was written, the status, the bytes that weren't read, and whether a flush is missing."""
        text = self.written + b"status %d" % status
        if self.left != b"":
            text += b" unread %d" % len(self.left)
        return text if self.is_flushed else text + b" unflushed"


def bracketed(texts):
    """Texts between brackets, each after a space."""
    return b"".join(b" [" + text + b"]" for text in texts)


def times(modified, changed):
    """Two times, each after a space."""
    return b" " + moment(modified) + b" " + moment(changed)


def command_text(line):
    """What a line of a script says."""
    word, values = line.word, line.values
    if word == b"zone":
        return b"zone %d" % values[0]
    if word == b"store":
        return b"store %s %d" % (values[0], values[1])
    if word == b"file":
        return b"file" + bracketed(values[:1]) + times(*values[1:3]) + bracketed(values[3:])
    if word in CALL_WORDS:
        return call_text(word, line)
    return word + bracketed(values)


def call_text(word, line):
    """A call that a line asks for."""
    now, source, words = line.values
    return word + b" " + moment(now) + bracketed([source] + words)


def place_text(files, path):
    """What is at a path."""
    try:
        metadata = files.metadata(path)
    except Refused as error:
        return b"error " + error.debug().encode()
    name = {FILE: b"file", FOLDER: b"dir"}.get(metadata.kind, b"other")
    text = name + times(metadata.modified, metadata.changed)
    if metadata.kind == FILE:
        text += bracketed([files.read_at(path, 0, metadata.length)])
    return text


def surroundings_at(lines, before):
    """The files and variables at the call of this number, or after all lines."""
    surroundings = Surroundings()
    for line in lines:
        if line.word in CALL_WORDS:
            if before == 0:
                break
            before -= 1
        surroundings.follow(line)
    return surroundings


def runs_text(runs):
    """What is said of runs under failures."""
    text = f"{runs.count} failures: {runs.seen['hits']} hits, {runs.seen['misses']} misses"
    for number in range(1, 8):
        if runs.seen[number]:
            text += f", {runs.seen[number]} of error {number}"
    return f"{text}\nwrong: {runs.wrong}\n".encode() + digest_text(runs.printed)


def run_under(streams, text, cause, failures):
    """A run of a script in which calls of one kind fail, and its status."""
    run = Run(streams, text)
    setattr(run, cause, failures)
    return run, run.end([b"run"])


def is_cut(written, whole):
    """Whether a text is a beginning of another one, and after it a beginning of the line `cck: refused`."""
    cuts = range(len(written) + 1)
    return any(whole.startswith(written[:at]) and REFUSED.startswith(written[at:]) for at in cuts)


def fail_streams(streams, text, cause, failing):
    """Each call of the reader or the writer fails in turn, until a run meets no failure."""
    whole, status = run_under(streams, text, cause, Failures())
    count, wrong, printed = 0, 0, b""
    while True:
        failures = Failures(count, failing)
        run, ended = run_under(streams, text, cause, failures)
        if not failures.has_failed:
            wrong += (run.written, ended) != (whole.written, status)
            break
        wrong += ended != 1 or not is_cut(run.written, whole.written)
        printed += run.written
        count += 1
    return b"%d failures\nwrong: %d\n" % (count, wrong) + digest_text(printed)


class Subject(BaseSubject):
    """The calls, and what lines give to them."""

    def __init__(self):
        self.world = World()
        self.streams = Streams()
        self.begin()

    def begin(self):
        """Nothing is given."""
        self.world.begin()
        self.streams.begin()
        self.lines = b""
        self.cwd = b"/w"
        self.is_digested = False
        self.store_fail_after = 0
        self.other_results = None

    def give(self, word, rest):
        """Takes what a line gives, and returns whether it knows the line's word."""
        if word == "line":
            self.lines += rest.encode("latin-1") + b"\n"
        elif word == "cwd":
            self.cwd = undo(rest) or b"/w"
        elif word == "digested":
            self.is_digested = True
        elif word == "other_results":
            self.other_results = cut_words(rest, 1)
        elif word == "store_fail_after":
            self.store_fail_after = number_of(rest)
        else:
            return self.streams.give(word, rest) or self.world.give(word, rest)
        return True

    def call(self, name, rest, made):
        """The result of the call, or its hex digest."""
        try:
            result = super().call(name, rest, made)
        except Refused as error:
            result = b"error " + error.debug().encode()
        return digest_text(result) if self.is_digested else result

    def text(self, rest, made):
        """The script of a call."""
        return self.lines + made.text(rest)

    def said(self, text):
        """What the lines of a script say."""
        try:
            return parse(text)
        except WrongScript as wrong:
            raise Refused("Line", wrong.number) from None

    def parse(self, rest, made):
        """`parse TEXT`."""
        return b"\n".join(map(command_text, self.said(self.text(rest, made))))

    def calls(self, rest, made):
        """`calls TEXT`."""
        lines = [line for line in self.said(self.text(rest, made)) if line.word in CALL_WORDS]
        return b"\n".join(call_text(CALL_WORDS[line.word], line) for line in lines)

    def options(self, rest, made):
        """`options TEXT`."""
        lines = self.said(self.text(rest, made))
        texts = [b"zone %d" % zone_of(lines), b"basedirs" + bracketed(basedirs_of(lines))]
        for word in (b"forget", b"fail"):
            if armed_of(lines, word):
                texts.append(b"%s %d" % (word, armed_of(lines, word)))
        return b"\n".join(texts)

    def surroundings(self, rest, made):
        """`surroundings N PATH..`."""
        number, paths = cut_words(rest, 1)
        found = surroundings_at(self.said(self.text("", made)), number_of(number))
        texts = [place_text(found.files, path) for path in list_of(paths)]
        texts += [b"var" + bracketed(variable) for variable in found.variables]
        return b"\n".join(texts)

    def script_error_text(self, rest, made):
        """`script_error_text TEXT`."""
        try:
            parse(self.text(rest, made))
        except WrongScript as wrong:
            return b"line %d is wrong" % wrong.number
        return self.parse(rest, made)

    def run(self, rest, made):
        """`run TEXT`."""
        return Run(self.streams, self.text(rest, made)).run([b"run"])

    def program(self, rest, made):
        """`program WORD..`."""
        words = list_of(rest)
        if not all(map(is_utf8, words)):
            raise WrongLine
        return Run(self.streams, self.text("", made)).run(words)

    def refuse(self, rest, made):
        """`refuse`."""
        run = Run(self.streams, b"")
        return run.result(run.refuse())

    def printed(self, source):
        """What is printed for an input."""
        world = self.world
        path = join_path(self.cwd, source)
        return print_input(world.files, path, self.cwd, world.now, world.offset)

    def print_input(self, rest, made):
        """`print_input TEXT`."""
        return self.printed(made.text(rest))

    def print_error_text(self, rest, made):
        """`print_error_text TEXT`."""
        try:
            return self.printed(made.text(rest))
        except Refused as error:
            return MESSAGES[error.name]

    def compiler(self, rest, made):
        """`compiler`."""
        known = MiniCompiler(self.world.offset)
        facts = known.plusplus, known.version, known.assembler_digest
        return b"Gcc, plusplus " + flag(facts[0]) + f", version {facts[1]}, assembler {facts[2]}".encode()

    def command_line(self, rest, made):
        """`command_line WORD..`."""
        words = list_of(rest)
        if not words:
            return b"NotCompilation"
        arguments = arguments_of(words)
        texts = [b"input" + bracketed([arguments.input]), b"language " + arguments.language]
        texts.append(b"common" + bracketed(arguments.common_args))
        for name, output in arguments.outputs.items():
            texts.append(b"output " + name + bracketed([output.path]))
        return b"\n".join(texts)

    def preprocess(self, rest, made):
        """`preprocess WORD..`."""
        words = list_of(rest)
        if not words:
            return b"NotCompilation"
        world = self.world
        compiler = MiniCompiler(world.offset)
        return compiler.prints(world.files, b"/cc", arguments_of(words), self.cwd, [], world.now)

    def plain_keys(self, rest, made):
        """`plain_keys TEXT`: the result of each call, made alone on an empty store."""
        lines = self.said(self.text(rest, made))
        conditions = conditions_of(lines)
        results = (run_calls([call], conditions, MapStore())[0] for call in own_calls(lines))
        return b"".join(map(result_line, results)).removesuffix(b"\n")

    def results(self, rest, made):
        """`results TEXT`: the results of all calls as a list."""
        lines = self.said(self.text(rest, made))
        store = armed_by(lines)
        if self.other_results:
            key, data = self.first(lines)
            store.pairs[key] = data
        store.fail_after(self.store_fail_after)
        results = run_calls(own_calls(lines), conditions_of(lines), store)
        return b"".join(map(result_line, results)).removesuffix(b"\n")

    def checked_results(self, rest, made):
        """`checked_results TEXT`: how many results there are. With all memory none is wrong."""
        return b"%d results, 0 wrong" % len(own_calls(self.said(self.text(rest, made))))

    def fail_each(self, rest, made):
        """`fail_each CAUSE once` and `fail_each CAUSE on`: each call of a cause fails in turn."""
        cause, how = cut_words(rest, 1)
        if how not in ("once", "on"):
            raise WrongLine
        text = self.text("", made)
        if cause in ("reads", "writes", "flushes"):
            return fail_streams(self.streams, text, cause, 1 if how == "once" else MANY)
        if cause not in ("files", "store", "forget"):
            raise WrongLine
        lines = self.said(text)
        return runs_text(runs_of(lines, self.first(lines), cause, how == "once", store_text))

    def first(self, lines):
        """The pair that the store holds at first, or None."""
        if self.other_results is None:
            return None
        count, path = self.other_results
        return first_pair(lines, number_of(count), undo(path))

    CALLS = {
        "plain_keys": plain_keys,
        "results": results,
        "checked_results": checked_results,
        "fail_each": fail_each,
        "parse": parse,
        "calls": calls,
        "options": options,
        "surroundings": surroundings,
        "script_error_text": script_error_text,
        "run": run,
        "program": program,
        "refuse": refuse,
        "print_input": print_input,
        "print_error_text": print_error_text,
        "compiler": compiler,
        "command_line": command_line,
        "preprocess": preprocess,
    }


MESSAGES = {
    "Fault": b"a call on a file failed",
    "Failed": b"the input or what it includes is no regular file",
}
