"""Checks of listings of `cck_explain` against the reference, for explain.sh.

    python3 tests/explain.py join LISTING
    python3 tests/explain.py keys PROGRAM
    python3 tests/explain.py scripts PROGRAM
    python3 tests/explain.py markers INPUT CWD TEXT LISTING
    python3 tests/explain.py entries PROGRAM

`join` computes the key of the listed parts. `keys` lists keys with base directories, whole and
shortened, by the reference, and compares the program's listings with them. `scripts` runs scripts by the
reference, on a store that keeps what is asked of it, and compares the listings. `markers` computes the
listing of a text's line markers by `tests/reference/markers.py`, each place by the line feeds before it,
and compares. `entries` runs a
script by the reference, gives each entry of its store to the program and compares the listing with
the entry; then it does the same for each prefix of these bytes, for each with one byte changed, and
for wrong fields, and compares the status and the offset with those of a reader of its own.
"""
import ast
import hashlib
import pathlib
import subprocess
import sys

sys.path.insert(0, str(pathlib.Path(__file__).resolve().parent))

from reference import entry as entries  # noqa: E402
from reference import key, markers, paths, program, recorded, script, strip  # noqa: E402
from reference.calls import run_calls, setting_of  # noqa: E402
from reference.digests import digest_text, length_bytes  # noqa: E402
from reference.errors import Refused  # noqa: E402
from reference.files import read_contents  # noqa: E402
from reference.texts import is_utf8  # noqa: E402
from reference.times import NANOS  # noqa: E402

# The greatest number of bytes that a line shows.
ROW = 256

LETTERS = {9: b"\\t", 10: b"\\n", 13: b"\\r", 34: b'\\"', 39: b"\\'", 92: b"\\\\"}

SCRIPT = (
    b"file /w/a.c 1 1 #include \"a.h\"\\n#include \"b.h\"\\nint x;\n"
    b"file /w/a.h 1 1 int a;\n"
    b"file /w/b.h 2 3 int b;\n"
    b"compile 5 a.c\n"
    b"file /w/b.h 6 7 int c;\n"
    b"compile 9 a.c\n"
)


def escaped(data):
    """The escape of bytes, between quotation marks."""
    plain = (
        LETTERS.get(byte) or (bytes([byte]) if 32 <= byte <= 126 else b"\\x%02x" % byte)
        for byte in data
    )
    return b'"' + b"".join(plain) + b'"'


def join(listing):
    """The listed parts, joined: their digest is the printed key."""
    parts, offset, key = [], 0, None
    for line in pathlib.Path(listing).read_text("ascii").split("\n")[:-1]:
        if line.startswith("key "):
            key = line[4:]
            break
        if line.startswith("cut "):
            continue
        at, length, _, shown = line.split(" ", 3)
        data = ast.literal_eval("b" + shown)
        assert (int(at), int(length)) == (offset, len(data)), line
        parts.append(data)
        offset += len(data)
    digest = hashlib.sha256(b"".join(parts)).digest()
    assert key == "".join("%x%x" % (byte % 16, byte // 16) for byte in digest), key
    print("joined", offset, "bytes:", key[:16] + "..")


def checksum(data):
    """The 64-bit FNV-1a of bytes."""
    state = 0xCBF29CE484222325
    for byte in data:
        state = (state ^ byte) * 0x100000001B3 % 2**64
    return state


def named_parts(params):
    """The names and bytes of the parts of key material that `cck_explain key` lists."""

    def framed(name, data):
        return [(name + b".length", length_bytes(len(data))), (name, data)]

    yield from framed(b"CACHE_VERSION", key.CACHE_VERSION)
    yield from framed(b"compiler_digest", params.compiler_digest)
    yield b"plusplus", b"\0"
    yield from framed(b"language", params.language)
    yield b"arguments.length", length_bytes(len(params.arguments))
    for i, argument in enumerate(strip.stripped_arguments(params.arguments, params.basedirs)):
        yield from framed(b"arguments[%d]" % i, argument)
    yield b"extra_hashes.length", length_bytes(0)
    yield b"assembler_digest.option", b"\0"
    yield b"env_vars.length", length_bytes(0)
    yield from framed(b"preprocessor_output", strip.stripped_text(params.text, params.basedirs))


def cuts_of(text, site):
    """The place and the bytes of each cut, from left to right."""
    at = 0
    while at < len(text):
        length = site(at)
        if length > 0:
            yield at, text[at : at + length]
        at += max(length, 1)


def cut_lines(name, text, site):
    """The lines of the cuts of an argument or of the text."""
    for at, data in cuts_of(text, site):
        yield b"cut %d %d %s %s\n" % (at, len(data), name, escaped(data))


def key_lines(params, is_full):
    """The listing of a key."""
    offset = 0
    for name, data in named_parts(params):
        size = ROW if is_full else max(len(data), 1)
        for start in range(0, max(len(data), 1), size):
            row = data[start : start + size]
            shown = escaped(row) if len(row) <= ROW else b"checksum %d" % checksum(row)
            yield b"%d %d %s %s\n" % (offset + start, len(row), name, shown)
        offset += len(data)
    basedirs = params.basedirs
    for i, argument in enumerate(params.arguments):
        site = lambda at: strip.argument_site(argument, at, basedirs)  # noqa: E731
        yield from cut_lines(b"arguments[%d]" % i, argument, site)
    site = lambda at: strip.text_site(params.text, at, basedirs)  # noqa: E731
    yield from cut_lines(b"preprocessor_output", params.text, site)
    yield b"key " + key.object_key(params) + b"\n"


def asked_keys():
    """Keys with base directories, and keys with long parts."""
    text = b'# 1 "/home/me/a/m.c"\n /home/me/ab /home/me/a/home/me/a <"/home/m"\n'
    arguments = [b"-I/home/me/a", b"-D=/home/me/a/x=/home/me/", b"/home/me/a/", b"x/home/me/a", b""]
    arguments += [b"-MFC:/home/me", b"/home/me/a/b=/home/me/a/b/c"]
    for basedirs in [[], [b"/home/me/a"], [b"/home/me/", b"/home/me/a/"], [b"", b"/home", b"/home/me/a/b"]]:
        yield key.Params(b"abcd", b"c", arguments, text, basedirs=basedirs)
    long = bytes(range(256))
    for data in [long, long + b"x", long * 4 + b"/home/me/a", b""]:
        yield key.Params(b"abcd", b"c++", [b"-D" + b"y" * 300], data, basedirs=[b"/home/me/a"])


def words_for(params, is_full):
    """The words of a command line that ask for a listing."""
    words = [b"key"] + [b"--full"] * is_full
    for basedir in params.basedirs:
        words += [b"--basedir=" + basedir]
    return words + [params.compiler_digest, params.language, b"--"] + params.arguments


def compare_keys(executable):
    """The program's listings of keys are those of the reference."""
    count = cuts = 0
    for params in asked_keys():
        for is_full in [False, True]:
            words = [executable.encode()] + words_for(params, is_full)
            done = subprocess.run(words, input=params.text, capture_output=True, check=False)
            wanted = b"".join(key_lines(params, is_full))
            assert (done.returncode, done.stdout) == (0, wanted), (params, done, wanted)
            count, cuts = count + 1, cuts + wanted.count(b"\ncut ")
    print(count, "listings of keys with", cuts, "cuts as in the reference")


def placed_marks(text):
    """The offset and the mark of each marker and of the inclusion, as `markers.marks` finds them."""
    at = 0
    while len(text) - at >= markers.LEAST_LEFT:
        starts = markers.is_line_start(text, at)
        if starts and markers.is_marker(text, at):
            marker = markers.read_marker(text, at)
            if marker.kind != "Unnamed":
                yield at, marker
            if marker.kind == "Malformed":
                return
            at = marker.end
        elif starts and markers.is_hidden(text, at):
            at = markers.place_of(text, b"\n", at) + 1
        elif markers.is_inclusion(text, at):
            yield at, markers.Marker("Refused")
            return
        else:
            at = markers.next_place(text, at)


def words_of(text, given, cwd, marker):
    """What is listed of a mark, after its place."""
    if marker.kind != "Named":
        return {"Refused": b"incbin", "Malformed": b"malformed"}[marker.kind]
    name = text[marker.begin : marker.end]
    if name == b"":
        return b'empty ""'
    if len(name) > 1 and name[:1] == b"<" and name[-1:] == b">":
        return b"angled " + escaped(name)
    path = paths.normalize_path(paths.join_path(cwd, name))
    kind = b"system" if marker.is_system else b"file"
    if paths.same_path(path, paths.normalize_path(paths.join_path(cwd, given))):
        kind = b"input"
    return kind + b" " + escaped(name) + b" " + escaped(path)


def marker_lines(given, cwd, text):
    """The listing of a text's line markers."""
    lines = []
    for at, marker in placed_marks(text):
        line = text.count(b"\n", 0, at) + 1
        column = at - text.rfind(b"\n", 0, at)
        lines.append(b"%d:%d " % (line, column) + words_of(text, given, cwd, marker) + b"\n")
    return b"".join(lines)


def compare_markers(given, cwd, text, listing):
    """The program's listing is that of the reference."""
    text = pathlib.Path(text).read_bytes()
    wanted = marker_lines(given.encode(), cwd.encode(), text)
    assert pathlib.Path(listing).read_bytes() == wanted
    print(wanted.count(b"\n"), "markers as in the reference")


def time_words(time):
    """A time as it is listed."""
    return b"-" if time is None else b"%ds%dns" % (time // NANOS, time % NANOS)


def entry_lines(data):
    """The listing of an entry."""
    lines = [b"format " + (b"%d" % data[0] if data else b"-")]
    entry = entries.read_entry(data)
    for key in sorted(entry):
        lines.append(b"result " + escaped(key) + b" %d" % len(entry[key]))
        for one in entry[key]:
            times = time_words(one.modified) + b" " + time_words(one.changed)
            size = b"%d" % one.size
            lines.append(b" ".join([b"include", escaped(one.path), escaped(one.digest), size, times]))
    return b"\n".join(lines) + b"\n"


class Wrong(Exception):
    """The offset of the field that is wrong."""


class Fields:
    """The fields of bytes, from the left."""

    def __init__(self, data):
        self.data, self.at = data, 0

    def take(self, count, start=None):
        """The next bytes; wrong at the field's start where there are fewer."""
        if count > len(self.data) - self.at:
            raise Wrong(self.at if start is None else start)
        taken = self.data[self.at : self.at + count]
        self.at += count
        return taken

    def number(self):
        """A number of 8 bytes."""
        return int.from_bytes(self.take(8), "little")

    def count(self, least):
        """A number of things that each have some bytes at least."""
        start, count = self.at, self.number()
        if count * least > len(self.data) - self.at:
            raise Wrong(start)
        return count

    def text(self, is_text):
        """Bytes after their length, which may have to be UTF-8."""
        start = self.at
        taken = self.take(self.number(), start)
        if is_text and not is_utf8(taken):
            raise Wrong(start)
        return taken

    def time(self):
        """A time that is there or not."""
        start, mark = self.at, self.take(1)
        if mark == b"\1":
            self.number()
            nanoseconds = self.at
            if int.from_bytes(self.take(4), "little") >= NANOS:
                raise Wrong(nanoseconds)
        elif mark != b"\0":
            raise Wrong(start)

    def entry(self):
        """All of an entry."""
        if self.data == b"":
            return
        if self.take(1) != b"\2":
            raise Wrong(0)
        last = None
        for _ in range(self.count(16)):
            start, key = self.at, self.text(True)
            if last is not None and key <= last:
                raise Wrong(start)
            last = key
            for _ in range(self.count(26)):
                self.text(False)
                self.text(True)
                self.number()
                self.time()
                self.time()
        if self.at < len(self.data):
            raise Wrong(self.at)


def offset_of(data):
    """Where bytes stop being an entry, or `None`."""
    try:
        Fields(data).entry()
    except Wrong as wrong:
        return wrong.args[0]
    return None


def compare_entry(executable, data):
    """The program's listing of bytes, or its error, is that of the reference."""
    done = subprocess.run([executable, "entry"], input=data, capture_output=True, check=False)
    offset = offset_of(data)
    if offset is None:
        assert (done.returncode, done.stdout) == (0, entry_lines(data)), (data, done)
        return True
    start = b"cck_explain: no entry from byte %d on: " % offset
    assert (done.returncode, done.stdout) == (1, b""), (data, done)
    assert done.stderr.startswith(start), (data, offset, done.stderr)
    return False


def wrong_entries():
    """Entries with a wrong field of each kind."""
    late = entries.Include(b"/w/\xff\n", "é".encode(), 7, -5, 3 * NANOS + 1)
    yield entries.entry_bytes({b"k": [late], b"l": []})
    yield entries.ENTRY_FORMAT + (2).to_bytes(8, "little") + entries.result_bytes(b"k", []) * 2
    yield entries.ENTRY_FORMAT + (1 << 60).to_bytes(8, "little")
    yield entries.entry_bytes({b"\xff": [late]})
    yield entries.entry_bytes({b"k": [entries.Include(b"", b"\x80", 0)]})
    yield entries.entry_bytes({}) + b"\0"


class WatchedStore:
    """A store that keeps what is asked of it."""

    def __init__(self, store):
        self.store, self.calls = store, []

    def watch(self, kind, asked_under, call):
        """Makes a call, and keeps its result or its error."""
        try:
            returned = call()
        except Refused as error:
            self.calls.append((kind, asked_under, error))
            raise
        self.calls.append((kind, asked_under, returned))
        return returned

    def get(self, asked_under):
        """A get."""
        return self.watch("get", asked_under, lambda: self.store.get(asked_under))

    def put(self, asked_under, data):
        """A put."""
        return self.watch("put", asked_under, lambda: self.store.put(asked_under, data))


def difference_of(include, call, conditions):
    """How an included file differs from what was recorded of it, or `None`."""
    try:
        contents = read_contents(call.files, include.path)
    except Refused:
        return b"missing"
    modified = call.files.metadata(include.path).modified
    if include.digest == recorded.recorded(contents, modified, setting_of(call, conditions)):
        return None
    if not include.digest.startswith(digest_text(contents)):
        return b"contents"
    _, date, stamp = recorded.found_macros(contents)
    return {(True, False): b"day", (False, True): b"second"}.get((date, stamp), b"day or second")


def returned_lines(returned, call, conditions):
    """What a get returned."""
    if isinstance(returned, Refused):
        yield b"store failed"
    elif returned is None:
        yield b"store nothing"
    else:
        yield b"store entry"
        entry = entries.read_entry(returned)
        for name in sorted(entry, reverse=True):
            found = [(one.path, difference_of(one, call, conditions)) for one in entry[name]]
            differing = [b"include " + escaped(path) + b" " + how for path, how in found if how]
            yield b"result " + escaped(name) + (b" changed" if differing else b" unchanged")
            yield from differing


def call_lines(number, call, conditions, watched):
    """What one call does."""
    result = run_calls([call], conditions, watched)[0]
    calls, watched.calls = watched.calls, []
    yield b"call %d " % number + escaped(call.hasher.arguments.input)
    yield b"preprocessor_key " + (calls[0][1] if calls else b"-")
    if not calls or calls[0][0] == "put":
        yield b"store not asked"
    for kind, _, returned in calls:
        if kind == "get":
            yield from returned_lines(returned, call, conditions)
        else:
            yield b"put failed" if isinstance(returned, Refused) else b"put done"
    yield program.result_line(result)[:-1]


def script_lines(text):
    """The listing of a script."""
    lines = script.parse(text)
    conditions, watched = program.conditions_of(lines), WatchedStore(program.armed_by(lines))
    for number, call in enumerate(program.each_call(lines), 1):
        yield from call_lines(number, call, conditions, watched)


DAY = 86400 * NANOS
SCRIPTS = [
    SCRIPT,
    b"",
    b"# no call\n\nzone 3600\n",
    # other contents, none, a directory, and the first contents again
    b"file /w/a.c 1 1 #include \"h.h\"\\nint x;\\n\nfile /w/h.h 1 1 int y1;\\n\n"
    b"compile 5 a.c\ncompile 6 a.c\nfile /w/h.h 2 2 int y2;\\n\ncompile 7 a.c\n"
    b"gone /w/h.h\ncompile 8 a.c\ndir /w/h.h\ncompile 9 a.c\n"
    b"file /w/h.h 8 8 int y1;\\n\ncompile 10 a.c\nrecache 11 a.c -O2\ncompile 12 a.c -O2\n",
    # a day and a second that are other ones
    b"file /w/a.c 1 1 #include \"d.h\"\\n#include \"s.h\"\\n#include \"b.h\"\\n\n"
    b"file /w/d.h 1 1 __DATE__\nfile /w/s.h 1 1 __TIMESTAMP__\nfile /w/b.h 1 1 __DATE__ __TIMESTAMP__\n"
    b"compile 5 a.c\ncompile %d a.c\nfile /w/s.h %d 1 __TIMESTAMP__\ncompile %d a.c\n"
    b"file /w/b.h - - __DATE__ __TIMESTAMP__\ncompile %d a.c\n" % (DAY, DAY, DAY + 1, DAY + 2),
    # a store that forgets, and one that fails; the cache switched off; an input that is preprocessed
    b"store forget 3\nfile /w/a.c 1 1 #include \"h.h\"\\n\nfile /w/h.h 1 1 int y;\n"
    b"compile 5 a.c\ncompile 6 a.c\ncompile 7 a.c\n",
    b"store fail 2\nfile /w/a.c 1 1 #include \"h.h\"\\n\nfile /w/h.h 1 1 int y;\n"
    b"compile 5 a.c\ncompile 6 a.c\ncompile 7 a.c\n",
    b"store fail 1\nfile /w/a.c 1 1 int x;\ncompile 5 a.c\ncompile 6 b.c\n",
    b"file /w/a.c 1 1 int x;\nfile /w/a.i 1 1 int x;\nvar SCCACHE_DIRECT off\ncompile 5 a.c\n"
    b"clear\ncompile 6 a.i\ncompile 7 a.c\ncompile 8 a.c\nbasedir /w/\n",
]


def compare_scripts(executable):
    """The program's listings of scripts are those of the reference."""
    calls = 0
    for text in SCRIPTS:
        wanted = b"".join(line + b"\n" for line in script_lines(text))
        done = subprocess.run([executable, "script"], input=text, capture_output=True, check=False)
        assert (done.returncode, done.stdout) == (0, wanted), (text, done, wanted)
        calls += wanted.count(b"preprocessor_key ")
    done = subprocess.run([executable, "script"], input=b"\nno\n", capture_output=True, check=False)
    wrong = (1, b"", b"cck_explain: line 2 is wrong\n")
    assert (done.returncode, done.stdout, done.stderr) == wrong, done
    print(calls, "calls of", len(SCRIPTS), "scripts as in the reference")


def stored(text):
    """The entries of a store after a script."""
    lines = script.parse(text)
    conditions, store = program.conditions_of(lines), program.armed_by(lines)
    for call in program.each_call(lines):
        run_calls([call], conditions, store)
    return list(store.pairs.values())


def compare_entries(executable):
    """Each entry of the run, and bytes near it."""
    whole = stored(SCRIPT)
    assert whole
    tried = [data[:size] for data in whole for size in range(len(data) + 1)]
    for data in whole:
        for at in range(len(data)):
            tried.append(data[:at] + bytes([data[at] ^ 0x81]) + data[at + 1 :])
    tried += wrong_entries()
    listed = sum(compare_entry(executable, data) for data in tried)
    print(entry_lines(whole[0]).decode(), end="")
    print(listed, "listed,", len(tried) - listed, "called no entry, as by the reference")


if __name__ == "__main__":
    checks = {
        "join": join,
        "keys": compare_keys,
        "scripts": compare_scripts,
        "markers": compare_markers,
        "entries": compare_entries,
    }
    checks[sys.argv[1]](*sys.argv[2:])
