"""The program `cck`: what it prints, and its exit status."""
from .arguments import Arguments, Output, with_extra_files
from .calls import CallResult, Call, Conditions, Hasher, executable_text, number_of, run_calls
from .errors import Refused
from .key import Params, language_of, object_key
from .mini import MiniCompiler
from .recorded import activated
from .script import (
    EXECUTABLE,
    WORKING_DIRECTORY,
    Surroundings,
    WrongLine,
    armed_of,
    basedirs_of,
    first_files,
    parse,
    zone_of,
)
from .store import MapStore

# `usage_line`.
USAGE = b"cck: usage: cck key DIGEST LANGUAGE [ARG..] | cck run\n"


def asks_for_key(words):
    """The words ask for a key (`words_of` of a `KeyCommand`)."""
    if len(words) < 3 or words[0] != b"key":
        return False
    try:
        language_of(words[2])
    except Refused:
        return False
    return True


def key_line(words, text):
    """`key_line`: the line that is printed for `key DIGEST LANGUAGE [ARG..]` over this text."""
    return object_key(Params(words[1], words[2], words[3:], text)) + b"\n"


def arguments_of(words):
    """The parsed command line of a script's call: the input, and arguments of both keys."""
    language = b"cPreprocessed" if words[0].endswith(b".i") else b"c"
    outputs = {b"obj": Output(b"out.o", False)}
    return Arguments(words[0], language, outputs=outputs, common_args=words[1:])


def result_line(call_result):
    """`result_line`: the line that is printed for one call."""
    if not isinstance(call_result, CallResult):
        return b"error %d\n" % number_of(call_result)
    return (b"miss " if call_result.is_fresh else b"hit ") + call_result.key + b"\n"


def call_of(line, files, variables, compiler, digest):
    """The call that a line asks for (`script_calls`), over these files and variables."""
    moment, source, words = line.values
    arguments = with_extra_files(arguments_of([source] + words), files, variables)
    hasher = Hasher(compiler, EXECUTABLE, digest, arguments)
    recache = line.word == b"recache"
    return Call(hasher, files, WORKING_DIRECTORY, variables, moment, recache)


def conditions_of(lines):
    """What all calls of a script are made under."""
    return Conditions(zone_of(lines), activated(), basedirs_of(lines))


def armed_by(lines):
    """`armed_by`: a new store, armed as the lines say."""
    store = MapStore()
    store.forget_at(armed_of(lines, b"forget"))
    store.fail_at(armed_of(lines, b"fail"))
    return store


def each_call(lines):
    """The calls of a script in order (`script_calls`), each over the files as they are at its line.

    The files are the same object in all of them, which changes as the lines are followed.
    """
    compiler = MiniCompiler(zone_of(lines))
    digest = executable_text(first_files(), EXECUTABLE, compiler.version)
    surroundings = Surroundings()
    for line in lines:
        surroundings.follow(line)
        if line.word in {b"compile", b"recache"}:
            yield call_of(line, surroundings.files, surroundings.variables, compiler, digest)


def run_lines(lines):
    """`Ran`: the lines of the results of a script's calls."""
    conditions, store = conditions_of(lines), armed_by(lines)
    call_results = (run_calls([call], conditions, store)[0] for call in each_call(lines))
    return b"".join(map(result_line, call_results))


def run_script(text):
    """`IsOutput` for a script: what is printed of it, and the exit status."""
    try:
        lines = parse(text)
    except WrongLine as wrong:
        return b"cck: line %d\n" % wrong.number, 2
    return run_lines(lines), 0


def result_words(words, read):
    """What is printed for words that are UTF-8, and the status; `read` returns the input's bytes."""
    if words == [b"run"]:
        return run_script(read())
    if asks_for_key(words):
        return key_line(words, read()), 0
    return USAGE, 2
