"""The calls of `call_cases`: compilers, stores, calls for keys and lists of calls."""
import dataclasses

from ..arguments import (
    Arguments,
    Output,
    archs,
    is_multiarch,
    output_name,
    with_extra_files,
)
from ..calls import (
    Call,
    Conditions,
    Hasher,
    executable_text,
    generate_hash_key,
    number_of,
    run_calls,
)
from ..cases import (
    BaseSubject,
    WrongLine,
    cut_words,
    error_text,
    flag,
    found,
    list_of,
    number,
    undo,
)
from ..cases import number_of as number_in
from ..error_texts import text_of_entry_error, text_of_util_error
from ..errors import Refused
from ..given import Given, World, known_language
from ..key import LANGUAGES as KNOWN_LANGUAGES
from ..paths import join_path, same_path
from ..store import EmptyStore, MapStore

PREPROCESSED = b"/preprocessed"

KINDS = {
    "gcc": b"Gcc",
    "clang": b"Clang",
    "diab": b"Diab",
    "msvc": b"Msvc",
    "nvcc": b"Nvcc",
    "cudafe": b"CudaFE",
    "cicc": b"Cicc",
    "ptxas": b"Ptxas",
    "nvhpc": b"Nvhpc",
    "taskingvx": b"TaskingVX",
}

# How `Debug` prints a language, by its name in keys.
LANGUAGES = {name: variant for variant, name, _ in KNOWN_LANGUAGES}

# The words of a command line that take a text, a list and nothing, with the fields that they give.
TEXTS = {
    "input": "input",
    "compilation_flag": "compilation_flag",
    "depfile": "depfile",
    "too_hard": "too_hard_for_preprocessor_cache_mode",
}
LISTS = {
    "dependency": "dependency_args",
    "preprocessor": "preprocessor_args",
    "common": "common_args",
    "arch": "arch_args",
    "unhashed": "unhashed_args",
    "dist_files": "extra_dist_files",
    "extra_files": "extra_hash_files",
}
FLAGS = {
    "double_dash": "double_dash_input",
    "external_assembler": "uses_external_assembler",
    "show_includes": "msvc_show_includes",
    "explicit_language": "msvc_explicit_language",
    "profile_generate": "profile_generate",
    "suppress_rewrite_includes_only": "suppress_rewrite_includes_only",
}
COLORS = {"color_off": "Off", "color_on": "On", "color_auto": "Auto"}

# What an error's `Display` prints, by its name.
PREPROCESS_TEXTS = {
    "Fault": "a call on a file failed",
    "Failed": "the preprocessor failed",
    "Memory": "out of memory",
}
STORE_TEXTS = {"Fault": "the store failed", "Memory": "out of memory"}


# ---- a compiler and files of the tests' own


@dataclasses.dataclass
class FixedCompiler:
    """A compiler whose every result was given to it."""

    text: bytes = b""
    kind: str = "gcc"
    plusplus: bool = False
    version: bytes | None = None
    assembler_digest: bytes | None = None
    reading: str = "compilation"
    detail: str | None = None

    def prints(self, files, executable, arguments, cwd, variables, moment):
        """The text, where the input is a regular file. Something else is asked for first."""
        files.exists(PREPROCESSED)
        try:
            files.read_at(join_path(cwd, arguments.input), 0, 0)
        except Refused as error:
            raise Refused("Fault" if error.name == "Fault" else "Failed") from None
        return self.text


class NotingFiles:
    """Files that count the calls on one path. Each call is made on the files that they hold, and a
    read gives as many bytes as there are and fit, or one of them."""

    def __init__(self, files, is_bytewise, path=PREPROCESSED, count=0):
        self.files = files
        self.is_bytewise = is_bytewise
        self.path = path
        self.count = count

    def note(self, path):
        """Counts a call on the path; the count stays at its greatest value."""
        if same_path(self.path, path):
            self.count = min(self.count + 1, 2**64 - 1)

    def metadata(self, path):
        """The same of the files."""
        self.note(path)
        return self.files.metadata(path)

    def read_at(self, path, offset, size):
        """The same of the files."""
        self.note(path)
        return self.files.read_at(path, offset, min(size, 1) if self.is_bytewise else size)

    def read_dir(self, path):
        """The same of the files."""
        self.note(path)
        return self.files.read_dir(path)

    def exists(self, path):
        """The same of the files."""
        self.note(path)
        return self.files.exists(path)

    def canonical(self, path):
        """The same of the files."""
        self.note(path)
        return self.files.canonical(path)


# ---- how results are written


def known(table, name):
    """What a name means in a table, which there must be."""
    if name not in table:
        raise WrongLine
    return table[name]


def words_text(words):
    """Words with a space before each. The empty word is `""`."""
    return b"".join(b" " + (word or b'""') for word in words)


def field(name, word):
    """A line of a name and a word, or no line where there is none."""
    return [] if word is None else [name.encode() + words_text([word])]


def outputs_of(arguments):
    """The outputs with their names, in the order of these."""
    return sorted(arguments.outputs.items())


def arguments_lines(arguments):
    """A line for each field of a command line, by the words that give them."""
    lines = field("input", arguments.input) + field("language", arguments.language)
    lines += field("compilation_flag", arguments.compilation_flag)
    lines += field("depfile", arguments.depfile)
    lines += field("too_hard", arguments.too_hard_for_preprocessor_cache_mode)
    for name, output in outputs_of(arguments):
        word = b"optional_output " if output.optional else b"output "
        lines.append(word + name + words_text([output.path]))
    for word, attribute in LISTS.items():
        lines.append(word.encode() + words_text(getattr(arguments, attribute)))
    lines += [word.encode() for word, attribute in FLAGS.items() if getattr(arguments, attribute)]
    return lines + [b"color " + arguments.color_mode.encode()]


def hasher_text(hasher):
    """All that a compilation says."""
    first = b"compilation " + hasher.executable + b" " + hasher.executable_digest
    return b"\n".join([first] + arguments_lines(hasher.arguments))


def result_text(result):
    """`fresh` or `stored` and the key, or the error."""
    if isinstance(result, Refused):
        return error_text(result)
    return (b"fresh " if result.is_fresh else b"stored ") + result.key


def debug_bytes(data):
    """Bytes as `Debug` prints a list of numbers."""
    return "[" + ", ".join(str(byte) for byte in data) + "]"


def debug_lists(lists):
    """Lists of bytes as `Debug` prints them."""
    return "[" + ", ".join(map(debug_bytes, lists)) + "]"


def debug_option(data):
    """Bytes or None, as `Debug` prints them."""
    return "None" if data is None else f"Some({debug_bytes(data)})"


def debug_text(text):
    """A text without special characters as `Debug` prints it."""
    return f'"{text}"'


def debug_flag(value):
    """A flag as `Debug` prints it."""
    return "true" if value else "false"


def debug_output(output):
    """`ArtifactDescriptor`, as `Debug` prints it."""
    path, optional = debug_bytes(output.path), debug_flag(output.optional)
    return f"ArtifactDescriptor {{ path: {path}, optional: {optional} }}"


def debug_outputs(arguments):
    """The outputs as `Debug` prints a map."""
    pairs = [
        f"{debug_text(name.decode())}: {debug_output(output)}"
        for name, output in outputs_of(arguments)
    ]
    return "{" + ", ".join(pairs) + "}"


def debug_value(arguments, name):
    """A field of a command line as `Debug` prints it."""
    value = getattr(arguments, name)
    if name == "language":
        return LANGUAGES[value]
    if name == "outputs":
        return debug_outputs(arguments)
    if name == "color_mode":
        return value
    if name in ("depfile", "too_hard_for_preprocessor_cache_mode"):
        return debug_option(value)
    if isinstance(value, bool):
        return debug_flag(value)
    return debug_bytes(value) if isinstance(value, bytes) else debug_lists(value)


# The fields of a command line, in the order of `Arguments` in `cck_compiler`.
FIELDS = [
    "input",
    "double_dash_input",
    "language",
    "compilation_flag",
    "depfile",
    "outputs",
    "dependency_args",
    "preprocessor_args",
    "common_args",
    "arch_args",
    "unhashed_args",
    "extra_dist_files",
    "extra_hash_files",
    "uses_external_assembler",
    "msvc_show_includes",
    "msvc_explicit_language",
    "profile_generate",
    "color_mode",
    "suppress_rewrite_includes_only",
    "too_hard_for_preprocessor_cache_mode",
]


def debug_arguments(arguments):
    """`ParsedArguments`, as `Debug` prints it."""
    fields = ", ".join(f"{name}: {debug_value(arguments, name)}" for name in FIELDS)
    return f"ParsedArguments {{ {fields} }}"


def debug_detail(detail):
    """A text or None, as `Debug` prints it."""
    return "None" if detail is None else f"Some({debug_text(detail)})"


# ---- calls for keys


def call_compile(subject, rest, made):
    """`compile`: `fresh` or `stored` and the key."""
    return result_text(subject.compile())


def call_toolchain(subject, rest, made):
    """`toolchain`: the key of the toolchain that a call for a key returns."""
    return subject.compile().toolchain_key


def call_compile_shown(subject, rest, made):
    """`compile_shown`: the result as `Debug` prints it."""
    try:
        result = subject.compile()
    except Refused as error:
        return f"Err({error.debug()})".encode()
    key, toolchain = result.key.decode(), result.toolchain_key.decode()
    fresh = debug_flag(result.is_fresh)
    fields = f'key: "{key}", weak_toolchain_key: "{toolchain}", is_locally_preprocessed: {fresh}'
    return f"Ok(HashResult {{ {fields} }})".encode()


def call_control(subject, rest, made):
    """`control`: whether a stored key may be returned."""
    return b"ForceRecache" if subject.recache else b"Default"


def call_preprocess(subject, rest, made):
    """`preprocess`: the text that the compiler prints."""
    return subject.compiler.prints(
        subject.noting(),
        subject.executable,
        subject.arguments,
        subject.cwd,
        subject.given.variables,
        subject.world.now,
    )


def call_preprocessed(subject, rest, made):
    """`preprocessed`: how many calls on the counted path there were."""
    return number(subject.count)


def call_call_each(subject, rest, made):
    """`call_each PATH`: each call on files once."""
    files = subject.noting()
    path = undo(rest)
    length = files.metadata(path).length
    read = len(files.read_at(path, 5, 4))
    try:
        files.read_dir(path)
        is_listed = True
    except Refused:
        is_listed = False
    stands = files.exists(path)
    is_canonical = files.canonical(path) == path
    return b" ".join([number(length), number(read), *map(flag, (is_listed, stands, is_canonical))])


def call_run_calls(subject, rest, made):
    """`run_calls`: a line for each call that `add_call` added."""
    results = run_calls(subject.list, subject.conditions(), subject.store)
    lines = [number(len(results)) + b" results"]
    for call, result in zip(subject.list, results):
        lines.append(result_text(result) + b", preprocessed " + number(call.files.count))
    return b"\n".join(lines)


# ---- compilers


def call_new_compiler(subject, rest, made):
    """`new_compiler`: the family of the compiler and the hex digest of its executable."""
    compiler = subject.compiler
    digest = executable_text(subject.world.files, subject.executable, compiler.version)
    return known(KINDS, compiler.kind) + b" " + digest


def parsed(subject):
    """The command line with further files, or the words for one that is no compilation to cache."""
    compiler = subject.compiler
    if compiler.reading == "cannot_cache":
        return f"cannot cache -E {debug_detail(compiler.detail)}".encode()
    if compiler.reading == "not_compilation":
        return b"no compilation"
    return with_extra_files(subject.arguments, subject.world.files, subject.given.variables)


def call_parse(subject, rest, made):
    """`parse`: all that the command line is parsed as."""
    arguments = parsed(subject)
    if isinstance(arguments, bytes):
        return arguments
    return hasher_text(dataclasses.replace(subject.hasher(), arguments=arguments))


def call_parsed_files(subject, rest, made):
    """`parsed_files`: the extra files of what the command line is parsed as."""
    arguments = parsed(subject)
    if isinstance(arguments, bytes):
        return arguments
    return b"files" + words_text(arguments.extra_hash_files)


def call_parsed_shown(subject, rest, made):
    """`parsed_shown`: what the compiler itself says of the command line, as `Debug` prints it."""
    compiler = subject.compiler
    if compiler.reading == "cannot_cache":
        return f'CannotCache("-E", {debug_detail(compiler.detail)})'.encode()
    if compiler.reading == "not_compilation":
        return b"NotCompilation"
    return f"Ok({debug_arguments(subject.arguments)})".encode()


def call_copy(subject, rest, made):
    """`copy`: all that a copy of the compilation says."""
    return hasher_text(subject.hasher())


def call_told(subject, rest, made):
    """`language_color_output`: the language, the color mode and the name of the output."""
    arguments = subject.arguments
    color = arguments.color_mode.encode()
    language = LANGUAGES[arguments.language].encode()
    return b" ".join([language, color, output_name(arguments)])


def call_archs(subject, rest, made):
    """`archs`: the architectures."""
    return b"archs" + words_text(archs(subject.arguments))


def call_is_multiarch(subject, rest, made):
    """`is_multiarch`: whether there are two architectures or more."""
    return flag(is_multiarch(subject.arguments))


def call_output_pretty(subject, rest, made):
    """`output_pretty`: the name of the output."""
    return output_name(subject.arguments)


# ---- errors

KEY_ERRORS = {
    "Memory": Refused("Memory"),
    "ExtraNotFound": Refused("Extra", Refused("File", Refused("NotFound"))),
    "ExtraTooDeep": Refused("Extra", Refused("TooDeep")),
    "InputOtherKind": Refused("Input", Refused("File", Refused("OtherKind"))),
    "InputFault": Refused("Input", Refused("File", Refused("Fault"))),
    "Store": Refused("Store"),
    "EntryUnknownFormat": Refused("Entry", Refused("UnknownFormat", 0x1F)),
    "EntryDeserialization": Refused("Entry", Refused("Deserialization")),
    "PreprocessFault": Refused("Preprocess", Refused("Fault")),
    "PreprocessFailed": Refused("Preprocess", Refused("Failed")),
    "Marker": Refused("Marker"),
}

KEY_ERROR_TEXTS = {
    "Memory": "out of memory",
    "Extra": "an extra file has no digest: ",
    "Input": "the input can't be read: ",
    "Store": "the store failed",
    "Entry": "what the store returned is no entry: ",
    "Preprocess": "there is no preprocessed text: ",
    "Marker": "a line marker is malformed",
}


def inner_text(outer, error):
    """What `Display` prints of an error inside an error of a call."""
    if error is None:
        return ""
    if outer == "Preprocess":
        return PREPROCESS_TEXTS[error.name]
    text_of = text_of_entry_error if outer == "Entry" else text_of_util_error
    return text_of(error.debug())


def call_key_error(subject, rest, made):
    """`key_error NAME`: the number, what `Debug` prints and what `Display` prints."""
    error = known(KEY_ERRORS, rest)
    text = KEY_ERROR_TEXTS[error.name] + inner_text(error.name, error.inner)
    return f"{number_of(error)} {error.debug()}: {text}".encode()


def call_preprocess_error(subject, rest, made):
    """`preprocess_error NAME`: what `Debug` and `Display` print."""
    return f"{rest}: {known(PREPROCESS_TEXTS, rest)}".encode()


def call_store_error(subject, rest, made):
    """`store_error NAME`: what `Debug` and `Display` print."""
    return f"{rest}: {known(STORE_TEXTS, rest)}".encode()


# ---- stores


def call_store_put(subject, rest, made):
    """`store_put KEY`: puts the bytes that lines made."""
    subject.store.put(rest.encode("latin-1"), made.made)
    return b"done"


def call_store_get(subject, rest, made):
    """`store_get KEY`: the bytes under a key."""
    return found(subject.store.get(rest.encode("latin-1")))


def call_held(subject, rest, made):
    """`held KEY`: the bytes that the store in memory holds under a key, which is no get."""
    return found(subject.map_store.held(rest.encode("latin-1")))


def call_holds(subject, rest, made):
    """`holds KEY`: whether the store in memory holds something under a key, which is no get."""
    return flag(subject.map_store.held(rest.encode("latin-1")) is not None)


def call_store_shown(subject, rest, made):
    """`store_shown`: what `Debug` prints of the store."""
    if isinstance(subject.store, EmptyStore):
        return f"EmptyStore {{ failures: {subject.store.failures} }}".encode()
    return store_text(subject.store)


def store_text(store):
    """What `Debug` prints of a store in memory."""
    pairs = ", ".join(
        f"{debug_text(key.decode())}: {debug_bytes(data)}"
        for key, data in sorted(store.pairs.items())
    )
    counts = f"failures: {store.failures}, forget: {store.forgetting}, {armed_text(store.armed)}"
    return f"MapStore {{ alloc: Global, pairs: {{{pairs}}}, {counts} }}".encode()


def armed_text(armed):
    """What `Debug` prints of the field of a store that says which of its calls fail."""
    counts = f"one: {armed.one}, onward: {armed.onward}, calls: {armed.calls}"
    return f"armed: ArmedCalls {{ {counts} }}"


def call_store_calls(subject, rest, made):
    """`store_calls`: how many gets and puts came on the store in memory."""
    return number(subject.map_store.armed.calls)


# ---- what lines give


class Subject(BaseSubject):
    """What lines gave, and the calls by their names."""

    CALLS = {
        "compile": call_compile,
        "toolchain": call_toolchain,
        "compile_shown": call_compile_shown,
        "control": call_control,
        "preprocess": call_preprocess,
        "preprocessed": call_preprocessed,
        "call_each": call_call_each,
        "run_calls": call_run_calls,
        "new_compiler": call_new_compiler,
        "parse": call_parse,
        "parsed_files": call_parsed_files,
        "parsed_shown": call_parsed_shown,
        "copy": call_copy,
        "language_color_output": call_told,
        "archs": call_archs,
        "is_multiarch": call_is_multiarch,
        "output_pretty": call_output_pretty,
        "key_error": call_key_error,
        "preprocess_error": call_preprocess_error,
        "store_error": call_store_error,
        "store_put": call_store_put,
        "store_get": call_store_get,
        "held": call_held,
        "holds": call_holds,
        "store_shown": call_store_shown,
        "store_calls": call_store_calls,
    }

    def __init__(self):
        self.given = Given()
        self.world = World()
        self.begin()

    def begin(self):
        """Nothing is given, but for what is at first."""
        self.given.begin()
        self.world.begin()
        self.compiler = FixedCompiler()
        self.arguments = Arguments(b"a.c")
        self.executable = b"/usr/bin/cc"
        self.cwd = b"/w"
        self.recache = False
        self.map_store = MapStore()
        self.store = self.map_store
        self.path = PREPROCESSED
        self.count = 0
        self.is_bytewise = False
        self.list = []

    def noting(self):
        """The files, with the calls on the counted path counted."""
        return Counted(self)

    def hasher(self):
        """The compilation."""
        return Hasher(self.compiler, self.executable, self.given.compiler, self.arguments)

    def conditions(self):
        """What calls are made under."""
        return Conditions(self.world.offset, self.world.config, self.given.basedirs)

    def call_over(self, files):
        """The call for a key over these files."""
        variables = self.given.variables
        return Call(self.hasher(), files, self.cwd, variables, self.world.now, self.recache)

    def compile(self):
        """The result of the call for a key over the files."""
        return generate_hash_key(self.call_over(self.noting()), self.conditions(), self.store)

    def add_call(self):
        """Adds a call over a copy of the files."""
        compiler = dataclasses.replace(self.compiler)
        call = self.call_over(NotingFiles(self.world.files.copy(), self.is_bytewise))
        call.hasher = dataclasses.replace(call.hasher, compiler=compiler)
        self.list.append(call)

    def give(self, word, rest):
        """Takes what a line gives."""
        return (
            self.give_arguments(word, rest)
            or self.give_compiler(word, rest)
            or self.give_call(word, rest)
            or self.give_store(word, rest)
            or self.world.give(word, rest)
            or self.given.give(word, rest)
        )

    def set_argument(self, name, value):
        """Gives a field of the command line, without a change of earlier ones."""
        self.arguments = dataclasses.replace(self.arguments, **{name: value})

    def give_arguments(self, word, rest):
        """Takes what a line gives of the command line."""
        if word in TEXTS:
            self.set_argument(TEXTS[word], undo(rest))
        elif word in LISTS:
            self.set_argument(LISTS[word], list_of(rest))
        elif word in FLAGS:
            self.set_argument(FLAGS[word], True)
        elif word in COLORS:
            self.set_argument("color_mode", COLORS[word])
        elif word == "language":
            self.set_argument("language", known_language(rest))
        elif word in ("output", "optional_output"):
            name, path = cut_words(rest, 1)
            output = Output(undo(path), word == "optional_output")
            outputs = {**self.arguments.outputs, name.encode("latin-1"): output}
            self.set_argument("outputs", outputs)
        else:
            return False
        return True

    def give_compiler(self, word, rest):
        """Takes what a line gives of the compiler."""
        if word == "printed":
            self.compiler.text = undo(rest)
        elif word == "kind":
            self.compiler.kind = rest
        elif word == "plusplus":
            self.compiler.plusplus = True
        elif word == "version":
            self.compiler.version = rest.encode("latin-1")
        elif word == "assembler":
            self.compiler.assembler_digest = rest.encode("latin-1")
        elif word in ("cannot_cache", "cannot_cache_for"):
            self.compiler.reading = "cannot_cache"
            self.compiler.detail = rest if word == "cannot_cache_for" else None
        elif word == "not_compilation":
            self.compiler.reading = "not_compilation"
        else:
            return False
        return True

    def give_call(self, word, rest):
        """Takes what a line gives of the call."""
        if word == "executable":
            self.executable = undo(rest)
        elif word == "cwd":
            self.cwd = undo(rest)
        elif word in ("recache", "any_key"):
            self.recache = word == "recache"
        elif word == "counted_path":
            self.path = undo(rest)
        elif word == "count":
            self.count = number_in(rest)
        elif word == "bytewise":
            self.is_bytewise = True
        elif word == "add_call":
            self.add_call()
        else:
            return False
        return True

    def give_store(self, word, rest):
        """Takes what a line gives of the store."""
        if word == "store_fail_at":
            self.map_store.fail_at(number_in(rest))
        elif word == "store_fail_after":
            self.map_store.fail_after(number_in(rest))
        elif word == "store_forget_at":
            self.map_store.forget_at(number_in(rest))
        elif word == "new_store":
            self.map_store = MapStore()
            self.store = self.map_store
        elif word == "empty_store":
            self.store = EmptyStore()
        else:
            return False
        return True


class Counted(NotingFiles):
    """The files of an adapter, whose count is the adapter's."""

    def __init__(self, subject):
        super().__init__(subject.world.files, subject.is_bytewise, subject.path, subject.count)
        self.subject = subject

    def note(self, path):
        """Counts a call on the path."""
        super().note(path)
        self.subject.count = self.count
