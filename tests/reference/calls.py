"""The call from a request to a key, and the list of such calls.

A compiler is an object with `version`, `plusplus` and `assembler_digest`, and with
`prints(files, executable, arguments, cwd, variables, moment)`: the text that its preprocessor prints,
or an error `Fault` or `Failed`.
"""
import dataclasses

from .arguments import is_multiarch
from .digests import digest_text
from .entry import add_result, entry_bytes, find, read_entry
from .errors import Refused
from .files import hash_all, read_contents, text_at
from .key import Params, needs_preprocessing, object_key
from .paths import join_path
from .preprocessor_key import RequestParts, preprocessor_key
from .recorded import Config, Setting, activated
from .texts import first_value, lossy, lower_ascii
from .walk import Context, walk

# `number_of`.
NUMBERS = {
    "Memory": 1,
    "Extra": 2,
    "Input": 3,
    "Store": 4,
    "Entry": 5,
    "Preprocess": 6,
    "Marker": 7,
}
OFF_WORDS = {b"false", b"off", b"0"}


@dataclasses.dataclass
class Hasher:
    """A compiler, its executable's path and digest, and what it made of a command line."""

    compiler: object
    executable: bytes
    executable_digest: bytes
    arguments: object


@dataclasses.dataclass
class Conditions:
    """What calls are made under: the zone, the options and the base directories."""

    zone: int
    config: Config
    basedirs: list


@dataclasses.dataclass
class Call:
    """`Call`: what is asked for, and what it is asked over. `recache`: no stored key may be returned."""

    hasher: Hasher
    files: object
    cwd: bytes
    variables: list
    moment: int
    recache: bool


@dataclasses.dataclass
class CallResult:
    """`CallResult`: a key, whether it was computed, and the key of the toolchain."""

    key: bytes
    is_fresh: bool
    toolchain_key: bytes


def number_of(error):
    """`number_of`: the number of an error of a call."""
    return NUMBERS[error.name]


def executable_text(files, executable, version):
    """`executable_text`: the hex digest of an executable, or of that and the compiler's version."""
    text = text_at(files, executable)
    return text if version is None else digest_text(text + version)


def toolchain_key(hasher):
    """`toolchain_key`: the executable's path as text, a `-` and its digest."""
    return lossy(hasher.executable) + b"-" + hasher.executable_digest


def input_path(call):
    """The input as it is seen from the working directory, not normalised."""
    return join_path(call.cwd, call.hasher.arguments.input)


def is_switched_off(variables):
    """The first variable `SCCACHE_DIRECT` is `false`, `off` or `0`, in any ASCII case."""
    value = first_value(variables, b"SCCACHE_DIRECT")
    return value is not None and lower_ascii(value) in OFF_WORDS


def uses_preprocessor_cache(call, conditions):
    """Whether the store may be asked and filled for this call, if there is a key to do it under."""
    arguments = call.hasher.arguments
    return (
        needs_preprocessing(arguments.language)
        and conditions.config.use_preprocessor_cache_mode
        and arguments.too_hard_for_preprocessor_cache_mode is None
        and not is_switched_off(call.variables)
    )


def refused_as(name, function, *arguments):
    """What a function returns, with its error as that of a call, which has this name."""
    try:
        return function(*arguments)
    except Refused as error:
        raise Refused(name, error.inner if error.name == "Io" else error) from None


def setting_of(call, conditions):
    """How files are judged in a call."""
    return Setting(call.moment, conditions.zone, call.variables, conditions.config)


def assembler_digest_of(call):
    """The digest of the assembler, if it is called as a program of its own and there is one."""
    if not call.hasher.arguments.uses_external_assembler:
        return None
    return call.hasher.compiler.assembler_digest


def preprocessor_key_of(call, conditions, extra_hashes):
    """`preprocessor_key_of`: the key that a store is asked under, or None."""
    if not uses_preprocessor_cache(call, conditions):
        return None
    arguments = call.hasher.arguments
    parts = RequestParts(
        compiler_digest=call.hasher.executable_digest,
        language=arguments.language,
        preprocessor_args=arguments.preprocessor_args,
        arch_args=arguments.arch_args,
        common_args=arguments.common_args,
        extra_hashes=extra_hashes,
        assembler_digest=assembler_digest_of(call),
        variables=call.variables,
        input_file=input_path(call),
        cwd=call.cwd,
        plusplus=call.hasher.compiler.plusplus,
        multiarch=is_multiarch(arguments),
    )
    setting = setting_of(call, conditions)
    return refused_as("Input", preprocessor_key, parts, call.files, setting)


def stored_key(call, conditions, store, key):
    """The key that the store's entry gives a call, or None (`found`, of what `ReadsAs` reads)."""
    try:
        held = store.get(key)
    except Refused:
        raise Refused("Store") from None
    if held is None:
        return None
    try:
        entry = read_entry(held)
    except Refused as error:
        raise Refused("Entry", error) from None
    return find(entry, call.files, setting_of(call, conditions))


def text_of(call):
    """`text_of`: what is `printed` on the call's files, or the input where nothing needs preprocessing."""
    hasher = call.hasher
    if not needs_preprocessing(hasher.arguments.language):
        return refused_as("Input", read_contents, call.files, input_path(call))
    return refused_as(
        "Preprocess",
        hasher.compiler.prints,
        call.files,
        hasher.executable,
        hasher.arguments,
        call.cwd,
        call.variables,
        call.moment,
    )


def recorded_of(call, conditions, text):
    """The files that the text names, with their recorded digests; None where the text is refused."""
    context = Context(call.files, input_path(call), call.cwd, setting_of(call, conditions))
    return walk(context, text)


def plain_key(call, conditions, extra_hashes, text):
    """`plain_key`: the object key of the text of a call."""
    arguments = call.hasher.arguments
    return object_key(
        Params(
            compiler_digest=call.hasher.executable_digest,
            language=arguments.language,
            arguments=arguments.common_args + arguments.arch_args,
            text=text,
            extra_hashes=extra_hashes,
            variables=call.variables,
            plusplus=call.hasher.compiler.plusplus,
            basedirs=conditions.basedirs,
            assembler_digest=assembler_digest_of(call),
        )
    )


def put_result(call, store, asked_under, key, recorded):
    """`OwnPair`: puts the entry of this one result. What fails here changes nothing in the result."""
    named = [(digest, path) for path, digest in recorded]
    try:
        entry = add_result({}, call.files, call.moment, key, named)
        store.put(asked_under, entry_bytes(entry))
    except Refused:
        pass


def generate_hash_key(call, conditions, store):
    """`Step`: the result of one call, and what it leaves in the store."""
    extra_hashes = refused_as("Extra", hash_all, call.files, call.hasher.arguments.extra_hash_files)
    asked_under = preprocessor_key_of(call, conditions, extra_hashes)
    if asked_under is not None and not call.recache:
        key = stored_key(call, conditions, store, asked_under)
        if key is not None:
            return CallResult(key, False, toolchain_key(call.hasher))
    text = text_of(call)
    recorded = [] if asked_under is None else recorded_of(call, conditions, text)
    key = plain_key(call, conditions, extra_hashes, text)
    if recorded:
        put_result(call, store, asked_under, key, recorded)
    return CallResult(key, True, toolchain_key(call.hasher))


def run_calls(calls, conditions, store):
    """`Run`: one `CallResult` or error for each call, in order, each on the store that the one before left."""
    call_results = []
    for call in calls:
        try:
            call_results.append(generate_hash_key(call, conditions, store))
        except Refused as error:
            call_results.append(error)
    return call_results
