"""The key of an object."""
import dataclasses

from .digests import digest_text, frame, framed_list, framed_option
from .errors import Refused
from .formats import names_after
from .strip import stripped_arguments, stripped_text

CACHE_VERSION = b"14"

# `language_name` and `is_preprocessed_first`: the variant, its name, and whether the preprocessor
# goes over it first.
LANGUAGES = [
    ("Assembler", b"assembler", False),
    ("AssemblerToPreprocess", b"assemblerToPreprocess", True),
    ("C", b"c", True),
    ("CHeader", b"cHeader", True),
    ("CPreprocessed", b"cPreprocessed", False),
    ("Cxx", b"c++", True),
    ("CxxHeader", b"c++Header", True),
    ("CxxPreprocessed", b"c++Preprocessed", False),
    ("GenericHeader", b"c/c++", True),
    ("ObjectiveC", b"objc", True),
    ("ObjectiveCPreprocessed", b"objcPreprocessed", False),
    ("ObjectiveCxx", b"objc++", True),
    ("ObjectiveCxxPreprocessed", b"objc++Preprocessed", False),
    ("Cuda", b"cuda", True),
    ("Hip", b"hip", True),
]

# `object_variable_names` and `include_path_names`, in any order.
OBJECT_VARIABLES = names_after("The object variables are, by exactly these names")
INCLUDE_PATHS = names_after("and by exactly these names")


@dataclasses.dataclass
class Params:
    """`Params`: what a caller passes for a key; `plain_params` where nothing more is set."""

    compiler_digest: bytes
    language: bytes
    arguments: list
    text: bytes
    extra_hashes: list = dataclasses.field(default_factory=list)
    variables: list = dataclasses.field(default_factory=list)
    plusplus: bool = False
    basedirs: list = dataclasses.field(default_factory=list)
    assembler_digest: bytes | None = None


def language_of(name):
    """`NamesLanguage`: the name, if a language has exactly this one, else an error."""
    for _, known, _ in LANGUAGES:
        if known == name:
            return known
    raise Refused("UnknownLanguage")


def needs_preprocessing(language):
    """`is_preprocessed_first`: whether the preprocessor goes over the language of this name first."""
    return any(known == language and first for _, known, first in LANGUAGES)


def variables_named(names, variables):
    """`variables_named`: the variables that have one of these names, in their order."""
    return [variable for variable in variables if variable[0] in names]


def flag_byte(flag):
    """`flag_byte`: 1 for true and 0 for false."""
    return b"\x01" if flag else b"\x00"


def variable_frames(variable):
    """`variable_frames`: a frame of the name and one of the value."""
    name, value = variable
    return frame(name) + frame(value)


def key_material(params):
    """`material` of `key_parts`: the bytes whose hex digest is the key of an object."""
    return b"".join(
        [
            frame(CACHE_VERSION),
            frame(params.compiler_digest),
            flag_byte(params.plusplus),
            frame(params.language),
            framed_list(frame, stripped_arguments(params.arguments, params.basedirs)),
            framed_list(frame, params.extra_hashes),
            framed_option(params.assembler_digest),
            framed_list(variable_frames, variables_named(OBJECT_VARIABLES, params.variables)),
            frame(stripped_text(params.text, params.basedirs)),
        ]
    )


def object_key(params):
    """`object_key`: the hex digest of the key material."""
    return digest_text(key_material(params))
