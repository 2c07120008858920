"""The key under which a store is asked before anything is preprocessed."""
import dataclasses

from .digests import digest_text, frame, framed_list, framed_option
from .key import CACHE_VERSION, INCLUDE_PATHS, OBJECT_VARIABLES, flag_byte, variable_frames, variables_named
from .recorded import recorded_digest

# `format_version`.
ENTRY_FORMAT = b"\x02"


@dataclasses.dataclass
class RequestParts:
    """`RequestParts`: what a request says for this key, and the digests of its extra files.

    The variables are all, and the directory is that of the call.
    """

    compiler_digest: bytes
    language: bytes
    preprocessor_args: list
    arch_args: list
    common_args: list
    extra_hashes: list
    assembler_digest: bytes | None
    variables: list
    input_file: bytes
    cwd: bytes
    plusplus: bool
    multiarch: bool


def hashed_directory(config, cwd):
    """`hashed_directory`: the working directory where the options have it enter the key, else None."""
    return cwd if config.hash_working_directory else None


def preprocessor_material(parts, config, input_digest):
    """`preprocessor_material`: the bytes whose hex digest is the preprocessor key."""
    variables = variables_named(OBJECT_VARIABLES | INCLUDE_PATHS, parts.variables)
    return b"".join(
        [
            ENTRY_FORMAT,
            frame(CACHE_VERSION),
            frame(parts.compiler_digest),
            flag_byte(parts.plusplus),
            frame(parts.language),
            flag_byte(parts.multiarch),
            framed_list(frame, parts.preprocessor_args),
            framed_list(frame, parts.arch_args),
            framed_list(frame, parts.common_args),
            framed_list(frame, parts.extra_hashes),
            framed_option(parts.assembler_digest),
            framed_list(variable_frames, variables),
            frame(parts.input_file),
            framed_option(hashed_directory(config, parts.cwd)),
            frame(input_digest),
        ]
    )


def preprocessor_key(parts, files, setting):
    """`preprocessor_key`: the hex digest of the key material, or None without a recorded digest."""
    input_digest = recorded_digest(files, parts.input_file, setting)
    if input_digest is None:
        return None
    return digest_text(preprocessor_material(parts, setting.config, input_digest))
