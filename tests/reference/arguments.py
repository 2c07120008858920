"""Parsed command lines, and the extra files that variables and HIP add to them."""
import dataclasses

from .errors import Refused, is_fault
from .files import sorted_names
from .paths import extension, file_name, join_path
from .texts import first_value, is_utf8, lossy

HIP = b"hip"
LIBRARIES_OF_A_RELEASE = b"amdgcn/bitcode"
DEFAULT_LIBRARIES = b"/opt/rocm/amdgcn/bitcode"


@dataclasses.dataclass
class Output:
    """`Output`: a file that a command line writes."""

    path: bytes
    optional: bool


@dataclasses.dataclass
class Arguments:
    """`Arguments`: a parsed command line. `outputs` is a dict from names such as `obj`."""

    input: bytes
    language: bytes = b"c"
    double_dash_input: bool = False
    compilation_flag: bytes = b""
    depfile: bytes | None = None
    outputs: dict = dataclasses.field(default_factory=dict)
    dependency_args: list = dataclasses.field(default_factory=list)
    preprocessor_args: list = dataclasses.field(default_factory=list)
    common_args: list = dataclasses.field(default_factory=list)
    arch_args: list = dataclasses.field(default_factory=list)
    unhashed_args: list = dataclasses.field(default_factory=list)
    extra_dist_files: list = dataclasses.field(default_factory=list)
    extra_hash_files: list = dataclasses.field(default_factory=list)
    uses_external_assembler: bool = False
    msvc_show_includes: bool = False
    msvc_explicit_language: bool = False
    profile_generate: bool = False
    color_mode: str = "Auto"
    suppress_rewrite_includes_only: bool = False
    too_hard_for_preprocessor_cache_mode: bytes | None = None


def archs(arguments):
    """`archs`: the words of `arch_args` other than `-arch`, each once, as they come first."""
    found = []
    for word in arguments.arch_args:
        if word != b"-arch" and word not in found:
            found.append(word)
    return found


def is_multiarch(arguments):
    """`is_multiarch`: two architectures or more."""
    return len(archs(arguments)) >= 2


def output_name(arguments):
    """`output_name`: the file name of the output `obj` as text, or `Unknown filename`."""
    output = arguments.outputs.get(b"obj")
    name = None if output is None else file_name(output.path)
    return b"Unknown filename" if name is None else lossy(name)


def named_files(variables):
    """What is between the colons of each variable `SCCACHE_EXTRAFILES`."""
    files = []
    for name, value in variables:
        if name == b"SCCACHE_EXTRAFILES":
            files += value.split(b":")
    return files


def is_hip(arguments):
    """`is_hip`: the language is HIP."""
    return arguments.language == HIP


def flag_value(arguments, flag):
    """What follows a flag in the first common argument that is UTF-8 and begins with it, or None."""
    for argument in arguments.common_args:
        if is_utf8(argument) and argument.startswith(flag):
            return argument[len(flag) :]
    return None


def text_value(variables, name):
    """The value of the first variable of this name whose value is UTF-8, or None."""
    return first_value([variable for variable in variables if is_utf8(variable[1])], name)


def flag_or_variable(arguments, flag, variables, name):
    """The value of the flag, else that of the variable, or None."""
    value = flag_value(arguments, flag)
    return text_value(variables, name) if value is None else value


def library_folder(arguments, variables):
    """The first directory of device libraries that an argument or a variable names."""
    name = b"HIP_DEVICE_LIB_PATH"
    folder = flag_or_variable(arguments, b"--hip-device-lib-path=", variables, name)
    if folder is not None:
        return folder
    release = flag_or_variable(arguments, b"--rocm-path=", variables, b"ROCM_PATH")
    if release is not None:
        return join_path(release, LIBRARIES_OF_A_RELEASE)
    return DEFAULT_LIBRARIES


def libraries(files, folder):
    """The children of a directory with the extension `bc`, in path order; none where it can't be listed.

    A fault is an error.
    """
    try:
        names = sorted_names(files, folder)
    except Refused as error:
        if is_fault(error):
            raise Refused("Extra", error) from None
        return []
    return [join_path(folder, name) for name in names if extension(name) == b"bc"]


def extra_files(arguments, files, variables):
    """`extra_files`: the extra files that the variables name, and for HIP the device libraries."""
    named = named_files(variables)
    if not is_hip(arguments):
        return named
    return named + libraries(files, library_folder(arguments, variables))


def with_extra_files(arguments, files, variables):
    """`with_extra_files`: the arguments with extra files after those that they have."""
    further = arguments.extra_hash_files + extra_files(arguments, files, variables)
    return dataclasses.replace(arguments, extra_hash_files=further)
