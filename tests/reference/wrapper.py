"""The compiler to run where the executable is a wrapper such as ccache."""
from .errors import Refused
from .paths import components, file_name, has_root, join_path, name_component
from .texts import first_value, lower_ascii

# `wrapper_names`.
WRAPPER_NAMES = {b"ccache", b"sccache"}


def is_program(name, program):
    """`is_program`: the name is the program's, or begins with it and a `.`, in any ASCII case."""
    lower = lower_ascii(name)
    return lower == program or lower.startswith(program + b".")


def is_wrapper_name(name):
    """`is_wrapper_name`: the name is that of one of the two wrappers."""
    return any(is_program(name, program) for program in WRAPPER_NAMES)


def leads_to_wrapper(files, path):
    """`leads_to_wrapper`: the canonical path has a wrapper's file name; without one it doesn't."""
    try:
        name = file_name(files.canonical(path))
    except Refused:
        return False
    return name is not None and is_wrapper_name(name)


def has_wrapper_component(path):
    """`has_wrapper_component`: a component is `ccache` or `sccache`, byte for byte."""
    return any(name_component(name) in components(path) for name in WRAPPER_NAMES)


def kept_parts(search_path):
    """`kept_parts`: the `:`-parts of a search path without those that have a wrapper's component."""
    return [part for part in search_path.split(b":") if not has_wrapper_component(part)]


def candidates(executable, variables):
    """`candidates`: the kept parts of the first `PATH`, each joined with the executable's file name."""
    name = file_name(executable)
    search_path = first_value(variables, b"PATH")
    if name is None or search_path is None:
        return []
    return [join_path(part, name) for part in kept_parts(search_path)]


def is_settled(files, executable):
    """`is_settled`: an absolute path that leads to no wrapper."""
    return has_root(executable) and not leads_to_wrapper(files, executable)


def is_compiler(files, path):
    """`is_compiler`: something is there, and it leads to no wrapper."""
    return files.exists(path) and not leads_to_wrapper(files, path)


def resolved(files, executable, variables):
    """`resolved`: the first candidate that is a compiler (`found`), or the executable."""
    if is_settled(files, executable):
        return executable
    for path in candidates(executable, variables):
        if is_compiler(files, path):
            return path
    return executable
