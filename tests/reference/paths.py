"""Paths: lists of components, and how they are written.

A component is a tuple, so that the order of tuples is the order of components: the root, `.`, `..`,
and then names by their bytes.
"""

ROOT = (0,)
CURRENT = (1,)
PARENT = (2,)


def name_component(name):
    """The component that is this name."""
    return (3, name)


def is_name(component):
    """Whether a component is a name, and not the root, `.` or `..`."""
    return component[0] == 3


def components(path):
    """`components`: the components of a path as a tuple. Two paths are equal if these are."""
    return tuple(beginning(path) + inner_components(path))


def beginning(path):
    """`beginning`: the root where a path begins with `/`, `.` where that is its first part."""
    if path.startswith(b"/"):
        return [ROOT]
    if path.split(b"/")[0] == b".":
        return [CURRENT]
    return []


def inner_components(path):
    """`inner_components`: one for each part between the slashes that is neither empty nor `.`."""
    parts = [part for part in path.split(b"/") if part not in {b"", b"."}]
    return [PARENT if part == b".." else name_component(part) for part in parts]


def has_root(path):
    """`has_root`: the path begins at the root."""
    return path.startswith(b"/")


def same_path(a, b):
    """Whether two paths are equal: by their components."""
    return components(a) == components(b)


def compare_paths(a, b):
    """`path_cmp`: -1, 0 or 1, as the first path is before the second, equal or after it."""
    return (components(a) > components(b)) - (components(a) < components(b))


def file_name(path):
    """`file_name_of`: the last component if it is a name, else None."""
    parts = components(path)
    if parts and is_name(parts[-1]):
        return parts[-1][1]
    return None


def extension(path):
    """`extension_of`: what follows the last `.` of the file name, if that isn't its first byte."""
    name = file_name(path)
    if name is None or name.rfind(b".") <= 0:
        return None
    return name[name.rfind(b".") + 1 :]


def join_path(base, path):
    """`join_path`: the second path as it is seen from the first one."""
    if has_root(path) or base == b"":
        return path
    if base.endswith(b"/"):
        return base + path
    return base + b"/" + path


def leading_names(path):
    """`leading_names`: the names that lead to the path's place, `..` taking the last one away."""
    names = []
    for component in components(path):
        if is_name(component):
            names.append(component[1])
        elif component == PARENT and names:
            names.pop()
    return names


def normalize_path(path):
    """`normal`, as it is written: the root, if the path has it, and the names that lead there."""
    root = b"/" if has_root(path) else b""
    return root + b"/".join(leading_names(path))


def normalize_win_path(path):
    """Each character in lower case, what is no UTF-8 as it is, and `/` for `\\` (`win_byte`)."""
    text = path.decode(errors="surrogateescape")
    lower = "".join(character.lower() for character in text)
    return lower.replace("\\", "/").encode(errors="surrogateescape")
