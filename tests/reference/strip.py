"""Base directories cut out of preprocessed texts and of arguments."""

BEFORE_A_PATH = b' \t\n\f\r"<'
LETTERS = b"abcdefghijklmnopqrstuvwxyzABCDEFGHIJKLMNOPQRSTUVWXYZ"
FLAG_BYTES = LETTERS + b"0123456789-_:"


def is_boundary(text, at):
    """`is_boundary`: the start of the text, or directly after a byte of `is_separator`."""
    return at == 0 or text[at - 1] in BEFORE_A_PATH


def longest_prefix(text, at, basedirs):
    """`longest_prefix`: the length of the longest base directory that is at this place, or 0."""
    return max((len(basedir) for basedir in basedirs if text.startswith(basedir, at)), default=0)


def text_site(text, at, basedirs):
    """`text_site`: at a boundary the length of the longest base directory that is there, else 0."""
    if not is_boundary(text, at):
        return 0
    return longest_prefix(text, at, basedirs)


def without_sites(text, site):
    """`stripped`: the text without its cuts, where `site(at)` is the length of the site at a place.

    From left to right each site is cut that doesn't start inside a cut.
    """
    kept = bytearray()
    at = 0
    while at < len(text):
        length = site(at)
        if length > 0:
            at += length
        else:
            kept.append(text[at])
            at += 1
    return bytes(kept)


def stripped_text(text, basedirs):
    """`stripped_text`: a text without its base directories."""
    if not any(basedirs):
        return text
    return without_sites(text, lambda at: text_site(text, at, basedirs))


def flag_end(argument):
    """`flag_end`: where the bytes of an argument's flag end, the first byte being part of it."""
    end = 1
    while end < len(argument) and argument[end] in FLAG_BYTES:
        end += 1
    return end


def glued_position(argument):
    """`glued_position`: where a path may be directly after a flag, or None."""
    if argument[:1] not in {b"-", b"/"}:
        return None
    end = flag_end(argument)
    if end >= 4 and argument[end - 2] in LETTERS and argument[end - 1] == ord(":"):
        if argument[end : end + 1] in {b"/", b"\\"}:
            return end - 2
    if argument[:1] == b"-":
        return end
    return None


def positions(argument):
    """`positions`: the places of an argument where a path may begin, ascending, each once."""
    places = {0}
    glued = glued_position(argument)
    if glued is not None:
        places.add(glued)
    for at, byte in enumerate(argument):
        if byte == ord("="):
            places.add(at + 1)
    return sorted(place for place in places if place < len(argument))


def matched(text, basedir):
    """`matched`: how many bytes a base directory matches where this text begins; of an empty one 0."""
    if basedir.endswith(b"/"):
        if text.startswith(basedir):
            return len(basedir)
        short = basedir[:-1]
        if text.startswith(short) and text[len(short) : len(short) + 1] in {b"", b"="}:
            return len(short)
        return 0
    if text.startswith(basedir) and text[len(basedir) : len(basedir) + 1] in {b"", b"=", b"/"}:
        return len(basedir)
    return 0


def best_match(text, basedirs):
    """`best_match`: what the first of the longest base directories that match matches, or 0."""
    matching = [basedir for basedir in basedirs if matched(text, basedir) > 0]
    if not matching:
        return 0
    greatest = max(len(basedir) for basedir in matching)
    first = next(basedir for basedir in matching if len(basedir) == greatest)
    return matched(text, first)


def argument_site(argument, at, basedirs):
    """`argument_site`: at a position the number of bytes that match there, else 0."""
    if at not in positions(argument):
        return 0
    return best_match(argument[at:], basedirs)


def stripped_argument(argument, basedirs):
    """`stripped_argument`: an argument without its base directories."""
    if not any(basedirs):
        return argument
    return without_sites(argument, lambda at: argument_site(argument, at, basedirs))


def stripped_arguments(arguments, basedirs):
    """`stripped_argument` of each argument in turn."""
    return [stripped_argument(argument, basedirs) for argument in arguments]


def arguments_bytes(arguments, basedirs):
    """`argument_bytes` of each argument in turn: the argument without its base directories, and ff."""
    return b"".join(argument + b"\xff" for argument in stripped_arguments(arguments, basedirs))
