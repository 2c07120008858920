"""The calls of `value_cases` of `cck_vectors`: bytes, paths, texts, times, digests, readers and keys."""
from .. import digests, key, paths, strip, texts, times
from ..cases import (
    BaseSubject,
    WrongLine,
    cut,
    cut_words,
    flag,
    found,
    list_of,
    moment,
    number,
    number_of,
    numbers,
    order,
    time_of,
    undo,
)
from ..error_texts import FILE_TEXTS, text_of_util_error
from ..errors import Refused
from ..given import Given
from ..recorded import found_macros

# How many bytes are asked of a reader at once.
HASH_BUFFER_SIZE = 131072

# How many of the last bytes of a stream the state of a finder has.
TAIL_LENGTH = 12

class Streams:
    """What a reader and a writer do: `reader STEP PASSING KIND` and `writer PASSING`."""

    def __init__(self):
        self.begin()

    def begin(self):
        """Nothing fails, and a reader gives as much as it is asked for."""
        self.step = HASH_BUFFER_SIZE
        self.reads = None
        self.writes = None

    def give(self, word, rest):
        """Takes what a line gives, and returns whether it knows the line's word."""
        if word == "reader":
            step, reads, kind = cut_words(rest, 2)
            if kind not in ("interrupted", "other"):
                raise WrongLine
            self.step, self.reads = number_of(step), number_of(reads)
        elif word == "writer":
            self.writes = number_of(rest)
        else:
            return False
        return True

    def read(self, data):
        """The pieces that are read before the end or an error, and whether the end was reached."""
        step = min(self.step, HASH_BUFFER_SIZE)
        pieces = [data[at : at + step] for at in range(0, len(data), step)]
        if self.reads is not None and self.reads <= len(pieces):
            return pieces[: self.reads], False
        return pieces, True

    def read_all(self, data):
        """The pieces that are read up to the end; an error where a read fails before it."""
        pieces, is_ended = self.read(data)
        if not is_ended:
            raise Refused("Read")
        return pieces

    def write(self, pieces):
        """The bytes of pieces that are written one by one; an error where a write fails."""
        count = sum(piece != b"" for piece in pieces)
        if self.writes is not None and self.writes < count:
            raise Refused("Write")
        return b"".join(pieces)


# ---- digests and readers


def fed(feeding):
    """A call that gives the hex digest of `base` and of what it feeds."""

    def call(subject, rest, made):
        return digests.digest_text(subject.given.base + feeding(subject, made.text(rest)))

    return call


def fed_arguments(subject, data):
    """The arguments without their base directories."""
    return strip.arguments_bytes(subject.given.arguments, subject.given.basedirs)


def fed_text_list(subject, data):
    """A list of frames of the extra hashes."""
    return digests.framed_list(digests.frame, subject.given.extra_hashes)


def framed_variables(subject, names):
    """A list of frames of the names and values of the variables that have one of these names."""
    return digests.framed_list(key.variable_frames, key.variables_named(names, subject.given.variables))


def fed_variable_list(subject, data):
    """The variables whose names are the arguments."""
    return framed_variables(subject, subject.given.arguments)


def fed_request_variables(subject, data):
    """The variables that are in the key of a request."""
    return framed_variables(subject, key.OBJECT_VARIABLES | key.INCLUDE_PATHS)


def call_taken(subject, rest, made):
    """`taken_by_read_to_end TEXT`: what a sink has after the read, which may have failed."""
    return subject.given.base + b"".join(subject.streams.read(made.text(rest))[0])


def call_read_to_end(subject, rest, made):
    """`read_to_end TEXT`: `base`, and all that is read."""
    return subject.given.base + b"".join(subject.streams.read_all(made.text(rest)))


def call_reader_sync(subject, rest, made):
    """`reader_sync TEXT`: the hex digest of all that is read."""
    return digests.digest_text(b"".join(subject.streams.read_all(made.text(rest))))


def call_reader_sync_with(subject, rest, made):
    """`reader_sync_with TEXT`: each piece and a `|`, and then the hex digest."""
    pieces = subject.streams.read_all(made.text(rest))
    shown = b"".join(piece + b"|" for piece in pieces)
    return shown + digests.digest_text(b"".join(pieces))


def call_lengths_of_pieces(subject, rest, made):
    """`lengths_of_pieces TEXT`: how long the pieces are that are read."""
    return numbers(len(piece) for piece in subject.streams.read_all(made.text(rest)))


def macros(text):
    """The macros of time that a text has."""
    names = (b"time", b"date", b"timestamp")
    present = [name for name, is_found in zip(names, found_macros(text)) if is_found]
    return b"+".join(present) or b"none"


def call_reader_sync_time_macros(subject, rest, made):
    """`reader_sync_time_macros TEXT`: the macros, and the hex digest."""
    text = b"".join(subject.streams.read_all(made.text(rest)))
    return macros(text) + b" " + digests.digest_text(text)


def call_resume_tail(subject, rest, made):
    """`resume_tail TEXT`: the tail of a finder with this one, or none if it is too long."""
    tail = made.text(rest)
    return found(tail if len(tail) <= TAIL_LENGTH else None)


DIGEST_CALLS = {
    "hex_digits": lambda subject, rest, made: digests.hex_text(made.text(rest)),
    "hash_buffer_size": lambda subject, rest, made: number(HASH_BUFFER_SIZE),
    "state": lambda subject, rest, made: digests.digest_text(b"".join(subject.pieces)),
    "digest": fed(lambda subject, data: data),
    "digest_of_pieces": fed(lambda subject, data: b"".join(subject.pieces)),
    "delimiter": fed(lambda subject, data: digests.delimiter(data)),
    "hash_length": fed(lambda subject, data: digests.length_bytes(len(data))),
    "hash_len_prefixed": fed(lambda subject, data: digests.frame(data)),
    "hash_text_list": fed(fed_text_list),
    "hash_option": fed(lambda subject, data: digests.framed_option(subject.given.assembler)),
    "hash_variable_list": fed(fed_variable_list),
    "hash_arguments": fed(fed_arguments),
    "hash_request_variables": fed(fed_request_variables),
    "read_all": lambda subject, rest, made: b"".join(subject.streams.read_all(made.text(rest))),
    "read_to_end": call_read_to_end,
    "taken_by_read_to_end": call_taken,
    "reader_sync": call_reader_sync,
    "reader_sync_with": call_reader_sync_with,
    "lengths_of_pieces": call_lengths_of_pieces,
    "reader_sync_time_macros": call_reader_sync_time_macros,
    "find_in_pieces": lambda subject, rest, made: macros(b"".join(subject.pieces)),
    "find_resumed": lambda subject, rest, made: macros(b"".join(subject.pieces)),
    "resume_tail": call_resume_tail,
    "find_in_reader": lambda subject, rest, made: macros(made.text(rest)),
    "find_at_each_cut": lambda subject, rest, made: macros(made.text(rest)),
}

# ---- base directories


def call_strip(subject, rest, made):
    """`strip TEXT`: what remains of a text."""
    text = made.text(rest)
    return cut(text, strip.stripped_text(text, subject.given.basedirs))


def call_strip_argument(subject, rest, made):
    """`strip_argument TEXT`: what remains of an argument."""
    argument = made.text(rest)
    return cut(argument, strip.stripped_argument(argument, subject.given.basedirs))


def call_longest_at(subject, rest, made):
    """`longest_at TEXT`: the longest base directory at each place of a text, and at its end."""
    text, basedirs = made.text(rest), subject.given.basedirs
    return numbers(strip.longest_prefix(text, at, basedirs) for at in range(len(text) + 1))


def basedirs_with(rest):
    """`basedirs_with N FIRST LETTER`: the text FIRST, and after it no LETTER, one, and so on."""
    count, first, letter = cut_words(rest, 2)
    return [undo(first) + undo(letter) * at for at in range(number_of(count))]


def short_texts(letters):
    """Each text of up to six of four letters, the first letter changing first."""
    for length in range(7):
        for count in range(4**length):
            yield bytes(letters[count // 4**at % 4] for at in range(length))


def call_strip_count_of(subject, rest, made):
    """`strip_count_of LETTERS`: how many texts of up to seven of the letters there are.

    The program counts those that two bodies strip alike.
    """
    return number(sum(len(made.text(rest)) ** length for length in range(8)))


def all_of(result):
    """A call that gives the hex digest of the results on all short texts of its letters."""

    def call(subject, rest, made):
        basedirs = subject.given.basedirs
        lines = [result(text, basedirs) + b"\n" for text in short_texts(made.text(rest))]
        return digests.digest_text(b"".join(lines))

    return call


def text_line(text, basedirs):
    """The result on a text."""
    return cut(text, strip.stripped_text(text, basedirs))


def argument_line(argument, basedirs):
    """The result on an argument, and its positions, with a space before each."""
    places = b"".join(b" " + number(at) for at in strip.positions(argument))
    return cut(argument, strip.stripped_argument(argument, basedirs)) + places


STRIP_CALLS = {
    "strip": call_strip,
    "longest_at": call_longest_at,
    "strip_argument": call_strip_argument,
    "positions": lambda subject, rest, made: numbers(strip.positions(made.text(rest))),
    "strip_all_of": all_of(text_line),
    "strip_count_of": call_strip_count_of,
    "strip_all_arguments_of": all_of(argument_line),
}

# ---- paths

COMPONENT_TEXTS = {paths.ROOT: b"/", paths.CURRENT: b".", paths.PARENT: b".."}


def call_components(subject, rest, made):
    """`components PATH`: the components, with a space between each two."""
    parts = paths.components(made.text(rest))
    return b" ".join(COMPONENT_TEXTS.get(part) or part[1] for part in parts)


def of_base(function, written=lambda result: result):
    """A call of `base` and of the line's text."""
    return lambda subject, rest, made: written(function(subject.given.base, made.text(rest)))


def of_text(function, written=lambda result: result):
    """A call of the line's text."""
    return lambda subject, rest, made: written(function(made.text(rest)))


PATH_CALLS = {
    "components": call_components,
    "compare_paths": of_base(paths.compare_paths, order),
    "same_path": of_base(paths.same_path, flag),
    "is_absolute": of_text(paths.has_root, flag),
    "file_name": of_text(paths.file_name, found),
    "extension": of_text(paths.extension, found),
    "join_path": of_base(paths.join_path),
    "normalize_path": of_text(paths.normalize_path),
    "normalize_win_path": of_text(paths.normalize_win_path),
    "encode_path": lambda subject, rest, made: subject.streams.write([made.text(rest)]),
    "decode_path": of_text(lambda data: data),
}

# ---- texts and times


def call_unescape(subject, rest, made):
    """`unescape TEXT`: two digits for each byte, with a space between each two bytes."""
    return texts.unescape(rest.encode("latin-1")).hex(" ").encode()


def call_duration(subject, rest, made):
    """`duration SECONDS NANOSECONDS`."""
    return texts.seconds_text(nanos_of_parts(rest))


def call_length_prefixed(subject, rest, made):
    """`length_prefixed TEXT`: the length is one write, and the bytes are another one."""
    data = made.text(rest)
    prefixed = texts.prefixed_bytes(data)
    return subject.streams.write([prefixed[: len(prefixed) - len(data)], data])


def call_length_prefixed_is_flushed(subject, rest, made):
    """`length_prefixed_is_flushed TEXT`: the bytes go through to where the writer keeps them."""
    call_length_prefixed(subject, rest, made)
    return flag(True)


def call_first_value(subject, rest, made):
    """`first_value NAME`."""
    return found(texts.first_value(subject.given.variables, made.text(rest)))


def nanos_of_parts(rest):
    """The nanoseconds of `SECONDS NANOSECONDS`."""
    seconds, nanoseconds = (number_of(word) for word in cut_words(rest, 1))
    if not 0 <= nanoseconds < times.NANOS:
        raise WrongLine
    return seconds * times.NANOS + nanoseconds


def call_moment_of_nanos(subject, rest, made):
    """`moment_of_nanos NANOSECONDS`."""
    nanos = number_of(rest)
    return b"%ds+%dns" % (times.seconds_of(nanos), times.nanoseconds_of(nanos))


def call_compare_moments(subject, rest, made):
    """`compare_moments NANOSECONDS NANOSECONDS`."""
    a, b = (number_of(word) for word in cut_words(rest, 1))
    return order((a > b) - (a < b))


TEXT_CALLS = {
    "starts_with": of_base(texts.starts_with, flag),
    "split_prefix": of_base(texts.split_prefix, found),
    "unescape": call_unescape,
    "duration": call_duration,
    "length_prefixed": call_length_prefixed,
    "length_prefixed_is_flushed": call_length_prefixed_is_flushed,
    "first_value": call_first_value,
    "moment_of_parts": lambda subject, rest, made: moment(nanos_of_parts(rest)),
    "moment_of_nanos": call_moment_of_nanos,
    "fits_nanos": lambda subject, rest, made: flag(times.fits_nanos(number_of(rest))),
    "compare_moments": call_compare_moments,
    "ctime_or_creation": lambda subject, rest, made: moment(time_of(rest)),
}

# ---- errors


def named(text_of):
    """A call that gives the text of the error of this name."""

    def call(subject, rest, made):
        try:
            return text_of(rest).encode()
        except KeyError:
            raise WrongLine from None

    return call


def util_error_of(name):
    """The name of the `UtilError` that a `FileError` becomes."""
    return name if name == "Memory" else f"File({name})"

ERROR_CALLS = {
    "util_error_text": named(text_of_util_error),
    "util_error_debug": named(lambda name: name),
    "file_error_text": named(FILE_TEXTS.__getitem__),
    "util_error_of_file_error": named(util_error_of),
    "unknown_language_text": lambda subject, rest, made: b"no language has this name",
}

# ---- keys


def call_key(subject, rest, made):
    """`key TEXT`: the key of an object, over what was given."""
    given = subject.given
    return key.object_key(
        key.Params(
            compiler_digest=given.compiler,
            language=given.language,
            arguments=given.arguments,
            text=made.text(rest),
            extra_hashes=given.extra_hashes,
            variables=given.variables,
            plusplus=given.plusplus,
            basedirs=given.basedirs,
            assembler_digest=given.assembler,
        )
    )


def call_all_languages(subject, rest, made):
    """`all_languages`: the variant and the name of each language, a line each."""
    return b"\n".join(variant.encode() + b" " + name for variant, name, _ in key.LANGUAGES)


def is_preprocessed_first(name):
    """Whether the preprocessor goes over the language of this name first."""
    return key.needs_preprocessing(key.language_of(name))


KEY_CALLS = {
    "all_languages": call_all_languages,
    "language_of": of_text(key.language_of),
    "needs_c_preprocessing": of_text(is_preprocessed_first, flag),
    "cache_version": lambda subject, rest, made: key.CACHE_VERSION,
    "key": call_key,
}


class Subject(BaseSubject):
    """What lines gave, and the calls by their names."""

    CALLS = DIGEST_CALLS | STRIP_CALLS | PATH_CALLS | TEXT_CALLS | ERROR_CALLS | KEY_CALLS

    def __init__(self):
        self.given = Given()
        self.streams = Streams()
        self.pieces = []

    def begin(self):
        """Forgets all that was given."""
        self.given.begin()
        self.streams.begin()
        self.pieces = []

    def give(self, word, rest):
        """Takes what a line gives."""
        if word == "pieces":
            self.pieces = list_of(rest)
            return True
        if word == "basedirs_with":
            self.given.basedirs = basedirs_with(rest)
            return True
        return self.given.give(word, rest) or self.streams.give(word, rest)
