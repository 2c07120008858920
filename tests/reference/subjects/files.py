"""The calls of `file_cases`: maps of paths, files, digests, wrappers, times, keys and entries."""
from ..cases import (
    BaseSubject,
    WrongLine,
    cut_words,
    flag,
    found,
    list_of,
    moment,
    number,
    number_of,
    time_of,
    undo,
)
from ..digests import digest_text
from ..entry import (
    Known,
    add_result,
    all_match,
    entry_bytes,
    find,
    gathered,
    include_count,
    read_entry,
)
from ..error_texts import text_of_entry_error
from ..errors import Refused
from ..files import FILE, MapFiles, Node, hash_all, read_pieces, sorted_names, text_at
from ..given import Given, World
from ..paths import components
from ..preprocessor_key import RequestParts, preprocessor_key
from ..recorded import Config, found_macros, recorded_digest, time_part
from ..times import NANOS
from ..wrapper import resolved
from ..zones import parse_rule

KIND_WORDS = {"File": b"file", "Folder": b"folder", "Other": b"other"}


def lines(texts):
    """Texts with a line feed between each two."""
    return b"\n".join(texts)


# ---- words


def give_paths(subject, rest):
    """`paths LIST`."""
    subject.paths = list_of(rest)


def give_offset(subject, rest):
    """`offset N`: where a read begins."""
    subject.offset = number_of(rest)


def give_room(subject, rest):
    """`room N`: how many bytes a read may return."""
    subject.room = number_of(rest)


def give_shows(subject, rest):
    """`shows date timestamp`: the macros that a text holds."""
    subject.shown = rest.split(" ")
    if not set(subject.shown) <= {"date", "timestamp"}:
        raise WrongLine


def give_modified(subject, rest):
    """`modified NANOSECONDS` or `modified -`."""
    subject.modified = time_of(rest)


def give_zone_rule(subject, rest):
    """`zone_rule TEXT`: the zone of a rule as POSIX writes it."""
    subject.world.offset = parse_rule(rest)
    if subject.world.offset is None:
        raise WrongLine


def give_include(subject, rest):
    """`include PATH DIGEST`: one file more that was included."""
    path, digest = cut_words(rest, 1)
    subject.included.append((digest.encode("latin-1"), undo(path)))


def give_includes(subject, rest):
    """`includes N PATH DIGEST`: the same file N times more."""
    count, path, digest = cut_words(rest, 2)
    subject.included += number_of(count) * [(digest.encode("latin-1"), undo(path))]


def give_no_includes(subject, rest):
    """`no_includes`: none of those that were given before."""
    subject.included = []


def give_passing(subject, rest):
    """`passing N`: how many writes pass before one fails."""
    subject.passing = number_of(rest)


def give_preprocessor_args(subject, rest):
    """`preprocessor_args LIST`: the arguments of a preprocessor."""
    subject.preprocessor_args = list_of(rest)


def give_arch_args(subject, rest):
    """`arch_args LIST`: the arguments of architectures."""
    subject.arch_args = list_of(rest)


def give_cwd(subject, rest):
    """`cwd TEXT`: the working directory."""
    subject.cwd = undo(rest)


WORDS = {
    name.removeprefix("give_"): function
    for name, function in list(globals().items())
    if name.startswith("give_")
}


# ---- maps of paths: a dict from components to the path as it was written first, and its value


def call_map_insert(subject, rest, made):
    """`map_insert PATH`: the path gets what `base` says."""
    insert(subject.map, made.text(rest), subject.given.base)
    return b"set"


def call_map_insert_all(subject, rest, made):
    """`map_insert_all`: each path of `variables` gets the text after it."""
    for path, value in subject.given.variables:
        insert(subject.map, path, value)
    return b"set"


def insert(paths, path, value):
    """Gives a path a value, and keeps how it was written first."""
    written, _ = paths.get(components(path), (path, None))
    paths[components(path)] = (written, value)


def call_map_remove(subject, rest, made):
    """`map_remove PATH`: the value that the path had."""
    pair = subject.map.pop(components(made.text(rest)), None)
    return found(None if pair is None else pair[1])


def call_map_get(subject, rest, made):
    """`map_get PATH`: the value of the path."""
    pair = subject.map.get(components(made.text(rest)))
    return found(None if pair is None else pair[1])


def call_map_contains(subject, rest, made):
    """`map_contains PATH`."""
    return flag(components(made.text(rest)) in subject.map)


def call_map_len(subject, rest, made):
    """`map_len`: how many paths have a value."""
    return number(len(subject.map))


def call_map_is_empty(subject, rest, made):
    """`map_is_empty`."""
    return flag(not subject.map)


def call_map_entries(subject, rest, made):
    """`map_entries`: a line for each path, in order, with its value."""
    return lines(b" ".join(subject.map[key]) for key in sorted(subject.map))


# ---- files


def call_metadata(subject, rest, made):
    """`metadata PATH`: the kind, the length and the times of what is there."""
    metadata = subject.world.files.metadata(made.text(rest))
    return b"%s %d %s %s" % (
        KIND_WORDS[metadata.kind],
        metadata.length,
        moment(metadata.modified),
        moment(metadata.changed),
    )


def call_read_at(subject, rest, made):
    """`read_at PATH`: what is at `offset`, as many bytes as there is `room` for."""
    return found(subject.world.files.read_at(made.text(rest), subject.offset, subject.room))


def call_read_dir(subject, rest, made):
    """`read_dir PATH`: the names of the children, in the order of their bytes."""
    return lines(sorted(subject.world.files.read_dir(made.text(rest))))


def call_exists(subject, rest, made):
    """`exists PATH`."""
    return flag(subject.world.files.exists(made.text(rest)))


def call_canonical(subject, rest, made):
    """`canonical PATH`."""
    return subject.world.files.canonical(made.text(rest))


def call_file_calls(subject, rest, made):
    """`file_calls`: how many calls on the files came."""
    return number(subject.world.files.armed.calls)


def call_copy_saved(subject, rest, made):
    """`copy_saved`: a copy of the files is put aside."""
    subject.aside = subject.world.files.copy()
    return b"copied"


def call_swap_saved(subject, rest, made):
    """`swap_saved`: the files that were put aside take the place of the others."""
    subject.world.files, subject.aside = subject.aside, subject.world.files
    return b"swapped"


def call_put_made(subject, rest, made):
    """`put_made TEXT`: a file of the bytes that were made and this text, at the path `base`."""
    contents = made.text(rest)
    subject.world.files.put(subject.given.base, Node(FILE, contents, subject.modified))
    return number(len(contents))


# ---- digests, contents, and wrappers


def call_file_digest(subject, rest, made):
    """`file_digest PATH` and `reader_digest PATH`: the hex digest of what is there."""
    return text_at(subject.world.files, made.text(rest))


def call_hash_all(subject, rest, made):
    """`hash_all`: a line for each of `paths`, its hex digest."""
    return lines(hash_all(subject.world.files, subject.paths))


def as_file_error(error):
    """The error of a call on files that a `UtilError` holds."""
    return error.inner if error.name == "File" else error


def contents_of(subject, path):
    """The contents of a regular file, with the error of the call on files."""
    try:
        return read_pieces(subject.world.files, path)
    except Refused as error:
        raise as_file_error(error) from None


def call_read_contents(subject, rest, made):
    """`read_contents PATH`: the contents of a regular file."""
    return contents_of(subject, made.text(rest))


def call_watched_digest(subject, rest, made):
    """`watched_digest PATH`: the digest of a file, and which macros of time it holds."""
    contents = contents_of(subject, made.text(rest))
    words = [b"time", b"date", b"timestamp"]
    holds = [word for word, is_there in zip(words, found_macros(contents)) if is_there]
    return b" ".join([digest_text(contents)] + holds)


def call_sorted_names(subject, rest, made):
    """`sorted_names PATH`: the names of a directory's children, in order."""
    try:
        return lines(sorted_names(subject.world.files, made.text(rest)))
    except Refused as error:
        raise as_file_error(error) from None


def call_resolve_compiler(subject, rest, made):
    """`resolve_compiler EXECUTABLE`: the path of the compiler that is meant."""
    return resolved(subject.world.files, made.text(rest), subject.given.variables)


# ---- times, recorded digests and keys


def call_time_part(subject, rest, made):
    """`time_part`: the time part for what `shows` says, and a time of modification."""
    return found(
        time_part(
            "date" in subject.shown,
            "timestamp" in subject.shown,
            subject.modified,
            subject.world.now,
            subject.world.offset,
            subject.given.variables,
        )
    )


def setting_of(subject):
    """How files are judged."""
    return subject.world.setting(subject.given.variables)


def call_recorded_digest(subject, rest, made):
    """`recorded_digest PATH`: the recorded digest of a file."""
    return found(recorded_digest(subject.world.files, made.text(rest), setting_of(subject)))


def config_text(config):
    """Options as Rust's `Debug` prints them."""
    fields = ", ".join(f"{name}: {str(value).lower()}" for name, value in vars(config).items())
    return f"PreprocessorCacheModeConfig {{ {fields} }}".encode()


def call_options(subject, rest, made):
    """`options`: the options of the case."""
    return config_text(subject.world.config)


def call_default_options(subject, rest, made):
    """`default_options`: the options that are the default."""
    return config_text(Config())


def call_preprocessor_key(subject, rest, made):
    """`preprocessor_key INPUT`: the key of a request for this input."""
    given = subject.given
    parts = RequestParts(
        compiler_digest=given.compiler,
        language=given.language,
        preprocessor_args=subject.preprocessor_args,
        arch_args=subject.arch_args,
        common_args=given.arguments,
        extra_hashes=given.extra_hashes,
        assembler_digest=given.assembler,
        variables=given.variables,
        input_file=made.text(rest),
        cwd=subject.cwd,
        plusplus=given.plusplus,
        multiarch=given.multiarch,
    )
    return found(preprocessor_key(parts, subject.world.files, setting_of(subject)))


# ---- entries


def counts(entry):
    """The line for the counts of an entry."""
    return b"%d results, %d includes" % (len(entry), include_count(entry))


def include_line(include):
    """The line for an include."""
    return b'include %s "%s" %d %s %s' % (
        include.path,
        include.digest,
        include.size,
        moment(include.modified),
        moment(include.changed),
    )


def entry_lines(entry):
    """The counts of an entry, and a line for each result and each include."""
    texts = [counts(entry)]
    for key in sorted(entry):
        texts.append(b"result " + key)
        texts += map(include_line, entry[key])
    return lines(texts)


def call_read_entry(subject, rest, made):
    """`read_entry BYTES`: reads, keeps and shows an entry."""
    subject.entry = read_entry(made.text(rest))
    return entry_lines(subject.entry)


def call_read_each_prefix(subject, rest, made):
    """`read_each_prefix BYTES`: whether each beginning that isn't empty is damaged."""
    data = made.text(rest)
    if all(is_damaged(data[:end]) for end in range(1, len(data))):
        return b"each is damaged"
    return b"not each is damaged"


def is_damaged(data):
    """Whether bytes are damaged: the error is `Deserialization`."""
    try:
        read_entry(data)
    except Refused as error:
        return error.name == "Deserialization"
    return False


def call_entry(subject, rest, made):
    """`entry`: shows the entry."""
    return entry_lines(subject.entry)


def text_debug(text):
    """A text as Rust's `Debug` prints it, for printable text without quotes."""
    return f'"{text.decode()}"'


def time_debug(time):
    """A time that is there or not, as Rust's `Debug` prints it."""
    if time is None:
        return "None"
    return "Some(Timestamp {{ seconds: {}, nanoseconds: {} }})".format(*divmod(time, NANOS))


def include_debug(include):
    """An include as Rust's `Debug` prints it."""
    return (
        f"IncludeEntry {{ path: {list(include.path)}, digest: {text_debug(include.digest)}, "
        f"file_size: {include.size}, mtime: {time_debug(include.modified)}, "
        f"ctime: {time_debug(include.changed)} }}"
    )


def call_entry_debug(subject, rest, made):
    """`entry_debug`: the entry as Rust's `Debug` prints it."""
    entry = subject.entry
    results = [
        f"{text_debug(key)}: [{', '.join(map(include_debug, entry[key]))}]" for key in sorted(entry)
    ]
    return (
        f"PreprocessorCacheEntry {{ number_of_entries: {include_count(entry)}, "
        f"results: {{{', '.join(results)}}} }}"
    ).encode()


def call_entry_bytes(subject, rest, made):
    """`entry_bytes`: the text of the entry."""
    return entry_bytes(subject.entry)


def call_entry_bytes_digest(subject, rest, made):
    """`entry_bytes_digest`: the hex digest of the entry's text."""
    return digest_text(entry_bytes(subject.entry))


def call_write_entry(subject, rest, made):
    """`write_entry`: writes the entry to a writer that fails after `passing` writes.

    No document says how many writes there are, but that there is at least one and at most one for
    each byte.
    """
    if subject.passing == 0:
        raise Refused("Io", Refused("Write"))
    if subject.passing < len(entry_bytes(subject.entry)):
        raise WrongLine
    return b"written"


def add(subject, key):
    """Adds a result of what `include` gave under a key."""
    files, now = subject.world.files, subject.world.now
    subject.entry = add_result(subject.entry, files, now, key, subject.included)


def call_add(subject, rest, made):
    """`add KEY`: adds a result, and shows the counts."""
    add(subject, rest.encode("latin-1"))
    return counts(subject.entry)


def call_add_each(subject, rest, made):
    """`add_each N`: adds N results, under the keys `0`, `1` and so on."""
    for key in range(number_of(rest)):
        add(subject, b"%d" % key)
    return counts(subject.entry)


def call_gather(subject, rest, made):
    """`gather`: what is recorded of the files that `include` gave."""
    includes = gathered(subject.world.files, subject.world.now, subject.included)
    return lines(map(include_line, includes))


def call_includes_match(subject, rest, made):
    """`includes_match KEY`: whether the files of the result still are what they were."""
    includes = subject.entry.get(rest.encode("latin-1"))
    if includes is None:
        raise WrongLine
    setting = setting_of(subject)
    return flag(all_match(subject.world.files, includes, setting, Known()))


def call_look_up(subject, rest, made):
    """`look_up`: the key of the result that still matches."""
    return found(find(subject.entry, subject.world.files, setting_of(subject)))


def call_look_up_among(subject, rest, made):
    """`look_up_among LIST`: whether the result that is found is one of these keys."""
    return flag(find(subject.entry, subject.world.files, setting_of(subject)) in list_of(rest))


# ---- texts of errors


def call_error_text(subject, rest, made):
    """`error_text NAME`."""
    return text_of_entry_error(rest).encode()


class Subject(BaseSubject):
    """What lines gave, what calls changed, and the calls by their names."""

    CALLS = {
        name.removeprefix("call_"): function
        for name, function in list(globals().items())
        if name.startswith("call_")
    } | {"reader_digest": call_file_digest}

    def __init__(self):
        self.given = Given()
        self.world = World()
        self.begin()

    def begin(self):
        """Forgets all that was given and changed."""
        self.given.begin()
        self.world.begin()
        self.map = {}
        self.entry = {}
        self.aside = MapFiles()
        self.paths = []
        self.offset = 0
        self.room = 0
        self.shown = []
        self.modified = None
        self.included = []
        self.passing = 0
        self.preprocessor_args = []
        self.arch_args = []
        self.cwd = b""

    def give(self, word, rest):
        """Takes what a line gives."""
        if word in WORDS:
            WORDS[word](self, rest)
            return True
        return self.given.give(word, rest) or self.world.give(word, rest)
