"""Words that several libraries of cases know: what lines give to calls on bytes and on files.

`Given` and `World` are parts of an adapter: its `begin` calls theirs, and its `give` asks them.
"""
from .cases import WrongLine, cut_words, list_of, number_of, time_of, undo, variables_of
from .errors import Refused
from .files import FILE, FOLDER, OTHER, MapFiles, Node
from .key import language_of
from .recorded import Setting, activated
from .times import NANOS


class Given:
    """`basedirs`, `arguments`, `variables`, `extra_hashes`, `compiler`, `language`, `plusplus`,
    `multiarch`, `assembler` and `base`."""

    def __init__(self):
        self.begin()

    def begin(self):
        """Nothing is given."""
        self.basedirs = []
        self.arguments = []
        self.variables = []
        self.extra_hashes = []
        self.compiler = b"abcd"
        self.language = b"c"
        self.plusplus = False
        self.multiarch = False
        self.assembler = None
        self.base = b""

    def give(self, word, rest):
        """Takes what a line gives, and returns whether it knows the line's word."""
        if word in ("basedirs", "arguments"):
            setattr(self, word, list_of(rest))
        elif word == "variables":
            self.variables = variables_of(rest)
        elif word == "extra_hashes":
            self.extra_hashes = rest.encode("latin-1").split()
        elif word in ("compiler", "assembler"):
            setattr(self, word, rest.encode("latin-1"))
        elif word == "base":
            self.base = undo(rest)
        elif word == "language":
            self.language = known_language(rest)
        elif word in ("plusplus", "multiarch"):
            setattr(self, word, True)
        else:
            return False
        return True


def known_language(rest):
    """The language of this name, which there must be."""
    try:
        return language_of(undo(rest))
    except Refused:
        raise WrongLine from None


class World:
    """`file PATH MODIFIED CHANGED TEXT`, `dir PATH`, `other PATH`, `link PATH TARGET`, `gone PATH`,
    `fail_at N`, `fail_after N`, `moment NANOSECONDS`, `zone SECONDS` and `option NAME on` or `off`."""

    WORDS = (
        "file", "dir", "other", "link", "gone", "fail_at", "fail_after", "moment", "zone", "option",
    )  # fmt: skip

    def __init__(self):
        self.begin()

    def begin(self):
        """No files; 100 seconds after the start of 1970, in the zone of Greenwich."""
        self.files = MapFiles()
        self.now = 100 * NANOS
        self.offset = 0
        self.config = activated()

    def setting(self, variables):
        """How files are judged, with these variables."""
        return Setting(self.now, self.offset, variables, self.config)

    def give(self, word, rest):
        """Takes what a line gives, and returns whether it knows the line's word."""
        if word not in self.WORDS:
            return False
        getattr(self, word)(rest)
        return True

    def file(self, rest):
        """A regular file."""
        path, modified, changed, text = cut_words(rest, 3)
        node = Node(FILE, undo(text), time_of(modified), time_of(changed))
        self.files.put(undo(path), node)

    def dir(self, rest):
        """A directory without times."""
        self.files.put(undo(rest), Node(FOLDER))

    def other(self, rest):
        """What is neither a regular file nor a directory."""
        self.files.put(undo(rest), Node(OTHER))

    def link(self, rest):
        """A link to what is at the target."""
        path, target = cut_words(rest, 1)
        self.files.link(undo(path), undo(target))

    def gone(self, rest):
        """Nothing is there."""
        self.files.remove(undo(rest))

    def fail_at(self, rest):
        """The nth following call on files is a fault."""
        self.files.fail_at(number_of(rest))

    def fail_after(self, rest):
        """The nth following call on files and all after it are faults."""
        self.files.fail_after(number_of(rest))

    def moment(self, rest):
        """The time of the call."""
        self.now = number_of(rest)

    def zone(self, rest):
        """How many seconds east of Greenwich local time is taken."""
        self.offset = number_of(rest)

    def option(self, rest):
        """An option, on or off."""
        name, state = cut_words(rest, 1)
        if not hasattr(self.config, name) or state not in ("on", "off"):
            raise WrongLine
        setattr(self.config, name, state == "on")
