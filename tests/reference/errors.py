"""Errors, by the names that the libraries give them."""


class Refused(Exception):
    """An error of a call: its name, and what it holds, which is another error, a number or nothing."""

    def __init__(self, name, inner=None):
        super().__init__(name)
        self.name = name
        self.inner = inner

    def debug(self):
        """The text of the error as Rust's `Debug` prints it, as `Io(File(NotFound))`."""
        if self.inner is None:
            return self.name
        if isinstance(self.inner, Refused):
            return f"{self.name}({self.inner.debug()})"
        return f"{self.name}({self.inner})"


def other_kind():
    """`UtilError::File(FileError::OtherKind)`."""
    return Refused("File", Refused("OtherKind"))


def is_fault(error):
    """Whether an error of a call on files is a fault: the call on files failed."""
    while error.inner is not None:
        error = error.inner
    return error.name == "Fault"
