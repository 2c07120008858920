"""What the reference reads in docs/FORMATS.md."""
import pathlib
import re

PAGE = pathlib.Path(__file__).resolve().parents[2] / "docs/FORMATS.md"


def names_after(words):
    """The names that the page lists after these words, up to the end of the sentence."""
    text = " ".join(PAGE.read_text(encoding="utf-8").split())
    _, rest = text.split(words)
    return {name.encode() for name in re.findall(r"`(\w+)`", rest.split(". ")[0])}
