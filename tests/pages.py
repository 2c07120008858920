"""Checks the pages, which are the files *.md of the repository: `python3 tests/pages.py`.

- What a link names is there: the file, and the heading where the link ends in `#` and a heading's name, as GitHub
  forms these names. Links to other sites are not followed.
- Each path in a code block or between backticks that begins with a directory of the repository is there, as a file or
  as a directory. A path with a placeholder, as in `crates/NAME`, is not looked at, nor is one in a directory `out`.
- Each name and each option between backticks stands in a file of the repository that is no page, or in the name of one.
  Pages about other programs or about what was are not looked at, nor are numbers and placeholders.
- All pages together have no more than 160 KiB.

It prints what is not there, and the sum of the pages' bytes. The last line is `pages: N passed, M failed`."""
import pathlib
import re
import subprocess

TOP = pathlib.Path(__file__).resolve().parent.parent
MOST_BYTES = 160 << 10
BLOCK = re.compile(r"^```.*?^```$", re.M | re.S)
SPAN = re.compile(r"`[^`]+`")
LINK = re.compile(r"\[([^\]]*)\]\(([^)\s]+)\)")
HEADING = re.compile(r"^#+ (.*)", re.M)
PATH = re.compile(r"(?<![a-z_/.*])(?:\.\.?/)*((?:tests|bench|bin|crates|examples|docs|\.ci)/[\w./*-]*\w)(?![*{])")
NAME = re.compile(r"[A-Za-z_]\w+|(?<!\S)--?[A-Za-z][\w-]*")
NO_NAME = re.compile(r"[0-9a-f]+$|.*[A-Z]{2}|[a-z]?[A-Z]+$|-no-|-[a-z]+$|_")
# Words of other programs and parts of names, and the pages that are full of such words or of names that were.
OTHERS = "Answers Beginning CMAKE_C_COMPILER_LAUNCHER --aclfile aclfile cli logic lru man memmove mmap plant start_lib tidy".split()
OTHER_PAGES = "CHANGELOG.md DIFFERENCES.md GLOSSARY.md RESULTS.md".split()
PLACEHOLDER = re.compile(r"\*|\.\.|(?:^|/)[A-Z]{2,}(?:/|$)|/out(?:/|$)|(?:^|/)N\b")


def pages():
    """The pages."""
    listed = subprocess.run(["git", "ls-files", "-co", "--exclude-standard", "*.md"], cwd=TOP, capture_output=True,
                            text=True, check=True).stdout
    return [TOP / name for name in sorted(listed.split("\n")) if (TOP / name).is_file()]


def heading_names(text):
    """The names by which links to a page name its headings."""
    names = set()
    for heading in HEADING.findall(BLOCK.sub("", text)):
        name = re.sub(r"[^\w\- ]", "", LINK.sub(r"\1", heading).lower()).replace(" ", "-")
        names.add(name if name not in names else f"{name}-1")
    return names


def links_of(page, text):
    """Each link of a page to a file or a heading of the repository, and whether what it names is there."""
    for _, target in LINK.findall(SPAN.sub("", BLOCK.sub("", text))):
        if "://" in target:
            continue
        path, _, heading = target.partition("#")
        file = (page.parent / path).resolve() if path else page
        is_there = file.exists() and (not heading or heading in heading_names(file.read_text()))
        yield target, is_there


def paths_of(text):
    """Each path in the code of a page, and whether it is there."""
    code = BLOCK.findall(text) + SPAN.findall(BLOCK.sub("", text))
    for path in (path for part in code for path in PATH.findall(part)):
        if not PLACEHOLDER.search(path):
            yield path, (TOP / path).exists()


def known_names():
    """The words of the files that are no pages, and of all files' names."""
    files = subprocess.run(["git", "ls-files", "-co", "--exclude-standard"], cwd=TOP, capture_output=True, text=True,
                           check=True).stdout.split("\n")
    texts = [(TOP / name).read_text(errors="replace") for name in files if not name.endswith(".md")
             and (TOP / name).is_file()]
    return set(re.findall(r"\w+|--?[\w-]+", " ".join(texts + files)))


def names_of(page, text, known):
    """Each name in the code of a page's sentences, and whether it is known."""
    if page.name in OTHER_PAGES:
        return
    for name in NAME.findall(" ".join(span.strip("`") for span in SPAN.findall(BLOCK.sub("", text)))):
        if name not in OTHERS and not NO_NAME.match(name):
            yield name, name in known


def main():
    passed = failed = size = 0
    known = known_names()
    for page in pages():
        text = page.read_text()
        size += len(text.encode())
        for name, is_there in [*links_of(page, text), *paths_of(text), *names_of(page, text, known)]:
            passed += is_there
            failed += not is_there
            if not is_there:
                print(f"{page.relative_to(TOP)}: {name} is not there")
    print(f"{len(pages())} pages, {size} bytes of {MOST_BYTES}")
    passed += size <= MOST_BYTES
    failed += size > MOST_BYTES
    print(f"pages: {passed} passed, {failed} failed")
    raise SystemExit(bool(failed))


if __name__ == "__main__":
    main()
