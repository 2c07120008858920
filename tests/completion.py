#!/usr/bin/env python3
"""What the completions of cckcc for bash and zsh (lib/completion) make of a line that ends where the cursor is. The shells
that are there are tried. With bash-completion the words after a compiler are those of its own completion. The options that
bash and zsh complete and the manual page has are those of `cckcc --help`. The last line is
`completion: N passed, M failed`."""
import os
import pathlib
import pty
import re
import select
import shutil
import subprocess
import tempfile
import time

TOP = pathlib.Path(__file__).resolve().parent.parent
PLACE = TOP / "lib" / "completion"
LIBRARY = "/usr/share/bash-completion/bash_completion"
# The options of the wrapper, as it prints them.
USAGE = subprocess.run([TOP / "bin/cckcc", "--help"], env={"PATH": os.environ["PATH"]}, capture_output=True, text=True,
                       check=True).stdout
OPTIONS = re.findall(r"--[a-z-]+", USAGE)
# A line, and words that have to be among the completions, or after `!` must not be.
BASH = [
    ("cckcc --sh", "--show-stats --show-config !--clear"),
    ("cckcc --z", "--zero-stats !--show-stats"),
    ("cckcc --", " ".join(it for it in OPTIONS if it != "--json") + " !--json"),
    ("cckcc --show-stats -", "--json !--clear !-c"),
    ("cckcc --zero-stats -", "!--json"),
    ("cckcc gc", "gcc !--clear"),
    ("cckcc gcc input", "input.c"),
]
WITH_LIBRARY = [("cckcc gcc -Wunused-va", "-Wunused-variable !--version"), ("cckcc gcc --show", "!--show-stats")]
# A line, and what it has to be after one tabulator.
ZSH = [
    ("cckcc --show-s", "cckcc --show-stats"),
    ("cckcc --clear", "cckcc --clear"),
    ("cckcc --show-c", "cckcc --show-config"),
    ("cckcc gcc inp", "cckcc gcc input.c"),
    ("cckcc gcc -fwhole-prog", "cckcc gcc -fwhole-program"),
    ("cckcc gcc --show-s", "cckcc gcc --show-s"),
]
CASE = """%s
source %s/cckcc
read -ra COMP_WORDS <<<"$LINE"
[[ $LINE != *' ' ]] || COMP_WORDS+=('')
COMP_CWORD=$((${#COMP_WORDS[@]} - 1)) COMP_LINE=$LINE COMP_POINT=${#LINE}
_cckcc cckcc "${COMP_WORDS[COMP_CWORD]}" "${COMP_WORDS[COMP_CWORD - 1]}"
printf '%%s\\n' "${COMPREPLY[@]}"
"""
START = f"""PROMPT='ready> '; unsetopt beep zle_bracketed_paste; fpath=({PLACE} $fpath)
autoload -Uz compinit && compinit -u -D; zstyle ':completion:*' menu no; bindkey -e
"""


def of_bash(line, library, directory):
    """The completions of a line by bash."""
    script = CASE % (f"source {library}" if library else "", PLACE)
    done = subprocess.run(["bash", "--norc", "-c", script], cwd=directory, env={**os.environ, "LINE": line},
                          capture_output=True, text=True, check=False)
    return {word.strip() for word in done.stdout.split("\n")}


def bash_faults(directory):
    """A line for each case of bash that fails, and none for one that passes."""
    cases = [(None, *case) for case in BASH]
    if os.path.exists(LIBRARY):
        cases += [(LIBRARY, *case) for case in BASH[:4] + WITH_LIBRARY]
    for library, line, words in cases:
        found = of_bash(line, library, directory)
        wrong = [word for word in words.split() if (word.lstrip("!") in found) == word.startswith("!")]
        yield f"bash: {line!r}: {' '.join(wrong)}" if wrong else None


def read_for(descriptor, seconds, until=None):
    """What a terminal shows within some seconds, or up to a text."""
    shown, end = b"", time.monotonic() + seconds
    while time.monotonic() < end and not (until and until in shown):
        if select.select([descriptor], [], [], 0.1)[0]:
            try:
                shown += os.read(descriptor, 65536)
            except OSError:
                break
    return shown


def of_zsh(line, wanted, directory):
    """The line that zsh shows after a tabulator, without the sequences of the terminal."""
    child, descriptor = pty.fork()
    if child == 0:
        os.chdir(directory)
        os.execvpe("zsh", ["zsh", "-f", "-i"], {**os.environ, "TERM": "dumb", "ZDOTDIR": directory, "COLUMNS": "200"})
    os.write(descriptor, START.encode() + b"print rea''dy\n")
    read_for(descriptor, 20, b"\nready")
    os.write(descriptor, line.encode() + b"\t")
    shown = read_for(descriptor, 20 if wanted != line else 2, wanted.encode() if wanted != line else None)
    os.write(descriptor, b"\x03exit\n")
    os.close(descriptor)
    os.waitpid(child, 0)
    return re.sub(r"\x1b\[[0-9;?]*[A-Za-z]", "", shown.decode(errors="replace"))


def zsh_faults(directory):
    """The same for zsh."""
    for line, wanted in ZSH:
        shown = of_zsh(line, wanted, directory)
        is_right = wanted in shown and (wanted != line or "stats" not in shown)
        yield None if is_right else f"zsh: {line!r}: {shown!r}"


def list_faults():
    """The same for the lists of options: those that zsh completes and those of the manual page are those that cckcc prints."""
    for path in (PLACE / "_cckcc", TOP / "docs/man/cckcc.1"):
        found = set(re.findall(r"(?<!\S)--[a-z-]+", re.sub(r"[{,}'()]", " ", path.read_text().replace("\\", ""))))
        differing = " ".join(sorted(found ^ set(OPTIONS)))
        yield f"{path}: {differing}" if differing else None


def main():
    results = list(list_faults())
    with tempfile.TemporaryDirectory() as directory:
        pathlib.Path(directory, "input.c").touch()
        for shell, faults in (("bash", bash_faults), ("zsh", zsh_faults)):
            if shutil.which(shell):
                results += faults(directory)
            else:
                print(f"completion: there is no {shell}")
    failed = [fault for fault in results if fault]
    print("".join(f"FAILED: {fault}\n" for fault in failed), end="")
    print(f"completion: {len(results) - len(failed)} passed, {len(failed)} failed")
    raise SystemExit(1 if failed else 0)


if __name__ == "__main__":
    main()
