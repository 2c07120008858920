"""The commands: `python3 -m reference COMMAND ..`, in the directory tests."""
import importlib
import sys

USAGE = """usage: python3 -m reference COMMAND, in the directory tests
  key DIGEST LANGUAGE [ARG..]  prints what `cck key` prints
  run                          prints what `cck run` prints for the script on standard input
  check [FILE..]               compares each expected result of the vector files with its own
  write [FILE..]               puts its own results in place of those that differ; FILE is the end
                               of a vector file's name, as values/keys.txt
  compare [--scripts N] [--damaged N] [--keys N] [--seed S] [--from K] PROGRAM
                               compares what PROGRAM prints with its own, on random scripts, damaged
                               scripts and keys of the numbers from K on
  mutate [--count N] [--seed S] [--jobs J] [MODULE..]
                               changes the reference in one place at a time, and prints the changes
                               after which `check` still passes
"""

# The module and the function of each command. A module is imported by its command alone.
COMMANDS = {
    "check": ("check", "check"),
    "write": ("check", "write"),
    "compare": ("compare", "compare"),
    "mutate": ("mutate", "mutate"),
}


def main(words):
    """Runs one command and returns the exit status."""
    if words[:1] in (["key"], ["run"]):
        return importlib.import_module("reference.streams").main(words)
    if words and words[0] in COMMANDS:
        module, function = COMMANDS[words[0]]
        return getattr(importlib.import_module(f"reference.{module}"), function)(words[1:])
    sys.stderr.write(USAGE)
    return 2


if __name__ == "__main__":
    sys.exit(main(sys.argv[1:]))
