"""Costs of a program: processor time, memory and, by callgrind, instructions."""
import os
import re
import subprocess


def times(words, path):
    """The times that these words take on a file, as users and in the system, in seconds of a processor.

    What they print goes to a file beside it.
    """
    actions = [
        (os.POSIX_SPAWN_OPEN, 0, path, os.O_RDONLY, 0),
        (os.POSIX_SPAWN_OPEN, 1, path + ".out", os.O_WRONLY | os.O_CREAT | os.O_TRUNC, 0o644),
    ]
    child = os.posix_spawnp(words[0], words, os.environ, file_actions=actions)
    _, status, usage = os.wait4(child, 0)
    if status != 0:
        raise ChildProcessError(f"{words[0]} ended with status {status}")
    return usage.ru_utime, usage.ru_stime


def seconds(words, path):
    """The processor time of these words on a file, in seconds."""
    return sum(times(words, path))


def memory(words, path):
    """The greatest resident set of these words on a file, in MiB, by GNU time."""
    said = path + ".said"
    with open(path, "rb") as text:
        timed = ["/usr/bin/time", "-f", "%M", "-o", said, *words]
        subprocess.run(timed, stdin=text, stdout=subprocess.DEVNULL, check=True)
    with open(said, encoding="ascii") as file:
        return int(file.read()) / 1024


def instructions(words, path):
    """How many instructions these words take on a file."""
    said = path + ".said"
    tool = ["valgrind", "--tool=callgrind", "--callgrind-out-file=/dev/null", "--log-file=" + said]
    with open(path, "rb") as text:
        subprocess.run(tool + words, stdin=text, stdout=subprocess.DEVNULL, check=True)
    with open(said, encoding="ascii", errors="replace") as file:
        return int(re.search(r"Collected : (\d+)", file.read())[1])


def written(folder, name, parts):
    """Writes these parts to a file of the directory, and returns its path."""
    path = os.path.join(folder, name)
    with open(path, "wb") as file:
        file.writelines(parts)
    return path
