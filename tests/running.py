"""Runs commands of a table: what tests/run and bench/run share.

The table is in the README.md of the directory. A row has a name, a command, which is run at the top of the
repository, what the command needs, about how long it takes, and what it shows. Names choose their rows, and `--all`
chooses all. Otherwise the rows are run that need neither the prover nor the network nor a long time. A built program,
named as in `cck_run`, is crates/cck_run/out/cck_run, and needs the prover."""
import argparse
import collections
import os
import pathlib
import re
import subprocess
import sys

TOP = pathlib.Path(__file__).resolve().parent.parent
Row = collections.namedtuple("Row", "name command needs takes shows")
ROW = re.compile(r"^\| `(\w+)` \| `(.*?)` \| (.*?) \|(.*?)\| (.*?) \|$", re.M)
PROGRAM = re.compile(r"`(cck_\w+)`")
COSTLY = re.compile(rf"prover|network|long time|{PROGRAM.pattern}")
COUNTS = re.compile(r"^\S+: (\d+) passed, (\d+) failed\n?", re.M)


def rows_of(table):
    """The rows of the table in this file."""
    return [Row(*found) for found in ROW.findall(table.read_text())]


def missing_programs(row):
    """The built programs that a row needs and that are not there. CCK_PROGRAM is used in place of cck_cache."""
    programs = set(PROGRAM.findall(row.needs)) - ({"cck_cache"} if "CCK_PROGRAM" in os.environ else set())
    return [name for name in sorted(programs) if not (TOP / "crates" / name / "out" / name).exists()]


def run(row, is_shown):
    """Runs the command of a row, prints its counts, and returns whether it passed. A command that does not print
    counts is one that passed or failed. What it prints is shown as it comes, or only where it failed."""
    output, passed, failed = "", 0, 1
    missing = missing_programs(row)
    if missing:
        output = "".join(f"{name} is not built: `rt run` in crates/{name} builds it\n" for name in missing)
    else:
        streams = {} if is_shown else {"stdout": subprocess.PIPE, "stderr": subprocess.STDOUT}
        done = subprocess.run(["sh", "-c", row.command], cwd=TOP, stdin=subprocess.DEVNULL, check=False,
                              errors="replace", **streams)
        output, has_failed = done.stdout or "", done.returncode != 0
        counts = [tuple(map(int, found)) for found in COUNTS.findall(output)] or [(int(not has_failed), 0)]
        passed, failed = map(sum, zip(*counts))
        failed = max(failed, int(has_failed))
    if failed:
        sys.stdout.write(COUNTS.sub("", output))
    print(f"{row.name}: {passed} passed, {failed} failed", flush=True)
    return not failed


def main(table, text, is_shown):
    """Runs what the arguments choose of a table. The exit status is 0 if all passed, 1 if one failed, and 2 if
    nothing is chosen."""
    rows = rows_of(table)
    parser = argparse.ArgumentParser(prog=f"{table.parent.name}/run", description=text)
    parser.add_argument("--all", action="store_true", help="run all")
    parser.add_argument("names", nargs="*", metavar="NAME", help=", ".join(row.name for row in rows))
    options = parser.parse_args()
    unknown = set(options.names) - {row.name for row in rows}
    if unknown:
        parser.error(f"not in {table.relative_to(TOP)}: {' '.join(sorted(unknown))}")
    chosen = [row for row in rows if row.name in options.names or not options.names
              and (options.all or not COSTLY.search(row.needs))]
    if not chosen:
        parser.print_help()
        raise SystemExit(2)
    raise SystemExit(0 if all([run(row, is_shown) for row in chosen]) else 1)
