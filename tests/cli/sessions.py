#!/usr/bin/env python3
"""Runs the sessions of pages: of docs/COMMANDS.md and of the others in PAGES.

usage: sessions.py [PROGRAM]

A session is an indented block whose first line begins with "$ ". Its lines that begin so are
commands, and the lines after each are what that command prints, on standard output and standard
error together. The sessions of a page run one after another in one folder, which contains samples/,
examples/ and the program as ./warcdx. The program and the Python commands are on the PATH too.
Sessions with a server don't run. If the package surt is missing, a stand-in takes its place.

Prints a line for each command, and the counts. The exit status is 0, or 1 if a command prints
something else than its page shows.
"""
import importlib.util
import os
import pathlib
import re
import subprocess
import sys
import tempfile
from collections.abc import Iterator

sys.path.insert(0, str(pathlib.Path(__file__).resolve().parents[1]))

from program import PACKED, ROOT, Report, add_program, find_packed_program, find_program, parser_of

PAGES = (
    "docs/COMMANDS.md", "docs/FAQ.md", "docs/FOLDER.md", "docs/OTHER_TOOLS.md", "docs/QUERY.md", "docs/RECORDS.md", "docs/VERIFY.md",
)  # fmt: skip
BLOCK = re.compile(r"(?:^    .*\n|^\n(?=(?:\n)*    ))+", re.MULTILINE)
COMMAND = re.compile(r"^\$ (.*)\n((?:(?!\$ ).*\n)*)", re.MULTILINE)
NOT_RUN = ("socat", "crawl.warc.gz", "whole.warc.gz")
MARK = "-- end of command"
STAND_IN = "def surt(url):\n    return url[::-1]\n"


def sessions_of(page: str) -> Iterator[list[tuple[str, str]]]:
    """Yields the sessions, each as its commands and what the page shows after them."""
    for block in BLOCK.findall(page):
        text = "".join(line[4:] or "\n" for line in block.splitlines(keepends=True)).lstrip("\n")
        if text.startswith("$ ") and not any(word in text for word in NOT_RUN):
            yield COMMAND.findall(text)


def run(commands: list[str], folder: str) -> list[str]:
    """Runs commands one after another by one bash, and returns what each of them prints."""
    path = os.pathsep.join((folder, str(ROOT / "python/bin"), os.environ["PATH"]))
    modules = os.pathsep.join(filter(None, (os.environ.get("PYTHONPATH"), f"{folder}/modules")))
    lines = (f"{command}\nkept=$?; echo '{MARK}'; (exit $kept)" for command in commands)
    done = subprocess.run(
        ("bash", "-c", "\n".join(lines)),
        cwd=folder,
        env={**os.environ, "LC_ALL": "C.UTF-8", "PATH": path, "PYTHONPATH": modules},
        stdin=subprocess.DEVNULL,
        stdout=subprocess.PIPE,
        stderr=subprocess.STDOUT,
        text=True,
    )
    return done.stdout.split(f"{MARK}\n")


def check_page(report: Report, name: str, program: pathlib.Path) -> None:
    with tempfile.TemporaryDirectory() as folder:
        for linked in ("samples", "examples"):
            pathlib.Path(folder, linked).symlink_to(ROOT / linked)
        pathlib.Path(folder, "warcdx").symlink_to(program)
        pathlib.Path(folder, PACKED).symlink_to(find_packed_program(program))
        if importlib.util.find_spec("surt") is None:
            pathlib.Path(folder, "modules").mkdir()
            pathlib.Path(folder, "modules/surt.py").write_text(STAND_IN)
        for session in sessions_of((ROOT / name).read_text()):
            found = run([command for command, _ in session], folder)
            for (command, wanted), output in zip(session, found):
                if output.rstrip("\n") == wanted.rstrip("\n"):
                    report.add_ok(f"{name}: {command}")
                else:
                    report.add_difference(f"{name}: {command}", f"wanted\n{wanted}found\n{output}")


def main() -> int:
    parser = parser_of(__doc__)
    add_program(parser)
    program = find_program(parser.parse_args().program)
    report = Report()
    for name in PAGES:
        check_page(report, name, program)
    return report.end()


if __name__ == "__main__":
    sys.exit(main())
