#!/usr/bin/env python3
"""Checks the scripts of this repository.

usage: check_scripts.py [KIND]..

A KIND is one of these; without one all three are checked:

shell   `shellcheck` finds nothing in the shell scripts. Needs Debian's package shellcheck
python  the Python scripts compile without warnings, and say which time a member of gzip has, so that no test depends on the time
        of its run
usage   each script that can be run prints its usage for -h with exit status 0, and ends with 2 after an unknown option, or with 77 if a
        package that it needs is missing

The scripts are the files that git lists outside of crates/. Prints a line for each script, and the
counts. The exit status is 0, or 1 if a script fails. Needs git.
"""
import ast
import os
import pathlib
import py_compile
import subprocess
import sys
import tempfile
import warnings
from collections.abc import Iterator
from typing import Optional

sys.path.insert(0, str(pathlib.Path(__file__).resolve().parents[1] / "tests"))

from program import MISSING, ROOT, USAGE, Report, need, parser_of

KINDS = ("shell", "python", "usage")
SECONDS = 20
# The wrappers pass all arguments to the programs, and the others take none.
WITHOUT_USAGE = ("warcdx", "warcdx-gz", ".ci/run", "samples/make.py")


def scripts() -> Iterator[tuple[pathlib.Path, str]]:
    """Yields each script with its language: the first word of what runs it, or the ending of its name."""
    listed = subprocess.run(
        ("git", "ls-files", "-z", "--cached", "--others", "--exclude-standard"), cwd=ROOT, stdout=subprocess.PIPE, check=True
    )
    for name in sorted(set(listed.stdout.decode().split("\0"))):
        path = ROOT / name
        if not name or name.startswith("crates/") or not path.is_file():
            continue
        with open(path, "rb") as file:
            first = file.readline()
        if first.startswith(b"#!"):
            yield path, first.split()[-1].decode().rpartition("/")[2]
        elif path.suffix in (".sh", ".bash", ".py"):
            yield path, {".sh": "bash", ".bash": "bash", ".py": "python3"}[path.suffix]


def fault_of_shell(path: pathlib.Path) -> Optional[str]:
    done = subprocess.run(("shellcheck", "--shell=bash", path), stdout=subprocess.PIPE, stderr=subprocess.STDOUT, text=True)
    return done.stdout if done.returncode else None


def fault_of_python(path: pathlib.Path) -> Optional[str]:
    with tempfile.TemporaryDirectory() as folder, warnings.catch_warnings():
        warnings.simplefilter("error")
        try:
            py_compile.compile(str(path), cfile=os.path.join(folder, "compiled"), doraise=True)
        except (py_compile.PyCompileError, Warning) as fault:
            return str(fault)
    tree = ast.parse(path.read_bytes())
    timed = {call.func for call in ast.walk(tree) if isinstance(call, ast.Call) and any(each.arg == "mtime" for each in call.keywords)}
    for node in ast.walk(tree):
        if isinstance(node, ast.Attribute) and ast.unparse(node).endswith("gzip.compress") and node not in timed:
            return f"line {node.lineno}: gzip.compress has no mtime"
    return None


def fault_of_usage(path: pathlib.Path) -> Optional[str]:
    for option, wanted in (("-h", 0), ("--no-such-option", USAGE)):
        try:
            done = subprocess.run(
                (path, option), stdin=subprocess.DEVNULL, stdout=subprocess.PIPE, stderr=subprocess.STDOUT, timeout=SECONDS
            )
        except subprocess.TimeoutExpired:
            return f"{option} takes more than {SECONDS} s"
        if done.returncode == MISSING:
            return None
        if done.returncode != wanted:
            return f"{option} ends with exit status {done.returncode}"
        if option == "-h" and f"usage: {path.name}".encode() not in done.stdout:
            return "-h prints no usage"
    return None


def main() -> int:
    parser = parser_of(__doc__)
    parser.add_argument("kinds", metavar="KIND", nargs="*", help="shell, python or usage")
    kinds = parser.parse_args().kinds or KINDS
    if not set(kinds) <= set(KINDS):
        parser.error(f"a KIND is {', '.join(KINDS)}")
    if "shell" in kinds:
        need("shellcheck")
    report = Report()
    for path, language in scripts():
        name = str(path.relative_to(ROOT))
        checks = []
        if "shell" in kinds and language == "bash":
            checks.append(("shell", fault_of_shell))
        if "python" in kinds and language == "python3":
            checks.append(("python", fault_of_python))
        if "usage" in kinds and name not in WITHOUT_USAGE and os.access(path, os.X_OK):
            checks.append(("usage", fault_of_usage))
        for kind, check in checks:
            fault = check(path)
            if fault:
                report.add_difference(f"{name}, {kind}", fault)
            else:
                report.add_ok(f"{name}, {kind}")
    return report.end()


if __name__ == "__main__":
    sys.exit(main())
