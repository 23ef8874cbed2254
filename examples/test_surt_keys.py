#!/usr/bin/env python3
"""Gives indexes to surt_keys.py, and checks the lines that it writes.

usage: test_surt_keys.py [PROGRAM]

A stand-in for the package surt makes the keys, so that it is known what they are. If the package is
installed, a key that it makes is checked too; otherwise a line says that it is missing.

Prints a line for each case, and the counts. The exit status is 0, or 1 if a case differs.
"""
import importlib.util
import os
import pathlib
import subprocess
import sys
import tempfile
from collections.abc import Mapping

HERE = pathlib.Path(__file__).resolve().parent
sys.path.insert(0, str(HERE.parent / "tests"))

from program import ROOT, Report, add_program, find_program, parser_of

# The key of an address is its characters without a closing slash, in reverse order.
STAND_IN = "def surt(url):\n    return url.rstrip('/')[::-1]\n"
GONE = "http://127.0.0.1:8000/odd/gone"
NO_PACKAGE = "raise ImportError\n"
KEY = "com,example)/goo/"
LINE = KEY + ' 20160101000000 {"url": %s, "offset": "7", "filename": "a.warc"}\n'


def changed(lines: str, environment: Mapping[str, str]) -> tuple[int, str, str]:
    """Returns the exit status, the output and the errors."""
    script = HERE / "surt_keys.py"
    done = subprocess.run((script,), input=lines, capture_output=True, text=True, env=environment)
    return done.returncode, done.stdout, done.stderr


def with_module(text: str, folder: pathlib.Path) -> dict[str, str]:
    """Returns the environment in which the module surt is this text."""
    folder.mkdir()
    (folder / "surt.py").write_text(text)
    return {**os.environ, "PYTHONPATH": str(folder), "PYTHONDONTWRITEBYTECODE": "1"}


def check(report: Report, case: str, wanted: object, found: object) -> None:
    if wanted == found:
        report.add_ok(case)
    else:
        report.add_difference(case, f"wanted {wanted!r:.500}, found {found!r:.500}")


def check_stand_in(report: Report, work: pathlib.Path) -> None:
    environment = with_module(STAND_IN, work / "stand-in")
    web = LINE % '"http://a/\\u00e9 b/"'
    wanted = web.replace(KEY, "b%20é/a//:ptth")
    check(report, "a new key", (0, wanted, ""), changed(web, environment))
    others = "".join(LINE % url for url in ('"dns:example.com"', "null", "7", '""'))
    check(report, "other addresses, and none", (0, others, ""), changed(others, environment))
    check(report, "no line", (0, "", ""), changed("", environment))
    open_line = LINE.rstrip("\n") % '"HTTPS://a"'
    wanted = open_line.replace(KEY, "a//:SPTTH")
    check(report, "no line feed", (0, wanted, ""), changed(open_line, environment))
    for bad in ("no line\n", "k 20160101000000 []\n", "k 20160101000000 {\n"):
        status, output, errors = changed(web + bad + web, environment)
        found = (status, output.count("\n"), errors.partition(": line ")[0], errors.count("\n"))
        check(report, f"not a capture: {bad!r}", (1, 1, "surt_keys.py", 1), found)


def check_sorted(report: Report, work: pathlib.Path, program: pathlib.Path) -> None:
    """Checks that the program reads the sorted lines, and finds a capture by its new key."""
    environment = with_module(STAND_IN, work / "sorted")
    archive = ROOT / "samples/wget.warc"
    index = subprocess.run((program, "index", archive), capture_output=True, text=True).stdout
    status, lines, errors = changed(index, environment)
    path = work / "new.cdxj"
    path.write_bytes(b"".join(sorted(line.encode() + b"\n" for line in lines.splitlines())))
    checked = subprocess.run((program, "check", path), capture_output=True, text=True).stdout
    wanted = f"{path} {len(index.splitlines())}\n"
    check(report, "an index in order", (0, "", wanted), (status, errors, checked))
    query = f"key={GONE[::-1]}&fl=original"
    found = subprocess.run((program, "query", query, path), capture_output=True, text=True).stdout
    check(report, "a query by a new key", f"{GONE}\n", found)


def check_package(report: Report, work: pathlib.Path) -> None:
    status, output, errors = changed(LINE % '"http://a"', with_module(NO_PACKAGE, work / "none"))
    wanted = (77, "", "surt_keys.py: Python's package surt is missing\n")
    check(report, "without the package", wanted, (status, output, errors))
    if importlib.util.find_spec("surt") is None:
        print("skipped  the keys of the package surt, which is missing")
        return
    line = LINE % '"http://www.example.com/Goo/?b=1&a=2"'
    wanted_line = line.replace(KEY, "com,example)/goo?a=2&b=1")
    check(report, "the package", (0, wanted_line, ""), changed(line, os.environ))


def check_replacing(report: Report, work: pathlib.Path) -> None:
    """Runs the command of docs/OTHER_TOOLS.md that makes the index anew, without the package. The old index has to stay."""
    lines = (ROOT / "docs/OTHER_TOOLS.md").read_text().splitlines()
    command = next(line for line in lines if "mv pywb.new pywb.cdxj" in line).partition("$ ")[2]
    environment = with_module(NO_PACKAGE, work / "replacing")
    (work / "examples").symlink_to(HERE)
    (work / "all.cdxj").write_text(LINE % '"http://a"')
    (work / "pywb.cdxj").write_text("old\n")
    subprocess.run(
        ("bash", "-c", command), cwd=work, env={**environment, "PATH": f"{HERE}:{environment['PATH']}"}, stderr=subprocess.DEVNULL
    )
    check(report, "an index that can't be made anew", "old\n", (work / "pywb.cdxj").read_text())


def main() -> int:
    parser = parser_of(__doc__)
    add_program(parser)
    program = find_program(parser.parse_args().program)
    report = Report()
    with tempfile.TemporaryDirectory() as folder:
        work = pathlib.Path(folder)
        check_stand_in(report, work)
        check_sorted(report, work, program)
        check_package(report, work)
        check_replacing(report, work)
    return report.end()


if __name__ == "__main__":
    sys.exit(main())
