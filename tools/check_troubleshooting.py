#!/usr/bin/env python3
"""Checks that docs/TROUBLESHOOTING.md names each refusal, each fault and each message of the commands in Python.

usage: check_troubleshooting.py

The causes are those of the modules `faults` and `refusals` of the Python package, which has all names that the
program prints, and the names with which the gateway refuses a query. The messages are the texts with which the
package and the examples report a failure, found in their sources; docs/OTHER_TOOLS.md may have them instead. Usage
errors and settings of the gateway are left out, because these messages say what is allowed.

Prints a line for each source, and the counts. The exit status is 0, or 1 if a name or a message is missing.
"""
import ast
import re
import sys
from collections.abc import Iterator
from pathlib import Path

sys.path.insert(0, str(Path(__file__).resolve().parents[1] / "tests"))

from program import ROOT, Report, parser_of

PACKAGE, GATEWAY = ROOT / "python/warcdx", ROOT / "gateway/warcdx_gateway"
REPORTING = ("report", "CannotResume", "CannotUpdate", "CannotRead", "BadRow", "Unreadable", "ProgramMissing", "ProgramTooOld")
LEAST_LETTERS = 10  # of the part of a message that is searched
# Lines about progress, the end of a usage error, and what happens only if the program isn't the one that the package was made for.
NOT_SEARCHED = re.compile(r"archives, | index stays as it was|--help' has the arguments|the program has (?:written|given) no ")


def causes(module: str) -> Iterator[str]:
    """Yields the names of the public classes of a module of the package."""
    tree = ast.parse((PACKAGE / f"{module}.py").read_text())
    return (node.name for node in tree.body if isinstance(node, ast.ClassDef) and not node.name.startswith("_"))


def calls(path: Path) -> Iterator[tuple[str, ast.Call]]:
    """Yields the calls of a source, each with the name of what is called."""
    for node in ast.walk(ast.parse(path.read_text())):
        if isinstance(node, ast.Call):
            yield getattr(node.func, "id", getattr(node.func, "attr", "")), node


def refusals_of_gateway() -> Iterator[str]:
    for path in sorted(GATEWAY.rglob("*.py")):
        for name, call in calls(path):
            first = call.args[0] if call.args else None
            if name == "Refusal" and isinstance(first, ast.Constant):
                yield first.value


def texts(node: ast.expr) -> Iterator[str]:
    """Yields the parts of a text that stand in the source."""
    if isinstance(node, ast.Constant) and isinstance(node.value, str):
        yield node.value
    elif isinstance(node, ast.JoinedStr):
        for value in node.values:
            yield from texts(value)
    elif isinstance(node, ast.IfExp):
        yield from texts(node.body)
        yield from texts(node.orelse)


def messages(path: Path) -> Iterator[str]:
    """Yields the longest part of each text that a source reports."""
    for name, call in calls(path):
        for argument in call.args if name in REPORTING else ():
            longest = max((text.strip(" :;,'\n") for text in texts(argument)), key=len, default="")
            if len(longest) >= LEAST_LETTERS and not NOT_SEARCHED.search(longest):
                yield longest


def main() -> int:
    parser_of(__doc__).parse_args()
    report = Report()
    page = (ROOT / "docs/TROUBLESHOOTING.md").read_text()
    pages = page + (ROOT / "docs/OTHER_TOOLS.md").read_text()
    names = {"faults": causes("faults"), "refusals": causes("refusals"), "the gateway": refusals_of_gateway()}
    for source, found in names.items():
        missing = [name for name in dict.fromkeys(found) if not re.search(rf"\b{name}\b", page)]
        add(report, source, missing)
    for path in (*sorted(PACKAGE.glob("*.py")), *sorted((ROOT / "examples").glob("[!t]*.py"))):
        found = list(dict.fromkeys(messages(path)))
        if found:
            add(report, str(path.relative_to(ROOT)), [text for text in found if text not in pages])
    return report.end()


def add(report: Report, source: str, missing: list[str]) -> None:
    if missing:
        report.add_difference(source, f"missing: {', '.join(missing)}")
    else:
        report.add_ok(source)


if __name__ == "__main__":
    sys.exit(main())
