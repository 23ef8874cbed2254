#!/usr/bin/env python3
"""Compares docs/proof/TRUST.md with what it speaks of.

usage: check_trust.py [--proved] [PROGRAM]

- Each program has the C functions that the table lists, and has none of a row that says `neither program has`.
- Each function that a program imports is in the table, or in the paragraph about other imports.
- The number of functions in the table is that of `axioms=`.
- The paragraph about `unsafe` names each place in crates/*/src once.

The programs are PROGRAM and the one for compressed archives beside it. With --proved, the table is also compared with what
`rt check --list-axioms` lists for both programs of this repository, whose crates have to be proved before.

Prints a line for each case, and the counts. The exit status is 0, or 1 if a case differs. Needs nm (Debian's package binutils),
and with --proved the kit's rt.
"""
import re
import subprocess
import sys
from pathlib import Path

sys.path.insert(0, str(Path(__file__).resolve().parents[1] / "tests"))

from definitions import CRATES, ROOT, code_lines
from program import Report, add_program, find_packed_program, find_program, need, parser_of

PAGE = ROOT / "docs/proof/TRUST.md"
ROW = re.compile(r"^\| (`.*`.*?) \| (.*) \|$", re.MULTILINE)
COUNT = re.compile(r"^\| `axioms=(\d+)` ", re.MULTILINE)
REACHED = re.compile(r"^  (?:\w+::)*(\w+) +reached$", re.MULTILINE)
BELOW = ("malloc", "realloc", "free")  # named in the table beside the functions of the kit that call them
ABSENT = "neither program has"
OF_KIT = "rattle_"  # begins the names of the kit's own C functions, which a program has in itself
PROGRAMS = ("warcdx", "warcdx_gz")  # their crates


def section(title: str) -> str:
    """Returns the text of the page behind a title in bold, up to the next."""
    return PAGE.read_text().partition(f"**{title}**")[2].partition("\n**")[0]


def names(text: str) -> list[str]:
    """Returns the last part of each name in code."""
    return re.findall(r"`(?:\w+::)*(\w+)`", text)


def rows() -> list[tuple[list[str], str]]:
    """Returns the functions of each row of the table, and what it says of them."""
    return [(names(functions), assumed) for functions, assumed in ROW.findall(section("The axioms."))]


def symbols(program: Path, *options: str) -> list[list[str]]:
    """Returns the type and the name of each symbol. Weak ones are left out, as a program runs without them."""
    done = subprocess.run(("nm", *options, program), stdout=subprocess.PIPE, stderr=subprocess.DEVNULL, check=True, text=True)
    found = [line.split()[-2:] for line in done.stdout.splitlines()]
    return [[kind, name.partition("@")[0]] for kind, name in found if kind not in ("w", "v")]


def check_program(report: Report, program: Path) -> None:
    """Compares the functions that a program has with those that the page names."""
    imported = {name for _, name in symbols(program, "--dynamic", "--undefined-only")}
    own = {name for kind, name in symbols(program) if kind == "T"}
    named = set(names(section("Other imports.")))
    for functions, assumed in rows():
        named |= set(functions)
        for name in functions:
            if own or not name.startswith(OF_KIT):  # a release has no names of its own functions
                compare(report, f"{program.name} has {name}", ABSENT not in assumed, name in own | imported)
    compare(report, f"{program.name}: imports that the page doesn't name", [], sorted(imported - named))
    compare(report, f"{program.name}: other imports that it doesn't have", [], sorted(set(names(section("Other imports."))) - imported))


def check_axioms(report: Report) -> None:
    """Compares the table with what the prover lists."""
    listed = sorted(name for functions, _ in rows() for name in functions if name not in BELOW)
    for crate in PROGRAMS:
        done = subprocess.run(
            ("rt", "check", "--list-axioms"),
            cwd=CRATES / crate,
            stdout=subprocess.PIPE,
            stderr=subprocess.STDOUT,
            text=True,
            errors="replace",
        )
        compare(report, f"{crate}: axioms, by rt check --list-axioms", listed, sorted(REACHED.findall(done.stdout)))


def check_count(report: Report) -> None:
    listed = [name for functions, _ in rows() for name in functions if name not in BELOW]
    compare(report, "the number of axioms", COUNT.findall(PAGE.read_text()), [str(len(set(listed)))])
    compare(report, "axioms that are listed once", len(set(listed)), len(listed))


def check_unsafe(report: Report) -> None:
    """Compares the places of `unsafe` with those that the page names."""
    named = [(crate, file) for file, crate in re.findall(r"`(\w+\.rt)`\s+of\s+`(\w+)`", section("`unsafe`."))]
    found = [
        (path.relative_to(CRATES).parts[0], path.name)
        for path in CRATES.glob("*/src/**/*.rt")
        for line in code_lines(path, "//")
        for _ in re.findall(r"\bunsafe\b", line.text)
    ]
    compare(report, "the places of unsafe", sorted(named), sorted(found))


def compare(report: Report, case: str, page: object, found: object) -> None:
    if page == found:
        report.add_ok(case)
    else:
        report.add_difference(case, f"the page says {page}, and it is {found}")


def main() -> int:
    parser = parser_of(__doc__)
    parser.add_argument("--proved", action="store_true")
    add_program(parser)
    arguments = parser.parse_args()
    need("nm:binutils")
    report, program = Report(), find_program(arguments.program)
    for each in (program, find_packed_program(program)):
        check_program(report, each)
    check_count(report)
    check_unsafe(report)
    if arguments.proved:
        need("rt:the Rattle kit")
        check_axioms(report)
    return report.end()


if __name__ == "__main__":
    sys.exit(main())
