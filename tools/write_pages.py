#!/usr/bin/env python3
"""Writes the parts of docs/proof/STATEMENT.md, docs/proof/CONTRACTS.md and docs/proof/TRUST.md that are made from the sources.

usage: write_pages.py [--check]

A part stands between a comment that says what it has and the comment `<!-- end -->`:

    <!-- definition CRATE/FILE NAME.. -->   the text of definitions of a file of specs/
    <!-- call CRATE/FILE NAME -->           the contract of a call or what contracts see of a type, in a file of src/, and the definitions
                                            that it reaches
    <!-- laws -->                           the same of each law
    <!-- contracts -->                      the contracts of the calls that docs/proof/PROVED.md names and of the doors' calls, and what contracts
                                            see of the types that it names, but for those that docs/proof/STATEMENT.md has
    <!-- file CRATE/FILE -->                a file of src/, whole
    <!-- kit -->                            the definitions of the kit that all of these reach
    <!-- counts -->                         how many functions, clauses, tests and edits there are

A definition that a page lists under one call isn't listed under the next. It is listed with a hash of its text and of the places of what
its names refer to. A hash is the first 12 digits of SHA-256.

With --check, the pages stay as they are. Then a line is printed for each part. The exit status is 0, or 1 if a part isn't what this
script would write.
"""
import hashlib
import re
import sys
import textwrap
from collections.abc import Iterator
from pathlib import Path

sys.path.insert(0, str(Path(__file__).resolve().parents[1] / "tests"))

from check_proved import Call, calls_named, calls_of_doors, claims, contracts
from definitions import CLAUSE, CRATES, ROOT, Item, hash_of, reached_from, scope_of, whole_hash_of
from program import Report, parser_of

PAGES = ("docs/proof/STATEMENT.md", "docs/proof/CONTRACTS.md", "docs/proof/TRUST.md")
PART = re.compile(
    r"(?P<begin><!-- (?P<kind>definition|call|laws|contracts|file|kit|counts)(?P<words>[^>]*) -->\n)(?P<text>.*?)(?P<end><!-- end -->)",
    re.DOTALL,
)
FUNCTION = re.compile(r"^ *(?:pub(?:\(\w+\))? )?fn ", re.MULTILINE)
TEST = re.compile(r"^ *#\[test\]", re.MULTILINE)
PUBLIC_LAW = re.compile(r"^pub fn (\w+)", re.MULTILINE)
SEEN = re.compile(r"^ *ghost \w+ = ", re.MULTILINE)  # by contracts, of a type
BOXED = re.compile(r"^`([^`]+)`, with all that it reaches `\w+`:\n`([^`:]+)", re.MULTILINE)
CONTRACT = re.compile(rf"^ *{CLAUSE.pattern}", re.MULTILINE)


class Page:
    """A page, with the definitions that it has listed so far."""

    def __init__(self, path: Path) -> None:
        self.path = path
        self._listed: set[Item] = set()
        self._of_kit: dict[str, set[str]] = {}

    def parts(self) -> Iterator[tuple[re.Match[str], str]]:
        """Yields each part that is made, with the text that it should have."""
        for part in PART.finditer(self.path.read_text()):
            words = part["words"].split()
            if part["kind"] == "definition":
                made = block("\n\n".join(item_of("specs", words[0], name).text for name in words[1:]))
            elif part["kind"] == "call":
                made = self._contract(item_of("src", *words))
            elif part["kind"] == "laws":
                made = "\n".join(self._contract(law) for law in laws())
            elif part["kind"] == "contracts":
                made = "\n".join(contracts_by_crate())
            elif part["kind"] == "file":
                made = whole(source_of("src", words[0]))
            elif part["kind"] == "kit":
                made = block("\n".join(self._rows_of_kit()))
            else:
                made = counts()
            yield part, f"\n{made}\n"

    def _contract(self, call: Item) -> str:
        found = []
        for each in reached_from(call):
            if isinstance(each, Item):
                found.append(each)
            else:
                self._of_kit.setdefault(each.module, set()).add(each.name)
        new = [item for item in found if item not in self._listed]
        self._listed.update(new)
        listed = block("\n".join(row_of(item) for item in new)) if new else ""
        return (
            "\n".join(
                (contract_of(call, f"{file_of(call)}:{call.line}"), f"It reaches {count_of(len(found), len(new))}", "", listed)
            ).rstrip()
            + "\n"
        )

    def _rows_of_kit(self) -> Iterator[str]:
        for module, names in sorted(self._of_kit.items()):
            yield from textwrap.wrap(f"{module}: {', '.join(sorted(names))}", 100, subsequent_indent="    ", break_on_hyphens=False)


def contract_of(call: Item, place: str) -> str:
    return f"`{call.name}`, with all that it reaches `{whole_hash_of(call)}`:\n`{place}`\n\n{block(call.text)}"


def count_of(found: int, new: int) -> str:
    if new == found:
        return f"{found} definitions:" if found else "no definition."
    return f"{found} definitions, and all are listed above." if new == 0 else f"{found} definitions. These aren't listed above:"


def row_of(item: Item) -> str:
    return f"{hash_of(item)}  {item.name:<24} {file_of(item)}:{item.line}"


def file_of(item: Item) -> str:
    return str(item.path.relative_to(ROOT))


def block(text: str) -> str:
    return f"```\n{text}\n```\n"


def source_of(folder: str, file: str) -> Path:
    """Returns the path of a file, given as CRATE/FILE, in the crate's folder specs/ or src/."""
    crate, _, rest = file.partition("/")
    return CRATES / crate / folder / f"{rest}.{'antt' if folder == 'specs' else 'rt'}"


def item_of(folder: str, file: str, name: str) -> Item:
    """Returns the item of a file, given as CRATE/FILE, in the crate's folder specs/ or src/."""
    return scope_of(source_of(folder, file)).items[name]


def whole(path: Path) -> str:
    """Returns a file with its hash."""
    text = path.read_text().rstrip("\n")
    return f"`{path.relative_to(ROOT)}` `{hashlib.sha256(path.read_bytes()).hexdigest()[:12]}`:\n\n{block(text)}"


def laws() -> Iterator[Item]:
    """Yields the laws: public functions of the files laws.rt."""
    for path in sorted(CRATES.glob("*/src/laws.rt")):
        for name in PUBLIC_LAW.findall(path.read_text()):
            yield scope_of(path).items[name]


def contracts_by_crate() -> Iterator[str]:
    """Yields a heading for each crate, and the contracts of its calls that docs/proof/STATEMENT.md doesn't have."""
    found = contracts()
    calls = calls_named(found) | calls_of_doors(found)
    types = {name for calls_of, _ in claims() for _, name in calls_of}
    boxed = set(BOXED.findall((ROOT / "docs/proof/STATEMENT.md").read_text()))
    for crate in sorted(path.name for path in CRATES.iterdir()):
        items = [item for path in sorted((CRATES / crate / "src").rglob("*.rt")) for item in scope_of(path).items.values()]
        shown = {label_of(call) for call in calls if call.crate == crate}
        stated = [
            item for item in items if (item.name in shown and CONTRACT.search(item.text)) or (item.name in types and SEEN.search(item.text))
        ]
        chosen = [item for item in stated if (item.name, file_of(item)) not in boxed]
        if chosen:
            yield f"## {crate}\n"
            yield from (contract_of(item, file_of(item)) for item in chosen)


def label_of(call: Call) -> str:
    return f"{call.owner}::{call.name}" if call.owner else call.name


def counts() -> str:
    """Returns a table of what the gate proves and tries."""
    sources = [path.read_text() for path in sorted(CRATES.glob("*/src/**/*.rt"))]
    rows = (
        ("crates", len((ROOT / "crates.txt").read_text().split("\n")) - 1),
        ("functions, each of which is proved", sum(len(FUNCTION.findall(text)) - len(TEST.findall(text)) for text in sources)),
        ("clauses of their contracts", sum(bool(CLAUSE.match(line.strip())) for text in sources for line in text.splitlines())),
        ("tests of the crates", sum(len(TEST.findall(text)) for text in sources)),
        ("edits that `rt ci` tries, and the prover refuses", len(list(CRATES.glob("*/must-fail/*.edit")))),
        ("further edits, for `tests/edits/try_edits.py`", len(list((ROOT / "tests/edits").glob("*/*.edit")))),
    )
    return "\n".join(("| What | Number |", "|---|---|", *(f"| {what} | {number:,} |" for what, number in rows))) + "\n"


def main() -> int:
    parser = parser_of(__doc__)
    parser.add_argument("--check", action="store_true")
    is_check = parser.parse_args().check
    report = Report()
    for name in PAGES:
        path = ROOT / name
        text = path.read_text()
        for part, made in Page(path).parts():
            title = " ".join((f"{name}: {part['kind']}", *part["words"].split()))
            if not is_check:
                text = text.replace(part[0], part["begin"] + made + part["end"])
            elif part["text"] == made:
                report.add_ok(title)
            else:
                report.add_difference(title, "the sources have changed; run tools/write_pages.py, and read what it changes")
        if not is_check:
            path.write_text(text)
    return report.end() if is_check else 0


if __name__ == "__main__":
    sys.exit(main())
