#!/usr/bin/env python3
"""Widens what contracts say, one part at a time, and lists the parts that no law of the crate notices.

usage: widen.py [--list] [--only WORDS] CRATE

A part is a field of a record, or a conjunct of a clause of a definition, which stands in the crate's specs and is reached by the contract of a call of a
door. It is replaced by ⊤, which holds of anything. Then the prover checks the laws of the crate. If all are still proved, no law notices that the contract
says less: a body and a definition that are changed together would be seen by examples, edits and tests alone.

Proofs that make a record give a value for each field. Where that is written out, the script writes the value of ⊤ in its place. A part may also be noticed
because a proof gives another value in another form, so the line of a part has the first error.

With --only, parts are tried whose line in the list contains WORDS. With --list the parts are only listed.

Prints a line for each part, and the counts. The exit status is 0, or 1 if there are parts that no law notices. The crates below have to be proved. A part
takes some twenty seconds.
"""
import re
import shutil
import subprocess
import sys
from collections.abc import Callable, Iterator, Sequence
from itertools import accumulate, takewhile
from pathlib import Path
from typing import NamedTuple

sys.path.insert(0, str(Path(__file__).resolve().parents[1] / "tests"))

from build import Crate, direct_dependencies, room_of, with_crates_below
from check_proved import calls_of_doors, contracts
from definitions import CRATES, Item, code_lines, scope_of
from program import ROOT, need, parser_of
from weigh import HEADLINES, contract, definitions_behind, has_contract

ANYTHING, ITS_VALUE = "⊤", "tt"
A_TYPE = "Type 0"
SAYING_NOTHING = (ANYTHING, "Unit {0}", "ℕ")
FIELD = re.compile(r"\s*pub (\w+) :(?:\s|$)")
LAWS = "laws.rt"
FUNCTION = re.compile(r"^pub fn (\w+)", re.MULTILINE)
IMPORTS_ANYTHING = re.compile(rf"^use .*{ANYTHING}", re.MULTILINE)
MATCH = re.compile(r"(?:Match\w+|IfOk|IfErr|IfSome|OpensFirst|ReadsFirst|WithTold)\s")
BINDER = re.compile(r"\([^()]* : .*\)|\{[^{}]* : .*\}", re.DOTALL)
LAMBDA = re.compile(r"λ [^.()]*\. ")
EQUALS = re.compile(r" =(?=\s)")
OPENING, CLOSING = "([{", ")]}"
LOST = re.compile(r"^fn (\S+): (?!proved)", re.MULTILINE)
NOT_PROVED = re.compile(r"^(?P<path>\S+?\.(?:rt|antt)):\d+.*?error: (?P<what>.*)", re.MULTILINE)


class Part(NamedTuple):
    """A part of a definition that can be replaced: its text stands between two places of a file."""

    path: Path
    definition: str
    what: str
    begin: int
    end: int
    fields: tuple[str, ...]  # those of the record, or none

    @property
    def text(self) -> str:
        return " ".join(self.path.read_text()[self.begin : self.end].split())

    def __str__(self) -> str:
        return f"{self.path.stem}: {self.definition}, {self.what}: {self.text}"


class Row(NamedTuple):
    """A line of a definition without its comment, and where it begins in its file."""

    begin: int
    text: str

    @property
    def end(self) -> int:
        return self.begin + len(self.text)

    @property
    def depth(self) -> int:
        return len(self.text) - len(self.text.lstrip())

    def is_clause_of(self, name: str) -> bool:
        return self.text.split()[0] == name


# ---- the parts of a definition


def stripped(text: str, begin: int, end: int) -> tuple[int, int]:
    """Returns the places of a part of a text without the white space around it."""
    part = text[begin:end]
    return end - len(part.lstrip()), begin + len(part.rstrip())


def units_of(text: str, begin: int, end: int) -> Iterator[tuple[str, int, int]]:
    """Yields the parts of an expression between `→` and `×` that stand in no parentheses, each with the sign behind it. A `λ` goes to the end."""
    depth, first = 0, begin
    for at in range(begin, end):
        letter = text[at]
        depth += (letter in OPENING) - (letter in CLOSING)
        if depth == 0 and letter == "λ":
            break
        if depth == 0 and letter in "→×" and text[at - 1].isspace():
            yield letter, first, at
            first = at + 1
    yield "", first, end


def conjuncts_of(text: str, begin: int, end: int) -> Iterator[tuple[int, int]]:
    """Yields the places of the conjuncts of an expression, also those in the arms of a `⊎` and of a match: no premises, and no values that exist."""
    for sign, *unit in units_of(text, begin, end):
        first, last = stripped(text, *unit)
        if sign != "→" and not BINDER.fullmatch(text, first, last) and text[first:last] not in SAYING_NOTHING:
            inner = [place for group in groups_of(text, first, last) for place in conjuncts_of(text, *group)]
            yield from inner or [(first, last)]


def groups_of(text: str, begin: int, end: int) -> Iterator[tuple[int, int]]:
    """Yields what stands in the parentheses of an expression that is one group, an alternative of groups, or a match with a function for each case."""
    groups, depth, first = [], 0, begin
    for at in range(begin, end):
        depth += (text[at] == "(") - (text[at] == ")")
        if text[at] == "(" and depth == 1:
            first = at
        if text[at] == ")" and depth == 0:
            groups.append((first + 1, at))
    if text[begin] == "(" and text[end - 1] == ")":
        yield from groups
    elif MATCH.match(text, begin, end):
        for first, last in groups:
            if function := LAMBDA.match(text, first, last):
                yield function.end(), last


def rows_of(item: Item) -> list[Row]:
    """Returns the lines of a definition."""
    begins = list(accumulate((len(line) for line in item.path.read_text().splitlines(keepends=True)), initial=0))
    first, *rows = (Row(begins[line.number - 1], line.text) for line in code_lines(item.path, "--") if line.number >= item.line)
    return [first, *takewhile(lambda row: row.depth > first.depth or row.is_clause_of(item.name), rows)]


def spans_of(rows: Sequence[Row], begins: Callable[[Row], object]) -> Iterator[tuple[int, int]]:
    """Yields the places of the groups of lines of which each begins with such a line."""
    firsts = [n for n, row in enumerate(rows) if begins(row)]
    for first, after in zip(firsts, [*firsts[1:], len(rows)]):
        yield rows[first].begin, rows[after - 1].end


def fields_of(item: Item, rows: Sequence[Row], text: str) -> Iterator[Part]:
    """Yields the fields of a record. One that a later field speaks of is a value, and no part."""
    heads = [FIELD.match(text, begin, end) for begin, end in spans_of(rows, lambda row: FIELD.match(row.text))]
    fields = [(head[1], head.end(), head.endpos) for head in heads if head]
    names = tuple(name for name, _, _ in fields)
    for n, (name, begin, end) in enumerate(fields):
        later = " ".join(text[first:last] for _, first, last in fields[n + 1 :])
        if not re.search(rf"(?<![\w.]){name}(?!\w)", later) and not text[begin:end].endswith((ANYTHING, A_TYPE)):
            yield Part(item.path, item.name, f"field {name}", begin, end, names)


def clauses_of(item: Item, rows: Sequence[Row], text: str) -> Iterator[Part]:
    """Yields the conjuncts of the clauses of a definition."""
    for number, span in enumerate(spans_of(rows[1:], lambda row: row.is_clause_of(item.name)), 1):
        if equals := EQUALS.search(text, *span):
            for k, place in enumerate(conjuncts_of(text, equals.end(), span[1]), 1):
                yield Part(item.path, item.name, f"clause {number}, conjunct {k}", *place, ())


def parts_of(item: Item) -> list[Part]:
    """Returns the parts of a definition, which is none if it isn't a relation."""
    rows, text = rows_of(item), item.path.read_text()
    if "record " in rows[0].text:
        has_arguments = any(letter in rows[0].text for letter in "({")  # one without is a value
        return list(fields_of(item, rows, text)) if has_arguments else []
    signature = " ".join(row.text for row in takewhile(lambda row: row is rows[0] or not row.is_clause_of(item.name), rows))
    return list(clauses_of(item, rows, text)) if signature.endswith((f" : {A_TYPE}", f"→ {A_TYPE}")) else []


def parts_of_crate(crate: str) -> list[Part]:
    """Returns the parts of the definitions of a crate that a contract of a door's call reaches, in the order of its files. A law is no such call."""
    calls = (contract(call) for call in {*filter(has_contract, calls_of_doors(contracts())), *HEADLINES})
    found = set[Item]().union(*(definitions_behind(call) for call in calls if call.path.name != LAWS))
    own = [item for item in found if item.path.is_relative_to(CRATES / crate / "specs")]
    return [part for item in sorted(own, key=lambda item: (item.path, item.line)) for part in parts_of(item)]


# ---- a checkout in which a part says nothing


def records_in(text: str) -> Iterator[list[tuple[str, int, int]]]:
    """Yields the fields of each record that is written out in a text of proofs: their names, and the places of their values."""
    for found in re.finditer(r"\brecord \{", text):
        fields, depth, first, at = [], 1, found.end(), found.end()
        while depth and at < len(text):
            depth += (text[at] in OPENING) - (text[at] in CLOSING)
            if depth == 0 or (depth == 1 and text[at] == ";"):
                if value := re.compile(r"\s*(\w+) = ").match(text, first, at):
                    fields.append((value[1], value.end(), at))
                first = at + 1
            at += 1
        yield fields


def with_its_value(text: str, part: Part) -> str:
    """Returns a text of proofs in which records that have the part's fields give it the value of what holds of anything."""
    name = part.what.partition(" ")[2]
    values = [
        each[1:] for record in records_in(text) if {field[0] for field in record} == {*part.fields} for each in record if each[0] == name
    ]
    for begin, end in sorted(values, reverse=True):
        text = f"{text[:begin]}{ITS_VALUE} {text[end:]}"
    return text


def widen(room: Path, part: Part) -> None:
    """Writes the widened definition, and the proofs that have to give another value."""
    text = part.path.read_text()
    text = text[: part.begin] + ANYTHING + text[part.end :]
    if not IMPORTS_ANYTHING.search(text):
        text = text.replace("\nuse ", f"\nuse Rattle.std.specs.Prelude.{{{ANYTHING}}}\nuse ", 1)
    (room / part.path.relative_to(ROOT)).write_text(text)
    for path in sorted(room.glob("crates/*/proofs/**/*.antt")) if part.fields else ():
        if (changed := with_its_value(path.read_text(), part)) != path.read_text():
            path.write_text(changed)


# ---- what notices a part


def reached_by_laws(crate: str) -> set[Item]:
    """Returns the definitions that the laws of a crate reach."""
    path = CRATES / crate / "src" / LAWS
    names = FUNCTION.findall(path.read_text()) if path.is_file() else []
    return set[Item]().union(*(definitions_behind(scope_of(path).items[name]) for name in names))


def noticed_by(room: Path, crate: str) -> str:
    """Returns the laws that aren't proved any more, with the first error, or an empty text if all are proved.

    A lemma beside those of the laws may have lost its proof. That counts for nothing.
    """
    done = run_rt(room / "crates" / crate, "check", "--only", f"{crate}::laws")
    if not (laws := ", ".join(name.rpartition("::")[2] for name in LOST.findall(done.stdout))):
        return ""
    error = NOT_PROVED.search(done.stdout)
    return f"{laws} ({error['path']}: {error['what'][:80]})" if error else laws


def run_rt(folder: Path, *words: str) -> "subprocess.CompletedProcess[str]":
    return subprocess.run(
        ("rt", *words), cwd=folder, stdin=subprocess.DEVNULL, stdout=subprocess.PIPE, stderr=subprocess.STDOUT, text=True, errors="replace"
    )


def try_parts(crate: Crate, parts: Sequence[Part]) -> int:
    """Tries parts, and returns how many nothing notices."""
    unnoticed, reached = 0, {(item.path, item.name) for item in reached_by_laws(crate.name)}
    with room_of(crate) as room:
        kept = room / "kept"
        for folder in ("specs", "proofs"):
            shutil.copytree(room / "crates" / crate.name / folder, kept / folder)
        for part in parts:
            laws = ""
            if (part.path, part.definition) in reached:
                widen(room, part)
                laws = noticed_by(room, crate.name)
                for folder in ("specs", "proofs"):
                    shutil.copytree(kept / folder, room / "crates" / crate.name / folder, dirs_exist_ok=True)
            unnoticed += not laws
            print(f"{'noticed by ' + laws if laws else 'unnoticed'}: {part}", flush=True)
    return unnoticed


def main() -> int:
    parser = parser_of(__doc__)
    parser.add_argument("--list", action="store_true", help="only list the parts")
    parser.add_argument("--only", metavar="WORDS", default="", help="the parts whose line in the list contains WORDS")
    parser.add_argument("crate", metavar="CRATE", help="a crate of crates.txt")
    arguments = parser.parse_args()
    if arguments.crate not in direct_dependencies():
        parser.error(f"{arguments.crate}: not in crates.txt")
    parts = [part for part in parts_of_crate(arguments.crate) if arguments.only in str(part)]
    if arguments.list:
        print(*parts, sep="\n")
        return 0
    need("rt:the Rattle kit")
    unnoticed = try_parts(next(crate for crate in with_crates_below([arguments.crate]) if crate.name == arguments.crate), parts)
    print(f"{len(parts)} parts, {unnoticed} unnoticed")
    return 1 if unnoticed else 0


if __name__ == "__main__":
    sys.exit(main())
