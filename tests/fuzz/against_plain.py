#!/usr/bin/env python3
"""Compares what warcdx writes with plain programs, on small indexes, archives and queries that are made at random.

usage: against_plain.py [--cases N | --seconds N | --case NUMBER] [--seed N] [--jobs N] [PROGRAM]

A case is one to four indexes, a query and sizes of pages. The indexes share places, have lines of equal keys and stamps in any order, and lines
in other spellings than warcdx writes. One query in five or so is refused. `query` and `pages` have to write the same bytes as the plain program,
or be refused in the same way, and `serve` has to reply with either. What `query` writes page by page, with the resume keys as they were
printed, has to be what `pages` writes. `check` has to count the lines, and `merge` to write the plain collection.

Every third case is one to three archives, a choice of types, a query and sizes. The records are responses with HTTP heads of all kinds, and
others; two archives in five have a record at fault, often in several ways, and with them come six that have nothing else. `list` and `verify`
have to report what the plain reader does, `index` has to write the plain index, `scan` the pages of its lines, and `get` the bytes of a record.
Half of the archives are named by a path with a folder.

Prints what was tried, the numbers of the cases that differ, what is wrong in the first of them, and
the counts. The files of the first are kept in the system's temporary folder. The exit status is 0,
or 1 if a case differs.
"""
import pathlib
import random
import sys
from collections.abc import Sequence
from typing import NamedTuple, Optional

sys.path.insert(0, str(pathlib.Path(__file__).resolve().parents[1]))

from archive_trials import captures_of, expect_index, expect_record, expect_reports, faults_said, option, read_all, some_types
from case_runs import run_cases
from index_trials import expect_checks, expect_merge
from plain import captures, keys, lines, queries
from plain.captures import Capture
from plain.lines import Line
from random_archives import archive, record_at_fault
from random_indexes import dealt, few_values, line
from random_queries import query
from trial import Done, Trial, Wrong


class Asked(NamedTuple):
    """A query text with its meaning, and the sizes of pages."""

    text: str
    query: Optional[queries.Query]
    refusal: str  # if it has no meaning
    sizes: list[int]

    def sizes_text(self) -> str:
        return ",".join(map(str, self.sizes))


def some_query(choice: random.Random, all_lines: Sequence[Line]) -> Asked:
    """A query text. It may raise `keys.Unknown`."""
    text = query(choice, all_lines)
    sizes = [choice.randint(1, 6) for _ in range(choice.randint(1, 4))]
    try:
        return Asked(text, queries.read_query(text), "", sizes)
    except queries.Refused as refusal:
        return Asked(text, None, str(refusal), sizes)


def tally_query(trial: Trial, asked: Asked) -> None:
    if asked.query is None:
        trial.tally["refused queries"] += 1
        trial.tally[f"refused as {asked.refusal}"] += 1
        return
    trial.tally["queries"] += 1
    trial.tally[f"match {asked.query.match}"] += 1
    trial.tally[f"output {asked.query.output}"] += 1
    trial.tally["collapsed queries"] += asked.query.part is not None


# ---- queries over indexes


def try_queries(trial: Trial) -> None:
    choice = trial.choice
    values = few_values(choice)
    bodies = [line(choice, values) for _ in range(choice.randrange(40))]
    texts = dealt(choice, [body for body in bodies if lines.is_line(body)], choice.randint(1, 4))
    names = trial.write(texts, "cdxj")
    all_lines = lines.read_lines(texts)
    asked = some_query(choice, all_lines)
    trial.tally["indexes"] += len(names)
    trial.tally["lines"] += len(all_lines)
    tally_query(trial, asked)
    expect_checks(trial, names, texts, [None] * len(names))
    expect_merge(trial, names, texts, [None] * len(names))
    expect_answer(trial, asked, all_lines, names)
    expect_pages(trial, asked, all_lines, names)
    if choice.random() < 0.1 and asked.query is not None:
        expect_walk(trial, asked, asked.query, all_lines, names)


def expect_answer(trial: Trial, asked: Asked, all_lines: list[Line], names: Sequence[str]) -> None:
    """`query` writes the plain answer, and `serve` replies with it."""
    if asked.query is None:
        trial.expect(*refused(asked), "query", asked.text, *names)
        trial.expect(0, f"refused {asked.refusal}\n.\n".encode(), b"", "serve", *names, lines=asked.text.encode())
        return
    answer = queries.answer(asked.query, all_lines)
    trial.expect(0, answer, b"", "query", asked.text, *names)
    trial.expect(0, answer + b".\n", b"", "serve", *names, lines=asked.text.encode())


def expect_pages(trial: Trial, asked: Asked, all_lines: list[Line], names: Sequence[str]) -> None:
    trial.expect(*plain_pages(asked, all_lines), "pages", asked.sizes_text(), asked.text, *names)


def plain_pages(asked: Asked, all_lines: list[Line]) -> Done:
    if asked.query is None:
        return refused(asked)
    return Done(0, queries.pages(asked.query, asked.sizes, all_lines), b"")


def refused(asked: Asked) -> Done:
    return Done(1, b"", f"warcdx: query: {asked.refusal}\n".encode())


def expect_walk(trial: Trial, asked: Asked, asked_query: queries.Query, all_lines: list[Line], names: Sequence[str]) -> None:
    """Page by page, with the resume keys as they are printed. The parameters' names have no escapes then."""
    size = asked.sizes[-1]
    pieces = [piece.partition("=") for piece in asked.text.split("&") if piece]
    named = [(queries.decoded(name), value) for name, _, value in pieces]
    kept = [f"{name}={value}" for name, value in named if name not in ("limit", "resumeKey", "showResumeKey")]
    start = [f"resumeKey={value}" for name, value in named if name == "resumeKey"]
    wanted = queries.pages(asked_query, [size], all_lines)
    text = b""
    while True:
        page = trial.run("query", "&".join([*kept, *start, f"limit={size}", "showResumeKey=true"]), *names).output
        text += page
        trial.tally["steps of a walk"] += 1
        if not page or len(text) >= len(wanted) or not wanted.startswith(text):
            break
        start = ["resumeKey=" + page.splitlines()[-1].decode().strip('[]"')]
    if text != wanted:
        raise Wrong(f"the walk of {asked.text} in steps of {size}\nwanted {wanted!r}\nfound  {text!r}")


# ---- archives


def try_archives(trial: Trial) -> None:
    choice = trial.choice
    faults = [record_at_fault(choice) for _ in range(6)]
    expect_reports(trial, trial.write(faults, "fault"), read_all(trial, faults))
    texts = [archive(choice, 8, share_at_fault=0.4) for _ in range(choice.randint(1, 3))]
    names = trial.write(texts, "warc", choice.choice((".", "folder")))
    reads = read_all(trial, texts)
    types = some_types(choice)
    expect_reports(trial, names, reads)
    expect_index(trial, names, reads, types)
    expect_record(trial, names[0], texts[0], reads[0])
    made = captures_of(names, reads, types)
    if any(each.key is None for each in made):
        trial.tally["archives that aren't scanned, as the plain reader doesn't know a key"] += 1
        return
    all_lines = lines_of(made)
    asked = some_query(choice, all_lines)
    errors = faults_said(names, reads)
    wanted = plain_pages(asked, all_lines)
    if errors and asked.query is not None:
        wanted = Done(1, b"", errors[0])
    trial.expect(*wanted, "scan", *option(types), asked.sizes_text(), asked.text, *names)


def lines_of(made: Sequence[Capture]) -> list[Line]:
    return lines.read_lines([captures.index(made)])


def try_case(trial: Trial, number: int) -> None:
    try:
        if number % 3 == 2:
            try_archives(trial)
        else:
            try_queries(trial)
    except keys.Unknown:
        trial.tally["queries of which the plain reader doesn't know the key"] += 1


if __name__ == "__main__":
    sys.exit(run_cases(__doc__, 1000, try_case))
