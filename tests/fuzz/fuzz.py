#!/usr/bin/env python3
"""Runs warcdx on archives, indexes and queries that are changed at random, and compares what it says with plain readers.

usage: fuzz.py [--cases N | --seconds N | --case NUMBER] [--seed N] [--jobs N] [PROGRAM]

A case is one of four kinds:
  archives  one to three archives: what `list`, `verify`, `index` and `get` say is what the plain readers of tests/plain say, and of a
            damaged archive the first fault that docs/RECORDS.md names; what `index` writes passes `check` and `sort`; `scan` is `pages` over it
  indexes   one to four indexes: `check` counts them or names the first line at fault; `merge` is their collection; `query` writes the plain
            answer or, where an index has a line at fault, lines of theirs up to one; the pages of `pages` and of a walk by resume keys are
            the page without a limit
  parts     an index cut up or dealt out, where lines repeat: `merge` and `query` of the parts are the index
  queries   six lines of queries: `serve` replies to each as `query` answers it, which is the plain answer
No run may end by a signal, with a status or a line on standard error that docs/COMMANDS.md doesn't name, or after 20 s.

Prints what was tried, the numbers of the cases that differ, what is wrong in the first of them, and
the counts. The files of the first are kept in the system's temporary folder. The exit status is 0,
or 1 if a case differs.
"""
import pathlib
import sys

sys.path.insert(0, str(pathlib.Path(__file__).resolve().parents[1]))

from archive_trials import try_archives
from case_runs import run_cases
from index_trials import try_indexes, try_parts, try_queries
from trial import Trial

KINDS = {"archives": (try_archives, 40), "indexes": (try_indexes, 30), "parts": (try_parts, 10), "queries": (try_queries, 20)}


def try_case(trial: Trial, _number: int) -> None:
    kind = trial.choice.choices(list(KINDS), [share for _, share in KINDS.values()])[0]
    trial.tally[f"cases: {kind}"] += 1
    KINDS[kind][0](trial)


if __name__ == "__main__":
    sys.exit(run_cases(__doc__, 1000, try_case))
