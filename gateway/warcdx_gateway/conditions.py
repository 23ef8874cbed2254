"""Conditions on captures that the gateway checks itself: texts and regular expressions."""
import functools
import re
import time
from collections.abc import Sequence
from enum import Enum
from typing import NamedTuple, Optional

import regex

from .refusal import Refusal
from .rows import PLACES, Row
from .work import Work

SPECIAL = frozenset("\\^$.|?*+()[]{}")  # characters that a literal text has not
LONGEST = 1000  # characters of a regular expression
LONGEST_VALUE = 65_536  # characters that an expression is tried on, with up to 200 bytes for each
MOST_COPIES = 200_000  # characters of a regular expression in which repeated parts are written out
STEP = 1.0  # seconds for one match
# What `regex` raises at an expression that it can't read.
UNREADABLE = (regex.error, LookupError, OverflowError, RecursionError, TypeError, ValueError)
ESCAPE = re.compile(r"\\.", re.DOTALL)
RECURSION = re.compile(r"\(\?(?:R|[+-]?[0-9]|&|P>)")


class Test(Enum):
    """How the text of a condition is compared with a value."""

    EQUALS = "equals"
    CONTAINS = "contains"
    MATCHES = "matches"  # a regular expression, the whole value
    BEGINS = "begins"  # a regular expression, a front of the value


class Condition(NamedTuple):
    """A condition on a field, by its name in the program. It has a pattern if the test has one."""

    field: str
    test: Test
    text: str
    is_negated: bool
    parameter: str
    pattern: Optional["regex.Pattern[str]"] = None


class Conditions:
    """Conditions that all have to hold.

    `seconds` is the time for all regular expressions of a query, as far as `work` has that.
    """

    def __init__(self, conditions: Sequence[Condition], seconds: float, work: Work) -> None:
        self._conditions = conditions
        self._work = work
        self._step = min(STEP, work.step)
        self._left = seconds
        self._end = 0.0

    def select(self, rows: list[Row]) -> list[Row]:
        """Returns the rows for which all conditions hold. Raises Refusal if that takes too long."""
        self._end = time.monotonic() + self._left
        try:
            for condition in self._conditions:
                place, holds = PLACES[condition.field], functools.partial(self._holds, condition)
                rows = [row for row in rows if holds(row[place]) != condition.is_negated]
            return rows
        finally:
            self._left = self._end - time.monotonic()

    def _holds(self, condition: Condition, value: str) -> bool:
        text, pattern = condition.text, condition.pattern
        if pattern is None:
            return value == text if condition.test is Test.EQUALS else text in value
        left = self._end - time.monotonic()
        if left <= 0:
            raise too_slow(condition)
        if len(value) > LONGEST_VALUE:
            cause = f"a value has more than {LONGEST_VALUE} characters"
            raise Refusal("TooSlow", condition.parameter, cause, text)
        match = pattern.fullmatch if condition.test is Test.MATCHES else pattern.match
        try:
            return match(value, timeout=min(self._step, left)) is not None
        except TimeoutError:
            self._work.go_on()
            raise too_slow(condition) from None
        except RuntimeError as error:  # of what `regex` compiles and can't match
            raise bad_pattern(text, f"the regular expression can't be read: {error}") from error


def compiled(text: str) -> "regex.Pattern[str]":
    """Returns the regular expression of a filter, which is kept nowhere else. Raises Refusal."""
    if len(text) > LONGEST:
        raise bad_pattern(text, f"a regular expression has at most {LONGEST} characters")
    if RECURSION.search(ESCAPE.sub("", text)):
        raise bad_pattern(text, "a regular expression doesn't refer to a part of itself")
    if copies(text) > MOST_COPIES:
        raise bad_pattern(text, "the regular expression repeats too much")
    try:
        return regex.compile(text, regex.VERSION0, cache_pattern=False)
    except UNREADABLE as error:
        raise bad_pattern(text, f"the regular expression can't be read: {error}") from error


def copies(text: str) -> int:
    """Returns at least how long an expression is with `aaa` for `a{3}`, as it is compiled."""
    count = len(text)
    for braces in text.split("{")[1:]:
        bound = braces.partition("}")[0].partition(",")[0]
        least = "".join(filter(str.isdigit, bound))
        if not least.isascii():
            raise bad_pattern(text, "the number of a repeat is in the digits 0 to 9")
        if len(least) > 6:
            return MOST_COPIES + 1
        count *= max(int(least or "1"), 1)
    return count


def bad_pattern(text: str, cause: str) -> Refusal:
    return Refusal("BadFilter", "filter", cause, text)


def too_slow(condition: Condition) -> Refusal:
    cause = "the regular expression takes too long"
    return Refusal("TooSlow", condition.parameter, cause, condition.text)
