"""What is searched for, an address or a host and a time, as the text of a query."""
import re
from collections.abc import Mapping
from dataclasses import dataclass, replace
from typing import Optional

from ..history import quoted
from . import dates
from .markup import Link, link

MATCHES = {
    "": "as it is typed",
    "exact": "this URL only",
    "prefix": "URLs that begin with it",
    "host": "all URLs of the host",
    "domain": "the host and all hosts below it",
}
_DIGITS = re.compile("[0-9]{1,14}")


@dataclass(eq=False)
class NotShown(Exception):
    """Why a page isn't shown: what was refused and why, in words, and the status of the answer."""

    what: str
    why: str
    status: int = 400

    def __str__(self) -> str:
        return f"{self.what} {self.why}"


# Why the program refuses a query, by the names that docs/QUERY.md has.
REASONS = {
    "QueryTooLong": "It has more than 65,536 bytes.",
    "NotText": "It isn't a text in UTF-8.",
    "BadMatch": "There is no such match.",
    "BadStamp": "A time is a year, a year and a month, or a year, a month and a day: 2016, 2016-03 " "or 2016-03-01.",
    "BadResume": "The place at which the list was to continue isn't one.",
    "NoUrl": "Nothing was typed.",
    "BadUrl": "It isn't a URL that the URL Standard accepts. All URLs of a host are "
    "found only for web URLs, which begin with http:// or https://.",
}


@dataclass(frozen=True)
class Search:
    """What was typed, which addresses match, and the first digits of the first and last timestamp.

    `key` is a key of an index, which is searched for in the place of what was typed.
    """

    typed: str
    match: str = ""
    first: str = ""
    last: str = ""
    key: str = ""

    @classmethod
    def of(cls, query: Mapping[str, str]) -> "Search":
        """Returns the search of the values of a form. Raises NotShown."""
        search = cls(
            query.get("url", "").strip(),
            query.get("match", ""),
            dates.digits_of(query.get("from", "")),
            dates.digits_of(query.get("to", "")),
            query.get("key", ""),
        )
        if not search.typed and not search.key:
            raise NotShown("The search was refused.", REASONS["NoUrl"])
        if search.match not in MATCHES:
            raise NotShown(f"The match “{search.match}” was refused.", REASONS["BadMatch"])
        for typed, digits in ((query.get("from", ""), search.first), (query.get("to", ""), search.last)):
            if digits and not _DIGITS.fullmatch(digits):
                raise NotShown(f"The time “{typed}” was refused.", REASONS["BadStamp"])
        return search

    @property
    def is_single(self) -> bool:
        """Whether one address is searched for."""
        if self.key:
            return self.match in ("", "exact")
        if self.match:
            return self.match == "exact"
        return not self.typed.startswith("*.") and not self.typed.endswith("*")

    @property
    def shown(self) -> str:
        return self.typed or self.key

    def within(self, digits: str) -> "Search":
        """Returns the search in the year, month or day of these first digits of a timestamp."""
        return replace(self, first=digits, last=digits)

    def ever(self) -> "Search":
        """Returns the search at any time."""
        return replace(self, first="", last="")

    def query(self, **more: Optional[str]) -> str:
        """Returns the text of the query, with further parameters."""
        pairs: dict[str, Optional[str]] = {
            "key" if self.key else "url": self.key or self.typed,
            "matchType": self.match,
            "from": self.first,
            "to": self.last,
            **more,
        }
        return "&".join(f"{name}={quoted(value)}" for name, value in pairs.items() if value)

    def link(self, path: str, fragment: str = "", /, **more: Optional[str]) -> Link:
        """Returns a link to a page of this search."""
        values: dict[str, Optional[str]] = {
            "url": self.typed,
            "match": self.match,
            "from_": self.first,
            "to": self.last,
            "key": self.key,
            **more,
        }
        return link(path, fragment, **values)

    def refusal(self, name: str) -> NotShown:
        """Returns why this search is refused, from the name that the program gives it."""
        why = REASONS.get(name, "The program has refused the query.")
        return NotShown(f"The search for “{self.shown}” was refused ({name}).", why)
