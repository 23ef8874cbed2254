"""The start page of a collection: what it holds."""
import datetime
import json
import re
from collections import Counter
from collections.abc import Mapping
from typing import Any, Optional

from werkzeug.wrappers import Response

from warcdx.url_keys import host_of

from ..collection import Collection
from ..generation import open_regular
from ..history import quoted
from . import calendars, dates
from .counting import Counts
from .layout import card, collection_page, row, table
from .markup import Child, cut, element, followed, link

MOST_ROWS = 20  # of a table
MOST_DAMAGED = 20
MOST_SUMMARY = 16 << 20  # bytes
SUMMARY = "current/summary.json"  # in the folder of an index, which has its name and ".d" if it is a file
_MOST_NAME = 200  # characters of a value
_YEAR = re.compile("[0-9]{4}")
# With the front of a key before it, the place after all keys that begin so.
_AFTER = "\U0010ffff 00000000000000 - 0"


def start_page(collection: Collection) -> Response:
    summary = None if collection.rules else summary_of(collection)
    content: list[Child] = [element("h1", collection.title), element("p", "Search for a URL or a host to see when it was captured.")]
    if summary is not None:
        content += _summary(summary)
    else:
        content += _some_hosts(some_hosts(collection))
        content.append(None if collection.rules else _files(collection))
    return collection_page(collection, collection.title, *content)


def summary_of(collection: Collection) -> Optional[dict[str, Any]]:
    """Returns what the summary of the first index says of the collection, if there is one."""
    first = collection.settings.indexes[0]
    path = (first if first.is_dir() else first.with_name(f"{first.name}.d")) / SUMMARY
    try:
        with open(open_regular(path), "rb") as file:
            text = file.read(MOST_SUMMARY + 1)
        found = json.loads(text) if len(text) <= MOST_SUMMARY else None
    except (OSError, ValueError, RecursionError):
        return None
    return found if isinstance(found, dict) else None


def _summary(summary: Mapping[str, Any]) -> list[Child]:
    """Returns what a summary says. What isn't as `warcdx-update` writes it is left out."""
    captures, archives = (_number(summary.get(name)) for name in ("captures", "archives"))
    facts: list[Child] = []
    if captures is not None:
        facts.append(f"{dates.many(captures, 'capture')}")
    if archives is not None:
        facts.append(f" in {dates.many(archives, 'archive')}")
    if (size := _number(summary.get("bytes"))) is not None:
        facts.append(f" of {in_units(size)}")
    if isinstance(made := summary.get("made"), str):
        timestamp = dates.timestamp_of(made)
        facts.append(f", as of {dates.in_words(timestamp) if timestamp else cut(made, 40)}")
    found: list[Child] = [element("p", facts, ".", class_="held")] if facts else []
    counted = _counts(summary.get("years"))
    years = {year: count for year, count in counted.items() if _YEAR.fullmatch(year)}
    if years:
        counts = Counts(years=Counter(years), total=sum(years.values()))
        found.append(calendars.years_card(counts, None))
    tables = [
        _table(words, one, _counts(summary.get(name)))
        for name, words, one in (("hosts", "Hosts", "Host"), ("types", "Types", "Type"), ("statuses", "Statuses", "Status"))
    ]
    found.append(element("div", tables, class_="columns"))
    found.append(_damaged(summary.get("damaged")))
    return found


def _number(value: object) -> Optional[int]:
    return value if type(value) is int and value >= 0 else None


def _counts(value: object) -> dict[str, int]:
    if not isinstance(value, dict):
        return {}
    return {str(name): count for name, count in value.items() if _number(count) is not None}


def _table(words: str, one: str, counts: Mapping[str, int]) -> Child:
    """Returns the values with the most captures. Hosts are links to their captures."""
    if not counts:
        return None
    names = {"value": one, "count": "Captures"}
    most = sorted(counts.items(), key=lambda each: -each[1])[:MOST_ROWS]
    rows = (row(names, _host(value) if one == "Host" else cut(value, _MOST_NAME), f"{count:,}") for value, count in most)
    return card(words, table(words, names, rows, "counts"))


def _host(host: str) -> Child:
    shown = element("bdi", cut(host, _MOST_NAME))
    if host.endswith(":"):  # a scheme, whose URLs have no host
        return shown
    return followed(shown, link("search", url=host, match="host"))


def _damaged(value: object) -> Child:
    """Returns the archives that are damaged, each with the offset at which, and the cause."""
    if not isinstance(value, list) or not value:
        return None
    names = {"archive": "Archive", "offset": "At byte", "cause": "Cause"}
    rows = []
    for each in value[:MOST_DAMAGED]:
        if isinstance(each, dict):
            fields = (each.get(name, "-") for name in names)
            texts = (f"{field:,}" if type(field) is int else str(field) for field in fields)
            rows.append(row(names, *(element("bdi", cut(text, _MOST_NAME)) for text in texts)))
    rest = len(value) - MOST_DAMAGED
    what = element("p", "Captures after the damage of an archive aren't in the collection.")
    more = element("p", f"{dates.many(rest, 'archive')} more.") if rest > 0 else None
    return card("Damaged archives", what, table("Damaged archives", names, rows), more)


def some_hosts(collection: Collection) -> list[str]:
    """Returns the first hosts in the order of the index, by one short query for each."""
    found: dict[str, None] = {}
    after = ""
    for _ in range(MOST_ROWS):
        query = "key=&matchType=prefix" + (f"&resumeKey={quoted(after)}" if after else "")
        captures = collection.captures(query, 1)
        if not captures:
            break
        key = captures[0].urlkey
        host = host_of(key)
        scheme = key.partition(":")[0] + ":"
        found[host or scheme] = None
        after = (key.partition(")")[0] + ")" if host else scheme) + _AFTER
    return list(found)


def _some_hosts(hosts: list[str]) -> list[Child]:
    if not hosts:
        return [element("p", "The collection has no captures.")]
    words = "Hosts" if len(hosts) < MOST_ROWS else "Some of the hosts"
    listed = element("ul", (element("li", _host(host)) for host in hosts), class_="hosts")
    return [card(words, listed)]


def _files(collection: Collection) -> Child:
    """Returns how many indexes there are, their size, and when they were changed."""
    sizes = [each.size for each in collection.generation.stamp]
    changed = datetime.datetime.fromtimestamp(collection.modified, datetime.timezone.utc)
    words = dates.many(len(sizes), "index", "indexes")
    day = dates.day_in_words(changed.date())
    return element("p", f"{words} of {in_units(sum(sizes))}, changed on {day}.", class_="help")


def in_units(size: int) -> str:
    """Returns a number of bytes in the unit in which it has up to four digits."""
    for unit in ("bytes", "kB", "MB", "GB"):
        if size < 10_000:
            return f"{size:,} {unit}"
        size = round(size / 1000)
    return f"{size:,} TB"
