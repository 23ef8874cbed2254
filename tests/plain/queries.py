#!/usr/bin/env python3
"""Answers queries in the plainest way: reads all lines, orders them, selects, cuts pages and prints them, as docs/QUERY.md says.

usage: queries.py [--pages SIZES] QUERY INDEX..

Each line of the indexes has to be one of a capture. The exit status is 0, or 1 if the query is refused.
"""
import itertools
import json
import pathlib
import re
import sys
from collections.abc import Collection, Iterable, Iterator
from typing import Any, Callable, NamedTuple, Optional
from urllib.parse import quote_plus, unquote_to_bytes

sys.path.insert(0, str(pathlib.Path(__file__).resolve().parents[1]))

from plain import keys
from plain.lines import Line, Place, collected, read_lines
from program import parser_of

FIELDS = ("urlkey", "timestamp", "original", "mimetype", "statuscode", "digest", "length", "offset", "filename")
USUAL_FIELDS = FIELDS[:7]
MATCHES = ("exact", "prefix", "host", "domain")
OUTPUTS = ("text", "json", "cdxj")
PATTERN_SIGNS = set("\\^$.|?*+()[]{}")
FOLLOWS = {"exact": (b"",), "host": (b")", b":"), "domain": (b")", b",", b":")}
Part = Callable[[Place], bytes]  # of a place, by which captures are collapsed
Page = tuple[list[Line], Optional[Place]]  # with the place from which the next page goes on, where there is one
Condition = Callable[[dict[str, str]], bool]  # on the values of a line


class Refused(Exception):
    """A query text that means nothing, with the name of its refusal."""


class Query(NamedTuple):
    match: str
    target: bytes
    first: str  # digits with which a stamp may begin
    last: str
    conditions: list[Condition]
    limit: Optional[int]
    resume: Optional[Place]
    shows_key: bool
    fields: tuple[str, ...]
    output: str
    part: Optional[Part]

    def asks_for(self, line: Line) -> bool:
        stamp = line.values["timestamp"]
        return (
            covers(self.match, self.target, line.place.key)
            and self.first <= stamp[: len(self.first)]
            and stamp[: len(self.last)] <= self.last
            and all(holds(line.values) for holds in self.conditions)
        )


def covers(match: str, target: bytes, key: bytes) -> bool:
    if not key.startswith(target):
        return False
    return match == "prefix" or key[len(target) :][:1] in FOLLOWS[match]


# ---- the text of a query


def decoded(text: str) -> str:
    return unquote_to_bytes(text.replace("+", " ")).decode(errors="replace")


def is_digits(text: str, most: int) -> bool:
    return text.isascii() and text.isdigit() and len(text) <= most


def one_of(names: Collection[str], refusal: str) -> Callable[[str], str]:
    def read(text: str) -> str:
        if text not in names:
            raise Refused(refusal)
        return text

    return read


def read_stamp(text: str) -> str:
    if not is_digits(text, 14):
        raise Refused("BadStamp")
    return text


def read_limit(text: str) -> int:
    if not is_digits(text, 7) or not 1 <= int(text) <= 1_000_000:
        raise Refused("BadLimit")
    return int(text)


def read_fields(text: str) -> tuple[str, ...]:
    fields = tuple(text.split(","))
    if not set(fields) <= set(FIELDS):
        raise Refused("BadField")
    return fields


def read_collapse(text: str) -> Part:
    name, colon, digits = text.partition(":")
    if text == "urlkey":
        return lambda place: place.key
    if name != "timestamp" or colon and not (is_digits(digits, 2) and 1 <= int(digits) <= 14):
        raise Refused("BadCollapse")
    width = int(digits or 14)
    return lambda place: place.stamp[:width]


def read_place(text: str) -> Place:
    key, _, later = decoded(text).partition(" ")
    stamp, _, later = later.partition(" ")
    filename, _, offset = later.rpartition(" ")
    if not (is_key(key) and len(stamp) == 14 and is_digits(stamp, 14) and filename and is_offset(offset)):
        raise Refused("BadResume")
    return Place(key.encode(), stamp.encode(), filename.encode(), int(offset))


def is_key(text: str) -> bool:
    return text != "" and all(sign > " " and sign != "\x7f" for sign in text)


def is_offset(text: str) -> bool:
    return is_digits(text, 19) and int(text) < 1 << 63


def condition(test: Callable[[str, str], bool]) -> Callable[[str], Condition]:
    def read(text: str) -> Condition:
        field, colon, wanted = text.partition(":")
        if not colon or field not in FIELDS:
            raise Refused("BadFilter")
        return lambda values: test(values[field], wanted)

    return read


def read_filter(text: str) -> Condition:
    negated = text.startswith("!")
    holds = condition(lambda value, wanted: (value == wanted) != negated)(text[negated:])
    if PATTERN_SIGNS & set(text.partition(":")[2]):
        raise Refused("NotLiteral")
    return holds


CONDITIONS = {
    "filter": read_filter,
    "is": condition(lambda value, wanted: value == wanted),
    "isnot": condition(lambda value, wanted: value != wanted),
    "has": condition(lambda value, wanted: wanted in value),
    "hasnot": condition(lambda value, wanted: wanted not in value),
}
READERS: dict[str, Callable[[str], Any]] = {
    "url": str,
    "key": str,
    "matchType": one_of(MATCHES, "BadMatch"),
    "from": read_stamp,
    "to": read_stamp,
    "limit": read_limit,
    "resumeKey": read_place,
    "showResumeKey": one_of(("true", "false"), "BadFlag"),
    "fl": read_fields,
    "output": one_of(OUTPUTS, "BadOutput"),
    "collapse": read_collapse,
    **CONDITIONS,
}


def read_query(text: str) -> Query:
    if len(text.encode()) > 65_536:
        raise Refused("QueryTooLong")
    given: dict[str, Any] = {}
    conditions: list[Condition] = []
    for piece in filter(None, text.split("&")):
        name, _, value = piece.partition("=")
        name = decoded(name)
        if name not in READERS:
            raise Refused("Unknown")
        if name in given:
            raise Refused("RepeatedParameter")
        read = READERS[name](value if name == "resumeKey" else decoded(value))
        if name in CONDITIONS:
            conditions.append(read)
        else:
            given[name] = read
    if "url" not in given and "key" not in given:
        raise Refused("NoUrl")
    if "url" in given and "key" in given:
        raise Refused("UrlAndKey")
    match, target = target_of(given)
    return Query(
        match,
        target,
        given.get("from", ""),
        given.get("to", ""),
        conditions,
        given.get("limit"),
        given.get("resumeKey"),
        given.get("showResumeKey") == "true",
        given.get("fl", USUAL_FIELDS),
        given.get("output", "text"),
        given.get("collapse"),
    )


def target_of(given: dict[str, Any]) -> tuple[str, bytes]:
    match = given.get("matchType")
    if "key" in given:
        return match or "exact", given["key"].encode()
    address = given["url"]
    if not match and address.startswith("*."):
        match, address = "domain", address[2:]
    elif not match and address.endswith("*"):
        match, address = "prefix", address[:-1]
    match = match or "exact"
    if not re.match("[A-Za-z][A-Za-z0-9+.-]*://", address):
        address = "http://" + address
    if not keys.is_url(address):
        raise Refused("BadUrl")
    target = keys.host_key_of(address) if match in ("host", "domain") else keys.key_of(address)
    if target is None:
        raise Refused("BadUrl")
    return match, target.encode()


# ---- what is selected, and its pages


def collapsed(lines: list[Line], place: Optional[Place], part: Part) -> list[Line]:
    """The lines whose part differs from that of the line before, the first from that of the place."""
    before = [place, *(line.place for line in lines)]
    return [line for line, place in zip(lines, before) if place is None or part(line.place) != part(place)]


def page_after(query: Query, selected: list[Line], place: Optional[Place], limit: Optional[int]) -> Page:
    """The first lines above the place."""
    later = [line for line in selected if place is None or line.place > place]
    if query.part:
        later = collapsed(later, place, query.part)
    page = later[:limit]
    return page, page[-1].place if len(later) > len(page) else None


def chain(query: Query, selected: list[Line], sizes: list[int]) -> Iterator[Page]:
    """The pages from the query's place on, the last of the sizes repeated."""
    place = query.resume
    for size in itertools.chain(sizes, itertools.repeat(sizes[-1])):
        page, place = page_after(query, selected, place, size)
        yield page, place
        if place is None:
            return


# ---- the text of a page


def key_text(place: Place) -> str:
    text = b" ".join((place.key, place.stamp, place.filename, b"%d" % place.offset))
    return quote_plus(text, safe="*").replace("~", "%7E")


def escaped(value: str) -> str:
    return re.sub("[\x00-\x20\x7f]", lambda sign: f"%{ord(sign[0]):02X}", value)


def row(values: Iterable[str]) -> str:
    return "[" + ",".join(json.dumps(value, ensure_ascii=False) for value in values) + "]"


def page_text(query: Query, page: list[Line], place: Optional[Place]) -> bytes:
    if query.output == "json":
        rows = [row(query.fields), *(row(line.values[field] for field in query.fields) for line in page)]
        if place:
            rows += ["[]", row([key_text(place)])]
        return ("[" + ",\n".join(rows) + "]\n").encode()
    if query.output == "cdxj":
        lines = [line.body for line in page]
    else:
        lines = [" ".join(escaped(line.values[field]) for field in query.fields).encode() for line in page]
    if place:
        lines += [b"", key_text(place).encode()]
    return b"".join(line + b"\n" for line in lines)


def answer(query: Query, lines: list[Line]) -> bytes:
    page, place = page_after(query, select(query, lines), query.resume, query.limit)
    return page_text(query, page, place if query.shows_key else None)


def pages(query: Query, sizes: list[int], lines: list[Line]) -> bytes:
    return b"".join(page_text(query, page, place) for page, place in chain(query, select(query, lines), sizes))


def select(query: Query, lines: list[Line]) -> list[Line]:
    return [line for line in collected(lines) if query.asks_for(line)]


def main() -> int:
    parser = parser_of(__doc__)
    parser.add_argument("--pages", metavar="SIZES", help="write page by page, of these sizes, such as 2,3")
    parser.add_argument("query", metavar="QUERY")
    parser.add_argument("indexes", nargs="+", metavar="INDEX")
    arguments = parser.parse_args()
    lines = read_lines(pathlib.Path(name).read_bytes() for name in arguments.indexes)
    try:
        query = read_query(arguments.query)
    except Refused as refusal:
        print(f"refused {refusal}", file=sys.stderr)
        return 1
    sizes = [int(size) for size in arguments.pages.split(",")] if arguments.pages else []
    sys.stdout.buffer.write(pages(query, sizes, lines) if sizes else answer(query, lines))
    return 0


if __name__ == "__main__":
    sys.exit(main())
