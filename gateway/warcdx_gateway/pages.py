"""Where the lines of a query are in an index, where its pages begin, and which lines are its last ones.

What is read for it are a few fronts of lines, however many captures there are. The captures themselves are
what the program gives of the ranges that are chosen here.
"""
import functools
import re
from collections import OrderedDict
from typing import NamedTuple, Optional
from urllib.parse import quote_plus

from warcdx import ProgramError
from warcdx.faults import OutOfOrder
from warcdx.url_keys import keys_of

from .collection import Source
from .history import LAST_PLACE
from .plan import MOST_QUERY, Plan, Target
from .ranges import STAMP, Positions, Range
from .refusal import Refusal
from .rows import row_of_line
from .selection import Stretch

MOST_PAGES = 10_000  # of a query of a collection with rules
MOST_COUNTED = 16  # such queries whose pages are remembered
MOST_KEYS = 64  # of URLs that are remembered
_NOT_READ = re.compile("[\t\r\n]")  # what a URL may have, and means nothing
_SCHEME = re.compile(r"[A-Za-z][A-Za-z0-9+.-]*://")


class Cuts(NamedTuple):
    """The positions at which pages begin, from page 1 on, and the number of pages."""

    positions: list[Positions]
    pages: int


class Pages:
    """Finds the pages of a worker. Those of collections with rules are remembered."""

    def __init__(self) -> None:
        self._counted: OrderedDict[tuple[str, Target, int], Cuts] = OrderedDict()

    def count(self, plan: Plan, source: Source, tag: str) -> int:
        """Returns the number of pages. `tag` is that of the collection."""
        assert plan.page is not None
        if source.rules:
            return self._cuts(plan, source, tag, plan.page.size).pages
        found = range_of(plan.target, source)
        return 0 if found is None else -(-found.size // plan.page.size)

    def page(self, plan: Plan, source: Source, tag: str) -> Optional[Stretch]:
        """Returns the lines of a page, or None if it is after the last one."""
        assert plan.page is not None
        number, size = plan.page.number, plan.page.size
        found = range_of(plan.target, source)
        if found is None:
            return None
        if not source.rules:
            if number * size >= found.size:
                return None
            return Stretch(found, found.after(number * size), found.after((number + 1) * size))
        cuts = self._cuts(plan, source, tag, size)
        positions = [found.starts, *cuts.positions, found.ends]
        return Stretch(found, *positions[number : number + 2]) if number < cuts.pages else None

    def _cuts(self, plan: Plan, source: Source, tag: str, size: int) -> Cuts:
        name = (tag, plan.target, size)
        cuts = self._counted.pop(name, None) or counted_cuts(plan.target, source, size)
        self._counted[name] = cuts
        while len(self._counted) > MOST_COUNTED:
            self._counted.popitem(last=False)
        return cuts


def counted_cuts(target: Target, source: Source, size: int) -> Cuts:
    """Returns where pages begin if only the lines that may be shown are there. All are read for it."""
    found, count, positions, last = range_of(target, source), 0, list[Positions](), b""
    for lines in source.lines(f"{target.ranged}&output=cdxj") if found is not None else ():
        for line in lines:
            place = line[: line.index(b" ") + STAMP]
            is_hidden = not source.rules.shown([row_of_line(line.decode())])
            if is_hidden:
                continue
            if place != last and count >= (len(positions) + 1) * size:
                assert found is not None
                positions += [found.at(place)] * (count // size - len(positions))
                if len(positions) >= MOST_PAGES:
                    cause = f"a query has at most {MOST_PAGES} pages here; give a larger pageSize"
                    raise Refusal("BadPage", "page", cause)
            count, last = count + len(line) + 1, place
    pages = -(-count // size)
    if found is not None:
        positions += [found.ends] * (pages - 1 - len(positions))
    return Cuts(positions, pages)


def range_of(target: Target, source: Source) -> Optional[Range]:
    """Returns the lines from the first capture of a target to the last one, or None without captures.

    The program says which the first one is, and that none follows the last one. There may be other lines
    between them. Raises OutOfOrder if the program says otherwise, and what a query raises.
    """
    query = f"{target.query}&fl=urlkey&limit=1"
    first = [line for lines in source.lines(query) for line in lines]
    if not first:
        return None
    front, end = bounds_of(target, first[0], source)
    found = Range.of(source.files, front, end)
    if found.size and target.match != "exact":
        place = quote_plus(found.last_place() + b" " + LAST_PLACE.encode())
        query = f"{query}&resumeKey={place}"
        if len(query) <= MOST_QUERY and any(lines for lines in source.lines(query)):
            raise OutOfOrder("OutOfOrder")
    return found if found.size else None


def bounds_of(target: Target, first: bytes, source: Source) -> tuple[bytes, Optional[bytes]]:
    """Returns the places between which the captures of a target are, if its first one has this key.

    The second one is above all of them; without it there is none above.
    """
    front = first + b" "
    if target.match == "exact":
        end = front + target.last.encode() + b"~" if target.last else first + b"!"
        return front + target.first.encode(), end
    text = key_of(source.program, target.url) if target.key is None else target.key.encode()
    if target.match == "prefix":
        end = text[:-1] + bytes([text[-1] + 1]) if text else b""
    else:  # the name of a host, after which one of `),:` follows
        text = text if target.key is not None else host_of(text)
        end = text + b";"
    if not first.startswith(text):
        raise OutOfOrder("OutOfOrder")
    return front, end or None


@functools.lru_cache(MOST_KEYS)
def key_of(program: str, url: str) -> bytes:
    """Returns the URL key of a URL, which the program takes."""
    text = _NOT_READ.sub("", url if _SCHEME.match(url) else f"http://{url}")
    found = next(keys_of(program, [text.encode()]), None)
    if found is None:
        raise ProgramError("the program gives no URL key")
    return found.key


def host_of(key: bytes) -> bytes:
    """Returns the host of a URL key, as it stands there, without a port."""
    host = key.partition(b")")[0]
    end = host.find(b":", host.find(b"]") + 1)
    return host if end < 0 else host[:end]
