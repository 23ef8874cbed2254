"""A plain model of the Wayback CDX API: what a request selects of captures that are all held.

It is written from the documents of the API alone, and shares no code with the gateway.
"""
import datetime
import json
import re
from typing import NamedTuple, Optional
from urllib.parse import quote_plus

FIELDS = (
    "urlkey", "timestamp", "original", "mimetype", "statuscode", "digest", "length", "offset", "filename"
)  # fmt: skip
PAGE = 900_000  # bytes of lines, the documented size of a page of one block
Capture = dict[str, str]


class Request(NamedTuple):
    """A request. `pattern` are pairs of a field and a regular expression, negated or not."""

    target: str  # a key
    match: str = "exact"
    first: str = ""
    last: str = ""
    filters: tuple[tuple[str, str, bool], ...] = ()
    collapses: tuple[tuple[str, Optional[int]], ...] = ()
    limit: Optional[int] = None
    order: str = "forward"
    closest: str = ""
    resolves: bool = False
    counts: bool = False
    fields: tuple[str, ...] = FIELDS[:7]
    output: str = "text"
    shows_key: bool = False
    after: Optional[int] = None  # the number of a capture, whose resume key is sent
    page: Optional[int] = None
    counts_pages: bool = False

    def query(self, captures: list[Capture]) -> str:
        """Returns the text of the query."""
        pairs = [("key", self.target), ("matchType", self.match)]
        pairs += [("from", self.first)] * bool(self.first) + [("to", self.last)] * bool(self.last)
        pairs += [("filter", f"{'!' if negated else ''}{field}:{text}") for field, text, negated in self.filters]
        pairs += [("collapse", field + (f":{n}" if n else "")) for field, n in self.collapses]
        if self.limit is not None:
            pairs.append(("limit", str(-self.limit if self.order == "last" else self.limit)))
        if self.order == "reverse":
            pairs.append(("sort", "reverse"))
        if self.order == "closest":
            pairs.append(("closest", self.closest))
        pairs += [("resolveRevisits", "true")] * self.resolves
        pairs += [("showDupeCount", "true")] * self.counts
        pairs += [("fl", ",".join(self.fields)), ("output", self.output)]
        pairs += [("showResumeKey", "true")] * self.shows_key
        if self.page is not None:
            pairs += [("page", str(self.page)), ("pageSize", "1")]
        if self.counts_pages:
            pairs += [("showNumPages", "true"), ("pageSize", "1")]
        text = "&".join(f"{name}={quote_plus(value)}" for name, value in pairs)
        return text if self.after is None else f"{text}&resumeKey={place(captures[self.after])}"


def matches(key: str, target: str, match: str) -> bool:
    if match == "exact":
        return key == target
    if not key.startswith(target):
        return False
    rest = key[len(target) :]
    ends = {"prefix": "", "host": "):", "domain": "),:"}[match]
    return match == "prefix" or rest[:1] in tuple(ends)


def place(capture: Capture) -> str:
    """Returns the resume key of a capture: its place, form-encoded."""
    values = (capture[name] for name in ("urlkey", "timestamp", "filename", "offset"))
    return quote_plus(" ".join(values), safe="*").replace("~", "%7E")


def seconds(timestamp: str) -> float:
    last = {4: "1231", 6: "31" if timestamp[4:6] in ("01", "03", "05", "07", "08", "10", "12") else "30"}
    moment = timestamp + last.get(len(timestamp), "")
    moment += "235959"[max(len(moment) - 8, 0) :]
    return datetime.datetime.strptime(moment, "%Y%m%d%H%M%S").timestamp()


def resolved(capture: Capture, captures: list[Capture]) -> Capture:
    if capture["mimetype"] != "warc/revisit":
        return capture
    for other in captures:
        is_same = all(other[name] == capture[name] for name in ("urlkey", "digest"))
        if is_same and other["mimetype"] != "warc/revisit":
            return {**capture, "mimetype": other["mimetype"], "statuscode": other["statuscode"]}
    return capture


def collapsed(captures: list[Capture], field: str, count: Optional[int]) -> list[Capture]:
    kept: list[Capture] = []
    last = None
    for capture in captures:
        part = capture[field][:count]
        if part != last:
            kept.append(capture)
        last = part
    return kept


def selected(request: Request, captures: list[Capture]) -> list[Capture]:
    """Returns all captures that a request selects, in the order of the index."""
    found = []
    for capture in captures:
        stamp = capture["timestamp"]
        if not matches(capture["urlkey"], request.target, request.match):
            continue
        if request.first and stamp[: len(request.first)] < request.first:
            continue
        if request.last and stamp[: len(request.last)] > request.last:
            continue
        shown = resolved(capture, captures) if request.resolves else capture
        tests = (bool(re.fullmatch(text, shown[field])) is not negated for field, text, negated in request.filters)
        if all(tests):
            found.append(shown)
    if request.after is not None:
        # The capture at the resume key is the one that each collapse has seen last.
        before = captures[request.after]
        found = [each for each in found if order_of(each) > order_of(before)]
        found.insert(0, before)
    for field, count in request.collapses:
        found = collapsed(found, field, count)
    return found if request.after is None else found[1:]


def line_of(capture: Capture) -> str:
    """Returns the line of a capture in an index."""
    members = dict(zip(("url", "mime", "status", "digest", "length", "offset", "filename"), list(capture.values())[2:]))
    return f"{capture['urlkey']} {capture['timestamp']} {json.dumps(members)}\n"


def lines_of(request: Request, captures: list[Capture]) -> list[Capture]:
    """Returns the captures whose lines are on pages: from the first one that matches on, with what is between."""
    bounds = {"exact": (request.target, request.target), "prefix": (request.target, request.target + "\U0010ffff")}
    low, high = bounds.get(request.match, (f"{request.target})", f"{request.target}:\U0010ffff"))
    matching = [each["urlkey"] for each in captures if matches(each["urlkey"], request.target, request.match)]
    found = [each for each in captures if low <= each["urlkey"] <= high and matching and each["urlkey"] >= matching[0]]
    if request.match != "exact":
        return found
    first, last = request.first, request.last or "9"
    return [each for each in found if first <= each["timestamp"] and each["timestamp"][: len(last)] <= last]


def pages_of(request: Request, captures: list[Capture]) -> tuple[int, dict[tuple[str, str], int]]:
    """Returns the number of pages, and the page of each key and timestamp."""
    pages: dict[tuple[str, str], int] = {}
    before = 0
    for each in lines_of(request, captures):
        pages.setdefault((each["urlkey"], each["timestamp"]), before // PAGE)
        before += len(line_of(each).encode())
    return -(-before // PAGE), pages


def order_of(capture: Capture) -> tuple[bytes, str, bytes, int]:
    return (capture["urlkey"].encode(), capture["timestamp"], capture["filename"].encode(), int(capture["offset"]))


def answer(request: Request, captures: list[Capture]) -> str:
    """Returns the text of the answer to a request."""
    found = selected(request, captures)
    whole = len(found)
    count, pages = pages_of(request, captures)
    if request.counts_pages:
        return f"{count}\n"
    if request.page is not None:
        found = [each for each in found if pages[each["urlkey"], each["timestamp"]] == request.page]
    if request.order == "last" and request.limit is not None:
        found = found[-request.limit :]
    elif request.order == "reverse":
        found = found[::-1]
    elif request.order == "closest":
        moment = seconds(request.closest)
        found = sorted(found, key=lambda each: abs(seconds(each["timestamp"]) - moment))
    found = found[: request.limit]
    key = ""
    if request.shows_key and request.order == "forward" and len(found) < whole and found:
        key = place(found[-1])
    rows = [[each[name] for name in request.fields] for each in found]
    names = list(request.fields)
    if request.counts:
        names.append("dupecount")
        digests = [each["digest"] for each in found]
        for number, row in enumerate(rows):
            row.append(str(digests[:number].count(digests[number])))
    if request.output == "text":
        text = "".join(" ".join(value.replace(" ", "%20") for value in row) + "\n" for row in rows)
        return text + (f"\n{key}\n" if key else "")
    if not rows:
        return "[]\n"  # as the Internet Archive's server answers
    shown = [names, *rows] + ([[], [key]] if key else [])
    return "[" + ",\n".join(json.dumps(row, ensure_ascii=False, separators=(",", ":")) for row in shown) + "]\n"
