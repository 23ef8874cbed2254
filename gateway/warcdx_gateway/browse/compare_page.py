"""The page with the texts of two captures side by side."""
import json
import pathlib
import subprocess
import sys
from dataclasses import dataclass
from typing import Any

from werkzeug.wrappers import Response

from warcdx import Capture

from ..collection import Collection
from . import comparing, dates, reading
from .layout import collection_page
from .markup import Child, Markup, cut, element, followed, joined
from .places import original_of, record_link
from .reading import Read
from .record_page import target_of
from .searching import NotShown

SECONDS = 10  # for the process that compares
_PROGRAM = pathlib.Path(comparing.__file__)


@dataclass(frozen=True)
class Side:
    """A capture that is compared. `content` is its record, or the original of a revisit."""

    capture: Capture
    record: Read
    content: Read

    @property
    def is_revisit(self) -> bool:
        return self.record is not self.content

    @property
    def when(self) -> str:
        timestamp = dates.recorded(self.record.head)
        return dates.in_words(timestamp) if timestamp else "no date"


def compare_page(collection: Collection, captures: list[Capture]) -> Response:
    """Returns the page of two captures. Raises NotShown if they can't be compared."""
    sides = [side_of(collection, capture) for capture in captures]
    for side in sides:
        if not side.content.is_text:
            kind = cut(side.content.kind or "not named", 80)
            why = f"The type of the capture of {side.when} is {kind}. Only texts are compared."
            raise NotShown("The captures can't be compared.", why, 422)
    return collection_page(collection, "Two captures side by side", _content(sides))


def _content(sides: list[Side]) -> Markup:
    found = run([side.content for side in sides])
    return joined(
        element("hgroup", element("p", "Two captures"), element("h1", "Their texts side by side")),
        element("section", _summary(sides, found), _table(sides, found["rows"]), class_="card"),
    )


def side_of(collection: Collection, capture: Capture) -> Side:
    """Reads a capture, and the original if it is a revisit without a payload."""
    record = reading.read(collection, capture)
    if record.head.kind != "revisit" or record.payload.content:
        return Side(capture, record, record)
    original = original_of(collection.captures, record.head)
    if original is None:
        why = "The original of a revisit isn't in the indexes."
        raise NotShown("The captures can't be compared.", why, 422)
    return Side(capture, record, reading.read(collection, original))


def run(pages: list[Read]) -> dict[str, Any]:
    """Compares two pages by a process of its own. Raises NotShown if it needs too much."""
    texts = [page.text.encode() for page in pages]
    head = {"sizes": list(map(len, texts)), "html": [page.is_html for page in pages]}
    text = b"\n".join((json.dumps(head).encode(), b"".join(texts)))
    command = (sys.executable, "-I", str(_PROGRAM))
    try:
        done = subprocess.run(command, input=text, stdout=subprocess.PIPE, stderr=subprocess.DEVNULL, timeout=SECONDS)
    except subprocess.TimeoutExpired:
        raise _too_much() from None
    if done.returncode:
        raise _too_much()
    found: dict[str, Any] = json.loads(done.stdout)
    return found


def _too_much() -> NotShown:
    memory = comparing.MEMORY >> 20
    why = f"They need more than {comparing.SECONDS} seconds, or more than {memory:,} MB of memory."
    return NotShown("The captures can't be compared.", why, 422)


def _summary(sides: list[Side], found: dict[str, Any]) -> Markup:
    first, second = (side.content.payload for side in sides)
    differing = sum(1 for row in found["rows"] if _differs(row))
    words = [f"{dates.many(differing, 'line')} {'differs' if differing == 1 else 'differ'}." if differing else "The texts are the same."]
    if first.is_whole and second.is_whole and first.content == second.content:
        words.append("The payloads are the same, byte for byte.")
    elif not differing:
        words.append("The payloads differ in what isn't visible text.")
    if any(found["cut"]) or not (first.is_whole and second.is_whole):
        words.append(
            f"At most {comparing.MOST_LINES:,} lines, {comparing.MOST_CHARACTERS:,} characters and "
            f"{comparing.MOST_LINE:,} characters of a line are compared. What is after these isn't."
        )
    return element("p", " ".join(words))


def _differs(row: dict[str, Any]) -> bool:
    return "equal" not in row and any(changed for side in ("left", "right") for changed, _ in row[side] or ())


def _table(sides: list[Side], rows: list[dict[str, Any]]) -> Markup:
    heads = (element("th", _head(side), scope="col") for side in sides)
    return element(
        "table",
        element("caption", "The visible texts, line by line"),
        element("thead", element("tr", heads)),
        element("tbody", map(_row, rows)),
        class_="compared",
    )


def _head(side: Side) -> Markup:
    where = followed(side.when, record_link(side.capture))
    address = element("bdi", cut(target_of(side.record.head), 300), class_="address")
    return joined(where, " (a revisit: the text of its original)" if side.is_revisit else None, " ", address)


def _row(row: dict[str, Any]) -> Markup:
    if "equal" in row:
        words = f"{dates.many(row['equal'], 'line')} the same"
        return element("tr", element("td", words, colspan=2), class_="skipped")
    return element(
        "tr",
        element("td", _parts(row["left"], "del"), class_=_kind(row["left"], "removed")),
        element("td", _parts(row["right"], "ins"), class_=_kind(row["right"], "added")),
    )


def _parts(parts: Any, mark: str) -> Child:
    return [element(mark, text) if changed else text for changed, text in parts or ()]


def _kind(parts: Any, kind: str) -> Any:
    if not parts:
        return "missing"
    return kind if any(changed for changed, _ in parts) else None
