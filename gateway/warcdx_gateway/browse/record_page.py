"""The page of a record: its headers as they stand, the verdict on its digests, its payload."""
from collections.abc import Sequence
from typing import Optional

from werkzeug.wrappers import Response

from warcdx import Capture
from warcdx.record import Head, without_brackets
from warcdx.record_digests import Verdict, Verdicts

from ..collection import Collection
from ..history import History
from . import dates, reading
from .layout import card, collection_page, row, table
from .markup import Child, Markup, cut, element, followed, joined, link
from .places import original_of, record_link
from .reading import MOST_SHOWN, MOST_VERIFIED, Read
from .searching import Search

MOST_FIELDS = 300  # of a head that are shown
MOST_VALUE = 2000  # characters of a name or value that are shown
MOST_TEXT = 100_000  # characters of all fields of a head
_VERDICTS = {
    Verdict.SAME: ("good", "The {part} is as it was recorded: it has the digest in {name}."),
    Verdict.DIFFERS: ("bad", "The {part} differs: it doesn't have the digest in {name}."),
    Verdict.UNKNOWN: ("open", "Not compared: {name} has another algorithm or form."),
    Verdict.ABSENT: ("open", "No digest: the record has no {name}."),
    Verdict.ELSEWHERE: ("open", "{name} is the digest of a payload that isn't in the record."),
    Verdict.EMPTY: ("open", "{name} is the digest of no bytes, which some crawlers write into each revisit."),
}
_HELD = (
    "Images and style sheets are those of the archive. Scripts, forms, links and everything else " "that the page would fetch are blocked."
)
_TOO_LONG = f"Not compared: the block has more than {MOST_VERIFIED:,} bytes."


def record_page(collection: Collection, capture: Capture) -> Response:
    """Returns the page of the record of a capture. Raises NotShown."""
    record = reading.read(collection, capture)
    is_short = record.length <= MOST_VERIFIED
    verdicts = reading.verdicts(collection, capture) if is_short else None
    is_revisit = record.head.kind == "revisit"
    ask = collection.captures
    original = original_of(ask, record.head) if is_revisit else None
    history = History(ask, key=capture.urlkey)
    around = history.before(capture.timestamp), history.after(capture.timestamp)
    address = target_of(record.head)
    search = Search(cut(address, MOST_VALUE)) if address else None
    title = cut(f"{_title(record.head)}: {address}" if address else _title(record.head), 200)
    head = record.head
    heading = element("h1", element("bdi", cut(address or _title(head), 400)))
    return collection_page(
        collection,
        title,
        element("hgroup", element("p", _kind(head)), heading),
        _around(*around),
        _original(original) if is_revisit else None,
        _payload(record, capture),
        _facts(record, capture),
        card("Digests", _verdicts(verdicts)),
        _fields("WARC headers", head.fields),
        _http(record),
        search=search,
    )


def _around(before: Optional[Capture], after: Optional[Capture]) -> Child:
    """Returns the links to the captures of the URL before and after this one."""
    links = [
        element("li", followed(f"{words}: {dates.in_words(each.timestamp)}", record_link(each), rel="prev" if each is before else "next"))
        for each, words in ((before, "Previous capture"), (after, "Next capture"))
        if each is not None
    ]
    if not links:
        return None
    return element("nav", element("ul", links), aria_label="Captures", class_="pages")


def _title(head: Head) -> str:
    return f"Record{_when(head)}"


def _kind(head: Head) -> str:
    return f"{cut(head.kind, 40)} record{_when(head)}"


def _when(head: Head) -> str:
    timestamp = dates.recorded(head)
    return f" of {dates.in_words(timestamp)}" if timestamp else ""


def target_of(head: Head) -> str:
    """Returns the address that was captured, without the brackets that wget writes, or no text."""
    return without_brackets(head.field("WARC-Target-URI") or "")


def _facts(record: Read, capture: Capture) -> Markup:
    timestamp = dates.recorded(record.head)
    when = dates.in_words(timestamp) if timestamp else "no date"
    machine_time = dates.machine_time(timestamp) if timestamp else None
    archive = element("bdi", element("code", capture.filename))
    history = link("search", key=capture.urlkey, url=cut(target_of(record.head), MOST_VALUE))
    facts: list[tuple[str, Child]] = [
        ("Time", element("time", when, datetime=machine_time)),
        ("Archive", joined(archive, f", at byte {capture.offset:,}")),
        ("Block", dates.many(record.length, "byte")),
        ("Other captures", followed("All captures of this URL", history)),
    ]
    listed = (element("div", element("dt", name), element("dd", value)) for name, value in facts)
    return element("dl", listed, class_="facts")


def _verdicts(verdicts: Optional[Verdicts]) -> Markup:
    """Returns the verdict on the digest of the block, and that on the payload's if it has one."""
    if verdicts is None:
        return element("p", _TOO_LONG, class_="verdict open")
    found = [_verdict(verdicts.block, "block", "WARC-Block-Digest")]
    if verdicts.payload is not Verdict.ABSENT:
        found.append(_verdict(verdicts.payload, "payload", "WARC-Payload-Digest"))
    return joined(found)


def _verdict(verdict: Verdict, part: str, name: str) -> Markup:
    kind, words = _VERDICTS[verdict]
    return element("p", words.format(part=part, name=name), class_=f"verdict {kind}")


def _payload(record: Read, capture: Capture) -> Markup:
    payload, size = record.payload, len(record.payload.content)
    count = dates.many(size, "byte")
    if payload.fault:
        words = f"The payload can't be unpacked to its end. {payload.fault} " f"The first {count} were unpacked."
    elif not payload.is_whole:
        words = f"The payload has more than {MOST_SHOWN:,} bytes."
    else:
        words = f"The payload has {count}, without the codings of HTTP." if size else "The payload is empty."
    if payload.stored_otherwise:
        codings = cut(", ".join(payload.stored_otherwise), MOST_VALUE)
        words += f" The HTTP header names codings that the record is stored without: {codings}."
    kind = cut(record.kind, 80) or "no type"
    shown: list[Child] = []
    if size and record.shown_type:
        if not payload.is_whole:
            words += " Its beginning is shown."
        held = f" {_HELD}" if record.is_html else ""
        shown = [element("p", f"The type is {kind}.{held}", class_="help")]
        shown.append(_frame(record, capture))
    elif size:
        words += f" It isn't shown, for its type is {kind}. It can be saved."
    return card("Payload", element("p", words), shown, _downloads(capture, bool(size)), id="payload")


def _frame(record: Read, capture: Capture) -> Markup:
    return element(
        "iframe",
        title="The payload of the record",
        src=record_link(capture, "payload"),
        sandbox=True,
        loading="lazy",
        referrerpolicy="no-referrer",
        class_="image" if record.kind.startswith("image/") else None,
    )


def _downloads(capture: Capture, has_payload: bool) -> Markup:
    names = {"payload": "Save the payload", "record": "Save the record"}
    links = [
        element("li", element("a", words, href=record_link(capture, "download", what=what)))
        for what, words in names.items()
        if has_payload or what == "record"
    ]
    return element("ul", links, class_="buttons")


def _http(record: Read) -> Child:
    if record.http is None:
        return None
    fields = (("", record.http.line), *record.http.fields)
    return _fields("HTTP headers", fields)


def _fields(words: str, fields: Sequence[tuple[str, str]]) -> Markup:
    """Returns fields as they stand. One without a name is the line before them."""
    names = {"name": "Name", "value": "Value"}
    rows, left = [], MOST_TEXT
    for name, value in fields[:MOST_FIELDS]:
        shown = [cut(each, MOST_VALUE) for each in (name, value)]
        left -= sum(map(len, shown))
        if left < 0:
            break
        rows.append(row(names, element("code", shown[0]) if name else "(first line)", element("code", shown[1])))
    rest = len(fields) - len(rows)
    more = element("p", f"{dates.many(rest, 'field')} more: save the record to see all.") if rest else None
    return card(words, table(words, names, rows, "fields"), more)


def _original(original: Optional[Capture]) -> Markup:
    if original is None:
        words: Child = "No capture with its digest is in the indexes of the collection."
    else:
        when = followed(dates.in_words(original.timestamp), record_link(original))
        words = joined("The payload is that of the capture of ", when, ", which has the same digest.")
    return card("The original of this revisit", element("p", words))
