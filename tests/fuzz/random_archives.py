"""Makes archives at random: records of few values, and records at fault in several ways at once."""
import random
import re

from choices import mostly, near, some
from plain.records import CLOSING, HEAD_LIMIT, base_32
from program import ROOT
from random_http import block
from random_targets import target

KINDS = ("response", "response", "response", "Response", "revisit", "revisit", "resource", "metadata", "conversion")
OTHER_KINDS = ("warcinfo", "request", "continuation", "x", "")
DATES = (
    "2016-09-19T17:20:24Z",
    "2016-09-19T17:20:24Z",
    "2016-09-19T17:20:24.5Z",
    "2016-09-19T17:20Z",
    "2016-09-19",
    "2016-02-29",
    "2016",
    "0000-01",
    "9999-12-31T23:59:59.123456789Z",
)
BAD_DATES = ("2015-02-29", "2016-09-19T17:20:60Z", "2016-09-19T24:00Z", "2016-13", "2016-9-19", "2016-09-19T17:20:24", "1900-02-29", "")
BAD_LENGTHS = ("", "-1", "+3", "3 ", "0x3", "3.0", "9223372036854775808", "00000000000000000003", "x")
FAR_LENGTHS = ("9223372036854775807", "9223372036854775000", "0999999999999999999")
TYPES = (
    "application/http; msgtype=response",
    "application/http; msgtype=response",
    "application/http",
    "APPLICATION/HTTP ;x",
    "application/http;",
    "application/httpx",
    "text/html",
    "text/plain \t; a=b",
    ";",
    "",
    "caf\xe9/x; \xff",
)
DIGESTS = ("sha1:ABC", "SHA1:abc", "Sha1:sha1:A", "sha1:", "sha1", "md5:00", "", "sha1: a", "x\xff")
MANDATORY = ("WARC-Type", "WARC-Record-ID", "WARC-Date", "Content-Length")
BAD_LINES = ("no colon", ": no name", "a b: c", "a(: b", "a\xe9: b", "a: b\rc", "a: b\nc", "a :b", " \x00")
# In the order in which they are reported.
FAULTS = ("version", "line", "missing", "repeated", "length", "date", "far", "short", "closing")
Field = tuple[str, str]


def record(choice: random.Random) -> bytes:
    """A record that can be read."""
    text = block(choice)
    return head(choice, fields(choice, text)) + text + CLOSING


def record_at_fault(choice: random.Random) -> bytes:
    """A record with one fault, or with several of which the first is reported."""
    text = block(choice)
    given = fields(choice, text)
    closing, version = CLOSING, "WARC/1.1"
    gone, twice = choice.sample(MANDATORY, 2)
    for fault in some_faults(choice):
        if fault == "length":
            given = changed(given, "Content-Length", choice.choice(BAD_LENGTHS))
        elif fault == "date":
            given = changed(given, "WARC-Date", choice.choice(BAD_DATES))
        elif fault == "far":
            given = changed(given, "Content-Length", choice.choice(FAR_LENGTHS))
        elif fault == "short":
            given = changed(given, "Content-Length", str(max(0, near(choice, len(text), 5))))
        elif fault == "missing":
            given = [field for field in given if field[0] != gone]
        elif fault == "repeated":
            given.insert(choice.randint(0, len(given)), (twice, choice.choice(("3", "response", "2016"))))
        elif fault == "line":
            given.insert(choice.randint(0, len(given)), ("", choice.choice(BAD_LINES)))
        elif fault == "closing":
            closing = choice.choice((b"\r\n", b"\r\n\r", b"\n\n", b"\r\n\n\n", b""))
        else:
            version = choice.choice(("WARC/1.2", "warc/1.1", "WARC/1.1 ", "WARC/1.10", "WARC/1"))
    return head(choice, given, version) + text + closing


def some_faults(choice: random.Random) -> list[str]:
    """Often one fault, or two of which one is reported directly before the other."""
    at = choice.randrange(len(FAULTS) - 1)
    pair = list(FAULTS[at : at + 2])
    return mostly(choice, 0.4, choice.sample(pair, 2), some(choice, FAULTS, 1, 3))


def changed(given: list[Field], name: str, value: str) -> list[Field]:
    return [(each, value if each == name else old) for each, old in given]


def fields(choice: random.Random, text: bytes) -> list[Field]:
    """The fields of a record with this block."""
    digest = base_32(text).decode()
    block_digest = choice.choice((f"sha1:{digest}", f"SHA1:{digest.lower()}", f"sha1:A{digest[1:]}", f"sha1:{digest}=", "md5:00", ""))
    given = [
        ("WARC-Type", mostly(choice, 0.92, choice.choice(KINDS), choice.choice(OTHER_KINDS))),
        ("WARC-Record-ID", "<urn:x:1>"),
        ("WARC-Date", choice.choice(DATES)),
        ("Content-Length", mostly(choice, 0.9, str(len(text)), f"{len(text):019}")),
    ]
    address = target(choice)
    others = (
        (0.97, "WARC-Target-URI", mostly(choice, 0.85, address, choice.choice((f"<{address}>", f"<{address}", f"{address}>", "<>", "<", "")))),
        (0.95, "Content-Type", choice.choice(TYPES)),
        (0.3, "WARC-Block-Digest", block_digest),
        (0.25, "WARC-Payload-Digest", choice.choice(DIGESTS)),
        (0.05, "Content-Type", "text/css"),
        (0.05, "WARC-Target-URI", "http://example.com/second"),
    )
    given += [(name, value) for share, name, value in others if choice.random() < share]
    return mostly(choice, 0.6, given, choice.sample(given, len(given)))


def head(choice: random.Random, given: list[Field], version: str = "") -> bytes:
    """The text of a head. Few of its fields are folded, or in lower case."""
    lines = [line_of(choice, name, value) if name else value for name, value in given]
    text = "\r\n".join((version or choice.choice(("WARC/1.1", "WARC/1.0")), *lines))
    encoded = text.encode(mostly(choice, 0.6, "utf-8", "latin-1"), errors="replace")
    if choice.random() < 0.001:
        encoded += b"\r\nX:" + b"a" * near(choice, HEAD_LIMIT - len(encoded + b"\r\nX:" + CLOSING))
    return encoded + CLOSING


def line_of(choice: random.Random, name: str, value: str) -> str:
    if choice.random() < 0.92:
        return f"{name}: {value}"
    if name not in MANDATORY and choice.random() < 0.5:
        at = choice.randint(0, len(value))
        return f"{name}: {value[:at]}\r\n\t {value[at:]}"
    return choice.choice((f"{name.lower()}:{value}\t", f"{name}:\r\n\t {value} ", f"{name}: {value}\r\n \t", f"{name.upper()}:\r\n \r\n {value}"))


def sample_records() -> list[bytes]:
    """Records of a real crawl, each below three thousand bytes."""
    archive = (ROOT / "samples/wget.warc").read_bytes()
    starts = [found.start() for found in re.finditer(rb"(?<=\r\n\r\n)WARC/1\.0\r\n|\AWARC/1\.0\r\n", archive)]
    return [archive[start:end] for start, end in zip(starts, [*starts[1:], len(archive)]) if end - start < 3000]


SAMPLES = sample_records()


def archive(choice: random.Random, most: int = 6, share_at_fault: float = 0.0) -> bytes:
    """Records, of which none is at fault or one may be."""
    records = [mostly(choice, 0.95, record(choice), choice.choice(SAMPLES)) for _ in range(choice.randint(0, most))]
    if choice.random() < share_at_fault:
        records.insert(choice.randint(max(0, len(records) - 2), len(records)), record_at_fault(choice))
    return b"".join(records)
