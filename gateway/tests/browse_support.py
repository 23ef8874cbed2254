"""What the tests of the pages share: archives that they write, and the pages served over them.

The variable WARCDX names the program, or else it is `warcdx` of the PATH. `warcdx-gz` belongs to it.
"""
import base64
import contextlib
import functools
import gzip
import hashlib
import html
import io
import json
import os
import pathlib
import re
import sys
import tempfile
import threading
import unicodedata
import unittest
import zlib
from collections.abc import Iterator, Sequence
from html.parser import HTMLParser
from typing import Any, Optional
from urllib.parse import urlencode

GATEWAY = pathlib.Path(__file__).resolve().parents[1]
sys.path[:0] = [str(GATEWAY), str(GATEWAY.parent / "python")]

from warcdx import open_archive  # noqa: E402
from werkzeug.serving import WSGIRequestHandler, make_server  # noqa: E402
from werkzeug.test import Client, TestResponse  # noqa: E402

from warcdx_gateway.application import Gateway  # noqa: E402
from warcdx_gateway.collection import Collection  # noqa: E402
from warcdx_gateway.generation import Generation  # noqa: E402
from warcdx_gateway.settings import CollectionSettings, Settings  # noqa: E402
from warcdx_gateway.shared import Metrics  # noqa: E402

PROGRAM = os.environ.get("WARCDX", "warcdx")
SAMPLES = GATEWAY.parent / "samples"
HTML = "text/html; charset=utf-8"
MEGABYTE = 1 << 20


def digest_of(payload: bytes) -> str:
    return "sha1:" + base64.b32encode(hashlib.sha1(payload).digest()).decode()


def record(kind: str, address: str, date: str, block: bytes, content_type: str, fields: Sequence[str] = ()) -> bytes:
    """Returns a record of WARC 1.1. Its block has a digest, unless the fields have one."""
    lines = [
        "WARC/1.1",
        f"WARC-Type: {kind}",
        f"WARC-Record-ID: <urn:uuid:{hashlib.sha1(block + date.encode()).hexdigest()}>",
        f"WARC-Date: {date}",
        *([f"WARC-Target-URI: {address}"] if address else []),
        f"Content-Type: {content_type}",
        f"Content-Length: {len(block)}",
        *fields,
    ]
    if not any(field.startswith("WARC-Block-Digest") for field in fields):
        lines.append(f"WARC-Block-Digest: {digest_of(block)}")
    return "\r\n".join([*lines, "", ""]).encode(errors="surrogateescape") + block + b"\r\n\r\n"


def response(
    address: str,
    date: str,
    body: bytes,
    content_type: Optional[str] = HTML,
    *,
    status: str = "200 OK",
    http: Sequence[str] = (),
    fields: Sequence[str] = (),
) -> bytes:
    """Returns a response record."""
    typed = [f"Content-Type: {content_type}"] if content_type is not None else []
    head = "\r\n".join([f"HTTP/1.1 {status}", *typed, *http, "", ""]).encode(errors="surrogateescape")
    return record("response", address, date, head + body, "application/http; msgtype=response",
                  [f"WARC-Payload-Digest: {digest_of(body)}", *fields])  # fmt: skip


def revisit(address: str, date: str, body: bytes, refers_to: str = "") -> bytes:
    """Returns a revisit record without a payload, whose digest is that of the body."""
    profile = "http://netpreserve.org/warc/1.1/revisit/identical-payload-digest"
    fields = [f"WARC-Payload-Digest: {digest_of(body)}", f"WARC-Profile: {profile}"]
    if refers_to:
        fields += [f"WARC-Refers-To-Target-URI: {address}", f"WARC-Refers-To-Date: {refers_to}"]
    return record("revisit", address, date, b"HTTP/1.1 200 OK\r\n\r\n", "application/http; msgtype=response", fields)


def page(title: str, *paragraphs: str) -> bytes:
    body = "".join(f"<p>{html.escape(each)}</p>" for each in paragraphs)
    return f"<!DOCTYPE html><title>{title}</title><h1>{title}</h1>{body}".encode()


@functools.cache
def bomb(start: bytes = b"") -> bytes:
    """Returns a member of gzip that unpacks to a start and 300 MB of zeros."""
    packer, zeros = zlib.compressobj(1, zlib.DEFLATED, 31), bytes(MEGABYTE)
    return packer.compress(start) + b"".join(packer.compress(zeros) for _ in range(300)) + packer.flush()


class Archives:
    """A folder of archives, with an index of each."""

    def __init__(self, folder: pathlib.Path) -> None:
        self.folder = folder
        self.archives = folder / "archives"
        self.archives.mkdir()
        self.indexes: list[pathlib.Path] = []
        self.places: dict[str, tuple[str, int]] = {}  # of the last record of each address
        # The URL key and timestamp of the last line of each archive's name and offset.
        self.lines: dict[tuple[str, int], tuple[str, str]] = {}

    def add(self, name: str, records: Sequence[bytes], *, index: bool = True) -> None:
        """Writes an archive, compressed if its name says so, and its index."""
        is_packed, at, parts = name.endswith(".gz"), 0, []
        for each in records:
            part = gzip.compress(each, mtime=0) if is_packed else each
            address = re.search(rb"WARC-Target-URI: ([^\r]*)", each)
            if address:
                self.places[address[1].decode(errors="surrogateescape")] = (name, at)
            at += len(part)
            parts.append(part)
        path = self.archives / name
        path.write_bytes(b"".join(parts))
        if index:
            self.index(path)

    def index(self, path: pathlib.Path) -> None:
        output = io.BytesIO()
        open_archive(path, program=PROGRAM).index(output)
        self.put(path.name + ".cdxj", output.getvalue())

    def put(self, name: str, lines: bytes) -> None:
        """Writes an index of these lines."""
        self.indexes.append(self.folder / name)
        self.indexes[-1].write_bytes(lines)
        for line in lines.decode(errors="surrogateescape").splitlines():
            with contextlib.suppress(ValueError):
                key, timestamp, text = line.split(" ", 2)
                members = json.loads(text)
                self.lines[members["filename"], int(members["offset"])] = key, timestamp

    def line(self, address: str, stamp: str, filename: str, offset: int, key: str = "com,example)/", **more: str) -> bytes:
        """Returns a line of an index, of any values."""
        members = {"url": address, "mime": "text/html", "status": "200", "digest": "-", "length": "1"}
        members.update(offset=str(offset), filename=filename, **more)
        return f"{key} {stamp} {json.dumps(members)}\n".encode()

    def collection(self, name: str = "crawl", title: str = "A crawl") -> CollectionSettings:
        return CollectionSettings(name, title, tuple(self.indexes), (self.archives,))


def gateway_of(test: unittest.TestCase, settings: Settings) -> Gateway:
    """Returns a gateway over these settings, which is closed at the end of the test."""
    collections = {each.name: Collection(each, settings, Generation(each.indexes)) for each in settings.collections}
    for each in collections.values():
        test.addCleanup(each.close)
    return Gateway(settings, collections, metrics())


@functools.cache
def metrics() -> Metrics:
    """Returns the counts of all gateways of these tests."""
    return Metrics()


@contextlib.contextmanager
def served(application: Any) -> Iterator[str]:
    """Serves a WSGI application to browsers. Yields its address."""
    server = make_server("127.0.0.1", 0, application, threaded=True, request_handler=Quiet)
    thread = threading.Thread(target=server.serve_forever)
    thread.start()
    try:
        yield f"http://127.0.0.1:{server.port}"
    finally:
        server.shutdown()
        thread.join()
        server.server_close()


class Quiet(WSGIRequestHandler):
    def log(self, *_: object) -> None:
        """Writes nothing."""


class Pages(unittest.TestCase):
    """Tests with pages over archives that `fill` writes."""

    def fill(self, archives: Archives) -> None:
        raise NotImplementedError

    def setUp(self) -> None:
        folder = tempfile.TemporaryDirectory()
        self.addCleanup(folder.cleanup)
        self.archives = Archives(pathlib.Path(folder.name))
        self.fill(self.archives)

        self.gateway = self.serve(self.archives.collection())
        self.client = Client(self.gateway)

    def serve(self, *collections: CollectionSettings, **changed: Any) -> Gateway:
        settings = Settings(collections, collections[0].name, program=PROGRAM, **changed)
        return gateway_of(self, settings)

    def get(self, name: str, status: int = 200, **query: object) -> str:
        """Returns the text of a page of the collection, and checks its status and headers."""
        response = self.ask(name, **query)
        text = response.text
        self.assertEqual(status, response.status_code, text)
        self.assertIn("default-src 'none'", response.headers["Content-Security-Policy"])
        self.assertNotIn("script", response.headers["Content-Security-Policy"])
        self.assertEqual("nosniff", response.headers["X-Content-Type-Options"])
        self.assertEqual("no-referrer", response.headers["Referrer-Policy"])
        self.assertEqual("same-origin", response.headers["Cross-Origin-Resource-Policy"])
        self.assertEqual("text/html; charset=utf-8", response.headers["Content-Type"])
        self.assertEqual([], faults_of(text))
        return text

    def ask(self, name: str, headers: Optional[dict[str, str]] = None, **query: object) -> TestResponse:
        given = {each.rstrip("_"): str(value) for each, value in query.items()}
        encoded = urlencode(given, errors="surrogateescape")
        return self.client.get(f"/crawl/browse/{name}?{encoded}", headers=headers)

    def place(self, address: str) -> dict[str, object]:
        """Returns the query that the page of the last record of an address has."""
        return self.place_at(*self.archives.places[address])

    def place_at(self, name: str, offset: int) -> dict[str, object]:
        """Returns the query that the page of the record at an offset of an archive has."""
        key, timestamp = self.archives.lines[name, offset]
        return {"archive": name, "offset": offset, "timestamp": timestamp, "key": key}

    def pair(self, name: str, offset: int) -> str:
        """Returns what chooses a record for a comparison."""
        key, timestamp = self.archives.lines[name, offset]
        return f"{offset} {timestamp} {key} {name}"


_ELEMENTS = frozenset(
    "a b bdi body button caption code dd del details div dl dt footer form g h1 h2 h3 head header "
    "hgroup html iframe input ins label li line link main meta nav ol option p rect section select "
    "span strong summary svg table tbody td text th thead time title tr ul".split()
)
_PAGES = re.compile(
    r"#content|(\./|\.\./\.\./browse(/style\.css|/icon\.svg)?|[A-Za-z0-9.]+/browse/"
    r"|browse/(style\.css|icon\.svg)"
    r"|(search|captures|compare|record|payload|download)(\?[A-Za-z0-9=&%.~_-]*)?(#[a-z]+)?)"
)


class _Checked(HTMLParser):
    """Collects what a page has that these pages never write."""

    def __init__(self) -> None:
        super().__init__()
        self.faults: list[str] = []

    def handle_starttag(self, tag: str, attrs: list[tuple[str, Optional[str]]]) -> None:
        if tag not in _ELEMENTS:
            self.faults.append(f"<{tag}>")
        for name, value in attrs:
            if name.startswith("on") or name in ("style", "srcdoc", "http-equiv", "target", "formaction", "ping"):
                self.faults.append(f"{name}={value}")
            if name in ("href", "src", "action") and not _PAGES.fullmatch(value or ""):
                self.faults.append(f"{name}={value}")


def faults_of(page: str) -> list[str]:
    """Returns what a page has that could act on a reader: elements, values, unseen characters."""
    checked = _Checked()
    checked.feed(page)
    checked.close()
    shown = re.sub(' value="[^"]*"', "", page)  # what a form gives back is as it was
    return checked.faults + [f"U+{ord(each):04X}" for each in shown if unicodedata.category(each) in ("Cc", "Cf") and each != "\n"]


def text_of(page: str) -> str:
    """Returns the text of a page, with single spaces."""
    without = re.sub(r"<(style|title)\b.*?</\1>|<[^>]*>", " ", page, flags=re.DOTALL)
    return " ".join(html.unescape(without).split())
