"""Captures as they were archived, of random archives, against a plain model of what a replay gives.

The model is written from what the documents of pywb and OpenWayback say in words, and from RFC 9110: a
revisit has the payload of its original, one that was not modified has all of it, bodies are given without
chunks, and with the content codings that they have and the client takes.

The variable GATEWAY_CAPTURES is the number of captures, and GATEWAY_SEED how they begin.
"""
import base64
import dataclasses
import datetime
import gzip
import hashlib
import os
import random
import tempfile
import unittest
import zlib
from dataclasses import dataclass, field
from pathlib import Path
from typing import Optional
from unittest import mock

from werkzeug.test import Client, TestResponse

from warcdx_gateway.settings import Settings

from .browse_support import PROGRAM, Archives, gateway_of

CAPTURES = int(os.environ.get("GATEWAY_CAPTURES", "700"))
SEED = int(os.environ.get("GATEWAY_SEED", "1"))
PER_ARCHIVE = 100
HOST = "http://example.com/"
EMPTY = "sha1:3I42H3S6NNFQ2MSVX7XZKYAYSCX5QBYJ"
STATUSES = (200, 200, 200, 200, 404, 301, 302, 307, 403, 500, 503, 204, 205, 206, 304, 401, 407, 408, 421, 429, 451, 700)
# What a client would act on by itself has the first status of its hundred, or that of success.
SENT = {205: 200, 206: 200, 401: 400, 407: 400, 408: 400, 421: 400, 429: 400, 700: 200}
IDENTICAL = "http://netpreserve.org/warc/1.1/revisit/identical-payload-digest"
UNMODIFIED = ("http://netpreserve.org/warc/1.1/revisit/server-not-modified", "http://netpreserve.org/warc/1.0/revisit/server-not-modified/")


@dataclass
class Capture:
    """A capture: what the record has, and what of it is the answer of a server."""

    url: str
    moment: datetime.datetime
    payload: bytes = b""
    status: Optional[int] = 200  # None of HTTP/0.9
    fields: list[tuple[str, str]] = field(default_factory=list)
    location: str = ""
    coding: str = ""  # that the stored body has
    has_head: bool = True
    profile: str = ""
    refers_to: Optional["Capture"] = None
    digest: str = ""
    block: bytes = b""

    @property
    def stamp(self) -> str:
        return f"{self.moment:%Y%m%d%H%M%S}"

    @property
    def kind(self) -> str:
        return "revisit" if self.profile else "response"

    def record(self) -> bytes:
        fields = [
            "WARC/1.1", f"WARC-Type: {self.kind}", f"WARC-Target-URI: {self.url}",
            f"WARC-Date: {self.moment:%Y-%m-%dT%H:%M:%SZ}", f"WARC-Record-ID: <urn:x:{id(self)}>",
            "Content-Type: application/http; msgtype=response", f"Content-Length: {len(self.block)}",
        ]  # fmt: skip
        fields += [f"WARC-Payload-Digest: {self.digest}"] if self.digest else []
        fields += [f"WARC-Profile: {self.profile}"] if self.profile else []
        if self.refers_to is not None:
            fields += [f"WARC-Refers-To-Target-URI: {self.refers_to.url}",
                       f"WARC-Refers-To-Date: {self.refers_to.moment:%Y-%m-%dT%H:%M:%SZ}"]  # fmt: skip
        return "\r\n".join([*fields, "", ""]).encode() + self.block + b"\r\n\r\n"


def digest_of(payload: bytes) -> str:
    return "sha1:" + base64.b32encode(hashlib.sha1(payload).digest()).decode()


def chunked(chance: random.Random, body: bytes) -> bytes:
    parts, at = [], 0
    while at < len(body):
        size = chance.randint(1, 400)
        parts.append(b"%x%s\r\n%s\r\n" % (len(body[at : at + size]), chance.choice((b"", b";a=b")), body[at : at + size]))
        at += size
    return b"".join([*parts, b"0\r\n\r\n"])


def head_of(capture: Capture, chance: random.Random) -> bytes:
    version, end = chance.choice(("HTTP/1.1", "HTTP/1.0", "HTTP/2")), chance.choice(("\r\n", "\r\n", "\n"))
    reason = chance.choice((" OK", "", " A reason"))
    lines = [f"{version} {capture.status}{reason}"]
    for name, value in capture.fields:
        blank = chance.choice((f"{end} ", f"{end}\t")) if " " in value and chance.random() < 0.3 else " "
        lines.append(f"{name}:{chance.choice((' ', '', '  '))}{value.replace(' ', blank, 1)}")
    return end.join([*lines, "", ""]).encode()


def random_response(chance: random.Random, url: str, moment: datetime.datetime, number: int) -> Capture:
    if chance.random() < 0.05:
        payload = b"<p>no head %d" % number
        return Capture(url, moment, payload, None, digest=digest_of(payload), block=payload)
    status = chance.choice(STATUSES)
    payload = b"" if status in (204, 304) else f"<p>capture {number} ".encode() * chance.choice((1, 1, 5, 300, 30_000))
    found = Capture(url, moment, payload, status, digest=digest_of(payload))
    if chance.random() < 0.9:
        found.fields.append(("Content-Type", chance.choice(("text/html", "text/html; charset=utf-8", "image/png"))))
    if status in (301, 302, 307):
        found.location = f"{HOST}{chance.randrange(8)}"
        found.fields.append(("Location", chance.choice((found.location, found.location.removeprefix("http://example.com")))))
    found.fields.append(("X-Note", f"one {number}"))
    body = payload
    names = chance.choice(((), (), ("gzip",), ("deflate",), ("x-gzip",)))
    if names and payload:
        found.fields.append(("Content-Encoding", names[0]))
        if chance.random() < 0.7:  # else the crawler has undone it
            found.coding = names[0]
            body = zlib.compress(body) if names[0] == "deflate" else gzip.compress(body, mtime=0)
    if chance.random() < 0.4 and payload:
        found.fields.append(("Transfer-Encoding", "chunked"))
        if chance.random() < 0.7:
            body = chunked(chance, body)
    chance.shuffle(found.fields)
    found.block = head_of(found, chance) + body
    return found


def random_revisit(chance: random.Random, before: list[Capture], url: str, moment: datetime.datetime) -> Capture:
    original = chance.choice(before)
    refers_to = original if chance.random() < 0.6 else None
    if chance.random() < 0.5:
        found = Capture(original.url if refers_to is None else chance.choice((original.url, url)), moment, profile=IDENTICAL,
                        refers_to=refers_to, digest=original.digest, has_head=chance.random() < 0.6)  # fmt: skip
        found.status, found.fields = 200, [("Content-Type", "text/plain"), ("X-Note", "of the revisit")]
    else:
        digest = chance.choice(("", EMPTY, original.digest if refers_to else EMPTY))
        found = Capture(original.url, moment, profile=chance.choice(UNMODIFIED), refers_to=refers_to, digest=digest,
                        has_head=chance.random() < 0.8)  # fmt: skip
        found.status, found.fields = 304, [("ETag", '"x"')]
    found.block = head_of(found, chance) if found.has_head else b""
    return found


def original_of(found: Capture, captures: list[Capture]) -> Optional[Capture]:
    """Returns the capture whose payload a replay gives, of all captures in their order of time."""
    others = [each for each in captures if not each.profile]
    if found.profile == IDENTICAL or (found.profile and found.digest not in ("", EMPTY)):
        if found.refers_to is not None:
            return found.refers_to
        return next((each for each in others if each.url == found.url and each.digest == found.digest), None)
    if found.profile and found.refers_to is not None:
        return found.refers_to
    earlier = [each for each in others if each.url == found.url and each.moment < found.moment and each.status != 304]
    return earlier[-1] if earlier else None


@dataclass
class Wanted:
    """What an answer has to have."""

    status: int
    payload: bytes
    kind: str
    note: str
    location: str
    coding: str


def wanted_of(found: Capture, captures: list[Capture]) -> Optional[Wanted]:
    """Returns what a replay gives, or None if the payload is nowhere."""
    head = body = found
    if found.profile or found.status == 304:
        original = original_of(found, captures)
        if original is None:
            return None
        body = original
        head = found if found.profile == IDENTICAL and found.has_head else original
    fields = dict(head.fields)
    status = 200 if head.status is None else SENT.get(head.status, head.status)
    is_moved = 300 <= status < 400 and head.location not in ("", found.url)  # a capture never leads to itself
    location = f"/crawl/{found.stamp}id_/{head.location}" if is_moved else ""
    kind = fields.get("Content-Type", "application/octet-stream")
    return Wanted(status, body.payload, kind, fields.get("X-Note", ""), location, body.coding)


class Replay(unittest.TestCase):
    def test_captures_are_those_of_the_model(self) -> None:
        chance, counts = random.Random(SEED), dict[int, int]()
        for _ in range(0, CAPTURES, PER_ARCHIVE):
            with tempfile.TemporaryDirectory() as folder:
                captures = self.archive(chance, Path(folder))
            for status, count in captures.items():
                counts[status] = counts.get(status, 0) + count
        print(dict(sorted(counts.items())), flush=True)

    def archive(self, chance: random.Random, folder: Path) -> dict[int, int]:
        """Asks for all captures of an archive. Returns how many answers there were of each status."""
        captures = list[Capture]()
        moment = datetime.datetime(2016, 1, 1)
        for number in range(PER_ARCHIVE):
            moment += datetime.timedelta(seconds=chance.randint(1, 10**6))
            url = f"{HOST}{chance.randrange(8)}"
            before = [each for each in captures if not each.profile and each.status != 304 and each.payload]
            if before and chance.random() < 0.3:
                captures.append(random_revisit(chance, before, url, moment))
            else:
                captures.append(random_response(chance, url, moment, number))
        archives = Archives(folder)
        archives.add(chance.choice(("a.warc", "a.warc.gz")), [each.record() for each in captures])
        gateway = gateway_of(self, Settings((archives.collection(),), "crawl", program=PROGRAM))
        client, counts = Client(gateway), dict[int, int]()
        for found in captures:
            fields = {"Accept-Encoding": chance.choice(("gzip, deflate", "identity", "gzip;q=0"))}
            answer = client.get(f"/crawl/{found.stamp}id_/{found.url}", headers=fields)
            self.compare(found, wanted_of(found, captures), answer, fields["Accept-Encoding"])
            if answer.status_code == 200 and chance.random() < 0.3:
                self.compare_again(client, found, answer, fields, chance)
            counts[answer.status_code] = counts.get(answer.status_code, 0) + 1
        return counts

    def compare(self, found: Capture, wanted: Optional[Wanted], answer: TestResponse, accepted: str) -> None:
        shown = f"{dataclasses.replace(found, block=found.block[:300])}"
        if wanted is None:
            self.assertEqual(404, answer.status_code, shown)
            return
        data, coding = answer.get_data(), answer.headers.get("Content-Encoding", "")
        if coding:
            self.assertEqual(wanted.coding, coding, shown)
            self.assertTrue("deflate" in accepted if coding == "deflate" else accepted.startswith("gzip,"), shown)
            data = zlib.decompress(data) if coding == "deflate" else gzip.decompress(data)
        elif wanted.coding:
            self.assertFalse(accepted.startswith("gzip,"), shown)
        self.assertEqual((wanted.status, wanted.payload), (answer.status_code, data), shown)
        self.assertEqual(wanted.kind, answer.headers["Content-Type"], shown)
        self.assertEqual(wanted.note, answer.headers.get("X-Archive-Orig-X-Note", ""), shown)
        self.assertEqual(wanted.location, answer.headers.get("Location", "").removeprefix("http://localhost"), shown)
        self.assertIn("sandbox", answer.headers["Content-Security-Policy"])

    def compare_again(self, client: Client, found: Capture, answer: TestResponse, fields: dict[str, str], chance: random.Random) -> None:
        """Asks for a part of it, and for it if it has changed."""
        target, whole = f"/crawl/{found.stamp}id_/{found.url}", answer.get_data()
        tag = answer.headers["ETag"]
        again = client.get(target, headers={**fields, "If-None-Match": tag})
        self.assertEqual((304, b""), (again.status_code, again.get_data()))
        first, last = sorted((chance.randrange(len(whole) + 2), chance.randrange(len(whole) + 2)))
        for text, part in (
            (f"bytes={first}-{last}", whole[first : last + 1]), (f"bytes={first}-", whole[first:]),
            (f"bytes=-{last + 1}", whole[-last - 1 :]),
        ):  # fmt: skip
            again = client.get(target, headers={**fields, "Range": text})
            if part:
                self.assertEqual((206, part), (again.status_code, again.get_data()), text)
                self.assertTrue(again.headers["Content-Range"].endswith(f"/{len(whole)}"))
            else:
                self.assertEqual(416, again.status_code, text)
            self.assertEqual(200, client.get(target, headers={**fields, "Range": text, "If-Range": '"other"'}).status_code)


class Long(unittest.TestCase):
    """Payloads that aren't held before their answer begins."""

    def test_a_part_of_a_long_payload(self) -> None:
        body = random.Random(1).randbytes(3_000_000)
        capture = Capture(HOST, datetime.datetime(2016, 1, 1), body, digest=digest_of(body))
        capture.block = b"HTTP/1.1 200 OK\r\nContent-Type: video/mp4\r\n\r\n" + body
        with tempfile.TemporaryDirectory() as folder, mock.patch("warcdx_gateway.browse.raw_captures.MOST_HELD", 1000):
            archives = Archives(Path(folder))
            archives.add("a.warc", [capture.record()])
            client = Client(gateway_of(self, Settings((archives.collection(),), "crawl", program=PROGRAM)))
            target = f"/crawl/20160101000000id_/{HOST}"
            self.assertEqual("3000000", client.get(target).headers["Content-Length"])
            for text, part in (("bytes=2999990-", body[-10:]), ("bytes=100-2000000", body[100:2_000_001]), ("bytes=-5", body[-5:])):
                answer = client.get(target, headers={"Range": text})
                self.assertEqual((206, part), (answer.status_code, answer.get_data()))
            self.assertEqual(416, client.get(target, headers={"Range": "bytes=3000000-"}).status_code)
            self.assertEqual(body, client.get(target, headers={"Range": "bytes=0-1,5-6"}).get_data())


if __name__ == "__main__":
    unittest.main()
