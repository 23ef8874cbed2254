"""Conditions and ranges of requests for captures and downloads, against what RFC 9110 says of them."""
import gzip
import itertools
import random
import re
import unittest
from typing import Optional
from unittest import mock

from werkzeug.test import Client, TestResponse

from . import browse_support as support
from .browse_support import Archives, record, response

DATE, HOST = "2016-03-03T09:34:31Z", "http://example.com/"
LONG = random.Random(1).randbytes(5000)
ASKED: tuple[tuple[str, dict[str, str]], ...] = (
    ("plain", {}), ("empty", {}), ("packed", {"Accept-Encoding": "gzip"}), ("packed", {}), ("long", {}), ("unknown", {}),
)  # fmt: skip
FUTURE = "Thu, 01 Jan 2099 00:00:00 GMT"


def conditions(tag: str) -> tuple[dict[str, str], ...]:
    return (
        {}, {"If-None-Match": tag}, {"If-None-Match": f"W/{tag}"}, {"If-None-Match": f'"x", {tag}'}, {"If-None-Match": '"x"'},
        {"If-None-Match": "*"}, {"If-Match": tag}, {"If-Match": f'"x", {tag}'}, {"If-Match": '"x"'}, {"If-Match": f"W/{tag}"},
        {"If-Match": "*"}, {"If-Range": tag}, {"If-Range": f"W/{tag}"}, {"If-Range": '"x"'}, {"If-Range": FUTURE}, {"If-Range": "x"},
        {"If-None-Match": '"x"', "If-Range": tag}, {"If-Match": '"x"', "If-None-Match": tag}, {"If-Modified-Since": FUTURE},
    )  # fmt: skip


def ranges(size: int) -> tuple[Optional[str], ...]:
    return (
        None, "bytes=0-", "bytes=0-0", "bytes=2-4", "bytes=-3", "bytes=-0", f"bytes={size}-", f"bytes={size + 5}-9999999", "bytes=4-2",
        f"bytes=-{size + 9}", "bytes=0-1,4-5", "items=0-1", "bytes=", "bytes=-", "bytes=a-b", f"bytes=0-{'9' * 30}", f"bytes=-{'9' * 30}",
        "Bytes=1-2", "bytes=0-1, ", "", f"bytes={'9' * 5000}-", "bytes=+1-2", "bytes=0 - 1", "bytes=\u0661-2",
    )  # fmt: skip


def wanted(tag: str, fields: dict[str, str], method: str, size: Optional[int]) -> tuple[int, int, int]:
    """Returns the status, and the first byte of what is sent and the one behind it."""
    whole = 200, 0, size or 0
    if "If-Match" in fields and fields["If-Match"] not in ("*", tag, f'"x", {tag}'):
        return 412, 0, 0
    if fields.get("If-None-Match", '"x"') != '"x"':
        return 304, 0, 0
    found = re.fullmatch("bytes=([0-9]{0,99})-([0-9]{0,99})(?:, )?", fields.get("Range", ""), re.IGNORECASE)
    if size is None or method == "HEAD" or fields.get("If-Range", tag) != tag or not found or not any(found.groups()):
        return whole
    first, last = found.groups()
    if first and last and int(first) > int(last):
        return whole
    start, end = (int(first), min(int(last) + 1 if last else size, size)) if first else (max(size - int(last), 0), size)
    return (206, start, end) if start < end else (416, 0, 0)


class Parts(support.Pages):
    def fill(self, archives: Archives) -> None:
        packed = ["Content-Encoding: gzip"]
        archives.add("a.warc", [
            response(f"{HOST}plain", DATE, b"0123456789"), response(f"{HOST}empty", DATE, b""),
            response(f"{HOST}packed", DATE, gzip.compress(b"0123456789" * 9, mtime=0), http=packed),
            response(f"{HOST}long", DATE, LONG), response(f"{HOST}unknown", DATE, gzip.compress(LONG, mtime=0), http=packed),
        ])  # fmt: skip

    def compare(self, target: str, accepted: dict[str, str]) -> None:
        first = self.client.get(target, headers=accepted)
        tag, whole = first.headers["ETag"], first.data
        size = len(whole) if "Content-Length" in first.headers else None
        every = ranges(len(whole))
        heads = itertools.product(("HEAD",), conditions(tag), every[:3])
        for method, given, asked in itertools.chain(itertools.product(("GET",), conditions(tag), every), heads):
            fields = {**accepted, **given, **({} if asked is None else {"Range": asked})}
            with self.client.open(target, method=method, headers=fields) as answer:
                self.check(answer, whole, wanted(tag, fields, method, size), method, fields)

    def check(self, answer: TestResponse, whole: bytes, expected: tuple[int, int, int], method: str, fields: dict[str, str]) -> None:
        status, start, end = expected
        self.assertEqual(status, answer.status_code, (method, fields))
        if status in (200, 206):
            sent = b"" if method == "HEAD" else whole[start:end] if status == 206 else whole
            self.assertEqual(sent, answer.data, fields)
        found = answer.headers.get("Content-Range")
        self.assertEqual({206: f"bytes {start}-{end - 1}/{len(whole)}", 416: f"bytes */{len(whole)}"}.get(status), found, fields)
        if status == 304:
            self.assertEqual(b"", answer.data)
            self.assertIn("sandbox", answer.headers["Content-Security-Policy"])

    def test_captures_have_the_answers_of_the_standard(self) -> None:
        with mock.patch("warcdx_gateway.browse.raw_captures.MOST_HELD", 1000):
            for name, accepted in ASKED:
                self.compare(f"/crawl/20160303093431id_/{HOST}{name}", accepted)

    def test_downloads_have_them_too(self) -> None:
        for name, what in (("plain", "record"), ("packed", "payload")):
            place = "&".join(f"{each}={value}" for each, value in self.place(f"{HOST}{name}").items())
            self.compare(f"/crawl/browse/download?{place}&what={what}", {})


class Originals(support.Pages):
    def fill(self, archives: Archives) -> None:
        unmodified = ["WARC-Profile: http://netpreserve.org/warc/1.1/revisit/server-not-modified"]
        archives.add("a.warc", [
            response(HOST, "2016-01-01T00:00:00Z", b"first"),
            record("revisit", HOST, DATE, b"HTTP/1.1 304 Not Modified\r\n\r\n", "application/http", unmodified),
        ])  # fmt: skip

    def test_an_original_is_found_by_all_spellings_of_its_digest(self) -> None:
        """Indexes of other programs have the name of the digest too."""
        refers = f"WARC-Payload-Digest: {support.digest_of(b'a payload')}"
        profile = "WARC-Profile: http://netpreserve.org/warc/1.1/revisit/identical-payload-digest"
        url, http = f"{HOST}digest", "application/http"
        for number, more in enumerate(([], ["WARC-Refers-To-Date: 2016-01-01T00:00:00Z"])):
            self.archives.add(f"c{number}.warc", [
                response(f"{url}{number}", "2016-01-01T00:00:00Z", b"a payload"),
                record("revisit", f"{url}{number}", DATE, b"HTTP/1.1 200 OK\r\n\r\n", http, [refers, profile, *more]),
            ])  # fmt: skip
            for name in ("", "sha1:"):
                path = self.archives.folder / f"c{number}.warc.cdxj"
                path.write_text(path.read_text().replace('"digest": "', f'"digest": "{name}'))
                client = Client(self.serve(self.archives.collection()))
                answer = client.get(f"/crawl/20160303093431id_/{url}{number}")
                self.assertEqual((200, b"a payload"), (answer.status_code, answer.data), (name, more))

    def test_another_original_has_another_tag(self) -> None:
        """An archive between the two is indexed later."""
        target = f"/crawl/20160303093431id_/{HOST}"
        first = self.client.get(target)
        self.archives.add("b.warc", [response(HOST, "2016-02-01T00:00:00Z", b"second")])
        found = Client(self.serve(self.archives.collection())).get(target, headers={"If-None-Match": first.headers["ETag"]})
        self.assertEqual([b"first", b"second"], [first.data, found.data])
        self.assertNotEqual(first.headers["ETag"], found.headers["ETag"])


if __name__ == "__main__":
    unittest.main()
