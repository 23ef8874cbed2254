"""Captures as they were archived: their payloads, statuses and fields, and what a browser is shown of them."""
import gzip
import importlib.util
import unittest
from unittest import mock

from werkzeug.test import TestResponse

from . import browse_support as support
from .browse_support import Archives, record, response, revisit

from warcdx_gateway.browse.raw_captures import archived_fields

WINDOW = "<link rel=preconnect href=//a.example><a href=/next>é</a>"
HAS_BROTLI = importlib.util.find_spec("brotli") is not None
PAGE = "http://example.com/page?a=b&c=%20d"
DATE, LATER = "2016-03-03T09:34:31Z", "2017-01-01T00:00:00Z"
BODY = b"<script>top.hacked = 1</script><p>text"
BROTLI = b"\x8b\x01\x80text\x03"  # RFC 7932: `text`, not compressed
# Bodies that are stored otherwise than their heads say.
OTHERWISE = {
    "unpacked": (b"text", "gzip"),
    "twice": (support.gzip.compress(b"text", mtime=0), "gzip, gzip"),
    "charset": (b"text", "UTF-8"),
    "none": (b"text", "none"),
    "foreign": (b"text", "zstd"),
    "nothing": (b"", "gzip"),
}


class Raw(support.Pages):
    """Captures as they were archived."""

    def fill(self, archives: Archives) -> None:
        chunked = b"5\r\n<p>on\r\n2\r\ne.\r\n0\r\n\r\n"
        packed = support.gzip.compress(BODY, mtime=0)
        fields = ["Set-Cookie: a=b", "Content-Security-Policy: default-src *", "X-Odd: a\x1bb"]
        home, script = ["Location: /page?a=b&c=%20d"], ["Location: javascript:alert(1)"]
        coding = "Content-Encoding"
        unmodified = [  # ISO 28500:2017, section 6.7.3
            "WARC-Profile: http://netpreserve.org/warc/1.1/revisit/server-not-modified",
            "WARC-Refers-To-Target-URI: http://example.com/gone",
            f"WARC-Refers-To-Date: {DATE}",
        ]
        many = [f"X-Many-{number}: {'v' * 500}" for number in range(500)]
        archives.add("a.warc", [
            response(PAGE, DATE, BODY, http=fields),
            revisit(PAGE, LATER, BODY, DATE),
            response("http://example.com/gone", DATE, b"gone", "text/plain", status="410 Gone"),
            response("http://example.com/moved", DATE, b"", status="302 Found", http=home),
            response("http://example.com/script", DATE, b"", status="302 Found", http=script),
            *(
                response(
                    f"http://example.com/{name}",
                    DATE,
                    b"",
                    status="301 Moved Permanently",
                    http=[f"Location: https://example.com/{name}"],
                )
                for name in ("secure", "later", "alone")
            ),
            *(
                response(f"http://example.com/{name}", DATE, b"", status="301 Moved Permanently", http=[f"Location: {target}"])
                for name, target in (
                    ("itself", "http://example.com/itself"), ("itself-in-other-words", "./itself-in-other-words#x"), ("nothing-else", ""),
                    ("no-host", "http://exa mple/"), ("no-port", "http://example.com:99999/"), ("too-long", "/" + "x" * 66_000),
                )
            ),
            response("https://example.com/secure", DATE, b"secure"),
            response("https://example.com/later", LATER, b"secure"),
            response(
                "http://example.com/chunks", DATE, chunked, http=["Transfer-Encoding: chunked"]
            ),
            response("http://example.com/packed", DATE, packed, http=["Content-Encoding: gzip"]),
            response("http://example.com/brotli", DATE, BROTLI, http=["Content-Encoding: br"]),
            *(
                response(f"http://example.com/{name}", DATE, body, http=[f"{coding}: {codings}"])
                for name, (body, codings) in OTHERWISE.items()
            ),
            response(
                "http://example.com/unchunked", DATE, b"text", http=["Transfer-Encoding: chunked"]
            ),
            response("http://example.com/hostile", DATE, b"x", http=[f"{coding}: a\x1b b\x7f"]),
            response("http://example.com/codings", DATE, b"x", http=[f"{coding}: {'gzip,' * 999}"]),
            response("http://example.com/many", DATE, b"many", http=many),
            response("http://example.com/odd", DATE, b"odd", status="999 Odd"),
            response("http://example.com/empty", DATE, b"", status="304 Not Modified"),
            response("http://example.com/large", DATE, b"x" * 3_000_000, "text/plain"),
            response("http://example.com/window", DATE, gzip.compress(WINDOW.encode("windows-1252"), mtime=0), "text/html",
                     status="410 Gone", http=["Content-Encoding: gzip"]),
            response("http://example.com/window.svg", DATE, b"<svg/>", "image/svg+xml"),
            response("http://example.com/window.png", DATE, b"x", "image/png"),
            record("resource", "http://example.com/note", DATE, b"a note", "text/plain"),
            record("response", "http://example.com/old", DATE, b"<p>old", "application/http"),
            revisit("http://example.com/lost", DATE, b"lost"),
            record("revisit", "http://example.com/gone", LATER, b"", "text/plain", unmodified),
        ])  # fmt: skip

    def raw(self, url: str, timestamp: str = "20160303093431", **headers: str) -> TestResponse:
        fields = {name.replace("_", "-"): each for name, each in headers.items()}
        return self.client.get(f"/crawl/{timestamp}id_/{url}", headers=fields)

    def test_a_capture_has_its_payload_and_its_fields(self) -> None:
        answer = self.raw(PAGE)
        self.assertEqual((200, BODY), (answer.status_code, answer.data))
        self.assertEqual("text/html; charset=utf-8", answer.headers["Content-Type"])
        self.assertEqual("Thu, 03 Mar 2016 09:34:31 GMT", answer.headers["Memento-Datetime"])
        self.assertEqual("a=b", answer.headers["X-Archive-Orig-Set-Cookie"])
        self.assertEqual("ab", answer.headers["X-Archive-Orig-X-Odd"])
        self.assertNotIn("Set-Cookie", answer.headers)
        self.assertIn('rel="original"', answer.headers["Link"])
        later = f"<http://localhost/crawl/20170101000000id_/{PAGE}>"
        self.assertIn(f'{later}; rel="next last memento"', answer.headers["Link"])

    def test_a_capture_is_held_in_the_sandbox(self) -> None:
        for url in (PAGE, "http://example.com/gone", "http://example.com/note"):
            headers = self.raw(url).headers
            self.assertEqual(["sandbox"], headers["Content-Security-Policy"].split(";")[:1])
            self.assertEqual(1, len(headers.getlist("Content-Security-Policy")))
            self.assertEqual("nosniff", headers["X-Content-Type-Options"])

    def test_a_capture_has_its_status(self) -> None:
        for name, status, data in (("gone", 410, b"gone"), ("odd", 200, b"odd"), ("note", 200, b"a note"), ("chunks", 200, b"<p>one.")):
            answer = self.raw(f"http://example.com/{name}")
            self.assertEqual((status, data), (answer.status_code, answer.data), name)
            self.assertIn("Memento-Datetime", answer.headers)

    def test_a_capture_without_an_http_header_is_a_payload(self) -> None:
        answer = self.raw("http://example.com/old")  # as of HTTP/0.9
        wanted = (200, b"<p>old", "application/octet-stream")
        found = answer.status_code, answer.data, answer.headers["Content-Type"]
        self.assertEqual(wanted, found)

    def test_a_redirect_goes_to_the_capture_of_its_target(self) -> None:
        answer = self.raw("http://example.com/moved")
        self.assertEqual(302, answer.status_code)
        location = f"http://localhost/crawl/20160303093431id_/{PAGE}"
        self.assertEqual(location, answer.headers["Location"])
        self.assertEqual("/page?a=b&c=%20d", answer.headers["X-Archive-Orig-Location"])
        answer = self.raw("http://example.com/script")
        self.assertNotIn("Location", answer.headers)

    def test_a_redirect_to_another_spelling_never_leads_to_itself(self) -> None:
        """A crawl has http and https in one second, or at other times, under one URL key."""
        for name, wanted in (
            ("secure", "20160303093431id_/https://example.com/secure"),
            ("later", "20170101000000id_/https://example.com/later"),
        ):
            answer = self.raw(f"http://example.com/{name}")
            self.assertEqual(301, answer.status_code)
            location = answer.headers["Location"]
            self.assertEqual(f"http://localhost/crawl/{wanted}", location)
            answer = self.client.get(location.removeprefix("http://localhost"))
            self.assertEqual((200, b"secure"), (answer.status_code, answer.data))
        for name in ("alone", "itself", "itself-in-other-words", "nothing-else", "no-host", "no-port", "too-long"):
            answer = self.raw(f"http://example.com/{name}")
            self.assertEqual((301, None), (answer.status_code, answer.headers.get("Location")), name)

    def test_a_revisit_has_the_payload_of_its_original(self) -> None:
        answer = self.raw(PAGE, "20170101000000")
        self.assertEqual((200, BODY), (answer.status_code, answer.data))
        self.assertEqual("Sun, 01 Jan 2017 00:00:00 GMT", answer.headers["Memento-Datetime"])
        self.assertEqual(404, self.raw("http://example.com/lost").status_code)

    def test_a_revisit_without_a_digest_has_the_payload_of_its_time(self) -> None:
        answer = self.raw("http://example.com/gone", "20170101000000")
        self.assertEqual((410, b"gone"), (answer.status_code, answer.data))

    def test_content_codings_are_those_that_the_client_takes(self) -> None:
        packed = "http://example.com/packed"
        answer = self.raw(packed, Accept_Encoding="gzip")
        self.assertEqual("gzip", answer.headers["Content-Encoding"])
        self.assertEqual(BODY, support.gzip.decompress(answer.data))
        answer = self.raw(packed)
        self.assertEqual((None, BODY), (answer.headers.get("Content-Encoding"), answer.data))
        self.assertIn("Accept-Encoding", answer.headers["Vary"])
        answer = self.raw("http://example.com/codings", Accept_Encoding="gzip")
        self.assertEqual(422, answer.status_code)

    @unittest.skipUnless(HAS_BROTLI, "the module brotli is missing")
    def test_brotli_is_a_coding_like_others(self) -> None:
        for headers, wanted in (({"Accept_Encoding": "br"}, ("br", BROTLI)), ({}, (None, b"text"))):
            answer = self.raw("http://example.com/brotli", **headers)
            self.assertEqual(wanted, (answer.headers.get("Content-Encoding"), answer.data))

    def test_brotli_may_be_missing(self) -> None:
        with mock.patch.dict("sys.modules", {"brotli": None}):
            for headers in ({"Accept_Encoding": "br"}, {}):
                answer = self.raw("http://example.com/brotli", **headers)
                self.assertEqual(422, answer.status_code)
                self.assertIn("python3-brotli", answer.text)

    def test_no_client_is_told_of_a_coding_that_the_payload_has_not(self) -> None:
        for accepted in ("gzip, br, zstd, *", "gzip", ""):
            for name in (*OTHERWISE, "unchunked", "hostile"):
                answer = self.raw(f"http://example.com/{name}", Accept_Encoding=accepted)
                self.assertNotIn("Content-Encoding", answer.headers, name)
                wanted = {"nothing": b"", "hostile": b"x"}.get(name, b"text")
                self.assertEqual((200, wanted), (answer.status_code, answer.data), name)

    def test_a_browser_is_shown_a_page_with_what_is_in_the_archive(self) -> None:
        url, stamp = "http://example.com/window", "20160303093431"
        for mark in ("", "id_"):
            for dest in ("image", "empty"):
                answer = self.client.get(f"/crawl/{stamp}{mark}/{url}", headers={"Sec-Fetch-Dest": dest})
                self.assertEqual((410 if mark else 302, True), (answer.status_code, "Sec-Fetch-Dest" in answer.vary))
            for dest in ("document", "iframe"):
                answer = self.client.get(f"/crawl/{stamp}{mark}/{url}", headers={"Sec-Fetch-Dest": dest})
                self.assertIn("Sec-Fetch-Dest", answer.vary)
                if mark:
                    self.assertEqual(302, answer.status_code)
                    self.assertEqual(f"http://localhost/crawl/{stamp}/{url}", answer.headers["Location"])
                    continue
                self.assertEqual((410, "text/html; charset=utf-8"), (answer.status_code, answer.content_type))
                link = f'<a href="/crawl/{stamp}/http://example.com/next">'.replace('"/', '"http://localhost/')
                self.assertEqual(f"<meta>{link}é</a>", answer.text)
                self.assertTrue(answer.headers["Content-Security-Policy"].startswith("sandbox; default-src 'none'"))
                self.assertEqual("off", answer.headers["X-DNS-Prefetch-Control"])
                self.assertIn("Memento-Datetime", answer.headers)
        answer = self.client.get(f"/crawl/2016/{url}", headers={"Sec-Fetch-Dest": "document"})
        self.assertIn("Sec-Fetch-Dest", answer.vary)
        self.assertEqual(f"http://localhost/crawl/{stamp}/{url}", answer.headers["Location"])
        for name, wanted in (("window.svg", "text/plain; charset=utf-8"), ("window.png", "image/png")):
            answer = self.client.get(f"/crawl/{stamp}id_/http://example.com/{name}", headers={"Sec-Fetch-Dest": "document"})
            self.assertEqual((200, wanted), (answer.status_code, answer.content_type))

    def test_archived_fields_are_bounded(self) -> None:
        answer = self.raw("http://example.com/many")
        self.assertLess(sum(len(name) + len(value) + 4 for name, value in answer.headers), 10_000)
        self.assertEqual(b"many", answer.data)
        hostile = (("X Space", "a"), ("", "b"), ("X-\r\nY", "c"), ("X-\u00e9", "d"), ("Good", "e\r\nZ: f\u202e"))
        self.assertEqual([("Good", "eZ: f")], list(archived_fields(hostile)))

    def test_a_long_payload_is_whole(self) -> None:
        answer = self.raw("http://example.com/large")
        self.assertEqual(b"x" * 3_000_000, answer.data)

    def test_head_has_no_payload(self) -> None:
        answer = self.client.head(f"/crawl/20160303093431id_/{PAGE}")
        self.assertEqual((200, b""), (answer.status_code, answer.data))
        self.assertEqual("Thu, 03 Mar 2016 09:34:31 GMT", answer.headers["Memento-Datetime"])


if __name__ == "__main__":
    unittest.main()
