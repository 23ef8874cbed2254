"""Archives and indexes of which an attacker has written every byte."""
import dataclasses
import gzip
import os
import time
import tracemalloc
import unittest
from unittest import mock
from urllib.parse import urlencode

from werkzeug.test import Client

from . import browse_support as support
from .browse_support import MEGABYTE, Archives, bomb, page, record, response, text_of

from warcdx_gateway.browse import reading
from warcdx_gateway.browse.responses import PAYLOAD_POLICY

HOME = "http://example.com/"
SCRIPT = "<script>top.hacked=1</script>"
MARKUP = f"\"'></title></iframe></svg>{SCRIPT}<img src=x onerror=alert(1)>"
ADDRESSES = (
    "javascript:alert(document.domain)",
    "data:text/html," + SCRIPT,
    "http://evil.example/?" + MARKUP,
    "http://evil.example/\u202egpj.exe",
    "http://evil.example/\x9b31m",
    "//evil.example/",
    "..//..//",
)
OUTSIDE = (
    "../outside.warc", "link.warc", "/etc/passwd", "../../../../../../etc/passwd",
    "good.warc/../../outside.warc", ".", "..", "a\0b", "x" * 5000, "pipe.warc", "-", "-h",
)  # fmt: skip
NAMED = {"key": "com,example)/named", "timestamp": "20160303000000"}
LONG = "http://long.example/" + "\u202e" * 100_000


class Indexes(support.Pages):
    """Lines of an index whose values are hostile."""

    def fill(self, archives: Archives) -> None:
        good = response(HOME, "2016-03-03T00:00:00Z", page("good"))
        self.length = str(len(good))
        archives.add("good.warc", [good], index=False)
        outside = archives.folder / "outside.warc"
        outside.write_bytes(response(HOME, "2016-03-03T00:00:00Z", b"secret"))
        (archives.archives / "link.warc").symlink_to(outside)
        os.mkfifo(archives.archives / "pipe.warc")
        lines = [archives.line(address, f"2016030300000{number}", "good.warc", 0)
                 for number, address in enumerate(ADDRESSES)]  # fmt: skip
        lines += [
            archives.line(HOME, "20160304000000", MARKUP, 0, mime=MARKUP, status=MARKUP, digest=MARKUP, length=MARKUP),
            archives.line(LONG, "20160305000000", LONG, 0, mime=LONG, status=LONG, digest=LONG, length=LONG),
            archives.line(LONG, "20160306000000", LONG, 0, key="com,example)/" + "k" * 100_000),
            archives.line(HOME, "00000000000000", "good.warc", 0),
            archives.line(HOME, "00010101000000", "good.warc", 0),
            archives.line(HOME, "20161345999999", "good.warc", 0),
            archives.line(HOME, "99991231235960", "good.warc", 0),
            archives.line(HOME, "20160230000000", "good.warc", 0, key="com,example)/<script>"),
        ]
        # Indexes may name any file.
        for name in (*OUTSIDE, str(outside), "good.warc", "missing.warc"):
            for offset in (0, 1, 2**63 - 1):
                lines.append(archives.line(HOME, "20160303000000", name, offset, key=NAMED["key"], length=self.length))
        archives.put("index", b"".join(sorted(lines)))

    def test_values_are_escaped_everywhere(self) -> None:
        for name, query in (
            ("search", {"url": HOME}),
            ("search", {"url": HOME, "year": "2016"}),
            ("search", {"url": "*.example.com"}),
            ("search", {"key": "com,example)/<script>"}),
            ("captures", {"url": "*.example.com"}),
            ("captures", {"url": HOME, "from": "20160304", "to": "20160304"}),
        ):
            found = self.get(name, **query)
            self.assertNotIn(SCRIPT, found)
            self.assertLess(len(found), 200_000)
        listed = text_of(self.get("captures", url="*.example.com"))
        for words in ("javascript:alert(document.domain)", SCRIPT, "[U+202E] gpj.exe", "[U+009B] 31m"):
            self.assertIn(words, listed)

    def test_what_a_reader_sends_is_escaped(self) -> None:
        for name in ("url", "match", "from", "to", "key", "year", "after"):
            for value in (MARKUP, "\u202e", "\0", "\r\nX-Injected: 1"):
                query = {"url": HOME, name: value}
                for path in ("search", "captures"):
                    answer = self.ask(path, **query)
                    found = answer.text
                    self.assertIn(answer.status_code, (200, 400), found)
                    self.assertNotIn("X-Injected", answer.headers)
                    self.assertEqual([], support.faults_of(found), (name, value))
        for path in ("record", "download", "payload", "compare"):
            found = self.get(
                path,
                404,
                archive=MARKUP,
                offset=0,
                timestamp="20160304000000",
                key=MARKUP.replace(" ", ""),
                what="record",
                first=f"0 20160304000000 {HOME} {MARKUP}",
                second=f"0 20160304000000 {HOME} {MARKUP}",
            )
            self.assertNotIn(SCRIPT, found)

    def test_years_that_are_no_dates_are_shown(self) -> None:
        found = text_of(self.get("search", url=HOME))
        self.assertIn("The time of 2 captures is no date.", found)
        for year, count in (("0000", 1), ("0001", 1), ("9999", 1), ("2016", 10)):
            words = f"<h2>{year}: {count} capture{'s' if count > 1 else ''}</h2>"
            self.assertIn(words, self.get("search", url=HOME, year=year))
        for day in ("00000000", "20161345", "99991231"):
            self.assertIn("Record of", self.get("captures", url=HOME, from_=day, to=day))

    def test_no_file_outside_of_the_folders_is_read(self) -> None:
        for name in (*OUTSIDE, str(self.archives.folder / "outside.warc")):
            for path in ("record", "payload", "download"):
                found = self.get(path, 404, **NAMED, archive=name, offset=0)
                self.assertNotIn("secret", found, name)

    def test_links_lead_to_the_folders_of_the_settings(self) -> None:
        place = {**NAMED, "archive": "link.warc", "offset": "0"}
        none, other = "has no archive of this name", "No record of the archive begins at this offset"
        for links, why in (((), none), ((self.archives.archives / "below",), none), ((self.archives.folder,), other)):
            settings = dataclasses.replace(self.archives.collection(), links=links)
            found = Client(self.serve(settings)).get("/crawl/browse/record", query_string=place)
            self.assertIn(why, found.text)  # the line of the index has the length of another record

    def test_offsets_are_numbers(self) -> None:
        for offset, status in (
            ("1", 502), ("2", 404), ("9223372036854775807", 404), ("9223372036854775808", 400),
            ("-1", 400), ("+1", 400), ("0x0", 400), ("", 400), ("٣", 400), ("1e3", 400),
            ("--help", 400), ("9" * 400, 400),
        ):  # fmt: skip
            for path in ("record", "payload", "download"):
                self.get(path, status, **NAMED, archive="good.warc", offset=offset)
        self.assertIn("good", text_of(self.get("record", **NAMED, archive="good.warc", offset="0")))


class DamagedIndexes(support.Pages):
    def fill(self, archives: Archives) -> None:
        # The line is found by a query that reads it, not when the index is opened.
        keys = (f"com,example)/{number:05}" for number in range(20_000))
        lines = [archives.line(HOME, "20160303000000", "a.warc", 0, key=key) for key in keys]
        lines[7000] = b"com,example)/07000 not a line\n"
        archives.put("index", b"".join(lines))

    def test_a_damaged_index_is_said(self) -> None:
        found = text_of(self.get("search", 502, url="*.example.com"))
        self.assertIn("An index of the collection can't be read. Its fault is BadLine.", found)
        self.assertNotIn(str(self.archives.folder), found)


class Records(support.Pages):
    """Records whose heads and payloads are hostile."""

    def fill(self, archives: Archives) -> None:
        date = "2016-03-03T00:00:00Z"
        self.bomb = bomb()
        many = [f"X-{number}: {MARKUP}" for number in range(3000)]
        html = f"<meta http-equiv=refresh content='0;url=http://evil.example/'>{SCRIPT}".encode()
        svg = b"<svg xmlns='http://www.w3.org/2000/svg'><script>1</script></svg>"
        quotes = 'text/html"; charset="x\r\nX-Injected: 1'
        cut = gzip.compress(html, mtime=0)[:-4]
        nothing = gzip.compress(gzip.compress(gzip.compress(b"", mtime=0) * 4_000_000, mtime=0), mtime=0)  # in members
        controls = ["X\0-Name\x1b: a\rb\x7f", "\udcff: \udcfe", "No colon", MARKUP]
        pointers = [f"WARC-Payload-Digest: sha1:{MARKUP}&key=x", f"WARC-Refers-To-Target-URI: {MARKUP}", f"WARC-Refers-To-Date: {MARKUP}"]
        http = "application/http; msgtype=response"

        def coded(name: str, body: bytes, coding: str) -> bytes:
            return response(HOME + name, date, body, http=[f"Content-Encoding: {coding}"])

        def digested(name: str, digest: str) -> bytes:
            return response(HOME + name, date, html, fields=[f"WARC-Block-Digest: {digest}"])

        self.all = {
            "html": response(HOME + "html", date, html),
            "image": response(HOME + "image", date, html, "image/png"),
            "svg": response(HOME + "svg", date, svg, "image/svg+xml"),
            "quotes": response(HOME + "quotes", date, html, quotes),
            "charset": response(HOME + "charset", date, html, "text/html; charset=utf-7"),
            "script": response(HOME + "script", date, b"alert(1)", "text/javascript"),
            "type": response(HOME + "type", date, html, MARKUP),
            "none": response(HOME + "none", date, html, None),
            "many": response(HOME + "many", date, html, http=many),
            "controls": response(HOME + "controls", date, html, http=controls),
            "bomb": coded("bomb", self.bomb, "gzip"),
            "nested": coded("nested", nothing, "gzip, gzip, gzip"),
            "codings": coded("codings", html, "gzip," * 20_000),
            "unknown": coded("unknown", b"\x28\xb5\x2f\xfd" + html, "zstd"),
            "otherwise": coded("otherwise", html, f"gzip, zstd, {MARKUP}"),
            "cut": coded("cut", cut, "gzip"),
            "no-head": record("response", HOME + "no-head", date, b"\0" * 9, http),
            "cut-head": record("response", HOME + "cut-head", date, b"HTTP/1.1 200 OK\r\nA:", http),
            "changed": digested("changed", "sha1:" + "A" * 32),
            "no-digest": digested("no-digest", MARKUP),
            "revisit": record("revisit", HOME, date, b"", "application/http", pointers),
            "address": record("resource", MARKUP, date, html, MARKUP),
        }
        archives.add("a.warc", list(self.all.values()), index=False)
        archives.add("c.warc", [response(f"{HOME}a", date, page("a"))])
        self.offsets, at, lines = {}, 0, []
        for name, each in self.all.items():
            self.offsets[name] = at
            length = str(len(each))
            address = MARKUP if name == "address" else HOME + name
            lines.append(archives.line(address, "20160303000000", "a.warc", at, length=length))
            at += len(each)
        archives.put("index", b"".join(sorted(lines)))

    def shown(self, name: str) -> str:
        return self.get("record", **self.named(name))

    def named(self, name: str) -> dict[str, object]:
        return self.place_at("a.warc", self.offsets[name])

    def payload(self, name: str) -> tuple[str, bytes]:
        """Returns the type with which a payload is answered, and the payload."""
        answer = self.ask("payload", **self.named(name))
        self.assertEqual(200, answer.status_code)
        self.assertEqual(PAYLOAD_POLICY, answer.headers["Content-Security-Policy"])
        for header, value in (
            ("X-Content-Type-Options", "nosniff"),
            ("Referrer-Policy", "no-referrer"),
            ("Cross-Origin-Resource-Policy", "same-origin"),
        ):
            self.assertEqual(value, answer.headers[header])
        self.assertNotIn("X-Injected", answer.headers)
        return answer.headers["Content-Type"], answer.data

    def test_each_record_has_a_page(self) -> None:
        for name in self.all:
            found = self.shown(name)
            self.assertNotIn(SCRIPT, found, name)
            self.assertNotIn("\x1b", found)

    def test_the_policy_of_payloads_lets_nothing_act(self) -> None:
        directives = dict(part.strip().partition(" ")[::2] for part in PAYLOAD_POLICY.split(";"))
        self.assertEqual(
            ("", "'none'", "'none'", "'none'"), tuple(directives[each] for each in ("sandbox", "default-src", "form-action", "base-uri"))
        )
        self.assertNotIn("script-src", directives)

    def test_payloads_have_types_of_a_list(self) -> None:
        for name, kind in (
            ("html", "text/html; charset=utf-8"),
            ("image", "image/png"),
            ("svg", "text/plain; charset=utf-8"),
            ("charset", "text/html; charset=utf-8"),
            ("script", "text/plain; charset=utf-8"),
            ("quotes", "text/plain; charset=utf-8"),
        ):
            self.assertEqual(kind, (self.payload(name))[0])
        for name in ("type", "none", "address"):
            self.get("payload", 415, **self.named(name))
            self.assertNotIn("<iframe", self.shown(name))

    def test_a_payload_has_no_window_of_its_own(self) -> None:
        query = self.named("html")
        answer = self.ask("payload", {"Sec-Fetch-Dest": "document"}, **query)
        self.assertEqual((303, f"record?{urlencode(query)}"), (answer.status_code, answer.headers["Location"]))
        answer = self.ask("payload", {"Sec-Fetch-Dest": "iframe"}, **query)
        self.assertEqual(200, answer.status_code)

    def test_the_redirect_of_a_payload_keeps_its_query(self) -> None:
        query = "archive=a%26b%2Bc%2520d%23e.warc&offset=0&timestamp=20160303000000&key=k"
        answer = self.client.get(f"/crawl/browse/payload?{query}", headers={"Sec-Fetch-Dest": "document"})
        self.assertEqual(f"record?{query}", answer.headers["Location"])

    def test_captures_as_they_were_archived_are_held(self) -> None:
        for name in self.all:
            answer = self.client.get(f"/crawl/20160303000000id_/{HOME}{name}")
            with self.subTest(name):
                self.assertIn(answer.status_code, (200, 404, 502, 422))
                if answer.status_code == 200:
                    self.assertEqual(PAYLOAD_POLICY, answer.headers["Content-Security-Policy"])
                for field, value in answer.headers:
                    self.assertTrue(value.isascii() and value.isprintable(), field)
                    self.assertNotIn("injected", field.lower())
            answer.close()

    def test_what_can_not_be_seen_is_shown(self) -> None:
        text = text_of(self.shown("controls"))
        for words in ("X [U+0000] -Name [U+001B]", "a [U+000D] b [U+007F]", r"\xFF", r"\xFE", "No colon", SCRIPT):
            self.assertIn(words, text)

    def test_digests_have_verdicts_in_words(self) -> None:
        for name, words in (
            ("html", "The block is as it was recorded"),
            ("changed", "The block differs"),
            ("no-digest", "Not compared: WARC-Block-Digest has another algorithm or form."),
        ):
            self.assertIn(words, text_of(self.shown(name)))
        with mock.patch("warcdx_gateway.browse.record_page.MOST_VERIFIED", 10):
            self.assertIn("Not compared: the block has more than", text_of(self.shown("html")))

    def test_heads_of_many_fields_are_cut(self) -> None:
        text = text_of(self.shown("many"))
        shown = [words in text for words in ("HTTP/1.1 200 OK", "X-297", "X-298", "2,702 fields more")]
        self.assertEqual([True, True, False, True], shown)

    def test_bombs_are_given_up(self) -> None:
        tracemalloc.start()
        self.addCleanup(tracemalloc.stop)
        start = time.process_time()
        self.assertIn("The payload has more than 4,194,304 bytes. Its beginning is shown.", text_of(self.shown("bomb")))
        self.assertEqual(4 * MEGABYTE, len((self.payload("bomb"))[1]))
        self.assertIn("can't be unpacked to its end", text_of(self.shown("nested")))
        self.assertIn("more than 8 codings", text_of(self.shown("codings")))
        self.assertLess(time.process_time() - start, 20)
        self.assertLess(tracemalloc.get_traced_memory()[1], 60 * MEGABYTE)

    def test_codings_that_can_not_be_undone_are_said(self) -> None:
        for name, words in (
            ("unknown", "The coding 'zstd' can't be undone."),
            ("cut", "The body is cut."),
            ("cut-head", "The HTTP head doesn't end."),
            ("no-head", "The payload has 9 bytes"),
            ("otherwise", f"that the record is stored without: {MARKUP.lower()}, zstd, gzip."),
        ):
            self.assertIn(words, text_of(self.shown(name)))
        for name in ("unknown", "cut-head"):
            found = text_of(self.get("download", 422, what="payload", **self.named(name)))
            self.assertIn("The payload can't be unpacked.", found)
            saved = self.ask("download", what="record", **self.named(name))
            self.assertEqual(self.all[name], saved.data)

    def test_a_download_that_fails_later_is_not_whole(self) -> None:
        with mock.patch.object(reading, "DOWNLOADED", reading.Limits(size=MEGABYTE, seconds=60)):
            answer = self.ask("download", what="payload", **self.named("bomb"))
            self.assertEqual(200, answer.status_code)
            with self.assertRaises(BrokenPipeError):
                for _ in answer.iter_encoded():
                    pass

    def test_names_of_downloads_are_plain(self) -> None:
        for name in ("address", "controls", "html"):
            for what in ("record", "payload"):
                answer = self.ask("download", what=what, **self.named(name))
                self.assertEqual("application/octet-stream", answer.headers["Content-Type"])
                self.assertRegex(
                    answer.headers["Content-Disposition"], r"""^attachment; filename="[\w.-]+"; filename\*=UTF-8''[\w.%~-]+$"""
                )
                self.assertIn("sandbox", answer.headers["Content-Security-Policy"])


if __name__ == "__main__":
    unittest.main()
