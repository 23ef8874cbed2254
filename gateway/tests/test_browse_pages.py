"""The pages, as a reader goes through them: years, days, captures, records and comparisons."""
import gzip
import re
import unittest
from unittest import mock
from urllib.parse import urljoin

from werkzeug.test import Client

from . import browse_support as support
from .browse_support import Archives, digest_of, page, record, response, revisit, text_of

from warcdx_gateway.browse import counting, lists
from warcdx_gateway.browse.search_page import caption
from warcdx_gateway.browse.searching import Search
from warcdx_gateway.collection import Source

HOME = "http://example.com/"
FIRST = page("Home", "Open from 9 to 17.", "The same.")
SECOND = page("Home", "Open from 9 to 18.", "The same.")


class Reading(support.Pages):
    def fill(self, archives: Archives) -> None:
        records = [
            record("warcinfo", "", "2016-03-01T00:00:00Z", b"software: none\r\n", "application/warc-fields"),
            response(HOME, "2016-03-03T09:34:31Z", FIRST, http=["X-Field: a value"]),
            response(HOME, "2016-03-03T10:00:00Z", SECOND),
            revisit(HOME, "2016-12-31T23:59:59Z", SECOND, "2016-03-03T10:00:00Z"),
            response(HOME, "2018-07-01T00:00:00Z", b"gone", "text/plain", status="410 Gone"),
            response("http://example.com/a%20b?c=d", "2017-01-01T00:00:00Z", FIRST),
            response("http://www.example.com/logo", "2017-01-01T00:00:00Z", b"\x89PNG\r\n\x1a\n", "image/png"),
            response("http://sub.example.com/", "2017-02-01T00:00:00Z", FIRST),
            response("http://example.org/data", "2017-02-01T00:00:00Z", b"PK\3\4", "application/zip"),
            record("resource", "http://example.org/note", "2017-02-01T00:00:00Z", b"text", "text/plain"),
        ]
        digests = {"Block": digest_of(b""), "Payload": digest_of(FIRST)}
        of_wget = [f"WARC-{part}-Digest: {digest}" for part, digest in digests.items()]
        records.append(
            record(
                "revisit",
                "http://example.net/",
                "2017-02-01T00:00:00Z",
                b"HTTP/1.1 200 OK\r\n\r\n",
                "application/http; msgtype=response",
                of_wget,
            )
        )
        archives.add("a.warc", records)
        packed = response("http://packed.example/", "2019-01-01T00:00:00Z", gzip.compress(FIRST, mtime=0), http=["Content-Encoding: gzip"])
        archives.add("b.warc.gz", [packed])

    def test_the_list_of_collections_links_each(self) -> None:
        named = (self.archives.collection(name, f"<{name}>") for name in ("one", "Two.2"))
        client = Client(self.serve(*named))
        found = client.get("/browse").text
        self.assertIn('<a href="one/browse/">&lt;one&gt;</a>', found)
        self.assertIn('<a href="Two.2/browse/">&lt;Two.2&gt;</a>', found)
        for path, status in (
            ("/one/browse/", 200),
            ("/Two.2/browse/", 200),
            ("/three/browse/", 404),
            ("/browse/style.css", 200),
            ("/browse/icon.svg", 200),
            ("/favicon.ico", 200),
        ):
            answer = client.get(path)
            options = answer.headers["X-Content-Type-Options"]
            self.assertEqual((status, "nosniff"), (answer.status_code, options), path)
        self.assertEqual("text/css", client.get("/browse/style.css").mimetype)

    def test_a_path_may_have_its_slash_or_not(self) -> None:
        for path, page_path in (("/browse/", "/browse"), ("/crawl/browse", "/crawl/browse/")):
            answer = self.client.get(path)
            self.assertEqual(308, answer.status_code)
            self.assertEqual(page_path, urljoin(path, answer.headers["Location"]))
        self.assertEqual(200, self.client.get("/crawl/browse/").status_code)

    def test_one_collection_alone_has_no_list(self) -> None:
        for path in ("/", "/browse"):
            answer = self.client.get(path, headers={"Accept": "text/html"})
            self.assertEqual((303, "crawl/browse/"), (answer.status_code, answer.headers["Location"]))
        self.assertEqual("/crawl/cdx\tA crawl\n", self.client.get("/", headers={"Accept": "text/plain"}).text)
        self.assertNotIn("Collections", self.get(""))
        client = Client(self.serve(self.archives.collection("one", "One"), self.archives.collection("two", "Two")))
        self.assertIn(">Collections</a>", client.get("/two/browse/").text)

    def test_an_address_has_years_days_and_captures(self) -> None:
        found = self.get("search", url="example.com", year="2016")
        text = text_of(found)
        self.assertIn("4 captures between 3 March 2016 and 1 July 2018.", text)
        self.assertIn('aria-label="2016: 3 captures"', found)
        self.assertIn('aria-label="2018: 1 capture"', found)
        self.assertNotIn("2017: ", found)  # a year without captures is no link
        self.assertIn('aria-label="Thursday, 3 March 2016: 2 captures"', found)
        self.assertIn('aria-label="Saturday, 31 December 2016: 1 capture"', found)
        self.assertEqual(2, len(re.findall('<text [^>]*class="day"', found)))
        self.assertIn("Captures in 2016", text)
        rows = re.findall(r"<tr role=\"row\"><th scope=\"row\" role=\"rowheader\" class=\"time\">(.*?)</tr>", found)
        self.assertEqual(
            ["3 March 2016, 09:34:31 200 text/html", "3 March 2016, 10:00:00 200 text/html", "31 December 2016, 23:59:59 200 revisit"],
            [" ".join(text_of(each).split()[:6]) for each in rows],
        )
        self.assertIn("same as above", text_of(rows[2]))

    def test_the_last_year_is_shown_first(self) -> None:
        found = text_of(self.get("search", url=HOME))
        self.assertIn("2018: 1 capture", found)
        self.assertIn("Captures in 2018", found)
        self.assertIn("410", found)

    def test_the_drawings_are_tables_too(self) -> None:
        found = self.get("search", url=HOME, year="2016")
        for words, count in (("Thursday, 3 March 2016", 2), ("Saturday, 31 December 2016", 1)):
            self.assertRegex(found, rf"<th [^>]*><a [^>]*>{words}</a></th><td [^>]*>{count}</td>")

    def test_each_day_links_its_captures(self) -> None:
        found = self.get("search", url=HOME, year="2016")
        link = re.search(r'<a href="(captures\?[^"]*)" aria-label="Thursday, 3 March', found)
        self.assertEqual("captures?url=http%3A%2F%2Fexample.com%2F&amp;from=20160303&amp;to=20160303", link and link[1])
        day = text_of(self.get("captures", url=HOME, from_="20160303", to="20160303"))
        self.assertIn("Captures on 3 March 2016", day)
        self.assertIn("09:34:31", day)
        self.assertNotIn("December", day)

    def test_a_host_has_its_addresses(self) -> None:
        names = ("example.com/", "example.com/a%20b?c=d", "www.example.com/logo")
        of_host = [f"http://{name}" for name in names]
        for query, expected in (
            ({"url": "*.example.com"}, [*of_host, "http://sub.example.com/"]),
            ({"url": "example.com", "match": "host"}, of_host),
            ({"url": "example.com/a*"}, ["http://example.com/a%20b?c=d"]),
            ({"url": "*.example.com", "year": "2018"}, ["http://example.com/"]),
            ({"url": "*.example.com", "from": "2017-02", "to": "2017"}, ["http://sub.example.com/"]),
        ):
            found = self.get("search", **query)
            addresses = re.findall(r'<a href="search\?url=[^"]*"><bdi>(.*?)</bdi></a>', found)
            self.assertEqual(expected, addresses, query)

    def test_an_address_of_a_list_has_its_captures(self) -> None:
        found = self.get("search", url="*.example.com")
        link = re.search(r'<a href="search\?([^"]*)"><bdi>http://example.com/a', found)
        assert link
        answer = self.client.get("/crawl/browse/search?" + link[1].replace("&amp;", "&"))
        text = text_of(answer.text)
        self.assertIn("http://example.com/a%20b?c=d 1 capture on 1 January 2017.", text)

    def test_what_is_refused_is_said(self) -> None:
        for query, words in (
            ({"url": ""}, "Nothing was typed."),
            ({}, "Nothing was typed."),
            ({"url": "http://[x"}, "The search for “http://[x” was refused (BadUrl)."),
            ({"url": "ftp://a.example/", "match": "host"}, "found only for web URLs"),
            ({"url": HOME, "match": "regex"}, "The match “regex” was refused."),
            ({"url": HOME, "from": "March"}, "The time “March” was refused."),
            ({"url": HOME, "to": "2016-3-1"}, "A time is a year"),
            ({"url": HOME, "after": "nonsense"}, "isn't one"),
        ):
            self.assertIn(words, text_of(self.get("search", 400, **query)), query)

    def test_a_star_that_stands_for_itself_is_explained(self) -> None:
        for typed, is_explained in (
            ("example.com/*/a", True),
            ("*example.com", True),
            ("example.com/nothing", False),
            ("nothing.example/*", False),
        ):
            self.assertEqual(is_explained, "stands for what follows it only at the end" in text_of(self.get("search", url=typed)), typed)

    def test_nothing_found_offers_wider_searches(self) -> None:
        found = self.get("search", url="example.com/nothing", from_="2016")
        self.assertIn("The collection has no capture of this in the time from 2016 to the last.", text_of(found))
        for words in ("Search at any time", "Search the whole host", "Search for URLs that begin with it"):
            self.assertIn(words, found)

    def test_times_are_typed_in_several_ways(self) -> None:
        for typed in ("2016", "2016-03", "201603", "2016-03-03", "20160303", " 2016 "):
            found = text_of(self.get("search", url=HOME, from_=typed, to=typed))
            self.assertIn("captures", found)
            self.assertIn("March 2016", found)

    def test_lists_continue(self) -> None:
        with mock.patch.object(lists, "SIZE", 2):
            first = self.get("captures", url=HOME)
            self.assertEqual(2, first.count("Record of"))
            link = re.search(r'<a href="captures\?([^"#]*)#list" rel="next">Next 2</a>', first)
            assert link
            answer = self.client.get("/crawl/browse/captures?" + link[1].replace("&amp;", "&"))
            second = answer.text
        self.assertIn("Record of 31 December 2016, 23:59:59", second)
        self.assertIn("Record of 1 July 2018", second)
        self.assertNotIn("Next 2", second)
        self.assertIn("First page", second)

    def test_counts_are_whole_over_pages_and_say_when_they_are_not(self) -> None:
        self.assertIn("4 captures between", text_of(self.get("search", url=HOME)))
        for most, is_whole in ((3, False), (4, True), (5, True)):
            search = Search(HOME)
            counts = counting.count(self.source(), search, most)
            self.assertEqual((is_whole, min(most, 4)), (counts.is_whole, counts.total))
            words = "Only the first 3 captures were counted, up to 31 December 2016, 23:59:59"
            self.assertEqual(not is_whole, words in caption(counts, search).text)

    def test_a_record_is_shown(self) -> None:
        found = self.get("record", **self.place_of(1))
        text = text_of(found)
        for words in (
            "Response record of 3 March 2016, 09:34:31 http://example.com/",
            "3 March 2016, 09:34:31",
            "The block is as it was recorded",
            "The payload is as it was recorded",
            "WARC-Type response",
            "(first line) HTTP/1.1 200 OK",
            "X-Field a value",
            f"The payload has {len(FIRST)} bytes",
        ):
            self.assertIn(words.lower(), text.lower())
        frame = r'<iframe title="[^"]*" src="payload\?archive=a.warc&amp;[^"]*" sandbox '
        self.assertRegex(found, frame)

    def test_a_record_has_the_captures_before_and_after_it(self) -> None:
        def links(number: int) -> list[tuple[str, str]]:
            found = self.get("record", **self.place_of(number))
            pattern = r'<a href="record\?([^"]*)" rel="(?:prev|next)">(\w+) capture: ([^<]*)</a>'
            return [(words, time) for _, words, time in re.findall(pattern, found)]

        second = ("Next", "3 March 2016, 10:00:00")
        self.assertEqual([second], links(1))
        first, last = "3 March 2016, 09:34:31", "31 December 2016, 23:59:59"
        self.assertEqual([("Previous", first), ("Next", last)], links(2))
        self.assertEqual([("Previous", last)], links(4))

    def test_a_record_that_no_index_names_is_not_shown(self) -> None:
        place = self.place_of(1)
        for name, value in (("offset", 0), ("archive", "b.warc.gz"), ("timestamp", "20160303093432"), ("key", "com,example)/other")):
            for path in ("record", "payload", "download"):
                self.get(path, 404, **{**place, name: value})
        for name in ("offset", "timestamp", "key"):
            self.get("record", 400, **{**place, name: ""})

    def test_records_of_other_types_are_shown(self) -> None:
        found = text_of(self.get("record", **self.place("http://example.org/note")))
        self.assertIn("resource record", found)
        self.assertNotIn("HTTP headers", found)
        self.assertIn(
            "It isn't shown, for its type is application/zip. It can be saved.",
            text_of(self.get("record", **self.place("http://example.org/data"))),
        )

    def test_a_revisit_has_its_original(self) -> None:
        found = self.get("record", **self.place_of(3))
        self.assertIn("The payload is that of the capture of 3 March 2016, 10:00:00 , which has the same " "digest.", text_of(found))
        self.assertIn(f'href="record?archive=a.warc&amp;offset={self.offset_of(2)}&amp;', found)
        self.assertIn("The payload is empty.", text_of(found))

    def test_a_revisit_of_wget_is_not_said_to_differ(self) -> None:
        """GNU Wget writes the digest of no bytes into the WARC-Block-Digest of each revisit."""
        found = self.get("record", **self.place("http://example.net/"))
        self.assertIn("WARC-Block-Digest is the digest of no bytes", text_of(found))
        self.assertNotIn('class="verdict bad"', found)
        words = "WARC-Payload-Digest is the digest of a payload that isn't in the record."
        self.assertIn(words, text_of(found))

    def test_compressed_archives_are_read(self) -> None:
        found = text_of(self.get("record", **self.place("http://packed.example/")))
        self.assertIn("The block is as it was recorded", found)
        answer = self.ask("payload", **self.place("http://packed.example/"))
        self.assertEqual(FIRST, answer.data)

    def test_two_texts_are_compared(self) -> None:
        found = self.get("compare", first=self.pair_of(1), second=self.pair_of(2))
        self.assertIn("1 line differs.", text_of(found))
        self.assertIn("9 to <del>17</del>.", found)
        self.assertIn("9 to <ins>18</ins>.", found)

    def test_a_revisit_is_compared_by_its_original(self) -> None:
        found = text_of(self.get("compare", first=self.pair_of(2), second=self.pair_of(3)))
        self.assertIn("The texts are the same. The payloads are the same, byte for byte.", found)
        self.assertIn("(a revisit: the text of its original)", found)

    def test_images_are_not_compared(self) -> None:
        logo = self.pair(*self.archives.places["http://www.example.com/logo"])
        found = text_of(self.get("compare", 422, first=self.pair_of(1), second=logo))
        self.assertIn("Only texts are compared.", found)

    def test_records_and_payloads_are_saved(self) -> None:
        answer = self.ask("download", what="record", **self.place_of(1))
        self.assertEqual(b"WARC/1.1\r\n", answer.data[:10])
        self.assertEqual("application/octet-stream", answer.headers["Content-Type"])
        name = f"a.warc-{self.offset_of(1)}.warc"
        self.assertEqual(f"attachment; filename=\"{name}\"; filename*=UTF-8''{name}", answer.headers["Content-Disposition"])
        saved = self.ask("download", what="payload", **self.place("http://packed.example/"))
        self.assertEqual(FIRST, saved.data)
        self.assertIn('filename="20190101000000-packed.example"', saved.headers["Content-Disposition"])
        head = self.client.head("/crawl/browse/download", query_string=self.place_of(1))
        self.assertEqual((200, answer.headers["Content-Length"]), (head.status_code, head.headers["Content-Length"]))

    def offset_of(self, number: int) -> int:
        """Returns the offset of a record of a.warc."""
        archive = (self.archives.archives / "a.warc").read_bytes()
        return [found.start() for found in re.finditer(rb"WARC/1\.1\r\nWARC-Type", archive)][number]

    def place_of(self, number: int) -> dict[str, object]:
        return self.place_at("a.warc", self.offset_of(number))

    def pair_of(self, number: int) -> str:
        return self.pair("a.warc", self.offset_of(number))

    def source(self) -> Source:
        return Source(self.gateway.main)


if __name__ == "__main__":
    unittest.main()
