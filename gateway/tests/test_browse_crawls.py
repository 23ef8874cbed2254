"""The pages over a crawl of wget, over many captures and over long lines."""
import re
import unittest
from unittest import mock

from . import browse_support as support
from .browse_support import Archives, text_of

from warcdx import Archive, payload
from warcdx_gateway.browse import counting

HOME = "http://example.com/"


class Crawl(support.Pages):
    """A crawl of wget."""

    def fill(self, archives: Archives) -> None:
        archives.add("wget.warc", [])
        (archives.archives / "wget.warc").write_bytes((support.SAMPLES / "wget.warc").read_bytes())
        archives.index(archives.archives / "wget.warc")

    def test_each_record_has_a_page_and_a_payload(self) -> None:
        archive = Archive(support.SAMPLES / "wget.warc", program=support.PROGRAM)
        kinds = ("response", "revisit", "resource")
        offsets = {each.offset for each in archive.list() if each.kind in kinds}
        self.assertEqual({offset for _, offset in self.archives.lines}, offsets)
        for offset in offsets:
            place = self.place_at("wget.warc", offset)
            found = self.get("record", **place)
            self.assertIn("The block is as it was recorded", found)
            saved = self.ask("download", what="payload", **place)
            self.assertEqual(payload(archive.get(offset)), saved.data)
            if "<iframe" in found and "text/html" not in found:
                self.assertEqual(saved.data, self.ask("payload", **place).data)

    def test_the_host_has_all_captures(self) -> None:
        found = text_of(self.get("search", url="127.0.0.1", match="host"))
        self.assertIn("captures on 22 November 2026.", found)


class Many(support.Pages):
    """More captures than are held at a time."""

    def fill(self, archives: Archives) -> None:
        stamps = [f"{2000 + number // 500}{number % 12 + 1:02}15{number % 86400:06}" for number in range(3500)]
        name = "a%b +&=ü.warc"
        archives.put("index", b"".join(sorted(archives.line(HOME, stamp, name, at) for at, stamp in enumerate(stamps))))

    def test_all_are_counted(self) -> None:
        found = self.get("search", url=HOME)
        self.assertIn("3,500 captures between 15 January 2000 and 15 December 2006.", text_of(found))
        for year in range(2000, 2007):
            self.assertIn(f'aria-label="{year}: 500 captures"', found)

    def test_all_are_listed_page_by_page(self) -> None:
        query, seen = "url=example.com&from=2003&to=2003", set()
        while query:
            answer = self.client.get("/crawl/browse/captures?" + query)
            found = answer.text
            seen |= set(re.findall(r"offset=(\d+)", found))
            link = re.search(r'<a href="captures\?([^"#]*)#list" rel="next">', found)
            query = link[1].replace("&amp;", "&") if link else ""
        self.assertEqual({str(number) for number in range(1500, 2000)}, seen)

    def test_a_limit_is_said(self) -> None:
        with mock.patch.object(counting.count, "__defaults__", (1700,)):
            found = text_of(self.get("search", url=HOME, year="2003"))
        self.assertIn("Only the first 1,700 captures were counted, up to", found)
        self.assertIn("The captures after these aren't in the drawings.", found)
        self.assertIn("2003: 200 captures", found)


class LongLines(support.Pages):
    """An index with a line of 9 MB."""

    def fill(self, archives: Archives) -> None:
        lines = [archives.line(HOME, f"2016010100000{number}", "a.warc", number) for number in range(9)]
        lines.append(archives.line(HOME, "20170101000000", "x" * (9 << 20), 9))
        archives.put("index", b"".join(lines))

    def test_its_capture_is_listed_without_a_link(self) -> None:
        found = self.get("search", url=HOME)
        self.assertIn("10 captures between", text_of(found))
        self.assertIn("1 January 2017, 00:00:00", text_of(found))
        self.assertNotIn("archive=xxx", found)
        self.assertLess(len(found), 100_000)


if __name__ == "__main__":
    unittest.main()
