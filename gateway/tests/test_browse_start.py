"""The start page of a collection, with a summary and without one."""
import json
import os
import re
import unittest

from werkzeug.test import Client

from . import browse_support as support
from .browse_support import Archives, text_of

HOME = "http://example.com/"


class Start(support.Pages):
    """The start page of a collection."""

    def fill(self, archives: Archives) -> None:
        hosts = ("com,example", "com,example,www2", "com,example:8080", "org,example")
        lines = [
            archives.line(HOME, "20160303000000", "a.warc", number, key=f"{host})/{page}")
            for number, host in enumerate(hosts)
            for page in ("", "a", "\U0010fffd")
        ]
        for key in ("dns:example.com", "zz,<script>)/"):
            lines.append(archives.line(HOME, "20160303000000", "a.warc", 9, key=key))
        archives.put("index", b"".join(sorted(lines)))

    def summarize(self, text: str) -> None:
        folder = self.archives.folder / "index.d/current"
        folder.mkdir(parents=True, exist_ok=True)
        (folder / "summary.json").write_text(text)

    def test_a_summary_is_shown(self) -> None:
        summary = {
            "made": "2026-11-27T12:00:00Z",
            "archives": 3,
            "bytes": 12_345_678,
            "captures": 1234,
            "years": {"2015": 34, "2016": 1200},
            "hosts": {"example.com": 1000, "dns:": 234},
            "types": {"text/html": 1234},
            "statuses": {"200": 1234},
            "damaged": [{"archive": "b.warc", "offset": 1000, "cause": "ShortBlock"}],
        }
        self.summarize(json.dumps(summary))
        found = self.get("")
        text = text_of(found)
        for words in (
            "1,234 captures in 3 archives of 12 MB, as of 27 November 2026, 12:00:00.",
            "text/html 1,234",
            "b.warc 1,000 ShortBlock",
        ):
            self.assertIn(words, text)
        self.assertIn('aria-label="2016: 1,200 captures"', found)
        link = '<a href="search?url=example.com&amp;match=host"><bdi>example.com</bdi></a>'
        self.assertIn(link, found)
        self.assertIn("<bdi>dns:</bdi>", found)

    def test_a_summary_may_be_anything(self) -> None:
        hostile = {
            "made": 7,
            "captures": "<script>",
            "years": {"<script>": 1, "2016": -1, "2017": 5},
            "hosts": [1],
            "types": {"<script>": 3},
            "damaged": [None, {"archive": ["<script>"]}] * 50,
        }
        for each in (hostile, {}, {"years": {}, "damaged": []}):
            self.summarize(json.dumps(each))
            self.assertNotIn("<script", self.get(""))
        for text in ("", "[]", "{", "[" * 100_000, "7", "9" * 5000, "\0"):
            self.summarize(text)
            self.assertIn("Hosts", self.get(""))
        path = self.archives.folder / "index.d/current/summary.json"
        path.unlink()
        os.mkfifo(path)  # which nobody writes to
        self.assertIn("Hosts", self.get(""))

    def test_without_a_summary_the_first_hosts_are_shown(self) -> None:
        found = self.get("")
        hosts = re.findall(r"<li>(?:<a href=\"[^\"]*\">)?<bdi>(.*?)</bdi>", found)
        wanted = "example.com www2.example.com example.com:8080 dns: example.org &lt;script&gt;.zz"
        self.assertEqual(wanted.split(), hosts)
        self.assertIn("1 index of", text_of(found))

    def test_pages_of_other_origins_read_no_page(self) -> None:
        client = Client(self.serve(self.archives.collection(), origins=("*",)))
        for path, origin in (("/crawl/browse/", None), ("/crawl/cdx?key=k", "*")):
            found = client.get(path, headers={"Origin": "http://evil.example"})
            self.assertEqual(origin, found.headers.get("Access-Control-Allow-Origin"), path)


if __name__ == "__main__":
    unittest.main()
