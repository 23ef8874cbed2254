"""The literal requests of clients on other paths than `/cdx`, and in other words."""
import json
import unittest
import urllib.error
import urllib.request
from xml.etree import ElementTree

from warcdx_gateway.history import last_moment

from .costs import processor_time
from .support import Shared
from .test_clients import REQUESTS, TIMES

CRAWLS = """
[collections.main]
indexes = ["index"]
[collections.crawls]
indexes = ["index"]
form = "pywb"
"""


class Paths(Shared):
    """The requests of programs on other paths, and in other words."""

    settings = CRAWLS

    def test_each_answer_that_is_known_is_not_sent(self) -> None:
        """Also one of columns and in an output that the program doesn't have."""
        for path in (
            "/main?url=example.com", "/main-index?url=example.com&output=json", "/main/index?url=example.com&resolveRevisits=true&output=json",
            "/cdx?url=example.com&fl=timestamp,redirect", "/cdx?url=example.com&output=json&fl=url", "/cdx?url=example.com&collapse=digest&showGroupCount=true",
            "/cdx?url=example.com&showDupeCount=true", "/cdx?url=example.com&limit=-2", "/cdx?url=example.com&closest=2016", "/cdx?url=example.com/*&page=0",
            "/cdx?url=example.com&showNumPages=true", "/cdx?url=example.com&filter=statuscode:2..", "/cdx?url=example.com&offset=1&collapse=urlkey",
        ):  # fmt: skip
            first = self.server.ask(path)
            self.assertEqual(200, first.status, path)
            self.assertEqual((304, b""), self.server.ask(path, If_None_Match=first.fields["etag"])[::2], path)

    def test_wayback_machine_downloader(self) -> None:
        query = (
            "/cdx/search/xd?output=json&url=http%3A%2F%2Fexample.com%2F*&fl=timestamp%2Coriginal"
            "&collapse=digest&gzip=false&filter=statuscode%3A200&page=0"
        )
        names, *rows = self.rows(query)
        self.assertEqual(["timestamp", "original"], names)
        self.assertEqual(["20140101000000", "http://example.com/"], rows[0])
        self.assertEqual([], self.rows(query.replace("page=0", "page=1")))

    def test_photon(self) -> None:
        query = (
            "url=example.com&matchType=host&collapse=urlkey&fl=original&filter=mimetype:text/html"
            "&filter=statuscode:200&output=json&from=2013271&to=2016277"
        )
        self.assertEqual([["original"], ["http://example.com/"]], self.rows(f"/cdx/search?{query}"))

    def test_subfinder_and_param_spider(self) -> None:
        wanted = ["http://example.com/", "http://example.com/a", "http://example.com/b.png"]
        query = "/cdx/search/cdx?url=*.example.com/*&output=txt&fl=original&collapse=urlkey"
        self.assertEqual([*wanted, "http://sub.example.com/"], self.lines(query))
        query = "/cdx/search/cdx?url=example.com/*&output=txt&collapse=urlkey&fl=original&page=/"
        self.assertEqual(wanted, self.lines(query))

    def test_cdx_index_client(self) -> None:
        found = self.server.ask("/crawls-index?url=*.example.com&showNumPages=True")
        self.assertEqual(1, json.loads(found.body)["pages"])
        lines = self.lines("/crawls-index?url=*.example.com&page=0&output=json&fl=url")
        self.assertEqual({"url": "http://example.com/"}, json.loads(lines[0]))

    def test_cdx_toolkit_finds_the_collections(self) -> None:
        found = json.loads(self.server.ask("/collinfo.json", **REQUESTS).body)
        self.assertEqual(["crawls", "main"], sorted(each["id"] for each in found))
        self.assertEqual({"id", "name", "timegate", "cdx-api"}, set(found[0]))
        api = next(each["cdx-api"] for each in found if each["id"] == "crawls")
        self.assertTrue(api.endswith("/crawls-index"))
        self.assertEqual(5, len(self.lines("/crawls-index?url=example.com&limit=1000&page=0")))

    def test_pywb_2_asks_for_objects(self) -> None:
        found = self.lines("/crawls/cdx?url=example.com&output=json&limit=1")
        self.assertEqual("http://example.com/", json.loads(found[0])["url"])
        first = self.lines("/crawls/cdx?url=example.com")[0]
        self.assertTrue(first.startswith("com,example)/ 20140101000000 {"))
        self.assertEqual([], self.rows("/main/cdx?url=example.net&output=json"))

    def test_pywb_asks_for_the_present(self) -> None:
        for closest in ("now", "20990101000000"):
            query = f"url=example.com&closest={closest}&sort=closest&limit=1"
            found = self.lines(f"/crawls/index?{query}")
            self.assertEqual([TIMES[-1]], [line.split(" ")[1] for line in found])
        query = "url=example.com&closest=&sort=closest&limit=100"
        self.assertEqual(5, len(self.lines(f"/crawls/index?{query}")))

    def test_pywb_asks_for_links(self) -> None:
        found = self.server.ask("/crawls/index?url=example.com&output=link")
        self.assertEqual("application/link-format", found.fields["content-type"])
        self.assertIn('rel="first memento"; datetime="Wed, 01 Jan 2014 00:00:00 GMT"', found.text)

    def test_the_pages_of_the_internet_archive(self) -> None:
        query = (
            "/web/timemap/json?url=example.com&matchType=prefix&collapse=urlkey&output=json"
            "&fl=original%2Cmimetype%2Ctimestamp%2Cendtimestamp%2Cgroupcount%2Cuniqcount"
            "&filter=!statuscode%3A%5B45%5D..&limit=10000&_=1615000000000"
        )
        wanted = [
            ["original", "mimetype", "timestamp", "endtimestamp", "groupcount", "uniqcount"],
            ["http://example.com/", "text/html", TIMES[0], TIMES[4], "4", "2"],
            ["http://example.com/b.png", "image/png", "20150101000000", "20150101000000", "1", "1"],
        ]
        self.assertEqual(wanted, self.rows(query))
        path = "/__wb/sparkline?output=json&url=example.com&collection=web"
        found = json.loads(self.server.ask(path).body)
        self.assertEqual((TIMES[0], TIMES[4]), (found["first_ts"], found["last_ts"]))
        self.assertEqual([1, 0, 0, 0, 0, 1, 0, 0, 0, 0, 0, 0], found["years"]["2016"])
        # A revisit has no status, and the capture of June has 404.
        self.assertEqual("000004000000", found["status"]["2016"])
        self.assertEqual("200000000000", found["status"]["2017"])

    def test_time_maps(self) -> None:
        for path in ("/web/timemap/json/http://example.com/", "/main/timemap/json/example.com"):
            self.assertEqual(TIMES, [row[1] for row in self.rows(path)[1:]])
        for path in ("/web/timemap/cdx/http://example.com/", "/main/timemap/cdxj/http://example.com/"):
            self.assertEqual(TIMES, [line.split(" ")[1] for line in self.lines(path)])
        self.assertEqual(TIMES, [row[1] for row in self.rows("/web/timemap/?url=example.com&output=json")[1:]])
        found = self.lines("/crawls/timemap/json/http://example.com/")
        self.assertEqual(TIMES, [json.loads(line)["timestamp"] for line in found])
        found = self.lines("/web/timemap/link/http://example.com/")
        self.assertEqual(5, sum("memento" in line for line in found))

    def test_group_counts(self) -> None:
        wanted = ["com,example)/ 5", "com,example)/a 1", "com,example)/b.png 1"]
        path = "/cdx/search/cdx?url=example.com/*&fl=urlkey&showGroupCount=true"
        query = f"{path}&collapse=urlkey"
        self.assertEqual(wanted, self.lines(query))
        self.assertEqual(["com,example)/ 5 3"], self.lines(f"{query}&showUniqCount=true&limit=1"))
        self.assertEqual(wanted[1:2], self.lines(f"{query}&offset=1&limit=1"))
        *first, _, key = self.lines(f"{query}&limit=1&showResumeKey=true")
        self.assertEqual(wanted[:1], first)
        self.assertEqual(wanted[1:], self.lines(f"{query}&resumeKey={key}"))
        self.assertIn("one collapse is needed", self.refused(path))

    def test_skip_counts(self) -> None:
        query = "url=example.com&collapse=digest&showSkipCount=true&lastSkipTimestamp=true"
        wanted = [f"{TIMES[0]} {TIMES[2]} 2", f"{TIMES[3]} {TIMES[3]} 0", f"{TIMES[4]} {TIMES[4]} 0"]
        self.assertEqual(wanted, self.lines(f"/cdx?{query}&fl=timestamp,endtimestamp,skipcount"))
        first = "com,example)/ 20140101000000 http://example.com/ text/html 200 AAAA 1000"
        self.assertEqual(f"{first} {TIMES[2]} 2", self.lines(f"/cdx?{query}")[0])

    def test_a_limit_above_the_largest_is_the_largest(self) -> None:
        self.assertEqual(5, len(self.lines("/cdx?url=example.com&limit=2000000")))
        self.assertEqual(5, len(self.lines("/cdx?url=example.com&limit=100000000000")))
        server = self.start(head="workers = 2\n", largest=2, held=2, usual=0)
        self.assertEqual(2, len(server.ask("/cdx?url=example.com&limit=3").text.splitlines()))
        self.assertEqual(2, len(server.ask("/cdx?url=example.com&limit=-3").text.splitlines()))

    def test_a_query_may_be_posted(self) -> None:
        for path in ("/cdx", "/main/cdx", "/crawls/index", "/web/timemap/json"):
            wanted = self.server.ask(f"{path}?url=example.com&fl=timestamp").body
            for target, body in ((path, b"url=example.com&fl=timestamp"), (f"{path}?url=example.com", b"fl=timestamp")):
                asked = urllib.request.Request(f"{self.server.url}{target}", body)
                with urllib.request.urlopen(asked) as answer:
                    self.assertEqual(wanted, answer.read(), path)
        self.assertEqual(405, self.server.ask("/web/timegate/http://example.com/", method="POST").status)

    def test_a_time_is_filled_to_its_end(self) -> None:
        """Years, months and days with a digit or more; what is no date stays as near as it can."""
        for digits, wanted in (
            ("2", "29991231235959"), ("19", "19991231235959"), ("2016", "20161231235959"), ("20160", "20160930235959"),
            ("20161", "20161231235959"), ("201602", "20160229235959"), ("2016022", "20160229235959"),
            ("2015022", "20150228235959"), ("2016043", "20160430235959"), ("20160101", "20160101235959"),
            ("201601012", "20160101235959"), ("2016010103", "20160101035959"), ("20160101030405", "20160101030405"),
            ("20169", "20169231235959"), ("0", "09991231235959"), ("201600", "20160031235959"),
        ):  # fmt: skip
            self.assertEqual(wanted, last_moment(digits), digits)

    def test_other_words(self) -> None:
        def times(query: str) -> list[str]:
            return self.lines(f"/cdx/search/cdx?url=example.com&fl=timestamp&{query}")

        self.assertEqual(TIMES[2:4], times("offset=2&limit=2"))
        self.assertEqual(TIMES, times("limit=0"))
        self.assertEqual(TIMES, times("callback=jQuery123&_=1615000000000&omitSelfRedirects=true"))
        self.assertEqual([TIMES[0], TIMES[1], TIMES[2], TIMES[4]], times("collapseTime=4"))
        self.assertEqual(TIMES[:1], times("limit=1&resolveRevisits=False&gzip=False"))
        self.assertIn("no blocks", self.refused("/cdx?url=a&showPagedIndex=true"))

    def test_outback_cdx(self) -> None:
        first = self.lines("/main?url=http%3A%2F%2Fexample.com%2F")[0]
        wanted = "com,example)/ 20140101000000 http://example.com/ text/html 200 AAAA - - 1000 0 "
        self.assertEqual(wanted + "a.warc", first)
        found = self.lines("/main?url=example.com&closest=20160301000000&sort=closest&limit=100")
        self.assertEqual(TIMES[2], found[0].split(" ")[1])
        self.assertEqual(2, len(self.lines("/main?url=example.com&limit=2&omitSelfRedirects=true")))

    def test_open_wayback(self) -> None:
        url = "url%3Ahttp%253A%252F%252Fexample.com%252F"
        wayback = self.xml(f"/main?q=type%3Aurlquery+{url}+limit%3A2")
        results = results_of(wayback)
        self.assertEqual(TIMES[:2], [each["capturedate"] for each in results])
        names = ("compressedoffset", "file", "httpresponsecode", "url")
        wanted = ["0", "a.warc", "200", "http://example.com/"]
        self.assertEqual(wanted, [results[0][name] for name in names])
        self.assertEqual("urlquery", wayback.findtext("request/type"))
        wayback = self.xml(f"/main?q=type%3Aurlquery+{url}&count=2&start_page=2")
        self.assertEqual(TIMES[2:4], [each["capturedate"] for each in results_of(wayback)])
        self.assertEqual("2", wayback.findtext("request/firstreturned"))
        results = results_of(self.xml("/main?q=type:prefixquery+url:http%3A%2F%2Fexample.com%2F"))
        names = ("numcaptures", "numversions", "firstcapturets", "lastcapturets")
        self.assertEqual(["5", "3", TIMES[0], TIMES[4]], [results[0][name] for name in names])
        wayback = self.xml("/main?q=type:urlquery+url:http%3A%2F%2Fexample.net%2F", 404)
        self.assertEqual("Resource Not In Archive", wayback.findtext("error/title"))
        self.assertTrue(self.refused("/main?q=type:urlquery").startswith("refused NoUrl"))
        for value in ("0", "10001", "0000000001", f"000000001{'0' * 5000}", "x", "1.", "-1"):
            self.assertTrue(self.refused(f"/main?q=type:urlquery+{url}&start_page={value}").startswith("refused BadLimit"), value[:20])
            self.assertTrue(self.refused(f"/main?q=type:urlquery+{url}+limit:{value}").startswith("refused BadLimit"), value[:20])
        before = processor_time(self.server)
        self.assertTrue(self.refused(f"/main?q={'a' * 60_000}").startswith("refused NoUrl"))
        self.assertLess(processor_time(self.server) - before, 2)

    def xml(self, target: str, status: int = 200) -> ElementTree.Element:
        found = self.server.ask(target)
        self.assertEqual(status, found.status)
        return ElementTree.fromstring(found.text)

    def test_availability(self) -> None:
        path = "/wayback/available?url=example.com&timestamp=20160301"
        found = json.loads(self.server.ask(path, **REQUESTS).body)
        self.assertEqual(("example.com", "20160301"), (found["url"], found["timestamp"]))
        closest = found["archived_snapshots"]["closest"]
        url = closest.pop("url")
        wanted = {"status": "200", "available": True, "timestamp": "20170101000000"}
        self.assertEqual(wanted, closest)
        self.assertTrue(url.endswith("/web/20170101000000id_/https://example.com/"))
        found = json.loads(self.server.ask("/wayback/available?url=example.net").body)
        self.assertEqual({"url": "example.net", "archived_snapshots": {}}, found)
        body = "url=http%3A%2F%2Fexample.com%2F&tag=1\nurl=example.com&statuscodes=404&tag=2"
        asked = urllib.request.Request(f"{self.server.url}/wayback/available", body.encode())
        with urllib.request.urlopen(asked) as answer:
            found = json.load(answer)
        results = found["results"]
        self.assertEqual(["1", "2"], [each["tag"] for each in results])
        closest = [each["archived_snapshots"]["closest"] for each in results]
        self.assertEqual(["200", "404"], [each["status"] for each in closest])

    def test_availability_before_and_after(self) -> None:
        path = "/wayback/available?url=example.com&statuscodes=200&statuscodes=404"
        for given, wanted in (
            ("closest=before&timestamp=20160101", TIMES[1]), ("closest=after&timestamp=20160101", TIMES[3]),
            ("closest=before&timestamp=20150101000000", TIMES[1]), ("closest=after&timestamp=20150101000000", TIMES[1]),
            ("closest=either&timestamp=20160301", TIMES[3]), ("closest=before&timestamp=2013", None),
            ("closest=after&timestamp=2018", None),
        ):  # fmt: skip
            found = json.loads(self.server.ask(f"{path}&{given}").body)["archived_snapshots"]
            self.assertEqual(wanted, found.get("closest", {}).get("timestamp"), given)

    def test_availability_of_many(self) -> None:
        for count, wanted in ((50, 200), (51, 400)):
            body = b"url=example.net\n" * count
            asked = urllib.request.Request(f"{self.server.url}/wayback/available", body)
            try:
                with urllib.request.urlopen(asked) as answer:
                    self.assertEqual(count, len(json.load(answer)["results"]))
            except urllib.error.HTTPError as error:
                with error:
                    self.assertEqual(wanted, error.code)
                    self.assertTrue(error.read().startswith(b"refused TooMany"))

    def test_an_empty_parameter_is_as_none(self) -> None:
        query = "url=example.com&limit=1"
        for path, name in (("/web/timemap/json", "output"), ("/main", "fl")):
            wanted = self.server.ask(f"{path}?{query}").text
            for given in (f"{name}=&{query}", f"{query}&{name}="):
                self.assertEqual(wanted, self.server.ask(f"{path}?{given}").text, given)

    def test_waybackpack_and_edgi_download(self) -> None:
        capture = "/web/20150101000000id_/http://example.com/"
        for path, wanted in (
            ("/web/20150101000000/http://example.com/", capture),
            ("/web/20150101000000im_/http://example.com/", capture),
            ("/web/20150601id_/http://example.com/", capture),
            ("/web/2016*/http://example.com/", "/main/browse/search?url=http%3A%2F%2Fexample.com%2F&year=2016"),
        ):
            found = self.server.ask(path)
            self.assertEqual(302, found.status)
            self.assertTrue(found.fields["location"].endswith(wanted), path)

    def test_a_browser_gets_a_page_with_links(self) -> None:
        found = self.server.ask("/", Accept="text/html,application/xhtml+xml;q=0.9,*/*;q=0.8")
        self.assertIn('<a href="main/browse/">', found.text)
        self.assertIn("Accept", found.fields["vary"])
        self.assertTrue(self.server.ask("/").text.startswith("/"))


def results_of(wayback: ElementTree.Element) -> list[dict[str, str]]:
    return [{each.tag: each.text or "" for each in found} for found in wayback.iter("result")]


if __name__ == "__main__":
    unittest.main()
