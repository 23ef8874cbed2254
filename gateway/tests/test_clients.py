"""The literal requests of Wayback clients, and what they get. gateway/README.md has the table.

Debian has none of these clients, so their requests are sent by a plain socket. Each expected answer
follows by hand from the captures in support.py.
"""
import json
import subprocess
import unittest
from urllib.parse import quote

from .support import Shared

REQUESTS = {"User_Agent": "python-requests/2.28.1", "Accept_Encoding": "gzip, deflate", "Accept": "*/*", "Connection": "keep-alive"}
TIMES = ["20140101000000", "20150101000000", "20160101000000", "20160601000000", "20170101000000"]


class InternetArchive(Shared):
    """The examples of the documents of the Wayback CDX server."""

    def times(self, query: str) -> list[str]:
        return self.lines(f"/cdx/search/cdx?{query}&fl=timestamp")

    def test_the_usual_fields(self) -> None:
        wanted = "com,example)/ 20140101000000 http://example.com/ text/html 200 AAAA 1000"
        self.assertEqual(wanted, self.lines("/cdx/search/cdx?url=example.com")[0])
        self.assertEqual(TIMES, self.times("url=example.com"))

    def test_json_with_fields(self) -> None:
        wanted = [["timestamp", "statuscode"], ["20140101000000", "200"], ["20150101000000", "200"]]
        self.assertEqual(wanted, self.rows("/cdx/search/cdx?url=example.com&output=json&fl=timestamp,statuscode&limit=2"))

    def test_filters_are_regular_expressions(self) -> None:
        query = "/cdx/search/cdx?url=example.com&matchType=domain&fl=original&"
        self.assertEqual(["http://example.com/", "http://example.com/a"], self.lines(f"{query}filter=statuscode:[45].."))
        self.assertEqual(["http://example.com/b.png"], self.lines(f"{query}filter=mimetype:image/.*"))
        self.assertEqual(["http://example.com/b.png"], self.lines(f"{query}filter=original:.*%5C.(png|gif)"))
        self.assertEqual(["http://example.com/a"], self.lines(f"{query}filter=!statuscode:(2..|404|-)"))
        self.assertEqual([], self.lines(f"{query}filter=statuscode:4"))  # the whole value has to match
        wanted = ["http://example.com/b.png", "http://sub.example.com/"]
        self.assertEqual(
            wanted,
            self.lines(
                f"{query}filter=!statuscode:404&filter=statuscode:2..&filter=original:http:.*[gm]/?&from=2015&to=2016&filter=!digest:AAAB&filter=!urlkey:com,example\\)/"
            ),
        )

    def test_collapse_by_any_field(self) -> None:
        self.assertEqual([TIMES[0], TIMES[3], TIMES[4]], self.times("url=example.com&collapse=digest"))
        self.assertEqual([TIMES[0], TIMES[2], TIMES[3]], self.times("url=example.com&collapse=mimetype&collapse=statuscode"))
        self.assertEqual([TIMES[0]], self.times("url=example.com&collapse=original:4"))
        self.assertEqual([TIMES[0], TIMES[1], TIMES[2], TIMES[4]], self.times("url=example.com&collapse=timestamp:4"))

    def test_the_last_captures(self) -> None:
        self.assertEqual(TIMES[-1:], self.times("url=example.com&limit=-1"))
        self.assertEqual(TIMES[-3:], self.times("url=example.com&limit=-3"))
        self.assertEqual(TIMES, self.times("url=example.com&limit=-9"))
        self.assertEqual(TIMES[-2:], self.times("url=example.com&fastLatest=true&limit=-2"))
        self.assertEqual(TIMES[-1:], self.times("url=example.com&fastLatest=true"))

    def test_resume_keys(self) -> None:
        for rest in ("", "&filter=statuscode:.*"):
            found = self.times(f"url=example.com&limit=3&showResumeKey=true{rest}")
            self.assertEqual([*TIMES[:3], "", "com%2Cexample%29%2F+20160101000000+a.warc+2001"], found)
            self.assertEqual(TIMES[3:], self.times(f"url=example.com&limit=3&showResumeKey=true{rest}&resumeKey={found[-1]}"))

    def test_a_collapse_goes_on_after_a_resume_key(self) -> None:
        key = self.times("url=example.com&collapse=digest&limit=1&showResumeKey=true")[-1]
        self.assertEqual([TIMES[3], TIMES[4]], self.times(f"url=example.com&collapse=digest&resumeKey={key}"))

    def test_pages(self) -> None:
        for rest in ("", "&filter=statuscode:.*"):
            self.assertEqual(["1"], self.lines(f"/cdx/search/cdx?url=example.com&showNumPages=true{rest}"))
            self.assertEqual(["0"], self.lines(f"/cdx/search/cdx?url=example.net&showNumPages=true{rest}"))
            self.assertEqual(TIMES, self.times(f"url=example.com&page=0{rest}"))
            self.assertEqual([], self.times(f"url=example.com&page=1{rest}"))
            self.assertEqual([], self.rows(f"/cdx?url=example.com&page=7&output=json&fl=timestamp{rest}"))

    def test_reverse_and_closest(self) -> None:
        self.assertEqual(TIMES[::-1], self.times("url=example.com&sort=reverse"))
        self.assertEqual(TIMES[:2:-1], self.times("url=example.com&sort=reverse&limit=2"))
        # From 1 March 2016: 60, 92, 306, 425 and 790 days.
        wanted = [TIMES[2], TIMES[3], TIMES[4], TIMES[1], TIMES[0]]
        self.assertEqual(wanted, self.times("url=example.com&sort=closest&closest=20160301"))
        for limit in range(1, 6):
            self.assertEqual(wanted[:limit], self.times(f"url=example.com&closest=20160301&limit={limit}"))
        self.assertEqual(TIMES[::-1], self.times("url=example.com&closest=2030"))
        self.assertEqual(TIMES, self.times("url=example.com&closest=1996"))

    def test_revisits_are_resolved(self) -> None:
        query = "/cdx/search/cdx?url=example.com&from=2016&to=201601&"
        revisit = "com,example)/ 20160101000000 http://example.com/ %s AAAA 500"
        self.assertEqual([revisit % "warc/revisit -"], self.lines(query + "resolveRevisits=false"))
        self.assertEqual([revisit % "text/html 200"], self.lines(query + "resolveRevisits=true"))
        self.assertEqual([revisit % "text/html 200"], self.lines(query + "resolveRevisits=true&filter=statuscode:200"))
        wanted = ["20160101000000 1000 0 a.warc"]
        self.assertEqual(wanted, self.lines(query + "resolveRevisits=true&fl=timestamp,orig.length,orig.offset,orig.filename"))


class Clients(Shared):
    """The requests of programs."""

    def test_waybackpy(self) -> None:
        found = self.lines("/cdx/search/cdx?url=example.com&gzip=false&showNumPages=true", **REQUESTS)
        self.assertEqual(1, int(found[0]))
        query = "/cdx/search/cdx?url=example.com&gzip=false&showResumeKey=true&limit=1&closest=20160301000000&sort=closest"
        self.assertEqual(["com,example)/ 20160101000000 http://example.com/ warc/revisit - AAAA 500"], self.lines(query, **REQUESTS))

    def test_wayback_of_edgi(self) -> None:
        query = "/cdx/search/cdx?url=example.com&from=20150101000000&to=20161231235959&showResumeKey=true&resolveRevisits=true&gzip=false&limit=2"
        found = self.lines(query, **REQUESTS)
        self.assertEqual("com,example)/ 20160101000000 http://example.com/ text/html 200 AAAA 500", found[1])
        self.assertEqual("", found[2])
        for key in (found[3], quote(found[3], safe=""), quote(found[3].replace("+", "%20"), safe="")):
            rest = self.lines(f"{query}&resumeKey={key}", **REQUESTS)
            self.assertEqual(["com,example)/ 20160601000000 http://example.com/ text/html 404 BBBB 700"], rest)
        self.assertEqual({7}, {len(line.split(" ")) for line in rest})

    def test_waybackpack(self) -> None:
        fields, *rows = self.rows("/cdx/search/cdx?url=example.com&output=json&showDupeCount=true")
        snapshots = [dict(zip(fields, row)) for row in rows]
        self.assertEqual(["0", "1", "2", "0", "0"], [each["dupecount"] for each in snapshots])
        self.assertEqual(TIMES, [each["timestamp"] for each in snapshots])

    def test_waybackurls(self) -> None:
        found = self.rows("/cdx/search/cdx?url=*.example.com/*&output=json&collapse=urlkey")
        wanted = ["http://example.com/", "http://example.com/a", "http://example.com/b.png", "http://sub.example.com/"]
        self.assertEqual(wanted, [row[2] for row in found[1:]])

    def test_gau(self) -> None:
        query = "/cdx/search/cdx?url=*.example.com/*&output=json&collapse=urlkey&fl=original&pageSize=100"
        self.assertEqual(1, json.loads(self.server.ask(f"{query}&showNumPages=true").body))
        self.assertEqual(5, len(self.rows(f"{query}&page=0")))

    def test_cdx_toolkit(self) -> None:
        found = self.server.ask("/cdx/search/cdx?url=example.com&output=json&showNumPages=true", **REQUESTS)
        self.assertEqual(1, json.loads(found.body))
        query = "/cdx/search/cdx?url=example.com&output=json&limit=1000&filter=statuscode:200&page="
        self.assertEqual(4, len(self.rows(f"{query}0")))
        self.assertEqual([], self.rows(f"{query}1"))
        found = self.server.ask("/main/index?url=example.com&output=json&showNumPages=true", **REQUESTS)
        self.assertEqual({"pages": 1, "pageSize": 5, "blocks": 5}, json.loads(found.body))
        found = self.server.ask("/main/index?url=example.com&output=json&limit=2&page=0&filter=!=status:200", **REQUESTS)
        self.assertEqual(["-", "404"], [json.loads(line)["status"] for line in found.text.splitlines()])

    def test_pywb_as_a_remote_index(self) -> None:
        """pywb reads the lines as CDXJ, and as CDX with seven columns."""
        query = "url=http%3A%2F%2Fexample.com%2F&closest=20160301000000&sort=closest&limit=100"
        found = self.lines(f"/main/index?{query}", **REQUESTS)
        self.assertEqual([TIMES[2], TIMES[3], TIMES[4], TIMES[1], TIMES[0]], [line.split(" ")[1] for line in found])
        self.assertEqual({"url", "mime", "status", "digest", "length", "offset", "filename"}, set(json.loads(found[0].split(" ", 2)[2])))
        self.assertEqual(
            "com,example)/ 20160101000000 http://example.com/ warc/revisit - AAAA 500", self.lines(f"/main/cdx?{query}", **REQUESTS)[0]
        )

    def test_users_of_pywb(self) -> None:
        wanted = [{"url": "https://example.com/", "mime": "text/html", "status": "200"}]
        query = "/main/index?url=example.com&fl=url,mime,status&output=json&"
        self.assertEqual(wanted, [json.loads(line) for line in self.lines(f"{query}filter==status:200&from=2017")])
        self.assertEqual(wanted, [json.loads(line) for line in self.lines(f"{query}sort=reverse&limit=1")])
        self.assertEqual(wanted, [json.loads(line) for line in self.lines(f"{query}reverse=true&limit=1")])
        query = "/main/index?url=example.com/*&output=text&fields=urlkey,status&"
        self.assertEqual(["com,example)/ 404", "com,example)/a 503"], self.lines(f"{query}filter=~status:[45]"))
        self.assertEqual(["com,example)/b.png 200"], self.lines(f"{query}filter=mime:png"))
        self.assertEqual(["com,example)/b.png 200"], self.lines(f"{query}filter=!mime:text&filter=!=mime:warc/revisit"))
        found = self.lines("/main/index?url=example.com&resolveRevisits=true&output=json&from=2016&to=201601")
        self.assertEqual(
            ("1000", "0", "a.warc", "200"),
            tuple(json.loads(found[0])[name] for name in ("orig.length", "orig.offset", "orig.filename", "status")),
        )
        names = ["urlkey", "timestamp", "url", "mime", "status", "digest", "length", "offset", "filename"]
        self.assertEqual(names, list(json.loads(self.lines("/main/index?url=example.com&output=json")[0])))

    def test_pywb_names_on_the_other_paths(self) -> None:
        wanted = [["url", "mime", "status"], ["http://example.com/a", "text/plain", "503"]]
        self.assertEqual(wanted, self.rows("/cdx?url=example.com/a&fl=url,mime,status&output=json"))
        self.assertEqual(["http://example.com/a 503"], self.lines("/cdx?url=example.com/a&fl=url,status"))

    def test_an_empty_field_of_a_form_is_none(self) -> None:
        found = self.lines("/web/timemap/cdx?url=example.com&from=&to=&limit=&matchType=&filter=&collapse=&output=&fl=")
        self.assertEqual(5, len(found))

    def test_wget_and_curl(self) -> None:
        url = f"{self.server.url}/cdx/search/cdx?url=example.com&filter=statuscode:[45]..&fl=timestamp"
        for command in (("wget", "-q", "-O-", url), ("curl", "--silent", "--globoff", "--compressed", url)):
            self.assertEqual(b"20160601000000\n", subprocess.run(command, stdout=subprocess.PIPE, check=True).stdout)


class Refusals(Shared):
    """Each names the parameter and the cause."""

    def test_the_parameter_is_named(self) -> None:
        for query, wanted in (
            ("", "NoUrl: url: it is missing"),
            ("url=a&page2=0", "Unknown: page2: there is no such parameter; a & in a URL is written as %26"),
            ("url=a&limit=-0", "BadLimit: limit=-0: it is a number"),
            ("url=a&limit=200000&sort=reverse", "BadLimit: limit=200000: in this order it is at most 100000"),
            ("url=a&url=b", "RepeatedParameter: url: it may be given once"),
            ("url=a&key=b", "UrlAndKey: url=a: only one"),
            ("url=*", "BadUrl: url=*: it isn't an address"),
            ("url=a&from=2016-01", "BadStamp: from=2016-01: it is 1 to 14 digits"),
            ("url=a&matchType=range", "BadMatch: matchType=range: "),
            ("url=a&output=xml", "BadOutput: output=xml: it is text, json or cdxj"),
            ("url=a&fl=urlkey,mimetypes", "BadField: fl=mimetypes: "),
            ("url=a&fl=dupecount", "BadField: fl=dupecount: showDupeCount=true is needed"),
            ("url=a&filter=statuscode", "BadFilter: filter=statuscode: it is FIELD:TEXT"),
            ("url=a&filter=nosuch:x", "BadFilter: filter=nosuch:x: it is FIELD:TEXT"),
            ("url=a&filter=original:[", "BadFilter: filter=[: the regular expression can't be read"),
            ("url=a&filter=original:" + "a?" * 501, "BadFilter: filter=a?a?a?"),
            ("url=a" + "&hasnot=urlkey:x" * 65, "TooMany: filter: there are at most 64 in a query"),
            ("url=a&collapse=nosuch", "BadCollapse: collapse=nosuch: it is FIELD or FIELD:N"),
            ("url=a&collapse=digest:0", "BadCollapse: collapse=digest:0: "),
            ("url=a&collapseTime=4%26fl=x", "BadCollapse: collapse=timestamp:4&fl=x: "),
            ("url=a&offset=-1", "BadPage: offset=-1: "),
            ("url=a&offset=1&sort=reverse", "BadPage: offset=1: it is for captures in the order"),
            ("url=a&fl=groupcount", "BadField: fl=groupcount: one collapse is needed"),
            ("url=a&showPagedIndex=true", "Unknown: showPagedIndex=true: the indexes of this"),
            ("url=a&sort=up", "BadSort: sort=up: "),
            ("url=a&sort=closest", "BadSort: closest: sort=closest needs it"),
            ("url=a*&closest=2016", "BadSort: closest=2016: it is for the captures of one address"),
            ("url=a&showDupeCount=yes", "BadFlag: showDupeCount=yes: it is true or false"),
            ("url=a&showSkipCount=true", "BadField: fl=urlkey,timestamp,original,mimetype,statuscode,digest,length,skipcount: one"),
            ("url=a&page=-1", "BadPage: page=-1: "),
            ("url=a&page=0&limit=-1", "BadPage: limit=-1: "),
            ("url=a&pageSize=334&page=0", "BadPage: pageSize=334: this server gives at most 333 blocks"),
            ("url=a&resumeKey=x", "BadResume: resumeKey=x: "),
            ("url=a&fastLatest=true&limit=5", "BadLimit: limit=5: with fastLatest=true"),
            ("url=a&showDupeCount=true&output=cdxj", "BadOutput: output=cdxj: a line of an index is given without showDupeCount"),
            ("url=a&%0Ax=1", "Unknown: %0Ax: there is no such parameter"),
        ):
            with self.subTest(query):
                name, _, rest = wanted.partition(":")
                self.assertTrue(self.refused(f"/cdx?{query}").startswith(f"refused {name}:{rest}"), self.refused(f"/cdx?{query}"))


if __name__ == "__main__":
    unittest.main()
