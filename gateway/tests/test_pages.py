"""Answers that the gateway doesn't have to change are what `warcdx query` writes, byte by byte."""
import itertools
import subprocess
import time
import unittest

from .support import LINE, Case, Shared, lines  # it finds the package first

from warcdx_gateway.answers import or_nothing  # noqa: E402

# Queries, and the start of the type of their answers. The values read like replies of the program.
QUERIES = (
    ("url=example.com/a", "text/plain"),
    ("url=example.com/*&fl=digest", "text/plain"),
    ("url=example.com/*&fl=mimetype,digest", "text/plain"),
    ("url=example.com/c&fl=mimetype,digest", "text/plain"),
    ("url=example.com/*&limit=2&showResumeKey=true", "text/plain"),
    ("url=example.com/*&resumeKey=com%2Cexample%29%2Fb+20160101000000+a.warc+2", "text/plain"),
    ("url=example.com/*&output=json&limit=2&showResumeKey=true", "application/json"),
    ("url=example.com/*&output=j%73on", "application/json"),
    ("url=example.com/*&output=cdxj", "text/plain"),
    ("url=example.org", "text/plain"),
    ("url=example.org&output=json", "application/json"),
    ("k%65y=com,example)/a&is=mimetype:text/html", "text/plain"),
    ("key=%0A.%0A", "text/plain"),
    ("&&url=example.com/a&&", "text/plain"),
    ("url=http://example.com/*&collapse=timestamp:4", "text/plain"),
    ("url=example.com/*&collapse=urlkey&from=2016&to=201601&fl=urlkey,offset,offset", "text/plain"),
    ("url=example.com/*&filter=!mimetype:fault&filter=statuscode:200", "text/plain"),
    ("url=example.com/*&has=mimetype:ref&hasnot=digest:No&isnot=offset:9", "text/plain"),
    ("url=example.com&matchType=domain", "text/plain"),
)
VALUES = ((".", "."), ("refused", "NoUrl"), ("refused", "BadLimit"), ("text/html", "."), ("fault", "refused"))
HOSTILE = "".join(
    LINE % (f"com,example)/{name}", "20160101000000", f"http://example.com/{name}", mime, "200", digest, 1, number, "a.warc")
    for number, (name, (mime, digest)) in enumerate(zip("abcde", VALUES))
)
# Values with each escape of JSON, in the spelling of an index, and a line of another program.
ESCAPED = r"\" \\ \/ \b \f \n \r \t \u0000 \u001f \u007f \u0085 \u2028 \u00e9 \ud83d\ude00"
OTHER = 'com,example)/f 20160101000000 { "offset": 7, "status": 200, "filename": "x y.warc", "length": 1.5, "source": {"a": [1]}, "digest": null }\n'


class Pages(Shared):
    captures = HOSTILE

    def test_pages_are_those_of_query(self) -> None:
        for query, kind in QUERIES:
            for path in ("/cdx", "/cdx/search/cdx", "/web/timemap/cdx", "/main/cdx"):
                with self.subTest(path + query):
                    found = self.server.ask(f"{path}?{query}")
                    wanted = self.page(query)
                    if "output=json" in query and wanted.count(b"\n") == 1:  # names alone
                        wanted = b"[]\n"
                    self.assertEqual((200, wanted), (found.status, found.body))
                    self.assertTrue(found.fields["content-type"].startswith(kind))

    def test_curl_encodes_the_query(self) -> None:
        command = ["curl", "--silent", "--get", f"{self.server.url}/cdx", "--data-urlencode", "url=example.com/*"]
        command += ["--data-urlencode", "has=digest:refused", "--data", "fl=urlkey"]
        self.assertEqual(b"com,example)/e\n", subprocess.run(command, stdout=subprocess.PIPE, check=True).stdout)

    def test_wget_gets_the_page(self) -> None:
        command = ["wget", "--quiet", "--output-document=-", f"{self.server.url}/cdx?url=example.com/*&output=json"]
        found = subprocess.run(command, stdout=subprocess.PIPE, check=True).stdout
        self.assertEqual(self.page("url=example.com/*&output=json"), found)


class Changed(Shared):
    """What the gateway writes itself is written as the program writes it: a condition that always
    holds changes nothing.
    """

    captures = HOSTILE + LINE % ("com,example)/ee", "20160101000000", ESCAPED, "a b", "-", "x", 1, 3, "a.warc") + OTHER

    def test_rows_are_written_as_by_the_program(self) -> None:
        for output in ("text", "json", "cdxj"):
            for fields in ("", "&fl=urlkey,timestamp,original,mimetype,statuscode,digest,length,offset,filename", "&fl=original"):
                for rest in ("", "&limit=3&showResumeKey=true", "&limit=7&showResumeKey=true", "&limit=99", "&collapse=timestamp:4"):
                    query = f"url=example.com/*&output={output}{fields}{rest}"
                    with self.subTest(query):
                        found = self.server.ask(f"/cdx?{query}&filter=offset:.*")
                        self.assertEqual((200, self.page(query)), (found.status, found.body))

    def test_values_of_other_programs_are_read_as_by_the_program(self) -> None:
        for field in ("offset:7", "statuscode:2.0", "length:-?", "digest:-", "original:-", "filename:x y.*"):
            found = self.server.ask(f"/cdx?url=example.com/f&filter={field.replace(' ', '%20')}&output=cdxj")
            self.assertEqual(OTHER.encode(), found.body, field)


class Arrays(unittest.TestCase):
    def test_an_array_is_given_when_it_has_a_row(self) -> None:
        names, row = b'[["urlkey"]', b',\n["k"]]\n'
        for pieces, wanted in (
            ((names + row,), [names + row]),
            ((names, row, b"x"), [names + row, b"x"]),
            ((names + b"]\n",), [b"[]\n"]),
            ((), [b"[]\n"]),
        ):
            self.assertEqual(wanted, list(or_nothing(iter(pieces))))

    def test_a_long_row_in_many_pieces_is_searched_once(self) -> None:
        start = time.process_time()
        found = list(or_nothing(itertools.chain(itertools.repeat(bytes(1000), 20_000), [b"\n\n"])))
        self.assertEqual([20_000_002], [len(each) for each in found])
        self.assertLess(time.process_time() - start, 2)  # seconds; a search of all before each piece takes minutes


class Long(Case):
    def test_long_pages_come_in_pieces_and_whole(self) -> None:
        index = self.put(lines(30_000))
        server = self.start()
        for output in ("text", "json", "cdxj"):
            for rest in ("", "&limit=12345&showResumeKey=true", "&limit=30000&showResumeKey=true"):
                query = f"url=example.com/*&output={output}{rest}"
                found = server.ask(f"/cdx?{query}")
                self.assertEqual("chunked", found.fields["transfer-encoding"])
                self.assertTrue(self.page(query, index) == found.body, query)
                changed = server.ask(f"/cdx?{query}&filter=statuscode:2..")
                self.assertTrue(found.body == changed.body, query)

    def test_several_indexes_are_one(self) -> None:
        first, second = self.put(lines(300), "first"), self.put(lines(500, status=404), "second")
        server = self.start('[collections.both]\nindexes = ["first", "second"]\n[collections.other]\nindexes = ["second"]\n')
        query = "url=example.com/*&fl=offset,statuscode"
        self.assertEqual(self.page(query, first, second), server.ask(f"/cdx?{query}").body)
        self.assertEqual(self.page(query, first, second), server.ask(f"/both/cdx?{query}").body)
        self.assertEqual(self.page(query, second), server.ask(f"/other/cdx?{query}").body)


if __name__ == "__main__":
    unittest.main()
