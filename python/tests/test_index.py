"""Queries over indexes."""
import json
import os
import pathlib
import random
import resource
import subprocess
import unittest
from unittest import mock

from warcdx import Capture, Refused, ReplyTooLong, faults, refusals

from .support import ALL, LINE, PROGRAM, SAMPLES, Case, lines, packed

# A query for each refusal that a text can have, by the table of docs/QUERY.md.
REFUSED = {
    "QueryTooLong": "url=" + "a" * 65_536,
    "NotText": "url=\udcff",
    "Unknown": "url=a&page=0",
    "RepeatedParameter": "url=a&url=a",
    "BadMatch": "url=a&matchType=all",
    "BadStamp": "url=a&from=x",
    "BadFilter": "url=a&is=status",
    "NotLiteral": "url=a&filter=original:.*",
    "BadLimit": "url=a&limit=0",
    "BadResume": "url=a&resumeKey=x",
    "BadFlag": "url=a&showResumeKey=1",
    "BadField": "url=a&fl=url",
    "BadOutput": "url=a&output=xml",
    "BadCollapse": "url=a&collapse=digest",
    "NoUrl": "",
    "UrlAndKey": "url=a&key=a",
    "BadUrl": "url=*",
}
ESCAPED = r"\" \\ \/ \b \f \n \r \t \u0000 \u001f \u007f \u0085 \u2028 \u00e9 \ud83d\ude00"
UNESCAPED = '" \\ / \b \f \n \r \t \0 \x1f \x7f \x85 \u2028 é 😀'


class Queries(Case):
    def test_a_capture_has_the_values_of_its_line(self) -> None:
        index = self.open(self.put(LINE % ("a", "a", 7, 5)))
        wanted = Capture("com,example)/a", "20160101000000", "http://example.com/a", "text/html", "200", "-", 7, 5, "a.warc")
        self.assertEqual([wanted], list(index.captures(url="example.com/a")))
        self.assertEqual([["a.warc", "5"]], list(index.rows(["filename", "offset"], "url=example.com/a")))

    def test_a_length_that_is_no_number_is_none(self) -> None:
        for length in ('"x"', '""', "null", '"1_0"', '"\u0661"', f'"{"9" * 5000}"'):
            index = self.open(self.put(LINE.replace('"%d"', length, 1) % ("a", "a", 5)))
            self.assertIsNone(next(index.captures(ALL)).length)

    def test_parameters_are_encoded(self) -> None:
        index = self.open(self.put(LINE % ("a?q=%2541+&b", "a?q=%41+&b", 7, 5) + LINE % ("b", "b", 7, 6)))
        self.assertEqual(1, index.count(key="com,example)/a?q=%2541+&b"))
        conditions = ["original:/b", "filename:a.warc"]
        self.assertEqual(1, index.count(key="", matchType="prefix", has=conditions, from_=2016, to=2016))
        self.assertEqual(1, index.count("key=com,example)/b", is_="offset:6"))

    def test_the_captures_are_those_of_query(self) -> None:
        path = self.folder / "index"
        with open(path, "wb") as output:
            subprocess.run((PROGRAM, "index", SAMPLES / "wget.warc"), stdout=output, check=True)
        command = (PROGRAM, "query", ALL + "&output=json&fl=original,offset", path)
        wanted = json.loads(subprocess.run(command, stdout=subprocess.PIPE, check=True).stdout)[1:]
        found = [[capture.original, str(capture.offset)] for capture in self.open(path).captures(ALL)]
        self.assertEqual(wanted, found)
        self.assertEqual(33, len(found))

    def test_large_pages_are_followed(self) -> None:
        index = self.open(self.put(lines(23_456)))
        self.assertEqual(list(range(23_456)), [capture.offset for capture in index.captures(ALL)])
        self.assertEqual(23_456, index.count(ALL))
        for size in (1, 7, 23_455, 23_456, 23_457):
            self.assertEqual(50, len(list(index.captures(ALL, page_size=size, limit=50))))
            self.assertEqual(50, sum(1 for _ in index.rows(("offset",), ALL + "&limit=50", page_size=size)))
        last = list(index.captures(ALL, page_size=3, resumeKey="com%2Cexample%29%2F0023450+20160101000000+a.warc+23450"))
        self.assertEqual([23_451, 23_452, 23_453, 23_454, 23_455], [capture.offset for capture in last])

    def test_pages_end_only_at_keys_that_a_query_can_have(self) -> None:
        """Every capture is given, whatever its key is, also if no page but the last can end."""
        choice = random.Random(2)
        for long in (lambda number: number % 5 == 4, lambda number: True, lambda number: choice.random() < 0.5, lambda number: number > 6):
            keys = [f"{number:04}" + "%25" * 22_000 * long(number) for number in range(20)]
            text = "".join(LINE % (key, "a", number + 1, number) for number, key in enumerate(keys))
            index = self.open(self.put(text))
            for page_size in (1, 2, 5, 7, 20, 100):
                self.assertEqual(list(range(20)), [each.offset for each in index.captures(ALL, page_size=page_size)])
                self.assertEqual(list(range(20)), index.columns(["offset"], ALL, page_size=page_size)["offset"])
                for limit in (1, 4, 5, 6, 19, 20, 21):
                    rows = index.rows(["offset"], ALL, page_size=page_size, limit=limit)
                    self.assertEqual([[str(number)] for number in range(min(limit, 20))], list(rows))
        with mock.patch.multiple("warcdx.index", PAGE_SIZE=5, MOST_LIMIT=9):
            self.assertEqual((20, 13), (index.count(ALL), index.count(ALL, limit=13)))

    def test_a_page_has_the_key_of_the_next(self) -> None:
        index = self.open(self.put(lines(5)))
        first = index.page(ALL, limit=3)
        second = index.page(ALL, limit=3, resumeKey=first.resume_key or "")
        self.assertEqual([0, 1, 2, 3, 4], [capture.offset for capture in first.captures + second.captures])
        self.assertIsNone(second.resume_key)
        self.assertEqual(((), None), (index.page(url="example.org").captures, index.page(url="example.org").resume_key))

    def test_collapse_counts_what_is_given(self) -> None:
        index = self.open(self.put(lines(9)))
        self.assertEqual(1, index.count(ALL, collapse="timestamp"))
        self.assertEqual(1, len(list(index.captures(ALL, collapse="timestamp", page_size=1))))

    def test_the_first_of_two_indexes_counts(self) -> None:
        first, second = self.put(LINE % ("a", "first", 1, 5), "1"), self.put(LINE % ("a", "second", 1, 5), "2")
        self.assertEqual("http://example.com/first", next(self.open(first, second).captures(ALL)).original)

    def test_a_name_may_begin_with_a_dash(self) -> None:
        self.put(lines(2), "-index")
        folder = os.getcwd()
        os.chdir(self.folder)
        self.addCleanup(os.chdir, folder)
        self.assertEqual(2, self.open(pathlib.Path("-index")).count(ALL))

    def test_a_file_that_is_no_index_is_named_when_it_is_opened(self) -> None:
        row = "com,example)/ 20160101000000 http://example.com/ text/html 200 AAA - - 100 0 a.warc.gz\n"
        kinds = {
            (SAMPLES / "wget.warc").read_bytes(): "It is a WARC file",
            packed(lines(1).encode())[0]: "It is compressed by gzip",
            f" CDX N b a m s k r M S V g\n{row}".encode(): "It is a CDX file: ",
            row.encode(): "It seems to be a CDX file without a header",
            row.replace(" - - ", " ").encode(): "It seems to be a CDX file without a header",
            b'{"url": "http://example.com/"}\n': "Its first line is a JSON object alone",
            b"<html>": "It seems to be an HTML or XML file",
        }
        for content, said in kinds.items():
            path = self.folder / "index"
            path.write_bytes(content)
            fault = self.raises(faults.BadLine, self.open, self.put(lines(2), "good"), path)
            self.assertEqual((str(path), 0), (fault.file, fault.offset))
            self.assertIn(f"BadLine at 0 ({said}", str(fault))
        for text in ("", LINE % ("a" * 5000, "a", 1, 1), 'com,example)/ 20160101000000   {"a": 1, "offset": "1", "filename": "a"}\n'):
            self.open(self.put(text))

    def test_what_is_in_the_folder_of_an_index_names_it(self) -> None:
        (self.folder / "all.d/states/1").mkdir(parents=True)
        (self.folder / "all.d/current").symlink_to("states/1")
        self.put("{\n}\n", "all.d/states/1/manifest.json")
        for name, kind in (
            ("states/1/manifest.json", faults.BadLine),
            ("current/manifest.json", faults.BadLine),
            ("current", faults.CannotOpen),
        ):
            fault = self.raises(kind, self.open, self.folder / "all.d" / name)
            self.assertTrue(fault.advice.endswith(f"in the folder of an index: open {self.folder}/all.d"), fault.advice)


class Values(Case):
    def test_each_escape_is_undone(self) -> None:
        index = self.open(self.put(LINE % ("a", ESCAPED, 1, 5)))
        self.assertEqual(f"http://example.com/{UNESCAPED}", next(index.captures(ALL)).original)
        self.assertEqual(1, index.count(ALL, is_=f"original:http://example.com/{UNESCAPED}"))

    def test_a_value_may_read_like_a_reply(self) -> None:
        values = (".", "refused NoUrl", "fault BadLine 0 5", "[]", "[", "]]", ".\\n")
        text = "".join(LINE % (str(number), value, 1, number) for number, value in enumerate(values))
        path = self.put(text.replace("http://example.com/", ""))
        index = self.open(path)
        self.assertEqual([value.replace("\\n", "\n") for value in values], [each.original for each in index.captures(ALL)])
        for fields in ("original", "original,mimetype", "urlkey,original,offset"):
            for output in ("text", "json", "cdxj"):
                query = f"{ALL}&fl={fields}&output={output}"
                done = subprocess.run((PROGRAM, "query", query, path), stdout=subprocess.PIPE, check=True)
                self.assertEqual(done.stdout, index.text(query))

    def test_a_query_may_have_line_breaks(self) -> None:
        index = self.open(self.put(lines(2)))
        self.assertEqual(0, index.count("key=\n.\n"))
        self.assertEqual(b"", index.text("key=a\r"))
        self.assertEqual(2, index.count(ALL))


class Faults(Case):
    def test_a_refused_query_has_the_programs_name(self) -> None:
        index = self.open(self.put(lines(2)))
        for name, query in REFUSED.items():
            fields = ("url=a&fl=url", "url=a&output=xml", "url=a&showResumeKey=1")
            if query not in fields:
                self.assertEqual(name, self.raises(refusals.BY_NAME[name], index.page, query).name)
                self.assertEqual(name, self.raises(refusals.BY_NAME[name], index.count, query).name)
            self.assertEqual(name, self.raises(refusals.BY_NAME[name], index.text, query).name)
            self.assertEqual(2, index.count(ALL))
        self.assertEqual(set(REFUSED), set(refusals.BY_NAME))

    def test_a_refusal_names_the_first_parameter_that_is_refused(self) -> None:
        index = self.open(self.put(lines(2)))
        for query, wanted in (
            ("url=a&page=0&size=1", "page"), ("url=a&%70age=0", "page"), ("a%0A&url=a", "a\n"), ("URL=a", "URL"),
            ("=", ""),
            ("url=a&from=1&url=b&from=2", "url"), ("filter=urlkey:a&filter=urlkey:b&url=a&to=1&from=2&to=3", "to"),
            ("limit=5&limit=0&url=a", "limit"), ("url=a&to=2016&from=2o16", "from"), ("url=a&to=2o16&from=x", "to"),
            ("url=a&from=", "from"), ("url=a&is=urlkey:a&has=status:5&isnot=x", "has"),
            ("url=a&filter=urlkey", "filter"), ("url=a&filter=!!urlkey:a", "filter"),
            ("url=a&isnot=!urlkey:a", "isnot"), ("url=a&filter=urlkey:a&filter=urlkey:.", "filter"),
            ("url=a&matchType=all", "matchType"), ("url=a&limit=x", "limit"), ("url=a&resumeKey=x", "resumeKey"),
            ("url=a&collapse=digest", "collapse"), ("url=*", "url"), ("", None), ("url=a&key=a", None), ("url=\udcff", None),
            ("url=" + "a" * 65_536, None),
        ):  # fmt: skip
            for call in (index.page, index.text, index.count):
                with self.assertRaises(Refused) as caught:
                    call(query)
                self.assertEqual(wanted, caught.exception.parameter, query)
        for query, kind, wanted in (
            ("url=a&fl=url", refusals.BadField, "fl"),
            ("url=a&output=xml", refusals.BadOutput, "output"),
            ("url=a&showResumeKey=1", refusals.BadFlag, "showResumeKey"),
        ):
            self.assertEqual(wanted, self.raises(kind, index.text, query).parameter)
        refusal = self.raises(refusals.BadStamp, index.page, url="a", from_="x")
        self.assertEqual("from", refusal.parameter)
        self.assertEqual("the query is refused: BadStamp in 'from'", str(refusal).partition(" (")[0])

    def test_a_line_that_is_no_text_is_named(self) -> None:
        good = lines(1).encode()
        path = self.folder / "bad"
        path.write_bytes(good + b"com,example)/\xff 20160101000000 {}\n" + lines(3).encode())
        index = self.open(self.put(lines(1)), path)
        for query in (ALL, f"{ALL}&fl=offset", f"{ALL}&output=json", f"{ALL}&output=cdxj"):
            found = self.raises(faults.BadLine, index.text, query)
            self.assertEqual((str(path), len(good)), (found.file, found.offset))
        found = self.raises(faults.BadLine, list, index.captures(ALL))
        self.assertEqual((str(path), len(good)), (found.file, found.offset))
        self.assertEqual(0, index.count("key=a"))

    def test_an_index_out_of_order_is_named(self) -> None:
        path = self.put(LINE % ("b", "b", 1, 0) + LINE % ("a", "a", 1, 1))
        self.assertEqual(len(LINE % ("b", "b", 1, 0)), self.raises(faults.OutOfOrder, self.open(path).count, ALL).offset)

    def test_an_index_that_can_not_be_opened_is_named(self) -> None:
        path = self.put(lines(1))
        found = self.raises(faults.CannotOpen, self.open, path, self.folder / "nosuch")
        self.assertEqual(str(self.folder / "nosuch"), found.file)
        index = self.open(path)
        path.unlink()
        for _ in range(2):
            self.assertEqual(str(path), self.raises(faults.CannotOpen, index.count, ALL).file)

    def test_an_index_that_is_cut_can_not_be_read(self) -> None:
        path = self.put(lines(1000))
        index = self.open(path)
        self.assertEqual(1000, index.count(ALL))
        path.write_text("")
        self.raises(faults.Read, index.count, ALL)
        path.write_text(lines(1000))
        self.assertEqual(1000, index.count(ALL))

    def test_a_long_reply_ends_its_program(self) -> None:
        index = self.open(self.put(lines(3000)), most=100_000)
        self.raises(ReplyTooLong, index.text, ALL)
        self.raises(ReplyTooLong, index.page, ALL)
        self.assertEqual(b"7\n", index.text("url=example.com/0000007&fl=offset"))

    def test_too_many_indexes_are_refused(self) -> None:
        path = self.put(lines(1))
        soft, hard = resource.getrlimit(resource.RLIMIT_NOFILE)
        if hard < 1100:
            self.skipTest("more files than may be open")
        resource.setrlimit(resource.RLIMIT_NOFILE, (max(soft, 1100), hard))
        self.addCleanup(resource.setrlimit, resource.RLIMIT_NOFILE, (soft, hard))
        self.raises(faults.TooManySources, self.open(*[path] * 1025).count, ALL)


if __name__ == "__main__":
    unittest.main()
