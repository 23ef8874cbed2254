"""What the parameters of a call select, and what is said of those that there aren't."""
import copy
import datetime
import inspect
import io
import pickle
import unittest

from warcdx import Collection, Index, Limits, Page, ProgramMissing, Record, faults, open_archive, payload, refusals
from warcdx.asked import Asked
from warcdx.merging import merge
from warcdx.program import operands
from warcdx.stamps import stamp_of

from .support import ALL, LINE, PROGRAM, Case, lines

EAST = datetime.timezone(datetime.timedelta(hours=2))
CALLS = (Index.captures, Index.pages, Index.page, Index.rows, Index.columns, Index.count, Collection.captures, Collection.records)


def asked(url: object = None, **given: object) -> str:
    """Returns the query text of the parameters of a call."""
    return str(Asked.of(url, given).query)  # type: ignore[arg-type]


class Moments(unittest.TestCase):
    def test_dates_and_texts_are_the_first_digits_of_a_timestamp(self) -> None:
        for moment, wanted in (
            (2016, "2016"),
            ("2016", "2016"),
            ("20160919172024", "20160919172024"),
            ("2016-09", "201609"),
            ("2016-09-19", "20160919"),
            (datetime.date(2016, 9, 19), "20160919"),
            (datetime.date(16, 9, 19), "00160919"),
            (datetime.datetime(2016, 9, 19, 17, 20, 24, 999_999), "20160919172024"),
            (datetime.datetime(2016, 9, 19, 1, 20, tzinfo=EAST), "20160918232000"),
            ("2016-09-19T17:20", "201609191720"),
            ("2016-09-19 17:20:24", "20160919172024"),
            ("2016-09-19T17:20:24Z", "20160919172024"),
            ("2016-09-19T17:20:24.123456Z", "20160919172024"),
            ("2016-09-19T01:20+02:00", "201609182320"),
            ("2016-09-19T20:20-0330", "201609192350"),
        ):
            self.assertEqual(wanted, stamp_of("since", moment), moment)

    def test_what_is_no_date_is_refused_by_the_name_that_was_given(self) -> None:
        for moment in ("June", "", "2016-9", "2016-09-19T25:00", "0001-01-01T00:00+02:00", "1" * 15, "2016-09-19T17:20:24X"):
            with self.assertRaises(refusals.BadStamp) as caught:
                stamp_of("until", moment)
            self.assertEqual("until", caught.exception.parameter)
            self.assertIn("2016-09-19", str(caught.exception))


class Parameters(Case):
    def test_a_url_and_a_query_text_are_told_apart(self) -> None:
        for url in (
            "example.com/a*",
            "*.example.com",
            "http://example.com/?a=b&url=c",
            "example.com?a=b",
            "localhost:80/=",
            "xn--a.org/&=",
            "a",
        ):
            self.assertTrue(asked(url).startswith("url="), url)
        for text in ("url=a", "url=example.com/?a=b", "key=", "&to=5", "=", "from=2016&url=a", "x=1", "%75rl=a", "no_name=5", "url&key"):
            self.assertEqual(text.lstrip("&"), asked(text))
            self.assertEqual(text.lstrip("&"), asked(query=text))
        self.assertEqual("url=a&to=5&from=2016", asked("to=5", query="url=a", since=2016))

    def test_without_a_url_all_captures_are_selected(self) -> None:
        self.assertEqual(ALL, asked())
        self.assertEqual(ALL + "&from=2016&filter=statuscode%3A200", asked(since=2016, filter="statuscode:200"))
        self.assertEqual(ALL, asked(since=None, until=None, limit=None, filter=None, resumeKey=None))
        self.assertEqual("matchType=host", asked(match="host"))  # which the program refuses as NoUrl
        index = self.open(self.put(lines(5)))
        self.assertEqual((5, 5, 5), (index.count(), len(list(index)), len(list(index.captures()))))
        self.raises(refusals.NoUrl, index.count, "")

    def test_each_parameter_is_that_of_the_program(self) -> None:
        wanted = "url=a&matchType=prefix&from=2016&to=2017&filter=mimetype%3Aa&filter=%21statuscode%3A200&collapse=urlkey"
        filters = iter(("mimetype:a", "!statuscode:200"))
        self.assertEqual(wanted, asked("a", match="prefix", since=2016, until="2017", filter=filters, collapse="urlkey"))
        self.assertEqual("url=a&from=20160919&to=20170102", asked("a", from_=datetime.date(2016, 9, 19), to=datetime.date(2017, 1, 2)))

    def test_a_limit_may_be_larger_than_that_of_the_program(self) -> None:
        index = self.open(self.put(lines(12)))
        for limit in (12, 13, 2_000_000, 10**30):
            self.assertEqual(12, index.count(limit=limit))
            self.assertEqual(12, len(list(index.captures(limit=limit, page_size=5))))
        self.assertEqual(7, index.count(limit=7))
        for limit in (0, -1):
            self.assertEqual("limit", self.raises(refusals.BadLimit, index.count, limit=limit).parameter)

    def test_what_there_is_not_says_what_there_is(self) -> None:
        index = self.open(self.put(lines(2)))
        for call, name in ((index.count, "sinse"), (index.captures, "match_type"), (index.page, "URL")):
            refusal = self.raises(refusals.Unknown, call, **{name: 2016})
            self.assertEqual(name, refusal.parameter)
            self.assertIn("since, until, filter", str(refusal))
        self.assertIn("exact, prefix", str(self.raises(refusals.BadMatch, index.count, "a", match="all")))
        self.assertIn("statuscode", str(self.raises(refusals.BadFilter, index.count, filter="status:200")))
        self.assertIn("is_", str(self.raises(refusals.NotLiteral, index.count, filter="original:.*")))
        self.assertIn("timestamp", str(self.raises(refusals.BadField, index.columns, "time")))

    def test_values_of_other_types_are_named(self) -> None:
        index = self.open(self.put(lines(2)))
        for wanted, call in (
            ("url is a text, and not b'a'", lambda: index.captures(b"a")),  # type: ignore[arg-type]
            ("query is a text, and not {}", lambda: index.captures(query={})),  # type: ignore[arg-type]
            ("limit is a whole number, and not 2.0", lambda: index.captures(limit=2.0)),  # type: ignore[arg-type]
            ("fields is a text, or a list of texts, and not 5", lambda: index.columns(5)),  # type: ignore[arg-type]
            ("a field is a text, and not 5", lambda: index.columns([5])),  # type: ignore[list-item]
            ("page_size is a whole number, and not 'x'", lambda: list(index.captures(page_size="x"))),  # type: ignore[arg-type]
            ("query is a text, and not None", lambda: index.text(None)),  # type: ignore[arg-type]
            ("query is a text, and not b'key='", lambda: list(index.stream(b"key="))),  # type: ignore[arg-type]
            ("filter has to be a text, or a list of texts, and not None", lambda: index.captures(filter=[None])),  # type: ignore[list-item]
        ):
            self.assertEqual(wanted, str(self.raises(TypeError, call)))
        self.assertIn("page_size", str(self.raises(ValueError, list, index.captures(page_size=0))))
        self.assertIn("but text and stream", str(self.raises(refusals.RepeatedParameter, index.count, query="key=&fl=urlkey")))
        self.assertEqual((True, False), ("http://example.com/0000001" in index, "http://example.com/*" in index))
        self.raises(TypeError, lambda: 5 in index)
        self.assertEqual(f"Index(('{self.folder}/index',))", repr(index))

    def test_numbers_may_be_those_of_another_module(self) -> None:
        class Number:
            def __index__(self) -> int:
                return 2

        index = Index(self.put(lines(5)), program=PROGRAM, processes=Number(), most=1 << 20)  # type: ignore[arg-type]
        with index:
            self.assertEqual(2, index.count(limit=Number()))  # type: ignore[arg-type]
            self.assertEqual([2, 2, 1], list(map(len, index.pages(page_size=Number()))))  # type: ignore[arg-type]
            self.assertEqual(5, len(list(index.captures(page_size=None))))
            self.assertEqual(5, len(list(index.rows("timestamp, offset"))))

    def test_texts_that_no_bytes_are_are_refused(self) -> None:
        index = self.open(self.put(lines(2)))
        for call in (lambda: index.count("a\ud800"), lambda: index.text("url=a\ud800"), lambda: index.count(filter="mimetype:\ud800")):
            self.raises(refusals.NotText, call)
        far = datetime.datetime.max.replace(tzinfo=datetime.timezone(datetime.timedelta(hours=-14)))
        self.raises(refusals.BadStamp, index.count, since=far)

    def test_what_is_no_path_is_named(self) -> None:
        index, file = self.put(lines(2)), io.StringIO("nosuch\n")
        for call in (
            lambda paths: Index(paths, program=PROGRAM), lambda paths: Index([index, paths], program=PROGRAM),
            lambda paths: open_archive(paths, program=PROGRAM), lambda paths: merge(paths, io.BytesIO(), program=PROGRAM),
            lambda paths: operands(paths) if paths is None else Collection(index, paths, program=PROGRAM),
        ):  # fmt: skip
            for paths in (5, b"index", file, None):
                self.assertIn(f"a path is a text or a Path, and not {paths!r:.60}", str(self.raises(TypeError, call, paths)))
        self.assertIn("program is a text or a Path", str(self.raises(TypeError, Index, index, program=None)))
        self.raises(ProgramMissing, Index, index, program=self.folder / "nosuch")
        for paths in (index, str(index), {index}, (each for each in [index])):
            with Collection(paths, program=PROGRAM) as collection:  # type: ignore[arg-type]
                self.assertEqual(2, collection.index.count())
        merge(index, found := io.BytesIO(), program=PROGRAM)
        self.assertEqual(lines(2).encode(), found.getvalue())

    def test_what_is_no_capture_no_record_and_no_output_is_named(self) -> None:
        index = self.put(lines(2))
        with Collection(index, program=PROGRAM) as collection, Index(index, program=PROGRAM) as other:
            for wanted, call in (
                ("a capture is what `captures` gives, and not 'http://a'", lambda: collection.record("http://a")),  # type: ignore[arg-type]
                ("a capture is what `captures` gives, and not None", lambda: collection.stream(None)),  # type: ignore[arg-type]
                ("a file name is a text, and not 5", lambda: collection.archive(5)),  # type: ignore[arg-type]
                ("a record is a Record, or its bytes, and not 'x'", lambda: payload("x")),  # type: ignore[arg-type]
                ("the name of a field is a text, and not b'a'", lambda: Record((), b"").field(b"a")),  # type: ignore[arg-type]
                ("limits is a Limits, such as Limits(size=10_000_000), and not 5", lambda: Record((), b"").payload(5)),  # type: ignore[arg-type]
                ("size is a whole number, and not 'x'", lambda: Limits("x")),  # type: ignore[arg-type]
                ("seconds is a number, and not '5'", lambda: Index(index, program=PROGRAM, seconds="5")),  # type: ignore[arg-type]
                ("offset is a whole number, and not 5.0", lambda: open_archive(index, program=PROGRAM).record(5.0)),  # type: ignore[arg-type]
                (
                    "types is a text, such as response,metadata, and not ['response']",
                    lambda: open_archive(index, program=PROGRAM).index(io.BytesIO(), types=["response"]),  # type: ignore[arg-type]
                ),
                ("the output is a file that is open to write bytes, and not 'a'", lambda: merge(index, "a", program=PROGRAM)),  # type: ignore[arg-type]
                ("an Index isn't copied, or sent to another process; open another one there", lambda: copy.copy(other)),
            ):  # fmt: skip
                self.assertEqual(wanted, str(self.raises(TypeError, call)))

    def test_signatures_have_each_parameter_with_its_type(self) -> None:
        for call in CALLS:
            found = inspect.signature(call).parameters
            for name in ("url", "match", "since", "until", "filter", "limit", "query"):
                self.assertIsNot(inspect.Parameter.empty, found[name].annotation, f"{call.__qualname__}, {name}")


class Results(Case):
    def test_pages_are_iterated_over(self) -> None:
        index = self.open(self.put(lines(7)))
        pages = list(index.pages(page_size=3))
        self.assertEqual([3, 3, 1], list(map(len, pages)))
        self.assertEqual(list(range(7)), [capture.offset for page in pages for capture in page])
        self.assertIsNone(pages[-1].resume_key)
        following = index.page(limit=2, resume_key=pages[0].resume_key)
        self.assertEqual((3, [3, 4]), (following[0].offset, [capture.offset for capture in following]))
        self.assertEqual([Page((), None)], list(index.pages("example.org")))
        self.assertEqual([2, 2, 1], [len(page) for page in index.pages(limit=5, page_size=2)])

    def test_fields_may_be_one_text(self) -> None:
        index = self.open(self.put(LINE % ("a", "a", 7, 5)))
        self.assertEqual([["20160101000000"]], list(index.rows("timestamp")))
        self.assertEqual({"length": [7], "offset": [5]}, index.columns("length,offset"))
        self.assertEqual(index.columns()["filename"], ["a.warc"])

    def test_a_file_that_can_not_be_opened_is_a_missing_one_or_a_forbidden_one(self) -> None:
        missing = str(self.folder / "nosuch")
        for call in (
            lambda: Index(missing, program=PROGRAM),
            lambda: open_archive(missing, program=PROGRAM),
            lambda: Collection(missing, self.folder, program=PROGRAM),
        ):
            fault = self.raises(faults.CannotOpen, call)
            self.assertIsInstance(fault, FileNotFoundError)
            self.assertEqual("CannotOpen", type(fault).__qualname__)
            self.assertEqual(f"{missing}: CannotOpen (No such file or directory)", str(fault))
            again = pickle.loads(pickle.dumps(fault))
            self.assertEqual((type(fault), str(fault), missing), (type(again), str(again), again.filename))
        for odd in ("a\0b", "\ud800"):
            self.raises(faults.CannotOpen, Index, odd, program=PROGRAM)
        self.assertIsInstance(faults.cannot_open("a", 13), PermissionError)
        self.assertNotIsInstance(faults.cannot_open("a", 40), OSError)

    def test_what_a_name_or_a_file_is_taken_for_is_said(self) -> None:
        index = self.put(lines(1))
        for call in (self.open(index).columns, self.open(index).rows):
            self.assertEqual("fields", self.raises(refusals.BadField, call, "timestamp,url").parameter)
        archive = open_archive(index, program=PROGRAM)
        for call in (lambda: list(archive), lambda: next(archive.list()), lambda: next(archive.verify()), lambda: archive.get(0)):
            self.assertIn("Version at 0 (It seems to be an index: ", str(self.raises(faults.Version, call)))
        for name, said in (("http://a.com/a.warc", "it is a URL"), ("*.warc", "no file has a name of this pattern")):
            self.assertIn(said, str(self.raises(faults.CannotOpen, open_archive, name, program=PROGRAM)))
        self.put("", "a.warc")
        fault = self.raises(faults.CannotOpen, Collection, index, self.folder / "a.warc", program=PROGRAM)
        self.assertEqual(f"{self.folder}/a.warc: CannotOpen (Not a directory)", str(fault))


if __name__ == "__main__":
    unittest.main()
