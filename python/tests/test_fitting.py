"""Records that aren't those of their lines, as after an archive was replaced by another one of its name."""
import gzip
import pathlib
import pickle
import subprocess
import sys
import unittest
from unittest import mock

from warcdx import Archive, Capture, Collection, Fault, faults, fitting, open_archive

from .support import PROGRAM, Case

COMMAND = pathlib.Path(__file__).resolve().parents[1] / "bin/warcdx-fetch"
HOME, DATE, STAMP = "http://example.com/", "2016-03-03T09:34:31Z", "20160303093431"
ADVICE = "it isn't the record of the index line; if the archive was replaced, index it anew"
KEY = "com,example)/a"
# The URL of the record, its date, the URL of the line, and whether they fit.
CASES = (
    ("http://example.com/a", DATE, "http://example.com/a", True),
    ("<http://example.com/a>", DATE, "http://example.com/a", True),
    ("<http://example.com/a>", DATE, "<http://example.com/a>", True),
    ("http://example.com/a", DATE, "https://EXAMPLE.com:443/a", True),
    ("HTTP://Example.com:80/a", DATE, "http://example.com/a", True),
    ("http://www.example.com", DATE, "http://example.com/", True),
    ("http://example.com/a b", DATE, "http://example.com/a%20b", True),
    ("http://example.com/\xe9", DATE, "http://example.com/%C3%A9", True),
    ("http://example.com/\udce9\xe9", DATE, "http://example.com/%E9%C3%A9", True),
    ("http://example.com/a", DATE, "-", True),
    ("http://example.com/a", DATE, "", True),
    ("http://example.com/a", DATE, "http://example.com/\ta\r\n", True),
    ("urn:x:a", DATE, "urn:x:a", True),
    ("dns:example.com", DATE, "dns:Example.com", True),
    ("http://example.com/a", DATE, "http://example.com/b", False),
    ("http://example.com/a", DATE, "http://example.com/a\r\nWARC-Target-URI: http://example.com/a", False),
    ("http://example.com/b", DATE, "-", False),
    ("-", DATE, "-", False),
    ("", DATE, "-", False),
    ("", DATE, "", False),
    ("urn:x:a", DATE, "urn:x:b", False),
    ("http://example.com/a", DATE, "http://example.com/\ud800", False),
    ("http://example.com/a", DATE, "http://example.com/" + "a" * (2 << 20), False),
    ("http://example.com/a", "2016-03-03T09:34:31.999999Z", "http://example.com/a", True),
    ("http://example.com/a", "2016-03-03T09:34:32.0Z", "http://example.com/a", False),
    ("http://example.com/a", "2016-03-03T09:34Z", "http://example.com/a", False),
    ("http://example.com/a", "2016", "http://example.com/a", False),
)
DATES = (
    ("2016", "20160101000000"),
    ("2016-09", "20160901000000"),
    ("2016-09-19", "20160919000000"),
    ("2016-09-19T17:20Z", "20160919172000"),
    ("2016-09-19T17:20:24Z", "20160919172024"),
    ("2016-09-19T17:20:24.5Z", "20160919172024"),
    ("0000-02-29T00:00:00.123456789Z", "00000229000000"),
)


def record(kind: str, url: str, date: str = DATE, block: bytes = b"abc") -> bytes:
    head = (
        f"WARC/1.1\r\nWARC-Type: {kind}\r\nWARC-Record-ID: <urn:x:1>\r\nWARC-Date: {date}\r\nWARC-Target-URI: {url}\r\n"
        f"Content-Length: {len(block)}\r\n\r\n"
    )
    return head.encode(errors="surrogateescape") + block + b"\r\n\r\n"


def other_record(url: str, date: str, like: bytes) -> bytes:
    """Returns a record of a URL and a date that has as many bytes as another one."""
    most = len(like) - len(record("response", url, date, b""))
    found = (record("response", url, date, bytes(most - digits)) for digits in range(9))  # of its length, but for the first
    return next(each for each in found if len(each) == len(like))


def stored(text: bytes) -> bytes:
    """Returns a member of gzip whose length depends on that of its text alone."""
    return gzip.compress(text, 0, mtime=0)


class Archives(Case):
    def index(self, name: str) -> None:
        with open(self.folder / "index", "wb") as output:
            open_archive(self.folder / name, program=PROGRAM).index(output, types="response,resource,revisit,metadata,conversion")

    def collection(self) -> Collection:
        """Returns a collection that doesn't know yet what the archives are."""
        found = Collection(self.folder / "index", self.folder, program=PROGRAM)
        self.addCleanup(found.close)
        return found


class Fitting(Archives):
    def block_of(self, capture: Capture) -> bytes:
        with self.collection().stream(capture) as stream:
            return b"".join(stream.block())

    def expect_another(self, capture: Capture) -> None:
        """Expects that the record of a capture isn't given, and its archive is named."""
        wanted = ("OtherRecord", str(self.folder / capture.filename), capture.offset, ADVICE)
        for call in (self.collection().record, self.block_of):
            found = self.raises(faults.OtherRecord, call, capture)
            self.assertEqual(wanted, (found.name, found.file, found.offset, found.advice))
        self.raises(faults.OtherRecord, next, self.collection().records(key=capture.urlkey))

    def test_records_of_archives_that_were_replaced_are_not_given(self) -> None:
        kinds = ("response", "resource", "revisit", "metadata", "conversion")
        records = [record(kind, HOME + kind, block=bytes(300)) for kind in kinds]
        for name, form in (("a.warc", bytes), ("a.warc.gz", stored)):
            path = self.folder / name
            path.write_bytes(b"".join(map(form, records)))
            self.index(name)
            captures = {capture.original: capture for capture in self.collection().captures()}
            with mock.patch.object(fitting, "keys_of") as keys_of:
                self.assertEqual([bytes(300)] * 10, [call(each) for each in captures.values()
                                                     for call in (self.block_of, lambda each: self.collection().record(each).block)])  # fmt: skip
            keys_of.assert_not_called()
            for number, (kind, like) in enumerate(zip(kinds, records)):
                for url, date in (("http://other.example/", DATE), (HOME + kind, "2016-03-03T09:34:32Z"), (HOME + "a" + kind[1:], DATE)):
                    others = [*records[:number], other_record(url, date, like), *records[number + 1 :]]
                    path.write_bytes(b"".join(map(form, others)))
                    self.expect_another(captures[HOME + kind])

    def test_a_long_record_that_only_the_program_reads(self) -> None:
        like = record("resource", HOME + "a", block=bytes(2 << 20))
        for name, form in (("a.warc", bytes), ("a.warc.gz", stored)):
            (self.folder / name).write_bytes(form(like))
            self.index(name)
            (capture,) = self.collection().captures()
            self.assertEqual(bytes(2 << 20), self.block_of(capture))
            (self.folder / name).write_bytes(form(other_record(HOME + "b", DATE, like)))
            self.expect_another(capture)

    def test_records_by_their_offsets_alone_are_given(self) -> None:
        text = record("response", "http://other.example/")
        (self.folder / "a.warc").write_bytes(text)
        self.assertEqual(b"abc", self.collection_of(HOME).archive("a.warc").record(0).block)
        with Archive(self.folder / "a.warc", program=PROGRAM).stream(0, length=len(text)) as stream:
            self.assertEqual("http://other.example/", stream.head.url)

    def collection_of(self, url: str) -> Collection:
        """Returns a collection of one capture, of `a.warc`."""
        self.put(f'{KEY} {STAMP} {{"url": "{url}", "offset": "0", "filename": "a.warc"}}\n')
        return self.collection()

    def test_the_url_and_the_time_of_a_record_are_those_of_its_line(self) -> None:
        for name, form in (("a.warc", bytes), ("a.warc.gz", stored)):
            for url, date, original, is_fitting in CASES:
                text = form(record("response", url, date))
                (self.folder / name).write_bytes(text)
                key = KEY if original in ("", "-") else "com,example)/other"
                capture = Capture(key, STAMP, original, "-", "-", "-", len(text), 0, name)
                self.put("")
                with self.subTest(url=url, date=date, original=original[:100], name=name):
                    if is_fitting:
                        self.assertEqual(b"abc", self.collection().record(capture).block)
                        self.assertEqual(b"abc", self.block_of(capture))
                    else:
                        self.raises(faults.OtherRecord, self.collection().record, capture)
                        self.raises(faults.OtherRecord, self.block_of, capture)

    def test_dates_without_all_parts_and_urls_in_brackets_fit_without_a_process(self) -> None:
        urls = ("<http://example.com/wget>", "http://example.com/\udcff\xe9", "http://example.com/\xe9", "< http://example.com/blank >",
                "<<http://example.com/two>>", "dns:example.com", "HTTP://User@www.Example.com:80/%7e/../b?#c", "metadata:x")  # fmt: skip
        records = [record("metadata", each) for each in urls] + [record("response", HOME, date) for date, _ in DATES]
        for name, form in (("a.warc", bytes), ("a.warc.gz", stored)):
            (self.folder / name).write_bytes(b"".join(map(form, records)))
            self.index(name)
            with mock.patch.object(fitting, "keys_of") as keys_of:
                self.assertEqual(len(records), len(list(self.collection().records())))
            keys_of.assert_not_called()
            stamps = [capture.timestamp for capture in self.collection().captures(HOME)]
            self.assertEqual(sorted(stamp for _, stamp in DATES), stamps)

    def test_the_next_record_is_given_after_one_that_is_another(self) -> None:
        records = [record("response", HOME + each) for each in "abc"]
        (self.folder / "a.warc").write_bytes(b"".join(records))
        self.index("a.warc")
        (self.folder / "a.warc").write_bytes(b"".join((records[0], record("response", HOME + "x"), records[2])))
        found = self.collection().records()
        self.assertEqual(HOME + "a", next(found).url)
        self.raises(faults.OtherRecord, next, found)
        self.assertEqual([HOME + "c"], [each.url for each in found])

    def test_the_fault_says_what_to_do(self) -> None:
        (self.folder / "a.warc").write_bytes(record("response", "http://other.example/"))
        for call in (lambda each: next(each.records()), lambda each: each.record(next(each.captures()))):
            found = self.raises(faults.OtherRecord, call, self.collection_of(HOME))
            self.assertIsInstance(found, Fault)
            self.assertEqual(f"{self.folder}/a.warc: OtherRecord at 0 ({ADVICE})", str(found))
            again = pickle.loads(pickle.dumps(found))
            self.assertEqual((faults.OtherRecord, str(found), vars(found)), (type(again), str(again), vars(again)))


class Command(Archives):
    """What warcdx-fetch writes of archives that were replaced."""

    def setUp(self) -> None:
        super().setUp()
        original = record("response", HOME, block=b"old")
        again = record("revisit", HOME + "again", block=b"").replace(
            b"WARC-Target", b"WARC-Refers-To-Target-URI: " + HOME.encode() + b"\r\nWARC-Target", 1
        )
        again = again.replace(
            b"WARC-Target-URI: http://example.com/again", f"WARC-Refers-To-Date: {DATE}\r\nWARC-Target-URI: {HOME}again".encode()
        )
        self.texts = [original, again, record("response", HOME + "good", block=b"good")]
        (self.folder / "a.warc").write_bytes(b"".join(self.texts))
        self.index("a.warc")

    def fetch(self, *words: str) -> "tuple[int, bytes, str]":
        command = (sys.executable, COMMAND, "--program", PROGRAM, "--index", "index", *words)
        done = subprocess.run(command, cwd=self.folder, capture_output=True)
        return done.returncode, done.stdout, done.stderr.decode()

    def test_pages_of_other_urls_are_not_written(self) -> None:
        self.assertEqual((0, b"old", ""), self.fetch(HOME + "again"))
        (self.folder / "a.warc").write_bytes(b"".join((other_record("http://secret.example/", DATE, self.texts[0]), *self.texts[1:])))
        said = f"warcdx-fetch: {self.folder}/a.warc: OtherRecord 0: {ADVICE}\n"
        for url in (HOME, HOME + "again"):
            self.assertEqual((1, b"", said), self.fetch(url))
            self.assertEqual((1, b"", said), self.fetch("-o", "page", url))
        self.assertEqual((1, b"", said), self.fetch("--record", HOME))
        lines = "".join(said.replace("fetch:", f"fetch: {STAMP} {url}:") for url in (HOME, HOME + "again"))
        self.assertEqual(
            (1, f"{STAMP}-example.com_good {STAMP} {HOME}good\n".encode(), lines), self.fetch("--all", "-o", "all", "example.com/*")
        )
        self.assertEqual([b"good"], [path.read_bytes() for path in (self.folder / "all").iterdir()])
        self.assertEqual((1, b"", lines.splitlines(keepends=True)[0]), self.fetch("--all", "-o", "all.warc.gz", "example.com/*"))
        self.assertEqual(b"".join(self.texts[1:]), gzip.decompress((self.folder / "all.warc.gz").read_bytes()))
        self.assertEqual({"a.warc", "all", "all.warc.gz", "index"}, {path.name for path in self.folder.iterdir()})


if __name__ == "__main__":
    unittest.main()
