"""Tests of warcdx-fetch: which capture it takes, what it writes, and that nothing is replaced."""
import datetime
import errno
import gzip
import json
import os
import pathlib
import resource
import subprocess
import sys
import unittest
import unittest.mock
from collections import Counter
from collections.abc import Callable
from typing import Optional

from warcdx import fetch_command, open_archive
from warcdx.fetching import moment_of, nearest
from warcdx.query import Capture

from .support import PROGRAM, Case, packed

FOLDER = pathlib.Path(__file__).resolve().parents[1]
URL = "http://example.com/"


def response(time: str, body: bytes, url: str = URL, fields: bytes = b"", kind: str = "response", more: str = "") -> bytes:
    http = b"HTTP/1.1 200 OK\r\nContent-Type: text/html\r\n" + fields + b"\r\n" + body
    head = (
        f"WARC/1.1\r\nWARC-Type: {kind}\r\nWARC-Record-ID: <urn:x:1>\r\nWARC-Date: {time}\r\nWARC-Target-URI: {url}\r\n"
        f"{more}Content-Type: application/http; msgtype=response\r\nContent-Length: {len(http)}\r\n\r\n"
    )
    return head.encode() + http + b"\r\n\r\n"


def capture(timestamp: str) -> Capture:
    return Capture("k", timestamp, URL, "-", "-", "-", None, 0, "a.warc")


OLD = response("2016-09-19T17:20:24Z", b"old")
NEW = response("2018-01-02T03:04:05Z", b"5\r\nnew!\n\r\n0\r\n\r\n", fields=b"Transfer-Encoding: chunked\r\n")
SAME = "WARC-Refers-To-Target-URI: http://example.com/\r\nWARC-Refers-To-Date: 2016-09-19T17:20:24Z\r\n"
AGAIN = response("2019-01-01T00:00:00Z", b"", "http://example.com/again", kind="revisit", more=SAME)
LOST = response("2019-01-01T00:00:00Z", b"", "http://example.com/lost", kind="revisit", more=SAME.replace("2016", "2015"))


class Moments(unittest.TestCase):
    def test_a_short_time_is_filled_to_its_end(self) -> None:
        for text, wanted in (
            ("2016", "2016-12-31T23:59:59"),
            ("201602", "2016-02-29T23:59:59"),
            ("201702", "2017-02-28T23:59:59"),
            ("201612", "2016-12-31T23:59:59"),
            ("20160919", "2016-09-19T23:59:59"),
            ("2016091917", "2016-09-19T17:59:59"),
            ("201609191720", "2016-09-19T17:20:59"),
            ("20160919172024", "2016-09-19T17:20:24"),
            ("2016-09-19", "2016-09-19T23:59:59"),
            ("2016-09-19T17:20:24Z", "2016-09-19T17:20:24"),
            ("2016-09-19T17:20:24+02:00", "2016-09-19T15:20:24"),
        ):
            self.assertEqual(f"{wanted}+00:00", moment_of(text).isoformat(), text)

    def test_others_are_no_times(self) -> None:
        for text in ("", "2", "201", "20161", "201613", "20160230", "2016-13-01", "0000", "x", "201609191720245", "\u0662016"):
            with self.assertRaises(ValueError, msg=text):
                moment_of(text)

    def test_the_nearest_capture(self) -> None:
        captures = [capture(f"{year}0101000000") for year in (2010, 2012, 2016)]
        for year, wanted in ((1990, "2010"), (2011, "2010"), (2013, "2012"), (2015, "2016"), (2020, "2016")):
            found = nearest(captures, datetime.datetime(year, 1, 1, tzinfo=datetime.timezone.utc))
            self.assertEqual(f"{wanted}0101000000", found and found.timestamp, year)
        self.assertEqual(captures[-1], nearest(captures))
        self.assertIsNone(nearest([]))

    def test_a_timestamp_that_is_no_date_is_the_last_choice(self) -> None:
        odd, usual = capture("20169999999999"), capture("20160101000000")
        self.assertEqual(usual, nearest([odd, usual, odd]))
        self.assertEqual(odd, nearest([odd]))


class Fetching(Case):
    def setUp(self) -> None:
        super().setUp()
        self.archive, self.packed = self.folder / "a.warc", self.folder / "b.warc.gz"
        self.archive.write_bytes(OLD + NEW + AGAIN + LOST)
        self.packed.write_bytes(b"".join(packed(OLD, NEW, AGAIN, LOST)))
        for name, path in (("a.cdxj", self.archive), ("b.cdxj", self.packed)):
            with open(self.folder / name, "wb") as index:
                open_archive(path, program=PROGRAM).index(index)

    def fetch(
        self, *words: str, index: str = "a.cdxj", environment: Optional[dict[str, str]] = None, before: Optional[Callable[[], None]] = None
    ) -> tuple[int, bytes, str]:
        options = ["--index", index] if index else []
        done = subprocess.run(
            (sys.executable, FOLDER / "bin/warcdx-fetch", "--program", PROGRAM, *options, *words),
            cwd=self.folder,
            env={**os.environ, **(environment or {})},
            stdout=subprocess.PIPE,
            stderr=subprocess.PIPE,
            preexec_fn=before,
        )
        return done.returncode, done.stdout, done.stderr.decode()

    def test_a_page(self) -> None:
        for index in ("a.cdxj", "b.cdxj"):
            for words, wanted in (
                ((URL,), b"new!\n"),
                (("--at", "2017", URL), b"new!\n"),
                (("--at", "2016", URL), b"old"),
                (("--at=1999", URL), b"old"),
                (("example.com",), b"new!\n"),
                (("http://example.com/again",), b"old"),
                (("--record", URL), NEW),
                (("--record", "http://example.com/again"), AGAIN),
            ):
                self.assertEqual((0, wanted, ""), self.fetch(*words, index=index), (index, words))

    def test_no_page(self) -> None:
        for words, wanted in (
            (
                ("http://example.com/none",),
                "http://example.com/none: no index has a capture of it; warcdx query 'url=example.com/*&fl=original' INDEX shows what there is of the host",
            ),
            (("http://example.com/lost",), "http://example.com/lost: it is a revisit, and no index has its original"),
        ):
            self.assertEqual((1, b"", f"warcdx-fetch: {wanted}\n"), self.fetch(*words), words)
        os.remove(self.archive)
        why = "cannot open (No such file or directory); --archives FOLDER names the folder below which it has this path"
        self.assertEqual((3, b"", f"warcdx-fetch: {self.folder}/a.warc: {why}\n"), self.fetch(URL))

    def test_variables_of_the_environment(self) -> None:
        folder = self.folder / "moved"
        folder.mkdir()
        os.rename(self.folder / "a.cdxj", folder / "x.cdxj")
        names = {"WARCDX_INDEX": "moved/x.cdxj", "WARCDX_ARCHIVES": "."}
        self.assertEqual((0, b"new!\n", ""), self.fetch(URL, index="", environment=names))
        self.assertEqual((0, b"new!\n", ""), self.fetch("--archives", "nosuch", "--archives", ".", URL, index="moved/x.cdxj"))
        status, output, error = self.fetch(URL, index="", environment={"WARCDX_INDEX": ""})
        self.assertEqual((2, b""), (status, output))
        self.assertIn("give --index INDEX", error)

    def test_a_file_is_new(self) -> None:
        self.assertEqual((0, b"", ""), self.fetch("-o", "page", URL))
        self.assertEqual(b"new!\n", (self.folder / "page").read_bytes())
        status, output, error = self.fetch("-o", "page", "--at", "2016", URL)
        self.assertEqual((3, b"", "warcdx-fetch: page: it is there, and isn't replaced; give another name\n"), (status, output, error))
        self.assertEqual(b"new!\n", (self.folder / "page").read_bytes())
        self.assertEqual(1, self.fetch("-o", "lost", "http://example.com/lost")[0])
        self.assertEqual({"a.warc", "b.warc.gz", "a.cdxj", "b.cdxj", "page"}, set(os.listdir(self.folder)))
        self.assertEqual((0, b"new!\n", ""), self.fetch("-o", "-", URL))
        self.assertEqual((0, b"", ""), self.fetch("-o", "\u00e9" * 127, URL))  # as long as a name may be

    def test_a_disk_that_is_full(self) -> None:
        def no_byte() -> None:
            resource.setrlimit(resource.RLIMIT_FSIZE, (0, 0))

        self.assertEqual((3, b"", "warcdx-fetch: page: File too large\n"), self.fetch("-o", "page", URL, before=no_byte))
        self.assertEqual((3, b"", "warcdx-fetch: x.warc.gz: File too large\n"), self.fetch("--all", "-o", "x.warc.gz", URL, before=no_byte))
        self.assertEqual({"a.warc", "b.warc.gz", "a.cdxj", "b.cdxj"}, set(os.listdir(self.folder)))

    def test_a_file_system_without_links(self) -> None:
        path = self.folder / "page"
        with unittest.mock.patch("os.link", side_effect=PermissionError(errno.EPERM, "no links")):
            with fetch_command.new_file(os.fspath(path)) as file:
                file.write(b"page")
            self.assertEqual(b"page", path.read_bytes())
            path.unlink()
            with self.assertRaises(FileExistsError), fetch_command.new_file(os.fspath(path)) as file:
                path.write_bytes(b"another one")
            self.assertEqual(b"another one", path.read_bytes())
        self.assertEqual({"a.warc", "b.warc.gz", "a.cdxj", "b.cdxj", "page"}, set(os.listdir(self.folder)))

    def test_a_file_that_comes_meanwhile_is_not_replaced(self) -> None:
        path = self.folder / "page"
        with self.assertRaises(FileExistsError) as caught, fetch_command.new_file(os.fspath(path)):
            path.write_bytes(b"another one")
        self.assertEqual(os.fspath(path), caught.exception.filename)
        self.assertEqual(b"another one", path.read_bytes())

    def test_all_as_files(self) -> None:
        status, output, error = self.fetch("--all", "-o", "all", "example.com/*")
        self.assertEqual(1, status)
        self.assertEqual("warcdx-fetch: 20190101000000 http://example.com/lost: it is a revisit, and no index has its original\n", error)
        names = [line.split(b" ")[0].decode() for line in output.splitlines()]
        self.assertEqual(["20160919172024-example.com.html", "20180102030405-example.com.html", "20190101000000-example.com_again"], names)
        self.assertEqual([b"old", b"new!\n", b"old"], [(self.folder / "all" / name).read_bytes() for name in names])
        self.assertEqual(sorted(names), sorted(os.listdir(self.folder / "all")))
        self.assertEqual(3, self.fetch("--all", "-o", "all", "example.com/*")[0])

    def test_captures_that_can_not_be_read_keep_no_others_from_being_written(self) -> None:
        """Their archives are a pipe that nobody writes, and a file that can't be read, as on a disk that is at fault."""
        os.mkfifo(self.folder / "pipe.warc")
        (self.folder / "rotten.warc").symlink_to("/proc/self/mem")
        index = self.folder / "a.cdxj"
        lines = [line for line in index.read_text().splitlines() if line.startswith("com,example)/ ")]
        names = ["pipe.warc", "rotten.warc", "nosuch.warc"]
        index.write_text("".join(f"{line.replace('a.warc', name)}\n" for line in lines for name in (*names, "a.warc")))
        whys = [
            f"{self.folder}/pipe.warc: a pipe can be read only once, by list, verify or index; save it to a file",
            f"{self.folder}/rotten.warc: Read (Input/output error)",
            f"{self.folder}/nosuch.warc: cannot open (No such file or directory); --archives FOLDER names the folder below which it has this path",
        ]
        said = [f"warcdx-fetch: {time} {URL}: {why}" for time in ("20160919172024", "20180102030405") for why in whys]
        for output in ("all", "all.warc.gz"):
            status, _, error = self.fetch("--all", "-o", output, URL)
            self.assertEqual((3, sorted(said)), (status, sorted(error.splitlines())))
        self.assertEqual([b"new!\n", b"old"], sorted(path.read_bytes() for path in (self.folder / "all").iterdir()))
        self.assertEqual(2, len(list(open_archive(self.folder / "all.warc.gz", program=PROGRAM))))

    def test_an_index_that_is_no_file(self) -> None:
        os.mkfifo(self.folder / "pipe")
        why = "Read: An index is a file, because it is searched: write what a pipe has to a file first."
        self.assertEqual((3, b"", f"warcdx-fetch: pipe: {why}\n"), self.fetch(URL, index="pipe"))
        self.assertEqual((3, b"", "warcdx-fetch: ./-: cannot open (No such file or directory)\n"), self.fetch(URL, index="./-"))

    def test_nothing_is_made_for_a_query_without_captures(self) -> None:
        for query, wanted in (
            ("*.example.net", "no index has a capture of it; docs/FAQ.md has the usual causes"),
            (
                "example.com/x*",
                "no index has a capture of it; warcdx query 'url=example.com/*&fl=original' INDEX shows what there is of the host",
            ),
            (
                "url=example.com&from=June",
                "the query is refused: BadStamp in from: from and to are 1 to 14 digits without - and :, such as 2016 or 20160919172024.",
            ),
        ):
            for output in ("all", "all.warc.gz"):
                self.assertEqual((1, b"", f"warcdx-fetch: {query}: {wanted}\n"), self.fetch("--all", "-o", output, query))
                self.assertFalse((self.folder / output).exists())

    def test_a_revisit_of_what_is_no_url(self) -> None:
        odd = [
            response("2019-01-01T00:00:00Z", b"", f"http://example.com/{number}", kind="revisit", more=SAME.replace(URL, url))
            for number, url in enumerate(("http://", "x" * 70_000, "a b"))
        ]
        self.archive.write_bytes(b"".join(odd) + NEW)
        with open(self.folder / "a.cdxj", "wb") as index:
            open_archive(self.archive, program=PROGRAM).index(index)
        status, output, error = self.fetch("--all", "-o", "all", "example.com/*")
        self.assertEqual((1, 3), (status, error.count("it is a revisit, and no index has its original\n")))
        self.assertEqual([b"20180102030405-example.com.html 20180102030405 http://example.com/"], output.splitlines())

    def test_a_revisit_that_the_index_names_as_a_page(self) -> None:
        index = self.folder / "a.cdxj"
        again = SAME.replace(URL, "http://example.com/x").replace("2016-09-19T17:20:24Z", "2019-01-01T00:00:00Z")
        record = response("2019-01-01T00:00:00Z", b"", "http://example.com/x", kind="revisit", more=again)
        self.archive.write_bytes(record)
        with open(index, "wb") as file:
            open_archive(self.archive, program=PROGRAM).index(file)
        index.write_text(index.read_text().replace("warc/revisit", "text/html"))
        status, output, error = self.fetch("http://example.com/x")
        self.assertEqual((1, b""), (status, output), error)

    def test_a_url_is_on_one_line(self) -> None:
        line = (
            'com,example)/ 20160919172024 {"url": "http://a/\\nb\\u202ec", "mime": "-", "status": "200", "digest": "-", '
            f'"length": "{len(OLD)}", "offset": "0", "filename": "a.warc"}}\n'
        )
        (self.folder / "a.cdxj").write_text(line)
        wanted = b'20160919172024-a_b_c 20160919172024 "http://a/\\nb\\u202ec"\n'
        self.assertEqual((0, wanted, ""), self.fetch("--all", "-o", "all", URL))

    def test_lines_of_all_files(self) -> None:
        name = "20180102030405-example.com.html"
        line = {"file": name, "timestamp": "20180102030405", "url": URL}
        query = "url=example.com&from=2018&to=2018"
        self.assertEqual((0, json.dumps(line).encode() + b"\n", ""), self.fetch("--json", "--all", "-o", "all", query))
        self.assertEqual((0, b"", ""), self.fetch("--quiet", "--all", "-o", "again", query))
        self.assertEqual([[name]] * 2, [os.listdir(self.folder / folder) for folder in ("all", "again")])

    def test_all_as_an_archive(self) -> None:
        for index in ("a.cdxj", "b.cdxj"):
            name = f"{index}.warc.gz"
            self.assertEqual((0, b"", ""), self.fetch("--all", "-o", name, "url=example.com/*&from=2018", index=index))
            self.assertEqual(NEW + AGAIN + LOST, gzip.decompress((self.folder / name).read_bytes()))

    def test_a_record_that_is_damaged_leaves_nothing_in_an_archive(self) -> None:
        damaged = bytearray(self.packed.read_bytes())
        damaged[len(packed(OLD)[0]) - 6] ^= 1  # in the checksum of the first member
        self.packed.write_bytes(damaged)
        status, _, error = self.fetch("--all", "-o", "c.warc.gz", "url=example.com/*&to=2018", index="b.cdxj")
        self.assertEqual(1, status)
        self.assertIn("BadMember 0", error)
        self.assertEqual(NEW, gzip.decompress((self.folder / "c.warc.gz").read_bytes()))

    def test_usage(self) -> None:
        for words, wanted in (
            (("--all", URL), "--all needs -o OUTPUT"),
            (("--all", "-o", "x", "--at", "2016", URL), "--at"),
            (("--all", "-o", "-", URL), "--all needs -o OUTPUT"),
            (("--all", "-o", "x.warc", URL), "the name of a new archive ends with .warc.gz"),
            (("--record", "-o", "x.warc.gz", URL), "only --all writes a .warc.gz"),
            (("-o", "", URL), "-o/--output: the name is empty"),
            (("--at", "never", URL), "TIME is a date"),
            (("--json", URL), "--json is about the files of --all -o FOLDER"),
            (("--all", "--json", "-o", "x.warc.gz", URL), "--json is about the files of --all -o FOLDER"),
            (("--all", "--json", "--quiet", "-o", "x", URL), "not allowed with argument"),
            ((), "URL"),
        ):
            status, output, error = self.fetch(*words)
            self.assertEqual((2, b"", 1), (status, output, error.count("\n")), words)
            self.assertIn(wanted, error)


class Names(unittest.TestCase):
    def test_names_of_files(self) -> None:
        for url, mime, wanted in (
            ("http://a.com/x.png", "image/png", "a.com_x.png"),
            ("http://a.com/", "text/html", "a.com.html"),
            ("http://a.com", "text/html", "a.com.html"),
            ("http://a.com/../../etc/passwd", "x/none", "a.com_.._.._etc_passwd"),
            ("http://a.com/%2e%2e%2fx?q=1&r", "x/none", "a.com_.._x_q_1_r"),
            ("http://a.com/x.php?q=b.c", "text/html", "a.com_x.php_q_b.c.php"),
            ("http://a.com/" + "y" * 999, "x/none", ("a.com_" + "y" * 999)[:150]),
            ("http://a.com/x.", "x/none", "a.com_x"),
            ("dns:a.com", "x/none", "dns_a.com"),
            ("http://a.com/\x00\n\ud800", "x/none", "a.com"),
        ):
            found = fetch_command.name_of(capture("20160919172024")._replace(original=url, mimetype=mime), False)
            self.assertEqual(f"20160919172024-{wanted}", found, url)

    def test_a_name_that_is_used_gets_a_number(self) -> None:
        names = _Asked()
        wanted = ["a.txt", "A-2.txt", "a-3.txt", "a-2-2.txt", "a-4.txt"]
        self.assertEqual(wanted, [fetch_command.unused(name, names) for name in ("a.txt", "A.txt", "a.txt", "a-2.txt", "a.txt")])
        for _ in range(1000):
            fetch_command.unused("a.txt", names)
        self.assertLess(names.questions, 3000)  # and not as many as there are pairs of names


class _Asked(Counter[str]):
    """Names that count how often it is asked whether they have one."""

    questions = 0

    def __contains__(self, name: object) -> bool:
        self.questions += 1
        return super().__contains__(name)


if __name__ == "__main__":
    unittest.main()
