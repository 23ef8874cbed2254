"""warcdx-cdx: eleven-column CDX from indexes, and indexes from CDX files."""
import io
import json
import os
import pathlib
import random
import signal
import subprocess
import sys
import unittest
from typing import Any

from warcdx.cdx import _batches

from tests.support import ENDING, PROGRAM, SAMPLES, WAIT, Case, lines, wait_until_asleep, wait_until_caught

COMMAND = pathlib.Path(__file__).resolve().parents[1] / "bin/warcdx-cdx"
HEADER = b" CDX N b a m s k r M S V g\n"
KEY, URL = "com,example)/", "http://example.com/"
ROW = f"{KEY} 20160919172024 {URL} text/html 200 ABC - - 264 7 a.warc\n".encode()
MEMBERS = {
    "url": URL, "mime": "text/html", "status": "200", "digest": "ABC", "length": "264", "offset": "7", "filename": "a.warc"
}  # fmt: skip
LINE = f"{KEY} 20160919172024 {json.dumps(MEMBERS)}\n".encode()
MOST = 1 << 24  # bytes of a line
NO_LINE = "The line that begins there isn't one of a CDXJ index."


def row(**columns: str) -> bytes:
    """Returns a line of eleven columns, of which some have other values."""
    usual = dict(zip("NbamskrMSVg", ROW.decode().split()))
    return (" ".join({**usual, **columns}.values()) + "\n").encode(errors="surrogateescape")


def line(key: str = KEY, **members: object) -> bytes:
    """Returns a line of an index, of which some members have other values. None leaves one out."""
    given = {name: value for name, value in {**MEMBERS, **members}.items() if value is not None}
    return f"{key} 20160919172024 {json.dumps(given, ensure_ascii=False)}\n".encode()


class Cdx(Case):
    def run_command(self, *arguments: str, text: bytes = b"", **more: Any) -> tuple[bytes, str, int]:
        done = subprocess.run(
            (sys.executable, COMMAND, "--program", os.path.abspath(PROGRAM), *arguments), cwd=self.folder, input=text,
            stdout=subprocess.PIPE, stderr=subprocess.PIPE, timeout=WAIT, **more,
        )  # fmt: skip
        return done.stdout, done.stderr.decode(errors="surrogateescape"), done.returncode

    def put_bytes(self, text: bytes, name: str) -> str:
        (self.folder / name).write_bytes(text)
        return name


class To(Cdx):
    def test_a_line_has_eleven_columns(self) -> None:
        self.assertEqual((HEADER + ROW, "", 0), self.run_command("to", text=LINE))
        self.assertEqual((HEADER, "", 0), self.run_command("to"))

    def test_values_that_are_absent_or_of_other_kinds(self) -> None:
        for members, column, wanted in (
            ({"status": None}, 4, "-"), ({"status": ""}, 4, "-"), ({"status": 200}, 4, "200"), ({"status": -1}, 4, "-"),
            ({"status": 1.5}, 4, "-"), ({"status": [1]}, 4, "-"), ({"status": True}, 4, "-"),
            ({"length": 1 << 64}, 8, "-"), ({"length": (1 << 64) - 1}, 8, "18446744073709551615"), ({"offset": "0007"}, 9, "7"), ({"offset": 7}, 9, "7"),
            ({"url": "a b\tc\x7f"}, 2, "a%20b%09c%7F"), ({"filename": "é b"}, 10, "é%20b"),
            ({"other": {"x": [1e9]}}, 10, "a.warc"),
        ):  # fmt: skip
            found, said, status = self.run_command("to", text=line(**members))
            self.assertEqual(("", 0), (said, status))
            self.assertEqual(wanted, found.decode().splitlines()[1].split(" ")[column], members)
        found, _, status = self.run_command("to", text=LINE.replace(b'"200"', b"-0"))
        self.assertEqual(("-", 0), (found.decode().splitlines()[1].split(" ")[4], status))

    def test_blanks_may_follow_the_members(self) -> None:
        """So they do in an index with the line ends of Windows, which the program reads."""
        for end in (b"\r\n", b" \t\r\n", b"\r"):
            self.assertEqual((HEADER + ROW, "", 0), self.run_command("to", text=LINE.removesuffix(b"\n") + end))

    def test_several_indexes_are_merged(self) -> None:
        first, second = line("a", offset="1"), line("c", offset="3")
        self.put_bytes(first + second, "1")
        self.put_bytes(line("b", offset="2") + second, "2")
        found, said, status = self.run_command("to", "1", "2")
        keys = [each.split()[0] for each in found.decode().splitlines()[1:]]
        self.assertEqual((["a", "b", "c"], "", 0), (keys, said, status))
        self.assertEqual((found, "", 0), self.run_command("to", "-", "2", text=first + second))

    def test_more_indexes_than_the_program_merges(self) -> None:
        names = [self.put_bytes(line("k", offset=str(number)), str(number)) for number in range(1030)]
        found, said, status = self.run_command("to", *names)
        self.assertEqual((1031, "", 0), (len(found.splitlines()), said, status))

    def test_a_pipe_is_copied_once_to_a_file(self) -> None:
        """Also where it is named twice."""
        self.put_bytes(LINE, "index")
        os.mkfifo(self.folder / "pipe")
        for words, wanted in (
            ("pipe", (HEADER + ROW, "", 0)),
            ("pipe index pipe", (HEADER + ROW, "", 0)),
            ("pipe nosuch", (b"", "warcdx-cdx: nosuch: cannot open (No such file or directory)\n", 3)),
        ):
            shell = f'cat index > pipe & exec "$0" "$1" --program "$2" to {words}'
            command = ("sh", "-c", shell, sys.executable, str(COMMAND), os.path.abspath(PROGRAM))
            done = subprocess.run(command, cwd=self.folder, capture_output=True, timeout=WAIT)
            self.assertEqual(wanted, (done.stdout, done.stderr.decode(), done.returncode), words)
        self.put_bytes(b"x\n", "index")
        done = subprocess.run(("sh", "-c", shell.replace(words, "pipe"), *command[3:]), cwd=self.folder, capture_output=True, timeout=WAIT)
        self.assertEqual((b"", f"warcdx-cdx: pipe: BadLine 0: {NO_LINE}\n", 1), (done.stdout, done.stderr.decode(), done.returncode))

    def test_a_pipe_that_the_shell_has_opened(self) -> None:
        reading_end, writing_end = os.pipe()
        with open(reading_end, "rb"), open(writing_end, "wb") as pipe:
            pipe.write(LINE)
            pipe.close()
            found = self.run_command("to", f"/dev/fd/{reading_end}", pass_fds=(reading_end,))
        self.assertEqual((HEADER + ROW, "", 0), found)

    def test_what_is_no_index_is_said(self) -> None:
        for text, wanted in (
            (b"x\n", f"BadLine 0: {NO_LINE}"), (LINE + b"\xff\n", f"BadLine {len(LINE)}: {NO_LINE}"),
            (LINE + line("a"), f"OutOfOrder {len(LINE)}: The index isn't in order: LC_ALL=C sort puts its lines in order."),
        ):  # fmt: skip
            for arguments, name in ((("index",), "index"), ((), "-")):
                self.put_bytes(text, "index")
                found, said, status = self.run_command("to", *arguments, text=b"" if arguments else text)
                self.assertEqual((f"warcdx-cdx: {name}: {wanted}\n", 1), (said, status))
                self.assertTrue((HEADER + ROW).startswith(found))
        wanted = b"", "warcdx-cdx: nosuch: cannot open (No such file or directory)\n", 3
        self.assertEqual(wanted, self.run_command("to", "nosuch"))


class Output(Cdx):
    def test_a_new_file(self) -> None:
        self.put_bytes(LINE, "index")
        for words in (("to", "-o", "new", "index"), ("-o", "new", "to", "index"), ("to", "index", "--output=new")):
            self.assertEqual((b"", "", 0), self.run_command(*words))
            self.assertEqual(HEADER + ROW, (self.folder / "new").read_bytes())
            said = "warcdx-cdx: new: it is there, and isn't replaced; give another name\n"
            self.assertEqual((b"", said, 3), self.run_command(*words))
            (self.folder / "new").unlink()
        self.assertEqual((HEADER + ROW, "", 0), self.run_command("to", "-o", "-", "index"))

    def test_what_can_be_read_is_kept(self) -> None:
        self.put_bytes(LINE + b"x\n", "index")
        self.assertEqual((b"", f"warcdx-cdx: index: BadLine {len(LINE)}: {NO_LINE}\n", 1), self.run_command("to", "-o", "new", "index"))
        self.assertTrue((HEADER + ROW).startswith((self.folder / "new").read_bytes()))

    def test_a_file_that_cannot_be_opened_leaves_no_new_one(self) -> None:
        self.put_bytes(ROW, "cdx")
        for words in (("to", "nosuch"), ("from", "cdx", "nosuch"), ("from", "nosuch", "cdx")):
            found, said, status = self.run_command(*words, "-o", "new")
            self.assertEqual((b"", 1, 3), (found, said.count("nosuch: cannot open"), status))
            self.assertEqual(["cdx"], os.listdir(self.folder))


class From(Cdx):
    def test_each_form_of_file(self) -> None:
        nine = b"x 20160919172024 http://example.com/ text/html 200 ABC - 7 a.warc\n"
        wget = b" CDX a b u m s k r M V g u\nhttp://example.com/ 20160919172024 - text/html 200 ABC - - 7 a.warc <urn:a>\n"
        without, least = line(length=None), line(mime="-", status="-", digest="-", length=None)
        for text, wanted in (
            (ROW, LINE), (HEADER + ROW, LINE), (HEADER[1:] + ROW, LINE), (ROW.replace(b"\n", b"\r\n"), LINE),
            (ROW[:-1], LINE), (nine, without), (wget, without), (wget + HEADER + ROW, without + LINE), (b"", b""), (HEADER, b""),
            (b" CDX b a g v\n20160919172024 http://example.com/ a.warc 7\n", least),
        ):  # fmt: skip
            self.assertEqual((wanted, "", 0), self.run_command("from", text=text), text)

    def test_keys_are_made_anew(self) -> None:
        for url, key in (
            ("https://www.Example.com:443/A?b=C#d", "com,example)/a?b=c"),
            ("http://bücher.example/é", "example,xn--bcher-kva)/%c3%a9"),
            ("dns:Example.com", "dns:example.com"), ("<http://a/>", "<http://a/>"), ("http://a/\x00b", "a)/%00b"),
        ):  # fmt: skip
            self.assertEqual((line(key, url=url), "", 0), self.run_command("from", text=row(N="other", a=url)))

    def test_what_it_writes_is_an_index_when_it_is_sorted(self) -> None:
        choices = random.Random(1)
        letters = "abc/?=&%é#:@.-\\\x01"
        rows = []
        for number in range(9000):
            url = "http://" + "".join(choices.choices(letters, k=choices.randrange(1, 20)))
            rows.append(row(a=url, m="".join(choices.choices(letters, k=3)), V=str(number)))
        found, said, status = self.run_command("from", text=b"".join(rows))
        self.assertEqual((9000, "", 0), (len(found.splitlines()), said, status))
        offsets = [json.loads(each.split(b" ", 2)[2])["offset"] for each in found.splitlines()]
        self.assertEqual([str(number) for number in range(9000)], offsets)
        index = self.put_bytes(b"".join(sorted(found.splitlines(keepends=True))), "index")
        done = subprocess.run((os.path.abspath(PROGRAM), "check", index), cwd=self.folder, capture_output=True, text=True)
        self.assertEqual(("index 9000\n", 0), (done.stdout, done.returncode))

    def test_an_index_is_the_same_after_both_ways(self) -> None:
        done = subprocess.run((PROGRAM, "index", SAMPLES / "wget.warc"), stdout=subprocess.PIPE, check=True)
        cdx = self.run_command("to", text=done.stdout)[0]
        found, said, status = self.run_command("from", text=cdx)
        self.assertEqual(("", 0), (said, status))
        self.assertEqual(done.stdout, found)

    def test_lines_that_can_not_be_read(self) -> None:
        no_offset = "the offset isn't a number below 2^63"
        for text, cause in (
            (row(b="2016"), "the timestamp isn't 14 digits"), (row(b="2016091917202x"), "the timestamp isn't 14 digits"),
            (row(V="-"), no_offset), (row(V="9223372036854775808"), no_offset), (row(V="+7"), no_offset),
            (row(S="x"), "the length isn't a number below 2^63"),
            (row(a="-"), "it has no URL"), (row(g="-"), "it has no file name"), (row(m=""), "a column is empty"),
            (row(a="http://a/\rb"), "the URL can't be indexed"),
            (row(a="http://a/" + "%" * (1 << 20)), "the URL has more than 1,048,576 bytes"),
            (row(g="a b"), "it has 12 columns, and not 11"), (b"\n", "it has 1 column, and not 11"),
            (b" CDX" + b" x" * 65 + b"\n", "the header has more than 64 columns"),
            (b" " * (MOST - 1) + b"\n", "it has 16,777,216 columns, and not 11"),
            (b" CDX N b a\n", "the header hasn't the columns a, b, g, and V or v"),
            (b"\0" * (MOST + 1), "it has more than 16,777,216 bytes"),
            (row(m="\x01" * (MOST // 5)), "its line in the index has more than 16,777,216 bytes"),
        ):  # fmt: skip
            found, said, status = self.run_command("from", "-", self.put_bytes(ROW, "next"), text=ROW + text + ROW)
            self.assertEqual((LINE + LINE, f"warcdx-cdx: -: line 2: {cause}\n", 1), (found, said, status))
        cause = "it has 2 columns, and not 11 or 9; a header names other columns"
        self.assertEqual((b"", f"warcdx-cdx: -: line 1: {cause}\n", 1), self.run_command("from", text=b"a b\n" + ROW))

    def test_the_line_is_named_after_many(self) -> None:
        found, said, status = self.run_command("from", text=ROW * 10_000 + row(a="http://a/\r") + ROW)
        wanted = LINE * 10_000, "warcdx-cdx: -: line 10001: the URL can't be indexed\n", 1
        self.assertEqual(wanted, (found, said, status))

    def test_bytes_that_are_not_utf_8(self) -> None:
        found, said, status = self.run_command("from", text=row(a="http://\udcff/\udce9", m="t/\udcff", g="é"))
        wanted = line("http://%ff/%e9", url="http://%FF/%E9", mime="t/%FF", filename="é")
        self.assertEqual((wanted, "", 0), (found, said, status))

    def test_files_that_can_not_be_read(self) -> None:
        found, said, status = self.run_command("from", "nosuch", ".", self.put_bytes(ROW, "good"))
        wanted = ["warcdx-cdx: nosuch: cannot open (No such file or directory)"]
        wanted.append("warcdx-cdx: .: cannot open (Is a directory); name the CDX files in it")
        self.assertEqual((LINE, wanted, 3), (found, said.splitlines(), status))


class Both(Cdx):
    def test_a_full_disk_is_said(self) -> None:
        self.put_bytes(lines(1000).encode(), "index")
        self.put_bytes(ROW * 1000, "cdx")
        self.expect_a_full_disk_is_said(COMMAND, r"warcdx-cdx: (Write: )?File too large\n", ("to", "index"), ("from", "cdx"), ("--help",))

    def test_a_signal_ends_it_without_a_word_and_leaves_nothing(self) -> None:
        temporary = self.folder / "temporary"
        temporary.mkdir()
        for number in ENDING:
            for word in ("to", "from"):
                with subprocess.Popen(
                    (sys.executable, COMMAND, "--program", os.path.abspath(PROGRAM), word), cwd=self.folder,
                    stdin=subprocess.PIPE, stdout=subprocess.PIPE, stderr=subprocess.STDOUT, env={**os.environ, "TMPDIR": str(temporary)},
                ) as process:  # fmt: skip
                    wait_until_caught(process, signal.SIGTERM)
                    wait_until_asleep(process)
                    process.send_signal(number)
                    assert process.stdout is not None
                    self.assertEqual((b"", -number), (process.stdout.read(), process.wait(WAIT)))
                self.assertEqual([], list(temporary.iterdir()))

    def test_memory_does_not_grow_with_the_file(self) -> None:
        def peak(word: str, text: bytes) -> int:
            script = (
                "import resource, subprocess, sys; subprocess.run(sys.argv[1:], stdout=subprocess.DEVNULL, check=True); "
                "print(resource.getrusage(resource.RUSAGE_CHILDREN).ru_maxrss)"
            )
            command = (sys.executable, "-c", script, sys.executable, COMMAND, "--program", os.path.abspath(PROGRAM), word)
            return int(subprocess.run(command, input=text, stdout=subprocess.PIPE, check=True).stdout)

        for word, text_of in (("to", lambda count: lines(count).encode()), ("from", lambda count: ROW * count)):
            self.assertLess(peak(word, text_of(100_000)), peak(word, text_of(20_000)) + 2000, word)  # kB

    def test_rows_are_held_up_to_a_number_of_bytes(self) -> None:
        """Whatever columns are long. One row aside, as each is held alone."""
        for count, long in ((2_000, {"k": "x" * 10_000}), (300, {"g": "x" * 100_000}), (300, {"m": "x" * 100_000}), (40_000, {})):
            batches = list(_batches(io.BytesIO(row(**long) * count)))
            self.assertEqual(count, sum(len(rows) for rows, _ in batches))
            for rows, end in batches:
                sizes = [sum(map(len, each[1:])) for each in rows]
                self.assertLess(sum(sizes[:-1]), 1 << 20)
                self.assertIsNone(end)
            self.assertLess(len(batches), 2 + sum(map(len, long.values())) * count // 900_000 + count // 4096)

    def test_help_version_and_usage_errors(self) -> None:
        version = (COMMAND.parents[1] / "VERSION").read_text().strip()
        self.assertEqual((f"warcdx-cdx {version}\n".encode(), "", 0), self.run_command("--version"))
        self.assertIn(b"usage: warcdx-cdx ", self.run_command("-h")[0])
        for arguments in ((), ("other",), ("to", "--other"), ("--other", "to")):
            found, said, status = self.run_command(*arguments)
            self.assertEqual((b"", 1, 2), (found, said.count("\n"), status), arguments)


if __name__ == "__main__":
    unittest.main()
