"""Tests of what warcdx-update is made of. tests/update in the repository runs the command."""
import io
import json
import math
import os
import pathlib
import shutil
import signal
import subprocess
import tempfile
import threading
import time
import unittest
import zlib
from collections import Counter
from collections.abc import Iterator
from typing import IO, Any, NoReturn
from unittest import mock

from warcdx import update_tasks
from warcdx.ending import Ended
from warcdx.states import MOST_RUNS
from warcdx.update_archives import Found, FoundArchive, Passed
from warcdx.update import Merging, batches_of
from warcdx.update_reports import FAILED, Action, Report, damage_of
from warcdx.update_tasks import Failed, _causes_of, _Lines, _whole_lines, filter_run, host_key_of, index_archives, merge_runs
from warcdx.update_workers import Threads
from warcdx.url_keys import host_of

from .support import PROGRAM, SAMPLES
from .test_update_store import in_folder, lines_of


class MergingTest(unittest.TestCase):
    """By hand: with a ratio of 8, levels begin at 65,536 x 8^n bytes, and the lowest one has the smaller runs too."""

    def test_eight_runs_of_a_level_become_one(self) -> None:
        number = Merging(8, False).number
        self.assertEqual(number([]), 0)
        self.assertEqual(number([100] * 7), 0)
        self.assertEqual(number([100] * 8), 8)
        self.assertEqual(number([100] * 7 + [524_287]), 8)
        self.assertEqual(number([100] * 7 + [524_288]), 0)
        self.assertEqual(number([100] * 7 + [600_000] * 8), 15)
        self.assertEqual(number([500_000] * 8 + [600_000] * 7), 15)
        self.assertEqual(number([10] * 8 + [600_000] * 7), 8)
        self.assertEqual(number([10, 20, 1 << 30]), 0)
        self.assertEqual(Merging(8, True).number([10, 20, 1 << 30]), 3)

    def test_an_index_has_few_runs_of_which_each_byte_is_written_seldom(self) -> None:
        for ratio in (2, 8, 16):
            merging, runs, written = Merging(ratio, False), list[int](), 0
            for _ in range(3000):
                runs = sorted([*runs, 100_000])
                if (number := merging.number(runs)) > 1:
                    runs, written = sorted([sum(runs[:number]), *runs[number:]]), written + sum(runs[:number])
                self.assertLessEqual(len(runs), MOST_RUNS)
            self.assertEqual(sum(runs), 3000 * 100_000)
            self.assertLessEqual(written, 3000 * 100_000 * (math.log(3000, ratio) + 2))

    def test_small_archives_of_a_folder_are_indexed_together(self) -> None:
        def found(name: str, size: int = 10) -> FoundArchive:
            return FoundArchive(name, (size, 0, 0, 0))

        archives = [
            found("a.warc"),
            found("b.warc"),
            found("x/a.warc"),
            found("x/b.warc"),
            found("big.warc", 1 << 30),
            found("c\nd.warc"),
            FoundArchive("pipe.warc", None),
        ]
        batches = [[each.name for each in batch] for batch in batches_of(archives)]
        self.assertEqual(batches, [["big.warc"], ["c\nd.warc"], ["pipe.warc"], ["a.warc", "b.warc"], ["x/a.warc", "x/b.warc"]])
        self.assertEqual([len(batch) for batch in batches_of([found(f"{number}.warc") for number in range(600)])], [256, 256, 88])


class Lookups(dict[str, str]):
    """Counts how often a value is looked up, and has no other use."""

    number = 0

    def get(self, key: str, default: Any = None) -> Any:
        self.number += 1
        return super().get(key, default)

    def __iter__(self) -> NoReturn:
        raise AssertionError

    items = keys = values = __iter__  # type: ignore[assignment]


class FolderTest(unittest.TestCase):
    def test_the_reason_of_a_folder_is_found_by_the_name(self) -> None:
        """As many folders are looked up as the name has, however many can't be read."""
        folders = Lookups({"a": "why", "b/c": "because", **{f"z{number}": "" for number in range(1000)}})
        found = Found([], folders, Passed())
        names = ("a/x", "a/b/x", "b/c/d/x", "b/x", "ab/x", "a", "b/cd/x")
        self.assertEqual([found.reason_for(name) for name in names], ["why", "why", "because", None, None, None, None])
        self.assertEqual(folders.number, 8)

    def test_endings(self) -> None:
        passed = Passed()
        for name in ("a.wacz", "b.WACZ", "c.warc.zst", "x.tar.gz", "y.gz", ".gz", "README", "a.2016", "a.é", "a." + "x" * 99, "a.b c"):
            passed.add(name)
        wanted = {"": 6, ".wacz": 2, ".gz": 1, ".tar.gz": 1, ".warc.zst": 1}
        self.assertEqual(passed.values(), {"endings": wanted, "links": 0, "below": 0})
        for number in range(3000):
            passed.add(f"a.x{number}")
        self.assertLessEqual(len(passed.endings), 1001)
        self.assertEqual(sum(passed.endings.values()), 3011)


class TaskTest(unittest.TestCase):
    def test_a_status_that_is_not_given_is_an_error(self) -> None:
        usual = signal.signal(signal.SIGCHLD, signal.SIG_IGN)
        self.addCleanup(signal.signal, signal.SIGCHLD, usual)
        folder = in_folder(self)
        for sample in ("damaged", "response"):
            with self.assertRaisesRegex(Failed, "status"):
                index_archives(PROGRAM, str(SAMPLES), [f"{sample}.warc"], str(folder / "new"))
        self.assertEqual(list(folder.iterdir()), [])

    def test_what_several_archives_have_is_told_apart(self) -> None:
        folder = in_folder(self)
        names = ["damaged.warc", "response.warc", "wget.warc"]
        written, indexed = index_archives(PROGRAM, str(SAMPLES), names, str(folder / "new"))
        wanted = subprocess.run(
            (PROGRAM, "index", *(SAMPLES / name for name in names)), stdout=subprocess.PIPE, stderr=subprocess.DEVNULL
        ).stdout
        self.assertEqual([path.read_bytes() for path in folder.iterdir()], [wanted])
        self.assertEqual(written[:4], (str(*folder.iterdir()), len(wanted), zlib.crc32(wanted), 36))
        self.assertEqual(
            [(name, cause, captures) for name, _, cause, captures in indexed],
            [("damaged.warc", "fault 448 ShortBlock", 2), ("response.warc", "", 1), ("wget.warc", "", 33)],
        )

    def test_what_the_program_says_needs_no_disk(self) -> None:
        folder = in_folder(self)
        with mock.patch.object(tempfile, "tempdir", os.devnull):
            _, indexed = index_archives(PROGRAM, str(SAMPLES), ["damaged.warc", "response.warc"], str(folder / "new"))
        self.assertEqual([each[2] for each in indexed], ["fault 448 ShortBlock", ""])

    def test_what_else_is_said_is_no_damage(self) -> None:
        """What starts a program may say something too, and fail with the status that the program has for a damaged archive."""
        folder = in_folder(self)
        program = folder / "program"
        for script, status in (
            (f'echo "ld.so: ignored" >&2; exec {os.path.abspath(PROGRAM)} "$@"', 0),
            ('echo "setpriv: no" >&2; exit 1', 1),
        ):
            program.write_text(f"#!/bin/sh\n{script}\n")
            program.chmod(0o755)
            for names in (["response.warc"], ["damaged.warc"], ["damaged.warc", "response.warc"]):
                new = str(folder / "new")
                if status or len(names) > 1:
                    with self.assertRaisesRegex(Failed, "setpriv: no" if status else "ld.so: ignored"):
                        index_archives(str(program), str(SAMPLES), names, new)
                else:
                    _, ((_, _, cause, _),) = index_archives(str(program), str(SAMPLES), names, new)
                    self.assertEqual("" if names == ["response.warc"] else "fault 448 ShortBlock", cause)

    def test_a_pipe_that_takes_the_place_of_an_archive(self) -> None:
        """It does so after the task has looked at the archives, and before the program opens them."""
        folder = in_folder(self)
        program = folder / "program"
        program.write_text(f'#!/bin/sh\nmkfifo pipe; mv pipe b.warc; exec {os.path.abspath(PROGRAM)} "$@"\n')
        program.chmod(0o755)
        for names in (["b.warc"], ["a.warc", "b.warc"]):
            for name in ("a.warc", "b.warc"):
                (folder / name).unlink(missing_ok=True)
                shutil.copy(SAMPLES / "response.warc", folder / name)
            with mock.patch.object(update_tasks, "_SILENCE", 0.1), self.assertRaisesRegex(Failed, "^not a regular file$"):
                index_archives(str(program), str(folder), names, str(folder / "new"))
        self.assertEqual({path.name for path in folder.iterdir()}, {"a.warc", "b.warc", "program"})

    def test_types_and_urls_may_have_quotes_and_backslashes(self) -> None:
        """A server chooses them."""
        types = ['"text/html', "a\\", '", "mime": "b', '", "status": "7', '", "filename": "c"}']
        folder = in_folder(self)
        with open(folder / "a.warc", "wb") as archive:
            for kind in types:
                block = f"HTTP/1.1 200 OK\r\nContent-Type: {kind}; q=1\r\n\r\n"
                fields = f"WARC-Type: response\r\nWARC-Record-ID: <urn:x:a>\r\nWARC-Target-URI: http://a.com/{kind}\r\nWARC-Date: 2016-01-01T00:00:00Z"
                fields += "\r\nContent-Type: application/http"
                archive.write(f"WARC/1.0\r\n{fields}\r\nContent-Length: {len(block)}\r\n\r\n{block}\r\n\r\n".encode())
        written, indexed = index_archives(PROGRAM, str(folder), ["a.warc"], str(folder / "new"))
        self.assertEqual([each[2:] for each in indexed], [("", len(types))])
        self.assertEqual(written[4]["types"], dict.fromkeys(types, 1))
        self.assertEqual(written[4]["statuses"], {"200": len(types)})

    def test_lines_have_the_path_of_their_archive(self) -> None:
        file = open(in_folder(self) / "lines", "w+b")
        self.addCleanup(file.close)
        names = ['é "/x.warc', 'é "/y.warc']
        lines = _Lines(file, names)
        lines.write((lines_of(range(2), "x.warc") + lines_of(range(1), "y.warc")).splitlines(keepends=True))
        lines.end()
        self.assertEqual(lines.captures, dict(zip(names, (2, 1))))
        self.assertEqual([json.loads(line.split(b" ", 2)[2])["filename"] for line in self.read(file)], [names[0], names[0], names[1]])
        for other in (lines_of(range(1), "z.warc"), b"com,a)/ 20160101000000 {}\n"):
            with self.assertRaises(Failed):
                lines.write([other])
                lines.end()

    def read(self, file: IO[bytes]) -> list[bytes]:
        file.seek(0)
        return file.readlines()

    def test_runs_are_filtered_and_merged(self) -> None:
        folder = in_folder(self)
        with mock.patch.object(update_tasks, "MOST_MERGED", 3):
            for number in range(10):
                (folder / str(number)).write_bytes(lines_of(range(number, number + 2), f"{number}.warc"))
            path, size, crc_32 = merge_runs(PROGRAM, str(folder), [*map(str, range(10))], str(folder / "new"))
        found = pathlib.Path(path).read_bytes()
        names = [json.loads(line.split(b" ", 2)[2])["filename"] for line in found.splitlines()]
        self.assertEqual(Counter(names), {f"{number}.warc": 2 for number in range(10)})
        self.assertEqual((size, crc_32), (len(found), zlib.crc32(found)))
        self.assertEqual({path.name for path in folder.iterdir()}, {*map(str, range(10)), os.path.basename(path)})
        (folder / "mixed").write_bytes(lines_of(range(3), "a.warc") + lines_of(range(5, 7), "b.warc"))
        path, size, crc_32, captures, counts = filter_run(str(folder), "mixed", ["a.warc"], str(folder / "only"))
        left = lines_of(range(3), "a.warc")
        self.assertEqual((left, len(left), zlib.crc32(left), 3), (pathlib.Path(path).read_bytes(), size, crc_32, captures))
        self.assertEqual(counts["hosts"], {"com,h000": 1, "com,h001": 1, "com,h002": 1})

    def test_values_are_bounded(self) -> None:
        with mock.patch.object(update_tasks, "MOST_VALUES", 100):
            lines = _Lines(open(os.devnull, "wb"))
            self.addCleanup(lines._file.close)
            for number in range(1000):
                lines.write([lines_of(range(number, number + 1), kind="x" * 300 if number % 2 else str(number))])
            *_, captures, counts = lines.end()
        self.assertEqual(captures, 1000)
        self.assertLessEqual(len(counts["hosts"]), 100)
        self.assertEqual(counts["types"]["x" * 256], 500)
        self.assertEqual(counts["statuses"], {"200": 1000})

    def test_pieces_have_whole_lines(self) -> None:
        text = b"a" * (3 << 20) + b"\nb\n\nc\n"
        pieces = list(_whole_lines(io.BytesIO(text)))
        self.assertEqual(text.splitlines(keepends=True), [line for piece in pieces for line in piece])
        self.assertEqual(list(_whole_lines(io.BytesIO(b""))), [])
        with self.assertRaises(Failed):
            list(_whole_lines(io.BytesIO(text + b"d")))

    def test_what_the_program_says(self) -> None:
        def causes(said: str, *names: str) -> Iterator[str]:
            yield from _causes_of(io.BytesIO(said.encode()), names).values()

        self.assertEqual([*causes("warcdx: ./a: b\nc.warc: fault 448 ShortBlock\n", "a: b\nc.warc")], ["fault 448 ShortBlock"])
        self.assertEqual([*causes("warcdx: ./a\n  c.warc: fault 448 ShortBlock\n  Its text.\n", "a\n  c.warc")], ["fault 448 ShortBlock"])
        self.assertEqual([*causes("warcdx-gz: ./b.gz: fault 0 BadMember\n  Its text.\n", "a.gz", "b.gz")], ["", "fault 0 BadMember"])
        self.assertEqual([*causes("warcdx: ./a.warc: cannot open\n  No such file\n", "a.warc")], ["cannot open"])
        for wanted in ("cannot open (Permission denied)", "fault 512 Read (Input/output error)"):
            line, _, reason = wanted.partition(" (")
            text = f"warcdx: ./a\n  c.warc: {line}\n  {reason[:-1]} (os error 5)\n"
            self.assertEqual([*causes(text, "a\n  c.warc")], [wanted])
            self.assertTrue(Report("a.warc", Action.LEFT_OUT, FAILED, wanted, 0, 0).is_lasting)
        self.assertEqual(
            damage_of("a", "fault 512 Read (Is a directory)"), {"archive": "a", "offset": 512, "cause": "Read (Is a directory)"}
        )
        self.assertEqual([*causes("warcdx: Memory\n", "a.warc")], [""])
        with self.assertRaises(Failed):
            [*causes("warcdx: Memory\n", "a.warc", "b.warc")]
        for offset, known in (("9" * 19, int("9" * 19)), ("9" * 5000, None)):
            self.assertEqual(damage_of("a", f"fault {offset} Version")["offset"], known)

    def test_the_hosts_of_keys(self) -> None:
        hosts = {
            b"com,example)/": "example.com",
            b"com,example:8080)/a)/b": "example.com:8080",
            b"192.0.2.7)/x": "192.0.2.7",
            b"[2001:db8::1]:8080)/": "[2001:db8::1]:8080",
            b"dns:example.com": "dns:",
            b"dns:example.com)": "dns:",
            b"urn:x:a)b)/": "urn:",
            b"not%20a%20url": "not%20a%20url:",
            b"": ":",
        }
        for key, host in hosts.items():
            self.assertEqual(host_of(f"{host_key_of(key).decode()})/"), host)


class ThreadsTest(unittest.TestCase):
    """A signal may come while a thread starts: before its first step, or when its task has begun."""

    def test_a_setpriv_without_the_option_is_not_run(self) -> None:
        folder = in_folder(self)
        for script, front in (("exit 1", ()), ('shift 2; exec "$@"', ("setpriv", "--pdeathsig", "KILL"))):
            (folder / "setpriv").write_text(f"#!/bin/sh\n{script}\n")
            (folder / "setpriv").chmod(0o755)
            with mock.patch.dict(os.environ, {"PATH": f"{folder}:{os.environ['PATH']}"}):
                self.assertEqual(Threads(1)._front, front)

    def test_no_task_goes_on_after_a_signal(self) -> None:
        def end(number: int, frame: object) -> None:
            signal.signal(number, signal.SIG_IGN)
            raise Ended(number)

        self.addCleanup(signal.signal, signal.SIGTERM, signal.getsignal(signal.SIGTERM))
        start = threading.Thread.start
        for before, after, later in ((0.1, 0.0, 0.0), (0.0, 0.0, 0.0), (0.0, 0.1, 0.0), (0.0, 0.1, 0.1)):
            done = list[str]()

            def task(start: object) -> None:
                done.append("begun")
                time.sleep(0.2)
                done.append("ended")

            def start_and_end(thread: threading.Thread) -> None:
                run = thread.run

                def run_later() -> None:
                    time.sleep(before)
                    run()

                setattr(thread, "run", run_later)
                start(thread)
                time.sleep(after)
                os.kill(os.getpid(), signal.SIGTERM)
                time.sleep(later)  # the thread has taken the signal, and isn't noted yet

            with mock.patch.object(threading.Thread, "start", start_and_end), self.assertRaises(Ended):
                with Threads(2) as workers:
                    signal.signal(signal.SIGTERM, end)
                    list(workers.run(task, [(), ()]))
            at_the_end = list(done)
            time.sleep(0.5)
            self.assertEqual(at_the_end, done, (before, after, later))
            self.assertEqual(done.count("begun"), done.count("ended"), (before, after, later))


if __name__ == "__main__":
    unittest.main()
