"""Tests of the folder of an index: its database, its runs and states, and what readers see of it."""
import contextlib
import json
import os
import pathlib
import resource
import shutil
import signal
import sqlite3
import stat
import tempfile
import unittest
import zlib
from collections import Counter

from warcdx import Fault, Index, faults
from warcdx.states import runs_of
from warcdx.update_outputs import Single
from warcdx.update_store import Store
from warcdx.update_tables import CannotUpdate, Merged, Settings, text_of

from .support import PROGRAM, processes_of

LINE = 'com,h%03d)/ 20160101000000 {"url": "http://h%03d.com/", "mime": "%s", "status": "200", "digest": "-", "length": "1", "offset": "%d", "filename": "%s"}\n'


def in_folder(case: unittest.TestCase) -> pathlib.Path:
    folder = tempfile.TemporaryDirectory()
    case.addCleanup(folder.cleanup)
    return pathlib.Path(folder.name)


def lines_of(numbers: range, name: str = "a.warc", kind: str = "text/html") -> bytes:
    return "".join(LINE % (number, number, kind, number, name) for number in numbers).encode()


class StoreTest(unittest.TestCase):
    """Runs are added, become others and leave, each time in one transaction, and readers see states."""

    settings = Settings("/data", False, "response")

    def setUp(self) -> None:
        self.folder = in_folder(self) / "all.d"
        self.store = Store(str(self.folder))

    def add(self, name: str, numbers: range) -> int:
        """Adds an archive with a line of each number."""
        (number,) = self.store.reserve(1)
        text = lines_of(numbers, name)
        path = f"{self.store.new(number)}-0"
        pathlib.Path(path).write_bytes(text)
        counts = {"hosts": Counter({f"h{each}.com": 1 for each in numbers}), "years": Counter({"2016": len(numbers)})}
        self.store.add(number, (path, len(text), zlib.crc32(text), len(numbers), counts), [(name, (1, 2, 3, 4), "", len(numbers))])
        return number

    def texts(self) -> list[bytes]:
        return [pathlib.Path(path).read_bytes() for path in runs_of(self.folder)]

    def test_a_state_has_what_was_added_before_it(self) -> None:
        with self.store.locked(self.settings):
            self.add("a.warc", range(3))
            with self.assertRaises(faults.CannotOpen):
                runs_of(self.folder)
            self.store.publish(None, [], {"archives": 1})
            self.assertEqual(self.texts(), [lines_of(range(3), "a.warc")])
            self.add("b.warc", range(2))
            self.assertEqual(self.texts(), [lines_of(range(3), "a.warc")])
            self.store.publish(None, [], {"archives": 2})
        self.assertEqual(self.texts(), [lines_of(range(2), "b.warc"), lines_of(range(3), "a.warc")])
        summary = json.loads((self.folder / "current/summary.json").read_text())
        self.assertEqual((summary["captures"], summary["archives"], summary["years"]), (5, 2, {"2016": 5}))
        self.assertEqual(summary["hosts"], {"h0.com": 2, "h1.com": 2, "h2.com": 1})
        self.assertEqual(summary["others"], {"hosts": 0, "years": 0, "types": 5, "statuses": 5})

    def test_a_run_is_there_until_the_second_state_without_it(self) -> None:
        with self.store.locked(self.settings):
            self.add("a.warc", range(3))
            self.store.publish(None, [], {})
            before = runs_of(self.folder)
            self.merge()
            self.store.clear()
            self.assertTrue(all(map(os.path.exists, before)))
            self.assertEqual(self.texts(), [lines_of(range(3), "a.warc")])
            self.store.publish(None, [], {"gone": 1})
            self.store.clear()
            self.assertFalse(any(map(os.path.exists, before)))
            self.assertEqual(sorted(os.listdir(self.folder / "states")), ["2", "3"])

    def test_an_open_reader_stays_with_its_state(self) -> None:
        """Its program is first started, and started again, when no run of the state has its name any more."""
        files = os.listdir("/proc/self/fd")
        with self.store.locked(self.settings):
            self.add("a.warc", range(3))
            self.add("b.warc", range(3, 7))
            self.store.publish(None, [], {})
            index, unclosed = Index(self.folder, program=PROGRAM), Index(self.folder, program=PROGRAM)
            before = runs_of(self.folder)
            self.merge()
            self.add("c.warc", range(2))
            self.store.publish(None, [], {})
            self.store.clear()
        self.assertFalse(any(map(os.path.exists, before)))
        self.assertEqual((index.count(), unclosed.count()), (7, 7))
        os.kill(*processes_of(index), signal.SIGKILL)
        self.assertEqual(index.count(), 7)
        self.assertIn("000001.cdxj", repr(index))
        with Index(self.folder, program=PROGRAM) as opened_anew:
            self.assertEqual(opened_anew.count(), 9)
        index.close()
        del unclosed
        self.assertEqual(os.listdir("/proc/self/fd"), files)

    def test_faults_of_runs_have_their_paths(self) -> None:
        with self.store.locked(self.settings):
            self.add("a.warc", range(3))
            self.store.publish(None, [], {})
        (run,) = runs_of(self.folder)
        with Index(self.folder, program=PROGRAM) as index:
            pathlib.Path(run).write_text("no line of an index\n")
            with self.assertRaises(Fault) as caught:
                index.count()
        self.assertEqual(caught.exception.file, run)

    def merge(self, size: int = 0) -> None:
        """Makes one run of all."""
        runs, (number,) = self.store.runs(), self.store.reserve(1)
        text = b"".join((self.folder / "runs" / run.file).read_bytes() for run in runs)
        path = f"{self.store.new(number)}-0"
        pathlib.Path(path).write_bytes(text)
        self.store.publish(Merged(number, path, size or len(text), zlib.crc32(text), runs), [], {})

    def test_a_run_that_has_not_all_captures_of_others_is_refused(self) -> None:
        with self.store.locked(self.settings):
            self.add("a.warc", range(3))
            self.add("b.warc", range(4))
            self.store.publish(None, [], {})
            with self.assertRaises(CannotUpdate):
                self.merge(size=77)
            self.store.forget(["a.warc"])
            with self.assertRaises(CannotUpdate):
                self.merge()
            self.assertEqual(self.store.noted.state, 1)
        self.assertEqual(self.texts(), [lines_of(range(3), "a.warc"), lines_of(range(4), "b.warc")])

    def test_a_run_is_written_anew_without_archives_that_have_left(self) -> None:
        with self.store.locked(self.settings):
            self.add("a.warc", range(3))
            self.store.publish(None, [], {})
            (run,), (number,) = self.store.runs(), self.store.reserve(1)
            path, text = pathlib.Path(f"{self.store.new(number)}-0"), lines_of(range(3), "a.warc")
            path.write_bytes(text)
            written = str(path), len(text), zlib.crc32(text), 3, {"years": Counter({"2016": 3})}
            with self.assertRaises(CannotUpdate):
                self.store.replace(run._replace(left=2), number, written)
            self.store.replace(run, number, written)
            self.assertEqual([(1, 0), (2, 3)], sorted((each.number, each.left) for each in self.store.runs()))
            self.assertEqual([self.folder / "runs/000001.cdxj"], list(map(pathlib.Path, runs_of(self.folder))))
            self.store.publish(None, [each for each in self.store.runs() if not each.left], {})
        self.assertEqual([self.folder / "runs/000002.cdxj"], list(map(pathlib.Path, runs_of(self.folder))))

    def test_a_second_process_is_locked_out(self) -> None:
        with self.store.locked(self.settings):
            with self.assertRaisesRegex(CannotUpdate, "another process"), Store(str(self.folder)).locked(self.settings):
                self.fail("not locked")

    def test_two_first_runs_at_once(self) -> None:
        """The second one sees no folder, and comes when the first one has made it, or is done."""
        runs = contextlib.ExitStack()

        def begin() -> None:
            runs.enter_context(self.store.locked(self.settings))

        def work() -> None:
            with self.store.locked(self.settings):
                self.add("a.warc", range(3))
                self.store.publish(None, [], {})

        class Second(Store):
            def is_made(self) -> bool:
                is_made = super().is_made()
                before()
                return is_made

        second = Second(str(self.folder))
        with runs:
            before = begin
            with self.assertRaisesRegex(CannotUpdate, "another process"), second.locked(self.settings):
                self.fail("not locked")
            self.add("b.warc", range(2))
            self.store.publish(None, [], {})
        self.assertEqual(self.texts(), [lines_of(range(2), "b.warc")])
        shutil.rmtree(self.folder)
        before = work
        with second.locked(self.settings):
            self.assertEqual(list(second.archives()), ["a.warc"])

    def test_a_first_run_that_fails_leaves_nothing_but_a_folder_that_was_there(self) -> None:
        for is_there in (False, True):
            if is_there:
                self.folder.mkdir()
                self.folder.chmod(0o750)
            with self.subTest(is_there=is_there), self.assertRaises(CannotUpdate), self.store.locked(self.settings):
                raise CannotUpdate
            self.assertEqual(list(self.folder.parent.rglob("*")), [self.folder] * is_there)
        self.assertEqual(stat.S_IMODE(self.folder.stat().st_mode), 0o750)

    def test_a_first_run_on_a_full_disk_leaves_nothing_but_a_folder_that_was_there(self) -> None:
        usual = resource.getrlimit(resource.RLIMIT_FSIZE)
        self.addCleanup(resource.setrlimit, resource.RLIMIT_FSIZE, usual)
        for size in (0, 1000, 5000, 20_000):
            for is_there in (False, True):
                self.folder.mkdir() if is_there else None
                resource.setrlimit(resource.RLIMIT_FSIZE, (size, usual[1]))
                with self.subTest(size=size), self.assertRaises((OSError, CannotUpdate)), self.store.locked(self.settings):
                    self.fail("made")
                resource.setrlimit(resource.RLIMIT_FSIZE, usual)
                self.assertEqual(list(self.folder.parent.rglob("*")), [self.folder] * is_there)
                self.folder.rmdir() if is_there else None

    def test_an_empty_database_that_another_process_has_is_left(self) -> None:
        self.folder.mkdir()
        with contextlib.closing(sqlite3.connect(self.folder / "state.db", isolation_level=None)) as other:
            other.execute("BEGIN EXCLUSIVE")
            with self.assertRaisesRegex(CannotUpdate, "another process"), self.store.locked(self.settings):
                self.fail("not locked")
            self.assertEqual((self.folder / "state.db").stat().st_size, 0)

    def test_what_an_ended_run_has_left_is_removed(self) -> None:
        """It is what has a number that was given, and that the database doesn't have. A state that wasn't made is made."""
        with self.store.locked(self.settings):
            self.add("a.warc", range(3))
            self.store.publish(None, [], {})
            given = self.store.reserve(2)
            left = [
                self.folder / "runs" / f"{number:06}.{ending}"
                for number in given
                for ending in ("cdxj", "new-0123456789abcdef", "new-fedcba9876543210")
            ]
            others = [
                self.folder / "runs" / name
                for name in (f"{given[-1] + 1:06}.new-0123456789abcdef", "notes", "000001.new", "000001.new-3", "000001")
            ]
        for path in (*left, *others):
            path.touch()
        (self.folder / "current").unlink()
        with self.store.locked(self.settings):
            self.assertEqual(self.texts(), [lines_of(range(3), "a.warc")])
        self.assertEqual([path.exists() for path in (*left, *others)], [False] * len(left) + [True] * len(others))

    def test_files_of_others_that_are_named_like_runs_stay(self) -> None:
        with self.store.locked(self.settings):
            self.add("a.warc", range(3))
            self.store.publish(None, [], {})
        first, next_one = self.folder / "runs/000000.cdxj", self.folder / "runs/000002.cdxj"
        first.write_bytes(b"mine")
        with self.store.locked(self.settings):
            pass
        next_one.write_bytes(b"mine")
        with self.assertRaises(CannotUpdate), self.store.locked(self.settings):
            self.add("b.warc", range(2))
        self.assertEqual([first.read_bytes(), next_one.read_bytes()], [b"mine"] * 2)

    def test_links_to_folders_of_others_are_not_followed(self) -> None:
        for name in ("runs", "states", "states/0", "states/2"):
            with self.subTest(name=name):
                self.setUp()
                with self.store.locked(self.settings):
                    self.add("a.warc", range(3))
                    self.store.publish(None, [], {})
                other, link = in_folder(self), self.folder / name
                left = [
                    other / each for each in ("manifest.json", "summary.json", "000000.cdxj", "000001.cdxj", "000001.new-0123456789abcdef")
                ]
                for path in left:
                    path.touch()
                if link.exists():
                    link.rename(self.folder / "old")
                link.symlink_to(other)
                with contextlib.suppress(OSError), self.store.locked(self.settings):
                    self.add("b.warc", range(2))
                    self.store.publish(None, [], {})
                self.assertEqual(sorted(other.iterdir()), sorted(left))

    def test_a_first_run_that_fails_after_its_state_keeps_the_folders(self) -> None:
        with self.assertRaises(OSError), self.store.locked(self.settings):
            self.store.publish(None, [], {})
            raise OSError("as of standard output")
        self.assertEqual(["current", "runs", "state.db", "states"], sorted(os.listdir(self.folder)))

    def test_a_file_that_has_the_name_of_a_state_is_left(self) -> None:
        with self.store.locked(self.settings):
            for number in range(3):
                self.store.publish(None, [], {"gone": number})
            (self.folder / "states/0").write_text("mine")
        self.assertEqual("mine", (self.folder / "states/0").read_text())

    def test_a_state_that_was_changed_is_made_anew(self) -> None:
        with self.store.locked(self.settings):
            self.add("a.warc", range(3))
            self.store.publish(None, [], {"archives": 1})
        state = self.folder / "states/1"
        for name in ("manifest.json", "summary.json", "000001.cdxj"):
            (state / name).unlink()
            with self.store.locked(self.settings):
                pass
            self.assertEqual(self.texts(), [lines_of(range(3), "a.warc")])
            self.assertEqual(json.loads((state / "summary.json").read_text())["archives"], 1)
        (state / "manifest.json").write_text("{}")
        (state / "000001.cdxj").unlink()
        (state / "000001.cdxj").touch()
        with self.assertRaises(FileExistsError), self.store.locked(self.settings):
            self.fail("the run of another is in the state")

    def test_a_folder_whose_path_is_not_utf_8_is_known_again(self) -> None:
        """An argument that isn't UTF-8 is refused before; this is where a link or `.` leads."""
        settings = Settings("/\udcff", False, "response")
        store = Store(str(self.folder.parent / "other.d"))
        for _ in range(2):
            with store.locked(settings):
                pass
        with self.assertRaises(CannotUpdate), store.locked(settings._replace(folder="/\udcfe")):
            self.fail("it is the index of another folder")

    def test_times_that_the_database_does_not_have_are_taken(self) -> None:
        single = Single(self.store, str(self.folder.parent / "all.cdxj"))
        pathlib.Path(single.path).touch()
        os.utime(single.path, (13e9, 13e9))
        with self.assertRaises(CannotUpdate), self.store.opened(self.settings):
            single.state()

    def test_an_index_without_captures_is_an_empty_run(self) -> None:
        with self.store.locked(self.settings):
            self.add("a.warc", range(0))
            self.store.publish(None, [], {})
        self.assertEqual(self.texts(), [b""])
        with Index(self.folder, program=PROGRAM) as index:
            self.assertEqual(list(index), [])

    def test_values_that_others_have_written_are_errors(self) -> None:
        with self.store.locked(self.settings):
            self.add("a.warc", range(3))
        with sqlite3.connect(self.folder / "state.db") as database:
            database.execute("DROP TABLE archives")
        with self.assertRaises(CannotUpdate), self.store.locked(self.settings):
            self.store.archives()

    def test_texts_that_are_not_utf_8_are_those_of_others(self) -> None:
        with self.store.locked(self.settings):
            self.add("a.warc", range(3))
        with contextlib.closing(sqlite3.connect(self.folder / "state.db")) as database, database:
            database.execute("UPDATE archives SET name = CAST(x'ff' AS TEXT)")
        with self.assertRaisesRegex(CannotUpdate, "isn't as warcdx-update has written it"), self.store.locked(self.settings):
            self.store.archives()

    def test_names_that_are_not_utf_8_are_texts(self) -> None:
        self.assertEqual(text_of("\udcff.warc"), "\\udcff.warc")
        with self.store.locked(self.settings):
            self.store.remember({text_of("\udcff.warc"): "the name isn't UTF-8"})
            self.assertEqual(self.store.faults(), {"\\udcff.warc": "the name isn't UTF-8"})


class ReaderTest(unittest.TestCase):
    def test_a_folder_that_is_no_index_cannot_be_opened(self) -> None:
        folder = in_folder(self)
        with self.assertRaises(faults.CannotOpen):
            Index(folder, program=PROGRAM)
        state = folder / "states/1"
        state.mkdir(parents=True)
        (folder / "current").symlink_to("states/1")
        for text in (
            "",
            "[]",
            "{",
            '{"form": 1}',
            '{"form": 2, "runs": [{"file": "a"}]}',
            '{"form": 1, "runs": []}',
            '{"form": 1, "runs": [7]}',
            "[" * 9999,
        ):
            (state / "manifest.json").write_text(text)
            with self.subTest(text=text[:40]), self.assertRaises(faults.CannotOpen):
                Index(folder, program=PROGRAM)
        (state / "manifest.json").write_text('{"form": 1, "runs": [{"file": "a"}]}')
        with self.assertRaises(faults.CannotOpen):
            Index(folder, program=PROGRAM)
        (state / "a").write_bytes(lines_of(range(1)))
        with Index([folder, state / "a"], program=PROGRAM) as index:
            self.assertEqual([capture.filename for capture in index], ["a.warc"])
        (state / "manifest.json").unlink()
        os.mkfifo(state / "manifest.json")  # which nobody writes, so that to open it would wait
        with self.assertRaises(faults.CannotOpen):
            Index(folder, program=PROGRAM)


if __name__ == "__main__":
    unittest.main()
