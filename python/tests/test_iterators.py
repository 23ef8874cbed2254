"""Iterators whose program is ended, that are interrupted, or whose index is closed: none of them seems to be at its end."""
import contextlib
import gc
import os
import threading
import time
import unittest
from collections.abc import Iterator
from typing import Any

from warcdx import Archive, Collection, Error, Index, ProgramEnded, ReplyTooLate, faults, open_archive, refusals
from warcdx.iterators import Again

from .support import ALL, PROGRAM, SAMPLES, WAIT, Case, children_of, lines, processes_of, resource

KILLED = '[ "$1" = %s ] || exec "%s" "$@"\n%s\nkill -9 $$'
LONG = 3000  # captures of which a page isn't written at once


class Ended(Case):
    def expect_again(self, items: Iterator[Any], kind: type[BaseException], said: str) -> None:
        """Expects that an iterator ends by this error, and raises it again each time."""
        with self.assertRaises(kind):
            for _ in items:
                pass
        for _ in range(3):
            self.assertIn(said, str(self.raises(kind, next, items)))
        self.raises(kind, list, items)

    def test_queries_whose_program_is_killed(self) -> None:
        page = """read query\nprintf '[["offset"],\\n["1"],\\n["2'"""
        index = self.open(self.put(lines(3)), program=self.script(KILLED % ("serve", PROGRAM, page)))
        for items in (index.captures(), index.pages(), index.rows("offset"), iter(index), index.stream(ALL)):
            self.expect_again(items, ProgramEnded, "warcdx has ended with signal 9")

    def test_an_archive_whose_program_is_killed(self) -> None:
        for name, text in (("list", "0 264 response"), ("verify", "0 same")):
            archive = Archive(SAMPLES / "wget.warc", program=self.script(KILLED % (name, PROGRAM, f"echo {text}")))
            self.expect_again(getattr(archive, name)(), ProgramEnded, "ended with signal 9")
        odd = self.folder / "odd.warc"
        odd.write_bytes(resource(0).replace(b"plain", b"\r\n plain") + resource(1))
        archive = Archive(odd, program=self.script(KILLED % ("list", PROGRAM, "")))
        for items in (iter(archive), archive.streams()):
            self.expect_again(items, ProgramEnded, "ended with signal 9")

    def test_other_errors(self) -> None:
        index = self.open(self.put(lines(3)))
        self.expect_again(index.captures(match="x"), refusals.BadMatch, "BadMatch in 'matchType'")
        self.expect_again(iter(Archive(SAMPLES / "damaged.warc", program=PROGRAM)), faults.ShortBlock, "ShortBlock at 448")
        slow = self.open(
            self.put(lines(3)), program=self.script(f'[ "$1" = serve ] || exec "{PROGRAM}" "$@"\ncat > /dev/null'), seconds=0.05
        )
        self.expect_again(slow.captures(), ReplyTooLate, "the reply took too long")
        with Archive(SAMPLES / "wget.warc", program=PROGRAM).stream(11387) as stream:
            body = stream.payload()
            self.assertEqual([b"gone\n"], list(body))
            self.assertEqual([], list(body))

    def test_records_go_on_behind_one_that_can_not_be_read(self) -> None:
        text = b"".join(map(resource, range(3)))
        (self.folder / "a.warc").write_bytes(text)
        with open(self.folder / "index", "wb") as output:
            Archive(self.folder / "a.warc", program=PROGRAM).index(output)
        (self.folder / "a.warc").write_bytes(text.replace(b"example.com/1", b"example.org/1"))
        with Collection(self.folder / "index", self.folder, program=PROGRAM) as collection:
            records = collection.records()
            next(records)
            self.raises(faults.OtherRecord, next, records)
            self.assertEqual(["http://example.com/2"], [record.url for record in records])

    def test_an_interrupted_iterator_is_not_at_its_end(self) -> None:
        index = self.open(self.put(lines(3)), seconds=WAIT)

        def items() -> Iterator[int]:
            yield 1
            raise KeyboardInterrupt

        interrupted = Again(items())  # type: ignore[arg-type]
        self.assertEqual(1, next(interrupted))
        self.assertRaises(KeyboardInterrupt, next, interrupted)
        self.assertIn("KeyboardInterrupt has ended the iteration", str(self.raises(Error, next, interrupted)))
        self.assertEqual(3, index.count())

    def test_an_error_that_is_raised_again_keeps_no_index(self) -> None:
        index = self.open(self.put(lines(3)))
        items = index.captures(match="x")
        self.raises(refusals.BadMatch, next, items)
        gc.disable()
        self.addCleanup(gc.enable)
        before = len(gc.get_referrers(index))
        del items
        self.assertLessEqual(len(gc.get_referrers(index)), before)

    def test_an_iterator_that_another_thread_advances_goes_on(self) -> None:
        begun, go = threading.Event(), threading.Event()

        def items() -> Iterator[int]:
            begun.set()
            go.wait(WAIT)
            yield 1
            yield 2

        shared, found = Again(items()), list[int]()  # type: ignore[arg-type]
        thread = threading.Thread(target=lambda: found.append(next(shared)))
        thread.start()
        begun.wait(WAIT)
        self.raises(ValueError, next, shared)
        go.set()
        thread.join()
        self.assertEqual(([1], 2), (found, next(shared)))


class Closed(Case):
    def test_an_index_closes_beside_streams_that_are_half_read(self) -> None:
        path = self.put(lines(LONG))
        for processes in (1, 3):
            index = Index(path, program=PROGRAM, processes=processes)
            streams = [index.stream(ALL) for _ in range(processes)]
            for stream in streams:
                next(stream)
            captures = index.stream(ALL)
            self.expect_closed(index)
            for stream in (*streams, captures):
                for _ in range(2):
                    self.assertEqual("the Index is closed", str(self.raises(ValueError, next, stream)))

    def expect_closed(self, index: "Index | Collection") -> None:
        """Expects that an index is closed at once, and leaves no program."""
        start = time.monotonic()
        closing = threading.Thread(target=index.close, daemon=True)
        index.close() if isinstance(index, Collection) else closing.start() or closing.join(WAIT)
        self.assertFalse(closing.is_alive())
        self.assertLess(time.monotonic() - start, WAIT / 2)
        self.assertEqual([], children_of(os.getpid()))

    def test_a_collection_closes_beside_a_stream_of_the_same_thread(self) -> None:
        with Collection(self.put(lines(LONG)), self.folder, program=PROGRAM) as collection:
            captures = collection.captures(page_size=10)
            next(captures)
            stream = collection.index.stream(ALL)
            next(stream)
            self.expect_closed(collection)
        self.raises(ValueError, next, stream)
        self.assertEqual("the Index is closed", str(self.raises(ValueError, list, captures)))

    def test_queries_are_answered_beside_streams_that_are_half_read(self) -> None:
        for processes in (1, 2):
            index = self.open(self.put(lines(LONG)), processes=processes)
            streams = [index.stream(ALL) for _ in range(3)]
            begun = [next(stream) for stream in streams]
            self.assertEqual((LONG, 1), (index.count(), len(list(index.captures(limit=1)))))
            for first, stream in zip(begun, streams):
                self.assertEqual(LONG, (first + b"".join(stream)).count(b"\n"))
            self.assertEqual(processes, len(processes_of(index)))

    def test_a_stream_that_was_read_or_closed_is_no_hindrance(self) -> None:
        index = Index(self.put(lines(LONG)), program=PROGRAM)
        whole, left = index.stream(ALL), index.stream(ALL)
        self.assertEqual(LONG, b"".join(whole).count(b"\n"))
        next(left)
        left.close()  # type: ignore[attr-defined]
        self.assertEqual(LONG, index.count())
        index.close()
        for stream in (whole, left):
            self.assertEqual([], list(stream))

    def test_a_piece_that_another_thread_waits_for_is_waited_for(self) -> None:
        text = f'[ "$1" = serve ] || exec "{PROGRAM}" "$@"\nread query\nread end\nhead -c 70000 /dev/zero; touch "$0.begun"; sleep 0.3; exec cat /dev/zero'
        program = self.script(text)
        index = Index(self.put(lines(3)), program=program)
        stream, found = index.stream(ALL), list[Any]()

        def read() -> None:
            with contextlib.suppress(ValueError):
                for piece in stream:
                    found.append(piece)
            found.append(None)

        thread = threading.Thread(target=read)
        thread.start()
        self.wait_for(lambda: os.path.exists(f"{program}.begun"))
        index.close()
        thread.join(WAIT)
        self.assertIsNone(found[-1])
        self.raises(ValueError, next, stream)


class Replaced(Case):
    def test_an_archive_that_is_replaced_while_it_is_read(self) -> None:
        """Each record behind the odd one has the place of another one of the new file."""
        odd = resource(0).replace(b"plain", b"\r\n plain")
        path, other = self.folder / "a.warc", self.folder / "other"
        for call in (iter, Archive.streams):
            path.write_bytes(resource(1) + odd + b"".join(map(resource, range(2, 9))))
            other.write_bytes(resource(9) + odd.replace(b"block", b"other") + resource(9, b"other") * 7)
            records = call(open_archive(path, program=PROGRAM))  # type: ignore[operator]
            next(records)
            os.replace(other, path)
            fault = self.raises(faults.Read, list, records)
            self.assertIn("another file has taken its place while it was read", str(fault))

    def test_an_archive_that_is_written_on_is_read_on(self) -> None:
        path = self.folder / "a.warc"
        path.write_bytes(resource(0).replace(b"plain", b"\r\n plain") + resource(1))
        streams = open_archive(path, program=PROGRAM).streams()
        next(streams)
        with open(path, "ab") as file:
            file.write(resource(2))
        self.assertIn(len(list(streams)), (1, 2))


if __name__ == "__main__":
    unittest.main()
