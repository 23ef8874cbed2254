"""Records and members that are very long."""
import os
import pathlib
import tracemalloc
import unittest
import unittest.mock

from . import browse_support as support
from .browse_support import MEGABYTE, Archives, bomb, page, record, response, text_of
from .costs import own_time

from warcdx_gateway.browse import reading

HOME = "http://example.com/"


class LongRecords(support.Pages):
    """Records and members that are very long."""

    def fill(self, archives: Archives) -> None:
        size = 3 << 30
        path = archives.archives / "long.warc"
        head = record("resource", HOME, "2016-03-03T00:00:02Z", b"", "text/plain", ["WARC-Block-Digest: sha1:" + "A" * 32])
        with open(path, "wb") as file:
            file.write(head[:-4].replace(b"Content-Length: 0", b"Content-Length: %d" % size))
            file.truncate(file.tell() + size)
            file.seek(0, 2)
            file.write(b"\r\n\r\n")
        start = record("resource", HOME, "2016-03-03T00:00:00Z", bytes(100), "text/plain")[:-4]
        (archives.archives / "bomb.warc.gz").write_bytes(bomb(start.replace(b": 100", b": %d" % size)))
        small = response(HOME, "2016-03-03T00:00:01Z", page("small"))
        (archives.archives / "two.warc.gz").write_bytes(bomb(small + start.replace(b": 100", b": %d" % (16 << 30))))
        lengths = {"bomb.warc.gz": "-", "two.warc.gz": "-", "long.warc": str(path.stat().st_size)}
        lines = (
            archives.line(HOME, f"2016030300000{number}", name, 0, length=length) for number, (name, length) in enumerate(lengths.items())
        )
        archives.put("index", b"".join(lines))

    def test_their_pages_take_bounded_time_and_memory(self) -> None:
        tracemalloc.start()
        self.addCleanup(tracemalloc.stop)
        for name in ("long.warc", "bomb.warc.gz"):
            start = own_time()
            text = text_of(self.get("record", **self.place_at(name, 0)))
            self.assertIn("Not compared: the block has more than 268,435,456 bytes", text)
            self.assertIn("The payload has more than 4,194,304 bytes.", text)
            answer = self.ask("payload", **self.place_at(name, 0))
            self.assertEqual(4 * MEGABYTE, len(answer.data))
            self.assertLess(own_time() - start, 20)
        self.assertLess(tracemalloc.get_traced_memory()[1], 40 * MEGABYTE)

    def test_a_member_of_several_records_has_no_page(self) -> None:
        place = self.place_at("two.warc.gz", 0)
        for name, more in (("record", {}), ("payload", {}), ("download", {"what": "record"}), ("download", {"what": "payload"})):
            text = text_of(self.get(name, 502, **more, **place))
            self.assertIn("The archive is damaged at byte 0: SeveralRecords.", text)

    def test_what_follows_a_record_in_its_member_takes_bounded_time(self) -> None:
        self.get("captures", url=HOME)
        with unittest.mock.patch.object(reading, "SILENCE", 0.05):
            before, start = programs(), own_time()
            text = text_of(self.get("record", 502, **self.place_at("two.warc.gz", 0)))
            self.assertIn("The program has written nothing for 0.05 seconds.", text)
            self.assertEqual(before, programs())
            self.assertLess(own_time() - start, 0.5)

    def test_nothing_is_left_of_what_a_client_leaves(self) -> None:
        place = self.place_at("long.warc", 0)
        raw = f"/crawl/20160303000002id_/{HOME}"
        for ask in (
            lambda: self.ask("download", what="payload", **place),
            lambda: self.ask("download", what="record", **place),
            lambda: self.client.get(raw),
            lambda: self.client.head(raw),
        ):
            self.get("captures", url=HOME)
            before = programs()
            for _ in range(6):  # more than there are slots
                answer = ask()
                self.assertEqual(200, answer.status_code)
                next(iter(answer.iter_encoded()), b"")
                answer.close()
            self.assertEqual(before, programs())

    def test_a_download_takes_bounded_memory(self) -> None:
        tracemalloc.start()
        self.addCleanup(tracemalloc.stop)
        answer = self.ask("download", what="payload", **self.place_at("long.warc", 0))
        taken = 0
        for piece in answer.iter_encoded():
            taken += len(piece)
            if taken > 32 * MEGABYTE:
                break
        answer.close()
        self.assertLess(tracemalloc.get_traced_memory()[1], 20 * MEGABYTE)


def programs() -> int:
    """Returns how many programs of this process run."""
    return len(pathlib.Path(f"/proc/self/task/{os.getpid()}/children").read_text().split())


if __name__ == "__main__":
    unittest.main()
