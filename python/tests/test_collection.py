"""From a capture to its record."""
import gzip
import unittest
from typing import Union

from warcdx import Archive, Capture, Collection, CompressedArchive, NoArchive, Record, faults, open_archive, payload

from .support import ALL, LINE, PROGRAM, SAMPLES, Case

SAMPLE = SAMPLES / "wget.warc"
ROW = ("com,example)/", "20160101000000", "http://example.com/", "text/html", "200", "-", "1", "0", "a.warc")


def resource(block: bytes) -> bytes:
    head = (
        "WARC/1.1\r\nWARC-Type: resource\r\nWARC-Record-ID: <urn:x>\r\nWARC-Date: 2016-01-01T00:00:00Z\r\n"
        f"WARC-Target-URI: http://example.com/\r\nContent-Length: {len(block)}\r\n\r\n"
    )
    return head.encode() + block + b"\r\n\r\n"


class Collections(Case):
    def capture(self, offset: int, length: Union[int, str], name: str = "a.warc") -> Capture:
        return Capture.of((*ROW[:6], str(length), str(offset), name))

    def collection(self, archives: object = None) -> Collection:
        """Returns a collection without captures."""
        found = Collection(self.put(""), archives or self.folder, program=PROGRAM)  # type: ignore[arg-type]
        self.addCleanup(found.close)
        return found

    def test_the_record_of_each_capture(self) -> None:
        plain, packed = self.folder / "plain", self.folder / "packed"
        text = SAMPLE.read_bytes()
        records = [text[each.offset : each.offset + each.length] for each in Archive(SAMPLE, program=PROGRAM).list()]
        for folder, archive in ((plain, text), (packed, b"".join(gzip.compress(each, mtime=0) for each in records))):
            folder.mkdir()
            (folder / "wget.warc").write_bytes(archive)
        found = []
        for folder in (plain, packed):
            with open(self.folder / "index", "wb") as output:
                open_archive(folder / "wget.warc", program=PROGRAM).index(output)
            with Collection(self.folder / "index", folder, program=PROGRAM) as collection:
                found.append([collection.record(capture) for capture in collection.index.captures(ALL)])
                for capture, record in zip(collection.index.captures(ALL), found[-1]):
                    self.assertEqual(capture.original, (record.field("WARC-Target-URI") or "").strip("<>"))
                    with collection.stream(capture) as stream:
                        self.assertEqual(record.block, b"".join(stream.block()))
        self.assertEqual(33, len(found[0]))
        plain_records, packed_records = (sorted(records, key=lambda each: (each.fields, each.block)) for records in found)
        self.assertEqual(plain_records, packed_records)

    def test_links_lead_where_they_may(self) -> None:
        for name in ("archives", "archives/below", "disk", "other"):
            (self.folder / name).mkdir()
            (self.folder / name / "a.warc").write_bytes(resource(b"abc"))
        root = self.folder / "archives"
        for name, to in (("in.warc", root / "below"), ("out.warc", self.folder / "disk")):
            (root / name).symlink_to(to / "a.warc")
        for links, names in (
            (None, {"a.warc", "below/a.warc", "in.warc", "out.warc"}),
            ([], {"a.warc", "below/a.warc", "in.warc"}),
            ([self.folder / "other"], {"a.warc", "below/a.warc", "in.warc"}),
            ([self.folder / "other", self.folder / "disk"], {"a.warc", "below/a.warc", "in.warc", "out.warc"}),
        ):
            with Collection(self.put(""), root, links=links, program=PROGRAM) as collection:
                for name in ("a.warc", "below/a.warc", "in.warc", "out.warc"):
                    if name in names:
                        self.assertEqual(b"abc", collection.record(self.capture(0, "-", name)).block)
                    else:
                        self.raises(NoArchive, collection.record, self.capture(0, "-", name))

    def test_only_the_record_is_read(self) -> None:
        first, record = resource(bytes(1_000_000)), resource(b"abc")
        (self.folder / "a.warc").write_bytes(bytes(len(first)) + record)  # what precedes it is no record
        self.assertEqual(b"abc", self.collection().record(self.capture(len(first), len(record))).block)
        self.raises(faults.Version, self.collection().record, self.capture(len(first), "-"))  # its length isn't known

    def test_what_is_no_record_of_the_capture_is_refused(self) -> None:
        text = resource(b"abc") + resource(b"defg")
        (self.folder / "a.warc").write_bytes(text)
        first, second = len(resource(b"abc")), len(resource(b"defg"))
        record = self.collection().record
        self.assertEqual(b"defg", record(self.capture(first, second)).block)
        self.assertEqual(b"defg", record(self.capture(first, "-")).block)
        for offset, length in (
            (0, first - 1), (0, first + 1), (0, first + second), (len(text), 9), (1 << 40, 9)
        ):  # fmt: skip
            found = self.raises(faults.NoRecord, record, self.capture(offset, length))
            self.assertEqual(str(self.folder / "a.warc"), found.file)
        for offset in (1, first - 1):
            found = self.raises(faults.Version, record, self.capture(offset, second))
            self.assertEqual((str(self.folder / "a.warc"), offset), (found.file, found.offset))
        (self.folder / "a.warc").write_bytes(text[:-6])
        found = self.raises(faults.ShortBlock, record, self.capture(first, second))
        self.assertEqual((str(self.folder / "a.warc"), first), (found.file, found.offset))

    def test_what_is_no_member_of_the_capture_is_refused(self) -> None:
        members = [gzip.compress(resource(text), mtime=0) for text in (b"abc", b"defghi")]
        (self.folder / "a.warc").write_bytes(b"".join(members))
        first, second = map(len, members)
        for offset, length in ((first, second), (first, "-")):
            capture = self.capture(offset, length)
            self.assertEqual(b"defghi", self.collection().record(capture).block)
            with self.collection().stream(capture) as stream:
                self.assertTrue(b"".join(stream.whole()).endswith(b"defghi\r\n\r\n"))
        end = first + second
        for offset, length in ((first, second + 1), (first, first), (0, end), (1, first), (end, 9)):
            capture = self.capture(offset, length)
            self.raises(faults.NoRecord, self.collection().record, capture)
            with self.assertRaises(faults.NoRecord):
                with self.collection().stream(capture) as stream:
                    b"".join(stream.whole())

    def test_no_name_leads_out_of_the_folder(self) -> None:
        inner = self.folder / "inner"
        (inner / "2016").mkdir(parents=True)
        text = resource(b"abc")
        for path in (self.folder / "a.warc", inner / "2016/b.warc"):
            path.write_bytes(text)
        (inner / "link.warc").symlink_to(self.folder / "a.warc")
        record = self.collection(inner).record
        for name in ("2016/b.warc", "link.warc"):
            self.assertEqual(b"abc", record(self.capture(0, len(text), name)).block)
        for name in (
            "../a.warc", "..", ".", "", "/", str(self.folder / "a.warc"), "2016/../../a.warc", "./link.warc",
            "2016//b.warc", "2016/", "a\0.warc", "\ud800.warc",
        ):  # fmt: skip
            self.assertEqual(name, self.raises(NoArchive, record, self.capture(0, len(text), name)).name)
        self.raises(faults.CannotOpen, record, self.capture(0, len(text), "nosuch"))

    def test_archives_may_be_a_mapping(self) -> None:
        text = resource(b"abc")
        path = self.folder / "b.warc"
        path.write_bytes(text)
        record = self.collection({"a.warc": path, "../c": str(path)}).record
        for name in ("a.warc", "../c"):
            self.assertEqual(b"abc", record(self.capture(0, len(text), name)).block)
        self.raises(NoArchive, record, self.capture(0, len(text), "b.warc"))

    def test_archives_are_by_default_beside_the_index(self) -> None:
        index = self.put("")
        with Collection([index], program=PROGRAM) as collection:
            self.assertEqual(str(self.folder / "a.warc"), collection.path("a.warc"))
        collection = self.collection(iter(["nosuch", self.folder]))
        self.assertEqual([str(index)] * 2, [collection.path("index") for _ in range(2)])
        with self.assertRaises(ValueError):
            Collection(index, [], program=PROGRAM)

    def test_a_fault_of_the_reader_is_kept(self) -> None:
        text = resource(b"abc")
        (self.folder / "a.warc").write_bytes(text)
        with self.assertRaises(faults.Read) as caught:
            with self.collection().stream(self.capture(0, len(text))):
                raise faults.Read("Read", "another", 5)
        self.assertEqual(("another", 5), (caught.exception.file, caught.exception.offset))

    def test_archives_of_both_forms_are_opened(self) -> None:
        for name, text, kind in (("a", resource(b""), Archive), ("b", gzip.compress(resource(b""), mtime=0), CompressedArchive)):
            (self.folder / name).write_bytes(text)
            self.assertIs(kind, type(open_archive(self.folder / name, program=PROGRAM)))
            record = open_archive(self.folder / name, program=PROGRAM).get(0)
            self.assertIsInstance(record, Record)
            self.assertEqual(b"", payload(record))


class Captures(Case):
    def test_a_timestamp_is_a_date_and_time(self) -> None:
        for stamp, wanted in (
            ("20160919172024", "2016-09-19T17:20:24+00:00"), ("00010101000000", "0001-01-01T00:00:00+00:00"),
            ("20240229235959", "2024-02-29T23:59:59+00:00"), ("20230229000000", None), ("20160931000000", None),
            ("00000101000000", None), ("20160101240000", None), ("20160101000060", None), ("99999999999999", None),
        ):  # fmt: skip
            found = Capture.of((ROW[0], stamp, *ROW[2:])).datetime
            self.assertEqual(wanted, found and found.isoformat(), stamp)

    def test_a_capture_is_a_tuple(self) -> None:
        capture = Capture.of(ROW)
        self.assertEqual((*ROW[:6], 1, 0, "a.warc"), capture)
        self.assertEqual("b.warc", capture._replace(filename="b.warc").filename)

    def test_columns_have_a_list_for_each_field(self) -> None:
        lines = [LINE % ("a", "a", 7, 5), LINE % ("b", "b", 8, 6), (LINE % ("c", "c", 9, 7)).replace('"9"', '"x"')]
        index = self.open(self.put("".join(lines)))
        found = index.columns(("offset", "length", "urlkey", "offset"), ALL, page_size=2)
        keys = ["com,example)/a", "com,example)/b", "com,example)/c"]
        wanted = {"offset": [5, 6, 7], "length": [7, 8, None], "urlkey": keys}
        self.assertEqual(wanted, found)
        self.assertEqual({"statuscode": ["200", "200"]}, index.columns(["statuscode"], ALL, limit=2))
        self.assertEqual({"offset": []}, index.columns(["offset"], "url=example.org"))


if __name__ == "__main__":
    unittest.main()
