"""Records that aren't those of their lines, as after an archive was replaced by another one of its name."""
import re
import unittest
from collections.abc import Sequence
from unittest import mock
from urllib.parse import urlencode

from . import browse_support as support
from .browse_support import Archives, page, record, response, revisit, text_of

from warcdx import fitting
from warcdx_gateway.rules import Rule, Rules, plain_digest

HOME = "http://example.com/"
DATE, STAMP = "2016-03-03T09:34:31Z", "20160303093431"
LATER, LATER_STAMP = "2016-03-04T09:34:31Z", "20160304093431"
SECRET = b"what is another's" + b"." * 100
PNG = b"\x89PNG\r\n\x1a\n" + b"." * 100
MISFIT = "The index doesn't fit the archive."
PLACES = ("record", "payload", "download")


def other_record(address: str, date: str, like: bytes, start: bytes = SECRET, kind: str = support.HTML) -> bytes:
    """Returns a record of another payload, of as many bytes as `like` has."""
    least = response(address, date, start, kind)
    return response(address, date, start + b"." * (len(like) - len(least)), kind)


class Replaced(support.Pages):
    """An archive that is replaced by another one, whose records begin where those of the first do."""

    def fill(self, archives: Archives) -> None:
        body = b'<!DOCTYPE html><title>It</title><img src="/image.png">' + b"." * 200
        self.records = {
            "page": response(HOME, DATE, body),
            "image": response(HOME + "image.png", DATE, PNG + bytes(200), "image/png"),
            "original": response(HOME + "old", DATE, page("old" * 99)),
            "revisit": revisit(HOME + "old", LATER, page("old" * 99), DATE),
            "resource": record("resource", HOME + "resource", DATE, b"." * 300, "text/plain"),
            "metadata": record("metadata", HOME + "metadata", DATE, b"." * 300, "text/plain"),
        }
        archives.add("a.warc", list(self.records.values()), index=False)
        at, lines = 0, []
        for name, each in self.records.items():
            address, key = self.address(name), f"com,example)/{self.address(name).removeprefix(HOME)}"
            kind = {"revisit": "warc/revisit", "image": "image/png"}.get(name, "text/html")
            stamp = LATER_STAMP if name == "revisit" else STAMP
            digest = support.digest_of(page("old" * 99)).removeprefix("sha1:") if name in ("original", "revisit") else "-"
            lines.append(archives.line(address, stamp, "a.warc", at, key, length=str(len(each)), mime=kind, digest=digest))
            at += len(each)
        archives.put("index", b"".join(sorted(lines)))

    @staticmethod
    def address(name: str) -> str:
        return HOME + {"page": "", "image": "image.png", "original": "old", "revisit": "old"}.get(name, name)

    def place_of(self, name: str) -> dict[str, object]:
        names = list(self.records)
        return self.place_at("a.warc", sum(len(self.records[each]) for each in names[: names.index(name)]))

    def replace(self, name: str, other: bytes) -> None:
        """Puts a record of as many bytes in the place of one."""
        self.assertEqual(len(self.records[name]), len(other))
        texts = {**self.records, name: other}
        (self.archives.archives / "a.warc").write_bytes(b"".join(texts.values()))

    def others(self, name: str) -> Sequence[bytes]:
        """Returns the records of another URL, and of another date."""
        like, address = self.records[name], self.address(name)
        others = (("http://secret.example/", DATE), (address, LATER), (address, DATE.replace("31Z", "32Z")))
        return [other_record(*other, like) for other in others]

    def raw(self, name: str) -> str:
        return f"/web/{LATER_STAMP if name == 'revisit' else STAMP}id_/{self.address(name)}"

    def test_each_path_gives_records_that_fit(self) -> None:
        with mock.patch.object(fitting, "keys_of") as keys_of:
            for name in self.records:
                for path in PLACES if name != "revisit" else ("record", "download"):  # a revisit has no payload
                    self.assertEqual(200, self.ask(path, **self.place_of(name)).status_code, (name, path))
                self.assertEqual(200, self.client.get(self.raw(name)).status_code, name)
        keys_of.assert_not_called()

    def test_no_path_gives_a_record_that_does_not_fit(self) -> None:
        for name in ("page", "image", "original", "resource", "metadata"):
            for other in self.others(name):
                self.replace(name, other)
                for path in PLACES:
                    found = self.get(path, 502, **self.place_of(name))
                    self.assertIn(MISFIT, text_of(found))
                    self.assertNotIn("another's", text_of(found))
                    self.assertNotIn("secret.example", found)
                found = self.get("download", 502, what="payload", **self.place_of(name))
                for headers in ({}, {"Sec-Fetch-Dest": "document"}):
                    for path in (self.raw(name), f"/crawl/{STAMP}id_/{self.address(name)}"):
                        answer = self.client.get(path, headers=headers)
                        self.assertEqual((502, True), (answer.status_code, answer.text.startswith(MISFIT)), answer.text)

    def test_a_client_does_not_keep_what_an_archive_held_before(self) -> None:
        """The other record fits its line, so that only its archive shows that the payload may be another one."""
        download = f"/crawl/browse/download?{urlencode({'what': 'payload', **self.place_of('original')})}"
        for path in (self.raw("original"), self.raw("revisit"), download):
            first = self.client.get(path)
            known = {"If-None-Match": first.headers["ETag"]}
            self.assertEqual(304, self.client.get(path, headers=known).status_code)
            self.replace("original", other_record(HOME + "old", DATE, self.records["original"], page("new" * 99)))
            again = self.client.get(path, headers=known)
            self.assertEqual((200, True), (again.status_code, b"newnew" in again.data), path)
            part = {"Range": "bytes=5-", "If-Range": first.headers["ETag"]}
            self.assertEqual((200, again.data), ((found := self.client.get(path, headers=part)).status_code, found.data))
            self.replace("original", self.records["original"])

    def test_a_window_shows_no_other_page(self) -> None:
        for other in self.others("page"):
            self.replace("page", other)
            answer = self.client.get(f"/web/{STAMP}/{HOME}", headers={"Sec-Fetch-Dest": "document"})
            self.assertEqual((502, True), (answer.status_code, answer.text.startswith(MISFIT)))

    def test_a_rule_is_for_the_digest_of_the_record_too(self) -> None:
        """The line of another program may have none, or another one than the record."""
        collection = self.gateway.collections["crawl"]
        for name in ("page", "image", "original"):
            (digest,) = re.findall(rb"WARC-Payload-Digest: ([^\r]*)", self.records[name])
            for action, status in ((1, 451), (0, 200)):
                collection.rules = Rules([Rule(action, digest=plain_digest(digest.decode()))])
                for path in PLACES:
                    self.assertEqual(status, self.ask(path, **self.place_of(name)).status_code, (name, path))
                # No path of Memento has a line with this digest.
                raw = 404 if (name, status) == ("original", 451) else status
                self.assertEqual(raw, self.client.get(self.raw(name)).status_code, name)
                is_filled = b"data:image/png" in self.ask("payload", **self.place_of("page")).data
                self.assertEqual(status == 200 or name == "original", is_filled)

    def test_an_image_that_does_not_fit_is_not_put_into_a_page(self) -> None:
        self.assertIn(b"data:image/png", self.ask("payload", **self.place_of("page")).data)
        like = self.records["image"]
        for address, date in (("http://secret.example/i", DATE), (HOME + "image.png", LATER)):
            self.replace("image", other_record(address, date, like, PNG, "image/png"))
            answer = self.ask("payload", **self.place_of("page"))
            self.assertEqual((200, False), (answer.status_code, b"data:image/png" in answer.data))

    def test_the_original_of_a_revisit_has_to_fit(self) -> None:
        for other in self.others("original"):
            self.replace("original", other)
            answer = self.client.get(self.raw("revisit"))
            self.assertEqual((502, True), (answer.status_code, answer.text.startswith(MISFIT)))

    def test_only_captures_that_fit_are_compared(self) -> None:
        offsets = [self.place_of(name)["offset"] for name in ("page", "original", "revisit")]
        first, *others = (self.pair("a.warc", int(str(offset))) for offset in offsets)
        for second in others:
            self.assertEqual(200, self.ask("compare", first=first, second=second).status_code)
        for other in self.others("original"):
            self.replace("original", other)
            for second in others:
                self.assertIn(MISFIT, text_of(self.get("compare", 502, first=first, second=second)))
                self.get("compare", 502, first=second, second=first)


class Spellings(support.Pages):
    """Lines of another program. The tests of the package have all spellings of URLs and dates."""

    # The URL and the key of the line, and whether the record of `HOME` fits.
    CASES = (("https://EXAMPLE.com:443", "a", True), ("-", "com,example)/", True), ("-", "com,example)/b", False))

    def fill(self, archives: Archives) -> None:
        each = response(HOME, DATE, b"a")
        archives.add("a.warc", [each] * len(self.CASES), index=False)
        cases = enumerate(self.CASES)
        lines = (archives.line(url, STAMP, "a.warc", n * len(each), key, length=str(len(each))) for n, (url, key, _) in cases)
        archives.put("index", b"".join(lines))

    def test_a_record_may_have_another_spelling_than_its_line(self) -> None:
        for number, case in enumerate(self.CASES):
            found = self.ask("download", **self.place_at("a.warc", number * len(response(HOME, DATE, b"a"))))
            self.assertEqual(200 if case[-1] else 502, found.status_code, case)


class Indexed(support.Pages):
    """Archives whose indexes the program has written."""

    ADDRESSES = ("<http://example.com/wget>", "http://example.com/\udcff\xe9", "http://example.com/\xe9", "< http://example.com/blank >",
                 "<<http://example.com/two>>", "dns:example.com", "HTTP://User@www.Example.com:80/%7e/../b?#c")  # fmt: skip

    def fill(self, archives: Archives) -> None:
        archives.add("a.warc", [response(each, DATE, b"a") for each in self.ADDRESSES])

    def test_their_records_fit_without_a_process(self) -> None:
        with mock.patch.object(fitting, "keys_of") as keys_of:
            for address in self.ADDRESSES:
                self.assertEqual(200, self.ask("download", **self.place(address)).status_code, address)
        keys_of.assert_not_called()


if __name__ == "__main__":
    unittest.main()
