"""Pages by their place in the index, and its last captures, against the plain model and by hand."""
import os
import pathlib
import random
import tempfile
import unittest
from unittest import mock

from werkzeug.test import Client

from warcdx.faults import BadLine, OutOfOrder

from . import model
from .browse_support import PROGRAM, gateway_of
from .model import Capture, Request, answer
from .test_model import KEYS, index_of, random_captures, random_request
from .support import LINE

from warcdx_gateway.ranges import Lines, Range
from warcdx_gateway.rules import RulesFile
from warcdx_gateway.settings import CollectionSettings, Settings

REQUESTS = int(os.environ.get("GATEWAY_REQUESTS", "300"))
SEED = int(os.environ.get("GATEWAY_SEED", "1"))
PER_INDEX = 40
# Pages and pieces of few lines, so that an answer has many of them.
SMALL = {"plan.LINE": 3, "selection.MOST_PART": 5000, "selection.LEAST_PART": 1000}
PAGE = 9000  # bytes of a page of one block then
EACH = ("", "&collapse=digest", "&collapse=urlkey", "&collapse=timestamp:4", "&collapse=digest,statuscode",
        "&collapse=urlkey:14,digest,mimetype", "&filter=statuscode:404", "&filter=mimetype:i.*&collapse=urlkey",
        "&collapse=digest&filter=!digest:A.*", "&collapse=urlkey&showGroupCount=true&lastSkipTimestamp=true",
        "&collapse=digest&showSkipCount=true", "&resolveRevisits=true&filter=statuscode:2..", "&from=2015&to=2016")  # fmt: skip


class Case(unittest.TestCase):
    def setUp(self) -> None:
        self.folder = pathlib.Path(self.enterContext(tempfile.TemporaryDirectory()))

    def client(self, *texts: "str | bytes", rules: str = "") -> Client:
        """Returns a client of a gateway over these indexes."""
        paths = [self.folder / f"{number}.cdxj" for number in range(len(texts))]
        for path, text in zip(paths, texts):
            path.write_bytes(text if isinstance(text, bytes) else text.encode())
        each = CollectionSettings("main", "Main", tuple(paths))
        self.gateway = gateway_of(self, Settings((each,), "main", program=PROGRAM))
        if rules:
            path = self.folder / "rules"
            path.write_text(rules)
            self.gateway.main.rules = RulesFile(path, PROGRAM, ["main"]).rules["main"]
        return Client(self.gateway)

    def ask(self, client: Client, query: str) -> str:
        found = client.get(f"/cdx?{query}")
        self.assertEqual(200, found.status_code, (query, found.text))
        return found.text

    def pages(self, client: Client, query: str) -> list[str]:
        """Returns the pages of a query of one block, after which there is none."""
        count = int(self.ask(client, f"{query}&showNumPages=true&pageSize=1"))
        pages = [self.ask(client, f"{query}&page={number}&pageSize=1") for number in range(count + 1)]
        self.assertIn(pages.pop(), ("", "[]\n"))
        return pages

    def small(self) -> None:
        for name, size in SMALL.items():
            self.enterContext(mock.patch(f"warcdx_gateway.{name}", size))
        self.enterContext(mock.patch.object(model, "PAGE", PAGE))


def line(key: str, timestamp: int, name: str = "a.warc", size: int = 200) -> str:
    """Returns a line of this many bytes."""
    text = LINE % (key, f"{timestamp:014}", "", "text/html", "200", "A", 1, 1, name)
    return text.replace('"url": ""', f'"url": "{"u" * (size - len(text))}"')


class Ranges(Case):
    """The places of lines of 100 bytes: of the keys a, b, b, d in one file, and of b, c, d in another one."""

    def setUp(self) -> None:
        super().setUp()
        texts = (("a 1", "b 1", "b 3", "d 1"), ("b 2", "c 1", "d 1"))
        self.lines = [self.file(number, [self.line(each) for each in text]) for number, text in enumerate(texts)]
        self.whole = Range.of(self.lines, b"", None)

    def line(self, text: str) -> bytes:
        key, time = text.split()
        return f"{key} {time:>014} ".encode().ljust(99, b"x") + b"\n"

    def file(self, number: int, lines: list[bytes]) -> Lines:
        file = self.enterContext(tempfile.TemporaryFile())
        file.write(b"".join(lines))
        file.flush()
        return Lines(number, file.fileno(), file.tell())

    def test_ranges_are_between_places(self) -> None:
        for first, end, starts, ends in (
            (b"", None, [0, 0], [400, 300]),
            (b"b", b"c", [100, 0], [300, 100]),
            (b"b ", b"b!", [100, 0], [300, 100]),
            (b"b 00000000000002", b"b 0~", [200, 0], [300, 100]),
            (b"b 00000000000003", b"b 0~", [200, 100], [300, 100]),
            (b"e", None, [400, 300], [400, 300]),
        ):
            found = Range.of(self.lines, first, end)
            self.assertEqual((starts, ends), (found.starts, found.ends), first)

    def test_positions_have_so_many_bytes_before_them(self) -> None:
        for count, wanted in (
            (-1, [0, 0]), (0, [0, 0]), (1, [100, 0]), (100, [100, 0]), (101, [200, 0]), (200, [200, 0]), (300, [200, 100]),
            (400, [300, 100]), (401, [300, 200]), (500, [300, 200]), (501, [400, 300]), (700, [400, 300]), (999, [400, 300]),
        ):  # fmt: skip
            self.assertEqual(wanted, self.whole.after(count), count)

    def test_parts_joined_are_the_range(self) -> None:
        found = [(part.starts, part.ends) for part in self.whole.parts(250)]
        self.assertEqual([([0, 0], [200, 100]), ([200, 100], [300, 200]), ([300, 200], [400, 300])], found)

    def test_the_last_place_is_that_of_all_files(self) -> None:
        self.assertEqual(b"d 00000000000001", self.whole.last_place())
        self.assertEqual(b"b 00000000000002", Range.of(self.lines, b"", b"b 00000000000003").last_place())

    def test_long_keys_and_lines_are_read(self) -> None:
        keys = [b"a" * size for size in (1, 900, 1100, 5000, 70_000)]
        lines = [key + b" 20160101000000 " + b"x" * size + b"\n" for key in keys for size in (1, 3000, 200_000)]
        whole = Range.of([self.file(0, lines)], b"", None)
        for number, key in enumerate(keys):
            self.assertEqual([sum(map(len, lines[: 3 * number]))], whole.at(key + b" "))
            self.assertEqual(key + b" 20160101000000", whole.between([0], whole.at(key + b"!")).last_place())

    def test_what_is_not_in_order_is_seen(self) -> None:
        lines = [self.line(f"{key} 1") for key in "dcbazyx"]
        with self.assertRaises(OutOfOrder) as found:
            Range.of([self.file(3, lines)], b"c", None)
        self.assertEqual((3, None), (found.exception.number, found.exception.file))
        for bad in (b"no line\n", b"\n", b"k 2016 {}\n", b" 20160101000000 {}\n", b"x" * 5000 + b"\n"):
            with self.assertRaises(BadLine) as other:
                Range.of([self.file(1, [lines[0], bad, bad])], b"z", None)
            self.assertIn(other.exception.offset, (100, 100 + len(bad)))


class Pages(Case):
    """Pages of 9,000 bytes, over lines of 200 bytes."""

    def setUp(self) -> None:
        super().setUp()
        self.small()

    def keys(self, client: Client, query: str) -> list[list[str]]:
        return [page.split() for page in self.pages(client, f"{query}&fl=urlkey")]

    def test_pages_have_the_lines_of_so_many_bytes(self) -> None:
        keys = [f"com,example)/{number:03}" for number in range(100)]
        client = self.client("".join(line(key, 2016) for key in keys))
        for query in ("url=example.com/*", "url=*.example.com", "url=HTTP://www.Example.COM/*", "key=com&matchType=prefix"):
            self.assertEqual([keys[:45], keys[45:90], keys[90:]], self.keys(client, query), query)
        self.assertEqual([keys[50:60]], self.keys(client, "url=example.com/05*"))
        self.assertEqual("3\n", self.ask(client, "url=example.com/*&showNumPages=true&pageSize=1&filter=statuscode:404"))
        self.assertEqual(" ".join(keys[45:47]), " ".join(self.ask(client, "url=example.com/*&page=1&pageSize=1&limit=2&fl=urlkey").split()))

    def test_lines_with_the_same_key_and_time_are_on_one_page(self) -> None:
        lines = [line("com,example)/a", 2015), *(line("com,example)/a", 2016, f"{n:02}.warc") for n in range(60))]
        client = self.client("".join([*lines, line("com,example)/a", 2017)]))
        pages = self.pages(client, "url=example.com/a&fl=timestamp")
        self.assertEqual([61, 1], [len(page.split()) for page in pages])

    def test_what_is_copied_is_bounded(self) -> None:
        lines = [line("com,example)/a", 2016, f"{n:03}.warc") for n in range(100)]
        client = self.client("".join([*lines, line("com,example)/b", 2016)]))
        with mock.patch("warcdx_gateway.collection.MOST_COPIED", 20_000):
            self.assertEqual([100, 0, 1], [len(keys) for keys in self.keys(client, "url=example.com/*")])
        with mock.patch("warcdx_gateway.collection.MOST_COPIED", 19_999):
            found = client.get("/cdx?url=example.com/*&page=0&pageSize=1")
            self.assertEqual((400, "refused TooLarge:"), (found.status_code, found.text[:17]))

    def test_captures_in_two_indexes_are_one(self) -> None:
        text = "".join(line(f"com,example)/{number:03}", 2016) for number in range(100))
        client = self.client(text, text)
        found = self.keys(client, "url=example.com/*")
        self.assertEqual((5, 100), (len(found), sum(map(len, found))))
        self.assertEqual("com,example)/099\ncom,example)/098\n", self.ask(client, "url=example.com/*&sort=reverse&limit=2&fl=urlkey"))

    def test_targets_are_those_of_the_program(self) -> None:
        hosts = ("com,example)", "com,example,www)", "com,example-shop)", "com,example:8080)", "com,examples)", "com,xn--bcher-kva)")
        keys = sorted(f"{host}/{number:02}" for host in hosts for number in range(50))
        keys += sorted(f"{other}{number:02}" for other in ("ftp://example.com/", "[::1])/", "[::1]:81)/") for number in range(50))
        keys.sort()
        client = self.client("".join(line(key, 2016) for key in keys))
        for query in (
            "url=*.example.com", "url=example.com&matchType=host", "url=example.com:8080&matchType=host", "url=*.com",
            "url=http://example.com:8080/*", "url=http://www.example.com/a&matchType=domain", "url=b%C3%BCcher.com/*",
            "url=ftp://example.com/*", "url=[::1]&matchType=host", "url=[::1]:81/*",
            "key=com,example&matchType=host", "key=com,example&matchType=domain", "key=com,example-&matchType=prefix",
            "key=&matchType=prefix",
        ):  # fmt: skip
            whole = self.ask(client, f"{query}&fl=urlkey").split()
            self.assertEqual(whole, sum(self.keys(client, query), []), query)
            self.assertEqual(whole[-7:], self.ask(client, f"{query}&fl=urlkey&limit=-7").split(), query)
            self.assertGreater(len(whole), 49, query)

    def test_an_index_that_is_not_in_order_is_seen(self) -> None:
        lines = [line(f"com,example)/{number:03}", 2016) for number in range(100)]
        client = self.client("".join(lines), "".join(reversed(lines)))
        for query in ("page=0", "page=1", "showNumPages=true", "limit=-1", "sort=reverse&limit=3"):
            found = client.get(f"/cdx?url=example.com/*&pageSize=1&{query}".replace("&pageSize=1&l", "&l").replace("&pageSize=1&s", "&s"))
            self.assertEqual(500, found.status_code, query)
            self.assertTrue(found.text.startswith("fault OutOfOrder"), found.text)

    def test_a_damaged_line_is_named_by_its_index_and_offset(self) -> None:
        first = [line(f"com,example)/{number:03}", 2015) for number in range(100)]
        lines = [line(f"com,example)/{number:03}", 2016) for number in range(100)]
        lines[70] = lines[70].replace("{", "[")
        client = self.client("".join(first), "".join(lines))
        found = client.get("/cdx?url=example.com/*&pageSize=1&page=3&filter=statuscode:200&fl=urlkey,digest,length")
        self.assertEqual((500, "fault BadLine 1 14000\n"), (found.status_code, found.text))
        self.assertEqual(200, client.get("/cdx?url=example.com/*&pageSize=1&page=0").status_code)

    def test_a_changed_index_answers_nothing(self) -> None:
        client = self.client("".join(line(f"com,example)/{number:03}", 2016) for number in range(100)))
        path = self.folder / "0.cdxj"
        self.ask(client, "url=example.com/*&page=1&pageSize=1")
        with open(path, "ab") as file:
            file.write(line("com,example)/x", 2016).encode())
        for query in ("page=1&pageSize=1", "showNumPages=true", "limit=-1"):
            found = client.get(f"/cdx?url=example.com/*&{query}")
            self.assertEqual(503, found.status_code, query)

    def test_what_is_not_shown_is_on_no_page(self) -> None:
        lines = [line(f"com,example)/{number:03}", 2016) for number in range(100)]
        rules = '[[rules]]\naction = "exclude"\nprefix = "example.com/0"\n'
        hidden = line("com,example)/000", 2016)
        for others in (lines, [line(f"com,example)/{number:03}", 2016) for number in range(100, 200)]):
            client = self.client("".join([hidden, *others]), rules=rules)
            shown = [each.split(" ")[0] for each in others if "/0" not in each]
            self.assertEqual([shown[:45], shown[45:90], shown[90:]] if shown else [], self.keys(client, "url=example.com/*"))


class Long(Case):
    def test_the_last_captures_of_a_long_run_are_found_without_reading_it_again_and_again(self) -> None:
        """A collapse makes one of all lines, so all are read: once in parts, from the end, and then as a whole."""
        lines = [line("com,example)/", 20160101000000 + number) for number in range(2000)]
        client, size = self.client("".join(lines)), len("".join(lines))
        for rest in ("collapse=urlkey", "collapse=digest", "collapse=digest&collapse=statuscode", "collapse=digest&showGroupCount=true",
                     "collapse=urlkey&is=statuscode:404", "collapse=digest&filter=statuscode:4.."):  # fmt: skip
            copied, whole = list[int](), self.ask(client, f"url=example.com&fl=timestamp&{rest}")

            def copy(lines: Lines, to: int, start: int, end: int) -> None:
                copied.append(end - start)
                plain_copy(lines, to, start, end)

            plain_copy = Lines.copy
            with mock.patch.object(Lines, "copy", copy):
                self.assertEqual(whole, self.ask(client, f"url=example.com&fl=timestamp&{rest}&limit=-5"), rest)
            self.assertLess(sum(copied), 2 * size, rest)


class Random(Case):
    def setUp(self) -> None:
        super().setUp()
        self.small()
        self.chance = random.Random(SEED)

    def split(self, captures: list[Capture]) -> list[str]:
        """Returns one to three indexes that have these captures, of different sizes."""
        parts: list[list[Capture]] = [[] for _ in range(self.chance.randint(1, 3))]
        for capture in captures:
            parts[min(self.chance.randrange(5), len(parts) - 1)].append(capture)
        return [index_of(part) for part in parts]

    def test_pages_and_last_captures_are_those_of_the_model(self) -> None:
        for _ in range(0, REQUESTS, PER_INDEX):
            captures = random_captures(self.chance)[:400]
            client = self.client(*self.split(captures))
            for _ in range(PER_INDEX):
                request = self.request(captures)
                query = request.query(captures)
                self.assertEqual(answer(request, captures), self.ask(client, query), query)

    def request(self, captures: list[Capture]) -> Request:
        """Returns a request for a page, a number of pages, the last captures, or those that are nearest to a time."""
        request, kind = random_request(self.chance, captures), self.chance.choice(("page", "count", "last", "reverse", "closest"))
        none = {"after": None, "shows_key": False, "page": None, "counts_pages": False, "order": "forward"}
        request = request._replace(**none)  # type: ignore[arg-type]
        if kind == "page":
            return request._replace(page=self.chance.randint(0, 9))
        if kind == "count":
            return request._replace(counts_pages=True, counts=False)
        if kind == "closest":
            moment = str(self.chance.randint(2004, 2025)) + self.chance.choice(("", "06", "0615", "0615123000"))
            request = request._replace(match="exact", target=self.chance.choice(KEYS), closest=moment)
        return request._replace(order=kind, limit=self.chance.choice((1, 2, 3, 10, 100)))

    def test_pages_joined_are_the_answer(self) -> None:
        for number in range(2):
            captures: list[Capture] = []
            while len(captures) < 200:
                captures = random_captures(self.chance)[:200]
            rules = '[[rules]]\naction = "exclude"\nprefix = "example.com/a"\nfrom = "2014"\n' * (number % 2)
            client = self.client(*self.split(captures), rules=rules)
            for target in ("key=com&matchType=prefix", "url=*.example.com", f"key={captures[0]['urlkey']}"):
                for rest in EACH:
                    found = self.pages(client, f"{target}{rest}")
                    self.assertEqual(self.ask(client, f"{target}{rest}"), "".join(found), rest)
                    self.assertTrue(len(found) > 2 or number % 2 or "com,example" in target, found)

    def test_resume_keys_lead_from_a_page_to_what_follows(self) -> None:
        captures: list[Capture] = []
        while len(captures) < 100:
            captures = random_captures(self.chance)[:200]
        client = self.client(*self.split(captures))
        for rest in ("", "&collapse=urlkey", "&collapse=digest", "&filter=statuscode:404"):
            query = f"key=&matchType=prefix&showResumeKey=true{rest}"
            whole, found, last = self.ask(client, query), "", ""
            count = int(self.ask(client, f"{query}&showNumPages=true&pageSize=1"))
            for number in range(count):
                page, _, last = self.ask(client, f"{query}&page={number}&pageSize=1").partition("\n\n")
                found += page.rstrip("\n") + "\n" * bool(page.strip())
                if last:
                    following = self.ask(client, f"{query}&resumeKey={last.strip()}")
                    self.assertEqual(whole, found + following, query)
            self.assertEqual("", last)
