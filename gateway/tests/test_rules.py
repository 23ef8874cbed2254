"""Rules of what may not be shown: random requests of all paths, against a collection that doesn't have it.

The variable GATEWAY_REQUESTS says how many requests are sent, and GATEWAY_SEED how they begin.
"""
import datetime
import json
import os
import pathlib
import random
import re
import tempfile
import unittest
from collections.abc import Callable
from typing import NamedTuple
from unittest import mock
from urllib.parse import quote_plus, urlsplit

from werkzeug.test import Client, TestResponse

from warcdx_gateway.application import Gateway
from warcdx_gateway.rules import RulesFile
from warcdx_gateway.settings import CollectionSettings, Settings

from .browse_support import PROGRAM, Archives, gateway_of, page, response, revisit

REQUESTS = int(os.environ.get("GATEWAY_REQUESTS", "1500"))
SEED = int(os.environ.get("GATEWAY_SEED", "1"))
PER_RULES = 150  # requests
TODAY = datetime.date(2017, 1, 1)
HOSTS = ("example.com", "www.example.com", "a.www.example.com", "example.com:8080", "examples.com", "example.org")
PATHS = ("/", "/a", "/a/b", "/a/b/c", "/ab", "/b?x=1", "/style.css", "/image.png")
FIELDS = "urlkey timestamp original mimetype statuscode digest length offset filename".split()
CHANGING = ("ETag", "Last-Modified", "Date")  # fields that differ with the files


class Line(NamedTuple):
    """A line of the index, with the values of its members."""

    text: str
    key: str
    timestamp: str
    url: str
    digest: str
    filename: str
    offset: str

    @property
    def place(self) -> str:
        return f"{self.key} {self.timestamp} {self.filename} {self.offset}"


def line_of(text: str) -> Line:
    key, timestamp, rest = text.split(" ", 2)
    members = json.loads(rest)
    return Line(text, key, timestamp, *(members[name] for name in ("url", "digest", "filename", "offset")))


def records(chance: random.Random, count: int) -> list[bytes]:
    """Returns captures of random URLs and times, of which some have the same payload."""
    found, before = [], list[tuple[str, str, bytes]]()
    for number in range(count):
        url = f"http://{chance.choice(HOSTS)}{chance.choice(PATHS)}"
        moment = datetime.datetime(chance.randint(2014, 2016), chance.randint(1, 12), chance.randint(1, 28),
                                   chance.randint(0, 23), chance.randint(0, 1))  # fmt: skip
        date = f"{moment:%Y-%m-%dT%H:%M:%SZ}"
        if before and chance.random() < 0.2:
            other, at, body = chance.choice(before)
            found.append(revisit(url if chance.random() < 0.3 else other, date, body, chance.choice((at, ""))))
            continue
        body = chance.choice(before)[2] if before and chance.random() < 0.1 else body_of(chance, url, number)
        before.append((url, date, body))
        status = chance.choice(("200 OK", "200 OK", "404 Not Found", "302 Found"))
        where = [f"Location: http://{chance.choice(HOSTS)}{chance.choice(PATHS)}"] if status.startswith("3") else []
        found.append(response(url, date, body, kind_of(url), status=status, http=where))
    return found


def kind_of(url: str) -> str:
    return {"css": "text/css", "png": "image/png"}.get(url.rpartition(".")[2], "text/html")


def body_of(chance: random.Random, url: str, number: int) -> bytes:
    if kind_of(url) != "text/html":
        return f"p {{ color: red }} /* secret{number} */".encode()
    links = f'<link rel=stylesheet href="/style.css"><img src="http://{chance.choice(HOSTS)}/image.png">'
    return page(f"secret{number}", chance.choice(("one", "two"))) + links.encode()


class Ruled(NamedTuple):
    """A rule as it stands in the file, and whether it is for a line."""

    text: str
    holds: Callable[[Line], bool]


def known_as(url: str) -> str:
    """Returns a URL without `www.`, which URL keys don't have."""
    return url.replace("http://www.", "http://", 1)


def host_of(line: Line) -> str:
    return urlsplit(known_as(line.url)).hostname or ""


def random_rule(chance: random.Random, lines: list[Line]) -> Ruled:
    """Returns a rule of one condition, or of two."""
    some = chance.choice(lines)
    address = some.url.removeprefix(chance.choice(("", "http://")))
    host = host_of(some)
    targets = (
        Ruled(f'url = "{address}"\n', lambda line: known_as(line.url) == known_as(some.url)),
        Ruled(f'key = "{some.key}"\n', lambda line: line.key == some.key),
        Ruled(f'prefix = "{address}"\n', lambda line: known_as(line.url).startswith(known_as(some.url))),
        Ruled(f'host = "{host}"\n', lambda line: host_of(line) == host),
        Ruled(f'domain = "{host}"\n', lambda line: host_of(line) == host or host_of(line).endswith(f".{host}")),
    )
    year, month = some.timestamp[:4], some.timestamp[:6]
    days = chance.randint(1, 900)
    last = f"{TODAY - datetime.timedelta(days):%Y%m%d}"
    others = (
        Ruled(f'from = "{year}"\n', lambda line: line.timestamp[:4] >= year),
        Ruled(f'to = "{month}"\n', lambda line: line.timestamp[:6] <= month),
        Ruled(f"embargo = {days}\n", lambda line: line.timestamp[:8] > last),
        Ruled(f'digest = "sha1:{some.digest}"\n', lambda line: line.digest == some.digest),
    )
    chosen = [chance.choice(targets)] if chance.random() < 0.8 else []
    chosen += [chance.choice(others)] if not chosen or chance.random() < 0.5 else []
    return Ruled("".join(each.text for each in chosen), lambda line: all(each.holds(line) for each in chosen))


def random_target(chance: random.Random, lines: list[Line]) -> tuple[str, dict[str, str]]:
    """Returns a request of any path, about what is there and about what isn't."""
    some, other = chance.choice(lines), chance.choice(lines)
    url, stamp = some.url, chance.choice((some.timestamp, other.timestamp, other.timestamp[: chance.randint(1, 14)]))
    named = f"archive={some.filename}&offset={some.offset}&timestamp={some.timestamp}&key={quote_plus(some.key)}"
    texts = [quote_plus(f"{each.offset} {each.timestamp} {each.key} {each.filename}") for each in (some, other)]
    moment = f"{datetime.datetime(int(other.timestamp[:4]), 1, 1):%a, %d %b %Y %H:%M:%S GMT}"
    match = chance.choice(("", "&match=exact", "&match=prefix", "&match=host", "&match=domain"))
    after = chance.choice(("", f"&after={quote_plus(other.place)}"))
    target = chance.choice((
        *[f"/crawl/{chance.choice(('cdx', 'index'))}?{random_query(chance, some, other)}"] * 14,
        f"/cdx?{random_query(chance, some, other)}",
        f"/crawl?{random_query(chance, some, other)}",
        f"/web/timegate/{url}", f"/web/{url}", f"/web/timemap/link/{url}", f"/crawl/timemap/json/{url}",
        f"/web/{stamp}id_/{url}", f"/web/{stamp}id_/{url}", f"/web/{stamp}/{url}", f"/web/timemap/link/{other.timestamp}/{url}",
        f"/crawl-index?url={quote_plus(url)}&output=link",
        f"/crawl?q=type:urlquery+url:{quote_plus(quote_plus(url))}",
        f"/crawl?q=type:prefixquery+url:{quote_plus(quote_plus(url))}",
        f"/wayback/available?url={quote_plus(url)}&timestamp={stamp}",
        f"/wayback/available?url={quote_plus(url)}&statuscodes=404&statuscodes=302",
        f"/__wb/sparkline?url={quote_plus(url)}",
        "/crawl/browse/", f"/crawl/browse/search?url={quote_plus(url)}{match}{after}",
        f"/crawl/browse/search?url={quote_plus(url)}{match}&year={stamp[:4]}",
        f"/crawl/browse/captures?url={quote_plus(url)}{match}{after}", f"/crawl/browse/captures?key={quote_plus(some.key)}",
        f"/crawl/browse/record?{named}", f"/crawl/browse/payload?{named}", f"/crawl/browse/download?{named}",
        f"/crawl/browse/download?{named}&what=payload", f"/crawl/browse/compare?first={texts[0]}&second={texts[1]}",
    ))  # fmt: skip
    fields = {"Accept-Datetime": moment} if chance.random() < 0.3 else {}
    return target, fields


def random_query(chance: random.Random, some: Line, other: Line) -> str:
    host = host_of(some)
    target = chance.choice((
        f"url={quote_plus(some.url)}", f"key={quote_plus(some.key)}", f"url={quote_plus(some.url)}&matchType=prefix",
        f"url={host}&matchType=host", f"url={host}&matchType=domain", f"url=*.{host}", "key=com&matchType=prefix",
        "key=&matchType=prefix",
    ))  # fmt: skip
    parts = [target]
    for share, values in (
        (0.2, (f"from={other.timestamp[:4]}", f"from={other.timestamp}", f"to={other.timestamp[:6]}")),
        (0.3, ("limit=1", "limit=2", "limit=10", "limit=-1", "limit=-3", "fastLatest=true")),
        (0.3, ("collapse=urlkey", "collapse=timestamp:4", "collapse=timestamp", "collapse=digest", "collapse=statuscode:1",
               "collapse=urlkey&showGroupCount=true", "collapse=digest&fl=timestamp,endtimestamp,groupcount,uniqcount")),
        (0.2, ("fl=urlkey,timestamp,offset", "fl=digest", "fl=original,length,filename")),
        (0.2, ("sort=reverse", f"closest={other.timestamp}", "closest=2015&sort=closest")),
        (0.2, ("showResumeKey=true", f"resumeKey={quote_plus(other.place)}", f"resumeKey={quote_plus(some.place)}")),
        (0.2, ("showNumPages=true", "page=0", "page=1", "showNumPages=true&pageSize=1")),
        (0.2, ("resolveRevisits=true", "showDupeCount=true")),
        (0.2, ("filter=statuscode:200", "filter=!statuscode:2..", "filter=mimetype:text/.*", f"filter=digest:{other.digest}")),
        (0.3, ("output=json", "output=cdxj", "offset=1")),
    ):  # fmt: skip
        if chance.random() < share:
            parts.append(chance.choice(values))
    return "&".join(parts)


def comparable(answer: TestResponse) -> tuple[int, dict[str, str], bytes]:
    fields = {name: value for name, value in answer.headers.items() if name not in CHANGING}
    text = re.sub(rb'<p class="help">[0-9]+ ind[^<]*changed on[^<]*</p>', b"", answer.get_data())
    if answer.content_type and answer.content_type.startswith("text/html"):
        fields.pop("Content-Length", None)
    return answer.status_code, fields, text


class Random(unittest.TestCase):
    def setUp(self) -> None:
        folder = tempfile.TemporaryDirectory()
        self.addCleanup(folder.cleanup)
        self.folder = pathlib.Path(folder.name)
        self.chance, self.count = random.Random(SEED), 0
        self.archives = Archives(self.folder)
        for number in range(3):
            name = f"{number}.warc" + ".gz" * (number % 2)
            self.archives.add(name, records(self.chance, 100))
        texts = [path.read_text().splitlines() for path in self.archives.indexes]
        self.lines = sorted(
            map(line_of, sum(texts, [])), key=lambda line: (line.key.encode(), line.timestamp, line.filename, int(line.offset))
        )
        patched = mock.patch("warcdx_gateway.rules.today", return_value=TODAY)
        patched.start()
        self.addCleanup(patched.stop)

    def gateway(self, lines: list[Line], rules: str = "") -> Gateway:
        """Returns a gateway over an index of these lines, with a file of rules."""
        self.count += 1
        index, path = self.folder / f"index-{self.count}", self.folder / "rules"
        index.write_text("".join(f"{line.text}\n" for line in lines))
        path.write_text(rules)
        each = CollectionSettings("crawl", "A crawl", (index,), (self.archives.archives,))
        gateway = gateway_of(self, Settings((each,), "crawl", program=PROGRAM))
        gateway.main.rules = RulesFile(path, PROGRAM, ["crawl"]).rules["crawl"]
        return gateway

    def test_what_is_excluded_is_as_if_it_were_not_there(self) -> None:
        statuses: dict[int, int] = {}
        for _ in range(0, REQUESTS, PER_RULES):
            rules = [random_rule(self.chance, self.lines) for _ in range(self.chance.choice((1, 2, 5, 20)))]
            text = "".join(f'[[rules]]\naction = "exclude"\n{rule.text}' for rule in rules)
            left = [line for line in self.lines if not any(rule.holds(line) for rule in rules)]
            digests = {line.digest for line in self.lines} - {line.digest for line in left}
            ruled, plain = Client(self.gateway(self.lines, text)), Client(self.gateway(left))
            for _ in range(PER_RULES):
                target, fields = random_target(self.chance, self.lines)
                for _ in range(2):  # some answers have the second in which they were made
                    found, wanted = (comparable(each.get(target, headers=fields)) for each in (ruled, plain))
                    if found == wanted:
                        break
                self.assertEqual(wanted, found, f"{text}\n{target} {fields}")
                told = repr(found)
                self.assertEqual([], [each for each in digests if each in told and each not in target], target)
                statuses[found[0]] = statuses.get(found[0], 0) + 1
        print(statuses, flush=True)
        self.assertGreater(statuses[200], REQUESTS / 4)

    def test_of_metadata_the_rows_are_shown_and_no_records(self) -> None:
        for _ in range(0, REQUESTS // 3, PER_RULES):
            rule = random_rule(self.chance, self.lines)
            text = f'[[rules]]\naction = "metadata"\n{rule.text}'
            closed = [line for line in self.lines if rule.holds(line)]
            ruled, plain = Client(self.gateway(self.lines, text)), Client(self.gateway(self.lines))
            for _ in range(PER_RULES // 3):
                some, other = self.chance.choice(self.lines), self.chance.choice(self.lines)
                target = f"/cdx?{random_query(self.chance, some, other)}"
                found, wanted = (comparable(each.get(target)) for each in (ruled, plain))
                self.assertEqual(wanted, found, f"{text}\n{target}")
            for line in self.chance.sample(closed, min(len(closed), 10)):
                named = f"archive={line.filename}&offset={line.offset}&timestamp={line.timestamp}&key={quote_plus(line.key)}"
                for name in ("record", "payload", "download"):
                    self.assertEqual(451, ruled.get(f"/crawl/browse/{name}?{named}").status_code)
                found_raw = ruled.get(f"/web/{line.timestamp}id_/{line.url}")
                self.assertNotEqual(200, found_raw.status_code)
                listed = ruled.get(f"/web/timemap/link/{line.url}").text
                times = {each.timestamp for each in self.lines if each.key == line.key and not rule.holds(each)}
                if line.timestamp not in times:
                    self.assertNotIn(f"/{line.timestamp}id_/", listed)


if __name__ == "__main__":
    unittest.main()
