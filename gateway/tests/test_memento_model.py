"""TimeGates and TimeMaps against lists of all captures, at random."""
import random
import re
import unittest
from datetime import datetime, timedelta
from unittest import mock

from . import browse_support as support
from .browse_support import Archives

SEED, REQUESTS, URLS = 7, 300, 24
STEP = 10**6  # seconds
COUNTS = (0, 1, 2, 3, 10, 199, 200, 201, 450, 1500)  # captures of a URL
START = datetime(2010, 1, 1)
HTTP_DATE = "%a, %d %b %Y %H:%M:%S GMT"
MEMENTO = re.compile(r'/([0-9]{14})id_/[^>]*>; rel="([a-z ]*)memento"')
NEXT_MAP = re.compile('<http://localhost([^>]*)>; rel="timemap"')


def timestamp(moment: datetime) -> str:
    return f"{moment:%Y%m%d%H%M%S}"


def url_of(number: int) -> str:
    return f"http://example.com/{number:02}"


class Model(support.Pages):
    def fill(self, archives: Archives) -> None:
        self.rng, self.times, lines = random.Random(SEED), [], []
        for number in range(URLS):
            key = f"com,example)/{number:02}"
            count, most = COUNTS[number % len(COUNTS)], 10 ** self.rng.choice((4, 6, 8))
            seconds = sorted({self.rng.randrange(most) for _ in range(count)})
            self.times.append([START + timedelta(seconds=each) for each in seconds])
            lines += [archives.line(url_of(number), timestamp(each), "a.warc", at, key=key) for at, each in enumerate(self.times[-1])]
        archives.put("index", b"".join(sorted(lines)))

    def test_a_time_gate_chooses_as_from_a_list(self) -> None:
        for _ in range(REQUESTS):
            number = self.rng.randrange(URLS)
            times = self.times[number]
            wanted = self.rng.choice(times or [START])
            seconds = self.rng.choice((0, 1, -1, self.rng.randrange(-STEP, STEP)))
            wanted += timedelta(seconds=seconds)
            headers = {"Accept-Datetime": wanted.strftime(HTTP_DATE)}
            answer = self.client.get(f"/web/timegate/{url_of(number)}", headers=headers)
            if not times:
                self.assertEqual(404, answer.status_code)
                continue
            chosen = min(times, key=lambda each: (abs(each - wanted), each))
            at = times.index(chosen)
            location = f"http://localhost/web/{timestamp(chosen)}id_/{url_of(number)}"
            self.assertEqual(location, answer.headers["Location"])
            found = {relation: each for each, relations in MEMENTO.findall(answer.headers["Link"]) for relation in relations.split()}
            expected = {"first": times[0], "last": times[-1]}
            expected.update({"prev": times[at - 1]} if at else {})
            expected.update({"next": times[at + 1]} if at + 1 < len(times) else {})
            self.assertEqual({name: timestamp(each) for name, each in expected.items()}, found)

    def test_the_pages_of_a_time_map_are_the_list(self) -> None:
        with mock.patch("warcdx_gateway.memento.MOST_MEMENTOS", 97):
            for number, times in enumerate(self.times):
                path, seen = f"/web/timemap/link/{url_of(number)}", []
                while path and times:
                    text = self.client.get(path).text
                    seen += [each for each, _ in MEMENTO.findall(text)]
                    following = NEXT_MAP.search(text)
                    path = following[1] if following else ""
                self.assertEqual(list(map(timestamp, times)), seen)


if __name__ == "__main__":
    unittest.main()
