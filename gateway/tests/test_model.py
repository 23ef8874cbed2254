"""Random requests over random indexes, against a plain model, while processes are killed.

The variable GATEWAY_REQUESTS says how many requests are sent, and GATEWAY_SEED how they begin.
"""
import contextlib
import os
import random
import signal
import threading
import unittest
from typing import Optional

from .model import FIELDS, Capture, Request, answer, line_of
from .support import Case, Server, connected

REQUESTS = int(os.environ.get("GATEWAY_REQUESTS", "400"))
SEED = int(os.environ.get("GATEWAY_SEED", "1"))
PER_INDEX = 200  # requests
CLIENTS = 4
KILLS = 0.05  # seconds between two, at least
KEYS = [
    "com,example)/", "com,example)/a", "com,example)/a/b", "com,example)/b?x=1", "com,example:81)/",
    "com,example,www)/", "com,example,www)/z", "com,examples)/", "org,example)/",
]  # fmt: skip
TYPES = ("text/html", "text/plain", "image/png", "warc/revisit", "warc/revisit")
PATTERNS = (
    ("statuscode", "[23].."), ("statuscode", "200"), ("mimetype", "text/.*"), ("mimetype", "text/html"),
    ("digest", "[A-C]+"), ("timestamp", "201[0-5].*"), ("original", ".*example.com.*"), ("offset", ".*[05]"),
)  # fmt: skip
COLLAPSES: tuple[tuple[str, Optional[int]], ...] = (
    ("urlkey", None), ("timestamp", 4), ("timestamp", 6), ("digest", None), ("statuscode", 1), ("mimetype", None),
    ("urlkey", 12), ("original", 15),
)  # fmt: skip


def random_captures(chance: random.Random) -> list[Capture]:
    captures: list[Capture] = []
    few = chance.random() < 0.5
    for number in range(chance.choice((0, 1, 7, 60, 400, 1500, 7000))):
        kind = chance.choice(TYPES)
        year = chance.randint(2014, 2016) if few else chance.randint(2005, 2024)
        moment = f"{year}{chance.randint(1, 12):02}{chance.randint(1, 28):02}"
        clock = f"{chance.randint(0, 23):02}0000" if few else f"12{chance.randint(0, 59):02}30"
        key = chance.choice(KEYS[: 2 if few else None])
        values = (
            key,
            moment + clock,
            f"http://{key}{'é ' * (chance.random() < 0.05)}",
            kind,
            "-" if kind == "warc/revisit" else chance.choice(("200", "301", "404")),
            chance.choice("ABCDEFG") * 4,
            str(chance.randint(1, 99999)),
            str(number),
            chance.choice(("a.warc", "b c.warc")),
        )
        captures.append(dict(zip(FIELDS, values)))
    return sorted(captures, key=lambda each: (each["urlkey"], each["timestamp"], each["filename"], int(each["offset"])))


def index_of(captures: list[Capture]) -> str:
    return "".join(map(line_of, captures))


def random_request(chance: random.Random, captures: list[Capture]) -> Request:
    match = chance.choice(("exact", "exact", "prefix", "prefix", "host", "domain"))
    target = chance.choice(("com,example", "org,example")) if match in ("host", "domain") else chance.choice(KEYS)
    if match == "prefix":
        target = target[: chance.randint(0, len(target))]
    order = chance.choice(("forward", "forward", "forward", "last", "reverse", "closest"))
    if order == "closest":
        match, target = "exact", chance.choice(KEYS)
    limit = chance.choice((None, None, 1, 2, 5, 100, 1000))
    if order == "last" and limit is None:
        limit = 3
    fields = tuple(chance.sample(FIELDS, chance.randint(1, 9)))
    has_time = chance.random() < 0.3
    after, page, counts_pages = None, None, False
    if order == "forward" and captures and chance.random() < 0.2:
        after = chance.randrange(len(captures))
    elif order == "forward" and chance.random() < 0.2:
        page, counts_pages = chance.randint(0, 2), chance.random() < 0.3
    counts = chance.random() < 0.2 and len(captures) < 2000
    return Request(
        target,
        match,
        str(chance.randint(2010, 2016)) if has_time else "",
        str(chance.randint(201401, 202212)) if has_time else "",
        tuple((*chance.choice(PATTERNS), chance.random() < 0.3) for _ in range(chance.choice((0, 0, 0, 1, 1, 2)))),
        tuple(chance.choice(COLLAPSES) for _ in range(chance.choice((0, 0, 0, 1, 1, 2)))),
        limit,
        order,
        str(chance.randint(2004, 2025)) + chance.choice(("", "06", "0615", "0615123000")),
        chance.random() < 0.2 and len(captures) < 2000,
        counts,
        fields,
        chance.choice(("text", "text", "json")),
        order == "forward" and page is None and chance.random() < 0.5,
        after,
        None if counts_pages else page,
        counts_pages,
    )


class Random(Case):
    def test_answers_are_those_of_the_model(self) -> None:
        chance = random.Random(SEED)
        results = {"right": 0, "broken": 0, "busy": 0}
        killed = 0
        for start in range(0, REQUESTS, PER_INDEX):
            captures = random_captures(chance)
            names = [f"index-{number}" for number in range(chance.randint(1, 3))]
            parts: list[list[Capture]] = [[] for _ in names]
            for capture in captures:
                chance.choice(parts).append(capture)
            for name, part in zip(names, parts):
                self.put(index_of(part), name)
            settings = f"[collections.main]\nindexes = {names}\n"
            server = self.start(settings, head="workers = 4\nwide = 3\n")
            requests = [random_request(chance, captures) for _ in range(min(PER_INDEX, REQUESTS - start))]
            killed += self.ask_all(server, captures, requests, results, chance)
            self.assertEqual(0, server.end())
        print(f"{results}, {killed} processes killed", flush=True)
        self.assertEqual(REQUESTS, sum(results.values()))
        self.assertGreater(results["right"], REQUESTS * 0.7)

    def ask_all(
        self, server: Server, captures: list[Capture], requests: list[Request], results: dict[str, int], chance: random.Random
    ) -> int:
        is_over, lock, wrong = threading.Event(), threading.Lock(), list[str]()
        left = iter(requests)

        def ask() -> None:
            while True:
                with lock:
                    request = next(left, None)
                if request is None:
                    return
                query, wanted = request.query(captures), answer(request, captures)
                result = "broken"
                with contextlib.suppress(EOFError, ConnectionError, ValueError, IndexError):
                    with connected(server) as client:
                        found = client.ask(f"/cdx?{query}")
                    if found.status == 503:
                        result = "busy"
                    elif found.status == 200 and found.text == wanted:
                        result = "right"
                    elif found.status != 500:
                        with lock:
                            wrong.append(f"{query}\n{found.status} {found.text[:500]!r}\n{wanted[:500]!r}")
                with lock:
                    results[result] += 1

        threads = [threading.Thread(target=ask) for _ in range(CLIENTS)]
        for thread in threads:
            thread.start()
        killed = 0
        while any(thread.is_alive() for thread in threads):
            is_over.wait(KILLS)
            victims = server.programs() if chance.random() < 0.9 else server.workers()
            if victims:
                with contextlib.suppress(ProcessLookupError):
                    os.kill(chance.choice(victims), signal.SIGKILL)
                    killed += 1
        for thread in threads:
            thread.join()
        self.assertEqual([], wrong[:3])
        return killed


if __name__ == "__main__":
    unittest.main()
