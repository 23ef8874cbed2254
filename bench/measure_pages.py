#!/usr/bin/env python3
"""Measures how long the gateway takes for pages and for the last captures of a domain, in a worker that has answered nothing before.

usage: measure_pages.py [--lines N] [--runs N] [PROGRAM]

Makes an index of N lines (1,000,000) in N files (1) in a temporary folder (TMPDIR), and prints a table: milliseconds of the wall clock, and how many
times as long as the captures of one URL take. The exit status is 0, or 1 if a goal is missed.
"""
import contextlib
import pathlib
import random
import subprocess
import sys
import tempfile
import time

from measuring import machine

from program import add_program, find_program, parser_of

ROOT = pathlib.Path(__file__).resolve().parents[1]
sys.path[:0] = [str(ROOT / "gateway"), str(ROOT / "python")]

from warcdx_gateway import pages
from warcdx_gateway.answers import Answers
from warcdx_gateway.collection import Collection, Source
from warcdx_gateway.generation import Generation
from warcdx_gateway.parameters import Form
from warcdx_gateway.plan import plan_of
from warcdx_gateway.settings import CollectionSettings, Settings

ROUNDS = 5
GOAL = 50  # milliseconds
PER_HOST = 100_000
ONE = "url=h0000.example.com/p000017"
QUERIES = (
    "showNumPages=true", "page=0", "page=PAGE", "page=PAGE&output=json", "page=PAGE&filter=statuscode:404", "page=PAGE&collapse=urlkey",
    "page=9999999", "limit=-5", "sort=reverse&limit=3", "filter=statuscode:404&limit=-5",
)  # fmt: skip
BY_PYTHON = "page=PAGE&collapse=digest"  # Python reads each line of the page, which takes longer than to find it


def write_lines(path: pathlib.Path, numbers: range, seed: int) -> None:
    """Writes lines of different captures of a domain, in order."""
    choice = random.Random(seed)
    with open(path, "w", encoding="utf-8", buffering=1 << 20) as file:
        for number in numbers:
            host, page = divmod(number, PER_HOST)
            name = f"p{page:06}"
            file.write(
                f'com,example,h{host:04})/{name} 20{choice.randrange(10, 24)}0101000000 {{"url": "http://h{host:04}.example.com/{name}?some=query", '
                f'"mime": "text/html", "status": "{"404" if choice.random() < 0.1 else "200"}", "digest": "{choice.getrandbits(160):032X}", '
                f'"length": "{choice.randrange(500, 20_000)}", "offset": "{choice.randrange(10**9)}", "filename": "crawl-{number % 37:05}.warc.gz"}}\n'
            )


def seconds_of(settings: Settings, query: str) -> float:
    """Returns how long an answer takes in a process whose program has answered one query."""
    each = settings.collections[0]
    pages.key_of.cache_clear()
    with contextlib.closing(Collection(each, settings, Generation(each.files))) as collection:
        collection.index.text(ONE)
        start = time.perf_counter()
        plan = plan_of(query, Form.WAYBACK, settings.limits, True)
        for _ in Answers(settings.limits).pieces(plan, Source(collection), collection.tag):
            pass
        return time.perf_counter() - start


def main() -> int:
    parser = parser_of(__doc__)
    parser.add_argument("--lines", type=int, default=1_000_000)
    parser.add_argument("--runs", type=int, default=1)
    add_program(parser)
    options = parser.parse_args()
    program = find_program(options.program)
    with tempfile.TemporaryDirectory() as folder:
        paths = [pathlib.Path(folder, f"{number}.cdxj") for number in range(options.runs)]
        for number, path in enumerate(paths):
            write_lines(path, range(number, options.lines, options.runs), number)
        subprocess.run([program, "check", *paths], check=True, stdout=subprocess.DEVNULL)
        settings = Settings((CollectionSettings("main", "Main", tuple(paths)),), "main", program=str(program))
        page = sum(path.stat().st_size for path in paths) // 4_500_000 * 3 // 4
        print(f"{machine()}; {options.lines:,} lines in {options.runs} files; the least of {ROUNDS} rounds\n")
        one = min(seconds_of(settings, ONE) for _ in range(ROUNDS))
        print(f"{'the captures of one URL':<40}{1000 * one:8.1f} ms")
        is_met = True
        for query in (*QUERIES, BY_PYTHON):
            text = query.replace("PAGE", str(page))
            found = 1000 * min(seconds_of(settings, f"url=*.example.com&{text}") for _ in range(ROUNDS))
            print(f"{text:<40}{found:8.1f} ms  {found / (1000 * one):6.0f} times", end="")
            print("" if query is BY_PYTHON else f"  goal {GOAL} ms  {'met' if found < GOAL else 'MISSED'}")
            is_met = is_met and (query is BY_PYTHON or found < GOAL)
    return 0 if is_met else 1


if __name__ == "__main__":
    sys.exit(main())
