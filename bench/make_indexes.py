#!/usr/bin/env python3
"""Makes index lines at random, but the same each time: lines as the indexer writes them, of a thousand hosts.

usage: make_indexes.py KIND FOLDER LINES

KIND is merge, query or serve: the indexes that measure_merge.py, measure_query.py or measure_serve.py measures are written to FOLDER. These scripts
run this one as a process of its own, because what it holds would count as their memory.
"""
import pathlib
import random
import sys
from collections.abc import Sequence

sys.path.insert(0, str(pathlib.Path(__file__).resolve().parents[1] / "tests"))

from program import parser_of

HOSTS = 1000
LETTERS = "abcdefghijklmnopqrstuvwxyz"
BASE_32 = "ABCDEFGHIJKLMNOPQRSTUVWXYZ234567"
FOLDERS = ("articles", "images", "css", "archive/2016", "people", "search")
LINE = (
    '%s)/%s %s {"url": "http://www.%s/%s", "mime": "%s", "status": "%s", "digest": "%s", "length": "%d", "offset": "%d", '
    '"filename": "%s"}\n'
)


def lines(count: int, host_count: int = HOSTS) -> list[bytes]:
    """Returns lines of different captures, in the order of places."""
    choice = random.Random(count)
    hosts = ["".join(choice.choices(LETTERS, k=choice.randint(4, 12))) for _ in range(host_count)]
    made = []
    for number in range(count):
        host = choice.choice(hosts)
        path = f"{choice.choice(FOLDERS)}/{choice.randrange(count // 3)}.html"
        stamp = f"2016{choice.randint(1, 12):02}{choice.randint(1, 28):02}{choice.randrange(24):02}{choice.randrange(60):02}{choice.randrange(60):02}"
        digest = "".join(choice.choices(BASE_32, k=32))
        kind, status = choice.choice((("text/html", "200"), ("image/png", "200"), ("text/html", "404")))
        name = f"EXAMPLE-20160919172024-{number % 100:05}.warc"
        length, offset = choice.randint(400, 90_000), number * 7000
        line = LINE % (f"com,{host}", path, stamp, f"{host}.com", path, kind, status, digest, length, offset, name)
        made.append(((f"com,{host})/{path}".encode(), stamp, name, offset), line.encode()))
    made.sort()
    return [line for _, line in made]


def deal(ordered: Sequence[bytes], count: int, folder: pathlib.Path, name: str) -> None:
    """Writes the lines to a number of files, each of them sorted. One line in ten is in two files."""
    choice = random.Random(count)
    dealt = [[] for _ in range(count)]
    for line in ordered:
        first = choice.randrange(count)
        dealt[first].append(line)
        if count > 1 and choice.random() < 0.1:
            dealt[(first + choice.randrange(1, count)) % count].append(line)
    files = [folder / f"{name}-{number:04}.cdxj" for number in range(count)]
    for path, its in zip(files, dealt):
        path.write_bytes(b"".join(its))


def write_whole(ordered: Sequence[bytes], folder: pathlib.Path, name: str = "whole") -> None:
    (folder / name).write_bytes(b"".join(ordered))


def for_merge(folder: pathlib.Path, count: int) -> None:
    half = lines(count // 2)
    write_whole(half, folder, "half")
    deal(half, 4, folder, "half-4")
    whole = lines(count)
    write_whole(whole, folder)
    for files in (1, 4, 64, 1024):
        deal(whole, files, folder, f"whole-{files}")


def for_query(folder: pathlib.Path, count: int) -> None:
    write_whole(lines(count // 10), folder, "tenth")
    write_whole(lines(count, HOSTS // 10), folder, "hosts")
    whole = lines(count)
    write_whole(whole, folder)
    for files in (4, 64, 1024):
        deal(whole, files, folder, f"whole-{files}")


def for_serve(folder: pathlib.Path, count: int) -> None:
    write_whole(lines(count), folder)


MAKERS = {"merge": for_merge, "query": for_query, "serve": for_serve}


def main() -> None:
    parser = parser_of(__doc__)
    parser.add_argument("kind", metavar="KIND", choices=sorted(MAKERS), help="merge, query or serve")
    parser.add_argument("folder", metavar="FOLDER", type=pathlib.Path, help="the folder of the indexes")
    parser.add_argument("lines", metavar="LINES", type=int, help="the number of lines of the largest index")
    arguments = parser.parse_args()
    MAKERS[arguments.kind](arguments.folder, arguments.lines)


if __name__ == "__main__":
    main()
