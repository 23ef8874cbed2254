#!/usr/bin/env python3
"""Crawls with wget into compressed archives, and compares what warcdx-gz makes of them with wget's CDX files.

usage: check_compressed.py [--pages FOLDER] [PROGRAM]

serve_pages.py serves FOLDER, by default /usr/share/doc/wget, or docs/ of this repository. wget crawls it
twice, the second time with the CDX file of the first, so that what is unchanged becomes revisit records. Of
each crawl, which is NAME.warc.gz:

- each line of wget's CDX file is a line of the index, with the same URL, date and offset;
- at each offset of the index is one member of gzip, of the length of the index, and its record has the URL;
- the lines are those of `warcdx index` of the unpacked archive, but for offset and length;
- the records that are listed are those of the unpacked archive, in number and type, and so are the verdicts;
- `warcdx-gz get` writes what is in the unpacked archive.

Prints a line for each check, and the counts. The exit status is 0, or 1 if a check fails. Needs wget.
"""
import contextlib
import gzip
import json
import pathlib
import subprocess
import sys
import tempfile
import zlib
from collections.abc import Iterator

HERE = pathlib.Path(__file__).resolve().parent
sys.path.insert(0, str(HERE.parent))

from program import ROOT, Report, add_program, find_packed_program, find_program, need, parser_of

USUAL = pathlib.Path("/usr/share/doc/wget")
WGET = (
    "wget --recursive --level=inf --delete-after --no-verbose --execute=robots=off --tries=2 --timeout=20 --no-proxy "
    "--warc-cdx --warc-tempdir=."
).split()
SERVER_ERROR = 8  # wget's exit status if the server has sent an error, as it does for some pages
FETCHED = 15  # records of a crawl, at most


@contextlib.contextmanager
def served(pages: pathlib.Path) -> Iterator[str]:
    """Yields the URL of the pages."""
    with subprocess.Popen((HERE / "serve_pages.py", pages), stdout=subprocess.PIPE, text=True) as server:
        assert server.stdout is not None
        try:
            yield f"http://127.0.0.1:{server.stdout.readline().strip()}/"
        finally:
            server.kill()


def crawl(url: str, name: str, folder: pathlib.Path, *options: str) -> None:
    command = (*WGET, f"--warc-file={name}", f"--output-file={name}.log", *options, url)
    if subprocess.run(command, cwd=folder).returncode not in (0, SERVER_ERROR):
        sys.exit(f"wget has failed: {(folder / f'{name}.log').read_text()[-2000:]}")


def output(*command: object) -> bytes:
    """Returns what a command prints. verify ends with status 1 for the revisits of wget, whose digests aren't those of their blocks."""
    return subprocess.run([str(word) for word in command], stdout=subprocess.PIPE).stdout


def places_of_cdx(path: pathlib.Path) -> set[tuple[str, str, int]]:
    """Returns the URL, the date and the offset of each line of wget's CDX file, but for the line of names."""
    rows = [line.split() for line in path.read_bytes().splitlines()[1:]]
    return {(row[0].decode(), row[1].decode(), int(row[-3])) for row in rows}


class Crawl:
    """A crawl, its unpacked archive, and the lines of its index."""

    def __init__(self, program: pathlib.Path, folder: pathlib.Path, name: str) -> None:
        self.program, self.packed_program = program, find_packed_program(program)
        self.packed = folder / f"{name}.warc.gz"
        self.plain = folder / f"{name}.warc"
        self.plain.write_bytes(gzip.decompress(self.packed.read_bytes()))
        self.lines = self.run("index", self.packed).splitlines()
        self.captures = [json.loads(line.split(b" ", 2)[2]) for line in self.lines]
        self.places = {
            (capture["url"], line.split(b" ", 2)[1].decode(), int(capture["offset"]))
            for line, capture in zip(self.lines, self.captures)
        }

    def run(self, *arguments: object) -> bytes:
        return output(self.packed_program, *arguments)

    def bad_members(self) -> list[str]:
        """Returns the URLs of the captures that have no member of their own."""
        text, found = self.packed.read_bytes(), []
        for capture in self.captures:
            offset, length = int(capture["offset"]), int(capture["length"])
            member = zlib.decompressobj(31)
            record = member.decompress(text[offset : offset + length])
            if not member.eof or member.unused_data or capture["url"].encode() not in record.partition(b"\r\n\r\n")[0]:
                found.append(capture["url"])
        return found

    def differing_lines(self) -> int:
        """Returns how many lines differ from those of the unpacked archive in more than their places."""
        plain = output(self.program, "index", self.plain).splitlines()
        cut = [[line[: line.rindex(b', "length"')] for line in lines] for lines in (plain, self.lines)]
        return abs(len(plain) - len(self.lines)) + sum(one != other for one, other in zip(*cut))

    def column(self, command: str, of: str, number: int) -> list[bytes]:
        run = self.run(command, self.packed) if of == "packed" else output(self.program, command, self.plain)
        return [line.split()[number] for line in run.splitlines()]

    def differing_records(self) -> int:
        """Returns how many of the first records are fetched otherwise than from the unpacked archive."""
        packed, plain = self.column("list", "packed", 0), self.column("list", "plain", 0)
        text = self.plain.read_bytes()
        ends = [*map(int, plain[1:]), len(text)]
        return sum(
            self.run("get", one.decode(), self.packed) != text[int(other) : end]
            for one, other, end in list(zip(packed, plain, ends))[:FETCHED]
        )


def check(report: Report, crawl: Crawl, name: str, cdx: pathlib.Path) -> None:
    wanted = places_of_cdx(cdx)
    checks = (
        (f"{len(wanted)} lines of wget's CDX file", sorted(wanted - crawl.places)[:3]),
        (f"{len(crawl.captures)} members of captures", crawl.bad_members()[:3]),
        (f"{len(crawl.lines)} lines of the index", crawl.differing_lines()),
        ("types of records", crawl.column("list", "packed", 2) != crawl.column("list", "plain", 2)),
        ("verdicts", crawl.column("verify", "packed", 1) != crawl.column("verify", "plain", 1)),
        ("records", crawl.differing_records()),
    )
    for case, differing in checks:
        if differing:
            report.add_difference(f"{name}, {case}", differing)
        else:
            report.add_ok(f"{name}, {case}")


def main() -> int:
    parser, report = parser_of(__doc__), Report()
    parser.add_argument("--pages", metavar="FOLDER", type=pathlib.Path, default=USUAL if USUAL.is_dir() else ROOT / "docs")
    add_program(parser)
    given = parser.parse_args()
    program = find_program(given.program)
    need("wget")
    with tempfile.TemporaryDirectory() as name, served(given.pages) as url:
        folder = pathlib.Path(name)
        crawl(url, "first", folder)
        crawl(url, "again", folder, f"--warc-dedup={folder / 'first.cdx'}")
        for each in ("first", "again"):
            check(report, Crawl(program, folder, each), each, folder / f"{each}.cdx")
    return report.end()


if __name__ == "__main__":
    sys.exit(main())
