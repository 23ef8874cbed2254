#!/usr/bin/env python3
"""Writes the files that the recipes of docs/ use beside the archives of this folder.

usage: recipe_files.py FOLDER

years.cdxj  an index of three years of crawls of one site, with 1 to 20,000 captures in a month, and
            three months without any. From the second year on, a capture of a page that hasn't
            changed is a revisit.
dedup.warc  a crawl as wget writes it with --warc-dedup: its revisit records have the digest of an
            empty block. One of its responses has a block that isn't that of its digest.

The same files are written each time. FOLDER has to exist.
"""
import argparse
import base64
import calendar
import datetime
import hashlib
import json
import pathlib
from collections.abc import Iterator

FIRST_YEAR = 2017
# The captures of each month, a line for each year.
COUNTS = (
    1, 2, 5, 9, 0, 31, 80, 200, 0, 450, 999, 1000,
    1200, 2500, 4000, 20000, 9000, 6000, 3000, 1500, 700, 300, 150, 60,
    12000, 40, 20, 10, 0, 7, 3, 100, 1000, 10000, 100, 1,
)  # fmt: skip
PAGES = ("/", "/news", "/a,b", '/say?"hello"')
DAYS_UNCHANGED = 3
EMPTY = b""


def digest_of(text: bytes) -> str:
    return base64.b32encode(hashlib.sha1(text).digest()).decode()


def stamps(month: int) -> Iterator[str]:
    """Yields the stamps of a month, in order, more of them in its first days than in its last."""
    year, number = FIRST_YEAR + month // 12, month % 12 + 1
    first = datetime.datetime(year, number, 1)
    seconds = calendar.monthrange(year, number)[1] * 86400
    for capture in range(COUNTS[month]):
        after = capture**3 * seconds // COUNTS[month] ** 3
        yield f"{first + datetime.timedelta(seconds=after):%Y%m%d%H%M%S}"


def lines_of_years() -> Iterator[str]:
    """Yields the lines of the index, out of order."""
    seen = set()
    for month in range(len(COUNTS)):
        for number, stamp in enumerate(stamps(month)):
            page = PAGES[number % len(PAGES)]
            day = int(stamp[:8])
            digest = digest_of(f"{page} {day - day % DAYS_UNCHANGED}".encode())
            is_revisit = month >= 12 and (page, digest) in seen
            seen.add((page, digest))
            members = {
                "url": f"http://example.com{page}",
                "mime": "warc/revisit" if is_revisit else "text/html",
                "status": "200",
                "digest": digest,
                "length": str(600 if is_revisit else 5000),
                "offset": str(number * 5000),
                "filename": f"{stamp[:6]}.warc",
            }
            yield f"com,example){page} {stamp} {json.dumps(members)}\n"


def years() -> bytes:
    return "".join(sorted(lines_of_years())).encode()


def record(kind: str, page: str, block: bytes, hashed: bytes) -> bytes:
    """Returns a record with the digest of these bytes as that of its block."""
    lines = (
        "WARC/1.0",
        f"WARC-Type: {kind}",
        f"WARC-Record-ID: <urn:x:{kind}{page}>",
        "WARC-Date: 2019-01-01T00:00:00Z",
        f"WARC-Target-URI: http://example.com{page}",
        f"WARC-Block-Digest: sha1:{digest_of(hashed)}",
        "Content-Type: application/http; msgtype=response",
        f"Content-Length: {len(block)}",
    )
    return "\r\n".join(lines).encode() + b"\r\n\r\n" + block + b"\r\n\r\n"


def deduplicated() -> bytes:
    head = b"HTTP/1.1 200 OK\r\nContent-Type: text/html\r\n\r\n"
    return b"".join(
        (
            record("response", "/1", head + b"one", head + b"one"),
            record("revisit", "/2", head, EMPTY),
            record("response", "/3", head + b"thrEe", head + b"three"),
            record("revisit", "/4", head, EMPTY),
        )
    )


def main() -> None:
    parser = argparse.ArgumentParser(usage=argparse.SUPPRESS, description=__doc__, formatter_class=argparse.RawDescriptionHelpFormatter)
    parser.add_argument("folder", metavar="FOLDER", type=pathlib.Path)
    folder = parser.parse_args().folder
    (folder / "years.cdxj").write_bytes(years())
    (folder / "dedup.warc").write_bytes(deduplicated())


if __name__ == "__main__":
    main()
