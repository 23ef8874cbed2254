#!/usr/bin/env python3
"""Makes the sample archives of this folder.

usage: make.py                 writes response.warc and damaged.warc beside this script
       make.py crop FROM TO    copies the records of the archive FROM, in their order, each that keeps TO below 300 kB
"""
import pathlib
import sys

LIMIT = 300_000
CLOSING = b"\r\n\r\n"


def record(fields, block):
    lines = ["WARC/1.1", *fields, f"Content-Length: {len(block)}"]
    return "\r\n".join(lines).encode() + CLOSING + block + CLOSING


RESPONSE = record(
    [
        "WARC-Type: response",
        "WARC-Record-ID: <urn:x:1>",
        "WARC-Date: 2016-09-19T17:20:24Z",
        "WARC-Target-URI: http://example.com/",
        "Content-Type: application/http; msgtype=response",
    ],
    b"HTTP/1.1 200 OK\r\nContent-Type: text/html; charset=utf-8\r\n\r\n",
)
RESOURCE = record(
    [
        "WARC-Type: resource",
        "WARC-Record-ID: <urn:x:3>",
        "WARC-Date: 2016-09-19T17:20:24Z",
        "WARC-Target-URI: http://example.com/r",
        "Content-Type: text/plain",
    ],
    b"abc",
)
SAMPLES = {"response.warc": RESPONSE, "damaged.warc": RESPONSE + RESOURCE + RESPONSE[:231]}


def records(archive):
    """Yields the records of a whole archive, each as its bytes."""
    start = 0
    while start < len(archive):
        head_end = archive.index(CLOSING, start) + len(CLOSING)
        fields = (line.partition(b":") for line in archive[start:head_end].splitlines())
        length = next(int(value) for name, _, value in fields if name.lower() == b"content-length")
        end = head_end + length + len(CLOSING)
        yield archive[start:end]
        start = end


def crop(archive):
    """Keeps each record that still fits below the limit."""
    kept = b""
    for each in records(archive):
        if len(kept) + len(each) < LIMIT:
            kept += each
    return kept


def main(words):
    if not words:
        for name, archive in SAMPLES.items():
            pathlib.Path(__file__).with_name(name).write_bytes(archive)
    elif words[0] == "crop" and len(words) == 3:
        source, target = map(pathlib.Path, words[1:])
        target.write_bytes(crop(source.read_bytes()))
    else:
        sys.exit(__doc__)


main(sys.argv[1:])
