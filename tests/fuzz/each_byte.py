#!/usr/bin/env python3
"""Changes each byte of a small archive, of a small index and of a query into each other, and compares what warcdx says with plain readers.

usage: each_byte.py [PROGRAM]

Each byte is also left out and doubled, and the text is cut before it. An archive with a long block, which the program passes over, is only cut
before each of its bytes. `list`, `verify` and `index` read the archives, `check` the indexes, and `serve` all queries.

A case is a run over 500 texts at most. Prints what is wrong in each case that differs, what was
tried, and the counts. The exit status is 0, or 1 if a case differs.
"""
import collections
import itertools
import pathlib
import random
import sys
import tempfile
from collections.abc import Callable, Iterable, Iterator

sys.path.insert(0, str(pathlib.Path(__file__).resolve().parents[1]))

from archive_trials import Read, expect_index, expect_reports
from index_trials import expect_checks
from plain import lines as plain_lines
from plain import queries as plain_queries
from plain import records as plain_records
from plain.lines import Line
from program import add_program, find_program, parser_of
from trial import Trial, Wrong

ARCHIVE = (
    b"WARC/1.1\r\nWARC-Type: response\r\nWARC-Record-ID: <urn:x:1>\r\nWARC-Date: 2016-09-19T17:20:24Z\r\n"
    b"WARC-Target-URI: http://www.Example.com:81/a/../B?c=D#e\r\nContent-Type: application/http;\r\n msgtype=response\r\nContent-Length: 67\r\n\r\n"
    b"HTTP/1.1 200 OK\r\nContent-Type: text/html;a\r\ncontent-type: b/c\n\r\nabc\r\n\r\n"
    b"WARC/1.0\r\ncontent-length:3\r\nWARC-Type: resource\r\nWARC-Record-ID: 2\r\nWARC-Date: 2016-02\r\nWARC-Target-URI: dns:a\r\n"
    b"WARC-Block-Digest: sha1:VGMT4NSHA2AWVOR6EVYXQUGCNSONBWE5\r\n\r\nabc\r\n\r\n"
)
LONG_ARCHIVE = (
    b"WARC/1.1\r\nWARC-Type: resource\r\nWARC-Record-ID: <urn:x:3>\r\nWARC-Date: 2016-09-19T17:20:24Z\r\n"
    b"WARC-Target-URI: http://example.com/long\r\nWARC-Payload-Digest: sha1:VGMT4NSHA2AWVOR6EVYXQUGCNSONBWE5\r\nContent-Length: 20000\r\n\r\n"
    + bytes(20_000)
    + b"\r\n\r\n"
    + ARCHIVE
)
INDEX = (
    b'com,example)/ 20160919172024 {"url": "http://example.com/", "mime": "\xc3\xa9", "offset": "12", "filename": "a.warc"}\n'
    b'com,example)/a 20160101000000 {"status": 200, "filename": "\\u00e9", "offset": 7}\n'
    b'com,example)/a 20160101000000 {"a": [1.5e1, {"b": null}, "\\ud83d\\ude00"], "offset": 8, "filename": "b"}'
)
QUERY = (
    b"key=com,example)/&matchType=prefix&from=2016&to=20161&limit=03&showResumeKey=true&fl=urlkey,offset&output=json&"
    b"filter=!statuscode:404&is=mimetype:-&resumeKey=com%2Cexample%29%2F+20160919172024+a.warc+12"
)
BATCH = 500


def changed(text: bytes) -> Iterator[bytes]:
    for at in range(len(text)):
        for byte in range(256):
            yield text[:at] + bytes([byte]) + text[at + 1 :]
        yield text[:at] + text[at + 1 :]
        yield text[:at] + text[at : at + 1] * 2 + text[at + 1 :]
        yield text[:at]


def cut(text: bytes) -> Iterable[bytes]:
    return (text[:at] for at in range(len(text)))


def batches(texts: Iterable[bytes]) -> Iterator[list[bytes]]:
    left = iter(texts)
    batch = list(itertools.islice(left, BATCH))
    while batch:
        yield batch
        batch = list(itertools.islice(left, BATCH))


def written(trial: Trial, texts: Iterable[bytes], ending: str) -> list[str]:
    names = [f"{number}.{ending}" for number, _ in enumerate(texts)]
    for name, text in zip(names, texts):
        (trial.folder / name).write_bytes(text)
    return names


def try_archives(trial: Trial, texts: list[bytes]) -> None:
    names = written(trial, texts, "warc")
    reads = [Read(*plain_records.read(text)) for text in texts]
    trial.tally["archives"] += len(texts)
    trial.tally.update(f"archive: {read.fault[1] if read.fault else 'whole'}" for read in reads)
    expect_reports(trial, names, reads)
    expect_index(trial, names, reads)


def try_indexes(trial: Trial, texts: list[bytes]) -> None:
    names = written(trial, texts, "cdxj")
    faults = [plain_lines.first_fault(text) for text in texts]
    trial.tally["indexes"] += len(texts)
    trial.tally.update(f"index: {fault[1] if fault else 'in order'}" for fault in faults)
    expect_checks(trial, names, texts, faults)


def try_queries(trial: Trial, texts: list[bytes]) -> None:
    (trial.folder / "index").write_bytes(INDEX)
    lines = plain_queries.read_lines([INDEX])
    queries = [text for text in texts if b"\n" not in text and not text.endswith(b"\r")]
    found = trial.run("serve", "index", lines=b"".join(query + b"\n" for query in queries)).output
    for query in queries:
        wanted = reply(query, lines)
        trial.check(found.startswith(wanted), f"{query!r}: {found[:200]!r} isn't {wanted!r}")
        found = found[len(wanted) :]
        trial.tally["queries"] += 1
        trial.tally[f"query: {wanted.split()[1].decode() if wanted.startswith(b'refused') else 'answered'}"] += 1
    trial.check(not found, f"{found[:200]!r} behind all replies")


def reply(text: bytes, lines: list[Line]) -> bytes:
    try:
        return plain_queries.answer(plain_queries.read_query(text.decode()), lines) + b".\n"
    except UnicodeDecodeError:
        return b"refused NotText\n.\n"
    except plain_queries.Refused as refusal:
        return f"refused {refusal}\n.\n".encode()


def differing(trial: Trial, try_texts: Callable[[Trial, list[bytes]], None], texts: Iterable[bytes]) -> int:
    """How many of the cases differ. What is wrong in them is printed."""
    count = 0
    for batch in batches(texts):
        trial.tally["cases"] += 1
        try:
            try_texts(trial, batch)
        except Wrong as wrong:
            count += 1
            print(f"differs: {wrong!s:.4000}")
    return count


def main() -> int:
    parser = parser_of(__doc__)
    add_program(parser)
    program = find_program(parser.parse_args().program)
    tally: collections.Counter[str] = collections.Counter()
    with tempfile.TemporaryDirectory() as folder:
        trial = Trial(str(program), pathlib.Path(folder), random.Random(1), tally)
        count = differing(trial, try_queries, changed(QUERY))
        count += differing(trial, try_indexes, changed(INDEX))
        count += differing(trial, try_archives, itertools.chain(cut(LONG_ARCHIVE), changed(ARCHIVE)))
    cases = tally.pop("cases")
    for name, number in sorted(tally.items()):
        print(f"{number:9} {name}")
    print(f"{cases} cases, {count} differ")
    return int(count > 0)


if __name__ == "__main__":
    sys.exit(main())
