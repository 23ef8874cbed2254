#!/usr/bin/env python3
"""Sends one `serve` many queries, and ends its input and its output in bad ways.

usage: serve_load.py [--lines N] [--seed N] [PROGRAM]

One line in ten is refused, and one in a hundred has more than 65,536 bytes. The others are queries for all kinds of pages over two small indexes.
Each reply has to be that of the plain program (tests/plain/queries.py). Then a client stops reading for a while, disconnects, waits for each
reply before it asks again, and shortens an index; standard output is a full disk, and standard input a folder. Each run has to end with the exit
status and the line on standard error that docs/COMMANDS.md gives.

Prints the numbers of what was tried, a line for each case, and the counts. The exit status is 0, or 1 if a case differs.
"""
import collections
import functools
import pathlib
import random
import subprocess
import sys
import tempfile
import threading
import time
from collections.abc import Iterable, Iterator, Sequence
from typing import Any, BinaryIO

sys.path.insert(0, str(pathlib.Path(__file__).resolve().parents[1]))

from plain import queries as plain
from program import Report, add_program, find_program, parser_of, without_advice

LIMIT = 65_536
MARK = b".\n"
LINE = (
    'com,example)/%d %d {"url": "http://example.com/%d", "mime": "%s", "status": "200", "digest": "-", "length": "%d", "offset": "%d", '
    '"filename": "a.warc"}\n'
)
REFUSED = (
    b"",
    b"limit=0",
    b"key=a&url=a",
    b"url=a&page=0",
    b"url=a&limit=5&limit=5",
    b"url=a&output=xml",
    b"url=a&filter=mimetype:text/.*",
    b"url=a&from=2016-",
    b"key=\xff",
    b"\xed\xa0\x80",
    b"a" * LIMIT,
)


def index(choice: random.Random) -> bytes:
    """Returns an index of a thousand captures of five hundred keys."""
    keys = sorted(choice.choices(range(100, 1000), k=1000))
    stamps = sorted(choice.choices(range(20160101000000, 20160131000000), k=1000))
    lines = []
    for number, (key, stamp) in enumerate(zip(keys, stamps)):
        kind = choice.choice(("text/html", "image/png", "."))
        lines.append((LINE % (key, stamp, key, kind, choice.randrange(10_000), number)).encode())
    return b"".join(lines)


def query(choice: random.Random) -> bytes:
    key = choice.randrange(100, 1000)
    pieces = [choice.choice((f"key=com,example)/{key}", f"url=example.com/{key}", f"url=example.com/{key // 10}*"))]
    pieces += choice.sample(("limit=2", "showResumeKey=true", "fl=mimetype", "is=mimetype:.", f"output={choice.choice(plain.OUTPUTS)}"), 2)
    return "&".join(pieces).encode()


def asked(choice: random.Random, queries: Sequence[bytes]) -> bytes:
    """Returns a line, without its end."""
    kind = choice.random()
    if kind < 0.01:
        return choice.choice((b"a", b"\xff", b"\r", b"key=&")) * choice.randrange(LIMIT + 1, LIMIT + 20_000)
    return choice.choice(REFUSED if kind < 0.11 else queries)


def conversation(count: int, seed: int) -> Iterator[tuple[bytes, bytes]]:
    """Yields the lines with their ends, and their queries. The last line has no end."""
    choice = random.Random(seed)
    queries = [query(choice) for _ in range(1000)]
    for number in range(count):
        text = asked(choice, queries)
        end = b"" if number == count - 1 else choice.choice((b"\n", b"\r\n"))
        yield text + end, text.removesuffix(b"\r") if end == b"\n" else text


class Plain:
    """The replies of the plain program over these indexes."""

    def __init__(self, texts: Sequence[bytes]) -> None:
        self.lines = plain.read_lines(texts)

    @functools.lru_cache(maxsize=None)
    def page(self, text: str) -> bytes:
        try:
            return plain.answer(plain.read_query(text), self.lines)
        except plain.Refused as refusal:
            return f"refused {refusal}\n".encode()

    def reply(self, line: bytes) -> bytes:
        if len(line) > LIMIT:
            return b"refused QueryTooLong\n" + MARK
        try:
            return self.page(line.decode()) + MARK
        except UnicodeDecodeError:
            return b"refused NotText\n" + MARK


class Differs(Exception):
    """What differs."""


def expect(case: str, found: object, wanted: object) -> None:
    if found != wanted:
        raise Differs(f"{case}\nwanted {wanted!r:.2000}\nfound  {found!r:.2000}")


def started(program: pathlib.Path, names: Sequence[str], **devices: Any) -> "subprocess.Popen[bytes]":
    pipes = {"stdin": subprocess.PIPE, "stdout": subprocess.PIPE, "stderr": subprocess.PIPE}
    return subprocess.Popen((program, "serve", *names), **{**pipes, **devices})


def expect_end(case: str, process: "subprocess.Popen[bytes]", status: int, error: bytes) -> None:
    """The exit status, and what is printed on standard error."""
    said = without_advice(process.stderr.read())
    process.stderr.close()
    expect(case, (process.wait(20), said), (status, error))


def write_all(lines: Iterable[bytes], pipe: BinaryIO) -> None:
    """Writes the lines, as far as the program reads them."""
    try:
        with pipe:
            pipe.writelines(lines)
    except BrokenPipeError:
        pass


def writer(lines: Iterable[bytes], process: "subprocess.Popen[bytes]") -> threading.Thread:
    thread = threading.Thread(target=write_all, args=(lines, process.stdin))
    thread.start()
    return thread


def expect_replies(case: str, replies: Iterable[bytes], process: "subprocess.Popen[bytes]") -> None:
    with process.stdout:
        for number, wanted in enumerate(replies):
            expect(f"{case}: line {number}", process.stdout.read(len(wanted)), wanted)
        expect(f"{case}: the end", process.stdout.read(1), b"")


def many_lines(program: pathlib.Path, names: Sequence[str], answers: Plain, count: int, seed: int) -> "collections.Counter[str]":
    tried: "collections.Counter[str]" = collections.Counter()
    replies = []
    for line, text in conversation(count, seed):
        replies.append(answers.reply(text))
        tried["refused" if replies[-1].startswith(b"refused ") else "pages"] += 1
        tried["refused as QueryTooLong"] += len(text) > LIMIT
        tried["bytes of lines"] += len(line)
    start = time.monotonic()
    process = started(program, names)
    thread = writer((line for line, _ in conversation(count, seed)), process)
    expect_replies("many lines", replies, process)
    thread.join()
    expect_end("many lines", process, 0, b"")
    tried["bytes of replies"] = sum(map(len, replies))
    tried["seconds"] = round(time.monotonic() - start)
    return tried


def is_waiting(process: "subprocess.Popen[bytes]") -> bool:
    return "\nState:\tS" in pathlib.Path(f"/proc/{process.pid}/status").read_text()


def a_reader_that_pauses(program: pathlib.Path, names: Sequence[str], answers: Plain) -> None:
    """The program waits, and then continues."""
    text = b"key=&matchType=prefix"
    process = started(program, names)
    thread = writer([text + b"\n"] * 100, process)
    time.sleep(1)
    expect("a reader that pauses: the program", (process.poll(), is_waiting(process)), (None, True))
    expect_replies("a reader that pauses", [answers.reply(text)] * 100, process)
    thread.join()
    expect_end("a reader that pauses", process, 0, b"")


def a_reader_that_leaves(program: pathlib.Path, names: Sequence[str], answers: Plain) -> None:
    text = b"key=&matchType=prefix"
    process = started(program, names)
    thread = writer([text + b"\n"] * 100, process)
    wanted = answers.reply(text)
    expect("a reader that leaves", process.stdout.read(len(wanted)), wanted)
    process.stdout.close()
    expect_end("a reader that leaves", process, 3, b"warcdx: Write\n")
    thread.join()


def a_client_that_waits(program: pathlib.Path, names: Sequence[str], answers: Plain) -> None:
    """Asks again once the reply has come, and leaves within a line."""
    choice = random.Random(2)
    process = started(program, names, bufsize=0)
    for number in range(1000):
        text = query(choice)
        process.stdin.write(text + b"\n")
        wanted, found = answers.reply(text), b""
        while len(found) < len(wanted):
            found += process.stdout.read(len(wanted) - len(found)) or sys.exit("a client that waits: no reply")
        expect(f"a client that waits: line {number}", found, wanted)
    process.stdin.write(b"key=x")
    process.stdin.close()
    expect_replies("a client that waits: a line without an end", [MARK], process)
    expect_end("a client that waits", process, 0, b"")


def a_full_disk(program: pathlib.Path, names: Sequence[str], _answers: Plain) -> None:
    with open("/dev/full", "wb") as full:
        process = started(program, names, stdout=full)
        thread = writer([b"key=x\n"] * 100_000, process)
        expect_end("a full disk", process, 3, b"warcdx: Write\n")
        thread.join()


def no_input(program: pathlib.Path, names: Sequence[str], _answers: Plain) -> None:
    with open("/dev/full", "wb") as full, open("/dev/null", "rb") as null:
        expect_end("no input, and a full disk", started(program, names, stdin=null, stdout=full), 0, b"")


def an_input_that_fails(program: pathlib.Path, names: Sequence[str], _answers: Plain) -> None:
    folder = subprocess.Popen(
        ("sh", "-c", 'exec "$0" serve "$@" < .', program, *names), stdout=subprocess.PIPE, stderr=subprocess.PIPE, cwd="/"
    )
    expect_replies("an input that fails", [], folder)
    expect_end("an input that fails", folder, 3, b"warcdx: Input\n")


def an_index_that_is_shortened(program: pathlib.Path, names: Sequence[str], answers: Plain) -> None:
    """The replies before stay as they are."""
    shortened = names[0] + ".short"
    pathlib.Path(shortened).write_bytes(pathlib.Path(names[0]).read_bytes())
    process = started(program, [shortened, names[1]], bufsize=0)
    process.stdin.write(b"key=x\n")
    expect("an index that is shortened", process.stdout.read(len(MARK)), MARK)
    pathlib.Path(shortened).write_bytes(b"")
    process.stdin.write(b"key=com,&matchType=prefix\n")
    expect_replies("an index that is shortened", [], process)
    expect_end("an index that is shortened", process, 3, f"warcdx: {shortened}: Read\n".encode())
    process.stdin.close()


WAYS = (
    a_reader_that_pauses,
    a_reader_that_leaves,
    a_client_that_waits,
    a_full_disk,
    no_input,
    an_input_that_fails,
    an_index_that_is_shortened,
)


def main() -> int:
    parser, report = parser_of(__doc__), Report()
    parser.add_argument("--lines", metavar="N", type=int, default=100_000, help="the number of lines (default: 100000)")
    parser.add_argument("--seed", metavar="N", type=int, default=1, help="the seed of the random choices (default: 1)")
    add_program(parser)
    arguments = parser.parse_args()
    program = find_program(arguments.program)
    with tempfile.TemporaryDirectory() as folder:
        names = [str(pathlib.Path(folder) / f"{number}.cdxj") for number in range(2)]
        texts = [index(random.Random(f"{arguments.seed} {number}")) for number in range(2)]
        for name, text in zip(names, texts):
            pathlib.Path(name).write_bytes(text)
        answers = Plain(texts)
        try:
            tried = many_lines(program, names, answers, arguments.lines, arguments.seed)
            for name, number in sorted(tried.items()):
                print(f"{number:12} {name}")
            report.add_ok(f"{arguments.lines} lines")
        except Differs as difference:
            report.add_difference(f"{arguments.lines} lines", difference)
        for way in WAYS:
            title = way.__name__.replace("_", " ")
            try:
                way(program, names, answers)
                report.add_ok(title)
            except Differs as difference:
                report.add_difference(title, difference)
    return report.end()


if __name__ == "__main__":
    sys.exit(main())
