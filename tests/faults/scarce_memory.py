#!/usr/bin/env python3
"""Runs commands of warcdx under limits on their memory, from the least under which the program starts to one that suffices.

usage: scarce_memory.py [PROGRAM]

Under each limit a run has to end as without one, or with exit status 3 and a line that says `Memory`. What it wrote then is a prefix of what it writes
otherwise. Then an input of 100 MB, as one head, one block or one line, is read with 8 MB more than the least memory: what a head at its limit takes.

Prints a line for each command, with the number of limits, and the counts. The exit status is 0, or 1 if a run ends in another way.
"""
import contextlib
import pathlib
import re
import resource
import subprocess
import sys
import threading
from collections.abc import Callable, Iterator, Sequence

sys.path.insert(0, str(pathlib.Path(__file__).resolve().parents[1]))

from device_runs import LONG, RECORD, SECONDS, Place, ended, expect, of_input, try_ways
from program import without_advice
from preloaded_runs import ALL, Ended

HEAD_MEMORY = 8_000_000  # bytes, for a head at its limit of 1,048,576 bytes


def memory_that_ends(place: Place) -> Iterator[str]:
    """Under each limit on its memory the program succeeds, or reports that memory could not be allocated."""
    least = least_memory(place)
    runs = {
        "index": LONG["index"],
        "merge": ("merge", "many.cdxj", "one-pair.cdxj", *["one.cdxj"] * 900),
        "merge of long lines": ("merge", "wide.cdxj", "many.cdxj"),
        "query of one key and stamp": ("query", f"{ALL}&output=json", "one-pair.cdxj"),
        "query of long lines": ("query", f"{ALL}&output=cdxj", "wide.cdxj"),
        "pages": ("pages", "1000", ALL, "one-pair.cdxj"),
        "scan": LONG["scan"],
        "serve": ("serve", "one-pair.cdxj", "wide.cdxj"),
        "check": ("check", "wide.cdxj"),
        "list": LONG["list"],
        "verify": LONG["verify"],
        "get": LONG["get"],
    }
    for name, words in runs.items():
        usual, refused, size = place.usual(words), 0, least
        while True:
            found = place.run(words, preexec_fn=limit_memory(size))
            if found == (0, usual, b""):
                break
            expect_no_memory(words, size, found, usual)
            refused += 1
            size += max(1 << 14, (size - least) // 8)
        yield f"{name}, {refused} limits from {least >> 10} to {size >> 10} kB"


def an_input_that_is_long(place: Place) -> Iterator[str]:
    """Nothing of 100 MB is held in memory as a whole."""
    size, least = 100_000_000, least_memory(place)
    front, _, back = (RECORD % (0, size, b"|")).partition(b"|")
    whole = len(front) + size + len(back)
    for words in (*of_input("-")[0], ("serve", "one.cdxj")):
        name, output, error = words[0], b"", b"warcdx: -: fault 0 HeadTooLong\n"
        if name in ("list", "verify"):
            output, error = b"fault 0 HeadTooLong\n", b""
        if name == "serve":
            output, error = b"refused QueryTooLong\n.\n", b""
        found = fed(place, words, (b"" if name == "serve" else b"WARC/1.1\r\n", size, b""), least)
        expect(found == (name != "serve", output, error), words, found)
        yield f"{name}, a head or a line"
    wanted = {"list": b"0 %d resource\n" % whole, "verify": b"0 absent\n"}
    for words in of_input("-")[0]:
        status, output, error = fed(place, words, (front, size, back), least)
        expect((status, error) == (0, b"") and output == wanted.get(words[0], output), words, status, error, output[:99])
        expect(words[0] != "get" or len(output) == whole, words, len(output))
        yield f"{words[0]}, a block"


def fed(place: Place, words: Sequence[str], text: tuple[bytes, int, bytes], least: int) -> tuple[int, bytes, bytes]:
    """Returns how a run ends that reads a front, a number of letters and a back from a pipe."""
    front, size, back = text
    process = place.start(words, stdin=subprocess.PIPE, preexec_fn=limit_memory(least + HEAD_MEMORY))

    def feed() -> None:
        with contextlib.suppress(BrokenPipeError), process.stdin as pipe:
            pipe.write(front)
            for _ in range(size // 100_000):
                pipe.write(b"a" * 100_000)
            pipe.write(back)

    writer, watch = threading.Thread(target=feed), threading.Timer(SECONDS, process.kill)
    writer.start()
    watch.start()
    output, error = process.stdout.read(), process.stderr.read()
    writer.join()
    watch.cancel()
    return process.wait(), output, without_advice(error)


def least_memory(place: Place) -> int:
    """Returns the least limit, in steps of 64 kB, under which the program starts."""
    return next(size for size in range(1 << 20, 1 << 26, 1 << 16) if starts(place, size))


def limit_memory(size: int) -> Callable[[], None]:
    def limit() -> None:
        resource.setrlimit(resource.RLIMIT_AS, (size, size))
        resource.setrlimit(resource.RLIMIT_CORE, (0, 0))

    return limit


def starts(place: Place, size: int) -> bool:
    try:
        return ended(place.start(("--help",), preexec_fn=limit_memory(size)))[0] == 0
    except (OSError, subprocess.SubprocessError):
        return False


def expect_no_memory(words: Sequence[str], size: int, found: Ended, usual: bytes) -> None:
    status, output, error = found
    said = re.fullmatch(rb"warcdx: (.*: fault \d+ )?Memory\n", error) or not error and re.search(rb"fault \d+ Memory\n\Z", output)
    front = re.sub(rb"fault \d+ Memory\n\Z", b"", output)
    expect(status == 3 and said and usual.startswith(front), words, size, status, error, output[-99:])
    expect(words[0] != "query" or "json" not in words[1] or not output.endswith(b"]]\n"), words, size, output[-99:])


if __name__ == "__main__":
    sys.exit(try_ways(__doc__, (memory_that_ends, an_input_that_is_long)))
