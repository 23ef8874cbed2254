#!/usr/bin/env python3
"""Runs each command of warcdx with one system call failing, or with a SIGKILL at it: each call in turn, by strace.

usage: fail_syscalls.py [--all] [PROGRAM]

The calls are those that open, read, write, seek and close, without those of the loader. A call fails with EIO. A run
has to end as without a failure, or with exit status 3 and a line that names the device, or `Memory` if that was the
error. What it wrote then is a prefix of what it writes otherwise. `list`, `verify`, `index` and `check`, which continue
with the next file, write some of their lines. A run that is killed has written a prefix. With --all more command lines
are run, with more errors, and runs that write more than a buffer are killed at each write.

fail_devices.py fails several calls of a run, and lets calls move few bytes; it leaves alone those that open and close.
refuse_memory.py refuses memory.

Prints a line for each command and call, with the number of runs, and the counts. The exit status is 0, or 1 if a run
ends in another way. Needs Debian's package strace.
"""
import collections
import pathlib
import re
import subprocess
import sys
import tempfile
from collections.abc import Iterable, Iterator, Sequence

sys.path.insert(0, str(pathlib.Path(__file__).resolve().parents[1]))

from device_runs import LONG, Differs, Place, expect
from fail_devices import MORE, is_front, is_json
from preloaded_runs import ALL, CASES, Ended, Runs
from program import MISSING, Report, add_program, find_program, need, parser_of

KILLED = -9
CALLS = ("openat", "read", "write", "lseek", "close")
ERROR = "EIO"
MORE_ERRORS = ("EINTR", "EAGAIN", "EBADF", "EACCES", "EMFILE", "EINVAL", "EOVERFLOW", "ENOSPC", "EPIPE", "ENOMEM")
EACH = (
    ("list", "response.warc", "damaged.warc", "wget.warc"),
    ("verify", "-", "response.warc"),
    ("index", "damaged.warc", "missing.warc", "response.warc"),
    ("merge", "response.cdxj", "wget.cdxj"),
    ("check", "response.cdxj", "wget.cdxj"),
    ("query", f"{ALL}&output=json", "response.cdxj", "wget.cdxj"),
    ("pages", "7", ALL, "response.cdxj", "wget.cdxj"),
    ("serve", "response.cdxj", "wget.cdxj"),
    ("get", "1261", "wget.warc"),
    ("scan", "5", ALL, "response.warc", "wget.warc"),
    ("list", "--help"),
    ("frob",),
)
ON_ERROR = re.compile(rb"warcdx: (.*: fault [0-9]+ Read|.*: cannot open|.*: Read|Memory|Input|Write|cannot flush)")
FAULT = re.compile(rb"^fault [0-9]+ Read\n", re.MULTILINE)
ON_STANDARD_ERROR = re.compile(rb"write\(2, .*INJECTED")


class Traced:
    """Runs below strace."""

    def __init__(self, runs: Runs) -> None:
        self.runs = runs
        self.file = runs.folder / "trace"
        self.of_loader = self.counts(("--help",))
        self.of_loader["write"] = 0  # these are the program's

    def run(self, words: Sequence[str], *options: str) -> tuple[Ended, bytes]:
        """Returns how a run ended, and the trace of its calls."""
        ended = self.runs.below(("strace", "-qq", "-o", str(self.file), *options), words)
        return ended, self.file.read_bytes()

    def counts(self, words: Sequence[str]) -> "collections.Counter[str]":
        """Returns how often a run makes each of the calls."""
        _, trace = self.run(words, "-e", f"trace={','.join(CALLS)}")
        return collections.Counter(line.partition("(")[0] for line in trace.decode(errors="replace").splitlines())

    def numbers(self, words: Sequence[str]) -> Iterator[tuple[str, range]]:
        """Yields each call that a run makes after those of the loader, with its numbers."""
        counts = self.counts(words)
        for call in CALLS:
            if counts[call] > self.of_loader[call]:
                yield call, range(self.of_loader[call] + 1, counts[call] + 1)


def may_end(words: Sequence[str], found: Ended, usual: Ended, trace: bytes) -> bool:
    """Returns whether a run with a failure may end so."""
    if found == usual:
        return True
    if ON_STANDARD_ERROR.search(trace):  # one line is lost, and no more
        lines = usual.error.splitlines()
        return found.output == usual.output and found.status == usual.status and all(line in lines for line in found.error.splitlines())
    added = [line for line in found.error.splitlines() if line not in usual.error.splitlines()]
    is_named = all(map(ON_ERROR.fullmatch, added)) and (bool(added) or FAULT.search(found.output) is not None)
    is_closed = words[0] == "query" and "output=json" in words[1] and b": Read" in found.error and is_json(found.output)
    return found.status == 3 and is_named and not is_closed and is_front(words[0], FAULT.sub(b"", found.output), usual.output)


def fail_each(traced: Traced, words: Sequence[str], call: str, numbers: Iterable[int], errors: Iterable[str]) -> str:
    """Fails each of these calls, with each of the errors. Returns how many runs ended as usual."""
    usual, count, same = traced.runs.usual(words), 0, 0
    for number in numbers:
        for error in errors:
            found, trace = traced.run(words, "-e", f"trace={call}", "-e", f"inject={call}:error={error}:when={number}")
            count, same = count + 1, same + (found == usual)
            expect(b"INJECTED" in trace, f"{call} {number} isn't made")
            expect(may_end(words, found, usual, trace), f"{call} {number}, {error}:", *found)
    return f"{count} runs, {same} as usual"


def kill_at_each(traced: Traced, words: Sequence[str], call: str, numbers: Iterable[int]) -> str:
    usual, count = traced.runs.usual(words), 0
    for number in numbers:
        found, _ = traced.run(words, "-e", f"trace={call}", "-e", f"inject={call}:signal=KILL:when={number}")
        is_prefix = usual.output.startswith(found.output) and usual.error.startswith(found.error)
        expect(found.status == KILLED and is_prefix, f"{call} {number}:", *found)
        count += 1
    return f"{count} runs"


def kill_at_writes(place: Place, words: Sequence[str], is_each: bool) -> str:
    """Kills a run that writes more than a buffer at writes of it: at the first, one in the middle and the last, or at each."""
    trace, output, usual = place.folder / "trace", place.folder / "output", place.usual(words)
    strace = ("strace", "-qq", "-o", trace, "-e", "trace=write")

    def run(*options: str) -> int:
        lines = place.folder / "lines"
        lines.write_bytes(f"{ALL}&fl=urlkey,offset,filename\n".encode())
        with open(lines, "rb") as stdin, open(output, "wb") as stdout:
            return subprocess.run((*strace, *options, place.program, *words), cwd=place.folder, stdin=stdin, stdout=stdout).returncode

    expect(run() == 0 and output.read_bytes() == usual, words, "differs below strace")
    count = trace.read_bytes().count(b"write(")
    numbers = range(1, count + 1) if is_each else sorted({1, (count + 1) // 2, count})
    for number in numbers:
        status, written = run("-e", f"inject=write:signal=KILL:when={number}"), output.read_bytes()
        expect(status == KILLED and usual.startswith(written), words, number, status, written[-99:])
        expect(number in (1, count) or 0 < len(written) < len(usual), words, number, len(written))
    return f"{len(numbers)} of {count} writes"


def main() -> int:
    parser, report = parser_of(__doc__), Report()
    parser.add_argument("--all", action="store_true", help="run more command lines, with more errors")
    add_program(parser)
    arguments = parser.parse_args()
    program = find_program(arguments.program)
    need("strace")
    if subprocess.run(("strace", "-qq", "-o", "/dev/null", "true"), stderr=subprocess.DEVNULL).returncode:
        print("fail_syscalls.py: strace may not trace here", file=sys.stderr)
        return MISSING

    def attempt(title: str, way: object, *given: object) -> None:
        try:
            report.add_ok(f"{title}, {way(*given)}")
        except Differs as difference:
            report.add_difference(title, difference)

    traced = Traced(Runs(program))
    for words in (*CASES, *MORE, *EACH) if arguments.all else EACH:
        for call, numbers in traced.numbers(words):
            errors = (ERROR, *MORE_ERRORS) if arguments.all else (ERROR,)
            title = f"{' '.join(words)}: {call}"
            attempt(f"{title} fails", fail_each, traced, words, call, numbers, errors)
            attempt(f"{title} is the last", kill_at_each, traced, words, call, numbers)
    with tempfile.TemporaryDirectory() as folder:
        place = Place(program, folder)
        for name, words in LONG.items():
            attempt(f"{name} is killed while it writes", kill_at_writes, place, words, arguments.all)
    return report.end()


if __name__ == "__main__":
    sys.exit(main())
