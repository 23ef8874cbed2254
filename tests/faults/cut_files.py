"""The case of real_devices.py in which an archive of long blocks, which the program passes over, is cut while it is read."""
import os
import re
import signal
import subprocess
import time
from collections.abc import Callable, Iterator, Sequence
from pathlib import Path
from typing import NamedTuple, Optional

from device_runs import Place, ended, expect, position
from preloaded_runs import Ended

Process = subprocess.Popen  # of bytes

RECORDS = 8_000  # their listing is longer than a pipe and the program's buffer hold
BLOCK = 200_000
TRIES = 50
HEAD = (
    b"WARC/1.1\r\nWARC-Type: resource\r\nWARC-Record-ID: <urn:x:1>\r\nWARC-Date: 2016-09-19T17:20:24Z\r\n"
    b"WARC-Target-URI: http://example.com/%07d\r\nWARC-Payload-Digest: sha1:3I42H3S6NNFQ2MSVX7XZKYAYSCX5QBYJ\r\n"
    b"Content-Length: 200000\r\n\r\n"
)
CLOSING = b"\r\n\r\n"
HEAD_LENGTH = len(HEAD % 0)
LENGTH = HEAD_LENGTH + BLOCK + len(CLOSING)
FAULT = re.compile(rb"^(?:warcdx: cut: )?fault (\d+) (?:ShortHead|ShortBlock|Closing)\n\Z", re.MULTILINE)
# Where the file is cut, from the position to which it was read.
CUTS = {
    "to nothing": lambda at: 0,
    "in the first half": lambda at: at // 2,
    "at a record in the first half": lambda at: at // 2 // LENGTH * LENGTH,
    "a byte before": lambda at: at - 1,
    "there": lambda at: at,
    "a byte behind": lambda at: at + 1,
    "at a record": lambda at: later(at),
    "in a head": lambda at: later(at) + 5,
    "behind a head": lambda at: later(at) + HEAD_LENGTH,
    "in a block": lambda at: later(at) + LENGTH // 2,
    "near the end of a block": lambda at: later(at) + LENGTH - 4_000,
    "before a closing": lambda at: later(at) + LENGTH - 4,
    "in a closing": lambda at: later(at) + LENGTH - 1,
    "in the last closing": lambda at: RECORDS * LENGTH - 1,
}


def later(at: int) -> int:
    """Returns the start of a record that hasn't been read."""
    return (at // LENGTH + 99) * LENGTH


class Cut(NamedTuple):
    """A file that had been read up to a place, or less, when it was cut to this size."""

    at: int
    size: int


def a_file_of_long_blocks_that_is_cut(place: Place) -> Iterator[str]:
    """The lines are those of the records that were in the file, or had been read before. The next record is at fault, unless the file
    ends before it. `list` is cut while its output is full, `index` while it reads.
    """
    path = place.folder / "cut"
    for words, is_midway in ((("list", "cut"), is_writing), (("index", "cut"), has_begun)):
        write_archive(path)
        usual = place.usual(words).splitlines(keepends=True)
        expect(len(usual) == RECORDS, words, len(usual))
        for name, size_of in CUTS.items():
            runs = (run_and_cut(place, words, is_midway, size_of) for _ in range(TRIES))
            run = next(filter(None, runs), None)
            expect(run, words, "has always read the file before it could be cut")
            expect_lines(*run, usual, name)
        yield words[0]


def run_and_cut(place: Place, words: Sequence[str], is_midway: Callable[[Process, Path], bool], size_of: Callable[[int], int]) -> Optional[tuple[Ended, Cut]]:
    """Returns how a run ended and where its file was cut, or none if it had read the file before."""
    path = place.folder / words[-1]
    write_archive(path)
    process = place.start(words)
    while process.poll() is None and not is_midway(process, path) and not is_writing(process, path):
        pass
    cut = cut_file(process, path, size_of) if process.returncode is None else None
    found = ended(process)
    return (found, cut) if cut else None


def write_archive(path: Path) -> None:
    """Writes the file anew. Its blocks are holes in it."""
    path.unlink(missing_ok=True)  # cut to nothing instead, it would be written to the disk at once
    with open(path, "wb") as file:
        for number in range(RECORDS):
            file.seek(number * LENGTH)
            file.write(HEAD % number)
            file.seek(BLOCK, 1)
            file.write(CLOSING)


def has_begun(process: Process, path: Path) -> bool:
    """Asking for the size leads to the end and back, before anything is read."""
    return 100 * LENGTH < position(process.pid, path) < RECORDS * LENGTH


def is_writing(process: Process, path: Path) -> bool:
    """Its output is full, and it waits."""
    return position(process.pid, path) > 0 and state(process) == "S"


def state(process: Process) -> str:
    return Path(f"/proc/{process.pid}/stat").read_text().rpartition(") ")[2][0]


def cut_file(process: Process, path: Path, size_of: Callable[[int], int]) -> Optional[Cut]:
    """Stops the program, cuts the file unless it has been read, and lets the program go on."""
    process.send_signal(signal.SIGSTOP)
    while process.poll() is None and state(process) != "T":
        time.sleep(0.001)
    at, is_read = position(process.pid, path), not has_begun(process, path)
    if not is_read:
        os.truncate(path, size_of(at))
    process.send_signal(signal.SIGCONT)
    return None if is_read else Cut(at, size_of(at))


def expect_lines(found: Ended, cut: Cut, usual: Sequence[bytes], name: str) -> None:
    status, output, error = found
    fault = FAULT.search(error or output)
    written = output[: fault.start()] if fault and not error else output
    count = written.count(b"\n")
    expect(written == b"".join(usual[:count]), name, cut, "wrote", written[-300:])
    expect(cut.size // LENGTH <= count <= max(cut) // LENGTH, name, cut, count)
    if fault:
        expect(status == 1 and int(fault[1]) == count * LENGTH, name, cut, fault[0])
        expect(cut.size < cut.at or cut.size % LENGTH, name, cut, fault[0])
    else:
        expect((status, error) == (0, b"") and count * LENGTH >= cut.size, name, cut, status, error, count)
