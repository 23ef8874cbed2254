#!/usr/bin/env python3
"""Proves and builds the program, crates side by side where none of them stands on another.

usage: build.py [--processors N] [CRATE..]

With CRATE it proves these crates and those below them, and builds a program only if it is one of them: warcdx, or warcdx_gz, which takes
compressed archives too.

rt works on one crate of a checkout at a time. So each crate is proved in a folder of its own, with its sources and those of the crates below it. What was made
there is then moved into the crate's folder. The crates that the build would wait for come first. A crate that is proved already isn't proved again.

Prints a line on standard error when a crate begins and when it ends. The file crates/NAME/out/build.log contains what rt printed for a crate. If a crate
isn't proved, the script ends the others and prints the last lines of that file. INT, TERM and HUP end the script as they do by default, after it has
ended the runs of rt and removed their folders. What was proved before stays. The exit status is 0, 1 if a crate isn't proved, 2 after a usage error, or 3
if rt can't be run, a file can't be used, or memory can't be allocated.

Needs rt on the PATH, and 4 GB of memory for each processor that it uses.
"""
import argparse
import contextlib
import os
import re
import shutil
import signal
import subprocess
import sys
import time
from collections.abc import Iterable, Iterator
from concurrent.futures import FIRST_COMPLETED, Future, ThreadPoolExecutor, wait
from pathlib import Path
from types import FrameType
from typing import NamedTuple, Optional

ROOT = Path(__file__).resolve().parents[1]
CRATES = ROOT / "crates"
PROGRAM = "warcdx"
PROGRAMS = (PROGRAM, "warcdx_gz")
ROOMS = CRATES / PROGRAM / "out/rooms"
SOURCES = ("src", "specs", "proofs")
MEMORY = 4 << 30  # bytes, for each processor
LAST_LINES = 30
NO_THREAD = "can't start new thread"  # the message of a RuntimeError if there is no memory for a thread

# The seconds that each crate took alone, on one machine. They only decide which crates come first.
SECONDS = {
    "capture_core": 99,
    "cdxj_core": 81,
    "cdxj_keys": 49,
    "cdxj_objects": 69,
    "cdxj_places": 47,
    "command_line": 133,
    "devices": 62,
    "index_core": 109,
    "merge_core": 165,
    "outcomes": 60,
    "page_core": 65,
    "query_core": 190,
    "query_text": 116,
    "scan_core": 146,
    "source_core": 104,
    "tasks": 400,
    "warc_core": 90,
    "warc_head": 69,
}
OTHER_SECONDS = 80  # of a crate that isn't among these
NEAR = 0.93  # of the longest chain: a chain of this part of it is as urgent
SIGNAL_SECONDS = 0.5  # a wait's limit: Python doesn't run the handler of a signal that comes just before a wait begins until that wait ends


class NotProved(Exception):
    """A crate isn't proved."""

    def __init__(self, crate: "Crate") -> None:
        super().__init__(crate.name)
        self.crate = crate


class Crate(NamedTuple):
    """A crate, and all crates below it."""

    name: str
    below: frozenset[str]

    @property
    def folder(self) -> Path:
        return CRATES / self.name

    @property
    def log(self) -> Path:
        return self.folder / "out/build.log"


def write_error(text: str) -> None:
    """Writes to standard error, if that is possible."""
    with contextlib.suppress(OSError), open(2, "w", errors="backslashreplace", closefd=False) as errors:
        errors.write(text)


def say(text: str) -> None:
    write_error(f"warcdx: {text}\n")


def direct_dependencies() -> dict[str, list[str]]:
    """Returns the crates of crates.txt, each with the crates of this repository that its line names."""
    lines = (line.partition("#")[0].partition(":") for line in (ROOT / "crates.txt").read_text().splitlines())
    named = {name.strip(): names.split() for name, colon, names in lines if colon}
    return {name: [other for other in names if other in named] for name, names in named.items()}


def with_crates_below(names: Iterable[str]) -> list[Crate]:
    """Returns the crates of these names and those below them, each after the crates that it stands on."""
    direct = direct_dependencies()
    found: dict[str, Crate] = {}

    def find(name: str) -> frozenset[str]:
        if name not in found:
            below = frozenset(direct[name]).union(*map(find, direct[name]))
            found[name] = Crate(name, below)
        return found[name].below | {name}

    for name in names:
        find(name)
    return list(found.values())


def chain_lengths(crates: list[Crate]) -> dict[str, int]:
    """Returns for each crate the seconds of the longest chain of crates that begins with it, each standing on the one before."""
    lengths: dict[str, int] = {}
    for crate in reversed(crates):
        above = (lengths[other.name] for other in crates if crate.name in other.below)
        lengths[crate.name] = SECONDS.get(crate.name, OTHER_SECONDS) + max(above, default=0)
    return lengths


@contextlib.contextmanager
def room_of(crate: Crate) -> Iterator[Path]:
    """Makes a checkout of the crate and of those below it, for a block. What was built of them before is there by links."""
    room = ROOMS / crate.name
    shutil.rmtree(room, ignore_errors=True)
    try:
        for name in (crate.name, *crate.below):
            for part in SOURCES:
                if (CRATES / name / part).is_dir():
                    shutil.copytree(CRATES / name / part, room / "crates" / name / part)
            for part in ("rlib", "incremental") if name == crate.name else ("rlib",):
                if (CRATES / name / "out" / part).is_dir():
                    shutil.copytree(CRATES / name / "out" / part, room / "crates" / name / "out" / part, copy_function=os.link)
        lines = (
            line for line in (ROOT / "crates.txt").read_text().splitlines() if line.partition(":")[0].strip() in {crate.name, *crate.below}
        )
        (room / "crates.txt").write_text("\n".join([*lines, ""]))
        yield room
    finally:
        shutil.rmtree(room, ignore_errors=True)


def keep(room: Path, crate: Crate) -> None:
    """Moves what was made in the room into the crate's folder."""
    for part in ("incremental", "rlib"):
        made, kept = room / "crates" / crate.name / "out" / part, crate.folder / "out" / part
        shutil.rmtree(kept, ignore_errors=True)
        if made.is_dir():
            made.rename(kept)


class Builder:
    """The runs of rt. They end with a block, and at a signal that would end the script."""

    def __init__(self) -> None:
        self.running: set[subprocess.Popen[bytes]] = set()
        self.is_ended = False
        self.signal: Optional[int] = None  # the first one that came

    def __enter__(self) -> "Builder":
        for number in (signal.SIGINT, signal.SIGTERM, signal.SIGHUP):
            if signal.getsignal(number) is not signal.SIG_IGN:
                signal.signal(number, self.end_at_signal)
        return self

    def __exit__(self, *exception: object) -> None:
        self.end()

    def end_at_signal(self, number: int, frame: Optional[FrameType]) -> None:
        self.signal = self.signal or number
        self.end()

    def prove(self, crate: Crate, jobs: int, is_urgent: bool) -> float:
        """Proves the crate, or builds the program. What isn't urgent yields to what is. Returns the seconds that it took."""
        began = time.monotonic()
        crate.log.parent.mkdir(parents=True, exist_ok=True)
        if crate.name in PROGRAMS:
            self.call_rt(["run", "--jobs", str(jobs)], crate, crate.folder, is_urgent)
        else:
            with room_of(crate) as room:
                self.call_rt(["lib", "--jobs", str(jobs)], crate, room / "crates" / crate.name, is_urgent)
                keep(room, crate)
        return time.monotonic() - began

    def call_rt(self, arguments: list[str], crate: Crate, folder: Path, is_urgent: bool) -> None:
        words = ["rt", *arguments] if is_urgent else ["nice", "-n", "5", "rt", *arguments]
        streams = {"stdin": subprocess.DEVNULL, "stderr": subprocess.STDOUT}
        with crate.log.open("wb") as output, subprocess.Popen(words, cwd=folder, stdout=output, **streams) as process:
            self.running.add(process)
            if self.is_ended:
                process.terminate()
            status = process.wait()
            self.running.discard(process)
        if status:
            raise NotProved(crate)

    def end(self) -> None:
        """Ends the runs of rt, and those that begin later."""
        self.is_ended = True
        for process in list(self.running):
            process.terminate()


def free_memory() -> int:
    """Returns the memory that is free or can be freed, in bytes."""
    found = re.search(r"MemAvailable:\s+(\d+) kB", Path("/proc/meminfo").read_text())
    return int(found[1]) << 10 if found else MEMORY


def build(crates: list[Crate], processors: int, builder: Builder) -> None:
    """Proves the crates.

    The build waits for the longest chain. So the crates that begin chains of about that length are urgent, and the others yield to them. Each job reads
    the crates below once more, which costs processor time. A crate has two jobs only if no other can be proved beside it. The program has one, because
    it has few functions.
    """
    lengths = chain_lengths(crates)
    waiting = sorted(crates, key=lambda crate: -lengths[crate.name])
    proved: set[str] = set()
    running: dict[Future[float], tuple[Crate, bool]] = {}
    with ThreadPoolExecutor(len(crates)) as pool, builder:
        while waiting or running:
            ready = [crate for crate in waiting if crate.below <= proved]
            begun = [*ready, *(crate for crate, _ in running.values())]
            least = NEAR * max(lengths[crate.name] for crate in begun)
            others = sum(not is_urgent for _, is_urgent in running.values())
            for crate in ready:
                is_urgent = lengths[crate.name] >= least
                if not is_urgent and others >= processors - 1:
                    continue
                others += not is_urgent
                waiting.remove(crate)
                say(f"{crate.name} begins; its log is {crate.log.relative_to(ROOT)}")
                jobs = min(2, processors) if len(begun) == 1 and crate.name not in PROGRAMS else 1
                running[pool.submit(builder.prove, crate, jobs, is_urgent)] = crate, is_urgent
            for ended in wait(running, SIGNAL_SECONDS, FIRST_COMPLETED).done:
                crate, _ = running.pop(ended)
                seconds = ended.result()
                proved.add(crate.name)
                say(f"{crate.name} is proved, {len(proved)} of {len(crates)}; {seconds:.0f} s")


def reason_of(error: Exception) -> str:
    """Returns why the build has failed. Raises an error of the script itself."""
    if isinstance(error, shutil.Error):  # the files that couldn't be copied, each with its copy and the reason
        return str(error.args[0][0][2])
    if isinstance(error, OSError):
        return f"{error.filename}: {error.strerror}" if error.filename else str(error.strerror)
    if isinstance(error, MemoryError) or str(error) == NO_THREAD:
        return "Memory"
    raise error


def report(crate: Crate) -> None:
    """Says that a crate isn't proved, after the last lines that rt printed for it."""
    write_error("".join(crate.log.read_text(errors="replace").splitlines(keepends=True)[-LAST_LINES:]))
    say(f"{crate.name} isn't proved; all that rt printed is in {crate.log.relative_to(ROOT)}")


def main() -> int:
    parser = argparse.ArgumentParser(description=__doc__, usage=argparse.SUPPRESS, formatter_class=argparse.RawDescriptionHelpFormatter)
    parser.add_argument("--processors", type=int, default=len(os.sched_getaffinity(0)), metavar="N", help="use at most N processors")
    parser.add_argument("crates", metavar="CRATE", nargs="*", help="a crate of crates.txt")
    arguments = parser.parse_args()
    unknown = set(arguments.crates) - direct_dependencies().keys()
    if unknown:
        parser.error(f"{', '.join(sorted(unknown))}: not in crates.txt")
    processors = max(1, min(arguments.processors, free_memory() // MEMORY))
    if shutil.which("rt") is None:
        say("rt is not on the PATH")
        return 3
    builder = Builder()
    status = 0
    try:
        build(with_crates_below(arguments.crates or [PROGRAM]), processors, builder)
    except NotProved as error:
        status = 1
        if builder.signal is None:
            report(error.crate)
    except (OSError, MemoryError, RuntimeError) as error:
        status = 3
        say(reason_of(error))
    if builder.signal is not None:
        signal.signal(builder.signal, signal.SIG_DFL)
        os.kill(os.getpid(), builder.signal)
    return status


if __name__ == "__main__":
    sys.exit(main())
