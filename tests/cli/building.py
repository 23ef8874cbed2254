#!/usr/bin/env python3
"""Checks how ./warcdx, ./warcdx-gz and tools/build.py build the programs, and how tests/run ends, with a script in the place of rt.

usage: building.py

A copy of the crates is built. The script in the place of rt waits, and then leaves the files that rt leaves. It can be told to fail. The checks are of what
a build prints, of its exit status, and that no run of rt and no folder of one is left: after a whole build, a crate that isn't proved, a run that is killed,
files and memory that can't be had, and after INT, TERM and HUP, which one process gets or all of them.

Prints a line for each check, and the counts. The exit status is 0, or 1 if a check fails.
"""
import os
import pathlib
import resource
import shutil
import signal
import subprocess
import sys
import tempfile
import time
from collections.abc import Callable
from typing import NamedTuple, Optional

sys.path.insert(0, os.path.join(os.path.dirname(os.path.dirname(os.path.abspath(__file__)))))

from program import ROOT, Report, parser_of

RT = """#!/usr/bin/env python3
import os, pathlib, signal, sys, time
signal.signal(signal.SIGINT, signal.SIG_DFL)
with open(os.environ["RUNS"], "a") as runs:
    print(os.getpid(), file=runs)
crate = pathlib.Path.cwd().name
if crate == os.environ["FAILING"]:
    sys.exit("a clause isn't proved")
if crate == os.environ["KILLED"]:
    os.kill(os.getpid(), signal.SIGKILL)
time.sleep(float(os.environ["DELAY"]))
pathlib.Path("out/rlib").mkdir(parents=True, exist_ok=True)
if sys.argv[1] == "run":
    program = pathlib.Path("out", crate)
    program.write_text('#!/bin/sh\\necho "$@"\\n')
    program.chmod(0o755)
    program.with_suffix(".stamp").touch()
"""
LONG = 60.0  # seconds, of a run that is waited for only if something is wrong
CRATES = 27
FIRST = 3  # of them, which stand on none


class Ended(NamedTuple):
    """A build that has ended: its exit status, what it wrote, and the seconds from the signal to its end."""

    status: int
    output: str
    error: str
    seconds: float


class Checkout:
    """A copy of what a build reads, and rt's place on the PATH."""

    def __init__(self, work: pathlib.Path) -> None:
        self.folder = work / "checkout"
        self.runs = work / "runs"
        self.rt = work / "bin/rt"
        for crate in (ROOT / "crates").iterdir():
            shutil.copytree(crate, self.folder / "crates" / crate.name, ignore=shutil.ignore_patterns("out"))
        for name in ("crates.txt", "warcdx", "warcdx-gz", "tools/build.py", "tools/built_program.sh", "tests/run", "tests/program.py", "tests/refusals.py"):
            (self.folder / name).parent.mkdir(exist_ok=True)
            shutil.copy(ROOT / name, self.folder / name)
        self.rt.parent.mkdir()
        self.rt.write_text(RT)
        self.rt.chmod(0o755)

    def build(
        self,
        *words: str,
        is_anew: bool = True,
        delay: float = 0,
        failing: str = "",
        killed: str = "",
        limit: Optional[tuple[int, int]] = None,
        path: Optional[str] = None,
        error: int = subprocess.PIPE,
        runs: int = FIRST,
        ending: Optional[Callable[[int], None]] = None,
    ) -> Ended:
        """Runs a command in the copy, from nothing or over what was built before.

        Each run of rt takes `delay` seconds. `failing` and `killed` are crates, `limit` is a resource and its limit. `ending` is called with the process when
        `runs` runs of rt have begun.
        """
        for out in self.folder.glob("crates/*/out") if is_anew else ():
            shutil.rmtree(out)
        self.runs.write_text("")
        environment = dict(os.environ, RUNS=str(self.runs), DELAY=str(delay), FAILING=failing, KILLED=killed)
        environment["PATH"] = path or f"{self.rt.parent}:{os.environ['PATH']}"

        def prepare() -> None:
            for number in (signal.SIGINT, signal.SIGTERM, signal.SIGHUP):
                signal.signal(number, signal.SIG_DFL)
            if limit is not None:
                resource.setrlimit(limit[0], (limit[1], limit[1]))

        streams = {"stdin": subprocess.DEVNULL, "stdout": subprocess.PIPE, "stderr": error}
        process = subprocess.Popen(words, cwd=self.folder, env=environment, start_new_session=True, preexec_fn=prepare, text=True, **streams)
        if ending is not None:
            while len(self.begun()) < runs:
                time.sleep(0.01)
            ending(process.pid)
        began = time.monotonic()
        output, said = process.communicate()
        return Ended(process.returncode, output, said or "", time.monotonic() - began)

    def path_of(self, *names: str) -> str:
        """Returns a folder that has these commands alone."""
        folder = self.folder.parent / "commands"
        folder.mkdir()
        for name in names:
            (folder / name).symlink_to(shutil.which(name) or name)
        return str(folder)

    def begun(self) -> list[int]:
        """Returns the processes that took rt's place."""
        return [int(line) for line in self.runs.read_text().splitlines()]

    def left(self) -> str:
        """Returns what a build has left: runs of rt, and their folders."""
        running = [f"process {number}" for number in self.begun() if is_running(number)]
        return ", ".join([*running, *(str(room) for room in self.folder.glob("crates/warcdx/out/rooms/*"))])


def is_running(process: int) -> bool:
    try:
        return pathlib.Path(f"/proc/{process}/stat").read_text().rpartition(")")[2].split()[0] != "Z"
    except FileNotFoundError:
        return False


def last_line(text: str) -> str:
    return text.splitlines()[-1] if text else ""


def check_ends(report: Report, checkout: Checkout) -> None:
    """Builds that end by themselves."""

    def compare(case: str, found: object, expected: object) -> None:
        if found == expected:
            report.add_ok(case)
        else:
            report.add_difference(case, f"{found}, not {expected}")

    def expect(case: str, ended: Ended, status: int, end: str) -> None:
        said = last_line(ended.error)
        compare(case, (ended.status, end if end in said else said, "Traceback" in ended.error, checkout.left()), (status, end, False, ""))

    script = "tools/build.py"
    expect("a whole build", checkout.build(script), 0, f"warcdx is proved, {CRATES} of {CRATES}")
    expect("a crate and those below it", checkout.build(script, "warc_core"), 0, "warc_core is proved, 3 of 3")
    expect("a crate that doesn't exist", checkout.build(script, "nothing"), 2, "nothing: not in crates.txt")
    ended = checkout.build("./warcdx", "list", "a b")
    expect("a whole build, and the program", ended, 0, "built in")
    compare("its output", ended.output, "list a b\n")
    ended = checkout.build("./warcdx", "list", is_anew=False)
    compare("the program, which is built", (ended.output, ended.error, checkout.begun()), ("list\n", "", []))
    ended = checkout.build("./warcdx-gz", "list", "a b", is_anew=False)
    expect("the program for compressed archives", ended, 0, "built in")
    compare("its output", ended.output, "list a b\n")
    ended = checkout.build("./warcdx-gz", "list", is_anew=False)
    compare("the same, which is built", (ended.output, ended.error, checkout.begun()), ("list\n", "", []))
    expect("a crate that isn't proved", checkout.build(script, failing="warc_head", delay=LONG), 1, "warc_head isn't proved; all that rt printed is in")
    expect("the same, by ./warcdx", checkout.build("./warcdx", "list", failing="devices", delay=LONG), 3, "the build failed after")
    expect("a run that is killed", checkout.build(script, killed="devices", delay=LONG), 1, "devices isn't proved")
    expect("files of 1,000 bytes at most", checkout.build(script, limit=(resource.RLIMIT_FSIZE, 1000), delay=LONG), 3, "File too large")
    expect("30 MB of memory", checkout.build(script, limit=(resource.RLIMIT_AS, 30_000_000)), 3, "Memory")
    expect("no rt", checkout.build(script, path="/usr/bin:/bin"), 3, "rt is not on the PATH")
    expect("no rt, by tests/run", checkout.build("tests/run", "prose", path="/usr/bin:/bin"), 3, "name a PROGRAM, such as the one of a release")
    with open("/dev/full", "wb") as full:
        expect("a full standard error", checkout.build(script, error=full.fileno()), 0, "")
    expect("no flock, by ./warcdx", checkout.build("./warcdx", "list", path=checkout.path_of("bash", "dirname", "find", "readlink")), 3, "flock is missing")
    out = checkout.folder / "crates/warcdx/out"
    shutil.rmtree(out, ignore_errors=True)
    out.write_text("")
    expect("a folder that can't be made, by ./warcdx", checkout.build("./warcdx", "list", is_anew=False), 3, "the build can't write into")
    out.unlink()


def check_signals(report: Report, checkout: Checkout) -> None:
    """Builds that a signal ends, and the tests."""
    for command, runs in (("tools/build.py", FIRST), ("./warcdx", FIRST), ("tests/run", 1)):
        for number in (signal.SIGINT, signal.SIGTERM, signal.SIGHUP):
            for send in (os.kill, os.killpg):
                case = f"{command} and {number.name}, which {'it' if send is os.kill else 'its group'} gets"
                ended = checkout.build(command, delay=LONG, runs=runs, ending=lambda process: send(process, number))
                found = ended.status, "Traceback" in ended.error, checkout.left(), ended.seconds < LONG / 2
                if found == (-number, False, "", True):
                    report.add_ok(case)
                else:
                    report.add_difference(case, found)


def main() -> int:
    parser_of(__doc__).parse_args()
    report = Report()
    with tempfile.TemporaryDirectory() as work:
        checkout = Checkout(pathlib.Path(work))
        check_ends(report, checkout)
        check_signals(report, checkout)
    return report.end()


if __name__ == "__main__":
    sys.exit(main())
