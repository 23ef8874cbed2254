"""The commands of this repository, each with an input, and runs of them that fault_matrix.py spoils."""
import contextlib
import gzip
import hashlib
import json
import os
import pathlib
import re
import signal
import subprocess
import sys
import time
from collections.abc import Iterator
from typing import Any, NamedTuple, Optional

from device_runs import expect
from program import ROOT, find_packed_program
from script_runs import Ended, Run, Script, Word, gateway, inputs, record
from script_signals import is_caught, wait_until

FAULT_LINE = re.compile(rb"fault [0-9]+ [A-Za-z]+\n")
TRACES = (b"Traceback", b"Exception ignored", b"Fatal Python error", b"Segmentation fault")
NOTES = "notes"
INDEX = "all.cdxj"
MADE = {INDEX, f"{INDEX}.d"}  # by warcdx-update
FAILED = 3
PAGE = 4096  # bytes
MEMBERS = 11
SERVES = 0.5  # seconds after which a gateway serves, or has said why it doesn't, on most hosts
ADDED = 20  # captures of each archive that is added to the folder


class Outcome(NamedTuple):
    """How a run ended below a fault: by a signal that was sent to it, if any was, and which of its streams were seen."""

    ended: Ended
    signal: int = 0
    is_read: bool = True
    is_said: bool = True


class Command(NamedTuple):
    """A run of a command, the name before its messages, and its exit status if nothing is wrong."""

    script: Script
    name: str
    status: int = 0
    pipe: Optional[str] = None  # the file that is written to the named pipe `pipe`


def commands_of(program: pathlib.Path) -> Iterator[Command]:
    folder, of_warcdx = ROOT / "python/bin", ("--program", str(program))
    find_packed_program(program)  # which the commands find too
    for name, status, *words in (
        ("warcdx-verify", 0, "digests.warc.gz"),
        ("warcdx-verify", 0, "\u00e9.warc.gz"),
        ("warcdx-verify", 1, "cut.warc"),
        ("warcdx-verify", 0, "pipe"),
        ("warcdx-verify", 1, "--jobs", "2", "digests.warc.gz", "cut.warc.gz"),
        ("warcdx-verify", 1, "--quiet", "--resume", NOTES, "digests.warc.gz", "cut.warc", "digests.warc"),
        ("warcdx-verify", 1, "--quiet", "--jobs", "2", "--resume", NOTES, "cut.warc", "digests.warc"),
        ("warcdx-fetch", 0, "--index", "page.cdxj", "http://example.com/"),
        ("warcdx-cdx", 0, "to", "a.cdxj"),
        ("warcdx-cdx", 1, "to", "bad.cdxj"),
        ("warcdx-cdx", 1, "from", "bad.cdx", "a.cdx"),
    ):
        script = Script(" ".join((name, *words)), folder / name, (*of_warcdx, *words), most_lines=3)
        yield Command(script, name, status, "pages.warc.gz" if "pipe" in words else None)
    words = ("--quiet", "--jobs", "2", *of_warcdx, "crawl", INDEX)
    yield Command(Script("warcdx-update", folder / "warcdx-update", words, most_lines=20), "warcdx-update")
    for script in gateway(program):
        yield Command(script, "warcdx-gateway")


def spoiled_inputs() -> dict[str, bytes]:
    """Returns inputs that are at fault near their ends, one with a name that isn't ASCII, and one of whole pages."""
    usual = inputs()
    return {
        "\u00e9.warc.gz": usual["a.warc.gz"],
        "cut.warc": usual["b.warc"][:-40],
        "pages.warc.gz": b"".join(page_of(record(number, b"block")) for number in range(MEMBERS)),
        "cut.warc.gz": usual["a.warc.gz"][:-40],
        "bad.cdxj": usual["a.cdxj"] + b"x\n",
        "bad.cdx": usual["a.cdx"] + b"a b c\n",
    }


def page_of(text: bytes) -> bytes:
    """Returns a member of gzip that takes a page of a disk. A field of its header, which is passed over, fills it."""
    member = gzip.compress(text, mtime=0)
    filling = bytes(PAGE - len(member) - 2)
    return member[:3] + b"\4" + member[4:10] + len(filling).to_bytes(2, "little") + filling + member[10:]


class Trial(Run):
    """Runs of a command, of which each leaves the folder as it was, or as the command is to leave it."""

    def __init__(self, program: pathlib.Path, command: Command, folder: pathlib.Path, cache: pathlib.Path) -> None:
        super().__init__(program, command.script, folder, cache, "")
        self.command = command
        if command.pipe:
            os.mkfifo(folder / "pipe")
        self.environment: dict[str, str] = {}
        self.ended(words=self.help_words)  # which writes the files of byte code
        # Python writes them without a look at the count, so a limit of sizes would cut them for all others.
        self.environment["PYTHONDONTWRITEBYTECODE"] = "1"
        for name, text in spoiled_inputs().items():
            (folder / name).write_bytes(text)
        self._before = digests_of(folder)

    @property
    def help_words(self) -> "tuple[Word, ...]":
        return ("--help",) if self.script.path != pathlib.Path(sys.executable) else (*self.script.words[:2], "--help")

    def prepare(self) -> None:
        """Makes the folder ready for a run."""

    @property
    def updates(self) -> bool:
        return self.command.name == "warcdx-update"

    def usual(self) -> Ended:
        if self._usual is None:
            self._usual = self.ended()
            expect(self._usual.status == self.command.status, "usual", self._usual.status, self._usual.error)
        return self._usual

    def start(self, *front: str, environment: "dict[str, str]" = {}, **arguments: object) -> "subprocess.Popen[bytes]":  # type: ignore[override]
        process = super().start(*front, environment={**self.environment, **environment}, **arguments)  # type: ignore[arg-type]
        if self.command.pipe:
            # It ends with the command, which may not open the pipe.
            writer = f"exec 2> /dev/null; cat {self.command.pipe} > pipe & while kill -0 {process.pid}; do sleep 0.05; done; kill $!"
            subprocess.Popen(("sh", "-c", writer), cwd=self.folder, stdout=subprocess.DEVNULL, stdin=subprocess.DEVNULL)
        return process

    def expect_nothing_left(self, error: bytes) -> None:
        super().expect_nothing_left(b"")  # what a run says is judged later

    def expect_unchanged(self) -> None:
        """What was beside the run is beside it after, byte for byte."""
        found = digests_of(self.folder)
        expect(found == self._before, "files have changed", set(found.items()) ^ set(self._before.items()))

    def judge(self, outcome: Outcome, is_harmless: bool, can_start: bool) -> None:
        """The one rule: nothing is lost in silence, there is no traceback, and nothing is left."""
        ended, usual = outcome.ended, self.usual()
        if not can_start:  # Python or the modules can't be loaded
            expect(ended.status and not ended.output, "a start that fails", ended)
            return
        expect(not any(trace in ended.error for trace in TRACES), ended.error)
        seen = usual._replace(
            output=usual.output if outcome.is_read else b"", error=usual.error if outcome.is_said else b""
        )
        if ended == seen and (outcome.is_read or self.updates or not usual.output):
            return
        expect(not is_harmless, "another result", ended.status, ended.output[-200:], ended.error)
        whole = usual.output.startswith(ended.output)
        if outcome.signal and ended.status == -outcome.signal:
            expect(whole and usual.error.startswith(ended.error), "by the signal", ended.output[-200:], ended.error)
            return
        expect(ended.status == FAILED, "status", ended.status, ended.error)
        lines = ended.error.splitlines(keepends=True)
        expect(lines or not outcome.is_said, "no message")
        front = self.command.name.encode() + b": "
        expect(all(line.startswith(front) and line.endswith(b"\n") for line in lines), "messages", ended.error)
        last = ended.output.rfind(b"\n", 0, -1) + 1
        is_part = whole or FAULT_LINE.fullmatch(ended.output[last:]) and usual.output.startswith(ended.output[:last])
        expect(is_part, "another output", ended.output[-200:])


class UpdateTrial(Trial):
    """Each run updates the index of a folder that has one more archive than before."""

    def __init__(self, program: pathlib.Path, command: Command, folder: pathlib.Path, cache: pathlib.Path) -> None:
        super().__init__(program, command, folder, cache)
        (folder / "crawl").mkdir()
        (folder / "mine").write_bytes(b"of others")
        self._usual = Ended(0, b"", b"")
        self._number = 0
        self._old = b""
        self.prepare()
        expect(self.ended() == self._usual, "the first update")

    def prepare(self) -> None:
        self._number += 1
        records = b"".join(record(number, b"%d" % self._number) for number in range(ADDED))
        (self.folder / f"crawl/{self._number}.warc").write_bytes(records)
        self._before = self._beside()
        self._old = (self.folder / INDEX).read_bytes() if (self.folder / INDEX).exists() else b""

    def _beside(self) -> dict[str, str]:
        return {name: digest for name, digest in digests_of(self.folder).items() if name.partition("/")[0] not in MADE}

    def expect_unchanged(self) -> None:
        found = self._beside()
        expect(found == self._before, "files have changed", set(found.items()) ^ set(self._before.items()))

    def judge(self, outcome: Outcome, is_harmless: bool, can_start: bool) -> None:
        super().judge(outcome, is_harmless, can_start)
        index = (self.folder / INDEX).read_bytes()
        again = self.ended()
        new = (self.folder / INDEX).read_bytes()
        expect(again == self._usual and new.count(b"\n") == ADDED * self._number, "the run after it", again)
        lines = set(index.splitlines())
        is_between = set(self._old.splitlines()) <= lines <= set(new.splitlines())
        expect(is_between and index.endswith(b"\n"), "captures are lost", len(lines))
        expect(outcome.ended.status or index == new, "status 0, and not all captures")
        self.expect_unchanged()


class NotesTrial(Trial):
    """Each run of warcdx-verify begins without notes, and leaves none or some of good archives."""

    def __init__(self, program: pathlib.Path, command: Command, folder: pathlib.Path, cache: pathlib.Path) -> None:
        super().__init__(program, command, folder, cache)
        self.usual()
        self.prepare()

    def prepare(self) -> None:
        (self.folder / NOTES).unlink(missing_ok=True)

    def noted(self) -> set[str]:
        """Returns the archives that the notes name as good. A fault may cut a note, which counts for nothing."""
        path = self.folder / NOTES
        notes: dict[str, object] = {}
        for line in path.read_bytes().splitlines()[1:] if path.exists() else ():
            with contextlib.suppress(ValueError):
                name, note = json.loads(line)
                notes[pathlib.Path(name).name] = note
        return {name for name, note in notes.items() if note is not None}

    def expect_unchanged(self) -> None:
        expect(self.noted() <= {"digests.warc.gz", "digests.warc"}, "notes of other archives", self.noted())
        self.prepare()
        super().expect_unchanged()

    def judge(self, outcome: Outcome, is_harmless: bool, can_start: bool) -> None:
        super().judge(outcome, is_harmless, can_start)
        if outcome.ended == self.usual():
            good = {word for word in self.script.words if word in ("digests.warc.gz", "digests.warc")}
            expect(self.noted() == good, "notes are missing", self.noted())


class GatewayTrial(Trial):
    """Each run is ended by TERM once it serves, if it does."""

    def __init__(self, program: pathlib.Path, command: Command, folder: pathlib.Path, cache: pathlib.Path) -> None:
        super().__init__(program, command, folder, cache)
        self._usual = Ended(0, b"", b"")

    def ended(self, *front: str, **arguments: Any) -> Ended:
        process = self.start(*front, **arguments)
        wait_until(process, lambda: is_caught(process, signal.SIGTERM))
        time.sleep(SERVES)
        process.terminate()
        found = self.end_of(process)
        return found._replace(status=0) if found.status == -signal.SIGTERM else found


def trial_of(program: pathlib.Path, command: Command, folder: pathlib.Path, cache: pathlib.Path) -> Trial:
    kinds = {"warcdx-update": UpdateTrial, "warcdx-gateway": GatewayTrial}
    kind = NotesTrial if NOTES in command.script.words else kinds.get(command.name, Trial)
    return kind(program, command, folder, cache)


def digests_of(folder: pathlib.Path) -> dict[str, str]:
    """Returns the digests of all files of a folder and below, by their paths. Named pipes have none."""
    found = {}
    for path in folder.rglob("*"):
        if path.is_file():
            found[str(path.relative_to(folder))] = hashlib.sha256(path.read_bytes()).hexdigest()
        else:
            found[str(path.relative_to(folder))] = ""
    return found


