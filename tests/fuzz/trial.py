"""One case of a fuzzer: its folder, its choices, and runs of the program that have to end as docs/COMMANDS.md says."""
import collections
import pathlib
import random
import re
import signal
import string
import subprocess
from collections.abc import Iterable
from typing import NamedTuple, Union

from program import without_advice

SECONDS = 20
CAUSES = (
    "Version|ShortHead|HeadTooLong|FieldLine|Missing|Repeated|BadLength|BadDate|ShortBlock|Closing|TooFar|KeyTooLong|LineTooLong|"
    "NoMember|BadMember|CutMember|SeveralRecords|Read|Memory"
)
REFUSALS = (
    "Unknown|RepeatedParameter|BadMatch|BadStamp|BadFilter|NotLiteral|BadLimit|BadResume|BadField|BadOutput|BadFlag|BadCollapse|NoUrl|"
    "UrlAndKey|BadUrl|QueryTooLong|Memory"
)
ON_ERROR = re.compile(
    rf"(warcdx: ((.*: )?cannot open|.*: fault \d+ ({CAUSES})|.*: (BadName|DuplicateName|NoRecord|Read)|.*: (BadLine|OutOfOrder) \d+|"
    rf"query: ({REFUSALS})|TooManySources|Input|Write|Memory|cannot flush)\n)*".encode(),
)
OF_INDEX = re.compile(rb"warcdx: (.*): (BadLine|OutOfOrder) ([0-9]+)\n")
Argument = Union[str, bytes]


class Wrong(Exception):
    """What the program did that it mustn't."""


def be_late(_signal: int, _frame: object) -> None:
    raise TimeoutError


signal.signal(signal.SIGALRM, be_late)


class Done(NamedTuple):
    """How a run has ended."""

    status: int
    output: bytes
    error: bytes


class Trial:
    def __init__(self, program: str, folder: pathlib.Path, choice: random.Random, tally: collections.Counter[str]) -> None:
        self.program = program
        self.folder = folder
        self.choice = choice
        self.tally = tally

    def write(self, texts: Iterable[bytes], ending: str, folder: str = ".") -> list[str]:
        """Files with these texts, in a folder below that of the case. Their paths."""
        paths = [pathlib.Path(folder, f"{letter}.{ending}") for letter, _ in zip(string.ascii_lowercase, texts)]
        (self.folder / folder).mkdir(exist_ok=True)
        for path, text in zip(paths, texts):
            (self.folder / path).write_bytes(text)
        return list(map(str, paths))

    def run(self, *arguments: Argument, lines: bytes = b"") -> Done:
        self.tally["runs"] += 1
        try:
            done = self.ended((self.program, *arguments), lines)
        except TimeoutError:
            raise Wrong(f"{arguments} takes over {SECONDS} s") from None
        if done.status not in (0, 1, 3) or bool(done.error) > bool(done.status) or not ON_ERROR.fullmatch(done.error):
            raise Wrong(f"{arguments} ends with {done}")
        return done

    def ended(self, arguments: Iterable[Argument], lines: bytes = b"") -> Done:
        signal.alarm(SECONDS)  # cheaper than the timeout of subprocess, which looks again and again
        try:
            done = subprocess.run(tuple(arguments), input=lines, stdout=subprocess.PIPE, stderr=subprocess.PIPE, cwd=self.folder, check=False)
        finally:
            signal.alarm(0)
        return Done(done.returncode, done.stdout, without_advice(done.stderr))

    def expect(self, status: int, output: bytes, error: bytes, *arguments: Argument, lines: bytes = b"") -> None:
        found, wanted = self.run(*arguments, lines=lines), Done(status, output, error)
        if found != wanted:
            raise Wrong(f"{arguments}\nwanted {wanted}\nfound  {found}")

    def check(self, holds: object, what: str) -> None:
        if not holds:
            raise Wrong(what)
