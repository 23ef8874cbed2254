"""Checks whether a file is an index in order, by `warcdx check`, for which nobody has to wait."""
import functools
import os
import signal
import subprocess

from warcdx import Error, ProgramEnded
from warcdx.program import find_program, memory_file

from .children import end_with_parent, limit_memory, load_system_library

NICE = 10  # of a check: the answers of workers go first
PIECE = 1 << 16  # bytes


class NotInOrder(Error):
    """A file is no index in order. The message has its path, and what the program says of it."""


class NotChecked(Error):
    """Whether a file is an index in order couldn't be found out."""


class Check:
    """A run of `warcdx check` over a file, which ends with this process.

    `name` is how the program opens the file, and `path` how it is told. The program has `memory` bytes of address
    space. `running` is how many checks this process has. The constructor raises an Error of the package.
    """

    running = 0

    def __init__(self, program: str, memory: int, name: str, path: str) -> None:
        self._name = name
        self._path = path
        self._counted = b""
        load_system_library()
        command, before = (find_program(program), "check", name), functools.partial(_begin, os.getpid(), memory)
        self._said = memory_file()
        try:
            # The function is called in the new process, which makes a start slow if this one has much memory.
            self._process = subprocess.Popen(
                command, stdin=subprocess.DEVNULL, stdout=subprocess.PIPE, stderr=self._said, preexec_fn=before
            )
        except (OSError, MemoryError, subprocess.SubprocessError) as error:  # the last one if there was no memory for the function
            self._said.close()
            cause = error.strerror if isinstance(error, OSError) else None
            raise _not_checked(cause or "there is no memory") from error
        assert self._process.stdout is not None
        self.output = self._process.stdout
        os.set_blocking(self.output.fileno(), False)
        Check.running += 1

    def is_done(self) -> bool:
        """Returns whether the file is an index in order, or False while it is checked. Raises NotInOrder or NotChecked."""
        try:
            while piece := os.read(self.output.fileno(), PIECE):
                self._counted += piece
        except BlockingIOError:
            return False
        status = self._process.wait()
        self._said.seek(0)
        words = self._words_of(self._said.read(PIECE).decode(errors="replace"))
        if status == 1 and words.startswith(self._path):
            raise NotInOrder(words)
        if status or self._counted.decode(errors="replace").rpartition(" ")[0] != self._name:
            raise _not_checked(words or str(ProgramEnded(status, "")))
        return True

    def close(self) -> None:
        """Ends the program if it runs."""
        self._process.kill()
        self._process.wait()
        self.output.close()
        self._said.close()
        Check.running -= 1

    def _words_of(self, said: str) -> str:
        """Returns the first message of the program on one line, with the path of its file."""
        first, *rest = said.split("\n")
        text = first.removeprefix("warcdx: ").removeprefix("warcdx-gz: ")
        if text.startswith(f"{self._name}: "):
            text = self._path + text.removeprefix(self._name)
        advice = [line.strip() for line in rest[:1] if line.startswith("  ")]
        return ": ".join([text, *advice])


def _not_checked(cause: str) -> NotChecked:
    return NotChecked(f"the indexes couldn't be checked: {cause}")


def _begin(parent: int, memory: int) -> None:
    """Is called in the process of the program."""
    end_with_parent(parent, signal.SIGKILL)
    os.nice(NICE)
    limit_memory(memory)
