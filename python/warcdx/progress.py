"""How far a command is, as it shows on standard error."""
import contextlib
import os
from typing import Any, Optional

from .streams import report


class Silent:
    """Shows nothing of how far the work is, in archives and bytes."""

    def begin(self, archives: int, size: int) -> None:
        """This number of archives, of `size` bytes together, will be read."""

    def advance(self, size: int) -> None:
        """An archive of `size` bytes is done."""

    def clear(self) -> None:
        """Something else will be written to the terminal."""

    def end(self) -> None:
        """The archives are done."""


class Lines(Silent):
    """Prints a line for each hundredth of the bytes."""

    def __init__(self, name: str) -> None:
        self._name = name
        self._archives = self._done = self._size = self._done_size = self._hundredths = 0

    def begin(self, archives: int, size: int) -> None:
        self._archives, self._size = archives, size

    def advance(self, size: int) -> None:
        self._done += 1
        self._done_size += size
        hundredths = 100 * self._done_size // max(self._size, 1)
        if hundredths > self._hundredths or self._done == self._archives:
            self._hundredths = hundredths
            report(self._name, f"{self._done:,} of {self._archives:,} archives, {hundredths} %")


class Bar(Silent):
    """Shows the bytes that are done and the time that is left, by the module tqdm."""

    def __init__(self, tqdm: Any) -> None:
        self._tqdm = tqdm
        self._bar: Any = None
        self._is_shown = True

    def begin(self, archives: int, size: int) -> None:
        self._bar = self._tqdm(total=size, unit="B", unit_scale=True, desc=f"{archives:,} archives", leave=False)

    def advance(self, size: int) -> None:
        self._bar.update(size)
        if not self._is_shown:
            self._bar.refresh()
            self._is_shown = True

    def clear(self) -> None:
        self._bar.clear()
        self._is_shown = False

    def end(self) -> None:
        self._bar.close()


def bar_on_terminal() -> Optional[Bar]:
    """Returns a bar, if standard error is a terminal and the module tqdm is there."""
    if os.isatty(2):
        with contextlib.suppress(ImportError):
            from tqdm import tqdm

            tqdm.monitor_interval = 0
            return Bar(tqdm)
    return None
