"""How a signal ends a command."""
import contextlib
import os
import signal
import sys
from collections.abc import Iterator
from types import FrameType
from typing import Optional

_SIGNALS = (signal.SIGINT, signal.SIGTERM, signal.SIGHUP)


class Ended(BaseException):
    """A signal ends the command. No command handles it, but each one cleans up as it passes."""

    def __init__(self, number: int) -> None:
        super().__init__(number)
        self.number = number


def catch_signals() -> None:
    """Lets the first signal raise Ended in the main thread, but for those that the starter ignores. Later ones do nothing."""
    for number in _SIGNALS:
        if signal.getsignal(number) is not signal.SIG_IGN:
            signal.signal(number, _raise_ended)
    # If the starter ignores it, so would the command, and the system would keep no status of a program that ends.
    signal.signal(signal.SIGCHLD, signal.SIG_DFL)
    sys.unraisablehook = _end_in_finalizer


def _raise_ended(number: int, frame: Optional[FrameType]) -> None:
    for each in _SIGNALS:
        if signal.getsignal(each) is not signal.SIG_IGN:
            signal.signal(each, lambda *_: None)  # of a signal that has come already and is then ignored Python complains
    raise Ended(number)


def _end_in_finalizer(arguments: "sys.UnraisableHookArgs") -> None:
    """Ends the process where Python would print and ignore Ended, as in a finalizer."""
    if isinstance(arguments.exc_value, Ended):
        end_by(arguments.exc_value.number)
    else:
        sys.__unraisablehook__(arguments)


def end_by(number: int) -> None:
    """Ends the process by the signal that has ended the command."""
    signal.signal(number, signal.SIG_DFL)
    os.kill(os.getpid(), number)


@contextlib.contextmanager
def blocked() -> Iterator[None]:
    """Lets a signal come only after a block, such as one that makes what has to be removed later."""
    before = signal.pthread_sigmask(signal.SIG_BLOCK, ())
    try:
        signal.pthread_sigmask(signal.SIG_BLOCK, _SIGNALS)  # which itself raises what a signal before it raises
        yield
    finally:
        signal.pthread_sigmask(signal.SIG_SETMASK, before)
