"""Iterators whose errors aren't lost, so that a part of what they give is never taken for all of it."""
import contextlib
import copy
from collections.abc import Generator, Iterator
from typing import Optional, TypeVar

from .errors import Error

_Item = TypeVar("_Item")


class Again(Iterator[_Item]):
    """Gives what a generator does. If an error ends that, each further call raises it again: a generator would seem to be at its end."""

    def __init__(self, items: Generator[_Item, None, None]) -> None:
        self._items = items
        self._error: Optional[Exception] = None

    def __next__(self) -> _Item:
        if self._error is not None:
            raise self._error
        try:
            return next(self._items)
        except StopIteration:
            raise
        except BaseException as error:
            if self._is_ended():  # and not only advanced by another thread
                self._error = _kept(error)
            raise

    def close(self) -> None:
        """Ends the iterator, and what it reads from."""
        self._items.close()

    def _is_ended(self) -> bool:
        return self._items.gi_frame is None


def _kept(error: BaseException) -> Exception:
    """Returns what to raise again for an error: a copy, which holds no frame of the calls that have failed, if it has one."""
    if not isinstance(error, Exception):  # such as an interrupt
        return Error(f"{type(error).__name__} has ended the iteration; begin a new one")
    with contextlib.suppress(Exception):
        return copy.copy(error)
    return error
