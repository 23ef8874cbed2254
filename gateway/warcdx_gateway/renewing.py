"""How the master takes files into use: each is read by a check first, once for all workers."""
import contextlib
import logging
import math
import os
import select
import time
from collections.abc import Container, Sequence
from typing import Optional

import gunicorn.systemd

from warcdx import Error, command

from .checking import Check, NotChecked, NotInOrder
from .collection import Collection
from .generation import Generation, Identity, Stamp, stamp_of
from .refusal import say
from .settings import CollectionSettings

AGAIN = 60  # seconds after which files are checked again that couldn't be
TRIES = 3  # to open files while they are replaced
TICK = 0.05  # seconds after which a write to a file gives it another time
DONE = "done"  # with a renewal
TOLD = 10  # seconds between two words to systemd
MORE_TIME = "EXTEND_TIMEOUT_USEC=30000000"
AT_A_TIME = max(len(os.sched_getaffinity(0)) // 2, 1)  # checks


class Opening:
    """The files that have the names of a collection's indexes now, which are checked one after another before they are used.

    Files whose identities are `known` were checked. `generation` is the open files. The constructor raises OSError.
    """

    def __init__(self, each: CollectionSettings, program: str, memory: int, known: Container[Identity]) -> None:
        self._program = program
        self._memory = memory
        self._paths, self.generation = present(each)
        self.check: Optional[Check] = None
        stamp = self.generation.stamp
        self._left = [n for n, identity in enumerate(stamp) if identity not in known]
        # Of two writes within a tick of the clock the second one doesn't change the time. The clock may be set meanwhile.
        newest = max((stamp[n].changed / 1e9 for n in self._left), default=0.0)
        self.begun = time.monotonic()
        self._settled = self.begun + min(max(newest + TICK - time.time(), 0.0), TICK)

    @property
    def at_fault(self) -> tuple[int, ...]:
        """The device and the inode of the file that isn't in order."""
        return self.generation.stamp[self._left[0]][:2]

    def advance(self) -> bool:
        """Goes on, and returns whether all files are in order. Raises NotInOrder, another Error of the package, or OSError."""
        try:
            while self._left and self._is_checked(self._left[0]):
                del self._left[0]
        except (NotInOrder, NotChecked):
            self._expect_unchanged()
            raise
        self._expect_unchanged()
        return not self._left

    def close(self) -> None:
        """Ends the check, and closes the files."""
        self._end_check()
        self.generation.close()

    def _is_checked(self, number: int) -> bool:
        if self.check is None:
            if Check.running >= AT_A_TIME or time.monotonic() < self._settled:
                return False
            self.check = Check(self._program, self._memory, self.generation.names[number], self._paths[number])
        is_done = self.check.is_done()
        if is_done:
            self._end_check()
        return is_done

    def _end_check(self) -> None:
        if self.check is not None:
            self.check.close()
        self.check = None

    def _expect_unchanged(self) -> None:
        if not self.generation.is_unchanged:
            raise NotChecked("an index was changed while it was checked")


def openings_of(collections: Sequence[CollectionSettings], program: str, memory: int, known: Container[Identity] = ()) -> list[Opening]:
    """Returns the files of several collections, which are to be taken into use at once after all were checked. Raises OSError."""
    with contextlib.ExitStack() as stack:
        openings = [stack.enter_context(contextlib.closing(Opening(each, program, memory, known))) for each in collections]
        stack.pop_all()
    return openings


def are_checked(openings: Sequence[Opening]) -> bool:
    """Goes on with all of them, and returns whether all files are in order. Raises as `advance` does."""
    return all([opening.advance() for opening in openings])


def close(openings: Sequence[Opening]) -> None:
    """Ends their checks, and closes their files."""
    for opening in openings:
        opening.close()


def wait(openings: Sequence[Opening]) -> None:
    """Goes on until all files are in order, and lets systemd know that the start goes on."""
    told = time.monotonic()
    while not are_checked(openings):
        if time.monotonic() - told > TOLD:
            told = time.monotonic()
            gunicorn.systemd.sd_notify(MORE_TIME, logging.getLogger())
        poll = select.poll()
        running = [opening.check for opening in openings if opening.check is not None]
        for check in running:
            poll.register(check.output, select.POLLIN)
        poll.poll(1000 * (TOLD if running else TICK))


class Renewal:
    """The files that replace the indexes of a collection."""

    def __init__(self, collection: Collection, memory: int) -> None:
        self.collection = collection
        self._memory = memory
        self._opening: Optional[Opening] = None
        self._stamp: Stamp = ()
        self._failed: Optional[Stamp] = None
        self._again = 0.0  # when files are checked again that have failed
        self._told: Optional[tuple[Optional[Stamp], str]] = None
        self._has_told_of_change = False

    @property
    def begun(self) -> float:
        """When the check began that goes on."""
        return math.inf if self._opening is None else self._opening.begun

    def look(self, known: Container[Identity]) -> str:
        """Looks whether the indexes were replaced, and goes on with the check of those that have come.

        Returns `done` when they have come into use, `failed` when they can't, and no text after other looks. The old
        files stay in use until then, and if the check fails. Then a line of standard error says so.
        """
        try:
            if self._opening is None:
                self._begin(known)
            if self._opening is None or not self._opening.advance():
                return ""
            self.collection.take(self._opening.generation)
            self._opening = None
            self._forget()
            return DONE
        except (Error, OSError) as error:
            return self._fail(error)

    def close(self) -> None:
        """Ends a check that goes on."""
        if self._opening is not None:
            self._opening.close()
        self._opening = None

    def _begin(self, known: Container[Identity]) -> None:
        collection = self.collection
        self._stamp = ()  # without one of the files
        self._stamp = stamp_of(map(os.stat, collection.settings.files))
        is_old = self._stamp != collection.generation.stamp
        collection.is_old.set(is_old)
        if not is_old:
            self._forget()
        elif self._stamp != self._failed or time.monotonic() > self._again:
            self._tell_of_change()
            self._opening = Opening(collection.settings, collection.program, self._memory, known)

    def _forget(self) -> None:
        """Forgets what has failed, as the files in use are those that have the names."""
        self._failed, self._told, self._has_told_of_change = None, None, False

    def _tell_of_change(self) -> None:
        """Says that a file in use is another one now, as by `cp`: nothing is answered from it."""
        if not self.collection.generation.is_unchanged and not self._has_told_of_change:
            self._has_told_of_change = True
            say(f"{self.collection.name}: an index in use was changed: replace indexes by mv")

    def _fail(self, error: Exception) -> str:
        collection, told = self.collection, None
        self._failed, self._again = self._stamp, time.monotonic() + AGAIN
        collection.is_old.set(True)
        if isinstance(error, NotInOrder) and self._opening is not None:
            self._again, told = math.inf, self._stamp
            # A file that was found to be bad may be one in use whose time was set back.
            if self._opening.at_fault in {each[:2] for each in collection.generation.stamp}:
                collection.is_usable.set(False)
        self.close()
        if (told, str(error)) == self._told:
            return ""
        self._told = (told, str(error))
        is_answered = collection.is_usable and collection.generation.is_unchanged
        state = "the old indexes stay in use" if is_answered else "no index is in use"
        say(f"{collection.name}: {state}: {command.reason_of(error)}")
        return "failed"


def present(each: CollectionSettings) -> tuple[list[str], Generation]:
    """Returns the files that are a collection's indexes at one moment, and their paths. Raises OSError."""
    for _ in range(TRIES):
        files = each.files
        generation = Generation(files)
        if stamp_of(map(os.stat, each.files)) == generation.stamp:
            return files, generation
        generation.close()
    raise OSError("the indexes are being changed")
