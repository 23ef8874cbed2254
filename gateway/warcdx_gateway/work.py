"""What a worker does for the present request: whoever reads for it asks here whether it may go on."""
import enum
import errno
import math
import socket
import time
from collections.abc import Callable
from typing import Optional

from .refusal import Refusal

FREE = 0.05  # seconds of the processor that a request has without a slot
LONGEST = 0.3  # seconds until it needs one in any case
MOST_FREE = 200_000  # bytes of an answer without a slot, which the system takes at once
PATIENCE = 1.0  # seconds until a client that has closed its side has left
MOST_HEARD = 1 << 21  # bytes of a request, whose body may be in chunks


class Lease(enum.Enum):
    """What a request has: a free moment, a slot, or nothing more, since no slot was free for it."""

    FREE = "free"
    SLOT = "slot"
    NONE = "none"


class NeedsSlot(BaseException):
    """The free moment of a request is over. It begins anew when it has a slot.

    It is no Exception, since nobody between makes an answer of it.
    """


class Connection(socket.socket):
    """A connection of a client, which another worker can go on with: `heard` is what was read of it.

    `arrived` is the time at which it was accepted, by the clock of all processes.
    """

    is_for_metrics = False  # whether it came by the address of the metrics

    def __init__(self, descriptor: int, lease: Lease, arrived: float, heard: bytes = b"", family: int = -1) -> None:
        kind = -1 if family == -1 else socket.SOCK_STREAM
        super().__init__(family, kind, 0, descriptor)  # without a family the system is asked
        self.lease = lease
        self.arrived = arrived
        self.heard = bytearray(heard)
        self._again = heard  # what is still to be read again
        self._has_ended = False

    def recv(self, size: int, flags: int = 0) -> bytes:
        """Returns what follows. Raises NoMoreData the second time that it is the end, for which gunicorn would ask for ever."""
        if flags:
            return super().recv(size, flags)
        piece, self._again = self._again[:size], self._again[size:]
        if not piece:
            piece = super().recv(size)
            self.heard += piece
            if len(self.heard) > MOST_HEARD or self._has_ended and not piece:
                from gunicorn.http.errors import NoMoreData  # which pages without a server do without

                raise NoMoreData
            self._has_ended = not piece
        return piece

    def passed_on(self, lease: Lease) -> "Connection":
        """Returns the connection for the next try, and closes nothing."""
        return Connection(self.detach(), lease, self.arrived, bytes(self.heard))

    @property
    def is_left(self) -> bool:
        """Whether the client has closed the connection.

        One that has closed its own side looks the same, and waits for its answer. So a short one
        isn't broken off.
        """
        try:
            found = super().recv(1, socket.MSG_PEEK | socket.MSG_DONTWAIT)
        except BlockingIOError:
            return False
        except OSError:
            return True
        return not found and time.monotonic() > self.arrived + PATIENCE


class Work:
    """The bounds of the present request of a worker: its time, its slot, and that its client waits.

    A request has `longest` seconds in all. Without a Connection it has a slot.
    """

    def __init__(self, longest: float) -> None:
        self._longest = longest
        self.beat: Callable[[], None] = lambda: None  # shows the master that the worker goes on
        self.begin(None)

    def begin(self, client: Optional[Connection]) -> None:
        self._client = client
        self._lease = Lease.SLOT if client is None else client.lease
        is_free = self._lease is Lease.FREE
        self._end = time.monotonic() + (LONGEST if is_free else self._longest)
        self._processor_end = time.thread_time() + FREE if is_free else math.inf

    def go_on(self) -> None:
        """Is called between two steps. Raises NeedsSlot, Refusal, or ConnectionError if nobody waits."""
        self.beat()
        if self._lease is Lease.NONE:
            cause = "too many costly requests are being answered; ask again"
            raise Refusal("TooBusy", "", cause, status=503)
        if self._lease is Lease.SLOT and self._client is not None and self._client.is_left:
            raise ConnectionResetError(errno.ECONNRESET, "the client has left")
        if time.monotonic() > self._end or time.thread_time() > self._processor_end:
            self.expect_slot()
            cause = "the answer takes too long; restrict the query"
            raise Refusal("TooSlow", "", cause, status=503)

    def seconds(self, most: float) -> float:
        """Returns the seconds that the next step may take, at most `most`."""
        self.go_on()
        return max(min(most, self._end - time.monotonic()), 0.001)

    @property
    def step(self) -> float:
        """The seconds for a step between whose parts nothing is asked."""
        return LONGEST if self._lease is Lease.FREE else math.inf

    def expect_slot(self, size: int = MOST_FREE + 1) -> None:
        """Is called before an answer of some bytes begins, or one of any length."""
        if self._lease is Lease.FREE and size > MOST_FREE:
            raise NeedsSlot

    def settle(self) -> None:
        """Is called when the answer begins: it can't begin anew then."""
        if self._lease is Lease.FREE:
            self._lease, self._processor_end = Lease.SLOT, math.inf
            self._end = time.monotonic() + self._longest


UNBOUNDED = Work(math.inf)
