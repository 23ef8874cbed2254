"""The master and its workers, as gunicorn runs them."""
import contextlib
import errno
import logging
import mmap
import operator
import os
import re
import select
import signal
import socket
import struct
import sys
import time
from collections.abc import Iterable
from types import FrameType
from typing import Any, Optional

import gunicorn.arbiter
import gunicorn.glogging
import gunicorn.systemd
import gunicorn.workers.sync
from gunicorn.errors import HaltServer
from gunicorn.http.errors import InvalidHeader, InvalidHTTPVersion, InvalidRequestLine, UnsupportedTransferCoding

from .refusal import NAME, without_controls
from .waiting import COSTLY_LEVEL, address_of, queue_of
from .work import MOST_FREE, Connection, Lease, NeedsSlot

HANDLED = (signal.SIGTERM, signal.SIGINT, signal.SIGQUIT, signal.SIGABRT, signal.SIGUSR1, signal.SIGHUP)  # by a worker
LATER = (signal.SIGHUP, signal.SIGUSR1)  # which wait until the gateway answers
MASTER = os.getpid()  # which loads this
SILENCE = 2  # seconds for a client to send its request when a worker ends
AGAIN = 10  # seconds until workers are started again, after one has failed before it answered
PAUSE = 0.05  # seconds until a worker looks again for a slot for those that wait, and the master whether a new worker has begun
VERSIONS = ((1, 0), (1, 1))
_CONTROL = re.compile("[\0-\x1f\x7f]")  # which no target of a request has
_END = re.compile("[\0\r\n]")  # what other servers may take for the end of a field
_NUMBER = re.compile("[0-9]+")


class Sign:
    """The moment at which a worker has shown the master that it goes on.

    It is in memory. On a full disk gunicorn's own couldn't be made, and the master would end.
    """

    _MOMENT = struct.Struct("=d")  # by a clock that nobody sets

    def __init__(self, config: Any) -> None:
        self._file = open(os.memfd_create("worker"), "w+b", buffering=0)  # which is closed with this object
        self._file.truncate(self._MOMENT.size)
        self._memory = mmap.mmap(self.fileno(), self._MOMENT.size)
        self._made = time.monotonic()

    def notify(self) -> None:
        self._MOMENT.pack_into(self._memory, 0, time.monotonic())

    @property
    def has_begun(self) -> bool:
        """Whether the worker has ever shown it. One that has ended may be closed already, by a signal."""
        return not self._memory.closed and self._MOMENT.unpack_from(self._memory) != (0.0,)

    def last_update(self) -> float:
        """Returns the time in seconds since 1970, as gunicorn compares it. It moves with a clock that is set."""
        moment = self._MOMENT.unpack_from(self._memory)[0] or self._made
        return time.time() - (time.monotonic() - float(moment))

    def fileno(self) -> int:
        return self._file.fileno()

    def close(self) -> None:
        self._memory.close()
        self._file.close()


class Log(gunicorn.glogging.Logger):
    """What gunicorn reports: one line each, and never a traceback."""

    error_fmt = f"{NAME}: %(message)s"

    def exception(self, msg: str, *args: Any, **kwargs: Any) -> None:
        self.error_log.error(f"{msg}: %s", *args, sys.exc_info()[1])

    def atoms(self, *args: Any, **kwargs: Any) -> dict[str, Any]:
        """Returns what a line of the access log may have, without what acts on a terminal."""
        found = super().atoms(*args, **kwargs).items()
        return {name: without_controls(value) if isinstance(value, str) else value for name, value in found}

    def reopen_files(self) -> None:
        """Goes on with the file that has the name of the access log now. If it can't be opened, the one of before stays in use."""
        for handler in self.access_log.handlers:
            if isinstance(handler, logging.FileHandler):
                try:
                    before, handler.stream = handler.stream, handler._open()
                except OSError as error:
                    if os.getpid() == MASTER:
                        self.warning("the access log stays the one of before: %s", error)
                else:
                    with contextlib.suppress(OSError):  # a line that can't be written is lost
                        before.close()

    def info(self, msg: str, *args: Any, **kwargs: Any) -> None:
        if kwargs.get("exc_info"):
            self.exception(msg, *args)


class Master(gunicorn.arbiter.Arbiter):
    """The process that keeps the workers."""

    is_told = False  # that no worker can be started now
    has_begun = False  # a worker, ever
    has_failed = False  # a worker before it answered
    _is_waiting = False  # for new workers to begin, so that others can end
    _again = 0.0  # when workers may be started again, after one has failed before it answered

    def reap_workers(self) -> None:
        """Takes the statuses of workers, and leaves those of the programs that the master has started."""
        for process, worker in list(self.WORKERS.items()):
            try:
                found, status = os.waitpid(process, os.WNOHANG)
            except ChildProcessError:
                found, status = process, 0
            # This may be called again, by a signal, before it ends.
            if found and self.WORKERS.pop(process, None) is not None:
                self.cfg.child_exit(self, worker)
                self.has_begun |= worker.tmp.has_begun
                worker.tmp.close()
                self.has_failed |= os.waitstatus_to_exitcode(status) in (self.WORKER_BOOT_ERROR, self.APP_LOAD_ERROR)

    def _tell(self, cause: Optional[str]) -> None:
        """Says once why a worker can't be started."""
        if not self.is_told:
            self.is_told = True
            self.log.error("a worker can't be started: %s", cause)

    def init_signals(self) -> None:
        super().init_signals()
        signal.pthread_sigmask(signal.SIG_UNBLOCK, LATER)

    def manage_workers(self) -> None:
        """Starts and ends workers, so that there are as many as there should be, of the present state.

        Those of another state are told to end when a new one has begun, so that somebody answers.
        """
        self.reap_workers()  # also one that has ended before it was known
        self.has_begun |= any(each.tmp.has_begun for each in self._of_state(True) + self._of_state(False))
        if self.has_failed and not self.has_begun:
            raise HaltServer("the workers can't be started, as for want of memory")
        if self.has_failed:
            self.has_failed, self._again = False, time.monotonic() + AGAIN
            self._tell("it has ended before it answered, as for want of memory")
        if self.app.look():
            self.reload()  # which comes back to this
            return
        present = self._of_state(True)
        if present and present[-1].tmp.has_begun:
            self._again = 0.0
        missing = self.num_workers - len(present)
        for _ in range(min(missing, int(time.monotonic() >= self._again)) if self._again else missing):
            self.spawn_worker()
        present = self._of_state(True)
        replaced = [each for each in self._of_state(False) + present[: -self.num_workers] if not each.is_told]
        has_begun = any(each.tmp.has_begun for each in present)
        for worker in replaced if has_begun else ():
            worker.is_told = True
            self.kill_worker(worker.pid, signal.SIGTERM)
        self._is_waiting = bool(replaced) and not has_begun and not self._again

    def _of_state(self, is_present: bool) -> "list[Worker]":
        """Returns the workers of the present state, or of others, by their age."""
        workers = sorted(self.WORKERS.values(), key=operator.attrgetter("age"))
        return [each for each in workers if (each.state == self.app.state) == is_present]

    def sleep(self) -> None:
        """Waits for a signal, a second at most. gunicorn's own would end the gateway if it has a thousand files open."""
        poll_of([self.PIPE[0]]).poll(1000 * (PAUSE if self._is_waiting else 1))
        with contextlib.suppress(BlockingIOError):
            os.read(self.PIPE[0], 64)  # a byte for each signal

    def handle_hup(self) -> None:
        """Reads the settings again. They come into use when their indexes were checked."""
        self.app.read_again()

    def handle_usr2(self) -> None:
        """Does nothing: the address has one master."""

    def spawn_worker(self) -> Any:
        """Starts a worker, which gets a signal that comes meanwhile when it can handle it. If it can't be started, it is tried again."""
        signal.pthread_sigmask(signal.SIG_BLOCK, HANDLED)
        try:
            found = super().spawn_worker()
            self.is_told = self._again > 0
            return found
        except OSError as error:
            self._tell(error.strerror)
        except SystemExit as end:
            if os.getpid() != self.pid:  # a worker isn't the command, which writes what is left and says how that went
                os._exit(end.code if isinstance(end.code, int) else 0)
            raise
        finally:
            if os.getpid() == self.pid:
                signal.pthread_sigmask(signal.SIG_UNBLOCK, HANDLED)

    def stop(self, graceful: bool = True) -> None:
        gunicorn.systemd.sd_notify("STOPPING=1", self.log)
        self.app.end_checks()
        super().stop(graceful)


class Worker(gunicorn.workers.sync.SyncWorker):
    """A process that answers one request at a time."""

    is_reading = False  # a request
    is_told = False  # to end, as others take its place

    def __init__(self, *arguments: Any) -> None:
        super().__init__(*arguments)
        self.state = self.app and self.app.state

    def beat(self) -> None:
        """Shows the master that this worker goes on. Raises ConnectionResetError if the master was killed."""
        self.notify()
        if os.getppid() != self.ppid:
            raise ConnectionResetError(errno.ECONNRESET, "the master has ended")

    def run(self) -> None:
        """Answers a new request, and one that has waited, as long as there are any."""
        for listener in self.sockets:
            listener.setblocking(False)
        waiting = poll_of(self.app.waiting.descriptors)
        new = poll_of([*self.sockets, self.PIPE[0]])
        anything = poll_of([*self.app.waiting.descriptors, *self.sockets, self.PIPE[0]])
        while self.alive and self.is_parent_alive():
            self.notify()
            has_begun = any([self.accept(listener) for listener in self.sockets])
            waits = bool(waiting.poll(0))
            has_gone_on = waits and self.alive and self._go_on()
            if has_begun or has_gone_on:
                continue
            if waits:  # there is no slot for them
                new.poll(PAUSE * 1000)
            else:
                anything.poll(self.timeout * 1000)
            with contextlib.suppress(BlockingIOError):
                os.read(self.PIPE[0], 64)  # a byte for each signal
        for client in self.app.waiting.rest():
            self._answer(client)
        signal.alarm(0)  # Python takes its handler away before the process has ended

    def _go_on(self) -> bool:
        """Answers a request that has waited, if it has a slot now or is too late."""
        with self.app.shares.next() as client:
            if client is None:
                return False
            self._answer(client)
        return True

    def _answer(self, client: Connection) -> None:
        try:
            address = client.getpeername()
        except OSError:  # it has left
            client.close()
        else:
            self.handle(self.sockets[0], client, address)

    def init_signals(self) -> None:
        super().init_signals()
        signal.siginterrupt(signal.SIGTERM, True)  # else it is handled after a read or write only
        signal.signal(signal.SIGHUP, signal.SIG_IGN)  # it is for the master, and may be sent to all
        signal.pthread_sigmask(signal.SIG_UNBLOCK, HANDLED)

    def handle_exit(self, sig: int, frame: Optional[FrameType]) -> None:
        """Ends after the present answer. No connection waits for this worker then.

        A socket that doesn't listen takes the place of each that does, as it is used until then.
        """
        super().handle_exit(sig, frame)
        with socket.socket() as silent:
            for listener in self.sockets:
                os.dup2(silent.fileno(), listener.fileno())

        signal.signal(signal.SIGALRM, self.handle_silence)
        signal.alarm(SILENCE)

    def handle_silence(self, sig: int, frame: Optional[FrameType]) -> None:
        """Ends at once if the gateway ends, and the client hasn't sent its request yet, or the master was killed."""
        if self.is_reading and self.app.waiting.has_ended or os.getppid() != self.ppid:
            sys.exit(0)

    def handle(self, listener: Any, client: socket.socket, addr: Any) -> None:
        self.is_reading = True
        try:
            super().handle(listener, client, addr)
        finally:
            self.is_reading = False

    def handle_request(self, listener: Any, req: Any, client: Connection, addr: Any) -> None:
        """Answers a request. gunicorn would take `_` in the name of a field for `-`, and SCRIPT_NAME for its own.

        It would also tell a client of HTTP/1.0 to go on, which takes that for the answer (RFC 9110, 10.1.1).
        """
        self.is_reading = False
        req.headers = [each for each in req.headers if "_" not in each[0] and (req.version > (1, 0) or each[0] != "EXPECT")]
        expect_plain(req)
        forwarded = [value for name, value in req.headers if name == "X-FORWARDED-FOR"]
        address = address_of(str(addr[0]) if addr else "", "".join(forwarded[-1:]))
        # Two requests with bodies may have one URI, and differ in what they cost.
        costs, name = self.app.costs, "" if req.method == "POST" else f"{req.method} {req.uri}"
        is_costly = costs.level(name) > 0 or costs.level(address or "") > COSTLY_LEVEL
        is_over = not self.alive and not self.app.waiting.has_ended  # others have what came into use meanwhile
        if not (client.lease is Lease.FREE and (is_costly or is_over)):
            try:
                super().handle_request(listener, req, client, addr)
                return
            except NeedsSlot:
                for each in filter(None, (name, address)):
                    costs.note(each)
        if self.app.waiting.has_ended:
            self._answer(client.passed_on(Lease.SLOT))
        elif not self.app.waiting.put(queue_of(address), client):
            self._answer(client.passed_on(Lease.NONE))

    def handle_error(self, req: Any, client: Any, addr: Any, exc: BaseException) -> None:
        """Refuses a request that can't be read, also one that gunicorn takes for a fault of its own."""
        if isinstance(exc, UnsupportedTransferCoding):
            exc = InvalidHeader("Transfer-Encoding", req)
        elif req is None and isinstance(exc, ValueError):  # a number of a thousand digits
            exc = InvalidRequestLine(exc)
        super().handle_error(req, client, addr, exc)

    def accept(self, listener: Any) -> bool:
        """Answers a new request, and returns whether there was one."""
        try:
            client, address = listener.accept()
        except (BlockingIOError, ConnectionAbortedError):
            return False
        except OSError:
            if self.alive:
                raise
            return False
        is_for_metrics = listener is not self.sockets[0]
        lease = Lease.SLOT if is_for_metrics else Lease.FREE  # the next worker wouldn't know which address it came by
        connection = Connection(client.detach(), lease, time.monotonic(), family=listener.FAMILY)
        connection.is_for_metrics = is_for_metrics
        connection.setblocking(True)
        connection.setsockopt(socket.SOL_SOCKET, socket.SO_SNDBUF, MOST_FREE)
        self.handle(listener, connection, address)
        return True


def expect_plain(req: Any) -> None:
    """Raises what gunicorn answers with status 400, for a request that it takes and other servers read otherwise.

    RFC 9112 asks for it: a target is a URI (3), there is one field Host (3.2), and a length has digits alone (6.2). What
    a server in front reads as two fields, or as another length, could hide a request from it.
    """
    if req.version not in VERSIONS:
        raise InvalidHTTPVersion("another one than 1.0 and 1.1")
    if _CONTROL.search(req.uri):
        raise InvalidRequestLine(req.uri)
    for name, value in req.headers:
        if _END.search(value) or name == "CONTENT-LENGTH" and not _NUMBER.fullmatch(value.rstrip(" \t")):
            raise InvalidHeader(name, req)
    hosts = [name for name, _ in req.headers].count("HOST")
    if hosts > 1 or not hosts and req.version > (1, 0):
        raise InvalidHeader("Host", req)


def poll_of(readable: Iterable[Any]) -> "select.poll":
    """Returns what waits until one of these can be read."""
    poll = select.poll()
    for each in readable:
        poll.register(each, select.POLLIN)
    return poll
