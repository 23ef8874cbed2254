"""The server: gunicorn runs the application in processes of limits of their own."""
import contextlib
import gc
import logging
import os
import pathlib
import signal
from collections.abc import Callable, Container, Sequence
from typing import Optional

import gunicorn.http.message
import gunicorn.http.wsgi
import gunicorn.workers.base
from gunicorn.app.base import BaseApplication
from gunicorn.errors import HaltServer

from warcdx import Error, command

from .application import Gateway
from .children import end_with_parent, limit_memory
from .collection import Collection
from .generation import Identity
from .listening import allow_files, bound, naming, shown_address
from .refusal import NAME, say
from .renewing import DONE, Opening, Renewal, are_checked, close, openings_of, wait
from .rules import RulesFile
from .settings import BadSettings, Settings
from .shared import Metrics
from .waiting import Costs, Shares, Waiting
from .workers import LATER, Log, Master, Sign, Worker

BACKLOG = 1024  # connections that wait for a worker
OTHERS = ("GUNICORN_PID", "GUNICORN_FD", "LISTEN_FDS", "LISTEN_PID")  # variables by which gunicorn takes sockets of others
MOST_LINE = 70_000  # bytes of the line of a request: a query has at most 65,536


class Server(BaseApplication):
    """Runs workers until a signal. `read` returns the settings anew, after SIGHUP.

    Workers have what this process has when they are started: settings, rules, and indexes that were checked. When
    others have come into use, `state` is another number, and new workers take the place of those of another state.
    """

    def __init__(self, settings: Settings, read: Callable[[], Settings], listeners: Sequence[int]) -> None:
        self._settings = settings
        self._read = read
        self._listeners = listeners
        self._metrics = Metrics()
        self.waiting, self.costs = Waiting(), Costs()
        self.state = 0
        self._next: Optional[tuple[Settings, RulesFile, list[Opening]]] = None  # which come into use when they were checked
        self._failed = 0  # workers that aren't counted yet
        rules, openings = rules_file(settings), _openings(settings, ())
        try:
            wait(openings)
        except BaseException:
            close(openings)
            raise
        self._use(settings, rules, openings)
        super().__init__()

    def load_config(self) -> None:
        settings = self._settings
        for name, value in {
            "bind": [f"fd://{listener}" for listener in self._listeners],
            "proc_name": NAME,
            "workers": settings.workers,
            "worker_class": f"{Worker.__module__}.Worker",
            "timeout": settings.timeout,
            "graceful_timeout": settings.limits.drain,
            "backlog": BACKLOG,
            "forwarded_allow_ips": "*",  # the scheme of its links is what a client says, or a server in front
            "limit_request_line": MOST_LINE,
            "preload_app": True,
            "logger_class": Log,
            "loglevel": "warning",
            "accesslog": settings.access_log or None,
            "post_fork": self.begin_worker,
            "child_exit": self.note_end,
            "worker_exit": self.end_worker,
        }.items():
            self.cfg.set(name, value)
        # As attributes they are found at once. Each request needs some twenty.
        self.cfg.__dict__.update((name, each.get()) for name, each in self.cfg.settings.items())

    def load(self) -> Gateway:
        return self._gateway

    def read_again(self) -> None:
        """Reads the settings again. They come into use when their indexes were checked."""
        self._end_next()
        try:
            settings = self._read()
            known = self._known() if settings.program == self._settings.program else ()
            self._next = settings, rules_file(settings, self._rules), _openings(settings, known)
        except (BadSettings, Error, OSError) as error:
            self._keep_settings(error)

    def look(self) -> bool:
        """Goes on with what is to come into use. Returns whether settings that were read can be used."""
        failed, self._failed = self._failed, 0
        self._metrics.ended.inc(failed)
        self._renew()
        if self._rules.look():
            self._apply_rules()
        if self._next is None:
            return False
        _, rules, openings = self._next
        try:
            if rules is not self._rules:
                rules.look()
            return are_checked(openings) and rules.has_settled
        except (Error, OSError) as error:
            self._end_next()
            self._keep_settings(error)
            return False

    def reload(self) -> None:
        """Takes the settings into use that were read, if there are any."""
        if self._next is None:
            return
        for renewal in self._renewals:
            renewal.close()
            self._metrics.old_indexes.labels(renewal.collection.name).set(0)
            renewal.collection.close()
        self._use(*self._next)
        self._next, self.callable = None, None
        super().reload()

    def end_checks(self) -> None:
        """Ends the checks that go on, and the waiting of requests."""
        self.waiting.has_ended.set(True)
        self._end_next()
        for renewal in self._renewals:
            renewal.close()

    def run(self) -> None:
        logging.raiseExceptions = False  # a line that can't be written is lost
        gunicorn.http.wsgi.SERVER = NAME
        gunicorn.http.message.MAX_REQUEST_LINE = MOST_LINE
        gunicorn.workers.base.WorkerTmp = Sign
        try:
            Master(self).run()
        except HaltServer as error:  # the workers that run end with this process
            raise OSError(error.reason) from None

    def begin_worker(self, server: Master, worker: Worker) -> None:
        end_with_parent(worker.ppid, signal.SIGTERM)
        limit_memory(self._settings.memory)
        gc.freeze()  # what the master has loaded stays
        self._metrics.sit()
        self._gateway.work.beat = worker.beat

    def end_worker(self, server: Master, worker: Worker) -> None:
        if os.getpid() == worker.pid:
            signal.signal(signal.SIGTERM, signal.SIG_IGN)  # it ends already

    def note_end(self, server: Master, worker: Worker) -> None:
        """Counts a worker that wasn't told to end. It is called in the handler of a signal.

        The handler may interrupt itself, so it takes no lock: the count is added by `look`.
        """
        self._failed += not worker.is_told

    def _use(self, settings: Settings, rules: RulesFile, openings: Sequence[Opening]) -> None:
        """Makes the application of settings whose indexes were checked."""
        self._settings, self._rules = settings, rules
        self.shares = Shares(self.waiting, settings.wide, settings.limits.wait)
        found = {each.name: Collection(each, settings, opening.generation) for each, opening in zip(settings.collections, openings)}
        self._gateway = Gateway(settings, found, self._metrics)
        self._renewals = [Renewal(each, settings.memory) for each in found.values()]
        self._apply_rules()

    def _apply_rules(self) -> None:
        for name, rules in self._rules.rules.items():
            self._gateway.collections[name].rules = rules
        self.state += 1

    def _renew(self) -> None:
        """Goes on with the files that replace indexes."""
        known = self._known()
        for renewal in sorted(self._renewals, key=lambda each: each.begun):
            name = renewal.collection.name
            if result := renewal.look(known):
                self._metrics.renewals.labels(name, result).inc()
                self.state += result == DONE
            self._metrics.old_indexes.labels(name).set(bool(renewal.collection.is_old))

    def _known(self) -> set[Identity]:
        """Returns the identities of the files in use."""
        used = [each for each in self._gateway.collections.values() if each.is_usable]
        return {identity for each in used for identity in each.generation.stamp}

    def _keep_settings(self, error: Exception) -> None:
        say(f"the old settings stay in use: {command.reason_of(error)}")

    def _end_next(self) -> None:
        if self._next is not None:
            close(self._next[2])
        self._next = None


def _openings(settings: Settings, known: Container[Identity]) -> list[Opening]:
    """Opens the indexes of settings, to be checked. Raises OSError."""
    for folder in (folder for each in settings.collections for folder in each.archives):
        if not folder.is_dir():
            raise OSError(f"{folder}: no such folder")
    return openings_of(settings.collections, settings.program, settings.memory, known)


def rules_file(settings: Settings, before: Optional[RulesFile] = None) -> RulesFile:
    """Returns the rules of settings, which are those of before if they are of the same file. Raises BadSettings."""
    source = pathlib.Path(settings.rules) if settings.rules else None, settings.program, [each.name for each in settings.collections]
    return before if before is not None and before.source == source else RulesFile(*source, before)


def run(settings: Settings, read: Callable[[], Settings]) -> None:
    """Answers requests until a signal. Raises Error or OSError if it can't start."""
    signal.pthread_sigmask(signal.SIG_BLOCK, LATER)
    signal.signal(signal.SIGQUIT, signal.getsignal(signal.SIGTERM))  # so that nothing is left
    for name in OTHERS:
        os.environ.pop(name, None)
    allow_files(sum(each.most_files for each in settings.collections))
    if settings.access_log not in ("", "-"):
        open(settings.access_log, "ab").close()
    addresses = [(settings.address, settings.port), *settings.metrics_address]
    with contextlib.ExitStack() as stack:
        listeners = [stack.enter_context(bound(*each)) for each in addresses]
        server = Server(settings, read, [each.fileno() for each in listeners])
        for address, listener in zip(addresses, listeners):
            with naming(*address):
                listener.listen(BACKLOG)  # no client waits for the check of the indexes
        shown = shown_address(listeners[0])
        for listener in listeners:
            listener.detach()  # gunicorn closes it
    print(f"http://{shown}/", flush=True)
    server.run()
