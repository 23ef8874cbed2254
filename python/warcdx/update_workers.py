"""What runs the tasks of warcdx-update: threads of this process, or the workers of a cluster."""
import contextlib
import errno
import functools
import os
import queue
import signal
import subprocess
import threading
from collections.abc import Callable, Iterator, Sequence
from typing import Any, Union

from . import files, streams, update_tasks
from .ending import blocked
from .program import executable
from .update_tables import CannotUpdate
from .update_tasks import Failed

Task = Callable[..., Any]
Outcomes = Iterator[tuple[int, Any]]  # the numbers of the arguments of a task, each with the result or the error, as they come
_ENDING_WITH_STARTER = ("setpriv", "--pdeathsig", "KILL")  # in front of a program; some systems have a setpriv without this option


class Threads(contextlib.ExitStack):
    """Threads of this process, each of which runs one program at a time. The programs end with it, also if it is killed."""

    def __init__(self, jobs: int) -> None:
        super().__init__()
        self._jobs = jobs
        self._lock = threading.Lock()
        self._running: set[subprocess.Popen[bytes]] = set()
        self._is_ended = False
        self._threads: list[threading.Thread] = []
        self.callback(self._end)

    def run(self, task: Task, arguments: Sequence[tuple[Any, ...]]) -> Outcomes:
        """Runs a task once with each of these arguments."""
        turns, outcomes = enumerate(arguments), queue.SimpleQueue[tuple[int, Any]]()

        def work() -> None:
            signal.pthread_sigmask(signal.SIG_SETMASK, ())  # which the programs have too
            for number, each in turns:
                if self._is_ended:
                    return
                try:
                    outcomes.put((number, task(*each, start=self._start)))
                except Exception as error:
                    outcomes.put((number, error))

        try:
            for _ in range(min(self._jobs, len(arguments))):
                self._threads.append(threading.Thread(target=work))
                with blocked():  # until the thread has begun
                    self._threads[-1].start()
        except RuntimeError as error:  # there is no memory for a thread
            raise CannotUpdate(str(error)) from None
        for _ in arguments:
            yield outcomes.get()

    @functools.cached_property
    def _front(self) -> tuple[str, ...]:
        """What stands before a command, so that it ends with this process.

        A function that subprocess calls in the new process would do the same, but makes a start slower the more memory this process has.
        """
        nothing = subprocess.DEVNULL
        try:
            status = subprocess.call((*_ENDING_WITH_STARTER, "true"), stdin=nothing, stdout=nothing, stderr=nothing)
        except OSError:
            return ()
        return () if status else _ENDING_WITH_STARTER

    def _end(self) -> None:
        """Ends the programs that run, refuses others, and waits for the threads."""
        with self._lock:
            self._is_ended = True
            for process in self._running:
                process.kill()
        for thread in self._threads:
            if thread.ident is not None:  # else it does nothing
                thread.join()

    def _start(self, command: Sequence[str], **options: Any) -> "subprocess.Popen[bytes]":
        if executable(command[0]) is None:
            raise FileNotFoundError(errno.ENOENT, os.strerror(errno.ENOENT), command[0])
        with self._lock:
            if self._is_ended:
                raise Failed("the work is ended")
            process: subprocess.Popen[bytes] = subprocess.Popen((*self._front, *command), **options)
            self._running = {each for each in self._running if each.returncode is None} | {process}
            return process


class Cluster(contextlib.ExitStack):
    """The workers of a Dask cluster, which are sent the functions of the tasks. The first task opens them."""

    def __init__(self, address: str) -> None:
        super().__init__()
        self._address = address

    def run(self, task: Task, arguments: Sequence[tuple[Any, ...]]) -> Outcomes:
        """Runs a task once with each of these arguments."""
        from concurrent.futures import CancelledError, as_completed

        try:
            futures = {self._executor.submit(task, *each): number for number, each in enumerate(arguments)}
        except RuntimeError as error:  # the cluster is gone
            raise CannotUpdate(str(error)) from None
        for future in as_completed(list(futures)):
            try:
                outcome = future.result()
            except (CancelledError, Exception) as error:
                outcome = error
            yield futures.pop(future), outcome

    @functools.cached_property
    def _executor(self) -> Any:
        import logging

        try:
            import cloudpickle
            import distributed
        except ImportError:
            raise CannotUpdate("the module distributed is missing (Debian's package python3-distributed)") from None
        logging.disable()  # what Dask logs of a lost worker isn't for the user
        for module in (files, streams, update_tasks):
            cloudpickle.register_pickle_by_value(module)
        try:
            client = self.enter_context(distributed.Client(self._address))
        except ValueError as error:  # it isn't an address
            raise CannotUpdate(f"{error}; an ADDRESS is HOST:PORT, as the scheduler prints it") from None
        executor = self.enter_context(client.get_executor(pure=False))
        self.push(lambda kind, *_: executor.shutdown(wait=kind is None))
        return executor


Workers = Union[Threads, Cluster]
