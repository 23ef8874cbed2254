"""What a gateway takes of the processors: it doesn't depend on what else the machine has to do."""
import os
import pathlib
import time
from collections.abc import Iterator

from .support import Server, children

TICKS = os.sysconf("SC_CLK_TCK")  # of a second
LOOKS = 3  # in a row


def processor_time(server: Server) -> float:
    """Returns the seconds of all workers and of their programs, also of those that have ended."""
    return sum(sum(map(int, fields[11:15])) for fields in states(server)) / TICKS


def own_time() -> float:
    """Returns the seconds of this process, and of the programs that it has started and waited for."""
    return sum(os.times()[:4])


def is_idle(server: Server) -> bool:
    """Returns whether all processes of a gateway wait."""
    for _ in range(LOOKS):
        if any(fields[0] != "S" for fields in states(server)):
            return False
        time.sleep(0.05)
    return True


def states(server: Server) -> Iterator[list[str]]:
    """Yields the fields of proc(5) of each worker and program, from the state on."""
    for worker in server.workers():
        for process in (worker, *children(worker)):
            try:
                found = pathlib.Path(f"/proc/{process}/stat").read_text()
            except (FileNotFoundError, ProcessLookupError):
                continue
            yield found.rpartition(")")[2].split()
