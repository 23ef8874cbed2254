"""Processes and those that they start, which bound themselves, end with who has started them, and know what that says."""
import ctypes
import functools
import mmap
import os
import resource

_PARENT_DEATH_SIGNAL = 1  # PR_SET_PDEATHSIG of prctl(2)


class Flag:
    """Whether something is so: one process says it, and the ones that it has started know it at once."""

    def __init__(self, value: bool) -> None:
        self._memory = mmap.mmap(-1, 1)
        self.set(value)

    def set(self, value: bool) -> None:
        self._memory[0] = value

    def __bool__(self) -> bool:
        return bool(self._memory[0])


def end_with_parent(parent: int, number: int) -> None:
    """Lets the system send a signal to this process when the process ends that has started it (Linux)."""
    load_system_library().prctl(_PARENT_DEATH_SIGNAL, number, 0, 0, 0)
    if os.getppid() != parent:
        os.kill(os.getpid(), number)


def limit_memory(memory: int) -> None:
    """Bounds the address space of this process, in bytes, unless a smaller bound is there."""
    most = resource.getrlimit(resource.RLIMIT_AS)[1]
    memory = memory if most == resource.RLIM_INFINITY else min(memory, most)
    resource.setrlimit(resource.RLIMIT_AS, (memory, memory))


@functools.lru_cache(maxsize=None)
def load_system_library() -> ctypes.CDLL:
    """Returns the system's library. A process that was just started finds it loaded if its starter has called this."""
    return ctypes.CDLL(None)
