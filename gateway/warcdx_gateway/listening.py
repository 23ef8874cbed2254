"""The sockets that the server listens at, and the files that a process may open."""
import contextlib
import errno
import resource
import socket
from collections.abc import Iterator

OTHER_FILES = 200  # that a process may open beside indexes
LEAST_FILES = 128  # beside indexes, without which requests would fail


def bound(address: str, port: int) -> socket.socket:
    """Returns a socket with an address, which doesn't listen yet. Raises OSError."""
    with naming(address, port):
        family, _, _, _, found = socket.getaddrinfo(address, port, type=socket.SOCK_STREAM, flags=socket.AI_PASSIVE)[0]
        listener = socket.socket(family, socket.SOCK_STREAM)
        try:
            listener.setsockopt(socket.SOL_SOCKET, socket.SO_REUSEADDR, 1)
            listener.bind(found)
        except OSError:
            listener.close()
            raise
    return listener


@contextlib.contextmanager
def naming(address: str, port: int) -> Iterator[None]:
    """Names the address in an OSError, also for what can't be one."""
    try:
        yield
    except OSError as error:
        raise OSError(error.errno, f"{address}:{port}: {error.strerror}") from None
    except UnicodeError:  # such as a name with an empty label
        raise OSError(errno.EINVAL, f"{address}:{port}: not the name of a host") from None


def shown_address(found: socket.socket) -> str:
    address, port = found.getsockname()[:2]
    return f"[{address}]:{port}" if ":" in address else f"{address}:{port}"


def allow_files(indexes: int) -> None:
    """Raises the limit of open files if that is necessary and possible. Raises OSError if it stays too low."""
    wanted, least = 2 * indexes + OTHER_FILES, indexes + LEAST_FILES  # twice while they are replaced
    soft, hard = resource.getrlimit(resource.RLIMIT_NOFILE)
    if soft != resource.RLIM_INFINITY and soft < wanted:
        soft = wanted if hard == resource.RLIM_INFINITY else min(wanted, hard)
        resource.setrlimit(resource.RLIMIT_NOFILE, (soft, hard))
    if soft != resource.RLIM_INFINITY and soft < least:
        raise OSError(f"a process may open {soft} files, and {least} are needed: raise the limit, as by ulimit -n")
