"""Answers in pieces, as gunicorn sends them."""
import errno
import itertools
import socket
import struct
import time
from collections.abc import Generator, Iterable
from wsgiref.types import WSGIEnvironment

from werkzeug.wrappers import Response

from .refusal import say, text_of
from .shared import Metrics
from .work import MOST_FREE, Work


def sent(work: Work, metrics: Metrics, environ: WSGIEnvironment, start: float, pieces: Iterable[bytes]) -> Generator[bytes, None, None]:
    """Yields an answer as gunicorn sends it. One that fails is broken off, so that it is seen."""
    cause = "client left"
    try:
        for piece in pieces:
            work.beat()
            metrics.bytes.inc(len(piece))
            yield piece
        cause = ""
    except (ConnectionError, GeneratorExit):
        raise  # the client has left
    except BaseException as error:
        cause = type(error).__name__
        say(f"an answer was broken off: {text_of(error)}")
        found = environ.get("gunicorn.socket")
        if found is not None and environ.get("SERVER_PROTOCOL") == "HTTP/1.0":
            # Without chunks, the end of the connection would be that of the answer.
            found.setsockopt(socket.SOL_SOCKET, socket.SO_LINGER, struct.pack("ii", 1, 0))
        if not isinstance(error, Exception):
            raise
        # gunicorn closes the connection then, and says nothing.
        raise BrokenPipeError(errno.EPIPE, "an answer was broken off") from None
    finally:
        if cause:
            metrics.broken.labels(cause).inc()
        close = getattr(pieces, "close", None)
        if close is not None:
            close()
        metrics.seconds.observe(time.monotonic() - start)


def streamed(
    pieces: Generator[bytes, None, None], headers: list[tuple[str, str]], work: Work, status: int = 200, most: int = MOST_FREE
) -> Response:
    """Returns an answer whose pieces are made when they are sent.

    The first ones are made at once. So what fails until then has a status, and an answer of at most `most` bytes has a
    length.
    """
    begun, size = list[bytes](), 0
    for piece in pieces:
        begun.append(piece)
        size += len(piece)
        work.expect_slot(size)
        if size > most:
            response = Response(itertools.chain(begun, pieces), status, headers)
            response.call_on_close(pieces.close)
            return response
    return Response(b"".join(begun), status, headers)
