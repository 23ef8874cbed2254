"""Compares the digests of a record with its block, which is given in pieces, and with its payload. Nothing but heads is held."""
import base64
import contextlib
import enum
import hashlib
import re
from collections.abc import Iterator
from typing import TYPE_CHECKING, NamedTuple, Optional, Union

from .codings import Decoder, Limits, Unreadable
from .http_messages import Message
from .record import Head

if TYPE_CHECKING:
    from hashlib import _Hash

BLOCK_DIGEST = "WARC-Block-Digest"
PAYLOAD_DIGEST = "WARC-Payload-Digest"
_MOST_UNPACKED = 1 << 30  # bytes of a body without transfer codings that compress it
_SIZES = {"md5": 16, "sha1": 20, "sha256": 32, "sha512": 64}  # bytes
_HEXADECIMAL = re.compile("[0-9a-f]+")
_BASE_32 = re.compile("[a-z2-7]+(=*)")


class Digest(NamedTuple):
    """A digest of a WARC head: the name of its algorithm in `hashlib`, and its value in lower case, without padding."""

    algorithm: str
    value: str

    @classmethod
    def of(cls, field: str) -> Optional["Digest"]:
        """Returns the digest that the value of a field is, or None if it has another algorithm or form.

        The length of the value decides whether it is in base 32 or hexadecimal. Letters are in any case.
        """
        label, _, value = field.lower().partition(":")
        algorithm = label.replace("-", "")
        if algorithm not in _SIZES:
            return None
        size = _SIZES[algorithm]
        value = value.strip(" \t")
        if len(value) == 2 * size and _HEXADECIMAL.fullmatch(value):
            return cls(algorithm, value)
        letters = -(-8 * size // 5)
        found = _BASE_32.fullmatch(value)
        if found and len(value) - len(found[1]) == letters and len(found[1]) in (0, -letters % 8):
            return cls(algorithm, value[:letters])
        return None

    def start(self) -> "_Hash":
        """Returns an object that computes digests of this algorithm."""
        return hashlib.new(self.algorithm, usedforsecurity=False)

    def is_of(self, computed: "Optional[_Hash]") -> bool:
        """Returns whether this is the digest that was computed, if one was."""
        if computed is None:
            return False
        base_32 = base64.b32encode(computed.digest()).decode().rstrip("=").lower()
        return self.value in (computed.hexdigest(), base_32)


class Verdict(enum.Enum):
    """What was found of a digest."""

    SAME = "same"
    DIFFERS = "differs"
    UNKNOWN = "unknown"  # its algorithm, its form, or what its payload is
    ABSENT = "absent"
    ELSEWHERE = "elsewhere"  # the digest of a payload that isn't in the record, or not whole
    EMPTY = "empty"  # the digest of no bytes, in a revisit

    @property
    def is_compared(self) -> bool:
        return self in (Verdict.SAME, Verdict.DIFFERS)


class Verdicts(NamedTuple):
    """The verdicts on the digests of a record's block and payload."""

    block: Verdict
    payload: Verdict


def verdicts_of(head: Head, length: int, block: Iterator[bytes]) -> Verdicts:
    """Returns the verdicts on the digests of a record, whose block is given in pieces. Raises Unreadable if it hasn't this length in bytes."""
    block_digest, payload_digest = _wanted(head, BLOCK_DIGEST), _wanted(head, PAYLOAD_DIGEST)
    found, left = block_digest.start() if isinstance(block_digest, Digest) else None, length

    def counted() -> Iterator[bytes]:
        nonlocal left
        for piece in block:
            left -= len(piece)
            if found is not None:
                found.update(piece)
            yield piece

    pieces = counted()
    if isinstance(payload_digest, Digest):
        payload_digest = _verdict_on_payload(payload_digest, Message(pieces, head.is_http), head.is_http, length)
    for _ in pieces:
        pass
    if left:  # an error of the block may have been taken for one of its codings
        raise Unreadable("the archive ends in the record")
    if isinstance(block_digest, Digest):
        is_empty = head.kind == "revisit" and block_digest.is_of(block_digest.start())  # so writes GNU Wget
        block_digest = Verdict.SAME if block_digest.is_of(found) else Verdict.EMPTY if is_empty else Verdict.DIFFERS
    return Verdicts(block_digest, payload_digest)


def _verdict_on_payload(digest: Digest, message: Message, is_http: bool, length: int) -> Verdict:
    """Compares a digest with a payload: of HTTP with the body as it is stored, and without its transfer codings."""
    stored, undone, is_same = digest.start(), digest.start(), False
    codings = message.transfer_codings
    body = _hashed(message.body, stored)
    if codings:
        with contextlib.suppress(Unreadable):
            for piece in Decoder(codings, Limits(size=2 * length + _MOST_UNPACKED)).over(body):
                undone.update(piece)
            is_same = digest.is_of(undone)
    for _ in body:  # what is behind the end of the codings, or where they can't be undone
        pass
    if message.front.is_endless:
        return Verdict.UNKNOWN
    if is_same or digest.is_of(stored):
        return Verdict.SAME
    return Verdict.UNKNOWN if is_http and message.http_head is None else Verdict.DIFFERS


def _hashed(pieces: Iterator[bytes], found: "_Hash") -> Iterator[bytes]:
    """Yields pieces, and adds them to a digest."""
    for piece in pieces:
        found.update(piece)
        yield piece


def _wanted(head: Head, name: str) -> Union[Digest, Verdict]:
    """Returns the digest with which a block or a payload is to be compared, or the verdict if there is none."""
    field = head.field(name)
    if field is None:
        return Verdict.ABSENT
    # The payload of a revisit isn't in it, and of a segment not whole.
    is_segment = head.kind == "continuation" or head.field("WARC-Segment-Number") is not None
    if name == PAYLOAD_DIGEST and (head.kind == "revisit" or is_segment):
        return Verdict.ELSEWHERE
    return Digest.of(field) or Verdict.UNKNOWN
