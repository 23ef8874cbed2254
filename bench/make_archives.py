"""Makes archives at random, but the same each time: records as crawlers write them, with blocks of random bytes. The scripts of this folder import this file."""
import base64
import hashlib
import itertools
import os
import random

BATCH = 10_000_000  # bytes, about
PIECE = 1 << 20  # bytes for each write of a long block

HEAD = """\
WARC/1.0
WARC-Type: response
WARC-Record-ID: <urn:uuid:%08x-53ae-4e7a-a4ff-4e5d5a8a0d3f>
WARC-Warcinfo-ID: <urn:uuid:79d1d009-6a49-4111-b3e3-b8dc210c5228>
WARC-Target-URI: <http://www.example.com/one/page/of/many.html>
WARC-Date: 2016-09-19T17:20:24Z
WARC-IP-Address: 192.0.2.7
WARC-Block-Digest: sha1:%s
WARC-Payload-Digest: sha1:VGMT4NSHA2AWVOR6EVYXQUGCNSONBWE5
Content-Type: application/http;msgtype=response
Content-Length: %d

""".replace(
    "\n", "\r\n"
)
CLOSING = b"\r\n\r\n"


class Archive:
    """Equal batches of records whose lengths lie within about a tenth of the given one."""

    def __init__(self, record_length, batches):
        choice = random.Random(record_length)
        block = record_length - len(head(0, [], 0))
        spread = record_length // 10
        records = [record(choice, choice.randint(block - spread, block + spread)) for _ in range(BATCH // record_length)]
        self.pieces = [b"".join(records)] * batches
        self.lengths = [len(each) for each in records] * batches

    def starts(self):
        return itertools.accumulate(self.lengths, initial=0)

    def listing(self):
        lines = (f"{start} {length} response\n" for start, length in zip(self.starts(), self.lengths))
        return "".join(lines).encode()

    def last(self):
        """The offset of the last record, and the record."""
        length = self.lengths[-1]
        return sum(self.lengths) - length, self.pieces[-1][-length:]

    def verdicts(self):
        return "".join(f"{start} same\n" for start, _ in zip(self.starts(), self.lengths)).encode()


def head(number, block, length):
    """The head of a record whose block has these pieces."""
    return (HEAD % (number, digest_of(block), length)).encode()


def digest_of(pieces):
    digest = hashlib.sha1()
    for piece in pieces:
        digest.update(piece)
    return base64.b32encode(digest.digest()).decode()


def record(choice, length):
    number, block = choice.getrandbits(32), choice.randbytes(length)
    return head(number, [block], length) + block + CLOSING


def one_long_record(length):
    """The pieces of an archive of one record, with a block of zeros."""
    yield head(0, zeros(length), length)
    yield from zeros(length)
    yield CLOSING


def write_hole(path, length):
    """Writes an archive of one record, whose block is a hole in the file, and returns its listing. The digest in its head isn't
    that of the block.
    """
    with open(path, "wb") as file:
        file.write(head(0, [], length))
        file.seek(length, os.SEEK_CUR)
        file.write(CLOSING)
        return f"0 {file.tell()} response\n".encode()


def zeros(length):
    piece = bytes(PIECE)
    for left in range(length, 0, -PIECE):
        yield piece[:left]
