"""Reads archives in either form in the plainest way: whole, in memory, member by member, as docs/RECORDS.md says. zlib unpacks."""
import zlib
from typing import NamedTuple, Optional

from plain import inflate, records
from plain.records import Damage, Fault, Record

MAGIC = b"\x1f\x8b"
GZIP = 16 + zlib.MAX_WBITS
FHCRC, FEXTRA, FNAME, FCOMMENT = (1 << bit for bit in range(1, 5))


class Read(NamedTuple):
    """An archive that was read."""

    records: list[Record]  # with the offsets and lengths of their members, if the archive is compressed
    fault: Optional[Fault]
    texts: dict[int, bytes]  # of the records, by their offsets


class Member(NamedTuple):
    length: int  # in bytes of the archive
    text: bytes


def is_compressed(archive: bytes) -> bool:
    return archive.startswith(MAGIC)


def read(archive: bytes) -> Read:
    """The whole records of an archive in either form, and where it is damaged the offset and the cause."""
    if is_compressed(archive):
        return read_members(archive)
    found, fault = records.read(archive)
    return Read(found, fault, {each.offset: archive[each.offset : each.offset + each.length] for each in found})


def read_members(archive: bytes) -> Read:
    found: list[Record] = []
    texts: dict[int, bytes] = {}
    offset = 0
    while offset < len(archive):
        try:
            member = read_member(archive, offset)
            if member.text:
                found.append(record_of(member)._replace(offset=offset, length=member.length))
                texts[offset] = member.text
        except Damage as damage:
            return Read(found, (offset, str(damage)), texts)
        offset += member.length
    return Read(found, None, texts)


def read_member(archive: bytes, offset: int) -> Member:
    packed = archive[offset:]
    if not packed.startswith(MAGIC):
        raise Damage("CutMember" if packed == MAGIC[:1] else "NoMember")
    inflater = zlib.decompressobj(GZIP)
    try:
        text = inflater.decompress(packed)
    except zlib.error as error:
        raise Damage(cause_of(packed) if "invalid code lengths set" in str(error) else "BadMember") from None
    if not inflater.eof:
        raise Damage(cause_of(packed) if waits_for_lengths(inflater) else "CutMember")
    return Member(len(packed) - len(inflater.unused_data), text)


def waits_for_lengths(inflater: "zlib._Decompress") -> bool:
    """Whether zlib may wait for lengths that are coded by no code. Whatever the bits are, it then refuses them."""
    try:
        inflater.copy().decompress(bytes(400))
    except zlib.error as error:
        return "missing end-of-block" in str(error)
    return False


def cause_of(packed: bytes) -> str:
    """The cause for which a member isn't whole. Where one code or none codes the lengths, zlib refuses data that are only cut, and the other way round."""
    try:
        inflate.unpack(packed[header_length(packed) :])
    except inflate.Cut:
        return "CutMember"
    except inflate.Bad:
        return "BadMember"
    return "CutMember"  # in its trailer


def header_length(packed: bytes) -> int:
    flags, at = packed[3], 10
    if flags & FEXTRA:
        at += 2 + int.from_bytes(packed[at : at + 2], "little")
    for flag in (FNAME, FCOMMENT):
        if flags & flag:
            at = packed.index(0, at) + 1
    return at + 2 if flags & FHCRC else at


def record_of(member: Member) -> Record:
    """The record that a member holds and nothing else."""
    record = records.read_record(member.text, 0)
    if record.length < len(member.text):
        raise Damage("SeveralRecords")
    return record
