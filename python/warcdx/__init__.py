"""Queries over the indexes of web archives, and their records, by the programs `warcdx` and `warcdx-gz`.

Read the records of an archive, plain or compressed:

    from warcdx import open_archive, payload

    for record in open_archive("crawl.warc.gz"):
        if record.kind == "response":
            print(record.field("WARC-Target-URI"), len(payload(record)))

Query an index, which `warcdx-gz index crawl.warc.gz > crawl.cdxj` makes. Without an argument all captures are given:

    from warcdx import Index

    with Index("crawl.cdxj") as index:
        for capture in index.captures("*.example.com", since="2016-09", filter="statuscode:200", limit=100):
            print(capture.timestamp, capture.original)

Go from a query to the records of its captures. The archives are in a folder:

    from warcdx import Collection, payload

    with Collection("crawl.cdxj", "archives") as collection:
        for record in collection.records("example.com/a*"):
            print(record.field("WARC-Date"), payload(record)[:80])

All exceptions are an `Error`. A query that the program doesn't take is `Refused`, and the message says what it takes.
An archive or an index that is damaged, or can't be opened, is a `Fault` with its `file` and the `offset` in bytes. Each
cause has a class in `faults`, and each refusal one in `refusals`. docs/PYTHON.md says more.
"""
from typing import TYPE_CHECKING

if TYPE_CHECKING:
    from . import faults, refusals
    from .archive import Archive, CompressedArchive, Listed, Verified, open_archive
    from .codings import Limits, Unreadable
    from .collection import Collection
    from .errors import (
        Error,
        Fault,
        NoArchive,
        ProgramEnded,
        ProgramError,
        ProgramMissing,
        ProgramTooOld,
        Refused,
        ReplyTooLate,
        ReplyTooLong,
    )
    from .fields import FIELDS
    from .http_messages import HttpHead
    from .index import Index
    from .query import Capture, Page
    from .record import Record, payload

__version__ = "0.1.0"

__all__ = [
    "FIELDS",
    "Archive",
    "Capture",
    "Collection",
    "CompressedArchive",
    "Error",
    "Fault",
    "HttpHead",
    "Index",
    "Limits",
    "Listed",
    "NoArchive",
    "Page",
    "ProgramEnded",
    "ProgramError",
    "ProgramMissing",
    "ProgramTooOld",
    "Record",
    "Refused",
    "ReplyTooLate",
    "ReplyTooLong",
    "Unreadable",
    "Verified",
    "faults",
    "open_archive",
    "payload",
    "refusals",
]

# The modules that have these. A module is loaded when something of it is first used.
_MODULES = {
    "archive": ("Archive", "CompressedArchive", "Listed", "Verified", "open_archive"),
    "codings": ("Limits", "Unreadable"),
    "collection": ("Collection",),
    "fields": ("FIELDS",),
    "http_messages": ("HttpHead",),
    "index": ("Index",),
    "query": ("Capture", "Page"),
    "record": ("Record", "payload"),
}


def __dir__() -> list[str]:
    return sorted({*globals(), *__all__})


if not TYPE_CHECKING:

    def __getattr__(name: str) -> object:
        if name not in __all__:
            raise AttributeError(f"module {__name__!r} has no attribute {name!r}")
        import importlib

        if name in ("faults", "refusals"):
            return importlib.import_module(f".{name}", __name__)
        module = next((module for module, names in _MODULES.items() if name in names), "errors")
        value = globals()[name] = getattr(importlib.import_module(f".{module}", __name__), name)
        return value
