"""Serves indexes over HTTP to clients of Wayback CDX servers and to browsers.

usage: warcdx-gateway [OPTION..] --indexes INDEX.. [--archives FOLDER..]
       warcdx-gateway [OPTION..] SETTINGS

With --indexes there is one collection, named main. If you have several, or want
other settings, SETTINGS is a file in TOML with the collections.

It prints its address when it answers. SIGTERM ends it after the answers that
are being sent, and SIGHUP makes it read SETTINGS again.

Examples:
  warcdx-gateway --indexes all.cdxj --archives /data
  curl 'http://127.0.0.1:8080/cdx?url=example.com'

Exit status:
  0  a signal has ended it
  1  the settings or an index are at fault
  2  usage error
  3  a file can't be opened, the address can't be used, a package is missing, or
     the program, memory or standard output failed
"""
import argparse
import dataclasses
import pathlib
import sys
from collections.abc import Sequence
from typing import Optional

from warcdx import Error, Fault, command
from warcdx.streams import OutputError

from .checking import NotInOrder
from .settings import MOST_WORKERS, BadSettings, CollectionSettings, Settings, checked, read_settings

NAME = "warcdx-gateway"
INSTEAD = {"-c --config --settings": "write SETTINGS alone"}


def read_arguments(arguments: Optional[Sequence[str]]) -> Settings:
    """Returns the settings of the command line. Raises BadSettings."""
    parser = command.Parser(NAME, __doc__, INSTEAD)
    name = command.name_of_file
    parser.add_argument("settings", type=name, metavar="SETTINGS", nargs="?", help="a file in TOML")
    parser.add_argument("--indexes", type=name, metavar="INDEX", nargs="+", help="the indexes of one collection")
    parser.add_argument("--archives", type=name, metavar="FOLDER", nargs="+", default=[], help="the folders of its archives")
    parser.add_argument("--address", type=address_of, help="the address to listen at, instead of that of the settings")
    parser.add_argument("--port", type=command.number_from(0, 65_535), help="the port, 0 for any that is free")
    parser.add_argument("--host", help="a name that requests may have in their field Host")
    parser.add_argument("--workers", type=command.number_from(2, MOST_WORKERS), help="how many processes answer requests")
    parser.add_argument("--program", help="the program warcdx")
    given = parser.parse(arguments)
    misplaced = "".join(f": {name} is SETTINGS" for name in given.indexes or () if name.endswith(".toml"))
    if (given.settings is None) == (given.indexes is None) or misplaced:
        parser.error(f"give either SETTINGS or --indexes INDEX..{misplaced}")
    if given.settings is not None:
        settings = read_settings(pathlib.Path(given.settings))
    else:
        indexes, archives = (tuple(pathlib.Path(name).absolute() for name in names) for names in (given.indexes, given.archives))
        settings = Settings((CollectionSettings("main", "Captures", indexes, archives),), "main")
    changed = {name: getattr(given, name) for name in ("address", "port", "program", "workers") if getattr(given, name) is not None}
    if given.host is not None:
        changed["hosts"] = (*settings.hosts, given.host)
    return checked(dataclasses.replace(settings, **changed))


def address_of(text: str) -> str:
    """Reads an address, without a port."""
    address, _, port = text.partition(":")
    if port.isdecimal():
        raise argparse.ArgumentTypeError(f"an address without a port: write --address {address} --port {port}")
    return text


def work(arguments: Optional[Sequence[str]]) -> int:
    try:
        settings = read_arguments(arguments)
        # Imported here, because help and usage errors don't need the packages of the server.
        from .server import run

        run(settings, lambda: read_arguments(arguments))
    except ModuleNotFoundError as error:
        packages = "gunicorn, python3-werkzeug, python3-prometheus-client and python3-regex"
        how = f"install Debian's packages {packages}, or 'warcdx[gateway]' by pip"
        command.report(NAME, f"{error.name} is missing in {sys.executable}: {how}")
        return command.FAILED
    except OutputError:
        raise
    except (BadSettings, Error, OSError, OverflowError) as error:
        command.report(NAME, command.printable(command.reason_of(error)) + command.way_of(error))
        return status_of(error)
    return 0


def status_of(error: Exception) -> int:
    """Returns the exit status after an error: 1 if what was given is at fault."""
    if isinstance(error, Fault):
        return command.status_of(error)
    is_unread = isinstance(error.__cause__, (Error, MemoryError, OSError))
    is_given = isinstance(error, (BadSettings, NotInOrder, OverflowError))
    return command.FAULTY if is_given and not is_unread else command.FAILED


def main(arguments: Optional[Sequence[str]] = None) -> int:
    return command.run(NAME, lambda output: work(arguments))
