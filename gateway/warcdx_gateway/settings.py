"""The file of settings, in TOML: addresses, limits and collections."""
import contextlib
import dataclasses
import errno
import functools
import ipaddress
import os
import pathlib
import re
import tomllib
from collections.abc import Iterator
from dataclasses import dataclass, field
from typing import Any

from warcdx import Error
from warcdx.states import MOST_RUNS, files_of

from .generation import open_regular

NAME = re.compile(r"[A-Za-z0-9][A-Za-z0-9._-]{0,63}")
HOST = re.compile(r"[^\s/:]+|[0-9a-f.]*:[0-9a-f.]*:[0-9a-f:.]*")  # a name, or an address of IPv6
ADDRESS = re.compile(r"[^\s:]+:[0-9]{1,5}|\[[0-9A-Fa-f:.]+\]:[0-9]{1,5}")
RESERVED = ("browse", "cdx", "collinfo.json", "favicon.ico", "health", "metrics", "robots.txt", "wayback", "web")  # of other paths
ENDS = ("-cdx", "-index")  # of paths of a collection, after its name
MOST_FILE = 32 << 20  # bytes of a file in TOML
MOST_CAPTURES = 1_000_000  # the largest limit of the program, and of all limits
MOST_INDEXES = 1024  # of the program
MOST_WORKERS = 256
ROOM = 0.75  # of the memory of the machine that workers take by default, as the unit of systemd says too
LEAST_MEMORY, MOST_MEMORY = 256 << 20, 1 << 50  # bytes
WORDS = {int: "a whole number", str: "a text without U+0000", bool: "true or false"}


class BadSettings(Exception):
    """What is wrong with the settings, on one line."""


@dataclass(frozen=True)
class Limits:
    """What the gateway takes at most. Each is a number from 1 to 1,000,000, except `usual`.

    `usual` is the limit of a query without one, 0 if it has none. `largest` is the largest limit,
    in captures. `held` is how many captures an answer in another order may have, and how many
    digests are counted. `fields`, `conditions` and `collapses` are how many of each a query may
    have.

    The others are times in seconds: `query` for the program to write one piece, `pattern` for all
    matches of the patterns of a query, `wide` for a request in all, `wait` for one that waits for a
    slot, and `drain` for the answers that are being sent when the gateway is ended.
    """

    usual: int = 0
    largest: int = MOST_CAPTURES
    held: int = 100_000
    fields: int = 64
    conditions: int = 64
    collapses: int = 16
    query: int = 30
    pattern: int = 10
    wide: int = 600
    wait: int = 10
    drain: int = 60


@dataclass(frozen=True)
class CollectionSettings:
    """The settings of a collection: its indexes, the folders of its archives, and those to which links there may lead.

    An index is a file, or a folder of runs as `warcdx-update` keeps it. `form` is that of the
    answers of `/COLLECTION/cdx`: of the Internet Archive, or of pywb. One that isn't `listed` is in
    no list of collections, and has only paths that begin with `/COLLECTION/`.
    """

    name: str
    title: str
    indexes: tuple[pathlib.Path, ...]
    archives: tuple[pathlib.Path, ...] = ()
    links: tuple[pathlib.Path, ...] = ()
    form: str = "wayback"
    listed: bool = True

    @property
    def files(self) -> list[str]:
        """The files that are the indexes now. Raises `warcdx.faults.CannotOpen`, or OSError if a folder has too many."""
        found = [files_of(index) for index in self.indexes]
        for index, files in zip(self.indexes, found):
            if len(files) > MOST_RUNS:
                raise OSError(errno.EFBIG, f"its manifest has more than {MOST_RUNS} runs", str(index))
        return [file for files in found for file in files]

    @property
    def most_files(self) -> int:
        """How many files there may be."""
        return sum(MOST_RUNS if index.is_dir() else 1 for index in self.indexes)


@dataclass(frozen=True)
class Settings:
    """All settings. `main` is the collection of the paths that name none.

    `workers` is how many processes answer requests, and `wide` how many of them do at a time what
    takes long. `memory` is the limit of the address space of each, in bytes, and
    `timeout` the seconds after which one is ended that makes no piece of its answer.

    `hosts` are the names that a request may have in `Host`, beside those of this machine while the
    address is one of it. `origins` are the origins whose pages may read answers, `*` for any.
    `access_log` is the file that gets a line for each answer, `-` for standard output. `rules` is
    the file that says what may not be shown. `metrics` is the address of the metrics and its port.
    """

    collections: tuple[CollectionSettings, ...]
    main: str
    address: str = "127.0.0.1"
    port: int = 8080
    program: str = "warcdx"
    workers: int = 0
    wide: int = 0
    memory: int = 512 << 20
    timeout: int = 60
    hosts: tuple[str, ...] = ()
    origins: tuple[str, ...] = ()
    access_log: str = ""
    rules: str = ""
    metrics: str = ""
    limits: Limits = field(default_factory=Limits)

    @property
    def metrics_address(self) -> list[tuple[str, int]]:
        """The address and port of the metrics, if they have one."""
        address, _, port = self.metrics.rpartition(":")
        return [(address.strip("[]"), int(port))] if port else []

    @property
    def is_local(self) -> bool:
        """Whether the address is one of this machine only."""
        return is_loopback(self.address)


def read_settings(path: pathlib.Path) -> Settings:
    """Returns the settings of a file.

    Raises BadSettings. Paths in it are relative to its folder.
    """
    with named(path):
        try:
            return settings_of(tables_of(path), path.parent)
        except (tomllib.TOMLDecodeError, UnicodeDecodeError) as error:
            way = "" if path.suffix == ".toml" else "; --indexes INDEX.. serves indexes without settings"
            raise BadSettings(f"{error}{way}") from error


@contextlib.contextmanager
def named(path: pathlib.Path) -> Iterator[None]:
    """Raises BadSettings with the path of a file for what is wrong with it."""
    try:
        yield
    except OSError as error:
        raise BadSettings(f"{path}: {error.strerror}") from error
    except (BadSettings, Error, MemoryError, RecursionError, ValueError) as error:  # the last one also for thousands of digits
        raise BadSettings(f"{path}: {str(error) or 'there is no memory'}") from error


def tables_of(path: pathlib.Path) -> dict[str, Any]:
    """Returns the tables of a file in TOML. Raises OSError, BadSettings, or an error of its text."""
    with open(open_regular(path), "rb") as file:
        text = file.read(MOST_FILE + 1)
    if len(text) > MOST_FILE:
        raise BadSettings(f"it has more than {MOST_FILE} bytes")
    return tomllib.loads(text.decode("utf-8-sig"))


def settings_of(table: dict[str, Any], folder: pathlib.Path) -> Settings:
    tables = table.pop("collections", None)
    if not isinstance(tables, dict) or not tables:
        raise BadSettings("no collection: [collections.NAME] with indexes is needed")
    collections = tuple(collection_of(name, each, folder) for name, each in tables.items())
    limits = limits_of(table.pop("limits", {}))
    given: dict[str, Any] = {"main": collections[0].name, **values_of(Settings, table)}
    for name in ("rules", "access_log", "program"):
        path = given.get(name, "")
        if path not in ("", "-") and (name != "program" or "/" in path):
            given[name] = str((folder / path).absolute())
    settings = Settings(collections=collections, limits=limits, **given)
    main = [each for each in collections if each.name == settings.main]
    require(bool(main), "main", "is not the name of a collection")
    is_address = not settings.metrics or bool(ADDRESS.fullmatch(settings.metrics))
    require(is_address, "metrics", "has to be ADDRESS:PORT")
    require(main[0].listed, "main", "has paths without its name, so it has to be listed")
    return settings


def checked(settings: Settings) -> Settings:
    """Returns the settings, with as many workers as this machine needs if they don't say how many.

    It has room for the `memory` of each of them. Raises BadSettings.
    """
    processors = len(os.sched_getaffinity(0))
    room = int(ROOM * os.sysconf("SC_PHYS_PAGES") * os.sysconf("SC_PAGE_SIZE"))
    most = max(min(room // max(settings.memory, 1), MOST_WORKERS), 2)
    workers = settings.workers or min(2 * processors, most)
    wide = settings.wide or max(min(workers // 2, processors - 1), 1)
    hosts = tuple(host.lower().strip("[]") for host in settings.hosts)  # as those of requests are compared
    settings = dataclasses.replace(settings, workers=workers, wide=wide, hosts=hosts)
    is_host = all(map(HOST.fullmatch, hosts))
    require(is_host, "hosts", "has names without a scheme, a port and a path, such as example.com")
    require(0 <= settings.port <= 65_535, "port", "has to be from 0 to 65535")
    is_port = all(port <= 65_535 for _, port in settings.metrics_address)
    require(is_port, "metrics", "has a port that has to be from 0 to 65535")
    require(2 <= settings.workers <= MOST_WORKERS, "workers", f"has to be 2 to {MOST_WORKERS}")
    require(1 <= wide < workers, "wide", "has to be 1 or more, and less than 'workers'")
    require(LEAST_MEMORY <= settings.memory <= MOST_MEMORY, "memory", f"has to be {LEAST_MEMORY} bytes or more, and at most {MOST_MEMORY}")
    least = settings.limits.query
    why = f"has to be more than limits.query, which is {least}, and at most {MOST_CAPTURES}"
    require(least < settings.timeout <= MOST_CAPTURES, "timeout", why)
    why = "has to name the hosts of requests, as --host NAME does, because the address isn't one of this machine only"
    require(settings.is_local or bool(settings.hosts), "hosts", why)
    return settings


@functools.lru_cache
def is_loopback(host: str) -> bool:
    """Returns whether an address or the name of a host is that of this machine only."""
    try:
        return ipaddress.ip_address(host.strip("[]")).is_loopback
    except ValueError:
        return host.lower().rstrip(".") == "localhost"


def values_of(kind: Any, table: object, where: str = "") -> dict[str, Any]:
    """Returns the settings of a table: names of a dataclass, with values of its types."""
    if not isinstance(table, dict):
        raise BadSettings(f"'{where}' has to be a table")
    types = {each.name: each.type for each in dataclasses.fields(kind) if each.name != "name"}
    found: dict[str, Any] = {}
    for name, value in table.items():
        full, wanted = f"{where}.{name}".lstrip("."), types.get(name)
        if wanted is None:
            raise BadSettings(f"unknown setting '{full}': there are {', '.join(types)}")
        if wanted in WORDS:
            require(is_text(value) if wanted is str else type(value) is wanted, full, f"has to be {WORDS[wanted]}")
            found[name] = value
        else:
            is_list = isinstance(value, list) and all(is_text(each) and each for each in value)
            require(is_list, full, "has to be a list of texts")
            found[name] = tuple(value)
    return found


def is_text(value: object) -> bool:
    """Returns whether a value is a text that may be the name of a file or a host."""
    return isinstance(value, str) and "\0" not in value


def limits_of(table: object) -> Limits:
    limits = Limits(**values_of(Limits, table, "limits"))
    for name, value in vars(limits).items():
        least = 0 if name == "usual" else 1
        require(least <= value <= MOST_CAPTURES, f"limits.{name}", f"has to be a number from {least} to {MOST_CAPTURES}")
    require(limits.usual <= limits.largest, "limits.usual", "has to be at most limits.largest")
    require(limits.held <= limits.largest, "limits.held", "has to be at most limits.largest")
    return limits


def collection_of(name: str, table: object, folder: pathlib.Path) -> CollectionSettings:
    where = f"collections.{name}"
    why = f"can't be the name of a collection: it has letters, digits, '.', '_' and '-', and isn't {', '.join(RESERVED)}"
    is_name = bool(NAME.fullmatch(name)) and name not in RESERVED and not name.endswith(ENDS)
    require(is_name, where, f"{why}, and doesn't end with {' or '.join(ENDS)}")
    given: dict[str, Any] = {"title": name, **values_of(CollectionSettings, table, where)}
    for kind in ("indexes", "archives", "links"):
        given[kind] = tuple((folder / each).absolute() for each in given.get(kind, ()))
    found = CollectionSettings(name, **given)
    is_few = 1 <= len(found.indexes) <= MOST_INDEXES
    require(is_few, f"{where}.indexes", f"has to be 1 to {MOST_INDEXES} paths")
    require(found.form in ("wayback", "pywb"), f"{where}.form", 'has to be "wayback" or "pywb"')
    return found


def require(holds: bool, name: str, what: str) -> None:
    if not holds:
        raise BadSettings(f"'{name}' {what}")
