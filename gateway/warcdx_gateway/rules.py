"""What may not be shown: rules of a file, which are applied to each row and each record."""
import base64
import datetime
import enum
import functools
import hashlib
import os
import pathlib
import re
import time
from collections.abc import Iterable, Sequence
from typing import Any, NamedTuple, Optional

from warcdx.url_keys import host_of, keys_of

from .generation import Identity
from .refusal import say
from .rows import DIGEST, KEY, STAMP
from .settings import BadSettings, named, tables_of

MOST = 300_000  # rules
ACTIONS = {"metadata": 1, "exclude": 2}
STARLESS = ("url", "prefix", "host", "domain")  # in which a star, as of a query, would be a character like any other
TARGETS = (*STARLESS, "key")
TEXTS = ("collection", "from", "to", "digest", *TARGETS)
NAMES = ("action", "embargo", *TEXTS)
WEB = ("http:", "https:")
_OTHER_SCHEMES = re.compile(r"(?:[a-z][a-z0-9+.-]*:)+//", re.IGNORECASE)  # as of ftp://example.com/, or screenshot:http://example.com/
SETTLED = 2.0  # seconds for which a file has stayed as it is before it is read again
AGAIN = 60.0  # seconds until a file is read again that couldn't be read, as for want of memory
_STAMP = re.compile("[0-9]{1,14}")
# Of MD5, SHA-1, SHA-256 or SHA-512 in base 32 or 16, or of any algorithm with its name.
_DIGEST = re.compile("(?:[A-Z2-7]{26}|[A-Z2-7]{32}|[A-Z2-7]{52}|[A-Z2-7]{103})=*|(?:[0-9A-F]{32}){1,4}|[A-Z][A-Z0-9-]*:[!-~]+")
_HEX_OF_SHA1 = re.compile("[0-9A-F]{40}")
# How the key of a web URL begins.
_OF_WEB = re.compile(r"(?:\[[^]/)]*\]|[^][/:)]+)(?::[0-9]+)?\)")
# The host in a key that is a URL itself, or a text such as `dns:example.com` or `screenshot:http://example.com/`.
_HOST = re.compile(r"(?:.*?[a-z]://|[a-z][a-z0-9+.-]*:)(?:[^/?#]*@)?(?:www[0-9]*\.)?(\[[^]/?#]*\]|[^][/?#:]+)")


class Action(enum.IntEnum):
    """What a capture may be: shown, named without its record, or not even named."""

    SHOW = 0
    METADATA = ACTIONS["metadata"]
    EXCLUDE = ACTIONS["exclude"]


class Rule(NamedTuple):
    """A rule. All that it names has to hold; an empty text or 0 names nothing.

    `keys` are URL keys, or with `is_front` the fronts of them. `first` and `last` are the first
    digits of timestamps, and `embargo` is the days for which captures aren't shown.
    """

    action: int
    collection: str = ""
    keys: Sequence[str] = ()
    is_front: bool = False
    first: str = ""
    last: str = ""
    embargo: int = 0
    digest: str = ""

    def holds(self, timestamp: str, digest: str, today: datetime.date) -> bool:
        """Returns whether it is for a capture of one of its keys, with a plain digest."""
        if self.digest and digest != self.digest:
            return False
        if self.first and timestamp[: len(self.first)] < self.first:
            return False
        if self.last and timestamp[: len(self.last)] > self.last:
            return False
        return not self.embargo or timestamp[:8] > day_before(today, self.embargo)


class Rules:
    """The rules of one collection. `tag` changes with what they show. For one request it is one day."""

    def __init__(self, rules: Iterable[Rule] = ()) -> None:
        self._exact: dict[str, tuple[Rule, ...]] = {}
        self._fronts: dict[str, tuple[Rule, ...]] = {}
        self._digests: dict[str, tuple[Rule, ...]] = {}
        self._others: list[Rule] = []
        hashed, kinds = hashlib.sha256(), dict[Rule, tuple[Rule]]()  # many rules differ in their keys alone
        for rule in rules:
            hashed.update(repr(rule).encode())
            kind = rule._replace(keys=())
            same = kinds.setdefault(kind, (kind,))
            keyed = self._fronts if rule.is_front else self._exact
            for key in rule.keys:
                keyed[key] = keyed.get(key, ()) + same
            if not rule.keys and rule.digest:
                self._digests[rule.digest] = self._digests.get(rule.digest, ()) + same
            elif not rule.keys:
                self._others += same
        self._lengths = sorted(set(map(len, self._fronts)))
        self._of_key = functools.lru_cache(256)(self._find)
        self._digest = hashed.hexdigest()
        self._is_empty = not kinds
        self._has_embargo = any(rule.embargo for rule in kinds)
        self._has_digest = any(rule.digest for rule in kinds)
        self._day = today()

    def begin(self) -> None:
        """Is called when a request begins, which shows what its day does."""
        if self._has_embargo:
            self._day = today()

    def __bool__(self) -> bool:
        return not self._is_empty

    @property
    def tag(self) -> str:
        return self._digest + (self._day.isoformat() if self._has_embargo else "")

    def action(self, key: str, timestamp: str, digest: str) -> int:
        """Returns what a capture may be: the strictest of the rules that are for it."""
        rules, found = self._of_key(key), 0
        if self._has_digest:
            digest = plain_digest(digest)
            rules = [*rules, *self._digests.get(digest, ())]
        for rule in rules:
            if rule.action > found and rule.holds(timestamp, digest, self._day):
                found = rule.action
        return found

    def shown(self, rows: list[list[str]], most: Action = Action.METADATA) -> list[list[str]]:
        """Returns the rows, of all fields of the program, for which nothing more than `most` is ruled."""
        if self._is_empty:
            return rows
        return [row for row in rows if self.action(row[KEY], row[STAMP], row[DIGEST]) <= most]

    def _find(self, key: str) -> list[Rule]:
        found = [*self._others, *self._exact.get(key, ())]
        for text in filter(None, (key, host_key_of(key))):
            for length in self._lengths:
                found += self._fronts.get(text[:length], ()) if length <= len(text) else ()
        return found


class RulesFile:
    """The file of rules of collections, which is read again when it has changed. Without a path there are no rules.

    `rules` are those of each collection that could be read last. The constructor raises BadSettings if the file can't be
    read: nothing is shown that it may close. It may come after another one, of settings that were in use `before`.
    """

    def __init__(
        self, path: Optional[pathlib.Path], program: str, collections: Sequence[str], before: "Optional[RulesFile]" = None
    ) -> None:
        self.source = path, program, collections
        self._path = path
        self._has_rules: bool = before is not None and before._has_rules
        self._seen = self._read_at = self._identity()
        self._since = -SETTLED if before is None else time.monotonic()  # when it was first seen as it is
        self._told = ""  # why the old rules stay in use
        self.rules = dict[str, Rules]() if path is None else self._read(path)

    @property
    def has_settled(self) -> bool:
        """Whether nobody has written to the file for some time. Until then it may be a part of one that is being saved."""
        return self._path is None or time.monotonic() - self._since >= SETTLED

    def look(self) -> bool:
        """Reads the file again if it has changed, and nobody writes to it. Returns whether there are other rules now.

        One that can't be read changes no rules.
        """
        if self._path is None:
            return False
        found, now = self._identity(), time.monotonic()
        if found != self._seen:
            self._seen, self._since = found, now
        if found == self._read_at or not self.has_settled:
            return False
        self._read_at = found
        try:
            rules = self._read(self._path)
        except BadSettings as error:
            self._read_at, self._since = (), now + AGAIN
            if str(error) != self._told:
                self._told = str(error)
                say(f"the old rules stay in use: {error}")
            return False
        if self._identity() != found:
            return False  # it is another one by now
        self.rules, self._told = rules, ""
        say(f"{self._path}: the rules were read again")
        return True

    def _identity(self) -> tuple[int, ...]:
        try:
            return () if self._path is None else Identity.of(os.stat(self._path))
        except OSError as error:
            return (error.errno or 0,)

    def _read(self, path: pathlib.Path) -> dict[str, Rules]:
        _, program, collections = self.source
        with named(path):
            tables = tables_of(path)
            if not tables and self._has_rules:  # as where a full disk has cut it
                raise BadSettings("it is empty: rules = [] says that there are none")
            rules = rules_in(tables, program, collections)
            found = rules_of(rules, collections)
        self._has_rules = bool(rules)
        return found


def rules_in(tables: dict[str, Any], program: str, collections: Sequence[str]) -> list[Rule]:
    """Returns the rules of a file with the URL keys that the program gives. Raises BadSettings, or Error."""
    unknown = set(tables) - {"rules"}
    given = tables.get("rules", [])
    if unknown or not isinstance(given, list) or not all(isinstance(each, dict) for each in given):
        raise BadSettings("it has [[rules]] and nothing else")
    if len(given) > MOST:
        raise BadSettings(f"it has more than {MOST} rules")
    for number, table in enumerate(given, 1):
        check(number, table, collections)
    keys = keys_by_url(program, [url for table in given for url in urls_of(table)])
    return [rule_of(table, keys) for table in given]


def check(number: int, table: dict[str, Any], collections: Sequence[str]) -> None:
    """Raises BadSettings if a rule isn't one."""

    def expect(holds: bool, what: str) -> None:
        if not holds:
            raise BadSettings(f"rule {number}: {what}")

    action, embargo = table.get("action"), table.get("embargo", 1)
    expect(action in tuple(ACTIONS), f"'action' has to be one of {', '.join(ACTIONS)}")
    for name, value in table.items():
        expect(name in NAMES, f"there is no '{name}': there are {', '.join(NAMES)}")
        is_text = isinstance(value, str) and value and value.isprintable() and value == value.strip()
        expect(name not in TEXTS or bool(is_text), f"'{name}' has to be a text on one line, of characters that can be seen")
        is_host = name not in ("host", "domain") or "/" not in value
        expect(is_host, f"'{name}' is the name of a host alone, such as example.com")
        has_star = name in STARLESS and (value.startswith("*") or value.endswith("*"))
        expect(not has_star, f"'{name}' has no *: 'prefix' is for all that begins so, and 'domain' for the hosts below a host too")
    expect(type(embargo) is int and 0 < embargo < 1_000_000, "'embargo' has to be a number of days")
    for name in ("from", "to"):
        expect(bool(_STAMP.fullmatch(table.get(name, "0"))), f"'{name}' has to be 1 to 14 digits")
    first, last = table.get("from", "0"), table.get("to", "9")
    expect(first[: len(last)] <= last[: len(first)], "'from' is after 'to'")
    is_digest = "digest" not in table or bool(_DIGEST.fullmatch(plain_digest(table["digest"])))
    expect(is_digest, "'digest' can't be one: it is in base 32 or 16, or has the name of its algorithm before it, as sha1:")
    key = table.get("key", "")
    expect(not key.lower().startswith(WEB) and " " not in key, "'key' is a URL key such as com,example)/a, and has no blank")
    expect(table.get("collection", "") in ("", *collections), f"there is no collection '{table.get('collection')}'")
    expect(len(table) > 1, f"it names nothing: it needs one of {', '.join(NAMES[1:])}")
    expect(sum(name in table for name in TARGETS) < 2, f"it has more than one of {', '.join(TARGETS)}")


def urls_of(table: dict[str, Any]) -> list[str]:
    """Returns the URLs of a rule whose keys are needed. Without a scheme both are meant, which have other ports of their own."""
    if host := table.get("host") or table.get("domain"):
        return [f"http://{host}/"]
    url: str = table.get("url") or table.get("prefix") or ""
    if not url or url.lower().startswith(WEB) or _OTHER_SCHEMES.match(url):
        return [url] if url else []
    return [f"{scheme}//{url}" for scheme in WEB]


def rule_of(table: dict[str, Any], keys: dict[str, str]) -> Rule:
    """Returns a rule in the words of an index. Raises BadSettings if no capture could have its host."""
    key = table.get("key", "")
    found = [keys[url] for url in urls_of(table)] + ([key, key.lower()] if key else [])
    if "host" in table or "domain" in table:
        host = found[0].partition(")")[0]
        if ":" in host and not host.startswith("["):
            raise BadSettings(f"it isn't the name of a host alone, such as example.com: {table.get('host') or table.get('domain')}")
        found = [host + end for end in (")", ":", ",")[: 2 + ("domain" in table)]]
    return Rule(
        ACTIONS[table["action"]],
        table.get("collection", ""),
        list(dict.fromkeys(found)),
        any(name in table for name in ("prefix", "host", "domain")),
        table.get("from", ""),
        table.get("to", ""),
        table.get("embargo", 0),
        plain_digest(table.get("digest", "")),
    )


def plain_digest(text: str) -> str:
    """Returns a digest as others are compared with it: that of SHA-1 in base 32 and without its name, in capitals."""
    digest = text.upper().removeprefix("SHA1:")
    return base64.b32encode(bytes.fromhex(digest)).decode() if _HEX_OF_SHA1.fullmatch(digest) else digest


def host_key_of(key: str) -> str:
    """Returns how the key of a web URL would begin with the host that is in another key, or no text."""
    found = None if _OF_WEB.match(key) else _HOST.match(key.lower())
    host = found[1].rstrip(".") if found else ""
    is_address = host.startswith("[") or host.replace(".", "").isdigit()
    return f"{host if is_address else ','.join(reversed(host.split('.')))})" if host else ""


def keys_by_url(program: str, urls: Sequence[str]) -> dict[str, str]:
    """Returns the URL keys of URLs. Raises BadSettings if one has none."""
    if not urls:
        return {}
    found = [each.key.decode() for each in keys_of(program, [url.encode() for url in urls])]
    keys = dict(zip(urls, found))
    for url in urls:
        host = host_of(keys.get(url, ""))
        if url not in keys or url.lower().startswith(WEB) and (host is None or "" in host.split(".")):
            raise BadSettings(f"it isn't the URL of a page: {url}")
    return keys


def rules_of(rules: Sequence[Rule], collections: Iterable[str]) -> dict[str, Rules]:
    """Returns the rules of collections. Those without rules of their own have the same ones, as there may be many."""
    shared, named = Rules(rule for rule in rules if not rule.collection), {rule.collection for rule in rules}
    own = {name: Rules(rule for rule in rules if rule.collection in ("", name)) for name in collections if name in named}
    return {name: own.get(name, shared) for name in collections}


def today() -> datetime.date:
    return datetime.datetime.now(datetime.timezone.utc).date()


def day_before(day: datetime.date, days: int) -> str:
    """Returns the digits of the day some days before another one, all zeros if there is none."""
    try:
        return f"{day - datetime.timedelta(days):%Y%m%d}".rjust(8, "0")
    except OverflowError:
        return "00000000"


ALL_SHOWN = Rules()
