"""The parameters of a query: their names, and what the value of each may be."""
import re
from enum import Enum
from urllib.parse import quote_plus, unquote_to_bytes

from warcdx import FIELDS

from .conditions import SPECIAL, Condition, Test, compiled
from .history import present_moment
from .refusal import Refusal
from .rows import GROUPED, ORIGINALS, UNKNOWN, Collapse
from .settings import Limits

PYWB_NAMES = {"url": "original", "mime": "mimetype", "status": "statuscode"}
TESTS = {"is": (Test.EQUALS, False), "isnot": (Test.EQUALS, True), "has": (Test.CONTAINS, False), "hasnot": (Test.CONTAINS, True)}
MARKED = {"=": Test.EQUALS, "~": Test.BEGINS}  # filters of pywb
FIELD_LIST = ", ".join(FIELDS)
ADDED = (*UNKNOWN, *GROUPED, *ORIGINALS, "dupecount")
FIELD = "|".join(map(re.escape, (*FIELDS, *PYWB_NAMES, *ADDED)))
COLUMNS = f"(?:{FIELD})(?:,(?:{FIELD}))*"
FLAGS = "fastLatest gzip lastSkipTimestamp resolveRevisits reverse showDupeCount showGroupCount showNumPages showResumeKey".split()
FLAGS += ["showSkipCount", "showUniqCount"]
STAMP = ("[0-9]{1,14}", "BadStamp", "it is 1 to 14 digits")
LIMIT = "-?0{0,6}[1-9][0-9]{0,17}"
SORTS = "default|regular|reverse|closest"
NUMBER = "[0-9]{1,7}"
# Parameters that may be given once: what each may be, and how it is refused. Each is checked where the
# program checks it, so that of two that are at fault both name the same one.
SINGLE = {
    "url": (".*", "", ""),
    "key": (".*", "", ""),
    "matchType": ("exact|prefix|host|domain", "BadMatch", "it is exact, prefix, host or domain"),
    "from": STAMP,
    "to": STAMP,
    "limit": (LIMIT, "BadLimit", "it is a number from 1 on, or such a number after a -"),
    "resumeKey": ("[^ ]* [0-9]{14} .+ [0-9]+", "BadResume", "it isn't the resume key of a page"),
    "fl": (COLUMNS, "BadField", f"it is a list of fields, separated by commas: {FIELD_LIST}"),
    "output": ("text|json|cdxj", "BadOutput", "it is text, json or cdxj"),
    "page": (NUMBER, "BadPage", "it is a number of at most 7 digits"),
    "pageSize": (f"(?!0+$){NUMBER}", "BadPage", "it is a number from 1 on of at most 7 digits"),
    "closest": STAMP,
    "sort": (SORTS, "BadSort", "it is one of default, regular, reverse, closest"),
    "offset": (NUMBER, "BadPage", "it is a number of at most 7 digits"),
    "showPagedIndex": ("false", "Unknown", "the indexes of this server have no blocks"),
    **dict.fromkeys(FLAGS, ("true|false", "BadFlag", "it is true or false")),
}
KNOWN = frozenset((*TESTS, *SINGLE, "filter", "collapse"))
EMPTY = frozenset(("url", "key", *TESTS))  # which mean something without a value
CLIENT_FLAGS = frozenset((*FLAGS, "showPagedIndex"))
# What clients write for other words, or for nothing.
WORDS = {("output", "txt"): "text", ("limit", "0"): "", ("page", "/"): ""}
# Parameters that change no answer here: a number against caches, the name of a function of a page's
# script, and what depends on columns that indexes in CDXJ don't have.
IGNORED = frozenset(("_", "callback", "omitSelfRedirects"))
PLACE = re.compile(r"(?=.+?(?:\+|%20))[A-Za-z0-9*._%+-]+")  # a resume key, encoded
ESCAPED = re.compile("[%+]")
CHECKS = {name: re.compile(pattern, re.DOTALL) for name, (pattern, _, _) in SINGLE.items()}


class Form(Enum):
    """Whose parameters and outputs a path has."""

    WAYBACK = "wayback"  # those of the Internet Archive's server
    PYWB = "pywb"  # those of pywb and Common Crawl


def filter_of(value: str, form: Form) -> Condition:
    """Returns the condition of a `filter`.

    After an optional `!` pywb has `=` for a text and `~` for a pattern.
    """
    is_negated = value.startswith("!")
    text = value[is_negated:]
    test = MARKED.get(text[:1])
    if test is not None:
        return condition_of(text[1:], test, is_negated, "filter")
    test = Test.CONTAINS if form is Form.PYWB else Test.MATCHES
    if test is Test.MATCHES and SPECIAL.isdisjoint(text.partition(":")[2]):
        test = Test.EQUALS
    return condition_of(text, test, is_negated, "filter")


def condition_of(value: str, test: Test, is_negated: bool, parameter: str) -> Condition:
    name, colon, text = value.partition(":")
    field = PYWB_NAMES.get(name, name)
    if not colon or field not in FIELDS:
        cause = f"it is FIELD:TEXT, with one of the fields {FIELD_LIST}"
        raise Refusal("BadFilter", parameter, cause, value)
    pattern = compiled(text) if test in (Test.MATCHES, Test.BEGINS) else None
    return Condition(field, test, text, is_negated, parameter, pattern)


def collapse_of(value: str) -> Collapse:
    name, colon, digits = value.partition(":")
    field = PYWB_NAMES.get(name, name)
    is_count = is_number(digits) and len(digits) <= 4 and int(digits) > 0
    if field not in FIELDS or (colon and not is_count):
        cause = f"it is FIELD or FIELD:N, with one of the fields {FIELD_LIST}"
        raise Refusal("BadCollapse", "collapse", cause, value)
    return Collapse(field, int(digits) if colon else None)


def unquoted(name: str, value: str) -> tuple[str, str]:
    """Returns the name and the value of a parameter without escapes. Raises Refusal."""
    if not ESCAPED.search(name + value):
        return name, value
    try:
        found, text = (unquote_to_bytes(each.replace("+", " ")) for each in (name, value))
        return found.decode(), text.decode()
    except UnicodeDecodeError:
        raise Refusal("NotText", name, "it isn't UTF-8", value) from None


def require_few(name: str, count: int, most: int) -> None:
    if count > most:
        raise Refusal("TooMany", name, f"there are at most {most} in a query")


def is_number(text: str) -> bool:
    return text.isascii() and text.isdigit()


class Given:
    """The parameters of a query. Each piece stays as it is written, for the program."""

    def __init__(self, form: Form, limits: Limits) -> None:
        self.form = form
        self.limits = limits
        self.values: dict[str, str] = {}  # decoded
        self.pieces: dict[str, str] = {}
        self.conditions: list[tuple[Condition, str]] = []
        self.collapses: list[Collapse] = []
        self.empty: set[str] = set()  # names without a value

    def add(self, piece: str) -> None:
        """Takes the next parameter, also in the words of other servers' clients. Raises Refusal."""
        name, value = unquoted(*piece.partition("=")[::2])
        if name == "fields" and self.form is Form.PYWB:
            name = "fl"
        elif name == "collapseTime":
            name, value = "collapse", f"timestamp:{value}"
        elif name == "resumeKey" and PLACE.fullmatch(value):
            return self.add(f"resumeKey={value}")  # it was encoded once more than it is written
        elif name in CLIENT_FLAGS and value in ("True", "False"):
            value = value.lower()
        value = present_moment() if (name, value) == ("closest", "now") else WORDS.get((name, value), value)
        if name in IGNORED:
            return
        if name not in KNOWN:
            raise Refusal("Unknown", name, "there is no such parameter; a & in a URL is written as %26")
        if not value and name not in EMPTY:
            self.empty.add(name)  # a field of a form
            return
        if name in SINGLE:
            self.add_single(name, value, piece)
        elif name == "collapse":
            self.collapses += map(collapse_of, value.split(","))
            require_few(name, len(self.collapses), self.limits.collapses)
        elif name == "filter":
            self.add_filter(filter_of(value, self.form))
        else:
            self.add_condition(condition_of(value, *TESTS[name], name), piece)

    def add_filter(self, condition: Condition) -> None:
        if condition.pattern is not None:
            self.add_condition(condition, "")
        else:
            name = "is" if condition.test is Test.EQUALS else "has"
            name += "not" if condition.is_negated else ""
            value = quote_plus(f"{condition.field}:{condition.text}")
            self.add_condition(condition, f"{name}={value}")

    def add_condition(self, condition: Condition, piece: str) -> None:
        """Takes a condition, and the piece by which the program checks it if it does."""
        self.conditions.append((condition, piece))
        require_few("filter", len(self.conditions), self.limits.conditions)

    def add_single(self, name: str, value: str, piece: str) -> None:
        if name in self.values:
            raise Refusal("RepeatedParameter", name, "it may be given once")
        if not CHECKS[name].fullmatch(value):
            _, cause, text = SINGLE[name]
            bad = [each for each in value.split(",") if not CHECKS[name].fullmatch(each)]
            raise Refusal(cause, name, text, bad[0] or value if name == "fl" else value)
        if name == "fl":
            require_few(name, value.count(",") + 1, self.limits.fields)
        self.values[name] = value
        self.pieces[name] = piece

    def is_true(self, name: str) -> bool:
        return self.values.get(name) == "true"

    def bad(self, name: str, parameter: str, cause: str) -> Refusal:
        """Returns the refusal of a parameter because of other ones or of the settings."""
        return Refusal(name, parameter, cause, self.values.get(parameter, ""))

    def match(self) -> tuple[str, str]:
        """Returns how keys are matched, and the URL without the star that may say so."""
        url = self.values.get("url", "")
        if match := self.values.get("matchType"):
            return match, url
        if url.startswith("*."):
            return "domain", url[2:]
        return ("prefix", url[:-1]) if url.endswith("*") else ("exact", url)
