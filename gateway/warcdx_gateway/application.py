"""The WSGI application: its paths, and what every answer has."""
import functools
import importlib
import json
import re
import time
from collections.abc import Callable, Generator, Iterable, Mapping
from typing import Any, Optional
from urllib.parse import unquote
from wsgiref.types import StartResponse, WSGIEnvironment

from gunicorn.http.errors import ChunkMissingTerminator, InvalidChunkSize, NoMoreData, ParseException
from werkzeug.exceptions import HTTPException, NotFound, RequestEntityTooLarge
from werkzeug.routing import Map, Rule
from werkzeug.wrappers import Request, Response

from warcdx import Error, Fault, Refused, ReplyTooLate, ReplyTooLong

from .answers import Answers, or_nothing
from .collection import Collection, Source
from .parameters import Form
from .plan import Plan, plan_of
from .refusal import TEXT, Refusal, http_response, program_refusal, say, text_of
from .rows import Output
from .sending import sent, streamed
from .settings import Settings, is_loopback
from .shared import Metrics
from .waiting import address_of
from .work import MOST_FREE, Work

METHODS = ("GET", "HEAD")
BAD_BODIES = (ChunkMissingTerminator, InvalidChunkSize, NoMoreData, ParseException, ValueError)
# What links begin with, as browsers read it: no other character may stand in it.
HOST = re.compile(r"([A-Za-z0-9._-]+|\[[0-9A-Fa-f:.]+\])(?::[0-9]{1,5})?")
ORIGIN = re.compile(r"^[A-Za-z][A-Za-z0-9+.-]*://[^/?]*")  # before the path in the line of a request
FORM = "application/x-www-form-urlencoded"
KINDS = {Output.TEXT: TEXT, Output.JSON: "application/json", Output.CDXJ: TEXT, Output.LINES: "text/x-ndjson; charset=utf-8"}
# The paths of the main collection in the form of the Internet Archive.
WAYBACK_PATHS = ("/cdx", "/cdx/search", "/cdx/search/cdx", "/cdx/search/xd", "/web/timemap", "/web/timemap/cdx", "/web/timemap/json")
MAIN_PATHS = ("/cdx", "/web/", "/wayback/", "/__wb/")  # the fronts of all paths of the main collection
MODULES = ("memento", "clients", "browse")  # each has `rules()`
MOST_BODY = 1 << 17  # bytes of a request
MOST_PARAMETERS = 1000  # of a query that isn't that of a captured URL
TOO_LONG = RequestEntityTooLarge(f"a body has at most {MOST_BODY} bytes")
MOST_PATHS = 64  # whose rules are remembered
HEALTH_SECONDS = 5

Handler = Callable[..., Response]  # of the gateway, a request and the values of its path


class GatewayRequest(Request):
    @functools.cached_property
    def body(self) -> bytes:
        """The body as it was sent. Raises Refusal if it is cut, or RequestEntityTooLarge."""
        if (self.content_length or 0) > MOST_BODY:
            raise TOO_LONG
        try:
            found = self.stream.read(MOST_BODY + 1)
        except BAD_BODIES:
            raise bad_body() from None
        if len(found) > MOST_BODY:
            raise TOO_LONG
        if len(found) < (self.content_length or 0):
            raise bad_body()
        return found

    @property
    def query_text(self) -> str:
        """The query as it was sent, with its escapes, also as the body of a form.

        Raises Refusal if it isn't UTF-8.
        """
        try:
            kind = self.headers.get("Content-Type", "").partition(";")[0]
            if self.method == "POST" and kind.strip().lower() == FORM:
                parts = self.query_string, self.body
                return "&".join(part.decode() for part in parts if part)
            return self.query_string.decode()
        except UnicodeDecodeError:
            raise Refusal("NotText", "", "a query is in UTF-8") from None


class Gateway:
    """Answers requests from collections."""

    def __init__(self, settings: Settings, collections: Mapping[str, Collection], metrics: Metrics) -> None:
        self.settings = settings
        self.collections = collections
        self.main = collections[settings.main]
        self.listed = [each for each in collections.values() if each.settings.listed]
        self.main.is_alone = self.listed == [self.main]
        self.metrics = metrics
        self._answers = Answers(settings.limits)
        self.work = Work(settings.limits.wide)
        for each in collections.values():
            each.work = self.work
        found = [rule("/health", health), rule("/metrics", own_metrics)]
        for name in MODULES:  # which stand on this one
            found += importlib.import_module(f"{__package__}.{name}").rules()
        self._paths = Map(found, strict_slashes=False, merge_slashes=False).bind("")
        matched: Any = functools.partial(self._paths.match, return_rule=True)
        self._rule_of = functools.lru_cache(MOST_PATHS)(matched)

    def collection(self, name: str) -> Collection:
        """Returns the collection of a name in a path, without one the main one. Raises NotFound."""
        found = self.collections.get(name) if name else self.main
        if found is None:
            raise NotFound("there is no such collection")
        return found

    def answer(self, request: GatewayRequest, collection: Collection, form: Form, query: Optional[str] = None) -> Response:
        """Answers a query, by default that of the request, in a form of its parameters."""
        plan = plan_of(request.query_text if query is None else query, form, self.settings.limits, not collection.rules)
        source, headers = Source(collection), collection.validators()
        if is_unchanged(request, headers):
            for _ in source.pieces(plan.first_query):  # a query that is refused has no 304
                pass
            return Response(status=304, headers=headers)

        def pieces() -> Generator[bytes, None, None]:
            made = self._answers.pieces(plan, source, collection.tag)
            yield from or_nothing(made) if plan.is_array else made

        kind = ("Content-Type", kind_of(plan))
        return streamed(pieces(), [*headers.items(), kind], self.work)

    def rows(self, collection: Collection, query: str) -> list[list[str]]:
        """Returns the rows of a query in the form of the Internet Archive, which names `fl`."""
        limits, is_open = self.settings.limits, not collection.rules
        plan = plan_of(f"{query}&output=json", Form.WAYBACK, limits, is_open)
        made = self._answers.pieces(plan, Source(collection), collection.tag)
        return list(json.loads(b"".join(made)))[1:]

    def __call__(self, environ: WSGIEnvironment, start_response: StartResponse) -> Iterable[bytes]:
        client = environ.get("gunicorn.socket")
        start = time.monotonic() if client is None else client.arrived
        self.work.begin(client)
        name, response = self._answer(GatewayRequest(environ, populate_request=False))
        body = response.response
        self.work.expect_slot(sum(map(len, body)) if isinstance(body, list) else MOST_FREE + 1)
        self.work.settle()
        self.metrics.count(name, response.status_code)
        response.headers["X-Content-Type-Options"] = "nosniff"
        response.headers.setdefault("Cache-Control", "no-cache")  # what may be shown changes
        if name and self.settings.origins:
            self._share(response, environ.get("HTTP_ORIGIN", ""))
        return sent(self.work, self.metrics, environ, start, response(environ, start_response))

    def _answer(self, request: GatewayRequest) -> tuple[str, Response]:
        """Returns the name of the collection, if there is one, and what answers."""
        name = ""
        try:
            path, method = request.path, request.method
            client = request.environ.get("gunicorn.socket")
            if client is not None and client.is_for_metrics:
                return "", show_metrics(self) if path == "/metrics" else http_response(NotFound())
            self._check_host(request)
            for each in self.collections.values():
                each.rules.begin()
            if method == "OPTIONS" and self.settings.origins:
                return self.settings.main, preflight(self._paths.allowed_methods(path))
            found, values = self._rule_of(path, method)
            if request.query_string.count(b"&") > MOST_PARAMETERS and not found.rule.endswith("<path:url>"):
                raise Refusal("TooMany", "", f"a query has at most {MOST_PARAMETERS} parameters")
            name = values.get("collection", self.settings.main if found.rule.startswith(MAIN_PATHS) else "")
            name = name if name in self.collections else ""
            is_listed = not name or self.collections[name].settings.listed
            if not is_listed and not stays_below(f"/{name}/", sent_path(request)):
                name = ""
                raise NotFound("there is no such collection")
            handler: Any = found.endpoint
            return name, handler(self, request, **values)
        except ConnectionError:
            raise  # the client has left
        except HTTPException as error:
            return name, http_response(error)
        except Exception as error:
            return name, self.failed(request, name, error)

    def failed(self, request: GatewayRequest, name: str, error: BaseException) -> Response:
        """Returns the plain response to a request that has met an error."""
        if isinstance(error, Refused):
            error = program_refusal(error, request.args)
        elif isinstance(error, ReplyTooLate):
            error = Refusal("TooSlow", "", "it takes too long; restrict the query", status=503)
        elif isinstance(error, (ReplyTooLong, MemoryError)):
            error = Refusal("TooLarge", "", "it takes too much memory; restrict the query")
        if isinstance(error, Refusal):
            self.metrics.refusals.labels(error.name).inc()
            headers = {"Retry-After": "1"} if error.status == 503 else {}
            return Response(f"{error}\n", error.status, headers, content_type=TEXT)
        say(f"{name}: {text_of(error)}")
        text = text_of(error) if isinstance(error, Fault) else "the program has failed"
        return Response(f"{text}\n", 500, content_type=TEXT)

    def _check_host(self, request: Request) -> None:
        """Refuses a request for another server, as a page of a hostile site may send it.

        The name of the host is the one that a browser looked up.
        """
        host = host_of(request.environ.get("HTTP_HOST", "localhost"))
        if self.settings.is_local and is_loopback(host):
            return
        if not host or {host, "*"}.isdisjoint(self.settings.hosts):
            raise Refusal("Host", "Host", "this server has another name; its setting hosts has those that it takes", host, status=421)

    def _share(self, response: Response, origin: str) -> None:
        """Lets a page of an origin read an answer, if it may.

        What a browser shows, with a policy of its own, is for readers alone.
        """
        if "Content-Security-Policy" in response.headers:
            return
        allowed = "*" if "*" in self.settings.origins else origin
        if allowed != "*":
            response.vary.add("Origin")
        if allowed in self.settings.origins:
            response.headers["Access-Control-Allow-Origin"] = allowed
            response.headers["Access-Control-Expose-Headers"] = "ETag, Last-Modified, Link"


def bad_body() -> Refusal:
    return Refusal("BadBody", "", "the body of the request can't be read")


def sent_path(request: Request) -> str:
    """Returns the path as it was sent, with its escapes and its query."""
    sent = str(request.environ.get("RAW_URI") or request.environ.get("REQUEST_URI") or "")
    return ORIGIN.sub("", sent, count=1)


def root_of(request: Request) -> str:
    """Returns what links begin with. The host is as it was sent, and not decoded as by `root_url`."""
    return f"{request.scheme}://{request.host}"


def stays_below(front: str, sent: str) -> bool:
    """Returns whether a path has this front, as it is sent and without its `..`: a server in front may compare either."""
    return sent.startswith(front) and ".." not in unquote(sent.partition("?")[0]).split("/")


def rule(path: str, handler: Handler, methods: Iterable[str] = METHODS) -> Rule:
    """Returns the rule of a path, in the words of Werkzeug, whose requests a handler answers."""
    endpoint: Any = handler
    return Rule(path, endpoint=endpoint, methods=methods)


def health(gateway: Gateway, request: GatewayRequest) -> Response:
    """Asks each collection for a capture that no index has, and names those whose indexes are old, if they are listed."""
    said = ["ok\n"]
    for collection in gateway.collections.values():
        name = collection.name if collection.settings.listed else "a collection"
        try:
            index = collection.index
            index.seconds = HEALTH_SECONDS
            index.text("key=!&limit=1&fl=offset")
            collection.expect_unchanged()
        except (Error, OSError, Refusal) as error:
            return Response(f"{name}: {error}\n", 503, content_type=TEXT)
        if collection.is_old:
            said.append(f"{name}: the old indexes are in use\n")
    return Response("".join(said), content_type=TEXT)


def own_metrics(gateway: Gateway, request: GatewayRequest) -> Response:
    """Shows the metrics to this machine, and to no one whose request a server passes on."""
    environ = request.environ
    peer, forwarded = environ.get("REMOTE_ADDR") or "", environ.get("HTTP_X_FORWARDED_FOR", "")
    if gateway.settings.metrics or forwarded or address_of(peer, "") is not None:
        raise NotFound()
    return show_metrics(gateway)


def show_metrics(gateway: Gateway) -> Response:
    kind = "text/plain; version=0.0.4; charset=utf-8"
    return Response(gateway.metrics.text(), content_type=kind)


def is_unchanged(request: Request, headers: Mapping[str, str]) -> bool:
    """Returns whether the client has an answer from the present indexes (RFC 9110, 13.2.2).

    An index of before may have come back. So only the very time that was sent is taken.
    """
    if (known := request.headers.get("If-None-Match")) is not None:
        return has_tag(known, headers["ETag"])
    since = request.environ.get("HTTP_IF_MODIFIED_SINCE")
    return since is not None and since == headers.get("Last-Modified")


def has_tag(field: str, tag: str) -> bool:
    """Returns whether a condition of a request names a tag, which is in quotes. Werkzeug reads some for a long time."""
    return field.strip() == "*" or tag in field


def preflight(methods: Iterable[str]) -> Response:
    allowed = ", ".join(sorted({*methods, "OPTIONS"}))
    headers = {
        "Allow": allowed,
        "Access-Control-Allow-Methods": allowed,
        "Access-Control-Allow-Headers": "*",
        "Access-Control-Max-Age": "86400",
    }
    return Response(status=204, headers=headers)


def kind_of(plan: Plan) -> str:
    if plan.counts_pages:
        return TEXT if plan.form is Form.WAYBACK else "application/json"
    if plan.output is Output.CDXJ and plan.form is Form.PYWB:
        return "text/x-cdxj; charset=utf-8"
    return KINDS[plan.output]


def host_of(field: str) -> str:
    """Returns the host of a field `Host` without its port, nothing if it can't be read."""
    found = HOST.fullmatch(field)
    return found[1].strip("[]").lower() if found else ""
