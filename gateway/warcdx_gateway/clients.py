"""The paths and words of other servers' clients. gateway/README.md has the table of them."""
import contextlib
import functools
import itertools
import json
import re
from collections.abc import Callable, Mapping
from typing import Optional
from urllib.parse import parse_qsl, unquote_plus
from xml.sax.saxutils import escape

from werkzeug.datastructures import MultiDict
from werkzeug.exceptions import NotFound
from werkzeug.routing import Rule
from werkzeug.wrappers import Request, Response

from warcdx import Capture

from . import memento
from .application import METHODS, WAYBACK_PATHS, Gateway, GatewayRequest, root_of, rule
from .collection import Collection, Source
from .history import History, first_moment, nearest_of, present_moment, quoted
from .parameters import Form, is_number
from .refusal import Refusal

JSON = "application/json"
XML = "text/xml; charset=utf-8"
CDX11 = "urlkey,timestamp,original,mimetype,statuscode,digest,redirect,robotflags,length,offset,filename"
# The elements of a result of an XML query, and the fields that they have.
CAPTURE_MEMBERS = {
    "compressedoffset": "offset",
    "mimetype": "mimetype",
    "file": "filename",
    "redirecturl": "redirect",
    "urlkey": "urlkey",
    "digest": "digest",
    "httpresponsecode": "statuscode",
    "url": "original",
    "capturedate": "timestamp",
}
URL_MEMBERS = {
    "urlkey": "urlkey",
    "originalurl": "original",
    "numcaptures": "groupcount",
    "numversions": "uniqcount",
    "firstcapturets": "timestamp",
    "lastcapturets": "endtimestamp",
}
ANSWERED = (*METHODS, "POST")  # of queries: a long one may be a body
TIME_MAPS = {"json": "json", "cdx": "text", "cdxj": "cdxj"}  # their outputs
MOST_ASKED = 50  # URLs of one request of the availability API
MOST_RESULTS = 10_000  # of an XML query
# Which capture `closest` of the availability API wants.
CHOICES: dict[str, Callable[[History, str], Optional[Capture]]] = {
    "before": lambda history, moment: history.last(int(moment)),
    "after": lambda history, moment: history.first(int(moment)),
}
_NOT_XML = re.compile("[^\t\n\r -\ud7ff\ue000-\ufffd\U00010000-\U0010ffff]")


def rules() -> list[Rule]:
    """Returns the rules of these paths."""
    found = [rule(path, _wayback, ANSWERED) for path in WAYBACK_PATHS]
    for front, (name, output) in itertools.product(("web", "<collection>"), TIME_MAPS.items()):
        listed = functools.partial(_time_map_in, output)
        found.append(rule(f"/{front}/timemap/{name}/<path:url>", listed))
    for path in ("/<collection>/index", "/<collection>-index", "/<collection>-cdx"):
        found.append(rule(path, functools.partial(_answer, Form.PYWB), ANSWERED))
    return found + [
        rule("/<collection>/cdx", functools.partial(_answer, None), ANSWERED),
        rule("/<collection>", outback),
        rule("/collinfo.json", collinfo),
        rule("/wayback/available", available, ANSWERED),
        rule("/__wb/sparkline", sparkline),
    ]


def _wayback(gateway: Gateway, request: GatewayRequest) -> Response:
    query = request.query_text
    if request.path == "/web/timemap/json":
        query = _with(query, "output", "json")
    return gateway.answer(request, gateway.main, Form.WAYBACK, query)


def _answer(form: Optional[Form], gateway: Gateway, request: GatewayRequest, collection: str) -> Response:
    """Answers in a form, or else in that of the collection. pywb has a TimeMap as output=link."""
    found = gateway.collection(collection)
    form = form or Form(found.settings.form)
    if form is Form.PYWB and request.args.get("output") == "link":
        resource = memento.Resource(gateway, request, collection, request.args.get("url", ""))
        return memento.time_map_of(gateway, resource)
    return gateway.answer(request, found, form)


def _time_map_in(output: str, gateway: Gateway, request: GatewayRequest, url: str, collection: str = "") -> Response:
    """Lists the captures of a URL, in the form of the collection."""
    found = gateway.collection(collection)
    resource = memento.Resource(gateway, request, collection, memento.url_of(request, 3))
    form = Form(found.settings.form) if collection else Form.WAYBACK
    return gateway.answer(request, found, form, f"url={quoted(resource.original)}&output={output}")


def _with(query: str, name: str, value: str) -> str:
    """Returns a query with a value of a parameter, if it has none."""
    return query if re.search(f"(?:^|&){name}=[^&]", query) else f"{query}&{name}={value}"


def collinfo(gateway: Gateway, request: Request) -> Response:
    """Lists the collections as Common Crawl does."""
    root = root_of(request)
    found = [
        {"id": each.name, "name": each.title, "timegate": f"{root}/{each.name}/", "cdx-api": f"{root}/{each.name}-index"}
        for each in gateway.listed
    ]
    return Response(json.dumps(found, ensure_ascii=False, indent=1) + "\n", content_type=JSON)


def outback(gateway: Gateway, request: GatewayRequest, collection: str) -> Response:
    """Answers as OutbackCDX does: eleven columns, or the XML of OpenWayback with `q`."""
    found = gateway.collection(collection)
    if "q" in request.args:
        return xml_query(gateway, found, request.args)
    if not request.query_string:
        return Response(b"", 302, {"Location": f"{request.path.rstrip('/')}/browse/"})
    query = _with(request.query_text, "fl", CDX11)
    return gateway.answer(request, found, Form.WAYBACK, query)


def xml_query(gateway: Gateway, collection: Collection, sent: "MultiDict[str, str]") -> Response:
    """Answers a query of OpenWayback: a `type:`, urlquery or prefixquery, and `url:` of a URL."""
    pairs = (each.partition(":") for each in sent["q"].split())
    given = {name: unquote_plus(value) for name, _, value in pairs}
    kind = given.get("type", "urlquery")
    if kind not in ("urlquery", "prefixquery"):
        raise Refusal("BadQuery", "q", "its type is urlquery or prefixquery", kind)
    limit = given.get("limit") or sent.get("count") or str(MOST_RESULTS)
    page = sent.get("start_page") or "1"
    for name, value in (("limit", limit), ("start_page", page)):
        if not (is_number(value) and len(value) <= 9 and 0 < int(value) <= MOST_RESULTS):
            raise Refusal("BadLimit", name, f"it is a number from 1 to {MOST_RESULTS}", value)
    first = (int(page) - 1) * int(limit)
    if not given.get("url"):
        raise Refusal("NoUrl", "q", "it has no url:URL")
    names, match = CAPTURE_MEMBERS, "exact"
    if kind == "prefixquery":
        names, match = URL_MEMBERS, "prefix&collapse=urlkey"
    times = {"from": given.get("startdate", ""), "to": given.get("enddate", "")}
    query = f"url={quoted(given['url'])}&matchType={match}&limit={limit}&offset={first}"
    query += "".join(f"&{name}={quoted(value)}" for name, value in times.items() if value)
    rows = gateway.rows(collection, f"{query}&fl={','.join(names.values())}")
    results = [dict(zip(names, row)) for row in rows]
    asked = {
        "startdate": times["from"] or "19960101000000",
        "enddate": times["to"] or present_moment(),
        "type": kind,
        "firstreturned": str(first),
        "url": results[0]["urlkey"] if results else given["url"],
        "resultsrequested": limit,
        "resultstype": "resultstypecapture" if kind == "urlquery" else "resultstypeurl",
        "numreturned": str(len(results)),
    }
    listed = "".join(f"<result>{_elements(each)}</result>\n" for each in results)
    body = f"<request>{_elements(asked)}</request>\n<results>\n{listed}</results>\n"
    if not results:
        error = {"title": "Resource Not In Archive", "message": "There is no capture of this URL."}
        body = f"<error>{_elements(error)}</error>\n"
    head = '<?xml version="1.0" encoding="UTF-8"?>\n'
    return Response(f"{head}<wayback>\n{body}</wayback>\n", 200 if rows else 404, content_type=XML)


def _elements(members: Mapping[str, str]) -> str:
    return "".join(f"<{name}>{escape(_NOT_XML.sub('_', value))}</{name}>" for name, value in members.items())


def available(gateway: Gateway, request: GatewayRequest) -> Response:
    """Returns the nearest captures of URLs, as the Internet Archive's availability API does.

    A POST has a query on each line, and `results` in the order of the lines.
    """
    if request.method == "POST":
        lines = [line for line in request.body.decode(errors="replace").split("\n") if line.strip()]
        if len(lines) > MOST_ASKED:
            raise Refusal("TooMany", "url", f"a request has at most {MOST_ASKED} lines")
        asked = [MultiDict(parse_qsl(line.strip())) for line in lines]
        found: object = {"results": [_available(gateway, request, each) for each in asked]}
    else:
        found = _available(gateway, request, request.args)
    return Response(json.dumps(found, ensure_ascii=False) + "\n", content_type=JSON)


def _available(gateway: Gateway, request: Request, given: "MultiDict[str, str]") -> dict[str, object]:
    url, timestamp = given.get("url", ""), given.get("timestamp", "")
    if not url:
        raise Refusal("NoUrl", "url", "it is missing")
    if timestamp and not (is_number(timestamp) and len(timestamp) <= 14):
        raise Refusal("BadStamp", "timestamp", "it is 1 to 14 digits", timestamp)
    answer: dict[str, object] = {name: given[name] for name in ("url", "tag") if name in given}
    answer["archived_snapshots"] = {}
    wanted = first_moment(timestamp) if timestamp else present_moment()
    if timestamp:
        answer["timestamp"] = timestamp
    with contextlib.suppress(NotFound):
        resource = memento.Resource(gateway, request, "", url)
        codes = given.getlist("statuscodes")[:10] or ["200"]
        histories = (resource.history.where("statuscode", code) for code in codes)
        choose = CHOICES.get(given.get("closest", ""), History.nearest)
        found = (choose(each, wanted) for each in histories)
        nearest = nearest_of(found, wanted)
        if nearest is not None:
            closest = {"status": nearest.statuscode, "available": True, "url": resource.memento(nearest), "timestamp": nearest.timestamp}
            answer["archived_snapshots"] = {"closest": closest}
    return answer


def sparkline(gateway: Gateway, request: GatewayRequest) -> Response:
    """Counts the captures of a URL by months, as the Internet Archive's pages and extension ask."""
    source = Source(gateway.main)
    years: dict[str, list[int]] = {}
    statuses: dict[str, list[str]] = {}
    first = last = None
    query = f"url={quoted(request.args.get('url', ''))}&matchType=exact"
    for rows in source.values(query, ("timestamp", "statuscode")):
        for timestamp, status in rows:
            first, last = first or timestamp, timestamp
            month = int(timestamp[4:6])
            if 1 <= month <= 12:
                years.setdefault(timestamp[:4], [0] * 12)[month - 1] += 1
                digits = statuses.setdefault(timestamp[:4], ["0"] * 12)
                digits[month - 1] = status[:1] if status[:1] in "12345" else digits[month - 1]
    shown = {year: "".join(digits) for year, digits in statuses.items()}
    found = {"years": years, "first_ts": first, "last_ts": last, "status": shown}
    return Response(json.dumps(found) + "\n", content_type=JSON)
