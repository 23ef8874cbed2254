"""The answers of these pages, with headers that keep what an archive holds from acting."""
import re
import unicodedata
from urllib.parse import quote

from werkzeug.wrappers import Response

COMMON = {
    "Referrer-Policy": "no-referrer",
    "X-DNS-Prefetch-Control": "off",
    "Cross-Origin-Resource-Policy": "same-origin",
    "Cross-Origin-Opener-Policy": "same-origin",
}
# A page has no script, and nothing of another origin. No other page may show it in a frame.
PAGE_POLICY = (
    "default-src 'none'; style-src 'self'; img-src 'self'; frame-src 'self'; form-action 'self'; " "base-uri 'none'; frame-ancestors 'none'"
)
# What an archive holds has its own origin, runs no script, fetches nothing and sends no form.
# Its images and style sheets are those that `embedding` has put into it.
PAYLOAD_POLICY = (
    "sandbox; default-src 'none'; style-src 'unsafe-inline' data:; img-src data:; "
    "form-action 'none'; base-uri 'none'; frame-ancestors 'self'"
)
_UNSAFE = re.compile(r"[^A-Za-z0-9._-]+")
_MOST_NAME = 150  # characters of a file name


def page(text: bytes, status: int = 200) -> Response:
    headers = {**COMMON, "Content-Security-Policy": PAGE_POLICY}
    if status == 503:
        headers["Retry-After"] = "1"  # seconds
    return Response(text, status, headers, content_type="text/html; charset=utf-8")


def part(text: bytes, kind: str) -> Response:
    """Returns a part of the pages themselves: the style sheet or the icon."""
    policy = "default-src 'none'; frame-ancestors 'none'"
    headers = {**COMMON, "Content-Security-Policy": policy, "Cache-Control": "max-age=3600"}
    return Response(text, 200, headers, content_type=kind)


def redirect(path: str, status: int = 303) -> Response:
    """Sends a browser to a path that is relative to that of the request."""
    return Response(b"", status, {**COMMON, "Location": path}, content_type="text/plain")


def payload_headers() -> dict[str, str]:
    """Returns the headers of a payload: whatever its type is, it can't act."""
    return {**COMMON, "Content-Security-Policy": PAYLOAD_POLICY}


def attachment_headers(name: str) -> dict[str, str]:
    """Returns the headers of a download, which a browser saves and never shows."""
    return {
        **COMMON,
        "Content-Security-Policy": "sandbox; default-src 'none'; frame-ancestors 'none'",
        "Content-Disposition": disposition(name),
    }


def disposition(name: str) -> str:
    """Returns the value of Content-Disposition for a file name (RFC 6266, RFC 8187)."""
    plain = file_name(name)
    ascii_name = _UNSAFE.sub("_", plain).lstrip(".") or "download"
    return f"attachment; filename=\"{ascii_name}\"; filename*=UTF-8''{quote(plain, safe='')}"


def file_name(text: str) -> str:
    """Returns a file name without folders, controls, marks of direction and a dot in front."""
    last = text.replace("\\", "/").rstrip("/").rpartition("/")[2]
    kept = "".join("_" if unicodedata.category(each)[0] in "CZ" or each in '<>:"|?*%' else each for each in last)
    return kept[-_MOST_NAME:].strip(". ") or "download"
