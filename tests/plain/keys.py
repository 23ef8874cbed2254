"""Makes the key of a target, as docs/CDXJ.md says ("Keys").

URLs of http and https are read as the URL Standard says. Of a host that isn't ASCII, and of a few other rare forms, the reader doesn't know
what the standard makes: for these it raises `Unknown`.
"""
import ipaddress
import re
from typing import NamedTuple, Optional
from urllib.parse import unquote_to_bytes

USUAL_PORTS = {"http": 80, "https": 443}
CONTROLS_AND_SPACE = "".join(map(chr, range(0x21)))
FORBIDDEN_IN_HOSTS = set(CONTROLS_AND_SPACE + '#%/:<>?@[\\]^|\x7f')
ESCAPED_IN_PATHS = set(' "#<>?`{}')
ESCAPED_IN_QUERIES = set(" \"#<>'")
ONE_DOT = (".", "%2e")
TWO_DOTS = ("..", ".%2e", "%2e.", "%2e%2e")
PLAIN_URL = re.compile(r"[A-Za-z][A-Za-z0-9+.-]*://[A-Za-z][A-Za-z0-9-]*(\.[A-Za-z][A-Za-z0-9-]*)*(/[A-Za-z0-9/._*-]*)?")


class Unknown(Exception):
    """A target of which this reader doesn't know what the URL Standard makes."""


class NotUrl(Exception):
    """A target of http or https that isn't a URL."""


class WebUrl(NamedTuple):
    host: str  # the host text of its key
    port: str  # empty for the scheme's default port
    path: str
    query: str


def key_of(target: str) -> str:
    url = web_url(target)
    return folded(key_text(url) if url else target)


def host_key_of(target: str) -> Optional[str]:
    url = web_url(target)
    return folded(url.host) if url else None


def is_url(text: str) -> bool:
    """Whether a text with a scheme and `://` is a URL."""
    if is_web(text):
        return web_url(text) is not None
    if not PLAIN_URL.fullmatch(text):
        raise Unknown(text)
    return True


def key_text(url: WebUrl) -> str:
    port = f":{url.port}" if url.port else ""
    query = f"?{url.query}" if url.query else ""
    return f"{url.host}{port}){url.path}{query}"


def folded(text: str) -> str:
    return "".join(chr(byte).lower() if 0x21 <= byte <= 0x7E else f"%{byte:02x}" for byte in text.encode())


# ---- the parts of a URL


def without_breaks(text: str) -> str:
    """The text that is parsed: without white space and controls at its ends, and without tabs and line breaks."""
    return re.sub("[\t\n\r]", "", text.strip(CONTROLS_AND_SPACE))


def is_web(text: str) -> bool:
    return without_breaks(text).partition(":")[0].lower() in USUAL_PORTS and ":" in text


def web_url(text: str) -> Optional[WebUrl]:
    """The parts of a URL of http or https. Nothing for any other text."""
    if not is_web(text):
        return None
    scheme, _, rest = without_breaks(text).partition(":")
    rest, _, _ = rest.partition("#")
    rest, _, query = rest.partition("?")
    authority, _, path = rest.replace("\\", "/").lstrip("/").partition("/")
    try:
        host, port = host_and_port(authority.rpartition("@")[2])
    except NotUrl:
        return None
    port = "" if port == str(USUAL_PORTS[scheme.lower()]) else port
    return WebUrl(host, port, resolved(path), escaped(query, ESCAPED_IN_QUERIES))


def host_and_port(text: str) -> tuple[str, str]:
    if text.startswith("["):
        address, bracket, rest = text[1:].partition("]")
        if not bracket or rest and not rest.startswith(":"):
            raise NotUrl
        return f"[{ipv6(address)}]", port_of(rest[1:])
    name, _, port = text.partition(":")
    return host_text(name), port_of(port)


def port_of(digits: str) -> str:
    if not re.fullmatch("[0-9]*", digits) or digits and int(digits) > 65_535:
        raise NotUrl
    return str(int(digits)) if digits else ""


# ---- hosts


def host_text(name: str) -> str:
    name = unquote_to_bytes(name).decode(errors="replace").lower()
    if not name.isascii() or "xn--" in name:
        raise Unknown(name)
    if not name or FORBIDDEN_IN_HOSTS & set(name):
        raise NotUrl
    return ipv4(name) if ends_in_number(name) else reversed_labels(name)


def reversed_labels(name: str) -> str:
    labels = name.split(".")
    if labels[-1] == "":
        labels = labels[:-1]
    if len(labels) > 1 and re.fullmatch("www[0-9]*", labels[0]):
        labels = labels[1:]
    return ",".join(reversed(labels))


def ends_in_number(name: str) -> bool:
    labels = name.split(".")
    if labels[-1] == "":
        labels = labels[:-1]
    return bool(labels) and re.fullmatch("[0-9]+|0x[0-9a-f]*", labels[-1]) is not None


def ipv4(name: str) -> str:
    """An address of one to four numbers. The last stands for all bytes that the others leave."""
    parts = name.split(".")
    if parts[-1] == "":
        parts = parts[:-1]
    numbers = [ipv4_number(part) for part in parts]
    if len(numbers) > 4 or any(number > 255 for number in numbers[:-1]) or numbers[-1] >= 256 ** (5 - len(numbers)):
        raise NotUrl
    address = numbers[-1] + sum(number * 256 ** (3 - place) for place, number in enumerate(numbers[:-1]))
    return str(ipaddress.IPv4Address(address))


def ipv4_number(part: str) -> int:
    """A number in decimal, after 0x in hexadecimal, or after 0 in octal."""
    if re.fullmatch("0x[0-9a-f]*", part):
        return int(part[2:] or "0", 16)
    if re.fullmatch("0[0-7]*", part):
        return int(part, 8)
    if re.fullmatch("[1-9][0-9]*", part):
        return int(part)
    raise NotUrl


def ipv6(address: str) -> str:
    if "." in address:
        raise Unknown(address)
    if not re.fullmatch("[0-9A-Fa-f:]*", address):
        raise NotUrl
    try:
        return ipaddress.IPv6Address(address).compressed
    except ValueError:
        raise NotUrl from None


# ---- paths and queries


def resolved(path: str) -> str:
    """The path behind its first slash, with `.` and `..` resolved and with escapes."""
    if "^" in path:
        raise Unknown(path)
    parts = path.split("/")
    done: list[str] = []
    for part in parts:
        if part.lower() in TWO_DOTS:
            done = done[:-1]
        elif part.lower() not in ONE_DOT:
            done.append(escaped(part, ESCAPED_IN_PATHS))
    if parts[-1].lower() in ONE_DOT + TWO_DOTS:
        done.append("")
    return "/" + "/".join(done)


def escaped(text: str, signs: set[str]) -> str:
    return "".join(sign if "\x20" <= sign <= "\x7e" and sign not in signs else in_hexadecimal(sign) for sign in text)


def in_hexadecimal(sign: str) -> str:
    return "".join(f"%{byte:02X}" for byte in sign.encode())
