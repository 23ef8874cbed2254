"""Makes targets of captures at random: URLs of few hosts, ports and paths, with the forms on which docs/CDXJ.md has rules."""
import random

from choices import mostly

SCHEMES = ("http://", "http://", "http://", "https://", "https://", "HTTP://", "http:", "https:/", "http:\\\\", "http:///")
USERS = ("user@", "user:pass@", "a@b@", "@")
LABELS = ("www", "www", "www2", "www10", "wwwx", "www9x", "WWW", "example", "Example", "com", "a", "a-b", "a_b", "")
HOSTS = (
    "example.com",
    "www.example.com",
    "www",
    "www9",
    "www.",
    "www.com",
    "192.0.2.7",
    "0x7F.1",
    "010.8.0",
    "256.1.1.1",
    "1.2.3.4.5",
    "4294967295",
    "4294967296",
    "a.1",
    "1.a",
    "1.2.3.",
    "08.1",
    "0x.1",
    "[2001:DB8::1]",
    "[::]",
    "[1:0:0:2:0:0:0:3]",
    "[::1",
    "[g::]",
    "ex%61mple.com",
    "exa mple.com",
    "exa<mple.com",
    "ex%2fample.com",
    "",
)
UNREAD_HOSTS = ("b\xfccher.example", "xn--bcher-kva.example", "[::ffff:1.2.3.4]", "xn--a")
PORTS = (":80", ":443", ":8080", ":81", ":", ":0", ":0080", ":65535", ":65536", ":8x", ":80:80")
SEGMENTS = ("a", "a", "A", "b", "", ".", "..", "%2e", "%2E.", "%2F", "%c3%A9", "\xe9", "a b", "a;b", "~", "'\"<>", "{`}|", "a.", "%", "@:")
QUERIES = ("?", "?a=B", "?b=c&a=%2F", "?'\"<>", "?\xe9 \u20ac", "?a?b", "?a/../b", "?{}|`^", "?a\\b")
FRAGMENTS = ("#", "#a", "#a?b", "#a#b")
OTHERS = (
    "dns:Example.com",
    "DNS:\xe9xample.com",
    "ftp://www.Example.com/A",
    "ftp://www.example.com:21/",
    "urn:uuid:6BA7B810",
    "urn:\xfc\xff",
    "not a url",
    "not\x7fa \u20acurl\x01",
    "http",
    "httpx://example.com/",
    "://",
    "//example.com/",
    "mailto:A@b",
    "x:J~K z",
    "%C3%A9",
)


def target(choice: random.Random) -> str:
    way = choice.random()
    if way < 0.2:
        return choice.choice(OTHERS)
    if way < 0.22:
        return "http://" + choice.choice(UNREAD_HOSTS) + "/"
    user = mostly(choice, 0.93, "", choice.choice(USERS))
    port = mostly(choice, 0.7, "", choice.choice(PORTS))
    rest = path(choice) + mostly(choice, 0.7, "", choice.choice(QUERIES)) + mostly(choice, 0.9, "", choice.choice(FRAGMENTS))
    text = choice.choice(SCHEMES) + user + host(choice) + port + rest
    return text if choice.random() < 0.97 else broken(choice, text)


def host(choice: random.Random) -> str:
    if choice.random() < 0.5:
        return choice.choice(HOSTS)
    return ".".join(choice.choice(LABELS) for _ in range(choice.choice((1, 2, 2, 3, 3, 4)))) + mostly(choice, 0.9, "", ".")


def path(choice: random.Random) -> str:
    separators = ("/", "/", "/", "/", "\\")
    return "".join(choice.choice(separators) + choice.choice(SEGMENTS) for _ in range(choice.choice((0, 1, 1, 1, 2, 3, 4))))


def broken(choice: random.Random, text: str) -> str:
    """The text with a tab or a control somewhere."""
    at = choice.randint(0, len(text))
    return text[:at] + choice.choice(("\t", "\x01", " ", "\x7f")) + text[at:]
