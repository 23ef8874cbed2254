"""The characters of texts, as browsers read them by the names of character sets (Encoding Standard)."""
import re
from typing import Optional

# The names that browsers know, by what Python reads in their place.
_NAMES = {
    "utf-8": "utf-8 utf8 unicode-1-1-utf-8",
    "utf-16-le": "utf-16 utf-16le unicode ucs-2",
    "utf-16-be": "utf-16be",
    "cp1252": "windows-1252 cp1252 iso-8859-1 iso8859-1 iso_8859-1 latin1 us-ascii ascii x-user-defined",
    "cp1254": "windows-1254 cp1254 iso-8859-9 iso8859-9 latin5",
    "cp874": "windows-874 iso-8859-11 tis-620",
    "cp932": "shift_jis shift-jis sjis x-sjis ms_kanji windows-31j csshiftjis",
    "euc_jp": "euc-jp x-euc-jp",
    "cp949": "euc-kr ks_c_5601-1987 ksc5601 korean windows-949",
    "gb18030": "gb18030 gb2312 gbk x-gbk gb_2312-80 chinese",
    "big5hkscs": "big5 big5-hkscs cn-big5 x-x-big5",
    "iso8859_2": "iso-8859-2 iso8859-2 latin2",
    "koi8_r": "koi8-r koi8 koi",
    "mac_roman": "macintosh mac x-mac-roman",
    **{f"cp{number}": f"windows-{number} cp{number} x-cp{number}" for number in (1250, 1251, 1253, 1255, 1256, 1257, 1258)},
    **{name: name for name in ("iso-2022-jp", "koi8-u", *(f"iso-8859-{number}" for number in (3, 4, 5, 6, 7, 8, 10, 13, 14, 15, 16)))},
}
_CODECS = {name: codec for codec, names in _NAMES.items() for name in names.split()}
_LATIN = _CODECS["windows-1252"]  # which browsers take where nothing is named
_MARKS = ((b"\xef\xbb\xbf", "utf-8-sig"), (b"\xff\xfe", "utf-16"), (b"\xfe\xff", "utf-16"))
_OF_TYPE = re.compile(r"""charset\s*=\s*["']?([A-Za-z0-9._:-]{1,40})""", re.IGNORECASE)
_OF_META = re.compile(rb"""<meta[^>]{0,200}?charset\s*=\s*["']?([A-Za-z0-9._:-]{1,40})""", re.IGNORECASE)
_SEARCHED = 4096  # bytes in which a page may name its character set


def charset_of(content_type: str) -> Optional[str]:
    """Returns the character set that a media type names, if browsers know it, in lower case."""
    found = _OF_TYPE.search(content_type)
    name = found[1].lower() if found else ""
    return name if name in _CODECS else None


def text_of(content: bytes, charset: Optional[str], is_html: bool, is_whole: bool = True) -> str:
    """Returns the text of bytes whose type may name a character set. What isn't a character becomes U+FFFD.

    A mark at the beginning counts more than a name, and a page of HTML may name one itself.
    """
    for mark, codec in _MARKS:
        if content.startswith(mark):
            return content.decode(codec, errors="replace")
    codec = _CODECS.get(charset or "", "")
    if not codec and is_html and (found := _OF_META.search(content[:_SEARCHED])):
        codec = _CODECS.get(found[1].decode("ascii").lower(), "")
        codec = "utf-8" if codec.startswith("utf-16") else codec  # or nobody could have read the name
    if codec:
        return content.decode(codec, errors="replace")
    try:
        return content.decode()
    except UnicodeDecodeError as error:
        is_cut = not is_whole and error.start >= len(content) - 3
        return content.decode("utf-8" if is_cut else _LATIN, errors="replace")
