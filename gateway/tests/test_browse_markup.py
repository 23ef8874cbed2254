"""Markup: nothing unescaped gets out, and what can't be seen is shown."""
import unittest
from html.parser import HTMLParser


from warcdx_gateway.browse import responses
from warcdx_gateway.browse.markup import Markup, cut, document, element, joined, link, shown, visible

HOSTILE = "<script>alert(1)</script>\"'&><img src=x onerror=alert(1)>"


class Found(HTMLParser):
    """The elements of a text, with their attributes, and its data."""

    def __init__(self, text: str) -> None:
        super().__init__()
        self.elements: list[tuple[str, dict[str, object]]] = []
        self.data = ""
        self.feed(text)
        self.close()

    def handle_starttag(self, tag: str, attrs: list[tuple[str, object]]) -> None:
        self.elements.append((tag, dict(attrs)))

    def handle_data(self, data: str) -> None:
        self.data += data


class Escaping(unittest.TestCase):
    def test_texts_and_values_are_escaped(self) -> None:
        made = element("p", HOSTILE, [HOSTILE, element("b", HOSTILE)], title=HOSTILE, aria_label=HOSTILE, class_=HOSTILE)
        found = Found(made.text)
        self.assertEqual(["p", "b"], [name for name, _ in found.elements])
        self.assertEqual({"title": HOSTILE, "aria-label": HOSTILE, "class": HOSTILE}, found.elements[0][1])
        self.assertEqual(HOSTILE * 3, found.data)

    def test_markup_is_no_text(self) -> None:
        self.assertRaises(TypeError, str, element("b"))
        self.assertRaises(TypeError, lambda: f"{element('b')}")
        self.assertEqual("<p>&lt;b&gt;<b></b></p>", element("p", "<b>", element("b")).text)

    def test_addresses_are_links_of_these_pages(self) -> None:
        for name in ("href", "src", "action"):
            self.assertRaises(TypeError, element, "a", **{name: "javascript:alert(1)"})
        self.assertRaises(TypeError, element, "a", title=link("record"))
        for path in ("javascript:alert(1)", "//evil.example/", "http://evil.example/", "a?b", "a\nb", "\\\\evil"):
            self.assertRaises(ValueError, link, path)
            self.assertRaises(ValueError, link, "record", path)

    def test_values_of_a_link_are_encoded(self) -> None:
        made = link("search", url="javascript:alert(1)//&year=1\r\n#x\ud800", from_="", year=None)
        self.assertEqual("search?url=javascript%3Aalert%281%29%2F%2F%26year%3D1%0D%0A%23x%3F", made.text)

    def test_what_acts_or_styles_is_no_attribute(self) -> None:
        for name in ("onclick", "ONLOAD", "style", "srcdoc", "a b", "x>", ""):
            self.assertRaises(ValueError, element, "p", **{name: "x"})
        for name in ("script", "style", "p q", "p>", "", "<b"):
            self.assertRaises(ValueError, element, name)

    def test_attributes_may_be_left_out(self) -> None:
        made = element("input", type="radio", checked=True, required=False, title=None, for_="a", data_label="b")
        self.assertEqual('<input type="radio" checked for="a" data-label="b">', made.text)

    def test_a_document_is_utf_8(self) -> None:
        made = document("a\u202e\ud800</title><b>", joined("\ud800", "é"), link("style.css"), link("icon.svg"))
        self.assertIn("<title>a[U+202E][U+D800]&lt;/title&gt;&lt;b&gt;</title>", made.decode())
        self.assertIn('<b class="unseen">[U+D800]</b>é', made.decode())


class Unseen(unittest.TestCase):
    def test_controls_and_marks_are_written_as_code_points(self) -> None:
        for character, words in (
            ("\0", "[U+0000]"), ("\r", "[U+000D]"), ("\x1b", "[U+001B]"), ("\x7f", "[U+007F]"),
            ("\x9b", "[U+009B]"), ("\u200b", "[U+200B]"), ("\u202e", "[U+202E]"),
            ("\u2066", "[U+2066]"), ("\u2028", "[U+2028]"), ("\ufeff", "[U+FEFF]"),
            ("\U000e0041", "[U+E0041]"), ("\ud800", "[U+D800]"), ("\udce9", "\\xE9"),
        ):  # fmt: skip
            self.assertEqual(f"a{words}b", visible(f"a{character}b"))
            self.assertEqual(f'a<b class="unseen">{words}</b>b', shown(f"a{character}b").text)

    def test_other_characters_stay(self) -> None:
        for text in ("plain", "né 漢字 עברית", "a\tb\nc", "\u0645\u200c\u0645"):
            self.assertEqual(Markup(text), shown(text))

    def test_long_texts_are_cut(self) -> None:
        self.assertEqual(("abc", "ab…"), (cut("abc", 3), cut("abcd", 3)))


class Dispositions(unittest.TestCase):
    """Names of files by RFC 6266."""

    def test_names(self) -> None:
        for name, ascii_name, name_in_utf_8 in (
            ("a.html", "a.html", "a.html"),
            ("../../etc/passwd", "passwd", "passwd"),
            ("a\\b\\c.txt", "c.txt", "c.txt"),
            ('a"b\r\nX: y.txt', "a_b__X__y.txt", "a_b__X__y.txt"),
            ("é.pdf", "_.pdf", "%C3%A9.pdf"),
            ("exe\u202egpj.txt", "exe_gpj.txt", "exe_gpj.txt"),
            (".bashrc", "bashrc", "bashrc"),
            ("...", "download", "download"),
            ("", "download", "download"),
            ("\ud800", "_", "_"),
            ("a/", "a", "a"),
        ):
            expected = f"attachment; filename=\"{ascii_name}\"; filename*=UTF-8''{name_in_utf_8}"
            self.assertEqual(expected, responses.disposition(name), name)
        self.assertLess(len(responses.disposition("漢" * 5000)), 2000)


if __name__ == "__main__":
    unittest.main()
