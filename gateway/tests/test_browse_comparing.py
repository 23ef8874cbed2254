"""The texts of pages, and their comparison."""
import io
import json
import random
import string
import time
import unittest
from unittest import mock

from . import browse_support as support
from .browse_support import Archives, response, text_of

from warcdx_gateway.browse import compare_page, comparing
from warcdx_gateway.browse.comparing import compare, lines_of

HOME = "http://example.com/"


def html_lines(text: str) -> list[str]:
    return lines_of(text, True)[0]


class Texts(unittest.TestCase):
    def test_the_text_of_html_is_what_a_reader_sees(self) -> None:
        for text, lines in (
            ("<title>T</title><h1>A <b>bold</b>\n word</h1><p>One<br>two<p>three", ["T", "A bold word", "One", "two", "three"]),
            ("<script>var a = '<p>no</p>'</script><style>p {}</style><p>yes", ["yes"]),
            ("<noscript><p>no</p></noscript><template><p>no</template>" "<svg><text>no</text></svg>yes", ["yes"]),
            ("<ul><li>a</li><li>b</li></ul><table><tr><td>c<td>d</table>", ["a", "b", "c", "d"]),
            ("a &amp; b &lt;c&gt; &eacute; &#x202e;", ["a & b <c> é \u202e"]),
            ("<img alt='a picture'> and <img>", ["a picture and"]),
            ("<p>a<!-- no --><![CDATA[b]]></p>", ["a"]),
            ("", []),
        ):
            self.assertEqual(lines, html_lines(text), text)

    def test_plain_text_has_its_lines(self) -> None:
        self.assertEqual((["a", "  b", "", "<p>"], False), lines_of("a  \r\n  b\n\n<p>", False))

    def test_long_texts_are_cut(self) -> None:
        self.assertEqual((4000, True), (len(lines_of("a\n" * 5000, False)[0]), lines_of("a\n" * 5000, False)[1]))
        self.assertEqual((["a" * 2000], True), lines_of("a" * 2001, False))
        lines, is_cut = lines_of(("a" * 1999 + "\n") * 200, False)
        self.assertEqual((200_000, True), (sum(map(len, lines)), is_cut))


class Rows(unittest.TestCase):
    def test_equal_lines_far_from_a_difference_are_one_row(self) -> None:
        first = [str(number) for number in range(20)]
        second = first[:10] + ["x"] + first[11:]
        rows = list(compare(first, second))
        self.assertEqual({"equal": 8}, rows[0])
        self.assertEqual({"equal": 7}, rows[-1])
        self.assertEqual([["8"], ["9"], ["10"], ["11"], ["12"]], [[text for _, text in row["left"]] for row in rows[1:-1]])
        self.assertEqual([{"equal": 20}], list(compare(first, first)))
        self.assertEqual([], list(compare([], [])))

    def test_all_lines_are_in_the_rows(self) -> None:
        rng = random.Random(1)
        for _ in range(200):
            first, second = ([rng.choice("abcd efgh") for _ in range(rng.randrange(12))] for _ in range(2))
            rows = list(compare(first, second))
            for side, lines in (("left", first), ("right", second)):
                count = sum(row["equal"] if "equal" in row else row[side] is not None for row in rows)
                self.assertEqual(len(lines), count, rows)

    def test_words_that_differ_are_marked(self) -> None:
        (row,) = compare(["Open from 9 to 17."], ["Open from 9 to 18."])
        self.assertEqual([(False, "Open from 9 to "), (True, "17"), (False, ".")], row["left"])
        self.assertEqual([(False, "Open from 9 to "), (True, "18"), (False, ".")], row["right"])
        (row,) = compare(["one two three"], ["four five six"])
        self.assertEqual([(True, "one two three")], row["left"])


class Hostile(support.Pages):
    """Pages that are made to take the parser or the comparison long."""

    def fill(self, archives: Archives) -> None:
        rng = random.Random(2)
        words = ["".join(rng.choices(string.ascii_letters, k=3)) for _ in range(40)]
        self.bodies = {
            "plain": b"<p>plain",
            "declarations": b"<!" * 500_000,
            "attributes": b"<p " + b"a=b " * 500_000,
            "nested": b"<svg>" * 300_000 + b"</math>" * 300_000,
            "entities": b"&" * 1_000_000,
            "lines": ("<p>" + "<p>".join(rng.choices(words, k=6000))).encode(),
            "other-lines": ("<p>" + "<p>".join(rng.choices(words, k=6000))).encode(),
            "marks": "<p>a\u202eb</p><p>&#0;&#27;[2J\x1b\x9b</p>".encode(),
            "script": b"&lt;script&gt;alert(1)&lt;/script&gt;<p>&lt;/td&gt;",
            "digits": b"<p>&#" + b"9" * 5000 + b";a",
            "million": b"<p>&#" + b"9" * 1_000_000 + b";a",
        }
        archives.add("a.warc", [response(HOME + name, "2016-03-03T00:00:00Z", body) for name, body in self.bodies.items()])

    def of(self, name: str) -> str:
        return self.pair(*self.archives.places[HOME + name])

    def test_each_ends_in_bounded_time(self) -> None:
        for name in self.bodies:
            start = time.process_time()
            answer = self.ask("compare", first=self.of(name), second=self.of("other-lines"))
            text = text_of(answer.text)
            self.assertIn(answer.status_code, (200, 422), name)
            self.assertTrue("side by side" in text or "They need more than 3 seconds" in text, text[:300])
            self.assertLess(time.process_time() - start, 12, name)

    def test_a_character_has_a_number_of_any_length(self) -> None:
        self.assertIn("\ufffda", text_of(self.get("compare", first=self.of("digits"), second=self.of("plain"))))

    def test_texts_are_escaped(self) -> None:
        for name in ("marks", "script"):
            found = self.get("compare", first=self.of(name), second=self.of("plain"))
            self.assertNotIn("<script", found)
        found = text_of(self.get("compare", first=self.of("marks"), second=self.of("plain")))
        self.assertIn("a [U+202E] b", found)

    def test_pairs_are_checked(self) -> None:
        good = self.of("plain")
        place = good.split(" ", 1)[1]
        offsets = (f"{each} {place}" for each in ("x", "-1", ""))
        for pair in ("", "0", "a.warc", "0 2016 k a.warc", *offsets):
            self.get("compare", 400, first=pair, second=good)
        others = (good.replace("a.warc", "../a.warc"), good.replace("2016", "2017"))
        for pair in (f"1 {place}", *others):
            self.get("compare", 404, first=pair, second=good)

    def test_a_process_that_needs_too_much_is_ended(self) -> None:
        with mock.patch.object(compare_page, "SECONDS", 0.01):
            self.assertRaises(compare_page.NotShown, compare_page.run, [])

    def test_the_process_reads_what_is_written_for_it(self) -> None:
        given = io.BytesIO(json.dumps({"sizes": [1, 1], "html": [False, False]}).encode() + b"\nab")
        output = io.StringIO()
        with mock.patch("sys.stdin", mock.Mock(buffer=given)), mock.patch("sys.stdout", output), mock.patch("resource.setrlimit"):
            comparing.main()
        self.assertEqual([False, False], json.loads(output.getvalue())["cut"])


if __name__ == "__main__":
    unittest.main()
