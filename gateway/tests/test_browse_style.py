"""The colours of the pages, as WCAG 2.1 measures their contrast (sections 1.4.3 and 1.4.11)."""
import pathlib
import re
import unittest

from . import browse_support as support

STYLE = pathlib.Path(support.GATEWAY, "warcdx_gateway/browse/style.css")
LEAST_OF_TEXT, LEAST_OF_SHAPE = 4.5, 3.0
LEAST_BETWEEN = 1.5  # of a shade of days and the next one
SHADES = ("day1", "day2", "day3", "day4")
TEXTS = (
    *((f"{each}-text", each) for each in SHADES),
    *((each, ground) for each in ("text", "faint", "link") for ground in ("page", "card")),
    ("text", "chosen"),
    ("button-text", "button"),
    ("good", "card"),
    ("bad", "card"),
    *(("text", each) for each in ("removed", "removed-word", "added", "added-word")),
)
SHAPES = (*((each, "card") for each in (*SHADES, "bar", "focus")), ("bar", "chosen"), ("faint", "page"))


def colours() -> list[dict[str, str]]:
    """Returns the named colours for light and for dark."""
    light, dark = re.findall(r":root \{(.*?)\}", STYLE.read_text(), re.DOTALL)
    named = [dict(re.findall(r"--([a-z0-9-]+): (#[0-9a-f]{6});", each)) for each in (light, dark)]
    return [named[0], {**named[0], **named[1]}]


def luminance(colour: str) -> float:
    """Returns the relative luminance, by the definition of WCAG."""
    parts = (int(colour[at : at + 2], 16) / 255 for at in (1, 3, 5))
    red, green, blue = (each / 12.92 if each <= 0.03928 else ((each + 0.055) / 1.055) ** 2.4 for each in parts)
    return 0.2126 * red + 0.7152 * green + 0.0722 * blue


def contrast(first: str, second: str) -> float:
    darker, lighter = sorted(map(luminance, (first, second)))
    return (lighter + 0.05) / (darker + 0.05)


class Contrast(unittest.TestCase):
    def test_the_measure_is_that_of_the_standard(self) -> None:
        self.assertAlmostEqual(21, contrast("#000000", "#ffffff"))
        self.assertAlmostEqual(1, contrast("#123456", "#123456"))
        self.assertAlmostEqual(4.54, contrast("#767676", "#ffffff"), 2)

    def test_texts_and_shapes_can_be_seen(self) -> None:
        for named in colours():
            for pairs, least in ((TEXTS, LEAST_OF_TEXT), (SHAPES, LEAST_OF_SHAPE)):
                for front, ground in pairs:
                    found = contrast(named[front], named[ground])
                    self.assertGreaterEqual(found, least, (front, ground, named[front]))

    def test_shades_of_days_differ(self) -> None:
        for named in colours():
            for first, second in zip(SHADES, SHADES[1:]):
                self.assertGreaterEqual(contrast(named[first], named[second]), LEAST_BETWEEN)

    def test_no_text_is_made_paler(self) -> None:
        self.assertNotIn("opacity", STYLE.read_text())


if __name__ == "__main__":
    unittest.main()
