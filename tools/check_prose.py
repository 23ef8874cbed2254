#!/usr/bin/env python3
"""Checks the English of the pages, of the help and of the docstrings by the rules of CONTRIBUTING.md.

usage: check_prose.py [--list] [PAGE..]

- The pages for users, and the manual pages of the Python commands, contain no word of this house for
  which web archives have another, and no word that stands for a thing that can be named.
- In a page, a line has at most 100 columns, if it isn't code, a row of a table or a link.
- The pages, the texts of help, the docstrings of the crates, and the scripts contain none of the
  phrases that CONTRIBUTING.md replaces.

How long a sentence is, nobody counts but its reader. A comment `<!-- prose: REASON -->` on a line of
its own excuses the block of lines that follows it.

Without PAGE these are all pages of the repository. Prints a line for each file, and the counts. With
--list it prints each sentence with its number of words instead, and then the mean of those that have
four words or more. The exit status is 0, or 1 if a file breaks a rule.
"""
import re
import sys
from collections.abc import Iterator
from pathlib import Path
from typing import NamedTuple

sys.path.insert(0, str(Path(__file__).resolve().parents[1] / "tests"))

from check_links import pages_of
from program import ROOT, Report, parser_of

FOLDERS = ("bench", "examples", "gateway", "python", "tests", "tools")  # with scripts
MOST_COLUMNS = 100  # of a line
FEWEST_WORDS = 4  # of a sentence that counts for the mean

PHRASES = re.compile(
    r"\b(?:(?:is|are|was|were|be|been) asked for|asks? for by|so many|tells"
    r"|(?:is|are) looked at|(?:is|are) gone through|is of no use|no good|by chance)\b",
    re.IGNORECASE,
)
# Pages that use the words of the code. The gateway's are to come.
OTHER_PAGES = (
    "CONTRIBUTING.md", "bench/README.md", "bench/RESULTS.md", "docs/developers/ARCHITECTURE.md", "docs/proof/CONTRACTS.md", "docs/developers/DECISIONS.md", "docs/developers/LIBRARY.md",
    "docs/proof/PROVED.md", "docs/proof/STATEMENT.md", "docs/proof/TRUST.md", "gateway/BROWSE.md", "gateway/README.md",
)  # fmt: skip
HOUSE_WORDS = re.compile(r"\b(?:stamps?|heads?|stands?|(?:that|those) of|as for|all else)\b", re.IGNORECASE)

FENCE = re.compile(r"\s*(```|~~~)")
INDENTED = re.compile(r"(?: {4}|\t)")
BULLET = re.compile(r"\s*(?:[-*]|\d{1,2}\.)\s+")
HEADING = re.compile(r"#{1,6}\s+")
TABLE_RULE = re.compile(r"\|[-:|\s]+\|?$")
EXCUSE = re.compile(r"<!-- prose: \S.* -->$")
COMMENT = re.compile(r"<!--.*?-->", re.DOTALL)
LINK = re.compile(r"!?\[([^\]]*)\](?:\([^)]*\)|\[[^\]]*\])")
CODE = re.compile(r"(`+)(?!`).*?(?<!`)\1(?!`)", re.DOTALL)
URL = re.compile(r"<?https?://\S+")
EMPHASIS = re.compile(r"\*{1,2}|(?<!\w)_|_(?!\w)")
SENTENCE_END = re.compile(r"(?<=[.!?])[\"')]*\s+(?=[\"'(]*\w)|(?<=[.!?:])[\"')]*$")
ITEM_END = re.compile(r";\s+")
NAMES = re.compile(r"CODE(?:(?:,| and| or|, and|, or)? CODE)+")
ABBREVIATION = re.compile(r"\b(?:e\.g|i\.e|cf|etc|vs)\.")
ROFF_TEXT = re.compile(r"\.(?:B|I|BR|BI|IR|IB|RB|RI|SB|SM)\s+(.*)")
ROFF_ESCAPE = re.compile(r"\\(?:f.|&|\(..|\[[^\]]*\]|-)")
DOCSTRING = re.compile(r"\s*//[/!]\s?(.*)")


class Block(NamedTuple):
    """Lines that make one text: a paragraph, an item of a list or a cell of a table."""

    line: int
    text: str
    is_item: bool = False  # of a list or a table, whose parts `;` separates


def markdown_blocks(lines: list[str]) -> Iterator[Block]:
    """Yields the blocks of a page without its code and without what is excused."""
    fence, first, words, is_item, excused = None, 0, [], False, False

    def ended() -> Iterator[Block]:
        nonlocal words, is_item, excused
        if words and not excused:
            yield Block(first, " ".join(words), is_item)
        if words:
            excused = False
        words, is_item = [], False

    for number, line in enumerate(lines, 1):
        if fence:
            fence = None if line.strip().startswith(fence) else fence
        elif found := FENCE.match(line):
            yield from ended()
            fence = found[1]
        elif EXCUSE.match(line.strip()):
            yield from ended()
            excused = True
        elif not line.strip():
            yield from ended()
        elif line.startswith("|"):
            yield from ended()
            if not TABLE_RULE.match(line):
                yield from (Block(number, cell.strip(), True) for cell in cells_of(line) if cell.strip())
        elif HEADING.match(line):
            yield from ended()
        elif INDENTED.match(line) and not words:
            continue
        elif found := BULLET.match(line):
            yield from ended()
            first, words, is_item = number, [line[found.end() :].strip()], True
        else:
            first = first if words else number
            words.append(line.strip())
    yield from ended()


def cells_of(row: str) -> list[str]:
    return re.split(r"(?<!\\)\|", row.strip().strip("|"))


def manual_blocks(lines: list[str]) -> Iterator[Block]:
    """Yields the paragraphs of a manual page without its examples."""
    first, words, is_example = 0, [], False
    for number, line in enumerate([*lines, ".PP"], 1):
        if line.startswith((".EX", ".nf")):
            is_example = True
        if (line.startswith(".") and not ROFF_TEXT.match(line)) or not line.strip():
            if words:
                yield Block(first, " ".join(words))
            words = []
        elif not is_example:
            text = ROFF_TEXT.match(line)
            first = first if words else number
            words.append(ROFF_ESCAPE.sub("", text[1] if text else line).strip())
        if line.startswith((".EE", ".fi")):
            is_example = False


def sentences_of(block: Block) -> Iterator[str]:
    """Yields the sentences of a block. A list of names in code counts as one word, and a link as its text."""
    text = CODE.sub(" CODE ", COMMENT.sub(" ", block.text))
    text = URL.sub("ADDRESS", EMPHASIS.sub("", LINK.sub(r"\1", text)))
    text = ABBREVIATION.sub("ABBREVIATION", re.sub(r"\s+", " ", text)).strip()
    text = re.sub(r"\s+([.,;:!?)])", r"\1", text)
    text = NAMES.sub("CODE", text)
    for part in ITEM_END.split(text) if block.is_item else [text]:
        yield from (sentence.strip() for sentence in SENTENCE_END.split(part) if sentence.strip())


def words_of(sentence: str) -> int:
    return sum(1 for word in sentence.split() if re.search(r"\w", word))


def is_wide(line: str) -> bool:
    """Tests whether a line of text is too wide, and could be shorter."""
    return len(line) > MOST_COLUMNS and not line.startswith(("|", "![")) and " " in line[MOST_COLUMNS // 2 :]


def is_for_users(page: Path) -> bool:
    """Tests whether a page has the words of web archives alone."""
    return page not in (ROOT / name for name in OTHER_PAGES)


def page_faults(page: Path) -> Iterator[str]:
    """Yields what is wrong in a page or in a manual page."""
    lines = page.read_text().splitlines()
    for block in blocks_of(page, lines):
        for sentence in sentences_of(block):
            for found in filter(None, (PHRASES.search(sentence), is_for_users(page) and HOUSE_WORDS.search(sentence))):
                yield f"line {block.line}: {found[0]!r}: {sentence}"
    if page.suffix == ".md":
        yield from (f"line {number}: {len(line)} columns" for number, line in text_lines(lines) if is_wide(line))


def blocks_of(page: Path, lines: list[str]) -> Iterator[Block]:
    return markdown_blocks(lines) if page.suffix == ".md" else manual_blocks(lines)


def text_lines(lines: list[str]) -> Iterator[tuple[int, str]]:
    """Yields the lines of a page that aren't code."""
    fence = None
    for number, line in enumerate(lines, 1):
        found = FENCE.match(line)
        if fence:
            fence = None if line.strip().startswith(fence) else fence
        elif found:
            fence = found[1]
        elif not INDENTED.match(line):
            yield number, line


def source_faults(source: Path) -> Iterator[str]:
    """Yields the phrases in the docstrings of a crate's file, and in all lines of a script or of help."""
    is_code = source.suffix == ".rt" and "help" not in source.parts and source.stem != "help"
    for number, line in enumerate(source.read_text().splitlines(), 1):
        found = DOCSTRING.match(line)
        text = found[1] if found else "" if is_code else line
        if phrase := PHRASES.search(text):
            yield f"line {number}: {phrase[0]!r}: {text.strip()}"


def sources() -> list[Path]:
    """Returns the sources of the crates and the scripts, without this one."""
    patterns = ("crates/*/src/**/*.rt", *(f"{folder}/**/*.{ending}" for folder in FOLDERS for ending in ("py", "sh")))
    found = (source for pattern in patterns for source in ROOT.glob(pattern))
    return sorted(source for source in found if source != Path(__file__).resolve())


def list_sentences(pages: list[Path]) -> None:
    counts = []
    for page in pages:
        for block in blocks_of(page, page.read_text().splitlines()):
            for sentence in sentences_of(block):
                counts.append(words_of(sentence))
                print(f"{page.name}:{block.line}: {counts[-1]}: {sentence}")
    long = [count for count in counts if count >= FEWEST_WORDS]
    print(f"mean: {sum(long) / max(len(long), 1):.1f} words in {len(long)} sentences")


def main() -> int:
    parser = parser_of(__doc__)
    parser.add_argument("--list", action="store_true", help="print the sentences")
    parser.add_argument("pages", metavar="PAGE", nargs="*", type=Path)
    arguments = parser.parse_args()
    pages = [page.resolve() for page in arguments.pages] or [*pages_of(ROOT), *sorted(ROOT.glob("docs/*.1"))]
    if arguments.list:
        list_sentences(pages)
        return 0
    report = Report()
    for file in [*pages, *([] if arguments.pages else sources())]:
        name = file.relative_to(ROOT) if file.is_relative_to(ROOT) else file
        is_page = file.suffix in (".md", ".1")
        faults = list(page_faults(file) if is_page else source_faults(file))
        for fault in faults:
            report.add_difference(str(name), fault)
        if is_page and not faults:
            report.add_ok(str(name))
    return report.end()


if __name__ == "__main__":
    sys.exit(main())
