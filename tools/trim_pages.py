#!/usr/bin/env python3
"""Takes the links to what a release leaves out of its pages.

usage: trim_pages.py FOLDER PLACE..

A release has the pages for users, and not those for developers. Each PLACE is a file or a folder of
the repository, such as `bench`. A link of a page in FOLDER to a file there becomes its words, unless
FOLDER has the file. All other links stay, so that tools/check_links.py finds those that lead nowhere.
"""
import re
import sys
from pathlib import Path
from urllib.parse import unquote

sys.path.insert(0, str(Path(__file__).resolve().parents[1] / "tests"))

from check_links import pages_of
from program import parser_of

CODE_OR_LINK = re.compile(
    r"^(?P<fence>```|~~~).*?^(?P=fence)|^(?: {4}|\t).*?$|(?P<ticks>`+)(?!`).*?(?<!`)(?P=ticks)(?!`)"
    r"|!?\[(?P<words>[^\[\]]*)\]\((?P<target>[^\s()]+)\)",
    re.DOTALL | re.MULTILINE,
)


def trimmed(page: Path, folder: Path, places: list[Path]) -> str:
    """Returns the text of a page without its links to places that the folder hasn't."""

    def kept(found: re.Match[str]) -> str:
        if found["target"] is None:
            return found[0]
        file = (page.parent / unquote(found["target"].partition("#")[0])).resolve()
        is_left_out = not file.exists() and any(file.is_relative_to(folder / place) for place in places)
        return found["words"] if is_left_out else found[0]

    return CODE_OR_LINK.sub(kept, page.read_text())


def main() -> int:
    parser = parser_of(__doc__)
    parser.add_argument("folder", metavar="FOLDER", type=Path)
    parser.add_argument("places", metavar="PLACE", nargs="+", type=Path)
    arguments = parser.parse_args()
    folder = arguments.folder.resolve()
    for page in pages_of(folder):
        page.write_text(trimmed(page, folder, arguments.places))
    return 0


if __name__ == "__main__":
    sys.exit(main())
