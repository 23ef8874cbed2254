"""What the tests of checks share: indexes that aren't in order, and programs whose checks are seen."""
import os
import pathlib
import random

from .support import WAIT, Case, Server, lines

PAGES = 12
# Rules of a program, whose checks are noted in the file `checks`.
NOTE = '[ "$1" != check ] || echo $(($# - 1)) >> checks'
HOLD = '[ "$1" != check ] || while [ -e hold ]; do sleep 0.02; done'


def disorders() -> dict[str, str]:
    """Returns texts with the same lines, which are in order in none."""
    found = lines(PAGES).splitlines(keepends=True)
    shuffled = found[:]
    random.Random(1).shuffle(shuffled)
    texts = {
        "reversed": found[::-1],
        "shuffled": shuffled,
        "joined by cat": found[::2] + found[1::2],
        "as they were crawled": [found[7 * number % PAGES] for number in range(PAGES)],
        "the last two lines": [*found[:-2], *found[:-3:-1]],
    }
    return {name: "".join(each) for name, each in texts.items()}


class Checked(Case):
    def replace(self, text: str, name: str = "index") -> None:
        os.replace(self.put(text, "new"), self.folder / name)

    def write_in_place(self, text: str) -> None:
        with open(self.folder / "index", "r+") as file:
            file.write(text)
            file.truncate()

    def failed(self, server: Server) -> float:
        return server.metric('index_renewals_total{collection="main",result="failed"}')

    def wait_for_failure(self, server: Server, number: int = 1) -> None:
        self.wait_for(lambda: self.failed(server) == number, f"{server.said.read_text()}")

    def checks(self) -> list[str]:
        """Returns how many files each check that has begun was to read."""
        path = self.folder / "checks"
        return path.read_text().split() if path.exists() else []

    def noted(self, *rules: str) -> pathlib.Path:
        return self.program(f"cd '{self.folder}' || exit", NOTE, *rules)

    def ask_pages(self, server: Server) -> list[str]:
        """Asks for each page of the sample once, and returns what is no right answer."""
        wrong = []
        for number in range(PAGES):
            found = server.ask(f"/cdx?url=example.com/{number:07}&fl=length")
            if (found.status, found.text) != (200, f"{number + 1}\n"):
                wrong.append(f"{found.status} {found.text}")
        return wrong

    def refused_start(self, *arguments: str, status: int = 1) -> str:
        """Returns what a gateway says that doesn't start."""
        server = self.run_command("--port", "0", "--workers", "2", *arguments)
        self.assertEqual(status, server.process.wait(WAIT))
        self.assertEqual("", server.url)
        said = server.said.read_text()
        self.assertEqual(1, said.count("\n"), said)
        server.said.unlink()
        return said
