#!/usr/bin/env python3
"""Prints the path of a program that the tests run.

usage: program.py [--gz] [PROGRAM]

Without PROGRAM it is the program of this repository, crates/warcdx/out/warcdx, which is built first if it is missing or older than a source.
With --gz it is the program for compressed archives: warcdx-gz in the folder of PROGRAM, or else that of this repository, which is built likewise.
Other scripts import this file for what all of them share: their arguments, the program, and the lines that they print.
"""
import argparse
import os
import pathlib
import shutil
import subprocess
import sys
from typing import NoReturn, Optional

ROOT = pathlib.Path(__file__).resolve().parents[1]
BUILT = ROOT / "crates/warcdx/out/warcdx"
BUILT_GZ = ROOT / "crates/warcdx_gz/out/warcdx_gz"
PLAIN, PACKED = "warcdx", "warcdx-gz"
BOTH = ROOT / "tests/out/both"  # a folder with copies of both
LINKS = ROOT / "tests/out/bin"  # a folder with a link of that name
USAGE = 2  # the exit status after a usage error
MISSING = 77  # the exit status if a package is missing, as in GNU Automake


def parser_of(header: Optional[str]) -> argparse.ArgumentParser:
    """Returns a parser whose help begins with the header of the script, which has the usage line."""
    return argparse.ArgumentParser(usage=argparse.SUPPRESS, description=header, formatter_class=argparse.RawDescriptionHelpFormatter)


def add_program(parser: argparse.ArgumentParser) -> None:
    """Adds the argument PROGRAM, which is None if it isn't given."""
    parser.add_argument("program", metavar="PROGRAM", nargs="?", help="default: the program of this repository, built if necessary")


def find_program(name: Optional[str], built: pathlib.Path = BUILT) -> pathlib.Path:
    """Returns the program of this name, or one of this repository, which is built if necessary."""
    if name is None:
        if not is_current(built):
            build(built)
        return built
    path = shutil.which(os.path.abspath(name))
    if path is None:
        print(f"{name}: not a program", file=sys.stderr)
        sys.exit(USAGE)
    return pathlib.Path(path).resolve()


def find_packed_program(program: pathlib.Path) -> pathlib.Path:
    """Returns warcdx-gz in the folder of a program, or else that of this repository, which is built if necessary.

    The latter is on the PATH then, where the commands that are Python find it.
    """
    beside = program.with_name(PACKED)
    if os.access(beside, os.X_OK):
        return beside
    link = link_to(find_program(None, BUILT_GZ))
    if str(LINKS) not in os.environ["PATH"].split(":"):
        os.environ["PATH"] = f"{LINKS}:{os.environ['PATH']}"
    return link


def in_one_folder(program: pathlib.Path, packed: pathlib.Path) -> pathlib.Path:
    """Returns the program in a folder that has warcdx-gz too: its own, or else one with copies of both."""
    if packed.parent == program.parent:
        return program
    BOTH.mkdir(parents=True, exist_ok=True)
    for source, name in ((program, PLAIN), (packed, PACKED)):
        new = BOTH / f"{name}.{os.getpid()}"
        shutil.copy2(source, new)
        new.replace(BOTH / name)
    return BOTH / PLAIN


def link_to(built: pathlib.Path) -> pathlib.Path:
    """Returns a link to the program for compressed archives that has its name. Other scripts may make the same one."""
    LINKS.mkdir(parents=True, exist_ok=True)
    link = LINKS / PACKED
    if os.path.realpath(link) != os.path.realpath(built):
        new = LINKS / f"{PACKED}.{os.getpid()}"
        new.symlink_to(built)
        new.replace(link)
    return link


def build(built: pathlib.Path) -> None:
    """Builds a program of this repository. If that fails, the script ends with the status of the build, which has said why."""
    words = [ROOT / "warcdx", "--help"] if built == BUILT else [ROOT / "tools/build.py", built.name]
    status = subprocess.run(words, stdout=subprocess.DEVNULL if built == BUILT else None).returncode
    if status:
        print("name a PROGRAM, such as the one of a release, to test it without a build", file=sys.stderr)
        sys.exit(status if status > 0 else 1)


def is_current(built: pathlib.Path = BUILT) -> bool:
    """Returns whether a program of this repository is newer than all of its sources."""
    sources = [ROOT / "crates.txt"]
    for folder in ("src", "specs", "proofs"):
        sources += ROOT.glob(f"crates/*/{folder}/**/*")
    return os.access(built, os.X_OK) and built.stat().st_mtime > max(source.stat().st_mtime for source in sources)


def without_advice(error: bytes) -> bytes:
    """Returns what the program said on standard error without the second lines of messages, which begin with two spaces."""
    return b"".join(line for line in error.splitlines(keepends=True) if not line.startswith(b"  "))


def need(*commands: str) -> None:
    """Ends the script if a command is missing. Each is given as NAME, or as NAME:PACKAGE if Debian's package has another name."""
    for command in commands:
        name, _, package = command.partition(":")
        if shutil.which(name) is None:
            stop_without(name, f"Debian's package {package or name}")


def stop_without(name: str, source: str) -> NoReturn:
    """Ends the script because something is missing, and says where it comes from."""
    print(f"{os.path.basename(sys.argv[0])}: {name} is missing ({source})", file=sys.stderr)
    sys.exit(MISSING)


class Report:
    """The lines that a script prints: one for each case, and the counts."""

    def __init__(self) -> None:
        self.ok = 0
        self.differing = 0

    def add_ok(self, case: str) -> None:
        self.ok += 1
        print(f"ok       {case}", flush=True)

    def add_difference(self, case: str, what: object) -> None:
        self.differing += 1
        print(f"DIFFERS  {case}: {what}", flush=True)

    def end(self) -> int:
        """Prints the counts, and returns the exit status of the script."""
        print(f"{self.ok} ok, {self.differing} differ")
        return 1 if self.differing else 0


def main() -> None:
    parser = parser_of(__doc__)
    parser.add_argument("--gz", action="store_true", help="the program for compressed archives")
    add_program(parser)
    given = parser.parse_args()
    program = find_program(given.program)
    print(find_packed_program(program) if given.gz else program)


if __name__ == "__main__":
    main()
