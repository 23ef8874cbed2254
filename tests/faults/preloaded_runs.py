"""Runs of each command on the samples, by themselves, with a small C library that is preloaded, or below another program.

If the program is warcdx-gz, the samples are compressed, under the same names. fail_devices.py, fail_syscalls.py and refuse_memory.py import this file.
"""
import gzip
import os
import pathlib
import re
import shutil
import subprocess
import tempfile
from collections.abc import Mapping, Sequence
from typing import NamedTuple, Optional

from program import ROOT, stop_without, without_advice

ALL = "key=&matchType=prefix"
LINES = f"url=example.com&limit=0\n{ALL}\nkey=\xff\n\n{ALL}&output=json".encode("latin-1")
CASES = (
    ("list", "response.warc"),
    ("verify", "response.warc"),
    ("index", "response.warc", "wget.warc"),
    ("index", "--types", "metadata,resource", "response.warc", "wget.warc"),
    ("merge", "response.cdxj", "wget.cdxj"),
    ("check", "response.cdxj", "wget.cdxj"),
    ("query", f"{ALL}&is=length:264&resumeKey=a+20160101000000+a.warc+1", "response.cdxj", "wget.cdxj"),
    ("query", "url=*.example.com&output=json&filter=!mimetype:x&fl=urlkey,length", "response.cdxj"),
    ("query", f"{ALL}&collapse=urlkey&resumeKey=a+20160101000000+a.warc+1", "response.cdxj", "wget.cdxj"),
    ("query", "url=%&limit=0", "response.cdxj"),
    ("pages", "1,7", ALL, "response.cdxj", "wget.cdxj"),
    ("pages", "7", f"{ALL}&collapse=timestamp:14", "response.cdxj", "wget.cdxj"),
    ("serve", "response.cdxj", "wget.cdxj"),
    ("get", "0", "response.warc"),
    ("scan", "1,7", ALL, "response.warc", "wget.warc"),
    ("scan", "5", ALL, "response.warc", "damaged.warc"),
    ("scan", "--types", "metadata", "5", ALL, "response.warc", "wget.warc"),
    ("list", "--help"),
    ("frob",),
)

PACKED_NAME = re.compile(rb"^warcdx-gz: ", re.MULTILINE)


class Ended(NamedTuple):
    """How a run ended."""

    status: int
    output: bytes
    error: bytes


def reads_packed(program: pathlib.Path) -> bool:
    """Returns whether a program is warcdx-gz."""
    return subprocess.run((program, "--version"), stdout=subprocess.PIPE, check=True).stdout.startswith(b"warcdx-gz ")


def packed(program: pathlib.Path, archive: pathlib.Path) -> bytes:
    """Returns an archive with a member of gzip for each of its records, and one for what is behind the last one."""
    text = archive.read_bytes()
    listed = subprocess.run((program, "list", archive), stdout=subprocess.PIPE).stdout
    places = [tuple(map(int, line.split()[:2])) for line in listed.splitlines() if not line.startswith(b"fault ")]
    records = [text[offset : offset + length] for offset, length in places]
    rest = text[sum(map(len, records)) :]
    return b"".join(gzip.compress(record, mtime=0) for record in (*records, rest) if record)


class Runs:
    """Runs of the program in a folder with the samples, their indexes, and the library made of a C source of tests/faults, if one is named."""

    def __init__(self, program: pathlib.Path, source: Optional[str] = None) -> None:
        self.program = program
        self.temporary = tempfile.TemporaryDirectory()
        self.folder = pathlib.Path(self.temporary.name)
        is_packed = reads_packed(program)
        for archive in (ROOT / "samples").glob("*.warc"):
            own = self.folder / archive.name
            own.write_bytes(packed(program, archive) if is_packed else archive.read_bytes())
            index = subprocess.run((program, "index", own), stdout=subprocess.PIPE, stderr=subprocess.DEVNULL).stdout
            own.with_suffix(".cdxj").write_bytes(index)
        self.library = make_library(source, self.folder) if source else None

    def usual(self, arguments: Sequence[str]) -> Ended:
        """Runs the program without the library."""
        return self.run(arguments, {})

    def preloaded(self, arguments: Sequence[str], **more: str) -> Ended:
        return self.run(arguments, {**more, "LD_PRELOAD": str(self.library)})

    def below(self, command: Sequence[str], arguments: Sequence[str]) -> Ended:
        """Runs the program by this command."""
        return self.run(arguments, {}, command)

    def run(self, arguments: Sequence[str], more: Mapping[str, str], before: Sequence[str] = ()) -> Ended:
        command, environment = (*before, self.program, *arguments), {**os.environ, **more}
        done = subprocess.run(
            command, input=LINES, stdout=subprocess.PIPE, stderr=subprocess.PIPE, cwd=self.folder, env=environment, timeout=60
        )
        return Ended(done.returncode, done.stdout, PACKED_NAME.sub(b"warcdx: ", without_advice(done.stderr)))


def make_library(source: str, folder: pathlib.Path) -> pathlib.Path:
    """Compiles a C source of tests/faults to a library in the folder."""
    library = folder / "library.so"
    command = (c_compiler(), "-O2", "-fPIC", "-shared", "-nostdlib", "-o", library, ROOT / "tests/faults" / source)
    subprocess.run(command, check=True)
    return library


def c_compiler() -> str:
    """Returns $CC, cc, or the compiler of the Rattle kit."""
    compiler = shutil.which(os.environ.get("CC", "cc"))
    if compiler is None and shutil.which("rt"):
        kit = pathlib.Path(subprocess.run(("rt", "doc"), stdout=subprocess.PIPE, check=True, text=True).stdout.strip()).parent
        compiler = shutil.which(kit / "toolchain/bin/clang")
    return compiler or stop_without("a C compiler", "Debian's package gcc")
