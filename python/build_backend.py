"""Builds the wheel and the source archive of the Python package and the gateway, with the standard library alone.

usage: python3 build_backend.py PROGRAMS LIBRARY FOLDER

`pip` calls the functions build_wheel, build_editable and build_sdist (PEP 517 and PEP 660), and needs no network for
it. As a script this file writes a wheel for Linux on x86-64 to FOLDER, and prints its name. The wheel has the programs
warcdx and warcdx-gz of the folder PROGRAMS. LIBRARY is the version of the GNU C library that they need, such as 2.34.

The gateway is in the folder `gateway` beside this one, or in this one, as in a source archive.

The same files make the same bytes. All times are SOURCE_DATE_EPOCH, or else the start of 1980.
"""
import base64
import gzip
import hashlib
import io
import os
import pathlib
import sys
import tarfile
import time
import zipfile
from collections.abc import Iterator
from typing import NamedTuple, Optional

HERE = pathlib.Path(__file__).resolve().parent
VERSION = (HERE / "VERSION").read_text().strip()
INFO = f"warcdx-{VERSION}.dist-info"
SCRIPTS = f"warcdx-{VERSION}.data/scripts"
PROGRAMS = ("warcdx", "warcdx-gz")
GATEWAY = HERE / "gateway" if (HERE / "gateway").is_dir() else HERE.parent / "gateway"
FIRST_TIME = 315_532_800  # of a zip file: 1980-01-01
METADATA = f"""\
Metadata-Version: 2.1
Name: warcdx
Version: {VERSION}
Summary: Queries over the indexes of web archives, and their records, by the programs warcdx and warcdx-gz
License: Apache-2.0
Classifier: License :: OSI Approved :: Apache Software License
Classifier: Operating System :: POSIX :: Linux
Classifier: Programming Language :: Python :: 3 :: Only
Classifier: Typing :: Typed
Requires-Python: >=3.9
Provides-Extra: gateway
Requires-Dist: gunicorn>=20.1; extra == "gateway" and python_version >= "3.11"
Requires-Dist: Werkzeug>=2.2; extra == "gateway" and python_version >= "3.11"
Requires-Dist: prometheus-client>=0.16; extra == "gateway" and python_version >= "3.11"
Requires-Dist: regex>=2022.10.31; extra == "gateway" and python_version >= "3.11"
Requires-Dist: Brotli>=1.0.9; extra == "gateway" and python_version >= "3.11"
Description-Content-Type: text/markdown

`warcdx` queries the indexes of web archives, and reads the records of WARC files. It needs Python 3.9
or later, and the programs `warcdx` and `warcdx-gz`, which a wheel for Linux on x86-64 has. Its
commands are `warcdx-cdx`, `warcdx-fetch`, `warcdx-update` and `warcdx-verify`. `warcdx-gateway` serves
indexes over HTTP. It needs Python 3.11 or later, and what `pip install 'warcdx[gateway]'` installs.

    from warcdx import Index
    for capture in Index("all.cdxj").captures(url="*.example.com", filter="statuscode:200"):
        print(capture.timestamp, capture.original)

`help(warcdx)` shows all calls, and each command prints its help with `--help`.
"""
_SETTINGS = Optional[dict[str, object]]


class File(NamedTuple):
    """A file of a wheel or of a source archive."""

    name: str
    content: bytes
    mode: int = 0o644


def build_wheel(folder: str, config_settings: _SETTINGS = None, metadata_directory: Optional[str] = None) -> str:
    """Writes the wheel of the package, without the programs, and returns its name."""
    return write_wheel(folder, "py3-none-any", [*modules(), commands()])


def build_editable(folder: str, config_settings: _SETTINGS = None, metadata_directory: Optional[str] = None) -> str:
    """Writes a wheel that makes Python read the package in this folder, and returns its name."""
    path = File("warcdx.pth", os.fsencode(f"{HERE}\n{GATEWAY}\n"))
    return write_wheel(folder, "py3-none-any", [path, commands()])


def build_sdist(folder: str, config_settings: _SETTINGS = None) -> str:
    """Writes the source archive, and returns its name."""
    names = ("LICENSE", "VERSION", "build_backend.py", "pyproject.toml")
    files = [File("PKG-INFO", metadata()), *package_modules(), *(File(name, (HERE / name).read_bytes()) for name in names)]
    files += [File(f"bin/{path.name}", path.read_bytes(), 0o755) for path in sorted((HERE / "bin").iterdir())]
    files += [file._replace(name=f"gateway/{file.name}") for file in gateway_modules()]
    files += [File(f"gateway/bin/{path.name}", path.read_bytes(), 0o755) for path in gateway_scripts()]
    root = f"warcdx-{VERSION}"
    output = io.BytesIO()
    with tarfile.open(fileobj=output, mode="w", format=tarfile.PAX_FORMAT) as archive:
        for file in sorted(files):
            member = tarfile.TarInfo(f"{root}/{file.name}")
            member.size, member.mode, member.mtime = len(file.content), file.mode, source_time()
            archive.addfile(member, io.BytesIO(file.content))
    pathlib.Path(folder, f"{root}.tar.gz").write_bytes(gzip.compress(output.getvalue(), mtime=0))
    return f"{root}.tar.gz"


def build_program_wheel(folder: str, programs: pathlib.Path, library: str) -> str:
    """Writes a wheel with the programs of a folder, which need this version of the C library, and returns its name."""
    tag = f"py3-none-manylinux_{library.replace('.', '_')}_x86_64"
    files = (File(f"{SCRIPTS}/{name}", (programs / name).read_bytes(), 0o755) for name in PROGRAMS)
    return write_wheel(folder, tag, [*modules(), commands(), *files])


def modules() -> Iterator[File]:
    yield from package_modules()
    yield from gateway_modules()


def package_modules() -> Iterator[File]:
    yield File("warcdx_start.py", (HERE / "warcdx_start.py").read_bytes())
    for path in sorted((HERE / "warcdx").iterdir()):
        if path.suffix == ".py" or path.name == "py.typed":
            yield File(f"warcdx/{path.name}", path.read_bytes())


def gateway_modules() -> Iterator[File]:
    for path in sorted((GATEWAY / "warcdx_gateway").rglob("*")):
        if path.suffix in (".py", ".css", ".svg"):
            yield File(path.relative_to(GATEWAY).as_posix(), path.read_bytes())


def gateway_scripts() -> Iterator[pathlib.Path]:
    return (GATEWAY / "bin").glob("warcdx-*")


def commands() -> File:
    """Returns the file that names the commands. `pip` writes a script for each, which may stand in a folder of any name."""
    names = sorted(path.name for path in [*(HERE / "bin").iterdir(), *gateway_scripts()])
    lines = (f"{name} = warcdx_start:{name.removeprefix('warcdx-')}\n" for name in names)
    return File(f"{INFO}/entry_points.txt", "".join(["[console_scripts]\n", *lines]).encode())


def metadata() -> bytes:
    return METADATA.encode()


def write_wheel(folder: str, tag: str, files: list[File]) -> str:
    """Writes a wheel of these files (the binary distribution format of PyPA), and returns its name."""
    is_pure = "true" if tag.endswith("-any") else "false"
    about = f"Wheel-Version: 1.0\nGenerator: warcdx\nRoot-Is-Purelib: {is_pure}\nTag: {tag}\n"
    files += [
        File(f"{INFO}/LICENSE", (HERE / "LICENSE").read_bytes()),
        File(f"{INFO}/METADATA", metadata()),
        File(f"{INFO}/WHEEL", about.encode()),
    ]
    lines = [f"{file.name},sha256={digest(file.content)},{len(file.content)}\n" for file in files]
    files.append(File(f"{INFO}/RECORD", "".join([*lines, f"{INFO}/RECORD,,\n"]).encode()))
    name = f"warcdx-{VERSION}-{tag}.whl"
    with zipfile.ZipFile(pathlib.Path(folder, name), "w", zipfile.ZIP_DEFLATED) as wheel:
        for file in files:
            member = zipfile.ZipInfo(file.name, time.gmtime(source_time())[:6])
            member.compress_type, member.create_system = zipfile.ZIP_DEFLATED, 3
            member.external_attr = (0o100000 | file.mode) << 16
            wheel.writestr(member, file.content)
    return name


def digest(content: bytes) -> str:
    return base64.urlsafe_b64encode(hashlib.sha256(content).digest()).rstrip(b"=").decode()


def source_time() -> int:
    return max(int(os.environ.get("SOURCE_DATE_EPOCH", FIRST_TIME)), FIRST_TIME)


if __name__ == "__main__":
    if len(sys.argv) != 4:
        sys.exit("usage: python3 build_backend.py PROGRAMS LIBRARY FOLDER")
    print(build_program_wheel(sys.argv[3], pathlib.Path(sys.argv[1]), sys.argv[2]))
