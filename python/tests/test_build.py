"""The wheel and the source archive of the package, and their installation without a network."""
import base64
import csv
import hashlib
import importlib.util
import os
import pathlib
import subprocess
import sys
import tarfile
import unittest
import zipfile

import build_backend
from warcdx.program import Path

from .support import Case

PYTHON = pathlib.Path(__file__).resolve().parents[1]
VERSION = (PYTHON / "VERSION").read_text().strip()
GATEWAY = PYTHON.parent / "gateway"
COMMANDS = sorted([*(path.name for path in (PYTHON / "bin").iterdir()), "warcdx-gateway"])
MODULES = sorted(path.name for path in (PYTHON / "warcdx").glob("*.py"))
HAS_VENV = importlib.util.find_spec("ensurepip") is not None


class Build(Case):
    def wheel(self) -> zipfile.ZipFile:
        wheel = zipfile.ZipFile(self.folder / build_backend.build_wheel(str(self.folder)))
        self.addCleanup(wheel.close)
        return wheel

    def test_the_record_of_a_wheel_has_each_file(self) -> None:
        wheel = self.wheel()
        rows = list(csv.reader(wheel.read(f"warcdx-{VERSION}.dist-info/RECORD").decode().splitlines()))
        self.assertEqual(sorted(wheel.namelist()), sorted(name for name, _, _ in rows))
        for name, digest, size in rows[:-1]:
            content = wheel.read(name)
            found = base64.urlsafe_b64encode(hashlib.sha256(content).digest()).decode().rstrip("=")
            self.assertEqual((f"sha256={found}", str(len(content))), (digest, size))

    def test_the_files_of_a_wheel(self) -> None:
        wheel = self.wheel()
        modules = sorted(name for name in wheel.namelist() if name.startswith("warcdx/") or name == "warcdx_start.py")
        self.assertEqual(sorted([*(f"warcdx/{name}" for name in MODULES), "warcdx/py.typed", "warcdx_start.py"]), modules)
        wanted = {path.relative_to(GATEWAY).as_posix() for path in (GATEWAY / "warcdx_gateway").rglob("*.*") if path.suffix != ".pyc"}
        self.assertEqual(wanted, {name for name in wheel.namelist() if name.startswith("warcdx_gateway/")})
        commands = wheel.read(f"warcdx-{VERSION}.dist-info/entry_points.txt").decode().splitlines()
        self.assertEqual(["[console_scripts]", *(f"{name} = warcdx_start:{name[7:]}" for name in COMMANDS)], commands)
        self.assertEqual(0o644, wheel.getinfo("warcdx/index.py").external_attr >> 16 & 0o777)

    def test_the_packages_of_the_gateway_are_those_of_an_extra(self) -> None:
        lines = build_backend.metadata().decode().splitlines()
        needed = [line.split(": ", 1)[1] for line in lines if line.startswith("Requires-Dist: ")]
        self.assertEqual({'extra == "gateway" and python_version >= "3.11"'}, {line.split("; ", 1)[1] for line in needed})
        self.assertIn("Provides-Extra: gateway", lines)

    def test_a_wheel_with_the_programs_names_the_c_library(self) -> None:
        programs = ("warcdx", "warcdx-gz")
        for program in programs:
            self.put(f"the program {program}", program)
        name = build_backend.build_program_wheel(str(self.folder), self.folder, "2.34")
        self.assertEqual(f"warcdx-{VERSION}-py3-none-manylinux_2_34_x86_64.whl", name)
        with zipfile.ZipFile(self.folder / name) as wheel:
            for program in programs:
                script = f"warcdx-{VERSION}.data/scripts/{program}"
                self.assertEqual(f"the program {program}", wheel.read(script).decode())
                self.assertEqual(0o755, wheel.getinfo(script).external_attr >> 16 & 0o777)
            self.assertIn(b"Tag: py3-none-manylinux_2_34_x86_64\n", wheel.read(f"warcdx-{VERSION}.dist-info/WHEEL"))

    def test_the_same_files_make_the_same_bytes(self) -> None:
        made = []
        for umask in (0o022, 0o077):
            before = os.umask(umask)
            try:
                names = (build_backend.build_wheel(str(self.folder)), build_backend.build_sdist(str(self.folder)))
            finally:
                os.umask(before)
            made.append([(self.folder / name).read_bytes() for name in names])
        self.assertEqual(made[0], made[1])

    def test_a_source_archive_makes_the_same_wheel(self) -> None:
        with tarfile.open(self.folder / build_backend.build_sdist(str(self.folder))) as archive:
            archive.extractall(self.folder)
        (self.folder / "again").mkdir()
        build = "import sys, build_backend; print(build_backend.build_wheel(sys.argv[1]))"
        source = self.folder / f"warcdx-{VERSION}"
        command = (sys.executable, "-c", build, self.folder / "again")
        subprocess.run(command, cwd=source, check=True, stdout=subprocess.DEVNULL)
        name = build_backend.build_wheel(str(self.folder))
        self.assertEqual((self.folder / name).read_bytes(), (self.folder / "again" / name).read_bytes())

    @unittest.skipUnless(HAS_VENV, "ensurepip is missing (Debian's package python3-venv)")
    def test_pip_needs_no_network(self) -> None:
        """The path of the environment may have blanks and many letters, which the first line of a script can't have."""
        environment = self.folder / "an environment" / ("long" * 30)
        subprocess.run((sys.executable, "-m", "venv", environment), check=True)
        show = "import warcdx; print(warcdx.__version__, warcdx.__file__)"
        for options, place in (((), environment), (("--editable",), PYTHON)):
            words = ("--no-index", "--quiet", "--force-reinstall", *options, PYTHON)
            command = (environment / "bin/pip", "install", *words)
            subprocess.run(command, check=True, env={**os.environ, "PIP_DISABLE_PIP_VERSION_CHECK": "1"})
            found = self.output_of(environment / "bin/python", "-c", show)
            self.assertEqual(VERSION, found.split()[0])
            self.assertIn(str(place), found)
            for name in COMMANDS:
                self.assertIn(f"usage: {name}", self.output_of(environment / "bin" / name, "--help"))

    def output_of(self, *command: Path) -> str:
        return subprocess.run(command, cwd=self.folder, stdout=subprocess.PIPE, text=True, check=True).stdout


if __name__ == "__main__":
    unittest.main()
