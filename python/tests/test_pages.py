"""The examples of docs/PYTHON.md, and the files that the package has of the repository."""
import doctest
import os
import pathlib
import shutil
import subprocess
import unittest

import warcdx

from .support import PROGRAM, SAMPLES, Case

PYTHON = pathlib.Path(__file__).resolve().parents[1]
PAGE = PYTHON.parent / "docs/PYTHON.md"


class Pages(Case):
    def test_the_examples_print_what_the_page_says(self) -> None:
        for sample in SAMPLES.glob("*.warc"):
            shutil.copy(sample, self.folder)
        with open(self.folder / "wget.cdxj", "wb") as output:
            subprocess.run((PROGRAM, "index", self.folder / "wget.warc"), stdout=output, check=True)
        folder, path = os.getcwd(), os.environ["PATH"]
        self.addCleanup(os.chdir, folder)
        self.addCleanup(os.environ.__setitem__, "PATH", path)
        os.chdir(self.folder)
        os.environ["PATH"] = f"{self.folder}:{path}"
        os.symlink(os.path.abspath(shutil.which(PROGRAM) or PROGRAM), "warcdx")
        found = doctest.testfile(str(PAGE), module_relative=False)
        self.assertEqual(0, found.failed)
        self.assertGreater(found.attempted, 15)

    def test_licence_and_version_are_those_of_the_repository(self) -> None:
        for name in ("LICENSE", "VERSION"):
            self.assertEqual((PYTHON.parent / name).read_bytes(), (PYTHON / name).read_bytes(), name)
        self.assertEqual((PYTHON / "VERSION").read_text().strip(), warcdx.__version__)


if __name__ == "__main__":
    unittest.main()
