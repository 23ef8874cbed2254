"""File names in locales whose encoding isn't UTF-8: they are the program's, which knows UTF-8 alone."""
import os
import pathlib
import shutil
import subprocess
import sys
import tempfile
import unittest
from typing import ClassVar

from .support import PROGRAM, WAIT, Case, lines, packed, resource

FOLDER = pathlib.Path(__file__).resolve().parents[1]
NAME = "\u00e9\u65e5.warc.gz"
LOCALES = {"latin": ("de_DE", "ISO-8859-1"), "euc": ("ja_JP", "EUC-JP")}


@unittest.skipUnless(shutil.which("localedef") and os.path.exists("/usr/share/i18n/locales/ja_JP"), "no locales can be made")
class Locales(Case):
    made: ClassVar[pathlib.Path]

    @classmethod
    def setUpClass(cls) -> None:
        folder = tempfile.TemporaryDirectory()
        cls.addClassCleanup(folder.cleanup)
        cls.made = pathlib.Path(folder.name)
        for name, (source, encoding) in LOCALES.items():
            command = ("localedef", "--force", "-i", source, "-f", encoding, str(cls.made / name))
            subprocess.run(command, stdout=subprocess.DEVNULL, stderr=subprocess.DEVNULL)

    def setUp(self) -> None:
        super().setUp()
        (self.folder / NAME).write_bytes(b"".join(packed(resource(0), resource(1))))
        (self.folder / "\u00e9.warc").write_bytes(resource(0) + resource(1)[:-7])
        self.put(lines(3), "\u00fc.cdxj")
        self.put("x\n", "\u00fc.cdx")

    def environment(self, locale: str) -> "dict[str, str]":
        others = {name: value for name, value in os.environ.items() if not name.startswith(("LC_", "LANG", "PYTHONUTF8"))}
        return {**others, "LC_ALL": locale, "LOCPATH": str(self.made), "PYTHONCOERCECLOCALE": "0"}

    def ended(self, locale: str, *command: "str | bytes | os.PathLike[str]") -> "tuple[int, bytes, bytes]":
        done = subprocess.run(command, cwd=self.folder, env=self.environment(locale), capture_output=True, timeout=WAIT)
        return done.returncode, done.stdout, done.stderr

    def test_the_locales_have_other_encodings(self) -> None:
        for locale, (_, encoding) in LOCALES.items():
            shown = self.ended(locale, sys.executable, "-c", "import sys; print(sys.getfilesystemencoding())")
            self.assertEqual(encoding.lower().replace("-", ""), shown[1].decode().strip().replace("-", "").replace("_", ""))

    def test_what_a_command_prints_is_the_same_in_each_locale(self) -> None:
        for name, *words in (
            ("warcdx-verify", NAME, "\u00e9.warc"),
            ("warcdx-verify", "--jobs", "2", NAME, "\u00e9.warc", "nosuch-\u00e9"),
            ("warcdx-cdx", "to", "\u00fc.cdxj"),
            ("warcdx-cdx", "to", "\u00fc.cdx"),
            ("warcdx-cdx", "from", "\u00fc.cdx", "nosuch-\u00e9"),
            ("warcdx-verify", "nosuch-\u00e9\n"),
            ("warcdx-verify", "--nosuch-\u00e9"),
        ):
            command = (FOLDER / "bin" / name, "--program", PROGRAM, *words)
            usual = self.ended("C.UTF-8", *command)
            for locale in LOCALES:
                self.assertEqual(usual, self.ended(locale, *command), (locale, command))
            if words == [NAME, "\u00e9.warc"]:
                self.assertEqual(1, usual[1].count(f"{NAME}:\n".encode()))
                for locale in (*LOCALES, "C", "POSIX"):
                    self.assertEqual(usual, self.ended(locale, sys.executable, *command), locale)

    def test_an_argument_that_is_not_utf_8_is_a_usage_error(self) -> None:
        for locale in ("C.UTF-8", *LOCALES):
            found = self.ended(locale, FOLDER / "bin/warcdx-verify", "--jobs=1", b"\xe9.warc")
            self.assertEqual(
                (2, b"", b"warcdx-verify: error: argument 2 isn't UTF-8; 'warcdx-verify --help' has the arguments\n"), found, locale
            )

    def test_the_package_in_a_process_of_such_a_locale(self) -> None:
        text = (
            "import io, sys\nimport warcdx\n"
            "program, path, folder, index = sys.argv[1:]\n"
            "out = io.BytesIO()\n"
            "warcdx.CompressedArchive(path, program=program).index(out)\n"
            "sys.stdout.buffer.write(out.getvalue())\n"
            "open(index, 'wb').write(out.getvalue())\n"
            "with warcdx.Collection(index, folder, program=program) as collection:\n"
            "    for capture in collection.index.captures('key=&matchType=prefix'):\n"
            "        sys.stdout.buffer.write(collection.record(capture).block)\n"
            "try:\n"
            "    warcdx.Archive('\\udcc3\\udca9\\udcff', program=program).get(0)\n"
            "except warcdx.Error as error:\n"
            "    print(type(error).__name__, flush=True)\n"
            "try:\n"
            "    list(warcdx.Archive(folder + '/nosuch-' + path, program=program).list())\n"
            "except warcdx.Fault as fault:\n"
            "    print(fault.file == folder + '/nosuch-' + path)\n"
        )
        wanted = None
        for locale in ("C.UTF-8", "latin"):  # Python can't write each name in EUC that it reads
            environment = {**self.environment(locale), "PYTHONPATH": str(FOLDER)}
            command = (sys.executable, "-c", text, PROGRAM, NAME, ".", "index")
            done = subprocess.run(command, cwd=self.folder, env=environment, capture_output=True, timeout=WAIT)
            self.assertEqual((0, b""), (done.returncode, done.stderr))
            wanted = wanted or done.stdout
            self.assertEqual(wanted, done.stdout, locale)
            self.assertIn(f'"filename": "{NAME}"'.encode(), done.stdout)
            self.assertTrue(done.stdout.endswith(b"blockblockProgramEnded\nTrue\n"), done.stdout)

    def test_a_name_that_is_not_utf_8_has_no_index(self) -> None:
        path = os.fsencode(self.folder) + b"/\xff.warc.gz"
        with open(path, "wb") as file:
            file.write(packed(resource(0))[0])
        code = (
            "import io, sys, warcdx\n"
            "try:\n    warcdx.CompressedArchive(sys.argv[2], program=sys.argv[1]).index(io.BytesIO(), name=sys.argv[3] or None)\n"
            "except warcdx.Error as error:\n    print(getattr(error, 'name', type(error).__name__))\n"
        )
        for name, wanted in ((b"", b"ProgramEnded\n"), (b"\xff", b"ProgramEnded\n"), (b"n" * 256, b"BadName\n")):
            done = subprocess.run((sys.executable, "-c", code, PROGRAM, path, name), cwd=FOLDER, capture_output=True, timeout=WAIT)
            self.assertEqual((wanted, b""), (done.stdout, done.stderr), name)


if __name__ == "__main__":
    unittest.main()
