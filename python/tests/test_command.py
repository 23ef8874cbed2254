"""How a signal ends a command, and a lack of memory."""
import os
import pathlib
import shutil
import signal
import subprocess
import sys
import tempfile
import unittest
import unittest.mock
import warcdx_start

from warcdx.ending import blocked

from .support import WAIT, Case

BEGINS = """
import os, signal, sys, tempfile, time
from warcdx.command import run
from warcdx.ending import blocked
from warcdx.outputs import new_file

def work(output):
"""
ENDS = """
    while True:
        time.sleep(0.01)

sys.exit(run("command", work))
"""
FINALIZER = """
    class Dying:
        def __del__(self):
            os.kill(os.getpid(), signal.SIGTERM)
            time.sleep(0.01)
    dying = Dying()
    del dying
"""
FILE = """
    with new_file(os.path.join(tempfile.gettempdir(), "made")) as file:
        with blocked():
            os.kill(os.getpid(), signal.SIGTERM)
            time.sleep(0.01)
            print("blocked", flush=True)
        print("not blocked", flush=True)
"""


TWO = """
    with blocked():
        for number in (signal.SIGTERM, signal.SIGHUP, signal.SIGTERM):
            os.kill(os.getpid(), number)
"""
UNBEGUN = """
    def begun():
        made = new_file(os.path.join(tempfile.gettempdir(), "made"))
        made.__enter__()
        os.kill(os.getpid(), signal.SIGTERM)
        time.sleep(0.01)
    begun()
"""


class Signals(Case):
    def ended(self, text: str) -> tuple[int, list[str], bytes]:
        """Returns how a command ends, and what it has written."""
        folder = pathlib.Path(__file__).resolve().parents[1]
        command = (sys.executable, "-c", BEGINS + text + ENDS)
        environment = {**os.environ, "TMPDIR": str(self.folder)}
        done = subprocess.run(command, cwd=folder, env=environment, capture_output=True, timeout=WAIT)
        return done.returncode, done.stdout.decode().splitlines(), done.stderr

    def test_a_signal_that_comes_in_a_finalizer_ends_the_command(self) -> None:
        """Python ignores what a finalizer raises, and prints it."""
        self.assertEqual((-signal.SIGTERM, [], b""), self.ended(FINALIZER))

    def test_a_signal_that_is_blocked_comes_after_the_block(self) -> None:
        status, lines, error = self.ended(FILE)
        self.assertEqual((-signal.SIGTERM, ["blocked"], b""), (status, lines, error))
        self.assertEqual([], list(self.folder.iterdir()))

    def test_of_two_signals_at_once_one_ends_the_command(self) -> None:
        status, lines, error = self.ended(TWO)
        self.assertIn(status, (-signal.SIGTERM, -signal.SIGHUP))
        self.assertEqual(([], b""), (lines, error))

    def test_a_signal_that_comes_as_a_block_begins_is_not_blocked_later(self) -> None:
        real = signal.pthread_sigmask

        def interrupted(how: int, numbers: "tuple[int, ...]") -> "set[int]":
            before = real(how, numbers)
            if numbers and how == signal.SIG_BLOCK:
                raise KeyboardInterrupt
            return before

        before = real(signal.SIG_BLOCK, ())
        with self.assertRaises(KeyboardInterrupt), unittest.mock.patch("signal.pthread_sigmask", interrupted), blocked():
            self.fail()
        self.assertEqual(before, real(signal.SIG_SETMASK, before))

    def test_a_signal_that_comes_before_a_block_removes_its_file(self) -> None:
        """As if it comes in `with`, when the file is there and the block isn't begun."""
        status, lines, error = self.ended(UNBEGUN)
        self.assertEqual((-signal.SIGTERM, [], b""), (status, lines, error))
        self.assertEqual([], list(self.folder.iterdir()))


class Scripts(unittest.TestCase):
    def test_they_differ_in_the_name_of_the_command_alone(self) -> None:
        """Each finds the package by itself, so what it does for that stands in each."""
        texts = set[str]()
        for path in (pathlib.Path(__file__).resolve().parents[1] / "bin").iterdir():
            name = path.name.removeprefix("warcdx-")
            texts.add(path.read_text().replace(path.name, "COMMAND").replace(f"warcdx.{name}_command", "MODULE"))
        self.assertEqual(1, len(texts))

    def test_a_python_without_the_package_is_named(self) -> None:
        """The one of a package for Debian is called by its path, and so by any Python."""
        with tempfile.TemporaryDirectory() as folder:
            script = shutil.copy(pathlib.Path(__file__).resolve().parents[1] / "bin/warcdx-verify", folder)
            done = subprocess.run(
                (sys.executable, "-I", "-S", script), cwd=folder, stdout=subprocess.PIPE, stderr=subprocess.STDOUT, text=True
            )
        self.assertEqual((3, f"warcdx-verify: {sys.executable} has no package warcdx\n"), (done.returncode, done.stdout))


class ByteCode(Case):
    def test_a_file_of_byte_code_that_is_cut_ends_no_command(self) -> None:
        """Python writes it so on a full disk, and then can't load it again."""
        folder = pathlib.Path(__file__).resolve().parents[1]
        environment = {**os.environ, "PYTHONPYCACHEPREFIX": str(self.folder), "PYTHONDONTWRITEBYTECODE": ""}
        for path in sorted((folder / "bin").iterdir()):
            for cut in (0, 10, 100):
                done = subprocess.run((path, "--version"), env=environment, capture_output=True, timeout=WAIT)
                self.assertEqual((0, b""), (done.returncode, done.stderr), path)
                for name in ("warcdx_start", "command", "program", f"{path.name[7:]}_command"):
                    (code,) = self.folder.rglob(f"{name}.*.pyc")
                    os.truncate(code, cut and code.stat().st_size - cut)
            done = subprocess.run((path, "--version"), env=environment, capture_output=True, timeout=WAIT)
            self.assertEqual((0, b""), (done.returncode, done.stderr), path)
            shutil.rmtree(self.folder / str(folder).lstrip("/"))


GROWTH = """
import sys, site
def memory(name):
    return next(int(line.split()[1]) for line in open("/proc/self/status") if line.startswith(name)) << 10
before = memory("VmSize:")
site.main()
__import__(sys.argv[1])
print(memory("VmPeak:") - before)
"""


class Modules(unittest.TestCase):
    def test_the_memory_of_the_modules_is_had_before_they_are_loaded(self) -> None:
        folder = pathlib.Path(__file__).resolve().parents[1]
        environment = {**os.environ, "PYTHONPATH": str(folder)}
        for path in (folder / "bin").iterdir():
            command = ("/usr/bin/python3", "-S", "-c", GROWTH, f"warcdx.{path.name[7:]}_command")
            grown = int(subprocess.run(command, env=environment, stdout=subprocess.PIPE, check=True).stdout)
            self.assertLessEqual(grown, warcdx_start.MODULES, path.name)


if __name__ == "__main__":
    unittest.main()
