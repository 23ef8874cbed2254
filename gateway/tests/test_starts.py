"""How the gateway starts: its arguments and settings, and what is said if it can't."""
import os
import pathlib
import subprocess
import sys
import unittest
from unittest import mock

from .support import COMMAND, PROGRAM, ROOT, SAMPLE, WAIT, Case

from warcdx_gateway.settings import CollectionSettings, Settings, checked


class Defaults(unittest.TestCase):
    def test_workers_have_room_in_the_memory(self) -> None:
        """Of 4 GB, three quarters are theirs."""
        sizes = {"SC_PHYS_PAGES": 1 << 20, "SC_PAGE_SIZE": 4096}
        each = CollectionSettings("main", "Main", (pathlib.Path("index"),))
        for processors, memory, wanted in ((2, 512 << 20, 4), (16, 512 << 20, 6), (16, 256 << 20, 12), (4, 3 << 30, 2)):
            cores = set(range(processors))
            with mock.patch("os.sysconf", sizes.__getitem__), mock.patch("os.sched_getaffinity", return_value=cores):
                self.assertEqual(wanted, checked(Settings((each,), "main", memory=memory)).workers)


class Starts(Case):
    """A server that can't start says so on one line."""

    def fails(self, *arguments: str, status: int = 3) -> str:
        command = ("/usr/bin/python3", ROOT / "gateway/bin/warcdx-gateway", *arguments)
        done = subprocess.run(command, stdout=subprocess.PIPE, stderr=subprocess.PIPE, text=True, timeout=WAIT)
        self.assertEqual((status, "", 1), (done.returncode, done.stdout, done.stderr.count("\n")), done.stderr)
        return done.stderr

    def settings(self, text: str) -> str:
        return str(self.put(text, "settings.toml"))

    def test_a_file_of_byte_code_that_is_cut_ends_no_start(self) -> None:
        """Python writes it so on a full disk, and then can't load it again."""
        environment = {**os.environ, "PYTHONPYCACHEPREFIX": str(self.folder), "PYTHONDONTWRITEBYTECODE": ""}
        names = ("warcdx_start", "python/warcdx/command", "gateway/warcdx_gateway/command")
        for cut in (0, 10, 0):
            done = subprocess.run((COMMAND, "--version"), env=environment, capture_output=True, timeout=WAIT)
            self.assertEqual((0, b""), (done.returncode, done.stderr))
            for code in [code for name in names for code in self.folder.rglob(f"{name}.*.pyc")]:
                os.truncate(code, cut and code.stat().st_size - cut)
        self.assertEqual(3, len([code for name in names for code in self.folder.rglob(f"{name}.*.pyc")]))

    def test_what_is_missing_is_named(self) -> None:
        index = str(self.put(SAMPLE))
        nosuch = str(self.folder / "nosuch")
        self.assertIn(nosuch, self.fails("--port", "0", "--program", PROGRAM, "--indexes", nosuch))
        self.assertIn(nosuch, self.fails("--port", "0", "--program", nosuch, "--indexes", index))
        self.assertIn(nosuch, self.fails("--port", "0", "--program", PROGRAM, "--indexes", index, "--archives", nosuch))
        self.assertIn(nosuch, self.fails(nosuch))

    def test_what_is_no_index_is_named(self) -> None:
        for text in ("a text\n", SAMPLE[:-20], SAMPLE + "x", "\0"):
            index = str(self.put(text))
            said = self.fails("--port", "0", "--program", PROGRAM, "--indexes", index, status=1)
            self.assertIn("index", said)
            self.assertIn("BadLine", said)

    def test_what_is_no_file_is_named(self) -> None:
        pipe = self.folder / "pipe"
        os.mkfifo(pipe)
        for path, reason in (
            (str(self.folder / "nosuch"), "No such file or directory"),
            (str(self.folder), "cannot open (Is a directory); a folder is an index if warcdx-update has made it"),
            (str(pipe), "not a regular file"),
            ("/dev/zero", "not a regular file"),
        ):
            said = self.fails("--port", "0", "--program", PROGRAM, "--indexes", path)
            self.assertEqual(f"warcdx-gateway: {path}: {reason}\n", said)

    def test_metrics_may_have_an_address(self) -> None:
        port = self.hold_port()
        self.put(SAMPLE)
        server = self.start(head=f'metrics = "127.0.0.1:{port}"\n')
        self.assertEqual(404, server.ask("/metrics").status)
        main, server.address = server.address, ("127.0.0.1", port)
        for path, status in (("/metrics", 200), ("/cdx?url=example.com", 404), ("/", 404), ("/health", 404)):
            self.assertEqual(status, server.ask(path, Host="metrics.example").status, path)
        self.assertGreater(server.metric("requests_total"), 0)
        server.address = main
        self.assertEqual(200, server.ask("/cdx?url=example.com").status)

    def test_too_few_files_are_named(self) -> None:
        index = str(self.put(SAMPLE))
        command = f'ulimit -n 64; exec /usr/bin/python3 "{COMMAND}" "$@"'
        arguments = ("--port", "0", "--program", PROGRAM, "--indexes", index)
        run = subprocess.run(("sh", "-c", command, "sh", *arguments), capture_output=True, text=True, timeout=60)
        said = "a process may open 64 files, and 129 are needed: raise the limit, as by ulimit -n"
        self.assertEqual((3, "", f"warcdx-gateway: {said}\n"), (run.returncode, run.stdout, run.stderr))

    def test_what_is_no_address_is_named(self) -> None:
        words = "--host", "localhost", "--port", "0", "--program", PROGRAM, "--indexes", str(self.put(SAMPLE))
        for address, wanted in (("a..b", "a..b:0: not the name of a host"), ("", ":0: Name or service not known")):
            self.assertEqual(f"warcdx-gateway: {wanted}\n", self.fails("--address", address, *words))

    def test_a_used_port_is_named(self) -> None:
        server = self.run_command("--port", "0", "--program", PROGRAM, "--indexes", str(self.put(SAMPLE)))
        self.assertIn("in use", self.fails("--port", str(server.address[1]), "--program", PROGRAM, "--indexes", str(self.folder / "index")))

    def test_settings_are_checked(self) -> None:
        good = '[collections.a]\nindexes = ["index"]\n'
        for text, wanted in (
            ("", "no collection"),
            ("port = 1", "no collection"),
            ("port = x", "Invalid value"),
            (f"prt = 1\n{good}", "unknown setting 'prt'"),
            (f'port = "1"\n{good}', "'port' has to be a whole number"),
            (f"port = 70000\n{good}", "'port' has to be from 0"),
            (f'metrics = "localhost:65536"\n{good}', "'metrics' has a port that has to be from 0 to 65535"),
            (f'main = "b"\n{good}', "'main' is not the name of a collection"),
            (f"exact = 2\n{good}", "unknown setting 'exact'"),
            (f"workers = 1\n{good}", "'workers' has to be 2 to 256"),
            (f"workers = 2\nwide = 2\n{good}", "'wide' has to be 1 or more, and less than"),
            (f"memory = 1000\n{good}", "'memory' has to be 268435456 bytes or more"),
            (f"timeout = 30\n{good}", "'timeout' has to be more than limits.query"),
            (f'address = "0.0.0.0"\n{good}', "'hosts' has to name the hosts of requests, as --host NAME does"),
            (f'hosts = "a"\n{good}', "'hosts' has to be a list of texts"),
            (f'hosts = ["a", "http://a.example/"]\n{good}', "'hosts' has names without a scheme, a port and a path"),
            (f'hosts = ["a:80"]\n{good}', "'hosts' has names without a scheme, a port and a path"),
            (f"{good}[limits]\nstreams = 1\n", "unknown setting 'limits.streams'"),
            (f"{good}[limits]\nlargest = 0\n", "'limits.largest' has to be a number from 1"),
            (f"{good}[limits]\nlargest = 5\n", "'limits.held' has to be at most limits.largest"),
            (f"{good}[limits]\nx = 0\n", "unknown setting 'limits.x'"),
            (
                '[collections.cdx]\nindexes = ["a"]',
                "'collections.cdx' can't be the name of a collection: it has letters, digits, '.', '_' and '-', and isn't browse, cdx, ",
            ),
            ('[collections."a/b"]\nindexes = ["a"]', "can't be the name"),
            ("[collections.a]\nindexes = []", "'collections.a.indexes' has to be 1 to 1024 paths"),
            ('[collections.a]\nindexes = "a"', "'collections.a.indexes' has to be a list of texts"),
            ('[collections.a]\nindexes = ["a"]\nindex = 1', "unknown setting 'collections.a.index'"),
            (f"{good}name = 'b'", "unknown setting 'collections.a.name'"),
            (f"{good}title = 1", "'collections.a.title' has to be a text"),
            (f"{good}archives = [1]", "'collections.a.archives' has to be a list of texts"),
            (f"{good}form = 'cdx'", "'collections.a.form' has to be \"wayback\""),
            ("limits = 1\n" + good, "'limits' has to be a table"),
            ("[collections]\na = 1", "'collections.a' has to be a table"),
        ):
            with self.subTest(text):
                self.assertIn(wanted, self.fails(self.settings(text), status=1))

    def test_arguments_are_checked(self) -> None:
        for words, wanted in (
            (("--port", "http"), "--port: a number from 0 to 65535"),
            (("--port", "65536"), "--port: a number from 0 to 65535"),
            (("--workers", "1"), "--workers: a number from 2 to 256"),
            (("--address", "127.0.0.1:80"), "an address without a port: write --address 127.0.0.1 --port 80"),
            (("--archives", "", "--port", "1"), "--archives: the name is empty"),
            ((), "give either SETTINGS or --indexes INDEX..: gateway.toml is SETTINGS"),
        ):
            self.assertIn(wanted, self.fails(*words, "--indexes", "index", "gateway.toml", status=2))

    def test_paths_are_relative_to_the_file(self) -> None:
        self.put(SAMPLE)
        server = self.start()
        self.assertEqual(b"300\n", server.ask("/main/cdx?url=example.com/a&fl=length").body)
        self.assertEqual("/main/cdx\tmain\n", server.ask("/").text)


class Planted(Case):
    def test_code_beside_the_gateway_does_not_run(self) -> None:
        """A folder `python` of another owner, or without the package, isn't used."""
        tree = self.folder / "shared"
        (tree / "gateway").mkdir(parents=True)
        for name in ("bin", "warcdx_gateway"):
            (tree / "gateway" / name).symlink_to(ROOT / "gateway" / name)
        subprocess.run(("cp", "-r", ROOT / "gateway", tree / "copied"), check=True)
        (tree / "python/warcdx").mkdir(parents=True)
        (tree / "python/warcdx/__init__.py").write_text("print('PLANTED')\n")
        for folder in (tree / "copied", tree / "gateway"):
            command = (sys.executable, folder / "bin/warcdx-gateway", "--help")
            done = subprocess.run(command, stdout=subprocess.PIPE, stderr=subprocess.STDOUT, text=True)
            self.assertNotIn("PLANTED", done.stdout)


if __name__ == "__main__":
    unittest.main()
