"""The file of settings: what it may have, how it is read again; collections that aren't listed, and indexes that become folders."""
import os
import pathlib
import resource
import signal
import unittest
from unittest import mock

from werkzeug.test import Client

from warcdx import states
from warcdx_gateway.settings import RESERVED, BadSettings, CollectionSettings, Settings, read_settings, settings_of

from .browse_support import PROGRAM, gateway_of
from .support import SAMPLE, Case, Server, Shared, lines

GOOD = '[collections.main]\nindexes = ["index"]\n'
SLOW = '[ "$1" != check ] || { touch "$(dirname "$0")/begun"; sleep 1; }'  # a rule of a program whose check takes long


class Files(Case):
    def refused(self, path: pathlib.Path) -> str:
        with self.assertRaises(BadSettings) as caught:
            read_settings(path)
        self.assertTrue(str(caught.exception).startswith(f"{path}: "), str(caught.exception))
        return str(caught.exception).removeprefix(f"{path}: ")

    def test_what_is_no_file_of_settings_is_refused_at_once(self) -> None:
        (self.folder / "folder").mkdir()
        os.mkfifo(self.folder / "pipe")
        for name, wanted in (("folder", "not a regular file"), ("pipe", "not a regular file"), ("missing", "No such file or directory")):
            self.assertEqual(wanted, self.refused(self.folder / name))
        for text, wanted in (
            (f"{GOOD}title = {'9' * 5000}\n", "Exceeds the limit "),
            (f"{GOOD}title = {'[' * 5000}\n", "maximum recursion depth exceeded"),
            (f'rules = "a\\u0000b"\n{GOOD}', "'rules' has to be a text without U+0000"),
            (f'{GOOD}archives = ["a\\u0000b"]\n', "'collections.main.archives' has to be a list of texts"),
            (f"{GOOD}[limits]\nquery = {10**12}\n", "'limits.query' has to be a number from 1 to 1000000"),
            ('[collections.main-cdx]\nindexes = ["index"]\n', "'collections.main-cdx' can't be the name of a collection: it has letters, "),
            ('[collections.a-index]\nindexes = ["index"]\n', "'collections.a-index' can't be the name of a collection: it has letters, "),
        ):
            self.assertIn(wanted, self.refused(self.put(text, "settings.toml")))
        (self.folder / "bytes").write_bytes(b"# \xe9\n" + GOOD.encode())
        self.assertIn("can't decode byte 0xe9", self.refused(self.folder / "bytes"))

    def test_a_file_of_another_editor_is_read(self) -> None:
        path = self.put("\ufeff" + GOOD.replace("\n", "\r\n"), "settings.toml")
        self.assertEqual((self.folder / "index",), read_settings(path).collections[0].indexes)

    def test_all_paths_are_relative_to_the_file(self) -> None:
        text = 'rules = "rules"\naccess_log = "access"\nprogram = "bin/warcdx"\n' + GOOD
        found = read_settings(self.put(text, "settings.toml"))
        self.assertEqual(
            [f"{self.folder}/{name}" for name in ("rules", "access", "bin/warcdx")], [found.rules, found.access_log, found.program]
        )
        found = read_settings(self.put('access_log = "-"\nprogram = "warcdx"\n' + GOOD, "settings.toml"))
        self.assertEqual(["", "-", "warcdx"], [found.rules, found.access_log, found.program])

    def test_no_collection_has_the_front_of_other_paths(self) -> None:
        self.put(SAMPLE)
        gateway = gateway_of(self, Settings((CollectionSettings("main", "Main", (self.folder / "index",)),), "main", program=PROGRAM))
        fronts = {rule.rule.split("/")[1] for rule in gateway._paths.map.iter_rules()}
        letters = {front for front in fronts if front[:1].isalnum()}
        self.assertEqual(set(), letters - set(RESERVED))
        for name in RESERVED:
            text = f'[collections."{name}"]\nindexes = ["index"]\n'
            self.assertIn("can't be the name of a collection", self.refused(self.put(text, "settings.toml")))


class Served(Case):
    def waits_for_word(self, server: Server, word: str, count: int = 1) -> None:
        self.wait_for(lambda: server.said.read_text().count(word) == count, f"it says {server.said.read_text()}")

    def test_settings_that_can_not_be_read_again_change_nothing(self) -> None:
        self.put(SAMPLE)
        server = self.start()
        path = self.folder / "settings.toml"
        good = path.read_text()
        huge, nested = f"x = {'9' * 5000}\n{good}".encode(), b"x = " + b"[" * 5000
        for count, bad in enumerate((b"\xff", huge, nested, "a pipe", "a folder", "missing"), 1):
            path.rename(self.folder / f"before-{count}")
            if isinstance(bad, bytes):
                path.write_bytes(bad)
            elif bad != "missing":
                (os.mkfifo if bad == "a pipe" else os.mkdir)(path)
            server.process.send_signal(signal.SIGHUP)
            self.waits_for_word(server, "the old settings stay in use: ", count)
            self.assertEqual(200, server.ask("/cdx?url=example.com").status)
        self.assertNotIn("Traceback", server.said.read_text())
        self.assertEqual(0, server.end())

    def test_signals_before_it_answers_wait(self) -> None:
        """They end nothing, and the settings are read again when the indexes were checked."""
        self.put(SAMPLE)
        settings = self.put(f'port = 0\nprogram = "{self.program(SLOW)}"\nworkers = 2\n{GOOD}', "settings.toml")
        for number in (signal.SIGUSR1, signal.SIGHUP):
            (self.folder / "begun").unlink(missing_ok=True)
            process = self.run_later(str(settings))
            self.wait_for((self.folder / "begun").exists, "no check")
            process.send_signal(number)
            server = Server(process, self.folder / "said")
            self.addCleanup(server.end)
            self.assertEqual(200, server.ask("/cdx?url=example.com").status)
            self.assertEqual((0, ""), (server.end(), server.said.read_text()))

    def test_a_signal_that_ends_it_before_it_answers_leaves_nothing(self) -> None:
        self.put(SAMPLE)
        settings = self.put(f'port = 0\nprogram = "{self.program(SLOW)}"\nworkers = 2\n{GOOD}', "settings.toml")
        (self.folder / "runtime").mkdir()
        for number in (signal.SIGTERM, signal.SIGINT, signal.SIGQUIT):
            (self.folder / "begun").unlink(missing_ok=True)
            with mock.patch.dict(os.environ, TMPDIR=str(self.folder / "runtime")):
                process = self.run_later(str(settings))
            self.wait_for((self.folder / "begun").exists, "no check")
            process.send_signal(number)
            self.assertEqual("", process.communicate()[0])
            self.assertEqual((-number, []), (process.returncode, os.listdir(self.folder / "runtime")))
        self.assertEqual("", (self.folder / "said").read_text())

    def test_variables_of_another_gunicorn_are_not_its_own(self) -> None:
        self.put(SAMPLE)
        with mock.patch.dict(os.environ, dict.fromkeys(("GUNICORN_PID", "GUNICORN_FD", "LISTEN_FDS", "LISTEN_PID"), "x")):
            server = self.start()
        self.assertEqual(200, server.ask("/cdx?url=example.com").status)
        self.assertEqual((0, ""), (server.end(), server.said.read_text()))

    def test_signals_of_the_master_that_all_processes_get_end_no_worker(self) -> None:
        self.put(SAMPLE)
        server = self.start()
        workers = server.workers()
        for worker in workers:
            os.kill(worker, signal.SIGHUP)
        for _ in range(20):
            self.assertEqual(200, server.ask("/cdx?url=example.com").status)
        self.assertEqual(workers, server.workers())

    def test_the_access_log_is_opened_anew(self) -> None:
        """If it can't be, the file of before goes on. A gateway that can't open it doesn't start."""
        self.put(SAMPLE)
        folder, log = self.folder / "log", self.folder / "log/access"
        settings = self.put(f'port = 0\naccess_log = "log/access"\nprogram = "{PROGRAM}"\nworkers = 2\n{GOOD}', "settings.toml")
        server = self.run_command(str(settings))
        self.assertEqual((3, f"warcdx-gateway: {log}: No such file or directory\n"), (server.process.wait(60), server.said.read_text()))
        folder.mkdir()
        server = self.start(head='access_log = "log/access"\n')
        server.ask("/one")
        log.rename(folder / "before")
        for number in (signal.SIGUSR1, signal.SIGHUP):
            server.process.send_signal(number)
            self.wait_for(log.exists, "it isn't opened")
            self.wait_for(lambda: server.ask("/two").status == 404 and "/two" in log.read_text(), "it isn't used")
            log.unlink()
        folder.rename(self.folder / "gone")
        for count, number in enumerate((signal.SIGUSR1, signal.SIGHUP), 1):
            server.process.send_signal(number)
            self.waits_for_word(server, "the access log stays the one of before", count)
            for _ in range(9):
                self.assertEqual(200, server.ask("/cdx?url=example.com").status)
        self.assertNotIn("Traceback", server.said.read_text())
        self.assertEqual(0, server.end())

    @unittest.skipIf(0 <= resource.getrlimit(resource.RLIMIT_NOFILE)[1] < 1200, "the limit of open files is low (ulimit -Hn)")
    def test_a_thousand_indexes(self) -> None:
        """The descriptors of what is opened after them are above 1,023."""
        names = [self.put(line, f"{number}.cdxj").name for number, line in enumerate(lines(1020).splitlines(keepends=True))]
        server = self.start(f"[collections.main]\nindexes = {names}\n")
        self.assertEqual(1020, server.ask("/cdx?url=example.com/*&fl=offset").text.count("\n"))
        server.process.send_signal(signal.SIGHUP)
        self.assertEqual(1020, server.ask("/cdx?url=example.com/*&fl=offset").text.count("\n"))
        self.assertEqual((0, ""), (server.end(), server.said.read_text()))

    def show(self, count: int) -> pathlib.Path:
        """Returns a new folder that is an index of some runs, of a capture each."""
        folder = self.folder / f"folder-{count}"
        for name in states.FOLDERS:
            (folder / name).mkdir(parents=True)
        listed = []
        for number, line in enumerate(lines(count).splitlines(keepends=True)):
            (folder / states.RUNS / f"{number}.cdxj").write_text(line)
            listed.append(states.Listed(f"{number}.cdxj", len(line), 1))
        states.show(str(folder), 1, listed, {})
        return folder

    def test_an_index_that_becomes_a_folder_and_a_file_again(self) -> None:
        """A folder has as many runs as it may have, or more, which is said."""
        index, folders = self.put(SAMPLE), [self.show(states.MOST_RUNS), self.show(states.MOST_RUNS + 1)]
        files = self.put(lines(3), "file"), self.put(lines(2), "other")
        server = self.start()

        def rows() -> int:
            return server.ask("/cdx?url=example.com&matchType=prefix&fl=offset").text.count("\n")

        for path, count in ((folders[0], states.MOST_RUNS), (files[0], 3), (folders[1], 3), (files[1], 2)):
            index.rename(self.folder / f"before-{path.name}")
            path.rename(index)
            if path == folders[1]:
                self.waits_for_word(server, f"main: the old indexes stay in use: {index}: its manifest has more than 40 runs\n")
            self.wait_for(lambda: rows() == count, f"{path.name} isn't used")
        self.assertNotIn("Traceback", server.said.read_text())


class Unlisted(Shared):
    settings = '[collections.open]\nindexes = ["index"]\n[collections.private]\nindexes = ["index"]\nlisted = false\n'

    def test_it_is_in_no_list(self) -> None:
        for path in ("/", "/browse", "/collinfo.json"):
            for kind in ("text/html", "text/plain"):
                found = self.server.ask(path, Accept=kind)
                shown = found.fields.get("location", found.text)
                self.assertIn("open", shown)
                self.assertNotIn("private", shown)

    def test_its_paths_have_one_front(self) -> None:
        unknown = self.server.ask("/nosuch-index?url=example.com")
        for path in ("/private-index", "/private-cdx", "/private"):
            found = self.server.ask(f"{path}?url=example.com")
            self.assertEqual((404, unknown.body), (found.status, found.body))
            self.assertEqual(200, self.server.ask(f"{path.replace('private', 'open')}?url=example.com").status)
        for path in ("/private/index", "/private/cdx", "/private/"):
            self.assertEqual(200, self.server.ask(f"{path}?url=example.com").status)

    def test_its_front_stands_in_the_path_as_it_is_sent(self) -> None:
        """A server in front may compare paths without their escapes undone."""
        for path in ("/%70rivate/cdx", "/private%2fcdx", "//private/cdx", "///private/browse/", "/%70rivate/timemap/link/example.com"):
            found = self.server.ask(f"{path}?url=example.com")
            self.assertEqual((404, b"refused NotFound: there is no such collection\n"), (found.status, found.body), path)
        self.assertEqual(200, self.server.ask("http://localhost/private/cdx?url=example.com").status)

    def test_its_path_has_no_way_out(self) -> None:
        """A server in front compares a path without its `..`, as nginx does, and sends it as it came: then none may be in it."""
        for path in (
            "timegate/http://example.com/..",
            "2016id_/http://example.com/%2e%2e/%2E./..",
            "timemap/link/http://example.com/..?x",
            "cdx/../../cdx",
        ):
            path += "" if "?" in path else "/../../../../cdx"
            found = self.server.ask(f"/private/{path}")
            self.assertEqual((404, b"refused NotFound: there is no such collection\n"), (found.status, found.body), path)
            self.assertNotIn(b"no such collection", self.server.ask(f"/open/{path}").body)
        self.assertEqual(b"there is no capture of this URL\n", self.server.ask("/private/timegate/http://example.com/?x=/../..").body)
        self.assertEqual(200, self.server.ask("/private/cdx?url=example.com/x/../a").status)

    def test_a_collection_that_is_not_listed_is_not_named(self) -> None:
        index = (self.folder / "index",)
        each = CollectionSettings("open", "Open", index), CollectionSettings("private", "Private", index, listed=False)
        gateway = gateway_of(self, Settings(each, "open", program=PROGRAM))
        for collection in gateway.collections.values():
            collection.is_old.set(True)
        old = "the old indexes are in use\n"
        self.assertEqual(f"ok\nopen: {old}a collection: {old}", Client(gateway).get("/health").text)
        gateway.collections["private"].is_usable.set(False)
        found = Client(gateway).get("/health")
        self.assertEqual((503, "a collection: "), (found.status_code, found.text.partition("refused")[0]))

    def test_it_can_not_be_the_main_one(self) -> None:
        table = {"collections": {"a": {"indexes": ["x"], "listed": False}}}
        with self.assertRaises(BadSettings):
            settings_of(table, self.folder)


if __name__ == "__main__":
    unittest.main()
