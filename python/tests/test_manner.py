"""What all commands have in common: help, version, usage errors, places of options, and the version of Python."""
import gzip
import json
import os
import pathlib
import re
import signal
import subprocess
import sys
import unittest
from types import FrameType
from typing import Any

from warcdx.command import TASKS, Parser
from warcdx.ending import Ended

from .support import PROGRAM, SAMPLES, Case, lines

PYTHON = pathlib.Path(__file__).resolve().parents[1]
COMMANDS = sorted((PYTHON / "bin").iterdir())
GATEWAY = PYTHON.parent / "gateway/bin/warcdx-gateway"
VERSION = (PYTHON / "VERSION").read_text().strip()
# Runs a script as if this Python had another version.
AS_PYTHON = """
import runpy, sys
sys.version_info, sys.argv = (%d, %d, 1, "final", 0), sys.argv[1:]
runpy.run_path(sys.argv[0], run_name="__main__")
"""


class Runs(Case):
    def run_command(self, *command: object, **environment: str) -> "tuple[int, str, str]":
        done = subprocess.run(list(map(str, command)), cwd=self.folder, capture_output=True, text=True, env=environment or None)
        return done.returncode, done.stdout, done.stderr


class Manner(Runs):
    def test_help_names_the_other_commands(self) -> None:
        for path in COMMANDS:
            status, found, said = self.run_command(sys.executable, path, "-h")
            self.assertEqual((0, found, said), self.run_command(sys.executable, path, "--help"))
            named = found.partition("Other commands:\n")[2]
            self.assertEqual([name for name in TASKS if name != path.name], [line[2:].split("  ")[0] for line in named.splitlines()])
            self.assertEqual((0, ""), (status, said))

    def test_the_tasks_are_those_of_the_page(self) -> None:
        page = (PYTHON.parent / "docs/COMMANDS.md").read_text()
        rows = re.findall(r"^\| ((?:`warcdx[a-z-]*`(?:, )?)+) \| ([^|]*) \|", page, re.MULTILINE)[: len(TASKS)]
        self.assertEqual({name.replace("`", ""): task for name, task in rows}, TASKS)

    def test_the_version(self) -> None:
        for path in COMMANDS:
            for word in ("-V", "--version"):
                self.assertEqual((0, f"{path.name} {VERSION}\n", ""), self.run_command(sys.executable, path, word))

    def test_a_usage_error_is_one_line_that_names_help(self) -> None:
        for path in COMMANDS:
            for words in ((), ("--no-such-option",), ("--program",)):
                status, found, said = self.run_command(sys.executable, path, *words)
                self.assertEqual((2, ""), (status, found))
                self.assertRegex(said, rf"\A{path.name}: error: .*; '{path.name} --help' has the arguments\n\Z")

    def test_an_empty_name_is_a_usage_error(self) -> None:
        """So is one of a variable that isn't set. It would be the name of this folder."""
        for name, *words in (
            ("update", "", "all.cdxj.d"), ("update", ".", ""), ("verify", ""), ("verify", "--resume", "", "a.warc"),
            ("fetch", "--index", "", "http://example.com/"), ("fetch", "--index", "a.cdxj", "--archives", "", "http://example.com/"),
            ("cdx", "to", ""), ("cdx", "from", "-o", "", "a.cdx"),
        ):  # fmt: skip
            status, found, said = self.run_command(sys.executable, PYTHON / f"bin/warcdx-{name}", *words)
            self.assertEqual((2, ""), (status, found))
            self.assertIn(": the name is empty; ", said)
        self.assertEqual([], list(self.folder.iterdir()))

    def test_a_standard_stream_is_no_index_and_no_notes(self) -> None:
        for name, *words in (
            ("update", ".", "-"), ("update", "-", "all.cdxj.d"), ("verify", "--resume", "-", "a.warc"),
            ("fetch", "--index", "-", "http://example.com/"), ("fetch", "--index=a.cdxj", "--archives=-", "http://example.com/"),
        ):  # fmt: skip
            status, found, said = self.run_command(sys.executable, PYTHON / f"bin/warcdx-{name}", *words)
            self.assertEqual((2, ""), (status, found))
            self.assertIn(": a standard stream can't be used here; a file of this name is ./-; ", said)
        self.assertEqual([], list(self.folder.iterdir()))

    def test_a_name_that_is_a_negative_number_is_no_file(self) -> None:
        """It would come behind the other files."""
        for name, *words in (
            ("update", "-1", "all.cdxj.d"),
            ("verify", "-1", "a.warc"),
            ("cdx", "to", "-.5", "a.cdxj"),
            ("fetch", "--index=a", "-1"),
        ):
            status, found, said = self.run_command(sys.executable, PYTHON / f"bin/warcdx-{name}", *words)
            self.assertEqual((2, ""), (status, found), said)

    def test_a_file_whose_name_begins_with_a_hyphen(self) -> None:
        """A pattern of the shell may give it."""
        self.put("", "-jx.warc")
        status, found, said = self.run_command(sys.executable, PYTHON / "bin/warcdx-verify", "-jx.warc")
        self.assertEqual((2, ""), (status, found))
        self.assertIn("unknown option -j; the file of this name is ./-jx.warc; '", said)

    def test_options_stand_before_or_behind_files(self) -> None:
        archive, names = SAMPLES / "wget.warc", [f"--program={PROGRAM}", "--quiet"]
        command = (sys.executable, PYTHON / "bin/warcdx-verify")
        for words in (
            (*names, archive), (archive, *names), (names[0], archive, names[1]), ("--program", PROGRAM, archive, "--quiet"),
            (archive, "--quiet", "--program", PROGRAM, archive), (archive, *names, "--", archive), (*names, "--", archive),
        ):  # fmt: skip
            self.assertEqual((0, "", ""), self.run_command(*command, *words))
        status, found, said = self.run_command(*command, archive, archive, "-o")
        self.assertEqual((2, ""), (status, found))
        self.assertIn("-o/--output: expected one argument", said)
        index = self.put("")
        command = (sys.executable, PYTHON / "bin/warcdx-cdx")
        wanted = (0, " CDX N b a m s k r M S V g\n", "")
        for words in (("to", index, names[0]), (names[0], "to", index), ("to", names[0], index, index), ("to", index, names[0], index)):
            self.assertEqual(wanted, self.run_command(*command, *map(str, words)))


class Messages(Runs):
    """Of usual mistakes, a line says what is wrong, where, and what to do."""

    def test_a_file_of_another_kind(self) -> None:
        for name, text in (
            ("a.wacz", b"PK\x03\x04" + bytes(100)), ("a.html", b"<!doctype html><p>x"), ("a.warc", (SAMPLES / "response.warc").read_bytes()),
            ("a.cdx", b" CDX N b a m s k r M S V g\n" + b"".join(b"a%06d 20160101000000 http://a/ - - - - - - 0 a\n" % n for n in range(1000))),
            ("a.cdx.gz", gzip.compress(b"x", mtime=0)), ("a.warc.gz", gzip.compress((SAMPLES / "wget.warc").read_bytes(), mtime=0)),
        ):  # fmt: skip
            (self.folder / name).write_bytes(text)
        index = self.put(lines(1), "a.cdxj")
        for words, wanted in (
            (("verify", "a.wacz"), "a.wacz: It is a ZIP file, as a WACZ file is: "),
            (("verify", "--quiet", "a.html"), "a.html: It seems to be an HTML or XML file"),
            (("verify", "a.warc.gz"), "a.warc.gz: Each record has to be a member of gzip of its own: "),
            (("verify", index), f"{index}: It seems to be an index: warcdx query reads indexes."),
            (("cdx", "to", "a.warc"), "a.warc: BadLine 0: It is a WARC file: "),
            (("cdx", "from", "a.cdx.gz"), "a.cdx.gz: It is compressed by gzip: zcat FILE | warcdx-cdx from"),
            (("cdx", "from", index), f"{index}: It is an index: warcdx-cdx to reads indexes."),
            (("fetch", "--index", "a.warc", "http://example.com/"), "a.warc: BadLine 0: It is a WARC file: "),
            (("fetch", "--index", "a.cdx", "--all", "-o", "new", "key=a000900"), ": It is a CDX file: "),
        ):  # fmt: skip
            status, _, said = self.run_on_program(*words)
            self.assertEqual(1, status, words)
            self.assertIn(wanted, said)

    def test_what_is_not_there(self) -> None:
        index = self.put(lines(1), "a.cdxj")
        for words, wanted in (
            (("verify", "nosuch"), "nosuch: cannot open (No such file or directory)"),
            (("verify", "."), ".: cannot open (Is a directory); name the archives in it"),
            (("verify", "no*.warc"), "no*.warc: cannot open (No such file or directory); no file has a name of this pattern"),
            (("verify", "http://a/b.warc"), "; it is a URL, and only files are read: fetch it first"),
            (("cdx", "from", "."), ".: cannot open (Is a directory); name the CDX files in it"),
            (("cdx", "to", "."), ".: cannot open (Is a directory); a folder is an index if warcdx-update has made it"),
            (
                ("fetch", "--index", index, "http://example.com/0000000"),
                "; --archives FOLDER names the folder below which it has this path",
            ),
            (
                ("fetch", "--index", ".", "http://example.com/"),
                ".: cannot open (Is a directory); a folder is an index if warcdx-update has made it",
            ),
        ):
            status, _, said = self.run_on_program(*words)
            self.assertEqual((3, 1), (status, said.count("\n")), words)
            self.assertIn(wanted, said)
        command = (sys.executable, PYTHON / "bin/warcdx-verify", "--program", "nosuch", index)
        said = "warcdx-verify: nosuch: no such program on the PATH; --program PROGRAM names another one\n"
        self.assertEqual((3, "", said), self.run_command(*command))

    def test_an_option_that_is_misspelled(self) -> None:
        for words, wanted in (
            (("verify", "--job", "4", "a"), "unknown option --job; a similar one is --jobs; 'warcdx-verify --help'"),
            (("fetch", "--arcives=a", "b"), "unknown option --arcives; a similar one is --archives; '"),
            (("update", "--Dryrun", "a", "b"), "unknown option --Dryrun; a similar one is --dry-run; '"),
            (("cdx", "to", "--zzz", "a"), "unknown option --zzz; there are --output, --program; '"),
            (("cdx", "to", "-1"), "unknown option -1; there are --output, --program; '"),
        ):
            self.expect_usage_error(wanted, *words)

    def test_an_option_that_other_tools_have(self) -> None:
        """The words that are similar by their letters alone aren't named."""
        for words, wanted in (
            (("update", "-j4", "a", "b"), "unknown option -j; write --jobs N; '"),
            (("update", "--workers", "4", "a", "b"), "unknown option --workers; write --jobs N; '"),
            (("update", "-n", "a", "b"), "unknown option -n; write --dry-run; '"),
            (("update", "-o", "b", "a"), "unknown option -o; INDEX is the second argument; '"),
            (("update", "--prune", "a", "b"), "unknown option --prune; write --remove N|N%|all; '"),
            (("update", "--verbose", "a", "b"), "unknown option --verbose; what is done is printed unless --quiet is given; '"),
            (("verify", "-q", "a"), "unknown option -q; write --quiet; '"),
            (("verify", "--recursive", "a"), "unknown option --recursive; name the archives, such as FOLDER/*.warc.gz; '"),
            (("fetch", "-O", "a", "b"), "unknown option -O; write -o FILE; '"),
            (("fetch", "--from=2016", "a"), "unknown option --from; with --all it is a parameter of QUERY, "),
            (("cdx", "--from", "a"), "unknown option --from; write 'from' or 'to' without --; '"),
        ):
            self.expect_usage_error(wanted, *words)
        status, found, said = self.run_command(sys.executable, GATEWAY, "-t", "4", "--indexes", "a")
        self.assertEqual((2, ""), (status, found))
        self.assertIn("unknown option -t; write --workers WORKERS; '", said)

    def test_a_value_is_named_and_what_it_may_be(self) -> None:
        for words, wanted in (
            (("update", "--jobs", "auto", "a", "b"), "--jobs: a number from 1 to 999, and not 'auto'; '"),
            (("update", "--types", "html", "a", "b"), ", each once at most, with ',' between, and not 'html'; '"),
            (("update", "--remove", "ALL", "a", "b"), "a number of archives, 0% to 100% of them, or all, and not 'ALL'; '"),
            (("update", "--recursive=yes", "a", "b"), " 'yes'; write --recursive; '"),
            (("update", "a", "b.cdxj.gz"), "an index isn't compressed: leave out the .gz of INDEX; '"),
            (("update", "a"), ": INDEX; write warcdx-update [OPTION..] FOLDER INDEX; '"),
            (("verify", "a", "--jobs"), "argument --jobs: expected one argument; write --jobs N; '"),
            (("verify",), "FILE; write warcdx-verify [OPTION..] FILE..; '"),
            (("fetch", "--index", "a", "--at", "today", "b"), "or 2016-09-19, or 14 digits, and not 'today'; '"),
            (
                ("fetch", "--index", "a", "--all", "-o", "b.wacz", "c"),
                "the name of a new archive ends with .warc.gz, and not as 'b.wacz'; '",
            ),
            (("fetch", "--index", "a"), "URL; write warcdx-fetch [OPTION..] URL or warcdx-fetch --all [OPTION..] -o OUTPUT QUERY; '"),
            (("cdx", "a.cdx"), "'a.cdx' is no command: write 'to' before indexes, and 'from' before CDX files; '"),
            (("cdx", "to", "-o", "a.cdx.GZ"), "leave out its .gz, or write | gzip > FILE in place of -o; '"),
        ):
            self.expect_usage_error(wanted, *words)

    def expect_usage_error(self, wanted: str, *words: str) -> None:
        status, found, said = self.run_on_program(*words)
        self.assertEqual((2, "", 1), (status, found, said.count("\n")), words)
        self.assertIn(wanted, said)
        self.assertEqual([], list(self.folder.iterdir()))

    def test_the_folder_of_an_output_that_is_not_there(self) -> None:
        index, query = self.put(lines(1), "a.cdxj"), "url=example.com/*"
        (self.folder / "data").mkdir()
        for words in (
            ("update", "data", "no/such"), ("update", "data", "no/such/"), ("cdx", "to", "-o", "no/such", index), ("verify", "-o", "no/such", index),
            ("fetch", "--index", index, "--all", "-o", "no/such", query), ("fetch", "--index", index, "--all", "-o", "no/such/", query),
        ):  # fmt: skip
            status, found, said = self.run_on_program(*words)
            self.assertEqual((3, "", 1), (status, found, said.count("\n")), said)
            self.assertIn(": No such file or directory: its folder isn't there\n", said)

    def test_a_folder_without_archives(self) -> None:
        (self.folder / "data").mkdir()
        wanted = "all.cdxj.d: 0 captures of 0 archives; no name in FOLDER ends with .warc or .warc.gz\n"
        self.assertEqual((0, "", f"warcdx-update: {wanted}"), self.run_on_program("update", "data", "all.cdxj.d"))

    def test_a_database_that_is_none(self) -> None:
        (self.folder / "data").mkdir()
        self.assertEqual(0, self.run_on_program("update", "--quiet", "data", "all.cdxj.d")[0])
        (self.folder / "all.cdxj.d/state.db").write_text(1000 * "x")
        status, _, said = self.run_on_program("update", "data", "all.cdxj.d")
        self.assertEqual(3, status)
        self.assertIn("state.db: file is not a database; restore it from a backup, or move the index away and make it anew\n", said)

    def test_an_archive_that_is_another_one(self) -> None:
        index = self.put(lines(1), "a.cdxj")
        name = json.loads(index.read_text().partition("{")[1] + index.read_text().partition("{")[2])["filename"]
        (self.folder / name).write_bytes((SAMPLES / "response.warc").read_bytes())
        wanted = "NoRecord: it isn't the archive that was indexed: index it anew, or name another folder by --archives\n"
        for words in ((), ("--all", "-o", "new")):
            status, _, said = self.run_on_program("fetch", "--index", index, *words, "http://example.com/0000000")
            self.assertEqual(1, status)
            self.assertIn(wanted, said)

    def test_what_precedes_is_missing(self) -> None:
        for words, wanted in (
            (("fetch", "http://example.com/", "a.cdxj"), "give one URL, and not 'a.cdxj' too; an index follows --index"),
            (("fetch", "--index", "a.cdxj", ""), "URL: the name is empty"),
            (("cdx", "a.cdx"), "write 'to' before indexes, and 'from' before CDX files"),
        ):
            status, found, said = self.run_on_program(*words)
            self.assertEqual((2, ""), (status, found), words)
            self.assertIn(wanted, said)

    def test_a_parameter_that_the_command_gives(self) -> None:
        index = self.put(lines(1), "a.cdxj")
        status, found, said = self.run_on_program("fetch", "--index", index, "--all", "-o", "new", "url=example.com/*&output=json")
        self.assertEqual((1, ""), (status, found))
        self.assertIn("RepeatedParameter in output: warcdx-fetch gives output, fl and showResumeKey itself", said)

    def test_a_blank_in_place_of_the_parameters(self) -> None:
        status, found, said = self.run_on_program(
            "fetch", "--index", self.put(lines(1), "a.cdxj"), "--all", "-o", "new", "example.com/* from=2016"
        )
        self.assertEqual((1, ""), (status, found))
        self.assertIn("; & precedes each parameter of a query, as in 'url=example.com/*&from=2016', and %20 is a space\n", said)

    def test_a_star_alone(self) -> None:
        status, found, said = self.run_on_program("fetch", "--index", self.put(lines(1), "a.cdxj"), "--all", "-o", "new", "*")
        self.assertEqual((1, ""), (status, found))
        self.assertIn("BadUrl in url: it is an address such as example.com/a, ", said)
        self.assertIn("; key=&matchType=prefix selects all captures\n", said)

    def test_one_archive(self) -> None:
        (self.folder / "data").mkdir()
        (self.folder / "data/a.warc").write_bytes((SAMPLES / "response.warc").read_bytes())
        status, found, said = self.run_on_program("update", "data", "all.cdxj.d")
        self.assertEqual((0, ""), (status, found))
        self.assertIn("warcdx-update: all.cdxj.d: 1 capture of 1 archive (1 indexed)\n", said)

    def test_a_folder_that_was_moved(self) -> None:
        (self.folder / "data").mkdir()
        self.assertEqual(0, self.run_on_program("update", "--quiet", "data", "all.cdxj.d")[0])
        (self.folder / "data").rename(self.folder / "moved")
        status, found, said = self.run_on_program("update", "moved", "all.cdxj.d")
        self.assertEqual((3, ""), (status, found))
        self.assertIn("data; give another INDEX, or, if that was moved, write its new path into state.db as docs/FOLDER.md says\n", said)

    def test_several_archives_for_one_folder(self) -> None:
        status, found, said = self.run_on_program("update", "a.warc", "b.warc", "all.cdxj")
        self.assertEqual((2, ""), (status, found))
        self.assertIn("give one FOLDER, whose archives are found, and one INDEX, and not 'all.cdxj' too", said)

    def test_a_folder_that_is_not_there(self) -> None:
        for folder, wanted in (
            ("nosuch", "; FOLDER comes first, and INDEX after it"),
            ("data*", "; no file has a name of this pattern"),
            ("http://a/b", "; it is a URL, and only files are read: fetch it first"),
        ):
            status, found, said = self.run_on_program("update", folder, "all.cdxj.d")
            self.assertEqual((3, ""), (status, found))
            self.assertEqual(f"warcdx-update: all.cdxj.d: {folder}: No such file or directory{wanted}\n", said)
        self.assertEqual([], list(self.folder.iterdir()))

    def test_an_archive_for_a_folder(self) -> None:
        (self.folder / "a.warc").touch()
        status, found, said = self.run_on_program("update", "a.warc", "all.cdxj.d")
        self.assertEqual((3, "", 1), (status, found, said.count("\n")))
        self.assertIn("a.warc is a file; FOLDER is the folder that has the archives", said)
        self.assertFalse((self.folder / "all.cdxj.d").exists())

    def run_on_program(self, name: str, *words: object) -> "tuple[int, str, str]":
        return self.run_command(sys.executable, PYTHON / f"bin/warcdx-{name}", "--program", os.path.abspath(PROGRAM), *words)


class Signals(unittest.TestCase):
    def test_a_signal_while_arguments_are_read(self) -> None:
        """Whenever it comes, what it raises is raised."""
        parser = Parser("command")
        parser.add_output("FILE", "a file")
        parser.add_argument("files", nargs="*")
        calls, words = 0, ["a", "-o", "b", "c"]

        def trace(frame: FrameType, event: str, argument: Any) -> Any:
            nonlocal calls
            calls -= 1
            if not calls:
                raise Ended(signal.SIGTERM)
            return trace

        for number in range(1, 5000):
            calls, usual = number, sys.gettrace()
            sys.settrace(trace)
            try:
                given = parser.parse(words)
            except Ended:
                continue
            finally:
                sys.settrace(usual)
            self.assertEqual((["a", "c"], "b"), (given.files, given.output))
            self.assertGreater(number, 100)
            return
        self.fail("it doesn't end")


class OldPython(Runs):
    def put_python(self, name: str) -> None:
        path = self.put('#!/bin/sh\necho "$0" "$@"\n', name)
        path.chmod(0o755)

    def run_as(self, version: "tuple[int, int]", script: pathlib.Path) -> "tuple[int, str, str]":
        return self.run_command(sys.executable, "-c", AS_PYTHON % version, script, "--help", PATH=str(self.folder))

    def test_a_sentence_says_which_version_is_needed(self) -> None:
        for script, version, wanted in ((COMMANDS[0], (3, 8), "3.9"), (GATEWAY, (3, 8), "3.11"), (GATEWAY, (3, 10), "3.11")):
            said = f"{script.name}: it needs Python {wanted} or later, and {sys.executable} is Python {version[0]}.{version[1]}\n"
            self.put_python("python3.8")
            self.assertEqual((3, "", said), self.run_as(version, script))

    @unittest.skipIf(sys.prefix != sys.base_prefix, "a virtual environment has one Python alone")
    def test_a_newer_one_of_the_path_runs_the_command(self) -> None:
        for name in ("python3.10", "python3.12", "python3.13"):
            self.put_python(name)
        for script, version, wanted in (
            (COMMANDS[0], (3, 8), "python3.10"),
            (GATEWAY, (3, 8), "python3.12"),
            (GATEWAY, (3, 10), "python3.12"),
        ):
            self.assertEqual((0, f"{self.folder}/{wanted} {script} --help\n", ""), self.run_as(version, script))


if __name__ == "__main__":
    unittest.main()
