"""Digests of blocks and payloads, and the command warcdx-verify.

The digests of `abc` are those of FIPS 180-4 and RFC 1321, and their base 32 is that of GNU coreutils.
"""
import gzip
import hashlib
import json
import os
import pathlib
import resource
import signal
import subprocess
import sys
import time
import unittest
from typing import Any, Optional

from warcdx import Archive
from warcdx.record_digests import Digest, verdicts_of
from warcdx.record import CLOSING, Head

from .support import ENDING, PROGRAM, SAMPLES, WAIT, Case, wait_until_caught

COMMAND = pathlib.Path(__file__).resolve().parents[1] / "bin/warcdx-verify"
# Of `abc`, in base 32 and in hexadecimal digits.
OF_ABC = (
    "md5:SAAVBGB42JH3BVUWH56SRYL7OI======",
    "md5:900150983cd24fb0d6963f7d28e17f72",
    "sha1:VGMT4NSHA2AWVOR6EVYXQUGCNSONBWE5",
    "sha1:a9993e364706816aba3e25717850c26c9cd0d89d",
    "sha256:XJ4BNP4PAHH6UQKBIDPF3LRCEOYAGYNDSYLXVHFUCD7WD4QACWWQ====",
    "sha256:ba7816bf8f01cfea414140de5dae2223b00361a396177a9cb410ff61f20015ad",
    "sha512:3WXTLIMTMF5LVTCBONE24ICBGEJON6SORGUX5IQKT3XOMS2V2ONCDEUZFITU7QNIG25DYI5D73V32RKNIQRWIPHIBYVJVSKPUVGKJHY=",
    "sha512:ddaf35a193617abacc417349ae20413112e6fa4e89a97ea20a9eeee64b55d39a"
    "2192992a274fc1a836ba3c23a3feebbd454d4423643ce80e2a9ac94fa54ca49f",
)
SHA1_OF_NOTHING = "sha1:3I42H3S6NNFQ2MSVX7XZKYAYSCX5QBYJ"
HTTP = b"HTTP/1.1 200 OK\r\nContent-Type: text/plain\r\n\r\n"
CHUNKED = b"HTTP/1.1 200 OK\r\nTransfer-Encoding: Chunked\r\n\r\n"


def sha1_of(text: bytes) -> str:
    return f"sha1:{hashlib.sha1(text).hexdigest()}"


def record(block: bytes, digest: Optional[str] = None, payload: Optional[str] = None, kind: str = "response", *others: str) -> bytes:
    """Returns a record with these digests."""
    fields = [
        f"WARC-Type: {kind}", "WARC-Record-ID: <urn:x>", "WARC-Date: 2016-01-01T00:00:00Z",
        "WARC-Target-URI: http://example.com/", f"Content-Length: {len(block)}", *others
    ]  # fmt: skip
    if digest is not None:
        fields.append(f"WARC-Block-Digest: {digest}")
    if payload is not None:
        fields.append(f"WARC-Payload-Digest: {payload}")
    return "\r\n".join(["WARC/1.1", *fields]).encode() + b"\r\n\r\n" + block + b"\r\n\r\n"


def http(block: bytes, digest: Optional[str] = None, payload: Optional[str] = None, *others: str) -> bytes:
    return record(block, digest, payload, "response", "Content-Type: application/http; msgtype=response", *others)


def verdicts(text: bytes, size: int = 65_536) -> str:
    """Returns the verdicts on a record whose block is read in pieces of a size."""
    head, _, rest = text.partition(CLOSING)
    block = rest.removesuffix(CLOSING)
    pieces = (block[start : start + size] for start in range(0, len(block), size))
    return " ".join(verdict.value for verdict in verdicts_of(Head(Head.fields_of(head)), len(block), pieces))


class Digests(unittest.TestCase):
    def test_values_of_standards_in_both_forms(self) -> None:
        for value in OF_ABC:
            label, _, text = value.partition(":")
            for name in (label, label.upper(), label.replace("sha", "sha-"), label.title().replace("Sha", "Sha-")):
                for form in (text, text.lower(), text.upper(), text.rstrip("=")):
                    self.assertEqual("same absent", verdicts(record(b"abc", f"{name}:{form}")), f"{name}:{form}")
                    self.assertEqual("differs absent", verdicts(record(b"abd", f"{name}:{form}")), f"{name}:{form}")

    def test_other_algorithms_and_forms_are_unknown(self) -> None:
        sha1 = "VGMT4NSHA2AWVOR6EVYXQUGCNSONBWE5"
        for value in (
            "", ":", "sha1", "sha1:", sha1, f"crc32:{sha1}", "sha384:" + "0" * 96, f"sha1:{sha1}A", f"sha1:{sha1[1:]}",
            f"sha1:{sha1}=", f"sha1:{sha1[1:]}1", f"sha1:{sha1[1:]}é", "sha1:" + "0" * 39 + "g",
            "sha1:" + "0" * 40 + "=",
            "sha1:qZk+NkcGgWq6PiVxeFDCbJzQ2J0=", "md5:SAAVBGB42JH3BVUWH56SRYL7OI=", f"sha256:{sha1}",
        ):  # fmt: skip
            self.assertIsNone(Digest.of(value), value)
            self.assertEqual("unknown unknown", verdicts(record(b"abc", value, value)), value)


class Records(unittest.TestCase):
    def test_what_has_no_digest_is_absent(self) -> None:
        self.assertEqual("absent absent", verdicts(record(b"abc")))
        self.assertEqual("absent same", verdicts(record(b"abc", None, OF_ABC[3])))

    def test_the_payload_of_http_is_its_body(self) -> None:
        good = http(HTTP + b"abc", sha1_of(HTTP + b"abc"), OF_ABC[5])
        self.assertEqual("same same", verdicts(good))
        self.assertEqual("differs differs", verdicts(good.replace(b"\r\n\r\nabc", b"\r\n\r\nabd")))
        self.assertEqual("absent same", verdicts(http(HTTP.replace(b"\r", b"") + b"abc", None, OF_ABC[3])))
        self.assertEqual("absent same", verdicts(http(HTTP, None, SHA1_OF_NOTHING)))
        self.assertEqual("absent same", verdicts(http(b"\r\n" + HTTP + b"abc", None, OF_ABC[3])))

    def test_the_payload_of_another_record_is_its_block(self) -> None:
        self.assertEqual("same same", verdicts(record(HTTP + b"abc", sha1_of(HTTP + b"abc"), sha1_of(HTTP + b"abc"))))
        self.assertEqual("absent same", verdicts(record(b"abc", None, OF_ABC[3], "resource")))

    def test_a_digest_of_a_body_with_or_without_its_chunks_is_the_same(self) -> None:
        body = b"2\r\nab\r\n1\r\nc\r\n0\r\n\r\n"
        for payload in (sha1_of(body), *OF_ABC):
            self.assertEqual("absent same", verdicts(http(CHUNKED + body, None, payload)), payload)
        for field in (b"\r\n chunked", b" identity, chunked", b" chunked\r\nTransfer-Encoding: chunked", b"chunked;a=b"):
            named = HTTP[:-2] + b"Transfer-Encoding :" + field + b"\r\n\r\n"
            self.assertEqual("absent same", verdicts(http(named + body, None, OF_ABC[3])), field)
        packed = gzip.compress(b"abc", mtime=0)
        named = CHUNKED.replace(b"Chunked", b"gzip, chunked")
        for payload in (sha1_of(b"%x\r\n%b\r\n0\r\n\r\n" % (len(packed), packed)), OF_ABC[3]):
            self.assertEqual("absent same", verdicts(http(named + b"%x\r\n%b\r\n0\r\n\r\n" % (len(packed), packed), None, payload)))
        self.assertEqual("absent differs", verdicts(http(HTTP + body, None, OF_ABC[3])))
        # One that is named as in chunks and isn't, as browsers give it.
        self.assertEqual("absent same", verdicts(http(CHUNKED + b"abc", None, OF_ABC[3])))
        cut, longer = CHUNKED + body[:9], CHUNKED + body + b"more"
        self.assertEqual("same same", verdicts(http(cut, sha1_of(cut), sha1_of(body[:9]))))
        self.assertEqual("absent differs", verdicts(http(CHUNKED + body[:-5], None, OF_ABC[3])))
        self.assertEqual("same same", verdicts(http(longer, sha1_of(longer), OF_ABC[3])))

    def test_a_payload_that_is_not_in_the_record_is_not_compared(self) -> None:
        for kind in ("revisit", "continuation", "Revisit"):
            self.assertEqual("same elsewhere", verdicts(record(b"abc", OF_ABC[3], SHA1_OF_NOTHING, kind)))
            self.assertEqual("same absent", verdicts(record(b"abc", OF_ABC[3], None, kind)))
        segment = record(b"abc", OF_ABC[3], SHA1_OF_NOTHING, "response", "WARC-Segment-Number: 1")
        self.assertEqual("same elsewhere", verdicts(segment))

    def test_the_digest_of_no_bytes_in_a_revisit_is_empty(self) -> None:
        self.assertEqual("empty absent", verdicts(record(b"abc", SHA1_OF_NOTHING, None, "revisit")))
        self.assertEqual("differs absent", verdicts(record(b"abc", SHA1_OF_NOTHING)))
        self.assertEqual("differs absent", verdicts(record(b"abd", OF_ABC[3], None, "revisit")))
        self.assertEqual("same absent", verdicts(record(b"", SHA1_OF_NOTHING, None, "revisit")))

    def test_pieces_of_any_size_give_the_same(self) -> None:
        body = b"2;a=b\r\nab\r\n1\r\nc\r\n0\r\n\r\n"
        for text, wanted in (
            (http(CHUNKED + body, sha1_of(CHUNKED + body), OF_ABC[5]), "same same"),
            (http(CHUNKED + body, sha1_of(CHUNKED + body), sha1_of(body)), "same same"),
            (http(CHUNKED + body, sha1_of(body), OF_ABC[5].replace("ba", "ab")), "differs differs"),
            (http(HTTP + b"abc", OF_ABC[0], OF_ABC[7]), "differs same"),
            (http(HTTP[:-2], sha1_of(HTTP[:-2]), OF_ABC[7]), "same unknown"),
            (record(b"", SHA1_OF_NOTHING, SHA1_OF_NOTHING), "same same"),
        ):
            self.assertEqual({wanted}, {verdicts(text, size) for size in range(1, len(text) + 1)})

    def test_chunks_that_are_none(self) -> None:
        for body in (
            b"3\r\nabcd\r\n0\r\n\r\n", b"3\r\nabc0\r\n\r\n", b"x\r\nabc\r\n0\r\n",
            b"3" + b" " * 17_000 + b"\r\nabc\r\n0\r\n",
        ):  # fmt: skip
            for size in (1, 5, 65_536):
                self.assertEqual("absent differs", verdicts(http(CHUNKED + body, None, OF_ABC[3]), size), body[:20])
                self.assertEqual("absent same", verdicts(http(CHUNKED + body, None, sha1_of(body)), size), body[:20])

    def test_a_block_without_the_end_of_an_http_head_is_unknown(self) -> None:
        for block in (b"HTTP/1.1 200 OK\r\nA: b\r\n", b"HTTP/1.1 200 OK\r\nA: " + b"x" * 1_100_000):
            self.assertEqual("same unknown", verdicts(http(block, sha1_of(block), sha1_of(block))))

    def test_a_block_without_an_http_head_is_a_payload_if_its_digest_says_so(self) -> None:
        for block in (b"", b"abc", b"<p>\n\nabc", b"x" * 1_100_000):
            self.assertEqual("same same", verdicts(http(block, sha1_of(block), sha1_of(block))))
            self.assertEqual("same unknown", verdicts(http(block, sha1_of(block), sha1_of(b"other"))))


class Command(Case):
    def put_bytes(self, text: bytes, name: str = "a.warc") -> str:
        (self.folder / name).write_bytes(text)
        return name

    def run_command(self, *arguments: str, **more: Any) -> tuple[str, str, int]:
        done = subprocess.run(
            (sys.executable, COMMAND, "--program", os.path.abspath(PROGRAM), *arguments),
            cwd=self.folder, capture_output=True, text=True, errors="surrogateescape", **more,
        )  # fmt: skip
        return done.stdout, done.stderr, done.returncode

    def test_each_record_has_a_line(self) -> None:
        texts = [record(b"abc", OF_ABC[5]), http(HTTP + b"abc", None, OF_ABC[7]), record(b"abc")]
        wanted = "0 same absent\n%d absent same\n%d absent absent\n" % (len(texts[0]), len(texts[0] + texts[1]))
        self.assertEqual((wanted, "", 0), self.run_command(self.put_bytes(b"".join(texts))))
        members = [gzip.compress(text, mtime=0) for text in texts]
        wanted = "0 same absent\n%d absent same\n%d absent absent\n" % (len(members[0]), len(members[0] + members[1]))
        self.assertEqual((wanted, "", 0), self.run_command(self.put_bytes(b"".join(members))))

    def test_an_archive_whose_digests_were_not_compared_is_not_good(self) -> None:
        for text in (b"", record(b"abc"), record(b"abc", "crc32:1"), record(b"abc", SHA1_OF_NOTHING, None, "revisit")):
            found, said, status = self.run_command(self.put_bytes(text))
            self.assertEqual(("warcdx-verify: a.warc: no digest was compared\n", 1), (said, status))
            self.assertNotIn("same", found)

    def test_a_digest_that_differs(self) -> None:
        wanted = "0 differs absent\n", "", 1
        self.assertEqual(wanted, self.run_command(self.put_bytes(record(b"abd", OF_ABC[5]))))
        self.assertEqual(wanted, self.run_command(self.put_bytes(gzip.compress(record(b"abd", OF_ABC[5]), mtime=0))))

    def test_damage_is_on_the_last_line(self) -> None:
        good = record(b"abc", OF_ABC[5])
        for rest, cause in (
            (good[:-6], "ShortBlock"), (good[:-1], "Closing"), (b"WARC", "ShortHead"), (b"x", "Version")
        ):  # fmt: skip
            wanted = f"0 same absent\nfault {len(good)} {cause}\n"
            self.assertEqual((wanted, "", 1), self.run_command(self.put_bytes(good + rest)))
        member = gzip.compress(good, mtime=0)
        for rest, cause in (
            (member[:-1], "CutMember"), (member[:-5] + b"x" + member[-4:], "BadMember"), (b"x", "NoMember"),
            (gzip.compress(good + good, mtime=0), "SeveralRecords"), (gzip.compress(good[:-6], mtime=0), "ShortBlock"),
        ):  # fmt: skip
            wanted = f"0 same absent\nfault {len(member)} {cause}\n"
            self.assertEqual((wanted, "", 1), self.run_command(self.put_bytes(member + rest)), cause)

    def test_archives_side_by_side_are_in_the_order_of_the_arguments(self) -> None:
        names = [self.put_bytes(record(b"abc", OF_ABC[number % 8]), f"{number}.warc") for number in range(23)]
        large = record(bytes(20_000_000), f"sha512:{hashlib.sha512(bytes(20_000_000)).hexdigest()}")
        names.insert(0, self.put_bytes(large, "large"))
        names.insert(12, self.put_bytes(record(b"x", OF_ABC[0]), "bad"))
        wanted = "".join(f"{name}:\n0 {'differs' if name == 'bad' else 'same'} absent\n" for name in names)
        for jobs in ("1", "2", "4", "1000"):
            self.assertEqual((wanted, "", 1), self.run_command("--jobs", jobs, *names))
        found, said, status = self.run_command("--jobs", "3", names[1], "nosuch", names[2])
        self.assertEqual(("0.warc:\n0 same absent\n1.warc:\n0 same absent\n", 3), (found, status))
        self.assertEqual("warcdx-verify: nosuch: cannot open (No such file or directory)\n", said)

    def test_an_archive_that_takes_long_holds_no_files(self) -> None:
        slow, name = "slow", "nosuch"
        with open(self.folder / slow, "wb") as file:
            head, closing = record(b"").replace(b"Content-Length: 0", b"Content-Length: 999999999")[:-4], b"\r\n\r\n"
            file.write(head)
            file.seek(len(head) + 999_999_999)
            file.write(closing)
        limit = (64, resource.getrlimit(resource.RLIMIT_NOFILE)[1])
        names = [f"{name}{number}" for number in range(100)]  # of which none is there
        found, said, status = self.run_command(
            "--jobs", "2", slow, *names, preexec_fn=lambda: resource.setrlimit(resource.RLIMIT_NOFILE, limit)
        )
        self.assertEqual(("slow:\n0 absent absent\n", 3), (found, status))
        wanted = "".join(f"warcdx-verify: {each}: cannot open (No such file or directory)\n" for each in names)
        self.assertEqual("warcdx-verify: slow: no digest was compared\n" + wanted, said)

    def test_a_program_that_is_killed_is_said_once(self) -> None:
        program = os.path.abspath(PROGRAM)
        killed = self.script(f'[ "$1" != --help ] || exec {program} "$@"; kill -9 $$')
        folded = record(b"abc", OF_ABC[0]).replace(b"WARC-Type: ", b"WARC-Type:\r\n ")  # which only the program reads
        names = [self.put_bytes(folded, f"{number}.warc") for number in range(5)]
        for jobs in ("1", "3"):
            found, said, status = self.run_command("--program", killed, "--jobs", jobs, *names)
            self.assertEqual(("0.warc:\n", "warcdx-verify: warcdx has ended with signal 9\n", 3), (found, said, status))

    def test_names_of_all_kinds(self) -> None:
        for name in ("a\nb.warc", "a b", "\u202e", "é"):
            self.put_bytes(record(b"abc", OF_ABC[0]), name)
            self.assertEqual((f"{name}:\n0 same absent\n" * 2, "", 0), self.run_command(name, name))
        self.put_bytes(record(b"abc", OF_ABC[0]), "-x")
        for arguments in (("./-x",), ("--", "-x")):
            self.assertEqual(("0 same absent\n", "", 0), self.run_command(*arguments))
        self.assertEqual(("", 'warcdx-verify: "x\\n": cannot open (No such file or directory)\n', 3), self.run_command("x\n"))
        name = os.fsdecode(b"\xff.warc")
        self.put_bytes(record(b"abc", OF_ABC[0]), name)
        self.assertEqual(
            ("", "warcdx-verify: error: argument 3 isn't UTF-8; 'warcdx-verify --help' has the arguments\n", 2), self.run_command(name)
        )

    def test_small_records_of_a_member_each_need_no_turns(self) -> None:
        # The program lists more of them than a pipe holds, before the second reader has them.
        text = b"WARC/1.0\r\nWARC-Type:x\r\nWARC-Record-ID:\r\nWARC-Date:2016\r\nContent-Length:0\r\n\r\n\r\n\r\n"
        name = self.put_bytes(gzip.compress(text, mtime=0) * 20_000 + gzip.compress(record(b"abc", OF_ABC[0]), mtime=0))
        found, said, status = self.run_command(name, timeout=WAIT)
        self.assertEqual((20_001, "", 0), (len(found.splitlines()), said, status))

    def test_a_full_disk_is_said(self) -> None:
        name = self.put_bytes(record(b"abc", OF_ABC[0]) * 1000)
        self.expect_a_full_disk_is_said(
            COMMAND, r"(warcdx-verify: Write: File too large\n)+", (name,), ("--jobs", "2", name, name), ("--help",)
        )

    def test_a_signal_ends_it_without_a_word_and_leaves_nothing(self) -> None:
        os.mkfifo(self.folder / "pipe")  # which nobody writes, so that reading it doesn't end
        temporary = self.folder / "temporary"
        temporary.mkdir()
        for number in ENDING:
            name = self.put_bytes(record(b"abc", OF_ABC[0]))
            for arguments in (("pipe",), ("--jobs", "3", name, "pipe", "pipe", name)):
                process = subprocess.Popen(
                    (sys.executable, COMMAND, "--program", os.path.abspath(PROGRAM), *arguments), cwd=self.folder,
                    stdout=subprocess.PIPE, stderr=subprocess.STDOUT, env={**os.environ, "TMPDIR": str(temporary)},
                )  # fmt: skip
                wait_until_caught(process, signal.SIGTERM)  # until then Python itself handles SIGINT
                with self.assertRaises(subprocess.TimeoutExpired):
                    process.wait(timeout=0.2)
                process.send_signal(number)
                found = process.communicate(timeout=WAIT)[0]
                self.assertEqual(-number, process.returncode)
                self.assertTrue(b"a.warc:\n0 same absent\n".startswith(found), found)
                self.assertEqual([], list(temporary.iterdir()))

    def test_real_crawls_are_the_same(self) -> None:
        plain, said, status = self.run_command(str(SAMPLES / "wget.warc"))
        self.assertEqual(("", 0), (said, status))
        self.assertEqual({"same same", "same absent"}, {line.partition(" ")[2] for line in plain.splitlines()})
        text = (SAMPLES / "wget.warc").read_bytes()
        listed = Archive(SAMPLES / "wget.warc", program=PROGRAM).list()
        packed = b"".join(gzip.compress(text[each.offset : each.offset + each.length], mtime=0) for each in listed)
        found, said, status = self.run_command(self.put_bytes(packed))
        verdicts_of = [[line.split()[1:] for line in text.splitlines()] for text in (plain, found)]
        self.assertEqual(verdicts_of[0], verdicts_of[1])
        self.assertEqual(("", 0), (said, status))

    def test_standard_input(self) -> None:
        text = record(b"abc", OF_ABC[5])
        for given in (text, gzip.compress(text, mtime=0)):
            for redirected in (False, True):
                with open(self.folder / self.put_bytes(given), "rb") as file:
                    done = subprocess.run(
                        (sys.executable, COMMAND, "--program", os.path.abspath(PROGRAM), "-"), cwd=self.folder,
                        capture_output=True, **({"stdin": file} if redirected else {"input": given}),
                    )  # fmt: skip
                self.assertEqual((b"0 same absent\n", b"", 0), (done.stdout, done.stderr, done.returncode))
        self.put_bytes(record(b"abd", OF_ABC[5]), "-")
        self.assertEqual(("0 differs absent\n", "", 1), self.run_command("./-"))
        found, said, status = self.run_command("-", "-", input="")
        self.assertEqual(("", 2), (found, status))
        self.assertIn("standard input (-) can be read once", said)

    def test_lines_of_json(self) -> None:
        good, bad = record(b"abc", OF_ABC[5]), record(b"abd", OF_ABC[5])
        names = [self.put_bytes(good + bad + good[:-6], "a\nb"), self.put_bytes(good, "c")]
        wanted = [
            {"archive": "a\nb", "offset": 0, "block": "same", "payload": "absent"},
            {"archive": "a\nb", "offset": len(good), "block": "differs", "payload": "absent"},
            {"archive": "a\nb", "offset": 2 * len(good), "fault": "ShortBlock"},
            {"archive": "c", "offset": 0, "block": "same", "payload": "absent"},
        ]
        for words, lines in (((), wanted), (("--jobs", "2"), wanted), (("--quiet",), wanted[1:3])):
            found, _, status = self.run_command("--json", *words, *names)
            self.assertEqual((lines, 1), ([json.loads(line) for line in found.splitlines()], status))

    def test_a_new_file_has_the_lines(self) -> None:
        names = [self.put_bytes(record(b"abd", OF_ABC[5]), name) for name in ("a", "b")]
        wanted = self.run_command(*names)[0]
        for words in ((), ("--jobs", "2"), ("--jobs=2", "--resume=notes")):
            self.assertEqual(("", "", 1), self.run_command("-o", "report", *words, *names))
            self.assertEqual(wanted, (self.folder / "report").read_text())
            said = "warcdx-verify: report: it is there, and isn't replaced; give another name\n"
            self.assertEqual(("", said, 3), self.run_command("-o", "report", "--resume", "others", *names))
            (self.folder / "report").unlink()
        self.assertEqual({"a", "b", "notes"}, {path.name for path in self.folder.iterdir()})
        self.assertEqual((wanted, "", 1), self.run_command("-o", "-", *names))
        found, said, status = self.run_command("--output=nosuch/report", *names)
        self.assertEqual(
            ("", "warcdx-verify: nosuch/report: No such file or directory: its folder isn't there\n", 3), (found, said, status)
        )

    def test_a_signal_leaves_no_new_file(self) -> None:
        os.mkfifo(self.folder / "pipe")
        command = (sys.executable, COMMAND, "--program", os.path.abspath(PROGRAM), "-o", "report", "pipe")
        with subprocess.Popen(command, cwd=self.folder) as process:
            wait_until_caught(process, signal.SIGTERM)
            time.sleep(0.2)
            process.send_signal(signal.SIGTERM)
        self.assertEqual((-signal.SIGTERM, ["pipe"]), (process.returncode, os.listdir(self.folder)))

    def test_help_version_and_usage_errors(self) -> None:
        version = (COMMAND.parents[1] / "VERSION").read_text().strip()
        self.assertEqual((f"warcdx-verify {version}\n", "", 0), self.run_command("--version"))
        self.assertIn("usage: warcdx-verify ", self.run_command("-h")[0])
        for arguments in (
            (), ("--jobs", "0", "a"), ("--jobs", "x", "a"), ("--jobs",), ("--other", "a"), ("-", "-"),
            ("-o", "report", "--resume", "./report", "a"),
        ):  # fmt: skip
            self.assertEqual(("", 2), self.run_command(*arguments)[::2], arguments)
        self.assertEqual([], os.listdir(self.folder))


if __name__ == "__main__":
    unittest.main()
