#!/usr/bin/env python3
"""Runs each command of warcdx on devices that fail: full disks, readers that leave, pipes and sockets, files that are cut.

usage: real_devices.py [PROGRAM]

Each run has to end within 60 s, with an exit status and the line on standard error that docs/COMMANDS.md gives. What it wrote is a prefix of what
it writes otherwise. An index that was broken off is refused by `check`, unless it ends with a whole line. A full disk is a small tmpfs, if the
script may mount one.

Prints a line for each case, and the counts. The exit status is 0, or 1 if a case differs.
"""
import contextlib
import os
import pathlib
import re
import resource
import signal
import socket
import subprocess
import sys
import threading
import time
from collections.abc import Callable, Iterator, Sequence
from typing import BinaryIO, Optional

sys.path.insert(0, str(pathlib.Path(__file__).resolve().parents[1]))

from cut_files import TRIES, a_file_of_long_blocks_that_is_cut, state
from device_runs import ASKED, LONG, SECONDS, Place, ended, expect, of_input, position, try_ways
from preloaded_runs import ALL
from program import without_advice

READ_IN_ORDER = ("list", "verify", "index", "get", "scan")  # the commands that read archives
STARTED = 1 << 16  # bytes that a process has read at most before it reads a file


def expect_failed_output(place: Place, words: Sequence[str], written: bytes, status: int, error: bytes, usual: bytes) -> None:
    """The output failed, and what it took is a prefix of the usual one."""
    expect(status == 3 and error in (b"warcdx: Write\n", b"warcdx: cannot flush\n"), status, error)
    expect(usual.startswith(written), "wrote", written[-300:])
    if words[0] in ("index", "merge") or "output=cdxj" in words[1]:
        expect_broken_index(place, written)


def expect_broken_index(place: Place, written: bytes) -> None:
    """`check` counts the whole lines, or refuses the last."""
    (place.folder / "written").write_bytes(written)
    status, output, error = place.run(("check", "written"))
    start = written.rfind(b"\n") + 1
    whole = written.count(b"\n") + written[start:].endswith(b"}")
    if start == len(written) or written.endswith(b"}"):
        expect((status, output, error) == (0, b"written %d\n" % whole, b""), status, output, error)
    else:
        expect((status, output, error) == (1, b"", b"warcdx: written: BadLine %d\n" % start), status, output, error)


# ---- outputs


def limit_files(size: int) -> Callable[[], None]:
    def limit() -> None:
        resource.setrlimit(resource.RLIMIT_FSIZE, (size, size))

    return limit


def a_file_that_may_not_grow(place: Place) -> Iterator[str]:
    """Everything up to the limit is written. Python ignores SIGXFSZ, and with `restore_signals=False` so does the program."""
    for name, words in LONG.items():
        usual = place.usual(words)
        for size in (0, 1, 4096, 70_000, len(usual) - 1):
            with open(place.folder / "output", "wb") as output:
                devices = {"stdout": output, "preexec_fn": limit_files(size), "restore_signals": False}
                status, _, error = place.run(words, **devices)
            written = (place.folder / "output").read_bytes()
            expect(len(written) == size, name, size, len(written))
            expect_failed_output(place, words, written, status, error, usual)
        yield name


def a_full_disk(place: Place) -> Iterator[str]:
    disk = place.folder / "disk"
    disk.mkdir()
    if subprocess.run(("mount", "-t", "tmpfs", "-o", "size=64k", "tmpfs", disk), stderr=subprocess.DEVNULL, check=False).returncode:
        yield "no tmpfs can be mounted: left out"
        return
    try:
        for name, words in LONG.items():
            usual = place.usual(words)
            with open(disk / "output", "wb") as output:
                status, _, error = place.run(words, stdout=output)
            written = (disk / "output").read_bytes()
            expect(len(written) == 65_536, name, len(written))
            expect_failed_output(place, words, written, status, error, usual)
            yield name
    finally:
        subprocess.run(("umount", disk), check=True)


def a_reader_that_leaves(place: Place) -> Iterator[str]:
    """Like `head -c 1`."""
    for name, words in LONG.items():
        usual = place.usual(words)
        process = place.start(words, stdin=subprocess.PIPE)
        writer = threading.Thread(target=write_all, args=(process.stdin, ASKED if name == "serve" else b""))
        writer.start()
        first = process.stdout.read(1)
        process.stdout.close()
        error = without_advice(process.stderr.read())
        writer.join()
        expect_failed_output(place, words, first, process.wait(SECONDS), error, usual)
        yield name


def write_all(pipe: BinaryIO, lines: bytes) -> None:
    with contextlib.suppress(BrokenPipeError), pipe:
        pipe.write(lines)


def an_output_that_would_block(place: Place) -> Iterator[str]:
    """A pipe that is full."""
    for name, words in LONG.items():
        usual = place.usual(words)
        reader, writer = os.pipe()
        os.set_blocking(writer, False)
        status, _, error = place.run(words, stdout=writer)
        os.close(writer)
        with open(reader, "rb") as pipe:
            written = pipe.read()
        expect_failed_output(place, words, written, status, error, usual)
        yield name


def an_output_that_is_the_input(place: Place) -> Iterator[str]:
    """The file grows while it is read. Of an index nothing behind its size at first is read, and a report is no record."""
    for name, words in LONG.items():
        usual = place.usual(words)
        if name == "check":
            continue
        text = (place.folder / words[-1]).read_bytes()
        (place.folder / "own").mkdir(exist_ok=True)
        own = place.folder / "own" / words[-1]
        own.write_bytes(text)
        with open(own, "ab") as output:
            status, _, error = place.run((*words[:-1], f"own/{words[-1]}"), stdout=output)
        wanted, end = (1, b"fault %d Version\n" % len(text)) if name in ("list", "verify") else (0, b"")
        written = own.read_bytes()[len(text) :]
        expect((status, error) == (wanted, b"") and written == usual + end, words, status, error, written[-99:])
        yield name


def no_standard_error(place: Place) -> Iterator[str]:
    """The messages are lost, and the exit status stays."""
    archives, indexes = of_input("missing")
    for words in archives + indexes:
        status, output, _ = place.run(words, preexec_fn=lambda: os.close(2))
        expect((status, output) == (3, b""), words, status, output)
        yield words[0]


def neither_input_nor_output(place: Place) -> Iterator[str]:
    def close() -> None:
        os.close(0)
        os.close(1)

    for words in of_input("-")[0][:4]:
        status, _, error = ended(place.start(words, preexec_fn=close))
        wanted = b"warcdx: cannot flush\n" if words[0] in ("list", "verify") else b"warcdx: -: fault 0 Read\n"
        expect((status, error) == (3, wanted), words, status, error)
        yield words[0]


def nothing_open(place: Place) -> Iterator[str]:
    """Files are opened under the numbers of standard input, output and error, and are not written."""
    for words in of_input("one.warc")[0] + of_input("one.cdxj")[1][:4]:
        before = (place.folder / words[-1]).read_bytes()
        process = place.start(words, preexec_fn=lambda: os.closerange(0, 3))
        expect(ended(process)[0] == 3 and (place.folder / words[-1]).read_bytes() == before, words, process.returncode)
        yield words[0]


# ---- inputs


def no_input(place: Place) -> Iterator[str]:
    """It is of no account if no argument names it."""
    for words in of_input("one.warc")[0] + of_input("one.cdxj")[1][:4]:
        found = place.run(words, preexec_fn=lambda: os.close(0))
        expect(found == (0, place.usual(words), b""), words, found)
        yield words[0]


def a_fifo(place: Place) -> Iterator[str]:
    """An archive is read from it. An index can't be sought in it."""
    os.mkfifo(place.folder / "fifo")
    archive = (place.folder / "one.warc").read_bytes()
    archives, indexes = of_input("fifo")
    for words, regular in zip(archives, of_input("one.warc")[0]):
        for text, status, error in ((archive, 0, b""), (archive[:-1], 1, b"warcdx: fifo: fault 0 Closing\n")):
            writer = threading.Thread(target=lambda: (place.folder / "fifo").write_bytes(text))
            writer.start()
            found = place.run(words)
            writer.join()
            output = place.usual(regular).replace(b"one.warc", b"fifo") if not status else found[1]
            if words[0] in ("list", "verify") and status:
                output, error = b"fault 0 Closing\n", b""
            expect(found == (status, output, error), words, found)
        yield words[0]
    both = os.open(place.folder / "fifo", os.O_RDWR)
    for words in indexes:
        found = place.run(words)
        expect(found == (3, b"", b"warcdx: fifo: Read\n"), words, found)
        yield words[0]
    os.close(both)


def a_socket(place: Place) -> Iterator[str]:
    """One in the file system can't be opened. One that is standard input is read."""
    listener = socket.socket(socket.AF_UNIX)
    listener.bind(str(place.folder / "socket"))
    archives, indexes = of_input("socket")
    for words in archives + indexes:
        found = place.run(words)
        expect(found == (3, b"", b"warcdx: socket: cannot open\n"), words, found)
        yield words[0]
    for words, regular in zip(of_input("-")[0], of_input("one.warc")[0]):
        here, there = socket.socketpair()
        with here, there:
            here.sendall((place.folder / "one.warc").read_bytes())
            here.shutdown(socket.SHUT_WR)
            found = place.run(words, stdin=there)
        expect(found == (0, place.usual(regular).replace(b"one.warc", b"-"), b""), words, found)
        yield f"{words[0]} -"


def a_file_that_may_not_be_read(place: Place) -> Iterator[str]:
    if os.getuid():
        yield "only root may give up its rights: left out"
        return
    place.folder.chmod(0o755)
    (place.folder / "secret").write_bytes(b"")
    (place.folder / "secret").chmod(0)
    archives, indexes = of_input("secret")
    for words in archives + indexes:
        found = place.run(words, user=65_534)
        expect(found == (3, b"", b"warcdx: secret: cannot open\n"), words, found)
        yield words[0]


def few_open_files(place: Place) -> Iterator[str]:
    """A file is closed before the next is opened, but for the commands that read all of them at once."""
    for words in (*of_input("one.warc")[0][:2], ("check", "one.cdxj")):
        many = (words[0], *words[1:] * 50)
        found = place.run(many, preexec_fn=limit_open_files)
        expect(found == (0, place.usual(many), b""), words, found)
        yield f"{words[0]}, one after another"
    for name in ("merge", "query", "pages", "serve", "scan"):
        *words, file = next(words for words in of_input("one.warc")[0] + of_input("one.cdxj")[1] if words[0] == name)
        found = place.run((*words, *[file] * 50), preexec_fn=limit_open_files)
        expect(found == (3, b"", f"warcdx: {file}: cannot open\n".encode()), words, found)
        yield f"{name}, all at once"


def limit_open_files() -> None:
    resource.setrlimit(resource.RLIMIT_NOFILE, (16, 16))


def a_loop_of_links(place: Place) -> Iterator[str]:
    (place.folder / "loop").symlink_to("loop")
    archives, indexes = of_input("loop")
    for words in archives + indexes:
        found = place.run(words)
        expect(found == (3, b"", b"warcdx: loop: cannot open\n"), words, found)
        yield words[0]


def an_input_that_would_block(place: Place) -> Iterator[str]:
    """A pipe that is empty."""
    reader, writer = os.pipe()
    os.set_blocking(reader, False)
    for words in of_input("-")[0]:
        found = place.run(words, stdin=reader)
        wanted = (b"fault 0 Read\n", b"") if words[0] in ("list", "verify") else (b"", b"warcdx: -: fault 0 Read\n")
        expect(found == (3, *wanted), words, found)
        yield words[0]
    found = ended(place.start(("serve", "one.cdxj"), stdin=reader))
    expect(found == (3, b"", b"warcdx: Input\n"), found)
    os.close(reader)
    os.close(writer)
    yield "serve"


def a_run_that_is_stopped(place: Place) -> Iterator[str]:
    """It continues where it was stopped."""
    for words in (*of_input("-")[0], ("serve", "one.cdxj")):
        lines = ASKED if words[0] == "serve" else (place.folder / "one.warc").read_bytes()
        process = place.start(words, stdin=subprocess.PIPE)
        process.stdin.write(lines[:20])
        process.stdin.flush()
        time.sleep(0.1)
        for sign in (signal.SIGSTOP, signal.SIGCONT) * 2:
            process.send_signal(sign)
            time.sleep(0.02)
        found = ended(process, lines[20:])
        expect(found == place.run(words, lines), words, found)
        yield words[0]


def a_file_that_is_cut(place: Place) -> Iterator[str]:
    """It is cut while it is read: an archive ends early, and an index can't be read."""
    text = (place.folder / "many.warc").read_bytes()
    lines = (place.folder / "many.cdxj").read_bytes()
    archives = (("list", "cut"), ("verify", "cut"), ("index", "cut"), ("get", str(len(text) * 11), "cut"), ("scan", "9", ALL, "cut"))
    for words in archives:
        (place.folder / "cut").write_bytes(text * 12)
        status, output, error = cut_while_read(place, words)
        said = output if words[0] in ("list", "verify") else error
        ends = re.search(rb"(^|: )fault \d+ (ShortHead|ShortBlock|Closing|Version)\n\Z", said, re.MULTILINE)
        expect(status == 1 and ends, words, status, said[-99:])
        expect(words[0] not in ("get", "scan") or not output, words, output)
        if words[0] == "index":
            expect_broken_index(place, output)
        yield words[0]
    indexes = (("merge", "cut"), ("check", "cut"), ("query", f"{ALL}&output=json", "cut"), ("pages", "99", ALL, "cut"), ("serve", "cut"))
    for words in indexes:
        (place.folder / "cut").write_bytes(b"".join(lines.replace(b"com,", b"com%d," % number) for number in range(10, 30)))
        whole = place.usual(words)
        status, output, error = cut_while_read(place, words)
        expect((status, error) == (3, b"warcdx: cut: Read\n") and whole.startswith(output) and output != whole, words, status, error)
        if words[0] == "merge":
            expect_broken_index(place, output)
        yield words[0]


def cut_while_read(place: Place, words: Sequence[str]) -> tuple[int, bytes, bytes]:
    """Returns how a run ended whose file was cut while it was read. A run that had read the file before is tried again."""
    runs = (run_and_cut(place, words) for _ in range(TRIES))
    run = next(filter(None, runs), None)
    expect(run, words, "has always read the file before it could be cut")
    return run


def run_and_cut(place: Place, words: Sequence[str]) -> Optional[tuple[int, bytes, bytes]]:
    """Returns how a run ended whose file was cut once it had begun to read, or none if it had read the file before."""
    process = place.start(words, stdin=subprocess.PIPE)
    output, error = [], []
    readers = [
        threading.Thread(target=lambda: output.append(process.stdout.read())),
        threading.Thread(target=lambda: error.append(process.stderr.read())),
    ]
    write_all(process.stdin, ASKED if words[0] == "serve" else b"")
    path = place.folder / words[-1]
    while process.poll() is None and not read_of(process.pid, words, path):
        pass
    is_cut = cut_to_half(process, words, path)
    for reader in readers:  # not before, so that a run with a long output waits for them
        reader.start()
    for reader in readers:
        reader.join()
    status = process.wait(SECONDS)
    return (status, output[0], without_advice(error[0])) if is_cut else None


def read_of(process: int, words: Sequence[str], path: pathlib.Path) -> int:
    """Returns how far a file was read: the position in it or, as an index is read at offsets, all bytes that the process has read."""
    if words[0] in READ_IN_ORDER:
        return position(process, path)
    with contextlib.suppress(OSError):
        count = int(pathlib.Path(f"/proc/{process}/io").read_text().split()[1])
        return count if count > STARTED else 0
    return 0


def cut_to_half(process: "subprocess.Popen[bytes]", words: Sequence[str], path: pathlib.Path) -> bool:
    """Stops the program, cuts the file near its middle or before unless it has been read, and lets the program go on."""
    process.send_signal(signal.SIGSTOP)
    while process.poll() is None and state(process) != "T":
        time.sleep(0.001)
    at, size = read_of(process.pid, words, path), path.stat().st_size
    is_read = process.returncode is not None or at >= size
    if not is_read:
        os.truncate(path, min(at, size // 2) + 50)
    process.send_signal(signal.SIGCONT)
    return not is_read


WAYS = (
    a_file_that_may_not_grow,
    a_full_disk,
    a_reader_that_leaves,
    an_output_that_would_block,
    an_output_that_is_the_input,
    no_standard_error,
    neither_input_nor_output,
    nothing_open,
    no_input,
    a_fifo,
    a_socket,
    a_file_that_may_not_be_read,
    few_open_files,
    a_loop_of_links,
    an_input_that_would_block,
    a_run_that_is_stopped,
    a_file_that_is_cut,
    a_file_of_long_blocks_that_is_cut,
)


if __name__ == "__main__":
    sys.exit(try_ways(__doc__, WAYS))
