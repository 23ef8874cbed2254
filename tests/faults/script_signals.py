"""Commands that are Python, and signals at several moments of a run. scripts.py imports this file."""
import os
import pathlib
import signal
import subprocess
import tempfile
import time
from collections.abc import Callable, Iterator

from device_runs import SECONDS, expect, position
from script_runs import Ended, Run

signal.signal(signal.SIGINT, signal.default_int_handler)  # a job in the background ignores it, and so would its commands

SIGNALS = (signal.SIGINT, signal.SIGTERM, signal.SIGHUP)
MOMENTS = {signal.SIGINT: 5, signal.SIGTERM: 5, signal.SIGHUP: 1}  # of the time in which the command works
STALL = 0.3  # seconds after which the output of a command is full


def at_moments(run: Run) -> Iterator[str]:
    """Each signal ends the run without a word. What was written is a part of the output."""
    seconds = working_time(run)
    for number, moments in MOMENTS.items():
        for moment in range(moments):
            process = run.start()
            wait_until(process, lambda: is_caught(process, signal.SIGTERM))
            time.sleep(seconds * moment / moments)
            expect_end_by(run, process, number)
    yield f"signals at {sum(MOMENTS.values())} moments"
    for number in SIGNALS:
        process = run.start()
        wait_until(process, lambda: is_caught(process, signal.SIGINT))
        wait_until(process, lambda: not is_caught(process, signal.SIGINT) or is_caught(process, signal.SIGTERM))
        expect_end_by(run, process, number)
    yield "signals before it works"
    process = run.start()
    time.sleep(STALL)
    process.terminate()
    status = process.wait(SECONDS)
    found = run.end_of(process)
    is_part = run.usual().output.startswith(found.output)
    expect(status == -signal.SIGTERM and not found.error and is_part, status, found.error)
    yield "a signal while its output is full"
    process = run.start(shell='trap "" INT; exec "$@"')
    wait_until(process, lambda: is_caught(process, signal.SIGTERM))
    process.send_signal(signal.SIGINT)
    expect(run.end_of(process) == run.usual(), "an ignored signal")
    yield "an ignored signal"


def before_it_serves(run: Run) -> Iterator[str]:
    """A signal ends a server as it starts, without a word. If it serves already, its exit status is 0."""
    for number in (signal.SIGINT, signal.SIGTERM):
        for seconds in (0, 0.05, 0.1, 0.2, 0.4):
            process = run.start()
            wait_until(process, lambda: is_caught(process, signal.SIGTERM))
            time.sleep(seconds)
            process.send_signal(number)
            found = run.end_of(process)
            expect(found.status in (0, -number) and not found.error, number, seconds, found)
    yield "signals before it serves"


def expect_end_by(run: Run, process: "subprocess.Popen[bytes]", number: int) -> None:
    """The process, which is sent a signal, ends by it, unless it has ended before."""
    process.send_signal(number)
    found = run.end_of(process)
    if found != run.usual():
        is_part = run.usual().output.startswith(found.output)
        expect(found.status == -number and not found.error and is_part, number, found.status, found.error)


def working_time(run: Run) -> float:
    """Returns the seconds from when the command handles signals to its end."""
    process = run.start(stdout=subprocess.DEVNULL)
    wait_until(process, lambda: is_caught(process, signal.SIGTERM))
    start = time.monotonic()
    run.end_of(process)
    return time.monotonic() - start


def wait_until(process: "subprocess.Popen[bytes]", holds: Callable[[], bool]) -> None:
    end = time.monotonic() + SECONDS
    while process.poll() is None and not holds():
        expect(time.monotonic() < end, "waited too long")
        time.sleep(0.0005)


def is_caught(process: "subprocess.Popen[bytes]", number: int) -> bool:
    try:
        status = pathlib.Path(f"/proc/{process.pid}/status").read_text()
    except OSError:
        return True
    caught = next((line.split()[1] for line in status.splitlines() if line.startswith("SigCgt:")), "0")
    return bool(int(caught, 16) >> (number - 1) & 1)


def cut_while_read(run: Run) -> Iterator[str]:
    """The archive shrinks after its first bytes were read. It is at fault there, if it wasn't read before."""
    path = run.folder / "shrinking"
    text = (run.folder / run.script.file).read_bytes()
    is_cut = False
    for _ in range(20):
        path.write_bytes(text)
        with tempfile.TemporaryFile() as output:  # which is never full, as a pipe would be that nobody reads yet
            process = run.start(words=run.script.words_for("shrinking"), stdout=output)
            wait_until(process, lambda: any(position(number, path) > 2 for number in family(process.pid)))
            process.send_signal(signal.SIGSTOP)
            os.truncate(path, len(text) // 2 + 50)
            process.send_signal(signal.SIGCONT)
            status, _, error = run.end_of(process)
            output.seek(0)
            found = Ended(status, output.read(), error)
        if (found.status, found.error) == (0, b""):
            expect(found.output == run.usual().output.replace(run.script.file.encode(), b"shrinking"), "another output")
            continue
        is_cut = True
        is_named = any(word in found.error + found.output for word in (b"fault ", b": line ", b"BadLine ", b": Read"))
        is_reported = is_named and found.error.count(b"\n") <= run.script.most_lines
        is_unread = b": Read: " in found.error or found.error.endswith(b": Read\n")  # by the program, which knows the size
        expect(found.status == (3 if is_unread else 1) and is_reported, found.status, found.error, found.output[-300:])
        break
    yield "a file that is cut" if is_cut else "a file that is cut: left out, as it was read before each time"


def family(process: int) -> list[int]:
    """Returns a process and those that it has started."""
    try:
        started = pathlib.Path(f"/proc/{process}/task/{process}/children").read_text().split()
    except OSError:
        started = []
    return [process, *map(int, started)]
