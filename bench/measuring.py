"""Measures processor time, memory and reading of programs, and compares figures with goals. The scripts of this folder import this file."""
import array
import fcntl
import os
import pathlib
import platform
import resource
import shutil
import subprocess
import sys
import termios
import time
from typing import NamedTuple, Optional

sys.path.insert(0, str(pathlib.Path(__file__).resolve().parents[1] / "tests"))

from program import add_program, find_program, parser_of

ROUNDS = 15
PIECE = 1 << 20  # bytes handed to a pipe at once
WIDTH = 44  # of a name in a table
NOWHERE = {"stdin": subprocess.DEVNULL, "stdout": subprocess.DEVNULL}
BY_HAND = pathlib.Path(__file__).with_name("by_hand") / "main.rs"


class Figure(NamedTuple):
    name: str
    found: float
    goal: Optional[float]
    unit: str = ""

    def is_met(self):
        return self.goal is None or self.found < self.goal

    def __str__(self):
        if self.goal is None:
            return f"{self.name:<{WIDTH}}{self.found:8.2f} {self.unit}"
        met = "met" if self.is_met() else "MISSED"
        return f"{self.name:<{WIDTH}}{self.found:8.2f} {self.unit:<2}  goal {self.goal:<4} {self.unit:<2}  {met}"


def report(times, figures, rounds=ROUNDS, kind="processor"):
    """Prints the seconds by name, and the figures. Returns the exit status of the script."""
    print(f"{machine()}; {kind} times, the least of {rounds} rounds\n")
    for name, seconds in times.items():
        print(f"{name:<{WIDTH}}{seconds:8.3f} s")
    print()
    for figure in figures:
        print(figure)
    return 0 if all(figure.is_met() for figure in figures) else 1


def machine():
    models = [line for line in open("/proc/cpuinfo") if line.startswith("model name")]
    return f"{models[0].split(':')[1].strip()}, {len(models)} processors, Linux {platform.release()}"


def read_program(header: Optional[str]) -> pathlib.Path:
    """Returns the program that the arguments of the script name, or that of the repository, which is built if necessary."""
    parser = parser_of(header)
    add_program(parser)
    return find_program(parser.parse_args().program)


def build_by_hand(folder: pathlib.Path) -> Optional[pathlib.Path]:
    """Builds the program by hand in a folder, or returns None if there is no rustc."""
    if shutil.which("rustc") is None:
        return None
    program = folder / "by_hand"
    subprocess.run(("rustc", "--edition=2021", "-O", "-Ctarget-cpu=x86-64-v2", BY_HAND, "-o", program), check=True)
    return program


def write_archive(archive, path):
    with open(path, "wb") as file:
        file.writelines(archive.pieces)


def expect(command, path, output):
    """Ends the script if the command writes anything else on this file."""
    with open(path, "rb") as file:
        written = subprocess.run(command, stdin=file, stdout=subprocess.PIPE, check=True).stdout
    if written != output:
        sys.exit(f"{command} does not say what stands in {path}")


def expect_named(command, output):
    """The same of a command that names its file, and reads no standard input."""
    expect(command, os.devnull, output)


def processor_time(command, path):
    """The user and system time, in seconds, of one run that reads this file."""
    return seconds(used_by_run(command, path))


def least_times(runs, rounds=ROUNDS):
    """The least time of each run, by name. Each round has every run in turn."""
    times_of_rounds = [[run() for run in runs.values()] for _ in range(rounds)]
    return {name: min(times) for name, times in zip(runs, zip(*times_of_rounds))}


def time_after_input(command, path):
    """The same of what the run does once it has read all of the file, which comes by a pipe, and waits for its end."""
    process = subprocess.Popen(command, stdin=subprocess.PIPE, stdout=subprocess.DEVNULL)
    with open(path, "rb") as file, process.stdin:
        shutil.copyfileobj(file, process.stdin, PIECE)
        process.stdin.flush()
        while unread(process.stdin) or not sleeps(process):
            time.sleep(0.001)
        reading = int(account(process, "schedstat").split()[0]) / 1e9
    return seconds(used_by(process, command)) - reading


def unread(pipe):
    """The number of bytes that a pipe holds."""
    count = array.array("i", [0])
    fcntl.ioctl(pipe, termios.FIONREAD, count)
    return count[0]


def sleeps(process):
    return "\nState:\tS" in account(process, "status")


def account(process, name):
    return pathlib.Path(f"/proc/{process.pid}/{name}").read_text()


def used_by_run(command, path):
    with open(path, "rb") as file:
        return used_by(subprocess.Popen(command, stdin=file, stdout=subprocess.DEVNULL), command)


def used_by(process, command):
    """What the process has used, once it has ended well."""
    _, status, used = os.wait4(process.pid, 0)
    process.returncode = os.waitstatus_to_exitcode(status)
    if process.returncode:
        sys.exit(f"{command} failed")
    return used


def seconds(used):
    return used.ru_utime + used.ru_stime


def run_time(command):
    """The user and system time, in seconds, of one run that reads no standard input."""
    return seconds(used_by(subprocess.Popen(command, **NOWHERE), command))


def cold_time(command, path):
    """The elapsed time, in seconds, of such a run whose file isn't in the page cache."""
    with open(path, "rb") as file:
        os.fdatasync(file.fileno())
        os.posix_fadvise(file.fileno(), 0, 0, os.POSIX_FADV_DONTNEED)
    start = time.monotonic()
    run_time(command)
    return time.monotonic() - start


def read_bytes(command):
    """The number of bytes that such a run has read, by the system's account. The account is opened while the process lives:
    once it has ended, only root may open it. It is read when the process has ended and before it is waited for.
    """
    process = subprocess.Popen(command, **NOWHERE)
    with open(f"/proc/{process.pid}/io") as io:
        os.waitid(os.P_PID, process.pid, os.WEXITED | os.WNOWAIT)
        counts = dict(line.split(": ") for line in io)
    used_by(process, command)
    return int(counts["rchar"])


def peak(command):
    """The most memory, in bytes, that such a run has held, by its own account, which is read every millisecond."""
    most = 0
    with subprocess.Popen(command, **NOWHERE) as process:
        while process.poll() is None:
            for line in account(process, "status").splitlines():
                if line.startswith("VmHWM:"):
                    most = max(most, int(line.split()[1]) * 1024)
            time.sleep(0.001)
    if process.returncode:
        sys.exit(f"{command[:3]} failed")
    return most


def peak_of_run(command, path):
    """The most memory, in bytes, that one run has held. It has to be more than this process has ever held, as wait4 returns
    the greater of the two.
    """
    peak, own = used_by_run(command, path).ru_maxrss, resource.getrusage(resource.RUSAGE_SELF).ru_maxrss
    if peak <= own:
        sys.exit(f"{command} held no more than the measuring process, so it can't be said how much")
    return peak * 1024


def peak_memory(command, pieces):
    """The most memory, in bytes, that the program has held once it was handed these pieces by a pipe.

    It is read before the pipe is closed, from the process's own account: the figure of wait4 is never below the memory
    of the process that started it, here Python's.
    """
    with subprocess.Popen(command, stdin=subprocess.PIPE, stdout=subprocess.DEVNULL) as process:
        for piece in pieces:
            process.stdin.write(piece)
        process.stdin.flush()
        status = account(process, "status")
    if process.returncode:
        sys.exit(f"{command} failed on an archive from a pipe")
    return next(int(line.split()[1]) * 1024 for line in status.splitlines() if line.startswith("VmHWM:"))


def memory_figures(command, archives, goal):
    """The peaks on these archives, in MB."""
    return [Figure(f"memory: {name}", peak_memory(command, pieces) / 1e6, goal, "MB") for name, pieces in archives.items()]
