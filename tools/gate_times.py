#!/usr/bin/env python3
"""Runs a command, by default `rt ci`, and prints where its processor time went.

usage: gate_times.py [COMMAND ARGUMENT..]

Prints a line for each crate, with the seconds of its proofs, of its proofs with tests, and of its must-fail edits. The exit status is that of the command.
Linux only: the script reads /proc twice a second. Of a process that ends within half a second only a part is counted.
"""
import argparse
import collections
import os
import resource
import shutil
import subprocess
import sys
import threading
import time
from collections.abc import Iterator

sys.path.insert(0, os.path.join(os.path.dirname(os.path.dirname(os.path.abspath(__file__))), "tests"))

from program import parser_of

TICKS = os.sysconf("SC_CLK_TCK")


def status_of(pid: int) -> list[str]:
    """Returns the fields of the process's status that follow its name."""
    with open(f"/proc/{pid}/stat") as file:
        return file.read().rsplit(")", 1)[1].split()


def is_ours(pid: int) -> bool:
    """Returns whether this script has started the process, or one that has."""
    while pid > 1:
        if pid == os.getpid():
            return True
        pid = int(status_of(pid)[1])
    return False


def checks() -> Iterator[tuple[str, str, str, float]]:
    """Yields process, crate, kind and processor seconds of each check that runs now."""
    for pid in filter(str.isdigit, os.listdir("/proc")):
        try:
            with open(f"/proc/{pid}/cmdline", "rb") as file:
                words = file.read().decode(errors="replace").split("\0")
            if os.path.basename(words[0]) != "rattle" or not is_ours(int(pid)):
                continue
            folder = os.readlink(f"/proc/{pid}/cwd")
            fields = status_of(pid)
        except (OSError, IndexError):
            continue
        crate = words[words.index("--crate-name") + 1] if "--crate-name" in words else "other"
        if "/rt-edit" in folder:
            kind = "edits"
        elif "--test" in words:
            kind = "tests"
        else:
            kind = words[1]
        yield pid, crate, kind, (int(fields[11]) + int(fields[12])) / TICKS


def watch(times: dict[tuple[str, str, str], float], ended: threading.Event) -> None:
    while not ended.wait(0.5):
        for pid, crate, kind, seconds in checks():
            times[pid, crate, kind] = seconds


def main() -> int:
    parser = parser_of(__doc__)
    parser.add_argument("command", metavar="COMMAND", nargs=argparse.REMAINDER, help="the command and its arguments (default: rt ci)")
    command = parser.parse_args().command or ["rt", "ci"]
    if shutil.which(command[0]) is None:
        parser.error(f"{command[0]}: no such command")
    times: dict[tuple[str, str, str], float] = {}
    ended = threading.Event()
    watcher = threading.Thread(target=watch, args=(times, ended))
    begin = time.time()
    watcher.start()
    status = subprocess.run(command).returncode
    wall = time.time() - begin
    ended.set()
    watcher.join()
    used = resource.getrusage(resource.RUSAGE_CHILDREN)
    table = collections.defaultdict(lambda: collections.defaultdict(float))
    kinds = set()
    for (_pid, crate, kind), seconds in times.items():
        table[crate][kind] += seconds
        kinds.add(kind)
    kinds = sorted(kinds)
    print("\n" + "".join(f"{word:>14}" for word in ["crate", *kinds, "all"]))
    for crate, row in sorted(table.items(), key=lambda item: -sum(item[1].values())):
        cells = [row[kind] for kind in kinds]
        print(f"{crate:>14}" + "".join(f"{cell:14.0f}" for cell in [*cells, sum(cells)]))
    print(f"wall {wall / 60:.1f} min, processor {(used.ru_utime + used.ru_stime) / 60:.1f} min")
    return status


if __name__ == "__main__":
    sys.exit(main())
