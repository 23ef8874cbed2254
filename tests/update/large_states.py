"""The memory of warcdx-update over indexes of many hosts and of long media types. A script in the place of the program has their lines."""
import os
import pathlib
import signal
import subprocess

from update_trial import WAIT, Trial, expect

ARCHIVES = 100
HOSTS = 10_000  # of an archive
MOST = 60_000  # kB of a run without changes, over 1,000,000 hosts
MOST_LONG = 90_000  # kB of runs over media types of 60,000 bytes
LINE = (
    'com,h%07d)/ 20160101000000 {"url": "http://h%07d.com/", "mime": "%s", "status": "200", "digest": "-", '
    '"length": "1", "offset": "%d", "filename": "%s"}\n'
)
# Writes lines that are there, in the place of an index of an archive.
WITH_LINES = """#!/bin/sh
[ "$1" = index ] || exec "%(program)s" "$@"
for word; do
    case $word in ./*) cat "%(folder)s/lines/${word#./}";; esac
done | LC_ALL=C sort
"""


def put_archive(trial: Trial, name: str, hosts: range, types: "list[str] | None" = None) -> None:
    """Puts an archive of which the script has a line for each host."""
    folder = trial.folder / "lines"
    folder.mkdir(exist_ok=True)
    with open(folder / name, "w") as file:
        for number, host in enumerate(hosts):
            file.write(LINE % (host, host, types[number] if types else "text/html", number, name))
    (trial.archives / name).write_text("x")


def run(trial: Trial) -> tuple[int, int]:
    """Runs the command, and returns its status and the most memory that it or a program of it has had, in kB."""
    with open(trial.folder / "said", "wb") as said:
        work = subprocess.Popen(trial.usual_command(), stdin=subprocess.DEVNULL, stderr=said)
    signal.alarm(WAIT)
    _, status, usage = os.wait4(work.pid, 0)
    signal.alarm(0)
    work.returncode = os.waitstatus_to_exitcode(status)
    return work.returncode, usage.ru_maxrss


def trial_of(program: pathlib.Path, folder: pathlib.Path) -> Trial:
    trial = Trial(program, folder, WITH_LINES)
    for path in trial.archives.iterdir():
        path.unlink()
    return trial


def a_run_without_changes_takes_little_memory(program: pathlib.Path, folder: pathlib.Path) -> None:
    """Over an index of 1,000,000 hosts. The summary says how many captures aren't counted by their hosts."""
    trial = trial_of(program, folder)
    for number in range(ARCHIVES):
        put_archive(trial, f"{number:03}.warc", range(number * HOSTS, (number + 1) * HOSTS))
    expect("status", run(trial)[0], 0)
    summary = trial.summary
    expect("captures", summary["captures"], ARCHIVES * HOSTS)
    others = summary["others"]
    expect("hosts that are counted", 0 < ARCHIVES * HOSTS - others.pop("hosts") <= 100_000 * len(trial.runs), True)
    expect("others", others, {"years": 0, "types": 0, "statuses": 0})
    status, memory = run(trial)
    expect("status without changes", status, 0)
    expect("kB without changes", memory if memory > MOST else 0, 0)
    print(f"memory   {memory:,} kB for a run without changes over {ARCHIVES * HOSTS:,} hosts")
    put_archive(trial, "more.warc", range(HOSTS + 1))
    expect("status with one more", run(trial)[0], 0)
    summary = trial.summary
    expect("captures", summary["captures"], ARCHIVES * HOSTS + HOSTS + 1)
    expect("a host of two archives", max(summary["hosts"].values()), 2)


def long_values_take_little_memory(program: pathlib.Path, folder: pathlib.Path) -> None:
    """Values that begin with the same 256 bytes count as one."""
    trial = trial_of(program, folder)
    types = ["é" * 200 + f"{number:04}" + "x" * 60_000 for number in range(600)]
    types += [f"{number:04}" + "y" * 60_000 for number in range(400)]
    put_archive(trial, "long.warc", range(len(types)), types)
    put_archive(trial, "other.warc", range(3))
    for name in ("a first run", "a run without changes"):
        status, memory = run(trial)
        expect(f"status of {name}", status, 0)
        expect(f"kB of {name}", memory if memory > MOST_LONG else 0, 0)
    summary = trial.summary
    expect("the most frequent type", next(iter(summary["types"].items())), ("é" * 128, 600))
    expect("the next ones", [summary["types"][name] for name in ("text/html", "0000" + "y" * 252)], [3, 1])
    expect("size of the summary", (trial.store / "current/summary.json").stat().st_size < 100_000, True)


CASES = (
    a_run_without_changes_takes_little_memory,
    long_values_take_little_memory,
)
