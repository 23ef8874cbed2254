"""The states of an index that is a folder of runs, as warcdx-update keeps it: what readers see of it.

A state is a folder with links to runs, a manifest of them, and a summary. It is never changed once `current` leads to it.
"""
import contextlib
import errno
import json
import os
import re
from collections.abc import Mapping, Sequence
from typing import Any, NamedTuple, Optional

from .faults import cannot_open
from .files import Path, is_regular, made, open_at_once, remove, write_to_disk

CURRENT = "current"  # leads to the folder of the state that is the index now
FOLDERS = STATES, RUNS = "states", "runs"
MANIFEST, SUMMARY = "manifest.json", "summary.json"
FORM = 1  # of a manifest
MOST_RUNS = 40  # of an index
_EMPTY = "000000.cdxj"  # the run of a state without captures
_LINK = re.compile(f"{STATES}/([0-9]{{1,18}})")
_TRIES = 3  # while states are replaced


class Listed(NamedTuple):
    """A run in a manifest: the name of its file, its size in bytes, and its captures."""

    file: str
    size: int
    captures: int


def runs_of(folder: Path) -> list[str]:
    """Returns the paths of the runs that are the index of a folder now. There is one at least.

    They are those of one state. A run is there until the second update after that in which it has left the index, and is never
    changed. Raises `faults.CannotOpen`, also if the folder isn't one of an index.
    """
    current, reason = os.path.join(folder, CURRENT), errno.EISDIR
    for _ in range(_TRIES):
        try:
            state = os.path.realpath(current)
            with open_at_once(os.path.join(state, MANIFEST)) as file:
                values = json.load(file)
            paths = [os.path.realpath(os.path.join(state, run["file"])) for run in values["runs"]]
            if values["form"] == FORM and paths and all(map(os.stat, paths)):
                return paths
        except (KeyError, RecursionError, TypeError, ValueError):
            break
        except OSError as error:  # a state that is removed meanwhile isn't there: `current` leads to another one
            reason = errno.EISDIR if not os.path.lexists(current) else error.errno or reason
    fault = cannot_open(os.fspath(folder), reason)
    if reason == errno.EISDIR:
        index = around(folder)
        fault.advice = f"it is in the folder of an index: open {index}" if index else "a folder is an index if warcdx-update has made it"
    raise fault


def around(path: Path) -> Optional[str]:
    """Returns the folder of an index that has this file or folder in it, or None."""
    above = os.path.abspath(path)
    for _ in range(3):  # as of `states/1/manifest.json`
        above = os.path.dirname(above)
        if is_link(f"{above}/{CURRENT}"):
            return above
    return None


def files_of(index: Path) -> list[str]:
    """Returns the files of an index: itself, or the runs of the folder that it is. Raises `faults.CannotOpen`."""
    return runs_of(index) if os.path.isdir(index) else [os.fspath(index)]


def shown(folder: str) -> Optional[int]:
    """Returns the number of the state to which `current` leads. It is 0 if that isn't there, and None if `current` isn't a link to one."""
    found = _LINK.fullmatch(_target_of(f"{folder}/{CURRENT}"))
    if found is None:
        return None
    return int(found[1]) if os.path.exists(f"{folder}/{CURRENT}") else 0


def is_link(path: str) -> bool:
    """Returns whether a path is a link that leads to a state, or led to one."""
    return _LINK.fullmatch(_target_of(path)) is not None


def _target_of(path: str) -> str:
    """Returns where a link leads, or an empty text for something else."""
    try:
        return os.readlink(path)
    except OSError:
        return ""


def show(folder: str, number: int, runs: Sequence[Listed], summary: Mapping[str, Any]) -> None:
    """Makes the folder of a state, or what a run of the command that was ended hasn't made of it, and then lets readers see it."""
    state, link = f"{folder}/{STATES}/{number}", f"{folder}/{STATES}/{CURRENT}"
    make_folder(state)
    for run in runs:
        if not _has_link(state, run.file):
            os.symlink(f"../../{RUNS}/{run.file}", f"{state}/{run.file}")
    if not runs and not is_regular(f"{state}/{_EMPTY}", 0):
        with made(f"{state}/{_EMPTY}"):
            pass
    for name, values in ((MANIFEST, _manifest_of(number, runs)), (SUMMARY, summary)):
        remove(f"{state}/{name}")
        with made(f"{state}/{name}") as file:
            file.write(json.dumps(values, indent=1).encode() + b"\n")
    if is_link(link):
        os.remove(link)
    for each in (state, f"{folder}/{STATES}"):
        write_to_disk(each)
    os.symlink(f"{STATES}/{number}", link)
    os.replace(link, f"{folder}/{CURRENT}")
    write_to_disk(folder)


def is_whole(folder: str, number: int, runs: Sequence[Listed]) -> bool:
    """Returns whether the folder of a state has its links and its manifest, and a summary."""
    state = f"{folder}/{STATES}/{number}"
    try:
        with open_at_once(f"{state}/{MANIFEST}") as file:
            manifest = json.load(file)
    except (OSError, RecursionError, TypeError, ValueError):
        return False
    return manifest == _manifest_of(number, runs) and is_regular(f"{state}/{SUMMARY}") and all(_has_link(state, run.file) for run in runs)


def make_folder(path: str) -> bool:
    """Makes a folder if there is none, and returns whether it has. Raises OSError, also for a link: what it leads to is another's."""
    try:
        os.mkdir(path)
    except FileExistsError:
        if os.path.islink(path) or not os.path.isdir(path):
            raise NotADirectoryError(errno.ENOTDIR, os.strerror(errno.ENOTDIR), path) from None
        return False
    return True


def _manifest_of(number: int, runs: Sequence[Listed]) -> dict[str, Any]:
    return {"form": FORM, "state": number, "runs": [run._asdict() for run in runs or [Listed(_EMPTY, 0, 0)]]}


def _has_link(state: str, name: str) -> bool:
    """Returns whether the folder of a state has its link to a run."""
    return _target_of(f"{state}/{name}") == f"../../{RUNS}/{name}"


def remove_before(folder: str, number: int) -> None:
    """Removes the folders of the states before this one. What others have in one stays."""
    for state in list(os.scandir(f"{folder}/{STATES}")):
        is_number = _LINK.fullmatch(f"{STATES}/{state.name}") is not None
        if not is_number or int(state.name) >= number or not state.is_dir(follow_symlinks=False):
            continue
        for entry in os.scandir(state):
            if entry.name.endswith(".cdxj") and _has_link(state.path, entry.name):
                os.remove(entry)
            elif entry.name in (MANIFEST, SUMMARY) or entry.name == _EMPTY and is_regular(entry.path, 0):
                remove(entry.path)
        with contextlib.suppress(OSError):
            os.rmdir(state)
