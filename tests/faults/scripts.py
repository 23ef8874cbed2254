#!/usr/bin/env python3
"""Runs each command that is Python on devices that fail, under limits, and with signals at several moments.

usage: scripts.py [PROGRAM]

Each run has to end within 60 s in one of these ways, and what concerns the output also with PYTHONUNBUFFERED=1:

- with the whole output, nothing on standard error, and exit status 0;
- with one line on standard error, an exit status that the command documents, and a part of the output;
- by the signal that was sent, without a word.

No run leaves anything in the folder for temporary files, or a process. A full disk is a small tmpfs, if the
script may mount one. Limits of file sizes stand for it otherwise.

Prints a line for each case of each command, and the counts. The exit status is 0, or 1 if a case differs.
"""
import bisect
import concurrent.futures
import os
import pathlib
import shlex
import sys
import tempfile
from collections.abc import Callable, Iterator

sys.path.insert(0, str(pathlib.Path(__file__).resolve().parents[1]))

from device_runs import SECONDS, Differs, expect
from program import Report, add_program, find_packed_program, find_program, parser_of
from script_runs import Disk, Ended, Run, Script, scripts_of
from script_signals import at_moments, before_it_serves, cut_while_read

SIZES = (0, 1, 4096, 70_000)  # bytes that a file may have
LITTLE_MEMORY = (-9, -7, -5, -4, -3, -2, -1)  # steps below the least memory under which a script prints its help
SPARE_MEMORY = (*range(13), 14, 16, 20, 24)  # steps over it
MEMORY_STEP = 1 << 19  # bytes
NOBODY = 65534


def closed_outputs(run: Run) -> Iterator[str]:
    """A standard stream that is closed is no other file, and nothing is written to a file in its place."""
    usual = run.usual()
    found = run.ended(shell='exec "$@" >&-')
    run.expect_failure(found, b"Write: Bad file descriptor")
    expect(run.ended(shell='exec "$@" 2>&-') == usual, "without standard error")
    if run.script.reads is None:
        expect(run.ended(shell='exec "$@" <&-') == usual, "without standard input")
    found = run.ended(shell='exec "$@" <&- >&- 2>&-')
    expect(found == Ended(3, b"", b""), "without any", found)
    yield "closed streams"


def failing_outputs(run: Run) -> Iterator[str]:
    usual = run.usual().output
    with open("/dev/full", "wb") as full:
        run.expect_failure(run.ended(stdout=full), b"Write: No space left on device")
    for size in (*SIZES, len(usual) - 1):
        written = run.folder / "written"
        with open(written, "wb") as output:
            found = run.ended("prlimit", f"--fsize={size}", stdout=output)
        if size < len(usual):
            run.expect_failure(found)
        expect(usual.startswith(written.read_bytes()) and len(written.read_bytes()) <= size, size)
    yield "a file that may not grow"
    found = run.read_first_bytes()
    run.expect_failure(found, b"Write: Broken pipe")
    yield "a reader that leaves"


def full_disk(run: Run, disk: pathlib.Path) -> Iterator[str]:
    """A disk that is full holds the output, or the temporary files."""
    usual = run.usual()
    folder = disk / f"{run.script.file_name}{len(run.unbuffered)}"
    folder.mkdir()
    with open(folder / "output", "wb") as output:
        found = run.ended(stdout=output)
    written = (folder / "output").read_bytes()
    run.expect_failure(found, b"Write: No space left on device")
    expect(len(written) < len(usual.output) and usual.output.startswith(written), len(written), len(usual.output))
    (folder / "output").unlink()
    found = run.ended(environment={"TMPDIR": str(folder)})
    if found != usual:
        run.expect_failure(found)
        is_part = usual.output.startswith(found.output) or run.script.most_lines > 1
        expect(is_part, "wrote", found.output[-300:])
    expect(not os.listdir(folder), "temporary files are left")
    folder.rmdir()
    yield "a full disk"


def surroundings(run: Run) -> Iterator[str]:
    expect(run.ended(shell='umask 077; exec "$@"') == run.usual(), "umask 077")
    yield "umask 077"
    found = run.ended(environment={"TMPDIR": str(run.folder / "nosuch")})
    if found != run.usual():
        run.expect_failure(found)
    yield "no folder for temporary files"


def limits_of_memory(run: Run) -> Iterator[str]:
    """From the least under which the script prints its help, and of the commands also below, where modules can't be loaded."""
    least = MEMORY_STEP * bisect.bisect_left(range(1 << 10), True, key=lambda steps: starts(run, steps * MEMORY_STEP))
    steps = (*LITTLE_MEMORY, *SPARE_MEMORY) if run.script.has_version else SPARE_MEMORY
    for step in steps:
        found = run.ended("prlimit", f"--as={least + step * MEMORY_STEP}")
        if found != run.usual():
            run.expect_failure(found)
    yield f"{len(steps)} limits of memory around {least >> 20} MB"


def starts(run: Run, memory: int) -> bool:
    process = run.start("prlimit", f"--as={memory}", words=("--help",))
    process.communicate(timeout=SECONDS)
    return process.returncode == 0


def help_and_usage(run: Run) -> Iterator[str]:
    for words in (("--help",), ("--version",)) if run.script.has_version else (("--help",),):
        found = run.ended(words=words)
        expect(found.status == 0 and found.output and not found.error, words, found)
        with open("/dev/full", "wb") as full:
            run.expect_failure(run.ended(words=words, stdout=full), b"Write: No space left on device")
        run.expect_failure(run.ended(words=words, shell='exec "$@" >&-'))
    yield "help"
    for words in (("--nosuch",), ("--nosuch", "a\nb", "c"), (b"\xff",), ("--nosuch\n",)):
        found = run.ended(words=words)
        if b"\xff" in words:
            expect(b"argument 1 isn't UTF-8" in found.error, found)
        expect(found.status == 2 and not found.output and found.error.count(b"\n") == 1, words, found)
    yield "usage errors"


def hostile_names(run: Run) -> Iterator[str]:
    """The archive is given by another name."""
    for name in ("a\nb", "-x", " ", "\u202e"):
        path = run.folder / name
        path.write_bytes((run.folder / run.script.file).read_bytes())
        found = run.ended(words=run.script.words_for(f"./{name}"))
        expect((found.status, found.error) == (0, b"") and found.output, name, found)
        path.unlink()
        found = run.ended(words=run.script.words_for(f"./{name}"))
        expect(found.status == 3 and found.error.count(b"\n") == 1 and b"cannot open" in found.error, name, found)
    found = run.ended(words=run.script.words_for("-x"))
    expect(found.status == 2 and found.error.count(b"\n") == 1, found)
    found = run.ended(words=run.script.words_for(b"\xff"))
    expect(found.status == 2 and found.error.count(b"\n") == 1 and b"isn't UTF-8" in found.error, found)
    yield "hostile names"


def unreadable_files(run: Run) -> Iterator[str]:
    (run.folder / "dangling").symlink_to("nosuch")
    (run.folder / "loop").symlink_to("loop")
    (run.folder / "folder").mkdir()
    for name in (f"{run.script.file}/x", "dangling", "loop", "folder", "nosuch/x", "x" * 300):
        found = run.ended(words=run.script.words_for(name))
        expect(found.status == 3 and found.error.count(b"\n") == 1 and b"cannot open" in found.error, name, found)
    yield "files that can't be opened"
    secret = run.folder / "secret"
    secret.write_bytes((run.folder / run.script.file).read_bytes())
    secret.chmod(0)
    user = () if os.geteuid() else ("setpriv", f"--reuid={NOBODY}", f"--regid={NOBODY}", "--clear-groups")
    if run.ended(*user).status:
        yield "files of another user: left out, as it may not run the script"
        return
    found = run.ended(*user, words=run.script.words_for("secret"))
    expect(found.status == 3 and found.error.count(b"\n") == 1 and b"cannot open" in found.error, found)
    yield "files of another user"


def killed_program(run: Run) -> Iterator[str]:
    """The programs that the script runs are killed as they begin, and in their output."""
    folder = run.folder / "killed"
    folder.mkdir()
    in_output = '"$program" "$@" | { head -c 100; kill -9 $$; }'
    for text in ("kill -9 $$", in_output, "exit 101", "echo; echo x >&2; exit 3"):
        for program in (run.program, find_packed_program(run.program)):
            begins = f'program={shlex.quote(str(program))}\n[ "$1" != --help ] || exec "$program" "$@"\n'
            wrapper = folder / program.name
            wrapper.write_text(f"#!/bin/sh\n{begins}{text}\n")
            wrapper.chmod(0o755)
        wrapped = str(folder / run.program.name)
        found = run.ended(words=tuple(wrapped if word == str(run.program) else word for word in run.script.words))
        run.expect_failure(found)
    yield "a program that is killed"


Case = Callable[[Run], Iterator[str]]
OF_OUTPUTS: tuple[Case, ...] = (closed_outputs, failing_outputs, at_moments)
OTHERS: tuple[Case, ...] = (surroundings, limits_of_memory)
OF_ARCHIVES: tuple[Case, ...] = (hostile_names, unreadable_files, cut_while_read)


def try_script(program: pathlib.Path, script: Script, cache: pathlib.Path, disk: Disk) -> list[tuple[str, str]]:
    """Returns each case of a script, and what differs in it, or nothing."""
    found = []
    for unbuffered in ("", "1"):
        name = f"{script.name}{', unbuffered' * bool(unbuffered)}"
        with tempfile.TemporaryDirectory() as folder:
            os.chmod(folder, 0o755)
            run = Run(program, script, pathlib.Path(folder), cache, unbuffered)
            cases: list[Iterator[str]] = []
            if script.has_output:
                cases += [case(run) for case in OF_OUTPUTS]
                cases += [full_disk(run, disk.path)] if disk.is_mounted else []
            if not unbuffered:
                cases += [help_and_usage(run), *(case(run) for case in OTHERS if script.has_output)]
                cases += [case(run) for case in OF_ARCHIVES if script.file]
                cases += [killed_program(run)] if script.has_output and str(program) in script.words else []
                cases += [before_it_serves(run)] if script.words and not script.has_output else []
            for case in cases:
                try:
                    found += [(f"{name}: {title}", "") for title in case]
                except Differs as difference:
                    found.append((f"{name}: {case.__name__.replace('_', ' ')}", str(difference)))
    return found


def main() -> int:
    parser, report = parser_of(__doc__), Report()
    add_program(parser)
    program = find_program(parser.parse_args().program)
    with tempfile.TemporaryDirectory() as folder, tempfile.TemporaryDirectory() as mounted:
        os.chmod(folder, 0o755)
        disk = Disk(pathlib.Path(mounted))
        with disk, concurrent.futures.ThreadPoolExecutor(len(os.sched_getaffinity(0))) as pool:
            cache = pathlib.Path(folder)
            tried = [pool.submit(try_script, program, script, cache, disk) for script in scripts_of(program)]
            for each in tried:
                for case, difference in each.result():
                    if difference:
                        report.add_difference(case, difference)
                    else:
                        report.add_ok(case)
    return report.end()


if __name__ == "__main__":
    sys.exit(main())
