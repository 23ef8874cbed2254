#!/usr/bin/env python3
"""Measures when a stream of an archive is indexed faster than the archive as a file, on slow disks.

usage: measure_slow_disks.py [PROGRAM]

As a file, `warcdx index FILE` seeks past the pages. As a stream, `cat FILE | warcdx index --name NAME -` reads all of it.
The disk is that of the temporary folder (TMPDIR, 300 MB) without the page cache, and then one on which each read
takes half a millisecond more, which slow_reads.c makes. Prints the seconds of both, and their ratio. There is no goal.
Needs a C compiler.
"""
import os
import pathlib
import subprocess
import sys
import tempfile
import time

from make_crawls import Crawl
from measuring import least_times, machine, read_program, write_archive

HERE = pathlib.Path(__file__).resolve().parent
SIZE = 250_000_000  # bytes of pages of an archive
LENGTHS = (1_000, 20_000, 50_000, 200_000, 2_000_000)  # bytes of a page
ROUNDS = 3
EACH = f"{'page':>12}{'as a file':>14}{'as a stream':>14}{'file over stream':>20}"


def seconds(command: str, file: pathlib.Path, program: pathlib.Path, preload: str) -> float:
    """Returns the time of a run of the shell, in which $0 is the file and $1 the program."""
    descriptor = os.open(file, os.O_RDONLY)
    os.posix_fadvise(descriptor, 0, 0, os.POSIX_FADV_DONTNEED)
    os.close(descriptor)
    start = time.perf_counter()
    subprocess.run(("sh", "-c", command, file, program), check=True, env={**os.environ, "SLOW": preload})
    return time.perf_counter() - start


def measure(program: pathlib.Path, folder: pathlib.Path, preload: str) -> None:
    print(EACH)
    for length in LENGTHS:
        file = folder / "crawl.warc"
        write_archive(Crawl(SIZE // length, length), file)
        subprocess.run(("sync", file), check=True)
        runs = {
            "file": 'LD_PRELOAD=$SLOW "$1" index "$0" > /dev/null',
            "stream": 'LD_PRELOAD=$SLOW cat "$0" | "$1" index --name "$0" - > /dev/null',
        }
        times = least_times(
            {name: lambda command=command: seconds(command, file, program, preload) for name, command in runs.items()}, ROUNDS
        )
        ratio = times["file"] / times["stream"]
        print(f"{length:>10,} B{times['file']:>12.2f} s{times['stream']:>12.2f} s{ratio:>20.2f}", flush=True)
        file.unlink()


def main() -> int:
    program = read_program(__doc__)
    print(f"{machine()}; elapsed times, the least of {ROUNDS} rounds")
    with tempfile.TemporaryDirectory() as name:
        folder = pathlib.Path(name)
        library = folder / "slow_reads.so"
        subprocess.run(("cc", "-O2", "-shared", "-fPIC", "-o", library, HERE / "slow_reads.c", "-ldl"), check=True)
        print("\nThe disk without the page cache:")
        measure(program, folder, "")
        print("\nEach read takes half a millisecond more:")
        measure(program, folder, str(library))
    return 0


if __name__ == "__main__":
    sys.exit(main())
