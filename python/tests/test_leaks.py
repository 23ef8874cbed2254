"""What is left of calls that are interrupted, or that can't have a descriptor: no program, and no open file."""
import os
import pathlib
import resource
import subprocess
import sys
import unittest

from warcdx import Archive, Error, Index

from .support import PROGRAM, SAMPLES, WAIT, Case, lines

ROOT = pathlib.Path(__file__).resolve().parents[1]
# Interrupts calls that start programs, also of an Index that isn't closed. Prints the descriptors and the processes that are left then.
LEFT = """
import gc, os, random, signal, sys, time
sys.path.insert(0, sys.argv[1])
import warcdx
from tests.support import children_of

signal.signal(signal.SIGINT, signal.default_int_handler)
signal.signal(signal.SIGALRM, lambda number, frame: signal.raise_signal(signal.SIGINT))
choice, archive = random.Random(1), warcdx.Archive(sys.argv[2], program=sys.argv[4])
calls = (lambda: archive.verdict(11387), lambda: warcdx.Index(sys.argv[3], program=sys.argv[4]).count())
sys.unraisablehook = lambda arguments: None
for call in calls:
    call()
before = len(os.listdir("/proc/self/fd"))
for call in calls * 80:
    try:
        signal.setitimer(signal.ITIMER_REAL, choice.uniform(0.0002, 0.006), 0.05)
        while True:
            call()
    except KeyboardInterrupt:
        pass
    finally:
        signal.setitimer(signal.ITIMER_REAL, 0)
for _ in range(50):  # a process that has lost its starter is seen to have ended when another one is started
    call(), gc.collect()
    if not children_of(os.getpid()):
        break
    time.sleep(0.05)
print(len(os.listdir("/proc/self/fd")) - before, len(children_of(os.getpid())))
"""


class Left(Case):
    def test_interrupts_leave_hardly_anything(self) -> None:
        """Of 160, one or two come within a step of Python itself, as in a finalizer, and each of these leaves what it had."""
        words = (sys.executable, "-c", LEFT, ROOT, SAMPLES / "wget.warc", self.put(lines(3)), os.path.abspath(PROGRAM))
        descriptors, processes = map(int, subprocess.run(words, timeout=WAIT, stdout=subprocess.PIPE, check=True).stdout.split())
        self.assertLess(descriptors, 8)  # more of them on a busy machine
        self.assertLess(processes, 8)

    def test_calls_without_descriptors_leave_none(self) -> None:
        path, usual = self.put(lines(3)), resource.getrlimit(resource.RLIMIT_NOFILE)
        self.addCleanup(resource.setrlimit, resource.RLIMIT_NOFILE, usual)
        archive = Archive(SAMPLES / "wget.warc", program=PROGRAM)
        highest = max(map(int, os.listdir("/proc/self/fd")))
        while (below := os.open(os.devnull, os.O_RDONLY)) < highest:  # so that the limit is the number of open files
            self.addCleanup(os.close, below)
        os.close(below)
        for call in (lambda: Index(path, program=PROGRAM).count(), lambda: archive.verdict(11387)):
            call()
            before, outcomes = len(os.listdir("/proc/self/fd")), list[str]()
            for more in range(9):
                resource.setrlimit(resource.RLIMIT_NOFILE, (before - 1 + more, usual[1]))
                try:
                    outcomes.append(str(call()))
                except Error as error:
                    outcomes.append(type(error).__name__)
                resource.setrlimit(resource.RLIMIT_NOFILE, usual)
                self.assertEqual(before, len(os.listdir("/proc/self/fd")), outcomes)
            self.assertLessEqual({"ProgramError", str(call())}, {*outcomes})
            self.assertLessEqual({*outcomes}, {"CannotOpen", "ProgramError", str(call())})


if __name__ == "__main__":
    unittest.main()
