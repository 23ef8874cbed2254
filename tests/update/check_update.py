#!/usr/bin/python3
"""Runs warcdx-update over folders of archives, and compares its index with what `warcdx index` writes of all of them.

usage: check_update.py [--seed N] [PROGRAM]

Prints a line for each case, and the counts. The exit status is 0, or 1 if a case differs. Some cases need root, or Debian's packages
strace and python3-tqdm; without these they are left out. The moments at which runs are killed follow from N.
"""
import contextlib
import importlib.util
import json
import os
import pathlib
import pty
import random
import re
import shutil
import signal
import subprocess
import sys
import tempfile
import time

from failing_runs import (
    a_full_disk_is_reported, a_signal_ends_a_run, an_archive_that_cannot_be_read_keeps_its_captures, memory_may_be_refused,
    runs_that_are_damaged_are_made_anew, streams_may_be_closed
)
from update_trial import (
    FAILING, SLOW, WAIT, Differs, Trial, compressed, copy_sample, expect, index_of, index_of_folders, kill_group, merged, sample, until
)

from program import Report, add_program, find_packed_program, find_program, parser_of  # isort: skip

MANY = 1000
KILLS = 20


def many_archives(program: pathlib.Path, folder: pathlib.Path, number: int) -> Trial:
    """Returns a trial with this number of archives. Of twenty, one is compressed, and two are damaged."""
    trial = Trial(program, folder)
    for path in trial.archives.iterdir():
        path.unlink()
    record = sample("response")
    for each in range(number):
        archive = record.replace(b"http://example.com/", b"http://example.com/%d" % each) * 3
        kind = each % 20
        name = f"{each:04}.warc" + (".gz" if kind == 3 else "")
        archive = archive[:-5] if kind in (9, 19) else compressed(archive) if kind == 3 else archive
        (trial.archives / name).write_bytes(archive)
    trial.wanted = index_of_many(program, trial, folder)
    return trial


def index_of_many(program: pathlib.Path, trial: Trial, folder: pathlib.Path) -> bytes:
    """Returns the index of the archives of a folder, by one run for the plain ones and one for the others."""
    plain, packed = folder / "plain.cdxj", folder / "packed.cdxj"
    plain.write_bytes(trial.index_of("*.warc"))
    packed.write_bytes(index_of(find_packed_program(program), sorted(trial.archives.glob("*.gz"))))
    return merged(program, [plain, packed])


def damaged_of(trial: Trial) -> dict[str, int]:
    return {path.name: 1 for path in trial.archives.glob("*9.warc")}


def the_index_of_a_thousand_archives(program: pathlib.Path, folder: pathlib.Path) -> None:
    """Nothing is read again by a second run. One more archive is the only one that a third run reads."""
    trial = many_archives(program, folder, MANY)
    expect("captures", trial.wanted.count(b"\n"), 3 * MANY - MANY // 10)  # a damaged one has two
    expect("status", trial.run(), 1)
    trial.expect_results(damaged_of(trial), trial.wanted)
    started = (folder / "started").read_text().splitlines()
    expect("runs of the program", len(started) < MANY // 10, True)
    lines = [line for line in trial.said if re.search(r"archives, [0-9]+ %$", line)]
    expect("lines of progress", (len(lines) <= 101, lines[-1]), (True, "warcdx-update: 1,000 of 1,000 archives, 100 %"))
    trial.forget()
    identity = os.stat(trial.index)
    expect("status of a second run", trial.run(), 1)
    expect("archives of a second run", trial.begun, [])
    expect("index of a second run", os.stat(trial.index), identity)
    trial.expect_results(damaged_of(trial), trial.wanted)


def only_a_new_archive_is_read(program: pathlib.Path, folder: pathlib.Path) -> None:
    if shutil.which("strace") is None:
        print("skipped  only a new archive is read: strace is missing (Debian's package strace)")
        return
    trial = many_archives(program, folder, 50)
    expect("status", trial.run(), 1)
    copy_sample("wget", trial.archives / "new.warc")
    trace = folder / "trace"
    calls = ("strace", "--follow-forks", "--decode-fds=path", "--trace=read,pread64,readv", "--output", str(trace))
    with open(trial.report, "wb") as report:
        subprocess.run((*calls, *trial.command("--quiet")), stdout=report, stderr=subprocess.DEVNULL)
    reads: dict[str, int] = {}
    for path, count in re.findall(r"\(\d+<([^>]*)>.* = (\d+)$", trace.read_text(errors="replace"), re.MULTILINE):
        if path.startswith(str(trial.archives)):
            reads[pathlib.Path(path).name] = reads.get(pathlib.Path(path).name, 0) + int(count)
    size = (trial.archives / "new.warc").stat().st_size
    expect("archives that are read", list(reads), ["new.warc"])
    expect("bytes that are read", reads["new.warc"] <= size + 2, True)
    trial.expect_results(damaged_of(trial), index_of_many(program, trial, folder))


def a_run_that_is_killed_loses_nothing(program: pathlib.Path, folder: pathlib.Path) -> None:
    """Runs over more and more archives are killed at random moments. After each, the index is the one of before, or the new one."""
    trial = many_archives(program, folder, 60)
    begin = time.monotonic()
    expect("status", trial.run(), 1)
    seconds = time.monotonic() - begin
    for number in range(KILLS):
        before = trial.index.read_bytes()
        for each in RANDOM.sample(sorted(trial.archives.iterdir()), 20):
            archive = each.read_bytes()
            each.write_bytes(archive + (compressed(sample("response")) if each.suffix == ".gz" else sample("response")))
        (trial.archives / f"new-{number}.warc").write_bytes(sample("wget"))
        wanted = index_of_many(program, trial, folder)
        work = trial.start(start_new_session=True)
        time.sleep(RANDOM.uniform(0.02, seconds))
        kill_group(work, signal.SIGKILL)
        work.wait()
        expect(f"index after kill {number}", trial.index.read_bytes() in (before, wanted), True)
        if number % 4 == 3:
            expect("status", trial.run(), 1)
            trial.expect_results({path.name: 1 for path in trial.archives.iterdir() if trial.reports[path.name]["status"]}, wanted)


def an_archive_that_fails_is_tried_again_and_reported(program: pathlib.Path, folder: pathlib.Path) -> None:
    """Without an earlier part it is left out."""
    trial = Trial(program, folder, FAILING)
    (trial.archives / "below").mkdir()
    (trial.archives / "05.warc").rename(trial.archives / "below/05.warc")
    expect("status", trial.run("--recursive"), 3)
    expect("tries", [name for _, name in trial.begun if name.endswith("05.warc")], ["below/05.warc"] * 3)
    trial.expect_results({"below/05.warc": 3, "07.warc": 1}, trial.index_of("*.warc"))
    expect("line", "warcdx-update: below/05.warc: cannot open; left out" in trial.said, True)


def a_file_may_have_any_name(program: pathlib.Path, folder: pathlib.Path) -> None:
    """Only one that isn't UTF-8 can't be indexed. Each archive at fault has one line, which a terminal shows as it is."""
    trial = Trial(program, folder)
    good = ("-x.warc", ".hidden.warc", ".warc", "a b.warc", "a\nb.warc", "\x1b[31m.warc", "*.warc", "$(false).warc", f"{'n' * 250}.warc", 'é"\\.warc')
    for name in (*good, os.fsdecode(b"\xff.warc")):
        copy_sample("response", trial.archives / name)
    damaged = ("damaged\n\x1b.warc", "damaged\n  x.warc")  # a line of the second name reads like a second line of a message
    for name in damaged:
        copy_sample("damaged", trial.archives / name)
    (trial.archives / "folder.warc").mkdir()
    os.mkfifo(trial.archives / "pipe.warc")
    archives = sorted(path for path in trial.archives.iterdir() if path.is_file() and path.name != os.fsdecode(b"\xff.warc"))
    expect("status", trial.run(), 3)
    faulty = {"07.warc": 1, **dict.fromkeys(damaged, 1), "pipe.warc": 3, os.fsdecode(b"\xff.warc"): 3}
    trial.expect_results(faulty, index_of(program, archives))
    expect("lines of faults", sum(": fault " in line or "; left out" in line for line in trial.said), len(faulty))
    said = (folder / "said").read_text()
    expect("characters", [each for each in set(said) - {"\n"} if not each.isprintable()], [])


def archives_are_told_apart_by_their_first_bytes(program: pathlib.Path, folder: pathlib.Path) -> None:
    trial = Trial(program, folder)
    (trial.archives / "packed.warc").write_bytes(compressed(sample("response")))
    (trial.archives / "plain.warc.gz").write_bytes(sample("response"))
    (trial.archives / "empty.warc").touch()
    (trial.archives / "empty.warc.gz").touch()
    expect("status", trial.run(), 1)
    trial.expect_results({"07.warc": 1}, index_of_folders(program, trial.archives, folder))


def files_have_the_modes_of_the_umask(program: pathlib.Path, folder: pathlib.Path) -> None:
    """An index that was there keeps its mode."""
    trial = Trial(program, folder)
    expect("status", trial.start(umask=0o027).wait(WAIT), 1)
    made = [trial.index, *(path for path in trial.store.rglob("*") if path.is_file())]
    expect("modes", {oct(path.stat().st_mode & 0o777) for path in made}, {"0o640"})
    trial.index.chmod(0o604)
    (trial.archives / "03.warc").unlink()
    expect("status", trial.run("--remove", "1"), 1)
    expect("mode", oct(trial.index.stat().st_mode & 0o777), "0o604")


def folders_below_are_read_if_they_are_to_be(program: pathlib.Path, folder: pathlib.Path) -> None:
    """An archive has the name of its path, so that those of the same file name in several folders are distinct."""
    trial = Trial(program, folder)
    below = trial.archives / "a" / 'b "\\é\n'
    below.mkdir(parents=True)
    for name in ("00.warc", "below.warc"):
        copy_sample("wget", below / name)
    for name in ("00.warc.gz", ".warc.gz"):
        (below / name).write_bytes(compressed(sample("response")))
    (trial.archives / "00.cdxj").mkdir()
    (trial.archives / "00.cdxj" / "damaged.warc.gz").write_bytes(compressed(sample("damaged")))
    (trial.archives / "cycle").symlink_to(".")
    expect("status", trial.run("--recursive"), 1)
    faulty = {"07.warc": 1, "00.cdxj/damaged.warc.gz": 1}
    (trial.archives / "cycle").unlink()
    trial.expect_results(faulty, index_of_folders(program, trial.archives, folder))


def a_folder_that_cannot_be_read_keeps_its_captures(program: pathlib.Path, folder: pathlib.Path) -> None:
    """As root can read each folder, the command is run by another user."""
    if os.getuid():
        print("skipped  a folder that cannot be read: only root can run a command as another user")
        return
    trial = Trial(program, folder)
    (trial.archives / "below").mkdir()
    copy_sample("wget", trial.archives / "below/a.warc")
    (trial.folder / "said").touch()
    for path in (folder, *folder.rglob("*")):
        os.chown(path, 65534, 65534)
    nobody = {"user": 65534, "group": 65534, "extra_groups": ()}
    expect("status", trial.start("--recursive", **nobody).wait(WAIT), 1)
    wanted = index_of_folders(program, trial.archives, folder)
    (trial.archives / "below").chmod(0)
    (trial.archives / "03.warc").chmod(0)
    os.utime(trial.archives / "03.warc")
    expect("status", trial.start("--recursive", **nobody).wait(WAIT), 3)
    trial.expect_results({"07.warc": 1, "below/": 3, "below/a.warc": 3, "03.warc": 3}, wanted)
    trial.archives.chmod(0)
    before = trial.index.stat()
    expect("status of a folder that is unreadable", trial.start("--recursive", **nobody).wait(WAIT), 3)
    expect("lines", trial.said, [f"warcdx-update: {trial.archives}: Permission denied"])
    expect("index", trial.index.stat(), before)


def a_further_run_indexes_what_is_new(program: pathlib.Path, folder: pathlib.Path) -> None:
    """That is a new archive, and one that was changed, if only in its size or its inode. What was damaged is still reported."""
    trial = Trial(program, folder)
    expect("status", trial.run(), 1)
    (trial.archives / "03.warc").unlink()
    usual = (trial.archives / "09.warc").stat().st_mtime_ns
    for name in ("05.warc", "09.warc", "new.warc"):
        copy_sample("response", trial.archives / name)
    os.utime(trial.archives / "09.warc", ns=(usual, usual))
    same = (trial.archives / "11.warc").stat().st_mtime_ns
    shutil.copy2(trial.archives / "11.warc", folder / "11.warc")
    os.replace(folder / "11.warc", trial.archives / "11.warc")
    expect("time", (trial.archives / "11.warc").stat().st_mtime_ns, same)
    trial.forget()
    for words, last in (((), "keep"), (("--remove", "1"), "remove")):
        dry = subprocess.run(trial.usual_command("--dry-run", *words), stdout=subprocess.PIPE, check=True).stdout.decode()
        lines = subprocess.run(trial.command("--dry-run", *words), stdout=subprocess.PIPE, check=True).stdout.splitlines()
        shown = "".join(f"{line['action']} {line['archive']}\n" for line in map(json.loads, lines))
        expect("what would be done, in JSON", shown, dry)
        expect("what would be done", dry, f"index 05.warc\nindex 09.warc\nindex 11.warc\nindex new.warc\n{last} 03.warc\n")
    expect("status", trial.run("--remove", "1"), 1)
    expect("archives", {name for _, name in trial.begun}, {"05.warc", "09.warc", "11.warc", "new.warc"})
    trial.expect_results({"07.warc": 1}, trial.index_of("*.warc"))


def a_database_that_is_damaged_is_refused(program: pathlib.Path, folder: pathlib.Path) -> None:
    """The index stays as it was, also for those that read its runs."""
    trial = Trial(program, folder)
    expect("status", trial.run(), 1)
    database = trial.store / "state.db"
    whole = database.read_bytes()
    copy_sample("response", trial.archives / "new.warc")
    no_text = whole.replace(b"CREATE TABLE archives", b"CREATE TAB\xffE archives")  # which the message of SQLite has
    for text in (b"", b"notes\n" * 100, whole[:5000], whole[:100] + bytes(len(whole) - 100), bytes(16) + whole[16:], no_text):
        database.write_bytes(text)
        expect("status", trial.run(), 3)
        expect("lines", (len(trial.said), "Traceback" in trial.said[0]), (1, False))
        expect("database", database.read_bytes() == text, True)
        expect("index", trial.index.read_bytes() == trial.wanted, True)
        expect("runs", merged(program, trial.runs) == trial.wanted, True)
    database.write_bytes(whole)
    expect("status", trial.run(), 1)
    trial.expect_results({"07.warc": 1}, trial.index_of("*.warc"))


def a_terminal_shows_the_bytes(program: pathlib.Path, folder: pathlib.Path) -> None:
    trial = Trial(program, folder)
    if importlib.util.find_spec("tqdm") is None:
        print("skipped  a terminal shows the bytes: the module tqdm is missing (Debian's package python3-tqdm)")
        return
    size = sum(path.stat().st_size for path in trial.archives.iterdir())
    terminal, device = pty.openpty()
    with open(trial.report, "wb") as report, subprocess.Popen(
        trial.command(), stdin=subprocess.DEVNULL, stdout=report, stderr=device
    ) as work:
        os.close(device)
        shown = bytearray()
        with contextlib.suppress(OSError):  # the end of a terminal
            while piece := os.read(terminal, 1024):
                shown += piece
    os.close(terminal)
    expect("status", work.returncode, 1)
    lines = re.split(rb"[\r\n]+", bytes(shown))
    expect("lines", all(line.startswith((b"12 archives: ", b"warcdx-update: ")) or not line.strip() for line in lines), True)
    expect("bytes", any(b"/%.2fM " % (size / 1e6) in line for line in lines), True)
    trial.expect_results({"07.warc": 1}, trial.wanted)


def a_second_run_is_refused(program: pathlib.Path, folder: pathlib.Path) -> None:
    trial = Trial(program, folder, SLOW)
    first = trial.start()
    until("the first run", lambda: trial.begun)
    second = subprocess.run(trial.usual_command(), stderr=subprocess.PIPE)
    expect("status", second.returncode, 3)
    expect("line", second.stderr.decode(), f"warcdx-update: {trial.index}: another process updates this index\n")
    expect("status of the first run", first.wait(WAIT), 1)
    trial.expect_results({"07.warc": 1}, trial.wanted)


def another_file_is_not_replaced(program: pathlib.Path, folder: pathlib.Path) -> None:
    trial = Trial(program, folder)
    copy_sample("wget", trial.index)
    expect("status", trial.run(), 3)
    line = f"warcdx-update: {trial.index}: no earlier update has made {trial.index} as it is, and it isn't replaced: give another INDEX"
    expect("line", trial.said, [line])
    expect("file", trial.index.read_bytes(), sample("wget"))
    expect("folder of the index", trial.store.exists(), False)
    trial.index.write_bytes(trial.wanted)
    expect("status over an index of another program", trial.run(), 3)
    expect("line", trial.said, [line])
    trial.index.unlink()
    expect("status without it", trial.run(), 1)
    trial.expect_results({"07.warc": 1}, trial.wanted)


def the_summary_counts_the_captures(program: pathlib.Path, folder: pathlib.Path) -> None:
    """The values are those of the samples, by hand: response.warc has one capture of 2016."""
    trial = Trial(program, folder)
    for path in trial.archives.iterdir():
        path.unlink()
    for name in ("a", "b", "c"):
        copy_sample("response", trial.archives / f"{name}.warc")
    copy_sample("damaged", trial.archives / "damaged.warc")
    expect("status", trial.run(), 1)
    summary = trial.summary
    damage = subprocess.run((program, "list", trial.archives / "damaged.warc"), stdout=subprocess.PIPE, text=True).stdout.split()
    wanted = {
        "archives": 4,
        "bytes": 3 * len(sample("response")) + len(sample("damaged")),
        "damaged": [{"archive": "damaged.warc", "offset": int(damage[-2]), "cause": damage[-1]}],
    }
    expect("summary", {name: summary[name] for name in wanted}, wanted)
    (trial.archives / "damaged.warc").unlink()
    (trial.archives / "c.warc").unlink()
    expect("status", trial.run("--remove", "50%"), 0)
    summary = trial.summary
    made = summary.pop("made")
    expect("time", bool(re.fullmatch(r"20[0-9]{2}-[0-9]{2}-[0-9]{2}T[0-9]{2}:[0-9]{2}:[0-9]{2}Z", made)), True)
    expect(
        "summary",
        summary,
        {
            "archives": 2,
            "bytes": 2 * len(sample("response")),
            "captures": 2,
            "years": {"2016": 2},
            "hosts": {"example.com": 2},
            "types": {"text/html": 2},
            "statuses": {"200": 2},
            "others": {"hosts": 0, "years": 0, "types": 0, "statuses": 0},
            "damaged": [],
            "unread": [],
            "gone": 0,
            "passed_over": {"endings": {}, "links": 0, "below": 0},
        },
    )


CASES = (
    the_index_of_a_thousand_archives,
    only_a_new_archive_is_read,
    a_run_that_is_killed_loses_nothing,
    a_signal_ends_a_run,
    an_archive_that_fails_is_tried_again_and_reported,
    an_archive_that_cannot_be_read_keeps_its_captures,
    a_file_may_have_any_name,
    archives_are_told_apart_by_their_first_bytes,
    files_have_the_modes_of_the_umask,
    folders_below_are_read_if_they_are_to_be,
    a_folder_that_cannot_be_read_keeps_its_captures,
    a_further_run_indexes_what_is_new,
    a_database_that_is_damaged_is_refused,
    a_terminal_shows_the_bytes,
    a_second_run_is_refused,
    another_file_is_not_replaced,
    runs_that_are_damaged_are_made_anew,
    a_full_disk_is_reported,
    streams_may_be_closed,
    memory_may_be_refused,
    the_summary_counts_the_captures,
)
RANDOM = random.Random(1)


def main() -> int:
    parser, report = parser_of(__doc__), Report()
    parser.add_argument("--seed", type=int, default=1, metavar="N", help="default: 1")
    add_program(parser)
    given = parser.parse_args()
    RANDOM.seed(given.seed)
    program = find_program(given.program)
    for case in CASES:
        title = case.__name__.replace("_", " ")
        with tempfile.TemporaryDirectory() as name:
            try:
                case(program, pathlib.Path(name))
                report.add_ok(title)
            except Differs as difference:
                report.add_difference(title, difference)
    return report.end()


if __name__ == "__main__":
    sys.exit(main())
