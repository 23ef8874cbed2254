"""Which archives warcdx-update reads again, which faults it reports, and what it says that it passes over."""
import contextlib
import os
import pathlib
import shutil
import subprocess

from neighbours import updated
from update_trial import WAIT, Trial, compressed, copy_sample, expect, merged, sample, until


def a_restored_archive_is_read_again(program: pathlib.Path, folder: pathlib.Path) -> None:
    """A restore may keep the size, the time and the inode. What was damaged, and what wasn't seen to be, is whole afterwards."""
    trial = Trial(program, folder)
    whole = sample("response") * 4
    for name in ("rotten.warc", "unseen.warc"):
        (trial.archives / name).write_bytes(whole)
    places = {"rotten.warc": whole.rindex(b"WARC/1."), "unseen.warc": whole.rindex(b"http://example.com/")}
    mirror = folder / "mirror"
    shutil.copytree(trial.archives, mirror)
    for name, place in places.items():
        with open(trial.archives / name, "r+b") as file:
            file.seek(place)
            file.write(b"X" if name == "rotten.warc" else b"https")
        shutil.copystat(mirror / name, trial.archives / name)
    identities = {name: _kept(trial.archives / name) for name in places}
    expect("status", trial.run(), 1)
    expect("damage", trial.reports["rotten.warc"]["status"], 1)
    for name in places:
        subprocess.run(("cp", "--preserve=mode,timestamps", mirror / name, trial.archives / name), check=True)
        expect("size, time and inode", _kept(trial.archives / name), identities[name])
    trial.forget()
    expect("status", trial.run(), 1)
    expect("archives that are read", sorted(name for _, name in trial.begun), sorted(places))
    trial.expect_results({"07.warc": 1}, trial.index_of("*.warc"))


def _kept(path: pathlib.Path) -> tuple[int, int, int]:
    found = path.stat()
    return found.st_size, found.st_mtime_ns, found.st_ino


def a_fault_is_reported_once(program: pathlib.Path, folder: pathlib.Path) -> None:
    """So is an archive that can't be read. Another fault of the same archive is a new one, and so is one that was mended meanwhile."""
    trial = Trial(program, folder)
    (trial.archives / "unread.warc").symlink_to("nothing")
    (trial.archives / "rotten.warc").symlink_to("/proc/self/mem")  # reading it fails as on a disk that is at fault
    lines = {
        "damaged": "warcdx-update: 07.warc: fault 448 ShortBlock",
        "rotten": "warcdx-update: rotten.warc: fault 0 Read; left out",
        "unread": "warcdx-update: unread.warc: No such file or directory; left out",
        "other": "warcdx-update: 07.warc: fault 0 Version",
    }
    def ends(name: str, status: int, *words: object, said: tuple[str, ...] = ()) -> None:
        expect(f"status of {name}", trial.run_usually("--quiet", "--json", *words), status)
        expect(f"lines of {name}", trial.said, [lines[each] for each in said])

    def expect_faults(name: str, wanted: dict[str, int]) -> None:
        expect(f"report of {name}", {archive: each["status"] for archive, each in trial.reports.items() if each["status"]}, wanted)
        values = trial.summary
        expect(f"summary of {name}", [each["archive"] for each in values["damaged"]], [each for each, status in wanted.items() if status == 1])
        expect(f"summary of {name}", [each["archive"] for each in values["unread"]], [each for each, status in wanted.items() if status == 3])

    both = {"07.warc": 1, "unread.warc": 3}
    ends("a first run", 3, said=("damaged", "rotten", "unread"))
    ends("a second run", 0)
    expect_faults("a second run", {"rotten.warc": 3, **both})
    ends("a run that reports all", 3, "--all-faults", said=("damaged", "rotten", "unread"))
    (trial.archives / "rotten.warc").unlink()
    ends("a run after it", 0)
    expect("status", trial.run_usually(), 0)
    expect("line", trial.said[-1].endswith("(12 unchanged, 1 left out, 2 known to be at fault)"), True)
    damaged = (trial.archives / "07.warc").read_bytes()
    (trial.archives / "07.warc").write_bytes(b"X" + damaged)
    ends("another fault", 1, said=("other",))
    (trial.archives / "07.warc").write_bytes(damaged)
    (trial.archives / "unread.warc").unlink()
    copy_sample("response", trial.archives / "unread.warc")
    ends("the first fault again", 1, said=("damaged",))
    expect_faults("the first fault again", {"07.warc": 1})
    (trial.archives / "unread.warc").unlink()
    (trial.archives / "unread.warc").symlink_to("nothing")
    lines["unread"] = lines["unread"].replace("left out", "the index keeps its captures")
    ends("an archive that is read no more", 3, said=("unread",))
    ends("a run after it", 0)
    expect_faults("a run after it", both)
    copy_sample("wget", trial.archives / "new.warc")
    ends("a new archive", 0)
    copy_sample("damaged", trial.archives / "newer.warc")
    lines["newer"] = lines["damaged"].replace("07", "newer")
    ends("a new damaged archive", 1, said=("newer",))


def what_the_machine_lacks_is_reported_each_time(program: pathlib.Path, folder: pathlib.Path) -> None:
    """It isn't a fault of the archive. Here the program for one archive ends as it does without memory, or is killed."""
    trial = Trial(program, folder)
    usual = trial.program.read_text()
    for said in ("echo warcdx: Memory >&2; exit 3", "kill -9 $$", "exit 7"):
        trial.remove_results()
        trial.program.write_text(usual.replace("#!/bin/sh\n", f'#!/bin/sh\ncase "$*" in *./05.warc*) {said};; esac\n'))
        for _ in range(2):
            expect(f"status with {said}", trial.run_usually("--quiet"), 3)
            expect("lines", [line.split(":")[1] for line in trial.said if "07" not in line], [" 05.warc"])


def a_fault_is_known_once_it_was_said(program: pathlib.Path, folder: pathlib.Path) -> None:
    """A run that is killed before it says a fault leaves it to the next one, and so does one that can't say it."""
    trial = Trial(program, folder)
    reading, writing = os.pipe()
    os.set_blocking(writing, False)
    with contextlib.suppress(BlockingIOError):
        while True:
            os.write(writing, bytes(1 << 12))
    os.set_blocking(writing, True)  # so that the run waits where it says the fault
    command = trial.usual_command("--quiet")
    work = subprocess.Popen(command, stdin=subprocess.DEVNULL, stdout=subprocess.DEVNULL, stderr=writing)
    until("the damaged archive", lambda: "07.warc" in trial.done)
    work.kill()
    work.wait()
    os.close(reading)
    os.close(writing)
    for script in ('"$@" 2> /dev/full', '"$@" 2>&-'):
        command = ("sh", "-c", script, "sh", *trial.usual_command("--quiet"))
        expect(f"status of {script}", subprocess.run(command, timeout=WAIT).returncode, 1)
    for status in (1, 0):
        expect("status", trial.run_usually("--quiet"), status)
        expect("lines", trial.said, ["warcdx-update: 07.warc: fault 448 ShortBlock"] * status)


def what_is_passed_over_is_said(program: pathlib.Path, folder: pathlib.Path) -> None:
    """By endings, in the order of their numbers, and without what belongs to the index, which is in the folder here."""
    trial = Trial(program, folder)
    trial.index, trial.store = trial.archives / "all.cdxj", trial.archives / "all.cdxj.d"
    for name in ("a.wacz", "b.WACZ", "c.arc.gz", "README", ".DS_Store", "d.warc.zst", "a.\x1b[31m", "e.warc.gz.part", "notes.2016"):
        (trial.archives / name).touch()
    (trial.archives / "loop").symlink_to(".")
    below = trial.archives / "below"
    (below / "deeper").mkdir(parents=True)
    for name in ("a.warc", "b.WARC.GZ", "deeper/c.warc", "deeper/d.txt"):
        (below / name).touch()
    line = "passed over: 4 without an ending, 2 .wacz, 1 .arc.gz, 1 .part, 1 .warc.zst, 1 link to a folder, 3 in folders below, without --recursive"
    wanted = {"endings": {"": 4, ".wacz": 2, ".arc.gz": 1, ".part": 1, ".warc.zst": 1}, "links": 1, "below": 3}
    dry = subprocess.run(trial.usual_command("--dry-run"), stdout=subprocess.PIPE, text=True, check=True).stdout
    expect("line of --dry-run", dry.splitlines()[-1], line)
    for _ in range(2):
        trial.run_usually()
        expect("lines", [each for each in trial.said if "passed" in each], [f"warcdx-update: {line}"])
        expect("summary", trial.summary["passed_over"], wanted)
    identity = trial.index.stat()
    (trial.archives / "more.wacz").touch()
    trial.run_usually("--quiet")
    expect("lines of --quiet", trial.said, [])
    expect("summary", trial.summary["passed_over"]["endings"][".wacz"], 3)
    expect("index", trial.index.stat(), identity)
    for number in range(30):
        (trial.archives / f"x.e{number:02}").touch()
    trial.run_usually()
    expect("line", "20 with other endings" not in trial.said[-2] and "with other endings" in trial.said[-2] and len(trial.said[-2]) < 300, True)


def a_folder_with_many_files_below_is_not_read_to_its_end(program: pathlib.Path, folder: pathlib.Path) -> None:
    trial = Trial(program, folder)
    for number in range(3):
        (trial.archives / f"below{number}").mkdir()
        for each in range(6000):
            os.close(os.open(trial.archives / f"below{number}/{each}.warc", os.O_CREAT | os.O_WRONLY))
    expect("status", trial.run_usually(), 1)
    lines = [line for line in trial.said if "passed over" in line]
    expect("lines", lines, ["warcdx-update: passed over: at least 10,000 in folders below, without --recursive"])


def endings_may_be_in_capital_letters(program: pathlib.Path, folder: pathlib.Path) -> None:
    trial = Trial(program, folder)
    (trial.archives / "A.WARC.GZ").write_bytes(compressed(sample("response")))
    (trial.archives / "B.Warc").write_bytes(sample("response"))
    expect("status", trial.run(), 1)
    expect("captures", (trial.reports["A.WARC.GZ"]["captures"], trial.reports["B.Warc"]["captures"]), (1, 1))
    expect("lines", [line for line in trial.said if "passed over" in line], [])


def types_are_those_of_the_program(program: pathlib.Path, folder: pathlib.Path) -> None:
    """Also of compressed archives. The usual ones may be named."""
    trial = Trial(program, folder)
    (trial.archives / "packed.warc.gz").write_bytes(compressed(sample("response")))
    for types, packed in (("metadata,response", 1), ("resource", 0), ("revisit,response,resource", 1)):
        trial.remove_results()
        expect("status", trial.run("--types", types), 1)
        command = (program, "index", "--types", types, *sorted(trial.archives.glob("*.warc")))
        plain = subprocess.run(command, stdout=subprocess.PIPE, stderr=subprocess.DEVNULL).stdout
        expect(f"captures of {types}", trial.reports["packed.warc.gz"]["captures"], packed)
        expect(f"captures of {types}", trial.index.read_bytes().count(b"\n"), plain.count(b"\n") + packed)
    expect("status without --types", trial.run(), 1)


def what_is_said_of_a_failed_run_is_so(program: pathlib.Path, folder: pathlib.Path) -> None:
    """The index stays as it was, or isn't there."""
    trial = Trial(program, folder)
    name = "n" * 254
    path = folder / name
    expect("status of a name that is too long for its folder", updated(trial, trial.archives, path), 3)
    expect("files", [each.name[:1] for each in folder.iterdir() if each.name.startswith(("n", "."))], [])
    usual = trial.program.read_text()
    failing = usual.replace("#!/bin/sh\n", "#!/bin/sh\ncase $1 in merge) exit 3;; esac\n")
    trial.program.write_text(failing)
    expect("status", trial.run(), 3)
    expect("line", trial.said[-1].endswith("; there is no index"), True)
    trial.program.write_text(usual)
    expect("status", trial.run(), 1)
    copy_sample("response", trial.archives / "new.warc")
    trial.program.write_text(failing)
    before = trial.index.read_bytes()
    expect("status", trial.run(), 3)
    expect("line", trial.said[-1].endswith("; the index stays as it was"), True)
    expect("index", trial.index.read_bytes() == before, True)
    trial.program.write_text(usual)
    modules = folder / "modules"
    modules.mkdir()
    (modules / "sitecustomize.py").write_text(FAILING_REPLACE)
    expect("status", trial.start(env={**os.environ, "PYTHONPATH": str(modules)}).wait(WAIT), 3)
    expect("line", trial.said[-1], f"warcdx-update: {trial.index}: No space left on device; the index stays as it was")
    expect("index", trial.index.read_bytes() == before, True)
    expect("runs", merged(program, trial.runs) == trial.index_of("*.warc"), True)
    expect("status", trial.run(), 1)
    trial.expect_results({"07.warc": 1}, trial.index_of("*.warc"))


FAILING_REPLACE = """
import os

usual = os.replace


def replace(source, target, **options):
    if str(target).endswith("all.cdxj"):
        raise OSError(28, "No space left on device")
    usual(source, target, **options)


os.replace = replace
"""
CASES = (
    a_restored_archive_is_read_again,
    a_fault_is_reported_once,
    what_the_machine_lacks_is_reported_each_time,
    a_fault_is_known_once_it_was_said,
    what_is_passed_over_is_said,
    a_folder_with_many_files_below_is_not_read_to_its_end,
    endings_may_be_in_capital_letters,
    types_are_those_of_the_program,
    what_is_said_of_a_failed_run_is_so,
)
