"""Runs of warcdx-update beside files that it hasn't made. What was there before a run is there after it, byte for byte."""
import contextlib
import os
import pathlib
import shutil
import signal
import socket
import sqlite3
import stat
import subprocess
import uuid
from collections.abc import Callable, Iterable, Iterator

from update_trial import SLOW, WAIT, Trial, copy_sample, expect, kill_group, sample, until

State = tuple[object, ...]
# Names that the command or an earlier state of it might use.
NAMES = (
    "thesis.txt", "lock.new", "log.new", "log.jsonl.new", "made.json", "made.json.new", "unfinished", "removed", "merged", "new",
    "all.cdxj.new", "all.cdxj.summary.json.new", ".all.cdxj.new", ".warcdx.index", ".warcdx-.index", "removed-", "unfinished-", "new-",
    "state", "state.db.new", "current.new", "manifest.json", "summary.json", "000001", "1", "0", "000001.cdxj.old", "900000.new",
    "900000.cdxj", "900000", f".warcdx-{uuid.UUID(int=7).hex}", "000001.CDXJ", "000001.new.old", "00001.new",
)  # fmt: skip


def states(folder: pathlib.Path) -> dict[str, State]:
    """Returns what a folder has: of each entry its kind, mode, inode and time, and its bytes, where it leads, or which names it has."""
    found = {}
    for path in (folder, *folder.rglob("*")):
        entry = path.lstat()
        kept: object = None
        if path.is_symlink():
            kept = os.readlink(path)
        elif stat.S_ISREG(entry.st_mode):
            kept = path.read_bytes()
        elif stat.S_ISDIR(entry.st_mode):
            kept = sorted(os.listdir(path))
        time_of_change = None if stat.S_ISDIR(entry.st_mode) else entry.st_mtime_ns
        found[str(path.relative_to(folder))] = (entry.st_mode, entry.st_ino, time_of_change, kept)
    return found


@contextlib.contextmanager
def unchanged(*folders: pathlib.Path) -> Iterator[None]:
    """Expects folders, and all that is in them, to be the same after a block."""
    before = [states(folder) for folder in folders]
    yield
    for folder, wanted in zip(folders, before):
        expect_same(str(folder), states(folder), wanted)


def expect_same(name: str, found: dict[str, State], wanted: dict[str, State]) -> None:
    if found != wanted:
        differing = sorted(each for each in found.keys() | wanted.keys() if found.get(each) != wanted.get(each))
        expect(f"what differs in {name}", differing, [])


def put_others(folder: pathlib.Path, names: Iterable[str] = NAMES) -> None:
    """Puts what others may have into a folder: files, folders, a pipe, a socket and links. Each name has another kind of thing."""
    outside = folder.parent / f"behind-{folder.name}"
    outside.mkdir(exist_ok=True)
    (outside / "file").write_text("behind a link\n")
    kinds = (_put_file, put_folder, _put_file, _put_link, os.mkfifo, put_socket, _put_link_to_folder, _put_dangling_link)
    for number, name in enumerate(names):
        if not os.path.lexists(folder / name):
            kinds[number % len(kinds)](folder / name)


def _put_file(path: pathlib.Path) -> None:
    path.write_text(f"mine: {path.name}\n")


def put_folder(path: pathlib.Path) -> None:
    (path / "below").mkdir(parents=True)
    (path / "below/photo.jpg").write_bytes(b"\xff\xd8")


def _put_link(path: pathlib.Path) -> None:
    path.symlink_to(path.parent.parent / f"behind-{path.parent.name}" / "file")


def _put_link_to_folder(path: pathlib.Path) -> None:
    path.symlink_to(path.parent.parent / f"behind-{path.parent.name}")


def _put_dangling_link(path: pathlib.Path) -> None:
    path.symlink_to(path.parent / f"nothing-{path.name}")


def put_socket(path: pathlib.Path) -> None:
    here = os.getcwd()
    os.chdir(path.parent)  # the path of a socket is short
    try:
        with socket.socket(socket.AF_UNIX) as made:
            made.bind(path.name)
    finally:
        os.chdir(here)


class Home:
    """A trial whose index is in a folder with other files, `home`, and whose folder of parts may be elsewhere."""

    def __init__(self, program: pathlib.Path, folder: pathlib.Path, script: str = SLOW) -> None:
        self.trial = Trial(program, folder, script.replace("sleep 0.5", "sleep 0.05"))
        self.home = folder / "home"
        self.home.mkdir()
        self.trial.index, self.trial.store = self.home / "all.cdxj", self.home / "all.cdxj.d"

    @property
    def own(self) -> set[str]:
        """The names that the command gives in the folder of the index."""
        (last, state), = self.trial.ask("SELECT last, state FROM settings")
        runs = {f"runs/{number:06}.{ending}" for number in range(last + 1) for ending in ("cdxj", "new")}
        states = {f"states/{number}" for number in range(state + 1)}
        within = {f"{each}/{name}" for each in states for name in ("manifest.json", "summary.json", *(run[5:] for run in runs))}
        return {"state.db", "state.db-journal", "current", "runs", "states", *runs, *states, *within}

    def states(self) -> dict[str, State]:
        """Returns what others have in the home, in the folder of parts and behind links."""
        found = {}
        for folder in (self.home, self.trial.store.resolve(), *self.trial.folder.glob("behind-*")):
            own = self.own if folder.name != "home" and not folder.name.startswith("behind") else set()
            for name, state in states(folder).items():
                top = name.split("/")[0]
                if name != "." and name not in own and not top.startswith("all.cdxj.d") and top != "all.cdxj":
                    found[f"{folder}/{name}"] = state
        return found


def every_run_leaves_what_others_have(program: pathlib.Path, folder: pathlib.Path) -> None:
    """Beside the index, in the folder of parts and behind links: after runs over new, changed and removed archives, a killed one, one
    that is ended, and one that fails."""
    home = Home(program, folder)
    trial = home.trial
    put_others(home.home)
    expect("status of the first run", trial.run(), 1)
    put_others(trial.store)
    before = home.states()
    expect("number of what others have", len(before) > 2 * len(NAMES), True)

    def ends(name: str, run: Callable[[], object], wanted: object, is_whole: bool = True) -> None:
        expect(name, run(), wanted)
        found = home.states()
        expect_same(name, found if is_whole else {each: found.get(each, ()) for each in before}, before)

    def interrupted(number: int) -> int:
        for archive in sorted(trial.archives.iterdir())[:6]:
            archive.write_bytes(archive.read_bytes() + sample("response"))
        trial.forget()
        work = trial.start("--jobs", "2", start_new_session=True)
        until("archives", lambda: len(trial.begun) > 3)
        kill_group(work, number)
        ended = work.wait(WAIT)
        return ended

    copy_sample("response", trial.archives / "new.warc")
    (trial.archives / "03.warc").write_bytes(sample("response"))
    ends("a new and a changed archive", trial.run, 1)
    (trial.archives / "05.warc").unlink()
    ends("an archive that is gone", trial.run, 3)
    ends("a removed archive", lambda: trial.run("--remove", "all"), 1)
    ends("a run that is killed", lambda: interrupted(signal.SIGKILL), -signal.SIGKILL, is_whole=False)
    ends("a run after it", trial.run, 1)
    ends("a run that is ended", lambda: interrupted(signal.SIGTERM), -signal.SIGTERM)
    ends("a run after it", trial.run, 1)
    trial.index.write_text("notes\n")
    copy_sample("response", trial.archives / "newer.warc")
    ends("a run that is refused", trial.run, 3)
    trial.index.unlink()
    ends("a run without an index", trial.run, 1)
    expect("index", trial.index.read_bytes() == trial.index_of("*.warc"), True)


def other_folders_of_parts_are_refused(program: pathlib.Path, folder: pathlib.Path) -> None:
    """They are so if anything is in them, also behind a link, also if it looks like parts of an earlier state of the command."""
    home = Home(program, folder)
    trial = home.trial
    expect("status", trial.run(), 1)
    made = folder / "made"
    shutil.copytree(trial.store, made)
    trial.remove_results()
    disk = folder / "disk"

    def with_files(parts: pathlib.Path) -> None:
        put_others(parts)

    def with_one(name: str, text: str = "") -> Callable[[pathlib.Path], None]:
        return lambda parts: _ignore((parts / name).write_text(text))

    def of_an_earlier_state(parts: pathlib.Path) -> None:
        shutil.copytree(made, parts, dirs_exist_ok=True)
        (parts / "state.db").unlink()

    def of_another_version(parts: pathlib.Path) -> None:
        shutil.copytree(made, parts, dirs_exist_ok=True)
        with contextlib.closing(sqlite3.connect(parts / "state.db")) as database:
            database.execute("PRAGMA user_version = 9")

    def with_another_database(parts: pathlib.Path) -> None:
        with contextlib.closing(sqlite3.connect(parts / "state.db")) as database:
            database.execute("CREATE TABLE mine (text TEXT)")

    def with_a_folder(name: str) -> Callable[[pathlib.Path], None]:
        return lambda parts: (parts / name).mkdir()

    fillings = (
        with_files, with_one("thesis.txt"), with_one("state.db", "mine\n"), with_one("current"), with_one("000001.cdxj"),
        with_one(".hidden"), with_one("state.db-wal"), with_a_folder("state.db"), with_a_folder("runs"), with_a_folder("states"),
        of_an_earlier_state, of_another_version, with_another_database,
    )  # fmt: skip
    for filling in fillings:
        for is_link in (False, True):
            disk.mkdir()
            (disk / "parts").mkdir()
            filling(disk / "parts")
            if is_link:
                trial.store.symlink_to(disk / "parts")
            else:
                shutil.copytree(disk / "parts", trial.store, symlinks=True, copy_function=_copy)
            with unchanged(folder / "home", disk, trial.archives):
                expect(f"status with {filling}", trial.run(), 3)
                expect("lines", (len(trial.said), "Traceback" in trial.said[0]), (1, False))
            shutil.rmtree(disk)
            trial.store.unlink() if is_link else shutil.rmtree(trial.store)
    trial.store.symlink_to(folder / "not mounted")
    with unchanged(folder / "home", trial.archives):
        expect("status with a link that leads to nothing", trial.run(), 3)
    trial.store.unlink()
    trial.store.mkdir()
    (trial.store / "state.db").touch()  # as of a run that was ended before it wrote it
    expect("status with an empty folder", trial.run(), 1)
    expect("index", trial.index.read_bytes() == trial.wanted, True)


def a_database_that_others_have_changed_is_refused(program: pathlib.Path, folder: pathlib.Path) -> None:
    """So it is if its tables are others, or values aren't of their types because the conditions were ignored."""
    trial = Trial(program, folder)
    expect("status", trial.run(), 1)
    database, whole = trial.store / "state.db", folder / "whole"
    shutil.copytree(trial.store, whole, symlinks=True)
    copy_sample("response", trial.archives / "new.warc")
    values = {
        "settings": {
            "folder": ("NULL", "x'ff'"), "recursive": ("NULL", "'x'"), "types": ("x'00'", "NULL"), "token": ("x'00'", "NULL"),
            "last": ("'x'", "-1", "1.5", "9223372036854775807"), "state": ("'abc'", "NULL", "-3"), "changed": ("NULL", "'x'"),
            "summary": ("NULL", "'['", "'[1]'", "'7'", "x'7b7d'", f"'{'[' * 99_999}'"),
        },
        "runs": {"number": ("-1",), "size": ("NULL", "'x'"), "mtime": ("NULL",), "captures": ("NULL", "'x'"), "since": ("'x'",)},
        "archives": {
            "name": ("x'61'", "NULL", "CAST(x'ff' AS TEXT)"), "size": ("'x'",), "mtime": ("NULL",), "ctime": ("NULL",), "inode": ("NULL",),
            "cause": ("NULL", "x'00'"), "captures": ("'many'", "NULL"), "run": ("'x'",),
        },
        "counts": {"run": ("'x'",), "field": ("x'00'",), "value": ("x'ff'",), "captures": ("'x'",)},
        "faults": {"archive": ("NULL",), "message": ("NULL", "x'00'")},
        "files": {"size": ("'x'",), "crc_32": ("NULL",), "state": ("NULL", "'x'")},
    }  # fmt: skip
    keys = {"counts": "(run, field, value)"}
    statements = [
        "UPDATE {0} SET {1} = {2} WHERE {3} IN (SELECT {4} FROM {0} LIMIT 1)".format(
            table, column, value, (key := keys.get(table, "rowid")), key.strip("()")
        )
        for table, columns in values.items() for column, each in columns.items() for value in each
    ]
    statements += [
        "DELETE FROM settings", "INSERT INTO settings SELECT * FROM settings", "DROP TABLE archives", "ALTER TABLE runs ADD COLUMN more",
        "CREATE TABLE mine (text)", "CREATE TRIGGER mine AFTER UPDATE ON settings BEGIN DELETE FROM archives; END",
    ]
    for statement in statements:
        with contextlib.closing(sqlite3.connect(database, isolation_level=None)) as connected:
            connected.execute("PRAGMA ignore_check_constraints = ON")
            connected.execute(statement)
        before = trial.index.read_bytes()
        expect(f"status after {statement:.80}", trial.run(), 3)
        expect(f"line after {statement:.80}", [line for line in trial.said if str(database) in line][-1:] == trial.said[-1:], True)
        expect(f"index after {statement:.80}", trial.index.read_bytes() == before, True)
        shutil.rmtree(trial.store)
        shutil.copytree(whole, trial.store, symlinks=True)
    expect("status with the database", trial.run(), 1)
    expect("index", trial.index.read_bytes() == trial.index_of("*.warc"), True)


def _ignore(_: object) -> None: ...


def _copy(source: str, target: str) -> str:
    kind = os.lstat(source).st_mode
    if stat.S_ISREG(kind):
        return str(shutil.copy2(source, target))
    os.mkfifo(target)
    return target


def what_others_have_is_named(program: pathlib.Path, folder: pathlib.Path) -> None:
    """Something else at the place of a link to a state, and a folder that may only be read."""
    trial = Trial(program, folder)
    expect("status", trial.run(), 1)
    for name in ("current", "states/current"):
        path, kept = trial.store / name, trial.store / "kept"
        if path.is_symlink():
            path.rename(kept)
        path.write_text("mine\n")
        expect(f"status with {name}", trial.run(), 3)
        expect("lines", trial.said, [f"warcdx-update: {trial.index}: warcdx-update hasn't made {path}, and doesn't replace it"])
        path.unlink()
        if kept.is_symlink():
            kept.rename(path)
    if os.geteuid():
        print("skipped  a folder that may only be read: only root can run the command as another user")
        return
    folder.chmod(0o755)
    done = subprocess.run(trial.usual_command("--quiet"), stderr=subprocess.PIPE, user=65534, group=65534, extra_groups=(), timeout=WAIT)
    expect("line of a folder that may only be read", done.stderr.decode(), f"warcdx-update: {trial.store / 'state.db'}: Permission denied\n")


def a_slash_after_index_makes_a_folder(program: pathlib.Path, folder: pathlib.Path) -> None:
    trial = Trial(program, folder)
    for _ in range(2):
        expect("status", updated(trial, trial.archives, f"{folder / 'new'}/", "--all-faults"), 1)
    expect("manifest", (folder / "new/current/manifest.json").is_file(), True)
    expect("a folder beside it", (folder / "new.d").exists(), False)


def archives_and_parts_are_apart(program: pathlib.Path, folder: pathlib.Path) -> None:
    """FOLDER isn't in the folder of parts, by whatever name, and with --recursive the folder of parts isn't in FOLDER."""
    trial = Trial(program, folder)
    crawl = folder / "crawl.d"
    (crawl / "below").mkdir(parents=True)
    for place in (crawl, crawl / "below"):
        copy_sample("response", place / "a.warc")
    links = folder / "links"
    links.mkdir()
    (links / "crawl").symlink_to(crawl)
    (links / "home").symlink_to(folder)
    (folder / "all.d").symlink_to(crawl)
    pairs = (
        (crawl, folder / "crawl"), (crawl / "below", folder / "crawl"), (links / "crawl", folder / "crawl"),
        (crawl, folder / "all"), (links / "crawl/below", folder / "all"), (links / "crawl/../crawl.d", links / "home/crawl"),
        (folder / "archives/../crawl.d/below/..", folder / "crawl"), (crawl / "below", crawl), (crawl, folder / "all.d"),
    )  # fmt: skip
    for archives, index in pairs:
        for words in ((), ("--recursive",)):
            with unchanged(folder):
                expect(f"status of {archives} {index}", updated(trial, archives, index, *words), 3)
    for archives, index in (
        (trial.archives, trial.archives / "all.cdxj"),
        (folder, trial.archives / "all.cdxj"),
        (links / "home", folder / "archives/../archives/all.cdxj"),
        (trial.archives, links / "home/archives/all.cdxj"),
    ):
        with unchanged(folder):
            expect(f"status of --recursive {archives} {index}", updated(trial, archives, index, "--recursive"), 3)


def updated(trial: Trial, archives: object, index: object, *words: object) -> int:
    """Runs the command, and returns its status."""
    command = (*trial.usual_command(*words)[:-2], str(archives), str(index))
    done = subprocess.run(command, stdin=subprocess.DEVNULL, stdout=subprocess.DEVNULL, stderr=subprocess.PIPE, timeout=WAIT)
    expect("tracebacks", b"Traceback" in done.stderr, False)
    return done.returncode


def an_index_may_be_beside_its_archives(program: pathlib.Path, folder: pathlib.Path) -> None:
    """Without --recursive nothing below is read, so no archive is taken for a part, and no part for an archive."""
    trial = Trial(program, folder)
    put_others(trial.archives)
    before = states(trial.archives)
    before.pop(".")
    for _ in range(2):
        command = (*trial.usual_command("--quiet", "--all-faults")[:-2], ".", "all.cdxj")
        done = subprocess.run(command, stderr=subprocess.PIPE, cwd=trial.archives, timeout=WAIT)
        expect("status", (done.returncode, done.stderr), (1, b"warcdx-update: 07.warc: fault 448 ShortBlock\n"))
        found = {name: state for name, state in states(trial.archives).items() if name in before}
        expect_same("the archives", found, before)
        expect("index", (trial.archives / "all.cdxj").read_bytes() == trial.wanted, True)
        copy_sample("response", trial.archives / "00.warc")
        before["00.warc"] = states(trial.archives)["00.warc"]


def links_are_taken_where_they_lead(program: pathlib.Path, folder: pathlib.Path) -> None:
    """The index and its parts may be behind links, on other file systems too. Nothing beside them is touched there."""
    trial = Trial(program, folder)
    disk, other = folder / "disk", folder / "other"
    for place in (disk, other):
        place.mkdir()
    is_mounted = not subprocess.run(("mount", "-t", "tmpfs", "-o", "size=4m", "tmpfs", disk), stderr=subprocess.DEVNULL).returncode
    if not is_mounted:
        print("skipped  a folder of parts on another file system: only root can mount one")
    try:
        (disk / "parts").mkdir()
        put_others(disk)
        put_others(other)
        (other / "all.cdxj.d").symlink_to(disk / "parts")
        trial.index.symlink_to(other / "all.cdxj")
        before = {**states(disk), **{f"other/{name}": state for name, state in states(other).items()}}

        def expect_others() -> None:
            found = {**states(disk), **{f"other/{name}": state for name, state in states(other).items()}}
            own = ("parts", "other/all.cdxj", "other/.")
            wanted = {name: state for name, state in before.items() if not name.startswith("parts") and name not in own}
            found = {name: state for name, state in found.items() if not name.startswith("parts") and name not in own}
            expect_same("what others have", found, wanted)

        for status, change in ((1, lambda: None), (1, lambda: copy_sample("response", trial.archives / "new.warc"))):
            change()
            expect("status", trial.run(), status)
            expect_others()
            expect("index", (other / "all.cdxj").read_bytes() == trial.index_of("*.warc"), True)
            expect("whether INDEX is a link", (trial.index.is_symlink(), (other / "all.cdxj").is_symlink()), (True, False))
            expect("whether the parts are behind the link", (disk / "parts/state.db").is_file(), True)
    finally:
        if is_mounted:
            subprocess.run(("umount", disk), check=True)


CASES = (
    every_run_leaves_what_others_have,
    other_folders_of_parts_are_refused,
    a_database_that_others_have_changed_is_refused,
    what_others_have_is_named,
    a_slash_after_index_makes_a_folder,
    archives_and_parts_are_apart,
    an_index_may_be_beside_its_archives,
    links_are_taken_where_they_lead,
)
