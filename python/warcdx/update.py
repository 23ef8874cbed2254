"""Brings the index of a folder of archives up to date."""
import contextlib
import datetime
import itertools
import json
import os
from collections import defaultdict
from collections.abc import Iterable, Iterator, Mapping, Sequence
from typing import Any, NamedTuple, Optional

from .progress import Silent
from .states import MOST_RUNS, shown
from .update_archives import Found, FoundArchive, find_archives
from .update_outputs import Single
from .update_reports import FAILED, GONE, Action, Outcome, Report, damage_of, reason_of
from .update_store import Store
from .update_tables import Archive, CannotUpdate, Merged, Run, Settings
from .update_tasks import Failed, filter_run, index_archives, merge_runs
from .update_workers import Task, Workers

TRIES = 3  # of a task
_LEAST = 1 << 16  # bytes of a run on the lowest level
_SMALL = 1 << 17  # bytes of an archive that is indexed with others
_TOGETHER = 256  # archives


class Merging(NamedTuple):
    """The ratio by which the sizes of runs rise, and whether all become one."""

    ratio: int
    is_compact: bool

    def number(self, sizes: Sequence[int]) -> int:
        """Returns how many of the smallest runs are to become one, by the sizes in bytes in rising order.

        They are those up to the last level that is full. A level has the runs up to a ratio above its smallest size, and is full with
        as many runs. Those of the levels below that are merged count as one run.
        """
        if self.is_compact:
            return len(sizes)
        number = end = 0
        for level, runs in itertools.groupby(sizes, self._level_of):
            count = len(list(runs))
            end += count
            if count + (number > 0 and self._level_of(sum(sizes[:number])) >= level) >= self.ratio:
                number = end
        return max(number, len(sizes) - MOST_RUNS + 1 if len(sizes) > MOST_RUNS else 0)

    def _level_of(self, size: int) -> int:
        level = 0
        while size >= _LEAST * self.ratio ** (level + 1):
            level += 1
        return level


class Removal(NamedTuple):
    """How many archives may leave an index in a run: a number, or a share of those that it has in hundredths."""

    most: int
    is_share: bool

    def allows(self, archives: int, of: int) -> bool:
        return 100 * archives <= self.most * of if self.is_share else archives <= self.most


class Plan(NamedTuple):
    """What an update does: the archives that it indexes, those that it doesn't, and the names of those that are gone.

    Of those the index loses the captures of all that are `removed`, or keeps the captures of all that are `gone`.
    """

    new: list[FoundArchive]
    unchanged: list[FoundArchive]
    removed: list[str]
    gone: list[str]


class Update:
    """An update of the index of a folder, in the folder of the store, and in one file if `single` is given."""

    def __init__(
        self, settings: Settings, store: Store, single: Optional[Single], program: str, merging: Merging, progress: Silent
    ) -> None:
        self._settings = settings
        self._store = store
        self._single = single
        self._program = program  # reads archives of both forms
        self._merging = merging
        self._progress = progress
        self._archives: dict[str, Archive] = {}  # those whose runs are whole

    @contextlib.contextmanager
    def done(self, removal: Removal, workers: Workers) -> Iterator[Outcome]:
        """Indexes what is new, makes the index of all, and yields what was done. No other process updates it before the end.

        Raises CannotUpdate, Failed or OSError if nothing was indexed.
        """
        os.scandir(self._settings.folder).close()  # so that nothing is made for a folder that can't be read
        with self._store.locked(self._settings):
            if self._single is not None:
                self._single.begin()
            with workers:
                outcome = self._run_alone(removal, workers)
            yield outcome

    def plan(self, removal: Removal) -> tuple[Plan, Found]:
        """Returns what is to be done. Raises OSError if the folder of archives can't be read."""
        single = None if self._single is None else self._single.path
        found = find_archives(self._settings.folder, self._settings.recursive, self._store.folder, single)
        whole = {run.number for run in self._store.runs() if self._store.is_whole(run)}
        had = self._store.archives()
        self._archives = {name: archive for name, archive in had.items() if archive.run is None or archive.run in whole}
        plan = Plan([], [], [], [])
        for archive in found.archives:
            is_current = archive.name in self._archives and self._archives[archive.name].state == archive.state
            (plan.unchanged if is_current else plan.new).append(archive)
        names = {archive.name for archive in found.archives}
        gone = sorted(name for name in had if name not in names and found.reason_for(name) is None)
        (plan.removed if removal.allows(len(gone), len(had)) else plan.gone).extend(gone)
        return plan, found

    def _run_alone(self, removal: Removal, workers: Workers) -> Outcome:
        plan, found = self.plan(removal)
        reports = list(self._reports_of_others(plan, found))
        reports += self._index(workers, plan.new)
        failure = None
        try:
            self._store.forget(plan.removed)
            for name in plan.removed:
                self._archives.pop(name, None)
            self._publish(workers, self._members(plan, found, reports))
        except (CannotUpdate, Failed, OSError) as error:
            failure = reason_of(error)
        reports.sort(key=lambda report: report.archive)
        is_there = bool(shown(self._store.folder)) if self._single is None else os.path.exists(self._single.path)
        return Outcome(reports, failure, is_there, plan.gone, found.passed, self._store.faults())

    def _reports_of_others(self, plan: Plan, found: Found) -> Iterator[Report]:
        """Yields a report on each archive that isn't indexed now."""
        for archive in plan.unchanged:
            yield Report.of(archive.name, self._archives[archive.name], Action.UNCHANGED)
        for name in plan.removed:
            yield Report(name, Action.REMOVED, 0, "", 0, 0)
        for name in plan.gone:
            yield self._failure(name, GONE)
        for name in self._archives:
            if (reason := found.reason_for(name)) is not None:
                yield self._failure(name, reason)
        for folder, reason in found.unreadable.items():
            yield Report(f"{folder}/", Action.LEFT_OUT, FAILED, reason, 0, 0)

    def _failure(self, name: str, reason: str, size: Optional[int] = None) -> Report:
        """Returns a report on an archive that can't be indexed, of `size` bytes if its size is known."""
        archive = self._archives.get(name)
        if archive is None:
            return Report(name, Action.LEFT_OUT, FAILED, reason, size or 0, 0)
        size = archive.state[0] if size is None else size
        return Report(name, Action.KEPT, FAILED, reason, size, archive.captures)

    def _index(self, workers: Workers, archives: Sequence[FoundArchive]) -> Iterator[Report]:
        """Indexes archives. Yields a report on each. Those that fail together are tried again one by one."""
        yield from (self._failure(each.name, "the name isn't UTF-8", each.size) for each in archives if not each.is_text)
        batches = batches_of([each for each in archives if each.is_text])
        self._progress.begin(sum(map(len, batches)), sum(each.size for batch in batches for each in batch))
        try:
            for left in reversed(range(TRIES)):
                failed = []
                for batch, error in self._try(workers, batches):
                    if error is not None and left:
                        failed += batch
                        continue
                    for each in batch:
                        self._progress.advance(each.size)
                        if error is not None:
                            yield self._failure(each.name, reason_of(error), each.size)
                        else:
                            yield Report.of(each.name, self._archives[each.name], Action.INDEXED)
                batches = [[each] for each in failed]
        finally:
            self._progress.end()

    def _try(self, workers: Workers, batches: Sequence[list[FoundArchive]]) -> Iterator[tuple[list[FoundArchive], Optional[Exception]]]:
        """Indexes archives that belong together by one task. Yields them, and why that has failed if it has."""
        if not batches:
            return
        numbers = self._store.reserve(len(batches))
        front, words = (self._program, self._settings.folder), ("--types", self._settings.types)
        tasks = [(*front, [each.name for each in batch], self._store.new(number), words) for number, batch in zip(numbers, batches)]
        for task, outcome in workers.run(index_archives, tasks):
            try:
                if isinstance(outcome, Exception):
                    raise outcome
                written, indexed = outcome
                self._store.add(numbers[task], written, indexed)
                for name, state, cause, captures in indexed:
                    self._archives[name] = Archive(state, cause, captures, numbers[task] if captures else None)
                yield batches[task], None
            except Exception as error:  # a worker may raise any
                yield batches[task], error

    def _members(self, plan: Plan, found: Found, reports: Iterable[Report]) -> dict[str, Any]:
        """Returns the members of a summary that aren't counts of captures."""
        gone = frozenset(plan.gone)
        unread = sorted((each.archive, each.message) for each in reports if each.status == FAILED and each.archive not in gone)
        return {
            "archives": len(self._archives),
            "bytes": sum(archive.state[0] for archive in self._archives.values()),
            "damaged": [damage_of(name, archive.cause) for name, archive in sorted(self._archives.items()) if archive.cause],
            "unread": [{"archive": name, "cause": cause} for name, cause in unread],
            "gone": len(plan.gone),
            "passed_over": found.passed.values(),
        }

    def _publish(self, workers: Workers, members: Mapping[str, Any]) -> None:
        """Makes a state with what is new, unless nothing is, and the one file of it."""
        if lost := sorted(self._store.archives().keys() - self._archives.keys()):
            raise CannotUpdate(f"{len(lost):,} archives can't be indexed anew whose runs are missing or damaged, such as {lost[0]!a}")
        for run in self._store.runs():
            if run.left and run.left != run.captures:  # it has captures of archives that were removed or indexed anew
                (number,) = self._store.reserve(1)
                names, new = self._store.names_in(run), self._store.new(number)
                self._store.replace(run, number, self._done(workers, filter_run, self._store.runs_folder, run.file, names, new))
        runs = self._store.runs()
        unused, used = [run for run in runs if not run.left], [run for run in runs if run.left]
        number = self._merging.number([run.size for run in used])
        is_new = not self._store.noted.state or number > 1 or bool(unused) or any(run.since is None for run in runs)
        if is_new or not members.items() <= json.loads(self._store.noted.summary).items():
            now = datetime.datetime.now(datetime.timezone.utc).strftime("%Y-%m-%dT%H:%M:%SZ")
            merged = self._merge(workers, used[:number]) if number > 1 else None
            self._store.publish(merged, unused, {"made": now, **members})
        if self._single is not None and self._single.state() != self._store.noted.changed:
            self._single.take(*self._merged(workers, self._store.runs(), self._single.new))

    def _merge(self, workers: Workers, runs: Sequence[Run]) -> Merged:
        (number,) = self._store.reserve(1)
        return Merged(number, *self._merged(workers, runs, self._store.new(number)), runs)

    def _merged(self, workers: Workers, runs: Sequence[Run], output: str) -> tuple[str, int, int]:
        files = [run.file for run in runs]
        path, size, crc_32 = self._done(workers, merge_runs, self._program, self._store.runs_folder, files, output)
        return path, size, crc_32

    def _done(self, workers: Workers, task: Task, *arguments: Any) -> Any:
        """Does a task, and returns its result. Raises the error of the last try."""
        for _ in range(TRIES):
            ((_, outcome),) = workers.run(task, [arguments])
            if not isinstance(outcome, Exception):
                return outcome
        raise outcome if isinstance(outcome, (Failed, OSError)) else CannotUpdate(reason_of(outcome))


def batches_of(archives: Sequence[FoundArchive]) -> list[list[FoundArchive]]:
    """Returns the archives that are indexed together, by one run of the program: small ones of the same folder."""
    alone, small = [], defaultdict(list)
    for archive in archives:
        if archive.state is None or archive.size > _SMALL or not archive.name.isprintable():
            alone.append([archive])
        else:
            small[os.path.dirname(archive.name)].append(archive)
    return alone + [each[start : start + _TOGETHER] for each in small.values() for start in range(0, len(each), _TOGETHER)]
