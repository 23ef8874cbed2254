"""Keeps one index of all archives in a folder up to date.

usage: warcdx-update [OPTION..] FOLDER INDEX

FOLDER contains the archives: files whose names end with .warc or .warc.gz. The
first bytes of each decide whether it is read as a plain or as a compressed
archive. In the index, the file name of an archive is its path below FOLDER.

If INDEX is a folder, or its name ends with .d or /, the index is a folder of
runs, each of which is a sorted index. An update adds a run, merges small ones,
and leaves the others as they are, so it writes little more than what is new.
INDEX/current leads to the runs of the index. Any other INDEX is one file, which
each update writes anew, and INDEX.d is the folder.

Only archives that are new or changed are indexed. An archive has changed if its
size, inode, modification time or change time differs from the last update.
Readers see the old index or the new one, and never a part. FOLDER, --recursive
and --types are those of the first update, and INDEX is replaced only if an
earlier one has made it.

If archives are gone, the index keeps their captures, unless --remove lets that
many leave it. An archive that is damaged is indexed up to the damage. If an
archive can't be read, the index keeps the captures that it had of it. A line on
standard error names each such archive, once for the same fault.

Examples:
  warcdx-update /data all.cdxj.d
  warcdx-update --recursive --remove 1% /data all.cdxj.d
  warcdx query 'url=*.example.com' all.cdxj.d/current/*.cdxj

Exit status:
  0  everything is indexed, but for faults that an earlier update has reported
  1  an archive is newly damaged
  2  usage error
  3  an archive newly can't be read, archives are gone, INDEX can't be made, or
     another process updates it
"""
import argparse
import json
import os
import re
from collections import Counter
from collections.abc import Sequence
from typing import BinaryIO, Optional

from .command import FAILED, Parser, name_on_disk, number_from, printable, report, run
from .faults import advice_on_name
from .files import is_in
from .outputs import expect_folder
from .program import PACKED, find_packed_program
from .progress import Lines, Silent, bar_on_terminal
from .update import Merging, Removal, Update
from .update_outputs import Single
from .update_reports import Action, Outcome, Report
from .update_store import Store
from .update_tables import CannotUpdate, Settings, text_of
from .update_tasks import Failed
from .update_workers import Cluster, Threads, Workers

NAME = "warcdx-update"
TYPES = ("response", "resource", "revisit", "conversion", "metadata")
USUAL = TYPES[:3]
LARGE = 1 << 30  # bytes of one file that is said to be large
CONSEQUENCES = {Action.KEPT: "; the index keeps its captures", Action.LEFT_OUT: "; left out"}
_REMOVAL = re.compile("(0|[1-9][0-9]{0,17})(%?)")
INSTEAD = {
    "-o --output": "INDEX is the second argument",
    "-s --sort": "an index is always in order",
    "-v --verbose": "what is done is printed unless --quiet is given",
}


def read_arguments(arguments: Optional[Sequence[str]]) -> argparse.Namespace:
    parser = Parser(NAME, __doc__, INSTEAD)
    workers = parser.add_mutually_exclusive_group()
    add = parser.add_argument
    add("--recursive", action="store_true", help="also index the archives in the folders below FOLDER")
    add(
        "--types",
        type=types_of,
        default=USUAL,
        metavar="TYPES",
        help=f"the types of records that are indexed, of {','.join(TYPES)} (the first three)",
    )
    add(
        "--remove",
        type=removal_of,
        default=Removal(0, False),
        metavar="N|N%|all",
        help="let archives that are gone leave the index, if they are at most this number or share of its archives",
    )
    workers.add_argument(
        "--jobs",
        type=number_from(1, 999),
        default=len(os.sched_getaffinity(0)),
        metavar="N",
        help="index N archives at a time (default: the number of processors)",
    )
    workers.add_argument("--scheduler", metavar="ADDRESS", help="use the workers of the Dask scheduler at ADDRESS")
    add("--single", action="store_true", help="make INDEX one file, whatever its name is")
    add("--compact", action="store_true", help="merge all runs of the index into one")
    add("--ratio", type=number_from(2, 16), default=8, metavar="N", help="merge N runs of similar sizes, 2 to 16 (%(default)s)")
    add("--json", action="store_true", help="print a line of JSON about each archive")
    add("--all-faults", action="store_true", help="report the faults too that an earlier update has reported")
    add("--quiet", action="store_true", help="print nothing but faults")
    add("--dry-run", action="store_true", help="print what would be indexed, removed and kept, and change nothing")
    add("--program", default="warcdx", metavar="PROGRAM", help="warcdx-gz, or a program in its folder (%(default)s)")
    add("folder", type=name_on_disk, metavar="FOLDER", help="the folder with the archives")
    add("index", type=name_on_disk, metavar="INDEX", help="the index that is kept up to date")
    add("more", nargs="*", default=(), help=argparse.SUPPRESS)
    given = parser.parse(arguments)
    if given.more:
        parser.error(f"give one FOLDER, whose archives are found, and one INDEX, and not '{given.more[0]}' too")
    if given.index.lower().endswith(".gz"):
        parser.error("an index isn't compressed: leave out the .gz of INDEX")
    return given


def types_of(text: str) -> tuple[str, ...]:
    types = text.split(",")
    if len(set(types)) < len(types) or not set(types) <= set(TYPES):
        raise argparse.ArgumentTypeError(
            f"types are {', '.join(TYPES[:-1])} and {TYPES[-1]}, each once at most, with ',' between, and not '{text}'"
        )
    return tuple(each for each in TYPES if each in types)


def removal_of(text: str) -> Removal:
    if text == "all":
        return Removal(100, True)
    found = _REMOVAL.fullmatch(text)
    if found is None or found[2] and int(found[1]) > 100:
        raise argparse.ArgumentTypeError(f"a number of archives, 0% to 100% of them, or all, and not '{text}'")
    return Removal(int(found[1]), bool(found[2]))


def program_of(given: argparse.Namespace) -> str:
    """Returns the program that the tasks run. On a cluster, a name without `/` is that of a program on the worker's PATH."""
    program = find_packed_program(given.program)
    return PACKED if given.scheduler and os.sep not in given.program else program


def update(given: argparse.Namespace, output: BinaryIO) -> int:
    settings = Settings(os.path.realpath(given.folder), given.recursive, ",".join(given.types))
    is_folder = not given.single and (os.path.isdir(given.index) or given.index.endswith((".d", "/")))
    store = Store(given.index if is_folder else f"{os.path.realpath(given.index)}.d")
    single = None if is_folder else Single(store, given.index)
    expect_usable(given.folder, settings, store)
    expect_folder(store.folder)
    program = program_of(given)
    progress = Silent() if given.quiet else bar_on_terminal() or Lines(NAME)
    work = Update(settings, store, single, program, Merging(given.ratio, given.compact), progress)
    if given.dry_run:
        with store.opened(settings):
            if single is not None:
                single.state()
            print_plan(given, work, output)
        return 0
    workers: Workers = Cluster(given.scheduler) if given.scheduler else Threads(given.jobs)
    with work.done(given.remove, workers) as outcome:
        status, said = say(given, output, outcome)
        store.remember({text_of(fault.archive): fault.message for fault in said if fault.is_lasting})
    return status


def expect_usable(name: str, settings: Settings, store: Store) -> None:
    """Raises CannotUpdate if FOLDER isn't there or is a file, the archives are in the folder of the index, or it is among them."""
    try:
        os.stat(settings.folder)
    except FileNotFoundError as error:
        why = advice_on_name(name) or "FOLDER comes first, and INDEX after it"
        raise CannotUpdate(f"{name}: {error.strerror}; {why}") from None
    except OSError:
        pass  # which is said when it is read
    if os.path.isfile(settings.folder):
        raise CannotUpdate(f"{settings.folder} is a file; FOLDER is the folder that has the archives")
    if is_in(settings.folder, store.folder):
        raise CannotUpdate(f"the folder of archives is in the folder of the index, {store.folder}; give another INDEX")
    if settings.recursive and is_in(store.folder, settings.folder):
        raise CannotUpdate(
            f"with --recursive, the folder of the index, {store.folder}, can't be in the folder of archives; give another INDEX"
        )


def print_plan(given: argparse.Namespace, work: Update, output: BinaryIO) -> None:
    plan, found = work.plan(given.remove)
    for word, names in (("index", [archive.name for archive in plan.new]), ("remove", plan.removed), ("keep", plan.gone)):
        output.writelines(planned_line(word, name, given.json) for name in names)
    if line := found.passed.line():
        if given.json:
            report(NAME, line)
        else:
            output.write(f"{line}\n".encode())


def planned_line(word: str, archive: str, is_json: bool) -> bytes:
    """Returns what is printed about an archive that would be indexed, removed or kept."""
    text = json.dumps({"archive": archive, "action": word}) if is_json else f"{word} {printable(archive)}"
    return text.encode() + b"\n"


def say(given: argparse.Namespace, output: BinaryIO, outcome: Outcome) -> tuple[int, list[Report]]:
    """Reports what was done. Returns the exit status, and the faults that were said now or before: standard error has taken them."""
    if given.json:
        output.writelines(json.dumps(each.values()).encode() + b"\n" for each in outcome.reports)
        output.flush()
    faults = outcome.faults if given.all_faults else [each for each in outcome.faults if not outcome.is_known(each)]
    lost = {each.archive for each in faults if not report(NAME, line_of(each))}
    status = say_result(given, outcome, faults)
    return status, [each for each in outcome.faults if each.archive not in lost]


def line_of(fault: Report) -> str:
    return f"{printable(fault.archive)}: {printable(fault.message)}{CONSEQUENCES.get(fault.action, '')}"


def say_result(given: argparse.Namespace, outcome: Outcome, faults: Sequence[Report]) -> int:
    """Reports what was done beside the faults that were said, and returns the exit status."""
    if outcome.gone:
        report(NAME, gone_line(outcome.gone))
    if outcome.failure is not None:
        state = "the index stays as it was" if outcome.is_there else "there is no index"
        report(NAME, f"{printable(given.index)}: {printable(outcome.failure)}; {state}")
        return FAILED
    if not given.quiet:
        if line := outcome.passed.line():
            report(NAME, line)
        report(NAME, total_of(given.index, outcome, len(outcome.faults) - len(faults)))
        if os.path.isfile(given.index) and os.path.getsize(given.index) > LARGE:
            name = printable(given.index)
            report(NAME, f"{name} is large, and each update writes all of it; {name}.d is the same index, and costs only what is new")
    return FAILED if outcome.gone else max((each.status for each in faults), default=0)


def gone_line(gone: Sequence[str]) -> str:
    if len(gone) == 1:
        return f"{printable(gone[0])} is gone; the index keeps its captures, unless --remove 1 is given"
    return f"{len(gone):,} archives are gone, the first of them {printable(gone[0])}; the index keeps their captures, unless --remove {len(gone)} is given"


def total_of(index: str, outcome: Outcome, known: int) -> str:
    counts = Counter(each.action for each in outcome.reports)
    captures = sum(each.captures for each in outcome.reports)
    archives = len(outcome.reports) - counts[Action.REMOVED] - counts[Action.LEFT_OUT]
    total = f"{captures:,} capture{'s' * (captures != 1)} of {archives:,} archive{'s' * (archives != 1)}"
    if not outcome.reports:
        total += "; no name in FOLDER ends with .warc or .warc.gz"
    changes = [f"{counts[action]:,} {action.value}" for action in Action if counts[action]]
    if known:
        changes.append(f"{known:,} known to be at fault")
    return f"{printable(index)}: {total}" + (f" ({', '.join(changes)})" if changes else "")


def main(arguments: Optional[Sequence[str]] = None) -> int:
    def work(output: BinaryIO) -> int:
        given = read_arguments(arguments)
        try:
            return update(given, output)
        except (CannotUpdate, Failed) as error:
            report(NAME, f"{printable(given.index)}: {printable(str(error))}")
            return FAILED

    return run(NAME, work)
