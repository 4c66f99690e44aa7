"""`fleet`: checks thousands of captures, into JSON lines or a SQLite file."""

import os
import sys

from ..errors import BadFile, BadWords
from ..fleet import CHUNK, File, Keeper, Lines, hosts_in, stamp_of
from ..incoming import number
from ..sources import OPEN, VERDICT_WORDS
from .output import NO_OUTPUT, complain, ended_output

BAR = 40  # letters of the progress bar
MOST_JOBS = 1024


def arguments(parser) -> None:
    parser.add_argument("words", nargs="+", metavar="DIR", help="folders with hosts in or below them")
    parser.add_argument("--db", metavar="FILE", help="a SQLite file with the tables hosts, breaches, regions and decoders")
    parser.add_argument("--out", metavar="FILE", help="a file of JSON lines; hosts that it has already are skipped")
    parser.add_argument("--jobs", metavar="N", help="how many processors to use; by default all")


def work(options) -> int:
    """Judges all hosts; gives 8 where one is broken or was not judged, else 13 where one is not known or outside the profile, else 0."""
    if options.db is not None and options.out is not None:
        raise BadWords("--db and --out do not go together; see cxldesk fleet --help", 1, "usage")
    for place in options.words:
        if not os.path.isdir(place):
            raise BadFile(f"{place}: {'is no folder' if os.path.lexists(place) else 'No such file or directory'}", 2, "no folder", place)
    jobs = jobs_of(options.jobs)
    keeper = keeper_of(options)
    try:
        return judge_into(keeper, options.words, jobs)
    except OSError as fault:
        if not isinstance(keeper, Lines):
            raise
        return ended_output(fault)
    finally:
        keeper.close()


def jobs_of(word) -> int:
    if word is None:
        return len(os.sched_getaffinity(0)) if hasattr(os, "sched_getaffinity") else os.cpu_count() or 1
    jobs = number(word)
    if not 0 < jobs <= MOST_JOBS:
        raise BadWords(f"--jobs takes 1 to {MOST_JOBS}; see cxldesk fleet --help", 1, "number", word)
    return jobs


def keeper_of(options) -> Keeper:
    """Where verdicts go."""
    if options.db is not None:
        from ..database import Database
        return Database(options.db)
    if options.out is None and sys.stdout is None:
        raise BadFile("standard output: is closed", NO_OUTPUT, "cannot write")
    return File(options.out) if options.out is not None else Lines(sys.stdout)


def judge_into(keeper: Keeper, places: list, jobs: int) -> int:
    from ..workers import judged
    kept = not isinstance(keeper, Lines)
    found = list(hosts_in(map(os.path.abspath, places) if kept else places))  # in a file hosts have their whole names
    wanted, gone = looked_over(keeper, found)
    shares = [wanted[at:at + CHUNK] for at in range(0, len(wanted), CHUNK)]
    counts = dict.fromkeys(VERDICT_WORDS, 0)
    for _, verdict in keeper.done.values():
        counts[verdict] += 1
    before, done = len(keeper.done), 0
    for share in judged(shares, keeper.decoders, keeper.row, jobs):
        keeper.add([row for _, row in share])
        for verdict, _ in share:
            counts[verdict] += 1
        done += len(share)
        progress(done, len(wanted))
    complain(summary(counts, before, gone))
    return 8 if counts["breach"] or counts["fault"] else OPEN if counts["unknown"] or counts["outside"] else 0


def looked_over(keeper: Keeper, found: list) -> tuple:
    """The hosts that are to be judged, and how many are gone. Of those that a file has only these stay that are still as they were."""
    wanted = [(folder, why) for folder, why in found if folder not in keeper.done or keeper.done[folder][0] != stamp_of(folder)]
    met, stale, gone = {folder for folder, _ in found}, {folder for folder, _ in wanted if folder in keeper.done}, set()
    for folder in keeper.done.keys() - met:
        stamp = stamp_of(folder)
        if not stamp:
            gone.add(folder)
        elif stamp != keeper.done[folder][0]:
            stale.add(folder)
            wanted.append((folder, ""))
    keeper.drop(stale | gone)
    for folder in stale | gone:
        del keeper.done[folder]
    return wanted, len(gone)


def summary(counts: dict, before: int, gone: int) -> str:
    always = ("sound", "breach", "fault")  # the others where there are some
    words = f"{sum(counts.values())} hosts: " + ", ".join(f"{counts[it]} {told}" for it, told in VERDICT_WORDS.items() if counts[it] or it in always)
    words += f"; {before} of them judged before" if before else ""
    return words + (f"; {gone} gone since" if gone else "")


def progress(done: int, total: int) -> None:
    """A bar on standard error, where that is a terminal."""
    if sys.stderr is not None and sys.stderr.isatty():
        filled = BAR * done // max(total, 1)
        end = "\r" if done < total else "\n"
        print(f"[{'#' * filled}{'.' * (BAR - filled)}] {done} of {total} hosts", end=end, file=sys.stderr, flush=True)
