"""Hosts judged over as many processors as there are."""

import multiprocessing
import os
import signal
import threading
from concurrent.futures import FIRST_COMPLETED, ProcessPoolExecutor, wait
from concurrent.futures.process import BrokenProcessPool
from typing import Callable, Iterator

from .errors import CxlError
from .fleet import facts_of, not_judged


def judge_all(share: list, decoders: bool, row: Callable) -> list:
    """A worker's share: of each host its verdict, and what is kept of it."""
    found = []
    for folder, why in share:
        said = not_judged(folder, why) if why else facts_of(folder, decoders)
        found.append((said["verdict"], row(said)))
    return found


def judged(shares: list, decoders: bool, row: Callable, jobs: int) -> Iterator[list]:
    """What `judge_all` makes of each share, as they come, over so many processors."""
    if jobs < 2 or len(shares) < 2:
        yield from (judge_all(share, decoders, row) for share in shares)
        return
    reader, writer = os.pipe()  # workers see by it that this process has ended
    context = multiprocessing.get_context("fork")
    try:
        with ProcessPoolExecutor(min(jobs, len(shares)), context, prepare, (reader, writer)) as pool:
            try:
                yield from gathered(pool, shares, decoders, row, jobs)
            except BaseException:
                pool.shutdown(wait=True, cancel_futures=True)
                raise
    except BrokenProcessPool:
        raise CxlError("a process that judged hosts was ended, by hand or for want of memory", 9, "memory") from None
    finally:
        os.close(reader)
        os.close(writer)


def prepare(reader: int, writer: int) -> None:
    """A worker's begin. A stop is the first process's to take: what workers have begun is ended, and no more is."""
    signal.signal(signal.SIGINT, signal.SIG_IGN)
    signal.signal(signal.SIGTERM, signal.SIG_IGN)
    os.close(writer)
    threading.Thread(target=end_with, args=(reader,), daemon=True).start()


def end_with(reader: int) -> None:
    """Ends this worker where the first process has ended without a word."""
    while os.read(reader, 1):
        pass
    os._exit(1)  # pylint: disable=protected-access


def gathered(pool, shares: list, decoders: bool, row: Callable, jobs: int) -> Iterator[list]:
    """What each share comes to, of which a few wait for a worker at a time."""
    waiting: set = set()
    for share in shares:
        waiting.add(pool.submit(judge_all, share, decoders, row))
        if len(waiting) > 2 * jobs:
            ready, waiting = wait(waiting, return_when=FIRST_COMPLETED)
            yield from (it.result() for it in ready)
    while waiting:
        ready, waiting = wait(waiting, return_when=FIRST_COMPLETED)
        yield from (it.result() for it in ready)
