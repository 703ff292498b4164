"""Engines: they carry out tasks on threads of this process, or on the workers of a Dask cluster, and start again what fails.

Threads need neither Dask nor a network: each calls the program as a process of its own. Dask is imported only for a cluster."""
from __future__ import annotations

import argparse
import collections
import concurrent.futures
import contextlib
import importlib
import logging
import os
import time
from typing import Any, Callable, Iterator

from .errors import Refused, note
from .program import Processes
from .tasks import Made

Function = Callable[..., Made]
# Takes the argument of a call and what was made.
Taking = Callable[[Any, Made], None]
MISSING = (
    "{0} isn't installed, which --scheduler needs: `apt-get install python3-dask python3-distributed`, or "
    "`pip install 'dask[distributed]'`"
)


def check(workers: int | None, retries: int) -> None:
    """Raises a Refused for numbers that no engine takes."""
    for name, least, value in (("retries", 0, retries), ("workers", 1, 1 if workers is None else workers)):
        if value < least:
            raise Refused(f"{name}: {least} or more was expected")


def add_options(parser: argparse.ArgumentParser, does: str) -> None:
    """The options that say where tasks run, and what the query means there. `does` says what a scheduler's workers are given, as in
    `run the parts`."""
    parser.add_argument("--workers", type=int, metavar="N", help="how many workers this machine has (one for each processor)")
    address = f"{does} on the workers of this Dask scheduler, such as tls://host:8786"
    danger = "anyone who reaches a tcp:// address can run code on its workers"
    parser.add_argument("--scheduler", metavar="ADDRESS", help=f"{address}; {danger}")
    parser.add_argument("--retries", type=int, metavar="N", default=3, help="how often what fails is started again (3)")
    parser.add_argument("--whole", action="store_true", help="the query and its outputs are in whole numbers, as for `tilt`")


def prepare(words: argparse.Namespace) -> None:
    """What a command does first whose options say where its tasks run."""
    if words.scheduler is not None and words.workers is not None:
        raise Refused("--workers is for this machine: the scheduler has its own workers")
    check(words.workers, words.retries)
    # What Dask leaves open as its client goes isn't for the reader of a command.
    logging.getLogger("asyncio").setLevel(logging.CRITICAL)


@contextlib.contextmanager
def opened(scheduler: str | None, workers: int | None, retries: int) -> Iterator[Engine]:
    """An engine over the workers of a scheduler, or over this number of threads, by default one for each processor. At the end nothing
    runs any more: an exception stops the tasks that are under way."""
    engine = Cluster(scheduler, retries) if scheduler is not None else Engine(workers or os.cpu_count() or 1, retries)
    try:
        yield engine
    except BaseException:
        engine.stop()
        raise
    finally:
        engine.close()


class Engine:
    """Calls on threads of this process, of which so many as there are workers run the program at a time. Each is started again if its
    worker is lost or it ends by an error, up to `retries` times; after that the error is raised as a Refused."""

    def __init__(self, workers: int, retries: int) -> None:
        self.most, self.retries = workers, retries
        self.begun: dict[Any, tuple[str, Function, Any, Taking]] = {}
        # Those of all calls, and those that it took to start and to end the engine itself.
        self.seconds = self.start_seconds = self.end_seconds = 0.0
        self.failures: collections.Counter[str] = collections.Counter()
        # While the programs run, as many calls more read and write files.
        self.pool = concurrent.futures.ThreadPoolExecutor(max(1, 2 * workers))
        self.processes = Processes(max(1, workers))

    def threads(self) -> int:
        """How many calls can run at a time now."""
        return self.most

    def submit(self, function: Function, argument: Any) -> Any:
        return self.pool.submit(function, argument, self.processes)

    def wait(self) -> Any:
        """A future that has ended; waits for the first one."""
        return concurrent.futures.wait(self.begun, return_when=concurrent.futures.FIRST_COMPLETED).done.pop()

    def has_room(self) -> bool:
        """Whether to start another call: the workers have too little at hand to stay busy."""
        return len(self.begun) < 2 * self.most + 8

    def check_alive(self) -> None:
        """Raises a Refused if no worker can be reached any more."""

    def stop(self) -> None:
        self.processes.stop()

    def close(self) -> None:
        """Lets the workers go, once nothing is under way."""
        self.pool.shutdown(wait=True, cancel_futures=True)

    def begin(self, name: str, function: Function, argument: Any, take: Taking) -> None:
        """Starts a call, whose result is taken at its end. A name belongs to one call, and says in an error which one it was."""
        self.begun[self.submit(function, argument)] = name, function, argument, take

    def take_next(self) -> None:
        """Waits until a call ends, and takes its result."""
        while True:
            future = self.wait()
            name, function, argument, take = self.begun.pop(future)
            try:
                made: Made = future.result()
                break
            except Exception as error:
                self.failures[name] += 1
                self.check_alive()
                if self.failures[name] > self.retries:
                    raise Refused(f"{name} failed {self.failures[name]} times: {cause_of(error)}") from error
            self.begin(name, function, argument, take)
        self.seconds += made.seconds
        take(argument, made)


class Cluster(Engine):
    """The workers of a Dask scheduler, which the user started and secured. The first call connects to it."""

    def __init__(self, scheduler: str, retries: int) -> None:
        super().__init__(0, retries)
        self.scheduler, self.distributed = scheduler, imported()
        self.client: Any = None
        self.waiting: Any = None
        self.room, self.asked = 0, 0.0

    def threads(self) -> int:
        """How many threads all workers have now. The largest number that was seen is kept."""
        self.connect()
        count: int = sum(self.client.nthreads().values())
        self.most = max(self.most, count)
        return count

    def connect(self) -> None:
        if self.client is None:
            begun = time.monotonic()
            self.client = client_of(self.distributed, self.scheduler)
            self.waiting = self.distributed.as_completed()
            if not self.threads():
                note(f"{self.scheduler} has no workers yet: waiting")
            self.start_seconds += time.monotonic() - begun

    def submit(self, function: Function, argument: Any) -> Any:
        self.connect()
        future = self.client.submit(function, argument, pure=False)
        self.waiting.add(future)
        return future

    def wait(self) -> Any:
        return next(self.waiting)

    def has_room(self) -> bool:
        """More calls than the workers have at hand would only weigh on the scheduler."""
        if self.client is None:
            return True
        now = time.monotonic()
        if now - self.asked > 2:
            self.room, self.asked = 3 * self.threads() + 8, now
        return len(self.begun) < self.room

    def check_alive(self) -> None:
        if self.client.status != "running":
            raise Refused("the scheduler is gone: call again, and what is finished is kept")

    def stop(self) -> None:
        with contextlib.suppress(Exception):
            self.client.cancel(list(self.begun))

    def close(self) -> None:
        if self.client is not None:
            begun = time.monotonic()
            self.client.close()
            self.end_seconds = time.monotonic() - begun


def imported() -> Any:
    """The module `distributed`. A Refused names the package that is missing."""
    for name in ("dask", "distributed"):
        try:
            module = importlib.import_module(name)
        except ImportError as error:
            lacking = f"python3-{error.name}" if error.name in ("dask", "distributed") else f"a part of {name}"
            raise Refused(MISSING.format(lacking)) from error
    return module


def client_of(distributed: Any, scheduler: str) -> Any:
    """A connection to a scheduler. The certificates for a tls:// address are those of Dask's configuration."""
    try:
        return distributed.Client(scheduler, timeout="10s")
    except (OSError, ValueError, TypeError, TimeoutError) as error:
        cure = "an address such as tcp://127.0.0.1:8786 was expected"
        if scheduler.startswith("tls:"):
            cure = "the scheduler has to be there, and Dask's configuration has to name the certificates (distributed.comm.tls)"
        raise Refused(f"{scheduler}: no scheduler answers there: {cure}") from error


def cause_of(error: Exception) -> str:
    kind = type(error).__name__
    if kind == "KilledWorker":
        return "its workers were killed"
    return f"{error}: each worker needs it" if isinstance(error, ModuleNotFoundError) else str(error) or kind
