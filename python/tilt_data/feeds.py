"""`tilt-data feeds`: `tilt-live` over many feeds, one for each key, spread over workers by a hash of the key.

A worker has the feeds that the hash gives it for a lease of some seconds: it runs `tilt-live` for each, hands on the lines that come, and
ends. All that a lease did is in the folders of its feeds, with each one's position. So a lease whose worker is lost is begun again at
another one. A folder admits one program at a time: a feed that moved while that of its old worker still runs is tried again."""
from __future__ import annotations

import argparse
import collections
import concurrent.futures
import contextlib
import functools
import hashlib
import os
import pathlib
import resource
import subprocess
import sys
import time
from typing import Any, NamedTuple, Sequence

from . import engine
from .errors import Refused, TiltError, note
from .files import keys_and_files
from .frames import Query
from .program import REFUSALS, Processes, program
from .tasks import Made, check_program, program_digest, task
from .units import checked_by

HELP = """Runs `tilt-live QUERY --folder FOLDER/KEY` for each key over a file of lines that grows, on this machine or on the workers of a
Dask scheduler, until Ctrl-C. FEEDS has {key} in the place of the key, as in feeds/{key}.csv; files that come later are found. If a worker
or a call is killed, the feeds go on elsewhere or with the next call, and no row of FOLDER/KEY/output.csv is lost or there twice. Numbers in
the query and in the outputs are in the units of the lines; -- --scale 10 says that these are tenths."""
# What can pass: another program still has the folder, or a shared disk doesn't show here yet what another machine has read.
PASSING = ("tilt: 60 ", "tilt: 64 ")
WRONG = "the options of tilt-live after -- are wrong"
# Seconds: of a lease, until lines that come are handed on, until a pipe that is full is tried again, and until a feed that failed is.
LEASE, POLL, FULL, PAUSE = 5.0, 0.05, 0.002, 1.0
# How many bytes are read at once, more than a line has; how many before its position a folder compares; how many lines of a feed are shown.
PIECE, COMPARED, SHOWN = 1 << 17, 1 << 12, 10


class Feed(NamedTuple):
    key: str
    file: str
    folder: str


class Lease(NamedTuple):
    """Feeds that a worker serves: its number; the query and the options; a digest of the program; for how many seconds, or whether until
    all lines are taken that are there."""

    place: int
    query: str
    options: tuple[str, ...]
    program: str
    seconds: float
    once: bool
    feeds: tuple[Feed, ...]


class Served:
    """A feed on its way to the program."""

    def __init__(self, lease: Lease, feed: Feed, processes: Processes, pool: concurrent.futures.Executor, stack: contextlib.ExitStack):
        folder = ["--folder", feed.folder]
        asked = processes.call([lease.query, *folder, "--position", *without_every(lease.options)], subprocess.PIPE, command="tilt-live")
        if asked.status:
            raise TiltError(asked.told, asked.status)
        self.source = os.open(feed.file, os.O_RDONLY | os.O_CLOEXEC)
        stack.callback(os.close, self.source)
        self.position, size = int(asked.printed), os.fstat(self.source).st_size
        # The program compares some bytes before its position, and rejects a feed that is shorter.
        self.least, self.most = min(self.position, size), size if lease.once else sys.maxsize
        self.at = max(0, self.least - COMPARED)
        reader, self.writer = os.pipe()
        stack.callback(os.close, reader)
        stack.callback(self.end)
        os.set_blocking(self.writer, False)
        self.left = b""
        words = [lease.query, *folder, "--from", str(self.at), *lease.options]
        self.call = pool.submit(processes.call, words, None, reader, (), "tilt-live")

    def step(self, more: bool) -> int:
        """Hands on what is left of whole lines, and more if wanted or up to the position, as far as the pipe takes it: how many bytes."""
        if self.call.done():
            self.left = b""
            return 0
        if not self.left and (more or self.at < self.least):
            data = os.pread(self.source, min(PIECE, self.most - self.at), self.at)
            whole = len(data) if len(data) == PIECE and b"\n" not in data else data.rfind(b"\n") + 1
            self.left = data[: max(whole, self.least - self.at)]
        try:
            count = os.write(self.writer, self.left) if self.left else 0
        except BlockingIOError:
            return 0
        self.left, self.at = self.left[count:], self.at + count
        return count

    def end(self) -> None:
        if self.writer >= 0:
            os.close(self.writer)
            self.writer = -1

    def result(self) -> Made:
        called = self.call.result()
        return Made(bytes=0 if called.status else max(0, self.at - self.position), line=called.told, status=called.status)


@task
def serve(lease: Lease, processes: Processes) -> Made:
    """Serves the feeds of a lease. What became of each is in `parts`, whatever it is: it is tried again by the next lease, or not."""
    check_program(lease.program, "tilt-live")
    _, most = resource.getrlimit(resource.RLIMIT_NOFILE)
    resource.setrlimit(resource.RLIMIT_NOFILE, (most, most))
    served, made = dict[Feed, Served](), dict[Feed, Made]()
    with concurrent.futures.ThreadPoolExecutor(len(lease.feeds)) as pool, contextlib.ExitStack() as stack:
        for feed in lease.feeds:
            try:
                served[feed] = Served(lease, feed, processes, pool, stack)
            except TiltError as rejected:
                made[feed] = Made(line=rejected.line, status=rejected.status)
            except OSError as error:
                made[feed] = Made(line=f"{feed.file}: {error.strerror}", status=3)
        hand_on(list(served.values()), time.monotonic() + lease.seconds, lease.once, processes)
        for one in served.values():
            one.end()
        made.update((feed, one.result()) for feed, one in served.items())
    return Made(parts=tuple(map(made.__getitem__, lease.feeds)))


def hand_on(served: list[Served], ends: float, once: bool, processes: Processes) -> None:
    """Hands on lines as they come, until the lease ends. A line that has begun is handed on whole."""
    while True:
        processes.check()
        more = once or time.monotonic() < ends
        moved = sum(one.step(more) for one in served)
        waits = any(one.left for one in served)
        if not moved and not waits and (once or not more or all(one.call.done() for one in served)):
            break
        if not moved:
            time.sleep(FULL if waits else POLL)


def without_every(options: Sequence[str]) -> list[str]:
    """The options that say what lines and rows are, and not when rows are committed."""
    at = options.index("--every") if "--every" in options else len(options)
    return [*options[:at], *options[at + 2 :]]


def check_query(query: str, options: Sequence[str], is_whole: bool) -> None:
    """Rejects a query, and in units also options, before any feed is served."""
    if is_whole:
        Query(pathlib.Path(query)).explain(is_whole)
        return
    try:
        checked_by(query, without_every(options))
    except TiltError as error:
        if error.status != 2:
            raise
        cure = ": in units the query gives its output the decimals: leave out --decimals, or add --whole" if "--decimals" in options else ""
        raise TiltError(f"{WRONG}{cure}", 2) from error


def place_of(key: str, count: int) -> int:
    """Which of so many workers has a key. With one less only the keys of the last one have others."""
    return max(range(count), key=lambda place: hashlib.sha256(f"{place} {key}".encode(errors="surrogateescape")).digest())


class Run:
    """Leases over the feeds of a pattern, one at a time for each worker. `aside` has the keys that aren't served any more, since their
    feed, folder or query is rejected, or they failed too often; `done` those of a call over what is there."""

    def __init__(self, lease: Lease, pattern: str, out: str, its: engine.Engine) -> None:
        self.lease, self.pattern, self.out, self.engine = lease, pattern, os.path.abspath(out), its
        self.busy, self.aside, self.done = dict[int, Lease](), set[str](), set[str]()
        self.failures: collections.Counter[str] = collections.Counter()
        self.later: dict[str, float] = {}
        self.bytes = 0

    def feeds(self) -> list[Feed]:
        """The feeds that are there now."""
        found = []
        for key, files in keys_and_files(self.pattern).items():
            if key is None or len(files) > 1:
                raise Refused(f"{self.pattern}: {{key}} was expected" if key is None else f"{self.pattern}: {key} has {len(files)} files")
            found.append(Feed(key, files[0], os.path.join(self.out, key)))
        if not found:
            raise Refused(f"{self.pattern}: no file has this name")
        return found

    def carry_out(self) -> None:
        while self.begin_leases() or self.engine.begun:
            if self.engine.begun:
                self.engine.take_next()
            else:
                time.sleep(POLL)

    def begin_leases(self) -> bool:
        """Begins a lease for each worker that has none, and says whether there are feeds to be served, now or later."""
        now, under_way = time.monotonic(), {feed.key for lease in self.busy.values() for feed in lease.feeds}
        waiting = [feed for feed in self.feeds() if feed.key not in self.aside | self.done | under_way]
        count, found = self.engine.threads(), dict[int, list[Feed]]()
        for feed in waiting if count else ():
            place = place_of(feed.key, count)
            if place not in self.busy and self.later.get(feed.key, now) <= now:
                found.setdefault(place, []).append(feed)
        for place, its in found.items():
            lease = self.busy[place] = self.lease._replace(place=place, feeds=tuple(its))
            more = f" and {len(its) - 1} more" if len(its) > 1 else ""
            self.engine.begin(f"the feed of {its[0].key}{more}", serve, lease, self.take)
        return bool(waiting)

    def take(self, lease: Lease, made: Made) -> None:
        if made.status:
            raise TiltError(made.line, made.status)
        del self.busy[lease.place]
        self.engine.failures.clear()
        for feed, one in zip(lease.feeds, made.parts):
            self.take_feed(feed.key, one)

    def take_feed(self, key: str, made: Made) -> None:
        lines = made.line.splitlines()
        for line in lines[:SHOWN]:
            note(f"{key}: {line}")
        if len(lines) > SHOWN:
            note(f"{key}: and {len(lines) - SHOWN} more lines, of which the last is: {lines[-1]}")
        self.bytes += made.bytes
        if made.status == 0:
            del self.failures[key]
            self.done |= {key} if self.lease.once else set()
            return
        if made.status == 2:
            raise TiltError(f"{key}: {WRONG}", 2)
        self.failures[key] += 1
        self.later[key] = time.monotonic() + PAUSE
        if made.status in REFUSALS and not made.line.startswith(PASSING) or self.failures[key] > self.engine.retries:
            note(f"{key}: status {made.status}: this feed isn't served any more; call again once the cause is gone")
            self.aside.add(key)


def add(commands: Any) -> None:
    parser = commands.add_parser("feeds", help="tilt-live over many feeds, on several workers", description=HELP)
    parser.add_argument("query", metavar="QUERY")
    parser.add_argument("feeds", metavar="FEEDS", help="the files of the feeds, with {key}, * and ?")
    parser.add_argument("options", nargs="*", metavar="-- OPTIONS", help="options of tilt-live, such as --lateness 10")
    parser.add_argument("--out", metavar="FOLDER", required=True, help="the folder in which each key has a folder of its own")
    parser.add_argument("--once", action="store_true", help="end once all lines that are there are taken")
    engine.add_options(parser, "serve the feeds")
    parser.set_defaults(main=main)
    parser.parse_known_args = functools.partial(with_options, parser.parse_known_args)


def with_options(parse: Any, given: list[str], *more: Any) -> tuple[argparse.Namespace, list[str]]:
    """Parses as `parse` does what is before --: argparse takes only arguments that come right after FEEDS."""
    at = given.index("--") if "--" in given else len(given)
    words, rest = parse(given[:at], *more)
    words.options = given[at + 1 :]
    return words, rest


def main(words: argparse.Namespace) -> int:
    engine.prepare(words)
    # In units these may be asked for too.
    options = [option for option in words.options if words.whole or option != "--units"]
    check_query(words.query, options, words.whole)
    digest = program_digest(program("tilt-live"))
    units = [] if words.whole else ["--units"]
    lease = Lease(0, os.path.abspath(words.query), (*options, *units), digest, LEASE, words.once, ())
    os.makedirs(words.out, exist_ok=True)
    with engine.opened(words.scheduler, words.workers, words.retries) as its:
        run = Run(lease, words.feeds, words.out, its)
        run.carry_out()
    note(f"{len(run.done)} feeds, {run.bytes / 1e6:.1f} MB of lines taken{f'; not served: {len(run.aside)}' if run.aside else ''}")
    return 1 if run.aside else 0
