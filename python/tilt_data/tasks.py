"""What a worker does: make the outputs of parts, and join the parts of a key. A task gets only names and numbers, and writes files. It can
be started again at any time, and gives the same bytes."""
from __future__ import annotations

import contextlib
import dataclasses
import fcntl
import functools
import hashlib
import os
import threading
import time
from typing import Callable, NamedTuple, TypeVar

from . import parts
from .errors import Refused, TiltError
from .files import HEADER_LINE, Together, copy, scratch
from .parts import Part
from .program import REFUSALS, Processes, program
from .ranges import NotPlain, Range, Series, Stamp, check_stamp, is_all, opened, plain_of, range_of, stamp_of
from .units import put, write_in_units
from .why import Refusal, refusal_of

T = TypeVar("T")
# How many bytes a pipe to the program holds if this user may have one of so many, and how many the program reads in a second, at most.
PIPE, FASTEST = 1 << 20, 1 << 29
# On a cluster, a worker's tasks run until they end or the worker is killed.
UNSTOPPED = Processes()


class Stretch(NamedTuple):
    """The rows of an input that a part needs: those with a tick in (low, high], in these files."""

    name: str
    low: int
    high: int
    files: tuple[Series, ...]


class Task(NamedTuple):
    """A part of the output of a key: the rows that it needs, a digest of all that it is made from, the file that gets it, and a name beside
    which it is written."""

    key: str
    part: Part
    inputs: tuple[Stretch, ...]
    digest: str
    file: str
    beside: str


class Batch(NamedTuple):
    """Parts that are made by one call of a worker, one after another: the query over whole numbers and over their stretch, which is the
    same for all; a digest of the program that is to be called; the folder of the plain copies; and the decimals that the output has, and
    those that are shown of it."""

    query: str
    program: str
    plain: str
    tasks: tuple[Task, ...]
    decimals: int
    shown: int


@dataclasses.dataclass(frozen=True)
class Made:
    """How a task went: its seconds, without those in which others had all slots; these; those of the program in it; and how many bytes of
    series the program got. If something was rejected: the line, the status and the place. Of a batch what was made of each part, up to the
    first that failed."""

    seconds: float = dataclasses.field(default=0.0, compare=False)
    waited_seconds: float = dataclasses.field(default=0.0, compare=False)
    program_seconds: float = 0.0
    bytes: int = 0
    line: str = ""
    status: int = 0
    place: Refusal | None = None
    parts: tuple[Made, ...] = ()


class Joining(NamedTuple):
    """The parts of a key with their files, and the file of the whole."""

    key: str
    parts: tuple[tuple[Part, str], ...]
    file: str


def program_digest(path: str) -> str:
    return digest_of(path, stamp_of(path))


@functools.lru_cache(maxsize=8)
def digest_of(path: str, stamp: Stamp) -> str:
    with open(path, "rb") as file:
        return hashlib.file_digest(file, "sha256").hexdigest()


def task(make: Callable[[T, Processes], Made]) -> Callable[..., Made]:
    """A function that carries out a task, with the seconds that it took. A Refused is in what it gives: the task isn't started again."""

    @functools.wraps(make)
    def carried_out(argument: T, processes: Processes = UNSTOPPED) -> Made:
        begun = time.perf_counter()
        try:
            made = make(argument, processes)
        except TiltError as rejected:
            return Made(line=rejected.line, status=rejected.status, place=rejected.place)
        except Refused as refused:
            return Made(line=str(refused), status=1)
        return dataclasses.replace(made, seconds=time.perf_counter() - begun - made.waited_seconds)

    return carried_out


@task
def make_parts(batch: Batch, processes: Processes) -> Made:
    """Makes the outputs of parts. If one of several fails, those before it are kept. The caller makes the others by a task for each, so
    that what happens to them is counted and reported for each. A part that is there isn't made again."""
    if all(task.beside == task.file and os.path.exists(task.file) for task in batch.tasks):
        return Made(parts=(Made(),) * len(batch.tasks))
    with contextlib.suppress(*((Refused, OSError) if len(batch.tasks) > 1 else ())):
        return made_together(batch, processes)
    return Made()


def made_together(batch: Batch, processes: Processes) -> Made:
    """Runs the program for each part, in one of the slots. All outputs are brought to the disk together, and then take their names, while
    the slot is another's."""
    check_program(batch.program)
    ready = time.perf_counter()
    with Together() as together:
        with processes.slots:
            waited = time.perf_counter() - ready
            made = run_all(batch, processes, together)
        together.commit()
    return Made(waited_seconds=waited, parts=tuple(made))


def run_all(batch: Batch, processes: Processes, together: Together) -> list[Made]:
    """Runs the program for each part, up to the first that fails. If that is the first of all, it fails too."""
    made: list[Made] = []
    with scratch() as folder:
        query, printed = put(batch.query.encode(), folder), os.path.join(folder, "printed.csv")
        try:
            for task in batch.tasks:
                out = together.begin(task.beside, task.file)
                if not batch.shown:
                    made.append(run(processes, task, query, batch.plain, out))
                    continue
                with open(printed, "wb") as whole, open(out, "w", encoding="ascii", newline="", closefd=False) as file:
                    part = run(processes, task, query, batch.plain, whole.fileno())
                    write_in_units(printed, file, batch.decimals, batch.shown, processes.check)
                made.append(part)
        except (Refused, OSError):
            if not made:
                raise
            together.keep(len(made))
    return made


def check_program(digest: str, command: str = "tilt") -> None:
    """Raises a Refused if the program here isn't that of the call."""
    path = program(command)
    if not os.path.exists(path) or program_digest(path) != digest:
        raise Refused(f"{path} on {os.uname().nodename} isn't the program of the call")


def run(processes: Processes, task: Task, query: str, plain: str, out: int) -> Made:
    """Runs the program with its output to a descriptor. What it rejects is a TiltError, with the place in the series that a row is from.
    Another status that isn't 0 is a fault of the machine, and the task can be started again."""
    ranges = {stretch.name: ranges_of(stretch, plain, processes) for stretch in task.inputs}
    with Feeds() as feeds:
        words = [f"{name}={its[0].series.file if is_whole(its) else feeds.begin(its)}" for name, its in ranges.items()]
        started = time.perf_counter()
        called = processes.call(["run", query, *words], out, handed=feeds.readers)
        seconds = time.perf_counter() - started
    # Of a file that has another stamp now, the bytes aren't known.
    for stretch in task.inputs:
        for series in stretch.files:
            check_stamp(series)
    line = called.told.rstrip("\n")
    if called.status in REFUSALS:
        if line.startswith("tilt: 3 file too long: "):
            raise TiltError(f"{line}, which are the rows of this part: fewer by --part-rows", called.status)
        raise TiltError(line, called.status, place_of(line, query, ranges))
    if called.status:
        raise ChildProcessError(line or f"the program exited with status {called.status}")
    if feeds.error is not None:
        raise feeds.error
    return Made(0.0, 0.0, seconds, sum(one.end - one.begin for its in ranges.values() for one in its))


class Feeds:
    """Rows on their way to the program: a thread for each input writes them to a pipe."""

    def __init__(self) -> None:
        self.readers: list[int] = []
        self.threads: list[threading.Thread] = []
        self.error: OSError | Refused | None = None

    def __enter__(self) -> Feeds:
        return self

    def begin(self, ranges: list[Range]) -> str:
        """The name under which the program reads rows, if it is handed the readers."""
        reader, writer = os.pipe()
        self.readers.append(reader)
        with contextlib.suppress(OSError):
            fcntl.fcntl(writer, fcntl.F_SETPIPE_SZ, PIPE)
        # In this time the program can't read all that the pipe holds.
        pause = fcntl.fcntl(writer, fcntl.F_GETPIPE_SZ) / FASTEST
        self.threads.append(threading.Thread(target=self.feed, args=(ranges, writer, pause)))
        self.threads[-1].start()
        return f"/dev/fd/{reader}"

    def feed(self, ranges: list[Range], writer: int, pause: float) -> None:
        try:
            write_rows(ranges, writer, pause)
        except (OSError, Refused) as error:
            self.error = error
        finally:
            os.close(writer)

    def __exit__(self, *_: object) -> None:
        # A thread whose reader has gone ends.
        for reader in self.readers:
            os.close(reader)
        for thread in self.threads:
            thread.join()


def write_rows(ranges: list[Range], out: int, pause: float = 0.0) -> None:
    """Writes a series of these rows. The system copies them; a pipe that is full is left alone for a pause."""
    os.write(out, HEADER_LINE)
    for series, begin, end in ranges:
        with opened(series.file, series.path) as source:
            copy(source, out, begin, end, pause=pause)
            if os.pread(source, 1, end - 1) != b"\n":
                os.write(out, b"\n")


def ranges_of(stretch: Stretch, plain: str, processes: Processes) -> list[Range]:
    """The rows of an input that a part needs, file by file."""
    found = []
    for series in stretch.files:
        try:
            found.append(range_of(series, stretch.low, stretch.high))
        except NotPlain:
            check_stamp(series)
            copied = plain_of(series.path, series.stamp, plain, processes.check)
            found += [range_of(copied, stretch.low, stretch.high)] if copied is not None else []
    return [one for one in found if one.begin < one.end]


def is_whole(ranges: list[Range]) -> bool:
    """Whether the rows are all of one file, which is handed to the program as it is. It takes no name that isn't UTF-8."""
    if len(ranges) != 1 or not is_all(ranges[0]):
        return False
    return ranges[0].series.file == os.fsencode(ranges[0].series.file).decode(errors="replace")


def place_of(line: str, query: str, ranges: dict[str, list[Range]]) -> Refusal | None:
    """The place of what the program rejected. Of a row of a part it is the line of the series that the row is from."""
    with scratch() as folder:
        files = {name: its[0].series.file if is_whole(its) else os.path.join(folder, name) for name, its in ranges.items()}
        for name, its in ranges.items():
            if not is_whole(its):
                with open(files[name], "wb") as out:
                    write_rows(its, out.fileno())
        found = refusal_of(line, [query, *(f"{name}={path}" for name, path in files.items())])
        for name, its in ranges.items():
            if found is not None and found.line is not None and found.file == files[name] and not is_whole(its):
                file, number = place_in(its, found.line)
                return dataclasses.replace(found, file=file, line=number)
    return found


def place_in(ranges: list[Range], line: int) -> tuple[str, int]:
    """The series and its line that a line of the rows of a part was, both from 1. The first line of the part's rows is the header."""
    left = line - 2
    for series, begin, end in ranges:
        with opened(series.file, series.path) as source:
            count = lines_in(source, begin, end) + (os.pread(source, 1, end - 1) != b"\n")
            if left < count:
                return series.path, lines_in(source, 0, begin) + left + 1
        left -= count
    raise ValueError(line)


def lines_in(source: int, begin: int, end: int) -> int:
    """How many lines end in these bytes of a file."""
    pieces = (os.pread(source, min(1 << 20, end - at), at) for at in range(begin, end, 1 << 20))
    return sum(piece.count(b"\n") for piece in pieces)


@task
def make_whole(joining: Joining, processes: Processes) -> Made:
    # Among the parts of its key, where only its call writes.
    beside = os.path.join(os.path.dirname(joining.parts[0][1]), "whole.csv")
    with Together() as together:
        with open(together.begin(beside, joining.file), "wb", closefd=False) as out:
            parts.join(list(joining.parts), out, processes.check)
        together.commit()
    return Made()
