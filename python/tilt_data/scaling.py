"""`tilt-data scale`: a query by keys and parts of its domain, several at a time, joined to what one run prints."""
from __future__ import annotations

import argparse
import collections
import contextlib
import dataclasses
import functools
import glob
import json
import math
import os
import pathlib
import time
import urllib.parse
from typing import TYPE_CHECKING, Any, Iterable, Iterator, Mapping, NamedTuple, Sequence, Union

from . import engine, ranges, tasks
from .errors import Refused, TiltError, note
from .files import PLACED, failing_at, keys_and_files, locked, notes_of, placed
from .frames import Query
from .parts import Domain, Part
from .program import program
from .progress import Bar
from .ranges import NotPlain, Piece, Range, Series
from .tasks import Batch, Joining, Made, Stretch, Task
from .units import Checked, Known, Overflow, Units, joined, longest_window, noted, scales_of_files
from .version import VERSION as RELEASE
from .why import clashes_of

if TYPE_CHECKING:
    Files = Union[str, os.PathLike[str], Sequence[Union[str, os.PathLike[str]]]]

HELP = """Runs a query over files that are too many or too long for one run: for each key, and for parts of the output domain. The parts
run on this machine, several at a time (--workers), or on the workers of a Dask scheduler (--scheduler). An argument NAME=FILES has {key} in
the place of the key, and * and ? for other characters, as in temperature=data/{key}/day-*.csv. Several arguments can have one NAME. The
folder of --out gets KEY.csv for each key, or output.csv without keys: the bytes that one run over all rows prints. Numbers in the query
and in the outputs are in the units of the series. What is finished is kept, so that the same call continues after it was stopped."""
ALONE = "output"
PART_ROWS = 1_000_000
# What changes when the parts of earlier versions aren't to be taken.
FORMAT = 3
# In how many pieces the rows of a part are looked at to find where to cut, and how much of a part, and of all, their number may be wrong.
PIECES, SLACK, WRONG = 16, 0.02, 0.002
# How many small keys share a task, and from how many keys on; how many bytes the files of such a key have at most.
TOGETHER, MANY, SMALL = 32, 64, 1 << 14
# From how many keys on a key has one part, if it has at most so many times the rows of a part.
SEVERAL, LARGER = 16, 4
# How many seconds are between two lists of the outputs.
BETWEEN = 1.0


def add(commands: Any) -> None:
    parser = commands.add_parser("scale", help="a query by keys and parts, several at a time", description=HELP)
    parser.add_argument("query", metavar="QUERY")
    parser.add_argument("binds", nargs="*", metavar="NAME=FILES", help="the series files of an input, with {key}, * and ?")
    parser.add_argument("--out", metavar="FOLDER", required=True, help="the folder of the outputs, and of what is kept of a call")
    parser.add_argument("--part-rows", type=int, metavar="N", default=PART_ROWS, help=f"about how many rows a part has ({PART_ROWS})")
    engine.add_options(parser, "run the parts")
    parser.set_defaults(main=main)


@dataclasses.dataclass
class Scaled:
    """What a call did: the output of each key, `output` if there are none; how many parts there are, how many of them were made now, and
    how many bytes of series the program got for them; the largest number of workers; the seconds of the whole call, of all its tasks, and
    of the program in them, and those in which Dask started and ended; how often a task was started again; and notes on the cuts, the rows
    and the files."""

    outputs: dict[str, str] = dataclasses.field(default_factory=dict)
    parts: int = 0
    made: int = 0
    bytes: int = 0
    workers: int = 0
    seconds: float = 0.0
    task_seconds: float = 0.0
    program_seconds: float = 0.0
    start_seconds: float = 0.0
    end_seconds: float = 0.0
    again: int = 0
    notes: list[str] = dataclasses.field(default_factory=list)

    def told(self, most: int = 10) -> Iterator[str]:
        yield from self.notes
        kept = f", of which {self.parts - self.made} were there" if self.made < self.parts else ""
        yield f"{self.parts} parts{kept}; {self.bytes / 1e6:.1f} MB of series read; the call took {self.seconds:.1f} s"
        run = self.seconds - self.start_seconds - self.end_seconds
        if self.start_seconds:
            yield f"Dask took {self.start_seconds:.1f} s to start, the parts {run:.1f} s, and Dask {self.end_seconds:.1f} s to end"
        if self.made and self.workers:
            # How the workers spent the time of the call.
            time = self.workers * run
            program, files = self.program_seconds / time, (self.task_seconds - self.program_seconds) / time
            yield f"the program took {program:.0%} of the workers' time; reading and writing, beside it or between, {files:.0%}"
        if self.again:
            yield f"tasks that failed and were started again: {self.again}"
        yield from list(self.outputs.values())[:most]
        if len(self.outputs) > most:
            yield f"and {len(self.outputs) - most} more"


# The files


def files_of(inputs: Mapping[str, Sequence[str]]) -> dict[str, dict[str, list[str]]]:
    """The files of each input, by keys. The keys are those of the first input that has some; inputs without keys are the same for all."""
    found: dict[str, dict[str | None, list[str]]] = {}
    for name, patterns in inputs.items():
        its = found.setdefault(name, {})
        for pattern in patterns:
            some = keys_and_files(pattern)
            if not some:
                raise Refused(f"{name}={pattern}: no file has this name")
            for key, paths in some.items():
                its[key] = its.get(key, []) + [path for path in paths if path not in its.get(key, [])]
    keyed = (sorted(key for key in its if key is not None) for its in found.values())
    whole: dict[str, dict[str, list[str]]] = {}
    for key in next(filter(None, keyed), [""]):
        whole[key] = {name: list(dict.fromkeys(its.get(None, []) + its.get(key, []))) for name, its in found.items()}
        lacking = next((name for name, paths in whole[key].items() if not paths), None)
        if lacking is not None:
            raise Refused(f"the key {key} has no file of {lacking}")
    return whole


def bound(binds: Sequence[str]) -> dict[str, list[str]]:
    found: dict[str, list[str]] = {}
    for word in binds:
        name, sign, pattern = word.partition("=")
        if not sign or not name or not pattern:
            raise Refused(f"{word!r}: NAME=FILES was expected")
        found.setdefault(name, []).append(pattern)
    return found


# The plan


class Whole(NamedTuple):
    """The query over whole numbers of a key: its output domain, and how many decimals its output has."""

    domain: Domain
    decimals: int


class Plan:
    """What to make: the query, how far it looks, the files of each key, and where everything is written."""

    def __init__(self, query: Query, inputs: Mapping[str, Sequence[str]], out: str, is_whole: bool = False) -> None:
        try:
            self.needs = query.explain(is_whole).inputs
            self.program = tasks.program_digest(program())
        except OSError as error:
            raise Refused(f"the program can't be run: {error.strerror}") from error
        missing = next((name for name in self.needs if name not in inputs), None)
        other = next((name for name in inputs if name not in self.needs), None)
        if missing is not None or other is not None:
            what = f"{missing} isn't bound: {missing}=FILES" if missing is not None else f"not {other}"
            raise Refused(f"{what}: the query reads {', '.join(self.needs) or 'no inputs'}")
        self.files = files_of(inputs)
        self.read = functools.cache(notes_of)
        self.units = Units(query.text.encode(), query.name, is_whole, self.read)
        self.check_files()
        wholes = {key: self.units.whole(self.scales(key)) or Checked(query.text) for key in self.files}
        domains = {text: Domain.of(text) for text in {whole.query for whole in wholes.values()}}
        self.wholes = {key: Whole(domains[whole.query], whole.decimals) for key, whole in wholes.items()}
        # Over whole numbers the statements differ in their numbers alone, and in how many tokens they have.
        self.domain = max(domains.values(), key=lambda domain: domain.least)
        self.out = os.path.abspath(out)
        self.plain = os.path.join(self.out, "plain")
        self.known: dict[str, Series | None] = {}
        # How many bytes of series the output rests on, how many cuts were moved, and how many have no place.
        self.bytes = self.moved = self.fewer = 0

    def check_files(self) -> None:
        """Rejects files of one input whose notes differ: all their rows go to the program as one series."""
        several = {tuple(paths): name for its in self.files.values() for name, paths in its.items() if len(paths) > 1}
        for paths, name in several.items():
            clash = clashes_of({path: path for path in paths}, read=self.read)
            if clash:
                raise Refused(f"{name}: {clash}")
            scales = {} if self.units.is_whole else {path: scales_of_files([name], {name: path}, self.read)[name] for path in paths}
            if len(set(scales.values())) > 1:
                lacking, scale = min(scales, key=scales.__getitem__), max(scales.values())
                raise Refused(f"{name}: {lacking} has no JSON file beside it, and others have the scale {scale}: write it again")

    def scales(self, key: str) -> dict[str, int]:
        """The scales of the inputs of a key."""
        return self.units.scales({name: paths[0] for name, paths in self.files[key].items()})

    def numbers(self, key: str, ticks: int) -> dict[str, Known]:
        """What the notes say of the numbers of the inputs of a key, as far as all files of an input have notes with these. No row is read:
        the shortest one has 5 bytes, and a row has two marks at most."""
        found: dict[str, Known] = {}
        for name, paths in self.files[key].items():
            its = [noted({name: path}, self.read) for path in paths]
            if all(its):
                marks = min(ticks, sum(map(os.path.getsize, paths)) // 5 * 2)
                found[name] = joined(its)[name]._replace(marks=max(1, marks), ticks=ticks)
        return found

    def overflows(self) -> Iterator[Overflow]:
        """The first overflow of the query at each of the scales, over the numbers of all keys whose series have them."""
        ticks = longest_window(self.units.text) + 1
        each: dict[tuple[tuple[str, int], ...], list[dict[str, Known]]] = {}
        for key in self.files:
            each.setdefault(tuple(self.scales(key).items()), []).append(self.numbers(key, ticks))
        for scales, some in each.items():
            if scales and all(len(one) == len(scales) for one in some):
                known = joined(some)
                overflow = self.units.overflow(dict(scales), known)
                if overflow is not None:
                    yield overflow

    def inputs(self, key: str) -> dict[str, list[Series]]:
        """The files of each input that have rows, in the order of these. Each file is looked at once in a call."""
        for path in (path for paths in self.files[key].values() for path in paths):
            if path not in self.known:
                with failing_at(self.plain):
                    self.known[path] = ranges.series_of(path, self.plain)
        its = {name: map(self.known.__getitem__, paths) for name, paths in self.files[key].items()}
        return {name: ranges.in_order(one for one in files if one is not None) for name, files in its.items()}

    def cut(self, key: str, part_rows: int) -> list[Part]:
        """The parts of a key, by the rows that its output rests on."""
        while True:
            try:
                ticks, count = self.ticks(key, part_rows)
                return self.cut_at(ticks, count)
            except NotPlain as found:
                series = self.known[found.path]
                if series is None or series.file != series.path:
                    raise
                with failing_at(self.plain):
                    self.known[found.path] = ranges.plain_of(series.path, series.stamp, self.plain)

    def ticks(self, key: str, part_rows: int) -> tuple[list[int], int]:
        """Where to cut, and into how many parts: each part has about so many rows, or as many as it reads beside its own if those are more.
        So no row is read much more than twice. With several keys a key has one part, if that isn't much larger."""
        low, high = self.domain.start, self.domain.end
        met = {name: self.ranges_in(files, *self.stretch(name, low, high)) for name, files in self.inputs(key).items()}
        its = [one for some in met.values() for one in some]
        most = part_rows * (LARGER if len(self.files) >= SEVERAL else 1)
        ticks, count = list[int](), 1
        # The program checks the order of the rows if it reads all.
        if sum((one.end - one.begin) / one.series.width for one in its) > most / 2 or not all(map(ranges.is_all, its)):
            pieces = {name: [piece for one in some for piece in ranges.pieces_of(one, part_rows, PIECES)] for name, some in met.items()}
            rows = sum(piece.rows for some in pieces.values() for piece in some)
            beside = sum(self.rows_beside(name, some) for name, some in pieces.items())
            if rows > most:
                count = max(1, min(math.ceil(rows * (1 - WRONG) / part_rows - SLACK), int(rows / max(beside, 1) + SLACK)))
                ticks = ranges.ticks_by_rows([piece for some in pieces.values() for piece in some], count)
        self.bytes += sum(one.end - one.begin for one in its)
        return ticks, count

    def ranges_in(self, files: list[Series], low: int, high: int) -> list[Range]:
        return [ranges.range_of(one, low, high) for one in ranges.meeting(files, low, high)]

    def rows_beside(self, name: str, pieces: list[Piece]) -> float:
        """About how many rows of an input a part reads beside its own, with those of the step before its cut."""
        low, high = self.stretch(name, -self.domain.period, 0)
        return sum(piece.rows for piece in pieces) * (high - low) / (pieces[-1].last - pieces[0].first) if pieces else 0

    def cut_at(self, ticks: list[int], count: int) -> list[Part]:
        cuts, moved = self.domain.cuts(ticks)
        self.moved += moved
        self.fewer += max(0, count - 1 - len(cuts))
        return self.domain.parts(cuts)

    def stretch(self, name: str, start: int, end: int) -> tuple[int, int]:
        """The ticks (low, high] of an input that the output on (start, end] rests on; none where it isn't used."""
        need = self.needs[name]
        return (start - need[0], end + need[1]) if need is not None else (start, start)

    def tasks(self, key: str, parts: list[Part]) -> list[Task]:
        """The tasks of the parts of a key. If there are many keys, the one part of a small key is its output."""
        inputs, found, whole = self.inputs(key), list[Task](), self.wholes[key]
        small = len(self.files) >= MANY and sum(one.end for its in inputs.values() for one in its) <= SMALL
        for part in parts:
            query = whole.domain.query(part.start, part.end)
            texts, stretches = [f"{FORMAT} {self.program} {whole.decimals} {self.units.decimals} {len(query)} {query}"], []
            for name, files in inputs.items():
                low, high = self.stretch(name, part.start, part.end)
                its = ranges.meeting(files, low, high)
                texts += [f"{name} {low} {high}", *(f"{len(one.path)} {one.path} {one.stamp}" for one in its)]
                stretches.append(Stretch(name, low, high, its))
            digest = digest_of(texts)
            file = beside = os.path.join(self.out, "parts", key, f"{part.number:06d}-{digest}.csv")
            if small and len(parts) == 1:
                file, beside = self.whole_file(key), f"{self.out}/parts/whole.csv"
            found.append(Task(key, part, tuple(stretches), digest, file, beside))
        return found

    def batch(self, *some: Task) -> Batch:
        """Tasks of the same query and stretch, to be carried out together."""
        (domain, decimals), part = self.wholes[some[0].key], some[0].part
        return Batch(domain.query(part.start, part.end), self.program, self.plain, some, decimals, self.units.decimals)

    def fit(self, task: Task, other: Task) -> bool:
        """Whether two tasks can be carried out together: each makes the output of its key, by the same query."""
        return is_whole(task) and is_whole(other) and self.wholes[task.key] == self.wholes[other.key]

    def whole_file(self, key: str) -> str:
        return f"{self.out}/{whole_name(key)}"

    def notes(self) -> Iterator[str]:
        """Notes on the cuts, on what can overflow, and on inputs whose clocks differ, or whose scales do where these matter."""
        if self.moved:
            grid = f"to the grid of every {self.domain.period} ticks, or " if self.domain.period > 1 else ""
            yield f"cuts that were moved {grid}into the domain: {self.moved}"
        if self.fewer:
            yield f"cuts that had no place of their own in the domain, so that there are fewer parts: {self.fewer}"
        for overflow in self.overflows():
            yield f"note: {overflow}"
        found: dict[str, list[str]] = {}
        for key, its in self.files.items():
            clash = clashes_of({name: paths[0] for name, paths in its.items()}, self.units.is_whole, self.read)
            if clash:
                found.setdefault(clash, []).append(urllib.parse.unquote(key))
        for clash, keys in found.items():
            more = f" and {len(keys) - 1} more" if len(keys) > 1 else ""
            yield f"note: {clash}" + (f" (the key {keys[0]}{more})" if keys[0] else "")


def whole_name(key: str) -> str:
    return f"{key or ALONE}.csv"


class Listing:
    """The outputs in the folder of a call, as its file `outputs.json` lists them: for each file the digest of the parts that it was joined
    from, and its stamp then; null for an output that a call meant to write and didn't."""

    def __init__(self, folder: str) -> None:
        self.folder = folder
        self.outputs: dict[str, Any] = {}
        self.changed, self.written = False, 0.0
        with contextlib.suppress(OSError, ValueError, KeyError, TypeError, AttributeError):
            with open(os.path.join(folder, "outputs.json"), encoding="utf-8") as file:
                found = json.load(file)["outputs"]
            self.outputs = {name: entry for name, entry in found.items() if os.path.basename(name) == name}

    def write(self) -> None:
        if not self.changed:
            return
        self.changed, self.written = False, time.monotonic()
        # The encoder that takes no indents is much faster.
        text = json.dumps({"tilt-data": 1, "version": RELEASE, "outputs": self.outputs}).replace(']], "', ']],\n"') + "\n"
        # All files that are half written are in `parts`, which only a call with the lock writes to.
        new = os.path.join(self.folder, "parts", "outputs.json")
        with placed(new) as file:
            file.write(text.encode())
        os.replace(new, os.path.join(self.folder, "outputs.json"))

    def add(self, names: list[str]) -> None:
        self.changed |= any(name not in self.outputs for name in names)
        self.outputs = {**dict.fromkeys(names), **self.outputs}
        self.write()

    def digest(self, name: str) -> str | None:
        """The digest of the parts of an output; None if the file isn't there as it was joined."""
        with contextlib.suppress(Refused, KeyError, ValueError, TypeError):
            digest, stamp = self.outputs[name]
            if tuple(stamp) == ranges.stamp_of(os.path.join(self.folder, name)):
                return str(digest)
        return None

    def note(self, name: str, digest: str) -> None:
        """Notes an output that was made now. One that this machine can't see yet, on a shared disk, is made again by the next call."""
        self.outputs[name], self.changed = None, True
        with contextlib.suppress(Refused):
            self.outputs[name] = digest, ranges.stamp_of(os.path.join(self.folder, name))

    def set_aside(self, names: list[str]) -> int:
        """Moves the outputs of earlier calls that aren't among these to the folder `earlier`, so that nobody takes them for outputs of this
        call; how many they are."""
        kept, moved = set(names), 0
        for name in [name for name in self.outputs if name not in kept]:
            del self.outputs[name]
            self.changed = True
            with contextlib.suppress(FileNotFoundError):
                os.makedirs(os.path.join(self.folder, "earlier"), exist_ok=True)
                os.replace(os.path.join(self.folder, name), os.path.join(self.folder, "earlier", name))
                moved += 1
        self.write()
        return moved


# The run


def sweep(*folders: str) -> None:
    """Removes half-written files from folders and from those in them."""
    for folder in folders:
        for name in ("", "*"):
            for path in glob.glob(os.path.join(glob.escape(folder), name, f".*{PLACED}")):
                with contextlib.suppress(OSError):
                    os.unlink(path)


class Run:
    def __init__(self, plan: Plan, its: engine.Engine, listing: Listing, progress: bool) -> None:
        self.plan, self.engine, self.listing, self.progress = plan, its, listing, progress
        self.counted: Bar
        self.scaled = Scaled()
        # How many parts of a key are missing, and how they are joined, with a digest of what they are made from.
        self.left: dict[str, int] = {}
        self.wholes: dict[str, tuple[Joining, str]] = {}

    def carry_out(self, part_rows: int) -> Scaled:
        plan, scaled = self.plan, self.scaled
        names = [whole_name(key) for key in plan.files]
        # What is finished is found before any task starts.
        waiting = collections.deque(task for key in plan.files for task in self.missing(key, part_rows))
        self.listing.add(names)
        try:
            self.make_parts(waiting)
        finally:
            self.listing.write()
        scaled.outputs = dict(sorted(scaled.outputs.items()))
        scaled.notes = list(plan.notes())
        if scaled.made == scaled.parts and scaled.bytes > 2 * plan.bytes:
            times = f"each row was read {scaled.bytes / plan.bytes:.1f} times, since the query looks far"
            scaled.notes.append(f"{times}: larger parts by --part-rows read fewer")
        moved = self.listing.set_aside(names)
        if moved:
            scaled.notes.append(f"outputs of earlier calls that aren't of this one, moved to {plan.out}/earlier: {moved}")
        scaled.again, scaled.workers = sum(self.engine.failures.values()), self.engine.most
        scaled.task_seconds = self.engine.seconds
        return scaled

    def missing(self, key: str, part_rows: int) -> list[Task]:
        """The tasks of the parts of a key whose files aren't there; none if its output is there, made from the same parts."""
        tasks = self.plan.tasks(key, self.plan.cut(key, part_rows))
        name, digest = whole_name(key), digest_of(task.digest for task in tasks)
        self.scaled.parts += len(tasks)
        if self.listing.digest(name) == digest:
            self.scaled.outputs[urllib.parse.unquote(key) or ALONE] = self.plan.whole_file(key)
            return []
        self.wholes[key] = Joining(key, tuple((task.part, task.file) for task in tasks), self.plan.whole_file(key)), digest
        found = [task for task in tasks if is_whole(task) or not os.path.exists(task.file)]
        self.left[key] = len(found)
        return found

    def make_parts(self, waiting: collections.deque[Task]) -> None:
        """Makes all parts that are missing, and the whole of each key as soon as its last part is there. Small keys share a task."""
        with Bar(self.scaled.parts, "parts", self.progress) as self.counted:
            self.counted.step(self.scaled.parts - len(waiting))
            for key in [key for key, count in self.left.items() if not count]:
                self.finish(key)
            while waiting or self.engine.begun:
                while waiting and self.engine.has_room():
                    some = [waiting.popleft()]
                    while waiting and self.plan.fit(some[0], waiting[0]) and len(some) < TOGETHER:
                        some.append(waiting.popleft())
                    self.begin(*some)
                if self.engine.begun:
                    self.engine.take_next()

    def begin(self, *some: Task) -> None:
        more = f", and {len(some) - 1} other keys" if len(some) > 1 else ""
        self.engine.begin(f"{name_of(some[0])}{more}", tasks.make_parts, self.plan.batch(*some), self.take_parts)

    def take_parts(self, batch: Batch, made: Made) -> None:
        """Takes what a task made of parts. What it left gets tasks of its own."""
        if made.status:
            raise TiltError(f"{name_of(batch.tasks[0])}: {made.line}", made.status, made.place)
        for task, part in zip(batch.tasks, made.parts):
            self.scaled.made += 1
            self.scaled.bytes += part.bytes
            self.scaled.program_seconds += part.program_seconds
            self.counted.step()
            self.left[task.key] -= 1
            if not self.left[task.key]:
                self.finish(task.key)
        for task in batch.tasks[len(made.parts) :]:
            self.begin(task)
        if time.monotonic() > self.listing.written + BETWEEN:
            self.listing.write()

    def finish(self, key: str) -> None:
        """Joins the parts of a key, which are all there. The one part of a small key is its output."""
        joining, _ = self.wholes[key]
        if joining.parts[0][1] == joining.file:
            self.take_whole(joining, Made())
        else:
            self.engine.begin(f"the whole of {key or ALONE}", tasks.make_whole, joining, self.take_whole)

    def take_whole(self, joining: Joining, made: Made) -> None:
        if made.status:
            raise Refused(made.line)
        self.listing.note(whole_name(joining.key), self.wholes.pop(joining.key)[1])
        self.scaled.outputs[urllib.parse.unquote(joining.key) or ALONE] = joining.file


def is_whole(task: Task) -> bool:
    """Whether the part of a task is the output of its key."""
    return task.file != task.beside


def name_of(task: Task) -> str:
    key = f"{urllib.parse.unquote(task.key)}, " if task.key else ""
    return f"{key}part {task.part.number} over ({task.part.start}, {task.part.end}]"


def digest_of(texts: Iterable[str]) -> str:
    return ranges.digest_of("\n".join(texts).encode(errors="surrogateescape"))


def scale(
    query: str | os.PathLike[str] | Query,
    inputs: Mapping[str, Files],
    out: str | os.PathLike[str],
    *,
    scheduler: str | None = None,
    workers: int | None = None,
    part_rows: int = PART_ROWS,
    retries: int = 3,
    whole: bool = False,
    progress: bool = False,
) -> Scaled:
    """Runs a query over many files, several parts at a time, as `tilt-data scale` does with the same options. The files of an input are a
    name or several, with {key}, * and ? as there. Without a scheduler the parts run on threads of this process, which call the program."""
    begun = time.monotonic()
    if part_rows < 1:
        raise Refused("part-rows: 1 or more was expected")
    engine.check(workers, retries)
    if scheduler is not None:
        engine.imported()
    start_seconds = time.monotonic() - begun if scheduler is not None else 0.0
    listed = {name: [files] if isinstance(files, (str, os.PathLike)) else files for name, files in inputs.items()}
    named = {name: [os.fspath(one) for one in files] for name, files in listed.items()}
    plan = Plan(query if isinstance(query, Query) else Query(query), named, os.fspath(out), whole)
    with locked(plan.out, "scale"), contextlib.ExitStack() as stack:
        # What killed processes left: only this call writes to its folder.
        parts = os.path.join(plan.out, "parts")
        sweep(parts, plan.plain)
        if scheduler is not None:
            stack.callback(sweep, parts)
        with engine.opened(scheduler, workers, retries) as its:
            scaled = Run(plan, its, Listing(plan.out), progress).carry_out(part_rows)
    scaled.seconds = time.monotonic() - begun
    scaled.start_seconds, scaled.end_seconds = start_seconds + its.start_seconds, its.end_seconds
    return scaled


def main(words: argparse.Namespace) -> int:
    engine.prepare(words)
    options: Any = {name: getattr(words, name) for name in ("scheduler", "workers", "part_rows", "retries", "whole")}
    for line in scale(pathlib.Path(words.query), bound(words.binds), words.out, progress=True, **options).told():
        note(line)
    return 0
