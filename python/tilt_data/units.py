"""Queries in the units of their data: what `tilt-live --check` says of one.

The literals of such a query are decimals, and the numbers of an input are its values times its scale. The check gives the query over whole
numbers, which `tilt` runs, and the decimals of its output. From what is known of the inputs it gives bounds, or the first overflow."""
from __future__ import annotations

import collections
import contextlib
import dataclasses
import math
import os
from typing import IO, Callable, Iterable, Iterator, Mapping, NamedTuple, Sequence

from . import program
from .errors import Refused, TiltError
from .files import Extremes, Row, Stale, notes_of, rows_in, scratch
from .forms import walk
from .grammar import inputs_in, statements_of
from .scales import decimal_text, factors
from .tokens import DECIMAL, without_points
from .why import Reads, check, text_of

# The largest scale that the program takes.
LARGEST_SCALE = 2**63 - 1
# How many bytes of an output are brought to units at a time, about.
PIECE = 1 << 20
CURE = "take a constant off its inputs first, as `let d = x - 100;`, shorten its windows, or give a smaller scale"


class Known(NamedTuple):
    """What is known of the numbers of an input: the smallest, the largest, and how many marks are in any so many ticks at most."""

    least: int
    greatest: int
    marks: int = 1
    ticks: int = 1

    def bound(self, scale: int) -> str:
        """The bound as the program takes it. A scale that has other factors than 2 and 5 has decimals for whole units alone."""
        _, _, rest = factors(scale)
        low, high = self.least, self.greatest
        if rest != 1:
            low, high = math.floor(low / scale) * scale, -math.floor(-high / scale) * scale
        return f"{decimal_text(low, scale)}:{decimal_text(high, scale)}:{self.marks}/{self.ticks}"


class Overflow(NamedTuple):
    """The first expression that can leave 64 bits: its definition, or `emit`, the number of its statement, and the exact interval of its
    numbers."""

    name: str
    statement: int
    least: int
    greatest: int

    def __str__(self) -> str:
        where = f"{self.name} (statement {self.statement})"
        return f"{where} can leave 64 bits, and is null then: its whole numbers are from {self.least} to {self.greatest}: {CURE}"


@dataclasses.dataclass(frozen=True)
class Checked:
    """A query over whole numbers, and what was found of it: the scale of each input, the decimals of the output, the marks of each input in
    so many ticks, and the bounds of each input, of each definition and of `emit`. If there is an overflow, only the inputs have bounds."""

    query: str
    decimals: int = 0
    scales: dict[str, int] = dataclasses.field(default_factory=dict)
    rates: dict[str, tuple[int, int]] = dataclasses.field(default_factory=dict)
    bounds: dict[str, tuple[int, int]] = dataclasses.field(default_factory=dict)
    overflow: Overflow | None = None

    def put(self, folder: str) -> str:
        """Writes the query to a folder: its path."""
        return put(self.query.encode(errors="surrogateescape"), folder)

    @staticmethod
    def of(report: str) -> Checked:
        head, _, query = report.partition("\nquery\n")
        checked = Checked(query)
        for form, name, *numbers in map(str.split, head.splitlines()):
            if form == "decimals":
                checked = dataclasses.replace(checked, decimals=int(name))
            elif form == "scale":
                checked.scales[name] = int(numbers[0])
            elif form == "overflow":
                statement, least, greatest = map(int, numbers)
                checked = dataclasses.replace(checked, overflow=Overflow(name, statement, least, greatest))
            else:
                first, second = map(int, numbers)
                (checked.rates if form == "rate" else checked.bounds)[name] = first, second
        return checked


def scales_text(scales: Mapping[str, int]) -> list[str]:
    """The option that gives the inputs these scales."""
    for name, scale in scales.items():
        if scale > LARGEST_SCALE:
            raise Refused(f"the input {name}: the scale {scale} is above {LARGEST_SCALE}, the largest in units: round its values")
    return ["--scale", ",".join(f"{name}={scale}" for name, scale in scales.items())] if scales else []


def checked(path: str, scales: Mapping[str, int], known: Mapping[str, Known] = {}, name: str | None = None) -> Checked:
    """What the program says of the query in a file, if its inputs have these scales and this is known of them. A query that is rejected
    raises a TiltError, which names it as the caller knows it."""
    bounds = ",".join(f"{input}={one.bound(scales[input])}" for input, one in known.items())
    return checked_by(path, [*scales_text(scales), *(["--bounds", bounds] if bounds else [])], name)


def checked_by(path: str, options: list[str], name: str | None = None) -> Checked:
    """The same with the options of the program."""
    called = program.call([path, "--units", "--check", *options], command="tilt-live")
    if called.status != 1 or not called.told.startswith("tilt: 120 "):
        check(called, ["check", path], name)
    return Checked.of(called.printed.decode())


class Units:
    """A query in units, and what it is over whole numbers at the scales of its inputs: it is translated once for equal scales. With
    `is_whole` it is over whole numbers itself. Errors name it as the caller knows it."""

    def __init__(self, text: bytes, name: str, is_whole: bool = False, read: Reads = notes_of) -> None:
        self.text, self.name, self.is_whole, self.read = text, name, is_whole, read
        self.names = inputs_in(text)
        self.found: dict[tuple[tuple[str, int], ...], Checked | None] = {}

    def scales(self, files: Mapping[str, str]) -> dict[str, int]:
        """The scale of each input that has a file."""
        return {name: 1 for name in self.names if name in files} if self.is_whole else scales_of_files(self.names, files, self.read)

    def whole(self, scales: Mapping[str, int]) -> Checked | None:
        """The query over whole numbers, if its inputs have these scales; None if it is the query as it is."""
        given = tuple(scales.items())
        if given not in self.found:
            is_same = self.is_whole or not is_in_units(self.text, scales.values())
            self.found[given] = None if is_same else self.translated(scales)
        return self.found[given]

    def translated(self, scales: Mapping[str, int]) -> Checked:
        with scratch() as folder:
            return checked(put(self.text, folder), scales, name=self.name)

    def overflow(self, scales: Mapping[str, int], known: Mapping[str, Known]) -> Overflow | None:
        """The first overflow, if its inputs have these scales and this is known of them."""
        alone = {name: Known(one.least, one.greatest) for name, one in known.items()}
        with scratch() as folder:
            return overflow_of(put(self.text, folder), scales, alone, lambda: known)

    @property
    def decimals(self) -> int:
        """How many decimals the output has at most, at the scales so far. So many are shown of each key."""
        return max((whole.decimals for whole in self.found.values() if whole is not None), default=0)


def put(text: bytes, folder: str, name: str = "query.tilt") -> str:
    """Writes a query to a folder: its path."""
    path = os.path.join(folder, name)
    with open(path, "wb") as file:
        file.write(text)
    return path


def in_units(lines: Iterable[str], decimals: int, shown: int) -> Iterator[str]:
    """The lines of rows whose whole numbers have so many decimals, with so many of them after the point, or more."""
    point, end = -1 - decimals, "0" * (shown - decimals) + "\n"
    for line in lines if shown else ():
        # The point has a digit before it, unless the number is too short.
        if line[point - 1 : -1].isdigit():
            yield f"{line[:point]}.{line[point:-1]}{end}"
        else:
            front, _, value = line.rpartition(",")
            yield f"{front},{decimal_text(int(value), 10**decimals)}{end}"
    yield from () if shown else lines


def write_in_units(source: str, out: IO[str], decimals: int, shown: int, check: Callable[[], None] = lambda: None) -> None:
    """Writes an output that is in a file, with its values in units. `check` is called for each piece, and can raise an exception."""
    with open(source, encoding="ascii") as file:
        out.write(file.readline())
        while lines := file.readlines(PIECE):
            check()
            out.writelines(in_units(lines, decimals, shown))


def is_in_units(text: bytes, scales: Iterable[int]) -> bool:
    """Whether a query means something else in units: it has a decimal, or an input has a scale other than 1."""
    return DECIMAL.search(text) is not None or any(scale != 1 for scale in scales)


def scales_of_files(names: Iterable[str], files: Mapping[str, str], read: Reads = notes_of) -> dict[str, int]:
    """The scale of each input that has a file: that of the notes beside it, or 1. Notes that don't describe their file are rejected."""
    scales: dict[str, int] = {}
    for name in names:
        try:
            notes = read(files[name]) if name in files else None
        except Stale:
            raise
        except Refused:
            notes = None
        scales |= {name: 1 if notes is None else notes.scale} if name in files else {}
    return scales


def overflow_of(
    path: str, scales: Mapping[str, int], known: Mapping[str, Known], exactly: Callable[[], Mapping[str, Known]]
) -> Overflow | None:
    """The first overflow of the query in a file. If one can't be excluded by the numbers of the inputs alone, their marks are counted. A
    query over whole numbers runs without this program, and isn't checked then. What is rejected is left to the run."""
    try:
        if program.is_there("tilt-live") and checked(path, scales, known).overflow is not None:
            return checked(path, scales, exactly()).overflow
    except TiltError as error:
        if error.status != Refused.status:
            raise
    except Refused:
        pass
    return None


def noted(files: Mapping[str, str], read: Reads = notes_of) -> dict[str, Known]:
    """The numbers of inputs with these series, as far as the notes beside these have them."""
    known: dict[str, Known] = {}
    for name, file in files.items():
        with contextlib.suppress(Refused):
            notes = read(file)
            if notes is not None and notes.smallest is not None and notes.largest is not None:
                known[name] = Known(notes.smallest, notes.largest)
    return known


def counted(files: Mapping[str, str], ticks: int) -> dict[str, Known]:
    """What is known of inputs with these series: also their marks in so many ticks."""
    return {name: known_of(rows_in(file), ticks) for name, file in files.items()}


def joined(some: Iterable[Mapping[str, Known]]) -> dict[str, Known]:
    """What is known of inputs of which one of these is known."""
    found: dict[str, Known] = {}
    for known in some:
        for name, one in known.items():
            other = found.get(name, one)
            least, greatest = min(one.least, other.least), max(one.greatest, other.greatest)
            found[name] = Known(least, greatest, max(one.marks, other.marks), one.ticks)
    return found


def overflow_of_files(path: str, scales: Mapping[str, int], each: Sequence[Mapping[str, str]]) -> Overflow | None:
    """The first overflow of the query in a file, if its inputs have one of these lists of series, all with the same scales. None also if
    the notes beside one don't have its numbers."""
    text = text_of(path)
    names = inputs_in(text)
    its = [{name: files[name] for name in names if name in files} for files in each]
    known = [noted(files) for files in its]
    if not names or any(len(one) < len(names) for one in known):
        return None
    ticks = longest_window(text) + 1
    return overflow_of(path, scales, joined(known), lambda: joined(counted(files, ticks) for files in its))


def longest_window(text: bytes) -> int:
    """How many ticks the longest window of a query has."""
    bodies = [statement.body for statement in statements_of(without_points(text)) if statement.body is not None]
    return max((node.high - node.low for body in bodies for node in walk(body) if node.form == "window"), default=0)


def known_of(rows: Iterable[Row], ticks: int) -> Known:
    """What is known of an input with these rows, which are in order: its marks in so many ticks."""
    held: collections.deque[int] = collections.deque()
    most, last, extremes = 0, None, Extremes()
    for start, end, value in rows:
        for edge in (end,) if start == last else (start, end):
            held.append(edge)
            while held[0] <= edge - ticks:
                held.popleft()
            most = max(most, len(held))
        last = end
        extremes.take(value)
    least, greatest = extremes.both
    return Known(least or 0, greatest or 0, max(1, most), ticks)
