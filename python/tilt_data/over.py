"""The time range of a query's output, its `over`, and that of the data."""
from __future__ import annotations

import dataclasses
import math
from typing import Iterable, Iterator

from .files import Extremes, extent_of
from .grammar import statements_of
from .rows import RowArrays


@dataclasses.dataclass(frozen=True)
class Over:
    """The `over (start, end]` of a query's output: its ticks, the bytes of the query that each of both ends has, and the grid that they
    are on. `common` is a number of ticks by which the whole query can be moved in time, None if a definition has an `over` of its own."""

    start: int
    end: int
    places: tuple[tuple[int, int], tuple[int, int]]
    grid: tuple[int, int]
    common: int | None

    @property
    def text(self) -> str:
        return f"over ({self.start}, {self.end}]"

    def around(self, first: int, last: int) -> tuple[int, int]:
        """The smallest range of ticks on the grid that has those from `first`, which isn't in it, to `last`."""
        period, offset = self.grid
        start = first - (first - offset) % period
        return start, max(start + period, last + (offset - last) % period)

    def moved(self, query: str, start: int, end: int) -> str:
        """The query with another range."""
        text = query.encode()
        (first, after), (last, rest) = self.places
        return (text[:first] + b"%d" % start + text[after:last] + b"%d" % end + text[rest:]).decode()


def over_of(query: str) -> Over:
    """The `over` of a query that the program takes."""
    *others, emit = statements_of(query.encode())
    (start, first), (end, last) = emit.bounds
    is_free = not any(statement.bounds for statement in others)
    common = math.lcm(*(statement.period[0] for statement in [*others, emit])) if is_free else None
    return Over(start, end, ((first.begin, first.end), (last.begin, last.end)), (emit.period[0], emit.offset[0]), common)


@dataclasses.dataclass
class Extent:
    """How far the rows of a Series reach: how many there are, how many of them aren't in the `over` of the query at all, the start of the
    first and the end of the last one, and its smallest and largest number. A Series without rows has none of these."""

    over: Over | None = None
    rows: int = 0
    outside: int = 0
    first: int | None = None
    last: int | None = None
    extremes: Extremes = dataclasses.field(default_factory=Extremes)

    @staticmethod
    def of(parts: Iterable[RowArrays]) -> Extent:
        extent = Extent()
        for part in parts:
            extent.add(part)
        return extent

    def add(self, part: RowArrays) -> None:
        if not len(part):
            return
        first, last = int(part.starts.min()), int(part.ends.max())
        self.rows += len(part)
        values = part.values if part.known is None else part.values[part.known]
        for value in (values.min(), values.max()) if len(values) else ():
            self.extremes.take(int(value))
        self.first = first if self.first is None else min(first, self.first)
        self.last = last if self.last is None else max(last, self.last)
        if self.over is not None and (first < self.over.start or last > self.over.end):
            self.outside += int(((part.ends <= self.over.start) | (part.starts >= self.over.end)).sum())

    def texts(self, parts: Iterable[RowArrays]) -> Iterator[bytes]:
        """The lines of rows, which are counted as they pass."""
        for part in parts:
            self.add(part)
            yield part.text()


def edges_of(extents: Iterable[Extent]) -> tuple[int, int] | None:
    """The ticks over which any of these have rows; None if none has."""
    return extent_of((one.first, one.last) for one in extents if one.first is not None and one.last is not None)


def cut_note(over: Over, extents: dict[str, Extent]) -> str | None:
    """A note of the rows that aren't in the `over` of a query, by the name of each input; None if it has all of them."""
    texts = [
        f"{one.outside} of {one.rows} rows of {name}, which reach over ({one.first}, {one.last}]"
        for name, one in extents.items()
        if one.outside
    ]
    if not texts:
        return None
    return f"{over.text} leaves out {'; '.join(texts)}: over='data' takes all, and over='query' says that this is meant"
