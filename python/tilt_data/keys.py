"""One query for many keys in few runs: the readings of each key are moved to a stretch of time of their own, one after another.

What a query gives at a tick rests on its inputs from `back` ticks before it to `ahead` ticks after it (`tilt explain`), and a move by a
common multiple of all its periods changes nothing. So the stretches have so many ticks between them, and what the program prints in a
stretch is what it prints for the key alone. If that can't be, nothing is run: `Alone` says that each key needs a run of its own."""
from __future__ import annotations

import dataclasses
from typing import Any, Callable, Iterable, Iterator, NamedTuple

from .clock import TIMES
from .over import Extent, Over, edges_of
from .rows import RowArrays

# How many rows of an input a run has, about.
ROWS_OF_RUN = 1 << 19
# How many ticks are between stretches besides those that the query reads: a row there ends where its neighbour starts.
APART = 2
# How many times as long as its `over` the ticks may be that a query reads around it: they may have rows too.
MOST_AROUND = 4
# A run over the rows of some inputs, with another `over`.
Run = Callable[[dict[str, RowArrays], tuple[int, int]], RowArrays]


class Alone(Exception):
    """Each key needs a run of its own."""


class Stretch(NamedTuple):
    """Where a key is in a run: the `over` of its output, and by how many ticks it is moved."""

    start: int
    end: int
    moved: int


def readings_by_key(numbers: Any, count: int) -> tuple[list[int], Any]:
    """Of the number of the key of each reading: where the readings of each key begin if they are taken in the order that comes second,
    with the end of the last one. The order is stable in each key, and None if they have it."""
    import numpy

    sizes = numpy.bincount(numbers, minlength=count)
    order = None if (numbers[1:] >= numbers[:-1]).all() else numpy.argsort(numbers, kind="stable")
    return [0, *numpy.cumsum(sizes).tolist()], order


@dataclasses.dataclass
class Batches:
    """The runs of a query over the keys: how far it reads, its `over`, which is that of the data if it isn't given; and how far the rows
    of each input reach, over all keys."""

    run: Run
    reach: tuple[int, int]
    over: Over
    by_data: bool
    extents: dict[str, Extent] = dataclasses.field(default_factory=dict)

    def outputs(self, keys: Iterable[dict[str, RowArrays]]) -> Iterator[tuple[Stretch, RowArrays]]:
        """The output of each key, given the rows of its inputs, in order, with the stretch that it has."""
        stretches: list[Stretch] = []
        held: list[dict[str, RowArrays]] = []
        count, free = 0, 0
        for rows in keys:
            stretch = self.stretch_of(rows, free)
            stretches.append(stretch)
            # The output of a stretch can rest on no other rows.
            low, high = stretch.start - self.reach[0], stretch.end + self.reach[1]
            held.append({name: one.clipped(low, high).moved(stretch.moved) for name, one in rows.items()})
            free = high + stretch.moved
            count += max(map(len, rows.values()), default=0)
            if count >= ROWS_OF_RUN:
                yield from self.split(stretches, held)
                stretches, held, count, free = [], [], 0, 0
        if held:
            yield from self.split(stretches, held)

    def stretch_of(self, rows: dict[str, RowArrays], free: int) -> Stretch:
        """The stretch of a key from the tick `free` on."""
        for name, one in rows.items():
            self.extents.setdefault(name, Extent(self.over)).add(one)
        start, end = self.over.start, self.over.end
        if self.by_data:
            edges = edges_of(Extent.of([one]) for one in rows.values())
            if edges is None:
                raise Alone
            start, end = self.over.around(*edges)
        back, ahead = self.reach
        step = self.over.common or 1
        moved = -((start - back - free) // step) * step
        if end + ahead + moved > TIMES or back + ahead + step > MOST_AROUND * (end - start):
            raise Alone
        return Stretch(start, end, moved)

    def split(self, stretches: list[Stretch], held: list[dict[str, RowArrays]]) -> Iterator[tuple[Stretch, RowArrays]]:
        """Runs the query over some keys, and gives each what is printed in its stretch."""
        joined = {name: RowArrays.joined(rows[name] for rows in held) for name in held[0]}
        printed = self.run(joined, (stretches[0].start + stretches[0].moved, stretches[-1].end + stretches[-1].moved))
        for one in stretches:
            yield one, printed.clipped(one.start + one.moved, one.end + one.moved).moved(-one.moved)
