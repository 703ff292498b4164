"""The works of tools/measure/work.py by pandas. The words are the work and its files. Numbers are exact up to 2**53."""
from __future__ import annotations

import sys
from typing import Callable

import numpy
import pandas
from pandas.api.indexers import BaseIndexer

END = 8_000_000
FAR = 4_500_000_000_000_000_000
# The ends of snapshots, each of which begins where the one before it ends, and their values.
Snaps = tuple[numpy.ndarray, numpy.ndarray]


def read(path: str) -> pandas.DataFrame:
    return pandas.read_csv(path, dtype="int64")


def filled(rows: pandas.DataFrame) -> Snaps:
    """Rows as snapshots: each gap is one without a value."""
    ends = numpy.unique(numpy.concatenate([rows["start"], rows["end"], [FAR]]))
    at = numpy.searchsorted(ends, rows["end"])
    values = numpy.full(len(ends), numpy.nan)
    values[at] = rows["value"]
    return ends, values


def at(snaps: Snaps, positions: numpy.ndarray, back: int = 0) -> numpy.ndarray:
    """What the snapshots had so many ticks before, at the ticks after the positions."""
    ends, values = snaps
    return values[numpy.searchsorted(ends, positions - back, side="right")]


def starts_of(ends: numpy.ndarray) -> numpy.ndarray:
    return numpy.concatenate([[-FAR], ends[:-1]])


def boundaries(*ends: numpy.ndarray) -> numpy.ndarray:
    joined = numpy.unique(numpy.concatenate(ends))
    return numpy.append(joined[joined < FAR - 1000], FAR)


def combined(readings: list[tuple[Snaps, int]], rule: Callable[..., numpy.ndarray]) -> Snaps:
    ends = boundaries(*(snaps[0] + back for snaps, back in readings))
    starts = starts_of(ends)
    return ends, rule(*(at(snaps, starts, back) for snaps, back in readings))


def every(period: int, snaps: Snaps) -> Snaps:
    """Snapshots on a grid: at each tick what they are at the next grid point."""
    ends = boundaries(snaps[0] // period * period)
    return ends, at(snaps, starts_of(ends) + period - 1)


class Between(BaseIndexer):
    """Windows from one place to another, which are given."""

    def get_window_bounds(
        self,
        num_values: int = 0,
        min_periods: int | None = None,
        center: bool | None = None,
        closed: str | None = None,
        step: int | None = None,
    ) -> tuple[numpy.ndarray, numpy.ndarray]:
        return self.first, self.after


class Window:
    """The snapshots with a tick among the last so many: where the window changes, and which it has there."""

    def __init__(self, snaps: Snaps, width: int) -> None:
        ends, self.values = snaps
        self.ends = boundaries(ends, ends[ends < FAR - width] + width - 1)
        starts = starts_of(self.ends)
        self.first = numpy.searchsorted(ends + width - 1, starts, side="right")
        self.after = numpy.searchsorted(ends, starts, side="right") + 1

    def sums(self) -> tuple[numpy.ndarray, numpy.ndarray]:
        """The sum of each window, and how many members it has."""
        known = ~numpy.isnan(self.values)
        totals = numpy.concatenate([[0], numpy.cumsum(numpy.where(known, self.values, 0))])
        counts = numpy.concatenate([[0], numpy.cumsum(known)])
        return totals[self.after] - totals[self.first], counts[self.after] - counts[self.first]

    def rolling(self) -> pandas.core.window.Rolling:
        padded = numpy.full(len(self.ends), numpy.nan)
        padded[: len(self.values)] = self.values
        return pandas.Series(padded).rolling(Between(first=self.first, after=self.after), min_periods=1)

    def sum(self) -> Snaps:
        total, count = self.sums()
        return self.ends, numpy.where(count > 0, total, numpy.nan)

    def average(self) -> Snaps:
        total, count = self.sums()
        return self.ends, numpy.where(count > 0, numpy.trunc(total / numpy.maximum(count, 1)), numpy.nan)

    def greatest(self) -> Snaps:
        return self.ends, self.rolling().max().to_numpy()

    def least(self) -> Snaps:
        return self.ends, self.rolling().min().to_numpy()


def put(ends: numpy.ndarray, values: numpy.ndarray) -> None:
    """Prints the snapshots on the domain."""
    starts = numpy.maximum(starts_of(ends), 0)
    table = pandas.DataFrame({"start": starts, "end": numpy.minimum(ends, END), "value": values})
    table = table[(starts < END) & (ends > 0)].dropna()
    table.astype({"value": "int64"}).to_csv(sys.stdout, index=False)


def joined(x: numpy.ndarray, y: numpy.ndarray) -> numpy.ndarray:
    no_x, no_y = numpy.isnan(x), numpy.isnan(y)
    both = numpy.trunc((3 * x - 2 * numpy.where(no_y, 5, y) + 1) / 7) + numpy.fmod(x, 11)
    both = both - numpy.fmod(8 * (x - numpy.where(no_y, x, y)), 13)
    return numpy.where(x == y, numpy.nan, numpy.where(no_x, y * 2 - 1, both))


def copy(x: str) -> None:
    put(*filled(read(x)))


def pointwise(x: str, y: str) -> None:
    put(*combined([(filled(read(x)), 0), (filled(read(y)), 0)], joined))


def slide_sum(x: str) -> None:
    put(*Window(filled(read(x)), 4_000_000).sum())


def slide_max(x: str) -> None:
    put(*Window(filled(read(x)), 4_000_000).greatest())


def grid(x: str, limit: str) -> None:
    """For rows of one tick."""
    rows = read(x)
    cells = rows["value"].groupby(rows["start"] // 10 * 10)
    average = cells.sum() // cells.count()
    starts = average.index.to_numpy()
    above = average.to_numpy() - at(filled(read(limit)), starts + 9)
    table = pandas.DataFrame({"start": starts, "end": starts + 10, "value": above})[above > 0]
    table.astype({"value": "int64"}).to_csv(sys.stdout, index=False)


def choice(
    change: numpy.ndarray, level: numpy.ndarray, swing_before: numpy.ndarray, level_before: numpy.ndarray, swing: numpy.ndarray
) -> numpy.ndarray:
    chosen = numpy.where(change > 0, level + swing_before, swing - level_before)
    return numpy.where(numpy.isnan(change), numpy.nan, chosen)


def six(x: str, y: str) -> None:
    rows = filled(read(x))
    change = combined([(rows, 0), (rows, 5)], lambda now, before: now - before)
    level = every(10, Window(filled(read(y)), 60).average())
    changes = Window(change, 40)
    swing = every(10, (changes.ends, changes.greatest()[1] - changes.least()[1]))
    total = every(10, Window(combined([(change, 0), (level, 0), (swing, 3), (level, 10), (swing, 0)], choice), 30).sum())
    put(*combined([(total, 0), (rows, 0)], lambda total, x: numpy.where(total > 0, total - x, numpy.nan)))


if __name__ == "__main__":
    works = {"copy": copy, "pointwise": pointwise, "slide_sum": slide_sum, "slide_max": slide_max, "grid": grid, "six": six}
    works[sys.argv[1]](*sys.argv[2:])
