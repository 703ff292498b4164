"""The rows of a Series as arrays, by the conventions of `convert.py`, many at a time; and the rows of a file.

Ticks are 64-bit integers. If a time or a tick could be beyond the program's range, the arrays hold Python's integers until the caller has
found which row is."""
from __future__ import annotations

import dataclasses
import decimal
import itertools
from typing import Any, Iterable, Iterator

from . import digits
from .clock import TIMES, moment_text
from .convert import Converter
from .errors import Refused
from .files import HEADER, Row, rows_in
from .scales import decimal_text

# How many readings are converted at a time, so that what is made of them is in the processor's cache.
AT_ONCE = 1 << 15
# All whole numbers up to this one are floats, so that a division of two of them is rounded once.
EXACT_FLOATS = 2**53


@dataclasses.dataclass(frozen=True)
class RowArrays:
    """Rows as arrays of one length: their starts and ends in ticks, their values, and where they have one, None if all have."""

    starts: Any
    ends: Any
    values: Any
    known: Any = None

    def __len__(self) -> int:
        return len(self.starts)

    def text(self) -> bytes:
        return digits.rows_text(self.starts, self.ends, self.values, self.known)

    @staticmethod
    def of(rows: Iterable[Row]) -> RowArrays:
        import numpy

        there = list(rows)
        starts, ends = (numpy.fromiter((row[at] for row in there), "i8", len(there)) for at in (0, 1))
        values = numpy.fromiter((row[2] or 0 for row in there), "i8", len(there))
        known = numpy.fromiter((row[2] is not None for row in there), bool, len(there))
        return RowArrays(starts, ends, values, None if known.all() else known)

    @staticmethod
    def joined(parts: Iterable[RowArrays]) -> RowArrays:
        import numpy

        there = [part for part in parts if len(part)] or [RowArrays.of([])]
        if len(there) == 1:
            return there[0]
        starts, ends, values = (numpy.concatenate([getattr(part, name) for part in there]) for name in ("starts", "ends", "values"))
        if all(part.known is None for part in there):
            return RowArrays(starts, ends, values)
        known = [numpy.ones(len(part), bool) if part.known is None else part.known for part in there]
        return RowArrays(starts, ends, values, numpy.concatenate(known))

    def some(self, places: Any) -> RowArrays:
        return RowArrays(self.starts[places], self.ends[places], self.values[places], None if self.known is None else self.known[places])

    def blocks(self) -> Iterator[RowArrays]:
        return (self.some(slice(at, at + AT_ONCE)) for at in range(0, len(self), AT_ONCE))

    def moved(self, ticks: int) -> RowArrays:
        """The rows so many ticks later."""
        return RowArrays(self.starts + ticks, self.ends + ticks, self.values, self.known) if ticks else self

    def clipped(self, low: int, high: int) -> RowArrays:
        """The parts of the rows, which are in order, that lie in `(low, high]`."""
        import numpy

        near = self.some(slice(int(self.ends.searchsorted(low, "right")), int(self.starts.searchsorted(high, "left"))))
        return RowArrays(numpy.maximum(near.starts, low), numpy.minimum(near.ends, high), near.values, near.known)

    def merged(self) -> RowArrays:
        """The rows with equal neighbours as one row."""
        import numpy

        if not len(self):
            return self
        same = self.values[:-1] == self.values[1:]
        if self.known is not None:
            same = same & self.known[:-1] & self.known[1:] | ~self.known[:-1] & ~self.known[1:]
        changes = ~(same & (self.ends[:-1] == self.starts[1:]))
        first = self.some(numpy.insert(changes, 0, True))
        return dataclasses.replace(first, ends=self.ends[numpy.append(changes, True)])

    def filled(self, start: int, end: int) -> RowArrays:
        """The rows, which lie in `(start, end]` in order, with a row without a value for each gap between them and at both ends."""
        import numpy

        begins, stops = numpy.insert(self.ends, 0, start), numpy.append(self.starts, end)
        gaps = numpy.flatnonzero(begins < stops)
        if not len(gaps):
            return self
        known = numpy.ones(len(self), bool) if self.known is None else self.known
        starts, ends = numpy.insert(self.starts, gaps, begins[gaps]), numpy.insert(self.ends, gaps, stops[gaps])
        return RowArrays(starts, ends, numpy.insert(self.values, gaps, 0), numpy.insert(known, gaps, False))

    def shown(self, scale: int, exact: bool) -> Any:
        """The values divided by the scale, as an array, or a list if there are none: floats, Decimals if they are to be `exact`, and
        integers if the scale is 1 and each row has a value."""
        import numpy
        import pandas

        if not len(self) or self.known is not None and not self.known.any():
            return [None] * len(self)
        if exact:
            places, distinct = pandas.factorize(self.values)
            decimals = [decimal.Decimal(decimal_text(value, scale)) for value in distinct.tolist()]
            found = numpy.array([*decimals, None], object)[places]
            return found if self.known is None else numpy.where(self.known, found, None)
        if scale == 1 and self.known is None:
            return self.values
        divided = self.values / float(scale) if scale <= EXACT_FLOATS else numpy.empty(len(self))
        for place in numpy.flatnonzero((numpy.abs(self.values) > EXACT_FLOATS) | (scale > EXACT_FLOATS)):
            divided[place] = int(self.values[place]) / scale
        return divided if self.known is None else numpy.where(self.known, divided, numpy.nan)


def fits(tick: int, least: int, greatest: int) -> bool:
    """Whether 64 bits hold all that is on the way from moments to ticks, which are within the times that the program takes. Moments are
    from the origin on."""
    return -(2**63) < least and greatest < 2**63 and tick < 2**63 and -TIMES <= least // tick - 1 and greatest // tick <= TIMES


def rows_pushed(name: str, converter: Converter, moments: Any, values: Any, known: Any) -> Iterator[RowArrays]:
    """The rows that readings of an input end, as `Converter.push` has them; the last reading is held back. What the rule or the program
    rejects is a Refused, after the rows before it.

    `moments` are in nanoseconds, `values` whole numbers, and `known` is False where there is none, or None.
    """
    import numpy

    clock, rule = converter.clock, converter.rule
    if len(moments):
        least, greatest = int(moments.min()) - clock.origin, int(moments.max()) - clock.origin
        most = max(greatest, converter.start * clock.tick) + (len(moments) + max(1, rule.max_age or 0)) * clock.tick
        moments = moments if fits(clock.tick, least, greatest) and most // clock.tick <= TIMES else moments.astype(object)
    for at in range(0, len(moments), AT_ONCE):
        part = slice(at, at + AT_ONCE)
        some, own, there = moments[part], values[part], None if known is None else known[part]
        since = some - clock.origin
        starts = since // clock.tick if clock.closed == "left" else -(-since // clock.tick) - 1
        if converter.moment is not None:
            held = (converter.moment, some), (converter.start, starts), (converter.value or 0, own)
            some, starts, own = (numpy.concatenate([numpy.array([one], more.dtype), more]) for one, more in held)
            if there is not None or converter.value is None:
                there = numpy.concatenate([[converter.value is not None], numpy.ones(len(own) - 1, bool) if there is None else there])
        late = some[1:] < some[:-1]
        wrong = late | (starts[1:] <= starts[:-1]) if rule.ties == "refuse" else late
        end = 1 + int(wrong.argmax()) if wrong.any() else len(some)
        rows = rows_ended(converter, int(some[end - 1]), starts[:end], own[:end], None if there is None else there[:end])
        if len(rows) and not -TIMES <= rows.starts[0] <= rows.ends[-1] <= TIMES:
            raise beyond(name)
        yield dataclasses.replace(rows, starts=rows.starts.astype("i8", copy=False), ends=rows.ends.astype("i8", copy=False))
        if end < len(some):
            time = moment_text(int(some[end]), 9)
            what = f"two readings in one tick at {time}: ties='last', 'first' or 'spread', or a shorter tick"
            if late[end - 1]:
                what = f"the reading at {time} lies before the one before it: sort_index()"
            raise Refused(f"the input {name}: {what}")


def beyond(name: str) -> Refused:
    return Refused(f"the input {name}: a time is more than {TIMES} ticks from the origin: a longer tick=, or a nearer origin=")


def rows_ended(converter: Converter, moment: int, starts: Any, values: Any, known: Any) -> RowArrays:
    """The rows of readings that start at these ticks, in order, but the last one, which is at this moment: it is held back."""
    import numpy

    rule = converter.rule
    if rule.ties == "spread":
        places = numpy.arange(len(starts))
        starts = numpy.maximum.accumulate(starts - places) + places
    changes = starts[1:] != starts[:-1]
    if not changes.all():
        counts = numpy.append(changes, True) if rule.ties == "last" else numpy.insert(changes, 0, True)
        starts, values, known = starts[counts], values[counts], None if known is None else known[counts]
    converter.moment, converter.start = moment, int(starts[-1])
    converter.value = None if known is not None and not known[-1] else int(values[-1])
    ends = starts[1:] if rule.hold else starts[:-1] + 1
    if rule.hold and rule.max_age is not None:
        ends = numpy.minimum(starts[:-1] + rule.max_age, ends)
    return RowArrays(starts[:-1], ends, values[:-1], None if known is None or known[:-1].all() else known[:-1])


def marks_in(parts: Iterable[RowArrays], ticks: int) -> int:
    """How many marks are in any so many ticks at most, over the rows of an input in order."""
    import numpy

    edges = [numpy.column_stack([part.starts, part.ends]).ravel() for part in parts]
    steps = numpy.diff(numpy.concatenate(edges)) if edges else numpy.zeros(0, "i8")
    places = numpy.insert(numpy.cumsum(steps[steps > 0]), 0, 0)
    return int((places.searchsorted(places + ticks) - numpy.arange(len(places))).max())


def arrays_in(path: str) -> Iterator[RowArrays]:
    rows = rows_in(path)
    while some := list(itertools.islice(rows, AT_ONCE)):
        yield RowArrays.of(some)


def output_of(path: str) -> RowArrays:
    """The rows of an output of the program. All of it is in memory once."""
    import pandas

    try:
        found = pandas.read_csv(path, dtype="i8")
        if list(found.columns) == HEADER:
            return RowArrays(*(found[name].to_numpy() for name in HEADER))
    except (ValueError, OverflowError):
        # Read row by row, a file says where it is no output.
        pass
    return RowArrays.joined(arrays_in(path))
