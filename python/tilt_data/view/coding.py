"""Rows as texts in a page: columns of whole numbers, each as wide as it needs, packed and in base64.

The rows of a series are in blocks, which the page unpacks when it draws or reads them. Beside them is a summary of each series: of up to
64 rows in a row their extent, and the first, the least, the greatest and the last value."""
from __future__ import annotations

import array
import base64
import dataclasses
import heapq
import itertools
import operator
import sys
import zlib
from typing import Any, Iterable, Iterator, NamedTuple, Sequence

# How many rows a block has, and a summarized bucket at most.
BLOCK, BUCKET = 1 << 16, 64
# So many of the longest rows and gaps of a block have buckets of their own, if they are so many times as long as the average.
LONGEST, LONG = 128, 8
CODES = {1: "b", 2: "h", 4: "i", 8: "q"}
Plain = tuple[int, int, int]


def packed(columns: Sequence[Sequence[int]]) -> str:
    """The text of some columns: how many rows, the width of each column in bytes, and the columns, each from a multiple of 8 on."""
    arrays = [as_array(column) for column in columns]
    head = len(columns[0]).to_bytes(4, "little") + bytes(one.itemsize for one in arrays)
    data = b"".join(part + bytes(-len(part) % 8) for part in (head, *(one.tobytes() for one in arrays)))
    return base64.b64encode(zlib.compress(data, 6)).decode()


def as_array(column: Sequence[int]) -> array.array[int]:
    """Whole numbers in the narrowest signed type that has them all, little-endian. Beyond 64 bits they are taken modulo 2^64."""
    least, greatest = min(column), max(column)
    width = next((width for width in CODES if -(1 << 8 * width - 1) <= least and greatest < 1 << 8 * width - 1), 0)
    if not width:
        column, width = [(value + 2**63) % 2**64 - 2**63 for value in column], 8
    found = array.array(CODES[width], column)
    if sys.byteorder == "big":
        found.byteswap()
    return found


def times_of(starts: Sequence[int], ends: Sequence[int]) -> tuple[list[int], list[int]]:
    """Of each stretch how far it starts after the end of the one before, and its length."""
    return [0, *map(operator.sub, starts[1:], ends)], list(map(operator.sub, ends, starts))


@dataclasses.dataclass
class Block:
    """Some rows of a series in order, as columns."""

    starts: Sequence[int]
    ends: Sequence[int]
    values: Sequence[int]

    def text(self) -> str:
        """Of each row how far it starts after the end of the one before, its length, and by how much its value is more."""
        return packed([*times_of(self.starts, self.ends), [0, *map(operator.sub, self.values[1:], self.values)]])

    def buckets(self) -> Iterator[tuple[int, int]]:
        """Where the buckets of the block begin and end: none has more than BUCKET rows, and long rows and gaps are between two."""
        count = len(self.starts)
        cuts = {0, count, *range(0, count, BUCKET), *self.cuts_at_long(count)}
        return itertools.pairwise(sorted(cuts))

    def cuts_at_long(self, count: int) -> Iterator[int]:
        steps = [*map(operator.sub, self.starts[1:], self.starts), self.ends[-1] - self.starts[-1]]
        most = LONG * (self.ends[-1] - self.starts[0]) // count
        if max(steps) <= most:
            return
        for at in heapq.nlargest(LONGEST, range(count), key=steps.__getitem__):
            if steps[at] > most:
                yield at + 1
                # The row itself is long, and not the gap after it.
                if 2 * (self.ends[at] - self.starts[at]) > steps[at]:
                    yield at


class Bucket(NamedTuple):
    """Some rows of a block: their extent, how many they are, the first and the last value, and how far the least and the greatest are from
    the first."""

    start: int
    end: int
    rows: int
    first: int
    last: int
    below: int
    above: int


class Summary(list[Bucket]):
    """The buckets of a series."""

    def take(self, block: Block) -> None:
        for begin, end in block.buckets():
            values = block.values[begin:end]
            first, least, greatest = values[0], min(values), max(values)
            extent = block.starts[begin], block.ends[end - 1]
            self.append(Bucket(*extent, end - begin, first, values[-1], first - least, greatest - first))

    def text(self) -> str:
        """Of each bucket how far it starts after the one before, its length, its rows, how far its first value is above the last one before
        it, by how much its least and its greatest value differ from its first, and by how much the last is more than that."""
        starts, ends, counts, firsts, lasts, below, above = zip(*self)
        changes = [0, *map(operator.sub, firsts[1:], lasts)]
        return packed([*times_of(starts, ends), counts, changes, below, above, list(map(operator.sub, lasts, firsts))])


def blocks_of(rows: Iterable[Plain]) -> Iterator[Block]:
    rows = iter(rows)
    while part := list(itertools.islice(rows, BLOCK)):
        starts, ends, values = zip(*part)
        yield Block(starts, ends, values)


def fields_of(blocks: list[tuple[int, int, int]], summary: Summary, episodes: list[tuple[int, int]]) -> dict[str, Any]:
    """What the page has to know of a series beside its texts: of each block its rows, first start and first value; its least value; and of
    its episodes, if it has any, how many there are and the first start. Numbers that JavaScript doesn't read exactly are texts."""
    least = min((bucket.first - bucket.below for bucket in summary), default=0)
    return {
        "rows": sum(bucket.rows for bucket in summary),
        "base": str(least),
        "blocks": [[rows, str(start), str(value)] for rows, start, value in blocks],
        "episodes": [len(episodes), str(episodes[0][0])] if episodes else None,
    }
