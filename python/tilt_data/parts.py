"""Parts of an output domain: where it may be cut, the query of each part, and how their outputs are joined.

A cut is a tick inside of the domain, on the grid of the `emit`. A part ends at its cut, and the next one begins one grid step before it:
one tick where there is no grid. In that step the later part has the cells of the whole, and every mark but at its first tick, so that the
snapshot which holds the cut has its start from the earlier part and its end from the later one."""
from __future__ import annotations

import dataclasses
import os
from typing import IO, Callable, Iterable, NamedTuple

from .errors import Refused
from .files import HEADER_LINE, copy
from .grammar import MOST_TOKENS
from .over import Over, over_of
from .tokens import tokens_of

# No line of an output has more bytes.
LONGEST = 128


class Part(NamedTuple):
    """A part of a domain: its number from 1, and its stretch (start, end], in which the step before its cut is counted."""

    number: int
    start: int
    end: int


@dataclasses.dataclass(frozen=True)
class Domain(Over):
    """The output domain (start, end] of a query, and its text. No part may end below `least`."""

    whole: str
    least: int

    @staticmethod
    def of(text: str) -> Domain:
        over = over_of(text)
        # A minus before a bound is a token more: a statement that has all that it may have can't take it.
        tokens = tokens_of(text.encode())
        begin = max((at for at, token in enumerate(tokens[:-1], 1) if token.kind == ";"), default=0)
        full = len(tokens) - begin == MOST_TOKENS and over.end >= 0
        period = over.grid[0]
        least = over.start + period
        return Domain(**vars(over), whole=text, least=max(least, least - least // period * period) if full else least)

    @property
    def period(self) -> int:
        """The period of its grid, 1 if there is none."""
        return self.grid[0]

    def query(self, start: int, end: int) -> str:
        """The text of the query with another domain, whose bounds are grid points."""
        return self.moved(self.whole, start, end)

    def cut(self, tick: int) -> int | None:
        """The least tick, not below this one, at which the domain may be cut; None where there is none."""
        cut = self.start + -(-(tick - self.start) // self.period) * self.period
        cut = max(cut, self.least)
        return cut if cut < self.end else None

    def cuts(self, ticks: Iterable[int]) -> tuple[list[int], int]:
        """Cuts at these ticks or as soon after them as may be, and how many were moved. Where several come to one place, and where none
        may be any more, there are fewer."""
        wanted = list(ticks)
        moved = {tick: self.cut(tick) for tick in wanted}
        cuts = sorted({cut for cut in moved.values() if cut is not None})
        return cuts, sum(cut != tick for tick, cut in moved.items())

    def parts(self, cuts: list[int]) -> list[Part]:
        starts = [self.start, *(cut - self.period for cut in cuts)]
        return [Part(number, start, end) for number, (start, end) in enumerate(zip(starts, [*cuts, self.end]), 1)]


def join(parts: list[tuple[Part, str]], out: IO[bytes], check: Callable[[], None] = lambda: None) -> None:
    """Writes the output of the whole, given the parts in order and the file of what the program printed for each. `check` is called for
    each piece, and can raise an exception to stop.

    The last piece of a part ends at the cut, and the first piece of the next one begins where its stretch does. Null pieces aren't
    printed: so the last line of a part is its last piece where it ends at the cut, and else that was null; the first likewise. Both hold
    the tick of the cut, so that both are null or none is."""
    out.write(HEADER_LINE)
    held: bytes | None = None
    for part, path in parts:
        with open(path, "rb") as file:
            first = opened(file, path)
            if part.number > 1:
                first = crossed(held, first, part, path)
            held = copied(first, file, out, part.end if part is not parts[-1][0] else None, check)


def opened(file: IO[bytes], path: str) -> bytes:
    """The first line after the header; empty where there is none."""
    if file.readline() != HEADER_LINE:
        raise Refused(f"{path}: the output of a part was expected")
    return file.readline()


def crossed(held: bytes | None, first: bytes, part: Part, path: str) -> bytes:
    """The first line of a part with the start that its piece has in the parts before. The line is what it was where the piece is null."""
    begins = bool(first) and int(first.partition(b",")[0]) == part.start
    if not begins and held is None:
        return first
    if held is None or not begins or held.rpartition(b",")[2] != first.rpartition(b",")[2]:
        raise Refused(f"{path}: the part {part.number} doesn't fit to the one before it, at {part.start}: take both away and call again")
    return held.partition(b",")[0] + b"," + first.partition(b",")[2]


def copied(first: bytes, file: IO[bytes], out: IO[bytes], cut: int | None, check: Callable[[], None]) -> bytes | None:
    """Writes the first line and the rest of a file, except the last line if that ends at the cut: it is returned."""
    begin, end = file.tell(), os.fstat(file.fileno()).st_size
    last = first
    if begin < end:
        text = os.pread(file.fileno(), LONGEST, max(begin, end - LONGEST))
        last = text[text.rfind(b"\n", 0, len(text) - 1) + 1 :]
        out.write(first)
        out.flush()
        copy(file.fileno(), out.fileno(), begin, end - len(last), check)
    if last and cut is not None and int(last.split(b",")[1]) == cut:
        return last
    out.write(last)
    return None
