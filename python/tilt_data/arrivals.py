"""Rows that arrive in pipes, as `tilt-live` prints them, and the last of them, which clients of a page are sent."""
from __future__ import annotations

import collections
import contextlib
import itertools
import os
import threading
from typing import Iterable, Iterator, NamedTuple

from .clock import TIMES
from .errors import Refused, note, printable, refused_at
from .files import HEADER, Values, failing_at, records, row_of, standard_input, whole

# A line of more bytes than this is bad.
LONGEST = 65536
# A row: start, end and value. While its end isn't known, that is None; the same row with its end follows.
Arrived = tuple[int, "int | None", int]


class Missed(NamedTuple):
    """What a client lacks: the rows as lines `SERIES,start,end,value`, in order within each series; the number of the last row; how many
    rows are no longer kept; and whether no more arrive."""

    rows: list[str]
    number: int
    left_out: int
    ended: bool


class Arrivals:
    """The last rows of each series. Each row that arrives has a number, from 1 on, in all series together. It takes the place of the same
    row without its end. Threads add rows, and others wait for them."""

    def __init__(self, series: int, keep: int) -> None:
        lock = threading.RLock()
        # The first is for new rows, of which there are many, and the second for the rest.
        self.arrived, self.changed = threading.Condition(lock), threading.Condition(lock)
        self.keep = keep
        self.kept: list[collections.deque[tuple[int, str]]] = [collections.deque() for _ in range(series)]
        self.lasts = [False] * series
        self.number = self.left_out = self.clients = 0
        self.reading = series
        self.failure: BaseException | None = None

    def add(self, series: int, row: Arrived) -> None:
        start, end, value = row
        kept = self.kept[series]
        with self.arrived:
            if self.lasts[series]:
                kept.pop()
            self.lasts[series] = end is None
            self.number += 1
            kept.append((self.number, f"{series},{start},{'' if end is None else end},{value}"))
            if len(kept) > self.keep:
                kept.popleft()
                self.left_out += 1
            self.arrived.notify_all()

    def end(self, failure: BaseException | None = None) -> None:
        """Notes that a series has ended, and what went wrong if something did."""
        with self.changed:
            self.reading -= 1
            self.failure = self.failure or failure
            self.arrived.notify_all()
            self.changed.notify_all()

    def wait(self) -> None:
        """Waits until all series have ended, or raises what went wrong."""
        with self.changed:
            self.changed.wait_for(lambda: self.failure is not None or not self.reading)
            if self.failure is not None:
                raise self.failure

    def wait_for_clients(self, seconds: float) -> None:
        """Waits until no client is there, but no longer than so many seconds."""
        with self.changed:
            self.changed.wait_for(lambda: not self.clients, seconds)

    def count_client(self, change: int) -> None:
        with self.changed:
            self.clients += change
            self.changed.notify_all()

    def after(self, number: int, seconds: float) -> Missed:
        """What a client lacks that has the rows up to a number. If that is nothing, it waits so many seconds at most for a row."""
        with self.arrived:
            self.arrived.wait_for(lambda: self.number > number or not self.reading, seconds)
            rows: list[str] = []
            for kept in self.kept:
                missed = itertools.takewhile(lambda row: row[0] > number, reversed(kept))
                rows += reversed([text for _, text in missed])
            return Missed(rows, self.number, self.left_out, not self.reading)


def read_arrivals(arrivals: Arrivals, series: int, file: str, is_printed: bool, values: Values) -> None:
    """Adds the rows of a file as they arrive. What goes wrong is noted as the failure of all."""
    shown = "standard input" if file == "-" else file
    try:
        with contextlib.ExitStack() as stack:
            number = standard_input().fileno() if file == "-" else stack.enter_context(open(file, "rb", buffering=0)).fileno()
            for row in rows_arriving(shown, lines_arriving(shown, number, is_printed), values):
                arrivals.add(series, row)
        arrivals.end()
    except OSError as error:
        arrivals.end(error if isinstance(error, BrokenPipeError) else Refused(f"{shown}: {error.strerror}"))
    except BaseException as error:
        arrivals.end(error)


def lines_arriving(shown: str, number: int, is_printed: bool) -> Iterator[str]:
    """The whole lines of an open file as they arrive. If they are to be printed, all that arrives is, before it is looked at. A last line
    without an end can be half a line: it is reported and left out."""
    last, count = b"", 0
    while text := os.read(number, 1 << 16):
        rest = memoryview(text if is_printed else b"")
        with failing_at("standard output"):
            while rest:
                # At once, past the buffer: a thread that is stopped while it holds that one would stop the command's end.
                rest = rest[os.write(1, rest) :]
        *lines, last = (last + text).split(b"\n")
        for line in lines:
            count += 1
            yield whole_line(shown, count, line).rstrip(b"\r").decode(errors="backslashreplace")
        whole_line(shown, count + 1, last)
    if last:
        note(f"{shown}: the last line has no end, and isn't drawn: {printable(last.decode(errors='backslashreplace')[:80])}")


def whole_line(shown: str, number: int, line: bytes) -> bytes:
    if len(line) > LONGEST:
        raise refused_at(shown, number, f"a line of at most {LONGEST} bytes was expected")
    return line


def rows_arriving(shown: str, lines: Iterable[str], values: Values) -> Iterator[Arrived]:
    """The rows of an output with a value. A row without its end is followed by the same row with it."""
    found = records(shown, lines)
    line, header = next(found, (1, []))
    if header != HEADER:
        raise refused_at(shown, line, "the header start,end,value was expected")
    before: int | None = None
    lasting: tuple[int, int | None] | None = None
    for line, record in found:
        lasts = has_no_end(record, values)
        start, end, value = row_of(shown, line, [record[0], str(TIMES), record[2]] if lasts else record, before, values)
        if lasting is not None and (lasts or (start, value) != lasting):
            raise refused_at(shown, line, f"the row from {lasting[0]} with its end was expected, not {','.join(record)}")
        lasting = (start, value) if lasts else None
        if not lasts:
            before = end
        if value is not None:
            yield start, None if lasts else end, value


def has_no_end(record: list[str], values: Values) -> bool:
    """Whether it is a row `start,,value`."""
    try:
        start, end, value = record
        values.read(value)
        return not end and whole(start) < TIMES
    except ValueError:
        return False
