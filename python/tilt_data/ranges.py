"""Series files as ranges of bytes: where in a file the rows of some ticks are. The rows are in order, so they are found by bisection, and
no other byte of the file is read here.

A row is found as a line. A file in which it can't be, for example with quotes or with CR alone at the end of its lines, is written plainly
to a folder once (`plain_of`). A file is known by its stamp (`stamp_of`), and none of its bytes are digested."""
from __future__ import annotations

import contextlib
import glob
import hashlib
import os
import re
import time
from typing import Callable, Iterable, Iterator, NamedTuple, Sequence

from .clock import TIMES
from .errors import Refused
from .files import HEADER_LINE, placed, rows_in

# How many bytes at the start and at the end of a file hold its first and its last row, and how many hold a row, mostly.
EDGE, LINE = 1 << 12, 1 << 7
# The order of a file's rows is checked at so many places, and no two are nearer than so many bytes.
PLACES, NEAREST = 64, 1 << 9
# How long after the last change of a file, in nanoseconds, a change gives other times: where the times have fractions of a microsecond,
# and elsewhere.
FINE, COARSE = 5 * 10**7, 3 * 10**9
MARK = b"\xef\xbb\xbf"
# A row as the program takes it: numbers are an optional sign and ASCII digits, and only the value may be empty.
ROW = re.compile(rb"([+-]?[0-9]+),([+-]?[0-9]+),(?:[+-]?[0-9]+)?\r?\n?")
# After the end of a line and empty lines, the next line and its end.
NEXT = re.compile(rb"\n[\r\n]*([^\r\n][^\n]*)(\n?)")
Stamp = tuple[int, int, int, int]
Times = tuple[int, int]
Check = Callable[[], None]


class Series(NamedTuple):
    """A series file that has rows: its stamp, which is settled; the plain file that is read, which is the series itself or a copy; the
    first byte of its rows and the one after the last; the start and the end of the first and of the last row; and how many bytes a row
    has, about."""

    path: str
    stamp: Stamp
    file: str
    begin: int
    end: int
    first: Times
    last: Times
    width: float


class Range(NamedTuple):
    """Rows of a series that stand together: their first byte, and the one after the last."""

    series: Series
    begin: int
    end: int


class Row(NamedTuple):
    """A row in a file: its first byte, the one after its line, its start and its end."""

    begin: int
    after: int
    start: int
    end: int


class Piece(NamedTuple):
    """Some rows: the start of the first one, the end of the last one, and about how many they are."""

    first: int
    last: int
    rows: float


class NotPlain(Refused):
    """A file in which rows can't be found as lines."""

    def __init__(self, path: str) -> None:
        super().__init__(f"{path}: rows in order were expected")
        self.path = path


def stamp_of(path: str) -> Stamp:
    """What changes when the content of a file does: its size, the times of its last change in nanoseconds (mtime and ctime), and its inode.
    `cp -p`, `rsync -t` and `touch` set the mtime, but no program sets the ctime, so that a file of the same size with its old mtime is
    noticed. The device isn't in it, since machines number the device of a shared disk differently.

    Not noticed: content of the same size that is written to a file within the same tick of the file system's clock (on Linux some
    milliseconds) in which the stamp was taken, which `is_settled` excludes; and changes on a file system that keeps no ctime, or after
    the clock was set back to the same nanosecond."""
    try:
        found = os.stat(path)
    except OSError as error:
        raise Refused(f"{path}: {error.strerror}") from error
    return found.st_size, found.st_mtime_ns, found.st_ctime_ns, found.st_ino


def is_settled(stamp: Stamp, now: int) -> bool:
    """Whether a stamp that was taken at this time, in nanoseconds, shows each later change of the file: the last change is so long ago that
    a later one is in another tick of the file system's clock, and gives another ctime. The clock of a file system on another machine
    has to agree with the one here."""
    return stamp[2] + (FINE if stamp[2] % 1000 else COARSE) <= now


def settled_stamp(path: str) -> Stamp:
    """The stamp of a file once it is settled. A file that is written to all the time, or has a time in the future, is rejected."""
    for _ in range(2 * COARSE // FINE):
        now, stamp = time.time_ns(), stamp_of(path)
        if is_settled(stamp, now):
            return stamp
        time.sleep(FINE / 10**9)
    raise Refused(f"{path}: it is written to, or the clock of its file system is ahead of the one here: call again later")


def check_stamp(series: Series) -> None:
    """Raises a Refused if the file of a series was changed since its stamp was taken."""
    if stamp_of(series.path) != series.stamp:
        raise changed(series.path)


def changed(path: str) -> Refused:
    return Refused(f"{path}: it was changed while the call ran: call again")


# A file by its first and its last row


def series_of(path: str, folder: str) -> Series | None:
    """What is known of a file; None if it has no rows. The folder has the plain copies."""
    stamp = settled_stamp(path)
    try:
        return by_its_ends(path, path, stamp)
    except NotPlain:
        return plain_of(path, stamp, folder)


def by_its_ends(file: str, path: str, stamp: Stamp) -> Series | None:
    with opened(file, path) as handle:
        size = os.fstat(handle).st_size
        head = os.pread(handle, EDGE, 0)
        tail = os.pread(handle, EDGE, size - EDGE) if size > EDGE else b""
    header, _, rows = head.partition(b"\n")
    if header.removeprefix(MARK).removesuffix(b"\r") + b"\n" != HEADER_LINE:
        raise NotPlain(path)
    if not (rows + tail).strip(b"\r\n") and size <= EDGE:
        return None
    first = times_of(rows.lstrip(b"\r\n").partition(b"\n")[0])
    ending = (tail or rows).rstrip(b"\r\n")
    last = times_of(ending[ending.rfind(b"\n") + 1 :])
    if first is None or last is None:
        raise NotPlain(path)
    if first[0] > last[0]:
        raise fault_in(path)
    # Without what may be half a line.
    lines = rows[: rows.rfind(b"\n") + 1] + tail.partition(b"\n")[2] if tail else rows.removesuffix(b"\n") + b"\n"
    return Series(path, stamp, file, len(header) + 1, size, first, last, len(lines) / max(1, lines.count(b"\n")))


def plain_of(path: str, stamp: Stamp, folder: str, check: Check = lambda: None) -> Series | None:
    """The plain copy of a file, which is written to the folder if it isn't there. `check` is called for each row, and can raise an
    exception. A file that can't be a series raises a Refused with the line."""
    from .convert import row_text

    name = os.path.join(folder, digest_of(path.encode(errors="surrogateescape")))
    copy = f"{name}-{digest_of(str(stamp).encode())[:16]}.csv"
    if not os.path.exists(copy):
        with placed(copy) as new:
            new.write(HEADER_LINE)
            for row in rows_in(path):
                check()
                new.write(row_text(row).encode())
            if stamp_of(path) != stamp:
                raise changed(path)
        for old in glob.glob(f"{glob.escape(name)}-*.csv"):
            if old != copy:
                os.unlink(old)
    return by_its_ends(copy, path, stamp)


def digest_of(data: bytes) -> str:
    return hashlib.sha256(data).hexdigest()[:32]


def fault_in(path: str) -> Refused:
    """The first fault of a file whose rows aren't in order."""
    for _ in rows_in(path):
        pass
    return NotPlain(path)


def times_of(line: bytes) -> Times | None:
    """The start and the end in a line; None if it is no row that the program can take."""
    row = ROW.fullmatch(line)
    try:
        times = (int(row[1]), int(row[2])) if row is not None else None
    except ValueError:
        # More digits than Python takes.
        return None
    return times if times is not None and -TIMES <= times[0] < times[1] <= TIMES else None


def in_order(files: Iterable[Series]) -> list[Series]:
    """The files of one input in the order of their rows. Two that overlap are rejected."""
    ordered = sorted(files, key=lambda one: one.first)
    for one, other in zip(ordered, ordered[1:]):
        if other.first[0] < one.last[1]:
            ends = f"before those of {one.path} end, at {one.last[1]}"
            raise Refused(f"{other.path}: its rows begin at {other.first[0]}, {ends}: the files of an input may not overlap")
    return ordered


def meeting(files: Sequence[Series], low: int, high: int) -> tuple[Series, ...]:
    """Those of these files that reach into the ticks (low, high]; none if there are no such ticks."""
    return tuple(one for one in files if one.last[1] > low and one.first[0] < high) if low < high else ()


# The rows in a file


@contextlib.contextmanager
def opened(file: str, path: str) -> Iterator[int]:
    """The descriptor of a file. Errors have the name of the series."""
    try:
        handle = os.open(file, os.O_RDONLY | os.O_CLOEXEC)
    except OSError as error:
        raise Refused(f"{path}: {error.strerror}") from error
    try:
        yield handle
    finally:
        os.close(handle)


def row_after(handle: int, series: Series, at: int) -> Row | None:
    """The first row that starts at this byte or after it; None if there is none."""
    length = LINE
    while at < series.end:
        wanted = min(length, series.end - at + 1)
        data = os.pread(handle, wanted, at - 1)
        if len(data) < wanted:
            raise changed(series.path)
        found, is_rest = NEXT.search(data), at - 1 + wanted == series.end
        if found is not None and (found[2] or is_rest):
            times = times_of(found[1])
            if times is None:
                raise NotPlain(series.path)
            return Row(at - 1 + found.start(1), at - 1 + found.end(), *times)
        if is_rest:
            break
        length *= 8
    return None


def first_that(handle: int, series: Series, holds: Callable[[Row], bool]) -> int:
    """The byte at which the rows start for which this holds, if it holds for none before them. The rows beside that byte have been read."""
    low, high = series.begin, series.end
    while low < high:
        middle = (low + high) // 2
        row = row_after(handle, series, middle)
        if row is None or holds(row):
            high = middle
        else:
            low = row.after
    return low


def range_of(series: Series, low: int, high: int) -> Range:
    """The rows with a tick in (low, high]. No row is between those of two stretches that meet, even if the rows aren't in order, for the
    bisections go the same way up to a row that both have."""
    begin, end = series.begin, series.end
    if series.first[1] <= low or series.last[0] >= high:
        with opened(series.file, series.path) as handle:
            if series.first[1] <= low:
                begin = first_that(handle, series, lambda row: row.end > low)
            if series.last[0] >= high:
                end = first_that(handle, series, lambda row: row.start >= high)
    return Range(series, begin, end)


def is_all(part: Range) -> bool:
    """Whether a range has all rows of its file."""
    return (part.begin, part.end) == (part.series.begin, part.series.end)


def pieces_of(part: Range, rows_of_part: int, count: int) -> list[Piece]:
    """The rows of a range in pieces, of which so many have about so many rows. Their order is checked at the edges of pieces, in the whole
    file."""
    series, rows = part.series, list[Row]()
    step = max(NEAREST, int(min(rows_of_part * series.width / count, (series.end - series.begin) / PLACES)))
    with opened(series.file, series.path) as handle:
        row = row_after(handle, series, series.begin)
        while row is not None:
            if rows and row.start < rows[-1].end:
                raise fault_in(series.path)
            rows.append(row)
            row = row_after(handle, series, max(row.after, row.begin + step))
        edges = [(one.begin, one.start) for one in rows] + [(series.end, series.last[1])]
        found = []
        for (begin, first), (end, last) in zip(edges, edges[1:]):
            begin, end = max(begin, part.begin), min(end, part.end)
            if begin < end:
                # Of a long piece in its middle: at its begin the rows can be shorter, as those of the first ticks are.
                at = begin if end - begin <= 2 * EDGE else (begin + end) // 2
                data = os.pread(handle, min(EDGE, end - at), at)
                lines = data[data.find(b"\n") + 1 if at > begin else 0 : data.rfind(b"\n") + 1] or data
                found.append(Piece(first, last, max(1, lines.count(b"\n")) * (end - begin) / len(lines)))
    return found


# Where to cut


def ticks_by_rows(pieces: list[Piece], count: int) -> list[int]:
    """The ticks that part the rows of these pieces into so many parts of about as many rows each, in order. Rows are taken as spread
    evenly over their piece: a gap between pieces has none."""
    edges = sorted({tick for piece in pieces for tick in (piece.first, piece.last)})
    each = sum(piece.rows for piece in pieces) / count
    coming = sorted(pieces, key=lambda piece: piece.first)
    active: list[Piece] = []
    ticks: list[int] = []
    passed, at = 0.0, 0
    for left, right in zip(edges, edges[1:]):
        active = [piece for piece in active if piece.last > left]
        while at < len(coming) and coming[at].first <= left:
            active += [coming[at]] if coming[at].last > left else []
            at += 1
        gained = sum(piece.rows / (piece.last - piece.first) for piece in active) * (right - left)
        while len(ticks) < count - 1 and passed + gained >= each * (len(ticks) + 1) - 1e-9 and gained > 0:
            share = (each * (len(ticks) + 1) - passed) / gained
            ticks.append(max(left, min(right, left + round((right - left) * share))))
        passed += gained
    return ticks
