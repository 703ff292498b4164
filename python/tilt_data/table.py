"""`tilt-data table`: outputs and series back to dates and decimals; also joined, as episodes, and side by side."""
from __future__ import annotations

import argparse
import csv
import dataclasses
import datetime
import decimal
import itertools
import os
from typing import IO, Any, Iterable, Iterator

from .clock import Clock, duration_of, zone_of
from .drawn import chained, joined, scales_of
from .errors import Refused, refused_at
from .files import HEADER, Extremes, Row, Values, notes_of, notes_of_like, notes_path, reading, records, row_of, rows_in, safe
from .files import same_file, writing
from .progress import shown
from .scales import decimal_text

HELP = """Prints outputs, or series, with dates and decimals. A series has its clock and its scale in the JSON file beside it. An output
has the clock of the series that --like names, and its values are as `tilt-data run` prints them, unless --scale is given. A row
start,end is the stretch of time from the first to the second; which of its ends belongs to it is the `closed` of the series. If
a file starts with key,start,end,value, as from `tilt-data by`, the key stays the first column."""


@dataclasses.dataclass
class Look:
    """How times and values are written: the clock, the zone (None for UTC), and what whole numbers are divided by; the SHA-256 that the
    file is to have, if its own notes say one; and how the values of an output are read."""

    clock: Clock
    zone: datetime.tzinfo | None
    divisor: int
    sha256: str | None = None
    values: Values | None = None
    known: tuple[int, str] | None = None

    @property
    def scale(self) -> int:
        """The scale of the rows that were read."""
        return self.divisor * (1 if self.values is None else self.values.scale)

    def time(self, tick: int) -> str:
        # Where a row ends the next one mostly begins.
        if self.known is None or self.known[0] != tick:
            self.known = tick, self.clock.text(tick, self.zone)
        return self.known[1]

    def value(self, value: int | None) -> str:
        return "" if value is None else decimal_text(value, self.scale)

    def check(self, others: Iterable[Look], what: str) -> None:
        if any((other.clock.tick, other.clock.origin) != (self.clock.tick, self.clock.origin) for other in others):
            raise Refused(what)


def add(commands: Any) -> None:
    parser = commands.add_parser("table", help="outputs back to dates and decimals", description=HELP)
    parser.add_argument("files", nargs="+", metavar="[NAME=]FILE", help="outputs of tilt or series; - for standard input")
    parser.add_argument("--like", metavar="SERIES", help="the series whose clock these files have")
    parser.add_argument(
        "--scale", action="append", metavar="[NAME=]N", default=[], help="values are divided by N: whole numbers as `tilt run` prints them"
    )
    parser.add_argument("--zone", help="the time zone of the dates (that of the series, or UTC)")
    parser.add_argument("--merge", action="store_true", help="join equal neighbours")
    parser.add_argument("--episodes", action="store_true", help="a row for each stretch of rows that follow one another")
    parser.add_argument("--gap", metavar="DURATION", help="with --episodes: stretches no farther apart are one")
    of = "with --episodes: the smallest, the largest and the mean value (weighted by time) of these in each episode"
    parser.add_argument("--of", nargs="+", action="extend", metavar="NAME=FILE", default=[], help=of)
    parser.add_argument("--wide", action="store_true", help="several files side by side, cut where one of them changes")
    parser.add_argument("-o", "--out", metavar="FILE", help="the file of the table (standard output)")
    parser.set_defaults(main=main)


def named(word: str) -> tuple[str, str]:
    """The name and the file of a word; the name is the file's own where none is given."""
    name, sign, file = word.partition("=")
    if sign and not os.path.exists(word):
        return name, file
    return os.path.splitext(os.path.basename(word))[0], word


class Looks:
    """How each file is written: by its own JSON file, or as the series that is named."""

    def __init__(self, words: argparse.Namespace) -> None:
        self.out: str | None = words.out
        self.like = None if words.like is None else notes_of_like(words.like)
        if words.like is not None:
            self.keep(words.like)
        self.zone = words.zone
        self.scales = scales_of(words.scale)
        # A scale of a name that no file has would change nothing.
        names = [named(word)[0] for word in [*words.files, *words.of]]
        for name in self.scales:
            if name and name not in names:
                raise Refused(f"--scale {name}=..: no file has this name; there are: {', '.join(names)}")

    def keep(self, file: str) -> None:
        """Rejects an output that would take the place of a file that is read, or of its notes."""
        for one in (file, notes_path(file)):
            if self.out is not None and os.path.isfile(self.out) and same_file(self.out, one):
                raise Refused(f"{self.out}: it is a file that is read, and would be written over: name another file by --out")

    def of(self, name: str, file: str) -> Look:
        self.keep(file)
        own = notes_of(file)
        notes = own or self.like
        if notes is None:
            raise Refused(f"{file}: its ticks and scale aren't known: no JSON file is beside it; --like SERIES names a series that has one")
        scale = self.scales.get(name, self.scales.get("", 1 if own is None else own.scale))
        return Look(
            notes.clock, zone_of(self.zone or notes.zone), scale, None if own is None else own.sha256, Values() if own is None else None
        )


def merged(rows: Iterable[Row]) -> Iterator[Row]:
    """Equal neighbours as one row."""
    return chained(rows, lambda one, other: (one[0], other[1], one[2]) if one[1:] == (other[0], other[2]) else None)


def main(words: argparse.Namespace) -> int:
    if words.of and not words.episodes or words.gap and not words.episodes:
        raise Refused("--of and --gap go with --episodes")
    if len(words.files) > 1 and not words.wide:
        raise Refused("several files were named: --wide prints them side by side")
    looks = Looks(words)
    with writing(words.out) as out:
        table = csv.writer(out, lineterminator="\n")
        table.writerows((wide if words.wide else episodes if words.episodes else plain)(words, looks))
    return 0


def plain(words: argparse.Namespace, looks: Looks) -> Iterator[list[str]]:
    """A row of text for each row, or for each stretch of equal neighbours; with the key as its first column where the file has one."""
    name, file = named(words.files[0])
    look = looks.of(name, file)
    with reading(file, sha256=look.sha256) as opened:
        keyed, groups = keyed_rows(file, opened, look.values)
        yield [*keyed, *HEADER]
        for key, rows in groups:
            for start, end, value in merged(rows) if words.merge else rows:
                yield [*key, look.time(start), look.time(end), look.value(value)]


def keyed_rows(file: str, opened: IO[str], values: Values | None) -> tuple[list[str], Iterator[tuple[list[str], Iterator[Row]]]]:
    """The head of the key, where the file has one, and the rows of each key that follow one another. Those of one key are in order."""
    found = records(file, opened)
    line, header = next(found, (1, [""]))
    if header not in (HEADER, ["key", *HEADER]):
        raise refused_at(file, line, "the header start,end,value or key,start,end,value was expected")

    def parsed() -> Iterator[tuple[list[str], Row]]:
        known: list[str] | None = None
        before: int | None = None
        for line, record in shown(found, "rows"):
            if len(record) != len(header):
                raise refused_at(file, line, f"{len(header)} fields were expected as in the header, not {len(record)}")
            key = record[:-3]
            row = row_of(file, line, record[-3:], before if key == known else None, values)
            known, before = key, row[1]
            yield key, row

    return header[:-3], ((key, (row for _, row in group)) for key, group in itertools.groupby(parsed(), lambda one: one[0]))


# Side by side


class Cursor:
    """The rows of one file, of which the one that isn't passed yet is at hand."""

    def __init__(self, rows: Iterator[Row]) -> None:
        self.rows = rows
        self.row = next(rows, None)

    def at(self, tick: int) -> tuple[int | None, int | None]:
        """The value after a tick, and the next tick at which it may change; ticks don't go back."""
        while self.row is not None and self.row[1] <= tick:
            self.row = next(self.rows, None)
        if self.row is None:
            return None, None
        return (self.row[2], self.row[1]) if self.row[0] <= tick else (None, self.row[0])


def pieces(cursors: list[Cursor]) -> Iterator[tuple[int, int, list[int | None]]]:
    """The stretches on which no file changes, and the value of each file there; those where all are null are left out."""
    tick = min((cursor.row[0] for cursor in cursors if cursor.row is not None), default=None)
    while tick is not None:
        found = [cursor.at(tick) for cursor in cursors]
        following = min((change for _, change in found if change is not None), default=None)
        if following is not None and any(value is not None for value, _ in found):
            yield tick, following, [value for value, _ in found]
        tick = following


def wide(words: argparse.Namespace, looks: Looks) -> Iterator[list[str]]:
    files = [named(word) for word in words.files]
    first, *others = shapes = [looks.of(name, file) for name, file in files]
    first.check(others, "these files have other ticks or origins: they have no common pieces")
    yield ["start", "end", *(name for name, _ in files)]
    opened = [rows_in(file, None, shape.sha256, shape.values) for (_, file), shape in zip(files, shapes)]
    cursors = [Cursor(merged(rows) if words.merge else rows) for rows in opened]
    for start, end, values in shown(pieces(cursors), "rows"):
        yield [first.time(start), first.time(end), *(shape.value(value) for shape, value in zip(shapes, values))]


# Episodes


@dataclasses.dataclass
class Within:
    """The rows of a series, of which those within each of several stretches in order are looked at."""

    rows: Iterator[Row]
    held: Row | None = None

    def figures(self, lo: int, hi: int) -> tuple[Extremes, int, int]:
        """The extreme values of the ticks in `(lo, hi]`, the sum over these ticks, and how many of them have a value."""
        extremes, total, ticks = Extremes(), 0, 0
        while (row := self.held or next(self.rows, None)) is not None:
            (start, end, value), self.held = row, row
            length = min(end, hi) - max(start, lo)
            if value is not None and length > 0:
                extremes.take(value)
                total, ticks = total + length * value, ticks + length
            if end > hi:
                break
            self.held = None
        return extremes, total, ticks


def mean_text(total: int, ticks: int, scale: int) -> str:
    """The mean, rounded half to even at two digits more than the scale has."""
    if not ticks:
        return ""
    digits = len(str(scale)) + 1
    mean = decimal.Context(prec=60).divide(decimal.Decimal(total), decimal.Decimal(ticks * scale))
    return str(mean.quantize(decimal.Decimal(1).scaleb(-digits), decimal.ROUND_HALF_EVEN, decimal.Context(prec=60)))


def length_text(clock: Clock, ticks: int) -> str:
    digits = clock.digits
    seconds, rest = divmod(ticks * clock.tick, 10**9)
    return f"{seconds}" + (f".{rest:09d}"[: digits + 1] if digits else "")


def episodes(words: argparse.Namespace, looks: Looks) -> Iterator[list[str]]:
    """A row of text for each stretch. Where the file has keys, {key} in a file of --of stands for the key."""
    name, file = named(words.files[0])
    look = looks.of(name, file)
    others = [named(word) for word in words.of]
    gap = 0 if words.gap is None else look.clock.ticks(duration_of(words.gap), "--gap")
    with reading(file, sha256=look.sha256) as opened:
        keyed, groups = keyed_rows(file, opened, look.values)
        yield [*keyed, "start", "end", "seconds", *(f"{other}_{what}" for other, _ in others for what in ("min", "max", "mean"))]
        for key, rows in groups:
            of_key = [(other, file_of(path, key[0]) if key else path) for other, path in others]
            for fields in episodes_of(rows, look, of_key, looks, gap):
                yield [*key, *fields]


def file_of(pattern: str, key: str) -> str:
    """The file of a key: as `series` names it, or by the key itself if only that is there."""
    path, plainly = (pattern.replace("{key}", text) for text in (safe(key), key))
    is_name = "/" not in key and key not in (".", "..")
    return plainly if is_name and not os.path.exists(path) and os.path.exists(plainly) else path


def episodes_of(rows: Iterator[Row], look: Look, others: list[tuple[str, str]], looks: Looks, gap: int) -> Iterator[list[str]]:
    shapes = [looks.of(*other) for other in others]
    look.check(shapes, "the files of --of have other ticks or origins than the episodes")
    within = [Within(rows_in(other, None, shape.sha256, shape.values)) for (_, other), shape in zip(others, shapes)]
    for start, end in joined(((start, end) for start, end, value in rows if value is not None), gap):
        fields = [look.time(start), look.time(end), length_text(look.clock, end - start)]
        for one, shape in zip(within, shapes):
            extremes, total, ticks = one.figures(start, end)
            fields += [*map(shape.value, extremes.both), mean_text(total, ticks, shape.scale)]
        yield fields
