"""What `plot` and `view` draw: their arguments, the files in panels, the stretch of time, and rows as they are drawn."""
from __future__ import annotations

import argparse
import dataclasses
import os
import re
from typing import Callable, Iterable, Iterator, TypeVar

from .clock import TIMES, WHOLE, Clock
from .errors import Refused
from .files import Notes, Row, Values, notes_of, rows_in, spooled

T = TypeVar("T")
WORD = re.compile(r"(\+?)(?:(band|limit|dots):)?([^=]+)=(.+)")
# What no XML file can have, and what no font shows; a line end is allowed.
UNPRINTABLE = re.compile("[\x00-\x09\x0b-\x1f\x7f-\x9f\ud800-\udfff\ufffe\uffff]")


@dataclasses.dataclass
class Drawn:
    """What is drawn: a name, its file, how (`step`, `dots`, `limit`, `band`), its clock and what whole numbers are divided by, its unit,
    the SHA-256 that its JSON file has, how the values of an output are read, and the copy of the file if it is a pipe."""

    name: str
    file: str
    form: str
    notes: Notes | None
    divisor: int
    unit: str = ""
    sha256: str | None = None
    values: Values | None = None
    copy: str | None = None

    @property
    def scale(self) -> int:
        """The scale of the rows that were read."""
        return self.divisor * (1 if self.values is None else self.values.scale)

    def rows(self) -> Iterator[Row]:
        """The rows of the file. One that the program rejects, and a file that isn't the one of its JSON file, is a Refused."""
        return rows_in(self.copy or self.file, self.file, self.sha256, self.values)


def add_drawn(parser: argparse.ArgumentParser, has_end: bool = True) -> None:
    """The arguments that say what is drawn. What is still arriving has no end."""
    parser.add_argument("words", nargs="+", metavar="[+][band:|limit:|dots:]NAME=FILE")
    parser.add_argument("--from", dest="begin", metavar="TIME", help="the begin of the picture: ISO 8601, or a tick")
    if has_end:
        parser.add_argument("--to", dest="end", metavar="TIME", help="its end")
    parser.set_defaults(end=None)
    parser.add_argument("--like", metavar="SERIES", help="the series whose clock the files without a JSON file have")
    parser.add_argument(
        "--scale", action="append", metavar="[NAME=]N", default=[], help="values are divided by N: whole numbers as `tilt run` prints them"
    )
    parser.add_argument("--unit", action="append", metavar="NAME=TEXT", default=[], help="the unit of values, such as temperature=°C")
    parser.add_argument("--zone", help="the time zone of the axis")
    parser.add_argument("--title", help="a title above it")


class Picture:
    """What is drawn: the files in panels; the ticks of --from and --to, None for one that isn't given; the one clock of all files, None if
    none is known; and the name of the axis's time zone, None for UTC: that of --zone, else of the notes."""

    def __init__(self, words: argparse.Namespace) -> None:
        self.words = words
        self.panels = panels_of(words)
        self.all = [one for panel in self.panels for one in panel]
        notes = [one.notes for one in self.all if one.notes is not None]
        if len({(one.clock.tick, one.clock.origin) for one in notes}) > 1:
            raise Refused("these files have other ticks or origins: they have no common axis")
        self.clock: Clock | None = notes[0].clock if notes else None
        self.zone: str | None = words.zone or (notes[0].zone if notes else None)
        lo, hi = (None if text is None else tick_of(text, self.clock, words.zone) for text in (words.begin, words.end))
        self.given = lo, hi

    def copy_pipes(self, folder: str) -> None:
        """Copies standard input and other pipes to the folder: a file can be read more than once."""
        copies: dict[str, str] = {}
        for one in self.all:
            if one.file not in copies:
                place = os.path.join(folder, str(len(copies)))
                os.mkdir(place)
                copies[one.file] = spooled(one.file, place)
            one.copy = copies[one.file]

    def stretch(self, extent: tuple[int, int] | None) -> tuple[int, int]:
        """The stretch of ticks that is drawn: what is given, else the extent of all rows."""
        lo, hi = self.given
        lo = (extent[0] if extent is not None else 0) if lo is None else lo
        hi = (extent[1] if extent is not None else lo + 1) if hi is None else hi
        if lo >= hi:
            raise Refused("there is nothing between --from and --to")
        return lo, hi


def panels_of(words: argparse.Namespace) -> list[list[Drawn]]:
    like = None if words.like is None else notes_of(words.like)
    units, scales = units_of(words.unit), scales_of(words.scale)
    panels: list[list[Drawn]] = []
    # A file that is drawn twice is read once.
    values: dict[str, Values] = {}
    for word in words.words:
        found = WORD.fullmatch(word)
        if found is None or found[1] and not panels:
            raise Refused(f"{word!r}: NAME=FILE was expected, and + only after a panel")
        own = notes_of(found[4])
        notes = own or like
        scale = scales.get(found[3], scales.get("", 1 if own is None else own.scale))
        # What isn't the series itself has its clock alone, and holds.
        form = found[2] or ("dots" if own is not None and own.kind == "event" else "step")
        sha256 = None if own is None else own.sha256
        read = values.setdefault(found[4], Values()) if own is None else None
        if not found[1]:
            panels.append([])
        panels[-1].append(Drawn(printable(found[3]), found[4], form, notes, scale, units.get(found[3], ""), sha256, read))
    # An option for a name that isn't drawn would change nothing.
    names = {one.name for panel in panels for one in panel}
    for option, given in (("--scale", list(scales)), ("--unit", list(units))):
        for name in given:
            if name and name not in names:
                raise Refused(f"{option} {name}=..: nothing that is drawn has this name; there are: {', '.join(sorted(names))}")
    return panels


def units_of(words: list[str]) -> dict[str, str]:
    wrong = next((word for word in words if "=" not in word), None)
    if wrong is not None:
        raise Refused(f"--unit {wrong}: NAME=TEXT was expected, as temperature=°C")
    return {name: printable(text) for name, text in (word.split("=", 1) for word in words)}


def scales_of(words: list[str]) -> dict[str, int]:
    """The scale of each name; that of all others has the empty name."""
    scales = {}
    for word in words:
        name, _, text = word.rpartition("=")
        if not re.fullmatch("0*[1-9][0-9]{0,29}", text, re.ASCII):
            raise Refused(f"--scale {text[:40]}: a whole number above 0, of at most 30 digits, was expected")
        scales[name] = int(text)
    return scales


def printable(text: str) -> str:
    """A text that a picture can have."""
    if UNPRINTABLE.search(text):
        raise Refused(f"{text!r}: a text without control characters was expected")
    return text


def numbers_of(drawn: Iterable[Drawn]) -> dict[str, int]:
    """A number for each name that is drawn as a line or as dots, from 0: a name has one style in all panels."""
    return {name: number for number, name in enumerate(dict.fromkeys(one.name for one in drawn if one.form in ("step", "dots")))}


def tick_of(text: str, clock: Clock | None, zone: str | None) -> int:
    is_tick = WHOLE.fullmatch(text) is not None
    if clock is None and not is_tick:
        raise Refused(f"{text!r} is no tick, and no file has a clock: --like SERIES names one")
    try:
        tick = (clock or Clock(1, 0)).tick_of(text, zone)
    except ValueError as error:
        raise Refused(str(error)) from error
    if is_tick and not -TIMES <= tick <= TIMES:
        raise Refused(f"{text[:40]}: a tick from {-TIMES} to {TIMES} was expected")
    return tick


def met(rows: Iterable[Row], lo: int, hi: int) -> Iterator[tuple[int, int, int]]:
    """The rows with a value that have a tick in `(lo, hi]`."""
    for start, end, value in rows:
        if start >= hi:
            return
        if end > lo and value is not None:
            yield start, end, value


def clipped(rows: Iterable[Row], lo: int, hi: int) -> Iterator[tuple[int, int, int]]:
    """The parts of rows with a value that lie in `(lo, hi]`."""
    for start, end, value in met(rows, lo, hi):
        yield max(start, lo), min(end, hi), value


def thinned(rows: Iterable[tuple[int, int, int]], lo: int, hi: int, pixels: int) -> Iterator[tuple[int, int, int]]:
    """The rows, where some lie within one pixel only the first, the least, the greatest and the last of them."""
    held: list[tuple[int, int, int]] = []
    column = None
    for row in rows:
        its = (row[0] - lo) * pixels // (hi - lo)
        if its != column or (row[1] - 1 - lo) * pixels // (hi - lo) != its:
            yield from outline(held)
            held, column = [], its
        held.append(row)
        if len(held) > 4:
            held = outline(held)
    yield from outline(held)


def outline(rows: list[tuple[int, int, int]]) -> list[tuple[int, int, int]]:
    if len(rows) <= 4:
        return rows
    least, greatest = min(rows, key=lambda row: row[2]), max(rows, key=lambda row: row[2])
    return sorted({rows[0], least, greatest, rows[-1]})


def bands_of(rows: Iterable[tuple[int, int, int]], near: float) -> Iterator[tuple[int, int]]:
    """Stretches with a value other than 0, as bands; those that lie nearer than so many ticks are one."""
    return joined(((start, end) for start, end, value in rows if value != 0), near)


def joined(stretches: Iterable[tuple[int, int]], near: float) -> Iterator[tuple[int, int]]:
    """Stretches in order, of which those that lie nearer than so many ticks are one."""
    return chained(stretches, lambda one, other: (one[0], other[1]) if other[0] - one[1] <= near else None)


def chained(items: Iterable[T], join: Callable[[T, T], T | None]) -> Iterator[T]:
    """Items in order, of which one and the next one become one as long as `join` has an item for both."""
    held: T | None = None
    for item in items:
        both = None if held is None else join(held, item)
        if held is not None and both is None:
            yield held
        held = item if both is None else both
    if held is not None:
        yield held
