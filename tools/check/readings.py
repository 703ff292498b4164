"""What the lines of a feed of readings say, and the feed that they make: docs/internals/MEANING.md, "Readings and events", worked out
plainly and slowly, without the program.

No state is changed step by step. After each line, the rows of an input are worked out again from all its readings so far, and from the tick
up to which the input is known. What a feed says of a query is in tools/check/feeds.py."""
from __future__ import annotations

import dataclasses
import datetime
import functools
import os
import re
import zoneinfo
from fractions import Fraction
from itertools import groupby
from typing import Mapping, Sequence

from check.feeds import Feed, InputFeed, KnownUpTo, T, Update, ValueFrom, WholeRow
from check.live import BYTE_ORDER_MARK, LONGEST_LINE, BadLine, records_of
from check.zones import moments_by_fold, moments_of

SECOND = 10**9
# The nanoseconds of the units of durations; `NUMBERS` are those of times.
UNITS = {"ns": 1, "us": 10**3, "ms": 10**6, "s": SECOND, "min": 60 * SECOND, "h": 3600 * SECOND, "d": 86400 * SECOND}
NUMBERS = ("s", "ms", "us", "ns")
# Numbers of times farther from 1970 than this, in nanoseconds, are out of range.
FARTHEST = 10**36
BLANKS = b" \t\n\r\f"

DATE = re.compile(
    rb"([0-9]{4})-([0-9]{2})-([0-9]{2})[T ]([0-9]{2}):([0-9]{2}):([0-9]{2})(?:[.,]([0-9]+))?"
    rb"(?P<offset>[Zz]|(?P<sign>[-+])(?P<hours>[0-9]{2}):(?P<minutes>[0-9]{2}))?"
)
EPOCH = datetime.datetime(1970, 1, 1)
# The seconds from which on dates in UTC are of the year 1, and of the year 10000.
YEAR_1, YEAR_10000 = -62_135_596_800, 253_402_300_800
# The folder of the tables of zones, and the moment from which on no table says what clocks show.
ZONES, END_OF_TABLES = os.path.join(os.sep, "usr", "share", "zoneinfo"), 253_402_207_201

# What a bad line is reported by.
BAD_HEADER = "90 line {}: the header isn't one record"
NO_COLUMN = "91 line {{}}: no column of {}"
TWO_COLUMNS = "92 line {{}}: two columns of {}"
NOT_ONE_RECORD = "93 line {}: not one record"
FIELD_COUNT = "94 line {{}}: not {} fields"
BAD_TIME = "95 line {{}}: bad time: {}"
OUT_OF_RANGE = "96 line {}: time out of range"
NO_NAME = "97 line {}: no name"
BAD_VALUE = "98 line {{}}: bad value of input {}: {}"
TOO_LONG = "99 line {}: too long"
NO_END_OF_LINE = "100 line {}: no end of line"
LATE = "102 line {{}}: late reading of input {}"
TIE = "103 line {{}}: second reading in one tick of input {}"

# A tick and a value, if there is one.
Reading = tuple[int, "int | None"]


@dataclasses.dataclass(frozen=True)
class Form:
    """How readings are written, and what they mean: the titles of the columns, of which two are missing if each input has a column of its
    own; the clock in nanoseconds; the zone of times without an offset, and the fold of those that its clocks skip or show twice; the scales
    of inputs, of which the others have 1. The readings of all inputs are events, or those of some; the others hold for a maximum age in
    ticks, one for all of them or one for some."""

    time: str
    name: str | None = None
    value: str | None = None
    tick: int = SECOND
    origin: int = 0
    unit: str | None = None
    zone: str | None = None
    fold: str | None = None
    scales: Mapping[str, int] = dataclasses.field(default_factory=dict)
    event: bool = False
    events: Sequence[str] = ()
    max_age: int | None = None
    ages: Mapping[str, int] = dataclasses.field(default_factory=dict)
    closed: str = "left"
    ties: str = "refuse"
    nulls: Sequence[str] = ()
    skip_empty: bool = False
    delimiter: str = ","
    decimal: str = "."

    def scale(self, name: str) -> int:
        return self.scales.get(name, 1)

    def is_event(self, name: str) -> bool:
        """Whether the readings of an input hold for their tick alone."""
        return self.event or name in self.events

    def age(self, name: str) -> int | None:
        """For how many ticks a reading of an input holds at most."""
        if self.is_event(name):
            return 1
        return self.ages[name] if name in self.ages else self.max_age


# Texts


def decimal_of(text: bytes, mark: str) -> Fraction | None:
    """The number that a text is: a sign or none, and digits with at most one mark among them."""
    found = re.fullmatch(rb"([-+]?)([0-9]*)(?:%s([0-9]*))?" % re.escape(mark.encode()), text)
    if found is None or not found[2] + (found[3] or b""):
        return None
    digits, decimals = found[2] + (found[3] or b""), len(found[3] or b"")
    return Fraction(-int(digits) if found[1] == b"-" else int(digits), 10**decimals)


def moment_of_date(form: Form, text: bytes) -> int:
    """The nanoseconds from 1970 to a date. One without an offset is a local time of the zone."""
    found = DATE.fullmatch(text)
    if found is None or found["offset"] is None and form.zone is None:
        raise BadLine(BAD_TIME.format("no date with an offset"))
    year, month, day, hour, minute, second = map(int, found.groups()[:6])
    try:
        local = datetime.datetime(year, month, day, hour, minute, second)
        ahead = datetime.time(int(found["hours"] or 0), int(found["minutes"] or 0))
    except ValueError as error:
        raise BadLine(BAD_TIME.format("no such day or time")) from error
    nanoseconds = Fraction(int(found[7] or 0), 10 ** len(found[7] or b"")) * SECOND
    if nanoseconds.denominator != 1:
        raise BadLine(BAD_TIME.format("finer than a nanosecond"))
    offset = (ahead.hour * 3600 + ahead.minute * 60) * (-1 if found["sign"] == b"-" else 1)
    shown = (local - EPOCH) // datetime.timedelta(seconds=1)
    seconds = moment_of_local(form, shown) if found["offset"] is None else shown - offset
    if not YEAR_1 <= seconds < YEAR_10000:
        raise BadLine(BAD_TIME.format("not in the years 1 to 9999"))
    return seconds * SECOND + int(nanoseconds)


@functools.cache
def zone_named(name: str) -> zoneinfo.ZoneInfo:
    with open(os.path.join(ZONES, name), "rb") as file:
        return zoneinfo.ZoneInfo.from_file(file, name)


def moment_of_local(form: Form, local: int) -> int:
    """The seconds from 1970 to a local time of the zone, by what Python's `zoneinfo` says of both folds."""
    zone = zone_named(form.zone or "")
    first, second = moments_by_fold(zone, local)
    moments = [first] if first == second else moments_of(zone, local)
    if len(moments) != 1 and form.fold is None:
        raise BadLine(BAD_TIME.format("the clocks of the zone " + ("show this local time twice" if moments else "skip this local time")))
    moment = moments[0] if len(moments) == 1 else second if form.fold == "second" else first
    if moment >= END_OF_TABLES:
        raise BadLine(BAD_TIME.format("the table of the zone ends before this local time"))
    return moment


def moment_of_number(text: bytes, unit: str) -> int:
    """The nanoseconds from 1970 to a number of a unit."""
    number = decimal_of(text, ".")
    if number is None:
        raise BadLine(BAD_TIME.format("not a number"))
    nanoseconds = number * UNITS[unit]
    if nanoseconds.denominator != 1:
        raise BadLine(BAD_TIME.format("finer than a nanosecond"))
    if abs(nanoseconds) > FARTHEST:
        raise BadLine(BAD_TIME.format("out of range"))
    return int(nanoseconds)


def moment_of(form: Form, text: bytes) -> int:
    return moment_of_date(form, text) if form.unit is None else moment_of_number(text, form.unit)


def tick_of(form: Form, text: bytes) -> int:
    """The tick in which a time lies. The tick k is from k - 1 to k lengths after the origin."""
    lengths = Fraction(moment_of(form, text) - form.origin, form.tick)
    tick = lengths.__floor__() + 1 if form.closed == "left" else lengths.__ceil__()
    if not -T < tick <= T:
        raise BadLine(OUT_OF_RANGE)
    return tick


def is_null(form: Form, text: bytes) -> bool:
    return text in [b"", *(null.encode() for null in form.nulls)]


def value_of(form: Form, text: bytes, name: str, number: int) -> int | None:
    """The value of a text times the scale of an input, which is counted from 1."""
    if is_null(form, text):
        return None
    decimal = decimal_of(text, form.decimal)
    if decimal is None:
        raise BadLine(BAD_VALUE.format(number, "not a number"))
    scaled = decimal * form.scale(name)
    if scaled.denominator != 1:
        raise BadLine(BAD_VALUE.format(number, "digits would be lost"))
    if not -(2**63) <= scaled < 2**63:
        raise BadLine(BAD_VALUE.format(number, "out of range"))
    return int(scaled)


def fields_of(form: Form, line: bytes, otherwise: str) -> list[bytes]:
    """The fields of the one record that a line is, without white space around them."""
    records = records_of(line.removeprefix(BYTE_ORDER_MARK), form.delimiter.encode())
    if len(records) != 1:
        raise BadLine(otherwise)
    return [field.strip(BLANKS) for field in records[0]]


# Rows


def counted(ties: str, readings: Sequence[Reading]) -> list[Reading]:
    """The readings that count, each on a tick of its own."""
    if ties == "spread":
        spread: list[Reading] = []
        for tick, value in readings:
            spread.append((max(tick, spread[-1][0] + 1) if spread else tick, value))
        return spread
    groups = [[*group] for _, group in groupby(readings, key=lambda reading: reading[0])]
    return [group[-1 if ties == "last" else 0] for group in groups]


@dataclasses.dataclass
class Input:
    """The readings of an input that were taken, in order, and the tick up to which it is known by them and by times alone."""

    readings: list[Reading] = dataclasses.field(default_factory=list)
    mark: int = -T

    def fault(self, form: Form, tick: int, number: int) -> str | None:
        """Why a reading at a tick isn't taken, or None if it is."""
        if form.ties == "spread" and counted("spread", [*self.readings, (tick, None)])[-1][0] > T:
            return OUT_OF_RANGE
        if tick - 1 < self.mark:
            return LATE.format(number)
        tied = bool(self.readings) and self.readings[-1][0] == tick
        return TIE.format(number) if tied and form.ties == "refuse" else None

    def known(self, form: Form, name: str) -> InputFeed:
        """What the feed has of the input with a name. The row of a reading starts a tick before the reading's, and ends where the next one
        starts, or by its age. The last row is open, unless its age has ended it before the mark."""
        readings = counted(form.ties, self.readings)
        if form.ties == "last" and readings and readings[-1][0] - 1 == self.mark:
            # Another one may come in its tick.
            readings.pop()
        starts, age = [tick - 1 for tick, _ in readings], form.age(name)
        rows, open_row = [], None
        for start, (_, value), following in zip(starts, readings, [*starts[1:], None]):
            aged = [] if age is None else [start + age]
            if value is None:
                continue
            if following is None and not form.is_event(name) and not any(end < self.mark for end in aged):
                open_row = (start, value)
            else:
                rows.append((start, min([following, *aged] if following is not None else aged), value))
        return InputFeed(rows, open_row, max([self.mark, *(start + 1 for start in starts[-1:])]))


def updates_between(before: InputFeed, now: InputFeed) -> list[Update]:
    """Updates of a feed of rows that make one of what is known of an input into the other, which is later."""
    updates: list[Update] = [WholeRow(*row) for row in now.rows[len(before.rows) :]]
    if now.open_row is not None and now.open_row != before.open_row:
        updates.append(ValueFrom(*now.open_row))
    return [*updates, KnownUpTo(now.watermark)]


# Feeds


@dataclasses.dataclass(frozen=True)
class Layout:
    """The columns of a header: how many there are, and the places of the times and of names and values, or of each input."""

    count: int
    time: int
    name: int
    value: int
    inputs: Sequence[int] = ()


class Readings:
    """The feed that the lines of a text have made so far."""

    def __init__(self, form: Form, names: Sequence[str]) -> None:
        self.form = form
        self.names = names
        self.layout: Layout | None = None
        self.inputs = {name: Input() for name in names}

    def feed(self) -> Feed:
        return Feed({name: known.known(self.form, name) for name, known in self.inputs.items()})

    def take(self, line: bytes) -> None:
        """Takes a line without its LF. A bad one raises `BadLine`, and changes nothing."""
        if len(line) > LONGEST_LINE:
            raise BadLine(TOO_LONG)
        if line in (b"", b"\r"):
            return
        if self.layout is None:
            self.layout = self.layout_of(fields_of(self.form, line, BAD_HEADER))
        else:
            self.take_record(self.layout, fields_of(self.form, line, NOT_ONE_RECORD))

    def layout_of(self, titles: Sequence[bytes]) -> Layout:
        def place(title: str, what: str) -> int:
            found = [at for at, each in enumerate(titles) if each == title.encode()]
            if len(found) != 1:
                raise BadLine((TWO_COLUMNS if found else NO_COLUMN).format(what))
            return found[0]

        time = place(self.form.time, "times")
        if self.form.name is None or self.form.value is None:
            return Layout(len(titles), time, -1, -1, [place(name, f"input {at}") for at, name in enumerate(self.names, 1)])
        return Layout(len(titles), time, place(self.form.name, "names"), place(self.form.value, "values"))

    def take_record(self, layout: Layout, fields: Sequence[bytes]) -> None:
        if len(fields) != layout.count:
            raise BadLine(FIELD_COUNT.format(layout.count))
        tick = tick_of(self.form, fields[layout.time])
        if self.form.name is None:
            self.take_readings(tick, {name: fields[place] for name, place in zip(self.names, layout.inputs)})
        elif fields[layout.name]:
            texts = {name: fields[layout.value] for name in self.names if name.encode() == fields[layout.name]}
            self.take_readings(tick, texts)
        elif fields[layout.value]:
            raise BadLine(NO_NAME)
        else:
            # More may come in its own tick.
            for known in self.inputs.values():
                known.mark = max(known.mark, tick - 1)

    def take_readings(self, tick: int, texts: Mapping[str, bytes]) -> None:
        """Takes the readings of some inputs at a tick, all or none."""
        values: dict[str, int | None] = {}
        for number, name in enumerate(self.names, 1):
            if name in texts and not (self.form.skip_empty and is_null(self.form, texts[name])):
                values[name] = value_of(self.form, texts[name], name, number)
        for number, name in enumerate(self.names, 1):
            fault = self.inputs[name].fault(self.form, tick, number) if name in values else None
            if fault is not None:
                raise BadLine(fault)
        for name, value in values.items():
            self.inputs[name].readings.append((tick, value))
            self.inputs[name].mark = tick - 1
