"""Moments and ticks.

A moment is a whole number of nanoseconds since 1970-01-01T00:00:00Z. A tick is a whole number: the tick `k` of a clock is the stretch from
`k - 1` to `k` tick lengths after its origin. Which end of it belongs to it is `closed`, as pandas has it: with `left` a moment on the edge
belongs to the tick that begins there, with `right` to the tick that ends there."""
from __future__ import annotations

import dataclasses
import datetime
import decimal
import re
import zoneinfo

from .errors import Refused

UNITS = {
    "ns": 1,
    "us": 10**3,
    "ms": 10**6,
    "s": 10**9,
    "min": 60 * 10**9,
    "m": 60 * 10**9,
    "h": 3600 * 10**9,
    "d": 86400 * 10**9,
}
# Numbers are written in ASCII, as the program reads them: without underscores and without the digits of other scripts.
WHOLE = re.compile(r"[+-]?[0-9]+")
DECIMAL = re.compile(r"[+-]?(?:[0-9]+(?:\.[0-9]*)?|\.[0-9]+)(?:[eE][+-]?[0-9]{1,18})?")
# What a field of a CSV can have around its number or its time.
BLANKS = " \t"
DURATION = re.compile(r"([0-9]{1,30})\s*(ns|us|ms|s|min|m|h|d)")
ISO = re.compile(r"(\d{4}-\d\d-\d\d)(?:[T ](\d\d:\d\d)(?::(\d\d)(?:[.,](\d+))?)?)?\s*(Z|z|[+-](?:[01]\d|2[0-3])(?::?[0-5]\d)?)?", re.ASCII)
EPOCH = datetime.datetime(1970, 1, 1)
DAY = UNITS["d"]
# The program takes times from -TIMES to TIMES, in ticks (`T` of crates/tilt_base/src/limits.rt).
TIMES = 4 * 10**18
# Moments farther from 1970 than this, in nanoseconds, are no times: TIMES ticks of a year don't reach it.
FARTHEST = 10**36
# More digits than any time or value of 64 bits has; nothing is rounded silently.
EXACT = decimal.Context(prec=80, traps=[decimal.Inexact, decimal.InvalidOperation, decimal.Overflow])


def duration_of(text: str) -> int:
    """The nanoseconds of a text as `1s`, `250ms`, `5min`, `1d`."""
    found = DURATION.fullmatch(text.strip())
    if found is None or int(found[1]) == 0:
        raise Refused(f"{text!r} is no duration: a whole number above 0 and one of ns us ms s min h d, as 1s or 250ms")
    return int(found[1]) * UNITS[found[2]]


def duration_text(length: int) -> str:
    """The shortest text of a duration in nanoseconds, in one unit."""
    for unit in ("d", "h", "min", "s", "ms", "us"):
        if length and length % UNITS[unit] == 0:
            return f"{length // UNITS[unit]}{unit}"
    return f"{length}ns"


def zone_of(name: str | None) -> zoneinfo.ZoneInfo | None:
    if name is None:
        return None
    try:
        return zoneinfo.ZoneInfo(name)
    except (zoneinfo.ZoneInfoNotFoundError, ValueError, OSError) as error:
        if not zoneinfo.available_timezones():
            raise Refused(f"--zone {name}: this system has no time zones: apt-get install tzdata, or pip install tzdata") from error
        raise Refused(f"{name!r} is no time zone: a name as Europe/Zurich or America/New_York") from error


class Moments:
    """Reads the times of one column: ISO 8601, or numbers of a unit since 1970. What it can't read is a ValueError that says what it
    expected. Times without an offset are in the zone, or UTC where there is none."""

    def __init__(self, unit: str | None = None, zone: zoneinfo.ZoneInfo | None = None) -> None:
        self.unit = 0 if unit is None else UNITS[unit]
        self.zone = zone
        self.known: dict[tuple[str, str | None, str | None], int] = {}

    def read(self, text: str) -> int:
        return self.number(text) if self.unit else self.iso(text)

    def number(self, text: str) -> int:
        if text.isascii() and text.isdigit() and len(text) < 30:
            return int(text) * self.unit
        plain = text.strip(BLANKS)
        try:
            moment = EXACT.multiply(decimal.Decimal(plain), decimal.Decimal(self.unit)) if DECIMAL.fullmatch(plain) else None
            if moment is not None and moment == moment.to_integral_value() and moment.copy_abs() <= FARTHEST:
                return int(moment)
        except decimal.DecimalException:
            pass
        raise ValueError(f"{text!r} is no time: a number was expected, no finer than a nanosecond")

    def iso(self, text: str) -> int:
        found = ISO.fullmatch(text.strip(BLANKS))
        if found is None:
            hint = "; for numbers since 1970 say --unit s, ms, us or ns" if DECIMAL.fullmatch(text.strip(BLANKS)) else ""
            raise ValueError(f"{text!r} is no time: ISO 8601 was expected, as 2026-03-01T06:00:05 or 2026-03-01 06:00:05.250Z{hint}")
        date, minute, second, fraction, offset = found.groups()
        if second is not None and int(second) > 59 or fraction is not None and len(fraction.rstrip("0")) > 9:
            raise ValueError(f"{text!r} is no time: seconds go to 59, and nothing is finer than a nanosecond")
        # Minutes are worked out once: most readings share theirs with others.
        place = date, minute, offset
        if place not in self.known:
            if len(self.known) > 50000:
                self.known.clear()
            self.known[place] = self.minute(f"{date}T{minute or '00:00'}{(offset or '').upper()}", text)
        return self.known[place] + int(second or 0) * 10**9 + int((fraction or "0").rstrip("0").ljust(9, "0") or 0)

    def minute(self, minute: str, text: str) -> int:
        """The moment of a minute. Without an offset and a zone it is UTC. One that the zone has twice or not at all is refused."""
        try:
            local = datetime.datetime.fromisoformat(minute)
        except ValueError as error:
            raise ValueError(f"{text!r} is no time: there is no such day or minute") from error
        zone = self.zone if local.tzinfo is None else None
        try:
            if local.tzinfo is not None:
                local = local.astimezone(datetime.timezone.utc).replace(tzinfo=None)
            if zone is not None and local.replace(tzinfo=zone).utcoffset() != local.replace(tzinfo=zone, fold=1).utcoffset():
                raise ValueError(f"the zone {zone.key} has this time twice or not at all: write it with its offset, as +01:00")
            return local_moment((local - EPOCH) // datetime.timedelta(microseconds=1) * 1000, zone)
        except OverflowError as error:
            raise ValueError(f"{text!r} is no time: with its offset it lies outside of the years 1 to 9999") from error


def local_moment(local: int, zone: datetime.tzinfo | None) -> int:
    """The moment of a local time in nanoseconds: the first if the zone has two. One that the zone leaves out is where it would be by the
    clocks before that."""
    if zone is None:
        return local
    shift = (EPOCH + datetime.timedelta(seconds=local // 10**9)).replace(tzinfo=zone).utcoffset() or datetime.timedelta()
    return local - shift // datetime.timedelta(seconds=1) * 10**9


def moment_text(moment: int, digits: int, zone: datetime.tzinfo | None = None) -> str:
    """A moment in ISO 8601 with so many digits of a second, in UTC (`Z`) or in a zone with its offset."""
    seconds, fraction = divmod(moment, 10**9)
    try:
        utc = EPOCH + datetime.timedelta(seconds=seconds)
        if zone is None:
            text, end = utc.isoformat(), "Z"
        else:
            local = utc.replace(tzinfo=datetime.timezone.utc).astimezone(zone).isoformat()
            text, end = local[:19], local[19:]
    except OverflowError as error:
        raise Refused(f"the moment {moment} ns after 1970 lies outside of the years 1 to 9999") from error
    return text + (f".{fraction:09d}"[: digits + 1] if digits else "") + end


@dataclasses.dataclass(frozen=True)
class Clock:
    """How moments become ticks: the length of a tick in nanoseconds, the moment of the origin, and which end of a tick belongs to it."""

    tick: int
    origin: int
    closed: str = "left"

    def start(self, moment: int) -> int:
        """The start of the row of one tick that a moment lies in: its tick less 1."""
        since = moment - self.origin
        return since // self.tick if self.closed == "left" else -(-since // self.tick) - 1

    def tick_of(self, text: str, zone: str | None) -> int:
        """The tick of a number, or of a time in ISO 8601: at an edge the one that ends there. What is neither is a ValueError."""
        if WHOLE.fullmatch(text):
            # No tick has more than 30 digits, and Python doesn't read thousands of them.
            return int(text) if len(text) <= 30 else TIMES + 1
        return self.start(Moments(None, zone_of(zone)).iso(text)) + (self.closed == "right")

    def moment(self, tick: int) -> int:
        """The moment at the end of a tick, which is where the next one begins."""
        return self.origin + tick * self.tick

    def ticks(self, length: int, what: str) -> int:
        """How many ticks a duration is. It has to be whole."""
        if length % self.tick:
            raise Refused(f"{what} {duration_text(length)} is no whole number of ticks of {duration_text(self.tick)}")
        return length // self.tick

    @property
    def digits(self) -> int:
        """How many digits of a second its moments have: 0, 3, 6 or 9."""
        return next(digits for digits in (0, 3, 6, 9) if self.tick % 10 ** (9 - digits) == 0 == self.origin % 10 ** (9 - digits))

    def text(self, tick: int, zone: datetime.tzinfo | None = None) -> str:
        return moment_text(self.moment(tick), self.digits, zone)
