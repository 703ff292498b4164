"""How readings become rows: the arguments of `run`, `live` and `span`, the options of `series` and `follow`, and their checks."""
from __future__ import annotations

import argparse
import dataclasses
import datetime
import numbers
from typing import Any, Iterable, Literal, Mapping, TypedDict, TypeVar, Union

from .clock import DAY, TIMES, Clock, Moments, duration_of, moment_text, zone_of
from .convert import TIES, Rule
from .errors import Refused
from .files import Notes, notes_of_like
from .scales import scale_of

Time = Union[str, datetime.date]
Factor = Union[int, Literal["auto"]]
T = TypeVar("T")
# The years 1 to 9999 of UTC, in nanoseconds since 1970.
FIRST_SHOWN, LAST_SHOWN = -719162 * DAY, 2932897 * DAY


class Options(TypedDict, total=False):
    """The fields of a `Convention` as arguments."""

    tick: str | None
    origin: Time | None
    closed: Literal["left", "right"] | None
    event: bool | Mapping[str, bool]
    max_age: str | Mapping[str, str] | None
    until: Time | None
    ties: Literal["last", "first", "spread", "refuse"]
    scale: Factor | Mapping[str, Factor]
    skip_empty: bool | Mapping[str, bool]


@dataclasses.dataclass(frozen=True)
class Convention:
    """How readings become rows, with the meanings of the options of `tilt-data series`.

    - `tick`: a duration, such as `1s` or `250ms`; by default that of the files, or `1s`.
    - `origin`: a time, in UTC unless it has an offset; by default the midnight before the first reading, in the zone of the first input.
    - `closed`: `left` or `right`; by default that of the files or of the intervals, or `left`.
    - `event`, `max_age`, `scale`, `skip_empty`: a value for all inputs, or one for each name, such as `{"price": True}`.
    - `until`: the time until which the last reading holds.
    - `ties`: `last`, `first`, `spread` or `refuse`.
    - `scale`: a whole number, or `auto`: that of the files, or the smallest power of ten that makes all values whole.
    - `skip_empty`: a missing value is no reading, and doesn't end the one before it."""

    tick: str | None = None
    origin: Time | None = None
    closed: Literal["left", "right"] | None = None
    event: bool | Mapping[str, bool] = False
    max_age: str | Mapping[str, str] | None = None
    until: Time | None = None
    ties: Literal["last", "first", "spread", "refuse"] = "refuse"
    scale: Factor | Mapping[str, Factor] = "auto"
    skip_empty: bool | Mapping[str, bool] = False

    def __post_init__(self) -> None:
        check_one_of("closed", self.closed, ("left", "right", None))
        check_one_of("ties", self.ties, TIES)
        for name in ("event", "skip_empty"):
            for value in values_of(getattr(self, name)):
                check_flag(name, value)
        for name, length in (("tick", self.tick), *(("max_age", age) for age in values_of(self.max_age))):
            if length is not None:
                duration_read(name, length)
        for name, time in (("origin", self.origin), ("until", self.until)):
            if time is not None:
                moment_read(name, time)
        wrong = next((scale for scale in values_of(self.scale) if scale != "auto" and not is_count(scale)), None)
        if wrong is not None or self.scale is None:
            raise Refused(f"scale={wrong!r}: a whole number above 0 or 'auto' was expected")
        # An event has one tick, so that nothing can be said of how long it holds.
        if self.event is True and (self.max_age is not None or self.until is not None):
            raise Refused("event=True: a reading is an event of one tick; max_age and until are for readings that hold")
        for name in self.max_age if isinstance(self.max_age, Mapping) else ():
            if self.is_event(name):
                raise Refused(f"max_age[{name!r}]: the input is an event of one tick by event[{name!r}]=True")

    def check_names(self, names: Iterable[str], what: str = "input") -> None:
        """Rejects a name that no input has: it would change nothing."""
        there = list(names)
        for option in ("event", "max_age", "scale", "skip_empty"):
            given = getattr(self, option)
            for name in given if isinstance(given, Mapping) else ():
                if name and name not in there:
                    listed = f"{', '.join(there[:10])}{', ..' if len(there) > 10 else ''}"
                    raise Refused(f"{self.shown(option, name)}: no {what} has this name; there are: {listed}")

    def shown(self, option: str, name: str = "") -> str:
        """How an option is written, for all inputs or for one."""
        return f"{option}[{name!r}]" if name else option

    def is_event(self, name: str) -> bool:
        return of_input(self.event, name, False)

    def skips_empty(self, name: str) -> bool:
        return of_input(self.skip_empty, name, False)

    def scale_of(self, name: str) -> int | None:
        """The scale of an input; None if it goes by the data, or by a series."""
        scale: Factor = of_input(self.scale, name, "auto")
        return None if scale == "auto" else int(scale)

    def rule(self, name: str, clock: Clock) -> Rule:
        age = of_input(self.max_age, name, None)
        held = None if age is None or self.is_event(name) else clock.ticks(duration_of(age), self.shown("max_age"))
        return Rule(not self.is_event(name), held, self.ties)


@dataclasses.dataclass(frozen=True)
class TextConvention(Convention):
    """The convention of readings that are texts: also the unit and the zone of their times, the texts that mean no value, and the series of
    `like`, whose clock and scale count if no other is given. In a mapping the empty name has what is for all others."""

    unit: str | None = None
    zone: str | None = None
    null: frozenset[str] = frozenset()
    like: Notes | None = None

    def __post_init__(self) -> None:
        """What the parser takes is checked where it is used: a message about a time names its file and its line."""

    @staticmethod
    def add_to(parser: argparse.ArgumentParser, lasting: bool = False) -> None:
        """Adds the options; for a query that is `lasting` those that go neither by data that are still to come nor by a zone."""
        several: Any = {"action": "append"} if lasting else {"nargs": "+", "action": "extend"}
        auto = "" if lasting else "; auto for the smallest power of ten that makes them whole"
        add = parser.add_argument
        add("--unit", choices=["s", "ms", "us", "ns"], help="times are numbers since 1970 in this unit, and not ISO 8601")
        utc = "; without it they are bad" if lasting else " (UTC)"
        add("--zone", help=f"the zone of times without an offset, such as Europe/Zurich{utc}")
        if lasting:
            skipped = "which moment a local time means that clocks skip or show twice; without it that is a bad line"
            add("--fold", choices=["first", "second"], help=skipped)
        add("--tick", help="the length of a tick, such as 1s, 1ms or 1min")
        midnight = "1970-01-01T00:00:00Z" if lasting else "the midnight before the first reading"
        add("--origin", help=f"the moment at which the first tick starts ({midnight})")
        add("--like", metavar="SERIES", help="take tick, origin and scale from the JSON file beside this series")
        add("--scale", metavar="N", default=[], help=f"values times N are whole{auto}; NAME=N for one series", **several)
        add("--hold", choices=["next"], help="a reading holds until the next one (the default without --event)")
        longest = f"a reading holds no longer than this, such as 5min; NAME=5min for one {'input' if lasting else 'series'}"
        add("--max-age", metavar="DURATION", default=[], help=longest, **several)
        if not lasting:
            add("--until", metavar="TIME", help="until when the last reading holds (one tick, or --max-age)")
        add("--event", action="store_true", help="a reading is an event of one tick")
        add("--closed", choices=["left", "right"], help="which edge of a tick belongs to it, as in pandas (left)")
        ties = "which of the readings in one tick counts: the last, the first, or each, in ticks one after another"
        add("--ties", choices=TIES, default="refuse", help=f"{ties}. With refuse they are an error (refuse)")
        nulls = "texts with commas between them that mean no value, such as NaN,-1; empty fields always do"
        add("--null", metavar="TEXTS", action="append", default=[], help=nulls)
        add("--skip-empty", action="store_true", help="a field without a value is no reading, and doesn't end the one before")

    @classmethod
    def of(cls, words: argparse.Namespace) -> TextConvention:
        if words.event and (words.hold or words.max_age or words.until):
            raise Refused("--event is a reading of one tick: --hold, --max-age and --until are for readings that hold")
        like = None if words.like is None else notes_of_like(words.like)
        same = {name: getattr(words, name) for name in ("tick", "origin", "closed", "event", "until", "ties", "skip_empty", "unit", "zone")}
        null = frozenset(text for texts in words.null for text in texts.split(",") if text)
        scale: dict[str, Factor] = {}
        for name, text in named_once("--scale", words.scale).items():
            try:
                scale[name] = "auto" if text == "auto" else scale_of(text)
            except ValueError as error:
                word = f"{name}={text}" if name else text
                raise Refused(f"--scale {word}: a whole number above 0, auto, or NAME=N was expected") from error
        return cls(**same, max_age=named_once("--max-age", words.max_age), scale=scale, null=null, like=like)

    def shown(self, option: str, name: str = "") -> str:
        option = "--" + option.replace("_", "-")
        return f"{option} {name}=.." if name else option

    def is_missing(self, text: str) -> bool:
        return not text or text in self.null or (bare := text.strip()) == "" or bare in self.null

    def scale_of(self, name: str) -> int | None:
        own = super().scale_of(name)
        given = isinstance(self.scale, Mapping) and (name in self.scale or "" in self.scale)
        return own if given else 1 if self.like is None else self.like.scale

    def moment(self, text: Any) -> int:
        try:
            return Moments(None, zone_of(self.zone)).iso(text)
        except ValueError as error:
            raise Refused(str(error)) from error

    def until_tick(self, clock: Clock | None) -> int | None:
        """The tick until which the last reading holds; None if that isn't said, or there is no clock."""
        moment = None if self.until is None else self.moment(self.until)
        if moment is None or clock is None:
            return None
        tick = clock.start(moment)
        if not -TIMES <= tick <= TIMES:
            raise Refused(f"--until {self.until}: its tick is {tick}, and ticks go from {-TIMES} to {TIMES}: name a nearer time")
        return tick

    @property
    def given(self) -> tuple[int | None, int | None, str]:
        """The length of a tick, the origin and the closed edge that are given, or those of the series of `like`."""
        like = None if self.like is None else self.like.clock
        tick = duration_of(self.tick) if self.tick is not None else None if like is None else like.tick
        origin = self.moment(self.origin) if self.origin is not None else None if like is None else like.origin
        return tick, origin, self.closed or ("left" if like is None else like.closed)

    def clock(self, first: int) -> Clock:
        """The clock that is given; else it starts at the midnight before the first reading, a ValueError if there is no such moment."""
        tick, origin, closed = self.given
        if tick is None:
            raise Refused("how long is a tick? --tick 1s, 1ms, 1min, .. or --like a series that was written before")
        if self.origin is not None and origin is not None and not is_shown(origin):
            raise Refused(f"--origin {self.origin}: in UTC it lies outside of the years 1 to 9999: name another moment")
        return Clock(tick, midnight_before(first, self.zone) if origin is None else origin, closed)


def convention_of(convention: Convention | None, options: Mapping[str, object], others: Iterable[str] = ()) -> Convention:
    """The convention with these options; `others` are the names of the arguments that the caller also takes."""
    fields = [field.name for field in dataclasses.fields(Convention)]
    unknown = next((name for name in options if name not in fields), None)
    if unknown is not None:
        raise Refused(f"{unknown}={options[unknown]!r}: there is no such option; the options are {', '.join([*fields, *others])}")
    if convention is not None and not isinstance(convention, Convention):
        raise Refused(f"convention={convention!r}: a Convention was expected")
    changes: dict[str, Any] = dict(options)
    return dataclasses.replace(convention or Convention(), **changes)


def of_input(given: T | Mapping[str, T], name: str, default: T) -> T:
    """What an option gives to an input: its own, or that of all others."""
    return given.get(name, given.get("", default)) if isinstance(given, Mapping) else given


def named_once(option: str, words: list[str]) -> dict[str, str]:
    """What an option gives to each series, by name; the name is empty for all others. Two for one name are an error."""
    found: dict[str, str] = {}
    for word in words:
        name, _, text = word.rpartition("=")
        if name in found:
            what = f"{name}=.." if name else "without a name"
            raise Refused(f"{option} {what}: it is given twice, as {found[name]} and {text}: give it once")
        found[name] = text
    return found


def values_of(given: Any) -> list[Any]:
    return list(given.values()) if isinstance(given, Mapping) else [given]


def is_count(value: Any) -> bool:
    return isinstance(value, numbers.Integral) and not isinstance(value, bool) and int(value) > 0


def check_one_of(name: str, value: Any, allowed: Iterable[Any]) -> None:
    if not any(value is one or isinstance(value, str) and value == one for one in allowed):
        raise Refused(f"{name}={value!r}: one of {', '.join(map(repr, allowed))} was expected")


def check_flag(name: str, value: Any) -> None:
    if not isinstance(value, bool):
        raise Refused(f"{name}={value!r}: True or False was expected")


def duration_read(name: str, value: Any) -> int:
    try:
        return duration_of(value)
    except (Refused, AttributeError, TypeError) as error:
        what = "a whole number above 0 and one of ns us ms s min h d was expected, such as '1s' or '250ms'"
        raise Refused(f"{name}={value!r}: {what}") from error


def moment_read(name: str, value: Time) -> int:
    try:
        return Moments().iso(str(value))
    except ValueError as error:
        raise Refused(f"{name}={value!r}: a time was expected, such as '2026-03-01' or '2026-03-01T06:00+01:00'") from error


def midnight_before(moment: int, zone: str | None) -> int:
    """The midnight before a moment, or at it, in a zone. If there is none within the years 1 to 9999, or if there are two, it is a
    ValueError that says so."""
    local = zone_of(zone)
    try:
        midnight = Moments(None, local).iso(moment_text(moment, 0, local)[:10])
        moment_text(midnight, 0)
    except (Refused, ValueError) as error:
        what = f"has no midnight before it{'' if zone is None else f' in {zone}'}, or it has two"
        raise ValueError(f"the first reading, at {time_text(moment)}, {what}: name the moment of the first tick by --origin") from error
    return midnight


def time_text(moment: int) -> str:
    """A moment in UTC, or as a number if it lies outside of the years 1 to 9999."""
    return moment_text(moment, 9 if moment % 10**9 else 0) if is_shown(moment) else f"{moment} ns after 1970"


def is_shown(moment: int) -> bool:
    """Whether a moment lies in the years 1 to 9999 of UTC."""
    return FIRST_SHOWN <= moment < LAST_SHOWN
