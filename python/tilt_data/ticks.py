"""`tilt-data ticks`: helper series for a stretch of time."""
from __future__ import annotations

import argparse
import datetime
import re
from typing import Any, Iterator

from .clock import DAY, EPOCH, TIMES, UNITS, Clock, duration_of, local_moment, moment_text, zone_of
from .convert import row_text
from .errors import Refused
from .files import HEADER_LINE, Extremes, Notes, Outputs, Row, check_replaceable, notes_of_like, notes_path, same_file
from .progress import shown

HELP = """Writes a helper series, with its JSON file beside, on the clock of the series that --like names. KIND is one of these:
each: a row of 0 for each tick, so that avg of x + each is weighted by time.
now: each tick as a value, so that now - last(when[t-100:t]) is an age.
periods: a row for each period, its value the number of the period from 0.
hours: 1 while trading is open, such as --open 09:30 --close 16:00 in a time zone, on --days except those of --closed-on.
weekdays: the day of the week in a time zone, from 1 (Monday) to 7."""
DAYS = ("mon", "tue", "wed", "thu", "fri", "sat", "sun")
# Days between these have a day before and two after them, in each zone.
FIRST_DAY, LAST_DAY = datetime.date(1, 1, 3), datetime.date(9999, 12, 28)


def add(commands: Any) -> None:
    parser = commands.add_parser(
        "ticks",
        help="helper series: each tick, periods, trading hours, weekdays",
        description=HELP,
        formatter_class=argparse.RawDescriptionHelpFormatter,
    )
    parser.add_argument("kind", choices=["each", "now", "periods", "hours", "weekdays"], metavar="KIND")
    parser.add_argument("out", metavar="OUT.csv")
    parser.add_argument("--like", metavar="SERIES", required=True, help="the series whose clock it has")
    parser.add_argument("--from", dest="begin", metavar="TIME", required=True, help="ISO 8601, or a tick")
    parser.add_argument("--to", dest="end", metavar="TIME", required=True, help="ISO 8601, or a tick")
    parser.add_argument("--every", metavar="DURATION", help="periods: how long one is")
    parser.add_argument("--open", metavar="HH:MM", help="hours: when trading opens")
    parser.add_argument("--close", metavar="HH:MM", help="hours: when it closes; 24:00 for midnight")
    parser.add_argument("--days", action="append", help="hours: days such as mon-fri or mon,wed (mon-fri)")
    parser.add_argument("--closed-on", metavar="DATE", nargs="+", action="extend", default=[], help="hours: days without trading")
    parser.add_argument("--zone", help="the time zone of hours and weekdays, such as America/New_York (UTC)")
    parser.add_argument("--force", action="store_true", help="replace OUT.csv and its JSON file even if `tilt-data` didn't write them")
    parser.set_defaults(main=main)


def main(words: argparse.Namespace) -> int:
    notes = notes_of_like(words.like)
    if same_file(words.out, words.like) or same_file(notes_path(words.out), notes_path(words.like)):
        raise Refused(f"{words.out}: it is the series of --like, and would be written over: name another file")
    if not words.force:
        check_replaceable(words.out, "name another file, or replace it by --force")
    clock = notes.clock
    lo, hi = (tick_of(option, text, clock, words.zone) for option, text in (("--from", words.begin), ("--to", words.end)))
    if lo >= hi:
        raise Refused(f"the stretch from {words.begin} to {words.end} has no tick")
    extremes = Extremes()
    with Outputs() as outputs:
        outputs.write(words.out, HEADER_LINE.decode())
        for row in shown(rows_of_kind(words, clock, lo, hi), "rows"):
            outputs.write(words.out, row_text(row))
            extremes.take(row[2])
        outputs.write(notes_path(words.out), Notes(clock, 1, "helper", words.kind, None, words.zone, *extremes.both).text())
        outputs.commit()
    return 0


def tick_of(option: str, text: str, clock: Clock, zone: str | None) -> int:
    """The tick of a time or of a number, which the program has to take."""
    try:
        tick = clock.tick_of(text, zone)
    except ValueError as error:
        raise Refused(f"{option}: {error}") from error
    if not -TIMES <= tick <= TIMES:
        raise Refused(f"{option} {text}: a tick from {-TIMES} to {TIMES} was expected: name a nearer time, or a series of longer ticks")
    return tick


def rows_of_kind(words: argparse.Namespace, clock: Clock, lo: int, hi: int) -> Iterator[Row]:
    if words.kind == "each":
        return ((tick, tick + 1, 0) for tick in range(lo, hi))
    if words.kind == "now":
        return ((tick, tick + 1, tick + 1) for tick in range(lo, hi))
    if words.kind == "periods":
        if words.every is None:
            raise Refused("how long is a period? --every 10min")
        length = clock.ticks(duration_of(words.every), "--every")
        return ((start, min(start + length, hi), at) for at, start in enumerate(range(lo, hi, length)))
    if words.kind == "weekdays":
        return cut(weekdays(clock, words.zone, lo, hi), lo, hi)
    if words.open is None or words.close is None:
        raise Refused("when is it open? --open 09:30 --close 16:00")
    return cut(hours(words, clock, lo, hi), lo, hi)


def cut(rows: Iterator[Row], lo: int, hi: int) -> Iterator[Row]:
    for start, end, value in rows:
        if max(start, lo) < min(end, hi):
            yield max(start, lo), min(end, hi), value


def days_of(clock: Clock, zone: str | None, lo: int, hi: int) -> Iterator[datetime.date]:
    """The days of a zone that have to do with a stretch of ticks, in order."""
    try:
        first, last = (day_at(clock.moment(tick), zone) for tick in (lo, hi))
    except Refused as error:
        raise Refused(f"{error}: take a nearer --from or --to") from error
    if first < FIRST_DAY or last > LAST_DAY:
        raise Refused(f"from {first} to {last}: days from {FIRST_DAY} to {LAST_DAY} were expected: take a nearer --from or --to")
    return map(datetime.date.fromordinal, range(first.toordinal() - 1, last.toordinal() + 2))


def day_at(moment: int, zone: str | None) -> datetime.date:
    return datetime.date.fromisoformat(moment_text(moment, 0, zone_of(zone))[:10])


def moment_on(day: datetime.date, minutes: int, zone: str | None) -> int:
    """The moment at which the clock of the zone shows so many minutes after midnight."""
    return local_moment((day.toordinal() - EPOCH.toordinal()) * DAY + minutes * UNITS["min"], zone_of(zone))


def edge(clock: Clock, moment: int) -> int:
    """The last tick that ends at a moment or before it."""
    return (moment - clock.origin) // clock.tick


def weekdays(clock: Clock, zone: str | None, lo: int, hi: int) -> Iterator[Row]:
    for day in days_of(clock, zone, lo, hi):
        following = day + datetime.timedelta(1)
        yield edge(clock, moment_on(day, 0, zone)), edge(clock, moment_on(following, 0, zone)), day.isoweekday()


def hours(words: argparse.Namespace, clock: Clock, lo: int, hi: int) -> Iterator[Row]:
    begin, end = (minutes_of(text) for text in (words.open, words.close))
    if begin >= end:
        raise Refused(f"--close {words.close} isn't after --open {words.open}")
    days, closed = days_named(",".join(words.days or ["mon-fri"])), {date_of(text) for text in words.closed_on}
    for day in days_of(clock, words.zone, lo, hi):
        # A day that the zone left out has no hours: Samoa went from 29 to 31 December 2011.
        if day.weekday() in days and day not in closed and day_at(moment_on(day, 720, words.zone), words.zone) == day:
            yield edge(clock, moment_on(day, begin, words.zone)), edge(clock, moment_on(day, end, words.zone)), 1


def minutes_of(text: str) -> int:
    found = re.fullmatch(r"([0-9]{2}):([0-9]{2})", text)
    if found is None or int(found[2]) > 59 or int(found[1]) * 60 + int(found[2]) > 1440:
        raise Refused(f"{text!r} is no time of day: HH:MM was expected, as 09:30")
    return int(found[1]) * 60 + int(found[2])


def days_named(text: str) -> set[int]:
    """The days that a text as `mon-fri,sun` names, Monday as 0."""
    days: set[int] = set()
    for part in text.lower().split(","):
        first, _, last = part.partition("-")
        if first not in DAYS or last and last not in DAYS:
            raise Refused(f"{text!r} names no days: mon-fri or mon,wed was expected")
        begin, end = DAYS.index(first), DAYS.index(last or first)
        days |= {day % 7 for day in range(begin, end + 1 if end >= begin else end + 8)}
    return days


def date_of(text: str) -> datetime.date:
    try:
        return datetime.date.fromisoformat(text)
    except ValueError as error:
        raise Refused(f"{text!r} is no day: 2026-12-25 was expected") from error
