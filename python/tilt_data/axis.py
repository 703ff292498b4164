"""The axis of time that `plot` and `view` draw: its marks in a zone, and the changes of the clocks there."""
from __future__ import annotations

import datetime
from typing import Iterator

from .clock import DAY, EPOCH, Clock, local_moment, moment_text
from .errors import Refused

# A step of whole months is so many times this; the marks are on the first days of months all the same.
MONTH = 30 * DAY
# Steps of the axis in nanoseconds, by unit.
STEPS = [
    step * unit
    for unit, steps in (
        (1, (1, 2, 5, 10, 20, 50, 100, 200, 500)),
        (10**3, (1, 2, 5, 10, 20, 50, 100, 200, 500)),
        (10**6, (1, 2, 5, 10, 20, 50, 100, 200, 500)),
        (10**9, (1, 2, 5, 10, 15, 30, 60, 120, 300, 600, 900, 1800, 3600, 7200, 10800, 21600, 43200)),
        (DAY, (1, 2, 7, 14)),
        (MONTH, (1, 2, 3, 6)),
        (12 * MONTH, (1, 2, 5, 10, 20, 50, 100, 200, 500, 1000)),
    )
    for step in steps
]


def shift_at(moment: int, zone: datetime.tzinfo | None) -> int:
    """How many nanoseconds the clocks of a zone are before UTC at a moment."""
    if zone is None:
        return 0
    try:
        local = datetime.datetime.fromtimestamp(moment // 10**9, zone)
    except (ValueError, OverflowError) as error:
        raise Refused(f"the moment {moment} ns after 1970 lies outside of the years 1 to 9999") from error
    return (local.utcoffset() or datetime.timedelta()) // datetime.timedelta(seconds=1) * 10**9


def days(begin: int, end: int, step: int, zone: datetime.tzinfo | None) -> list[int]:
    """The midnights of a stretch, one for each step of whole days."""
    first, last = begin + shift_at(begin, zone), end + shift_at(end, zone)
    found = {local_moment(local, zone) for local in range(-(-first // step) * step, last + 1, step)}
    return sorted(moment for moment in found if begin <= moment <= end)


def months(begin: int, end: int, count: int, zone: datetime.tzinfo | None) -> list[int]:
    """The midnights before the first days of months in a stretch, so many months apart; multiples of twelve begin with a January."""
    local = [EPOCH + datetime.timedelta(seconds=(moment + shift_at(moment, zone)) // 10**9) for moment in (begin, end)]
    first, last = (date.year * 12 + date.month - 1 for date in local)
    firsts = [datetime.datetime(month // 12, month % 12 + 1, 1) for month in range(first // count * count, last + 1, count) if month >= 12]
    found = [local_moment((date - EPOCH).days * DAY, zone) for date in firsts]
    return [moment for moment in found if begin <= moment <= end]


def times_of_day(begin: int, end: int, step: int, zone: datetime.tzinfo | None) -> Iterator[int]:
    """The moments whose local time is a multiple of a step: a time that the zone has twice has two, and one that it leaves out none."""
    while begin <= end:
        shift = shift_at(begin, zone)
        moment = -(-(begin + shift) // step) * step - shift
        if shift_at(moment, zone) != shift:
            begin = change(begin, moment, zone)
        else:
            if moment <= end:
                yield moment
            begin = moment + 1


def change(before: int, after: int, zone: datetime.tzinfo | None) -> int:
    """The moment at which the clocks are changed between two."""
    while after - before > 1:
        middle = (before + after) // 2
        if shift_at(middle, zone) == shift_at(before, zone):
            before = middle
        else:
            after = middle
    return after


def axis_of(clock: Clock | None, lo: int, hi: int, zone: datetime.tzinfo | None, zone_name: str) -> tuple[list[float], list[str], str]:
    """Where the marks of the axis stand, in ticks after `lo`, their texts, and the text of the axis."""
    if clock is None:
        length = max(1, (hi - lo) // 8)
        power = 10 ** (len(str(length)) - 1)
        step = next(power * many for many in (1, 2, 5, 10) if power * many >= length)
        marks = range(-(-lo // step) * step, hi + 1, step)
        return [float(mark - lo) for mark in marks], [f"{mark:,}" for mark in marks], "ticks"
    begin, end = clock.moment(lo), clock.moment(hi)
    first, last = (moment_text(moment, 0, zone)[:10] for moment in (begin, end - 1))
    step = next((step for step in STEPS if (end - begin) // step <= 9), STEPS[-1])
    if step >= MONTH:
        moments = months(begin, end, step // MONTH, zone)
    else:
        moments = days(begin, end, step, zone) if step >= DAY else list(times_of_day(begin, end, step, zone))
    digits = 0 if step % 10**9 == 0 else 3 if step % 10**6 == 0 else 6 if step % 10**3 == 0 else 9
    texts = [moment_text(moment, digits, zone) for moment in moments]
    part = slice(11, 20 + digits if digits else 19)
    if step >= DAY:
        part = slice(0, 4 if step >= 12 * MONTH else 7 if step >= MONTH else 10)
    elif step % (60 * 10**9) == 0:
        part = slice(11, 16)
    day = first if first == last else f"{first} to {last}"
    return [(moment - begin) / clock.tick for moment in moments], [text[part] for text in texts], f"{day} ({zone_name})"


def changes(begin: int, end: int, zone: datetime.tzinfo | None) -> list[tuple[int, int]]:
    """How far the clocks of a zone are before UTC in nanoseconds, from the begin of a stretch on and from each change in it on. Two changes
    in a day that cancel each other out aren't seen; in a stretch of more than 500 years, nor are such in a few days."""
    found = [(begin, shift_at(begin, zone))]
    step = max(DAY, (end - begin) // 200000)
    while zone is not None and begin < end:
        after = min(begin + step, end)
        if shift_at(after, zone) != found[-1][1]:
            moment = change(begin, after, zone)
            found.append((moment, shift_at(moment, zone)))
            after = moment
        begin = after
    return found
