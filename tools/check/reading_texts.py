"""Random texts of readings: the options that say how they are written, and lines that are mostly good."""
from __future__ import annotations

import dataclasses
import datetime
import functools
import itertools
import random
from fractions import Fraction
from typing import Iterator, Sequence

from check.feeds import T
from check.live import BYTE_ORDER_MARK, LONGEST_LINE
from check.random_feeds import random_value
from check.readings import EPOCH, NUMBERS, SECOND, UNITS, Form, zone_named
from check.zones import offset_at, transitions_of

FIRST_YEAR, LAST_YEAR = -62_135_596_800, 253_402_300_799
# Zones of the system, of which some change their clocks by half an hour or a day, at midnight, or not at all.
ZONES = "Europe/Zurich Europe/Dublin America/New_York America/St_Johns America/Argentina/Buenos_Aires America/Port-au-Prince Asia/Beirut \
    Asia/Kathmandu Africa/Casablanca Australia/Lord_Howe Pacific/Apia Etc/GMT+5 UTC".split()


# Forms and options


def random_form(draw: random.Random, names: Sequence[str], base: int) -> Form:
    """How readings are written and what they mean, if their ticks lie around a tick."""
    far = abs(base) > 10**6
    unit = draw.choice([None, None, None, *NUMBERS])
    lengths = [SECOND, SECOND, SECOND // 2, 60 * SECOND, 7000, 10**6, 1, 86400 * SECOND, draw.randint(1, 10**12)]
    tick = 1 if far and unit is None else draw.choice(lengths)
    named = draw.random() < 0.6
    event, events = random_events(draw, names)
    max_age, ages = (None, {}) if event else random_ages(draw, [name for name in names if name not in events])
    delimiter = draw.choice([*[","] * 6, ";", ";", "\t", "|", " ", "-", "0", "x"])
    same, some = draw.choice([1, 1, 10, 100, 1000, 60, 10**18]), [name for name in names if draw.random() < 0.7]
    scales = {name: draw.choice([1, 10, 100, 7]) for name in some} if draw.random() < 0.5 else dict.fromkeys(names, same)
    form = Form(
        time=draw.choice(["time", "time", "Time (UTC)", "a,b;c", "t"]),
        name=draw.choice(["sensor", "n"]) if named else None,
        value=draw.choice(["value", "value of it"]) if named else None,
        tick=tick,
        origin=draw.choice([0, 0, 1_772_323_200 * SECOND, 1_772_323_200 * SECOND + 250_000_000, -86400 * SECOND, 1]),
        unit=unit,
        scales=scales,
        event=event,
        events=events,
        max_age=max_age,
        ages=ages,
        closed=draw.choice(["left", "left", "right"]),
        ties=draw.choice(["refuse", "first", "last", "last", "spread"]),
        nulls=draw.choice([[], [], ["NaN"], ["-1", "n/a"], ["NaN", "nan", "\u2013"]]),
        skip_empty=draw.random() < 0.3,
        delimiter=delimiter,
        decimal="." if delimiter == "," or draw.random() < 0.6 else ",",
    )
    return in_zone(draw, form, far) if unit is None and draw.random() < 0.5 else form


@functools.cache
def changes_of(zone: str) -> list[int]:
    """The seconds from 1970 to each change of the clocks of a zone, up to 2037."""
    return [*transitions_of(zone_named(zone))]


def in_zone(draw: random.Random, form: Form, far: bool) -> Form:
    """The same form with local times of a zone. Mostly the first ticks lie around a change of its clocks, unless ticks are far away."""
    form = dataclasses.replace(form, zone=draw.choice(ZONES), fold=draw.choice([None, None, "first", "second"]))
    changes = changes_of(form.zone or "")
    if far or not changes or draw.random() < 0.2:
        return form
    tick = draw.choice([60, 300, 600, 900, 1800, 3600]) * SECOND
    origin = draw.choice(changes) * SECOND - draw.randint(-5, 10) * tick + draw.choice([0, 0, 0, 250_000_000])
    return dataclasses.replace(form, tick=tick, origin=origin)


def random_events(draw: random.Random, names: Sequence[str]) -> tuple[bool, list[str]]:
    """Whether the readings of all inputs hold for their tick alone; or of which inputs they do."""
    if draw.random() < 0.2:
        return True, []
    return False, [name for name in names if draw.random() < 0.3]


def random_ages(draw: random.Random, names: Sequence[str]) -> tuple[int | None, dict[str, int]]:
    """For how many ticks the readings of all inputs hold at most; or those of some of these."""
    ticks = [1, 2, 3, 5, 10, 100]
    if draw.random() < 0.3:
        return draw.choice(ticks), {}
    return None, {name: draw.choice(ticks) for name in names if draw.random() < 0.3}


def duration_text(draw: random.Random, length: int) -> str:
    unit = draw.choice([unit for unit, each in UNITS.items() if length % each == 0])
    return f"{length // UNITS[unit]}{unit}"


def words_of(draw: random.Random, form: Form, names: Sequence[str]) -> list[list[str]]:
    """The options that say a form, each with its value. What is the default is left out at times."""
    given = {"time": form.time, "name": form.name, "value": form.value, "unit": form.unit, "tick": duration_text(draw, form.tick)}
    given |= {"zone": form.zone, "fold": form.fold}
    given["null"] = ",".join(form.nulls) or None
    given["max-age"] = ",".join(f"{name}={duration_text(draw, age * form.tick)}" for name, age in form.ages.items()) or None
    if form.max_age is not None:
        given["max-age"] = duration_text(draw, form.max_age * form.tick)
    given["events"] = ",".join(form.events) or None
    texts = {"closed": form.closed, "ties": form.ties, "decimal": form.decimal, "delimiter": form.delimiter.replace("\t", "\\t")}
    defaults = {"closed": "left", "ties": "refuse", "decimal": ".", "delimiter": ","}
    given |= {option: text for option, text in texts.items() if text != defaults[option] or draw.random() < 0.2}
    scales = {form.scale(name) for name in names}
    if len(scales) == 1 and draw.random() < 0.7:
        given["scale"] = str(scales.pop()) if scales != {1} or draw.random() < 0.2 else None
    elif form.scales:
        given["scale"] = ",".join(f"{name}={scale}" for name, scale in form.scales.items())
    if form.origin or draw.random() < 0.1:
        given["origin"] = date_text(draw, form.origin).replace(" ", "T")
    flags = {"event": form.event, "skip-empty": form.skip_empty}
    texts_given = [[f"--{option}", text] for option, text in given.items() if text is not None]
    return texts_given + [[f"--{option}"] for option, chosen in flags.items() if chosen]


# Texts


def date_text(draw: random.Random, moment: int) -> str:
    """A date with an offset from UTC."""
    seconds, nanoseconds = divmod(moment, SECOND)
    offset = draw.choice([0, 0, 0, 60, 330, -480, 14 * 60 + 45, -(23 * 60 + 59)])
    if not FIRST_YEAR + 86400 <= seconds <= LAST_YEAR - 86400:
        offset = 0
    hours, minutes = divmod(abs(offset), 60)
    zone = f"{'-' if offset < 0 else '+'}{hours:02}:{minutes:02}" if offset else draw.choice(["Z", "Z", "z", "+00:00", "-00:00"])
    return clock_text(draw, seconds + offset * 60, nanoseconds) + zone


def local_text(draw: random.Random, zone: str, moment: int) -> str:
    """What clocks of a zone show at a moment, as a date without an offset. Some have the offset of two hours before or after it: such a
    local time may be one that they skip or show twice."""
    seconds, nanoseconds = divmod(moment, SECOND)
    offset = offset_at(zone_named(zone), seconds + draw.choice([*[0] * 10, -7200, 7200]))
    return clock_text(draw, seconds + offset, nanoseconds)


def clock_text(draw: random.Random, local: int, nanoseconds: int) -> str:
    """The day and the time that clocks show so many seconds after they showed 1970-01-01T00:00:00."""
    shown = EPOCH + datetime.timedelta(seconds=local)
    digits = f"{nanoseconds:09}".rstrip("0") + "0" * draw.choice([0, 0, 1, 5])
    fraction = draw.choice(".....,") + digits if digits else ""
    return f"{shown:%Y-%m-%d}".zfill(10) + draw.choice("TTTT ") + f"{shown:%H:%M:%S}{fraction}"


def decimal_text(draw: random.Random, number: Fraction, mark: str) -> str:
    """A number whose decimals have an end, with zeros at either side of it at times."""
    decimals = next(count for count in itertools.count() if number * 10**count % 1 == 0)
    digits = str(abs(int(number * 10**decimals))).zfill(decimals + draw.choice([0, 1, 1, 1, 3]))
    whole, fraction = digits[: len(digits) - decimals], digits[len(digits) - decimals :] + "0" * draw.choice([0, 0, 0, 2])
    sign = "-" if number < 0 else draw.choice(["", "", "", "+"])
    return sign + (whole + mark + fraction if fraction or not whole or draw.random() < 0.05 else whole)


def has_end(number: Fraction) -> bool:
    return 10**40 % number.denominator == 0


def moment_text(draw: random.Random, form: Form, tick: int) -> str:
    """A time that lies in a tick: at its first moment, its last one, or between."""
    inside = draw.choice([0, 0, form.tick - 1, draw.randrange(form.tick)]) + (form.closed == "right")
    moment = form.origin + (tick - 1) * form.tick + inside
    if form.unit is not None:
        return decimal_text(draw, Fraction(moment, UNITS[form.unit]), ".")
    if not FIRST_YEAR <= moment // SECOND <= LAST_YEAR:
        return "10000-01-01T00:00:00Z"
    return local_text(draw, form.zone, moment) if form.zone is not None and draw.random() < 0.8 else date_text(draw, moment)


def value_text(draw: random.Random, form: Form, name: str) -> str:
    """A value of an input, or no value."""
    if draw.random() < 0.12:
        return draw.choice(["", *form.nulls])
    value = random_value(draw)
    number = Fraction(value, form.scale(name))
    return decimal_text(draw, number if has_end(number) else Fraction(value), form.decimal)


def field_text(draw: random.Random, form: Form, text: bytes) -> bytes:
    """A field that says a text. White space around it isn't part of it."""
    blanks = [each for each in (b"", b"", b" ", b"\t", b"  ") if form.delimiter.encode() not in each]
    text = draw.choice(blanks) + text + draw.choice(blanks) if draw.random() < 0.06 else text
    if form.delimiter.encode() in text or text.startswith(b'"') or draw.random() < 0.06:
        return b'"' + text.replace(b'"', b'""') + b'"'
    return text


def line_of(draw: random.Random, form: Form, record: Sequence[bytes]) -> bytes:
    mark = BYTE_ORDER_MARK if draw.random() < 0.02 else b""
    return mark + form.delimiter.encode().join(field_text(draw, form, text) for text in record)


# Feeds


@dataclasses.dataclass(frozen=True)
class Columns:
    """The titles of a text, in order. Those that have no meaning are beside the others."""

    titles: list[bytes]

    def record(self, draw: random.Random, cells: dict[str, str]) -> list[bytes]:
        """A record with these cells under their titles; another column has any text."""
        known = {title.encode(): text.encode() for title, text in cells.items()}
        return [known.get(title, draw.choice([b"", b"x", b'say "it"', b"1;2,3"])) for title in self.titles]


def random_columns(draw: random.Random, form: Form, names: Sequence[str]) -> Columns:
    needed = [form.time, *([form.name, form.value] if form.name and form.value else names)]
    others = draw.sample(["unit", "place of it", "", "X"], draw.choice([0, 0, 0, 1, 2]))
    titles = [title.encode() for title in dict.fromkeys([*needed, *others])]
    return Columns(draw.sample(titles, len(titles)) if draw.random() < 0.5 else titles)


def random_cells(draw: random.Random, form: Form, names: Sequence[str], tick: int) -> dict[str, str]:
    """The cells of a record at a tick."""
    time = {form.time: moment_text(draw, form, tick)}
    if form.name is None or form.value is None:
        silent = draw.choice([0.0, 0.3, 0.7])
        return {name: "" if draw.random() < silent else value_text(draw, form, name) for name in names} | time
    if draw.random() < 0.15 or not names:
        return {form.name: "", form.value: ""} | time
    if draw.random() < 0.05:
        return {form.name: draw.choice(["other", "X", " x y"]), form.value: draw.choice(["1", "no number"])} | time
    name = draw.choice(names)
    return {form.name: name, form.value: value_text(draw, form, name)} | time


def random_ticks(draw: random.Random, base: int) -> Iterator[int]:
    """Ticks that mostly rise."""
    tick = base + draw.randint(-14, 4)
    far = draw.choice([20, 20, 200])
    while True:
        yield max(-T + 1, min(T, tick - draw.choice([1, 1, 2, 9]) if draw.random() < 0.07 else tick))
        tick += draw.choice([0, 0, 0, 1, 1, 1, 1, 2, 3, 5, draw.randint(1, far)])


NO_DATES = b"x 2026-03-01 2026-03-01T00:00:00 2026-03-01T00:00Z 2026-03-01t00:00:00Z 2026-03-01T00:00:00+0100 2026-03-01T00:00:00.Z 1.5"
NO_MOMENTS = b"2026-02-29T00:00:00Z 2026-03-01T24:00:00Z 2026-03-01T00:00:60Z 2026-03-01T00:00:00+24:00 2026-03-01T00:00:00+00:60"
FAR_DATES = b"0000-01-01T00:00:00Z 0001-01-01T00:00:00+00:01 9999-12-31T23:59:59-00:01 9999-12-31T23:59:59.9Z"
# Without an offset, also at both edges of what clocks in Zurich skip and show twice.
NO_OFFSETS = b"2026-02-29T00:00:00 2026-03-01T00:00:60 0001-01-01T00:00:00 9999-12-31T23:59:59.9 2026-03-01T00:00:00.0000000001 \
    2026-03-01T00:00:00. 2026-03-29T01:59:59.9 2026-03-29T02:00:00 2026-03-29T02:59:59.9 2026-03-29T03:00:00 2026-10-25T01:59:59.9 \
    2026-10-25T02:00:00 2026-10-25T02:59:59.9 2026-10-25T03:00:00"
BAD_DATES = [b"", b"2026-03-01T00:00:00.0000000001Z", *NO_DATES.split(), *NO_MOMENTS.split(), *FAR_DATES.split(), *NO_OFFSETS.split()]
BAD_NUMBERS = [b"", b"9" * 38, b"-1" + b"0" * 36, b"1" + b"0" * 27, *b"- . 1e3 1_0 1,5 0.0000000001 1.5 2026-03-01T00:00:00Z".split()]
NO_VALUES = b"x 1e3 1_000 --1 + . , 1.2.3 1/2 0x1 1.5 1,5 0.001 0,05 0.00000000000000000001 9223372036854775808 -9223372036854775809"
BAD_VALUES = [b"1 2", b"\xff", b"\xd9\xa3", b"9" * 40, *NO_VALUES.split()]


def spoiled(draw: random.Random, form: Form, columns: Columns, record: Sequence[bytes]) -> bytes:
    """A line that is bad, or only nearly so, made of a record."""
    delimiter, line = form.delimiter.encode(), line_of(draw, form, record)

    def changed(title: str, texts: Sequence[bytes]) -> bytes:
        place = columns.titles.index(title.encode())
        return line_of(draw, form, [*record[:place], draw.choice(texts), *record[place + 1 :]])

    values = draw.choice(columns.titles).decode() if form.value is None else form.value
    ends = [repr(end).encode() for end in (T, T + 1, 1 - T, -T, 2**63)]
    choices = [
        [b"\r\r", b'"', b'""', line + b"\r" + line, BYTE_ORDER_MARK, b'"' + line, b'"x"y' + delimiter + line],
        [line + delimiter, line.rpartition(delimiter)[0], delimiter * 20],
        [changed(form.time, BAD_NUMBERS if form.unit else BAD_DATES)] * 2,
        [changed(form.time, ends)],
        [changed(values, BAD_VALUES)] * 2,
        [changed(form.name or form.time, [b"", b"other", b"x y"])],
        [line + b" " * (LONGEST_LINE - len(line) - draw.choice([0, 1, -1])), b"x" * (LONGEST_LINE + draw.choice([0, 1, 100000]))],
    ]
    return draw.choice(draw.choice(choices))


def random_header(draw: random.Random, form: Form, columns: Columns) -> list[bytes]:
    """The lines of a header, which at times is bad. A blank line isn't one."""
    titles, which = [*columns.titles], draw.random()
    if which < 0.02:
        titles.pop()
    elif which < 0.04:
        titles.append(draw.choice(titles))
    elif which < 0.06:
        titles[0] = titles[0].upper() + b"s"
    header = line_of(draw, form, titles)
    if draw.random() < 0.04:
        header = draw.choice([b"\r\r", header + b"\r" + header, b"", b"x" * (LONGEST_LINE + 1)])
    return [b""] * draw.choice([0, 0, 0, 1]) + [header]


def random_lines(draw: random.Random, form: Form, names: Sequence[str], base: int, bad: float) -> Iterator[bytes]:
    """The lines of a text of readings, without their ends."""
    columns = random_columns(draw, form, names)
    yield from random_header(draw, form, columns) if bad else [line_of(draw, form, columns.titles)]
    for tick in itertools.islice(random_ticks(draw, base), draw.choice([0, 3, 8, 15, 25, 40])):
        record = columns.record(draw, random_cells(draw, form, names, tick))
        while draw.random() < bad:
            yield spoiled(draw, form, columns, record)
        if draw.random() < 0.04:
            yield b""
        yield line_of(draw, form, record)


def random_text(draw: random.Random, lines: Iterator[bytes]) -> bytes:
    """The text of a feed. Its lines end in one way or the other, and at times the last one has no end."""
    with_return = draw.choice([0.0, 0.0, 0.1, 1.0])
    text = b"".join(line + (b"\r\n" if draw.random() < with_return else b"\n") for line in lines)
    return text[: -draw.choice([1, 1, 2, 5])] if draw.random() < 0.15 else text
