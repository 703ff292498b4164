#!/usr/bin/env python3
"""Makes the series of examples/sensors, examples/trading and examples/clinical, from draws that are the same on every machine, and what
their queries give on them, by tools/check/evaluate.py; and the raw files as one has them, with dates and decimals, from which `tilt-data
series` makes these series. The word FOLDER names the folder whose `sensors`, `trading` and `clinical` get the files; without a word it is
`examples` of the repository. The queries are those of the repository in any case."""
from __future__ import annotations

import datetime
import os
import subprocess
import sys
from typing import Iterable, Sequence, TextIO

sys.path.insert(0, os.path.dirname(os.path.dirname(os.path.realpath(__file__))))

from shared.paths import EVALUATE, TOP
from shared.series import Row, put_rows

EXAMPLES = os.path.join(TOP, "examples")
# A row of a series whose rows all have a value.
Whole = tuple[int, int, int]


class Draws:
    """Whole numbers that look random: a linear generator on 32 bits, of which the upper 16 are used."""

    def __init__(self, seed: int) -> None:
        self.state = seed

    def below(self, limit: int) -> int:
        self.state = (1664525 * self.state + 1013904223) % 2**32
        return (self.state >> 16) % limit

    def around(self, most: int) -> int:
        """From -most to most; those in the middle are more frequent."""
        return (self.below(2 * most + 1) + self.below(2 * most + 1)) // 2 - most


def between(points: Sequence[tuple[int, int]], tick: int) -> int:
    """The height at a tick of the line through these points, rounded down."""
    for (start, low), (end, high) in zip(points, points[1:]):
        if start <= tick <= end:
            return low + (high - low) * (tick - start) // (end - start)
    return points[-1][1]


# Sensors: a tick is a second, a value is a tenth of a degree.

DAY = 86400
WARMTH = [
    (0, 182),
    (21600, 170),
    (32400, 224),
    (36000, 238),
    (39600, 252),
    (43200, 246),
    (46800, 228),
    (50400, 226),
    (52200, 252),
    (58800, 250),
    (61200, 222),
    (66000, 220),
    (66600, 242),
    (67800, 242),
    (68400, 214),
    (DAY, 186),
]
# Without a reading: the sensor was switched on at 00:03, lost twice, and off for an hour.
NOT_READ = [(0, 180), (38100, 38400), (54720, 55800), (72000, 75600)]


def temperature() -> list[Row]:
    """A reading each minute. Where the sensor fails it writes an empty value."""
    draws = Draws(1)
    rows = []
    for start in range(0, DAY, 60):
        value = between(WARMTH, start) + draws.around(4)
        failed = draws.below(60) == 0
        if not any(lo <= start < hi for lo, hi in NOT_READ):
            rows.append((start, start + 60, None if failed else value))
    return rows


def limit() -> list[Whole]:
    return [(0, 25200, 235), (25200, 39000, 240), (39000, 50400, 236), (50400, 64800, 240), (64800, DAY, 235)]


# Trading: a tick is a millisecond, a price is in hundredths of a cent, and quotes are in whole cents.

TEN_MINUTES = 600000
PRICE = [
    (0, 1002000),
    (90000, 1004600),
    (170000, 1001200),
    (230000, 1003000),
    (262000, 997400),
    (330000, 1001800),
    (410000, 1000200),
    (480000, 1004200),
    (540000, 1000400),
    (TEN_MINUTES, 1002400),
]
HALT = 300000, 315000


def moments(draws: Draws, every: int) -> list[int]:
    """Times in order, some `every` milliseconds apart, and none while trading is halted."""
    time = draws.below(every)
    times = []
    while time < TEN_MINUTES - 1:
        if not HALT[0] <= time < HALT[1]:
            times.append(time)
        time += 1 + draws.below(2 * every)
    return times


def cents(price: int) -> int:
    return price // 100 * 100


def quotes() -> tuple[list[Whole], list[Whole]]:
    """The bid and the ask; each quote holds until the next one, or until trading is halted."""
    draws = Draws(2)
    times = moments(draws, 600)
    bids, asks = [], []
    for start, end in zip(times, times[1:] + [TEN_MINUTES]):
        if start < HALT[0]:
            end = min(end, HALT[0])
        bid = cents(between(PRICE, start) + draws.around(200))
        bids.append((start, end, bid))
        asks.append((start, end, bid + 100 * (1 + draws.below(3))))
    return bids, asks


def trades(bids: list[Whole], asks: list[Whole]) -> list[Whole]:
    """A trade is one tick long, at the bid or the ask of its tick. One in eight comes as two, one tick after another."""
    draws = Draws(3)
    rows: list[Whole] = []
    for time in moments(draws, 560):
        side = bids if draws.below(2) == 0 else asks
        prices = [price for start, end, price in side if start <= time < end]
        pieces = 1 + (draws.below(8) == 0)
        for piece in range(pieces):
            if prices and (not rows or rows[-1][1] <= time + piece):
                rows.append((time + piece, time + piece + 1, prices[0]))
    return rows


# Clinical: a tick is a second, the heart rate is in beats a minute, the saturation in percent.

WARD = 2400
# Each fall of the saturation: when it begins, how deep it is, and for how long it falls, stays and rises.
FALLS = [(300, 7, 12, 20, 10), (700, 5, 8, 6, 8), (735, 6, 8, 12, 10), (1250, 9, 15, 40, 15), (1800, 8, 10, 30, 12)]
PROBE_OFF = 505, 560
NOT_MEASURED = 1824, 1832
MONITOR_OFF = 2095, 2165


def depth(tick: int) -> int:
    """How far the saturation has fallen."""
    for begin, deep, fall, stay, rise in FALLS:
        points = [(begin, 0), (begin + fall, deep), (begin + fall + stay, deep), (begin + fall + stay + rise, 0)]
        if begin <= tick <= points[-1][0]:
            return between(points, tick)
    return 0


def lies_in(stretch: tuple[int, int], tick: int) -> bool:
    return stretch[0] <= tick < stretch[1]


def saturation() -> list[Row]:
    """A reading each second. Where the probe is off the finger there is one row without a value, where a second can't be measured it has
    a row without a value, and where the monitor is off there is no row."""
    draws = Draws(4)
    rows: list[Row] = []
    for tick in range(WARD):
        value = 97 - depth(tick) + draws.around(1)
        if tick == PROBE_OFF[0]:
            rows.append((*PROBE_OFF, None))
        elif not lies_in(PROBE_OFF, tick) and not lies_in(MONITOR_OFF, tick):
            rows.append((tick, tick + 1, None if lies_in(NOT_MEASURED, tick) else value))
    return rows


def heart() -> list[Whole]:
    """A reading each second. The heart beats faster some seconds after the beginning of a fall."""
    draws = Draws(5)
    rows = []
    for tick in range(WARD):
        value = 74 + 2 * depth(tick - 10) + draws.around(2)
        if not lies_in(MONITOR_OFF, tick):
            rows.append((tick, tick + 1, value))
    return rows


# Raw files, as a logger, a feed and a monitor write them.

SENSOR_DAY = datetime.datetime(2026, 3, 2)
OPENING = datetime.datetime(2026, 3, 2, 14, 30)
WARD_BEGINS = datetime.datetime(2026, 3, 2, 22, 0)


def moment(begin: datetime.datetime, milliseconds: int, digits: int) -> str:
    """A time of ISO 8601 with three digits of a second, or none."""
    time = (begin + datetime.timedelta(milliseconds=milliseconds)).isoformat(timespec="milliseconds")
    return time[: 23 if digits else 19]


def put_sensors(file: TextIO) -> None:
    """Temperature, humidity and limit in one file. The logger sends one reading in fifty twice, and every hundredth of the humidity
    late."""
    draws = Draws(6)
    lines = []
    for start, _, value in temperature():
        lines += [(start, f"temperature,{'' if value is None else f'{value / 10:.1f}'}")] * (1 + (draws.below(50) == 0))
    for start in range(200, DAY, 300):
        lines.append((start, f"humidity,{48 + draws.around(3)}.0"))
    for start, _, value in limit():
        lines.append((start, f"limit,{value / 10:.1f}"))
    lines.sort(key=lambda line: line[0])
    for at in range(99, len(lines) - 7, 100):
        lines.insert(at + 7, lines.pop(at))
    file.write("time,sensor,value\n")
    file.writelines(f"{moment(SENSOR_DAY, start * 1000, 0)},{line}\n" for start, line in lines)


def put_trading(file: TextIO, rows: Iterable[Whole]) -> None:
    """A trade of a millisecond that others have too has their time: the feed doesn't tell two apart."""
    draws = Draws(7)
    file.write("time,price,size\n")
    before = None
    for start, _, value in rows:
        shown = start - 1 if before == start - 1 else start
        file.write(f"{moment(OPENING, shown, 3)},{value // 10000}.{value % 10000 // 100:02d},{100 * (1 + draws.below(9))}\n")
        before = start


def put_clinical(file: TextIO) -> None:
    """Both signals side by side. A second that can't be measured, and one without a probe, has an empty field or -1."""
    heart_rates = {start: value for start, _, value in heart()}
    file.write("time,saturation,heart\n")
    saturations = {tick: value for start, end, value in saturation() for tick in range(start, end)}
    for tick, rate in heart_rates.items():
        value = saturations.get(tick)
        shown = value if value is not None else "" if lies_in(PROBE_OFF, tick) else -1
        file.write(f"{moment(WARD_BEGINS, tick * 1000, 0)},{shown},{rate}\n")


def put_raw(top: str, traded: Sequence[Whole]) -> None:
    for example, name, put in (
        ("sensors", "readings", put_sensors),
        ("clinical", "monitor", put_clinical),
        ("trading", "trades", lambda file: put_trading(file, traded)),
    ):
        os.makedirs(os.path.join(top, example, "raw"), exist_ok=True)
        with open(os.path.join(top, example, "raw", name + ".csv"), "w", encoding="ascii") as file:
            put(file)


# The files


def inputs_of(query: str) -> list[str]:
    with open(query, encoding="ascii") as file:
        return [line.split()[1].strip(";") for line in file if line.startswith("input ")]


def put_expected(example: str, folder: str) -> None:
    """What each query of the example gives on the series of the folder."""
    os.makedirs(os.path.join(folder, "expected"), exist_ok=True)
    queries = os.path.join(EXAMPLES, example)
    for query in sorted(name for name in os.listdir(queries) if name.endswith(".tilt")):
        path = os.path.join(queries, query)
        binds = [f"{name}={os.path.join(folder, name)}.csv" for name in inputs_of(path)]
        with open(os.path.join(folder, "expected", query.replace(".tilt", ".csv")), "wb") as file:
            subprocess.run([EVALUATE, path, *binds], stdout=file, check=True)


def main() -> int:
    top = sys.argv[1] if len(sys.argv) > 1 else EXAMPLES
    bids, asks = quotes()
    traded = trades(bids, asks)
    series: dict[str, dict[str, Sequence[Row]]] = {
        "sensors": {"temperature": temperature(), "limit": limit()},
        "trading": {"trade": traded, "bid": bids, "ask": asks},
        "clinical": {"saturation": saturation(), "heart": heart()},
    }
    for example, named in series.items():
        folder = os.path.join(top, example)
        os.makedirs(folder, exist_ok=True)
        for name, rows in named.items():
            put_rows(os.path.join(folder, f"{name}.csv"), rows)
        put_expected(example, folder)
    put_raw(top, traded)
    return 0


if __name__ == "__main__":
    sys.exit(main())
