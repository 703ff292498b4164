"""`tilt-data plot`: what is drawn where, and what is refused."""
from __future__ import annotations

import datetime
import hashlib
import io
import itertools
import os
import pathlib
import random
import struct
import sys
import xml.etree.ElementTree
import zoneinfo

import pytest
from tilt_data import Convention, plot
from tilt_data.axis import axis_of
from tilt_data.clock import Clock
from tilt_data.drawn import Drawn, bands_of, clipped, numbers_of, thinned
from tilt_data.errors import Refused
from tilt_data.files import Notes
from tilt_data.plotting import BAND, COLOURS, LIMIT, Size, bands, look_of, steps

MINUTE = 60 * 10**9


def put(name: str, rows: str, kind: str = "hold", origin: int = 0) -> None:
    pathlib.Path(f"{name}.csv").write_text("start,end,value\n" + rows)
    pathlib.Path(f"{name}.json").write_text(Notes(Clock(10**9, origin), 10, kind, name).text())


def test_steps_break_where_there_is_a_gap():
    times, values = steps([(0, 5, 10), (5, 6, 20), (8, 9, 30)], 10)
    assert times == [0, 5, 5, 6, 6, 8, 9] and values[:4] == [1, 1, 2, 2] and values[4] != values[4] and values[5:] == [3, 3]


def test_rows_are_clipped():
    assert list(clipped([(0, 5, 1), (5, 8, None), (8, 20, 2), (20, 30, 3)], 3, 15)) == [(3, 5, 1), (8, 15, 2)]


def test_thinning_keeps_the_extremes_of_each_pixel():
    draws = random.Random(10)
    rows = [(at, at + 1, draws.randrange(1000)) for at in range(100000)]
    rows[54321] = (54321, 54322, 5000)
    rows[54399] = (54399, 54400, -5000)
    kept = list(thinned(rows, 0, 100000, 100))
    assert len(kept) <= 4 * 101 and kept == sorted(kept) and set(kept) <= set(rows)
    for lo in range(0, 100000, 1000):
        whole, part = ([row[2] for row in some if lo <= row[0] < lo + 1000] for some in (rows, kept))
        assert (min(whole), max(whole)) == (min(part), max(part))
    few = rows[:150]
    assert list(thinned(few, 0, 150, 1800)) == few


def test_thinned_rows_are_one_line_and_a_gap_stays_one():
    draws = random.Random(13)
    hour, day = 3600, 12 * 86400
    rows = [(at, at + 1, draws.randrange(80, 100)) for at in range(0, day, 6)]
    rows = [(start, start + 6, value) for start, _, value in rows if not day // 2 <= start < day // 2 + 2 * hour]
    kept = list(thinned(rows, 0, day, 1800))
    assert len(kept) < len(rows) / 10
    times, values = steps(kept, 1, 0, day / 750)
    breaks = [at for at, value in enumerate(values) if value != value]
    # The one break is the gap of two hours, from its start on.
    assert [times[at] for at in breaks] == [day // 2] and times[breaks[0] + 1] == day // 2 + 2 * hour
    # Rows that don't touch are a gap whatever its length, if a tick is wider than a pixel.
    assert [value != value for value in steps([(0, 1, 5), (2, 3, 5)], 1, 0, 10 / 750)[1]] == [False, False, True, False, False]


def test_a_short_stretch_is_as_wide_as_a_pixel():
    assert steps([(0, 1, 5), (5000, 5002, 7)], 1, 0, 100.0)[0] == [0, 100, 100, 5000, 5100]
    far = 4 * 10**18 - 10
    assert steps([(far, far + 1, 5), (far + 1, far + 3, 6)], 1, far - 5)[0] == [5, 6, 6, 8]


def test_no_band_is_narrower_than_a_pixel():
    rows = [(at, at + 1, 1) for at in (0, 5000, 5001, 5900, 749999)]
    assert list(bands(rows, 0, 750000, 750)) == [(0, 1000), (5000, 6000), (749000, 750000)]
    assert list(bands([(12, 14, 1)], 10, 20, 750)) == [(2, 4)]


def marks_in(path: str, sign: int) -> int:
    """How many marks that are orange (1) or blue (-1) stand side by side in the middle of a PNG, that is, below the legend."""
    from matplotlib import pyplot

    pixels = pyplot.imread(path)
    middle = pixels[len(pixels) * 2 // 5 : len(pixels) * 3 // 5]
    found = (sign * (middle[:, :, 0] - middle[:, :, 2]) > 0.1).any(axis=0).tolist()
    return sum(now and not before for now, before in zip(found, [False, *found]))


def test_each_short_alarm_of_a_long_recording_is_seen(told):
    pytest.importorskip("matplotlib")
    # 110 alarms of 40 seconds in 12 days, far enough from each other that each has pixels of its own.
    begins = [4000 + at * 9400 for at in range(110)]
    put("temp", "0,1036800,205\n")
    pathlib.Path("alarm.csv").write_text("start,end,value\n" + "".join(f"{at},{at + 40},90\n" for at in begins))
    assert told("plot", "band.png", "temp=temp.csv", "+band:alarm=alarm.csv", "--like", "temp.csv") == (0, "", "")
    assert marks_in("band.png", 1) == 110
    assert told("plot", "step.png", "alarm=alarm.csv", "--from", "0", "--to", "1036800", "--like", "temp.csv") == (0, "", "")
    assert marks_in("step.png", -1) == 110


def test_bands():
    assert list(bands_of([(0, 5, 1), (5, 8, 2), (8, 9, 0), (9, 10, 1), (30, 31, 1)], 0)) == [(0, 8), (9, 10), (30, 31)]
    assert list(bands_of([(0, 5, 1), (8, 9, 1), (30, 31, 1)], 3)) == [(0, 9), (30, 31)]


@pytest.mark.parametrize(
    "tick, lo, hi, marks, texts, label",
    [
        (10**9, 0, 3600, 7, ["00:00", "00:10", "00:20"], "1970-01-01 (UTC)"),
        (10**6, 0, 5000, 6, ["00:00:00", "00:00:01"], "1970-01-01 (UTC)"),
        (MINUTE, 0, 10 * 1440, 6, ["1970-01-01", "1970-01-03"], "1970-01-01 to 1970-01-10 (UTC)"),
        (1, 0, 5000, 6, ["00:00:00.000000", "00:00:00.000001"], "1970-01-01 (UTC)"),
    ],
)
def test_the_axis_of_a_clock(tick, lo, hi, marks, texts, label):
    places, shown, its = axis_of(Clock(tick, 0), lo, hi, None, "UTC")
    assert len(places) == marks and shown[: len(texts)] == texts and its == label and places[0] == 0


@pytest.mark.parametrize(
    "first, last, texts",
    [
        ((1992, 3, 5), (1998, 12, 31), ["1993", "1994", "1995", "1996", "1997", "1998"]),
        ((1991, 7, 1), (2010, 2, 1), ["1992", "1994", "1996", "1998", "2000", "2002", "2004", "2006", "2008", "2010"]),
        ((1, 1, 1), (9999, 12, 31), [f"{year:04}" for year in range(1000, 9001, 1000)]),
        ((2026, 1, 20), (2026, 9, 2), ["2026-02", "2026-03", "2026-04", "2026-05", "2026-06", "2026-07", "2026-08", "2026-09"]),
        ((2025, 11, 30), (2027, 6, 1), ["2026-01", "2026-03", "2026-05", "2026-07", "2026-09", "2026-11", "2027-01", "2027-03", "2027-05"]),
        ((2024, 2, 10), (2026, 3, 1), ["2024-04", "2024-07", "2024-10", "2025-01", "2025-04", "2025-07", "2025-10", "2026-01"]),
        ((2024, 2, 10), (2028, 3, 1), ["2024-07", "2025-01", "2025-07", "2026-01", "2026-07", "2027-01", "2027-07", "2028-01"]),
    ],
)
@pytest.mark.parametrize("zone", [None, "Europe/Zurich"])
def test_marks_are_at_whole_months_and_years(first, last, texts, zone):
    shown_in = None if zone is None else zoneinfo.ZoneInfo(zone)
    if zone is not None and first[0] == 1:
        first = (1, 1, 3)
    begin, end = (int(datetime.datetime(*date, tzinfo=shown_in or datetime.timezone.utc).timestamp()) for date in (first, last))
    places, shown, _ = axis_of(Clock(10**9, begin * 10**9), 0, end - begin, shown_in, zone or "UTC")
    assert shown == texts
    for place, text in zip(places, shown):
        date = datetime.datetime(*[*map(int, text.split("-")), 1, 1][: 2 if "-" in text else 1], *([1] if "-" in text else [1, 1]))
        assert begin + place == date.replace(tzinfo=shown_in or datetime.timezone.utc).timestamp()


def local(zone: str, *when: int, fold: int = 0) -> int:
    """The seconds since 1970 of a local time."""
    return int(datetime.datetime(*when, tzinfo=zoneinfo.ZoneInfo(zone), fold=fold).timestamp())


@pytest.mark.parametrize(
    "zone, first, last",
    [
        ("Europe/Zurich", (2026, 10, 23), (2026, 10, 29)),
        ("Europe/Zurich", (2026, 3, 26), (2026, 4, 1)),
        ("America/New_York", (2026, 10, 31), (2026, 11, 6)),
    ],
)
def test_days_begin_at_midnight_also_after_a_change_of_the_clocks(zone, first, last):
    begin, end = local(zone, *first), local(zone, *last)
    places, shown, label = axis_of(Clock(10**9, begin * 10**9), 0, end - begin, zoneinfo.ZoneInfo(zone), zone)
    day, dates = datetime.date(*first), []
    while day <= datetime.date(*last):
        dates.append(day)
        day += datetime.timedelta(days=1)
    assert shown == [date.isoformat() for date in dates]
    assert [begin + place for place in places] == [local(zone, date.year, date.month, date.day) for date in dates]


@pytest.mark.parametrize(
    "zone, first, last, dates, times",
    [
        # At midnight the clocks go to 01:00, which is where this day begins.
        ("America/Sao_Paulo", (2018, 11, 3), (2018, 11, 5), [3, 4, 5], [(2018, 11, 3), (2018, 11, 4, 1), (2018, 11, 5)]),
        # At 01:00 the clocks go back to midnight: the day begins at the first of the two.
        ("America/Havana", (2026, 10, 31), (2026, 11, 2), [31, 1, 2], [(2026, 10, 31), (2026, 11, 1), (2026, 11, 2)]),
    ],
)
def test_a_day_has_one_mark_where_its_midnight_is_left_out_or_there_twice(zone, first, last, dates, times):
    begin, end = local(zone, *first) - 7 * 86400, local(zone, *last)
    places, shown, _ = axis_of(Clock(10**9, begin * 10**9), 0, end - begin, zoneinfo.ZoneInfo(zone), zone)
    assert [int(text[8:]) for text in shown[-3:]] == dates and [begin + place for place in places[-3:]] == [
        local(zone, *one) for one in times
    ]


@pytest.mark.parametrize(
    "begin, texts, hours",
    [
        # At 03:00 the clocks go back to 02:00, and at 02:00 on to 03:00.
        ((2026, 10, 25), ["00:00", "01:00", "02:00", "02:00", "03:00", "04:00"], [0, 1, 2, 3, 4, 5]),
        ((2026, 3, 29), ["00:00", "01:00", "03:00", "04:00", "05:00", "06:00"], [0, 1, 2, 3, 4, 5]),
    ],
)
def test_hours_over_a_change_of_the_clocks(begin, texts, hours):
    zone = zoneinfo.ZoneInfo("Europe/Zurich")
    places, shown, _ = axis_of(Clock(10**9, local(zone.key, *begin) * 10**9), 0, 5 * 3600, zone, zone.key)
    assert shown == texts and places == [hour * 3600 for hour in hours]


def test_times_of_a_day_are_those_of_the_clock_after_a_change():
    zone = zoneinfo.ZoneInfo("Europe/Zurich")
    begin, end = local(zone.key, 2026, 10, 24), local(zone.key, 2026, 10, 26)
    places, shown, _ = axis_of(Clock(10**9, begin * 10**9), 0, end - begin, zone, zone.key)
    assert shown == ["00:00", "06:00", "12:00", "18:00"] * 2 + ["00:00"]
    assert [begin + place for place in places] == [*(local(zone.key, 2026, 10, 24 + at // 4, at % 4 * 6) for at in range(8)), end]


def test_a_short_stretch_around_a_change():
    zone = zoneinfo.ZoneInfo("Europe/Zurich")
    # The clocks go back an hour after the first 02:00, which is two seconds after this stretch begins.
    begin = local(zone.key, 2026, 10, 25, 2) + 3600 - 2
    places, shown, _ = axis_of(Clock(10**6, begin * 10**9), 0, 4500, zone, zone.key)
    assert shown == [
        "02:59:58.000",
        "02:59:58.500",
        "02:59:59.000",
        "02:59:59.500",
        "02:00:00.000",
        "02:00:00.500",
        "02:00:01.000",
        "02:00:01.500",
        "02:00:02.000",
        "02:00:02.500",
    ]
    assert places == [500 * at for at in range(10)]


@pytest.mark.parametrize("zone", [None, zoneinfo.ZoneInfo("Europe/Zurich")])
def test_an_axis_beyond_the_years_of_dates_is_refused(zone):
    with pytest.raises(Refused, match="outside of the years 1 to 9999"):
        axis_of(Clock(10**9, 0), 0, 4 * 10**18, zone, "UTC")


def test_the_axis_of_ticks():
    assert axis_of(None, 50, 850, None, "") == (
        [50.0, 150.0, 250.0, 350.0, 450.0, 550.0, 650.0, 750.0],
        ["100", "200", "300", "400", "500", "600", "700", "800"],
        "ticks",
    )


def test_a_picture(told):
    pytest.importorskip("matplotlib")
    put("temp", "0,600,205\n600,1200,213\n1800,2400,220\n")
    put("trade", "30,31,200\n1500,1501,210\n", "event")
    pathlib.Path("alarm.csv").write_text("start,end,value\n600,1200,3\n")
    words = [
        "temp=temp.csv",
        "+limit:limit=temp.csv",
        "+band:alarm=alarm.csv",
        "trade=trade.csv",
        "--like",
        "temp.csv",
        "--unit",
        "temp=°C",
    ]
    for name in ("a.svg", "b.svg", "c.png"):
        assert told("plot", name, *words) == (0, "", "")
    text = pathlib.Path("a.svg").read_text()
    for shown in (">temp<", ">limit<", ">alarm<", ">trade<", "(°C)", ">00:10<", "1970-01-01 (UTC)"):
        assert shown in text, shown
    # The same words draw the same picture, and nothing is left beside it.
    assert text == pathlib.Path("b.svg").read_text() and pathlib.Path("c.png").read_bytes().startswith(b"\x89PNG")
    assert not [name for name in os.listdir() if name.startswith(".")]


def test_a_pdf_has_no_date(told):
    pytest.importorskip("matplotlib")
    put("x", "0,600,205\n")
    assert told("plot", "a.pdf", "x=x.csv") == told("plot", "b.PDF", "x=x.csv") == (0, "", "")
    data = pathlib.Path("a.pdf").read_bytes()
    assert data.startswith(b"%PDF-") and data == pathlib.Path("b.PDF").read_bytes() and b"tilt-data" in data and b"Date" not in data


@pytest.mark.parametrize(
    "words, width, height", [([], 900, 229), (["--size", "7x3.5"], 700, 350), (["--size", "4x2", "--dpi", "300"], 1200, 600)]
)
def test_the_size_of_a_picture(told, words, width, height):
    pytest.importorskip("matplotlib")
    put("x", "0,600,205\n")
    assert told("plot", "a.png", "x=x.csv", *words) == (0, "", "")
    assert struct.unpack(">II", pathlib.Path("a.png").read_bytes()[16:24]) == (width, height)


@pytest.mark.parametrize("words", [["--size", "3x2"], ["--size", "4x2", "--dpi", "30"], ["--size", "12x2", "--dpi", "200"]])
def test_no_alarm_is_lost_at_another_size(told, words):
    pytest.importorskip("matplotlib")
    put("temp", "0,1036800,205\n")
    # 8 alarms of a second in 12 days.
    pathlib.Path("alarm.csv").write_text("start,end,value\n" + "".join(f"{at},{at + 1},90\n" for at in range(90000, 900000, 108000)))
    assert told("plot", "band.png", "temp=temp.csv", "+band:alarm=alarm.csv", "--like", "temp.csv", *words) == (0, "", "")
    assert marks_in("band.png", 1) == 8


def test_the_axes_have_a_pixel_for_each_column():
    assert Size.of(None, 100, 1) == Size(9.0, 2.3, 100) and Size(9.0, 2.3, 100).columns == 750
    assert Size.of("2x1", 10, 1).columns == 5 and Size.of("12.5x3", 300, 2) == Size(12.5, 3.0, 300)


def test_36_names_have_looks_of_their_own():
    looks = [look_of(number) for number in range(36)]
    assert len({(colour, str(line)) for colour, line, _ in looks}) == len({(colour, dot) for colour, _, dot in looks}) == 36
    channels = [[int(colour[at : at + 2], 16) for at in (1, 3, 5)] for colour in [*COLOURS, LIMIT, BAND]]
    apart = [sum(abs(one - other) for one, other in zip(*both)) for both in itertools.combinations(channels, 2)]
    assert len(COLOURS) == 12 and min(apart) >= 60


def test_a_picture_from_python_is_that_of_the_command(told):
    pytest.importorskip("matplotlib")
    put("temp", "0,600,205\n600,1200,213\n")
    pathlib.Path("alarm.csv").write_text("start,end,value\n600,1200,3\n")
    words = ["temp=temp.csv", "+band:alarm=alarm.csv", "--like", "temp.csv", "--unit", "temp=°C", "--scale", "alarm=5", "--size", "7x3.5"]
    assert told("plot", "a.svg", *words, "--from", "300", "--title", "heat", "--zone", "Europe/Zurich") == (0, "", "")
    files = {"temp": "temp.csv", "+band:alarm": pathlib.Path("alarm.csv")}
    given = {"like": "temp.csv", "unit": {"temp": "°C"}, "scale": {"alarm": 5}, "size": (7, 3.5), "begin": 300, "title": "heat"}
    plot("b.svg", files, zone="Europe/Zurich", **given)
    assert pathlib.Path("a.svg").read_bytes() == pathlib.Path("b.svg").read_bytes()
    with pytest.raises(Refused, match="there is nothing between --from and --to"):
        plot("c.svg", files, begin=5, end=5)
    with pytest.raises(Refused, match="b.gif: a name that ends in .svg, .pdf or .png was expected"):
        plot("b.gif", files)


def test_series_and_outputs_are_drawn_as_files_of_the_same_rows(told):
    pytest.importorskip("matplotlib")
    pandas = pytest.importorskip("pandas")
    put("temp", "0,600,205\n600,1200,213\n")
    put("event", "60,61,200\n", "event")
    pathlib.Path("alarm.csv").write_text("start,end,value\n600,1200,3\n")
    assert told("plot", "a.svg", "temp=temp.csv", "+band:alarm=alarm.csv", "event=event.csv", "--like", "temp.csv") == (0, "", "")
    times = pandas.to_datetime(["1970-01-01 00:00", "1970-01-01 00:10", "1970-01-01 00:20"])
    temp = pandas.Series([20.5, 21.3, 20.0], times)
    alarm = pandas.DataFrame({"value": [3]}, pandas.IntervalIndex.from_arrays(times[1:2], times[2:], closed="left"))
    event = pandas.Series([20.0], pandas.to_datetime(["1970-01-01 00:01"]))
    convention = Convention(event={"event": True}, skip_empty=True)
    plot("b.svg", {"temp": temp, "+band:alarm": alarm, "event": event}, end=1200, convention=convention)
    assert pathlib.Path("a.svg").read_text() == pathlib.Path("b.svg").read_text()
    plot("c.svg", {"temp": "temp.csv", "+band:alarm": alarm, "event": "event.csv"})
    assert pathlib.Path("a.svg").read_text() == pathlib.Path("c.svg").read_text()
    with pytest.raises(Refused, match="^temp: a file, a Series or a DataFrame of one column was expected, not int$"):
        plot("d.svg", {"temp": 5})


def test_a_picture_leaves_the_settings_of_the_caller(told):
    matplotlib = pytest.importorskip("matplotlib")
    put("x", "0,600,205\n")
    before = dict(matplotlib.rcParams)
    plot("a.svg", {"x": "x.csv"})
    assert dict(matplotlib.rcParams) == before


def test_one_name_has_one_colour_in_all_panels():
    def drawn(name: str, form: str = "step") -> Drawn:
        return Drawn(name, f"{name}.csv", form, None, 1)

    panels = [drawn("band", "band"), drawn("x"), drawn("limit", "limit"), drawn("y", "dots"), drawn("x"), drawn("z"), drawn("y")]
    assert numbers_of(panels) == {"x": 0, "y": 1, "z": 2}
    assert len({*COLOURS, LIMIT, BAND}) == len(COLOURS) + 2


def test_a_picture_without_a_clock_has_ticks(told):
    pytest.importorskip("matplotlib")
    pathlib.Path("x.csv").write_text("start,end,value\n0,600,205\n")
    assert told("plot", "a.svg", "x=x.csv")[0] == 0
    assert ">ticks<" in pathlib.Path("a.svg").read_text()


NAMES = ["$a_{$", "\\$", "_x", "a & <b>"]


def test_names_and_titles_are_drawn_as_they_are(told):
    pytest.importorskip("matplotlib")
    put("x", "0,600,205\n")
    words = [f"{'+' if at else ''}{name}=x.csv" for at, name in enumerate(NAMES)]
    assert told("plot", "a.svg", *words, "--title", r"$\frac$ of $x$", "--unit", "$a_{$=$") == (0, "", "")
    shown = ["".join(text.itertext()).strip() for text in xml.etree.ElementTree.parse("a.svg").iter("{http://www.w3.org/2000/svg}text")]
    # Each name has its entry in the legend; the first is also at the axis.
    assert [shown.count(name) for name in NAMES] == [2, 1, 1, 1] and shown.count(r"$\frac$ of $x$") == 1 and "($)" in shown


@pytest.mark.parametrize("closed, first", [("left", 11), ("right", 12)])
def test_a_stretch_starts_where_that_of_ticks_does(told, closed, first):
    pytest.importorskip("matplotlib")
    put("x", "0,60,205\n")
    text = pathlib.Path("x.json").read_text()
    pathlib.Path("x.json").write_text(text.replace('"left"', f'"{closed}"'))
    stretch = ["--from", "1970-01-01T00:00:11.5", "--to", "1970-01-01T00:00:40"]
    assert told("ticks", "each", "each.csv", "--like", "x.csv", *stretch)[0] == 0
    assert pathlib.Path("each.csv").read_text().splitlines()[1] == f"{first},{first + 1},0"
    assert (
        told("plot", "time.svg", "x=x.csv", *stretch)
        == told("plot", "tick.svg", "x=x.csv", "--from", str(first), "--to", "40")
        == (0, "", "")
    )
    assert pathlib.Path("time.svg").read_text() == pathlib.Path("tick.svg").read_text()


def test_standard_input_and_pipes_are_drawn(told, monkeypatch):
    pytest.importorskip("matplotlib")
    rows = "start,end,value\n0,600,205\n900,1200,210\n"
    pathlib.Path("x.csv").write_text(rows)
    assert told("plot", "file.svg", "x=x.csv", "+y=x.csv") == (0, "", "")
    monkeypatch.setattr(sys, "stdin", io.TextIOWrapper(io.BytesIO(rows.encode())))
    assert told("plot", "input.svg", "x=-", "+y=-") == (0, "", "")
    receive, send = os.pipe()
    os.write(send, rows.encode())
    os.close(send)
    assert told("plot", "pipe.svg", f"x=/dev/fd/{receive}", f"+y=/dev/fd/{receive}") == (0, "", "")
    os.close(receive)
    pictures = [pathlib.Path(f"{name}.svg").read_text() for name in ("file", "input", "pipe")]
    assert ">1,000<" in pictures[0] and pictures[1] == pictures[2] == pictures[0]


@pytest.mark.parametrize(
    "words, what",
    [
        (["a.gif", "x=x.csv"], "a.gif: a name that ends in .svg, .pdf or .png was expected"),
        (["a.svg", "x=x.csv", "--size", "7"], "size 7: WIDTHxHEIGHT in inches was expected, from 2x1 to 200x200, such as 7x3.5"),
        (["a.svg", "x=x.csv", "--size", "1x1"], "size 1x1: WIDTHxHEIGHT"),
        (["a.svg", "x=x.csv", "--size", "7x²"], "size 7x²: WIDTHxHEIGHT"),
        (["a.svg", "x=x.csv", "--dpi", "9"], "dpi 9: 10 to 2400 was expected"),
        (["a.svg", "x=x.csv", "--size", "200x200", "--dpi", "300"], "dpi 300: 10 to 2400 was expected, and at most 100,000,000 pixels"),
        (["a.svg", "+x=x.csv"], "'+x=x.csv': NAME=FILE was expected, and + only after a panel"),
        (["a.svg", "x=nowhere.csv"], "nowhere.csv: No such file or directory"),
        (["a.svg", "x=x.csv", "y=y.csv"], "these files have other ticks or origins"),
        (["a.svg", "x=x.csv", "--from", "5", "--to", "5"], "there is nothing between --from and --to"),
        (["a.svg", "x=bad.csv"], "bad.csv:2: a row start,end,value of whole numbers was expected, not 0,5"),
        (["a.svg", "x=x.csv", "--scale", "²"], "--scale ²: a whole number above 0, of at most 30 digits, was expected"),
        (["a.svg", "x=x.csv", "--scale", "0"], "--scale 0: a whole number above 0, of at most 30 digits, was expected"),
        (["a.svg", "x=x.csv", "--scale", "9" * 5000], "--scale 9999"),
        (["a.svg", "x=x.csv", "--scale", "y=10"], "--scale y=..: nothing that is drawn has this name; there are: x"),
        (["a.svg", "x=x.csv", "--unit", "y=s"], "--unit y=..: nothing that is drawn has this name; there are: x"),
        (["a.svg", "x=x.csv", "--unit", "s"], "--unit s: NAME=TEXT was expected"),
        (["a.svg", "x\x1b=x.csv"], r"'x\x1b': a text without control characters was expected"),
        (["a.svg", "x=x.csv", "--title", "a\x00b"], r"'a\x00b': a text without control characters was expected"),
        (["a.svg", "x=x.csv", "--from", "9" * 400], "9999"),
        (["a.svg", "x=x.csv", "--to", "9" * 5000], "9999"),
        (["a.svg", "x=large.csv"], "large.csv:"),
        (["a.svg", "x=late.csv"], "late.csv:"),
    ],
)
def test_what_is_refused(told, words, what):
    pytest.importorskip("matplotlib")
    put("x", "0,5,1\n")
    put("y", "0,5,1\n", origin=10**9)
    pathlib.Path("bad.csv").write_text("start,end,value\n0,5\n")
    pathlib.Path("large.csv").write_text(f"start,end,value\n0,5,1\n5,6,{'9' * 400}\n")
    pathlib.Path("late.csv").write_text(f"start,end,value\n0,{'9' * 400},1\n")
    status, out, err = told("plot", *words)
    assert (status, out) == (1, "") and err.startswith(f"tilt-data: {what}") and not os.path.exists("a.svg")
    assert err.count("\n") == 1


def test_a_series_that_its_json_file_doesnt_describe_is_rejected(told):
    pytest.importorskip("matplotlib")
    rows = "start,end,value\n0,60,201\n"
    pathlib.Path("x.csv").write_text(rows)
    notes = Notes(Clock(10**9, 0), 10, "hold", "x", size=len(rows), sha256=hashlib.sha256(rows.encode()).hexdigest())
    pathlib.Path("x.json").write_text(notes.text())
    assert told("plot", "p.svg", "x=x.csv")[0] == 0
    os.remove("p.svg")
    pathlib.Path("x.csv").write_text(rows.replace("201", "999"))
    status, _, err = told("plot", "p.svg", "x=x.csv")
    assert status == 1 and len(err.splitlines()) == 1 and "x.csv: it isn't the file that its JSON file describes" in err
    assert not os.path.exists("p.svg")


def test_a_link_stays_and_the_picture_it_leads_to_is_replaced(told):
    pytest.importorskip("matplotlib")
    put("x", "0,5,7\n")
    os.mkdir("far")
    os.symlink("far/real.svg", "x.svg")
    assert told("plot", "x.svg", "x=x.csv")[0] == 0
    assert os.readlink("x.svg") == "far/real.svg" and pathlib.Path("far/real.svg").read_text().startswith("<?xml")
    assert os.listdir("far") == ["real.svg"]
