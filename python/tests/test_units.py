"""Units of time against `datetime`, the range of ticks against the program, and errors that only their own test sees."""
from __future__ import annotations

import csv
import datetime
import io
import itertools
import json
import os
import pathlib
import re
import subprocess
import sys
from fractions import Fraction

import pytest
from conftest import PYTHON, rows_in
from tilt_data.clock import Clock, Moments, duration_of, duration_text
from tilt_data.files import Notes

EPOCH = datetime.datetime(1970, 1, 1)
SECOND = datetime.timedelta(seconds=1)
DAY = datetime.datetime(2026, 3, 1)
# Two readings. A minute, an hour or a day that is a second too long gives the later one an earlier tick.
READ = [DAY + datetime.timedelta(hours=6, seconds=5), DAY + datetime.timedelta(days=61, seconds=11)]


def seconds(length: datetime.timedelta) -> Fraction:
    return Fraction(length // datetime.timedelta(microseconds=1), 10**6)


LENGTHS = {
    "ns": Fraction(1, 10**9),
    "us": seconds(datetime.timedelta(microseconds=1)),
    "ms": seconds(datetime.timedelta(milliseconds=1)),
    "s": seconds(datetime.timedelta(seconds=1)),
    "min": seconds(datetime.timedelta(minutes=1)),
    "m": seconds(datetime.timedelta(minutes=1)),
    "h": seconds(datetime.timedelta(hours=1)),
    "d": seconds(datetime.timedelta(days=1)),
}
UNITS = ["s", "ms", "us", "ns"]
LIMIT = 4 * 10**18


def put(name: str, rows: str, tick: int = 10**9, origin: int = 0, kind: str = "hold") -> str:
    pathlib.Path(f"{name}.csv").write_text("start,end,value\n" + rows)
    pathlib.Path(f"{name}.json").write_text(Notes(Clock(tick, origin), 10, kind, name=name).text())
    return f"{name}.csv"


# Durations and times


@pytest.mark.parametrize("unit", LENGTHS)
def test_the_length_of_a_unit(unit):
    for number in (1, 7, 250, 86401):
        assert Fraction(duration_of(f"{number}{unit}"), 10**9) == number * LENGTHS[unit]
        assert duration_of(duration_text(duration_of(f"{number}{unit}"))) == duration_of(f"{number}{unit}")


@pytest.mark.parametrize(
    "length, text",
    [
        (datetime.timedelta(days=2), "2d"),
        (datetime.timedelta(hours=36), "36h"),
        (datetime.timedelta(minutes=90), "90min"),
        (datetime.timedelta(seconds=61), "61s"),
        (datetime.timedelta(seconds=3601), "3601s"),
        (datetime.timedelta(seconds=86401), "86401s"),
        (datetime.timedelta(milliseconds=1500), "1500ms"),
        (datetime.timedelta(microseconds=1001), "1001us"),
        (datetime.timedelta(microseconds=10), "10us"),
    ],
)
def test_the_shortest_text_of_a_length(length, text):
    assert duration_text(int(seconds(length) * 10**9)) == text
    assert duration_text(int(seconds(length) * 10**9) + 1) == f"{int(seconds(length) * 10**9) + 1}ns"


@pytest.mark.parametrize("unit", UNITS)
def test_the_unit_of_times(unit):
    for moment in (*READ, EPOCH, EPOCH - 7 * SECOND, datetime.datetime(1900, 1, 1), datetime.datetime(9999, 12, 31)):
        number = seconds(moment - EPOCH) / LENGTHS[unit]
        assert number.denominator == 1
        assert Fraction(Moments(unit).read(str(number)), 10**9) == seconds(moment - EPOCH)
    assert Fraction(Moments(unit).read("12.5e3"), 10**9) == 12500 * LENGTHS[unit]


@pytest.mark.parametrize("unit, tick", itertools.product(UNITS, LENGTHS))
def test_series_by_each_unit_and_each_tick(told, unit, tick):
    """The start of an event is the whole number of ticks from the midnight before the first reading."""
    text = "time,x\n" + "".join(f"{seconds(moment - EPOCH) / LENGTHS[unit]},1\n" for moment in READ)
    pathlib.Path("raw.csv").write_text(text)
    for number in (1, 7):
        status, _, err = told("series", "raw.csv", "--time", "time", "--unit", unit, "--tick", f"{number}{tick}", "--event")
        assert status == 0, err
        starts = [seconds(moment - DAY) // (number * LENGTHS[tick]) for moment in READ]
        assert rows_in("x.csv") == [(start, start + 1, 1) for start in starts]


@pytest.mark.parametrize("unit", LENGTHS)
def test_how_long_a_reading_holds_by_each_unit(told, unit):
    pathlib.Path("raw.csv").write_text("time,x\n1970-01-01T00:00:00,1\n")
    assert told("series", "raw.csv", "--time", "time", "--tick", "1ns", "--max-age", f"5{unit}")[0] == 0
    assert rows_in("x.csv") == [(0, 5 * LENGTHS[unit] / LENGTHS["ns"], 1)]


@pytest.mark.parametrize(
    "tick, text",
    [
        ("1000ns", "1us"),
        ("1000us", "1ms"),
        ("1000ms", "1s"),
        ("60s", "1min"),
        ("60m", "1h"),
        ("3600000ms", "1h"),
        ("24h", "1d"),
        ("86401s", "86401s"),
        ("61s", "61s"),
        ("7d", "7d"),
    ],
)
def test_the_tick_that_is_written(told, tick, text):
    pathlib.Path("raw.csv").write_text("time,x\n1970-01-01T00:00:00,1\n")
    assert told("series", "raw.csv", "--time", "time", "--tick", tick)[0] == 0
    assert json.loads(pathlib.Path("x.json").read_text())["tick"] == text


@pytest.mark.parametrize("unit", LENGTHS)
def test_the_times_of_a_table_by_each_unit(told, unit):
    put("x", "0,1,50\n1,8,70\n")
    notes = {"tilt-data": 1, "tick": f"1{unit}", "origin": "2026-03-01T00:00:00Z", "scale": 10}
    pathlib.Path("x.json").write_text(json.dumps(notes))
    status, out, err = told("table", "x.csv")
    assert (status, err) == (0, "")
    for row, (start, end) in zip(list(csv.reader(io.StringIO(out)))[1:], ((0, 1), (1, 8)), strict=True):
        for shown, tick in zip(row, (start, end)):
            whole, part = divmod(tick * LENGTHS[unit], 1)
            moment = (DAY + int(whole) * SECOND).isoformat()
            assert shown[:19] == moment and shown[-1] == "Z" and Fraction("0" + shown[19:-1]) == part


# The range of ticks


@pytest.mark.parametrize("start, taken", [(LIMIT - 1, True), (LIMIT, False), (-LIMIT, True), (-LIMIT - 1, False)])
def test_the_ticks_that_are_taken_are_those_of_the_program(told, tilt, start, taken):
    pathlib.Path("x.csv").write_text(f"start,end,value\n{start},{start + 1},1\n")
    pathlib.Path("q").write_text("input x; emit x over (0, 10];")
    assert (subprocess.run([tilt, "run", "q", "x=x.csv"], capture_output=True).returncode == 0) == taken
    pathlib.Path("raw.csv").write_text(f"time,x\n{start},1\n")
    status, _, err = told("series", "raw.csv", "--time", "time", "--unit", "s", "--tick", "1s", "--origin", "1970-01-01", "--out", "o")
    assert (status == 0) == taken and (taken or err.startswith("tilt-data: raw.csv:2: "))
    if taken:
        assert rows_in("o/x.csv") == [(start, start + 1, 1)]
    put("like", "")
    bounds = (start, start + 1) if start > 0 else (start, start + 2)
    status, _, err = told("ticks", "each", "each.csv", "--like", "like.csv", "--from", str(bounds[0]), "--to", str(bounds[1]))
    assert (status == 0) == taken, err


# Values


@pytest.mark.parametrize("words", [["--null", "9.999,-99.99"], ["--null", "9.999", "--null", "-99.99"]])
def test_texts_that_mean_no_value_have_no_digits(told, words):
    """Else the scale of a sensor whose missing values are 9.999 would be 1000."""
    pathlib.Path("raw.csv").write_text("time,x\n2026-03-01,1.5\n2026-03-02,9.999\n2026-03-03,-99.99\n2026-03-04,\n")
    assert told("series", "raw.csv", "--time", "time", "--tick", "1d", "--scale", "auto", *words)[0] == 0
    assert json.loads(pathlib.Path("x.json").read_text())["scale"] == 10
    assert rows_in("x.csv") == [(0, 1, 15), (1, 2, None), (2, 3, None), (3, 4, None)]


@pytest.mark.parametrize("scale", [[], ["--scale", "auto"], ["--sort"]])
def test_a_byte_that_is_no_text_in_a_pipe(tmp_path, scale):
    """The name of the copy of a pipe is nothing that the caller knows."""
    raw = b"time,x\n2026-03-01,1\n2026-03-02,\xff\n"
    done = subprocess.run(
        [sys.executable, "-m", "tilt_data", "series", "-", "--time", "time", "--tick", "1d", *scale],
        input=raw,
        cwd=tmp_path,
        env={**os.environ, "PYTHONPATH": str(PYTHON)},
        capture_output=True,
    )
    err = done.stderr.decode()
    assert done.returncode == 1 and err.count("\n") == 1 and "a text in UTF-8 was expected" in err and os.listdir(tmp_path) == []
    assert "spooled" not in err and "/tmp" not in err
    if scale == ["--scale", "auto"]:
        assert err == "tilt-data: standard input:3: a text in UTF-8 was expected\n"


# What `table` rejects


@pytest.mark.parametrize("tick, origin", [(2 * 10**9, 0), (10**9, 10**9)])
def test_episodes_and_other_series_have_one_clock(told, tick, origin):
    put("x", "0,5,10\n")
    put("y", "0,5,10\n", tick, origin)
    status, _, err = told("table", "x.csv", "--episodes", "--of", "y=y.csv")
    assert status == 1 and err.count("\n") == 1 and "--of" in err and "ticks or origins" in err
    put("y", "0,5,10\n")
    assert told("table", "x.csv", "--episodes", "--of", "y=y.csv")[0] == 0


@pytest.mark.parametrize("header, row", [("start,end,value", "1,2,3,4"), ("key,start,end,value", "a,1,2,3,4"), ("start,end,value", "2,3")])
def test_a_row_of_another_width(told, header, row):
    put("x", "")
    pathlib.Path("out.csv").write_text(f"{header}\n{'a,' if header[0] == 'k' else ''}0,1,2\n{row}\n")
    status, out, err = told("table", "out.csv", "--like", "x.csv")
    assert status == 1 and err.startswith("tilt-data: out.csv:3: ") and err.count("\n") == 1
    assert len(out.splitlines()) <= 2


@pytest.mark.parametrize("words", [["--of", "x=x.csv"], ["--gap", "5s"], ["--merge", "--of", "x=x.csv"]])
def test_options_of_episodes_without_episodes(told, words):
    put("x", "0,5,10\n")
    status, out, err = told("table", "x.csv", *words)
    assert (status, out) == (1, "") and "--episodes" in err and err.count("\n") == 1


@pytest.mark.parametrize("scale", ["0", "x=0", "00"])
def test_a_table_isn_t_divided_by_0(told, scale):
    put("x", "0,5,10\n")
    done = subprocess.run(
        [sys.executable, "-m", "tilt_data", "table", "x.csv", "--scale", scale],
        env={**os.environ, "PYTHONPATH": str(PYTHON)},
        text=True,
        capture_output=True,
        timeout=60,
    )
    assert (done.returncode, done.stdout) == (1, "") and done.stderr.startswith("tilt-data: --scale") and "above 0" in done.stderr


# What `by` rejects


def test_the_first_key_that_is_rejected_ends_the_call(told, tilt):
    pathlib.Path("q").write_text("input x; emit x over (0, 100];")
    for key in range(6):
        os.makedirs(f"data/k{key}")
        row = "5,5,1" if key in (2, 4) else f"0,5,{key}"
        pathlib.Path(f"data/k{key}/x.csv").write_text(f"start,end,value\n{row}\n")
    status, out, err = told("by", "q", "x=data/{key}/x.csv", "--jobs", "1")
    assert (status, out) == (1, "key,start,end,value\nk0,0,5,0\nk1,0,5,1\n")
    assert (
        err.startswith("k2: tilt: 14 series x: ")
        and "the key k2 " in err.splitlines()[-1]
        and err.splitlines()[-1].endswith(" prints the others")
    )
    assert "k4" not in err
    status, out, err = told("by", "q", "x=data/{key}/x.csv", "--jobs", "1", "--keep-going")
    assert status == 1 and [line[:2] for line in out.splitlines()[1:]] == ["k0", "k1", "k3", "k5"] and "k2: " in err and "k4: " in err


# What the calls from Python reject


def test_scales_and_times_and_intervals_from_python(tilt, monkeypatch):
    pandas = pytest.importorskip("pandas")
    from tilt_data import Refused, run

    monkeypatch.setenv("TILT", tilt)
    query = "input x; emit x over (0, 10];"
    readings = pandas.Series([1.0, 2.0], pandas.to_datetime(["2026-03-01", "2026-03-01 00:00:01"]))
    assert list(run(query, readings, scale=1)["value"]) == [1, 2]
    for scale in (0, -1):
        with pytest.raises(Refused, match="scale"):
            run(query, readings, scale=scale)
    missing = pandas.Series([1.0, 2.0], pandas.DatetimeIndex([pandas.Timestamp("2026-03-01"), pandas.NaT]))
    with pytest.raises(Refused, match="missing"):
        run(query, missing)
    ends = pandas.to_datetime(["2026-03-01", "2026-03-01 00:00:01.5"])
    for breaks in (ends, ends + pandas.Timedelta("500ms")):
        off = pandas.Series([1.0], pandas.IntervalIndex.from_breaks(breaks, closed="left"))
        with pytest.raises(Refused, match="tick"):
            run(query, off, tick="1s", origin="2026-03-01")
        assert len(run(query, off, tick="500ms", origin="2026-03-01")) == 1


# Colours


def test_a_name_has_one_colour_in_all_panels(told):
    pytest.importorskip("matplotlib")
    for name in ("a", "b", "c"):
        put(name, "0,5,10\n5,10,20\n")
    panels = [["a"], ["b", "a"], ["c", "b"], ["c"], ["a"]]
    words = [f"{'+' if at else ''}{name}={name}.csv" for panel in panels for at, name in enumerate(panel)]
    assert told("plot", "out.svg", *words) == (0, "", "")
    text = pathlib.Path("out.svg").read_text()
    parts = re.split(r'<g id="axes_\d+">', text)[1:]
    # Lines of the axes are grey or black: their three parts are equal.
    colours = [{one for one in re.findall(r"stroke: #(\w{6})", part) if len({one[:2], one[2:4], one[4:]}) > 1} for part in parts]
    assert [len(found) for found in colours] == [len(panel) for panel in panels]
    of_name = [set.intersection(*(found for found, panel in zip(colours, panels) if name in panel)) for name in ("a", "b", "c")]
    assert [len(found) for found in of_name] == [1, 1, 1] and len(set.union(*of_name)) == 3
