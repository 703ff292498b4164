"""Queries from Python: pandas in and out, keys, sessions, and errors that carry the place."""
from __future__ import annotations

import decimal
import json
import os
import pathlib
import random
import subprocess

import pytest

pandas = pytest.importorskip("pandas")

from conftest import LIVE, PROGRAM
import tilt_data
from tilt_data import Convention, Query, Refused, TiltError, frames, run, span

AVERAGE = "input temp; emit avg(temp[t-600:t]) over (0, 3600] every 600;"


@pytest.fixture(autouse=True)
def the_program(tilt, live, monkeypatch):
    monkeypatch.setenv("TILT", tilt)
    monkeypatch.setenv("TILT_LIVE", live)


def readings(count: int = 60, seed: int = 11, zone: str | None = None):
    draws = random.Random(seed)
    index = pandas.date_range("2026-03-01", periods=count, freq="1min", tz=zone)
    return pandas.Series([draws.randrange(150, 300) / 10 for _ in range(count)], index, name="temp")


def test_averages_are_those_of_pandas():
    temp = readings()
    got = run(AVERAGE, temp, max_age="1min", scale=1000)
    wanted = temp.resample("10min").mean()
    assert list(got.index.left) == list(wanted.index) and got.index.closed == "left"
    assert all(abs(ours - theirs) < 0.001 for ours, theirs in zip(got["value"], wanted))


@pytest.mark.parametrize("reducer", ["min", "max", "first", "last", "count", "sum"])
def test_other_reducers_are_those_of_pandas(reducer):
    temp = readings().drop(readings().index[7:25])
    query = f"input temp; emit {reducer}(temp[t-600:t]) over (0, 3600] every 600;"
    got = run(query, temp.to_frame(), event=True, index="start")
    wanted = temp.resample("10min").agg(reducer)[temp.resample("10min").count() > 0]
    assert list(got.index) == list(wanted.index) and [round(value, 6) for value in got["value"]] == [round(value, 6) for value in wanted]


def test_decimals_are_exact():
    temp = pandas.Series(
        [decimal.Decimal("0.1"), decimal.Decimal("1234567890123.12345")], pandas.to_datetime(["2026-03-01 00:01", "2026-03-01 00:02"])
    )
    got = run("input temp; emit temp over (0, 600];", temp, exact=True)
    assert list(got["value"]) == [decimal.Decimal("0.1"), decimal.Decimal("1234567890123.12345")]


@pytest.mark.parametrize("missing", ["NaN", "sNaN"])
def test_a_decimal_that_is_no_number_is_missing(missing):
    temp = pandas.Series([decimal.Decimal(missing), decimal.Decimal("1.5")], pandas.date_range("2026-03-01", periods=2, freq="1s"))
    assert list(run("input temp; emit temp over (0, 600];", temp, exact=True)["value"]) == [decimal.Decimal("1.5")]


def test_decimals_are_exact_in_any_context_of_the_caller():
    temp = pandas.Series([123456.789, -0.001], pandas.to_datetime(["2026-03-01 00:01", "2026-03-01 00:02"]))
    with decimal.localcontext() as context:
        context.prec = 5
        got = run("input temp; emit temp over (0, 600];", temp, exact=True)
    assert [str(value) for value in got["value"]] == ["123456.789", "-0.001"]


@pytest.mark.parametrize("kind", ["float32", "Float32", "float16"])
def test_short_floats_have_the_text_of_their_own_type(kind):
    temp = pandas.Series([96.1, 0.3], pandas.date_range("2026-03-01", periods=2, freq="1s"), dtype=kind)
    got = run("input temp; emit temp over (0, 600];", temp, exact=True)
    assert list(got["value"]) == [decimal.Decimal("96.1"), decimal.Decimal("0.3")]


def test_missing_values_and_zones():
    temp = readings(zone="Europe/Zurich")
    temp.iloc[3] = float("nan")
    got = run(
        "input temp; emit 1 when isnull(temp) over (0, 3600];",
        temp,
        origin="2026-03-01T00:00+01:00",
        until="2026-03-01T01:00+01:00",
    )
    assert list(got.index.left) == [temp.index[3]] and list(got["value"]) == [1] and str(got.index.left.tz) == "Europe/Zurich"


def test_merged_rows_and_intervals_again():
    temp = readings(6).round(0) * 0 + 7
    got = run("input temp; emit temp over (0, 600];", temp, max_age="1min", merge=True)
    assert len(got) == 1 and got.index[0].length == pandas.Timedelta("6min")
    again = run("input x; emit x over (0, 600];", inputs={"x": got["value"]}, origin="2026-03-01")
    assert again.equals(got) or list(again["value"]) == list(got["value"]) and list(again.index) == list(got.index)


def test_keys():
    frames = []
    for seed, key in enumerate("cab"):
        frames.append(readings(seed=seed).to_frame().assign(station=key))
    data = pandas.concat(frames)
    got = run(AVERAGE, data, by="station", max_age="1min", scale=1000)
    assert list(got.index.get_level_values(0).unique()) == ["a", "b", "c"]
    for seed, key in enumerate("cab"):
        assert got.loc[key].equals(run(AVERAGE, readings(seed=seed), max_age="1min", scale=1000))


def test_files(told):
    readings().to_csv("raw.csv", index_label="time")
    assert told("series", "raw.csv", "--time", "time", "--tick", "1s", "--scale", "1000", "--max-age", "1min")[0] == 0
    pathlib.Path("q.tilt").write_text(AVERAGE)
    assert run(pathlib.Path("q.tilt"), inputs={"temp": "temp.csv"}).equals(run(AVERAGE, readings(), max_age="1min", scale=1000))


def noted(name: str, tick: str, origin: str = "2026-03-01") -> str:
    """A file of a series, one row long, with its JSON file."""
    pathlib.Path(f"{name}.csv").write_text("start,end,value\n0,600,7\n")
    notes = {"tilt-data": 1, "tick": tick, "origin": origin, "scale": 1}
    pathlib.Path(f"{name}.json").write_text(json.dumps(notes))
    return f"{name}.csv"


@pytest.mark.parametrize("tick, origin", [("1min", "2026-03-01"), ("1s", "2026-03-02")])
def test_files_of_other_clocks_are_refused(tmp_path, monkeypatch, tick, origin):
    monkeypatch.chdir(tmp_path)
    query = "input x; input y; emit x + y over (0, 600];"
    x, same, other = noted("x", "1s"), noted("same", "1s"), noted("other", tick, origin)
    with pytest.raises(Refused, match="the series x and y have other ticks or origins"):
        run(query, inputs={"x": x, "y": other})
    got = run(query, inputs={"x": x, "y": same})
    assert list(got["value"]) == [14] and got.index[0].left == pandas.Timestamp("2026-03-01")


def scaled(name: str, scale: int, closed: str = "left") -> str:
    """A file of a series with the value 205 as it stands in the file, and its JSON file."""
    pathlib.Path(f"{name}.csv").write_text("start,end,value\n0,600,205\n")
    notes = {"tilt-data": 1, "tick": "1s", "origin": "2026-03-01", "scale": scale, "closed": closed}
    pathlib.Path(f"{name}.json").write_text(json.dumps(notes))
    return f"{name}.csv"


def test_inputs_have_scales_of_their_own(tmp_path, monkeypatch):
    monkeypatch.chdir(tmp_path)
    query = "input x; input y; emit x * y over (0, 600];"
    inputs = {"x": scaled("x", 10), "y": scaled("y", 100)}
    # 20.5 * 2.05
    assert run(query, inputs=inputs, exact=True)["value"].tolist() == [decimal.Decimal("42.025")]
    assert run(query, inputs=inputs, whole=True)["value"].tolist() == [205 * 205]
    series = pandas.Series([20.5], pandas.to_datetime(["2026-03-01"]))
    # 20.5 * 20.5, at the scales 10 and 100
    assert run(query, inputs={"x": "x.csv", "y": series}, scale=100, exact=True)["value"].tolist() == [decimal.Decimal("420.250")]
    with pytest.raises(Refused, match=r"^scale\['x'\]=100: the file of the input x has the scale 10$"):
        run(query, inputs=inputs, scale={"x": 100})
    with pytest.raises(Refused, match="^the input x: the scale 10000000000000000000 is above 9223372036854775807"):
        run("input x; emit x over (0, 9];", series, scale=10**19)


@pytest.mark.parametrize(
    "options, what",
    [
        ({}, "the inputs don't have the same closed edge: x is closed 'left', y is closed 'right'"),
        ({"tick": "1min"}, "closed edge"),
        ({"closed": "right", "tick": "1min"}, "tick='1min': the file of the input x has the tick 1s"),
        ({"closed": "right", "origin": "2026-03-02"}, "origin='2026-03-02': the file of the input x has the origin 2026-03-01T00:00:00"),
    ],
)
def test_files_that_say_something_else_than_the_caller_or_each_other(tmp_path, monkeypatch, options, what):
    monkeypatch.chdir(tmp_path)
    query = "input x; input y; emit x + y over (0, 600];"
    inputs = {"x": scaled("x", 10), "y": scaled("y", 10, "right")}
    with pytest.raises(Refused, match=what):
        run(query, inputs=inputs, **options)
    assert run(query, inputs=inputs, closed="right").index.closed == "right"
    with pytest.raises(Refused, match="closed='left': the input y is closed 'right'; omit closed="):
        run("input y; emit y over (0, 600];", inputs={"y": "y.csv"}, closed="left")


def test_all_inputs_of_a_call_have_one_scale_for_all_keys():
    data = readings(20).to_frame().assign(station=["a", "b"] * 10)
    limit = pandas.Series([20.125], pandas.to_datetime(["2026-03-01"]))
    got = run(
        "input temp; input limit; emit limit when temp > 0 over (0, 3600];",
        data,
        by="station",
        inputs={"limit": limit},
        until="2026-03-01 01:00",
    )
    assert set(got["value"]) == {20.125} and list(got.index.get_level_values(0).unique()) == ["a", "b"]


@pytest.mark.parametrize("kind", ["Int64", "Float64", "object"])
def test_missing_values_of_extension_types(kind):
    index = pandas.date_range("2026-03-01", periods=3, freq="1s")
    got = run("input x; emit x over (0, 3];", pandas.Series([7, pandas.NA, 9], index, dtype=kind))
    assert [(interval.left, value) for interval, value in zip(got.index, got["value"])] == [(index[0], 7), (index[2], 9)]
    with Query("input x; emit x over (0, 3];").live(origin="2026-03-01", scale=1) as live:
        parts = [live.push(pandas.Series([7, pandas.NA, 9], index, dtype=kind)), live.end()]
    assert [value for part in parts for value in part["value"]] == [7, 9]


def test_a_missing_value_ends_the_reading_before_it_unless_it_is_skipped():
    rate = pandas.Series(120, pandas.date_range("2026-03-01", periods=3600, freq="1s"))
    temp = pandas.Series(39, pandas.date_range("2026-03-01", periods=60, freq="1min"))
    wide = pandas.concat([rate, temp], axis=1, keys=["rate", "temp"])
    query = "input rate; input temp; emit 1 when rate > 110 and temp > 38 over (0, 3600];"
    seconds = [got.index.length.total_seconds().values.sum() for got in (run(query, wide), run(query, wide, skip_empty=True))]
    # The temperature is there in one second of each minute; and up to the second of its last reading.
    assert seconds == [60, 3541]
    with Query(query).live(origin="2026-03-01", scale=1, skip_empty=True) as live:
        parts = [live.push(wide.iloc[:100]), live.push(wide.iloc[100:]), live.end()]
    assert sum(part.index.length.total_seconds().values.sum() for part in parts if len(part)) == 3541


def test_inputs_have_conventions_of_their_own():
    trades = pandas.Series([10, 11, 12], pandas.to_datetime(["2026-03-01 00:00:05", "2026-03-01 00:00:07", "2026-03-01 00:00:29"]))
    quotes = pandas.Series([9, 8], pandas.to_datetime(["2026-03-01 00:00:00", "2026-03-01 00:00:20"]))
    query, inputs = "input trade; input quote; emit trade - quote over (0, 60];", {"trade": trades, "quote": quotes}
    # Each trade with the last quote before it, as by merge_asof: 10 - 9, 11 - 9, 12 - 8.
    got = run(query, inputs=inputs, event={"trade": True}, until="2026-03-01 00:00:30", index="start")
    assert list(got.index) == list(trades.index) and list(got["value"]) == [1, 2, 4]
    # A quote that holds for five seconds is there for no trade.
    assert not len(run(query, inputs=inputs, event={"trade": True}, max_age={"quote": "5s"}))
    with Query(query).live(event={"trade": True}, until="2026-03-01 00:00:30", origin="2026-03-01", scale=1) as live:
        parts = [live.push(**inputs), live.end()]
    assert [value for part in parts for value in part["value"]] == [1, 2, 4]


def test_the_default_origin_is_the_midnight_of_the_zone(told):
    temp = readings(3, zone="Europe/Zurich")
    got = run("input temp; emit temp over (0, 180];", temp)
    assert list(got.index.left) == list(temp.index) and str(got.index.left.tz) == "Europe/Zurich"
    pandas.DataFrame({"time": [time.isoformat() for time in temp.index], "temp": temp.values}).to_csv("raw.csv", index=False)
    assert told("series", "raw.csv", "--time", "time", "--tick", "1s", "--zone", "Europe/Zurich", "--scale", "auto")[0] == 0
    assert run("input temp; emit temp over (0, 180];", inputs={"temp": "temp.csv"})["value"].tolist() == got["value"].tolist()
    assert json.loads(pathlib.Path("temp.json").read_text())["origin"] == "2026-02-28T23:00:00Z"


def test_a_day_without_a_midnight_starts_at_its_first_moment():
    # At midnight the clocks go to 01:00.
    temp = pandas.Series([7], pandas.DatetimeIndex(["2018-11-04 02:00"], tz="America/Sao_Paulo"))
    assert span(temp) == (3600, 3601)
    # At 01:00 the clocks go back to midnight, so that 02:00 comes three hours after the first one.
    assert span(pandas.Series([7], pandas.DatetimeIndex(["2026-11-01 02:00"], tz="America/Havana"))) == (3 * 3600, 3 * 3600 + 1)


def test_the_span_of_the_inputs():
    temp = readings(60)
    assert span(temp, max_age="1min") == (0, 3600) and span(temp) == (0, 59 * 60 + 1)
    assert span(temp.to_frame().assign(key="a"), origin="2026-02-28", closed="right", event=True) == (86399, 86400 + 59 * 60)
    whole = run(f"input temp; emit temp over ({span(temp)[0]}, {span(temp)[1]}];", temp)
    assert list(whole.index.left) == list(temp.index)
    with pytest.raises(Refused, match="no readings, and no span"):
        span(temp.iloc[:0])


@pytest.mark.parametrize("closed", ["left", "right"])
def test_intervals_say_which_edge_is_closed(closed):
    ends = pandas.date_range("2026-03-01", periods=3, freq="10min")
    rows = pandas.Series([7, 8], pandas.IntervalIndex.from_breaks(ends, closed=closed))
    got = run("input x; emit x over (0, 1200];", rows)
    assert list(got.index) == list(rows.index) and got.index.closed == closed
    # Readings go by it too: that of midnight lies in the tick that ends there, with `right`, and is before the span.
    query = "input x; input y; emit x when not isnull(y) over (0, 1200];"
    event = pandas.Series([1, 1], pandas.to_datetime(["2026-03-01 00:00", "2026-03-01 00:10"]))
    both = run(query, inputs={"x": rows, "y": event}, event={"y": True}, tick="1min")
    assert list(both["value"]) == ([7, 8] if closed == "left" else [7])


def test_a_name_with_blanks_is_a_file(tmp_path, monkeypatch):
    monkeypatch.chdir(tmp_path)
    pathlib.Path("my query.tilt").write_text(AVERAGE)
    pathlib.Path("no end").write_text(AVERAGE)
    assert Query("my query.tilt").text == Query("no end").text == AVERAGE and Query(AVERAGE).text == AVERAGE
    with pytest.raises(Refused, match="^my quary.tilt: No such file or directory$"):
        Query("my quary.tilt")


@pytest.mark.parametrize("missing", [None, float("nan"), pandas.NA])
def test_a_row_without_a_key_is_refused(missing):
    data = readings(3).to_frame().assign(station=["a", missing, "b"])
    with pytest.raises(Refused, match="by='station': a key was expected in each row, and 1 of 3 have none"):
        run(AVERAGE, data, by="station")


def test_explain():
    explained = Query("input x; input y; let a = avg(x[t-5:t]) every 5; let u = y; emit a over (0, 10];").explain()
    assert (explained.back, explained.ahead, explained.loops[0]) == (4, 4, 2)
    assert explained.inputs == {"x": (4, 4), "y": None} and explained.definitions == {"a": ("loop", 0, 0), "u": None}


def test_errors_carry_line_status_and_place():
    with pytest.raises(TiltError) as caught:
        run("input temp;\nemit tmep over (0, 10];", readings())
    error = caught.value
    assert (error.line, error.status) == ("tilt: 27 statement 2: unknown name", 1)
    assert (error.place.file, error.place.line, error.place.column) == ("query", 2, 6) and "did you mean `temp`?" in str(error)
    with pytest.raises(TiltError):
        Query("emit 1;").explain()


def test_a_byte_order_mark_in_a_query_is_rejected_as_by_the_program(tmp_path):
    path = tmp_path / "query.tilt"
    path.write_bytes(b"\xef\xbb\xbf" + AVERAGE.encode())
    with pytest.raises(TiltError) as caught:
        run(path, readings())
    assert caught.value.line == subprocess.run([PROGRAM, "explain", path], capture_output=True, text=True).stderr.rstrip("\n")
    assert caught.value.line == "tilt: 20 bad byte at 0"


@pytest.mark.parametrize(
    "text, what",
    [
        ("1_5", "'1_5' is no number; a missing value is NaN or None"),
        ("١", "is no number; a missing value is NaN or None"),
        (f"0.{'0' * 19}1", "needs 20 digits after its point, and a 64-bit value has 19: round it, or name a scale="),
    ],
)
def test_a_text_that_the_command_rejects_is_rejected_in_a_series_too(text, what):
    values = readings(count=3).astype(object)
    values.iloc[1] = text
    with pytest.raises(Refused) as caught:
        run(AVERAGE, values)
    assert str(caught.value).startswith("the input temp: ") and what in str(caught.value) and len(str(caught.value).splitlines()) == 1


@pytest.mark.parametrize(
    "call, what",
    [
        (lambda: run(AVERAGE), "temp isn't given"),
        (lambda: run(AVERAGE, readings(), inputs={"x": readings()}), "not x"),
        (lambda: run(AVERAGE, readings().iloc[::-1]), "sort_index"),
        (lambda: run(AVERAGE, readings(), tick="1h"), "two readings in one tick"),
        (lambda: run(AVERAGE, readings(), scale=1), "digits would be lost"),
        (lambda: run(AVERAGE, readings(), unit="s"), "the options are tick"),
        (lambda: run(AVERAGE, readings().reset_index(drop=True)), "a DatetimeIndex was expected"),
        (lambda: run(AVERAGE, 7), "a Series or a DataFrame"),
        (lambda: Query(AVERAGE).live(), "origin and its scale"),
        (lambda: run(AVERAGE, readings(), by="k"), "a DataFrame with this column"),
    ],
)
def test_what_is_refused(call, what):
    with pytest.raises(Refused, match=what):
        call()


def two_columns():
    data = readings(4).to_frame()
    return pandas.concat([data, data], axis=1)


WRONG = [
    ({"closed": "both"}, "closed='both': one of 'left', 'right', None was expected"),
    ({"closed": "neither"}, "closed='neither': one of"),
    ({"closed": 1}, "closed=1: one of"),
    ({"ties": "nope"}, "ties='nope': one of 'last', 'first', 'spread', 'refuse' was expected"),
    ({"index": "left"}, "index='left': one of 'interval', 'start', 'end' was expected"),
    *[({"scale": wrong}, f"scale={wrong}: a whole number above 0 or 'auto' was expected") for wrong in (0, -10, True, 2.5)],
    ({"scale": "10"}, "scale='10': a whole number above 0 or 'auto' was expected"),
    ({"event": True, "max_age": "5s"}, "event=True: a reading is an event of one tick"),
    ({"event": True, "until": "2026-03-02"}, "event=True: a reading is an event of one tick"),
    ({"event": {"temp": True}, "max_age": {"temp": "5s"}}, r"max_age\['temp'\]: the input is an event"),
    ({"event": {"tmep": True}}, r"event\['tmep'\]: no input has this name; there are: temp"),
    ({"max_age": {"tmep": "5s"}}, r"max_age\['tmep'\]: no input has this name; there are: temp"),
    ({"event": "no"}, "event='no': True or False was expected"),
    ({"skip_empty": 1}, "skip_empty=1: True or False was expected"),
    ({"merge": "no"}, "merge='no': True or False was expected"),
    ({"exact": 0}, "exact=0: True or False was expected"),
    ({"whole": 1}, "whole=1: True or False was expected"),
    ({"tick": "1D"}, "tick='1D': a whole number above 0 and one of ns us ms s min h d"),
    ({"tick": 5}, "tick=5: a whole number"),
    ({"max_age": "soon"}, "max_age='soon': a whole number"),
    ({"max_age": {"temp": 5}}, "max_age=5: a whole number"),
    ({"origin": "yesterday"}, "origin='yesterday': a time was expected"),
    ({"until": 5}, "until=5: a time was expected"),
    ({"unit": "s"}, "unit='s': there is no such option; the options are tick, .* by, merge, index, exact, whole, inputs, convention"),
    ({"convention": {"tick": "1s"}}, "a Convention was expected"),
    ({"by": ["a", "b"]}, r"by=\['a', 'b'\]: a DataFrame with this column was expected"),
    ({"tick": "1ns", "origin": "1000-01-01"}, "the input temp: a time is more than 4000000000000000000 ticks from the origin"),
]


@pytest.mark.parametrize("options, what", WRONG)
def test_a_wrong_argument_is_rejected_in_one_line(options, what):
    with pytest.raises(Refused, match=what) as caught:
        run(AVERAGE, readings(), **options)
    assert "\n" not in str(caught.value)


@pytest.mark.parametrize("options", [{"closed": "both"}, {"ties": "nope"}, {"scale": 0}, {"event": True, "until": "2026-03-02"}])
def test_wrong_arguments_of_live_span_and_convention(options):
    for call in (lambda: Query(AVERAGE).live(**{**COMMON, **options}), lambda: span(readings(), **options), lambda: Convention(**options)):
        with pytest.raises(Refused, match=f"^{next(iter(options))}="):
            call()


@pytest.mark.parametrize(
    "call, what",
    [
        (
            lambda: run(
                "input x; emit x over (0, 10];", inputs={"x": intervals((0, 10)).set_axis(intervals((0, 10)).index.set_closed("both"))}
            ),
            "the input x: intervals that are closed 'left' or 'right' were expected, not 'both'",
        ),
        (
            lambda: run("input x; emit x over (0, 10];", inputs={"x": intervals((0, 10))}, closed="right"),
            "closed='right': the input x is closed 'left'; index.set_closed",
        ),
        (lambda: run(AVERAGE, pandas.Series([True, False], readings(2).index)), "True is no number: astype"),
        (lambda: run(AVERAGE, pandas.Series([1, 2], pandas.DatetimeIndex(["2026-03-01", pandas.NaT]))), "a time is missing in its index"),
        (
            lambda: run("input x; emit x over (0, 10];", inputs={"x": intervals((0, 10), (15, 20))}, tick="10min"),
            "the input x: the interval end 2026-03-01T00:15:00.000000000Z isn't on a tick: a shorter tick",
        ),
        (lambda: run(AVERAGE, two_columns()), "the input temp: the DataFrame has 2 columns of this name"),
        (lambda: run(AVERAGE, pandas.concat([readings(2), readings(2)], axis=1, keys=["k", "k"]), by="k"), "not with 2 of this name"),
        (
            lambda: run(AVERAGE, readings(2).to_frame().assign(k=[(1, 2), (3, 4)]), by="k"),
            r"by='k': a text, a number or a time .* not \(1, 2\)",
        ),
        (lambda: run("input temp; emit ifnull(temp, 0) over (0, 10000000000];", readings(2)), "1677-09-21 to 2262-04-11"),
        (lambda: Query(AVERAGE).live(**COMMON).push(temp=[1]), "the input temp: a Series was expected, not list"),
        (
            lambda: Query(AVERAGE).live(**COMMON).push(temp=intervals((0, 10)).set_axis(intervals((0, 10)).index.set_closed("right"))),
            "the input temp: its intervals are closed 'right', not 'left'",
        ),
        # What is said of values has the arguments of Python.
        (lambda: run(AVERAGE, readings().iloc[1:].pct_change().dropna(), scale=10), "scale=10+, scale='auto', or round"),
        (lambda: run(AVERAGE, pandas.Series([1e12, 1e-9], readings(2).index)), "a smaller scale=, or round"),
        (lambda: run(AVERAGE, pandas.Series([float("inf")], readings(1).index)), "'inf' is no number; a missing value is NaN or None"),
    ],
)
def test_what_else_is_rejected_in_one_line(call, what):
    with pytest.raises(Refused, match=what) as caught:
        call()
    assert "\n" not in str(caught.value) and "--" not in str(caught.value)


def test_sessions_print_together_what_one_run_prints():
    draws = random.Random(12)
    query = "input temp; input limit; let a = avg(temp[t-600:t]) every 600; emit a - limit when a > limit over (0, 7200];"
    temp, limit = readings(120), pandas.Series([20, 22.5, 21], pandas.to_datetime(["2026-03-01", "2026-03-01 00:40", "2026-03-01 01:30"]))
    common = {"tick": "1s", "origin": "2026-03-01", "scale": 10}
    whole = run(query, inputs={"temp": temp, "limit": limit}, **common)
    for _ in range(3):
        parts, at = [], 0
        with Query(query).live(**common) as live:
            while at < len(temp):
                before, at = at, at + draws.randrange(1, 40)
                some = temp.iloc[before:at]
                its = limit[(limit.index >= some.index[0]) & (limit.index <= some.index[-1])]
                parts.append(live.push(temp=some, limit=its))
            parts.append(live.end())
        joined = pandas.concat([part for part in parts if len(part)])
        assert list(joined.index) == list(whole.index) and list(joined["value"]) == list(whole["value"])


PUSHED = "input temp; emit sum(temp[t-600:t]) over (0, 7200] every 300;"
COMMON = {"tick": "1s", "origin": "2026-03-01", "scale": 10}


def faulty(folder: pathlib.Path, monkeypatch: pytest.MonkeyPatch) -> pathlib.Path:
    """A file: while it is there the program ends with the status that stands in it, after all was printed and saved."""
    stop, program = folder / "stop", folder / "program"
    program.write_text(
        f'#!/bin/sh\n"{LIVE}" "$@" || exit\n[ ! -e "{stop}" ] || {{ echo "tilt: 7 out of memory" >&2; exit $(cat "{stop}"); }}\n'
    )
    program.chmod(0o755)
    monkeypatch.setenv("TILT_LIVE", str(program))
    return stop


def joined(parts: list) -> list[tuple[object, float]]:
    return [(interval, value) for part in parts for interval, value in zip(part.index, part["value"])]


@pytest.mark.parametrize("status", [3, 4, 5, 6])
@pytest.mark.parametrize("again", [True, False])
def test_after_a_fault_nothing_is_lost(tmp_path, monkeypatch, status, again):
    temp = readings(120)
    whole = run(PUSHED, temp, **COMMON)
    stop = faulty(tmp_path, monkeypatch)
    parts = []
    with Query(PUSHED).live(**COMMON) as live:
        for at in range(0, 120, 20):
            if at in (0, 40):
                stop.write_text(str(status))
                with pytest.raises(TiltError) as caught:
                    live.push(temp.iloc[at : at + 20])
                assert caught.value.status == status
                os.unlink(stop)
                parts += [live.push()] if again else []
            else:
                parts.append(live.push(temp.iloc[at : at + 20]))
        stop.write_text(str(status))
        with pytest.raises(TiltError):
            live.end()
        os.unlink(stop)
        parts.append(live.end())
    assert joined(parts) == joined([whole])


def test_a_program_that_isnt_there_is_told_in_a_line_and_loses_nothing(tmp_path, monkeypatch):
    temp = readings(60)
    with Query(PUSHED).live(**COMMON) as live:
        monkeypatch.setenv("TILT", str(tmp_path / "nowhere"))
        monkeypatch.setenv("TILT_LIVE", str(tmp_path / "nowhere"))
        for call in (lambda: live.push(temp.iloc[:30]), lambda: run(PUSHED, temp, **COMMON)):
            with pytest.raises(Refused, match="^the program can't be run: No such file or directory$"):
                call()
        monkeypatch.setenv("TILT", str(PROGRAM))
        monkeypatch.setenv("TILT_LIVE", str(LIVE))
        parts = [live.push(temp.iloc[30:]), live.end()]
    assert joined(parts) == joined([run(PUSHED, temp, **COMMON)])


def test_rows_that_cant_be_written_are_told_in_a_line(tmp_path):
    with pytest.raises(Refused, match="nowhere/rows.x.csv: it can't be written: No such file or directory$"):
        frames.put_rows(str(tmp_path / "nowhere"), "x", [b"0,5,7\n"])
    (tmp_path / "rows.x.csv").symlink_to("/dev/full")
    with pytest.raises(Refused, match="rows.x.csv: it can't be written: No space left on device$"):
        frames.put_rows(str(tmp_path), "x", [b"0,5,7\n"])


def intervals(*minutes: tuple[int, int]):
    """A Series of intervals of the first hour."""
    begin = pandas.Timestamp("2026-03-01")
    ends = [tuple(begin + pandas.Timedelta(minutes=minute) for minute in both) for both in minutes]
    return pandas.Series([20] * len(ends), pandas.IntervalIndex.from_tuples(ends, closed="left"))


@pytest.mark.parametrize(
    "bad",
    [
        # A reading that loses digits, and one that comes twice, in the midst of an input that is taken after another one.
        pandas.Series([20, 0.123, 21], pandas.date_range("2026-03-01 00:30", periods=3, freq="1min")),
        pandas.Series([20, 21, 22], pandas.to_datetime(["2026-03-01 00:30", "2026-03-01 00:31", "2026-03-01 00:31"])),
        # Intervals that overlap, before and after what is decided by this push, and an empty one.
        intervals((30, 40), (35, 50)),
        intervals((80, 90), (85, 95)),
        intervals((30, 40), (40, 40)),
        intervals((0, 10)),
    ],
)
def test_a_push_that_is_refused_takes_nothing(bad):
    query = "input temp; input limit; emit temp - limit over (0, 7200];"
    temp, limit = readings(60), readings(60, seed=5)
    with Query(query).live(**COMMON) as live:
        parts = [live.push(temp=temp.iloc[:30], limit=limit.iloc[:30])]
        with pytest.raises(Refused, match="^the input limit: "):
            live.push(temp=temp.iloc[30:], limit=bad)
        parts += [live.push(temp=temp.iloc[30:], limit=limit.iloc[30:]), live.end()]
    assert joined(parts) == joined([run(query, inputs={"temp": temp, "limit": limit}, **COMMON)])


def test_sessions_over_intervals():
    query = "input x; emit count(x[t-600:t]) over (0, 7200] every 300;"
    rows = intervals((0, 10), (10, 25), (30, 31), (40, 70))
    with Query(query).live(**COMMON) as live:
        parts = [live.push(x=rows.iloc[:2]), live.push(x=rows.iloc[2:]), live.end()]
    assert len(parts[1]) and joined(parts) == joined([run(query, inputs={"x": rows}, **COMMON)])


def test_a_query_without_inputs_prints_all_at_its_end():
    with Query("emit 5 over (0, 7200];").live(origin="2026-03-01") as live:
        assert len(live.push()) == 0 and live.end()["value"].tolist() == [5]


def test_an_input_that_is_ahead_has_no_rows_that_wait():
    """Each session is given all rows that came, with the cut of each input."""
    query = "input temp; input limit; emit temp - limit over (0, 7200];"
    temp, limit = readings(60), readings(60, seed=5)
    with Query(query).live(**COMMON) as live:
        parts = [live.push(temp=temp, limit=limit.iloc[:2])]
        assert not live.taken.lines
        parts += [live.push(limit=limit.iloc[at : at + 7]) for at in range(2, 60, 7)]
        parts.append(live.end())
    assert joined(parts) == joined([run(query, inputs={"temp": temp, "limit": limit}, **COMMON)])


def test_after_the_end_nothing_is_taken():
    with Query(PUSHED).live(**COMMON) as live:
        live.push(readings(20))
        live.end()
        for call in (live.end, live.push):
            with pytest.raises(Refused, match="has ended"):
                call()


def test_sessions_have_the_zone_of_their_readings():
    temp = readings(120, zone="Europe/Zurich")
    common = {**COMMON, "origin": "2026-03-01T00:00+01:00"}
    with Query(PUSHED).live(**common) as live:
        empty = live.push(temp.iloc[:0])
        parts = [live.push(temp.iloc[:50]), live.push(temp.iloc[50:]), live.end()]
    assert str(empty.index.left.tz) == "Europe/Zurich"
    assert all(str(part.index.left.tz) == "Europe/Zurich" for part in parts)
    # At five past midnight, local time, the five readings from midnight on are added.
    assert parts[0].index[0].right == temp.index[5] and parts[0]["value"].iloc[0] == pytest.approx(sum(temp.iloc[:5]))
    assert joined(parts) == joined([run(PUSHED, temp, **common)])


def test_series_that_are_written_once_are_the_inputs_of_many_runs(tmp_path):
    times = pandas.to_datetime(["2026-03-01 00:00", "2026-03-01 00:05", "2026-03-01 00:10"]).tz_localize("Europe/Zurich")
    data = pandas.DataFrame({"x": [3.5, None, 5.0], "a/b": [1, 2, 3]}, times)
    paths = tilt_data.series(data, tmp_path / "kept", tick="1min", max_age="5min", event={"a/b": True})
    assert paths == {"x": str(tmp_path / "kept/x.csv"), "a/b": str(tmp_path / "kept/a%2Fb.csv")}
    query = "input x; emit avg(x[t-10:t]) over (0, 20] every 10;"
    given = run(query, data, tick="1min", max_age="5min", scale=10)
    kept = run(query, inputs={"x": paths["x"]})
    assert kept["value"].tolist() == given["value"].tolist()
    again = tilt_data.series(data[["x"]].rename(columns={"x": "z"}), tmp_path / "kept", inputs={"x": paths["x"]}, max_age="5min")
    assert again == {"z": str(tmp_path / "kept/z.csv"), "x": paths["x"]}
    assert (tmp_path / "kept/z.csv").read_text() == (tmp_path / "kept/x.csv").read_text()
    (tmp_path / "kept/y.csv").write_text("mine")
    with pytest.raises(Refused, match="`tilt-data` didn't write it; name another folder"):
        tilt_data.series(inputs={"y": data["x"]}, folder=tmp_path / "kept", tick="1min")
    with pytest.raises(Refused, match="inputs={name: Series}"):
        tilt_data.series(data["x"], tmp_path)
