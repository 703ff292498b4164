"""`tilt-data series`: moments to ticks by each convention, decimals to whole numbers, and what is refused."""
from __future__ import annotations

import datetime
import io
import hashlib
import json
import os
import pathlib
import random
import subprocess
import sys
import urllib.parse
from fractions import Fraction

import pytest
from conftest import PYTHON, rows_in, run_program
from tilt_data.clock import Clock, Moments, moment_text, zone_of
from tilt_data.files import safe
from tilt_data.scales import Scale, decimal_text, digits_after_point
from tilt_data.version import VERSION

READINGS = "time,temp\n2026-03-01T06:00:05,20.5\n2026-03-01T06:01:05,20.25\n2026-03-01T06:03:05,21\n"
SIX = 6 * 3600


def put(text: str, name: str = "raw.csv") -> str:
    pathlib.Path(name).write_text(text)
    return name


def series(told, text: str, *words: str) -> tuple[list, str]:
    """The rows of the one series `temp`, and what was told."""
    status, out, err = told("series", put(text), "--time", "time", *words)
    assert (status, out) == (0, ""), err
    return rows_in("temp.csv"), err


def refused(told, text: str, *words: str) -> str:
    """What is told where a file is refused; nothing is written then."""
    put(text)
    before = sorted(os.listdir())
    status, out, err = told("series", "raw.csv", "--time", "time", *words)
    assert (status, out) == (1, "")
    assert sorted(os.listdir()) == before
    assert err.startswith("tilt-data: ") and err.count("\n") == 1
    return err[len("tilt-data: ") : -1]


# The conventions


def test_a_reading_holds_until_the_next_one(told):
    rows, err = series(told, READINGS, "--tick", "1s", "--scale", "100")
    assert rows == [(SIX + 5, SIX + 65, 2050), (SIX + 65, SIX + 185, 2025), (SIX + 185, SIX + 186, 2100)]
    assert "temp.csv: 3 rows over (21605, 21786], values times 100" in err


def test_a_reading_holds_no_longer_than_its_age_and_until_the_end(told):
    rows, err = series(told, READINGS, "--tick", "1s", "--scale", "100", "--max-age", "1min")
    assert rows == [(SIX + 5, SIX + 65, 2050), (SIX + 65, SIX + 125, 2025), (SIX + 185, SIX + 245, 2100)]
    assert "gaps after --max-age: 1" in err
    rows, _ = series(told, READINGS, "--tick", "1s", "--scale", "100", "--until", "2026-03-01T06:10")
    assert rows[-1] == (SIX + 185, SIX + 600, 2100)


@pytest.mark.parametrize("closed, row", [("left", (SIX + 5, SIX + 6, 7)), ("right", (SIX + 4, SIX + 5, 7))])
def test_an_event_on_the_edge_of_a_tick(told, closed, row):
    rows, _ = series(told, "time,temp\n2026-03-01T06:00:05,7\n", "--tick", "1s", "--event", "--closed", closed)
    assert rows == [row]


@pytest.mark.parametrize("closed", ["left", "right"])
def test_an_event_within_a_tick_lies_in_it_by_both(told, closed):
    rows, _ = series(told, "time,temp\n2026-03-01T06:00:05.3,7\n", "--tick", "1s", "--event", "--closed", closed)
    assert rows == [(SIX + 5, SIX + 6, 7)]


def test_ties(told):
    text = "time,temp\n2026-03-01T00:00:01.1,1\n2026-03-01T00:00:01.2,2\n2026-03-01T00:00:01.3,3\n2026-03-01T00:00:02,4\n"
    common = ("--tick", "1s", "--event", "--ties")
    assert series(told, text, *common, "last")[0] == [(1, 2, 3), (2, 3, 4)]
    assert series(told, text, *common, "first")[0] == [(1, 2, 1), (2, 3, 4)]
    rows, err = series(told, text, *common, "spread")
    assert rows == [(1, 2, 1), (2, 3, 2), (3, 4, 3), (4, 5, 4)]
    assert "moved to the next free tick: 3" in err
    assert refused(told, text, *common, "refuse").startswith("raw.csv:3: a second reading of temp in the tick of line 2")


def test_nulls(told):
    text = "time,temp\n2026-03-01T00:00:01,1\n2026-03-01T00:00:02,\n2026-03-01T00:00:03,NaN\n2026-03-01T00:00:04,-1\n"
    rows, _ = series(told, text, "--tick", "1s", "--null", "NaN,-1")
    assert rows == [(1, 2, 1), (2, 3, None), (3, 4, None), (4, 5, None)]
    assert series(told, text.replace("NaN", " NaN ").replace("-1", "\t-1"), "--tick", "1s", "--null", "NaN,-1")[0] == rows
    rows, _ = series(told, text, "--tick", "1s", "--null", "NaN,-1", "--skip-empty")
    assert rows == [(1, 2, 1)]
    assert refused(told, text, "--tick", "1s").startswith("raw.csv:4: temp: 'NaN' is no number; if it means")


def test_a_gap_is_one_before_a_further_reading(told):
    """What --until leaves open after the last reading is no gap."""
    _, err = series(told, READINGS, "--tick", "1s", "--scale", "100", "--max-age", "1min", "--until", "2026-03-01T07:00")
    assert "gaps after --max-age: 1" in err
    _, err = series(told, "time,temp\n2026-03-01,1\n", "--tick", "1s", "--max-age", "1min", "--until", "2026-03-02")
    assert "gaps" not in err


# Options that are given several times


TWO = "time,a,b\n0,1,2\n60,NaN,-1\n"


def test_an_option_that_is_given_again_adds_to_the_first(told):
    common = ("series", put(TWO), "--time", "time", "--unit", "s", "--tick", "1s", "--null", "NaN", "--null", "-1")
    for words in (("--max-age", "10s", "--max-age", "b=30s"), ("--max-age", "10s", "b=30s"), ("--max-age", "b=30s", "--max-age", "10s")):
        assert told(*common, *words)[0] == 0
        assert rows_in("a.csv") == [(0, 10, 1), (60, 70, None)] and rows_in("b.csv") == [(0, 30, 2), (60, 90, None)]
    assert told(*common, "--scale", "10", "--scale", "b=1000", "--out", "scaled")[0] == 0
    assert rows_in("scaled/a.csv")[0][2] == 10 and rows_in("scaled/b.csv")[0][2] == 2000
    assert told(*common, "--value", "a", "--value", "b", "--out", "both")[0] == 0
    assert sorted(os.listdir("both")) == ["a.csv", "a.json", "b.csv", "b.json"]


@pytest.mark.parametrize(
    "words, what",
    [
        (["--max-age", "10s", "--max-age", "20s"], "--max-age without a name: it is given twice, as 10s and 20s: give it once"),
        (["--max-age", "b=10s", "9s", "b=20s"], "--max-age b=..: it is given twice, as 10s and 20s: give it once"),
        (["--scale", "10", "--scale", "auto"], "--scale without a name: it is given twice, as 10 and auto: give it once"),
        (["--scale", "a=10", "--scale", "a=10"], "--scale a=..: it is given twice, as 10 and 10: give it once"),
        (["--value", "a", "--value", "a"], "--value a: it is given twice: name each column once"),
    ],
)
def test_a_name_that_is_given_twice_is_rejected(told, words, what):
    assert refused(told, TWO, "--unit", "s", "--tick", "1s", "--null", "NaN", *words) == what


@pytest.mark.parametrize(
    "header, places, name", [("time,x,x", "2 and 3", "x"), ("time,x, x", "2 and 3", "x"), ("time,y ,x,\ty", "2 and 4", "y")]
)
def test_two_columns_of_one_name_are_rejected(told, header, places, name):
    """With --ties they would be one series of both."""
    text = f"{header}\n0,1,100{',7' if header.count(',') == 3 else ''}\n"
    what = refused(told, text, "--unit", "s", "--tick", "1s", "--ties", "last")
    assert what.startswith(f"raw.csv:1: the columns {places} have one name, '{name}': rename one of them, or name the columns of values")
    if "y" in header:
        assert told("series", "raw.csv", "--time", "time", "--unit", "s", "--tick", "1s", "--value", "x")[0] == 0
        assert rows_in("x.csv") == [(0, 1, 100)]


def test_titles_have_no_blanks_around_them(told):
    assert series(told, " time , temp\n0,5\n", "--unit", "s", "--tick", "1s", "--value", "temp")[0] == [(0, 1, 5)]


# Times


@pytest.mark.parametrize(
    "text",
    [
        "2026-03-01T06:00:05.250Z",
        "2026-03-01 06:00:05.25",
        "2026-03-01T07:00:05.250+01:00",
        "2026-03-01T01:30:05,25-0430",
        "2026-03-01T08:00:05.250000000+02",
    ],
)
def test_texts_of_one_moment(text):
    assert Moments().read(text) == Moments("ms").read("1772344805250") == Moments("s").read("1772344805.25")


def test_moments_are_exact():
    assert Moments("s").read("1772344805.123456789") == 1772344805123456789
    assert moment_text(1772344805123456789, 9) == "2026-03-01T06:00:05.123456789Z"
    for text in ("1.0000000001", "inf", "x", ""):
        with pytest.raises(ValueError):
            Moments("s").read(text)
    for text in ("2026-02-30", "2026-03-01T25:00", "2026-03-01T06:00:60", "2026-03-01T06:00:05.1234567891", "1772344805", "06:00"):
        with pytest.raises(ValueError):
            Moments().read(text)


@pytest.mark.parametrize(
    "text",
    [
        "2026-03-01T00:00+99:99",
        "2026-03-01T00:00+24:00",
        "2026-03-01T00:00-0060",
        "0001-01-01T00:00:00+01:00",
        "9999-12-31T23:59-00:01",
        "0000-01-01",
    ],
)
def test_texts_of_no_moment(told, text):
    with pytest.raises(ValueError, match="is no time"):
        Moments().read(text)
    assert refused(told, f"time,temp\n{text},1\n", "--tick", "1s").startswith(f"raw.csv:2: '{text}' is no time")


def test_the_farthest_offsets():
    assert Moments().read("2026-03-01T00:00+23:59") == Moments().read("2026-02-28T00:01Z")
    assert Moments().read("0001-01-01T00:00:00-01:00") == Moments().read("0001-01-01T01:00:00Z")


@pytest.mark.parametrize("text", ["2_0", "\uff12\uff10", "\u0663", "\xa020", "2 0", "0x14", "\xb2", "1e1_0", "--5", "nan"])
def test_numbers_of_other_signs_are_no_times(told, text):
    with pytest.raises(ValueError, match="is no time: a number was expected"):
        Moments("s").read(text)
    assert refused(told, f"time,temp\n{text},1\n", "--tick", "1s", "--unit", "s").startswith(f"raw.csv:2: {text!r} is no time")


@pytest.mark.parametrize(
    "text",
    [
        "\uff12026-03-01",
        "2026-03-0\u0661",
        "2026-03-01T0\uff16:00",
        "2026-03-01T06:00:0\u0665",
        "2026-03-01T06:00:05.\uff15",
        "2026-03-01T06:00+0\uff11",
        "\xa02026-03-01",
    ],
)
def test_texts_of_other_digits_are_no_times(told, text):
    with pytest.raises(ValueError, match="is no time: ISO 8601 was expected"):
        Moments().read(text)
    assert refused(told, f"time,temp\n{text},1\n", "--tick", "1s").startswith("raw.csv:2: ")


def test_times_and_values_can_have_blanks_around_them(told):
    assert series(told, "time,temp\n 2026-03-01T00:00:01\t, 5 \n", "--tick", "1s")[0] == [(1, 2, 5)]
    assert series(told, "time,temp\n 1 ,\t-1.5e1\n", "--tick", "1s", "--unit", "s", "--scale", "auto")[0] == [(1, 2, -15)]


@pytest.mark.parametrize("text", ["1e5000", pytest.param("9" * 5000, id="5000 digits"), "-1e60"])
def test_numbers_beyond_all_ticks_are_no_times(told, text):
    assert "is no time" in refused(told, f"time,temp\n{text},1\n", "--tick", "1s", "--unit", "s")


def test_local_times():
    zone = zone_of("Europe/Zurich")
    assert Moments(None, zone).read("2026-07-01T08:00") == Moments().read("2026-07-01T06:00Z")
    for twice_or_never in ("2026-10-25T02:30", "2026-03-29T02:30"):
        with pytest.raises(ValueError, match="twice or not at all"):
            Moments(None, zone).read(twice_or_never)
    assert Moments(None, zone).read("2026-10-25T02:30+01:00") == Moments().read("2026-10-25T01:30Z")


def test_moments_and_texts_there_and_back():
    draws = random.Random(1)
    for _ in range(2000):
        moment = draws.randrange(-(10**18), 10**19 // 3)
        assert Moments().read(moment_text(moment, 9)) == moment
        shown = datetime.datetime.fromtimestamp(moment // 10**9, datetime.timezone.utc).strftime("%Y-%m-%dT%H:%M:%S")
        assert moment_text(moment, 0) == shown + "Z"


def test_the_tick_of_a_moment_is_the_one_that_it_lies_in():
    draws = random.Random(2)
    for _ in range(5000):
        length, origin, moment = draws.choice([1, 7, 1000]), draws.randrange(-50, 50), draws.randrange(-5000, 5000)
        left, right = (Clock(length, origin, closed).start(moment) for closed in ("left", "right"))
        assert origin + left * length <= moment < origin + (left + 1) * length
        assert origin + right * length < moment <= origin + (right + 1) * length


def test_origins(told):
    assert series(told, "time,temp\n2026-03-01T06:00:05,7\n", "--tick", "1s", "--origin", "2026-03-01T06:00")[0] == [(5, 6, 7)]
    assert series(told, "time,temp\n2026-03-01T00:30,7\n", "--tick", "1s", "--zone", "Europe/Zurich")[0] == [(1800, 1801, 7)]
    pathlib.Path("temp.csv").rename("first.csv")
    pathlib.Path("temp.json").rename("first.json")
    assert series(told, "time,temp\n2026-03-01T23:30Z,7\n", "--like", "first.csv")[0] == [(88200, 88201, 7)]


@pytest.mark.parametrize(
    "zone, first",
    [
        # The clocks go forward at midnight: that midnight isn't there.
        ("America/Sao_Paulo", "2017-10-15T12:00"),
        ("America/Havana", "2026-03-08T12:00"),
        ("Asia/Beirut", "2026-03-29T12:00"),
        # They go back over it: it is there twice.
        ("America/Havana", "2026-11-01T12:00"),
        # It isn't within the years 1 to 9999 of UTC.
        ("Europe/Zurich", "0001-01-01T00:10"),
        ("America/New_York", "9999-12-31T23:00"),
    ],
)
def test_an_origin_that_is_no_midnight(told, zone, first):
    text = f"time,temp\n{first},1\n"
    what = refused(told, text, "--tick", "1s", "--zone", zone)
    assert what.startswith("raw.csv:2: the first reading, at ") and what.endswith("name the moment of the first tick by --origin")
    assert f"has no midnight before it in {zone}, or it has two" in what
    if first.startswith("20"):
        rows, _ = series(told, text, "--tick", "1s", "--zone", zone, "--origin", first[:11] + "11:00")
        assert rows == [(3600, 3601, 1)]


def test_an_origin_beyond_the_calendar(told):
    text = "time,temp\n0001-01-01T00:10,1\n"
    what = refused(told, text, "--tick", "1s", "--zone", "Europe/Zurich", "--origin", "0001-01-01T00:00")
    assert what == "--origin 0001-01-01T00:00: in UTC it lies outside of the years 1 to 9999: name another moment"


@pytest.mark.parametrize(
    "times, words, line, what",
    [
        # A nanosecond before 4 10^18 of them there still is a tick after the reading, at 4 10^18 there is none.
        ("1126-10-04T07:06:40", ["--event"], 3, "the reading at 1126-10-04T07:06:40Z has the tick 4000000000000000000"),
        ("1126-10-04T07:06:39.999999999", ["--max-age", "2ns"], 3, "has a row to the tick 4000000000000000001"),
        ("0873-03-30T16:53:19.999999999", ["--sort"], 3, "the reading at 0873-03-30T16:53:19.999999999Z has the tick -4000000000000000001"),
    ],
)
def test_ticks_beyond_those_of_the_program_are_rejected(told, times, words, line, what):
    origin = datetime.datetime(1000, 1, 1)
    end = origin + datetime.timedelta(seconds=4 * 10**9)
    assert end.isoformat() == "1126-10-04T07:06:40" and (origin - (end - origin)).isoformat() == "0873-03-30T16:53:20"
    found = refused(told, f"time,temp\n1000-01-01,1\n{times},2\n", "--tick", "1ns", "--origin", "1000-01-01", *words)
    assert found.startswith(f"raw.csv:{line}: the reading at ") and what in found
    assert found.endswith("ticks go from -4000000000000000000 to 4000000000000000000: name a nearer --origin, or take a longer --tick")


def test_the_end_of_the_last_reading_is_a_tick_of_the_program_too(told):
    text, common = "time,temp\n1000-01-01,1\n", ("--tick", "1ns", "--origin", "1000-01-01", "--until")
    what = refused(told, text, *common, "1126-10-04T07:06:40.000000001")
    assert what.startswith("--until 1126-10-04T07:06:40.000000001: its tick is 4000000000000000001, and ticks go from ")
    assert series(told, text, *common, "1126-10-04T07:06:40")[0] == [(0, 4 * 10**18, 1)]


@pytest.mark.parametrize("text", ["4e18", "-4000000000000000001"])
def test_numbers_of_times_beyond_the_ticks(told, text):
    what = refused(told, f"time,temp\n0,1\n{text},2\n", "--unit", "s", "--tick", "1s", "--origin", "1970-01-01", "--sort")
    assert what.startswith("raw.csv:3: the reading at ") and " ns after 1970 has the tick " in what


def test_a_system_without_time_zones(tmp_path, monkeypatch):
    monkeypatch.setenv("PYTHONTZPATH", "")
    (tmp_path / "raw.csv").write_text(READINGS)
    # A package of Python can have them too.
    code = "import sys; sys.modules['tzdata'] = None; from tilt_data.cli import main; sys.exit(main(sys.argv[1:]))"
    words = ["series", "raw.csv", "--time", "time", "--tick", "1s", "--zone", "Europe/Zurich"]
    done = subprocess.run(
        [sys.executable, "-c", code, *words], cwd=tmp_path, env={**os.environ, "PYTHONPATH": str(PYTHON)}, text=True, capture_output=True
    )
    wanted = "tilt-data: --zone Europe/Zurich: this system has no time zones: apt-get install tzdata, or pip install tzdata\n"
    assert (done.returncode, done.stderr) == (1, wanted)


# Values


@pytest.mark.parametrize(
    "text", ["1_000", "\uff11\uff12", "\u0663", "\xa05", "5\u3000", "1 0", "0x10", "1_0.5", "1.2_5", "1e1_0", "+-5", ".", "e5", "\xb2"]
)
def test_numbers_of_other_signs_are_no_values(told, text):
    with pytest.raises(ValueError, match="is no number"):
        Scale(10).whole(text)
    assert digits_after_point(text) == 0
    for words in (("--scale", "10"), ("--scale", "auto")):
        assert refused(told, f"time,temp\n2026-03-01,{text}\n", "--tick", "1s", *words).startswith(
            f"raw.csv:2: temp: {text!r} is no number"
        )


@pytest.mark.parametrize(
    "text, value", [("+5", 50), ("-5.", -50), (".5", 5), ("-0.50", -5), ("05", 50), ("5E-1", 5), ("1.5e+1", 150), (" 5\t", 50)]
)
def test_numbers_as_they_are_written(text, value):
    assert Scale(10).whole(text) == value


@pytest.mark.parametrize("text", ["1e999999", "-1.5e999999999999999999", "9" * 100])
def test_numbers_beyond_64_bits(text):
    with pytest.raises(ValueError, match="isn't within 64 bits"):
        Scale(10).whole(text)


@pytest.mark.parametrize("text", ["1e-299999", "1.5e-999999999", "0." + "1" * 100, "0." + "0" * 19 + "1", "-1.0e-20"])
def test_more_digits_than_a_value_has(told, text):
    """They are rejected at once: a scale of 299,999 digits takes many seconds."""
    what = refused(told, f"time,temp\n2026-03-01,1\n2026-03-02,{text}\n", "--tick", "1s", "--scale", "auto")
    assert what.startswith(f"raw.csv:3: temp: {text!r} needs ") and what.endswith("and a 64-bit value has 19: round it, or name a --scale")
    assert " digits after its point, and " in refused(told, f"time,temp\n2026-03-01,{text}\n", "--tick", "1s")
    assert digits_after_point("0." + "0" * 18 + "1") == digits_after_point("1e-19") == 19


@pytest.mark.parametrize(
    "scale", ["\xb2", "\uff11\uff10", "1_0", " 10", "-10", "0", "00", "1.5", "", pytest.param("1" * 5000, id="5000 digits"), "temp=\xb2"]
)
def test_scales_that_are_none(told, scale):
    what = refused(told, "time,temp\n2026-03-01,1\n", "--tick", "1s", f"--scale={scale}")
    assert what == f"--scale {scale}: a whole number above 0, auto, or NAME=N was expected"


def test_scales():
    assert (
        Scale(10).whole("20.5") == 205
        and Scale(100).whole("-0.05") == -5
        and Scale(8).whole("0.125") == 1
        and Scale(1).whole("1e3") == 1000
    )
    assert [digits_after_point(text) for text in ("1", "1.50", "1e3", "1.25e-3", "0.0", "x", "100e-1")] == [0, 1, 0, 5, 0, 0, 0]
    assert [decimal_text(-5, 100), decimal_text(2050, 100), decimal_text(1, 8), decimal_text(-7, 1)] == ["-0.05", "20.50", "0.125", "-7"]
    for text, what in (("20.55", "--scale 100"), ("9223372036854775807", "64 bits"), ("Infinity", "no number"), ("", "no number")):
        with pytest.raises(ValueError, match=what):
            Scale(10).whole(text)


def test_scale_and_back():
    draws = random.Random(3)
    for _ in range(5000):
        scale, value = 10 ** draws.randrange(0, 12), draws.randrange(-(2**63), 2**63)
        assert Scale(scale).whole(decimal_text(value, scale)) == value


def test_decimals_are_exact_where_the_scale_has_no_other_factors_than_2_and_5():
    # 2 to the power of -21 has 21 digits after the point.
    assert decimal_text(1, 2**21) == "0.000000476837158203125"
    draws = random.Random(10)
    for _ in range(2000):
        scale, value = 2 ** draws.randrange(40) * 5 ** draws.randrange(20), draws.randrange(-(2**63), 2**63)
        assert Fraction(decimal_text(value, scale)) == Fraction(value, scale)
        other = scale * draws.choice([3, 7, 11])
        assert abs(Fraction(decimal_text(value, other)) - Fraction(value, other)) <= Fraction(1, 2 * 10**20)
    assert [decimal_text(2, 3), decimal_text(-(10**25) + 1, 10**25 + 1), decimal_text(0, 3)] == ["0.66666666666666666667", "-1", "0"]


def test_a_decimal_comma(told):
    text = "time;temp\n2026-03-01T00:00:01;1,5\n2026-03-01T00:00:02;{}\n"
    for words in (("--scale", "10"), ("--scale", "auto")):
        common = ("--tick", "1s", "--delimiter", ";", "--decimal", ",", *words)
        assert series(told, text.format("-2"), *common)[0] == [(1, 2, 15), (2, 3, -20)]
        pathlib.Path("temp.csv").unlink(), pathlib.Path("temp.json").unlink()
        # In such a file 1.500 is one and a half thousand.
        wanted = "raw.csv:3: temp: '1.500' has a point, and --decimal says that ',' is before the fraction"
        assert refused(told, text.format("1.500"), *common) == wanted
        assert refused(told, text.format("1.500,5"), *common).startswith("raw.csv:3: temp: '1.500,5' has a point")
    for sign in ("", "5", "-", ",."):
        assert refused(told, text, "--tick", "1s", f"--decimal={sign}") == f"--decimal {sign!r}: one sign was expected, as . or ,"


def test_auto_is_one_scale_for_the_columns_that_have_none_of_their_own(told):
    text = "time,temp,limit,volume\n2026-03-01T00:00:01,20.5,23.75,7\n2026-03-01T00:00:02,20,24,1.125\n"
    status, _, err = told("series", put(text), "--time", "time", "--tick", "1s", "--scale", "auto", "volume=1000")
    assert status == 0, err
    assert [rows_in(name)[0][2] for name in ("temp.csv", "limit.csv", "volume.csv")] == [2050, 2375, 7000]
    assert json.loads(pathlib.Path("temp.json").read_text()) == {
        "tilt-data": 1,
        "version": VERSION,
        "name": "temp",
        "tick": "1s",
        "origin": "2026-03-01T00:00:00Z",
        "closed": "left",
        "kind": "hold",
        "scale": 100,
        "smallest": 2000,
        "largest": 2050,
        "size": 34,
        "sha256": hashlib.sha256(b"start,end,value\n1,2,2050\n2,3,2000\n").hexdigest(),
    }


# Files


def test_tall_files_and_keys(told):
    text = (
        "time,station,sensor,value\n2026-03-01T00:00:01,north/1,temp,1\n2026-03-01T00:00:01,south,temp,2\n"
        "2026-03-01T00:00:03,north/1,hum,3\n2026-03-01T00:00:04,north/1,temp,4\n"
    )
    words = ("series", put(text), "--time", "time", "--tick", "1s", "--key", "station", "--name", "sensor", "--value", "value")
    assert told(*words)[0] == 0
    assert rows_in("north%2F1/temp.csv") == [(1, 4, 1), (4, 5, 4)] and rows_in("south/temp.csv") == [(1, 2, 2)]
    assert json.loads(pathlib.Path("north%2F1/hum.json").read_text())["key"] == "north/1"
    assert told(*words, "--prefix", "--out", "flat")[0] == 0
    assert sorted(name for name in os.listdir("flat") if name.endswith(".csv")) == [
        "north%2F1_hum.csv",
        "north%2F1_temp.csv",
        "south_temp.csv",
    ]


@pytest.mark.parametrize("key", ["..", ".", "/", "a/../../b"])
def test_a_key_never_leaves_the_folder(told, tmp_path, key):
    put(f"time,k,temp\n2026-03-01T00:00:01,{key},1\n")
    assert told("series", "raw.csv", "--time", "time", "--tick", "1s", "--key", "k", "--out", "in")[0] == 0
    assert sorted(os.listdir(tmp_path)) == ["in", "raw.csv"] and len(os.listdir("in")) == 1


def call(*words: str, folder: pathlib.Path, **streams) -> subprocess.CompletedProcess[str]:
    return subprocess.run(
        [sys.executable, "-m", "tilt_data", *words],
        cwd=folder,
        env={**os.environ, "PYTHONPATH": str(PYTHON)},
        text=True,
        **{"stdout": subprocess.PIPE, "stderr": subprocess.PIPE, **streams},
    )


@pytest.mark.parametrize(
    "words, path",
    [
        (["v.csv"], "v.csv"),
        (["link.csv"], "v.csv"),
        (["./v.csv", "--out", "../here"], "../here/v.csv"),
        (["v.csv", "--out", "other"], "other/v.csv"),
    ],
)
def test_a_series_never_takes_the_place_of_its_readings(tmp_path, words, path):
    here, there = tmp_path / "here", tmp_path / "there"
    here.mkdir()
    raw = "time,w,v\n2026-03-01T00:00:01,1,2\n"
    (here / "v.csv").write_text(raw)
    (here / "link.csv").symlink_to("v.csv")
    (here / "other").symlink_to(".")
    before = sorted(os.listdir(here))
    done = call("series", *words, "--time", "time", "--tick", "1s", folder=here)
    wanted = f"tilt-data: {path}: it is the file that is read, and the series v would take its place: name a folder by --out\n"
    assert (done.returncode, done.stderr) == (1, wanted)
    assert (here / "v.csv").read_text() == raw and sorted(os.listdir(here)) == before
    done = call("series", words[0], "--time", "time", "--tick", "1s", "--out", "../there", folder=here)
    assert done.returncode == 0 and rows_in(str(there / "v.csv")) == [(1, 2, 2)]


def test_nor_does_it_where_they_come_by_standard_input_or_have_the_name_of_its_notes(tmp_path):
    raw = "time,v\n2026-03-01T00:00:01,2\n"
    (tmp_path / "v.csv").write_text(raw)
    with open(tmp_path / "v.csv") as given:
        done = call("series", "-", "--time", "time", "--tick", "1s", folder=tmp_path, stdin=given)
    assert done.returncode == 1 and done.stderr.startswith("tilt-data: v.csv: it is the file that is read")
    assert (tmp_path / "v.csv").read_text() == raw
    os.rename(tmp_path / "v.csv", tmp_path / "v.json")
    done = call("series", "v.json", "--time", "time", "--tick", "1s", folder=tmp_path)
    assert done.returncode == 1 and done.stderr.startswith("tilt-data: v.json: it is the file that is read")
    assert (tmp_path / "v.json").read_text() == raw and os.listdir(tmp_path) == ["v.json"]


@pytest.mark.parametrize(
    "name, other", [("temp.json", '{"name": "app"}'), ("temp.json", "no JSON"), ("temp.json", "[1]"), ("temp.csv", "a,b\n")]
)
def test_files_of_others_are_replaced_only_by_force(told, name, other):
    """A series of tilt-data has the JSON file of tilt-data beside it."""
    put(other, name)
    what = refused(told, READINGS, "--tick", "1s", "--scale", "100")
    assert what.startswith(f"{name}: it is there") and what.endswith(
        "the series temp would take its place: name a folder by --out, or replace it by --force"
    )
    assert pathlib.Path(name).read_text() == other
    rows, _ = series(told, READINGS, "--tick", "1s", "--scale", "100", "--force")
    assert len(rows) == 3 and json.loads(pathlib.Path("temp.json").read_text())["scale"] == 100
    # Now it is a series of tilt-data, which a later call replaces.
    assert series(told, READINGS, "--tick", "1s", "--scale", "1000")[0][0][2] == 20500


def test_readings_from_a_pipe_are_not_replaced_by_their_series(told, monkeypatch):
    raw = "time,v\n2026-03-01T00:00:01,2\n"
    put(raw, "v.csv")
    monkeypatch.setattr(sys, "stdin", io.TextIOWrapper(io.BytesIO(raw.encode())))
    status, _, err = told("series", "-", "--time", "time", "--tick", "1s")
    assert status == 1 and err.startswith("tilt-data: v.csv: it is there without a JSON file beside it, so `tilt-data` didn't write it; ")
    assert pathlib.Path("v.csv").read_text() == raw and os.listdir() == ["v.csv"]


@pytest.mark.parametrize("force", [[], ["--force"]])
def test_neither_the_readings_nor_the_series_of_like_are_ever_replaced(told, force):
    rows, _ = series(told, READINGS, "--tick", "1s", "--scale", "100")
    what = refused(told, READINGS, "--like", "temp.csv", *force)
    assert what == "temp.csv: it is the series of --like, and the series temp would take its place: name a folder by --out"
    assert rows_in("temp.csv") == rows and len(rows) == 3
    put("time,raw\n2026-03-01T00:00:01,2\n")
    status, _, err = told("series", "raw.csv", "--time", "time", "--tick", "1s", *force)
    assert status == 1 and err.startswith("tilt-data: raw.csv: it is the file that is read, and the series raw would take its place")
    assert pathlib.Path("raw.csv").read_text() == "time,raw\n2026-03-01T00:00:01,2\n"


def test_a_folder_is_the_one_that_its_links_lead_to(told, tmp_path):
    os.makedirs("far/inner")
    os.symlink("far/inner", "link")
    put(READINGS)
    status, _, err = told("series", "raw.csv", "--time", "time", "--tick", "1s", "--scale", "100", "--out", "link/../o")
    assert status == 0 and "link/../o/temp.csv: 3 rows" in err
    assert sorted(os.listdir("far/o")) == ["temp.csv", "temp.json"] and sorted(os.listdir()) == ["far", "link", "raw.csv"]


def test_a_name_that_is_too_long_for_a_file(told):
    name = "\u0434" * 47
    what = refused(told, f"time,{name}\n2026-03-01,1\n", "--tick", "1s")
    assert what.startswith("raw.csv:2: the name of a file has 255 bytes at most, and ") and f"take a shorter name than '{name}'" in what


def test_the_links_of_outputs_stay(told):
    os.mkdir("far")
    os.symlink("far/real.csv", "temp.csv")
    rows, _ = series(told, READINGS, "--tick", "1s", "--scale", "100")
    assert os.readlink("temp.csv") == "far/real.csv" and rows_in("far/real.csv") == rows and len(rows) == 3
    assert sorted(os.listdir()) == ["far", "raw.csv", "temp.csv", "temp.json"] and os.listdir("far") == ["real.csv"]
    os.symlink("temp.csv", "power.csv")
    put("time,temp,power\n2026-03-01T00:00:01,1,2\n")
    status, _, err = told("series", "raw.csv", "--time", "time", "--tick", "1s")
    assert status == 1 and err.startswith("tilt-data: power.csv: it is there without a JSON file beside it")
    status, _, err = told("series", "raw.csv", "--time", "time", "--tick", "1s", "--force")
    assert status == 1 and err == "tilt-data: power.csv: its links lead to the file of another output\n"
    assert rows_in("far/real.csv") == rows


def test_what_comes_from_a_pipe(told, monkeypatch):
    for words in (("--scale", "100"), ("--scale", "auto"), ("--scale", "auto", "--sort")):
        monkeypatch.setattr(sys, "stdin", io.TextIOWrapper(io.BytesIO(READINGS.encode())))
        assert told("series", "-", "--time", "time", "--tick", "1s", *words)[0] == 0
        assert rows_in("temp.csv")[0] == (SIX + 5, SIX + 65, 2050)


def test_sorting_is_by_time_and_then_by_line(told):
    draws = random.Random(4)
    moments = [draws.randrange(0, 3000) for _ in range(5000)]
    text = "time,temp\n" + "".join(f"{moment},{line}\n" for line, moment in enumerate(moments))
    common = ("--unit", "s", "--tick", "1s", "--origin", "1970-01-01", "--event", "--ties", "last")
    assert "--sort" in refused(told, text, *common)
    rows, _ = series(told, text, *common, "--sort")
    last = {moment: line for line, moment in enumerate(moments)}
    assert rows == [(moment, moment + 1, last[moment]) for moment in sorted(last)]


def test_sorting_in_parts(tmp_path):
    from tilt_data.readings import in_order

    draws = random.Random(5)
    readings = [(draws.randrange(50), line, "", "x", "1") for line in range(1000)]
    assert list(in_order(readings, str(tmp_path), 64)) == sorted(readings)


@pytest.mark.parametrize(
    "text, words, what",
    [
        ("", ["--tick", "1s"], "raw.csv:1: the column 'time' is not in the header"),
        ("time,temp\n", ["--tick", "1s", "--value", "hum"], "raw.csv:1: the column 'hum' is not in the header; there are: time, temp"),
        ("when,temp\n", ["--tick", "1s"], "raw.csv:1: the column 'time' is not in the header; there are: when, temp"),
        ("time;temp\n2026-03-01;1\n", ["--tick", "1s"], "are its fields separated by ';'? --delimiter ';'"),
        ('time,temp\n2026-03-01,"1,5"\n', ["--tick", "1s"], "for a decimal comma: --decimal ,"),
        ("time,time,temp\n", ["--tick", "1s"], "raw.csv:1: the column 'time' is more than once in the header"),
        ("time\n", ["--tick", "1s"], "raw.csv:1: no column of values"),
        ("time,temp\nyesterday,1\n", ["--tick", "1s"], "raw.csv:2: 'yesterday' is no time: ISO 8601 was expected"),
        ("time,temp\n1772344805,1\n", ["--tick", "1s"], "for numbers since 1970 say --unit"),
        ("time,temp\n2026-03-01,1,2\n", ["--tick", "1s"], "raw.csv:2: 2 fields were expected as in the header, not 3"),
        ("time,temp\n2026-03-01,1\n", [], "how long is a tick?"),
        ("time,temp\n2026-03-01,1\n", ["--tick", "1x"], "'1x' is no duration"),
        ("time,temp\n2026-03-01,1\n", ["--tick", "1s", "--max-age", "1500ms"], "--max-age 1500ms is no whole number of ticks of 1s"),
        ('time,temp\n2026-03-01,"12', ["--tick", "1s"], "raw.csv:2: a record of CSV was expected: unexpected end of data"),
        ('time,temp\n2026-03-01,1\n2026-03-02,"2\n2026-03-03,3\n', ["--tick", "1s"], "raw.csv:3: a record of CSV was expected"),
        ("time,temp\n2026-03-01,1\n", ["--tick", "1s", "--delimiter", "ab"], "--delimiter 'ab': one sign was expected, or \\t for a tab"),
        ("time,temp\n2026-03-01,1\n", ["--tick", "1s", "--delimiter", ""], "--delimiter '': one sign was expected"),
        ("time\ttemp\n2026-03-01\t1\n", ["--tick", "1s"], "are its fields separated by '\\t'? --delimiter '\\t'"),
        (
            "time,temp,hum\n2026-03-01,1,2\n",
            ["--tick", "1s", "--max-age", "5s", "tmep=1min"],
            "--max-age tmep=..: no series has this name; there are: hum, temp",
        ),
        (
            "time,temp,hum\n2026-03-01,1,2\n",
            ["--tick", "1s", "--scale", "tmep=10"],
            "--scale tmep=..: no series has this name; there are: hum, temp",
        ),
        (
            "time,temp,hum\n2026-03-01,1,2\n",
            ["--tick", "1s", "--scale", "tmep=auto", "--value", "temp"],
            "--scale tmep=..: no series has this name; there are: temp",
        ),
        ("time,temp\n2026-03-01,1\n", ["--tick", "1s", "--scale", "0"], "--scale 0: a whole number above 0"),
        ("time,temp\n2026-03-01,1\n", ["--tick", "1s", "--zone", "Zurich"], "'Zurich' is no time zone"),
        ("time,temp\n2026-03-01,1\n", ["--tick", "1s", "--event", "--hold", "next"], "--event is a reading of one tick"),
        ("time,temp\n2026-03-01,1\n2026-03-02,x\n", ["--tick", "1s"], "raw.csv:3: temp: 'x' is no number"),
        ("time,temp\n2026-03-02,1\n2026-03-01,2\n", ["--tick", "1s"], "raw.csv:3: this reading of temp lies before that of line 2: --sort"),
        ("time,temp\n2026-03-02,1\n", ["--like", "other.csv"], "other.csv: there is no other.json beside it"),
    ],
)
def test_what_is_refused(told, text, words, what):
    assert what in refused(told, text, *words)


@pytest.mark.parametrize("sign", ["\\t", "\t"])
def test_a_tab_may_be_written_by_two_signs(told, sign):
    assert series(told, "time\ttemp\n2026-03-01T00:00:01\t7\n", "--tick", "1s", "--delimiter", sign)[0] == [(1, 2, 7)]


def test_names_of_files_and_back():
    assert [safe(text) for text in ("a b", "Zürich", ".5", "..", "a.b", "%2E", "a/b")] == [
        "a b",
        "Z%C3%BCrich",
        "%2E5",
        "%2E.",
        "a.b",
        "%252E",
        "a%2Fb",
    ]
    draws = random.Random(11)
    seen = {}
    for _ in range(5000):
        text = "".join(draws.choice('aZ09._-~ +,=@()%/\\:*?"<>|\n\0äéΩ漢😀') for _ in range(draws.randrange(1, 8)))
        name = safe(text)
        assert urllib.parse.unquote(name) == text and seen.setdefault(name, text) == text
        assert name.isascii() and not set(name) & set("/\n\0") and not name.startswith(".")


def test_two_keys_never_share_a_file(told):
    text = "time,k,sensor,value\n2026-03-01T00:00:01,a_b,c,1\n2026-03-01T00:00:01,a,b_c,2\n"
    words = ("--tick", "1s", "--key", "k", "--name", "sensor", "--value", "value")
    assert "raw.csv:3: the key a with b_c and another key have one file, a_b_c.csv" in refused(told, text, *words, "--prefix")
    assert told("series", "raw.csv", "--time", "time", *words)[0] == 0


def test_a_text_that_is_no_utf_8(told):
    pathlib.Path("raw.csv").write_bytes(b"time,temp\n2026-03-01T00:00:01,1\n2026-03-01T00:00:02,\xff\n")
    assert told("series", "raw.csv", "--time", "time", "--tick", "1s")[2] == "tilt-data: raw.csv:3: a text in UTF-8 was expected\n"


def test_a_refusal_leaves_the_old_files(told):
    rows, _ = series(told, READINGS, "--tick", "1s", "--scale", "100")
    assert refused(told, READINGS + "x,1\n", "--tick", "1s", "--scale", "100").startswith("raw.csv:5: ")
    assert rows_in("temp.csv") == rows
    assert told("series", "nowhere.csv", "--time", "time", "--tick", "1s") == (1, "", "tilt-data: nowhere.csv: No such file or directory\n")


# pandas, on windows


@pytest.mark.parametrize("closed", ["left", "right"])
def test_pandas_has_the_same_windows_of_events(told, tilt, closed):
    pandas = pytest.importorskip("pandas")
    draws = random.Random(6)
    # Whole and half seconds, many of them on the edges of windows of 10 s, each tick once.
    moments = sorted({draws.randrange(0, 1200) * 1000 // 2 for _ in range(700)})
    frame = pandas.DataFrame({"time": pandas.to_datetime(moments, unit="ms"), "temp": [draws.randrange(-99, 99) for _ in moments]})
    frame.to_csv("raw.csv", index=False)
    words = ("--time", "time", "--tick", "500ms", "--origin", "1970-01-01", "--event", "--closed", closed)
    assert told("series", "raw.csv", *words)[0] == 0
    wanted = (
        frame.set_index("time")["temp"].resample("10s", closed=closed, label="right").agg(["count", "sum", "min", "max", "first", "last"])
    )
    for reducer in wanted.columns:
        out = run_program(tilt, f"input temp; emit {reducer}(temp[t-20:t]) over (-20, 1220] every 20;", "temp=temp.csv")
        got = {int(line.split(",")[1]): int(line.split(",")[2]) for line in expand(out, 20)}
        there = wanted[wanted["count"] > 0][reducer]
        assert got == {int(label.timestamp() * 2): int(value) for label, value in there.items()}, reducer


def test_pandas_has_the_same_value_at_each_moment_where_readings_hold(told, tilt):
    pandas = pytest.importorskip("pandas")
    draws = random.Random(7)
    moments = sorted(draws.sample(range(0, 5000), 300))
    frame = pandas.DataFrame({"time": pandas.to_datetime(moments, unit="s"), "temp": [draws.randrange(100) for _ in moments]})
    frame.to_csv("raw.csv", index=False)
    assert told("series", "raw.csv", "--time", "time", "--tick", "1s", "--origin", "1970-01-01", "--max-age", "20s")[0] == 0
    out = run_program(tilt, "input temp; emit temp over (0, 5000];", "temp=temp.csv")
    got = {int(line.split(",")[1]) - 1: int(line.split(",")[2]) for line in expand(out, 1)}
    seconds = pandas.DataFrame({"time": pandas.to_datetime(range(5000), unit="s")})
    wanted = pandas.merge_asof(seconds, frame, on="time", tolerance=pandas.Timedelta("19s"))["temp"]
    assert got == {second: int(value) for second, value in wanted.items() if value == value}


def expand(out: str, period: int) -> list[str]:
    """The rows of an output, cut at each multiple of the period."""
    cut = []
    for line in out.splitlines()[1:]:
        start, end, value = map(int, line.split(","))
        cut += [f"{at},{at + period},{value}" for at in range(start, end, period)]
    return cut
