"""`tilt-data ticks`: each tick, periods, trading hours and weekdays."""
from __future__ import annotations

import datetime
import pathlib
import zoneinfo

import pytest
from conftest import rows_in, run_program
from tilt_data.clock import Clock, Moments
from tilt_data.files import Notes, notes_of


def made(told, *words: str, tick: int = 10**9, origin: str = "2026-03-01", closed: str = "left") -> list:
    clock = Clock(tick, Moments().read(origin), closed)
    pathlib.Path("x.csv").write_text("start,end,value\n")
    pathlib.Path("x.json").write_text(Notes(clock).text())
    status, out, err = told("ticks", words[0], "out.csv", "--like", "x.csv", *words[1:])
    assert (status, out, err) == (0, "", "")
    assert notes_of("out.csv").clock == clock
    return rows_in("out.csv")


def test_each_tick(told):
    assert made(told, "each", "--from", "2026-03-01T00:00:02", "--to", "2026-03-01T00:00:05") == [(2, 3, 0), (3, 4, 0), (4, 5, 0)]
    assert made(told, "now", "--from", "2", "--to", "5") == [(2, 3, 3), (3, 4, 4), (4, 5, 5)]
    assert made(told, "now", "--from", "2026-03-01T00:00:02", "--to", "5", closed="right") == [(2, 3, 3), (3, 4, 4), (4, 5, 5)]
    assert made(told, "periods", "--from", "0", "--to", "25", "--every", "10s") == [(0, 10, 0), (10, 20, 1), (20, 25, 2)]


def test_hours_in_a_zone(told):
    rows = made(
        told,
        "hours",
        "--from",
        "2026-03-05",
        "--to",
        "2026-03-11",
        "--open",
        "09:30",
        "--close",
        "16:00",
        "--zone",
        "America/New_York",
        "--closed-on",
        "2026-03-06",
        tick=60 * 10**9,
    )
    new_york = zoneinfo.ZoneInfo("America/New_York")
    origin = datetime.datetime(2026, 3, 1, tzinfo=datetime.timezone.utc)
    wanted = []
    # The clock goes forward on Sunday the 8th.
    for day in (5, 9, 10):
        ends = [datetime.datetime(2026, 3, day, *time, tzinfo=new_york) for time in ((9, 30), (16, 0))]
        wanted.append((*((end - origin) // datetime.timedelta(minutes=1) for end in ends), 1))
    assert rows == wanted
    assert wanted[0][0] % 1440 == 14 * 60 + 30 and wanted[1][0] % 1440 == 13 * 60 + 30


def test_hours_of_a_day_that_the_zone_left_out(told, tilt):
    """Samoa had no 30 December 2011: it went from UTC-10 to UTC+14."""
    rows = made(
        told,
        "hours",
        "--from",
        "2011-12-28",
        "--to",
        "2012-01-01",
        "--open",
        "09:30",
        "--close",
        "16:00",
        "--zone",
        "Pacific/Apia",
        "--days",
        "mon-fri",
        "--days",
        "sat",
        tick=60 * 10**9,
        origin="2011-12-28",
    )
    # In UTC: 19:30 of the same day on the 28th and the 29th, and 19:30 of the day before on the 31st.
    days = [(0, 28), (1, 29), (2, 31)]
    assert rows == [(day * 1440 + 1170, day * 1440 + 1560, 1) for day, _ in days]
    assert run_program(tilt, "input x; emit x over (0, 10000];", "x=out.csv").count("\n") == 4


def test_days_that_are_given_again_add_to_the_first(told):
    words = ("hours", "--from", "2026-03-02", "--to", "2026-03-09", "--open", "00:00", "--close", "24:00")
    of_day = {"mon": (0, 86400, 1), "wed": (2 * 86400, 3 * 86400, 1)}
    assert made(told, *words, "--days", "mon", "--days", "wed", origin="2026-03-02") == list(of_day.values())


def test_weekdays_in_a_zone(told):
    rows = made(
        told, "weekdays", "--from", "2026-03-28", "--to", "2026-03-31", "--zone", "Europe/Zurich", tick=3600 * 10**9, origin="2026-03-28"
    )
    # Zurich's midnight is 23:00 in UTC and, after the clock went forward, 22:00; Sunday has 23 hours.
    assert rows == [(-1, 23, 6), (23, 46, 7), (46, 70, 1)]


def test_an_average_weighted_by_time(told, tilt):
    made(told, "each", "--from", "0", "--to", "10")
    pathlib.Path("x.csv").write_text("start,end,value\n0,8,10\n8,10,20\n")
    query = "input x; input each; let w = x + each; emit avg(w[t-10:t]) over (0, 10] every 10;"
    assert run_program(tilt, query, "x=x.csv", "each=out.csv") == "start,end,value\n0,10,12\n"
    made(told, "now", "--from", "0", "--to", "10")
    pathlib.Path("x.csv").write_text("start,end,value\n2,3,1\n7,8,1\n")
    query = "input x; input now; let at = now when not isnull(x); emit now - last(at[t-100:t]) over (0, 10];"
    out = run_program(tilt, query, "x=x.csv", "now=out.csv")
    assert [line.split(",")[2] for line in out.splitlines()[1:]] == ["0", "1", "2", "3", "4", "0", "1", "2"]


@pytest.mark.parametrize(
    "words, what",
    [
        (["periods", "out.csv", "--like", "x.csv", "--from", "0", "--to", "9"], "how long is a period?"),
        (["hours", "out.csv", "--like", "x.csv", "--from", "0", "--to", "9"], "when is it open?"),
        (
            ["hours", "out.csv", "--like", "x.csv", "--from", "0", "--to", "9", "--open", "9:30", "--close", "16:00"],
            "'9:30' is no time of day",
        ),
        (["each", "out.csv", "--like", "x.csv", "--from", "9", "--to", "9"], "has no tick"),
        (["each", "out.csv", "--like", "y.csv", "--from", "0", "--to", "9"], "there is no y.json beside it"),
        (["each", "out.csv", "--like", "x.csv", "--from", "morning", "--to", "9"], "--from: 'morning' is no time"),
        (
            ["each", "out.csv", "--like", "x.csv", "--from", "0", "--to", "9" * 5000],
            ": a tick from -4000000000000000000 to 4000000000000000000 was",
        ),
        (
            ["each", "out.csv", "--like", "x.csv", "--from", "0", "--to", "4000000000000000001"],
            "--to 4000000000000000001: a tick from -4000000000",
        ),
        (
            ["each", "out.csv", "--like", "x.csv", "--from", "-4000000000000000001", "--to", "0"],
            "--from -4000000000000000001: a tick from -4000000",
        ),
        (["each", "out.csv", "--like", "x.csv", "--from", "\u0663", "--to", "9"], "--from: '\u0663' is no time"),
        (
            ["weekdays", "out.csv", "--like", "x.csv", "--from", "0001-01-01", "--to", "0001-01-10"],
            "from 0001-01-01 to 0001-01-10: days from 0001-01-03 to 9999-12-28 were expected: take a nearer --from or --to",
        ),
        (
            ["weekdays", "out.csv", "--like", "x.csv", "--from", "9999-12-20", "--to", "9999-12-31"],
            "from 9999-12-20 to 9999-12-31: days from 0001-01-03 to 9999-12-28 were expected: take a nearer --from or --to",
        ),
        (
            ["weekdays", "out.csv", "--like", "x.csv", "--from", "-99999999999", "--to", "0"],
            "outside of the years 1 to 9999: take a nearer --from or --to",
        ),
        (
            ["hours", "out.csv", "--like", "x.csv", "--from", "0", "--to", "9", "--open", "0\uff19:30", "--close", "16:00"],
            "is no time of day",
        ),
    ],
)
def test_what_is_refused(told, words, what):
    pathlib.Path("x.json").write_text(Notes(Clock(10**9, 0)).text())
    status, out, err = told("ticks", *words)
    assert (status, out) == (1, "") and what in err and not pathlib.Path("out.csv").exists()


def test_the_last_days_of_the_calendar(told):
    rows = made(told, "weekdays", "--from", "0001-01-03", "--to", "0001-01-05", tick=86400 * 10**9, origin="0001-01-01")
    assert rows == [(at, at + 1, datetime.date(1, 1, at + 1).isoweekday()) for at in (2, 3)]
    rows = made(told, "weekdays", "--from", "9999-12-26", "--to", "9999-12-28", tick=86400 * 10**9, origin="9999-12-01")
    assert rows == [(at, at + 1, datetime.date(9999, 12, at + 1).isoweekday()) for at in (25, 26)]


@pytest.mark.parametrize("name", ["out.csv", "out.json"])
def test_files_of_others_are_replaced_only_by_force(told, name):
    pathlib.Path(name).write_text("mine")
    pathlib.Path("x.csv").write_text("start,end,value\n")
    pathlib.Path("x.json").write_text(Notes(Clock(10**9, 0)).text())
    words = ("ticks", "each", "out.csv", "--like", "x.csv", "--from", "0", "--to", "2")
    status, out, err = told(*words)
    assert (status, out) == (1, "") and err.startswith(f"tilt-data: {name}: it is there")
    assert err.endswith("; name another file, or replace it by --force\n") and pathlib.Path(name).read_text() == "mine"
    assert told(*words, "--force") == (0, "", "") and rows_in("out.csv") == [(0, 1, 0), (1, 2, 0)]
    assert told(*words) == (0, "", "")


def test_the_series_of_like_is_not_written_over(told):
    made(told, "each", "--from", "0", "--to", "5")
    for out in ("x.csv", "./x.csv"):
        status, shown, err = told("ticks", "each", out, "--like", "x.csv", "--from", "0", "--to", "5")
        assert (status, shown) == (1, "")
        assert err == f"tilt-data: {out}: it is the series of --like, and would be written over: name another file\n"
    assert pathlib.Path("x.csv").read_text() == "start,end,value\n"
