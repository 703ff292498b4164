"""Queries in the units of their data: what a number means at another scale, and what can overflow, before anything runs.

What the check has to say of each query is written here by the rules of docs/LIVE.md. A script prints it, and so does the program."""
from __future__ import annotations

import decimal
import os
import pathlib
import random
import re
import subprocess
import sys
from typing import Callable

import pytest
from check.units import feed_of, random_case
from conftest import LIVE, PYTHON
from tilt_data.clock import Clock
from tilt_data.errors import TiltError
from tilt_data.files import Notes
from tilt_data.scaling import scale
from tilt_data.unit_table import definition_scales
from tilt_data.units import Checked, Known, Overflow, checked, in_units, known_of

Says = Callable[[str, str], None]
SCRIPT = f"""#!/bin/sh
case " $* " in *" --save "* | *" --resume "*) exec {LIVE} "$@" ;; esac
cat "$0.report"
case $(grep -o '^overflow' "$0.report") in overflow) echo 'tilt: 120 overflow' >&2; exit 1; esac
if [ -e "$0.fault" ]; then cat "$0.fault" >&2; exit 1; fi
"""


@pytest.fixture
def has_check(tmp_path: pathlib.Path, monkeypatch: pytest.MonkeyPatch) -> bool:
    """Whether there is a program that has a check, in an empty folder."""
    monkeypatch.chdir(tmp_path)
    pathlib.Path("one").write_text("emit 1 over (0, 1];")
    try:
        return subprocess.run([LIVE, "one", "--units", "--check"], capture_output=True).returncode == 0
    except OSError:
        return False


@pytest.fixture(params=["script", pytest.param("program", marks=pytest.mark.program)])
def says(request: pytest.FixtureRequest, has_check: bool, tmp_path: pathlib.Path, monkeypatch: pytest.MonkeyPatch) -> Says:
    """Makes a script print a report, or reject a query by a line. The program has to do so by itself."""
    script = tmp_path / "script"
    if request.param == "script":
        script.write_text(SCRIPT)
        script.chmod(0o755)
    elif not has_check:
        pytest.skip("the program has no check")
    monkeypatch.setenv("TILT_LIVE", str(script if request.param == "script" else LIVE))

    def say(report: str, fault: str = "") -> None:
        script.with_name("script.report").write_text(report)
        if fault:
            script.with_name("script.fault").write_text(f"{fault}\n")

    return say


def called(*words: str) -> tuple[int, str, str]:
    """A command with what its program prints."""
    environment = {**os.environ, "PYTHONPATH": str(PYTHON)}
    done = subprocess.run([sys.executable, "-m", "tilt_data", *words], env=environment, capture_output=True, text=True)
    return done.returncode, done.stdout, done.stderr


def put(name: str, rows: str, scale: int = 1) -> None:
    """A series with its JSON file."""
    values = [int(row.split(",")[2]) for row in rows.split()]
    pathlib.Path(f"{name}.csv").write_text("start,end,value\n" + rows)
    pathlib.Path(f"{name}.json").write_text(Notes(Clock(10**9, 0), scale, "hold", name, None, None, min(values), max(values)).text())


# Numbers mean what they say

HEAD = "scale spo2 10\ndecimals {}\nrate spo2 1 1\nbound spo2 850 970\n"
# Of each query, as a person writes it: the decimals of its output, the bounds of its definitions, the query over whole numbers, and the
# values that are right: of 600 seconds at 97, one at 96.5, and then 100 at 85.
QUERIES = {
    "alarm": (
        "input spo2;\nlet low = ifnull(spo2 < 90, false);\nemit spo2 when all(low[t-60:t]) over (0, 701];\n",
        1,
        "bound low 0 1\nbound emit 850 970\n",
        "input spo2;\nlet low = ifnull(spo2 < 900, false);\nemit spo2 when all(low[t-60:t]) over (0, 701];\n",
        ["85.0"] * 41,
    ),
    "count": (
        "input spo2;\nemit count(spo2[t-60:t]) over (60, 120] every 60;\n",
        0,
        "bound emit 1 60\n",
        "input spo2;\nemit count(spo2[t-60:t]) over (60, 120] every 60;\n",
        ["60"],
    ),
    "one": (
        "input spo2;\nemit 1 when spo2 > 0 over (0, 1];\n",
        0,
        "bound emit 1 1\n",
        "input spo2;\nemit 1 when spo2 > 0 over (0, 1];\n",
        ["1"],
    ),
    "square": (
        "input spo2;\nemit spo2 * spo2 over (0, 1];\n",
        2,
        "bound emit 722500 940900\n",
        "input spo2;\nemit spo2 * spo2 over (0, 1];\n",
        ["9409.00"],
    ),
    "more": (
        "input spo2;\nemit spo2 + 1 over (599, 602];\n",
        1,
        "bound emit 860 980\n",
        "input spo2;\nemit spo2 + 10 over (599, 602];\n",
        ["98.0", "97.5", "86.0"],
    ),
    "percent": (
        "input spo2;\nemit 100 * spo2 / spo2 over (0, 1];\n",
        0,
        "bound emit 87 114\n",
        "input spo2;\nemit 100 * spo2 / spo2 over (0, 1];\n",
        ["100"],
    ),
    "decimals": (
        "input spo2;\nlet limit = 86.5;\nemit limit - spo2 when spo2 < limit over (700, 701];\n",
        1,
        "bound limit 865 865\nbound emit -105 15\n",
        "input spo2;\nlet limit = 865;\nemit limit - spo2 when spo2 < limit over (700, 701];\n",
        ["1.5"],
    ),
}


def saturation():
    pandas = pytest.importorskip("pandas")
    return pandas.Series([97.0] * 600 + [96.5] + [85.0] * 100, pandas.date_range("2026-03-01", periods=701, freq="1s"))


def report_of(name: str) -> str:
    _, decimals, bounds, whole, _ = QUERIES[name]
    return HEAD.format(decimals) + bounds + "query\n" + whole


@pytest.mark.parametrize("name", QUERIES)
def test_the_check_of_a_query(says, name):
    text, decimals, bounds, whole, _ = QUERIES[name]
    says(report_of(name))
    pathlib.Path("q.tilt").write_text(text)
    found = checked("q.tilt", {"spo2": 10}, {"spo2": Known(850, 970)})
    pairs = [line.split()[1:] for line in ["bound spo2 850 970", *bounds.splitlines()]]
    its = {name: (int(least), int(greatest)) for name, least, greatest in pairs}
    assert found == Checked(whole, decimals, {"spo2": 10}, {"spo2": (1, 1)}, its)


@pytest.mark.parametrize("name", QUERIES)
def test_one_decimal_in_the_data_changes_no_number_of_a_query(tilt, says, monkeypatch, recwarn, name):
    import tilt_data

    monkeypatch.setenv("TILT", tilt)
    says(report_of(name))
    found = tilt_data.run(QUERIES[name][0], saturation(), over="query", exact=True)
    assert [str(value) for value in found["value"]] == QUERIES[name][-1] and not recwarn.list
    # With keys too, which share a run.
    data = saturation().to_frame("spo2").assign(key="a")
    assert [str(value) for value in tilt_data.run(QUERIES[name][0], data, by="key", over="query", exact=True)["value"]] == QUERIES[name][-1]


@pytest.mark.parametrize("name", QUERIES)
def test_the_commands_print_the_same_values(told, tilt, says, monkeypatch, name):
    monkeypatch.setenv("TILT", tilt)
    says(report_of(name))
    pathlib.Path("q.tilt").write_text(QUERIES[name][0])
    rows = "".join(f"{at},{at + 1},{970 if at < 600 else 965 if at == 600 else 850}\n" for at in range(701))
    put("spo2", rows, 10)
    status, out, err = told("by", "q.tilt", "spo2={key}.csv", "-o", "by.csv")
    assert (status, out, err) == (0, "", "")
    status, out, err = called("run", "q.tilt", "spo2=spo2.csv")
    assert (status, err) == (0, "")
    pathlib.Path("run.csv").write_text(out)
    for file in ("by.csv", "run.csv"):
        assert [line.split(",")[-1] for line in pathlib.Path(file).read_text().splitlines()[1:]] == QUERIES[name][-1]
        # A table shows them as they are, whatever the scale of the series.
        shown = told("table", file, "--like", "spo2.csv")[1].splitlines()[1:]
        assert [line.split(",")[-1] for line in shown] == QUERIES[name][-1]


def test_a_query_in_parts_is_in_units(told, tilt, has_check, monkeypatch):
    monkeypatch.setenv("TILT", tilt)
    if not has_check:
        pytest.skip("the program has no check")
    monkeypatch.setenv("TILT_LIVE", str(LIVE))
    pathlib.Path("q.tilt").write_text("input x; input y; emit x + y + 1 over (0, 9];")
    for factor, whole, wanted in ((10, (), "4.0"), (10, ("--whole",), "31"), (1, (), "31"), (1, ("--whole",), "31")):
        put("x", "0,9,25\n", factor), put("y", "0,9,5\n", factor)
        status, _, err = told("scale", "q.tilt", "x=x.csv", "y=y.csv", "--out", "out", *whole)
        assert (status, "note" in err) == (0, False), err
        assert pathlib.Path("out/output.csv").read_text() == f"start,end,value\n0,9,{wanted}\n"
    # Over whole numbers scales that differ matter, and no number has a point.
    put("x", "0,9,250\n", 100), put("y", "0,9,5\n", 10)
    binds = ("x=x.csv", "y=y.csv", "--out", "out")
    assert told("scale", "q.tilt", *binds)[0] == 0 and pathlib.Path("out/output.csv").read_text() == "start,end,value\n0,9,4.00\n"
    assert "the inputs have different scales (x: 100; y: 10)" in told("scale", "q.tilt", *binds, "--whole")[2]
    pathlib.Path("q.tilt").write_text("input x; input y; emit x + y + 0.125 over (0, 9];")
    for whole, line in ((), "tilt: 114 statement 3: literal not whole\nq.tilt:1:19: "), (
        ("--whole",),
        "tilt: 20 bad byte at 32\nq.tilt:1:33: ",
    ):
        status, _, err = told("scale", "q.tilt", *binds, *whole)
        assert status == 1 and err.startswith(f"tilt-data: {line}")


def test_outputs_of_keys_with_other_scales(told, tilt, has_check, monkeypatch):
    """All have the decimals of the key that has the most. Small keys share a task only if they share the query over whole numbers."""
    monkeypatch.setenv("TILT", tilt)
    if not has_check:
        pytest.skip("the program has no check")
    monkeypatch.setenv("TILT_LIVE", str(LIVE))
    pathlib.Path("q.tilt").write_text("input x; emit x * 2 when x > 1.5 over (0, 9];")
    wanted = {}
    for key in range(70):
        scale = (10, 1000, 100)[key * 3 // 70]
        put(f"k{key}", f"0,4,{scale}\n4,9,{2 * scale + key}\n", scale)
        thousandths = 2 * (2000 + key * 1000 // scale)
        wanted[f"{key}.csv"] = f"start,end,value\n4,9,{thousandths // 1000}.{thousandths % 1000:03}\n"
    assert told("scale", "q.tilt", "x=k{key}.csv", "--out", "out", "--workers", "2")[0] == 0
    assert {path.name: path.read_text() for path in pathlib.Path("out").glob("*.csv")} == wanted
    # Without those of a thousand there are two decimals, and so all outputs are made again.
    for key in range(24, 47):
        os.unlink(f"k{key}.csv")
    status, _, err = told("scale", "q.tilt", "x=k{key}.csv", "--out", "out", "--workers", "2")
    assert status == 0 and err.startswith("tilt-data: outputs of earlier calls ") and "tilt-data: 47 parts; " in err
    assert pathlib.Path("out/0.csv").read_text() == "start,end,value\n4,9,4.00\n"


def test_files_of_one_input_with_other_scales_are_rejected(told, tilt, monkeypatch):
    monkeypatch.setenv("TILT", tilt)
    pathlib.Path("q.tilt").write_text("input x; emit x over (0, 9];")
    put("a", "0,4,25\n", 10), put("b", "4,9,25\n", 10)
    os.unlink("b.json")
    status, _, err = told("scale", "q.tilt", "x=a.csv", "x=b.csv", "--out", "out")
    assert status == 1 and re.match(
        r"tilt-data: x: /\S+/b.csv has no JSON file beside it, and others have the scale 10: write it ", err
    ), err
    assert told("scale", "q.tilt", "x=a.csv", "x=b.csv", "--out", "out", "--whole")[0] == 0
    # Of one that was written to since, the scale isn't known.
    text = pathlib.Path("a.json").read_text()
    pathlib.Path("a.json").write_text(text.replace('"scale"', '"size": 99,\n "scale"'))
    status, _, err = told("scale", "q.tilt", "x=a.csv", "--out", "out")
    assert status == 1 and "a.csv: it has 23 bytes, and its JSON file describes one of 99 (" in err, err


def test_what_can_overflow_in_parts(told, tilt, has_check, monkeypatch):
    """No row is read for it: a file of so many bytes has no more than so many marks."""
    monkeypatch.setenv("TILT", tilt)
    if not has_check:
        pytest.skip("the program has no check")
    monkeypatch.setenv("TILT_LIVE", str(LIVE))
    put("x", "0,9,1000000000\n")
    for factor, overflows in ((1, False), (10**9, True)):
        pathlib.Path("q.tilt").write_text(f"input x; emit sum(x[t-20000000000:t]) * {factor} over (0, 9];")
        status, _, err = told("scale", "q.tilt", "x=x.csv", "--out", "out")
        assert status == 0 and ("note: emit (statement 2) can leave 64 bits" in err) == overflows, err


def test_lines_in_units():
    draws = random.Random(4)
    for _ in range(2000):
        decimals = draws.randrange(5)
        shown, value = decimals + draws.randrange(4), draws.choice([1, -1]) * draws.randrange(10 ** draws.randrange(1, 19))
        wanted = f"{decimal.Decimal(value).scaleb(-decimals):.{shown}f}" if value else f"{0:.{shown}f}"
        assert list(in_units([f"-3,05,{value}\n"], decimals, shown)) == [f"-3,05,{wanted}\n"], (value, decimals, shown)


def test_random_queries_print_what_tilt_live_prints(tilt, has_check, monkeypatch):
    if not has_check:
        pytest.skip("the program has no check")
    monkeypatch.setenv("TILT", tilt)
    monkeypatch.setenv("TILT_LIVE", str(LIVE))
    draw, several = random.Random(19), 0
    for _ in range(60):
        text, rows, scales = random_case(draw)
        pathlib.Path("q.tilt").write_text(text)
        named = ["--scale", ",".join(f"{name}={scale}" for name, scale in scales.items())] if scales else []
        feed = feed_of(rows, scales)
        live = subprocess.run([LIVE, "q.tilt", "--units", *named], input=feed, capture_output=True, text=True)
        for name, its in rows.items():
            lines = [f"{start},{end},{'' if value is None else int(value * scales[name])}\n" for start, end, value in its]
            pathlib.Path(f"{name}.csv").write_text("start,end,value\n" + "".join(lines))
            pathlib.Path(f"{name}.json").write_text(Notes(Clock(10**9, 0), scales[name]).text())
        status, out, err = called("run", "q.tilt", *(f"{name}={name}.csv" for name in rows))
        assert (status, out) == (live.returncode, live.stdout), text
        # A query that is rejected is so by the same line, and then its place follows.
        assert err.startswith(live.stderr) and (status or not err), text
        files = {name: f"{name}.csv" for name in rows}
        if status:
            with pytest.raises(TiltError, match=f"^{re.escape(live.stderr)}"):
                scale(pathlib.Path("q.tilt"), files, "out", workers=1)
        else:
            made = scale(pathlib.Path("q.tilt"), files, "out", workers=1, part_rows=1)
            assert pathlib.Path("out/output.csv").read_text() == live.stdout, text
            several += made.parts > 1 and "." in live.stdout
    assert several > 5


# What can overflow

EVENTS = "2,3,{0}1\n5,6,{0}4\n6,7,{0}2\n15,16,{0}8\n"
FAR = """input e;
let square = e * e;
let n = count(e[t-20:t]);
let s = sum(e[t-20:t]);
let v = n * sum(square[t-20:t]) - s * s;
let d = n * e - s;
emit e when 4 * d * d > 9 * v over (0, 20];
"""
NEAR = "input e;\nlet c = e - 1000000000;\n" + re.sub(r"\be\b", "c", FAR.removeprefix("input e;\n")).replace("emit c", "emit e")
# Each of the four events begins and ends, and two of the eight marks are one: 7 are in 21 ticks. So a window of `e` meets 8 of its
# snapshots, and one of `square`, which reads `e` twice, 15.
KNOWN = "scale e 1\ndecimals 0\nrate e 7 21\nbound e 1000000001 1000000008\n"
LEAST, GREATEST = 1000000001**2, 15 * 1000000008**2
FAR_REPORT = f"{KNOWN}overflow v 5 {LEAST} {GREATEST}\nquery\n{FAR}"
NEAR_BOUNDS = {"c": (1, 8), "square": (1, 64), "n": (1, 8), "s": (1, 64), "v": (1 - 64 * 64, 8 * 15 * 64 - 1), "d": (1 - 64, 64 - 1)}
NEAR_REPORT = KNOWN + "".join(f"bound {name} {least} {greatest}\n" for name, (least, greatest) in NEAR_BOUNDS.items())
NEAR_REPORT += f"bound emit 1000000001 1000000008\nquery\n{NEAR}"
OVERFLOW = Overflow("v", 5, LEAST, GREATEST)
CURE = "take a constant off its inputs first, as `let d = x - 100;`, shorten its windows, or give a smaller scale"
WARNING = f"v (statement 5) can leave 64 bits, and is null then: its whole numbers are from {LEAST} to {GREATEST}: {CURE}"


def lay_out(query: str) -> None:
    pathlib.Path("q.tilt").write_text(query)
    put("e", EVENTS.format("100000000"))


def test_the_first_overflow_of_a_query(says):
    says(FAR_REPORT, "")
    lay_out(FAR)
    known = {"e": Known(1000000001, 1000000008, 7, 21)}
    assert checked("q.tilt", {"e": 1}, known) == Checked(FAR, 0, {"e": 1}, {"e": (7, 21)}, {"e": (1000000001, 1000000008)}, OVERFLOW)
    says(NEAR_REPORT)
    lay_out(NEAR)
    assert checked("q.tilt", {"e": 1}, known).bounds == {"e": (1000000001, 1000000008), **NEAR_BOUNDS, "emit": (1000000001, 1000000008)}


def test_an_overflow_is_reported_before_a_run(tilt, says, monkeypatch):
    monkeypatch.setenv("TILT", tilt)
    says(FAR_REPORT)
    lay_out(FAR)
    head = "start,end,value\n"
    # The outlier is lost, which a run alone doesn't show.
    assert called("run", "q.tilt", "e=e.csv") == (0, head, f"tilt-data: note: {WARNING}\n")
    assert called("by", "q.tilt", "e={key}.csv") == (0, f"key,{head}", f"tilt-data: note: {WARNING}\n")
    says(NEAR_REPORT)
    lay_out(NEAR)
    assert called("run", "q.tilt", "e=e.csv") == (0, f"{head}15,16,1000000008\n", "")


def test_an_overflow_is_a_warning_in_python(tilt, says, monkeypatch, recwarn):
    pandas = pytest.importorskip("pandas")
    from tilt_data import run

    monkeypatch.setenv("TILT", tilt)
    says(FAR_REPORT)
    times = pandas.to_datetime([f"2026-03-01 00:00:{second:02}" for second in (2, 5, 6, 15)])
    events = pandas.Series([1000000001, 1000000004, 1000000002, 1000000008], times)
    data = events.to_frame("e").assign(key="a")
    lay_out(FAR)
    for call in (lambda query: run(query, events, event=True), lambda query: run(query, data, by="key", event=True), read):
        with pytest.warns(UserWarning) as caught:
            assert not len(call(FAR))
        assert [str(one.message) for one in caught] == [WARNING]
    says(NEAR_REPORT)
    recwarn.clear()
    assert run(NEAR, events, event=True)["value"].tolist() == [1000000008] and not recwarn.list


def test_a_query_over_whole_numbers_needs_no_check(tilt, says, monkeypatch, recwarn):
    pytest.importorskip("pandas")
    monkeypatch.setenv("TILT", tilt)
    says("")
    monkeypatch.setenv("TILT_LIVE", "no/program")
    lay_out(NEAR)
    assert called("run", "q.tilt", "e=e.csv") == (0, "start,end,value\n15,16,1000000008\n", "")
    assert read(NEAR)["value"].tolist() == [1000000008] and not recwarn.list
    pathlib.Path("q.tilt").write_text("input e; emit e + 0.5 over (0, 9];")
    status, out, err = called("run", "q.tilt", "e=e.csv")
    assert (status, out) == (1, "") and err.startswith("tilt-data: the program can't be run: ")


def read(query: str):
    from tilt_data import run

    return run(query, inputs={"e": "e.csv"})


def test_the_check_counts_the_marks_of_a_series():
    rows = [(2, 3, 5), (5, 6, None), (6, 7, -2), (15, 16, 8)]
    assert [known_of(rows, ticks) for ticks in (21, 4, 1)] == [Known(-2, 8, 7, 21), Known(-2, 8, 3, 4), Known(-2, 8, 1, 1)]
    # A value that holds has a mark where the next one begins.
    assert known_of([(at, at + 10, at) for at in range(0, 100, 10)], 30) == Known(0, 90, 3, 30)
    assert known_of([], 9) == Known(0, 0, 1, 9) and known_of([(0, 5, None)], 9) == Known(0, 0, 2, 9)


def test_marks_of_arrays_are_those_of_rows():
    pytest.importorskip("pandas")
    from tilt_data.rows import RowArrays, marks_in

    draws = random.Random(3)
    for _ in range(200):
        edges = sorted(draws.sample(range(200), 2 * draws.randrange(1, 30)))
        rows = [(start, end, 1) for start, end in zip(edges[::2], edges[1::2])]
        rows += [(edges[-1], edges[-1] + 3, 1)] if draws.random() < 0.5 else []
        ticks, cut = draws.randrange(1, 60), draws.randrange(len(rows))
        assert marks_in([RowArrays.of(rows[:cut]), RowArrays.of(rows[cut:])], ticks) == known_of(rows, ticks).marks


def test_bounds_are_decimals_that_are_exact_at_the_scale():
    known = Known(-25, 2050, 3, 60)
    texts = {1: "-25:2050:3/60", 100: "-0.25:20.50:3/60", 8: "-3.125:256.25:3/60", 3: "-9:684:3/60"}
    assert {scale: known.bound(scale) for scale in texts} == texts


# What Python does with it


def test_a_scale_by_the_data_has_room_for_the_numbers_of_the_query(tilt, says, monkeypatch):
    pandas = pytest.importorskip("pandas")
    from tilt_data import frames, units

    asked: list[int] = []

    def check(path: str, scales: dict[str, int], name: str | None = None) -> Checked:
        asked.append(scales["x"])
        if scales["x"] < 100:
            raise TiltError("tilt: 114 statement 2: literal not whole", 1)
        return Checked("input x; emit x when x > 9025 over (0, 9];", 2)

    monkeypatch.setenv("TILT", tilt)
    monkeypatch.setattr(units, "checked", check)
    monkeypatch.setattr(frames, "overflow_of", lambda *_: None)
    data = pandas.Series([90, 91], pandas.date_range("2026-03-01", periods=2, freq="1s"))
    query = "input x; emit x when x > 90.25 over (0, 9];"
    assert frames.run(query, data)["value"].tolist() == [91] and asked == [1, 100]
    # A scale that the caller gives stays.
    with pytest.raises(TiltError, match="literal not whole"):
        frames.run(query, data, scale=10)
    assert asked == [1, 100, 10]


def test_a_live_run_is_in_units(tilt, live, says, monkeypatch):
    pandas = pytest.importorskip("pandas")
    from tilt_data import Query

    monkeypatch.setenv("TILT", tilt)
    says("scale x 10\ndecimals 2\nrate x 1 1\nbound x 0 0\nbound emit 0 0\nquery\ninput x;\nemit x * 5 over (0, 9];\n")
    data = pandas.Series([2.5, 0.1], pandas.date_range("2026-03-01", periods=2, freq="1s"))
    with Query("input x; emit x * 0.5 over (0, 9];").live(origin="2026-03-01", scale=10) as begun:
        assert [value for part in (begun.push(data), begun.end()) for value in part["value"]] == [1.25, 0.05]


def test_a_query_in_units_is_explained_as_it_is(tilt, says, monkeypatch):
    pytest.importorskip("pandas")
    from tilt_data import Query

    monkeypatch.setenv("TILT", tilt)
    explained = Query("input x; let y = x * 10.25; emit max(y[t-60:t]) - 0.5 over (0, 9];").explain()
    assert (explained.back, explained.inputs) == (59, {"x": (59, 0)})
    with pytest.raises(TiltError) as caught:
        Query("input x; emit 10.25 + z over (0, 9];").explain()
    assert caught.value.place is not None and (caught.value.place.column, caught.value.place.text[22:24]) == (23, "z ")


# The command


def test_the_table_of_a_query(says, told):
    says(NEAR_REPORT)
    lay_out(NEAR)
    assert told("units", "q.tilt", "e=e.csv") == (0, TABLE + f"\n{NEAR}", "")


TABLE = """            scale    smallest     largest                changes
e               1  1000000001  1000000008  at most 7 in 21 ticks
let c           1           1           8
let square      1           1          64
let n           1           1           8
let s           1           1          64
let v           1       -4095        7679
let d           1         -63          63
emit            1  1000000001  1000000008
decimals of the output: 0
"""
DAY = re.sub(r"\be\b", "price", FAR).replace("t-20", "t-23400000")
# A million trades of a day, of which each begins and ends, at 90.00 to 110.00: `price` has 2,000,001 snapshots in a window, and `square` 4,000,001.
TRADES = (81000000, 2000001 * 4000001 * 121000000)
DAY_REPORT = f"""scale price 100
decimals 2
rate price 2000000 23400001
bound price 9000 11000
overflow v 5 {TRADES[0]} {TRADES[1]}
query
{DAY}"""


def test_a_z_score_over_a_day_of_trades(says, told):
    says(DAY_REPORT)
    pathlib.Path("q.tilt").write_text(DAY)
    status, out, err = told("units", "q.tilt", "--scale", "price=100", "--bounds", "price=90:110:2000000/23400001")
    assert status == 1 and out.splitlines()[1].split() == ["price", "100", "90.00", "110.00", *"at most 2000000 in 23400001 ticks".split()]
    assert (
        err
        == f"tilt-data: v (statement 5) can leave 64 bits, and is null then: its whole numbers are from 81000000 to {TRADES[1]}: {CURE}\n"
    )
    # Nothing is known of the prices, and nothing is said of an overflow.
    assert told("units", "q.tilt", "--scale", "100")[::2] == (0, "")


# At most 3,000 trades in a minute: 6,001 snapshots of `price`, and 12,001 of `square`.
MINUTE = DAY.replace("t-23400000", "t-60000")
MOST = 6001 * 11000
MINUTE_REPORT = f"""\
scale price 100
decimals 2
rate price 6000 60001
bound price 9000 11000
bound square 81000000 121000000
bound n 1 6001
bound s 9000 {MOST}
bound v {81000000 - MOST**2} {6001 * 12001 * 121000000 - 9000**2}
bound d {9000 - MOST} {MOST - 9000}
bound emit 9000 11000
query
{MINUTE}"""


def test_a_z_score_over_a_minute_of_trades(says, told):
    says(MINUTE_REPORT)
    pathlib.Path("q.tilt").write_text(MINUTE)
    status, out, err = told("units", "q.tilt", "--scale", "price=100", "--bounds", "price=90:110:6000/60001")
    assert (status, err) == (0, "") and out.endswith(f"decimals of the output: 2\n\n{MINUTE}")
    assert out.splitlines()[-10].split() == ["emit", "100", "90.00", "110.00"]


def test_the_scales_of_definitions(live, has_check, monkeypatch):
    if not has_check:
        pytest.skip("the program has no check")
    monkeypatch.setenv("TILT_LIVE", live)
    lets = "let p = x * y; let high = p > 1; let n = count(x[t-9:t]); let q = y / x; let r = 100 * x;"
    text = f"input x; input y; {lets} emit 1 over (0, 9];"
    # That of a product is the product. That of a quotient stays if the quotient of the scales isn't whole.
    assert dict(definition_scales(text.encode(), ["--scale", "x=10,y=4"], ".")) == {"p": 40, "high": None, "n": 1, "q": 4, "r": 10}


CORRELATION = """input dax;
input cac;
let n = count(dax[t-60:t]);
let sx = sum(dax[t-60:t]);
let sy = sum(cac[t-60:t]);
let xx = dax * dax;
let yy = cac * cac;
let xy = dax * cac;
let c = n * sum(xy[t-60:t]) - sx * sy;
let vx = n * sum(xx[t-60:t]) - sx * sx;
let vy = n * sum(yy[t-60:t]) - sy * sy;
emit c * c / (vx * vy) over (0, 1860];
"""
# How far `c` can be from 0, by 60 days of both at most.
FARTHEST = 60 * 60 * 620000 * 440000 - 140000 * 160000
CORRELATION_REPORT = f"""\
scale dax 100
scale cac 100
decimals 0
rate dax 1 1
rate cac 1 1
bound dax 140000 620000
bound cac 160000 440000
overflow emit 12 {-(FARTHEST**2)} {FARTHEST**2}
query
{CORRELATION}"""


def test_a_correlation_of_sixty_days(says, told):
    says(CORRELATION_REPORT)
    pathlib.Path("q.tilt").write_text(CORRELATION)
    status, _, err = told("units", "q.tilt", "--scale", "100", "--bounds", "dax=1400:6200,cac=1600:4400")
    interval = f"{-(FARTHEST**2)} to {FARTHEST**2}"
    assert (status, err) == (
        1,
        f"tilt-data: emit (statement 12) can leave 64 bits, and is null then: its whole numbers are from {interval}: {CURE}\n",
    )


def test_a_scale_that_is_given_twice(says, told):
    says(NEAR_REPORT)
    lay_out(NEAR)
    assert told("units", "q.tilt", "e=e.csv", "--scale", "e=10") == (1, "", "tilt-data: --scale e=..: e.csv has a scale of its own\n")
    assert told("units", "q.tilt", "--scale", "0") == (1, "", "tilt-data: --scale 0: a whole number above 0 was expected, or NAME=N,..\n")


# What is rejected before a run

FAULTS = [
    (
        "input x; emit x when x > 2.25 over (0, 9];",
        "114 statement 2: literal not whole",
        10,
        "emit x when x > 2.25 over (0, 9];",
        "a larger scale",
    ),
    ("input x; emit x * x over (0, 9];", "116 statement 2: scale too large", 10**13, "emit x * x over (0, 9];", "smaller scales"),
    ("input x; emit x[t-1.5] over (0, 9];", "112 ticks with a point at 18", 10, "1.5", "a whole number of ticks"),
    ("input x; emit x + x.5 over (0, 9];", "110 bad point at 19", 10, ".", "write 0.5"),
    ("input x; emit x / 1.5 over (0, 9]; emit 1 over (0, 9];", "25 statement 2: place of emit", 10, "emit", "end the query"),
]


def test_a_decimal_over_whole_numbers_has_its_place(tilt, says, monkeypatch):
    monkeypatch.setenv("TILT", tilt)
    says("", "tilt: 20 bad byte at 20")
    lay_out("input e; emit e > 10.5 over (0, 9];")
    status, _, err = called("run", "q.tilt", "e=e.csv", "--whole")
    assert status == 1 and err.splitlines()[:2] == ["tilt: 20 bad byte at 20", "q.tilt:1:21: the language has no '.'"]


@pytest.mark.parametrize("text, line, scale, marked, cure", FAULTS)
def test_the_place_of_a_fault(says, text, line, scale, marked, cure):
    says("", f"tilt: {line}")
    pathlib.Path("q.tilt").write_text(text)
    with pytest.raises(TiltError) as caught:
        checked("q.tilt", {"x": scale})
    place = caught.value.place
    assert caught.value.line == f"tilt: {line}" and caught.value.status == 1 and place is not None
    assert text[place.column - 1 : place.column - 1 + place.width] == marked and cure in str(caught.value)


def test_a_query_that_squares_thirteen_decimals_is_rejected(tilt, says, monkeypatch):
    pandas = pytest.importorskip("pandas")
    from tilt_data import run

    monkeypatch.setenv("TILT", tilt)
    says("", "tilt: 116 statement 2: scale too large")
    mean = pandas.Series([(1628.75 + 1678.1) / 3], pandas.to_datetime(["1991-07-01"]))
    with pytest.raises(TiltError, match="^tilt: 116 statement 2: scale too large\nquery:1:10: "):
        run("input m; emit m * m over (0, 9];", mean)
