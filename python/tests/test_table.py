"""`tilt-data table`: dates and decimals, joined rows, episodes, and files side by side."""
from __future__ import annotations

import csv
import io
import os
import pathlib
import random
import stat
import subprocess
import sys
import threading

import pytest
from conftest import PYTHON
from tilt_data.clock import Clock, moment_text
from tilt_data.files import Notes
from tilt_data.scales import decimal_text


def put(name: str, rows: str, tick: int = 10**9, scale: int = 10, origin: int = 0) -> str:
    pathlib.Path(f"{name}.csv").write_text("start,end,value\n" + rows)
    pathlib.Path(f"{name}.json").write_text(Notes(Clock(tick, origin), scale, name=name).text())
    return f"{name}.csv"


def table(told, *words: str) -> list[list[str]]:
    status, out, err = told("table", *words)
    assert (status, err) == (0, "")
    return list(csv.reader(io.StringIO(out)))


def test_dates_and_decimals(told):
    put("x", "0,60,205\n60,61,\n3600,7200,-5\n")
    assert table(told, "x.csv") == [
        ["start", "end", "value"],
        ["1970-01-01T00:00:00Z", "1970-01-01T00:01:00Z", "20.5"],
        ["1970-01-01T00:01:00Z", "1970-01-01T00:01:01Z", ""],
        ["1970-01-01T01:00:00Z", "1970-01-01T02:00:00Z", "-0.5"],
    ]
    assert table(told, "x.csv", "--zone", "Europe/Zurich", "--scale", "1")[1] == [
        "1970-01-01T01:00:00+01:00",
        "1970-01-01T01:01:00+01:00",
        "205",
    ]


def test_an_output_has_the_clock_of_a_series_and_its_own_decimals(told):
    put("x", "0,1,205\n", tick=10**6)
    times = ["1970-01-01T00:00:00.000Z", "1970-01-01T00:00:00.250Z"]
    for value, shown in (("7", "7"), ("-0.70", "-0.70"), ("0.007", "0.007")):
        pathlib.Path("out.csv").write_text(f"start,end,value\n0,250,{value}\n")
        assert table(told, "out.csv", "--like", "x.csv")[1] == [*times, shown]
    assert table(told, "out.csv", "--like", "x.csv", "--scale", "10")[1] == [*times, "0.0007"]
    pathlib.Path("out.csv").write_text("key,start,end,value\na,0,250,1.50\nb,0,250,3.25\n")
    assert [row[-1] for row in table(told, "out.csv", "--like", "x.csv", "--merge")[1:]] == ["1.50", "3.25"]
    status, _, err = told("table", "out.csv")
    assert status == 1 and "--like" in err


def test_equal_neighbours_are_joined(told):
    put("x", "0,5,7\n5,8,7\n9,10,7\n10,11,\n11,12,\n12,13,8\n", scale=1)
    assert [row[2] for row in table(told, "x.csv", "--merge")[1:]] == ["7", "7", "", "8"]
    assert table(told, "x.csv", "--merge")[1][1] == "1970-01-01T00:00:08Z"


def test_a_key_stays_the_first_column(told):
    put("x", "", scale=1)
    pathlib.Path("all.csv").write_text("key,start,end,value\na,0,5,7\na,5,6,7\nb,6,7,7\n")
    assert [[row[0], row[-1]] for row in table(told, "all.csv", "--like", "x.csv", "--merge")[1:]] == [["a", "7"], ["b", "7"]]


def test_episodes(told):
    put("alarm", "10,20,1\n20,30,5\n40,50,1\n50,60,\n100,110,2\n")
    put("temp", "0,15,100\n15,25,200\n25,45,\n45,48,-7\n105,200,3\n")
    rows = table(told, "alarm.csv", "--episodes", "--of", "temp.csv", "--scale", "temp=10")
    assert rows[0] == ["start", "end", "seconds", "temp_min", "temp_max", "temp_mean"]
    assert [row[2:] for row in rows[1:]] == [
        ["20", "10.0", "20.0", "16.667"],
        ["10", "-0.7", "-0.7", "-0.700"],
        ["10", "0.3", "0.3", "0.300"],
    ]
    assert [row[2] for row in table(told, "alarm.csv", "--episodes", "--gap", "10s")[1:]] == ["40", "10"]


def test_episodes_of_keys(told):
    for key in ("a", "b%2F"):
        os.makedirs(key)
        put(f"{key}/temp", "0,15,100\n15,45,200\n" if key == "a" else "0,100,7\n")
    pathlib.Path("all.csv").write_text("key,start,end,value\na,10,20,1\na,20,30,5\nb/,6,7,7\nb/,9,10,7\n")
    rows = table(told, "all.csv", "--like", "a/temp.csv", "--episodes", "--of", "temp={key}/temp.csv")
    assert rows[0][:4] == ["key", "start", "end", "seconds"]
    assert [[row[0], *row[3:]] for row in rows[1:]] == [
        ["a", "20", "10.0", "20.0", "17.500"],
        ["b/", "1", "0.7", "0.7", "0.700"],
        ["b/", "1", "0.7", "0.7", "0.700"],
    ]


def test_side_by_side(told):
    put("a", "0,10,1\n10,20,2\n30,40,3\n", scale=1)
    put("b", "5,15,7\n15,35,\n", scale=1)
    rows = [[row[0][14:19], row[1][14:19], *row[2:]] for row in table(told, "a.csv", "other=b.csv", "--wide")]
    assert rows[1:] == [
        ["00:00", "00:05", "1", ""],
        ["00:05", "00:10", "1", "7"],
        ["00:10", "00:15", "2", "7"],
        ["00:15", "00:20", "2", ""],
        ["00:30", "00:35", "3", ""],
        ["00:35", "00:40", "3", ""],
    ]


def test_side_by_side_is_what_each_is_at_each_tick(told):
    draws = random.Random(8)
    cells = []
    for name in "abc":
        edges = sorted(draws.sample(range(200), 40))
        rows = [(lo, hi, draws.choice(["", "1", "2"])) for lo, hi in zip(edges, edges[1:]) if draws.random() < 0.8]
        put(name, "".join(f"{lo},{hi},{value}\n" for lo, hi, value in rows), scale=1)
        cells.append({tick: value for lo, hi, value in rows for tick in range(lo, hi)})
    got: dict[int, list[str]] = {}
    for start, end, *values in table(told, "a.csv", "b.csv", "c.csv", "--wide")[1:]:
        lo, hi = (int(text[14:16]) * 60 + int(text[17:19]) for text in (start, end))
        got.update({tick: values for tick in range(lo, hi)})
    for tick in range(200):
        assert got.get(tick, ["", "", ""]) == [cell.get(tick, "") for cell in cells]


@pytest.mark.parametrize("closed", ["left", "right"])
@pytest.mark.parametrize("kind", ["--event", "--hold"])
def test_series_and_then_table_gives_the_readings_back(told, closed, kind):
    draws = random.Random(9)
    for tick, unit in ((10**9, 0), (10**6, 3), (1, 9)):
        moments = sorted({draws.randrange(10**6) for _ in range(300)})
        scale = 10 ** draws.randrange(4)
        values = [draws.choice([None, draws.randrange(-(10**6), 10**6)]) for _ in moments]
        texts = ["" if value is None else decimal_text(value, scale) for value in values]
        times = [moment_text(1772323200 * 10**9 + moment * tick, unit) for moment in moments]
        pathlib.Path("raw.csv").write_text("time,temp\n" + "".join(f"{time},{text}\n" for time, text in zip(times, texts)))
        words = [
            "--time",
            "time",
            "--tick",
            f"{tick}ns",
            "--scale",
            str(scale),
            "--closed",
            closed,
            kind,
            *(["next"] if kind == "--hold" else []),
        ]
        assert told("series", "raw.csv", *words)[0] == 0
        rows = table(told, "temp.csv")[1:]
        at = 1 if closed == "right" and kind == "--event" else 0
        if closed == "right" and kind == "--hold":
            # A value that holds from a moment on the edge of a tick holds for the tick that ends there too.
            assert [row[2] for row in rows] == texts
        else:
            assert [(row[at], row[2]) for row in rows] == list(zip(times, texts))


# Where it is written

WRITTEN = "start,end,value\n1970-01-01T00:00:00Z,1970-01-01T00:00:05Z,7\n"


def test_a_link_stays_and_what_it_leads_to_is_replaced(told):
    put("x", "0,5,7\n", scale=1)
    os.mkdir("far")
    pathlib.Path("far/real").write_text("old")
    os.chmod("far/real", 0o600)
    os.symlink("far/real", "first")
    os.symlink("first", "second")
    os.symlink("far/none", "dangling")
    for link, leads, real in (("second", "first", "far/real"), ("dangling", "far/none", "far/none")):
        assert told("table", "x.csv", "-o", link) == (0, "", "")
        assert os.readlink(link) == leads and pathlib.Path(real).read_text() == WRITTEN and not os.path.islink(real)
    assert os.stat("far/real").st_mode & 0o777 == 0o600 and os.readlink("first") == "far/real"
    assert sorted(os.listdir("far")) == ["none", "real"] and len(os.listdir()) == 6


def test_a_refusal_leaves_what_a_link_leads_to(told):
    put("x", "0,5,7\nx\n", scale=1)
    pathlib.Path("real").write_text("old")
    os.symlink("real", "link")
    assert told("table", "x.csv", "-o", "link")[0] == 1
    assert pathlib.Path("real").read_text() == "old" and os.readlink("link") == "real"
    assert sorted(os.listdir()) == ["link", "real", "x.csv", "x.json"]


def test_a_pipe_is_written_as_it_stands(told):
    put("x", "0,5,7\n", scale=1)
    os.mkfifo("pipe")
    read = []
    reader = threading.Thread(target=lambda: read.append(pathlib.Path("pipe").read_text()), daemon=True)
    reader.start()
    assert told("table", "x.csv", "-o", "pipe") == (0, "", "")
    reader.join(10)
    assert read == [WRITTEN] and pathlib.Path("pipe").is_fifo()


def call(command: str, folder: pathlib.Path) -> subprocess.CompletedProcess[str]:
    environment = {**os.environ, "PYTHONPATH": str(PYTHON)}
    return subprocess.run(
        ["sh", "-c", command.replace("tilt-data", f"{sys.executable} -m tilt_data")],
        cwd=folder,
        env=environment,
        capture_output=True,
        text=True,
    )


# No test names /dev/stdout or a device itself: a root that this fails for would lose it.
@pytest.mark.parametrize("name", ["/dev/fd/1", "/proc/self/fd/1", "link"])
def test_what_the_caller_handed_open_is_written_after_what_is_there(told, tmp_path, name):
    put("x", "0,5,7\n", scale=1)
    os.symlink("/proc/self/fd/1", "link")
    done = call(f"{{ echo before; tilt-data table x.csv -o {name}; }} > out", tmp_path)
    assert (done.returncode, done.stderr) == (0, "")
    assert pathlib.Path("out").read_text() == "before\n" + WRITTEN and os.readlink("link") == "/proc/self/fd/1"
    assert call(f"tilt-data table x.csv -o {name}", tmp_path).stdout == WRITTEN


def test_an_output_that_has_no_room_is_told(told, tmp_path):
    put("x", "0,5,7\n", scale=1)
    done = call("tilt-data table x.csv > /dev/full", tmp_path)
    assert (done.returncode, done.stderr) == (1, "tilt-data: standard output: it can't be written: No space left on device\n")
    done = call("tilt-data table x.csv >&-", tmp_path)
    assert (done.returncode, done.stderr) == (1, "tilt-data: standard output: it can't be written: it is closed\n")


def test_a_device_is_written_as_it_stands(told, tmp_path):
    put("x", "0,5,7\n", scale=1)
    try:
        os.mknod("full", stat.S_IFCHR | 0o666, os.makedev(1, 7))
        open("full", "w").close()
    except PermissionError:
        pytest.skip("no device can be made here")
    assert told("table", "x.csv", "-o", "full") == (1, "", "tilt-data: full: it can't be written: No space left on device\n")
    assert stat.S_ISCHR(os.stat("full").st_mode) and sorted(os.listdir()) == ["full", "x.csv", "x.json"]


def test_a_scale_of_a_name_that_no_file_has(told):
    put("x", "0,5,7\n", scale=1)
    assert told("table", "x.csv", "--scale", "y=10") == (1, "", "tilt-data: --scale y=..: no file has this name; there are: x\n")


@pytest.mark.parametrize("scale", ["0", "²", "٣", "1_0", "+5", " 5", "1.5", "", "9" * 5000, "x=²"])
def test_a_scale_that_is_none(told, scale):
    put("x", "0,5,7\n", scale=1)
    text = scale.removeprefix("x=")[:40]
    wanted = f"tilt-data: --scale {text}: a whole number above 0, of at most 30 digits, was expected\n"
    assert told("table", "x.csv", f"--scale={scale}") == (1, "", wanted)


@pytest.mark.parametrize(
    "words, out",
    [
        (["x.csv"], "x.csv"),
        (["x.csv"], "x.json"),
        (["x.csv"], "./x.csv"),
        (["x.csv"], "link"),
        (["y=y.csv", "x.csv", "--wide"], "x.csv"),
        (["y.csv", "--like", "x.csv"], "x.csv"),
        (["y.csv", "--like", "x.csv"], "x.json"),
        (["y.csv", "--episodes", "--of", "x.csv"], "x.csv"),
        (["all.csv", "--like", "y.csv", "--episodes", "--of", "x={key}.csv"], "x.csv"),
    ],
)
def test_what_is_read_is_never_written_over(told, words, out):
    put("x", "0,5,7\n"), put("y", "0,9,1\n")
    pathlib.Path("all.csv").write_text("key,start,end,value\nx,0,9,1\n")
    os.symlink("x.csv", "link")
    before = {name: pathlib.Path(name).read_bytes() for name in os.listdir()}
    assert told("table", *words, "-o", out) == (
        1,
        "",
        f"tilt-data: {out}: it is a file that is read, and would be written over: name another file by --out\n",
    )
    assert {name: pathlib.Path(name).read_bytes() for name in os.listdir()} == before


@pytest.mark.parametrize("scale", [0, -1])
def test_notes_with_a_scale_that_is_none(told, scale):
    put("x", "0,5,7\n", scale=scale)
    assert told("table", "x.csv")[2] == "tilt-data: x.json: the JSON that `tilt-data series` writes was expected: a scale above 0\n"


@pytest.mark.parametrize(
    "rows, what",
    [
        ("0,5,7\n5,6,7.5\n", "out.csv:3: a row start,end,value of whole numbers was expected, not 5,6,7.5"),
        ("0,5,7.50\n5,6,7.5\n", "out.csv:3: a row start,end,value with 2 decimals was expected, not 5,6,7.5"),
        ("0,5,7.\n", "out.csv:2: a row start,end,value of whole numbers was expected, not 0,5,7."),
        ("0,5,7.5.5\n", "out.csv:2: a row start,end,value with 3 decimals was expected, not 0,5,7.5.5"),
    ],
)
def test_all_values_of_an_output_have_as_many_decimals(told, rows, what):
    put("x", "")
    pathlib.Path("out.csv").write_text(f"start,end,value\n{rows}")
    status, _, err = told("table", "out.csv", "--like", "x.csv")
    assert (status, err) == (1, f"tilt-data: {what}\n")


@pytest.mark.parametrize(
    "text, what",
    [
        ('start,end,value\n0,5,7\n5,6,"8', "x.csv:3: a record of CSV was expected: unexpected end of data"),
        ("a,b\n", "x.csv:1: the header start,end,value or key,start,end,value was expected"),
        ("start,end,value\n0,5,7\n5,6,7.5\n", "x.csv:3: a row start,end,value of whole numbers was expected, not 5,6,7.5"),
        ("start,end,value\n0,5\n", "x.csv:2: 3 fields were expected as in the header, not 2"),
        ("start,end,value\n0,5,7,8\n", "x.csv:2: 3 fields were expected as in the header, not 4"),
        ("start,end,value\n9,5,1\n", "x.csv:2: rows in order were expected, each with its start below its end"),
        ("start,end,value\n0,5,7\n4,9,1\n", "x.csv:3: rows in order were expected, each with its start below its end"),
        ("key,start,end,value\na,0,5,7\nb,0,5,7\nb,4,9,1\n", "x.csv:4: rows in order were expected, each with its start below its end"),
        ("key,start,end,value\n0,5,7\n", "x.csv:2: 4 fields were expected as in the header, not 3"),
    ],
)
def test_bad_files(told, text, what):
    put("x", "")
    pathlib.Path("x.csv").write_text(text)
    pathlib.Path("out").write_text("old")
    status, _, err = told("table", "x.csv", "-o", "out")
    assert status == 1 and err == f"tilt-data: {what}\n" and pathlib.Path("out").read_text() == "old"
    assert sorted(os.listdir()) == ["out", "x.csv", "x.json"]
