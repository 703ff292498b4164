"""`tilt-data by`: a query for each key."""
from __future__ import annotations

import os
import pathlib
import subprocess
import sys
import time

from conftest import PYTHON, run_program
from tilt_data.by import keys_of
from tilt_data.clock import Clock
from tilt_data.files import Notes

QUERY = "input x; input limit; emit x when x > limit over (0, 100];"


def lay_out(keys: int) -> None:
    pathlib.Path("q").write_text(QUERY)
    pathlib.Path("limit.csv").write_text("start,end,value\n0,100,5\n")
    for key in range(keys):
        os.makedirs(f"data/k{key:02d}")
        rows = "".join(f"{at},{at + 1},{(at * (key + 1)) % 11}\n" for at in range(50))
        pathlib.Path(f"data/k{key:02d}/x.csv").write_text("start,end,value\n" + rows)


def test_the_keys_of_a_pattern(tmp_path, monkeypatch):
    monkeypatch.chdir(tmp_path)
    for name in ("a_x.csv", "b_c_x.csv", "a_y.csv", "[1]_x.csv"):
        pathlib.Path(name).write_text("")
    assert keys_of("{key}_x.csv") == ["[1]", "a", "b_c"]
    os.makedirs("d/e")
    pathlib.Path("d/e/x.csv").write_text("")
    assert keys_of("d/{key}/x.csv") == ["e"] and keys_of("{key}/e/x.csv") == ["d"] and keys_of("n/{key}.csv") == []


def test_keys_that_no_file_is_named_by_come_back(told, tilt):
    texts = ["Zürich", ".5", "a/b", "..", "plain"]
    pathlib.Path("raw.csv").write_text("time,k,x\n" + "".join(f"2026-03-01T00:00:0{at},{key},{at}\n" for at, key in enumerate(texts)))
    assert told("series", "raw.csv", "--time", "time", "--tick", "1s", "--key", "k", "--out", "data")[0] == 0
    pathlib.Path("q").write_text("input x; emit x over (0, 10];")
    status, out, _ = told("by", "q", "x=data/{key}/x.csv")
    assert status == 0 and sorted(out.splitlines()[1:]) == sorted(f"{key},{at},{at + 1},{at}" for at, key in enumerate(texts))


def test_each_key_has_what_its_own_run_prints(told, tilt):
    lay_out(20)
    wanted = "key,start,end,value\n"
    for key in sorted(os.listdir("data")):
        out = run_program(tilt, QUERY, f"x=data/{key}/x.csv", "limit=limit.csv")
        wanted += "".join(f"{key},{line}\n" for line in out.splitlines()[1:])
    for jobs in ("1", "2", "7"):
        assert told("by", "q", "x=data/{key}/x.csv", "limit=limit.csv", "--jobs", jobs) == (0, wanted, "")


def test_a_key_that_is_refused(told, tilt):
    lay_out(5)
    pathlib.Path("data/k02/x.csv").write_text("start,end,value\n0,5,1\n4,6,2\n")
    status, out, err = told("by", "q", "x=data/{key}/x.csv", "limit=limit.csv", "-o", "out.csv")
    assert status == 1 and not os.path.exists("out.csv")
    assert "k02: tilt: 15 series x: out of order in row 2\nk02: data/k02/x.csv:3: " in err and "--keep-going" in err
    status, out, err = told("by", "q", "x=data/{key}/x.csv", "limit=limit.csv", "-o", "out.csv", "--keep-going")
    assert status == 1 and err.endswith("tilt-data: 4 keys done, 1 refused\n")
    keys = {line.split(",")[0] for line in pathlib.Path("out.csv").read_text().splitlines()[1:]}
    assert keys == {"k00", "k01", "k03", "k04"}


def test_words_without_keys(told):
    assert told("by", "q", "x=x.csv")[2] == "tilt-data: a word with {key} was expected, as x=data/{key}/x.csv\n"
    assert told("by", "q", "x=no/{key}.csv")[2] == "tilt-data: no/{key}.csv: no file has this name, for any key\n"


def lay_out_scales(told, **scales: tuple[str, str]) -> None:
    """For each key the series x and y, by these scales."""
    pathlib.Path("q").write_text("input x; input y; emit x + y over (0, 10];")
    for key, pair in scales.items():
        for name, scale in zip("xy", pair):
            pathlib.Path("raw").write_text(f"time,{name}\n2026-03-01T00:00:01,2\n")
            assert told("series", "raw", "--time", "time", "--tick", "1s", "--scale", scale, "--out", f"d/{key}")[0] == 0


BINDS = ["q", "x=d/{key}/x.csv", "y=d/{key}/y.csv"]


def test_inputs_of_other_scales_are_told_once(told, tilt):
    lay_out_scales(told, a=("10", "10"), b=("10", "10"))
    assert told("by", *BINDS, "--whole") == (0, "key,start,end,value\na,1,2,40\nb,1,2,40\n", "")
    lay_out_scales(told, a=("10", "100"), b=("10", "100"))
    status, out, err = told("by", *BINDS, "--whole")
    assert (status, out) == (0, "key,start,end,value\na,1,2,220\nb,1,2,220\n")
    assert err == (
        "tilt-data: note: a, b: the inputs have different scales (x: 10; y: 100): write one --like the other before you add or "
        "compare them\n"
    )


def test_keys_of_other_scales_are_told(told, tilt):
    lay_out_scales(told, a=("10", "10"), b=("100", "100"), c=("10", "10"))
    status, out, err = told("by", *BINDS, "--whole")
    assert status == 0 and out == "key,start,end,value\na,1,2,40\nb,1,2,400\nc,1,2,40\n"
    assert err.splitlines() == [
        f"tilt-data: note: {name}, by key: the inputs have different scales (a: 10; b: 100): write one --like the other "
        "before you add or compare them"
        for name in "xy"
    ]


def test_keys_of_other_scales_have_the_same_units(told, tilt):
    """All have the decimals of the one that has the most, so that `table` reads them too."""
    lay_out_scales(told, a=("10", "1"), b=("1", "100"), c=("10", "1"), d=("1", "1"))
    assert told("by", *BINDS, "-o", "all.csv") == (0, "", "")
    assert pathlib.Path("all.csv").read_text() == "key,start,end,value\na,1,2,4.00\nb,1,2,4.00\nc,1,2,4.00\nd,1,2,4.00\n"
    status, out, err = told("table", "all.csv", "--like", "d/a/x.csv")
    assert (status, err) == (0, "") and [line.split(",")[-1] for line in out.splitlines()] == ["value", *["4.00"] * 4]


def test_a_folder_that_no_key_is_written_as_is_its_own_key(told, tilt):
    pathlib.Path("q").write_text("input x; emit x over (0, 10];")
    for at, name in enumerate(["%41", "A", "Zürich"]):
        os.makedirs(f"d/{name}")
        pathlib.Path(f"d/{name}/x.csv").write_text(f"start,end,value\n0,5,{at}\n")
        pathlib.Path(f"d/{name}/x.json").write_text(Notes(Clock(10**9, 0)).text())
    status, out, _ = told("by", "q", "x=d/{key}/x.csv", "-o", "all.csv")
    assert status == 0 and pathlib.Path("all.csv").read_text() == "key,start,end,value\n%41,0,5,0\nA,0,5,1\nZürich,0,5,2\n"
    status, out, err = told("table", "all.csv", "--like", "d/A/x.csv", "--episodes", "--of", "x=d/{key}/x.csv")
    assert (status, err) == (0, "") and [line.split(",")[0::4] for line in out.splitlines()[1:]] == [
        ["%41", "0"],
        ["A", "1"],
        ["Zürich", "2"],
    ]


def test_two_folders_of_one_key_are_refused(told):
    pathlib.Path("q").write_text("input x; emit x over (0, 10];")
    for name in ("Zürich", "Z%C3%BCrich"):
        os.makedirs(f"d/{name}")
        pathlib.Path(f"d/{name}/x.csv").write_text("start,end,value\n")
    assert told("by", "q", "x=d/{key}/x.csv") == (
        1,
        "",
        "tilt-data: Z%C3%BCrich and Zürich are names of one key, Zürich: rename one of them\n",
    )


def test_a_signal_ends_the_programs_that_run(tmp_path):
    """The program is a script that notes its process and would run for a minute."""
    script = tmp_path / "slow"
    script.write_text("#!/bin/sh\necho $$ >> pids\nexec sleep 60\n")
    script.chmod(0o755)
    for key in "abcdef":
        (tmp_path / key).write_text("")
    temporary = tmp_path / "tmp"
    temporary.mkdir()
    process = subprocess.Popen(
        [sys.executable, "-m", "tilt_data", "by", "q", "x={key}", "--jobs", "2", "-o", "out"],
        cwd=tmp_path,
        env={**os.environ, "PYTHONPATH": str(PYTHON), "TILT": str(script), "TMPDIR": str(temporary)},
        stderr=subprocess.PIPE,
    )
    pids = tmp_path / "pids"
    until = time.monotonic() + 30
    while not (pids.exists() and pids.read_text().count("\n") == 2) and time.monotonic() < until:
        time.sleep(0.05)
    begun = time.monotonic()
    process.terminate()
    assert process.wait(30) == 143 and time.monotonic() - begun < 20 and process.stderr.read() == b""
    numbers = [int(text) for text in pids.read_text().split()]
    assert len(numbers) == 2 and not any(os.path.exists(f"/proc/{number}") for number in numbers)
    assert not (tmp_path / "out").exists() and not list(temporary.iterdir())
