"""What is written: whole, in place, under names of its own; what is read: as the program reads it; and how a command ends."""
from __future__ import annotations

import errno
import hashlib
import json
import os
import pathlib
import random
import re
import signal
import subprocess
import sys
import tempfile
import threading
import time
from typing import Any

import pytest
from conftest import PYTHON
from tilt_data import table
from tilt_data.clock import Clock
from tilt_data.errors import Refused, printable
from tilt_data.files import Notes, Outputs, Together, notes_of, placed, reading, rows_of, safe, unsafe

HEAD = "start,end,value\n"
DAY = "1970-01-01T00:00:0"


def put(name: str, rows: str, scale: int = 1) -> str:
    """A series as earlier versions wrote it: its JSON file says nothing of the CSV."""
    pathlib.Path(f"{name}.csv").write_text(HEAD + rows)
    pathlib.Path(f"{name}.json").write_text(Notes(Clock(10**9, 0), scale, name=name).text())
    return f"{name}.csv"


def tie(name: str) -> None:
    """Writes into the JSON file of a series which CSV it describes."""
    data = pathlib.Path(f"{name}.csv").read_bytes()
    fields = json.loads(pathlib.Path(f"{name}.json").read_text())
    fields |= {"size": len(data), "sha256": hashlib.sha256(data).hexdigest()}
    pathlib.Path(f"{name}.json").write_text(json.dumps(fields))


def call(command: str, folder: pathlib.Path, **environment: str) -> subprocess.CompletedProcess[str]:
    return subprocess.run(
        ["sh", "-c", command.replace("tilt-data", f"{sys.executable} -m tilt_data")],
        cwd=folder,
        capture_output=True,
        text=True,
        env={**os.environ, "PYTHONPATH": str(PYTHON), **environment},
    )


# A series and its JSON file


def test_notes_of_another_csv_are_rejected(told):
    put("x", "0,5,7\n", 10)
    assert notes_of("x.csv").scale == 10 and notes_of("x.csv").size is None
    tie("x")
    assert told("table", "x.csv")[:2] == (0, f"{HEAD}{DAY}0Z,{DAY}5Z,0.7\n")
    pathlib.Path("x.csv").write_text(HEAD + "0,5,77\n")
    wanted = (
        "tilt-data: x.csv: it has 23 bytes, and its JSON file describes one of 22 (x.json), so its clock and scale aren't known: "
        "write the series again\n"
    )
    for words in (
        ["table", "x.csv"],
        ["table", "out", "--like", "x.csv"],
        ["ticks", "each", "o.csv", "--like", "x.csv", "--from", "0", "--to", "9"],
    ):
        assert told(*words) == (1, "", wanted)


@pytest.mark.parametrize("words", [["x.csv"], ["x.csv", "--wide"], ["x.csv", "--episodes"], ["y.csv", "--episodes", "--of", "x.csv"]])
def test_a_csv_of_the_same_size_is_noticed_when_it_is_read(told, words):
    put("x", "0,5,7\n", 10), put("y", "0,9,1\n")
    tie("x")
    pathlib.Path("out").write_text("old")
    assert told("table", *words, "-o", "out") == (0, "", "")
    pathlib.Path("out").write_text("old")
    pathlib.Path("x.csv").write_text(HEAD + "0,5,8\n")
    status, _, err = told("table", *words, "-o", "out")
    assert status == 1 and err.startswith("tilt-data: x.csv: it isn't the file that its JSON file describes (x.json), so ")
    assert pathlib.Path("out").read_text() == "old" and len(os.listdir()) == 5


def test_a_digest_is_that_of_all_bytes(tmp_path):
    path = tmp_path / "x"
    text = "\ufeff" + "Zürich,1\r\n" * 50000
    path.write_bytes(text.encode())
    with reading(str(path), sha256=hashlib.sha256(text.encode()).hexdigest()) as file:
        assert file.read() == text[1:]
    with pytest.raises(Refused, match="isn't the file"), reading(str(path), sha256="0" * 64) as file:
        file.read()


KILLED = """
import os, sys
from tilt_data.cli import main
real, left = os.replace, int(sys.argv[1])
def replace(*paths):
    global left
    left -= 1
    if left < 0:
        os._exit(137)
    real(*paths)
os.replace = replace
sys.exit(main(sys.argv[2:]))
"""
SERIES = ["series", "i", "--time", "time", "--unit", "s", "--tick", "1s", "--out", "p"]
# The values and their scale, and the rows that they are: both are of one size, and each with the other's scale is a wrong value.
OLD, NEW = ("77.77", "100", "5,6,7777\n"), ("2.5", "1000", "5,6,2500\n")


def state_of(name: str) -> str:
    """Whether a series is the old or the new one, or is rejected. A new CSV with the old scale, and the other way round, fails."""
    try:
        notes = notes_of(f"p/{name}.csv")
    except Refused as error:
        assert "a command is writing this series, or was stopped while it did" in str(error)
        return "rejected"
    if notes is None:
        assert not os.path.exists(f"p/{name}.csv")
        return "none"
    rows = pathlib.Path(f"p/{name}.csv").read_text().removeprefix(HEAD)
    return {(int(scale), rows): what for (_, scale, rows), what in ((OLD, "old"), (NEW, "new"))}[notes.scale, rows]


@pytest.mark.parametrize("there", [True, False])
def test_a_kill_at_each_rename_never_gives_new_values_with_the_old_scale(told, there):
    seen = []
    for count in range(20):
        for path in pathlib.Path().glob("p/*"):
            path.unlink()
        if there:
            pathlib.Path("i").write_text(f"time,x,y\n5,{OLD[0]},{OLD[0]}\n")
            assert told(*SERIES, "--scale", OLD[1])[0] == 0
        pathlib.Path("i").write_text(f"time,x,y\n5,{NEW[0]},{NEW[0]}\n")
        done = subprocess.run(
            [sys.executable, "-c", KILLED, str(count), *SERIES, "--scale", NEW[1]], env={**os.environ, "PYTHONPATH": str(PYTHON)}
        )
        seen.append((state_of("x"), state_of("y")))
        # Series that all look right are never some old and some new.
        assert not {"old", "new"} <= set(seen[-1])
        if done.returncode == 0:
            break
        assert done.returncode == 137
    # Two pending JSON files, two CSV files and two JSON files take their names.
    before = "old" if there else "none"
    assert seen == [(before, before), ("rejected", before), *[("rejected", "rejected")] * 3, ("new", "rejected"), ("new", "new")]


@pytest.mark.parametrize("error", [OSError(errno.EBUSY, "Device or resource busy"), SystemExit(143)])
@pytest.mark.parametrize("count", range(6))
def test_a_rename_that_fails_leaves_each_series_old_or_new(told, monkeypatch, count, error):
    pathlib.Path("i").write_text(f"time,x,y\n5,{OLD[0]},{OLD[0]}\n")
    assert told(*SERIES, "--scale", OLD[1])[0] == 0
    pathlib.Path("i").write_text(f"time,x,y\n5,{NEW[0]},{NEW[0]}\n")
    calls = iter(range(100))
    real = os.replace

    def replace(new: str, path: str) -> None:
        if next(calls) == count:
            raise error
        real(new, path)

    monkeypatch.setattr(os, "replace", replace)
    if isinstance(error, SystemExit):
        with pytest.raises(SystemExit):
            told(*SERIES, "--scale", NEW[1])
    else:
        status, _, err = told(*SERIES, "--scale", NEW[1])
        assert status == 1 and re.fullmatch(r"tilt-data: p/[xy]\.(csv|json): it can't be written: Device or resource busy\n", err)
    assert {state_of("x"), state_of("y")} <= {"old", "new"} and len(os.listdir("p")) == 4
    if count < 3:
        assert state_of("x") == state_of("y") == "old"


def test_files_are_on_the_disk_before_they_take_their_names(told, monkeypatch):
    events: list[tuple[str, int]] = []
    fsync, replace = os.fsync, os.replace
    monkeypatch.setattr(os, "fsync", lambda number: (events.append(("synced", os.fstat(number).st_ino)), fsync(number)))
    monkeypatch.setattr(os, "replace", lambda new, path: (events.append(("named", os.stat(new).st_ino)), replace(new, path)))
    pathlib.Path("i").write_text("time,x\n5,7\n")
    assert told(*SERIES)[0] == 0
    csv, notes, folder, above = (os.stat(path).st_ino for path in ("p/x.csv", "p/x.json", "p", "."))
    at = {event: place for place, event in enumerate(events)}
    for one in (csv, notes):
        assert at["synced", one] < at["named", one]
    # The folder is brought to the disk after each step, and so is the one in which it is new.
    steps = [what if one in (csv, notes, folder) else "pending" for what, one in events if (what, one) != ("synced", above)]
    assert steps[2:] == ["pending", "synced", "named", "synced", "named", "synced"] and ("synced", above) in at
    events.clear()
    assert told("table", "p/x.csv", "-o", "out") == (0, "", "")
    assert events == [("synced", os.stat("out").st_ino), ("named", os.stat("out").st_ino), ("synced", above)]


def test_a_json_file_is_no_series(told):
    put("x", "0,5,7\n")
    status, _, err = told("ticks", "each", "o.json", "--like", "x.csv", "--from", "0", "--to", "9")
    assert status == 1 and err == "tilt-data: o.json: a JSON file describes a series: give the series another name, as o.csv\n"
    assert sorted(os.listdir()) == ["x.csv", "x.json"]


@pytest.mark.parametrize(
    "change, what",
    [
        ({"scale": 2.9}, "scale 2.9: a whole number was expected"),
        ({"scale": True}, "scale true: a whole number was expected"),
        ({"scale": "10"}, 'scale "10": a whole number was expected'),
        ({"scale": 0}, "a scale above 0"),
        ({"closed": "both"}, "closed 'both': left or right was expected"),
        ({"closed": None}, "closed null: a text was expected"),
        ({"kind": "none"}, "kind 'none': one of hold, event, helper was expected"),
        ({"zone": 5}, "zone 5: a text was expected"),
        ({"tick": 1}, "tick 1: a text was expected"),
        ({"tick": "1 year"}, "'1 year' is no duration: "),
        ({"size": "7"}, 'size "7": a whole number was expected'),
        ({"key": []}, "key []: a text was expected"),
    ],
)
def test_notes_that_series_doesnt_write(told, change, what):
    put("x", "0,5,7\n")
    fields = json.loads(pathlib.Path("x.json").read_text())
    pathlib.Path("x.json").write_text(json.dumps({**fields, **change}))
    status, _, err = told("table", "x.csv")
    assert status == 1 and err.startswith(f"tilt-data: x.json: the JSON that `tilt-data series` writes was expected: {what}")


@pytest.mark.parametrize(
    "text",
    ['{"scale": 1e999, "tick": "1s", "origin": "2026-03-01"}', "[" * 100000, "[]", "7", "", "\xff", '{"scale": ' + "9" * 5000 + "}"],
    ids=["infinite", "deep", "list", "number", "empty", "encoding", "long"],
)
def test_notes_that_are_no_notes(told, text):
    put("x", "0,5,7\n")
    pathlib.Path("x.json").write_bytes(text.encode("latin-1"))
    status, _, err = told("table", "x.csv")
    assert status == 1 and re.fullmatch(r"tilt-data: x\.json: the JSON that `tilt-data series` writes was expected: [^\n]*\n", err)


# Rows as the program reads them

ROWS: list[tuple[str, bool]] = [
    ("0,5,7\n", True),
    ("+0,+5,+7\n", True),
    ("-5,-0,-7\n", True),
    ("000,0005,007\n", True),
    ("0,5,\n", True),
    ("0,5,7", True),
    ('"0","5","7"\n', True),
    ("0,5,7\r\n5,6,8\r\n", True),
    ("0,5,7\r5,6,8\r", True),
    ("\n\n0,5,7\n\n", True),
    ("0,5,9223372036854775807\n", True),
    ("0,5,-9223372036854775808\n", True),
    ("-4000000000000000000,4000000000000000000,1\n", True),
    ("0,5,7\n5,9,8\n20,21,7\n", True),
    ("0,5,1_0\n", False),
    ("0,5, 7\n", False),
    ("0,5,7 \n", False),
    ("0,5,٣\n", False),
    ("0,5,５\n", False),
    ("0,5,²\n", False),
    ("0,5,--7\n", False),
    ("0,5,+\n", False),
    ("0,5,7.0\n", False),
    ("0,5,1e3\n", False),
    ("0,5,0x7\n", False),
    ("0,5,9223372036854775808\n", False),
    ("0,,7\n", False),
    (",5,7\n", False),
    ("0,5\n", False),
    ("0,5,7,\n", False),
    ("0,5,7,8\n", False),
    ("5,5,7\n", False),
    ("9,5,7\n", False),
    ("0,5,7\n4,9,8\n", False),
    ("0,4000000000000000001,1\n", False),
    ("-4000000000000000001,0,1\n", False),
    ('""\n', False),
    (" \n", False),
    ("0,5,\x00\n", False),
]


@pytest.mark.parametrize("rows, right", ROWS)
def test_rows_are_read_as_the_program_reads_them(told, tilt, rows, right):
    put("x", "")
    pathlib.Path("x.csv").write_bytes((HEAD + rows).encode())
    pathlib.Path("q").write_text("input x; emit x over (-10, 100];")
    assert subprocess.run([tilt, "run", "q", "x=x.csv"], capture_output=True).returncode == (0 if right else 1)
    for words in (["x.csv", "--scale", "1"], ["x.csv", "--wide"]):
        if right:
            with reading("x.csv") as file:
                list(rows_of("x.csv", file))
        else:
            status, _, err = told("table", *words)
            assert status == 1 and re.match(r"tilt-data: x\.csv:[23]: ", err), err


def test_a_byte_order_mark_is_passed_over_once(told):
    put("x", "")
    pathlib.Path("x.csv").write_bytes(b"\xef\xbb\xbf" + (HEAD + "0,5,7\n").encode())
    assert told("table", "x.csv")[0] == 0
    pathlib.Path("x.csv").write_bytes(b"\xef\xbb\xbf" * 2 + (HEAD + "0,5,7\n").encode())
    assert told("table", "x.csv")[0] == 1


# Temporary files


def test_a_link_that_waits_under_a_temporary_name_isnt_followed(told):
    put("x", "0,5,7\n")
    pathlib.Path("victim").write_text("mine")
    os.symlink("victim", f".out.{os.getpid()}.tilt-data")
    assert told("table", "x.csv", "-o", "out") == (0, "", "")
    assert pathlib.Path("victim").read_text() == "mine" and not os.path.islink("out")


def test_two_calls_never_have_one_temporary_file(tmp_path, monkeypatch):
    monkeypatch.chdir(tmp_path)
    monkeypatch.setattr(os, "getpid", lambda: 7)
    with Outputs() as one, Outputs() as other:
        one.write("out", "one\n"), other.write("out", "other\n")
        one.flush(), other.flush()
        one.commit(), other.commit()
    assert pathlib.Path("out").read_text() == "other\n" and os.listdir() == ["out"]


@pytest.mark.parametrize("name", ["a" * 255, "é" * 127], ids=["ascii", "other"])
def test_a_name_may_be_as_long_as_the_file_system_takes_it(told, name):
    put("x", "0,5,7\n")
    assert told("table", "x.csv", "-o", name) == (0, "", "")
    assert sorted(os.listdir()) == sorted([name, "x.csv", "x.json"])


@pytest.mark.parametrize("mask", [0o077, 0o027, 0o002])
def test_new_files_have_the_mode_of_ordinary_new_files(told, mask):
    put("x", "0,5,7\n")
    before = os.umask(mask)
    try:
        assert told("table", "x.csv", "-o", "out") == (0, "", "")
        pathlib.Path("i").write_text("time,x\n5,7\n")
        assert told(*SERIES)[0] == 0
        with placed("part") as file:
            file.write(b"7")
    finally:
        os.umask(before)
    assert {os.stat(path).st_mode & 0o777 for path in ("out", "p/x.csv", "p/x.json", "part")} == {0o666 & ~mask}


@pytest.mark.parametrize("mode, status", [(0o444, 1), (0o644, 0)])
def test_a_file_that_may_not_be_written_isnt_replaced(told, monkeypatch, mode, status):
    # Root may write every file, so another user tries, in a folder of its own that it reaches by its whole path.
    with tempfile.TemporaryDirectory(dir="/tmp") as folder:
        monkeypatch.chdir(folder)
        put("x", "0,5,7\n")
        pathlib.Path("out").write_text("old")
        os.chmod("out", mode)
        other = 65534 if os.geteuid() == 0 else os.geteuid()
        for path in (folder, "out"):
            os.chown(path, other, -1)
        before = os.geteuid()
        os.seteuid(other)
        try:
            got = told("table", "x.csv", "-o", "out")
        finally:
            os.seteuid(before)
        assert got == (status, "", "tilt-data: out: it can't be written: Permission denied\n" if status else "")
        assert (pathlib.Path("out").read_text() == "old") == bool(status) and sorted(os.listdir()) == ["out", "x.csv", "x.json"]
        monkeypatch.undo()


def ended(number: int, tmp_path: pathlib.Path, **how: object) -> subprocess.Popen[bytes]:
    """A `table` that was writing its output when the signal came."""
    process = subprocess.Popen(
        [sys.executable, "-m", "tilt_data", "table", "-", "--like", "x.csv", "-o", "out"],
        cwd=tmp_path,
        stdin=subprocess.PIPE,
        stderr=subprocess.PIPE,
        env={**os.environ, "PYTHONPATH": str(PYTHON)},
        **how,
    )
    until = time.monotonic() + 30
    while len(os.listdir(tmp_path)) < 4 and time.monotonic() < until:
        time.sleep(0.02)
    assert len(os.listdir(tmp_path)) == 4
    process.send_signal(number)
    return process


@pytest.mark.parametrize("where", ["open", "close", "replace"])
def test_a_signal_that_comes_while_a_file_is_made_leaves_none(told, tmp_path, where):
    put("x", "0,5,7\n")
    pathlib.Path("out").write_text("old")
    code = (
        f"import os, signal, sys\nfrom tilt_data.cli import main\nreal = os.{where}\n"
        f"def one(*words, **named):\n    os.{where} = real\n    found = real(*words, **named)\n"
        f"    os.kill(os.getpid(), signal.SIGTERM)\n    return found\nos.{where} = one\nsys.exit(main(sys.argv[1:]))\n"
    )
    done = subprocess.run(
        [sys.executable, "-c", code, "table", "x.csv", "-o", "out"], env={**os.environ, "PYTHONPATH": str(PYTHON)}, capture_output=True
    )
    assert (done.returncode, done.stderr) == (143, b"")
    assert sorted(os.listdir()) == ["out", "x.csv", "x.json"]
    assert (pathlib.Path("out").read_text() == "old") == (where != "replace")


@pytest.mark.parametrize("where", ["open", "fsync", "replace"])
def test_a_signal_while_files_are_made_together_leaves_all_or_none_of_each(tmp_path, where):
    code = (
        "import os, signal, sys\nfrom tilt_data.cli import ending\nfrom tilt_data.files import Together\n"
        "with ending(), Together() as together:\n"
        "    os.write(together.begin('parts/beside', 'a'), b'7')\n    real = os." + where + "\n"
        f"    def one(*words, **named):\n        os.{where} = real\n        found = real(*words, **named)\n"
        f"        os.kill(os.getpid(), signal.SIGTERM)\n        return found\n    os.{where} = one\n"
        "    os.write(together.begin('parts/beside', 'b'), b'8')\n    together.commit()\n"
    )
    done = subprocess.run([sys.executable, "-c", code], env={**os.environ, "PYTHONPATH": str(PYTHON)}, capture_output=True, cwd=tmp_path)
    assert (done.returncode, done.stderr) == (143, b"") and os.listdir(tmp_path / "parts") == []
    assert sorted(os.listdir(tmp_path)) == (["a", "parts"] if where == "replace" else ["parts"])


def test_files_that_are_made_together(tmp_path):
    (tmp_path / "a").write_text("old")
    (tmp_path / "a").chmod(0o640)
    with Together() as together:
        for name in "abc":
            os.write(together.begin(str(tmp_path / "beside"), str(tmp_path / name)), name.encode())
        together.keep(2)
        assert (tmp_path / "a").read_text() == "old"
        together.commit()
    assert {path.name: path.read_text() for path in tmp_path.iterdir()} == {"a": "a", "b": "b"}
    assert (tmp_path / "a").stat().st_mode & 0o777 == 0o640


@pytest.mark.parametrize("number", [signal.SIGTERM, signal.SIGHUP])
def test_a_signal_leaves_no_temporary_file(told, tmp_path, number):
    put("x", "0,5,7\n")
    pathlib.Path("out").write_text("old")
    # Under nohup the tests ignore SIGHUP, and so would the command.
    process = ended(number, tmp_path, preexec_fn=lambda: signal.signal(number, signal.SIG_DFL))
    assert process.wait(30) == 128 + number and process.stderr.read() == b""
    assert sorted(os.listdir()) == ["out", "x.csv", "x.json"] and pathlib.Path("out").read_text() == "old"


def test_a_signal_that_the_caller_ignores_stays_ignored(told, tmp_path):
    put("x", "0,5,7\n")
    pathlib.Path("out").write_text("old")
    process = ended(signal.SIGHUP, tmp_path, preexec_fn=lambda: signal.signal(signal.SIGHUP, signal.SIG_IGN))
    assert process.communicate((HEAD + "0,5,7\n").encode(), 30) == (None, b"") and process.returncode == 0
    assert pathlib.Path("out").read_text() == f"{HEAD}{DAY}0Z,{DAY}5Z,7\n"


def test_handlers_are_those_of_the_caller_again(told):
    before = signal.signal(signal.SIGTERM, signal.SIG_DFL)
    try:
        told("table", "nothing.csv")
        assert signal.getsignal(signal.SIGTERM) is signal.SIG_DFL
    finally:
        signal.signal(signal.SIGTERM, before)


# Streams and errors


def test_streams_that_are_closed(told, tilt, tmp_path):
    put("x", "0,5,7\n")
    pathlib.Path("q").write_text("input x; emit x over (0, 10];")
    os.makedirs("d/a")
    pathlib.Path("d/a/x.csv").write_text(HEAD + "0,5,7\n")
    for words in ("table - --like x.csv", "series - --time time", "series - --time time --scale auto"):
        done = call(f"tilt-data {words} <&-", tmp_path)
        assert (done.returncode, done.stdout, done.stderr) == (1, "", "tilt-data: standard input: it can't be read: it is closed\n")
    plain = call(f"{tilt} run q x=x.csv >&-", tmp_path)
    ours = call("tilt-data run q x=x.csv >&-", tmp_path)
    assert (ours.returncode, ours.stderr) == (plain.returncode, plain.stderr) and plain.returncode != 0
    shown = f"{HEAD}{DAY}0Z,{DAY}5Z,7\n"
    assert call("tilt-data table x.csv 2>&-", tmp_path).stdout == shown
    assert call("tilt-data table x.csv -o out 2>&-", tmp_path).returncode == 0 and pathlib.Path("out").read_text() == shown
    assert call("tilt-data by q x=d/{key}/x.csv 2>&-", tmp_path).stdout == f"key,{HEAD}a,0,5,7\n"
    # What is told to a closed standard error isn't told to the output.
    done = call("tilt-data table nothing.csv 2>&-", tmp_path)
    assert (done.returncode, done.stdout) == (1, "")


def test_no_file_is_opened_under_the_number_of_a_closed_stream(tmp_path):
    code = (
        "import os; from tilt_data.cli import prepare_streams; prepare_streams(); number = os.open('f', os.O_CREAT | os.O_WRONLY)\n"
        "for stream, use in ((0, lambda: os.read(0, 1)), (1, lambda: os.write(1, b'x')), (2, lambda: os.write(2, b'x'))):\n"
        "    try:\n        use()\n    except OSError as error:\n        os.write(number, f'{stream} {error.errno}\\n'.encode())\n"
        "os.write(number, b'above' if number > 2 else b'below')\n"
    )
    command = f'{sys.executable} -c "$CODE" <&- >&- 2>&-'
    subprocess.run(["sh", "-c", command], cwd=tmp_path, env={**os.environ, "PYTHONPATH": str(PYTHON), "CODE": code})
    assert (tmp_path / "f").read_text() == "".join(f"{stream} {errno.EBADF}\n" for stream in range(3)) + "above"


@pytest.mark.parametrize("encoding", ["ascii", "latin-1", "utf-16"])
def test_texts_are_utf_8_whatever_the_encoding_of_the_streams(told, tilt, tmp_path, encoding):
    pathlib.Path("q").write_text("input x; emit x over (0, 10];")
    os.makedirs("d/Z%C3%BCrich")
    pathlib.Path("d/Z%C3%BCrich/x.csv").write_text(HEAD + "0,5,7\n")
    done = call("tilt-data by q x=d/{key}/x.csv", tmp_path, PYTHONIOENCODING=encoding)
    assert (done.returncode, done.stdout, done.stderr) == (0, f"key,{HEAD}Zürich,0,5,7\n", "")


def test_an_error_that_nobody_expected_is_one_line(told, monkeypatch):
    put("x", "0,5,7\n")
    monkeypatch.delenv("TILT_DATA_DEBUG", raising=False)
    monkeypatch.setattr(table, "plain", lambda *_: 1 // 0)
    line = "tilt-data: unexpected error: ZeroDivisionError: integer division or modulo by zero; please report it\n"
    assert told("table", "x.csv") == (1, "", line)
    monkeypatch.setenv("TILT_DATA_DEBUG", "1")
    status, _, err = told("table", "x.csv")
    assert status == 1 and err.startswith("Traceback") and err.endswith(line)
    monkeypatch.setattr(table, "plain", lambda *_: (_ for _ in ()).throw(MemoryError()))
    assert told("table", "x.csv") == (1, "", "tilt-data: out of memory\n")


def test_a_bad_byte_of_a_pipe_is_told_of_standard_input(told, tmp_path):
    (tmp_path / "i").write_bytes(b"time,x\n5,7\n6,\xff\n")
    for words in ("", "--scale auto"):
        done = call(f"cat i | tilt-data series - --time time --unit s --tick 1s {words}", tmp_path)
        line = ":3" if words else ""
        assert (done.returncode, done.stderr) == (1, f"tilt-data: standard input{line}: a text in UTF-8 was expected\n")
    assert os.listdir(tmp_path) == ["i"]


@pytest.mark.parametrize(
    "text, shown",
    [
        ("x.csv", "x.csv"),
        ("Zürich 水 \U0001f600", "Zürich 水 \U0001f600"),
        ("\x1b[31m", r"\x1b[31m"),
        ("a\tb\nc\r", r"a\tb\nc\r"),
        ("\x7f\x9b1m", r"\x7f\x9b1m"),
        ("\u202eabc\u2066", r"\u202eabc\u2066"),
        ("\u2028", r"\u2028"),
        ("\udcff", r"\udcff"),
        ("👩\u200d🚀", "👩\u200d🚀"),
    ],
)
def test_what_would_steer_a_terminal_is_escaped(text, shown):
    assert printable(text) == shown


def test_a_name_that_would_steer_a_terminal(told):
    assert told("table", "\x1b[31m") == (
        1,
        "",
        "tilt-data: \\x1b[31m: its ticks and scale aren't known: no JSON file is beside it; --like SERIES names " "a series that has one\n",
    )


@pytest.mark.parametrize("text", ["A", "Zürich", ".", "..", "a/b", "%41", "100%", "a+b c,d=e@(f)", "%2E", "é%C3"])
def test_a_key_comes_back_from_its_name(text):
    assert unsafe(safe(text)) == text


@pytest.mark.parametrize("name", ["%41", "Zürich", "a%2fb", "100%", ".x"])
def test_a_name_that_no_key_has_is_its_own_key(name):
    assert unsafe(name) == name


FAR, LARGE = 4 * 10**18, 2**63 - 1
# Lines that are rows of an odd spelling, or no rows.
ODD = """0,5,+1|5,9,|-5,-3,-0|"0",5,1|"0",5,"1|0,5| 0,5,1|0,5,1,2|1_0,20,3|٣,5,1|0,5,--1|5-,6,1|-,5,1|,5,1|0,,1|,,|5,5,1|6,5,1|0,5,x||0,5,1 |\ufeff0,5,1"""
ODD_LINES = [
    *ODD.split("|"),
    "\0,1,2",
    "0" * 5000 + "1,5,1",
    "0,1," + "1" * 5000,
    f"0,1,{LARGE + 1}",
    f"0,1,{-LARGE - 2}",
    f"{-FAR - 1},5,1",
]
FINE_LINES = [f"{FAR - 1},{FAR},{LARGE}", f"{FAR - 1},{FAR + 1},1", f"{-FAR},{1 - FAR},{-LARGE - 1}", "007,0009,-05", "start,end,value"]


def made_file(draws: random.Random) -> bytes:
    """A file of rows, some of them odd, with line ends of all kinds."""
    time, lines = draws.choice([0, -50, 10**17]), [draws.choice(["start,end,value"] * 20 + ["start,end", "a,b,c", ""])]
    for _ in range(draws.randrange(0, 60)):
        start = time + draws.choice([0, 0, 3])
        time = start + draws.choice([1, 7, 10**6])
        lines.append(f"{start},{time},{draws.choice([0, -1, 10**17, LARGE, ''])}")
    for _ in range(draws.choice([0, 0, 1, 2])):
        lines.insert(draws.randrange(0, len(lines) + 1), draws.choice(ODD_LINES + FINE_LINES))
    ends = draws.choice([["\n"], ["\r\n"], ["\n"] * 30 + ["\r", "\r\n", "\n\n", "\r\r\n"]])
    data = bytearray(draws.choice(["", "", "\ufeff"]).encode())
    for line in lines:
        data += (line + draws.choice(ends)).encode()
    if draws.random() < 0.3:
        data = data.rstrip(b"\r\n")
    if draws.random() < 0.1:
        data.insert(draws.randrange(0, len(data) + 1), 0xFF)
    return bytes(data)


def taken(path: str, sha256: str | None) -> tuple[list[Any], str]:
    """The rows that a reader hands on, and its error."""
    rows: list[Any] = []
    try:
        with reading(path, sha256=sha256) as file:
            rows.extend(rows_of(path, file))
    except Refused as error:
        return rows, str(error)
    return rows, ""


def test_rows_that_are_rejected_are_those_that_the_program_rejects(tmp_path, tilt):
    draws, path, errors = random.Random(11), str(tmp_path / "x.csv"), set()
    (tmp_path / "q.tilt").write_text(f"input x; emit x over (-{FAR}, {FAR}];")
    for _ in range(600):
        data = made_file(draws)
        pathlib.Path(path).write_bytes(data)
        rows, error = taken(path, draws.choice([None, hashlib.sha256(data).hexdigest()]))
        done = subprocess.run([tilt, "run", str(tmp_path / "q.tilt"), f"x={path}"], capture_output=True, text=True)
        assert bool(done.returncode) == bool(error), (data, error, done.stderr)
        if not error:
            printed = [line.split(",") for line in done.stdout.splitlines()[1:]]
            assert [list(map(str, row)) for row in rows if row[2] is not None] == printed
        assert taken(path, "0" * 64)[1].startswith(f"{path}: it isn't the file that its JSON file describes")
        errors.add(re.sub(r"[0-9]+|,? not .*", "", error))
    # All kinds of errors have come, and rows without one.
    assert "" in errors and len(errors) >= 7, errors


def test_rows_of_a_pipe_are_handed_on_as_they_come():
    source, target = os.pipe()
    with open(source, encoding="utf-8", newline="") as file, open(target, "w") as pipe:
        # What waits for more than a row fails, and doesn't hang.
        ending = threading.Timer(10, pipe.close)
        ending.start()
        rows = rows_of("x", file)
        for number in range(3):
            pipe.write(("" if number else "start,end,value\n") + f"{number},{number + 1},5\n")
            pipe.flush()
            assert next(rows) == (number, number + 1, 5)
        ending.cancel()
