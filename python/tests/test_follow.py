"""`tilt-data follow`: lines that come and files that are rotated, kills at any moment, and a real broker."""
from __future__ import annotations

import contextlib
import dataclasses
import json
import os
import pathlib
import random
import re
import resource
import shutil
import signal
import socket
import subprocess
import sys
import time

import pytest
from conftest import LIVE, PROGRAM, PYTHON, forked, run_program
from tilt_data import handed
from tilt_data.clock import Clock, Moments
from tilt_data.convention import TextConvention
from tilt_data.follow import clock_of

QUERY = (
    "input temp; input limit; let a = avg(temp[t-20:t]) every 10; let above = ifnull(a > limit, false);\n"
    "emit a - limit when any(above[t-30:t]) over (0, 3000] every 10;\n"
)
BEGUN = {"PYTHONPATH": str(PYTHON), "TILT": str(PROGRAM), "TILT_LIVE": str(LIVE), "PATH": os.environ["PATH"]}
COMMAND = [sys.executable, "-m", "tilt_data", "follow", "q", "--state", "s"]


def series(seed: int, step: int, last: int) -> list[tuple[int, int, int]]:
    draws = random.Random(seed)
    rows, at = [], 0
    while at < last:
        end = at + 1 + draws.randrange(step)
        if draws.random() < 0.9:
            rows.append((at, end, draws.randrange(100)))
        at = end
    return rows


def lay_out(folder: pathlib.Path, last: int = 3000) -> tuple[list[str], str]:
    """Lines of two inputs in the order in which they come, and what one run prints over all."""
    temp, limit = series(1, 4, last), series(2, 40, last)
    (folder / "q").write_text(QUERY)
    for name, rows in (("temp", temp), ("limit", limit)):
        (folder / f"{name}.csv").write_text("start,end,value\n" + "".join(f"{s},{e},{v}\n" for s, e, v in rows))
    lines = sorted([(s, f"temp,{s},{e},{v}") for s, e, v in temp] + [(s, f"limit,{s},{e},{v}") for s, e, v in limit])
    return [f"{line}\n" for _, line in lines], run_program(str(PROGRAM), QUERY, "temp=temp.csv", "limit=limit.csv", folder=str(folder))


def simple(folder: pathlib.Path, query: str = "input x; emit x over (0, 4000000000000000000];") -> None:
    (folder / "q").write_text(query)


def bounds_for(query: pathlib.Path) -> list[str]:
    """The values of inputs, within which no result of the queries here leaves 64 bits. Without them a line says that such results aren't
    counted."""
    names = re.findall(r"input (\w+);", query.read_text()) if query.is_file() else []
    return ["--bounds", ",".join(f"{name}=-1000:1000" for name in names)] if names else []


def follow(folder: pathlib.Path, *words: str, **streams) -> subprocess.Popen[bytes]:
    pipes = {"stdin": subprocess.PIPE, "stdout": subprocess.PIPE, "stderr": subprocess.PIPE, **streams}
    bounds = [] if {"--bounds", "--whole"} & set(words) else bounds_for(folder / "q")
    return forked(["follow", "q", *words, *bounds], BEGUN, cwd=folder, start_new_session=True, **pipes)


def done(process: subprocess.Popen[bytes], given: str | bytes = b"") -> tuple[int, str, str]:
    out, err = process.communicate(given.encode() if isinstance(given, str) else given, timeout=60)
    return process.returncode, out.decode(), err.decode()


def followed(folder: pathlib.Path, given: str | bytes, *words: str) -> tuple[int, str, str]:
    return done(follow(folder, "--state", "s", *words), given)


def output(folder: pathlib.Path) -> str:
    return (folder / "s" / "output.csv").read_text()


def taken(folder: pathlib.Path) -> int:
    """How much of the feed is in the folder."""
    try:
        return json.loads((folder / "s" / "taken.json").read_text())["length"]
    except FileNotFoundError:
        return 0


def tree(folder: pathlib.Path) -> dict[str, bytes]:
    return {path.name: path.read_bytes() for path in folder.iterdir()}


def wait_for(condition) -> None:
    for _ in range(600):
        if condition():
            return
        time.sleep(0.02)
    pytest.fail("it doesn't come")


# Lines that come


@pytest.mark.parametrize("words", [[], ["--every", "37"], ["--every", "100000"], ["--idle", "1000"]])
def test_rows_are_those_that_one_run_prints(tilt, live, tmp_path, words):
    lines, wanted = lay_out(tmp_path)
    assert followed(tmp_path, "".join(lines), "--end", *words) == (0, wanted, "")
    assert output(tmp_path) == wanted and wanted.count("\n") > 5
    assert followed(tmp_path, "", "--end", *words) == (0, "", "tilt-data: s was ended before: s/output.csv has all\n")


def test_calls_one_after_another_go_on(tilt, live, tmp_path):
    lines, wanted = lay_out(tmp_path)
    draws = random.Random(3)
    printed, at = "", 0
    while at < len(lines):
        before, at = at, at + draws.randrange(1, 400)
        status, out, err = followed(tmp_path, "".join(lines[before:at]), *(["--end"] if at >= len(lines) else []))
        assert (status, err) == (0, "")
        printed += out
    assert printed == wanted == output(tmp_path)


def test_rows_are_printed_while_lines_come(tilt, live, tmp_path):
    simple(tmp_path)
    process = follow(tmp_path, "--state", "s", "--begun")
    printed = [b"start,end,value\n", b"0,,7\n", b"0,5,7\n", b"5,,8\n"]
    for line, wanted in ((b"x,0,,7\n", printed[:2]), (b"x,5,,8\n", printed[2:])):
        process.stdin.write(line)
        process.stdin.flush()
        assert [process.stdout.readline() for _ in wanted] == wanted
    assert done(process) == (0, "", "")


def test_a_line_says_that_results_are_not_counted_if_they_can_leave_64_bits(tilt, live, tmp_path):
    simple(tmp_path, "input x; emit x + x over (0, 20];")
    rows, told = "start,end,value\n0,5,6\n", "tilt: 122 results that leave 64 bits aren't counted\n"
    words = [["--whole"], ["--bounds", "x=-4611686018427387904:4611686018427387903"], ["--bounds", "x=0:4611686018427387904"]]
    for folder, given, err in zip("abc", words, ("", "", told)):
        assert done(follow(tmp_path, "--state", folder, "--end", *given), "x,0,5,3\n") == (0, rows, err)
    status, out, err = followed(tmp_path, "", "--whole", "--bounds", "x=0:1")
    assert (status, out, err) == (1, "", "tilt-data: --bounds: it is for queries in units, so leave out --whole\n")


def test_a_last_line_without_an_end_is_not_taken(tilt, live, tmp_path):
    simple(tmp_path)
    told = "tilt-data: the last line has no end, and isn't taken without --end: x,\\x1b5,9,1\n"
    assert followed(tmp_path, "x,0,5,3\nx,\x1b5,9,1") == (0, "start,end,value\n0,5,3\n", told)
    assert followed(tmp_path, "x,5,9,17\r\nx,9,12,4", "--end") == (0, "5,9,17\n9,12,4\n", "")


def test_readings_become_rows_as_in_series(tilt, live, tmp_path):
    draws = random.Random(5)
    readings = [(second, draws.randrange(1000) / 10) for second in sorted(draws.sample(range(0, 3000), 400))]
    times = [time.strftime("%Y-%m-%dT%H:%M:%SZ", time.gmtime(1772323200 + second)) for second, _ in readings]
    query = "input temp; emit avg(temp[t-60:t]) over (0, 3060] every 60;"
    (tmp_path / "raw.csv").write_text("time,temp\n" + "".join(f"{at},{value}\n" for at, (_, value) in zip(times, readings)))
    options = ["--tick", "1s", "--origin", "2026-03-01", "--scale", "10", "--max-age", "30s"]
    made = [sys.executable, "-m", "tilt_data", "series", "raw.csv", "--time", "time", *options]
    assert subprocess.run(made, cwd=tmp_path, env=BEGUN, stderr=subprocess.DEVNULL).returncode == 0
    head, *rows = run_program(tilt, query, "temp=temp.csv", folder=str(tmp_path)).splitlines()
    wanted = "\n".join([head, *(f"{start},{end},{int(value) / 10:.1f}" for start, end, value in (row.split(",") for row in rows)), ""])
    simple(tmp_path, query)
    lines = [f"temp,{at},{value}\n" for at, (_, value) in zip(times, readings)] + [",2026-03-01T02:00:00Z,\n"]
    for part in (lines[:150], lines[150:]):
        assert followed(tmp_path, "".join(part), *options)[::2] == (0, "")
    assert output(tmp_path) == wanted
    # A series has the same clock and scale.
    shutil.rmtree(tmp_path / "s")
    assert followed(tmp_path, "".join(lines), "--like", "temp.csv", "--max-age", "30s") == (0, wanted, "")


def test_inputs_have_scales_of_their_own(tilt, live, tmp_path):
    simple(tmp_path, "input x; input y; emit x + y over (0, 20];")
    readings = [("x", 1, "1.5"), ("y", 2, "0.25"), ("x", 3, "NA"), ("x", 10, "2.5"), ("y", 12, "0.5"), ("", 20, "")]
    given = "".join(f"{name},{1772323200 + second},{value}\n" for name, second, value in readings)
    words = ["--tick", "1s", "--origin", "2026-03-01", "--unit", "s", "--scale", "10", "--scale", "y=100", "--hold", "next", "--null", "NA"]
    assert followed(tmp_path, given, *words)[1:] == ("start,end,value\n2,3,1.75\n10,12,2.75\n12,20,3.00\n", "")
    words += ["--skip-empty", "--times"]
    times = [f"2026-03-01T00:00:{second:02}Z" for second in (2, 10, 12, 20)]
    wanted = "start,end,value\n" + "".join(f"{a},{b},{v}\n" for a, b, v in zip(times, times[1:], ("1.75", "2.75", "3.00")))
    assert done(follow(tmp_path, "--state", "t", *words), given) == (0, wanted, "")


LOCAL = ["--tick", "1min", "--zone", "Europe/Zurich", "--scale", "1", "--times", "--skip-bad"]
# At 01:00 in UTC clocks go from 02:00 to 03:00 in March, and back from 03:00 to 02:00 in October. So 02:30 has no moment, or two.
CLOCKS = [
    ([], ["2026-03-29T00:00", "", "2026-03-29T03:00"], "skip this local time"),
    (["--fold", "first"], ["2026-03-29T00:00", "2026-03-29T01:30", "2026-03-29T03:00"], ""),
    (["--fold", "second"], ["2026-03-29T00:00", "2026-03-29T00:30", "2026-03-29T03:00"], ""),
    ([], ["2026-10-24T23:00", "", "2026-10-25T04:00"], "show this local time twice"),
    (["--fold", "first"], ["2026-10-24T23:00", "2026-10-25T00:30", "2026-10-25T04:00"], ""),
    (["--fold", "second"], ["2026-10-24T23:00", "2026-10-25T01:30", "2026-10-25T04:00"], ""),
]


@pytest.mark.parametrize("fold, starts, what", CLOCKS)
def test_local_times_over_a_change_of_clocks(tilt, live, tmp_path, fold, starts, what):
    simple(tmp_path)
    day = starts[2][:10]
    given = f"x,{day}T01:00:00,1\nx,{day}T02:30:00,2\nx,{day}T05:00:00,3\nx,{day}T09:00:00+02:00,4\n"
    rows = [(start, number) for number, start in enumerate([*starts, f"{day}T07:00"], 1) if start]
    wanted = [f"{start}:00Z,{end}:00Z,{number}\n" for (start, number), (end, _) in zip(rows, rows[1:])]
    told = what and f"tilt: 95 line 3: bad time: the clocks of the zone {what}\n"
    assert followed(tmp_path, given, *LOCAL, *fold) == (0, "".join(["start,end,value\n", *wanted]), told)


def test_a_clock_starts_in_1970_in_each_zone():
    convention = TextConvention(tick="1h", zone="Europe/Zurich")
    assert clock_of(convention) == Clock(3600 * 10**9, 0, "left")
    # An origin without an offset is a local time.
    given = dataclasses.replace(convention, origin="2026-03-01")
    assert clock_of(given).origin == Moments().iso("2026-02-28T23:00:00Z")


def test_inputs_have_ages_of_their_own(tilt, live, tmp_path):
    simple(tmp_path, "input x; input y; emit x + y over (0, 20];")
    readings = [("x", 1, 1), ("y", 2, 10), ("x", 7, 2), ("y", 8, 20), ("", 20, "")]
    given = "".join(f"{name},{1772323200 + second},{value}\n" for name, second, value in readings)
    words = ["--tick", "1s", "--origin", "2026-03-01", "--unit", "s", "--scale", "1", "--max-age", "x=3s"]
    # The readings of x are in (1, 4] and (7, 10], and those of y in (2, 8] and (8, 20].
    assert followed(tmp_path, given, *words)[1:] == ("start,end,value\n2,4,11\n7,8,12\n8,10,22\n", "")
    # With an age for all others those of y are in (2, 7] and (8, 13].
    assert done(follow(tmp_path, "--state", "t", *words, "--max-age", "5s"), given) == (0, "start,end,value\n2,4,11\n8,10,22\n", "")


def test_a_line_of_any_length_is_one_line(tilt, live, tmp_path):
    simple(tmp_path)
    given = b"x,0,3,1\n" + b"x" * 300000 + b"\r\nx,3,4,2\nx,4,5,1\n"
    status, out, err = followed(tmp_path, given, "--skip-bad")
    assert (status, out, err) == (0, "start,end,value\n0,3,1\n3,4,2\n4,5,1\n", "tilt: 77 line 2: too long\n")


def test_a_long_feed_takes_a_new_file(tilt, live, tmp_path):
    lines, wanted = lay_out(tmp_path)
    code = f"from tilt_data import cli, follow; follow.LONGEST_FILE = 5000; raise SystemExit(cli.main({COMMAND[3:] + ['--log', 'log']}))"
    process = subprocess.Popen([sys.executable, "-c", code], cwd=tmp_path, env=BEGUN, stdout=subprocess.PIPE)
    with open(tmp_path / "log", "w") as log:
        for place in range(0, len(lines), 100):
            log.write("".join(lines[place : place + 100]))
            log.flush()
            time.sleep(0.05)
    wait_for(lambda: taken(tmp_path) == len("".join(lines)) and not (tmp_path / "s" / "feed.0").exists())
    process.terminate()
    process.communicate()
    left = [name for name in tree(tmp_path / "s") if re.fullmatch("feed.[0-9]+", name)]
    assert len(left) == 1 and int(left[0][5:]) > 5000
    assert followed(tmp_path, "", "--end", "--quiet") == (0, "", "")
    assert output(tmp_path) == wanted


# Kills


def test_killed_a_hundred_times(tilt, live, tmp_path):
    """While its log grows and is rotated, and whatever is killed: the command, the program or both. The rows are those of one run, and the
    command of --exec got each at least once."""
    lines, wanted = lay_out(tmp_path)
    draws = random.Random(4)
    words = ["--state", "s", "--log", "log", "--exec", 'echo "$1,$2,$3" >> rows']
    written, rotations = 1, 0
    log = open(tmp_path / "log", "w")
    log.write(lines[0])
    log.flush()
    for kill in range(100):
        with open(tmp_path / "err", "ab") as err:
            process = follow(tmp_path, *words, stdin=subprocess.DEVNULL, stdout=subprocess.DEVNULL, stderr=err)
        # Some are killed before they work.
        if kill == 0 or draws.random() < 0.8:
            wait_for(lambda: taken(tmp_path) if kill == 0 else child_of(process))
        while written < len(lines) * (kill + 1) // 100:
            more = written + draws.randrange(1, 12)
            text = "".join(lines[written:more])
            written, half = more, draws.randrange(len(text))
            for piece in (text[:half], text[half:]):
                log.write(piece)
                log.flush()
            if kill and draws.random() < 0.2:
                for number in range(rotations, 0, -1):
                    os.rename(tmp_path / f"log.{number}", tmp_path / f"log.{number + 1}")
                os.rename(tmp_path / "log", tmp_path / "log.1")
                log.close()
                log = open(tmp_path / "log", "w")
                rotations += 1
            time.sleep(draws.uniform(0, 0.02))
        time.sleep(draws.choice([0, draws.uniform(0, 0.05)]))
        assert process.poll() is None, (tmp_path / "err").read_text()
        if draws.random() < 0.3:
            child = child_of(process)
            os.kill(child, signal.SIGKILL) if child else None
            time.sleep(draws.uniform(0, 0.03))
        os.killpg(process.pid, signal.SIGKILL) if draws.random() < 0.5 else process.kill()
        process.wait()
    log.close()
    assert rotations > 20
    status, _, err = done(follow(tmp_path, *words, "--end", "--quiet"))
    assert (status, err) == (0, "") and output(tmp_path) == wanted
    assert list(dict.fromkeys((tmp_path / "rows").read_text().splitlines())) == wanted.splitlines()[1:]
    assert {path.name for path in (tmp_path / "s").iterdir()} <= {
        "feed.0",
        "feed.lock",
        "lock",
        "output.csv",
        "shown",
        "state",
        "taken.json",
    }
    for place in json.loads((tmp_path / "s" / "taken.json").read_text())["place"][:1]:
        assert place == os.stat(tmp_path / "log").st_ino


def child_of(process: subprocess.Popen[bytes]) -> int:
    """The program that it feeds; 0 if there is none."""
    for child in pathlib.Path(f"/proc/{process.pid}/task/{process.pid}/children").read_text().split():
        with contextlib.suppress(OSError):
            if b"--from" in pathlib.Path(f"/proc/{child}/cmdline").read_bytes():
                return int(child)
    return 0


def test_a_program_that_is_killed_is_started_again(tilt, live, tmp_path):
    lines, wanted = lay_out(tmp_path)
    process = follow(tmp_path, "--state", "s", "--end")
    for part in range(4):
        process.stdin.write("".join(lines[part * len(lines) // 4 : (part + 1) * len(lines) // 4]).encode())
        process.stdin.flush()
        if part < 3:
            size = len("".join(lines[: (part + 1) * len(lines) // 4]))
            wait_for(lambda: taken(tmp_path) == size and f"\nbytes {size}\n" in (tmp_path / "s" / "state").read_text())
            child = child_of(process)
            assert child
            os.kill(child, signal.SIGKILL)
            wait_for(lambda: child_of(process) not in (0, child))
    told = "tilt-data: tilt-live was ended by signal 9, and is started again\n"
    assert done(process) == (0, wanted, 3 * told) and output(tmp_path) == wanted


def test_a_program_that_is_always_killed_ends_the_command(tilt, live, tmp_path):
    simple(tmp_path)
    path = tmp_path / "killed"
    path.write_text(f'#!/bin/sh\ncase "$*" in *--position) exec "{live}" "$@";; esac\nkill -9 $$\n')
    path.chmod(0o755)
    found = subprocess.run(COMMAND, cwd=tmp_path, env={**BEGUN, "TILT_LIVE": str(path)}, input=b"x,0,3,1\nx,3,4,2\n", capture_output=True)
    told = b"tilt-data: tilt-live was ended by signal 9, and is started again\ntilt-data: tilt-live was ended by signal 9\n"
    assert (found.returncode, found.stderr) == (137, told)
    # What was taken is in the folder.
    assert followed(tmp_path, "", "--end") == (0, "start,end,value\n0,3,1\n3,4,2\n", "")


def test_an_interrupt_has_its_status(tilt, live, tmp_path):
    simple(tmp_path)
    heard = {"preexec_fn": lambda: signal.signal(signal.SIGINT, signal.SIG_DFL)}
    process = follow(tmp_path, "--state", "s", **heard)
    process.stdin.write(b"x,0,3,1\nx,3,4,2\n")
    process.stdin.flush()
    assert [process.stdout.readline() for _ in range(3)] == [b"start,end,value\n", b"0,3,1\n", b"3,4,2\n"]
    process.send_signal(signal.SIGINT)
    assert process.wait(60) == 130 and process.stderr.read() == b""
    process.communicate()
    assert followed(tmp_path, "", "--end")[::2] == (0, "") and output(tmp_path) == "start,end,value\n0,3,1\n3,4,2\n"


# A log that is rotated


LINES = [f"x,{at},{at + 1},{at}\n" for at in range(40)]
ROWS = "start,end,value\n" + "".join(line[2:] for line in LINES)


def logged(folder: pathlib.Path, *words: str) -> tuple[int, str, str]:
    """Follows the log until all that is there was handed on, or it ends by itself."""
    process = follow(folder, "--state", "s", "--log", "log", *words)

    def is_through() -> bool:
        place = json.loads((folder / "s" / "taken.json").read_text())["place"] if (folder / "s" / "shown").exists() else [0, 0, ""]
        is_read = place[0] == os.stat(folder / "log").st_ino and place[1] == (folder / "log").read_text().rfind("\n") + 1
        return is_read and (folder / "s" / "state").read_text().splitlines()[1] == (folder / "s" / "shown").read_text()

    for _ in range(200):
        if process.poll() is not None or is_through():
            break
        time.sleep(0.02)
    time.sleep(0.2)
    process.terminate()
    status, out, err = done(process)
    return (0 if status == 143 else status), out, err


@pytest.mark.parametrize("names", [["log.3", "log.2", "log.1"], ["log-20260301", "log-20260302", "log-20260303"]])
def test_files_that_were_rotated_while_it_was_down_are_read(tilt, live, tmp_path, names):
    simple(tmp_path)
    (tmp_path / "log.5").write_text("x,0,1,100\n")
    (tmp_path / "log").write_text("".join(LINES[:5]) + LINES[5][:3])
    assert logged(tmp_path) == (0, "start,end,value\n" + "".join(line[2:] for line in LINES[:5]), "")
    with open(tmp_path / "log", "a") as log:
        log.write(LINES[5][3:] + LINES[6])
    os.rename(tmp_path / "log", tmp_path / names[0])
    for name, text in ((names[1], LINES[7:12]), (names[2], LINES[12:20]), ("log", LINES[20:])):
        time.sleep(0.02)
        (tmp_path / name).write_text("".join(text))
    (tmp_path / "log.bak").write_text("x,0,1,100\n")
    assert logged(tmp_path)[::2] == (0, "")
    status, _, err = followed(tmp_path, "", "--log", "log", "--end")
    assert (status, err) == (0, "") and output(tmp_path) == ROWS


def test_a_log_that_does_not_come_yet_is_waited_for(tilt, live, tmp_path):
    simple(tmp_path)
    process = follow(tmp_path, "--state", "s", "--log", "log")
    time.sleep(0.2)
    (tmp_path / "log").write_text("".join(LINES[:3]))
    assert [process.stdout.readline() for _ in range(3)] == [b"start,end,value\n", b"0,1,0\n", b"1,2,1\n"]
    process.terminate()
    assert done(process)[0] == 143


def test_half_a_line_at_a_rotation_is_a_line(tilt, live, tmp_path):
    simple(tmp_path)
    (tmp_path / "log").write_text("x,0,1,0\nx,1,2")
    process = follow(tmp_path, "--state", "s", "--log", "log", "--skip-bad")
    wait_for(lambda: (tmp_path / "s" / "feed.0").exists() and (tmp_path / "s" / "feed.0").read_text() == "x,0,1,0\n")
    os.rename(tmp_path / "log", tmp_path / "log.1")
    (tmp_path / "log").write_text("x,2,3,2\nx,3,4,3\n")
    assert [process.stdout.readline() for _ in range(3)] == [b"start,end,value\n", b"0,1,0\n", b"2,3,2\n"]
    process.terminate()
    assert done(process)[2] == "tilt: 71 line 2: not 4 fields\n"


def gone(folder: pathlib.Path) -> None:
    (folder / "log").unlink()
    (folder / "log").write_text("x,9,10,3\n" * 20)


def compressed(folder: pathlib.Path) -> None:
    os.rename(folder / "log", folder / "log.2")
    time.sleep(0.02)
    (folder / "log.1.gz").write_bytes(b"compressed")
    (folder / "log").write_text("x,9,10,3\n")


def cut(folder: pathlib.Path) -> None:
    os.truncate(folder / "log", 0)


@pytest.mark.parametrize(
    "change, what",
    [
        (gone, "log: the file that was read up to byte 32 isn't beside it any more: put it back, or name another --state"),
        (compressed, "log.1.gz: it wasn't read before it was compressed: decompress it beside log"),
        (cut, "log: the file that was read up to byte 32 isn't beside it any more: put it back, or name another --state"),
    ],
)
def test_a_log_of_which_bytes_are_missing_is_rejected(tilt, live, tmp_path, change, what):
    simple(tmp_path)
    (tmp_path / "log").write_text("".join(LINES[:4]))
    assert logged(tmp_path)[::2] == (0, "")
    change(tmp_path)
    assert logged(tmp_path) == (1, "", f"tilt-data: {what}\n")


def test_a_log_that_is_cut_while_it_is_read_is_rejected(tilt, live, tmp_path):
    simple(tmp_path)
    (tmp_path / "log").write_text("".join(LINES[:4]))
    process = follow(tmp_path, "--state", "s", "--log", "log")
    wait_for(lambda: (tmp_path / "s" / "feed.0").exists() and (tmp_path / "s" / "feed.0").stat().st_size == 32)
    os.truncate(tmp_path / "log", 0)
    assert process.wait(60) == 1
    assert done(process)[2] == "tilt-data: log: it was cut while it was read: rotate it by renaming, and name another --state\n"


# The clock


CLOCK = ["--tick", "1s", "--origin", "2026-03-01", "--scale", "10", "--ties", "last", "--null", "NA"]


@pytest.mark.parametrize("unit", [[], ["--unit", "ms"]])
def test_a_silent_input_does_not_hold_the_output_back(tilt, live, tmp_path, unit):
    simple(tmp_path, "input temp; input valve; emit temp + valve over (0, 4000000000000000000];")

    def text(moment: float) -> str:
        return str(int(moment * 1000)) if unit else time.strftime("%Y-%m-%dT%H:%M:%SZ", time.gmtime(moment))

    process = follow(tmp_path, "--state", "s", "--clock", "1s", *CLOCK, *unit)
    begin = int(time.time()) - 60
    process.stdin.write(f"valve,{text(begin)},1\ntemp,{text(begin)},2.5\ntemp,{text(begin + 10)},3.5\n".encode())
    process.stdin.flush()
    first = begin - 1772323200
    assert [process.stdout.readline().decode() for _ in range(2)] == ["start,end,value\n", f"{first},{first + 10},3.5\n"]
    # Of a line that comes late nothing is taken.
    process.stdin.write(f"temp,{text(begin + 30)},9.5\n".encode())
    status, _, err = done(process)
    assert status == 1 and re.fullmatch("tilt: 102 line [0-9]+: late reading of input 1\n", err)
    # What was sent by the clock is in the feed: one call of the program over it prints the same.
    words = [live, "q", "--time", "time", "--name", "name", "--value", "value", "--tick", "1s", "--origin", "2026-03-01T00:00:00Z"]
    with open(tmp_path / "s" / "feed.0", "rb") as feed:
        once = subprocess.run([*words, "--units", "--scale", "10", *unit], cwd=tmp_path, stdin=feed, capture_output=True)
    assert once.stdout.decode() == output(tmp_path)


def test_no_watermark_overtakes_what_is_there(tilt, live, tmp_path):
    simple(tmp_path)
    draws = [f"x,{second},{second % 7}\n" for second in range(int(time.time()) - 30000, int(time.time()) - 20)]
    (tmp_path / "log").write_text("".join(draws))
    process = follow(tmp_path, "--state", "s", "--log", "log", "--quiet", "--clock", "10s", "--unit", "s", *CLOCK)
    wait_for(lambda: (tmp_path / "s" / "feed.0").exists() and b"\n," in (tmp_path / "s" / "feed.0").read_bytes())
    process.terminate()
    assert done(process) == (143, "", "")
    text = (tmp_path / "s" / "feed.0").read_text()
    assert text.startswith("name,time,value\n" + "".join(draws) + ",")


# What is done with the rows


def test_a_command_gets_each_row(tilt, live, tmp_path):
    simple(tmp_path)
    command = 'cat; echo "$#:$1:$2:$3" >> rows; test "$1" != 1 -o -e now'
    status, out, err = followed(tmp_path, "".join(LINES[:4]), "--exec", command)
    assert (status, out) == (1, "start,end,value\n0,1,0\n1,2,1\n")
    assert err == "tilt-data: --exec: it ended with status 1 for 1,2,1, which it gets again next time\n"
    (tmp_path / "now").write_text("")
    assert followed(tmp_path, LINES[4], "--exec", command) == (0, "1,2,1\n2,3,2\n3,4,3\n4,5,4\n", "")
    assert (tmp_path / "rows").read_text() == "3:0:1:0\n3:1:2:1\n3:1:2:1\n3:2:3:2\n3:3:4:3\n3:4:5:4\n"


def test_rows_that_standard_output_does_not_take_are_printed_next_time(tilt, live, tmp_path):
    lines, wanted = lay_out(tmp_path)
    with open("/dev/full", "wb") as full:
        process = follow(tmp_path, "--state", "s", "--end", stdout=full)
        _, err = process.communicate("".join(lines).encode(), timeout=60)
    assert (process.returncode, err) == (1, b"tilt-data: standard output: it can't be written: No space left on device\n")
    status, out, _ = followed(tmp_path, "", "--end")
    assert (status, out) == (0, wanted) and output(tmp_path) == wanted


def test_a_reader_that_has_gone_loses_no_row(tilt, live, tmp_path):
    simple(tmp_path)
    process = follow(tmp_path, "--state", "s")
    process.stdout.close()
    process.stdin.write("".join(LINES[:4]).encode())
    process.stdin.flush()
    assert process.wait(60) == 1 and process.stderr.read() == b""
    process.stdin.close()
    assert followed(tmp_path, "".join(LINES[4:]), "--end") == (0, ROWS, "")


# A file a day


DAYS = ["--rotate", "--quiet", "--tick", "1min", "--origin", "2026-03-01", "--scale", "10"]
FIRST = 1772323200


def days_of(folder: pathlib.Path) -> dict[str, list[str]]:
    """The rows in the file of each day, which begins with a line of titles."""
    found = {}
    for path in sorted((folder / "s").glob("output-*.csv")):
        titles, *found[path.name[7:-4]] = path.read_text().splitlines(True)
        assert titles == "start,end,value\n"
    return found


def date_of(start: str) -> str:
    """The date of a start, which is a date or a tick of a minute."""
    return start[:10] if "-" in start else time.strftime("%Y-%m-%d", time.gmtime(FIRST + 60 * int(start)))


def check_days(folder: pathlib.Path) -> list[str]:
    """Joined, the days are the rows of the output, each on its own day: the days."""
    days = days_of(folder)
    assert [row for rows in days.values() for row in rows] == output(folder).splitlines(True)[1:]
    assert all(date_of(row.partition(",")[0]) == day for day, rows in days.items() for row in rows) and all(days.values())
    return list(days)


@pytest.mark.parametrize("times", [[], ["--times"]])
def test_days_have_each_row_once_whatever_is_killed(tilt, live, tmp_path, times):
    simple(tmp_path)
    draws = random.Random(8)
    minutes = sorted(draws.sample(range(14400), 3000))
    lines = [f"x,{FIRST + 60 * minute},{draws.randrange(100) / 10}\n" for minute in minutes]
    words, kills = ["--state", "s", "--log", "log", "--unit", "s", *DAYS, *times], 25
    with open(tmp_path / "log", "w", buffering=1) as log:
        for kill in range(kills):
            with open(tmp_path / "err", "ab") as err:
                process = follow(tmp_path, *words, stdin=subprocess.DEVNULL, stdout=subprocess.DEVNULL, stderr=err)
            if draws.random() < 0.8:
                wait_for(lambda: child_of(process))
            for line in lines[len(lines) * kill // kills : len(lines) * (kill + 1) // kills]:
                log.write(line)
                time.sleep(0.01 if draws.random() < 0.1 else 0)
            time.sleep(draws.uniform(0, 0.05))
            assert process.poll() is None, (tmp_path / "err").read_text()
            os.killpg(process.pid, signal.SIGKILL) if draws.random() < 0.5 else process.kill()
            process.wait()
    process = follow(tmp_path, *words)
    wait_for(lambda: child_of(process))
    through = f"\nbytes {len('name,time,value' + chr(10) + ''.join(lines))}\n"
    wait_for(lambda: through in (tmp_path / "s" / "state").read_text())
    wait_for(lambda: (tmp_path / "s" / "rotated").read_text().split()[0] == str(len(output(tmp_path))))
    process.terminate()
    assert done(process) == (143, "", "")
    assert output(tmp_path).count("\n") > 2000 and check_days(tmp_path) == [f"2026-03-{day:02}" for day in range(1, 11)]


class Killed(BaseException):
    """What ends a call at a step."""


def killing(step: int, before: bool):
    """`replace`, which ends the call before or after it does its work, once it was called so often."""
    replace, left = handed.replace, [step]

    def killed(path: str, text: str) -> None:
        left[0] -= 1
        if left[0] or not before:
            replace(path, text)
        if not left[0]:
            raise Killed

    return killed


@pytest.mark.parametrize("before", [True, False])
def test_a_kill_at_any_step_repeats_no_row_of_a_day(tmp_path, monkeypatch, before):
    """Also where half of what was written is in the file."""
    monkeypatch.setattr(os, "fsync", lambda _: None)
    rows = [f"{start},{start + 300},{start}\n" for start in range(0, 6000, 300)]
    draws = random.Random(9)
    for step in range(1, 20):
        folder = tmp_path / str(step)
        (folder / "s").mkdir(parents=True)
        (folder / "s" / "output.csv").write_text("start,end,value\n" + "".join(rows))
        out = handed.Output(str(folder / "s"))
        with monkeypatch.context() as patched, contextlib.suppress(Killed):
            patched.setattr(handed, "replace", killing(step, before))
            rotated = handed.Rotated(out, Clock(60 * 10**9, FIRST * 10**9))
            for count in range(0, 21, 2):
                out.committed = len("start,end,value\n" + "".join(rows[:count]))
                rotated.hand_on()
        with contextlib.suppress(FileNotFoundError):
            _, day, length = (folder / "s" / "rotated").read_text().split()
            path = folder / "s" / f"output-{day}.csv"
            os.truncate(path, draws.randint(int(length), path.stat().st_size))
        out.committed = len("start,end,value\n" + "".join(rows))
        handed.Rotated(out, Clock(60 * 10**9, FIRST * 10**9)).finish()
        assert check_days(folder) == [f"2026-03-0{day}" for day in range(1, 5)]


@pytest.mark.parametrize("times", [[], ["--times"]])
def test_a_row_is_in_the_file_of_the_day_on_which_it_starts(tilt, live, tmp_path, times):
    simple(tmp_path)
    at = ["2026-03-01T23:58:00Z", "2026-03-01T23:59:00Z", "2026-03-02T00:00:00Z", "2026-03-04T01:59:00+02:00", "2026-03-04T02:00:00+02:00"]
    for part in (at[:2], at[2:4], at[4:]):
        given = "".join(f"x,{text},{at.index(text)}\n" for text in part)
        assert followed(tmp_path, given, *DAYS, *times) == (0, "", "")
    assert followed(tmp_path, "x,2026-03-06T00:00:00Z,7\n", *DAYS, *times) == (0, "", "")
    assert check_days(tmp_path) == ["2026-03-01", "2026-03-02", "2026-03-03", "2026-03-04"]
    rows = {day: [row.split(",") for row in rows] for day, rows in days_of(tmp_path).items()}
    assert [len(some) for some in rows.values()] == [2, 1, 1, 1] and rows["2026-03-04"][0][2] == "4.0\n"
    if times:
        assert rows["2026-03-03"] == [["2026-03-03T23:59:00Z", "2026-03-04T00:00:00Z", "3.0\n"]]


def test_a_row_that_starts_on_no_day_is_an_error(tilt, live, tmp_path):
    simple(tmp_path)
    given = "".join(f"x,{second},1\n" for second in (FIRST, FIRST + 60, 253402300860, 253402300920))
    for folder, words in (("s", []), ("t", ["--times"])):
        status, out, err = done(follow(tmp_path, "--state", folder, "--unit", "s", *DAYS, *words), given)
        assert (status, out) == (1, "") and "lies outside of the years 1 to 9999" in err
        assert (tmp_path / folder / "output.csv").read_text().count("\n") == 4


def test_the_file_of_a_day_that_is_not_over_must_stay(tilt, live, tmp_path):
    simple(tmp_path)
    given = [f"x,2026-03-0{1 + half // 2}T{6 + half % 2 * 12:02}:00:00Z,{half}\n" for half in range(5)]
    assert followed(tmp_path, "".join(given[:4]), *DAYS) == (0, "", "")
    first, second = (tmp_path / "s" / f"output-2026-03-0{day}.csv" for day in (1, 2))
    first.unlink()
    second.rename(tmp_path / "moved")
    told = "tilt-data: s/output-2026-03-02.csv: it was moved away or cut before its day was over: put it back as it was\n"
    assert followed(tmp_path, given[4], *DAYS) == (1, "", told)
    (tmp_path / "moved").rename(second)
    assert followed(tmp_path, "", *DAYS) == (0, "", "")
    assert [row for rows in days_of(tmp_path).values() for row in rows] == output(tmp_path).splitlines(True)[3:] and not first.exists()


# Numbers for a monitor


SAMPLE = re.compile(r'([a-z][a-z0-9_]*)\{folder="((?:[^"\\\n]|\\[\\"n])*)"\} (\S+)')


def measured(path: pathlib.Path, folder: pathlib.Path) -> dict[str, float]:
    """The numbers of a file, which is as Prometheus asks: each has its meaning, its type and the folder, in this order."""
    text, found = path.read_text(), {}
    assert text.endswith("\n")
    lines = text.splitlines()
    for help_line, type_line, sample in zip(lines[::3], lines[1::3], lines[2::3], strict=True):
        name, label, number = SAMPLE.fullmatch(sample).groups()
        assert help_line.startswith(f"# HELP {name} ") and type_line in (f"# TYPE {name} counter", f"# TYPE {name} gauge")
        assert type_line.endswith("counter") == name.endswith("_total") and name not in found
        assert re.sub(r"\\(.)", lambda sign: {"n": "\n"}.get(sign[1], sign[1]), label) == str(folder)
        found[name] = float(number)
    return found


def test_numbers_of_rows(tilt, live, tmp_path):
    lines, wanted = lay_out(tmp_path)
    name = 's "1"\\n\n2'
    status, out, err = done(follow(tmp_path, "--state", name, "--end", "--prometheus", "a.prom"), "".join(lines))
    size, last = len("".join(lines)) + len(",,,\n"), wanted.splitlines()[-1].split(",")
    assert (status, out, err) == (0, wanted, "")
    numbers = {"tilt_up": 0, "tilt_rows_total": wanted.count("\n") - 1, "tilt_feed_bytes_total": size, "tilt_committed_bytes": size}
    numbers |= {"tilt_restarts_total": 0, "tilt_last_row_end_ticks": float(last[1]), "tilt_last_value": float(last[2])}
    assert measured(tmp_path / "a.prom", tmp_path / name) == numbers
    # A call that takes nothing has the same numbers, and one that never had any takes them from the output.
    for path in ("a.prom", "b.prom"):
        assert done(follow(tmp_path, "--state", name, "--end", "--prometheus", path))[:2] == (0, "")
        assert measured(tmp_path / path, tmp_path / name) == numbers
        (tmp_path / name / "measured").unlink()


@pytest.mark.parametrize("words", [[], ["--times"], ["--begun"]])
def test_numbers_of_readings(tilt, live, tmp_path, words):
    simple(tmp_path)
    words = ["--quiet", "--tick", "250ms", "--scale", "10", "--prometheus", "s.prom", *words]
    assert followed(tmp_path, "x,2026-03-01T00:00:00Z,3.5\n", *words) == (0, "", "")
    before = measured(tmp_path / "s.prom", tmp_path / "s")
    assert "tilt_last_row_end_seconds" not in before and before["tilt_rows_total"] == ("--begun" in words)
    assert followed(tmp_path, "x,2026-03-01T00:00:01.750Z,-4\n", *words) == (0, "", "")
    numbers = measured(tmp_path / "s.prom", tmp_path / "s")
    assert numbers["tilt_last_row_end_seconds"] == FIRST + 1.75
    assert (
        numbers["tilt_last_value"] == (-4 if "--begun" in words else 3.5) and numbers["tilt_rows_total"] == output(tmp_path).count("\n") - 1
    )


def test_a_line_of_the_feed_is_no_number(tilt, live, tmp_path):
    simple(tmp_path)
    given = "x,0,3,1\nbytes 7\nx,3,4,2\nbytes 9\n"
    assert followed(tmp_path, given, "--quiet", "--skip-bad", "--prometheus", "s.prom")[:2] == (0, "")
    assert measured(tmp_path / "s.prom", tmp_path / "s")["tilt_committed_bytes"] == len(given)


def test_numbers_go_on_whatever_is_killed(tilt, live, tmp_path):
    lines, wanted = lay_out(tmp_path)
    path, words = tmp_path / "s.prom", ["--state", "s", "--log", "log", "--quiet", "--prometheus", "s.prom"]
    for part in range(6):
        with open(tmp_path / "log", "a") as log:
            log.write("".join(lines[part * len(lines) // 6 : (part + 1) * len(lines) // 6]))
        process = follow(tmp_path, *words)
        size = len("".join(lines[: (part + 1) * len(lines) // 6]))
        wait_for(lambda: path.exists() and measured(path, tmp_path / "s")["tilt_committed_bytes"] == size)
        numbers = measured(path, tmp_path / "s")
        assert numbers["tilt_up"] == 1 and numbers["tilt_feed_bytes_total"] == size and numbers["tilt_restarts_total"] == 0
        if part == 3:
            os.kill(child_of(process), signal.SIGKILL)
            wait_for(lambda: measured(path, tmp_path / "s")["tilt_restarts_total"] == 1)
        assert numbers["tilt_rows_total"] == output(tmp_path).count("\n") - 1
        process.kill()
        process.communicate()
    assert done(follow(tmp_path, *words, "--end")) == (0, "", "")
    assert output(tmp_path) == wanted and measured(path, tmp_path / "s")["tilt_rows_total"] == wanted.count("\n") - 1


def test_numbers_are_written_once_a_second_and_hold_no_row_back(tilt, live, tmp_path):
    simple(tmp_path)
    told = "tilt-data: gone/s.prom: it can't be written: No such file or directory\n"
    words = ["--quiet", "--prometheus", "gone/s.prom"]
    assert followed(tmp_path, LINES[0], *words) == (1, "", told) and not (tmp_path / "s" / "taken.json").exists()
    (tmp_path / "gone").mkdir()
    process = follow(tmp_path, "--state", "s", *words)
    times, begin = set(), time.monotonic()
    for line in LINES:
        process.stdin.write(line.encode())
        process.stdin.flush()
        time.sleep(0.04)
        with contextlib.suppress(FileNotFoundError):
            times.add((tmp_path / "gone" / "s.prom").stat().st_mtime_ns)
    # One is of the start, before any line.
    assert 2 <= len(times) <= 2 + time.monotonic() - begin
    shutil.rmtree(tmp_path / "gone")
    time.sleep(1.2)
    assert done(process) == (0, "", told) and output(tmp_path) == ROWS


# What is rejected


@pytest.mark.parametrize(
    "line, what",
    [
        ("x,5", "tilt: 71 line 2: not 4 fields"),
        ("x,5,5,1", "tilt: 83 line 2: empty interval"),
        ("x,0,5,1", "tilt: 82 line 2: late"),
        ("x,5,6,1.5", "tilt: 76 line 2: bad value"),
        ("y,5,6,1", "tilt: 73 line 2: unknown input"),
    ],
)
def test_bad_lines(tilt, live, tmp_path, line, what):
    simple(tmp_path)
    given = f"x,0,3,1\n{line}\nx,7,9,1\n"
    status, out, err = followed(tmp_path, given)
    assert (status, out, err) == (1, "", f"{what}\n")
    # It stays in the feed.
    assert followed(tmp_path, "x,9,10,2\n") == (1, "", f"{what}\n")
    assert followed(tmp_path, "x,10,11,3\n", "--skip-bad") == (0, "start,end,value\n0,3,1\n7,9,1\n9,10,2\n10,11,3\n", f"{what}\n")


USAGE = [
    (["--rows", "5"], "--rows isn't taken any more: rows are printed as soon as they are final, so leave it out"),
    (["--again"], "--again isn't taken any more: name the file by --log, which reads on where it was"),
    (["--fold", "third"], "argument --fold: invalid choice: 'third'"),
    (["--until", "2026-03-02"], "--until isn't taken any more: a record with a time alone, such as ,2026-03-01T07:00:00Z, says up to when"),
    (["x=x.csv"], "x=x.csv isn't taken any more: put the lines of this input in front of the others"),
    (["--every", "60s"], "argument --every: invalid number value: '60s'"),
]
READING = ["--tick", "1s"]
FAULTS = [
    ([*READING, "--max-age", "1500ms"], "--max-age 1500ms is no whole number of ticks of 1s"),
    ([*READING, "--max-age", "z=5s"], "--max-age z=..: no input has this name; there are: x"),
    (
        [*READING, "--event", "--max-age", "5s"],
        "--event is a reading of one tick: --hold, --max-age and --until are for readings that hold",
    ),
    ([*READING, "--scale", "0"], "--scale 0: a whole number above 0, auto, or NAME=N was expected"),
    ([*READING, "--scale", "10", "--scale", "x=auto"], "--scale auto: rows are printed before all data are there, so a whole number"),
    ([*READING, "--scale", "10", "--scale", "100"], "--scale without a name: it is given twice, as 10 and 100: give it once"),
    ([*READING, "--scale", "z=10"], "--scale z=..: no input has this name; there are: x"),
    ([*READING, "--end"], "--end: it is for rows; readings can end with a time alone, such as ,2026-03-01T07:00:00Z,"),
    ([*READING, "--idle", "5"], "--idle: it is for rows; "),
    (["--scale", "10"], "--scale: for readings give also --tick, or --like a series"),
    ([*READING, "--zone", "UTC", "--unit", "s"], "--zone: it is for dates, and with --unit times are numbers"),
    ([*READING, "--fold", "first"], "--fold: it is for local times, so give also --zone"),
    ([*READING, "--zone", "Nowhere"], "tilt: 67 no zone Nowhere"),
    (["--zone", "UTC"], "--zone: for readings give also --tick, or --like a series"),
    (["--fold", "first"], "--fold: for readings give also --tick, or --like a series"),
    (["--clock", "5s"], "--clock: for readings give also --tick, or --like a series"),
    (["--times"], "--times: for readings give also --tick, or --like a series"),
    (["--rotate"], "--rotate: for readings give also --tick, or --like a series"),
    ([*READING, "--clock", "soon"], "'soon' is no duration"),
    ([*READING, "--origin", "tomorrow"], "'tomorrow' is no time: ISO 8601 was expected"),
]


@pytest.mark.parametrize("words, what", [*USAGE, *FAULTS])
def test_words_are_read_before_any_line(tilt, live, tmp_path, words, what):
    simple(tmp_path)
    # The stream doesn't end: reports don't wait for it.
    process = follow(tmp_path, "--state", "s", *words)
    assert process.wait(60) == (2 if (words, what) in USAGE else 1)
    assert what in done(process)[2]
    assert not (tmp_path / "s" / "taken.json").exists()


def test_a_query_that_is_rejected_begins_no_feed(tilt, live, tmp_path):
    lines, wanted = lay_out(tmp_path)
    (tmp_path / "q").write_text(QUERY.replace("a - limit", "b - limit"))
    status, out, err = followed(tmp_path, "".join(lines), "--end")
    assert (status, out) == (1, "") and err.startswith("tilt-data: tilt: 27 statement 5: unknown name\nq:2:6: ")
    (tmp_path / "q").write_text(QUERY)
    assert followed(tmp_path, "".join(lines), "--end") == (0, wanted, "")


CHANGES = [
    ["--scale", "100"],
    ["--tick", "100ms"],
    ["--origin", "2026-02-28"],
    ["--unit", "s"],
    ["--closed", "right"],
    ["--max-age", "60s"],
]
CHANGES += [["--zone", "Europe/Zurich"], ["--ties", "first"], ["--null", "-9"], ["--skip-empty"], ["--scale", "x=1000"], ["--event"]]


def test_other_options_are_rejected_and_leave_the_folder_as_it_is(tilt, live, tmp_path):
    simple(tmp_path)
    assert followed(tmp_path, "x,2026-03-01T00:00:01Z,1.5\nx,2026-03-01T00:00:05Z,2.5\n", *CLOCK)[::2] == (0, "")
    before = tree(tmp_path / "s")
    for words in CHANGES:
        given = dict(zip(CLOCK[::2], CLOCK[1::2])) | ({words[0]: words[1]} if words[1:] and "=" not in words[1] else {})
        rest = words if not words[1:] or "=" in words[1] else []
        call = [word for option in given.items() for word in option] + rest
        assert followed(tmp_path, "x,2026-03-01T00:00:09Z,3.5\n", *call) == (1, "", "tilt-data: tilt: 59 state of other options\n"), words
        assert tree(tmp_path / "s") == before, words
    # Nor is it a feed of rows.
    assert followed(tmp_path, "x,9,10,3\n") == (1, "", "tilt-data: tilt: 59 state of other options\n")
    (tmp_path / "q").write_text("input x; emit x + 1 over (0, 40];")
    assert followed(tmp_path, "", *CLOCK) == (1, "", "tilt-data: tilt: 58 state of another query\n")
    assert tree(tmp_path / "s") == before


@pytest.mark.parametrize(
    "name, what", [("query.tilt", "an earlier version of `follow` began it, and can end it"), ("mine", "`follow` didn't begin it")]
)
def test_a_folder_of_others_is_left_alone(tilt, live, tmp_path, name, what):
    simple(tmp_path)
    (tmp_path / "s").mkdir()
    (tmp_path / "s" / name).write_text("mine")
    told = f"tilt-data: s: it isn't empty, and {what}: name another folder by --state\n"
    assert followed(tmp_path, "x,0,3,1\n") == (1, "", told)
    assert tree(tmp_path / "s") == {name: b"mine"}


def test_one_call_at_a_time_has_a_folder(tilt, live, tmp_path):
    simple(tmp_path)
    held = follow(tmp_path, "--state", "s")
    wait_for(lambda: (tmp_path / "s" / "state").exists())
    assert "another `tilt-data follow` works in this folder" in followed(tmp_path, "")[2]
    assert done(held)[0] == 0


@pytest.mark.parametrize("change", ["moved", "shortened", "lengthened"])
def test_an_output_that_was_changed(tilt, live, tmp_path, change):
    simple(tmp_path)
    assert followed(tmp_path, "".join(LINES[:30]), "--quiet")[0] == 0
    path = tmp_path / "s" / "output.csv"
    whole = path.read_bytes()
    path.unlink() if change == "moved" else path.write_bytes(whole[:20] if change == "shortened" else whole + b"mine\n")
    if change != "lengthened":
        assert followed(tmp_path, "") == (1, "", "tilt-data: tilt: 62 output too short: s\n")
        path.write_bytes(whole)
    # What is behind the last commit is cut off.
    assert followed(tmp_path, "".join(LINES[30:]), "--end", "--quiet") == (0, "", "")
    assert output(tmp_path) == ROWS


@pytest.mark.parametrize("name", ["state", "feed.0"])
def test_a_folder_that_was_changed_is_rejected(tilt, live, tmp_path, name):
    simple(tmp_path)
    assert followed(tmp_path, "".join(LINES[:30]), "--quiet")[0] == 0
    path = tmp_path / "s" / name
    whole = path.read_bytes()
    path.write_bytes(whole[:-5])
    what = "tilt: 55 bad state" if name == "state" else "s/feed.0: it was moved away or cut: put it back as it was, or name another --state"
    status, out, err = followed(tmp_path, "")
    assert (status, out) == (1, "") and err.startswith(f"tilt-data: {what}")
    path.write_bytes(whole)
    assert followed(tmp_path, "".join(LINES[30:]), "--end", "--quiet") == (0, "", "") and output(tmp_path) == ROWS


def test_a_feed_that_has_no_room_is_told_and_nothing_is_lost(tilt, live, tmp_path):
    lines, wanted = lay_out(tmp_path)
    (tmp_path / "log").write_text("".join(lines))
    assert len("".join(lines)) > 5 * 4000
    full = subprocess.run(
        [*COMMAND, "--log", "log", *bounds_for(tmp_path / "q")],
        cwd=tmp_path,
        env={**BEGUN, "PYTHONDONTWRITEBYTECODE": "1"},
        capture_output=True,
        preexec_fn=lambda: resource.setrlimit(resource.RLIMIT_FSIZE, (4000, 4000)),
    )
    assert (full.returncode, full.stdout, full.stderr) == (1, b"", b"tilt-data: s/feed.0: it can't be written: File too large\n")
    assert followed(tmp_path, "", "--log", "log", "--end") == (0, wanted, "")


def test_a_closed_input_is_reported(tilt, live, tmp_path):
    simple(tmp_path)
    found = subprocess.run(["sh", "-c", '"$@" <&-', "sh", *COMMAND], cwd=tmp_path, env=BEGUN, capture_output=True)
    assert (found.returncode, found.stdout) == (1, b"") and found.stderr == b"tilt-data: standard input: it can't be read: it is closed\n"


def test_warnings_never_go_to_standard_output(tilt, live, tmp_path):
    simple(tmp_path)
    closed = ["sh", "-c", '"$@" 2>&-', "sh", *COMMAND, "--skip-bad", "--end"]
    found = subprocess.run(closed, cwd=tmp_path, env=BEGUN, input=b"x,0,3,1\nx,5,5,1\n", capture_output=True)
    assert (found.returncode, found.stdout) == (0, b"start,end,value\n0,3,1\n")


# A broker


def program(name: str) -> str:
    found = shutil.which(name) or shutil.which(name, path="/usr/sbin:/usr/bin")
    if found is None:
        pytest.skip(f"{name} is missing")
    return found


def free_port() -> int:
    with socket.socket() as one:
        one.bind(("127.0.0.1", 0))
        return one.getsockname()[1]


def test_a_broker(tilt, live, tmp_path):
    broker, subscribe, publish = map(program, ("mosquitto", "mosquitto_sub", "mosquitto_pub"))
    lines, wanted = lay_out(tmp_path)
    port = str(free_port())
    (tmp_path / "conf").write_text(f"listener {port} 127.0.0.1\nallow_anonymous true\nmax_queued_messages 0\n")
    quiet = {"stdout": subprocess.DEVNULL, "stderr": subprocess.DEVNULL}
    at = ["-h", "127.0.0.1", "-p", port, "-t", "readings", "-q", "1"]
    begun = [subprocess.Popen([broker, "-c", str(tmp_path / "conf")], **quiet)]
    try:
        wait_for(lambda: subprocess.run([publish, *at[:4], "-t", "other", "-m", "x"], **quiet).returncode == 0)
        # The subscriber puts what comes to a file, which is followed: nothing is lost where the follower is killed.
        with open(tmp_path / "log", "ab") as log:
            begun.append(subprocess.Popen([subscribe, *at, "-i", "follower", "-c", "-C", str(len(lines))], stdout=log))
        time.sleep(0.5)
        source = subprocess.Popen([publish, *at, "-l"], stdin=subprocess.PIPE, **quiet)
        begun.append(source)
        for part in range(10):
            process = follow(tmp_path, "--state", "s", "--log", "log", "--quiet", stderr=None)
            begun.append(process)
            source.stdin.write("".join(lines[part * len(lines) // 10 : (part + 1) * len(lines) // 10]).encode())
            source.stdin.flush()
            time.sleep(0.2)
            process.kill()
            process.wait()
        source.stdin.close()
        assert source.wait(60) == 0 and begun[1].wait(60) == 0
        status, _, err = followed(tmp_path, "", "--log", "log", "--end", "--quiet")
        assert (status, err) == (0, "") and (tmp_path / "log").read_text() == "".join(lines) and output(tmp_path) == wanted
    finally:
        for process in begun:
            process.kill()
            process.wait()


def test_each_row_is_published(tilt, live, tmp_path):
    """At least once, if the command is killed, alone or with its programs."""
    broker, subscribe, publish = map(program, ("mosquitto", "mosquitto_sub", "mosquitto_pub"))
    lines, wanted = lay_out(tmp_path)
    draws, port = random.Random(6), str(free_port())
    (tmp_path / "conf").write_text(f"listener {port} 127.0.0.1\nallow_anonymous true\nmax_queued_messages 0\n")
    quiet = {"stdout": subprocess.DEVNULL, "stderr": subprocess.DEVNULL}
    url = f"mqtt://127.0.0.1:{port}/"
    words = ["--state", "s", "--log", "log", "--quiet", "--mqtt", f"{url}rows"]
    begun = [subprocess.Popen([broker, "-c", str(tmp_path / "conf")], **quiet)]
    try:
        wait_for(lambda: subprocess.run([publish, "-L", f"{url}other", "-m", "x"], **quiet).returncode == 0)
        with open(tmp_path / "got", "ab") as got:
            begun.append(subprocess.Popen([subscribe, "-L", f"{url}rows", "-q", "1"], stdout=got))
        time.sleep(0.5)
        for part in range(10):
            with open(tmp_path / "log", "a") as log:
                log.write("".join(lines[part * len(lines) // 10 : (part + 1) * len(lines) // 10]))
            process = follow(tmp_path, *words, **quiet)
            begun.append(process)
            time.sleep(draws.uniform(0, 0.6))
            os.killpg(process.pid, signal.SIGKILL) if part % 2 else process.kill()
            process.wait()
        assert done(follow(tmp_path, *words, "--end"))[::2] == (0, "")
        assert output(tmp_path) == wanted and (tmp_path / "s" / "published").read_text() == str(len(wanted))
        rows = wanted.splitlines()[1:]
        wait_for(lambda: set((tmp_path / "got").read_text().splitlines()) == set(rows))
    finally:
        for process in begun:
            process.kill()
            process.wait()


def test_rows_that_no_broker_took_are_published_by_the_next_call(tilt, live, tmp_path):
    simple(tmp_path)
    (tmp_path / "mosquitto_pub").write_text('#!/bin/sh\n[ -e there ] || exit 5\necho "$@" > words; cat >> rows\n')
    (tmp_path / "mosquitto_pub").chmod(0o755)
    env = {**BEGUN, "PATH": f"{tmp_path}:{BEGUN['PATH']}"}

    def called(given: str) -> tuple[int, str, str]:
        pipes = {"stdin": subprocess.PIPE, "stdout": subprocess.PIPE, "stderr": subprocess.PIPE}
        return done(forked([*COMMAND[3:], *bounds_for(tmp_path / "q"), "--mqtt", "a/b"], env, cwd=tmp_path, **pipes), given)

    told = "tilt-data: mosquitto_pub ended with status 5, and is called again\n"
    told += "tilt-data: --mqtt: not all rows are published: the next call begins with those that aren't\n"
    status, out, err = called("".join(LINES[:3]))
    assert (status, out) == (1, "start,end,value\n0,1,0\n1,2,1\n2,3,2\n") and err.endswith(told)
    (tmp_path / "there").write_text("")
    assert called(LINES[3]) == (0, "3,4,3\n", "")
    assert (tmp_path / "rows").read_text() == "".join(line[2:] for line in LINES[:4])
    assert (tmp_path / "words").read_text() == "-t a/b -q 1 -l\n"
