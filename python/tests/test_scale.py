"""`tilt-data scale`: parts and keys joined are what one run prints, even if calls stop, workers are killed, files grow and disks fail."""
from __future__ import annotations

import concurrent.futures
import contextlib
import errno
import fcntl
import json
import os
import pathlib
import random
import re
import shutil
import signal
import subprocess
import sys
import textwrap
import threading
import time
from typing import Any, Callable, Iterator

import pytest
from conftest import PROGRAM, PYTHON, TOP, run_program
from queries import Draw
from workers import Cluster, before, wrapped

from tilt_data import Query, Refused, engine, parts, ranges, scale, tasks
from tilt_data.errors import TiltError
from tilt_data.files import keys_and_files, placed
from tilt_data.forms import fault_of
from tilt_data.parts import Domain, Part
from tilt_data.program import Called, Cancelled, Processes
from tilt_data.scaling import Plan, files_of
from tilt_data.tokens import tokens_of
from tilt_data.units import write_in_units

HEADER = "start,end,value\n"
FAR = 4 * 10**18
QUOTED = '"start","end","value"\n'


def text_of(rows) -> str:
    return HEADER + "".join(f"{s},{e},{'' if v is None else v}\n" for s, e, v in rows)


def series(seed: int, end: int, step: int, values: int = 1000, begin: int = 0) -> list[tuple[int, int, int | None]]:
    """Rows of random lengths, some of them null and some ticks without one; with few values many neighbours are equal."""
    draws = random.Random(seed)
    rows, at = [], begin
    while at < end:
        after = min(end, at + 1 + draws.randrange(step))
        if draws.random() < 0.85:
            rows.append((at, after, draws.randrange(values) if draws.random() < 0.95 else None))
        at = after
    return rows


def planned(query: str | os.PathLike[str] | Query, out: str = "out", **inputs: str | list[str]) -> Plan:
    query = query if isinstance(query, Query) else Query(query)
    return Plan(query, {name: [files] if isinstance(files, str) else files for name, files in inputs.items()}, out)


def tasks_at(plan: Plan, ticks: list[int], key: str = "") -> list[tasks.Task]:
    """The parts of a key where the domain is cut at these ticks."""
    return plan.tasks(key, plan.cut_at(ticks, len(ticks) + 1))


def made(plan: Plan, ticks: list[int]) -> str:
    """What the parts come to, by the functions of the workers, where the domain is cut at these ticks."""
    found = tasks_at(plan, ticks)
    for task in found:
        done = tasks.make_parts(plan.batch(task))
        assert (done.line, done.status, len(done.parts)) == ("", 0, 1)
    whole = plan.whole_file("")
    assert tasks.make_whole(tasks.Joining("", tuple((task.part, task.file) for task in found), whole)).status == 0
    return pathlib.Path(whole).read_text()


def even(plan: Plan, count: int) -> list[int]:
    """Ticks that part the rows evenly; where too many of them come to one place on the grid, grid points that part the domain."""
    met = [piece for files in plan.inputs("").values() for one in files for piece in pieces_of(one)]
    ticks, domain = ranges.ticks_by_rows(met, count), plan.domain
    steps = (domain.end - domain.start) // domain.period
    if len(domain.cuts(ticks)[0]) == count - 1:
        return ticks
    return [domain.start + at * steps // count * domain.period for at in range(1, count)]


def pieces_of(series: ranges.Series) -> list[ranges.Piece]:
    return ranges.pieces_of(ranges.Range(series, series.begin, series.end), 1, 1)


# Without the program: where a domain may be cut


@pytest.mark.parametrize(
    "text, ticks, cuts, moved",
    [
        ("emit 1 over (0, 10];", [1, 5, 9], [1, 5, 9], 0),
        ("emit 1 over (0, 10];", [-3, 0, 1, 10, 12], [1], 4),
        ("emit 1 over (0, 1];", [0, 1, 2], [], 3),
        ("emit 1 over (0, 20] every 5;", [1, 5, 6, 14, 16], [5, 10, 15], 4),
        ("emit 1 over (-7, 13] every 10 from 3;", [-7, -6, 3, 4], [3], 3),
        ("emit 1 over (-20, -5] every 5;", [-19, -11, -6], [-15, -10], 3),
        ("emit 1 over (-4000000000000000000, 4000000000000000000];", [1 - FAR, FAR - 1], [1 - FAR, FAR - 1], 0),
    ],
)
def test_where_a_domain_may_be_cut(text, ticks, cuts, moved):
    assert Domain.of(text).cuts(ticks) == (cuts, moved)


def test_the_parts_begin_a_step_before_their_cuts():
    assert Domain.of("emit 1 over (0, 10];").parts([1, 2, 9]) == [Part(1, 0, 1), Part(2, 0, 2), Part(3, 1, 9), Part(4, 8, 10)]
    assert Domain.of("emit 1 over (0, 20] every 5;").parts([5, 15]) == [Part(1, 0, 5), Part(2, 0, 15), Part(3, 10, 20)]


def test_the_query_of_a_part_is_the_query_with_its_bounds():
    text = "input over_;\r\nlet a = over_ over (0, 10];\n emit a[t-1]+0 over(\t- 7 ,0013 ]every 10 from 3;\n"
    assert Domain.of(text).query(-17, 3) == text.replace("- 7", "-17").replace("0013", "3")


def test_a_statement_that_can_take_no_minus_more():
    """256 tokens are all that a statement may have: a part that ends below 0 would need one more."""
    text = "emit 1" + " + 1" * 120 + " - --1 over (-40, 40] every 4;"
    assert len(tokens_of(text.encode())) == 256
    assert Domain.of(text).cut(-36) == 0 and Domain.of(text.replace("--1", "-1")).cut(-36) == -36
    assert Domain.of(text.replace("(-40", "(-42").replace("40]", "42]").replace("every 4", "every 3")).cut(-36) == 0


# Without the program: how parts are joined


def joined(folder: pathlib.Path, *texts: tuple[int, int, str]) -> str:
    """The whole of parts given by their stretches and their lines."""
    found = []
    for number, (start, end, lines) in enumerate(texts, 1):
        path = folder / f"{number}"
        path.write_text(HEADER + "".join(line + "\n" for line in lines.split()))
        found.append((Part(number, start, end), str(path)))
    with open(folder / "whole", "wb") as out:
        parts.join(found, out)
    return " ".join((folder / "whole").read_text().split()[1:])


@pytest.mark.parametrize(
    "texts, wanted",
    [
        # One snapshot over the cut; a mark at the cut; a mark at the tick before it, which is the first one of the later part.
        ([(0, 5, "0,3,7 3,5,8"), (4, 9, "4,6,8 6,9,1")], "0,3,7 3,6,8 6,9,1"),
        ([(0, 5, "0,5,7"), (4, 9, "4,5,7 5,9,7")], "0,5,7 5,9,7"),
        ([(0, 5, "0,4,7 4,5,7"), (4, 9, "4,9,7")], "0,4,7 4,9,7"),
        # Null at the cut: nothing stands there, and the rows beside it aren't touched, also where they are equal.
        ([(0, 5, "0,4,7"), (4, 9, "5,9,7")], "0,4,7 5,9,7"),
        ([(0, 5, ""), (4, 9, "")], ""),
        ([(0, 5, ""), (4, 9, "7,9,1")], "7,9,1"),
        ([(0, 5, "1,2,3"), (4, 9, "")], "1,2,3"),
        # One snapshot over all parts, and parts of one tick.
        ([(0, 2, "0,2,4"), (1, 3, "1,3,4"), (2, 4, "2,4,4"), (3, 9, "3,8,4")], "0,8,4"),
        ([(0, 1, "0,1,4"), (0, 2, "0,1,4 1,2,5"), (1, 3, "1,2,5 2,3,5")], "0,1,4 1,2,5 2,3,5"),
        # A grid of 5: the later part begins a step before the cut.
        ([(0, 10, "0,5,1 5,10,2"), (5, 20, "5,15,2 15,20,2")], "0,5,1 5,15,2 15,20,2"),
        ([(-10, -5, "-10,-5,-1"), (-10, 0, "-10,0,-1")], "-10,0,-1"),
    ],
)
def test_parts_are_joined(tmp_path, texts, wanted):
    assert joined(tmp_path, *texts) == wanted


@pytest.mark.parametrize(
    "texts",
    [
        [(0, 5, "0,5,7"), (4, 9, "5,9,7")],
        [(0, 5, "0,4,7"), (4, 9, "4,9,7")],
        [(0, 5, "0,5,7"), (4, 9, "4,9,8")],
        [(0, 5, "0,5,7"), (4, 9, "")],
    ],
)
def test_parts_that_do_not_fit_are_refused(tmp_path, texts):
    with pytest.raises(Refused, match="doesn't fit to the one before it, at 4"):
        joined(tmp_path, *texts)


def test_long_parts_are_joined(tmp_path):
    rows = series(5, 60000, 3)
    rows = [row for row in rows if row[2] is not None]
    before = [row for row in rows if row[0] < 30000]
    cut = before[-1][1] - (before[-1][1] - before[-1][0]) // 2
    first = [(s, min(e, cut), v) for s, e, v in rows if s < cut]
    later = [(max(s, cut - 1), e, v) for s, e, v in rows if e > cut - 1]
    lines = [" ".join(f"{s},{e},{v}" for s, e, v in some) for some in (first, later, rows)]
    assert joined(tmp_path, (0, cut, lines[0]), (cut - 1, 60000, lines[1])) == lines[2]


# Without the program: where the rows of a stretch are


def rows_in_stretch(rows, low: int, high: int):
    return [row for row in rows if row[1] > low and row[0] < high]


def known(path: pathlib.Path) -> ranges.Series:
    """What is known of a file with rows; its plain copy, if it has one, is in `plain` beside it."""
    found = ranges.series_of(str(path), str(path.parent / "plain"))
    assert found is not None
    return found


def read_back(series: ranges.Series, low: int, high: int) -> str:
    """The rows of a stretch as they are handed to the program."""
    its = ranges.meeting([series], low, high)
    stretch = tasks.Stretch("x", low, high, its)
    found = tasks.ranges_of(stretch, os.path.join(os.path.dirname(series.path), "plain"), Processes())
    if tasks.is_whole(found):
        return pathlib.Path(series.file).read_bytes().decode("utf-8-sig").replace("\r", "")
    with tasks.Feeds() as feeds:
        return pathlib.Path(feeds.begin(found)).read_bytes().decode().replace("\r", "")


def test_only_the_rows_of_a_stretch_are_read(tmp_path, monkeypatch):
    rows = series(1, 20000, 7)
    path = tmp_path / "x.csv"
    path.write_text(text_of(rows))
    found = known(path)
    assert (found.first, found.last, found.file) == (rows[0][:2], rows[-1][:2], str(path))
    assert (found.begin, found.end) == (len(HEADER), os.path.getsize(path)) and abs(found.width * len(rows) / found.end - 1) < 0.1
    read, pread = [], os.pread
    monkeypatch.setattr(os, "pread", lambda handle, count, at: read.append(count) or pread(handle, count, at))
    draws = random.Random(2)
    for _ in range(100):
        low = draws.randrange(-50, 20050)
        high = low + 1 + draws.randrange(draws.choice([2, 500, 20000]))
        assert read_back(found, low, high) == text_of(rows_in_stretch(rows, low, high))
        # Each end is found by halving.
        assert sum(read) < 2 * 20 * ranges.LINE
        read.clear()


@pytest.mark.parametrize(
    "text, rows",
    [
        (HEADER + "0,5,7\n6,8,9", [(0, 5, 7), (6, 8, 9)]),
        ("\ufeffstart,end,value\r\n0,5,7\r\n\r\n6,8,\r\n", [(0, 5, 7), (6, 8, None)]),
        ('"start","end","value"\n0,"5",7\n', [(0, 5, 7)]),
        ("start,end,value\r0,5,7\r6,8,9\r", [(0, 5, 7), (6, 8, 9)]),
        (HEADER + "0,5,7\r6,8,9\n\n\n", [(0, 5, 7), (6, 8, 9)]),
        (HEADER + '0,5,7\n"6",8,9\n9,12,1\n', [(0, 5, 7), (6, 8, 9), (9, 12, 1)]),
        (HEADER + "0,5,7\n" + "\n" * 5000 + "6,8,9\n" + "\r\n" * 9000, [(0, 5, 7), (6, 8, 9)]),
        (HEADER + "0," + "0" * 300 + "5,7\n6,8,9\n", [(0, 5, 7), (6, 8, 9)]),
        (HEADER + "\n\n+0,005,-7\n", [(0, 5, -7)]),
        ("\n" + HEADER + "0,5,7\n", [(0, 5, 7)]),
    ],
    ids=range(10),
)
def test_files_as_spreadsheets_write_them(tmp_path, text, rows):
    path = tmp_path / "x.csv"
    path.write_bytes(text.encode())
    found = known(path)
    for low, high in [(-10, 20), *((low, high) for low in range(-1, 13) for high in range(low + 1, 14))]:
        lines = read_back(found, low, high).replace('"', "").split()
        assert [tuple(int(field) if field else None for field in line.split(",")) for line in lines[1:]] == rows_in_stretch(rows, low, high)


@pytest.mark.parametrize("text", [HEADER, HEADER.rstrip(), "\ufeff" + HEADER + "\r\n\n", QUOTED, "start,end,value\r"])
def test_files_without_rows(tmp_path, text):
    (tmp_path / "x.csv").write_text(text)
    assert ranges.series_of(str(tmp_path / "x.csv"), str(tmp_path / "plain")) is None


@pytest.mark.parametrize(
    "text, told",
    [
        ("start,end\n0,5\n", "x.csv:1: the header"),
        (HEADER + "0,5,7\n4,8,9.5\n", "x.csv:3: a row"),
        (HEADER + "0,5\n", "x.csv:2: a row"),
        (HEADER + "\n0,5,7\n9\n", "x.csv:4: a row"),
        (HEADER + "7,9,1\n0,5,1\n", "x.csv:3: rows in order"),
        (HEADER + "".join(f"{at},{at + 1},7\n" for at in [*range(1000, 1060), *range(60)]), "x.csv:62: rows in order"),
    ],
    ids=range(6),
)
def test_files_that_are_no_series(tmp_path, text, told):
    path = tmp_path / "x.csv"
    path.write_text(text)
    with pytest.raises(Refused, match=told):
        known(path)


def test_rows_that_are_out_of_order_are_rejected(here):
    """As where files were put together in a wrong order: whatever stretch is read, none of the rows that it needs is left out silently."""
    blocks_of_rows = [[(at, at + 1, at) for at in range(begin, begin + 1000)] for begin in (0, 2000, 1000, 3000)]
    path = here / "x.csv"
    path.write_text(text_of([row for some in blocks_of_rows for row in some]))
    for end in range(500, 4000, 500):
        for part_rows in (300, 10**6):
            with pytest.raises(Refused, match="x.csv:2002: rows in order were expected|tilt: 15 series x: "):
                scale(f"input x; emit x over (0, {end}];", {"x": "x.csv"}, f"out{end}", workers=1, part_rows=part_rows)
            if end < 2000:
                break


def test_between_two_parts_no_row_is_left_out(tmp_path):
    """Whatever the order of the rows is: so one of the parts has each, and its program rejects those that are out of order."""
    draws = random.Random(4)
    for number in range(20):
        ticks = list(range(100))
        for _ in range(number):
            at, to = draws.randrange(1, 99), draws.randrange(1, 99)
            ticks[at], ticks[to] = ticks[to], ticks[at]
        path = tmp_path / f"{number}.csv"
        path.write_text(text_of([(at * 3, at * 3 + draws.randrange(1, 4), at) for at in ticks]))
        found = known(path)
        for low in range(draws.randrange(5), 300, 5):
            high = low + draws.choice([1, 2, 5, 40])
            before, after = ranges.range_of(found, -1, high), ranges.range_of(found, low, 400)
            assert before.begin == found.begin and after.end == found.end and after.begin <= before.end


def settled(path: pathlib.Path, text: str) -> str:
    """Writes a file, and waits until no change of it can be missed."""
    path.write_text(text)
    assert ranges.settled_stamp(str(path)) == ranges.stamp_of(str(path))
    return str(path)


def test_a_stamp_is_settled_once_another_change_gives_other_times():
    fine, coarse = 10**18 + 7, 10**18
    assert [ranges.is_settled((1, 0, fine, 1), fine + more) for more in (0, ranges.FINE - 1, ranges.FINE)] == [False, False, True]
    assert [ranges.is_settled((1, 0, coarse, 1), coarse + more) for more in (ranges.FINE, ranges.COARSE - 1, ranges.COARSE)] == [
        False,
        False,
        True,
    ]


def test_a_file_that_was_written_now_settles_and_one_of_the_future_does_not(tmp_path, monkeypatch):
    path = tmp_path / "x.csv"
    path.write_text("")
    stamp = ranges.settled_stamp(str(path))
    assert stamp == ranges.stamp_of(str(path)) and ranges.is_settled(stamp, time.time_ns())
    monkeypatch.setattr(time, "time_ns", lambda: stamp[2] - 1)
    monkeypatch.setattr(time, "sleep", lambda _: None)
    with pytest.raises(Refused, match="x.csv: it is written to, or the clock of its file system is ahead"):
        ranges.settled_stamp(str(path))


def write_over(path: pathlib.Path, text: str, times: tuple[int, int]) -> None:
    """Writes a text over a file as `cp -p` does, with these times, in a later tick of the file system's clock."""
    before = path.stat().st_ctime_ns
    while path.stat().st_ctime_ns == before:
        path.write_text(text)
        os.utime(path, ns=times)


@pytest.mark.parametrize("replace", [False, True])
def test_a_file_of_the_same_size_and_time_is_noticed(tmp_path, replace):
    path, times = tmp_path / "x.csv", (10**18, 10**18)
    path.write_text(HEADER + "0,5,3\n")
    os.utime(path, ns=times)
    found = known(path)
    ranges.check_stamp(found)
    if replace:
        other = tmp_path / "other"
        write_over(path, HEADER + "0,5,3\n", times)
        other.write_text(HEADER + "0,5,9\n")
        os.utime(other, ns=times)
        os.replace(other, path)
    else:
        write_over(path, HEADER + "0,5,9\n", times)
    assert (path.stat().st_size, path.stat().st_mtime_ns) == (len(HEADER) + 6, 10**18)
    with pytest.raises(Refused, match="x.csv: it was changed while the call ran: call again"):
        ranges.check_stamp(found)


@pytest.mark.parametrize(
    "line, times",
    [
        (b"0,5,7", (0, 5)),
        (b"+0,005,-7\n", (0, 5)),
        (b"-3,5,\r\n", (-3, 5)),
        (b"-4000000000000000000,4000000000000000000,", (-FAR, FAR)),
        (b"5,5,7", None),
        (b"1_0,20,7", None),
        (b" 0,5,7", None),
        (b"0,5 ,7", None),
        (b"0,5,7 \n", None),
        (b"0,5,1_0", None),
        ("0,\uff15,7".encode(), None),
        ("\u0660,5,7".encode(), None),
        (b"0,5", None),
        (b"0,5,7,", None),
        (b",5,7", None),
        (b"0,5,+", None),
        (b"0,5,--7", None),
        (b"0,5,7.0", None),
        (b"0,5,7\r\r\n", None),
        (b"0,5,7\n\n", None),
        (b"0,4000000000000000001,7", None),
        (b"-4000000000000000001,0,7", None),
        (b"", None),
    ],
)
def test_rows_are_parsed_as_the_program_does(line, times):
    assert ranges.times_of(line) == times


def test_a_file_that_is_not_plain_is_copied_once(tmp_path):
    path, folder = tmp_path / "x.csv", str(tmp_path / "plain")
    path.write_text(QUOTED + "0,5,7\n")
    found = known(path)
    assert found.file.startswith(folder) and pathlib.Path(found.file).read_text() == HEADER + "0,5,7\n"
    stamp = os.stat(found.file)
    assert known(path) == found and os.stat(found.file) == stamp
    # One of the file as it was goes away.
    settled(path, QUOTED + "0,5,8\n")
    assert pathlib.Path(known(path).file).read_text() == HEADER + "0,5,8\n" and len(os.listdir(folder)) == 1
    # It may turn out late that a file isn't plain.
    settled(path, HEADER + "0,1,1\n" * 1 + "".join(f'{at},"{at + 1}",1\n' for at in range(1, 2000)) + "2000,2001,1\n")
    found = known(path)
    assert found.file == str(path) and read_back(found, 700, 702) == HEADER + "700,701,1\n701,702,1\n"
    with pytest.raises(ranges.NotPlain):
        ranges.range_of(found, 700, 702)


def test_a_full_disk_is_no_fault_of_a_series_that_is_written_plainly(tmp_path, monkeypatch):
    @contextlib.contextmanager
    def full(path, lasting=True):
        with open("/dev/full", "wb", buffering=0) as file:
            yield file

    path = tmp_path / "x.csv"
    path.write_text(QUOTED + "0,5,7\n")
    with monkeypatch.context() as patched:
        patched.setattr(ranges, "placed", full)
        # A task that ends by an error is begun again; a refusal is told at once.
        with pytest.raises(OSError) as caught:
            known(path)
        assert caught.value.errno == errno.ENOSPC
    assert read_back(known(path), 0, 5) == HEADER + "0,5,7\n"
    path.write_text(QUOTED + "0,5,7\n5,6\n")
    with pytest.raises(Refused, match="x.csv:3: a row start,end,value"):
        known(path)


def test_files_of_an_input_do_not_overlap(tmp_path):
    found = []
    for name, begin in (("b", 100), ("a", 0), ("c", 250)):
        (tmp_path / name).write_text(text_of(series(3, begin + 150, 5, begin=begin)))
        found.append(known(tmp_path / name))
    assert [os.path.basename(one.path) for one in ranges.in_order([found[2], found[0]])] == ["b", "c"]
    with pytest.raises(Refused, match="b: its rows begin at 1.., before those of .*a end"):
        ranges.in_order(found)


def test_cuts_are_chosen_by_rows_and_gaps_cost_nothing(tmp_path):
    rows = series(1, 5000, 2) + [(s + 10**15, e + 10**15, v) for s, e, v in series(2, 5000, 2)] + [(4 * 10**18 - 1, 4 * 10**18, 5)]
    (tmp_path / "x").write_text(text_of(rows))
    ticks = ranges.ticks_by_rows(pieces_of(known(tmp_path / "x")), 10)
    sizes = [len([row for row in rows if low <= row[0] < high]) for low, high in zip([0, *ticks], [*ticks, 5 * 10**18])]
    assert len(sizes) == 10 and ticks == sorted(ticks) and max(sizes) < 1.25 * len(rows) / 10 and min(sizes) > 0.75 * len(rows) / 10


def test_files_by_key_by_day_and_by_both(tmp_path, monkeypatch):
    monkeypatch.chdir(tmp_path)
    for name in ("n/2.csv", "n/1.csv", "s/1.csv", "s/10.csv", "s/x.txt", "n_n.csv", "n_s.csv", "[1].csv"):
        pathlib.Path(name).parent.mkdir(exist_ok=True)
        pathlib.Path(name).write_text("")

    def short(pattern: str) -> dict[str | None, list[str]]:
        return {key: [os.path.relpath(path) for path in paths] for key, paths in keys_and_files(pattern).items()}

    assert short("{key}/*.csv") == {"n": ["n/1.csv", "n/2.csv"], "s": ["s/1.csv", "s/10.csv"]}
    assert short("{key}/?.csv") == {"n": ["n/1.csv", "n/2.csv"], "s": ["s/1.csv"]}
    assert short("n/*.csv") == {None: ["n/1.csv", "n/2.csv"]} and short("[1].csv") == {None: ["[1].csv"]}
    assert short("{key}_{key}.csv") == {"n": ["n_n.csv"]} and short("no/{key}.csv") == {}
    files = files_of({"u": ["n_n.csv"], "x": ["n/1.csv", "{key}/?.csv", "{key}_n.csv"], "y": ["{key}/*.csv"]})
    assert list(files) == ["n", "s"] and [os.path.relpath(path) for path in files["n"]["x"]] == ["n/1.csv", "n/2.csv", "n_n.csv"]
    assert [os.path.relpath(path) for path in files["s"]["y"]] == ["s/1.csv", "s/10.csv"] and files["s"]["u"] == files["n"]["u"]
    with pytest.raises(Refused, match="the key s has no file of y"):
        files_of({"x": ["{key}/*.csv"], "y": ["{key}_n.csv"]})


# Without Dask


@pytest.mark.parametrize("package", ["dask", "distributed"])
def test_a_scheduler_without_dask(told, tilt, monkeypatch, package):
    monkeypatch.setitem(sys.modules, package, None)
    pathlib.Path("q").write_text("emit 1 over (0, 10];")
    status, out, err = told("scale", "q", "--out", "out", "--scheduler", "tcp://127.0.0.1:1")
    assert (status, out) == (1, "") and err.startswith(f"tilt-data: python3-{package} isn't installed, which --scheduler needs")
    assert "apt-get install python3-dask python3-distributed" in err and not os.path.exists("out")


# Ends a Python process with status 99 when it makes a socket, however it does so. The parent sees what was loaded at the end.
NO_SOCKETS = """
import atexit, os, sys
sys.addaudithook(lambda event, _: os._exit(99) if event == "socket.__new__" else None)
atexit.register(lambda: print(*sorted({"dask", "distributed"} & set(sys.modules))))
"""


def without_sockets(folder: pathlib.Path, *words: str) -> subprocess.CompletedProcess[str]:
    """Runs Python so that it can open no socket."""
    (folder / "site").mkdir(exist_ok=True)
    (folder / "site" / "sitecustomize.py").write_text(NO_SOCKETS)
    environment = {**os.environ, "PYTHONPATH": f"{folder / 'site'}{os.pathsep}{PYTHON}"}
    return subprocess.run([sys.executable, *words], env=environment, capture_output=True, text=True)


def test_on_this_machine_there_is_no_socket_and_no_dask(here):
    """A socket could let other users of the machine run code as the caller."""
    wanted = fleet(here, keys=2)
    done = without_sockets(here, "-m", "tilt_data", "scale", "q", *BINDS, "--out", "out", "--workers", "3", "--part-rows", "700")
    assert (done.returncode, done.stdout) == (0, "\n"), done.stderr
    assert {path.stem.replace("%2F", "/"): path.read_text() for path in pathlib.Path("out").glob("*.csv")} == wanted
    # What is watched for would be seen.
    assert without_sockets(here, "-c", "import socket; socket.socket()").returncode == 99
    assert without_sockets(here, "-c", "import socket; socket.socketpair()").returncode == 99


def test_with_a_scheduler_dask_is_loaded(here, dask):
    assert without_sockets(here, "-c", "from tilt_data import engine; engine.imported()").stdout == "dask distributed\n"


def test_a_command_loads_only_what_it_needs():
    words = "import sys, tilt_data.cli; tilt_data.cli.parser_of('scale'); print(*sorted(sys.modules))"
    done = subprocess.run([sys.executable, "-c", words], env={"PYTHONPATH": str(PYTHON)}, capture_output=True, text=True, check=True)
    assert "tilt_data.scaling" in done.stdout.split()
    others = {"socket", "tomllib", "pandas", *(f"tilt_data.{name}" for name in ("by", "follow", "plotting", "serve", "series", "view"))}
    assert not others & set(done.stdout.split())


def test_the_core_needs_no_dask():
    words = (
        "import sys; sys.modules['dask'] = sys.modules['distributed'] = None; import tilt_data.cli; tilt_data.cli.parser_of(); "
        "print(len(tilt_data.cli.COMMANDS))"
    )
    done = subprocess.run([sys.executable, "-c", words], env={"PYTHONPATH": str(PYTHON)}, capture_output=True, text=True)
    assert done.returncode == 0 and int(done.stdout) > 5, done.stderr


# With the program, by the functions of the workers


def in_1_to_20_parts(query: pathlib.Path) -> set[int]:
    """Holds the parts of an example to its one run, at each number of parts up to 20 or as many as its grid has; the numbers of parts."""
    names = Query(query).inputs
    files = {name: str(query.parent / f"{name}.csv") for name in names}
    os.makedirs(query.stem)
    wanted = run_program(str(PROGRAM), query.read_text(), *(f"{name}={file}" for name, file in files.items()), folder=query.stem)
    plan = planned(query, query.stem, **files)
    most = min(20, (plan.domain.end - plan.domain.start) // plan.domain.period)
    counts = set()
    for count in range(1, most + 1):
        ticks = even(plan, count)
        assert made(plan, ticks) == wanted
        counts.add(len(plan.cut_at(ticks, count)))
    assert counts == set(range(1, most + 1))
    return counts


@pytest.mark.parametrize("name", ["sensors", "trading", "clinical"])
def test_the_examples_in_1_to_20_parts(here, name):
    queries = sorted((TOP / "examples" / name).glob("*.tilt"))
    with concurrent.futures.ThreadPoolExecutor(2) as pool:
        assert set(range(1, 21)) in list(pool.map(in_1_to_20_parts, queries)) and len(queries) > 2


class Small(Draw):
    """Queries that look not far, over a small domain, with grids and spans that are mostly taken."""

    def offset(self) -> str:
        return self.one("t", "t", f"t-{self.draws.randrange(9)}", f"t+{self.draws.randrange(5)}")

    def domain(self, needed: bool) -> str:
        period = self.one(2, 3, 5, 7) if self.draws.random() < 0.4 else 1
        offset = self.draws.randrange(period)
        text = ""
        if needed or self.draws.random() < 0.4:
            low = self.draws.randrange(-8, 4) if needed else self.draws.randrange(60)
            high = low + 1 + (self.draws.randrange(20, 100) if needed else self.draws.randrange(40))
            text += f" over ({low * period + offset if period > 1 else low}, {high * period + offset if period > 1 else high}]"
        return text + (f" every {period}{f' from {offset}' if offset else ''}" if period > 1 else "")


def small_query(draw: Small) -> str:
    """A query that the program takes."""
    while True:
        text = draw.query()
        if fault_of(text.encode()) is None:
            return text


def laid_out(seed: int, folder: pathlib.Path) -> tuple[Small, Query, dict[str, str]]:
    """A random query, and files with random rows for its inputs."""
    draw = Small(seed)
    draws = draw.draws
    folder.mkdir()
    query, files = Query(small_query(draw)), {}
    for name in query.inputs:
        rows = series(draws.randrange(10**6), 150, draws.choice([2, 5, 30]), draws.choice([1, 2, 50]), -20)
        (folder / f"{name}.csv").write_text(text_of(rows))
        files[name] = str(folder / f"{name}.csv")
    return draw, query, files


def compare(folder: pathlib.Path, draw: Small, query: Query, files: dict[str, str]) -> set[str]:
    """Cuts a random query over random rows at random ticks, and holds it to one run; what there was to see."""
    draws, text = draw.draws, query.text
    wanted = run_program(str(PROGRAM), text, *(f"{name}={file}" for name, file in files.items()), folder=str(folder))
    plan = planned(query, out=str(folder / "out"), **files)
    domain = plan.domain
    dense = draws.random() < 0.3
    ticks = sorted({draws.randrange(domain.start - 1, domain.end + 2) for _ in range(1 + draws.randrange(12 if dense else 4))})
    if dense:
        ticks = sorted({tick + more for tick in ticks[:3] for more in range(4)})
    # One that stands where a snapshot of the whole ends, so that marks at joints are met.
    lines = [line.split(",") for line in wanted.splitlines()[1:]]
    ticks = sorted({*ticks, int(draws.choice(lines)[1])}) if lines else ticks
    assert made(plan, ticks) == wanted, (folder.name, text, ticks)
    return seen(plan, text, lines, set(plan.domain.cuts(ticks)[0]))


def seen(plan: Plan, text: str, rows: list[list[str]], cuts: set[int]) -> set[str]:
    found = {"cut"} if cuts else set()
    found |= {"grid"} if plan.domain.period > 1 else set()
    ahead = any(need is not None and need[1] >= plan.domain.period for need in plan.needs.values())
    found |= {"ahead"} if ahead and cuts else set()
    found |= {"span"} if "over" in text.rpartition("emit")[0] and cuts else set()
    for (_, end, value), (start, _, other) in zip(rows, rows[1:]):
        found |= {"equal neighbours"} if end == start and value == other and int(end) in cuts else set()
    for start, end, _ in rows:
        found |= {"over a cut"} if any(int(start) < cut < int(end) for cut in cuts) else set()
        found |= {"over two cuts"} if sum(int(start) < cut < int(end) for cut in cuts) > 1 else set()
    covered = [cut for cut in cuts if any(int(start) < cut <= int(end) for start, end, _ in rows)]
    found |= {"null at a cut"} if rows and len(covered) < len(cuts) else set()
    found |= {"parts of one step"} if any(cut + plan.domain.period in cuts for cut in cuts) else set()
    return found


def test_500_random_queries(here):
    with concurrent.futures.ThreadPoolExecutor(2) as pool:
        # All files are there before the first is looked at, so that nobody waits until it is settled.
        its = list(pool.map(lambda seed: (here / str(seed), *laid_out(seed, here / str(seed))), range(500)))
        found = list(pool.map(lambda one: compare(*one), its))
    counts = {what: sum(what in some for some in found) for what in sorted(set().union(*found))}
    assert set(counts) == {
        "cut",
        "grid",
        "ahead",
        "span",
        "equal neighbours",
        "over a cut",
        "over two cuts",
        "null at a cut",
        "parts of one step",
    }
    assert counts["cut"] > 450 and min(counts.values()) >= 25, counts


@pytest.mark.parametrize(
    "query",
    [
        "emit 5 over (0, 10];",
        "input x; emit ifnull(x, 7) over (-4000000000000000000, 4000000000000000000];",
        "input x; emit 1 over (0, 10];",
        "input x; let g = count(x[t-5:t+5]) over (0, 5]; emit ifnull(g, 0) over (0, 10];",
    ],
)
def test_queries_whose_output_rests_on_no_rows(here, query):
    pathlib.Path("x.csv").write_text(HEADER)
    files = {"x": "x.csv"} if "input" in query else {}
    plan = planned(query, **files)
    assert plan.cut("", 10) == [Part(1, plan.domain.start, plan.domain.end)]
    assert made(plan, [3, 4, 5, 9]) == run_program(str(PROGRAM), query, *(f"{name}={file}" for name, file in files.items()))


def handed(plan: Plan, task: tasks.Task, monkeypatch) -> dict[str, tuple[str, str]]:
    """The file of each input that the program gets for a part, and its text."""
    found = {}

    def call(_: Processes, words: list[str], out: int, handed: list[int]) -> Called:
        for word in words[2:]:
            name, _, path = word.partition("=")
            found[name] = path, pathlib.Path(path).read_text()
        return Called(0, "")

    with monkeypatch.context() as patched:
        patched.setattr(Processes, "call", call)
        assert tasks.make_parts(plan.batch(task)).status == 0
    return found


def test_a_part_reads_only_the_rows_that_it_needs(here, monkeypatch):
    rows = series(1, 40000, 5)
    pathlib.Path("x.csv").write_text(text_of(rows))
    plan = planned("input x; input u; let m = max(x[t-30:t-10]); emit x[t+7] - m over (0, 40000];", x="x.csv", u="x.csv")
    middle = tasks_at(plan, [20000, 20100])[1]
    x, u = middle.inputs
    assert (x.low, x.high) == (20000 - 1 - 29, 20100 + 7) and not u.files
    wanted = rows_in_stretch(rows, x.low, x.high)
    found = handed(plan, middle, monkeypatch)
    assert found["x"][1] == text_of(wanted) and len(wanted) < 60 and found["u"][1] == HEADER


def test_a_file_of_which_all_rows_are_needed_is_an_argument_itself(here, monkeypatch):
    rows = series(1, 30000, 5)
    pathlib.Path("x.csv").write_text(text_of(rows))
    plan = planned("input x; emit x over (0, 30000];", x="x.csv")
    assert handed(plan, tasks_at(plan, [])[0], monkeypatch) == {"x": (f"{here}/x.csv", text_of(rows))}
    # A part of the rows is copied.
    plan = planned("input x; emit x over (0, 100];", x="x.csv")
    path, text = handed(plan, tasks_at(plan, [])[0], monkeypatch)["x"]
    assert path != f"{here}/x.csv" and text == text_of(rows_in_stretch(rows, 0, 100))


def test_files_of_an_input_are_joined(here, monkeypatch):
    """One of them has no end of line at its end, and one no rows."""
    rows = series(1, 300, 5)
    for name, low, high in (("a", 0, 100), ("b", 100, 200), ("c", 200, 300)):
        pathlib.Path(f"{name}.csv").write_text(text_of([row for row in rows if low <= row[0] < high]).rstrip())
    pathlib.Path("d.csv").write_text(HEADER)
    plan = planned("input x; emit x over (20, 280];", x=["c.csv", "a.csv", "d.csv", "b.csv"])
    assert handed(plan, tasks_at(plan, [])[0], monkeypatch)["x"][1] == text_of(rows_in_stretch(rows, 20, 280))


def test_the_name_of_a_part_tells_query_rows_and_program(here, monkeypatch):
    pathlib.Path("x.csv").write_text(text_of(series(1, 40000, 5)))
    paths = ["x.csv"]

    def files(query: str) -> list[str]:
        plan = planned(query, x=paths)
        return [task.file for task in tasks_at(plan, [10000, 20000, 30000])]

    pathlib.Path("y.csv").write_text(text_of(series(1, 50000, 5, begin=40000)))
    query = "input x; emit sum(x[t-100:t]) over (0, 40000];"
    before = files(query)
    assert files(query) == before and len(set(before)) == 4
    # A longer domain leaves the names of the parts before its last cut, other files those that don't rest on them.
    assert files(query.replace("40000", "50000"))[:3] == before[:3]
    assert not set(files(query.replace("100", "99"))) & set(before)
    paths.append("y.csv")
    assert files(query) == before
    longer = query.replace("40000", "50000")
    after = files(longer)
    settled(here / "y.csv", text_of(series(2, 50000, 5, begin=40000)))
    assert files(longer)[:3] == after[:3] == before[:3] and files(longer)[3] != after[3]
    os.utime("x.csv")
    assert not set(files(longer)) & set(after)
    after = files(query)
    other = here / "other"
    other.write_text(f"#!/bin/sh\nexec {os.environ['TILT']} \"$@\"\n")
    other.chmod(0o755)
    monkeypatch.setenv("TILT", str(other))
    assert not set(files(query)) & set(after)


def test_parts_of_files_as_spreadsheets_write_them(here):
    """One file has other ends of lines, and one has quotes."""
    folder = TOP / "examples" / "spreadsheet"
    files = {name: str(folder / f"{name}.csv") for name in ("limit", "temperature")}
    text = (folder / "query.tilt").read_text()
    wanted = run_program(str(PROGRAM), text, *(f"{name}={file}" for name, file in files.items()))
    plan = planned(text, **files)
    assert {os.path.basename(one.path): one.file == one.path for its in plan.inputs("").values() for one in its} == {
        "limit.csv": True,
        "temperature.csv": False,
    }
    for ticks in ([30], [10, 20, 30, 40, 50], list(range(1, 60, 7))):
        assert made(plan, ticks) == wanted


def test_a_file_that_was_changed_meanwhile(here):
    """With a row that the program rejects too: what it says of other rows than those of the call helps nobody."""
    for text in (text_of(series(2, 100, 5)), HEADER + "5,3,1\n" + "0,1,2\n" * 100):
        pathlib.Path("x.csv").write_text(text_of(series(1, 100, 5)))
        plan = planned("input x; emit x over (0, 100];", x="x.csv")
        task = tasks_at(plan, [50])[0]
        pathlib.Path("x.csv").write_text(text)
        done = tasks.make_parts(plan.batch(task))
        assert (done.line, done.status) == (f"{here}/x.csv: it was changed while the call ran: call again", 1)
        assert not os.path.exists(task.file)


def test_a_worker_makes_no_part_that_is_there(here):
    """As where two workers were handed one part, since one of them was thought lost."""
    pathlib.Path("x.csv").write_text(text_of(series(1, 100, 5)))
    plan = planned("input x; emit x over (0, 100];", x="x.csv")
    (task,) = tasks_at(plan, [])
    assert tasks.make_parts(plan.batch(task)).parts[0].bytes == os.path.getsize("x.csv") - len(HEADER)
    stamp = os.stat(task.file)
    assert tasks.make_parts(plan.batch(task)) == tasks.Made(parts=(tasks.Made(),)) and os.stat(task.file) == stamp


def test_another_program_at_the_worker_is_refused(here, monkeypatch):
    pathlib.Path("x.csv").write_text(text_of(series(1, 100, 5)))
    plan = planned("input x; emit x over (0, 100];", x="x.csv")
    (task,) = tasks_at(plan, [])
    for other in ("/bin/true", "/no/program"):
        monkeypatch.setenv("TILT", other)
        done = tasks.make_parts(plan.batch(task))
        assert done.status == 1 and done.line.startswith(f"{other} on ") and not os.path.exists(task.file)
    with pytest.raises(Refused, match="the program can't be run: No such file"):
        planned("emit 1 over (0, 10];")


def test_what_breaks_off_leaves_no_file(tmp_path):
    with pytest.raises(OSError), placed(str(tmp_path / "a" / "part")) as out:
        out.write(b"half")
        raise OSError(28, "No space left on device")
    assert os.listdir(tmp_path / "a") == []


# On threads, and on a cluster of two workers on loopback


FLEET = (
    "input x; input limit; let a = avg(x[t-20:t]); let above = ifnull(a > limit, false);\n"
    "emit a - limit when any(above[t-30:t+3]) over (0, {end}];\n"
)
INPUTS = {"x": "data/{key}/day-*.csv", "limit": "limit.csv"}


def fleet(folder: pathlib.Path, keys: int = 3, days: int = 3, rows: int = 4000) -> dict[str, str]:
    """Keys with a file for each day, and a limit for all; what one run prints for each key."""
    (folder / "limit.csv").write_text(text_of(series(9, days * 1000, 300, 40)))
    query = FLEET.format(end=days * 1000)
    (folder / "q").write_text(query)
    wanted = {}
    for key in range(keys):
        name = f"k {key}" if key else "k%2F0"
        (folder / "data" / name).mkdir(parents=True)
        whole = series(20 + key, days * 1000, 1 + days * 2000 // rows, 50)
        for day in range(days):
            its = [row for row in whole if day * 1000 <= row[0] < day * 1000 + 1000]
            (folder / "data" / name / f"day-{day}.csv").write_text(text_of(its))
        (folder / "whole.csv").write_text(text_of(whole))
        wanted[name.replace("%2F", "/")] = run_program(str(PROGRAM), query, "x=whole.csv", "limit=limit.csv", folder=str(folder))
    return wanted


def outputs(scaled: Any) -> dict[str, str]:
    return {key: pathlib.Path(path).read_text() for key, path in scaled.outputs.items()}


def hidden(folder: str) -> list[str]:
    return [name for _, _, names in os.walk(folder) for name in names if name.startswith(".")]


def test_keys_and_days(either, here):
    wanted = fleet(here)
    found = scale(pathlib.Path("q"), INPUTS, "out", **either.options, part_rows=300)
    assert outputs(found) == wanted and found.parts == found.made > 15 and (found.again, found.workers) == (0, 2)
    assert sorted(os.listdir("out")) == ["k 1.csv", "k 2.csv", "k%2F0.csv", "lock", "outputs.json", "parts"]
    again = scale(pathlib.Path("q"), INPUTS, "out", **either.options, part_rows=300)
    assert outputs(again) == wanted and (again.parts, again.made) == (found.parts, 0)
    assert (
        next(again.told())
        == f"{again.parts} parts, of which {again.parts} were there; 0.0 MB of series read; the call took {again.seconds:.1f} s"
    )


def test_outputs_in_units(either, here, live, monkeypatch):
    """With decimals on each of them: what one run over whole numbers prints, with a point before the last two digits."""
    monkeypatch.setenv("TILT_LIVE", live)
    rows = [(at, at + 1, value) for at, _, value in series(4, 4000, 1, 900)]
    notes = {"tilt-data": 1, "name": "x", "tick": "1s", "origin": "2026-03-01T00:00:00", "scale": 100}
    pathlib.Path("x.csv").write_text(text_of(rows))
    pathlib.Path("x.json").write_text(json.dumps(notes))
    found = scale("input x; emit x - 4.5 over (0, 4000];", {"x": "x.csv"}, "out", **either.options, part_rows=500)
    whole = run_program(str(PROGRAM), "input x; emit x - 450 over (0, 4000];", "x=x.csv").splitlines()
    wanted = "".join(f"{front},{int(value) / 100:.2f}\n" for front, _, value in (line.rpartition(",") for line in whole[1:]))
    assert outputs(found) == {"output": HEADER + wanted} and found.made == 7 and "-" in wanted


BINDS = [f"{name}={files}" for name, files in INPUTS.items()]
COMMAND = [sys.executable, str(TOP / "tools" / "package" / "tilt-data"), "scale", "q", *BINDS, "--out", "out"]


def test_the_command_on_this_machine(here):
    wanted = fleet(here, keys=2)
    done = subprocess.run([*COMMAND, "--workers", "2", "--part-rows", "700"], capture_output=True, text=True)
    assert (done.returncode, done.stdout) == (0, ""), done.stderr
    assert {path.stem.replace("%2F", "/"): path.read_text() for path in pathlib.Path("out").glob("*.csv")} == wanted
    lines = done.stderr.splitlines()
    assert (
        " parts; " in lines[0]
        and re.match(r"tilt-data: the program took \d+% of the workers' time; ", lines[1])
        and lines[2].endswith("out/k 1.csv")
    )
    assert len(lines) == 4


def test_small_keys_share_a_task(here, monkeypatch):
    query, wanted, calls = "input x; emit x + 1 over (0, 50];", {}, []
    for key in range(70):
        pathlib.Path(f"k{key}.csv").write_text(text_of([(at, at + 5, at * key) for at in range(0, 50, 5)]))
        wanted[str(key)] = HEADER + "".join(f"{at},{at + 5},{at * key + 1}\n" for at in range(0, 50, 5))
    size = sum(os.path.getsize(f"k{key}.csv") - len(HEADER) for key in range(70))
    make_parts = tasks.make_parts
    monkeypatch.setattr(tasks, "make_parts", lambda batch, *more: calls.append(len(batch.tasks)) or make_parts(batch, *more))
    found = scale(query, {"x": "k{key}.csv"}, "out", workers=2)
    assert outputs(found) == wanted and (found.parts, found.made, found.bytes) == (70, 70, size) and sorted(calls) == [6, 32, 32]
    assert scale(query, {"x": "k{key}.csv"}, "out", workers=2).made == 0
    # A key that is rejected is reported alone, and those before it are kept.
    pathlib.Path("k33.csv").write_text(HEADER + "0,1,2\n5,4,3\n6,7,8\n")
    with pytest.raises(TiltError, match=r"^33, part 1 over \(0, 50\]: tilt: "):
        scale(query, {"x": "k{key}.csv"}, "out", workers=1)
    pathlib.Path("k33.csv").write_text(text_of([(0, 5, 33)]))
    found = scale(query, {"x": "k{key}.csv"}, "out", workers=1)
    assert outputs(found) == {**wanted, "33": HEADER + "0,5,34\n"} and found.made == 1


def test_no_row_is_read_where_nothing_changed(here):
    """Neither is a byte digested; a change is noticed all the same."""
    rows = series(1, 30000, 3)
    times = (10**18, 10**18)
    path = pathlib.Path("x.csv")
    path.write_text(text_of(rows))
    os.utime(path, ns=times)
    query = "input x; emit x + 1 over (0, 30000];"
    found = scale(query, {"x": "x.csv"}, "out", workers=1)
    assert outputs(found)["output"] == run_program(str(PROGRAM), query, "x=x.csv") and sorted(os.listdir("out")) == [
        "lock",
        "output.csv",
        "outputs.json",
        "parts",
    ]
    size = os.path.getsize("x.csv") - len(HEADER)
    assert found.bytes == size and f"1 parts; {size / 1e6:.1f} MB of series read" in next(found.told())
    assert scale(query, {"x": "x.csv"}, "out", workers=1).made == 0
    other = text_of(rows)
    at = other.index(",9", 1000) + 1
    write_over(path, other[:at] + "8" + other[at + 1 :], times)
    found = scale(query, {"x": "x.csv"}, "out", workers=1)
    assert found.made == 1 and outputs(found)["output"] == run_program(str(PROGRAM), query, "x=x.csv")
    # Rows that no part needs aren't given to the program.
    found = scale("input x; emit x over (0, 100];", {"x": "x.csv"}, "less", workers=1)
    assert found.bytes == len(text_of(rows_in_stretch(rows, 0, 100))) - len(HEADER)


def test_a_whole_file_that_changes_meanwhile(here, monkeypatch):
    path = pathlib.Path("x.csv")
    path.write_text(text_of(series(1, 30000, 3)))
    program = wrapped(here / "program")
    monkeypatch.setenv("TILT", str(program))
    before(program, '[ "$1" = run ] && echo 40000,40001,1 >> x.csv')
    with pytest.raises(Refused, match="x.csv: it was changed while the call ran: call again"):
        scale("input x; emit x over (0, 50000];", {"x": "x.csv"}, "out", workers=1)
    assert not list(pathlib.Path("out").glob("*.csv")) and not hidden("out")
    before(program, "")
    found = scale("input x; emit x over (0, 50000];", {"x": "x.csv"}, "out", workers=1)
    assert outputs(found)["output"].endswith("\n40000,40001,1\n")


@pytest.mark.parametrize("status, told", [(4, "the program exited with status 4"), (0, r"\[Errno 32\] Broken pipe")])
def test_a_program_that_does_not_read_its_rows(here, monkeypatch, status, told):
    """More of them than a pipe holds: nobody waits for ever, and no descriptor stays open."""
    pathlib.Path("x.csv").write_text(text_of([(at, at + 1, at) for at in range(150000)]))
    assert os.path.getsize("x.csv") > 2 * tasks.PIPE
    program = wrapped(here / "program")
    monkeypatch.setenv("TILT", str(program))
    before(program, f'[ "$1" = run ] && {{ echo start,end,value; exit {status}; }}')
    handles = len(os.listdir("/proc/self/fd"))
    with pytest.raises(Refused, match=rf"^part 1 over \(0, 140000\] failed 2 times: {told}$"):
        scale("input x; emit x over (0, 140000];", {"x": "x.csv"}, "out", workers=1, retries=1)
    assert len(os.listdir("/proc/self/fd")) == handles and not hidden("out") and not list(pathlib.Path("out").glob("*.csv"))


def test_many_keys_have_larger_parts(here):
    query, wanted = "input x; emit x over (0, 4000];", {}
    for key in range(16):
        pathlib.Path(f"k{key}.csv").write_text(text_of([(at, at + 1, at + key) for at in range(4000 if key else 4001)]))
        wanted[str(key)] = run_program(str(PROGRAM), query, f"x=k{key}.csv")
    found = scale(query, {"x": "k{key}.csv"}, "out", workers=2, part_rows=1050)
    assert outputs(found) == wanted and found.parts == 16
    os.unlink("k15.csv")
    assert scale(query, {"x": "k{key}.csv"}, "out", workers=2, part_rows=1050).parts == 15 * 4


@pytest.mark.parametrize("after", [3, 40, 69])
def test_a_call_over_small_keys_that_is_killed_goes_on(here, monkeypatch, after):
    """It can lose what wasn't listed yet, and no output is torn."""
    query, wanted = "input x; emit x + 1 over (0, 50];", {}
    for key in range(70):
        pathlib.Path(f"k{key}.csv").write_text(text_of([(at, at + 5, at * key) for at in range(0, 50, 5)]))
        wanted[str(key)] = HEADER + "".join(f"{at},{at + 5},{at * key + 1}\n" for at in range(0, 50, 5))
    program = wrapped(here / "program")
    monkeypatch.setenv("TILT", str(program))
    before(program, f'[ "$1" = run ] && {{ echo x >> calls; [ $(wc -l < calls) -le {after} ] || {{ touch hangs; sleep 60; }}; }}')
    pathlib.Path("q").write_text(query)
    words = [*COMMAND[:3], "q", "x=k{key}.csv", "--out", "out", "--workers", "1"]
    begun = subprocess.Popen(words, stdout=subprocess.PIPE, stderr=subprocess.PIPE, start_new_session=True)
    # What was made before goes to the disk while the next ones are made.
    assert waited(lambda: os.path.exists("hangs") and len(list(pathlib.Path("out").glob("*.csv"))) == after // 32 * 32, begun)
    os.killpg(begun.pid, signal.SIGKILL)
    begun.communicate()
    there = {path.stem: path.read_text() for path in pathlib.Path("out").glob("*.csv")}
    assert len(there) == after // 32 * 32 and there.items() <= wanted.items() and hidden("out")
    before(program, "")
    found = scale(query, {"x": "k{key}.csv"}, "out", workers=2)
    assert outputs(found) == wanted and not hidden("out") and len(json.loads(pathlib.Path("out/outputs.json").read_text())["outputs"]) == 70
    assert scale(query, {"x": "k{key}.csv"}, "out", workers=2).made == 0


def test_small_keys_on_a_disk_that_is_full_are_made_alone(here, monkeypatch):
    """What can't be brought to the disk together doesn't get its name."""
    for key in range(70):
        pathlib.Path(f"k{key}.csv").write_text(text_of([(0, 5, key)]))

    commit = tasks.Together.commit

    def full(together: tasks.Together) -> None:
        if len(together.begun) > 1:
            raise OSError(errno.ENOSPC, "No space left on device")
        commit(together)

    monkeypatch.setattr(tasks.Together, "commit", full)
    found = scale("input x; emit x over (0, 50];", {"x": "k{key}.csv"}, "out", workers=2)
    assert found.made == 70 and outputs(found) == {str(key): text_of([(0, 5, key)]) for key in range(70)}
    assert not hidden("out")


class Killer(threading.Thread):
    """Kills one worker at a time, at a random moment after some more parts were finished."""

    def __init__(self, cluster: Cluster, seed: int) -> None:
        super().__init__(daemon=True)
        self.cluster, self.draws, self.killed, self.over = cluster, random.Random(seed), 0, threading.Event()

    def run(self) -> None:
        wanted = 1
        while not self.over.wait(self.draws.uniform(0.02, 0.2)):
            finished = len(list(pathlib.Path("out").glob("parts/*/0*.csv")))
            found = self.cluster.workers()
            if finished >= wanted and found:
                self.draws.choice(found).kill()
                self.killed += 1
                wanted = finished + self.draws.randrange(4, 12)


def test_workers_that_are_killed_at_random(cluster, here):
    wanted = fleet(here, keys=4)
    cluster.before('[ "$1" = run ] && sleep 0.1')
    killer = Killer(cluster, 3)
    killer.start()
    try:
        found = scale(pathlib.Path("q"), INPUTS, "out", scheduler=cluster.address, part_rows=150, retries=20)
    finally:
        killer.over.set()
        killer.join()
    assert outputs(found) == wanted and killer.killed >= 3 and found.parts > 40
    assert not hidden("out")


def test_a_call_that_is_killed_goes_on(either, here):
    wanted = fleet(here, keys=2)
    either.before('[ "$1" = run ] && sleep 0.1')
    words = [*COMMAND, *either.words, "--part-rows", "200"]
    begun = subprocess.Popen(words, start_new_session=True, stderr=subprocess.PIPE)
    while len(list(pathlib.Path("out").glob("parts/*/0*.csv"))) < 5 and begun.poll() is None:
        time.sleep(0.02)
    begun.kill()
    begun.communicate()
    assert begun.returncode == -signal.SIGKILL and not list(pathlib.Path("out").glob("*.csv"))
    folder = next(pathlib.Path("out").glob("parts/*"))
    (folder / ".000001-half.csv.abc.tilt-data-new").write_text(HEADER + "0,5")
    done = subprocess.run(words, capture_output=True, text=True)
    found = re.search(r"(\d+) parts, of which (\d+) were there", done.stderr)
    assert done.returncode == 0 and found and 5 <= int(found[2]) < int(found[1]), done.stderr
    assert {path.stem.replace("%2F", "/"): path.read_text() for path in pathlib.Path("out").glob("*.csv")} == wanted
    assert not hidden("out")


FULL = """[ "$1" = run ] || exec {program} "$@"
echo x >> "$0.calls"
[ $(wc -l < "$0.calls") -gt {times} ] && exec {program} "$@"
echo start,end,value; echo 'tilt: 5 write fault' >&2; exit 4
"""


def test_tasks_that_fail_are_started_again(either, here):
    """The program is on a disk that is full for some calls, and then for all."""
    pathlib.Path("x.csv").write_text(text_of(series(1, 300, 5)))
    query = "input x; emit x over (0, 300];"
    wanted = run_program(str(PROGRAM), query, "x=x.csv")
    either.before(FULL.format(program=PROGRAM, times=3))
    found = scale(query, {"x": "x.csv"}, "out", **either.options)
    assert outputs(found) == {"output": wanted} and found.again == 3
    either.before(FULL.format(program=PROGRAM, times=1000))
    with pytest.raises(Refused, match=r"^part 1 over \(0, 300\] failed 3 times: tilt: 5 write fault$"):
        scale(query, {"x": "x.csv"}, "more", **either.options, retries=2)
    assert not list(pathlib.Path("more").glob("*.csv")) and not list(pathlib.Path("more").glob("parts/**/*.csv")) and not hidden("more")


@pytest.fixture
def small_disk(tmp_path) -> Iterator[pathlib.Path]:
    """A disk of 400 KiB, where this user may have one."""
    disk = tmp_path / "disk"
    disk.mkdir()
    words = ["mount", "-t", "tmpfs", "-o", "size=400k", "tmpfs", str(disk)]
    if os.geteuid() != 0 or shutil.which("mount") is None or subprocess.run(words, capture_output=True).returncode:
        pytest.skip("no disk can be mounted here")
    yield disk
    subprocess.run(["umount", "--lazy", str(disk)], check=True)


def test_a_disk_that_is_full(either, here, small_disk):
    pathlib.Path("x.csv").write_text(text_of([(at, at + 1, at * 7919 % 10**6) for at in range(60000)]))
    query = "input x; emit x over (0, 60000];"
    wanted = run_program(str(PROGRAM), query, "x=x.csv")
    out = small_disk / "out"
    with pytest.raises(Refused, match=r"^part \d+ over .* failed 2 times: (tilt: 5 write fault|\[Errno 28\] No space left .*)$"):
        scale(query, {"x": "x.csv"}, out, **either.options, part_rows=5000, retries=1)
    there = len(list(out.glob("parts/0*.csv")))
    assert there and not list(out.glob("*.csv"))
    subprocess.run(["mount", "-o", "remount,size=8m", str(small_disk)], check=True)
    found = scale(query, {"x": "x.csv"}, out, **either.options, part_rows=5000)
    # What another worker had begun may have ended after the first call.
    assert outputs(found) == {"output": wanted} and found.parts == 12 and 12 - there - 1 <= found.made <= 12 - there
    assert not hidden(str(out))


def test_a_disk_that_is_full_for_a_plain_copy(here, small_disk):
    """A series with quotes is written plainly, for which there is no room at first."""
    rows = [(at, at + 1, at * 7919 % 10**6) for at in range(60000)]
    pathlib.Path("x.csv").write_text(text_of(rows).replace(HEADER, QUOTED))
    query = "input x; emit sum(x[t-9:t]) over (0, 60000] every 10000;"
    with pytest.raises(Refused, match=r"/disk/out/plain: it can't be written: No space left on device"):
        scale(query, {"x": "x.csv"}, small_disk / "out", workers=2)
    subprocess.run(["mount", "-o", "remount,size=8m", str(small_disk)], check=True)
    found = scale(query, {"x": "x.csv"}, small_disk / "out", workers=2)
    assert outputs(found) == {"output": run_program(str(PROGRAM), query, "x=x.csv")} and not hidden(str(small_disk))


def test_a_refusal_is_told_once_with_its_part(either, here, capfd):
    from tilt_data.cli import main

    rows = [(at, at + 1, at) for at in range(3000)]
    pathlib.Path("a.csv").write_text(text_of(rows[:1000]))
    pathlib.Path("b.csv").write_text(text_of(rows[1000:]).replace("\n2345,2346,2345\n", "\n2345,2345,2345\n"))
    pathlib.Path("q").write_text("input x; emit x over (0, 3000];")
    assert main(["scale", "q", "x=a.csv", "x=b.csv", "--out", "out", *either.words, "--part-rows", "100"]) == 1
    err = capfd.readouterr().err
    assert re.match(r"tilt-data: part 24 over \(2\d\d\d, 2\d\d\d\]: tilt: 14 series x: empty interval in row \d+\n", err), err
    assert err.count("tilt: 14") == 1 and f"\n{here}/b.csv:1347: empty interval" in err and "\n    2345,2345,2345\n" in err
    assert not list(pathlib.Path("out").glob("*.csv"))


@pytest.mark.parametrize(
    "words, what",
    [
        (["q", "x=x.csv", "--part-rows", "0"], "part-rows: 1 or more was expected"),
        (["q", "x=x.csv", "--retries", "-1"], "retries: 0 or"),
        (["q", "x=x.csv", "--workers", "0"], "workers: 1 or more"),
        (["q", "x"], "'x': NAME=FILES was expected"),
        (["q"], "x isn't bound: x=FILES: the query reads x"),
        (["q", "x=x.csv", "y=x.csv"], "not y: the query reads x"),
        (["q", "x=none*.csv"], "x=none*.csv: no file has this name"),
        (["no", "x=x.csv"], "no: No such file"),
        (["wrong", "x=x.csv"], "tilt: 27 statement 2: unknown name\nwrong:1:15: "),
        (["q", "x=x.csv", "--scheduler", "tcp://127.0.0.1:1", "--workers", "2"], "--workers is for this machine"),
    ],
)
def test_what_is_rejected(told, here, words, what):
    pathlib.Path("q").write_text("input x; emit x over (0, 10];")
    pathlib.Path("wrong").write_text("input x; emit y over (0, 10];")
    pathlib.Path("x.csv").write_text(HEADER + "0,5,7\n")
    status, out, err = told("scale", *words, "--out", "out")
    assert (status, out) == (1, "") and err.startswith(f"tilt-data: {what}"), err


@pytest.mark.parametrize("address, cure", [("nonsense:", "an address such as tcp://127.0.0.1:8786"), ("tls://127.0.0.1:1", "certificates")])
def test_a_scheduler_that_is_not_there(told, here, dask, address, cure):
    pathlib.Path("q").write_text("input x; emit x over (0, 10];")
    pathlib.Path("x.csv").write_text(HEADER + "0,5,7\n")
    status, out, err = told("scale", "q", "x=x.csv", "--out", "out", "--scheduler", address)
    assert (status, out) == (1, "") and err.startswith(f"tilt-data: {address}: no scheduler answers there: ") and cure in err, err


def test_what_is_told_of_cuts(here):
    """Most rows are in one step of the grid, so most cuts come to one place."""
    rows = [*range(1000), *range(2000, 100000, 1000)]
    pathlib.Path("x.csv").write_text(text_of([(at, at + 1, at) for at in rows]))
    query = "input x; emit sum(x[t-50:t]) over (0, 100000] every 1000;"
    found = scale(query, {"x": "x.csv"}, "out", workers=2, part_rows=300)
    assert found.parts == 2 and found.notes == [
        "cuts that were moved to the grid of every 1000 ticks, or into the domain: 3",
        "cuts that had no place of their own in the domain, so that there are fewer parts: 2",
    ]
    assert outputs(found)["output"] == run_program(str(PROGRAM), query, "x=x.csv")


def test_rows_that_are_read_many_times_are_told(here):
    """How many rows a part reads beside its own is an estimate, from their number in all."""
    rows = [*range(1000), *(10000 + at for at in range(1000)), 10**6]
    pathlib.Path("x.csv").write_text(text_of([(at, at + 1, at) for at in rows]))
    query = "input x; emit max(x[t-1000:t]) over (0, 1000001];"
    found = scale(query, {"x": "x.csv"}, "out", workers=2, part_rows=100)
    assert found.parts == 20 and found.notes == [
        f"each row was read {found.bytes / (os.path.getsize('x.csv') - len(HEADER)):.1f} times, since the query looks far: "
        "larger parts by --part-rows read fewer"
    ]
    assert outputs(found)["output"] == run_program(str(PROGRAM), query, "x=x.csv")


def test_parts_have_as_many_rows_as_they_read_beside_their_own(here):
    """So that no row is read much more than twice, however far the query looks."""
    pathlib.Path("x.csv").write_text(text_of([(at, at + 1, at) for at in range(10000)]))
    size = os.path.getsize("x.csv")
    for back, grid, count in ((100, "", 10), (1000, "", 10), (2000, "", 5), (4000, "", 2), (6000, "", 1), (20000, "", 1), (100, 2000, 2)):
        query = f"input x; emit max(x[t-{back}:t]) over (0, 10000]{grid and f' every {grid}'};"
        found = scale(query, {"x": "x.csv"}, f"out{back}{grid}", workers=2, part_rows=1000)
        assert found.parts == count and found.bytes < 2.01 * size and "times" not in " ".join(found.notes)
        assert outputs(found)["output"] == run_program(str(PROGRAM), query, "x=x.csv")


def test_there_are_as_many_parts_as_the_rows_fill(here):
    """As many parts as workers, or a multiple, would else leave one part more, for which all but one wait. Rows get longer with their ticks."""
    pathlib.Path("x.csv").write_text(text_of([(at, at + 1, at % 400) for at in range(300000)]))
    plan = planned("input x; emit sum(x[t-60:t]) over (0, 300000] every 60;", x="x.csv")
    assert [len(plan.cut("", rows)) for rows in (3000, 37500, 75000, 290000, 300000)] == [100, 8, 4, 2, 1]


@pytest.mark.parametrize("size", [tasks.PIPE, 1 << 16])
def test_a_full_pipe_is_left_alone_for_a_while(tmp_path, monkeypatch, size):
    """So the system copies many bytes at a time, and not those alone of which the reader has made room."""
    rows = text_of([(at, at + 1, 5) for at in range(300000)])
    (tmp_path / "x.csv").write_text(rows)
    its, read, sent, sendfile = known(tmp_path / "x.csv"), bytearray(), list[int](), os.sendfile
    monkeypatch.setattr(tasks, "PIPE", size)
    monkeypatch.setattr(os, "sendfile", lambda *words: sent.append(sendfile(*words)) or sent[-1])
    with tasks.Feeds() as feeds, open(feeds.begin([ranges.Range(its, its.begin, its.end)]), "rb", buffering=0) as file:
        while some := file.read(1 << 13):
            read += some
    assert read.decode() == rows and sum(sent) == its.end - its.begin and len(sent) < its.end >> 14


def test_a_part_goes_to_the_disk_while_the_next_one_runs(here, monkeypatch):
    """So a worker doesn't wait for the disk; but no more programs run at a time than there are workers."""
    pathlib.Path("x.csv").write_text(text_of([(at, at + 1, at) for at in range(6000)]))
    call, commit, next_one, running, most = Processes.call, tasks.Together.commit, threading.Event(), set[int](), list[int]()

    def called(processes: Processes, *words: Any, **more: Any) -> Called:
        next_one.set()
        running.add(threading.get_ident())
        most.append(len(running))
        done = call(processes, *words, **more)
        running.discard(threading.get_ident())
        return done

    def committed(together: tasks.Together) -> None:
        """The first one is kept until another part runs."""
        if len(most) == 1:
            next_one.clear()
            assert next_one.wait(60)
        commit(together)

    query = Query("input x; emit x over (0, 6000];")
    assert query.explain().back == 0
    monkeypatch.setattr(Processes, "call", called)
    monkeypatch.setattr(tasks.Together, "commit", committed)
    found = scale(query, {"x": "x.csv"}, "out", workers=1, part_rows=1000)
    assert found.made == len(most) == 6 and set(most) == {1}


def test_two_calls_never_work_in_one_folder(here):
    pathlib.Path("x.csv").write_text(HEADER + "0,5,7\n")
    os.makedirs("out")
    with open("out/lock", "a") as lock:
        fcntl.flock(lock, fcntl.LOCK_EX)
        with pytest.raises(Refused, match="another `tilt-data scale` works in this folder"):
            scale("input x; emit x over (0, 10];", {"x": "x.csv"}, "out", workers=1)
    assert engine.cause_of(ValueError()) == "ValueError"


def waited(condition: Callable[[], Any], process: subprocess.Popen[Any]) -> Any:
    """Waits until a condition holds, while a process runs: what it came to."""
    deadline = time.monotonic() + 60
    while not (found := condition()) and process.poll() is None and time.monotonic() < deadline:
        time.sleep(0.02)
    return found


def is_running(pid: int) -> bool:
    try:
        return "State:\tZ" not in pathlib.Path(f"/proc/{pid}/status").read_text()
    except OSError:
        return False


@pytest.mark.parametrize("number, status", [(signal.SIGINT, 130), (signal.SIGTERM, 143), (signal.SIGHUP, 129)])
def test_a_call_that_is_stopped_leaves_no_process_and_goes_on(here, monkeypatch, number, status):
    """Some parts are made; then the program hangs, and the call gets a signal, which the program doesn't get."""
    wanted = fleet(here, keys=2)
    (here / "temporary").mkdir()
    monkeypatch.setenv("TMPDIR", str(here / "temporary"))
    program = wrapped(here / "program")
    monkeypatch.setenv("TILT", str(program))
    before(
        program,
        '[ "$1" = run ] || exec ' + str(PROGRAM) + ' "$@"\n[ $(ls out/parts/*/0* | wc -l) -lt 3 ] || { echo $$ >> pids; '
        "echo start,end,value; exec sleep 300; }",
    )
    words = [*COMMAND, "--workers", "2", "--part-rows", "200"]
    # A shell starts a job in the background with SIGINT ignored, and nohup with SIGHUP: so would the command, begun by these tests.
    begun = subprocess.Popen(
        words, stdout=subprocess.PIPE, stderr=subprocess.PIPE, preexec_fn=lambda: signal.signal(number, signal.SIG_DFL)
    )
    pids = here / "pids"
    assert waited(lambda: pids.exists() and pids.read_text().count("\n") == 2, begun)
    hanging = [int(pid) for pid in pids.read_text().split()]
    assert all(is_running(pid) for pid in hanging) and len(hidden("out")) == 2 and len(os.listdir("temporary")) == 2
    begun.send_signal(number)
    assert begun.communicate(timeout=20) == (b"", b"") and begun.returncode == status
    assert not any(is_running(pid) for pid in hanging) and not hidden("out") and not os.listdir("temporary")
    assert not list(pathlib.Path("out").glob("*.csv"))
    there = len(list(pathlib.Path("out").glob("parts/*/0*.csv")))
    before(program, "")
    done = subprocess.run(words, capture_output=True, text=True)
    found = re.search(r"(\d+) parts, of which (\d+) were there", done.stderr)
    assert done.returncode == 0 and found and 3 <= there == int(found[2]) < int(found[1]), done.stderr
    assert {path.stem.replace("%2F", "/"): path.read_text() for path in pathlib.Path("out").glob("*.csv")} == wanted
    assert not hidden("out")


def test_a_signal_that_is_ignored_stays_so(here):
    """As under nohup."""
    pathlib.Path("q").write_text("input x; emit x over (0, 10];")
    pathlib.Path("x.csv").write_text(HEADER + "0,5,7\n")
    program = wrapped(here / "program")
    before(program, '[ "$1" = run ] && { touch running; while [ ! -e go ]; do sleep 0.05; done; }')
    begun = subprocess.Popen(
        ["sh", "-c", "trap '' HUP; exec \"$@\"", "sh", *COMMAND[:3], "q", "x=x.csv", "--out", "out"],
        env={**os.environ, "TILT": str(program)},
        stderr=subprocess.PIPE,
    )
    assert waited(lambda: os.path.exists("running"), begun) is True
    begun.send_signal(signal.SIGHUP)
    time.sleep(0.2)
    pathlib.Path("go").touch()
    begun.communicate(timeout=60)
    assert begun.returncode == 0 and pathlib.Path("out/output.csv").read_text() == HEADER + "0,5,7\n"


def test_long_loops_over_files_can_be_stopped(tmp_path):
    rows = series(1, 100000, 3)
    path = tmp_path / "quoted.csv"
    path.write_text(QUOTED + text_of(rows).removeprefix(HEADER))
    (tmp_path / "1").write_text(text_of(rows))
    processes = Processes()
    processes.stop()
    with pytest.raises(Cancelled):
        ranges.plain_of(str(path), ranges.stamp_of(str(path)), str(tmp_path / "plain"), processes.check)
    with pytest.raises(Cancelled):
        tasks.make_whole(tasks.Joining("", ((Part(1, 0, 9), str(tmp_path / "1")),), str(tmp_path / "whole")), processes)
    with pytest.raises(Cancelled), open(os.devnull, "w") as out:
        write_in_units(str(tmp_path / "1"), out, 1, 1, processes.check)
    with pytest.raises(Cancelled):
        processes.call(["explain"], 1)
    assert sorted(os.listdir(tmp_path)) == ["1", "plain", "quoted.csv"] and not os.listdir(tmp_path / "plain")


def test_the_seconds_are_those_of_the_whole_call(here, monkeypatch):
    """What comes before the parts and after them counts too."""
    pathlib.Path("x.csv").write_text(HEADER + "0,5,7\n")
    program = wrapped(here / "program")
    monkeypatch.setenv("TILT", str(program))
    before(program, '[ "$1" = explain ] && sleep 0.5')
    begun = time.monotonic()
    found = scale("input x; emit x over (0, 10];", {"x": "x.csv"}, "out", workers=1)
    assert 0.5 <= found.seconds <= time.monotonic() - begun


def test_with_nothing_to_do_no_scheduler_is_needed(here, dask):
    pathlib.Path("x.csv").write_text(HEADER + "0,5,7\n")
    query = "input x; emit x over (0, 10];"
    wanted = outputs(scale(query, {"x": "x.csv"}, "out", workers=1))
    shutil.rmtree("out/parts")
    stamp = os.stat("out/output.csv")
    found = scale(query, {"x": "x.csv"}, "out", scheduler="tcp://127.0.0.1:1")
    assert outputs(found) == wanted and (found.parts, found.made, found.workers) == (1, 0, 0) and os.stat("out/output.csv") == stamp
    # An output that somebody wrote to is joined again.
    pathlib.Path("out/output.csv").write_text("start,end,value\n0,5,8\n")
    assert outputs(scale(query, {"x": "x.csv"}, "out", workers=1)) == wanted


def test_outputs_of_keys_that_are_gone(here):
    for key in ("a", "b"):
        pathlib.Path(f"{key}.csv").write_text(HEADER + "0,5,7\n")
    pathlib.Path("out").mkdir()
    pathlib.Path("out/c.csv").write_text("of the user")
    query = "input x; emit x over (0, 10];"
    scale(query, {"x": "{key}.csv"}, "out", workers=1)
    assert sorted(path.name for path in pathlib.Path("out").glob("*.csv")) == ["a.csv", "b.csv", "c.csv"]
    os.unlink("b.csv")
    found = scale(query, {"x": "{key}.csv"}, "out", workers=1)
    assert list(found.outputs) == ["a"] and sorted(path.name for path in pathlib.Path("out").glob("*.csv")) == ["a.csv", "c.csv"]
    assert pathlib.Path("out/earlier/b.csv").read_text() == HEADER + "0,5,7\n" and pathlib.Path("out/c.csv").read_text() == "of the user"
    assert found.notes == [f"outputs of earlier calls that aren't of this one, moved to {here}/out/earlier: 1"]
    # Neither are they outputs of a call that has no keys.
    assert list(scale(query, {"x": "a.csv"}, "out", workers=1).outputs) == ["output"]
    assert sorted(os.listdir("out/earlier")) == ["a.csv", "b.csv"]


def test_an_old_output_is_not_given_for_new_rows(here):
    """The rows have the size and the time of the old ones, as after `cp -p`."""
    path, times = here / "x.csv", (10**18, 10**18)
    path.write_text(HEADER + "0,5,3\n")
    os.utime(path, ns=times)
    query = "input x; emit x over (0, 10];"
    assert outputs(scale(query, {"x": "x.csv"}, "out", workers=1)) == {"output": HEADER + "0,5,3\n"}
    write_over(path, HEADER + "0,5,9\n", times)
    assert outputs(scale(query, {"x": "x.csv"}, "out", workers=1)) == {"output": HEADER + "0,5,9\n"}


def test_only_what_is_of_this_call_is_swept(here):
    """Calls in folders below and other commands that write to the folder go on."""
    half = ".half.csv.abc.tilt-data-new"
    other = [pathlib.Path("out") / name / half for name in ("", "below", "below/parts", "below/plain", "parts/k/below")]
    own = [pathlib.Path("out") / name / half for name in ("parts", "parts/k", "plain")]
    for path in [*other, *own]:
        path.parent.mkdir(parents=True, exist_ok=True)
        path.write_text("half")
    pathlib.Path("x.csv").write_text(HEADER + "0,5,7\n")
    scale("input x; emit x over (0, 10];", {"x": "x.csv"}, "out", workers=1)
    assert [path for path in [*other, *own] if path.exists()] == other


def beside(path: str, **fields: Any) -> None:
    """Writes a series of one row, and its JSON."""
    pathlib.Path(path).write_text(HEADER + "0,5,7\n")
    notes = {"tilt-data": 1, "name": "x", "tick": "1s", "origin": "2026-03-01T00:00:00", "closed": "left", "kind": "hold", "scale": 1}
    pathlib.Path(path).with_suffix(".json").write_text(json.dumps({**notes, **fields}))


def test_clocks_that_differ(here):
    """Between inputs it is a note, for each key; between the files of one input an error."""
    query = "input x; input y; emit x + y over (0, 10];"
    for key in ("a", "b", "c"):
        beside(f"x.{key}.csv", tick="1s")
        beside(f"y.{key}.csv", tick="1s" if key == "a" else "1m")
    found = scale(query, {"x": "x.{key}.csv", "y": "y.{key}.csv"}, "out", workers=1)
    (note,) = found.notes
    assert note.startswith("note: the series x and y have other ") and note.endswith(" (the key b and 1 more)")
    pathlib.Path("y.a=1.csv").write_text(HEADER + "6,8,1\n")
    shutil.copy("y.b.json", "y.a=1.json")
    with pytest.raises(Refused, match=f"^y: the series {here}/y.a.csv and {here}/y.a=1.csv have other "):
        scale(query, {"x": "x.a.csv", "y": ["y.a.csv", "y.a=1.csv"]}, "more", workers=1)
    assert not os.path.exists("more")


@pytest.mark.parametrize("other, what", [({"scale": 100}, "scales"), ({"closed": "right"}, "`closed`")])
def test_scales_and_conventions_that_differ(here, live, other, what):
    """0.7 and 0.07 are 0.77. Over whole numbers the scales matter."""
    beside("x.csv", scale=10)
    beside("y.csv", **{"scale": 10, **other})
    query, inputs = "input x; input y; emit x + y over (0, 10];", {"x": "x.csv", "y": "y.csv"}
    (note,) = scale(query, inputs, "out", workers=1, whole=True).notes
    assert note.startswith("note: ") and what in note and pathlib.Path("out/output.csv").read_text() == HEADER + "0,5,14\n"
    found = scale(query, inputs, "out", workers=1)
    assert found.notes == ([] if "scale" in other else [note])
    assert pathlib.Path("out/output.csv").read_text() == HEADER + f"0,5,{'0.77' if 'scale' in other else '1.4'}\n"
    pathlib.Path("y.csv").write_text(HEADER + "6,8,1\n")
    with pytest.raises(Refused, match=f"^x: .*{what}"):
        scale("input x; emit x over (0, 10];", {"x": ["x.csv", "y.csv"]}, "more", workers=1)


@pytest.mark.parametrize(
    "mark, rows",
    [
        ("\ufeff", "0,5,7\n"),
        ("", "0,5,--7\n"),
        ("", "+-0,5,7\n"),
        ("", "0,5,+\n"),
        ("", "0,5,7,\n"),
        ("", "0,5,9223372036854775808\n"),
        ("", "0,4000000000000000001,7\n"),
        ("", "0,1_0,7\n"),
        ("", "0,5,1_0\n"),
        ("", "0, 5,7\n"),
        ("", "0,5 ,7\n"),
        ("", "0,\uff15,7\n"),
        ("", "0,5,\u0663\n"),
        ("", '"0 ",5,7\n'),
        ("", '0,5,"7\n"\n'),
    ],
)
def test_what_the_program_rejects_is_rejected(told, here, mark, rows):
    pathlib.Path("q").write_bytes(f"{mark}input x; emit x over (0, 10];".encode())
    pathlib.Path("x.csv").write_text(HEADER + rows)
    assert subprocess.run([PROGRAM, "run", "q", "x=x.csv"], capture_output=True).returncode == 1
    status, out, err = told("scale", "q", "x=x.csv", "--out", "out")
    assert (status, out) == (1, "") and err and not os.path.exists("out/output.csv"), err
    assert not mark or err.startswith("tilt-data: tilt: 20 bad byte at 0"), err


@pytest.fixture
def with_tls(here, dask) -> Iterator[Cluster]:
    """A cluster with the configuration that docs/SCALE.md shows, and certificates of its own."""
    if shutil.which("openssl") is None:
        pytest.skip("openssl is missing")
    folder = here / "tls"
    folder.mkdir()
    shown = re.search(r"(?m)^    distributed:\n(?:    .*\n)+", (TOP / "docs" / "SCALE.md").read_text())
    assert shown is not None
    (folder / "tls.yaml").write_text(textwrap.dedent(shown[0]).replace("/home/me/tls", str(folder)))
    words = ["openssl", "req", "-x509", "-newkey", "rsa:2048", "-nodes", "-days", "2", "-subj", "/CN=localhost"]
    subprocess.run([*words, "-keyout", folder / "key.pem", "-out", folder / "cert.pem"], check=True, capture_output=True)
    shutil.copy(folder / "cert.pem", folder / "ca.pem")
    cluster = Cluster(here, folder)
    yield cluster
    cluster.end()


def test_a_cluster_with_certificates(with_tls, here):
    """Who has none can't connect, and a plain address doesn't either."""
    pathlib.Path("x.csv").write_text(HEADER + "0,5,7\n")
    pathlib.Path("q").write_text("input x; emit x over (0, 10];")
    environment = {**os.environ, "TILT": str(with_tls.program)}
    assert with_tls.address.startswith("tls://127.0.0.1:")

    def call(address: str, out: str, **more: str) -> subprocess.CompletedProcess[str]:
        words = [*COMMAND[:3], "q", "x=x.csv", "--out", out, "--scheduler", address]
        return subprocess.run(words, env={**environment, **more}, capture_output=True, text=True)

    addresses = with_tls.address, with_tls.address.replace("tls:", "tcp:")
    # Each waits for some seconds.
    with concurrent.futures.ThreadPoolExecutor(2) as pool:
        calls = list(pool.map(lambda one: call(*one), zip(addresses, ("out", "more"))))
    for address, done in zip(addresses, calls):
        assert done.returncode == 1 and done.stderr.startswith(f"tilt-data: {address}: no scheduler answers there: "), done.stderr
    assert not os.path.exists("out/output.csv") and not os.path.exists("more/output.csv")
    done = call(with_tls.address, "out", **with_tls.environment)
    assert done.returncode == 0 and pathlib.Path("out/output.csv").read_text() == HEADER + "0,5,7\n", done.stderr
    found = re.search(r"took (\S+) s\n.*: Dask took (\S+) s to start, the parts (\S+) s, and Dask (\S+) s to end\n", done.stderr)
    assert found and abs(float(found[1]) - sum(map(float, found.groups()[1:]))) < 0.25 and float(found[2]) > 0, done.stderr
