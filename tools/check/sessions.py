#!/usr/bin/env python3
"""Runs the built program by sessions, each of which gets the rows that start from the cut before it on and below its own, and compares what
they print, joined, with what one run over all rows prints: small queries by every pair of cuts around their output domain, and a day of
readings that is cut each hour; and queries of two inputs by three sessions, of which the first two end by every pair of cuts for each
input. Each session after the first saves to the file that it reads. The last line is 'N passed, M failed', and the status is 1 where one
failed."""
from __future__ import annotations

import dataclasses
import itertools
import os
import subprocess
import sys
import tempfile
from typing import Sequence

sys.path.insert(0, os.path.dirname(os.path.dirname(os.path.realpath(__file__))))

from shared.paths import BUILT
from shared.program import build_program
from shared.series import Row, put_rows
from shared.tally import Tally

DAY = 86400
HOUR = 3600


def readings() -> list[Row]:
    """A reading each minute, with a gap in each tenth one, and one that is longer than an hour."""
    rows = [(60 * i, 60 * i + 60, 200 + (7 * i) % 13) for i in range(DAY // 60) if i % 10 and not 600 < i < 690]
    return sorted(rows + [(36060, 41340, 190)])


@dataclasses.dataclass
class Case:
    """A query of x, its rows, and the cuts of each list of sessions. `text` is what one run prints if that was worked out by hand."""

    query: str
    rows: list[Row]
    cuts: Sequence[Sequence[int]]
    text: bytes | None = None


CASES = [
    Case(
        query="input x; emit count(x[t-3:t]) over (0, 10];",
        rows=[(0, 5, 7), (5, 8, 7)],
        cuts=[(a, b) for a in range(-2, 13) for b in range(a, 13)],
        text=b"start,end,value\n0,2,1\n2,5,1\n5,7,2\n7,8,1\n8,10,1\n",
    ),
    Case(
        query="input x; emit sum(x[t-5:t]) over (0, 10] every 5;",
        rows=[(0, 5, 1), (5, 8, 2)],
        cuts=[(a, b) for a in range(-2, 13) for b in range(a, 13)],
        text=b"start,end,value\n0,5,1\n5,10,2\n",
    ),
    Case(
        query="input x; emit sum(x[t-5:t]) over (2, 12] every 5 from 2;",
        rows=[(0, 5, 1), (5, 8, 2)],
        cuts=[(a, b) for a in range(-2, 15) for b in range(a, 15)],
    ),
    Case(
        query=f"input x; let m = avg(x[t-600:t]) every 60; emit m - x[t+30] over (0, {DAY}];",
        rows=readings(),
        cuts=[tuple(range(HOUR, DAY + 1, HOUR))],
    ),
]


@dataclasses.dataclass
class Apart:
    """A query of x and y, with their rows: each session is handed those of x by its own cuts, and those of y by others."""

    query: str
    of_x: list[Row]
    of_y: list[Row]


APART = [
    Apart(
        query="input x; input y; emit x + y over (0, 5];",
        of_x=[(0, 3, 1), (3, 5, 2)],
        of_y=[(0, 2, 10), (2, 6, 20)],
    ),
    Apart(
        query="input x; input y; emit ifnull(x[t-1], 0) * 100 + ifnull(y[t+1], 0) over (0, 5];",
        of_x=[(0, 1, 1), (2, 4, 2)],
        of_y=[(-1, 2, 10), (3, 4, 20), (4, 6, 30)],
    ),
    Apart(
        query="input x; input y; emit count(x[t-2:t]) + sum(y[t-3:t]) over (0, 4] every 2;",
        of_x=[(-1, 1, 1), (1, 2, 1), (3, 5, 1)],
        of_y=[(0, 4, 7)],
    ),
]
PAIRS = [(first, second) for first in range(-1, 7) for second in range(first, 7)]


def tilt(folder: str, *words: str) -> tuple[int, bytes, bytes]:
    done = subprocess.run([BUILT, *words], cwd=folder, stdin=subprocess.DEVNULL, capture_output=True, timeout=120)
    return done.returncode, done.stdout, done.stderr


def between(rows: Sequence[Row], old: int | None, new: int | None) -> list[Row]:
    """The rows of a session from one cut to the next."""
    return [row for row in rows if (old is None or old <= row[0]) and (new is None or row[0] < new)]


def by_sessions(folder: str, rows: Sequence[Row], cuts: Sequence[int]) -> bytes:
    """What the sessions print, joined, or what the first one says that ends with another status than 0."""
    joined = b""
    before = None
    for cut in (*cuts, None):
        put_rows(os.path.join(folder, "x"), between(rows, before, cut))
        first = ("start", "q") if before is None else ("resume", "state")
        last = ("--end",) if cut is None else ("--upto", str(cut), "--save", "state")
        status, written, told = tilt(folder, *first, "x=x", *last)
        if status != 0:
            return told
        joined += written
        before = cut
    return joined


def apart(folder: str, of_x: Sequence[Row], of_y: Sequence[Row], cuts: Sequence[tuple[int, int]]) -> bytes:
    """What sessions print, joined, each with a cut for x and one for y, or what the first one says that ends with another status than 0."""
    joined = b""
    before = None
    for cut in (*cuts, None):
        for place, name, rows in ((0, "x", of_x), (1, "y", of_y)):
            put_rows(os.path.join(folder, name), between(rows, before and before[place], cut and cut[place]))
        first = ("start", "q") if before is None else ("resume", "state")
        last = ("--end",) if cut is None else ("--upto", f"y={cut[1]},x={cut[0]}", "--save", "state")
        status, written, told = tilt(folder, *first, "x=x", "y=y", *last)
        if status != 0:
            return told
        joined += written
        before = cut
    return joined


def check_apart(tally: Tally) -> None:
    """Sessions with cuts of their own for each input print what one run prints."""
    for case in APART:
        query, of_x, of_y = case.query, case.of_x, case.of_y
        with tempfile.TemporaryDirectory() as folder:
            with open(os.path.join(folder, "q"), "w", encoding="utf-8") as file:
                file.write(query)
            put_rows(os.path.join(folder, "x"), of_x)
            put_rows(os.path.join(folder, "y"), of_y)
            whole = tilt(folder, "run", "q", "x=x", "y=y")
            for at_x, at_y in itertools.product(PAIRS, PAIRS):
                joined = apart(folder, of_x, of_y, tuple(zip(at_x, at_y)))
                good = whole[0] == 0 and len(whole[1].splitlines()) > 2 and joined == whole[1]
                tally.expect(good, f"{query} cut at {at_x} and {at_y}: {joined[:200]!r}, wanted {whole!r}"[:600])


def main() -> int:
    build_program()
    tally = Tally()
    check_apart(tally)
    for case in CASES:
        query, rows = case.query, case.rows
        for cuts in case.cuts:
            with tempfile.TemporaryDirectory() as folder:
                with open(os.path.join(folder, "q"), "w", encoding="utf-8") as file:
                    file.write(query)
                put_rows(os.path.join(folder, "x"), rows)
                whole = tilt(folder, "run", "q", "x=x")
                cut = tilt(folder, "run", "q", "x=x", "--cut", ",".join(map(str, cuts)))
                joined = by_sessions(folder, rows, cuts)
            good = whole[0] == 0 and len(whole[1].splitlines()) > 2 and joined == whole[1] and cut == whole
            good = good and case.text in (None, joined)
            tally.expect(good, f"{query} cut at {cuts}: {joined[:200]!r}, {cut[1:]!r}, wanted {whole!r}"[:600])
    return tally.end()


if __name__ == "__main__":
    sys.exit(main())
