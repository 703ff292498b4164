#!/usr/bin/env python3
"""Counts the instructions of `tilt start` and `tilt resume` for each row if a series comes in sessions of 1, 100 and 10,000 rows, beside
those of `tilt-live` on the same rows: `tools/measure/sessions.py [--programs FOLDER]`.

Each session gets the rows that came since the one before, and saves to the file that it reads. All sessions are run; of those of 1 and of
100 rows only some are counted by callgrind, spread over the second half of the series. It needs valgrind, and isn't part of the gate."""
from __future__ import annotations

import argparse
import os
import random
import subprocess
import sys
import tempfile
from typing import Sequence

sys.path.insert(0, os.path.dirname(os.path.dirname(os.path.realpath(__file__))))

from measure.live import HEADER, Feed, instructions, programs_of, write
from measure.work import SEED, touching
from shared.tables import markdown

# How many rows a session has, how many rows come in all, and how many sessions are counted.
SIZES = ((1, 2_000, 10), (100, 20_000, 10), (10_000, 20_000, 1))
QUERIES = {
    "reading and printing alone": "input x;\nemit x over (0, 8000000];\n",
    "slide of a sum over 10 ticks": "input x;\nemit sum(x[t-10:t]) over (0, 8000000];\n",
    "slide of a sum over 10,000 ticks": "input x;\nemit sum(x[t-10000:t]) over (0, 8000000];\n",
}
HEADS = ["query", "`tilt-live`", *(f"sessions of {size:,}" for size, _, _ in SIZES)]


def words_of(run: str, query: str, place: int, part: str, cut: str, state: str) -> list[str]:
    first = ["start", query] if place == 0 else ["resume", state]
    return [run, *first, f"x={part}", "--upto", cut, "--save", state]


def by_sessions(run: str, query: str, rows: list[str], size: int, counted: int, folder: str) -> float:
    """Instructions for each row of the sessions that are counted."""
    state, out = os.path.join(folder, "state"), os.path.join(folder, "out")
    places = range(len(rows) // size)
    chosen = set(places[len(places) // 2 :][:: max(1, len(places) // 2 // counted)][:counted])
    total = 0
    for place in places:
        part = write(folder, "part.csv", [HEADER, *rows[place * size : (place + 1) * size]])
        cut = rows[(place + 1) * size - 1].split(",")[1]
        words = words_of(run, query, place, part, cut, state)
        if place in chosen:
            total += instructions(words, None, out, folder)
        else:
            subprocess.run(words, stdout=subprocess.DEVNULL, check=True)
    return total / (len(chosen) * size)


def main(arguments: Sequence[str]) -> int:
    words = argparse.ArgumentParser(description="Counts the instructions of sessions for each row.")
    words.add_argument("--programs", help="the folder of tilt and tilt-live, if they aren't to be those that are built here")
    given = words.parse_args(arguments)
    programs = programs_of(given.programs)
    rows = list(touching(random.Random(f"{SEED} sessions"), max(count for _, count, _ in SIZES)))
    lines = []
    for name, text in QUERIES.items():
        with tempfile.TemporaryDirectory(prefix="sessions.") as folder:
            query = write(folder, "query.tilt", [text])
            feed = Feed(write(folder, "feed.csv", [*(f"x,{row}" for row in rows), ",,,\n"]))
            live = instructions([programs.live, query], feed, os.path.join(folder, "out"), folder) / len(rows)
            counts = [by_sessions(programs.run, query, rows[:count], size, counted, folder) for size, count, counted in SIZES]
        lines.append([name, *(f"{count:,.0f}" for count in (live, *counts))])
        print(" | ".join(lines[-1]), file=sys.stderr, flush=True)
    print(markdown(HEADS, lines))
    return 0


if __name__ == "__main__":
    sys.exit(main(sys.argv[1:]))
