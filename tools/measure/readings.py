#!/usr/bin/env python3
"""Counts the instructions of `tilt-live --time ..` for each reading, beside those of `tilt-live` and `tilt run` on the same data as rows of
ticks, and of a program in Rust that was written by hand (readings.rs): `tools/measure/readings.py [--table] [--functions N] [--seconds]
[--programs FOLDER]`.

The readings are those of two sensors in one file, in turn. Their dates have an offset and three times in four milliseconds, and their
decimals have one place or two. Each number is the difference between 50,000 and 25,000 readings, divided by 25,000, so what a process takes
to start isn't in it. All programs have to print the same bytes.

With --seconds it also takes the time of 1,000,000 readings, in seconds of a processor, the best of three runs.

It isn't part of the gate: it takes a minute, and it measures. It needs valgrind and rustc. The last line is 'N passed, M failed', and the
status is 1 if one failed. With --table its table is written to docs/internals/MEASUREMENTS.md."""
from __future__ import annotations

import argparse
import datetime
import os
import random
import subprocess
import sys
import tempfile
from typing import Iterator, Sequence

sys.path.insert(0, os.path.dirname(os.path.dirname(os.path.realpath(__file__))))

from measure.live import HEADER, Feed, Programs, instructions, programs_of, write
from measure.work import PAGE, SEED, by_function
from shared.tables import markdown, write_table
from shared.tally import Tally

FEW, MANY, TIMED = 25_000, 50_000, 1_000_000
ORIGIN = datetime.datetime(2026, 3, 1, 8)
OPTIONS = ["--time", "time", "--name", "sensor", "--value", "value", "--tick", "1s", "--origin", f"{ORIGIN.isoformat()}Z"]
SCALES = {"temperature": 10, "pressure": 100}
INPUTS = "".join(f"input {name};\n" for name in SCALES)
# The queries, and whether the program in Rust prints what they emit.
QUERIES = {
    "reading and printing alone": ("emit temperature over (0, 84000000];\n", True),
    "average over a minute": ("emit avg(temperature[t-60:t]) over (0, 84000000] every 60;\n", False),
}
HEADS = ["query", "Rust, by hand", "`tilt run`, rows", "`tilt-live`, rows", "`tilt-live`, readings", "beside Rust", "beside `tilt run`"]


def readings(count: int) -> Iterator[tuple[str, datetime.timedelta, int]]:
    """The name, the time since the origin and the value at its scale of each reading."""
    chance = random.Random(f"{SEED} readings")
    second = 0
    for place in range(count):
        name = list(SCALES)[place % 2]
        if place % 2 == 0:
            second += chance.choice((1, 1, 1, 2, 5))
        milliseconds = chance.choice((0, *(chance.randrange(1000) for _ in range(3))))
        value = chance.randint(-500, 5000) if name == "temperature" else chance.randint(90000, 110000)
        yield name, datetime.timedelta(seconds=second, milliseconds=milliseconds), value


def decimal(value: int, scale: int) -> str:
    whole, part = divmod(abs(value), scale)
    return f"{'-' if value < 0 else ''}{whole}.{part:0{len(str(scale)) - 1}}"


def lines_of_readings(count: int) -> Iterator[str]:
    yield "time,sensor,value\n"
    for name, since, value in readings(count):
        moment = ORIGIN + since + datetime.timedelta(hours=1)
        fraction = f".{moment.microsecond // 1000:03}" if moment.microsecond else ""
        yield f"{moment:%Y-%m-%dT%H:%M:%S}{fraction}+01:00,{name},{decimal(value, SCALES[name])}\n"


def rows_of_readings(count: int) -> dict[str, list[str]]:
    """A row from each reading of a sensor to its next one. The last one has none."""
    marks: dict[str, list[tuple[int, int]]] = {name: [] for name in SCALES}
    for name, since, value in readings(count):
        marks[name].append((since // datetime.timedelta(seconds=1), value))
    return {name: [f"{start},{end},{value}\n" for (start, value), (end, _) in zip(each, each[1:])] for name, each in marks.items()}


class Laid:
    """So many readings in a folder, as readings and as rows, and the commands that take them."""

    def __init__(self, folder: str, programs: Programs, hand: str, query: str, count: int) -> None:
        rows = rows_of_readings(count)
        ends = [(int(row.split(",")[1]), f"{name},{row}") for name, each in rows.items() for row in each]
        path = write(folder, "query.tilt", [INPUTS, query])
        binds = [f"{name}={write(folder, name + '.csv', [HEADER, *each])}" for name, each in rows.items()]
        feed = Feed(write(folder, "rows.csv", (line for _, line in sorted(ends, key=lambda pair: pair[0]))))
        lines = Feed(write(folder, "readings.csv", lines_of_readings(count)))
        scales = ",".join(f"{name}={scale}" for name, scale in SCALES.items())
        self.folder = folder
        self.by_hand: tuple[list[str], Feed | None] = ([hand], lines)
        self.by_run: tuple[list[str], Feed | None] = ([programs.run, "run", path, *binds], None)
        self.by_rows: tuple[list[str], Feed | None] = ([programs.live, path], feed)
        self.by_readings: tuple[list[str], Feed | None] = ([programs.live, path, *OPTIONS, "--scale", scales], lines)

    def all(self) -> list[tuple[list[str], Feed | None]]:
        return [self.by_hand, self.by_run, self.by_rows, self.by_readings]


def outputs_agree(laid: Laid, is_by_hand: bool) -> bool:
    """Whether all print the same, as far as both have it: the last reading makes more known than the last row."""
    first = 0 if is_by_hand else 1
    texts = []
    for words, feed in laid.all()[first:]:
        with open(feed.path if feed else os.devnull, "rb") as file:
            texts.append(subprocess.run(words, stdin=file, capture_output=True, check=True).stdout.splitlines())
    shortest = min(map(len, texts))
    are_same = all(text[: shortest - 1] == texts[0][: shortest - 1] for text in texts)
    return shortest > 100 and max(map(len, texts)) <= shortest + 2 and are_same


def measure(name: str, programs: Programs, hand: str, given: argparse.Namespace, tally: Tally) -> list[str]:
    query, is_by_hand = QUERIES[name]
    with tempfile.TemporaryDirectory(prefix="readings.") as few, tempfile.TemporaryDirectory(prefix="readings.") as many:
        both = [Laid(few, programs, hand, query, FEW), Laid(many, programs, hand, query, MANY)]
        tally.expect(all(outputs_agree(laid, is_by_hand) for laid in both), f"{name}: the programs print other bytes")
        counts = [[instructions(*command, os.path.join(laid.folder, "out"), laid.folder) for command in laid.all()] for laid in both]
        if given.functions:
            print(f"{name}:\n{by_function(many, given.functions)}\n", flush=True)
    each = [(more - less) / (MANY - FEW) for less, more in zip(*counts)]
    cells = [f"{count:,.0f}" for count in each]
    beside = [f"{each[3] / each[0]:.2f}", f"{each[3] / each[1]:.2f}"]
    return [name, *cells, *beside] if is_by_hand else [name, "", *cells[1:], "", beside[1]]


def seconds(words: Sequence[str], feed: Feed | None) -> float:
    """Seconds of a processor in the program itself, without the system's."""
    with open(feed.path if feed else os.devnull, "rb") as file:
        process = subprocess.Popen(words, stdin=file, stdout=subprocess.DEVNULL)
        _, ended, usage = os.wait4(process.pid, 0)
    process.returncode = os.waitstatus_to_exitcode(ended)
    if process.returncode != 0:
        raise SystemExit(f"status {process.returncode} of {' '.join(words)}")
    return float(usage.ru_utime)


def take_times(programs: Programs, hand: str) -> str:
    query, _ = next(iter(QUERIES.values()))
    with tempfile.TemporaryDirectory(prefix="readings.") as folder:
        laid = Laid(folder, programs, hand, query, TIMED)
        best = [min(seconds(*command) for _ in range(3)) for command in laid.all()]
    return markdown(["", *HEADS[1:5]], [["seconds of 1,000,000 readings", *(f"{time:.2f}" for time in best)]])


def main(arguments: Sequence[str]) -> int:
    words = argparse.ArgumentParser(description="Counts the instructions of tilt-live for each reading.")
    words.add_argument("--table", action="store_true", help="write the table to the page")
    words.add_argument("--functions", type=int, default=0, help="show so many functions with the most instructions")
    words.add_argument("--seconds", action="store_true", help="take times too")
    words.add_argument("--programs", help="the folder of tilt and tilt-live, if they aren't to be those that are built here")
    given = words.parse_args(arguments)
    tally, programs = Tally(), programs_of(given.programs)
    with tempfile.TemporaryDirectory(prefix="readings.") as folder:
        hand = os.path.join(folder, "hand")
        source = os.path.join(os.path.dirname(os.path.realpath(__file__)), "readings.rs")
        subprocess.run(["rustc", "-O", "--edition", "2024", "-o", hand, source], check=True)
        table = markdown(HEADS, [measure(name, programs, hand, given, tally) for name in QUERIES])
        print(table, take_times(programs, hand) if given.seconds else "", sep="\n")
    if given.table:
        write_table(PAGE, "readings", table)
    return tally.end()


if __name__ == "__main__":
    sys.exit(main(sys.argv[1:]))
