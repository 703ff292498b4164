#!/usr/bin/env python3
"""Measures what `tilt-data scale` costs beside `tilt run` for one file after another: `tools/measure/scale.py [KEYS ROWS WORKERS] ..`.

It writes a series of so many rows for each key, and runs a query over all by both, three times in turn. A series is in files of at most
25.2 million rows, since a run takes a file of at most 1 GiB. The outputs are compared: byte by byte, or step by step if a key has several.
For each it prints the least processor seconds of the three runs, the least seconds on the clock, and the load.

`tools/measure/scale.py --table [KEYS ROWS] ..` runs each five times in turn: `tilt run` for one file after another, and for as many files
at a time as there are processors, if there are so many; `scale` with one worker, and with one for each processor. It prints a table. Each
figure is the least of the five, and in parentheses are those of single turns, from the least to the most. Without numbers the table has
40 keys of 2.6 million rows, and one key of 100 million. That takes 2.4 GB of the folder for temporary files (TMPDIR) and 8 GB of memory."""
from __future__ import annotations

import concurrent.futures
import dataclasses
import filecmp
import os
import random
import resource
import shutil
import subprocess
import sys
import tempfile
import time
from typing import Callable

TOP = os.path.dirname(os.path.dirname(os.path.dirname(os.path.realpath(__file__))))
sys.path[:0] = [os.path.join(TOP, "python")]

from tilt_data.program import program

QUERY = "input x; emit sum(x[t-{back}:t]) over ({first}, {last}] every {period};\n"
TIMES, TIMES_OF_TABLE = 3, 5
# How many rows a file has at most, which is a multiple of the period; how many are written at a time; how many keys have rows of their own.
ROWS_OF_FILE, ROWS_AT_ONCE, OWN = 25_200_000, 100_000, 4
# Processor seconds, and seconds on the clock.
Seconds = tuple[float, float]


def write_rows(path: str, key: int, first: int, last: int) -> None:
    draws = random.Random(1)
    values = [draws.randrange(400) for _ in range(9973)]
    with open(path, "w", encoding="ascii") as file:
        file.write("start,end,value\n")
        for begin in range(first, last, ROWS_AT_ONCE):
            ticks = range(begin, min(last, begin + ROWS_AT_ONCE))
            file.write("".join([f"{at},{at + 1},{values[(at * 7 + key * 131) % 9973]}\n" for at in ticks]))


@dataclasses.dataclass
class Case:
    """Series of so many keys in a folder, with a query over the rows of each file, and one over all."""

    folder: str
    keys: int
    rows: int

    def __post_init__(self) -> None:
        self.period = 600 if self.rows > 600 else 1
        end = self.rows // self.period * self.period
        # Of each file of a key its first and its last tick, and the last one with an output.
        firsts = range(0, self.rows, ROWS_OF_FILE)
        self.files = [(first, min(self.rows, first + ROWS_OF_FILE), min(end, first + ROWS_OF_FILE)) for first in firsts]
        self.query = self.put_query("query", 0, end)
        self.queries = [self.put_query(f"query-{number}", first, last) for number, (first, _, last) in enumerate(self.files)]

    def put_query(self, name: str, first: int, last: int) -> str:
        path = os.path.join(self.folder, name)
        with open(path, "w", encoding="ascii") as file:
            file.write(QUERY.format(back=10 * self.period, first=first, last=last, period=self.period))
        return path

    def series(self, key: int, number: int) -> str:
        return os.path.join(self.folder, "data", f"k{key:06d}", f"{number:03d}.csv")

    def all(self) -> list[tuple[int, int]]:
        """Each key with the numbers of its files."""
        return [(key, number) for key in range(self.keys) for number in range(len(self.files))]

    def write(self) -> None:
        """Writes all series. A few keys have rows of their own, and the others have copies of these."""
        for key in range(self.keys):
            os.makedirs(os.path.dirname(self.series(key, 0)))
        with concurrent.futures.ProcessPoolExecutor() as pool:
            own = [pool.submit(write_rows, self.series(*one), one[0], *self.files[one[1]][:2]) for one in self.all() if one[0] < OWN]
            for written in own:
                written.result()
        for key, number in self.all()[OWN * len(self.files) :]:
            shutil.copyfile(self.series(key % OWN, number), self.series(key, number))

    def words(self, key: int, number: int) -> list[str]:
        return [program(), "run", self.queries[number], f"x={self.series(key, number)}"]

    def one_after_another(self) -> Seconds:
        os.makedirs(os.path.join(self.folder, "wanted"), exist_ok=True)
        each = [measured(self.words(*one), self.wanted(*one)) for one in self.all()]
        return sum(one[0] for one in each), sum(one[1] for one in each)

    def at_once(self, workers: int) -> float:
        """The seconds of so many processes at a time, which is how fast any use of this machine's processors can be."""
        begun = time.monotonic()
        with concurrent.futures.ThreadPoolExecutor(workers) as pool:
            list(pool.map(lambda one: subprocess.run(self.words(*one), stdout=subprocess.DEVNULL, check=True), self.all()))
        return time.monotonic() - begun

    def scaled(self, workers: int) -> Seconds:
        """What `scale` takes, whose outputs have to be those of the runs before."""
        out = os.path.join(self.folder, "out")
        words = ["-m", "tilt_data", "scale", self.query, f"x={self.folder}/data/{{key}}/*.csv", "--out", out, "--workers", str(workers)]
        seconds = measured([sys.executable, *words], None)
        if not all(self.is_same(key, os.path.join(out, f"k{key:06d}.csv")) for key in range(self.keys)):
            sys.exit("the outputs differ")
        shutil.rmtree(out)
        return seconds

    def wanted(self, key: int, number: int) -> str:
        return os.path.join(self.folder, "wanted", f"k{key:06d}-{number:03d}.csv")

    def is_same(self, key: int, out: str) -> bool:
        """Whether the output of a key has what the runs printed. One of a later file lacks the rows that the query looks back at."""
        if len(self.files) == 1:
            return filecmp.cmp(self.wanted(key, 0), out, shallow=False)
        steps, found = self.steps(out), 0
        for number, (first, _, _) in enumerate(self.files):
            known = first + (10 * self.period if first else 0)
            its = {tick: value for tick, value in self.steps(self.wanted(key, number)).items() if tick >= known}
            found += len(its)
            if any(steps.get(tick) != value for tick, value in its.items()):
                return False
        return found == len(steps) - 10 * (len(self.files) - 1)

    def steps(self, path: str) -> dict[int, str]:
        """The value of each step of the grid."""
        with open(path, encoding="ascii") as file:
            lines = [line.split(",") for line in file.readlines()[1:]]
        return {tick: value for start, end, value in lines for tick in range(int(start), int(end), self.period)}


def measured(words: list[str], out: str | None) -> Seconds:
    begun, before = time.monotonic(), processor_seconds()
    with open(out or os.devnull, "wb") as file:
        subprocess.run(words, stdout=file, stderr=subprocess.DEVNULL, check=True)
    return processor_seconds() - before, time.monotonic() - begun


def processor_seconds() -> float:
    """Those of all processes that were started here and have ended."""
    used = resource.getrusage(resource.RUSAGE_CHILDREN)
    return used.ru_utime + used.ru_stime


def in_turns(times: int, *calls: Callable[[], Seconds]) -> list[list[Seconds]]:
    """What each call takes, of which all are called so many times in turn."""
    return list(map(list, zip(*([call() for call in calls] for _ in range(times)))))


def ratio(some: list[float], others: list[float]) -> str:
    """The least of some beside the least of others, and of each turn."""
    each = sorted(one / other for one, other in zip(some, others))
    return f"{min(some) / min(others):.2f} times ({each[0]:.2f} to {each[-1]:.2f})"


def row_of_table(case: Case) -> str:
    case.write()
    workers, before = os.cpu_count() or 1, os.getloadavg()[0]
    enough = len(case.all()) >= workers
    run, alone, several, once = in_turns(
        TIMES_OF_TABLE,
        case.one_after_another,
        lambda: case.scaled(1),
        lambda: case.scaled(workers),
        lambda: (0.0, case.at_once(workers) if enough else 0.0),
    )
    processor, clock = ([one[place] for one in run] for place in (0, 1))
    shown = [
        f"{min(processor):.1f} s, {min(clock):.1f} s",
        f"{min(alone)[0]:.1f} s, {ratio([one[0] for one in alone], processor)}",
        f"{min(one[1] for one in several):.1f} s, {ratio(clock, [one[1] for one in several])} as fast",
        f"{ratio(clock, [one[1] for one in once])}" if enough else "",
    ]
    return f"| {case.keys} | {case.rows:,} | {' | '.join(shown)} | {before:.1f} to {os.getloadavg()[0]:.1f} |"


def print_table(numbers: list[int]) -> None:
    count = os.cpu_count()
    columns = ["keys", "rows of each", "`tilt run`: processor, clock", "one worker: processor", f"{count} workers: clock"]
    print(f"| {' | '.join([*columns, f'{count} of `tilt run` at once: times as fast', 'load'])} |\n{'|---' * 7}|", flush=True)
    for keys, rows in zip(numbers[::2], numbers[1::2]):
        with tempfile.TemporaryDirectory() as folder:
            print(row_of_table(Case(folder, keys, rows)), flush=True)


def measure(case: Case, workers: int) -> None:
    case.write()
    some = in_turns(TIMES, case.one_after_another, lambda: case.scaled(workers))
    run, scale = (min(its)[0] for its in some)
    clocks = " and ".join(f"{min(one[1] for one in its):.1f}" for its in some)
    print(
        f"{case.keys} keys of {case.rows} rows, {workers} workers: `tilt run` {run:.2f} s, `scale` {scale:.2f} s of a processor, "
        f"{scale / run:.2f} times; clock {clocks} s; load {os.getloadavg()[0]:.0f}",
        flush=True,
    )


def main(words: list[str]) -> int:
    os.environ["PYTHONPATH"] = os.path.join(TOP, "python")
    if words[:1] == ["--table"]:
        print_table([int(word) for word in words[1:]] or [40, 2_600_000, 1, 100_000_000])
        return 0
    numbers = [int(word) for word in words] or [20, 200_000, 1, 2000, 5, 1, 4, 2_600_000, 1]
    for at in range(0, len(numbers), 3):
        keys, rows, workers = numbers[at : at + 3]
        with tempfile.TemporaryDirectory() as folder:
            measure(Case(folder, keys, rows), workers)
    return 0


if __name__ == "__main__":
    sys.exit(main(sys.argv[1:]))
