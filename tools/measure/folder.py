#!/usr/bin/env python3
"""Measures `tilt-live --folder` beside `tilt-live` without a folder: `tools/measure/folder.py [--program PATH] [--in FOLDER] [ROWS LINES]`.

- Lines in a second: a feed of ROWS lines in a file, which is read in pieces of 64 KiB, and LINES lines that are read one by one.
- The latency of a line: from when it is written to the pipe until the file of the output has its row, over LINES lines. The program waits
  for each of them. Without a folder the output goes to a file too.

With `--every 1` each line that is read by itself is committed before the next one is read, so these figures are about the disk of the
folder: `--in` says where the folders are made. The counts of lines are the best of three runs. The latencies are the middle, the 99th
percentile and the greatest of all three. It isn't part of the gate: call it by hand on an idle machine. Each output has to be right."""
from __future__ import annotations

import argparse
import os
import subprocess
import sys
import tempfile
import time
from typing import IO, Iterator, Sequence

sys.path.insert(0, os.path.dirname(os.path.dirname(os.path.realpath(__file__))))

from shared.program import built_program
from shared.tables import markdown

ROWS = 1_000_000
LINES = 1_000
TIMES = 3
# How long the program may take for one line, and for a feed.
SECONDS = 600
QUERY = "input x;\nemit x + 1 over (0, 4000000000];\n"
HEAD = "start,end,value\n"
# After how many lines there is a commit; none without a folder.
WAYS = [None, 1, 100, 10_000]
HEADS = ["options", "lines a second, from a file", "one by one", "latency of a line, middle", "99 of 100", "greatest"]


def line_of(tick: int) -> str:
    return f"x,{tick},{tick + 1},{tick * 7919 % 100_003}\n"


def row_of(tick: int) -> str:
    return f"{tick},{tick + 1},{tick * 7919 % 100_003 + 1}\n"


class Way:
    """A way to run the program, and the files of a run in a new folder."""

    def __init__(self, program: str, every: int | None, place: str) -> None:
        self.place = place
        self.options = [] if every is None else ["--folder", "kept", "--every", str(every)]
        self.words = [program, "q", *self.options]
        self.output = os.path.join(place, "out" if every is None else os.path.join("kept", "output.csv"))
        with open(os.path.join(place, "q"), "w", encoding="ascii") as file:
            file.write(QUERY)

    def start(self, feed: IO[bytes] | int) -> subprocess.Popen[bytes]:
        with open(os.path.join(self.place, "out"), "wb") as out:
            return subprocess.Popen(self.words, cwd=self.place, stdin=feed, stdout=out, bufsize=0)

    def expect(self, process: subprocess.Popen[bytes], count: int) -> None:
        """The program has to end, with the rows of so many lines."""
        if process.wait(SECONDS) != 0:
            sys.exit(f"{self.words}: status {process.returncode}")
        with open(self.output, encoding="ascii") as file:
            if file.read() != HEAD + "".join(map(row_of, range(count))):
                sys.exit(f"{self.words}: the output isn't that of {count} lines")

    def seconds_for_file(self, rows: int) -> float:
        path = os.path.join(self.place, "feed")
        with open(path, "w", encoding="ascii") as file:
            file.writelines(map(line_of, range(rows)))
        with open(path, "rb") as feed:
            begun = time.monotonic()
            process = self.start(feed)
            process.wait(SECONDS)
            ended = time.monotonic()
        self.expect(process, rows)
        return ended - begun

    def seconds_for_lines(self, lines: int) -> float:
        """Lines that are packets of a pipe: the program reads each by itself, as fast as it goes."""
        source, sink = os.pipe2(os.O_DIRECT)
        process = self.start(source)
        os.close(source)
        wait_for(self.output, len(HEAD), process)
        begun = time.monotonic()
        for tick in range(lines):
            os.write(sink, line_of(tick).encode())
        os.close(sink)
        process.wait(SECONDS)
        ended = time.monotonic()
        self.expect(process, lines)
        return ended - begun

    def latencies(self, lines: int) -> list[float]:
        process = self.start(subprocess.PIPE)
        assert process.stdin
        length = len(HEAD)
        wait_for(self.output, length, process)
        found = []
        for tick in range(lines):
            length += len(row_of(tick))
            line = line_of(tick).encode()
            begun = time.perf_counter()
            process.stdin.write(line)
            wait_for(self.output, length, process)
            found.append(time.perf_counter() - begun)
        process.stdin.close()
        self.expect(process, lines)
        return found


def wait_for(path: str, length: int, process: subprocess.Popen[bytes]) -> None:
    """Waits until a file is so long, and asks all the time, since a pause would be in the figures."""
    end = time.monotonic() + SECONDS
    while not os.path.exists(path) or os.stat(path).st_size < length:
        if process.poll() is not None or time.monotonic() > end:
            sys.exit(f"{path} doesn't get {length} bytes")


def measure(program: str, every: int | None, places: Iterator[str], rows: int, lines: int) -> list[str]:
    """The cells of a way: each run has a place of its own."""
    by_file = min(Way(program, every, next(places)).seconds_for_file(rows) for _ in range(TIMES))
    by_lines = min(Way(program, every, next(places)).seconds_for_lines(lines) for _ in range(TIMES))
    found = sorted(latency for _ in range(TIMES) for latency in Way(program, every, next(places)).latencies(lines))
    shown = [f"{found[place] * 1e6:,.0f} µs" for place in (len(found) // 2, len(found) * 99 // 100, -1)]
    name = "no folder" if every is None else f"`--folder F --every {every}`"
    return [name, f"{rows / by_file:,.0f}", f"{lines / by_lines:,.0f}", *shown]


def new_places(top: str) -> Iterator[str]:
    while True:
        yield tempfile.mkdtemp(dir=top)


def main(arguments: Sequence[str]) -> int:
    words = argparse.ArgumentParser(description="Measures tilt-live with a folder and without.")
    words.add_argument("counts", nargs="*", type=int, default=[ROWS, LINES], help="how many lines in a file, and one by one")
    words.add_argument("--program", default=built_program("tilt-live"), help="the program that is run")
    words.add_argument("--in", dest="top", help="where the folders are made, on the disk that is measured")
    given = words.parse_args(arguments)
    if len(given.counts) != 2:
        words.error("two counts are needed, or none")
    cells = []
    for every in WAYS:
        with tempfile.TemporaryDirectory(prefix="folder.", dir=given.top) as top:
            cells.append(measure(os.path.abspath(given.program), every, new_places(top), *given.counts))
            print(" | ".join(cells[-1]), file=sys.stderr, flush=True)
    print(markdown(HEADS, cells))
    print(f"load {os.getloadavg()[0]:.1f}")
    return 0


if __name__ == "__main__":
    sys.exit(main(sys.argv[1:]))
