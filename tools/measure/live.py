#!/usr/bin/env python3
"""Counts the instructions of `tilt-live` for each row of a feed, beside those of `tilt run` on the same rows:
`tools/measure/live.py [--table] [--only WORD] [--functions N] [--line-by-line]
[--programs FOLDER]`.

The works and their rows are those of tools/measure/work.py. The feed has the rows of all inputs in the order of their ends, and then `,,,`.
`tilt run` reads and prints them too. It is also counted how the work grows with the width of a window, and if one input is far ahead of
another. Both programs have to print the same bytes.

Of each program it is counted too what it takes for the same rows if the query reads none of its inputs: that is for reading the rows, and
in `tilt-live` also for taking them. With --line-by-line each read of `tilt-live` gives one line, so that it prints after each line.

It isn't part of the gate: it takes some minutes, and it measures. It needs valgrind. The last line is 'N passed, M failed', and the status
is 1 if one failed. With --table its table is written to docs/internals/MEASUREMENTS.md."""
from __future__ import annotations

import argparse
import dataclasses
import filecmp
import os
import random
import socket
import subprocess
import sys
import tempfile
from typing import Iterable, Iterator, Sequence

sys.path.insert(0, os.path.dirname(os.path.dirname(os.path.realpath(__file__))))

from measure.work import BENCH, PAGE, SEED, WORKS, Work, by_function, touching
from shared.program import built_program
from shared.tables import markdown, write_table
from shared.tally import Tally

ROWS = 25_000
WIDTHS = (10, 10_000, 1_000_000)
# How far one input is ahead of the other: all of its rows come first.
AHEAD = 100_000
HEADER = "start,end,value\n"
# The rows of the widths are so many times as long as those of the works: the series has to be longer than the widest window.
LONGER = 100
HEADS = ["work", "`tilt run`", "of it reading", "`tilt-live`", "of it reading and taking", "times as many", "with `--begun`"]


@dataclasses.dataclass(frozen=True)
class Case:
    """A query, the rows of its inputs, and whether the rows of an input come only when those of the one before it have come."""

    name: str
    query: str
    rows: dict[str, list[str]]
    one_after_another: bool = False

    def unread(self) -> str:
        """A query with the same inputs that reads none of them."""
        return "".join(f"input {name};\n" for name in self.rows) + "emit 1 over (0, 1];\n"

    def count(self) -> int:
        return sum(len(rows) for rows in self.rows.values())

    def feed(self) -> Iterator[str]:
        lines = [(int(row.split(",")[1]), f"{name},{row}") for name, rows in self.rows.items() for row in rows]
        for _, line in lines if self.one_after_another else sorted(lines, key=lambda pair: pair[0]):
            yield line
        yield ",,,\n"


def case_of(work: Work) -> Case:
    with open(os.path.join(BENCH, work.name + ".tilt"), encoding="ascii") as file:
        query = file.read()
    rows = {name: list(maker(random.Random(f"{SEED} {work.name} {name}"), ROWS)) for name, maker in work.inputs.items()}
    return Case(work.what, query, rows)


def longer(rows: Iterable[str]) -> Iterator[str]:
    """The rows, each so many times as long."""
    for row in rows:
        start, end, value = row.split(",")
        yield f"{LONGER * int(start)},{LONGER * int(end)},{value}"


def cases() -> Iterator[Case]:
    yield from map(case_of, WORKS)
    rows = list(longer(touching(random.Random(f"{SEED} widths"), ROWS)))
    for width in WIDTHS:
        yield Case(f"slide of a sum over {width:,} ticks", f"input x;\nemit sum(x[t-{width}:t]) over (0, 80000000];\n", {"x": rows})
        nested = f"let m = avg(x[t-10:t]) every 10;\nemit avg(m[t-{width}:t]) over (0, 80000000] every 10;\n"
        yield Case(f"average over {width:,} ticks of averages of ten", f"input x;\n{nested}", {"x": rows})
    far = {name: list(touching(random.Random(f"{SEED} far {name}"), AHEAD)) for name in ("x", "y")}
    for behind in (False, True):
        name = f"sum of two inputs, {'one of which is 100,000 rows ahead' if behind else 'in step, 100,000 rows each'}"
        yield Case(name, "input x;\ninput y;\nemit x + y over (0, 8000000];\n", far, behind)


@dataclasses.dataclass(frozen=True)
class Feed:
    """A feed in a file, and whether each read of it gives one line."""

    path: str
    by_line: bool = False


def send_lines(feed: Feed, to: socket.socket) -> None:
    """Sends each line as a packet: a read gives one packet at most."""
    with open(feed.path, "rb") as file:
        for line in file:
            to.send(line)


def run_counted(words: Sequence[str], feed: Feed | None, out: str) -> None:
    with open(out, "wb") as to:
        if feed is None or not feed.by_line:
            with open(feed.path if feed else os.devnull, "rb") as file:
                subprocess.run(words, stdin=file, stdout=to, check=True)
            return
        ours, theirs = socket.socketpair(socket.AF_UNIX, socket.SOCK_SEQPACKET)
        process = subprocess.Popen(words, stdin=theirs.fileno(), stdout=to)
        theirs.close()
        with ours:
            send_lines(feed, ours)
        if process.wait() != 0:
            raise SystemExit(f"status {process.returncode} of {' '.join(words)}")


def instructions(words: Sequence[str], feed: Feed | None, out: str, folder: str) -> int:
    """How many instructions a command takes from its start to its end, by callgrind."""
    counts = os.path.join(folder, "counts")
    run_counted(["valgrind", "-q", "--tool=callgrind", f"--callgrind-out-file={counts}", *words], feed, out)
    with open(counts, encoding="utf-8", errors="replace") as file:
        return max(int(line.split()[1]) for line in file if line.startswith(("summary:", "totals:")))


@dataclasses.dataclass(frozen=True)
class Programs:
    run: str
    live: str


def programs_of(folder: str | None) -> Programs:
    """Those of a folder, or those that are built here."""
    if folder is None:
        return Programs(built_program("tilt"), built_program("tilt-live"))
    return Programs(os.path.join(folder, "tilt"), os.path.join(folder, "tilt-live"))


def write(folder: str, name: str, lines: Iterable[str]) -> str:
    path = os.path.join(folder, name)
    with open(path, "w", encoding="ascii") as file:
        file.writelines(lines)
    return path


def measure(case: Case, given: argparse.Namespace, tally: Tally) -> list[str]:
    programs = programs_of(given.programs)
    with tempfile.TemporaryDirectory(prefix="live.") as folder:
        query, unread = write(folder, "query.tilt", [case.query]), write(folder, "unread.tilt", [case.unread()])
        feed = Feed(write(folder, "feed.csv", case.feed()), given.line_by_line)
        binds = [f"{name}={write(folder, name + '.csv', [HEADER, *rows])}" for name, rows in case.rows.items()]
        one, other = os.path.join(folder, "one"), os.path.join(folder, "other")
        reading = instructions([programs.run, "run", unread, *binds], None, one, folder)
        taking = instructions([programs.live, unread], feed, other, folder)
        by_run = instructions([programs.run, "run", query, *binds], None, one, folder)
        begun = instructions([programs.live, query, "--begun"], feed, other, folder)
        by_live = instructions([programs.live, query], feed, other, folder)
        if given.functions:
            print(f"{case.name}:\n{by_function(folder, given.functions)}\n", flush=True)
        tally.expect(filecmp.cmp(one, other, shallow=False), f"{case.name}: tilt-live prints other bytes than tilt run")
    each = [f"{count / case.count():,.0f}" for count in (by_run, reading, by_live, taking, begun)]
    cells = [case.name, *each[:4], f"{by_live / by_run:.2f}", each[4]]
    print(" | ".join(cells), file=sys.stderr, flush=True)
    return cells


def main(arguments: Sequence[str]) -> int:
    words = argparse.ArgumentParser(description="Counts the instructions of tilt-live for each row.")
    words.add_argument("--table", action="store_true", help="write the table to the page")
    words.add_argument("--only", default="", help="only the cases with this word in their names")
    words.add_argument("--functions", type=int, default=0, help="show so many functions with the most instructions")
    words.add_argument("--line-by-line", action="store_true", help="each read of tilt-live gives one line")
    words.add_argument("--programs", help="the folder of tilt and tilt-live, if they aren't to be those that are built here")
    given = words.parse_args(arguments)
    tally = Tally()
    lines = [measure(case, given, tally) for case in cases() if given.only in case.name]
    table = markdown(HEADS, lines)
    print(table)
    if given.table:
        write_table(PAGE, "live line by line" if given.line_by_line else "live", table)
    return tally.end()


if __name__ == "__main__":
    sys.exit(main(sys.argv[1:]))
