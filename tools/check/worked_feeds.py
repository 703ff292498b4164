#!/usr/bin/env python3
"""Feeds the rows of the worked runs, row by row, to the program below, and compares what it prints after each line:
`tools/check/worked_feeds.py [--program PATH] [--most N]`.

A worked run is a call of `run` in tools/check/calls that exits with status 0. Each one is fed, with fusion and without, in every order
that keeps the order of each input if it has at most 8 rows, and otherwise in N orders drawn from a fixed seed:

- each row as one line;
- each row as a value from its start on, which the next line of its input ends.

The first 100 orders are also fed with an engine that is dropped after each line, and another one in its place.

After each line the program has to print what tools/check/feeds.py works out of the rows so far. Once the feed is finished, what it printed
has to be what the call prints. A session that ends by a cut is fed too: its rows that start below the cut, and then that each input is
known up to the cut, if none of its rows reaches beyond. What the session prints has to begin what is printed then.

`tools/check/random_feeds.py` says how the program reads and prints. The last line is 'N passed, M failed', where each run of the program
counts for each of its feeds and for its end; the status is 1 if one failed."""
from __future__ import annotations

import argparse
import csv
import dataclasses
import os
import random
import sys
from typing import Iterator, Sequence

sys.path.insert(0, os.path.dirname(os.path.dirname(os.path.realpath(__file__))))

from check.evaluate import Row
from check.feeds import Change, Feed, Finish, KnownUpTo, Line, NoValueFrom, Query, ValueFrom, WholeRow, empty_feed, events_of
from check.feeds import printed_and_begun, query_of
from check.random_feeds import PROGRAM, Answer, Case, Output, answer_of, check_run, taken
from shared import calls
from shared.tally import Tally

SEED = 56
# Up to this number of rows all orders are fed.
FEW_ROWS = 8
# So many orders of a run, at most, are fed to engines that are dropped after each line.
MOST_RESUMED = 100
# Runs with more rows are left out: they are about time and memory.
MOST_ROWS = 60
HEADER = "start,end,value\n"


@dataclasses.dataclass(frozen=True)
class Worked:
    """A query, the rows of each of its inputs, what is printed of them, and the cut if a session ends there."""

    text: str
    rows: dict[str, list[Row]]
    out: str
    cut: int | None


# The worked runs


def rows_of(series: str) -> list[Row]:
    fields = [record for record in csv.reader(series.splitlines()) if record][1:]
    return [(int(start), int(end), int(value) if value else None) for start, end, value in fields]


def binds_of(words: Sequence[str], names: Sequence[str]) -> dict[str, str]:
    """The file of each input that arguments bind."""
    bound = dict(word.split("=", 1) for word in words if "=" in word)
    return {name: bound[name] for name in names}


def cut_of(words: Sequence[str]) -> int | None:
    return int(words[words.index("--upto") + 1]) if "--upto" in words else None


def worked_of(call: calls.Row) -> Worked | None:
    """The run of a call, unless the call is none, or is one of many rows or with options that this doesn't know."""
    words, files = call.get("words", []), call.get("files", {})
    if call.get("status") != 0 or words[:1] not in (["run"], ["start"]) or {"--cut", "--plain"} & set(words) or "figures" in call:
        return None
    if not all(isinstance(file, str) for file in files.values()) or words[1] not in files:
        return None
    text = files[words[1]]
    binds = binds_of(words[2:], query_of(text).inputs)
    if not set(binds.values()) <= set(files):
        return None
    rows = {name: rows_of(files[file]) for name, file in binds.items()}
    return Worked(text, rows, call.get("out", ""), cut_of(words)) if sum(map(len, rows.values())) <= MOST_ROWS else None


def all_worked() -> Iterator[Worked]:
    """Each worked run once."""
    seen = set()
    for test in calls.all_tests():
        for call in test.calls:
            worked = worked_of(call)
            if worked is not None and (key := repr(worked)) not in seen:
                seen.add(key)
                yield worked


# The feeds of a run


def lines_by_rows(name: str, rows: Sequence[Row]) -> list[Line]:
    return [Change(name, WholeRow(*row)) for row in rows]


def lines_by_values(name: str, rows: Sequence[Row]) -> list[Line]:
    """Each row is a value from its start on. The next row ends it if it begins there, and otherwise a line that says so does."""
    lines: list[Line] = []
    for at, (start, end, value) in enumerate(rows):
        if value is None:
            lines.append(Change(name, WholeRow(start, end, value)))
            continue
        lines.append(Change(name, ValueFrom(start, value)))
        if rows[at + 1 : at + 2] == [] or rows[at + 1][0] != end:
            lines.append(Change(name, NoValueFrom(end)))
    return lines


def all_orders(counts: Sequence[int]) -> Iterator[list[int]]:
    """Each order of inputs in which each input occurs as often as its count says."""
    if not any(counts):
        yield []
    for at, count in enumerate(counts):
        if count:
            left = [*counts[:at], count - 1, *counts[at + 1 :]]
            yield from ([at, *order] for order in all_orders(left))


def some_orders(counts: Sequence[int], most: int) -> list[list[int]]:
    """All orders of a few lines, or this number of them."""
    if sum(counts) <= FEW_ROWS or sum(1 for count in counts if count) <= 1:
        return list(all_orders(counts))
    draw = random.Random(SEED)
    order = [at for at, count in enumerate(counts) for _ in range(count)]
    return [draw.sample(order, len(order)) for _ in range(most)]


class Feeds:
    """The feeds of a query over lines of its inputs. What is expected after a line depends only on how many of each input came."""

    def __init__(self, query: Query, lines: Sequence[Sequence[Line]]) -> None:
        self.query, self.lines = query, lines
        self.known: dict[tuple[int, ...], tuple[Feed, Output]] = {}

    def after(self, feed: Feed, line: Line, counts: tuple[int, ...]) -> tuple[Feed, Output]:
        if counts not in self.known:
            feed, fault = taken(feed, events_of(line, self.query.inputs))
            assert fault is None, (line, fault)
            self.known[counts] = feed, Output(*printed_and_begun(self.query, feed))
        return self.known[counts]

    def case(self, order: Sequence[int], cut: int | None) -> Case:
        """The lines in this order, and then the end of the feed; or, if there is a cut, that each input is known up to it."""
        case, feed, given = Case([], [], []), empty_feed(self.query.inputs), 0
        counts = [0] * len(self.lines)
        for at in order:
            line = self.lines[at][counts[at]]
            counts[at] += 1
            feed, now = self.after(feed, line, tuple(counts))
            given = add(case, line, now, given)
        for at, line in enumerate(last_lines(feed, cut), 1):
            feed, now = self.after(feed, line, (-at,))
            given = add(case, line, now, given)
        return case


def add(case: Case, line: Line, now: Output, given: int) -> int:
    """Adds a line with what is expected after it, and returns how many snapshots were printed by then."""
    case.lines.append(line)
    case.wanted.append(answer_of(now.printed[given:], now.begun))
    return len(now.printed)


def last_lines(feed: Feed, cut: int | None) -> list[Line]:
    """The end of the feed; or that the inputs are known up to a cut, unless one is known further by a row that reaches beyond it."""
    if cut is None:
        return [Finish()]
    return [Change(name, KnownUpTo(cut)) for name, known in feed.inputs.items() if known.watermark <= cut]


def cases_of(worked: Worked, by_values: bool, most: int) -> list[Case]:
    query, below = query_of(worked.text), worked.cut
    lines = []
    for name in query.inputs:
        rows = [row for row in worked.rows[name] if below is None or row[0] < below]
        lines.append((lines_by_values if by_values else lines_by_rows)(name, rows))
    feeds = Feeds(query, lines)
    return [feeds.case(order, worked.cut) for order in some_orders([len(of) for of in lines], most)]


# The checks


def text_of(wanted: Sequence[Answer]) -> str:
    """What a feed printed, as `run` prints it: without what has begun, and without null."""
    rows = [line.split(",") for answer in wanted for line in answer]
    return HEADER + "".join(f"{start},{end},{value}\n" for start, end, value in rows if end and value)


def check_worked(worked: Worked, by_values: bool, program: str, most: int, tally: Tally) -> None:
    cases = cases_of(worked, by_values, most)
    for case in cases[:1]:
        printed = text_of(case.wanted)
        good = printed == worked.out if worked.cut is None else printed.startswith(worked.out)
        tally.expect(good, f"{worked.text}\nthe call prints {worked.out!r}, and its feed {printed!r}")
    check_run([program, "q"], worked.text, cases, tally)
    check_run([program, "q", "--plain"], worked.text, cases, tally)
    check_run([program, "q", "--resumed", "1"], worked.text, cases[:MOST_RESUMED], tally)


def main(arguments: Sequence[str]) -> int:
    words = argparse.ArgumentParser(description="Feeds the rows of the worked runs.")
    words.add_argument("--program", default=PROGRAM, help="the program that is run")
    words.add_argument("--most", type=int, default=1000, help="how many orders of more than eight rows are fed")
    chosen = words.parse_args(arguments)
    program, tally = os.path.abspath(chosen.program), Tally()
    if not os.access(program, os.X_OK):
        tally.expect(False, f"{program} isn't built")
        return tally.end()
    for worked in all_worked():
        for by_values in (False, True):
            check_worked(worked, by_values, program, chosen.most, tally)
    return tally.end()


if __name__ == "__main__":
    sys.exit(main(sys.argv[1:]))
