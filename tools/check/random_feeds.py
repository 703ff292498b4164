#!/usr/bin/env python3
"""Runs random feeds of random queries on the program below, with fusion and without, and compares what it prints after each line with what
tools/check/feeds.py works out:
`tools/check/random_feeds.py [--program PATH | --alone] [--seed N] [--resumed N] [--sessions N] [QUERIES]`.

`PROGRAM QUERYFILE [--plain | --resumed N | --after CHECKPOINT [--plain]]` reads lines of feeds, as `tilt_feed_line` has them without keys;
an empty line begins the next feed. After each other line it prints `start,end,value` for each snapshot that can be printed now and couldn't
before, and `start,,value` if one has begun; or `!` and the fault, if the line isn't allowed; and then the line `.`. A null value is empty.

With `--resumed N` the program drops its live engine after each N lines, and another one goes on from the text of a state. The feeds of one
query in three are run so too, with N = 1, 2 and 3 in turn; `--resumed K` makes it one query in K. After a line that breaks a rule the
engine stays. If that line is for all inputs, the events before the fault were taken, and what they have made final isn't printed yet. An
engine may be dropped only when all of that is.

With `--after CHECKPOINT` a live engine goes on from a checkpoint of sessions. One of ten feeds is run so too; `--sessions N` makes it N.
`tilt start` gets the rows that the feed has up to some line, at which no row is open, and the engine takes the lines from there on. What
the sessions print, without nulls, and what the engine prints have to be the whole.

Of each feed it is checked too that the definitions keep their laws: what is printed goes on from what was printed before, and from what had
begun, and is the output on the rows once the feed is finished. With `--alone` nothing else is checked, and no program is run.

Of each run that differs, the first difference is printed with its query and its feed. The last line is 'N passed, M failed', where a feed
counts for its laws and for each run, and a run for its end; the status is 1 where one failed."""
from __future__ import annotations

import argparse
import dataclasses
import os
import random
import re
import subprocess
import sys
import tempfile
from typing import Iterable, Sequence

sys.path.insert(0, os.path.dirname(os.path.dirname(os.path.realpath(__file__))))

from check.evaluate import REDUCERS, Reader, Row, tokens_of
from check.feeds import T, AllKnownUpTo, Begun, Change, Event, Feed, Finish, InputFeed, KnownUpTo, Line, NoValueFrom, Query, Update
from check.feeds import ValueFrom, WholeRow, after, empty_feed, event_fault, events_of, line_text, printed_and_begun, query_of, rows_now
from shared.paths import BUILT, TOP
from shared.series import field, put_rows
from shared.tally import Tally

SEED = 21
QUERIES = 400
FEEDS_OF_EACH_QUERY = 10
PROGRAM = os.path.join(TOP, "crates", "tilt_run_feeds", "out", "tilt_run_feeds")
# The feeds of one query in so many are run with engines that are dropped after some lines: after these numbers of lines in turn.
RESUMED = 3
LINES_OF_AN_ENGINE = (1, 2, 3)
# So many feeds of each query begin with sessions.
SESSIONS = 1
# How long a run over all feeds of a query may take.
SECONDS = 60

# What is printed after a line: the lines before a `.`.
Answer = list[str]
Grid = tuple[int, int]
# Each source is one of numbers or one of truth values.
NUMBER, TRUTH = "number", "truth"
Sources = dict[str, str]


# Queries

REDUCERS_OF = {NUMBER: [reducer for reducer in REDUCERS if reducer not in ("any", "all")], TRUTH: ["any", "all", "first", "last"]}
CONSTANTS = {NUMBER: ["0", "1", "2", "3", "9223372036854775807"], TRUTH: ["true", "false"]}
# What an expression is made of. Each N is replaced by one of numbers, and each B by one of truth values.
FORMS = {
    NUMBER: ["(N + N)", "(N - N)", "(N * N)", "(N / N)", "(N % N)", "(-N)", "ifnull(N, N)", "(if B then N else N)", "(N when B)"],
    TRUTH: ["(N == N)", "(N != N)", "(N < N)", "(N <= N)", "(N > N)", "(N >= N)", "(B == B)", "(not B)", "(B and B)", "(B or B)"]
    + ["isnull(N)", "isnull(B)", "ifnull(B, B)", "(if B then B else B)", "(B when B)"],
}


def offset_text(ticks: int) -> str:
    return f"t{ticks:+d}" if ticks else "t"


def random_reading(draw: random.Random, source: str) -> str:
    """A source at the tick itself, or before it, or after it."""
    return source if draw.random() < 0.5 else f"{source}[{offset_text(draw.choice([-7, -3, -2, -1, 0, 1, 2, 5]))}]"


def random_window(draw: random.Random, source: str, reducers: Sequence[str]) -> str:
    """A window that ends at the tick itself, or before it, or after it."""
    high = draw.choice([0, 0, 0, -2, -1, 1, 3])
    low = high - draw.choice([1, 2, 3, 4, 6, 10, 24])
    return f"{draw.choice(reducers)}({source}[{offset_text(low)}:{offset_text(high)}])"


def random_leaf(draw: random.Random, sources: Sources, kind: str) -> str:
    """A constant, a reading or a window of this kind. The last source is read more often than others, so that few are read by none."""
    if not sources or draw.random() < 0.07:
        return draw.choice(CONSTANTS[kind])
    name = draw.choice([*sources, *[[*sources][-1]] * 3])
    if kind == NUMBER and draw.random() < 0.1:
        return random_window(draw, name, ["count"])
    if sources[name] == kind:
        return random_reading(draw, name) if draw.random() < 0.5 else random_window(draw, name, REDUCERS_OF[kind])
    read = random_reading(draw, name)
    return f"(if {read} then {draw.choice([1, 2])} else 0)" if kind == NUMBER else f"({read} > {draw.choice([-1, 0, 1, 2])})"


def random_body(draw: random.Random, sources: Sources, kind: str, depth: int) -> str:
    """An expression of this kind, with operators inside one another down to this depth."""
    if depth == 0 or draw.random() < 0.3:
        return random_leaf(draw, sources, kind)

    def operand(letter: re.Match[str]) -> str:
        return random_body(draw, sources, NUMBER if letter.group() == "N" else TRUTH, depth - 1)

    return re.sub("[NB]", operand, draw.choice(FORMS[kind]))


def random_grids(draw: random.Random) -> list[Grid]:
    """Few grids for one query, so that definitions share them. Their periods are equal or multiples, or have no common factor."""
    grids = [(1, 0)]
    for _ in range(draw.randint(0, 3)):
        period = draw.choice([2, 2, 3, 4, 5, 6, 10])
        grids.append((period, draw.choice([0, 0, draw.randrange(period)])))
    return grids


def grid_text(grid: Grid) -> str:
    period, offset = grid
    return "" if period == 1 else f" every {period}" + (f" from {offset}" if offset else "")


def random_span(draw: random.Random, grid: Grid, base: int, ends: Sequence[int]) -> str:
    """A span that begins around where the first rows do, and has one of these ends, as near as grid points are."""
    period, offset = grid
    start = max(-T, base + draw.randint(-16, 3))
    start += (offset - start) % period
    end = min(T, draw.choice(ends))
    end -= (end - offset) % period
    return f" over ({start}, {max(end, start + period)}]"


def random_query(draw: random.Random, base: int) -> str:
    """A query whose spans lie around a tick."""
    sources: Sources = {name: NUMBER for name in ("x", "y", "z")[: draw.choice([1] * 7 + [2] * 7 + [3] * 4 + [0])]}
    statements = [f"input {name};\n" for name in sources]
    grids = random_grids(draw)
    for number in range(draw.choice([0, 1, 1, 2, 2, 3, 4])):
        grid, kind = draw.choice(grids), draw.choice([NUMBER, NUMBER, NUMBER, TRUTH])
        body = random_body(draw, sources, kind, draw.randint(0, 2))
        span = random_span(draw, grid, base, [base, base + 5, base + 11, base + 20, base + 40]) if draw.random() < 0.2 else ""
        statements.append(f"let d{number} = {body}{span}{grid_text(grid)};\n")
        sources[f"d{number}"] = kind
    grid = draw.choice(grids)
    # It ends among the first rows, or about where the last ones are, or far behind them.
    ends = [base + ticks for ticks in (4, 12, 20, 30, 40, 60, 60, 100, 100, 1000000, 1000000)]
    span = random_span(draw, grid, base, [*ends, T])
    statements.append(f"emit {random_body(draw, sources, NUMBER, draw.randint(0, 2))}{span}{grid_text(grid)};\n")
    return "".join(statements)


# Feeds


@dataclasses.dataclass(frozen=True)
class Pace:
    """Of an input: how often it speaks beside others, and where its first row begins at the earliest."""

    name: str
    weight: int
    first: int


def random_value(draw: random.Random) -> int:
    return draw.choice([0, 1, 1, 2, 2, 3, -1, draw.randint(-9, 9), draw.choice([2**63 - 1, -(2**63)])])


def next_update(draw: random.Random, known: InputFeed, first: int) -> Update:
    """An update that is allowed, unless it lies beyond T."""
    if known.open_row and draw.random() < 0.4:
        # The open row ends where it is known to go on, or later.
        return WholeRow(known.open_row[0], known.watermark + draw.choice([0, 0, 1, 3]), known.open_row[1])
    start = max(known.watermark, first) + draw.choice([0, 0, 0, 0, 1, 2, 5])
    end = start + draw.choice([1, 1, 2, 3, 7])
    # At times the value is that of the row before.
    value = known.rows[-1][2] if known.rows and draw.random() < 0.3 else random_value(draw)
    far = draw.choice([start + 40, start + 40, start + 400, start + 400, T])
    updates: list[Update] = [*[WholeRow(start, end, value)] * 8, *[WholeRow(start, end, None)] * 2, *[NoValueFrom(start)] * 2]
    updates += [*[ValueFrom(start, random_value(draw) if value is None else value)] * 5, *[KnownUpTo(start)] * 3, KnownUpTo(far)]
    return draw.choice(updates)


def doubtful_update(draw: random.Random, known: InputFeed) -> Update:
    """An update that breaks a rule, or is allowed only just."""
    late = known.watermark - draw.choice([0, 1, 1, 2, 5])
    beyond = draw.choice([T, T + 1, 2**63 - 1, -T - 1])
    updates: list[Update] = [*[WholeRow(late, late + draw.choice([0, 1, 3]), draw.choice([1, None]))] * 2]
    updates += [WholeRow(known.watermark, known.watermark - draw.choice([0, 1]), 1), WholeRow(known.watermark, beyond, 1)]
    updates += [ValueFrom(late, 2), ValueFrom(beyond, 2), NoValueFrom(late), NoValueFrom(beyond), KnownUpTo(late), KnownUpTo(beyond)]
    if known.open_row:
        # The open row with an end that may come too early, and almost the open row.
        start, value = known.open_row
        updates += [WholeRow(start, late, value), WholeRow(start, known.watermark + 1, value // 2 + 1)]
    return draw.choice(updates)


def random_line(draw: random.Random, feed: Feed, paces: Sequence[Pace], base: int) -> Line:
    """A line for one input, or at times for all of them."""
    if not paces or draw.random() < 0.06:
        begun = [known.watermark for known in feed.inputs.values() if -T < known.watermark < T] or [base]
        return AllKnownUpTo(draw.choice([max(begun), max(begun) + 1, max(begun) + 4, min(begun)]))
    pace = draw.choices(paces, [pace.weight for pace in paces])[0]
    known = feed.inputs[pace.name]
    return Change(pace.name, doubtful_update(draw, known) if draw.random() < 0.06 else next_update(draw, known, pace.first))


def random_feed(draw: random.Random, names: Sequence[str], base: int) -> list[Line]:
    """Lines whose rows begin around a tick. One input may be far ahead of others, and at times one doesn't speak."""
    paces = [Pace(name, draw.choice([1, 2, 2, 2, 9]), base + draw.randint(-14, 4)) for name in names]
    if len(paces) > 1 and draw.random() < 0.1:
        paces.remove(draw.choice(paces))
    feed = empty_feed(names)
    lines: list[Line] = []
    for _ in range(draw.choice([1, 4, 8, 12, 18, 25]) if names else draw.randint(1, 3)):
        # Little can be said of an input that is known up to T.
        speaking = [pace for pace in paces if feed.inputs[pace.name].watermark < T or draw.random() < 0.1]
        if paces and not speaking:
            break
        lines.append(random_line(draw, feed, speaking, base))
        feed, _ = taken(feed, events_of(lines[-1], names))
    if draw.random() < 0.5:
        lines.append(Finish())
        if draw.random() < 0.2:
            lines.append(draw.choice([Finish(), random_line(draw, feed, paces, base)]))
    return lines


# What is expected


def taken(feed: Feed, events: Iterable[Event]) -> tuple[Feed, str | None]:
    """A feed after events, up to the first that isn't allowed, and the fault of that one."""
    for event in events:
        fault = event_fault(feed, event)
        if fault is not None:
            return feed, fault
        feed = after(feed, event)
    return feed, None


@dataclasses.dataclass(frozen=True)
class Output:
    """What is printed, and what has begun."""

    printed: list[Row]
    begun: Begun | None


def broken_laws(text: str, feed: Feed, before: Output, now: Output) -> list[str]:
    """What is wrong with the output of a feed, and that before the last line."""
    broken = []
    if now.printed[: len(before.printed)] != before.printed:
        broken.append(f"{now} doesn't go on from {before}")
    following = [(start, value) for start, _, value in now.printed[len(before.printed) :]] + ([now.begun] if now.begun else [])
    if before.begun and following[:1] != [before.begun]:
        broken.append(f"{now} doesn't go on from what has begun in {before}")
    rows = {name: rows_now(known) for name, known in feed.inputs.items()}
    if feed.finished and now.printed != Reader(tokens_of(text), rows).query():
        broken.append(f"{now} isn't the output on {rows}")
    return broken


@dataclasses.dataclass(frozen=True)
class Case:
    """A feed, what is expected after each of its lines, and what is wrong with the definitions."""

    lines: list[Line]
    wanted: list[Answer]
    broken: list[str]


def answer_of(rows: Iterable[Row], begun: Begun | None) -> Answer:
    snapshots = [f"{start},{end},{field(value)}" for start, end, value in rows]
    return snapshots if begun is None else [*snapshots, f"{begun[0]},,{field(begun[1])}"]


def case_of(text: str, query: Query, lines: list[Line]) -> Case:
    return case_after(text, query, empty_feed(query.inputs), 0, lines)


def case_after(text: str, query: Query, feed: Feed, given: int, lines: list[Line]) -> Case:
    """What is expected after each line that comes after a feed, if so many snapshots of its output were printed before them."""
    case = Case(lines, [], [])
    before = Output([], None)
    for line in lines:
        feed, fault = taken(feed, events_of(line, query.inputs))
        now = Output(*printed_and_begun(query, feed))
        case.broken.extend(broken_laws(text, feed, before, now))
        before = now
        if fault is None:
            case.wanted.append(answer_of(now.printed[given:], now.begun))
            given = len(now.printed)
        else:
            # What the events of the line before this one have brought comes with a later line.
            case.wanted.append([f"!{fault}"])
    return case


# Sessions


@dataclasses.dataclass(frozen=True)
class Start:
    """A feed as sessions have seen it, the cut of each input there, and the lines after that."""

    feed: Feed
    cuts: dict[str, int]
    later: list[Line]


def random_cut(draw: random.Random, known: InputFeed) -> int:
    """A cut up to which an input without an open row was seen: its watermark, or another one behind which its last row ends there."""
    if known.rows and known.rows[-1][1] == known.watermark:
        return draw.randint(known.rows[-1][0] + 1, known.watermark)
    return known.watermark


def random_start(draw: random.Random, names: Sequence[str], lines: Sequence[Line]) -> Start:
    """A feed that sessions have seen up to one of its lines. None of its rows is open there."""
    starts = []
    feed = empty_feed(names)
    for at, line in enumerate(lines):
        if not feed.finished and all(known.open_row is None for known in feed.inputs.values()):
            starts.append((feed, [*lines[at:]]))
        feed, _ = taken(feed, events_of(line, names))
    seen, later = draw.choice(starts)
    return Start(seen, {name: random_cut(draw, known) for name, known in seen.inputs.items()}, later)


def start_session(folder: str, text: str, start: Start, at: int) -> list[str] | None:
    """What `tilt start` prints of the rows that were seen, if it ends well. Without inputs the cut is this tick. The checkpoint is in
    `state`."""
    with open(os.path.join(folder, "q"), "w", encoding="ascii") as file:
        file.write(text)
    for name, known in start.feed.inputs.items():
        put_rows(os.path.join(folder, f"{name}.csv"), known.rows)
    cuts = ",".join(f"{name}={cut}" for name, cut in start.cuts.items()) or str(at)
    words = [BUILT, "start", "q", *[f"{name}={name}.csv" for name in start.cuts], "--upto", cuts, "--save", "state"]
    done = subprocess.run(words, cwd=folder, capture_output=True, encoding="utf-8", timeout=SECONDS)
    return done.stdout.splitlines()[1:] if done.returncode == 0 else None


def numbers_given(folder: str, final: Sequence[Row]) -> list[int]:
    """How many of the snapshots that are final the sessions have passed, by the start of the one that is open in `state`. If none is, that
    is none of the output or all of it."""
    with open(os.path.join(folder, "state"), encoding="ascii") as file:
        [word] = [line.split()[1] for line in file if line.startswith("open ")]
    if word == "none":
        return [0, len(final)]
    return [sum(start < int(word) for start, _, _ in final)]


# What comes


@dataclasses.dataclass(frozen=True)
class Run:
    """How a run over all feeds of a query ended, and what it printed after each line."""

    end: str
    answers: list[Answer]


def run_of(words: Sequence[str], text: str, cases: Sequence[Case]) -> Run:
    with tempfile.TemporaryDirectory() as folder:
        with open(os.path.join(folder, "q"), "w", encoding="ascii") as file:
            file.write(text)
        return run_in(folder, words, cases)


def run_in(folder: str, words: Sequence[str], cases: Sequence[Case]) -> Run:
    """A run in a folder that has the query."""
    feeds = "\n".join("".join(f"{line_text(line)}\n" for line in case.lines) for case in cases)
    try:
        done = subprocess.run(words, cwd=folder, input=feeds, capture_output=True, encoding="utf-8", errors="replace", timeout=SECONDS)
    except subprocess.TimeoutExpired:
        return Run(f"no end in {SECONDS} s", [])
    answers: list[Answer] = [[]]
    for line in done.stdout.splitlines():
        if line == ".":
            answers.append([])
        else:
            answers[-1].append(line)
    # The last line is a `.`, unless it was interrupted.
    return Run(f"status {done.returncode} {done.stderr[:1000]}".strip(), answers if answers[-1] else answers[:-1])


# The checks


def difference(case: Case, answers: Sequence[Answer]) -> str | None:
    """The lines of a feed up to the first after which something else comes than expected, or None."""
    for at, wanted in enumerate(case.wanted):
        if answers[at : at + 1] != [wanted]:
            lines = "\n".join(map(line_text, case.lines[: at + 1]))
            return f"{lines}\nexpected: {wanted}\ncame: {answers[at] if at < len(answers) else 'nothing'}"
    return None


def check_run(words: Sequence[str], text: str, cases: Sequence[Case], tally: Tally) -> None:
    """The feeds of a query in one run, up to the first that differs."""
    run = run_of(words, text, cases)
    at = 0
    for case in cases:
        wrong = difference(case, run.answers[at:])
        tally.expect(wrong is None, f"{' '.join(words)}\n{text}{wrong}\nthe run: {run.end}")
        if wrong is not None:
            return
        at += len(case.lines)
    tally.expect(run.end == "status 0" and at == len(run.answers), f"{' '.join(words)}\n{text}{run.end}; more: {run.answers[at:]}")


def check_start(draw: random.Random, program: str, text: str, query: Query, lines: Sequence[Line], at: int, tally: Tally) -> None:
    """A feed that sessions have seen up to some line. They print a part of what is final, without nulls, and an engine prints the rest."""
    start = random_start(draw, query.inputs, lines)
    final, _ = printed_and_begun(query, start.feed)
    with tempfile.TemporaryDirectory() as folder:
        printed = start_session(folder, text, start, at)
        numbers = [] if printed is None else numbers_given(folder, final)
        given = [number for number in numbers if printed == answer_of([row for row in final[:number] if row[2] is not None], None)]
        tally.expect(given != [], f"{text}{start}\nthe session: {printed}\nfinal: {final}")
        cases = [case_after(text, query, start.feed, number, start.later) for number in given[:2]]
        for words in ([program, "q", "--after", "state"], [program, "q", "--after", "state", "--plain"]) if cases else ():
            run = run_in(folder, words, cases[:1])
            wrong = [difference(case, run.answers) for case in cases]
            is_well = None in wrong and run.end == "status 0"
            tally.expect(is_well, f"{' '.join(words)}\n{text}{start}\n{wrong[0]}\nthe run: {run.end}")


def ways_of(number: int, resumed: int) -> list[list[str]]:
    """The options of each run over the feeds of the query with a number, if one query in so many has engines that are dropped."""
    ways: list[list[str]] = [[], ["--plain"]]
    turn, rest = divmod(number, resumed)
    if rest == 0:
        ways.append(["--resumed", str(LINES_OF_AN_ENGINE[turn % len(LINES_OF_AN_ENGINE)])])
    return ways


def check_query(draw: random.Random, program: str | None, ways: Sequence[Sequence[str]], sessions: int, tally: Tally) -> None:
    # At times all that is asked and told lies at an end of time.
    base = draw.choice([0] * 12 + [T - 40, T - 40, -T + 14])
    text = random_query(draw, base)
    query = query_of(text)
    cases = [case_of(text, query, random_feed(draw, query.inputs, base)) for _ in range(FEEDS_OF_EACH_QUERY)]
    for case in cases:
        tally.note("\n".join([text, *map(line_text, case.lines)]), case.broken)
    if program is not None:
        for options in ways:
            check_run([program, "q", *options], text, cases, tally)
        for case in cases[:sessions]:
            check_start(draw, program, text, query, case.lines, base, tally)


def main(arguments: Sequence[str]) -> int:
    words = argparse.ArgumentParser(description="Runs random feeds of random queries.")
    words.add_argument("queries", nargs="?", type=int, default=QUERIES, help="how many queries")
    words.add_argument("--program", default=PROGRAM, help="the program that is run")
    words.add_argument("--alone", action="store_true", help="run no program")
    words.add_argument("--seed", type=int, default=SEED, help="from which the queries and feeds are drawn")
    words.add_argument("--resumed", type=int, default=RESUMED, help="one query in so many has engines that are dropped")
    words.add_argument("--sessions", type=int, default=SESSIONS, help="how many of the ten feeds of a query begin with sessions")
    chosen = words.parse_args(arguments)
    program = None if chosen.alone else os.path.abspath(chosen.program)
    draw = random.Random(chosen.seed)
    tally = Tally()
    if program is not None and not os.access(program, os.X_OK):
        tally.expect(False, f"{program} isn't built")
        return tally.end()
    for number in range(chosen.queries):
        check_query(draw, program, ways_of(number, chosen.resumed), chosen.sessions, tally)
    return tally.end()


if __name__ == "__main__":
    sys.exit(main(sys.argv[1:]))
