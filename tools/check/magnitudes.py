#!/usr/bin/env python3
"""Checks random queries in units before they run, and then runs them on rows at the ends of their bounds: `tools/check/magnitudes.py
[--program PATH] [--seed N] [QUERIES]`.

The bounds of a query are the ends of rows that were drawn. Where the check says that no definition can leave 64 bits, none may do so by
the rules of `check/units.py`, neither on these rows nor on rows with values at the ends of the bounds alone. Every row that is printed has
to be within the bound of what is emitted. The query over whole numbers that the check prints has to give the same rows without `--units`.
The last line is 'N passed, M failed', and the status is 1 where one failed."""
from __future__ import annotations

import argparse
import dataclasses
import math
import os
import random
import subprocess
import sys
import tempfile
from fractions import Fraction
from typing import Mapping, Sequence

sys.path.insert(0, os.path.dirname(os.path.dirname(os.path.realpath(__file__))))

from check.units import Overflow, Row, Rows, decimal_text, expected, feed_of, random_case
from shared.program import built_program
from shared.tally import Tally

SEED = 29
QUERIES = 300
SECONDS = 60

Ends = tuple[Fraction, Fraction]


@dataclasses.dataclass(frozen=True)
class Report:
    """What the check prints: the decimals of the output, the bounds by name, the definition that can leave 64 bits, and the whole query."""

    decimals: int
    bounds: Mapping[str, tuple[int, int]]
    overflow: str | None
    query: str


def read_report(text: str) -> Report:
    front, query = text.split("\nquery\n", 1)
    lines = [line.split() for line in front.split("\n")]
    decimals = next(int(line[1]) for line in lines if line[0] == "decimals")
    bounds = {line[1]: (int(line[2]), int(line[3])) for line in lines if line[0] == "bound"}
    overflow = next((line for line in lines if line[0] == "overflow"), None)
    if overflow:
        assert int(overflow[3]) < -(2**63) or int(overflow[4]) >= 2**63, "an interval that 64 bits hold"
    return Report(decimals, bounds, overflow[1] if overflow else None, query)


# Bounds


def ends_of(rows: list[Row], scale: int) -> Ends:
    """The least and the greatest value, as decimals that are whole at the scale."""
    values = [value for _, _, value in rows if value is not None] or [Fraction(0)]
    if math.log10(scale) % 1:
        return Fraction(math.floor(min(values))), Fraction(math.ceil(max(values)))
    return min(values), max(values)


def plain_decimal(number: Fraction) -> str:
    return decimal_text(number, 3)


def bounds_text(ends: Mapping[str, Ends]) -> str:
    return ",".join(f"{name}={plain_decimal(low)}:{plain_decimal(high)}" for name, (low, high) in ends.items())


def at_ends(draw: random.Random, rows: Rows, ends: Mapping[str, Ends]) -> dict[str, list[Row]]:
    """The same rows with values at the ends alone."""
    return {
        name: [(start, end, None if value is None else draw.choice(ends[name])) for start, end, value in all] for name, all in rows.items()
    }


# The program


@dataclasses.dataclass(frozen=True)
class Program:
    path: str
    folder: str

    def run(self, text: str, words: Sequence[str], feed: str) -> tuple[str, str, int]:
        with open(os.path.join(self.folder, "query.tilt"), "w", encoding="ascii") as file:
            file.write(text)
        done = subprocess.run([self.path, "query.tilt", *words], cwd=self.folder, input=feed.encode(), capture_output=True, timeout=SECONDS)
        return done.stdout.decode(), done.stderr.decode(), done.returncode


def promised(text: str, rows: Rows, scales: Mapping[str, int]) -> tuple[bytes, bytes] | None:
    """What the rules promise, or nothing if a number leaves 64 bits."""
    try:
        wanted = expected(text, rows, scales)
        return wanted.out, wanted.err
    except Overflow:
        return None


def is_within(output: str, report: Report) -> bool:
    low, high = report.bounds["emit"]
    values = [Fraction(line.rsplit(",", 1)[1]) for line in output.split("\n")[1:] if line]
    return all(low <= value * 10**report.decimals <= high for value in values)


def check_safe(program: Program, text: str, rows: Rows, scales: Mapping[str, int], named: list[str], report: Report, tally: Tally) -> None:
    """What has to hold of rows within the bounds, if no definition can leave 64 bits."""
    wanted = promised(text, rows, scales)
    label = f"{text}{feed_of(rows, scales)}{report}"
    tally.expect(wanted is not None, f"a number leaves 64 bits, and the check says that none can\n{label}")
    if wanted is None:
        return
    output = program.run(text, ["--units", *named], feed_of(rows, scales))
    tally.expect(output == (wanted[0].decode(), "", 0), f"wanted {wanted}\nprinted {output}\n{label}")
    tally.expect(is_within(output[0], report), f"a row is out of the bounds\n{output}\n{label}")
    whole = program.run(report.query, ["--decimals", str(report.decimals)], feed_of(rows, scales))
    tally.expect(whole == output, f"the query over whole numbers prints {whole}, and not {output}\n{label}")


def check_query(draw: random.Random, program: Program, tally: Tally) -> str:
    """How the check of the query that was drawn ended."""
    text, rows, scales = random_case(draw)
    named = ["--scale", ",".join(f"{name}={scale}" for name, scale in scales.items())] if scales else []
    ends = {name: ends_of(all, scales[name]) for name, all in rows.items()}
    bounds = ["--bounds", bounds_text(ends)] if ends else []
    printed, errors, status = program.run(text, ["--units", "--check", *named, *bounds], "no line of a feed\n")
    wanted = promised(text, rows, scales)
    if not printed:
        tally.expect(wanted == (b"", errors.encode()) and status == 1, f"wanted {wanted}\nprinted {errors}\n{text}")
        return "rejected"
    report = read_report(printed)
    if report.overflow:
        line = f"tilt: 120 can leave 64 bits: {report.overflow}\n"
        tally.expect((errors, status) == (line, 1), f"wanted {line}\nprinted {errors}\n{text}")
        return "unsafe"
    tally.expect((errors, status) == ("", 0), f"printed {errors}\n{text}")
    check_safe(program, text, rows, scales, named, report, tally)
    check_safe(program, text, at_ends(draw, rows, ends), scales, named, report, tally)
    return "safe"


# Bounds of an input, a query, and whether no definition can leave 64 bits. One number more at the end of the bound decides.
SHARP = [
    ("0:9223372036854775806", "emit x + 1 over (0, 5];", True),
    ("0:9223372036854775807", "emit x + 1 over (0, 5];", False),
    ("-9223372036854775807:0", "emit -x over (0, 5];", True),
    ("-9223372036854775808:0", "emit -x over (0, 5];", False),
    ("0:3037000499", "emit x * x over (0, 5];", True),
    ("0:3037000500", "emit x * x over (0, 5];", False),
    ("0:1844674407370955161", "emit sum(x[t-5:t]) over (0, 5];", True),
    ("0:1844674407370955162", "emit sum(x[t-5:t]) over (0, 5];", False),
]


def check_sharp(program: Program, tally: Tally) -> None:
    """What the check says at the last number that is good, and at the next one."""
    for bound, emit, safe in SHARP:
        printed, _, status = program.run(f"input x;\n{emit}\n", ["--units", "--check", "--bounds", f"x={bound}"], "")
        tally.expect(status == (0 if safe else 1) and bool(read_report(printed).overflow) != safe, f"{bound} {emit}\n{printed}")


def main(arguments: Sequence[str]) -> int:
    words = argparse.ArgumentParser(description="Checks random queries in units, and runs them at the ends of their bounds.")
    words.add_argument("queries", nargs="?", type=int, default=QUERIES, help="how many queries")
    words.add_argument("--program", default=built_program("tilt-live"), help="the program that is run")
    words.add_argument("--seed", type=int, default=SEED, help="from which the queries and rows are drawn")
    chosen = words.parse_args(arguments)
    path = os.path.abspath(chosen.program)
    draw, tally = random.Random(chosen.seed), Tally()
    if not os.access(path, os.X_OK):
        tally.expect(False, f"{path} isn't built")
        return tally.end()
    ended = {"rejected": 0, "unsafe": 0, "safe": 0}
    with tempfile.TemporaryDirectory() as folder:
        program = Program(path, folder)
        check_sharp(program, tally)
        for _ in range(chosen.queries):
            ended[check_query(draw, program, tally)] += 1
    print(f"queries by how their check ended: {ended}")
    tally.expect(ended["safe"] * 3 > chosen.queries, "fewer than a third of the queries are safe")
    tally.expect(ended["unsafe"] > 0, "no query can leave 64 bits")
    return tally.end()


if __name__ == "__main__":
    sys.exit(main(sys.argv[1:]))
