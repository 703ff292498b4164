#!/usr/bin/env python3
"""Works out a query in units by the rules of docs/LIVE.md, over fractions, and runs random ones on the program: `tools/check/units.py
[--program PATH] [--seed N] [QUERIES]`.

Nothing here knows the query over whole numbers that the program runs. Each expression has a stream of fractions and a scale. A quotient or
an average is truncated at the scale of its result, and nothing else is rounded. Where a number would leave 64 bits at its scale, the rules
promise no rows, but the program has to report that results left them.

Of each other query the program has to print exactly the rows of these streams with the decimals of the emitted scale, or the line of the
first expression that has no scale. The last line is 'N passed, M failed', and the status is 1 where one failed."""
from __future__ import annotations

import argparse
import contextlib
import dataclasses
import os
import random
import re
import subprocess
import sys
import tempfile
from fractions import Fraction
from typing import Callable, Mapping, Sequence

sys.path.insert(0, os.path.dirname(os.path.dirname(os.path.realpath(__file__))))

from check.evaluate import Grammar, Stream, constant, lifted, of_rows, on_grid, restricted, shifted, snapshots, windowed
from check.random_feeds import random_query
from check.random_queries import random_rows
from shared.program import built_program
from shared.tally import Tally

SEED = 23
QUERIES = 400
SECONDS = 60

Number = Fraction | None
Row = tuple[int, int, Number]
Rows = Mapping[str, list[Row]]


class Rejected(Exception):
    """The query has no meaning in units; the number is that of the line that reports it."""


class Overflow(Exception):
    """A number leaves 64 bits at its scale."""


# Fractions at a scale


def held(number: Fraction, scale: int) -> Fraction:
    if not -(2**63) <= number * scale < 2**63:
        raise Overflow
    return number


def truncated(number: Fraction, scale: int) -> Fraction:
    parts = number * scale
    return Fraction(abs(parts.numerator) // parts.denominator * (-1 if parts < 0 else 1), scale)


@dataclasses.dataclass(frozen=True)
class Quantity:
    """An expression: its stream, its scale if it is one of numbers, and its number if it is a literal."""

    stream: Stream[Fraction]
    scale: int | None
    literal: Fraction | None = None


# Scales


def common(a: int, b: int) -> int:
    if max(a, b) % min(a, b):
        raise Rejected(113)
    return max(a, b)


def literal_scale(literal: Fraction, scale: int) -> int:
    if (literal * scale).denominator != 1:
        raise Rejected(114)
    if literal * scale >= 2**63:
        raise Rejected(115)
    return scale


def aligned(x: Quantity, y: Quantity) -> int | None:
    """The scale of what is added, compared or chosen between; None of truth values."""
    if x.scale is None or y.scale is None:
        return None
    if x.literal is not None and y.literal is None:
        return literal_scale(x.literal, y.scale)
    if y.literal is not None and x.literal is None:
        return literal_scale(y.literal, x.scale)
    return common(x.scale, y.scale)


def at_scale(quantity: Quantity, scale: int | None) -> Stream[Fraction]:
    """The same numbers, which have to be held at this scale too."""

    def holds(a: Number) -> Number:
        return None if a is None or scale is None else held(a, scale)

    return quantity.stream if scale is None else lifted(holds, quantity.stream)


# Operators

Rule = Callable[[Fraction, Fraction], Number]


def whole_part(number: Fraction) -> int:
    return abs(number.numerator) // number.denominator * (-1 if number < 0 else 1)


SUMS: dict[str, Rule] = {
    "+": lambda a, b: a + b,
    "-": lambda a, b: a - b,
    "%": lambda a, b: None if b == 0 else a - b * whole_part(a / b),
}
TESTS: dict[str, Rule] = {
    "==": lambda a, b: Fraction(a == b),
    "!=": lambda a, b: Fraction(a != b),
    "<": lambda a, b: Fraction(a < b),
    "<=": lambda a, b: Fraction(a <= b),
    ">": lambda a, b: Fraction(a > b),
    ">=": lambda a, b: Fraction(a >= b),
}
TRUTHS: dict[str, Rule] = {"and": lambda a, b: Fraction(a != 0 and b != 0), "or": lambda a, b: Fraction(a != 0 or b != 0)}


def on_both(rule: Rule, scale: int) -> Callable[[Number, Number], Number]:
    def apply(a: Number, b: Number) -> Number:
        result = None if a is None or b is None else rule(a, b)
        return None if result is None else held(result, scale)

    return apply


def product(x: Quantity, y: Quantity) -> Quantity:
    assert x.scale is not None and y.scale is not None
    scale = x.scale * y.scale
    if scale >= 2**63:
        raise Rejected(116)
    return Quantity(lifted(on_both(lambda a, b: a * b, scale), x.stream, y.stream), scale)


def quotient(x: Quantity, y: Quantity) -> Quantity:
    assert x.scale is not None and y.scale is not None
    whole = x.scale % y.scale == 0
    scale = x.scale // y.scale if whole else x.scale
    dividend = at_scale(x, x.scale if whole else x.scale * y.scale)
    return Quantity(lifted(on_both(lambda a, b: None if b == 0 else truncated(a / b, scale), scale), dividend, y.stream), scale)


def kept_when(a: Number, c: Number) -> Number:
    return None if c is None or c == 0 else a


def filled_by(a: Number, b: Number) -> Number:
    return b if a is None else a


def choose(c: Number, a: Number, b: Number) -> Number:
    return None if c is None else b if c == 0 else a


def between(sign: str, x: Quantity, y: Quantity) -> Quantity:
    if sign == "*":
        return product(x, y)
    if sign == "/":
        return quotient(x, y)
    if sign in TRUTHS:
        return Quantity(lifted(on_both(TRUTHS[sign], 1), x.stream, y.stream), None)
    if sign == "when":
        return Quantity(lifted(kept_when, x.stream, y.stream), x.scale)
    scale = aligned(x, y)
    left, right = at_scale(x, scale), at_scale(y, scale)
    if sign == "ifnull":
        return Quantity(lifted(filled_by, left, right), scale)
    if sign in TESTS:
        return Quantity(lifted(on_both(TESTS[sign], 1), left, right), None)
    assert scale is not None
    return Quantity(lifted(on_both(SUMS[sign], scale), left, right), scale)


def before(sign: str, x: Quantity) -> Quantity:
    if sign == "-":
        assert x.scale is not None
        scale = x.scale
        return Quantity(lifted(lambda a: None if a is None else held(-a, scale), x.stream), scale)
    if sign == "not":
        return Quantity(lifted(lambda a: None if a is None else Fraction(a == 0), x.stream), None)
    return Quantity(lifted(lambda a: Fraction(a is None), x.stream), None)


# Windows


def reduced(reducer: str, numbers: list[Fraction], scale: int) -> Fraction:
    if reducer == "sum":
        return held(sum(numbers, Fraction(0)), scale)
    if reducer == "avg":
        return truncated(sum(numbers, Fraction(0)) / len(numbers), scale)
    if reducer == "count":
        return Fraction(len(numbers))
    if reducer in ("any", "all"):
        hold = [number != 0 for number in numbers]
        return Fraction(any(hold) if reducer == "any" else all(hold))
    if reducer in ("min", "max"):
        return min(numbers) if reducer == "min" else max(numbers)
    return numbers[0] if reducer == "first" else numbers[-1]


def windowed_by(reducer: str, x: Quantity, low: int, high: int) -> Quantity:
    scale = 1 if reducer == "count" else None if reducer in ("any", "all") else x.scale
    return Quantity(windowed(lambda numbers: reduced(reducer, numbers, x.scale or 1), x.stream, low, high), scale)


# The text of a query

TOKEN = re.compile(r"[A-Za-z_][A-Za-z0-9_]*|[0-9]+(?:\.[0-9]+)?|==|!=|<=|>=|[;=<>+\-*/%()\[\],:]")


class Reader(Grammar[Quantity]):
    """Makes the quantity of each expression, over the rows of inputs and their scales."""

    def __init__(self, text: str, rows: Rows, scales: Mapping[str, int]) -> None:
        super().__init__(TOKEN.findall(text))
        self.rows = rows
        self.scales = scales

    def of_input(self, name: str) -> Quantity:
        return Quantity(of_rows(self.rows[name]), self.scales[name])

    def of_number(self, token: str) -> Quantity:
        number = Fraction(token)
        scale = next(10**digits for digits in range(19) if (number * 10**digits).denominator == 1)
        return Quantity(constant(number), scale, number)

    def of_truth(self, holds: bool) -> Quantity:
        return Quantity(constant(Fraction(holds)), None)

    def before(self, sign: str, x: Quantity) -> Quantity:
        return before(sign, x)

    def between(self, sign: str, x: Quantity, y: Quantity) -> Quantity:
        return between(sign, x, y)

    def chosen(self, c: Quantity, x: Quantity, y: Quantity) -> Quantity:
        scale = aligned(x, y)
        return Quantity(lifted(choose, c.stream, at_scale(x, scale), at_scale(y, scale)), scale)

    def moved(self, x: Quantity, offset: int) -> Quantity:
        return Quantity(shifted(x.stream, offset), x.scale)

    def reduced(self, reducer: str, x: Quantity, low: int, high: int) -> Quantity:
        return windowed_by(reducer, x, low, high)

    def taken(self, x: Quantity, grid: tuple[int, int] | None, span: tuple[int, int] | None) -> Quantity:
        stream = on_grid(x.stream, *grid) if grid else x.stream
        return Quantity(restricted(stream, *span) if span else stream, x.scale)


# What the program has to print

REPORTS = {113: "scales differ", 114: "literal not whole", 115: "literal too large", 116: "scale too large"}


# What it reports if a number leaves 64 bits.
COUNTED = re.compile(rb"tilt: 121 results left 64 bits: [1-9][0-9]*\n")
# How far the queries look, at most.
NEAR = 1000


def decimal_text(number: Fraction, decimals: int) -> str:
    digits = str(abs(int(number * 10**decimals))).rjust(decimals + 1, "0")
    front = len(digits) - decimals
    return ("-" if number < 0 else "") + digits[:front] + ("." + digits[front:] if decimals else "")


@dataclasses.dataclass(frozen=True)
class Expected:
    """The output and the errors, and whether a number leaves 64 bits that the output doesn't depend on."""

    out: bytes
    err: bytes
    counts: bool = False


def leaves_anywhere(reader: Reader, start: int, end: int) -> bool:
    """Whether a number of a definition leaves 64 bits, also of one that isn't emitted."""
    try:
        for source in reader.sources.values():
            snapshots(source.stream, start - NEAR, end + NEAR)
    except Overflow:
        return True
    return False


def expected(text: str, rows: Rows, scales: Mapping[str, int]) -> Expected:
    """What the program has to print if no number leaves 64 bits on which the output depends."""
    reader = Reader(text, rows, scales)
    try:
        emitted, domain = reader.emitted()
    except Rejected as why:
        number = why.args[0]
        return Expected(b"", f"tilt: {number} statement {reader.statement}: {REPORTS[number]}\n".encode())
    scale = emitted.scale or 1
    decimals = len(str(scale)) - 1
    if scale != 10**decimals:
        return Expected(b"", f"tilt: 119 output scale {scale}\n".encode())
    lines = [
        f"{start},{end},{decimal_text(value, decimals)}\n" for start, end, value in snapshots(emitted.stream, *domain) if value is not None
    ]
    return Expected(("start,end,value\n" + "".join(lines)).encode(), b"", leaves_anywhere(reader, *domain))


# What is drawn

NUMBER = re.compile(r"\[[^]]*]|over \([^]]*]|every \d+(?: from \d+)?|[A-Za-z_]\w*|\d+")
LITERALS = ("0.5", "2.5", "0.25", "1.50", "3", "10", "0.1", "7.125", "100", "1.0")
SCALES = (1, 1, 10, 10, 10, 100, 100, 1000, 4, 6)


def in_units(draw: random.Random, text: str) -> str:
    """The query with other literals in place of some."""
    return NUMBER.sub(lambda found: draw.choice(LITERALS) if found.group().isdigit() and draw.random() < 0.6 else found.group(), text)


def random_case(draw: random.Random) -> tuple[str, dict[str, list[Row]], dict[str, int]]:
    text = in_units(draw, random_query(draw, 0))
    names = re.findall(r"^input (\w+);$", text, re.MULTILINE)
    scales = {name: draw.choice(SCALES) for name in names}
    widths = draw.choice([1, 1, 10, 111])
    rows: dict[str, list[Row]] = {}
    for name in names:
        drawn = random_rows(draw, 12)
        rows[name] = [(start, end, None if value is None else Fraction(value * widths, scales[name])) for start, end, value in drawn]
    return text, rows, scales


def feed_of(rows: Rows, scales: Mapping[str, int]) -> str:
    def field(value: Number, scale: int) -> str:
        return "" if value is None else str(int(value * scale))

    lines = [f"{name},{start},{end},{field(value, scales[name])}\n" for name, all in rows.items() for start, end, value in all]
    return "".join(lines) + ",,,\n"


def is_expected(done: subprocess.CompletedProcess[bytes], wanted: Expected | None) -> bool:
    """Whether the program printed what it has to. If a number leaves 64 bits on which the output depends, the rules don't say which rows
    there are, but the program has to report it. It may report one on which the output doesn't depend."""
    counted = done.returncode == 0 and COUNTED.fullmatch(done.stderr) is not None
    if wanted is None:
        return counted
    whole = (done.stderr, done.returncode) == (wanted.err, 1 if wanted.err else 0)
    return done.stdout == wanted.out and (whole or wanted.counts and counted)


def check_query(draw: random.Random, program: str, folder: str, tally: Tally) -> bool:
    """Whether all numbers of the query that was drawn are within 64 bits."""
    text, rows, scales = random_case(draw)
    wanted = None
    with contextlib.suppress(Overflow):
        wanted = expected(text, rows, scales)
    with open(os.path.join(folder, "query.tilt"), "w", encoding="ascii") as file:
        file.write(text)
    named = ["--scale", ",".join(f"{name}={scale}" for name, scale in scales.items())] if scales else []
    plain = ["--plain"] if draw.random() < 0.5 else []
    words = [program, "query.tilt", "--units", *named, *plain]
    done = subprocess.run(words, cwd=folder, input=feed_of(rows, scales).encode(), capture_output=True, timeout=SECONDS)
    printed = f"printed {(done.stdout, done.stderr)}"
    tally.expect(is_expected(done, wanted), f"{' '.join(words)}\n{text}{feed_of(rows, scales)}wanted {wanted}\n{printed}\n")
    return wanted is not None


def main(arguments: Sequence[str]) -> int:
    words = argparse.ArgumentParser(description="Runs random queries in units.")
    words.add_argument("queries", nargs="?", type=int, default=QUERIES, help="how many queries")
    words.add_argument("--program", default=built_program("tilt-live"), help="the program that is run")
    words.add_argument("--seed", type=int, default=SEED, help="from which the queries and rows are drawn")
    chosen = words.parse_args(arguments)
    program = os.path.abspath(chosen.program)
    draw, tally = random.Random(chosen.seed), Tally()
    if not os.access(program, os.X_OK):
        tally.expect(False, f"{program} isn't built")
        return tally.end()
    left = 0
    with tempfile.TemporaryDirectory() as folder:
        for _ in range(chosen.queries):
            left += not check_query(draw, program, folder, tally)
    print(f"queries in which a number leaves 64 bits: {left}")
    tally.expect(left * 2 < chosen.queries, "more than half of the queries were left out")
    return tally.end()


if __name__ == "__main__":
    sys.exit(main(sys.argv[1:]))
