#!/usr/bin/env python3
"""Works out a query by the rules of docs/SEMANTICS.md, without the program, plainly and slowly.

The words are QUERY NAME=FILE .., and it prints what `tilt run` has to print with them. With `--flow` before them the first is the
file of a pipeline of operators, of which it prints what the pipeline gives, by lists of snapshots and their boundaries. It takes
queries and pipelines that are accepted and series without faults; with others it ends with an error of Python and status 1, or with
any output. Each part is named as in docs/SEMANTICS.md."""
from __future__ import annotations

import bisect
import csv
import functools
import re
import sys
from typing import Callable, Generic, Iterable, Mapping, TypeVar

# Cells: None is null, and any number but 0 is true.
Cell = int | None
Row = tuple[int, int, Cell]
Binary = Callable[[Cell, Cell], Cell]
# Numbers of any kind, and what is made of an expression.
N = TypeVar("N")
X = TypeVar("X")


def within_64_bits(number: int) -> Cell:
    return number if -(2**63) <= number < 2**63 else None


def quotient(a: int, b: int) -> int:
    """Truncated toward zero."""
    return abs(a) // abs(b) * (1 if (a < 0) == (b < 0) else -1)


def on_both(rule: Callable[[int, int], Cell]) -> Binary:
    """A rule for numbers as one for cells: null where an operand is null, or where 64 bits don't hold the result."""

    def apply(a: Cell, b: Cell) -> Cell:
        result = None if a is None or b is None else rule(a, b)
        return None if result is None else within_64_bits(int(result))

    return apply


BETWEEN: dict[str, Binary] = {
    "+": on_both(lambda a, b: a + b),
    "-": on_both(lambda a, b: a - b),
    "*": on_both(lambda a, b: a * b),
    "/": on_both(lambda a, b: None if b == 0 else quotient(a, b)),
    "%": on_both(lambda a, b: None if b == 0 else a - b * quotient(a, b)),
    "==": on_both(lambda a, b: a == b),
    "!=": on_both(lambda a, b: a != b),
    "<": on_both(lambda a, b: a < b),
    "<=": on_both(lambda a, b: a <= b),
    ">": on_both(lambda a, b: a > b),
    ">=": on_both(lambda a, b: a >= b),
    "and": on_both(lambda a, b: a != 0 and b != 0),
    "or": on_both(lambda a, b: a != 0 or b != 0),
    "when": lambda a, c: None if c is None or c == 0 else a,
    "ifnull": lambda a, b: b if a is None else a,
}
BEFORE: dict[str, Callable[[Cell], Cell]] = {
    "-": lambda a: None if a is None else within_64_bits(-a),
    "not": lambda a: None if a is None else int(a == 0),
    "isnull": lambda a: int(a is None),
}


def choose(c: Cell, a: Cell, b: Cell) -> Cell:
    return None if c is None else (b if c == 0 else a)


# Streams


class Stream(Generic[N]):
    """A cell at each tick, and the ticks that have a mark, in order. They are finitely many in every stream of a query. Cells have numbers
    of any kind, or are null."""

    def __init__(self, cell: Callable[[int], N | None], marks: Iterable[int]) -> None:
        self.cell = functools.lru_cache(maxsize=None)(cell)
        self.marks = sorted(set(marks))


# Rows


def of_rows(rows: list[tuple[int, int, N | None]]) -> Stream[N]:
    starts = [start for start, _, _ in rows]

    def cell(tick: int) -> N | None:
        # The one row that can cover the tick is the last that starts before it.
        at = bisect.bisect_left(starts, tick) - 1
        return rows[at][2] if at >= 0 and tick <= rows[at][1] else None

    return Stream(cell, [edge + 1 for start, end, _ in rows for edge in (start, end)])


# Expressions


def constant(number: N | None) -> Stream[N]:
    return Stream(lambda tick: number, [])


def shifted(x: Stream[N], offset: int) -> Stream[N]:
    return Stream(lambda tick: x.cell(tick + offset), [mark - offset for mark in x.marks])


def lifted(rule: Callable[..., N | None], *operands: Stream[N]) -> Stream[N]:
    """An operator: the cells of each tick by itself, and a mark where an operand has one."""
    return Stream(
        lambda tick: rule(*(operand.cell(tick) for operand in operands)), [mark for operand in operands for mark in operand.marks]
    )


# Windows


def met(x: Stream[N], lo: int, hi: int) -> list[N | None]:
    """The cells of the snapshots that the ticks of `(lo, hi]` meet: the first tick counts as the beginning of one."""
    begins = [lo + 1] + x.marks[bisect.bisect_right(x.marks, lo + 1) : bisect.bisect_right(x.marks, hi)]
    return [x.cell(tick) for tick in begins]


REDUCERS: dict[str, Callable[[list[int]], Cell]] = {
    "sum": lambda numbers: within_64_bits(sum(numbers)),
    "avg": lambda numbers: quotient(sum(numbers), len(numbers)),
    "min": min,
    "max": max,
    "count": len,
    "first": lambda numbers: numbers[0],
    "last": lambda numbers: numbers[-1],
    "any": lambda numbers: int(any(number != 0 for number in numbers)),
    "all": lambda numbers: int(all(number != 0 for number in numbers)),
}


def windowed(reduce: Callable[[list[N]], N | None], x: Stream[N], low: int, high: int) -> Stream[N]:
    def cell(tick: int) -> N | None:
        numbers = [number for number in met(x, tick + low, tick + high) if number is not None]
        return reduce(numbers) if numbers else None

    # One where the source has one at the window's last tick, or at its first.
    return Stream(cell, [mark - end for mark in x.marks for end in (high, low + 1)])


# Grids


def on_grid(x: Stream[N], period: int, offset: int) -> Stream[N]:
    """The cell of the least grid point that isn't below the tick, and a mark after the greatest that is below a mark."""
    return Stream(
        lambda tick: x.cell(-((offset - tick) // period) * period + offset),
        [(mark - 1 - offset) // period * period + offset + 1 for mark in x.marks],
    )


# Spans


def restricted(x: Stream[N], lo: int, hi: int) -> Stream[N]:
    return Stream(
        lambda tick: x.cell(tick) if lo < tick <= hi else None, [lo + 1, hi + 1] + [mark for mark in x.marks if lo + 2 <= mark <= hi]
    )


# Snapshots and output


def snapshots(x: Stream[N], lo: int, hi: int) -> list[tuple[int, int, N | None]]:
    starts = [lo] + [mark - 1 for mark in x.marks if lo + 2 <= mark <= hi]
    return [(start, end, x.cell(start + 1)) for start, end in zip(starts, starts[1:] + [hi])]


def text_of(pieces: Iterable[Row]) -> str:
    rows = [f"{start},{end},{value}\n" for start, end, value in pieces if value is not None]
    return "start,end,value\n" + "".join(rows)


# The text of a query

TOKEN = re.compile(r"[A-Za-z_][A-Za-z0-9_]*|[0-9]+|==|!=|<=|>=|[;=<>+\-*/%()\[\],:]")
BLANKS = re.compile(r"[ \t\n\r]*")


def blanks_end(text: str, at: int) -> int:
    found = BLANKS.match(text, at)
    return at if found is None else found.end()


def tokens_of(text: str) -> list[str]:
    tokens: list[str] = []
    at = blanks_end(text, 0)
    while at < len(text):
        token = TOKEN.match(text, at)
        if token is None:
            raise ValueError(f"no token at {at}")
        tokens.append(token.group())
        at = blanks_end(text, token.end())
    return tokens


# The grammar: the level of each operator between operands, and those of its operands.

LEVELS = {"when": (1, 1, 2), "or": (2, 2, 3), "and": (3, 3, 4)}
LEVELS.update({sign: (5, 6, 6) for sign in ("==", "!=", "<", "<=", ">", ">=")})
LEVELS.update({"+": (6, 6, 7), "-": (6, 6, 7), "*": (7, 7, 8), "/": (7, 7, 8), "%": (7, 7, 8)})


class Grammar(Generic[X]):
    """Reads tokens from the first on, and makes something of each expression over the sources before it: what those methods do that have
    no body here."""

    def __init__(self, tokens: list[str]) -> None:
        self.tokens = tokens + ["the end"]
        self.at = 0
        self.statement = 0
        self.sources: dict[str, X] = {}

    def of_input(self, name: str) -> X:
        raise NotImplementedError

    def of_number(self, token: str) -> X:
        raise NotImplementedError

    def of_truth(self, holds: bool) -> X:
        raise NotImplementedError

    def before(self, sign: str, x: X) -> X:
        raise NotImplementedError

    def between(self, sign: str, x: X, y: X) -> X:
        raise NotImplementedError

    def chosen(self, c: X, x: X, y: X) -> X:
        raise NotImplementedError

    def moved(self, x: X, offset: int) -> X:
        raise NotImplementedError

    def reduced(self, reducer: str, x: X, low: int, high: int) -> X:
        raise NotImplementedError

    def taken(self, x: X, grid: tuple[int, int] | None, span: tuple[int, int] | None) -> X:
        """An expression, taken on its grid and then restricted to its span."""
        raise NotImplementedError

    def takes(self, token: str) -> bool:
        found = self.tokens[self.at] == token
        self.at += found
        return found

    def take(self, *wanted: str) -> str:
        """The next token, which is one of those that are wanted where some are."""
        token = self.tokens[self.at]
        if wanted and token not in wanted:
            raise ValueError(f"{token} in place of {wanted[0]}")
        self.at += 1
        return token

    def expression(self, level: int = 0) -> X:
        if level == 0 and self.takes("if"):
            return self.choice()
        if level <= 4 and self.takes("not"):
            left, has = self.before("not", self.expression(4)), 4
        elif level <= 8 and self.takes("-"):
            left, has = self.before("-", self.expression(8)), 8
        else:
            left, has = self.atom(), 9
        while True:
            sign = self.tokens[self.at]
            own, wanted, right = LEVELS.get(sign, (-1, 0, 0))
            if own < level or has < wanted:
                return left
            self.take()
            left, has = self.between(sign, left, self.expression(right)), own

    def choice(self) -> X:
        c = self.expression()
        self.take("then")
        a = self.expression()
        self.take("else")
        return self.chosen(c, a, self.expression())

    def atom(self) -> X:
        token = self.take()
        if token[0].isdigit():
            return self.of_number(token)
        if token in ("true", "false"):
            return self.of_truth(token == "true")
        if token == "(":
            inner = self.expression()
            self.take(")")
            return inner
        if token in ("isnull", "ifnull"):
            return self.null_test(token)
        if token in REDUCERS:
            return self.window(token)
        x = self.sources[token]
        if not self.takes("["):
            return x
        offset = self.offset()
        self.take("]")
        return self.moved(x, offset)

    def null_test(self, token: str) -> X:
        self.take("(")
        a = self.expression()
        if token == "isnull":
            self.take(")")
            return self.before(token, a)
        self.take(",")
        b = self.expression()
        self.take(")")
        return self.between(token, a, b)

    def window(self, reducer: str) -> X:
        self.take("(")
        x = self.sources[self.take()]
        self.take("[")
        low = self.offset()
        self.take(":")
        high = self.offset()
        self.take("]")
        self.take(")")
        return self.reduced(reducer, x, low, high)

    def offset(self) -> int:
        self.take("t")
        if self.takes("+"):
            return int(self.take())
        return -int(self.take()) if self.takes("-") else 0

    def bound(self) -> int:
        return -int(self.take()) if self.takes("-") else int(self.take())

    def definition(self) -> tuple[X, tuple[int, int] | None]:
        """What is made of a definition; and its span, or None."""
        x = self.expression()
        grid, span = None, None
        if self.takes("over"):
            self.take("(")
            lo = self.bound()
            self.take(",")
            span = lo, self.bound()
            self.take("]")
        if self.takes("every"):
            period = int(self.take())
            grid = period, int(self.take()) if self.takes("from") else 0
        self.take(";")
        return self.taken(x, grid, span), span

    def emitted(self) -> tuple[X, tuple[int, int]]:
        """What is made of the emitted definition of a query, and its output domain."""
        while True:
            self.statement += 1
            word = self.take("input", "let", "emit")
            if word == "emit":
                emitted, domain = self.definition()
                self.take("the end")
                assert domain is not None
                return emitted, domain
            name = self.take()
            if word == "input":
                self.take(";")
                self.sources[name] = self.of_input(name)
            else:
                self.take("=")
                self.sources[name], _ = self.definition()


class Reader(Grammar[Stream[int]]):
    """Makes the stream of each expression, over the rows of inputs."""

    def __init__(self, tokens: list[str], inputs: Mapping[str, list[Row]]) -> None:
        super().__init__(tokens)
        self.inputs = inputs

    def of_input(self, name: str) -> Stream[int]:
        return of_rows(self.inputs[name])

    def of_number(self, token: str) -> Stream[int]:
        return constant(int(token))

    def of_truth(self, holds: bool) -> Stream[int]:
        return constant(int(holds))

    def before(self, sign: str, x: Stream[int]) -> Stream[int]:
        return lifted(BEFORE[sign], x)

    def between(self, sign: str, x: Stream[int], y: Stream[int]) -> Stream[int]:
        return lifted(BETWEEN[sign], x, y)

    def chosen(self, c: Stream[int], x: Stream[int], y: Stream[int]) -> Stream[int]:
        return lifted(choose, c, x, y)

    def moved(self, x: Stream[int], offset: int) -> Stream[int]:
        return shifted(x, offset)

    def reduced(self, reducer: str, x: Stream[int], low: int, high: int) -> Stream[int]:
        return windowed(REDUCERS[reducer], x, low, high)

    def taken(self, x: Stream[int], grid: tuple[int, int] | None, span: tuple[int, int] | None) -> Stream[int]:
        x = on_grid(x, *grid) if grid else x
        return restricted(x, *span) if span else x

    def query(self) -> list[Row]:
        """The snapshots of the emitted stream on the output domain."""
        emitted, domain = self.emitted()
        return snapshots(emitted, *domain)


# Pipelines: each step makes a list of snapshots that touch, null ones included, from the list before it.


def at_values(tokens: list[str], v: Cell, w: Cell) -> Cell:
    """An expression of a step at a value of `v` and one of `w`."""
    reader = Reader(tokens, {})
    reader.sources = {"v": constant(v), "w": constant(w)}
    return reader.expression().cell(0)


def filled(rows: Iterable[Row]) -> list[Row]:
    """The rows, and one null snapshot for each gap."""
    pieces: list[Row] = []
    for start, end, value in rows:
        if pieces and pieces[-1][1] < start:
            pieces.append((pieces[-1][1], start, None))
        pieces.append((start, end, value))
    return pieces


def boundaries(pieces: Iterable[Row]) -> list[int]:
    return sorted({edge for start, end, _ in pieces for edge in (start, end)})


def cut_at(edges: Iterable[int], value: Callable[[int], Cell]) -> list[Row]:
    """The list with these boundaries, and on each piece the value of the boundary at which it begins."""
    edges = sorted(edges)
    return [(start, end, value(start)) for start, end in zip(edges, edges[1:])]


def value_from(pieces: Iterable[Row], edge: int) -> Cell:
    """The value of the snapshot with a boundary within it or at its start."""
    return next((value for start, end, value in pieces if start <= edge < end), None)


def selected(pieces: Iterable[Row], tokens: list[str]) -> list[Row]:
    return [(start, end, None if v is None else at_values(tokens, v, v)) for start, end, v in pieces]


def kept(pieces: Iterable[Row], tokens: list[str]) -> list[Row]:
    return [(start, end, v if v is not None and at_values(tokens, v, v) else None) for start, end, v in pieces]


def moved(pieces: Iterable[Row], by: int) -> list[Row]:
    return [(start + by, end + by, value) for start, end, value in pieces]


def reduced(pieces: list[Row], reducer: str, width: int) -> list[Row]:
    def value(edge: int) -> Cell:
        numbers = [v for start, end, v in pieces if v is not None and start <= edge and edge + 1 - width < end]
        return REDUCERS[reducer](numbers) if numbers else None

    edges = boundaries(pieces)
    return cut_at({edge + late for edge in edges for late in (0, width - 1)}, value)


def joined(pieces: list[Row], others: list[Row], tokens: list[str]) -> list[Row]:
    def value(edge: int) -> Cell:
        v, w = value_from(pieces, edge), value_from(others, edge)
        return None if v is None or w is None else at_values(tokens, v, w)

    return cut_at({*boundaries(pieces), *boundaries(others)}, value)


def steps_of(tokens: list[str]) -> list[list[str]]:
    """The tokens of each step, without its `;`."""
    steps: list[list[str]] = [[]]
    for token in tokens:
        if token == ";":
            steps.append([])
        else:
            steps[-1].append(token)
    return steps[:-1]


def bound_of(tokens: list[str]) -> int:
    return -int(tokens[1]) if tokens[0] == "-" else int(tokens[0])


def flow_of(tokens: list[str], inputs: Mapping[str, list[Row]]) -> list[Row]:
    """The list of a pipeline, as a stream on its domain."""
    first, *between, last = steps_of(tokens)
    pieces = filled(inputs[first[1]])
    for word, *rest in between:
        if word == "select":
            pieces = selected(pieces, rest)
        elif word == "where":
            pieces = kept(pieces, rest)
        elif word == "shift":
            pieces = moved(pieces, bound_of(rest))
        elif word == "window":
            pieces = reduced(pieces, rest[0], int(rest[1]))
        else:
            pieces = joined(pieces, filled(inputs[rest[0]]), rest[1:])
    comma = last.index(",")
    lo, hi = bound_of(last[3:comma]), bound_of(last[comma + 1 : -1])
    return snapshots(of_rows(pieces), lo, hi)


# Series files


def rows_of(name: str) -> list[Row]:
    with open(name, newline="", encoding="utf-8-sig") as file:
        records = [record for record in csv.reader(file) if record]
    if records[0] != ["start", "end", "value"]:
        raise ValueError(f"{name}: bad header")
    return [(int(start), int(end), int(value) if value else None) for start, end, value in records[1:]]


def main() -> int:
    is_flow = sys.argv[1:2] == ["--flow"]
    name, *words = sys.argv[2:] if is_flow else sys.argv[1:]
    with open(name, encoding="ascii") as file:
        tokens = tokens_of(file.read())
    inputs = {bind: rows_of(path) for bind, path in (word.split("=", 1) for word in words)}
    sys.stdout.write(text_of(flow_of(tokens, inputs) if is_flow else Reader(tokens, inputs).query()))
    return 0


if __name__ == "__main__":
    sys.exit(main())
