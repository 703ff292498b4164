"""Names, types, windows, spans and grids, and how far a query looks: the faults of docs/internals/MEANING.md, "Well-formed queries", with
their places."""
from __future__ import annotations

import difflib
from typing import Iterator

from .clock import TIMES
from .grammar import COMPARISONS, Node, Statement, statements_of
from .tokens import NOTHING, Faulty, Token, place

MOST_PERIOD = 10**12 + 1
FARTHEST = 10**12
WORDS = {"int": "a number", "bool": "a truth value"}
CURES = {"bool": "a number becomes a truth value by a comparison, as x != 0", "int": "a truth value becomes a number by if c then 1 else 0"}


def fault_of(text: bytes) -> Faulty | None:
    """The first fault of a query, or None where `tilt` takes it."""
    try:
        statements = statements_of(text)
        types: dict[str, str] = {}
        for statement in statements:
            check(statement, types)
        far(statements)
    except Faulty as faulty:
        return faulty
    except RecursionError:
        return None
    return None


def walk(node: Node) -> Iterator[Node]:
    """The node and all below it, from left to right."""
    yield node
    for part in node.parts:
        yield from walk(part)


def span_of(node: Node) -> Token:
    return place(node.begin, node.end)


def check(statement: Statement, types: dict[str, str]) -> None:
    """The faults of one statement, in their order, given the types of the names before it, to which its own is added."""
    number, name, body = statement.number, statement.name, statement.body
    if name.kind and name.text in types:
        raise Faulty.of(number, "name taken", name, f"`{name.text}` is declared before", "take another name")
    kind = "int"
    if body is not None:
        for node in walk(body):
            if node.name.kind and node.name.text not in types:
                near = difflib.get_close_matches(node.name.text, types, 1, 0.5)
                before = f"the names before it are {', '.join(types)}" if types else "no name is before it"
                known = f"did you mean `{near[0]}`?" if near else before
                raise Faulty.of(number, "unknown name", node.name, f"no statement before it declares `{node.name.text}`", known)
        kind = Types(number, types).of(body)
        if statement.form == "emit" and kind == "bool":
            what, cure = "a number was expected, and this is a truth value", "emit 1 when it is true, or if it then 1 else 0"
            raise Faulty.of(number, "type mismatch", span_of(body), what, cure)
        for node in walk(body):
            if node.form == "window" and node.low >= node.high:
                what, cure = "a window that ends after its start was expected", "write the earlier end first, as x[t-3:t]"
                raise Faulty.of(number, "bad window", span_of(node), what, cure)
        check_domain(statement)
    if name.kind:
        types[name.text] = kind


def check_domain(statement: Statement) -> None:
    (period, period_token), (offset, offset_token), bounds = statement.period, statement.offset, statement.bounds
    wrong: list[tuple[Token, str]] = []
    if not 1 <= period <= MOST_PERIOD:
        wrong.append((period_token, f"a period from 1 to {MOST_PERIOD} was expected"))
    elif offset >= period:
        wrong.append((offset_token, f"an offset below its period {period} was expected"))
    wrong += [(token, f"a time from -{TIMES} to {TIMES} was expected") for bound, token in bounds if abs(bound) > TIMES]
    if bounds and bounds[0][0] >= bounds[1][0]:
        wrong.append((bounds[1][1], f"an end after the start {bounds[0][0]} was expected"))
    for bound, token in bounds if not wrong else ():
        below = bound - (bound - offset) % period
        if below != bound:
            wrong.append((token, f"a bound on the grid was expected, as {below} or {below + period}"))
    for token, what in wrong:
        raise Faulty.of(statement.number, "bad domain", token, what)


class Types:
    """The types of expressions of a statement, given those of the names before it."""

    def __init__(self, number: int, known: dict[str, str]) -> None:
        self.number, self.known = number, known

    def of(self, node: Node) -> str:
        parts, form = [self.of(part) for part in node.parts], node.form
        if form in ("number", "truth"):
            return "int" if form == "number" else "bool"
        if form == "reading":
            return self.known[node.name.text]
        if form == "window":
            return self.window(node)
        if form == "isnull":
            return "bool"
        if form in ("when", "if"):
            self.ask(node, 1 if form == "when" else 0, parts, "bool")
            return parts[0] if form == "when" else self.same(node, 1, 2, parts)
        if form in ("ifnull", "==", "!="):
            kind = self.same(node, 0, 1, parts)
            return kind if form == "ifnull" else "bool"
        kind = "bool" if form in ("and", "or", "not") else "int"
        for at in range(len(parts)):
            self.ask(node, at, parts, kind)
        return "bool" if form in COMPARISONS else kind

    def window(self, node: Node) -> str:
        source, reducer = self.known[node.name.text], node.token.text
        wanted = "bool" if reducer in ("any", "all") else "int" if reducer in ("sum", "avg", "min", "max") else source
        if source != wanted:
            what = f"{WORDS[wanted]} was expected by `{reducer}`, and `{node.name.text}` is {WORDS[source]}"
            raise Faulty.of(self.number, "type mismatch", node.name, what, CURES[wanted])
        return "int" if reducer == "count" else source

    def ask(self, node: Node, at: int, parts: list[str], kind: str, more: str = "") -> None:
        if parts[at] != kind:
            expected = f"{WORDS[kind]} was expected by `{node.token.text}`{more}, and this is {WORDS[parts[at]]}"
            raise Faulty.of(self.number, "type mismatch", span_of(node.parts[at]), expected, CURES[kind])

    def same(self, node: Node, one: int, other: int, parts: list[str]) -> str:
        self.ask(node, other, parts, parts[one], " as on its other side")
        return parts[one]


def far(statements: list[Statement]) -> None:
    """How far the query looks: needs are added up from the emit to the inputs, over what is used."""
    needs: dict[str, tuple[int, int]] = {}
    farthest, most, where = (0, 0), 0, NOTHING
    for statement in reversed(statements):
        need = (0, 0) if statement.form == "emit" else needs.get(statement.name.text)
        if need is None:
            continue
        back, ahead = need
        if statement.body is not None:
            ahead += statement.period[0] - 1
        farthest = max(farthest[0], back), max(farthest[1], ahead)
        for node in walk(statement.body) if statement.body is not None else ():
            if node.name.kind:
                low = node.low + 1 if node.form == "window" else node.low
                asked = back + max(0, -low), ahead + max(0, node.high)
                before = needs.get(node.name.text, (0, 0))
                needs[node.name.text] = max(before[0], asked[0]), max(before[1], asked[1])
                if max(-low, node.high) > most:
                    most, where = max(-low, node.high), span_of(node)
    if max(farthest) > FARTHEST:
        what = f"a query looks at most {FARTHEST} ticks back and ahead"
        cure = "shorten windows and offsets, which add up over definitions; or take a longer tick"
        raise Faulty(f"31 too far: back {farthest[0]} ahead {farthest[1]}", where, what, cure)
