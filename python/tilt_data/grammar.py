"""Reads a query into trees that keep their places, by the grammar of docs/internals/MEANING.md, or tells its first fault as `tilt` does."""
from __future__ import annotations

import dataclasses
from typing import NoReturn

from .tokens import NOTHING, REDUCERS, RESERVED, Faulty, Token, place, tokens_of, without_points

MOST_STATEMENTS = 256
MOST_TOKENS = 256
COMPARISONS = ("==", "!=", "<", "<=", ">", ">=")
# The level of each operator between operands, and those that its operands have to have.
LEVELS = {"when": (1, 1, 2), "or": (2, 2, 3), "and": (3, 3, 4)}
LEVELS.update({sign: (5, 6, 6) for sign in COMPARISONS})
LEVELS.update({"+": (6, 6, 7), "-": (6, 6, 7), "*": (7, 7, 8), "/": (7, 7, 8), "%": (7, 7, 8)})


@dataclasses.dataclass
class Node:
    """An expression: its form, its operands, the token it is told by, and the bytes it spans. A reading has a name and an offset; a window
    a name, a reducer and two offsets."""

    form: str
    token: Token
    begin: int
    end: int
    parts: list[Node] = dataclasses.field(default_factory=list)
    name: Token = NOTHING
    low: int = 0
    high: int = 0


@dataclasses.dataclass
class Statement:
    """A statement: its number from 1, its form (`input`, `let`, `emit`), name and expression, and its span and grid with their tokens."""

    number: int
    form: str
    name: Token = NOTHING
    body: Node | None = None
    bounds: list[tuple[int, Token]] = dataclasses.field(default_factory=list)
    period: tuple[int, Token] = (1, NOTHING)
    offset: tuple[int, Token] = (0, NOTHING)


def statements_of(text: bytes) -> list[Statement]:
    parts: list[list[Token]] = []
    is_new = True
    for token in tokens_of(text):
        if is_new:
            parts.append([])
        parts[-1].append(token)
        is_new = token.kind == ";"
    if len(parts) > MOST_STATEMENTS:
        first = parts[MOST_STATEMENTS][0]
        raise Faulty("22 too many statements", first, f"at most {MOST_STATEMENTS} statements were expected", "put definitions together")
    if not parts:
        end = place(len(text.rstrip()), len(text.rstrip()))
        raise Faulty.of(1, "place of emit", end, "a query was expected, which ends with `emit EXPRESSION over (S, E];`")
    return [statement_of(part, number, number == len(parts)) for number, part in enumerate(parts, 1)]


def inputs_in(text: bytes) -> list[str]:
    """The names of the inputs of a query, whose numbers can be decimals, in order; none if it isn't well-formed."""
    try:
        return [statement.name.text for statement in statements_of(without_points(text)) if statement.form == "input"]
    except (Faulty, RecursionError):
        return []


def statement_of(tokens: list[Token], number: int, last: bool) -> Statement:
    if len(tokens) > MOST_TOKENS:
        what = f"at most {MOST_TOKENS} tokens were expected"
        raise Faulty.of(number, "too long", tokens[MOST_TOKENS], what, "name a part of it by `let`")
    statement = Reader(tokens, number).statement()
    if (statement.form == "emit") != last:
        what = "the query has to end with this `emit`" if not last else "the last statement has to be the `emit`"
        raise Faulty.of(number, "place of emit", tokens[0], what, "end the query with its one `emit EXPRESSION over (S, E];`")
    return statement


class Reader:
    """Reads the tokens of one statement from the first on. At the first that can't stand where it is, it tells which could."""

    def __init__(self, tokens: list[Token], number: int) -> None:
        end = tokens[-1].end
        self.tokens = tokens + [Token("the end", "the end of the text", end, end)]
        self.at, self.number = 0, number

    @property
    def next(self) -> Token:
        return self.tokens[self.at]

    @property
    def end(self) -> int:
        """Where the last token that was read ends."""
        return self.tokens[self.at - 1].end

    def takes(self, kind: str) -> bool:
        found = self.next.kind == kind
        self.at += found
        return found

    def take(self, kind: str, after: str = "") -> Token:
        if self.next.kind != kind:
            self.refuse(NAMES.get(kind, f"`{kind}`"), after)
        self.at += 1
        return self.tokens[self.at - 1]

    def refuse(self, expected: str, after: str = "") -> NoReturn:
        token = self.next
        found = token.text if token.kind == "the end" else f"`{token.text}`"
        raise Faulty.of(self.number, "syntax", token, f"{expected} was expected{after}, not {found}", self.cure(expected))

    def cure(self, expected: str) -> str:
        """What is mostly meant where this token stands."""
        token, before = self.next, self.tokens[self.at - 1] if self.at else NOTHING
        kind, ends_emit = token.kind, expected == "an operator or `over`"
        if kind in ("input", "let", "emit") and self.at:
            return f"end the statement before it by `;`, after `{before.text}`"
        if token.text in RESERVED and expected == NAMES["name"]:
            return f"`{token.text}` is a reserved word: take another name"
        cures = [
            (kind == "the end" and ends_emit, "an emit says for which ticks it prints, as over (0, 100]; and ends with `;`"),
            (kind == "the end", "a statement ends with `;`"),
            (kind in COMPARISONS, "a comparison of comparisons needs parentheses; between two limits write a < x and x < b"),
            (token.text.lower() in RESERVED and kind == "name", f"reserved words are written in small letters: {token.text.lower()}"),
            (expected == "`]`" and kind == ")", "a span has its end in it, and is written over (0, 10]"),
            (expected == "`(`" and kind == "[", "a span begins with `(`: over (0, 10]"),
            (expected == "`t`" and kind in ("number", "-"), "an offset is written from t: x[t-2]"),
            (expected == "`[`" and kind == ")", "a reducer needs a window, as avg(x[t-10:t])"),
            (expected == "`:`" and kind == "]", "a window has two ends, as x[t-10:t]"),
            (kind == "=" and expected != "`=`", "equal is written `==`"),
            (before.kind == kind == "/", "there are no comments: take them out, as by sed 's#//.*##'"),
            (kind in ("if", "not") and expected == OPERAND, f"put it in parentheses, as ({token.text} ..)"),
            (before.kind == "number" and kind == "name", "numbers have no units: write ticks"),
            (before.kind == "name" and kind == "(", "the reducers are " + ", ".join(REDUCERS)),
            (expected == "`[`", "a window is over one name: give the expression a name by `let` first"),
            (kind == "over" and expected == "`)`", "close the parenthesis before it"),
            (kind == "over", "`over` comes before `every`, and only once"),
            (kind == "every" and ends_emit, "`over` comes before `every`: over (0, 100] every 10"),
        ]
        return next((cure for is_so, cure in cures if is_so), "")

    def statement(self) -> Statement:
        form = self.next.kind
        if form not in ("input", "let", "emit"):
            self.refuse("`input`, `let` or `emit`", " at the beginning of a statement")
        self.at += 1
        statement = Statement(self.number, form)
        if form != "emit":
            statement.name = self.take("name")
        if form == "let":
            self.take("=")
        if form != "input":
            statement.body = self.expression()
            self.domain(statement)
        if self.next.kind != ";":
            self.refuse("`;`" if statement.bounds or statement.period[1].kind or form == "input" else "an operator, `over`, `every` or `;`")
        self.at += 1
        if self.next.kind != "the end":
            self.refuse("the end of the statement")
        return statement

    def domain(self, statement: Statement) -> None:
        if self.takes("over"):
            self.take("(", " after `over`")
            statement.bounds.append(self.bound())
            self.take(",")
            statement.bounds.append(self.bound())
            self.take("]")
        elif statement.form == "emit":
            self.refuse("an operator or `over`")
        if self.takes("every"):
            statement.period = self.number_of()
            if self.takes("from"):
                statement.offset = self.number_of()

    def number_of(self) -> tuple[int, Token]:
        token = self.take("number")
        return int(token.text), token

    def bound(self) -> tuple[int, Token]:
        first = self.next
        if not self.takes("-"):
            return self.number_of()
        value, token = self.number_of()
        return -value, Token("number", f"-{token.text}", first.begin, token.end)

    def expression(self, level: int = 0) -> Node:
        begin = self.next
        if level == 0 and self.takes("if"):
            return self.choice(begin)
        if level <= 4 and self.takes("not"):
            left, has = self.node("not", begin, [self.expression(4)]), 4
        elif level <= 8 and self.takes("-"):
            left, has = self.node("neg", begin, [self.expression(8)]), 8
        else:
            left, has = self.atom(), 9
        while True:
            sign = self.next
            own, wanted, right = LEVELS.get(sign.kind, (-1, 0, 0))
            if own < level or has < wanted:
                return left
            self.at += 1
            parts = [left, self.expression(right)]
            left, has = Node(sign.kind, sign, left.begin, self.end, parts), own

    def node(self, form: str, token: Token, parts: list[Node]) -> Node:
        return Node(form, token, token.begin, self.end, parts)

    def choice(self, begin: Token) -> Node:
        parts = [self.expression()]
        for word in ("then", "else"):
            if not self.takes(word):
                self.refuse(f"`{word}`", " or an operator")
            parts.append(self.expression())
        return self.node("if", begin, parts)

    def atom(self) -> Node:
        token, kind = self.next, self.next.kind
        if kind in REDUCERS:
            return self.window(token)
        if kind not in ("number", "true", "false", "(", "isnull", "ifnull", "name"):
            self.refuse(OPERAND)
        self.at += 1
        if kind == "(":
            inner = self.expression()
            self.take(")", " or an operator")
            return dataclasses.replace(inner, begin=token.begin, end=self.end)
        if kind in ("isnull", "ifnull"):
            self.take("(")
            parts = [self.expression()]
            if kind == "ifnull":
                self.take(",", " or an operator")
                parts.append(self.expression())
            self.take(")", " or an operator")
            return self.node(kind, token, parts)
        if kind != "name":
            return self.node("number" if kind == "number" else "truth", token, [])
        node = Node("reading", token, token.begin, token.end, name=token)
        if self.takes("["):
            node.low = node.high = self.offset()
            self.take("]", " after an offset")
            node.end = self.end
        return node

    def window(self, token: Token) -> Node:
        self.at += 1
        self.take("(", f" after `{token.text}`")
        name = self.take("name")
        self.take("[", " after the name in a window")
        low = self.offset()
        self.take(":")
        high = self.offset()
        self.take("]")
        self.take(")")
        return Node("window", token, token.begin, self.end, name=name, low=low, high=high)

    def offset(self) -> int:
        self.take("t")
        if self.takes("+"):
            return self.number_of()[0]
        return -self.number_of()[0] if self.takes("-") else 0


OPERAND = "a name, a number, `(`, a reducer or another operand"
NAMES = {"name": "a name", "number": "a number", "the end": "the end"}
