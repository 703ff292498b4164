"""The tokens of a query, each with its place, by the rules of docs/LANGUAGE.md."""
from __future__ import annotations

import re
from typing import NamedTuple

REDUCERS = ("sum", "avg", "min", "max", "count", "first", "last", "any", "all")
RESERVED = frozenset("input let emit over every from if then else when or and not true false isnull ifnull t".split()) | {*REDUCERS}
BLANKS = re.compile(rb"[ \t\n\r]*")
TOKEN = re.compile(rb"([A-Za-z_][A-Za-z0-9_]*)|([0-9]+)|==|!=|<=|>=|[;=<>+\-*/%()\[\],:]")
GREATEST_NUMBER = 2**63 - 1
# A number with a point, and what follows its whole part.
DECIMAL = re.compile(rb"(?<![\w.])([0-9]+)(\.[0-9]+)")


class Token(NamedTuple):
    """A token: its kind (`name`, `number`, or its own text), its text, and the first byte and the one after the last."""

    kind: str
    text: str
    begin: int
    end: int


def place(begin: int, end: int, text: str = "") -> Token:
    """Some bytes that are to blame, though they are no token."""
    return Token("", text, begin, end)


# In place of a name where a statement or an expression has none.
NOTHING = place(0, 0)
# What can be wrong with a statement, with the program's numbers.
FAULTS = {"too long": 23, "syntax": 24, "place of emit": 25, "name taken": 26, "unknown name": 27}
FAULTS |= {"type mismatch": 28, "bad window": 29, "bad domain": 30}


class Faulty(Exception):
    """Why a query is refused, which ends its reading: the line without `tilt: `, the bytes to blame, what was expected, a cure."""

    def __init__(self, line: str, token: Token, expected: str, cure: str = "") -> None:
        super().__init__(line)
        self.line, self.begin, self.end, self.expected, self.cure = line, token.begin, token.end, expected, cure

    @staticmethod
    def of(number: int, what: str, token: Token, expected: str, cure: str = "") -> Faulty:
        return Faulty(f"{FAULTS[what]} statement {number}: {what}", token, expected, cure)


SIGNS = {
    "&": "`and` is written in letters",
    "|": "`or` is written in letters",
    "!": "`not a` is written in letters; `!=` compares",
    "#": "there are no comments: take them out, as by sed 's/#.*//'",
    ".": "write 0.5 with a digit before the point; over whole numbers scale values, as 20.5 degrees to 205 tenths",
    "'": "there are no texts, only numbers",
    '"': "there are no texts, only numbers",
    "{": "blocks aren't in the language",
    "}": "blocks aren't in the language",
    "^": "there is no power: write x * x",
    "?": "choices are written `if c then a else b`",
    "$": "a name has letters, digits and _",
}


def without_points(text: bytes) -> bytes:
    """The query with blanks in place of the decimals of its numbers. All else stays where it is: names, windows, spans and grids."""
    return DECIMAL.sub(lambda found: found[1] + b" " * len(found[2]), text)


def decimals_in(text: bytes) -> int:
    """The most digits that a number of the query has after its point."""
    return max((len(decimal[2]) - 1 for decimal in DECIMAL.finditer(text)), default=0)


def tokens_of(text: bytes) -> list[Token]:
    """All tokens, or the first faulty place."""
    tokens = []
    at = BLANKS.match(text).end()  # type: ignore[union-attr]
    while at < len(text):
        found = TOKEN.match(text, at)
        if found is None:
            raise unknown_byte(text, at)
        word = found.group().decode("ascii")
        kind = "number" if found[2] is not None else "name" if found[1] is not None and word not in RESERVED else word
        tokens.append(Token(kind, word, *found.span()))
        if kind == "number" and int(word.lstrip("0")[:20] or 0) > GREATEST_NUMBER:
            raise Faulty(f"21 big number at {at}", tokens[-1], f"a number up to {GREATEST_NUMBER} was expected")
        at = BLANKS.match(text, found.end()).end()  # type: ignore[union-attr]
    return tokens


def unknown_byte(text: bytes, at: int) -> Faulty:
    line, sign, end = f"20 bad byte at {at}", chr(text[at]), at + 1
    if text[at] < 128:
        return Faulty(line, place(at, end), f"the language has no {sign!r}", SIGNS.get(sign, ""))
    while end < len(text) and text[end] & 0xC0 == 0x80:
        end += 1
    return Faulty(line, place(at, end), "a letter or sign of ASCII was expected", "write names without accents")


def place_of(text: bytes, at: int) -> tuple[int, int, str]:
    """The line and the column of a byte, from 1, and the text of its line."""
    begin = text.rfind(b"\n", 0, at) + 1
    end = text.find(b"\n", at)
    whole = text[begin : len(text) if end < 0 else end].rstrip(b"\r")
    before = text[begin:at].decode("utf-8", "replace")
    return text.count(b"\n", 0, at) + 1, len(before) + 1, whole.decode("utf-8", "replace")
