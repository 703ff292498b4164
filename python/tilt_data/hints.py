"""What `tilt-data why` adds about a query that is taken: windows in which a missing value counts as true, and how far it looks in time."""
from __future__ import annotations

from typing import Iterator

from .clock import duration_text
from .forms import walk
from .grammar import Node, statements_of
from .program import Explained


def can_be_missing(node: Node, missing: dict[str, bool]) -> bool:
    """Whether an expression can have no value where an input has none, by whether the names before it can."""
    if node.form in ("number", "truth", "isnull"):
        return False
    if node.form in ("reading", "window"):
        return missing[node.name.text]
    if node.form == "ifnull":
        return can_be_missing(node.parts[1], missing)
    return node.form == "when" or any(can_be_missing(part, missing) for part in node.parts)


def unfilled(text: bytes) -> Iterator[str]:
    """A hint for each name whose missing values count as true in `all`, in a query without a fault."""
    missing: dict[str, bool] = {}
    hinted: set[str] = set()
    for statement in statements_of(text):
        for node in walk(statement.body) if statement.body is not None else ():
            name = node.name.text
            if node.form == "window" and node.token.text == "all" and missing[name] and name not in hinted:
                hinted.add(name)
                yield (
                    f"statement {statement.number}: all({name}[..]) passes over ticks without a value; "
                    f"for them to count as false, define {name} as ifnull(.., false)"
                )
        missing[statement.name.text] = statement.body is None or can_be_missing(statement.body, missing)


def in_time(explained: Explained, tick: int) -> Iterator[str]:
    """How far a query looks at each input, in units of time, with ticks of so many nanoseconds."""
    for name, margins in explained.inputs.items():
        if margins is not None:
            back, ahead = (duration_text(ticks * tick) if ticks else "0" for ticks in margins)
            yield f"{name}: {back} back, {ahead} ahead"
