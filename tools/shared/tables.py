"""Tables that a tool puts into a page, between two marks of their name."""
from __future__ import annotations

from typing import Iterable, Sequence


def markdown(heads: Sequence[str], lines: Iterable[Sequence[str]]) -> str:
    return "\n".join("| " + " | ".join(cells) + " |" for cells in [heads, ["---"] * len(heads), *lines]) + "\n"


def write_table(page: str, name: str, table: str) -> None:
    """Puts the table between the two marks of that name in the page."""
    with open(page, encoding="utf-8") as file:
        text = file.read()
    first, last = f"<!-- {name} -->\n", f"<!-- end of {name} -->\n"
    before, rest = text.split(first)
    after = rest.split(last)[1]
    with open(page, "w", encoding="utf-8") as file:
        file.write(before + first + table + last + after)
