"""Series files: rows of a start, an end and a value, or null."""
from __future__ import annotations

from typing import Iterable

Row = tuple[int, int, "int | None"]


def field(value: int | None) -> str:
    return "" if value is None else str(value)


def put_rows(path: str, rows: Iterable[Row]) -> None:
    with open(path, "w", encoding="ascii") as file:
        file.write("start,end,value\n")
        file.writelines(f"{start},{end},{field(value)}\n" for start, end, value in rows)
