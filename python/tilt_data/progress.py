"""How far a command is, on a terminal."""
from __future__ import annotations

import contextlib
import sys
from typing import Any, Iterable, TypeVar

T = TypeVar("T")


def counted(*items: Any, unit: str, total: int | None) -> Any:
    """What `tqdm` counts on standard error; None if that is no terminal, or `tqdm` isn't there."""
    if sys.stderr.isatty():
        with contextlib.suppress(ImportError):
            from tqdm import tqdm

            return tqdm(*items, unit=f" {unit}", total=total, leave=False)
    return None


def shown(items: Iterable[T], unit: str, total: int | None = None) -> Iterable[T]:
    """The items, counted if that can be."""
    found: Iterable[T] | None = counted(items, unit=unit, total=total)
    return items if found is None else found


class Bar:
    """How many of so many are done, on standard error if that is a terminal: by `tqdm` if it is there, else by a line of its own."""

    def __init__(self, total: int, unit: str, wanted: bool = True) -> None:
        self.total, self.unit, self.done = total, unit, 0
        self.bar = counted(unit=unit, total=total) if wanted else None
        self.has_line = wanted and self.bar is None and sys.stderr.isatty()
        self.step(0)

    def step(self, count: int = 1) -> None:
        self.done += count
        if self.bar is not None:
            self.bar.update(count)
        elif self.has_line:
            filled = 40 * self.done // max(1, self.total)
            line = f"\r[{'#' * filled}{' ' * (40 - filled)}] {self.done} of {self.total} {self.unit}"
            print(line, end="", file=sys.stderr, flush=True)

    def __enter__(self) -> Bar:
        return self

    def __exit__(self, *_: object) -> None:
        if self.bar is not None:
            self.bar.close()
        elif self.has_line:
            print(f"\r{' ' * 79}\r", end="", file=sys.stderr, flush=True)
