"""What is told where a command can't go on."""
from __future__ import annotations

import sys
import unicodedata
from typing import TYPE_CHECKING

if TYPE_CHECKING:
    from .why import Refusal


class Refused(Exception):
    """Bad input. The text is one line that says the file, the line where there is one, and what was expected; the status is 1."""

    status = 1


def note(text: str) -> None:
    """Prints a line on standard error; if that is closed, nothing."""
    if sys.stderr is not None:
        print(f"tilt-data: {text}", file=sys.stderr, flush=True)


def printable(text: str) -> str:
    """A text of data as it may be shown on a terminal: what would steer the terminal is written as an escape, as \\x1b for ESC. These are
    control characters, also tabs and line ends, separators of lines, and marks that turn the direction of writing."""

    def shown(sign: str) -> str:
        category = unicodedata.category(sign)
        steers = category in ("Cc", "Zl", "Zp", "Cs") or category == "Cf" and unicodedata.bidirectional(sign) != "BN"
        return sign.encode("unicode_escape", "surrogatepass").decode("ascii") if steers else sign

    return text if text.isascii() and text.isprintable() else "".join(map(shown, text))


def refused_at(path: str, line: int, what: str) -> Refused:
    """A refusal at a line of a file, counted from 1."""
    return Refused(f"{path}:{line}: {what}")


class TiltError(Refused):
    """The program refused. It has the program's line, its status, and the place of the mistake where that is known."""

    def __init__(self, line: str, status: int, place: Refusal | None = None) -> None:
        super().__init__("\n".join([line, *(place.lines() if place is not None else [])]))
        self.line = line
        self.status = status
        self.place = place
