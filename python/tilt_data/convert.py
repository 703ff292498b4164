"""Readings of one series to rows: how long each holds, and what becomes of two in one tick."""
from __future__ import annotations

import dataclasses
from typing import NamedTuple

from .clock import Clock
from .files import Row

TIES = ("last", "first", "spread", "refuse")


class Rule(NamedTuple):
    """The convention of a series. With `hold` a reading holds until the next one, and for `max_age` ticks at most where that isn't None;
    else it is an event of one tick. `ties` says which of the readings in one tick stands."""

    hold: bool
    max_age: int | None = None
    ties: str = "refuse"


class Tie(ValueError):
    """A second reading in one tick, where the rule refuses that."""


class Late(ValueError):
    """A reading that lies before the one before it."""


@dataclasses.dataclass
class Converter:
    """Takes the readings of one series in order of time, and gives each row as soon as its end is known. The last reading is held back."""

    clock: Clock
    rule: Rule
    moment: int | None = None
    start: int = 0
    value: int | None = None
    dropped: int = 0
    moved: int = 0
    gaps: int = 0

    def push(self, moment: int, value: int | None) -> Row | None:
        """The row of the reading before, which this one ends; None for the first, and where a tie is settled."""
        start = self.clock.start(moment)
        if self.moment is None:
            self.moment, self.start, self.value = moment, start, value
            return None
        if moment < self.moment:
            raise Late
        self.moment = moment
        if start <= self.start:
            if self.rule.ties == "refuse":
                raise Tie
            if self.rule.ties != "spread":
                self.dropped += 1
                self.value = value if self.rule.ties == "last" else self.value
                return None
            start = self.start + 1
            self.moved += 1
        row = self.row(start)
        # Only a further reading shows that there was a gap: after the last one nothing is missing.
        self.gaps += row[1] < start and self.rule.hold
        self.start, self.value = start, value
        return row

    def row(self, following: int | None) -> Row:
        """The row of the reading that is held back, where the next one starts at `following`, or isn't known."""
        end = self.start + 1
        if self.rule.hold and self.rule.max_age is not None:
            end = self.start + self.rule.max_age
        if self.rule.hold and following is not None:
            end = following if self.rule.max_age is None else min(end, following)
        return self.start, end, self.value

    def finish(self, until: int | None = None) -> Row | None:
        """The last row. It ends at `until` where that is later than its start, and else as the rule says, or after one tick."""
        if self.moment is None:
            return None
        later = until if until is not None and self.rule.hold and until > self.start else None
        row = self.row(later)
        self.moment = None
        return row


def row_text(row: Row) -> str:
    start, end, value = row
    return f"{start},{end},{'' if value is None else value}\n"
