"""Watermarks between the lines of a feed and its events: docs/MEANING.md, "Watermarks between lines and events", worked out plainly and
slowly, without the program.

A feed is taken line by line, with its lateness, its idle inputs and the lines that are too far ahead. What an event changes is that of
tools/check/feeds.py."""
from __future__ import annotations

import dataclasses
from typing import Sequence

from check.feeds import FINISHED, LATE, NO_TICK, OUT_OF_RANGE, T, AllKnownUpTo, Change, Feed, Finish, InputFeed, KnownUpTo, Line, Update
from check.feeds import after, empty_feed, event_fault, has_ticks, times_of, updated

# The faults of a line beside those of an event.
OVERLAP = "it overlaps what its input holds"
AHEAD = "it is too far ahead"


@dataclasses.dataclass(frozen=True)
class Watermarking:
    """What is asked of the watermarks, in ticks."""

    lateness: int | None = None
    idle: int | None = None
    ahead: int | None = None


def start_of(update: Update) -> int:
    return times_of(update)[0]


def end_of(update: Update) -> int:
    """The watermark of an input after an update."""
    return updated(InputFeed(), update).watermark


class Watermarks:
    """The feed after some lines, and what the lines have left that it hasn't got yet."""

    def __init__(self, names: Sequence[str], options: Watermarking) -> None:
        self.options = options
        self.feed: Feed = empty_feed(names)
        self.held: dict[str, list[Update]] = {name: [] for name in names}
        # The greatest watermark that lines have given, and the greatest end of a line.
        self.greatest: int | None = None
        self.latest: int | None = None

    def fault(self, line: Line) -> str | None:
        """The first reason why a line isn't taken, or None if it is."""
        fault = self.broken_rule(line)
        if fault is not None:
            return fault
        if isinstance(line, Change) and self.overlaps(line.name, line.update):
            return OVERLAP
        return AHEAD if self.is_ahead(line) else None

    def broken_rule(self, line: Line) -> str | None:
        if self.feed.finished:
            return FINISHED
        if isinstance(line, AllKnownUpTo):
            return None if -T <= line.tick <= T else OUT_OF_RANGE
        if isinstance(line, Change) and self.options.lateness is not None:
            return allowed_from(self.feed.inputs[line.name].watermark, line.update)
        return event_fault(self.feed, line)

    def overlaps(self, name: str, update: Update) -> bool:
        """Whether the updates that an input holds, with this one and in order of starts, aren't allowed one after another."""
        if self.options.lateness is None or isinstance(update, KnownUpTo):
            return False
        watermark = self.feed.inputs[name].watermark
        for each in sorted([*self.held[name], update], key=start_of):
            if allowed_from(watermark, each) is not None:
                return True
            watermark = end_of(each)
        return False

    def is_ahead(self, line: Line) -> bool:
        if self.options.ahead is None or self.latest is None or isinstance(line, Finish):
            return False
        start = line.tick if isinstance(line, AllKnownUpTo) else start_of(line.update)
        return max(start - self.options.ahead, -T) > self.latest

    def take(self, line: Line) -> None:
        """Takes a line that has no fault."""
        match line:
            case Finish():
                for name in self.feed.inputs:
                    self.hand_on(name, None)
                self.feed = after(self.feed, line)
            case AllKnownUpTo(tick):
                self.raise_all(tick)
                self.see(tick, tick)
            case Change(name, update):
                given = end_of(update)
                if self.options.lateness is None:
                    self.feed = after(self.feed, line)
                else:
                    if not isinstance(update, KnownUpTo):
                        self.held[name] = sorted([*self.held[name], update], key=start_of)
                        given = max(given - self.options.lateness, -T)
                    self.hand_on(name, given)
                self.see(given, end_of(update))
        if self.options.idle is not None and self.greatest is not None and not self.feed.finished:
            self.raise_all(max(self.greatest - self.options.idle, -T))

    def see(self, watermark: int, end: int) -> None:
        self.greatest = watermark if self.greatest is None else max(self.greatest, watermark)
        self.latest = end if self.latest is None else max(self.latest, end)

    def raise_all(self, tick: int) -> None:
        for name in self.feed.inputs:
            self.hand_on(name, tick)

    def hand_on(self, name: str, tick: int | None) -> None:
        """Hands on what an input holds that starts below a tick, or all if there is none; and then it is known up to the tick."""
        due = [update for update in self.held[name] if tick is None or start_of(update) < tick]
        self.held[name] = self.held[name][len(due) :]
        for update in due:
            self.feed = after(self.feed, Change(name, update))
        if tick is not None and self.feed.inputs[name].watermark < tick:
            self.feed = after(self.feed, Change(name, KnownUpTo(tick)))


def allowed_from(watermark: int, update: Update) -> str | None:
    """The first rule that an update breaks of an input with this watermark and no open row, or None if it is allowed."""
    if not all(-T <= tick <= T for tick in times_of(update)):
        return OUT_OF_RANGE
    if start_of(update) < watermark:
        return LATE
    return None if has_ticks(update) else NO_TICK
