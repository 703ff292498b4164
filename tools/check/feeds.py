"""What may be printed of a query while its rows arrive: docs/internals/MEANING.md, "A feed", worked out plainly and slowly, without the
program.

The meaning of a query on rows is that of tools/check/evaluate.py. What is here is what a feed knows of the rows: which events are allowed,
the rows as they are now, the horizon of each source, the marks that are sure, and so what is printed and what has begun. Each part is named
as in crates/tilt_feed/specs. It takes queries that are accepted, and any events of their inputs."""
from __future__ import annotations

import dataclasses
from typing import Iterable, Mapping, Sequence

from check.evaluate import Cell, Reader, Row, Stream, bound_of, of_rows, snapshots, steps_of, tokens_of
from shared.series import field

# All times lie in -T..T.
T = 4 * 10**18

# The faults of an event, in the order in which they are looked for.
FINISHED = "the feed is finished"
OUT_OF_RANGE = "a time is out of range"
LATE = "it is before the watermark"
NO_TICK = "its start isn't before its end"

# The source that a query emits. No other source has this name, for the word is reserved.
EMITTED = "emit"


# Events


@dataclasses.dataclass(frozen=True)
class WholeRow:
    start: int
    end: int
    value: Cell


@dataclasses.dataclass(frozen=True)
class ValueFrom:
    start: int
    value: int


@dataclasses.dataclass(frozen=True)
class NoValueFrom:
    start: int


@dataclasses.dataclass(frozen=True)
class KnownUpTo:
    tick: int


Update = WholeRow | ValueFrom | NoValueFrom | KnownUpTo


@dataclasses.dataclass(frozen=True)
class Change:
    """An update of the input with this name."""

    name: str
    update: Update


@dataclasses.dataclass(frozen=True)
class Finish:
    """Nothing more comes."""


Event = Change | Finish


# Lines


@dataclasses.dataclass(frozen=True)
class AllKnownUpTo:
    """What one line says of each input."""

    tick: int


Line = Event | AllKnownUpTo


def events_of(line: Line, names: Iterable[str]) -> list[Event]:
    """The events of a line, one after another, of inputs with these names."""
    return [Change(name, KnownUpTo(line.tick)) for name in names] if isinstance(line, AllKnownUpTo) else [line]


def line_text(line: Line) -> str:
    match line:
        case Change(name, WholeRow(start, end, cell)):
            return f"{name},{start},{end},{field(cell)}"
        case Change(name, ValueFrom(start, value)):
            return f"{name},{start},,{value}"
        case Change(name, NoValueFrom(start)):
            return f"{name},{start},,"
        case Change(name, KnownUpTo(tick)):
            return f"{name},,{tick},"
        case AllKnownUpTo(tick):
            return f",,{tick},"
        case _:
            return ",,,"


# Feeds


@dataclasses.dataclass(frozen=True)
class InputFeed:
    """What is known of an input: its closed rows; the start and the value of its open row, if it has one; and its watermark."""

    rows: Sequence[Row] = ()
    open_row: tuple[int, int] | None = None
    watermark: int = -T


@dataclasses.dataclass(frozen=True)
class Feed:
    inputs: Mapping[str, InputFeed]
    finished: bool = False


def empty_feed(names: Iterable[str]) -> Feed:
    return Feed({name: InputFeed() for name in names})


def ended_at(known: InputFeed, tick: int) -> list[Row]:
    """The closed rows, and the open row, if there is one, ended at a tick."""
    return [*known.rows] if known.open_row is None else [*known.rows, (known.open_row[0], tick, known.open_row[1])]


def rows_now(known: InputFeed) -> list[Row]:
    return ended_at(known, known.watermark)


# Which events are allowed


def times_of(update: Update) -> list[int]:
    match update:
        case WholeRow(start, end, _):
            return [start, end]
        case ValueFrom(start, _) | NoValueFrom(start):
            return [start]
        case KnownUpTo(tick):
            return [tick]


def continues(known: InputFeed, row: WholeRow) -> bool:
    """Whether a row is the open row, with its end."""
    return known.open_row == (row.start, row.value)


def comes_at(known: InputFeed, update: Update) -> int:
    """The tick that may not be below the watermark: where an update starts, or where it ends the open row."""
    if isinstance(update, WholeRow) and continues(known, update):
        return update.end
    return times_of(update)[0]


def has_ticks(update: Update) -> bool:
    match update:
        case WholeRow(start, end, _):
            return start < end
        case ValueFrom(start, _):
            return start < T
        case NoValueFrom() | KnownUpTo():
            return True


def event_fault(feed: Feed, event: Event) -> str | None:
    """The first rule that an event breaks, or None if it is allowed."""
    if feed.finished:
        return FINISHED
    if isinstance(event, Finish):
        return None
    known, update = feed.inputs[event.name], event.update
    if not all(-T <= tick <= T for tick in times_of(update)):
        return OUT_OF_RANGE
    if comes_at(known, update) < known.watermark:
        return LATE
    return None if has_ticks(update) else NO_TICK


# What an event changes


def updated(known: InputFeed, update: Update) -> InputFeed:
    """An input after an update that is allowed."""
    match update:
        case WholeRow(start, end, value):
            # It closes the open row at its own end, or there is a row more.
            rows = ended_at(known, end) if continues(known, update) else [*ended_at(known, start), (start, end, value)]
            return InputFeed(rows, None, end)
        case ValueFrom(start, value):
            return InputFeed(ended_at(known, start), (start, value), start + 1)
        case NoValueFrom(start):
            return InputFeed(ended_at(known, start), None, min(start + 1, T))
        case KnownUpTo(tick):
            return dataclasses.replace(known, watermark=tick)


def after(feed: Feed, event: Event) -> Feed:
    """A feed after an event. One that isn't allowed changes nothing."""
    if event_fault(feed, event) is not None:
        return feed
    if isinstance(event, Finish):
        return Feed({name: InputFeed(rows_now(known), None, known.watermark) for name, known in feed.inputs.items()}, finished=True)
    return Feed({**feed.inputs, event.name: updated(feed.inputs[event.name], event.update)})


# Queries


@dataclasses.dataclass(frozen=True)
class Definition:
    """A definition: its tokens, each source that it reads with how far ahead it is read, its grid, and its span if it has one."""

    name: str
    tokens: list[str]
    readings: list[tuple[str, int]]
    period: int
    offset: int
    span: tuple[int, int] | None


@dataclasses.dataclass(frozen=True)
class Query:
    """The names of the inputs, and the definitions in order, of which the last one is emitted."""

    inputs: list[str]
    definitions: list[Definition]

    @property
    def domain(self) -> tuple[int, int]:
        span = self.definitions[-1].span
        assert span is not None
        return span


def readings_of(tokens: list[str], sources: Sequence[str]) -> list[tuple[str, int]]:
    """The sources that an expression names: `x` and `x[t+d]` read as far ahead as the tick itself and `d`, and `x[t+L:t+H]` as `H`."""
    readings = []
    for at, token in enumerate(tokens):
        if token in sources:
            brackets = tokens[at + 2 : tokens.index("]", at)] if tokens[at + 1] == "[" else ["t"]
            last = brackets[brackets.index(":") + 1 :] if ":" in brackets else brackets
            readings.append((token, Reader(last, {}).offset()))
    return readings


def number_after(word: str, tokens: list[str], otherwise: int) -> int:
    return int(tokens[tokens.index(word) + 1]) if word in tokens else otherwise


def span_of(tokens: list[str]) -> tuple[int, int] | None:
    if "over" not in tokens:
        return None
    bounds = tokens[tokens.index("over") + 2 :]
    comma = bounds.index(",")
    return bound_of(bounds[:comma]), bound_of(bounds[comma + 1 : bounds.index("]")])


def definition_of(name: str, tokens: list[str], sources: Sequence[str]) -> Definition:
    tokens = [*tokens, ";"]
    return Definition(
        name, tokens, readings_of(tokens, sources), number_after("every", tokens, 1), number_after("from", tokens, 0), span_of(tokens)
    )


def query_of(text: str) -> Query:
    inputs: list[str] = []
    definitions: list[Definition] = []
    for word, *rest in steps_of(tokens_of(text)):
        sources = inputs + [definition.name for definition in definitions]
        if word == "input":
            inputs.append(rest[0])
        elif word == "let":
            definitions.append(definition_of(rest[0], rest[2:], sources))
        else:
            definitions.append(definition_of(EMITTED, rest, sources))
    return Query(inputs, definitions)


def emitted(query: Query, inputs: Mapping[str, Stream[int]]) -> Stream[int]:
    """What a query emits, if its inputs are these streams."""
    sources = dict(inputs)
    for definition in query.definitions:
        reader = Reader(definition.tokens, {})
        reader.sources = sources
        sources[definition.name], _ = reader.definition()
    return sources[EMITTED]


# The horizon: a tick, or None for ever

Horizon = int | None


def input_horizon(finished: bool, known: InputFeed) -> Horizon:
    return None if finished or known.watermark == T else known.watermark


def body_horizon(definition: Definition, horizons: Mapping[str, Horizon]) -> Horizon:
    """The earliest of what is read, less how far ahead it is read."""
    readings = [(horizons[source], ahead) for source, ahead in definition.readings]
    return min((horizon - ahead for horizon, ahead in readings if horizon is not None), default=None)


def definition_horizon(definition: Definition, horizons: Mapping[str, Horizon]) -> Horizon:
    horizon = body_horizon(definition, horizons)
    if horizon is None:
        return None
    # The last grid point that isn't above it.
    horizon -= (horizon - definition.offset) % definition.period
    if definition.span is None:
        return horizon
    start, end = definition.span
    return None if end <= horizon else max(start, horizon)


def horizons_of(query: Query, feed: Feed) -> dict[str, Horizon]:
    """The horizon of each source."""
    horizons = {name: input_horizon(feed.finished, known) for name, known in feed.inputs.items()}
    for definition in query.definitions:
        horizons[definition.name] = definition_horizon(definition, horizons)
    return horizons


def horizon_of(query: Query, feed: Feed) -> int:
    """The horizon of what is emitted, at most the end of the output domain."""
    horizon, (_, end) = horizons_of(query, feed)[EMITTED], query.domain
    return end if horizon is None else min(end, horizon)


# Sure marks


def with_sure_marks(finished: bool, known: InputFeed) -> Stream[int]:
    """An input with its sure marks alone: those up to its horizon, and the one after its watermark if a closed row ends there."""
    now = of_rows(rows_now(known))
    horizon = input_horizon(finished, known)
    marks = [mark for mark in now.marks if horizon is None or mark <= horizon]
    after_watermark = [end + 1 for _, end, _ in known.rows if end == known.watermark]
    return Stream(now.cell, marks + after_watermark)


def is_sure(query: Query, feed: Feed, tick: int) -> bool:
    """Whether what is emitted has a sure mark at a tick: definitions make sure marks of sure marks as they make marks of marks."""
    return tick in emitted(query, {name: with_sure_marks(feed.finished, known) for name, known in feed.inputs.items()}).marks


# What is printed, and what has begun

Begun = tuple[int, Cell]


def known_snapshots(query: Query, feed: Feed) -> list[Row]:
    """The snapshots up to the horizon, on the rows as they are now."""
    (start, _), horizon = query.domain, horizon_of(query, feed)
    if horizon <= start:
        return []
    return snapshots(emitted(query, {name: of_rows(rows_now(known)) for name, known in feed.inputs.items()}), start, horizon)


def is_closed(query: Query, feed: Feed) -> bool:
    """Whether the last of them ends at the horizon: the output ends there, or the mark after it is sure."""
    horizon = horizon_of(query, feed)
    return horizon == query.domain[1] or is_sure(query, feed, horizon + 1)


def printed_and_begun(query: Query, feed: Feed) -> tuple[list[Row], Begun | None]:
    known = known_snapshots(query, feed)
    if not known or is_closed(query, feed):
        return known, None
    start, _, value = known[-1]
    return known[:-1], (start, value)


def printed(query: Query, feed: Feed) -> list[Row]:
    return printed_and_begun(query, feed)[0]


def begun(query: Query, feed: Feed) -> Begun | None:
    return printed_and_begun(query, feed)[1]
