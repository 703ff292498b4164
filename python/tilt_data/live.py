"""A query over what comes: readings and rows go to `tilt-live`, and the rows of the output that are final come back.

Each call of `tilt-live` goes on from the state that the one before saved. So a call that fails changes nothing, and between two calls all
there is are this state and the last reading of each input: only the next reading shows how long it holds."""
from __future__ import annotations

import copy
import dataclasses
import json
import os
import pathlib
from typing import TYPE_CHECKING, Any, Iterable

from .clock import TIMES, moment_text
from .convention import Convention, Time, moment_read
from .convert import Converter
from .errors import Refused, TiltError
from .files import failing_at, scratch
from .frames import Inputs, Query, Shape, clock_of, final_row, frame_inputs, moments_of, rows_of_intervals, rows_of_some, zone_in
from .program import REFUSALS, call
from .rows import RowArrays
from .version import VERSION
from .whole import whole_numbers
from .why import check

if TYPE_CHECKING:
    import pandas

# What a state is of, and what changes when those of earlier versions can't be taken.
FORMAT = "tilt-data live 1"


@dataclasses.dataclass
class Came:
    """What came of an input: the reading that is held back, up to which tick the input is known, and whether the program has the reading
    already, as a value that lasts."""

    converter: Converter
    known: int | None = None
    lasts: bool = False

    def know(self, tick: int) -> None:
        self.known = tick if self.known is None else max(tick, self.known)

    def ended(self, rows: RowArrays) -> RowArrays:
        """The rows that readings end. The program knows a missing value that lasts already: as a gap, whose edges are no marks."""
        if self.lasts and len(rows):
            self.lasts = False
            return rows.some(slice(1, None)) if rows.known is not None and not rows.known[0] else rows
        return rows

    def advance(self, tick: int) -> tuple[RowArrays, str]:
        """The row of the held reading if it ends by this tick, or the line of one that goes on."""
        its, line, rows = self.converter, "", RowArrays.of([])
        self.know(tick)
        if its.moment is not None and its.start < tick:
            row = its.row(None)
            if its.rule.hold and (its.rule.max_age is None or row[1] > tick):
                line = "" if self.lasts else f"{its.start},,{'' if its.value is None else its.value}\n"
                self.lasts = True
            else:
                its.moment, rows = None, self.ended(RowArrays.of([row]))
        return rows, line


@dataclasses.dataclass
class Taken:
    """What was taken: of each input what came, the lines that the program wasn't given yet, and the tick that `advance` has reached. The
    zone is that of the first readings, which the output has too."""

    inputs: dict[str, Came]
    lines: list[bytes] = dataclasses.field(default_factory=list)
    advanced: int = -TIMES
    zone: Any = None
    zoned: bool = False

    def copy(self) -> Taken:
        inputs = {name: dataclasses.replace(one, converter=copy.copy(one.converter)) for name, one in self.inputs.items()}
        return dataclasses.replace(self, inputs=inputs, lines=list(self.lines))

    def put(self, name: str, texts: Iterable[bytes]) -> None:
        """Adds lines of an input, and up to where it is known."""
        front = name.encode() + b","
        self.lines += [front + text[:-1].replace(b"\n", b"\n" + front) + b"\n" for text in texts if text]
        known = self.inputs[name].known
        if known is not None:
            self.lines.append(front + b",%d,\n" % known)

    @property
    def cut(self) -> int | None:
        """The tick up to which all inputs are known."""
        known = [one.known for one in self.inputs.values() if one.known is not None]
        return min(known) if known and len(known) == len(self.inputs) else None


class Live:
    """A run of a query over what comes, as `Query.live` begins it. `push` takes readings or rows, and `advance` says that none comes before
    a moment any more. Both return the rows of the output that are final by it, and `end` returns the rest: a DataFrame with an
    IntervalIndex and the column `value`, in the units of the data. Together the rows are those of one run over all. `state` returns what
    another process needs to go on.

    >>> query = "input x; emit sum(x[t-60:t]) over (0, 120] every 60;"
    >>> minutes = pandas.Series([1, 2, 3], pandas.date_range("2026-03-01", periods=3, freq="1min"))
    >>> with Query(query).live(origin="2026-03-01", scale=1) as live:
    ...     print([live.push(minutes[:2])["value"].tolist(), live.advance("2026-03-01 00:02")["value"].tolist()])
    [[1], [2]]
    """

    def __init__(self, query: Query, convention: Convention, state: bytes | None = None) -> None:
        names = query.inputs
        if convention.origin is None or any(convention.scale_of(name) is None for name in names):
            raise Refused("a live run needs its origin and its scale beforehand: origin='2026-03-01', scale=10")
        convention.check_names(names)
        self.query, self.convention, self.clock = query, convention, clock_of({}, {}, convention)
        self.scales = {name: convention.scale_of(name) or 1 for name in names}
        self.whole = query.over_whole(Inputs(convention, self.clock, {}, {}, self.scales, []))
        self.taken = Taken({name: Came(Converter(self.clock, convention.rule(name, self.clock))) for name in names})
        self.done: int | None = None
        self.folder = scratch()
        self.path, self.kept = query.put(self.folder.name, self.whole.query), pathlib.Path(self.folder.name, "state")
        if state is not None:
            self.load(state)

    def __enter__(self) -> Live:
        return self

    def __exit__(self, *_: object) -> None:
        self.folder.cleanup()

    def push(self, data: Any = None, **inputs: Any) -> pandas.DataFrame:
        """Takes readings, or rows with an IntervalIndex: a DataFrame, or a Series for each input by its name. What comes of an input is in
        order of time. A push that is rejected takes nothing. If the program ends by a fault, such as a full disk, what was pushed is kept,
        and the next call returns its rows too; that one may be a push without readings."""
        taken = self.going().copy()
        for name, series in {**frame_inputs(data, list(taken.inputs)), **inputs}.items():
            if name not in taken.inputs:
                raise Refused(f"the query reads {', '.join(taken.inputs)}: not {name}")
            self.take(taken, name, series)
        return self.go_on(taken)

    def advance(self, moment: Time) -> pandas.DataFrame:
        """Says that nothing comes before a moment any more: all inputs are known up to it, and what holds goes on. The moment is a text or
        a Timestamp, in UTC unless it has an offset. What comes before it later is rejected."""
        taken, tick = self.going().copy(), self.clock.start(moment_read("moment", moment))
        if not -TIMES <= tick <= TIMES:
            raise Refused(f"moment={str(moment)!r}: it is more than {TIMES} ticks from the origin")
        taken.advanced = max(tick, taken.advanced)
        for name, one in taken.inputs.items():
            rows, line = one.advance(taken.advanced)
            taken.put(name, [rows.text(), line.encode()])
        return self.go_on(taken)

    def end(self) -> pandas.DataFrame:
        """Says that nothing comes any more, and returns the rows that are left. If it fails, it can be called again."""
        taken = self.going().copy()
        for name, one in taken.inputs.items():
            last = final_row(name, one.converter, self.convention)
            for end in last.ends:
                one.know(int(end))
            if one.lasts:
                last = dataclasses.replace(last, ends=last.ends * 0 + one.known)
            taken.put(name, [one.ended(last).text()])
        taken.lines.append(b",,,\n")
        frame = self.frame(self.call(taken, ()))
        self.folder.cleanup()
        return frame

    def state(self) -> bytes:
        """What the run needs to go on: `Query(..).live(state=.., ..)` with the same query and options does, also in another process."""
        taken = self.going()
        inputs = {
            name: [its.moment, its.start, its.value, one.known, one.lasts] for name, one in taken.inputs.items() if (its := one.converter)
        }
        kept = self.kept.read_text() if self.done is not None else None
        fields = {"format": FORMAT, "version": VERSION, "of": self.described(), "inputs": inputs, "done": self.done, "kept": kept}
        fields |= {"advanced": taken.advanced, "zone": taken.zone and str(taken.zone), "zoned": taken.zoned}
        return json.dumps({**fields, "lines": b"".join(taken.lines).decode()}).encode()

    def described(self) -> dict[str, Any]:
        """What a state belongs to: the query over whole numbers, and what readings mean."""
        rules = {name: [*one.converter.rule, self.convention.skips_empty(name)] for name, one in self.taken.inputs.items()}
        return {"query": self.whole.query, "clock": list(dataclasses.astuple(self.clock)), "rules": rules, "scales": self.scales}

    def load(self, state: bytes) -> None:
        try:
            found = json.loads(state)
            if found["format"] != FORMAT:
                raise ValueError
            inputs, lines = found["inputs"], found["lines"].encode()
        except (ValueError, KeyError, TypeError, AttributeError) as error:
            raise Refused("state=: what `state` of a live run returned was expected") from error
        if found["of"] != self.described():
            raise Refused("state=: it is of another query, or of other options: give those that it was made with")
        for name, (moment, start, value, known, lasts) in inputs.items():
            one = self.taken.inputs[name]
            one.converter = dataclasses.replace(one.converter, moment=moment, start=start, value=value)
            one.known, one.lasts = known, lasts
        self.taken = dataclasses.replace(
            self.taken, lines=[lines] if lines else [], advanced=found["advanced"], zone=found["zone"], zoned=found["zoned"]
        )
        self.done = found["done"]
        if found["kept"] is not None:
            self.kept.write_text(found["kept"])

    def going(self) -> Taken:
        if not os.path.isdir(self.folder.name):
            raise Refused("the live run has ended")
        return self.taken

    def take(self, taken: Taken, name: str, series: Any) -> None:
        import pandas

        if not isinstance(series, pandas.Series):
            raise Refused(f"the input {name}: a Series was expected, not {type(series).__name__}")
        if not taken.zoned and (len(series) or zone_in(series.index) is not None):
            taken.zone, taken.zoned = zone_in(series.index), True
        one, (values, known) = taken.inputs[name], whole_numbers(name, series, self.scales[name])
        if isinstance(series.index, pandas.IntervalIndex):
            rows = rows_of_intervals(name, series.index, self.clock, values, known)
            self.check_order(name, rows, one.known)
            if len(rows):
                one.know(int(rows.ends[-1]))
            taken.put(name, [rows.text()])
            return
        moments = moments_of(series.index, f"the input {name}")
        if len(moments) and self.clock.start(int(moments.min())) < taken.advanced:
            at = moment_text(int(moments.min()), 9)
            raise Refused(f"the input {name}: the reading at {at} comes before the moment that `advance` has reached")
        rows = RowArrays.joined(list(rows_of_some(name, one.converter, self.convention, moments, values, known)))
        if one.converter.moment is not None:
            one.know(one.converter.start)
        taken.put(name, [one.ended(rows).text()])

    def check_order(self, name: str, rows: RowArrays, before: int | None) -> None:
        """Rejects rows that aren't in order: a call that fails for them would take nothing of any input."""
        import numpy

        first = rows.starts[:1] if before is None else numpy.array([before])
        wrong = (rows.starts >= rows.ends) | (rows.starts < numpy.concatenate([first, rows.ends])[: len(rows)])
        if wrong.any():
            at = moment_text(self.clock.moment(int(rows.starts[wrong.argmax()])), 9)
            raise Refused(f"the input {name}: the interval at {at} is empty, or begins before the one before it ends: sort_index()")

    def go_on(self, taken: Taken) -> pandas.DataFrame:
        """Hands on what was taken, if all inputs are known farther than before. What the program rejects isn't taken."""
        before, self.taken = self.taken, taken
        cut = taken.cut
        if cut is None or self.done is not None and cut <= self.done:
            return self.frame(RowArrays.of([]))
        new = f"{self.kept}.new"
        try:
            rows = self.call(taken, ("--save", new))
        except TiltError as error:
            if error.status in REFUSALS:
                self.taken = before
            raise
        os.replace(new, self.kept)
        self.taken, self.done = dataclasses.replace(taken, lines=[]), cut
        return self.frame(rows)

    def call(self, taken: Taken, save: tuple[str, ...]) -> RowArrays:
        """Calls `tilt-live` with the lines: the rows that it prints. Only the first call prints a header."""
        resumed, feed = self.done is not None, os.path.join(self.folder.name, "feed")
        with failing_at(feed), open(feed, "w+b") as file:
            file.writelines(taken.lines)
            file.seek(0)
            words = [self.path, "--strict", *(["--resume", str(self.kept)] if resumed else []), *save]
            called = call(words, stdin=file.fileno(), command="tilt-live")
        check(called, ["live", *words], self.query.name)
        lines = called.printed.decode().splitlines()[0 if resumed else 1 :]
        return RowArrays.of((int(start), int(end), int(value)) for start, end, value in (line.split(",") for line in lines))

    def frame(self, rows: RowArrays) -> pandas.DataFrame:
        return Shape(self.clock, self.taken.zone, int(10**self.whole.decimals)).frame(rows)
