"""`tilt-data follow --prometheus`: numbers for a monitor, in Prometheus' text format."""
from __future__ import annotations

import contextlib
import os
import time
from typing import Callable

from .clock import Clock, Moments
from .errors import Refused, note
from .files import HEADER_LINE, replace
from .handed import Output, Receiver

# How often the file is replaced, in seconds.
BEAT = 1.0
# The type and the meaning of each number. Files of other folders have the same lines, as node_exporter asks.
METRICS = {
    "tilt_up": ("gauge", "1 while tilt-data follow runs, 0 once it has ended"),
    "tilt_rows_total": ("counter", "Rows in output.csv that are committed"),
    "tilt_feed_bytes_total": ("counter", "Bytes of the feed that were taken"),
    "tilt_committed_bytes": ("gauge", "Bytes of the feed that are committed"),
    "tilt_restarts_total": ("counter", "How often a signal ended tilt-live and this call started it again"),
    "tilt_last_row_end_seconds": ("gauge", "End of the last row that has one, in seconds since 1970"),
    "tilt_last_row_end_ticks": ("gauge", "End of the last row that has one, in ticks"),
    "tilt_last_value": ("gauge", "Value of the last row, NaN if it is null"),
}
# What is noted for a number that isn't known yet.
UNKNOWN = "-"


class Measured(Receiver):
    """A file for node_exporter. `measured` has the position, the rows up to there, and the end and the value of the last one."""

    def __init__(self, output: Output, path: str, clock: Clock | None, of_call: Callable[[], dict[str, int]]) -> None:
        """The clock of readings; None if rows have ticks alone. `of_call` has the numbers of this call by name."""
        super().__init__(output, "measured")
        self.file, self.clock, self.of_call, self.due, self.fails = path, clock, of_call, 0.0, False
        self.at = max(self.at, len(HEADER_LINE))
        rows, self.end_of_last, self.value = self.more or ("0", UNKNOWN, UNKNOWN)
        self.rows = int(rows)
        # A file that can't be written is an error only here.
        replace(path, self.text(1))

    def hand_on(self) -> None:
        if time.monotonic() >= self.due:
            self.due = time.monotonic() + BEAT
            self.count()
            self.put(1)

    def finish(self) -> None:
        self.count()

    def end(self) -> None:
        # What isn't counted is for the next call.
        with contextlib.suppress(OSError, Refused):
            self.output.look()
            self.count()
        self.put(0)

    def count(self) -> None:
        before = self.at
        while text := self.output.after(self.at):
            rows = [row.split(",") for row in text.splitlines()]
            ends = [end for _, end, _ in rows if end]
            self.end_of_last = self.number_of(ends[-1]) if ends else self.end_of_last
            self.at, self.rows, self.value = self.at + len(text), self.rows + len(rows), rows[-1][2] or "NaN"
        if self.at > before:
            self.has(self.at, self.rows, self.end_of_last, self.value)

    def number_of(self, end: str) -> str:
        """An end, which is a date or a tick, in seconds since 1970; without a clock the tick."""
        if self.clock is None:
            return end
        return str((Moments().iso(end) if end.endswith("Z") else self.clock.moment(int(end))) / 10**9)

    def put(self, up: int) -> None:
        """Replaces the file. A failure doesn't hold the rows back, and of failures one after another only the first is reported."""
        try:
            replace(self.file, self.text(up))
            self.fails = False
        except Refused as refused:
            if not self.fails:
                note(str(refused))
            self.fails = True

    def text(self, up: int) -> str:
        end = "tilt_last_row_end_ticks" if self.clock is None else "tilt_last_row_end_seconds"
        numbers: dict[str, object] = {end: self.end_of_last, "tilt_last_value": self.value, "tilt_rows_total": self.rows}
        numbers.update({"tilt_up": up, "tilt_committed_bytes": self.output.taken()}, **self.of_call())
        folder = label(os.path.abspath(self.output.folder))
        return "".join(
            f'# HELP {name} {meaning}\n# TYPE {name} {kind}\n{name}{{folder="{folder}"}} {numbers[name]}\n'
            for name, (kind, meaning) in METRICS.items()
            if numbers.get(name, UNKNOWN) != UNKNOWN
        )


def label(text: str) -> str:
    """A text as the value of a label, in which bytes that are no UTF-8 are replaced."""
    text = os.fsencode(text).decode("utf-8", "replace")
    return text.replace("\\", r"\\").replace('"', r"\"").replace("\n", r"\n")
