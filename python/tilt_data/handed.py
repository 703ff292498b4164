"""What `tilt-data follow` does with the rows that are committed. Each receiver has a file that says up to where it has `output.csv`."""
from __future__ import annotations

import contextlib
import itertools
import os
import re
import shutil
import subprocess
import time
from typing import IO

from .clock import Clock
from .errors import Refused, note
from .files import HEADER_LINE, failing_at, replace, writing

# How many bytes of the output are handed on at once; how long to wait after a failure; in seconds.
CHUNK, AGAIN = 1 << 20, 1.0
# The line of a state that says how many bytes of the feed are committed.
TAKEN = re.compile(rb"^bytes ([0-9]+)$", re.MULTILINE)


class Output:
    """The rows of `output.csv` that are committed. The second line of the state says how much of it that is."""

    def __init__(self, folder: str) -> None:
        self.folder, self.seen, self.committed = folder, (0, 0), 0

    def look(self) -> None:
        """Finds what was committed since."""
        with contextlib.suppress(FileNotFoundError), open(os.path.join(self.folder, "state"), "rb") as state:
            found, before = os.fstat(state.fileno()), self.seen
            self.seen = found.st_ino, found.st_mtime_ns
            if self.seen != before:
                state.readline()
                self.committed = int(state.readline())

    def taken(self) -> int:
        """How many bytes of the feed are committed. The third line of a state is the length of the end of the feed, which comes behind it.
        After this and the query a line says it. A state that is new has two lines."""
        found = [b"0"]
        with contextlib.suppress(FileNotFoundError), open(os.path.join(self.folder, "state"), "rb") as state:
            for _ in range(2):
                state.readline()
            state.seek(int(state.readline() or 0), os.SEEK_CUR)
            found += TAKEN.findall(state.read())
        return int(found[-1])

    def after(self, at: int) -> str:
        """Whole lines from a byte on, the titles among them; nothing if all is handed on."""
        if at >= self.committed:
            return ""
        with open(os.path.join(self.folder, "output.csv"), "rb") as output:
            output.seek(at)
            text = output.read(min(self.committed - at, CHUNK)).decode("ascii")
        return text[: text.rindex("\n") + 1]


class Receiver:
    """Somebody who gets the rows, of which `at` counts the bytes that are handed on. Its file has this number, and may have `more`."""

    def __init__(self, output: Output, name: str) -> None:
        self.output, self.path, self.at = output, os.path.join(output.folder, name), 0
        self.more: list[str] = []
        with contextlib.suppress(FileNotFoundError), open(self.path, encoding="ascii") as file:
            at, *self.more = file.read().split()
            self.at = int(at)

    def has(self, at: int, *more: object) -> None:
        self.at = at
        replace(self.path, " ".join(map(str, (at, *more))))

    def hand_on(self) -> None:
        raise NotImplementedError

    def finish(self) -> None:
        """Hands on what is left, once the program has ended."""
        self.hand_on()

    def end(self) -> None:
        """Ends what it has begun, whatever happened."""


class Rotated(Receiver):
    """A file for each day, with the rows that start on it in UTC. Rows come in the order of their starts, so a day is complete once another
    one has begun. `rotated` has the position, the day of the row before it, and the length of its file with the rows up to there. A file is
    cut before it is written, to this length, or to nothing for another day. So rows that a killed call didn't note aren't there twice."""

    def __init__(self, output: Output, clock: Clock) -> None:
        super().__init__(output, "rotated")
        self.clock, self.at = clock, max(self.at, len(HEADER_LINE))
        self.day, self.length = (self.more[0], int(self.more[1])) if self.more else ("", 0)

    def day_of(self, row: str) -> str:
        """The day of a row, whose start is a date or a tick. A tick outside of the years 1 to 9999 is rejected."""
        start = row.partition(",")[0]
        return (start if start.endswith("Z") else self.clock.text(int(start)))[:10]

    def hand_on(self) -> None:
        while text := self.output.after(self.at):
            for day, rows in itertools.groupby(text.splitlines(True), self.day_of):
                self.write(day, "".join(rows).encode())

    def write(self, day: str, rows: bytes) -> None:
        if day != self.day:
            self.day, self.length = day, 0
        path = os.path.join(self.output.folder, f"output-{day}.csv")
        with failing_at(path), open(path, "ab") as file:
            if os.path.getsize(path) < self.length:
                raise Refused(f"{path}: it was moved away or cut before its day was over: put it back as it was")
            file.truncate(self.length)
            file.write(rows if self.length else HEADER_LINE + rows)
            file.flush()
            os.fsync(file.fileno())
            self.length = os.path.getsize(path)
        self.has(self.at + len(rows), day, self.length)


class Shown(Receiver):
    """Standard output, and a command that is called for each row."""

    def __init__(self, output: Output, quiet: bool, command: str | None) -> None:
        super().__init__(output, "shown")
        self.quiet, self.command = quiet, command

    def hand_on(self) -> None:
        while text := self.output.after(self.at):
            for piece in text.splitlines(True) if self.command is not None else [text]:
                if not self.quiet:
                    with writing(None) as out:
                        out.write(piece)
                if self.command is not None and self.at:
                    self.call(self.command, piece.strip())
                self.has(self.at + len(piece))

    def call(self, command: str, row: str) -> None:
        done = subprocess.run(["sh", "-c", command, "sh", *row.split(",")], stdin=subprocess.DEVNULL)
        if done.returncode:
            raise Refused(f"--exec: it ended with status {done.returncode} for {row}, which it gets again next time")


class Published(Receiver):
    """A topic of MQTT. A call of `mosquitto_pub` sends the rows that are there, and exits with 0 once the broker has acknowledged them all.
    Nothing waits for it: what comes meanwhile is for the next call. If it fails, the rows are sent again."""

    def __init__(self, output: Output, topic: str) -> None:
        super().__init__(output, "published")
        if shutil.which("mosquitto_pub") is None:
            raise Refused("--mqtt: mosquitto_pub is missing: apt-get install mosquitto-clients")
        self.words = ["mosquitto_pub", "-L" if "://" in topic else "-t", topic, "-q", "1", "-l"]
        self.process: subprocess.Popen[bytes] | None = None
        self.sent, self.due, self.status = 0, 0.0, 0

    def hand_on(self) -> None:
        if self.process is not None and (status := self.process.poll()) is not None:
            self.process = None
            if status == 0:
                self.has(self.sent)
            elif self.status == 0:
                note(f"mosquitto_pub ended with status {status}, and is called again")
            self.status, self.due = status, time.monotonic() + (AGAIN if status else 0)
        if self.process is None and time.monotonic() >= self.due and (text := self.output.after(self.at)):
            self.sent = self.at + len(text)
            self.start(text if self.at else text.partition("\n")[2])

    def start(self, rows: str) -> None:
        """The rows are in a file, so that a call which waits for its broker doesn't hold the command. Of failures one after another only
        the first is reported."""
        file: IO[bytes]
        with open(os.memfd_create("tilt-data"), "w+b") as file:
            file.write(rows.encode())
            file.seek(0)
            told = subprocess.DEVNULL if self.status else None
            self.process = subprocess.Popen(self.words, stdin=file, stdout=subprocess.DEVNULL, stderr=told)

    def finish(self) -> None:
        """Waits until all rows are acknowledged, or a call fails."""
        self.status, self.due = 0, 0.0
        while self.at < self.output.committed and self.status == 0:
            self.hand_on()
            time.sleep(0.01)
        if self.status:
            raise Refused("--mqtt: not all rows are published: the next call begins with those that aren't")

    def end(self) -> None:
        if self.process is not None:
            self.process.kill()
