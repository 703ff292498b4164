#!/usr/bin/env python3
"""Runs random feeds of random queries as text on the program `tilt-live`, from a fixed seed, and compares standard output, standard error
and the status with what the definitions say: `tools/check/live.py [--program PATH] [QUERIES]`.

The text of a feed has bad lines, late lines, blank lines, headers, lines for all inputs, other spellings, and bytes after its last line.
It goes to the program in random pieces through a pipe. After each piece the check waits until what the lines so far make final has come,
before it sends more: a program that reads on first, or that holds output back, doesn't pass.

What is expected is worked out from the bytes alone: of lines by `line_said` below, of late lines, idle inputs and wrong clocks by
tools/check/watermarks.py, of rows by tools/check/feeds.py. Of each run that differs, the query, the feed and the difference are printed.
The check stops after 20 of them, since each may have waited long. The last line is 'N passed, M failed', and the status is 1 if one
failed."""
from __future__ import annotations

import argparse
import contextlib
import dataclasses
import itertools
import os
import random
import re
import select
import selectors
import subprocess
import sys
import tempfile
import time
from typing import IO, Iterator, Sequence

sys.path.insert(0, os.path.dirname(os.path.dirname(os.path.realpath(__file__))))

from check.feeds import FINISHED, LATE, NO_TICK, OUT_OF_RANGE, T, AllKnownUpTo, Begun, Change, Feed, Finish, KnownUpTo, Line, NoValueFrom
from check.feeds import Query, Update, ValueFrom, WholeRow, line_text, printed_and_begun, query_of
from check.random_feeds import random_feed, random_query
from check.watermarks import AHEAD, OVERLAP, Watermarking, Watermarks
from shared.program import built_program
from shared.series import field
from shared.tally import Tally

SEED = 22
QUERIES = 300
FEEDS_OF_EACH_QUERY = 4
# How long the program may take to answer, and to end.
SECONDS = 20
MOST_FAILED = 20

HEADER = b"name,start,end,value"
LONGEST_LINE = 65536
BYTE_ORDER_MARK = b"\xef\xbb\xbf"

# What a bad line is reported by.
NOT_ONE_RECORD = "70 line {}: not one record"
FIELD_COUNT = "71 line {}: not 4 fields"
NO_FORM = "72 line {}: no such form"
UNKNOWN_INPUT = "73 line {}: unknown input"
BAD_START = "74 line {}: bad start"
BAD_END = "75 line {}: bad end"
BAD_VALUE = "76 line {}: bad value"
TOO_LONG = "77 line {}: too long"
NO_END_OF_LINE = "78 line {}: no end of line"
FAULT_REPORTS = {
    FINISHED: "80 line {}: after the end",
    OUT_OF_RANGE: "81 line {}: time out of range",
    LATE: "82 line {}: late",
    NO_TICK: "83 line {}: empty interval",
    OVERLAP: "84 line {}: overlaps one that is held",
    AHEAD: "85 line {}: too far ahead",
}


class BadLine(Exception):
    """A line that changes nothing, with what it is reported by."""


# What a line says


def records_of(line: bytes, delimiter: bytes = b",") -> list[list[bytes]]:
    """The records of CSV in a line: fields between delimiters, quotes around a field, and a CR or an LF after a record. An empty record is
    none."""
    records: list[list[bytes]] = []
    fields: list[bytes] = []
    at, inside = 0, False
    while at < len(line):
        if not inside and line[at : at + 1] in (b"\r", b"\n"):
            at += 1
            continue
        text, at, ends = next_field(line, at, delimiter)
        fields.append(text)
        inside = not ends
        if ends:
            records.append(fields)
            fields = []
    return [*records, [*fields, b""]] if inside else records


def next_field(line: bytes, at: int, delimiter: bytes) -> tuple[bytes, int, bool]:
    """The field at a place, the place after it and what ends it, and whether the record ends there too."""
    text = b""
    if line[at : at + 1] == b'"':
        at += 1
        while at < len(line):
            quoted = line.find(b'"', at)
            quoted = len(line) if quoted < 0 else quoted
            text += line[at:quoted]
            at = quoted + 1
            if line[at : at + 1] != b'"':
                break
            text += b'"'
            at += 1
        at = min(at, len(line))
    rest = re.match(rb"[^%s\r\n]*" % re.escape(delimiter), line[at:])
    assert rest is not None
    at += len(rest[0])
    return text + rest[0], at + 1, line[at : at + 1] != delimiter


def number_of(text: bytes, otherwise: str) -> int:
    """The number of 64 bits that is spelled: a sign or none, and digits."""
    if re.fullmatch(rb"[-+]?[0-9]+", text) is None or not -(2**63) <= int(text) < 2**63:
        raise BadLine(otherwise)
    return int(text)


def line_said(line: bytes, names: Sequence[str]) -> Line:
    """What a line without its LF says of inputs with these names, as specs/Lines of tilt_feed_line has it."""
    if len(line) > LONGEST_LINE:
        raise BadLine(TOO_LONG)
    records = records_of(line.removeprefix(BYTE_ORDER_MARK))
    if len(records) != 1:
        raise BadLine(NOT_ONE_RECORD)
    if len(records[0]) != 4:
        raise BadLine(FIELD_COUNT)
    name, start, end, value = records[0]
    if not name and not start and not value:
        return AllKnownUpTo(number_of(end, BAD_END)) if end else Finish()
    if not name or not start and (not end or value):
        raise BadLine(NO_FORM)
    if name not in [known.encode() for known in names]:
        raise BadLine(UNKNOWN_INPUT)
    return Change(name.decode(), update_said(start, end, value))


def update_said(start: bytes, end: bytes, value: bytes) -> Update:
    if not start:
        return KnownUpTo(number_of(end, BAD_END))
    first = number_of(start, BAD_START)
    if end:
        last = number_of(end, BAD_END)
        return WholeRow(first, last, number_of(value, BAD_VALUE) if value else None)
    return ValueFrom(first, number_of(value, BAD_VALUE)) if value else NoValueFrom(first)


# What is expected


@dataclasses.dataclass(frozen=True)
class Options:
    begun: bool
    plain: bool
    strict: bool
    watermarking: Watermarking

    def words(self) -> list[list[str]]:
        """The options, each with its value."""
        flags = {"begun": self.begun, "plain": self.plain, "strict": self.strict}
        ticks = dataclasses.asdict(self.watermarking)
        return [[f"--{option}"] for option, given in flags.items() if given] + [
            [f"--{option}", str(given)] for option, given in ticks.items() if given is not None
        ]


@dataclasses.dataclass
class Expected:
    """What standard output and standard error have before the first line and after each line, and how the program ends. There are no more
    lines after a bad one if it ends the run."""

    out: list[bytes]
    err: list[bytes]
    status: int = 0

    def after_lines(self, count: int) -> tuple[bytes, bytes]:
        return self.out[min(count, len(self.out) - 1)], self.err[min(count, len(self.err) - 1)]


def text_of_output(query: Query, feed: Feed, given: int, begun: Begun | None, options: Options) -> tuple[bytes, int, Begun | None]:
    """What is printed of a feed, if so many snapshots were printed before and this had begun; and how many are printed now, and what has
    begun."""
    printed, begun_now = printed_and_begun(query, feed)
    lines = [f"{start},{end},{field(value)}\n" for start, end, value in printed[given:] if value is not None]
    if options.begun and begun_now and begun_now[1] is not None and (begun is None or begun[0] != begun_now[0]):
        lines.append(f"{begun_now[0]},,{begun_now[1]}\n")
    return "".join(lines).encode(), len(printed), begun_now


def take(watermarks: Watermarks, line: Line) -> None:
    """Takes a line. One that has a fault is bad."""
    fault = watermarks.fault(line)
    if fault is not None:
        raise BadLine(FAULT_REPORTS[fault])
    watermarks.take(line)


def is_skipped(line: bytes, number: int) -> bool:
    return line in (b"", b"\r") or number == 1 and line in (HEADER, HEADER + b"\r")


def expected_of(query: Query, text: bytes, options: Options) -> Expected:
    watermarks = Watermarks(query.inputs, options.watermarking)
    news, given, begun = text_of_output(query, watermarks.feed, 0, None, options)
    expected = Expected([b"start,end,value\n" + news], [b""])
    *lines, rest = text.split(b"\n")
    for number, line in enumerate(lines, 1):
        news, reported = b"", b""
        try:
            if not is_skipped(line, number):
                take(watermarks, line_said(line, query.inputs))
                news, given, begun = text_of_output(query, watermarks.feed, given, begun, options)
        except BadLine as bad:
            reported = f"tilt: {str(bad).format(number)}\n".encode()
        expected.out.append(expected.out[-1] + news)
        expected.err.append(expected.err[-1] + reported)
        if reported and options.strict:
            expected.status = 1
            return expected
    if rest:
        # It is reported once the feed has ended.
        expected.out.append(expected.out[-1])
        expected.err.append(expected.err[-1] + f"tilt: {NO_END_OF_LINE.format(len(lines) + 1)}\n".encode())
        expected.status = 1 if options.strict else 0
    return expected


# Feeds as text


def spelled(draw: random.Random, line: bytes) -> bytes:
    """A line of the same meaning, mostly as it is."""
    fields = line.split(b",")
    which = draw.random()
    if which < 0.06:
        at = draw.randrange(4)
        fields[at] = b'"' + fields[at] + b'"'
    elif which < 0.12:
        at = draw.choice([1, 2, 3])
        fields[at] = longer_number(draw, fields[at])
    elif which < 0.14:
        fields[0] = BYTE_ORDER_MARK + fields[0]
    return b",".join(fields)


def longer_number(draw: random.Random, number: bytes) -> bytes:
    """The same number, if it is one, with a sign or zeros before it."""
    sign = b"-" if number.startswith(b"-") else draw.choice([b"", b"+"])
    return sign + b"0" * draw.choice([0, 1, 30]) + number.removeprefix(b"-") if number else number


def bad_line(draw: random.Random, line: bytes) -> bytes:
    """A line that is bad, or only nearly so, made of one that mostly isn't."""
    return b",".join(draw.choice([*bad_shapes(draw, line), *bad_words(draw, line)]))


def bad_shapes(draw: random.Random, line: bytes) -> list[list[bytes]]:
    """Lines of no known shape, as words between commas."""
    name, start, end, value = line.split(b",")
    return [
        # Records and fields.
        [b'"'],
        [b'""'],
        [b"\r\r"],
        [line + b"\r" + line],
        [name, start, end],
        [line, b""],
        [b",,,,"],
        [b'"' + line],
        [b'"' + name + b'"x', start, end, value],
        [name + b'"', start, end, value],
        [BYTE_ORDER_MARK],
        [BYTE_ORDER_MARK + BYTE_ORDER_MARK + name, start, end, value],
        # Forms.
        [name, b"", b"", b""],
        [name, b"", b"", b"1"],
        [name, b"", b"5", b"1"],
        [b"", start, end, value],
        [b"", b"", b"5", b"1"],
        [b"", b"1", b"", b""],
        # Lengths.
        [line + b" " * (LONGEST_LINE - len(line) - draw.choice([0, 1, -1]))],
        [b"x" * (LONGEST_LINE + draw.choice([-1, 0, 1, 1, 100000]))],
    ]


def bad_words(draw: random.Random, line: bytes) -> list[list[bytes]]:
    """Lines with a name that isn't known, a number that isn't one, or a time at an end of all times, as words between commas."""
    name, start, end, value = line.split(b",")
    tick = draw.choice([T, T, T + 1, -T, -T - 1, 0])
    number = draw.choice([b"-", b"+", b"1.5", b" 1", b"1 ", b"0x1", b"9223372036854775808", b"-9223372036854775808", b"1_0", b"\xff"])
    return [
        [HEADER],
        [name + b"x", start, end, value],
        [name.upper(), start, end, value],
        [b" " + name, start, end, value],
        [name, number, end, value],
        [name, start, number, value],
        [name, start, end, number],
        [name, number, number, number],
        [b"", b"", number, b""],
        *[[b"", b"", str(tick).encode(), b""]] * 2,
    ]


def random_lines(draw: random.Random, lines: Sequence[Line]) -> Iterator[bytes]:
    """The lines of a text of a feed, without their ends."""
    if draw.random() < 0.4:
        yield HEADER
    bad = draw.choice([0.0, 0.05, 0.2])
    for line in lines:
        while draw.random() < bad:
            yield bad_line(draw, line_text(line).encode())
        if draw.random() < 0.05:
            yield b""
        yield spelled(draw, line_text(line).encode())
    if draw.random() < 0.2:
        yield bad_line(draw, b"x,1,2,3")


def disordered(draw: random.Random, lines: Sequence[Line], options: Options) -> list[Line]:
    """Lines that come a little out of order, if they may."""
    if options.watermarking.lateness is None:
        return [*lines]
    places = [at + draw.choice([0, 0, draw.uniform(0, 4)]) for at in range(len(lines))]
    return [line for _, line in sorted(zip(places, lines), key=lambda pair: pair[0])]


def random_options(draw: random.Random) -> Options:
    """Options, half of the time with ticks of each kind."""

    def ticks() -> int | None:
        return draw.choice([None, None, draw.randint(0, 20), draw.choice([0, 1, 100, 2 * T])])

    watermarking = Watermarking(ticks(), ticks(), ticks()) if draw.random() < 0.5 else Watermarking()
    return Options(begun=draw.random() < 0.5, plain=draw.random() < 0.3, strict=draw.random() < 0.3, watermarking=watermarking)


def random_text(draw: random.Random, lines: Sequence[Line]) -> bytes:
    """The text of a feed. Its lines end in one way or the other, and at times the last one has no end."""
    with_return = draw.choice([0.0, 0.0, 0.1, 1.0])
    text = b"".join(line + (b"\r\n" if draw.random() < with_return else b"\n") for line in random_lines(draw, lines))
    return text[: -draw.choice([1, 1, 2, 5])] if draw.random() < 0.2 else text


def random_pieces(draw: random.Random, text: bytes) -> list[bytes]:
    """A text in pieces: its lines one by one, or pieces of several lines or of parts of lines, or all at once."""
    way = draw.random()
    if way < 0.4:
        cuts = [at + 1 for at, byte in enumerate(text) if byte == 10]
    elif way < 0.5:
        cuts = []
    else:
        cuts = sorted(draw.sample(range(len(text)), min(len(text), draw.choice([1, 3, 10, 40]))))
    places = [0, *cuts, len(text)]
    return [text[low:high] for low, high in zip(places, places[1:]) if low < high]


# Runs


class Stream:
    """What has come of a stream of the program so far."""

    def __init__(self, file: IO[bytes]) -> None:
        self.file = file
        self.came = b""
        self.ended = False
        os.set_blocking(file.fileno(), False)

    def read(self) -> None:
        with contextlib.suppress(BlockingIOError):
            more = os.read(self.file.fileno(), 65536)
            self.came += more
            self.ended = not more


class Run:
    """A run of the program, whose feed comes piece by piece."""

    def __init__(self, words: Sequence[str], folder: str) -> None:
        # The piece has to be with the program before anything is expected, so there is no buffer before the pipe.
        pipe = subprocess.PIPE
        self.process = subprocess.Popen(words, cwd=folder, stdin=pipe, stdout=pipe, stderr=pipe, bufsize=0)
        assert self.process.stdin and self.process.stdout and self.process.stderr
        self.input = self.process.stdin
        os.set_blocking(self.input.fileno(), False)
        self.out, self.err = Stream(self.process.stdout), Stream(self.process.stderr)

    def send(self, piece: bytes) -> None:
        """Sends a piece. A program that has ended takes none, and one that doesn't read takes what the pipe holds."""
        rest = memoryview(piece)
        with contextlib.suppress(BrokenPipeError):
            while rest and select.select([], [self.input], [], SECONDS)[1]:
                rest = rest[os.write(self.input.fileno(), rest) :]

    def await_output(self, out: bytes, err: bytes, ends: bool = False) -> str | None:
        """Waits until the streams have at least so many bytes, or until they end; and says what is wrong with what has come."""
        end = time.monotonic() + SECONDS
        with selectors.DefaultSelector() as selector:
            for stream in (self.out, self.err):
                if not stream.ended:
                    selector.register(stream.file, selectors.EVENT_READ, stream)
            while not self.has(out, err, ends):
                ready = selector.select(max(0.0, end - time.monotonic()))
                if not ready:
                    break
                for key, _ in ready:
                    key.data.read()
                    if key.data.ended:
                        selector.unregister(key.fileobj)
        if (self.out.came, self.err.came) == (out, err) and (self.out.ended and self.err.ended or not ends):
            return None
        late = "" if self.has(out, err, ends) else f"after {SECONDS} s "
        return f"expected:\n{shown(out)}and on standard error:\n{shown(err)}{late}came:\n{shown(self.out.came)}and:\n{shown(self.err.came)}"

    def has(self, out: bytes, err: bytes, ends: bool) -> bool:
        if self.out.ended and self.err.ended:
            return True
        return not ends and len(self.out.came) >= len(out) and len(self.err.came) >= len(err)

    def end(self) -> int | None:
        """Ends the feed, and waits for the program; its status, or None if it doesn't end."""
        with contextlib.suppress(BrokenPipeError):
            self.input.close()
        try:
            return self.process.wait(SECONDS)
        except subprocess.TimeoutExpired:
            return None

    def close(self) -> None:
        if self.process.poll() is None:
            self.process.kill()
            self.process.wait()
        for file in (self.input, self.out.file, self.err.file):
            file.close()


def shown(text: bytes) -> str:
    """A text, with what is no printed ASCII marked, and long lines cut."""
    lines = text.decode("ascii", "backslashreplace").replace("\r", "\\r").split("\n")
    return "\n".join(line if len(line) <= 200 else f"{line[:100]}.. ({len(line)} bytes)" for line in lines)


def difference(words: Sequence[str], folder: str, pieces: Sequence[bytes], expected: Expected) -> str | None:
    """What is wrong with a run, or None."""
    run = Run(words, folder)
    try:
        sent = b""
        for piece in [b"", *pieces]:
            run.send(piece)
            sent += piece
            # What is reported at the end comes with no line.
            wrong = run.await_output(*expected.after_lines(sent.count(b"\n")))
            if wrong is not None:
                return f"after {len(sent)} bytes, {wrong}"
        run.input.close()
        wrong = run.await_output(expected.out[-1], expected.err[-1], ends=True)
        status = run.end()
        if wrong is None and status != expected.status:
            wrong = f"expected status {expected.status}, came {status}"
        return wrong and f"at the end, {wrong}"
    finally:
        run.close()


# The check


def check_query(draw: random.Random, program: str, tally: Tally) -> None:
    # At times all times lie at an end of time.
    base = draw.choice([0] * 12 + [T - 40, T - 40, -T + 14])
    text = random_query(draw, base)
    query = query_of(text)
    with tempfile.TemporaryDirectory() as folder:
        with open(os.path.join(folder, "query.tilt"), "w", encoding="ascii") as file:
            file.write(text)
        for _ in range(FEEDS_OF_EACH_QUERY):
            options = random_options(draw)
            feed = random_text(draw, disordered(draw, random_feed(draw, query.inputs, base), options))
            words = [program, "query.tilt", *itertools.chain(*draw.sample(options.words(), len(options.words())))]
            wrong = difference(words, folder, random_pieces(draw, feed), expected_of(query, feed, options))
            tally.expect(wrong is None, f"{' '.join(words)}\n{text}{shown(feed)}\n{wrong}\n")


def main(arguments: Sequence[str]) -> int:
    words = argparse.ArgumentParser(description="Runs random feeds of random queries as text.")
    words.add_argument("queries", nargs="?", type=int, default=QUERIES, help="how many queries")
    words.add_argument("--program", default=built_program("tilt-live"), help="the program that is run")
    chosen = words.parse_args(arguments)
    program = os.path.abspath(chosen.program)
    draw = random.Random(SEED)
    tally = Tally()
    if not os.access(program, os.X_OK):
        tally.expect(False, f"{program} isn't built")
        return tally.end()
    for _ in range(chosen.queries):
        if tally.failed < MOST_FAILED:
            check_query(draw, program, tally)
    return tally.end()


if __name__ == "__main__":
    sys.exit(main(sys.argv[1:]))
