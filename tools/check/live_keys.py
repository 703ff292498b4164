#!/usr/bin/env python3
"""Runs random feeds with keys on the program `tilt-live --keys`, from a fixed seed, and compares standard output, standard error and the
status with what the definitions say: `tools/check/live_keys.py [--program PATH] [QUERIES]`.

Each key has a random feed of its own, and the lines of the keys come in a random order. Between them are lines of every key, bad lines,
lines without a key, and blank lines. The text goes to the program in random pieces, and after each piece the check waits until what the
lines so far make final has come, as tools/check/live.py does.

What is expected is worked out from the bytes alone: the lines of a key by `KeyedFeed` below, and what they make of its output by
tools/check/live.py, which takes no part of the program. Of each run that differs, the query, the feed and the difference are printed. The
check stops after 20 of them. The last line is 'N passed, M failed', and the status is 1 if one failed."""
from __future__ import annotations

import argparse
import dataclasses
import itertools
import os
import random
import sys
import tempfile
from typing import Iterator, Sequence

sys.path.insert(0, os.path.dirname(os.path.dirname(os.path.realpath(__file__))))

from check.feeds import Begun, Query, line_text, query_of
from check.live import LONGEST_LINE, MOST_FAILED, NO_END_OF_LINE, TOO_LONG, BadLine, Expected, Options
from check.live import bad_line, difference, disordered, is_skipped, line_said, random_options, random_pieces, shown, spelled, take
from check.live import text_of_output
from check.random_feeds import random_feed, random_query
from check.watermarks import Watermarks
from shared.program import built_program
from shared.tally import Tally

SEED = 57
QUERIES = 150
FEEDS_OF_EACH_QUERY = 4

HEADER = b"key,name,start,end,value"
NO_KEY = "86 line {}: no key"
BAD_KEY = "87 line {}: bad key"
TOO_MANY_KEYS = b"tilt: 88 too many keys\n"


class TooManyKeys(Exception):
    """A line has a new key, and there are as many as there may be."""


# What is expected


@dataclasses.dataclass
class KeyRun:
    """The feed of one key, and what was printed of it."""

    query: Query
    options: Options
    watermarks: Watermarks
    lines: int = 0
    given: int = 0
    begun: Begun | None = None

    def news(self) -> bytes:
        """What is printed that wasn't before."""
        text, self.given, self.begun = text_of_output(self.query, self.watermarks.feed, self.given, self.begun, self.options)
        return text

    def take(self, line: bytes) -> bytes:
        """What is printed for a line. A bad one changes nothing."""
        self.lines += 1
        if is_skipped(line, self.lines):
            return b""
        take(self.watermarks, line_said(line, self.query.inputs))
        return self.news()


class KeyedFeed:
    """A feed with keys: each key has the lines that begin with it, and those of every key."""

    def __init__(self, query: Query, options: Options, most: int | None) -> None:
        self.query, self.options, self.most = query, options, most
        self.runs: dict[bytes, KeyRun] = {}
        self.shared: bytes | None = None

    def take(self, line: bytes) -> tuple[bytes, str | None]:
        """What is printed for a line, and why it is bad, if it is."""
        key, comma, rest = line.partition(b",")
        if not comma:
            return b"", NO_KEY
        if any(byte in key for byte in b'"\r'):
            return b"", BAD_KEY
        if key:
            return self.take_own(key, rest)
        self.shared = rest
        texts, faults = zip(*(told(known, run, rest) for known, run in self.runs.items())) if self.runs else ((), ())
        return b"".join(texts), next((fault for fault in faults if fault is not None), None)

    def take_own(self, key: bytes, rest: bytes) -> tuple[bytes, str | None]:
        first = b""
        if key not in self.runs:
            if self.most is not None and len(self.runs) >= self.most:
                raise TooManyKeys
            run = KeyRun(self.query, self.options, Watermarks(self.query.inputs, self.options.watermarking))
            first = with_key(key, run.news())
            if self.shared is not None:
                first += told(key, run, self.shared)[0]
            self.runs[key] = run
        text, fault = told(key, self.runs[key], rest)
        return first + text, fault


def told(key: bytes, run: KeyRun, line: bytes) -> tuple[bytes, str | None]:
    """What the run of a key prints for a line, and why the line is bad, if it is."""
    try:
        return with_key(key, run.take(line)), None
    except BadLine as bad:
        return b"", str(bad)


def with_key(key: bytes, text: bytes) -> bytes:
    return b"".join(key + b"," + line for line in text.splitlines(keepends=True))


def expected_of(query: Query, text: bytes, options: Options, most: int | None) -> Expected:
    feed = KeyedFeed(query, options, most)
    expected = Expected([b"key,start,end,value\n"], [b""])
    *lines, rest = text.split(b"\n")
    for number, line in enumerate(lines, 1):
        news, fault = b"", None
        try:
            if len(line) > LONGEST_LINE:
                fault = TOO_LONG
            elif line not in (b"", b"\r") and not (number == 1 and line in (HEADER, HEADER + b"\r")):
                news, fault = feed.take(line)
        except TooManyKeys:
            expected.out.append(expected.out[-1])
            expected.err.append(expected.err[-1] + TOO_MANY_KEYS)
            expected.status = 1
            return expected
        stops = fault is not None and options.strict
        reported = b"" if fault is None else f"tilt: {fault.format(number)}\n".encode()
        expected.out.append(expected.out[-1] + (b"" if stops else news))
        expected.err.append(expected.err[-1] + reported)
        if stops:
            expected.status = 1
            return expected
    if rest:
        expected.out.append(expected.out[-1])
        expected.err.append(expected.err[-1] + f"tilt: {NO_END_OF_LINE.format(len(lines) + 1)}\n".encode())
        expected.status = 1 if options.strict else 0
    return expected


# Feeds as text

KEYS = [b"a", b"b", b"pump 7", b"Z\xc3\xbcrich", b"-1", b"key", b"x" * 40]


def random_lines(draw: random.Random, query: Query, base: int, options: Options) -> Iterator[bytes]:
    """The lines of a text of a feed with keys, without their ends."""
    if draw.random() < 0.4:
        yield HEADER
    keys = draw.sample(KEYS, draw.choice([1, 2, 2, 3, 4]))
    left = [(key, disordered(draw, random_feed(draw, query.inputs, base), options)) for key in keys]
    shared, bad = draw.choice([0.0, 0.1, 0.3]), draw.choice([0.0, 0.05, 0.2])
    while left:
        key, lines = draw.choice(left)
        if not lines:
            left.remove((key, lines))
            continue
        text = line_text(lines.pop(0)).encode()
        if draw.random() < bad:
            yield bad_with_key(draw, key, text)
        if draw.random() < 0.04:
            yield b""
        # A watermark may be one of every key.
        yield (b"" if text.startswith(b",,") and draw.random() < shared else key) + b"," + spelled(draw, text)


def bad_with_key(draw: random.Random, key: bytes, line: bytes) -> bytes:
    """A line that is bad, or only nearly so."""
    whole = key + b"," + line
    bad = bad_line(draw, line)
    quoted, bare, long = [b'"' + whole, key + b'"' + whole], [key, HEADER, b",", key + b","], whole + b"x" * LONGEST_LINE
    return draw.choice([key + b"," + bad, key + b"," + bad, b"," + bad, *quoted, *bare, long])


def random_text(draw: random.Random, lines: Iterator[bytes]) -> bytes:
    with_return = draw.choice([0.0, 0.0, 0.1, 1.0])
    text = b"".join(line + (b"\r\n" if draw.random() < with_return else b"\n") for line in lines)
    return text[: -draw.choice([1, 1, 2, 5])] if draw.random() < 0.2 else text


# The check


def check_query(draw: random.Random, program: str, tally: Tally) -> None:
    text = random_query(draw, 0)
    query = query_of(text)
    with tempfile.TemporaryDirectory() as folder:
        with open(os.path.join(folder, "query.tilt"), "w", encoding="ascii") as file:
            file.write(text)
        for _ in range(FEEDS_OF_EACH_QUERY):
            options = random_options(draw)
            most = draw.choice([None, None, None, 0, 1, 2, 3, 8])
            feed = random_text(draw, random_lines(draw, query, 0, options))
            given = [*options.words(), ["--keys"], *([] if most is None else [["--max-keys", str(most)]])]
            words = [program, "query.tilt", *itertools.chain(*draw.sample(given, len(given)))]
            wrong = difference(words, folder, random_pieces(draw, feed), expected_of(query, feed, options, most))
            tally.expect(wrong is None, f"{' '.join(words)}\n{text}{shown(feed)}\n{wrong}\n")


def main(arguments: Sequence[str]) -> int:
    words = argparse.ArgumentParser(description="Runs random feeds with keys as text.")
    words.add_argument("queries", nargs="?", type=int, default=QUERIES, help="how many queries")
    words.add_argument("--program", default=built_program("tilt-live"), help="the program that is run")
    chosen = words.parse_args(arguments)
    program = os.path.abspath(chosen.program)
    draw = random.Random(SEED)
    tally = Tally()
    if not os.access(program, os.X_OK):
        tally.expect(False, f"{program} isn't built")
        return tally.end()
    for _ in range(chosen.queries):
        if tally.failed < MOST_FAILED:
            check_query(draw, program, tally)
    return tally.end()


if __name__ == "__main__":
    sys.exit(main(sys.argv[1:]))
