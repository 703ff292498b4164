#!/usr/bin/env python3
"""Cuts random feeds of random queries into sessions of the program `tilt-live`, from a fixed seed, and compares what all sessions print,
joined, with what the definitions say of the whole feed: `tools/check/live_sessions.py [--program PATH] [QUERIES]`.

Each session but the first goes on from the state that the one before it saved, with `--resume`, and each saves its own with `--save`. A
feed is cut anywhere, also inside of lines and of numbers. A session that ends inside of a line reports that, and the next one reads the
line from its start: its feed begins at the byte that the state names. Sessions of one feed differ in `--begun` and `--plain`. Of each
state the check compares the counts of bytes, lines and output.

What is expected is worked out from the bytes alone, by tools/check/live.py. Of each session that differs, the query, the feed and the
difference are printed, and the check stops after 20 of them. The last line is 'N passed, M failed', and the status is 1 if one failed."""
from __future__ import annotations

import argparse
import dataclasses
import itertools
import os
import random
import subprocess
import sys
import tempfile
from typing import Sequence

sys.path.insert(0, os.path.dirname(os.path.dirname(os.path.realpath(__file__))))

from check.feeds import T, Query, query_of
from check.live import MOST_FAILED, NO_END_OF_LINE, SECONDS, Expected, Options, disordered, expected_of, random_options, random_text, shown
from check.random_feeds import random_feed, random_query
from shared.program import built_program
from shared.tally import Tally

SEED = 23
QUERIES = 150
FEEDS_OF_EACH_QUERY = 2


@dataclasses.dataclass(frozen=True)
class Came:
    """What a session left."""

    status: int | None
    out: bytes
    err: bytes

    def __str__(self) -> str:
        return f"status {self.status}, output:\n{shown(self.out)}and on standard error:\n{shown(self.err)}"


def run(words: Sequence[str], folder: str, feed: bytes) -> Came:
    try:
        done = subprocess.run(words, cwd=folder, input=feed, capture_output=True, timeout=SECONDS)
    except subprocess.TimeoutExpired:
        return Came(None, b"", b"")
    return Came(done.returncode, done.stdout, done.stderr)


def session_expected(expected: Expected, text: bytes, begin: int, end: int, no_end: str = NO_END_OF_LINE) -> Came:
    """What a session prints for the bytes of a feed between two places, of which the first one is after an LF."""
    before, after = text[:begin].count(b"\n"), text[:end].count(b"\n")
    out_before, err_before = expected.after_lines(before) if begin else (b"", b"")
    out, err = expected.after_lines(after)
    report = b""
    if end > text.rfind(b"\n", 0, end) + 1:
        report = f"tilt: {no_end.format(after + 1)}\n".encode()
    return Came(0, out[len(out_before) :], err[len(err_before) :] + report)


def counts_of(state: bytes) -> dict[str, int]:
    """The counts of a state."""
    fields = [line.split(" ", 1) for line in state.decode("ascii").split("\n") if " " in line]
    return {name: int(value) for name, value in fields if name in ("bytes", "lines", "written")}


def random_cuts(draw: random.Random, text: bytes) -> list[int]:
    """Places at which sessions end; the last one is the end of the text. Two may be the same."""
    count = draw.choice([1, 1, 2, 5])
    return [*sorted(draw.randint(0, len(text)) for _ in range(count)), len(text)]


@dataclasses.dataclass
class Sessions:
    """The sessions of a feed, one after another."""

    program: str
    folder: str
    query: Query
    text: bytes
    place: int = 0
    written: int = 0

    def step(self, draw: random.Random, options: Options, end: int) -> str | None:
        """Runs the session up to a place; what is wrong with it, or None."""
        words = [self.program, "query.tilt", *itertools.chain(*draw.sample(options.words(), len(options.words()))), "--save", "state"]
        # A feed whose first session ended inside of its first line starts at its first byte again, but not with the header.
        resumed = os.path.exists(os.path.join(self.folder, "state"))
        if resumed:
            words += ["--resume", "state"]
        expected = session_expected(expected_of(self.query, self.text, options), self.text, self.place, end)
        if resumed and self.place == 0:
            first = expected_of(self.query, b"", options).out[0]
            expected = dataclasses.replace(expected, out=expected.out.removeprefix(first))
        came = run(words, self.folder, self.text[self.place : end])
        if came != expected:
            return f"{' '.join(words)}\nfrom byte {self.place} to {end}, expected {expected}came {came}"
        self.place = self.text.rfind(b"\n", 0, end) + 1
        self.written += len(came.out)
        return self.wrong_state()

    def wrong_state(self) -> str | None:
        """What is wrong with the counts of the state that was saved, or None."""
        with open(os.path.join(self.folder, "state"), "rb") as file:
            state = file.read()
        wanted = {"bytes": self.place, "lines": self.text[: self.place].count(b"\n"), "written": self.written}
        if counts_of(state) == wanted:
            return None
        return f"a state with {wanted} was expected, but came:\n{shown(state)}"


def check_feed(draw: random.Random, sessions: Sessions, options: Options) -> str | None:
    """What is wrong with the sessions of a feed, or None."""
    for end in random_cuts(draw, sessions.text):
        if end < sessions.place:
            continue
        changed = dataclasses.replace(options, begun=draw.random() < 0.5, plain=draw.random() < 0.3)
        wrong = sessions.step(draw, changed, end)
        if wrong is not None:
            return wrong
    return None


def check_query(draw: random.Random, program: str, tally: Tally) -> None:
    # At times all times lie at an end of time.
    base = draw.choice([0] * 12 + [T - 40, T - 40, -T + 14])
    text = random_query(draw, base)
    query = query_of(text)
    for _ in range(FEEDS_OF_EACH_QUERY):
        options = dataclasses.replace(random_options(draw), strict=False)
        feed = random_text(draw, disordered(draw, random_feed(draw, query.inputs, base), options))
        with tempfile.TemporaryDirectory() as folder:
            with open(os.path.join(folder, "query.tilt"), "w", encoding="ascii") as file:
                file.write(text)
            wrong = check_feed(draw, Sessions(program, folder, query, feed), options)
        tally.expect(wrong is None, f"{text}{shown(feed)}\n{wrong}\n")


def main(arguments: Sequence[str]) -> int:
    words = argparse.ArgumentParser(description="Cuts random feeds of random queries into sessions.")
    words.add_argument("queries", nargs="?", type=int, default=QUERIES, help="how many queries")
    words.add_argument("--program", default=built_program("tilt-live"), help="the program that is run")
    chosen = words.parse_args(arguments)
    program = os.path.abspath(chosen.program)
    draw = random.Random(SEED)
    tally = Tally()
    if not os.access(program, os.X_OK):
        tally.expect(False, f"{program} isn't built")
        return tally.end()
    for _ in range(chosen.queries):
        if tally.failed < MOST_FAILED:
            check_query(draw, program, tally)
    return tally.end()


if __name__ == "__main__":
    sys.exit(main(sys.argv[1:]))
