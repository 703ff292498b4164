#!/usr/bin/env python3
"""Serves random feeds of random queries into folders by the program `tilt-live`, from a fixed seed. It is killed at random moments and
started again until it has served the whole feed: `tools/check/live_folders.py [--program PATH] [QUERIES]`.

The feed goes to the program in random pieces through a pipe, from its first byte or from one that is committed. It is killed after random
bytes of it, or the feed ends there. The starts of one feed differ in `--every`, `--from`, `--begun`, `--plain` and `--strict`. After each
start the folder has a commit of a front of the bytes that were sent, the one before it or a later one, with exactly the output for the
lines of this front. While the feed comes, commits come as `--every` says, and a second program is rejected. A kill can leave any bytes
behind the committed output: the check adds some, and they vanish.

Between the starts the check tries what is rejected: the state of another query or of other options, a state of which a byte was changed,
a state or an output that was cut, an output without a state, a feed from too late a byte, one that ends too early, and one that has changed
before what is committed. Each leaves the files as they are.

What is expected is worked out from the bytes alone, by tools/check/live.py. Of each feed that differs, the query, the feed and the
difference are printed, and the check stops after 20 of them. The last line is 'N passed, M failed', and the status is 1 if one failed."""
from __future__ import annotations

import argparse
import dataclasses
import itertools
import os
import random
import signal
import sys
import tempfile
import time
from typing import Sequence

sys.path.insert(0, os.path.dirname(os.path.dirname(os.path.realpath(__file__))))

from check.faults.served import memory
from check.feeds import T, Query, query_of
from check.folders import Commit, Start, commit_of, content, files_in, last_of, put_files
from check.live import MOST_FAILED, NO_END_OF_LINE, SECONDS, Expected, Options, disordered, expected_of, random_options, random_pieces
from check.live import random_text, shown
from check.live_sessions import Came, run
from check.random_feeds import random_feed, random_query
from shared.program import built_program
from shared.tally import Tally

SEED = 24
QUERIES = 500
FEEDS_OF_EACH_QUERY = 2
EVERY = [0, 1, 2, 10, 100]
MOST_STARTS = 6
FOLDER = "kept"
FILES = ["lock", "output.csv", "state"]
# Ways to open a folder, of which the first two do it from any byte.
WAYS: list[list[str]] = [[], ["--position"], ["--from", "1"]]
QUERY_FILE, OTHER_QUERY = "query.tilt", "other.tilt"

# Lines that report why a folder isn't served into.
IN_USE = f"60 folder in use: {FOLDER}"
NO_STATE = f"61 output without state: {FOLDER}"
CUT_OUTPUT = f"62 output too short: {FOLDER}"
GAP = f"63 feed starts too late: {FOLDER}"
SHORT_FEED = f"64 feed ends too early: {FOLDER}"
CHANGED_FEED = f"68 feed has changed: {FOLDER}"
BAD_STATE = "55 bad state"
OF_OTHER_QUERY = "58 state of another query"
OF_OTHER_OPTIONS = "59 state of other options"


USAGE = b"tilt: 1 usage\n"
BAD_ARGUMENTS = [
    "--every 1",
    "--from 0",
    "--position",
    "--folder",
    "--folder kept --folder kept",
    "--folder kept --resume state",
    "--folder kept --save state",
    "--folder kept --position --every 1",
    "--folder kept --position --from 0",
    "--folder kept --position --position",
    "--folder kept --every",
    "--folder kept --every -1",
    "--folder kept --from x",
    "--folder kept --every 8000000000000000001",
    "--folder kept --from 8000000000000000001",
]


@dataclasses.dataclass(frozen=True)
class Plan:
    """How a start goes: its options, after how many lines it commits, from which byte of the feed on it reads, up to which one the feed
    comes, and whether it is killed there."""

    options: Options
    every: int
    begin: int
    end: int
    killed: bool

    def words(self, draw: random.Random) -> list[str]:
        numbers = {"--every": self.every, "--from": self.begin}
        defaults = {"--every": 1, "--from": 0}
        given = [[word, str(number)] for word, number in numbers.items() if number != defaults[word] or draw.random() < 0.5]
        options = [*self.options.words(), *given, ["--folder", FOLDER]]
        return [QUERY_FILE, *itertools.chain(*draw.sample(options, len(options)))]


class Served:
    """A feed that is served into a folder by one start after another: what is committed, and its output."""

    def __init__(self, program: str, place: str, query: Query, feed: bytes, options: Options) -> None:
        self.program, self.place, self.query, self.feed, self.options = program, place, query, feed, options
        self.folder = os.path.join(place, FOLDER)
        self.expected = {begun: self.expected_if(begun) for begun in (False, True)}
        self.commit = Commit()
        self.output = b""
        self.tried = 0

    def expected_if(self, begun: bool) -> Expected:
        return expected_of(self.query, self.feed, dataclasses.replace(self.options, begun=begun, strict=False))

    def lines(self, position: int) -> int:
        return self.feed.count(b"\n", 0, position)

    def output_at(self, begun: bool, position: int) -> bytes:
        """The output that is committed at a position, if a start with or without --begun gets there from the last commit."""
        expected = self.expected[begun]
        before = expected.after_lines(self.lines(self.commit.position))[0] if self.commit.begun else b""
        return self.output + expected.after_lines(self.lines(position))[0][len(before) :]

    def bad_line(self, plan: Plan) -> int | None:
        """The number of the first line after the last commit that is bad, if it stops the start and the whole line comes."""
        err, first = self.expected[False].err, self.lines(self.commit.position) + 1
        bad = [number for number in range(first, self.lines(plan.end) + 1) if err[number] != err[number - 1]]
        return bad[0] if bad and plan.options.strict else None

    def reports(self, plan: Plan) -> bytes:
        """What a start reports of lines, if it isn't killed."""
        bad, last = self.bad_line(plan), self.lines(plan.end)
        err, first = self.expected[False].err, self.lines(self.commit.position)
        reports = err[max(first, bad or last)].removeprefix(err[first])
        if bad is None and plan.end > self.feed.rfind(b"\n", 0, plan.end) + 1:
            reports += f"tilt: {NO_END_OF_LINE.format(last + 1)}\n".encode()
        return reports

    def end_of(self, plan: Plan) -> Came:
        """How a start ends, if it isn't killed."""
        if plan.end < self.commit.position:
            return rejected(SHORT_FEED)
        reports = self.reports(plan)
        return Came(1 if plan.options.strict and reports else 0, b"", reports)

    # What is done with it

    def call(self, *words: str, feed: bytes = b"") -> Came:
        self.tried += 1
        return run([self.program, *words], self.place, feed)

    def step(self, draw: random.Random, plan: Plan) -> str | None:
        """Starts the program; what is wrong with what it does and leaves, or None."""
        words = plan.words(draw)
        start, sent, wrong = Start([self.program, *words], self.place), plan.begin, None
        self.tried += 1
        waits = draw.choice([0, 0, 0.3, 1])
        for piece in random_pieces(draw, self.feed[plan.begin : plan.end]):
            start.send(piece)
            sent += len(piece)
            if wrong is None and draw.random() < waits:
                wrong = self.wrong_meanwhile(draw, dataclasses.replace(plan, end=sent))
        if plan.killed:
            time.sleep(draw.choice([0, 0, draw.uniform(0, 0.004)]))
        came = start.end(plan.killed)
        wrong = wrong or self.wrong_end(plan, came) or self.wrong_commit(plan, came)
        return wrong and f"{' '.join(words)}\nfrom {self.commit}, to byte {plan.end}, killed {plan.killed}: {wrong}"

    def wrong_meanwhile(self, draw: random.Random, plan: Plan) -> str | None:
        """What is wrong with the commits after the bytes that were sent so far, or None. Fewer lines than a plan says aren't committed."""
        if plan.end <= self.commit.position or self.bad_line(plan):
            return None
        end = time.monotonic() + SECONDS
        commit = self.commit_there()
        while self.feed.count(b"\n", commit.position, plan.end) >= plan.every > 0 or plan.every == 0 and commit.position < plan.end:
            if time.monotonic() > end:
                return f"after {SECONDS} s, {commit} and not all of {plan.end} bytes"
            time.sleep(0.0005)
            commit = self.commit_there()
        if commit.position > self.commit.position and draw.random() < 0.2:
            came = self.call(QUERY_FILE, "--folder", FOLDER, *draw.choice(WAYS), feed=self.feed)
            return None if came == rejected(IN_USE) else f"a second program on the folder: {came}"
        return None

    def commit_there(self) -> Commit:
        return commit_of(content(os.path.join(self.folder, "state")))

    def wrong_end(self, plan: Plan, came: Came) -> str | None:
        """What is wrong with how a start ended, or None."""
        wanted = self.end_of(plan)
        if not plan.killed:
            return None if came == wanted else f"expected {wanted}came {came}"
        # A bad line or a feed of too few bytes can have ended it before.
        ended = came == wanted and self.bad_line(plan) is not None
        cut = came.status == -signal.SIGKILL and came.out == b"" and self.reports(plan).startswith(came.err)
        return None if ended or cut else f"expected a kill, and reports of {wanted}came {came}"

    def wrong_commit(self, plan: Plan, came: Came) -> str | None:
        """What is wrong with the commit that a start has left, or None. It is taken over."""
        files = files_in(self.folder)
        commit, old = commit_of(files.get("state", b"")), self.commit
        stopped = self.bad_line(plan)
        moved = commit.position > old.position
        fronts = old.position <= commit.position <= max(plan.end, old.position) and commit.begun >= old.begun
        ended = came.status == 0 or came.status == 1 and stopped is None and plan.end >= old.position
        good = fronts and (commit.position == plan.end or not ended)
        good = good and commit.rest == self.feed[commit.taken : commit.position] and commit.lines == self.lines(commit.taken)
        good = good and (commit.last == last_of(self.feed[: commit.position]) or not commit.begun)
        good = good and (stopped is None or commit.lines < stopped)
        good = good and (ended or not moved or commit.lines - self.lines(old.position) >= plan.every)
        output = self.output_at(plan.options.begun, commit.position) if commit.begun else b""
        good = good and commit.length == commit.written == len(output) and files.get("output.csv", b"")[: len(output)] == output
        if not good:
            return f"it leaves {commit}, and the output\n{shown(files.get('output.csv', b''))}expected:\n{shown(output)}"
        self.commit, self.output = commit, output
        return None

    def wrong_position(self) -> str | None:
        """What is wrong with the position that is printed, and with the output that it leaves, or None."""
        came = self.call(QUERY_FILE, *itertools.chain(*self.options.words()), "--folder", FOLDER, "--position")
        output = files_in(self.folder).get("output.csv", b"")
        # If nothing was begun, what comes before the first line is there, and isn't committed.
        wanted = self.output if self.commit.begun else self.expected[self.options.begun].out[0]
        good = came == Came(0, f"{self.commit.position}\n".encode(), b"") and output == wanted
        return None if good else f"the position of {self.commit}: {came}and the output is\n{shown(output)}"

    def wrong_rejection(
        self, line: str, *words: str, feed: bytes = b"", query: str = QUERY_FILE, options: Options | None = None
    ) -> str | None:
        """What is wrong with a call that has to be rejected with a line, or None. It leaves the files as they are."""
        before = files_in(self.folder)
        came = self.call(query, *itertools.chain(*(options or self.options).words()), "--folder", FOLDER, *words, feed=feed)
        after = files_in(self.folder)
        if came == rejected(line) and after == before:
            return None
        called = f"{words} with {query} and {options}: expected {line}, and the files as they are: {sorted(before)}"
        return f"{called}, came {came}{changes(before, after)}"

    def wrong_rejections(self, draw: random.Random) -> str | None:
        """What is wrong with a call that has to be rejected, or with a folder that was spoiled, or None."""
        watermarking = dataclasses.replace(self.options.watermarking, lateness=5 if self.options.watermarking.lateness is None else None)
        begin = draw.randint(0, self.commit.position)
        far = self.commit.position + draw.choice([1, 1, draw.randint(1, 10**18)])
        short = self.feed[begin : draw.randint(begin, max(begin, self.commit.position - 1))]
        wrong = self.wrong_rejection(GAP, "--from", str(far), feed=self.feed)
        if begin < self.commit.position:
            wrong = wrong or self.wrong_rejection(SHORT_FEED, "--from", str(begin), feed=short)
            wrong = wrong or self.wrong_rejection(CHANGED_FEED, "--from", str(begin), feed=self.changed_feed(draw, begin))
        if self.commit.begun:
            more = draw.choice(WAYS[:2])
            wrong = wrong or self.wrong_rejection(OF_OTHER_QUERY, *more, feed=self.feed, query=OTHER_QUERY)
            other = dataclasses.replace(self.options, watermarking=watermarking)
            wrong = wrong or self.wrong_rejection(OF_OTHER_OPTIONS, *more, feed=self.feed, options=other)
        return wrong or self.wrong_if_spoiled(draw)

    def changed_feed(self, draw: random.Random, begin: int) -> bytes:
        """The feed from a byte on, with another byte among those that are compared."""
        place = draw.randrange(max(begin, self.commit.position - 4096), self.commit.position)
        return self.feed[begin:place] + other_byte(draw, self.feed[place]) + self.feed[place + 1 :]

    def wrong_if_spoiled(self, draw: random.Random) -> str | None:
        """What is wrong with what is done with files that no crash leaves, or None. The files are restored."""
        files = files_in(self.folder)
        state, output = files["state"], files["output.csv"]
        place = draw.randrange(len(state))
        wrong_states = [state[:place] + other_byte(draw, state[place]) + state[place + 1 :], state + b"\n"]
        if place > 0:
            wrong_states.append(state[:place])
        spoiled: list[tuple[str, dict[str, bytes]]] = [(NO_STATE, {"output.csv": output}), (NO_STATE, {"state": b"", "output.csv": output})]
        spoiled.extend((BAD_STATE, {"state": wrong_state, "output.csv": output}) for wrong_state in wrong_states)
        if self.commit.length:
            spoiled.append((CUT_OUTPUT, {"state": state, "output.csv": output[: draw.randrange(self.commit.length)]}))
        line, there = draw.choice(spoiled)
        put_files(self.folder, there)
        wrong = self.wrong_rejection(line, *draw.choice(WAYS[:2]), feed=self.feed)
        put_files(self.folder, files)
        return wrong and f"with the state {there.get('state')!r}, {wrong}"


def rejected(line: str) -> Came:
    return Came(1, b"", f"tilt: {line}\n".encode())


def other_byte(draw: random.Random, byte: int) -> bytes:
    return bytes([(byte + draw.randint(1, 255)) % 256])


def changes(before: dict[str, bytes], after: dict[str, bytes]) -> str:
    return "".join(f"{name} is now {after.get(name)!r}\n" for name in {**before, **after} if before.get(name) != after.get(name))


# The check


def random_plan(draw: random.Random, served: Served, last: bool) -> Plan:
    flags = {"begun": draw.random() < 0.5, "plain": draw.random() < 0.3, "strict": draw.random() < 0.2 and not last}
    committed = served.commit.position
    begin = draw.choice([0, committed, draw.randint(0, committed)])
    end = len(served.feed) if last else draw.choice([draw.randint(begin, len(served.feed)), draw.randint(committed, len(served.feed))])
    return Plan(dataclasses.replace(served.options, **flags), draw.choice(EVERY), begin, end, not last and draw.random() < 0.75)


def check_feed(draw: random.Random, served: Served) -> str | None:
    """What is wrong with the starts for a feed, or None."""
    starts = draw.randint(1, MOST_STARTS)
    for number in range(starts + 1):
        wrong = served.step(draw, random_plan(draw, served, last=number == starts))
        if wrong is None and draw.random() < 0.5 and os.path.exists(os.path.join(served.folder, "state")):
            with open(os.path.join(served.folder, "output.csv"), "ab") as file:
                file.write(draw.randbytes(draw.choice([1, 3, 100])) if draw.random() < 0.5 else b"1,2,3\n4")
        if wrong is None and draw.random() < 0.4:
            wrong = served.wrong_position() or served.wrong_rejections(draw)
        if wrong is not None:
            return wrong
    wrong = served.wrong_position()
    return wrong or (None if sorted(files_in(served.folder)) == FILES else f"it leaves {sorted(files_in(served.folder))}")


def check_arguments(program: str, tally: Tally) -> None:
    """Arguments that don't go together, for which nothing is made, and folders that can't be made."""
    cases = [(words.split(), Came(2, b"", USAGE)) for words in BAD_ARGUMENTS]
    cases += [(["--folder", name], Came(6, b"", f"tilt: 6 save fault: {name}\n".encode())) for name in (QUERY_FILE, "no/folder")]
    for words, wanted in cases:
        with tempfile.TemporaryDirectory(dir=memory()) as place:
            with open(os.path.join(place, QUERY_FILE), "w", encoding="ascii") as file:
                file.write("input x;\nemit x over (0, 5];\n")
            came, names = run([program, QUERY_FILE, *words], place, b"x,0,1,2\n"), os.listdir(place)
        tally.expect(came == wanted and names == [QUERY_FILE], f"{' '.join(words)}: expected {wanted}came {came}and {names}")


def check_query(draw: random.Random, program: str, tally: Tally) -> int:
    """Serves some feeds of a query, and gives how often the program was called."""
    # At times all times lie at an end of time.
    base = draw.choice([0] * 12 + [T - 40, T - 40, -T + 14])
    text = random_query(draw, base)
    query = query_of(text)
    tried = 0
    for _ in range(FEEDS_OF_EACH_QUERY):
        options = dataclasses.replace(random_options(draw), strict=False, plain=False)
        feed = random_text(draw, disordered(draw, random_feed(draw, query.inputs, base), options))
        with tempfile.TemporaryDirectory(dir=memory()) as place:
            for name, written in ((QUERY_FILE, text), (OTHER_QUERY, "input x;\nemit x + 987654321 over (0, 5];\n")):
                with open(os.path.join(place, name), "w", encoding="ascii") as file:
                    file.write(written)
            served = Served(program, place, query, feed, options)
            wrong = check_feed(draw, served)
            tried += served.tried
        tally.expect(wrong is None, f"{text}{shown(feed)}\n{wrong}\n")
    return tried


def main(arguments: Sequence[str]) -> int:
    words = argparse.ArgumentParser(description="Serves random feeds of random queries into folders.")
    words.add_argument("queries", nargs="?", type=int, default=QUERIES, help="how many queries")
    words.add_argument("--program", default=built_program("tilt-live"), help="the program that is run")
    chosen = words.parse_args(arguments)
    program = os.path.abspath(chosen.program)
    draw = random.Random(SEED)
    tally = Tally()
    if not os.access(program, os.X_OK):
        tally.expect(False, f"{program} isn't built")
        return tally.end()
    check_arguments(program, tally)
    tried = 0
    for _ in range(chosen.queries):
        if tally.failed < MOST_FAILED:
            tried += check_query(draw, program, tally)
    print(f"{tried} calls of the program")
    return tally.end()


if __name__ == "__main__":
    sys.exit(main(sys.argv[1:]))
