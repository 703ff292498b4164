#!/usr/bin/env python3
"""Runs `tilt-live` under `strace` once for each call to the system that it makes, and each time that call fails, is interrupted, or the
program is killed at it: `tools/check/faults/live.py [--program PATH] [--jobs N]`.

The feed comes through a pipe whose packets are lines, so each line is a read of its own. What has to be left is that of docs/LIVE.md:

- If a read of the feed fails, the status is 3, and exactly the output and the reports for the lines before it were written.
- If a write or a flush of the output fails, the status is 4, and a prefix of the output was written, with all that was handed on before.
- If a report can't be written, nothing else changes. What is interrupted is tried again.
- If the query can't be read, the status is 3, and nothing is written. If the table of the zone can't be, it is 1.
- If the program is killed, the output is a prefix, with all that the lines before the last read made final.
- If there is no memory from a call on, the status is 5, or it was enough.
- If the state can't be read, the status is 3, and nothing is written. If it can't be saved, the status is 6, and all output was written.
- The state is the new one after status 0, one of both after status 6 or a kill, and the old one otherwise. Only a kill leaves a file
  beside it.

Without strace, or if tracing isn't allowed, all cases are left out. The last line is 'N passed, M failed', and the status is 1 if one
failed."""
from __future__ import annotations

import argparse
import concurrent.futures
import dataclasses
import fcntl
import os
import signal
import subprocess
import sys
import tempfile
from functools import partial
from typing import IO, Callable, Iterator, Sequence

sys.path.insert(0, os.path.dirname(os.path.dirname(os.path.dirname(os.path.realpath(__file__)))))

from check.faults.calls import AGAIN, BEGINNING, MEMORY, OPENS, READS, RENAMES, SYNCS, WRITES, Numbered, numbered_calls
from check.faults.run import missing, no_tracing
from check.faults.running import SECONDS
from shared.packages import install
from shared.program import build_program, built_program
from shared.tally import Tally

QUERY = "input load;\ninput limit;\nemit load - limit over (0, 40];\n"
LINES = [
    "load,0,4,3\n",
    "limit,0,,5\n",
    ",,4,\n",
    "lod,4,6,1\n",
    "load,4,,9\n",
    ",,12,\n",
    "load,2,3,1\n",
    "load,12,,2\n",
    ",,20,\n",
    ",,,\n",
]
READINGS = ["--time", "time", "--name", "sensor", "--value", "value", "--tick", "1s", "--origin", "2026-03-01T00:00:00Z", "--scale", "10"]
LINES_OF_READINGS = [
    "time,sensor,value\n",
    "2026-03-01T00:00:00Z,load,0.3\n",
    "2026-03-01T01:00:00+01:00,limit,0.5\n",
    "2026-03-01T00:00:04Z,,\n",
    "yesterday,load,0.6\n",
    "2026-03-01T00:00:04Z,load,0.9\n",
    "2026-03-01T00:00:12.5Z,,\n",
    "2026-03-01T00:00:02Z,load,0.1\n",
    "2026-03-01T00:00:12Z,load,0.2\n",
    "2026-03-01T00:00:20Z,,\n",
]
# The same with local times of a zone, whose clocks are an hour ahead on that day.
ZONE = ["--zone", "Europe/Zurich", "--fold", "first"]
LINES_OF_LOCAL_TIMES = [line.replace("T00:", "T01:").replace("Z,", ",") for line in LINES_OF_READINGS]
STATE = "s"


@dataclasses.dataclass(frozen=True)
class Case:
    """Options, how many lines an earlier call took, whose state is there, and the lines of the feed."""

    options: list[str]
    before: int | None = None
    lines: Sequence[str] = tuple(LINES)


CASES = [
    Case([]),
    Case(["--begun"]),
    Case(["--lateness", "3", "--idle", "30"]),
    Case(["--lateness", "3", "--save", STATE]),
    Case(["--begun", "--resume", STATE, "--save", STATE], 5),
    Case(READINGS, lines=LINES_OF_READINGS),
    Case([*READINGS, "--ties", "last", "--begun"], lines=LINES_OF_READINGS),
    Case([*READINGS, *ZONE], lines=LINES_OF_LOCAL_TIMES),
]
ERRORS = ["EIO", "ENOSPC", "EINTR", "EMFILE"]


@dataclasses.dataclass(frozen=True)
class End:
    """What a run leaves. The status is None if it took too long. `saved` is what is under the name of the state, and `beside` are the
    names of other files that are new."""

    status: int | None
    out: str
    err: str
    trace: str
    saved: str | None = None
    beside: tuple[str, ...] = ()


@dataclasses.dataclass(frozen=True)
class Call:
    """A call of the program itself: its name, which one of this name it is, what it has to do with, and how many lines were read before."""

    name: str
    count: int
    part: str
    lines: int

    def __str__(self) -> str:
        return f"{self.name} {self.count} ({self.part or 'something else'}) after {self.lines} lines"


@dataclasses.dataclass(frozen=True)
class Clean:
    """The runs of a case without faults: what is written for the first lines, as many as the place, and the calls of the last run. The
    state before it, and after it."""

    words: list[str]
    lines: list[str]
    old: str | None
    new: str | None
    out: list[str]
    err: list[str]
    calls: list[Call]
    numbered: Numbered


def run(words: Sequence[str], lines: Sequence[str], options: Sequence[str], state: str | None = None) -> End:
    """Runs the program under strace in a folder of its own. Each line is a packet of its pipe."""
    with tempfile.TemporaryDirectory(prefix="faults.") as folder:
        put_file(folder, "q", QUERY)
        if state is not None:
            put_file(folder, STATE, state)
        trace = os.path.join(folder, "trace")
        traced = ["strace", "-f", "-qq", "-y", "-o", trace, *options, "--", *words]
        with feed_of(lines) as feed:
            process = subprocess.Popen(traced, cwd=folder, stdin=feed, stdout=subprocess.PIPE, stderr=subprocess.PIPE, text=True)
            try:
                out, err = process.communicate(timeout=SECONDS)
            except subprocess.TimeoutExpired:
                process.kill()
                return End(None, "", "", "")
        beside = tuple(sorted(set(os.listdir(folder)) - {"q", STATE, "trace"}))
        return End(process.returncode, out, err, text_in(folder, "trace") or "", text_in(folder, STATE), beside)


def feed_of(packets: Sequence[str]) -> IO[bytes]:
    """A pipe from which each packet is read by a read of its own."""
    source, sink = os.pipe2(os.O_DIRECT)
    fcntl.fcntl(sink, fcntl.F_SETPIPE_SZ, 4096 * (len(packets) + 1))
    for packet in packets:
        os.write(sink, packet.encode())
    os.close(sink)
    return open(source, "rb")


def put_file(folder: str, name: str, text: str) -> None:
    with open(os.path.join(folder, name), "w", encoding="ascii") as file:
        file.write(text)


def text_in(folder: str, name: str) -> str | None:
    """What a file has, if it is there."""
    try:
        with open(os.path.join(folder, name), encoding="utf-8", errors="replace") as file:
            return file.read()
    except FileNotFoundError:
        return None


def part_of(name: str, rest: str) -> str:
    """What a call has to do with. The state is read under its own name, and written beside it."""
    for file, part in (("q", "query"), (STATE, "state"), (f"usr/share/zoneinfo/{ZONE[1]}", "zone")):
        is_named = f'"{file}"' in rest or f'"/{file}"' in rest
        if name in OPENS and is_named and "O_RDONLY" in rest or name in READS and f"/{file}>" in rest.split(",")[0]:
            return part
    if name in RENAMES + SYNCS or name in OPENS and "O_CREAT" in rest or name in WRITES and not rest.startswith(("1<", "2<")):
        return "save"
    parts = {"0<": "feed", "1<": "output", "2<": "reports"}
    return next((part for start, part in parts.items() if name in READS + WRITES and rest.startswith(start)), "")


def first_own(numbered: Numbered) -> int:
    """The place of the program's own first call, which opens the query."""
    return next(at for at, (name, _, rest) in enumerate(numbered) if part_of(name, rest) == "query")


def own_calls(numbered: Numbered) -> Iterator[Call]:
    lines = 0
    for name, count, rest in numbered[first_own(numbered) :]:
        part = part_of(name, rest)
        yield Call(name, count, part, lines)
        lines += part == "feed" and not rest.endswith(" = 0")


def clean_of(program: str, case: Case, tally: Tally) -> Clean | None:
    words = [program, "q", *case.options]
    before = case.before or 0
    old = None if case.before is None else run([program, "q", "--save", STATE], case.lines[:before], []).saved
    lines = [*case.lines[before:]]
    ends = [run(words, lines[:count], [], old) for count in range(len(lines) + 1)]
    wrong = [end for end in ends if end.status != 0 or end.beside or (end.saved is None) != ("--save" not in words)]
    tally.expect(not wrong, f"{words} without a fault: {[dataclasses.replace(end, trace='') for end in wrong[:1]]}")
    if wrong:
        return None
    numbered = numbered_calls(ends[-1].trace)
    calls = list(own_calls(numbered))
    return Clean(words, lines, old, ends[-1].saved, [end.out for end in ends], [end.err for end in ends], calls, numbered)


# What has to be left.


def expected(clean: Clean, call: Call, error: str) -> str:
    """The status, the output and standard error after a fault of a call, each as what it has to be."""
    whole = (0, clean.out[-1], clean.err[-1])
    if error == "EINTR" and call.name in AGAIN or call.part == "reports":
        return shown(whole)
    if call.part == "feed":
        return shown((3, clean.out[call.lines], clean.err[call.lines] + "tilt: 4 read fault: -\n"))
    if call.part in ("query", "state"):
        return shown((3, "", f"tilt: 4 read fault: {'q' if call.part == 'query' else STATE}\n"))
    if call.part == "zone":
        return shown((1, "", f"tilt: 67 no zone {ZONE[1]}\n"))
    if call.part == "save":
        return shown((6, clean.out[-1], clean.err[-1] + f"tilt: 6 save fault: {STATE}\n"))
    return shown(whole)


def shown(end: tuple[int | None, str, str]) -> str:
    status, out, err = end
    return f"status {status}, output {out!r}, errors {err!r}"


def wrong_files(clean: Clean, end: End) -> str | None:
    """What is wrong with the files that a run left, or None. After status 0 the new state is there, after another one than 6 the old one,
    and else one of both. Only a kill leaves another file."""
    states = [clean.new] if end.status == 0 else [clean.old, clean.new] if end.status == 6 else [clean.old]
    if end.saved not in states:
        return f"status {end.status} leaves the state {end.saved!r}"
    return f"it leaves {end.beside}" if end.beside else None


def wrong_end(clean: Clean, call: Call, error: str, end: End) -> str | None:
    """What is wrong with a run in which a call failed, or None."""
    if "(INJECTED)" not in end.trace:
        return "the fault didn't come"
    wrong = wrong_files(clean, end)
    if wrong is not None:
        return wrong
    if call.part == "output" and error != "EINTR":
        return None if is_write_fault(clean, call, end) else f"a write fault: {shown((end.status, end.out, end.err))}"
    if call.part == "reports" and error != "EINTR":
        # The report itself is lost.
        came = (end.status, end.out, end.err)
        lost = [line for line in clean.err[-1].splitlines(True) if line not in end.err]
        return None if came[:2] == (0, clean.out[-1]) and len(lost) <= 1 else f"came {shown(came)}"
    ended, wanted = shown((end.status, end.out, end.err)), expected(clean, call, error)
    # What has to do with no file may fail as it likes, if it is reported.
    if ended == wanted or not call.part and end.status in (3, 4, 5, 6) and clean.out[-1].startswith(end.out):
        return None
    return f"wanted {wanted}, came {ended}"


def is_write_fault(clean: Clean, call: Call, end: End) -> bool:
    """Whether a run ended by a write fault after a prefix of the output: all that was handed on before the last line was read, at least."""
    before = clean.out[max(call.lines - 1, 0)] if call.lines else ""
    reported = end.err.endswith("tilt: 5 write fault\n") and clean.err[-1].startswith(end.err.removesuffix("tilt: 5 write fault\n"))
    return end.status == 4 and clean.out[-1].startswith(end.out) and len(end.out) >= len(before) and reported


# What is tried.


def try_fault(clean: Clean, call: Call, error: str, tally: Tally) -> None:
    end = run(clean.words, clean.lines, ["-e", f"inject={call.name}:error={error}:when={call.count}"], clean.old)
    wrong = wrong_end(clean, call, error, end)
    tally.expect(wrong is None, f"{clean.words[1:]}: {error} at {call}: {wrong}")


def try_kill(clean: Clean, call: Call, tally: Tally) -> None:
    end = run(clean.words, clean.lines, ["-e", f"inject={call.name}:signal=KILL:when={call.count}"], clean.old)
    before = clean.out[max(call.lines - 1, 0)] if call.lines else ""
    good = end.status in (-signal.SIGKILL, 128 + signal.SIGKILL)
    good = good and clean.out[-1].startswith(end.out) and clean.err[-1].startswith(end.err) and len(end.out) >= len(before)
    good = good and end.saved in (clean.old, clean.new) and len(end.beside) <= 1
    tally.expect(good, f"{clean.words[1:]}: killed at {call}: {shown((end.status, end.out, end.err))}")


def try_no_memory(clean: Clean, counts: dict[str, int], tally: Tally) -> None:
    """From the call on no memory is given."""
    refusals = {name: f"{'retval=0' if name == 'brk' else 'error=ENOMEM'}:when={count}+" for name, count in counts.items()}
    options = [word for name, refusal in refusals.items() for word in ("-e", f"inject={name}:{refusal}")]
    end = run(clean.words, clean.lines, options, clean.old)
    enough = (end.status, end.out, end.err) == (0, clean.out[-1], clean.err[-1])
    # Before the program has begun it can't report anything.
    early = end.status in (5, 7) and (end.out, end.err) == ("", "")
    lacking = end.status == 5 and clean.out[-1].startswith(end.out) and end.err.endswith("tilt: 7 out of memory\n")
    good = (enough or early or lacking) and wrong_files(clean, end) is None
    tally.expect(good, f"{clean.words[1:]}: no memory from {counts} on: {shown((end.status, end.out, end.err))}, {wrong_files(clean, end)}")


def demands_of(numbered: Numbered, own: int) -> Iterator[dict[str, int]]:
    """For each call from the program's own first one on that asks for memory: which call of each kind is the next one there."""
    first = own
    while first > 0 and numbered[first - 1][0] in BEGINNING:
        first -= 1
    counts = {name: 1 + sum(other == name for other, _, _ in numbered[:first]) for name in MEMORY}
    for at, (name, _, _) in enumerate(numbered[first:], first):
        if name in MEMORY:
            if at >= own:
                yield dict(counts)
            counts[name] += 1


def trials_of(clean: Clean, tally: Tally) -> Iterator[Callable[[], None]]:
    for counts in demands_of(clean.numbered, first_own(clean.numbered)):
        yield partial(try_no_memory, clean, counts, tally)
    for call in clean.calls:
        if call.name == "exit_group":
            continue
        yield partial(try_kill, clean, call, tally)
        if call.name in AGAIN:
            for error in ERRORS:
                yield partial(try_fault, clean, call, error, tally)


def main() -> int:
    words = argparse.ArgumentParser(description="Tries each fault of the system on tilt-live.")
    words.add_argument("--program", help="another program than the built one")
    words.add_argument("--jobs", type=int, default=len(os.sched_getaffinity(0)), help="how many runs go at once")
    given = words.parse_args()
    if given.program is None:
        build_program("tilt-live")
    program = os.path.abspath(given.program or built_program("tilt-live"))
    tally = Tally()
    install(missing())
    why_not = no_tracing()
    if why_not is not None:
        print(f"left out: all faults of tilt-live: {why_not}")
        return tally.end()
    trials: list[Callable[[], None]] = []
    for case in CASES:
        clean = clean_of(program, case, tally)
        if clean is not None:
            trials += trials_of(clean, tally)
    with concurrent.futures.ThreadPoolExecutor(given.jobs) as pool:
        for done in [pool.submit(trial) for trial in trials]:
            done.result()
    return tally.end()


if __name__ == "__main__":
    sys.exit(main())
