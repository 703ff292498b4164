#!/usr/bin/env python3
"""Runs `tilt-live --folder` under `strace` once for each call to the system that it makes, and each time that call fails, is interrupted,
or the program is killed at it: `tools/check/faults/folder.py [--program PATH] [--jobs N]`.

The feed comes through a pipe whose packets are read one by one: lines, or pieces of several lines and of parts of lines. The folder is a
new one, or one that has a commit of the first packets. What has to be left is that of docs/LIVE.md:

- If a file of the folder can't be made, read or written, the status is 6. If the query or the feed can't be read, it is 3. If there is no
  memory from a call on, it is 5, or there was enough. What is interrupted is tried again. If a report can't be written, nothing else
  changes. Nothing goes to standard output.
- Whatever happens, the folder has the commit that is the last one there: `--position` prints how many bytes of the feed it is of, and the
  output, cut to the length in the state, is that for the lines of these bytes.
- The same command over the whole feed then ends with status 0 and exactly the whole output, as does one with `--from` and that position
  over the rest of the feed. Both report the lines after the commit, and leave no file beside those of the folder.

The same holds if no file may be longer than so many bytes, and on a device that is full. Reads of one byte and writes that take one change
nothing.

Without strace, or if tracing isn't allowed, the cases under strace are left out. The last line is 'N passed, M failed', and the status is
1 if one failed."""
from __future__ import annotations

import argparse
import concurrent.futures
import dataclasses
import os
import re
import signal
import sys
import tempfile
from functools import partial
from typing import Callable, Iterator

sys.path.insert(0, os.path.dirname(os.path.dirname(os.path.dirname(os.path.realpath(__file__)))))

from check.faults.calls import AGAIN, FAILING, MEMORY, OPENS, READS, RENAMES, SYNCS, WRITES, Numbered, numbered_calls
from check.faults.full import short_files, try_full_device
from check.faults.live import LINES, demands_of, first_own
from check.faults.run import missing, no_tracing
from check.faults.served import (
    FILES,
    FOLDER,
    QUERY_FILE,
    Case,
    Clean,
    End,
    Place,
    clean_of,
    files_in,
    position_words,
    serve,
    shown,
    wrong_after,
)
from check.faults.single_bytes import one_byte_library
from shared.packages import install
from shared.program import build_program, built_program
from shared.tally import Tally

# The same lines as pieces.
PIECES = ["load,0,4,3\nlimit,0,,5\n,,4", ",\nlod,4,6,1\nload,4,,9\n,,1", "2,\n", "load,2,3,1\nload,12,,2\n,", ",20,\n", ",,,\n"]
assert "".join(PIECES) == "".join(LINES)

CASES = [
    Case([], LINES[:4], 1),
    Case(["--begun"], LINES, 3),
    Case([], LINES, 1000),
    Case(["--lateness", "3", "--idle", "30"], PIECES, 1, before=2, torn="4,1"),
    Case(["--begun"], PIECES, 3, before=1),
    Case(["--plain"], LINES, 1000, before=5, torn="20"),
]
# What must be reported if it fails. The other calls may fail without effect, since what they do is done for good measure.
STRICT = READS + WRITES + OPENS + RENAMES + ["mkdir", "flock", "ftruncate", "fsync"]
# What is tried again if it is interrupted.
RETRIED = AGAIN + ["ftruncate"]
STATE_ENTRY, OUTPUT_ENTRY = "the name of the state", "the name of the output"


@dataclasses.dataclass(frozen=True)
class Call:
    """A call of the program itself: its name, which one of this name it is, what it has to do with, whether its fault must be reported,
    and how many packets were read and states replaced before it."""

    name: str
    count: int
    part: str
    strict: bool
    packets: int
    renames: int

    def __str__(self) -> str:
        return f"{self.name} {self.count} ({self.part or 'something else'}) after {self.packets} packets and {self.renames} states"


def part_of(name: str, rest: str) -> str:
    """What a call has to do with."""
    first = rest.split(",")[0]
    if f'"{QUERY_FILE}"' in rest or f"/{QUERY_FILE}>" in first:
        return "query"
    if f'"{FOLDER}"' in rest or f'"{FOLDER}/' in rest or f"/{FOLDER}/" in first or f"/{FOLDER}>" in first:
        return "folder"
    parts = {"0<": "feed", "1<": "output", "2<": "reports"}
    return next((part for start, part in parts.items() if name in READS + WRITES and rest.startswith(start)), "")


def own_calls(numbered: Numbered) -> Iterator[Call]:
    packets = renames = 0
    for name, count, rest in numbered[first_own(numbered) :]:
        part = part_of(name, rest)
        # The length of the output is needed, and the list of the folder isn't.
        strict = name in STRICT and f'"{FOLDER}/", ' not in rest or name == "statx" and f'"{FOLDER}/output.csv"' in rest
        yield Call(name, count, part, strict, packets, renames)
        packets += part == "feed" and not rest.endswith(" = 0")
        renames += name in RENAMES


def wrong_order(numbered: Numbered) -> str | None:
    """What could be lost if the power went, or None. Before a state replaces another one, the disk has it, the output and its name in the
    folder. Before more of the feed is read, the disk has that state under its name."""
    unsynced: set[str] = set()
    for name, count, rest in numbered[first_own(numbered) :]:
        file = re.match(rf"\d+<[^>]*/{FOLDER}(?:/([^>]*))?>", rest)
        if part_of(name, rest) == "feed" and STATE_ENTRY in unsynced:
            return f"at read {count} the disk may lack {unsynced}"
        if name in RENAMES:
            if unsynced:
                return f"at rename {count} the disk may lack {unsynced}"
            unsynced.add(STATE_ENTRY)
        elif name in OPENS and "O_CREAT" in rest and f'"{FOLDER}/output.csv"' in rest:
            unsynced.add(OUTPUT_ENTRY)
        elif file and name in [*WRITES, "ftruncate"]:
            unsynced.add(file[1])
        elif file and name in SYNCS:
            unsynced -= {file[1]} if file[1] else {STATE_ENTRY, OUTPUT_ENTRY}
    return f"at the end the disk may lack {unsynced}" if unsynced else None


# What has to be left.


def expected(clean: Clean, call: Call, error: str) -> list[tuple[int, str]]:
    """The statuses and what is on standard error after a fault of a call: one of these."""
    whole = (0, clean.reports())
    reported = clean.reports(call.packets)
    if error == "EINTR" and call.name in RETRIED or call.part == "reports":
        return [whole]
    if call.part == "query" and call.strict:
        return [(3, f"tilt: 4 read fault: {QUERY_FILE}\n")]
    if call.part == "feed":
        return [(3, reported + "tilt: 4 read fault: -\n")]
    if call.name == "flock" and error == "EAGAIN":
        return [(1, f"tilt: 60 folder in use: {FOLDER}\n")]
    failed = (6, reported + f"tilt: 6 save fault: {FOLDER}\n")
    return [failed] if call.part == "folder" and call.strict else [failed, whole] if call.part == "folder" else [whole]


def wrong_end(clean: Clean, call: Call, error: str, end: End) -> str | None:
    """What is wrong with how a run ended in which a call failed, or None."""
    if "(INJECTED)" not in end.trace:
        return "the fault didn't come"
    wanted = expected(clean, call, error)
    came = (end.status, end.err)
    if call.part == "reports" and error != "EINTR":
        # The report itself is lost.
        lost = [line for line in clean.reports().splitlines(True) if line not in end.err]
        if end.status == 0 and end.out == "" and len(lost) <= 1:
            return None
    # What has to do with no file may fail as it likes, if it is reported.
    if end.out == "" and (came in wanted or not call.part and end.status in (3, 4, 5, 6)):
        return None
    return f"wanted one of {wanted} and no output, came {shown(end)}"


def try_fault(clean: Clean, call: Call, error: str, tally: Tally) -> None:
    with Place(clean) as top:
        options = ["-e", f"trace={call.name}", "-e", f"inject={call.name}:error={error}:when={call.count}"]
        end = serve(top, clean.words, clean.case.packets, options)
        last = len(clean.commits) - 1 if end.status == 0 else call.renames
        wrong = wrong_end(clean, call, error, end) or wrong_after(clean, top, [last])
    tally.expect(wrong is None, f"{clean.case}: {error} at {call}: {wrong}")


def try_kill(clean: Clean, call: Call, tally: Tally) -> None:
    with Place(clean) as top:
        options = ["-e", f"trace={call.name}", "-e", f"inject={call.name}:signal=KILL:when={call.count}"]
        end = serve(top, clean.words, clean.case.packets, options)
        wrong = None
        if end.status not in (-signal.SIGKILL, 128 + signal.SIGKILL) or end.out or not clean.reports().startswith(end.err):
            wrong = f"came {shown(end)}"
        wrong = wrong or wrong_after(clean, top, [call.renames, call.renames + (call.name in RENAMES)], killed=True)
    tally.expect(wrong is None, f"{clean.case}: killed at {call}: {wrong}")


def try_no_memory(clean: Clean, counts: dict[str, int], tally: Tally) -> None:
    """From the call on no memory is given."""
    refusals = {name: f"{'retval=0' if name == 'brk' else 'error=ENOMEM'}:when={count}+" for name, count in counts.items()}
    options = [word for name, refusal in refusals.items() for word in ("-e", f"inject={name}:{refusal}")]
    with Place(clean) as top:
        end = serve(top, clean.words, clean.case.packets, ["-e", f"trace={','.join(MEMORY)}", *options])
        lacking = "tilt: 7 out of memory\n"
        enough = (end.status, end.err) == (0, clean.reports())
        # Before the program has begun it can't report anything.
        early = end.status in (5, 7) and end.err == ""
        late = end.status == 5 and end.err.endswith(lacking) and clean.reports().startswith(end.err.removesuffix(lacking))
        wrong = None if end.out == "" and (enough or early or late) else f"came {shown(end)}"
        wrong = wrong or wrong_after(clean, top, range(len(clean.commits)))
    tally.expect(wrong is None, f"{clean.case}: no memory from {counts} on: {wrong}")


def try_position(clean: Clean, call: Call, fault: str, tally: Tally) -> None:
    """A call of `--position` fails, or it is killed there: the commit stays."""
    printed = f"{clean.position(clean.commits[0])}\n"
    wanted = [(0, printed, "")]
    failed = (6, "", f"tilt: 6 save fault: {FOLDER}\n")
    if call.part == "query" and call.strict:
        failed = (3, "", f"tilt: 4 read fault: {QUERY_FILE}\n")
    if call.part == "output":
        failed = (4, "", "tilt: 5 write fault\n")
    if fault == "error=EAGAIN":
        failed = (1, "", f"tilt: 60 folder in use: {FOLDER}\n")
    if fault != "error=EINTR" or call.name not in RETRIED:
        wanted = [failed] if call.strict and call.part else [*wanted, failed]
    with Place(clean) as top:
        options = ["-e", f"trace={call.name}", "-e", f"inject={call.name}:{fault}:when={call.count}"]
        end = serve(top, position_words(clean), [], options)
        killed = fault == "signal=KILL"
        good = end.status in (-signal.SIGKILL, 128 + signal.SIGKILL) if killed else (end.status, end.out, end.err) in wanted
        # After a fault of the output it can have a part of the text, or all of it.
        good = good or call.part == "output" and (end.status, "", end.err) == failed and printed.startswith(end.out)
        wrong = wrong_after(clean, top, [0], killed) if good else f"wanted one of {wanted}, came {shown(end)}"
    tally.expect(wrong is None, f"{clean.case}: the position with {fault} at {call}: {wrong}")


def position_trials(clean: Clean, tally: Tally) -> Iterator[Callable[[], None]]:
    with Place(clean) as top:
        trace = serve(top, position_words(clean), [], ["-e", "trace=all"]).trace
    for call in own_calls(numbered_calls(trace)):
        for fault in ["signal=KILL", *(f"error={error}" for error in faults_of(call))]:
            yield partial(try_position, clean, call, fault, tally)


def try_single_bytes(clean: Clean, library: str, tally: Tally) -> None:
    """Each read of the feed gives one byte, and each write takes one."""
    with Place(clean) as top:
        end = serve(top, clean.words, list(clean.case.text(0)), ["-e", "trace=write"], ["env", f"LD_PRELOAD={library}"])
        writes = [line for line in end.trace.splitlines() if f"/{FOLDER}/" in line.partition(",")[0]]
        files = files_in(os.path.join(top, FOLDER))
    if any(not line.endswith(" = 1") for line in writes):
        tally.left_out.append(f"{clean.case}: writes that take one byte: the library isn't used")
        return
    good = (end.status, end.out, end.err) == (0, "", clean.reports()) and sorted(files) == FILES
    good = good and files["output.csv"] == clean.out[-1] and files["state"] == clean.state and len(writes) >= len(clean.state)
    tally.expect(good, f"{clean.case}: reads and writes of one byte: {shown(end)}, {files}")


def faults_of(call: Call) -> Iterator[str]:
    """The errors of a call that are tried."""
    if call.name in FAILING or call.name in STRICT:
        yield "ENOSPC" if call.name in WRITES else "EIO"
    if call.name in RETRIED:
        yield "EINTR"
    if call.name == "flock":
        yield "EAGAIN"


def trials_of(clean: Clean, tally: Tally) -> Iterator[Callable[[], None]]:
    trace = numbered_calls(clean.trace)
    calls = list(own_calls(trace))
    renames = sum(call.name in RENAMES for call in calls)
    tally.expect(renames == len(clean.commits) - 1, f"{clean.case}: {renames} commits, expected {clean.commits}")
    wrong = wrong_order(trace)
    tally.expect(wrong is None, f"{clean.case}: {wrong}")
    for counts in demands_of(trace, first_own(trace)):
        yield partial(try_no_memory, clean, counts, tally)
    for call in calls:
        yield partial(try_kill, clean, call, tally)
        for error in faults_of(call):
            yield partial(try_fault, clean, call, error, tally)


def main() -> int:
    words = argparse.ArgumentParser(description="Tries each fault of the system on tilt-live with a folder.")
    words.add_argument("--program", help="another program than the built one")
    words.add_argument("--jobs", type=int, default=len(os.sched_getaffinity(0)), help="how many runs go at once")
    given = words.parse_args()
    if given.program is None:
        build_program("tilt-live")
    program = os.path.abspath(given.program or built_program("tilt-live"))
    tally = Tally()
    install(missing())
    why_not = no_tracing()
    if why_not is not None:
        tally.left_out.append(f"all faults of tilt-live with a folder: {why_not}")
    with tempfile.TemporaryDirectory(prefix="faults.") as folder:
        library = one_byte_library(folder) if why_not is None else None
        if why_not is None and library is None:
            tally.left_out.append("writes of tilt-live that take one byte: there is no C compiler")
        trials: list[Callable[[], None]] = [partial(try_full_device, program, tally)]
        for case in CASES:
            clean = clean_of(program, case, why_not is None, tally)
            if clean is not None:
                trials += [*trials_of(clean, tally), *position_trials(clean, tally)] if why_not is None else []
                trials += short_files(clean, tally)
                trials += [partial(try_single_bytes, clean, library, tally)] if library is not None else []
        with concurrent.futures.ThreadPoolExecutor(given.jobs) as pool:
            for done in [pool.submit(trial) for trial in trials]:
                done.result()
    return tally.end()


if __name__ == "__main__":
    sys.exit(main())
