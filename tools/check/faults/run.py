#!/usr/bin/env python3
"""Runs the built program under `strace` once for each call to the system that it makes, and each time that call fails, or the program is
killed at it; and looks after each run whether what stands is by the rules of docs/ERRORS.md and docs/COMMANDS.md.

The commands are those of `cases_of`, on small files, each in a folder of its own. A first run without faults shows which calls there are,
from the first on that opens a file of the case: those before it are the loader's, and left out. Then each call that has to do with files is
made to answer EIO, ENOSPC, EINTR and EMFILE, one run for each; and EIO at it and at all later calls of its kind; and of each kind each
second call is interrupted. Where a save fails, the removal of what was begun fails too, in a run of its own. At each call, of whatever
kind, the program is killed. After a save that failed or was cut short, the same command is called once more, and has to go through. From
each call that asks for memory on, all memory is refused. Besides:

- Reads that give one byte: files are pipes whose packets are single bytes. Reads that give one byte and writes that take one: by a small
  library (LD_PRELOAD), where there is a C compiler and the program is linked dynamically.
- Saves under names of all kinds: a file with a mode of its own or of another owner, a link, a pipe, /dev/null, standard output, a folder
  that isn't there, a folder `fd` of /dev/shm.
- A device of 64 KiB that is full, where one can be mounted.

What can't be tried here, for want of strace, of a C compiler or of rights, is told as left out, and never counted as passed. Where strace
and the compiler are missing they are installed by `apt-get`, if this user may; where the user is root and `apt-get` is there, a kind of
cases that is left out for want of them all the same is a failure. The last line is 'N passed, M failed', and the status is 1 where one
failed. With --table its table is put between the two marks in docs/internals/MEASUREMENTS.md."""
from __future__ import annotations

import argparse
import concurrent.futures
import os
import shutil
import subprocess
import sys
import tempfile
from functools import partial
from typing import Callable

sys.path.insert(0, os.path.dirname(os.path.dirname(os.path.dirname(os.path.realpath(__file__)))))

from check.faults.calls import Clean
from check.faults.cases import cases_of, clean_run
from check.faults.device import try_device
from check.faults.injected import trials_of
from check.faults.names import try_names, try_owners, try_shared, try_streams
from check.faults.single_bytes import LONG, compiles, one_byte_library, try_one_byte, try_packets
from check.faults.table import FaultTally, table
from shared.packages import install, may_install
from shared.paths import BUILT, TOP
from shared.program import build_program
from shared.tables import write_table

PAGE = os.path.join(TOP, "docs", "internals", "MEASUREMENTS.md")


def missing() -> list[str]:
    """The packages that the cases need and that aren't there."""
    compiler = [] if compiles("#include <stdlib.h>\n", "-fsyntax-only") else ["gcc", "libc6-dev"]
    return [*([] if shutil.which("strace") else ["strace"]), *compiler]


def note_missing(tally: FaultTally) -> None:
    lacking = missing()
    if lacking and may_install():
        tally.note("what the cases need", [f"it couldn't be installed: {', '.join(lacking)}"])


def no_tracing() -> str | None:
    """Why nothing can be traced here, or None."""
    if shutil.which("strace") is None:
        return "strace isn't there and can't be installed"
    tried = subprocess.run(["strace", "-f", "-qq", "-o", os.devnull, "true"], stdin=subprocess.DEVNULL, capture_output=True)
    return None if tried.returncode == 0 else f"tracing isn't allowed: {tried.stderr.decode().strip()[:200]}"


def attempt(trial: Callable[[], None], tally: FaultTally) -> None:
    """A trial that breaks off, since the program left what nobody thought of, has failed."""
    try:
        trial()
    except Exception as fault:
        tally.note("a trial broke off", [f"{type(fault).__name__}: {fault}"])


def sweep(program: str, jobs: int, tally: FaultTally, tracing: bool) -> dict[str, Clean]:
    cases = cases_of(program)
    cleans = {}
    trials: list[Callable[[], None]] = []
    with tempfile.TemporaryDirectory(prefix="faults.") as folder:
        library = one_byte_library(folder) if tracing else None
        if tracing and library is None:
            tally.left_out.append(f"writes that take one byte: there is no C compiler: {len(cases)} cases")
        for case in cases:
            clean = clean_run(case, program, tally, tracing)
            if clean is None:
                continue
            cleans[case.name] = clean
            trials += trials_of(case, clean, program, tally)
            trials.append(partial(try_packets, case, clean, program, tally))
            if library is not None and len(clean.out) < LONG:
                trials.append(partial(try_one_byte, case, clean, program, tally, library))
            if case.name == "start":
                trials += [partial(trial, clean, program, tally) for trial in (try_names, try_streams, try_shared, try_owners)]
        trials.append(partial(try_device, program, tally))
        with concurrent.futures.ThreadPoolExecutor(jobs) as pool:
            for done in [pool.submit(attempt, trial, tally) for trial in trials]:
                done.result()
    return cleans


def main() -> int:
    words = argparse.ArgumentParser(description="Tries every fault of the system on the built program.")
    words.add_argument("--program", help="another program than the built one")
    words.add_argument("--jobs", type=int, default=len(os.sched_getaffinity(0)), help="how many runs go at once")
    words.add_argument("--table", action="store_true", help="write the table in docs/internals/MEASUREMENTS.md")
    given = words.parse_args()
    if given.program is None:
        build_program()
    program = os.path.abspath(given.program or BUILT)
    os.umask(0o022)
    tally = FaultTally()
    install(missing())
    note_missing(tally)
    why_not = no_tracing()
    if why_not is not None:
        tally.left_out.append(f"all faults, kills and writes that take one byte, some 1,000 cases: {why_not}")
    cleans = sweep(program, given.jobs, tally, why_not is None)
    if given.table:
        write_table(PAGE, "faults", table(cleans, tally))
    return tally.end()


if __name__ == "__main__":
    sys.exit(main())
