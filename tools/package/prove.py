#!/usr/bin/env python3
"""Proves the crates that a program stands on, as many side by side as the machine serves, and builds the program: `tools/package/prove.py
CRATE LOG`. Each crate is printed on standard error when its turn comes, as '12 of 26 tilt_turn'; all else goes to the file LOG, crate by
crate. It exits with 1 if a crate isn't proved or the program isn't built.

Two runs of `rt` in one checkout wait for one another where they share a library. So each library is proved in a folder of its own, which
gets its sources, those of the crates below it and what was built of them; what is made there is put into the checkout. `rt` knows what is
built by a sum of its sources, in whatever folder it lies. The program is proved and built in the checkout itself, where `rt` takes those
sums once more, and builds anew what was changed meanwhile."""
from __future__ import annotations

import contextlib
import fcntl
import glob
import os
import re
import shutil
import signal
import subprocess
import sys
import tempfile
from typing import Any, BinaryIO

sys.path.insert(0, os.path.dirname(os.path.dirname(os.path.realpath(__file__))))

from shared.crates import lines_of_crates
from shared.paths import TOP

SOURCES = ["src", "specs", "proofs"]
SIGNALS = [signal.SIGHUP, signal.SIGINT, signal.SIGTERM]


def lowest_first(name: str, lines: dict[str, str], order: list[str]) -> list[str]:
    """Puts the crates below this one, and then itself, after those that are there."""
    for library in lines[name].partition(":")[2].split():
        if library in lines and library not in order:
            lowest_first(library, lines, order)
    order.append(name)
    return order


def size(name: str, *parts: str) -> int:
    """How long the files in these parts of a crate are, in kilobytes."""
    found = [glob.glob(f"{TOP}/crates/{name}/{part}/**/*.*", recursive=True) for part in parts]
    return sum(os.path.getsize(file) for files in found for file in files) // 1000


def number_in(path: str, pattern: str) -> int | None:
    """The number that the pattern finds in a file, or None."""
    with contextlib.suppress(FileNotFoundError), open(path, encoding="utf-8") as file:
        found = re.search(pattern, file.read())
        return int(found[1]) if found else None
    return None


def machine() -> tuple[int, int]:
    """How many processors there are, and how many megabytes of memory to use, under the limits of the control group."""
    quota, period = (number_in("/sys/fs/cgroup/cpu.max", pattern) for pattern in (r"^(\d+)", r" (\d+)"))
    processors = min(len(os.sched_getaffinity(0)), max(quota // period, 1) if quota and period else sys.maxsize)
    limits = [number_in(f"/sys/fs/cgroup/{it}", r"^(\d+)") for it in ("memory.max", "memory/memory.limit_in_bytes")]
    available = number_in("/proc/meminfo", r"MemAvailable:\s+(\d+)")
    assert available is not None
    free = min([1024 * available, *filter(None, limits)])
    return processors, int(0.85 * free) // 10**6


def put(source: str, to: str) -> None:
    """Gives a file that nobody changes a second name, or copies it where the file system has no such names."""
    try:
        os.link(source, to)
    except OSError:
        shutil.copy2(source, to)


class Proof:
    """The proof of a library, under way in a folder of its own."""

    def __init__(self, name: str, below: list[str], lines: dict[str, str], room: str, words: list[str]) -> None:
        self.room, self.out = f"{room}/{name}", f"crates/{name}/out"
        for crate in [*below, name]:
            for part in [*SOURCES, "out/rlib"] if crate != name else SOURCES:
                if os.path.isdir(f"{TOP}/crates/{crate}/{part}"):
                    shutil.copytree(f"{TOP}/crates/{crate}/{part}", f"{self.room}/crates/{crate}/{part}", copy_function=put)
        with open(f"{self.room}/crates.txt", "w", encoding="utf-8") as file:
            file.writelines(lines[crate] + "\n" for crate in [*below, name])
        # What an earlier run kept makes the proof shorter.
        self.move_out(TOP, self.room)
        with open(f"{self.room}/said", "wb") as said:
            how: dict[str, Any] = {"stdin": subprocess.DEVNULL, "stdout": said, "stderr": subprocess.STDOUT}
            self.process = subprocess.Popen(words, cwd=f"{self.room}/crates/{name}", **how)

    def move_out(self, source: str, to: str) -> None:
        if os.path.isdir(f"{source}/{self.out}"):
            shutil.move(f"{source}/{self.out}", f"{to}/{self.out}")

    def end(self) -> bytes:
        """Waits for its end, puts what was made into the checkout, and gives what was said."""
        self.process.wait()
        self.move_out(self.room, TOP)
        with open(f"{self.room}/said", "rb") as said:
            return said.read()


def prove(order: list[str], lines: dict[str, str], room: str, log: BinaryIO) -> bool:
    """Proves all but the last, and tells whether they are proved. The first are those that the longest chain of others stands on, and a
    proof that isn't on the longest yields to the others. A proof has long stretches in which one of its jobs alone has work, so there are
    more jobs than processors."""
    below = {name: lowest_first(name, lines, [])[:-1] for name in order[:-1]}
    chain: dict[str, int] = {}
    running: dict[str, Proof] = {}
    proved: list[str] = []
    for name in reversed(below):
        chain[name] = size(name, *SOURCES) + max((chain[it] for it in chain if name in below[it]), default=0)
    left = sorted(below, key=chain.__getitem__, reverse=True)
    processors, memory = machine()
    jobs = min(4, processors)
    # So many megabytes a proof may take, as it was measured.
    need = {name: 1000 + 400 * jobs + 2 * sum(size(it, "src") for it in [*below[name], name]) for name in below}
    try:
        while left or running:
            for name in [it for it in left if set(below[it]) <= set(proved)]:
                if running and (len(running) > processors // 2 or need[name] + sum(need[it] for it in running) > memory):
                    break
                left.remove(name)
                print(f"{len(below) - len(left)} of {len(order)} {name}", file=sys.stderr, flush=True)
                first = [] if all(chain[name] >= chain[it] for it in running) else ["nice", "-n", "5"]
                running[name] = Proof(name, below[name], lines, room, [*first, "rt", "lib", "--jobs", str(jobs)])
            pid = os.waitid(os.P_ALL, 0, os.WEXITED | os.WNOWAIT).si_pid
            name = next(it for it in running if running[it].process.pid == pid)
            log.write(f"== {name}\n".encode() + running[name].end())
            proof = running.pop(name)
            shutil.rmtree(proof.room)
            if proof.process.returncode:
                print(f"{name} isn't proved", file=sys.stderr)
                return False
            proved.append(name)
        return True
    finally:
        for it in running.values():
            it.process.terminate()
        for it in running.values():
            it.end()


def build(program: str, log: BinaryIO) -> bool:
    """Proves and builds the program, and tells whether it is there. Without words it only tells its usage, so its status says nothing."""
    subprocess.run(["rt", "run", "--"], cwd=f"{TOP}/crates/{program}", stdin=subprocess.DEVNULL, stdout=log, stderr=subprocess.STDOUT)
    return os.path.exists(f"{TOP}/crates/{program}/out/{program}")


def leave(*_: object) -> None:
    """Ends this run, and lets nothing end it a second time."""
    for it in SIGNALS:
        signal.signal(it, signal.SIG_IGN)
    sys.exit(1)


def main() -> int:
    program, path = sys.argv[1:]
    lines = lines_of_crates()
    order = lowest_first(program, lines, [])
    with open(path, "ab", buffering=0) as log:
        for number in SIGNALS:
            if signal.getsignal(number) != signal.SIG_IGN:
                signal.signal(number, leave)
        # No other `rt` works in the libraries meanwhile.
        held = [os.open(f"{TOP}/crates/{name}", os.O_RDONLY) for name in sorted(order[:-1])]
        for crate in held:
            fcntl.flock(crate, fcntl.LOCK_EX)
        log.truncate(0)
        # The folders lie in the file system of the checkout, and where nobody looks for crates.
        git = f"{TOP}/.git" if os.path.isdir(f"{TOP}/.git") else None
        for left in glob.glob(f"{git}/proving-*"):
            shutil.rmtree(left)
        with tempfile.TemporaryDirectory(prefix="proving-", dir=git, ignore_cleanup_errors=True) as room:
            if not prove(order, lines, room, log):
                return 1
        for crate in held:
            os.close(crate)
        print(f"{len(order)} of {len(order)} {program}", file=sys.stderr, flush=True)
        return 0 if build(program, log) else 1


if __name__ == "__main__":
    sys.exit(main())
