"""Finds the program `tilt`, calls it, and reads what it says of a query."""
from __future__ import annotations

import contextlib
import dataclasses
import functools
import os
import pathlib
import shutil
import signal
import subprocess
import threading
from typing import IO, Any, Iterable, NamedTuple, Sequence

from .errors import Refused

# The program refuses with these; with all others it may be called again.
REFUSALS = (1, 2)
TOP = pathlib.Path(__file__).resolve().parent.parent.parent
FINDER = TOP / "tools" / "package" / "program"
# The programs that tools/package/wheel.py puts beside the modules.
PACKAGED = pathlib.Path(__file__).resolve().parent / "bin"
# Of each program the variable that names it, its crate, and its names on the path.
PROGRAMS = {"tilt": ("TILT", "tilt", ("tilt-stream", "tilt")), "tilt-live": ("TILT_LIVE", "tilt_live_program", ("tilt-live",))}


def program(command: str = "tilt") -> str:
    """The path of a program: what TILT or TILT_LIVE names, the one in the wheel, the one that was built in the checkout, the one that was
    released from its sources, or the one on the path, of which `tilt` can be `tilt-stream`."""
    variable, crate, names = PROGRAMS[command]
    named = os.environ.get(variable)
    if named:
        return named
    for here in (PACKAGED / command, TOP / "crates" / crate / "out" / crate):
        if os.access(here, os.X_OK):
            return str(here)
    found = released(command) or next(filter(None, map(shutil.which, names)), None)
    if found is None:
        cure = f"build it by ./{command} in the checkout, put it on the path, or name it by {variable}=/path/of/{command}"
        raise Refused(f"the program isn't there: {cure}")
    return found


def is_there(command: str) -> bool:
    """Whether a program can be found, and run."""
    try:
        return shutil.which(program(command)) is not None
    except Refused:
        return False


@functools.cache
def released(command: str) -> str | None:
    """The program that was released from the sources of this checkout; None if there is none, or this is no checkout."""
    if not os.access(FINDER, os.X_OK):
        return None
    done = subprocess.run([FINDER, "--found", command], stdin=subprocess.DEVNULL, capture_output=True, text=True)
    return done.stdout.removesuffix("\n") if done.returncode == 0 else None


class Called(NamedTuple):
    """How a call of the program ended: its status, below 0 for the signal that ended it; its text on standard error; and what it printed,
    where the caller named no place for that."""

    status: int
    told: str
    printed: bytes = b""


class Cancelled(Exception):
    """A call that was stopped."""


class Processes:
    """The calls of the program that are under way, on one thread or several, so that they can all be stopped. `slots` is entered by callers
    that run no more than so many at a time."""

    def __init__(self, slots: int | None = None) -> None:
        self.lock = threading.Lock()
        self.slots: contextlib.AbstractContextManager[Any] = contextlib.nullcontext()
        if slots is not None:
            self.slots = threading.BoundedSemaphore(slots)
        # As bytes in a dictionary of its own it needn't be encoded for each run.
        self.environment = dict(os.environb)
        self.running: set[int] = set()
        self.stopped = False

    def check(self) -> None:
        """Raises Cancelled after `stop`. Loops over a file call it for each piece."""
        if self.stopped:
            raise Cancelled

    def call(
        self,
        words: Sequence[str],
        out: IO[bytes] | int | None,
        stdin: int | None = subprocess.DEVNULL,
        handed: Iterable[int] = (),
        command: str = "tilt",
    ) -> Called:
        """Calls a program. Its output goes to `out`, of which None is that of this process, and is kept if that is a pipe. Its input is
        empty, that of this process if `stdin` is None, or a descriptor. It gets the descriptors `handed` under their numbers. An OSError
        says why the program can't be run."""
        # These are files: a pipe would stay open as long as a child of a program that was stopped.
        with open(os.memfd_create("tilt-data"), "w+b") as told, open(os.memfd_create("tilt-data"), "w+b") as printed:
            place = printed if out == subprocess.PIPE else out
            streams: list[Any] = [(os.POSIX_SPAWN_DUP2, told.fileno(), 2)]
            if place is not None:
                streams.append((os.POSIX_SPAWN_DUP2, place if isinstance(place, int) else place.fileno(), 1))
            if stdin == subprocess.DEVNULL:
                streams.append((os.POSIX_SPAWN_OPEN, 0, os.devnull, os.O_RDONLY, 0))
            elif stdin is not None:
                streams.append((os.POSIX_SPAWN_DUP2, stdin, 0))
            # A descriptor that takes its own number stays open in the program, and in no other.
            streams += [(os.POSIX_SPAWN_DUP2, number, number) for number in handed]
            path = program(command)
            with self.lock:
                self.check()
                # The words may name descriptors of the caller, such as /dev/fd/63 of a shell. Those of Python are closed in a child anyway.
                process = os.posix_spawnp(path, [path, *words], self.environment, file_actions=streams, setsigdef=[signal.SIGPIPE])
                self.running.add(process)
            try:
                os.waitid(os.P_PID, process, os.WEXITED | os.WNOWAIT)
            except BaseException:
                os.kill(process, signal.SIGKILL)
                raise
            finally:
                # Until then its number belongs to no other process.
                with self.lock:
                    self.running.discard(process)
                    status = os.waitstatus_to_exitcode(os.waitpid(process, 0)[1])
            self.check()
            told.seek(0)
            printed.seek(0)
            return Called(status, told.read().decode("utf-8", "replace"), printed.read())

    def stop(self) -> None:
        """Kills the calls that are under way. Later ones raise Cancelled."""
        with self.lock:
            self.stopped = True
            for process in self.running:
                os.kill(process, signal.SIGKILL)


def call(
    words: Sequence[str],
    out: IO[bytes] | int | None = subprocess.PIPE,
    stdin: int | None = subprocess.DEVNULL,
    its: Processes | None = None,
    command: str = "tilt",
) -> Called:
    """Calls a program as `Processes.call` does. A program that can't be run is a Refused."""
    try:
        return (its or Processes()).call(words, out, stdin, command=command)
    except OSError as error:
        raise Refused(f"the program can't be run: {error.strerror}") from error


@dataclasses.dataclass(frozen=True)
class Explained:
    """What `tilt explain` says: the look-back and look-ahead in ticks; each input's, None where it isn't used; each definition's, with
    whether it has a loop; and how many loops there are, fused and plain."""

    back: int
    ahead: int
    inputs: dict[str, tuple[int, int] | None]
    definitions: dict[str, tuple[str, int, int] | None]
    loops: tuple[int, int]

    @staticmethod
    def of(text: str) -> Explained:
        lines = [line.split() for line in text.splitlines()]
        inputs = {name: None if rest[0] == "unused" else (int(rest[0]), int(rest[1])) for form, name, *rest in lines if form == "input"}
        found = {name: rest for form, name, *rest in lines if form == "let"}
        lets = {name: None if rest[0] == "unused" else (rest[0], int(rest[1]), int(rest[2])) for name, rest in found.items()}
        (back, ahead), loops = ((int(words[1]), int(words[2])) for word in ("reach", "loops") for words in lines if words[0] == word)
        return Explained(back, ahead, inputs, lets, loops)
