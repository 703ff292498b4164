"""A folder into which `tilt-live` serves a feed: a call of the program whose feed comes piece by piece, and what the files of the folder
have."""
from __future__ import annotations

import contextlib
import dataclasses
import hashlib
import os
import select
import subprocess
import tempfile
from typing import IO, Sequence

from check.live import SECONDS
from check.live_sessions import Came, counts_of


class Start:
    """A call of the program whose feed comes through a pipe, until it ends or is killed."""

    def __init__(self, words: Sequence[str], place: str) -> None:
        self.files = [tempfile.TemporaryFile(), tempfile.TemporaryFile()]
        self.process = subprocess.Popen(words, cwd=place, stdin=subprocess.PIPE, stdout=self.files[0], stderr=self.files[1], bufsize=0)
        assert self.process.stdin
        self.input = self.process.stdin
        os.set_blocking(self.input.fileno(), False)

    def send(self, piece: bytes) -> None:
        """Sends a piece. A program that has ended takes none."""
        rest = memoryview(piece)
        with contextlib.suppress(BrokenPipeError):
            while rest and select.select([], [self.input], [], SECONDS)[1]:
                rest = rest[os.write(self.input.fileno(), rest) :]

    def end(self, killed: bool) -> Came:
        """Kills the program or ends its feed, and waits for it."""
        if killed:
            self.process.kill()
        self.input.close()
        status: int | None = None
        with contextlib.suppress(subprocess.TimeoutExpired):
            status = self.process.wait(SECONDS)
        if status is None:
            self.process.kill()
            self.process.wait()
        out, err = map(read_all, self.files)
        return Came(status, out, err)


def read_all(file: IO[bytes]) -> bytes:
    with file:
        file.seek(0)
        return file.read()


# What a folder has


@dataclasses.dataclass(frozen=True)
class Commit:
    """What the state of a folder says: the length of the output, how many bytes and lines of the feed it is of, the bytes of a line that
    has begun, how much output was written, whether anything was begun, and the last bytes of the feed that were taken."""

    length: int = 0
    taken: int = 0
    lines: int = 0
    rest: bytes = b""
    written: int = 0
    begun: bool = False
    last: bytes = b""

    @property
    def position(self) -> int:
        return self.taken + len(self.rest)


def commit_of(state: bytes) -> Commit:
    if not state:
        return Commit()
    seal, _, text = state.partition(b"\n")
    if seal != b"tilt store 1 " + hashlib.sha256(text).hexdigest().encode():
        raise ValueError(f"the state has another digest than {seal!r}")
    length, _, text = text.partition(b"\n")
    if not text:
        return Commit(length=int(length))
    count, _, text = text.partition(b"\n")
    last, text = text[: int(count)], text[int(count) :]
    end = text.rfind(b"\n") + 1
    counts = counts_of(text[:end])
    return Commit(int(length), counts["bytes"], counts["lines"], text[end:], counts["written"], True, last)


def last_of(feed: bytes) -> bytes:
    """The last bytes of a feed that a state has, and that are compared."""
    return feed[-4096:]


def content(path: str) -> bytes:
    """What a file has, if it is there."""
    with contextlib.suppress(FileNotFoundError), open(path, "rb") as file:
        return file.read()
    return b""


def files_in(folder: str) -> dict[str, bytes]:
    """What the files of a folder have, if it is there, while no program runs."""
    names = os.listdir(folder) if os.path.isdir(folder) else []
    return {name: content(os.path.join(folder, name)) for name in names}


def put_files(folder: str, files: dict[str, bytes]) -> None:
    """Writes the output and the state, or removes those that aren't given."""
    for name in ("output.csv", "state"):
        path = os.path.join(folder, name)
        if name in files:
            with open(path, "wb") as file:
                file.write(files[name])
        elif os.path.exists(path):
            os.remove(path)
