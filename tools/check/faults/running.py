"""A command on files, in a folder of its own: run as it is, or under strace."""
from __future__ import annotations

import dataclasses
import os
import shutil
import signal
import stat
import subprocess
import tempfile
from typing import Iterable

SECONDS = 10
NOBODY = 65534


@dataclasses.dataclass(frozen=True)
class Case:
    """A command on files. `saves` is the file that it saves, and `old` what that held before, if it was there; where there is a link to it,
    the words have the link's name."""

    name: str
    words: list[str]
    files: dict[str, bytes]
    saves: str | None = None
    status: int = 0
    told: bytes = b""
    link: str | None = None

    @property
    def save_name(self) -> str:
        return self.link or self.saves or ""

    @property
    def read_names(self) -> list[str]:
        return [*self.files, *([self.link] if self.link else [])]

    @property
    def old(self) -> bytes | None:
        return self.files.get(self.saves) if self.saves else None


@dataclasses.dataclass
class End:
    """What a run leaves. The status is None where it took too long, and the files are those of its folder with their modes."""

    status: int | None
    out: bytes
    err: bytes
    files: dict[str, tuple[int, bytes]]
    trace: str = ""


class Place:
    """A new folder with the files of a case in it, that goes away with all that was put beside it."""

    def __init__(self, case: Case) -> None:
        self.case = case

    def __enter__(self) -> str:
        self.top = tempfile.mkdtemp(prefix="faults.")
        folder = os.path.join(self.top, "folder")
        os.mkdir(folder)
        put_files(folder, self.case.files)
        if self.case.link and self.case.saves:
            os.symlink(self.case.saves, os.path.join(folder, self.case.link))
        return folder

    def __exit__(self, *_: object) -> None:
        shutil.rmtree(self.top, ignore_errors=True)


def put_files(folder: str, files: dict[str, bytes]) -> None:
    for name, content in files.items():
        with open(os.path.join(folder, name), "wb") as file:
            file.write(content)
        os.chmod(os.path.join(folder, name), 0o640)


def files_in(folder: str) -> dict[str, tuple[int, bytes]]:
    found = {}
    for name in os.listdir(folder):
        path = os.path.join(folder, name)
        mode = os.lstat(path).st_mode
        content = b""
        if stat.S_ISREG(mode):
            with open(path, "rb") as file:
                content = file.read()
        found[name] = (mode, content)
    return found


def content(path: str) -> bytes:
    with open(path, "rb") as file:
        return file.read()


def finish(process: subprocess.Popen[bytes]) -> int | None:
    """The status of a process, or None where it doesn't end in time: it and what it began are killed then."""
    try:
        return process.wait(timeout=SECONDS)
    except subprocess.TimeoutExpired:
        os.killpg(process.pid, signal.SIGKILL)
        process.wait()
        return None


def run(command: list[str], folder: str, fds: Iterable[int] = (), weak: bool = False, groups: Iterable[int] = ()) -> End:
    """Runs a command in a folder, with two files beside the folder as its streams. A weak one hasn't the rights of root, and is in these
    groups besides its own."""
    user = NOBODY if weak and os.geteuid() == 0 else None
    out, err = folder + ".out", folder + ".err"
    with open(out, "wb") as out_file, open(err, "wb") as err_file:
        process = subprocess.Popen(
            command,
            cwd=folder,
            stdin=subprocess.DEVNULL,
            stdout=out_file,
            stderr=err_file,
            start_new_session=True,
            pass_fds=tuple(fds),
            user=user,
            group=user,
            extra_groups=None if user is None else list(groups),
        )
        status = finish(process)
    return End(status, content(out), content(err), files_in(folder))


def traced(command: list[str], folder: str, options: list[str], environment: dict[str, str] | None = None) -> End:
    trace = folder + ".trace"
    preloaded = [word for name, value in (environment or {}).items() for word in ("-E", f"{name}={value}")]
    end = run(["strace", "-f", "-qq", "-o", trace, *preloaded, *options, "--", *command], folder)
    if os.path.exists(trace):
        end.trace = content(trace).decode("utf-8", "replace")
    return end
