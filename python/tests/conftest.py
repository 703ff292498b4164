"""What the tests share: the repository, the built program, and a call of a command."""
from __future__ import annotations

import contextlib
import csv
import os
import pathlib
import signal
import subprocess
import sys
from typing import Any, Callable, Iterator

import pytest

PYTHON = pathlib.Path(__file__).resolve().parent.parent
TOP = PYTHON.parent
sys.path[:0] = [str(PYTHON), str(TOP / "tools")]

from shared.browser import Browser, browser_path
from tilt_data.cli import main
from workers import LIVE, PROGRAM, Cluster, Engine, wrapped

DASK = "python3-distributed"


def pytest_collection_modifyitems(items: list[pytest.Item]) -> None:
    """A test that is handed the program, or a browser, has the mark `program`."""
    for item in items:
        if {"tilt", "live", "browser"} & set(getattr(item, "fixturenames", ())):
            item.add_marker("program")


@pytest.fixture(scope="session")
def tilt() -> str:
    """The program; a test that needs it is left out where it isn't built."""
    if not os.access(PROGRAM, os.X_OK):
        pytest.skip("the program isn't built")
    return str(PROGRAM)


@pytest.fixture(scope="session")
def live() -> str:
    """The program `tilt-live`, as `tilt`."""
    if not os.access(LIVE, os.X_OK):
        pytest.skip("the program isn't built")
    return str(LIVE)


@pytest.fixture(scope="session")
def browser() -> Iterator[Browser]:
    """A browser, without a window; a test that needs it is left out if none is installed."""
    if browser_path() is None:
        pytest.skip("no browser is installed: apt-get install chromium")
    with Browser() as opened:
        yield opened


@pytest.fixture
def told(
    tmp_path: pathlib.Path, monkeypatch: pytest.MonkeyPatch, capsys: pytest.CaptureFixture[str]
) -> Callable[..., tuple[int, str, str]]:
    """Calls a command in an empty folder: its status, its output and what it tells."""
    monkeypatch.chdir(tmp_path)

    def call(*words: str) -> tuple[int, str, str]:
        status = main([str(word) for word in words])
        out, err = capsys.readouterr()
        return status, out, err

    return call


@pytest.fixture
def here(tilt, tmp_path, monkeypatch):
    """An empty folder and the program; the workers find both."""
    monkeypatch.chdir(tmp_path)
    monkeypatch.setenv("TILT", tilt)
    # No test stops the machine: what is brought to the disk here would only take time.
    monkeypatch.setattr(os, "fsync", lambda _: None)
    return tmp_path


@pytest.fixture
def dask():
    return pytest.importorskip("distributed", reason=f"{DASK} is missing")


@pytest.fixture(scope="module")
def of_module(request, tilt, tmp_path_factory) -> Iterator[Cluster]:
    """A cluster of as many workers as the module of the tests has in WORKERS, or of two."""
    pytest.importorskip("distributed", reason=f"{DASK} is missing")
    cluster = Cluster(tmp_path_factory.mktemp("cluster"), workers=getattr(request.module, "WORKERS", 2))
    yield cluster
    cluster.end()


@pytest.fixture
def cluster(of_module, here, monkeypatch) -> Cluster:
    """The cluster, whose program does nothing before."""
    of_module.before("")
    monkeypatch.setenv("TILT", str(of_module.program))
    return of_module


@pytest.fixture(params=["threads", "cluster"])
def either(request, here, monkeypatch) -> Engine:
    if request.param == "cluster":
        cluster = request.getfixturevalue("cluster")
        return Engine(cluster.program, cluster, scheduler=cluster.address)
    (here / "bin").mkdir()
    monkeypatch.setenv("TILT", str(wrapped(here / "bin" / "program")))
    return Engine(here / "bin" / "program", None, workers=getattr(request.module, "WORKERS", 2))


def forked(words: list[str], env: dict[str, str], **how: Any) -> subprocess.Popen[bytes]:
    """Begins a command in a process that is a copy of this one: it needn't start Python and load all modules, which takes most of the time
    of a short call. What it brings to the disk would only take time: no test stops the machine."""
    before = how.pop("preexec_fn", lambda: None)

    def run() -> None:
        before()
        # As a Python that is started handles it.
        if signal.getsignal(signal.SIGINT) is signal.SIG_DFL:
            signal.signal(signal.SIGINT, signal.default_int_handler)
        # The caller goes on once its pipe is closed, as a program that is started does it.
        os.closerange(3, 1024)
        os.environ.clear()
        os.environ.update(env)
        os.fsync = lambda _: None
        sys.stdin, sys.stdout, sys.stderr = open(0), open(1, "w"), open(2, "w", buffering=1)
        status: Any = 1
        try:
            status = main(words)
        except SystemExit as end:
            status = end.code
        finally:
            with contextlib.suppress(OSError, ValueError):
                sys.stdout.flush()
            os._exit(status)

    # A Python that is started ignores SIGPIPE.
    return subprocess.Popen([sys.executable], preexec_fn=run, restore_signals=False, **how)


def rows_in(path: str) -> list[tuple[int, int, int | None]]:
    with open(path, newline="") as file:
        found = list(csv.reader(file))
    assert found[0] == ["start", "end", "value"]
    return [(int(start), int(end), int(value) if value else None) for start, end, value in found[1:]]


def run_program(program: str, query: str, *words: str, folder: str = ".") -> str:
    """What the program prints for a query given as text."""
    pathlib.Path(folder, "q.tilt").write_text(query)
    return subprocess.run([program, "run", "q.tilt", *words], cwd=folder, check=True, capture_output=True, text=True).stdout
