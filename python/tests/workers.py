"""What tests run tasks on: a cluster of Dask, or threads; and a program that does first what a test says."""
from __future__ import annotations

import json
import os
import pathlib
import signal
import subprocess
import sys
import time
from typing import Any

PYTHON = pathlib.Path(__file__).resolve().parent.parent
BUILT = PYTHON.parent / "crates"
PROGRAM = pathlib.Path(os.environ.get("TILT", BUILT / "tilt" / "out" / "tilt"))
LIVE = pathlib.Path(os.environ.get("TILT_LIVE", BUILT / "tilt_live_program" / "out" / "tilt_live_program"))


def wrapped(program: pathlib.Path) -> pathlib.Path:
    """A script that calls the program, after what the text `before` says."""
    program.write_text(f'#!/bin/sh\n[ -e "$0.before" ] && . "$0.before"\nexec {PROGRAM} "$@"\n')
    program.chmod(0o755)
    return program


def before(program: pathlib.Path, text: str) -> None:
    program.with_name(f"{program.name}.before").write_text(text)


class Cluster:
    """A scheduler and two workers or more, as other machines would have them, which are started again if they are killed; and the program
    that they call, which does first what the text `before` says. A folder with Dask's configuration makes it a cluster with TLS."""

    def __init__(self, folder: pathlib.Path, configuration: pathlib.Path | None = None, workers: int = 2) -> None:
        import distributed

        self.folder = folder
        self.environment = {} if configuration is None else {"DASK_CONFIG": str(configuration)}
        security = (
            None
            if configuration is None
            else distributed.Security(
                require_encryption=True,
                **{
                    f"tls_{name}": str(configuration / file)
                    for name, file in (("ca_file", "ca.pem"), ("client_cert", "cert.pem"), ("client_key", "key.pem"))
                },
            )
        )
        self.program = wrapped(folder / "program")
        self.begun: list[subprocess.Popen[bytes]] = []
        file = folder / "scheduler.json"
        protocol = [] if configuration is None else ["--protocol", "tls"]
        self.begin("dask_scheduler", "--port", "0", "--scheduler-file", str(file), *protocol)
        words = ["--nworkers", str(workers), "--nthreads", "1", "--scheduler-file", str(file), "--local-directory", str(folder)]
        self.begin("dask_worker", *words)
        deadline = time.monotonic() + 60
        while not (file.exists() and file.read_text().endswith("}")) and time.monotonic() < deadline:
            time.sleep(0.05)
        self.address = json.loads(file.read_text())["address"]
        with distributed.Client(self.address, timeout="60s", security=security) as client:
            client.wait_for_workers(workers, timeout=60)

    def begin(self, module: str, *words: str) -> None:
        environment = {**os.environ, "PYTHONPATH": str(PYTHON), "TILT": str(self.program), "TILT_LIVE": str(LIVE), **self.environment}
        words = "-m", f"distributed.cli.{module}", "--host", "127.0.0.1", "--no-dashboard", "--dashboard-address", "127.0.0.1:0", *words
        self.begun.append(
            subprocess.Popen(
                [sys.executable, *words],
                cwd=self.folder,
                env=environment,
                stdout=subprocess.DEVNULL,
                stderr=subprocess.DEVNULL,
                start_new_session=True,
            )
        )

    def before(self, text: str) -> None:
        before(self.program, text)

    def workers(self) -> list[Any]:
        import psutil

        found = []
        for process in psutil.Process(self.begun[1].pid).children(recursive=True):
            try:
                found += [process] if any("spawn_main" in word for word in process.cmdline()) else []
            except psutil.Error:
                pass
        return found

    def end(self) -> None:
        for process in reversed(self.begun):
            # Each has a group of its own, with the workers that it began.
            os.killpg(process.pid, signal.SIGKILL)
            process.wait()


class Engine:
    """What the parts of a test run on: threads or the cluster, as options of the API and of the command, and the program there."""

    def __init__(self, program: pathlib.Path, cluster: Cluster | None, **options: Any) -> None:
        self.program, self.cluster, self.options = program, cluster, options
        self.words = [word for name, value in options.items() for word in (f"--{name}", str(value))]

    def before(self, text: str) -> None:
        before(self.program, text)
