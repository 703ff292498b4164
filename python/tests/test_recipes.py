"""The scripts of docs/RUNNING_SESSIONS.md: whichever of their steps fails or is killed, nothing looks complete, and the next call completes it."""
from __future__ import annotations

import os
import pathlib
import re
import subprocess

import pytest
from conftest import TOP

# Of the commands that the scripts call, a stand-in counts the calls. Call number AT fails: before it does anything but write a broken line,
# or after all of it was done, like a kill between two steps.
STAND_IN = """#!/bin/sh
echo >> "$COUNT"
at=0
while read -r _; do
    at=$((at + 1))
done < "$COUNT"
[ "$at" -eq "$AT" ] || exec "$REAL"/{name} "$@"
if [ "$HOW" = before ]; then
    echo 1,2,bro
    exit 137
fi
"$REAL"/{name} "$@" || exit
exit 137
"""
STEPS = ("tilt", "mv", "sync", "cat")


@pytest.fixture
def folder(tmp_path: pathlib.Path, tilt: str) -> pathlib.Path:
    """The files of the page, and stand-ins beside the commands themselves."""
    page = (TOP / "docs" / "RUNNING_SESSIONS.md").read_text()
    for name in ("work", "stand-ins", "real"):
        (tmp_path / name).mkdir()
    for name, content in re.findall(r"^```file (\S+)\n(.*?)^```$", page, re.M | re.S):
        (tmp_path / "work" / name).write_text(content)
    for name in STEPS:
        (tmp_path / "stand-ins" / name).write_text(STAND_IN.format(name=name))
        (tmp_path / "stand-ins" / name).chmod(0o755)
        # No test stops the machine: what is brought to the disk here would only take time.
        os.symlink({"tilt": tilt, "sync": "/bin/true"}.get(name, f"/bin/{name}"), tmp_path / "real" / name)
    return tmp_path


def run_hours(folder: pathlib.Path, at: int, how: str) -> tuple[int, int]:
    """The status of the script when the call number `at` of a step fails, and how many calls there were."""
    count = folder / "count"
    count.write_text("")
    environment = {"PATH": f"{folder}/stand-ins:/usr/bin:/bin", "REAL": f"{folder}/real", "COUNT": str(count), "AT": str(at), "HOW": how}
    done = subprocess.run(["sh", "hours.sh"], cwd=folder / "work", env=environment, capture_output=True)
    return done.returncode, len(count.read_text())


def whole_day(folder: pathlib.Path) -> str:
    """What one run prints over the rows of all hours."""
    work = folder / "work"
    rows = "".join((work / f"x.{hour}").read_text().partition("\n")[2] for hour in (10, 20, 30))
    (folder / "day.x").write_text("start,end,value\n" + rows)
    words = [folder / "real" / "tilt", "run", work / "window.tilt", f"x={folder}/day.x"]
    return subprocess.run(words, check=True, capture_output=True, text=True).stdout


def restart(folder: pathlib.Path) -> None:
    """The folder as it is before the script was ever called."""
    for path in [*(folder / "work").glob("part.*"), *(folder / "work").glob("state.*"), *(folder / "work").glob("day.*")]:
        path.unlink()


@pytest.mark.parametrize("how", ["before", "after"])
def test_a_step_that_fails_leaves_nothing_that_looks_complete(folder, how):
    wanted, day = whole_day(folder), folder / "work" / "day.csv"
    status, calls = run_hours(folder, 0, how)
    assert status == 0 and calls == 28 and day.read_text() == wanted
    for at in range(1, calls + 1):
        restart(folder)
        status, made = run_hours(folder, at, how)
        assert status != 0 and made == at, f"call {at} isn't the last one"
        # Only a kill after the last step of all leaves the file, which is then whole.
        assert day.exists() == (how == "after" and at == calls) and (not day.exists() or day.read_text() == wanted)
        assert run_hours(folder, 0, how)[0] == 0 and day.read_text() == wanted, f"not completed after call {at}"


def test_an_hour_without_its_file_stops_the_day(folder):
    wanted = whole_day(folder)
    os.rename(folder / "work" / "x.20", folder / "late")
    assert run_hours(folder, 0, "before")[0] != 0
    assert not (folder / "work" / "day.csv").exists() and not (folder / "work" / "state.20").exists()
    os.rename(folder / "late", folder / "work" / "x.20")
    assert run_hours(folder, 0, "before")[0] == 0
    assert (folder / "work" / "day.csv").read_text() == wanted
