#!/usr/bin/env python3
"""Runs the tests of python/, with the Python of the system and its packages: `tools/check/data.py [without-program | with-program]`.

The program is built first if it has to be, and if it isn't there then, that is a failure. `without-program` runs the tests alone that need
no program, and builds none; `with-program` runs the others. Which these are, python/tests/conftest.py knows.

Packages of Debian that the tests and the pages need are installed by `apt-get` if they are missing, if this user may. Tests whose own
package can't be had, and all of them if pytest can't be, are printed as left out, and never counted as passed. If the user is root and
`apt-get` is there, a package that is missing all the same is a failure, except the browser, which not each system has. The last line is
'N passed, M failed', and the status is 1 if one failed."""
from __future__ import annotations

import argparse
import concurrent.futures
import os
import re
import subprocess
import sys
import tempfile
import xml.etree.ElementTree

sys.path.insert(0, os.path.dirname(os.path.dirname(os.path.realpath(__file__))))

from shared.packages import has_module, has_program, install, may_install
from shared.paths import BUILT, SYSTEM_PYTHON, TOP
from shared.program import build_program
from shared.tally import Tally

# Packages, and the module or the program that tells that one is there.
MODULES = {
    "python3-pytest": "pytest",
    "python3-pandas": "pandas",
    "python3-matplotlib": "matplotlib",
    "python3-dask": "dask",
    "python3-distributed": "distributed",
}
PROGRAMS = {"mosquitto": "mosquitto", "mosquitto-clients": "mosquitto_pub", "m4": "m4"}
# Only the tests that `with-program` runs use it.
BROWSER = {"chromium": "chromium"}
# The tests that a word chooses, as pytest's option -m says it.
CHOSEN = {"without-program": "not program", "with-program": "program"}
NO_PROGRAM = os.path.join(os.sep, "there", "is", "no", "program")
NOT_BUILT = "the program isn't built"
# In how many parts the tests are run, and how many at the same time; and pytest's status if it has no test to run.
PARTS, AT_ONCE, NO_TESTS = 6, 2, 5


def is_there(package: str) -> bool:
    return has_module(MODULES[package]) if package in MODULES else has_program({**PROGRAMS, **BROWSER}[package])


def missing() -> list[str]:
    return [package for package in [*MODULES, *PROGRAMS] if not is_there(package)]


def tests(report: str) -> tuple[int, int, list[str]]:
    """How many tests passed and failed, and why others were left out."""
    passed, failed, left_out = 0, 0, []
    for case in xml.etree.ElementTree.parse(report).iter("testcase"):
        skipped = case.find("skipped")
        if skipped is not None:
            left_out.append(f"{case.get('classname')}.{case.get('name')}: {skipped.get('message')}")
        elif case.find("failure") is not None or case.find("error") is not None:
            failed += 1
        else:
            passed += 1
    return passed, failed, left_out


def files() -> list[str]:
    """The files of tests, the largest first."""
    folder = os.path.join(TOP, "python", "tests")
    paths = [os.path.join(folder, name) for name in sorted(os.listdir(folder)) if name.startswith("test_")]
    return sorted(paths, key=os.path.getsize, reverse=True)


def parts() -> list[list[str]]:
    """The files of tests in parts of about the same size, in the order of their largest files."""
    found: list[list[str]] = [[] for _ in range(PARTS)]
    for path in files():
        min(found, key=lambda part: sum(map(os.path.getsize, part))).append(path)
    return [part for part in found if part]


def written() -> list[str]:
    """The tests that stand in python/tests."""
    return re.findall(r"^def test_\w+", "\n".join(open(path, encoding="utf-8").read() for path in files()), re.MULTILINE)


def note_tests(report: str, status: int, which: str | None, tally: Tally) -> None:
    """Counts the tests of a report. One that was left out for want of the program, where only those without it are run, lacks its mark: it
    would be run nowhere."""
    passed, failed, left_out = tests(report) if os.path.exists(report) else (0, 1, [])
    unmarked = [what for what in left_out if which == "without-program" and what.endswith(NOT_BUILT)]
    for what in unmarked:
        tally.expect(False, f"{what}, and this test hasn't the mark `program`")
    tally.left_out += [what for what in left_out if what not in unmarked]
    # A status without a failed test is a fault of the run itself.
    tally.add(passed, max(failed, int(status != 0)))


def run_tests(which: str | None, tally: Tally) -> None:
    """Runs the parts, some at the same time."""
    environment = {**os.environ, "PYTHONDONTWRITEBYTECODE": "1"}
    if which == "without-program":
        environment["TILT"] = NO_PROGRAM
    chosen = [] if which is None else ["-m", CHOSEN[which]]

    def run(report: str, part: list[str]) -> subprocess.CompletedProcess[str]:
        words = [SYSTEM_PYTHON, "-m", "pytest", "-q", "-p", "no:cacheprovider", f"--junitxml={report}", *part, *chosen]
        # What a part prints is shown at its end.
        out = subprocess.PIPE
        return subprocess.run(words, cwd=TOP, env=environment, stdin=subprocess.DEVNULL, stdout=out, stderr=subprocess.STDOUT, text=True)

    with tempfile.TemporaryDirectory() as folder, concurrent.futures.ThreadPoolExecutor(AT_ONCE) as pool:
        reports = {os.path.join(folder, f"{number}.xml"): part for number, part in enumerate(parts())}
        statuses = []
        for report, done in zip(reports, pool.map(run, reports, reports.values())):
            print(done.stdout, end="", flush=True)
            statuses.append(done.returncode)
            # It may be that none of the tests of a part is chosen.
            note_tests(report, 0 if done.returncode == NO_TESTS else done.returncode, which, tally)
        if set(statuses) == {NO_TESTS}:
            tally.expect(False, "there is no test")


def main(arguments: list[str]) -> int:
    words = argparse.ArgumentParser(description="Runs the tests of python/.")
    words.add_argument("which", nargs="?", choices=sorted(CHOSEN), help="which tests; all, if none is given")
    which = words.parse_args(arguments).which
    tally = Tally()
    if which != "without-program":
        build_program()
        build_program("tilt-live")
        if not os.access(BUILT, os.X_OK):
            tally.expect(False, NOT_BUILT)
    install(missing() + [package for package in BROWSER if which != "without-program" and not is_there(package)])
    if missing() and may_install():
        tally.expect(False, f"it couldn't be installed: {', '.join(missing())}")
    if not is_there("python3-pytest"):
        tally.left_out.append(f"{len(written())} tests; not installed: {', '.join(missing())}")
        return tally.end()
    run_tests(which, tally)
    if tally.left_out:
        tally.left_out.append(f"{len(tally.left_out)} in all; not installed: {', '.join(missing()) or 'nothing'}")
    return tally.end()


if __name__ == "__main__":
    sys.exit(main(sys.argv[1:]))
