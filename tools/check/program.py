#!/usr/bin/env python3
"""Runs the built program on the calls in the folder calls beside this file, and compares what each one leaves: its status, its standard
output, byte for byte or where it is long by the figures of its values, its standard error, and the files where it ran.
tools/shared/calls.py says what a call may have. The program is built first where it has to be. The last line is 'N passed, M failed', and
the status is 1 where one failed."""
from __future__ import annotations

import os
import resource
import subprocess
import sys
import tempfile
from typing import BinaryIO, Callable

sys.path.insert(0, os.path.dirname(os.path.dirname(os.path.realpath(__file__))))

from shared.calls import CallTest, Row, all_tests, contents
from shared.paths import BUILT, TOP
from shared.program import build_program
from shared.tally import Tally

SCRIPT = os.path.join(TOP, "tilt")


def before(call: Row) -> Callable[[], None] | None:
    """What is done in the new process before the program begins, if anything is."""
    if not {"closed", "memory"} & set(call):
        return None

    def prepare() -> None:
        for number in call.get("closed", []):
            os.close(number)
        if "memory" in call:
            resource.setrlimit(resource.RLIMIT_AS, (call["memory"], call["memory"]))

    return prepare


def words_of(call: Row) -> list[bytes]:
    """The words, with a byte that is no UTF-8 for each '?'."""
    return [word.encode().replace(b"?", b"\xff") for word in call["words"]]


def figures(written: bytes) -> list[int]:
    """How many rows a text of snapshots has, and the sum, the least and the greatest of their values."""
    values = [int(line.split(b",")[2]) for line in written.splitlines()[1:]]
    return [len(values), sum(values), min(values), max(values)]


def files_in(folder: str) -> dict[str, bytes]:
    """The files of a folder, with what they hold."""
    found = {}
    for name in os.listdir(folder):
        with open(os.path.join(folder, name), "rb") as file:
            found[name] = file.read()
    return found


def wrong_files(found: dict[str, bytes], wanted: dict[str, bytes]) -> list[str]:
    """Which files hold something else than they have to, or are there or not."""
    return [
        f"file {name} {found.get(name, b'not there')[:300]!r}, wanted {wanted.get(name, b'not there')[:300]!r}"
        for name in sorted({*found, *wanted})
        if found.get(name) != wanted.get(name)
    ]


def run(program: str, call: Row, folder: str) -> list[str]:
    """Makes a call in a folder: what is wrong with what it leaves."""
    for name, value in call.get("files", {}).items():
        with open(os.path.join(folder, name), "wb") as file:
            file.write(contents(value))
    wanted = {**files_in(folder), **{name: contents(value) for name, value in call.get("left", {}).items()}}
    full = call.get("full", False)
    out: BinaryIO | int = open("/dev/full", "wb") if full else subprocess.PIPE
    process = subprocess.Popen(
        [program] + words_of(call), cwd=folder, stdin=subprocess.PIPE, stdout=out, stderr=subprocess.PIPE, preexec_fn=before(call)
    )
    try:
        written, told = process.communicate(contents(call.get("input", "")), timeout=call.get("seconds", 120))
    except subprocess.TimeoutExpired:
        process.kill()
        process.communicate()
        return ["it takes too long"]
    wrong = []
    if process.returncode != call["status"]:
        wrong.append(f"status {process.returncode}, wanted {call['status']}")
    if "figures" in call:
        if figures(written) != call["figures"]:
            wrong.append(f"figures {figures(written)}, wanted {call['figures']}")
    elif not full and written != call.get("out", "").encode():
        wrong.append(f"output {written[:200]!r}, wanted {call.get('out', '')!r}")
    if told != call.get("err", "").encode():
        wrong.append(f"error {told[:200]!r}, wanted {call.get('err', '')!r}")
    return wrong + wrong_files(files_in(folder), wanted)


def try_test(test: CallTest, tally: Tally) -> None:
    """Makes the calls of a test, each in the folder as the one before left it."""
    with tempfile.TemporaryDirectory() as beside, tempfile.TemporaryDirectory() as folder:
        for number, call in enumerate(test.calls, 1):
            program = SCRIPT if call.get("script", False) else BUILT
            if call.get("link", False):
                # A link to the script serves as well.
                program = os.path.join(beside, "link")
                os.symlink(SCRIPT, program)
            name = test.name if len(test.calls) == 1 else f"{test.name}, call {number}"
            tally.note(name, run(program, call, folder))


def main() -> int:
    build_program()
    tally = Tally()
    for test in all_tests():
        try_test(test, tally)
    return tally.end()


if __name__ == "__main__":
    sys.exit(main())
