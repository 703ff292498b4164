"""Calls of the program again and again, with their first, second, third allocation refused, until each was."""
from __future__ import annotations

import concurrent.futures
import os
import subprocess
import tempfile
from typing import Any

from shared.calls import read_tests
from shared.tally import Tally

# What a call of the table must not have: its streams, its memory or its size make it another case.
OTHERS = {"link", "closed", "full", "memory", "orders", "figures"}
# The statuses without memory: for the name of a file to read 3, for that of a file to save to 6, and for the arguments 7.
OUT_OF_MEMORY = (3, 5, 6, 7)


def calls_of(table: str) -> list[dict[str, Any]]:
    """The calls of the table that end with status 0, with files that are written as they are."""
    calls: list[dict[str, Any]] = [{**test.calls[0], "name": test.name} for test in read_tests(table) if len(test.calls) == 1]
    return [
        call
        for call in calls
        if call["status"] == 0
        and not OTHERS & set(call)
        and all(isinstance(value, str) for value in [*call.get("files", {}).values(), call.get("input", "")])
    ]


def run(program: str, call: dict[str, Any], **settings: str) -> tuple[int, bytes, bytes]:
    """A call in a folder of its own: its status, its output and its messages."""
    with tempfile.TemporaryDirectory() as folder:
        for name, text in call.get("files", {}).items():
            with open(os.path.join(folder, name), "w", encoding="utf-8", newline="") as file:
                file.write(text)
        done = subprocess.run(
            [program, *call["words"]],
            cwd=folder,
            env={**os.environ, **settings},
            input=call.get("input", "").encode(),
            capture_output=True,
            timeout=60,
        )
    return done.returncode, done.stdout, done.stderr


def allocations(program: str, call: dict[str, Any]) -> int:
    """How many allocations a call makes."""
    with tempfile.NamedTemporaryFile() as file:
        file.write(bytes(8))
        file.flush()
        run(program, call, TILT_ALLOCATIONS=file.name)
        file.seek(0)
        return int.from_bytes(file.read(), "little")


def refuse(program: str, call: dict[str, Any], tally: Tally) -> None:
    """Refuses each allocation of a call in a run of its own, which has to be out of memory, with a prefix of the output, or done all the
    same."""
    whole = run(program, call)
    for number in range(1, allocations(program, call) + 1):
        status, out, err = run(program, call, TILT_REFUSED=str(number))
        right = (status, out, err) == whole if status == 0 else status in OUT_OF_MEMORY and whole[1].startswith(out)
        tally.note(f"{call['name']}, without allocation {number}", [] if right else [f"status {status}, {out[:100]!r}, {err[:100]!r}"])


def refuse_each(program: str, table: str) -> Tally:
    """Refuses each allocation of each call of the table."""
    tally = Tally()
    with concurrent.futures.ThreadPoolExecutor(os.cpu_count()) as pool:
        for done in [pool.submit(refuse, program, call, tally) for call in calls_of(table)]:
            done.result()
    return tally
