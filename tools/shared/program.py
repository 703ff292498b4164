"""The programs: their crates, as tools/package/programs has them, and the files that are built from the sources of this checkout."""
from __future__ import annotations

import os
import subprocess

from shared.paths import FIND_PROGRAM, TOOLS, TOP


def crates_of_programs() -> dict[str, str]:
    """The command of each program, and the crate that it is built from."""
    with open(os.path.join(TOOLS, "package", "programs"), encoding="utf-8") as file:
        lines = [line.split() for line in file if not line.startswith("#")]
    return {command: crate for command, crate in lines}


def built_program(command: str) -> str:
    """The path of a program as it is built here."""
    crate = crates_of_programs()[command]
    return os.path.join(TOP, "crates", crate, "out", crate)


def build_program(command: str = "tilt") -> None:
    """Builds a program if it isn't built from these sources yet: a released one isn't what is checked. Whether it is there then shows
    when it is called."""
    subprocess.run([FIND_PROGRAM, "--built", command], stdin=subprocess.DEVNULL, capture_output=True)
