#!/usr/bin/env python3
"""Compares each released program with the one that was built from the proved sources, byte by byte, if it was built from these sources.

The SHA-256 in release/COMMAND.toml always has to be that of release/COMMAND. If the sources are others than those of the release, or the
program hasn't been released yet, there is nothing to compare: that is printed, and is no failure. The last line is 'N passed, M failed',
and the status is 1 if one failed."""
from __future__ import annotations

import hashlib
import os
import subprocess
import sys
import tomllib

sys.path.insert(0, os.path.dirname(os.path.dirname(os.path.realpath(__file__))))

from shared.paths import FIND_PROGRAM, TOOLS, TOP
from shared.program import crates_of_programs
from shared.tally import Tally


def content(path: str) -> bytes:
    with open(path, "rb") as file:
        return file.read()


def printed(*command: str) -> str:
    return subprocess.run(command, check=True, stdin=subprocess.DEVNULL, capture_output=True, text=True).stdout.strip()


def logic_of(toolchain: str) -> str:
    """The sum of the logic that a toolchain proves by. Kits of several names have the same one."""
    return toolchain.partition(" logic ")[2]


def compare(command: str, description: dict[str, str], tally: Tally) -> None:
    """The released program of a command, beside the one that was built."""
    released = content(os.path.join(TOP, "release", command))
    digest = hashlib.sha256(released).hexdigest()
    tally.expect(digest == description["program"], f"release/{command} has the SHA-256 {digest}")
    sources = printed(os.path.join(TOOLS, "package", "sources"), command)
    if sources != description["sources"]:
        print(f"release/{command} ({description['version']}) was built from other sources: not compared")
        return
    built = content(printed(FIND_PROGRAM, "--built", command))
    tally.expect(built == released, f"release/{command} isn't the program that was built from these sources")
    toolchain = printed("rt", "version")
    tally.expect(logic_of(toolchain) == logic_of(description["toolchain"]), f"the toolchain is {toolchain}")


def main() -> int:
    tally = Tally()
    for command in crates_of_programs():
        described = os.path.join(TOP, "release", f"{command}.toml")
        if os.path.exists(described):
            compare(command, tomllib.loads(content(described).decode()), tally)
        else:
            print(f"{command} hasn't been released yet: not compared")
    return tally.end()


if __name__ == "__main__":
    sys.exit(main())
