"""The list of crates: each has a folder, and is listed with the libraries that its code, definitions or proofs name, and with no others."""
from __future__ import annotations

import glob
import os
import re

from shared.crates import libraries_of_crates
from shared.tally import Tally

# Libraries that a crate is listed with though it names nothing of them, and whether it is proved without them. They go with the next change
# of crates.txt, since each of those makes the release out of date. One that is named, or isn't listed any more, is a failure here.
PROVED, UNTRIED = "proved without it", "not tried without it"
UNNAMED: dict[str, dict[str, str]] = {}
# How code names a library, and how definitions and proofs do.
NAMED = re.compile(r"\b(?:Rattle\.(\w+)\.|(\w+)::|use (\w+)(?:;| as ))")
COMMENTS = {".rt": "//", ".antt": "--"}


def files_of(top: str, crate: str) -> list[str]:
    """The code, the definitions and the proofs of a crate."""
    parts = [glob.glob(os.path.join(top, "crates", crate, part, "**", "*.*"), recursive=True) for part in ("src", "specs", "proofs")]
    return sorted(path for paths in parts for path in paths if os.path.splitext(path)[1] in COMMENTS)


def named_by(top: str, crate: str) -> dict[str, str]:
    """What a crate names that may be a library, and where it does so first."""
    found: dict[str, str] = {}
    for path in files_of(top, crate):
        with open(path, encoding="utf-8") as file:
            for number, line in enumerate(file, 1):
                for names in NAMED.findall(line.partition(COMMENTS[os.path.splitext(path)[1]])[0]):
                    found.setdefault("".join(names), f"{os.path.relpath(path, top)}:{number}")
    return found


def lines_in_list(top: str) -> dict[str, int]:
    """The number of each crate's line."""
    with open(os.path.join(top, "crates.txt"), encoding="utf-8") as file:
        return {line.partition(":")[0].strip(): number for number, line in enumerate(file, 1)}


def check_listed(top: str, tally: Tally, unnamed: dict[str, dict[str, str]] | None = None) -> None:
    unnamed = UNNAMED if unnamed is None else unnamed
    libraries, lines = libraries_of_crates(top), lines_in_list(top)
    known = {library for listed in libraries.values() for library in listed} | set(libraries)
    for crate, listed in libraries.items():
        place = f"crates.txt:{lines[crate]}: {crate}"
        there = os.path.isdir(os.path.join(top, "crates", crate, "src"))
        tally.expect(there, f"{place} has no folder")
        named = {name: where for name, where in named_by(top, crate).items() if name in known and name != crate}
        excused = unnamed.get(crate, {})
        for library in listed:
            tally.expect(library in named or library in excused, f"{place} is listed with {library}, and names nothing of it")
        for library, where in named.items():
            tally.expect(library in listed, f"{where}: {crate} names {library}, and isn't listed with it in crates.txt")
        for library in excused:
            kept = library in listed and library not in named
            tally.expect(kept, f"{place} needs no exception for {library} (UNNAMED in tools/check/tree/listed.py)")
    for folder in sorted(os.listdir(os.path.join(top, "crates"))):
        tally.expect(folder in libraries, f"crates/{folder}:1: it isn't listed in crates.txt")
