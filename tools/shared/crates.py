"""The crates of the repository, as crates.txt has them."""
from __future__ import annotations

import os

from shared.paths import TOP


def lines_of_crates(top: str = TOP) -> dict[str, str]:
    """The line of each crate, without its comment."""
    with open(os.path.join(top, "crates.txt"), encoding="utf-8") as file:
        lines = [line.partition("#")[0].strip() for line in file]
    return {line.partition(":")[0].strip(): line for line in lines if line}


def libraries_of_crates(top: str = TOP) -> dict[str, list[str]]:
    """The libraries that each crate is listed with: those of the repository and others, in the order of its line."""
    return {name: line.partition(":")[2].split() for name, line in lines_of_crates(top).items()}


def crates_below(top: str = TOP) -> dict[str, list[str]]:
    """The crates of the repository that each crate is listed with."""
    libraries = libraries_of_crates(top)
    return {name: [library for library in used if library in libraries] for name, used in libraries.items()}
