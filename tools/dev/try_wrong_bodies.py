#!/usr/bin/env python3
"""Tries wrong bodies: the edits of crates/NAME/wrong-bodies, each of which the check of the crate NAME has to refuse. The merge gate
tries those of must-fail alone; these are for whoever changes what a crate promises. The words are NAME [NAME ..].

They are tried in a copy of the checkout as it stands, as the only must-fail edits there, and nothing is written into the checkout. What
earlier checks kept in `out` is copied for the crates below those that are named: where it is there and current, none of them is proved
again. What the toolchain says of each edit is printed, and what this script does is told on standard error. The status is 1 where an
edit wasn't refused or couldn't be tried, 2 where a word names no crate or none is given, and else 0, also where there is nothing to try."""
from __future__ import annotations

import os
import shutil
import subprocess
import sys
import tempfile

sys.path.insert(0, os.path.dirname(os.path.dirname(os.path.realpath(__file__))))

from shared.crates import crates_below
from shared.paths import TOP


def tell(text: str) -> None:
    print(f"try_wrong_bodies: {text}", file=sys.stderr, flush=True)


def below(name: str, uses: dict[str, list[str]]) -> set[str]:
    """The crates on which this one stands."""
    return set(uses[name]).union(*(below(library, uses) for library in uses[name]))


def wrong_bodies(name: str) -> list[str]:
    folder = os.path.join(TOP, "crates", name, "wrong-bodies")
    names = os.listdir(folder) if os.path.isdir(folder) else []
    return sorted(os.path.join(folder, edit) for edit in names if edit.endswith(".edit"))


def put_copy(copy: str, names: list[str], uses: dict[str, list[str]]) -> None:
    """All crates without their edits, and what is kept of those below the ones that are named."""
    for file in ("crates.txt", "HANDLES"):
        shutil.copy(os.path.join(TOP, file), copy)
    kept = set().union(*(below(name, uses) for name in names))
    for name in uses:
        crate, to = os.path.join(TOP, "crates", name), os.path.join(copy, "crates", name)
        left_out = {"out", "must-fail", "wrong-bodies"}
        shutil.copytree(crate, to, ignore=lambda folder, _, crate=crate: left_out if folder == crate else ())
        if name in kept and os.path.isdir(os.path.join(crate, "out")):
            subprocess.run(["cp", "-a", "--reflink=auto", os.path.join(crate, "out"), to], check=True)


def are_refused(copy: str, name: str) -> bool:
    """Whether all wrong bodies of the crate are refused."""
    edits = wrong_bodies(name)
    room = os.path.join(copy, "crates", name, "must-fail")
    os.mkdir(room)
    for edit in edits:
        shutil.copy(edit, room)
    tell(f"{name}: wrong bodies to try: {len(edits)}, which are told when all are through")
    done = subprocess.run(["rt", "must-fail", name], cwd=copy, stdin=subprocess.DEVNULL)
    shutil.rmtree(room)
    tell(f"{name}: {'all are' if done.returncode == 0 else 'not all are'} refused")
    return done.returncode == 0


def main() -> int:
    names, uses = list(dict.fromkeys(sys.argv[1:])), crates_below()
    unknown = [name for name in names if name not in uses]
    if unknown or not names:
        tell(f"no crate: {' '.join(unknown)}" if unknown else "the words are NAME [NAME ..]")
        return 2
    for name in names:
        if not wrong_bodies(name):
            tell(f"{name} has no wrong-bodies")
    names = list(filter(wrong_bodies, names))
    if not names:
        return 0
    with tempfile.TemporaryDirectory(prefix="wrong-bodies-") as copy:
        tell(f"the crates are copied to {copy}")
        put_copy(copy, names, uses)
        refused = [are_refused(copy, name) for name in names]
    return 0 if all(refused) else 1


if __name__ == "__main__":
    sys.exit(main())
