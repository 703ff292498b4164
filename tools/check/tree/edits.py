"""The edits that a proof has to refuse: each applies to the code as it stands."""
from __future__ import annotations

import glob
import os
from typing import Iterator

from shared.tally import Tally

FILE, OLD, NEW = "file: ", "old: ", "new:"


class Edited:
    """The files of a crate while an edit is applied to them, pair by pair."""

    def __init__(self, crate: str) -> None:
        self.crate = crate
        self.path = ""
        self.old: str | None = None
        self.texts: dict[str, str] = {}
        self.pairs = 0

    def take(self, line: str) -> str | None:
        """Takes a line of the edit: what is wrong with it, or None."""
        if line.startswith(FILE):
            return self.open(line.removeprefix(FILE).strip())
        if line.startswith(OLD):
            self.old = line.removeprefix(OLD)
            return self.misplaced(self.old)
        if line.startswith(NEW):
            return self.put(line.removeprefix(NEW).removeprefix(" "))
        return "no line `file:`, `old:` or `new:`" if line else None

    def open(self, path: str) -> str | None:
        self.path = path
        full = os.path.join(self.crate, path)
        if not path.startswith("src/") or not os.path.isfile(full):
            return f"there is no file of code {path}"
        if path not in self.texts:
            with open(full, encoding="utf-8") as file:
                self.texts[path] = file.read()
        return None

    def misplaced(self, old: str) -> str | None:
        if not self.path:
            return "no `file:` stands before it"
        found = self.texts[self.path].count(old)
        return None if found == 1 else f"it is in {self.path} {found} times, and not once"

    def put(self, new: str) -> str | None:
        if self.old is None:
            return "no `old:` stands before it"
        if new == self.old:
            return "it changes nothing"
        self.texts[self.path] = self.texts[self.path].replace(self.old, new)
        self.old = None
        self.pairs += 1
        return None


def first_fault(edit: str) -> str | None:
    """Where an edit doesn't apply, as `LINE: what`, or None. Each pair applies to what the pairs before it made."""
    edited = Edited(os.path.dirname(os.path.dirname(edit)))
    with open(edit, encoding="utf-8") as file:
        lines = file.read().split("\n")
    for number, line in enumerate(lines, 1):
        wrong = edited.take(line)
        if wrong is not None:
            return f"{number}: {wrong}"
    if edited.old is not None or not edited.pairs:
        return f"{len(lines)}: a `new:` is missing"
    return None


def edits_of(top: str) -> Iterator[str]:
    for folder in ("must-fail", "wrong-bodies"):
        yield from sorted(glob.glob(os.path.join(top, "crates", "*", folder, "*.edit")))


def check_edits(top: str, tally: Tally) -> None:
    for edit in edits_of(top):
        fault = first_fault(edit)
        tally.expect(fault is None, f"{os.path.relpath(edit, top)}:{fault}")
