"""What was seen, and its table in docs/internals/MEASUREMENTS.md."""
from __future__ import annotations

from typing import Sequence

from check.faults.calls import FAILING, Clean
from shared.tables import markdown
from shared.tally import Tally

HEADS = [
    "command",
    "calls",
    "faults",
    "done all the same",
    "reported",
    "memory refused",
    "kills",
    "old bytes after",
    "new bytes after",
    "wrong",
]
SEEN = ["faults", "survived", "told", "refusals", "wanting", "kills", "old", "new", "wrong"]


class FaultTally(Tally):
    """What passed and what failed, and for the table how often what was seen, for each case."""

    def __init__(self) -> None:
        super().__init__()
        self.seen: dict[tuple[str, str], int] = {}
        self.kinds: dict[str, list[bool]] = {}

    def note(self, what: str, wrong: Sequence[str] = (), kind: str = "") -> None:
        super().note(what, wrong)
        with self.lock:
            self.kinds.setdefault(kind, []).append(not wrong)

    def count(self, case: str, what: str) -> None:
        with self.lock:
            self.seen[case, what] = self.seen.get((case, what), 0) + 1


def row_of(name: str, clean: Clean, tally: FaultTally) -> list[str]:
    """The row of a case."""
    files = sum(1 for call in clean.calls if call.name in FAILING)
    faults, survived, told, refusals, wanting, kills, old, new, wrong = (str(tally.seen.get((name, what), 0)) for what in SEEN)
    held_after = [old, new] if any(call.part == "save" for call in clean.calls) else ["", ""]
    calls = f"{len(clean.calls)}, {files} of files"
    return [f"`{name}`", calls, faults, survived, told, f"{refusals}, {wanting} reported", kills, *held_after, wrong]


def table(cleans: dict[str, Clean], tally: FaultTally) -> str:
    cases = markdown(HEADS, [row_of(name, clean, tally) for name, clean in cleans.items()])
    besides = [[kind, str(len(ends)), str(sum(ends))] for kind, ends in sorted(tally.kinds.items()) if kind]
    all_cases = f"In all {tally.passed} cases passed, {tally.failed} failed, and {len(tally.left_out)} kinds of cases were left out.\n"
    return "\n".join([cases, markdown(["also", "cases", "passed"], besides), all_cases])
