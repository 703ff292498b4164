"""What has to be left after a run, by the rules of docs/ERRORS.md and docs/COMMANDS.md."""
from __future__ import annotations

import stat

from check.faults.calls import AGAIN, WRITES, Call, Clean
from check.faults.running import SECONDS, Case, End


def wrong_status(end: End, status: int | None, told: bytes) -> list[str]:
    wrong = []
    if end.status is None:
        return [f"it doesn't end in {SECONDS} seconds"]
    if end.status != status:
        wrong.append(f"status {end.status}, wanted {status}")
    if end.err != told:
        wrong.append(f"error {end.err[:200]!r}, wanted {told!r}")
    return wrong


def wrong_files(case: Case, end: End, clean: Clean | None, beside: int = 0) -> list[str]:
    """No file has changed but the one that is saved, which holds the old bytes or the new ones; so many new ones may be beside."""
    wrong = []
    for name, given in case.files.items():
        if name not in end.files:
            wrong.append(f"{name} is gone")
        elif stat.S_IMODE(end.files[name][0]) != 0o640:
            wrong.append(f"{name} has another mode: {end.files[name][0]:o}")
        elif name != case.saves and end.files[name][1] != given:
            wrong.append(f"{name} has changed")
    if clean and case.saves and case.saves in end.files:
        held = end.files[case.saves][1]
        if held not in (case.old, clean.saved):
            wrong.append(f"{case.saves} holds neither the old bytes nor the new ones, but {len(held)}: {held[:60]!r}")
    if case.link and not stat.S_ISLNK(end.files.get(case.link, (0, b""))[0]):
        wrong.append(f"{case.link} is no link any more")
    new = [name for name in end.files if name not in case.read_names and name != case.saves]
    if len(new) > beside:
        wrong.append(f"left beside: {new}")
    return wrong


def held(case: Case, end: End) -> bytes | None:
    return end.files[case.saves][1] if case.saves and case.saves in end.files else None


def is_prefix(case: Case, end: End, clean: Clean) -> bool:
    return clean.out.startswith(end.out)


def answers_of(case: Case, call: Call, error: str, stays: bool) -> list[tuple[int, bytes]]:
    """The statuses and lines that a fault of the call may have: where the call may fail without harm, status 0 too; and where later
    calls of its kind fail as well, those of all that comes after it."""
    well = (case.status, case.told)
    if error == "EINTR" and call.name in AGAIN or call.part == "err":
        return [well]
    reads = [(3, b"tilt: 4 read fault: %s\n" % name.encode()) for name in case.read_names if call.part == name or not call.strict]
    write = [(4, b"tilt: 5 write fault\n")]
    save = [(6, b"tilt: 6 save fault: %s\n" % case.save_name.encode())]
    of_parts: dict[str, list[tuple[int, bytes]]] = {"": [], "out": write, "save": save, "folder": save}
    faults = of_parts.get(call.part, reads)
    if call.strict:
        return faults
    return [well, *reads, *write, *save] if stays else [well, *faults]


def wrong_end(case: Case, clean: Clean, call: Call, error: str, end: End, stays: bool) -> list[str]:
    """What a run with a fault leaves against the rules."""
    if end.status is None:
        return [f"it doesn't end in {SECONDS} seconds"]
    if "(INJECTED)" not in end.trace:
        return ["the fault didn't come"]
    wrong = wrong_files(case, end, clean)
    answers = answers_of(case, call, error, stays)
    line_fails = call.part == "err" and error != "EINTR" or stays and call.name in WRITES
    fits = [
        (status, told) for status, told in answers if status == end.status and (told == end.err or line_fails and told.startswith(end.err))
    ]
    if not fits:
        wrong.append(f"status {end.status} and {end.err[:100]!r}, wanted one of {answers}")
    if not is_prefix(case, end, clean):
        wrong.append(f"{end.out[:100]!r} is no prefix of the output")
    if end.status in (0, 6) and end.out != clean.out:
        wrong.append(f"status {end.status} without the whole output")
    if end.status in (1, 2, 3) and end.out:
        wrong.append(f"status {end.status} with output")
    if case.saves and end.status == 0 and held(case, end) != clean.saved:
        wrong.append("status 0, and the new bytes aren't saved")
    if case.saves and end.status not in (0, 6) and held(case, end) != case.old:
        wrong.append(f"status {end.status}, and the name doesn't hold what it held")
    return wrong
