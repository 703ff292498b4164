#!/usr/bin/env python3
"""Compares what `crates/tilt_zones` says of local times with Python's `zoneinfo`: `tools/check/zones.py [--program PATH] [--seed N]
[TIMES]`.

Both read the files of the system's time zone database; of files with the same bytes, one is taken. For each zone it looks for the
transitions from 1970 to 2037. It asks for the local times a second before, at and after both edges of the clocks' change, and for the
moments around it. Random local times come on top. A local time is shown at a moment if `zoneinfo` shows it there: of the moments of its
two folds, those whose local time is the one that was asked for. If there is none, a fold still gives the moment that `zoneinfo` gives.
Nothing here knows how the program searches.

The last line is 'N passed, M failed', and the status is 1 where one failed."""
from __future__ import annotations

import argparse
import collections
import dataclasses
import datetime
import os
import random
import subprocess
import sys
import zoneinfo
from typing import Iterator, Sequence

sys.path.insert(0, os.path.dirname(os.path.dirname(os.path.realpath(__file__))))

from shared.paths import TOP
from shared.tally import Tally

PROGRAM = os.path.join(TOP, "crates", "tilt_run_zones", "out", "tilt_run_zones")
SEED = 29
TIMES = 100_000
SECONDS = 600
UTC = datetime.timezone.utc
EPOCH = datetime.datetime(1970, 1, 1, tzinfo=UTC)
SECOND = datetime.timedelta(seconds=1)
# From 1970-01-01 to 2037-12-31, in which transitions are looked for in steps of so many seconds, and random local times are drawn.
FIRST, END = 0, 2145916800
STEP = 3 * 24 * 3600
# Random local times are also drawn from the years that dates have, except for the first and the last one.
FARTHEST_FIRST, FARTHEST_END = -62104060800, 253370764800


# What Python says


def offset_at(zone: zoneinfo.ZoneInfo, moment: int) -> int:
    """How far clocks are ahead of UTC at a moment, in seconds."""
    offset = datetime.datetime.fromtimestamp(moment, zone).utcoffset()
    assert offset is not None
    return offset // SECOND


def local_at(zone: zoneinfo.ZoneInfo, moment: int) -> int:
    """The local time in seconds that clocks show at a moment."""
    return moment + offset_at(zone, moment)


def moments_by_fold(zone: zoneinfo.ZoneInfo, local: int) -> list[int]:
    """The moments of a local time with the first fold and with the second one."""
    shown = (EPOCH + datetime.timedelta(seconds=local)).replace(tzinfo=zone)
    offsets = [shown.replace(fold=fold).utcoffset() for fold in (0, 1)]
    return [local - offset // SECOND for offset in offsets if offset is not None]


def moments_of(zone: zoneinfo.ZoneInfo, local: int) -> list[int]:
    """The moments at which clocks show a local time, in order."""
    return sorted(moment for moment in set(moments_by_fold(zone, local)) if local_at(zone, moment) == local)


def answer_to_local(zone: zoneinfo.ZoneInfo, local: int) -> str:
    moments = moments_of(zone, local)
    if not moments:
        return "skipped skipped skipped"
    return f"{moments[0] if len(moments) == 1 else 'doubled'} {moments[0]} {moments[-1]}"


def answer_to_taken(zone: zoneinfo.ZoneInfo, local: int) -> str:
    if moments_of(zone, local):
        return answer_to_local(zone, local)
    first, second = moments_by_fold(zone, local)
    return f"skipped {first} {second}"


def transitions_of(zone: zoneinfo.ZoneInfo) -> Iterator[int]:
    """The moments at which the offset changes, from 1970 to 2037: the first one with the new offset. Changes in one step that undo each
    other are missed."""
    last = offset_at(zone, FIRST)
    for start in range(FIRST, END, STEP):
        low, high, next = start, start + STEP, offset_at(zone, start + STEP)
        if next == last:
            continue
        while high - low > 1:
            middle = (low + high) // 2
            if offset_at(zone, middle) == last:
                low = middle
            else:
                high = middle
        yield high
        last = next


# What is asked


@dataclasses.dataclass
class Questions:
    """Lines for the program, and what it has to print for each."""

    lines: list[str] = dataclasses.field(default_factory=list)
    wanted: list[str] = dataclasses.field(default_factory=list)
    changes: int = 0

    def read(self, path: str) -> None:
        self.lines.append(f"zone {path}")
        self.wanted.append("read")

    def ask_local(self, zone: zoneinfo.ZoneInfo, local: int) -> None:
        self.lines.append(f"local {local}")
        self.wanted.append(answer_to_local(zone, local))
        self.lines.append(f"taken {local}")
        self.wanted.append(answer_to_taken(zone, local))

    def ask_moment(self, zone: zoneinfo.ZoneInfo, moment: int) -> None:
        self.lines.append(f"moment {moment}")
        self.wanted.append(str(local_at(zone, moment)))

    def ask_around(self, zone: zoneinfo.ZoneInfo, moment: int) -> None:
        """Asks around a transition: at both ends of what clocks skip or show twice, and before and after it."""
        self.changes += 1
        before, after = local_at(zone, moment - 1) + 1, local_at(zone, moment)
        for edge in (before, after):
            for near in (-1, 0, 1):
                self.ask_local(zone, edge + near)
        for near in (-1, 0, 1):
            self.ask_moment(zone, moment + near)


def path_of(name: str) -> str | None:
    """The file that `zoneinfo` reads for a zone."""
    paths = (os.path.join(folder, name) for folder in zoneinfo.TZPATH)
    return next((path for path in paths if os.path.isfile(path)), None)


def zones_of(tally: Tally) -> dict[str, str]:
    """A zone of each file that differs from the others, by its name, and the path of its file."""
    zones: dict[bytes, tuple[str, str]] = {}
    for name in sorted(zoneinfo.available_timezones()):
        path = path_of(name)
        if path is None:
            tally.left_out.append(f"{name}, which has no file of its own")
            continue
        with open(path, "rb") as file:
            zones.setdefault(file.read(), (name, path))
    return dict(zones.values())


def questions_of(draw: random.Random, times: int, tally: Tally) -> Questions:
    questions = Questions()
    zones = zones_of(tally)
    counts = collections.Counter(draw.choices(list(zones), k=times) if zones else [])
    for name, path in zones.items():
        zone = zoneinfo.ZoneInfo(name)
        questions.read(path)
        for moment in transitions_of(zone):
            questions.ask_around(zone, moment)
        for place in range(counts[name]):
            near = place % 4 != 0
            questions.ask_local(zone, draw.randrange(FIRST if near else FARTHEST_FIRST, END if near else FARTHEST_END))
    return questions


def main(arguments: Sequence[str]) -> int:
    words = argparse.ArgumentParser(description="Compares local times of zones with Python's.")
    words.add_argument("times", nargs="?", type=int, default=TIMES, help="how many random local times")
    words.add_argument("--program", default=PROGRAM, help="the program that is run")
    words.add_argument("--seed", type=int, default=SEED, help="from which the local times are drawn")
    chosen = words.parse_args(arguments)
    tally = Tally()
    if not os.access(chosen.program, os.X_OK):
        tally.expect(False, f"{chosen.program} isn't built")
        return tally.end()
    questions = questions_of(random.Random(chosen.seed), chosen.times, tally)
    tally.expect(questions.changes > 0, "no zone has a transition: is the system's time zone database there?")
    text = "".join(f"{line}\n" for line in questions.lines)
    done = subprocess.run([chosen.program], input=text.encode(), capture_output=True, timeout=SECONDS)
    printed = done.stdout.decode().splitlines()
    tally.expect(done.returncode == 0, f"status {done.returncode}: {done.stderr.decode()}")
    tally.expect(len(printed) == len(questions.wanted), f"{len(printed)} answers to {len(questions.wanted)} questions")
    path = ""
    for line, wanted, got in zip(questions.lines, questions.wanted, printed):
        path = line if line.startswith("zone") else path
        tally.expect(got == wanted, f"{path}: {line}: wanted {wanted}, printed {got}")
    print(f"transitions: {questions.changes}, questions: {len(questions.lines)}")
    return tally.end()


if __name__ == "__main__":
    sys.exit(main(sys.argv[1:]))
