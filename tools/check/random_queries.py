#!/usr/bin/env python3
"""Runs random pipelines and random corrections on the built program, with fusion and without, from a fixed seed.

What `tilt flow` prints is compared with the definition by lists, which `tools/check/evaluate.py --flow` works out. What `tilt fix` prints
is compared with what `tilt run` and `tools/check/evaluate.py` give on the rows that are corrected here, and its lines `reached ..` with how
far the query looks by `tilt explain`; where a correction is refused, with the line that has to be told. The last line is 'N passed, M
failed', and the status is 1 where one failed."""
from __future__ import annotations

import os
import random
import subprocess
import sys
import tempfile
from typing import Iterable, Sequence

sys.path.insert(0, os.path.dirname(os.path.dirname(os.path.realpath(__file__))))

from shared.paths import BUILT, EVALUATE
from shared.program import build_program
from shared.series import Row, field, put_rows
from shared.tally import Tally

SEED = 20
PIPELINES = 300
CORRECTIONS = 300

Inputs = dict[str, list[Row]]
Edit = tuple[str, str, Row]
Needs = dict[str, "tuple[int, int] | None"]
End = tuple[int, bytes, bytes]

REDUCERS = ["sum", "avg", "min", "max", "count", "first", "last"]


def called(folder: str, *words: str) -> End:
    done = subprocess.run(words, cwd=folder, stdin=subprocess.DEVNULL, capture_output=True, timeout=120)
    return done.returncode, done.stdout, done.stderr


def tilt(folder: str, *words: str) -> End:
    return called(folder, BUILT, *words)


def put(folder: str, name: str, text: str) -> None:
    with open(os.path.join(folder, name), "w", encoding="utf-8") as file:
        file.write(text)


# What is drawn


def random_value(draw: random.Random) -> int | None:
    return None if draw.random() < 0.15 else draw.randint(-9, 9)


def random_rows(draw: random.Random, most: int) -> list[Row]:
    """Rows in order, some of which touch, some of which are null; sometimes none."""
    rows, at = [], draw.randint(-9, 0)
    for _ in range(0 if draw.random() < 0.1 else draw.randint(2, most)):
        at += draw.choice([0, 0, 0, 1, 2, 5])
        end = at + draw.choice([1, 1, 2, 3, 7])
        rows.append((at, end, random_value(draw)))
        at = end
    return rows


def random_span(draw: random.Random, period: int = 1, offset: int = 0) -> str:
    """A span that begins and ends at points of a grid."""
    start = offset + period * draw.randint(-8 // period, 4 // period)
    return f"({start}, {start + period * draw.choice([1, 5, 12, 30, 30])}]"


def random_number(draw: random.Random, names: Sequence[str]) -> str:
    """An expression of numbers over names."""
    name = draw.choice(names)
    return draw.choice(
        [
            name,
            f"{name} + {draw.choice(names)}",
            f"{name} * 2 - {draw.choice(names)}",
            f"{name} / {draw.choice([2, 3, 7])}",
            f"ifnull({name}, {draw.choice([0, 5])})",
            f"{name} when {name} > {draw.randint(-5, 5)}",
            str(draw.randint(-9, 9)) if draw.random() < 0.5 else f"-{name}",
        ]
    )


def random_test(draw: random.Random, names: Sequence[str]) -> str:
    name = draw.choice(names)
    return draw.choice(
        [
            f"{name} > {draw.randint(-9, 3)}",
            f"not {name} == {draw.randint(-3, 3)}",
            f"{name} <= {draw.randint(0, 9)} and {name} >= -7",
            f"{name} > {draw.choice([-100, -50, 100])}",
        ]
    )


def random_step(draw: random.Random) -> str:
    kind = draw.choice(["select", "where", "shift", "window", "join"])
    if kind == "select":
        return f"select {random_number(draw, ['v'])};"
    if kind == "where":
        return f"where {random_test(draw, ['v'])};"
    if kind == "shift":
        return f"shift {draw.choice([-3, -1, 0, 1, 2, 9, draw.choice([-40, 40])])};"
    if kind == "window":
        return f"window {draw.choice(REDUCERS)} {draw.choice([1, 2, 3, 5, 40])};"
    return f"join {draw.choice(['x', 'y'])} {random_number(draw, ['v', 'w'])};"


def random_pipeline(draw: random.Random) -> str:
    steps = [random_step(draw) for _ in range(draw.randint(0, 6))]
    return " ".join(["from x;", *steps, f"emit over {random_span(draw)};"])


def random_body(draw: random.Random, names: Sequence[str]) -> str:
    """An expression of numbers over sources, with shifts and windows."""
    name = draw.choice(names)
    low, high = sorted(draw.sample(range(-6, 5), 2))
    return draw.choice(
        [
            random_number(draw, names),
            f"{name}[t{draw.choice(['-1', '-4', '+1', '+3'])}]",
            f"{draw.choice(REDUCERS)}({name}[t{low:+d}:t{high:+d}])".replace("+0", "").replace("-0", ""),
            f"{draw.choice(REDUCERS)}({name}[t-{draw.choice([1, 3, 8])}:t])",
        ]
    )


def random_query(draw: random.Random) -> str:
    lines, names = ["input x;", "input y;"], ["x", "y"]
    for number in range(draw.randint(0, 3)):
        every, period, offset = draw.choice([*[("", 1, 0)] * 3, (" every 2", 2, 0), (" every 5 from 2", 5, 2)])
        over = f" over {random_span(draw, period, offset)}" if draw.random() < 0.2 else ""
        lines.append(f"let d{number} = {random_body(draw, names)}{over}{every};")
        names.append(f"d{number}")
    every, period, offset = draw.choice([*[("", 1, 0)] * 2, (" every 3", 3, 0), (" every 4 from 1", 4, 1)])
    lines.append(f"emit {random_body(draw, names[-2:])} over {random_span(draw, period, offset)}{every};")
    return " ".join(lines)


# Corrections, done here


def meet(row: Row, other: Row) -> bool:
    return row[0] < other[1] and other[0] < row[1]


def random_edit(draw: random.Random, inputs: Inputs) -> Edit:
    """An edit: its word, the name of its input, and a row, which may be another than those that are there."""
    name = draw.choice(["x", "y"])
    rows = inputs[name]
    if rows and draw.random() < 0.7:
        start, end, _ = draw.choice(rows)
        return draw.choice(["remove", "set", "set"]), name, (start, end, random_value(draw))
    start = draw.randint(-8, 25)
    word = "add" if draw.random() < 0.9 else draw.choice(["remove", "set"])
    return word, name, (start, start + draw.choice([1, 1, 2, 4]), random_value(draw))


def line_of(edit: Edit) -> str:
    word, name, (start, end, value) = edit
    return f"{word} {name} {start},{end}\n" if word == "remove" else f"{word} {name} {start},{end},{field(value)}\n"


def refusal_of(edit: Edit, inputs: Inputs) -> str | None:
    """The line that is told of an edit that can't be done, or None."""
    word, name, row = edit
    if word == "add":
        in_the_way = [other for other in inputs[name] if meet(row, other)]
        return f"61 overlaps {in_the_way[0][0]},{in_the_way[0][1]},{field(in_the_way[0][2])}" if in_the_way else None
    return None if any(other[:2] == row[:2] for other in inputs[name]) else "60 no such row"


def done(edit: Edit, inputs: Inputs) -> Inputs:
    """The rows after an edit."""
    word, name, row = edit
    rows = [other for other in inputs[name] if other[:2] != row[:2]]
    return {**inputs, name: sorted(rows if word == "remove" else [*rows, row], key=lambda row: row[:2])}


def needs_of(folder: str) -> Needs:
    """How far each input is looked at, back and ahead; None where it isn't used."""
    _, out, _ = tilt(folder, "explain", "q")
    lines = [line.split() for line in out.decode().splitlines() if line.startswith("input ")]
    return {name: None if rest == ["unused"] else (int(rest[0]), int(rest[1])) for _, name, *rest in lines}


def reached_line(edit: Edit, needs: Needs, domain: tuple[int, int]) -> str:
    _, name, (start, end, _) = edit
    need = needs[name]
    if need is None:
        return "reached none\n"
    back, ahead = need
    lo, hi = max(domain[0], start - ahead), min(domain[1], end + back + 1)
    return f"reached {lo} {hi}\n" if lo < hi else "reached none\n"


def domain_of(query: str) -> tuple[int, int]:
    start, end = query.rsplit("over (", 1)[1].split("]")[0].split(", ")
    return int(start), int(end)


# The checks


def pipeline_differs(draw: random.Random, folder: str) -> str | None:
    """What is wrong with a pipeline, or None."""
    pipeline = random_pipeline(draw)
    put(folder, "p", pipeline)
    for name in ("x", "y"):
        put_rows(os.path.join(folder, name), random_rows(draw, 12))
    binds = ["x=x", "y=y"] if "join y" in pipeline else ["x=x"]
    wanted = called(folder, EVALUATE, "--flow", "p", *binds)
    for plain in ((), ("--plain",)):
        found = tilt(folder, "flow", "p", *binds, *plain)
        if wanted[0] != 0 or found != (0, wanted[1], b""):
            return f"{pipeline} {plain}: {found}, wanted {wanted}"
    return None


def wanted_of(folder: str, query: str, edits: Iterable[Edit], inputs: Inputs) -> End:
    """What `fix` has to end with: status, output, and what it tells."""
    needs, lines = needs_of(folder), ""
    for edit in edits:
        refusal = refusal_of(edit, inputs)
        if refusal:
            return 1, b"", f"tilt: {refusal}\n".encode()
        inputs = done(edit, inputs)
        lines += reached_line(edit, needs, domain_of(query))
    for name, rows in inputs.items():
        put_rows(os.path.join(folder, f"{name}2"), rows)
    status, out, told = tilt(folder, "run", "q", "x=x2", "y=y2")
    if called(folder, EVALUATE, "q", "x=x2", "y=y2")[:2] != (0, out):
        return 1, b"", b"run and evaluate differ"
    return status, out + lines.encode(), told


def correction_differs(draw: random.Random, folder: str) -> str | None:
    """What is wrong with corrections of the rows of a query, or None."""
    query = random_query(draw)
    inputs = {"x": random_rows(draw, 12), "y": random_rows(draw, 12)}
    edits, now = [], inputs
    for _ in range(draw.randint(1, 6)):
        edit = random_edit(draw, now)
        if refusal_of(edit, now) and draw.random() < 0.8:
            continue
        edits.append(edit)
        if refusal_of(edit, now):
            break
        now = done(edit, now)
    put(folder, "q", query)
    for name, rows in inputs.items():
        put_rows(os.path.join(folder, name), rows)
    put(folder, "e", "".join(map(line_of, edits)))
    wanted = wanted_of(folder, query, edits, inputs)
    for plain in ((), ("--plain",)):
        found = tilt(folder, "fix", "q", "x=x", "y=y", "--edits", "e", *plain)
        if found != wanted:
            return f"{query} {inputs} {edits} {plain}: {found}, wanted {wanted}"
    return None


def main() -> int:
    build_program()
    draw = random.Random(SEED)
    tally = Tally()
    for check, count in ((pipeline_differs, PIPELINES), (correction_differs, CORRECTIONS)):
        for _ in range(count):
            with tempfile.TemporaryDirectory() as folder:
                wrong = check(draw, folder)
            tally.expect(wrong is None, (wrong or "")[:1000])
    return tally.end()


if __name__ == "__main__":
    sys.exit(main())
