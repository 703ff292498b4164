"""The commands that are tried, and their runs without a fault."""
from __future__ import annotations

import os

from check.faults.calls import Clean, calls_of, demands_of, numbered_calls, wrong_order, wrong_reads
from check.faults.rules import held, wrong_files, wrong_status
from check.faults.running import Case, Place, run, traced
from check.faults.table import FaultTally

QUERY = b"input x; emit sum(x[t-3:t]) over (0, 12];\n"
FIRST = b"start,end,value\n0,5,7\n"
LATER = b"start,end,value\n6,8,9\n8,12,-3\n"
START = ["start", "q", "x=x", "--upto", "6", "--save"]


def cases_of(program: str) -> list[Case]:
    """The commands, and the files of each. The checkpoint is the one that a first session saves."""
    series = FIRST + LATER.split(b"\n", 1)[1]
    two = b"input x; input y; emit x - ifnull(y, 0) over (0, 12];\n"
    long = b"start,end,value\n" + b"".join(b"%d,%d,%d\n" % (i, i + 1, 10**11 + i) for i in range(3000))
    sessions = {"q": QUERY, "x": FIRST}
    with Place(Case("", [], sessions)) as folder:
        state = run([program, *START, "state"], folder).files["state"][1]
        code = run([program, "compile", "q"], folder).out
    resumed = {"state": state, "x": LATER}
    return [
        Case("run", ["run", "q", "x=x", "y=y"], {"q": two, "x": series, "y": FIRST}),
        Case("run, 87 KB", ["run", "q", "x=x"], {"q": b"input x; emit x over (0, 3000];\n", "x": long}),
        Case("run --cut", ["run", "q", "x=x", "--cut", "6"], {"q": QUERY, "x": series}),
        Case("start", [*START, "state"], sessions, "state"),
        Case("start, over an old file", [*START, "state"], {**sessions, "state": b"an old file\n"}, "state"),
        Case("resume", ["resume", "state", "x=x", "--upto", "9", "--save", "state"], resumed, "state"),
        Case("resume, through a link", ["resume", "link", "x=x", "--upto", "9", "--save", "link"], resumed, "state", link="link"),
        Case("resume --end", ["resume", "state", "x=x", "--end"], resumed),
        Case("compile", ["compile", "q"], {"q": QUERY}),
        Case("exec", ["exec", "code", "x=x"], {"code": code, "x": series}),
        Case("pipe", ["pipe", "q", "x=x"], {"q": QUERY, "x": series}),
        Case("watch", ["watch", "q", "x=x"], {"q": QUERY, "x": series}),
        Case("parts", ["parts", "q", "x=x", "--at", "6"], {"q": QUERY, "x": series}),
        Case("flow", ["flow", "p", "x=x"], {"p": b"from x; window sum 3; emit over (0, 12];\n", "x": series}),
        Case("fix", ["fix", "q", "x=x", "--edits", "e"], {"q": QUERY, "x": series, "e": b"remove x 0,5\nadd x 1,4,6\n"}),
        Case(
            "run, refused",
            ["run", "q", "x=x"],
            {"q": b"input x; emit y over (0, 12];\n", "x": series},
            None,
            1,
            b"tilt: 27 statement 2: unknown name\n",
        ),
    ]


def clean_run(case: Case, program: str, tally: FaultTally, tracing: bool) -> Clean | None:
    """The run without faults, which has to go well; it is looked at too whether reads end at the end, and what is synced."""
    command = [program, *case.words]
    with Place(case) as folder:
        end = traced(command, folder, ["-y"]) if tracing else run(command, folder)
        wrong = wrong_status(end, case.status, case.told) or wrong_files(case, end, None)
        if not wrong and case.saves and held(case, end) is None:
            wrong = ["nothing is saved"]
        numbered = [] if wrong or not tracing else numbered_calls(end.trace)
        calls = calls_of(case, os.path.realpath(folder), numbered) if numbered else []
        demands = demands_of(case, numbered) if numbered else []
    tally.note(f"{case.name} without a fault", wrong)
    if wrong:
        return None
    if tracing:
        tally.note(f"{case.name}: each file is read to its end, and no further", wrong_reads(calls))
    if tracing and case.saves:
        tally.note(f"{case.name}: what is saved is synced before it has the name", wrong_order(calls))
    return Clean(end.out, held(case, end), calls, demands)
