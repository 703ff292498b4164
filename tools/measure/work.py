#!/usr/bin/env python3
"""Measures the work of the built program beside programs that are written by hand for one work each.

The works are the queries of bench/. Their series are made here, the same each time. Of each work it is seen first that all programs print
the same bytes. Then the instructions of `tilt run` and of the program in Rust (bench/*.rs, by `rustc -O`) are counted with valgrind's
callgrind; and their time and memory are taken, and the time of awk, sqlite3 and pandas where they are there. At last it is counted how the
work grows with the size of a query: with its readings, with the definitions that read one, and with its definitions.

It isn't part of the gate: it takes some minutes, and it measures. The last line is 'N passed, M failed', and the status is 1 where one
failed, that is, where two programs print other bytes. With --table its tables are put between the marks in
docs/internals/MEASUREMENTS.md."""
from __future__ import annotations

import argparse
import dataclasses
import filecmp
import os
import random
import re
import shutil
import subprocess
import sys
import tempfile
import time
from typing import Callable, Iterator

sys.path.insert(0, os.path.dirname(os.path.dirname(os.path.realpath(__file__))))

from shared.packages import has_module
from shared.paths import BUILT, SYSTEM_PYTHON, TOP
from shared.program import build_program
from shared.tables import markdown, write_table
from shared.tally import Tally

BENCH = os.path.join(TOP, "bench")
PAGE = os.path.join(TOP, "docs", "internals", "MEASUREMENTS.md")
# The program of that name, and not a word of the shell.
TIME = shutil.which("time")
SMALL, LARGE = 25_000, 400_000
SEED = 1
PEERS = ["awk", "sqlite3", "pandas"]
# The options with fusion, and without.


# The works and their series.


def ragged(chance: random.Random, rows: int, gaps: float) -> Iterator[str]:
    """Rows of 1 to 18 ticks; so often there is a gap of 1 to 6 ticks before one."""
    end = 0
    for _ in range(rows):
        start = end + (chance.randint(1, 6) if chance.random() < gaps else 0)
        end = start + chance.randint(1, 18)
        yield f"{start},{end},{chance.randint(-50000, 50000)}\n"


def with_gaps(chance: random.Random, rows: int) -> Iterator[str]:
    return ragged(chance, rows, 0.25)


def touching(chance: random.Random, rows: int) -> Iterator[str]:
    return ragged(chance, rows, 0.0)


def each_tick(chance: random.Random, rows: int) -> Iterator[str]:
    """Rows of one tick, some of which are missing."""
    start = 0
    for _ in range(rows):
        start += chance.random() < 0.03
        yield f"{start},{start + 1},{chance.randint(0, 1000)}\n"
        start += 1


def limits(chance: random.Random, rows: int) -> Iterator[str]:
    """A limit for each thousand ticks."""
    for start in range(0, rows, 1000):
        yield f"{start},{start + 1000},{chance.randint(400, 600)}\n"


Maker = Callable[[random.Random, int], Iterator[str]]


@dataclasses.dataclass(frozen=True)
class Work:
    """A work: the name of its query and of its programs, and how the series of its inputs are made."""

    name: str
    what: str
    inputs: dict[str, Maker]


WORKS = [
    Work("copy", "reading and printing alone", {"x": with_gaps}),
    Work("pointwise", "pointwise: two ragged series, twenty operators", {"x": with_gaps, "y": with_gaps}),
    Work("slide_sum", "slide of a sum, as wide as the series", {"x": touching}),
    Work("slide_max", "slide of a maximum, as wide as the series", {"x": touching}),
    Work("grid", "average of ten on a grid of ten, against a limit", {"x": each_tick, "limit": limits}),
    Work("six", "six definitions with shifts, windows and a join", {"x": with_gaps, "y": with_gaps}),
]


@dataclasses.dataclass
class Laid:
    """A work whose series lie in a folder: their paths, how many rows they have together, and how many bytes."""

    work: Work
    folder: str
    files: dict[str, str]
    rows: int
    size: int

    def query(self) -> str:
        return os.path.join(BENCH, self.work.name + ".tilt")

    def by_program(self, program: str) -> list[str]:
        return [program, "run", self.query(), *(f"{name}={path}" for name, path in self.files.items())]

    def by_hand(self, hand: str) -> list[str]:
        return [hand, self.work.name, *self.files.values()]


def lay(work: Work, rows: int, folder: str) -> Laid:
    files, count, size = {}, 0, 0
    for name, maker in work.inputs.items():
        files[name] = os.path.join(folder, name + ".csv")
        lines = list(maker(random.Random(f"{SEED} {work.name} {name}"), rows))
        with open(files[name], "w", encoding="ascii") as file:
            file.write("start,end,value\n")
            file.writelines(lines)
        count += len(lines)
        size += os.path.getsize(files[name])
    return Laid(work, folder, files, count, size)


# Running.


@dataclasses.dataclass(frozen=True)
class Run:
    """What a run took: seconds of the processor in the program itself, seconds on the clock, and bytes of memory at its peak."""

    user: float
    clock: float
    memory: int


def run(words: list[str], out: str, text: str = "") -> Run:
    """Runs words with a text as their input; they have to end with status 0."""
    figures = out + ".time"
    measured = [TIME, "-f", "%M", "-o", figures] if TIME else []
    with open(out, "wb") as file:
        begin = time.monotonic()
        process = subprocess.Popen([*measured, *words], stdin=subprocess.PIPE, stdout=file)
        assert process.stdin is not None
        process.stdin.write(text.encode())
        process.stdin.close()
        _, ended, usage = os.wait4(process.pid, 0)
        clock = time.monotonic() - begin
    process.returncode = os.waitstatus_to_exitcode(ended)
    if process.returncode != 0:
        raise SystemExit(f"status {process.returncode} of {' '.join(words)}")
    memory = usage.ru_maxrss
    if TIME:
        # A new process begins with the memory of the one that it is a copy of: `time` is a small one.
        with open(figures, encoding="ascii") as file:
            memory = int(file.read().split()[-1])
    return Run(usage.ru_utime, clock, 1024 * memory)


def best(words: list[str], out: str, times: int) -> Run:
    """The run with the least time of some."""
    return min((run(words, out) for _ in range(times)), key=lambda done: done.user)


def instructions(words: list[str], folder: str) -> int:
    """How many instructions the words take from their beginning to their end, by callgrind."""
    counts = os.path.join(folder, "counts")
    run(["valgrind", "-q", "--tool=callgrind", f"--callgrind-out-file={counts}", *words], os.path.join(folder, "counted"))
    with open(counts, encoding="utf-8", errors="replace") as file:
        return max(int(line.split()[1]) for line in file if line.startswith(("summary:", "totals:")))


def by_function(folder: str, first: int) -> str:
    """The first functions of the last count."""
    words = ["callgrind_annotate", "--threshold=100", os.path.join(folder, "counts")]
    told = subprocess.run(words, capture_output=True, encoding="utf-8", errors="replace").stdout.splitlines()
    lines = [line for line in told if re.match(r"\s*[\d,]+ \(", line) and "PROGRAM TOTALS" not in line]
    return "\n".join(re.sub(r" \[[^]]*\]$", "", line)[:160] for line in lines[:first])


def first_line(words: list[str]) -> str:
    """The first line that words print."""
    told = subprocess.run(words, stdin=subprocess.DEVNULL, capture_output=True, encoding="utf-8", errors="replace")
    return (told.stdout or told.stderr).strip().split("\n")[0]


def machine(peers: list[str]) -> str:
    """What it is measured on and by, and the load of the last fifteen minutes."""
    with open("/proc/cpuinfo", encoding="utf-8") as file:
        model = next((line.split(": ")[1].strip() for line in file if line.startswith("model name")), "an unknown processor")
    versions = {
        "awk": ["awk", "-W", "version"],
        "sqlite3": ["sqlite3", "-batch", ":memory:", "select 'SQLite ' || sqlite_version();"],
        "pandas": [SYSTEM_PYTHON, "-c", "import pandas; print('pandas', pandas.__version__)"],
    }
    told = [first_line(["rustc", "--version"]), first_line(["valgrind", "--version"]), *(first_line(versions[peer]) for peer in peers)]
    loads = " ".join(f"{load:.1f}" for load in os.getloadavg())
    return f"{model}, {os.cpu_count()} processors, load {loads}; " + "; ".join(told) + "\n"


def build(folder: str) -> str:
    """The program in Rust."""
    hand = os.path.join(folder, "hand")
    subprocess.run(["rustc", "-O", "--edition", "2024", "-o", hand, os.path.join(BENCH, "main.rs")], check=True)
    return hand


# Peers.


def is_there(peer: str) -> bool:
    if peer == "pandas":
        return has_module("pandas")
    return shutil.which(peer) is not None


def tables_of(laid: Laid) -> str:
    """What sqlite3 has to do before its query, which reads the series, and with it."""
    made = [".mode csv", ".separator , \\n", ".print start,end,value"]
    for name, path in laid.files.items():
        made.append(f'create table "{name}"(start integer primary key, "end" integer, value integer);')
        made.append(f".import --csv --skip 1 {path} {name}")
    return "\n".join([*made, ".separator , \\n", f".read {os.path.join(BENCH, laid.work.name + '.sql')}"]) + "\n"


def by_peer(peer: str, laid: Laid) -> tuple[list[str], str] | None:
    """The words and the input by which a peer does a work, where bench/ has them."""
    files = list(laid.files.values())
    if peer == "pandas":
        return [SYSTEM_PYTHON, os.path.join(BENCH, "peers.py"), laid.work.name, *files], ""
    program = os.path.join(BENCH, laid.work.name + {"awk": ".awk", "sqlite3": ".sql"}[peer])
    if not os.path.exists(program):
        return None
    return (["awk", "-f", program, *files], "") if peer == "awk" else (["sqlite3"], tables_of(laid))


# What is measured of the works.


@dataclasses.dataclass
class Measured:
    """The lines of each table."""

    counted: list[list[str]]
    timed: list[list[str]]
    held: list[list[str]]


def same(laid: Laid, what: str, one: str, other: str, tally: Tally) -> None:
    good = filecmp.cmp(one, other, shallow=False)
    tally.expect(good, f"{laid.work.name}, {laid.rows} rows: {what} prints other bytes than the program")


def measure(work: Work, program: str, hand: str, given: argparse.Namespace, tally: Tally, tables: Measured) -> None:
    counts, memory = [work.what], [work.what]
    for rows in (SMALL, LARGE):
        with tempfile.TemporaryDirectory(prefix="work.") as folder:
            laid = lay(work, rows, folder)
            ours, theirs = laid.by_program(program), laid.by_hand(hand)
            out, other = os.path.join(folder, "out"), os.path.join(folder, "other")
            mine, by_hand = best(ours, out, 3), best(theirs, other, 3)
            same(laid, "the program in Rust", out, other, tally)
            memory += [f"{laid.size / 10**6:.1f} MB", megabytes(by_hand), megabytes(mine)]
            if rows == SMALL or given.large:
                counts += counted(laid, program, hand, given.functions if rows == SMALL else 0)
            if rows == LARGE:
                tables.timed.append(timed(laid, mine, by_hand, given.peers, out, tally))
    tables.counted.append(counts)
    tables.held.append(memory)
    print(" | ".join([*counts, *tables.timed[-1][2:], *memory[1:]]), file=sys.stderr, flush=True)


def megabytes(done: Run) -> str:
    return f"{done.memory / 10**6:.1f} MB"


def counted(laid: Laid, program: str, hand: str, first: int) -> list[str]:
    """Instructions for each row, of the program in Rust and of ours, and how many times more those are."""
    theirs = instructions(laid.by_hand(hand), laid.folder)
    ours = instructions(laid.by_program(program), laid.folder)
    if first > 0:
        print(f"{laid.work.name}, {laid.rows} rows, {ours} instructions, by function:\n{by_function(laid.folder, first)}\n", flush=True)
    return [f"{theirs / laid.rows:,.0f}", f"{ours / laid.rows:,.0f}", f"{ours / theirs:.1f}"]


def timed(laid: Laid, mine: Run, by_hand: Run, peers: list[str], out: str, tally: Tally) -> list[str]:
    cells = [laid.work.what, f"{laid.rows:,}", seconds(by_hand), seconds(mine), f"{mine.user / max(by_hand.user, 0.001):.1f}"]
    for peer in peers:
        way = by_peer(peer, laid)
        if way is None:
            cells.append("left out")
            continue
        other = os.path.join(laid.folder, "other")
        cells.append(seconds(run(way[0], other, way[1])))
        same(laid, peer, out, other, tally)
    return cells


def seconds(done: Run) -> str:
    return f"{done.user:.2f} ({done.clock:.2f})"


# How the work grows with the query.


def readings(count: int) -> str:
    return f"input x;\nlet y = x over (0, 200];\nemit {' + '.join(['y'] * count)} over (0, 200];\n"


def loops(count: int) -> str:
    """Definitions that each read the same one: so many loops on one buffer, where nothing is fused."""
    text = "input x;\nlet y = x over (0, 200];\n" + "".join(f"let a{i} = y * {i + 1};\n" for i in range(count))
    return text + f"emit {' + '.join(f'a{i}' for i in range(count))} over (0, 200];\n"


def definitions(count: int, before: int = 10) -> str:
    """Definitions that each add the ten before them, each one tick earlier."""
    text = "input x;\nlet d0 = x;\n"
    for i in range(1, count):
        text += f"let d{i} = {' + '.join(f'd{j}[t-1]' for j in range(max(0, i - before), i))};\n"
    return text + f"emit d{count - 1} over (0, 1300];\n"


def ones(rows: int) -> str:
    return "start,end,value\n" + "".join(f"{i},{i + 1},{i % 7 - 3}\n" for i in range(rows))


def grown(what: Callable[[int], str], rows: int, counts: list[int], program: str, tally: Tally) -> list[list[str]]:
    """Millions of instructions of `run`, with fusion and without."""
    lines = []
    for count in counts:
        with tempfile.TemporaryDirectory(prefix="work.") as folder:
            query, series = os.path.join(folder, "query"), os.path.join(folder, "x.csv")
            for path, text in ((query, what(count)), (series, ones(rows))):
                with open(path, "w", encoding="ascii") as file:
                    file.write(text)
            lines.append([str(count), *run_both(program, query, series, folder, tally)])
    return lines


def run_both(program: str, query: str, series: str, folder: str, tally: Tally) -> list[str]:
    out = os.path.join(folder, "out")
    ways = [[program, "run", query, f"x={series}"], [program, "run", query, f"x={series}", "--plain"]]
    for words, name in zip(ways, (out, out + ".plain")):
        run(words, name)
    tally.expect(filecmp.cmp(out, out + ".plain", shallow=False), f"`run --plain` of {query} prints other bytes than `run`")
    return [f"{instructions(words, folder) / 10**6:,.1f}" for words in ways]


# The tables.


def all_tables(tables: Measured, given: argparse.Namespace, program: str, tally: Tally) -> dict[str, str]:
    sizes = [f"{rows:,}" for rows in (SMALL, LARGE)]
    counted_heads = [f"{who}, {size}" for size in sizes[: 1 + given.large] for who in ("Rust", "tilt", "ratio")]
    held_heads = [f"{who}, {size}" for size in sizes for who in ("files", "Rust", "tilt")]
    grown_heads = ["`run`", "`run --plain`"]
    made = {"work machine": machine(given.peers)}
    if tables.counted:
        made["work instructions"] = markdown(["work", *counted_heads], tables.counted)
        made["work time"] = markdown(["work", "rows", "Rust", "tilt", "ratio", *given.peers], tables.timed)
        made["work memory"] = markdown(["work", *held_heads], tables.held)
    if given.only in "readings":
        lines = grown(readings, 200, [12, 25, 50, 100], program, tally)
        made["work readings"] = markdown(["readings", *grown_heads], lines)
    if given.only in "loops":
        lines = grown(loops, 200, [12, 25, 50, 100], program, tally)
        made["work loops"] = markdown(["definitions", *grown_heads], lines)
    if given.only in "definitions":
        lines = grown(definitions, 1300, [12, 25, 50], program, tally)
        made["work definitions"] = markdown(["definitions", *grown_heads], lines)
    return made


def words() -> argparse.Namespace:
    asked = argparse.ArgumentParser(description="Measures the work of the built program beside programs written by hand.")
    asked.add_argument("--program", help="another program than the built one")
    asked.add_argument("--large", action="store_true", help=f"count instructions at {LARGE:,} rows of each series too")
    asked.add_argument("--only", default="", help="only works whose name has this in it, or `readings`, `loops` or `definitions`")
    asked.add_argument("--functions", type=int, default=0, help="tell for each work of how many functions the instructions are")
    asked.add_argument("--no-peers", action="store_true", help="leave out awk, sqlite3 and pandas")
    asked.add_argument("--table", action="store_true", help="write the tables in docs/internals/MEASUREMENTS.md")
    return asked.parse_args()


def main() -> int:
    given = words()
    missing = [name for name in ("valgrind", "rustc") if shutil.which(name) is None]
    if missing:
        raise SystemExit(f"not installed: {', '.join(missing)} (valgrind is a package of Debian)")
    if given.program is None:
        build_program()
    program = os.path.abspath(given.program or BUILT)
    given.peers = [] if given.no_peers else [peer for peer in PEERS if is_there(peer)]
    tally, tables = Tally(), Measured([], [], [])
    with tempfile.TemporaryDirectory(prefix="work.") as folder:
        hand = build(folder)
        for work in WORKS:
            if given.only in work.name:
                measure(work, program, hand, given, tally, tables)
    for name, table in all_tables(tables, given, program, tally).items():
        print(f"{name}\n{table}", flush=True)
        if given.table:
            write_table(PAGE, name, table)
    left_out = [peer for peer in PEERS if peer not in given.peers]
    if left_out:
        print(f"left out: {', '.join(left_out)}")
    return tally.end()


if __name__ == "__main__":
    sys.exit(main())
