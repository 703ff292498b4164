#!/usr/bin/env python3
"""Runs the built program on inputs by size, and tells how long each run takes and how much memory it has at its peak.

Bad inputs come in three sizes, 16, 64 and 256 MB: texts of one byte again and again as a query, a pipeline, a series, corrections, a
listing and a checkpoint, and long texts of good lines that aren't whole. Each has to end with the status and the line of docs/ERRORS.md,
its time has to grow no faster than its size, and its memory has to keep to the bounds of docs/internals/MEASUREMENTS.md. Good inputs
have the sizes that users have, and each has to end with status 0 and print the right bytes, which are worked out here.

It isn't part of the gate: it takes some minutes, and it measures. Time is that of the processor; a run that is too slow is made three
times, and the fastest counts. The last line is 'N passed, M failed', and the status is 1 where one failed. With --table its tables are put
between the marks in docs/internals/MEASUREMENTS.md."""
from __future__ import annotations

import argparse
import dataclasses
import os
import resource
import shutil
import signal
import subprocess
import sys
import tempfile
import threading
from typing import BinaryIO, Callable, Iterator

sys.path.insert(0, os.path.dirname(os.path.dirname(os.path.realpath(__file__))))

from shared.paths import BUILT, TOP
from shared.program import build_program
from shared.tables import markdown, write_table
from shared.tally import Tally

PAGE = os.path.join(TOP, "docs", "internals", "MEASUREMENTS.md")

# The program of that name, and not a word of the shell.
TIME = shutil.which("time")
MB = 10**6
# How many times longer a byte may take in a file of four times the size, where it takes long enough to be measured.
FASTEST_GROWTH = 1.6
MEASURED = 0.2
# Memory beyond that for the file.
SPARE = 24 * MB

SERIES = b"start,end,value\n0,5,7\n6,8,9\n"
QUERY = b"input x; emit x over (0, 10];\n"


@dataclasses.dataclass
class Run:
    """What a run left: a status of None where it took too long. The time is in seconds of the processor, the memory in bytes."""

    status: int | None
    out: str
    err: bytes
    seconds: float
    memory: int
    size: int = 0


@dataclasses.dataclass(frozen=True)
class Bad:
    """A bad input. `put` writes a text of about so many bytes and gives the line that has to be told of it, if the status isn't 0.
    `memory` is how many bytes of memory a byte of the file may take, or None where nothing is promised."""

    what: str
    words: list[str]
    put: Callable[[BinaryIO, int], str]
    memory: float | None


@dataclasses.dataclass(frozen=True)
class Good:
    """A good input: its files, its commands, and what the last of them has to print."""

    what: str
    files: dict[str, Callable[[], Iterator[bytes]]]
    commands: list[list[str]]
    wanted: Callable[[], Iterator[bytes]]


# Running.


@dataclasses.dataclass(frozen=True)
class Limits:
    """Bytes of memory, and seconds on the clock."""

    memory: int
    seconds: float


def run(program: str, words: list[str], folder: str, limits: Limits) -> Run:
    def limit() -> None:
        resource.setrlimit(resource.RLIMIT_AS, (limits.memory, limits.memory))

    def stop() -> None:
        os.killpg(process.pid, signal.SIGKILL)

    out, err, peak = (os.path.join(folder, name) for name in ("out", "err", "peak"))
    # A new process begins with the memory of the one that it is a copy of: so `time` measures it, which is small, where it is there.
    measured = [TIME, "-f", "%M", "-o", peak] if TIME else []
    with open(out, "wb") as out_file, open(err, "wb") as err_file:
        process = subprocess.Popen(
            [*measured, program, *words],
            cwd=folder,
            stdin=subprocess.DEVNULL,
            stdout=out_file,
            stderr=err_file,
            preexec_fn=limit,
            start_new_session=True,
        )
        late = threading.Timer(limits.seconds, stop)
        late.start()
        _, ended, usage = os.wait4(process.pid, 0)
        in_time = late.is_alive()
        late.cancel()
    process.returncode = os.waitstatus_to_exitcode(ended)
    with open(err, "rb") as file:
        told = file.read(1000)
    status = process.returncode if in_time else None
    return Run(status, out, told, usage.ru_utime + usage.ru_stime, 1024 * (peak_of(peak) if TIME and in_time else usage.ru_maxrss))


def peak_of(path: str) -> int:
    """What `time` wrote: it is its last line."""
    with open(path, encoding="ascii") as file:
        return int(file.read().split()[-1])


# Bad inputs.


def again_and_again(piece: bytes, told: str, first: bytes = b"") -> Callable[[BinaryIO, int], str]:
    """A text that has a piece again and again after its first bytes."""

    def put(file: BinaryIO, size: int) -> str:
        file.write(first)
        many = piece * (MB // len(piece))
        for _ in range(size // MB):
            file.write(many)
        return told

    return put


def put_lines(file: BinaryIO, size: int, line: Callable[[int], str]) -> int:
    """Writes lines until the file has about that size, and gives how many there are."""
    count = 0
    while file.tell() < size:
        file.write("".join(map(line, range(count, count + 10000))).encode())
        count += 10000
    return count


def code_of(first: str, line: Callable[[int], str], of_one: int = 1) -> Callable[[BinaryIO, int], str]:
    """A listing that isn't whole: its first lines, then numbered pieces of so many lines each, and a bad last line."""

    def put(file: BinaryIO, size: int) -> str:
        file.write(first.encode())
        count = put_lines(file, size, line)
        file.write(b"bad\n")
        return f"40 bad code in line {first.count(chr(10)) + count * of_one + 1}"

    return put


def long_flow(file: BinaryIO, size: int) -> str:
    """A pipeline of more steps than one may have."""
    file.write(b"from x;")
    put_lines(file, size, lambda i: "select v;")
    return "53 bad step 101"


def long_edits(line: Callable[[int], str]) -> Callable[[BinaryIO, int], str]:
    """Corrections, and a last line that is none."""

    def put(file: BinaryIO, size: int) -> str:
        count = put_lines(file, size, line)
        file.write(b"bad\n")
        return f"62 bad edit in line {count + 1}"

    return put


def long_series(file: BinaryIO, size: int) -> str:
    file.write(b"start,end,value\n")
    count = put_lines(file, size, lambda i: f"{i},{i + 1},5\n")
    file.write(b"bad\n")
    return f"11 series x: bad fields in row {count + 1}"


def null_rows(file: BinaryIO, size: int) -> str:
    """A checkpoint whose rows are all null, that lacks its last line."""
    far = 10**12
    first = f"tilt checkpoint 2\nquery 2\ninput x;\nemit count(x[t-{far}:t]) over (0, {far}];\n"
    count = 0
    width = 0
    while width < size:
        count += 10000
        width += sum(len(f"{i},{i + 1},\n") for i in (count - 10000, count - 1)) * 5000
    file.write((first + f"cut {count}\nopen 0\ncut {count} last {count} rows {count}\n").encode())
    for start in range(0, count, 10000):
        file.write("".join(f"{i},{i + 1},\n" for i in range(start, start + 10000)).encode())
    return "50 bad checkpoint"


ONES = [("blanks", b" "), ("digits", b"1"), ("one letter", b"a"), ("quotes", b'"'), ("`;`", b";")]
OF_QUERY = ["25 statement 1: place of emit", "21 big number at 0", "24 statement 1: syntax", "20 bad byte at 0", "22 too many statements"]
OF_FLOW = ["53 bad step 1", "21 big number at 0", "53 bad step 1", "20 bad byte at 0", "53 bad step 1"]
IN_QUERY = ["run", "f", "x=x"]
IN_FLOW = ["flow", "f", "x=x"]
IN_EDITS = ["fix", "q", "x=x", "--edits", "f"]
IN_SERIES = ["run", "q", "x=f"]
IN_CODE = ["exec", "f", "x=x"]
IN_STATE = ["resume", "f", "x=x", "--end"]
HEADER = b"start,end,value\n"
CODE = "tilt 1\ninput x\n"
LOOP = "loop 0 5 1 0\n"


def bad_inputs() -> list[Bad]:
    row, line, state = "11 series x: bad fields in row 1", "40 bad code in line 1", "50 bad checkpoint"
    of_query = [Bad(f"query: {what}", IN_QUERY, again_and_again(piece, told), 2.0) for (what, piece), told in zip(ONES, OF_QUERY)]
    of_query += [
        Bad("query: names", IN_QUERY, again_and_again(b"a ", "23 statement 1: too long"), 2.0),
        Bad("query: `;`, and a bad byte", IN_QUERY, bad_byte_at_the_end, 2.0),
    ]
    of_flow = [Bad(f"pipeline: {what}", IN_FLOW, again_and_again(piece, told), 2.0) for (what, piece), told in zip(ONES, OF_FLOW)]
    of_flow += [
        Bad("pipeline: names", IN_FLOW, again_and_again(b"a ", "53 bad step 1"), 2.0),
        Bad("pipeline: steps", IN_FLOW, long_flow, 2.0),
        Bad("pipeline: `;`, and a bad byte", IN_FLOW, bad_byte_at_the_end, 2.0),
    ]
    of_edits = [Bad(f"corrections: {what}", IN_EDITS, again_and_again(piece, "62 bad edit in line 1"), 4.0) for what, piece in ONES]
    of_edits += [
        Bad("corrections: empty lines", IN_EDITS, again_and_again(b"\n", "62 bad edit in line 1"), 4.0),
        Bad("corrections: the shortest, and a bad one", IN_EDITS, long_edits(lambda i: "add x 0,1,\n"), 4.0),
        Bad("corrections: rows, and a bad one", IN_EDITS, long_edits(lambda i: f"set x {i},{i + 1},5\n"), 4.0),
    ]
    of_series = [Bad(f"series: {what}", IN_SERIES, again_and_again(piece, row, HEADER), None) for what, piece in ONES]
    of_series += [
        Bad("series: lines of one byte", IN_SERIES, again_and_again(b"1\n", row, HEADER), None),
        Bad("series: empty lines", IN_SERIES, again_and_again(b"\n", "", HEADER), None),
        Bad("series: rows, and a bad one", IN_SERIES, long_series, None),
    ]
    of_code = [Bad(f"listing: {what}", IN_CODE, again_and_again(piece, line), 11.0) for what, piece in ONES]
    of_code += [
        Bad("listing: windows", IN_CODE, code_of(CODE + LOOP, lambda i: f"r{i} = win sum b0 -1 0\n"), 11.0),
        Bad("listing: one body", IN_CODE, code_of(CODE + LOOP + "r0 = port b0 0\n", lambda i: f"r{i + 1} = neg r{i}\n"), 11.0),
        Bad("listing: loops", IN_CODE, code_of(CODE, lambda i: f"{LOOP}r0 = port b{i} 0\nend\n", 3), 11.0),
        Bad("listing: maps", IN_CODE, code_of(CODE + LOOP, lambda i: "map\nr0 = cell\nend\n", 3), 11.0),
        Bad("listing: inputs", IN_CODE, code_of("tilt 1\n", lambda i: f"input a{i}\n"), 11.0),
    ]
    of_state = [Bad(f"checkpoint: {what}", IN_STATE, again_and_again(piece, state), 4.0) for what, piece in ONES]
    of_state += [
        Bad("checkpoint: null rows", IN_STATE, null_rows, 4.0),
        Bad("checkpoint: a query of `;`", IN_STATE, query_of_signs, 4.0),
    ]
    return of_query + of_flow + of_series + of_edits + of_code + of_state


def query_of_signs(file: BinaryIO, size: int) -> str:
    """A checkpoint whose query is one line, in which each byte is a token. The line has its end, since it isn't read without."""
    again_and_again(b";", "", b"tilt checkpoint 2\nquery 1\n")(file, size)
    file.write(b"\n")
    return "50 bad checkpoint"


def bad_byte_at_the_end(file: BinaryIO, size: int) -> str:
    again_and_again(b";", "")(file, size)
    file.write(b"@")
    return f"20 bad byte at {size}"


def wrong_bad(done: Run, bad: Bad, told: str, limits: Limits) -> list[str]:
    if done.status is None:
        return [f"it doesn't end in {limits.seconds:.0f} seconds"]
    wrong = wrong_line(done, 1 if told else 0, told)
    if bad.memory is not None and done.memory > bad.memory * done.size + SPARE:
        wrong.append(f"{done.memory // MB} MB of memory, wanted at most {(bad.memory * done.size + SPARE) // MB:.0f}")
    return wrong


def wrong_line(done: Run, status: int, told: str) -> list[str]:
    line = f"tilt: {told}\n".encode() if told else b""
    good = (done.status, done.err) == (status, line)
    return [] if good else [f"status {done.status} and {done.err[:100]!r}, wanted {status} and {line!r}"]


def run_sized(program: str, bad: Bad, folder: str, limits: Limits) -> Run:
    done = run(program, bad.words, folder, limits)
    done.size = os.path.getsize(os.path.join(folder, "f"))
    return done


def is_slow(done: Run, smaller: Run) -> bool:
    """Whether a byte takes longer than it may, beside a smaller file."""
    return done.seconds > max(MEASURED, FASTEST_GROWTH * smaller.seconds * done.size / smaller.size)


def try_bad(bad: Bad, program: str, sizes: list[int], limits: Limits, tally: Tally) -> list[str]:
    """The cells of the table for a bad input. Where a size takes too long the larger ones aren't tried."""
    cells: list[str] = []
    runs: list[Run] = []
    line = ""
    for size in sizes:
        if runs and runs[-1].status is None:
            cells.append("not tried")
            continue
        with tempfile.TemporaryDirectory(prefix="sizes.") as folder:
            with open(os.path.join(folder, "f"), "wb") as file:
                told = bad.put(file, size * MB)
            put_small(folder)
            done = run_sized(program, bad, folder, limits)
            if runs and is_slow(done, runs[-1]):
                # Other work on the machine delays single runs: the fastest of three counts.
                done = min([done, *(run_sized(program, bad, folder, limits) for _ in range(2))], key=lambda each: each.seconds)
        wrong = wrong_bad(done, bad, told, limits)
        if runs and is_slow(done, runs[-1]):
            wrong.append(f"{done.seconds:.2f} seconds, and {runs[-1].seconds:.2f} for {runs[-1].size // MB} MB")
        tally.note(f"{bad.what}, {size} MB", wrong)
        runs.append(done)
        line = line or told
        cells.append(cell_of(done, limits, wrong))
    return [bad.what, f"`{line}`" if line else "status 0", *cells, growth(runs)]


def put_small(folder: str) -> None:
    for name, content in (("q", QUERY), ("x", SERIES)):
        with open(os.path.join(folder, name), "wb") as file:
            file.write(content)


def cell_of(done: Run, limits: Limits, wrong: list[str]) -> str:
    """The time and the memory, in bold where something is wrong."""
    if done.status is None:
        return f"**over {limits.seconds:.0f} s**"
    mark = "" if done.status in (0, 1, 2) else f", status {done.status}"
    cell = f"{done.seconds:.2f} s, {done.memory // MB} MB{mark}"
    return f"**{cell}**" if wrong else cell


def growth(runs: list[Run]) -> str:
    """How much longer a byte takes in the largest file than in the smallest."""
    if len(runs) < 2 or any(done.status not in (0, 1) for done in runs):
        return ""
    first, last = runs[0], runs[-1]
    return f"{last.seconds / last.size / max(first.seconds / first.size, 1e-12):.1f}"


# Words.


def word_lists() -> list[tuple[str, list[str], int, str]]:
    many = 100000
    return [
        ("100,000 times `x=x`", ["run", "q"] + ["x=x"] * many, 1, "2 input names: x"),
        ("100,000 binds", ["run", "q"] + [f"a{i}=x" for i in range(many)], 1, "2 input names: a0"),
        ("100,000 times `--plain`", ["run", "q", "x=x"] + ["--plain"] * many, 2, "1 usage"),
        ("100,000 times `x`", ["x"] * many, 2, "1 usage"),
    ]


def try_words(program: str, limits: Limits, tally: Tally) -> list[list[str]]:
    lines = []
    for what, words, status, told in word_lists():
        with tempfile.TemporaryDirectory(prefix="sizes.") as folder:
            put_small(folder)
            done = run(program, words, folder, limits)
        wrong = wrong_line(done, status, told)
        tally.note(what, wrong)
        lines.append([what, f"`{told}`", cell_of(done, limits, wrong)])
    return lines


# Good inputs.


def text(*pieces: str) -> Callable[[], Iterator[bytes]]:
    return lambda: iter([piece.encode() for piece in pieces])


def rows(first: int, last: int, value: Callable[[int], int], head: bool = True) -> Callable[[], Iterator[bytes]]:
    def made() -> Iterator[bytes]:
        yield b"start,end,value\n" if head else b""
        for start in range(first, last, 10000):
            yield "".join(f"{i},{i + 1},{value(i)}\n" for i in range(start, min(start + 10000, last))).encode()

    return made


def plus(number: int) -> Callable[[], Iterator[bytes]]:
    """What is printed where a number is added to the values of the series."""
    return text(f"start,end,value\n0,5,{7 + number}\n6,8,{9 + number}\n")


def series() -> Iterator[bytes]:
    yield SERIES


def long_code() -> Iterator[bytes]:
    yield (CODE + "loop 0 10 1 0\nr0 = port b0 0\nr1 = const 1\n").encode()
    yield from ("".join(f"r{i} = add r{i - 1 if i > 2 else 0} r1\n" for i in range(2, 99996)) + "end\n").encode().splitlines(True)


def many_loops() -> Iterator[bytes]:
    yield CODE.encode()
    for i in range(10000):
        yield f"loop 0 10 1 0\nr0 = port b{i} 0\nend\n".encode()


def good_inputs() -> list[Good]:
    inputs = "".join(f"input a{i};\n" for i in range(255)) + "emit " + " + ".join(f"a{i}" for i in range(100)) + " over (0, 10];\n"
    chain = "input x;\nlet d0 = x + 1;\n" + "".join(f"let d{i} = d{i - 1} + 1;\n" for i in range(1, 254)) + "emit d253 + 1 over (0, 10];\n"
    ones = " + 1" * 125
    wide = f"input x;\nlet d0 = x{ones};\n" + "".join(f"let d{i} = d{i - 1}{ones};\n" for i in range(1, 254))
    wide += "emit d253" + " + 1" * 120 + " over (0, 10];\n"
    counts = "input x;\nemit count(x[t-1000000:t]) over (0, 300000];\n"

    def counted() -> Iterator[bytes]:
        yield from rows(199999, 200009, lambda i: i + 1, False)()
        yield b"200009,200010,200010\n200010,300000,200010\n"

    return [
        Good("listing of 100,000 lines", {"f": long_code, "x": series}, [["exec", "f", "x=x"]], plus(99994)),
        Good("listing of 10,000 loops", {"f": many_loops, "x": series}, [["exec", "f", "x=x"]], plus(0)),
        Good(
            "checkpoint of 200,000 rows",
            {"q": text(counts), "x": rows(0, 200000, lambda i: i % 7), "y": rows(200000, 200010, lambda i: 3)},
            [["start", "q", "x=x", "--upto", "200000", "--save", "f"], ["resume", "f", "x=y", "--end"]],
            counted,
        ),
        Good(
            "series of 3,000,000 rows",
            {"q": text("input x; emit x over (0, 3000000];"), "f": rows(0, 3000000, lambda i: i % 1000)},
            [["run", "q", "x=f"]],
            rows(0, 3000000, lambda i: i % 1000),
        ),
        Good(
            "query of 255 inputs",
            {"f": text(inputs), "x": series},
            [["run", "f", *(f"a{i}=x" for i in range(255))]],
            text("start,end,value\n0,5,700\n6,8,900\n"),
        ),
        Good("query of 255 definitions", {"f": text(chain), "x": series}, [["run", "f", "x=x"]], plus(255)),
        Good("query of 65,022 tokens", {"f": text(wide), "x": series}, [["run", "f", "x=x"]], plus(254 * 125 + 120)),
    ]


def same(path: str, wanted: Iterator[bytes]) -> bool:
    with open(path, "rb") as file:
        return all(file.read(len(piece)) == piece for piece in wanted) and not file.read(1)


def try_good(good: Good, program: str, limits: Limits, tally: Tally) -> list[str]:
    with tempfile.TemporaryDirectory(prefix="sizes.") as folder:
        for name, pieces in good.files.items():
            with open(os.path.join(folder, name), "wb") as file:
                file.writelines(pieces())
        wrong = []
        for words in good.commands:
            done = run(program, words, folder, limits)
            if (done.status, done.err) != (0, b""):
                wrong.append(f"{words[0]}: status {done.status} and {done.err!r}")
        if not wrong and not same(done.out, good.wanted()):
            wrong.append("it prints other bytes")
        size = os.path.getsize(os.path.join(folder, "f")) if os.path.exists(os.path.join(folder, "f")) else 0
    tally.note(good.what, wrong)
    return [good.what, f"{size / MB:.2f} MB", f"`{good.commands[-1][0]}`", cell_of(done, limits, wrong)]


def main() -> int:
    words = argparse.ArgumentParser(description="Runs the built program on inputs by size.")
    words.add_argument("--program", help="another program than the built one")
    words.add_argument("--sizes", default="16,64,256", help="the sizes of bad inputs in MB, with commas between them")
    words.add_argument("--only", default="", help="only inputs whose name has this in it")
    words.add_argument("--memory", type=float, default=4.0, help="how many GB of memory a run may take")
    words.add_argument("--seconds", type=float, default=120.0, help="how long a run may take")
    words.add_argument("--table", action="store_true", help="write the tables in docs/internals/MEASUREMENTS.md")
    given = words.parse_args()
    if given.program is None:
        build_program()
    program = os.path.abspath(given.program or BUILT)
    limits = Limits(int(given.memory * 10**9), given.seconds)
    sizes = [int(size) for size in given.sizes.split(",")]
    tally = Tally()
    good = [try_good(each, program, limits, tally) for each in good_inputs() if given.only in each.what]
    many = try_words(program, limits, tally) if given.only in "words" else []
    bad = [try_bad(each, program, sizes, limits, tally) for each in bad_inputs() if given.only in each.what]
    tables = {
        "sizes words": markdown(["arguments", "reported", "time and memory"], many),
        "sizes good": markdown(["input", "its file", "command", "time and memory"], good),
        "sizes bad": markdown(["input", "reported", *(f"{size} MB" for size in sizes), "growth"], bad),
    }
    for name, table in tables.items():
        print(table)
        if given.table:
            write_table(PAGE, name, table)
    return tally.end()


if __name__ == "__main__":
    sys.exit(main())
