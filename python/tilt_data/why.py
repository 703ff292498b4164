"""What there is to say of a line of `tilt` besides: the place of the mistake, what was expected and a cure.

The program's own line stands first, and nothing is added that says otherwise: a place is told only where the reading here comes to the
line of the program."""
from __future__ import annotations

import contextlib
import csv
import dataclasses
import difflib
import os
import re
from typing import Callable, Iterable, Iterator, Mapping, TypeVar

from .errors import Refused, TiltError, printable
from .files import Notes, Stale, notes_of
from .forms import fault_of
from .grammar import inputs_in
from .program import Called
from .tokens import DECIMAL, Faulty, place, place_of, without_points

SERIES_LINE = re.compile(r"(1[0-7]) series (\S+): (.*)")
ROW = re.compile(r" in row (\d+)$")
# A line about the units of a query: its number, and a byte, a statement or a scale.
UNIT_LINE = re.compile(r"(11[0-9]) (?:.* at|statement|output scale) ([0-9]+)(?:: .*)?")
Fact = TypeVar("Fact")
# What reads the notes of a series, such as `notes_of`.
Reads = Callable[[str], "Notes | None"]
CURES = {
    10: "the first line has to be start,end,value; a CSV of readings becomes a series by `tilt-data series`",
    11: "a row has three fields: start,end,value",
    12: "whole numbers without blanks were expected, and only the value may be empty; `tilt-data series --scale` makes decimals whole",
    13: "times lie from -4000000000000000000 to 4000000000000000000: take a nearer origin",
    14: "a start below the end was expected: the start is the tick before the first one",
    15: "a start at the end of the row before or later was expected: sort the rows, and let none overlap",
    16: "it starts before the cut of the session before",
    17: "it starts at the cut of this session or later",
}
# Of a line about units what was expected, and a cure.
FINER, COARSER, SPLIT = "a larger scale for that input", "smaller scales", "split it into definitions by `let`"
UNIT_CURES = {
    110: ("a point between two digits of a number was expected", "write 0.5"),
    111: ("at most 18 digits after the point were expected", "write fewer"),
    112: ("a whole number of ticks was expected", "windows, shifts, spans and grids are in ticks"),
    113: (
        "what is added, compared or chosen needs one scale, or one that is a multiple of the other",
        "give scales that are powers of ten",
    ),
    114: ("a number isn't whole at the scale of what it is added to or compared with", f"give {FINER}"),
    115: ("a number leaves 64 bits at the scale of what it is added to or compared with", f"give {COARSER}"),
    116: ("the scale of a product leaves 64 bits", f"give {COARSER}"),
    117: ("at most 256 nodes over whole numbers were expected", SPLIT),
    118: ("at most 256 tokens over whole numbers were expected", SPLIT),
    119: ("a scale of the output that is a power of ten was expected", "give scales that are powers of ten, or take whole numbers"),
}


@dataclasses.dataclass(frozen=True)
class Refusal:
    """What a refusal says besides its line: the file, the line and the column from 1 where they are known, the text of that line, how many
    signs are marked, what was expected, and a cure."""

    file: str
    line: int | None = None
    column: int | None = None
    text: str = ""
    width: int = 1
    expected: str = ""
    cure: str = ""

    def lines(self) -> Iterator[str]:
        """The place and what was expected, the text with a mark below it, and the cure. Signs that would steer a terminal are escaped."""
        place = ":".join(str(part) for part in (self.file, self.line, self.column) if part is not None)
        yield printable(f"{place}: {self.expected}")
        # Only what is around the place of a long line is shown.
        begin = max(0, (self.column or 1) - 60)
        text = self.text.replace("\t", " ")
        if self.text:
            yield "    " + printable(text[begin : begin + 120])
        if self.column is not None:
            at, room = self.column - 1, max(1, len(text) - self.column + 1)
            marked = printable(text[at : at + min(self.width, room, 80)])
            yield "    " + " " * len(printable(text[begin:at])) + "^" * max(1, len(marked))
        if self.cure:
            yield f"    {printable(self.cure)}"


def placed(file: str, text: bytes, fault: Faulty) -> Refusal:
    """The place of a fault. At the end of a text it is after the last token."""
    width = len(text[fault.begin : fault.end].decode("utf-8", "replace"))
    return Refusal(file, *place_of(text, fault.begin), width, fault.expected, fault.cure)


def bound(words: list[str]) -> dict[str, str]:
    found: dict[str, str] = {}
    at = 1
    while at < len(words):
        name, sign, file = words[at].partition("=")
        if words[at] == "--cut":
            at += 1
        elif sign and not words[at].startswith("--"):
            found.setdefault(name, file)
        at += 1
    return found


def series_refusal(found: re.Match[str], files: dict[str, str]) -> Refusal | None:
    """The line of a series file, by the row that the program counted; without one it is the header."""
    file, number = files.get(found[2]), int(found[1])
    if file is None or not os.path.isfile(file):
        return None
    row, count, before = ROW.search(found[3]), -1, ""
    wanted = int(row[1]) if row else 0
    try:
        with open(file, encoding="utf-8-sig", errors="replace", newline="") as opened:
            reader = csv.reader(opened)
            for record in filter(None, reader):
                count += 1
                text = ",".join(record)
                if count == wanted:
                    cure = CURES[number] + (f"; the row before is {before}" if number == 15 and before else "")
                    return Refusal(file, reader.line_num, None, text, 1, found[3], cure)
                before = text if count else ""
    except (OSError, csv.Error):
        return None
    return None if wanted else Refusal(file, 1, None, "", 1, found[3], CURES[number])


def names_refusal(query: str, name: str, words: list[str]) -> Refusal:
    """Which name is bound twice, not at all, or is no input."""
    bindings = [word.partition("=")[0] for word in words[1:] if "=" in word and not word.startswith("--")]
    inputs = inputs_in(text_of(query))
    if bindings.count(name) > 1:
        return Refusal(query, expected=f"{name} is bound more than once", cure="bind each input once")
    if name in inputs:
        return Refusal(query, expected=f"the input {name} is bound to no file", cure=f"add {name}=FILE")
    near = difflib.get_close_matches(name, inputs, 1, 0.5)
    cure = f"did you mean {near[0]}?" if near else f"its inputs are {', '.join(inputs) or 'none'}"
    return Refusal(query, expected=f"the query has no input {name}", cure=cure)


def text_of(query: str) -> bytes:
    """The text of a query, none if it can't be read."""
    with contextlib.suppress(OSError), open(query, "rb") as opened:
        return opened.read()
    return b""


def unit_refusal(found: re.Match[str], query: str) -> Refusal:
    """The place of a line about units: a byte, or a statement."""
    number, count, text = int(found[1]), int(found[2]), text_of(query)
    expected, cure = UNIT_CURES[number]
    if number == 119:
        return Refusal(query, expected=expected, cure=cure)
    begin, end = count, count + 1
    if number in (111, 112):
        decimal = DECIMAL.match(text, count)
        end = end if decimal is None else decimal.end()
    elif number > 112:
        parts = text.split(b";")[:count]
        end = sum(len(part) + 1 for part in parts)
        begin = end - 1 - len(parts[-1].lstrip())
    return placed(query, text, Faulty("", place(begin, end), expected, cure))


def fault_refusal(file: str) -> Refusal | None:
    """Why a file can't be read, as far as the system tells."""
    try:
        with open(file, "rb") as opened:
            opened.read(1)
        return None
    except OSError as error:
        folder, name = os.path.split(file)
        near: list[str] = []
        with contextlib.suppress(OSError):
            near = difflib.get_close_matches(name, os.listdir(folder or "."), 1)
        return Refusal(file, expected=str(error.strerror), cure=f"did you mean {os.path.join(folder, near[0])}?" if near else "")


def refusal_of(told: str, words: list[str]) -> Refusal | None:
    """What there is to say of the program's line, given the words of `run` after it."""
    line = told.removeprefix("tilt: ").rstrip("\n")
    query = words[0] if words else ""
    if re.match(r"(2\d|3[01]) ", line):
        text = text_of(query)
        # Over whole numbers a decimal is a fault, and in units it is none.
        faults = [fault_of(its) for its in (text, without_points(text))]
        return next((placed(query, text, fault) for fault in faults if fault is not None and fault.line == line), None)
    found = UNIT_LINE.fullmatch(line)
    if found:
        return unit_refusal(found, query)
    found = SERIES_LINE.fullmatch(line)
    if found:
        return series_refusal(found, bound(words))
    if line.startswith("2 input names: "):
        return names_refusal(query, line[len("2 input names: ") :], words)
    return fault_refusal(line[len("4 read fault: ") :]) if line.startswith("4 read fault: ") else None


def check(called: Called, words: list[str], name: str | None = None) -> None:
    """What the program rejects is an error that carries its line, its status and the place. It names the query as the caller knows it."""
    if called.status < 0:
        raise TiltError(f"the program was ended by signal {-called.status}", 128 - called.status)
    if called.status:
        line = called.told.rstrip("\n")
        place = refusal_of(line, words[1:])
        if place is not None and name is not None and place.file == words[1]:
            place = dataclasses.replace(place, file=name)
        raise TiltError(line, called.status, place)


def clashes_of(files: Mapping[str, str], is_whole: bool = True, read: Reads = notes_of) -> str | None:
    """What the notes of the files of inputs differ in, in one line, after what is said of notes that don't describe their file; None if
    they agree. Files without notes are left out."""
    texts: list[str] = []
    clash = clashes(known_notes(files, texts, read), is_whole)
    return "; ".join([*texts, clash] if clash is not None else texts) or None


def clashes(known: Mapping[str, Notes], is_whole: bool = True) -> str | None:
    """What the notes of inputs differ in, in one line; None if they agree. Scales matter to a query over whole numbers. They aren't
    compared with those of helper series, which count and have no unit."""
    texts: list[str] = []
    clocks = distinct((name, (notes.clock.tick, notes.clock.origin)) for name, notes in known.items())
    if len(clocks) > 1:
        first, other = (names[0] for names in list(clocks.values())[:2])
        texts.append(f"the series {first} and {other} have other ticks or origins: write one --like the other")
    closed = distinct((name, notes.clock.closed) for name, notes in known.items())
    if len(closed) > 1:
        texts.append(f"the inputs differ in `closed` ({shown_by(closed)}): write one --like the other")
    scales = distinct((name, notes.scale) for name, notes in known.items() if notes.kind != "helper")
    if is_whole and len(scales) > 1:
        texts.append(f"the inputs have different scales ({shown_by(scales)}): write one --like the other before you add or compare them")
    return "; ".join(texts) or None


def known_notes(files: Mapping[str, str], stale: list[str], read: Reads = notes_of) -> dict[str, Notes]:
    """The notes of the files that have some; what is said of those that don't describe their file is added to `stale`."""
    known: dict[str, Notes] = {}
    for name, file in files.items():
        try:
            notes = read(file)
        except Stale as error:
            stale.append(str(error))
        except Refused:
            continue
        else:
            known |= {} if notes is None else {name: notes}
    return known


def distinct(found: Iterable[tuple[str, Fact]]) -> dict[Fact, list[str]]:
    names: dict[Fact, list[str]] = {}
    for name, fact in found:
        names.setdefault(fact, []).append(name)
    return names


def shown_by(names: Mapping[Fact, list[str]], most: int = 3) -> str:
    """The names and their values, as `a, b: 10; c: 100`."""
    return "; ".join(f"{', '.join(some[:most])}{', ..' if len(some) > most else ''}: {fact}" for fact, some in names.items())
