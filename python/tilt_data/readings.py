"""`tilt-data series`: a CSV of readings, tall or wide, to series files, each with a small JSON file beside that says its clock and
scale."""
from __future__ import annotations

import argparse
import dataclasses
import functools
import heapq
import itertools
import os
import pickle
import re
import shlex
from typing import Any, Iterable, Iterator, Mapping

from .clock import TIMES, Clock, Moments, duration_text, moment_text, zone_of
from .convention import TextConvention, time_text
from .convert import Converter, Late, Tie, row_text
from .errors import Refused, note, refused_at
from .files import HEADER_LINE, Extremes, Notes, Outputs, Row, check_replaceable, notes_path, reading, records, safe, same_file, scratch
from .files import spooled
from .progress import shown
from .scales import Scale, digits_after_point

HELP = """Reads a CSV with a header: a column of times, and one column of values for each series (wide), or a column that names the series
(tall, --name). It writes a series file NAME.csv for each, and beside it NAME.json with the length of a tick, the origin and the scale.
Readings must be in order of time, or --sort sorts them. What was dropped, moved and scaled is reported on standard error."""
DECIMAL_COMMA = re.compile(r"[+-]?[0-9]+,[0-9]+")
# The most bytes that the name of a file can have.
LONGEST_NAME = 255
# How a tab is written in a word of the command.
TAB = r"\t"


# A reading: its moment, its line, its key, the name of its series, and the text of its value.
Reading = tuple[int, int, str, str, str]


def add(commands: Any) -> None:
    parser = commands.add_parser("series", help="readings of a CSV to series files", description=HELP)
    parser.add_argument("file", metavar="FILE", help="the CSV, or - for standard input")
    parser.add_argument("--time", metavar="COL", help="the column of times")
    parser.add_argument("--value", metavar="COL", nargs="+", action="extend", help="the columns of values (all others)")
    parser.add_argument("--name", metavar="COL", help="a tall file: the column that names the series; --value is then the one value column")
    parser.add_argument("--delimiter", default=",", help="the character between the fields; \\t is a tab (,)")
    parser.add_argument("--decimal", default=".", help="the character before the fraction of a value (.)")
    TextConvention.add_to(parser)
    parser.add_argument("--key", metavar="COL", help="the column of a key, such as a station or a patient: a folder of series for each key")
    parser.add_argument("--prefix", action="store_true", help="KEY_NAME.csv in place of KEY/NAME.csv")
    parser.add_argument("--out", metavar="FOLDER", default=".", help="the folder of the files (.)")
    parser.add_argument("--force", action="store_true", help="replace files that `tilt-data` didn't write")
    parser.add_argument("--sort", action="store_true", help="sort the readings by time first")
    parser.set_defaults(main=main)


def column(header: list[str], name: str, path: str) -> int:
    name = name.strip()
    if header.count(name) != 1:
        many = "more than once" if name in header else "not"
        other = next((sign for sign in (";", "\t", "|") if len(header) == 1 and sign in header[0]), None)
        cure = f"there are: {', '.join(header)}"
        if other is not None:
            cure = f"are its fields separated by {other!r}? --delimiter {shlex.quote(TAB if other == chr(9) else other)}"
        raise refused_at(path, 1, f"the column {name!r} is {many} in the header; {cure}")
    return header.index(name)


def columns_of(header: list[str], words: argparse.Namespace) -> tuple[int, int | None, int | None, list[int]]:
    """The columns of the time, the key, the name of the series, and the values. Two of one name would become one series."""
    path = words.file
    if words.time is None:
        raise refused_at(path, 1, f"which column has the times? --time COL; there are: {', '.join(header)}")
    time, key, name = (None if title is None else column(header, title, path) for title in (words.time, words.key, words.name))
    values = [column(header, value, path) for value in words.value or []]
    for at in values:
        if values.count(at) > 1:
            raise Refused(f"--value {header[at]}: it is given twice: name each column once")
    values = values or [at for at in range(len(header)) if at not in (time, key, name)]
    places: dict[str, int] = {}
    for at in values:
        if places.setdefault(header[at], at) != at:
            what = f"the columns {places[header[at]] + 1} and {at + 1} have one name, {header[at]!r}"
            raise refused_at(path, 1, f"{what}: rename one of them, or name the columns of values by --value")
    if not values or name is not None and len(values) != 1:
        raise refused_at(path, 1, "one column of values was expected: name it by --value" if name is not None else "no column of values")
    return time or 0, key, name, values


def readings_of(source: str, words: argparse.Namespace) -> Iterator[Reading]:
    """The readings of the file that is given, or of a copy of it."""
    path, moments = words.file, Moments(words.unit, zone_of(words.zone))
    delimiter = "\t" if words.delimiter == TAB else words.delimiter
    if len(delimiter) != 1 or delimiter in '"\r\n':
        raise Refused(f"--delimiter {words.delimiter!r}: one sign was expected, or {TAB} for a tab")
    with reading(source, path) as file:
        found = records(path, file, delimiter)
        _, header = next(found, (1, [""]))
        titles = [title.strip() for title in header]
        at_time, at_key, at_name, values = columns_of(titles, words)
        for line, record in shown(found, "readings"):
            if len(record) != len(header):
                raise refused_at(path, line, f"{len(header)} fields were expected as in the header, not {len(record)}")
            try:
                moment = moments.read(record[at_time])
            except ValueError as error:
                raise refused_at(path, line, str(error)) from error
            key = "" if at_key is None else record[at_key]
            for at in values:
                yield moment, line, key, titles[at] if at_name is None else record[at_name].strip(), record[at]


def in_order(readings: Iterable[Reading], folder: str, most: int = 100000) -> Iterator[Reading]:
    """The readings by time, those of one moment by line: parts are put in order in memory, and merged from the folder."""

    def by_time(one: Reading) -> tuple[int, int]:
        return one[0], one[1]

    def part_of(path: str) -> Iterator[Reading]:
        with open(path, "rb") as file:
            while True:
                try:
                    yield from pickle.load(file)
                except EOFError:
                    return

    readings, paths = iter(readings), list[str]()
    while len(part := sorted(itertools.islice(readings, most), key=by_time)) == most:
        paths.append(os.path.join(folder, f"part{len(paths)}"))
        with open(paths[-1], "wb") as file:
            for at in range(0, most, 1000):
                pickle.dump(part[at : at + 1000], file)
    yield from heapq.merge(*map(part_of, paths), part, key=by_time)


@dataclasses.dataclass
class Written:
    """A series that is written: its file, the converter of its readings and the line of the last one; and what is reported of its rows: how
    many there are, where the first starts and the last ends, how many have no value, and the smallest and the largest of the others."""

    key: str
    name: str
    path: str
    converter: Converter
    line: int = 0
    rows: int = 0
    start: int = 0
    end: int = 0
    nulls: int = 0
    extremes: Extremes = dataclasses.field(default_factory=Extremes)

    def figures(self, scale: int) -> str:
        converter = self.converter
        text = f"{self.rows} rows over ({self.start}, {self.end}]" if self.rows else "no rows"
        notes = (
            ("without a value", self.nulls),
            ("dropped, in one tick with another", converter.dropped),
            ("moved to the next free tick", converter.moved),
            ("gaps after --max-age", converter.gaps),
        )
        scaled = [f"values times {scale}"] if scale != 1 else []
        return ", ".join([text, *scaled, *(f"{what}: {count}" for what, count in notes if count)])


class Converting:
    """All series of a file while it is read, by key and name. The empty name has the scale of those that have none of their own."""

    def __init__(self, words: argparse.Namespace, convention: TextConvention, outputs: Outputs, scales: dict[str, Scale]) -> None:
        self.words, self.convention, self.outputs, self.scales = words, convention, outputs, scales
        self.path: str = words.file
        # It may rest on the first reading.
        self.clock: Clock | None = None
        self.series: dict[tuple[str, str], Written] = {}
        self.paths: set[str] = set()

    def scale(self, name: str) -> Scale:
        return self.scales.get(name, self.scales[""])

    def take(self, one: Reading) -> None:
        moment, line, key, name, text = one
        series = self.series.get((key, name)) or self.new(one)
        is_missing = self.convention.is_missing(text)
        if is_missing and self.convention.skips_empty(name):
            return
        value = None if is_missing else self.value(name, text, line)
        try:
            row = series.converter.push(moment, value)
        except Tie as error:
            what = f"a second reading of {name} in the tick of line {series.line}: --ties last, first or spread, or a shorter --tick"
            raise refused_at(self.path, line, what) from error
        except Late as error:
            raise refused_at(self.path, line, f"this reading of {name} lies before that of line {series.line}: --sort") from error
        if row is not None:
            self.put(series, row)
        series.line = line
        if not -TIMES <= series.converter.start < TIMES:
            raise self.beyond(line, moment, f"the tick {series.converter.start}")

    def value(self, name: str, text: str, line: int) -> int:
        """The whole number of a decimal. A point in one with another sign before its fraction can only part its thousands."""
        sign = self.words.decimal
        try:
            if sign != "." and "." in text:
                raise ValueError(f"{text!r} has a point, and --decimal says that {sign!r} is before the fraction")
            return self.scale(name).whole(text if sign == "." else text.replace(sign, "."))
        except ValueError as error:
            cure = "; for a decimal comma: --decimal ," if DECIMAL_COMMA.fullmatch(text.strip()) and sign == "." else ""
            raise refused_at(self.path, line, f"{name}: {error}{cure}") from error

    def new(self, one: Reading) -> Written:
        moment, line, key, name, _ = one
        try:
            self.clock = self.clock or self.convention.clock(moment)
        except ValueError as error:
            raise refused_at(self.path, line, str(error)) from error
        if not name:
            raise refused_at(self.path, line, "a name of the series was expected")
        if self.words.key is not None and not key:
            raise refused_at(self.path, line, f"a key was expected in the column {self.words.key}")
        converter = Converter(self.clock, self.convention.rule(name, self.clock))
        path = self.path_of(key, name, line)
        if path in self.paths:
            raise refused_at(self.path, line, f"the key {key} with {name} and another key have one file, {path}: leave --prefix out")
        self.paths.add(path)
        self.outputs.write(path, HEADER_LINE.decode())
        series = self.series[key, name] = Written(key, name, path, converter)
        return series

    def path_of(self, key: str, name: str, line: int) -> str:
        """The file of a series. It never is one that this call reads, and it is an unknown one only by --force."""
        words, file = self.words, safe(name) + ".csv"
        if key:
            file = f"{safe(key)}_{file}" if words.prefix else os.path.join(safe(key), file)
        path = file if words.out == "." else os.path.join(words.out, file)
        if max(len(part) for part in notes_path(file).split(os.sep)) > LONGEST_NAME:
            what = f"the name of a file has {LONGEST_NAME} bytes at most, and {notes_path(file)} is longer"
            cure = f"take a shorter name than {name!r}, or a shorter key. Each byte outside of ASCII counts as three"
            raise refused_at(self.path, line, f"{what}: {cure}")
        cure = f"the series {name} would take its place: name a folder by --out"
        for one in (path, notes_path(path)):
            if same_file(one, self.path):
                raise Refused(f"{one}: it is the file that is read, and {cure}")
            if words.like is not None and (same_file(one, words.like) or same_file(one, notes_path(words.like))):
                raise Refused(f"{one}: it is the series of --like, and {cure}")
        if not words.force:
            check_replaceable(path, f"{cure}, or replace it by --force")
        return path

    def beyond(self, line: int, moment: int, what: str) -> Refused:
        cure = "name a nearer --origin, or take a longer --tick"
        return refused_at(self.path, line, f"the reading at {time_text(moment)} has {what}, and ticks go from {-TIMES} to {TIMES}: {cure}")

    def put(self, series: Written, row: Row) -> None:
        start, end, value = row
        if end > TIMES:
            raise self.beyond(series.line, series.converter.clock.moment(start), f"a row to the tick {end}")
        series.start = series.start if series.rows else start
        series.rows, series.end, series.nulls = series.rows + 1, end, series.nulls + (value is None)
        series.extremes.take(value)
        self.outputs.write(series.path, row_text(row))

    def finish(self) -> None:
        """The last rows, and the JSON files. An option for a series that isn't there would have changed nothing."""
        if self.clock is not None:
            self.convention.check_names(sorted({name for _, name in self.series}), "series")
        until = self.convention.until_tick(self.clock)
        for series in self.series.values():
            row = series.converter.finish(until)
            if row is not None:
                self.put(series, row)
            kind = "event" if self.convention.is_event(series.name) else "hold"
            key = series.key if self.words.key else None
            clock, scale = series.converter.clock, self.scale(series.name).scale
            notes = Notes(clock, scale, kind, series.name, key, self.words.zone, *series.extremes.both)
            self.outputs.write(notes_path(series.path), notes.text())

    def told(self, most: int = 10) -> Iterator[str]:
        """A line about each of the first ten series, and how many there are after them."""
        if self.clock is None:
            yield "no reading, and no series"
            return
        yield f"a tick is {duration_text(self.clock.tick)}, closed {self.clock.closed}, from {moment_text(self.clock.origin, 0)}"
        for series in list(self.series.values())[:most]:
            yield f"{series.path}: {series.figures(self.scale(series.name).scale)}"
        if len(self.series) > most:
            yield f"and {len(self.series) - most} more series"


def scales_of(words: argparse.Namespace, path: str, convention: TextConvention) -> dict[str, Scale]:
    """The scales that the arguments name. An `auto` without a name is one scale for all series that have none of their own."""
    given = dict(convention.scale) if isinstance(convention.scale, Mapping) else {}
    digits = digits_of(path, words, convention) if "auto" in given.values() else {}
    most = max((count for name, count in digits.items() if name not in given), default=0)
    found = {name: 10 ** (digits.get(name, 0) if name else most) for name in ["", *given]}
    return {name: Scale(convention.scale_of(name) or found[name]) for name in found}


def digits_of(path: str, words: argparse.Namespace, convention: TextConvention) -> dict[str, int]:
    """The most digits after the point in each series: the file is read once for it."""
    most: dict[str, int] = {}
    digits = functools.lru_cache(50000)(lambda text: digits_after_point(text.replace(words.decimal, ".")))
    for _, line, _, name, text in readings_of(path, words):
        if convention.is_missing(text):
            continue
        try:
            count = digits(text)
        except ValueError as error:
            raise refused_at(words.file, line, f"{name}: {error}") from error
        if count > most.get(name, -1):
            most[name] = count
    return most


def main(words: argparse.Namespace) -> int:
    convention = TextConvention.of(words)
    if len(words.decimal) != 1 or words.decimal.isalnum() or words.decimal in "+-":
        raise Refused(f"--decimal {words.decimal!r}: one sign was expected, as . or ,")
    with scratch() as folder, Outputs() as outputs:
        path = spooled(words.file, folder) if "auto" in str(words.scale) else words.file
        converting = Converting(words, convention, outputs, scales_of(words, path, convention))
        readings = readings_of(path, words)
        for one in in_order(readings, folder) if words.sort else readings:
            converting.take(one)
        converting.finish()
        outputs.commit()
    for line in converting.told():
        note(line)
    return 0
