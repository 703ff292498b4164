"""Queries from Python: pandas' Series and DataFrames, or files, in; a DataFrame with an IntervalIndex, or with timestamps, out.

Values are whole numbers for the program: a float is taken by the shortest decimal text that its type reads back, times the scale. Times
are those of pandas, in nanoseconds; without a zone they are UTC."""
from __future__ import annotations

import contextlib
import dataclasses
import functools
import os
import re
import sys
import warnings
from typing import TYPE_CHECKING, Any, Callable, Iterable, Iterator, Literal, Mapping, Union, Unpack, get_args

from . import program
from .clock import TIMES, Clock, duration_of, duration_text, moment_text
from .convention import Convention, Options, check_flag, check_one_of, convention_of, moment_read
from .convert import Converter
from .errors import Refused, TiltError
from .files import HEADER_LINE, Notes, Outputs, check_replaceable, failing_at, notes_of, notes_path, reading, safe, scratch
from .keys import APART, Alone, Batches, readings_by_key
from .over import Extent, Over, cut_note, edges_of, over_of
from .program import Explained
from .rows import RowArrays, arrays_in, beyond, fits, marks_in, output_of, rows_pushed
from .tokens import decimals_in, without_points
from .units import Checked, Known, Units, counted, longest_window, noted, overflow_of, put
from .whole import digits_in, whole_numbers
from .why import check

if TYPE_CHECKING:
    import pandas

    from .live import Live

    Input = Union[pandas.Series, str, os.PathLike[str]]

Index = Literal["interval", "start", "end"]
Range = Literal["query", "data"]
KeyOrigin = Literal["shared", "own"]


class RunOptions(Options, total=False):
    """The arguments of `run` besides the query and the data."""

    over: Range | None
    nulls: bool
    key_origin: KeyOrigin
    by: str | None
    merge: bool
    index: Index
    exact: bool
    whole: bool
    inputs: Mapping[str, Any] | None
    convention: Convention | None


# Those that aren't of a convention.
ARGUMENTS = tuple(name for name in RunOptions.__annotations__ if name not in Options.__annotations__)
# The rows of each input that is a Series, many at a time.
Rows = Iterator[tuple[str, Iterator[RowArrays]]]
# The moments that pandas has.
FIRST, LAST = -(2**63) + 1, 2**63 - 1


class Query:
    """A query: its text, or the path of a file that has it."""

    def __init__(self, query: str | os.PathLike[str]) -> None:
        text = os.fspath(query)
        # A query has a `;` at its end, and so is no name of a file.
        if isinstance(query, os.PathLike) or not re.search(r"[;\s]", text) or text.endswith(".tilt") or os.path.isfile(text):
            # The program rejects a byte order mark, and sees it here too.
            with reading(text, encoding="utf-8") as file:
                self.text, self.name = file.read(), text
        else:
            self.text, self.name = text, "query"

    @property
    def inputs(self) -> list[str]:
        """The names of its inputs, in order."""
        return list(self.explained.inputs)

    @functools.cached_property
    def explained(self) -> Explained:
        with scratch() as folder:
            plain = without_points(self.text.encode()).decode()
            return self.explained_by(self.put(folder), self.put(folder, plain, "plain.tilt"))

    def explained_by(self, query: str, plain: str) -> Explained:
        """What `tilt explain` prints of the query in a file, given one with its text without points."""
        called = program.call(["explain", plain])
        check(called, ["explain", query], self.name)
        return Explained.of(called.printed.decode())

    def explain(self, is_whole: bool = False) -> Explained:
        """How far it looks and which loops it has; a query that is refused raises a TiltError with the place. One over whole numbers has no
        decimals."""
        if not is_whole:
            return self.explained
        with scratch() as folder:
            path = self.put(folder)
            return self.explained_by(path, path)

    def put(self, folder: str, text: str | None = None, name: str = "query.tilt") -> str:
        """Writes the query, or a text in its place, to a folder: the path."""
        return put((self.text if text is None else text).encode(), folder, name)

    def over_whole(self, inputs: Inputs, is_whole: bool = False) -> Checked:
        """The query over whole numbers. If a number in it isn't whole at a scale that the data give, they get the scale of all numbers."""
        text = self.text.encode()
        units = Units(text, self.name, is_whole)
        try:
            return units.whole(inputs.scales) or Checked(self.text)
        except TiltError as error:
            if not error.line.startswith("tilt: 114 ") or not inputs.refine(10 ** decimals_in(text)):
                raise
        return units.whole(inputs.scales) or Checked(self.text)

    def run(self, data: Any = None, **options: Unpack[RunOptions]) -> pandas.DataFrame:
        """What `tilt run` prints, as a DataFrame with the column `value`; see `run`."""
        given: dict[str, Any] = dict(options)
        by, named = given.pop("by", None), dict(given.pop("inputs", None) or {})
        look = Look(**{field.name: given.pop(field.name) for field in dataclasses.fields(Look) if field.name in given})
        convention = convention_of(given.pop("convention", None), given, ARGUMENTS)
        if look.key_origin == "own" and (by is None or convention.origin is not None):
            what = "there are no keys without by=" if by is None else f"origin={convention.origin!r} is that of all keys"
            raise Refused(f"key_origin='own': {what}")
        if by is not None:
            return self.by_key(data, by, look, convention, named)
        named = {**frame_inputs(data, self.inputs), **named}
        inputs = Inputs.of(self.inputs, named, convention)
        whole = self.over_whole(inputs, look.whole)
        with scratch() as folder:
            own, files, extents = over_of(whole.query), dict(inputs.files), dict[str, Extent]()
            for name, parts in inputs.rows():
                extents[name] = Extent(own)
                files[name] = put_rows(folder, name, extents[name].texts(parts))
            text, start, end = over_in(whole.query, own, extents, files, look.over)
            self.warn_of_overflow(inputs, extents, inputs.rows, look.whole)
            rows = self.rows_of_run(folder, text, {name: files[name] for name in self.inputs})
        return inputs.shape(whole.decimals).frame(look.kept(rows, start, end), look)

    def rows_of_run(self, folder: str, text: str, files: dict[str, str]) -> RowArrays:
        """What the program prints for the query with this text over these files; its own are in the folder."""
        out, words = os.path.join(folder, "out.csv"), ["run", self.put(folder, text), *(f"{name}={file}" for name, file in files.items())]
        with failing_at(out), open(out, "wb") as file:
            check(program.call(words, file), words, self.name)
        return output_of(out)

    def by_key(self, data: Any, by: str, look: Look, convention: Convention, named: dict[str, Any]) -> pandas.DataFrame:
        """The output for each key of a column; the keys are the first level of the index."""
        keys = keys_of(data, by)
        parts = {name: data[name] for name in self.inputs if name in data.columns and name != by}
        inputs = Inputs.of(self.inputs, {**parts, **named}, convention)
        whole = self.over_whole(inputs, look.whole)
        # All keys have the scales and the edges of the whole, and its clock unless each has its own.
        clock = inputs.clock
        shared: dict[str, Any] = {"tick": duration_text(clock.tick), "closed": clock.closed, "scale": inputs.scales}
        if look.key_origin == "shared":
            shared["origin"] = moment_text(clock.origin, 9)
        convention = convention_of(convention, shared)
        if keys is not None and not named and list(parts) == self.inputs and parts:
            # What is rejected is found in the order of the keys.
            with contextlib.suppress(Alone, Refused):
                return self.by_batches(data, keys, look, convention, inputs, whole)
        return self.by_runs(data, by, look, convention, named)

    def by_runs(self, data: Any, by: str, look: Look, convention: Convention, named: dict[str, Any]) -> pandas.DataFrame:
        import pandas

        options: Any = {**dataclasses.asdict(look), "key_origin": "shared", "convention": convention, "inputs": named}
        found = {key: self.run(part.drop(columns=by), **options) for key, part in data.groupby(by, sort=True, observed=True)}
        return pandas.concat(found, names=[by]) if found else pandas.DataFrame({"value": []})

    def by_batches(self, data: Any, keys: Keys, look: Look, convention: Convention, inputs: Inputs, whole: Checked) -> pandas.DataFrame:
        """Runs over many keys at a time, as `keys.py` says it."""
        own, clock, shape = over_of(whole.query), inputs.clock, inputs.shape(whole.decimals)
        if own.common is None or not len(keys.keys):
            raise Alone
        bounds, order = readings_by_key(keys.numbers, len(keys.keys))
        explained, moments = self.explain(), moments_of(data.index, "the index")
        moments = moments if order is None else moments[order]
        columns = {name: data[name] if order is None else data[name].iloc[order] for name in self.inputs}
        values = {name: whole_numbers(name, one, convention.scale_of(name) or 1) for name, one in columns.items()}
        parts = [slice(begin, end) for begin, end in zip(bounds, bounds[1:])]
        clocks = [clock] * len(parts)
        if look.key_origin == "own":
            clocks = [dataclasses.replace(clock, origin=midnight(int(moments[part].min()), shape.zone)) for part in parts]
            if any((one.origin - clock.origin) % clock.tick for one in clocks):
                raise Alone

        def rows_of(name: str, part: slice, clock: Clock) -> RowArrays:
            numbers, known = values[name]
            converter = Converter(clock, convention.rule(name, clock))
            there = None if known is None else known[part]
            return RowArrays.joined(rows_of_readings(name, converter, convention, moments[part], numbers[part], there))

        def all_rows() -> Iterator[dict[str, RowArrays]]:
            return ({name: rows_of(name, part, one) for name in self.inputs} for part, one in zip(parts, clocks))

        with scratch() as folder:
            reach = explained.back + APART, explained.ahead + APART
            batches = Batches(functools.partial(self.run_over, folder, own, whole.query), reach, own, look.over == "data")
            outputs = [look.kept(output, one.start, one.end) for one, output in batches.outputs(all_rows())]
        if look.over is None:
            warn(cut_note(own, batches.extents))
        each = ((name, iter([one])) for rows in all_rows() for name, one in rows.items())
        self.warn_of_overflow(inputs, batches.extents, lambda: each, look.whole)
        shifts = [(one.origin - clock.origin) // clock.tick for one in clocks]
        return shape.keyed(keys, [output.moved(shift) for output, shift in zip(outputs, shifts)], look)

    def run_over(self, folder: str, own: Over, text: str, rows: dict[str, RowArrays], over: tuple[int, int]) -> RowArrays:
        files = {name: put_rows(folder, name, (part.text() for part in one.blocks())) for name, one in rows.items()}
        return self.rows_of_run(folder, own.moved(text, *over), files)

    def warn_of_overflow(self, inputs: Inputs, extents: Mapping[str, Extent], rows: Callable[[], Rows], is_whole: bool) -> None:
        """Warns if a value of the query can leave 64 bits, by the numbers of its inputs, and by their rows if they don't exclude it."""
        both = {name: extent.extremes.both for name, extent in extents.items()}
        known = {**noted(inputs.files), **{name: Known(least or 0, greatest or 0) for name, (least, greatest) in both.items()}}
        if not known or len(known) < len(self.inputs):
            return
        ticks = longest_window(self.text.encode()) + 1

        def exactly() -> dict[str, Known]:
            marks = dict.fromkeys(both, 1)
            for name, parts in rows():
                marks[name] = max(marks[name], marks_in(parts, ticks))
            found = {name: known[name]._replace(marks=most, ticks=ticks) for name, most in marks.items()}
            return {**found, **counted(inputs.files, ticks)}

        with scratch() as folder:
            scales = dict.fromkeys(known, 1) if is_whole else inputs.scales
            overflow = overflow_of(self.put(folder), scales, known, exactly)
        warn(None if overflow is None else str(overflow))

    def live(self, convention: Convention | None = None, *, state: bytes | None = None, **options: Unpack[Options]) -> Live:
        """A run that takes readings or rows as they come, by the arguments of `run` about readings; `origin` and `scale` are needed. With
        what `Live.state` returned it goes on from there."""
        from .live import Live

        return Live(self, convention_of(convention, options, ("convention", "state")), state)


def run(query: str | os.PathLike[str] | Query, data: Any = None, **options: Unpack[RunOptions]) -> pandas.DataFrame:
    """Runs a query. The inputs are the columns of `data`, a DataFrame with a DatetimeIndex, or are in `inputs={name: Series or file}`.

    A Series with a DatetimeIndex has readings, which become rows by the options of a `Convention`: `tick`, `origin`, `closed`, `event`,
    `max_age`, `until`, `ties`, `scale` and `skip_empty`. One with an IntervalIndex has rows, and a file is a
    series with its JSON file beside it. `by` is a column of keys, `merge` (False) joins equal neighbours, `index` is `interval` (the
    default), `start` or `end`, and `exact` (False) gives Decimals in place of floats. `over="data"` takes all ticks of the data in place of
    the query's `over`, and `over="query"` says that rows outside of it are left out on purpose. `nulls` (False) gives gaps rows without a
    value, and `key_origin="own"` each key the midnight before its first reading as its origin.

    Numbers in the query and the values of the output are in the units of the data, whatever their scale. `whole=True` (False) takes both
    as whole numbers, the values of the data times their scale.

    A wrong argument raises `Refused`, and what the program rejects a `TiltError`. It is a warning if the query's `over` leaves rows out,
    or if a value of the query can leave 64 bits.

    >>> hours = pandas.Series([1, 2], pandas.to_datetime(["2026-03-01 00:00", "2026-03-01 01:00"]))
    >>> run("input x; emit x over (0, 1];", hours, tick="1h", over="data", index="start")["value"].tolist()
    [1, 2]
    """
    return (query if isinstance(query, Query) else Query(query)).run(data, **options)


def span(
    data: Any = None, *, inputs: Mapping[str, Any] | None = None, convention: Convention | None = None, **options: Unpack[Options]
) -> tuple[int, int]:
    """The ticks `(start, end]` over which the inputs have rows, by the arguments that `run` takes: a query has them in its `over`."""
    import pandas

    convention = convention_of(convention, options, ("inputs", "convention"))
    frame = data.to_frame("the Series") if isinstance(data, pandas.Series) else data
    named = {**frame_inputs(frame, [] if frame is None else list(frame.columns)), **(inputs or {})}
    # Of a value counts only whether it is there.
    there = {name: one.notna().map({True: 1}) if isinstance(one, pandas.Series) else one for name, one in named.items()}
    found = Inputs.of(list(there), there, convention)
    rows = [Extent.of(parts) for _, parts in found.rows()]
    return needed_edges([*rows, *(Extent.of(arrays_in(file)) for file in found.files.values())])


def series(
    data: Any = None,
    folder: str | os.PathLike[str] = ".",
    *,
    inputs: Mapping[str, Any] | None = None,
    convention: Convention | None = None,
    **options: Unpack[Options],
) -> dict[str, str]:
    """Writes each column of a DataFrame, or each Series of `inputs`, to a series file with its JSON file, by the arguments that `run`
    takes: the path of each by its name, for the `inputs` of many runs. A file among `inputs` gives its clock, and its path. A file that
    `tilt-data` didn't write isn't replaced."""
    convention = convention_of(convention, options, ("inputs", "convention"))
    named = {**frame_inputs(data, [str(name) for name in getattr(data, "columns", [])]), **(inputs or {})}
    files, columns = parted(named)
    paths = {name: os.path.join(folder, f"{safe(name)}.csv") for name in columns}
    for path in paths.values():
        check_replaceable(path, "name another folder")
    with Outputs() as outputs:
        write_series(outputs, named, paths, convention)
        outputs.commit()
    return {name: {**files, **paths}[name] for name in named}


def write_series(outputs: Outputs, named: dict[str, Any], paths: Mapping[str, str], convention: Convention) -> None:
    """Writes the Series among some inputs, which have one clock, to files with their notes."""
    inputs, extents = Inputs.of(list(named), named, convention), dict[str, Extent]()
    for name, parts in inputs.rows():
        outputs.write(paths[name], HEADER_LINE.decode())
        extents[name] = Extent()
        for text in extents[name].texts(parts):
            outputs.write(paths[name], text.decode())
    zone = getattr(inputs.zone, "key", None) or getattr(inputs.zone, "zone", None)
    for name, one in inputs.series.items():
        kind = "event" if convention.is_event(name) and closed_in(name, one.index) is None else "hold"
        notes = Notes(inputs.clock, inputs.scales[name], kind, name, None, zone, *extents[name].extremes.both)
        outputs.write(notes_path(paths[name]), notes.text())


# Inputs


def put_rows(folder: str, name: str, texts: Iterable[bytes]) -> str:
    """Writes the lines of an input's rows to a series file: its path."""
    path = os.path.join(folder, f"rows.{name}.csv")
    with failing_at(path), open(path, "wb") as file:
        file.write(HEADER_LINE)
        file.writelines(texts)
    return path


def over_in(text: str, own: Over, extents: dict[str, Extent], files: dict[str, str], over: Range | None) -> tuple[str, int, int]:
    """A query and its `over`, or if that is asked for, the query over all ticks in which the inputs have rows. If it isn't said that the
    `over` of the query is meant, rows that it leaves out are a warning."""
    if over == "data":
        others = [Extent.of(arrays_in(file)) for name, file in files.items() if name not in extents]
        start, end = own.around(*needed_edges([*extents.values(), *others], "over='data': "))
        return own.moved(text, start, end), start, end
    if over is None:
        warn(cut_note(own, extents))
    return text, own.start, own.end


def needed_edges(extents: list[Extent], option: str = "") -> tuple[int, int]:
    edges = edges_of(extents)
    if edges is None:
        raise Refused(f"{option}the inputs have no readings, and no span")
    return edges


def warn(text: str | None) -> None:
    """A warning at the line that called this package."""
    level, frame = 1, sys._getframe()
    while frame.f_back is not None and frame.f_globals["__name__"].startswith("tilt_data."):
        level, frame = level + 1, frame.f_back
    if text is not None:
        warnings.warn(text, stacklevel=level)


@dataclasses.dataclass(frozen=True)
class Keys:
    """The keys of a column in order, its name, and the number of the key in each row."""

    name: str
    keys: Any
    numbers: Any


def keys_of(data: Any, by: Any) -> Keys | None:
    """The keys of a column; None if they have no order, or are categories. A column of keys that isn't one column, or doesn't have one key
    in each row, is rejected."""
    import pandas

    count = list(data.columns).count(by) if isinstance(data, pandas.DataFrame) else 0
    if count != 1:
        what = f"a DataFrame with this column was expected{f', not with {count} of this name' if count else ''}"
        raise Refused(f"by={by!r}: {what}")
    try:
        numbers, keys = pandas.factorize(data[by], sort=True)
    except TypeError:
        numbers, keys = None, data[by]
    keyless = int((data[by].isna() if numbers is None else numbers == -1).sum())
    if keyless:
        raise Refused(f"by={by!r}: a key was expected in each row, and {keyless} of {len(data)} have none: dropna(subset=[{by!r}])")
    strange = next((key for key in keys if not pandas.api.types.is_scalar(key)), None)
    if strange is not None:
        raise Refused(f"by={by!r}: a text, a number or a time was expected as a key, not {strange!r}: astype(str)")
    is_ordered = numbers is not None and not isinstance(data[by].dtype, pandas.CategoricalDtype)
    return Keys(by, keys, numbers) if is_ordered else None


def frame_inputs(data: Any, names: list[str]) -> dict[str, Any]:
    """The columns of a DataFrame that the query reads; a Series where it reads one input alone."""
    import pandas

    if data is None:
        return {}
    if isinstance(data, pandas.Series):
        if len(names) != 1:
            raise Refused(f"a DataFrame with the columns {', '.join(names)} was expected, or inputs={{name: Series}}")
        return {names[0]: data}
    if not isinstance(data, pandas.DataFrame):
        raise Refused("a Series or a DataFrame was expected, or inputs={name: file}")
    twice = next((name for name in names if list(data.columns).count(name) > 1), None)
    if twice is not None:
        raise Refused(f"the input {twice}: the DataFrame has {list(data.columns).count(twice)} columns of this name")
    return {name: data[name] for name in names if name in data.columns}


def moments_of(index: Any, what: str) -> Any:
    import pandas

    if not isinstance(index, pandas.DatetimeIndex):
        raise Refused(f"{what}: a DatetimeIndex was expected, not {type(index).__name__}")
    if index.hasnans:
        raise Refused(f"{what}: a time is missing in its index")
    if hasattr(index, "as_unit"):
        index = index.as_unit("ns")
    return index.asi8


def auto_scale(series: Mapping[str, Any]) -> int:
    """The smallest power of ten that makes all values whole."""
    return int(10 ** max((digits_in(name, one) for name, one in series.items()), default=0))


@dataclasses.dataclass(frozen=True)
class Look:
    """What the caller asks of an output: whether equal neighbours are joined, which times are its index (`interval`, `start` or `end`),
    whether values are Decimals, whether gaps have rows, whether the query and its values are in whole numbers, over which ticks it is, and
    the origin of each key."""

    merge: bool = False
    index: Index = "interval"
    exact: bool = False
    nulls: bool = False
    whole: bool = False
    over: Range | None = None
    key_origin: KeyOrigin = "shared"

    def __post_init__(self) -> None:
        check_one_of("index", self.index, get_args(Index))
        check_one_of("over", self.over, (*get_args(Range), None))
        check_one_of("key_origin", self.key_origin, get_args(KeyOrigin))
        for name in ("merge", "exact", "nulls", "whole"):
            check_flag(name, getattr(self, name))

    def kept(self, rows: RowArrays, start: int, end: int) -> RowArrays:
        """The rows of an output over these ticks, joined and with gaps as it is asked for."""
        kept = rows.merged() if self.merge else rows
        return kept.filled(start, end) if self.nulls else kept


@dataclasses.dataclass(frozen=True)
class Shape:
    """How the output is shown: its clock, the zone of the times, None for times without one, and the scale of its values."""

    clock: Clock
    zone: Any
    scale: int

    def frame(self, rows: RowArrays, look: Look | None = None) -> pandas.DataFrame:
        import pandas

        look = look or Look()
        return pandas.DataFrame({"value": rows.shown(self.scale, look.exact)}, index=self.index(rows.starts, rows.ends, look))

    def index(self, starts: Any, ends: Any, look: Look) -> Any:
        import pandas

        if look.index != "interval":
            return self.times(starts if look.index == "start" else ends)
        return pandas.IntervalIndex.from_arrays(self.times(starts), self.times(ends), closed=self.clock.closed)

    def keyed(self, keys: Keys, outputs: list[RowArrays], look: Look) -> pandas.DataFrame:
        """The rows of each key as one DataFrame, whose index has the keys as its first level."""
        import numpy
        import pandas

        rows = RowArrays.joined(outputs)
        (starts, first), (ends, last) = (pandas.factorize(ticks, sort=True) for ticks in (rows.starts, rows.ends))
        if look.index != "interval":
            (starts, first), last = ((starts, first), first) if look.index == "start" else ((ends, last), last)
            places, distinct = starts, numpy.arange(len(last))
            times = self.index(last, last, look)
        else:
            places, distinct = pandas.factorize(starts * max(1, len(last)) + ends, sort=True)
            times = self.index(first[distinct // max(1, len(last))], last[distinct % max(1, len(last))], look)
        numbers = numpy.repeat(numpy.arange(len(outputs)), [len(one) for one in outputs])
        levels, names = [pandas.Index(list(keys.keys)), times], [keys.name, None]
        index = pandas.MultiIndex(levels=levels, codes=[numbers, places], names=names, verify_integrity=False)
        return pandas.DataFrame({"value": rows.shown(self.scale, look.exact)}, index=index)

    def times(self, ticks: Any) -> pandas.DatetimeIndex:
        import numpy
        import pandas

        edges = [self.clock.moment(int(tick)) for tick in (ticks.min(), ticks.max())] if len(ticks) else []
        if edges and not FIRST <= edges[0] <= edges[1] <= LAST:
            raise Refused("the output goes beyond 1677-09-21 to 2262-04-11, the times that pandas has: give the query a shorter `over`")
        # Sums and products of 64 bits lose only multiples of 2**64, and each moment is within 64 bits.
        tick, origin = (numpy.array([number % 2**64], "u8").view("i8") for number in (self.clock.tick, self.clock.origin))
        times = pandas.DatetimeIndex((ticks * tick + origin).view("M8[ns]"))
        return times if self.zone is None else times.tz_localize("UTC").tz_convert(self.zone)


@dataclasses.dataclass
class Inputs:
    """The inputs of a query on one clock: those that are files, and those that are Series; the scale of each, and those
    whose scale the data gave; and the zone of the times, None for times without one."""

    convention: Convention
    clock: Clock
    files: dict[str, str]
    series: dict[str, Any]
    scales: dict[str, int]
    by_data: list[str]

    @staticmethod
    def of(names: list[str], named: dict[str, Any], convention: Convention) -> Inputs:
        missing = [name for name in names if name not in named]
        other = [name for name in named if name not in names]
        if missing or other:
            what = f"{missing[0]} isn't given" if missing else f"not {other[0]}"
            raise Refused(f"the query reads {', '.join(names) or 'no inputs'}: {what}")
        convention.check_names(names)
        files, series = parted(named)
        noted = {name: notes_of(file) for name, file in files.items()}
        known = {name: notes for name, notes in noted.items() if notes is not None}
        by_data = [name for name in series if convention.scale_of(name) is None]
        auto = auto_scale({name: series[name] for name in by_data})
        scales = {name: scale_of(name, known, convention) or (auto if name in series else 1) for name in names}
        return Inputs(convention, clock_of(known, series, convention), files, series, scales, by_data)

    @property
    def zone(self) -> Any:
        return next((zone_in(one.index) for one in self.series.values()), None)

    def refine(self, scale: int) -> bool:
        """Gives a scale to the inputs whose own the data gave, if that is larger; whether one changed."""
        finer = {name: scale for name in self.by_data if self.scales[name] < scale}
        self.scales |= finer
        return bool(finer)

    def rows(self) -> Rows:
        """The rows of each Series."""
        return ((name, arrays_of(name, one, self.clock, self.convention, self.scales[name])) for name, one in self.series.items())

    def shape(self, decimals: int) -> Shape:
        return Shape(self.clock, self.zone, int(10**decimals))


def parted(named: Mapping[str, Any]) -> tuple[dict[str, str], dict[str, Any]]:
    """The inputs that are files, and those that are Series."""
    import pandas

    files = {name: os.fspath(one) for name, one in named.items() if isinstance(one, (str, os.PathLike))}
    series = {name: one for name, one in named.items() if isinstance(one, pandas.Series)}
    for name in named:
        if name not in files and name not in series:
            raise Refused(f"the input {name}: a Series or the name of a file was expected, not {type(named[name]).__name__}")
    return files, series


def zone_in(index: Any) -> Any:
    return getattr(getattr(index, "left", index), "tz", None)


def clock_of(known: dict[str, Notes], series: dict[str, Any], convention: Convention) -> Clock:
    """The clock: of the files, if some have JSON files, else of the convention and the readings."""
    closed = closed_of(known, series, convention)
    if known:
        return dataclasses.replace(shared_clock(known, convention), closed=closed)
    origin = first_midnight(series) if convention.origin is None else moment_read("origin", convention.origin)
    return Clock(duration_of(convention.tick or "1s"), origin, closed)


def scale_of(name: str, known: dict[str, Notes], convention: Convention) -> int | None:
    """The scale of an input: that of its file, or the one that the caller gives; None if neither is there."""
    scale = convention.scale_of(name)
    if name not in known:
        return scale
    own = known[name].scale
    if scale not in (own, None) and isinstance(convention.scale, Mapping):
        raise Refused(f"{convention.shown('scale', name)}={scale}: the file of the input {name} has the scale {own}")
    return own


def shared_clock(known: dict[str, Notes], convention: Convention) -> Clock:
    """The clock of the files. They have the same tick and origin, and the caller gives no others."""
    (first, notes), *others = known.items()
    clock = notes.clock
    for name, other in others:
        if (other.clock.tick, other.clock.origin) != (clock.tick, clock.origin):
            raise Refused(f"the series {first} and {name} have other ticks or origins: write one --like the other")
    if convention.tick is not None and duration_of(convention.tick) != clock.tick:
        raise Refused(f"tick={convention.tick!r}: the file of the input {first} has the tick {duration_text(clock.tick)}")
    if convention.origin is not None and moment_read("origin", convention.origin) != clock.origin:
        raise Refused(f"origin={convention.origin!r}: the file of the input {first} has the origin {moment_text(clock.origin, 9)}")
    return clock


def closed_of(known: dict[str, Notes], series: dict[str, Any], convention: Convention) -> str:
    """Which edge of a tick belongs to it: by the files and the intervals, which agree, or by the caller."""
    files = {name: notes.clock.closed for name, notes in known.items()}
    intervals = {name: closed_in(name, one.index) for name, one in series.items()}
    has = {**files, **{name: closed for name, closed in intervals.items() if closed is not None}}
    closed = convention.closed
    if closed is None:
        if len(set(has.values())) > 1:
            told = ", ".join(f"{name} is closed {closed!r}" for name, closed in has.items())
            raise Refused(f"the inputs don't have the same closed edge: {told}; closed= says which one the files have")
        return next(iter(has.values()), "left")
    # Files that differ from each other are read as the caller says; what all of them, or intervals, say isn't overridden.
    own = {name: its for name, its in has.items() if name not in files or len(set(files.values())) == 1}
    other = next((name for name, its in own.items() if its != closed), None)
    if other is not None:
        cure = "index.set_closed() changes it" if other in series else "omit closed="
        raise Refused(f"closed={closed!r}: the input {other} is closed {own[other]!r}; {cure}")
    return closed


def closed_in(name: str, index: Any) -> str | None:
    """The closed edge of intervals; None for readings."""
    import pandas

    if not isinstance(index, pandas.IntervalIndex):
        return None
    if index.closed not in ("left", "right"):
        what = f"intervals that are closed 'left' or 'right' were expected, not {index.closed!r}: index.set_closed()"
        raise Refused(f"the input {name}: {what}")
    return str(index.closed)


def first_midnight(series: dict[str, Any]) -> int:
    """The midnight before the first reading, in the zone of the first Series. A day that has no midnight starts at its first moment."""
    starts = [int(moments_of(getattr(one.index, "left", one.index), f"the input {name}").min()) for name, one in series.items() if len(one)]
    return midnight(min(starts), next(zone_in(one.index) for one in series.values())) if starts else 0


def midnight(moment: int, zone: Any) -> int:
    """The midnight of a zone before the first reading, which is at this moment."""
    import pandas

    try:
        local = pandas.Timestamp(moment, tz="UTC").tz_convert(zone or "UTC").tz_localize(None).normalize()
        return int(local.tz_localize(zone or "UTC", ambiguous=True, nonexistent="shift_forward").value)
    except (ValueError, OverflowError) as error:
        what = f"the midnight before the first reading, {moment_text(moment, 9)}"
        raise Refused(f"{what}, is no time that pandas has: give origin=") from error


def arrays_of(name: str, series: Any, clock: Clock, convention: Convention, scale: int) -> Iterator[RowArrays]:
    """The rows of a Series, many at a time."""
    import pandas

    values, known = whole_numbers(name, series, scale)
    if isinstance(series.index, pandas.IntervalIndex):
        yield rows_of_intervals(name, series.index, clock, values, known)
        return
    converter = Converter(clock, convention.rule(name, clock))
    yield from rows_of_readings(name, converter, convention, moments_of(series.index, f"the input {name}"), values, known)


def rows_of_readings(name: str, converter: Converter, convention: Convention, moments: Any, values: Any, known: Any) -> Iterator[RowArrays]:
    """The rows of all readings of an input."""
    yield from rows_of_some(name, converter, convention, moments, values, known)
    yield final_row(name, converter, convention)


def rows_of_some(name: str, converter: Converter, convention: Convention, moments: Any, values: Any, known: Any) -> Iterator[RowArrays]:
    """The rows that readings of an input end."""
    if convention.skips_empty(name) and known is not None:
        moments, values, known = moments[known], values[known], None
    return rows_pushed(name, converter, moments, values, known)


def final_row(name: str, converter: Converter, convention: Convention) -> RowArrays:
    """The row of the last reading; none if there is no reading."""
    row = converter.finish(None if convention.until is None else converter.clock.start(moment_read("until", convention.until)))
    if row is not None and not -TIMES <= row[0] < row[1] <= TIMES:
        raise beyond(name)
    return RowArrays.of([] if row is None else [row])


def rows_of_intervals(name: str, index: Any, clock: Clock, values: Any, known: Any) -> RowArrays:
    """The rows of intervals, whose ends have to be ends of ticks."""
    if index.closed != clock.closed:
        raise Refused(f"the input {name}: its intervals are closed {index.closed!r}, not {clock.closed!r}: closed= or index.set_closed()")
    ends = [moments_of(edge, f"the input {name}") for edge in (index.left, index.right)]
    extremes = [int(edge) - clock.origin for edges in ends if len(edges) for edge in (edges.min(), edges.max())]
    if extremes and not fits(clock.tick, min(extremes), max(extremes)):
        ends = [edges.astype(object) for edges in ends]
    starts, stops = ((edges - clock.origin) // clock.tick for edges in ends)
    off = [(edges - clock.origin) % clock.tick != 0 for edges in ends]
    wrong = off[0] | off[1] | (starts < -TIMES) | (stops > TIMES)
    if wrong.any():
        at = int(wrong.argmax())
        moment = next((int(edges[at]) for edges, is_off in zip(ends, off) if is_off[at]), None)
        if moment is None:
            raise beyond(name)
        raise Refused(f"the input {name}: the interval end {moment_text(moment, 9)} isn't on a tick: a shorter tick")
    return RowArrays(starts.astype("i8"), stops.astype("i8"), values, known)
