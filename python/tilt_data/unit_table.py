"""`tilt-data units`: the scales of a query in units, the bounds of its values, and the query over whole numbers."""
from __future__ import annotations

import argparse
from typing import Any, Iterator, Mapping

from .convention import named_once
from .errors import Refused, TiltError, note
from .files import rows_in, scratch, writing
from .grammar import inputs_in, statements_of
from .running import readable, with_program_lines
from .scales import decimal_text, scale_of
from .tokens import without_points
from .units import Checked, checked_by, known_of, longest_window, scales_of_files, scales_text
from .why import bound, text_of

HELP = """Checks a query in units. It prints the scale of each input, of each definition and of the output, with their smallest and largest
values. Then comes the query over whole numbers that runs. The scale and the values of an input are those of its series, or are given. If
an expression can leave 64 bits, its definition is reported, and the status is 1."""


def add(commands: Any) -> None:
    parser = commands.add_parser("units", help="what a query in units computes with, and whether it can overflow", description=HELP)
    parser.add_argument("query", metavar="QUERY")
    parser.add_argument("binds", nargs="*", metavar="NAME=SERIES", help="the series file of an input: its scale, values and changes")
    parser.add_argument("--scale", metavar="SCALES", help="the scales of inputs without a series, as 10 or a=10,b=100 (1)")
    bounds = "the values of inputs, as NAME=LOW:HIGH,.. in their units; with LOW:HIGH:N/T the input changes at most N times in T ticks"
    parser.add_argument("--bounds", metavar="BOUNDS", help=bounds)
    parser.set_defaults(main=main)


@with_program_lines
def main(words: argparse.Namespace) -> int:
    with scratch() as folder:
        path = readable(words.query, folder)
        text, files = text_of(path), bound([words.query, *words.binds])
        scales = scales_of(words.scale, inputs_in(text), files)
        bounds = bounds_of(words.bounds, text, scales, files)
        options = [*scales_text(scales), *(["--bounds", bounds] if bounds else [])]
        found = checked_by(path, options, words.query)
        defined = dict(definition_scales(text, scales_text(scales), folder))
    with writing(None) as out:
        out.writelines(f"{line}\n" for line in table(found, defined, bool(bounds)))
        out.write(f"\n{found.query}")
    if bounds and found.overflow is not None:
        note(str(found.overflow))
        return 1
    return 0


def scales_of(given: str | None, names: list[str], files: Mapping[str, str]) -> dict[str, int]:
    """The scale of each input: that of its series, or the one that is given. A name that no input has is left to the program."""
    scales: dict[str, int] = {}
    for name, text in named_once("--scale", [] if given is None else given.split(",")).items():
        try:
            scales[name] = scale_of(text)
        except ValueError as error:
            raise Refused(f"--scale {given}: {error}, or NAME=N,..") from error
    other = scales.pop("", 1)
    both = next((name for name in scales if name in files), None)
    if both is not None:
        raise Refused(f"--scale {both}=..: {files[both]} has a scale of its own")
    return {**{name: other for name in names}, **scales, **scales_of_files(files, files)}


def bounds_of(given: str | None, text: bytes, scales: Mapping[str, int], files: Mapping[str, str]) -> str:
    """The bounds that are given, and those of the series of other inputs. The changes of a series are counted in the longest window."""
    bounds = [] if given is None else given.split(",")
    named = {word.partition("=")[0] for word in bounds}
    ticks = longest_window(text) + 1 if inputs_in(text) else 1
    known = {name: known_of(rows_in(file), ticks) for name, file in files.items() if name not in named}
    return ",".join([*bounds, *(f"{name}={one.bound(scales[name])}" for name, one in known.items())])


def definition_scales(text: bytes, options: list[str], folder: str) -> Iterator[tuple[str, int | None]]:
    """The scale of each definition, None of truth values: that of the output, if the definition is what is emitted."""
    parts = text.decode(errors="surrogateescape").split(";")
    for statement in statements_of(without_points(text)):
        if statement.form == "let":
            name = statement.name.text
            query = ";".join([*parts[: statement.number], f" emit {name} over (0, 1];"])
            try:
                yield name, 10 ** checked_by(Checked(query).put(folder), options).decimals
            except TiltError as error:
                # The scale of the output is no power of ten, or this is no number.
                yield name, int(error.line.split()[-1]) if error.line.startswith("tilt: 119 ") else None


def table(found: Checked, defined: Mapping[str, int | None], has_bounds: bool) -> Iterator[str]:
    """A line for each input, for each definition and for the output."""
    scales = {**found.scales, **defined, "emit": 10**found.decimals}
    rows = [["", "scale", *(["smallest", "largest", "changes"] if has_bounds else [])]]
    for name, scale in scales.items():
        row = [f"let {name}" if name in defined else name, "" if scale is None else str(scale)]
        if has_bounds:
            row += [decimal_text(bound, scale or 1) for bound in found.bounds.get(name, ())] or ["", ""]
            row += ["at most {} in {} ticks".format(*found.rates[name]) if name in found.rates else ""]
        rows.append(row)
    widths = [max(map(len, column)) for column in zip(*rows)]
    for first, *others in rows:
        yield "  ".join([first.ljust(widths[0]), *(text.rjust(width) for text, width in zip(others, widths[1:]))]).rstrip()
    yield f"decimals of the output: {found.decimals}"
