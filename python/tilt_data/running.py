"""`tilt-data run` and `tilt-data why`: what `tilt` says, and where it refuses the place of the mistake, what was expected and a cure.

The program's own line stands first, and nothing is added that says otherwise: a place is told only where the reading here comes to the
line of the program. A query in units is translated first, and the values of its output are decimals."""
from __future__ import annotations

import argparse
import dataclasses
import os
import sys
from typing import Any, Callable, TypeVar

from .clock import duration_of
from .errors import TiltError, note, printable
from .files import scratch, spooled, writing
from .grammar import inputs_in
from .hints import in_time, unfilled
from .program import Called, Explained, call
from .tokens import decimals_in, without_points
from .units import Checked, Units, checked, overflow_of_files, write_in_units
from .why import bound, clashes_of, refusal_of, text_of

WHOLE = "--whole"
T = TypeVar("T")


def with_program_lines(main: Callable[[T], int]) -> Callable[[T], int]:
    """What the program says of a query is printed as it is."""

    def called(words: T) -> int:
        try:
            return main(words)
        except TiltError as error:
            print("\n".join(map(printable, str(error).split("\n"))), file=sys.stderr)
            return error.status

    return called


def readable(query: str, folder: str) -> str:
    """A query that can be read more than once: its file, or a copy of what comes from a pipe."""
    return spooled(query, folder) if os.path.exists(query) else query


def reported(called: Called, words: list[str], query: str) -> int:
    """Prints the program's line, and what there is to say of it; the status. The query is named as the caller knows it."""
    sys.stderr.write(called.told)
    refusal = refusal_of(called.told, words) if called.status else None
    if refusal is not None and refusal.file == words[0]:
        refusal = dataclasses.replace(refusal, file=query)
    for line in refusal.lines() if refusal is not None else ():
        print(line, file=sys.stderr)
    return called.status if called.status >= 0 else 128 - called.status


def run_in_units(whole: Checked, words: list[str], folder: str) -> Called:
    """Runs the query over whole numbers with the arguments of the query in units, and prints its output in units."""
    path, out = whole.put(folder), os.path.join(folder, "out.csv")
    if not whole.decimals:
        return call(["run", path, *words], None, None)
    with open(out, "wb") as file:
        called = call(["run", path, *words], file, None)
    with writing(None) as shown:
        write_in_units(out, shown, whole.decimals, whole.decimals)
    return called


@with_program_lines
def run(words: list[str]) -> int:
    """`tilt run` with these words, of a query in units unless --whole is one of them: its status."""
    query, *others = [word for word in words if word != WHOLE] or [""]
    with scratch() as folder:
        path = readable(query, folder)
        given = [path, *others][: len(words)]
        files, units = bound(given), Units(text_of(path), query, WHOLE in words)
        scales = units.scales(files)
        whole = units.whole(scales)
        overflow = overflow_of_files(path, scales, [files])
        if overflow is not None:
            note(f"note: {overflow}")
        called = run_in_units(whole, others, folder) if whole is not None else call(["run", *given], None, None)
        status = reported(called, given, query)
    clash = None if status else clashes_of(files, whole is None)
    if clash:
        note(f"note: {printable(clash)}")
    return status


@with_program_lines
def why(words: argparse.Namespace) -> int:
    """What `tilt explain` prints of a query, and hints. One in units is checked first, at a scale at which all its numbers are whole."""
    tick = None if words.tick is None else duration_of(words.tick)
    with scratch() as folder:
        path = readable(words.query, folder)
        text = text_of(path)
        digits = decimals_in(text)
        plain = path
        if digits:
            checked(path, {name: 10 ** min(digits, 18) for name in inputs_in(text)}, name=words.query)
            plain = Checked(without_points(text).decode(errors="surrogateescape")).put(folder)
        status = reported(call(["explain", plain], None, None), [path], words.query)
        if status == 0 and tick is not None:
            for line in in_time(Explained.of(call(["explain", plain]).printed.decode()), tick):
                print(line)
    if status == 0:
        for hint in unfilled(without_points(text)):
            note(f"note: {hint}")
    return status


def add(commands: Any) -> None:
    # It is here for the list of commands and its own help: `cli.main` hands all other words on as they are.
    commands.add_parser(
        "run",
        help="tilt run of a query in units, and the place of a mistake",
        usage=f"tilt-data run QUERY NAME=FILE .. [--plain] [--cut TIME,..] [{WHOLE}]",
        description="Runs `tilt run` with the same arguments. Numbers in the query and in its output are in the units of the series; with "
        f"{WHOLE} they are whole numbers, as for `tilt`. After an error the place and a fix follow.",
    )
    description = "Prints why a query is rejected, and where; else what `tilt explain` prints, and hints."
    parser = commands.add_parser("why", help="why a query is rejected", description=description)
    parser.add_argument("query", metavar="QUERY")
    parser.add_argument(
        "--tick", metavar="DURATION", help="print also how far the query looks at each input, if a tick is so long, such as 1s"
    )
    parser.set_defaults(main=why)
