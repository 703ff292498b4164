"""The command `tilt-data view`: reads the files once, and writes the page."""
from __future__ import annotations

import argparse
import dataclasses
import html
import importlib.resources
import json
from typing import IO, Any, Iterator

from ..axis import STEPS, changes
from ..clock import TIMES, Clock, duration_of, zone_of
from ..drawn import Drawn, Picture, add_drawn, bands_of, met, numbers_of, printable
from ..errors import Refused
from ..files import Row, extent_of, scratch, writing
from ..progress import shown
from ..version import VERSION
from .coding import Block, Summary, blocks_of, fields_of, packed, times_of

HELP = """Writes a page, one HTML file, to look around in series and outputs by mouse, touch or keyboard. It needs no network and no server.
NAME=FILE starts a panel, and +NAME=FILE after it is drawn into the same panel. There +limit:NAME=FILE is a dashed line, +dots:NAME=FILE
has dots, and +band:NAME=FILE is a shaded band where FILE has a value other than 0. Each stretch of a band is in a table of episodes, from
which you go to it. The values under the pointer are exact. A series has its clock and its scale in the JSON file beside it. Other files
have the clock of the series that --like names, and values as `tilt-data run` prints them. If there is no clock, the axis has ticks. One
FILE can be - for standard input."""
# The scripts of the page, in order, and what a browser may run and load for it.
SCRIPTS = ["numbers.js", "axis.js", "series.js", "chart.js", "page.js"]
POLICY = "default-src 'none'; script-src 'unsafe-inline'; style-src 'unsafe-inline'"


@dataclasses.dataclass
class Written:
    """A file that is in the page: its fields there, and the extent of its rows."""

    fields: dict[str, Any]
    extent: tuple[int, int] | None


def add(commands: Any) -> None:
    parser = commands.add_parser("view", help="a page to look around in: zoom, episodes, exact values", description=HELP)
    add_drawn(parser)
    parser.add_argument("--gap", metavar="DURATION", help="stretches of a band no farther apart are one episode, as 30s")
    parser.add_argument("--out", metavar="FILE.html", required=True, help="the page")
    parser.set_defaults(main=main)


def main(words: argparse.Namespace) -> int:
    if not words.out.lower().endswith((".html", ".htm")):
        raise Refused(f"{words.out}: a name that ends in .html was expected")
    picture = Picture(words)
    title = title_of(picture)
    with scratch() as folder:
        picture.copy_pipes(folder)
        with writing(words.out) as file:
            # The texts of each file are written as they are read, and then what they mean, and the scripts.
            before, after = frame_of(title, POLICY, SCRIPTS)
            file.write(before)
            written: dict[str, Written] = {}
            write_files(file, picture, gap_of(words.gap, picture.clock), written)
            stretch = picture.stretch(extent_of(part.extent for part in written.values()))
            file.write(fields_element({"title": title, **fields_of_page(picture, stretch, written)}))
            file.write(after)
    return 0


def title_of(picture: Picture) -> str:
    """The title that is given, or the names of lines and dots, or of all if there are none."""
    names = list(numbers_of(picture.all)) or [one.name for one in picture.all]
    return printable(picture.words.title or ", ".join(dict.fromkeys(names)))


def asset(name: str) -> str:
    return importlib.resources.files(__package__).joinpath(name).read_text(encoding="utf-8")


def frame_of(title: str, policy: str, scripts: list[str]) -> tuple[str, str]:
    """The text of a page before its data, and the text after them."""
    before, after = asset("page.html").split("{data}")
    before = before.replace("{policy}", policy).replace("{style}", asset("page.css"))
    return before.replace("{title}", html.escape(title)), after.replace("{script}", "\n".join(map(asset, scripts)))


def write_files(file: IO[str], picture: Picture, gap: int, written: dict[str, Written]) -> None:
    """Writes the rows of each file that isn't among those that are written, and adds it to them."""
    for one in picture.all:
        if one.file not in written:
            written[one.file] = write_rows(file, one, len(written), picture, gap if is_band(one.file, picture) else None)


def is_band(file: str, picture: Picture) -> bool:
    return any(one.form == "band" and one.file == file for one in picture.all)


def fields_element(fields: dict[str, Any]) -> str:
    """The element that has what the page has to know. A text can't end the element that it is in."""
    return element("page", json.dumps(fields, ensure_ascii=False).replace("<", "\\u003c"), "application/json")


def element(name: str, text: str, kind: str = "text/plain") -> str:
    return f'<script type="{kind}" id="{name}">{text}</script>\n'


def write_rows(file: IO[str], one: Drawn, number: int, picture: Picture, gap: int | None) -> Written:
    """Writes the rows of a file that meet the stretch, in blocks, and their summary. Its episodes are needed if there is a gap."""
    summary, episodes, extents = Summary(), list[tuple[int, int]](), list[tuple[int, int]]()

    def rows() -> Iterator[Row]:
        """All rows. The last extent is that of those that have passed, or of the first one if the stretch ends before the last one."""
        row = None
        for row in shown(one.rows(), "rows"):
            if not extents:
                extents.append(row[:2])
            yield row
        if row is not None:
            extents.append((extents[0][0], row[1]))

    blocks: list[tuple[int, int, int]] = []
    lo, hi = (limit if tick is None else tick for tick, limit in zip(picture.given, (-TIMES - 1, TIMES + 1)))
    for block in blocks_of(met(rows(), lo, hi)):
        file.write(element(f"rows-{number}-{len(blocks)}", block.text()))
        blocks.append((len(block.starts), block.starts[0], block.values[0]))
        summary.take(block)
        if gap is not None:
            add_episodes(episodes, block, gap)
    if blocks:
        file.write(element(f"summary-{number}", summary.text()))
    if episodes:
        file.write(element(f"episodes-{number}", packed(times_of(*zip(*episodes)))))
    return Written(fields_of(blocks, summary, episodes), extents[-1] if extents else None)


def gap_of(text: str | None, clock: Clock | None) -> int:
    """How many ticks may be between two stretches of one episode."""
    if text is None:
        return 0
    if clock is None:
        raise Refused(f"--gap {text}: no file has a clock: --like SERIES names one")
    return clock.ticks(duration_of(text), "--gap")


def add_episodes(episodes: list[tuple[int, int]], block: Block, gap: int) -> None:
    """Adds the stretches of a block that have a value other than 0. One near enough to the last of the block before goes on with it."""
    for start, end in bands_of(zip(block.starts, block.ends, block.values), gap):
        if episodes and start - episodes[-1][1] <= gap:
            start = episodes.pop()[0]
        episodes.append((start, end))


def fields_of_page(picture: Picture, stretch: tuple[int, int], written: dict[str, Written]) -> dict[str, Any]:
    """What the page has to know of its texts. Numbers that JavaScript doesn't read exactly are texts."""
    numbers, places = numbers_of(picture.all), {name: at for at, name in enumerate(written)}
    bands = list(dict.fromkeys(one.name for one in picture.all if one.form == "band"))

    def fields_of_one(one: Drawn) -> dict[str, Any]:
        number = bands.index(one.name) if one.form == "band" else numbers.get(one.name, 0)
        fields: dict[str, Any] = {"name": one.name, "form": one.form, "unit": one.unit, "scale": str(one.scale)}
        return {**fields, "number": number, "series": places[one.file]}

    return {
        "version": VERSION,
        "lo": str(stretch[0]),
        "hi": str(stretch[1]),
        "clock": None if picture.clock is None else fields_of_clock(picture.clock, stretch, picture.zone),
        "steps": list(map(str, STEPS)),
        "series": [part.fields for part in written.values()],
        "panels": [list(map(fields_of_one, panel)) for panel in picture.panels],
    }


def fields_of_clock(clock: Clock, stretch: tuple[int, int], zone: str | None) -> dict[str, Any]:
    lo, hi = stretch
    for tick in stretch:
        clock.text(tick, zone_of(zone))
    return {
        "tick": str(clock.tick),
        "origin": str(clock.origin),
        "digits": clock.digits,
        "zone": zone,
        "changes": [[str(moment), shift // 10**9] for moment, shift in changes(clock.moment(lo), clock.moment(hi), zone_of(zone))],
    }
