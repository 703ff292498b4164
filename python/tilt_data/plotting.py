"""`tilt-data plot`: series and outputs over one clock axis, as SVG, PDF or PNG, drawn by matplotlib."""
from __future__ import annotations

import argparse
import dataclasses
import importlib
import os
import re
from typing import TYPE_CHECKING, Any, Iterable, Iterator, Mapping, Union

from . import frames
from .axis import axis_of
from .clock import zone_of
from .convention import Convention
from .drawn import Drawn, Picture, add_drawn, bands_of, clipped, numbers_of, printable, thinned
from .errors import Refused
from .files import Outputs, extent_of, failing_at, scratch, taking
from .progress import shown
from .version import VERSION

if TYPE_CHECKING:
    import pandas

    Shown = Union[pandas.Series, pandas.DataFrame, str, os.PathLike[str]]

HELP = """Draws series and outputs. NAME=FILE starts a panel, and +NAME=FILE after it is drawn into the same panel. There +limit:NAME=FILE
is a dashed line, +dots:NAME=FILE has dots, and +band:NAME=FILE is a shaded band where FILE has a value other than 0. A value that holds
is a step, events are dots, and null is a gap. What is shorter than a pixel is drawn one pixel wide, and a gap that is shorter isn't drawn.
One name has one look in all panels. A series has its clock and its scale in the JSON file beside it. Other files have the clock of the
series that --like names, and values as `tilt-data run` prints them. If there is no clock, the axis has ticks. One FILE can be - for
standard input."""
COLOURS = "#1f5fa8 #2a7f4f #7a3e9d #8a6d1d #137c86 #5b5b5b #d0438f #56a8e0 #7dac1c #5c2b1c #b09bdc #101c40".split()
# The lines and the dots of the first names, and of those after each round of the colours.
LINES, DOTS = ["-", (0, (1, 1)), (0, (5, 1, 1, 1))], [".", "x", "+"]
LIMIT, BAND = "#b3261e", "#f2a33a"
FORMS = ("svg", "pdf", "png")
SIZE = re.compile(r"([0-9]{1,3}(?:\.[0-9]{1,3})?)x([0-9]{1,3}(?:\.[0-9]{1,3})?)", re.ASCII)
# The width of a picture in inches, the height of it without panels and that of a panel, and what is beside the axes at most.
WIDTH, MARGIN, PANEL, BESIDE = 9.0, 0.6, 1.7, 1.5
MOST_PIXELS = 10**8


@dataclasses.dataclass(frozen=True)
class Size:
    """The width and the height of a picture in inches, and how many pixels an inch has."""

    width: float
    height: float
    dpi: int

    @staticmethod
    def of(text: str | None, dpi: int, panels: int) -> Size:
        """The size that a text as `7x3.5` gives, or one that has room for so many panels."""
        found = None if text is None else SIZE.fullmatch(text)
        if text is not None and (found is None or not (2 <= float(found[1]) <= 200 and 1 <= float(found[2]) <= 200)):
            raise Refused(f"size {text}: WIDTHxHEIGHT in inches was expected, from 2x1 to 200x200, such as 7x3.5")
        width, height = (WIDTH, MARGIN + PANEL * panels) if found is None else (float(found[1]), float(found[2]))
        if not 10 <= dpi <= 2400 or width * height * dpi**2 > MOST_PIXELS or max(width, height) * dpi >= 1 << 16:
            raise Refused(f"dpi {dpi}: 10 to 2400 was expected, and at most {MOST_PIXELS:,} pixels in all")
        return Size(width, height, dpi)

    @property
    def columns(self) -> int:
        """How many columns of pixels the axes have at least."""
        return max(1, round((self.width - BESIDE) * self.dpi))


def add(commands: Any) -> None:
    parser = commands.add_parser("plot", help="a picture with a clock axis", description=HELP)
    parser.add_argument("out", metavar="OUT.svg", help="or OUT.pdf or OUT.png")
    add_drawn(parser)
    parser.add_argument("--size", metavar="WIDTHxHEIGHT", help="the size in inches, such as 7x3.5 (9 wide)")
    parser.add_argument("--dpi", metavar="N", type=int, default=100, help="how many pixels an inch has (100)")
    parser.set_defaults(main=main)


def escaped(text: str) -> str:
    """A text for matplotlib, which reads what is between two dollar signs as a formula."""
    return text.replace("$", r"\$")


def bands(rows: Iterable[tuple[int, int, int]], lo: int, hi: int, columns: int) -> Iterator[tuple[float, float]]:
    """The bands in ticks after `lo`. None is narrower than a column of pixels, which would leave no trace; those within one are joined."""
    column = (hi - lo) / columns
    for start, end in bands_of(rows, column):
        begin = min(float(start - lo), hi - lo - column)
        yield begin, max(float(end - lo), begin + column)


def steps(rows: Iterable[tuple[int, int, int]], scale: int, lo: int = 0, column: float = 0.0) -> tuple[list[float], list[float]]:
    """The corners of the steps, in ticks after `lo`, with a break at each gap that is wider than a column of pixels. What `thinned` left
    out is narrower, so that it breaks no line. A stretch that is narrower than a column is drawn as wide as one."""
    times: list[float] = []
    values: list[float] = []
    first, last = 0, None
    for start, end, value in rows:
        if last is None or start - last > column:
            if last is not None:
                times[-1] = max(times[-1], first - lo + column)
                times.append(times[-1])
                values.append(float("nan"))
            first = start
        times += [float(start - lo), float(end - lo)]
        values += [value / scale] * 2
        last = end
    if times:
        times[-1] = max(times[-1], first - lo + column)
    return times, values


def draw_one(axes: Any, one: Drawn, lo: int, hi: int, number: int, columns: int) -> Any:
    """Draws a file, in the look of this number, and returns what the legend shows of it; None if there is nothing in the stretch."""
    rows = clipped(shown(one.rows(), "rows"), lo, hi)
    if one.form == "band":
        # Above the grid, whose lines are as wide as a short band, and below the values.
        style = {"color": BAND, "alpha": 0.35, "linewidth": 0, "zorder": 1.75}
        drawn = [axes.axvspan(begin, end, **style) for begin, end in bands(rows, lo, hi, columns)]
        return drawn[0] if drawn else None
    # Four rows at most in half a pixel, so that none that is drawn lies beside its place.
    kept = list(thinned(rows, lo, hi, round(2.4 * columns)))
    colour, line, dot = look_of(number)
    if one.form == "dots":
        times, values = [start - lo for start, _, _ in kept], [value / one.scale for _, _, value in kept]
        return axes.plot(times, values, dot, markersize=4, color=colour)[0]
    corners, heights = steps(kept, one.scale, lo, (hi - lo) / columns)
    style = {"color": LIMIT, "linestyle": "--"} if one.form == "limit" else {"color": colour, "linestyle": line}
    return axes.plot(corners, heights, linewidth=1.2, **style)[0]


def look_of(number: int) -> tuple[str, Any, str]:
    """The colour, the line and the dots of the name with a number: the first 36 have looks of their own."""
    again = number // len(COLOURS)
    return COLOURS[number % len(COLOURS)], LINES[again % len(LINES)], DOTS[again % len(DOTS)]


def draw_legend(axes: Any, entries: list[tuple[Any, str]]) -> None:
    place: dict[str, Any] = {"loc": "lower left", "bbox_to_anchor": (0, 1), "borderaxespad": 0.1}
    legend = axes.legend([drawn for drawn, _ in entries], [""] * len(entries), ncol=5, frameon=False, handlelength=1.6, **place)
    # A label that starts with `_` would have no entry.
    for text, (_, name) in zip(legend.get_texts(), entries):
        text.set_text(escaped(name))


def draw(picture: Picture) -> Any:
    # `pyplot` would keep the figure, and has a backend that is the caller's.
    from matplotlib.figure import Figure

    words, panels = picture.words, picture.panels
    files = {one.file: one for one in picture.all if None in picture.given}
    lo, hi = picture.stretch(extent_of(row[:2] for one in files.values() for row in one.rows()))
    numbers, size = numbers_of(picture.all), Size.of(words.size, words.dpi, len(panels))
    figure = Figure(figsize=(size.width, size.height), dpi=size.dpi)
    rows = figure.subplots(len(panels), 1, sharex=True, squeeze=False)
    for axes, panel in zip(rows[:, 0], panels):
        drawn = [(draw_one(axes, one, lo, hi, numbers.get(one.name, 0), size.columns), one.name) for one in panel]
        axes.grid(color="#e0e0e0", linewidth=0.6)
        axes.set_ylabel(escaped(panel[0].name + (f"\n({panel[0].unit})" if panel[0].unit else "")))
        entries = [entry for entry in drawn if entry[0] is not None]
        if entries:
            draw_legend(axes, entries)
        axes.spines[["top", "right"]].set_visible(False)
    marks, texts, label = axis_of(picture.clock, lo, hi, zone_of(picture.zone), picture.zone or "UTC")
    last = rows[-1, 0]
    last.set_xlim(0, hi - lo)
    last.set_xticks(marks, texts)
    last.set_xlabel(label)
    if words.title:
        figure.suptitle(escaped(printable(words.title)))
    figure.tight_layout()
    return figure


def metadata_of(form: str, matplotlib: str) -> dict[str, Any]:
    """What a picture says of itself: the versions that drew it, and no date, so that the same rows make the same bytes."""
    drawers = [f"tilt-data {VERSION}", f"Matplotlib v{matplotlib}, https://matplotlib.org/"]
    if form == "svg":
        return {"Date": None, "Creator": drawers}
    return {"CreationDate": None, "Creator": ", ".join(drawers)} if form == "pdf" else {"Software": ", ".join(drawers)}


def main(words: argparse.Namespace) -> int:
    form = os.path.splitext(words.out)[1].lower().lstrip(".")
    if form not in FORMS:
        raise Refused(f"{words.out}: a name that ends in .svg, .pdf or .png was expected")
    try:
        matplotlib = importlib.import_module("matplotlib")
    except ImportError as error:
        raise Refused("matplotlib isn't there: apt-get install python3-matplotlib, or pip install matplotlib") from error
    picture = Picture(words)
    with scratch() as folder, matplotlib.rc_context({"svg.fonttype": "none", "svg.hashsalt": "tilt-data", "font.size": 9}):
        picture.copy_pipes(folder)
        figure = draw(picture)
        with failing_at(words.out), taking(words.out) as new:
            figure.savefig(new, format=form, metadata=metadata_of(form, matplotlib.__version__))
    return 0


def plot(
    out: str | os.PathLike[str],
    what: Mapping[str, Shown],
    *,
    begin: Any = None,
    end: Any = None,
    like: str | os.PathLike[str] | None = None,
    scale: Mapping[str, int] | None = None,
    unit: Mapping[str, str] | None = None,
    zone: str | None = None,
    title: str | None = None,
    size: tuple[float, float] | None = None,
    dpi: int = 100,
    convention: Convention | None = None,
) -> None:
    """Draws a picture, as `tilt-data plot` does with the same options. The keys of `what` are written as there: a name starts a panel, and
    `+name`, `+limit:name`, `+dots:name` and `+band:name` are drawn into it. The values are files, Series or outputs of `run`. A Series of
    readings becomes rows by the convention. `scale` has what the values of files are divided by, and `size` is in inches."""
    with scratch() as folder:
        files = files_drawn(what, None if like is None else os.fspath(like), convention or Convention(), folder)
        words = [f"{name}={file}" for name, file in files.items()]
        pairs = {"scale": scale or {}, "unit": unit or {}}
        given = {option: [f"{name}={value}" for name, value in values.items()] for option, values in pairs.items()}
        times = {option: None if time is None else str(time) for option, time in (("begin", begin), ("end", end))}
        text = None if size is None else "x".join(f"{length:g}" for length in size)
        main(argparse.Namespace(out=os.fspath(out), words=words, like=like, zone=zone, title=title, size=text, dpi=dpi, **given, **times))


def files_drawn(what: Mapping[str, Shown], like: str | None, convention: Convention, folder: str) -> dict[str, str]:
    """The file of each thing that is drawn. A Series gets one in the folder, on the clock of the files, or else of the convention."""
    named: dict[str, Any] = {name: one if isinstance(one, (str, os.PathLike)) else column_of(name, one) for name, one in what.items()}
    files, series = frames.parted(named)
    if not series:
        return files
    known = {**named, "": like} if like is not None else named
    # A name can have what no file name has.
    paths = {name: os.path.join(folder, f"{number}.csv") for number, name in enumerate(series)}
    with Outputs() as outputs:
        frames.write_series(outputs, known, paths, convention)
        outputs.commit()
    return {name: {**files, **paths}[name] for name in what}


def column_of(name: str, one: Any) -> Any:
    if getattr(one, "ndim", None) == 2 and len(one.columns) == 1:
        return one[one.columns[0]]
    if getattr(one, "ndim", None) != 1:
        raise Refused(f"{name}: a file, a Series or a DataFrame of one column was expected, not {type(one).__name__}")
    return one
