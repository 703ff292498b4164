"""`tilt-data serve`: the page of `view` while rows arrive."""
from __future__ import annotations

import argparse
import io
import os
import threading
from typing import Any

from .arrivals import Arrivals, read_arrivals
from .drawn import Picture, add_drawn
from .errors import Refused, note
from .files import ValuesAt, extent_of
from .view.coding import Summary, fields_of
from .view.command import POLICY, SCRIPTS, Written, fields_element, fields_of_clock, fields_of_page
from .view.command import frame_of, gap_of, is_band, title_of, write_files

HELP = """Shows the page of `view` at an address of this machine while rows arrive, until Ctrl-C. A FILE that is - for standard input, or
a named pipe, has lines as `tilt-live` prints them, with or without --begun. If their values have two decimals, --scale is 100. Each row
is drawn as soon as it is there. Other files are read once, as by `view`. The lines of standard input are also printed."""
# The scripts of the page, and what a browser may load for it: its rows too. Nothing may have it within another page.
LIVE_SCRIPTS = [*SCRIPTS[:-1], "live.js", SCRIPTS[-1]]
LIVE_POLICY = f"{POLICY}; connect-src 'self'"
SERVED_POLICY = f"{LIVE_POLICY}; base-uri 'none'; form-action 'none'; frame-ancestors 'none'"
# How many rows of each series are kept.
KEPT = 100_000
# A client has so many seconds to take what was sent before the command ends.
LEAVING = 2.0
# A page knows the changes of the clocks from 1970 to 2100, in nanoseconds since 1970.
YEARS = 0, 4_102_444_800 * 10**9


def add(commands: Any) -> None:
    parser = commands.add_parser("serve", help="that page while rows arrive, for a browser of this machine", description=HELP)
    add_drawn(parser, has_end=False)
    parser.add_argument("--gap", metavar="DURATION", help="stretches of a band no farther apart are one episode, as 30s")
    parser.add_argument(
        "--keep", metavar="N", type=int, default=KEPT, help=f"how many rows of each live series are kept; {KEPT} without it"
    )
    parser.add_argument("--port", type=int, default=0, help="the port of the address; without it the system chooses one")
    parser.add_argument("--quiet", action="store_true", help="don't print the lines of standard input")
    parser.add_argument("--exit", action="store_true", help="end with the input, and not by Ctrl-C")
    parser.set_defaults(main=main)


def main(words: argparse.Namespace) -> int:
    if words.keep < 1:
        raise Refused("--keep: 1 or more was expected")
    if not 0 <= words.port < 1 << 16:
        raise Refused("--port: a number from 0 to 65535 was expected")
    picture = Picture(words)
    # Rows arrive in standard input and in pipes.
    files = dict.fromkeys(one.file for one in picture.all)
    live = [file for file in files if file == "-" or os.path.exists(file) and not os.path.isfile(file)]
    if not live:
        raise Refused("no rows arrive: - or a named pipe was expected as one FILE (`view` shows files alone)")
    page = page_of(picture, live)
    arrivals = Arrivals(len(live), words.keep)
    # This module takes longer to import than most commands to start.
    from .server import Server

    try:
        server = Server(words.port, page, SERVED_POLICY, arrivals)
    except OSError as error:
        raise Refused(f"--port {words.port}: {error.strerror}") from error
    with server:
        note(f"the page is {server.address} until Ctrl-C")
        for number, file in enumerate(live):
            is_printed = file == "-" and not words.quiet
            values = ValuesAt(next(one.divisor for one in picture.all if one.file == file))
            threading.Thread(target=read_arrivals, args=(arrivals, number, file, is_printed, values), daemon=True).start()
        arrivals.wait()
        if not words.exit:
            note("the input has ended; the page stays until Ctrl-C")
            threading.Event().wait()
        arrivals.wait_for_clients(LEAVING)
    return 0


def page_of(picture: Picture, live: list[str]) -> str:
    """The text of the page. Files in which rows arrive are empty in it, and its first series, in order; the others are read now."""
    words, clock, title = picture.words, picture.clock, title_of(picture)
    gap, start = gap_of(words.gap, clock), picture.given[0]
    empty = fields_of([], Summary(), [])
    written = {file: Written({**empty, "live": {"band": is_band(file, picture)}}, None) for file in live}
    before, after = frame_of(title, LIVE_POLICY, LIVE_SCRIPTS)
    text = io.StringIO()
    write_files(text, picture, gap, written)
    extent = extent_of(part.extent for part in written.values())
    if extent is not None and start is not None and extent[1] <= start:
        extent = None
    stretch = picture.stretch(extent)
    fields: dict[str, Any] = {"title": title, **fields_of_page(picture, stretch, written)}
    fields["live"] = {"keep": words.keep, "gap": str(gap), "known": extent is not None, "fixed": start is not None}
    if clock is not None:
        years = min(stretch[0], clock.start(YEARS[0])), max(stretch[1], clock.start(YEARS[1]))
        fields["clock"] = fields_of_clock(clock, years, picture.zone)
    return before + text.getvalue() + fields_element(fields) + after
