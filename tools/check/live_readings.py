#!/usr/bin/env python3
"""Runs random feeds of readings through random queries on the program `tilt-live`, from a fixed seed, and compares standard output,
standard error and the status with what the definitions say: `tools/check/live_readings.py [--program PATH] [--tilt PATH] [QUERIES]`.

The texts have columns by name or one for each input, times as dates, as local times of a zone or as numbers, each option, and bad lines of
each kind. Of the dates without an offset most lie around a change of clocks. The texts go to the program in random pieces, as in
tools/check/live.py: what the lines so far make final has to come before more is sent.

What is expected is worked out from the bytes alone, by tools/check/readings.py and tools/check/feeds.py. Each feed is also written as one
of rows, and for that the program has to print the same. Some texts without bad lines become series, by `tilt-data series`. What `tilt run`
prints for these has to go on from what the program prints. Some outputs have dates and decimals, by Python's `datetime`.

Some feeds are cut into calls: each one goes on from the state that the one before it saved, or from what a folder holds.

Of each run that differs, the query, the feed and the difference are printed. The check stops after 20 of them, since each may have waited
long. The last line is 'N passed, M failed', and the status is 1 if one failed."""
from __future__ import annotations

import argparse
import contextlib
import dataclasses
import datetime
import itertools
import os
import random
import sys
import tempfile
from typing import Iterator, Sequence

sys.path.insert(0, os.path.dirname(os.path.dirname(os.path.realpath(__file__))))

from check.feeds import Change, Feed, Query, T, empty_feed, line_text, query_of
from check.live import BYTE_ORDER_MARK, MOST_FAILED, BadLine, Expected, Options, difference, random_pieces, shown, text_of_output
from check.live_sessions import Came, random_cuts, run, session_expected
from check.random_feeds import random_query
from check.reading_texts import random_form, random_lines, random_text, words_of
from check.readings import FARTHEST, NO_END_OF_LINE, ZONES, Form, Readings, fields_of, moment_of, updates_between
from check.watermarks import Watermarking
from shared.paths import BUILT, SYSTEM_PYTHON, TOOLS
from shared.program import built_program
from shared.tally import Tally

SEED = 25
QUERIES = 250
FEEDS_OF_EACH_QUERY = 3
# Of so many queries one has a feed that becomes series.
WHOLE = 6
TILT_DATA = os.path.join(TOOLS, "package", "tilt-data")

USAGE = b"tilt: 1 usage\n"
# Options that don't go together, or have a value that isn't one. Before the second ones comes `TIMES`.
TIMES = "--time time --tick 1s"
BAD_ARGUMENTS = [
    "--times",
    "--tick 1s",
    "--event",
    "--scale 10",
    "--name sensor --value value",
    "--time time",
    "--time",
    "--time time --tick",
    "--zone UTC",
    "--zone UTC --fold first",
]
MORE_ARGUMENTS = [
    "--decimals 20",
    "--decimals -1",
    "--name sensor",
    "--value value",
    "--time time",
    "--tick 1s",
    "--max-age 5s --event",
    "--max-age x=5s --event",
    "--events x --event",
    "--events x --max-age x=5s",
    "--zone UTC --unit s",
    "--unit s --fold first",
    "--fold second",
    "--zone",
    "--zone UTC --fold",
    "--zone UTC --fold third",
    "--zone UTC --fold First",
    "--zone UTC --zone UTC",
    "--zone UTC --origin 2026-03-01T00:00:00",
    "--ties",
    "--folder f --position --every 2",
]
MORE_ARGUMENTS += [
    "--folder f --save s",
    "--folder f --resume s",
    "--from 0",
    "--every 1",
    "--position",
    "--lateness 5",
    "--idle 5",
    "--ahead 5",
]
BAD_VALUES = {
    "unit": "min S 1 s,ms",
    "max-age": "0s 1500ms 1 s -1s 1s=2s x=1s,x=2s x= x=0s =1s x=1s,",
    "events": "x,x 1x x, ,x x=1s",
    "scale": "0 -1 1.5 x x= =1 x=0 x=1,x=1 x=1, 1000000000000000001 auto",
    "closed": "Left both",
    "ties": "all",
    "zone": " / /UTC ../UTC Europe/./Zurich Europe/Z\u00fcrich UTC! Europe\\Zurich zone.tab",
    "decimal": "; ,",
    "delimiter": ';; " \u00e9 . \\n',
    "origin": "2026-03-01 2026-03-01T00:00:00 2026-02-30T00:00:00Z 0 x",
}
BAD_TICKS = "0s 1 s 1.5s -1s 1m +1s 9223372036854775808ns 106752d"
MORE_ARGUMENTS += [f"--{option} {value}" for option, values in BAD_VALUES.items() for value in values.split(" ")]
BAD_ARGUMENTS += [f"{TIMES} {words}" for words in MORE_ARGUMENTS] + [f"--time time --tick {tick}" for tick in BAD_TICKS.split()]


# What is expected


@dataclasses.dataclass(frozen=True)
class Case:
    """What a run prints after each line, and the lines of a feed of rows that brings the same."""

    expected: Expected
    rows: list[str]


def case_of(query: Query, text: bytes, form: Form, options: Options) -> Case:
    readings, feed = Readings(form, query.inputs), empty_feed(query.inputs)
    news, given, begun = text_of_output(query, feed, 0, None, options)
    case = Case(Expected([b"start,end,value\n" + news], [b""]), [])
    *lines, rest = text.split(b"\n")
    for number, line in enumerate(lines, 1):
        news, report = b"", b""
        try:
            readings.take(line)
        except BadLine as bad:
            report = f"tilt: {str(bad).format(number)}\n".encode()
        before, feed = feed, readings.feed()
        news, given, begun = text_of_output(query, feed, given, begun, options)
        case.rows.extend(rows_between(before, feed))
        add(case.expected, news, report)
        if report and (options.strict or readings.layout is None):
            case.expected.status = 1
            return case
    if rest:
        # It is reported once the feed has ended.
        add(case.expected, b"", f"tilt: {NO_END_OF_LINE.format(len(lines) + 1)}\n".encode())
        case.expected.status = 1 if options.strict else 0
    return case


def add(expected: Expected, out: bytes, err: bytes) -> None:
    expected.out.append(expected.out[-1] + out)
    expected.err.append(expected.err[-1] + err)


@dataclasses.dataclass(frozen=True)
class Style:
    """Whether times are written as dates, and with how many decimals values are."""

    dated: bool
    decimals: int

    def words(self) -> list[list[str]]:
        return [["--times"]] * self.dated + [["--decimals", str(self.decimals)]] * (self.decimals > 0)

    def text_of(self, form: Form, out: bytes) -> bytes:
        """The lines of an output in this style."""
        header, *lines = out.decode().splitlines(keepends=True)
        return "".join([header, *(self.line_of(form, line.rstrip("\n")) + "\n" for line in lines)]).encode()

    def line_of(self, form: Form, line: str) -> str:
        start, end, value = line.split(",")
        return ",".join([self.time_of(form, start), self.time_of(form, end), self.value_of(int(value))])

    def time_of(self, form: Form, tick: str) -> str:
        if not self.dated or not tick:
            return tick
        moment = form.origin + int(tick) * form.tick
        digits = next((digits for digits in (0, 3, 6) if not (form.origin % 10 ** (9 - digits) or form.tick % 10 ** (9 - digits))), 9)
        seconds, rest = divmod(moment, 10**9)
        try:
            day = datetime.datetime(1970, 1, 1) + datetime.timedelta(seconds=seconds)
        except OverflowError:
            return tick
        return day.isoformat() + (f".{rest // 10 ** (9 - digits):0{digits}d}" if digits else "") + "Z"

    def value_of(self, value: int) -> str:
        if not self.decimals:
            return str(value)
        whole, rest = divmod(abs(value), 10**self.decimals)
        return f"{'-' * (value < 0)}{whole}.{rest:0{self.decimals}d}"


def random_style(draw: random.Random) -> Style:
    return Style(draw.random() < 0.4, draw.choice([0, 0, 1, 2, draw.randint(0, 19)]))


def rows_between(before: Feed, feed: Feed) -> Iterator[str]:
    """Lines of rows that make of one feed the other."""
    for name, known in feed.inputs.items():
        if known != before.inputs[name]:
            yield from (line_text(Change(name, update)) + "\n" for update in updates_between(before.inputs[name], known))


# The check


def random_options(draw: random.Random) -> Options:
    return Options(draw.random() < 0.5, draw.random() < 0.3, draw.random() < 0.2, Watermarking())


def shuffled(draw: random.Random, words: list[list[str]]) -> list[str]:
    return [*itertools.chain(*draw.sample(words, len(words)))]


@dataclasses.dataclass(frozen=True)
class Place:
    """A folder with the file of a query, and the programs that are run there."""

    folder: str
    live: str
    tilt: str
    text: str
    query: Query

    def check_feed(self, draw: random.Random, base: int, tally: Tally) -> None:
        form, options = random_form(draw, self.query.inputs, base), random_options(draw)
        lines = random_lines(draw, form, self.query.inputs, base, draw.choice([0.0, 0.05, 0.2]))
        feed = random_text(draw, lines)
        style = random_style(draw)
        words = [self.live, "query.tilt", *shuffled(draw, words_of(draw, form, self.query.inputs) + options.words() + style.words())]
        case = case_of(self.query, feed, form, options)
        wanted = dataclasses.replace(case.expected, out=[style.text_of(form, out) for out in case.expected.out])
        wrong = difference(words, self.folder, random_pieces(draw, feed), wanted) or self.wrong_rows(case, options)
        tally.expect(wrong is None, f"{words}\n{self.text}{shown(feed)}\n{wrong}\n")

    def wrong_rows(self, case: Case, options: Options) -> str | None:
        """What is wrong with what the program prints for rows, if what begins within a line isn't printed."""
        if options.begun:
            return None
        wanted = Came(0, case.expected.out[-1], b"")
        came = run([self.live, "query.tilt"], self.folder, "".join(case.rows).encode())
        return None if came == wanted else f"as rows {case.rows}: expected {wanted}came {came}"

    def check_calls(self, draw: random.Random, base: int, tally: Tally) -> None:
        """A feed that is cut into calls."""
        form, style = random_form(draw, self.query.inputs, base), random_style(draw)
        options = dataclasses.replace(random_options(draw), strict=False)
        feed = random_text(draw, random_lines(draw, form, self.query.inputs, base, draw.choice([0.0, 0.05, 0.2])))
        expected = case_of(self.query, feed, form, options).expected
        if expected.status != 0:
            return
        expected.out[:] = [style.text_of(form, out) for out in expected.out]
        words = [self.live, "query.tilt", *shuffled(draw, words_of(draw, form, self.query.inputs) + options.words() + style.words())]
        cuts = random_cuts(draw, feed)
        wrong = self.wrong_states(words, feed, expected, cuts) or self.wrong_folder(words, feed, expected, cuts)
        tally.expect(wrong is None, f"{words} with {cuts}\n{self.text}{shown(feed)}\n{wrong}\n")

    def wrong_states(self, words: Sequence[str], feed: bytes, expected: Expected, cuts: Sequence[int]) -> str | None:
        """What is wrong with calls that go on from the states of those before them, or None."""
        place, resume, first = 0, list[str](), b""
        for end in cuts:
            if end >= place:
                wanted = session_expected(expected, feed, place, end, NO_END_OF_LINE)
                if place == 0:
                    wanted = dataclasses.replace(wanted, out=wanted.out.removeprefix(first))
                came = run([*words, "--save", "state", *resume], self.folder, feed[place:end])
                if came != wanted:
                    return f"from byte {place} to {end}, expected {wanted}came {came}"
                place, resume, first = feed.rfind(b"\n", 0, end) + 1, ["--resume", "state"], expected.out[0]
        return None

    def wrong_folder(self, words: Sequence[str], feed: bytes, expected: Expected, cuts: Sequence[int]) -> str | None:
        """What is wrong with calls that each read a longer front of a feed into one folder, or None."""
        with tempfile.TemporaryDirectory(dir=self.folder) as folder:
            for end in cuts:
                came = run([*words, "--folder", os.path.basename(folder)], self.folder, feed[:end])
                with open(os.path.join(folder, "output.csv"), "rb") as file:
                    out = file.read()
                wanted = expected.after_lines(feed[:end].count(b"\n"))[0]
                if came.status != 0 or came.out or out != wanted:
                    return f"up to byte {end}, expected in the folder:\n{shown(wanted)}came {came}and there:\n{shown(out)}"
        return None

    def check_series(self, draw: random.Random, base: int, tally: Tally) -> None:
        """A feed whose readings become series, by the same options, of which a query has all rows at once."""
        names = self.query.inputs
        # A series has no fold.
        form = dataclasses.replace(
            random_form(draw, names, base), fold=None, skip_empty=True, delimiter=draw.choice(",;\t"), decimal=".", events=(), ages={}
        )
        lines, readings = lines_in_order(form, names, random_lines(draw, form, names, base, 0.0))
        if not names or not all(known.readings for known in readings.inputs.values()):
            return
        text = b"".join(line + b"\n" for line in lines)
        case = case_of(self.query, text, form, Options(False, False, False, Watermarking()))
        words = series_words(words_of(draw, form, names), form, names)
        wrong = self.wrong_series(words, text, case)
        tally.expect(wrong is None, f"{words}\n{self.text}{shown(text)}\n{wrong}\n")

    def wrong_series(self, words: list[str], text: bytes, case: Case) -> str | None:
        """What is wrong with what is printed for the series of a text, or None."""
        with tempfile.TemporaryDirectory(dir=self.folder) as folder:
            with open(os.path.join(folder, "readings.csv"), "wb") as file:
                file.write(text)
            series = run([SYSTEM_PYTHON, TILT_DATA, "series", "readings.csv", *words], folder, b"")
            files = [f"{name}={name}.csv" for name in self.query.inputs]
            whole = run([self.tilt, "run", os.path.join("..", "query.tilt"), *files], folder, b"")
        out = case.expected.out[-1]
        if series.status == whole.status == 0 and whole.out.startswith(out):
            return None
        return f"{series}\n{whole}doesn't go on from:\n{shown(out)}"


def lines_in_order(form: Form, names: Sequence[str], lines: Iterator[bytes]) -> tuple[list[bytes], Readings]:
    """The header and the lines that bring readings in order of their moments, without their ends, and what they bring."""
    readings, moments = Readings(form, names), [-FARTHEST]
    found: list[bytes] = []
    for line in b"\n".join(lines).split(b"\n"):
        line = line.removeprefix(BYTE_ORDER_MARK)
        with contextlib.suppress(BadLine):
            fields = fields_of(form, line, "")
            moment = moment_of(form, fields[readings.layout.time]) if readings.layout else -FARTHEST
            before = sum(len(known.readings) for known in readings.inputs.values())
            if moment >= moments[-1]:
                readings.take(line)
            if not found or before != sum(len(known.readings) for known in readings.inputs.values()):
                found.append(line)
                moments.append(moment)
    return found, readings


def series_words(words: Sequence[Sequence[str]], form: Form, names: Sequence[str]) -> list[str]:
    """The options of `tilt-live` as those of `tilt-data series`: each scale is an argument there, and columns of inputs are named."""
    given = {word: text for word, *text in words}
    scales = given.pop("--scale", ["1"])[0].split(",")
    columns = [] if form.value else [word for name in names for word in ("--value", name)]
    origin = [] if "--origin" in given else ["--origin=1970-01-01T00:00:00Z"]
    return ["=".join([word, *text]) for word, text in given.items()] + origin + columns + ["--scale", *scales]


def check_query(draw: random.Random, live: str, tilt: str, number: int, tally: Tally) -> None:
    # At times all times lie at an end of time.
    base = draw.choice([0] * 12 + [T - 40, T - 40, -T + 14])
    text = random_query(draw, base)
    with tempfile.TemporaryDirectory() as folder:
        with open(os.path.join(folder, "query.tilt"), "w", encoding="ascii") as file:
            file.write(text)
        place = Place(folder, live, tilt, text, query_of(text))
        for _ in range(FEEDS_OF_EACH_QUERY):
            place.check_feed(draw, base, tally)
        place.check_calls(draw, base, tally)
        if number % WHOLE == 0 and base == 0:
            place.check_series(draw, base, tally)


def check_arguments(live: str, tally: Tally) -> None:
    """Arguments that are wrong, and scales of inputs that the query doesn't have."""
    cases = [(words.split(" "), Came(2, b"", USAGE)) for words in BAD_ARGUMENTS]
    named = ["--scale x=10,other=1,more=1", "--max-age x=1s,other=1s", "--events other,x", "--events more --max-age other=1s"]
    cases += [([*f"{TIMES} {words}".split(), "--begun"], Came(1, b"", b"tilt: 66 no input other\n")) for words in named]
    for words, wanted in cases:
        with tempfile.TemporaryDirectory() as folder:
            with open(os.path.join(folder, "query.tilt"), "w", encoding="ascii") as file:
                file.write("input x;\nemit x over (0, 5];\n")
            came, names = run([live, "query.tilt", *words], folder, b"time,x\n"), os.listdir(folder)
        tally.expect(came == wanted and names == ["query.tilt"], f"{words}: expected {wanted}came {came}and {names}")


def check_other_states(live: str, tally: Tally) -> None:
    """States that were saved with other options, or with those that mean the same."""
    zone = f"{TIMES} --zone Europe/Zurich"
    pairs = [(TIMES, f"{TIMES} --event"), (TIMES, f"{TIMES} --scale 10"), (TIMES, ""), ("", TIMES), (TIMES, TIMES.replace("1s", "2s"))]
    pairs += [(TIMES, zone), (zone, TIMES), (zone, f"{TIMES} --zone Europe/Rome"), (zone, f"{zone} --fold first")]
    pairs += [(f"{zone} --fold first", f"{zone} --fold second"), (f"{zone} --fold second", zone)]
    alike = [(f"{TIMES} --scale 10", f"{TIMES} --scale x=10"), ("--begun", ""), (zone, zone)]
    for saved, resumed in pairs + alike:
        with tempfile.TemporaryDirectory() as folder:
            with open(os.path.join(folder, "query.tilt"), "w", encoding="ascii") as file:
                file.write("input x;\nemit x over (0, 5];\n")
            first = run([live, "query.tilt", *saved.split(), "--save", "state"], folder, b"")
            came = run([live, "query.tilt", *resumed.split(), "--resume", "state"], folder, b"")
        wanted = Came(0, b"", b"") if (saved, resumed) in alike else Came(1, b"", b"tilt: 59 state of other options\n")
        tally.expect(first.status == 0 and came == wanted, f"{saved} and {resumed}: expected {wanted}came {came}")


def check_zone_files(live: str, tally: Tally) -> None:
    """Zones whose file isn't there, can't be read, or is no table, whatever the feed is. A folder and a list are among the tables."""
    for name in [zone for zone in ("Nowhere", "Europe", "leapseconds", "Europe/Zurich/Rome") if zone != "leapseconds" or has_file(zone)]:
        wanted = Came(1, b"", b"tilt: 67 no zone %s\n" % name.encode())
        for words in (TIMES, f"{TIMES} --save state", f"{TIMES} --folder folder", f"{TIMES} --fold first"):
            with tempfile.TemporaryDirectory() as folder:
                with open(os.path.join(folder, "query.tilt"), "w", encoding="ascii") as file:
                    file.write("input x;\nemit x over (0, 5];\n")
                came = run([live, "query.tilt", *words.split(), "--zone", name], folder, b"time,x\n2026-03-01T00:00:00Z,1\n")
                names = os.listdir(folder)
            tally.expect(came == wanted and names == ["query.tilt"], f"{words} --zone {name}: expected {wanted}came {came}and {names}")


def has_file(zone: str) -> bool:
    return os.path.isfile(os.path.join(ZONES, zone))


def main(arguments: Sequence[str]) -> int:
    words = argparse.ArgumentParser(description="Runs random feeds of readings through random queries.")
    words.add_argument("queries", nargs="?", type=int, default=QUERIES, help="how many queries")
    words.add_argument("--program", default=built_program("tilt-live"), help="the program that is run")
    words.add_argument("--tilt", default=BUILT, help="the program that runs queries on series")
    chosen = words.parse_args(arguments)
    live, tilt = os.path.abspath(chosen.program), os.path.abspath(chosen.tilt)
    draw = random.Random(SEED)
    tally = Tally()
    for program in (live, tilt):
        if not os.access(program, os.X_OK):
            tally.expect(False, f"{program} isn't built")
            return tally.end()
    check_arguments(live, tally)
    check_other_states(live, tally)
    check_zone_files(live, tally)
    for number in range(chosen.queries):
        if tally.failed < MOST_FAILED:
            check_query(draw, live, tilt, number, tally)
    return tally.end()


if __name__ == "__main__":
    sys.exit(main(sys.argv[1:]))
