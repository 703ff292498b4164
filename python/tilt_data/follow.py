"""`tilt-data follow`: feeds `tilt-live` from a source that goes on, watches it, and hands on the rows that it has committed.

The folder is that of `tilt-live`, with its `state` and its `output.csv`. Beside these it has the feed, which is what was taken of the
source with the watermarks between: `feed.N` has it from its byte N on. `taken.json` says how long the feed is, and up to where the source
was taken for it. It is replaced once the feed is on the disk, and only what it counts is given to the program. So a call cuts the feed to
it, takes the source from there, and gives the program the feed from its position: each byte of the source is in the feed once, and is
taken by the program once. `shown` says up to which byte `output.csv` was handed on."""
from __future__ import annotations

import argparse
import contextlib
import dataclasses
import fcntl
import functools
import json
import os
import re
import select
import subprocess
import time
from typing import IO, Any, Iterator, Mapping, NamedTuple

from .arrivals import LONGEST
from .clock import UNITS, Clock, duration_of, moment_text
from .convention import TextConvention
from .errors import Refused, note, printable
from .files import failing_at, locked, replace, standard_input
from .grammar import inputs_in
from .handed import Output, Published, Receiver, Rotated, Shown
from .measured import Measured
from .program import call, program
from .version import VERSION
from .why import check, text_of

HELP = """Runs a query over lines that keep coming on standard input, such as from `mosquitto_sub`, or in a file. A line is as for
`tilt-live`, NAME,start,end,value with ticks, or with --tick a reading NAME,time,value. Each row is printed as soon as it is final, and is
in output.csv in the folder --state. If it is killed, call it again with the same options: it goes on, and no row of output.csv is lost or
there twice. Other options that would change rows are rejected."""
# How much is read at once, how much of a file is compared when it is read on, and how long a file of the feed gets.
CHUNK, COMPARED, LONGEST_FILE = 1 << 20, 64, 1 << 26
# How long to wait for lines while rows may come, and while none do; how often a watermark is sent; in seconds.
SOON, LATER, BEAT = 0.01, 0.05, 1.0
HEADER = b"name,time,value\n"
NUMBERS = {
    "every": "commit after every N lines, and not after each read",
    "lateness": "rows: lines may come out of order by up to N ticks",
    "idle": "rows: no input is more than N ticks behind",
    "ahead": "rows: a line that starts more than N ticks ahead is bad",
}
OF_ROWS = ("lateness", "idle", "ahead", "end")
OF_READINGS = "unit zone fold origin scale hold max_age event closed null skip_empty clock times rotate".split()
# What earlier versions took, and what to do now.
GONE = {
    "--rows": "rows are printed as soon as they are final, so leave it out",
    "--again": "name the file by --log, which reads on where it was",
    "--until": "a record with a time alone, such as ,2026-03-01T07:00:00Z, says up to when all inputs are known",
}
BINDING = re.compile(r"[A-Za-z_]\w*=.+", re.ASCII | re.DOTALL)


def add(commands: Any) -> None:
    parser = commands.add_parser("follow", help="a query over rows that keep coming", description=HELP)
    option = parser.add_argument
    option("query", metavar="QUERY")
    option("--state", metavar="FOLDER", required=True, help="the folder of the state and of output.csv")
    option("--log", metavar="FILE", help="read this file while it grows and is rotated by renaming, and not standard input")
    option("--end", action="store_true", help="rows: no more lines will come; at the end of the source print all that is left")
    option("--skip-bad", action="store_true", help="a line that can't be taken is reported and skipped")
    option("--quiet", action="store_true", help="print nothing: output.csv has it")
    option("--exec", metavar="COMMAND", help="call it by sh for each row, at least once: start, end and value are $1, $2 and $3")
    option("--mqtt", metavar="TOPIC", help="publish each row by mosquitto_pub, at least once: a topic, or mqtt://USER@HOST:PORT/TOPIC")
    option("--rotate", action="store_true", help="readings: copy the rows into a file a day, such as output-2026-03-01.csv in the folder")
    option("--prometheus", metavar="FILE", help="write rows, bytes and the last value to this file each second, for node_exporter")
    option("--clock", metavar="DURATION", help="readings: each second, all inputs become known up to now less so much")
    option("--begun", action="store_true", help="print also what has begun, as start,,value")
    option("--times", action="store_true", help="readings: write times as dates")
    option("--whole", action="store_true", help="the query and its output are in whole numbers, as for `tilt`")
    bounds = "the values of inputs, as NAME=LOW:HIGH,.. in their units, which show that no result leaves 64 bits"
    option("--bounds", metavar="BOUNDS", help=bounds)
    for name, text in NUMBERS.items():
        option(f"--{name}", metavar="N", type=number, help=text)
    TextConvention.add_to(parser, lasting=True)
    parser.set_defaults(main=main, until=None)
    parser.parse_known_args = functools.partial(without_gone, parser, parser.parse_known_args)


def number(text: str) -> int:
    return int(text)


def without_gone(parser: Any, parse: Any, *given: Any) -> tuple[argparse.Namespace, list[str]]:
    """Parses as `parse` does, and says what to do in place of what is no longer taken."""
    words, rest = parse(*given)
    for word in rest:
        if word.partition("=")[0] in GONE:
            parser.error(f"{word} isn't taken any more: {GONE[word.partition('=')[0]]}")
        if BINDING.fullmatch(word):
            parser.error(f"{word} isn't taken any more: put the lines of this input in front of the others")
    return words, rest


def options_of(words: argparse.Namespace) -> list[str]:
    """The options of `tilt-live`, which say what lines mean."""
    convention = TextConvention.of(words)
    tick, origin, closed = convention.given
    for name in OF_READINGS if tick is None else OF_ROWS:
        if getattr(words, name) not in (None, False, []):
            cure = "for readings give also --tick, or --like a series"
            if tick is not None:
                cure = "it is for rows; readings can end with a time alone, such as ,2026-03-01T07:00:00Z,"
            raise Refused(f"--{name.replace('_', '-')}: {cure}")
    if words.zone is not None and words.unit is not None:
        raise Refused("--zone: it is for dates, and with --unit times are numbers")
    if words.fold is not None and words.zone is None:
        raise Refused("--fold: it is for local times, so give also --zone")
    if words.whole and words.bounds is not None:
        raise Refused("--bounds: it is for queries in units, so leave out --whole")
    given: dict[str, Any] = {name: getattr(words, name) for name in (*NUMBERS, "begun", "times") if name != "every"} | {
        "strict": not words.skip_bad,
        "units": not words.whole,
        "bounds": words.bounds,
    }
    if tick is not None:
        given |= dict(time="time", name="name", value="value", tick=f"{tick}ns", closed=closed, event=words.event)
        given |= {"unit": words.unit, "zone": words.zone, "fold": words.fold}
        given |= {"max-age": ages_of(words.query, convention, tick), "origin": origin and moment_text(origin, 9), "ties": words.ties}
        given |= {"scale": scales_of(words.query, convention), "null": ",".join(sorted(convention.null)), "skip-empty": words.skip_empty}
    spelled = [[f"--{name}", *([] if value is True else [str(value)])] for name, value in given.items() if value not in (None, False, "")]
    return [word for some in spelled for word in some]


def clock_of(convention: TextConvention) -> Clock:
    """The clock of `tilt-live`. If no origin is given it starts in 1970, and not at a midnight of the zone."""
    _, origin, _ = convention.given
    return (convention if origin is not None else dataclasses.replace(convention, zone=None)).clock(0)


def names_with(given: object, query: str, convention: TextConvention) -> list[str]:
    """The inputs of which each has its own value of an option; one without a name, if all have the same."""
    if not isinstance(given, dict) or not any(given):
        return [""]
    names = inputs_in(text_of(query))
    if names:
        convention.check_names(names)
    return names


def of_names(values: Mapping[str, str]) -> str:
    """A value for all inputs, or one for each name."""
    return ",".join(f"{name}={value}" if name else value for name, value in values.items())


def ages_of(query: str, convention: TextConvention, tick: int) -> str:
    """How long a reading holds at most: of all inputs, or of each one that has an age."""
    names = names_with(convention.max_age, query, convention)
    ages = {name: convention.rule(name, clock_of(convention)).max_age for name in names}
    return of_names({name: f"{age * tick}ns" for name, age in ages.items() if age is not None})


def scales_of(query: str, convention: TextConvention) -> str:
    """The scale of all inputs, or that of each."""
    names = names_with(convention.scale, query, convention)
    scales = {name: convention.scale_of(name) for name in names}
    if None in scales.values():
        raise Refused("--scale auto: rows are printed before all data are there, so a whole number above 0 was expected")
    return of_names({name: str(scale) for name, scale in scales.items()})


class Place(NamedTuple):
    """Up to where a log was taken: the inode of the file, how many of its bytes, and the last of these."""

    inode: int | None = None
    taken: int = 0
    last: str = ""


class Source:
    """Lines from standard input."""

    def __init__(self, place: Place) -> None:
        self.place, self.rest = place, b""

    def lines(self, seconds: float) -> bytes | None:
        """Whole lines that have come, none if there are none within some time, and None at the end."""
        if not self.is_behind(seconds):
            return b""
        text = os.read(standard_input().fileno(), CHUNK)
        return self.cut(text) if text else None

    def is_behind(self, seconds: float = 0) -> bool:
        """Whether more can be read at once."""
        return bool(select.select([standard_input().fileno()], [], [], seconds)[0])

    def cut(self, text: bytes) -> bytes:
        """What can be taken with this text: whole lines, and what is there of a line that is too long."""
        self.rest += text
        end = self.rest.rfind(b"\n") + 1
        return self.take(len(self.rest) if len(self.rest) - end > LONGEST else end)

    def take(self, end: int) -> bytes:
        lines, self.rest = self.rest[:end], self.rest[end:]
        inode, taken, last = self.place
        if inode is not None:
            self.place = Place(inode, taken + end, (last + lines[-COMPARED:].decode("latin-1"))[-COMPARED:])
        return lines


class Log(Source):
    """Lines from a file that grows, and is rotated by renaming. The files that it was renamed to are beside it."""

    def __init__(self, place: Place, path: str, ends: bool) -> None:
        super().__init__(place)
        self.path, self.ends = path, ends
        self.file: IO[bytes] = open(os.devnull, "rb", buffering=0)
        if place.inode is not None:
            self.file = self.opened(place.inode) or self.file
            if os.pread(self.file.fileno(), COMPARED, max(0, place.taken - COMPARED))[: len(place.last)] != place.last.encode("latin-1"):
                what = f"the file that was read up to byte {place.taken} isn't beside it any more: put it back, or name another --state"
                raise Refused(f"{path}: {what}")
            self.file.seek(place.taken)

    def files(self) -> list[tuple[str, os.stat_result]]:
        """The file and those that it was renamed to, the oldest first by their last writes. A rotation renames one after another, so they
        are looked at until none has another name."""
        folder, name = os.path.split(self.path)
        form = re.compile(re.escape(name) + r"([.-][0-9][0-9.-]*(\.\w+)?)?")
        before: list[tuple[str, int]] | None = None
        while True:
            found: list[tuple[str, os.stat_result]] = []
            for path in sorted(os.path.join(folder, other) for other in os.listdir(folder or ".") if form.fullmatch(other)):
                with contextlib.suppress(FileNotFoundError):
                    found.append((path, os.stat(path)))
            names = [(path, there.st_ino) for path, there in found]
            if names == before:
                break
            before = names
        # Of two that were written last at the same time, NAME.10 is older than NAME.9.
        found.sort(key=lambda one: (len(one[0]), one[0]), reverse=True)
        return sorted(found, key=lambda one: (one[0] == self.path, one[1].st_mtime_ns))

    def opened(self, inode: int) -> IO[bytes] | None:
        """The file with an inode, whatever its name is by now; None if it is gone."""
        while path := next((path for path, there in self.files() if there.st_ino == inode), None):
            with contextlib.suppress(FileNotFoundError):
                file = open(path, "rb", buffering=0)
                if os.fstat(file.fileno()).st_ino == inode:
                    return file
        return None

    def following(self) -> int | None:
        """The inode of the file that comes after the one that is read, once its writer has gone on to it."""
        files, mine = self.files(), os.fstat(self.file.fileno())
        if mine.st_size < self.file.tell():
            raise Refused(f"{self.path}: it was cut while it was read: rotate it by renaming, and name another --state")
        places = [place for place, (_, there) in enumerate(files) if there.st_ino == self.place.inode]
        newest = mine.st_mtime_ns if self.place.inode is not None else time.time_ns()
        files = files[places[0] + 1 :] if places else [one for one in files if one[0] == self.path or one[1].st_mtime_ns > newest]
        if not files or files[0][0] == self.path and not files[0][1].st_size:
            return None
        if re.search(r"\.[A-Za-z]\w*$", files[0][0].removeprefix(self.path)):
            raise Refused(f"{files[0][0]}: it wasn't read before it was compressed: decompress it beside {self.path}")
        return files[0][1].st_ino

    def lines(self, seconds: float) -> bytes | None:
        text = self.file.read(CHUNK)
        following = None if text else self.following()
        # What was written to it before the next one is there now.
        text = text or self.file.read(CHUNK)
        if text:
            return self.cut(text)
        file = None if following is None else self.opened(following)
        if file is None:
            time.sleep(0 if self.ends else seconds)
            return None if self.ends and following is None else b""
        # A last line without an end gets one.
        lines = self.rest + b"\n" if self.rest else b""
        self.file, self.rest, self.place = file, b"", Place(following)
        return lines

    def is_behind(self, seconds: float = 0) -> bool:
        return os.fstat(self.file.fileno()).st_size > self.file.tell() or self.following() is not None


class Feed:
    """What was taken so far: a file with the feed from the byte `base` on."""

    def __init__(self, folder: str) -> None:
        self.folder, self.record = folder, os.path.join(folder, "taken.json")
        names = set(os.listdir(folder)) if os.path.isdir(folder) else set()
        if "taken.json" not in names and not names <= {"feed.lock", "feed.0", "taken.json.new"}:
            what = "an earlier version of `follow` began it, and can end it" if "query.tilt" in names else "`follow` didn't begin it"
            raise Refused(f"{folder}: it isn't empty, and {what}: name another folder by --state")
        self.lock = locked(folder, "follow", "feed.lock")
        kept: dict[str, Any] = {"base": 0, "length": 0, "ended": False, "place": []}
        if os.path.exists(self.record):
            with open(self.record, encoding="utf-8") as record:
                kept = json.load(record)
        self.base, self.length, self.ended, self.place = kept["base"], kept["length"], kept["ended"], Place(*kept["place"])
        self.file = self.opened()
        for name in names:
            if re.fullmatch(r"feed\.[0-9]+", name) and name != f"feed.{self.base}":
                os.unlink(os.path.join(folder, name))

    def opened(self) -> IO[bytes]:
        """The file of the feed, cut to what was taken."""
        path = os.path.join(self.folder, f"feed.{self.base}")
        with failing_at(path):
            file = open(path, "a+b", buffering=0)
            if os.path.getsize(path) < self.length - self.base:
                raise Refused(f"{path}: it was moved away or cut: put it back as it was, or name another --state")
            file.truncate(self.length - self.base)
        return file

    def add(self, text: bytes, place: Place, ended: bool = False) -> None:
        """Adds a text, and notes that the source was taken up to there for it."""
        with failing_at(str(self.file.name)):
            rest = memoryview(text)
            while rest:
                rest = rest[self.file.write(rest) :]
            os.fsync(self.file.fileno())
        self.length, self.place, self.ended = self.length + len(text), place, ended
        self.put()

    def put(self) -> None:
        kept = {"version": VERSION, "base": self.base, "length": self.length, "ended": self.ended, "place": self.place}
        replace(self.record, json.dumps(kept))

    def ends_a_line(self) -> bool:
        last = os.pread(self.file.fileno(), 1, max(0, self.length - self.base - 1))
        return last in (b"", b"\n")

    def is_long(self) -> bool:
        return self.length > self.base + LONGEST_FILE and self.ends_a_line()

    def after(self, at: int) -> Iterator[bytes]:
        """The feed from a byte on. If all before it is committed and the file is long, another one begins."""
        if not self.base <= at <= self.length:
            raise Refused(f"{self.folder}: `state` isn't of this feed: put it back as it was, or name another --state")
        if at == self.length and self.is_long():
            before, self.base = self.file, self.length
            self.file = self.opened()
            self.put()
            os.unlink(before.name)
        while text := os.pread(self.file.fileno(), CHUNK, at - self.base):
            at += len(text)
            yield text


class Ended(Exception):
    """The program has ended with this status, and said why."""


class Live:
    """The program `tilt-live` over a feed. If a signal ends it, it is started again, but not twice without a commit between."""

    def __init__(self, words: list[str], feed: Feed, every: int | None) -> None:
        self.words, self.feed, self.died_at, self.restarts = [*words, "--folder", feed.folder], feed, -1, 0
        self.every = [] if every is None else ["--every", str(every)]
        self.process: subprocess.Popen[bytes] | None = None

    def numbers(self) -> dict[str, int]:
        return {"tilt_feed_bytes_total": self.feed.length, "tilt_restarts_total": self.restarts}

    def start(self) -> None:
        """Starts it, and gives it the feed from its position on. One that a killed call has left has no more to read, and ends first."""
        with contextlib.suppress(FileNotFoundError), open(os.path.join(self.feed.folder, "lock"), "rb") as lock:
            fcntl.flock(lock, fcntl.LOCK_EX)
        called = call([*self.words, "--position"], command="tilt-live")
        check(called, ["live", self.words[0]])
        self.at = int(called.printed)
        self.feed.put()
        words = [program("tilt-live"), *self.words, *self.every, "--from", str(self.at)]
        self.process = subprocess.Popen(words, stdin=subprocess.PIPE, stdout=subprocess.DEVNULL, bufsize=0)
        for text in self.feed.after(self.at):
            if not self.give(text):
                return

    def give(self, text: bytes) -> bool:
        """Gives it the end of the feed. False if it had ended, and was started again with all of the feed."""
        try:
            rest = memoryview(text)
            while rest and self.process is not None and self.process.stdin is not None:
                rest = rest[self.process.stdin.write(rest) :]
        except BrokenPipeError:
            self.revive()
            return False
        return True

    def has_ended(self) -> bool:
        """Takes no lock, as `poll` does, which a signal that ends the command would leave taken."""
        how = os.WEXITED | os.WNOHANG | os.WNOWAIT
        return self.process is not None and os.waitid(os.P_PID, self.process.pid, how) is not None

    def revive(self) -> None:
        """Starts it again, once it has ended with the feed or by a signal."""
        self.start_after(self.end())

    def finish(self) -> int:
        """Lets it end with the feed, also if signals end it before that: its status."""
        while (status := self.end()) < 0:
            self.start_after(status)
        return status

    def start_after(self, status: int) -> None:
        """Starts it again after it has ended with this status, if that may help."""
        again = status == 0 or status < 0 and self.died_at != self.at
        if status < 0:
            note(f"tilt-live was ended by signal {-status}{', and is started again' if again else ''}")
            self.died_at = self.at
        if not again:
            raise Ended(status)
        self.restarts += status < 0
        self.start()

    def end(self) -> int:
        """Lets it end with the feed: its status."""
        process, self.process = self.process, None
        if process is None:
            return 0
        with contextlib.suppress(BrokenPipeError):
            process.communicate()
        return process.wait()


def receivers_of(words: argparse.Namespace, output: Output, live: Live) -> list[Receiver]:
    """The receivers. The days come first, since standard output may have no reader, and a command may fail."""
    convention, receivers = TextConvention.of(words), list[Receiver]()
    clock = None if convention.given[0] is None else clock_of(convention)
    if words.rotate and clock is not None:
        receivers.append(Rotated(output, clock))
    receivers.append(Shown(output, words.quiet, words.exec))
    if words.mqtt is not None:
        receivers.append(Published(output, words.mqtt))
    if words.prometheus is not None:
        receivers.append(Measured(output, words.prometheus, clock, live.numbers))
    return receivers


class Follower:
    def __init__(self, words: argparse.Namespace) -> None:
        self.words, options = words, options_of(words)
        self.feed = Feed(words.state)
        self.live = Live([words.query, *options], self.feed, words.every)
        self.output = Output(words.state)
        self.header = HEADER if "--time" in options and not self.feed.length else b""
        self.lag = None if words.clock is None else duration_of(words.clock)
        self.receivers = receivers_of(words, self.output, self.live)
        self.came = time.monotonic()
        self.due = self.came + BEAT

    def follow(self) -> int:
        """Takes what comes, until the source or the program ends: the status of the program."""
        try:
            self.take_all()
            return self.live.finish()
        except Ended as ended:
            return int(str(ended))

    def take_all(self) -> None:
        """Takes what comes, until the source ends. The program starts before that: it rejects a bad query, other options, and a
        folder that was changed."""
        words, feed, live = self.words, self.feed, self.live
        live.start()
        self.take(self.header, feed.place)
        source = Source(feed.place) if words.log is None else Log(feed.place, words.log, words.end)
        text: bytes | None = b""
        while text is not None:
            text = source.lines(SOON if time.monotonic() < self.came + 1 else LATER)
            if text or source.place != feed.place:
                self.take(text or b"", source.place)
            if self.lag is not None and time.monotonic() >= self.due and not source.is_behind() and feed.ends_a_line():
                self.due = time.monotonic() + BEAT
                self.take(self.watermark(time.time_ns() - self.lag), feed.place)
            if live.has_ended():
                live.revive()
            self.hand_on()
            if feed.is_long():
                live.revive()
        rest = source.rest
        if words.end:
            self.take((source.take(len(rest)) + b"\n" if rest else b"") + b",,,\n", source.place, ended=True)
        elif rest:
            note(f"the last line has no end, and isn't taken without --end: {printable(rest[:200].decode(errors='backslashreplace'))}")

    def take(self, text: bytes, place: Place, ended: bool = False) -> None:
        self.feed.add(text, place, ended)
        self.live.give(text)
        self.came = time.monotonic()

    def hand_on(self) -> None:
        self.output.look()
        for receiver in self.receivers:
            receiver.hand_on()

    def finish(self) -> None:
        """Hands on what is left, once the program has ended."""
        self.output.look()
        for receiver in self.receivers:
            receiver.finish()

    def end(self) -> None:
        """Ends the programs, whatever happened. What they haven't done comes with the next call."""
        try:
            self.live.end()
        finally:
            for receiver in self.receivers:
                receiver.end()

    def watermark(self, moment: int) -> bytes:
        text = moment_text(moment, 9) if self.words.unit is None else str(moment // UNITS[self.words.unit])
        return f",{text},\n".encode()


def main(words: argparse.Namespace) -> int:
    follower = Follower(words)
    try:
        if follower.feed.ended:
            note(f"{words.state} was ended before: {words.state}/output.csv has all")
        status = 0 if follower.feed.ended else follower.follow()
        follower.finish()
    except BrokenPipeError:
        raise
    except OSError as error:
        raise Refused(f"{error.filename or words.state}: {error.strerror or error}") from error
    finally:
        follower.end()
    return status if status >= 0 else 128 - status
