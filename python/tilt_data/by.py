"""`tilt-data by`: one query for each key, several at a time."""
from __future__ import annotations

import argparse
import concurrent.futures
import contextlib
import itertools
import os
import re
import sys
import tempfile
from typing import Any, Iterator, NamedTuple

from .clock import Clock
from .errors import Refused, TiltError, note, printable
from .files import Notes, keys_and_files, scratch, unsafe, writing
from .program import Processes, call
from .progress import shown
from .running import readable
from .units import Overflow, Units, in_units, overflow_of_files
from .why import bound, clashes, known_notes, refusal_of, text_of

HELP = """Runs a query for each key. An argument NAME=FILE with {key} in FILE names another file for each key. For what `tilt-data series
--key` writes it is such as temperature=data/{key}/temperature.csv, and for --prefix data/{key}_temperature.csv. The keys are those for
which the first such file exists. The other inputs are the same for all keys. The output has the key as its first column:
key,start,end,value. Numbers in the query and the output are in the units of the series."""


# Where the key is in an argument; all other signs are those of the file.
KEY = re.compile(r"\{key\}")


class Done(NamedTuple):
    """A key, the file of its output, its status, what was reported, the arguments of the program, and the decimals of the values."""

    key: str
    file: str
    status: int
    told: str
    words: list[str]
    decimals: int = 0


def add(commands: Any) -> None:
    parser = commands.add_parser("by", help="one query for each key", description=HELP)
    parser.add_argument("query", metavar="QUERY")
    parser.add_argument("binds", nargs="+", metavar="NAME=FILE", help="the series file of an input, with {key} in the place of the key")
    parser.add_argument("--jobs", type=int, default=os.cpu_count() or 1, help="how many queries run at a time (one for each processor)")
    parser.add_argument("--keep-going", action="store_true", help="report a key that is rejected at the end, and print the others")
    parser.add_argument("--whole", action="store_true", help="the query and its output are in whole numbers, as for `tilt`")
    parser.add_argument("-o", "--out", metavar="FILE", help="the file of the output (standard output)")
    parser.set_defaults(main=main)


def keys_of(pattern: str) -> list[str]:
    """The keys for which the file is there, as they are in its name, in order."""
    return sorted(key for key in keys_and_files(pattern, KEY) if key is not None)


class Runs:
    """The runs of a query for each key."""

    def __init__(self, words: argparse.Namespace, folder: str) -> None:
        self.words, self.folder, self.running = words, folder, Processes()
        self.path = readable(words.query, folder)
        self.units = Units(text_of(self.path), words.query, words.whole)
        # The files of the queries over whole numbers.
        self.paths: dict[str, str] = {}

    def files(self, key: str) -> dict[str, str]:
        return bound([self.path, *(word.replace("{key}", key) for word in self.words.binds)])

    def overflows(self, keys: list[str]) -> Iterator[Overflow]:
        """The first overflow of the query, over the numbers of all keys whose series have the same scales."""
        by_scales: dict[tuple[int, ...], list[dict[str, str]]] = {}
        for key in keys:
            with contextlib.suppress(Refused):
                files = self.files(key)
                scales = self.units.scales(files)
                self.units.whole(scales)
                by_scales.setdefault(tuple(scales.values()), []).append(files)
        for each in by_scales.values():
            overflow = overflow_of_files(self.path, self.units.scales(each[0]), each)
            if overflow is not None:
                yield overflow

    def whole(self, files: dict[str, str]) -> tuple[str, int]:
        """The file of the query over whole numbers, if its inputs have these files, and the decimals of its output."""
        whole = self.units.whole(self.units.scales(files))
        if whole is None:
            return self.path, 0
        if whole.query not in self.paths:
            self.paths[whole.query] = whole.put(tempfile.mkdtemp(dir=self.folder))
        return self.paths[whole.query], whole.decimals

    def run(self, number: int, key: str) -> Done:
        """Runs the query for a key. A thread calls it."""
        binds, file = [word.replace("{key}", key) for word in self.words.binds], os.path.join(self.folder, str(number))
        try:
            query, decimals = self.whole(self.files(key))
        except Refused as refused:
            line = refused.line if isinstance(refused, TiltError) else str(refused)
            return Done(unsafe(key), file, refused.status, line, [self.path, *binds])
        with open(file, "wb") as out:
            called = call(["run", query, *binds], out, its=self.running)
        return Done(unsafe(key), file, called.status, called.told, [self.path, *binds], decimals)

    def all(self, keys: list[str]) -> Iterator[Done]:
        """What each key comes to, in the order of the keys; some more than `jobs` are begun at a time, and no more. If the caller stops,
        the programs that run are killed."""
        jobs: int = self.words.jobs
        with concurrent.futures.ThreadPoolExecutor(jobs) as pool:
            begun: list[concurrent.futures.Future[Done]] = []
            try:
                for number, key in enumerate(keys):
                    begun.append(pool.submit(self.run, number, key))
                    if len(begun) > 2 * jobs:
                        yield begun.pop(0).result()
                while begun:
                    yield begun.pop(0).result()
            except BaseException:
                pool.shutdown(wait=False, cancel_futures=True)
                self.running.stop()
                raise


def differences(words: argparse.Namespace, keys: list[str]) -> Iterator[str]:
    """What the notes of the inputs differ in, for each key and from key to key: each difference once, with the first keys that have it."""
    within: dict[str, list[str]] = {}
    across: dict[str, dict[tuple[Clock, int], tuple[str, Notes]]] = {}
    for key in keys:
        texts: list[str] = []
        known = known_notes(bound(["query", *(word.replace("{key}", key) for word in words.binds)]), texts)
        for text in [*texts, clashes(known, words.whole)]:
            if text is not None:
                within.setdefault(text, []).append(unsafe(key))
        for name, notes in known.items():
            across.setdefault(name, {}).setdefault((notes.clock, notes.scale), (unsafe(key), notes))
    for text, some in within.items():
        yield f"{', '.join(some[:3])}{', ..' if len(some) > 3 else ''}: {text}"
    for name, found in across.items():
        difference = clashes(dict(found.values()), words.whole)
        if difference is not None:
            yield f"{name}, by key: {difference}"


def main(words: argparse.Namespace) -> int:
    patterns = [word.partition("=")[2] for word in words.binds if "{key}" in word]
    if not patterns or words.jobs < 1:
        raise Refused("a word with {key} was expected, as x=data/{key}/x.csv" if not patterns else "--jobs: 1 or more was expected")
    keys = keys_of(patterns[0])
    if not keys:
        raise Refused(f"{patterns[0]}: no file has this name, for any key")
    # Two names can be of one key, as Zürich and Z%C3%BCrich.
    known: dict[str, str] = {}
    for name in keys:
        other = known.setdefault(unsafe(name), name)
        if other != name:
            raise Refused(f"{other} and {name} are names of one key, {unsafe(name)}: rename one of them")
    refused = []
    with scratch() as folder, writing(words.out) as out:
        out.write("key,start,end,value\n")
        runs = Runs(words, folder)
        for overflow in runs.overflows(keys):
            note(f"note: {overflow}")
        for done in shown(runs.all(keys), "keys", len(keys)):
            if done.status:
                refused.append(done)
                if not words.keep_going:
                    break
            else:
                out.writelines(keyed(done, runs.units.decimals))
            os.unlink(done.file)
        if refused and not words.keep_going:
            tell(refused)
            raise Refused(f"the key {refused[0].key} was refused: --keep-going prints the others")
    tell(refused)
    for line in itertools.islice(differences(words, keys), 10):
        note(f"note: {printable(line)}")
    if refused:
        note(f"{len(keys) - len(refused)} keys done, {len(refused)} refused")
    return 1 if refused else 0


def keyed(done: Done, decimals: int) -> Iterator[str]:
    """The lines of an output with the key as their first column, as CSV; all keys have so many decimals."""
    key = f'"{done.key.replace(chr(34), chr(34) * 2)}"' if re.search(r'[",\r\n]', done.key) else done.key
    with open(done.file, encoding="ascii") as file:
        next(file, None)
        yield from (f"{key},{line}" for line in in_units(file, done.decimals, decimals))


def tell(refused: list[Done]) -> None:
    for done in refused:
        refusal = refusal_of(done.told, done.words)
        with contextlib.suppress(BrokenPipeError):
            for line in (done.told.rstrip(), *(refusal.lines() if refusal is not None else ())):
                print(f"{printable(done.key)}: {line}", file=sys.stderr)
