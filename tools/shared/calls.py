"""The calls of the program in tools/check/calls, as tests that say what each call has to leave. A file there has tables of three kinds:

- `call` is one test of one call.
- `group` has a test for each of its `calls`. It holds what they share: its files are added to the files of a call, and any other key is
  the default of the calls without it.
- `chain` is one test: its `calls` run one after another in one folder, so each call finds what those before it left.

A call has `words`, its arguments, where `?` is a byte that isn't UTF-8; `files`, the files in the folder where it runs; and what
it has to leave: `status`; `out` and `err`, which are empty by default; and `left`, the files that hold something else after the call. All
other files have to be as before, and no file may be added. These keys are optional:

- `input` is written to a pipe as standard input. `closed` lists descriptors that are closed. `full` makes standard output a device without
  room. `memory` limits the memory, in bytes. `seconds` is how long the call may take, 120 by default. `link` runs ./tilt through a link.
- `figures` checks a long output: the number of rows, and the sum, the smallest and the largest of their values.
- `ways` lists arguments: the call runs once with each of them in place of `words`.
- `orders`, a number of parts and of steps: the call runs once for each order of so many steps, with `--order` after its arguments.
- `prefixes`, the name of a file and two lengths: the call runs once with each prefix of the file, from the first length up to but not
  including the second.

With `script = true` at the head of a file its calls run ./tilt, which finds the program. All others run the built program itself.

A text is a string; or a list of strings and of repeated pieces; or `{ text = NAME }`, the text of that name in the table `texts` of the
file. A repeated piece has `each`, a string that is written once for every number from `from` (0 by default) up to but not including
`below`, by steps of `step`, with `{}` replaced by the number and with `between` in between. A file may also be a number of `zeros`, or a
series of so many `rows`: the row i is from i to i+1, with the value i, or the same `value` in each."""
from __future__ import annotations

import dataclasses
import glob
import itertools
import os
import tomllib
from typing import Any, Iterator

from shared.paths import CALLS

# A call, or a group of calls, as a table has it.
Row = dict[str, Any]


@dataclasses.dataclass(frozen=True)
class CallTest:
    """Calls in one folder, one after another."""

    name: str
    calls: list[Row]


def piece_of(piece: str | Row) -> str:
    """A piece of a text: itself, or one for each number, joined."""
    if isinstance(piece, str):
        return piece
    numbers = range(piece.get("from", 0), piece["below"], piece.get("step", 1))
    return str(piece.get("between", "")).join(piece["each"].replace("{}", str(number)) for number in numbers)


def text_of(value: Any, texts: Row) -> Any:
    """A text as a string. A file of zeros or rows stays as it is."""
    if isinstance(value, list):
        return "".join(map(piece_of, value))
    if isinstance(value, dict) and "text" in value:
        return texts[value["text"]]
    return value


def contents(value: str | Row) -> bytes:
    """The bytes of a file."""
    if isinstance(value, str):
        return value.encode()
    if "zeros" in value:
        return bytes(value["zeros"])
    rows = range(value["rows"])
    same = value.get("value")
    return b"start,end,value\n" + b"".join(b"%d,%d,%d\n" % (i, i + 1, i if same is None else same) for i in rows)


def with_texts(call: Row, texts: Row) -> Row:
    """The call with its texts as strings."""
    call = dict(call)
    for key in {"files", "left"} & set(call):
        call[key] = {name: text_of(value, texts) for name, value in call[key].items()}
    for key in {"input", "out", "err"} & set(call):
        call[key] = text_of(call[key], texts)
    if "words" in call:
        call["words"] = [text_of(word, texts) for word in call["words"]]
    return call


def in_group(group: Row, call: Row) -> Row:
    """The call with what it has in common with the others of its group."""
    common = {key: value for key, value in group.items() if key not in ("name", "calls")}
    return {**common, **call, "files": {**group.get("files", {}), **call.get("files", {})}}


def each_of(name: str, call: Row) -> Iterator[tuple[str, Row]]:
    """The calls that a call expands to, with their names."""
    if "ways" in call:
        for words in call["ways"]:
            yield f"{name}: {' '.join(words)}", {**call, "words": words}
    elif "orders" in call:
        parts, steps = call["orders"]
        for order in itertools.product(range(parts), repeat=steps):
            text = ",".join(map(str, order))
            yield f"{name}: {text}", {**call, "words": call["words"] + ["--order", text]}
    elif "prefixes" in call:
        file, least, end = call["prefixes"]
        for length in range(least, end):
            prefix = contents(call["files"][file])[:length].decode()
            yield f"{name}: {length} bytes", {**call, "files": {**call["files"], file: prefix}}
    else:
        yield name, call


def read_tests(path: str) -> Iterator[CallTest]:
    """The tests of a file: those of its calls, its groups and its chains."""
    with open(path, "rb") as file:
        table = tomllib.load(file)
    texts = table.get("texts", {})
    script = {"script": True} if table.get("script") else {}
    for call in table.get("call", []):
        for name, one in each_of(call["name"], with_texts({**script, **call}, texts)):
            yield CallTest(name, [one])
    for group in table.get("group", []):
        for number, call in enumerate(group["calls"], 1):
            for name, one in each_of(f"{group['name']}, {number}", with_texts(in_group({**script, **group}, call), texts)):
                yield CallTest(name, [one])
    for chain in table.get("chain", []):
        first, *others = [with_texts({**script, **call}, texts) for call in chain["calls"]]
        first["files"] = {**with_texts(chain, texts).get("files", {}), **first.get("files", {})}
        yield CallTest(chain["name"], [first, *others])


def all_tests(folder: str = CALLS) -> list[CallTest]:
    """The tests of every file in a folder."""
    return [test for path in sorted(glob.glob(os.path.join(folder, "*.toml"))) for test in read_tests(path)]
