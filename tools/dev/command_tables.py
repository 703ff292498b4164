#!/usr/bin/env python3
"""Writes what is said of commands and options outside of the programs, from the tables that the programs read them by.

The tables of `tilt` are `OPTIONS` and `COMMANDS` in the sources of the crate that has `src/command_table.rt`. Written from them are the
table at the top of docs/COMMANDS.md, the table of commands in docs/internals/MEANING.md, the synopsis in docs/tilt.1, and the commands and
options in tools/package/completion. The table of `tilt-live` is `LIVE_OPTIONS`. Written from it are the table of options in docs/LIVE.md,
the synopsis in docs/tilt-live.1, and the options in the completion. docs/tilt-live.1 has to describe just these options, in their order.
The options of `tilt-data` in docs/OPTIONS.md are written from its parsers.

With --check nothing is written: each file that differs is named, the last line is 'N passed, M failed', and the status is 1 if one
failed."""
from __future__ import annotations

import argparse
import dataclasses
import pathlib
import re
import sys
from typing import Callable, Iterable

TOP = next(folder for folder in pathlib.Path(__file__).resolve().parents if (folder / "crates.txt").is_file())

# What stands for a value in a synopsis, by its shape. A flag has none.
VALUES = {"Flag": "", "Text": "FILE", "Times": "TIME,TIME,..", "RisingTimes": "TIME,TIME,..", "Numbers": "PART,PART,..", "Cuts": "CUTS"}
VALUES["Ticks"] = "N"
# Of an option whose text is no file.
NAMED = {
    "--folder": "FOLDER",
    "--time": "COL",
    "--name": "COL",
    "--value": "COL",
    "--tick": "DURATION",
    "--origin": "DATE",
    "--unit": "UNIT",
    "--zone": "ZONE",
    "--fold": "FOLD",
    "--scale": "SCALES",
    "--bounds": "BOUNDS",
    "--max-age": "AGES",
    "--events": "NAMES",
    "--closed": "SIDE",
    "--ties": "RULE",
    "--null": "TEXTS",
    "--delimiter": "C",
    "--decimal": "C",
}

# The first options that only a call of `tilt-live` on rows has, and that only one on readings has; those that the latter must have; and how
# many options are on a line of the synopsis at most.
ROWS_AND_READINGS = ("--lateness", "--time")
REQUIRED = ("--time", "--tick")
LINE_OF_OPTIONS = 12

BIND = "NAME=FILE .."

# The one command without a file: it has two numbers and no options, and so no row in the table.
TRY = ("try", "SEED N", "figures on a run over made rows")


class Unreadable(Exception):
    """A table or a page isn't in the form that is read here."""


@dataclasses.dataclass(frozen=True)
class Command:
    """A row of `COMMANDS`, with the comment above it: the name of its file, and what it prints."""

    word: str
    file: str
    prints: str
    required: tuple[str, ...]
    allowed: tuple[str, ...]
    takes_binds: bool


@dataclasses.dataclass(frozen=True)
class Tables:
    """The tables. `options` and `live` give the shape of each option's value, and `does` what an option of `tilt-live` does."""

    options: dict[str, str]
    commands: tuple[Command, ...]
    live: dict[str, str]
    does: dict[str, str]


def sources() -> pathlib.Path:
    """The folder of the two source files with the tables."""
    found = sorted(TOP.glob("crates/*/src/command_table.rt"))
    if len(found) != 1:
        raise Unreadable(f"{len(found)} crates have src/command_table.rt")
    return found[0].parent


def live_source() -> pathlib.Path:
    """The source file with the options of `tilt-live`."""
    found = [path for path in sorted(TOP.glob("crates/*/src/*.rt")) if "const LIVE_OPTIONS: " in path.read_text()]
    if len(found) != 1:
        raise Unreadable(f"{len(found)} files have LIVE_OPTIONS")
    return found[0]


def rows(text: str, table: str, kind: str) -> list[str]:
    """The rows of a table, each from the comment above it to its last field."""
    declared = re.search(rf"^(?:pub(?:\(crate\))? )?const {table}: \[{kind}; (\d+)\] = \[\n(.*?)^\];$", text, re.M | re.S)
    if declared is None:
        raise Unreadable(f"no table {table}")
    found = re.findall(rf"((?:^    //[^\n]*\n)?)^    {kind} \{{(.*?)^    \}},$", declared[2], re.M | re.S)
    if len(found) != int(declared[1]):
        raise Unreadable(f"{len(found)} rows of {declared[1]} in {table}")
    return [comment + row for comment, row in found]


def field(row: str, pattern: str) -> str:
    found = re.search(pattern, row)
    if found is None:
        raise Unreadable(f"no {pattern} in {row.strip()}")
    return found[1]


def words(text: str) -> tuple[str, ...]:
    return tuple(re.findall(r'"([^"]+)"', text))


def command(row: str) -> Command:
    about = re.match(r"    // ([A-Z]+): (.+)\n", row)
    if about is None:
        raise Unreadable(f"no comment with the file and what is printed above {row.strip()}")
    return Command(
        field(row, r'word: "(\w+)"'),
        about[1],
        about[2],
        words(field(row, r"required: &\[([^\]]*)\]")),
        words(field(row, r"allowed: &\[([^\]]*)\]")),
        field(row, r"takes_binds: (true|false)") == "true",
    )


def shapes(found: list[str]) -> dict[str, str]:
    """The options of a table, each with the shape of its value."""
    return {field(row, r'word: "(--[a-z-]+)"'): field(row, r"shape: Shape::(\w+)") for row in found}


def tables() -> Tables:
    folder = sources()
    options = shapes(rows((folder / "option_table.rt").read_text(), "OPTIONS", "OptionRow"))
    commands = tuple(command(row) for row in rows((folder / "command_table.rt").read_text(), "COMMANDS", "CommandRow"))
    for row in commands:
        unknown = [option for option in row.required + row.allowed if option not in options]
        if unknown:
            raise Unreadable(f"{row.word} has {', '.join(unknown)}, which {'is' if len(unknown) == 1 else 'are'} not in OPTIONS")
    live = rows(live_source().read_text(), "LIVE_OPTIONS", "OptionRow")
    does = [field(row, r"^    // (.+)\n") for row in live]
    return Tables(options, commands, shapes(live), dict(zip(shapes(live), does)))


def value_name(option: str, options: dict[str, str]) -> str:
    """What the value of an option is called, if it has one."""
    return NAMED.get(option, VALUES[options[option]])


def with_value(option: str, options: dict[str, str]) -> str:
    """An option and what its value is called."""
    return f"{option} {value_name(option, options)}".rstrip()


def call(row: Command, options: dict[str, str]) -> str:
    """A command's form on one line."""
    parts = [
        row.word,
        row.file,
        *([BIND] if row.takes_binds else []),
        *(with_value(option, options) for option in row.required),
        *(f"[{with_value(option, options)}]" for option in row.allowed),
    ]
    return " ".join(parts)


def reference(found: Tables) -> str:
    """The table at the top of docs/COMMANDS.md."""
    lines = [f"| `{call(row, found.options)}` | {row.prints} |" for row in found.commands]
    return "\n".join(["| command | prints |", "|---|---|", *lines, f"| `{TRY[0]} {TRY[1]}` | {TRY[2]} |", ""])


def listed(options: Iterable[str]) -> str:
    return ", ".join(f"`{option}`" for option in options) or "none"


def meaning(found: Tables) -> str:
    """The table of docs/internals/MEANING.md."""
    lines = [
        f"| `{row.word} {row.file}` | {listed(row.required)} | {listed(row.allowed)} | {'any number' if row.takes_binds else 'none'} |"
        for row in found.commands
    ]
    return "\n".join(["| command | options that it must have | options that it can have | binds |", "|---|---|---|---|", *lines, ""])


def value_of(action: argparse.Action) -> str:
    """What a page shows for the value of an option."""
    if action.nargs == 0:
        return ""
    if action.choices is not None:
        return " " + "|".join(str(choice) for choice in action.choices)
    name = action.metavar if isinstance(action.metavar, str) else action.dest.upper()
    return f" {name} .." if action.nargs == "+" else f" {name}"


def cell(text: str) -> str:
    return text.replace("|", r"\|")


def options_of_command(command: str, parser: argparse.ArgumentParser) -> str:
    """The part of docs/OPTIONS.md on a command of `tilt-data`."""
    # The name and the help of an argument have no public list.
    actions = [action for action in parser._actions if not isinstance(action, argparse._HelpAction)]
    binds = " ".join(str(action.metavar or action.dest) for action in actions if not action.option_strings)
    lines = [f"## `tilt-data {command}`", "", f"`tilt-data {command} {binds}` and these options:", "", "| option | meaning |", "|---|---|"]
    for action in actions:
        if action.option_strings:
            name = ", ".join(action.option_strings) + value_of(action)
            needed = "; required" if action.required else ""
            lines.append(f"| `{cell(name)}` | {cell(action.help or '')}{needed} |")
    return "\n".join([*lines, ""])


def options_page(_: Tables) -> str:
    """The options of each command of `tilt-data` that has some, by its parser."""
    sys.path.insert(0, str(TOP / "python"))
    from tilt_data.cli import parser_of

    found = next(action for action in parser_of()._actions if isinstance(action, argparse._SubParsersAction)).choices
    return "\n".join(
        options_of_command(command, parser)
        for command, parser in found.items()
        if any(action.option_strings for action in parser._actions[1:])
    )


def roff(text: str) -> str:
    return text.replace("-", r"\-")


def roff_value(value: str) -> str:
    """A value in italics, with its punctuation in bold."""
    return (
        value.replace(",..", r"\fB,\fR...")
        .replace("TIME,", r"TIME\fB,\fI")
        .replace("PART,", r"PART\fB,\fI")
        .replace(r"\fI\fB,\fR", r"\fB,\fR")
    )


def roff_option(option: str, options: dict[str, str], optional: bool) -> list[str]:
    value = roff_value(value_name(option, options))
    if not optional:
        return [f".B {roff(option)}", *([f".IR {value}" if "\\" in value else f".I {value}"] if value else [])]
    if not value:
        return [f".RB [ {roff(option)} ]"]
    return [f".RB [ {roff(option)}", f".IR {value} ]"]


def synopsis(found: Tables) -> str:
    """The part of docs/tilt.1 between its headings SYNOPSIS and DESCRIPTION."""
    calls = []
    for row in found.commands:
        lines = [
            f".B tilt {row.word}",
            f".I {row.file}" + (r" NAME\fB=\fIFILE" if row.takes_binds else ""),
            *([r"\&...\&"] if row.takes_binds else []),
        ]
        for option in row.required + row.allowed:
            lines += roff_option(option, found.options, option in row.allowed)
        calls.append("\n".join(lines) + "\n")
    calls.append(f".B tilt {TRY[0]}\n.I {TRY[1]}\n")
    return ".br\n".join(calls)


def options_of(found: Tables) -> dict[str, list[str]]:
    """Each first word, with the options of all its rows."""
    of: dict[str, list[str]] = {}
    for row in found.commands:
        known = of.setdefault(row.word, [])
        known += [option for option in row.required + row.allowed if option not in known]
    return of


def completed_words(found: Tables) -> str:
    return " ".join([*options_of(found), TRY[0]])


def completed_options(found: Tables) -> str:
    """The cases of the completion for bash: the words that have the same options are one case."""
    alike: dict[tuple[str, ...], list[str]] = {}
    for word, options in options_of(found).items():
        if options:
            alike.setdefault(tuple(options), []).append(word)
    return "".join(
        f'        {" | ".join(some)}) COMPREPLY=($(compgen -W "{" ".join(options)}" -- "$word")) ;;\n' for options, some in alike.items()
    )


def live_options(found: Tables) -> str:
    """The table of docs/LIVE.md."""
    lines = [f"| `{with_value(option, found.live)}` | {found.does[option]} |" for option in found.live]
    return "\n".join(["| option | does |", "|---|---|", *lines, ""])


def live_synopsis(found: Tables) -> str:
    """The part of docs/tilt-live.1 between its headings SYNOPSIS and DESCRIPTION: a call on rows, and one on readings."""
    options = list(found.live)
    rows, readings = map(options.index, ROWS_AND_READINGS)
    calls = []
    for own in options[rows:readings], options[readings:]:
        lines = [".B tilt-live", ".I QUERY"]
        for count, option in enumerate(options[:rows] + own):
            # A new line in the middle of many options.
            lines += [".br"] if count == LINE_OF_OPTIONS else []
            lines += roff_option(option, found.live, option not in REQUIRED)
        calls.append("\n".join(lines) + "\n")
    return ".br\n".join(calls)


def completed_live(found: Tables) -> str:
    return " ".join(found.live)


def undescribed(found: Tables) -> list[str]:
    """What is wrong with the options that docs/tilt-live.1 describes: they have to be those of the table, in their order."""
    options = (TOP / "docs/tilt-live.1").read_text().partition("\n.SH OPTIONS\n")[2].partition("\n.SH ")[0]
    described = re.findall(r"^\.TP\n\.BI? (.+)$", options, re.M)
    values = {option: value_name(option, found.live) for option in found.live}
    wanted = [f'{roff(option)} " {value}"' if value else roff(option) for option, value in values.items()]
    return [] if described == wanted else [f"docs/tilt-live.1 describes {', '.join(described)}, and LIVE_OPTIONS has {', '.join(wanted)}"]


# Of each file what is written, and where: the pattern matches once, and its group `made` is what is written.
PLACES: tuple[tuple[str, str, Callable[[Tables], str]], ...] = (
    ("docs/COMMANDS.md", r"^(?P<made>\| command \| prints \|\n(?:\|.*\n)+)", reference),
    ("docs/OPTIONS.md", r"^<!-- options -->\n(?P<made>(?:.*\n)*?)<!-- end of options -->$", options_page),
    ("docs/internals/MEANING.md", r"^(?P<made>\| command \| options that .*\n(?:\|.*\n)+)", meaning),
    ("docs/tilt.1", r"^\.SH SYNOPSIS\n(?P<made>(?:.*\n)*?)\.SH DESCRIPTION$", synopsis),
    ("tools/package/completion", r'^_tilt\(\) \{\n(?:.*\n)*?.*compgen -W "(?P<made>[a-z ]+)"', completed_words),
    ("tools/package/completion", r"^        case \$command in\n(?P<made>(?:.*\n)*?)        esac$", completed_options),
    ("docs/LIVE.md", r"^(?P<made>\| option \| does \|\n(?:\|.*\n)+)", live_options),
    ("docs/tilt-live.1", r"^\.SH SYNOPSIS\n(?P<made>(?:.*\n)*?)\.SH DESCRIPTION$", live_synopsis),
    ("tools/package/completion", r'^_tilt_live\(\) \{\n(?:.*\n)*?.*compgen -W "(?P<made>[a-z -]+)"', completed_live),
)


def written(text: str, name: str, pattern: str, made: str) -> str:
    """The text of a file with what is made in its place."""
    found = list(re.finditer(pattern, text, re.M))
    if len(found) != 1:
        raise Unreadable(f"{name} has {len(found)} places for what is made from the tables")
    return text[: found[0].start("made")] + made + text[found[0].end("made") :]


def main() -> int:
    parser = argparse.ArgumentParser(description=(__doc__ or "").partition("\n")[0])
    parser.add_argument("--check", action="store_true", help="compare, and write nothing")
    check: bool = parser.parse_args().check
    found = tables()
    texts: dict[str, str] = {}
    for name, pattern, make in PLACES:
        texts[name] = written(texts.get(name) or (TOP / name).read_text(), name, pattern, make(found))
    other = [name for name, text in texts.items() if (TOP / name).read_text() != text]
    wrong = undescribed(found)
    for line in wrong:
        print(line)
    if check:
        for name in other:
            print(f"{name} isn't what the tables of commands and options say: call tools/dev/command_tables.py")
        print(f"{len(texts) + 1 - len(other) - len(wrong)} passed, {len(other) + len(wrong)} failed")
        return 1 if other or wrong else 0
    for name in other:
        (TOP / name).write_text(texts[name])
        print(name)
    return 1 if wrong else 0


if __name__ == "__main__":
    try:
        sys.exit(main())
    except Unreadable as error:
        sys.exit(f"command_tables: {error}")
