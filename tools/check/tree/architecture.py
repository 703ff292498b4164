"""The map, docs/internals/ARCHITECTURE.md: what it says of files is true of the tree, and it leaves out no file of code.

- Each crate of crates.txt has a row in one of the two tables of crates, with the libraries that it uses, as in crates.txt.
- The part of a crate begins with its name in bold. Each file of `src/` is named there, except `lib`, `main` and `fault`. The first column
  of its table names files that exist: of `src/`, or after the word `specs` or `proofs` of that folder. So do words such as `specs/Cut` and
  `src/cut.rt`.
- In the recipes such words are of the crate that was named last before them, or by `of` right after.
- A table whose first head is "file of `FOLDER`" names each file below that folder, except `__init__.py`, and each file that it names
  exists."""
from __future__ import annotations

import glob
import os
import re
from typing import Iterator

from shared.crates import libraries_of_crates
from shared.tally import Tally

PAGE = os.path.join("docs", "internals", "ARCHITECTURE.md")
PREFIX = "tilt_"
# These have no row: the first is what the crate consists of, and of the last the page speaks once for all crates.
UNNAMED = ["lib", "main", "fault"]
QUOTED = re.compile(r"`([^`]+)`")
# A quoted word that is a file of a crate, and the crate if it follows.
FILE = re.compile(r"`(src|specs|proofs)/(\w+(?:/\w+)*)(?:\.rt|\.antt)?`(?: of `(tilt\w*)`)?")
RECIPES = ["## A new command", "## A new option", "## A new reducer"]
SUFFIX = {"src": ".rt", "specs": ".antt", "proofs": ".antt"}
# A line of the page, and its number.
Line = tuple[int, str]


def lines_of(top: str) -> list[Line]:
    with open(os.path.join(top, PAGE), encoding="utf-8") as file:
        return list(enumerate(file.read().split("\n"), 1))


def cells_of(line: str) -> list[str]:
    """The cells of a row of a table, or none if the line is no such row."""
    return [cell.strip() for cell in line.split("|")[1:-1]] if line.startswith("|") else []


def rows_below(lines: list[Line], heads: list[str]) -> Iterator[tuple[int, list[str]]]:
    """The rows of each table with these heads, and their lines' numbers. A row whose first cell is empty goes on with the row before it."""
    inside, number = False, 0
    row: list[str] = []
    for at, line in [*lines, (0, "")]:
        cells = cells_of(line)
        if inside and cells and not cells[0]:
            row = [f"{one} {other}".strip() for one, other in zip(row, cells)]
            continue
        if row:
            yield number, row
        row = []
        if inside and cells and not set(cells[0]) <= set("-"):
            row, number = cells, at
        inside = (inside and bool(cells)) or cells == heads


def parts_of(lines: list[Line]) -> dict[str, list[Line]]:
    """The lines of each crate's part."""
    parts: dict[str, list[Line]] = {}
    crate = None
    for number, line in lines:
        begins = re.match(r"\*\*(tilt\w*)\*\*", line)
        if begins or line.startswith("## "):
            crate = begins[1] if begins else None
        if crate:
            parts.setdefault(crate, []).append((number, line))
    return parts


def part_below(lines: list[Line], title: str) -> list[Line]:
    """The lines below a heading, up to the next one."""
    found: list[Line] = []
    inside = False
    for number, line in lines:
        inside = line == title or (inside and not line.startswith("## "))
        if inside:
            found.append((number, line))
    return found


# What a crate uses.


def crate_of(word: str) -> str:
    """The library that a word of the last column names: one of others is quoted."""
    return word.strip("`") if word.startswith("`") else PREFIX + word


def words_of(text: str) -> list[str]:
    return [word for word in re.split(r",\s*|\s+and\s+", text.strip()) if word]


def used_by(text: str, libraries: dict[str, list[str]]) -> set[str]:
    """The libraries of the last column: words with commas between, or `what NAME uses, except WORDS`; several such with `;` between."""
    found: set[str] = set()
    for piece in text.split(";"):
        like = re.fullmatch(r"what (\w+) uses(?:, except (.*))?", piece.strip())
        if like:
            found |= set(libraries.get(crate_of(like[1]), [])) - {crate_of(word) for word in words_of(like[2] or "")}
        else:
            found |= {crate_of(word) for word in words_of(piece)}
    return found


def check_rows(top: str, lines: list[Line], tally: Tally) -> None:
    libraries = libraries_of_crates(top)
    rows = [
        *rows_below(lines, ["crate", "the one contract it gives upward", "uses"]),
        *rows_below(lines, ["crate", "tests", "uses"]),
    ]
    named = {row[0].strip("`"): (number, row[2]) for number, row in rows}
    for crate, listed in libraries.items():
        tally.expect(crate in named, f"{PAGE}:1: {crate} has no row in the tables of crates")
        number, text = named.get(crate, (1, ", ".join(f"`{library}`" for library in listed)))
        said = used_by(text, libraries)
        tally.expect(
            said == set(listed), f"{PAGE}:{number}: {crate}: the last column and crates.txt differ by {sorted(said ^ set(listed))}"
        )
    for crate, (number, _) in named.items():
        tally.expect(crate in libraries, f"{PAGE}:{number}: {crate} isn't in crates.txt")


# The files of a crate.


def stems_of(top: str, crate: str) -> list[str]:
    """The names of the files of `src/`, at any depth."""
    paths = glob.glob(os.path.join(top, "crates", crate, "src", "**", "*.rt"), recursive=True)
    return sorted({os.path.splitext(os.path.basename(path))[0] for path in paths})


def fits(name: str, stem: str) -> bool:
    """Whether a name of the page is that of the file; NAME in it is any name."""
    return re.fullmatch(re.escape(name).replace("NAME", r"\w+"), stem) is not None


def is_file(top: str, crate: str, folder: str, name: str) -> bool:
    return os.path.exists(os.path.join(top, "crates", crate, folder, name + SUFFIX[folder]))


def missing_files(top: str, crate: str, lines: list[Line]) -> Iterator[tuple[int, str]]:
    """What the part of a crate names that isn't there."""
    stems = stems_of(top, crate)
    for number, line in lines:
        for folder, name, other in FILE.findall(line):
            if not is_file(top, other or crate, folder, name):
                yield number, f"{other or crate} has no {folder}/{name}{SUFFIX[folder]}"
    for number, (cell, *_) in rows_below(lines, ["file", "does"]):
        folder = next((folder for folder in ("specs", "proofs") if cell.startswith(f"{folder} ")), "src")
        for name in QUOTED.findall(cell):
            there = any(fits(name, stem) for stem in stems) if folder == "src" else is_file(top, crate, folder, name)
            if not there:
                yield number, f"{crate} has no {folder}/{name}{SUFFIX[folder]}"


def check_part(top: str, crate: str, lines: list[Line], tally: Tally) -> None:
    named = [name for _, line in lines for name in QUOTED.findall(line)]
    for stem in stems_of(top, crate):
        good = stem in UNNAMED or any(fits(name, stem) for name in named)
        tally.expect(good, f"{PAGE}:{lines[0][0]}: the part of {crate} doesn't name its file src/{stem}.rt")
    missing = list(missing_files(top, crate, lines))
    tally.add(0 if missing else 1)
    for number, wrong in missing:
        tally.expect(False, f"{PAGE}:{number}: {wrong}")


def check_recipe(top: str, title: str, lines: list[Line], tally: Tally) -> None:
    crate = ""
    for number, line in part_below(lines, title):
        for found in re.finditer(rf"{FILE.pattern}|`(tilt_\w+)`", line):
            folder, name, follows, before = found.groups()
            crate = before or follows or crate
            if folder and "NAME" not in name:
                tally.expect(is_file(top, crate, folder, name), f"{PAGE}:{number}: {crate} has no {folder}/{name}{SUFFIX[folder]}")


# Tables of other folders.


def check_folders(top: str, lines: list[Line], tally: Tally) -> None:
    for number, line in lines:
        head = re.match(r"\| file of `([^`]+)` \|", line)
        if head:
            check_folder(top, head[1], list(rows_below(lines, cells_of(line))), number, tally)


def check_folder(top: str, folder: str, rows: list[tuple[int, list[str]]], number: int, tally: Tally) -> None:
    """A table that names the files of a folder."""
    named = {name: at for at, row in rows for name in QUOTED.findall(row[0])}
    for name, at in named.items():
        tally.expect(os.path.exists(os.path.join(top, folder, name)), f"{PAGE}:{at}: there is no {folder}/{name}")
    for path in sorted(glob.glob(os.path.join(top, folder, "**", "*"), recursive=True)):
        name = os.path.relpath(path, os.path.join(top, folder))
        if os.path.isfile(path) and not path.endswith((".pyc", "__init__.py")):
            tally.expect(name in named, f"{PAGE}:{number}: the table doesn't name {folder}/{name}")


def check_map(top: str, tally: Tally) -> None:
    lines = lines_of(top)
    parts = parts_of(lines)
    check_rows(top, lines, tally)
    for number, row in rows_below(lines, ["crate", "the one contract it gives upward", "uses"]):
        crate = row[0].strip("`")
        tally.expect(crate in parts, f"{PAGE}:{number}: {crate} has no part that begins with its name in bold")
    for crate, part in parts.items():
        check_part(top, crate, part, tally)
    for title in RECIPES:
        check_recipe(top, title, lines, tally)
    check_folders(top, lines, tally)
