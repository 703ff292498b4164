"""The English of the comments in crates/: docstrings, comments of the code, and comments of definitions and proofs. The rules are those of
pages. Comments on lines of their own are looked at; a blank one, and each item of a list, begins a new piece of text."""
from __future__ import annotations

import glob
import os
import re
from typing import Iterator

from check.tree.style import Piece
from check.tree.texts import check_file
from shared.tally import Tally

# The marks of comments by the ending of a file: a longer mark before those that it begins with.
MARKS = {".rt": ("///", "//!", "//"), ".antt": ("--",)}
ITEM = re.compile(r"[-*]\s")


def comment_of(line: str, marks: tuple[str, ...]) -> tuple[str, str] | None:
    """The mark and the text of a comment that has its line alone."""
    text = line.strip()
    mark = next((mark for mark in marks if text.startswith(mark)), None)
    return None if mark is None else (mark, text[len(mark) :].strip())


def pieces_of_comments(text: str, marks: tuple[str, ...]) -> Iterator[Piece]:
    """The pieces of text that the comments of a file have, with their code still in spans."""
    piece: Piece | None = None
    last = ""
    for number, line in enumerate([*text.split("\n"), ""], 1):
        mark, said = comment_of(line, marks) or ("", "")
        if piece is not None and (mark != last or not said or ITEM.match(said)):
            yield piece
            piece = None
        last = mark
        if not said:
            continue
        if piece is None:
            piece = Piece(number, said)
        else:
            piece.text += "\n" + said


def check_comments(top: str, tally: Tally) -> None:
    for ending, marks in MARKS.items():
        paths = glob.glob(os.path.join(top, "crates", "*", "*", "**", f"*{ending}"), recursive=True)
        for path in sorted(path for path in paths if os.path.relpath(path, top).split(os.sep)[2] in ("src", "specs", "proofs")):
            check_file(top, path, lambda text: pieces_of_comments(text, marks), tally)
