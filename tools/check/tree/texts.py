"""The English of what isn't a page: the manual pages, and the texts of `tilt-data`, which are its `--help` and its messages. The rules are
those of pages.

- Of a manual page each paragraph is looked at. What is in bold or italics is a name, and counts as a word of its sentence. What is between
  `.nf` and `.fi` is no text, and neither is the synopsis.
- Of a module of python/tilt_data each text of four words or more is looked at, except docstrings. What is put into a text counts as a word.
  Where a line ends with a full stop, a sentence ends."""
from __future__ import annotations

import ast
import glob
import os
import re
from typing import Callable, Iterator

from check.tree.style import CODE, Piece, faults_of_pieces, without_code
from shared.tally import Tally

MANUALS = os.path.join("docs", "*.1")
MODULES = os.path.join("python", "tilt_data", "**", "*.py")
LEAST_WORDS = 4
# Lines that end a paragraph, and lines whose arguments are all names.
BREAKS = (".SH", ".TP", ".PP", ".br", ".RS", ".RE", ".nf", ".fi", ".TH")
NAMES = (".B", ".I")
SYNOPSIS = ".SH SYNOPSIS"
# Fonts take turns among the arguments of these, and the one that is roman is text.
ROMAN = {".RB": 0, ".RI": 0, ".BR": 1, ".IR": 1}
ARGUMENT = re.compile(r'"([^"]*)"|(\S+)')


def unescaped(text: str) -> str:
    text = re.sub(r"\\f[BI](.*?)(?:\\fR|$)", CODE, text)
    return text.replace(r"\-", "-").replace(r"\&", "").replace(r"\fR", "")


def text_of(line: str) -> str:
    """What a line of a manual page shows, with a word in the place of each name."""
    macro, _, rest = line.partition(" ")
    if not line.startswith("."):
        return unescaped(line)
    if macro in NAMES or macro not in ROMAN:
        return CODE
    shown = [unescaped(first or second) for first, second in ARGUMENT.findall(rest)]
    return " ".join(one if at % 2 == ROMAN[macro] else CODE for at, one in enumerate(shown))


def pieces_of_manual(text: str) -> Iterator[Piece]:
    """The paragraphs of a manual page."""
    piece: Piece | None = None
    shown = True
    for number, line in enumerate([*text.split("\n"), ".PP"], 1):
        macro = line.partition(" ")[0]
        if macro in BREAKS or not shown:
            if piece is not None:
                yield piece
            piece, shown = None, line not in (".nf", SYNOPSIS) and (shown or macro in (".fi", ".SH"))
        elif piece is None:
            piece = Piece(number, text_of(line))
        else:
            piece.text += "\n" + text_of(line)


def docstrings_of(tree: ast.AST) -> set[int]:
    """The docstrings of a module: they aren't printed."""
    blocks = (ast.Module, ast.ClassDef, ast.FunctionDef)
    firsts = [node.body[0] for node in ast.walk(tree) if isinstance(node, blocks) and node.body]
    return {id(first.value) for first in firsts if isinstance(first, ast.Expr)}


def text_in(node: ast.expr) -> str:
    """A text, with a word in the place of each value that is put into it."""
    if isinstance(node, ast.Constant):
        return node.value if isinstance(node.value, str) else CODE
    return "".join(map(text_in, node.values)) if isinstance(node, ast.JoinedStr) else CODE


def pieces_of_module(text: str) -> Iterator[Piece]:
    """The texts of a module that have at least so many words as a message has."""
    tree = ast.parse(text)
    left_out = docstrings_of(tree)
    for node in ast.walk(tree):
        if isinstance(node, ast.JoinedStr):
            left_out.update(id(part) for part in node.values)
        if isinstance(node, (ast.Constant, ast.JoinedStr)) and id(node) not in left_out:
            for line in text_in(node).replace(".\n", ".\n\n").split("\n\n"):
                if len(line.split()) >= LEAST_WORDS:
                    yield Piece(node.lineno, line)


def check_file(top: str, path: str, pieces: Callable[[str], Iterator[Piece]], tally: Tally) -> None:
    with open(path, encoding="utf-8") as file:
        found = [Piece(piece.line, without_code(piece.text)) for piece in pieces(file.read())]
    faults = faults_of_pieces(found)
    tally.add(0 if faults else 1)
    for fault in faults:
        tally.expect(False, f"{os.path.relpath(path, top)}:{fault.line}: {fault.what}")


def check_texts(top: str, tally: Tally) -> None:
    for pattern, pieces in ((MANUALS, pieces_of_manual), (MODULES, pieces_of_module)):
        for path in sorted(glob.glob(os.path.join(top, pattern), recursive=True)):
            check_file(top, path, pieces, tally)
