"""The English of the pages: no words of the list below, and no sentence of more than 30 words.

It looks at the pages of `PAGES`. The others are counted in one line, so that the list can grow. Code, in spans and in blocks, is no text; a
span counts as one word of its sentence. A heading, a paragraph, an item of a list and a cell of a table are each looked at alone."""
from __future__ import annotations

import dataclasses
import glob
import os
import re
from typing import Iterable, Iterator, NamedTuple

from shared.tally import Tally

PAGES = ["README.md", "CONTRIBUTING.md", "CHANGELOG.md", "docs/README.md"]
PAGES += [f"docs/{name}.md" for name in ("COMMANDS", "COMPARED", "COOKBOOK", "DATA", "ERRORS", "GLOSSARY", "INSTALL")]
PAGES += [f"docs/{name}.md" for name in ("LANGUAGE", "LIVE", "OPERATORS", "OPTIONS", "PERFORMANCE", "PYTHON", "RELEASES")]
PAGES += [f"docs/{name}.md" for name in ("PARTS", "RELIABILITY", "RUNNING_SESSIONS", "SCALE", "SEMANTICS", "TUTORIAL")]
PAGES += [f"docs/internals/{name}.md" for name in ("ARCHITECTURE", "DECISIONS", "EMBEDDING", "MEANING", "MEASUREMENTS", "PROVED")]
PAGES += [f"examples/{name}/README.md" for name in ("clinical", "fleet", "sensors", "trading")]
ALL_PAGES = ["*.md", "docs/*.md", "docs/internals/*.md", "examples/*/README.md"]
MOST_WORDS = 30


class Rule(NamedTuple):
    """Words that a page doesn't have, in any case of letters and with any white space between them, and what to write instead."""

    words: re.Pattern[str]
    instead: str


def rule(words: str, instead: str) -> Rule:
    return Rule(re.compile(rf"\b(?:{words})\b".replace(" ", r"\s+"), re.IGNORECASE), instead)


RULES = [
    rule("tells|told", "prints, reports, shows or means"),
    rule("(?:the|same) words(?! (?:of|that))", "arguments"),
    rule("stands(?! for)|stood|stand (?:in|there|here|beside|before|after|on)", "is, is in or remains"),
    rule("puts|(?:a|is|are|was|were|be|been|each|failed) put", "writes, appends, inserts or places"),
    rule("but for", "except"),
    rule("(?:comes?|came|coming) to(?! (?:an|the|its|their) end)", "is, gives or results in"),
    rule(r"some \d[\d,.]*", "about and the number"),
    rule("(?:for|from|of|to) who|who comes", "if you .."),
    rule("anew", "again"),
    rule("mend|mends|mended", "fix"),
    rule("reckon|reckons|reckoned", "estimate"),
    rule("(?:see|sees|seen|saw) to", "check, fix or ensure"),
    rule("(?:throw|throws|thrown|threw) away", "discard"),
    rule("besides", "also"),
    rule("parted", "separated"),
    rule("taken away", "deleted"),
    rule("in any case", "always"),
    rule("wants? of memory|memory (?:is|was|were|be|been) wanting", "out of memory"),
]

FENCE = re.compile(r"\s*```")
ITEM = re.compile(r"\s*(?:[-*+]|\d+\.)\s+")
# What isn't text, and what is left of it. Line ends stay, so that a place in a piece of text has its line.
SPAN = re.compile(r"(`+)(.+?)\1", re.DOTALL)
LINK = re.compile(r"!?\[([^\]]*)\]\([^)\s]*\)")
ADDRESS = re.compile(r"<?https?://[^\s)>]+>?")
CODE = "CODE"
# Where a sentence ends: not after `..`, which leaves something out.
END = re.compile(r"(?<!\.\.)(?<=[.!?])[\"')*]*\s+(?=[\"'(*]*[A-Z0-9])")
WORD = re.compile(r"\S*\w\S*")


@dataclasses.dataclass
class Piece:
    """A piece of text, such as a paragraph, and the number of its first line."""

    line: int
    text: str

    def line_at(self, place: int) -> int:
        return self.line + self.text.count("\n", 0, place)


class Fault(NamedTuple):
    line: int
    what: str


def without_code(text: str) -> str:
    """The text with a word in the place of each span of code, and with links as their texts."""
    text = SPAN.sub(lambda found: CODE + "\n" * found[2].count("\n"), text)
    return ADDRESS.sub("", LINK.sub(r"\1", text))


def cells_of(number: int, row: str) -> list[Piece]:
    """The cells of a row of a table: a bar within a cell has a backslash."""
    cells = re.split(r"(?<!\\)\|", SPAN.sub(CODE, row.strip()))
    return [Piece(number, cell.strip()) for cell in cells if WORD.search(cell)]


def pieces_of(lines: Iterable[str]) -> Iterator[Piece]:
    """The pieces of text of a page, with their code still in spans."""
    piece: Piece | None = None
    fenced = False
    for number, line in enumerate([*lines, ""], 1):
        fence = FENCE.match(line) is not None
        text = re.sub(r"^\s*>\s?", "", line)
        row, heading, item = text.startswith("|"), text.startswith("#"), ITEM.match(text)
        breaks = fence or fenced or not text.strip() or row or heading or item is not None or text.startswith("<!--")
        code = text.startswith("    ") and piece is None and item is None
        if piece is not None and breaks:
            yield piece
            piece = None
        fenced = fenced != fence
        if fence or fenced or code or not text.strip() or text.startswith("<!--"):
            continue
        if row:
            yield from cells_of(number, text)
        elif heading:
            yield Piece(number, text.lstrip("# "))
        elif piece is None:
            piece = Piece(number, text[item.end() :] if item else text)
        else:
            piece.text += "\n" + text


def words_of(piece: Piece) -> Iterator[Fault]:
    """The words of the list that a piece has."""
    for words, instead in RULES:
        for found in words.finditer(piece.text):
            yield Fault(piece.line_at(found.start()), f"\"{' '.join(found[0].split())}\": write {instead}")


def sentences_of(piece: Piece) -> Iterator[Piece]:
    start = 0
    for end in [*(found.end() for found in END.finditer(piece.text)), len(piece.text)]:
        yield Piece(piece.line_at(start), piece.text[start:end])
        start = end


def long_sentences(piece: Piece) -> Iterator[Fault]:
    for sentence in sentences_of(piece):
        words = WORD.findall(sentence.text)
        if len(words) > MOST_WORDS:
            yield Fault(sentence.line, f"a sentence of {len(words)} words, \"{' '.join(words[:5])} ..\": split it")


def faults_of_pieces(pieces: Iterable[Piece]) -> list[Fault]:
    """What is wrong with pieces of text without code, line by line."""
    return sorted(fault for piece in pieces for find in (words_of, long_sentences) for fault in find(piece))


def faults_of(path: str) -> list[Fault]:
    """What is wrong with a page, line by line."""
    with open(path, encoding="utf-8") as file:
        return faults_of_pieces(Piece(piece.line, without_code(piece.text)) for piece in pieces_of(file.read().split("\n")))


def other_pages(top: str, pages: list[str]) -> list[str]:
    found = {os.path.relpath(path, top) for pattern in ALL_PAGES for path in glob.glob(os.path.join(top, pattern))}
    return sorted(found - set(pages))


def check_style(top: str, tally: Tally, pages: list[str] | None = None) -> None:
    pages = PAGES if pages is None else pages
    for page in pages:
        path = os.path.join(top, page)
        if not os.path.isfile(path):
            tally.expect(False, f"{page}:1: there is no such page (PAGES in tools/check/tree/style.py)")
            continue
        faults = faults_of(path)
        tally.add(0 if faults else 1)
        for fault in faults:
            tally.expect(False, f"{page}:{fault.line}: {fault.what}")
    others = [len(faults_of(os.path.join(top, page))) for page in other_pages(top, pages)]
    if others:
        tally.left_out.append(f"the style of {len(others)} pages: {sum(others)} places to change (pages without any: {others.count(0)})")
