"""The check of the tree of files (tools/check/tree) finds each fault that is planted in a small tree, and none in that tree itself."""
from __future__ import annotations

import pathlib
from typing import Callable

import pytest
from check.tree import architecture, comments, edits, lines, listed, python_files, style, texts
from shared import crates
from shared.packages import has_module
from shared.tally import Tally

PAGE = """# The map

## The crates

| crate | the one contract it gives upward | uses |
|---|---|---|
| `tilt_base` | numbers | `itoa` |
| `tilt_core` | cores | base, `thiserror` |
| `tilt_app` | all | what core uses, except `thiserror`; core, |
| | and more | `itoa` |

**tilt_base**: bytes come in.

| file | does |
|---|---|
| `cell`, `span` | cells, by `specs/Cell` |
| specs `Number` | numbers |
| proofs `Laws` | laws |

**tilt_core** is one file: `core`.

**tilt_app**: words come in.

| file | does |
|---|---|
| `NAME_command` | a command |

## Where tests lie

| crate | tests | uses |
|---|---|---|
| `tilt_tests` | all of it | app |

## A new command

| crate | file | what is added |
|---|---|---|
| `tilt_app` | `src/NAME_command.rt` | itself |
| | `src/run_command.rt` | nothing, but for `specs/Cell.antt` of `tilt_base` |

## The tools

| file of `tools` | what it does |
|---|---|
| `one.py` | one thing |
"""
CRATES = """# The crates.
tilt_base: itoa
tilt_core: tilt_base thiserror  # A comment.
tilt_app: tilt_base tilt_core itoa
tilt_tests: tilt_app
"""
FILES = {
    "crates.txt": CRATES,
    "docs/internals/ARCHITECTURE.md": PAGE,
    "crates/tilt_base/src/lib.rt": "mod cell;\nmod span;\n",
    "crates/tilt_base/src/cell.rt": "use itoa::Buffer;\npub fn cell(a: i64) -> i64 {\n    a + 1\n}\n",
    "crates/tilt_base/src/span.rt": "pub struct Span;\n",
    "crates/tilt_base/src/fault.rt": "pub enum Fault {}\n",
    "crates/tilt_base/specs/Cell.antt": "-- Rattle.tilt_core. is only spoken of.\n",
    "crates/tilt_base/specs/Number.antt": "",
    "crates/tilt_base/proofs/Laws.antt": "",
    "crates/tilt_core/src/core.rt": "// tilt_app::x is only spoken of.\n#[derive(thiserror::Error)]\npub enum Core {}\n",
    "crates/tilt_core/proofs/Core.antt": "use Rattle.tilt_base.specs.Cell.{cell}\n",
    "crates/tilt_app/src/run_command.rt": "use tilt_core::core;\nuse tilt_base::Span;\nuse itoa;\n",
    "crates/tilt_tests/src/lib.rt": "use tilt_app::run;\n",
    "crates/tilt_base/must-fail/less.edit": "file: src/cell.rt\nold:     a + 1\nnew:     a\n",
    "tools/one.py": '"""One."""\n',
}


class Tree:
    def __init__(self, top: pathlib.Path, capsys: pytest.CaptureFixture[str]) -> None:
        self.top, self.capsys = top, capsys
        for name, text in FILES.items():
            self.write(name, text)

    def write(self, name: str, text: str) -> None:
        (self.top / name).parent.mkdir(parents=True, exist_ok=True)
        (self.top / name).write_text(text)

    def replace(self, name: str, old: str, new: str) -> None:
        text = (self.top / name).read_text()
        assert text.count(old) == 1
        self.write(name, text.replace(old, new))

    def faults(self, check: Callable[[str, Tally], None]) -> list[str]:
        """The lines that a check prints; as many as it counts."""
        tally = Tally()
        check(str(self.top), tally)
        found = self.capsys.readouterr().out.splitlines()
        assert len(found) == tally.failed and tally.passed > 0
        return found


@pytest.fixture
def tree(tmp_path: pathlib.Path, capsys: pytest.CaptureFixture[str]) -> Tree:
    return Tree(tmp_path, capsys)


def check_listed(top: str, tally: Tally) -> None:
    listed.check_listed(top, tally, unnamed={})


@pytest.mark.parametrize("check", [architecture.check_map, edits.check_edits, check_listed, lines.check_lines])
def test_the_small_tree_has_no_fault(tree, check):
    assert tree.faults(check) == []


def line_of(text: str) -> int:
    """The line of the page that begins with a text."""
    return 1 + next(at for at, line in enumerate(PAGE.splitlines()) if line.startswith(text))


@pytest.mark.parametrize(
    "name, text, line, fault",
    [
        ("crates/tilt_base/src/more.rt", "", "**tilt_base**", "the part of tilt_base doesn't name its file src/more.rt"),
        ("crates/tilt_base/src/cell/part.rt", "", "**tilt_base**", "the part of tilt_base doesn't name its file src/part.rt"),
        ("crates/tilt_app/src/run.rt", "", "**tilt_app**", "the part of tilt_app doesn't name its file src/run.rt"),
        ("tools/two.py", "x = 1\n", "| file of", "the table doesn't name tools/two.py"),
    ],
)
def test_a_file_that_the_map_leaves_out(tree, name, text, line, fault):
    tree.write(name, text)
    assert tree.faults(architecture.check_map) == [f"docs/internals/ARCHITECTURE.md:{line_of(line)}: {fault}"]


@pytest.mark.parametrize(
    "name, line, fault",
    [
        ("crates/tilt_base/src/span.rt", "| `cell`", "tilt_base has no src/span.rt"),
        ("crates/tilt_base/specs/Number.antt", "| specs", "tilt_base has no specs/Number.antt"),
        ("crates/tilt_base/proofs/Laws.antt", "| proofs", "tilt_base has no proofs/Laws.antt"),
        ("tools/one.py", "| `one.py`", "there is no tools/one.py"),
    ],
)
def test_a_file_of_the_map_that_is_gone(tree, name, line, fault):
    (tree.top / name).unlink()
    assert tree.faults(architecture.check_map) == [f"docs/internals/ARCHITECTURE.md:{line_of(line)}: {fault}"]


def test_files_that_are_named_in_other_places_of_the_map(tree):
    (tree.top / "crates/tilt_base/specs/Cell.antt").unlink()
    (tree.top / "crates/tilt_app/src/run_command.rt").unlink()
    assert tree.faults(architecture.check_map) == [
        f"docs/internals/ARCHITECTURE.md:{line_of('| `cell`')}: tilt_base has no specs/Cell.antt",
        f"docs/internals/ARCHITECTURE.md:{line_of('| `NAME_command`')}: tilt_app has no src/NAME_command.rt",
        f"docs/internals/ARCHITECTURE.md:{line_of('| | `src/run')}: tilt_app has no src/run_command.rt",
        f"docs/internals/ARCHITECTURE.md:{line_of('| | `src/run')}: tilt_base has no specs/Cell.antt",
    ]


@pytest.mark.parametrize(
    "old, new, line, fault",
    [
        ("tilt_base: itoa\n", "tilt_base: itoa csv\n", "| `tilt_base`", "tilt_base: the last column and crates.txt differ by ['csv']"),
        ("tilt_core itoa\n", "tilt_core\n", "| `tilt_app`", "tilt_app: the last column and crates.txt differ by ['itoa']"),
        (
            "tilt_tests: tilt_app\n",
            "tilt_tests: tilt_base\n",
            "| `tilt_tests`",
            "tilt_tests: the last column and crates.txt differ by ['tilt_app', 'tilt_base']",
        ),
        ("tilt_tests: tilt_app\n", "", "| `tilt_tests`", "tilt_tests isn't in crates.txt"),
        ("tilt_base: itoa\n", "tilt_base: itoa\ntilt_new: tilt_base\n", "# The map", "tilt_new has no row in the tables of crates"),
    ],
)
def test_a_list_of_crates_that_the_map_contradicts(tree, old, new, line, fault):
    tree.replace("crates.txt", old, new)
    assert tree.faults(architecture.check_map) == [f"docs/internals/ARCHITECTURE.md:{line_of(line)}: {fault}"]


def test_a_crate_without_its_part_in_the_map(tree):
    tree.replace("docs/internals/ARCHITECTURE.md", "**tilt_core** is", "`tilt_core` is")
    place = f"docs/internals/ARCHITECTURE.md:{line_of('| `tilt_core`')}"
    assert tree.faults(architecture.check_map) == [f"{place}: tilt_core has no part that begins with its name in bold"]


@pytest.mark.parametrize(
    "edit, fault",
    [
        ("file: src/cell.rt\nold: a + 2\nnew: a\n", "2: it is in src/cell.rt 0 times, and not once"),
        ("file: src/cell.rt\nold: i64\nnew: i32\n", "2: it is in src/cell.rt 2 times, and not once"),
        ("file: src/cells.rt\nold: a\nnew: b\n", "1: there is no file of code src/cells.rt"),
        ("file: specs/Cell.antt\nold: a\nnew: b\n", "1: there is no file of code specs/Cell.antt"),
        ("old: a + 1\nnew: a\n", "1: no `file:` stands before it"),
        ("file: src/cell.rt\nnew: a\n", "2: no `old:` stands before it"),
        ("file: src/cell.rt\nold: a + 1\nnew: a + 1\n", "3: it changes nothing"),
        ("file: src/cell.rt\nold: a + 1\n", "3: a `new:` is missing"),
        ("file: src/cell.rt\n", "2: a `new:` is missing"),
        ("file: src/cell.rt\nold : a + 1\nnew: a\n", "2: no line `file:`, `old:` or `new:`"),
        # The second pair applies to what the first one made: there its text is gone, or there twice.
        ("file: src/cell.rt\nold: a + 1\nnew: a\nold: a + 1\nnew: b\n", "4: it is in src/cell.rt 0 times, and not once"),
        (
            "file: src/cell.rt\nold: a + 1\nnew: Span\nfile: src/span.rt\nold: Span\nnew: S\nold: Span\nnew: T\n",
            "7: it is in src/span.rt 0 times, and not once",
        ),
    ],
)
@pytest.mark.parametrize("folder", ["must-fail", "wrong-bodies"])
def test_an_edit_that_doesnt_apply_once(tree, folder, edit, fault):
    tree.write(f"crates/tilt_base/{folder}/bad.edit", edit)
    assert tree.faults(edits.check_edits) == [f"crates/tilt_base/{folder}/bad.edit:{fault}"]


@pytest.mark.parametrize(
    "edit", ["file: src/cell.rt\nold: a + 1\nnew:\n", "file: src/cell.rt\nold: a + 1\nnew: b + 2\nold: b + 2\nnew: a\n"]
)
def test_an_edit_that_removes_and_one_of_two_pairs(tree, edit):
    tree.write("crates/tilt_base/must-fail/other.edit", edit)
    assert tree.faults(edits.check_edits) == []


@pytest.mark.parametrize(
    "name, old, new, faults",
    [
        (
            "crates/tilt_core/proofs/Core.antt",
            "use Rattle.tilt_base.specs.Cell.{cell}\n",
            "",
            ["crates.txt:3: tilt_core is listed with tilt_base, and names nothing of it"],
        ),
        ("crates/tilt_app/src/run_command.rt", "use itoa;\n", "", ["crates.txt:4: tilt_app is listed with itoa, and names nothing of it"]),
        (
            "crates.txt",
            "tilt_core: tilt_base ",
            "tilt_core: ",
            ["crates/tilt_core/proofs/Core.antt:1: tilt_core names tilt_base, and isn't listed with it in crates.txt"],
        ),
        (
            "crates/tilt_base/src/cell.rt",
            "a + 1",
            "tilt_core::core(a)",
            ["crates/tilt_base/src/cell.rt:3: tilt_base names tilt_core, and isn't listed with it in crates.txt"],
        ),
        ("crates.txt", "tilt_tests: tilt_app\n", "", ["crates/tilt_tests:1: it isn't listed in crates.txt"]),
        ("crates.txt", "tilt_tests: tilt_app\n", "tilt_tests: tilt_app\ntilt_none:\n", ["crates.txt:6: tilt_none has no folder"]),
    ],
)
def test_a_list_of_crates_that_isnt_what_they_name(tree, name, old, new, faults):
    tree.replace(name, old, new)
    assert tree.faults(check_listed) == faults


def test_an_exception_of_the_list_is_taken_while_it_is_needed(tree):
    def check(top: str, tally: Tally) -> None:
        listed.check_listed(top, tally, unnamed={"tilt_core": {"tilt_base": "another"}})

    place = "crates.txt:3: tilt_core"
    assert tree.faults(check) == [f"{place} needs no exception for tilt_base (UNNAMED in tools/check/tree/listed.py)"]
    tree.write("crates/tilt_core/proofs/Core.antt", "")
    assert tree.faults(check) == []
    tree.replace("crates.txt", "tilt_core: tilt_base ", "tilt_core: ")
    assert tree.faults(check) == [f"{place} needs no exception for tilt_base (UNNAMED in tools/check/tree/listed.py)"]


@pytest.mark.parametrize(
    "line, good",
    [
        ("x" * 140, True),
        ("x" * 141, False),
        ("pub use a::{" + "b, " * 60 + "};", True),
        ('    b"' + "x" * 200 + '",', True),
        ('    f(b"' + "x" * 200 + '");', False),
    ],
)
def test_a_line_that_is_too_long(tree, line, good):
    tree.write("crates/tilt_base/src/span.rt", f"// A line.\n{line}\n")
    assert tree.faults(lines.check_lines) == ([] if good else ["crates/tilt_base/src/span.rt:2: more than 140 characters"])


PLAIN = """# A page

You write a query, and `tilt` prints its output. The code `tells = but for`
isn't text.

```sh
# It tells by the words what it comes to.
```

    puts what stood anew

- An item.
- The table stands for rows; put it down. It comes to an end. These are the words that we use.

| `a|b` | means |
|---|---|
| words | what is put in quotes isn't code |
"""


def faults_of_style(tree: Tree, text: str) -> list[str]:
    """What the check of a page with this text prints, if the page is in the list."""

    def check(top: str, tally: Tally) -> None:
        style.check_style(top, tally, ["docs/PAGE.md", "docs/PLAIN.md"])

    tree.write("docs/PLAIN.md", "A page.\n")
    tree.write("docs/PAGE.md", text)
    return tree.faults(check)


def test_a_page_in_plain_english(tree):
    assert faults_of_style(tree, PLAIN.replace("is put in", "is in")) == []


@pytest.mark.parametrize(
    "words, instead",
    [
        ("tells", "prints, reports, shows or means"),
        ("Told", "prints, reports, shows or means"),
        ("the words", "arguments"),
        ("same words", "arguments"),
        ("stands", "is, is in or remains"),
        ("stand in", "is, is in or remains"),
        ("is put", "writes, appends, inserts or places"),
        ("puts", "writes, appends, inserts or places"),
        ("but for", "except"),
        ("comes to", "is, gives or results in"),
        ("some 2,300", "about and the number"),
        ("for who", "if you .."),
        ("who comes", "if you .."),
        ("anew", "again"),
        ("mended", "fix"),
        ("reckon", "estimate"),
        ("see to", "check, fix or ensure"),
        ("throw away", "discard"),
        ("Besides", "also"),
        ("parted", "separated"),
        ("taken away", "deleted"),
        ("in any case", "always"),
        ("want of memory", "out of memory"),
        ("memory is wanting", "out of memory"),
    ],
)
def test_words_that_a_page_doesnt_have(tree, words, instead):
    line = f'docs/PAGE.md:3: "{words}": write {instead}'
    for text in (f"A line\nand another\nthat {words} one.", f"\n\n- It {words} one.", f"\n\n> | a | b {words} c |", f"\n\n## It {words}"):
        assert faults_of_style(tree, text + "\n") == [line]
    assert faults_of_style(tree, f"A line `that {words} one`, `and\n{words}` one.\n```text\n{words}\n```\n") == []


def test_words_on_two_lines_of_a_page(tree):
    line = 'docs/PAGE.md:2: "comes to": write is, gives or results in'
    assert faults_of_style(tree, "A list\nof them comes\nto one.\n") == [line]


@pytest.mark.parametrize(
    "text, words",
    [
        ("One " + "two " * 29 + "three.", 31),
        ("One " + "two " * 28 + "three.", 0),
        ("A first. One " + "two " * 28 + "three. Another.", 0),
        # A span of code and a link's text count; what they lead to doesn't.
        ("One " + "`two and more` " * 15 + "[two](docs/page.md) " * 15 + ".", 31),
        ("One " + "two " * 20 + "such as 1, 2 .. Nine " + "two " * 10 + ".", 36),
        ("| " + "two " * 30 + " | " + "two " * 30 + " |", 0),
        ("- " + "two " * 30 + "\n- " + "two " * 30, 0),
        ("two " * 30 + "\n\n" + "two " * 30, 0),
    ],
)
def test_a_sentence_that_is_too_long(tree, text, words):
    found = faults_of_style(tree, f"# A page\n\n{text}\n")
    assert [fault.partition(" words, ")[0] for fault in found] == ([f"docs/PAGE.md:3: a sentence of {words}"] if words else [])


def test_a_long_sentence_has_its_own_line(tree):
    text = "A first one\nof two lines. Then a\nlong " + "one " * 30 + "ends.\n"
    assert faults_of_style(tree, text) == ['docs/PAGE.md:2: a sentence of 34 words, "Then a long one one ..": split it']


def test_pages_that_arent_in_the_list_are_counted(tree):
    tally = Tally()
    tree.write("docs/internals/ARCHITECTURE.md", "It tells what stands.\n")
    tree.write("docs/GOOD.md", "A page.\n")
    tree.write("README.md", "A page.\n")
    style.check_style(str(tree.top), tally, ["README.md"])
    assert (tally.passed, tally.failed) == (1, 0)
    assert tally.left_out == ["the style of 2 pages: 2 places to change (pages without any: 1)"]
    assert tree.capsys.readouterr().out == ""


def test_a_page_of_the_list_that_is_gone(tree):
    tally = Tally()
    style.check_style(str(tree.top), tally, ["docs/NONE.md"])
    assert tally.failed == 1
    assert tree.capsys.readouterr().out == "docs/NONE.md:1: there is no such page (PAGES in tools/check/tree/style.py)\n"


MANUAL = r""".TH A 1 2026-11-30
.SH NAME
a \- one
.TP
.B stands
is a name, as
.BR tells ,
and
.IB NAME = told
.PP
.nf
It stands.
.fi
What was
told \fBputs\fR.
.RB anew puts
"""


def test_words_of_a_manual_page(tree):
    tree.write("docs/b.1", ".SH B\nA text.\n")
    tree.write("docs/a.1", MANUAL)
    assert tree.faults(texts.check_texts) == [
        'docs/a.1:15: "told": write prints, reports, shows or means',
        'docs/a.1:16: "anew": write again',
    ]


def test_a_synopsis_is_no_sentence(tree):
    tree.write("docs/b.1", ".SH B\nA text.\n")
    tree.write("docs/a.1", ".SH SYNOPSIS\n" + ".RB [ --told ]\n" * 40 + ".SH B\nIt tells.\n")
    assert tree.faults(texts.check_texts) == ['docs/a.1:43: "tells": write prints, reports, shows or means']


def test_a_long_sentence_of_a_manual_page(tree):
    tree.write("docs/b.1", ".SH B\nA text.\n")
    tree.write("docs/a.1", ".SH A\nOne.\nThen\n" + ".B one\n" * 30 + ".PP\nLast.\n")
    assert tree.faults(texts.check_texts) == ['docs/a.1:3: a sentence of 31 words, "Then CODE CODE CODE CODE ..": split it']


MODULE = '''"""It tells what stands where."""
HELP = """A text on
what stands there."""


def told(name):
    """It tells what stands where."""
    short = "it stands"
    raise Refused(f"{short}: the file {name} " "stands elsewhere, and " + "what it tells is wrong")
'''


def test_words_of_a_module(tree):
    tree.write("python/tilt_data/two.py", "two = 2\n")
    tree.write("python/tilt_data/one.py", MODULE)
    place = "python/tilt_data/one.py"
    assert tree.faults(texts.check_texts) == [
        f'{place}:3: "stands": write is, is in or remains',
        f'{place}:9: "stands": write is, is in or remains',
        f'{place}:9: "tells": write prints, reports, shows or means',
    ]


def test_lines_of_a_text_are_sentences(tree):
    one = "one " * 20
    tree.write("python/tilt_data/two.py", "two = 2\n")
    tree.write("python/tilt_data/one.py", f'HELP = """each: {one}two.\nnow: {one}two.\nLast: {"one " * 31}"""\n')
    assert [fault.partition(", ")[0] for fault in tree.faults(texts.check_texts)] == ["python/tilt_data/one.py:1: a sentence of 32 words"]


CODE_WITH_COMMENTS = """//! What comes in tells
//! all.

/// It is
/// told.
///
/// - An item stands.
// The answer was told.
pub fn told() -> u64 { 1 } // it is told
"""
PROOF_WITH_COMMENTS = """-- A list that stands
-- in one.
told : Nat
told = 1
"""


def test_words_of_comments(tree):
    tree.write("crates/tilt_one/out/lib.rt", CODE_WITH_COMMENTS)
    tree.write("crates/tilt_one/src/lib.rt", CODE_WITH_COMMENTS)
    tree.write("crates/tilt_one/src/deep/two.rt", "/// Two.\npub fn two() {}\n")
    tree.write("crates/tilt_one/proofs/One.antt", PROOF_WITH_COMMENTS)
    place = "crates/tilt_one/src/lib.rt"
    assert tree.faults(comments.check_comments) == [
        f'{place}:1: "tells": write prints, reports, shows or means',
        f'{place}:5: "told": write prints, reports, shows or means',
        f'{place}:7: "stands": write is, is in or remains',
        f'{place}:8: "told": write prints, reports, shows or means',
        'crates/tilt_one/proofs/One.antt:1: "stands": write is, is in or remains',
    ]


def test_a_long_sentence_of_comments(tree):
    many = "one " * 16
    tree.write("crates/tilt_one/src/lib.rt", f"/// Of {many}\n/// and {many}.\n/// Last.\n\n/// {many}\npub fn one() {{}}\n// {many}\n")
    tree.write("crates/tilt_one/specs/One.antt", f"-- {many}\n--\n-- {many}\n")
    assert tree.faults(comments.check_comments) == [
        'crates/tilt_one/src/lib.rt:1: a sentence of 34 words, "Of one one one one ..": split it'
    ]


CONFIGURATION = '[tool.black]\nline-length = 140\n[tool.mypy]\nstrict = true\nfiles = ["tools"]\n'


@pytest.mark.parametrize(
    "module, check, text, fault",
    [
        (
            "black",
            python_files.check_layout,
            "x = 1\ny = 'a'\n",
            "tools/two.py:1: black lays it out in another way: call `black tools/two.py`",
        ),
        ("pyflakes", python_files.check_names, "x = 1\nimport os\n", "tools/two.py:2:1: 'os' imported but unused"),
        (
            "mypy",
            python_files.check_types,
            "def two(x: int) -> str:\n    return x\n",
            "tools/two.py:2: error: Incompatible return value type",
        ),
    ],
)
def test_a_fault_of_python(tree, module, check, text, fault):
    if not has_module(module):
        pytest.skip(f"{module} is missing")
    tree.write("pyproject.toml", CONFIGURATION)
    assert tree.faults(check) == []
    tree.write("tools/two.py", text)
    tally = Tally()
    check(str(tree.top), tally)
    assert tally.failed == 1 and tree.capsys.readouterr().out.startswith(fault)


def test_a_file_of_tests_that_cant_be_read(tree):
    if not has_module("pytest"):
        pytest.skip("pytest is missing")
    tree.write("python/tests/test_one.py", "def test_one():\n    pass\n")
    assert tree.faults(python_files.check_collected) == []
    tree.write("python/tests/test_two.py", "import nothing_of_this_name\n")
    tally = Tally()
    python_files.check_collected(str(tree.top), tally)
    assert tally.failed == 1 and "nothing_of_this_name" in tree.capsys.readouterr().out


def test_scripts_without_a_suffix_are_python_by_their_first_line(tree):
    tree.write("tools/script", "#!/usr/bin/env python3\n")
    tree.write("tools/other", "#!/bin/sh\n")
    tree.write("python/build/lib/left.py", "")
    assert python_files.python_files(str(tree.top)) == ["tools/one.py", "tools/script"]


def test_crates_are_read_without_comments(tree):
    top = str(tree.top)
    assert crates.lines_of_crates(top)["tilt_core"] == "tilt_core: tilt_base thiserror"
    assert crates.libraries_of_crates(top)["tilt_app"] == ["tilt_base", "tilt_core", "itoa"]
    assert crates.crates_below(top) == {
        "tilt_base": [],
        "tilt_core": ["tilt_base"],
        "tilt_app": ["tilt_base", "tilt_core"],
        "tilt_tests": ["tilt_app"],
    }
