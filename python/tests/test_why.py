"""`tilt-data run` and `why`: the program's bytes and status, and places that never say otherwise than the program."""
from __future__ import annotations

import concurrent.futures
import os
import pathlib
import re
import subprocess
import sys

import pytest
import queries
from conftest import PYTHON, TOP, run_program
from shared.calls import read_tests
from shared.paths import CALLS
from tilt_data.clock import Clock
from tilt_data.files import Notes
from tilt_data.forms import fault_of
from tilt_data.grammar import statements_of
from tilt_data.hints import unfilled
from tilt_data.tokens import Faulty, place_of
from tilt_data.why import Refusal, clashes, placed

QUERY = "input x;\nemit x over (0, 10];\n"
ROWS = "start,end,value\n0,5,7\n6,8,9\n"


def put(**files: str) -> None:
    for name, text in files.items():
        pathlib.Path(name).write_text(text)


def put_in(folder: pathlib.Path, **files: str) -> None:
    for name, text in files.items():
        (folder / name).write_text(text)


def marked(text: str) -> tuple[str, str]:
    """The line that is told of a text, and what is marked of it."""
    fault = fault_of(text.encode())
    assert fault is not None
    return fault.line, text.encode()[fault.begin : fault.end].decode()


@pytest.mark.parametrize(
    "text, line, mark",
    [
        ("input x; emit x < 1 < 2 over (0, 5];", "24 statement 2: syntax", "<"),
        ("input x; emit x over (0, 10);", "24 statement 2: syntax", ")"),
        ("input x\nemit x over (0, 10];", "24 statement 1: syntax", "emit"),
        ("input x; emit x & 1 over (0, 10];", "20 bad byte at 16", "&"),
        ("input é; emit 1 over (0, 10];", "20 bad byte at 6", "é"),
        ("emit 9223372036854775808 over (0, 10];", "21 big number at 5", "9223372036854775808"),
        ("input x; let y = x;", "25 statement 2: place of emit", "let"),
        ("input x; let x = 1; emit x over (0, 10];", "26 statement 2: name taken", "x"),
        ("input x; emit y over (0, 10];", "27 statement 2: unknown name", "y"),
        ("input x; emit 1 when x + 1 over (0, 10];", "28 statement 2: type mismatch", "x + 1"),
        ("input x; emit (x > 1) over (0, 10];", "28 statement 2: type mismatch", "(x > 1)"),
        ("input x; emit any(x[t-3:t]) over (0, 10];", "28 statement 2: type mismatch", "x"),
        ("input x; emit sum(x[t:t-3]) over (0, 10];", "29 statement 2: bad window", "sum(x[t:t-3])"),
        ("input x; emit x over (0, 10] every 4;", "30 statement 2: bad domain", "10"),
        ("input x; emit x over (-7, -9];", "30 statement 2: bad domain", "-9"),
        ("input x; emit x[t-1000000000001] over (0, 10];", "31 too far: back 1000000000001 ahead 0", "x[t-1000000000001]"),
    ],
)
def test_what_is_marked(text, line, mark):
    assert marked(text) == (line, mark)


@pytest.mark.parametrize(
    "text, cure",
    [
        ("input x; emit 1 < x < 9 over (0, 5];", "a < x and x < b"),
        ("input x; emit x[-2] over (0, 5];", "x[t-2]"),
        ("input x; emit avg(x) over (0, 5];", "avg(x[t-10:t])"),
        ("input x; emit avg(x + 1) over (0, 5];", "by `let`"),
        ("input count; emit 1 over (0, 5];", "reserved word"),
        ("input x; emit x * 1.5 over (0, 5];", "scale values"),
        ("input x; emit X OVER (0, 5];", "small letters: over"),
        ("input temperature; emit temprature over (0, 5];", "did you mean `temperature`?"),
        ("input x; emit x every 5 over (0, 5];", "`over` comes before `every`"),
        ("# a comment\ninput x; emit x over (0, 5];", "sed"),
        ("input x; emit 1 when x = 1 over (0, 5];", "`==`"),
        ("input x; emit stddev(x[t-5:t]) over (0, 5];", "the reducers are sum"),
        ("input x; emit x[t-5s] over (0, 5];", "no units"),
    ],
)
def test_cures(text, cure):
    fault = fault_of(text.encode())
    assert fault is not None and cure in fault.cure, fault


def test_the_caret_stands_under_the_place():
    text = "input x;\r\n\temit é x over (0, 10];".encode()
    lines = list(placed("q", text, fault_of(text)).lines())
    assert lines[0].startswith("q:2:7: ") and lines[1] == "     emit é x over (0, 10];" and lines[2] == "    " + " " * 6 + "^"
    long = ("input x;" * 1 + " " * 300 + "emit y over (0, 10];").encode()
    lines = list(placed("q", long, fault_of(long)).lines())
    assert lines[1][lines[2].index("^")] == "y" and len(lines[1]) <= 124
    assert place_of(b"a\nb", 2)[0] == 2


# With the program


def explained(program: str, texts: list[bytes], folder: pathlib.Path) -> list[str]:
    """The program's line of each text; empty where it takes it."""

    def one(numbered: tuple[int, bytes]) -> str:
        number, text = numbered
        path = folder / f"{number}.tilt"
        path.write_bytes(text)
        done = subprocess.run([program, "explain", str(path)], capture_output=True, text=True)
        assert (done.returncode == 0) == (done.stderr == "")
        return done.stderr.removeprefix("tilt: ").rstrip("\n")

    with concurrent.futures.ThreadPoolExecutor(2) as pool:
        return list(pool.map(one, enumerate(texts)))


def compare(program: str, texts: list[bytes], folder: pathlib.Path) -> dict[str, int]:
    """Holds the reading here and the program's together; how often each line's number came."""
    seen: dict[str, int] = {}
    for text, line in zip(texts, explained(program, texts, folder)):
        fault = fault_of(text)
        assert (fault.line if fault else "") == line, text
        seen[line[:2]] = seen.get(line[:2], 0) + 1
    return seen


def test_texts_of_the_repository(tilt, tmp_path):
    texts = queries.of_repository()
    assert len(texts) > 100
    seen = compare(tilt, texts, tmp_path)
    assert {"", "20", "21", "22", "23", "24", "25", "26", "27", "28", "29", "30", "31"} <= set(seen)


def test_2000_random_texts(tilt, tmp_path):
    draw = queries.Draw(1)
    texts = [draw.mistaken(draw.query()) for _ in range(2000)]
    seen = compare(tilt, texts, tmp_path)
    assert {"", "20", "21", "24", "25", "26", "27", "28", "29", "30", "31"} <= set(seen), seen


def test_long_texts(tilt, tmp_path):
    texts = [
        b"let a = 1;" * 256 + b"emit 1 over (0, 1];",
        b"let a = 1;" * 257,
        b"emit 1" + b" + 1" * 125 + b" over (0, 1];",
        b"emit 1" + b" + 1" * 124 + b" over (0, 1];",
        b"emit " + b"(" * 120 + b"1" + b")" * 120 + b" over (0, 1];",
        b"emit " + b"(" * 124 + b"1" + b")" * 124 + b" over (0, 1];",
        b"emit " + b"-" * 247 + b"1 over (0, 1];",
        b"",
        b" \n",
        b";",
        b";;",
    ]
    compare(tilt, texts, tmp_path)


@pytest.mark.parametrize(
    "words",
    [
        ["q", "x=x"],
        ["q", "x=x", "--plain"],
        ["q", "x=x", "--cut", "3,7"],
        ["q"],
        [],
        ["q", "x=x", "x=x"],
        ["q", "y=x"],
        ["nowhere", "x=x"],
        ["q", "x=nowhere"],
        ["q", "x=x", "--save", "state"],
        ["wrong", "x=x"],
        ["q", "x=unsorted"],
        ["q", "x=headless"],
        ["q", "x=decimal"],
        ["--plain", "q", "x=x"],
        ["q", "x=x", "--help"],
    ],
)
def test_run_has_the_programs_bytes_and_status(tilt, tmp_path, monkeypatch, words):
    monkeypatch.chdir(tmp_path)
    put(
        q=QUERY,
        x=ROWS,
        wrong="input x; emit y over (0, 10];",
        unsorted="start,end,value\n0,5,7\n\n4,8,9\n",
        headless="0,5,7\n",
        decimal="start,end,value\n0,5,7.5\n",
    )
    plain = subprocess.run([tilt, "run", *words], capture_output=True, cwd=tmp_path)
    ours = subprocess.run(
        [sys.executable, "-m", "tilt_data", "run", *words], capture_output=True, cwd=tmp_path, env={"PYTHONPATH": str(PYTHON), "TILT": tilt}
    )
    assert (ours.returncode, ours.stdout) == (plain.returncode, plain.stdout)
    assert ours.stderr.startswith(plain.stderr)
    if words in (["q", "x=x"], ["q", "x=x", "--plain"], ["q", "x=x", "--cut", "3,7"]):
        assert ours.stderr == b""


def test_run_reads_the_descriptors_of_a_shell(tilt, tmp_path):
    put_in(tmp_path, q=QUERY, x=ROWS)
    command = f"{sys.executable} -m tilt_data run <(cat q) x=<(cat x)"
    environment = {**os.environ, "PYTHONPATH": str(PYTHON), "TILT": tilt}
    done = subprocess.run(["bash", "-c", command], capture_output=True, text=True, cwd=tmp_path, env=environment)
    assert (done.returncode, done.stdout, done.stderr) == (0, ROWS, "")


@pytest.mark.parametrize(
    "words, what",
    [
        (["wrong", "x=x"], "wrong:1:15: no statement before it declares `y`\n    input x; emit y over (0, 10];\n                  ^\n"),
        (
            ["q", "x=unsorted"],
            "unsorted:4: out of order in row 2\n    4,8,9\n    a start at the end of the row before or later was expected: sort the rows, "
            "and let none overlap; the row before is 0,5,7\n",
        ),
        (["q", "x=decimal"], "decimal:2: bad field 3 in row 1\n    0,5,7.5\n"),
        (["q", "x=headless"], "headless:1: bad header\n    0,5,7\n"),
        (["q", "y=x"], "q: the query has no input y\n"),
        (["q"], "q: the input x is bound to no file\n    add x=FILE\n"),
        (["q", "x=x", "x=x"], "q: x is bound more than once\n"),
        (["q", "x=unsortd"], "unsortd: No such file or directory\n    did you mean unsorted?\n"),
    ],
)
def test_what_run_adds(tilt, tmp_path, monkeypatch, capfd, words, what):
    from tilt_data.cli import main

    monkeypatch.chdir(tmp_path)
    put(
        q=QUERY,
        x=ROWS,
        wrong="input x; emit y over (0, 10];",
        unsorted="start,end,value\n0,5,7\n\n4,8,9\n",
        headless="0,5,7\n",
        decimal="start,end,value\n0,5,7.5\n",
    )
    assert main(["run", *words]) in (1, 3)
    first, _, rest = capfd.readouterr().err.partition("\n")
    assert first.startswith("tilt: ") and rest.startswith(what)


def test_why_of_a_query_alone(tilt, tmp_path, monkeypatch, capfd):
    from tilt_data.cli import main

    monkeypatch.chdir(tmp_path)
    put(q=QUERY, wrong="input x; emit y over (0, 10];")
    assert main(["why", "q"]) == 0
    assert capfd.readouterr().out.startswith("reach 0 0\n")
    assert main(["why", "wrong"]) == 1
    assert "wrong:1:15: " in capfd.readouterr().err


@pytest.mark.parametrize(
    "body, names",
    [
        ("let a = x < 9; emit 1 when all(a[t-5:t])", ["a"]),
        ("let a = ifnull(x < 9, false); emit 1 when all(a[t-5:t])", []),
        ("let a = ifnull(x, y) < 9; emit 1 when all(a[t-5:t])", ["a"]),
        ("let a = isnull(x) or isnull(y); emit 1 when all(a[t-5:t])", []),
        ("let a = true when x < 9; emit 1 when all(a[t-5:t]) and all(a[t-9:t])", ["a"]),
        ("let a = x < 9; let b = ifnull(a[t-1], true); emit 1 when all(b[t-5:t]) or any(a[t-5:t])", []),
        ("let n = count(x[t-5:t]); let a = n < 3; emit 1 when all(a[t-5:t])", ["a"]),
    ],
)
def test_missing_values_that_count_as_true_are_hinted_at(body, names):
    hints = list(unfilled(f"input x; input y; {body} over (0, 10];".encode()))
    assert [hint.partition("all(")[2].partition("[")[0] for hint in hints] == names


def test_why_prints_how_far_a_query_looks_in_time(tilt, tmp_path, monkeypatch, capfd):
    from tilt_data.cli import main

    monkeypatch.chdir(tmp_path)
    put(q="input x; input y; input z; emit sum(x[t-120:t+30]) + y over (0, 10];")
    assert main(["why", "q", "--tick", "30s"]) == 0
    # The window has the ticks from t - 119 to t + 30, and no other tick of y than t is read.
    assert capfd.readouterr().out.endswith("x: 3570s back, 15min ahead\ny: 0 back, 0 ahead\n")
    assert main(["why", "q", "--tick", "soon"]) == 1
    assert "'soon' is no duration" in capfd.readouterr().err


def test_series_of_other_clocks_are_told(tilt, told):
    put(q="input x; input y; emit x + y over (0, 10];", raw="time,x,y\n2026-03-01T00:00:01,1,2\n2026-03-01T00:00:03,1,2\n")
    for name, tick in (("x", "1s"), ("y", "1ms")):
        assert told("series", "raw", "--time", "time", "--value", name, "--tick", tick)[0] == 0
    status, _, err = told("run", "q", "x=x.csv", "y=y.csv")
    assert status == 0 and err == "tilt-data: note: the series x and y have other ticks or origins: write one --like the other\n"
    assert told("run", "q", "x=x.csv", "y=x.csv")[2] == ""
    assert run_program(tilt, "input x; emit x over (0, 10];", "x=x.csv") != ""


def series_of(told, name: str, *words: str) -> None:
    put(raw=f"time,{name}\n2026-03-01T00:00:01,20.5\n2026-03-01T00:00:03,3\n")
    assert told("series", "raw", "--time", "time", "--tick", "1s", *words)[0] == 0


SCALES = "tilt-data: note: the inputs have different scales (x: 10; y: 100): write one --like the other before you add or compare them\n"


def test_series_of_other_scales_are_told(tilt, told):
    put(q="input x; input y; emit x + y over (0, 10];")
    series_of(told, "x", "--scale", "10"), series_of(told, "y", "--scale", "100")
    status, _, err = told("run", "q", "x=x.csv", "y=y.csv", "--whole")
    # The query may be right, as a product is: the status stays that of the program.
    assert (status, err) == (0, SCALES)
    series_of(told, "y", "--scale", "10")
    assert told("run", "q", "x=x.csv", "y=y.csv", "--whole")[::2] == (0, "")
    put(wrong="input x; input y; emit z over (0, 10];")
    series_of(told, "y", "--scale", "100")
    status, _, err = told("run", "wrong", "x=x.csv", "y=y.csv", "--whole")
    assert status == 1 and "note" not in err


def test_series_that_differ_in_closed_are_told(tilt, told):
    put(q="input x; input y; emit x + y over (0, 10];")
    series_of(told, "x", "--scale", "10"), series_of(told, "y", "--scale", "10", "--closed", "right")
    assert told("run", "q", "x=x.csv", "y=y.csv")[::2] == (
        0,
        "tilt-data: note: the inputs differ in `closed` (x: left; y: right): write one --like the other\n",
    )


def test_helper_series_have_no_unit(tilt, told):
    put(q="input x; input each; emit avg(x[t-2:t]) over (0, 10];", other="input x; input each; emit x + each over (0, 10];")
    series_of(told, "x", "--scale", "10")
    assert told("ticks", "each", "each.csv", "--like", "x.csv", "--from", "0", "--to", "9")[0] == 0
    assert told("run", "other", "x=x.csv", "each=each.csv")[::2] == (0, "")


def test_notes_that_dont_describe_their_file_are_told(tilt, told):
    put(q="input x; emit x over (0, 10];")
    series_of(told, "x", "--scale", "10")
    pathlib.Path("x.csv").write_text("start,end,value\n")
    status, _, err = told("run", "q", "x=x.csv", "--whole")
    assert status == 0 and err.startswith("tilt-data: note: x.csv: it has 16 bytes, and its JSON file describes one of ")
    # Without its scale nobody knows what the query means in units.
    status, _, err = told("run", "q", "x=x.csv")
    assert status == 1 and err.startswith("tilt-data: x.csv: it has 16 bytes, and its JSON file describes one of ")
    # A JSON file that isn't of tilt-data says nothing of the series.
    pathlib.Path("x.json").write_text('{"name": "package"}')
    assert told("run", "q", "x=x.csv")[::2] == (0, "")


def test_what_is_compared():
    left, right = Clock(10**9, 0), Clock(10**9, 0, "right")
    known = {
        "a": Notes(left, 1),
        "b": Notes(left, 10),
        "c": Notes(right, 1),
        "d": Notes(Clock(10**6, 0), 1),
        "e": Notes(left, 7, "helper"),
    }

    def of(names: str) -> str | None:
        return clashes({name: known[name] for name in names})

    assert of("a") is of("ae") is of("") is None
    assert of("ab") == "the inputs have different scales (a: 1; b: 10): write one --like the other before you add or compare them"
    assert of("ac") == "the inputs differ in `closed` (a: left; c: right): write one --like the other"
    assert of("ad") == "the series a and d have other ticks or origins: write one --like the other"
    assert of("abcd") == "; ".join(
        [
            of("ad"),
            "the inputs differ in `closed` (a, b, d: left; c: right): write one --like the other",
            "the inputs have different scales (a, c, d: 1; b: 10): write one --like the other before you add or compare them",
        ]
    )
    assert "(a, b, c, ..: 1; e: 2)" in clashes({name: Notes(left, 2 if name == "e" else 1) for name in "abcde"})


def test_what_would_steer_a_terminal_is_escaped_where_a_mistake_is(tilt, told):
    assert list(Refusal("q", 1, 3, "\x1ba\x07b", 1, "expected").lines()) == ["q:1:3: expected", r"    \x1ba\x07b", "         ^^^^"]
    put(q="input x; emit \x1b[31mx over (0, 10];")
    status, _, err = told("why", "q")
    lines = err.splitlines()
    assert status == 1 and "\x1b" not in err and lines[2:4] == [r"    input x; emit \x1b[31mx over (0, 10];", "                  ^^^^"]
    pathlib.Path("x\x1b").write_text("start,end,value\n0,5,\x1b[31m\n")
    put(q=QUERY)
    err = told("run", "q", "x=x\x1b")[2]
    assert "\x1b" not in err.partition("\n")[2] and err.splitlines()[1:3] == [r"x\x1b:2: bad field 3 in row 1", r"    0,5,\x1b[31m"]


def causes() -> list[tuple[str, list[str], list[str]]]:
    """The table of the causes of line 24 in docs/ERRORS.md: each cause, what is wrong and what is right."""
    lines = (TOP / "docs" / "ERRORS.md").read_text().splitlines()
    begin = lines.index("| cause | wrong | right |") + 2
    rows = []
    for line in lines[begin : lines.index("", begin)]:
        cause, wrong, right = (cell.strip() for cell in line.strip("|").split("|"))
        rows.append((cause, re.findall(r"`([^`]+)`", wrong), re.findall(r"`([^`]+)`", right)))
    return rows


def whole(part: str) -> bytes:
    """A query around a part of one: a statement, a span and a grid, or an expression."""
    before = "" if part.startswith("input") else "input x; input y; input a; input b; input s; let c = x > 0; "
    if part.startswith(("over", "every")):
        return (before + f"emit x {part if part.startswith('over') else 'over (0, 10] ' + part};").encode()
    if not part.endswith(";"):
        return (before + f"let z = {part}; emit x over (0, 5];").encode()
    before = before.replace("input s; ", "") if part.startswith("let s") else before
    return (before + part + ("" if "emit" in part else "emit 1 over (0, 5];")).encode()


def test_the_causes_of_line_24_in_the_page():
    rows = causes()
    assert len(rows) > 15
    for cause, wrong, right in rows:
        for part in wrong:
            assert re.fullmatch(r"24 statement \d: syntax", fault_of(whole(part)).line), (cause, part)
        for part in right:
            statements_of(whole(part))


# Without the program: what the repository's own tests and pages say of texts


FAULTS = {
    "NameTaken": "26 statement {}: name taken",
    "UnknownName": "27 statement {}: unknown name",
    "TypeMismatch": "28 statement {}: type mismatch",
    "BadWindow": "29 statement {}: bad window",
    "BadDomain": "30 statement {}: bad domain",
}


def literal(text: str) -> bytes:
    """What a string of Rust without raw parts means."""
    text = re.sub(r"\\\n\s*", "", text)
    return re.sub(rb"\\(x..|.)", lambda found: ESCAPES.get(found[1]) or bytes.fromhex(found[1][1:].decode()), text.encode())


ESCAPES = {b"n": b"\n", b"t": b"\t", b"r": b"\r", b"\\": b"\\", b'"': b'"', b"0": b"\0"}
QUOTED = r'"((?:[^"\\]|\\.|\\\n)*)"'


def of_tests() -> list[tuple[bytes, str]]:
    """Each text of the tests in crates/ and in the tables of calls, with the line of its refusal; empty where it is taken."""
    found = []
    for call in [call for test in read_tests(os.path.join(CALLS, "refusals.toml")) for call in test.calls]:
        line = call["err"].removeprefix("tilt: ").removesuffix("\n")
        if re.match(r"2\d|3[01]", line):
            found.append((call["files"]["q"].encode(), line))
    checking = (TOP / "crates/tilt_tests_language/src/checking.rt").read_text()
    cores, faults = checking.split("const FAULTS", 1)
    found += [(literal(text), "") for text, _ in re.findall(rf"\(\s*{QUOTED},\s*{QUOTED},\s*\)", cores.split("const CORES", 1)[1])]
    for text, kind, number in re.findall(rf'\(\s*{QUOTED},\s*"(\w+) {{ statement: (\d+) }}",?\s*\)', faults):
        found.append((literal(text), FAULTS[kind].format(number)))
    return found


def of_pages() -> list[tuple[bytes, str]]:
    """Each query that a page writes and runs, with the line of its refusal; empty where there is none."""
    found = []
    for page in [*TOP.glob("docs/*.md"), TOP / "README.md"]:
        for text, below in re.findall(
            r"^\$ echo '([^']*)' > q; tilt (?:run|explain|compile|pipe) q[^\n|]*\n(tilt: [^\n]*)?", page.read_text(), re.M
        ):
            line = below.removeprefix("tilt: ")
            found.append((text.encode() + b"\n", line if re.match(r"2\d|3[01]", line) else ""))
    return found


def test_texts_of_the_tests_and_pages():
    tests, pages = of_tests(), of_pages()
    assert len(tests) > 60 and len(pages) > 60
    assert {line[:2] for _, line in tests} == {"", "20", "21", "22", "23", "24", "25", "26", "27", "28", "29", "30", "31"}
    for text, line in tests + pages:
        fault = fault_of(text)
        assert (fault.line if fault else "") == line, text


def tree(node) -> str:
    """A tree as the tests of the language write it."""
    if node.form in ("number", "truth"):
        return node.token.text
    if node.form == "reading":
        return node.name.text + (f"@{node.low}" if node.low else "")
    if node.form == "window":
        return f"({node.token.text.capitalize()} {node.name.text} {node.low} {node.high})"
    words = {
        "==": "Eq",
        "!=": "Ne",
        "<": "Lt",
        "<=": "Le",
        ">": "Gt",
        ">=": "Ge",
        "+": "Add",
        "-": "Sub",
        "*": "Mul",
        "/": "Div",
        "%": "Rem",
        "isnull": "IsNull",
        "ifnull": "IfNull",
    }
    return f"({words.get(node.form, node.form.capitalize())} {' '.join(map(tree, node.parts))})"


def test_expressions_of_the_tests():
    parsing = (TOP / "crates/tilt_tests_language/src/parsing.rt").read_text()
    table = parsing.split("const EXPRESSIONS", 1)[1].split("\n];", 1)[0]
    pairs = re.findall(rf"\(\s*{QUOTED},\s*{QUOTED},?\s*\)", table)
    assert len(pairs) > 50
    for text, wanted in pairs:
        try:
            got = tree(statements_of(b"emit " + literal(text) + b" over (0, 5];")[0].body)
        except Faulty:
            got = ""
        assert got == literal(wanted).decode(), text
