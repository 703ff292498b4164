"""The checks of tools/: what they install, when a missing package is a failure, and which calls of the pages are worked out again."""
from __future__ import annotations

import dataclasses
import os
import pathlib
import sys

import pytest
from conftest import TOP
from shared.tally import Tally

from check import data, examples, worked_feeds
from check.faults import run as faults
from check.feeds import InputFeed, line_text
from check.live import BadLine
from check.readings import Form, Readings


@pytest.fixture
def apt(tmp_path: pathlib.Path, monkeypatch: pytest.MonkeyPatch) -> pathlib.Path:
    """A folder that is the whole path, with an apt-get that only notes how it is called."""
    script = tmp_path / "apt-get"
    script.write_text(f'#!/bin/sh\necho "$DEBIAN_FRONTEND: $*" >> "{tmp_path}/calls"\n')
    script.chmod(0o755)
    monkeypatch.setenv("PATH", str(tmp_path))
    monkeypatch.setattr(os, "geteuid", lambda: 0)
    return tmp_path


def test_lists_are_brought_before_packages(apt):
    faults.install(["strace", "gcc"])
    told = "noninteractive: update\nnoninteractive: install -y --no-install-recommends strace gcc\n"
    assert (apt / "calls").read_text() == told
    data.install(["m4"])
    assert (apt / "calls").read_text().splitlines()[2:] == [
        "noninteractive: update",
        "noninteractive: install -y --no-install-recommends m4",
    ]


def test_who_may_not_install_doesnt_try(apt, monkeypatch):
    monkeypatch.setattr(os, "geteuid", lambda: 1000)
    faults.install(["strace"])
    assert not (apt / "calls").exists()


def test_what_the_faults_need(apt):
    assert faults.missing() == ["strace", "gcc", "libc6-dev"]
    os.symlink("/bin/true", apt / "strace")
    # A compiler without the headers of the system.
    (apt / "cc").write_text("#!/bin/sh\nexit 1\n")
    (apt / "cc").chmod(0o755)
    assert faults.missing() == ["gcc", "libc6-dev"]
    (apt / "cc").write_text("#!/bin/sh\nexit 0\n")
    assert faults.missing() == []


@pytest.mark.parametrize("user, apt_there, failures", [(0, True, 1), (0, False, 0), (1000, True, 0)])
def test_cases_that_could_have_been_run_are_a_failure(apt, monkeypatch, capsys, user, apt_there, failures):
    monkeypatch.setattr(os, "geteuid", lambda: user)
    if not apt_there:
        os.unlink(apt / "apt-get")
    tally = faults.FaultTally()
    faults.note_missing(tally)
    assert (tally.passed, tally.failed) == (0, failures)
    assert ("strace, gcc, libc6-dev" in capsys.readouterr().out) == bool(failures)


@pytest.mark.parametrize("user, status", [(0, 1), (1000, 0)])
def test_tests_that_could_have_been_run_are_a_failure(apt, monkeypatch, capsys, user, status):
    # No call of this test builds the program or runs the tests.
    monkeypatch.setattr(data, "build_program", lambda command="tilt": None)
    monkeypatch.setattr(data, "BUILT", "/bin/true")
    monkeypatch.setattr(data, "is_there", lambda package: package == "m4")
    monkeypatch.setattr(os, "geteuid", lambda: user)
    assert data.main([]) == status
    out = capsys.readouterr().out
    assert out.endswith(f"0 passed, {status} failed\n") and "tests; not installed: python3-pytest" in out


REPORT = """<testsuites><testsuite>
<testcase classname="a" name="good"/>
<testcase classname="a" name="bad"><failure message="no"/></testcase>
<testcase classname="a" name="lacking"><skipped message="m4 is missing"/></testcase>
<testcase classname="a" name="unmarked"><skipped message="the program isn't built"/></testcase>
</testsuite></testsuites>"""


@pytest.mark.parametrize("which, failed", [("without-program", 2), ("with-program", 1), (None, 1)])
def test_a_test_that_needs_the_program_without_the_mark_fails(tmp_path, capsys, which, failed):
    (tmp_path / "report.xml").write_text(REPORT)
    tally = Tally()
    data.note_tests(str(tmp_path / "report.xml"), 1, which, tally)
    assert (tally.passed, tally.failed, len(tally.left_out)) == (1, failed, 3 - failed)
    assert ("a.unmarked: the program isn't built, and this test hasn't the mark `program`" in capsys.readouterr().out) == (failed == 2)


def test_a_report_that_is_missing_and_a_status_without_a_fault_are_failures(tmp_path):
    tally = Tally()
    data.note_tests(str(tmp_path / "none.xml"), 0, None, tally)
    (tmp_path / "report.xml").write_text("<testsuite><testcase classname='a' name='b'/></testsuite>")
    data.note_tests(str(tmp_path / "report.xml"), 3, None, tally)
    assert (tally.passed, tally.failed) == (1, 2)


ECHO = "echo 'input x; emit x | y && z > 3 over (0, 10];' > q; "


@pytest.mark.parametrize(
    "command, calls",
    [
        ("tilt run q x=x.csv", [(["run", "q", "x=x.csv"], None, None)]),
        ("tilt flow p x=x.csv --plain", [(["flow", "p", "x=x.csv", "--plain"], None, None)]),
        (ECHO + "tilt run q x=x.csv", [(["run", "q", "x=x.csv"], None, None)]),
        ("m4 q.m4 > q && tilt run q", [(["run", "q"], None, None)]),
        (ECHO + "tilt run q x=x.csv | head -n 5", [(["run", "q", "x=x.csv"], None, 5)]),
        ("tilt run q x=x.csv > out", [(["run", "q", "x=x.csv"], "out", None)]),
        ("tilt run q x=x.csv > out; tilt flow p x=x.csv | cmp - out", [(["run", "q", "x=x.csv"], "out", None)]),
        ("tilt run q x=x.csv > a; tilt run q x=y.csv", [(["run", "q", "x=x.csv"], "a", None), (["run", "q", "x=y.csv"], None, None)]),
        # What the line prints isn't the output of the call alone, or the words aren't those of the call.
        ("cat q; tilt run q x=x.csv", []),
        ("tilt run q x=x.csv; cat q", []),
        ("tilt run q x=x.csv | wc -l", []),
        ("tilt run q x=x.csv 2>&1", []),
        ("for n in 1 2; do tilt run q x=x.csv; done", []),
        ("tilt run q x=$FILE", []),
        ("tilt explain q", []),
        ("tilt-data run q x=x.csv", []),
    ],
)
def test_which_calls_of_a_line_are_worked_out_again(command, calls):
    assert [(call.words, call.file, call.most) for call in examples.calls_of(command)] == calls


def page_of(folder: pathlib.Path, output: str) -> str:
    """A page with one line, whose output is made by a file in place of the program."""
    (folder / "page.md").write_text(f"```console\n$ {ECHO.replace('x | y && z > 3', 'x')}tilt run q x=x.csv\n{output}```\n")
    (folder / "tilt").write_text(f"#!/bin/sh\nprintf '{output}'\n")
    (folder / "tilt").chmod(0o755)
    (folder / "x.csv").write_text("start,end,value\n0,5,7\n")
    return "page.md"


@pytest.mark.parametrize("row, failed", [("0,5,7", 0), ("0,5,8", 1)])
def test_a_page_that_has_what_the_program_prints_is_held_to_its_meaning(tmp_path, monkeypatch, capsys, row, failed):
    page = page_of(tmp_path, f"start,end,value\n{row}\n")
    monkeypatch.setattr(examples, "TOP", str(tmp_path))
    monkeypatch.setattr(examples, "BUILT", str(tmp_path / "tilt"))
    monkeypatch.setattr(
        examples, "lay_out", lambda folder, lines: (pathlib.Path(folder) / "x.csv").write_bytes((tmp_path / "x.csv").read_bytes())
    )
    tally = examples.PageTally()
    examples.check_page(tally, page)
    assert (tally.passed, tally.failed, tally.evaluated, tally.others) == (2 - failed, failed, 1, 0)
    assert ("by tools/check/evaluate.py" in capsys.readouterr().out) == bool(failed)


NOT_RUN = "a command that isn't run: "


@pytest.mark.parametrize(
    ("page", "found"),
    [
        ("Run:\n\n    tilt run q x=x.csv\n", [(3, NOT_RUN + "tilt run q x=x.csv")]),
        ("Run:\n\n    TILT=/bin/tilt tilt-data follow q\n", [(3, NOT_RUN + "TILT=/bin/tilt tilt-data follow q")]),
        ("Run:\n\n        ./make data\n", [(3, NOT_RUN + "./make data")]),
        ("```text\nfirst\n$ tilt\n```\n", [(3, NOT_RUN + "$ tilt")]),
        ("```rust\n/usr/bin/tilt\n```\n", [(2, NOT_RUN + "/usr/bin/tilt")]),
        ("Run this:\n\n```sh\npip install .\n```\n", [(3, "the line before this block doesn't say `not run by the tests`")]),
        ("Not run by the tests.\n\nNow:\n\n```sh\nls\n```\n", [(5, "the line before this block doesn't say `not run by the tests`")]),
        ("```\nx\n```\n", [(1, "the fence isn't `console`, `file NAME` or one of sh, python, sql, ini, text, rust")]),
        ("```bash\nx\n```\n", [(1, "the fence isn't `console`, `file NAME` or one of sh, python, sql, ini, text, rust")]),
        ("Not run by the tests:\n\n```sh\npip install .\n```\n", []),
        ("It is `s.sh`:\n\n```file s.sh\ntilt run q\n```\n\n```console\n$ sh s.sh\n    tilt run\n```\n", []),
        ("A listing:\n\n    tilt 1\n    input x\n    tilt checkpoint 2\n    cut 5\n    from NAME ;\n", []),
        ("Call `tilt run`; for a query:\n  tilt run\n", []),
    ],
)
def test_a_page_shows_no_command_that_is_neither_run_nor_marked(page, found):
    assert list(examples.hidden_commands(page.split("\n"))) == found


def test_a_page_that_isnt_there_is_no_check(monkeypatch, capsys):
    monkeypatch.setattr(sys, "argv", ["examples", str(TOP / "docs" / "NONE.md")])
    assert examples.main() == 2
    assert capsys.readouterr().err == "examples: no such page: docs/NONE.md\n"


def test_orders_keep_the_order_of_each_input():
    assert list(worked_feeds.all_orders([2, 1])) == [[0, 0, 1], [0, 1, 0], [1, 0, 0]]
    assert len(worked_feeds.some_orders([4, 4], 10)) == 70
    few = worked_feeds.some_orders([5, 4], 10)
    assert len(few) == 10 and all(sorted(order) == [0] * 5 + [1] * 4 for order in few)
    assert worked_feeds.some_orders([9, 0], 10) == [[0] * 9]


def test_rows_as_values_that_the_next_line_ends():
    lines = worked_feeds.lines_by_values("x", [(0, 2, 5), (2, 3, 5), (4, 6, None), (6, 7, 1)])
    assert [line_text(line) for line in lines] == ["x,0,,5", "x,2,,5", "x,3,,", "x,4,6,", "x,6,,1", "x,7,,"]


def test_what_is_expected_of_worked_feeds():
    worked = worked_feeds.Worked("input x; emit x over (0, 4];", {"x": [(0, 2, 5), (3, 4, 6)]}, "start,end,value\n0,2,5\n3,4,6\n", None)
    (case,) = worked_feeds.cases_of(worked, False, 10)
    assert case.wanted == [["0,2,5"], ["2,3,", "3,4,6"], []]
    assert worked_feeds.text_of(case.wanted) == worked.out
    # Rows from the cut on don't come.
    (case,) = worked_feeds.cases_of(worked_feeds.Worked(worked.text, worked.rows, worked.out, 3), False, 10)
    assert [line_text(line) for line in case.lines] == ["x,0,2,5", "x,,3,"]


def test_worked_feeds_find_a_program_that_prints_nothing(tmp_path, capsys):
    program = tmp_path / "silent"
    program.write_text("#!/bin/sh\nwhile read -r line; do echo .; done\n")
    program.chmod(0o755)
    worked = worked_feeds.Worked("input x; emit x over (0, 4];", {"x": [(0, 2, 5)]}, "start,end,value\n0,2,5\n", None)
    tally = Tally()
    worked_feeds.check_worked(worked, False, str(program), 10, tally)
    assert tally.failed == 3
    assert "expected: ['0,2,5']\ncame: []" in capsys.readouterr().out
    worked_feeds.check_worked(dataclasses.replace(worked, out="start,end,value\n0,1,5\n"), False, str(program), 10, tally)
    assert tally.failed == 7


@pytest.mark.parametrize(
    "options, known",
    [
        ({"ties": "first"}, InputFeed([(1, 3, 5), (3, 9, 6)], None, 10)),
        ({"ties": "last"}, InputFeed([(1, 3, 5)], (3, 7), 9)),
        ({"ties": "spread"}, InputFeed([(1, 3, 5), (3, 4, 6), (4, 9, 7)], None, 10)),
        ({"ties": "first", "event": True}, InputFeed([(1, 2, 5), (3, 4, 6)], None, 10)),
        ({"ties": "last", "max_age": 2}, InputFeed([(1, 3, 5), (3, 5, 7)], None, 9)),
        ({"ties": "first", "closed": "right"}, InputFeed([(0, 3, 5), (3, 8, 6)], None, 9)),
        ({"ties": "first", "skip_empty": True}, InputFeed([(1, 3, 5)], (3, 6), 4)),
    ],
)
def test_rows_of_readings(options, known):
    readings = Readings(Form(time="t", unit="s", **options), ["x"])
    for line in (b"t,x", b"1,5", b"3.5,6", b"3.9,7", b"9,"):
        readings.take(line)
    assert readings.feed().inputs == {"x": known}


def test_a_bad_reading_changes_nothing():
    readings = Readings(Form(time="t", name="n", value="v", unit="s", scales={"x": 10}), ["x", "y"])
    with pytest.raises(BadLine, match="91 line {}: no column of names"):
        readings.take(b"t,x,y")
    for line in (b"v,t,n", b'"0.5",1,x', b",4,", b",3,"):
        readings.take(line)
    feed = readings.feed()
    assert feed.inputs == {"x": InputFeed([], (1, 5), 4), "y": InputFeed([], None, 4)}
    for line, report in {
        b"1,3.9,x": "102 line {}: late reading of input 1",
        b"0.25,5,x": "98 line {}: bad value of input 1: digits would be lost",
        b"1,5,": "97 line {}: no name",
        b"1,5,y,": "94 line {}: not 3 fields",
        b"1,x,y": "95 line {}: bad time: not a number",
    }.items():
        with pytest.raises(BadLine) as bad:
            readings.take(line)
        assert str(bad.value) == report and readings.feed() == feed
