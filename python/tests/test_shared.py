"""What the scripts of tools/ share (tools/shared)."""
from __future__ import annotations

import concurrent.futures

import pytest
from shared import series, tables
from shared.tally import Tally


def test_a_tally_prints_what_failed_and_ends_with_its_status(capsys):
    tally = Tally()
    tally.note("one")
    tally.expect(True, "never printed")
    assert tally.end() == 0 and capsys.readouterr().out == "2 passed, 0 failed\n"
    tally.note("two", ["this", "that"])
    tally.expect(False, "three")
    tally.left_out.append("four")
    tally.add(10, 1)
    assert tally.end() == 1
    assert capsys.readouterr().out == "two: this; that\nthree\nleft out: four\n12 passed, 3 failed\n"


def test_a_tally_counts_from_many_threads():
    tally = Tally()
    with concurrent.futures.ThreadPoolExecutor(8) as pool:
        list(pool.map(lambda at: tally.note(str(at)), range(2000)))
    assert (tally.passed, tally.failed) == (2000, 0)


def test_a_table_is_put_between_its_marks_alone(tmp_path):
    page = tmp_path / "page.md"
    page.write_text("before\n<!-- one -->\nold\n<!-- end of one -->\nbetween\n<!-- two -->\nkept\n<!-- end of two -->\nafter\n")
    tables.write_table(str(page), "one", tables.markdown(["a", "b"], [["1", "2"], ["3", ""]]))
    table = "| a | b |\n| --- | --- |\n| 1 | 2 |\n| 3 |  |\n"
    rest = "between\n<!-- two -->\nkept\n<!-- end of two -->\nafter\n"
    assert page.read_text() == f"before\n<!-- one -->\n{table}<!-- end of one -->\n{rest}"


def test_a_page_without_the_marks_is_left_as_it_is(tmp_path):
    page = tmp_path / "page.md"
    page.write_text("<!-- one -->\n")
    for name in ("one", "two"):
        with pytest.raises((ValueError, IndexError)):
            tables.write_table(str(page), name, "x\n")
    assert page.read_text() == "<!-- one -->\n"


def test_a_row_without_a_value_has_an_empty_field(tmp_path):
    series.put_rows(str(tmp_path / "x"), [(0, 5, 7), (5, 6, None), (6, 8, -1)])
    assert (tmp_path / "x").read_text() == "start,end,value\n0,5,7\n5,6,\n6,8,-1\n"
