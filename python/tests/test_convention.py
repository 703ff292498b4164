"""What readings mean: one convention for the commands and for Python."""
from __future__ import annotations

import argparse
import dataclasses
import pathlib

import pytest
import tilt_data
from tilt_data.cli import parser_of
from tilt_data.clock import Clock
from tilt_data.convention import Convention, Options, TextConvention
from tilt_data.convert import Rule
from tilt_data.errors import Refused
from tilt_data.files import Notes
from tilt_data.frames import ARGUMENTS, Inputs, RunOptions


def test_the_typed_options_are_the_fields_of_a_convention():
    fields = [field.name for field in dataclasses.fields(Convention)]
    assert list(Options.__annotations__) == fields
    assert set(RunOptions.__annotations__) == {*fields, *ARGUMENTS}
    assert all(Options.__annotations__[field.name].__forward_arg__ == field.type for field in dataclasses.fields(Convention))


def test_the_package_has_its_types_and_its_version():
    assert pathlib.Path(tilt_data.__file__).with_name("py.typed").exists() and tilt_data.__version__


OPTIONS = [
    [],
    ["--tick", "60s", "--origin", "2026-03-01", "--zone", "Europe/Zurich", "--unit", "s"],
    ["--scale", "10", "--scale", "x=100", "--max-age", "60s", "--max-age", "x=5min", "--until", "2026-03-02", "--hold", "next"],
    ["--event", "--closed", "right", "--ties", "last", "--null", "NA,-1", "--null", "-", "--skip-empty", "--scale", "y=7"],
    ["--like", "like.csv", "--tick", "1s"],
]


def convention_of(*words: str, lasting: bool = False) -> TextConvention:
    parser = argparse.ArgumentParser()
    TextConvention.add_to(parser, lasting)
    return TextConvention.of(parser.parse_args(words))


@pytest.fixture(autouse=True)
def like(tmp_path: pathlib.Path, monkeypatch: pytest.MonkeyPatch) -> None:
    monkeypatch.chdir(tmp_path)
    pathlib.Path("like.json").write_text(Notes(Clock(10**9, 3600 * 10**9, "right"), 1000).text())


@pytest.mark.parametrize("words", OPTIONS)
def test_all_commands_read_the_same_convention(words):
    series = TextConvention.of(parser_of().parse_args(["series", "file", *words]))
    assert series == convention_of(*words)
    # A query that goes on takes neither a zone nor an end of its readings.
    shared = words if not {"--zone", "--until"} & set(words) else ["--tick", "60s", "--scale", "10", "--max-age", "5min"]
    follow = TextConvention.of(parser_of().parse_args(["follow", "query", "--state", "s", *shared]))
    assert follow == convention_of(*shared)


def test_what_a_convention_of_texts_gives_to_each_input():
    convention = convention_of("--tick", "1s", "--scale", "10", "--scale", "x=auto", "--max-age", "x=5s", "--null", "NA", "--ties", "last")
    clock = Clock(10**9, 0)
    assert (convention.rule("x", clock), convention.rule("y", clock)) == (Rule(True, 5, "last"), Rule(True, None, "last"))
    assert (convention.scale_of("x"), convention.scale_of("y"), convention_of("--like", "like.csv").scale_of("x")) == (None, 10, 1000)
    assert [convention.is_missing(text) for text in ("", " ", "NA", "na", "0")] == [True, True, True, False, False]
    with pytest.raises(Refused, match="^--max-age 1500ms is no whole number of ticks of 1s$"):
        convention_of("--max-age", "1500ms").rule("x", clock)
    for option in (["--scale", "z=10"], ["--max-age", "z=5s"]):
        with pytest.raises(Refused, match=f"^{option[0]} z=..: no series has this name; there are: x, y$"):
            convention_of(*option).check_names(["x", "y"], "series")


def test_what_a_convention_of_python_gives_to_each_input():
    pandas = pytest.importorskip("pandas")
    times = pandas.to_datetime(["1970-01-01 00:00:01", "1970-01-01 00:00:03", "1970-01-01 00:00:09"])
    named = {"a": pandas.Series([1.5, None, 2.5], times), "b": pandas.Series([0.25, None, 0.5], times)}
    own = {"scale": {"a": 10, "b": 100}, "skip_empty": {"a": True}, "event": {"b": True}}
    rows = Inputs.of(["a", "b"], named, Convention(max_age={"a": "7s"}, **own)).rows()
    found = {name: b"".join(part.text() for part in parts).decode() for name, parts in rows}
    assert found == {"a": "1,8,15\n9,16,25\n", "b": "1,2,25\n3,4,\n9,10,50\n"}
    for option in ("scale", "skip_empty"):
        with pytest.raises(Refused, match=rf"^{option}\['c'\]: no input has this name; there are: a, b$"):
            Inputs.of(["a", "b"], named, Convention(**{option: {"c": 1 if option == "scale" else True}}))
    for options in ({"scale": {"a": 0}}, {"scale": {"a": "2"}}, {"skip_empty": {"a": 1}}, {"scale": None}):
        with pytest.raises(Refused, match=f"^{next(iter(options))}="):
            Convention(**options)
