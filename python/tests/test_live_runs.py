"""`Query.live`: pushes, moments that are passed, and states that another run goes on from, beside one run over all."""
from __future__ import annotations

import json
import random
from typing import Any

import pytest

pandas = pytest.importorskip("pandas")

from tilt_data import Query, Refused, run

QUERIES = [
    "input x; input y; emit x over (0, 140];",
    "input x; input y; emit ifnull(x, 0) + ifnull(y, 0) over (0, 140];",
    "input x; input y; emit sum(x[t-7:t]) over (0, 140] every 7;",
    "input x; input y; emit count(x[t-3:t+4]) when ifnull(y > 0, true) over (0, 140];",
    "input x; input y; let m = avg(y[t-9:t]); emit x - m over (10, 130];",
]
START = pandas.Timestamp("2026-03-01")
COMMON: dict[str, Any] = {"origin": "2026-03-01", "scale": 1}


@pytest.fixture(autouse=True)
def the_programs(tilt, live, monkeypatch):
    monkeypatch.setenv("TILT", tilt)
    monkeypatch.setenv("TILT_LIVE", live)


def seconds(*pairs: tuple[float, float | None]):
    """A Series of readings at seconds of the day."""
    return pandas.Series([value for _, value in pairs], START + pandas.to_timedelta([at for at, _ in pairs], unit="s"), dtype=float)


def random_readings(draws: random.Random, values: list[int | None]) -> Any:
    times = sorted(draws.choices(range(240), k=draws.randrange(60)))
    return seconds(*((time / 2, draws.choice(values)) for time in times))


def random_options(draws: random.Random) -> dict[str, Any]:
    options: dict[str, Any] = {**COMMON, "ties": draws.choice(["last", "first", "spread"]), "closed": draws.choice(["left", "right"])}
    options |= {"event": {"x": draws.random() < 0.3, "y": draws.random() < 0.3}, "skip_empty": draws.random() < 0.5}
    options |= {"max_age": {"x": "5s"}} if draws.random() < 0.5 and not options["event"]["x"] else {}
    return options


def rows(parts: list[Any]) -> list[tuple[Any, float]]:
    return [(interval, value) for part in parts for interval, value in zip(part.index, part["value"])]


def since(one: Any, begin: Any, end: Any = None) -> Any:
    return one[(one.index >= begin) & ((one.index < end) if end is not None else True)]


def pushed(draws: random.Random, query: Query, inputs: dict[str, Any], last: Any, options: dict[str, Any]) -> list[Any]:
    """What a run prints to which readings are pushed as they come; some moments are passed, and some pushes go to another run."""
    parts, before, live = [], START, query.live(**options)
    for share in sorted(draws.random() for _ in range(draws.randrange(9))):
        at = START + share * (last - START)
        parts.append(live.push(**{name: since(one, before, at) for name, one in inputs.items()}))
        before = at
        if draws.random() < 0.5:
            parts.append(live.advance(at))
        if draws.random() < 0.3:
            with live:
                live = query.live(**options, state=live.state())
    with live:
        parts.append(live.push(**{name: since(one, before) for name, one in inputs.items()}))
        parts.append(live.end())
    return parts


def merged(found: list[tuple[Any, float]]) -> list[list[Any]]:
    """Rows with equal neighbours as one."""
    joined: list[list[Any]] = []
    for interval, value in found:
        if joined and joined[-1][1:] == [interval.left, value]:
            joined[-1][1] = interval.right
        else:
            joined.append([interval.left, interval.right, value])
    return joined


@pytest.mark.parametrize("has_missing", [False, True])
@pytest.mark.parametrize("seed", range(20))
def test_parts_are_together_what_one_run_prints(seed, has_missing):
    draws = random.Random(seed)
    query, options = Query(draws.choice(QUERIES)), random_options(draws)
    inputs = {name: random_readings(draws, [1, 2, 3, 50, *([None] if has_missing else [])]) for name in ("x", "y")}
    last = max((one.index[-1] for one in inputs.values() if len(one)), default=START)
    last += pandas.Timedelta(5, "s")
    options["until"] = str(last)
    parts, whole = pushed(draws, query, inputs, last, options), run(query, inputs=inputs, over="query", **options)
    # A missing value that is passed is a gap, whose edges don't part equal rows.
    seen = merged if has_missing else list
    assert seen(rows(parts)) == seen(rows([whole]))


def test_what_holds_goes_on_up_to_a_moment_that_is_passed():
    query = Query("input x; input y; emit x + y over (0, 100];")
    with query.live(**COMMON, max_age={"y": "30s"}) as live:
        assert rows([live.push(x=seconds((0, 1), (10, 2)), y=seconds((0, 5)))]) == []
        # The sum is known up to the moment, but not yet how long it holds.
        assert live.advance(START + pandas.Timedelta(5, "s")).empty
        assert [value for _, value in rows([live.advance("2026-03-01 00:00:20")])] == [6]
        last = live.advance("2026-03-01T01:00:45+01:00")
        assert [(str(at.left)[17:19], str(at.right)[17:19], value) for at, value in rows([last])] == [("10", "30", 7)]
        # A moment before that changes nothing, and neither does an end.
        assert live.advance("2026-03-01").empty and live.end().empty


def test_a_reading_before_a_moment_that_is_passed_is_rejected_and_takes_nothing():
    with Query("input x; emit x over (0, 100];").live(**COMMON, event=True) as live:
        live.push(seconds((3, 1)))
        assert live.advance("2026-03-01 00:00:10")["value"].tolist() == [1]
        with pytest.raises(Refused, match="^the input x: the reading at 2026-03-01T00:00:09.5.*Z comes before the moment that `advance`"):
            live.push(seconds((9.5, 2)))
        assert live.push(seconds((10, 3), (11, 4)))["value"].tolist() == [3] and live.end()["value"].tolist() == [4]


def test_a_state_goes_on_with_the_query_and_the_options_that_it_was_made_with():
    text = "input x; emit sum(x[t-60:t]) over (0, 180] every 60;"
    minutes = pandas.Series([1, 2, 3], pandas.date_range("2026-03-01 01:00", periods=3, freq="1min", tz="Europe/Zurich"))
    with Query(text).live(**COMMON) as live:
        parts = [live.push(minutes[:2])]
        state = live.state()
        # It is a copy: what comes later isn't in it.
        live.push(minutes[2:])
    with Query(text).live(**COMMON, state=state) as live:
        parts += [live.push(minutes[2:]), live.end()]
    assert rows(parts) == rows([run(text, minutes, over="query", **COMMON)]) and len(parts[1])
    for options, what in (
        ({"scale": 10}, "of other options"),
        ({"max_age": "1min"}, "of other options"),
        ({"tick": "1min"}, "of other options"),
    ):
        with pytest.raises(Refused, match=what):
            Query(text).live(**{**COMMON, **options}, state=state)
    with pytest.raises(Refused, match="of another query"):
        Query(text.replace("sum", "max")).live(**COMMON, state=state)
    for wrong in (b"", b"{}", b"[1]", state.replace(b"tilt-data live", b"tilt-data dead")):
        with pytest.raises(Refused, match="^state=: what `state` of a live run returned was expected$"):
            Query(text).live(**COMMON, state=wrong)


def test_a_state_has_what_waits_for_an_input():
    text = "input x; input y; emit x - y over (0, 100];"
    x, y = seconds((0, 5), (10, 6), (20, 7)), seconds((0, 1), (15, 2))
    with Query(text).live(**COMMON) as live:
        assert live.push(x=x).empty
        state = live.state()
    assert json.loads(state)["lines"].startswith("x,0,10,5\n")
    with Query(text).live(**COMMON, state=state) as live:
        assert rows([live.push(y=y), live.end()]) == rows([run(text, inputs={"x": x, "y": y}, over="query", **COMMON)])


def test_a_moment_that_is_no_time_is_rejected():
    with Query("input x; emit x over (0, 100];").live(**COMMON) as live:
        with pytest.raises(Refused, match="^moment='soon': a time was expected"):
            live.advance("soon")
