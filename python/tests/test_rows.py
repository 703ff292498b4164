"""Rows that numpy converts many at a time are those that are converted one by one, and so are errors; and runs over many keys at a time
give what one run for each key gives."""
from __future__ import annotations

import decimal
import random
import warnings

import pytest

numpy = pytest.importorskip("numpy")
pandas = pytest.importorskip("pandas")

from conftest import PROGRAM
from tilt_data import Convention, Query, Refused, run
from tilt_data.clock import TIMES, Clock, moment_text
from tilt_data.convention import moment_read
from tilt_data.convert import Converter, Late, Tie, row_text
from tilt_data.digits import rows_text
from tilt_data.frames import arrays_of, keys_of
from tilt_data.keys import Alone
from tilt_data.rows import RowArrays, beyond, output_of
from tilt_data.scales import Scale
from tilt_data.table import merged
from tilt_data.whole import digits_in, digits_after_point, in_python, texts_of, whole_numbers

KINDS = ["float64"] * 4 + ["float32", "float16", "Float64", "Float32", "int64", "uint64", "int16", "Int64", "UInt8", "object", "decimal"]
EDGES = [
    0.0,
    -0.0,
    5e-324,
    1e300,
    1e15,
    1e16,
    1e22,
    1e23,
    2.0**53,
    2.0**53 + 2,
    0.1 + 0.2,
    123456789012345.6,
    float("inf"),
    -float("inf"),
]


def caught(call, *arguments):
    """What a call gives, or the text of its error."""
    try:
        return call(*arguments)
    except Refused as error:
        return str(error)


def values_of(draws: random.Random, kind: str, count: int):
    """A Series of a type, with decimals of a few digits or of as many as the type has, and with missing values."""
    digits, size = draws.randrange(19), draws.randrange(20)
    if "int" in kind.lower():
        limits = numpy.iinfo(kind.lower())
        found = [draws.choice([limits.min, limits.max, draws.randrange(max(limits.min, -300), 200)]) for _ in range(count)]
        if draws.random() < 0.7:
            found = [draws.randrange(max(limits.min, -300), 200) for _ in range(count)]
    else:
        found = [float(f"{draws.randrange(-10**size, 10**size + 1)}e-{digits}") for _ in range(count)]
        if draws.random() < 0.3:
            found = [round(draws.random() * 10 ** draws.randrange(-3, 18), draws.randrange(17)) for _ in range(count)]
        if draws.random() < 0.1 and count:
            found[draws.randrange(count)] = draws.choice(EDGES)
    if kind == "decimal":
        found = [decimal.Decimal(repr(value)) for value in found]
    with numpy.errstate(all="ignore"):
        series = pandas.Series(found, dtype="object" if kind == "decimal" else kind)
    if draws.random() < 0.4 and not kind.startswith(("int", "uint")):
        series[[draws.random() < 0.3 for _ in range(count)]] = None
    return series


def digits_one_by_one(series) -> int:
    return max((digits_after_point(text) for text in texts_of(series) if text is not None), default=0)


def whole_values(name: str, series, scale: int) -> list[int | None]:
    read = Scale(scale)
    try:
        return [None if text is None else read.whole(text) for text in texts_of(series)]
    except ValueError as error:
        raise Refused(f"the input {name}: {in_python(str(error))}") from error


def whole_as_list(name: str, series, scale: int) -> list[int | None]:
    numbers, known = whole_numbers(name, series, scale)
    return [int(number) if known is None or known[at] else None for at, number in enumerate(numbers)]


@pytest.mark.parametrize("kind", sorted(set(KINDS)))
def test_values_are_those_of_their_texts(kind):
    draws, seen = random.Random(kind), set()
    for _ in range(300):
        series = values_of(draws, kind, draws.randrange(12))
        digits = caught(digits_in, "x", series)
        try:
            assert digits == digits_one_by_one(series)
        except ValueError:
            assert isinstance(digits, str) and "needs" in digits
        scale = draws.choice([1, 10, 100, 1000, 10**9, 10**18, 10**30, 2, 7, 8, 60, 250, 3600])
        scale = 10 ** digits if isinstance(digits, int) and draws.random() < 0.6 else scale
        wanted = caught(whole_values, "x", series, scale)
        assert caught(whole_as_list, "x", series, scale) == wanted
        seen.add(type(wanted))
    assert seen == {list, str} or kind in ("int16", "UInt8")


@pytest.mark.parametrize("size", [1, 5, 12, 9000])
def test_digits_of_values_that_need_more_and_more(size):
    # Each needs other digits, and large numbers are among them.
    values = [float(f"{7 * 10**15 + 1}e-{digits}") for digits in range(1, size % 19)] + [0.5, 1e11 + 0.25, 0.1 + 0.2, 1e14 + 0.5] * size
    series = pandas.Series(values)
    assert digits_in("x", series) == digits_one_by_one(series)


def convention_by(draws: random.Random) -> Convention:
    """A random convention, whose origin may be too far away."""
    is_event = draws.random() < 0.3
    return Convention(
        tick=draws.choice(["1ns", "1ms", "7ms", "1s", "1s", "1min", "1d"]),
        event=is_event,
        max_age=None if is_event or draws.random() < 0.5 else draws.choice(["7s", "1s", "90ms", "3min", "5d"]),
        until=None if is_event or draws.random() < 0.6 else draws.choice(["2026-03-02", "2020-01-01", "9999-12-31"]),
        ties=draws.choice(["refuse", "first", "last", "spread", "last", "spread"]),
        skip_empty=draws.random() < 0.4,
        scale=1,
    )


def readings_by(draws: random.Random, count: int):
    """Readings with ties, gaps, a few in a wrong order, times in a zone, and values that are missing."""
    moment, moments = pandas.Timestamp("2026-03-28 22:00").value, []
    for _ in range(count):
        moment += draws.choice([0, 1, 400, 10**6, 10**9, 10**9, 10**9, 60 * 10**9, 86400 * 10**9])
        moments.append(moment)
    if count > 2 and draws.random() < 0.2:
        at = draws.randrange(1, count)
        moments[at] -= draws.choice([1, 10**9, 86400 * 10**9])
    index = pandas.DatetimeIndex(numpy.array(moments, "i8").view("M8[ns]"))
    index = index.tz_localize("UTC").tz_convert("Europe/Zurich") if draws.random() < 0.3 else index
    values = [None if draws.random() < 0.2 else draws.randrange(-50, 2000) for _ in range(count)]
    return pandas.Series(values, index, dtype="Int64")


def bytes_of(series, clock: Clock, convention: Convention) -> bytes:
    return b"".join(part.text() for part in arrays_of("x", series, clock, convention, 1))


def moments_in(index) -> list[int]:
    return [moment.value for moment in index]


def rows_of_intervals(series, clock: Clock):
    values = whole_values("x", series, 1)
    if series.index.closed != clock.closed:
        raise Refused(f"the input x: its intervals are closed {series.index.closed!r}, not {clock.closed!r}: closed= or index.set_closed()")
    for start, end, value in zip(moments_in(series.index.left), moments_in(series.index.right), values):
        for edge in (start, end):
            if (edge - clock.origin) % clock.tick:
                raise Refused(f"the input x: the interval end {moment_text(edge, 9)} isn't on a tick: a shorter tick")
        yield (start - clock.origin) // clock.tick, (end - clock.origin) // clock.tick, value


def rows_one_by_one(series, clock: Clock, convention: Convention):
    if isinstance(series.index, pandas.IntervalIndex):
        yield from rows_of_intervals(series, clock)
        return
    converter = Converter(clock, convention.rule("x", clock))
    for moment, value in zip(moments_in(series.index), whole_values("x", series, 1)):
        try:
            row = None if value is None and convention.skip_empty else converter.push(moment, value)
        except Tie:
            what = f"two readings in one tick at {moment_text(moment, 9)}: ties='last', 'first' or 'spread', or a shorter tick"
            raise Refused(f"the input x: {what}")
        except Late:
            raise Refused(f"the input x: the reading at {moment_text(moment, 9)} lies before the one before it: sort_index()")
        yield row
    yield converter.finish(None if convention.until is None else clock.start(moment_read("until", convention.until)))


def bytes_one_by_one(series, clock: Clock, convention: Convention) -> bytes:
    texts = []
    for row in filter(None, rows_one_by_one(series, clock, convention)):
        if row[0] < -TIMES or row[1] > TIMES:
            raise beyond("x")
        texts.append(row_text(row))
    return "".join(texts).encode()


@pytest.mark.parametrize("at_once", [1, 2, 3, 7, 1 << 15])
def test_rows_are_those_of_one_reading_at_a_time(monkeypatch, at_once):
    monkeypatch.setattr("tilt_data.rows.AT_ONCE", at_once)
    draws, errors = random.Random(at_once), set()
    for _ in range(300):
        convention = convention_by(draws)
        series = readings_by(draws, draws.randrange(30))
        origin = draws.choice([0, pandas.Timestamp("2026-03-01").value, 1234567891, -(10**19), 10**20])
        clock = Clock(10**9, origin, draws.choice(["left", "right"]))
        clock = Clock(draws.choice([1, 7 * 10**6, 10**9, 60 * 10**9, 10**20]), clock.origin, clock.closed)
        wanted = caught(bytes_one_by_one, series, clock, convention)
        assert caught(bytes_of, series, clock, convention) == wanted
        errors |= {" ".join(wanted.split()[3:6])} if isinstance(wanted, str) else {""}
    assert len(errors) >= 4


def test_rows_of_intervals_are_those_of_one_at_a_time():
    draws = random.Random(5)
    for _ in range(500):
        edges = sorted(
            draws.randrange(0, 10**6) * draws.choice([10**9, 10**9, 10**9, 10**6]) for _ in range(2 * draws.randrange(12))
        )
        starts, ends = (pandas.DatetimeIndex(numpy.array(edges[at::2], "i8").view("M8[ns]")) for at in (0, 1))
        index = pandas.IntervalIndex.from_arrays(starts, ends, closed="left")
        series = pandas.Series([draws.choice([None, 7, -8]) for _ in starts], index, dtype="Int64")
        clock = Clock(draws.choice([10**6, 10**9]), draws.choice([0, 10**20, 5 * 10**9]), draws.choice(["left", "left", "right"]))
        wanted = caught(bytes_one_by_one, series, clock, Convention())
        assert caught(bytes_of, series, clock, Convention()) == wanted


def rows_by(draws: random.Random, count: int) -> list[tuple[int, int, int | None]]:
    """Rows in order, with gaps, with numbers of all lengths."""
    far = 10 ** draws.randrange(1, 18)
    edges = sorted({draws.randrange(-far, far) for _ in range(2 * count)})
    pairs = zip(edges[:-1], edges[1:]) if draws.random() < 0.5 else zip(edges[::2], edges[1::2])
    return [
        (start, end, draws.choice([None, 0, -1, draws.randrange(-far, far), 999, 1000, 9999999, 10**7, 10**11])) for start, end in pairs
    ]


def test_text_of_rows_and_back(tmp_path):
    draws = random.Random(8)
    for _ in range(500):
        rows = rows_by(draws, draws.randrange(20))
        rows += [(10**18, 10**18 + 1, draws.choice([2**63 - 1, -(2**63), 7]))] if draws.random() < 0.1 else []
        text, arrays = "".join(map(row_text, rows)).encode(), RowArrays.of(rows)
        assert rows_text(arrays.starts, arrays.ends, arrays.values, arrays.known) == text
        assert listed(output_in(tmp_path, text)) == rows


def output_in(folder, text: bytes) -> RowArrays:
    (folder / "out.csv").write_bytes(b"start,end,value\n" + text)
    return output_of(str(folder / "out.csv"))


def listed(arrays: RowArrays) -> list[tuple[int, int, int | None]]:
    known = [True] * len(arrays) if arrays.known is None else arrays.known
    return [
        (start, end, value if there else None)
        for start, end, value, there in zip(arrays.starts.tolist(), arrays.ends.tolist(), arrays.values.tolist(), known)
    ]


@pytest.mark.parametrize("text", ["0,1\n", ",1,5\n", "0,,5\n", "0,1,5-3\n", "0,1,-\n", "0,1,--5\n", "0,1,x\n", "0,1,1.5\n"])
def test_text_that_is_no_row_is_no_output(tmp_path, text):
    with pytest.raises(Refused, match=r"out\.csv:2: "):
        output_in(tmp_path, text.encode())


def test_equal_neighbours_and_gaps():
    draws = random.Random(3)
    for _ in range(300):
        rows = [(start, end, draws.choice([1, 1, 2, None])) for start, end, _ in rows_by(draws, draws.randrange(8))]
        arrays = RowArrays.of(rows)
        assert listed(arrays.merged()) == list(merged(rows))
        low, high = (rows[0][0] - draws.randrange(2), rows[-1][1] + draws.randrange(2)) if rows else (0, 5)
        filled = listed(arrays.filled(low, high))
        assert [row for row in filled if row in rows] == rows and filled[0][0] == low and filled[-1][1] == high
        assert all(before[1] == after[0] for before, after in zip(filled, filled[1:]))
        assert all(value is None for start, end, value in filled if (start, end, value) not in rows)


def test_large_values_are_divided_as_python_divides():
    numbers = [2**63 - 1, -(2**63), 2**53 + 1, 10**17 + 1, 3, -7]
    arrays = RowArrays.of([(at, at + 1, number) for at, number in enumerate(numbers)])
    for scale in (3, 10, 10**17, 10**30):
        assert arrays.shown(scale, False).tolist() == [number / scale for number in numbers]


# Keys

QUERIES = [
    "input x; emit x over (0, 600];",
    "input x; emit sum(x[t-7:t+3]) over (0, 600] every 5;",
    "input x; input y; let a = avg(x[t-20:t]) every 10 from 3; emit if isnull(a) then -1 else a + ifnull(y, 0) over (0, 600];",
    "input x; emit ifnull(x[t+2], 9) when isnull(x) or x > 3 over (30, 330] every 3;",
    "input x; let low = ifnull(x < 4, false); emit 1 when all(low[t-5:t]) over (-50, 600];",
    "input x; input y; let c = count(x[t-9:t]); let d = y - y[t-1]; emit c * 10 + d over (7, 507] every 4 from 3;",
    "input y; emit last(y[t-30:t-10]) over (0, 900] every 100;",
    # These can't be moved in time, or read too far.
    "input x; let early = x over (0, 100]; emit early over (0, 600];",
    "input x; emit sum(x[t-100000:t]) over (0, 600] every 100;",
]


def keyed_readings(draws: random.Random):
    parts = []
    for key in draws.sample("abcdefgh", draws.randrange(1, 6)):
        count = draws.randrange(1, 40)
        seconds = numpy.cumsum([draws.choice([0.25, 1, 1, 2, 15]) for _ in range(count)])
        index = pandas.Timestamp("2026-03-01") + pandas.to_timedelta(seconds, unit="s")
        values = {name: [draws.choice([None, *range(9)]) for _ in range(count)] for name in "xy"}
        parts.append(pandas.DataFrame({**values, "key": key}, index, dtype="object").astype({"x": "float", "y": "float"}))
    return pandas.concat(parts)


@pytest.mark.parametrize("query", QUERIES)
@pytest.mark.parametrize(
    "look", [{}, {"index": "start"}, {"index": "end", "merge": True}, {"nulls": True}, {"over": "data", "exact": True}]
)
def test_many_keys_in_a_run_are_those_of_one_run_each(tilt, monkeypatch, query, look):
    monkeypatch.setenv("TILT", str(PROGRAM))
    draws = random.Random(query + str(look))
    for _ in range(2):
        data = keyed_readings(draws)
        data = data.sort_index() if draws.random() < 0.4 else data
        options = {**draws.choice([{"event": True}, {"max_age": "5s"}, {"skip_empty": True}, {}]), "ties": draws.choice(["last", "spread"])}
        options |= {"key_origin": "own"} if draws.random() < 0.3 else {}
        monkeypatch.setattr("tilt_data.keys.ROWS_OF_RUN", draws.choice([1, 30, 10**6]))
        with warnings.catch_warnings():
            warnings.simplefilter("ignore")
            got = caught(lambda: run(query, data, by="key", scale=1, **look, **options))
            with monkeypatch.context() as patched:
                patched.setattr(Query, "by_batches", alone)
                wanted = caught(lambda: run(query, data, by="key", scale=1, **look, **options))
        if isinstance(wanted, str):
            assert got == wanted
        else:
            pandas.testing.assert_frame_equal(got, wanted, check_dtype=False)


def alone(*_, **__):
    raise Alone


def test_keys_that_share_a_run_have_what_is_for_one_input(tilt, monkeypatch):
    monkeypatch.setenv("TILT", str(PROGRAM))
    times = pandas.to_datetime(["2026-03-01 00:00:00", "2026-03-01 00:00:01", "2026-03-01 00:00:02"] * 2)
    data = pandas.DataFrame({"x": [1.5, None, 2.5, 4.5, None, None], "y": [0.25, None, 0.5] * 2, "key": list("aaabbb")}, times)
    options = {"scale": {"x": 10, "y": 100}, "skip_empty": {"x": True}, "index": "start"}
    query = "input x; input y; emit x + ifnull(y, 0) over (0, 4];"
    alone_too = run(query, data, by="key", inputs={"y": data[data["key"] == "a"]["y"]}, **options)
    monkeypatch.setattr(Query, "by_runs", alone)
    found = run(query, data, by="key", **options)["value"]
    assert found["a"].tolist() == [1.75, 1.5, 3.0] and found["b"].tolist() == [4.75]
    assert alone_too["value"]["a"].tolist() == [1.75, 1.5, 3.0]


@pytest.mark.parametrize("kind", ["object", "category", "int64", "datetime64[ns]"])
def test_keys_have_an_order(kind):
    data = pandas.DataFrame({"x": 1, "k": pandas.Series([3, 1, 2, 1]).astype(str if kind == "object" else kind)})
    keys = keys_of(data, "k")
    assert kind == "category" and keys is None or [str(key) for key in keys.keys] == sorted({str(key) for key in data["k"]})
