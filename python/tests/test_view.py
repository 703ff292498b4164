"""`tilt-data view`: what is in the page, and, in a browser, what is drawn, shown and reached by keys, mouse and address."""
from __future__ import annotations

import base64
import io
import json
import os
import pathlib
import random
import re
import shutil
import sys
import zlib
import zoneinfo
from typing import Any

import pytest
from conftest import TOP, rows_in, run_program
from test_plot import local, put
from tilt_data.axis import axis_of, changes
from tilt_data.cli import main
from tilt_data.clock import Clock
from tilt_data.files import Notes
from tilt_data.scales import decimal_text
from tilt_data.view.coding import BLOCK, BUCKET, Block, Summary, blocks_of

LEAST, GREATEST = -(2**63), 2**63 - 1
WAIT = "new Promise((done) => setTimeout(() => requestAnimationFrame(() => setTimeout(done, 30)), 30))"
# The address is noted a little later.
NOTED = "new Promise((done) => setTimeout(done, 300))"
# What is drawn, as a text that differs if one pixel does.
PICTURE = "document.getElementById('chart').toDataURL()"
EDGES = "window.tiltView.page.edges.map(String)"


def unpacked(text: str, many: int) -> list[list[int]]:
    """The columns of a packed text, read as the page's own description says."""
    data = zlib.decompress(base64.b64decode(text))
    count, widths, place = int.from_bytes(data[:4], "little"), data[4 : 4 + many], (4 + many + 7) // 8 * 8
    columns = []
    for width in widths:
        columns.append([int.from_bytes(data[place + at * width :][:width], "little", signed=True) for at in range(count)])
        place += (count * width + 7) // 8 * 8
    assert place == len(data)
    return columns


@pytest.mark.parametrize(
    "rows",
    [
        [(0, 1, 5)],
        [(0, 5, 3), (5, 6, -3), (9, 20, 127), (20, 400, -128), (400, 70000, 40000)],
        [(-4 * 10**18, -1, LEAST), (-1, 0, GREATEST), (0, 4 * 10**18, LEAST)],
        [(0, 1, 9007199254740993), (1, 2, 9007199254740992), (2, 3, 9007199254740994)],
    ],
)
def test_packed_rows_are_the_rows(rows):
    (block,) = blocks_of(rows)
    gaps, lengths, steps = unpacked(block.text(), 3)
    time, value, found = rows[0][0], rows[0][2], []
    for gap, length, step in zip(gaps, lengths, steps):
        start, value = time + gap, (value + step + 2**63) % 2**64 - 2**63
        time = start + length
        found.append((start, time, value))
    assert found == rows


def test_regular_rows_are_small():
    (block,) = blocks_of([(at, at + 1, 200 + at % 7) for at in range(50000)])
    assert len(block.text()) < 1000


def test_buckets_have_all_rows_in_order_and_their_extremes():
    draws = random.Random(3)
    rows, time = [], 0
    for _ in range(BLOCK + 1000):
        time += draws.choice([0, 0, 0, 1, 5])
        rows.append((time, time + draws.randrange(1, 4), draws.randrange(-1000, 1000)))
        time = rows[-1][1]
    summary, buckets = Summary(), []
    for number, block in enumerate(blocks_of(rows)):
        summary.take(block)
        buckets += [(number * BLOCK + begin, number * BLOCK + end) for begin, end in block.buckets()]
    assert [begin for begin, _ in buckets] == [0, *(end for _, end in buckets[:-1])] and buckets[-1][1] == len(rows)
    assert max(end - begin for begin, end in buckets) <= BUCKET and len(buckets) < len(rows) / 40
    for at, (begin, end) in enumerate(buckets):
        values = [value for _, _, value in rows[begin:end]]
        found = summary[at]
        assert (found.start, found.end, found.rows) == (rows[begin][0], rows[end - 1][1], end - begin)
        assert (found.first, found.last) == (values[0], values[-1])
        assert (found.first - found.below, found.first + found.above) == (min(values), max(values))


def test_a_long_gap_or_row_is_between_two_buckets():
    starts = [*range(0, 100), *range(10000, 10100)]
    ends = [start + 1 for start in starts]
    ends[150] = starts[151] = 50000
    starts[151:], ends[151:] = [*range(50000, 50049)], [*range(50001, 50050)]
    buckets = list(Block(starts, ends, [0] * 200).buckets())
    assert {0, 100, 150, 151} <= {begin for begin, _ in buckets}


def test_changes_of_a_zone():
    zone = zoneinfo.ZoneInfo("Europe/Zurich")
    begin, end = local(zone.key, 2026, 1, 1) * 10**9, local(zone.key, 2027, 1, 1) * 10**9
    # At 02:00 of 29 March the clocks go on to 03:00, and at 03:00 of 25 October back to 02:00: both at 01:00 UTC.
    spring, autumn = (local("UTC", 2026, month, day, 1) * 10**9 for month, day in ((3, 29), (10, 25)))
    hour = 3600 * 10**9
    assert changes(begin, end, zone) == [(begin, hour), (spring, 2 * hour), (autumn, hour)]
    assert changes(begin, end, None) == [(begin, 0)]


def fields_in(path: str = "v.html") -> dict[str, Any]:
    """What a page says of its texts."""
    found = re.search(r'<script type="application/json" id="page">(.*?)</script>', pathlib.Path(path).read_text(), re.S)
    assert found is not None
    fields: dict[str, Any] = json.loads(found[1])
    return fields


def episodes_in(number: int, path: str = "v.html") -> list[tuple[int, int]]:
    """The episodes of a series in a page."""
    count, start = fields_in(path)["series"][number]["episodes"]
    text = re.search(f'<script type="text/plain" id="episodes-{number}">(.*?)</script>', pathlib.Path(path).read_text())
    assert text is not None
    time, found = int(start), []
    for gap, length in zip(*unpacked(text[1], 2)):
        found.append((time + gap, time + gap + length))
        time += gap + length
    assert len(found) == count
    return found


def test_what_is_in_a_page(told):
    put("temp", "0,600,205\n600,1200,213\n1200,1800,\n1800,2400,220\n")
    put("trade", "30,31,200\n1500,1501,210\n", "event")
    pathlib.Path("alarm.csv").write_text("start,end,value\n600,900,3\n900,1200,1\n1300,1400,0\n2000,2400,-1\n")
    words = [
        "temp=temp.csv",
        "+limit:top=temp.csv",
        "+band:alarm=alarm.csv",
        "trade=trade.csv",
        "+band:alarm=alarm.csv",
        "--like",
        "temp.csv",
    ]
    for name in ("v.html", "w.html"):
        assert told("view", *words, "--unit", "temp=°C", "--scale", "top=100", "--out", name) == (0, "", "")
    fields = fields_in()
    assert (fields["lo"], fields["hi"], fields["title"]) == ("0", "2400", "temp, trade")
    # A file is in the page once, however often it is drawn; rows without a value aren't.
    assert [series["rows"] for series in fields["series"]] == [3, 4, 2]
    drawn = [[(one["name"], one["form"], one["unit"], one["scale"], one["series"]) for one in panel] for panel in fields["panels"]]
    assert drawn == [
        [("temp", "step", "°C", "10", 0), ("top", "limit", "", "100", 0), ("alarm", "band", "", "1", 1)],
        [("trade", "dots", "", "10", 2), ("alarm", "band", "", "1", 1)],
    ]
    # Rows that touch are one episode, and 0 is none.
    assert episodes_in(1) == [(600, 1200), (2000, 2400)] and fields["series"][0]["episodes"] is None
    assert pathlib.Path("v.html").read_bytes() == pathlib.Path("w.html").read_bytes()
    assert not [name for name in os.listdir() if name.startswith(".")]


def test_a_page_names_nothing_outside_of_it(told):
    put("x", "0,600,205\n")
    assert told("view", "x=x.csv", "--out", "v.html", "--title", "</script><b>&") == (0, "", "")
    text = pathlib.Path("v.html").read_text()
    assert not re.search(r"https?:|src=|@import|url\(", text) and "default-src 'none'" in text
    assert "<title>&lt;/script&gt;&lt;b&gt;&amp;</title>" in text and "</script><b>" not in text
    assert fields_in()["title"] == "</script><b>&"


def test_episodes_of_several_blocks_are_joined(told):
    rows = [(at, at + 1, 0 if at % 10000 == 5000 else 1) for at in range(BLOCK + 20000)]
    put("alarm", "".join(f"{start},{end},{value}\n" for start, end, value in rows))
    assert told("view", "band:alarm=alarm.csv", "--out", "v.html") == (0, "", "")
    edges = [0, *(edge for at in range(5000, len(rows), 10000) for edge in (at, at + 1)), len(rows)]
    assert episodes_in(0) == list(zip(edges[::2], edges[1::2])) and [block[0] for block in fields_in()["series"][0]["blocks"]] == [
        BLOCK,
        20000,
    ]


def test_stretches_no_farther_apart_than_the_gap_are_one_episode(told):
    put("alarm", "0,10,1\n40,50,1\n50,60,0\n81,90,1\n")
    for words, wanted in (([], [(0, 10), (40, 50), (81, 90)]), (["--gap", "30s"], [(0, 50), (81, 90)]), (["--gap", "31s"], [(0, 90)])):
        assert told("view", "band:alarm=alarm.csv", *words, "--out", "v.html") == (0, "", "")
        assert episodes_in(0) == wanted


def test_a_stretch_has_the_whole_rows_that_meet_it(told):
    put("x", "0,600,205\n600,1200,206\n1200,1800,207\n1800,2400,208\n")
    assert told("view", "x=x.csv", "--from", "700", "--to", "1970-01-01T00:30", "--out", "v.html") == (0, "", "")
    fields = fields_in()
    assert (fields["lo"], fields["hi"], fields["series"][0]["rows"], fields["series"][0]["blocks"]) == (
        "700",
        "1800",
        2,
        [[2, "600", "206"]],
    )


def test_standard_input_is_drawn(told, monkeypatch):
    rows = "start,end,value\n0,600,205\n900,1200,210\n"
    pathlib.Path("x.csv").write_text(rows)
    assert told("view", "x=x.csv", "+y=x.csv", "--out", "file.html") == (0, "", "")
    monkeypatch.setattr(sys, "stdin", io.TextIOWrapper(io.BytesIO(rows.encode())))
    assert told("view", "x=-", "+y=-", "--out", "input.html") == (0, "", "")
    assert pathlib.Path("file.html").read_text() == pathlib.Path("input.html").read_text()


@pytest.mark.parametrize(
    "words, what",
    [
        (["x=x.csv", "--out", "v.svg"], "v.svg: a name that ends in .html was expected"),
        (["+x=x.csv", "--out", "v.html"], "'+x=x.csv': NAME=FILE was expected, and + only after a panel"),
        (["x=nowhere.csv", "--out", "v.html"], "nowhere.csv: No such file or directory"),
        (["x=x.csv", "y=y.csv", "--out", "v.html"], "these files have other ticks or origins"),
        (["x=x.csv", "--from", "5", "--to", "5", "--out", "v.html"], "there is nothing between --from and --to"),
        (["x=x.csv", "+y=bad.csv", "--out", "v.html"], "bad.csv:3: a row start,end,value of whole numbers was expected"),
        (["x=x.csv", "--title", "a\x00b", "--out", "v.html"], r"'a\x00b': a text without control characters was expected"),
        (["x=x.csv", "--gap", "5", "--out", "v.html"], "'5' is no duration"),
        (["x=x.csv", "--gap", "1500ms", "--out", "v.html"], "--gap 1500ms is no whole number of ticks of 1s"),
        (["plain=plain.csv", "--gap", "5s", "--out", "v.html"], "--gap 5s: no file has a clock"),
        (["x=far.csv", "--out", "v.html"], "the moment"),
        (["x=x.csv", "--out", "no/folder/v.html"], "no/folder/v.html: it can't be written"),
    ],
)
def test_what_is_refused(told, words, what):
    put("x", "0,5,1\n")
    put("y", "0,5,1\n", origin=10**9)
    put("far", "0,4000000000000000000,1\n")
    pathlib.Path("bad.csv").write_text("start,end,value\n0,5,1\n5,6\n")
    pathlib.Path("plain.csv").write_text("start,end,value\n0,5,1\n")
    status, out, err = told("view", *words)
    assert (status, out) == (1, "") and err.startswith(f"tilt-data: {what}") and err.count("\n") == 1
    assert not [name for name in os.listdir() if "html" in name]


# In a browser


def opened(browser: Any, path: str = "v.html", place: str = "") -> None:
    """Opens a page and waits until it is drawn. Nothing is loaded but the page, and nothing is on the console."""
    browser.errors.clear()
    browser.open(path, place)
    browser.value("window.tiltView.opened")
    browser.value(WAIT)
    assert browser.errors == [] and [url.partition("#")[0] for url in browser.requests] == [f"file://{os.path.abspath(path)}"]


def chart_of(browser: Any) -> dict[str, float]:
    """Where the panel of the chart is in the window."""
    found: dict[str, float] = browser.value(
        """(() => {
          const { chart } = window.tiltView.page, box = chart.canvas.getBoundingClientRect(), { ratio } = chart;
          return { left: box.left + chart.left / ratio, width: chart.width / ratio, top: box.top + 40, bottom: box.bottom - 60 };
        })()"""
    )
    return found


def shown_values(browser: Any) -> list[list[str]]:
    """The table of values, once it is filled."""
    browser.value("window.tiltView.page.reading")
    rows = "Array.from(document.querySelectorAll('#values tbody tr'), (row) => Array.from(row.cells, (cell) => cell.textContent))"
    found: list[list[str]] = browser.value(rows)
    return found


def edges(browser: Any) -> tuple[int, int]:
    browser.value(WAIT)
    lo, hi = browser.value(EDGES)
    return int(lo), int(hi)


def walk(count: int, seed: int = 1) -> list[int]:
    draws = random.Random(seed)
    value, values = 0, []
    for _ in range(count):
        value += draws.randrange(-5, 6)
        values.append(value)
    return values


Rows = list[tuple[int, int, int]]


@pytest.fixture(scope="module")
def recorded(tmp_path_factory: pytest.TempPathFactory) -> tuple[pathlib.Path, Rows]:
    """A page of 200,000 readings with a gap, three alarms and one extreme reading, and its readings."""
    folder = tmp_path_factory.mktemp("recorded")
    values = walk(200000)
    values[123456] = 5000
    rows = [(at, at + 1, value) for at, value in enumerate(values) if not 150000 <= at < 160000]
    (folder / "temp.csv").write_text("start,end,value\n" + "".join(f"{start},{end},{value}\n" for start, end, value in rows))
    (folder / "temp.json").write_text(Notes(Clock(10**9, 0), 10).text())
    (folder / "alarm.csv").write_text("start,end,value\n20000,20040,1\n90000,90100,1\n123450,123460,2\n")
    words = [f"temp={folder}/temp.csv", f"+band:alarm={folder}/alarm.csv", "--like", f"{folder}/temp.csv", "--out", f"{folder}/v.html"]
    assert main(["view", *words]) == 0
    return folder, rows


@pytest.fixture
def recording(recorded: tuple[pathlib.Path, Rows], browser: Any, monkeypatch: pytest.MonkeyPatch) -> Rows:
    """The readings of the page, which is open in the browser."""
    monkeypatch.chdir(recorded[0])
    browser.size(1280, 800)
    browser.prefer("light")
    opened(browser)
    return recorded[1]


def test_keys_and_clicks_change_what_is_drawn(recording, browser):
    pictures, places = {browser.value(PICTURE)}, [edges(browser)]
    assert places == [(0, 200000)]
    for key, span in (("+", 100000), ("+", 50000), ("ArrowRight", 50000), ("-", 100000), ("Home", 200000)):
        browser.press(key)
        places.append(edges(browser))
        assert abs(places[-1][1] - places[-1][0] - span) <= 2
        pictures.add(browser.value(PICTURE))
    assert places[3][0] == places[2][0] + 7500 and places[-1] == places[0] and len(pictures) == 5
    box = browser.value(
        "(({ x, y, width, height }) => [x + width / 2, y + height / 2])(document.querySelectorAll('#episodes tbody tr')[1].getBoundingClientRect())"
    )
    browser.click(*box)
    lo, hi = edges(browser)
    assert lo < 90000 and hi > 90100 and hi - lo < 1000 and browser.value(PICTURE) not in pictures
    browser.value(NOTED)
    assert browser.value("location.hash") == f"#from={lo}&to={hi}&at=90000"
    browser.press("p")
    assert edges(browser)[0] < 20000 < edges(browser)[1] < 90000
    browser.press("n")
    browser.press("n")
    assert edges(browser)[0] > 100000 and browser.errors == []


def test_the_wheel_zooms_at_the_pointer_and_dragging_moves(recording, browser):
    chart = chart_of(browser)
    x, y = chart["left"] + chart["width"] / 4, chart["top"]
    browser.mouse("mouseMoved", x, y)
    browser.mouse("mouseWheel", x, y, deltaX=0, deltaY=-150)
    lo, hi = edges(browser)
    # A quarter from the left is tick 50,000, and stays there.
    assert abs(hi - lo - 100000) <= 2 and abs(lo - 25000) <= 300
    browser.mouse("mousePressed", x, y, button="left", clickCount=1)
    browser.mouse("mouseMoved", x + chart["width"] / 10, y, button="left", buttons=1)
    browser.mouse("mouseReleased", x + chart["width"] / 10, y, button="left", clickCount=1)
    assert abs(edges(browser)[0] - (lo - 10000)) <= 300


def test_one_finger_moves_and_two_zoom(recording, browser):
    chart = chart_of(browser)

    def touch(kind: str, *places: float) -> None:
        points = [{"x": place, "y": chart["top"] + 20, "id": at} for at, place in enumerate(places)]
        browser.call("Input.dispatchTouchEvent", type=kind, touchPoints=points)

    browser.call("Emulation.setTouchEmulationEnabled", enabled=True, maxTouchPoints=2)
    try:
        middle, tenth = chart["left"] + chart["width"] / 2, chart["width"] / 10
        touch("touchStart", middle - tenth, middle + tenth)
        for step in range(1, 6):
            touch("touchMove", middle - tenth * (1 + step / 5), middle + tenth * (1 + step / 5))
        touch("touchEnd")
        lo, hi = edges(browser)
        # The fingers are twice as far from each other, around the middle.
        assert abs(hi - lo - 100000) < 1500 and abs(lo - 50000) < 1500
        touch("touchStart", middle)
        for step in range(1, 6):
            touch("touchMove", middle - tenth * step / 5)
        touch("touchEnd")
        assert abs(edges(browser)[0] - (lo + 10000)) < 1500 and edges(browser)[1] - edges(browser)[0] <= hi - lo + 1
    finally:
        browser.call("Emulation.setTouchEmulationEnabled", enabled=False)


def test_values_under_the_pointer_are_those_of_the_file(recording, browser):
    draws, values = random.Random(7), {start: value for start, _, value in recording}
    chart = chart_of(browser)
    for key in ("Home", "+", "n", "n"):
        browser.press(key)
        lo, hi = edges(browser)
        for _ in range(4):
            x = round(draws.uniform(chart["left"] + 1, chart["left"] + chart["width"] - 1))
            browser.mouse("mouseMoved", x, chart["top"])
            (name, value, times), alarm = shown_values(browser)
            tick = int(browser.value("String(window.tiltView.page.cursor)"))
            # A pixel may have many ticks; the values are those of the one that the page names.
            assert abs(tick - (lo + (x - chart["left"]) / chart["width"] * (hi - lo))) <= (hi - lo) / chart["width"] + 2
            assert name == "temp" and value == (decimal_text(values[tick], 10) if tick in values else "no value")
            texts = [Clock(10**9, 0).text(edge) for edge in (tick, tick + 1)]
            same = texts[0][:11] == texts[1][:11]
            assert times == (f"{texts[0]} \u2013 {texts[1][11:] if same else texts[1]}" if tick in values else "")
            its = next((str(value) for start, end, value in rows_in("alarm.csv") if start <= tick < end), "no value")
            assert alarm[:2] == ["alarm", its]


def test_the_greatest_reading_is_seen_in_the_whole_and_a_gap_is_one(recording, browser):
    drawn = "window.tiltView.page.chart.traced[0][0]"
    assert browser.value(f"{drawn}.greatest + Number(window.tiltView.page.series[0].base)") == 5000
    # Where the line is in each column of pixels of the chart, from its top.
    columns = browser.value(
        """(() => {
          const { chart } = window.tiltView.page, { canvas } = chart, context = canvas.getContext("2d");
          const { width, height, data } = context.getImageData(0, 30, canvas.width, canvas.height - 80);
          const found = [];
          for (let x = Math.ceil(chart.left) + 2; x < chart.left + chart.width - 1; x++) {
            let top = -1;
            for (let y = 0; y < height && top < 0; y++) {
              const [red, , blue] = data.subarray((y * width + x) * 4, (y * width + x) * 4 + 3);
              if (blue - red > 60) top = y;
            }
            found.push(top);
          }
          return found;
        })()"""
    )
    highest = [at / len(columns) for at, top in enumerate(columns) if 0 <= top < 80]
    assert highest and all(abs(share - 123456 / 200000) < 0.01 for share in highest)
    empty = [at / len(columns) for at, top in enumerate(columns) if top < 0]
    assert abs(min(empty) - 0.75) < 0.01 and abs(max(empty) - 0.8) < 0.01 and len(empty) > 0.04 * len(columns)


def test_it_is_used_by_keyboard_alone(recording, browser):
    focus = "(document.activeElement.id || document.activeElement.textContent.trim())"
    reached, outlined = [], []
    for _ in range(12):
        browser.press("Tab")
        reached.append(browser.value(focus))
        outlined.append(browser.value("getComputedStyle(document.activeElement).outlineStyle"))
    start = Clock(10**9, 0).text(20000)
    assert reached[:9] == ["Whole", "−", "+", "←", "→", "Previous episode", "Next episode", "chart", start]
    assert set(outlined[:9]) == {"solid"}
    browser.value("document.querySelector('#episodes a').focus()")
    browser.press("ArrowDown")
    assert browser.value(focus) == Clock(10**9, 0).text(90000)
    browser.press("Enter")
    lo, hi = edges(browser)
    assert lo < 90000 < 90100 < hi < lo + 1000
    browser.press("ArrowRight", shift=True)
    assert shown_values(browser)[0][1] == decimal_text(dict((start, value) for start, _, value in recording)[90001], 10)
    assert Clock(10**9, 0).text(90001) in browser.value("document.getElementById('status').textContent")
    browser.press("Escape")
    assert browser.value("window.tiltView.page.cursor") is None and browser.errors == []


def test_a_place_is_in_the_address(recording, browser):
    browser.press("n")
    place = f"#from={edges(browser)[0]}&to={edges(browser)[1]}&at=20000"
    browser.value(NOTED)
    assert browser.value("location.hash") == place
    opened(browser, place="#from=90000&to=90400&at=90010")
    assert edges(browser) == (90000, 90400) and shown_values(browser)[1][1] == "1"
    # What isn't a place changes nothing.
    opened(browser, place="#from=9x&to=%3Cb%3E&at=-")
    assert edges(browser) == (0, 200000)


def test_episodes_of_several_bands_are_in_order_and_by_pages(told, browser):
    far = 3 * 10**18
    stretches = {
        "one": [(far + 100 * at, far + 100 * at + 30) for at in range(300)],
        "two": [(far + 150 * at + 50, far + 150 * at + 60) for at in range(200)],
    }
    for name, its in stretches.items():
        pathlib.Path(f"{name}.csv").write_text("start,end,value\n" + "".join(f"{start},{end},1\n" for start, end in its))
    assert told("view", "x=one.csv", "+band:one=one.csv", "+band:two=two.csv", "--out", "v.html") == (0, "", "")
    opened(browser)
    wanted = sorted(((start, end, name) for name, its in stretches.items() for start, end in its), key=lambda one: (one[0], one[2]))
    listed = "Array.from(document.querySelectorAll('#episodes tbody tr'), (row) => Array.from(row.cells, (cell) => cell.textContent))"
    found = []
    for _ in range(3):
        found += browser.value(listed)
        browser.value("document.getElementById('later').click()")
    assert browser.value("document.getElementById('later').disabled") is True
    assert found == [[str(at), name, str(start), str(end), str(end - start)] for at, (start, end, name) in enumerate(wanted, 1)]
    # The next episode after the place in view, on a page of the table that isn't shown.
    opened(browser, place=f"#from={far + 15001}&to={far + 15100}")
    browser.press("n")
    number = next(at for at, (start, _, _) in enumerate(wanted) if start >= far + 15001)
    browser.value(WAIT)
    current = "document.querySelector('#episodes tr[aria-current] td').textContent"
    assert browser.value(current) == str(number + 1) and browser.value("String(window.tiltView.page.cursor)") == str(wanted[number][0])
    browser.press("p")
    browser.press("p")
    assert browser.value(current) == str(number - 1) and browser.errors == []


@pytest.mark.parametrize(
    "rows, words, shown",
    [
        ("", ["x=x.csv"], "no value"),
        ("", ["band:x=x.csv"], "no value"),
        ("5,6,7\n", ["x=x.csv"], "7"),
        ("5,6,7\n", ["dots:x=x.csv"], "7"),
        ("5,6,7\n", ["band:x=x.csv"], "7"),
        ("5,900,7\n900,901,\n950,999,7\n", ["limit:x=x.csv"], "7"),
        ("-4000000000000000000,4000000000000000000,7\n", ["x=x.csv"], "7"),
    ],
)
def test_small_and_odd_series_are_drawn(told, browser, rows, words, shown):
    pathlib.Path("x.csv").write_text("start,end,value\n" + rows)
    assert told("view", *words, "--out", "v.html") == (0, "", "")
    opened(browser, place=f"#at={rows.partition(',')[0] or 0}")
    assert shown_values(browser)[0][1] == shown
    for key in ("+", "+", "ArrowLeft", "-", "n", "p", "Home", "Escape"):
        browser.press(key)
    browser.press("ArrowRight", shift=True)
    browser.value(WAIT)
    assert browser.errors == []


EXACT = [9007199254740993, 9007199254740992, LEAST, GREATEST, 0, -1, 1234567890123456789]


def test_64_bits_are_shown_exactly(told, browser):
    far = 4 * 10**18 - 1000
    rows = [(far + 10 * at, far + 10 * at + 10, value) for at, value in enumerate(EXACT)]
    pathlib.Path("x.csv").write_text(
        "start,end,value\n-4000000000000000000,-3999999999999999999,7\n" + "".join("%d,%d,%d\n" % row for row in rows)
    )
    assert told("view", "x=x.csv", "+tenth=x.csv", "--scale", "tenth=10", "--out", "v.html") == (0, "", "")
    opened(browser, place=f"#from={far}&to={far + 70}")
    chart = chart_of(browser)
    for at, value in enumerate(EXACT):
        browser.mouse("mouseMoved", chart["left"] + chart["width"] * (at + 0.55) / 7, chart["top"])
        shown = shown_values(browser)
        assert shown[0] == ["x", str(value), f"{far + 10 * at} \u2013 {far + 10 * at + 10}"]
        assert shown[1][:2] == ["tenth", decimal_text(value, 10)]
    assert browser.errors == []


def test_decimals_are_those_of_python(recording, browser):
    draws = random.Random(5)
    values = [0, 1, -1, LEAST, GREATEST, *(draws.randrange(-(10**6), 10**6) for _ in range(30))]
    asked = [(draws.choice(values), draws.choice([1, 10, 1000, 3, 7, 60, 128, 10**19])) for _ in range(200)]
    pairs = json.dumps([[str(one), str(scale)] for one, scale in asked])
    texts = browser.value(f"{pairs}.map((pair) => window.tiltView.decimalText(...pair.map(BigInt)))")
    assert texts == [decimal_text(*pair) for pair in asked]


@pytest.mark.parametrize(
    "zone, year, days",
    [
        ("Europe/Zurich", 2026, [(3, 29), (10, 25), (6, 10)]),
        # A midnight that is left out, and one that is there twice.
        ("America/Sao_Paulo", 2018, [(11, 4)]),
        ("America/Havana", 2026, [(11, 1)]),
    ],
)
def test_marks_of_time_are_those_of_a_picture(told, browser, zone, year, days):
    begin, end = local(zone, year, 1, 1), local(zone, year + 1, 1, 1)
    clock = Clock(10**9, begin * 10**9)
    pathlib.Path("x.csv").write_text(f"start,end,value\n0,{end - begin},1\n")
    pathlib.Path("x.json").write_text(Notes(clock, 10, zone=zone).text())
    assert told("view", "x=x.csv", "--out", "v.html") == (0, "", "")
    opened(browser)
    stretches = [(0, end - begin)]
    for month, day in days:
        middle = local(zone, year, month, day, 2) - begin
        stretches += [(middle - span, middle + span + 1) for span in (3, 50, 700, 7200, 40000, 200000, 300000, 2000000)]
    marks = browser.value(
        f"""{json.dumps(stretches)}.map(([lo, hi]) => {{
          const {{ clock }} = window.tiltView.page, {{ marks, label }} = clock.axis(clock.moment(BigInt(lo)), clock.moment(BigInt(hi)), 9);
          return [marks.map((one) => Number(one.moment - clock.moment(BigInt(lo))) / Number(clock.tick)), marks.map((one) => one.text), label];
        }})"""
    )
    for (lo, hi), found in zip(stretches, marks):
        assert found == list(axis_of(clock, lo, hi, zoneinfo.ZoneInfo(zone), zone)), (lo, hi)


def test_rows_at_the_edge_of_a_block_are_found(recording, browser):
    values = {start: value for start, _, value in recording}
    for tick in (0, BLOCK - 1, BLOCK, BLOCK + 1, 2 * BLOCK, 149999, 160000, 199999):
        browser.value(f"location.hash = 'from={tick - 50}&to={tick + 50}&at={tick}'")
        browser.value(WAIT)
        assert shown_values(browser)[0][1] == decimal_text(values[tick], 10)
    browser.value(f"location.hash = 'from={BLOCK - 50}&to={BLOCK + 50}&at={BLOCK - 1}'")
    browser.value(WAIT)
    for key, tick in (("ArrowRight", BLOCK), ("ArrowLeft", BLOCK - 1)):
        browser.press(key, shift=True)
        assert shown_values(browser)[0][1] == decimal_text(values[tick], 10)
        assert browser.value("String(window.tiltView.page.cursor)") == str(tick)


def test_dark_light_narrow_and_print(recording, browser, tmp_path):
    grounds = []
    for scheme in ("light", "dark"):
        browser.prefer(scheme)
        browser.value(WAIT)
        grounds.append(browser.value("getComputedStyle(document.body).backgroundColor"))
        # Text is read on its ground: the contrast of both is above 7.
        assert contrast(grounds[-1], browser.value("getComputedStyle(document.body).color")) > 7
    assert grounds[0] != grounds[1]
    browser.size(390, 800)
    browser.value(WAIT)
    assert browser.value("document.documentElement.scrollWidth") <= 390
    browser.size(1280, 800)
    # On paper the colours are those of a light ground, also with the cursor, which is on the one canvas.
    browser.press("n")
    browser.call("Emulation.setEmulatedMedia", media="print", features=[{"name": "prefers-color-scheme", "value": "dark"}])
    browser.value(WAIT)
    assert browser.value("getComputedStyle(document.body).backgroundColor") == grounds[0]
    assert browser.value("getComputedStyle(document.getElementById('overlay')).display") == "none"
    assert browser.value("window.tiltView.page.chart.paper") is True
    browser.call("Emulation.setEmulatedMedia", media="", features=[])
    pdf = base64.b64decode(browser.call("Page.printToPDF", landscape=True)["data"])
    assert pdf.startswith(b"%PDF") and browser.errors == []


def contrast(one: str, other: str) -> float:
    """The contrast of two colours, as the guidelines for the accessibility of the Web (2.1) define it."""

    def light(text: str) -> float:
        parts = [int(part) / 255 for part in re.findall(r"\d+", text)[:3]]
        red, green, blue = (part / 12.92 if part <= 0.03928 else ((part + 0.055) / 1.055) ** 2.4 for part in parts)
        return 0.2126 * red + 0.7152 * green + 0.0722 * blue

    dim, bright = sorted((light(one), light(other)))
    return (bright + 0.05) / (dim + 0.05)


def test_colours_are_those_of_a_palette_for_all():
    """The colours of Okabe and Ito (Color Universal Design, 2008), on a light ground."""
    palette = {"#000000", "#e69f00", "#56b4e9", "#009e73", "#f0e442", "#0072b2", "#d55e00", "#cc79a7"}
    style = (TOP / "python" / "tilt_data" / "view" / "page.css").read_text().split("@media")[0]
    colours = dict(re.findall(r"--((?:line|band)-\d|limit): (#\w+);", style))
    assert len(colours) == 10 and {colour for name, colour in colours.items() if name != "line-5"} <= palette
    lines = [colour for name, colour in colours.items() if name.startswith("line") or name == "limit"]
    assert len(set(lines)) == len(lines)


def test_the_example_of_sensors(told, tilt, browser, tmp_path):
    shutil.copytree(TOP / "examples" / "sensors", tmp_path, dirs_exist_ok=True)
    make = "--time time --name sensor --value value --tick 1s --scale 10 --max-age temperature=1min humidity=5min --until 2026-03-03 --sort --ties last"
    assert told("series", "raw/readings.csv", *make.split(), "--out", "data")[0] == 0
    inputs = ["temperature=data/temperature.csv", "limit=data/limit.csv"]
    pathlib.Path("alarm.csv").write_text(run_program(tilt, pathlib.Path("alarm.tilt").read_text(), *inputs))
    assert told("view", "temperature=data/temperature.csv", "+band:alarm=alarm.csv", "--like", "data/limit.csv", "--out", "v.html")[0] == 0
    opened(browser)
    listed = "Array.from(document.querySelectorAll('#episodes tbody tr'), (row) => row.cells[1].textContent)"
    assert browser.value(listed) == ["2026-03-02T10:40:00Z", "2026-03-02T14:40:00Z", "2026-03-02T15:50:00Z"]


def test_the_columns_are_little_endian():
    """What the page reads: numbers from the least byte on."""
    (block,) = blocks_of([(0, 300, 1), (300, 600, 2)])
    data = zlib.decompress(base64.b64decode(block.text()))
    assert data[:7] == bytes([2, 0, 0, 0, 1, 2, 1]) and data[16:20] == (300).to_bytes(2, "little") * 2
