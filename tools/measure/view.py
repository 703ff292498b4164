#!/usr/bin/env python3
"""Measures `tilt-data view` in a browser: `tools/measure/view.py [ROWS] [FOLDER]`.

It writes a series of so many readings (10,000,000), one a second, a limit, and ten alarms; calls `view`; opens the page; and goes over the
chart for ten seconds, in and out and along. It prints how long `view` took, the size of the page, how long the page took to open, how many
frames a second it drew, and how long its own drawing took, with the machine's processors and load. The folder keeps the files."""
from __future__ import annotations

import json
import os
import random
import sys
import tempfile
import time

sys.path.insert(0, os.path.dirname(os.path.dirname(os.path.realpath(__file__))))
sys.path.insert(0, os.path.join(os.path.dirname(os.path.dirname(os.path.dirname(os.path.realpath(__file__)))), "python"))

from shared.browser import Browser, browser_path
from tilt_data.clock import Clock
from tilt_data.cli import main as tilt_data
from tilt_data.files import Notes

NOTES = Notes(Clock(10**9, 1_600_000_000 * 10**9), 10, zone="Europe/Zurich")
# Goes over the chart and counts frames, and milliseconds of drawing: 10 s that are all zooms, moves and values under a moving pointer.
MOVES = """new Promise((done) => {
  const { page } = window.tiltView, whole = Number(page.hi - page.lo), begin = performance.now(), times = [];
  let last = begin, worst = 0;
  const frame = () => {
    const now = performance.now(), share = (now - begin) / 10000;
    worst = Math.max(worst, now - last);
    last = now;
    if (share >= 1) {
      times.sort((one, other) => one - other);
      done({ frames: times.length, worst, median: times[times.length >> 1], slow: times[Math.floor(times.length * 0.95)] });
      return;
    }
    const span = Math.max(60, whole * 2 ** (-16 * Math.abs(Math.sin(3 * Math.PI * share)) ** 2));
    page.show(page.lo, (whole - span) * share, span);
    const from = performance.now();
    page.draw();
    times.push(performance.now() - from);
    page.point(200 + 300 * share);
    requestAnimationFrame(frame);
  };
  requestAnimationFrame(frame);
})"""


def write_series(folder: str, rows: int) -> None:
    draws = random.Random(1)
    alarms = sorted(draws.sample(range(rows - 600), 10))
    with open(os.path.join(folder, "temperature.csv"), "w", encoding="ascii") as file:
        file.write("start,end,value\n")
        value = 200
        for begin in range(0, rows, 100000):
            lines = []
            for at in range(begin, min(begin + 100000, rows)):
                value += int(draws.random() * 7) - 3 - (value > 300) + (value < 100)
                lines.append(f"{at},{at + 1},{value}\n")
            file.writelines(lines)
    with open(os.path.join(folder, "limit.csv"), "w", encoding="ascii") as file:
        file.write(f"start,end,value\n0,{rows // 2},280\n{rows // 2},{rows},260\n")
    with open(os.path.join(folder, "alarm.csv"), "w", encoding="ascii") as file:
        file.write("start,end,value\n" + "".join(f"{at},{at + 40},1\n" for at in alarms))
    for name in ("temperature", "limit", "alarm"):
        with open(os.path.join(folder, f"{name}.json"), "w", encoding="utf-8") as file:
            file.write(NOTES.text())


def measure(folder: str, rows: int) -> None:
    write_series(folder, rows)
    series = {name: os.path.join(folder, f"{name}.csv") for name in ("temperature", "limit", "alarm")}
    page = os.path.join(folder, "page.html")
    words = [f"temperature={series['temperature']}", f"+limit:limit={series['limit']}", f"+band:alarm={series['alarm']}"]
    begin = time.monotonic()
    if tilt_data(["view", *words, "--out", page]):
        raise SystemExit(1)
    print(f"{rows} readings, {len(os.sched_getaffinity(0))} processors, load {os.getloadavg()[0]:.1f}")
    print(f"view: {time.monotonic() - begin:.1f} s; page: {os.path.getsize(page) / 1e6:.1f} MB")
    with Browser(1280, 800) as browser:
        for _ in range(3):
            browser.open(page)
            print(f"opened and drawn after {browser.value('window.tiltView.opened'):.0f} ms")
        found = browser.value(MOVES)
        print(f"frames a second: {found['frames'] / 10:.1f}; longest from frame to frame: {found['worst']:.0f} ms")
        print(f"drawing one: median {found['median']:.1f} ms, 95 of 100 in {found['slow']:.1f} ms; load {os.getloadavg()[0]:.1f}")
        print(json.dumps(browser.errors))


def main(words: list[str]) -> int:
    if browser_path() is None:
        print("view: no browser is installed: apt-get install chromium", file=sys.stderr)
        return 1
    rows = int(words[0]) if words else 10_000_000
    if words[1:]:
        os.makedirs(words[1], exist_ok=True)
        measure(words[1], rows)
        return 0
    with tempfile.TemporaryDirectory() as folder:
        measure(folder, rows)
    return 0


if __name__ == "__main__":
    sys.exit(main(sys.argv[1:]))
