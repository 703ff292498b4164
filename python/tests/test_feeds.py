"""`tilt-data feeds`: the output of each key is what one `tilt-live` prints for its feed, whatever is killed, and whoever serves it."""
from __future__ import annotations

import fcntl
import os
import pathlib
import random
import re
import signal
import subprocess
import sys
import time
from typing import Any

import psutil
import pytest
from conftest import PYTHON

from tilt_data import feeds
from tilt_data.cli import main

WORKERS = 3
QUERY = "input x; input y; emit avg(x[t-20:t]) - ifnull(y, 0) over (0, 3024000000000000000];"
# A command whose leases are short.
COMMAND = [sys.executable, "-c", "import sys; from tilt_data import cli, feeds; feeds.LEASE = 0.3; sys.exit(cli.main(sys.argv[1:]))"]


@pytest.fixture(autouse=True)
def query(here, live, monkeypatch):
    monkeypatch.setenv("TILT_LIVE", live)
    pathlib.Path("q").write_text(QUERY)
    pathlib.Path("feeds").mkdir()


def lines_of(seed: int, count: int = 3000) -> bytes:
    """A feed of two inputs. Some lines are bad or late; every second feed is finished."""
    draws, lines, at = random.Random(seed), [], 0
    for _ in range(count):
        at += draws.randrange(1, 4)
        kind = draws.random()
        lines.append(
            f"x,{at - 1},{at},{draws.randrange(1000)}" if kind < 0.8 else f"y,{at - 1},,{draws.randrange(9)}" if kind < 0.9 else f",,{at},"
        )
        lines += [f"x,{at},,5,6" if draws.random() < 0.5 else "x,0,1,7"] if kind > 0.998 else []
    return "".join(line + "\n" for line in [*lines, *([",,,"] if seed % 2 else [])]).encode()


def write(feeds: dict[str, bytes]) -> None:
    for key, data in feeds.items():
        pathlib.Path("feeds", f"{key}.csv").write_bytes(data)


def one_run(live: str, data: bytes, *options: str) -> bytes:
    return subprocess.run([live, "q", *options], input=data, check=True, capture_output=True).stdout


def output(key: str) -> bytes:
    path = pathlib.Path("out", key, "output.csv")
    return path.read_bytes() if path.exists() else b""


def once(*options: str) -> int:
    return main(["feeds", "q", "feeds/{key}.csv", "--out", "out", "--once", "--workers", "2", "--", *options])


def victim(either: Any, command: subprocess.Popen[bytes], draws: random.Random) -> psutil.Process | None:
    """A worker of the cluster, or a program of this machine's workers."""
    found = either.cluster.workers() if either.cluster is not None else psutil.Process(command.pid).children()
    return draws.choice(found) if found else None


def test_workers_that_are_killed(either, live):
    """Three workers, of which one is killed in the middle, three times, while the feeds grow by pieces that end within lines."""
    whole = {f"k{number}": lines_of(number) for number in range(9)}
    wanted = {key: one_run(live, data) for key, data in whole.items()}
    write({key: b"" for key in whole})
    environment = {**os.environ, "PYTHONPATH": str(PYTHON)}
    words = [*COMMAND, "feeds", "q", "feeds/{key}.csv", "--out", "out", *either.words, "--retries", "9", "--", "--every", "100"]
    # A shell that runs the tests in the background has told its children to ignore an interrupt.
    with open("told", "wb") as file:
        command = subprocess.Popen(words, env=environment, stderr=file, preexec_fn=lambda: signal.signal(signal.SIGINT, signal.SIG_DFL))
    draws, killed = random.Random(7), 0
    try:
        for part in range(1, 41):
            for key, data in whole.items():
                end = len(data) if part == 40 else len(data) * part // 40 + draws.randrange(30)
                with open(f"feeds/{key}.csv", "ab") as file:
                    file.write(data[file.tell() : end])
            if part % 10 == 0 and part < 40:
                size = sum(len(output(key)) for key in whole)
                waited(lambda: sum(len(output(key)) for key in whole) > size, command)
                one = victim(either, command, draws)
                while one is None:
                    one = victim(either, command, draws)
                one.kill()
                killed += 1
            time.sleep(0.03)
        assert waited(lambda: all(output(key) == wanted[key] for key in whole), command), command.poll()
        # The workers go on with what comes later. Lines that are bad can be lost with a worker, but not this one.
        assert killed == 3 and command.poll() is None
        with open("feeds/k0.csv", "ab") as file:
            file.write(b"x,0,1,7\n")
        told = pathlib.Path("told")
        assert waited(lambda: re.search(r": k0: tilt: 82 line \d+: late\n", told.read_text()), command), told.read_text()
        command.send_signal(signal.SIGINT)
        command.wait(timeout=120)
    finally:
        command.kill()
    assert command.returncode == 130 and "isn't served" not in told.read_text(), told.read_text()
    assert {key: output(key) for key in whole} == wanted


def waited(condition: Any, command: subprocess.Popen[bytes]) -> bool:
    deadline = time.monotonic() + 120
    while not condition() and command.poll() is None and time.monotonic() < deadline:
        time.sleep(0.05)
    return bool(condition())


def test_a_call_over_what_is_there_and_the_next_one(capfd, live):
    first, second = {f"k{n}": lines_of(n) for n in range(5)}, {"new": lines_of(11), "none": b""}
    write({key: data[: len(data) // 2] for key, data in first.items()})
    assert once() == 0
    assert all(one_run(live, first[key]).startswith(output(key)) and len(output(key)) > 1000 for key in first)
    write({**first, **second})
    assert once("--every", "50") == 0
    assert {key: output(key) for key in [*first, *second]} == {key: one_run(live, data) for key, data in {**first, **second}.items()}
    assert capfd.readouterr().err.splitlines()[-1] == f"tilt-data: 7 feeds, {taken(first, second):.1f} MB of lines taken"


def taken(first: dict[str, bytes], second: dict[str, bytes]) -> float:
    return (sum(map(len, {**first, **second}.values())) - sum(half(data) for data in first.values())) / 1e6


def half(data: bytes) -> int:
    """How many bytes the whole lines in the first half have."""
    return data.rfind(b"\n", 0, len(data) // 2) + 1


READINGS = ("--time", "time", "--tick", "1s", "--scale", "10")


def test_readings_in_units(told, live):
    """A number of the query and of the output is one of the readings, whatever the scale; --whole is the way back."""
    pathlib.Path("q").write_text("input x; emit x + 0.5 when x > 58.5 over (0, 3024000000000000000];")
    data = "time,x\n" + "".join(f"2026-03-01T08:{at // 60:02}:{at % 60:02}Z,{at / 10}\n" for at in range(600))
    for end in (200, len(data) - 4, len(data)):
        write({"a": data[:end].encode()})
        assert once(*READINGS) == 0
    values = [line.split(b",")[2].decode() for line in output("a").splitlines()[1:]]
    # The last reading isn't over.
    assert values == [f"{at // 10}.{at % 10}" for at in range(591, 604)] and output("a") == one_run(
        live, data.encode(), "--units", *READINGS
    )
    # The option is the default, and can be given too.
    assert once(*READINGS, "--units") == 0
    pathlib.Path("q").write_text("input x; emit x + 5 when x > 585 over (0, 3024000000000000000];")
    for more, wanted in (((), [str(at) for at in range(591, 604)]), (("--decimals", "1"), values)):
        words = ["feeds", "q", "feeds/{key}.csv", "--out", f"out{len(more)}", "--once", "--whole", "--", *READINGS, *more]
        assert told(*words)[0] == 0
        lines = pathlib.Path(words[4], "a", "output.csv").read_text().splitlines()[1:]
        assert [line.split(",")[2] for line in lines] == wanted


def test_a_folder_in_use_is_tried_again(capfd, monkeypatch, live):
    """As that of a feed whose old worker isn't reached any more, but whose program still runs."""
    monkeypatch.setattr(feeds, "PAUSE", 0.2)
    whole = {"a": lines_of(1), "b": lines_of(2)}
    write(whole)
    pathlib.Path("out/a").mkdir(parents=True)
    with open("out/a/lock", "w") as lock:
        fcntl.flock(lock, fcntl.LOCK_EX)
        sleep = time.sleep

        def release(seconds: float) -> None:
            """When the feed waits to be tried again, the old program ends."""
            if "a" in tried:
                fcntl.flock(lock, fcntl.LOCK_UN)
            sleep(seconds)

        tried: list[str] = []
        take_feed = feeds.Run.take_feed
        monkeypatch.setattr(feeds.Run, "take_feed", lambda run, key, made: (tried.append(key), take_feed(run, key, made))[1])
        monkeypatch.setattr(feeds.time, "sleep", release)
        assert once() == 0
    assert "tilt-data: a: tilt: 60 folder in use: " in capfd.readouterr().err and tried.count("a") >= 2
    assert {key: output(key) for key in whole} == {key: one_run(live, data) for key, data in whole.items()}


def test_a_feed_that_is_not_served_leaves_the_others(capfd, monkeypatch, live):
    monkeypatch.setattr(feeds, "PAUSE", 0.01)
    whole = {"busy": lines_of(1), "changed": lines_of(2), "fine": lines_of(3), "short": lines_of(4)}
    write({key: data[: len(data) // 2] for key, data in whole.items()})
    assert once() == 0
    capfd.readouterr()
    changed = bytearray(whole["changed"])
    changed[len(changed) // 2 - 100] ^= 1
    write({**whole, "changed": bytes(changed), "short": whole["short"][:100]})
    with open("out/busy/lock") as lock:
        fcntl.flock(lock, fcntl.LOCK_EX)
        assert once() == 1
    err = capfd.readouterr().err
    assert "changed: tilt: 68 feed has changed: " in err and "short: tilt: 64 feed ends too early: " in err, err
    assert err.count("busy: tilt: 60 ") == 4 and err.count("this feed isn't served any more") == 3 and "not served: 3" in err
    assert output("fine") == one_run(live, whole["fine"])


def test_only_the_keys_of_a_worker_that_goes_move():
    keys = [f"key {number}" for number in range(3000)]
    before, after = ({key: feeds.place_of(key, count) for key in keys} for count in (3, 2))
    assert all(after[key] == before[key] for key in keys if before[key] != 2)
    assert all(900 < list(before.values()).count(place) < 1100 for place in range(3))
    assert all(1400 < list(after.values()).count(place) < 1600 for place in range(2))


@pytest.mark.parametrize(
    "words, what",
    [
        (["q", "feeds/{key}.csv"], "feeds/{key}.csv: no file has this name"),
        (["q", "feeds/*"], "feeds/*: {key} was expected"),
        (["q", "feeds/{key}.*"], "feeds/{key}.*: a has 2 files"),
        (["wrong", "feeds/{key}.txt"], "tilt: 27 statement 2: unknown name"),
        (["q", "feeds/{key}.txt", "--workers", "0"], "workers: 1 or more was expected"),
        (["q", "feeds/{key}.txt", "--", "--evry", "5"], "tilt-data: the options of tilt-live after -- are wrong\n"),
        (["q", "feeds/{key}.txt", "--whole", "--", "--evry", "5"], "a: the options of tilt-live after -- are wrong\n"),
        (
            ["q", "feeds/{key}.txt", "--", *READINGS, "--decimals", "1"],
            "are wrong: in units the query gives its output the decimals: leave",
        ),
        (["half", "feeds/{key}.txt"], "tilt-data: tilt: 114 statement 2: literal not whole\nhalf:1:10: a number isn't whole at the scale"),
        (["half", "feeds/{key}.txt", "--whole"], "tilt-data: tilt: 20 bad byte at 19\nhalf:1:20: "),
    ],
)
def test_what_is_rejected(told, live, words, what):
    pathlib.Path("wrong").write_text("input x; emit y over (0, 10];")
    pathlib.Path("half").write_text("input x; emit x + 0.5 over (0, 10];")
    if "csv" not in words[1]:
        for end in ("txt", "log"):
            pathlib.Path(f"feeds/a.{end}").write_text("x,0,1,2\n")
    status, out, err = told("feeds", *words[:2], "--out", "out", *words[2:], *(["--once"] if "--" not in words else []))
    assert out == "" and status in (1, 2) and what in err, err
