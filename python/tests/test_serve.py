"""`tilt-data serve`: what clients are sent and refused, and, in a browser, how the page changes while rows arrive."""
from __future__ import annotations

import contextlib
import http.client
import json
import os
import pathlib
import random
import re
import signal
import socket
import subprocess
import sys
import threading
import time
import urllib.parse
from typing import Any, Iterable, Iterator

import pytest

from conftest import PYTHON
from test_plot import put
from test_view import WAIT, chart_of, edges, shown_values
from tilt_data.arrivals import rows_arriving
from tilt_data.drawn import bands_of
from tilt_data.errors import Refused
from tilt_data.files import ValuesAt

HEADER = "start,end,value\n"
# Seconds for what has to happen.
PATIENCE = 20.0
Rows = list[tuple[int, "int | None", int]]


class Served:
    """A server in a process of its own, and what it reads."""

    def __init__(self, *words: str, text: str = HEADER) -> None:
        environment = {**os.environ, "PYTHONPATH": str(PYTHON), "PYTHONDONTWRITEBYTECODE": "1"}
        command = [sys.executable, "-m", "tilt_data", "serve", *words]
        streams = dict.fromkeys(("stdin", "stdout", "stderr"), subprocess.PIPE)
        # A job in the background is started with SIGINT ignored.
        heard = {"preexec_fn": lambda: signal.signal(signal.SIGINT, signal.SIG_DFL)}
        self.process: Any = subprocess.Popen(command, env=environment, bufsize=0, **streams, **heard)
        # What hangs ends, and fails.
        self.watch = threading.Timer(3 * PATIENCE, self.process.kill)
        self.watch.start()
        found = re.fullmatch(r"tilt-data: the page is (http://127\.0\.0\.1:(\d+)(/[\w-]{22}/)) until Ctrl-C\n", self.line())
        assert found is not None
        self.url, self.port, self.path = found[1], int(found[2]), found[3]
        self.write(text)

    def line(self) -> str:
        """The next line of standard error."""
        text: bytes = self.process.stderr.readline()
        return text.decode()

    def write(self, text: str) -> None:
        data = memoryview(text.encode())
        while data:
            data = data[self.process.stdin.write(data) :]

    def end_input(self) -> None:
        self.process.stdin.close()

    def ended(self) -> tuple[int, str, str]:
        """The status, and the rest of what is printed."""
        out, err = self.process.stdout.read(), self.process.stderr.read()
        return self.process.wait(PATIENCE), out.decode(), err.decode()

    def __enter__(self) -> Served:
        return self

    def __exit__(self, *_: object) -> None:
        self.watch.cancel()
        self.process.kill()
        self.process.wait()
        for stream in (self.process.stdin, self.process.stdout, self.process.stderr):
            with contextlib.suppress(OSError):
                stream.close()


class Client:
    """A connection for the rows, which can say what it had before."""

    def __init__(self, served: Served, last: int | None = None, room: int | None = None) -> None:
        self.socket = socket.socket()
        self.socket.settimeout(PATIENCE)
        if room is not None:
            self.socket.setsockopt(socket.SOL_SOCKET, socket.SO_RCVBUF, room)
        self.socket.connect(("127.0.0.1", served.port))
        head = f"GET {served.path}rows HTTP/1.1\r\nHost: localhost:{served.port}\r\n"
        self.socket.sendall((head + ("" if last is None else f"Last-Event-ID: {last}\r\n") + "\r\n").encode())
        self.file = self.socket.makefile("rb")
        self.last, self.left_out, self.rows = last, 0, list[str]()
        self.has_ended = False

    def take(self) -> None:
        """Takes the next event. Comments, the head and the time to try again are passed over."""
        fields: dict[str, list[str]] = {}
        while not fields.get("data"):
            fields = {}
            while (line := self.file.readline()) not in (b"\n", b"\r\n"):
                assert line, "the connection has ended"
                name, _, value = line.decode().rstrip("\r\n").partition(": ")
                fields.setdefault(name, []).append(value)
        if fields.get("event") == ["end"]:
            self.has_ended = True
            return
        self.last = int(fields["id"][0])
        self.left_out, self.rows = int(fields["data"][0]), self.rows + fields["data"][1:]

    def take_until(self, count: int) -> list[str]:
        """Takes events until there are so many rows: the rows."""
        while len(self.rows) < count:
            self.take()
        return self.rows

    def __enter__(self) -> Client:
        return self

    def __exit__(self, *_: object) -> None:
        self.file.close()
        self.socket.close()


@pytest.fixture(autouse=True)
def in_a_folder(tmp_path: pathlib.Path, monkeypatch: pytest.MonkeyPatch) -> None:
    monkeypatch.chdir(tmp_path)


def asked(served: Served, method: str = "GET", path: str = "", host: str | None = "127.0.0.1", body: bytes | None = None) -> Any:
    connection = http.client.HTTPConnection("127.0.0.1", served.port, timeout=PATIENCE)
    connection.putrequest(method, path or served.path, skip_host=True)
    if host is not None:
        connection.putheader("Host", host)
    if body is not None:
        connection.putheader("Content-Length", str(len(body)))
    connection.endheaders(body)
    response = connection.getresponse()
    text = response.read()
    connection.close()
    return response, text


def test_what_is_served_and_what_is_not():
    with Served("load=-") as served:
        response, text = asked(served)
        assert response.status == 200 and response.headers["Content-Type"] == "text/html; charset=utf-8" and b"<title>load</title>" in text
        policy = response.headers["Content-Security-Policy"]
        assert "default-src 'none'" in policy and "connect-src 'self'" in policy and "frame-ancestors 'none'" in policy
        assert (response.headers["Cache-Control"], response.headers["X-Content-Type-Options"]) == ("no-store", "nosniff")
        for host in (f"127.0.0.1:{served.port}", "localhost", "LocalHost:8000", "[::1]:80"):
            assert asked(served, host=host)[0].status == 200
        token = served.path.strip("/")
        other = token[:-1] + ("A" if token[-1] != "A" else "B")
        refused = [
            *({"path": path} for path in ("/", "/favicon.ico", f"/{token}", f"/{other}/", f"/{other}/rows", f"/{token[:-1]}/")),
            *({"path": served.path + path} for path in ("page.js", "rows/", "rows?x=1", "../x", "%2e")),
            *({"method": method} for method in ("POST", "PUT", "DELETE", "HEAD", "OPTIONS", "PATCH", "TRACE", "GETT")),
            {"method": "POST", "path": f"{served.path}rows", "body": b"0,1,2\n"},
            *(
                {"host": host}
                for host in (None, "", "example.org", f"example.org:{served.port}", "127.0.0.1.example.org", "localhost.", "127.0.0.2")
            ),
            {"path": f"{served.path}rows", "host": "example.org"},
        ]
        for words in refused:
            response, text = asked(served, **words)
            assert (response.status, text) == (404, b""), words
            assert token not in str(response.headers) and "default-src 'none'" in response.headers["Content-Security-Policy"]
        with socket.create_connection(("127.0.0.1", served.port), PATIENCE) as raw:
            raw.sendall(b"\x00\xff nonsense\r\n\r\n")
            assert raw.recv(100) == b""
        # Two names are none.
        with socket.create_connection(("127.0.0.1", served.port), PATIENCE) as raw:
            raw.sendall(f"GET {served.path} HTTP/1.1\r\nHost: localhost\r\nHost: example.org\r\n\r\n".encode())
            assert raw.recv(100).startswith(b"HTTP/1.0 404")
        # It listens on the one address alone.
        with socket.socket() as other_address, pytest.raises(OSError):
            other_address.connect(("127.0.0.2", served.port))


def test_a_client_is_sent_what_it_lacks_exactly_once():
    with Served("load=-", "--quiet") as served:
        served.write("0,4,-2\n4,,4\n")
        with Client(served) as first:
            assert first.take_until(2) == ["0,0,4,-2", "0,4,,4"]
            served.write("4,20,4\n")
            assert first.take_until(3)[2:] == ["0,4,20,4"]
            served.write("20,30,5\n30,,6\n")
            first.take_until(5)
        served.write("30,40,6\n40,50,7\n")
        # One that comes back has what came since, and one that comes late has all; a row that has its end is there once.
        with Client(served, first.last) as again, Client(served) as late:
            assert again.take_until(2) == ["0,30,40,6", "0,40,50,7"]
            assert late.take_until(5) == ["0,0,4,-2", "0,4,20,4", "0,20,30,5", "0,30,40,6", "0,40,50,7"]
            assert again.last == late.last
            served.write("50,60,8\n")
            assert again.take_until(3)[2:] == late.take_until(6)[5:] == ["0,50,60,8"]
        with Client(served, late.last) as none:
            none.take()
            assert none.rows == [] and none.last == late.last


def test_old_rows_are_dropped():
    with Served("load=-", "--keep", "3", "--quiet") as served:
        with Client(served) as early:
            served.write("".join(f"{at},{at + 1},{at}\n" for at in range(5)))
            early.take_until(3)
            while early.last != 5:
                early.take()
            served.write("5,,5\n5,6,5\n6,7,6\n")
            while early.last != 8:
                early.take()
            assert early.left_out == 4
        with Client(served) as late:
            assert late.take_until(3) == ["0,4,5,4", "0,5,6,5", "0,6,7,6"] and late.left_out == 4


def test_neither_a_slow_client_nor_a_killed_one_stops_others():
    count, keep = 60_000, 20_000
    with Served("load=-", "--keep", str(keep), "--quiet") as served:
        with Client(served, room=4096) as slow, Client(served) as quick, Client(served) as killed:
            # It ends in the middle of what is sent.
            killed.take()
            killed.socket.setsockopt(socket.SOL_SOCKET, socket.SO_LINGER, b"\x01\0\0\0\0\0\0\0")
            killed.file.close()
            killed.socket.close()
            for begin in range(0, count, 2000):
                served.write("".join(f"{at},{at + 1},{at}\n" for at in range(begin, begin + 2000)))
            while quick.last != count:
                quick.take()
            assert len(set(quick.rows)) == len(quick.rows) and quick.rows[-1] == f"0,{count - 1},{count},{count - 1}"
            # What the slow one missed is no longer kept: it has each row at most once, in order, and the last ones all.
            while slow.last != count:
                slow.take()
            starts = [int(row.split(",")[1]) for row in slow.rows]
            assert starts == sorted(set(starts)) and starts[-keep:] == list(range(count - keep, count))
        assert served.process.poll() is None and asked(served)[0].status == 200


def test_the_input_is_printed_and_its_end_is_told():
    with Served("load=-") as served:
        served.write("0,4,-2\r\n4,,4\n")
        with Client(served) as client:
            client.take_until(2)
            served.end_input()
            assert served.line() == "tilt-data: the input has ended; the page stays until Ctrl-C\n"
            client.take()
            assert client.has_ended and client.file.read() == b""
        with Client(served) as late:
            assert late.take_until(2) == ["0,0,4,-2", "0,4,,4"]
            late.take()
            assert late.has_ended
        served.process.send_signal(signal.SIGINT)
        assert served.ended() == (130, f"{HEADER}0,4,-2\r\n4,,4\n", "")


def test_it_can_end_with_its_input():
    with Served("load=-", "--exit", "--quiet") as served:
        with Client(served) as client:
            served.write("0,4,-2\n4,9,1\n9,1")
            client.take_until(2)
            served.end_input()
            client.take()
            assert client.has_ended and client.rows == ["0,0,4,-2", "0,4,9,1"]
        # The last line has no end, and may be a part of one.
        assert served.ended() == (0, "", "tilt-data: standard input: the last line has no end, and isn't drawn: 9,1\n")


def test_a_closed_output_ends_it_without_a_message():
    with Served("load=-") as served:
        assert served.process.stdout.read(len(HEADER)) == HEADER.encode()
        served.process.stdout.close()
        served.write("0,4,-2\n")
        assert served.process.wait(PATIENCE) == 1 and served.line() == ""


def test_two_inputs():
    os.mkfifo("pipe")
    with Served("load=-", "+band:high=pipe", "--quiet", "--exit") as served:
        with Client(served) as client:
            served.write("0,4,-2\n")
            client.take_until(1)
            with open("pipe", "w") as pipe:
                pipe.write(f"{HEADER}2,,1\n")
                pipe.flush()
                assert client.take_until(2) == ["0,0,4,-2", "1,2,,1"]
            served.write("4,6,3\n")
            client.take_until(3)
            served.end_input()
            client.take()
            assert client.has_ended and client.rows[2] == "0,4,6,3"
        assert served.ended() == (0, "", "")


def test_rows_in_units_have_the_decimals_of_the_scale():
    lines = ["start,end,value", "0,,-0.25", "0,4,-0.25", "4,6,3.50", "6,7,2"]
    assert list(rows_arriving("in", lines, ValuesAt(100))) == [(0, None, -25), (0, 4, -25), (4, 6, 350), (6, 7, 2)]
    with pytest.raises(Refused, match="^in:2: a row start,end,value of whole numbers was expected, not 0,4,0.125$"):
        list(rows_arriving("in", ["start,end,value", "0,4,0.125"], ValuesAt(100)))


@pytest.mark.parametrize(
    "text, what",
    [
        ("", "standard input:1: the header start,end,value was expected"),
        ("0,4,1\n", "standard input:1: the header start,end,value was expected"),
        (f"{HEADER}0,4,x\n", "standard input:2: a row start,end,value of whole numbers was expected, not 0,4,x"),
        (f"{HEADER}0,,x\n", "standard input:2: a row start,end,value of whole numbers was expected, not 0,,x"),
        (f"{HEADER}0,,\n", "standard input:2: a row start,end,value of whole numbers was expected, not 0,,"),
        (f"{HEADER}0,4,1\n3,,1\n", "standard input:3: rows in order were expected, each with its start below its end"),
        (f"{HEADER}0,,1\n0,4,2\n", "standard input:3: the row from 0 with its end was expected, not 0,4,2"),
        (f"{HEADER}0,,1\n5,,2\n", "standard input:3: the row from 0 with its end was expected, not 5,,2"),
        (f"{HEADER}\n0,4,1\n\x1b,9,1\n", "standard input:4: a row start,end,value of whole numbers was expected, not \\x1b,9,1"),
        (f"{HEADER}LONG\n", "standard input:2: a line of at most 65536 bytes was expected"),
    ],
)
def test_what_is_no_output(told, monkeypatch, text, what):
    pathlib.Path("in.csv").write_text(text.replace("LONG", "9" * 70000))
    with open("in.csv") as stream:
        monkeypatch.setattr(sys, "stdin", stream)
        status, out, err = told("serve", "x=-", "--quiet", "--exit")
    assert status == 1 and out == "" and err.splitlines()[-1].startswith(f"tilt-data: {what}") and err.count("\n") == 2


def test_wrong_arguments(told):
    put("x", "0,5,1\n")
    with socket.create_server(("127.0.0.1", 0)) as taken:
        port = str(taken.getsockname()[1])
        for words, what in (
            (["x=x.csv"], "no rows arrive: - or a named pipe was expected as one FILE"),
            (["x=-", "--keep", "0"], "--keep: 1 or more was expected"),
            (["x=-", "--port", "65536"], "--port: a number from 0 to 65535 was expected"),
            (["x=-", "--port", port], f"--port {port}: Address already in use"),
            (["x=-", "y=nowhere.csv"], "nowhere.csv: No such file or directory"),
            (["x=-", "--gap", "5s"], "--gap 5s: no file has a clock"),
        ):
            status, out, err = told("serve", *words)
            assert (status, out) == (1, "") and err.startswith(f"tilt-data: {what}") and err.count("\n") == 1, words


# In a browser


def until(browser: Any, condition: str) -> None:
    """Waits until a condition holds in the page."""
    end = time.monotonic() + PATIENCE
    while not browser.value(condition):
        assert time.monotonic() < end, condition
        time.sleep(0.02)
    browser.value(WAIT)


def arrived(browser: Any, tick: int) -> None:
    """Waits until time is known up to a tick."""
    until(browser, f"window.tiltView.page.hi >= {tick}n")


@contextlib.contextmanager
def page_of(browser: Any, *words: str, text: str = HEADER, place: str = "") -> Iterator[Served]:
    """A server, and its page in the browser. The page loads nothing else, and nothing is on the console."""
    with Served(*words, text=text) as served:
        browser.size(1280, 800)
        browser.errors.clear()
        browser.go(served.url + place)
        browser.value("window.tiltView.opened")
        until(browser, "document.getElementById('state').textContent === 'Live.'")
        yield served
        assert browser.errors == [] and browser.requests == [served.url, f"{served.url}rows"]
        browser.go("about:blank")


def listed(browser: Any) -> list[list[str]]:
    """The table of episodes."""
    found: list[list[str]] = browser.value(
        "Array.from(document.querySelectorAll('#episodes tbody tr'), (row) => Array.from(row.cells, (cell) => cell.textContent))"
    )
    return found


def point_at(browser: Any, tick: float) -> None:
    """Points at the middle of a tick, which is in view."""
    chart, (lo, hi) = chart_of(browser), edges(browser)
    browser.mouse("mouseMoved", chart["left"] + chart["width"] * (tick - 0.5 - lo) / (hi - lo), chart["top"] + 50)


def test_rows_appear_while_they_arrive(browser):
    put("temp", "0,40,205\n")
    os.mkfifo("pipe")
    with page_of(browser, "load=-", "+band:high=-", "temp=temp.csv", "+limit:top=pipe", "--like", "temp.csv", "--scale", "10") as served:
        assert edges(browser) == (0, 40) and browser.value("document.title") == "load, temp"
        empty = browser.value("document.getElementById('chart').toDataURL()")
        served.write("10,20,-37\n")
        until(browser, "window.tiltView.page.series[0].count === 1")
        assert browser.value("document.getElementById('chart').toDataURL()") != empty
        point_at(browser, 15)
        assert shown_values(browser)[0] == ["load", "-3.7", "1970-01-01T00:00:10Z – 00:00:20Z"]
        point_at(browser, 25)
        assert shown_values(browser)[0] == ["load", "no value", ""]
        # A row without its end lasts up to the newest time of the rows that arrive, and is replaced by the row with its end.
        served.write("20,,12\n")
        until(browser, "window.tiltView.page.series[0].count === 2")
        assert shown_values(browser)[0] == ["load", "no value", ""]
        assert browser.value("String(window.tiltView.page.series[0].data.ends.last)") == "21"
        with open("pipe", "w") as pipe:
            pipe.write(f"{HEADER}0,35,300\n")
        until(browser, "window.tiltView.page.live.now === 35n")
        assert shown_values(browser)[0] == ["load", "1.2", "1970-01-01T00:00:20Z – not over"]
        assert listed(browser) == [["1", "1970-01-01T00:00:10Z", "not over", ""]]
        served.write("20,30,12\n50,60,0\n")
        arrived(browser, 60)
        assert shown_values(browser)[0] == ["load", "1.2", "1970-01-01T00:00:20Z – 00:00:30Z"]
        assert browser.value("window.tiltView.page.series[0].count") == 3
        assert listed(browser) == [["1", "1970-01-01T00:00:10Z", "00:00:30Z", "20 s"]] and edges(browser) == (0, 60)
        # Without a cursor, the newest values are shown.
        browser.press("Escape")
        assert shown_values(browser)[0] == ["load", "0.0", "1970-01-01T00:00:50Z – 00:01:00Z"]
        assert browser.value("document.getElementById('moment').textContent") == "Newest: 1970-01-01T00:00:59Z, tick 60"
        served.end_input()
        until(browser, "document.getElementById('state').textContent === 'The input has ended.'")
        assert browser.value("document.getElementById('follow').hidden") is False


def test_the_view_follows_its_end_or_stays(browser):
    pressed = "document.getElementById('follow').getAttribute('aria-pressed')"
    with page_of(browser, "load=-", "--keep", "150", text=HEADER + "".join(f"{at},{at + 1},{at % 7}\n" for at in range(100))) as served:
        arrived(browser, 100)
        assert edges(browser) == (0, 100)
        # The whole stays the whole.
        served.write("100,120,3\n")
        arrived(browser, 120)
        assert edges(browser) == (0, 120) and browser.value(pressed) == "true"
        # Zoomed in, the end of the view is the newest time.
        browser.press("+")
        assert edges(browser) == (60, 120)
        served.write("120,130,3\n")
        arrived(browser, 130)
        assert edges(browser) == (70, 130) and browser.value(pressed) == "true"
        until(browser, "location.hash === '#last=60'")
        # Moved away, it stays; also where the user drags it.
        browser.press("ArrowLeft")
        assert edges(browser) == (61, 121) and browser.value(pressed) == "false"
        served.write("130,150,3\n")
        arrived(browser, 150)
        assert edges(browser) == (61, 121)
        # It follows again by the key, the button, and by moving to the end.
        for act in ("key", "button", "end"):
            browser.press("ArrowLeft")
            if act == "button":
                browser.click(*browser.value("(({ x, y }) => [x + 5, y + 5])(document.getElementById('follow').getBoundingClientRect())"))
            elif act == "end":
                for _ in range(12):
                    browser.press("ArrowRight")
            else:
                browser.press("f")
            hi = int(browser.value("String(window.tiltView.page.hi)"))
            assert edges(browser) == (hi - 60, hi) and browser.value(pressed) == "true"
            served.write(f"{hi},{hi + 5},1\n")
            arrived(browser, hi + 5)
            assert edges(browser) == (hi - 55, hi + 5)
        # The rows that are dropped are said, and the whole starts where the first row does.
        hi = int(browser.value("String(window.tiltView.page.hi)"))
        served.write("".join(f"{hi + at},{hi + at + 1},1\n" for at in range(60)))
        arrived(browser, hi + 60)
        assert browser.value("document.getElementById('left').textContent") == "Older rows that are dropped: 16."
        browser.press("Home")
        assert edges(browser) == (16, hi + 60)
    with page_of(browser, "load=-", text=f"{HEADER}0,100,3\n", place="#last=30"):
        assert edges(browser) == (70, 100)


class Relay:
    """Between browsers and a server: it can cut all connections, and refuse others for a while."""

    def __init__(self, port: int) -> None:
        self.port = port
        self.listener = socket.create_server(("127.0.0.1", 0))
        self.open: list[socket.socket] = []
        self.is_cut = False
        threading.Thread(target=self.accept, daemon=True).start()

    def accept(self) -> None:
        with contextlib.suppress(OSError):
            while True:
                one, _ = self.listener.accept()
                if self.is_cut:
                    one.close()
                    continue
                other = socket.create_connection(("127.0.0.1", self.port))
                self.open += [one, other]
                for source, target in ((one, other), (other, one)):
                    threading.Thread(target=self.copy, args=(source, target), daemon=True).start()

    def copy(self, source: socket.socket, target: socket.socket) -> None:
        with contextlib.suppress(OSError):
            while data := source.recv(65536):
                target.sendall(data)
            target.shutdown(socket.SHUT_WR)

    def cut(self) -> None:
        self.is_cut = True
        for one in self.open:
            with contextlib.suppress(OSError):
                one.shutdown(socket.SHUT_RDWR)
        self.open.clear()


def test_a_page_that_lost_its_connection_gets_what_it_missed_once(browser):
    with Served("load=-", "--quiet", text=f"{HEADER}0,10,1\n10,,2\n") as served:
        relay = Relay(served.port)
        browser.go(f"http://localhost:{relay.listener.getsockname()[1]}{served.path}")
        arrived(browser, 11)
        relay.cut()
        until(browser, "document.getElementById('state').textContent.startsWith('The connection is lost')")
        served.write("10,20,2\n20,30,3\n30,40,4\n")
        time.sleep(0.2)
        assert browser.value("window.tiltView.page.series[0].count") == 2
        relay.is_cut = False
        arrived(browser, 40)
        rows = "Array.from({ length: one.count }, (_, at) => [one.data.starts, one.data.ends, one.data.values].map((column) => Number(column.at(at))))"
        assert browser.value(f"(({{ series: [one] }}) => {rows})(window.tiltView.page)") == [
            [0, 10, 1],
            [10, 20, 2],
            [20, 30, 3],
            [30, 40, 4],
        ]
        assert browser.value("document.getElementById('state').textContent") == "Live."
        # If the server has gone, it is said.
        relay.cut()
        served.process.send_signal(signal.SIGTERM)
        assert served.process.wait(PATIENCE) == 143
        until(browser, "document.getElementById('state').textContent.startsWith('The connection is lost')")
        relay.listener.close()
        browser.go("about:blank")
        browser.errors.clear()


def test_two_pages_show_the_same(browser):
    with page_of(browser, "load=-", text=f"{HEADER}0,10,1\n") as served:
        arrived(browser, 10)
        with Client(served) as other:
            served.write("10,20,2\n")
            arrived(browser, 20)
            assert other.take_until(2) == ["0,0,10,1", "0,10,20,2"]


def drawn_rows(draws: random.Random, count: int) -> Rows:
    """Rows as they arrive, of which some come without their end first."""
    time, rows = 0, Rows()
    for _ in range(count):
        start = time + draws.choice([0, 0, 1, 2, 3, 9])
        time = start + draws.randrange(1, 5)
        value = draws.choice([0, 0, 1, -2])
        rows += [(start, None, value)] * draws.choice([0, 1]) + [(start, time, value)]
    return rows


def lines_of(rows: Iterable[tuple[int, int | None, int]]) -> str:
    return "".join(f"\\n0,{start},{'' if end is None else end},{value}" for start, end, value in rows)


def test_rows_and_episodes_are_those_of_the_rows_that_are_kept(browser):
    draws = random.Random(7)
    with page_of(browser, "band:alarm=-", "--keep", "40"):
        browser.value("void (window.series = window.tiltView.page.series[0], series.gap = 2n)")
        for _ in range(25):
            rows, taken = drawn_rows(draws, draws.randrange(1, 90)), Rows()
            browser.value(
                "void (series.lasts = false, [...Object.values(series.data), ...Object.values(series.episodes)].forEach((one) => one.drop(1e9)))"
            )
            while rows:
                part = rows[: draws.randrange(1, 40)]
                del rows[: len(part)]
                taken += part
                found = browser.value(
                    f"""(() => {{
                      window.tiltView.page.live.take("0{lines_of(part)}");
                      const all = (columns) => Array.from({{ length: columns[0].count }}, (_, at) => columns.map((one) => Number(one.at(at))));
                      return [all(Object.values(series.data)), all(Object.values(series.episodes)), Number(window.tiltView.page.hi)];
                    }})()"""
                )
                # A row takes the place of one without its end, and the last one without it lasts up to what is known.
                whole = [row for row, after in zip(taken, [*taken[1:], None]) if row[1] is not None or after is None]
                wanted = [(start, start + 1 if end is None else end, value) for start, end, value in whole][-40:]
                assert found[0] == [list(row) for row in wanted]
                episodes = [list(one) for one in bands_of(wanted, 2)]
                if episodes and found[1] and found[1][0][0] == wanted[0][0] != episodes[0][0]:
                    # What was joined to rows that are dropped starts where the rows that are kept do.
                    episodes[0][0] = wanted[0][0]
                assert found[1] == episodes and found[2] == wanted[-1][1]


def test_far_times_and_large_values_are_exact(browser):
    rows: Rows = [
        (-4 * 10**18, -4 * 10**18 + 3, -(2**63)),
        (-5, 2, 2**63 - 1),
        (2, 4 * 10**18 - 1, 2**53 + 1),
        (4 * 10**18 - 1, None, 2**63 - 1),
    ]
    with page_of(browser, "x=-", text=HEADER + "".join(f"{start},{'' if end is None else end},{value}\n" for start, end, value in rows)):
        arrived(browser, 4 * 10**18)
        for start, end, value in rows:
            browser.value(f"location.hash = 'from={start}&to={start + 3}&at={start}'")
            browser.value(WAIT)
            assert shown_values(browser)[0] == ["x", str(value), f"{start} – {'not over' if end is None else end}"]


def test_an_address_with_a_place_and_a_zone(browser):
    """Midnights of a zone whose clocks change: the page knows of years in which no row has arrived."""
    put("like", "0,1,0\n")
    fields = json.loads(pathlib.Path("like.json").read_text())
    pathlib.Path("like.json").write_text(json.dumps({**fields, "tick": "1h", "zone": "Europe/Zurich"}))
    start = 20 * 365 * 24
    with page_of(
        browser,
        "x=-",
        "--like",
        "like.csv",
        text=f"{HEADER}{start},{start + 4000},1\n",
        place=f"#from={start + 10}&to={start + 20}&at={start + 12}",
    ):
        arrived(browser, start + 4000)
        assert edges(browser) == (start + 10, start + 20) and shown_values(browser)[0][1] == "1"
        clock = "window.tiltView.page.clock"
        assert browser.value(f"[0n, 3000n].map((after) => {clock}.text({clock}.moment({start}n + after)).slice(-6))") == [
            "+01:00",
            "+02:00",
        ]


def test_pages_and_servers_are_read_only(browser):
    """The page has no form, and asks for nothing but its rows."""
    with page_of(browser, "x=-") as served:
        assert browser.value("document.querySelectorAll('form, iframe, img, link, script[src]').length") == 0
        refused = browser.value("fetch(location.href, { method: 'POST', body: 'x' }).then((found) => found.status)")
        assert refused == 404
        browser.errors.clear()
        browser.requests.pop()
        assert urllib.parse.urlsplit(served.url).hostname == "127.0.0.1"
