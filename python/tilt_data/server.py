"""The server of `tilt-data serve`: one page and the events that bring its rows, for those of this machine who have its address."""
from __future__ import annotations

import hmac
import http.server
import re
import secrets
import socket
import socketserver
import sys
import threading
import time
from typing import Any, Callable

from .arrivals import Arrivals, Missed
from .errors import note

# The names that the address has: a page of another site that makes its name lead here sends its own name.
LOOPBACK = re.compile(r"(localhost|127\.0\.0\.1|\[::1\])(:[0-9]{1,5})?", re.ASCII | re.IGNORECASE)
HEADERS = {
    "Cache-Control": "no-store",
    "Cross-Origin-Resource-Policy": "same-origin",
    "Referrer-Policy": "no-referrer",
    "X-Content-Type-Options": "nosniff",
}
# Seconds. Rows that arrive within the first are sent together. After the second without a row it is tried whether the client is still
# there. A client that takes nothing for the third is dropped.
TOGETHER, SILENCE, PATIENCE = 0.05, 15.0, 30.0
# How many bytes wait for a client in the system, how many are sent at once, and how many threads there are at most.
WAITING, PIECE, THREADS = 1 << 16, 1 << 16, 100


class Server(http.server.ThreadingHTTPServer):
    def __init__(self, port: int, page: str, policy: str, arrivals: Arrivals) -> None:
        self.page, self.policy, self.arrivals = page.encode(), policy, arrivals
        self.token = secrets.token_urlsafe(16)
        super().__init__(("127.0.0.1", port), Handler)
        threading.Thread(target=self.serve_forever, args=(0.1,), daemon=True).start()

    def __exit__(self, *_: object) -> None:
        self.shutdown()
        self.server_close()

    @property
    def address(self) -> str:
        return f"http://127.0.0.1:{self.server_address[1]}/{self.token}/"

    def server_bind(self) -> None:
        # That of HTTPServer asks the network for the name of this machine.
        socketserver.TCPServer.server_bind(self)

    def verify_request(self, request: Any, client_address: Any) -> bool:
        return threading.active_count() < THREADS

    def handle_error(self, request: Any, client_address: Any) -> None:
        """A client that has gone is no error."""
        error = sys.exc_info()[1]
        if not isinstance(error, OSError):
            note(f"unexpected error: {type(error).__name__}: {error}; please report it")


class Handler(http.server.BaseHTTPRequestHandler):
    server: Server
    timeout = PATIENCE

    def do_GET(self) -> None:
        parts: dict[str, Callable[[], None]] = {"": self.send_page, "rows": self.send_rows}
        path = self.path.encode("latin-1", "replace")
        for name, send in parts.items():
            if hmac.compare_digest(path, f"/{self.server.token}/{name}".encode()) and self.is_for_loopback():
                return send()
        self.send_error(404)

    def is_for_loopback(self) -> bool:
        hosts: list[str] = self.headers.get_all("Host", [])
        return len(hosts) == 1 and LOOPBACK.fullmatch(hosts[0]) is not None

    def send_error(self, code: int, message: str | None = None, explain: str | None = None) -> None:
        """Whatever isn't served isn't found, whatever is wrong with the request."""
        self.begin(404, "text/plain", 0)

    def begin(self, status: int, kind: str, length: int | None) -> None:
        """Sends the head of a response. The connection ends with it."""
        self.close_connection = True
        self.send_response(status)
        for name, value in HEADERS.items():
            self.send_header(name, value)
        self.send_header("Content-Security-Policy", self.server.policy)
        self.send_header("Content-Type", f"{kind}; charset=utf-8")
        if length is not None:
            self.send_header("Content-Length", str(length))
        self.end_headers()

    def version_string(self) -> str:
        return "tilt-data"

    def log_message(self, format: str, *args: Any) -> None:
        """Requests aren't reported."""

    def send(self, data: bytes) -> None:
        """Sends bytes in pieces: a client has the time of its patience for each of them."""
        for at in range(0, len(data), PIECE):
            self.wfile.write(memoryview(data)[at : at + PIECE])

    def send_page(self) -> None:
        self.begin(200, "text/html", len(self.server.page))
        self.send(self.server.page)

    def send_rows(self) -> None:
        """Sends the rows that the client lacks, and then those that arrive. Nothing waits for a client but what is kept anyway: one that is
        slow gets more rows in one event."""
        self.connection.setsockopt(socket.SOL_SOCKET, socket.SO_SNDBUF, WAITING)
        given = self.headers.get("Last-Event-ID", "")
        number = int(given) if re.fullmatch("[0-9]{1,18}", given, re.ASCII) else 0
        self.server.arrivals.count_client(1)
        try:
            self.begin(200, "text/event-stream", None)
            self.send(b"retry: 1000\n\n")
            self.send_missed(number)
        finally:
            self.server.arrivals.count_client(-1)

    def send_missed(self, number: int) -> None:
        missed = self.server.arrivals.after(number, 0)
        self.send(event_of(missed))
        while missed.rows or not missed.ended:
            time.sleep(TOGETHER)
            missed = self.server.arrivals.after(missed.number, SILENCE)
            self.send(event_of(missed) if missed.rows else b":\n\n")
        self.send(b"event: end\ndata: end\n\n")


def event_of(missed: Missed) -> bytes:
    """The event that brings rows: its data are a line with the number of rows that aren't kept, and a line for each row."""
    return "".join([f"id: {missed.number}\n", *(f"data: {line}\n" for line in (missed.left_out, *missed.rows)), "\n"]).encode()
