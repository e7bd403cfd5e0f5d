"""The server of the page: who is let in, and what is sent.

It listens on 127.0.0.1, but other users of the machine and pages of other sites reach that too. So
a request needs the secret word: it comes once in the address, and then in a cookie that the browser
sends for this page alone. The server reads, and answers nothing but GET and HEAD.
"""
from __future__ import annotations

import hmac
import json
import secrets
import socket
import socketserver
import sys
from contextlib import suppress
from http.server import BaseHTTPRequestHandler, ThreadingHTTPServer
from pathlib import Path
from typing import Any, Callable, Dict, Mapping, NamedTuple, Optional, Tuple
from urllib.parse import SplitResult, parse_qs, urlsplit

from ..errors import Busy, Fault, told
from ..ui import shown
from .asking import Explorer
from .state import state_of

HOST = "127.0.0.1"
PAGE = Path(__file__).resolve().parent / "page"
# Debian's libjs-chart.js, in the names that it has had.
CHARTS = [
    Path("/usr/share/javascript/chart.js") / name for name in ("chart.min.js", "chart.umd.js")
]
HTML, CSS, SCRIPT = "text/html", "text/css", "text/javascript"
JSON, TEXT, CSV, SVG = "application/json", "text/plain", "text/csv", "image/svg+xml"
SCRIPTS = ("explore", "choices", "filters", "numbers", "page", "picture", "question", "table")
FILES = {
    "/": ("index.html", HTML),
    "/explore.css": ("explore.css", CSS),
    "/icon.svg": ("icon.svg", SVG),
    **{f"/{name}.js": (f"{name}.js", SCRIPT) for name in SCRIPTS},
}
POLICY = (
    "default-src 'none'; script-src 'self'; style-src 'self'; connect-src 'self';"
    " img-src 'self'; base-uri 'none'; form-action 'none'; frame-ancestors 'none';"
    " require-trusted-types-for 'script'"
)
HEADERS = {
    "Content-Security-Policy": POLICY,
    "X-Content-Type-Options": "nosniff",
    "Referrer-Policy": "no-referrer",
    "Cross-Origin-Resource-Policy": "same-origin",
    "Cross-Origin-Opener-Policy": "same-origin",
    "Cache-Control": "no-store",
}
IDLE = 30.0  # seconds after which a silent connection is closed
LEFT_OVER = 8 << 20  # bytes that are read of a request after it was refused


class Reply(NamedTuple):
    """What is sent for a request."""

    status: int
    body: bytes
    kind: str = TEXT
    more: Mapping[str, str] = {}


def said(status: int, text: str) -> Reply:
    """A reply that is a line."""
    return Reply(status, f"{text}\n".encode("utf-8", "backslashreplace"))


def of_json(value: object, status: int = 200) -> Reply:
    """A reply that the page reads."""
    return Reply(status, json.dumps(value).encode(), JSON)


class Server(ThreadingHTTPServer):
    """The server of a warehouse. A browser that the command opens gets another word than the user:
    other users may see it among the words of the browser, and it works once."""

    daemon_threads = True
    request_queue_size = 64

    def __init__(self, explorer: Explorer, port: int, charts: Optional[Path]) -> None:
        self.explorer, self.charts = explorer, charts
        self.word, self.once = secrets.token_urlsafe(18), secrets.token_urlsafe(18)
        self.cookie_word = secrets.token_urlsafe(18)
        super().__init__((HOST, port), Page)
        self.cookie = f"cube_explore_{self.server_port}"
        self.hosts = {f"{name}:{self.server_port}" for name in (HOST, "localhost")}

    def server_bind(self) -> None:
        """Takes the port. The name of this machine is not looked for, which may take seconds."""
        socketserver.TCPServer.server_bind(self)
        self.server_name, self.server_port = HOST, self.server_address[1]

    def address(self, word: str) -> str:
        """The address that lets a browser in."""
        return f"http://{HOST}:{self.server_port}/?word={word}"

    def lets_in(self, word: str) -> bool:
        """Whether a word of an address is right."""
        if is_same(word, self.once):
            self.once = secrets.token_urlsafe(18)
            return True
        return is_same(word, self.word)

    def handle_error(self, request: Any, client_address: Any) -> None:
        """Says what was wrong with the server; a browser that went away is no fault."""
        fault = sys.exc_info()[1]
        if not isinstance(fault, (ConnectionError, socket.timeout)):
            print(f"cube explore: a request failed: {fault!r}", file=sys.stderr)


def is_same(given: str, own: str) -> bool:
    """Whether two words are the same, in a time that does not tell where they differ."""
    return hmac.compare_digest(given.encode("utf-8", "surrogatepass"), own.encode())


def charts_there() -> Optional[Path]:
    """The file of Chart.js; None if it is not installed."""
    return next((path for path in CHARTS if path.is_file()), None)


class Page(BaseHTTPRequestHandler):
    """Answers the requests of a connection."""

    server: Server
    protocol_version = "HTTP/1.1"
    server_version, sys_version = "cube", ""
    timeout = IDLE

    def do_GET(self) -> None:
        """Answers a request."""
        self.send(self.reply())

    do_HEAD = do_GET

    def reply(self) -> Reply:
        """The reply to a request, whoever sent it."""
        if self.headers.get("Host") not in self.server.hosts:
            return said(421, "this address is not served here")
        if self.headers.get("Sec-Fetch-Site", "none") not in ("same-origin", "none"):
            return said(403, "another page asks for this: type or paste the address")
        try:
            parts = urlsplit(self.path)
            asked = parse_qs(parts.query, keep_blank_values=True, errors="surrogateescape")
        except ValueError:
            return said(400, "this is no address")
        words = {name: values[0] for name, values in asked.items()}
        if parts.path == "/" and "word" in words:
            return self.let_in(words["word"])
        if not is_same(self.cookie(), self.server.cookie_word):
            return said(403, "open the address that cube explore has printed")
        return self.reply_within(parts, words)

    def let_in(self, word: str) -> Reply:
        """The reply to whoever comes with a word."""
        if not self.server.lets_in(word):
            return said(403, "the word in the address is not right")
        cookie = f"{self.server.cookie}={self.server.cookie_word}"
        more = {"Location": "/", "Set-Cookie": f"{cookie}; HttpOnly; SameSite=Strict; Path=/"}
        return Reply(303, b"", TEXT, more)

    def cookie(self) -> str:
        """The value of the cookie, empty if there is none."""
        for part in self.headers.get("Cookie", "").split(";"):
            name, _, value = part.strip().partition("=")
            if name == self.server.cookie:
                return value
        return ""

    def reply_within(self, parts: SplitResult, words: Dict[str, str]) -> Reply:
        """The reply to whoever was let in."""
        if parts.path in FILES:
            name, kind = FILES[parts.path]
            return of_file(PAGE / name, kind)
        if parts.path == "/chart.js":
            charts = self.server.charts
            return of_file(charts, SCRIPT) if charts else said(404, "Chart.js is not installed")
        if parts.path == "/state.json":
            return of_json(state_of(self.server.explorer.folder))
        if parts.path not in ASKED:
            return said(404, "there is no such page")
        word, made = ASKED[parts.path]
        if word not in words:
            return of_json({"fault": f"the address has no `{word}`"}, 400)
        return self.of_question(made, words[word])

    def of_question(self, made: Callable[[Explorer, str], Reply], text: str) -> Reply:
        """The reply to a question."""
        try:
            return made(self.server.explorer, text)
        except Busy as busy:
            return of_json({"busy": str(busy)}, 503)
        except (Fault, OSError, ValueError) as fault:
            words = told(fault) if isinstance(fault, (Fault, OSError)) else str(fault)
            return of_json({"fault": "\n".join(map(shown, words.split("\n")))}, 400)

    def send(self, reply: Reply) -> None:
        """Sends a reply."""
        charset = "" if reply.kind == SVG else "; charset=utf-8"
        self.send_response(reply.status)
        headers = {**HEADERS, "Content-Type": reply.kind + charset, **reply.more}
        for name, value in {**headers, "Content-Length": str(len(reply.body))}.items():
            self.send_header(name, value)
        if self.close_connection:
            self.send_header("Connection", "close")
        self.end_headers()
        if self.command != "HEAD":
            self.wfile.write(reply.body)

    def send_error(
        self, code: int, message: Optional[str] = None, explain: Optional[str] = None
    ) -> None:
        """Refuses what is no request to be answered, and reads what is left of it: if the rest
        stayed unread, the browser would see a broken connection and no reply."""
        self.close_connection = True
        allowed = {"Allow": "GET, HEAD"} if code == 501 else {}
        code = 405 if code == 501 else code
        reply = said(code, message or self.responses[code][0])
        self.command = "GET"  # It has none if its first line cannot be read.
        self.send(reply._replace(more=allowed))
        self.drain()

    def drain(self) -> None:
        """Reads what is left of a request that is refused."""
        left = LEFT_OVER
        with suppress(OSError):
            self.wfile.flush()
            self.connection.shutdown(socket.SHUT_WR)
            self.connection.settimeout(1)
            while left > 0 and (piece := self.connection.recv(1 << 16)):
                left -= len(piece)

    def log_message(self, *_: Any) -> None:
        """Says nothing."""


def of_file(path: Path, kind: str) -> Reply:
    """A reply that is a file."""
    try:
        return Reply(200, path.read_bytes(), kind)
    except OSError as error:
        return said(404, told(error))


def of_csv(explorer: Explorer, text: str) -> Reply:
    """An answer as a file of csv."""
    more = {"Content-Disposition": 'attachment; filename="answer.csv"'}
    return Reply(200, explorer.csv(text), CSV, more)


# What is asked of the warehouse: the word of the address that it needs, and what answers it.
ASKED: Dict[str, Tuple[str, Callable[[Explorer, str], Reply]]] = {
    "/answer.json": ("slice", lambda explorer, text: of_json(explorer.answer(text))),
    "/pages.json": ("slice", lambda explorer, text: of_json(explorer.pages(text))),
    "/values.json": ("name", lambda explorer, name: of_json(explorer.values(name))),
    "/answer.csv": ("slice", of_csv),
}
