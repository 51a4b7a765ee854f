"""The desk over HTTP, on the loopback address alone.

Each request needs the token, which is a part of the path, and the Host of this server. A request that changes something needs the Origin
of this server too, and JSON of bounded length. So another page in the same browser can neither read nor change anything here, nor can a
program of another user that does not know the token.
"""

from __future__ import annotations

import hmac
import json
import os
import secrets
import sys
import threading
from http.server import BaseHTTPRequestHandler, ThreadingHTTPServer
from typing import Any
from urllib.parse import parse_qs, urlsplit

from ..answers import RunEnded
from ..json_text import NotJson, read_json

ADDRESS = "127.0.0.1"
NAMES = (ADDRESS, "localhost")
SIDES = ("left", "right")
CALLS = ("edit", "patch", "undo", "redo", "load")
MOST_BODY = 1_200_000
MOST_STREAMS = 64
MOST_CONNECTIONS = 256
STRANGER_PATIENCE = 30
"""How many seconds a connection that has not shown the token yet may be silent. Later it has PATIENCE seconds.

A browser on a busy machine is silent for many seconds, too. Where a connection is closed before its first request, Chromium does not ask
again, and the page stays without that part.
"""
PATIENCE = 60
STREAM_PAUSE = 10
PAGE = os.path.join(os.path.dirname(os.path.abspath(__file__)), "page")
KINDS = {".html": "text/html", ".css": "text/css", ".js": "text/javascript"}
HEADERS = {
    "Content-Security-Policy": "default-src 'none'; script-src 'self'; style-src 'self'; connect-src 'self'; img-src data:; "
    "base-uri 'none'; form-action 'none'; frame-ancestors 'none'",
    "X-Content-Type-Options": "nosniff",
    "Referrer-Policy": "no-referrer",
    "Cross-Origin-Opener-Policy": "same-origin",
    "Cross-Origin-Resource-Policy": "same-origin",
    "Cache-Control": "no-store",
}


class BadRequest(Exception):
    """A request that is refused: the status of HTTP and why."""

    def __init__(self, status: int, why: str) -> None:
        super().__init__(why)
        self.status = status


class DeskDied(Exception):
    """A thread of the desk ended by a fault of its own."""


class DeskServer(ThreadingHTTPServer):
    """The server of one desk or replay. `url` is where its page is. `serve_forever` raises DeskDied where a thread ends by a fault."""

    daemon_threads = True

    def __init__(self, desk: Any, port: int = 0) -> None:
        super().__init__((ADDRESS, port), _Handler)
        self.desk, self.token = desk, secrets.token_urlsafe(24)
        self.streams = 0
        self.death: BaseException | None = None
        self.free = threading.BoundedSemaphore(MOST_CONNECTIONS)
        self.files = {name: _read(os.path.join(PAGE, name)) for name in sorted(os.listdir(PAGE)) if os.path.splitext(name)[1] in KINDS}

    @property
    def hosts(self) -> list[str]:
        """The hosts that a request may name."""
        return [f"{it}:{self.server_port}" for it in NAMES]

    @property
    def url(self) -> str:
        """The address of the page, with its token."""
        return f"http://{self.hosts[0]}/{self.token}/"

    def process_request(self, request: Any, client_address: Any) -> None:
        """Answers a connection in a thread, and closes one above the most that may be open."""
        if not self.free.acquire(blocking=False):
            self.shutdown_request(request)
            return
        try:
            super().process_request(request, client_address)
        except BaseException:
            self.free.release()
            raise

    def process_request_thread(self, request: Any, client_address: Any) -> None:
        """The thread of a connection."""
        try:
            super().process_request_thread(request, client_address)
        finally:
            self.free.release()

    def handle_error(self, request: Any, client_address: Any) -> None:
        """A window that went away in the middle of an answer is no fault. Anything else ends the desk."""
        why = sys.exc_info()[1]
        if not isinstance(why, OSError):
            self.death = why

    def service_actions(self) -> None:
        """Ends the desk where a thread has died: what its page would show from then on may be old, and nothing would say so."""
        why = self.death or self.desk.death
        if why:
            raise DeskDied(f"a part of the desk has failed: {type(why).__name__}: {why}")


def _read(path):
    with open(path, "rb") as file:
        return file.read()


class _Handler(BaseHTTPRequestHandler):
    protocol_version = "HTTP/1.1"
    server_version, sys_version = "editlens-desk", ""
    timeout = STRANGER_PATIENCE

    def do_GET(self):
        """The page, its state, and the stream of news."""
        self._answered(self._get)

    def do_POST(self):
        """A call that changes or asks something."""
        self._answered(self._post)

    def log_message(self, format, *args):
        """Nothing is logged: the token is in each line."""

    def _answered(self, call):
        try:
            call(self._checked())
        except BadRequest as why:
            self.close_connection = True
            self._send(why.status, "text/plain", f"{why}\n".encode())

    def _checked(self):
        """The path behind the token, of a request that may be answered."""
        if self.headers.get_all("Host", []) not in [[it] for it in self.server.hosts]:
            raise BadRequest(403, "the Host is not this server")
        origins = self.headers.get_all("Origin", [])
        if len(origins) > 1 or not set(origins) <= set(self._origins()):
            raise BadRequest(403, "the Origin is another page")
        parts = urlsplit(self.path).path.split("/", 2)
        if len(parts) != 3 or not hmac.compare_digest(parts[1].encode(), self.server.token.encode()):
            raise BadRequest(403, "the token is missing or wrong: use the address that tools/desk printed")
        self.connection.settimeout(PATIENCE)
        return parts[2]

    def _origins(self):
        return [f"http://{it}" for it in self.server.hosts]

    def _get(self, path):
        desk, name = self.server.desk, path or "desk.html"
        if path == "state":
            step, view, *known = (self._number(it) for it in ("step", "view", "session", "version", "complement"))
            self._send_json(desk.state(step or 0, known, view))
        elif path == "file":
            self._send_file(parse_qs(urlsplit(self.path).query).get("side", [""])[0])
        elif path == "events":
            self._stream()
        elif name in self.server.files:
            kind = KINDS[os.path.splitext(name)[1]]
            self._send(200, f"{kind}; charset=utf-8", self.server.files[name])
        else:
            raise BadRequest(404, "there is no such page")

    def _number(self, name):
        """A number of the query, or None where there is none."""
        text = parse_qs(urlsplit(self.path).query).get(name, [""])[0]
        return int(text) if text.isascii() and text.isdigit() and len(text) < 10 else None

    def _post(self, path):
        if "Origin" not in self.headers:
            raise BadRequest(403, "the Origin is missing")
        body, desk = self._body(), self.server.desk
        if path == "check":
            self._send_json(self._judged(_member(body, "program", str)))
            return
        if path not in CALLS or not desk.can_edit or path == "patch" and not hasattr(desk, "patch"):
            raise BadRequest(404, "there is no such call")
        base = _member(body, "base", int)
        if path in ("undo", "redo"):
            said = getattr(desk, path)(base)
        elif path == "load":
            said = desk.load(base, _member(body, "program", str))
        else:
            said = self._edited(path, base, body)
        self._send_json(said)

    def _edited(self, path, base, body):
        """What comes of an edit of a document, or of a patch of a file."""
        side = _member(body, "side", str)
        if side not in SIDES or path == "edit" and "edit" not in body:
            raise BadRequest(400, 'an edit wants "side", "left" or "right", and "edit"')
        if path == "patch":
            return self.server.desk.patch(base, side, _member(body, "patch", str), _member(body, "drop", bool))
        name = self.server.desk.place(side, body.get("view"))
        if name is None:
            raise BadRequest(400, 'an edit of a view wants "view", the number of one')
        return self.server.desk.edit(base, name, body["edit"])

    def _send_file(self, side):
        """The user's file of a side, where the desk knows a form file."""
        found = self.server.desk.file(side) if side in SIDES else None
        if found is None:
            raise BadRequest(404, "there is no file of this side")
        self._send_json(found)

    def _judged(self, text):
        try:
            return self.server.desk.check(text)
        except (RunEnded, RecursionError) as why:
            raise BadRequest(400, f"the program cannot be checked: {why}") from None

    def _body(self):
        if self.headers.get_content_type() != "application/json":
            raise BadRequest(415, "JSON is wanted")
        length = self.headers.get("Content-Length", "")
        if "Transfer-Encoding" in self.headers or not (length.isascii() and length.isdigit() and len(length) < 10):
            raise BadRequest(411, "a Content-Length is wanted")
        if int(length) > MOST_BODY:
            raise BadRequest(413, f"at most {MOST_BODY:,} bytes are read")
        try:
            body = read_json(self.rfile.read(int(length)).decode())
        except (NotJson, UnicodeDecodeError) as why:
            raise BadRequest(400, f"the body is not JSON: {why}") from None
        if not isinstance(body, dict):
            raise BadRequest(400, "the body is not an object")
        return body

    def _stream(self):
        """News as server-sent events: a number that is another one after each change."""
        server = self.server
        if server.streams >= MOST_STREAMS:
            raise BadRequest(503, "too many windows are open")
        server.streams += 1
        try:
            self.close_connection = True
            self._head(200, "text/event-stream", {"Connection": "close"})
            signal = -1
            while True:
                now = server.desk.wait(signal, STREAM_PAUSE)
                self.wfile.write(f"data: {now}\n\n".encode() if now != signal else b": nothing new\n\n")
                self.wfile.flush()
                signal = now
        except OSError:
            pass
        finally:
            server.streams -= 1

    def _send_json(self, tree):
        self._send(200, "application/json", json.dumps(tree, ensure_ascii=False, separators=(",", ":")).encode())

    def _send(self, status, kind, body):
        self._head(status, kind, {"Content-Length": str(len(body))})
        self.wfile.write(body)

    def _head(self, status, kind, more):
        self.send_response(status)
        for name, value in {"Content-Type": kind, **HEADERS, **more}.items():
            self.send_header(name, value)
        self.end_headers()


def _member(body, name, kind):
    if type(body.get(name)) is not kind:
        raise BadRequest(400, f'the member "{name}" is missing or of another kind')
    return body[name]
