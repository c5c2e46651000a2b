"""Requests over HTTP: who may ask, how much, and which call answers.

Anyone who may read the page may ask. Only the page itself may change anything: a change is posted as JSON, with the token that the page was given and with
the Origin header of this server. Whatever else comes gets a status, words that say what is wrong, and changes nothing.
"""

from __future__ import annotations

import base64
import hmac
import json
import secrets
import socket
import sys
import threading
import time
from collections.abc import Callable
from http import HTTPStatus
from http.server import BaseHTTPRequestHandler, ThreadingHTTPServer
from typing import Any
from urllib.parse import parse_qsl, urlsplit

from ..drawing import TooMuch
from ..kept import NotKept
from ..refusal import Refusal
from ..shell.words import Fault
from .desk import Changed, Desk, RefusedLine
from .routes import GET, POST, Reply

MOST_BYTES = 256 << 10
"""The most bytes that may be posted."""
MOST_ADDRESS = 4096
"""The most characters of an address."""
MOST_FIELDS = 20
MOST_CLIENTS = 64
"""The most requests at one time; one more is told to come again."""
_SECONDS = 20
# How long a request may take to come, whole.
_COMES = 40.0
# How much is read of what is not wanted, and for how long.
_UNREAD = 1 << 20
_DRAIN = 1.0
# How long a wrong password waits.
_WRONG = 0.5
_HEADERS = {
    "Cache-Control": "no-store",
    "X-Content-Type-Options": "nosniff",
    "X-Frame-Options": "DENY",
    "Referrer-Policy": "no-referrer",
    "Cross-Origin-Resource-Policy": "same-origin",
    "Cross-Origin-Opener-Policy": "same-origin",
    "Content-Security-Policy": "default-src 'none'; script-src 'self'; style-src 'self'; img-src 'self' data:; connect-src 'self'; base-uri 'none'; "
    "form-action 'none'; frame-ancestors 'none'",
}


class Denied(Exception):
    """A request that is not answered: its status, and why."""

    def __init__(self, status: HTTPStatus, words: str) -> None:
        super().__init__(words)
        self.status = status


class Server(ThreadingHTTPServer):
    """The server of one desk."""

    daemon_threads = True
    request_queue_size = 128

    def __init__(self, address: tuple[str, int], desk: Desk, password: str = "") -> None:
        self.desk, self.password = desk, password
        self.token = secrets.token_urlsafe(24)
        self._places = threading.BoundedSemaphore(MOST_CLIENTS)
        super().__init__(address, Handler)
        self.local = address[0].startswith("127.") or address[0] == "localhost"

    def process_request(self, request: Any, client_address: Any) -> None:
        if not self._places.acquire(blocking=False):
            request.settimeout(1)
            try:
                request.sendall(b"HTTP/1.0 503 Service Unavailable\r\nRetry-After: 1\r\nContent-Type: text/plain\r\n\r\ntoo many requests at once\n")
            except OSError:
                pass
            return self.shutdown_request(request)
        super().process_request(request, client_address)

    def process_request_thread(self, request: Any, client_address: Any) -> None:
        try:
            super().process_request_thread(request, client_address)
        finally:
            self._places.release()

    def handle_error(self, request: Any, client_address: Any) -> None:
        error = sys.exc_info()[1]
        if not isinstance(error, (ConnectionError, TimeoutError, socket.timeout)):
            print(f"dating.page: a request failed: {type(error).__name__}: {error}", file=sys.stderr)


class Handler(BaseHTTPRequestHandler):
    """One request."""

    server: Server
    server_version, sys_version = "dating.page", ""
    # A first line that cannot be read is answered with a status too.
    default_request_version = "HTTP/1.0"
    timeout = _SECONDS

    def setup(self) -> None:
        super().setup()
        # Whoever sends a byte now and then is let go too.
        self.late = threading.Timer(_COMES, self.let_go)
        self.late.daemon = True
        self.late.start()

    def let_go(self) -> None:
        try:
            self.connection.shutdown(socket.SHUT_RDWR)
        except OSError:
            pass

    def finish(self) -> None:
        self.late.cancel()
        super().finish()

    def do_GET(self) -> None:
        self.answered(GET, self.query)

    do_HEAD = do_GET

    def do_POST(self) -> None:
        self.answered(POST, self.posted)

    def answered(self, routes: dict[str, Callable[..., Reply]], given: Callable[[], dict[str, Any]]) -> None:
        try:
            path = self.allowed()
            if path not in routes:
                other = GET if routes is POST else POST
                if path in other:
                    raise Denied(HTTPStatus.METHOD_NOT_ALLOWED, f"{path} is asked by {'GET' if routes is POST else 'POST'}")
                raise Denied(HTTPStatus.NOT_FOUND, "there is nothing at this address")
            asked = given()
            self.late.cancel()
            reply = routes[path](self.server, asked)
        except Denied as denied:
            reply = Reply.told(denied.status, error=str(denied), kind="denied")
        except RefusedLine as refused:
            words = {"place": refused.place, "number": refused.number, "line": refused.place + 1}
            reply = Reply.told(HTTPStatus.CONFLICT, error=refused.words, kind="refused line", **words)
        except Changed as changed:
            reply = Reply.told(HTTPStatus.CONFLICT, error=str(changed), kind="changed")
        except Refusal as refusal:
            reply = Reply.told(HTTPStatus.UNPROCESSABLE_ENTITY, error=refusal.meaning, kind="refused", number=refusal.number, mark=refusal.mark)
        except (Fault, TooMuch) as fault:
            reply = Reply.told(HTTPStatus.BAD_REQUEST, error=str(fault), kind="fault")
        except NotKept as error:
            reply = Reply.told(HTTPStatus.INTERNAL_SERVER_ERROR, error=str(error), kind="not kept")
        except (ConnectionError, TimeoutError, socket.timeout):
            raise
        except Exception as error:
            print(f"dating.page: {type(error).__name__}: {error}", file=sys.stderr)
            reply = Reply.told(HTTPStatus.INTERNAL_SERVER_ERROR, error=f"the server failed ({type(error).__name__}); this is no answer", kind="failed")
        self.send(reply)
        self.drain()

    def drain(self) -> None:
        """Reads what was sent and not looked at, within bounds: a connection that is closed over unread bytes may lose the answer."""
        self.wfile.flush()
        left, end = _UNREAD, time.monotonic() + _DRAIN
        self.connection.settimeout(_DRAIN)
        try:
            self.connection.shutdown(socket.SHUT_WR)
            while left > 0 and time.monotonic() < end and (part := self.connection.recv(65536)):
                left -= len(part)
        except OSError:
            pass

    # Who may ask

    def allowed(self) -> str:
        """The path, if this request may be looked at at all."""
        if len(self.path) > MOST_ADDRESS:
            raise Denied(HTTPStatus.REQUEST_URI_TOO_LONG, f"the address has over {MOST_ADDRESS:,} characters")
        host = self.headers.get("Host", "")
        if self.server.local and host not in self.hosts():
            raise Denied(HTTPStatus.FORBIDDEN, f"this server answers to {self.hosts()[0]} alone")
        origin = self.headers.get("Origin")
        if origin is not None and origin not in self.origins(host):
            raise Denied(HTTPStatus.FORBIDDEN, "only the page of this server may ask it: the Origin is another one")
        self.known()
        path = urlsplit(self.path).path
        if path != "/" and self.headers.get("Sec-Fetch-Site", "none") not in ("none", "same-origin"):
            raise Denied(HTTPStatus.FORBIDDEN, "only the page of this server may ask it: another site did")
        return path

    def hosts(self) -> list[str]:
        port = self.server.server_port
        return [f"127.0.0.1:{port}", f"localhost:{port}"] + (["127.0.0.1", "localhost"] if port == 80 else [])

    def origins(self, host: str) -> list[str]:
        return [f"http://{name}" for name in self.hosts()] if self.server.local else [f"http://{host}", f"https://{host}"]

    def known(self) -> None:
        """That the password is right, where there is one."""
        if not self.server.password:
            return
        kind, _, given = self.headers.get("Authorization", "").partition(" ")
        try:
            word = base64.b64decode(given, validate=True).decode().partition(":")[2] if kind.lower() == "basic" else ""
        except ValueError:
            word = ""
        if not hmac.compare_digest(word.encode(), self.server.password.encode()):
            if given:
                time.sleep(_WRONG)
            raise Denied(HTTPStatus.UNAUTHORIZED, "the password is asked for; any name will do")

    # What is given

    def query(self) -> dict[str, Any]:
        """The fields of an address."""
        try:
            found = parse_qsl(urlsplit(self.path).query, keep_blank_values=True, strict_parsing=False, max_num_fields=MOST_FIELDS, errors="strict")
        except ValueError:
            raise Denied(HTTPStatus.BAD_REQUEST, f"the fields of the address cannot be read: they are UTF-8, and at most {MOST_FIELDS}") from None
        if len(dict(found)) != len(found):
            raise Denied(HTTPStatus.BAD_REQUEST, "a field stands twice in the address")
        return dict(found)

    def posted(self) -> dict[str, Any]:
        """What the page has posted: an object in JSON."""
        if self.headers.get("Origin") is None:
            raise Denied(HTTPStatus.FORBIDDEN, "a change is posted by the page of this server: there is no Origin header")
        if not hmac.compare_digest(self.headers.get("X-Dating-Token", "").encode(), self.server.token.encode()):
            raise Denied(HTTPStatus.FORBIDDEN, "the token is not this server's: the page was loaded before it was started; nothing is done")
        if self.headers.get("Content-Type", "").partition(";")[0].strip().lower() != "application/json":
            raise Denied(HTTPStatus.UNSUPPORTED_MEDIA_TYPE, "a change is posted as application/json")
        length = self.headers.get("Content-Length", "")
        if self.headers.get("Transfer-Encoding") or not (length.isascii() and length.isdigit()):
            raise Denied(HTTPStatus.LENGTH_REQUIRED, "the length of what is posted must be told")
        if len(length) > 9 or int(length) > MOST_BYTES:
            raise Denied(HTTPStatus.REQUEST_ENTITY_TOO_LARGE, f"at most {MOST_BYTES:,} bytes are taken at once")
        body = self.rfile.read(int(length))
        if len(body) < int(length):
            raise Denied(HTTPStatus.BAD_REQUEST, "less was posted than was told")
        try:
            given = json.loads(body.decode("utf-8"))
        except (ValueError, RecursionError):
            raise Denied(HTTPStatus.BAD_REQUEST, "what was posted is no JSON") from None
        if not isinstance(given, dict):
            raise Denied(HTTPStatus.BAD_REQUEST, "what is posted is an object")
        return given

    # What is sent

    def send(self, reply: Reply) -> None:
        self.send_response(reply.status)
        for name, value in {**_HEADERS, **reply.headers, "Content-Type": reply.kind, "Content-Length": str(len(reply.body))}.items():
            self.send_header(name, value)
        if reply.status == HTTPStatus.UNAUTHORIZED:
            self.send_header("WWW-Authenticate", 'Basic realm="dating register", charset="UTF-8"')
        self.end_headers()
        if self.command != "HEAD":
            self.wfile.write(reply.body)

    def send_error(self, code: int, message: str | None = None, explain: str | None = None) -> None:
        """For what is no request that this server knows: as everything else, in words."""
        words = "this method is not known here" if code == HTTPStatus.NOT_IMPLEMENTED else "this is no request that can be read"
        self.command = self.command or ""
        self.send(Reply.told(HTTPStatus(code), error=words, kind="denied"))

    def log_message(self, format: str, *args: Any) -> None:
        pass
