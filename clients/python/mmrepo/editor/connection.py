"""One connection of a browser: its requests are checked and answered. The address of the page has the token of the server."""

from __future__ import annotations

import json
import secrets
import socket
import time
from http import HTTPStatus
from http.server import BaseHTTPRequestHandler
from typing import TYPE_CHECKING, Any, Dict, NamedTuple, Optional
from urllib.parse import parse_qs, urlsplit

from ..errors import MmrepoError, Refused
from .calls import BadCall, answer
from .edits import NotDone

if TYPE_CHECKING:
    from .server import Server

LONGEST = 24_000_000  # the most bytes of a body: a document as long as the longest line, in base64
SECONDS = 10  # seconds that a request may take to arrive, and an answer to be read
BEAT = 15  # seconds between two signs of life in a stream of events
DRAINED = 256_000_000  # bytes of a refused body that are read, so that the answer is seen
HEADERS = {
    'Cache-Control': 'no-store',
    'Content-Security-Policy': "default-src 'none'; script-src 'self'; style-src 'self'; img-src 'self' data:; connect-src 'self'; "
                               "base-uri 'none'; form-action 'none'; frame-ancestors 'none'",
    'Cross-Origin-Opener-Policy': 'same-origin',
    'Cross-Origin-Resource-Policy': 'same-origin',
    'Referrer-Policy': 'no-referrer',
    'X-Content-Type-Options': 'nosniff',
}


class Wrong(NamedTuple):
    """Why a request is not answered."""

    status: HTTPStatus
    text: str


class Connection(BaseHTTPRequestHandler):
    """Answers the requests of one connection."""

    server: Server
    protocol_version = 'HTTP/1.1'
    server_version, sys_version = 'mmrepo', ''
    timeout = SECONDS + 5  # of the socket; a request that takes more than SECONDS to arrive is ended by the server, which says so
    wbufsize = -1  # so that an answer is one write
    disable_nagle_algorithm = True
    _is_first = True

    def handle_one_request(self) -> None:
        """Answers a request. The server ends a request that does not arrive in time."""
        self.server.begin(self.connection, self._is_first)
        self._is_first = False
        try:
            super().handle_one_request()
        except (ConnectionError, socket.timeout):
            self.close_connection = True

    def parse_request(self) -> bool:
        """Reads the head of a request, and checks its sender and its target."""
        if not super().parse_request():
            return False
        wrong = self._wrong()
        if wrong is not None:
            self._refuse(wrong)
        return wrong is None

    def handle_expect_100(self) -> bool:
        """Asks for a body only if the request is right."""
        wrong = self._wrong()
        if wrong is not None:
            self.send_error(*wrong)
            return False
        return super().handle_expect_100()

    # What is checked

    def _wrong(self) -> Optional[Wrong]:
        """What is wrong with the head of a request."""
        hosts = {f'127.0.0.1:{self.server.server_port}', f'localhost:{self.server.server_port}'}
        if self.headers.get('Host') not in hosts or len(self.headers.get_all('Host', [])) != 1:
            return Wrong(HTTPStatus.MISDIRECTED_REQUEST, 'this is not the Host of the editor')
        if self.headers.get('Origin', '') not in {'', *(f'http://{host}' for host in hosts)}:
            return Wrong(HTTPStatus.FORBIDDEN, 'a page of a different origin may not ask the editor')
        if self.headers.get('Sec-Fetch-Site', 'none') not in ('none', 'same-origin'):
            return Wrong(HTTPStatus.FORBIDDEN, 'a page of a different site may not ask the editor')
        token = urlsplit(self.path).path.split('/')[1:2]
        if not secrets.compare_digest(''.join(token).encode('utf-8', 'replace'), self.server.token.encode()):
            return Wrong(HTTPStatus.FORBIDDEN, 'the token is wrong: open the address that the editor printed')
        return self._wrong_body() if self.command == 'POST' else None

    def _wrong_body(self) -> Optional[Wrong]:
        """What is wrong with the headers of a body."""
        length = self.headers.get('Content-Length', '')
        if 'Transfer-Encoding' in self.headers or not (length.isascii() and length.isdigit()):
            return Wrong(HTTPStatus.LENGTH_REQUIRED, 'a body needs a Content-Length')
        if len(length) > 18 or int(length) > LONGEST:
            return Wrong(HTTPStatus.REQUEST_ENTITY_TOO_LARGE, f'a body has at most {LONGEST} bytes')
        if self.headers.get_content_type() != 'application/json':
            return Wrong(HTTPStatus.UNSUPPORTED_MEDIA_TYPE, 'a body is application/json')
        return None

    def _refuse(self, wrong: Wrong) -> None:
        """Answers what is wrong, and still reads the rest of the request: otherwise the answer may be lost with the connection."""
        self.send_error(*wrong)
        self.wfile.flush()
        self.server.ready(self.connection)
        try:
            self.connection.shutdown(socket.SHUT_WR)
            end, size = time.monotonic() + SECONDS, 0
            self.connection.settimeout(1)
            while size < DRAINED and time.monotonic() < end:
                data = self.connection.recv(1_000_000)
                if not data:
                    break
                size += len(data)
        except OSError:
            pass  # nobody is there any more

    # Answers

    def do_GET(self) -> None:
        """The files of the page, and the events."""
        self.server.ready(self.connection)
        address = urlsplit(self.path)
        name = address.path.split('/', 2)[2] if address.path.count('/') > 1 else None
        if name is None:
            self._send(HTTPStatus.MOVED_PERMANENTLY, 'text/plain', b'', {'Location': f'/{self.server.token}/'})
        elif name == 'events':
            self._events(parse_qs(address.query).get('after', ['']))
        elif (name or 'index.html') in self.server.page:
            self._send(HTTPStatus.OK, *self.server.page[name or 'index.html'])
        else:
            self.send_error(HTTPStatus.NOT_FOUND, 'there is no such page')

    def do_POST(self) -> None:
        """A call of a window."""
        body = self.rfile.read(int(self.headers['Content-Length']))
        self.server.ready(self.connection)
        if self.path != f'/{self.server.token}/call':
            self.send_error(HTTPStatus.NOT_FOUND, 'there is no such call')
            return
        try:
            self._json(HTTPStatus.OK, answer(self.server.model, json.loads(body)))
        except NotDone as refused:
            self._json(HTTPStatus.CONFLICT, {'refused': refused.name, 'text': refused.text})
        except BadCall as bad:
            self.send_error(HTTPStatus.BAD_REQUEST, str(bad))
        except (ValueError, RecursionError):
            self.send_error(HTTPStatus.BAD_REQUEST, 'the body is no JSON')
        except Refused as refused:
            self._json(HTTPStatus.CONFLICT, {'refused': refused.name, 'text': str(refused)})
        except MmrepoError as error:
            self._json(HTTPStatus.INTERNAL_SERVER_ERROR, {'refused': 'ENDED', 'text': f'the model is closed: {error}'})

    def _json(self, status: HTTPStatus, content: Any) -> None:
        """Answers JSON."""
        self._send(status, 'application/json', json.dumps(content, separators=(',', ':')).encode())

    def _send(self, status: HTTPStatus, kind: str, content: bytes, more: Optional[Dict[str, str]] = None) -> None:
        """Sends an answer with a content."""
        self.send_response(status)
        for name, value in {**HEADERS, 'Content-Type': kind, 'Content-Length': str(len(content)), **(more or {})}.items():
            self.send_header(name, value)
        self.end_headers()
        self.wfile.write(content)

    def send_error(self, code: int, message: Optional[str] = None, explain: Optional[str] = None) -> None:
        """Answers what is wrong as JSON, and ends the connection."""
        text = json.dumps({'refused': HTTPStatus(code).name, 'text': message or HTTPStatus(code).phrase})
        self.close_connection = True
        if self.request_version == 'HTTP/0.9':  # the version has this value if the first line is not understood
            self.request_version = 'HTTP/1.0'
        self._send(HTTPStatus(code), 'application/json', text.encode() + b'\n', {'Connection': 'close'})

    def _events(self, after: Any) -> None:
        """The events after the last event of the window, until it stops listening."""
        since = self.headers.get('Last-Event-ID') or after[0]
        if not (since.isascii() and since.isdigit() and len(since) < 18):
            self.send_error(HTTPStatus.BAD_REQUEST, 'after is the number of an event')
        elif not self.server.listens(1):
            self.send_error(HTTPStatus.SERVICE_UNAVAILABLE, 'too many windows are open: close one, and load this one again')
        else:
            try:
                self._stream(int(since))
            finally:
                self.server.listens(-1)

    def _stream(self, sent: int) -> None:
        """Sends events as they come, and now and then a sign of life."""
        self.close_connection = True
        self.send_response(HTTPStatus.OK)
        for name, value in {**HEADERS, 'Content-Type': 'text/event-stream', 'Connection': 'close'}.items():
            self.send_header(name, value)
        self.end_headers()
        self.wfile.write(b'retry: 1000\n\n')
        while True:
            self.wfile.flush()
            events = self.server.model.events.after(sent, BEAT)
            if events is None:
                self.wfile.write(b'' if self.server.model.events.is_over else b'event: lost\ndata: 0\n\n')
                break
            for sent, text in events:
                self.wfile.write(f'id: {sent}\ndata: {text}\n\n'.encode())
            if not events:
                self.wfile.write(b': still here\n\n')

    def log_message(self, format: str, *args: Any) -> None:
        """Prints nothing: the address has the token."""
