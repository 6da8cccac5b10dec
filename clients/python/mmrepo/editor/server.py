"""The server: it takes connections only from this machine, a limited number of them, and none that lasts for ever."""

from __future__ import annotations

import json
import secrets
import socket
import sys
import threading
import time
from http.server import ThreadingHTTPServer
from pathlib import Path
from typing import Any, Dict, Tuple

from .connection import SECONDS, Connection
from .model import Model

HOST = '127.0.0.1'
CONNECTIONS = 200  # the most open connections
WINDOWS = 5  # the most windows that get events: a browser opens six connections to a server, and one of them is for calls
KINDS = {'.html': 'text/html; charset=utf-8', '.css': 'text/css; charset=utf-8', '.mjs': 'text/javascript; charset=utf-8',
         '.svg': 'image/svg+xml'}


class Server(ThreadingHTTPServer):
    """Serves the page of a model to everybody who knows the token."""

    daemon_threads = True
    request_queue_size = 200

    def __init__(self, model: Model, port: int) -> None:
        """Opens a port; 0 stands for any free one. Raises an OSError if the port is not free."""
        super().__init__((HOST, port), Connection)
        self.model = model
        self.token = secrets.token_urlsafe(24)
        self.page = read_page()
        self._lock = threading.Lock()
        # The connections whose request has not arrived: until when it may arrive, and whether it is the connection's first request.
        self._coming: Dict[socket.socket, Tuple[float, bool]] = {}
        self._open = self._listening = 0

    @property
    def address(self) -> str:
        """The address of the page."""
        return f'http://{HOST}:{self.server_port}/{self.token}/'

    # Connections

    def process_request(self, request: Any, client_address: Any) -> None:
        """Answers a connection in its own thread. A connection beyond the limit gets an answer that says so."""
        with self._lock:
            is_taken = self._open < CONNECTIONS
            self._open += is_taken
        if is_taken:
            super().process_request(request, client_address)
            return
        _say(request, '503 Service Unavailable', 'BUSY', 'too many connections are open')
        super().shutdown_request(request)

    def process_request_thread(self, request: Any, client_address: Any) -> None:
        """Counts a connection until it ends."""
        try:
            super().process_request_thread(request, client_address)
        finally:
            self.ready(request)
            with self._lock:
                self._open -= 1

    def begin(self, connection: socket.socket, is_first: bool) -> None:
        """Notes that a connection waits for a request."""
        with self._lock:
            self._coming[connection] = time.monotonic() + SECONDS, is_first

    def ready(self, connection: socket.socket) -> None:
        """Notes that the request of a connection has arrived."""
        with self._lock:
            self._coming.pop(connection, None)

    def service_actions(self) -> None:
        """Ends the connections whose requests do not arrive. A connection that had an answer before is ended silently, since a
        browser keeps it for a request that may never come.
        """
        now = time.monotonic()
        with self._lock:
            late = [(it, is_first) for it, (end, is_first) in self._coming.items() if end < now]
            for it, _ in late:
                del self._coming[it]
        for it, is_first in late:
            if is_first:
                _say(it, '408 Request Timeout', 'LATE', f'the request did not come in within {SECONDS} seconds')
            _end(it)

    def listens(self, step: int) -> bool:
        """Counts a stream of events that begins or ends. Returns False if there are too many."""
        with self._lock:
            if step > 0 and self._listening >= WINDOWS:
                return False
            self._listening += step
            return True

    def handle_error(self, request: Any, client_address: Any) -> None:
        """Reports an error in the editor itself, without the address. A connection that breaks off is no error."""
        kind, error, _ = sys.exc_info()
        if not isinstance(error, (ConnectionError, socket.timeout)):
            print(f'error: {kind.__name__ if kind else ""}: {error}', file=sys.stderr)


def _say(connection: socket.socket, status: str, name: str, text: str) -> None:
    """Answers a connection from a different thread."""
    body = json.dumps({'refused': name, 'text': text}) + '\n'
    head = f'HTTP/1.1 {status}\r\nContent-Type: application/json\r\nContent-Length: {len(body)}\r\nConnection: close\r\n\r\n'
    try:
        connection.settimeout(1)
        connection.sendall((head + body).encode())
    except OSError:
        pass  # nobody is there any more


def _end(connection: socket.socket) -> None:
    """Ends a connection; the thread that reads from it finds the end of the input."""
    try:
        connection.shutdown(socket.SHUT_RDWR)
    except OSError:
        pass  # nobody is there any more


def read_page() -> Dict[str, Tuple[str, bytes]]:
    """The files of the page, each with its kind and content. Nothing else is served."""
    files = sorted((Path(__file__).parent / 'page').iterdir())
    return {file.name: (KINDS[file.suffix], file.read_bytes()) for file in files if file.suffix in KINDS}
