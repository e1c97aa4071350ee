"""The server: one thread for each connection, one request each, and an end to everything that a client can draw out."""

import socket
import socketserver
import sys
import threading
import time
import traceback
from http import HTTPStatus

from .look import HEADERS
from .request import Refused, read_head

# More connections at once are dropped.
CONNECTIONS = 256
# A client that does not read its page for so long is dropped.
SEND_SECONDS = 20.0
# After a refusal, what a client still sends is passed over, for so long and so far, so that it can read the refusal.
LINGER_SECONDS, LINGER_BYTES = 0.5, 1 << 20


def message(reply):
    """The bytes of a reply."""
    body = reply.body.encode("utf-8", "replace")
    headers = [*HEADERS, *reply.headers.items(), ("Content-Type", "text/html; charset=utf-8")]
    headers += [("Content-Length", str(len(body))), ("Connection", "close")]
    if reply.location is not None:
        headers.append(("Location", reply.location))
    status = HTTPStatus(reply.status)
    head = [f"HTTP/1.1 {status.value} {status.phrase}", *(f"{name}: {value}" for name, value in headers), "", ""]
    return "\r\n".join(head).encode("latin-1") + body


def pass_over(connection):
    """Passes over what still comes, for a while."""
    end, passed = time.monotonic() + LINGER_SECONDS, 0
    connection.shutdown(socket.SHUT_WR)
    while passed < LINGER_BYTES and time.monotonic() < end:
        connection.settimeout(max(end - time.monotonic(), 0.01))
        piece = connection.recv(1 << 16)
        if not piece:
            return
        passed += len(piece)


class Connection(socketserver.BaseRequestHandler):
    def handle(self):
        try:
            reply, refused = self.server.answer(read_head(self.request), self.is_gone), False
        except Refused as refusal:
            reply, refused = refusal.reply, True
        if reply is None:
            return
        try:
            self.request.settimeout(SEND_SECONDS)
            self.request.sendall(message(reply))
            if refused:
                pass_over(self.request)
        except OSError:
            return
        self.server.was_sent(reply)

    def is_gone(self):
        """Whether the client closed its side, as a browser does that loads a page again."""
        self.request.settimeout(0)
        try:
            return not self.request.recv(1, socket.MSG_PEEK)
        except OSError as fault:
            return not isinstance(fault, BlockingIOError)


class Server(socketserver.ThreadingMixIn, socketserver.TCPServer):
    """Listens on this machine alone. `answer` makes a reply of the head of a request; it may ask if the client is gone."""

    allow_reuse_address = True
    daemon_threads = True
    block_on_close = False
    request_queue_size = 128

    def __init__(self, port, answer=None, was_sent=lambda reply: None):
        self.answer = answer
        self.was_sent = was_sent
        self.room = threading.BoundedSemaphore(CONNECTIONS)
        super().__init__(("127.0.0.1", port), Connection)

    def verify_request(self, request, client_address):
        return self.room.acquire(blocking=False)

    def process_request(self, request, client_address):
        try:
            super().process_request(request, client_address)
        except Exception:
            self.room.release()
            self.shutdown_request(request)

    def process_request_thread(self, request, client_address):
        try:
            super().process_request_thread(request, client_address)
        finally:
            self.room.release()

    def handle_error(self, request, client_address):
        """Tells a fault, but not that a client went away."""
        if not isinstance(sys.exc_info()[1], OSError):
            traceback.print_exc()
