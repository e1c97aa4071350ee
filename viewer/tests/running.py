"""The viewer as a running command, and requests to it."""

import os
import re
import select
import signal
import socket
import subprocess
import sys
import time
from pathlib import Path

from .page import Page

HERE = Path(__file__).resolve().parent
VIEWER = HERE.parent / "hprof_view.py"
ROOT = HERE.parent.parent
SAMPLES = ROOT / "crates" / "hprof" / "data"
FRIDAY, MONDAY = SAMPLES / "friday.hprof", SAMPLES / "monday.hprof"
FAKE = HERE / "fake_hprof"
ADDRESS = re.compile(r"http://127\.0\.0\.1:(\d+)(/[\w-]+/)(grew)?\n")


def hprof():
    """The program that the tests run: `viewer/test` sets it."""
    return os.environ["HPROF"]


def time_of(path):
    """When a file was written last, as pages tell it."""
    return time.strftime("%Y-%m-%d %H:%M UTC", time.gmtime(os.path.getmtime(path)))


class Response:
    def __init__(self, data):
        head, _, self.body = data.partition(b"\r\n\r\n")
        first, *lines = head.decode("latin-1").split("\r\n")
        self.status = int(first.split(" ")[1]) if first else None
        self.headers = dict(line.split(": ", 1) for line in lines)

    @property
    def page(self):
        return Page(self.body.decode("utf-8"))


class Viewer:
    """`hprof_view.py` with some words, as long as the block runs."""

    def __init__(self, *words, program=None, script=VIEWER, **options):
        self.script = str(script)
        self.options = options
        self.words = [str(word) for word in words]
        self.program = str(program or hprof())

    def __enter__(self):
        command = [sys.executable, self.script, "--hprof", self.program, *self.words]
        self.process = subprocess.Popen(command, stdout=subprocess.PIPE, stderr=subprocess.PIPE, text=True, **self.options)
        self.line = self.process.stdout.readline()
        match = ADDRESS.fullmatch(self.line)
        if not match:
            raise AssertionError(f"no address: {self.line!r} {self.process.communicate()}")
        self.port, self.base = int(match.group(1)), match.group(2)
        return self

    def __exit__(self, *fault):
        self.end()

    def end(self, sign=signal.SIGTERM):
        """Ends the viewer, and returns its status and what it wrote on standard error."""
        if self.process.poll() is None:
            self.process.send_signal(sign)
        said = self.process.communicate(timeout=20)[1]
        return self.process.returncode, said

    def connect(self):
        return socket.create_connection(("127.0.0.1", self.port), timeout=10)

    def raw(self, request):
        """What comes for some bytes; nothing if the connection was dropped."""
        with self.connect() as connection:
            connection.sendall(request)
            return Response(received(connection))

    def request(self, target, host=None, method="GET"):
        return self.raw(f"{method} {target} HTTP/1.1\r\nHost: {host or f'127.0.0.1:{self.port}'}\r\n\r\n".encode())

    def get(self, path):
        """The response for a page, once the dump was read."""
        end = time.monotonic() + 20
        while True:
            response = self.request(self.base + path)
            if b'http-equiv="refresh"' not in response.body:
                return response
            if time.monotonic() > end:
                raise AssertionError("the dump is not read")

    def page(self, path, status=200):
        response = self.get(path)
        if response.status != status:
            raise AssertionError(f"{path}: status {response.status}")
        return response.page


def received(connection, seconds=15):
    """All that comes until the other side closes."""
    pieces, end = [], time.monotonic() + seconds
    while select.select([connection], [], [], max(end - time.monotonic(), 0))[0]:
        try:
            piece = connection.recv(1 << 20)
        except ConnectionError:
            break
        if not piece:
            break
        pieces.append(piece)
    else:
        raise AssertionError("the server does not close")
    return b"".join(pieces)
