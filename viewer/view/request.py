"""A request: read with an end to its length and its time, taken apart, and judged before anything is done for it."""

import hmac
import re
import socket
import time
from urllib.parse import parse_qsl

from .frame import plain

LONGEST = 8192
SECONDS = 5.0
METHOD_AND_TARGET = re.compile(rb"([!-~]{1,20}) (/[!-~]*) HTTP/1\.[01]")
HEADER = re.compile(rb"([!#$%&'*+.^_`|~0-9A-Za-z-]+):[ \t]*([ -~\t\x80-\xff]*?)[ \t]*")
MORE_WORDS = 8

TOO_LONG = plain(431, "Request too long", "A request has at most 8,192 bytes.")
TOO_SLOW = plain(408, "Request too slow", "The request did not come in time.")
NOT_UNDERSTOOD = plain(400, "Request not understood", "This is no request of a browser.")
OTHER_METHOD = plain(405, "Method not allowed", "Pages can be read alone.", Allow="GET")
OTHER_HOST = plain(403, "Wrong host", "This server answers by the address that it printed alone.")
NO_TOKEN = plain(403, "Wrong address", "Take the whole address that hprof_view.py printed: it ends with a secret word.")


class Refused(Exception):
    """A request that is answered with a refusal, or with nothing if `reply` is None."""

    def __init__(self, reply):
        super().__init__()
        self.reply = reply


def read_head(connection, clock=time.monotonic):
    """The bytes of a request up to its empty line. All of it comes within SECONDS, however slowly."""
    end, head = clock() + SECONDS, b""
    while b"\r\n\r\n" not in head:
        left = end - clock()
        if left <= 0:
            raise Refused(TOO_SLOW)
        connection.settimeout(left)
        try:
            piece = connection.recv(LONGEST + 1 - len(head))
        except OSError as fault:
            raise Refused(TOO_SLOW if isinstance(fault, socket.timeout) else None) from None
        head += piece
        if not piece:
            raise Refused(None)
        if len(head) > LONGEST:
            raise Refused(TOO_LONG)
    return head[: head.index(b"\r\n\r\n")]


def take_apart(head):
    """The method, the target, and the values of each header, by its name in small letters."""
    first, *rest = head.split(b"\r\n")
    match = METHOD_AND_TARGET.fullmatch(first)
    found = [HEADER.fullmatch(line) for line in rest]
    if not match or not all(found):
        raise Refused(NOT_UNDERSTOOD)
    headers = {}
    for name, value in (one.groups() for one in found):
        headers.setdefault(name.lower(), []).append(value)
    return match.group(1), match.group(2), headers


class Guard:
    """Who may look: those who know the token, and come by this server's own name."""

    def __init__(self, port, token):
        names = ("127.0.0.1", "localhost")
        self.hosts = {f"{name}:{port}".encode() for name in names}
        if port == 80:
            self.hosts |= {name.encode() for name in names}
        self.token = token.encode()

    def judge(self, head):
        """The path behind the token, and the words of the query."""
        method, target, headers = take_apart(head)
        if method != b"GET":
            raise Refused(OTHER_METHOD)
        hosts = headers.get(b"host", [])
        if len(hosts) != 1:
            raise Refused(NOT_UNDERSTOOD)
        if hosts[0].lower() not in self.hosts:
            raise Refused(OTHER_HOST)
        path, _, query = target.partition(b"?")
        token, _, rest = path[1:].partition(b"/")
        if not hmac.compare_digest(token, self.token):
            raise Refused(NO_TOKEN)
        return rest.decode("ascii"), words_of(query.decode("ascii"))


def words_of(query):
    """The words of a query, the last of each name."""
    if query.count("&") >= MORE_WORDS:
        raise Refused(NOT_UNDERSTOOD)
    return dict(parse_qsl(query, keep_blank_values=True, encoding="utf-8", errors="replace"))
