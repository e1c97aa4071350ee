"""Those who may not look, and those who want to stop others from looking."""

import socket
import time
import unittest

from view import request, server
from view.look import HEADERS, POLICY, SCRIPT, source

from .running import FRIDAY, Response, Viewer, received

LEAF = "object/740000850"
# Addresses behind the token that no page has.
PATHS = (
    "..", "../", "../../etc/passwd", "%2e%2e/", "object/../class/7400003a0", "object/..%2fcheck", "object/740000850/",
    "object//740000850", "object/740000850%0acheck", "object/740000850%20x", "object/740000850%00", "object/740000850;x",
    "object/0740000850", "object/0x740000850", "object/", "object", "why/" + "f" * 17, "class/-1", "find/",
    "type/byte[]", "type/byte%5b%5d", "type/Byte", "type/..", "grew", "check", "help", "view/command.py",
    "?page=0", "?page=-1", "?page=x", "?page=1e9", "?page=999999999999", "?page=%31%00", "class/7400003a0?statics=0",
    "refs/740000850?page=2", "object/740000850?page=2", "type/byte?page=3",
)
# What stands where the first line of a request should: BASE is an address that has a page.
FIRST_LINES = (
    b"", b"GET", b"GET BASE", b"GET BASE HTTP/2.0", b"GET BASE HTTP/1.12", b"GET  BASE HTTP/1.1", b"GET http://127.0.0.1BASE HTTP/1.1",
    b"GET * HTTP/1.1", b"GET BASE\x00 HTTP/1.1", b"GET BASE\xff HTTP/1.1", b"GET BASEx y HTTP/1.1", b"GET\tBASE HTTP/1.1",
    b"GET BASE HTTP/1.1 ", b" GET BASE HTTP/1.1", b"\x16\x03\x01\x02\x00\x01\x00",
)
HEADERS_THAT_ARE_NONE = (
    b"x", b": x", b"a b: x", b" folded", b"X: a\nHost: evil.example", b"X: a\rb", b"X: a\x00", b"X: \x7f", b"Host : x", b"\xff: x",
)
WORDS = (
    "<script>alert(1)</script>", "\"><img src=x onerror=alert(1)>", "'+alert(1)+'", "</title><script>", "&lt;b&gt;", "a\r\nSet-Cookie: x=1",
    "\x00\x1b[31m", "\u202etxet", "javascript:alert(1)", "{{7*7}}", "%3Cb%3E", "\U0001f600",
)


def own_addresses():
    """The addresses of this machine but the one that the viewer listens on, as far as its name tells them."""
    try:
        return {found[4][0] for found in socket.getaddrinfo(socket.gethostname(), None, socket.AF_INET)} - {"127.0.0.1"}
    except socket.gaierror:
        return set()


class Attacks(unittest.TestCase):
    @classmethod
    def setUpClass(cls):
        cls.viewer = Viewer(FRIDAY).__enter__()
        cls.addClassCleanup(cls.viewer.end)
        cls.viewer.page("")

    def stands(self):
        """The server goes on, and answers at once."""
        start = time.monotonic()
        self.assertEqual(self.viewer.page(LEAF).heading, "shop.Session")
        self.assertLess(time.monotonic() - start, request.SECONDS)

    def refused(self, response, status):
        """A refusal that tells nothing of the dump and leads nowhere."""
        self.assertEqual(response.status, status)
        self.assertEqual(response.page.links, [])
        self.assertNotIn(self.viewer.base.strip("/").encode(), response.body)
        self.assertNotIn(b"friday", response.body)
        self.assertEqual(response.page.faults, [])
        self.headers(response)

    def headers(self, response):
        for name, value in HEADERS:
            self.assertEqual(response.headers.get(name), value)
        self.assertEqual(response.headers["Connection"], "close")

    def test_hosts(self):
        port = self.viewer.port
        names = ("evil.example", "127.0.0.1.evil.example", "localhost.", "127.1", "2130706433", "[::1]", "user@127.0.0.1", "0.0.0.0")
        others = ("evil.example", "127.0.0.1", f"127.0.0.1:{port + 1}", f"127.0.0.1:0{port}", f"127.0.0.1:{port}, evil.example")
        for host in (*others, *(f"{name}:{port}" for name in names)):
            with self.subTest(host=host):
                self.refused(self.viewer.request(self.viewer.base, host), 403)
        for host in (f"127.0.0.1:{port}", f"localhost:{port}", f"LOCALHOST:{port}"):
            self.assertEqual(self.viewer.request(self.viewer.base, host).status, 200)

    def test_the_port_that_browsers_leave_out(self):
        head = b"GET /secret/ HTTP/1.1\r\nHost: localhost"
        self.assertEqual(request.Guard(80, "secret").judge(head), ("", {}))
        with self.assertRaises(request.Refused):
            request.Guard(8080, "secret").judge(head)

    def test_no_host_or_several(self):
        base, own = self.viewer.base, f"Host: 127.0.0.1:{self.viewer.port}\r\n"
        for headers in ("", own + own, own + "Host: evil.example\r\n", "Host: evil.example\r\n" + own):
            with self.subTest(headers=headers):
                self.refused(self.viewer.raw(f"GET {base} HTTP/1.1\r\n{headers}\r\n".encode()), 400)
        forwarded = f"GET {base} HTTP/1.1\r\nHost: evil.example\r\nX-Forwarded-Host: 127.0.0.1:{self.viewer.port}\r\n\r\n"
        self.refused(self.viewer.raw(forwarded.encode()), 403)

    def test_methods(self):
        for method in ("HEAD", "POST", "PUT", "DELETE", "OPTIONS", "TRACE", "PATCH", "get", "Get", "GETT", "PROPFIND"):
            with self.subTest(method=method):
                response = self.viewer.request(self.viewer.base, method=method)
                self.refused(response, 405)
                self.assertEqual(response.headers["Allow"], "GET")
        self.assertIn(self.viewer.request("127.0.0.1:80", method="CONNECT").status, (400, 405))

    def test_tokens(self):
        token = self.viewer.base.strip("/")
        wrong = (token[:-1], token + "x", token.swapcase(), f"%{ord(token[0]):02x}{token[1:]}", token + "%00", token[:-1] + "\\")
        hidden = (f"//{token}/", f"/./{token}/", f"/x/../{token}/", f"/?{token}", f"/x/{token}/")
        others = ("/", "//", "/favicon.ico", "/" + "x" * 5000, *hidden)
        for path in (*others, *(f"/{one}/" for one in wrong)):
            with self.subTest(path=path):
                self.refused(self.viewer.request(path), 403)
        self.assertEqual(len(token), 32)

    def test_each_run_has_another_token(self):
        with Viewer(FRIDAY) as other:
            self.assertNotEqual(other.base, self.viewer.base)
            self.refused(other.request(self.viewer.base), 403)

    def test_tokens_are_compared_in_constant_time(self):
        asked = []
        guard, compare = request.Guard(80, "secret"), request.hmac.compare_digest
        request.hmac.compare_digest = lambda *both: asked.append(both) or compare(*both)
        self.addCleanup(setattr, request.hmac, "compare_digest", compare)
        head = b"GET /%s/x?q=1 HTTP/1.1\r\nHost: localhost:80"
        self.assertEqual(guard.judge(head % b"secret"), ("x", {"q": "1"}))
        for wrong in (b"secreT", b"s", b"", b"secret2"):
            with self.assertRaises(request.Refused):
                guard.judge(head % wrong)
        self.assertEqual([given for given, _ in asked], [b"secret", b"secreT", b"s", b"", b"secret2"])

    def test_paths(self):
        for path in PATHS:
            with self.subTest(path=path):
                response = self.viewer.get(path)
                self.assertEqual(response.status, 404)
                self.assertEqual(response.page.faults, [])
                self.headers(response)
        self.stands()

    def test_requests_that_are_none(self):
        own = f"Host: 127.0.0.1:{self.viewer.port}\r\n\r\n".encode()
        for first in FIRST_LINES:
            with self.subTest(first=first):
                self.refused(self.viewer.raw(first.replace(b"BASE", self.viewer.base.encode()) + b"\r\n" + own), 400)
        self.stands()

    def test_headers_that_are_none(self):
        first = f"GET {self.viewer.base} HTTP/1.1\r\nHost: 127.0.0.1:{self.viewer.port}\r\n".encode()
        for header in HEADERS_THAT_ARE_NONE:
            with self.subTest(header=header):
                self.refused(self.viewer.raw(first + header + b"\r\n\r\n"), 400)
        self.assertEqual(self.viewer.raw(first + b"X: \xc3\xa9\t\"x\"\r\nY:\r\n\r\n").status, 200)

    def test_length(self):
        """8,192 bytes are read, and not one more; what comes behind a refusal does not hide it."""
        own = f" HTTP/1.1\r\nHost: 127.0.0.1:{self.viewer.port}\r\n".encode()
        start = f"GET {self.viewer.base}?q=".encode()
        room = request.LONGEST - len(start) - len(own) - 2
        self.assertEqual(self.viewer.raw(start + b"a" * room + own + b"\r\n").status, 200)
        self.refused(self.viewer.raw(start + b"a" * (room + 1) + own + b"\r\n"), 431)
        self.refused(self.viewer.raw(start + b"a" * 500_000 + own + b"\r\n"), 431)
        self.refused(self.viewer.raw(start + b"a" + own + b"X: " + b"b" * 100_000 + b"\r\n\r\n"), 431)
        self.refused(self.viewer.raw(start + b"a" + own + b"X: y\r\n" * 5000 + b"\r\n"), 431)
        self.stands()

    def test_the_bounds(self):
        bounds = request.LONGEST, request.SECONDS, server.CONNECTIONS, server.SEND_SECONDS, server.LINGER_SECONDS
        self.assertEqual(bounds, (8192, 5.0, 256, 20.0, 0.5))

    def test_many_words(self):
        self.assertEqual(self.viewer.get("find?" + "&".join(f"q={number}" for number in range(9))).status, 400)
        self.assertEqual(self.viewer.page("find?q=shop&q=session").heading, "Search")

    def test_a_body_is_no_request(self):
        head = f"GET {self.viewer.base}{LEAF} HTTP/1.1\r\nHost: 127.0.0.1:{self.viewer.port}\r\n"
        with self.viewer.connect() as connection:
            connection.sendall((head + "Content-Length: 5\r\n\r\nGET /\r\n" + head + "\r\n").encode())
            self.assertEqual(received(connection).count(b"HTTP/1.1 "), 1)

    def test_a_hundred_idle_connections(self):
        idle = [self.viewer.connect() for _ in range(100)]
        self.stands()
        for connection in idle[:50]:
            connection.sendall(b"GET /")
        self.stands()
        for connection in idle:
            connection.close()
        self.stands()

    def test_a_hundred_requests_at_once(self):
        request_bytes = f"GET {self.viewer.base}object/740000850 HTTP/1.1\r\nHost: 127.0.0.1:{self.viewer.port}\r\n\r\n".encode()
        open_now = [self.viewer.connect() for _ in range(100)]
        for connection in open_now:
            connection.sendall(request_bytes)
        for connection in open_now:
            with connection:
                self.assertEqual(Response(received(connection)).page.heading, "shop.Session")

    def test_a_client_that_goes_away(self):
        for sent in (b"", b"GET", f"GET {self.viewer.base} HTTP/1.1\r\nHost: 127.0.0.1:{self.viewer.port}\r\n\r\n".encode()):
            for _ in range(20):
                connection = self.viewer.connect()
                connection.sendall(sent)
                connection.setsockopt(socket.SOL_SOCKET, socket.SO_LINGER, b"\1\0\0\0\0\0\0\0")
                connection.close()
        self.stands()

    def test_a_client_that_does_not_read(self):
        idle = []
        for _ in range(40):
            connection = socket.socket()
            connection.setsockopt(socket.SOL_SOCKET, socket.SO_RCVBUF, 1024)
            connection.connect(("127.0.0.1", self.viewer.port))
            connection.sendall(f"GET {self.viewer.base} HTTP/1.1\r\nHost: 127.0.0.1:{self.viewer.port}\r\n\r\n".encode())
            idle.append(connection)
        self.stands()
        for connection in idle:
            connection.close()

    def test_a_word_comes_back_as_text_alone(self):
        for word in WORDS:
            for path in ("find?q=", "find?label="):
                with self.subTest(word=word, path=path):
                    encoded = "".join(f"%{byte:02X}" for byte in word.encode("utf-8"))
                    response = self.viewer.get(path + encoded)
                    self.assertEqual(response.status, 200)
                    self.assertEqual(response.page.faults, [])
                    self.assertNotIn("Set-Cookie", response.headers)
                    self.assertIn("0 classes and types", response.page.text)
        broken = self.viewer.get("find?q=%ff%fe%ed%a0%80")
        self.assertEqual((broken.status, broken.page.faults), (200, []))

    def test_a_redirect_has_no_more_headers(self):
        for word in ("0x740000850%0d%0aSet-Cookie:%20x=1", "740000850%0d%0a"):
            response = self.viewer.get(f"find?q={word}")
            self.assertNotIn("Set-Cookie", response.headers)
            self.assertIn(response.headers.get("Location"), (None, self.viewer.base + LEAF))

    def test_the_policy(self):
        self.assertIn("default-src 'none'", POLICY)
        self.assertIn(f"script-src {source(SCRIPT)};", POLICY)
        self.assertNotIn("unsafe", POLICY)
        self.assertNotIn("http", POLICY)
        self.assertIn("frame-ancestors 'none'", POLICY)
        self.assertIn("form-action 'self'; base-uri 'none'", POLICY)
        named = dict(HEADERS)
        self.assertEqual(named.pop("Content-Security-Policy"), POLICY)
        self.assertEqual(named, {
            "X-Content-Type-Options": "nosniff", "X-Frame-Options": "DENY", "Referrer-Policy": "no-referrer", "Cache-Control": "no-store",
            "Cross-Origin-Opener-Policy": "same-origin", "Cross-Origin-Resource-Policy": "same-origin",
        })
        self.headers(self.viewer.get(""))

    def test_it_listens_on_this_machine_alone(self):
        for address in ("127.0.0.2", "::1", *own_addresses()):
            with self.subTest(address=address):
                with self.assertRaises(OSError):
                    socket.create_connection((address, self.viewer.port), timeout=2).close()
