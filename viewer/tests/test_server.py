"""Clients that are slow, or too many: the server with shorter times and less room."""

import socket
import threading
import time
import unittest
from unittest import mock

from view import request, server
from view.frame import Reply
from view.markup import Markup

from .running import Response, received

REQUEST = b"GET / HTTP/1.1\r\nHost: x\r\n\r\n"
LARGE = 30_000_000


class Slow(unittest.TestCase):
    def setUp(self):
        for place, name, value in ((request, "SECONDS", 0.4), (server, "SEND_SECONDS", 0.4), (server, "CONNECTIONS", 8)):
            patch = mock.patch.object(place, name, value)
            patch.start()
            self.addCleanup(patch.stop)
        self.size = 5
        self.server = server.Server(0, lambda head, is_gone: Reply(200, Markup("x" * self.size)))
        self.addCleanup(self.server.server_close)
        threading.Thread(target=self.server.serve_forever, args=(0.01,), daemon=True).start()
        self.addCleanup(self.server.shutdown)

    def connect(self):
        return socket.create_connection(self.server.server_address, timeout=10)

    def ask(self):
        with self.connect() as connection:
            connection.sendall(REQUEST)
            return Response(received(connection))

    def stands(self):
        self.assertEqual(self.ask().body, b"x" * self.size)

    def comes_back(self):
        """The server answers again, once those who are slow were dropped."""
        for _ in range(100):
            try:
                return self.stands()
            except (AssertionError, IndexError, ConnectionError):
                time.sleep(0.05)
        self.fail("the server does not come back")

    def all_room(self):
        """Waits until no connection is left."""
        for _ in range(100):
            taken = sum(self.server.room.acquire(blocking=False) for _ in range(20))
            for _ in range(taken):
                self.server.room.release()
            if taken == 8:
                return
            time.sleep(0.05)
        self.fail("room is not given back")

    def test_it_stops_half_way_in_sending(self):
        with self.connect() as connection:
            start = time.monotonic()
            connection.sendall(REQUEST[:-3])
            self.stands()
            self.assertEqual(Response(received(connection)).status, 408)
            self.assertTrue(0.3 < time.monotonic() - start < 4)

    def test_it_sends_byte_by_byte(self):
        """Each byte is no new start: all of a request comes within one time."""
        with self.connect() as connection:
            start = time.monotonic()
            while time.monotonic() - start < 6:
                try:
                    connection.sendall(b"G")
                except ConnectionError:
                    break
                time.sleep(0.05)
            self.assertLess(time.monotonic() - start, 5)
        self.stands()

    def test_it_stops_half_way_in_reading(self):
        self.size = LARGE
        slow = [self.connect() for _ in range(8)]
        for connection in slow:
            connection.sendall(REQUEST)
            connection.recv(1)
        self.size = 5
        self.all_room()
        self.stands()
        for connection in slow:
            self.assertLess(sum(map(len, iter(lambda: self.some(connection), b""))), LARGE)
            connection.close()

    @staticmethod
    def some(connection):
        try:
            return connection.recv(1 << 20)
        except ConnectionError:
            return b""

    def test_more_than_there_is_room_for(self):
        idle = [self.connect() for _ in range(8)]
        time.sleep(0.1)
        with self.connect() as connection:
            self.assertEqual(received(connection, 3), b"")
        self.comes_back()
        for connection in idle:
            connection.close()

    def test_room_is_given_back(self):
        for _ in range(30):
            self.stands()
        for _ in range(30):
            self.connect().close()
        self.all_room()

    def test_it_goes_away_before_its_page_is_made(self):
        told = []

        def answer(head, is_gone):
            time.sleep(0.2)
            told.append(is_gone())
            return Reply(200, Markup("x" * self.size))

        self.server.answer = answer
        self.stands()
        with self.connect() as connection:
            connection.sendall(REQUEST)
        end = time.monotonic() + 5
        while len(told) < 2 and time.monotonic() < end:
            time.sleep(0.05)
        self.assertEqual(told, [False, True])

    def test_a_fault_of_a_page_ends_its_connection_alone(self):
        answer, self.server.answer = self.server.answer, lambda head, is_gone: {}["fault"]
        with mock.patch("traceback.print_exc") as told:
            with self.connect() as connection:
                connection.sendall(REQUEST)
                self.assertEqual(received(connection), b"")
        self.assertEqual(told.call_count, 1)
        self.server.answer = answer
        self.stands()
