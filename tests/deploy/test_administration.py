#!/usr/bin/python3
"""Addresses, and the lines that answer at an administration port (deploy/lib/administration.py)."""
import http.server
import pathlib
import socket
import sys
import threading
import unittest

sys.path.insert(0, str(pathlib.Path(__file__).resolve().parents[1] / "lib"))

import loading  # noqa: F401
import administration


class Addresses(unittest.TestCase):
    def test_a_port_alone_is_one_of_this_machine(self):
        rows = [("8081", ("127.0.0.1", 8081)), ("maps.example:90", ("maps.example", 90)), ("[::1]:65535", ("::1", 65535)), ("10.0.0.7:1", ("10.0.0.7", 1))]
        for text, address in rows:
            self.assertEqual(administration.address_of(text), address, text)

    def test_what_is_no_port_is_refused(self):
        for text in ("", "ON a", "65536", "0", "-1", "8081:", "host", "a:b:80", "::1:80", "123456"):
            with self.assertRaises(ValueError, msg=text):
                administration.address_of(text)


class Lines(unittest.TestCase):
    def test_each_answer_has_its_numbers(self):
        rows = [("PUBLISHED 18446744073709551615", "PUBLISHED", [2**64 - 1]), ("REFUSED 3 8", "REFUSED", [3, 8]), ("IDLE", "IDLE", [])]
        rows += [(word, word, []) for word in ("HELD", "NOMEMORY", "FAILED", "BUSY", "MALFORMED")]
        for line, word, numbers in rows:
            answer = administration.Answer(line)
            self.assertEqual((answer.word, answer.numbers, str(answer)), (word, numbers, line))
            self.assertTrue(administration.LINE.fullmatch(line.encode()))

    def test_other_lines_are_no_answers(self):
        for line in (b"PUBLISHED", b"PUBLISHED -1", b"REFUSED 1 9", b"REFUSED 1 0", b"REFUSED 1", b"HELD 2", b"idle", b"HTTP/1.1 400 Bad Request"):
            self.assertIsNone(administration.LINE.fullmatch(line), line)


class Port:
    """A port of this machine that takes one connection, keeps what it is sent, and sends pieces."""

    def __init__(self, wanted, *pieces):
        self.listener, self.wanted, self.pieces, self.sent = socket.create_server(("127.0.0.1", 0)), wanted, pieces, b""
        self.address = self.listener.getsockname()
        self.thread = threading.Thread(target=self.serve)
        self.thread.start()

    def serve(self):
        with self.listener, self.listener.accept()[0] as stream:
            stream.settimeout(10)
            while len(self.sent) < self.wanted and (piece := stream.recv(100)):
                self.sent += piece
            for piece in self.pieces:
                stream.sendall(piece)


class Connections(unittest.TestCase):
    def ask(self, port, call):
        try:
            with administration.Administrator(port.address, 10) as administrator:
                return call(administrator)
        finally:
            port.thread.join()

    def test_a_batch_is_sent_behind_its_length(self):
        port = Port(19, b"PUBLISHED", b" 7", b"\r\n")
        self.assertEqual(str(self.ask(port, lambda administrator: administrator.batch(b"ON a\nOFF b"))), "PUBLISHED 7")
        self.assertEqual(port.sent, b"BATCH 10\nON a\nOFF b")

    def test_what_is_pending_is_published_by_a_line(self):
        port = Port(6, b"IDLE\n")
        self.assertEqual(self.ask(port, lambda administrator: administrator.retry()).word, "IDLE")
        self.assertEqual(port.sent, b"RETRY\n")

    def test_an_end_within_a_line_leaves_open_what_was_done(self):
        for pieces in ((), (b"PUBLISHED 7",)):
            with self.assertRaises(administration.Unanswered) as found:
                self.ask(Port(6, *pieces), lambda administrator: administrator.retry())
            self.assertTrue(found.exception.is_open)

    def test_another_port_is_no_administration_port(self):
        with self.assertRaises(administration.Unanswered) as found:
            self.ask(Port(6, b"HTTP/1.1 400 Bad Request\r\n" + b"x" * 100), lambda administrator: administrator.retry())
        self.assertIn("is no administration port", str(found.exception))
        self.assertFalse(found.exception.is_open)

    def test_where_nobody_listens_nothing_was_done(self):
        with socket.create_server(("127.0.0.1", 0)) as listener:
            address = listener.getsockname()
        with self.assertRaises(administration.Unanswered) as found:
            administration.Administrator(address, 5)
        self.assertFalse(found.exception.is_open)


class Sequences(unittest.TestCase):
    def sequence(self, body):
        class Handler(http.server.BaseHTTPRequestHandler):
            def do_GET(self):
                self.send_response(200)
                self.end_headers()
                self.wfile.write(body)

            def log_message(self, *_):
                pass

        with http.server.HTTPServer(("127.0.0.1", 0), Handler) as server:
            thread = threading.Thread(target=server.handle_request)
            thread.start()
            try:
                return administration.sequence_of(server.server_address, 5)
            finally:
                thread.join()

    def test_the_sequence_is_that_of_the_document(self):
        self.assertEqual(self.sequence(b'<?xml version="1.0"?>\n<WMS_Capabilities version="1.3.0" updateSequence="41" xmlns="">'), 41)

    def test_another_page_is_no_document(self):
        with self.assertRaises(administration.Unanswered):
            self.sequence(b'<html updateSequence="41">')


if __name__ == "__main__":
    unittest.main()
