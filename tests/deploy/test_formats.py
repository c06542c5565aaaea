#!/usr/bin/python3
"""How deploy/formats reads a query and what it asks the server (deploy/lib/wmsformats.py); no picture is packed here."""
import http.server
import itertools
import os
import pathlib
import struct
import sys
import threading
import unittest
import zlib
from types import SimpleNamespace
from unittest import mock

sys.path.insert(0, str(pathlib.Path(__file__).resolve().parents[1] / "lib"))

import loading

loading.has_package("PIL", "Image", "ImageDraw", "ImageFont")
import wmsformats

MAP = "REQUEST=GetMap&VERSION=1.3.0&LAYERS=a,b%20c&CRS=CRS:84"
REFUSED = b'<?xml version="1.0"?>\n<ServiceExceptionReport>\n<ServiceException code="InvalidFormat">FORMAT</ServiceException>\n</ServiceExceptionReport>\n'
PAM = b"P7\nWIDTH 2\nHEIGHT 1\nDEPTH 4\nMAXVAL 255\nTUPLTYPE RGB_ALPHA\nENDHDR\n"


class Queries(unittest.TestCase):
    def test_a_format_that_is_packed_here_is_asked_for_as_another(self):
        rows = [
            ("image/jpeg", "FALSE", "image/x-portable-pixmap"), ("image/webp", "true", "image/x-portable-arbitrarymap"),
            ("image/png;mode=8bit", "TRUE", "image/x-portable-arbitrarymap"), ("image/png%20;%20mode=8bit", "", "image/x-portable-pixmap"),
            # it has no transparency
            ("image/jpeg", "TRUE", "image/x-portable-pixmap"),
        ]
        for form, clear, asked in rows:
            query = wmsformats.Asked(f"{MAP}&format={form}&TRANSPARENT={clear}").query()
            self.assertEqual(query, f"{MAP}&FORMAT={asked}&TRANSPARENT={clear}", form)

    def test_other_formats_are_the_servers_to_say(self):
        for form in ("image/x-portable-pixmap", "image/gif", "image/png;+mode=24bit", "IMAGE/JPEG", ""):
            query = f"{MAP}&FORMAT={form}&TRANSPARENT=TRUE"
            asked = wmsformats.Asked(query)
            self.assertIsNone(asked.wanted, form)
            self.assertEqual(asked.query(), query)

    def test_other_requests_pass_as_they_stand(self):
        for query in ("REQUEST=GetCapabilities&FORMAT=image/png", "", "a=b&&=&c", "request=getmap&FORMAT=image/jpeg"):
            self.assertEqual(wmsformats.Asked(query).query(), query)

    def test_the_first_pair_of_a_name_counts(self):
        asked = wmsformats.Asked(f"{MAP}&FORMAT=image/webp&format=image/jpeg&request=GetCapabilities")
        self.assertEqual((asked.request, asked.wanted), ("GetMap", "image/webp"))

    def test_a_query_of_an_older_version_is_translated(self):
        query = "VERSION=1.1.1&REQUEST=GetMap&SRS=EPSG:4326&BBOX=1,2,3,4&FORMAT=image/jpeg"
        self.assertEqual(wmsformats.Asked(query).query(), "VERSION=1.3.0&REQUEST=GetMap&CRS=CRS:84&BBOX=1,2,3,4&FORMAT=image/x-portable-pixmap")


class Addresses(unittest.TestCase):
    def address(self, **given):
        environ = {"SERVER_NAME": "inner", "SERVER_PORT": "8070", "wsgi.url_scheme": "http", "PATH_INFO": "/wms", **given}
        with mock.patch.dict(os.environ):
            os.environ.pop("KESMOCH_ADDRESS", None)
            return wmsformats.address_of(environ)

    def test_it_is_the_one_that_was_asked(self):
        rows = [
            ({"HTTP_HOST": "maps.example:81"}, "http://maps.example:81/wms?"),
            ({"HTTP_HOST": "[::1]:81", "PATH_INFO": "/a/b"}, "http://[::1]:81/a/b?"),
            ({"HTTP_HOST": "maps.example", "HTTP_X_FORWARDED_PROTO": "https", "PATH_INFO": ""}, "https://maps.example/wms?"),
            ({"HTTP_HOST": 'x"><script>'}, "http://inner:8070/wms?"), ({}, "http://inner:8070/wms?"),
        ]
        for given, address in rows:
            self.assertEqual(self.address(**given), address, given)

    def test_a_given_one_comes_before(self):
        with mock.patch.dict(os.environ, {"KESMOCH_ADDRESS": "https://a.example/x?map=1&"}):
            self.assertEqual(wmsformats.address_of({}), "https://a.example/x?map=1&")


class Documents(unittest.TestCase):
    def test_formats_and_address_are_written_into_it(self):
        body = b"""<Service><OnlineResource xlink:type="simple" xlink:href="http://old/wms?"/></Service>
<GetMap>
<Format>image/png</Format>
<Format>image/x-portable-pixmap</Format>
</GetMap>
<Format>XML</Format>
"""
        found = wmsformats.document_of(body, {"HTTP_HOST": "h", "wsgi.url_scheme": "http", "PATH_INFO": '/a&"b'}).decode()
        self.assertIn('xlink:href="http://h/a&amp;&quot;b?"/>', found)
        formats = [line.removeprefix("<Format>").removesuffix("</Format>") for line in found.splitlines() if line.startswith("<Format>")]
        self.assertEqual(formats, [
            "image/png", "image/png; mode=8bit", "image/jpeg", "image/webp", "image/x-portable-pixmap", "XML", "INIMAGE", "BLANK",
        ])


class Pictures(unittest.TestCase):
    def setUp(self):
        patch = mock.patch.object(wmsformats, "Image", SimpleNamespace(frombytes=lambda *given: given))
        patch.start()
        self.addCleanup(patch.stop)

    def test_both_formats_of_the_server_are_read(self):
        self.assertEqual(wmsformats.picture_of(b"P6\n1 2\n255\nabcdef"), ("RGB", (1, 2), b"abcdef"))
        self.assertEqual(wmsformats.picture_of(PAM + b"abcdefgh"), ("RGBA", (2, 1), b"abcdefgh"))

    def test_a_picture_that_is_cut_off_is_none(self):
        for body in (b"P6\n1 2\n255\nabcde", b"P6\n1 2\n255\nabcdefg", PAM + b"abcdefg", b"P6\n1 2\n254\nabcdef", b""):
            with self.assertRaises(wmsformats.Unanswered) as found:
                wmsformats.picture_of(body)
            self.assertTrue(found.exception.args[0].startswith("502"))

    def test_a_png_has_the_rows_of_the_picture(self):
        for mode, kind, pixels in (("RGB", 2, bytes(range(18))), ("RGBA", 6, bytes(range(24)))):
            data = wmsformats.png(SimpleNamespace(size=(3, 2), mode=mode, tobytes=lambda pixels=pixels: pixels))
            chunks, at = {}, 8
            while at < len(data):
                size, name = struct.unpack(">I4s", data[at : at + 8])
                body = data[at + 8 : at + 8 + size]
                self.assertEqual(struct.unpack(">I", data[at + 8 + size : at + 12 + size])[0], zlib.crc32(name + body))
                chunks[name], at = body, at + 12 + size
            self.assertEqual(list(chunks), [b"IHDR", b"IDAT", b"IEND"])
            self.assertEqual(struct.unpack(">IIBB", chunks[b"IHDR"][:10]), (3, 2, 8, kind))
            half = len(pixels) // 2
            self.assertEqual(zlib.decompress(chunks[b"IDAT"]), b"\0" + pixels[:half] + b"\0" + pixels[half:])


class Played(http.server.BaseHTTPRequestHandler):
    """A server that answers each query with its status and its name, or breaks off."""

    def do_GET(self):
        self.server.asked.append(self.path)
        if self.server.status is None:
            # half an answer
            return self.wfile.write(b"HTTP/1.1 200 OK\r\nContent-Length: 100\r\n\r\nhalf")
        self.send_response(self.server.status)
        self.send_header("Content-Type", "text/plain")
        self.end_headers()
        self.wfile.write(self.server.name)

    def log_message(self, *_):
        pass


class Servers(unittest.TestCase):
    def play(self, name, status):
        """The address of a server, and what it is asked; one of no status at all refuses connections."""
        server = http.server.HTTPServer(("127.0.0.1", 0), Played)
        server.name, server.status, server.asked = name, status, []
        if status == "gone":
            server.server_close()
        else:
            thread = threading.Thread(target=server.serve_forever, kwargs={"poll_interval": 0.01})
            thread.start()
            for end in (server.server_close, thread.join, server.shutdown):
                self.addCleanup(end)
        return f"http://127.0.0.1:{server.server_port}/wms", server.asked

    def answers(self, count, *servers):
        """The answers to so many queries, or why there is none, and how often each server was asked."""
        played, found = [self.play(*server) for server in servers], []
        with mock.patch.dict(os.environ, {"KESMOCH_SERVER": " ".join(address for address, _ in played)}), mock.patch.object(wmsformats, "TURNS", itertools.count()):
            for number in range(count):
                try:
                    found.append(wmsformats.ask(f"a={number}", wmsformats.servers())[2])
                except wmsformats.Unanswered as why:
                    found.append(why.args[0])
        self.assertTrue(all(query.startswith("/wms?a=") for _, asked in played for query in asked))
        return found, [len(asked) for _, asked in played]

    def test_each_query_begins_with_another_server(self):
        self.assertEqual(self.answers(5, (b"one", 200), (b"two", 200), (b"three", 200)), ([b"one", b"two", b"three", b"one", b"two"], [2, 2, 1]))

    def test_the_next_is_asked_where_one_is_down_or_breaks_off(self):
        for status, count in (("gone", 0), (502, 2), (503, 2), (None, 2)):
            self.assertEqual(self.answers(4, (b"one", status), (b"two", 200)), ([b"two"] * 4, [count, 4]), status)

    def test_other_answers_are_handed_on(self):
        for status in (200, 400, 404, 500):
            self.assertEqual(self.answers(2, (b"one", status), (b"two", 200)), ([b"one", b"two"], [1, 1]), status)

    def test_where_none_answers_the_last_ones_reason_is_told(self):
        self.assertEqual(self.answers(2, (b"one", "gone"), (b"two", 503)), ([b"two", "502 Bad Gateway"], [0, 2]))
        self.assertEqual(self.answers(2, (b"one", "gone"), (b"two", "gone"))[0], ["502 Bad Gateway"] * 2)

    def test_one_that_takes_too_long_is_waited_for_once(self):
        faults = iter([wmsformats.Unanswered("504 Gateway Timeout", "late"), ("200 OK", "text/plain", b"two")])

        def ask_one(address, query):
            fault = next(faults)
            if isinstance(fault, Exception):
                raise fault
            return fault

        with mock.patch.dict(os.environ, {"KESMOCH_SERVER": "http://a/ http://b/"}), mock.patch.object(wmsformats, "ask_one", ask_one):
            with self.assertRaises(wmsformats.Unanswered) as found:
                wmsformats.ask("", wmsformats.servers())
        self.assertEqual(found.exception.args[0], "504 Gateway Timeout")


class Options(unittest.TestCase):
    def test_servers_are_named_one_by_one(self):
        formats = loading.script("deploy/formats")
        self.assertEqual(formats.options_of([]).server, ["http://127.0.0.1:8080/wms"])
        self.assertEqual(formats.options_of(["--server", "http://a/", "--server", "http://b:81/wms"]).server, ["http://a/", "http://b:81/wms"])
        rows = [("http://a/", True), ("http://127.0.0.1:8080/wms", True), ("a", False), ("https://a/", False), ("http://a:0/", False), ("http://a:x/", False), ("http://a/ http://b/", False)]
        for text, is_right in rows:
            self.assertIs(formats.is_address(text), is_right, text)


class Answers(unittest.TestCase):
    def answer(self, query, *answers):
        """The answer to a query, and what the server was asked."""
        asked, left, orders = [], list(answers), []

        def ask(sent, order):
            asked.append(sent)
            orders.append(order)
            return left.pop(0)

        environ = {"REQUEST_METHOD": "GET", "QUERY_STRING": query}
        packs = {"image/png": ("image/png", lambda picture: b"packed", True), "image/webp": ("image/webp", lambda picture: b"packed", True)}
        with mock.patch.object(wmsformats, "ask", ask), mock.patch.object(wmsformats, "picture_of", lambda body: body), \
                mock.patch.dict(wmsformats.FORMATS, packs):
            answer = wmsformats.answer(environ)
        # all that one request asks begins with one server
        self.assertTrue(all(order is orders[0] for order in orders))
        return answer, asked

    def test_a_png_is_the_servers_own_where_it_has_one(self):
        answer, asked = self.answer(f"{MAP}&FORMAT=image/png", ("200 OK", "image/png", b"own"))
        self.assertEqual((answer, asked), (("200 OK", "image/png", b"own"), [f"{MAP}&FORMAT=image/png"]))

    def test_a_png_is_packed_where_the_map_offers_none(self):
        answers = ("200 OK", "text/xml", REFUSED), ("200 OK", "image/x-portable-pixmap", b"pixels")
        answer, asked = self.answer(f"{MAP}&FORMAT=image/png", *answers)
        self.assertEqual(answer, ("200 OK", "image/png", b"packed"))
        self.assertEqual(asked, [f"{MAP}&FORMAT=image/png", f"{MAP}&FORMAT=image/x-portable-pixmap"])

    def test_another_fault_is_not_asked_for_again(self):
        fault = REFUSED.replace(b"InvalidFormat", b"LayerNotDefined")
        self.assertEqual(self.answer(f"{MAP}&FORMAT=image/webp", ("200 OK", "text/xml", fault)), (("200 OK", "text/xml", fault), [f"{MAP}&FORMAT=image/x-portable-pixmap"]))

    def test_a_fault_in_a_picture_has_the_words_of_its_version(self):
        fault = REFUSED.replace(b"InvalidFormat", b"InvalidCRS").replace(b"FORMAT", b"CRS")
        for version, words in (("1.1.1", "InvalidSRS: SRS"), ("1.3.0", "InvalidCRS: CRS")):
            query = f"REQUEST=GetMap&VERSION={version}&EXCEPTIONS=INIMAGE&FORMAT=image/webp&TRANSPARENT=TRUE"
            with mock.patch.object(wmsformats.wmspictures, "of_fault") as drawn:
                answer, _ = self.answer(query, ("200 OK", "text/xml", fault))
            self.assertEqual((answer[1:], drawn.call_args.args[1:]), (("image/webp", b"packed"), (words, True)))

    def test_other_statuses_pass(self):
        given = ("503 Service Unavailable", "text/plain", b"busy\n")
        self.assertEqual(self.answer(f"{MAP}&FORMAT=image/webp", given)[0], given)

    def test_a_click_has_no_item_for_drawing_alone(self):
        text = b"""GetFeatureInfo results:
Layer 'a'
  Feature 0:
    name = 'x'
    class = '3.64+14.7'
  Feature 4:
    class = '1'
Layer 'b'
  Feature 2:
    class = '5'
    name = 'y'
  Feature 3:
    class = 'first'
"""
        answer, _ = self.answer("REQUEST=GetFeatureInfo", ("200 OK", "text/plain", text))
        self.assertEqual(answer[2], text.replace(b"    class = '3.64+14.7'\n", b"").replace(b"    class = '1'\n", b""))

    def test_bytes_that_no_query_may_have_are_written_in_hexadecimal(self):
        self.assertEqual(self.answer("LAYERS=\u00e4 b", ("200 OK", "text/xml", b""))[1], ["LAYERS=%E4%20b"])

    def test_a_request_is_a_get(self):
        started = []
        body = wmsformats.application({"REQUEST_METHOD": "POST"}, lambda *given: started.append(given))
        self.assertEqual((started[0][0], body), ("405 Method Not Allowed", [b"a request is a GET\n"]))
        self.assertIn(("Allow", "GET, HEAD"), started[0][1])


if __name__ == "__main__":
    unittest.main()
