#!/usr/bin/python3
"""How a transcript is written for people: which pictures are drawn in letters, and which stay as they are."""
import pathlib
import sys
import unittest

sys.path.insert(0, str(pathlib.Path(__file__).resolve().parents[1] / "lib"))

from transcripts import drawn, readable

PAM = b"P7\nWIDTH %d\nHEIGHT %d\nDEPTH 4\nMAXVAL 255\nTUPLTYPE RGB_ALPHA\nENDHDR\n"


class Drawings(unittest.TestCase):
    def test_letters_go_by_the_first_time_of_a_colour(self):
        pixels = bytes([9, 8, 7, 255, 255, 255, 0, 0, 0, 9, 8, 7, 0, 0, 0, 1, 2, 3])
        self.assertEqual(drawn(b"P6\n3 2\n255\n" + pixels), "P6 3 2\na.b\nabc\na 9 8 7\nb 0 0 0\nc 1 2 3\n")

    def test_nothing_is_an_underline_and_black_a_letter(self):
        pixels = bytes([0, 0, 0, 0, 0, 0, 0, 255, 255, 255, 255, 255])
        self.assertEqual(drawn(PAM % (3, 1) + pixels), "P7 3 1\n_a.\na 0 0 0\n")

    def test_a_share_of_nothing_is_not_drawn(self):
        self.assertIsNone(drawn(PAM % (1, 1) + bytes([1, 2, 3, 127])))
        self.assertIsNone(drawn(PAM % (1, 1) + bytes([255, 255, 255, 127])))

    def test_a_picture_has_at_most_64_columns_and_52_colours(self):
        colours = [bytes([1, 2, at]) for at in range(53)]
        self.assertIsNotNone(drawn(b"P6\n52 1\n255\n" + b"".join(colours[:52])))
        self.assertIsNone(drawn(b"P6\n53 1\n255\n" + b"".join(colours)))
        self.assertIsNotNone(drawn(b"P6\n64 1\n255\n" + colours[0] * 64))
        self.assertIsNone(drawn(b"P6\n65 1\n255\n" + colours[0] * 65))

    def test_other_bytes_are_not_drawn(self):
        self.assertIsNone(drawn(b"\x89PNG\r\n\x1a\n"))


class Transcripts(unittest.TestCase):
    def test_pictures_alone_are_drawn(self):
        body = b"P6\n1 1\n255\n\x01\x02\x03"
        told = f"PUBLISHED 1\nANSWER image/x-portable-pixmap {len(body)}\n{body[:9].hex()}\n{body[9:].hex()}\nANSWER image/png 2\n8950\nANSWER text/plain 2\nok\n"
        written = f"PUBLISHED 1\nANSWER image/x-portable-pixmap {len(body)}\nP6 1 1\na\na 1 2 3\nANSWER image/png 2\n8950\nANSWER text/plain 2\nok\n"
        self.assertEqual(readable(told), written)


if __name__ == "__main__":
    unittest.main()
