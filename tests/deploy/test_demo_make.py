#!/usr/bin/python3
"""What demo/make writes beside demo/smooth.map."""
import os
import pathlib
import sys
import unittest

sys.path.insert(0, str(pathlib.Path(__file__).resolve().parents[1] / "lib"))

import loading

DEMO = os.path.join(loading.TOP, "demo")
sys.path.insert(0, DEMO)

import larger

make = loading.script("demo/make")


def rows_of(*texts):
    return [[int(pixel == "#") for pixel in text] for text in texts]


def drawn(pixels, width, signs):
    """The rows of a pixmap's pixels, each by the sign of its colour."""
    found = [pixels[at : at + 3] for at in range(0, len(pixels), 3)]
    text = "".join(signs[tuple(pixel)] for pixel in found)
    return [text[at : at + width] for at in range(0, len(text), width)]


class Larger(unittest.TestCase):
    def test_a_corner_between_two_pixels_is_filled(self):
        self.assertEqual(larger.doubled(rows_of("#.", ".#")), rows_of("##..", "###.", ".###", "..##"))

    def test_strokes_grow_to_the_right(self):
        self.assertEqual(larger.bolder(rows_of("#..#", ".##.")), rows_of("##.#", ".###"))

    def test_a_pixmap_has_the_colours_of_its_places(self):
        # how far right of the middle and below it the centres of the pixels are
        ring = lambda x, y: (10, 20, 30) if x * x + y * y == 2.5 else (40, 50, 60) if (x, y) == (-0.5, 0.5) else None
        head, pixels = larger.pixmap(4, ring).split(b"\n255\n", 1)
        self.assertEqual(head, b"P6\n4 4")
        self.assertEqual(drawn(pixels, 4, {(255, 0, 255): ".", (10, 20, 30): "#", (40, 50, 60): "o"}), [".##.", "#..#", "#o.#", ".##."])

    def test_a_glyph_is_so_many_times_as_large(self):
        glyph = "STARTCHAR A\nENCODING 65\nDWIDTH 3 0\nBBX 2 2 -1 -5\nBITMAP\n80\n40\nENDCHAR\n"
        font = f"STARTFONT 2.1\nFONTBOUNDINGBOX 7 9 -2 -6\nCHARS 2\n{glyph}{glyph.replace('65', '500')}ENDFONT\n"
        lines = larger.larger_font(font, 2).splitlines()
        self.assertIn("FONTBOUNDINGBOX 14 18 -4 -12", lines)
        # of the rows ##.. ###. .### ..## each stroke is one pixel wider
        self.assertEqual(lines[lines.index("CHARS 1") + 1 :], ["STARTCHAR A", "ENCODING 65", "DWIDTH 6 0", "BBX 4 4 -2 -10", "BITMAP", "E0", "F0", "70", "30", "ENDCHAR", "ENDFONT"])


class Parts(unittest.TestCase):
    def test_the_map_has_the_discs_that_are_made(self):
        with open(os.path.join(DEMO, "smooth.map"), encoding="utf-8") as file:
            text = file.read()
        for part in (make.symbol("anchor", "anchor4.ppm") + make.DISC, 'TYPE POINT\n    TEMPLATE "t"\n    PROCESSING "ITEMS=name,iso"\n' + make.DISCS):
            self.assertEqual(text.count(part), 1, part)

    def test_what_stands_in_the_folder_is_what_is_made(self):
        with open(os.path.join(DEMO, "6x13.bdf"), encoding="latin-1") as file:
            made = {"24x52.bdf": larger.larger_font(file.read(), 4).encode("latin-1")}
        made |= dict(make.symbols_of(4).values())
        for name, data in made.items():
            with open(os.path.join(DEMO, name), "rb") as file:
                self.assertEqual(file.read(), data, name)


if __name__ == "__main__":
    unittest.main()
