#!/usr/bin/python3
"""Which letters of a bitmap font are alike, and which glyphs are left out (deploy/lib/bitmapfonts.py)."""
import pathlib
import sys
import unittest
from unittest import mock

sys.path.insert(0, str(pathlib.Path(__file__).resolve().parents[2] / "deploy" / "lib"))

import bitmapfonts

# As otf2bdf makes them of DejaVu Sans at 7 points: an 0 of 4 by 7 dots, a D of 5 by 7 with an empty column before it, and a space.
SMALL = """STARTFONT 2.1
STARTCHAR zero
ENCODING 48
BBX 4 7 0 0
BITMAP
E0
90
90
90
90
90
E0
ENDCHAR
STARTCHAR D
ENCODING 68
BBX 6 7 0 0
BITMAP
78
44
44
44
44
44
78
ENDCHAR
STARTCHAR space
ENCODING 32
BBX 1 1 0 0
BITMAP
00
ENDCHAR
ENDFONT
"""


def glyph(name, code, box):
    return f"STARTCHAR {name}\nENCODING {code}\nBBX {box}\nBITMAP\nENDCHAR\n"


LARGE = (
    "STARTFONT 2.1\nFONTBOUNDINGBOX 120 90 -20 -30\nCHARS 5\n" + glyph("A", 65, "30 40 7 0") + glyph("wide", 64, "65 9 0 0") + glyph("g", 103, "25 36 -3 -11")
    + glyph("Aring", 197, "30 52 1 0") + glyph("low", 8000, "5 9 0 -65") + "ENDFONT\n"
)


class Letters(unittest.TestCase):
    def test_letters_have_their_dots_without_empty_sides(self):
        self.assertEqual(bitmapfonts.letters_of(SMALL), {"0": ["1110", *5 * ["1001"], "1110"], "D": ["11110", *5 * ["10001"], "11110"], " ": []})

    def test_letters_of_one_shape_are_alike_if_they_are_nearly_as_wide(self):
        narrow, wide = ["11", "11"], ["1111", "1111"]
        self.assertTrue(bitmapfonts.are_alike(["1"], narrow))
        self.assertFalse(bitmapfonts.are_alike(narrow, wide))
        self.assertFalse(bitmapfonts.are_alike(["010", "101", "101", "010"], ["110", "101", "101", "110"]))
        self.assertFalse(bitmapfonts.are_alike([], []))
        self.assertFalse(bitmapfonts.are_alike(None, narrow))

    def test_less_than_a_tenth_of_the_dots_may_differ(self):
        # of 24 by 24 dots one of 3 by 4 is 48, a twelfth, and one of 3 by 3 is 64, a ninth
        self.assertTrue(bitmapfonts.are_alike(["111"] * 4, ["111"] * 3 + ["011"]))
        self.assertFalse(bitmapfonts.are_alike(["111"] * 3, ["111"] * 2 + ["011"]))

    def test_the_pairs_that_are_alike(self):
        self.assertEqual(bitmapfonts.alike_in(SMALL), ["0D"])
        self.assertEqual(bitmapfonts.alike_in(SMALL.replace("ENCODING 68", "ENCODING 69")), [])


class Fitted(unittest.TestCase):
    def test_glyphs_that_are_too_large_are_left_out(self):
        # the box is that of A and g: from -3 to 37 across, and from -11 to 40
        kept = "".join(glyph(*one) for one in (("A", 65, "30 40 7 0"), ("g", 103, "25 36 -3 -11"), ("Aring", 197, "30 52 1 0")))
        self.assertEqual(bitmapfonts.fitted(LARGE), f"STARTFONT 2.1\nFONTBOUNDINGBOX 40 51 -3 -11\nCHARS 3\n{kept}ENDFONT\n")

    def test_more_fit_into_a_font_of_a_smoothed_map(self):
        self.assertEqual([bitmapfonts.longest(times) for times in (1, 2, 4)], [64, 255, 255])
        self.assertEqual(list(bitmapfonts.glyphs_of(bitmapfonts.fitted(LARGE, 255))), [65, 64, 103, 197, 8000])
        self.assertTrue(bitmapfonts.fitted(LARGE, 255).startswith("STARTFONT 2.1\nFONTBOUNDINGBOX 68 51 -3 -11\nCHARS 5\n"))

    def test_a_glyph_of_no_character_is_none_and_of_two_the_first_counts(self):
        text = "STARTFONT 2.1\nCHARS 3\n" + glyph("a", -1, "1 1 0 0") + glyph("b", 66, "1 1 0 0") + glyph("c", 66, "2 2 0 0") + "ENDFONT\n"
        self.assertEqual(bitmapfonts.glyphs_of(text), {66: glyph("b", 66, "1 1 0 0")})

    def test_an_advance_has_at_most_255_pixels(self):
        for step, is_small in ((0, True), (255, True), (256, False), (-1, False)):
            self.assertEqual(bitmapfonts.is_small(glyph("A", 65, "3 4 0 0").replace("BBX", f"DWIDTH {step} 0\nBBX"), 64), is_small, step)

    def test_characters_as_otf2bdf_takes_them(self):
        self.assertEqual(bitmapfonts.subset_of({70, 32, 33, 34, 72, 71, 500}), "32_34 70_72 500")


class Greatest(unittest.TestCase):
    def greatest(self, size, side_at, most=64):
        """The greatest size where the one letter is as many pixels wide as `side_at` says, and those that are tried."""
        tried = []

        def made(path, points, dots, codes):
            tried.append(points)
            return "STARTFONT 2.1\n" + (glyph("A", 65, f"{side_at(points)} 5 0 0") if side_at(points) else "") + "ENDFONT\n"

        with mock.patch.object(bitmapfonts, "made", made):
            return bitmapfonts.greatest("a.ttf", size, 96, most), tried

    def test_a_size_that_fits_is_taken(self):
        self.assertEqual(self.greatest(30, lambda points: 2 * points), (30, [30]))

    def test_else_the_next_that_does_is_looked_for_below(self):
        self.assertEqual(self.greatest(40, lambda points: 2 * points)[0], 32)
        for size in range(1, 100):
            # a side is rounded up
            sides = lambda points: -(-133 * points // 100)
            self.assertEqual(self.greatest(size, sides)[0], max(points for points in range(1, size + 1) if sides(points) <= 64))

    def test_of_a_font_without_letters_there_is_none(self):
        self.assertEqual(self.greatest(40, lambda points: 0), (0, [40]))
        self.assertEqual(self.greatest(3, lambda points: 999)[0], 0)

    def test_otf2bdf_makes_none_above_256_points(self):
        self.assertEqual(self.greatest(900, lambda points: points, 255), (255, [256, 255]))


if __name__ == "__main__":
    unittest.main()
