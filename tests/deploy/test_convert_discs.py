#!/usr/bin/python3
"""What deploy/convert makes of MapServer's circles in a smoothed map, where mapscript is or a stand-in for it."""
import pathlib
import sys
import unittest
from types import SimpleNamespace

sys.path.insert(0, str(pathlib.Path(__file__).resolve().parents[1] / "lib"))

import loading

CONSTANTS = {"MS_SYMBOL_VECTOR": 1001, "MS_SYMBOL_ELLIPSE": 1002, "MS_SYMBOL_PIXMAP": 1003, "MS_STYLE_BINDING_LENGTH": 12}
loading.has_package("mapscript", **CONSTANTS)
loading.has_package("PIL", "Image")
from mapconvert import marks, styles
from mapconvert.report import Node, Report

VECTOR, ELLIPSE = CONSTANTS["MS_SYMBOL_VECTOR"], CONSTANTS["MS_SYMBOL_ELLIPSE"]


def colour(red, green, blue, alpha=255):
    return SimpleNamespace(red=red, green=green, blue=blue, alpha=alpha)


NONE, FILL, LINE = colour(-1, -1, -1), colour(10, 20, 30), colour(40, 50, 60)


def symbol_of(**given):
    """A circle as MapServer has it: TYPE ELLIPSE POINTS 1 1 END FILLED TRUE."""
    return SimpleNamespace(**{**dict(type=ELLIPSE, sizex=1, sizey=1, filled=1, anchorpoint_x=0.5, anchorpoint_y=0.5), **given})


def style_of(**given):
    """A style as MapServer has it, with its defaults, and a colour."""
    values = dict(color=FILL, outlinecolor=NONE, symbol=1, symbolname="dot", size=8, minsize=0, maxsize=500, width=1, minwidth=0, maxwidth=32, outlinewidth=0,
                  angle=0, gap=0, patternlength=0, opacity=100, offsetx=0, offsety=0, polaroffsetpixel=0, minscaledenom=-1, maxscaledenom=-1,
                  rangeitem=None, minvalue=0, maxvalue=0)
    made = SimpleNamespace(**{**values, **given})
    made.getGeomTransform, made.getBinding = lambda: None, lambda number: None
    return made


def marks_of(times=4, resolution=72, symbol=None):
    """The marks of a map with one symbol, so many times as large, of which none is drawn."""
    made = marks.Marks.__new__(marks.Marks)
    symbols = SimpleNamespace(getSymbol=lambda number: symbol or symbol_of())
    made.map, made.resolution, made.times = SimpleNamespace(defresolution=72, symbolset=symbols), resolution, times
    made.names, made.has_disc = {}, False
    return made


def disc(times=4, resolution=72, symbol=None, **given):
    """The words of the style that a circle becomes; nothing where it is no disc."""
    words = marks_of(times, resolution, symbol).disc(style_of(**given))
    return words and " ".join(words)


class Discs(unittest.TestCase):
    def test_a_circle_keeps_its_size(self):
        self.assertEqual(disc(), 'SYMBOL "disc" COLOR 10 20 30 SIZE 8')
        # the width is that of an outline, of which there is none
        self.assertEqual(disc(width=3), 'SYMBOL "disc" COLOR 10 20 30 SIZE 8')
        self.assertEqual(disc(outlinecolor=LINE, width=0), 'SYMBOL "disc" COLOR 10 20 30 SIZE 8')

    def test_an_outline_lies_within_a_larger_disc(self):
        # The outline of 2 of a circle of 6 reaches from 2 to 4 pixels off its point, as the ring of 2 in a disc of 8 does.
        self.assertEqual(disc(size=6, outlinecolor=LINE, width=2), 'SYMBOL "disc" COLOR 10 20 30 OUTLINECOLOR 40 50 60 SIZE 8 WIDTH 2')
        self.assertEqual(disc(size=6, color=NONE, outlinecolor=LINE), 'SYMBOL "disc" OUTLINECOLOR 40 50 60 SIZE 7 WIDTH 1')
        # 4 pixels of outline and nothing within: both cover what is at most 3 off
        self.assertEqual(disc(size=2, color=NONE, outlinecolor=LINE, width=4), 'SYMBOL "disc" OUTLINECOLOR 40 50 60 SIZE 6 WIDTH 4')

    def test_a_size_that_is_not_given_is_that_of_the_symbol(self):
        self.assertEqual(disc(size=-1), 'SYMBOL "disc" COLOR 10 20 30 SIZE 1')
        self.assertEqual(disc(size=-1, symbol=symbol_of(sizex=10, sizey=10)), 'SYMBOL "disc" COLOR 10 20 30 SIZE 10')
        self.assertEqual(disc(symbol=symbol_of(sizex=10, sizey=10)), 'SYMBOL "disc" COLOR 10 20 30 SIZE 8')

    def test_sizes_are_those_of_the_resolution_and_within_their_bounds(self):
        self.assertEqual(disc(resolution=144, outlinecolor=LINE), 'SYMBOL "disc" COLOR 10 20 30 OUTLINECOLOR 40 50 60 SIZE 18 WIDTH 2')
        # 96 of 72 are four thirds: 6 pixels are 8
        self.assertEqual(disc(resolution=96, size=6), 'SYMBOL "disc" COLOR 10 20 30 SIZE 8')
        self.assertEqual(disc(minsize=11), 'SYMBOL "disc" COLOR 10 20 30 SIZE 11')
        self.assertEqual(disc(maxsize=5, outlinecolor=LINE, width=9, maxwidth=3), 'SYMBOL "disc" COLOR 10 20 30 OUTLINECOLOR 40 50 60 SIZE 8 WIDTH 3')

    def test_other_sizes_are_pixmaps(self):
        self.assertIsNone(disc(size=6.5))
        self.assertIsNone(disc(size=0))
        # 7 and 1.5, and 8 and 0.5, though the one disc would have 8 and the other 8.5 pixels
        self.assertIsNone(disc(size=6.5, outlinecolor=LINE, width=1.5))
        self.assertIsNone(disc(outlinecolor=LINE, width=0.5))
        self.assertEqual([disc(size=size) is None for size in (256, 257)], [False, True])
        self.assertEqual([disc(size=size, outlinecolor=LINE, width=2) is None for size in (254, 255)], [False, True])
        self.assertEqual([disc(size=8, outlinecolor=LINE, width=width, maxwidth=99) is None for width in (32, 33)], [False, True])

    def test_other_symbols_are_pixmaps(self):
        for given in (dict(type=VECTOR), dict(sizex=2), dict(filled=0), dict(anchorpoint_x=0), dict(anchorpoint_y=1)):
            self.assertIsNone(disc(symbol=symbol_of(**given)), given)
        self.assertIsNone(disc(times=1))

    def test_what_is_moved_turned_or_translucent_is_a_pixmap(self):
        for given in (dict(offsetx=3), dict(offsety=-3), dict(polaroffsetpixel=5), dict(angle=45), dict(gap=20), dict(opacity=50)):
            self.assertIsNone(disc(**given), given)
        self.assertIsNone(disc(color=colour(10, 20, 30, 100)))
        self.assertIsNone(disc(outlinecolor=colour(40, 50, 60, 100)))

    def test_without_a_colour_there_is_none(self):
        self.assertIsNone(disc(color=NONE))
        self.assertIsNone(disc(color=NONE, outlinecolor=LINE, width=0))


class Maps(unittest.TestCase):
    def setUp(self):
        self.marks, self.report = marks_of(), Report()

    def of(self, *given):
        """The styles that those of a class of points become."""
        made = styles.Styles(None, None, "POINT", self.marks, self.report, Node(("m.map", 7)))
        return made.of(0, SimpleNamespace(numstyles=len(given), getStyle=lambda at: given[at]), 0, {})

    def test_the_map_has_one_symbol_of_all_discs(self):
        self.marks.names = {"pixels": "disc1"}
        pixmap = '  SYMBOL NAME "disc1" TYPE PIXMAP IMAGE "disc1.ppm" END'
        self.assertEqual(list(self.marks.lines()), [pixmap])
        self.of(style_of(), style_of(size=5))
        self.assertEqual(list(self.marks.lines()), ['  SYMBOL NAME "disc" TYPE ELLIPSE POINTS 1 1 END FILLED TRUE END', pixmap])

    def test_a_size_that_changes_is_reported(self):
        styles_made = self.of(style_of(), style_of(size=6, outlinecolor=LINE, width=2))
        self.assertEqual([made[-1] for made in styles_made], ["SIZE 8", "WIDTH 2"])
        self.assertEqual(self.report.text(), "m.map:7: changed: SIZE is 8, as the outline lies within a disc, and half of it outside MapServer's circle\n1 changed, 0 left out\n")


class Shares(unittest.TestCase):
    def share(self, most, times=4):
        """The share of a mark whose pixmap is cut above a share."""
        made = marks_of(times)
        made.is_cut = lambda style, share=1: share > most
        return made.share_of(style_of())

    def test_a_mark_that_would_be_too_large_is_smaller(self):
        self.assertEqual([self.share(most) for most in (1, 0.99, 0.63, 0.01)], [1, 0.95, 0.6, 0.05])

    def test_without_smoothing_it_is_as_large_as_it_is(self):
        self.assertEqual(self.share(0.63, times=1), 1)

    def test_it_is_reported(self):
        made, report = marks_of(symbol=symbol_of(type=VECTOR)), Report()
        made.is_cut, made.is_translucent, made.name_of = lambda style, share=1: share > 0.63, lambda style: False, lambda style, wanted: f"{wanted}1"
        found = styles.Styles(None, None, "POINT", made, report, Node(("m.map", 7))).point(0, 0, style_of())
        self.assertEqual(found, ['SYMBOL "dot1"'])
        self.assertEqual(report.text().splitlines()[1], "m.map:7: left out: the mark is 60 % as large as MapServer's: its pixmap would have more than 256 pixels a side")


if __name__ == "__main__":
    unittest.main()
