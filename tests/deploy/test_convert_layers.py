#!/usr/bin/python3
"""What deploy/convert decides on classes, styles and places, where mapscript is or a stand-in for it."""
import pathlib
import sys
import unittest
from types import SimpleNamespace

sys.path.insert(0, str(pathlib.Path(__file__).resolve().parents[1] / "lib"))

import loading

CONSTANTS = {
    "MS_LAYER_POINT": 0, "MS_LAYER_LINE": 1, "MS_LAYER_POLYGON": 2, "MS_OFF": 0, "MS_ON": 1, "MS_PIXELS": 6, "MS_TRUE": 1, "MS_NONE": 0,
    "MS_STYLE_BINDING_LENGTH": 12, "MS_SYMBOL_PIXMAP": 1003,
}
loading.has_package("mapscript", **CONSTANTS)
loading.has_package("PIL", "Image", "ImageChops", "ImageFilter", "ImageDraw", "ImageFont", "ImageStat")
from mapconvert import classes, compare, layers, marks, shapes, styles
from mapconvert.report import Node, Report


def colour(red, green, blue, alpha=255):
    return SimpleNamespace(red=red, green=green, blue=blue, alpha=alpha)


class Rules(unittest.TestCase):
    def test_texts_are_quoted_by_what_they_lack(self):
        self.assertEqual([classes.quoted(text) for text in ("a'b", 'a"b', """a'"b""")], ['"a\'b"', "'a\"b'", '"a\'\'b"'])

    def test_a_regular_expression_of_whole_words_is_a_list(self):
        rows = [("/^(a|b c|d-e)$/", "{a,b c,d-e}"), ("/^a$/", "{a}"), ("/a/", None), ("/^a|b$/", None), ("/^a.*$/", None), ("/^(a|)$/", None), ("/^[ab]$/", None)]
        for text, rule in rows:
            self.assertEqual(classes.list_rule(text), rule, text)

    def test_a_text_without_regard_to_case_is_a_comparison(self):
        self.assertEqual(classes.folded_rule('"Abc"i', "kind"), '("[kind]" =* "Abc")')
        for text, item in (('"Abc"i', None), ('"A"c"i', "kind"), ("Abc", "kind")):
            self.assertIsNone(classes.folded_rule(text, item), text)

    def test_how_a_rule_is_written(self):
        chosen = classes.Classes.__new__(classes.Classes)
        chosen.layer = SimpleNamespace(classitem="kind")
        rows = [
            ('"abc"', '"abc"', False), ("{a,b}", "{a,b}", False), ("([x] > 3)", "([x] > 3)", False), ("(length('[x]') > 3)", None, False),
            ("/^(a|b)$/", "{a,b}", True), ("/.*/", "", True), ('"Abc"i', '("[kind]" =* "Abc")', True),
        ]
        for text, rule, is_changed in rows:
            found, changed = chosen.written(text)
            self.assertEqual((found, bool(changed)), (rule, is_changed), text)

    def test_bounds_on_scales(self):
        self.assertEqual(classes.scales(1000, 250_000.5, 1), ["MINSCALEDENOM 1000", "MAXSCALEDENOM 250000.5"])
        self.assertEqual(classes.scales(-1, 0, 1), [])
        self.assertEqual(classes.scales(-1, 1000, 1.25), ["MAXSCALEDENOM 1250"])
        self.assertEqual([classes.both(3, 5, max), classes.both(-1, 5, max), classes.both(3, 0, min), classes.both(-1, 0, min), classes.both(3, 5, min)], [5, 5, 3, -1, 3])

    def test_values_of_a_range_are_in_eight_parts(self):
        style = SimpleNamespace(rangeitem="pop", minvalue=100, maxvalue=180)
        given = SimpleNamespace(numstyles=1, getStyle=lambda at: style, status=1, title=None, name=None)
        kind = classes.Kind(0, given)
        self.assertEqual([kind.part_of(value) for value in (50, 100, 109.9, 110, 179, 180, 500)], [1, 1, 1, 2, 8, 8, 8])
        self.assertEqual([layers.title_of(kind, part, []) for part in (0, 1, 8)], [None, "pop 100 to 110", "pop 170 to 180"])
        style.maxvalue, style.getBinding = 100, lambda number: None
        kind = classes.Kind(0, given)
        self.assertEqual((list(kind.parts()), kind.part_of(100)), ([0], 0))


def class_of(group=None, status=1, low=-1, high=-1):
    """A class as MapServer has it."""
    return SimpleNamespace(group=group, status=status, minscaledenom=low, maxscaledenom=high, numstyles=0, minfeaturesize=9)


class Layer:
    """A layer with classes, of which each shape has the first that shows at the scale of the map, or at all scales where that is none."""

    def __init__(self, *given, group=None):
        self.given, self.classgroup, self.classitem = list(given), group, None
        self.cluster = SimpleNamespace(region=None)

    @property
    def numclasses(self):
        return len(self.given)

    def getClass(self, at):
        return self.given[at]

    def removeClass(self, at):
        del self.given[at]

    def getClassIndex(self, map, shape):
        scale = map.scaledenom
        shown = (at for at, one in enumerate(self.given) if scale <= 0 or one.minscaledenom < scale and not 0 < one.maxscaledenom < scale)
        return next(shown, -1)


def classes_of(*given, group=None):
    return classes.Classes(SimpleNamespace(scaledenom=-1), Layer(*given, group=group), Report(), Node(("m.map", 7)))


class Chosen(unittest.TestCase):
    """The classes of a shape."""

    def found(self, made):
        return made.of(None, None)

    def test_classes_of_a_group_keep_their_numbers_in_the_mapfile(self):
        made = classes_of(class_of("day"), class_of("Night", low=1000), class_of("day"), class_of("night", high=1000), group="NIGHT")
        self.assertEqual(([kind.number for kind in made.kinds], made.layer.numclasses), ([1, 3], 2))
        self.assertEqual(self.found(made), ((1, 0), (0, 0)))
        # as the item class names them, from 1
        self.assertEqual([made.name(((at, 0),)) for at in range(2)], ["2", "4"])
        self.assertEqual(made.name(self.found(made)), "4+2")

    def test_all_classes_count_without_a_group(self):
        made = classes_of(class_of("day"), class_of())
        self.assertEqual([kind.number for kind in made.kinds], [0, 1])
        self.assertEqual((self.found(made), {kind.given.minfeaturesize for kind in made.kinds}), (((0, 0),), {-1}))

    def test_a_class_that_is_off_at_one_scale_leaves_those_of_others(self):
        made = classes_of(class_of(high=1000), class_of(low=1000, high=5000, status=0), class_of(low=5000))
        self.assertEqual(self.found(made), ((0, 0), (2, 0)))
        # the smallest scale is beyond the last bound
        self.assertEqual(self.found(classes_of(class_of(high=1000, status=0), class_of(low=1000))), ((1, 0),))
        self.assertEqual(self.found(classes_of(class_of(status=0), class_of())), ())


class Squares(unittest.TestCase):
    def test_a_mark_is_cut_out_round_its_point(self):
        # wider than high, higher than wide, beside the point, and the point alone
        rows = [((90, 98, 111, 103), (90, 98, 111, 103)), ((98, 80, 103, 121), (98, 80, 103, 121)), ((102, 99, 131, 102), (70, 99, 131, 102)), ((100, 60, 101, 101), (100, 60, 101, 141)), ((100, 100, 101, 101), (100, 100, 101, 101))]
        for box, cut in rows:
            self.assertEqual(marks.around(100, box), cut, box)


class Looks(unittest.TestCase):
    def test_colours(self):
        self.assertEqual([styles.colour_of(colour(10, 20, 30)), styles.colour_of(colour(-1, 20, 30)), styles.colour_of(colour(10, 20, 30, 0))], ["10 20 30", None, None])

    def test_a_mixed_colour_has_the_share_of_the_upper_one(self):
        # 0.25 * 200 + 0.75 * 100, 0.25 * 0 + 0.75 * 255 = 191.25, 0.25 * 10 + 0.75 * 20 = 17.5
        self.assertEqual(styles.mixed("200 0 10", "100 255 20", 0.25), "125 191 18")
        self.assertEqual(styles.between(colour(0, 100, 200), colour(100, 200, 0), 0.25), "25 125 150")

    def test_widths_are_whole_and_at_least_one(self):
        self.assertEqual([styles.pixels(width, 32) for width in (0, 0.4, 1.4, 1.5, 31.6, 99)], [1, 1, 1, 2, 32, 32])

    def test_sizes_of_the_ground_are_those_of_one_scale(self):
        def scale(low, high, of_map=0):
            map = SimpleNamespace(extent=SimpleNamespace(minx=0, miny=0, maxx=1, maxy=1), scaledenom=of_map, setExtent=lambda *sides: None)
            return styles.scale_of_sizes(map, SimpleNamespace(minscaledenom=low, maxscaledenom=high))

        self.assertEqual([scale(1000, 4000), scale(1000, -1), scale(-1, 4000), scale(-1, -1, 700), scale(-1, -1)], [2000, 2000, 2000, 700, 10_000])

    def test_sizes_in_metres_are_pixels(self):
        style = SimpleNamespace(size=10, width=0, outlinewidth=0, minsize=0, maxsize=500, minwidth=0, maxwidth=32)
        kind = SimpleNamespace(numstyles=1, getStyle=lambda at: style)
        layer = SimpleNamespace(sizeunits=3, minscaledenom=1000, maxscaledenom=4000, numclasses=1, getClass=lambda at: kind)
        report = Report()
        styles.write_in_pixels(None, layer, report, Node(("m.map", 4)))
        # 10 m are 393.701 inches, at 1:2,000 0.1968505 inches of 72 pixels
        self.assertAlmostEqual(style.size, 14.173236)
        self.assertEqual((style.width, report.changes, layer.sizeunits), (0, 1, styles.mapscript.MS_PIXELS))


class Places(unittest.TestCase):
    def test_coordinates_are_rounded_to_millionths_of_their_ninth_decimal(self):
        rows = [(12.3456785, "12.345679"), (-12.3456785, "-12.345679"), (7.5, "7.5"), (-0.0000004, "0"), (100, "100"), (-0.25, "-0.25"), (0.000001, "0.000001"), (1000, "1000")]
        for number, text in rows:
            self.assertEqual(shapes.coordinate(number), text)
        for number in (1000.0001, -1001, float("nan"), float("inf")):
            with self.assertRaises(shapes.vectors.Shape):
                shapes.coordinate(number)

    def test_a_place_of_the_page_stands_in_the_extent(self):
        extent = SimpleNamespace(minx=10, miny=40, maxx=30, maxy=50)
        page = shapes.Page(SimpleNamespace(extent=extent, width=200, height=50))
        # a pixel is 0.1 degrees wide and 0.2 high, and rows go down
        self.assertEqual([page.place(0, 0), page.place(200, 50), page.place(10, 5)], [(10, 50), (30, 40), (11, 49)])

    def test_equal_places_are_one_and_a_ring_is_not_closed(self):
        ring = [("1", "2"), ("1", "2"), ("3", "4"), ("5", "6"), ("1", "2")]
        self.assertEqual(shapes.part_of(ring, True), [("1", "2"), ("3", "4"), ("5", "6")])
        self.assertEqual(shapes.part_of(ring, False), [("1", "2"), ("3", "4"), ("5", "6"), ("1", "2")])
        self.assertEqual(shapes.part_of(ring[:2], True), [("1", "2")])

    def test_views_are_parts_of_the_extent_of_its_shape(self):
        boxes = compare.views((10, 40, 30, 50), [(12, 44)], 6)
        self.assertEqual(boxes[:3], [(10, 40, 30, 50), (7, 41.5, 17, 46.5), (9.5, 42.75, 14.5, 45.25)])
        # four zooms, and then the first again
        self.assertEqual(boxes[4], (11.375, 43.6875, 12.625, 44.3125))
        self.assertEqual((boxes[5], len(boxes)), (boxes[1], 6))
        self.assertEqual(compare.views((10, 40, 30, 50), [], 2)[1], (15, 42.5, 25, 47.5))

    def test_many_names_are_counted(self):
        names = [f"n{number}" for number in range(12)]
        self.assertEqual(layers.some(names[:10]), "n0, n1, n2, n3, n4, n5, n6, n7, n8, n9")
        self.assertEqual(layers.some(names), "n0, n1, n2, n3, n4, n5, n6, n7, n8, n9 and 2 more")


if __name__ == "__main__":
    unittest.main()
