#!/usr/bin/python3
"""What MapServer draws nothing of (deploy/lib/mapconvert/hidden.py), and which mapfiles it answers nobody from (deploy/convert)."""
import pathlib
import sys
import unittest
from types import SimpleNamespace
from unittest import mock

sys.path.insert(0, str(pathlib.Path(__file__).resolve().parents[1] / "lib"))

import loading

# The numbers that MapServer gives these.
CONSTANTS = {
    "MS_LAYER_POINT": 0, "MS_LAYER_LINE": 1, "MS_LAYER_POLYGON": 2, "MS_OFF": 0, "MS_ON": 1, "MS_TRUE": 1, "MS_NONE": 0, "MS_STYLE_BINDING_LENGTH": 12,
    "MS_SYMBOL_PIXMAP": 1003, "MS_COMPOP_CLEAR": 0, "MS_COMPOP_DST": 2,
}
loading.has_package("mapscript", **CONSTANTS)
loading.has_package("PIL", "Image")
import mapscript
from mapconvert import hidden, layers, shapes
from mapconvert.report import Node, Report

for name, value in CONSTANTS.items():
    if not hasattr(mapscript, name):
        setattr(mapscript, name, value)
convert = loading.script("deploy/convert")
OVER = -1


def layer_of(**given):
    """A layer as MapServer has it, with its defaults."""
    values = dict(cluster=SimpleNamespace(region=None), name="a", type=mapscript.MS_LAYER_LINE, requires=None, compositer=None, metadata={}, getGeomTransform=lambda: None)
    return SimpleNamespace(**{**values, **given})


def composite(*given):
    """A chain of COMPOSITE blocks, each an opacity and an operation."""
    made = None
    for opacity, operation in reversed(given):
        made = SimpleNamespace(opacity=opacity, comp_op=operation, next=made)
    return made


class Whole(unittest.TestCase):
    def test_a_layer_that_is_laid_on_the_map_nowhere(self):
        rows = [
            ([], None), ([(100, OVER)], None), ([(50, OVER)], None), ([(0, OVER)], "COMPOSITE"), ([(0, OVER), (40, OVER)], None), ([(0, OVER), (0, OVER)], "COMPOSITE"),
            ([(100, mapscript.MS_COMPOP_DST)], "COMPOSITE"), ([(100, mapscript.MS_COMPOP_CLEAR)], "COMPOSITE"),
        ]
        for given, word in rows:
            found = hidden.why(layer_of(compositer=composite(*given)))
            self.assertEqual(found and found[0], word, given)

    def test_a_layer_on_a_condition(self):
        rows = [("1", None), ("", None), ("0", "REQUIRES: MapServer draws nothing of it"), ("[b]", "REQUIRES: it goes by other layers"), ("1 OR [b]", "REQUIRES: it goes by other layers")]
        for requires, words in rows:
            found = hidden.why(layer_of(requires=requires))
            self.assertEqual(found and found[1], words, requires)

    def test_why_a_layer_is_none_here(self):
        map = SimpleNamespace(web=SimpleNamespace(metadata={"ows_enable_request": "*"}))
        rows = [
            ({}, {}, None), ({"name": None}, {}, "NAME"), ({"name": ""}, {}, "NAME"), ({"name": None}, {"nameless": True}, None), ({"type": 3}, {}, "TYPE"),
            ({"metadata": {"wms_enable_request": "!GetMap"}}, {"nameless": True}, "METADATA"), ({"requires": "0"}, {"open": True}, "REQUIRES"),
            ({"getGeomTransform": lambda: "(buffer([shape],1))"}, {}, "GEOMTRANSFORM"),
        ]
        for given, options, word in rows:
            found = convert.why_not(map, layer_of(**given), SimpleNamespace(**{"open": False, "nameless": False, **options}))
            self.assertEqual(found and found[0], word, given)


class Sizes(unittest.TestCase):
    def feature(self, *parts):
        return SimpleNamespace(parts=[[(str(x), str(y)) for x, y in part] for part in parts])

    def test_a_feature_is_so_long_up_to_a_scale(self):
        # 5 degrees from corner to corner are 100 pixels of 0.05 degrees: 5,565.97455 m in 0.28 mm
        self.assertAlmostEqual(hidden.scale_of_length(self.feature([(1, 2), (4, 2), (4, 6)]), 100), 19_878_480.5357, 3)
        self.assertAlmostEqual(hidden.scale_of_length(self.feature([(1, 2)], [(4, 6)]), 50), 39_756_961.0714, 3)
        self.assertEqual(hidden.scale_of_length(self.feature([(1, 2)]), 50), 0)

    def test_features_that_are_drawn_at_no_scale_of_the_layer_are_left_out(self):
        long, short, point = self.feature([(0, 0), (3, 4)]), self.feature([(0, 0), (0.3, 0.4)]), self.feature([(1, 1)])
        kept, (low, high) = hidden.drawn_by_size([long, short, point], 100, 0)
        self.assertEqual((kept, round(low), round(high)), ([long, short], 1_987_848, 19_878_481))
        self.assertEqual(hidden.drawn_by_size([long, short, point], 100, 2_000_000)[0], [long])
        self.assertEqual(hidden.drawn_by_size([long, short], 100, 20_000_000), ([], (0, 0)))

    def test_a_layer_shows_up_to_the_scale_of_its_largest_feature(self):
        long, short = self.feature([(0, 0), (3, 4)]), self.feature([(0, 0), (0.3, 0.4)])
        rows = [([long, short], "LINE", -1, 1, 19_878_480.5357, (0, 1)), ([long], "LINE", -1, 1.25, 15_902_784.4286, (1, 0)), ([long], "LINE", 5000, 1, 5000, (1, 0)), ([long], "POINT", -1, 1, -1, (0, 0))]
        for features, kind, most, factor, shown, counts in rows:
            writer = layers.LayerWriter.__new__(layers.LayerWriter)
            writer.layer, writer.options = SimpleNamespace(minfeaturesize=100, minscaledenom=-1, maxscaledenom=most), SimpleNamespace(factor=factor)
            writer.kind, writer.features, writer.report, writer.node = kind, features, Report(), Node(("m.map", 7))
            writer.hide_small_features()
            self.assertAlmostEqual(writer.layer.maxscaledenom, shown, 3)
            self.assertEqual((writer.report.changes, writer.report.exposed), counts)


class Extents(unittest.TestCase):
    def test_features_beyond_an_extent_are_counted(self):
        features = [Sizes.feature(None, *parts) for parts in ([[(1, -2), (3, 5)]], [[(1, 1)], [(3, 5.5)]], [[(0.9, 2)]], [[(2, -2.5)]], [[(3.0000005, 2)]], [[(4, 2)]])]
        self.assertEqual(hidden.beyond(features, (1, -2, 3, 5)), 4)
        self.assertEqual([hidden.beyond([feature], (1, -2, 3, 5)) for feature in features], [0, 1, 1, 1, 0, 1])

    def test_they_are_reported(self):
        for sides, exposed in (((1, 1, 3, 4), 1), ((0, 0, 5, 5), 0), ((-1, -1, -1, -1), 0), ((3, 1, 1, 4), 0)):
            writer = layers.LayerWriter.__new__(layers.LayerWriter)
            writer.layer = SimpleNamespace(extent=SimpleNamespace(**dict(zip(("minx", "miny", "maxx", "maxy"), sides))))
            writer.features, writer.report, writer.node = [Sizes.feature(None, [(1, 1), (4, 2)])], Report(), Node(("m.map", 7))
            with mock.patch.object(shapes.mapscript, "rectObj", lambda *sides: writer.layer.extent, create=True):
                writer.look_beyond_extent(None)
            self.assertEqual(writer.report.exposed, exposed, sides)


class Mapfiles(unittest.TestCase):
    def refused(self, web, layer, *options):
        """Why there is no map, and the lines of what is shown."""
        map = SimpleNamespace(web=SimpleNamespace(metadata=web), numlayers=1, getLayer=lambda number: layer_of(metadata=layer))
        report = Report()
        try:
            convert.refuse_closed(map, convert.options_of(["m.map", "folder", *options]), report, SimpleNamespace(map=Node(("m.map", 1))))
        except convert.NoMap as why:
            return str(why)
        return report.exposed

    def test_a_map_that_mapserver_shows_to_some_addresses_is_none(self):
        opened = {"ows_enable_request": "*"}
        for listed in ("wms_allowed_ip_list", "ows_allowed_ip_list", "wms_denied_ip_list", "ows_denied_ip_list"):
            self.assertIn(f"m.map: {listed} has MapServer answer some addresses alone", self.refused({**opened, listed: "10.1.1.1"}, {}))
            self.assertEqual(self.refused({**opened, listed: "10.1.1.1"}, {}, "--shown"), 0)
        self.assertEqual(self.refused({**opened, "wfs_allowed_ip_list": "10.1.1.1"}, {}), 0)

    def test_a_map_that_mapserver_answers_no_request_of_is_none(self):
        self.assertIn("m.map has no enable_request", self.refused({}, {}))
        self.assertIn("m.map has no enable_request", self.refused({}, {}, "--shown"))
        self.assertEqual([self.refused({}, {}, "--open"), self.refused({"wms_enable_request": "*"}, {}), self.refused({}, {"wms_enable_request": "*"})], [1, 0, 0])

    def test_a_layer_that_nothing_opens_is_shown_where_that_is_wanted(self):
        rows = [({}, [{}], False), ({}, [{}, {"ows_enable_request": "*"}], True), ({"ows_enable_request": "*"}, [{}], False), ({"ows_enable_request": "GetMap"}, [{}], True)]
        for web, given, is_more in rows:
            found = [layer_of(metadata=metadata) for metadata in given]
            map = SimpleNamespace(web=SimpleNamespace(metadata=web), numlayers=len(found), getLayer=lambda number: found[number])
            self.assertEqual(convert.opens_more(map, found[0]), is_more, (web, given))


if __name__ == "__main__":
    unittest.main()
