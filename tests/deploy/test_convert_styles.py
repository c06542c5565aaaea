#!/usr/bin/python3
"""What deploy/convert makes of styles, labels and names, where mapscript is or a stand-in for it."""
import pathlib
import sys
import unittest
from types import SimpleNamespace

sys.path.insert(0, str(pathlib.Path(__file__).resolve().parents[1] / "lib"))

import loading

CONSTANTS = {
    "MS_LAYER_POINT": 0, "MS_LAYER_LINE": 1, "MS_LAYER_POLYGON": 2, "MS_OFF": 0, "MS_ON": 1, "MS_TRUE": 1, "MS_NONE": 0,
    "MS_STYLE_BINDING_LENGTH": 12, "MS_SYMBOL_PIXMAP": 1003, "MS_LABEL_BINDING_SIZE": 0, "MapServerError": OSError,
}
loading.has_package("mapscript", **CONSTANTS)
loading.has_package("PIL", "Image")
from mapconvert import labels, layers, styles
from mapconvert.report import Node, Report

convert = loading.script("deploy/convert")
NONE = SimpleNamespace(red=-1, green=-1, blue=-1, alpha=255)


def colour(red, green, blue, alpha=255):
    return SimpleNamespace(red=red, green=green, blue=blue, alpha=alpha)


def style_of(**given):
    """A style as MapServer has it, with its defaults."""
    values = dict(color=NONE, outlinecolor=NONE, symbol=0, symbolname=None, size=-1, width=1, outlinewidth=0, gap=0, patternlength=0, opacity=100,
                  offsetx=0, offsety=0, minscaledenom=-1, maxscaledenom=-1, rangeitem=None, minvalue=0, maxvalue=0)
    made = SimpleNamespace(**{**values, **given})
    made.getGeomTransform, made.getBinding = lambda: None, lambda number: None
    return made


class Painting(unittest.TestCase):
    def setUp(self):
        self.report, self.marks = Report(), None

    def of(self, kind, *given):
        map = SimpleNamespace(imagecolor=colour(200, 210, 220))
        made = styles.Styles(map, None, kind, self.marks, self.report, Node(("m.map", 7)))
        return made.of(0, SimpleNamespace(numstyles=len(given), getStyle=lambda at: given[at]), 0, {})

    def said(self):
        return [line.split(": ", 1)[1] for line in self.report.text().splitlines()[:-1]]

    def test_a_line_has_a_colour_and_a_whole_width(self):
        self.assertEqual(self.of("LINE", style_of(color=colour(10, 20, 30), width=2.5)), [["COLOR 10 20 30", "WIDTH 3"]])
        self.assertEqual(self.said(), ["changed: the width 2.5 is 3"])
        self.assertEqual(self.of("LINE", style_of(width=2)), [])

    def test_an_outline_of_a_line_lies_below_it(self):
        style = style_of(color=colour(10, 20, 30), outlinecolor=colour(40, 50, 60), width=4, outlinewidth=2)
        self.assertEqual(self.of("LINE", style), [["COLOR 40 50 60", "WIDTH 8"], ["COLOR 10 20 30", "WIDTH 4"]])

    def test_a_casing_shows_equally_on_both_sides(self):
        rows = [
            ([3, 1.5], [3, 1]), ([5, 4], [6, 4]), ([2.8, 2], [4, 2]), ([3, 2], [4, 2]), ([2.2, 2], [2, 2]), ([9, 7, 1], [9, 7, 1]), ([9, 6, 1.5], [10, 6, 2]),
            ([1, 3], [1, 3]), ([40, 30], [32, 30]), ([5, 3, 6.5], [5, 3, 7]), ([2.5], [3]), ([0.4], [1]), ([], []),
        ]
        for widths, kept in rows:
            self.assertEqual(styles.cased(widths, 32), kept, widths)

    def test_what_changes_for_a_casing_is_reported(self):
        given = [style_of(color=colour(10, 20, 30), width=3), style_of(color=colour(40, 50, 60), width=1.5)]
        self.assertEqual(self.of("LINE", *given), [["COLOR 10 20 30", "WIDTH 3"], ["COLOR 40 50 60", "WIDTH 1"]])
        self.assertEqual(self.said(), ["changed: the width 1.5 is 1, so that a casing is as wide on both sides"])

    def test_units_are_those_of_the_projection(self):
        if not hasattr(styles.mapscript, "projectionObj"):
            self.skipTest("python3-mapscript is missing")
        found = []
        for system in ("init=epsg:4326", "init=epsg:3857", None, "AUTO"):
            map = SimpleNamespace(getProjection=lambda: system)
            styles.take_units(map)
            found.append(map.units)
        self.assertEqual(found, [5, 3, 5, 5])

    def test_marks_along_a_line_are_left_out(self):
        self.assertEqual(self.of("LINE", style_of(color=colour(10, 20, 30), symbol=3, gap=20)), [])
        self.assertEqual(self.said(), ["left out: GAP: no marks along a line"])

    def test_a_symbol_of_a_line_gives_its_size(self):
        self.assertEqual(self.of("LINE", style_of(color=colour(10, 20, 30), symbol=3, size=6)), [["COLOR 10 20 30", "WIDTH 6"]])
        self.assertEqual(self.report.losses, 1)

    def test_a_polygon_has_a_fill_and_an_outline(self):
        style = style_of(color=colour(10, 20, 30), outlinecolor=colour(40, 50, 60), width=3)
        self.assertEqual(self.of("POLYGON", style), [["COLOR 10 20 30", "OUTLINECOLOR 40 50 60", "WIDTH 3"]])
        self.assertEqual(self.of("POLYGON", style_of()), [])

    def test_a_pattern_is_mixed_over_the_fill_below_it_and_an_outline_without_one(self):
        def in_place_of(style, below):
            asked.append(below)
            return ("1 2 3", None) if below else (None, "4 5 6")

        asked, self.marks = [], SimpleNamespace(in_place_of=in_place_of)
        hatch = style_of(color=colour(10, 20, 30), symbol=4, size=8, width=2)
        self.assertEqual(self.of("POLYGON", style_of(color=colour(100, 120, 140)), hatch, hatch), [["COLOR 100 120 140"], ["COLOR 1 2 3"], ["COLOR 1 2 3"]])
        # the ground below the second is what the first has painted
        self.assertEqual(asked, ["100 120 140", "1 2 3"])
        self.assertEqual(self.of("POLYGON", hatch), [["OUTLINECOLOR 4 5 6", "WIDTH 1"]])
        own = style_of(color=colour(10, 20, 30), outlinecolor=colour(70, 80, 90), symbol=4, size=8, width=2)
        self.assertEqual(self.of("POLYGON", own), [["OUTLINECOLOR 70 80 90", "WIDTH 1"]])
        self.assertEqual(self.said(), [
            "left out: SYMBOL of a polygon: it is filled in the mean colour 1 2 3",
            "left out: SYMBOL of a polygon: it is an outline alone, in the colour 4 5 6, as the ground shows through",
            "left out: SYMBOL of a polygon: it is an outline alone, in the colour 70 80 90, as the ground shows through",
        ])

    def test_a_thin_outline_has_a_mixed_colour_over_what_lies_below(self):
        # 0.25 of 40 50 60 with 0.75 of 10 20 30, of 100 120 140 and of the ground, 200 210 220
        thin = {"outlinecolor": colour(40, 50, 60), "width": 0.25}
        self.assertEqual(self.of("POLYGON", style_of(color=colour(10, 20, 30), **thin))[0][1:], ["OUTLINECOLOR 18 28 38", "WIDTH 1"])
        self.assertEqual(self.of("POLYGON", style_of(color=colour(100, 120, 140)), style_of(**thin))[1], ["OUTLINECOLOR 85 103 120", "WIDTH 1"])
        self.assertEqual(self.of("POLYGON", style_of(**thin)), [["OUTLINECOLOR 160 170 180", "WIDTH 1"]])

    def test_what_has_no_counterpart_is_reported(self):
        self.of("LINE", style_of(color=colour(10, 20, 30, 100), patternlength=2, offsetx=3, minscaledenom=1000, rangeitem="pop"))
        self.assertEqual([line.split(":")[0] + ":" + line.split(":")[1].split(" of ")[0] for line in self.said()], [
            "left out: PATTERN", "left out: OPACITY", "left out: OFFSET", "left out: RANGEITEM without a DATARANGE", "shown: MINSCALEDENOM",
        ])

    def test_what_mapserver_paints_nothing_of_is_not_painted(self):
        clear = style_of(color=colour(10, 20, 30), outlinecolor=colour(40, 50, 60), opacity=0)
        self.assertEqual([self.of(kind, clear) for kind in ("LINE", "POLYGON", "POINT")], [[], [], []])
        self.assertEqual(self.of("LINE", style_of(color=colour(10, 20, 30), width=0)), [])
        self.assertEqual(self.of("POLYGON", style_of(color=colour(10, 20, 30), outlinecolor=colour(40, 50, 60), width=0)), [["COLOR 10 20 30"]])
        # an outline of a line has a width of its own
        self.assertEqual(self.of("LINE", style_of(color=colour(10, 20, 30), outlinecolor=colour(40, 50, 60), width=0, outlinewidth=2)), [["COLOR 40 50 60", "WIDTH 4"]])


def label_of(**given):
    """A label as MapServer has it, with its defaults."""
    values = dict(color=colour(10, 20, 30), outlinecolor=NONE, outlinewidth=1, position=110, priority=1, buffer=0, mindistance=-1, partials=0, force=0, font="sans",
                  size=9, minsize=4, maxsize=256, wrap="", numstyles=0, angle=0, anglemode=labels.mapscript.MS_NONE, rule=None, text="[name]", bound=None)
    made = SimpleNamespace(**{**values, **given})
    made.getExpressionString, made.getTextString = lambda: made.rule, lambda: made.text
    made.getBinding = lambda number: made.bound if number == 0 else None
    return made


def labels_of(*given, requires=None, item=None):
    """The labels of a layer whose classes have these, or none."""
    kinds = [SimpleNamespace(number=at + 4, given=SimpleNamespace(numlabels=int(label is not None), getLabel=lambda _, label=label: label, getTextString=lambda: None))
             for at, label in enumerate(given)]
    made = labels.Labels(SimpleNamespace(labelrequires=requires, labelitem=item), kinds, Report(), Node(("m.map", 7)))
    made.fonts = fonts_of([], 72)
    return made


def fonts_of(asked, resolution):
    """The fonts of a map of a resolution, of which each is called sans-9; those that are asked for are noted."""
    return SimpleNamespace(map=SimpleNamespace(resolution=resolution, defresolution=72), name_of=lambda named, size, place: asked.append((named, size)) or "sans-9")


class Labels(unittest.TestCase):
    def label(self, resolution=72, scale=1, **given):
        """The lines of a label but its FONT, in a map of a resolution; `fonts` has the FONT and the size that are asked for."""
        made, self.fonts = labels_of(label_of(**given)), []
        made.scale, made.fonts = scale, fonts_of(self.fonts, resolution)
        lines, label = made.lines(0, False)
        self.assertEqual(lines[-1] if label else None, 'FONT "sans-9"' if label else None)
        self.report = made.report
        return lines and lines[:-1]

    def test_the_plainest(self):
        self.assertEqual(self.label(), ["COLOR 10 20 30", "POSITION AUTO", "PRIORITY 1"])
        self.assertEqual(self.fonts, [("sans", 9)])

    def test_a_size_is_that_at_which_mapserver_draws(self):
        rows = [({"size": 9.6}, 9), ({"size": 9, "resolution": 96}, 12), ({"size": 9, "scale": 2}, 18), ({"size": 2}, 4), ({"size": 20, "maxsize": 12}, 12), ({"size": 2, "minsize": 6, "resolution": 144}, 12)]
        for given, size in rows:
            self.label(**given)
            self.assertEqual(self.fonts, [("sans", size)], given)
        # MapServer gives 1 for a size that is bound to an item
        self.label(size=1, bound="height")
        self.assertEqual(self.fonts, [("sans", 10)])

    def test_all_of_it(self):
        lines = self.label(outlinecolor=colour(40, 50, 60), outlinewidth=3, position=104, priority=7, buffer=3, mindistance=80, partials=1, force=1, font=None)
        self.assertEqual(lines[1:], ["OUTLINECOLOR 40 50 60", "OUTLINEWIDTH 2", "POSITION LL", "PRIORITY 7", "BUFFER 3", "MINDISTANCE 80", "PARTIALS TRUE", "FORCE TRUE"])
        self.assertEqual(self.fonts, [(None, 9)])

    def test_counts_stay_in_their_bounds(self):
        lines = self.label(outlinecolor=colour(40, 50, 60), outlinewidth=20)
        self.assertEqual(lines[2], "OUTLINEWIDTH 8")
        self.assertNotIn("OUTLINEWIDTH 2", self.label(outlinewidth=2))

    def test_an_outline_reaches_as_far_as_mapservers(self):
        for width, reach in ((2, "OUTLINEWIDTH 2"), (4, "OUTLINEWIDTH 3"), (8, "OUTLINEWIDTH 5"), (9, "OUTLINEWIDTH 5")):
            self.assertEqual(self.label(outlinecolor=colour(40, 50, 60), outlinewidth=width)[2], reach)
        self.assertEqual(self.label(outlinecolor=colour(40, 50, 60), outlinewidth=1)[2], "POSITION AUTO")

    def test_labels_keep_their_bounds(self):
        lines = self.label(priority=12, buffer=99, mindistance=5000)
        self.assertEqual(lines[2:], ["PRIORITY 10", "BUFFER 64", "MINDISTANCE 4096"])

    def test_another_position_is_auto(self):
        self.assertEqual((self.label(position=112)[1], self.report.changes), ("POSITION AUTO", 1))

    def test_what_has_no_counterpart_is_reported(self):
        self.label(angle=30, wrap="|", numstyles=1)
        self.assertEqual(self.report.losses, 3)

    def test_what_is_bound_is_reported(self):
        if not hasattr(labels.mapscript, "MS_LABEL_BINDING_LENGTH"):
            self.skipTest("python3-mapscript is missing")
        made = labels_of(label_of(bound="hue", color=NONE), label_of())
        self.assertEqual(made.report.text(), "m.map:7: left out: [hue] of a LABEL: it is drawn as if this weren't given\n0 changed, 1 left out\n")

    def test_letters_that_are_not_drawn_are_not_black(self):
        self.assertEqual(self.label(color=NONE, outlinecolor=colour(40, 50, 60))[:2], ["COLOR -1 -1 -1", "OUTLINECOLOR 40 50 60"])
        for clear in (NONE, colour(10, 20, 30, 0)):
            self.assertIsNone(self.label(color=clear), clear)


class LabelsOfFeatures(unittest.TestCase):
    VALUES = {"NAME": "Ada", "secret": "hunter2"}

    def text(self, made, *found, given=None):
        return made.text([(at, 0) for at in found], self.VALUES, given)

    def test_the_text_is_that_of_the_first_class_with_a_label(self):
        made = labels_of(None, label_of(text="[name]!"), label_of(text="[name]?"))
        self.assertEqual([self.text(made, 0), self.text(made, 0, 2), self.text(made, 2, 1), made.report.changes], [None, "Ada?", "Ada?", 1])
        self.assertEqual([self.text(made, 1, given="own"), self.text(made, 0, given="own")], ["own", "own"])

    def test_an_expression_is_evaluated_for_each_feature(self):
        made = labels_of(label_of(rule='("[NAME]" = "Ada")'), label_of(rule='("[name]" = "Ben")'), label_of(rule='"Ada"'), item="Name")
        self.assertEqual([self.text(made, at) for at in range(3)], ["Ada", None, "Ada"])
        # nor is it by a text of the feature's own
        self.assertEqual([self.text(made, at, given="own") for at in range(3)], ["own", None, "own"])
        self.assertEqual(made.report.losses, 0)

    def test_a_label_whose_expression_is_not_evaluated_is_left_out(self):
        made = labels_of(label_of(rule='("[n]" = "zzz")', text="[secret]"), item="secret")
        self.assertIsNone(self.text(made, 0))
        self.assertIn('left out: EXPRESSION ("[n]" = "zzz") of a LABEL: it isn\'t drawn, as [n] is no item', made.report.text())

    def test_what_is_hidden_at_some_scales_is_not_shown_at_others(self):
        made = labels_of(label_of(), label_of(rule="(1 = 2)"), label_of(rule="(1 = 2)"))
        self.assertEqual([self.text(made, 0, 1), self.text(made, 1, 0), self.text(made, 1, 2), made.report.losses], [None, None, None, 1])

    def test_labels_on_a_condition_are_left_out_unless_it_always_holds(self):
        for requires, is_drawn in ((None, True), ("", True), ("1", True), ("(2 > 1)", True), ("0", False), ("[park]", False), ("![park]", False), ("1 OR [park]", False)):
            made = labels_of(label_of(), requires=requires)
            found = self.text(made, 0), made.lines(0, True)[0] is not None, made.report.losses == 0
            self.assertEqual(found, ("Ada" if is_drawn else None, is_drawn, is_drawn), requires)


class Layers(unittest.TestCase):
    def blocks(self, name, taken, *styles, metadata=None):
        """The names of the layers that one layer of lines becomes, each with the styles that it has."""
        writer = layers.LayerWriter.__new__(layers.LayerWriter)
        writer.kind, writer.report, writer.node = "LINE", Report(), Node(("m.map", 7))
        kind = SimpleNamespace(number=0, given=None, values_of=lambda part: {})
        writer.written, writer.styled = lambda: [(0, kind, 0, None, None)], SimpleNamespace(of=lambda *_: list(styles))
        writer.class_blocks, writer.whole = lambda chosen, has_labels: (chosen(0, 0), has_labels), lambda name, blocks, title, is_top: (*blocks, title, is_top)
        writer.layer = SimpleNamespace(metadata=metadata or {})
        return writer.blocks(name, taken)

    def test_outer_styles_of_lines_are_layers_below(self):
        self.assertEqual(self.blocks("roads", {"roads"}, "outer", "middle", "inner"), [
            ("roads_below1", (["outer"], False, "roads", False)), ("roads_below2", (["middle"], False, "roads", False)), ("roads", (["inner"], True, None, True)),
        ])
        self.assertEqual(self.blocks("roads", {"roads"}, "one"), [("roads", (["one"], True, None, True))])

    def test_a_class_without_a_name_has_the_title_of_its_text(self):
        writer = layers.LayerWriter.__new__(layers.LayerWriter)
        writer.is_telling, writer.classes = lambda rule: rule is not None, SimpleNamespace(is_computed=False)
        titles = []
        for text, rule in (('"Local"', "r"), ("Local", None), ('"[name]"', None), ('"[name]"', "r"), ('("a" + "b")', "r"), (None, "r"), (None, None)):
            titles.append(writer.unnamed_title(SimpleNamespace(number=4, given=SimpleNamespace(getTextString=lambda: text)), rule))
        self.assertEqual(titles, ["Local", "Local", None, "5", "5", "5", None])

    def test_a_class_by_the_computed_item_has_the_title_of_its_rule_or_its_number(self):
        writer = layers.LayerWriter.__new__(layers.LayerWriter)
        ruled = SimpleNamespace(given=SimpleNamespace(getExpressionString=lambda: "/a/"))
        writer.classes, writer.names, writer.options = SimpleNamespace(is_computed=True, kinds=[ruled]), ["kind", "debt"], SimpleNamespace(open=False)
        writer.layer = SimpleNamespace(classitem="kind", metadata={"wms_include_items": "kind"})
        rows = [("/^(oak|ash)/", "^(oak|ash)"), ('"Oak"i', "Oak"), ("{a,b}", "a, b"), ("(length('[kind]') > 3)", "length('kind') > 3"), ("([debt] > 50)", "5"), (None, "others")]
        for rule, title in rows:
            kind = SimpleNamespace(number=4, given=SimpleNamespace(getTextString=lambda: None, getExpressionString=lambda: rule))
            self.assertEqual(writer.unnamed_title(kind, "{5}"), title, rule)
        writer.layer.classitem = "debt"
        self.assertEqual(writer.unnamed_title(SimpleNamespace(number=4, given=SimpleNamespace(getTextString=lambda: None, getExpressionString=lambda: "/rich/")), "{5}"), "5")

    def test_they_have_one_title(self):
        made = self.blocks("roads", {"roads"}, "outer", "inner", metadata={"ows_title": "Streets"})
        self.assertEqual([block[2] for _, block in made], ["Streets", "Streets"])

    def test_their_names_are_none_of_other_layers(self):
        taken = {"roads", "roads_below1"}
        self.assertEqual([name for name, _ in self.blocks("roads", taken, "outer", "middle", "inner")], ["roads_below1_", "roads_below2", "roads"])
        # and later layers see them
        self.assertEqual(taken, {"roads", "roads_below1", "roads_below1_", "roads_below2"})


class Names(unittest.TestCase):
    def name(self, given, taken):
        return convert.name_of(SimpleNamespace(name=given), 4, taken, Report(), ("m.map", 7))

    def test_names_are_there_and_differ(self):
        taken = {"roads", "roads_"}
        self.assertEqual([self.name(given, taken) for given in ("rivers", "roads", "a,b", None, "rivers")], ["rivers", "roads__", "a_b", "layer5", "rivers_"])

    def test_what_the_map_offers_is_what_mapserver_offers(self):
        def offered(projection, **metadata):
            map = SimpleNamespace(web=SimpleNamespace(metadata=metadata), getProjection=lambda: projection)
            return [line.split('"')[3] for line in convert.offered_lines(map)]

        self.assertEqual(offered(None), ["image/png"])
        self.assertEqual(offered("init=epsg:3857", wms_getmap_formatlist="image/jpeg"), ["EPSG:3857"])
        self.assertEqual(offered(None, ows_getmap_formatlist="image/jpeg,image/png", wms_srs="EPSG:4326 EPSG:900913"), ["image/png", "EPSG:3857"])
        self.assertEqual(offered("init=epsg:38571", wms_getmap_formatlist="image/pngx"), [])

    def test_the_size_of_a_view(self):
        self.assertEqual([convert.size_of(text) for text in ("100", "2048")], [100, 2048])
        for text in ("99", "2049", "-200", "x"):
            with self.assertRaises(convert.argparse.ArgumentTypeError):
                convert.size_of(text)


if __name__ == "__main__":
    unittest.main()
