#!/usr/bin/python3
"""What deploy/features writes of shapes and values; GDAL isn't called."""
import contextlib
import csv
import io
import json
import os
import pathlib
import re
import sys
import tempfile
import unittest
from types import SimpleNamespace

sys.path.insert(0, str(pathlib.Path(__file__).resolve().parents[1] / "lib"))

import loading
import vectors

features = loading.script("deploy/features")


class Reporting(unittest.TestCase):
    """A test that looks at what was reported."""

    def setUp(self):
        self.report, self.said = vectors.Report(), []
        self.report.say = self.said.append


class Numbers(unittest.TestCase):
    def test_coordinates_are_rounded_to_millionths_a_half_away_from_zero(self):
        rows = [("12.3456785", "12.345679"), ("-12.3456785", "-12.345679"), ("7.50", "7.5"), ("-0.0000004", "0"), ("1e2", "100"), ("1000.0000004", "1000")]
        for text, kept in rows:
            self.assertEqual(vectors.coordinate(text), kept, text)

    def test_coordinates_go_to_1000_degrees(self):
        for text in ("1000.0000005", "-1001", "1e400", "NaN", "Infinity"):
            with self.assertRaises(vectors.Shape, msg=text):
                vectors.coordinate(text)

    def test_values_are_texts_as_gdal_writes_them(self):
        rows = [("null", ""), ("true", "1"), ("false", "0"), ('"a\u00e4"', "a\u00e4"), ("12", "12"), ("12.0", "12"), ("0.50", "0.50"), ("-3.25", "-3.25")]
        for text, value in rows:
            self.assertEqual(vectors.text_of(vectors.parsed(text)), value, text)

    def test_lists_and_objects_are_json(self):
        for text in ('["a", "\u00e4\\n"]', "[1, 2.5]", '{"a": [1, true, null], "b": "2"}', "[]"):
            self.assertEqual(vectors.text_of(vectors.parsed(text)), text)


class Shapes(unittest.TestCase):
    def shape(self, form, coordinates, **more):
        return vectors.shape_of(vectors.parsed(json.dumps({"type": form, "coordinates": coordinates, **more})))

    def test_each_kind_has_its_parts(self):
        rows = [
            ("Point", [1, 2], ("POINT", [[("1", "2")]])),
            ("MultiPoint", [[1, 2], [1, 2], [3, 4]], ("POINT", [[("1", "2"), ("1", "2"), ("3", "4")]])),
            ("LineString", [[1, 2], [3, 4], [1, 2]], ("LINE", [[("1", "2"), ("3", "4"), ("1", "2")]])),
            ("MultiLineString", [[[1, 2], [3, 4]], [[5, 6], [7, 8]]], ("LINE", [[("1", "2"), ("3", "4")], [("5", "6"), ("7", "8")]])),
            # a ring ends at its first place without naming it again
            ("Polygon", [[[0, 0], [9, 0], [9, 8], [0, 0]], [[1, 1], [2, 1], [2, 2], [1, 1]]],
             ("POLYGON", [[("0", "0"), ("9", "0"), ("9", "8")], [("1", "1"), ("2", "1"), ("2", "2")]])),
            ("MultiPolygon", [[[[0, 0], [9, 0], [9, 8], [0, 0]]], [[[1, 1], [2, 1], [2, 2], [1, 1]]]],
             ("POLYGON", [[("0", "0"), ("9", "0"), ("9", "8")], [("1", "1"), ("2", "1"), ("2", "2")]])),
        ]
        for form, coordinates, shape in rows:
            self.assertEqual(self.shape(form, coordinates), shape, form)

    def test_places_that_are_equal_once_rounded_are_one(self):
        self.assertEqual(self.shape("LineString", [[1, 2], [1.0000001, 2], [3, 4]]), ("LINE", [[("1", "2"), ("3", "4")]]))

    def test_a_collection_of_one_kind_is_one_shape(self):
        members = [{"type": "Point", "coordinates": [1, 2]}, {"type": "MultiPoint", "coordinates": [[3, 4]]}]
        self.assertEqual(self.shape("GeometryCollection", None, geometries=members), ("POINT", [[("1", "2")], [("3", "4")]]))
        for others in ([], [members[0], {"type": "LineString", "coordinates": [[1, 2], [3, 4]]}]):
            with self.assertRaises(vectors.Shape):
                self.shape("GeometryCollection", None, geometries=others)

    def test_what_has_no_place_in_a_mapfile_is_told(self):
        for form, coordinates in (("Point", []), ("Polygon", []), ("LineString", [[]] * 0), ("Curve", [[1, 2]])):
            with self.assertRaises(vectors.Shape, msg=form):
                self.shape(form, coordinates)
        with self.assertRaises(vectors.Shape):
            vectors.shape_of(None)

    def test_a_feature_has_at_most_65536_vertices(self):
        places = [[at % 360, at % 90] for at in range(65_537)]
        self.assertEqual(len(self.shape("MultiPoint", places[:-1])[1][0]), 65_536)
        with self.assertRaises(vectors.Shape):
            self.shape("MultiPoint", places)


class Values(Reporting):
    def value(self, **values):
        return vectors.values_of(vectors.Feature("7", values, "POINT", []), dict.fromkeys(values), self.report)

    def test_values_stand_between_semicolons(self):
        self.assertEqual(self.value(a="x", b="", c="y z"), '"x;;y z"')
        # those at the end that are empty need none
        self.assertEqual(self.value(a="x", b="", c=""), '"x"')
        self.assertEqual(self.said, [])

    def test_what_a_mapfile_cannot_hold_is_replaced_and_reported(self):
        self.assertEqual(self.value(a="1;2", b="\x07"), '"1,2;?"')
        self.assertEqual((self.report.replaced, [line.split(":")[0] for line in self.said]), (2, ["feature 7, field a", "feature 7, field b"]))

    def test_one_kind_of_quotes_is_kept(self):
        self.assertEqual(self.value(a='6"', b="x"), "'6\";x'")
        self.assertEqual(self.value(a="it's"), '"it\'s"')
        self.assertEqual(self.report.replaced, 0)
        self.assertEqual(self.value(a="it's", b='6"'), '"it\'s;6\'"')
        self.assertEqual(self.report.replaced, 1)

    def test_the_longest_value_is_left_out_where_all_are_too_long(self):
        self.assertEqual(self.value(a="x" * 65_535), '"' + "x" * 65_535 + '"')
        self.assertEqual(self.value(a="x", b="\u00e4" * 40_000, c="y" * 40_001), '"x;;' + "y" * 40_001 + '"')
        self.assertEqual((self.report.left_out, self.said[0].split(":")[0]), (1, "feature 7, field b"))


class Items(Reporting):
    def test_names_differ_in_more_than_their_case(self):
        self.assertEqual(vectors.items_of(["name", "Name", "a,b", "NAME_"], [], "_", self.report), {"name": "name", "Name": "Name_", "a,b": "a_b", "NAME_": "NAME__"})

    def test_those_of_coordinates_are_taken(self):
        self.assertEqual(vectors.items_of(["X", "z"], ["x", "y"], ",", self.report), {"X": "X_", "z": "z"})

    def test_a_layer_has_64_of_them(self):
        fields = [f"f{number}" for number in range(65)]
        self.assertEqual(list(vectors.items_of(fields, [], "_", self.report)), fields[:64])
        self.assertEqual(list(vectors.items_of(fields, ["x", "y"], ",", self.report)), fields[:62])
        self.assertEqual(self.report.left_out, 1 + 3)


class Layers(Reporting):
    def setUp(self):
        super().setUp()
        self.features = [
            vectors.Feature("1", {"n": "a"}, "POINT", [[("10.5", "-20.25")], [("30", "40.125")]]),
            vectors.Feature("2", {"n": "b"}, "LINE", [[("1", "2"), ("3", "4")]]),
        ]

    def test_kinds_of_shapes_are_layers_of_their_own(self):
        lines = vectors.inline(self.features, ["n"], "roads", self.report)
        text = " ".join(" ".join(lines).split())
        self.assertEqual(re.findall(r'NAME "(\w+)" TYPE (\w+)', text), [("roads_line", "LINE"), ("roads_point", "POINT")])
        self.assertIn('FEATURE ITEMS "a" POINTS 10.5 -20.25 END POINTS 30 40.125 END END', text)
        self.assertIn('FEATURE ITEMS "b" POINTS 1 2 3 4 END END', text)
        self.assertEqual(text.count('PROCESSING "ITEMS=n"'), 2)

    def test_eight_places_stand_in_a_line(self):
        line = vectors.Feature("3", {}, "LINE", [[(str(at), "5") for at in range(9)]])
        self.assertEqual([row.strip() for row in vectors.block(line, {}, self.report)][2:4], ["0 5  1 5  2 5  3 5  4 5  5 5  6 5  7 5", "8 5"])

    def test_a_table_has_a_row_for_each_point(self):
        with tempfile.TemporaryDirectory() as folder:
            path = os.path.join(folder, "t.csv")
            self.features[0].values = {"x": 'q"', "n": "a,b"}
            lines = vectors.table(self.features, ["x", "n"], SimpleNamespace(csv=path), "p", self.report)
            with open(path, encoding="utf-8", newline="") as file:
                rows = list(csv.reader(file))
        self.assertEqual(rows, [["x_", "y", "x", "n"], ["10.5", "-20.25", 'q"', "a,b"], ["30", "40.125", 'q"', "a,b"]])
        self.assertEqual([line.strip() for line in lines if "CSV" in line], ['PROCESSING "CSV_X=x_"', 'PROCESSING "CSV_Y=y"'])
        # the line
        self.assertEqual(self.report.left_out, 1)

    def test_the_extent_is_that_of_the_features_outwards(self):
        lines = vectors.whole_map([], self.features, "m", self.report)
        self.assertIn("  EXTENT 1.00 -20.25 30.00 40.13", lines)

    def test_the_extent_of_one_place_is_a_degree_within_the_world(self):
        rows = [("7", "8", "6.50 7.50 7.50 8.50"), ("180", "-90", "179.50 -90.00 180.00 -89.50"), ("-179.8", "89.9", "-180.00 89.40 -179.30 90.00"), ("1000", "91", "999.50 90.50 1000.00 91.50")]
        for x, y, extent in rows:
            place = vectors.Feature("1", {}, "POINT", [[(x, y)]])
            self.assertIn(f"  EXTENT {extent}", vectors.whole_map([], [place], "m", self.report))


class Sources(unittest.TestCase):
    def test_the_arguments_go_to_gdal(self):
        words = ["s.shp", "--from", "EPSG:25832", "--where", "a > 3", "--fields", "a,b", "--simplify", "2.5", "--encoding", "CP1252"]
        made = vectors.command(features.options_of(words), "l")
        for pair in (("-s_srs", "EPSG:25832"), ("-where", "a > 3"), ("-select", "a,b"), ("-simplify", "2.5"), ("-oo", "ENCODING=CP1252"), ("-t_srs", "OGC:CRS84")):
            self.assertIn(pair, list(zip(made, made[1:])))
        self.assertEqual(made[-2:], ["s.shp", "l"])
        # no field at all is another wish than none that is named
        self.assertIn("-select", vectors.command(features.options_of(["s", "--fields", ""]), "l"))
        self.assertNotIn("-select", vectors.command(features.options_of(["s"]), "l"))

    def test_the_first_error_is_told(self):
        self.assertEqual(vectors.failure("Warning 1: x\nERROR 4: no file\nERROR 1: y\n"), "GDAL can't read the source: ERROR 4: no file")
        self.assertIn("say which by --from", vectors.failure("ERROR 1: source layer has no coordinate system"))
        self.assertEqual(vectors.failure(""), "GDAL can't read the source: it gave no reason")

    def test_what_was_left_out_is_counted_on_standard_error(self):
        report = vectors.Report()
        with contextlib.redirect_stderr(io.StringIO()) as said:
            report.leaves_out("feature 3", "why", 2)
            report.replaces("feature 4", "how")
        self.assertEqual((report.left_out, report.replaced), (2, 1))
        self.assertEqual(said.getvalue(), "features: feature 3: left out: why\nfeatures: feature 4: how\n")


if __name__ == "__main__":
    unittest.main()
