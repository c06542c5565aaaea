#!/usr/bin/python3
"""What deploy/lint shows of values, by the limits of docs/MAPFILE.md."""
import pathlib
import sys
import unittest

sys.path.insert(0, str(pathlib.Path(__file__).resolve().parents[1] / "lib"))

import loading

lint = loading.script("deploy/lint")


def shown(source):
    """The lines of differences for a map with this in it, each with its line."""
    linter = lint.Linter("m.map", f"MAP {source} END")
    linter.read_all()
    return [f"{line}: {words}" for line, is_difference, words in linter.found if is_difference]


def in_layer(source):
    return shown(f"LAYER NAME 'a' TYPE POINT {source} END")


def in_style(source):
    return in_layer(f"CLASS STYLE {source} END END")


class Counts(unittest.TestCase):
    def test_counts_have_bounds(self):
        rows = [("WIDTH", 1, 32), ("SIZE", 1, 256)]
        for word, least, most in rows:
            for value in (least, most, f"{most}.4"):
                self.assertEqual(in_style(f"{word} {value}"), [], value)
            for value, instead in ((least - 1, least), (most + 1, most), (f"{most}.5", most), ("-1e40", least), ("1e40", most)):
                self.assertEqual(in_style(f"{word} {value}"), [f"1: {value} is no value of {word}, which takes a count from {least} to {most}: write {instead}"])

    def test_what_is_no_count_gets_none_instead(self):
        self.assertEqual(in_style("\nSIZE 'large'"), ['2: "large" is no value of SIZE, which takes a count from 1 to 256'])
        self.assertEqual(in_style("SIZE [size]"), ["1: [size] is no value of SIZE, which takes a count from 1 to 256: write a CLASS for each value that occurs"])

    def test_a_keyword_takes_all_of_its_values(self):
        self.assertEqual(in_style("COLOR 10 20"), ["1: COLOR has too few values: it takes 3"])
        self.assertEqual(shown("EXTENT 1 2 3"), ["1: EXTENT has too few values: it takes 4"])

    def test_scales_go_to_a_million_million(self):
        self.assertEqual(in_layer("MINSCALEDENOM 1000000000000 MAXSCALEDENOM -5"), [])
        self.assertEqual(in_layer("MAXSCALEDENOM 1e13"), ["1: 1e13 is no value of MAXSCALEDENOM, which takes a number of at most 1,000,000,000,000"])


class Colours(unittest.TestCase):
    def test_three_counts_or_a_text(self):
        for value in ("10 20 30", "-1 -1 -1", "0 0 255.4", "'#0aF3b9'"):
            self.assertEqual(in_style(f"COLOR {value} SIZE 3"), [], value)

    def test_others_are_none(self):
        taken = "is no value of COLOR, which takes '#rrggbb' or three counts from -1 to 255"
        self.assertEqual(in_style("COLOR 10 256 -2"), [f"1: 256 {taken}"])
        self.assertEqual(in_style("COLOR -2 0 0"), [f"1: -2 {taken}"])
        self.assertEqual(in_style("COLOR '#0aF3b'"), [f'1: "#0aF3b" {taken}'])
        self.assertEqual(in_style("COLOR '#0aF3b980'"), [f'1: "#0aF3b980" {taken}: colours are opaque, leave out the last two digits'])
        self.assertEqual(in_style("COLOR [colour]"), [f"1: [colour] {taken}: write a CLASS for each value that occurs"])


class Extents(unittest.TestCase):
    def test_sides_are_degrees_in_their_order(self):
        self.assertEqual(shown("EXTENT -1000 -90 1000.0000004 90"), [])
        self.assertIn("EXTENT is in degrees", shown("EXTENT 3500000\n5000000 3600000 5100000")[0])
        self.assertEqual(shown("EXTENT 10 40 10\n60"), ["1: EXTENT has no area: write west, south, east and north"])
        self.assertEqual(shown("EXTENT 10 60 20\n40"), ["2: EXTENT has no area: write west, south, east and north"])

    def test_the_system_of_the_map_is_named(self):
        line = shown("PROJECTION 'init=epsg:25832' END EXTENT 3500000 1 2 3")[0]
        self.assertIn("gdaltransform -s_srs EPSG:25832 -t_srs EPSG:4326", line)


class Words(unittest.TestCase):
    def test_choices_are_read_in_either_case(self):
        self.assertEqual(shown("LAYER NAME 'a' TYPE polygon END LAYER NAME 'b' TYPE Line END"), [])
        self.assertEqual(shown("LAYER NAME 'a' TYPE raster END"), ["1: raster is no value of TYPE, which takes POINT or LINE or POLYGON: leave the layer out: rasters aren't drawn"])
        self.assertEqual(in_layer("TOLERANCEUNITS meters"), ["1: meters is no value of TOLERANCEUNITS, which takes PIXELS: write TOLERANCE in pixels"])

    def test_what_is_offered(self):
        self.assertEqual(shown("CONFIG 'WMS_FORMATS' 'image/png  image/x-portable-pixmap' CONFIG 'WMS_CRS' 'EPSG:3857'"), [])
        self.assertEqual(shown("CONFIG 'WMS_CRS' 'EPSG:25832'"), ['1: "EPSG:25832" is no value of CONFIG "WMS_CRS", which takes EPSG:3857'])

    def test_smoothing(self):
        self.assertEqual(shown("CONFIG 'WMS_SMOOTHING' '4' CONFIG WMS_SMOOTHING 1"), [])
        self.assertEqual(shown("CONFIG 'WMS_SMOOTHING'\n'2.0'"), ['2: "2.0" is no value of CONFIG "WMS_SMOOTHING", which takes 1 or 2 or 3 or 4'])
        self.assertEqual(len(shown("CONFIG 'WMS_SMOOTHING' '' CONFIG 'WMS_SMOOTHING' '2 3'")), 2)

    def test_keys_of_fonts(self):
        self.assertEqual(shown("CONFIG 'LABELFONT' 'a.bdf' CONFIG 'LABELFONT Bold-12_a' 'b.bdf' CONFIG 'LABELFONTS' 'c.bdf' CONFIG 'LABELFONT' 'd.bdf'"), [])
        taken = "is no value of CONFIG, which takes behind LABELFONT one space and a name of letters, digits, - and _"
        for key in ("LABELFONT ", "LABELFONT  a", "LABELFONT a b", "LABELFONT a ", "LABELFONT \u00e9", "LABELFONT a."):
            self.assertEqual(shown(f"CONFIG\n'{key}'\n'b.bdf'"), [f'2: "{key}" {taken}'])
        # a key is judged before its value
        self.assertIn(f'2: "LABELFONT " {taken}', shown("CONFIG\n'LABELFONT '\nEND"))

    def test_a_map_has_at_most_16_fonts_with_a_name(self):
        sixteen = "CONFIG LABELFONT a.bdf " + " ".join(f"CONFIG 'LABELFONT f{number}' a.bdf" for number in range(16))
        self.assertEqual(shown(sixteen + " CONFIG 'LABELFONT f3' b.bdf"), [])
        more = "one font too many, as a MAP has at most 16 with a name: leave one out"
        self.assertEqual(shown(sixteen + "\nCONFIG 'LABELFONT F3'\nb.bdf"), [f'2: "LABELFONT F3" is {more}'])
        self.assertIn(f'2: "LABELFONT g" is {more}', shown(sixteen + "\nCONFIG 'LABELFONT g'\n"))

    def test_data_is_a_table_of_points(self):
        self.assertEqual(in_layer("DATA 'a.csv'"), [])
        self.assertIn("a table of points in .csv alone", in_layer("DATA 'a.shp'")[0])
        self.assertIn("DATA needs a LAYER of TYPE POINT", shown("LAYER NAME 'a' TYPE LINE DATA 'a.csv' END")[0])

    def test_expressions(self):
        for value in ("'a'", "{a,b}", "([x] = 3)"):
            self.assertEqual(in_layer(f"CLASS EXPRESSION {value} END"), [], value)
        rows = [("/a|b/", "write a list as {a,b}"), ("/.*/", "leave EXPRESSION out, which takes each feature")]
        for value, instead in rows:
            self.assertEqual(in_layer(f"CLASS EXPRESSION {value} END"), [f"1: {value} is a regular expression, which isn't read: {instead}"])
        self.assertIn("from its character 5 on: ~ isn't read", in_layer("CLASS EXPRESSION ([x] ~ 'a') END")[0])


class Features(unittest.TestCase):
    def feature(self, source):
        return in_layer(f"FEATURE {source} END")

    def test_places_are_pairs_of_degrees(self):
        self.assertEqual(self.feature("POINTS 10 -20 1000 '-1000' END"), [])
        self.assertEqual(self.feature("POINTS\n10 -20 30\nEND"), ["3: the last vertex of POINTS has no latitude: write it"])
        self.assertEqual(self.feature("POINTS\nEND"), ["2: POINTS has no pair: write one"])
        # of places that are none one is shown
        self.assertEqual(len(self.feature("POINTS 3500000 5000000 3500001 5000001 END")), 1)

    def test_a_feature_has_at_most_65536_vertices_in_all_of_its_blocks(self):
        half = "POINTS " + "1 2 " * 32_768 + "END "
        self.assertEqual(self.feature(half * 2), [])
        self.assertEqual(self.feature(half * 2 + "POINTS\n3 4 END"), ["2: a FEATURE has at most 65,536 vertices: write a further one, or leave some out"])

    def test_a_layer_has_at_most_64_items(self):
        names = ",".join(f"n{number}" for number in range(64))
        self.assertEqual(in_layer(f"PROCESSING 'ITEMS={names}'"), [])
        self.assertEqual(in_layer(f"PROCESSING 'ITEMS={names},x'"), ["1: ITEMS has at most 64 names: leave some out"])


class Metadata(unittest.TestCase):
    def test_each_key_has_a_value(self):
        self.assertEqual(in_layer("METADATA 'wms_title' 'a'\n'ows_title' END"), ["2: \"ows_title\" has no value: write one, as ''"])

    def test_what_is_kept_from_clients_elsewhere_is_told(self):
        linter = lint.Linter("m.map", "MAP LAYER NAME 'a' TYPE POINT METADATA\n'gml_exclude_items' 'x' END END END")
        linter.read_all()
        self.assertEqual([(line, words.split(" isn't ")[0]) for line, words in linter.kept_back], [(2, "gml_exclude_items")])


if __name__ == "__main__":
    unittest.main()
