#!/usr/bin/python3
"""What deploy/lint shows of a mapfile."""
import contextlib
import io
import os
import pathlib
import subprocess
import sys
import tempfile
import unittest

sys.path.insert(0, str(pathlib.Path(__file__).resolve().parents[1] / "lib"))

import loading

lint = loading.script("deploy/lint")
LAYER = "LAYER NAME 'a' TYPE POINT"


def shown(source, is_quiet=False):
    """The lines for a mapfile, each without its file."""
    linter = lint.Linter("m.map", source)
    linter.read_all()
    with contextlib.redirect_stdout(io.StringIO()) as out:
        lint.show(linter, is_quiet)
    return [line.removeprefix("m.map:") for line in out.getvalue().splitlines()]


class Blocks(unittest.TestCase):
    def test_a_whole_map_has_no_line(self):
        self.assertEqual(shown(f"MAP NAME 'm' EXTENT -10 -5 20 30 {LAYER} CLASS STYLE COLOR 10 20 30 SIZE 7 END END END END"), [])

    def test_a_keyword_of_mapservers_is_reported_with_its_line(self):
        lines = shown(f"MAP\n{LAYER}\nFILTER 'x'\nOPACITY 50 END END")
        self.assertEqual([line.split(" is ")[0] for line in lines], ["3: FILTER", "4: OPACITY"])
        self.assertIn("write an EXPRESSION into each CLASS", lines[0])

    def test_a_refused_block_is_skipped_whole(self):
        source = f"MAP {LAYER} CLASS\nLEADER STYLE COLOR 1 2 3 END END\nSTYLE\nPATTERN 5 6 END COLOR 10 20 30 END END END END"
        self.assertEqual([line.split(" is ")[0] for line in shown(source)], ["2: LEADER", "4: PATTERN"])

    def test_a_misspelt_keyword_gets_the_one_that_is_alike(self):
        self.assertEqual(shown("MAP\nEXTNET 1 2 3 4 END"), ["2: EXTNET is no keyword of MAP: write EXTENT"])

    def test_a_keyword_of_another_block_gets_that(self):
        self.assertEqual(shown(f"MAP {LAYER}\nPRIORITY 3 END END"), ["2: PRIORITY is no keyword of LAYER: it stands in LABEL"])

    def test_what_a_block_requires_is_named_with_its_first_and_last_line(self):
        self.assertEqual(shown("MAP\nLAYER\nNAME 'a'\nEND END"), ["4: the LAYER of line 2 has no TYPE: write one"])

    def test_a_name_stands_once(self):
        self.assertEqual(shown(f"MAP {LAYER} END\n{LAYER} END END"), ['2: an earlier LAYER has the NAME "a": write another'])

    def test_a_symbol_may_stand_behind_what_names_it(self):
        style = "CLASS STYLE\nSYMBOL '{}' END END END"
        symbol = "SYMBOL NAME 's' TYPE PIXMAP IMAGE 's.ppm' END"
        self.assertEqual(shown(f"MAP {LAYER} {style.format('s')} {symbol} END"), [])
        self.assertEqual(shown(f"MAP {LAYER} {style.format('0')} END"), [])
        self.assertIn("2: \"t\" names no symbol of MAP", shown(f"MAP {LAYER} {style.format('t')} {symbol} END")[0])
        self.assertIn("MapServer counts its symbols", shown(f"MAP {LAYER} {style.format('3')} {symbol} END")[0])

    def test_a_block_that_is_not_ended_is_reported_on_the_last_line(self):
        self.assertEqual(shown(f"MAP\n{LAYER}\n"), ["3: the mapfile ends inside a block: write its END"])

    def test_what_stands_round_the_map_is_reported(self):
        self.assertEqual(shown("MAP END\nEND"), ["2: END stands after the END of MAP: remove it, or an END before it"])
        self.assertIn("save the file without a byte order mark", shown("\ufeffMAP END")[0])

    def test_words_without_effect_are_left_out_where_they_are_not_wanted(self):
        source = f"MAP SIZE 400 300\n{LAYER} METADATA 'wms_abstract' 'x' END END END"
        self.assertEqual([line.split(" has ")[0] for line in shown(source)], ["1: SIZE", '2: METADATA "wms_abstract"'])
        self.assertEqual(shown(source, True), [])

    def test_the_width_of_an_outline_is_judged_in_a_smoothed_map_alone(self):
        label = "CLASS LABEL OUTLINEWIDTH 12\nOUTLINEWIDTH {} END END END END"
        self.assertEqual([line.split(" has ")[0] for line in shown(f"MAP {LAYER} {label.format(9)}")], ["2: OUTLINEWIDTH"])
        smoothed = f"MAP CONFIG WMS_SMOOTHING 3 {LAYER} {label}"
        self.assertEqual(shown(smoothed.format(8)), [])
        self.assertEqual(shown(smoothed.format(9)), ["2: OUTLINEWIDTH 9 is no count from 1 to 8: write one"])

    def test_a_class_has_one_label(self):
        lines = shown(f"MAP {LAYER} CLASS LABEL END\nLABEL END\nLABEL END END END END")
        self.assertEqual(lines, ["2: CLASS has one LABEL too many: write a further LAYER of the same features"])


class Discs(unittest.TestCase):
    """A SYMBOL of TYPE ELLIPSE behind CONFIG "WMS_SMOOTHING"."""

    def differing(self, *words, head="CONFIG WMS_SMOOTHING 2", tail=""):
        """The lines of differences of a map with a SYMBOL of these words, each on a line of its own, from 3 on."""
        lines = shown("\n".join(["MAP " + head, "SYMBOL", *words, "END", tail, "END"]), True)
        return [line.split(": ")[0] + ": " + line.split(": ")[1].split(",")[0] for line in lines]

    def test_a_disc_has_no_difference(self):
        self.assertEqual(self.differing("NAME s", "TYPE ELLIPSE", "POINTS 1 1 END", "FILLED TRUE"), [])
        self.assertEqual(self.differing("filled 'True'", "Points 1.0 '1' end", "type 'ellipse'", "NAME s", head="CONFIG WMS_SMOOTHING 1 CONFIG WMS_SMOOTHING 4"), [])
        # the last TYPE counts
        self.assertEqual(self.differing("NAME s", "TYPE PIXMAP", "TYPE ELLIPSE", "POINTS 1 1 END", "FILLED TRUE", "TRANSPARENT 0"), [])

    def test_without_smoothing_before_it_there_is_none(self):
        disc = ("NAME s", "TYPE ELLIPSE", "POINTS 1 1 END", "FILLED TRUE", "IMAGE x")
        lines = ["4: ELLIPSE is no value of TYPE", "5: POINTS is MapServer's and isn't read", "6: FILLED is MapServer's and isn't read"]
        self.assertEqual(self.differing(*disc, head=""), lines)
        self.assertEqual(self.differing(*disc, head="", tail="CONFIG WMS_SMOOTHING 2"), lines)
        self.assertEqual(self.differing(*disc, head="CONFIG WMS_SMOOTHING 2 CONFIG WMS_SMOOTHING 1"), lines)
        self.assertIn('behind CONFIG "WMS_SMOOTHING" a disc is read', shown("MAP SYMBOL NAME s TYPE ELLIPSE IMAGE x END END")[0])

    def test_points_are_1_and_1(self):
        for points, line in (("1\n2 END", "5: 2 is no value of POINTS"), ("1\n1\n1 END", "6: 1 is no value of POINTS"), ("\nx END", "5: x is no value of POINTS"),
                             ("1\nEND", "5: POINTS has too few values"), ("\nEND", "5: POINTS has too few values"), ("\n(1) 1 END", "5: (1) is no value of POINTS"),
                             ("1\n'END' END", '5: "END" is no value of POINTS')):
            self.assertEqual(self.differing("NAME s", f"POINTS {points}", "TYPE ELLIPSE", "FILLED TRUE"), [line], points)

    def test_it_is_filled(self):
        disc = ("NAME s", "TYPE ELLIPSE", "POINTS 1 1 END")
        self.assertEqual(self.differing(*disc, "FILLED", "FALSE"), ["7: FALSE is no value of FILLED"])
        self.assertEqual(self.differing(*disc, "FILLED"), ["7: FILLED has too few values", "7: the SYMBOL of line 2 has no FILLED"])

    def test_what_it_must_have(self):
        self.assertEqual(self.differing("TYPE ELLIPSE"), [f"4: the SYMBOL of line 2 has no {word}" for word in ("NAME", "POINTS", "FILLED")])
        self.assertEqual(self.differing("NAME s", "TYPE ELLIPSE", "POINTS 1 1 END", "FILLED TRUE", "IMAGE", "x"), ["8: a SYMBOL of TYPE ELLIPSE has an IMAGE"])

    def test_a_pixmap_is_one_as_ever(self):
        self.assertEqual(self.differing("NAME s", "TYPE PIXMAP", "IMAGE x", "POINTS 1 1 END", "FILLED TRUE"), [])
        self.assertEqual(self.differing("NAME s", "TYPE PIXMAP", "POINTS 1 1 END", "FILLED TRUE"), ["7: the SYMBOL of line 2 has no IMAGE"])
        self.assertEqual(self.differing("NAME s", "TYPE VECTOR", "IMAGE x"), ["4: VECTOR is no value of TYPE"])

    def test_the_map_is_smoothed_at_its_end(self):
        disc = ("NAME s", "TYPE ELLIPSE", "POINTS 1 1 END", "FILLED TRUE")
        self.assertEqual(self.differing(*disc, tail="CONFIG WMS_SMOOTHING\n1"), ["9: a map with a disc is smoothed"])
        self.assertEqual(self.differing(*disc, tail="CONFIG WMS_SMOOTHING\n1 CONFIG WMS_SMOOTHING 3"), [])
        self.assertEqual(self.differing("NAME s", "TYPE PIXMAP", "IMAGE x", "FILLED TRUE", tail="CONFIG WMS_SMOOTHING\n1"), [])


class Files(unittest.TestCase):
    def setUp(self):
        folder = tempfile.TemporaryDirectory()
        self.addCleanup(folder.cleanup)
        self.folder = folder.name

    def write(self, name, text):
        path = os.path.join(self.folder, name)
        os.makedirs(os.path.dirname(path), exist_ok=True)
        with open(path, "w", encoding="utf-8") as file:
            file.write(text)
        return path

    def run_on(self, *words):
        ran = subprocess.run([sys.executable, os.path.join(loading.TOP, "deploy", "lint"), *words], capture_output=True, text=True)
        return ran.returncode, ran.stdout.replace(self.folder + "/", "").splitlines()

    def test_names_in_included_files_are_those_below_the_folder_of_the_mapfile(self):
        path = self.write("m.map", "MAP\nINCLUDE 'parts/one'\nEND")
        self.write("parts/one", "\nINCLUDE 'two'\nINCLUDE 'parts/three'")
        self.write("two", "UNITS DD")
        self.write("parts/three", "\n\nANGLE 5")
        status, lines = self.run_on(path)
        found = [line.split(" has ")[0].split(" is ")[0] for line in lines]
        self.assertEqual(found[:5], ["m.map:2: INCLUDE", "parts/one:2: INCLUDE", "parts/one:3: INCLUDE", "two:1: UNITS", "parts/three:3: ANGLE"])
        self.assertEqual((status, lines[5]), (1, "3 differences, 2 keywords without effect"))

    def test_one_and_several_are_counted_as_they_are_called(self):
        rows = [
            ("MAP END", [], 0, "0 differences, 0 keywords without effect"),
            ("MAP ANGLE 5 END", [], 0, "0 differences, 1 keyword without effect"),
            ("MAP ANGLE 5 UNITS DD TRANSPARENT ON END", [], 1, "1 difference, 2 keywords without effect"),
            ("MAP TRANSPARENT ON END", ["--quiet"], 1, "1 difference"),
        ]
        for source, words, status, line in rows:
            found, lines = self.run_on(*words, self.write("m.map", source))
            self.assertEqual(found, status, source)
            self.assertIn(line, lines)

    def test_the_last_line_says_how_convert_makes_a_map(self):
        web = "MAP WEB METADATA 'ows_enable_request' '*' {} END END {} TRANSPARENT ON END"
        layer = "LAYER NAME 'a' TYPE LINE {} CLASS LABEL MINFEATURESIZE 5 END END END"
        plain, more = "makes a map without differences, where MapServer reads this one", "makes a map that may show more than MapServer does: the last lines of its report say so"
        rows = [
            (web.format("", ""), f" {plain}"), ("MAP TRANSPARENT ON END", f" --open {more}"),
            (web.format("'wms_allowed_ip_list' '10.1.1.1'", ""), f" --shown {more}"), (web.format("'wfs_denied_ip_list' '10.1.1.1'", ""), f" {plain}"),
            (web.format("", "LAYER NAME 'a' TYPE LINE METADATA 'wms_denied_ip_list' 'x' END END"), f" {plain}"),
            (web.format("", "LAYER NAME 'a' TYPE LINE METADATA 'wms_timedefault' 'x' END END"), f" {more}"),
            (web.format("", "LAYER NAME 'a' TYPE LINE METADATA 'wms_timeitem' 'x' END END"), f" {plain}"), (web.format("", "LAYER NAME 'a' TYPE LINE EXTENT 0 0 1 1 END"), f" {more}"),
            (web.format("", layer.format("")), f" {more}"), (web.format("", "LAYER NAME 'a' TYPE POINT CLUSTER END END"), f" {more}"),
        ]
        for source, words in rows:
            lines = self.run_on(self.write("m.map", source))[1]
            self.assertEqual(lines[-1], f"deploy/convert m.map FOLDER{words}", source)

    def test_a_disc_is_read_in_an_included_file_of_a_smoothed_map(self):
        self.write("symbols", "SYMBOL NAME 's' TYPE ELLIPSE POINTS 1 1 END FILLED TRUE END")
        lines = self.run_on("--quiet", self.write("m.map", "MAP CONFIG WMS_SMOOTHING 2 INCLUDE 'symbols' END"))[1]
        self.assertEqual(lines[1], "1 difference")
        # without it there are the INCLUDE, ELLIPSE, POINTS, FILLED and no IMAGE
        self.assertIn("5 differences", self.run_on("--quiet", self.write("m.map", "MAP INCLUDE 'symbols' END"))[1])

    def test_what_an_included_file_opens_counts(self):
        path = self.write("m.map", "MAP INCLUDE 'web' END")
        self.write("web", "WEB METADATA 'wms_enable_request' '*' END END")
        self.assertEqual(self.run_on(path)[1][-1], "deploy/convert m.map FOLDER makes a map without differences, where MapServer reads this one")

    def smoothed(self, factor, *symbols):
        """What is shown of a smoothed map with a font of 23 pixels, and symbols of these files."""
        self.write("f.bdf", "STARTFONT 2.1\nSIZE 20 75 75\nFONTBOUNDINGBOX 9 23 -1 -4\n")
        self.write("s.ppm", "P6 # 90 90\n7\n11 255\n")
        images = " ".join(f"SYMBOL NAME '{number}' TYPE PIXMAP\nIMAGE '{image}' END" for number, image in enumerate(symbols))
        status, lines = self.run_on("--quiet", self.write("m.map", f"MAP CONFIG WMS_SMOOTHING '{factor}'\nCONFIG LABELFONT 'f.bdf' {images} END"))
        self.assertEqual(status, 0)
        return lines

    def test_each_font_that_counts_is_looked_at(self):
        self.write("f.bdf", "STARTFONT 2.1\nSIZE 20 75 75\nFONTBOUNDINGBOX 9 23 -1 -4\n")
        fonts = "CONFIG 'LABELFONT a' 'f.bdf'\nCONFIG 'LABELFONT b' 'f.bdf'\nCONFIG LABELFONT 'f.bdf' CONFIG 'LABELFONT a' 'missing.bdf'"
        _, lines = self.run_on("--quiet", self.write("m.map", f"MAP CONFIG WMS_SMOOTHING 3\n{fonts} END"))
        self.assertEqual([line.partition(" is ")[0] for line in lines], ['m.map:3: "f.bdf"', 'm.map:4: "f.bdf"', "0 differences, 2 warnings"])

    def test_a_label_names_a_font_of_the_map(self):
        label = "LAYER NAME 'l' TYPE POINT CLASS LABEL FONT 'x' FONT\n'{}' END END END"
        for given, said in (("a", []), ("A", ['m.map:2: FONT "A" has no effect here: no CONFIG "LABELFONT name" has this name'])):
            _, lines = self.run_on(self.write("m.map", f"MAP {label.format(given)} CONFIG 'LABELFONT a' 'f.bdf' END"))
            self.assertEqual(lines, [*said, f"0 differences, {len(said)} keyword{'' if len(said) == 1 else 's'} without effect"])

    def test_small_fonts_and_symbols_of_a_smoothed_map_get_a_warning(self):
        font = 'm.map:2: "f.bdf" is 23 pixels high, which WMS_SMOOTHING 3 shows as 7.67: bring one of 24 or more'
        symbol = 'm.map:3: "s.ppm" is 11 pixels long, which WMS_SMOOTHING 3 shows as 3.67: bring one of 12 or more'
        self.assertEqual(self.smoothed(3, "s.ppm", "missing.ppm"), [font, symbol, "0 differences, 2 warnings"])
        self.assertEqual(self.smoothed(3), [font, "0 differences, 1 warning"])
        for factor in (1, 2):
            self.assertEqual(self.smoothed(factor, "s.ppm"), ["0 differences"])

    def test_a_mapfile_that_cannot_be_read_ends_with_2(self):
        self.assertEqual(self.run_on(os.path.join(self.folder, "missing.map"))[0], 2)
        self.assertEqual(self.run_on()[0], 2)


if __name__ == "__main__":
    unittest.main()
