#!/usr/bin/python3
"""Which fonts deploy/convert makes of the labels, at which sizes, and which are kept (deploy/lib/mapconvert/fonts.py)."""
import os
import pathlib
import sys
import tempfile
import unittest
from types import SimpleNamespace
from unittest import mock

sys.path.insert(0, str(pathlib.Path(__file__).resolve().parents[1] / "lib"))

import loading

loading.has_package("mapscript", MapServerError=OSError)
from mapconvert import fonts
from mapconvert.report import Report

# A font of which one glyph is too wide for each map, and one for a map that isn't smoothed.
LARGE = "".join([
    "STARTFONT 2.1\nFONTBOUNDINGBOX 320 90 -20 -30\nCHARS 3\n",
    *(f"STARTCHAR {name}\nENCODING {code}\nBBX {box}\nBITMAP\nENDCHAR\n" for name, code, box in (("A", 65, "30 40 7 0"), ("wide", 64, "65 9 0 0"), ("low", 8000, "5 9 0 -256"))),
    "ENDFONT\n",
])


def has_glyphs(text):
    """The names of the glyphs of a font, and its box."""
    return [line[10:] for line in text.splitlines() if line.startswith("STARTCHAR ")], next(line[16:] for line in text.splitlines() if line.startswith("FONTBOUNDINGBOX "))


class Sizes(unittest.TestCase):
    def setUp(self):
        fonts.best.cache_clear()

    def best(self, size, **alike):
        """The size that is taken, and the pairs, where fonts have so many alike pairs by their size."""
        with mock.patch.object(fonts, "made", lambda path, size, codes: f"font{size}"), mock.patch.object(fonts, "alike_in", lambda text: alike[text]), \
                mock.patch.object(fonts, "greatest", lambda path, size, dots, most: min(size, 12)):
            found = fonts.best("a.ttf", size)
        return found[0], found[2]

    def test_the_first_size_without_alike_letters_is_taken(self):
        self.assertEqual(self.best(8, font8=["0D"], font9=["1l", "1I"], font10=[]), (10, []))
        self.assertEqual(self.best(11, font11=[]), (11, []))

    def test_else_the_least_of_five_with_the_fewest(self):
        self.assertEqual(self.best(8, font8=["0D", "lI"], font9=["lI"], font10=["1l", "lI"], font11=["lI"], font12=["0D"]), (9, ["lI"]))

    def test_none_is_taken_whose_letters_are_too_large(self):
        self.assertEqual(self.best(11, font11=["0D"], font12=["0D"], font13=[]), (11, ["0D"]))

    def font_of(self, sizes, times, most=256):
        """The sizes that are asked of otf2bdf, those that fonts have then, and the glyphs of one."""
        asked = []

        def made(path, size, dots=96, codes=()):
            asked.append((size, dots))
            return LARGE

        with mock.patch.object(fonts, "made", made), mock.patch.object(fonts, "greatest", lambda path, size, dots, side: min(size, most)), \
                mock.patch.object(fonts.shutil, "which", lambda name: name):
            found = [fonts.font_of("a.ttf", size, times, fonts.USUAL) for size in sizes]
        return asked, [one[0] for one in found], has_glyphs(found[-1][1])

    def test_a_font_of_a_smoothed_map_has_mapservers_whole_pixels_so_many_times(self):
        # 10 points are 13.3 pixels, of which MapServer takes 13
        self.assertEqual(self.font_of([9, 10, 11], 4), ([(48, 72), (52, 72), (60, 72)], [9, 10, 11], (["A", "wide"], "65 40 0 0")))
        self.assertEqual(self.font_of([10, 5], 3)[0], [(39, 72), (21, 72)])

    def test_a_font_that_would_be_too_large_is_as_large_as_it_may(self):
        self.assertEqual(self.font_of([60], 4, 256)[:2], ([(256, 72)], [48]))
        self.assertEqual(self.font_of([60], 1, 48)[:2], ([(48, 96)], [48]))

    def test_no_font_without_smoothing_is_made_below_8_points(self):
        self.assertEqual(self.font_of([6, 8, 9], 1), ([(8, 96), (9, 96)], [8, 8, 9], (["A"], "30 40 7 0")))

    def test_there_is_none_without_a_file_otf2bdf_or_letters(self):
        with mock.patch.object(fonts.shutil, "which", lambda name: name), mock.patch.object(fonts, "greatest", lambda *given: 0):
            self.assertEqual([fonts.font_of(path, 9, times, fonts.USUAL) for path in (None, "a.ttf") for times in (1, 4)], [None] * 4)
        with mock.patch.object(fonts.shutil, "which", lambda name: None):
            self.assertIsNone(fonts.font_of("a.ttf", 9, 4, fonts.USUAL))

    def test_why_a_font_has_another_size(self):
        self.assertEqual([fonts.why_another(8, 8), fonts.why_another(48, 48, 4)], ["", ""])
        self.assertEqual(fonts.why_another(6, 8), ", where MapServer's has 6, as letters below 8 can't be told apart")
        self.assertEqual(fonts.why_another(9, 10), ", where MapServer's has 9, as letters are alike at smaller sizes")
        self.assertEqual(fonts.why_another(60, 48, 4), ", where MapServer's has 60, as a glyph has at most 255 pixels a side")
        self.assertEqual(fonts.why_another(60, 48), ", where MapServer's has 60, as a glyph has at most 64 pixels a side")

    def test_mapserver_draws_whole_points_within_bounds(self):
        self.assertEqual([fonts.size_of(given, 4, 256) for given in (9.9, 2, 300, 13.34)], [9, 4, 256, 13])
        self.assertEqual([fonts.pixels_of(size) for size in (5, 7, 8, 10, 11, 12, 40)], [7, 9, 11, 13, 15, 16, 53])


class Kept(unittest.TestCase):
    def setUp(self):
        folder = tempfile.TemporaryDirectory()
        self.addCleanup(folder.cleanup)
        self.folder, self.report = folder.name, Report()
        for name in ("sans.ttf", "mono.ttf", "plain.ttf"):
            pathlib.Path(self.folder, name).write_text("")
        self.patch(fonts, "PLAIN_FONTS", (f"{self.folder}/condensed.ttf", f"{self.folder}/plain.ttf"))
        self.patch(fonts, "font_of", lambda path, size, times, codes: None if path is None else (size, f"{os.path.basename(path)} {size} {len(codes)}", []))

    def patch(self, *given):
        """Puts something in place of a name of a module, for a test."""
        patched = mock.patch.object(*given)
        patched.start()
        self.addCleanup(patched.stop)

    def fonts(self, listed="fonts.list", times=4):
        """The fonts of a map with a FONTSET, or without one."""
        known = {"sans": "sans.ttf", "mono": "mono.ttf", "gone": "gone.ttf", "a b": "sans.ttf", "a_b": "mono.ttf"}
        map = SimpleNamespace(mappath=self.folder, fontset=SimpleNamespace(filename=listed, fonts=known))
        return fonts.Fonts(map, SimpleNamespace(smoothing=times, folder=self.folder), self.report, ("m.map", 2))

    def said(self):
        return [words for _, _, words in self.report.lines]

    def test_a_font_is_named_by_its_alias_and_size_and_made_once(self):
        made = self.fonts()
        self.assertEqual([made.name_of(*one, ("m.map", 9)) for one in (("sans", 9), ("sans", 12), ("mono", 9), ("sans", 9))], ["sans-9", "sans-12", "mono-9", "sans-9"])
        made.characters.update("\u0160umava")
        lines, names = made.written()
        self.assertEqual(lines, [f'  CONFIG "LABELFONT {name}" "{name}.bdf"' for name in ("sans-9", "sans-12", "mono-9")])
        self.assertEqual(names, {name: name for name in ("sans-9", "sans-12", "mono-9")})
        # one character is beside ASCII and Latin-1
        self.assertEqual(pathlib.Path(self.folder, "mono-9.bdf").read_text(), f"mono.ttf 9 {95 + 96 + 1}")
        self.assertEqual(self.said()[-1], "note: the font mono-9 is mono.ttf at 9 points")

    def test_names_have_bytes_that_are_read_and_are_two_for_two_files(self):
        made = self.fonts()
        self.assertEqual([made.name_of(alias, 9, ("m.map", 9)) for alias in ("a b", "a_b", "\u00e9")], ["a_b-9", "a_b-9_", "_-9"])

    def test_what_stands_in_for_a_font_is_told(self):
        made = self.fonts()
        self.assertEqual([made.name_of(named, 9, ("m.map", 9)) for named in (None, "gone", "none", "sans,mono")], ["plain-9", "plain-9", "plain-9", "sans-9"])
        self.assertEqual(self.said(), [
            "changed: a LABEL without FONT: it has plain.ttf, where MapServer has DejaVu Sans Condensed", "changed: FONT gone: the FONTSET has no file of it, so it is plain.ttf",
            "changed: FONT none: the FONTSET has no file of it, so it is plain.ttf", "left out: FONT sans,mono: mono has no part in it, and what sans lacks is shown as ?",
        ])

    def test_without_a_fontset_and_a_font_there_are_no_labels(self):
        os.remove(f"{self.folder}/plain.ttf")
        made = self.fonts(listed=None)
        self.assertEqual((made.name_of("sans", 9, ("m.map", 9)), made.written()), ("sans-9", ([], {"sans-9": None})))
        self.assertEqual(self.said()[-1], "left out: the labels of sans-9: there is no font; apt-get install otf2bdf fonts-dejavu-core")

    def test_of_more_than_16_the_nearest_size_with_the_fewest_labels_goes(self):
        made = self.fonts()
        for size in (*range(20, 188, 12), 40, 41, 40):
            made.name_of("sans", size, ("m.map", 9))
        made.name_of("mono", 41, ("m.map", 9))
        lines, names = made.written()
        self.assertEqual((len(lines), names["sans-41"], names["sans-40"], names["mono-41"]), (16, "sans-40", "sans-40", "mono-41"))
        self.assertIn("left out: the font sans-41: its labels have sans-40, as a map has at most 16 fonts", self.said())

    def test_labels_have_the_name_that_is_kept(self):
        lines = ['      LABEL COLOR 1 2 3 FONT "sans-41" END', '      LABEL COLOR 1 2 3 FONT "none-9" END', "      TEXT 'FONT \"sans-41\"'"]
        self.assertEqual(fonts.renamed(lines, {"sans-41": "sans-40", "none-9": None}), ['      LABEL COLOR 1 2 3 FONT "sans-40" END', "      LABEL COLOR 1 2 3 END", lines[2]])


if __name__ == "__main__":
    unittest.main()
