#!/usr/bin/python3
"""Which font deploy/font writes, and what it says of its glyphs."""
import os
import pathlib
import subprocess
import sys
import tempfile
import unittest

TOP = pathlib.Path(__file__).resolve().parents[2]

# What stands in for otf2bdf notes its words, and writes a font, or that of a size where one is there.
STAND_IN = """#!/bin/sh
echo "$@" >> words
while [ "$1" != -p ]; do shift; done
cat "font$2.bdf" 2> /dev/null || cat font.bdf
"""
HEAD = "STARTFONT 2.1\nFONTBOUNDINGBOX 120 90 -20 -30\nCHARS 3\n"


def glyph(name, code, box):
    return f"STARTCHAR {name}\nENCODING {code}\nBBX {box}\nBITMAP\nENDCHAR\n"


A, AT, G = glyph("A", 65, "30 40 7 0"), glyph("at", 64, "65 9 0 0"), glyph("g", 103, "25 36 -3 -11")


class Fonts(unittest.TestCase):
    def setUp(self):
        folder = tempfile.TemporaryDirectory()
        self.addCleanup(folder.cleanup)
        self.folder = pathlib.Path(folder.name)
        (self.folder / "bin").mkdir()
        (self.folder / "a.ttf").write_bytes(b"")

    def run_font(self, *words, made=None):
        """Its exit status, what it wrote, and what it said, where otf2bdf makes this font."""
        if made is not None:
            (self.folder / "font.bdf").write_text(made)
            (self.folder / "bin/otf2bdf").write_text(STAND_IN)
            (self.folder / "bin/otf2bdf").chmod(0o755)
        path = f"{self.folder}/bin:/bin" if made is not None else str(self.folder / "bin")
        ran = subprocess.run([sys.executable, TOP / "deploy/font", *words], cwd=self.folder, env={**os.environ, "PATH": path}, capture_output=True, text=True)
        return ran.returncode, ran.stdout, ran.stderr

    def words(self):
        """The words of each call of otf2bdf."""
        return [line.split() for line in (self.folder / "words").read_text().splitlines()]

    def test_a_large_glyph_is_left_out_and_named(self):
        large = AT.replace("65 9 0 0", "256 9 0 0")
        status, written, said = self.run_font("a.ttf", "--size", "12", "--smoothing", "3", made=f"{HEAD}{A}{large}{G}ENDFONT\n")
        # the box is that of A and g: from -3 to 37 across, and from -11 to 40
        self.assertEqual((status, written), (0, f"STARTFONT 2.1\nFONTBOUNDINGBOX 40 51 -3 -11\nCHARS 2\n{A}{G}ENDFONT\n"))
        self.assertEqual(said, "font: 1 of 3 glyphs have more than 255 pixels a side and are left out, among them @\n")
        self.assertEqual(self.words(), [["-p", "12", "-r", "288", "a.ttf"]])

    def test_a_glyph_may_be_larger_in_a_smoothed_map(self):
        for factor, kept in (("1", A + G), ("2", A + AT + G)):
            status, written, said = self.run_font("a.ttf", "--smoothing", factor, made=f"{HEAD}{A}{AT}{G}ENDFONT\n")
            self.assertEqual((status, written.partition("STARTCHAR")[2]), (0, f"{kept}ENDFONT\n".partition("STARTCHAR")[2]))
            self.assertEqual(said, "font: 1 of 3 glyphs have more than 64 pixels a side and are left out, among them @\n" if factor == "1" else "")

    def test_an_advance_beyond_255_is_left_out_too(self):
        wide = glyph("emspace", 8195, "1 1 0 0").replace("BBX", "DWIDTH 256 0\nBBX")
        self.assertNotIn("emspace", self.run_font("a.ttf", "--smoothing", "4", made=f"{HEAD}{A}{wide}ENDFONT\n")[1])

    def test_a_size_whose_letters_are_too_large_is_refused_with_the_greatest_one(self):
        for size, side in ((19, 64), (20, 64), (21, 65), (40, 130)):
            (self.folder / f"font{size}.bdf").write_text(f"{HEAD}{glyph('A', 65, f'{side} 40 7 0')}ENDFONT\n")
        status, written, said = self.run_font("a.ttf", "--size", "40", made=f"{HEAD}{A}ENDFONT\n")
        self.assertEqual((status, written, said), (2, "", "font: at 40 points a letter of a.ttf has more than 64 pixels a side: --size 20 is the greatest\n"))
        # all of it, and then the letters and digits at smaller sizes
        self.assertEqual([words[words.index("-p") + 1] for words in self.words()], ["40", "40", "20"])
        self.assertEqual(self.words()[1][:3], ["-l", "48_57", "65_90"])

    def test_a_font_that_fits_stays_as_it_is_made(self):
        whole = f"{HEAD}{A}{G}ENDFONT\n"
        self.assertEqual(self.run_font("a.ttf", made=whole), (0, whole, ""))
        self.assertEqual(self.words(), [["-p", "10", "-r", "96", "a.ttf"]])

    def test_some_characters_alone(self):
        self.run_font("a.ttf", "--characters", "65-67,32,68", made=f"{HEAD}{A}ENDFONT\n")
        self.assertEqual(self.words(), [["-l", "32", "65_68", "-p", "10", "-r", "96", "a.ttf"]])
        for ranges in ("", "a", "65-", "65_70"):
            self.assertEqual(self.run_font("a.ttf", "--characters", ranges, made=f"{HEAD}{A}ENDFONT\n")[2].splitlines()[-1],
                             f"font: error: argument --characters: ranges are numbers as 32-126,160-255, and {ranges!r} isn't one")

    def test_letters_that_are_alike_are_named(self):
        dots = "BITMAP\nE0\nA0\nE0\n"
        alike = "".join(glyph(name, code, "3 3 0 0").replace("BITMAP\n", dots) for name, code in (("zero", 48), ("O", 79)))
        self.assertEqual(self.run_font("a.ttf", made=f"{HEAD}{alike}ENDFONT\n")[2], "font: 0 and O are alike at this size: a larger one, or another font, may tell them apart\n")

    def test_why_there_is_no_font(self):
        self.assertEqual(self.run_font("a.ttf"), (2, "", "font: otf2bdf is missing: apt-get install otf2bdf\n"))
        self.assertEqual(self.run_font("b.ttf", made=""), (2, "", "font: b.ttf is no file\n"))
        for made in ("", f"{HEAD}{AT}ENDFONT\n", f"{HEAD}{glyph('quote', 34, '5 9 0 20')}ENDFONT\n"):
            self.assertEqual(self.run_font("a.ttf", made=made), (2, "", "font: otf2bdf makes no letter of ASCII of a.ttf\n"))

    def test_a_size_has_4_to_100_points(self):
        for size in ("3", "101", "ten", "-5"):
            status, _, said = self.run_font("a.ttf", f"--size={size}", made=f"{HEAD}{A}ENDFONT\n")
            self.assertEqual((status, said.splitlines()[-1]), (2, f"font: error: argument --size: a size has 4 to 100 points, and {size!r} isn't one"))
        for size in ("4", "100"):
            self.assertEqual(self.run_font("a.ttf", f"--size={size}", made=f"{HEAD}{A}ENDFONT\n")[0], 0)


if __name__ == "__main__":
    unittest.main()
