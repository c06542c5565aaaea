#!/usr/bin/python3
"""The legend that deploy/legend writes of a mapfile."""
import base64
import os
import pathlib
import struct
import sys
import tempfile
import unittest
import zlib

sys.path.insert(0, str(pathlib.Path(__file__).resolve().parents[1] / "lib"))

import loading

legend = loading.script("deploy/legend")
HEAD = "MAP IMAGECOLOR 10 20 30 SYMBOL NAME 's' TYPE PIXMAP IMAGE 's.ppm' END "
CLEAR = (0, 0, 0, 0)


def layer(kind, *classes):
    return f"LAYER NAME 'a' TYPE {kind} " + " ".join(f"CLASS {text} END" for text in classes) + " END"


def pixels_of(url):
    """The width, the height and the pixels of a PNG that stands in an address."""
    data = base64.b64decode(url.removeprefix("data:image/png;base64,"))
    chunks, at = {}, 8
    while at < len(data):
        size, name = struct.unpack(">I4s", data[at : at + 8])
        chunks[name], at = data[at + 8 : at + 8 + size], at + 12 + size
    width, height = struct.unpack(">II", chunks[b"IHDR"][:8])
    rows, step = zlib.decompress(chunks[b"IDAT"]), 4 * width + 1
    return width, height, {(column, row): tuple(rows[row * step + 1 + 4 * column :][:4]) for row in range(height) for column in range(width)}


class Legends(unittest.TestCase):
    def setUp(self):
        folder = tempfile.TemporaryDirectory()
        self.addCleanup(folder.cleanup)
        self.folder = folder.name
        # of 3 by 2 pixels, the second of them clear
        self.write("s.ppm", b"P6 # a comment\n3\n2 255\n" + bytes([1, 2, 3, 255, 0, 255, 4, 5, 6, 7, 8, 9, 10, 11, 12, 13, 14, 15]))

    def write(self, name, data):
        with open(os.path.join(self.folder, name), "wb") as file:
            file.write(data)

    def made(self, *layers):
        self.write("m.map", (HEAD + " ".join(layers) + " END").encode())
        return legend.legend_of(os.path.join(self.folder, "m.map"))

    def entries(self, kind, *classes):
        return self.made(layer(kind, *classes))["layers"]["a"]

    def picture(self, kind, style):
        return pixels_of(self.entries(kind, f"STYLE {style} END")[0]["picture"])

    def covered(self, pixels, colour):
        """The columns and the rows of the box that a colour covers, and the count of its pixels."""
        found = [at for at, pixel in pixels.items() if pixel == (*colour, 255)]
        columns, rows = zip(*found)
        return (min(columns), max(columns)), (min(rows), max(rows)), len(found)

    def test_the_ground_is_the_colour_of_the_map(self):
        self.assertEqual(self.made()["ground"], "#0a141e")

    def test_titles(self):
        rows = [
            ("TITLE 't' NAME 'n' EXPRESSION 'e'", "t"), ("NAME 'n' EXPRESSION 'e'", "n"), ("EXPRESSION {a,b}", "a, b"),
            ("EXPRESSION ([x] > 3 AND '[y]' = 'z')", "x > 3 AND 'y' = 'z'"), ("NAME 'm'", "m"), ("", "others"),
        ]
        found = self.entries("POINT", *(text + " STYLE COLOR 1 2 3 END" for text, _ in rows))
        self.assertEqual([entry["title"] for entry in found], [title for _, title in rows])
        self.assertEqual([entry["takesAll"] for entry in found], [False] * 4 + [True] * 2)
        # of a layer without rules
        self.assertEqual(self.entries("POINT", "STYLE COLOR 1 2 3 END")[0]["title"], "")

    def test_classes_without_a_style_are_left_out_and_their_rules_count(self):
        found = self.entries("POINT", "EXPRESSION 'e'", "STYLE COLOR 1 2 3 END")
        self.assertEqual([entry["title"] for entry in found], ["others"])

    def test_scales(self):
        found = self.entries("POINT", "MINSCALEDENOM 2e3 MAXSCALEDENOM 50000 STYLE COLOR 1 2 3 END", "MAXSCALEDENOM 7 STYLE COLOR 1 2 3 END")
        self.assertEqual([(entry.get("minScale"), entry.get("maxScale")) for entry in found], [(2000.0, 50000.0), (None, 7.0)])

    def test_a_square_stands_in_the_middle(self):
        width, height, pixels = self.picture("POINT", "COLOR 40 50 60 SIZE 6")
        self.assertEqual((width, height, self.covered(pixels, (40, 50, 60))), (28, 18, ((11, 16), (6, 11), 36)))

    def test_a_large_mark_makes_the_picture_larger(self):
        width, height, pixels = self.picture("POINT", "COLOR 40 50 60 SIZE 30")
        self.assertEqual((width, height, self.covered(pixels, (40, 50, 60))), (34, 34, ((2, 31), (2, 31), 900)))

    def test_a_pixmap_has_its_pixels_by_rows(self):
        _, _, pixels = self.picture("POINT", "SYMBOL 's'")
        # 3 by 2 in 28 by 18: from column 12 and row 8 on
        found = [pixels[column, row] for row in (8, 9) for column in (12, 13, 14)]
        self.assertEqual(found, [(1, 2, 3, 255), CLEAR, (4, 5, 6, 255), (7, 8, 9, 255), (10, 11, 12, 255), (13, 14, 15, 255)])

    def test_a_pixmap_of_a_smoothed_map_is_as_large_as_the_map_shows_it(self):
        # CONFIG as a mapfile may repeat it: of one key the last counts
        made = self.made("CONFIG 'WMS_SMOOTHING' '4' CONFIG 'WMS_SMOOTHING' '2' CONFIG 'LABELFONT' 'f.bdf'", layer("POINT", "STYLE SYMBOL 's' END"))
        _, _, pixels = pixels_of(made["layers"]["a"][0]["picture"])
        # 3 by 2 by factor 2 are 2 by 1: three pixels, of which the second is clear, and two
        found = [pixels[column, 8] for column in (12, 13, 14, 15)]
        self.assertEqual(found, [CLEAR, (6, 7, 8, 191), (9, 10, 11, 128), CLEAR])

    def test_a_smoothed_pixmap_lies_above_what_is_below_it(self):
        style = "STYLE COLOR 40 50 60 SIZE 8 END STYLE SYMBOL 's' END"
        made = self.made("CONFIG WMS_SMOOTHING 2", layer("POINT", style))
        _, _, pixels = pixels_of(made["layers"]["a"][0]["picture"])
        # a share of 191 of 255 of 6 7 8, and of 128 of 9 10 11, over 40 50 60
        self.assertEqual([pixels[13, 8], pixels[14, 8]], [(15, 18, 21, 255), (24, 30, 35, 255)])

    def disc(self, *styles, factor=2):
        """The sides and the pixels of a smoothed map's discs by these styles."""
        symbol = f"CONFIG WMS_SMOOTHING {factor} SYMBOL NAME 'd' TYPE Ellipse POINTS 1 1 END FILLED TRUE END"
        made = self.made(symbol, layer("POINT", " ".join(f"STYLE SYMBOL 'd' {style} END" for style in styles)))
        return pixels_of(made["layers"]["a"][0]["picture"])

    def test_a_disc_lies_round_the_middle(self):
        # 4 by 4 fine pixels without their corners, round the corner between the pixels 13 and 14, and 8 and 9
        width, height, pixels = self.disc("COLOR 40 50 60 SIZE 2")
        self.assertEqual((width, height), (28, 18))
        self.assertEqual({at: pixel for at, pixel in pixels.items() if pixel[3]}, {(i, j): (40, 50, 60, 191) for i in (13, 14) for j in (8, 9)})

    def test_a_disc_has_a_ring_in_it(self):
        _, _, pixels = self.disc("COLOR 40 50 60 OUTLINECOLOR 80 100 120 SIZE 4 WIDTH 1")
        # Of 8 by 8 fine pixels those are the ring whose centres are 2 to 4 off the middle. A pixel beside it has one of them,
        # at 1.5 and 1.5, and three of the disc; the next ones have four, and of those at the corners one each.
        inner, side, corner = (50, 63, 75, 255), (80, 100, 120, 255), (80, 100, 120, 64)
        rows = [[corner, side, side, corner], [side, inner, inner, side], [side, inner, inner, side], [corner, side, side, corner]]
        self.assertEqual([[pixels[column, row] for column in range(12, 16)] for row in range(7, 11)], rows)
        self.assertEqual(sum(pixel[3] > 0 for pixel in pixels.values()), 16)

    def test_a_ring_alone_leaves_its_hole(self):
        _, _, pixels = self.disc("OUTLINECOLOR 80 100 120 SIZE 4")
        self.assertEqual([pixels[column, 8] for column in (11, 12, 13)], [CLEAR, (80, 100, 120, 255), (80, 100, 120, 64)])
        self.assertEqual([pixels[column, 8] for column in (12, 13)], [pixels[column, 9] for column in (15, 14)])

    def test_a_large_disc_makes_the_picture_larger(self):
        width, height, pixels = self.disc("COLOR 40 50 60 SIZE 30", "COLOR 70 80 90 SIZE 2", factor=3)
        self.assertEqual((width, height, pixels[2, 16], pixels[1, 16]), (34, 34, (40, 50, 60, 255), CLEAR))
        # In fine pixels a size of 6 has 32 of 6 by 6, 8 of the 9 of each of the four in the middle: 8 and 1 of 9 of the colours.
        self.assertEqual(pixels[16, 16], (67, 77, 87, 255))

    def test_of_symbols_of_one_name_the_last_counts(self):
        disc, pixmap = "SYMBOL NAME 's' TYPE ELLIPSE POINTS 1 1 END FILLED TRUE END", "SYMBOL NAME 's' TYPE PIXMAP IMAGE 's.ppm' END"
        style = layer("POINT", "STYLE SYMBOL 's' COLOR 40 50 60 SIZE 4 END")
        found = [pixels_of(self.made("CONFIG WMS_SMOOTHING 2", *symbols, style)["layers"]["a"][0]["picture"])[2][13, 8] for symbols in ((disc,), (disc, pixmap))]
        self.assertEqual(found, [(40, 50, 60, 255), (6, 7, 8, 191)])

    def test_a_line_goes_across(self):
        _, _, pixels = self.picture("LINE", "COLOR 40 50 60 WIDTH 4")
        self.assertEqual(self.covered(pixels, (40, 50, 60)), ((0, 27), (7, 10), 112))

    def test_a_polygon_has_a_fill_within_its_outline(self):
        _, _, pixels = self.picture("POLYGON", "COLOR 40 50 60 OUTLINECOLOR '#46505a'")
        self.assertEqual(self.covered(pixels, (70, 80, 90)), ((2, 25), (2, 15), 2 * 24 + 2 * 12))
        self.assertEqual(self.covered(pixels, (40, 50, 60)), ((3, 24), (3, 14), 22 * 12))

    def test_later_styles_lie_above(self):
        entry = self.entries("POINT", "STYLE COLOR 40 50 60 SIZE 8 END STYLE COLOR 70 80 90 SIZE 4 END")[0]
        _, _, pixels = pixels_of(entry["picture"])
        self.assertEqual((self.covered(pixels, (40, 50, 60))[2], self.covered(pixels, (70, 80, 90))[2]), (64 - 16, 16))

    def test_a_colour_of_minus_one_is_none(self):
        _, _, pixels = self.picture("POINT", "COLOR -1 -1 -1 SIZE 5")
        self.assertEqual(set(pixels.values()), {CLEAR})

    def test_blocks_without_effect_are_skipped(self):
        blocks = "METADATA 'style' 'label' 'end' 'x' END PROJECTION 'init=epsg:4326' END VALIDATION 'a' 'b' END"
        found = self.entries("POINT", "LABEL COLOR 1 2 3 STYLE COLOR 4 5 6 END END STYLE COLOR 1 2 3 END")
        self.assertEqual(len(found), 1)
        made = self.made("LEGEND LABEL COLOR 1 2 3 END END", f"LAYER NAME 'b' TYPE LINE {blocks} FEATURE POINTS 1 2 3 4 END END CLASS STYLE COLOR 1 2 3 END END END")
        self.assertEqual(list(made["layers"]), ["b"])

    def test_what_is_no_map_has_no_legend(self):
        for source in ("MAP", "MAP FOO 3 END", "MAP LAYER NAME 'a' END", "MAP NAME 'a"):
            self.write("n.map", source.encode())
            with self.assertRaises(legend.NoLegend, msg=source):
                legend.legend_of(os.path.join(self.folder, "n.map"))


if __name__ == "__main__":
    unittest.main()
