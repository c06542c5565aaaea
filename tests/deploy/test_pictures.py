#!/usr/bin/python3
"""The pictures that deploy/formats packs and draws, where Debian's python3-pil is."""
import base64
import io
import json
import os
import pathlib
import sys
import tempfile
import unittest

sys.path.insert(0, str(pathlib.Path(__file__).resolve().parents[1] / "lib"))

import loading

HAS_PILLOW = loading.has_package("PIL", "Image", "ImageDraw", "ImageFont")
import wmsformats
import wmspictures


Image = wmspictures.Image
CLEAR = (0, 0, 0, 0)


def drawn(mode, *rows):
    """A picture of rows of pixels."""
    picture = Image.new(mode, (len(rows[0]), len(rows)))
    picture.putdata([pixel for row in rows for pixel in row])
    return picture


def unpacked(data):
    return Image.open(io.BytesIO(data))


@unittest.skipUnless(HAS_PILLOW, "python3-pil is missing")
class Packed(unittest.TestCase):
    def setUp(self):
        self.plain = drawn("RGB", [(10, 20, 30), (40, 50, 60), (255, 0, 255)], [(70, 80, 90), (1, 2, 3), (0, 0, 0)])
        self.clear = drawn("RGBA", [(10, 20, 30, 255), CLEAR, (40, 50, 60, 255)], [CLEAR, (0, 0, 0, 255), (255, 255, 255, 255)])

    def test_png_and_webp_have_the_pixels(self):
        for pack in (wmsformats.png, wmsformats.webp):
            for picture in (self.plain, self.clear):
                self.assertEqual(list(unpacked(pack(picture)).convert(picture.mode).getdata()), list(picture.getdata()))

    def test_a_small_png_has_the_pixels_of_few_colours(self):
        for picture in (self.plain, self.clear):
            data = wmsformats.small_png(picture)
            self.assertEqual(unpacked(data).mode, "P")
            self.assertEqual(list(unpacked(data).convert(picture.mode).getdata()), list(picture.getdata()))

    def test_a_small_png_with_many_colours_keeps_what_is_clear(self):
        rows = [[(column * 4, row * 4, 0, 255) if column != row else CLEAR for column in range(64)] for row in range(64)]
        found = unpacked(wmsformats.small_png(drawn("RGBA", *rows))).convert("RGBA")
        self.assertEqual([at for at, pixel in enumerate(found.getdata()) if pixel[3] == 0], [65 * row for row in range(64)])

    def test_a_jpeg_is_near(self):
        flat = Image.new("RGB", (16, 16), (200, 100, 50))
        found = unpacked(wmsformats.jpeg(flat))
        self.assertEqual((found.format, found.size), ("JPEG", (16, 16)))
        self.assertLess(max(abs(a - b) for a, b in zip(found.getpixel((8, 8)), (200, 100, 50))), 4)


@unittest.skipUnless(HAS_PILLOW, "python3-pil is missing")
class Faults(unittest.TestCase):
    def test_a_blank_picture_has_the_size_and_the_ground_of_the_query(self):
        found = wmspictures.of_fault({"WIDTH": "30", "HEIGHT": "20", "BGCOLOR": "0x0A141E", "EXCEPTIONS": "BLANK"}, "words", False)
        self.assertEqual((found.mode, found.size, found.getcolors()), ("RGB", (30, 20), [(600, (10, 20, 30))]))

    def test_a_clear_one_is_clear(self):
        found = wmspictures.of_fault({"WIDTH": "3", "HEIGHT": "2", "BGCOLOR": "0x0A141E"}, "words", True)
        self.assertEqual((found.mode, found.getcolors()), ("RGBA", [(6, CLEAR)]))

    def test_a_size_that_no_picture_has_is_256(self):
        for text in ("0", "2049", "99999", "-5", "x", "", None):
            self.assertEqual(wmspictures.side_of(text), 256, text)
        self.assertEqual([wmspictures.side_of(text) for text in ("1", "2048", "007")], [1, 2048, 7])

    def test_words_are_drawn_where_they_are_asked_for(self):
        for name in ("INIMAGE", "application/vnd.ogc.se_inimage"):
            found = wmspictures.of_fault({"WIDTH": "200", "HEIGHT": "40", "EXCEPTIONS": name}, "InvalidCRS: CRS", False)
            left, top, _, bottom = found.convert("L").point(lambda shade: 255 if shade < 250 else 0).getbbox()
            self.assertTrue(4 <= left <= 8 and 4 <= top and bottom <= 24, (left, top, bottom))


@unittest.skipUnless(HAS_PILLOW, "python3-pil is missing")
class Legends(unittest.TestCase):
    def setUp(self):
        folder = tempfile.TemporaryDirectory()
        self.addCleanup(folder.cleanup)
        self.path = os.path.join(folder.name, "legend.json")

    def write(self, layers):
        with open(self.path, "w", encoding="utf-8") as file:
            json.dump({"layers": layers}, file)

    def entry(self, title, size, colour):
        data = wmsformats.png(Image.new("RGB", size, colour))
        return {"title": title, "picture": "data:image/png;base64," + base64.b64encode(data).decode()}

    def test_marks_stand_below_each_other(self):
        self.write({"a": [self.entry("", (28, 18), (10, 20, 30)), self.entry("", (20, 30), (40, 50, 60))], "b": []})
        found = wmspictures.legend(self.path, "a")
        # 4 pixels round each: 4 + 18 + 4 + 30 + 4
        self.assertEqual(found.height, 60)
        pixels = {(4, 4): (10, 20, 30, 255), (31, 21): (10, 20, 30, 255), (4, 26): (40, 50, 60, 255), (23, 55): (40, 50, 60, 255)}
        for at, colour in pixels.items():
            self.assertEqual(found.getpixel(at), colour, at)
        self.assertEqual([found.getpixel(at)[3] for at in ((3, 4), (4, 22), (24, 30), (4, 56))], [0, 0, 0, 0])

    def test_a_title_stands_right_of_its_mark(self):
        self.write({"a": [self.entry("roads", (28, 18), (255, 255, 255))]})
        found = wmspictures.legend(self.path, "a")
        left = found.convert("RGB").point(lambda shade: 255 if shade < 128 else 0).getbbox()[0]
        self.assertTrue(34 <= left <= 40, left)
        self.assertGreater(found.width, 50)

    def test_a_layer_that_is_not_there_has_none(self):
        self.assertIsNone(wmspictures.legend(self.path, "a"))
        self.write({"a": []})
        self.assertIsNone(wmspictures.legend(self.path, "b"))
        self.assertIsNotNone(wmspictures.legend(self.path, "a"))


if __name__ == "__main__":
    unittest.main()
