"""What lint says of fonts and symbols that look too small on a smoothed map, whose pixels theirs are not (docs/DRAWING.md, "Smoothing")."""
import os
import re

import keywords

# The pixels of the picture below which letters can't be read, and a symbol is a speck.
LETTERS, SYMBOL = 8, 4


class Sizes:
    """The factor of a mapfile, the value that gives it, its fonts and its pixmaps, by the tokens that name their files.

    A font is found by the key of its CONFIG; they stand in the order in which the keys were given last.
    """

    def __init__(self):
        self.factor, self.given, self.fonts, self.images = 1, None, {}, []

    def see(self, block, word, values):
        """Takes over what a keyword says of the factor, the font and pixmaps."""
        key = f"{block} {word}"
        if key == "MAP CONFIG" and values[0].text == "WMS_SMOOTHING" and values[1].text in keywords.SMOOTHINGS.split():
            self.factor, self.given = int(values[1].text), values[1]
        elif key == "MAP CONFIG" and (values[0].text == "LABELFONT" or keywords.FONT_KEY.fullmatch(values[0].text)):
            self.fonts.pop(values[0].text, None)
            self.fonts[values[0].text] = values[1]
        elif key == "SYMBOL IMAGE":
            self.images.append(values[0])

    def names(self):
        """The names of the fonts that have one."""
        return {key.partition(" ")[2] for key in self.fonts} - {""}

    def warnings(self, folder):
        """The line and the words of each file in a folder that is too small; none of a file that can't be read."""
        if self.factor == 1:
            return
        sought = [(token, height_of_font, LETTERS, "high") for token in self.fonts.values()]
        for token, size_of, least, across in [*sought, *((token, side_of_pixmap, SYMBOL, "long") for token in self.images)]:
            size = size_of(head_of(os.path.join(folder, token.text)))
            if size is not None and size < least * self.factor:
                shown = f"{size / self.factor:.2f}".rstrip("0").rstrip(".")
                words = f"{size} pixels {across}, which WMS_SMOOTHING {self.factor} shows as {shown}: bring one of {least * self.factor} or more"
                yield token.line, f"{token} is {words}"


def head_of(path):
    """The first bytes of a file; none where it can't be read."""
    try:
        with open(path, "rb") as file:
            return file.read(4096)
    except OSError:
        return b""


def height_of_font(head):
    found = re.search(rb"^FONTBOUNDINGBOX +\d+ +(\d+)", head, re.M)
    return int(found[1]) if found else None


def side_of_pixmap(head):
    """The longer side of a pixmap."""
    found = re.match(rb"P6\s(?:\s|#[^\r\n]*[\r\n])*(\d+)(?:\s|#[^\r\n]*[\r\n])+(\d+)", head)
    return max(int(found[1]), int(found[2])) if found else None
