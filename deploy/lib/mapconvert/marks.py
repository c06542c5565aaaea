"""Pixmaps of symbols, drawn by MapServer at their size, and the discs of a smoothed map."""
import io
import os

import mapscript
from PIL import Image

from mapconvert import discs
from mapconvert.styles import colour_of

LARGEST = 256
# The shares of its size that are tried of a mark whose pixmap would be larger.
SHARES = [twentieths / 20 for twentieths in range(20, 0, -1)]
NOTHING = (255, 0, 255)
# A pattern whose mean opacity, of 255, is this is a fill; its edges are smoothed.
COVERS = 242
HERE = os.path.dirname(os.path.realpath(__file__))


def around(middle, box):
    """The least box round the middle of a square that has a box in it, and the middle in its own middle; both end behind their last pixel."""
    across = max(middle - box[0], box[2] - 1 - middle, 0)
    down = max(middle - box[1], box[3] - 1 - middle, 0)
    return middle - across, middle - down, middle + across + 1, middle + down + 1


class Marks:
    """The pixmaps of a map, each once, in the folder that is written, so many times as large as MapServer draws them."""

    def __init__(self, path, folder, times=1):
        self.map = mapscript.mapObj(path)
        self.resolution, self.times = self.map.resolution, times
        while self.map.numlayers:
            self.map.removeLayer(0)
        self.map.scalebar.status = self.map.legend.status = mapscript.MS_OFF
        form = mapscript.outputFormatObj("AGG/PNG", "marks")
        form.imagemode, form.transparent = mapscript.MS_IMAGEMODE_RGBA, mapscript.MS_ON
        self.map.setOutputFormat(form)
        self.folder, self.names, self.has_disc = folder, {}, False

    def disc(self, style):
        """The words of the style that paints a circle as a disc; nothing for another mark, and in a map that isn't smoothed."""
        symbol = self.map.symbolset.getSymbol(style.symbol) if self.times > 1 else None
        if symbol is None or not (discs.is_circle(symbol) and discs.is_plain(style)):
            return None
        words = discs.words_of(style, symbol, self.resolution / self.map.defresolution)
        self.has_disc = self.has_disc or words is not None
        return words

    def draw(self, style, side, is_polygon=False, share=1):
        """The picture of a point in the middle of a square, a share of so many times as large, or of a polygon that covers it."""
        self.map.resolution = self.resolution * (1 if is_polygon else self.times * share)
        self.map.setSize(side, side)
        self.map.setExtent(-side / 2 + 0.5, -side / 2 + 0.5, side / 2 - 0.5, side / 2 - 0.5)
        layer = mapscript.layerObj(self.map)
        layer.type = mapscript.MS_LAYER_POLYGON if is_polygon else mapscript.MS_LAYER_POINT
        layer.status, layer.name = mapscript.MS_ON, "mark"
        mapscript.classObj(layer).insertStyle(style.clone())
        shape = mapscript.shapeObj(mapscript.MS_SHAPE_POLYGON if is_polygon else mapscript.MS_SHAPE_POINT)
        line = mapscript.lineObj()
        for x, y in ((-1, -1), (-1, 1), (1, 1), (1, -1), (-1, -1)) if is_polygon else ((0, 0),):
            line.add(mapscript.pointObj(x * side, y * side))
        shape.add(line)
        layer.addFeature(shape)
        picture = Image.open(io.BytesIO(self.map.draw().getBytes())).convert("RGBA")
        self.map.removeLayer(layer.index)
        return picture

    def mean_colour(self, style, ground):
        """The colour that a pattern has from afar over a ground, which is a colour as a mapfile has it."""
        picture = Image.new("RGBA", (64, 64), (*map(int, ground.split()), 255))
        picture.alpha_composite(self.draw(style, 64, True))
        return "%d %d %d" % picture.convert("RGB").resize((1, 1), Image.Resampling.BOX).getpixel((0, 0))

    def in_place_of(self, style, below):
        """What stands for a pattern: a fill over the fill that lies below it, or where none does an outline, so that the ground is seen."""
        *colour, alpha = self.draw(style, 64, True).resize((1, 1), Image.Resampling.BOX).getpixel((0, 0))
        own = colour_of(style.color) or "%d %d %d" % tuple(colour)
        return (self.mean_colour(style, below or own), None) if below or alpha >= COVERS else (None, own)

    def is_cut(self, style, share=1):
        """Whether a share of a mark is larger than a pixmap may be."""
        side = LARGEST - 1
        left, top, right, bottom = self.draw(style, side, share=share).getchannel("A").getbbox() or (1, 1, 1, 1)
        return left == 0 or top == 0 or right == side or bottom == side

    def share_of(self, style):
        """The share of its size that a mark has: in a smoothed map the largest at which its pixmap isn't cut."""
        if self.times == 1:
            return 1
        return next((share for share in SHARES if not self.is_cut(style, share)), SHARES[-1])

    def is_translucent(self, style):
        """Whether most of a mark is neither opaque nor clear."""
        shades = self.draw(style, LARGEST - 1).getchannel("A").histogram()
        return sum(shades[16:240]) > sum(shades[240:])

    def pixmap(self, style):
        """The pixels of a mark round its point, opaque or clear; nothing where it has none."""
        picture = self.draw(style, LARGEST - 1, share=self.share_of(style))
        solid = picture.getchannel("A").point(lambda alpha: 255 if alpha >= 128 else 0)
        box, middle = solid.getbbox(), (LARGEST - 1) // 2
        if box is None:
            return None
        plain = Image.new("RGB", picture.size, NOTHING)
        colours = picture.convert("RGB")
        # A pixel that is 255 0 255 itself is painted in its neighbour.
        colours.putdata([(254, 0, 255) if pixel == NOTHING else pixel for pixel in colours.getdata()])
        plain.paste(colours, mask=solid)
        return plain.crop(around(middle, box))

    def name_of(self, style, wanted):
        """The name of the symbol that paints as a style does on a point; nothing where that paints nothing."""
        picture = self.pixmap(style)
        if picture is None:
            return None
        key = (picture.size, picture.tobytes())
        if key not in self.names:
            name = "".join(c if c.isalnum() and c.isascii() else "_" for c in wanted or "mark")
            name = f"{name}{len(self.names) + 1}"
            with open(os.path.join(self.folder, f"{name}.ppm"), "wb") as file:
                file.write(b"P6\n%d %d\n255\n" % picture.size + picture.tobytes())
            self.names[key] = name
        return self.names[key]

    def lines(self):
        """The SYMBOL blocks of the map."""
        if self.has_disc:
            yield discs.SYMBOL
        for name in self.names.values():
            yield f'  SYMBOL NAME "{name}" TYPE PIXMAP IMAGE "{name}.ppm" END'
