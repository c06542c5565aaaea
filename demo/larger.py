"""Symbols and a font for smoothed maps, whose pixels are fine ones (docs/DRAWING.md, "Smoothing")."""
import re

# Encodings of Latin letters alone are kept: a large font takes long to read.
LAST = 0x17F
NOTHING = (255, 0, 255)


def doubled(rows):
    """Twice as many rows and columns, where a corner between two pixels of one colour gets it (EPX, Scale2x)."""
    at = lambda i, j: rows[j][i] if 0 <= j < len(rows) and 0 <= i < len(rows[j]) else 0
    out = []
    for j, row in enumerate(rows):
        upper, lower = [], []
        for i, here in enumerate(row):
            above, left, right, below = at(i, j - 1), at(i - 1, j), at(i + 1, j), at(i, j + 1)
            is_corner = above != below and left != right
            upper += [left if is_corner and left == above else here, right if is_corner and right == above else here]
            lower += [left if is_corner and left == below else here, right if is_corner and right == below else here]
        out += [upper, lower]
    return out


def bolder(rows):
    """The rows with each stroke one pixel wider to the right: thin strokes grow pale where they are averaged."""
    return [[here | before for here, before in zip(row, [0, *row])] for row in rows]


def glyph_rows(lines, width):
    return [[int(bit) for bit in f"{int(line, 16):0{4 * len(line)}b}"[:width]] for line in lines]


def hexadecimal(row):
    """A row of ink as a BDF font has it."""
    text = "".join(map(str, row))
    text += "0" * (-len(text) % 8)
    return f"{int(text, 2):0{len(text) // 4}X}"


def larger_glyph(block, times):
    """The lines of a glyph that is so many times as large; nothing where its encoding isn't kept."""
    encoding, advance = (int(re.search(rf"\n{word} (-?\d+)", block)[1]) for word in ("ENCODING", "DWIDTH"))
    width, *box = map(int, re.search(r"\nBBX (\d+) (\d+) (-?\d+) (-?\d+)", block).groups())
    if not 0 <= encoding <= LAST:
        return []
    rows, factor = glyph_rows(block.split("\nBITMAP\n", 1)[1].split("\nENDCHAR")[0].split(), width), times
    while factor > 1:
        rows, factor = doubled(rows), factor // 2
    sides = " ".join(str(times * side) for side in (width, *box))
    return [f"STARTCHAR {block.split()[0]}", f"ENCODING {encoding}", f"DWIDTH {times * advance} 0", f"BBX {sides}", "BITMAP", *map(hexadecimal, bolder(rows)), "ENDCHAR"]


def larger_font(text, times):
    """A BDF font so many times as large, a power of two, of the Latin letters of another one."""
    box = [times * int(side) for side in re.search(r"\nFONTBOUNDINGBOX (\d+) (\d+) (-?\d+) (-?\d+)", text).groups()]
    glyphs = [lines for block in text.split("\nSTARTCHAR ")[1:] if (lines := larger_glyph(block, times))]
    head = ["STARTFONT 2.1", "COMMENT X.Org's misc-fixed (public domain), enlarged by demo/make.", "FONT fixed", f"SIZE {box[1]} 75 75"]
    head += [f"FONTBOUNDINGBOX {' '.join(map(str, box))}", f"CHARS {len(glyphs)}"]
    return "\n".join([*head, *(line for lines in glyphs for line in lines), "ENDFONT"]) + "\n"


def pixmap(side, colour_at):
    """A pixmap of a square, whose colours a function gives by how far a pixel's centre lies right of the middle and below it."""
    middle = (side - 1) / 2
    pixels = [colour_at(i - middle, j - middle) or NOTHING for j in range(side) for i in range(side)]
    return b"P6\n%d %d\n255\n" % (side, side) + bytes(part for pixel in pixels for part in pixel)


def distance_to(x, y, a, b):
    """How far a point is away from a segment."""
    (x0, y0), (x1, y1) = a, b
    length = (x1 - x0) ** 2 + (y1 - y0) ** 2
    along = max(0, min(1, ((x - x0) * (x1 - x0) + (y - y0) * (y1 - y0)) / length))
    return ((x - x0 - along * (x1 - x0)) ** 2 + (y - y0 - along * (y1 - y0)) ** 2) ** 0.5


# An anchor round the middle of its shank, in pixels of the map: strokes, and rings by centre, radius and the height from which on.
STROKES = [((0, -2.6), (0, 4)), ((-2, -1.6), (2, -1.6)), ((-4, 1), (-4.2, 1.4)), ((4, 1), (4.2, 1.4))]
RINGS = [(0, -3.6, 1, -9), (0, 0, 4, 1)]


def distance_to_anchor(x, y):
    """How far a point is away from the strokes of the anchor."""
    away = [distance_to(x, y, *stroke) for stroke in STROKES]
    away += [abs(((x - i) ** 2 + (y - j) ** 2) ** 0.5 - radius) for i, j, radius, first in RINGS if y >= first]
    return min(away)


def anchor(times, colour, halo):
    """An anchor of 11 pixels of the map, with strokes of 1.2 and a halo."""
    def colour_at(x, y):
        away = distance_to_anchor(x / times, y / times)
        return colour if away <= 0.6 else halo if away <= 1.4 else None
    return pixmap(13 * times, colour_at)
