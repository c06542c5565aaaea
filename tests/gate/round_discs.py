#!/usr/bin/env python3
"""Compares random discs and rings of smoothed maps, byte by byte, with all fine pixels by their distances, and tries faulty discs.

Usage: round_discs.py PROGRAM [MAPS [SEED]]

Each map has one layer of points, of one or two styles with a disc, a ring, or both, of SIZE 1 to 256 and WIDTH 1 to 32, most of
them small. Some points are equal, some lie off the picture, and some so that the centres of fine pixels are just on a border.
The squares of all distances are compared, in whole numbers, by nothing that `painting.py` has but device points. The picture
has the means of the fine pixels. The drawings of docs/DRAWING.md are tried on the same comparison first. Then `check` has to find
in each map of a table the fault that is worked by hand, by its line and its kind, or none. The script ends with 1 where a
picture or a fault differs, and prints the map.

Gate: PROGRAM 100; 3 s
"""
import pathlib
import random
import re
import subprocess
import sys
import tempfile

sys.path.insert(0, str(pathlib.Path(__file__).resolve().parents[1] / "lib"))

from painting import Picture, micro
from smoothing import answers, means, pixels_of

FACTORS = (2, 3, 4)
SIZES = [1, 1, 2, 2, 3, 3, 4, 5, 6, 7, 9, 13, 40, 256]
WIDTHS = [1, 1, 1, 2, 2, 3, 4, 7, 32]
SIDES = [(9, 7), (16, 12), (5, 21), (23, 3), (1, 1)]

# A size, a width or none, the device point, and the pixels of rows from 0 on, as docs/DRAWING.md draws them.
DRAWINGS = [
    (4, None, (40, 40), ["..#..", ".###.", "#####", ".###.", "..#.."]),
    (4, 1, (40, 40), ["..#..", ".###.", "##.##", ".###.", "..#.."]),
    (4, 1, (32, 32), [".##.", "#..#", "#..#", ".##."]),
]

UNKNOWN_WORD, WRONG_VALUE, MISSING_VALUE, MISSING_FILE = 2, 3, 5, 7
SMOOTH = 'CONFIG "WMS_SMOOTHING" "2"\n'
DISC = 'SYMBOL NAME "d" TYPE ELLIPSE POINTS 1 1 END FILLED TRUE END\n'
LAYER = 'LAYER NAME "a" TYPE POINT CLASS STYLE SYMBOL\n"e" COLOR 10 20 30 END END END\n'
# What stands in a map from line 2 on, and the line and the kind of its fault.
FAULTS = [
    # without smoothing, or before it
    (3, WRONG_VALUE, 'SYMBOL NAME "d" TYPE\nELLIPSE POINTS 1 1 END FILLED TRUE END\n'),
    (3, UNKNOWN_WORD, 'SYMBOL NAME "d"\nPOINTS 1 1 END TYPE ELLIPSE FILLED TRUE END\n'),
    (3, UNKNOWN_WORD, 'SYMBOL NAME "d"\nFILLED TRUE POINTS 1 1 END TYPE ELLIPSE END\n'),
    (3, WRONG_VALUE, 'SYMBOL NAME "d" TYPE\nELLIPSE POINTS 1 1 END FILLED TRUE END\n' + SMOOTH),
    (3, UNKNOWN_WORD, 'SYMBOL NAME "d"\nFILLED TRUE POINTS 1 1 END TYPE ELLIPSE END\n' + SMOOTH),
    (4, WRONG_VALUE, SMOOTH + 'CONFIG "WMS_SMOOTHING" "1" SYMBOL NAME "d" TYPE\nELLIPSE POINTS 1 1 END FILLED TRUE END\n'),
    # POINTS and FILLED
    (4, WRONG_VALUE, SMOOTH + 'SYMBOL NAME "d" TYPE ELLIPSE FILLED TRUE POINTS 1\n2 END END\n'),
    (4, WRONG_VALUE, SMOOTH + 'SYMBOL NAME "d" TYPE ELLIPSE FILLED TRUE POINTS\n0.999999 1 END END\n'),
    (4, WRONG_VALUE, SMOOTH + 'SYMBOL NAME "d" TYPE ELLIPSE FILLED TRUE POINTS 1 1\n1 END END\n'),
    (4, WRONG_VALUE, SMOOTH + 'SYMBOL NAME "d" TYPE ELLIPSE FILLED TRUE POINTS 1\nx END END\n'),
    (4, WRONG_VALUE, SMOOTH + 'SYMBOL NAME "d" TYPE ELLIPSE FILLED TRUE POINTS\n(1) 1 END END\n'),
    (4, MISSING_VALUE, SMOOTH + 'SYMBOL NAME "d" TYPE ELLIPSE FILLED TRUE POINTS 1\nEND END\n'),
    (4, MISSING_VALUE, SMOOTH + 'SYMBOL NAME "d" TYPE ELLIPSE FILLED TRUE POINTS\nEND END\n'),
    (4, WRONG_VALUE, SMOOTH + 'SYMBOL NAME "d" TYPE ELLIPSE POINTS 1 1 END FILLED\nFALSE END\n'),
    (4, WRONG_VALUE, SMOOTH + 'SYMBOL NAME "d" TYPE ELLIPSE POINTS 1 1 END FILLED\n1 END\n'),
    (4, MISSING_VALUE, SMOOTH + 'SYMBOL NAME "d" TYPE ELLIPSE POINTS 1 1 END FILLED\nEND\n'),
    # what a disc must have, and must not
    (4, MISSING_VALUE, SMOOTH + "SYMBOL TYPE ELLIPSE POINTS 1 1 END FILLED TRUE\nEND\n"),
    (4, MISSING_VALUE, SMOOTH + 'SYMBOL NAME "d" POINTS 1 1 END FILLED TRUE\nEND\n'),
    (4, MISSING_VALUE, SMOOTH + 'SYMBOL NAME "d" TYPE ELLIPSE FILLED TRUE\nEND\n'),
    (4, MISSING_VALUE, SMOOTH + 'SYMBOL NAME "d" TYPE ELLIPSE POINTS 1 1 END\nEND\n'),
    (4, WRONG_VALUE, SMOOTH + 'SYMBOL NAME "d" TYPE ELLIPSE POINTS 1 1 END FILLED TRUE IMAGE\n"none.ppm"\nEND\n'),
    (4, WRONG_VALUE, SMOOTH + 'SYMBOL NAME "d" TYPE ELLIPSE IMAGE\n"none.ppm" POINTS 1 1 END FILLED TRUE\nEND\n'),
    (4, WRONG_VALUE, SMOOTH + 'SYMBOL NAME "d" TYPE\nVECTOR POINTS 1 1 END FILLED TRUE END\n'),
    # a pixmap as ever
    (4, MISSING_VALUE, SMOOTH + 'SYMBOL NAME "d" TYPE ELLIPSE TYPE PIXMAP POINTS 1 1 END FILLED TRUE\nEND\n'),
    (4, MISSING_FILE, SMOOTH + 'SYMBOL NAME "d" TYPE ELLIPSE TYPE PIXMAP POINTS 1 1 END FILLED TRUE IMAGE\n"none.ppm" END\n'),
    # the factor at the END of MAP
    (5, WRONG_VALUE, SMOOTH + DISC + 'CONFIG "WMS_SMOOTHING"\n"1"\n'),
    (6, WRONG_VALUE, SMOOTH + DISC + 'CONFIG "WMS_SMOOTHING" "1"\n' + LAYER),
]
# Maps without a fault.
WHOLE = [
    SMOOTH + DISC,
    SMOOTH + 'CONFIG "WMS_SMOOTHING" "1" CONFIG "WMS_SMOOTHING" "4"\n' + DISC + 'CONFIG "WMS_SMOOTHING" "1" CONFIG "WMS_SMOOTHING" "3"\n',
    SMOOTH + "symbol filled 'true' points 1.0 '1' end type 'pixmap' type 'Ellipse' name 'd' transparent 0 anchorpoint 0 0 end\n",
    LAYER + SMOOTH + DISC.replace('"d"', '"e"'),
]


def is_in(size, hole, square):
    """Whether a disc with a hole has what lies so far from its point, by the square: both across, and all in sixteenths of a pixel."""
    return max(hole, 0) ** 2 <= 4 * square <= size ** 2


def square_apart(a, b):
    """The square of the distance of two points."""
    return (a[0] - b[0]) ** 2 + (a[1] - b[1]) ** 2


def centre_of(at, width):
    """The centre of a pixel by its number, row by row."""
    return 16 * (at % width) + 8, 16 * (at // width) + 8


class Style:
    """The colours, the size and the width of a disc and its ring."""

    def __init__(self, rng):
        colour = lambda: tuple(rng.randrange(256) for _ in range(3))
        has_fill, has_ring = rng.choice([(True, False), (False, True), (True, True), (True, True)] * 4 + [(False, False)])
        self.fill, self.ring = colour() if has_fill else None, colour() if has_ring else None
        self.size, self.width = rng.choice(SIZES), rng.choice(WIDTHS)

    def words(self):
        """The style as a mapfile has it."""
        named = [("COLOR", self.fill), ("OUTLINECOLOR", self.ring)]
        colours = "".join(f"{word} {' '.join(map(str, colour))}\n" for word, colour in named if colour)
        return f'STYLE\nSYMBOL "d"\n{colours}SIZE {self.size}\nWIDTH {self.width}\nEND\n'

    def shapes(self, factor):
        """What it paints of a point: the size of a disc, that of its hole, and the colour, in sixteenths of a fine pixel."""
        across, wide = 16 * factor * self.size, 16 * factor * self.width
        return [shape for shape in ((across, 0, self.fill), (across, across - 2 * wide, self.ring)) if shape[2]]


def decimal(millionths):
    """A number of so many millionths."""
    return f"{'-' if millionths < 0 else ''}{abs(millionths) // 10**6}.{abs(millionths) % 10**6:06}"


def place(rng, size, factor):
    """A place about a picture of as many degrees as pixels: anywhere, far off, or where the device point is a centre or a corner of fine pixels."""
    kind = rng.random()
    if kind < 0.4:
        return tuple(f"{rng.uniform(-3, side + 3):.6f}" for side in size)
    if kind < 0.45:
        return tuple(f"{rng.uniform(-900, 900):.6f}" for _ in size)
    # Rounded up, so that the sixteenth that it is rounded down to is this one.
    across, down = (-(-8 * rng.randint(-8, 2 * factor * side + 8) * 10**6 // (16 * factor)) for side in size)
    return decimal(across), decimal(size[1] * 10**6 - down)


class Discs:
    """A map of one layer of points that are drawn with a disc."""

    def __init__(self, rng):
        self.factor, self.size = rng.choice(FACTORS), rng.choice(SIDES)
        self.styles = [Style(rng) for _ in range(rng.randint(1, 2))]
        self.features = [[place(rng, self.size, self.factor) for _ in range(rng.randint(1, 4))] for _ in range(rng.randint(1, 2))]
        if rng.random() < 0.3:
            self.features[-1].append(rng.choice(self.features[0]))

    def text(self):
        """The mapfile."""
        listed = lambda points: "".join(f"{x} {y}\n" for x, y in points)
        features = "".join(f"FEATURE\nPOINTS\n{listed(points)}END\nEND\n" for points in self.features)
        symbol = 'SYMBOL\nNAME "d"\nTYPE ELLIPSE\nPOINTS 1 1 END\nFILLED TRUE\nEND\n'
        styles = "".join(style.words() for style in self.styles)
        return f'MAP\nCONFIG "WMS_SMOOTHING" "{self.factor}"\n{symbol}LAYER\nNAME "a"\nTYPE POINT\nCLASS\n{styles}END\n{features}END\nEND\n'

    def query(self):
        """The query for the picture of a degree a pixel."""
        width, height = self.size
        return (
            f"QUERY VERSION=1.3.0&REQUEST=GetMap&LAYERS=a&STYLES=&CRS=CRS:84&BBOX=0,0,{width},{height}&WIDTH={width}&HEIGHT={height}"
            "&FORMAT=image/x-portable-arbitrarymap&TRANSPARENT=TRUE\n"
        )

    def painted(self):
        """The device point and a shape of each that is painted, in the order of painting."""
        fine = Picture((0, 0, *(side * 10**6 for side in self.size)), tuple(self.factor * side for side in self.size))
        for points in self.features:
            for style in self.styles:
                for x, y in points:
                    yield from ((fine.device((micro(x), micro(y))), shape) for shape in style.shapes(self.factor))

    def expected(self):
        """The pixels by the rule, as red, green, blue and alpha, and how many centres of fine pixels lie just on a border."""
        width, height = (self.factor * side for side in self.size)
        pixels, borders = [bytes(4)] * (width * height), 0
        for point, (size, hole, colour) in self.painted():
            for at in range(width * height):
                square = square_apart(centre_of(at, width), point)
                borders += 4 * square in (size ** 2, max(hole, 0) ** 2) and square > 0
                if is_in(size, hole, square):
                    pixels[at] = bytes(colour) + b"\xff"
        return means(b"".join(pixels), *self.size, self.factor), borders


def try_drawings():
    """How many of the drawings of docs/DRAWING.md have other pixels by the comparison."""
    wrong = 0
    for size, width, point, rows in DRAWINGS:
        hole = 16 * (size - 2 * width) if width else 0
        side = len(rows)
        inside = [is_in(16 * size, hole, square_apart(centre_of(at, side), point)) for at in range(side * side)]
        drawn = ["".join("#" if inside[side * row + column] else "." for column in range(side)) for row in range(side)]
        if drawn != rows:
            wrong += 1
            print(f"size {size}, width {width} at {point}:", *drawn, sep="\n")
    return wrong


def try_faults(program, folder):
    """How many maps of the table have another fault, or one where they have none."""
    wrong = 0
    for line, kind, text in [*FAULTS, *((None, None, text) for text in WHOLE)]:
        (folder / "faulty.map").write_text(f"MAP\n{text}END\n")
        ran = subprocess.run([program, "check", folder / "faulty.map"], capture_output=True, text=True)
        found = re.match(r"fault line (\d+) kind (\d+)$", ran.stderr, re.M)
        wanted = (1, line, kind) if kind else (0, None, None)
        if (ran.returncode, *(map(int, found.groups()) if found else (None, None))) != wanted:
            wrong += 1
            print(f"status {ran.returncode}, {ran.stderr.strip()}, in place of line {line} and kind {kind}:\nMAP\n{text}END", flush=True)
    return wrong


def try_maps(program, folder, seeds):
    """How many of the random maps have another picture, and how many centres lie just on a border."""
    wrong, borders = 0, 0
    for seed in seeds:
        discs = Discs(random.Random(seed))
        (folder / "discs.map").write_text(discs.text())
        (body,) = answers(program, folder, "discs.map", [discs.query()])
        pixels, more = discs.expected()
        borders += more
        if pixels_of(body) != (*discs.size, pixels):
            wrong += 1
            print(f"seed {seed}:\n{discs.text()}{discs.query()}", flush=True)
    return wrong, borders


def main():
    if not 2 <= len(sys.argv) <= 4:
        sys.exit(__doc__.split("\n")[2])
    program = pathlib.Path(sys.argv[1]).resolve()
    maps, first = (int(sys.argv[at]) if len(sys.argv) > at else default for at, default in ((2, 2_000), (3, 1)))
    with tempfile.TemporaryDirectory() as name:
        folder = pathlib.Path(name)
        wrong, borders = try_maps(program, folder, range(first, first + maps))
        faulty = try_faults(program, folder)
    drawings = try_drawings()
    print(f"{maps} maps, with {borders:,} centres just on a border, {wrong} differ; {len(FAULTS) + len(WHOLE)} faults, {faulty} differ")
    sys.exit(1 if wrong or faulty or drawings else 0)


if __name__ == "__main__":
    main()
