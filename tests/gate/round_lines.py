#!/usr/bin/env python3
"""Compares random lines, bends and outlines of smoothed maps, byte by byte, with all fine pixels that are near enough to them.

Usage: round_lines.py PROGRAM [MAPS [SEED]]

Each map has one layer: lines of one to five vertices, or outlines of polygons, of one or two styles of WIDTH 1 to 32, most of
them narrow. Some vertices are equal, some lie just as far from pixel centres as the line reaches, some off the picture. A
fine pixel belongs to a line where its centre is at most half the width away from the nearest point of some segment: for each
of them the squares of both are compared, in whole numbers, by nothing that `painting.py` has but device points. The picture
has the means of the fine pixels. The script ends with 1 where a picture differs, and prints the map.

Gate: PROGRAM 100; 12 s
"""
import pathlib
import random
import sys
import tempfile

sys.path.insert(0, str(pathlib.Path(__file__).resolve().parents[1] / "lib"))

from painting import Picture, micro
from smoothing import FONT, answers, means, pixels_of

FACTORS = (2, 3, 4)
WIDTHS = [1, 1, 1, 2, 2, 3, 3, 4, 5, 7, 12, 32]
SIDES = [(9, 7), (16, 12), (5, 21), (23, 3), (1, 1)]


def colour(rng):
    """Any colour."""
    return tuple(rng.randrange(256) for _ in range(3))


class Style:
    """The colour and the width of a line."""

    def __init__(self, rng):
        self.colour, self.width = colour(rng), rng.choice(WIDTHS)

    def words(self, name):
        """The style as a mapfile has it, with a name for its colour."""
        return f"STYLE\n{name} {' '.join(map(str, self.colour))}\nWIDTH {self.width}\nEND\n"


def vertices(rng, size):
    """Vertices about a picture of as many degrees as pixels: anywhere, or at quarters of a pixel."""
    width, height = size
    if rng.random() < 0.5:
        some = [(rng.uniform(-2, width + 2), rng.uniform(-2, height + 2)) for _ in range(rng.randint(1, 5))]
    else:
        some = [(rng.randint(-4, 4 * width + 4) / 4, rng.randint(-4, 4 * height + 4) / 4) for _ in range(rng.randint(1, 5))]
    if rng.random() < 0.2:
        some.append((rng.uniform(-900, 900), rng.uniform(-900, 900)))
    if rng.random() < 0.3:
        some.append(rng.choice(some))
    return [(f"{x:.6f}", f"{y:.6f}") for x, y in some]


class Lines:
    """A map of one layer of lines, or of polygons with an outline and nothing within."""

    def __init__(self, rng):
        self.factor, self.size, self.closed = rng.choice(FACTORS), rng.choice(SIDES), rng.random() < 0.5
        self.styles = [Style(rng) for _ in range(rng.randint(1, 2))]
        self.features = [[vertices(rng, self.size) for _ in range(rng.randint(1, 2))] for _ in range(rng.randint(1, 2))]

    def text(self):
        """The mapfile."""
        kind, name = ("POLYGON", "OUTLINECOLOR") if self.closed else ("LINE", "COLOR")
        parts = lambda feature: "".join("POINTS\n" + "".join(f"{x} {y}\n" for x, y in part) + "END\n" for part in feature)
        features = "".join(f"FEATURE\n{parts(feature)}END\n" for feature in self.features)
        styles = "".join(style.words(name) for style in self.styles)
        config = f'CONFIG "WMS_SMOOTHING" "{self.factor}"\nCONFIG "LABELFONT" "f.bdf"\n'
        return f'MAP\n{config}LAYER\nNAME "a"\nTYPE {kind}\nCLASS\n{styles}END\n{features}END\nEND\n'

    def query(self):
        """The query for the picture of a degree a pixel."""
        width, height = self.size
        return (
            f"QUERY VERSION=1.3.0&REQUEST=GetMap&LAYERS=a&STYLES=&CRS=CRS:84&BBOX=0,0,{width},{height}&WIDTH={width}&HEIGHT={height}"
            "&FORMAT=image/x-portable-arbitrarymap&TRANSPARENT=TRUE\n"
        )

    def segments(self):
        """The segments of each feature, between device points of the fine picture."""
        fine = Picture((0, 0, *(side * 10**6 for side in self.size)), tuple(self.factor * side for side in self.size))
        for feature in self.features:
            found = []
            for part in feature:
                points = [fine.device((micro(x), micro(y))) for x, y in part]
                found += [(points[0], points[0]), *zip(points, points[1:])] + ([(points[-1], points[0])] if self.closed else [])
            yield found

    def expected(self):
        """The pixels by the rule, as red, green, blue and alpha."""
        width, height = (self.factor * side for side in self.size)
        pixels = [bytes(4)] * (width * height)
        for segments in self.segments():
            for style in self.styles:
                for at in range(width * height):
                    centre = (16 * (at % width) + 8, 16 * (at // width) + 8)
                    if any(is_near(a, b, centre, 8 * self.factor * style.width) for a, b in segments):
                        pixels[at] = bytes(style.colour) + b"\xff"
        return means(b"".join(pixels), *self.size, self.factor)


def square_apart(a, b):
    """The square of the distance of two points."""
    return (a[0] - b[0]) ** 2 + (a[1] - b[1]) ** 2


def is_near(a, b, point, most):
    """Whether a point is at most so far away from the nearest point of a segment."""
    run, fall = b[0] - a[0], b[1] - a[1]
    length = run * run + fall * fall
    along = (point[0] - a[0]) * run + (point[1] - a[1]) * fall
    if along <= 0:
        return square_apart(a, point) <= most * most
    if along >= length:
        return square_apart(b, point) <= most * most
    # The foot of the perpendicular lies along / length of the way. The square of the distance to it, times the length.
    return square_apart(a, point) * length - along * along <= most * most * length


def main():
    if not 2 <= len(sys.argv) <= 4:
        sys.exit(__doc__.split("\n")[2])
    program = pathlib.Path(sys.argv[1]).resolve()
    maps, first = (int(sys.argv[at]) if len(sys.argv) > at else default for at, default in ((2, 2_000), (3, 1)))
    wrong = 0
    for seed in range(first, first + maps):
        lines = Lines(random.Random(seed))
        with tempfile.TemporaryDirectory() as name:
            folder = pathlib.Path(name)
            (folder / "f.bdf").write_text(FONT)
            (folder / "lines.map").write_text(lines.text())
            (body,) = answers(program, folder, "lines.map", [lines.query()])
        if pixels_of(body) != (*lines.size, lines.expected()):
            wrong += 1
            print(f"seed {seed}:\n{lines.text()}{lines.query()}", flush=True)
    print(f"{maps} maps, {wrong} differ")
    sys.exit(1 if wrong else 0)


main()
