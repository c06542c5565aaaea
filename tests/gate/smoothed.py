#!/usr/bin/env python3
"""Compares smoothed pictures, byte by byte, with the means of pictures that are as many times as large.

Usage: smoothed.py PROGRAM [MAPS [SEED]]

For each random map and each factor the program draws a picture of a map with CONFIG "WMS_SMOOTHING", and the picture n times
as wide and high of a copy without it: in the copy SIZE, BUFFER and MINDISTANCE are n times as many, and the bounds on
scales an n-th. Each pixel of the first has to be the mean of n by n pixels of the second, by DRAWING.md. The maps have
polygons that share edges, points, pixmaps, classes by scale and labels; the pictures lie across borders of blocks, in
EPSG:3857, in each format, with each TRANSPARENT and with BGCOLOR. They have no lines and no outlines of labels, which
are round in a smoothed picture alone: `random_maps.py` and `round_lines.py` try those. It ends with 1 where a picture differs.

Gate: PROGRAM 4; 6 s
"""
import pathlib
import random
import sys
import tempfile

sys.path.insert(0, str(pathlib.Path(__file__).resolve().parents[1] / "lib"))

from smoothing import FONT, answers, means, pixels_of


FACTORS = (2, 3, 4)
# The formats, with what the background may be.
FORMATS = [("image/x-portable-pixmap", "BGCOLOR=0x0A141E"), ("image/x-portable-arbitrarymap", "TRANSPARENT=TRUE"), ("image/png", "TRANSPARENT=TRUE"), ("image/png", "BGCOLOR=0x0A141E")]
# A fine picture of 2,048 columns or 128 rows has a border of blocks.
SIDES = [(60, 40), (37, 64), (512, 90), (130, 512), (1, 1), (3, 200)]
# bounds that each factor divides, about the scale of a picture
BOUNDS = [12 * n * 10**6 for n in (1, 3, 9, 20, 60)]


def colour(rng):
    return " ".join(str(rng.randrange(256)) for _ in range(3))


def pixmap(rng, width, height):
    """A symbol's file, of which some pixels are nothing."""
    pixels = [(255, 0, 255) if rng.random() < 0.3 else tuple(rng.randrange(256) for _ in range(3)) for _ in range(width * height)]
    return f"P6\n{width} {height}\n255\n".encode() + bytes(part for pixel in pixels for part in pixel)


def place(rng):
    return f"{rng.uniform(-12, 12):.6f} {rng.uniform(-9, 9):.6f}"


def points(places):
    return "POINTS " + " ".join(places) + " END"


def neighbours(rng):
    """Two polygons on the two sides of a chain of vertices that both have."""
    chain = [f"{rng.uniform(-4, 4):.6f} {-8 + step:.6f}" for step in range(17)]
    west, east = [f"-11.5 {y}" for y in (8.5, -8.5)], [f"11.25 {y}" for y in (8.5, -8.5)]
    return [points([*chain, *west]), points([*reversed(chain), *reversed(east)])]


def parts(rng, kind):
    if kind == "POLYGON" and rng.random() < 0.3:
        return neighbours(rng)
    count = {"POINT": 6, "POLYGON": 7}[kind]
    return [points([place(rng) for _ in range(rng.randint(1 if kind == "POINT" else 2, count))]) for _ in range(rng.randint(1, 3))]


def bounds(rng):
    """Names and values of bounds on the scale."""
    low, high = sorted(rng.sample(BOUNDS, 2))
    return rng.choice([{}, {}, {"MINSCALEDENOM": low}, {"MAXSCALEDENOM": high}, {"MINSCALEDENOM": low, "MAXSCALEDENOM": high}])


class Style:
    def __init__(self, rng, kind):
        self.words = [f"COLOR {colour(rng)}"]
        if kind == "POINT" and rng.random() < 0.4:
            self.words.append(f'SYMBOL "{rng.choice("st")}"')
        self.sizes = {"SIZE": rng.randint(1, 64)}


class Label:
    def __init__(self, rng):
        self.words = [f"COLOR {colour(rng)}", f"POSITION {rng.choice('UL UC UR CL CC CR LL LC LR AUTO'.split())}", f"PRIORITY {rng.randint(1, 10)}"]
        self.words += rng.choice([[], ["PARTIALS TRUE"]]) + rng.choice([[], [], ["FORCE TRUE"]])
        self.sizes = {"BUFFER": rng.randint(0, 5), "MINDISTANCE": rng.choice([0, 7, 30])}


class Layer:
    def __init__(self, rng, name):
        self.name, self.kind = name, rng.choice(["POLYGON", "POLYGON", "POINT"])
        self.features = [(parts(rng, self.kind), rng.choice(["a", "ab", "b", "bbaab", "aaaaaaaaaa"])) for _ in range(rng.randint(1, 6))]
        self.styles = [Style(rng, self.kind) for _ in range(rng.randint(1, 2))]
        self.label = Label(rng) if rng.random() < 0.6 else None
        self.bounds, self.class_bounds = bounds(rng), bounds(rng)

    def text(self, times):
        sized = lambda part: "\n".join([*part.words, *(f"{name} {times * size}" for name, size in part.sizes.items())])
        bounded = lambda found: "\n".join(f"{name} {bound // times}" for name, bound in found.items())
        styles = "\n".join(f"STYLE\n{sized(style)}\nEND" for style in self.styles)
        label = f"LABEL\n{sized(self.label)}\nEND" if self.label else ""
        features = "\n".join(f'FEATURE\n{" ".join(drawn)}\nTEXT "{text}"\nEND' for drawn, text in self.features)
        return f'LAYER\nNAME "{self.name}"\nTYPE {self.kind}\n{bounded(self.bounds)}\nCLASS\n{bounded(self.class_bounds)}\n{styles}\n{label}\nEND\n{features}\nEND'


def mapfile(layers, times, config):
    symbols = "\n".join(f'SYMBOL\nNAME "{name}"\nTYPE PIXMAP\nIMAGE "{name}.ppm"\nEND' for name in "st")
    offered = 'CONFIG "LABELFONT" "f.bdf"\nCONFIG "WMS_FORMATS" "image/png"\nCONFIG "WMS_CRS" "EPSG:3857"'
    return f"MAP\n{config}\n{offered}\n{symbols}\n" + "\n".join(layer.text(times) for layer in layers) + "\nEND\n"


def box(rng):
    """A box of the world by its system, and its sides."""
    if rng.random() < 0.3:
        x, y, span = rng.uniform(-8e5, 4e5), rng.uniform(-8e5, 4e5), rng.choice([4e5, 9e5, 2.2e6])
        return "EPSG:3857", [x, y, x + span, y + span * rng.uniform(0.4, 1.6)]
    x, y, span = rng.uniform(-10, 4), rng.uniform(-8, 3), rng.choice([2, 7, 19])
    return "CRS:84", [x, y, x + span, y + span * rng.uniform(0.4, 1.6)]


def query(layers, system, sides, size, form, ground):
    return (
        f"QUERY VERSION=1.3.0&REQUEST=GetMap&LAYERS={','.join(layer.name for layer in layers)}&STYLES=&CRS={system}"
        f"&BBOX={','.join(f'{side:.6f}' for side in sides)}&WIDTH={size[0]}&HEIGHT={size[1]}&FORMAT={form}&{ground}\n"
    )


def tried(program, folder, seed):
    """What differs of a random map, and how many pictures were compared."""
    rng, wrong, count = random.Random(seed), [], 0
    layers = [Layer(rng, name) for name in "abc"[:rng.randint(1, 3)]]
    (folder / "f.bdf").write_text(FONT)
    for name in "st":
        (folder / f"{name}.ppm").write_bytes(pixmap(rng, rng.randint(1, 40), rng.randint(1, 40)))
    for times in FACTORS:
        (folder / "smooth.map").write_text(mapfile(layers, 1, f'CONFIG "WMS_SMOOTHING" "{times}"'))
        (folder / "fine.map").write_text(mapfile(layers, times, ""))
        asked = [(*box(rng), rng.choice(SIDES), *rng.choice(FORMATS)) for _ in range(3)]
        asked = [(system, sides, tuple(min(side, 2048 // times) for side in size), form, ground) for system, sides, size, form, ground in asked]
        smooth = answers(program, folder, "smooth.map", [query(layers, *one) for one in asked])
        fine = answers(program, folder, "fine.map", [query(layers, system, sides, [times * side for side in size], form, ground) for system, sides, size, form, ground in asked])
        for one, got, larger in zip(asked, smooth, fine, strict=True):
            count += 1
            wide, high, pixels = pixels_of(larger)
            expected = (wide // times, high // times, means(pixels, wide // times, high // times, times))
            if pixels_of(got) != expected:
                wrong.append(f"seed {seed}, factor {times}: {one}")
    return wrong, count


def main():
    if not 2 <= len(sys.argv) <= 4:
        sys.exit(__doc__.split("\n")[2])
    program = pathlib.Path(sys.argv[1]).resolve()
    maps, first = (int(sys.argv[at]) if len(sys.argv) > at else default for at, default in ((2, 12), (3, 1)))
    wrong, count = [], 0
    for seed in range(first, first + maps):
        with tempfile.TemporaryDirectory() as folder:
            more, compared = tried(program, pathlib.Path(folder), seed)
        wrong, count = wrong + more, count + compared
    for line in wrong:
        print(line)
    print(f"{maps} maps, {count} pictures compared, {len(wrong)} differ")
    sys.exit(1 if wrong else 0)


if __name__ == "__main__":
    main()
