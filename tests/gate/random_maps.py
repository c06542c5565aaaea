#!/usr/bin/env python3
"""Compares pictures of random maps, byte by byte, with those that painting.py and labelling.py draw by the rules.

Usage: random_maps.py PROGRAM [MAPS [SEED]]

Each map has up to three layers, with rings, lines or points of up to 1,000 vertices, many of them of some blocks of 32 edges:
scattered, in short steps, far off the view, spikes and equal vertices, on pixel centres, in one row, left of the view and
beside its corner. Widths are 1 to 32, sizes 1 to 64; with smoothing lines are round. Points have squares or pixmaps, classes have bounds on the scale and
labels in three fonts. Of each map the program draws a picture without smoothing and one of each factor: that is the mean of the picture
by the rules that is as many times as fine. Some boxes have no fine picture. The script ends with 1 if a picture differs, and
leaves its map, with its files, in a folder below the one where it runs.

Gate: PROGRAM 20; 12 s
"""
import pathlib
import random
import shutil
import subprocess
import sys
import tempfile

sys.path.insert(0, str(pathlib.Path(__file__).resolve().parents[1] / "lib"))

from labelling import Font, Label, anchors_in, paint, place
from painting import Picture, micro
from smoothing import FONT, answers, means, pixels_of

SIZES = [(40, 40), (61, 23), (24, 60), (33, 36), (520, 7)]
FACTORS = (1, 2, 3, 4)
# The names of fonts beside that of labels which name none.
NAMES = ("tall-1", "wide_2")
# A colour that no style has stands for nothing.
NOTHING = (1, 2, 3)
PPM, PAM, PNG = "image/x-portable-pixmap", "image/x-portable-arbitrarymap", "image/png"
WORLD = (-10_000_000, -10_000_000, 10_000_000, 10_000_000)
# About the ends of blocks, and any.
COUNTS = [1, 2, 3, 31, 32, 33, 34, 50, 63, 64, 65, 66, 97, 100, 129, 193]


def within(number):
    """The number, at most 1,000 degrees in size."""
    return max(-1000.0, min(1000.0, number))


def scattered(count):
    return [(random.uniform(-20, 20), random.uniform(-20, 20)) for _ in range(count)]


def in_steps(count):
    """Vertices some way from one another, as a coast's are."""
    x, y, step = random.uniform(-15, 15), random.uniform(-15, 15), random.choice([0.0001, 0.01, 0.1, 1, 5])
    for _ in range(count):
        x, y = x + random.uniform(-step, step), y + random.uniform(-step, step)
        yield x, y


def far_off(count):
    """Runs of vertices far off the view, or beside it."""
    for index in range(count):
        if index % 70 == 0:
            east, north = (random.choice([-1, 1, 0]) * random.choice([30, 200, 900]) for _ in range(2))
        yield within(east + random.uniform(-5, 5)), within(north + random.uniform(-5, 5))


def with_spikes(count):
    """There and back, with equal vertices."""
    home = random.uniform(-15, 15), random.uniform(-15, 15)
    for index in range(count):
        if index % 3 == 0:
            tip = random.uniform(-12, 12), random.uniform(-12, 12)
        yield random.choice([home, tip, (home[0], tip[1])])


def on_centres(count):
    """On pixel centres and edges, at some of the sizes."""
    quarter = lambda: random.randint(-24, 24) / 2 + 0.25 * random.randint(0, 1)
    return [(quarter(), quarter()) for _ in range(count)]


def in_rows(count):
    """Many in one row, then another row."""
    x, y = random.uniform(-15, 15), random.uniform(-15, 15)
    for index in range(count):
        if index % 64 == random.choice([0, 1, 63]):
            y = random.uniform(-14, 14)
        x += random.uniform(-0.5, 0.5)
        yield x, y + random.uniform(-0.01, 0.01)


def left_of_view(count):
    for index in range(count):
        inside = (index // 64) % 2
        yield random.uniform(-14, 14) if inside else -11 - random.uniform(0, 6), random.uniform(-14, 14)


def beside_corner(count):
    """Just right of the view and just above it."""
    for index in range(count):
        least, most = (9.8, 13) if (index // 65) % 2 else (-11, 11)
        yield random.uniform(least, most), random.uniform(least, most)


SHAPES = [scattered, in_steps, far_off, with_spikes, on_centres, in_rows, left_of_view, beside_corner]


def part():
    """The places of a ring or of a line, as texts."""
    count = random.choice(COUNTS + [random.randint(65, 1000), random.randint(3, 300)])
    return [(f"{x:.6f}", f"{y:.6f}") for x, y in random.choice(SHAPES)(count)]


class Style:
    """The words of a style, and what they are."""

    def __init__(self, kind, symbols):
        self.fill = colour() if kind != "POLYGON" or random.random() < 0.8 else None
        self.outline = colour() if kind == "POLYGON" and (self.fill is None or random.random() < 0.4) else None
        self.width, self.size = random.choice([1, 1, 2, 3, 4, 5, 8, 31, 32]), random.choice([1, 1, 2, 3, 4, 7, 8, 33, 64])
        self.symbol = random.choice(symbols) if kind == "POINT" and random.random() < 0.5 else None

    def words(self):
        yield f"STYLE\nWIDTH {self.width}\nSIZE {self.size}\n"
        yield "COLOR %d %d %d\n" % self.fill if self.fill else ""
        yield "OUTLINECOLOR %d %d %d\n" % self.outline if self.outline else ""
        yield f'SYMBOL "{self.symbol[0]}"\n' if self.symbol else ""
        yield "END\n"

    def paint(self, picture, kind, parts, times):
        """Paints the parts of a feature on a picture so many times as fine."""
        if kind == "POLYGON":
            if self.fill:
                picture.fill(parts, self.fill)
            if self.outline:
                outline = picture.outline if times == 1 else picture.round_outline
                outline(parts, self.outline, times * self.width)
        elif kind == "LINE":
            line = picture.line if times == 1 else picture.round_line
            for places in parts:
                line(places, self.fill, times * self.width)
        for at in (at for places in parts for at in places) if kind == "POINT" else ():
            if self.symbol:
                picture.pixmap(at, self.symbol[1])
            else:
                picture.square(at, times * self.size, self.fill)


def random_label():
    position = random.choice("UL UC UR CL CC CR LL LC LR AUTO AUTO AUTO".split())
    return Label(
        random.randint(1, 10), random.choice([None, colour(), colour()]), random.choice([None, colour()]), random.choice([0, 0, 1, 5]),
        random.choice([0, 0, 7, 20]), position, random.random() < 0.3, random.random() < 0.15, random.choice([1, 1, 2, 3, 8]),
        font=random.choice([None, *NAMES, "unknown"]),
    )


class Layer:
    def __init__(self, name, symbols):
        self.name, self.kind = name, random.choice(["POLYGON", "POLYGON", "LINE", "POINT"])
        self.styles = [Style(self.kind, symbols) for _ in range(random.randint(1, 2))]
        self.label = random_label() if random.random() < 0.6 else None
        self.bounds, self.class_bounds = bounds(), bounds()
        self.features = [([part() for _ in range(random.randint(1, 2))], random.choice(["a", "ab", "bbaab", "c", "", "aaaaaaaa"])) for _ in range(random.randint(1, 3))]

    def text(self):
        yield f'LAYER\nNAME "{self.name}"\nTYPE {self.kind}\n{bound_words(self.bounds)}CLASS\n{bound_words(self.class_bounds)}'
        for style in self.styles:
            yield from style.words()
        yield (self.label.words() if self.label else "") + "END\n"
        for parts, text in self.features:
            points = ("POINTS\n" + "".join(f"{x} {y}\n" for x, y in places) + "END\n" for places in parts)
            yield f'FEATURE\nTEXT "{text}"\n' + "".join(points) + "END\n"
        yield "END\n"

    def is_visible(self, box, width):
        """Whether the layer and its class are seen in a picture of a box that is so wide."""
        span, pixels = (box[2] - box[0]) * 111_319_491, width * 280_000
        return all(low * pixels <= span < high * pixels for low, high in (self.bounds, self.class_bounds))

    def parts(self):
        """The places of each feature, in millionths of a degree."""
        return [[[(micro(x), micro(y)) for x, y in places] for places in parts] for parts, _ in self.features]

    def anchor(self, parts):
        """The place of a feature's anchor."""
        first = parts[0]
        if self.kind != "POLYGON":
            return first[len(first) // 2 if self.kind == "LINE" else 0]
        return tuple((min(numbers) + max(numbers)) // 2 for numbers in zip(*first))


def colour():
    return tuple(random.randint(4, 255) for _ in range(3))


def bounds():
    """Two bounds on the scale, about those of the sizes."""
    return random.choice([(0, 10**12), (0, 10**12), (0, 10**8), (10**8, 10**12), (200_000_000, 300_000_000)])


def bound_words(both):
    return f"MINSCALEDENOM {both[0]}\nMAXSCALEDENOM {both[1]}\n"


def random_symbol(name):
    """The name of a symbol, and its rows of pixels."""
    width, height = random.choice([1, 2, 3, 8, 13, 40]), random.choice([1, 2, 5, 8, 33])
    return name, [[colour() if random.random() < 0.7 else None for _ in range(width)] for _ in range(height)]


def random_font():
    """A font of some letters, whose boxes lie anywhere round the pen."""
    high, letters = random.randint(1, 20), random.sample("abc?", random.randint(1, 4))
    glyphs = "".join(random_glyph(letter) for letter in letters)
    return f"STARTFONT 2.1\nFONTBOUNDINGBOX 9 {high} 0 {-random.randint(0, high)}\nCHARS {len(letters)}\n{glyphs}ENDFONT\n"


def random_glyph(letter):
    width, height = random.randint(1, 12), random.randint(1, 20)
    rows = "".join(f"{random.getrandbits(width) << -width % 8:0{2 * (-(-width // 8))}X}\n" for _ in range(height))
    box = f"{width} {height} {random.randint(-3, 3)} {random.randint(-5, 5)}"
    return f"STARTCHAR {letter}\nENCODING {ord(letter)}\nDWIDTH {random.randint(0, 14)} 0\nBBX {box}\nBITMAP\n{rows}ENDCHAR\n"


def pixmap(rows):
    pixels = [pixel or (255, 0, 255) for row in rows for pixel in row]
    return f"P6 {len(rows[0])} {len(rows)} 255\n".encode() + bytes(part for pixel in pixels for part in pixel)


def mapfile(layers, symbols, factor):
    blocks = "".join(f'SYMBOL\nNAME "{name}"\nTYPE PIXMAP\nIMAGE "{name}.ppm"\nEND\n' for name, _ in symbols)
    config = f'CONFIG "WMS_SMOOTHING" "{factor}"\nCONFIG "LABELFONT" "f.bdf"\nCONFIG "WMS_FORMATS" "image/png"\n'
    config += "".join(f'CONFIG "LABELFONT {name}" "{name}.bdf"\n' for name in NAMES)
    return f"MAP\nEXTENT -10 -10 10 10\n{config}{blocks}{''.join(line for layer in layers for line in layer.text())}END\n"


def expected(layers, fonts, box, size, factor, ground):
    """The pixels by the rules, as red, green, blue and alpha."""
    if min(box[2] - box[0], box[3] - box[1]) < factor:
        factor = 1
    fine = tuple(factor * side for side in size)
    picture, candidates = Picture(box, fine, ground), []
    for layer in layers:
        if not layer.is_visible(box, size[0]):
            continue
        for (_, text), parts in zip(layer.features, layer.parts()):
            for style in layer.styles:
                style.paint(picture, layer.kind, parts, factor)
            (anchor,) = anchors_in(picture, [layer.anchor(parts)])
            if layer.label and text and anchor:
                candidates.append((text, anchor, layer.label.finer(factor)))
    paint(picture, fonts, place(fonts, fine, candidates))
    return means(with_alpha(picture.bytes()), *size, factor)


def with_alpha(colours):
    """Pixels with an alpha, of which those of the colour of nothing have none."""
    found = (colours[at:at + 3] for at in range(0, len(colours), 3))
    return b"".join(bytes(4) if pixel == bytes(NOTHING) else pixel + b"\xff" for pixel in found)


def view():
    """A box in millionths of a degree, the sides of its picture, a format, and the ground."""
    box = WORLD
    if random.random() < 0.4:
        west, south = (random.randint(-9_000_000, 5_000_000) for _ in range(2))
        box = (west, south, west + random.choice([2, 3, 40, 70_000, 5_000_000]), south + random.choice([2, 3, 40, 90_000, 4_000_000]))
    ground = random.choice([NOTHING, (10, 20, 30)])
    return box, random.choice(SIZES), random.choice([PAM, PNG] if ground == NOTHING else [PPM, PAM, PNG]), ground


def query(layers, box, size, form, ground):
    seen = "TRANSPARENT=TRUE" if ground == NOTHING else "BGCOLOR=0x%02X%02X%02X" % ground
    sides = ",".join(f"{'-' if side < 0 else ''}{abs(side) // 10**6}.{abs(side) % 10**6:06}" for side in box)
    names = ",".join(layer.name for layer in layers)
    return f"QUERY VERSION=1.3.0&REQUEST=GetMap&LAYERS={names}&STYLES=&CRS=CRS:84&BBOX={sides}&WIDTH={size[0]}&HEIGHT={size[1]}&FORMAT={form}&{seen}\n"


def written_font(folder, name, text):
    """The font of a file that is written with this text."""
    path = folder / f"{name}.bdf"
    path.write_text(text)
    return Font(path)


def differing(program, folder):
    """The views of a random map whose picture isn't the one by the rules, and how many were compared."""
    symbols = [random_symbol(name) for name in "st"]
    layers = [Layer(name, symbols) for name in "abc"[:random.randint(1, 3)]]
    fonts = {None: written_font(folder, "f", FONT)} | {name: written_font(folder, name, random_font()) for name in NAMES}
    for name, rows in symbols:
        (folder / f"{name}.ppm").write_bytes(pixmap(rows))
    wrong = []
    for factor in FACTORS:
        name, (box, size, form, ground) = f"factor{factor}.map", view()
        (folder / name).write_text(mapfile(layers, symbols, factor))
        (body,) = answers(program, folder, name, [query(layers, box, size, form, ground)])
        if pixels_of(body) != (*size, expected(layers, fonts, box, size, factor, ground)):
            wrong.append(f"{name} by {query(layers, box, size, form, ground).strip()}")
    return wrong, len(FACTORS)


def main():
    if not 2 <= len(sys.argv) <= 4:
        sys.exit(__doc__.split("\n")[2])
    program, count = pathlib.Path(sys.argv[1]).resolve(), int(sys.argv[2]) if len(sys.argv) > 2 else 500
    first, pictures, failed = int(sys.argv[3]) if len(sys.argv) > 3 else 1, 0, 0
    for seed in range(first, first + count):
        random.seed(seed)
        with tempfile.TemporaryDirectory() as name:
            wrong, compared = differing(program, pathlib.Path(name))
            if wrong:
                shutil.copytree(name, f"differs{seed}", dirs_exist_ok=True)
        for line in wrong:
            print(f"seed {seed}: {line}", flush=True)
        pictures, failed = pictures + compared, failed + len(wrong)
    print(f"{count} maps, {pictures} pictures, {failed} differ")
    sys.exit(failed > 0)


main()
