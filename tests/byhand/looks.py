#!/usr/bin/python3
"""Compares smoothed views of four maps with MapServer's: how far pixels are from its, and how many are far.

Usage: looks.py PROGRAM [PICTURES]

The maps are roads of three widths with casings, coasts, a town of 2,000 houses with outlines, and places with names and
halos. Six views of each, 480 by 320 pixels, are drawn by PROGRAM, smoothed by 4, and by MapServer, by one mapfile but for the
font. For each map it prints the mean difference of a channel, of 255, and the share of the pixels that are far, of which a
channel differs by more than 64: the mean of the views, and the worst. With PICTURES, a folder, it writes the first view of each
map there, this server's beside MapServer's.

MapServer draws everything half a pixel further left and up. Its extents end in the middles of the border pixels, so it makes the
box of WMS, which ends at their outer sides, half a pixel smaller on each side. Then it draws what lies in the middle of a pixel at
that pixel's upper left corner. So it is asked for the box half a pixel further west and north, and both pictures show the same.
For the same box the figures are printed too, and first where the middle of a square lies.

It ends with 1 where those middles differ, where the mean of a map without names is above 2.5, or where above 1 % of its pixels
differ by that much, and with 77 where a package is missing. It needs Debian's python3-mapscript, python3-pil, otf2bdf and
fonts-dejavu-core.
"""
import importlib.util
import math
import pathlib
import random
import re
import subprocess
import sys
import tempfile

TOP = pathlib.Path(__file__).resolve().parents[2]
sys.path[:0] = [str(TOP / "tests" / "lib"), str(TOP / "deploy" / "lib")]

from painting import read_places

SANS = "/usr/share/fonts/truetype/dejavu/DejaVuSans.ttf"
SIZE, FACTOR, FAR = (480, 320), 4, 64
# The most that a map without names may differ: in the mean, and by more than FAR in so many of a hundred pixels.
MOST_MEAN, MOST_FAR = 2.5, 1.0
# So many pixels further left and up MapServer draws; so near to one another are middles that are the same.
ASIDE, NEAR = 0.5, 0.01
HEAD = f"""MAP NAME "looks" EXTENT -180 -90 180 90 SIZE 480 320 UNITS DD IMAGECOLOR 250 250 245 FONTSET "fonts.list"
CONFIG "WMS_SMOOTHING" "{FACTOR}" CONFIG "LABELFONT" "labels.bdf" PROJECTION "init=epsg:4326" END
WEB METADATA "wms_enable_request" "*" "wms_title" "looks" "wms_srs" "EPSG:4326 CRS:84" "wms_onlineresource" "http://localhost/wms?" END END
"""


def layer(name, kind, styles, features):
    """A layer of features, each a list of parts and a text."""
    found = (f"FEATURE {' '.join(points(part) for part in parts)} {f'TEXT {text!r}' if text else ''} END" for parts, text in features)
    return f'LAYER NAME "{name}" TYPE {kind} STATUS ON CLASS {styles} END\n' + "\n".join(found) + "\nEND\n"


def points(part):
    """A POINTS block."""
    return "POINTS " + " ".join(f"{x:.6f} {y:.6f}" for x, y in part) + " END"


def stroke(colour, width):
    """The STYLE of a line."""
    return f"STYLE COLOR {colour} WIDTH {width} END"


def views_in(rng, box, span):
    """Six boxes of so many degrees across, within another. Half a pixel is a whole number of millionths, so that a moved box can be written."""
    west, south, east, north = box
    height = span * SIZE[1] / SIZE[0]
    for _ in range(6):
        x, y = rng.uniform(west, east - span), rng.uniform(south, north - height)
        yield tuple(round(side, 6) for side in (x, y, x + span, y + height))


def roads(rng):
    """Roads of three widths, which turn and cross; the casings of all of them lie below."""
    lines = {width: [[wander(rng, 0.02, length)] for _ in range(count)] for width, count, length in ((1, 60, 8), (3, 25, 14), (6, 9, 20))}
    layers = [layer(f"casing{width}", "LINE", stroke("90 90 90", width + 2), ((parts, None) for parts in lines[width])) for width in lines]
    layers += [layer(f"road{width}", "LINE", stroke(colour, width), ((parts, None) for parts in lines[width])) for width, colour in ((1, "255 255 255"), (3, "255 240 150"), (6, "250 170 90"))]
    return layers, list(views_in(rng, (0, 0, 0.3, 0.2), 0.0768))


def wander(rng, step, length):
    """A line that turns at each of its vertices."""
    x, y, turn = rng.uniform(0, 0.3), rng.uniform(0, 0.2), rng.uniform(0, 2 * math.pi)
    line = [(x, y)]
    for _ in range(length):
        turn += rng.uniform(-0.7, 0.7)
        line.append((line[-1][0] + step * math.cos(turn), line[-1][1] + step * math.sin(turn)))
    return line


def coasts(rng):
    """The countries of demo/world.map, with their outlines."""
    countries = read_places((TOP / "demo" / "world.map").read_text(encoding="utf-8"), "countries")
    features = [([[(x / 1e6, y / 1e6) for x, y in ring] for ring in rings], None) for _, rings in countries]
    styles = "STYLE COLOR 235 225 190 OUTLINECOLOR 70 110 160 WIDTH 2 END"
    return [layer("coasts", "POLYGON", styles, ((parts_closed(parts), text) for parts, text in features))], list(views_in(rng, (-150, -50, 150, 75), 60))


def parts_closed(parts):
    """Rings that repeat their first vertex, as MapServer wants them for an outline."""
    return [[*part, part[0]] for part in parts]


def town(rng):
    """2,000 houses that are turned each way, with outlines of a pixel."""
    houses = []
    for _ in range(2000):
        x, y, turn, long, wide = rng.uniform(0, 0.06), rng.uniform(0, 0.04), rng.uniform(0, math.pi), rng.uniform(1e-4, 3e-4), rng.uniform(1e-4, 2e-4)
        corners = [(across * long, down * wide) for across, down in ((-1, -1), (1, -1), (1, 1), (-1, 1))]
        houses.append(([[(x + a * math.cos(turn) - b * math.sin(turn), y + a * math.sin(turn) + b * math.cos(turn)) for a, b in corners]], None))
    styles = "STYLE COLOR 225 205 190 OUTLINECOLOR 130 90 70 WIDTH 1 END"
    return [layer("town", "POLYGON", styles, ((parts_closed(parts), text) for parts, text in houses))], list(views_in(rng, (0, 0, 0.06, 0.04), 0.01152))


def names(rng):
    """120 places with a square, a name and a halo."""
    places = [([[(rng.uniform(0, 40), rng.uniform(0, 30))]], f"Ville {at}") for at in range(120)]
    label = 'LABEL TYPE TRUETYPE FONT "sans" SIZE 10 COLOR 20 20 60 OUTLINECOLOR 255 255 255 POSITION UR BUFFER 2 END'
    return [layer("names", "POINT", f"STYLE SIZE 5 COLOR 200 60 30 END {label}", places)], list(views_in(rng, (0, 0, 40, 30), 12))


def differences(one, other):
    """The mean difference of a channel, and the share of the pixels, in a hundred, of which a channel is far from the other's."""
    from PIL import ImageChops, ImageStat

    parts = ImageChops.difference(one, other).split()
    most = ImageChops.lighter(ImageChops.lighter(parts[0], parts[1]), parts[2]).point(lambda far: 255 if far > FAR else 0)
    return sum(ImageStat.Stat(part).mean[0] for part in parts) / 3, 100 * ImageStat.Stat(most).mean[0] / 255


def moved(box):
    """The box of which MapServer draws what this server draws of a box."""
    west, south, east, north = box
    across, up = ASIDE * (east - west) / SIZE[0], ASIDE * (north - south) / SIZE[1]
    return west - across, south + up, east - across, north + up


def middle(picture):
    """How far the middle of what is dark lies from the left and from the top, in pixels."""
    pixels = [(at, 255 - shade) for at, shade in enumerate(picture.convert("L").getdata()) if shade < 255]
    dark = sum(shade for _, shade in pixels)
    across = sum((at % SIZE[0] + 0.5) * shade for at, shade in pixels)
    down = sum((at // SIZE[0] + 0.5) * shade for at, shade in pixels)
    return across / dark, down / dark


def middles(program):
    """The middle of a square, which lies 150 columns and 180 rows away: here, by MapServer of the moved box, and by it of the same one."""
    corners = [(10, 10), (20, 10), (20, 18), (10, 18), (10, 10)]
    with tempfile.TemporaryDirectory() as name:
        folder = pathlib.Path(name)
        write_fonts(folder)
        drawn = both(program, folder, [layer("square", "POLYGON", "STYLE COLOR 0 0 0 END", [([corners], None)])], [(0, 0, 48, 32)])
    return [middle(views[0]) for views in drawn]


def both(program, folder, layers, boxes):
    """Views by this server, by MapServer of the moved boxes and by it of the same ones, of one mapfile.

    In MapServer's the squares are a symbol's, and lines are told to be round.
    """
    import mapscript
    from mapconvert.compare import by_mapserver, by_mapservd

    named = [text.split('"')[1] for text in layers]
    (folder / "ours.map").write_text(HEAD + "".join(layers) + "END\n")
    square = 'SYMBOL NAME "square" TYPE VECTOR FILLED TRUE POINTS 0 0 1 0 1 1 0 1 0 0 END END\n'
    styles = re.sub(r"(WIDTH \d+) END", r"\1 LINECAP ROUND LINEJOIN ROUND END", "".join(layers).replace("STYLE SIZE", 'STYLE SYMBOL "square" SIZE'))
    (folder / "theirs.map").write_text(f"{HEAD}{square}{styles}END\n")
    ours = by_mapservd(program, str(folder / "ours.map"), named, boxes, SIZE)
    theirs, same = ([by_mapserver(mapscript.mapObj(str(folder / "theirs.map")), named, box, *SIZE) for box in asked] for asked in (map(moved, boxes), boxes))
    return ours, theirs, same


def beside(one, other, path):
    """Writes two pictures side by side, in at most 256 colours, for which the file is a third as long."""
    from PIL import Image

    pair = Image.new("RGB", (2 * SIZE[0] + 8, SIZE[1]), (255, 255, 255))
    pair.paste(one, (0, 0))
    pair.paste(other, (SIZE[0] + 8, 0))
    pair.quantize(256, dither=Image.Dither.NONE).save(path, optimize=True)


def write_fonts(folder):
    """The font of both servers: as MapServer names it, and as this one reads it."""
    (folder / "fonts.list").write_text(f"sans {SANS}\n")
    (folder / "labels.bdf").write_bytes(subprocess.run([TOP / "deploy" / "font", SANS, "--smoothing", str(FACTOR)], capture_output=True, check=True).stdout)


def compared(program, make, pictures):
    """The mean differences of a map's views from MapServer's and the shares that are far: of the moved boxes, and of the same ones."""
    with tempfile.TemporaryDirectory() as name:
        folder = pathlib.Path(name)
        write_fonts(folder)
        ours, theirs, same = both(program, folder, *make(random.Random(7)))
    if pictures:
        beside(ours[0], theirs[0], pictures / f"{make.__name__}.png")
    return [list(zip(*(differences(*pair) for pair in zip(ours, those)))) for those in (theirs, same)]


def mean(numbers):
    return sum(numbers) / len(numbers)


def main():
    if len(sys.argv) not in (2, 3):
        sys.exit(__doc__)
    if lacking := [name for name in ("mapscript", "PIL") if importlib.util.find_spec(name) is None]:
        print(f"looks: skipped: {', '.join(lacking)} is missing")
        sys.exit(77)
    program, pictures = str(pathlib.Path(sys.argv[1]).resolve()), pathlib.Path(sys.argv[2]) if len(sys.argv) > 2 else None
    here, theirs, same = middles(program)
    print("The middle of a square: {:.2f}, {:.2f} here; {:.2f}, {:.2f} and of the same box {:.2f}, {:.2f} by MapServer\n".format(*here, *theirs, *same), flush=True)
    is_far = any(abs(one - other) > NEAR for one, other in zip(here, theirs))
    print("| Map | Mean difference | Pixels that are far, % | Of the same box | Pixels that are far, % |\n|---|---|---|---|---|", flush=True)
    for make in (roads, coasts, town, names):
        found = compared(program, make, pictures)
        (means, shares), _ = found
        is_far = is_far or make is not names and (mean(means) > MOST_MEAN or mean(shares) > MOST_FAR)
        cells = (f"{mean(numbers):.2f} ({max(numbers):.2f})" for pair in found for numbers in pair)
        print(f"| {make.__name__} | {' | '.join(cells)} |", flush=True)
    sys.exit(is_far)


if __name__ == "__main__":
    main()
