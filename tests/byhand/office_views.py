#!/usr/bin/python3
"""Compares views of an office's maps with MapServer's, as deploy/convert writes them without smoothing and with it.

Usage: office_views.py PROGRAM [FACTOR [VIEWS [PIXELS]]]

Three mapfiles are made by rule: a county, with parcels in classes, hatched parks, roads with casings, marks and numbers of the
parcels; a web map, with countries in ranges of a value, rivers, and cities with marks and names; and a map of few keywords.
Each is converted twice, without --smoothing and by FACTOR (4), and of each VIEWS (8) of PIXELS (600) are drawn by both programs. It prints
for each map what share of the pixels differs, beyond half-tones too, and by how much in the mean over all channels: the mean
of the views, and the worst. It ends with 1 where smoothing brings a map further from MapServer's in the mean difference, and
with 77 where a package is missing. It needs Debian's python3-mapscript, python3-pil, gdal-bin, otf2bdf and fonts-dejavu-core.
"""
import importlib.util
import json
import math
import pathlib
import random
import re
import subprocess
import sys
import tempfile

sys.path.insert(0, str(pathlib.Path(__file__).resolve().parents[1] / "lib"))

from painting import read_places

TOP = pathlib.Path(__file__).resolve().parents[2]
HEAD = """MAP NAME "{name}" EXTENT {extent} SIZE 600 600 UNITS DD IMAGECOLOR 250 250 245 FONTSET "fonts.list"
PROJECTION "init=epsg:4326" END
WEB METADATA "ows_enable_request" "*" "ows_title" "{name}" "wms_srs" "EPSG:4326 CRS:84" END END
SYMBOL NAME "dot" TYPE ELLIPSE POINTS 1 1 END FILLED TRUE END
SYMBOL NAME "square" TYPE VECTOR FILLED TRUE POINTS 0 0 1 0 1 1 0 1 0 0 END END
SYMBOL NAME "hatch" TYPE HATCH END
"""
LABEL = 'LABEL TYPE TRUETYPE FONT "sans" {} END'
LINE = re.compile(r"^view \d+, .*: ([\d.]+)% of the pixels differ, ([\d.]+)% beyond half-tones, by ([\d.]+) in the mean", re.M)


def layer(name, kind, classes, more=""):
    return f'LAYER NAME "{name}" TYPE {kind} STATUS ON CONNECTIONTYPE OGR CONNECTION "{name}.json" PROJECTION "init=epsg:4326" END {more}\n{classes}\nEND\n'


def write_data(folder, name, features):
    """Writes features, each a kind, coordinates and items, as GeoJSON."""
    found = [{"type": "Feature", "geometry": {"type": kind, "coordinates": at}, "properties": items} for kind, at, items in features]
    (folder / f"{name}.json").write_text(json.dumps({"type": "FeatureCollection", "features": found}))


def parcels(rng):
    """A grid of parcels of some 40 m, whose corners are moved, with a use and a number."""
    corner = {(i, j): (0.0005 * i + rng.uniform(-0.0001, 0.0001), 0.0005 * j + rng.uniform(-0.0001, 0.0001)) for i in range(31) for j in range(31)}
    for i in range(30):
        for j in range(30):
            ring = [corner[at] for at in ((i, j), (i + 1, j), (i + 1, j + 1), (i, j + 1), (i, j))]
            yield "Polygon", [ring], {"use": rng.choice(["homes", "homes", "farm", "park", "trade"]), "number": f"28-{i:03}-{1700 + j}"}


def roads(rng):
    for at in range(12):
        across = [(0.0015 * step, 0.0013 * at + 0.0006 * math.sin(step / 2 + at) + rng.uniform(-0.0001, 0.0001)) for step in range(11)]
        yield "LineString", across if at % 2 else [(y, x) for x, y in across], {"kind": "main" if at % 4 == 0 else "lane", "name": f"Road {at}"}


def county(folder, rng):
    write_data(folder, "parcels", parcels(rng))
    write_data(folder, "roads", roads(rng))
    write_data(folder, "hydrants", (("Point", (rng.uniform(0, 0.015), rng.uniform(0, 0.015)), {"name": "h"}) for _ in range(80)))
    outline = "OUTLINECOLOR 120 120 110 WIDTH 0.5"
    uses = [("homes", f"STYLE COLOR 245 225 200 {outline} END"), ("farm", f"STYLE COLOR 235 240 190 {outline} END"), ("trade", f"STYLE COLOR 230 200 210 {outline} END")]
    uses.append(("park", f'STYLE COLOR 190 230 170 {outline} END STYLE SYMBOL "hatch" COLOR 70 120 60 ANGLE 45 SIZE 6 WIDTH 1 END'))
    numbers = LABEL.format("SIZE 7 COLOR 40 40 40 OUTLINECOLOR 255 255 255 POSITION CC MAXSCALEDENOM 12000")
    classes = "".join(f'CLASS EXPRESSION "{use}" {styles} {numbers} END\n' for use, styles in uses)
    streets = 'CLASS EXPRESSION "main" STYLE COLOR 150 100 40 WIDTH 6 END STYLE COLOR 255 220 120 WIDTH 4 END END\n'
    streets += "CLASS STYLE COLOR 130 130 130 WIDTH 3 END STYLE COLOR 255 255 255 WIDTH 1.5 END END"
    layers = layer("parcels", "POLYGON", classes, 'CLASSITEM "use" LABELITEM "number"') + layer("roads", "LINE", streets, 'CLASSITEM "kind"')
    layers += layer("hydrants", "POINT", 'CLASS STYLE SYMBOL "dot" SIZE 8 COLOR 200 40 40 OUTLINECOLOR 255 255 255 END END')
    return HEAD.format(name="county", extent="0 0 0.015 0.015") + layers


def web(folder, rng):
    countries = read_places((TOP / "demo" / "world.map").read_text(encoding="utf-8"), "countries")
    shapes = [[[[(x / 1e6, y / 1e6) for x, y in [*ring, ring[0]]]] for ring in rings] for _, rings in countries]
    write_data(folder, "countries", (("MultiPolygon", rings, {"value": (37 * at) % 100}) for at, rings in enumerate(shapes)))
    rivers = ([(x + step * math.cos(turn), y + step * math.sin(turn) + math.sin(step)) for step in range(12)] for x, y, turn in ((rng.uniform(-150, 150), rng.uniform(-50, 60), rng.uniform(0, 6)) for _ in range(60)))
    write_data(folder, "rivers", (("LineString", places, {"name": "r"}) for places in rivers))
    write_data(folder, "cities", (("Point", (rng.uniform(-170, 170), rng.uniform(-60, 75)), {"name": f"Ville {at}", "size": at % 3}) for at in range(150)))
    ranges = zip((0, 20, 40, 60, 80), ("255 255 204", "194 230 153", "120 198 121", "49 163 84", "0 104 55"))
    classes = "".join(f"CLASS EXPRESSION ([value] >= {low} AND [value] < {low + 20}) STYLE COLOR {colour} OUTLINECOLOR 110 110 110 WIDTH 1 END END\n" for low, colour in ranges)
    names = LABEL.format("SIZE 8 COLOR 30 30 60 OUTLINECOLOR 255 255 255 POSITION AUTO BUFFER 2")
    towns = "".join(f'CLASS EXPRESSION ([size] = {size}) STYLE SYMBOL "dot" SIZE {5 + 3 * size} COLOR 220 60 20 OUTLINECOLOR 60 20 10 END {names} END\n' for size in range(3))
    layers = layer("countries", "POLYGON", classes) + layer("rivers", "LINE", "CLASS STYLE COLOR 60 120 200 WIDTH 2 END END")
    return HEAD.format(name="web", extent="-180 -90 180 90") + layers + layer("cities", "POINT", towns, 'LABELITEM "name"')


def few(folder, rng):
    areas = ([[(x + rng.uniform(2, 4) * math.cos(turn / 5), y + rng.uniform(2, 4) * math.sin(turn / 5)) for turn in range(31)]] for x, y in ((rng.uniform(3, 37), rng.uniform(3, 27)) for _ in range(25)))
    write_data(folder, "areas", (("Polygon", [[*ring, ring[0]]], {"name": "a"}) for (ring,) in areas))
    write_data(folder, "paths", (("LineString", [(rng.uniform(0, 40), rng.uniform(0, 30)) for _ in range(4)], {"name": "p"}) for _ in range(20)))
    write_data(folder, "places", (("Point", (rng.uniform(0, 40), rng.uniform(0, 30)), {"name": "q"}) for _ in range(60)))
    layers = layer("areas", "POLYGON", "CLASS STYLE COLOR 180 210 160 OUTLINECOLOR 60 90 40 WIDTH 1 END END") + layer("paths", "LINE", "CLASS STYLE COLOR 160 60 40 WIDTH 3 END END")
    return HEAD.format(name="few", extent="0 0 40 30") + layers + layer("places", "POINT", 'CLASS STYLE SYMBOL "square" SIZE 7 COLOR 30 60 150 END END')


def compared(program, path, target, views, pixels, more):
    """Of each view the shares that differ, without and beyond half-tones, and the mean difference."""
    words = ["/usr/bin/python3", TOP / "deploy" / "convert", path, target, "--same-scales", "--compare", str(views), "--size", str(pixels), "--program", program, *more]
    ran = subprocess.run(words, capture_output=True, text=True, errors="replace")
    found = [tuple(map(float, numbers)) for numbers in LINE.findall(ran.stdout)]
    if len(found) != views:
        sys.exit(f"convert of {path} ended with {ran.returncode}: {ran.stdout[-500:]}{ran.stderr[-500:]}")
    return found


def cells(found):
    means, worst = ([pick(numbers) for numbers in zip(*found)] for pick in (lambda numbers: sum(numbers) / len(numbers), max))
    return [f"{mean:.2f} ({most:.2f})" for mean, most in zip(means, worst)]


def missing():
    lacking = [name for name in ("mapscript", "PIL") if importlib.util.find_spec(name) is None]
    return lacking


def main():
    if not 2 <= len(sys.argv) <= 5:
        sys.exit(__doc__.split("\n")[2])
    if lacking := missing():
        print(f"office_views: skipped: {', '.join(lacking)} is missing")
        sys.exit(77)
    program, (factor, views, pixels) = pathlib.Path(sys.argv[1]).resolve(), (int(sys.argv[at]) if len(sys.argv) > at else default for at, default in ((2, 4), (3, 8), (4, 600)))
    is_worse = False
    print("| Map | Differ, % | Smoothed | Beyond half-tones, % | Smoothed | Mean difference | Smoothed |\n|---|---|---|---|---|---|---|", flush=True)
    for make in (county, web, few):
        with tempfile.TemporaryDirectory() as name:
            folder = pathlib.Path(name)
            (folder / "fonts.list").write_text("sans /usr/share/fonts/truetype/dejavu/DejaVuSans.ttf\n")
            (folder / "office.map").write_text(make(folder, random.Random(5)) + "END\n")
            before, after = (cells(compared(program, folder / "office.map", folder / f"out{more}", views, pixels, ["--smoothing", more])) for more in ("1", str(factor)))
        is_worse = is_worse or float(after[2].split()[0]) > float(before[2].split()[0])
        print(f"| {make.__name__} | {' | '.join(cell for both in zip(before, after) for cell in both)} |", flush=True)
    sys.exit(1 if is_worse else 0)


if __name__ == "__main__":
    main()
