#!/usr/bin/env python3
"""Measures the built program, and prints a table: processor time and peak memory of each workload.

Usage: table.py PROGRAM [RUNS] [CITIES]

Everything that it reads it makes, from demo and by rule, in a folder of its own. CITIES is a table of cities with
the columns name, long and lat; where it isn't given, the row of their labels is left out. Each picture is
compared, pixel by pixel, with one that this script paints by the rules of docs/DRAWING.md, in whole numbers
and without looking at what the program does. A time is that of the pictures without that of as many empty
ones of the same map, so that it is the painting alone. The figures are medians of RUNS runs (7 where it
isn't given), with the least and the greatest. All workloads are run in turn, RUNS times: what else the
machine does shows in the least and the greatest, and not in one workload's median.
"""
import pathlib
import platform
import re
import statistics
import sys
import tempfile
import time

sys.path.insert(0, str(pathlib.Path(__file__).resolve().parents[1] / "tests" / "lib"))
sys.path.insert(0, str(pathlib.Path(__file__).resolve().parent / "lib"))

from painting import Picture, read_places
from workloads import Bench, COLOUR, DEMO, EARTH, OTHER, SIZES, Workload, degrees, label_rows, read_cities, seen, winding

FAR = (500_000_000, 500_000_000, 501_000_000, 501_000_000)
# A third of a degree each way, on the border of Germany and Switzerland.
TILE = (8_000_000, 47_500_000, 8_350_000, 47_850_000)
# Some 50 of 20,000 features that lie all over the earth are in this part of it, or of 200,000 in the next one.
FEW = (2_000_000, 40_000_000, 15_000_000, 53_000_000)
FEWER = (2_000_000, 40_000_000, 6_100_000, 44_100_000)
STAR = ["..#..", ".###.", "#####", ".###.", "..#.."]


def row(work):
    middle, least, most = statistics.median(work.times), min(work.times), max(work.times)
    return f"| {work.name} | {middle:.1f} | {least:.1f} to {most:.1f} | {max(work.peaks):.0f} |"


def layer(kind, style, features, symbol=""):
    """A map of one layer, each of whose features is a list of rings."""
    text = [f'MAP\n{symbol}LAYER\nNAME "a"\nTYPE {kind}\nCLASS\nSTYLE\n{style}\nEND\nEND\n']
    for rings in features:
        text.append("FEATURE\n")
        for ring in rings:
            text.append("POINTS\n" + "".join(f"{degrees(x)} {degrees(y)}\n" for x, y in ring) + "END\n")
        text.append("END\n")
    return "".join(text) + "END\nEND\n"


def scattered(count):
    """Places all over the earth."""
    return [(k * 7_919_017 % 360_000_000 - 180_000_000, k * 104_729_011 % 180_000_000 - 90_000_000) for k in range(count)]


def box_round(x, y, half):
    return [(x - half, y - half), (x + half, y - half), (x + half, y + half), (x - half, y + half)]


def teeth(count):
    """One ring of so many vertices: a comb across the earth."""
    tops = [(360_000_000 * k // count - 180_000_000, (-60_000_000, 60_000_000)[k % 2]) for k in range(count - 2)]
    return tops + [(180_000_000, -80_000_000), (-180_000_000, -80_000_000)]


def star():
    """The bytes of a pixmap of 5 by 5 pixels, of which 13 are not transparent."""
    pixels = b"".join(bytes(OTHER if mark == "#" else (255, 0, 255)) for line in STAR for mark in line)
    return b"P6\n5 5\n255\n" + pixels


def world_rows(bench, world):
    countries, borders = read_places(world, "countries"), read_places(world, "borders")
    for size in SIZES:
        picture = Picture(EARTH, size)
        for colour, rings in countries:
            picture.fill(rings, colour)
        bench.pictures(f"filling {len(countries)} countries", world, "countries", EARTH, size, 20, picture)
    for width in [1, 3]:
        text = re.sub(r"OUTLINECOLOR (\d+ \d+ \d+) WIDTH 1", rf"OUTLINECOLOR \1 WIDTH {width}", world)
        for size in SIZES:
            picture = Picture(EARTH, size)
            for colour, rings in borders:
                picture.outline(rings, colour, width)
            bench.pictures(f"their borders, {width} wide", text, "borders", EARTH, size, 20, picture)
    bench.pictures("countries off the view", world, "countries", FAR, SIZES[0], 20, Picture(FAR, SIZES[0]))


def point_rows(bench, places):
    squares = layer("POINT", "COLOR 10 20 30\nSIZE 5", [[[place]] for place in places])
    symbol = 'SYMBOL\nNAME "star"\nTYPE PIXMAP\nIMAGE "star.ppm"\nEND\n'
    stamps = layer("POINT", 'SYMBOL "star"', [[[place]] for place in places], symbol)
    bench.path("star.ppm", star())
    for size in SIZES:
        picture = Picture(EARTH, size)
        for place in places:
            picture.square(place, 5, COLOUR)
        bench.pictures(f"{len(places):,} squares of 5 pixels", squares, "a", EARTH, size, 10, picture)
    for size in SIZES:
        picture = Picture(EARTH, size)
        for place in places:
            picture.stamp(place, STAR, OTHER)
        bench.pictures(f"{len(places):,} pixmaps of 5 by 5", stamps, "a", EARTH, size, 10, picture)


def polygon_rows(bench, places):
    small = [[box_round(x, y, 300_000)] for x, y in places]
    large = [[teeth(65_536)]]
    for name, features, count in [("20,000 small polygons", small, 10), ("one polygon of 65,536 vertices", large, 2)]:
        text = layer("POLYGON", "COLOR 10 20 30", features)
        for size in SIZES:
            picture = Picture(EARTH, size)
            for rings in features:
                picture.fill(rings, COLOUR)
            bench.pictures(name, text, "a", EARTH, size, count, picture)


def coast_rows(bench, world):
    """The countries' rings with more than 200 times as many vertices, each ring a feature of its own."""
    rings = [winding(ring, 234) for _, rings in read_places(world, "countries") for ring in rings]
    text = layer("POLYGON", "COLOR 10 20 30", [[ring] for ring in rings])
    count = sum(map(len, rings))
    for box, size in [(EARTH, (1024, 512)), (TILE, (256, 256))]:
        picture = Picture(box, size)
        for ring in rings:
            picture.fill([ring], COLOUR)
        bench.pictures(f"coasts of {count:,} vertices", text, "a", box, size, 5, picture)


def near_rows(bench, few, many):
    """Tiles on which a few features of many are seen."""
    boxes, slopes = [[box_round(x, y, 60_000)] for x, y in few], [[slope(x, y, 60_000)] for x, y in few]
    picture = Picture(FEW, (256, 256))
    for rings in boxes:
        picture.fill(rings, COLOUR)
    text = layer("POLYGON", "COLOR 10 20 30", boxes)
    bench.pictures(f"{seen(few, FEW)} of 20,000 polygons", text, "a", FEW, (256, 256), 500, picture)
    picture = Picture(FEW, (256, 256))
    for (line,) in slopes:
        picture.line(line, COLOUR, 3)
    text = layer("LINE", "COLOR 10 20 30\nWIDTH 3", slopes)
    bench.pictures(f"{seen(few, FEW)} of 20,000 lines", text, "a", FEW, (256, 256), 500, picture)
    picture = Picture(FEWER, (256, 256))
    for place in many:
        picture.square(place, 4, COLOUR)
    text = table_layer(bench, "points.csv", many)
    bench.pictures(f"{seen(many, FEWER)} of 200,000 points", text, "a", FEWER, (256, 256), 500, picture)


def batch_rows(bench, places):
    """Reading a large table, and batches beside it."""
    path = bench.path("table.map", table_layer(bench, "all.csv", places))
    if bench.written("check", path) != f"ok 1 layers {len(places)} features\n":
        sys.exit("failed: another table was read")
    bench.workloads.append(Workload("reading a table of 200,000 points", 1, ("check", path)))
    text = table_layer(bench, "most.csv", places[:180_000])
    path = bench.path("batches.map", text.rsplit("END", 1)[0] + 'LAYER\nNAME "b"\nTYPE POINT\nEND\nEND\n')
    bench.batches("a batch on a layer beside 180,000 points", path, "OFF b\n", 100)
    bench.batches("1,000 points appended to some 190,000", path, append("a", 1_000), 15)


def slope(x, y, half):
    return [(x - half, y - half), (x, y + half // 2), (x + half, y)]


def table_layer(bench, name, places):
    """A map of one layer of points, which stand in a table."""
    bench.path(name, "x,y\n" + "".join(f"{degrees(x)},{degrees(y)}\n" for x, y in places))
    return layer("POINT", "COLOR 10 20 30\nSIZE 4", []).replace("CLASS", f'DATA "{name}"\nCLASS', 1)


def append(name, count):
    table = "x,y\n" + "".join(f"{k % 360 - 180},{k % 180 - 90}\n" for k in range(count))
    return f"APPEND {len(table)} {name}\n{table}"


def processor():
    with open("/proc/cpuinfo") as file:
        names = re.findall(r"model name\s*: (.*)", file.read())
    return f"{len(names)} processors, {names[0] if names else platform.machine()}"


def main():
    with open(DEMO / "world.map", encoding="utf-8") as file:
        world = file.read()
    runs = int(sys.argv[2]) if len(sys.argv) > 2 else 7
    cities = read_cities(sys.argv[3]) if len(sys.argv) > 3 else []
    with tempfile.TemporaryDirectory() as folder:
        bench = Bench(sys.argv[1], folder)
        # The map of the world names a pixmap, which is looked for beside it.
        bench.path("anchor.ppm", (DEMO / "anchor.ppm").read_bytes())
        bench.path("font.bdf", (DEMO / "6x13.bdf").read_bytes())
        bench.reading(2_300_000)
        world_rows(bench, world)
        point_rows(bench, scattered(20_000))
        polygon_rows(bench, scattered(20_000))
        coast_rows(bench, world)
        near_rows(bench, scattered(20_000), scattered(200_000))
        batch_rows(bench, scattered(200_000))
        label_rows(bench, cities)
        bench.measure(runs)
    print(f"{time.strftime('%Y-%m-%d')}, {processor()}, medians of {runs} runs\n")
    print("| Workload | ms | From, to | MB at most |\n|---|---|---|---|")
    print("\n".join(map(row, bench.workloads)))
    if not cities:
        print("\nNo table of cities was given, so that the row of their labels is left out.")


if __name__ == "__main__":
    main()
