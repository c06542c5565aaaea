#!/usr/bin/env python3
"""Counts what a picture of few features costs on maps of many, and what a batch costs there.

Usage: changed_maps.py PROGRAM

A figure is the number of instructions that callgrind of valgrind counts: of a script with 11 equal commands less
that of one with 1, divided by 10. From a picture is taken what the same picture of a layer costs that isn't visible
at its scale, so that it is the drawing alone. Everything that it reads it makes by rule, in a folder of its own.
"""
import pathlib
import sys
import tempfile

sys.path.insert(0, str(pathlib.Path(__file__).resolve().parent / "lib"))

from counting import Counting, POINT_TILE, TILE, box_round, degrees, features, scattered, seen


def slope(x, y, half):
    return [(x - half, y - half), (x, y + half // 2), (x + half, y)]


def layer(name, kind, body, scale=""):
    return (
        f'LAYER\nNAME "{name}"\nTYPE {kind}\n{scale}{body[0]}CLASS\nSTYLE\nCOLOR 10 20 30\nWIDTH 3\nSIZE 4\nEND\nEND\n'
        f"{body[1]}END\n"
    )


def query(name, box):
    sides = ",".join(map(degrees, box))
    return (
        f"QUERY VERSION=1.3.0&REQUEST=GetMap&LAYERS={name}&STYLES=&CRS=CRS:84&BBOX={sides}"
        "&WIDTH=256&HEIGHT=256&FORMAT=image/x-portable-pixmap\n"
    )


def batch(text):
    return f"BATCH {len(text)}\n{text}"


def append(name, count):
    table = "x,y\n" + "".join(f"{k % 360 - 180},{k % 180 - 90}\n" for k in range(count))
    return f"APPEND {len(table)} {name}\n{table}"


def table(places):
    return "x,y\n" + "".join(f"{degrees(x)},{degrees(y)}\n" for x, y in places)


def tiles(counting, maps):
    """Prints what a tile costs on each map, without that of a layer which isn't visible."""
    hidden = layer("hidden", "POLYGON", ("", ""), "MINSCALEDENOM 1000000000\n")
    print("| A tile of 256 by 256 | Features | Seen | Million instructions |\n|---|---|---|---|")
    for name, (text, places, tile) in maps.items():
        path = counting.path("a.map", text + hidden + "END\n")
        drawn, _ = counting.each(path, query("a", tile))
        empty, _ = counting.each(path, query("hidden", tile))
        print(f"| {name} | {len(places):,} | {seen(places, tile)} | {(drawn - empty) / 1e6:.2f} |", flush=True)


def print_batch(counting, path, name, command):
    """Prints what a batch costs, which has to be published."""
    cost, answer = counting.each(path, batch(command))
    if not answer.startswith("PUBLISHED 1\n"):
        sys.exit(f"failed: {answer}")
    print(f"| {name} | {cost / 1e6:.2f} |", flush=True)


def batches(counting, text, far):
    """Prints what batches cost beside a layer of many points."""
    path = counting.path("a.map", text + layer("b", "POINT", ("", "")) + "END\n")
    print("\n| A batch beside 200,000 points | Million instructions |\n|---|---|")
    print_batch(counting, path, "switches another layer off", "OFF b\n")
    print_batch(counting, path, "appends a point to another layer", append("b", 1))
    print_batch(counting, path, "empties another layer", "CLEAR b\n")
    # 200,000 points are the most of a layer, so that it has fewer before
    counting.path("points.csv", table(far[:189_000]))
    print_batch(counting, path, "appends 1,000 points to a layer of 189,000", append("a", 1_000))


def main():
    if len(sys.argv) != 2:
        sys.exit(__doc__.split("\n\n")[1])
    with tempfile.TemporaryDirectory() as folder:
        counting = Counting(sys.argv[1], folder)
        far, few = scattered(200_000), scattered(20_000)
        counting.path("points.csv", table(far))
        maps = {
            "polygons": ("MAP\n" + layer("a", "POLYGON", ("", features(few, box_round))), few, TILE),
            "lines": ("MAP\n" + layer("a", "LINE", ("", features(few, slope))), few, TILE),
            "points of a table": ("MAP\n" + layer("a", "POINT", ('DATA "points.csv"\n', "")), far, POINT_TILE),
        }
        tiles(counting, maps)
        batches(counting, maps["points of a table"][0], far)


if __name__ == "__main__":
    main()
