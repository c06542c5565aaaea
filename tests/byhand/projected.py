#!/usr/bin/env python3
"""Compares device points of tiles in web mercator, by the rules of docs/DRAWING.md, with those by PROJ.

Usage: projected.py [PLACES [SEED]]

PLACES (100,000) are of whole millionths of a degree, up to 85.05 degrees of latitude. Of each the device point lies in
its tile of each zoom from 0 to 18, at 256 pixels a side. The table printed has for each zoom the greatest difference in
sixteenths of a pixel. The script ends with 1 where that is more than 1 up to zoom 16. It needs Debian's proj-bin.
"""
import math
import pathlib
import random
import subprocess
import sys

sys.path.insert(0, str(pathlib.Path(__file__).resolve().parents[1] / "lib"))

from ordinate_table import by_rule, read_table


HALF = 20037508.342789244
DEGREES, ZOOMS, LAST = 180_000_000, 19, 85_050_000


def nearest(metres):
    """A side of a tile, as BBOX is read: in whole millionths of a degree of the equator."""
    return math.floor(metres * 180e6 / HALF + 0.5)


def sixteenths(pixels, part, whole):
    return 16 * pixels * part // whole


def main():
    count = int(sys.argv[1]) if len(sys.argv) > 1 else 100_000
    chosen = random.Random(int(sys.argv[2]) if len(sys.argv) > 2 else 1)
    table = read_table()
    places = [(chosen.randint(-DEGREES, DEGREES), chosen.randint(-LAST, LAST)) for _ in range(count)]
    asked = "".join(f"{y / 1e6:.6f} {x / 1e6:.6f}\n" for x, y in places)
    told = subprocess.run(["cs2cs", "-f", "%.9f", "EPSG:4326", "EPSG:3857"], input=asked.encode(), stdout=subprocess.PIPE, check=True).stdout
    metres = [tuple(float(word) for word in line.split()[:2]) for line in told.decode().splitlines()]
    most = [0] * ZOOMS
    for (x, y), (easting, northing) in zip(places, metres):
        height = int(math.copysign(by_rule(table, abs(y)), y))
        for zoom in range(ZOOMS):
            side = 2 * HALF / 2**zoom
            column, row = math.floor((easting + HALF) / side), math.floor((HALF - northing) / side)
            west, east, north, south = (-HALF + column * side, -HALF + (column + 1) * side, HALF - row * side, HALF - (row + 1) * side)
            minx, maxx, maxy, miny = (nearest(value) for value in (west, east, north, south))
            across, down = sixteenths(256, x - minx, maxx - minx), sixteenths(256, maxy - height, maxy - miny)
            exact = math.floor(4096 * (easting - west) / side), math.floor(4096 * (north - northing) / side)
            most[zoom] = max(most[zoom], abs(across - exact[0]), abs(down - exact[1]))
    for zoom, worst in enumerate(most):
        print(f"zoom {zoom}: at most {worst} sixteenths of a pixel")
    return 1 if max(most[:17]) > 1 else 0


if __name__ == "__main__":
    sys.exit(main())
