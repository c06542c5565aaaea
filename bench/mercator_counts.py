#!/usr/bin/env python3
"""Counts the instructions of pictures in web mercator beside those of the same part of the world in degrees (needs valgrind).

Usage: mercator_counts.py WORLD [PROGRAM]

PROGRAM is the built program of painting_counts.rt.txt; without it, it is built, which takes some minutes. WORLD is a mapfile with
the layers "countries", of polygons with outlines, and "rivers", of lines, in this order. A figure is what painting_counts.py
counts: `picture` of compose alone, less an empty layer's picture in the same system. The script ends with 1 where web mercator takes
more than 1.15 times as many as degrees, or draws nothing.
"""
import pathlib
import sys
import tempfile

sys.path.insert(0, str(pathlib.Path(__file__).resolve().parent / "lib"))

from both_servers import HALF, degrees_of, metres_of
from painted import filled, layer, layers_of, of_extent, outlined, painted, scattered_lines, scattered_points
from programs import build

MOST = 1.15
# The world, tiles of zooms 5 and 8 round the north of Switzerland, one of zoom 4 in Scandinavia, and one at the equator.
WHOLE, TILE, NEAR, NORTH, MIDDLE = (0, 0, 0), (5, 16, 11), (8, 133, 89), (4, 8, 4), (5, 18, 15)


def workloads(world):
    """Name, layer, tile and side of each."""
    countries, rivers = layers_of(world)
    for name, text in [("countries filled", filled(countries)), ("borders, 1 wide", outlined(countries, 1)), ("countries filled, with borders", countries)]:
        yield f"{name}, the world", text, WHOLE, 1024
        yield f"{name}, the world", text, WHOLE, 256
        for place, tile in [("of zoom 5", TILE), ("of zoom 8", NEAR), ("of zoom 4 in the north", NORTH), ("of zoom 5 at the equator", MIDDLE)]:
            yield f"{name}, a tile {place}", text, tile, 256
    yield "rivers, 1 wide, the world", rivers, WHOLE, 1024
    yield "20,000 lines of 4 vertices, the world", layer("LINE", "COLOR 10 20 30\nWIDTH 1", scattered_lines(20_000)), WHOLE, 1024
    yield "20,000 points as squares of 5 pixels, the world", layer("POINT", "COLOR 10 20 30\nSIZE 5", scattered_points(20_000)), WHOLE, 1024


def extents_of(tile):
    """The extent of a tile in degrees, and in degrees of the equator, with the word that has it painted in web mercator."""
    for box, words in (degrees_of(tile), []), ([side / HALF * 180 for side in metres_of(tile)], ["mercator"]):
        yield " ".join(f"{side:.6f}" for side in box), words


def drawn(program, text, extent, *words):
    """The millions of instructions of drawing a layer, without an empty layer's picture."""
    count, picture = painted(program, of_extent(extent, text), *words)
    without, background = painted(program, of_extent(extent, layer("POLYGON", "COLOR 10 20 30", [])), *words)
    if picture in (background, b"nothing\n"):
        sys.exit(f"failed: nothing is drawn in {extent}")
    return (count - without) / 1e6


def main():
    if len(sys.argv) not in (2, 3):
        sys.exit(__doc__.split("\n")[2])
    dear = []
    with tempfile.TemporaryDirectory() as folder:
        program = sys.argv[2] if len(sys.argv) > 2 else build(folder)
        print("| Workload | Pixels | Degrees | Web mercator | One to the other |\n|---|---|---|---|---|", flush=True)
        for name, text, tile, side in workloads(pathlib.Path(sys.argv[1]).read_text()):
            degrees, metres = (drawn(program, text, extent, side, side, *words) for extent, words in extents_of(tile))
            dear += [name] if metres > MOST * degrees else []
            print(f"| {name} | {side} by {side} | {degrees:.2f} | {metres:.2f} | {metres / degrees:.3f} |", flush=True)
    if dear:
        sys.exit(f"failed: {'; '.join(dear)}")


if __name__ == "__main__":
    main()
