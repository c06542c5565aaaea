#!/usr/bin/env python3
"""Counts the instructions of `picture` of compose alone, by workload (needs valgrind).

Usage: painting_counts.py WORLD [OTHER]

It copies compose and what it stands on to a folder of its own, adds the program of painting_counts.rt.txt as a
crate beside them, and has rt prove and build it: some minutes. WORLD is a mapfile with the layers "countries", of
polygons with outlines, and "rivers", of lines, in this order. A figure is that of six pictures less one, divided
by five, less that of an empty layer's picture. OTHER is the same program as it was built of another commit; where
it is given, its figures stand beside, and the script ends with 1 if one picture differs.
"""
import pathlib
import sys
import tempfile

sys.path.insert(0, str(pathlib.Path(__file__).resolve().parent / "lib"))

from painted import filled, layer, layers_of, of_extent, outlined, painted, scattered_lines, scattered_points
from programs import build
from timed import small_squares

EARTH, TILE, PART = "-180 -90 180 90", "5 43 16 54", "0 0 4 4"


def workloads(world):
    """Name, mapfile and sides of each."""
    countries, rivers = layers_of(world)
    fill = of_extent(EARTH, filled(countries))
    yield "countries filled", fill, 2048, 1024
    yield "countries filled", fill, 1024, 512
    yield "countries filled, 45 degrees", of_extent("0 10 45 55", filled(countries)), 512, 512
    yield "countries filled, a tile of 11 degrees", of_extent(TILE, filled(countries)), 256, 256
    squares = of_extent(PART, layer("POLYGON", "COLOR 10 20 30", small_squares(20_000)))
    yield "20,000 squares of 3 by 3 pixels filled", squares, 2048, 2048
    for width, sides in [(1, (2048, 1024)), (1, (1024, 512)), (2, (1024, 512)), (3, (1024, 512)), (8, (1024, 512))]:
        yield f"borders, {width} wide", of_extent(EARTH, outlined(countries, width)), *sides
    yield "borders, 1 wide, a tile of 11 degrees", of_extent(TILE, outlined(countries, 1)), 256, 256
    yield "countries filled, with borders", of_extent(EARTH, countries), 1024, 512
    yield "rivers, 1 wide", of_extent(EARTH, rivers), 1024, 512
    lines = of_extent(EARTH, layer("LINE", "COLOR 10 20 30\nWIDTH 1", scattered_lines(20_000)))
    yield "20,000 lines of 4 vertices, 1 wide", lines, 2048, 1024
    points = of_extent(EARTH, layer("POINT", "COLOR 10 20 30\nSIZE 5", scattered_points(20_000)))
    yield "20,000 points as squares of 5 pixels", points, 2048, 1024


def main():
    world = pathlib.Path(sys.argv[1]).read_text()
    empty = of_extent(EARTH, layer("POLYGON", "COLOR 10 20 30", []))
    same = True
    with tempfile.TemporaryDirectory() as folder:
        programs = sys.argv[2:3] + [build(folder)]
        for name, mapfile, width, height in workloads(world):
            figures, pictures = [], []
            for program in programs:
                count, picture = painted(program, mapfile, width, height)
                figures.append(f"{(count - painted(program, empty, width, height)[0]) / 1e6:.1f}")
                pictures.append(picture)
            same = same and len(set(pictures)) == 1 and not pictures[0].startswith(b"nothing")
            print(f"| {name} | {width} by {height} | {' | '.join(figures)} |", flush=True)
    if not same:
        sys.exit("a picture differs, or there is none")


if __name__ == "__main__":
    main()
