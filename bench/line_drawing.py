#!/usr/bin/env python3
"""Measures how long lines, outlines and squares take, by the processor's time of the built program.

Usage: line_drawing.py PROGRAM WORLD [PICTURES]

WORLD is a mapfile with the layers "countries", of polygons with outlines, and "rivers", of lines. Of each
workload the time of as many pictures of an empty layer in the same session is taken away, so that what is
left is the painting alone: not the reading of the map, nor the hexadecimal.
"""
import math
import pathlib
import re
import sys
import tempfile

sys.path.insert(0, str(pathlib.Path(__file__).resolve().parent / "lib"))

from timed import SQUARE, Sessions, query, run, with_empty_layer


EARTH = "-180,-90,180,90"


def of_width(mapfile, width):
    """The map with lines and outlines of that width."""
    return re.sub(r"(?m)^(\s*)WIDTH \d+$", rf"\1WIDTH {width}", mapfile)


def outlines_alone(mapfile):
    """The map whose styles with an outline have no other colour."""
    return re.sub(r"(?m)^\s*COLOR [0-9 ]+\n(\s*OUTLINECOLOR)", r"\1", mapfile)


def feature(points):
    return "FEATURE\nPOINTS\n" + "".join(f"{x:.6f} {y:.6f}\n" for x, y in points) + "END\nEND\n"


def layer(kind, style, features):
    return f'MAP\nLAYER\nNAME "a"\nTYPE {kind}\nCLASS\nSTYLE\n{style}\nEND\nEND\n{"".join(features)}END\nEND\n'


def zigzag(count):
    """A line of so many vertices, to and fro between two sides of a picture of four degrees by four."""
    return [(0.2 if k % 2 else 3.8, 4 * k / count) for k in range(count)]


def spiral(count):
    """A line of so many vertices that winds 200 times round the middle of such a picture."""
    turns = 2 * math.pi * 200
    return [(2 + 1.9 * k / count * math.cos(turns * k / count), 2 + 1.9 * k / count * math.sin(turns * k / count)) for k in range(count)]


def scattered(count):
    """Points in a picture of four degrees by four."""
    return [((k * 7919) % 3_990 / 1000, (k * 104_729) % 3_990 / 1000) for k in range(count)]


def check_outline(program):
    """Asserts that the outline of width 1 of a square of 1,024 pixels has 4 times as many."""
    square = layer("POLYGON", "OUTLINECOLOR 10 20 30", [feature([(1, 1), (3, 1), (3, 3), (1, 3)])])
    with tempfile.TemporaryFile() as out:
        run(program, square + "%%\n" + query("a", SQUARE, 2048, 2048), out)
        out.seek(0)
        body = bytes.fromhex("".join(out.read().decode().split("\n")[1:]))
    pixels = body[-3 * 2048 * 2048 :]
    dark = sum(pixels[at : at + 3] == bytes([10, 20, 30]) for at in range(0, len(pixels), 3))
    if dark != 4 * 1024:
        sys.exit(f"failed: {dark} pixels of an outline")
    print("the outline of a square of 1,024 pixels has 4,096")


def main():
    program, path = sys.argv[1:3]
    sessions = Sessions(program, int(sys.argv[3]) if len(sys.argv) > 3 else 20)
    with open(path) as file:
        world = with_empty_layer(file.read())
    check_outline(program)
    for width in [1, 3]:
        borders = of_width(outlines_alone(world), width)
        sessions.measure(f"borders of countries, width {width}, 2048 by 1024", borders, query("countries", EARTH, 2048, 1024))
    sessions.measure("countries and their borders, 2048 by 1024", world, query("countries", EARTH, 2048, 1024))
    sessions.measure("borders off the view", outlines_alone(world), query("countries", "500,500,501,501", 2048, 1024))
    sessions.measure("rivers, 2048 by 1024", world, query("rivers", EARTH, 2048, 1024))
    for name, points in [("a spiral of 65,536 vertices", spiral(65_536)), ("a zigzag of 2,048 vertices", zigzag(2_048))]:
        line = with_empty_layer(layer("LINE", "COLOR 10 20 30\nWIDTH 32", [feature(points)]))
        sessions.measure(f"{name} across the picture, width 32, 2048 by 2048", line, query("a", SQUARE, 2048, 2048), 1)
    squares = with_empty_layer(layer("POINT", "COLOR 10 20 30\nSIZE 5", map(feature, ([place] for place in scattered(200_000)))))
    sessions.measure("200,000 squares of 5 pixels, 2048 by 2048", squares, query("a", SQUARE, 2048, 2048), 1)


if __name__ == "__main__":
    main()
