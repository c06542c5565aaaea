#!/usr/bin/python3
"""Compares the pictures of 60 tiles in web mercator with MapServer's. Usage: mercator_pictures.py PROGRAM [WORLD [FOLDER]]

The tiles have zooms 0 to 12 and 256 by 256 pixels, of countries filled, filled with borders, and of lines and squares made by
rule; WORLD is the mapfile of the countries, demo/world.map by default. both_servers.py starts the servers, and names what that
needs; this script needs Debian's python3-mapscript and python3-pil too.

MapServer smooths edges, so pixels are compared as deploy/convert --compare does, in each of three ways:

- equal in each component;
- differing: no pixel of the 3 by 3 round it in the other picture is within 48 in each component;
- beyond half-tones: it lies by more than 48 outside of what the 3 by 3 round it in the other picture have.

The same parts of the world are compared in degrees beside it. The script ends with 1 where a layer's share of pixels that differ, or
of those beyond half-tones, is more than twice that in degrees and 0.5 % of all. With FOLDER it writes both pictures of each tile and
what differs there.
"""
import io
import pathlib
import sys

from PIL import Image, ImageChops

TOP = pathlib.Path(__file__).resolve().parents[2]
sys.path.insert(0, str(TOP / "bench" / "lib"))
sys.path.insert(0, str(TOP / "deploy" / "lib"))

from both_servers import DEMO, as_png, both, degrees_of, metres_of, picture, tiles
from mapconvert import compare

NAMES, SIDE, SLACK = ("filled", "outlined", "lines", "squares"), 256, 0.005


class Count:
    """How many pixels of some pictures are equal, differ, and differ beyond half-tones."""

    def __init__(self):
        self.pixels, self.equal, self.differing, self.beyond, self.worst = 0, 0, 0, 0, (0.0, None)

    def add(self, one, other, tile):
        both_ways, differing, beyond = compare.difference(one, other)
        pixels = one.width * one.height
        unequal = ImageChops.difference(one, other).convert("L", (1, 1, 1, 0)).point(lambda far: 255 if far else 0)
        self.pixels += pixels
        self.equal += pixels - unequal.histogram()[255]
        self.differing += round(differing * pixels)
        self.beyond += round(beyond * pixels)
        self.worst = max(self.worst, (beyond, tile), key=lambda pair: pair[0])
        return both_ways

    def cells(self):
        shares = [100 * count / self.pixels for count in (self.equal, self.differing, self.beyond)]
        return f"{shares[0]:.2f} | {shares[1]:.3f} | {shares[2]:.3f} | {100 * self.worst[0]:.2f} at {'/'.join(map(str, self.worst[1] or ('none',)))}"


def drawn(server, query):
    status, kind, body = server.ask(as_png(query))
    if status != 200 or kind != "image/png":
        sys.exit(f"{server.name} answers {query}: {status} {kind} {body[:300]}")
    return Image.open(io.BytesIO(body)).convert("RGB")


def compared(servers, queries, folder):
    """The count over tiles, each with its query."""
    count = Count()
    for tile, query in queries.items():
        one, other = (drawn(server, query) for server in servers)
        differing = count.add(one, other, tile)
        if folder:
            name = "-".join(map(str, (query.split("&")[1].removeprefix("LAYERS="), *tile)))
            compare.side_by_side(one, other, differing).save(folder / f"{name}.png")
    return count


def main():
    if len(sys.argv) < 2:
        sys.exit(__doc__.split("\n")[0])
    world = pathlib.Path(sys.argv[2] if len(sys.argv) > 2 else DEMO / "world.map").read_text()
    folder = pathlib.Path(sys.argv[3]) if len(sys.argv) > 3 else None
    if folder:
        folder.mkdir(exist_ok=True)
    those, wrong, size = tiles(world), [], (SIDE, SIDE)
    print("| Layer | System | Equal, % | Differing, % | Beyond half-tones, % | Most of a tile, % |\n|---|---|---|---|---|---|")
    with both(sys.argv[1], world, NAMES) as servers:
        for name in NAMES:
            metres = compared(servers, {tile: picture(name, metres_of(tile), size, "EPSG:3857") for tile in those}, folder)
            degrees = compared(servers, {tile: picture(name, degrees_of(tile), size) for tile in those}, None)
            print(f"| {name} | EPSG:3857 | {metres.cells()} |\n| {name} | CRS:84 | {degrees.cells()} |", flush=True)
            for part in ("differing", "beyond"):
                most = 2 * getattr(degrees, part) + SLACK * degrees.pixels
                if getattr(metres, part) > most:
                    wrong.append(f"{name}: {getattr(metres, part)} pixels {part}, in degrees {getattr(degrees, part)}")
    print(f"{len(those)} tiles of {SIDE} by {SIDE} pixels", *wrong, sep="\n")
    return 1 if wrong else 0


if __name__ == "__main__":
    sys.exit(main())
