#!/usr/bin/python3
"""Measures pictures in PNG of the server itself. Usage: png_costs.py PROGRAM [TIMES]

The maps of demo/ whose files are all there, with PNG offered, are drawn by their scripts. A line has the map, the
picture's sides, the bytes of its PNG and of the one that Pillow makes of the same pixels, how many times as many those are, and
the milliseconds of processor for one picture as pixmap and as PNG, of TIMES in one session (100 where it isn't given), with
their hexadecimal form. Two more lines have the bytes of all of them, and those of 100 tiles of the world, of the 512 of 11.25
degrees each. It ends with 1 where Pillow reads other pixels in a PNG than in the pixmap. It needs python3-pil.
"""
import io
import pathlib
import random
import re
import resource
import shutil
import subprocess
import sys
import tempfile

from PIL import Image

DEMO = pathlib.Path(__file__).resolve().parent.parent / "demo"
WORLD = "VERSION=1.3.0&REQUEST=GetMap&LAYERS=countries,borders&STYLES=&CRS=CRS:84&FORMAT=image/x-portable-pixmap&BBOX={}&WIDTH={}&HEIGHT={}"
TILES = [(column * 11.25 - 180, row * 11.25 - 90) for column in range(32) for row in range(16)]
QUERIES = {"world": WORLD.format("-180,-90,180,90", 1024, 512), "a tile": WORLD.format("0,40,11.25,51.25", 256, 256)}
OFFER = 'CONFIG "WMS_FORMATS" "image/png"'


def query_of(name):
    """The query of a map's script, or one of the map of the world."""
    if name in QUERIES:
        return QUERIES[name]
    return next(line.split(maxsplit=1)[1] for line in (DEMO / f"{name}.script").read_text().splitlines() if line.startswith("QUERY"))


def answers(program, folder, queries):
    """The bodies of a session's answers, and the seconds of processor that it took."""
    (folder / "script").write_text("".join(f"QUERY {query}\n" for query in queries))
    before = resource.getrusage(resource.RUSAGE_CHILDREN)
    said = subprocess.run([program, "run", "map", "script"], cwd=folder, check=True, capture_output=True).stdout.decode()
    after = resource.getrusage(resource.RUSAGE_CHILDREN)
    bodies = re.findall(r"^ANSWER \S+ \d+\n((?:[0-9a-f]+\n)+)", said, flags=re.MULTILINE)
    return [bytes.fromhex(body.replace("\n", "")) for body in bodies], after.ru_utime + after.ru_stime - before.ru_utime - before.ru_stime


def pixels_of(picture):
    return Image.open(io.BytesIO(picture)).convert("RGB")


def sizes_of(pixmap, png):
    """The bytes of a PNG and of Pillow's; nothing where its pixels aren't those of the pixmap."""
    read, pillow = pixels_of(pixmap), io.BytesIO()
    read.save(pillow, "PNG")
    return (len(png), len(pillow.getvalue())) if read.tobytes() == pixels_of(png).tobytes() else None


def sum_of(called, sizes):
    """A line of the bytes of several pictures."""
    ours, others = (sum(one) for one in zip(*sizes))
    print(f"{called}: {ours} and {others} bytes, {ours / others:.2f}")


def tiles_of(program, folder):
    """The sizes of 100 tiles of the world."""
    queries = [WORLD.format(f"{west},{south},{west + 11.25},{south + 11.25}", 256, 256) for west, south in random.Random(1).sample(TILES, 100)]
    bodies = answers(program, folder, [query.replace("x-portable-pixmap", form) for query in queries for form in ("x-portable-pixmap", "png")])[0]
    return [sizes_of(pixmap, png) for pixmap, png in zip(bodies[::2], bodies[1::2])]


def main(program, times=100):
    every = []
    with tempfile.TemporaryDirectory() as name:
        folder = pathlib.Path(name) / "demo"
        shutil.copytree(DEMO, folder, ignore=shutil.ignore_patterns("out"))
        for called in ["density", "people", "roads", "names", "world", "a tile"]:
            text = (DEMO / f"{'world' if called in QUERIES else called}.map").read_text()
            (folder / "map").write_text(text if OFFER in text else text.replace("MAP\n", f"MAP\n  {OFFER}\n", 1))
            pixmap = query_of(called)
            png = pixmap.replace("image/x-portable-pixmap", "image/png")
            bodies, _ = answers(program, folder, [pixmap, png])
            read, sizes = pixels_of(bodies[0]), sizes_of(*bodies)
            every.append(sizes)
            if sizes is None:
                print(f"{called}: other pixels")
                continue
            none = answers(program, folder, [])[1]
            took = [(answers(program, folder, [query] * times)[1] - none) * 1000 / times for query in (pixmap, png)]
            print(f"{called}: {read.width} by {read.height}; {sizes[0]} and {sizes[1]} bytes, {sizes[0] / sizes[1]:.2f}; {took[0]:.2f} and {took[1]:.2f} ms", flush=True)
        tiles = tiles_of(program, folder)
    if None in every + tiles:
        print("failed: a PNG has other pixels")
        return 1
    sum_of("all", every)
    sum_of("100 tiles", tiles)
    return 0


if __name__ == "__main__":
    if len(sys.argv) not in (2, 3):
        sys.exit(__doc__)
    sys.exit(main(pathlib.Path(sys.argv[1]).resolve(), *map(int, sys.argv[2:])))
