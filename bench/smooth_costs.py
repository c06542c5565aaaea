#!/usr/bin/env python3
"""Counts what smoothed pictures of demo/world.map cost beside stepped ones, and how long their files are.

Usage: smooth_costs.py PROGRAM [FACTOR]

A figure is the number of instructions that callgrind of valgrind counts: of a script with 3 equal queries less that of one
with 1, halved; 3 million stand for a millisecond of processor. What the hexadecimal of the transcript takes is in it.
"""
import pathlib
import re
import shutil
import subprocess
import sys
import tempfile

DEMO = pathlib.Path(__file__).resolve().parent.parent / "demo"
VIEWS = [("a tile of 256 by 256", "0,30,22.5,52.5", 256, 256), ("2,048 by 1,024", "-180,-90,180,90", 2048, 1024)]
LAYERS = ["countries", "borders", "small,ports", "countries,borders,graticule,small,ports"]


def query(layers, view, form):
    _, box, width, height = view
    return (
        f"QUERY VERSION=1.3.0&REQUEST=GetMap&LAYERS={layers}&STYLES=&CRS=CRS:84&BBOX={box}&WIDTH={width}&HEIGHT={height}"
        f"&FORMAT={form}&BGCOLOR=0xD8E8F4\n"
    )


def counted(program, folder, name, asked):
    """The instructions of one answer, and its bytes."""
    counts, length = [], 0
    for times in (1, 3):
        (folder / "script").write_text(asked * times)
        words = ["valgrind", "--tool=callgrind", "--callgrind-out-file=/dev/null", program, "run", folder / name, folder / "script"]
        ran = subprocess.run(words, capture_output=True, check=True)
        counts.append(int(re.search(rb"Collected : (\d+)", ran.stderr)[1]))
        length = int(re.search(rb"ANSWER \S+ (\d+)", ran.stdout)[1])
    return (counts[1] - counts[0]) / 2, length


def main():
    if not 2 <= len(sys.argv) <= 3:
        sys.exit(__doc__.split("\n")[2])
    program, factor = pathlib.Path(sys.argv[1]).resolve(), sys.argv[2] if len(sys.argv) == 3 else "4"
    with tempfile.TemporaryDirectory() as name:
        folder, text = pathlib.Path(name), (DEMO / "world.map").read_text(encoding="utf-8")
        shutil.copy(DEMO / "anchor.ppm", folder)
        (folder / "stepped.map").write_text(text, encoding="utf-8")
        (folder / "smoothed.map").write_text(text.replace("MAP\n", f'MAP\nCONFIG "WMS_SMOOTHING" "{factor}"\n', 1), encoding="utf-8")
        for layers in LAYERS:
            for view in VIEWS:
                for form in ("image/x-portable-pixmap", "image/png"):
                    (stepped, short), (smoothed, long) = (counted(program, folder, f"{kind}.map", query(layers, view, form)) for kind in ("stepped", "smoothed"))
                    print(f"{layers}, {view[0]}, {form}: {stepped / 1e6:.2f} and {smoothed / 1e6:.2f} million, {smoothed / stepped:.1f} times; {short} and {long} bytes", flush=True)


if __name__ == "__main__":
    main()
