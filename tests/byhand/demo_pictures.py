#!/usr/bin/python3
"""Looks whether the pictures of demo/ are those that the program draws. Usage: demo_pictures.py PROGRAM

Each script there beside which a PNG of its name stands is played on its map: one of the pictures that come has to have the
PNG's pixels. demo/letters.map and letters4.map need the fonts that are made by the lines at their tops. It ends with 1 where a picture differs or is
missing. It needs python3-pil.
"""
import glob
import os
import re
import subprocess
import sys

from PIL import Image

TOP = os.path.dirname(os.path.dirname(os.path.dirname(os.path.realpath(__file__))))
PIXMAP = re.compile(rb"P6\n(\d+) (\d+)\n255\n")


def pictures(program, stem):
    """The size and the pixels of each pixmap that playing a script gives."""
    ran = subprocess.run([program, "run", f"{stem}.map", f"{stem}.script"], capture_output=True, check=False)
    for answer in re.split(rb"^ANSWER .*\n", ran.stdout, flags=re.M)[1:]:
        data = bytes.fromhex(answer.decode("ascii"))
        head = PIXMAP.match(data)
        if head:
            yield (int(head[1]), int(head[2])), data[head.end() :]


def main():
    if len(sys.argv) != 2:
        sys.exit(__doc__.split("\n")[0])
    stems = [path[:-4] for path in sorted(glob.glob(os.path.join(TOP, "demo", "*.png"))) if os.path.exists(path[:-4] + ".script")]
    wrong = 0
    for stem in stems:
        kept = Image.open(f"{stem}.png").convert("RGB")
        is_drawn = (kept.size, kept.tobytes()) in pictures(sys.argv[1], stem)
        wrong += not is_drawn
        print(f"{os.path.basename(stem)}: {'the same' if is_drawn else 'another, or none'}")
    print(f"{len(stems)} pictures, {wrong} wrong")
    sys.exit(1 if wrong else 0)


if __name__ == "__main__":
    main()
