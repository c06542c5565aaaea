#!/usr/bin/python3
"""Counts the instructions and the bytes of a picture's PNG alone (needs valgrind and python3-pil).

Usage: png_counts.py [OTHER]

It copies png and what it stands on to a folder of its own, adds the program of png_counts.rt.txt as a crate beside them,
and has rt prove and build it: some minutes. The pictures are those of demo/, one of one colour, and noise of 250 colours. By
`write_smooth_png` they are a gradient whose alpha rises, and noise of true colours. A figure is that of five calls less
one, divided by four, and by the pixels. OTHER is the same program as it was built of another commit;
where it is given, its figures stand beside. It ends with 1 where Pillow reads other pixels.
"""
import io
import pathlib
import random
import re
import subprocess
import sys
import tempfile

from PIL import Image

sys.path.insert(0, str(pathlib.Path(__file__).resolve().parent / "lib"))

from programs import build


DEMO = pathlib.Path(__file__).resolve().parent.parent / "demo"
USED = ("geom", "mapdefs", "png")
OF_DEMO = ["people", "density", "letters", "names", "roads", "world"]


def gradient(width, height):
    """A picture whose red rises to the right, green and alpha to the bottom, and blue to both."""
    rows = (bytes((x * 255 // width, y * 255 // height, (x + y) * 255 // (width + height), y * 255 // height)) for y in range(height) for x in range(width))
    return Image.frombytes("RGBA", (width, height), b"".join(rows))


def pictures():
    """The name of each picture, it, and the program's further words."""
    yield "one colour", Image.new("RGBA", (256, 256), (216, 232, 244, 255)), ()
    for name in OF_DEMO:
        yield name, Image.open(DEMO / f"{name}.png").convert("RGBA"), ()
    chosen = random.Random(1)
    colours = [bytes(chosen.randrange(256) for _ in range(3)) + b"\xff" for _ in range(250)]
    yield "noise of 250 colours", Image.frombytes("RGBA", (256, 256), b"".join(chosen.choice(colours) for _ in range(65_536))), ()
    yield "gradient, smoothed", gradient(256, 256), ("smooth",)
    noise = Image.frombytes("RGB", (256, 256), chosen.randbytes(3 * 65_536)).convert("RGBA")
    yield "noise of true colours, smoothed", noise, ("smooth",)


def counted(program, picture, count, words):
    """The instructions of a run, and what it wrote."""
    command = ["valgrind", "--tool=callgrind", "--callgrind-out-file=/dev/null", program, str(count), *map(str, picture.size), *words]
    run = subprocess.run(command, input=picture.tobytes(), stdout=subprocess.PIPE, stderr=subprocess.PIPE, check=True)
    return int(re.search(rb"Collected : (\d+)", run.stderr)[1]), run.stdout


def written(program, picture, words):
    """The instructions of one file, and its bytes."""
    one, data = counted(program, picture, 1, words)
    return (counted(program, picture, 5, words)[0] - one) / 4, data


def main():
    wrong, sums = False, {}
    with tempfile.TemporaryDirectory() as folder:
        programs = sys.argv[1:2] + [build(folder, "png_counts.rt.txt", USED)]
        for name, picture, words in pictures():
            pillow = io.BytesIO()
            (picture if words else picture.convert("RGB")).save(pillow, "PNG")
            figures, pixels = [], picture.width * picture.height
            for at, program in enumerate(programs):
                count, data = written(program, picture, words)
                wrong = wrong or Image.open(io.BytesIO(data)).convert("RGBA").tobytes() != picture.tobytes()
                figures.append(f"{count / 1e6:.2f} million, {count / pixels:.1f} a pixel, {len(data)} bytes")
                sums[at] = sums.get(at, 0) + (len(data) if name in OF_DEMO else 0)
            sums["Pillow"] = sums.get("Pillow", 0) + (len(pillow.getvalue()) if name in OF_DEMO else 0)
            print(f"{name}, {pixels:,} pixels: {'; '.join(figures)}; Pillow {len(pillow.getvalue())}", flush=True)
    print(f"bytes of the {len(OF_DEMO)} of demo/: {sums}")
    return 1 if wrong else 0


if __name__ == "__main__":
    sys.exit(main())
