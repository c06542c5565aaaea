#!/usr/bin/env python3
"""Compares how many bytes the server's PNGs have with numbers that were worked out by hand.

Usage: png_sizes.py PROGRAM

Each picture has two equal rows of so many colours, with nothing as the first of them or without it. Those of 2,048 pixels
have the background behind the other colours, white or nothing. A file tells by its length in which form the colours stand,
that nothing is added to a chunk, and that the second row is found in the first. The script ends with 1 where a length is
another, or where a PNG has other pixels than the PAM of the same request.

Gate: PROGRAM; 1 s
"""
import pathlib
import subprocess
import sys
import tempfile

sys.path.insert(0, str(pathlib.Path(__file__).resolve().parents[1] / "lib"))

from pictures import CLASSES, bodies, chunks_of, form_of, layers, of_pam, of_png, seen


# How many colours, whether nothing is one of them, the width, and the bytes. Of a file 57 are the signature, IHDR, the frame of
# IDAT and IEND; a palette takes 12 and three a colour, tRNS 12 and one a colour up to nothing. A stream has 6 bytes and these
# bits: 3 at its begin, 7 at its end, 8 or 9 for each byte of the first row and its filter type, and one copy for the second row.
# A copy of 258 bytes takes 13 bits from the pixel before and 23 from the row above.
SIZES = [
    (16, False, 16, 136),  # two in a byte: 57 + 60 + 6 + 13, of 3 + 75 + 14 + 7 bits
    (16, True, 16, 149),
    (17, False, 17, 148),  # 57 + 63 + 6 + 22, of 3 + 144 + 16 + 7 bits
    (17, True, 17, 161),
    (256, False, 256, 1119),  # 57 + 780 + 6 + 276, of 3 + 2168 + 25 + 7 bits
    (256, True, 256, 1132),
    (257, False, 257, 891),  # red, green and blue: 57 + 6 + 828, of 3 + 6545 + 68 + 7 bits
    (257, True, 257, 733),  # and alpha: 57 + 6 + 670; green, blue and alpha are those of the pixel before: 3 + 5250 + 93 + 7 bits
    (17, False, 2048, 174),  # 57 + 63 + 6 + 48; 2,031 and 1,791 pixels are the one before: 3 + 144 + 109 + 23 + 96 + 7 bits
    (17, True, 2048, 203),
    (256, False, 2048, 1143),  # 57 + 780 + 6 + 300; 1,792 and 1,791 are: 3 + 2168 + 96 + 23 + 96 + 7 bits
    (256, True, 2048, 1411),
]
# A column is a quarter of a degree wide, since 2,048 degrees are more than a box may have.
COLUMN = 0.25


def mapfile(count):
    """A map of so many columns, each of a colour of its own."""
    blocks = []
    for number in range(layers(count)):
        those = range(CLASSES * number, min(count, CLASSES * (number + 1)))
        classes = [f"CLASS EXPRESSION '{at}' STYLE COLOR {at % 256} {at // 256} 200 END END" for at in those]
        corners = [(at, f"{west} 0 {west + COLUMN} 0 {west + COLUMN} 2 {west} 2") for at, west in ((at, COLUMN * at) for at in those)]
        features = [f"FEATURE ITEMS '{at}' POINTS {points} END END" for at, points in corners]
        blocks.append("\n".join([f"LAYER NAME l{number} TYPE POLYGON PROCESSING 'ITEMS=k' CLASSITEM k", *classes, *features, "END"]))
    return 'MAP CONFIG "WMS_FORMATS" "image/png"\n' + "\n".join(blocks) + "\nEND\n"


def query(count, clear, width, form):
    """A query of the first so many columns; with nothing, of one left of them too, which has no colour. A wide picture is of the
    last columns, one fewer than its colours, and of what lies right of them."""
    names = ",".join(f"l{number}" for number in range(layers(257)))
    west = 258 - count if width > count else -1 if clear else 0
    return (f"VERSION=1.3.0&REQUEST=GetMap&LAYERS={names}&STYLES=&CRS=CRS:84&BBOX={COLUMN * west},0,{COLUMN * (west + width)},2"
            f"&WIDTH={width}&HEIGHT=2&FORMAT=image/{form}&TRANSPARENT={'TRUE' if clear else 'FALSE'}")


def main():
    forms = ("x-portable-arbitrarymap", "png")
    with tempfile.TemporaryDirectory() as folder:
        place = pathlib.Path(folder)
        (place / "a.map").write_text(mapfile(257))
        script = [f"QUERY {query(count, clear, width, form)}\n" for count, clear, width, _ in SIZES for form in forms]
        (place / "a.script").write_text("".join(script))
        run = subprocess.run([sys.argv[1], "run", str(place / "a.map"), str(place / "a.script")], stdout=subprocess.PIPE, check=True)
    found = [body for _, body in bodies(run.stdout)]
    wrong = 0
    for (count, clear, width, size), pam, png in zip(SIZES, found[::2], found[1::2], strict=True):
        words = f"{count} colours{', one of them nothing' if clear else ''}, {width} pixels a row"
        alike = of_pam(pam) == (*of_png(png)[:2], seen(of_png(png)[2]))
        wrong += len(png) != size or not alike
        print(f"{words}: {form_of(chunks_of(png))}, {len(png)} bytes" + ("" if len(png) == size else f"; {size} were worked out")
              + ("" if alike else "; the pixels aren't those of the PAM"))
    return 1 if wrong else 0


if __name__ == "__main__":
    sys.exit(main())
