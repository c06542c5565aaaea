#!/usr/bin/python3
"""Compares letters in the fonts that deploy/convert makes with those in MapServer's own pictures: how high and how wide they are.

Usage: font_heights.py [FONT FONT]

Of two TrueType fonts, DejaVu Sans and Liberation Sans where none are given, MapServer draws an H and a word at ten sizes, in a map
of 72 dots an inch and in one of 96. In the pictures the height of H is measured in a column of its stem, and the width of the word
from stem to stem, half-tones by their shares. deploy/convert makes fonts of the same mapfiles, smoothed by 4: the rows of H that have
ink are counted, and the columns from the first ink of the word to the last, a quarter of each. It prints a row for each size, and
ends with 1 where two heights are more than half a pixel apart or two widths more than one, and with 77 where a package is missing.
It needs Debian's python3-mapscript, python3-pil, gdal-bin, otf2bdf, fonts-dejavu-core and fonts-liberation.
"""
import importlib.util
import io
import pathlib
import re
import shutil
import statistics
import sys
import tempfile

TOP = pathlib.Path(__file__).resolve().parents[2]
sys.path[:0] = [str(TOP / "tests" / "lib"), str(TOP / "deploy" / "lib")]
sys.dont_write_bytecode = True

import loading
from bitmapfonts import glyphs_of, letters_of, sides_of

FONTS = ("/usr/share/fonts/truetype/dejavu/DejaVuSans.ttf", "/usr/share/fonts/truetype/liberation/LiberationSans-Regular.ttf")
SIZES, RESOLUTIONS, FACTOR = (6, 7, 8, 9.6, 10, 11, 12, 14, 18, 30), (72, 96), 4
# A word that begins and ends with a stem.
WORD = "HAvenueH"
# The pixels that two heights, and two widths, may be apart.
MOST = (0.5, 1)
MAP = """MAP NAME "heights" EXTENT 0 0 10 10 SIZE 400 400 RESOLUTION {resolution} FONTSET "fonts.list" WEB METADATA "ows_enable_request" "*" END END
LAYER NAME "a" TYPE POINT STATUS ON CLASSITEM "size" LABELITEM "text" PROCESSING "ITEMS=text,size"
{features}
{classes}
END END
"""
FEATURE = 'FEATURE POINTS 5 5 END ITEMS "{1};{0}" END'
CLASS = 'CLASS EXPRESSION "{0}" LABEL FONT "{1}" SIZE {0} COLOR 0 0 0 POSITION CC END END'


def mapfile(alias, sizes, resolution, text):
    """A mapfile in which a text is written at some sizes."""
    features, classes = ("\n".join(form.format(size, more) for size in sizes) for form, more in ((FEATURE, text), (CLASS, alias)))
    return MAP.format(resolution=resolution, features=features, classes=classes)


def rows_drawn(folder, mapped):
    """How dark the pixels of MapServer's picture of a mapfile are, of 1, row by row, for the rows that have ink."""
    import mapscript
    from PIL import Image

    (folder / "one.map").write_text(mapped)
    picture = Image.open(io.BytesIO(mapscript.mapObj(str(folder / "one.map")).draw().getBytes())).convert("L")
    rows = [[1 - picture.getpixel((x, y)) / 255 for x in range(picture.width)] for y in range(picture.height)]
    return [row for row in rows if max(row) > 0]


def height_of(rows):
    """How many pixels high an H is: what its darkest column has, by the shade that most of the column's pixels have."""
    column = max(zip(*rows), key=sum)
    # the bar of an H is darker than a stem that lies on two columns
    shade = statistics.median(dark for dark in column if dark > 0.08)
    return sum(min(dark, shade) for dark in column) / shade


def width_of(rows):
    """How many pixels wide a word is from stem to stem, above the bars of its H."""
    columns = [statistics.mean(column) for column in zip(*rows[1 : max(2, len(rows) // 3)])]
    first, *_, last = (at for at, dark in enumerate(columns) if dark > 0.02)
    return last - first - 1 + columns[first] + columns[last]


def sizes_made(convert, folder, alias, resolution):
    """The height of an H and the width of the word in the fonts that are made of a mapfile, by their sizes, in pixels of a picture."""
    from mapconvert.report import Report

    (folder / "ten.map").write_text(mapfile(alias, SIZES, resolution, WORD))
    made = folder / f"made{resolution}"
    convert.convert(convert.options_of([str(folder / "ten.map"), str(made), "--smoothing", str(FACTOR)]), Report(), convert.Made())
    text = (made / "map.map").read_text()
    files = dict(re.findall(r'CONFIG "LABELFONT (\S+)" "(\S+)"', text))
    named = re.findall(r'EXPRESSION "(\S+)"\n      LABEL .*FONT "(\S+)"', text)
    fonts = {float(size): (made / files[name]).read_text(encoding="latin-1") for size, name in named}
    return {size: (len(letters_of(font)["H"]) / FACTOR, width_made(font) / FACTOR) for size, font in fonts.items()}


def width_made(font):
    """The columns of a font from the first ink of the word to the last."""
    glyphs = [glyphs_of(font)[ord(one)] for one in WORD]
    steps = [int(re.search(r"^DWIDTH (\d+)", glyph, re.M)[1]) for glyph in glyphs]
    width, _, right, _ = sides_of(glyphs[-1])
    return sum(steps[:-1]) + right + width - sides_of(glyphs[0])[2]


def missing(fonts):
    """What isn't there of all that is needed."""
    lacking = [package for module, package in (("mapscript", "python3-mapscript"), ("PIL", "python3-pil")) if importlib.util.find_spec(module) is None]
    lacking += [package for name, package in (("otf2bdf", "otf2bdf"), ("ogr2ogr", "gdal-bin")) if shutil.which(name) is None]
    return lacking + [path for path in fonts if not pathlib.Path(path).exists()]


def compared(convert, path, resolution):
    """How far heights and widths are apart at each size, once a row of each is printed."""
    with tempfile.TemporaryDirectory() as name:
        # MapServer keeps a font by its alias for as long as the process lasts, so two fonts need two
        folder, alias = pathlib.Path(name), path.stem
        (folder / "fonts.list").write_text(f"{alias} {path.resolve()}\n")
        made = sizes_made(convert, folder, alias, resolution)
        for size in SIZES:
            drawn = [measure(rows_drawn(folder, mapfile(alias, [size], resolution, text))) for measure, text in ((height_of, "H"), (width_of, WORD))]
            apart = [here - there for here, there in zip(made[size], drawn)]
            cells = (f"{there:.2f} | {here:.2f} | {far:+.2f}" for there, here, far in zip(drawn, made[size], apart))
            print(f"| {alias} | {resolution} | {size:g} | {' | '.join(cells)} |", flush=True)
            yield apart


def main():
    if len(sys.argv) not in (1, 3):
        sys.exit(__doc__.split("\n\n")[1])
    fonts = sys.argv[1:] or FONTS
    if lacking := missing(fonts):
        print(f"font_heights: skipped: {', '.join(lacking)} is missing")
        sys.exit(77)
    convert = loading.script("deploy/convert")
    print(f"| Font | Resolution | SIZE | MapServer's H, high | In the font | Apart | MapServer's {WORD}, wide | In the font | Apart |\n|---|---|---|---|---|---|---|---|---|")
    found = [apart for path in map(pathlib.Path, fonts) for resolution in RESOLUTIONS for apart in compared(convert, path, resolution)]
    furthest = [max(map(abs, numbers)) for numbers in zip(*found)]
    print("at most {:.2f} pixels apart in height and {:.2f} in width, where {} and {} are allowed".format(*furthest, *MOST))
    sys.exit(any(far > most for far, most in zip(furthest, MOST)))


if __name__ == "__main__":
    main()
