#!/usr/bin/env python3
"""Tries that deploy/lint and the program agree on mapfiles. Usage: lint_agrees.py PROGRAM [MAPFILE ..]

lint has to find no difference exactly where `check` finds no fault but those of files, and where `check` finds one, a
difference on its line. Tried are the mapfiles of demo/ and of the cases, those of the table below, which has each
block in which others begin or don't, thousands that are made of these by dropping, doubling and replacing words, those
of Debian's python3-mapscript and mapserver-doc where they are installed, and those that are given. Where neither finds
anything, both have to warn of the same fonts and symbols as too small; smoothed maps with small ones are made for that. It
ends with 1 where the two disagree.

Gate: PROGRAM; 40 s
"""
import glob
import os
import pathlib
import re
import subprocess
import sys
import tempfile

sys.path.insert(0, str(pathlib.Path(__file__).resolve().parents[1] / "lib"))

import loading

TOP = os.path.dirname(os.path.dirname(os.path.dirname(os.path.realpath(__file__))))
OURS = ["demo/*.map", "tests/cases/*/map"]
DEBIAN = ["/usr/lib/python3/dist-packages/mapscript/tests/data/*.map", "/usr/share/doc/mapserver-doc/symbols/*.map"]

LAYER = "LAYER NAME l TYPE POINT {}\nEND"
CLASS = "LAYER NAME l TYPE POINT CLASS {}\nEND END"

# What stands in a MAP of its own each.
TABLE = [
    "QUERYMAP STATUS ON STYLE HILITE END\n{}",
    "LEGEND LABEL STYLE COLOR 1 2 3 END END STYLE END\n{}",
    "LEGEND LABEL METADATA a b END VALIDATION c d END END END\n{}",
    "SCALEBAR STYLE 0 LABEL SIZE TINY END END\n{}",
    "REFERENCE POINTS 1 2 END\n{}",
    "OUTPUTFORMAT PATTERN END\n{}",
    "PROJECTION METADATA END\n{}",
    "WEB VALIDATION a b END METADATA 'wms_title' 't' END END\n{}",
    "WEB VALIDATION a END END\n{}",
    "CONFIG LABELFONT f.bdf CONFIG x y\n{}",
    "CONFIG 'LABELFONT a-B_9' f.bdf CONFIG LABELFONT g.bdf CONFIG 'labelfont b' h.bdf CONFIG 'LABELFONTS x' i.bdf\n{}",
    *(f"CONFIG\n'LABELFONT {name}'\nf.bdf\n{{}}" for name in ("", " a", "a b", "a ", "a.", "\u00e9", "a\ta")), "CONFIG\n'LABELFONT '\nEND\n{}",
    " ".join(f"CONFIG 'LABELFONT f{number}' f.bdf" for number in range(16)) + " CONFIG LABELFONT g.bdf CONFIG 'LABELFONT f3' h.bdf\n{}",
    " ".join(f"CONFIG 'LABELFONT f{number}' f.bdf" for number in range(16)) + "\nCONFIG 'LABELFONT F3'\nh.bdf\n{}",
    " ".join(f"CONFIG 'LABELFONT f{number}' f.bdf" for number in range(16)) + "\nCONFIG 'LABELFONT f16'\nEND\n{}",
    "CONFIG WMS_FORMATS ' image/png  image/x-portable-pixmap' CONFIG WMS_CRS EPSG:3857 CONFIG WMS_CRS ''\n{}",
    "CONFIG WMS_FORMATS\nimage/gif CONFIG WMS_FORMATS image/png\n{}", "CONFIG WMS_CRS 'EPSG:3857\tEPSG:3857'\n{}", "CONFIG WMS_CRS epsg:3857\n{}",
    "CONFIG WMS_SMOOTHING 1 CONFIG 'WMS_SMOOTHING' '4' CONFIG wms_smoothing 9\n{}", "CONFIG WMS_SMOOTHING\n5 CONFIG WMS_SMOOTHING 2\n{}", "CONFIG WMS_SMOOTHING 2.0\n{}", "CONFIG WMS_SMOOTHING ''\n{}",
    "CONFIG WMS_SMOOTHING 2 LAYER NAME k TYPE POINT CLASS LABEL OUTLINEWIDTH 9\nOUTLINEWIDTH 8.4 END END END\n{}", "LAYER NAME k TYPE POINT CLASS LABEL OUTLINEWIDTH\n8.5 END END END CONFIG WMS_SMOOTHING 4\n{}",
    "LAYER NAME k TYPE POINT CLASS LABEL OUTLINEWIDTH 9 OUTLINEWIDTH x END END END CONFIG WMS_SMOOTHING 1\n{}",
    "SIZE x y SIZE 'END' 1\n{}",
    "IMAGECOLOR 1 2\n{}", "IMAGECOLOR '#0a141e'\n{}", "IMAGECOLOR '#0a141'\n{}",
    "EXTENT 1 0 1\n1\n{}", "EXTENT 0 0\n0 1\n{}", "EXTENT 0 0 1000.0000004 1\n{}", "EXTENT 0 0 1000.0000005 1\n{}",
    "SYMBOL NAME s TYPE PIXMAP IMAGE s.ppm TRANSPARENT 1 ANCHORPOINT 0 1 END\n{}",
    "SYMBOL NAME s TYPE ELLIPSE POINTS 1 1 END FILLED TRUE END\n{}", "SYMBOL NAME s TYPE PIXMAP\nEND\n{}",
    "SYMBOL NAME s TYPE\nELLIPSE POINTS 1 1 END FILLED TRUE END\nCONFIG WMS_SMOOTHING 2\n{}", "CONFIG WMS_SMOOTHING 2 CONFIG WMS_SMOOTHING 1\nSYMBOL NAME s\nPOINTS 1 1 END TYPE ELLIPSE END\n{}",
    "CONFIG WMS_SMOOTHING 4 SYMBOL NAME s TYPE ELLIPSE POINTS 1 1 END FILLED TRUE END\nCONFIG WMS_SMOOTHING\n1\n{}",
    "CONFIG WMS_SMOOTHING 4 SYMBOL NAME s TYPE ELLIPSE POINTS 1 1 END FILLED TRUE END CONFIG WMS_SMOOTHING\n1 CONFIG WMS_SMOOTHING 2\n{}",
    "CONFIG WMS_SMOOTHING 4 SYMBOL NAME s TYPE ELLIPSE POINTS 1 1 END FILLED TRUE END\nCONFIG WMS_SMOOTHING\n1 LAYER NAME k TYPE POINT CLASS STYLE SYMBOL\nt END END END\n{}",
    "CONFIG WMS_SMOOTHING 2 SYMBOL NAME s TYPE ELLIPSE POINTS 1 1 END FILLED TRUE END LAYER NAME k TYPE POINT CLASS STYLE SYMBOL s SIZE 7 WIDTH 2 END END END\n{}",
    "SYMBOLSET 'a.sym'\n{}", "INCLUDE 'a.map'\n{}", "\ufeff\n{}", "NAME (a)\n{}", "NAME {{a}}\n{}", "NAME a)\n{}", "NAME 'a\\'\n{}",
]
# What stands in a SYMBOL of a smoothed map.
DISCS = [
    "NAME s TYPE ELLIPSE POINTS 1 1 END FILLED TRUE", "name s\ntype 'ellipse'\npoints 1.0\n'1' end\nfilled 'True'", "TRANSPARENT 0 ANCHORPOINT 0 0 NAME s TYPE ELLIPSE POINTS 1 1 END FILLED TRUE",
    "NAME s TYPE ELLIPSE FILLED TRUE POINTS 1\n2 END", "NAME s TYPE ELLIPSE FILLED TRUE POINTS 1 1\n1 END", "NAME s TYPE ELLIPSE FILLED TRUE POINTS 1\nEND", "NAME s TYPE ELLIPSE FILLED TRUE POINTS\nEND",
    "NAME s TYPE ELLIPSE FILLED TRUE POINTS\nx 1 END", "NAME s TYPE ELLIPSE FILLED TRUE POINTS\n(1) 1 END", "NAME s TYPE ELLIPSE FILLED TRUE POINTS 1\n'END' END", "NAME s TYPE ELLIPSE FILLED TRUE POINTS\n-1 1 END",
    "NAME s TYPE ELLIPSE FILLED TRUE POINTS 1.0000004 1e0 END", "NAME s TYPE ELLIPSE FILLED TRUE POINTS 1\n1.4 END", "NAME s TYPE ELLIPSE FILLED TRUE POINTS 1 1 END POINTS 1 1 END",
    "NAME s TYPE ELLIPSE POINTS 1 1 END FILLED\nFALSE", "NAME s TYPE ELLIPSE POINTS 1 1 END FILLED\nEND", "NAME s TYPE ELLIPSE POINTS 1 1 END FILLED\n{TRUE}", "NAME s TYPE ELLIPSE POINTS 1 1 END FILLED\n1",
    "TYPE ELLIPSE POINTS 1 1 END FILLED TRUE\n", "NAME s POINTS 1 1 END FILLED TRUE\n", "NAME s TYPE ELLIPSE FILLED TRUE\n", "NAME s TYPE ELLIPSE POINTS 1 1 END\n", "NAME s TYPE ELLIPSE\nIMAGE\ns.ppm",
    "NAME s TYPE ELLIPSE POINTS 1 1 END FILLED TRUE IMAGE\ns.ppm", "NAME s TYPE PIXMAP POINTS 1 1 END FILLED TRUE IMAGE s.ppm", "NAME s TYPE PIXMAP POINTS 1 1 END FILLED TRUE\n", "NAME s TYPE PIXMAP IMAGE s.ppm POINTS\n2 1 END",
    "NAME s TYPE PIXMAP IMAGE s.ppm TYPE ELLIPSE POINTS 1 1 END FILLED TRUE", "NAME s TYPE ELLIPSE TYPE PIXMAP IMAGE s.ppm", "NAME s TYPE\nVECTOR POINTS 0 0 1 2 2 0 END FILLED TRUE", "NAME s TYPE ELLIPSE POINTS 1 1 END FILLED TRUE\nANTIALIAS TRUE",
]
IN_LAYER = [
    "CLASS METADATA a b END STYLE COLOR 10 20 30 END END", "CLASS VALIDATION a b END END", "VALIDATION a b END",
    "CLASS LABEL STYLE COLOR 1 2 3 END END END", "CLASS LABEL LABEL END END END", "CLASS LABEL END LABEL END END",
    "FEATURE POINTS 1 2 END END", "FEATURE POINTS 1 2 3\nEND END", "FEATURE POINTS\nEND END", "FEATURE\nEND",
    "FEATURE POINTS 1 x END END", "FEATURE POINTS 1 1000.0000005 END END", "FEATURE WKT 'POINT(1 2)' END",
    "GRID LABELFORMAT DD END", "COMPOSITE OPACITY 50 END", "CLUSTER MAXDISTANCE 20 END", "JOIN TABLE t END",
    "SCALETOKEN VALUES '0' 'a' END END", "CLASS LEADER GRIDSTEP 5 STYLE COLOR 1 2 3 PATTERN 2 2 END END END END",
    "DATA a.csv", "DATA 'a.shp'", "DATA A.CSV", "DATA a.csv TYPE LINE", "CONNECTIONTYPE OGR CONNECTION 'x'",
    "FILTER ('[a]' = 'b')", "STYLEITEM 'AUTO'", "LABELCACHE ON", "LABELCACHE OFF", "TOLERANCEUNITS pixels",
    "TOLERANCEUNITS METERS", "TOLERANCE 64.4", "TOLERANCE 64.5", "TOLERANCE -0.4", "MINSCALEDENOM 1e12", "MAXSCALEDENOM 1e13",
    "MINSCALEDENOM 1e99999999999999999999", "PROCESSING ITEMS=" + ",".join("a" * 64), "PROCESSING ITEMS=" + ",".join("a" * 65),
    "METADATA a b wms_title\nEND", "METADATA a (b) END", "METADATA\n(a) b END", "TYPE RASTER", "TYPE circle", "NAME 'l' TYPE point",
    "STATUS\nEND", "TEMPLATE 'END'", "PROJECTION 'init=epsg:4326' END", "EXTENT a b c d", "EXTENT a b c", "TYPE 'END'",
]
EXPRESSIONS = [
    "x", "'x'", "{a,b}", "{a", "/a/", "/.+/", "'/a/'", "([a]=1)", "([a]=1 ANDNOT[b]=2)", "([a]eq1 AND[b]=2)", "(1.2.3=1)",
    "([pop] >)", "([a] ~ 'b')", "([a] ~* 'b')", "([a]+1=2)", "(length('[a]')=2)", "([a] IN 'a,b')", "([a] =* 'x')",
    "(NOT [a]=1 AND [b]=2 OR [c]=3)", "(! [a]=1)", "(!![a]!=1)", "([a]=1 && [b]=2 || [c]=3)", "([a]=1 [b]=2)", "()", "([]=1)",
    "(1e12=1)", "(1e13=1)", "('[a]' = \"b\")", "([a] < 1)", "([a] <= .5e-3)", "([a] => 1)", "([a]=1)(b)", "(([a]=1))", "((a)=1)",
    "(" * 64 + "1=1" + ")" * 64, "(" * 65 + "1=1" + ")" * 65, "(" + "NOT " * 63 + "1=1)", "(" + "NOT " * 64 + "1=1)",
    "([a]=1\f)", "([a]=1\n\t)", "('a' ge 'b' and 'c' LT 'd')", "([a] = -1)", "([a] = - 1)", "([a)", "([a]='b)",
]
STYLES = [
    "COLOR 10 20 30", "COLOR 256 0 0", "COLOR -1 0 0", "COLOR -1.4 255.4 0", "COLOR 0 0 255.5", "COLOR '#0A141e'", "COLOR '#0A141'",
    "COLOR '#0A141eff'", "COLOR [c]", "COLOR 1 2", "COLOR '1' '2' '3'", "WIDTH 32.4", "WIDTH 32.5", "WIDTH 0.5", "WIDTH 0.4", "SIZE 256",
    "SIZE 0", "SIZE [s]", "SYMBOL 0", "SYMBOL '0'", "SYMBOL 1", "SYMBOL s", "OPACITY 50", "PATTERN 2 2 END", "ANGLE 45",
    "GEOMTRANSFORM (buffer([shape],2))", "OFFSET 1 1", "STYLE END", "MINSIZE x", "COLOUR 1 2 3", "OUTLINEWIDTH 2",
]
LABELS = [
    "COLOR 10 20 30 OUTLINECOLOR '#ffffff'", "POSITION ul", "POSITION FOLLOW", "PRIORITY 10", "PRIORITY 11", "PRIORITY [p]", "FORCE TRUE",
    "FORCE ON", "PARTIALS false", "MINDISTANCE -1", "MINDISTANCE 4097", "BUFFER -1", "OFFSET 1 2", "SIZE LARGE TYPE TRUETYPE FONT x",
    "ANGLE AUTO", "EXPRESSION (1=1)", "TEXT '[a]'", "STYLE GEOMTRANSFORM labelpoly COLOR 1 2 3 END", "STYLE STYLE END END", "WRAP ' '",
    "STYLE METADATA END END", "STYLE LABEL STYLE END END END", "ALIGN CENTER", "MAXLENGTH 10", "FONT\nEND", "FONT\n(a)", "FONT 'a' FONT ''",
]


# What lint differs on once in a LAYER: it goes on behind the END of the block that it doesn't know.
ONCE = [
    "CLASS METADATA a b END STYLE COLOR 10 20 30 END END TEMPLATE t", "CLASS VALIDATION a b END END", "COMPOSITE OPACITY 50 END",
    "CLASS LEADER STYLE PATTERN 2 2 END END END STYLE COLOR 10 20 30 END END", "CLASS STYLE PATTERN 2 2 END END END",
    "SCALETOKEN VALUES '0' 'a' END END", "CLUSTER MAXDISTANCE 20 END", "GRID LABELFORMAT DD END",
]


# What metadata keeps from MapServer's clients and nobody here: no fault of `check`, and so often a difference to lint alone.
KEPT_BACK = [
    ("METADATA wms_exclude_items a END", 1), ("METADATA gml_include_items 'a,b' ows_exclude_items c END", 2), ("METADATA ows_include_items all END", 0),
    ("METADATA ows_enable_request '!*' END", 1), ("METADATA wms_enable_request '* !GetFeatureInfo' END", 1), ("METADATA ows_enable_request '*' END", 0),
    ("METADATA ows_allowed_ip_list '10.0.0.1' END", 1), ("METADATA wms_title t END", 0),
]


def whole(parts):
    return "MAP\n" + parts + "\nEND\n"


def tables():
    for text in TABLE:
        yield whole(text.format(LAYER.format("")))
    for text in DISCS:
        yield whole(f"CONFIG WMS_SMOOTHING 3\nSYMBOL\n{text}\nEND\n")
    for text in IN_LAYER:
        yield whole(LAYER.replace("{}", text))
    for text in EXPRESSIONS:
        yield whole(CLASS.replace("{}", "EXPRESSION " + text))
    for text in STYLES:
        yield whole(CLASS.replace("{}", "STYLE\n" + text + "\nEND"))
    for text in LABELS:
        yield whole(CLASS.replace("{}", "LABEL\n" + text + "\nEND"))
    yield ""
    yield "MAP"
    yield "map end"
    yield "MAP END END"
    yield "# a\nMAP END"
    yield "/* a */ MAP END"
    yield whole(LAYER.format("") + LAYER.format(""))
    yield whole("NAME 'a\x01b'")
    yield "# \x01\xe4\nMAP END"


WORD = re.compile(r"\"[^\"]*\"|'[^']*'|\{[^}]*\}|[^\s\"'#(){}]+")
INSTEAD = ["END", "x", "1", "'a b'", "STYLE", "LABEL END", "METADATA a b END", "QUERYMAP STYLE END", "-1", "{a}", "(1=1)", "POINTS"]


def spoiled(source):
    """What comes of a mapfile by dropping, doubling and replacing some of its words."""
    places = list(WORD.finditer(source))
    step = max(1, len(places) // 40)
    for number, place in enumerate(places[::step]):
        before, behind = source[: place.start()], source[place.end() :]
        yield before + behind
        yield before + place[0] + " " + place[0] + behind
        for other in (INSTEAD[number % len(INSTEAD)], INSTEAD[(number * 5 + 1) % len(INSTEAD)]):
            yield before + other + behind
            yield before + place[0] + "\n" + other + behind


def fault_of(program, path):
    """The line of the fault that `check` finds, but those of files, or nothing; and what it writes of it."""
    checked = subprocess.run([program, "check", "--explain", path], capture_output=True, text=True, errors="replace")
    found = re.match(r"fault line (\d+) kind (\d+)\n", checked.stderr)
    if checked.returncode not in (0, 1) or (found is None) != (checked.returncode == 0):
        raise SystemExit(f"lint_agrees: {program} ended with {checked.returncode}: {checked.stderr}")
    return (int(found[1]) if found and found[2] not in ("7", "10") else None), checked.stderr


def read_all(lint, path):
    """The linter that read a mapfile."""
    with open(path, encoding="utf-8", errors="surrogateescape", newline="") as file:
        linter = lint.Linter(path, file.read())
    linter.read_all()
    return linter


# The size of a font or a symbol that is shown too small, the factor, and the size that would do.
SMALL = re.compile(r"(\d+ pixels (?:high|long)), which WMS_SMOOTHING (\d) shows as .*: (bring one of \d+ or more)")


def agrees(program, lint, path, name):
    line, words = fault_of(program, path)
    linter = read_all(lint, path)
    found = [(where, text) for where, is_difference, text in linter.found if is_difference]
    small = [SMALL.search(text).groups() for _, text in linter.sizes.warnings(linter.folder)]
    if (not found and SMALL.findall(words) == small) if line is None else line in [where for where, _ in found]:
        return True
    print(f"{name}: check says line {line}: {words}  lint says {found}, and warns of {small}")
    return False


def looks_into_includes(lint):
    """Whether lint finds what stands in an included file, by the lines of that file, and in one that this includes."""
    with tempfile.TemporaryDirectory() as folder:
        for name, text in (("a.map", whole("INCLUDE 'b.part'")), ("b.part", "LAYER NAME l TYPE POINT\nINCLUDE 'c.part'\nOPACITY 5\nEND\n"), ("c.part", "\nMASK 'm'\n")):
            with open(os.path.join(folder, name), "w", encoding="utf-8") as file:
                file.write(text)
        linter = lint.Linter(os.path.join(folder, "a.map"), whole("INCLUDE 'b.part'"))
        linter.read_all()
        inner = linter.included[0] if linter.included else None
        innermost = inner.included[0] if inner and inner.included else None
        found = [[line for line, is_difference, _ in one.found if is_difference] if one else None for one in (linter, inner, innermost)]
    if found != [[2], [2, 3], [2]]:
        print(f"lint finds {found} in a mapfile and what it includes")
    return found == [[2], [2, 3], [2]]


class Count:
    """How many mapfiles were tried, and on how many lint is wrong."""

    def __init__(self):
        self.tried = self.wrong = 0

    def that(self, is_right):
        """Counts one, and gives whether lint is right on it."""
        self.tried, self.wrong = self.tried + 1, self.wrong + (not is_right)
        return is_right


def read(lint, name, text):
    """The linter that read a layer's text."""
    linter = lint.Linter(name, whole(LAYER.replace("{}", text)))
    linter.read_all()
    return linter


def try_texts(lint, count):
    """Texts on which lint alone has something to say."""
    for text in ONCE:
        linter = read(lint, "once", text)
        if not count.that(linter.differences == 1):
            print(f"{text}: lint differs {linter.differences} times in place of once: {linter.found}")
    for text, wanted in KEPT_BACK:
        linter = read(lint, "kept back", text)
        if not count.that((linter.differences, len(linter.kept_back)) == (0, wanted)):
            print(f"{text}: lint finds {linter.kept_back} and {linter.found}")
    count.that(looks_into_includes(lint))


def try_made(program, lint, made, count):
    """Mapfiles that are made, each as a file of a folder."""
    with tempfile.TemporaryDirectory() as folder:
        for number, text in enumerate(made):
            path = os.path.join(folder, f"{number}.map")
            with open(path, "w", encoding="utf-8", errors="surrogateescape", newline="") as file:
                file.write(text)
            if not count.that(agrees(program, lint, path, f"made {number}")) and len(text) < 400:
                print(text)
            os.remove(path)


# A mapfile of a factor with two fonts of one file and two symbols, and the file. A font whose file is replaced isn't looked at.
SIZED = "MAP CONFIG 'LABELFONT b' none.bdf CONFIG WMS_SMOOTHING {} CONFIG LABELFONT f.bdf CONFIG 'LABELFONT b' f.bdf\nSYMBOL NAME a TYPE PIXMAP IMAGE a.ppm END\nSYMBOL NAME b TYPE PIXMAP IMAGE b.ppm END END\n"
FONT = "STARTFONT 2.1\nFONTBOUNDINGBOX 5 {} 0 0\nCHARS 1\nSTARTCHAR c\nENCODING 65\nDWIDTH 3 0\nBBX 2 1 0 0\nBITMAP\nC0\nENDCHAR\nENDFONT\n"

# The factor, the font's height, the sides of the symbols, and of how many is warned.
SIZES = [
    (1, 1, (1, 1), (2, 1), 0), (2, 16, (8, 1), (1, 8), 0), (2, 15, (7, 8), (9, 7), 2), (2, 16, (7, 7), (6, 5), 2), (3, 24, (12, 2), (11, 11), 1),
    (3, 23, (11, 3), (3, 12), 3), (4, 32, (16, 15), (15, 16), 0), (4, 31, (15, 15), (1, 1), 4),
]


def try_sizes(program, lint, count):
    """Smoothed maps whose font and symbols are just large enough, or too small."""
    for factor, height, first, second, wanted in SIZES:
        with tempfile.TemporaryDirectory() as folder:
            place = pathlib.Path(folder)
            (place / "a.map").write_text(SIZED.format(factor))
            (place / "f.bdf").write_text(FONT.format(height))
            for name, (width, across) in (("a.ppm", first), ("b.ppm", second)):
                (place / name).write_bytes(b"P6 %d %d 255\n" % (width, across) + bytes(3 * width * across))
            is_right = agrees(program, lint, str(place / "a.map"), f"sizes of {factor}, {height}, {first} and {second}")
            found = len(SMALL.findall(fault_of(program, str(place / "a.map"))[1]))
        if not count.that(is_right and found == wanted):
            print(f"factor {factor}, {height} high, {first} and {second}: check warns of {found}, in place of {wanted}")


def main():
    if len(sys.argv) < 2:
        sys.exit(__doc__.split("\n")[0])
    program, lint, count = os.path.abspath(sys.argv[1]), loading.script("deploy/lint"), Count()
    paths = [path for pattern in OURS for path in sorted(glob.glob(os.path.join(TOP, pattern)))]
    paths += [path for pattern in DEBIAN for path in sorted(glob.glob(pattern))] + sys.argv[2:]
    for path in paths:
        count.that(agrees(program, lint, path, path))
    try_texts(lint, count)
    try_sizes(program, lint, count)
    small = [open(path, encoding="utf-8", errors="surrogateescape").read() for path in paths if os.path.getsize(path) < 20_000]
    try_made(program, lint, list(tables()) + [text for source in small for text in spoiled(source)], count)
    print(f"lint_agrees: {count.tried} mapfiles, {count.wrong} on which lint and check disagree")
    sys.exit(1 if count.wrong else 0)


if __name__ == "__main__":
    main()
