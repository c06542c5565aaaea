#!/usr/bin/python3
"""Tries deploy/convert on the mapfiles of tests/converted/, and on one with each of MapServer's keywords.

Usage: conversions.py [--write]

Each mapfile's report has to be the one that is stored beside it, byte by byte, and its map has to have what tests/lib/wanted.py
says, and nothing that is kept back. Of each keyword of docs/MAPSERVER.md that MapServer reads there has to be a line in the
report, or it has to change what is written. What the layers of items.map answer has to be what MapServer answers, and labels
have to be there for the features for which MapServer draws them. With --write the reports are stored. It needs Debian's
python3-mapscript, python3-pil and gdal-bin, and says what it skips: labels without otf2bdf, and PostGIS without a server.
It ends with 1 where something is wrong, and with 77 where the packages aren't there.

Gate: 40 s
"""
import importlib.util
import os
import pathlib
import re
import shutil
import subprocess
import sys
import tempfile

TOP = pathlib.Path(__file__).resolve().parents[2]
CONVERT, MAPS = TOP / "deploy" / "convert", TOP / "tests" / "converted"
sys.dont_write_bytecode = True
sys.path.insert(0, str(TOP / "deploy" / "lib"))
sys.path.insert(0, str(pathlib.Path(__file__).resolve().parents[1] / "lib"))

import keywords
import loading
import told
from wanted import LABELLED, MORE, OPTIONS, WANTED


class Checks:
    """What was tried, and what was wrong."""

    def __init__(self):
        self.count = self.wrong = 0

    def that(self, is_right, words):
        self.count += 1
        self.wrong += not is_right
        if not is_right:
            print(words)


def converted(convert, path, folder, *options):
    """The lines of the report by their places, and what was written; nothing where MapServer doesn't read it or nothing is left."""
    from mapconvert.report import Report

    report = Report()
    try:
        convert.convert(convert.options_of([str(path), str(folder), *options]), report, convert.Made())
    except convert.NoMap:
        return report, None
    return report, {name.name: name.read_bytes() for name in sorted(folder.iterdir())}


# Mapfiles


def server():
    """A PostgreSQL of its own in a folder, with the parcels; nothing where there is none or no PostGIS."""
    places = sorted(pathlib.Path("/usr/lib/postgresql").glob("*/bin/initdb"))
    if not places or not shutil.which("psql") or not list(pathlib.Path("/usr/share/postgresql").glob("*/extension/postgis.control")):
        return None
    return places[-1].parent


SQL = """CREATE EXTENSION postgis; CREATE TABLE parcels (id integer PRIMARY KEY, use text, owner text, state text, shape geometry(Polygon, 25832));
INSERT INTO parcels SELECT id, use, owner, state, ST_MakeEnvelope(500000 + 100 * id, 5700000, 500050 + 100 * id, 5700050, 25832)
FROM (VALUES (1, 'barn', 'Ada', 'sold'), (2, 'house', 'Ben', 'sold'), (3, 'mill', 'Cleo', 'let')) AS rows(id, use, owner, state);"""


def with_postgis(folder, work):
    """Does `work` on the mapfile of PostGIS with a server that runs; whether there is one."""
    place = server()
    if place is None:
        return False
    data = folder / "data"
    data.mkdir()
    user = [] if os.getuid() else ["setpriv", "--reuid", "postgres", "--clear-groups", "--regid", "postgres"]
    folder.chmod(0o755)
    if user:
        shutil.chown(data, "postgres")
    call = lambda *words, **more: subprocess.run([*user, *map(str, words)], check=True, capture_output=True, cwd="/", **more)
    call(place / "initdb", "-D", data, "-U", "maps", "-A", "trust", "--no-sync")
    call(place / "pg_ctl", "-D", data, "-w", "-l", data / "log", "-o", f"-k {data} -c listen_addresses='' -c fsync=off", "start")
    try:
        call("createdb", "-h", data, "-U", "maps", "maps")
        call("psql", "-q", "-h", data, "-U", "maps", "maps", input=SQL.encode())
        # everybody may reach the socket
        data.chmod(0o711) if os.getuid() else None
        text = (MAPS / "postgis.map").read_text().replace("@HOST@", str(data))
        (folder / "postgis.map").write_text(text)
        work(folder / "postgis.map")
    finally:
        call(place / "pg_ctl", "-D", data, "-m", "immediate", "stop")
    return True


def try_mapfile(path, name, folder, checks, writes):
    """Converts a mapfile, and compares its report and its map."""
    made = folder / name
    if options := OPTIONS.get(name):
        ran = subprocess.run([CONVERT, path, made], capture_output=True)
        checks.that(ran.returncode == 2 and not made.exists() and options[0].encode() in ran.stderr, f"{name}: there is a map without {options[0]}: {ran.stderr}")
    ran = subprocess.run([CONVERT, path, made, *OPTIONS.get(name, MORE.get(name, []))], capture_output=True, text=True, errors="replace")
    if ran.returncode == 2:
        checks.that(False, f"{name}: {ran.stderr}")
        return
    report, kept = (made / "report.txt").read_text(), MAPS / f"{name}.report"
    if writes:
        kept.write_text(report)
    checks.that(kept.exists() and kept.read_text() == report, f"{name}: the report isn't {kept}:\n{report}")
    plain = " ".join((made / "map.map").read_text().split())
    wanted, kept_back = WANTED[name]
    if name == "items":
        halves = plain.partition('NAME "halves"')[2].partition(" LAYER ")[0]
        checks.that("open" in halves and "TEMPLATE" not in halves, "items: the layer halves, of which MapServer answers some features, answers all")
    for text in wanted:
        checks.that(text in plain, f"{name}: the map has no {text}")
    for text in kept_back:
        checks.that(text not in plain, f"{name}: the map has {text}")


def try_mapfiles(folder, checks, writes):
    for path in sorted(MAPS.glob("*.map")):
        if path.stem in LABELLED and not (shutil.which("otf2bdf") and os.path.exists("/usr/share/fonts/truetype/dejavu/DejaVuSansMono.ttf")):
            print(f"conversions: skipped: {path.name}, as otf2bdf or its fonts are missing")
        elif path.stem == "postgis":
            if not with_postgis(folder / "postgis", lambda path: try_mapfile(path, "postgis", folder, checks, writes)):
                print("conversions: skipped: postgis.map, as there is no PostgreSQL with PostGIS")
        else:
            try_mapfile(path, path.stem, folder, checks, writes)


GONE = """MAP NAME "gone" EXTENT 0 0 10 10 SIZE 100 100 WEB METADATA "ows_enable_request" "*" END END
LAYER NAME "missing" TYPE POINT DATA "nothere" CLASS STYLE COLOR 10 20 30 END END END
LAYER NAME "there" TYPE LINE FEATURE POINTS 1 1 2 2 END END CLASS STYLE COLOR 40 50 60 END END END
END
"""


def try_missing_source(folder, checks):
    """A layer whose source can't be read is left out, and the others are converted."""
    (folder / "gone.map").write_text(GONE)
    ran = subprocess.run([CONVERT, folder / "gone.map", folder / "gone"], capture_output=True, text=True)
    is_right = ran.returncode == 1 and "gone.map:2: left out: the layer missing" in ran.stdout and 'NAME "there"' in (folder / "gone" / "map.map").read_text()
    checks.that(is_right, f"a source that isn't there: {ran.returncode} {ran.stdout}{ran.stderr}")


def try_nameless(folder, checks):
    """With --nameless a layer without a NAME is drawn, has no TEMPLATE, and is reported as shown."""
    made = folder / "nameless"
    ran = subprocess.run([CONVERT, MAPS / "hidden.map", made, "--nameless"], capture_output=True, text=True)
    layer = " ".join((made / "map.map").read_text().partition('NAME "layer1"')[2].partition("\n  LAYER\n")[0].split())
    is_right = "1.125 1.125" in layer and "TEMPLATE" not in layer and "hunter2" not in layer and "hidden.map:6: shown: the layer without a NAME" in ran.stdout
    checks.that(is_right, f"--nameless: the layer is {layer[:300]}, and the report {ran.stdout}")


WIDE = """MAP NAME "wide" EXTENT 0 0 10 10 SIZE 100 100 WEB METADATA "ows_enable_request" "*" END END
SYMBOL NAME "bar" TYPE VECTOR FILLED TRUE POINTS 0 0 4 0 4 1 0 1 0 0 END END
LAYER NAME "a" TYPE POINT FEATURE POINTS 1 1 END END CLASS STYLE SYMBOL "bar" SIZE 5 COLOR 10 20 30 END END END
END
"""


def try_wide_mark(folder, checks):
    """A mark of 20 by 5 pixels is whole: its pixmap has both its ends, and has it in its middle."""
    (folder / "wide.map").write_text(WIDE)
    _, made = converted(loading.script("deploy/convert"), folder / "wide.map", folder / "wide", "--smoothing", "1")
    found = re.match(rb"P6\n(\d+) (\d+)\n255\n", made.get("bar1.ppm", b""))
    size = tuple(map(int, found.groups())) if found else None
    # the point stands in the middle of a pixel, so that an end may reach into one more
    checks.that(size is not None and size[0] in (19, 21) and size[1] in (5, 7), f"a mark of 20 by 5 pixels is a pixmap of {size}")


def try_no_class_item(folder, checks):
    """With --no-class-item a layer whose classes need what isn't answered can't be asked, and has no number of the class."""
    made = folder / "no_class_item"
    subprocess.run([CONVERT, MAPS / "items.map", made, "--no-class-item"], capture_output=True)
    people = " ".join((made / "map.map").read_text().partition('NAME "people"')[2].partition("\n  LAYER\n")[0].split())
    is_right = "TEMPLATE" not in people and 'ITEMS=debt"' in people and "EXPRESSION ([debt] > 50)" in people
    checks.that(is_right, f"--no-class-item: the layer people is {people[:300]}")


# What MapServer answers itself


def answer_of(path, layer, place):
    """The items that MapServer answers to a click on a place."""
    import mapscript

    x, y = place
    request, map = mapscript.OWSRequest(), mapscript.mapObj(str(path))
    values = {
        "SERVICE": "WMS", "VERSION": "1.3.0", "REQUEST": "GetFeatureInfo", "LAYERS": layer, "QUERY_LAYERS": layer, "STYLES": "", "CRS": "CRS:84",
        "BBOX": f"{x - 1},{y - 1},{x + 1},{y + 1}", "WIDTH": "101", "HEIGHT": "101", "FORMAT": "image/png", "INFO_FORMAT": "text/plain", "I": "50", "J": "50",
    }
    for name, value in values.items():
        request.setParameter(name, value)
    map.setProjection("init=epsg:4326")
    map.web.metadata.set("wms_srs", "CRS:84 EPSG:4326")
    map.web.metadata.set("wms_onlineresource", "http://localhost/?")
    mapscript.msIO_installStdoutToBuffer()
    try:
        map.OWSDispatch(request)
        text = mapscript.msIO_getStdoutBufferBytes().decode(errors="replace")
    except mapscript.MapServerError:
        text = ""
    finally:
        mapscript.msIO_resetHandlers()
    return set(re.findall(r"^    (.*) = '(.*)'$", text, re.MULTILINE))


def try_answers(folder, checks):
    """Each item of a layer that can be asked has to be one that MapServer answers there, but the number of the class."""
    text, count = (folder / "items" / "map.map").read_text(), 0
    for layer in re.findall(r"^  LAYER$.*?^  END$", text, re.MULTILINE | re.DOTALL):
        name = re.search(r'NAME "(.*)"', layer)[1]
        features = re.findall(r'ITEMS "(.*)"\n\s+POINTS\n\s+(\S+) (\S+)', layer)
        items = re.search(r'"ITEMS=(.*)"', layer)
        for values, x, y in features if items and "TEMPLATE" in layer else []:
            here = {pair for pair in zip(items[1].split(","), values.split(";")) if pair[0] != "class"}
            there = answer_of(MAPS / "items.map", name, (float(x), float(y)))
            count += len(here)
            checks.that(here == there, f"items: {name} answers {here} at {x} {y}, and MapServer {there}")
    checks.that(count > 0, "items: no layer can be asked")


# Labels

LABELLED_MAP = """MAP NAME "rules" EXTENT 0 0 10 10 SIZE 300 300 WEB METADATA "ows_enable_request" "*" END END FONTSET "{maps}/fontset.list"
LAYER NAME "a" TYPE POINT STATUS ON LABELITEM "word" PROCESSING "ITEMS=word,no" {layer}
FEATURE POINTS 5 2 END ITEMS "oak tree;7" END
FEATURE POINTS 5 5 END ITEMS "Fir;12.5" END
FEATURE POINTS 5 8 END ITEMS "M\u00fcnchen;" END
CLASS LABEL FONT "sans" TYPE TRUETYPE SIZE 9 COLOR 0 0 0 {label} END END END END
"""
# Each is the EXPRESSION of the label, and those of the features that have it by hand.
RULES = {
    "([no] > 7)": [1], "([no] >= 7 and NOT '[word]' = 'Fir')": [0], "('[word]' ~ '^[oF]')": [], "('[word]' ~ '^(o|F)')": [0, 1], "('[word]' ~* 'FIR')": [1],
    "('[word]' =* 'OAK TREE' OR [no] = 0)": [0, 2], "(length('[word]') = 8)": [0, 2], "(length('[word]') < 8)": [1], "('[word]' in 'Fir,oak tree')": [0, 1], "([no] in '7,12.50')": [0, 1],
    "(1 or 0 and 0)": [0, 1, 2], "(not 1 or 0)": [], "('[word]' < 'a')": [1, 2], "(upper('[word]') = 'FIR')": [1], "([no] * 2 - 1 = 13)": [0], "([no] % 2 = 1)": [],
    "('[word]' = 7)": [], "(-[no] < -10)": [], "(0 - [no] < -10)": [1], "([no] -1 = 6)": [], "(-1 < 0)": [0, 1, 2], "('a' + '[word]' = 'aFir')": [1], "(2)": [0, 1, 2], "('[word]' ~ '')": [0, 1, 2],
    '"Fir"': [1], '"fir"': [], '"FIR"i': [1], "{Fir,oak tree}": [0, 1], "{Fir, oak tree}": [1], "/^oak|r$/": [0, 1], "/OAK/": [], "/M..nchen/": [], "/nchen$/": [2],
}


def labels_of_mapserver(path):
    """Which of the three features MapServer labels, by the pixels round each."""
    import io

    import mapscript
    from PIL import Image

    try:
        picture = Image.open(io.BytesIO(mapscript.mapObj(str(path)).draw().getBytes())).convert("L")
    except mapscript.MapServerError:
        return []
    return [at for at, down in enumerate((240, 150, 60)) if picture.crop((0, down - 30, 300, down + 30)).getextrema()[0] < 100]


def try_labels(folder, checks):
    """A feature has the text of a label where MapServer labels it, and nowhere else; where a rule isn't read here it has none."""
    if not os.path.exists("/usr/share/fonts/truetype/dejavu/DejaVuSans.ttf"):
        return print("conversions: skipped: rules of labels, as fonts-dejavu-core is missing")
    convert, path = loading.script("deploy/convert"), folder / "rules.map"
    for rule, wanted in RULES.items():
        path.write_text(LABELLED_MAP.format(maps=MAPS, layer="", label=f"EXPRESSION {rule}"))
        report, made = converted(convert, path, folder / "rules")
        found = [at for at, text in enumerate(("oak tree", "Fir", "M\u00fcnchen")) if f'TEXT "{text}"' in made["map.map"].decode()]
        there, is_read = labels_of_mapserver(path), "it isn't drawn" not in report.text()
        is_right = found == wanted and (found == there if is_read else not found)
        checks.that(is_right, f"a label with EXPRESSION {rule}: the features {found} have it, by hand {wanted}, and MapServer's {there}")
    for rule, wanted in (("1", 3), ("NOT 0", 3), ("(2 > 1)", 3), ("0", 0), ("![other]", 0)):
        path.write_text(LABELLED_MAP.format(maps=MAPS, layer=f'LABELREQUIRES "{rule}"', label=""))
        found, there = converted(convert, path, folder / "rules")[1]["map.map"].decode().count("TEXT "), len(labels_of_mapserver(path)) if "[" not in rule else 0
        checks.that(found == wanted == there, f"LABELREQUIRES {rule}: {found} features have a text, and {there} of MapServer's")


UNNAMED = """MAP NAME "unnamed" EXTENT 0 0 10 10 SIZE 300 300 WEB METADATA "ows_enable_request" "*" END END FONTSET "{maps}/fontset.list"
LAYER NAME "a" TYPE POINT STATUS ON LABELITEM "word" PROCESSING "ITEMS=word"
FEATURE POINTS 5 5 END ITEMS "Fir" END
CLASS LABEL SIZE TINY TYPE BITMAP COLOR 0 0 0 END END END
LAYER NAME "b" TYPE POINT STATUS ON LABELITEM "word" PROCESSING "ITEMS=word"
FEATURE POINTS 5 5 END ITEMS "Oak" END
CLASS LABEL FONT "s\u00fctterlin 2" SIZE 30 COLOR 0 0 0 END END END END
"""


def try_fonts_by_default(folder, checks):
    """A label without FONT, of a bitmap font, or of one that the FONTSET lacks has a font nevertheless, of a name that is read, and a line says so."""
    if not (shutil.which("otf2bdf") and os.path.exists("/usr/share/fonts/truetype/dejavu/DejaVuSans.ttf")):
        return print("conversions: skipped: fonts by default, as otf2bdf or fonts-dejavu-core is missing")
    (folder / "unnamed.map").write_text(UNNAMED.format(maps=MAPS), encoding="utf-8")
    report, made = converted(loading.script("deploy/convert"), folder / "unnamed.map", folder / "unnamed")
    text, lines = made["map.map"].decode(), report.text()
    for name, line, said in (("plain-5", 4, "a LABEL without FONT: it has DejaVuSans"), ("s_tterlin_2-30", 7, "FONT s\u00fctterlin 2: the FONTSET has no file of it, so it is DejaVuSans")):
        is_written = f'CONFIG "LABELFONT {name}" "{name}.bdf"' in text and f' FONT "{name}" END' in text and f"{name}.bdf" in made
        checks.that(is_written and re.search(f"^unnamed.map:{line}: (note|changed): {said}", lines, re.M), f"fonts by default: no {name} in {text}, or no line: {lines}")


# Keywords


def is_told(convert, block, word, kind, base, folder):
    """Whether a keyword has a line in the report or changes what is written; nothing where MapServer refuses it."""
    import mapscript

    text, at = told.mapfile(block, word, [kind])
    path = folder / "keyword.map"
    path.write_text(text)
    try:
        mapscript.mapObj(str(path))
    except (mapscript.MapServerError, OSError):
        return None
    out = folder / "out"
    shutil.rmtree(out, ignore_errors=True)
    report, made = converted(convert, path, out)
    says = any(line == at and word in words for _, line, words in report.lines)
    return says or made is None and bool(report.lines) or made != base


def try_keywords(folder, checks):
    convert, bases = loading.script("deploy/convert"), {}
    from mapconvert import fonts

    # in place of each font, which takes a moment, its file and its size
    fonts.font_of = lambda path, size, times, codes: (size, f"{path} {size}", [])
    (folder / "base.map").write_text("")
    for kind in told.SHAPES:
        (folder / "base.map").write_text(told.mapfile(kinds=[kind])[0])
        bases[kind] = converted(convert, folder / "base.map", folder / f"base_{kind}")[1]
    refused = []
    for block in keywords.COUNTS:
        for word in sorted({*keywords.COUNTS[block], *keywords.UNUSED[block], *keywords.REFUSED[block]}):
            if f"{block} {word}" in told.ALIKE:
                continue
            is_said = None
            for kind in told.SHAPES:
                is_said = is_said or is_told(convert, block, word, kind, bases[kind], folder)
            if is_said is None:
                refused.append(f"{block} {word}")
            else:
                checks.that(is_said, f"{block} {word}: no line of the report speaks of it, and nothing changes: {told.written(block, word)}")
    print(f"conversions: MapServer itself refuses {len(refused)} keywords: {', '.join(refused)}")


def main():
    if sys.argv[1:] not in ([], ["--write"]):
        sys.exit(__doc__.split("\n\n")[1])
    lacking = [package for module, package in (("mapscript", "python3-mapscript"), ("PIL", "python3-pil")) if importlib.util.find_spec(module) is None]
    if lacking or not shutil.which("ogr2ogr"):
        sys.exit(print(f"conversions: skipped: {', '.join(lacking or ['gdal-bin'])} is missing") or 77)
    checks = Checks()
    with tempfile.TemporaryDirectory() as name:
        folder = pathlib.Path(name)
        (folder / "postgis").mkdir()
        folder.chmod(0o755)
        try_mapfiles(folder, checks, "--write" in sys.argv)
        try_answers(folder, checks)
        try_nameless(folder, checks)
        try_no_class_item(folder, checks)
        try_labels(folder, checks)
        try_fonts_by_default(folder, checks)
        try_wide_mark(folder, checks)
        try_missing_source(folder, checks)
        try_keywords(folder, checks)
    print(f"conversions: {checks.count} looked at, {checks.wrong} wrong")
    sys.exit(checks.wrong > 0)


if __name__ == "__main__":
    main()
