#!/usr/bin/python3
"""Tries WMS 1.1.1 of deploy/formats before a server. Usage: older_version.py PROGRAM

Pictures and texts of features that are asked for by 1.1.1, in boxes that aren't square, have to be those of 1.3.0 with
longitudes first; the document of 1.1.1 has to have the layers, boxes and address of that of 1.3.0; exceptions have to come as
1.1.1 has them, and as pictures where they are asked for so; and a legend has to be a PNG. It needs Debian's python3-pil; it
ends with 77 without that, and with 1 where something is otherwise.

Gate: PROGRAM; 10 s
"""
import importlib.util
import io
import json
import os
import pathlib
import re
import subprocess
import sys
import tempfile
import xml.etree.ElementTree

sys.path.insert(0, str(pathlib.Path(__file__).resolve().parents[1] / "lib"))

from served import ports_of

TOP = pathlib.Path(__file__).resolve().parents[2]
sys.path.insert(0, str(TOP / "deploy" / "lib"))
sys.dont_write_bytecode = True

MAP = """MAP
NAME "sides" EXTENT 0 40 20 50
WEB METADATA "wms_title" "Sides & more" END END
LAYER NAME "west" TYPE POLYGON PROCESSING "ITEMS=name,class" TEMPLATE "x" MAXSCALEDENOM 500000000 METADATA "wms_title" "The west" END
  CLASS NAME "one" STYLE COLOR 10 20 30 END END
  FEATURE ITEMS "left;1" POINTS 1 41 1 49 6 49 6 41 END END
END
LAYER NAME "north" TYPE POLYGON TEMPLATE "x" PROCESSING "ITEMS=name"
  CLASS NAME "two" STYLE COLOR 200 100 50 END END
  FEATURE ITEMS "upper" POINTS 10 46 10 49 19 49 19 46 END END
END
END
"""
OLD = "SERVICE=WMS&VERSION=1.1.1&REQUEST=GetMap&LAYERS=west,north&STYLES=&SRS=EPSG:4326&BBOX=0,40,20,50&WIDTH=80&HEIGHT=30&FORMAT=image/png"
NEW = OLD.replace("1.1.1", "1.3.0").replace("SRS=EPSG:4326", "CRS=CRS:84")
CLICK = OLD.replace("GetMap", "GetFeatureInfo") + "&QUERY_LAYERS=west,north&X=60&Y=6"


def ask(query):
    """The status, the type and the body that deploy/formats answers."""
    import wmsformats

    got = []
    environ = {"REQUEST_METHOD": "GET", "QUERY_STRING": query, "HTTP_HOST": "maps.example:8070", "PATH_INFO": "/wms", "wsgi.url_scheme": "http",
               "SERVER_NAME": "maps.example", "SERVER_PORT": "8070"}
    body = b"".join(wmsformats.application(environ, lambda status, fields: got.append((status, dict(fields)["Content-Type"]))))
    return *got[0], body


def pixels(body):
    from PIL import Image

    return Image.open(io.BytesIO(body)).convert("RGBA")


def try_pictures():
    old, new = ask(OLD), ask(NEW)
    if old[1] != "image/png" or old[2] != new[2]:
        yield f"a picture of 1.1.1 isn't that of 1.3.0: {old[0]} {old[1]} {old[2][:200]}"
        return
    picture = pixels(old[2])
    if (picture.getpixel((12, 15))[:3], picture.getpixel((60, 6))[:3], picture.getpixel((60, 25))[:3]) != ((10, 20, 30), (200, 100, 50), (255, 255, 255)):
        yield "the west isn't in the west, or the north isn't in the north"
    if ask(OLD.replace("image/png", "image/jpeg").replace("1.1.1", "1.1.0"))[1] != "image/jpeg":
        yield "1.1.0 has no JPEG"
    _, kind, text = ask(CLICK)
    if kind != "text/plain" or b"name = 'upper'" not in text or b"left" in text:
        yield f"a click gives {kind} {text}"
    _, _, text = ask(CLICK.replace("X=60&Y=6", "X=12&Y=15"))
    if b"name = 'left'" not in text or b"class" in text:
        yield f"a click gives {text}, with the item that is for drawing alone"


def try_document():
    status, kind, body = ask("SERVICE=WMS&REQUEST=GetCapabilities&VERSION=1.1.1")
    if kind != "application/vnd.ogc.wms_xml":
        yield f"the document is {status} {kind} {body[:200]}"
        return
    root = xml.etree.ElementTree.fromstring(body)
    layers = root.findall("Capability/Layer/Layer")
    found = [(layer.findtext("Name"), layer.findtext("Title"), layer.get("queryable")) for layer in layers]
    if root.get("version") != "1.1.1" or found != [("west", "The west", "1"), ("north", "north", "1")]:
        yield f"the document has {root.tag} {root.get('version')} {found}"
    box = root.find("Capability/Layer/LatLonBoundingBox")
    if [float(box.get(side)) for side in ("minx", "miny", "maxx", "maxy")] != [0, 40, 20, 50]:
        yield f"its box is {box.attrib}"
    if root.find("Capability/Layer/SRS").text != "EPSG:4326" or root.findtext("Service/Title") != "Sides & more":
        yield "its system or its title is another"
    address = root.find("Capability/Request/GetMap/DCPType/HTTP/Get/OnlineResource").get("{http://www.w3.org/1999/xlink}href")
    if address != "http://maps.example:8070/wms?":
        yield f"its address is {address}"
    hint = layers[0].find("ScaleHint")
    if hint is None or abs(float(hint.get("max")) - 500_000_000 * 0.00028 * 2**0.5) > 0.01:
        yield "the west has another ScaleHint"
    newer = ask("SERVICE=WMS&REQUEST=GetCapabilities")
    if newer[1] != "text/xml" or b"<WMS_Capabilities" not in newer[2] or newer[2].count(b"<Format>image/png</Format>") != 1:
        yield "without a version the document isn't that of 1.3.0"


def try_faults():
    wrong = OLD.replace("EPSG:4326", "EPSG:99")
    _, kind, body = ask(wrong)
    if kind != "application/vnd.ogc.se_xml" or b'code="InvalidSRS">SRS<' not in body or b'version="1.1.1"' not in body:
        yield f"a fault comes as {kind} {body}"
    for exceptions, query in (("application/vnd.ogc.se_inimage", wrong), ("application/vnd.ogc.se_blank", wrong), ("INIMAGE", NEW.replace("west", "else")), ("BLANK", NEW.replace("west", "else"))):
        _, kind, body = ask(f"{query}&EXCEPTIONS={exceptions}&BGCOLOR=0x0A141E")
        if kind != "image/png" or pixels(body).size != (80, 30):
            yield f"EXCEPTIONS={exceptions} gives {kind}"
            continue
        colours = {colour[:3] for _, colour in pixels(body).getcolors(100_000)}
        if (10, 20, 30) not in colours or (len(colours) > 1) != exceptions.lower().endswith("inimage"):
            yield f"EXCEPTIONS={exceptions} gives a picture of the colours {sorted(colours)[:5]}"
    _, kind, body = ask(NEW.replace("west", "else"))
    if kind != "text/xml" or b'code="LayerNotDefined">LAYERS<' not in body:
        yield f"a fault of 1.3.0 comes as {kind} {body}"


def try_legend(path, folder):
    os.environ["KESMOCH_LEGEND"] = str(folder / "legend.json")
    if ask("REQUEST=GetLegendGraphic&LAYER=west&FORMAT=image/png")[1] != "text/xml":
        yield "a legend comes where there is no file of it"
    legend = subprocess.run([TOP / "deploy" / "legend", path], check=True, capture_output=True).stdout
    (folder / "legend.json").write_bytes(legend)
    _, kind, body = ask("SERVICE=WMS&VERSION=1.1.1&REQUEST=GetLegendGraphic&LAYER=west&FORMAT=image/png")
    if kind != "image/png" or (10, 20, 30, 255) not in {colour for _, colour in pixels(body).getcolors(100_000)}:
        yield f"the legend of the west is {kind} {body[:100]}"
    if not {"west", "north"} == {*json.loads(legend)["layers"]}:
        yield "deploy/legend writes other layers"


def main():
    if len(sys.argv) != 2:
        sys.exit(__doc__.split("\n")[0])
    if importlib.util.find_spec("PIL") is None:
        sys.exit(print("older_version: skipped: python3-pil is missing") or 77)
    with tempfile.TemporaryDirectory() as name:
        folder = pathlib.Path(name)
        (folder / "sides.map").write_text(MAP)
        words = [sys.argv[1], "serve", str(folder / "sides.map"), "--port", "0", "--admin-port", "0"]
        with subprocess.Popen(words, stdout=subprocess.PIPE) as server:
            try:
                os.environ["KESMOCH_SERVER"] = f"http://127.0.0.1:{ports_of(server.stdout.readline())[0]}/wms"
                wrong = [*try_pictures(), *try_document(), *try_faults(), *try_legend(folder / "sides.map", folder)]
            finally:
                server.kill()
    print("\n".join([*wrong, f"older_version: {len(wrong)} things otherwise than they should be"]))
    sys.exit(1 if wrong else 0)


if __name__ == "__main__":
    main()
