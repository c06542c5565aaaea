#!/usr/bin/python3
"""Tries deploy/formats before a server. Usage: picture_formats.py PROGRAM

Ten views of demo/world.map are asked for as PNG, 8-bit PNG and WebP, opaque and transparent, and unpacked: each pixel has
to be that of the server's own picture. So they are of demo/lakes.map, which doesn't offer PNG; where the map offers it, the
PNG has to be the server's own. The document has to name the formats and the address that was asked, a fault and a
text of features have to come as the server gave them, and a server that is down has to give 502. It prints the
processor time of a tile of 256 by 256 pixels, and ends with 1 where something is wrong. It needs gunicorn and python3-pil.
"""
import http.client
import io
import os
import re
import resource
import subprocess
import sys
import time

from PIL import Image

TOP = os.path.dirname(os.path.dirname(os.path.dirname(os.path.realpath(__file__))))
sys.path.insert(0, os.path.join(TOP, "deploy", "lib"))
sys.dont_write_bytecode = True

import wmsformats

BOXES = ["-180,-90,180,90", "-20,30,40,60", "0,40,10,50", "-80,-40,-40,0", "100,-45,160,0", "60,0,100,40", "-10,50,2,60",
         "20,-35,50,10", "-130,20,-60,60", "-5,-5,5,5"]
PICTURE = "VERSION=1.3.0&REQUEST=GetMap&LAYERS=countries,borders,small,ports&STYLES=&CRS=CRS:84&BBOX={}&WIDTH=401&HEIGHT=300&FORMAT={}&TRANSPARENT={}"
LAKES = "VERSION=1.3.0&REQUEST=GetMap&LAYERS=lakes&STYLES=&CRS=CRS:84&BBOX={}&WIDTH=401&HEIGHT=300&FORMAT={}&TRANSPARENT={}"
CLICK = ("VERSION=1.3.0&REQUEST=GetFeatureInfo&LAYERS=countries&QUERY_LAYERS=countries&STYLES=&CRS=CRS:84&BBOX=0,40,20,60&WIDTH=100"
         "&HEIGHT=100&FORMAT=image/png&INFO_FORMAT=text/plain&I=50&J=50")


def get(port, query):
    connection = http.client.HTTPConnection("127.0.0.1", port, timeout=60)
    connection.request("GET", "/wms?" + query, headers={"Connection": "close"})
    answer = connection.getresponse()
    body = answer.read()
    connection.close()
    return answer.status, answer.headers["Content-Type"], body


def until_answered(port):
    for _ in range(100):
        try:
            return get(port, "")
        except OSError:
            time.sleep(0.1)
    raise SystemExit("picture_formats: nothing answers")


def pictures(server, formats_port, query=PICTURE, boxes=BOXES):
    """How many pictures were compared, and how many differ."""
    count = wrong = 0
    for box in boxes:
        for clear in ("FALSE", "TRUE"):
            plain = "image/x-portable-arbitrarymap" if clear == "TRUE" else "image/x-portable-pixmap"
            wanted = wmsformats.picture_of(get(server, query.format(box, plain, clear))[2])
            for form in ("image/png", "image/png;%20mode=8bit", "image/webp"):
                _, kind, body = get(formats_port, query.format(box, form, clear))
                came = Image.open(io.BytesIO(body)).convert(wanted.mode)
                # What is clear has no colour that could differ.
                same = came.tobytes() == wanted.tobytes() or wanted.mode == "RGBA" and all(
                    one == other or one[3] == other[3] == 0 for one, other in zip(came.getdata(), wanted.getdata()))
                count, wrong = count + 1, wrong + (kind != form.split(";")[0] or not same)
    return count, wrong


def others(server, formats_port):
    """What else is wrong, in words."""
    document = get(formats_port, "REQUEST=GetCapabilities")[2].decode()
    if set(re.findall('href="(http[^"]*wms[^"]*)"', document)) != {f"http://127.0.0.1:{formats_port}/wms?"}:
        yield "the document has another address"
    if re.findall("<Format>(.*)</Format>", document.split("<GetMap>")[1].split("</GetMap>")[0])[:4] != list(wmsformats.FORMATS):
        yield "the document has other formats"
    own = [PICTURE.format(box, "image/png", clear) for box in BOXES for clear in ("FALSE", "TRUE")]
    for query in (*own, PICTURE.format("0,0,1,1", "image/gif", "FALSE"), CLICK.replace("image/png", "image/x-portable-pixmap"), "x"):
        if get(server, query) != get(formats_port, query):
            yield f"another answer to {query}"
    if b"Germany" not in get(formats_port, CLICK)[2]:
        yield "no features at a click with FORMAT=image/png"


def processor_of(what, times=40):
    begin = resource.getrusage(resource.RUSAGE_SELF)
    for _ in range(times):
        what()
    end = resource.getrusage(resource.RUSAGE_SELF)
    return (end.ru_utime + end.ru_stime - begin.ru_utime - begin.ru_stime) / times * 1000


def start(name, formats_port):
    """A server of a map of demo/, its port, and deploy/formats before it."""
    words = [os.path.abspath(sys.argv[1]), "serve", os.path.join(TOP, "demo", name), "--port", "0", "--admin-port", "0", "--idle", "20"]
    served = subprocess.Popen(words, stdout=subprocess.PIPE)
    server = int(re.search(rb":(\d+) ", served.stdout.readline())[1])
    words = [os.path.join(TOP, "deploy", "formats"), "--server", f"http://127.0.0.1:{server}/wms", "--port", str(formats_port)]
    packing = subprocess.Popen(words, stdout=subprocess.DEVNULL)
    until_answered(formats_port)
    return served, server, packing


def without_own():
    """How many pictures of a map that doesn't offer PNG were compared, and how many differ."""
    formats_port = 18072
    served, server, packing = start("lakes.map", formats_port)
    try:
        return pictures(server, formats_port, LAKES, BOXES[1:3])
    finally:
        packing.terminate()
        served.terminate()
        packing.wait()
        served.wait()


def main():
    if len(sys.argv) != 2:
        sys.exit(__doc__.split("\n")[0])
    formats_port = 18071
    served, server, packing = start("world.map", formats_port)
    try:
        count, differing = (sum(both) for both in zip(pictures(server, formats_port), without_own()))
        wrong = list(others(server, formats_port))
        tile = wmsformats.picture_of(get(server, PICTURE.format("0,40,20,60", "image/x-portable-pixmap", "FALSE").replace("401", "256").replace("300", "256"))[2])
        for name, (_, pack, _) in wmsformats.FORMATS.items():
            print(f"{name}: {processor_of(lambda: pack(tile)):.1f} ms, {len(pack(tile)):,} bytes")
        served.terminate()
        served.wait()
        if get(formats_port, CLICK)[0] != 502:
            wrong.append("no 502 where the server is down")
    finally:
        packing.terminate()
        served.terminate()
    print(f"{count} pictures, {differing} with other pixels", *wrong, sep="\n")
    sys.exit(1 if differing or wrong else 0)


if __name__ == "__main__":
    main()
