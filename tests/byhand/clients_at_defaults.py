#!/usr/bin/python3
"""Tries clients as they are without an option, on deploy/formats before a server. Usage: clients_at_defaults.py PROGRAM

Leaflet and OpenLayers run in a browser, OWSLib, GDAL, QGIS and MapProxy in processes of their own. Of each it prints how
many tiles or pictures came whole and showed something. What isn't installed is skipped by name, and so are web mercator's
tiles where the server has no EPSG:3857. It needs Debian's gunicorn and python3-pil, and of chromium, libjs-leaflet,
libjs-openlayers, python3-owslib, gdal-bin, python3-qgis and mapproxy what is to be tried. It ends with 1 where a client that
was tried got nothing.
"""
import functools
import http.server
import importlib.util
import os
import pathlib
import re
import shutil
import socket
import subprocess
import sys
import tempfile
import threading
import time
import urllib.request

sys.path.insert(0, str(pathlib.Path(__file__).resolve().parents[1] / "lib"))

from browsers import Files, LEAFLET_HEAD, OPENLAYERS_HEAD, SCRIPTS
from served import ports_of

TOP = pathlib.Path(__file__).resolve().parents[2]
MAP = """MAP
NAME "clients" EXTENT -20 30 30 60
CONFIG "WMS_FORMATS" "image/png" CONFIG "WMS_CRS" "EPSG:3857"
WEB METADATA "wms_title" "Clients" "wms_onlineresource" "http://127.0.0.1:{port}/wms?" END END
LAYER NAME "land" TYPE POLYGON TEMPLATE "x" PROCESSING "ITEMS=name"
  CLASS STYLE COLOR 10 120 60 END END
  FEATURE ITEMS "all of it" POINTS -175 -80 -175 80 175 80 175 -80 END END
END
END
"""
PAGE = """<!DOCTYPE html><html><head>{head}</head><body><div id="map" style="width:512px;height:512px"></div><p id="count">0 0</p>
<script>let came = 0, failed = 0; const count = (good) => {{ good ? came++ : failed++; document.getElementById("count").textContent = came + " " + failed; }};
{script}</script></body></html>"""
LEAFLET = """const map = L.map("map"{crs}).setView([48, 8], 4);
L.tileLayer.wms("{address}", {{ layers: "land" }}).on("tileload", () => count(true)).on("tileerror", () => count(false)).addTo(map);"""
OPENLAYERS = """const map = new OpenLayers.Map("map");
const layer = new OpenLayers.Layer.WMS("land", "{address}", {{ layers: "land" }});
layer.events.register("tileloaded", null, () => count(true)); layer.events.register("tileerror", null, () => count(false));
map.addLayer(layer); map.setCenter(new OpenLayers.LonLat(8, 48), 5);"""
OWSLIB = """import sys
from owslib.wms import WebMapService
service = WebMapService(sys.argv[1])
layer = next(iter(service.contents))
form = service.getOperationByName('GetMap').formatOptions[0]
picture = service.getmap(layers=[layer], srs='EPSG:4326', bbox=service[layer].boundingBoxWGS84, size=(300, 180), format=form).read()
open(sys.argv[2], 'wb').write(picture)"""
QGIS = """import sys
from qgis.core import QgsApplication, QgsMapRendererParallelJob, QgsMapSettings, QgsRasterLayer
from qgis.PyQt.QtCore import QSize
application = QgsApplication([], False)
application.initQgis()
layer = QgsRasterLayer("crs=EPSG:4326&format=image/png&layers=land&styles&url=" + sys.argv[1], "land", "wms")
settings = QgsMapSettings()
settings.setLayers([layer]); settings.setDestinationCrs(layer.crs()); settings.setExtent(layer.extent()); settings.setOutputSize(QSize(300, 180))
job = QgsMapRendererParallelJob(settings)
job.start(); job.waitForFinished(); job.renderedImage().save(sys.argv[2])"""
COLOUR, SLACK = (10, 120, 60), 12


class Missing(Exception):
    """Why a client is skipped."""


def free_port():
    with socket.socket() as taken:
        taken.bind(("127.0.0.1", 0))
        return taken.getsockname()[1]


def shows(path):
    """Whether a picture has the colour of the land."""
    from PIL import Image

    try:
        pixels = Image.open(path).convert("RGB").getcolors(1_000_000)
    except OSError:
        return False
    return any(all(abs(one - other) <= SLACK for one, other in zip(colour, COLOUR)) for _, colour in pixels)


def in_browser(head, script, library, folder):
    """How many tiles came, and how many failed, on a page."""
    browser = shutil.which("chromium")
    if browser is None or not (SCRIPTS / library).exists():
        raise Missing(f"chromium or libjs-{library.split('/')[0]} is missing")
    (folder / "page.html").write_text(PAGE.format(head=head, script=script))
    server = http.server.ThreadingHTTPServer(("127.0.0.1", 0), functools.partial(Files, directory=str(folder)))
    threading.Thread(target=server.serve_forever, daemon=True).start()
    words = [browser, "--headless", "--no-sandbox", "--disable-gpu", f"--user-data-dir={folder}/browser", "--virtual-time-budget=20000", "--dump-dom"]
    ran = subprocess.run([*words, f"http://127.0.0.1:{server.server_port}/page.html"], capture_output=True, text=True, timeout=200)
    server.shutdown()
    found = re.search(r'id="count">(\d+) (\d+)<', ran.stdout)
    return (int(found[1]), int(found[2])) if found else (0, 0)


def by_python(module, package, source, address, folder, **more):
    if importlib.util.find_spec(module) is None:
        raise Missing(f"{package} is missing")
    picture = folder / f"{module}.png"
    ran = subprocess.run([sys.executable, "-c", source, address, str(picture)], capture_output=True, text=True, timeout=200, env={**os.environ, **more})
    if not picture.exists():
        print(ran.stderr.strip()[-400:])
    return (1, 0) if shows(picture) else (0, 1)


def by_gdal(address, folder):
    if shutil.which("gdalinfo") is None:
        raise Missing("gdal-bin is missing")
    ran = subprocess.run(["gdalinfo", f"WMS:{address}"], capture_output=True, text=True, timeout=100)
    found = re.search(r"SUBDATASET_1_NAME=(\S+)", ran.stdout)
    if found is None:
        print((ran.stdout + ran.stderr)[-300:])
        return 0, 1
    picture = folder / "gdal.png"
    subprocess.run(["gdal_translate", "-q", "-of", "PNG", "-outsize", "300", "180", found[1], picture], capture_output=True, timeout=200)
    return (1, 0) if shows(picture) else (0, 1)


def by_mapproxy(server, folder):
    """A tile of MapProxy's, as JPEG, by WMS 1.1.1 with web mercator."""
    if shutil.which("mapproxy-util") is None:
        raise Missing("mapproxy is missing")
    tiles, port = folder / "tiles", free_port()
    tiles.mkdir()
    words = [TOP / "deploy" / "mapproxy", server, tiles / "mapproxy.yaml", "--serve", str(port)]
    process = subprocess.Popen(list(map(str, words)), stdout=subprocess.DEVNULL, stderr=subprocess.DEVNULL, start_new_session=True)
    query = "SERVICE=WMS&VERSION=1.1.1&REQUEST=GetMap&LAYERS=land&STYLES=&SRS=EPSG:3857&BBOX=0,5009377,2504688,7514065&WIDTH=256&HEIGHT=256&FORMAT=image/jpeg"
    try:
        for _ in range(150):
            try:
                with urllib.request.urlopen(f"http://127.0.0.1:{port}/service?{query}", timeout=60) as answer:
                    (folder / "mapproxy.jpeg").write_bytes(answer.read())
                break
            except OSError:
                time.sleep(0.2)
    finally:
        os.killpg(process.pid, 15)
        process.wait()
    return (1, 0) if shows(folder / "mapproxy.jpeg") else (0, 1)


def clients(address, server, folder, has_mercator):
    """Each client by its name, with what tries it."""
    def mercator():
        if not has_mercator:
            raise Missing("the server has no EPSG:3857")
        return in_browser(LEAFLET_HEAD, LEAFLET.format(crs="", address=address), "leaflet/leaflet.min.js", folder)

    yield "Leaflet", mercator
    degrees = LEAFLET.format(crs=", { crs: L.CRS.EPSG4326 }", address=address)
    yield "Leaflet in degrees", lambda: in_browser(LEAFLET_HEAD, degrees, "leaflet/leaflet.min.js", folder)
    yield "OpenLayers 2", lambda: in_browser(OPENLAYERS_HEAD, OPENLAYERS.format(address=address), "openlayers/OpenLayers.js", folder)
    yield "OWSLib", lambda: by_python("owslib", "python3-owslib", OWSLIB, address, folder)
    yield "GDAL", lambda: by_gdal(address, folder)
    yield "QGIS", lambda: by_python("qgis", "python3-qgis", QGIS, address, folder, QT_QPA_PLATFORM="offscreen")
    yield "MapProxy", lambda: by_mapproxy(server, folder)


def try_all(address, server, folder):
    with urllib.request.urlopen(f"{address}SERVICE=WMS&REQUEST=GetCapabilities", timeout=60) as answer:
        has_mercator = b"EPSG:3857" in answer.read()
    wrong = 0
    for name, work in clients(address, server, folder, has_mercator):
        try:
            came, failed = work()
        except Missing as why:
            print(f"{name}: skipped: {why}", flush=True)
            continue
        wrong += came == 0 or failed > 0
        print(f"{name}: {came} came, {failed} didn't", flush=True)
    return wrong


def until_answered(address):
    for _ in range(150):
        try:
            return urllib.request.urlopen(address, timeout=60).close()
        except OSError:
            time.sleep(0.2)
    sys.exit("clients_at_defaults: nothing answers")


def main():
    if len(sys.argv) != 2:
        sys.exit(__doc__.split("\n")[0])
    port = free_port()
    with tempfile.TemporaryDirectory(ignore_cleanup_errors=True) as name:
        folder = pathlib.Path(name)
        (folder / "clients.map").write_text(MAP.format(port=port))
        words = [sys.argv[1], "serve", str(folder / "clients.map"), "--port", "0", "--admin-port", "0"]
        server = subprocess.Popen(words, stdout=subprocess.PIPE)
        inner = f"http://127.0.0.1:{ports_of(server.stdout.readline())[0]}/wms"
        formats = subprocess.Popen([TOP / "deploy" / "formats", "--server", inner, "--port", str(port), "--workers", "2"], stdout=subprocess.DEVNULL)
        try:
            address = f"http://127.0.0.1:{port}/wms?"
            until_answered(address)
            wrong = try_all(address, inner, folder)
        finally:
            for process in (formats, server):
                process.terminate()
                process.wait()
    sys.exit(1 if wrong else 0)


if __name__ == "__main__":
    main()
