#!/usr/bin/python3
"""Tries Leaflet and OpenLayers in web mercator, on the server itself. Usage: clients_in_mercator.py PROGRAM [FOLDER]

A page of each, in Chromium, shows demo/world.map as PNG tiles by WMS 1.3.0 in EPSG:3857. Then the script clicks by a mouse event
on places of known countries, and the page asks for the features there. It prints how many tiles came, how many failed, and
what was found. A browser asks for texts of its page's own address alone, so that these questions go by this script;
tiles come from the server. It needs Debian's chromium, and libjs-leaflet and libjs-openlayers or one of these. With FOLDER it
writes a picture of each page. It ends with 1 where a tile failed, none came, or another country was found.
"""
import functools
import http.server
import json
import pathlib
import re
import shutil
import subprocess
import sys
import tempfile
import threading
import urllib.error
import urllib.request

sys.path.insert(0, str(pathlib.Path(__file__).resolve().parents[1] / "lib"))

from browsers import Files, LEAFLET_HEAD, OPENLAYERS_HEAD, SCRIPTS
from served import ports_of

DEMO = pathlib.Path(__file__).resolve().parents[2] / "demo"
# Longitude, latitude and country of each place; Iceland lies where a degree of latitude has more than two of longitude's.
PLACES = [(-18.5, 64.9, "Iceland"), (13.0, 51.5, "Germany"), (26.0, 64.0, "Finland"), (9.5, 34.0, "Tunisia"), (-4.0, 40.0, "Spain")]
PAGE = """<!DOCTYPE html><html><head>{head}</head><body style="margin:0"><div id="map" style="width:768px;height:768px"></div><p id="tiles"></p><p id="found"></p>
<script>
let came = 0, failed = 0, waiting = 0;
const places = {places}, found = places.map(() => "nothing");
const show = () => {{
    document.getElementById("tiles").textContent = came + " came, " + failed + " failed";
    document.getElementById("found").textContent = found.join("; ");
}};
const count = (good) => {{ good ? came++ : failed++; show(); }};
const click = (x, y) => {{
    const target = document.elementFromPoint(x, y);
    for (const kind of ["mousedown", "mouseup", "click"]) {{
        target.dispatchEvent(new MouseEvent(kind, {{ bubbles: true, cancelable: true, view: window, clientX: x, clientY: y, detail: 1 }}));
    }}
}};
let asked = 0;
const keep = (text) => {{ found[asked++] = (text.match(/name = '([^']*)'/) || ["", "no country"])[1]; show(); next(); }};
const next = () => {{ if (asked < places.length) {{ setTimeout(() => click(...pixelOf(places[asked])), 700); }} }};
{script}
setTimeout(next, 3000);
</script></body></html>"""
LEAFLET = """
const map = L.map("map", {{ zoomAnimation: false, fadeAnimation: false }}).setView([52, 5], 4);
L.tileLayer.wms("{address}", {{ layers: "countries", format: "image/png", version: "1.3.0" }})
    .on("tileload", () => count(true)).on("tileerror", () => count(false)).addTo(map);
const pixelOf = ([x, y]) => {{ const at = map.latLngToContainerPoint([y, x]); return [Math.round(at.x), Math.round(at.y)]; }};
map.on("click", (event) => {{
    const size = map.getSize(), at = event.containerPoint;
    const corner = (point) => map.options.crs.project(map.containerPointToLatLng(point));
    const low = corner([0, size.y]), high = corner([size.x, 0]);
    const query = new URLSearchParams({{ SERVICE: "WMS", VERSION: "1.3.0", REQUEST: "GetFeatureInfo", LAYERS: "countries", STYLES: "", CRS: "EPSG:3857",
        BBOX: [low.x, low.y, high.x, high.y].join(","), WIDTH: size.x, HEIGHT: size.y, FORMAT: "image/png",
        QUERY_LAYERS: "countries", INFO_FORMAT: "text/plain", I: Math.round(at.x), J: Math.round(at.y) }});
    fetch("/wms?" + query).then((answer) => answer.text()).then(keep, keep);
}});"""
OPENLAYERS = """
const map = new OpenLayers.Map("map", {{ projection: "EPSG:3857", units: "m", maxExtent: [-20037508.342789, -20037508.342789, 20037508.342789, 20037508.342789],
    maxResolution: 156543.033928, numZoomLevels: 13, zoomMethod: null }});
const layer = new OpenLayers.Layer.WMS("world", "{address}", {{ layers: "countries", format: "image/png", version: "1.3.0" }});
layer.events.register("tileloaded", null, () => count(true));
layer.events.register("tileerror", null, () => count(false));
map.addLayer(layer);
const metres = (x, y) => new OpenLayers.LonLat(x * 111319.49079327358, Math.log(Math.tan(Math.PI / 4 + y * Math.PI / 360)) * 6378137);
map.setCenter(metres(5, 52), 4);
const pixelOf = ([x, y]) => {{ const at = map.getPixelFromLonLat(metres(x, y)); return [Math.round(at.x), Math.round(at.y)]; }};
const control = new OpenLayers.Control.WMSGetFeatureInfo({{ url: "/wms", layerUrls: ["{address}"], layers: [layer], infoFormat: "text/plain", maxFeatures: 1 }});
control.events.register("getfeatureinfo", null, (event) => keep(event.text));
map.addControl(control);
control.activate();"""
CLIENTS = [("Leaflet", "leaflet/leaflet.min.js", LEAFLET_HEAD, LEAFLET), ("OpenLayers 2", "openlayers/OpenLayers.js", OPENLAYERS_HEAD, OPENLAYERS)]


class Page(Files):
    """The files of a page, and the server's answers at the page's own address."""

    server_address_of_maps = ""

    def do_GET(self):
        if not self.path.startswith("/wms?"):
            return super().do_GET()
        with urllib.request.urlopen(self.server_address_of_maps + self.path, timeout=60) as answer:
            body = answer.read()
            self.send_response(200)
            self.send_header("Content-Type", answer.headers["Content-Type"])
            self.send_header("Content-Length", str(len(body)))
            self.end_headers()
            self.wfile.write(body)


def shown(folder, words, address):
    browser = [shutil.which("chromium"), "--headless", "--no-sandbox", "--disable-gpu", "--hide-scrollbars", f"--user-data-dir={folder}/browser", "--window-size=768,840", "--virtual-time-budget=60000"]
    return subprocess.run([*browser, *words, address], capture_output=True, text=True, timeout=300).stdout


def tried(client, maps, folder, pictures):
    """What a page of a client shows at its end; none where something is missing."""
    name, library, head, script = client
    if shutil.which("chromium") is None or not (SCRIPTS / library).exists():
        return None
    text = PAGE.format(head=head, script=script.format(address=f"{maps}/wms?"), places=json.dumps([place[:2] for place in PLACES]))
    (folder / "page.html").write_text(text)
    handler = type("PageOfMaps", (Page,), {"server_address_of_maps": maps})
    server = http.server.ThreadingHTTPServer(("127.0.0.1", 0), functools.partial(handler, directory=str(folder)))
    threading.Thread(target=server.serve_forever, daemon=True).start()
    address = f"http://127.0.0.1:{server.server_port}/page.html"
    try:
        if pictures:
            shown(folder, [f"--screenshot={pictures.resolve()}/{name.replace(' ', '-')}.png"], address)
        return shown(folder, ["--dump-dom"], address)
    finally:
        server.shutdown()


def main():
    if len(sys.argv) not in (2, 3):
        sys.exit(__doc__.split("\n")[0])
    pictures = pathlib.Path(sys.argv[2]) if len(sys.argv) > 2 else None
    wrong = 0
    with tempfile.TemporaryDirectory(ignore_cleanup_errors=True) as name:
        folder = pathlib.Path(name)
        words = [sys.argv[1], "serve", str(DEMO / "world.map"), "--port", "0", "--admin-port", "0"]
        server = subprocess.Popen(words, stdout=subprocess.PIPE)
        try:
            maps = f"http://127.0.0.1:{ports_of(server.stdout.readline())[0]}"
            for client in CLIENTS:
                wrong += report(client[0], tried(client, maps, folder, pictures))
        finally:
            server.terminate()
            server.wait()
    return 1 if wrong else 0


def report(name, page):
    """Prints what came; whether something is wrong."""
    if page is None:
        print(f"{name}: skipped: chromium or its library is missing", flush=True)
        return False
    tiles = re.search(r'id="tiles">(\d+) came, (\d+) failed<', page)
    found = re.search(r'id="found">([^<]*)<', page)
    came, failed = (int(tiles[1]), int(tiles[2])) if tiles else (0, 0)
    countries = found[1].split("; ") if found else []
    print(f"{name}: {came} tiles came, {failed} failed; found at the clicks: {', '.join(countries)}", flush=True)
    return came == 0 or failed > 0 or countries != [place[2] for place in PLACES]


if __name__ == "__main__":
    sys.exit(main())
