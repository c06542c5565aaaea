"""This server, without smoothing and with it, and MapServer 8.0 with the same features, for the scripts that compare them.

MapServer has them as shapefiles with an index of their own each (ogr2ogr, shptree), and runs as one FastCGI process behind
nginx. The built program reads them from its mapfile, and runs with one worker and no proxy. Debian's cgi-mapserver, gdal-bin,
nginx-light or nginx, spawn-fcgi and fonts-dejavu-core are needed.
"""
import contextlib
import http.client
import json
import math
import os
import pathlib
import random
import re
import shutil
import socket
import subprocess
import sys
import tempfile
import time

sys.path.insert(0, str(pathlib.Path(__file__).resolve().parents[2] / "tests" / "lib"))

from painted import scattered_lines, scattered_points
from painting import read_places
from served import ports_of
from workloads import random_labels, winding

DEMO = pathlib.Path(__file__).resolve().parents[2] / "demo"
PPM, PNG = "image/x-portable-pixmap", "image/png"
HALF = 20037508.342789244

SERVICE = """WEB METADATA "wms_title" "bench" "wms_onlineresource" "http://localhost/wms?" "wms_enable_request" "*"
"wms_srs" "CRS:84 EPSG:4326 EPSG:3857" "wms_feature_info_mime_type" "text/plain" END END
"""
MAPSERVER = """IMAGECOLOR 255 255 255 UNITS DD MAXSIZE 4096 SHAPEPATH "." FONTSET "fonts.list" PROJECTION "init=epsg:4326" END
OUTPUTFORMAT NAME "ppm" DRIVER "GDAL/PNM" MIMETYPE "image/x-portable-pixmap" IMAGEMODE RGB EXTENSION "ppm" END
OUTPUTFORMAT NAME "png" DRIVER "AGG/PNG" MIMETYPE "image/png" IMAGEMODE RGB EXTENSION "png" END
SYMBOL NAME "square" TYPE VECTOR FILLED TRUE POINTS 0 0 1 0 1 1 0 1 0 0 END END
"""
OURS = f'CONFIG "WMS_FORMATS" "{PNG}" CONFIG "WMS_CRS" "EPSG:3857"\n'
# The maps of ours: the font of each, and what else it says. Pixels of the smoothed map's font are fine ones.
STEPPED, SMOOTHED = "ours.map", "smoothed.map"
MAPS = {STEPPED: 'CONFIG "LABELFONT" "6x13.bdf"\n', SMOOTHED: 'CONFIG "LABELFONT" "24x52.bdf" CONFIG "WMS_SMOOTHING" "4"\n'}
NGINX = """pid nginx.pid; error_log error.log; worker_processes 1; daemon off;
events {{ }}
http {{ access_log off; client_body_temp_path body; fastcgi_temp_path fastcgi; proxy_temp_path proxy; uwsgi_temp_path uwsgi;
scgi_temp_path scgi; keepalive_requests 1000000; fastcgi_buffers 1024 16k;
upstream maps {{ server 127.0.0.1:{maps}; keepalive 1; }}
server {{ listen 127.0.0.1:{port}; location / {{ fastcgi_pass maps; fastcgi_keep_conn on;
fastcgi_param MS_MAPFILE {folder}/bench.map; fastcgi_param QUERY_STRING $query_string;
fastcgi_param REQUEST_METHOD GET; fastcgi_param SERVER_NAME localhost; fastcgi_param SERVER_PORT 80; fastcgi_param SCRIPT_NAME /wms; }} }} }}
"""


class Layer:
    """A layer of both mapfiles: the text of its classes in each, and where its features are."""

    def __init__(self, name, kind, data, ours, theirs=None):
        self.name, self.kind, self.data, self.ours, self.theirs = name, kind, data, ours, theirs or ours


def ranked(style):
    """Four classes, each by a logical expression on an item."""
    colours = ["200 30 30", "30 150 30", "30 30 200", "120 120 30"]
    return "\n".join(f"CLASS EXPRESSION ([rank] = {rank}) STYLE {style} COLOR {colour} SIZE 5 END END" for rank, colour in enumerate(colours))


FILL, SQUARE = "CLASS STYLE COLOR 110 160 60 END END", 'SYMBOL "square"'
LAYERS = [
    Layer("filled", "POLYGON", "countries", FILL),
    Layer("outlined", "POLYGON", "countries", "CLASS STYLE COLOR 110 160 60 OUTLINECOLOR 20 20 20 WIDTH 1 END END"),
    Layer("borders", "POLYGON", "countries", "CLASS STYLE OUTLINECOLOR 20 20 20 WIDTH 1 END END"),
    Layer("lines", "LINE", "lines", "CLASS STYLE COLOR 10 20 30 WIDTH 1 END END"),
    Layer("squares", "POINT", "squares", "CLASS STYLE COLOR 10 20 30 SIZE 5 END END", f"CLASS STYLE {SQUARE} COLOR 10 20 30 SIZE 5 END END"),
    Layer(
        "labels",
        "POINT",
        "labels",
        "CLASS LABEL COLOR 10 20 30 POSITION AUTO END END",
        'CLASS LABEL TYPE TRUETYPE FONT "mono" SIZE 8 COLOR 10 20 30 POSITION AUTO PARTIALS FALSE END END',
    ),
    Layer("ranked", "POINT", "ranked", ranked(""), ranked(SQUARE)),
    Layer("coasts", "POLYGON", "coasts", FILL),
]


def countries_of(world):
    """The rings of each feature of the first layer."""
    layer = re.split(r"(?m)^\s*LAYER$", world)[1]
    for feature in re.split(r"(?m)^\s*FEATURE\b", layer)[1:]:
        rings = []
        for points in re.findall(r"POINTS\s([-\d.\s]+)END", feature):
            numbers = list(map(float, points.split()))
            rings.append(list(zip(numbers[::2], numbers[1::2])))
        yield rings


def closed(ring):
    return ring if ring[0] == ring[-1] else ring + ring[:1]


def coasts():
    """The rings of demo/world.map with more than 200 times as many vertices, as table.py has them."""
    for _, rings in read_places((DEMO / "world.map").read_text(), "countries"):
        for ring in rings:
            yield [(x / 1e6, y / 1e6) for x, y in winding(ring, 234)]


def data_of(world, wanted):
    """The features of each kind of data that is wanted: the geometry of GeoJSON, and their item."""
    places = [((x / 1e6, y / 1e6), text, rank) for (x, y), text, rank in random_labels(43_645)]
    all_of_it = {
        "countries": (("MultiPolygon", [[closed(ring)] for ring in rings], ("name", f"c{k}")) for k, rings in enumerate(countries_of(world))),
        "lines": (("LineString", part, ("name", f"l{k}")) for k, part in enumerate(scattered_lines(20_000))),
        "squares": (("Point", part[0], ("name", f"p{k}")) for k, part in enumerate(scattered_points(20_000))),
        "labels": (("Point", place, ("name", text)) for place, text, _ in places[:2_000]),
        "ranked": (("Point", place, ("rank", str(rank))) for place, _, rank in places),
        "coasts": (("MultiPolygon", [[closed(ring)]], ("name", f"r{k}")) for k, ring in enumerate(coasts())),
    }
    return {name: list(features) for name, features in all_of_it.items() if name in wanted}


def write_shapefiles(folder, data):
    """Writes features as shapefiles, by their names."""
    for name, features in data.items():
        table = [
            {"type": "Feature", "geometry": {"type": kind, "coordinates": at}, "properties": dict([item])}
            for kind, at, item in features
        ]
        source = folder / f"{name}.json"
        source.write_text(json.dumps({"type": "FeatureCollection", "features": table}))
        subprocess.run(["ogr2ogr", "-f", "ESRI Shapefile", f"{folder}/{name}.shp", source], check=True, stderr=subprocess.DEVNULL)
        source.unlink()
        subprocess.run(["shptree", f"{folder}/{name}"], check=True, stdout=subprocess.DEVNULL)


def parts_of(kind, at):
    """The vertices of each part of a geometry."""
    return [ring for (ring,) in at] if kind == "MultiPolygon" else [at] if kind == "LineString" else [[at]]


def inline(features):
    """The features as a mapfile of ours has them."""
    for kind, at, (_, text) in features:
        parts = "".join("POINTS\n" + "".join(f"{x:.6f} {y:.6f}\n" for x, y in part) + "END\n" for part in parts_of(kind, at))
        yield f'FEATURE ITEMS "{text}"\n{parts}END\n'


def layer_block(layer, body, classes):
    label = 'LABELITEM "name"\n' if layer.name == "labels" else ""
    return f'LAYER NAME "{layer.name}" TYPE {layer.kind} STATUS ON TEMPLATE "t.html"\n{label}{body}{classes}\nEND\n'


def write_mapfiles(folder, data):
    """The mapfiles of ours and MapServer's, of the layers whose data are there, and what they need beside them."""
    layers = [layer for layer in LAYERS if layer.data in data]
    head = f'MAP NAME "bench" EXTENT -180 -90 180 90\n{SERVICE}'
    service = 'METADATA "wms_title" "a" "gml_include_items" "all" "wms_include_items" "all" END PROJECTION "init=epsg:4326" END\n'
    theirs = "".join(layer_block(layer, f'DATA "{layer.data}"\n{service}', layer.theirs) for layer in layers)
    (folder / "bench.map").write_text(f"{head}{MAPSERVER}{theirs}END\n")
    (folder / "fonts.list").write_text("mono /usr/share/fonts/truetype/dejavu/DejaVuSansMono.ttf\n")
    for name, config in MAPS.items():
        with open(folder / name, "w") as file:
            file.write(f"{head}{OURS}{config}")
            for layer in layers:
                features = data[layer.data]
                file.write(layer_block(layer, f'PROCESSING "ITEMS={features[0][2][0]}"\n' + "".join(inline(features)), layer.ours))
            file.write("END\n")
    for font in ("6x13.bdf", "24x52.bdf"):
        shutil.copy(DEMO / font, folder)


def free_port():
    """A port that nothing listens on."""
    with socket.socket() as taken:
        taken.bind(("127.0.0.1", 0))
        return taken.getsockname()[1]


class Server:
    """A server that is asked over one connection, and the process whose time is counted."""

    def __init__(self, name, port, process, others=()):
        self.name, self.process, self.others = name, process, others
        self.connection = http.client.HTTPConnection("127.0.0.1", port, timeout=120)

    def seconds(self):
        """What its threads took of the processor."""
        threads = pathlib.Path(f"/proc/{self.process.pid}/task").iterdir()
        return sum(int((thread / "schedstat").read_text().split()[0]) for thread in threads) / 1e9

    def ask(self, query):
        """The status, the type and the body of an answer."""
        self.connection.request("GET", "/wms?SERVICE=WMS&VERSION=1.3.0&" + query)
        answer = self.connection.getresponse()
        return answer.status, answer.getheader("Content-Type"), answer.read()

    def each(self, queries, long):
        """The milliseconds of a request, of rounds that go on for so long."""
        for query in queries:
            self.ask(query)
        count, before, end = 0, self.seconds(), time.monotonic() + long
        while time.monotonic() < end:
            for query in queries:
                self.ask(query)
            count += len(queries)
        return (self.seconds() - before) / count * 1000

    def stop(self):
        """Ends the server, and what stands before it."""
        for process in self.others:
            process.terminate()
            process.wait()
        self.process.kill()
        self.process.wait()


def wait_for(port):
    """Waits until something listens on a port, at most ten seconds."""
    for _ in range(200):
        try:
            socket.create_connection(("127.0.0.1", port)).close()
            return
        except OSError:
            time.sleep(0.05)
    sys.exit(f"nothing listens on port {port}")


def start_mapserver(folder):
    """MapServer behind nginx, once both listen."""
    maps, port = free_port(), free_port()
    (folder / "mapserver.conf").write_text("CONFIG\nENV\nEND\nEND\n")
    environment = dict(os.environ, MAPSERVER_CONFIG_FILE=str(folder / "mapserver.conf"))
    words = ["spawn-fcgi", "-n", "-a", "127.0.0.1", "-p", str(maps), "--", shutil.which("mapserv")]
    process = subprocess.Popen(words, cwd=folder, env=environment)
    (folder / "nginx.conf").write_text(NGINX.format(maps=maps, port=port, folder=folder))
    nginx = subprocess.Popen(["nginx", "-p", str(folder), "-c", "nginx.conf"], stderr=subprocess.DEVNULL)
    wait_for(maps)
    wait_for(port)
    return Server("MapServer", port, process, [nginx])


def start_ours(program, folder, name):
    """This server, once it listens."""
    words = [program, "serve", name, "--port", "0", "--admin-port", "0", "--workers", "1", "--idle", "60000"]
    process = subprocess.Popen(words, cwd=folder, stdout=subprocess.PIPE)
    found = ports_of(process.stdout.readline())
    if not found:
        sys.exit("the program serves nothing")
    return Server(name, found[0], process)


@contextlib.contextmanager
def servers(program, world, names, maps):
    """A server of ours for each of these maps, and MapServer, with the layers of these names, whose countries are those of a mapfile."""
    with tempfile.TemporaryDirectory() as name:
        folder = pathlib.Path(name)
        data = data_of(world, {layer.data for layer in LAYERS if layer.name in names})
        write_shapefiles(folder, data)
        write_mapfiles(folder, data)
        del data
        with contextlib.ExitStack() as stack:
            theirs = start_mapserver(folder)
            stack.callback(theirs.stop)
            started = []
            for map in maps:
                started.append(start_ours(os.path.abspath(program), folder, map))
                stack.callback(started[-1].stop)
            yield *started, theirs


def both(program, world, names):
    return servers(program, world, names, [STEPPED])


def picture(layers, box, size, system="CRS:84"):
    sides = ",".join(f"{side:.9f}" for side in box)
    return f"REQUEST=GetMap&LAYERS={layers}&STYLES=&CRS={system}&BBOX={sides}&WIDTH={size[0]}&HEIGHT={size[1]}&FORMAT={PPM}"


def as_png(query):
    return query.replace(PPM, PNG)


def tile_at(zoom, place):
    """The column and the row of the tile of web mercator that a place is in."""
    across = (place[0] + 180) / 360
    down = (1 - math.asinh(math.tan(math.radians(place[1]))) / math.pi) / 2
    return zoom, math.floor(across * 2**zoom), math.floor(down * 2**zoom)


def tiles(world):
    """60 tiles of zooms 0 to 12: five from zoom 2 on, round vertices of the countries that lie in different tiles there."""
    vertices = [place for rings in countries_of(world) for ring in rings for place in ring if abs(place[1]) < 80]
    chosen, found = random.Random(60), {}
    while len(found) < 5:
        place = chosen.choice(vertices)
        found.setdefault(tile_at(2, place), place)
    first = [(0, 0, 0)] + [(1, column, row) for column in range(2) for row in range(2)]
    return first + [tile_at(zoom, place) for zoom in range(2, 13) for place in found.values()]


def metres_of(tile):
    """The box of a tile in metres: west, south, east, north."""
    zoom, column, row = tile
    side = 2 * HALF / 2**zoom
    return column * side - HALF, HALF - (row + 1) * side, (column + 1) * side - HALF, HALF - row * side


def degrees_of(tile):
    """The same part of the world in degrees."""
    west, south, east, north = metres_of(tile)
    latitudes = [math.degrees(math.atan(math.sinh(side / HALF * math.pi))) for side in (south, north)]
    return west / HALF * 180, latitudes[0], east / HALF * 180, latitudes[1]
