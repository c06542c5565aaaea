#!/usr/bin/env python3
"""Tries what clients of the proxy of deploy/nginx.conf may keep, and where it sends them. It needs Debian's nginx-light.

Usage: proxy_keeps.py

Two servers that are played stand behind it, one for the map and one for deploy/formats; a batch changes the map's picture. A
picture has to come with an ETag, a request with that has to get 304 before the batch, and the new picture after it, once
deploy/empty-cache was called as deploy/batch --proxy does. Where deploy/formats has no answer the map's server is asked, and
the next query comes to deploy/formats again. Each thing that is otherwise is written, and the script then ends with 1.

Gate: needs nginx; 10 s
"""
import http.client
import http.server
import os
import pathlib
import subprocess
import sys
import tempfile
import threading
import time

TOP = pathlib.Path(__file__).resolve().parents[2]
PORT = 18_997
PICTURE = "VERSION=1.3.0&REQUEST=GetMap&LAYERS=a&FORMAT=image/x-portable-pixmap"
FAULT = "VERSION=1.3.0&REQUEST=GetMap&LAYERS=fault"

# Where a query has to come to.
ROUTES = [
    ("map", PICTURE),
    ("formats", "VERSION=1.3.0&REQUEST=GetMap&FORMAT=image/png"),
    ("formats", "version=1.3.0&request=GetMap&format=image%2Fjpeg"),
    ("formats", "SERVICE=WMS&VERSION=1.1.1&REQUEST=GetMap&FORMAT=image/x-portable-pixmap"),
    ("formats", "SERVICE=WMS&version=1.1.0&REQUEST=GetMap"),
    ("formats", "SERVICE=WMS&REQUEST=GetCapabilities"),
    ("formats", "REQUEST=GetLegendGraphic&LAYER=a"),
    ("formats", "VERSION=1.3.0&REQUEST=GetFeatureInfo&QUERY_LAYERS=a"),
    ("formats", "VERSION=1.3.0&REQUEST=GetMap&FORMAT=image/x-portable-pixmap&EXCEPTIONS=INIMAGE"),
    ("map", "XVERSION=1.1.1&VERSION=1.3.0&REQUEST=GetMap"),
]
# The line by which PNG comes from the server, and where a query has to come to with it.
OWN_PNG = '"~*(^|&)format=image(/|%2F)png(&|$)" kesmoch;'
OWN_ROUTES = [
    ("map", "VERSION=1.3.0&REQUEST=GetMap&LAYERS=b&FORMAT=image/png"),
    ("map", "format=image%2Fpng&VERSION=1.3.0&REQUEST=GetMap&LAYERS=b"),
    ("formats", "VERSION=1.3.0&REQUEST=GetMap&LAYERS=b&FORMAT=image/png;%20mode=8bit"),
    ("formats", "VERSION=1.3.0&REQUEST=GetMap&LAYERS=b&FORMAT=image/webp"),
    ("formats", "VERSION=1.1.1&REQUEST=GetMap&LAYERS=b&FORMAT=image/png"),
    ("formats", "VERSION=1.3.0&REQUEST=GetMap&LAYERS=b&FORMAT=image/png&EXCEPTIONS=BLANK"),
    ("formats", "VERSION=1.3.0&REQUEST=GetFeatureInfo&QUERY_LAYERS=b&FORMAT=image/png"),
    ("formats", "REQUEST=GetLegendGraphic&LAYER=b&FORMAT=image/png"),
]


class Server(http.server.BaseHTTPRequestHandler):
    """A server that says who it is, and which batch its picture is of."""

    def do_GET(self):
        is_fault = "LAYERS=fault" in self.path
        body = f"{self.server.called} {self.server.batches}".encode()
        self.send_response(self.server.status)
        self.send_header("Content-Type", "text/xml" if is_fault else "image/x-portable-pixmap")
        self.send_header("Content-Length", str(len(body)))
        self.end_headers()
        self.wfile.write(body)

    def log_message(self, *_):
        pass


def play(called):
    server = http.server.ThreadingHTTPServer(("127.0.0.1", 0), Server)
    server.called, server.batches, server.status = called, 0, 200
    threading.Thread(target=server.serve_forever, daemon=True).start()
    return server


def configured(server, formats):
    text = (TOP / "deploy" / "nginx.conf").read_text().replace("listen 127.0.0.1:8000;", f"listen 127.0.0.1:{PORT};")
    return text.replace("127.0.0.1:8080", f"127.0.0.1:{server.server_port}").replace("127.0.0.1:8070", f"127.0.0.1:{formats.server_port}")


def ask(path, **headers):
    """The status, the fields and the body of an answer."""
    connection = http.client.HTTPConnection("127.0.0.1", PORT, timeout=10)
    connection.request("GET", path, headers={name.replace("_", "-"): value for name, value in headers.items()})
    answer = connection.getresponse()
    return answer.status, answer.headers, answer.read().decode()


def empty_cache(folder):
    """Calls deploy/empty-cache, and waits up to ten seconds until the processes of nginx that answered before are gone."""
    pid = (folder / "proxy" / "nginx.pid").read_text().strip()
    children = pathlib.Path(f"/proc/{pid}/task/{pid}/children")
    before = set(children.read_text().split())
    subprocess.run([TOP / "deploy" / "empty-cache", folder], check=True)
    for _ in range(100):
        if not before & set(children.read_text().split()):
            return
        time.sleep(0.1)


def try_pictures(folder, server):
    """What is otherwise with pictures that are kept, in words."""
    path = f"/wms?{PICTURE}"
    status, fields, body = ask(path)
    tag = fields["ETag"]
    if (status, body) != (200, "map 0") or not tag or "no-cache" not in (fields["Cache-Control"] or ""):
        yield f"a picture comes as {status} {body} with the ETag {tag} and Cache-Control {fields['Cache-Control']}"
        return
    for asked in (tag, f'"other", {tag}', tag.removeprefix("W/")):
        if (status := ask(path, If_None_Match=asked)[0]) != 304:
            yield f"If-None-Match {asked} gets {status} in place of 304"
    if (status := ask(path, If_None_Match='W/"1"')[0]) != 200:
        yield f"a tag of another edition gets {status} in place of 200"
    status, fields, _ = ask(f"/wms?{FAULT}")
    if fields["ETag"] or fields["Cache-Control"]:
        yield "an exception has an ETag or may be kept"
    server.batches += 1
    empty_cache(folder)
    status, fields, body = ask(path, If_None_Match=tag)
    if (status, body) != (200, "map 1"):
        yield f"after a batch the tag of before gets {status} {body} in place of the new picture"
    if fields["ETag"] == tag:
        yield "after a batch the ETag is that of before"


def try_routes(routes):
    for called, query in routes:
        body = ask(f"/wms?{query}")[2]
        if body.split()[0] != called:
            yield f"{query} comes to {body.split()[0]} in place of {called}"


def try_going_on(formats):
    """What is otherwise where deploy/formats has no answer for a time."""
    for number, query in enumerate(query for called, query in ROUTES if called == "formats"):
        for status, called in ((502, "map"), (200, "formats"), (503, "map"), (404, "formats")):
            formats.status = status
            found = ask(f"/wms?{query}&{number}={status}")
            if found[2].split()[0] != called:
                yield f"{query} gets {found[0]} of {found[2].split()[0]} in place of {called}, where deploy/formats answers {status}"
    formats.status = 200


def try_own_png(folder):
    """What is otherwise where the line for PNG of the server's own stands in the configuration."""
    path = folder / "nginx.conf"
    text = path.read_text()
    if f"# {OWN_PNG}" not in text:
        yield "the line for PNG isn't there"
    path.write_text(text.replace(f"# {OWN_PNG}", OWN_PNG))
    empty_cache(folder)
    yield from try_routes(OWN_ROUTES)


def try_paths(server):
    status, fields, _ = ask("/")
    if status != 302 or not fields["Location"].endswith("/viewer/"):
        yield f"/ without a query gets {status} {fields['Location']}"
    if (found := ask(f"/?{PICTURE}"))[2].split()[0] != "map":
        yield f"/ with a query gets {found[0]}"
    if (found := ask("/health"))[0] != 200 or not found[2].startswith("map"):
        yield f"/health gets {found[0]} {found[2]}"
    server.shutdown()
    server.server_close()
    time.sleep(0.2)
    if (status := ask("/health")[0]) != 502:
        yield f"/health gets {status} where the server is down"


def main():
    if len(sys.argv) > 1:
        sys.exit(__doc__)
    server, formats = play("map"), play("formats")
    with tempfile.TemporaryDirectory() as name:
        os.chmod(name, 0o755)
        folder = pathlib.Path(name)
        (folder / "proxy").mkdir()
        (folder / "nginx.conf").write_text(configured(server, formats))
        call = ["nginx", "-p", name, "-c", "nginx.conf"]
        subprocess.run(call, check=True, stderr=subprocess.DEVNULL)
        try:
            time.sleep(0.3)
            empty_cache(folder)
            wrong = [*try_pictures(folder, server), *try_routes(ROUTES), *try_going_on(formats), *try_own_png(folder), *try_paths(server)]
        finally:
            subprocess.run([*call, "-s", "stop"], check=False, stderr=subprocess.DEVNULL)
            time.sleep(0.5)
    print("\n".join([*wrong, f"proxy_keeps: {len(wrong)} things otherwise than they should be"]))
    return 1 if wrong else 0


if __name__ == "__main__":
    sys.exit(main())
