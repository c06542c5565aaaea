#!/usr/bin/env python3
"""Restarts two servers behind deploy/nginx.conf and deploy/formats while clients ask. Usage: restarts.py PROGRAM

One client for each kind of request asks without a pause: pictures in each format, clicks and documents, of 1.3.0 and 1.1.1,
and /health. Meanwhile each server is ended and started again twice, the other one as soon as it listens, as
docs/OPERATING.md says of a changed mapfile. Each answer has to be a 200 of its kind, whole. It takes some ten seconds, needs
Debian's nginx-light, gunicorn and python3-pil, prints one line, behind what came otherwise, and ends with 1 where anything
did, and with 77 where a package isn't there.

Gate: PROGRAM; needs nginx; 40 s
"""
import collections
import http.client
import os
import pathlib
import signal
import socket
import subprocess
import sys
import tempfile
import threading
import time

sys.path.insert(0, str(pathlib.Path(__file__).resolve().parents[1] / "lib"))

from served import ports_of

TOP = pathlib.Path(__file__).resolve().parents[2]
# How often each is restarted, and the seconds for which it is away.
ROUNDS, AWAY = 2, 0.4
MAP = """MAP NAME "m" EXTENT 0 0 10 10
LAYER NAME "a" TYPE POLYGON TEMPLATE "x" PROCESSING "ITEMS=n"
CLASS STYLE COLOR 10 200 30 END END
FEATURE ITEMS "one" POINTS 1 1 1 9 9 9 9 1 END END
END END
"""
PICTURE = "/wms?VERSION=1.3.0&REQUEST=GetMap&LAYERS=a&STYLES=&CRS=CRS:84&BBOX=0,0,10.{},10&WIDTH=64&HEIGHT=48&FORMAT="
OLDER = "/wms?VERSION=1.1.1&REQUEST=GetMap&LAYERS=a&STYLES=&SRS=EPSG:4326&BBOX=0,0,10.{},10&WIDTH=64&HEIGHT=48&FORMAT="
CLICK = PICTURE.replace("GetMap", "GetFeatureInfo") + "image/png&QUERY_LAYERS=a&INFO_FORMAT=text/plain&I=32&J=24"
# Each kind: what is asked, the type of the answer, and a text that stands in it.
KINDS = {
    "PPM": (PICTURE + "image/x-portable-pixmap", "image/x-portable-pixmap", b"P6\n64 48\n"),
    "PAM": (PICTURE + "image/x-portable-arbitrarymap", "image/x-portable-arbitrarymap", b"P7\nWIDTH 64\n"),
    "PNG": (PICTURE + "image/png", "image/png", b"IEND"),
    "8-bit PNG": (PICTURE + "image/png;+mode=8bit", "image/png", b"IEND"),
    "JPEG": (PICTURE + "image/jpeg", "image/jpeg", b"\xff\xd9"),
    "WebP": (PICTURE + "image/webp", "image/webp", b"WEBP"),
    "JPEG of 1.1.1": (OLDER + "image/jpeg", "image/jpeg", b"\xff\xd9"),
    "document": ("/wms?SERVICE=WMS&REQUEST=GetCapabilities&x={}", "text/xml", b"</WMS_Capabilities>"),
    "document of 1.1.1": ("/wms?SERVICE=WMS&VERSION=1.1.1&REQUEST=GetCapabilities&x={}", "application/vnd.ogc.wms_xml", b"</WMT_MS_Capabilities>"),
    "click": (CLICK, "text/plain", b"n = 'one'"),
    "health": ("/health?x={}", "text/xml", b"</WMS_Capabilities>"),
}


def free_port():
    with socket.socket() as taken:
        taken.bind(("127.0.0.1", 0))
        return taken.getsockname()[1]


def until_listening(port, process):
    """Waits up to ten seconds; whether something listens then."""
    for _ in range(200):
        with socket.socket() as probe:
            if probe.connect_ex(("127.0.0.1", port)) == 0:
                return True
        if process and process.poll() is not None:
            return False
        time.sleep(0.05)
    return False


class Server:
    """A server on a port that stays the same, which ends with its input."""

    def __init__(self, program, mapfile):
        self.program, self.mapfile, self.port = program, mapfile, free_port()
        self.start()

    def start(self):
        words = [self.program, "serve", self.mapfile, "--port", str(self.port), "--admin-port", "0", "--until-input-ends"]
        self.process = subprocess.Popen(words, stdin=subprocess.PIPE, stdout=subprocess.PIPE, start_new_session=True)
        line = self.process.stdout.readline()
        if ports_of(line) is None:
            sys.exit(f"restarts: the server writes {line!r}, and ends with {self.process.wait()}")

    def end(self):
        self.process.stdin.close()
        self.process.wait(10)
        self.process.stdout.close()


class Client(threading.Thread):
    """Asks for one kind until it is told to end, and counts what came."""

    def __init__(self, port, kind, end):
        super().__init__()
        self.port, self.kind, self.end, self.came = port, kind, end, collections.Counter()

    def run(self):
        number, connection = 0, None
        while not self.end.is_set():
            number += 1
            connection = connection or http.client.HTTPConnection("127.0.0.1", self.port, timeout=20)
            try:
                said = self.ask(connection, number)
            except (OSError, http.client.HTTPException) as error:
                said, connection = type(error).__name__, None
            self.came[said] += 1

    def ask(self, connection, number):
        """`right`, or what came in its place."""
        path, kind, text = KINDS[self.kind]
        # another picture each time, so that the cache has none
        connection.request("GET", path.format(f"{number:06d}"))
        answer = connection.getresponse()
        body = answer.read()
        if answer.status != 200 or not answer.headers["Content-Type"].startswith(kind) or text not in body:
            return f"{answer.status} {answer.headers['Content-Type']} {body[:60]!r}"
        return "right"


def configured(port, formats, servers):
    """nginx.conf for these ports, with the lines of a second server."""
    text = (TOP / "deploy" / "nginx.conf").read_text(encoding="utf-8").replace("# server 127.0.0.1:8180 ", "server 127.0.0.1:8180 ")
    for given, here in (("listen 127.0.0.1:8000", f"listen 127.0.0.1:{port}"), ("8070", formats), ("8080", servers[0].port), ("8180", servers[1].port)):
        text = text.replace(given if ":" in given else f"127.0.0.1:{given} ", str(here) if ":" in given else f"127.0.0.1:{here} ")
    return text


def restart_all(servers):
    for _ in range(ROUNDS):
        for server in servers:
            server.end()
            time.sleep(AWAY)
            server.start()
            # and the other one at once


def try_restarts(port, servers):
    """What came, by kinds."""
    end = threading.Event()
    clients = [Client(port, kind, end) for kind in KINDS]
    for client in clients:
        client.start()
    try:
        time.sleep(AWAY)
        restart_all(servers)
        time.sleep(AWAY)
    finally:
        end.set()
        for client in clients:
            client.join()
    return {client.kind: client.came for client in clients}


def with_all(program, folder):
    """Starts servers, formats and the proxy, and gives what came; nothing where formats lacks a package."""
    (folder / "m.map").write_text(MAP, encoding="ascii")
    servers = [Server(program, folder / "m.map") for _ in range(2)]
    port, formats_port, running = free_port(), free_port(), []
    try:
        words = [TOP / "deploy" / "formats", "--port", formats_port, "--workers", 2]
        words += [word for server in servers for word in ("--server", f"http://127.0.0.1:{server.port}/wms")]
        running.append(subprocess.Popen([str(word) for word in words], stdout=subprocess.DEVNULL, start_new_session=True))
        if not until_listening(formats_port, running[0]):
            return None
        (folder / "proxy").mkdir()
        (folder / "nginx.conf").write_text(configured(port, formats_port, servers), encoding="utf-8")
        words = ["nginx", "-p", f"{folder}/", "-e", "stderr", "-c", "nginx.conf", "-g", "daemon off;"]
        running.append(subprocess.Popen(words, stderr=subprocess.DEVNULL, start_new_session=True))
        until_listening(port, running[1])
        return try_restarts(port, servers)
    finally:
        for process in reversed(running):
            process.send_signal(signal.SIGTERM)
            process.wait(20)
        for server in servers:
            server.end()


def main():
    if len(sys.argv) != 2:
        sys.exit(__doc__.split("\n")[0])
    with tempfile.TemporaryDirectory() as name:
        os.chmod(name, 0o755)
        came = with_all(os.path.abspath(sys.argv[1]), pathlib.Path(name))
    if came is None:
        sys.exit(print("restarts: deploy/formats doesn't run: gunicorn or python3-pil is missing") or 77)
    wrong = [f"{kind}: {count} times {said}" for kind, counted in came.items() for said, count in counted.items() if said != "right"]
    unasked = [f"{kind}: never answered" for kind, counted in came.items() if not counted["right"]]
    asked = sum(sum(counted.values()) for counted in came.values())
    print("\n".join([*wrong, *unasked, f"restarts: {asked:,} requests of {len(KINDS)} kinds while two servers were restarted {ROUNDS} times each, {sum(sum(c.values()) - c['right'] for c in came.values())} answered otherwise"]))
    sys.exit(1 if wrong or unasked else 0)


if __name__ == "__main__":
    main()
