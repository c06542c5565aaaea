#!/usr/bin/env python3
"""Measures the proxy of deploy/nginx.conf before a server, by how many connections it keeps between both.

Usage: proxy.py PROGRAM [SECONDS [KEPT ..]]

Tiles, whole pictures and the document of demo/world.map are asked for by 6, 50 and 500 clients that keep their
connections, SECONDS each, 3 where it isn't given. Nothing comes from the cache. A proxy keeps KEPT connections, by
default none, then 16, 64 and 256; and without a proxy the clients ask the server itself. A line has requests a second, the
median wait and that of 99 of 100 in milliseconds, and how many answers failed. It needs Debian's nginx-light and wrk.
"""
import os
import pathlib
import re
import shutil
import subprocess
import sys
import tempfile
import time

sys.path.insert(0, str(pathlib.Path(__file__).resolve().parents[1] / "tests" / "lib"))

from served import ports_of

TOP = pathlib.Path(__file__).resolve().parent.parent
VIEW = "VERSION=1.3.0&REQUEST=GetMap&LAYERS=countries,borders,graticule,small,ports&STYLES=&CRS=CRS:84&FORMAT=image/x-portable-pixmap"
QUERIES = {
    "tile": VIEW + "&BBOX=0,30,45,75&WIDTH=256&HEIGHT=256",
    "whole picture": VIEW + "&BBOX=-180,-90,180,90&WIDTH=1024&HEIGHT=512",
    "document": "SERVICE=WMS&REQUEST=GetCapabilities",
}
CLIENTS = (6, 50, 500)
UNITS = {"us": 0.001, "ms": 1, "s": 1000, "m": 60_000}


def configured(server, port, kept):
    """The configuration of deploy/, for these ports, without the cache, keeping so many connections to the server."""
    text = (TOP / "deploy" / "nginx.conf").read_text()
    text = text.replace("listen 127.0.0.1:8000;", f"listen 127.0.0.1:{port};").replace("127.0.0.1:8080", f"127.0.0.1:{server}")
    # nothing listens there
    text = text.replace("127.0.0.1:8070", "127.0.0.1:9").replace("proxy_cache pictures;", "proxy_cache off;")
    text, count = re.subn(r"^        keepalive \d+;\n", f"        keepalive {kept};\n" if kept else "", text, flags=re.M)
    assert count
    return text


def milliseconds(text):
    found = re.fullmatch(r"([\d.]+)(us|ms|s|m)", text)
    return float(found[1]) * UNITS[found[2]]


def asked(port, query, clients, seconds):
    """Requests a second, two waits, and failed answers, as wrk has them."""
    words = ["wrk", "-t", "2", "-c", str(clients), "-d", f"{seconds}s", "--timeout", "30s", "--latency", f"http://127.0.0.1:{port}/wms?{query}"]
    said = subprocess.run(words, capture_output=True, text=True, check=True).stdout
    failed = sum(map(int, re.findall(r"(?:connect|read|write|timeout) (\d+)", said))) + sum(map(int, re.findall(r"Non-2xx or 3xx responses: (\d+)", said)))
    waits = [milliseconds(re.search(rf"^ +{share}% +(\S+)", said, re.M)[1]) for share in (50, 99)]
    return float(re.search(r"Requests/sec:\s+([\d.]+)", said)[1]), *waits, failed


def measure(name, port, seconds):
    for kind, query in QUERIES.items():
        for clients in CLIENTS:
            rate, median, late, failed = asked(port, query, clients, seconds)
            print(f"| {name} | {kind} | {clients} | {rate:,.0f} | {median:.1f} | {late:.1f} | {failed} |", flush=True)


def by_proxy(folder, server, kept, seconds):
    """The same by a proxy that keeps so many."""
    port = 18_999
    folder = pathlib.Path(folder)
    (folder / "proxy").mkdir(exist_ok=True)
    (folder / "nginx.conf").write_text(configured(server, port, kept))
    call = ["nginx", "-p", str(folder), "-c", "nginx.conf"]
    subprocess.run(call, check=True, stdout=subprocess.DEVNULL, stderr=subprocess.DEVNULL)
    try:
        time.sleep(0.3)
        measure(f"keeps {kept}", port, seconds)
    finally:
        subprocess.run([*call, "-s", "stop"], check=False, stderr=subprocess.DEVNULL)
        time.sleep(0.5)


def main():
    words = sys.argv[1:]
    if not words or not all(word.isdecimal() for word in words[1:]):
        sys.exit(__doc__.split("\n\n")[1])
    lacking = [name for name in ("nginx", "wrk") if shutil.which(name) is None]
    if lacking:
        sys.exit(f"proxy.py: {', '.join(lacking)} is missing")
    seconds, *kept = [int(word) for word in words[1:]] or [3]
    with tempfile.TemporaryDirectory() as folder:
        os.chmod(folder, 0o755)
        served = [os.path.abspath(words[0]), "serve", str(TOP / "demo/world.map"), "--port", "0", "--admin-port", "0"]
        with subprocess.Popen(served, stdout=subprocess.PIPE) as server:
            try:
                port = ports_of(server.stdout.readline())[0]
                print("| Proxy | Asked for | Clients | Requests a second | Median | 99 of 100 | Failed |\n|---|---|---|---|---|---|---|")
                measure("none", port, seconds)
                for count in kept or (0, 16, 64, 256):
                    by_proxy(folder, port, count, seconds)
            finally:
                server.kill()


main()
