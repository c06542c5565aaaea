#!/usr/bin/env python3
"""Tries which queries the proxy of deploy/nginx.conf refuses with 403, and which it hands on. It needs Debian's nginx-light.

Usage: proxy_refusals.py

A server that answers everything with 200 stands behind it. Each row that is answered otherwise than it says is written,
and the script then ends with 1.

Gate: needs nginx; 5 s
"""
import http.client
import http.server
import os
import pathlib
import subprocess
import sys
import tempfile
import threading
import time

TOP = pathlib.Path(__file__).resolve().parents[2]
PORT = 18_998
INFORMATION = "VERSION=1.3.0&REQUEST=GetFeatureInfo"


def names(count, comma=","):
    return comma.join("abc"[k % 3] for k in range(count))


# the status, and the query
ROWS = [
    (200, ""),
    (200, "REQUEST=GetMap&LAYERS=" + names(64)),
    (200, f"{INFORMATION}&LAYERS={names(64)}&QUERY_LAYERS=a"),
    (200, f"{INFORMATION}&QUERY_LAYERS={names(16)}&LAYERS={names(64)}"),
    (200, f"QUERY_LAYERS={names(16, '%2C')}"),
    (200, f"{INFORMATION}&QUERY_LAYERS=&FEATURE_COUNT=1"),
    (403, f"{INFORMATION}&QUERY_LAYERS={names(17)}"),
    (403, f"query_layers={names(17, '%2C')}"),
    (403, f"{INFORMATION}&Query_Layers={names(17, '%2c')}&I=1"),
    # names that are escaped, and commas of both kinds
    (403, f"{INFORMATION}&QUERY_LAYERS={'%61,%61%2C' * 8}a"),
    (200, f"{INFORMATION}&QUERY_LAYERS={'%61,%61%2C' * 7}a,a"),
    # a count of names in another parameter, or past the end of this one
    (200, f"{INFORMATION}&XQUERY_LAYERS={names(17)}"),
    (200, f"{INFORMATION}&QUERY_LAYERS=a&X={names(17)}"),
    # a long text that has a comma less
    (200, f"{INFORMATION}&QUERY_LAYERS={','.join(['a%20' * 100] * 16)}"),
    (403, f"{INFORMATION}&QUERY_LAYERS={','.join(['a%20' * 100] * 17)}"),
    (200, f"{INFORMATION}&FEATURE_COUNT=1000"),
    (200, f"{INFORMATION}&FEATURE_COUNT=0001000&I=1"),
    (200, f"{INFORMATION}&FEATURE_COUNT=999"),
    (403, f"{INFORMATION}&FEATURE_COUNT=1001"),
    (403, f"{INFORMATION}&FEATURE_COUNT=1010"),
    (403, f"{INFORMATION}&FEATURE_COUNT=1200&I=1"),
    (403, f"{INFORMATION}&FEATURE_COUNT=2000"),
    (403, "feature_count=0010000"),
    (403, f"{INFORMATION}&FEATURE_COUNT=200000"),
    (403, f"{INFORMATION}&FEATURE_COUNT=%32000"),
    (200, f"{INFORMATION}&XFEATURE_COUNT=2000"),
]


def configured(server):
    """The configuration of deploy/, for these ports."""
    text = (TOP / "deploy" / "nginx.conf").read_text()
    return text.replace("listen 127.0.0.1:8000;", f"listen 127.0.0.1:{PORT};").replace("127.0.0.1:8080", f"127.0.0.1:{server}")


class Server(http.server.BaseHTTPRequestHandler):
    def do_GET(self):
        self.send_response(200)
        self.send_header("Content-Length", "0")
        self.end_headers()

    def log_message(self, *_):
        pass


def status_of(query):
    connection = http.client.HTTPConnection("127.0.0.1", PORT, timeout=10)
    connection.request("GET", "/wms?" + query)
    return connection.getresponse().status


def main():
    if len(sys.argv) > 1:
        sys.exit(__doc__)
    server = http.server.ThreadingHTTPServer(("127.0.0.1", 0), Server)
    threading.Thread(target=server.serve_forever, daemon=True).start()
    wrong = 0
    with tempfile.TemporaryDirectory() as folder:
        os.chmod(folder, 0o755)
        folder = pathlib.Path(folder)
        (folder / "proxy").mkdir()
        (folder / "nginx.conf").write_text(configured(server.server_port))
        call = ["nginx", "-p", str(folder), "-c", "nginx.conf"]
        subprocess.run(call, check=True, stderr=subprocess.DEVNULL)
        try:
            time.sleep(0.3)
            for wanted, query in ROWS:
                status = status_of(query)
                if status != wanted:
                    print(f"{status} in place of {wanted}: {query[:200]}")
                    wrong += 1
        finally:
            subprocess.run([*call, "-s", "stop"], check=False, stderr=subprocess.DEVNULL)
            time.sleep(0.5)
    print(f"{len(ROWS) - wrong} rows as they should be, {wrong} otherwise")
    return 1 if wrong else 0


if __name__ == "__main__":
    sys.exit(main())
