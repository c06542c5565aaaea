#!/usr/bin/python3
"""Tries deploy/metrics on the log of a server. Usage: metrics_counts.py PROGRAM

A server answers pictures, a fault, a wrong path and a batch, and what Prometheus would read has to count them. Lines of a
log that is played count a 503, a connection that was cut, dropped lines, and the bucket of a slow picture. It needs Debian's
python3-prometheus-client; it ends with 77 without that, and with 1 where a count is otherwise.

Gate: PROGRAM; 5 s
"""
import importlib.util
import pathlib
import re
import socket
import subprocess
import sys
import urllib.error
import urllib.request

sys.path.insert(0, str(pathlib.Path(__file__).resolve().parents[1] / "lib"))

from served import ports_of

TOP = pathlib.Path(__file__).resolve().parents[2]
PICTURE = "VERSION=1.3.0&REQUEST=GetMap&LAYERS=a&STYLES=&CRS=CRS:84&BBOX=0,0,4,4&WIDTH=4&HEIGHT=4&FORMAT=image/x-portable-pixmap"
PLAYED = """answer 7 "/wms?REQUEST=GetMap" 503 57 3
answer 8 "/wms?REQUEST=GetMap" 200 100 700
end 9 idle
dropped 12
batch 1 REFUSED 1 2
no line of the log
"""
WANTED = {
    'kesmoch_requests_total{request="GetMap",status="200"}': 4,
    'kesmoch_requests_total{request="GetMap",status="503"}': 1,
    'kesmoch_requests_total{request="other",status="404"}': 1,
    "kesmoch_busy_total": 1,
    'kesmoch_connections_cut_total{cause="idle"}': 1,
    "kesmoch_log_lines_dropped_total": 12,
    'kesmoch_batches_total{answer="PUBLISHED"}': 1,
    'kesmoch_batches_total{answer="REFUSED"}': 1,
    'kesmoch_request_seconds_count{request="GetMap"}': 5,
    "kesmoch_up": 1,
    "kesmoch_sequence": 1,
}


def free_port():
    with socket.socket() as taken:
        taken.bind(("127.0.0.1", 0))
        return taken.getsockname()[1]


def get(address):
    try:
        with urllib.request.urlopen(address, timeout=30) as answer:
            return answer.read().decode(errors="replace")
    except urllib.error.HTTPError as error:
        return error.read().decode(errors="replace")


def counts_of(server, port, metrics):
    """The numbers that are read after some requests and the played lines."""
    clients, admin = server
    for path in (f"/wms?{PICTURE}",) * 3 + ("/else",):
        get(f"http://127.0.0.1:{clients}{path}")
    subprocess.run([TOP / "deploy" / "batch", str(admin), "ON a"], check=True, capture_output=True)
    metrics.write(PLAYED)
    metrics.flush()
    text = ""
    # the lines come by a pipe, some moments later
    for _ in range(100):
        text = get(f"http://127.0.0.1:{port}/metrics")
        if 'answer="PUBLISHED"' in text and 'cause="idle"' in text:
            break
    return dict(re.findall(r"^(kesmoch_\S+) (\S+)$", text, re.MULTILINE))


def main():
    if len(sys.argv) != 2:
        sys.exit(__doc__.split("\n")[0])
    if importlib.util.find_spec("prometheus_client") is None:
        sys.exit(print("metrics_counts: skipped: python3-prometheus-client is missing") or 77)
    words = [sys.argv[1], "serve", str(TOP / "demo" / "square.map"), "--port", "0", "--admin-port", "0", "--log"]
    server, port = subprocess.Popen(words, stdout=subprocess.PIPE, stderr=subprocess.PIPE, text=True), free_port()
    ports = ports_of(server.stdout.readline().encode())
    words = [TOP / "deploy" / "metrics", "--server", f"http://127.0.0.1:{ports[0]}/wms", "--port", str(port)]
    metrics = subprocess.Popen(words, stdin=subprocess.PIPE, stdout=subprocess.PIPE, text=True)
    metrics.stdout.readline()
    copying = subprocess.Popen(["cat"], stdin=server.stderr, stdout=metrics.stdin)
    try:
        found = counts_of(ports, port, metrics.stdin)
    finally:
        for process in (copying, metrics, server):
            process.kill()
            process.wait()
    wrong = [f"{name} is {found.get(name)} in place of {count}" for name, count in WANTED.items() if float(found.get(name, "nan")) != count]
    slow = {bound: float(found.get(f'kesmoch_request_seconds_bucket{{le="{bound}",request="GetMap"}}', "nan")) for bound in ("0.5", "1.0")}
    if slow["1.0"] - slow["0.5"] != 1:
        wrong.append(f"a picture of 0.7 seconds isn't in its bucket: {slow}")
    if float(found.get("kesmoch_answer_bytes_total", 0)) < 3 * 59:
        wrong.append("the bytes of the answers aren't counted")
    print("\n".join([*wrong, f"metrics_counts: {len(WANTED) + 2} counts, {len(wrong)} otherwise"]))
    sys.exit(1 if wrong else 0)


if __name__ == "__main__":
    main()
