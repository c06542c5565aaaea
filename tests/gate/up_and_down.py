#!/usr/bin/env python3
"""Tries deploy/up: server, formats and proxy by one command. Usage: up_and_down.py PROGRAM [SIDE]

It has to write each step, and the address that it prints has to answer pictures, /health and the viewer, later with its
legend. At SIGHUP a changed mapfile has to be served while clients ask, each answered with 200, and one with a fault may change
nothing. Six clients ask for a picture of SIDE by SIDE pixels, by default 1,500, and SIGTERM comes while they read: each has
to get all of it, the exit status has to be 0, and no process that it started may be left. A taken port and a mapfile with a
fault have to end it with 2. It needs Debian's nginx-light, and tries PNG where gunicorn is installed. It ends with 1 where
something is otherwise.

Gate: PROGRAM; needs nginx; 20 s
"""
import http.client
import json
import os
import pathlib
import re
import shutil
import signal
import socket
import subprocess
import sys
import tempfile
import threading
import time

TOP = pathlib.Path(__file__).resolve().parents[2]
UP, MAP = TOP / "deploy" / "up", TOP / "demo" / "lakes.map"
SIDE = int(sys.argv[2]) if len(sys.argv) > 2 else 1500
QUERY = "VERSION=1.3.0&REQUEST=GetMap&LAYERS=lakes&STYLES=&CRS=CRS:84&BBOX={},40,25,60&WIDTH={}&HEIGHT={}&FORMAT={}"
PIXMAP, CLIENTS = "image/x-portable-pixmap", 6


def free_port():
    with socket.socket() as taken:
        taken.bind(("127.0.0.1", 0))
        return taken.getsockname()[1]


def get(port, path, connection=None):
    connection = connection or http.client.HTTPConnection("127.0.0.1", port, timeout=120)
    connection.request("GET", path)
    answer = connection.getresponse()
    return answer.status, answer.headers["Content-Type"], answer.read()


def read_slowly(port, number, answers, begun):
    connection = http.client.HTTPConnection("127.0.0.1", port, timeout=120)
    connection.request("GET", "/wms?" + QUERY.format(-number - 1, SIDE, SIDE, PIXMAP))
    answer = connection.getresponse()
    size = len(answer.read(1000))
    begun.release()
    time.sleep(0.7)
    try:
        answers.append(size + len(answer.read()))
    except http.client.HTTPException as error:
        answers.append(repr(error))


def try_answers(port):
    status, kind, body = get(port, "/wms?" + QUERY.format(-10, 40, 30, PIXMAP))
    if (status, kind) != (200, PIXMAP) or not body.startswith(b"P6\n40 30\n"):
        yield f"a picture comes as {status} {kind} {body[:100]}"
    if shutil.which("gunicorn") and get(port, "/wms?" + QUERY.format(-10, 40, 30, "image/png"))[1] != "image/png":
        yield "a PNG comes as something else"
    if get(port, "/health")[0] != 200:
        yield "/health isn't answered"
    if get(port, "/")[0] != 302 or b"viewer.js" not in get(port, "/viewer/")[2]:
        yield "/ isn't the viewer"
    if not until(lambda: get(port, "/viewer/legend.json")[0] == 200):
        yield "there is no legend after 30 seconds"
    elif "lakes" not in json.loads(get(port, "/viewer/legend.json")[2])["layers"]:
        yield "the legend has no lakes"


def until(holds):
    """Whether something holds within 30 seconds."""
    end = time.monotonic() + 30
    while not holds():
        if time.monotonic() > end:
            return False
        time.sleep(0.1)
    return True


def title_of(port):
    """The first title of the document."""
    found = re.search(rb"<Title>(.*?)</Title>", get(port, "/wms?SERVICE=WMS&REQUEST=GetCapabilities")[2])
    return found and found[1].decode()


def ask_on(port, kind, end, otherwise):
    """Asks for a kind of pictures, or for documents, over a new connection each time, and keeps what isn't answered with 200."""
    number = 0
    while not end.is_set():
        number += 1
        path = "/wms?" + QUERY.format(f"-10.{number:06d}", 40, 30, kind) if kind else f"/wms?SERVICE=WMS&REQUEST=GetCapabilities&x={number}"
        try:
            status, found, _ = get(port, path)
            if (status, found) != (200, kind or "text/xml"):
                otherwise.append(f"{kind}: {status} {found}")
        except (OSError, http.client.HTTPException) as error:
            otherwise.append(f"{kind}: {error!r}")


def try_changes(up, port, mapfile):
    """What is otherwise where the mapfile changes, and where it then has a fault."""
    end, otherwise, text = threading.Event(), [], mapfile.read_text()
    kinds = [PIXMAP, None] + (["image/png", "image/jpeg"] if shutil.which("gunicorn") else [])
    clients = [threading.Thread(target=ask_on, args=(port, kind, end, otherwise)) for kind in kinds]
    for client in clients:
        client.start()
    mapfile.write_text(text.replace('"Lakes and fields"', '"changed"'))
    up.send_signal(signal.SIGHUP)
    if not until(lambda: title_of(port) == "changed"):
        yield f"the title is {title_of(port)} 30 seconds after SIGHUP"
    mapfile.write_text(text.replace("TYPE POLYGON", "TIPE POLYGON", 1))
    up.send_signal(signal.SIGHUP)
    time.sleep(3)
    if title_of(port) != "changed" or up.poll() is not None:
        yield f"a mapfile with a fault leaves the title {title_of(port)}"
    end.set()
    for client in clients:
        client.join()
    yield from (f"while the mapfile changes {words}" for words in sorted(set(otherwise)))


def left_of(group):
    """The processes whose parent's group was that of a process, by what it started."""
    found = []
    for entry in pathlib.Path("/proc").iterdir():
        if entry.name.isdecimal():
            try:
                environment = (entry / "environ").read_bytes()
            except OSError:
                continue
            if group in environment:
                found.append(entry.name)
    return found


def try_stop(up, port):
    answers, begun = [], threading.Semaphore(0)
    clients = [threading.Thread(target=read_slowly, args=(port, number, answers, begun)) for number in range(CLIENTS)]
    for client in clients:
        client.start()
    for _ in clients:
        begun.acquire(timeout=100)
    up.send_signal(signal.SIGTERM)
    for client in clients:
        client.join()
    if (status := up.wait(120)) != 0:
        yield f"at SIGTERM it ends with {status}"
    whole = 3 * SIDE * SIDE + len(f"P6\n{SIDE} {SIDE}\n255\n")
    if answers != [whole] * CLIENTS:
        yield f"{answers.count(whole)} of {CLIENTS} pictures came whole: {answers}"
    with socket.socket() as client:
        if client.connect_ex(("127.0.0.1", port)) == 0:
            yield "something still listens"


def steps_of(up, port):
    """The lines up to the address, and whether they are those of the steps."""
    lines, last = [], f"http://127.0.0.1:{port}/ shows the map; clients take http://127.0.0.1:{port}/wms?"
    for line in up.stdout:
        lines.append(line.rstrip("\n"))
        if lines[-1] == last:
            break
    wanted = [r"mapservd reads .*", r"mapservd serves it on port \d+, and takes batches on port \d+"]
    wanted += [r"formats makes JPEG, WebP and PNG of it on port \d+"] if shutil.which("gunicorn") else []
    return lines, len(lines) == len(wanted) + 1 and all(re.fullmatch(one, line) for one, line in zip(wanted, lines)) and lines[-1] == last


def try_up(program, mapfile):
    port, mark = free_port(), f"KESMOCH_UP_AND_DOWN={os.getpid()}"
    environment = {**os.environ, **dict([mark.split("=")])}
    words = [UP, mapfile, "--port", str(port), "--program", program]
    up = subprocess.Popen(words, stdout=subprocess.PIPE, stderr=subprocess.DEVNULL, text=True, env=environment)
    try:
        lines, is_right = steps_of(up, port)
        if not is_right:
            yield f"it prints {lines}"
            return
        yield from try_answers(port)
        yield from try_changes(up, port, mapfile)
        taken = subprocess.run(words, capture_output=True, text=True, timeout=100)
        if taken.returncode != 2 or f"the port {port} is taken" not in taken.stderr:
            yield f"a taken port ends it with {taken.returncode}: {taken.stderr}"
        yield from try_stop(up, port)
    finally:
        if up.poll() is None:
            up.send_signal(signal.SIGTERM)
            up.wait(120)
    time.sleep(0.3)
    if left := left_of(mark.encode()):
        yield f"processes are left: {left}"


def try_fault(program):
    ran = subprocess.run([UP, TOP / "demo" / "faulty.map", "--port", str(free_port()), "--program", program], capture_output=True, text=True, timeout=100)
    if ran.returncode != 2 or "COLOUR is no keyword of STYLE" not in ran.stderr:
        yield f"a mapfile with a fault ends it with {ran.returncode}: {ran.stderr}"


def main():
    if len(sys.argv) not in (2, 3):
        sys.exit(__doc__.split("\n")[0])
    program = os.path.abspath(sys.argv[1])
    with tempfile.TemporaryDirectory() as folder:
        mapfile = pathlib.Path(folder, "lakes.map")
        mapfile.write_text(MAP.read_text())
        wrong = [*try_up(program, mapfile), *try_fault(program)]
    print("\n".join([*wrong, f"up_and_down: {len(wrong)} things otherwise than they should be"]))
    sys.exit(1 if wrong else 0)


if __name__ == "__main__":
    main()
