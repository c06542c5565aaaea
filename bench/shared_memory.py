#!/usr/bin/env python3
"""Says how much memory a served map takes beside a map that a script is played on, before and after batches.

Usage: shared_memory.py PROGRAM

The map has a layer of 199,000 points with two items each, from a table, and one of 200 polygons of 5,000 vertices.
`run` has one machine; `serve` shares the map between the copy that readers see, the one that the next batch goes
into, and the one that batches are tried on. The resident memory of `run` is that at most, of `serve` that of the
moment and that at most, which for both is while the mapfile is read. Everything that it reads it makes by rule, in a
folder of its own. It ends with 1 where a batch isn't published, or a picture isn't answered.
"""
import os
import pathlib
import re
import socket
import subprocess
import sys
import tempfile

sys.path.insert(0, str(pathlib.Path(__file__).resolve().parents[1] / "tests" / "lib"))

from served import ports_of, read_all

COUNT = 199_000
QUERY = (
    "VERSION=1.3.0&REQUEST=GetMap&LAYERS=points,shapes&STYLES=&CRS=CRS:84&BBOX=0,0,10,10&WIDTH=64&HEIGHT=64"
    "&FORMAT=image/x-portable-pixmap"
)


def table():
    rows = (f"{k * 7919 % 360_000 / 1000 - 180:.3f},{k * 104729 % 180_000 / 1000 - 90:.3f},name {k},{k % 9}\n" for k in range(COUNT))
    return "x,y,name,kind\n" + "".join(rows)


def mapfile():
    yield "MAP\n"
    yield 'LAYER\nNAME "points"\nTYPE POINT\nDATA "points.csv"\nCLASS\nSTYLE\nCOLOR 10 20 30\nSIZE 3\nEND\nEND\nEND\n'
    yield 'LAYER\nNAME "shapes"\nTYPE POLYGON\nCLASS\nSTYLE\nCOLOR 40 50 60\nEND\nEND\n'
    for feature in range(200):
        yield "FEATURE\nPOINTS\n"
        for k in range(5_000):
            x = (feature * 7919 + k * 104729) % 360_000 / 1000 - 180
            y = (feature * 104729 + k * 7919) % 180_000 / 1000 - 90
            yield f"{x:.3f} {y:.3f}\n"
        yield "END\nEND\n"
    yield "END\nEND\n"


def played(program, folder):
    """The most kilobytes that playing a script takes, in a process of its own so that no other counts."""
    code = (
        "import resource, subprocess, sys; subprocess.run(sys.argv[1:], stdout=subprocess.DEVNULL, check=True);"
        "print(resource.getrusage(resource.RUSAGE_CHILDREN).ru_maxrss)"
    )
    script = os.path.join(folder, "map.script")
    with open(script, "w") as file:
        file.write(f"QUERY {QUERY}\n")
    out = subprocess.run([sys.executable, "-c", code, program, "run", "map.map", "map.script"], cwd=folder, capture_output=True, check=True)
    return int(out.stdout)


def resident(process):
    """What the process takes now, and what it took at most, in words."""
    with open(f"/proc/{process.pid}/status") as status:
        text = status.read()
    now, most = (int(re.search(rf"{name}:\s+(\d+)", text).group(1)) // 1024 for name in ("VmRSS", "VmHWM"))
    return f"{now} MB, {most} MB at most,"


def ask(port):
    with socket.create_connection(("127.0.0.1", port)) as stream:
        stream.sendall(f"GET /wms?{QUERY} HTTP/1.1\r\nHost: x\r\nConnection: close\r\n\r\n".encode())
        answer = read_all(stream)
    if not answer.startswith(b"HTTP/1.1 200 OK\r\nContent-Type: image/x-portable-pixmap\r\n"):
        sys.exit("a picture wasn't answered")


def watch(process):
    """Prints what the server takes before the batches and after each."""
    port, admin_port = ports_of(process.stdout.readline())
    ask(port)
    print(f"serve: {resident(process)} before a batch")
    row = b"x,y,name,kind\n1,2,here,3\n"
    batches = [
        ("OFF and ON of a layer", b"OFF shapes\nON shapes\n"),
        ("APPEND of one point", b"APPEND %d points\n%s" % (len(row), row)),
        ("CLEAR of the points", b"CLEAR points\n"),
    ]
    with socket.create_connection(("127.0.0.1", admin_port)) as administrator, administrator.makefile("rb") as lines:
        for number, (what, batch) in enumerate(batches, 1):
            administrator.sendall(b"BATCH %d\n%s" % (len(batch), batch))
            line = lines.readline()
            if line != b"PUBLISHED %d\n" % number:
                sys.exit(f"{what}: {line}")
            ask(port)
            print(f"serve: {resident(process)} after {what}")


def main():
    if len(sys.argv) != 2:
        sys.exit(__doc__.split("\n\n")[1])
    program = os.path.abspath(sys.argv[1])
    with tempfile.TemporaryDirectory() as folder:
        for name, text in (("points.csv", table()), ("map.map", "".join(mapfile()))):
            with open(os.path.join(folder, name), "w") as file:
                file.write(text)
        print(f"run: {played(program, folder) // 1024} MB at most")
        command = [program, "serve", "map.map", "--port", "0", "--admin-port", "0"]
        with subprocess.Popen(command, cwd=folder, stdout=subprocess.PIPE) as process:
            try:
                watch(process)
            finally:
                process.kill()


main()
