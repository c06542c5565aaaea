#!/usr/bin/env python3
"""Tries that deploy/entry, the first program of the image, ends as `docker stop` wants it. Usage: stops_whole.py PROGRAM [SIDE]

Eight clients ask for a picture of SIDE by SIDE pixels, by default the largest, each over a connection of its own, and SIGTERM comes while they are answered: each
has to get all of its picture, the exit status has to be 0, and after that nothing may listen. Before it SIGHUP comes, which
may end nothing. A command that isn't `serve` has to be run as it is. It ends with 1 where something is wrong.

Gate: PROGRAM; 2 s
"""
import os
import pathlib
import signal
import socket
import subprocess
import sys
import tempfile
import threading
import time

sys.path.insert(0, str(pathlib.Path(__file__).resolve().parents[1] / "lib"))

from served import ports_of, read_all

TOP = pathlib.Path(__file__).resolve().parents[2]
CLIENTS = 8
SIDE = int(sys.argv[2]) if len(sys.argv) > 2 else 2048
QUERY = f"VERSION=1.3.0&REQUEST=GetMap&LAYERS=a&STYLES=&CRS=CRS:84&BBOX=0,0,4,4&WIDTH={SIDE}&HEIGHT={SIDE}&FORMAT=image/x-portable-pixmap"


def ask(port, answers, begun):
    """A client that reads some of its picture, says that it has begun, and reads on slowly."""
    with socket.create_connection(("127.0.0.1", port), timeout=120) as client:
        client.sendall(f"GET /wms?{QUERY} HTTP/1.1\r\nHost: a\r\nConnection: close\r\n\r\n".encode())
        first = client.recv(10_000)
        begun.release()
        time.sleep(0.5)
        answers.append(len((first + read_all(client)).partition(b"\r\n\r\n")[2]))


def try_stop(command, environment):
    """What is wrong with an end by SIGTERM, in words."""
    words = [command, "serve", str(TOP / "demo" / "square.map"), "--port", "0", "--admin-port", "0"]
    entry = subprocess.Popen(words, env=environment, stdout=subprocess.PIPE)
    ports = ports_of(entry.stdout.readline())
    if not ports:
        yield "the server doesn't listen"
        return
    entry.send_signal(signal.SIGHUP)
    time.sleep(0.3)
    answers, begun = [], threading.Semaphore(0)
    clients = [threading.Thread(target=ask, args=(ports[0], answers, begun)) for _ in range(CLIENTS)]
    for client in clients:
        client.start()
    for _ in clients:
        begun.acquire(timeout=60)
    entry.send_signal(signal.SIGTERM)
    for client in clients:
        client.join()
    status = entry.wait(60)
    whole = 3 * SIDE * SIDE + len(f"P6\n{SIDE} {SIDE}\n255\n")
    if sorted(answers) != [whole] * CLIENTS:
        yield f"{sum(answer == whole for answer in answers)} of {CLIENTS} pictures came whole: {sorted(answers)}"
    if status != 0:
        yield f"the exit status is {status}"
    with socket.socket() as client:
        if client.connect_ex(("127.0.0.1", ports[0])) == 0:
            yield "something still listens"


def main():
    if len(sys.argv) not in (2, 3):
        sys.exit(__doc__.split("\n")[0])
    with tempfile.TemporaryDirectory() as folder:
        os.symlink(os.path.abspath(sys.argv[1]), os.path.join(folder, "mapservd"))
        environment = {**os.environ, "PATH": f"{folder}:{os.environ['PATH']}"}
        command = str(TOP / "deploy" / "entry")
        wrong = list(try_stop(command, environment))
        checked = subprocess.run([command, "check", str(TOP / "demo" / "square.map")], env=environment, capture_output=True, text=True)
        if (checked.returncode, checked.stdout) != (0, "ok 1 layers 1 features\n"):
            wrong.append(f"`entry check` writes {checked.stdout} and ends with {checked.returncode}")
    print("\n".join([*wrong, f"stops_whole: {CLIENTS} clients at an end by SIGTERM, {len(wrong)} wrong"]))
    sys.exit(1 if wrong else 0)


if __name__ == "__main__":
    main()
