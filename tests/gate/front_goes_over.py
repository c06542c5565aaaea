#!/usr/bin/env python3
"""Tries demo/front.py, which stands before a program without a proof until the proved one is built. Usage: front_goes_over.py

Two servers are played, one slow. Eight clients ask without a pause, half of them over kept connections, while the front goes
over from the first to the second: each request has to be answered whole, by the first only before, and with the mark of an
unproved program only then. After it no request may come to the first one, also over connections from before. And the digest
by which demo/sources.py knows whether the program is built must not heed times. It ends with 1 where something is otherwise.

Gate: 4 s
"""
import asyncio
import http.client
import http.server
import os
import pathlib
import shutil
import sys
import tempfile
import threading
import time

TOP = pathlib.Path(__file__).resolve().parents[2]
sys.dont_write_bytecode = True
sys.path.insert(0, str(TOP / "demo"))

import front
import sources

CLIENTS, SECONDS = 8, 3
BODY = 300_000


class Server(http.server.BaseHTTPRequestHandler):
    """A server that says who it is, slowly."""

    protocol_version = "HTTP/1.1"

    def do_GET(self):
        self.server.count += 1
        time.sleep(0.05)
        body = self.server.called * BODY
        self.send_response(200)
        self.send_header("Content-Length", str(len(body)))
        self.end_headers()
        self.wfile.write(body)

    def log_message(self, *_):
        pass


def play(called):
    server = http.server.ThreadingHTTPServer(("127.0.0.1", 0), Server)
    server.called, server.count = called, 0
    threading.Thread(target=server.serve_forever, daemon=True).start()
    return server


def ask_always(port, is_kept, until, answers):
    """Asks up to the end, and notes when each request began, who answered, and whether it has the mark."""
    connection = None
    while time.monotonic() < until[0]:
        begun = time.monotonic()
        try:
            connection = connection or http.client.HTTPConnection("127.0.0.1", port, timeout=20)
            connection.request("GET", "/wms?REQUEST=GetMap", headers={} if is_kept else {"Connection": "close"})
            answer = connection.getresponse()
            body = answer.read()
            who = body[:1].decode() if answer.status == 200 and len(body) == BODY and body == body[:1] * BODY else f"{answer.status}"
            answers.append((begun, who, answer.headers["X-Proved"]))
        except (OSError, http.client.HTTPException) as error:
            answers.append((begun, repr(error), None))
            connection = None
        if not is_kept:
            connection = None


async def go_over(answers):
    """Has the front go over in the middle; when that began and was done, and how many requests the first one had then."""
    first, second, before = play(b"u"), play(b"p"), front.Front(0)
    await before.listen()
    wrong = []
    if (status := await asyncio.to_thread(status_of, before.port)) != 503:
        wrong.append(f"with nothing behind it the front answers {status}")
    await before.go_over(first.server_port, False)
    until = [time.monotonic() + SECONDS]
    clients = [threading.Thread(target=ask_always, args=(before.port, number % 2 == 0, until, answers)) for number in range(CLIENTS)]
    for client in clients:
        client.start()
    await asyncio.sleep(SECONDS / 2)
    begun = time.monotonic()
    await before.go_over(second.server_port, True)
    done, count = time.monotonic(), first.count
    first.shutdown()
    first.server_close()
    await asyncio.to_thread(lambda: [client.join() for client in clients])
    if first.count != count:
        wrong.append(f"{first.count - count} requests came to the first one afterwards")
    return begun, done, wrong


def status_of(port):
    connection = http.client.HTTPConnection("127.0.0.1", port, timeout=20)
    connection.request("GET", "/wms")
    return connection.getresponse().status


def try_front():
    answers = []
    begun, done, wrong = asyncio.run(go_over(answers))
    yield from wrong
    lost = [who for _, who, _ in answers if who not in "up"]
    if lost:
        yield f"{len(lost)} requests were lost: {lost[:3]}"
    if any(who == "u" for at, who, _ in answers if at > done) or not any(who == "p" for at, who, _ in answers if at > begun):
        yield "the program without a proof is left on the port"
    if any((who == "u") != (mark == "no") for _, who, mark in answers):
        yield "the mark of a program without a proof is on others, or missing"
    print(f"front_goes_over: {len(answers)} requests, {sum(who == 'u' for _, who, _ in answers)} before")


def try_digest():
    """A copy with other times is built; one with a changed byte, or with another program's name, isn't."""
    with tempfile.TemporaryDirectory() as name:
        sources.TOP = name
        source = os.path.join(name, "crates", "a", "src")
        os.makedirs(source)
        for path in ("crates.txt", "HANDLES", "crates/a/src/lib.rt"):
            pathlib.Path(name, path).write_text(f"{path}\n")
        sources.BUILT = os.path.join(name, "program")
        sources.DIGEST = sources.BUILT + ".sources"
        shutil.copy("/bin/true", sources.BUILT)
        if sources.is_built(["a"]):
            yield "a program without a digest counts as built"
        pathlib.Path(sources.DIGEST).write_text(sources.digest_of(["a"]) + "\n")
        os.utime(os.path.join(source, "lib.rt"), (2_000_000_000, 2_000_000_000))
        if not sources.is_built(["a"]):
            yield "a later time of a source has the program built again"
        pathlib.Path(source, "lib.rt").write_text("else\n")
        os.utime(os.path.join(source, "lib.rt"), (1, 1))
        if sources.is_built(["a"]):
            yield "a changed source with an old time counts as built"


def main():
    if len(sys.argv) > 1:
        sys.exit(__doc__)
    wrong = [*try_front(), *try_digest()]
    print("\n".join([*wrong, f"front_goes_over: {len(wrong)} things otherwise than they should be"]))
    sys.exit(1 if wrong else 0)


if __name__ == "__main__":
    main()
