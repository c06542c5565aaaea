#!/usr/bin/env python3
"""Tries clients that want all of a server for themselves. Usage: under_fire.py PROGRAM [full]

Each line has what was tried, and what the other clients saw:

- one client sends 12 requests ahead, of pictures that take long; a tiny picture is asked for meanwhile, ten times. At most two
  of the long ones are to come between a request and its answer;
- clients come at once, 1,500 of them, and each sends its request as soon as it is connected; twice, and with `full` eight times.
  Then as many come, and each sends its request 60 milliseconds after the last has come. Each is to be answered;
- 40 clients ask for pictures that together take longer than `--timeout`, at one worker: each is to be answered;
- 1,100 clients, and with `full` 1,500, send half a head, and again as soon as they are closed. Another client asks meanwhile, 30
  times, and with `full` 100: all answers but one are to come within two seconds.
- a client takes a picture of 7 MB at 300 KB a second, where `--timeout` is 2. It is to come whole;
- so many clients take nothing of pictures of 6 MB that a worker makes no further answer: another one is to have its tiny picture within
  three seconds;
- clients take every descriptor of the program. An administrator asks 20 times, each time on a connection of its own: each is to be
  answered, and then a client, for which another one gives way;
- a service of 32 workers begins with little memory, 20 times with a little more: where it tells that it listens it is to answer, and
  else to have told nothing and to end with 3, where a thread can't be started, or 4, where there is no memory for what workers share;
- the input ends with which a service ends, while an administrator sends RETRY twice a second, and while nobody reads the log. The
  program is to end within ten seconds, and the administrator to have an answer to each command that it sent before.

The exit status is 1 where anything is otherwise.

Gate: PROGRAM; 40 s
"""
import os
import pathlib
import resource
import selectors
import socket
import subprocess
import sys
import tempfile
import threading
import time

sys.path.insert(0, str(pathlib.Path(__file__).resolve().parents[1] / "lib"))

from served import ports_of, read_all

QUERY = "/wms?VERSION=1.3.0&REQUEST=GetMap&LAYERS={}&STYLES=&CRS=CRS:84&BBOX=0,0,4,4&FORMAT=image/x-portable-pixmap&WIDTH={}&HEIGHT={}"
RING = "FEATURE POINTS 1 1 3 1 3 3 1 3 END END"
LAYER = f"LAYER NAME a TYPE POLYGON CLASS STYLE COLOR 10 20 30 END END {RING} END"
# many features that each cover the picture
DEAR = "LAYER NAME dear TYPE POLYGON CLASS STYLE COLOR 40 50 60 END END " + "FEATURE POINTS 0 0 4 0 4 4 0 4 END END " * 60 + "END"
MAP = f"MAP {LAYER} {DEAR} END\n".encode()
HALF = b"GET /wms HTTP/1.1\r\nHost: "
# how a service ends that doesn't begin for want of memory
WITHOUT_MEMORY = (3, 4)
# a picture of 7,077,888 bytes, more than the system takes at once, and the bytes of it that a slow client takes a second
SIDES, RATE = 1_536, 300_000


def head_of(target, closes=True):
    return f"GET {target} HTTP/1.1\r\n{'Connection: close' if closes else 'Host: a'}\r\n\r\n".encode()


TINY = head_of(QUERY.format("a", 4, 4))


def called(mapfile, workers, *words):
    return [sys.argv[1], "serve", mapfile, "--port", "0", "--admin-port", "0", "--workers", str(workers), *words]


class Server:
    def __init__(self, mapfile, workers, *words, **streams):
        self.process = subprocess.Popen(called(mapfile, workers, *words), stdout=subprocess.PIPE, **streams)
        self.port, self.admin_port = ports_of(self.process.stdout.readline())

    def __enter__(self):
        return self

    def __exit__(self, *_):
        self.process.kill()
        self.process.wait()
        self.process.stdout.close()


def connected(port):
    stream = socket.create_connection(("127.0.0.1", port))
    stream.setsockopt(socket.IPPROTO_TCP, socket.TCP_NODELAY, 1)
    return stream


def seconds_of(port, head=TINY):
    """What an answer takes; none where it doesn't come whole."""
    began = time.monotonic()
    try:
        with socket.create_connection(("127.0.0.1", port), 10) as stream:
            stream.sendall(head)
            response = read_all(stream)
    except OSError:
        return None
    return time.monotonic() - began if response.startswith(b"HTTP/1.1 200 ") else None


def said(is_right, text):
    print(f"{'ok' if is_right else 'failed'}: {text}", flush=True)
    return 0 if is_right else 1


def take_all(stream):
    try:
        read_all(stream)
    except OSError:
        # the other thread has closed it
        pass


def try_followers(mapfile):
    with Server(mapfile, 1) as server:
        for side in (256, 512, 1_024, 2_048):
            target = QUERY.format("dear", side, side)
            one = seconds_of(server.port, head_of(target))
            if one > 0.2:
                break
        with connected(server.port) as ahead:
            ahead.sendall(head_of(target, closes=False) * 12)
            threading.Thread(target=take_all, args=(ahead,), daemon=True).start()
            time.sleep(one / 2)
            waits = [seconds_of(server.port) for _ in range(4)]
        worst = max(wait if wait is not None else 1e9 for wait in waits)
        return said(worst < 3 * one + 0.1, f"beside a client that sends 12 long requests ahead, of {one:.2f} s each: {worst:.2f} s at most")


def burst(port, count, pause=0.0):
    """How many of so many clients, which come at once, were answered whole. They send at once, or so long after all have come."""
    selector, answers = selectors.DefaultSelector(), {}
    for _ in range(count):
        stream = socket.create_connection(("127.0.0.1", port))
        if not pause:
            stream.sendall(TINY)
        answers[stream] = b""
    time.sleep(pause)
    for stream in answers:
        try:
            if pause:
                stream.sendall(TINY)
        except OSError:
            pass
        stream.setblocking(False)
        selector.register(stream, selectors.EVENT_READ)
    until = time.monotonic() + 60
    while selector.get_map() and time.monotonic() < until:
        for key, _ in selector.select(1):
            stream = key.fileobj
            try:
                piece = stream.recv(65_536)
            except OSError:
                piece = b""
            answers[stream] += piece
            if not piece:
                selector.unregister(stream)
                stream.close()
    return sum(answer.startswith(b"HTTP/1.1 200 ") for answer in answers.values())


def try_bursts(mapfile, bursts):
    with Server(mapfile, 4) as server:
        counts = [burst(server.port, 1_500, pause) for pause in (0.0, 0.06) for _ in range(bursts)]
        return said(counts == [1_500] * 2 * bursts, f"of bursts of 1,500 clients were answered: {', '.join(map(str, counts))}")


def try_long_answers(mapfile):
    with Server(mapfile, 1, "--timeout", "1") as server:
        answers, began = [], time.monotonic()

        def ask():
            with socket.create_connection(("127.0.0.1", server.port)) as stream:
                stream.sendall(head_of(QUERY.format("dear", 1_024, 1_024)))
                try:
                    answers.append(read_all(stream))
                except OSError:
                    answers.append(b"")

        threads = [threading.Thread(target=ask) for _ in range(40)]
        for thread in threads:
            thread.start()
        for thread in threads:
            thread.join()
        count = sum(answer.startswith(b"HTTP/1.1 200 ") and len(answer) > 3 * 1_024 * 1_024 for answer in answers)
        return said(count == len(threads), f"of {len(threads)} clients whose answers took {time.monotonic() - began:.2f} s in all were answered: {count}")


def keep_half_heads(port, count, all_sent, stop):
    """So many clients that each send half a head, and again as soon as they are closed."""
    selector, sent = selectors.DefaultSelector(), 0

    def begin():
        stream = socket.socket()
        stream.setblocking(False)
        stream.connect_ex(("127.0.0.1", port))
        selector.register(stream, selectors.EVENT_WRITE)

    for _ in range(count):
        begin()
    while not stop.is_set():
        for key, events in selector.select(0.2):
            stream = key.fileobj
            try:
                if events & selectors.EVENT_WRITE:
                    stream.send(HALF)
                    selector.modify(stream, selectors.EVENT_READ)
                    sent += 1
                    if sent >= count:
                        all_sent.set()
                    continue
                if stream.recv(65_536):
                    continue
            except OSError:
                pass
            selector.unregister(stream)
            stream.close()
            begin()
    for key in list(selector.get_map().values()):
        key.fileobj.close()


def try_half_heads(mapfile, count, asked, enough):
    with Server(mapfile, 4) as server:
        all_sent, stop = threading.Event(), threading.Event()
        thread = threading.Thread(target=keep_half_heads, args=(server.port, count, all_sent, stop), daemon=True)
        thread.start()
        # where the server takes no more, the system doesn't either
        all_sent.wait(10)
        time.sleep(1)
        waits = []
        for _ in range(asked):
            waits.append(seconds_of(server.port))
            time.sleep(0.05)
        stop.set()
        thread.join(10)
        soon = sum(wait is not None and wait <= 2 for wait in waits)
        longest = max((wait for wait in waits if wait is not None), default=-1)
        return said(soon >= enough, f"beside {count} half heads {soon} of {asked} answers came within two seconds, the last after {longest:.2f} s")


def try_slow_reader(mapfile):
    with Server(mapfile, 1, "--timeout", "2") as server, socket.socket() as stream:
        # the system keeps little for this client: what it hasn't taken is the server's
        stream.setsockopt(socket.SOL_SOCKET, socket.SO_RCVBUF, 65_536)
        stream.connect(("127.0.0.1", server.port))
        stream.sendall(head_of(QUERY.format("a", SIDES, SIDES)))
        began, count = time.monotonic(), 0
        while piece := stream.recv(30_000):
            count += len(piece)
            time.sleep(max(0.0, began + count / RATE - time.monotonic()))
        return said(count > 3 * SIDES * SIDES, f"at {RATE // 1_000} KB a second came {count:,} bytes of {3 * SIDES * SIDES:,}")


def try_full_room(mapfile):
    with Server(mapfile, 1) as server:
        streams = []
        for _ in range(30):
            stream = socket.socket()
            stream.setsockopt(socket.SOL_SOCKET, socket.SO_RCVBUF, 4_096)
            stream.connect(("127.0.0.1", server.port))
            stream.sendall(head_of(QUERY.format("a", 2_048, 1_024)))
            streams.append(stream)
        time.sleep(1.5)
        waits = [seconds_of(server.port) for _ in range(3)]
        for stream in streams:
            stream.close()
        worst = max(wait if wait is not None else 1e9 for wait in waits)
        return said(worst < 3, f"beside {len(streams)} clients that take nothing of 6 MB: {worst:.2f} s at most")


def limited(name, value):
    """For a program that is started: a limit of its own."""
    return lambda: resource.setrlimit(name, (value, value))


def try_descriptors(mapfile):
    with Server(mapfile, 2, preexec_fn=limited(resource.RLIMIT_NOFILE, 64)) as server:
        streams = [connected(server.port) for _ in range(100)]
        for number, stream in enumerate(streams):
            stream.sendall(HALF if number % 2 else head_of(QUERY.format("a", 2, 2), closes=False))
        time.sleep(0.5)
        answers = []
        for _ in range(20):
            try:
                with socket.create_connection(("127.0.0.1", server.admin_port), 5) as stream:
                    stream.sendall(b"RETRY\n")
                    answers.append(stream.recv(64))
            except OSError as error:
                answers.append(str(error).encode())
        # a client comes, and another one gives way
        wait = seconds_of(server.port)
        answered = answers.count(b"IDLE\n")
        for stream in streams:
            stream.close()
        return said(answered == len(answers) and wait is not None and wait < 2, f"where clients take every descriptor {answered} of {len(answers)} administrators were answered")


def try_little_memory(mapfile):
    served, unsaid, wrong = 0, 0, []
    for megabytes in range(10, 410, 20):
        limit = limited(resource.RLIMIT_AS, megabytes << 20)
        with subprocess.Popen(called(mapfile, 32), stdout=subprocess.PIPE, stderr=subprocess.PIPE, preexec_fn=limit) as process:
            line = process.stdout.readline()
            if line:
                is_answered = seconds_of(ports_of(line)[0]) is not None
                process.kill()
                served += is_answered
                wrong += [] if is_answered else [f"with {megabytes} MB it listened and didn't answer"]
            else:
                status = process.wait(10)
                is_named = status in WITHOUT_MEMORY
                unsaid += is_named
                wrong += [] if is_named else [f"with {megabytes} MB it ended with {status}, {process.stderr.read(200)}"]
    told = f"with little memory {served} services listened and answered, {unsaid} ended with 3 or 4 and told nothing, {len(wrong)} otherwise"
    return said(not wrong and served > 0 and unsaid > 0, "; ".join([told, *wrong]))


def try_end(mapfile):
    commands = answers = 0
    with Server(mapfile, 1, "--until-input-ends", stdin=subprocess.PIPE) as server, connected(server.admin_port) as stream:
        # bytes aren't the end
        server.process.stdin.write(b"MAP END\n")
        server.process.stdin.flush()
        time.sleep(0.3)
        goes_on = seconds_of(server.port) is not None
        server.process.stdin.close()
        began = time.monotonic()
        try:
            while server.process.poll() is None and time.monotonic() < began + 20:
                stream.sendall(b"RETRY\n")
                commands += 1
                answers += bool(stream.recv(65_536))
                time.sleep(0.5)
        except OSError:
            pass
        server.process.poll() is None and server.process.wait(20)
        seconds = time.monotonic() - began
        is_right = goes_on and seconds < 10 and server.process.returncode == 0
        return said(is_right, f"an administrator that asks on: the program {'answered' if goes_on else 'ended'} before the end, and ended after {seconds:.2f} s")


def try_unread_log(mapfile):
    ours, theirs = os.pipe()
    with Server(mapfile, 1, "--until-input-ends", "--log", stdin=subprocess.PIPE, stderr=theirs) as server:
        os.close(theirs)
        for _ in range(600):
            seconds_of(server.port, head_of(QUERY.format("a", 4, 4) + "&A=" + "b" * 150))
        server.process.stdin.close()
        began = time.monotonic()
        try:
            server.process.wait(20)
        except subprocess.TimeoutExpired:
            pass
        seconds = time.monotonic() - began
        is_right = said(seconds < 10 and server.process.returncode == 0, f"a log that nobody reads: the program ended after {seconds:.2f} s")
    os.close(ours)
    return is_right


def main():
    is_full = "full" in sys.argv[2:]
    soft, hard = resource.getrlimit(resource.RLIMIT_NOFILE)
    resource.setrlimit(resource.RLIMIT_NOFILE, (min(8_192, hard), hard))
    with tempfile.NamedTemporaryFile(suffix=".map") as mapfile:
        mapfile.write(MAP)
        mapfile.flush()
        name = mapfile.name
        wrong = try_followers(name)
        wrong += try_bursts(name, 8 if is_full else 2)
        wrong += try_long_answers(name)
        wrong += try_half_heads(name, 1_500, 100, 99) if is_full else try_half_heads(name, 1_100, 30, 29)
        wrong += try_slow_reader(name)
        wrong += try_full_room(name)
        wrong += try_descriptors(name)
        wrong += try_little_memory(name)
        wrong += try_end(name)
        wrong += try_unread_log(name)
    print("ok" if wrong == 0 else f"failed: {wrong}")
    sys.exit(wrong > 0)


main()
