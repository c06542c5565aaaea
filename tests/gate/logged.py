#!/usr/bin/env python3
"""Holds each line of a server's log against what was asked. Usage: logged.py PROGRAM [CLIENTS]

So many clients, 48 where no number is given, have a connection each and send five requests of their own targets, cut into pieces
anywhere, and the last two at once. The fourth has no CRS and an SRS. An administrator sends three commands. Then the input ends with which the service ends. The log
is to have, for each answer, its connection, its target, its status and its bytes, in the order of the connection; the connections
numbered from 1, each client its own; a line for each command; a hint behind each fourth answer; and no other line. A request that follows another one in the same
piece is to have no more milliseconds than its answer took. The exit status is 1 where anything is otherwise.

Gate: PROGRAM; 1 s
"""
import pathlib
import random
import re
import socket
import subprocess
import sys
import tempfile
import threading
import time

sys.path.insert(0, str(pathlib.Path(__file__).resolve().parents[1] / "lib"))

from served import ports_of

MAP = b"MAP LAYER NAME a TYPE POLYGON CLASS STYLE COLOR 10 20 30 END END FEATURE POINTS 1 1 3 1 3 3 1 3 END END END END\n"
QUERY = "/wms?VERSION=1.3.0&REQUEST=GetMap&LAYERS=a&STYLES=&CRS=CRS:84&BBOX=0,0,4,4&WIDTH={}&HEIGHT=3&FORMAT=image/x-portable-pixmap&N={}"
ANSWER = re.compile(r'answer (\d+) "([^"]*)" (\d+) (\d+) (\d+)\n')
HINT = re.compile(r"hint (\d+) SRS is the name of WMS 1\.1\.1: 1\.3\.0 has CRS\n")


def targets_of(number):
    """Five targets of a client: pictures of several sizes, a path that isn't served, and a service exception."""
    return [QUERY.format(2 + number % 5, number), f"/other/{number}", QUERY.format(7, number), QUERY.format(3, number).replace("CRS=", "SRS="), QUERY.format(9, number)]


def take_answer(stream, kept):
    """The status and the bytes of the next answer, and what came behind it."""
    while b"\r\n\r\n" not in kept:
        kept += stream.recv(65_536)
    head = kept.split(b"\r\n\r\n")[0]
    size = len(head) + 4 + int(re.search(rb"Content-Length: (\d+)", head)[1])
    while len(kept) < size:
        kept += stream.recv(65_536)
    return int(head.split(b" ")[1]), size, kept[size:]


class Client:
    def __init__(self, port, number):
        self.port, self.number, self.answers = port, number, []
        self.thread = threading.Thread(target=self.run)
        self.thread.start()

    def run(self):
        dice = random.Random(self.number)
        targets = targets_of(self.number)
        heads = [f"GET {target} HTTP/1.1\r\nHost: {'h' * dice.randrange(300)}\r\n\r\n".encode() for target in targets]
        with socket.create_connection(("127.0.0.1", self.port)) as stream:
            stream.setsockopt(socket.IPPROTO_TCP, socket.TCP_NODELAY, 1)
            kept = b""
            for sent, count in ((heads[0], 1), (heads[1], 1), (heads[2], 1), (heads[3] + heads[4], 2)):
                if count == 1:
                    cut = dice.randrange(1, len(sent))
                    stream.sendall(sent[:cut])
                    time.sleep(dice.random() / 50)
                    sent = sent[cut:]
                stream.sendall(sent)
                for _ in range(count):
                    status, size, kept = take_answer(stream, kept)
                    self.answers.append((targets[len(self.answers)], status, size))


def administer(port):
    with socket.create_connection(("127.0.0.1", port)) as stream:
        for command in (b"RETRY\n", b"BATCH 5\nOFF a", b"BATCH 3\nNO!"):
            stream.sendall(command)
            yield stream.recv(1_000).decode()


def is_wrong(clients, commands, lines):
    answers, hints, others = {}, [], []
    for line in lines:
        found = ANSWER.fullmatch(line)
        if found:
            answers.setdefault(int(found[1]), []).append((found[2], int(found[3]), int(found[4]), int(found[5])))
        elif found := HINT.fullmatch(line):
            hints.append((int(found[1]), len(answers.get(int(found[1]), []))))
        else:
            others.append(line)
    wrong = []
    if sorted(hints) != [(number, 4) for number in range(1, len(clients) + 1)]:
        wrong.append(f"the hints stand behind these answers: {hints}")
    if sorted(answers) != list(range(1, len(clients) + 1)):
        wrong.append(f"the connections are numbered {sorted(answers)}")
    logged = sorted([line[:3] for line in of_one] for of_one in answers.values())
    if logged != sorted(client.answers for client in clients):
        wrong.append("the answers are others than those that came")
    # the last one came with the one before
    slow = [line for of_one in answers.values() for line in of_one[4:] if line[3] > 1_000]
    if slow:
        wrong.append(f"a request that followed at once has {slow[0][3]} milliseconds")
    if others != [f"batch 1 {answer}" for answer in commands]:
        wrong.append(f"the other lines are {others}")
    return wrong


def main():
    count = int(sys.argv[2]) if len(sys.argv) > 2 else 48
    with tempfile.NamedTemporaryFile(suffix=".map") as mapfile, tempfile.TemporaryFile("w+") as log:
        mapfile.write(MAP)
        mapfile.flush()
        words = [sys.argv[1], "serve", mapfile.name, "--port", "0", "--admin-port", "0", "--log", "--until-input-ends"]
        with subprocess.Popen(words, stdin=subprocess.PIPE, stdout=subprocess.PIPE, stderr=log) as server:
            port, admin_port = ports_of(server.stdout.readline())
            clients = [Client(port, number) for number in range(count)]
            for client in clients:
                client.thread.join()
            commands = list(administer(admin_port))
            server.stdin.close()
            status = server.wait(60)
        log.seek(0)
        wrong = is_wrong(clients, commands, log.readlines())
    if status != 0:
        wrong.append(f"the status is {status}")
    for words in wrong:
        print(f"failed: {words}")
    print(f"{count} clients: {'ok' if not wrong else 'failed'}")
    sys.exit(bool(wrong))


main()
