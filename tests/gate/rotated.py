#!/usr/bin/env python3
"""Tries `deploy/rotate`: whether a new journal of what it writes has the map of the old one. Usage: rotated.py PROGRAM [ROUNDS [SEED]]

In each of ROUNDS, 20 where it isn't given, a server with a journal gets up to 60 batches by lot, in the first none, and is killed; every third
time the journal ends within a record. What is written of the journal is sent by `deploy/batch` to a server with a new one, which is killed and
started again: its picture and the features that it lists have to be those of all batches, worked out by the rules. A journal with
a changed byte has to be refused, or to lack its last record, and a file that is none to be refused. It ends with 1 where something else came out.

Gate: PROGRAM 5; 8 s
"""
import os
import pathlib
import random
import re
import subprocess
import sys
import tempfile

sys.path.insert(0, str(pathlib.Path(__file__).resolve().parents[1] / "lib"))

from point_batches import MAP, State, answers_of, batch_by_lot
from served import ports_of

TOP = pathlib.Path(__file__).resolve().parents[2]
ROTATE, BATCH = TOP / "deploy" / "rotate", TOP / "deploy" / "batch"


# The layer of points begins with one, so that it shows whether it was emptied.
BEGUN = MAP.replace("SIZE 1 END END END", 'SIZE 1 END END FEATURE ITEMS "first" POINTS 3.5 2.5 END END END')
FIRST = State((("first", 3, 13),))


class Wrong(Exception):
    pass


def after(batches):
    state = FIRST
    for batch in batches:
        state = batch.after(state)
    return state


class Server:
    def __init__(self, program, folder, journal):
        words = [program, "serve", "map.map", "--port", "0", "--admin-port", "0", "--workers", "2", "--journal", journal]
        self.process = subprocess.Popen(words, stdout=subprocess.PIPE, cwd=folder)
        self.port, self.administration = ports_of(self.process.stdout.readline())

    def __enter__(self):
        return self

    def __exit__(self, *_):
        self.process.kill()
        self.process.wait()


def submit(server, batches):
    from administration import Administrator

    with Administrator(("127.0.0.1", server.administration)) as administrator:
        for batch in batches:
            word = administrator.batch(batch.data).word
            if word != ("REFUSED" if batch.refusal else "PUBLISHED"):
                raise Wrong(f"{batch.data[:60]} was answered with {word}")


def rotated(folder, journal, to):
    return subprocess.run([ROTATE, journal, to], cwd=folder, capture_output=True, text=True)


def send(folder, server, to):
    parts = sorted(pathlib.Path(folder, to).glob("*.commands"), key=lambda path: int(path.stem))
    for part in parts:
        with part.open("rb") as file:
            done = subprocess.run([BATCH, str(server.administration), "-"], stdin=file, capture_output=True, text=True)
        if done.returncode != 0:
            raise Wrong(f"{part.name}: {done.stderr}")


def attempt(program, folder, chance, number):
    old, new, to = (f"{number}.{name}" for name in ("old", "new", "rotated"))
    batches = [batch_by_lot(chance, f"{number}-{count}") for count in range(chance.randrange(60) if number > 1 else 0)]
    with Server(program, folder, old) as server:
        submit(server, batches)
    with open(os.path.join(folder, old), "ab") as file:
        file.write(b"\xc0torn" if number % 3 == 0 else b"")
    said = rotated(folder, old, to)
    accepted = sum(not batch.refusal for batch in batches)
    if said.returncode != 0 or not re.fullmatch(rf"{accepted} batches, \d+ now\n", said.stdout):
        raise Wrong(f"rotate of {accepted} batches: {said}")
    with Server(program, folder, new) as server:
        send(folder, server, to)
    with Server(program, folder, new) as server:
        if answers_of(server.port) != after(batches).answers():
            raise Wrong(f"round {number}: another map")


def changed(folder, chance, journal):
    """A journal of which a byte behind its begin is changed is refused, or its last record left out."""
    path = os.path.join(folder, journal)
    with open(path, "rb") as file:
        data = file.read()
    whole = int(rotated(folder, journal, journal + ".again").stdout.split()[0])
    for turn in range(50):
        at, bit = chance.randrange(50, len(data)), 1 << chance.randrange(8)
        with open(os.path.join(folder, "changed"), "wb") as file:
            file.write(data[:at] + bytes([data[at] ^ bit]) + data[at + 1:])
        said = rotated(folder, "changed", f"changed.{turn}")
        if said.returncode != 1 and not said.stdout.startswith(f"{whole - 1} batches,"):
            raise Wrong(f"byte {at} changed by {bit}: {said}")


def refused(folder):
    for name, content in (("none", b"MAP\n"), ("short", b"KESMOCH JOURNAL 1\nand less")):
        pathlib.Path(folder, name).write_bytes(content)
        said = rotated(folder, name, name + ".rotated")
        if said.returncode != 1 or said.stderr != f"rotate: {name} is no journal\n":
            raise Wrong(f"{name}: {said}")


def main():
    words = sys.argv[1:]
    if not 1 <= len(words) <= 3 or not all(word.isdecimal() for word in words[1:]):
        sys.exit(__doc__.split("\n\n")[0])
    sys.path.insert(0, str(TOP / "deploy" / "lib"))
    rounds, seed = [int(word) for word in words[1:]] + [20, 1][len(words) - 1:]
    chance = random.Random(seed)
    with tempfile.TemporaryDirectory() as folder:
        pathlib.Path(folder, "map.map").write_text(BEGUN)
        try:
            for number in range(1, rounds + 1):
                attempt(os.path.abspath(words[0]), folder, chance, number)
            journals = [f"{number}.old" for number in range(1, rounds + 1)]
            changed(folder, chance, max(journals, key=lambda name: os.path.getsize(os.path.join(folder, name))))
            refused(folder)
        except Wrong as why:
            sys.exit(f"wrong: {why}")
    print(f"{rounds} journals: ok")


if __name__ == "__main__":
    main()
