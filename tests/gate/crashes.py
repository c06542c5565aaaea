#!/usr/bin/env python3
"""Crashes a server that keeps a journal, and looks at what the next one has.

Usage: crashes.py PROGRAM [KILLS [CHANGES [SEED]]]

Two clients submit batches by lot, up to four together, and the server is killed at random moments, KILLS times, 1,000 where it isn't given.
After half of the kills the bytes that no call has synced are lost, or others stand in their place, as after a loss of
power. Then each call that the server makes on the journal is, in turn, not made or made by half, with the death of the
server behind it, or fails; while the journal is made, while batches come, and while one with a torn end is opened. A
library that is loaded before the C library, built here with cc, does that, and reports how much was synced. All of it is
done once more with batches of 100 to 350 KB and a checkpoint at 1 MB; there the name of a file is lost, too, that its folder wasn't
synced after.

After each the server is started again: its sequence, its pictures and the features that it lists have to be those of
a list of batches that begins with all that was reported to a client, and that each was submitted. At last a byte of a journal
is changed at random, or the journal is cut, CHANGES times, 10,000 where it isn't given: the server refuses it and leaves it as it is,
or a record that an append wrote last is cut off, and no other. That is done with a journal that was never compacted and with one that
was, half of the times in the header. It ends with 1 where something else came out.

Gate: PROGRAM 50 500; needs cc; 120 s
"""
import collections
import itertools
import mmap
import multiprocessing
import os
import pathlib
import random
import re
import socket
import struct
import subprocess
import sys
import tempfile
import threading
import time

sys.path.insert(0, str(pathlib.Path(__file__).resolve().parents[1] / "lib"))

from point_batches import MAP, Batch, State, answers_of, append, batch_by_lot, sequence_of
from preloaded import built
from served import ports_of

# the kills after which a new journal is begun, so that a start doesn't take longer and longer
LIVES = 50
LONGEST = 60
# the bytes of the longest header of a journal
HEADER = 98


class Wrong(Exception):
    """What came out that shouldn't, in a sentence."""


class Life:
    """A server with a journal, from its start to its end."""

    def __init__(self, bench, at=0, how="none"):
        self.bench, self.published = bench, []
        bench.count(0, bench.synced)
        words = [bench.program, "serve", "--explain", "map.map", "--port", "0", "--admin-port", "0", "--workers", "1", "--journal", str(bench.journal)]
        words += ["--checkpoint", "1"] * bench.has_checkpoints
        env = {"LD_PRELOAD": bench.shim, "SEEN": str(bench.seen), "JOURNAL": str(bench.journal), "AT": str(at), "HOW": how}
        self.process = subprocess.Popen(words, stdout=subprocess.PIPE, stderr=subprocess.PIPE, cwd=bench.folder, env=env)
        self.watch = threading.Timer(LONGEST, self.process.kill)
        self.watch.start()
        self.ports = ports_of(self.process.stdout.readline())

    def end(self):
        """Kills it, unless it has ended: its status and what it wrote on standard error."""
        self.process.kill()
        errors = self.process.communicate()[1]
        self.watch.cancel()
        return self.process.returncode, errors

    def submit(self, *batches):
        """The lines that answer batches which are sent together, as much of them as came, and nothing for those that got none."""
        got = b""
        try:
            with socket.create_connection(("127.0.0.1", self.ports[1]), LONGEST) as stream:
                stream.sendall(b"".join(b"BATCH %d\n%s" % (len(batch.data), batch.data) for batch in batches))
                while got.count(b"\n") < len(batches) and (piece := stream.recv(1_000)):
                    got += piece
        except OSError:
            pass
        lines = got.splitlines(keepends=True)
        return lines + [b""] * (len(batches) - len(lines))


def take(batches, lines, published):
    """Notes the batches whose lines report them as published, by sequence: the others, but for those that are refused."""
    left = []
    for batch, line in zip(batches, lines):
        if line.startswith(b"PUBLISHED ") and line.endswith(b"\n"):
            published[int(line.split()[1])] = batch
        elif not (batch.refusal and line == batch.refusal + b"\n"):
            if line not in (b"", b"FAILED\n") and not b"PUBLISHED".startswith(line.split(b" ")[0]) and not (batch.refusal or b"").startswith(line):
                raise Wrong(f"a batch is answered with {line!r}")
            left.append(batch)
    return left


class Bench:
    """A folder with a journal, and the batches that it has by what was reported to clients and what servers showed."""

    def __init__(self, program, shim, folder, seed):
        self.program, self.shim, self.folder = program, shim, pathlib.Path(folder)
        self.journal, self.seen = self.folder / "journal", self.folder / "seen"
        (self.folder / "map.map").write_text(MAP)
        self.seen.write_bytes(bytes(4096))
        with open(self.seen, "r+b") as file:
            self.shared = mmap.mmap(file.fileno(), 16)
        self.chance, self.kept, self.number, self.has_checkpoints = random.Random(seed), [], 0, False
        self.states = [State()]

    def count(self, calls, synced):
        self.shared[:] = struct.pack("=qq", calls, synced)

    @property
    def calls(self):
        return struct.unpack("=qq", self.shared)[0]

    @property
    def synced(self):
        return struct.unpack("=qq", self.shared)[1]

    def renew(self):
        """Begins with no journal."""
        for path in self.folder.glob("journal*"):
            path.unlink()
        self.kept, self.states = [], [State()]
        self.count(0, 0)

    def batch(self):
        self.number += 1
        return batch_by_lot(self.chance, str(self.number), self.chance.randrange(100_000, 350_000) * self.has_checkpoints)

    def filling(self):
        """A batch of 300 KB, which empties the layer in half of the cases."""
        self.number += 1
        return append(self.chance, str(self.number), self.chance.random() < 0.5, 300_000)

    def client(self, life, end, published, open_batches, lock):
        """Submits batches, up to four together, until the server is gone."""
        while not end.is_set():
            with lock:
                batches = [self.batch() for _ in range(self.chance.choice((1, 1, 2, 4)))]
            left = take(batches, life.submit(*batches), published)
            if left:
                open_batches.extend(left)
                return

    def lead(self, life, seconds):
        """Lets two clients submit until the server is killed: what was reported as published, by sequence, and what was not answered."""
        end, published, open_batches, lock = threading.Event(), {}, [], threading.Lock()
        clients = [threading.Thread(target=self.client, args=(life, end, published, open_batches, lock)) for _ in range(2)]
        for client in clients:
            client.start()
        if seconds is not None:
            time.sleep(seconds)
            life.process.kill()
        for client in clients:
            client.join()
        return published, open_batches

    def look(self, life, published, open_batches):
        """Takes over what the server has: a list that begins with all that was reported, and has nothing but what was submitted."""
        sequence = sequence_of(life.ports[0])
        if sequence < max(published, default=len(self.kept)):
            raise Wrong(f"the sequence is {sequence}, and {max(published, default=len(self.kept))} was reported")
        found = answers_of(life.ports[0])
        missing = [number for number in range(len(self.kept) + 1, sequence + 1) if number not in published]
        accepted = [batch for batch in open_batches if not batch.refusal]
        for filling in itertools.permutations(accepted, len(missing)):
            batches = {**published, **dict(zip(missing, filling))}
            states = self.states[-1:]
            for number in range(len(self.kept) + 1, sequence + 1):
                states.append(batches[number].after(states[-1]))
            if states[-1].answers() == found:
                self.kept += [batches[number] for number in range(len(self.kept) + 1, sequence + 1)]
                self.states += states[1:]
                return sequence - max(published, default=0) if published else 0
        raise Wrong(f"at sequence {sequence} the answers are those of no list of batches that was submitted: {found[1][-300:]!r}")

    def lose(self):
        """What a loss of power may leave: a prefix of what wasn't synced, or other bytes in its place."""
        lost, unnamed = (self.journal.with_name(f"journal.{ending}") for ending in ("lost", "unnamed"))
        if unnamed.exists():
            self.journal.unlink(missing_ok=True)
            unnamed.unlink()
            return True
        if lost.exists():
            # all of the file that had the name before was synced
            if self.chance.random() < 0.5:
                os.replace(lost, self.journal)
                return True
            lost.unlink()
        data, synced = self.journal.read_bytes(), self.synced
        if len(data) <= synced:
            return False
        tail = data[synced : self.chance.randint(synced, len(data))]
        if self.chance.random() < 0.5:
            tail = self.chance.choice([bytes(len(tail)), self.chance.randbytes(len(tail))])
        self.journal.write_bytes(data[:synced] + tail)
        return True

    def must_start(self, at=0, how="none"):
        life = Life(self, at, how)
        if not life.ports:
            raise Wrong(f"the server doesn't start again: {life.end()}")
        return life


def kills_of(bench, count, found):
    """Kills a server at random moments."""
    published, open_batches = {}, []
    for number in range(count):
        if number % LIVES == 0:
            bench.renew()
            published, open_batches = {}, []
        life = bench.must_start()
        found["shown and not reported"] += bench.look(life, published, open_batches)
        published, open_batches = bench.lead(life, bench.chance.uniform(0, 1.5 if bench.has_checkpoints else 0.1))
        life.end()
        found["kills"] += 1
        found["reported"] += len(published)
        found["not answered"] += len(open_batches)
        if bench.chance.random() < 0.5:
            found["bytes lost"] += bench.lose()
    life = bench.must_start()
    bench.look(life, published, open_batches)
    life.end()


def tear(bench):
    """Leaves half of a record at the journal's end."""
    with open(bench.journal, "ab") as file:
        file.write(b"\xc0\0\0\0half")


def begin_torn(bench):
    """Leaves a journal with a torn end: what was reported as published, and what wasn't answered."""
    life = bench.must_start()
    published, open_batches = few(bench, life)
    life.end()
    tear(bench)
    return published, open_batches


def must_go_on(bench, published, open_batches):
    """That the next server has what it must have, and takes further batches."""
    after = bench.must_start()
    bench.look(after, published, open_batches)
    _, rest = few(bench, after)
    after.end()
    return not rest


def tried_at(bench, at, how, is_torn, found):
    """A life whose call of this number is stopped, torn or fails: whether there was one."""
    bench.renew()
    published, open_batches = begin_torn(bench) if is_torn else ({}, [])
    life = Life(bench, at, how)
    if is_torn and life.ports:
        bench.look(life, published, open_batches)
    published_now, open_now = few(bench, life) if life.ports else ({}, [])
    reached = bench.calls >= at
    if how == "fail" and reached and not bench.has_checkpoints:
        # a server that can't keep a batch ends by itself
        try:
            life.process.wait(LONGEST)
        except subprocess.TimeoutExpired:
            pass
    status, errors = life.end()
    if bench.journal.exists() and bench.chance.random() < 0.5:
        found["bytes lost"] += bench.lose()
    # where a file can't be made that is to take the journal's place, the server goes on with the journal
    if how == "fail" and reached and status != 3 and not bench.has_checkpoints:
        raise Wrong(f"where call {at} fails the status is {status}: {errors!r}")
    if is_torn and not life.ports:
        published_now, open_now = published, open_batches
    if not must_go_on(bench, published_now, open_now):
        raise Wrong(f"after call {at} ({how}) a batch isn't answered")
    found[f"{how}, {'torn' if is_torn else 'new'}"] += reached
    return reached


def few(bench, life):
    """Two batches, one after the other, and then three together, up to the first that isn't answered. With checkpoints one comes with the last."""
    published = {}
    for count in (1, 1, 3):
        batches = [bench.filling() if bench.has_checkpoints else bench.batch() for _ in range(count)]
        left = take(batches, life.submit(*batches), published)
        if left:
            return published, left
    return published, []


def calls_of(bench, found):
    """Each call on the journal in turn."""
    for is_torn in (False, True):
        for how in ("stop", "tear", "fail"):
            at = 1
            while tried_at(bench, at, how, is_torn, found):
                at += 1


def end_of(sizes, place, is_cut):
    """The size to which the server cuts a journal whose byte at a place is changed, or that is cut there: None where it refuses it. The sizes are those at which it may end."""
    if is_cut:
        return max((size for size in sizes if size <= place), default=None)
    return sizes[-2] if place >= sizes[-2] else None


def changed(job):
    """A journal with a byte changed, or cut: what a start makes of it."""
    program, data, sizes, seed = job
    chance = random.Random(seed)
    # half of the places are in the header
    place, change, is_cut = chance.randrange(chance.choice((HEADER, len(data)))), chance.randrange(1, 256), chance.random() < 0.25
    other = bytearray(data)
    other[place] ^= change
    if is_cut:
        other = data[:place]
    with tempfile.TemporaryDirectory() as folder:
        path = pathlib.Path(folder)
        (path / "map.map").write_text(MAP)
        (path / "journal").write_bytes(other)
        words = [program, "serve", "map.map", "--port", "0", "--admin-port", "0", "--until-input-ends", "--journal", "journal"]
        done = subprocess.run(words, cwd=folder, stdin=subprocess.DEVNULL, capture_output=True, timeout=LONGEST)
        left = (path / "journal").read_bytes()
    refused = re.fullmatch(rb"fault journal journal: ([^\n]+?)( \d+)?\n", done.stderr)
    end = end_of(sizes, place, is_cut)
    if end is None and done.returncode == 1 and refused and left == bytes(other):
        return f"refused: {refused[1].decode()}"
    if end is not None and done.returncode == 0 and left == data[:end]:
        return "a torn record is cut off"
    did = "cut" if is_cut else f"changed by {change}"
    return f"wrong: {did} at {place} of {len(data)}: {done.returncode}, {done.stderr!r}, {len(left)} bytes left"


def compact(bench, life):
    """Has the journal compacted: the batches leave an OFF, a CLEAR and an APPEND, in two records."""
    batches = [Batch(b"OFF b\n", None), *(append(bench.chance, f"filling {number}", False, 300_000) for number in range(3))]
    batches.append(Batch(b"CLEAR a\n" * 20_000 + append(bench.chance, "left", False).data, None))
    if not all(life.submit(batch)[0].startswith(b"PUBLISHED") for batch in batches):
        raise Wrong("a batch isn't published")
    if not bench.journal.read_bytes().startswith(b"KESMOCH JOURNAL 3\n"):
        raise Wrong("the journal isn't compacted")


def changes_of(bench, count, found):
    """A byte of a journal of 20 batches is changed at random, or the journal is cut there; with checkpoints, one that was compacted, with ten batches after that."""
    bench.renew()
    life = bench.must_start()
    if bench.has_checkpoints:
        compact(bench, life)
    sizes = [bench.journal.stat().st_size]
    while len(sizes) < (11 if bench.has_checkpoints else 21):
        bench.number += 1
        if life.submit(batch_by_lot(bench.chance, str(bench.number)))[0].startswith(b"PUBLISHED"):
            sizes.append(bench.journal.stat().st_size)
    life.end()
    data = bench.journal.read_bytes()
    jobs = ((bench.program, data, sizes, f"{bench.chance.random()}") for _ in range(count))
    with multiprocessing.Pool() as pool:
        for outcome in pool.imap_unordered(changed, jobs, 16):
            found[outcome] += 1
    wrong = [outcome for outcome in found if outcome.startswith("wrong")]
    for outcome in wrong:
        found["wrong"] += found.pop(outcome)
    if wrong:
        raise Wrong("; ".join(wrong[:5]))


def main():
    words = sys.argv[1:]
    if not 1 <= len(words) <= 4 or not all(word.isdecimal() for word in words[1:]):
        sys.exit(__doc__.split("\n\n")[1])
    kills, changes, seed = [int(word) for word in words[1:]] + [1000, 10_000, 1][len(words) - 1 :]
    wrong = 0
    with tempfile.TemporaryDirectory() as folder:
        bench = Bench(os.path.abspath(words[0]), built("crashes", folder), folder, seed)
        parts = (("kills", lambda found: kills_of(bench, kills, found)), ("calls", lambda found: calls_of(bench, found)), ("changes", lambda found: changes_of(bench, changes, found)))
        for part, act in (*parts, *((f"{part} with checkpoints", act) for part, act in parts)):
            found, begun = collections.Counter(), time.monotonic()
            bench.has_checkpoints = part.endswith("checkpoints")
            try:
                act(found)
            except Wrong as why:
                wrong += 1
                print(f"wrong: {part}: {why}")
            print(f"{part}: " + ", ".join(f"{count} {name}" for name, count in sorted(found.items())) + f"; {time.monotonic() - begun:.0f} s", flush=True)
    print("ok" if wrong == 0 else f"failed: {wrong}")
    sys.exit(wrong > 0)


if __name__ == "__main__":
    main()
