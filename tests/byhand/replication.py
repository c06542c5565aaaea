#!/usr/bin/python3
"""Tries three servers that follow one log of PostgreSQL's, behind nginx, while all that takes part is stopped in turn.

Usage: replication.py PROGRAM [BATCHES [SEED]]

Two submitters add BATCHES by lot, 1,000 where it isn't given, one in ten of them refused, and wait for each answer.
After a quarter of them the engine is stopped, and once as by a crash, and started; a follower is killed between submitting and noting,
and started; a server is killed and started from its journal, another without it; all again and again. At the end each
server has the sequence that the log says, and draws and lists what the log's accepted batches give by the rules; each
answer that a submitter got stands in the log. It says how far apart the servers were meanwhile, in batches and
milliseconds. It needs Debian's postgresql, python3-psycopg2 and nginx-light. Where PROGRAM takes no --journal, servers
start from the mapfile alone. It ends with 1 where something is wrong.
"""
import bisect
import os
import pathlib
import random
import shutil
import signal
import socket
import statistics
import subprocess
import sys
import tempfile
import threading
import time

TOP = pathlib.Path(__file__).resolve().parents[2]
sys.dont_write_bytecode = True
sys.path.insert(0, str(TOP / "deploy" / "lib"))
sys.path.insert(0, str(pathlib.Path(__file__).resolve().parents[1] / "lib"))

import batchlog
from administration import Unanswered
import point_batches
from point_batches import MAP, PICTURE, answers_of, ask, batch_by_lot, sequence_of

ENGINE = sorted(pathlib.Path("/usr/lib/postgresql").glob("*/bin"))[-1:]
# A follower that is killed once the server has published a batch, before anything is noted of it.
KILLED = """
import os, runpy, signal, sys
sys.path.insert(0, sys.argv[1] + "/lib")
import follower
follower.Server.settle = lambda *_: os.kill(os.getpid(), signal.SIGKILL)
sys.argv[1:2] = []
sys.argv[0] = "replicate"
runpy.run_path(os.path.dirname(follower.__file__) + "/../replicate", run_name="__main__")
"""


def free_ports(count):
    """Ports that nobody listens on."""
    held = [socket.create_server(("127.0.0.1", 0)) for _ in range(count)]
    ports = [one.getsockname()[1] for one in held]
    for one in held:
        one.close()
    return ports


def shares(sizes):
    """What half of some sizes, and nine of ten, don't exceed, and the largest."""
    return f"{statistics.median(sizes):.0f} (half), {sizes[int(0.9 * len(sizes))]:.0f} (nine of ten), {sizes[-1]:.0f} (at most)"


class Engine:
    """PostgreSQL, in a folder of its own."""

    def __init__(self, folder, port):
        self.folder, self.port = folder / "engine", port
        self.folder.mkdir()
        shutil.chown(self.folder, "postgres" if os.getuid() == 0 else None)
        self.call("initdb", "-A", "trust", "-D", "data")
        self.start()
        self.call("createdb", "-h", "127.0.0.1", "-p", str(port), "maps")
        self.dsn = f"host=127.0.0.1 port={port} dbname=maps" + (" user=postgres" if os.getuid() == 0 else "")

    def call(self, name, *words):
        before = ["runuser", "-u", "postgres", "--"] if os.getuid() == 0 else []
        subprocess.run([*before, str(ENGINE[0] / name), *words], cwd=self.folder, check=True, stdout=subprocess.DEVNULL, stderr=subprocess.DEVNULL)

    def start(self):
        self.call("pg_ctl", "-D", "data", "-l", "log", "-w", "-o", f"-p {self.port} -k {self.folder} -c listen_addresses=127.0.0.1", "start")

    def stop(self, how):
        self.call("pg_ctl", "-D", "data", "-w", "-m", how, "stop")


class Server:
    """A server and its follower."""

    def __init__(self, name, program, folder, dsn, has_journal):
        self.name, self.program, self.folder, self.dsn = name, program, folder, dsn
        self.port, self.admin = free_ports(2)
        self.journal = folder / f"{name}.journal" if has_journal else None
        self.process = self.following = None
        # the sequences that were seen, and when each began to be
        self.moments, self.sequences = [], []

    def start(self):
        words = [self.program, "serve", "--explain", str(self.folder / "map.map"), "--port", str(self.port), "--admin-port", str(self.admin), "--workers", "2"]
        words += ["--journal", str(self.journal)] if self.journal else []
        self.process = subprocess.Popen(words, stdout=subprocess.PIPE, stderr=subprocess.DEVNULL)
        if not self.process.stdout.readline().startswith(b"listening"):
            sys.exit(f"failed: the server {self.name} doesn't start")

    def follow(self, is_killed=False):
        words = [sys.executable, "-c", KILLED, str(TOP / "deploy")] if is_killed else [str(TOP / "deploy" / "replicate")]
        words += ["follow", self.dsn, "--admin", f"127.0.0.1:{self.admin}", "--clients", f"127.0.0.1:{self.port}"]
        words += ["--note", str(self.folder / f"{self.name}.note"), "--proxy", str(self.folder)]
        with open(self.folder / f"{self.name}.log", "ab") as log:
            self.following = subprocess.Popen(words, stderr=log)

    def watch(self, end):
        """Notes when the sequence changes."""
        while not end.is_set():
            try:
                sequence = sequence_of(self.port)
                if not self.sequences or sequence != self.sequences[-1]:
                    self.moments.append(time.monotonic())
                    self.sequences.append(sequence)
            except (OSError, TypeError):
                pass
            time.sleep(0.002)

    def at(self, moment):
        """The sequence that was seen last at a moment."""
        place = bisect.bisect_right(self.moments, moment)
        return self.sequences[place - 1] if place else 0

    def reached(self):
        """When the server first had each sequence, or a later one."""
        times = {}
        for moment, sequence in zip(self.moments, self.sequences):
            for number in range(len(times) + 1, sequence + 1):
                times[number] = moment
        return times


class Trial:
    def __init__(self, folder, program, count, seed):
        self.folder, self.count, self.chance = folder, count, random.Random(seed)
        self.engine = Engine(folder, free_ports(1)[0])
        has_journal = b"--journal" in subprocess.run([program, "serve", "--help"], capture_output=True).stderr
        (folder / "map.map").write_text(MAP)
        subprocess.run([TOP / "deploy" / "replicate", "init", self.engine.dsn], check=True)
        self.servers = [Server(name, program, folder, self.engine.dsn, has_journal) for name in ("one", "two", "three")]
        self.proxy = self.start_proxy()
        self.reported, self.batches, self.wrong, self.done = [], {}, 0, []
        self.pictures = {"200": 0, "other": 0}
        # no batch is added any more, and nothing is stopped; and nothing is asked
        self.is_quiet, self.end = threading.Event(), threading.Event()

    def start_proxy(self):
        """nginx before the three, by the configuration of deploy/."""
        port = free_ports(1)[0]
        text = (TOP / "deploy" / "nginx.conf").read_text()
        lines = "\n".join(f"        server 127.0.0.1:{server.port} max_fails=0;" for server in self.servers)
        text = text.replace("listen 127.0.0.1:8000;", f"listen 127.0.0.1:{port};")
        first, found, rest = text.partition("        server 127.0.0.1:8080 max_fails=0;")
        assert found
        (self.folder / "nginx.conf").write_text(first + lines + rest.replace("127.0.0.1:8080", f"127.0.0.1:{self.servers[0].port}"))
        (self.folder / "proxy").mkdir()
        subprocess.run(["nginx", "-p", str(self.folder), "-c", "nginx.conf"], check=True, stdout=subprocess.DEVNULL, stderr=subprocess.DEVNULL)
        return port

    def look(self, name, found, expected):
        if found != expected:
            self.wrong += 1
            print(f"{name}: {found!r:.300}, not {expected!r:.300}")

    def submit(self, name):
        """Half of the batches, one after the other."""
        chance = random.Random(f"{name} {self.count}")
        for number in range(self.count // 2):
            batch = batch_by_lot(chance, f"{name}{number}")
            place, line = self.insist(batch)
            self.batches[place] = batch
            self.reported.append((place, line))

    def insist(self, batch):
        """What becomes of a batch, which is submitted again while nobody answers: then it isn't in the log."""
        while True:
            try:
                return batchlog.submit(self.engine.dsn, batch.data, 120)
            except Unanswered as why:
                self.look("whether a batch is in the log", why.is_open, False)
                time.sleep(0.1)

    def look_at_proxy(self):
        """Asks the proxy for pictures without pause."""
        while not self.end.is_set():
            try:
                is_picture = ask(self.proxy, PICTURE).startswith((b"P6\n", point_batches.NO_LAYER[:40]))
            except OSError:
                is_picture = False
            self.pictures["200" if is_picture else "other"] += 1
            time.sleep(0.02)

    def disturb(self):
        """Stops something and starts it again, until the submitters are done."""
        ways = [self.stop_engine, self.crash_engine, self.kill_follower, self.kill_server, self.kill_without_journal]
        while len(self.reported) < self.count // 4 and not self.is_quiet.is_set():
            time.sleep(0.01)
        while True:
            for way in ways:
                time.sleep(self.chance.uniform(0.5, 1.5))
                if self.is_quiet.is_set():
                    return
                self.done.append(way.__name__)
                way()
                self.catch_up()

    def catch_up(self):
        """Waits until each server has what one has now, or 30 seconds."""
        wanted, until = max(max(server.sequences, default=0) for server in self.servers), time.monotonic() + 30
        while time.monotonic() < until and not all(self.is_at(server, wanted) for server in self.servers):
            time.sleep(0.05)

    @staticmethod
    def is_at(server, sequence):
        try:
            return sequence_of(server.port) >= sequence
        except (OSError, TypeError):
            return False

    def stop_engine(self):
        self.engine.stop("fast")
        time.sleep(0.5)
        self.engine.start()

    def crash_engine(self):
        self.engine.stop("immediate")
        self.engine.start()

    def kill_follower(self):
        """One that is killed between submitting and noting, and another at any moment."""
        first, second, _ = self.chance.sample(self.servers, 3)
        first.following.send_signal(signal.SIGKILL)
        second.following.send_signal(signal.SIGKILL)
        first.following.wait()
        second.following.wait()
        first.follow(is_killed=True)
        while first.following.poll() is None and not self.is_quiet.is_set():
            time.sleep(0.01)
        first.following.kill()
        first.following.wait()
        first.follow()
        second.follow()

    def kill_server(self, forgets=False):
        server = self.chance.choice(self.servers)
        server.process.kill()
        server.process.wait()
        if forgets and server.journal:
            server.journal.unlink(missing_ok=True)
        time.sleep(0.3)
        server.start()

    def kill_without_journal(self):
        self.kill_server(True)

    def run(self):
        for server in self.servers:
            server.start()
            server.follow()
        watches = [threading.Thread(target=server.watch, args=(self.end,)) for server in self.servers]
        watches.append(threading.Thread(target=self.look_at_proxy))
        submitters = [threading.Thread(target=self.submit, args=(name,)) for name in "pq"]
        disturbing = threading.Thread(target=self.disturb)
        begun = time.monotonic()
        for thread in watches + submitters + [disturbing]:
            thread.start()
        for thread in submitters:
            thread.join()
        spent = time.monotonic() - begun
        self.is_quiet.set()
        disturbing.join()
        self.settle()
        self.end.set()
        for thread in watches:
            thread.join()
        self.judge()
        self.report(spent)

    def expected(self):
        """The batches of the log that were accepted, by the rules, and their answers."""
        state, sequence, lines = point_batches.State(), 0, {}
        with batchlog.Log(self.engine.dsn) as log:
            self.look("the log's batches", log.ask("SELECT count(*), max(number) FROM kesmoch_log")[0], (self.count, self.count))
            for number in range(1, self.count + 1):
                batch = self.batches[number]
                sequence += not batch.refusal
                state = batch.after(state)
                lines[number] = batch.refusal.decode() if batch.refusal else f"PUBLISHED {sequence}"
                self.look(f"the log's answer {number}", log.answer(number), lines[number])
        return state, sequence, lines

    def settle(self):
        """Waits until all servers have all batches, or a minute."""
        wanted, until = sum(not batch.refusal for batch in self.batches.values()), time.monotonic() + 60
        while time.monotonic() < until:
            if all(self.is_at(server, wanted) for server in self.servers):
                return
            time.sleep(0.05)

    def judge(self):
        state, sequence, lines = self.expected()
        for number, line in self.reported:
            self.look(f"what was reported of {number}", line, lines[number])
        for server in self.servers:
            self.look(f"the sequence of {server.name}", sequence_of(server.port), sequence)
            self.look(f"the answers of {server.name}", answers_of(server.port), state.answers())
            self.look(f"the follower of {server.name}", server.following.poll(), None)
        # The proxy forgets its pictures a moment after the last follower has asked it to.
        time.sleep(3)
        self.look("the proxy's picture", ask(self.proxy, PICTURE), state.picture())

    def report(self, spent):
        print(f"{self.count} batches in {spent:.1f} s, {sum(not batch.refusal for batch in self.batches.values())} accepted; disturbed {len(self.done)} times:", end=" ")
        print(", ".join(f"{name} {self.done.count(name)}" for name in sorted(set(self.done))))
        quiet, last = self.count // 5, max(self.servers[0].sequences)
        for name, first, end in (("before the first stop", 1, quiet), ("from then on", quiet + 1, last)):
            self.report_between(name, first, end)
        print(f"the proxy: {self.pictures['200']} pictures, {self.pictures['other']} other answers")

    def report_between(self, name, first, last):
        """How far apart the servers were, by the batches of these sequences."""
        reached = [server.reached() for server in self.servers]
        times = [[one[sequence] for one in reached] for sequence in range(first, last + 1)]
        apart = sorted(1000 * (max(one) - min(one)) for one in times)
        behind = sorted(self.behind(min(one)) for one in times)
        print(f"{name}: a batch was on the last server {shares(apart)} ms after the first; when it came to the first, the last was {shares(behind)} batches behind")

    def behind(self, moment):
        """How many batches the last server is behind the first at a moment."""
        sequences = [server.at(moment) for server in self.servers]
        return max(sequences) - min(sequences)

    def close(self):
        for server in self.servers:
            for process in (server.following, server.process):
                if process:
                    process.kill()
        subprocess.run(["nginx", "-p", str(self.folder), "-c", "nginx.conf", "-s", "quit"], stderr=subprocess.DEVNULL)
        try:
            self.engine.stop("immediate")
        except subprocess.CalledProcessError:
            pass


def main():
    words = sys.argv[1:]
    if not 1 <= len(words) <= 3 or not all(word.isdecimal() for word in words[1:]):
        sys.exit(__doc__.split("\n\n")[1])
    if not ENGINE or not shutil.which("nginx"):
        sys.exit("replication.py: postgresql or nginx-light is missing")
    count, seed = [int(word) for word in words[1:]] + [1000, 1][len(words) - 1 :]
    with tempfile.TemporaryDirectory() as folder:
        os.chmod(folder, 0o755)
        trial = Trial(pathlib.Path(folder), os.path.abspath(words[0]), count, seed)
        try:
            trial.run()
        finally:
            trial.is_quiet.set()
            trial.end.set()
            trial.close()
    print("ok" if trial.wrong == 0 else f"failed: {trial.wrong}")
    sys.exit(trial.wrong > 0)


main()
