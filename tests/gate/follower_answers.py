#!/usr/bin/env python3
"""Tries what a follower of deploy/replicate makes of each answer, by a server and a log that are played here.

Usage: follower_answers.py

The server's answers are written down below: it also ends a connection before or after it has accepted a batch, and starts
again without its batches. Looked at are the note at the end, what the log has of each batch, and why the follower waited
or stopped. It ends with 1 where something is otherwise.

Gate: 1 s
"""
import os
import pathlib
import socket
import sys
import tempfile
import threading

sys.dont_write_bytecode = True
sys.path.insert(0, str(pathlib.Path(__file__).resolve().parents[2] / "deploy" / "lib"))

import follower

NO_LINE = "ended the connection without an answer"
# The answers to batches, and of a held one to RETRY: ok accepts a batch, lost does and says nothing, restart forgets all.
# Then the batches of the log, what it has of each at the end, and how the reasons end for which the follower waited.
TRIED = [
    ("ok NOMEMORY ok REFUSED+1+2 ok", 4, ["PUBLISHED 1", "PUBLISHED 2", "REFUSED 1 2", "PUBLISHED 3"], ["has no memory for a batch"]),
    ("HELD HELD HELD ok ok", 2, ["PUBLISHED 1", "PUBLISHED 2"], ["has no memory to show a batch that it accepted"] * 2),
    ("ok FAILED ok", 2, ["PUBLISHED 1", "PUBLISHED 2"], ["can't write its journal, and has to be started again"]),
    ("ok lost ok", 3, ["PUBLISHED 1", "PUBLISHED 2", "PUBLISHED 3"], [NO_LINE]),
    ("REFUSED+1+1 lost ok", 3, ["REFUSED 1 1", "PUBLISHED 1", "PUBLISHED 2"], [NO_LINE]),
    ("ok ok restart ok ok REFUSED+2+2 ok", 4, ["PUBLISHED 1", "PUBLISHED 2", "REFUSED 2 2", "PUBLISHED 3"], [NO_LINE]),
    ("ok PUBLISHED+7", 2, ["PUBLISHED 1", None], ["stops: the server answers PUBLISHED 7 to the batch 2 of the log at the sequence 1"]),
    ("ok MALFORMED", 2, ["PUBLISHED 1", None], ["stops: the server answers MALFORMED to the batch 2 of the log at the sequence 1"]),
    ("ok restart REFUSED+1+2", 2, ["PUBLISHED 1", None], [NO_LINE, "stops: the server answers REFUSED 1 2 to the batch 1 of the log, and another server answered PUBLISHED 1: they don't serve the same files"]),
]


class Server:
    """Plays a server that gives these answers."""

    def __init__(self, answers):
        self.answers, self.sequence, self.pending = answers.split(), 0, 0
        self.admin, self.clients = (socket.create_server(("127.0.0.1", 0)) for _ in range(2))
        for serve in (self.administer, self.inform):
            threading.Thread(target=serve, daemon=True).start()

    def inform(self):
        while True:
            stream, _ = self.clients.accept()
            with stream:
                stream.recv(65_536)
                body = b'<WMS_Capabilities version="1.3.0" updateSequence="%d">' % self.sequence
                stream.sendall(b"HTTP/1.1 200 OK\r\nContent-Length: %d\r\nConnection: close\r\n\r\n%s" % (len(body), body))

    def administer(self):
        while True:
            stream, _ = self.admin.accept()
            with stream, stream.makefile("rb") as lines:
                while (line := lines.readline()) and (answer := self.answer(line, lines)):
                    stream.sendall(answer.encode() + b"\n")

    def answer(self, line, lines):
        """The line that answers a command; nothing where the connection ends."""
        if line == b"RETRY\n" and not self.pending:
            return "IDLE"
        is_batch = line.startswith(b"BATCH ")
        if is_batch:
            lines.read(int(line.split()[1]))
        answer = self.answers.pop(0)
        if answer == "restart":
            self.sequence = 0
        elif answer in ("ok", "lost"):
            self.sequence += 1
            self.pending = 0
        elif answer == "HELD":
            self.pending = 1
        return None if answer in ("restart", "lost") else f"PUBLISHED {self.sequence}" if answer == "ok" else answer.replace("+", " ")


class Entry:
    def __init__(self, number):
        self.number, self.batch, self.submission, self.answer = number, b"", str(number), None


class Log:
    """The log, as far as a follower asks it."""

    def __init__(self, count):
        self.entries = {number: Entry(number) for number in range(1, count + 1)}

    def entry(self, number):
        return self.entries.get(number)

    def number_at(self, sequence):
        return next((entry.number for entry in self.entries.values() if entry.answer == f"PUBLISHED {sequence}"), None)

    def settle(self, number, answer):
        entry = self.entries[number]
        entry.answer = entry.answer or str(answer)
        return entry.answer


def followed(answers, count, path):
    """What the log has at the end, the note, and why the follower waited or stopped."""
    played, log, reasons = Server(answers), Log(count), []
    with follower.Server(played.admin.getsockname(), played.clients.getsockname(), path) as server:
        while (entry := log.entry(server.note.number + 1)) and len(reasons) < 10:
            try:
                server.give(log, entry)
            except follower.NotNow as why:
                reasons.append(str(why))
            except follower.Differs as why:
                reasons.append(f"stops: {why}")
                break
        note = follower.Note(path)
    return [entry.answer for entry in log.entries.values()], (note.number, note.sequence), reasons


def main():
    wrong = 0
    for answers, count, lines, reasons in TRIED:
        with tempfile.TemporaryDirectory() as folder:
            found, note, waited = followed(answers, count, os.path.join(folder, "note"))
        answered = [line for line in lines if line]
        is_at_end = note == (len(answered), sum(line.startswith("PUBLISHED") for line in answered)) or "restart REFUSED" in answers
        if found[: len(lines)] != lines or not is_at_end or len(waited) != len(reasons) or not all(map(str.endswith, waited, reasons)):
            wrong += 1
            print(f"{answers}: {found}, {note}, {waited}")
    print("ok" if wrong == 0 else f"failed: {wrong}")
    sys.exit(wrong > 0)


main()
