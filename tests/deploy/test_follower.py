#!/usr/bin/python3
"""How a follower gives a server the batches of a log, and what it notes (deploy/lib/follower.py)."""
import json
import os
import pathlib
import sys
import tempfile
import unittest
from types import SimpleNamespace
from unittest import mock

sys.path.insert(0, str(pathlib.Path(__file__).resolve().parents[1] / "lib"))

import loading  # noqa: F401
import follower
from administration import Answer, Unanswered


class Log:
    """A log of batches from 1 on, and what answered them."""

    def __init__(self, *batches):
        self.entries = {number: SimpleNamespace(number=number, batch=batch, submission=f"s{number}") for number, batch in enumerate(batches, 1)}
        self.kept, self.sequences = {}, {}

    def entry(self, number):
        return self.entries.get(number)

    def number_at(self, sequence):
        return self.sequences.get(sequence)

    def settle(self, number, answer):
        if number not in self.kept:
            self.kept[number] = str(answer)
            if answer.word == "PUBLISHED":
                self.sequences[answer.numbers[0]] = number
        return self.kept[number]


class Machine:
    """A server: it refuses a batch that begins with NO. `faults` are what it does instead, one a call of a batch."""

    def __init__(self, sequence=0):
        self.sequence, self.faults, self.pending, self.given = sequence, [], None, []

    def __call__(self, address):
        return self

    def __enter__(self):
        return self

    def __exit__(self, *_):
        pass

    def retry(self):
        answer, self.pending = self.pending or "IDLE", None
        return Answer(answer)

    def batch(self, data):
        self.given.append(data)
        fault = self.faults.pop(0) if self.faults else None
        if fault in ("HELD", "NOMEMORY", "FAILED", "BUSY"):
            if fault == "HELD":
                self.sequence += 1
                self.pending = f"PUBLISHED {self.sequence}"
            return Answer(fault)
        if fault == "lost before":
            raise Unanswered("broke off", True)
        if data.startswith(b"NO"):
            return Answer("REFUSED 1 2")
        self.sequence += 1
        if fault == "lost after":
            raise Unanswered("broke off", True)
        return Answer(f"PUBLISHED {self.sequence}")


class Following(unittest.TestCase):
    def setUp(self):
        folder = tempfile.TemporaryDirectory()
        self.addCleanup(folder.cleanup)
        self.path, self.machine = os.path.join(folder.name, "8080.note"), Machine()
        for name, value in (("Administrator", self.machine), ("sequence_of", lambda *_: self.machine.sequence)):
            patch = mock.patch.object(follower, name, value)
            patch.start()
            self.addCleanup(patch.stop)

    def step(self, log):
        """One batch by a follower that begins with the note."""
        with follower.Server(("127.0.0.1", 8081), ("127.0.0.1", 8080), self.path) as server:
            return server.give(log, log.entry(server.note.number + 1))

    def note(self):
        with open(self.path, encoding="utf-8") as file:
            return json.load(file)

    def at(self, number, sequence, is_begun=False):
        self.assertEqual(self.note(), {"number": number, "submission": f"s{number}" if number else None, "sequence": sequence, "is_begun": is_begun})

    def test_batches_are_given_in_their_order_and_noted(self):
        log = Log(b"ON a", b"NO b", b"ON c")
        self.assertEqual([self.step(log) for _ in range(4)], [True, False, True, False])
        self.assertEqual(self.machine.given, [b"ON a", b"NO b", b"ON c"])
        self.assertEqual(log.kept, {1: "PUBLISHED 1", 2: "REFUSED 1 2", 3: "PUBLISHED 2"})
        self.at(3, 2)

    def test_a_batch_whose_answer_was_lost_is_given_once(self):
        log, self.machine.faults = Log(b"ON a", b"ON b"), [None, "lost after"]
        self.step(log)
        with self.assertRaises(follower.NotNow):
            self.step(log)
        self.at(1, 1, True)
        self.assertTrue(self.step(log))
        self.assertEqual((self.machine.given, log.kept[2]), ([b"ON a", b"ON b"], "PUBLISHED 2"))
        self.at(2, 2)

    def test_a_batch_that_was_lost_is_given_again(self):
        log, self.machine.faults = Log(b"ON a"), ["lost before"]
        with self.assertRaises(follower.NotNow):
            self.step(log)
        self.assertTrue(self.step(log))
        self.assertEqual(self.machine.given, [b"ON a", b"ON a"])
        self.at(1, 1)

    def test_what_is_held_is_published(self):
        log, self.machine.faults = Log(b"ON a", b"ON b"), [None, "HELD"]
        self.assertEqual([self.step(log), self.step(log)], [True, True])
        self.assertEqual(log.kept[2], "PUBLISHED 2")
        self.at(2, 2)

    def test_a_server_without_memory_or_journal_is_waited_for(self):
        for fault in ("NOMEMORY", "FAILED", "BUSY"):
            self.machine.faults = [fault]
            with self.assertRaises(follower.NotNow):
                self.step(Log(b"ON a"))

    def test_a_server_that_begins_anew_gets_all_batches(self):
        log = Log(b"ON a", b"NO b", b"ON c")
        for _ in range(3):
            self.step(log)
        self.machine.sequence = 0
        self.assertTrue(self.step(log))
        self.at(0, 0)
        for _ in range(3):
            self.step(log)
        self.at(3, 2)

    def test_a_server_with_an_older_journal_gets_the_rest(self):
        log = Log(b"NO a", b"ON b", b"ON c")
        for _ in range(3):
            self.step(log)
        self.machine.sequence = 1
        self.assertTrue(self.step(log))
        self.at(2, 1)
        self.step(log)
        self.assertEqual(self.machine.given[-1], b"ON c")
        self.at(3, 2)

    def differs(self, log):
        with self.assertRaises(follower.Differs) as found:
            self.step(log)
        return str(found.exception)

    def test_a_server_that_others_change_differs(self):
        log = Log(b"ON a")
        self.machine.sequence = 5
        self.assertIn("has the sequence 5", self.differs(log))
        # one more than was noted, and nothing was sent
        self.machine.sequence = 1
        self.assertIn("has the sequence 1", self.differs(log))

    def test_another_answer_than_the_first_servers_differs(self):
        log = Log(b"NO a")
        log.kept[1] = "PUBLISHED 1"
        self.assertIn("another server answered PUBLISHED 1", self.differs(log))

    def test_a_note_of_another_log_differs(self):
        self.step(Log(b"ON a"))
        other = Log(b"ON b", b"ON c")
        other.entries[1].submission = "t1"
        self.assertIn("is of another log", self.differs(other))
        self.assertIn("is of another log", self.differs(Log()))

    def test_a_note_and_its_folder_are_synced_before_anything_goes_on(self):
        steps, sync, rename = [], os.fsync, os.rename

        def synced(handle):
            steps.append(("sync", os.readlink(f"/proc/self/fd/{handle}")))
            sync(handle)

        def renamed(before, after):
            with open(before, encoding="utf-8") as file:
                steps.append(("rename", after, json.load(file)["is_begun"]))
            rename(before, after)

        with follower.Server(None, None, self.path) as server, mock.patch.object(os, "fsync", synced), mock.patch.object(os, "rename", renamed):
            server.note.keep(is_begun=True)
        path = os.path.realpath(self.path)
        self.assertEqual(steps, [("sync", f"{path}.new"), ("rename", self.path, True), ("sync", os.path.dirname(path))])

    def test_one_follower_runs_by_a_note(self):
        with follower.Server(None, None, self.path):
            with self.assertRaises(follower.InUse):
                follower.Server(None, None, self.path)


if __name__ == "__main__":
    unittest.main()
