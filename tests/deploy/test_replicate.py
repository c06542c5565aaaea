#!/usr/bin/python3
"""What deploy/replicate and the log of batches decide (deploy/lib/batchlog.py), with a stand-in for PostgreSQL."""
import hashlib
import pathlib
import sys
import unittest
from types import SimpleNamespace
from unittest import mock

sys.path.insert(0, str(pathlib.Path(__file__).resolve().parents[1] / "lib"))

import loading

loading.has_package("psycopg2", "errors", Error=type("Error", (Exception,), {}), Binary=bytes)
import psycopg2

for name in ("UniqueViolation", "UndefinedTable", "InsufficientPrivilege"):
    if not hasattr(psycopg2.errors, name):
        setattr(psycopg2.errors, name, type(name, (psycopg2.Error,), {}))

import batchlog
from administration import Answer, Unanswered

replicate = loading.script("deploy/replicate")


class Entries(unittest.TestCase):
    def test_the_line_of_an_answer(self):
        self.assertEqual([batchlog.line_of(7, None), batchlog.line_of(None, "3 2"), batchlog.line_of(None, None)], ["PUBLISHED 7", "REFUSED 3 2", None])

    def test_a_batch_has_the_digest_of_its_bytes(self):
        digest = memoryview(hashlib.sha256(b"ON a").digest())
        entry = batchlog.Entry(4, memoryview(b"ON a"), digest, "s", None, None)
        self.assertEqual((entry.number, entry.batch, entry.submission, entry.answer), (4, b"ON a", "s", None))
        with self.assertRaises(Unanswered):
            batchlog.Entry(4, memoryview(b"ON b"), digest, "s", None, None)


class Connection:
    """A connection to an engine: it answers statements from a list of rows or faults, and keeps them."""

    def __init__(self, *answers):
        self.answers, self.asked, self.autocommit = list(answers), [], False

    def __call__(self, dsn, connect_timeout):
        return self

    def cursor(self):
        return self

    def __enter__(self):
        return self

    def __exit__(self, *_):
        pass

    def close(self):
        pass

    def execute(self, words, values):
        # psycopg2 wraps the bytes of a Binary, and gives them back as `adapted`
        self.asked.append((words.split()[0], *(getattr(value, "adapted", value) for value in values)))
        self.answer = self.answers.pop(0)
        self.description = self.answer
        if isinstance(self.answer, Exception):
            raise self.answer

    def fetchall(self):
        return self.answer


class Appending(unittest.TestCase):
    def log(self, *answers):
        self.connection = Connection(*answers)
        with mock.patch.object(batchlog.psycopg2, "connect", self.connection, create=True):
            return batchlog.Log("dbname=maps")

    def test_a_number_that_is_taken_meanwhile_is_tried_again(self):
        log = self.log(None, [], psycopg2.errors.UniqueViolation(), [], [(8,)])
        self.assertEqual(log.append(b"ON a", "s"), 8)
        self.assertEqual([asked[0] for asked in self.connection.asked], ["SET", "SELECT", "INSERT", "SELECT", "INSERT"])
        self.assertEqual(self.connection.asked[-1][1:], (b"ON a", hashlib.sha256(b"ON a").digest(), "s"))

    def test_a_submission_has_one_number(self):
        self.assertEqual(self.log(None, [(7,)]).append(b"ON a", "s"), 7)

    def test_an_answer_is_kept_where_none_is(self):
        log = self.log(None, [(5, None)])
        self.assertEqual(log.settle(3, Answer("PUBLISHED 6")), "PUBLISHED 5")
        self.assertEqual(self.connection.asked[0], ("UPDATE", 6, None, 3))
        self.log(None, [(None, "1 2")]).settle(3, Answer("REFUSED 1 2"))
        self.assertEqual(self.connection.asked[0], ("UPDATE", None, "1 2", 3))

    def test_faults_of_the_engine_are_told_apart(self):
        rows = [(psycopg2.errors.UndefinedTable(), batchlog.NoLog), (psycopg2.errors.InsufficientPrivilege(), batchlog.NoLog), (psycopg2.Error("gone"), Unanswered)]
        for fault, kind in rows:
            with self.assertRaises(kind):
                self.log(fault).entry(1)

    def test_a_batch_is_sent_again_by_its_submission(self):
        asked = []

        class Breaking(SimpleNamespace):
            def __enter__(self):
                return self

            def __exit__(self, *_):
                pass

            def append(self, batch, submission):
                asked.append(submission)
                if len(asked) < 3:
                    raise Unanswered("broke off", True)
                return 9

        with mock.patch.object(batchlog, "Log", lambda dsn: Breaking()), mock.patch.object(batchlog.time, "sleep"):
            self.assertEqual(batchlog.append("dbname=maps", b"ON a"), 9)
        self.assertEqual(asked, [asked[0]] * 3)

    def test_an_engine_that_does_not_answer_at_all_is_not_waited_for(self):
        with mock.patch.object(batchlog, "Log", mock.Mock(side_effect=Unanswered("no"))) as made:
            with self.assertRaises(Unanswered) as found:
                batchlog.append("dbname=maps", b"ON a")
        self.assertEqual((made.call_count, found.exception.is_open), (1, False))


class Engine:
    """An engine in which the first server answers a batch right behind the first look for its answer; whoever listens then hears of it."""

    def __init__(self):
        self.looks, self.is_listening, self.is_heard, self.seconds = 0, False, False, 0.0

    def __call__(self, dsn):
        return self

    def __enter__(self):
        return self

    def __exit__(self, *_):
        pass

    def listen(self, channel):
        self.is_listening = channel == "kesmoch_answer"

    def answer(self, number):
        self.looks += 1
        if self.looks == 1:
            self.is_heard = self.is_listening
            return None
        return "PUBLISHED 3"

    def wait(self, seconds):
        """All of the time passes where nothing was heard."""
        if not self.is_heard:
            self.seconds += seconds
        self.is_heard = False


class Submitting(unittest.TestCase):
    def test_an_answer_between_the_look_and_the_wait_is_heard(self):
        engine = Engine()
        with mock.patch.object(batchlog, "Log", engine), mock.patch.object(batchlog, "append", lambda dsn, batch: 4), \
                mock.patch.object(batchlog.time, "monotonic", lambda: 100 + engine.seconds), mock.patch.object(batchlog.time, "sleep"):
            found = batchlog.submit("dbname=maps", b"ON a", 60)
        self.assertEqual((found, engine.seconds), ((4, "PUBLISHED 3"), 0))


class Proxies(unittest.TestCase):
    """When the proxy forgets its pictures."""

    def emptied(self, *steps):
        """How often at each step: a change, or a rest at a second."""
        proxy, counts = replicate.Proxy("folder"), []
        with mock.patch.object(replicate.subprocess, "run") as run, mock.patch.object(replicate.time, "monotonic") as clock:
            for seconds, is_change, is_last in steps:
                clock.return_value = 100 + seconds
                if is_change:
                    proxy.change()
                proxy.rest(is_last)
                counts.append(run.call_count)
        return counts

    def test_it_forgets_them_at_the_last_batch(self):
        self.assertEqual(self.emptied((0, True, False), (1, True, True), (2, False, True)), [0, 1, 1])

    def test_it_forgets_them_each_five_seconds_meanwhile(self):
        steps = [(second, True, False) for second in (0, 3, 5, 6, 8, 12, 14)]
        self.assertEqual(self.emptied(*steps), [0, 0, 0, 1, 1, 1, 2])

    def test_without_a_change_it_keeps_them(self):
        self.assertEqual(self.emptied((0, False, True), (9, False, False)), [0, 0])


class Arguments(unittest.TestCase):
    def test_the_port_of_clients_is_the_one_before(self):
        options = replicate.options_of(["follow", "dbname=maps", "--admin", "10.0.0.7:8091"])
        self.assertEqual((options.admin, options.clients, options.note), (("10.0.0.7", 8091), ("10.0.0.7", 8090), "replicate-8091.note"))

    def test_another_port_of_clients_and_note_may_be_named(self):
        options = replicate.options_of(["follow", "d", "--admin", "8091", "--clients", "maps.example:70", "--note", "n"])
        self.assertEqual((options.clients, options.note), (("maps.example", 70), "n"))

    def test_wrong_addresses_end_with_2(self):
        for address in ("host", "0"):
            with self.assertRaises(SystemExit) as ended, mock.patch("sys.stderr"):
                replicate.options_of(["follow", "d", "--admin", address])
            self.assertEqual(ended.exception.code, 2)


class Waiting(unittest.TestCase):
    def test_what_is_waited_for_is_said_once(self):
        trouble = replicate.Trouble()
        with mock.patch.object(replicate, "say") as say, mock.patch.object(replicate.time, "sleep") as sleep:
            for words in ("no memory", "no memory", "no disk"):
                trouble.begin(words)
            trouble.end("sequence 3")
            trouble.end("sequence 4")
        self.assertEqual([call.args[0] for call in say.call_args_list], ["waits: no memory", "waits: no disk", "goes on, sequence 3"])
        self.assertEqual(sleep.call_count, 3)


if __name__ == "__main__":
    unittest.main()
