#!/usr/bin/python3
"""What deploy/batch makes of its arguments and of a server's answers."""
import contextlib
import io
import pathlib
import sys
import unittest
from unittest import mock

sys.path.insert(0, str(pathlib.Path(__file__).resolve().parents[1] / "lib"))

import loading
import administration

batch = loading.script("deploy/batch")
PUBLISHED, REFUSED, UNANSWERED, PENDING, KEPT = 0, 1, 2, 3, 4


class Server:
    """Stands in for the connection to a server: it gives its answers one after the other, and keeps what it was sent."""

    def __init__(self, *answers):
        self.answers, self.sent = list(answers), []

    def __call__(self, address):
        self.sent.append(address)
        return self

    def __enter__(self):
        return self

    def __exit__(self, *_):
        pass

    def next(self, what):
        self.sent.append(what)
        answer = self.answers.pop(0)
        if isinstance(answer, Exception):
            raise answer
        return administration.Answer(answer)

    def batch(self, data):
        return self.next(data)

    def retry(self):
        return self.next("RETRY")


def run(words, *answers, emptied=True):
    """The exit status, what was written to both streams, and what the server was sent."""
    server, out, errors = Server(*answers), io.StringIO(), io.StringIO()
    with mock.patch.object(administration, "Administrator", server), mock.patch.object(batch, "PAUSE", 0), \
            mock.patch.object(batch, "empty", lambda folder: emptied), mock.patch("sys.argv", ["batch", *words]), \
            contextlib.redirect_stdout(out), contextlib.redirect_stderr(errors):
        try:
            batch.main()
        except SystemExit as ended:
            return ended.code, out.getvalue(), errors.getvalue(), server.sent
    return None


class Outcomes(unittest.TestCase):
    def test_a_batch_is_sent_whole_and_its_sequence_printed(self):
        status, out, _, sent = run(["10.0.0.7:8081", "ON a", "OFF b c"], "PUBLISHED 41")
        self.assertEqual((status, out, sent), (PUBLISHED, "PUBLISHED 41\n", [("10.0.0.7", 8081), b"ON a\nOFF b c\n"]))

    def test_a_status_for_each_answer(self):
        rows = [("REFUSED 1 2", REFUSED), ("MALFORMED", REFUSED), ("NOMEMORY", PENDING), ("FAILED", PENDING), ("BUSY", PENDING), ("IDLE", PUBLISHED)]
        for answer, status in rows:
            self.assertEqual(run(["8081", "ON a"], answer)[0], status, answer)

    def test_what_is_held_is_tried_again(self):
        status, out, _, sent = run(["8081", "ON a"], "HELD", "HELD", "PUBLISHED 5")
        self.assertEqual((status, out, sent[1:]), (PUBLISHED, "PUBLISHED 5\n", [b"ON a\n", "RETRY", "RETRY"]))

    def test_what_stays_held_is_pending_after_20_tries(self):
        status, _, _, sent = run(["8081", "ON a"], *["HELD"] * 21)
        self.assertEqual((status, sent.count("RETRY")), (PENDING, 20))

    def test_retry_alone_is_no_batch(self):
        self.assertEqual(run(["8081", "RETRY"], "IDLE")[3][1:], ["RETRY"])
        self.assertEqual(run(["8081", "RETRY", "ON a"], "REFUSED 1 1")[3][1:], [b"RETRY\nON a\n"])

    def test_an_answer_that_is_lost_leaves_open_what_was_done(self):
        status, _, errors, _ = run(["8081", "ON a"], administration.Unanswered("it broke off", True))
        self.assertEqual(status, UNANSWERED)
        self.assertIn("whether the batch was accepted isn't known", errors)
        status, _, errors, _ = run(["8081", "ON a"], administration.Unanswered("nobody is there"))
        self.assertEqual((status, errors), (UNANSWERED, "batch: nobody is there\n"))

    def test_what_cannot_be_sent_is_refused(self):
        status, _, errors, sent = run(["8081", "APPEND missing.csv"])
        self.assertEqual((status, sent), (REFUSED, []))
        self.assertTrue(errors.endswith("; nothing was sent\n"))

    def test_a_proxy_that_keeps_its_pictures_is_told_by_the_status(self):
        self.assertEqual(run(["8081", "ON a", "--proxy", "f"], "PUBLISHED 2", emptied=False)[0], KEPT)
        self.assertEqual(run(["8081", "ON a", "--proxy", "f"], "PUBLISHED 2", emptied=True)[0], PUBLISHED)
        # there is nothing to forget
        self.assertEqual(run(["8081", "ON a", "--proxy", "f"], "REFUSED 1 2", emptied=False)[0], REFUSED)


class Arguments(unittest.TestCase):
    def test_wrong_arguments_end_with_2(self):
        for words in ([], ["8081"], ["ON a"], ["0", "ON a"], ["8081", "ON a", "--columns", "x"], ["8081", "ON a", "--columns", "x,"]):
            self.assertEqual(run(words)[0], UNANSWERED, words)

    def test_columns_are_two_names(self):
        self.assertEqual(batch.options_of(["8081", "ON a", "--columns", "long,lat"]).columns, ["long", "lat"])
        self.assertEqual(batch.options_of(["8081", "ON a"]).columns, ["x", "y"])

    def test_with_a_log_all_words_are_commands(self):
        options = batch.options_of(["ON a", "OFF b", "--log", "dbname=maps"])
        self.assertEqual((options.words, options.address, options.wait), (["ON a", "OFF b"], None, 60))
        self.assertEqual(run(["RETRY", "--log", "dbname=maps"])[0], REFUSED)


if __name__ == "__main__":
    unittest.main()
