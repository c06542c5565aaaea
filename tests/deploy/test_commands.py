#!/usr/bin/python3
"""The commands of a batch as people write them (deploy/lib/commands.py)."""
import io
import os
import pathlib
import stat
import sys
import tempfile
import unittest

sys.path.insert(0, str(pathlib.Path(__file__).resolve().parents[1] / "lib"))

import loading  # noqa: F401
import commands
from administration import Answer


class Commands(unittest.TestCase):
    def setUp(self):
        folder = tempfile.TemporaryDirectory()
        self.addCleanup(folder.cleanup)
        self.table = os.path.join(folder.name, "new.csv")
        with open(self.table, "wb") as file:
            file.write(b"x,y\n1,2\n")

    def data(self, texts, standard_input=b""):
        return b"".join(command.data for command in commands.commands_of(texts, io.BytesIO(standard_input)))

    def test_each_command_is_a_line(self):
        self.assertEqual(self.data(["ON a b", "OFF c", "CLEAR d"]), b"ON a b\nOFF c\nCLEAR d\n")

    def test_a_table_follows_its_line_behind_its_length(self):
        self.assertEqual(self.data([f"APPEND {self.table} two  words", "ON a"]), b"APPEND 8 two  words\nx,y\n1,2\nON a\n")

    def test_a_table_may_come_on_standard_input(self):
        self.assertEqual(self.data(["APPEND - cities"], b"x,y\n"), b"APPEND 4 cities\nx,y\n")

    def test_commands_may_come_on_standard_input(self):
        # other characters that end lines elsewhere are those of a name
        read = f"ON a\r\nOFF b\u2028c\nAPPEND {self.table} d\n".encode()
        self.assertEqual(self.data(["CLEAR e", "-", "ON f"], read), "CLEAR e\nON a\nOFF b\u2028c\nAPPEND 8 d\nx,y\n1,2\nON f\n".encode())
        self.assertEqual(self.data(["-"], b"ON \xff"), b"ON \xff\n")

    def test_standard_input_is_read_once(self):
        for texts, read in ((["-", "APPEND - a"], b""), (["-", "-"], b""), (["-"], b"APPEND - a\n")):
            with self.assertRaises(commands.Unreadable):
                self.data(texts, read)

    def test_what_is_no_command_is_refused_before_it_is_sent(self):
        for text in ("ON a\nOFF b", "APPEND file.csv", f"APPEND {self.table}.missing a"):
            with self.assertRaises(commands.Unreadable, msg=text):
                self.data([text])

    def test_a_batch_has_at_most_4194304_bytes(self):
        # the line of APPEND has 17 bytes
        rest = 4_194_304 - 17
        self.assertEqual(len(self.data(["APPEND - a"], b"x" * rest)), 4_194_304)
        with self.assertRaises(commands.Unreadable):
            self.data(["APPEND - a"], b"x" * (rest + 1))


class Refusals(unittest.TestCase):
    """The sentence on a batch that a server refused."""

    def setUp(self):
        self.sent = [commands.Command("ON a", b"ON a\n"), commands.Command("APPEND b.csv c", b"APPEND 3 c\nx,y", b"x,y")]
        folder = tempfile.TemporaryDirectory()
        self.addCleanup(folder.cleanup)
        self.program = os.path.join(folder.name, "mapservd")

    def write(self, body):
        with open(self.program, "w", encoding="utf-8") as file:
            file.write("#!/bin/sh\n" + body)
        os.chmod(self.program, stat.S_IRWXU)

    def refusal(self, line, program=None):
        return commands.refusal(Answer(line), self.sent, ["long", "lat"], program)

    def test_the_command_is_named_by_its_number_and_text(self):
        self.assertEqual(self.refusal("REFUSED 1 2"), "command 1, ON a: no layer has the name; nothing has changed")

    def test_a_fault_of_the_whole_batch_names_no_command(self):
        self.assertEqual(self.refusal("REFUSED 0 7"), "a batch has at most 4,194,304 bytes; nothing has changed")
        self.assertEqual(self.refusal("REFUSED 3 1"), "an unknown word, or a command that can't be read; nothing has changed")

    def test_the_program_says_what_is_wrong_with_a_table(self):
        # it is given the table and the layer's columns, and its message comes without the place
        self.write("""grep -q '^x,y$' t.csv && grep -q 'CSV_X=long' t.map && grep -q 'CSV_Y=lat' t.map || exit 3
echo 'fault line 1 kind 9' >&2
echo 't.map:1: the file that DATA names is no table of points: row 2: no number' >&2
exit 1""")
        self.assertEqual(self.refusal("REFUSED 2 4", self.program), "command 2, APPEND b.csv c: row 2: no number; nothing has changed")

    def test_a_table_without_a_fault_may_be_read_by_other_columns(self):
        self.write("exit 0")
        self.assertIn("the table is one by the columns long and lat", self.refusal("REFUSED 2 4", self.program))

    def test_without_the_program_there_is_the_kind_alone(self):
        self.assertIn("no table of at most 200,000 rows (mapservd isn't there", self.refusal("REFUSED 2 4"))
        self.assertIn("can't be asked for more", self.refusal("REFUSED 2 4", self.program))


if __name__ == "__main__":
    unittest.main()
