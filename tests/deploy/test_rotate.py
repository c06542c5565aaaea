#!/usr/bin/python3
"""How deploy/rotate reads a journal, and which batches it writes, by "Journal" and "Batches" of docs/SERVICE.md."""
import hashlib
import os
import pathlib
import subprocess
import sys
import tempfile
import unittest

sys.path.insert(0, str(pathlib.Path(__file__).resolve().parents[1] / "lib"))

import loading
import commands

rotate = loading.script("deploy/rotate")
FINGERPRINT = bytes(range(200, 232))


def frame(body):
    """A frame of SLIP (RFC 1055), byte by byte."""
    escaped = b"".join({192: b"\xdb\xdc", 219: b"\xdb\xdd"}.get(byte, bytes([byte])) for byte in body)
    return b"\xc0" + escaped + b"\xc0"


def record(number, batch, fingerprint=FINGERPRINT):
    body = number.to_bytes(8, "big") + batch
    return frame(body + hashlib.sha256(fingerprint + body).digest())


def journal(*batches):
    return b"KESMOCH JOURNAL 1\n" + FINGERPRINT + b"".join(record(number, batch) for number, batch in enumerate(batches, 1))


class Journals(unittest.TestCase):
    def setUp(self):
        folder = tempfile.TemporaryDirectory()
        self.addCleanup(folder.cleanup)
        self.folder = folder.name

    def batches(self, data):
        path = os.path.join(self.folder, "a.journal")
        with open(path, "wb") as file:
            file.write(data)
        return rotate.batches_of(path)

    def test_records_are_read_in_their_order(self):
        # both bytes that a frame escapes, and those that stand for them; an empty batch is one
        odd = b"ON \xc0\xdb\xdc\xdd\xdb\xdb\xc0\n"
        self.assertEqual(self.batches(journal(b"ON a\n", odd, b"")), [b"ON a\n", odd, b""])
        self.assertEqual(self.batches(journal()), [])

    def test_many_records_have_numbers_of_two_bytes(self):
        batches = [b"ON %d\n" % number for number in range(300)]
        self.assertEqual(self.batches(journal(*batches)), batches)

    def test_a_torn_tail_is_left_out(self):
        whole, last = journal(b"ON a\n"), record(2, b"OFF bcd\n")
        for size in range(len(last)):
            self.assertEqual(self.batches(whole + last[:size]), [b"ON a\n"], size)
        self.assertEqual(self.batches(whole + last[1:]), [b"ON a\n"])
        self.assertEqual(self.batches(whole + b"\0" * 99), [b"ON a\n"])

    def test_a_changed_byte_before_a_whole_record_is_damage(self):
        data = journal(b"ON a\n", b"OFF bcd\n", b"CLEAR e\n")
        begin, end = len(journal(b"ON a\n")), len(journal(b"ON a\n", b"OFF bcd\n"))
        for at in range(begin, end):
            with self.assertRaises(rotate.Unreadable, msg=at):
                self.batches(data[:at] + bytes([data[at] ^ 1]) + data[at + 1 :])

    def test_a_record_of_another_number_or_map_is_none(self):
        self.assertEqual(self.batches(journal(b"ON a\n") + record(2, b"ON b\n", b"x" * 32)), [b"ON a\n"])
        with self.assertRaises(rotate.Unreadable):
            self.batches(journal(b"ON a\n") + record(3, b"ON b\n"))

    def test_another_file_is_no_journal(self):
        for data in (b"", b"KESMOCH JOURNAL 1\n" + FINGERPRINT[:31], b"KESMOCH JOURNAL 4\n" + FINGERPRINT):
            with self.assertRaisesRegex(rotate.Unreadable, "is no journal"):
                self.batches(data)
        with self.assertRaisesRegex(rotate.Unreadable, "of an earlier form"):
            self.batches(b"KESMOCH JOURNAL 2\n" + FINGERPRINT + (3).to_bytes(8, "big"))

    def test_a_compacted_journal_has_a_longer_name_and_its_digest(self):
        name = (70_000).to_bytes(8, "big") + (1).to_bytes(8, "big") + FINGERPRINT
        begin = b"KESMOCH JOURNAL 3\n" + name + hashlib.sha256(name).digest()
        first = begin + record(1, b"ON a\n", name)
        self.assertEqual(self.batches(first), [b"ON a\n"])
        self.assertEqual(self.batches(first + record(2, b"CLEAR bc\n", name)), [b"ON a\n", b"CLEAR bc\n"])
        self.assertEqual(self.batches(first + record(2, b"CLEAR bc\n", name)[:-1]), [b"ON a\n"])
        # the batch that was written with the header is there; a record of the map before it was compacted is none of it
        for data in (begin, first[:-1], begin + record(1, b"ON a\n"), begin + record(2, b"ON a\n", name)):
            with self.assertRaisesRegex(rotate.Unreadable, "is damaged after record 0"):
                self.batches(data)

    def test_each_changed_byte_of_a_compacted_header_is_damage(self):
        name = (5).to_bytes(8, "big") + bytes(8) + FINGERPRINT
        data = b"KESMOCH JOURNAL 3\n" + name + hashlib.sha256(name).digest()
        self.assertEqual(self.batches(data), [])
        for at in range(18, len(data)):
            with self.assertRaisesRegex(rotate.Unreadable, "the header of .* is damaged", msg=at):
                self.batches(data[:at] + bytes([data[at] ^ 1]) + data[at + 1 :])
            with self.assertRaisesRegex(rotate.Unreadable, "the header of .* is damaged", msg=at):
                self.batches(data[:at])


class Layers(unittest.TestCase):
    def played(self, *batches):
        layers = {}
        for batch in batches:
            rotate.play(batch, layers)
        return [command for name, layer in layers.items() for command in layer.commands(name)]

    def test_the_last_switch_counts(self):
        self.assertEqual(self.played(b"OFF a\nON b\n", b"ON a\r\n"), [(b"ON a", None), (b"ON b", None)])

    def test_tables_since_a_layer_was_emptied_are_kept_in_their_order(self):
        batches = b"APPEND 4 a b\nx,y\nOFF a b\n", b"CLEAR a b\nAPPEND 5 a b\nx\nON APPEND 3 a b\nx\ny"
        self.assertEqual(self.played(*batches), [(b"CLEAR a b", None), (b"a b", b"x\nON "), (b"a b", b"x\ny"), (b"OFF a b", None)])

    def test_a_table_may_look_like_commands_and_be_empty(self):
        self.assertEqual(self.played(b"APPEND 6 a\nOFF a\nAPPEND 0 a\n"), [(b"a", b"OFF a\n"), (b"a", b"")])

    def test_batches_have_at_most_4194304_bytes(self):
        # 'APPEND 2097138 a' and an LF have 17 bytes, 'APPEND 2097130 aa' 18
        half = (b"a", b"x" * (2_097_152 - 17))
        self.assertEqual([len(part) for part in rotate.parted([half, half])], [2])
        self.assertEqual([len(part) for part in rotate.parted([half, (b"aa", half[1])])], [1, 1])
        self.assertEqual([len(part) for part in rotate.parted([half, half, (b"ON a", None)])], [2, 1])
        self.assertEqual(rotate.parted([]), [])


class Written(unittest.TestCase):
    def test_the_batches_that_are_written_are_read_as_they_are_meant(self):
        with tempfile.TemporaryDirectory() as folder:
            path, out = os.path.join(folder, "a.journal"), os.path.join(folder, "out")
            with open(path, "wb") as file:
                file.write(journal(b"ON b\nAPPEND 3 a\nx,y", b"CLEAR c\nOFF b\n", b"APPEND 5 a\nx,y\n1"))
            words = [sys.executable, os.path.join(loading.TOP, "deploy", "rotate"), path, out]
            ran = subprocess.run(words, capture_output=True, text=True)
            self.assertEqual((ran.returncode, ran.stdout), (0, "3 batches, 1 now\n"))
            self.assertEqual(sorted(os.listdir(out)), ["1.commands", "1.csv", "2.csv"])
            with open(os.path.join(out, "1.commands"), "rb") as file:
                sent = commands.commands_of(["-"], file)
            self.assertEqual(b"".join(command.data for command in sent), b"OFF b\nAPPEND 3 a\nx,yAPPEND 5 a\nx,y\n1CLEAR c\n")
            # the folder is there now
            self.assertEqual(subprocess.run(words, capture_output=True).returncode, 1)


if __name__ == "__main__":
    unittest.main()
