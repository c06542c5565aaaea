#!/usr/bin/python3
"""What tools/gate_minutes.py says of a gate."""
import pathlib
import sys
import unittest

sys.path.insert(0, str(pathlib.Path(__file__).resolve().parents[1] / "lib"))

import loading

minutes = loading.script("tools/gate_minutes.py")
LINES = ["# Ground", "base: thiserror", "side: base", "middle: base hex", "top: side middle", "apart:"]
# crate, kind and seconds of processes
SEEN = {
    ("1", "10"): (("base", "proofs"), 120.0),
    ("2", "20"): (("base", "edits"), 90.0),
    ("3", "30"): (("side", "proofs"), 30.0),
    ("4", "40"): (("middle", "proofs"), 240.0),
    ("5", "50"): (("middle", "proofs"), 60.0),
    ("6", "60"): (("top", "proofs"), 180.0),
    ("7", "70"): (("apart", "tests"), 540.0),
}


class Minutes(unittest.TestCase):
    def setUp(self):
        self.sums = minutes.sums_of(SEEN)

    def test_processes_of_a_crate_and_kind_are_added_up(self):
        self.assertEqual(self.sums["proofs", "middle"], 5)
        self.assertEqual(self.sums["edits", "base"], 1.5)

    def test_the_longest_chain_is_of_crates_on_each_other(self):
        self.assertEqual(minutes.longest_chain(self.sums, LINES), (10, ["base", "middle", "top"]))

    def test_the_end_says_minutes_by_kind_and_the_chain(self):
        self.assertEqual(minutes.summary(self.sums, 7.4, LINES).splitlines(), [
            "minutes of processor: 21, proofs 10, tests 9, edits 2, other 0; by the clock 7",
            "longest chain of proofs: 10 minutes, base, middle, top",
        ])

    def test_the_table_has_each_crate(self):
        self.assertIn("proofs\tside\t0.5\n", minutes.table(self.sums, 7))


if __name__ == "__main__":
    unittest.main()
