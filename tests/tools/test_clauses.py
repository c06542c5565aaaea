#!/usr/bin/python3
"""What tools/clauses.py counts, and that no contract of the repository has a clause above its limits."""
import pathlib
import sys
import unittest

sys.path.insert(0, str(pathlib.Path(__file__).resolve().parents[1] / "lib"))

import loading

clauses = loading.script("tools/clauses.py")


class Reading(unittest.TestCase):
    def test_a_clause_lasts_to_the_brace_that_closes_it(self):
        text = "fn f()\n    requires { a }\n    ensures b { record { c = d }\n        e }\n{\n    g\n}\n"
        self.assertEqual(list(clauses.clauses_of(text)), [(2, " a "), (3, " record { c = d }\n        e ")])


class Limits(unittest.TestCase):
    def test_runs_of_blanks_count_once(self):
        self.assertFalse(clauses.is_long(f" {125 * 'a'}\n        {124 * 'b'} "))
        self.assertTrue(clauses.is_long(f" {125 * 'a'}\n        {125 * 'b'} "))

    def test_five_lines_are_the_most(self):
        self.assertFalse(clauses.is_long(" a\nb\nc\nd\ne\n "))
        self.assertTrue(clauses.is_long(" a\nb\nc\nd\ne\nf "))

    def test_the_repository_has_none_above_them(self):
        count, found = clauses.long_ones()
        self.assertGreater(count, 5_000)
        self.assertEqual(found, [])


if __name__ == "__main__":
    unittest.main()
